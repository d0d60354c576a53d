/* The file as it stands now: reads a session of the office program from standard input (a rights file, a line `end=`, then edits) and prints the file
   that has the edits in it, so that Monday's file and the week's edits give Friday's file. Requests (`try=`) among the edits are passed over.

   Status 0 if the file is printed and has every edit in it. Else status 1, and one line on standard error for each thing that went wrong, with the
   line of the input where there is one. A refused edit is told and left out, and the file is printed all the same: a refused edit changes nothing on
   the lift computers either, so this is the file that they stand at, and a list of edits that has one in it can still be used. A line that is neither
   an edit nor a request is told and left out too, as it may be an edit that lost its sign. Nothing is printed where the input cannot be read or has
   more than 65,536 bytes, which is the office program's limit, or the file is refused, before the edits or behind them (18). Status 2 if misused. */
#include "zhulmekov.h"

#include <signal.h>
#include <stdio.h>
#include <stdlib.h>
#include <string.h>

enum { INPUT = 65536, FILE_BYTES = 32768 };

static uint8_t input[INPUT + 1]; /* one more than a session may have, so that a longer one is refused and not cut */
static uint64_t book[ZHUL_BOOK_WORDS], table[ZHUL_TABLE_WORDS];
static uint8_t rules[ZHUL_RULES_BYTES];
static int status; /* 1 once something was told */

static void tell(const char *what) {
    fprintf(stderr, "present: %s\n", what);
    status = 1;
}

static void tell_refused(unsigned long line, const char *what, uint64_t answer) {
    fprintf(stderr, "present: line %lu: %s is refused: %u\n", line, what, (unsigned)ZHUL_NUMBER(answer));
    status = 1;
}

static void tell_left_out(unsigned long line) {
    fprintf(stderr, "present: line %lu is neither an edit nor a request: it is left out\n", line);
    status = 1;
}

/* Says by how much, so that who takes ties away knows when to stop. */
static void tell_too_long(uint64_t length) {
    fprintf(stderr, "present: with these edits the file has %lu bytes, %lu more than 32,768: it is refused: 18\n", (unsigned long)length,
            (unsigned long)(length - FILE_BYTES));
    status = 1;
}

/* The length of a line with its byte 10, which the last one may lack. */
static size_t line_length(const uint8_t *line, size_t n) {
    const uint8_t *end = memchr(line, '\n', n);
    return end == NULL ? n : (size_t)(end - line) + 1;
}

static int is_end(const uint8_t *line, size_t k) { return (k == 4 || (k == 5 && line[4] == '\n')) && memcmp(line, "end=", 4) == 0; }

static int is_request(const uint8_t *line, size_t k) { return k >= 4 && memcmp(line, "try=", 4) == 0; }

/* Loads the first n bytes of the input: whether they are a rights file. A file that is too long is refused as a whole, at no line. */
static int load(size_t n) {
    uint64_t answer = zhul_load(input, n, book, rules, table, ZHUL_TABLE_WORDS);
    if (ZHUL_NUMBER(answer) == 0) return 1;
    if (ZHUL_CARRIED(answer) == 0) tell("the file has more than 32,768 bytes: it is refused: 2");
    else tell_refused(ZHUL_CARRIED(answer), "the file", answer);
    return 0;
}

static void edit(const uint8_t *line, size_t k, unsigned long number) {
    uint64_t answer = zhul_edit(line, k, book, table, ZHUL_TABLE_WORDS);
    if (ZHUL_NUMBER(answer) != 0) tell_refused(number, "the edit", answer);
}

/* Loads what stands before `end=`, then makes the edits behind it: whether there is a book. */
static int play(size_t n) {
    size_t at = 0, k = 0;
    unsigned long number = 1;
    for (; at < n && !is_end(input + at, k = line_length(input + at, n - at)); at += k) number++;
    if (!load(at)) return 0;
    for (at += at < n ? k : 0; at < n; at += k) {
        number++;
        k = line_length(input + at, n - at);
        if (input[at] == '+' || input[at] == '-') edit(input + at, k, number);
        else if (!is_request(input + at, k)) tell_left_out(number);
    }
    return 1;
}

/* Reserves just as many bytes as the file has: a buffer of the length that is told is enough, unless it is over 32,768. */
static void print_file(void) {
    uint64_t length = zhul_length(book, rules);
    uint8_t *file = length <= FILE_BYTES ? malloc((size_t)length) : NULL;
    if (length > FILE_BYTES) tell_too_long(length);
    else if (file == NULL) tell("there is no memory for the file");
    else if (fwrite(file, 1, ZHUL_CARRIED(zhul_write(book, rules, file, (size_t)length)), stdout) != length || fflush(stdout) != 0)
        tell("standard output cannot be written");
    free(file);
}

int main(int count, char **words) {
    size_t n;
    (void)words;
    if (count != 1) return fputs("present: takes no arguments: present < SESSION\n", stderr), 2;
#ifdef SIGPIPE
    signal(SIGPIPE, SIG_IGN); /* a reader that has gone is told like every other output that cannot be written */
#endif
    n = fread(input, 1, sizeof input, stdin);
    if (ferror(stdin)) tell("standard input cannot be read");
    else if (n > INPUT) tell("the input has more than 65,536 bytes");
    else if (play(n)) print_file();
    return status;
}
