/* Runs the library over the conformance kit: `calls` reads a call list (vectors/README.md, "call lists"), `calls gate` a session of the office
   program, from standard input, and prints the answers. `calls many` reads many such sessions, each behind a line with its number and its length in
   bytes, and prints a line `session=NUMBER` before the answers of each and, behind them, the file as it stands then: `write=` as in a call list and
   `text=` with its bytes; then `wrong=` with what is amiss about it, if something is. `calls lists` does so with many call lists, which write where they
   say so. A line `wrong=` also stands behind the answer to a request that has a rule, a cause or other bits where none belong. Status 2 for input that
   is no call list or no such stream. */
#include "zhulmekov.h"

#include <inttypes.h>
#include <stdio.h>
#include <stdlib.h>
#include <string.h>

enum { INPUT = 1 << 20, LONGEST_FILE = 32768, BEHIND = 64 };

static uint8_t input[INPUT + 1], bytes[INPUT], other[INPUT];
static uint64_t book[ZHUL_BOOK_WORDS], *table;
static uint8_t rules[ZHUL_RULES_BYTES], buffer[INPUT + BEHIND];
static size_t words;

static int digit(uint8_t c) { return c >= '0' && c <= '9' ? c - '0' : c >= 'a' && c <= 'f' ? c - 'a' + 10 : -1; }

/* The bytes that hex pairs write; -1 where they are none. */
static long unhex(const uint8_t *s, size_t n, uint8_t *to) {
    if (n % 2 != 0) return -1;
    for (size_t i = 0; i < n; i += 2) {
        int h = digit(s[i]), l = digit(s[i + 1]);
        if (h < 0 || l < 0) return -1;
        to[i / 2] = (uint8_t)(16 * h + l);
    }
    return (long)(n / 2);
}

static void put_load(uint64_t r) { printf("load=%" PRIu32 ",%" PRIu32 "\n", ZHUL_NUMBER(r), ZHUL_CARRIED(r)); }
static void put_edit(uint64_t r) { printf("edit=%" PRIu32 ",%" PRIu32 ",%" PRIu32 "\n", ZHUL_NUMBER(r), ZHUL_COUNT(r), ZHUL_JOINS(r)); }

static void put_write(uint64_t r) { printf("write=%" PRIu32 ",%" PRIu32 "\n", ZHUL_NUMBER(r), ZHUL_CARRIED(r)); }

static void put_hex(const char *head, const uint8_t *s, size_t n) {
    static const char digits[] = "0123456789abcdef";
    fputs(head, stdout);
    for (size_t i = 0; i < n; i++) {
        putchar(digits[s[i] >> 4]);
        putchar(digits[s[i] & 15]);
    }
    puts("");
}

/* NULL for what is no cause. */
static const char *cause_word(uint32_t cause) { return cause == ZHUL_ABSENT ? "absent" : cause == ZHUL_UNLIKE ? "unlike" : NULL; }

/* What an answer with the same number, rule and cause has in all its bits: nothing besides. */
static uint64_t packed(uint64_t r) { return ZHUL_NUMBER(r) | (uint64_t)ZHUL_RULE(r) << 32 | (uint64_t)ZHUL_CAUSE(r) << 40; }

static void put_decision(uint64_t r) {
    uint32_t number = ZHUL_NUMBER(r), rule = ZHUL_RULE(r), cause = ZHUL_CAUSE(r);
    const char *word = cause_word(cause);
    switch (number) {
    case ZHUL_PERMIT: printf("try=permit,%" PRIu32 "\n", rule); break;
    case ZHUL_DENY: puts("try=deny"); break;
    case ZHUL_UNDEFINED: printf("try=undefined,%s\n", word != NULL ? word : "(no cause)"); break;
    default: printf("try=refused,%" PRIu32 "\n", number);
    }
    if (number != ZHUL_UNDEFINED && cause != 0) puts("wrong=a cause of what is not undefined");
    if (number != ZHUL_PERMIT && rule != 0) puts("wrong=a rule of what is no permit");
    if (packed(r) != r) puts("wrong=other bits of the answer are set");
}

static void put_words(void) {
    const char *between = "";
    printf("words=");
    for (size_t i = 0; i < words; i++)
        if (table[i] != 0) {
            printf("%s%zu:%" PRIx64, between, i, table[i]);
            between = ",";
        }
    puts("");
}

static size_t line_length(const uint8_t *s, size_t n) {
    const uint8_t *end = memchr(s, '\n', n);
    return end == NULL ? n : (size_t)(end - s) + 1;
}

static int begins(const uint8_t *s, size_t n, const char *word) { return n >= strlen(word) && memcmp(s, word, strlen(word)) == 0; }

static int all(const uint8_t *s, size_t n, uint8_t byte) {
    for (size_t i = 0; i < n; i++)
        if (s[i] != byte) return 0;
    return 1;
}

/* Lends the writer the first n bytes of `to`, which are all `byte`, as are those behind them. */
static uint64_t lend(const uint64_t *of, const uint8_t *with, uint8_t *to, size_t n, uint8_t byte) {
    memset(to, byte, n + BEHIND);
    return zhul_write(of, with, to, n);
}

/* LENGTH,BYTE of a line `write=LENGTH,BYTE`. */
static int call_write(const uint8_t *s, size_t n) {
    size_t i = 0, length = 0;
    uint8_t byte;
    for (; i < n && i < 8 && digit(s[i]) >= 0 && digit(s[i]) <= 9; i++) length = 10 * length + (size_t)digit(s[i]);
    if (i == 0 || length > INPUT || n - i != 3 || s[i] != ',' || unhex(s + i + 1, 2, &byte) != 1) return 0;
    put_write(lend(book, rules, buffer, length, byte));
    put_hex("buffer=", buffer, length);
    if (!all(buffer + length, BEHIND, byte)) puts("wrong=bytes behind the buffer are written");
    return 1;
}

/* A table of the length and words that the first line of a call list gives. */
static int read_table(char *s) {
    char *at;
    if (strncmp(s, "table=", 6) != 0) return 0;
    words = strtoul(s + 6, &at, 10);
    table = calloc(words + 1, sizeof *table);
    while (table != NULL && *at == ',') {
        size_t i = strtoul(at + 1, &at, 10);
        if (*at != ':' || i >= words) return 0;
        table[i] = strtoull(at + 1, &at, 16);
    }
    return table != NULL && *at == 0;
}

static int call(const uint8_t *s, size_t n) {
    if (begins(s, n, "c=")) {
        const uint8_t *comma = memchr(s, ',', n);
        if (comma == NULL) return 0;
        long f = unhex(s + 2, (size_t)(comma - s) - 2, bytes), b = unhex(comma + 1, n - (size_t)(comma - s) - 1, other);
        if (f < 0 || b < 0) return 0;
        printf("c=%" PRIu32 "\n", zhul_pass(bytes, (size_t)f, other, (size_t)b, table, words));
    } else if (begins(s, n, "write=")) {
        if (!call_write(s + 6, n - 6)) return 0;
    } else if (begins(s, n, "length=")) {
        if (n != 7) return 0;
        printf("length=%" PRIu64 "\n", zhul_length(book, rules));
    } else {
        const uint8_t *equals = memchr(s, '=', n);
        if (equals == NULL) return 0;
        long k = unhex(equals + 1, n - (size_t)(equals - s) - 1, bytes);
        if (k < 0) return 0;
        if (begins(s, n, "load=")) put_load(zhul_load(bytes, (size_t)k, book, rules, table, words));
        else if (begins(s, n, "edit=")) put_edit(zhul_edit(bytes, (size_t)k, book, table, words));
        else if (begins(s, n, "request=")) put_decision(zhul_decide(bytes, (size_t)k, book, rules, table, words));
        else return 0;
    }
    put_words();
    return 1;
}

static int call_list(size_t n) {
    size_t at = line_length(input, n);
    static uint64_t none[ZHUL_TABLE_WORDS];
    if (at == 0 || input[at - 1] != '\n') return 2;
    input[at - 1] = 0;
    if (!read_table((char *)input)) return 2;
    zhul_load(bytes, 0, book, rules, none, ZHUL_TABLE_WORDS); /* the empty book */
    while (at < n) {
        size_t k = line_length(input + at, n - at);
        if (!call(input + at, input[at + k - 1] == '\n' ? k - 1 : k)) return 2;
        at += k;
    }
    free(table);
    return 0;
}

static int is_end(const uint8_t *s, size_t k) { return (k == 4 || (k == 5 && s[4] == '\n')) && memcmp(s, "end=", 4) == 0; }

static void command(const uint8_t *s, size_t k) {
    size_t n = s[k - 1] == '\n' ? k - 1 : k;
    long b;
    if (s[0] == '+' || s[0] == '-') put_edit(zhul_edit(s, k, book, table, words));
    else if (begins(s, n, "try=") && (b = unhex(s + 4, n - 4, bytes)) >= 0) put_decision(zhul_decide(bytes, (size_t)b, book, rules, table, words));
    else puts("bad=");
}

/* Whether a book is there afterwards: an input that is too long makes no call. */
static int session(size_t n) {
    size_t at = 0, k = 0;
    static uint64_t lent[ZHUL_TABLE_WORDS];
    table = lent;
    words = ZHUL_TABLE_WORDS;
    if (n > 65536) return put_load(2), 0;
    while (at < n && !is_end(input + at, k = line_length(input + at, n - at))) at += k;
    put_load(zhul_load(input, at, book, rules, table, words));
    if (at < n) at += k;
    for (; at < n; at += k) command(input + at, k = line_length(input + at, n - at));
    return 1;
}

/* What is amiss about a text of n bytes that stands in the buffer, which was all 0 before, or NULL: what else the writer answers for this book, and
   what the text loads as, on a book and a table in which the session before left something. */
static const char *wrong_text(size_t n) {
    static uint64_t second[ZHUL_BOOK_WORDS], second_table[ZHUL_TABLE_WORDS];
    static uint8_t second_rules[ZHUL_RULES_BYTES], again[LONGEST_FILE + BEHIND];
    const uint64_t done = (uint64_t)n << 32;
    if (n > LONGEST_FILE) return "the length is over 32,768";
    if (zhul_length(book, rules) != n) return "another length is told beforehand";
    if (!all(buffer + n, LONGEST_FILE + BEHIND - n, 0)) return "bytes behind the text are written";
    if (n == 0 || lend(book, rules, again, n - 1, 0xaa) != ZHUL_DOES_NOT_FIT) return "a buffer that is one byte too short is not refused";
    if (!all(again, n - 1 + BEHIND, 0xaa)) return "a refusal writes to the buffer";
    if (lend(book, rules, again, n, 0xaa) != done || memcmp(again, buffer, n) != 0) return "a buffer of just that length gets another text";
    if (!all(again + n, BEHIND, 0xaa)) return "bytes behind the buffer are written";
    if (ZHUL_NUMBER(zhul_load(buffer, n, second, second_rules, second_table, ZHUL_TABLE_WORDS)) != 0) return "the text is refused";
    if (memcmp(second_table, table, sizeof second_table) != 0) return "the text loads as other words";
    if (lend(second, second_rules, again, LONGEST_FILE, 0x55) != done || memcmp(again, buffer, n) != 0) return "loaded, it is written otherwise";
    if (!all(again + n, LONGEST_FILE + BEHIND - n, 0x55)) return "written again, bytes behind the text are written";
    return NULL;
}

/* The same for a refusal: the text of a book is over 32,768 bytes. */
static const char *wrong_refusal(uint64_t r) {
    if (r != ZHUL_DOES_NOT_FIT) return "a refusal is not 18 and 0";
    if (zhul_length(book, rules) <= LONGEST_FILE) return "the length told beforehand is not over 32,768";
    if (!all(buffer, LONGEST_FILE + BEHIND, 0)) return "a refusal writes to the buffer";
    if (lend(book, rules, buffer, INPUT, 0xaa) != ZHUL_DOES_NOT_FIT) return "a longer buffer is not refused";
    if (!all(buffer, INPUT + BEHIND, 0xaa)) return "a refusal writes to a longer buffer";
    return NULL;
}

static void put_file(void) {
    uint64_t r = lend(book, rules, buffer, LONGEST_FILE, 0);
    size_t n = ZHUL_CARRIED(r);
    put_write(r);
    put_hex("text=", buffer, n > LONGEST_FILE ? LONGEST_FILE : n);
    const char *wrong = ZHUL_NUMBER(r) == 0 ? wrong_text(n) : wrong_refusal(r);
    if (wrong != NULL) printf("wrong=%s\n", wrong);
}

/* The book, the rules and the table stay as the session before left them: a load has to cope with anything in them. */
static int many(int lists) {
    uint64_t number;
    size_t n;
    int read;
    while ((read = scanf("%" SCNu64 " %zu", &number, &n)) == 2) {
        if (getchar() != '\n' || n > INPUT || fread(input, 1, n, stdin) != n) return 2;
        printf("session=%" PRIu64 "\n", number);
        if (lists && call_list(n) != 0) return 2;
        if (!lists && session(n)) put_file();
    }
    return read == EOF ? 0 : 2;
}

static int whole(int gate) {
    size_t n = fread(input, 1, INPUT, stdin);
    return gate ? (session(n), 0) : call_list(n);
}

int main(int argc, char **argv) {
    const char *mode = argc > 1 ? argv[1] : "";
    int lists = strcmp(mode, "lists") == 0;
    int status = lists || strcmp(mode, "many") == 0 ? many(lists) : whole(strcmp(mode, "gate") == 0);
    if (ferror(stdin)) return fputs("calls: standard input can't be read\n", stderr), 1;
    if (fflush(stdout) != 0) return fputs("calls: standard output can't be written\n", stderr), 1;
    return status;
}
