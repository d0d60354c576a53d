/* A turnstile: loads a rights file once, then lets passes through, takes an edit of the ticket office and turns a pass away. Prints each answer, and for
   the staff what to do about an undefined one. `turnstile FILE`, where FILE is the valley file of document 01 (examples/valley/rights). Status 2 if the
   file cannot be read. */
#include "zhulmekov.h"

#include <stdio.h>
#include <string.h>

enum { FILE_BYTES = 32769 }; /* one more than a file may have, so that a longer one is refused and not cut */

/* The valley file's numbers: holders, operation and attributes, counted in the file's order. */
enum { PASS_17 = 4, GATE_2 = 5, OPERATION_PASS = 0, ATTRIBUTES_KIND_ZONE = 3, ATTRIBUTE_HOUR = 4 };

static uint8_t file[FILE_BYTES];
static uint64_t book[ZHUL_BOOK_WORDS], table[ZHUL_TABLE_WORDS];
static uint8_t rules[ZHUL_RULES_BYTES];

static void load(size_t length) {
    uint64_t answer = zhul_load(file, length, book, rules, table, ZHUL_TABLE_WORDS);
    printf("load: number %u, line %u\n", (unsigned)ZHUL_NUMBER(answer), (unsigned)ZHUL_CARRIED(answer));
}

static void edit(const char *line) {
    uint64_t answer = zhul_edit((const uint8_t *)line, strlen(line), book, table, ZHUL_TABLE_WORDS);
    printf("edit: number %u, holders changed %u, joins %u: %s", (unsigned)ZHUL_NUMBER(answer), (unsigned)ZHUL_COUNT(answer), (unsigned)ZHUL_JOINS(answer), line);
}

/* What the staff do where a request is undefined. */
static const char *advice(uint32_t cause) {
    return cause == ZHUL_ABSENT ? "a value is lacking, send to the counter that sells it" : "the rule is wrong, call the office";
}

/* One pass at the gate: kind and zone activated, the hour as the one entry. */
static void pass(uint8_t hour) {
    const uint8_t block[15] = {1, PASS_17, GATE_2, OPERATION_PASS, ATTRIBUTES_KIND_ZONE, 0, 0, 0, 1, 0, ATTRIBUTE_HOUR, hour, 0, 0, 0};
    uint64_t answer = zhul_decide(block, sizeof block, book, rules, table, ZHUL_TABLE_WORDS);
    printf("pass at %u: ", (unsigned)hour);
    switch (ZHUL_NUMBER(answer)) {
    case ZHUL_PERMIT: printf("open, by rule %u\n", (unsigned)ZHUL_RULE(answer)); break;
    case ZHUL_DENY: puts("closed, denied"); break;
    case ZHUL_UNDEFINED: printf("closed, undefined: %s\n", advice(ZHUL_CAUSE(answer))); break;
    default: printf("closed, refused %u\n", (unsigned)ZHUL_NUMBER(answer));
    }
}

int main(int count, char **words) {
    FILE *from = count == 2 ? fopen(words[1], "rb") : NULL;
    size_t length;
    if (from == NULL) return fprintf(stderr, "turnstile: no rights file: turnstile FILE\n"), 2;
    length = fread(file, 1, FILE_BYTES, from);
    if (ferror(from)) return fprintf(stderr, "turnstile: %s cannot be read\n", words[1]), 2;
    fclose(from);
    load(length);
    pass(16);
    pass(17);
    edit("+value=day,zone,2\n");
    edit("+parent=day,season\n");
    edit("-member=p17,season\n");
    pass(16);
    return 0;
}
