/* Requests on words that no call left, which a host must not lend: what they answer is not fixed, but a refusal has one of the header's numbers all the
   same (one with the number of a permit, a denial or what is undefined could not be told from these here). `unloaded FILE`, where FILE is the valley
   file of document 01 (examples/valley/rights), loads it, then decides requests, each on a book, rules and a table of which some words or bytes are
   others. Status 1 and a line where a number is none of the header's, or where no refusal 17 was met or no decision; 2 where the file is not read or
   is refused. */
#include "zhulmekov.h"

#include <stdio.h>

enum { FILE_BYTES = 32769 }; /* one more than a file may have, so that a longer one is refused and not cut */

enum { ROUNDS = 5000, CHANGES = 32, HEAD_WORDS = 264 };

/* The valley file's numbers of holders, counted in the file's order. */
enum { PASS_17 = 4, GATE_2 = 5 };

typedef struct {
    uint64_t book[ZHUL_BOOK_WORDS], table[ZHUL_TABLE_WORDS];
    uint8_t rules[ZHUL_RULES_BYTES];
} memory;

static memory loaded, lent;
static uint8_t file[FILE_BYTES];

static uint64_t any(void) {
    static uint64_t state = 88172645463325252u;
    state ^= state << 13;
    state ^= state >> 7;
    return state ^= state << 17;
}

/* A quarter of the changes are in the counts and the rows of attributes. Small numbers are as likely as large ones: they reach further. */
static void change(void) {
    uint64_t word = any();
    word >>= any() % 64;
    switch (any() % 4) {
    case 0: lent.book[any() % HEAD_WORDS] = word; break;
    case 1: lent.book[any() % ZHUL_BOOK_WORDS] = word; break;
    case 2: lent.table[any() % ZHUL_TABLE_WORDS] = word; break;
    default: lent.rules[any() % ZHUL_RULES_BYTES] = (uint8_t)word;
    }
}

/* The number of a request, mostly of the file's user at its object: the first operation, some activated attributes, without entries. */
static uint32_t decided(void) {
    uint8_t block[10] = {1};
    block[1] = any() % 8 == 0 ? (uint8_t)any() : PASS_17;
    block[2] = any() % 8 == 0 ? (uint8_t)any() : GATE_2;
    block[4] = (uint8_t)(any() % 8);
    return ZHUL_NUMBER(zhul_decide(block, sizeof block, lent.book, lent.rules, lent.table, ZHUL_TABLE_WORDS));
}

static int fail(const char *what, uint32_t number) {
    printf("unloaded: %s: %u\n", what, (unsigned)number);
    return 1;
}

int main(int count, char **names) {
    unsigned long met[ZHUL_UNDEFINED + 1] = {0};
    FILE *rights = count == 2 ? fopen(names[1], "rb") : NULL;
    if (rights == NULL) return 2;
    size_t length = fread(file, 1, sizeof file, rights);
    int unread = ferror(rights);
    if (fclose(rights) != 0 || unread || ZHUL_NUMBER(zhul_load(file, length, loaded.book, loaded.rules, loaded.table, ZHUL_TABLE_WORDS)) != 0) return 2;
    for (int round = 0; round < ROUNDS; round++) {
        lent = loaded;
        for (int i = 0; i < CHANGES; i++) change();
        uint32_t number = decided();
        if (number > ZHUL_DOES_NOT_FIT && number != ZHUL_DENY && number != ZHUL_UNDEFINED) return fail("a number that is not listed", number);
        met[number]++;
    }
    if (met[ZHUL_NOT_HELD] == 0) return fail("no refusal", ZHUL_NOT_HELD);
    if (met[ZHUL_PERMIT] + met[ZHUL_DENY] + met[ZHUL_UNDEFINED] == 0) return fail("no decision in rounds", ROUNDS);
    return 0;
}
