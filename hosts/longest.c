/* A file with all ties that can stand, its length told beforehand and what its edits cost: loads a file with every table full, puts every tie that can
   stand by edits, then takes them all away again. The length has to be the one before with just the bytes of the lines that were put or taken, their
   signs not counted, and the writer has to refuse precisely when that length is over its buffer or over 32,768 bytes, leaving the buffer as it was.
   The joins of each edit have to be the sum over its holder and those below it. Prints the length; status 1 with the first difference. */
#include "zhulmekov.h"

#include <inttypes.h>
#include <stdarg.h>
#include <stdio.h>
#include <stdlib.h>
#include <string.h>

enum { FILE_BYTES = 32768, BUFFER = 40000, PATTERN = 0xa5, GROUPS = 64, USERS = 191, PAIRS = 256, ATTRIBUTES = 32, OPERATIONS = 8, RULES = 32 };

/* At the group with no parents, where all others and all users are below it: 1 to 64 of the groups, 65 of each user. */
enum { MOST_JOINS = GROUPS * (GROUPS + 1) / 2 + USERS * (1 + GROUPS) };

static uint64_t book[ZHUL_BOOK_WORDS], table[ZHUL_TABLE_WORDS];
static uint8_t rules[ZHUL_RULES_BYTES], buffer[BUFFER];
static char file[FILE_BYTES + 1];
static uint64_t expected; /* the length by the lines alone */
static uint32_t most;     /* the joins of the edit that took the most */

static void fail(const char *what, uint64_t wanted, uint64_t given) {
    printf("longest: %s: expected %" PRIu64 ", given %" PRIu64 "\n", what, wanted, given);
    exit(1);
}

static void put(const char *format, ...) {
    va_list list;
    va_start(list, format);
    expected += (uint64_t)vsnprintf(file + expected, sizeof file - expected, format, list);
    va_end(list);
    if (expected > FILE_BYTES) fail("the length of the file to load, at most", FILE_BYTES, expected);
}

static void told(void) {
    uint64_t length = zhul_length(book, rules);
    if (length != expected) fail("the length told", expected, length);
}

/* The writer, lent so many bytes, answers by the length alone; a refusal keeps every byte, and so do those behind what is lent or written. */
static void writes(size_t lent) {
    int fits = expected <= lent && expected <= FILE_BYTES;
    uint64_t wanted = fits ? expected << 32 : ZHUL_DOES_NOT_FIT;
    memset(buffer, PATTERN, sizeof buffer);
    uint64_t answer = zhul_write(book, rules, buffer, lent);
    if (answer != wanted) fail("the writer's answer", wanted, answer);
    for (size_t i = fits ? (size_t)expected : 0; i < sizeof buffer; i++)
        if (buffer[i] != PATTERN) fail("a byte that the writer has to keep", PATTERN, buffer[i]);
}

/* One edit that is accepted and takes so many joins. Near the limit of a file each is followed by the length and by writes. */
static void edit(int joins, const char *format, ...) {
    char line[64];
    va_list list;
    va_start(list, format);
    int n = vsnprintf(line, sizeof line, format, list);
    va_end(list);
    uint64_t answer = zhul_edit((const uint8_t *)line, (size_t)n, book, table, ZHUL_TABLE_WORDS);
    if (ZHUL_NUMBER(answer) != 0) fail(line, 0, ZHUL_NUMBER(answer));
    if (ZHUL_JOINS(answer) != (uint32_t)joins) fail(line, (uint32_t)joins, ZHUL_JOINS(answer));
    if (ZHUL_JOINS(answer) > most) most = ZHUL_JOINS(answer);
    expected = line[0] == '+' ? expected + (uint64_t)n - 1 : expected - ((uint64_t)n - 1);
    if (expected > BUFFER) return;
    told();
    writes(BUFFER);
    writes((size_t)expected);
    writes((size_t)expected - 1);
}

/* Every holder but admin is of users, so that each may have every pair. */
static void load(void) {
    put("rights=1\n");
    for (int k = 0; k < ATTRIBUTES; k++) put("attr=user,a%011d,str\n", k);
    for (int k = 0; k < OPERATIONS; k++) put("op=o%011d\n", k);
    for (int p = 0; p < PAIRS; p++) put("atom=user.a%011d,\"%012d\"\n", p % ATTRIBUTES, p);
    for (int g = 0; g < GROUPS; g++) put("ugroup=g%011d\n", g);
    for (int u = 0; u < USERS; u++) put("user=u%011d\n", u);
    for (int r = 0; r < RULES; r++) put("rule=o%011d,user.a%011d={\"%012d\",\"%012d\"}AND NOT user.a%011d\n", r % OPERATIONS, r, r, r + 1, r);
    uint64_t answer = zhul_load((const uint8_t *)file, (size_t)expected, book, rules, table, ZHUL_TABLE_WORDS);
    if (ZHUL_NUMBER(answer) != 0) fail("the load", 0, ZHUL_NUMBER(answer));
    told();
    writes(BUFFER);
    for (size_t i = 0; i < expected; i++)
        if (buffer[i] != (uint8_t)file[i]) fail("a byte of the file that was loaded and is written", (uint8_t)file[i], buffer[i]);
}

/* The joins of all below a group: of every user, who is in all groups then, and of the groups with higher numbers. When ties are put these have no
   parents yet, and are not below; when they are taken they still have all groups of lower numbers. */
static int joins_below(char sign, int g) {
    int joins = USERS * (1 + GROUPS);
    for (int low = g + 1; sign == '-' && low < GROUPS; low++) joins += 1 + low;
    return joins;
}

/* Puts or takes every tie of a group: its parents have lower numbers, so that no circle is closed. */
static void ties_of_group(char sign, int g) {
    int below = joins_below(sign, g), own = 1 + (sign == '+' ? g : 0);
    for (int over = 0; over < g; over++) edit(below + 1 + (sign == '+' ? over + 1 : g - 1 - over), "%cparent=g%011d,g%011d\n", sign, g, over);
    for (int p = 0; p < PAIRS; p++) edit(below + own, "%cvalue=g%011d,a%011d,\"%012d\"\n", sign, g, p % ATTRIBUTES, p);
    told();
}

static void ties_of_user(char sign, int u) {
    int own = 1 + (sign == '+' ? GROUPS : 0);
    for (int g = 0; g < GROUPS; g++) edit(1 + (sign == '+' ? g + 1 : GROUPS - 1 - g), "%cmember=u%011d,g%011d\n", sign, u, g);
    for (int p = 0; p < PAIRS; p++) edit(own, "%cvalue=u%011d,a%011d,\"%012d\"\n", sign, u, p % ATTRIBUTES, p);
    told();
}

int main(void) {
    load();
    for (int u = 0; u < USERS; u++) ties_of_user('+', u);
    for (int g = 0; g < GROUPS; g++) ties_of_group('+', g);
    uint64_t longest = expected;
    writes(BUFFER);
    for (int g = 0; g < GROUPS; g++) ties_of_group('-', g);
    for (int u = 0; u < USERS; u++) ties_of_user('-', u);
    if (most != MOST_JOINS) fail("the most joins of an edit", MOST_JOINS, most);
    printf("%" PRIu64 "\n", longest);
    return 0;
}
