/* Times one evaluation of a rule: the valley's rules 0 and 1, and a rule of 16 terms, on the valley file's data with the valley request; and what
   comes once for a request (the session) and once for a load (a rule's program). Prints nanoseconds, the best of several rounds. */
#include <stdbool.h>
#include <stdint.h>
#include <stdio.h>
#include <string.h>
#include <time.h>

extern uint8_t zhul_time_load(const uint8_t *policy, size_t policy_length, const uint64_t *attributes, uint8_t *code, uint8_t *rows);
extern bool zhul_time_open(const uint64_t *attributes, const uint64_t *table, size_t user, size_t object, uint32_t mask, size_t count, uint64_t *session);
extern uint8_t zhul_time_run(const uint8_t *code, const uint8_t *rows, const uint64_t *pairs, const uint64_t *session, const uint8_t *entries,
                             size_t entries_length);

enum { ROUNDS = 9, TURNS = 1000000 };
enum { USER = 1, OBJECT = 2, ENV = 4 };
enum { INT = 1, STR = 2, BOOL = 3 };
enum { UNDEF = 1, TRUE_ = 2 };

static uint64_t attributes[256], pairs[1024], table[1024], session[128];
static uint8_t code[768], rows[256];
static const uint8_t entries[5] = {4, 10, 0, 0, 0};
static const char *policy;

static uint64_t packed(const char *text) {
    uint64_t word = 0;
    for (size_t i = 0; text[i] != 0; i++) word |= (uint64_t)(uint8_t)text[i] << (8 * i);
    return word;
}

static void attribute(int row, uint64_t source, const char *name, uint64_t type) {
    attributes[8 * row] = source;
    attributes[8 * row + 1] = type;
    attributes[8 * row + 2] = packed(name);
}

static void pair(int row, uint64_t attribute, uint64_t first) {
    attributes[8 * attribute + 4] |= (uint64_t)1 << row;
    pairs[4 * row] = attribute + 1;
    pairs[4 * row + 1] = first;
}

static void valley(void) {
    static const uint64_t sets[6] = {0, 5, 15, 16, 15, 16};
    attribute(0, USER, "kind", STR);
    attribute(1, USER, "zone", INT);
    attribute(2, USER, "staff", BOOL);
    attribute(3, OBJECT, "zone", INT);
    attribute(4, ENV, "hour", INT);
    pair(0, 0, packed("day"));
    pair(1, 0, packed("season"));
    pair(2, 1, 1);
    pair(3, 1, 2);
    pair(4, 3, 2);
    for (int k = 0; k < 6; k++) table[4 * k] = sets[k];
}

static uint8_t open_session(void) { return zhul_time_open(attributes, table, 4, 5, 3, 5, session); }
static uint8_t load(void) { return zhul_time_load((const uint8_t *)policy, strlen(policy), attributes, code, rows); }
static uint8_t run(void) { return zhul_time_run(code, rows, pairs, session, entries, sizeof entries); }

static double nanoseconds(void) {
    struct timespec t;
    clock_gettime(CLOCK_MONOTONIC, &t);
    return 1e9 * (double)t.tv_sec + (double)t.tv_nsec;
}

static int measure(const char *name, uint8_t (*call)(void), uint8_t wanted) {
    double best = 1e18;
    if (call() != wanted) return printf("%s: not the value that it has\n", name), 1;
    for (int round = 0; round < ROUNDS; round++) {
        double start = nanoseconds();
        uint64_t sum = 0;
        for (int turn = 0; turn < TURNS; turn++) sum += call();
        double each = (nanoseconds() - start) / TURNS;
        if (sum != (uint64_t)wanted * TURNS) return printf("%s: not the same value at each turn\n", name), 1;
        if (each < best) best = each;
    }
    printf("%-28s %8.1f ns\n", name, best);
    return 0;
}

static int rule(const char *name, const char *text, uint8_t wanted) {
    policy = text;
    if (load() != 0) return printf("%s: refused\n", name), 1;
    return measure(name, run, wanted);
}

int main(void) {
    valley();
    return measure("the session and refusal 17", open_session, false)
        | rule("valley rule 0", "user.zone = object.zone AND env.hour < 17", TRUE_)
        | measure("its program, at load", load, 0)
        | rule("valley rule 1", "user.staff", UNDEF)
        | rule("rule of 16 terms",
               "user.zone=object.zone AND env.hour<17 AND env.hour>=8 AND user.zone IN{1,2,3}AND(user.kind IN{\"day\",\"season\"}"
               "OR NOT user.staff)AND user.zone!=9 AND object.zone SUBSET{2}AND user.zone<=3 OR TRUE AND 1<2 AND{1,2}={2}"
               "OR 5=6 OR FALSE OR UNDEF OR 3=4", TRUE_);
}
