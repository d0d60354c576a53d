/* Loads files on a thread whose stack has 64 KB: of each session that is named, the lines before the line `end=`. Prints for each what the office program
   prints for a load; a load that took more stack would end the program. */
#define _POSIX_C_SOURCE 200809L
#include "zhulmekov.h"

#include <inttypes.h>
#include <pthread.h>
#include <stdio.h>
#include <stdlib.h>
#include <string.h>

enum { STACK_BYTES = 65536, SESSION_BYTES = 65536, INPUT_BYTES = 1 << 20 };

static uint64_t book[ZHUL_BOOK_WORDS], table[ZHUL_TABLE_WORDS], answer;
static uint8_t rules[ZHUL_RULES_BYTES], input[INPUT_BYTES];
static size_t length;

static void *load(void *nothing) {
    answer = zhul_load(input, length, book, rules, table, ZHUL_TABLE_WORDS);
    return nothing;
}

/* The length of the file in a session of n bytes; of one that is too long for the office program, all of it. */
static size_t file_length(size_t n) {
    if (n > SESSION_BYTES) return n;
    for (size_t at = 0; at + 4 <= n; at++) {
        if (memcmp(input + at, "end=", 4) != 0 || (at > 0 && input[at - 1] != '\n')) continue;
        if (at + 4 == n || input[at + 4] == '\n') return at;
    }
    return n;
}

static int fail(const char *what, const char *name) {
    fprintf(stderr, "thread: %s %s\n", what, name);
    return 1;
}

static int play(const char *name, const pthread_attr_t *attributes) {
    pthread_t thread;
    FILE *session = fopen(name, "rb");
    if (session == NULL) return fail("cannot open", name);
    length = file_length(fread(input, 1, sizeof input, session));
    if (fclose(session) != 0) return fail("cannot read", name);
    if (pthread_create(&thread, attributes, load, NULL) != 0 || pthread_join(thread, NULL) != 0) return fail("no thread for", name);
    printf("load=%" PRIu32 ",%" PRIu32 "\n", (uint32_t)ZHUL_NUMBER(answer), (uint32_t)ZHUL_CARRIED(answer));
    return 0;
}

int main(int count, char **names) {
    pthread_attr_t attributes;
    if (pthread_attr_init(&attributes) != 0 || pthread_attr_setstacksize(&attributes, STACK_BYTES) != 0) return fail("no stack of", "64 KB");
    for (int i = 1; i < count; i++)
        if (play(names[i], &attributes) != 0) return 1;
    return 0;
}
