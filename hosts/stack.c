/* Measures the stack that the calls take: each call runs on a thread whose stack was filled with a pattern, and the lowest byte that lost it tells
   how deep the call went, counted from the frame that made the call. `stack SESSION.in...` takes the largest input and then each session, whose
   answers have to be those of SESSION.out; the file that is written behind it has to load. Prints the most of each call; status 1 for a wrong
   answer, as a call that was refused early would measure little. Last come a request on rules that no load leaves, and lengths and writes on such
   rules and on such books. */
#define _GNU_SOURCE
#include "zhulmekov.h"

#include <inttypes.h>
#include <pthread.h>
#include <stdarg.h>
#include <stdio.h>
#include <stdlib.h>
#include <string.h>

enum { STACK = 1 << 20, PATTERN = 0xa5, INPUT = 65536, FILE_LIMIT = 32768 };
enum { EMPTY, PASS, LOAD, EDIT, DECIDE, WRITE, LENGTH, CALLS };
enum { ATTRIBUTES = 32, OF_USER = 24, OF_OBJECT = 4, GROUPS = 64, USERS = 190 };

static const char *const names[CALLS] = {"empty", "zhul_pass", "zhul_load", "zhul_edit", "zhul_decide", "zhul_write", "zhul_length"};
static _Alignas(4096) uint8_t stack[STACK];
static uint64_t book[ZHUL_BOOK_WORDS], table[ZHUL_TABLE_WORDS];
static uint8_t rules[ZHUL_RULES_BYTES], input[INPUT + 1], bytes[INPUT], buffer[FILE_LIMIT];
static size_t most[CALLS];

static struct { int call; const uint8_t *first, *second; size_t first_length, second_length; uint64_t answer; size_t depth; } job;

/* A frame of its own, so that its address is next to where the call's stack begins. */
static __attribute__((noinline)) uint8_t *make_call(void) {
    switch (job.call) {
    case PASS: job.answer = zhul_pass(job.first, job.first_length, job.second, job.second_length, table, ZHUL_TABLE_WORDS); break;
    case LOAD: job.answer = zhul_load(job.first, job.first_length, book, rules, table, ZHUL_TABLE_WORDS); break;
    case EDIT: job.answer = zhul_edit(job.first, job.first_length, book, table, ZHUL_TABLE_WORDS); break;
    case DECIDE: job.answer = zhul_decide(job.first, job.first_length, book, rules, table, ZHUL_TABLE_WORDS); break;
    case WRITE: job.answer = zhul_write(book, rules, buffer, FILE_LIMIT); break;
    case LENGTH: job.answer = zhul_length(book, rules); break;
    default: job.answer = 0;
    }
    return __builtin_frame_address(0);
}

/* Looks before the thread ends, since ending takes stack too. */
static void *on_thread(void *none) {
    uint8_t *frame = make_call();
    size_t low = 0;
    while (low < STACK && ((volatile uint8_t *)stack)[low] == PATTERN) low++;
    job.depth = (size_t)(frame - (stack + low));
    return none;
}

static uint64_t measured(int call, const uint8_t *first, size_t first_length, const uint8_t *second, size_t second_length) {
    pthread_t thread;
    pthread_attr_t attributes;
    memset(stack, PATTERN, STACK);
    job.call = call;
    job.first = first, job.first_length = first_length;
    job.second = second, job.second_length = second_length;
    if (pthread_attr_init(&attributes) != 0 || pthread_attr_setstack(&attributes, stack, STACK) != 0 ||
        pthread_create(&thread, &attributes, on_thread, NULL) != 0 || pthread_join(thread, NULL) != 0)
        fputs("stack: no thread\n", stderr), exit(2);
    pthread_attr_destroy(&attributes);
    if (job.depth > most[call]) most[call] = job.depth;
    return job.answer;
}

static void expect(const char *what, uint64_t answer, uint32_t number, uint32_t carried) {
    if (ZHUL_NUMBER(answer) == number && ZHUL_CARRIED(answer) == carried) return;
    printf("%s: expected %" PRIu32 ",%" PRIu32 ", given %" PRIu32 ",%" PRIu32 "\n", what, number, carried, ZHUL_NUMBER(answer), ZHUL_CARRIED(answer));
    exit(1);
}

/* What an answer to a request carries with a cause: that stands above the eight bits of the rule. */
static uint32_t of_cause(uint32_t cause) { return cause << 8; }

/* What the answer to an edit carries: the joins stand above the twelve bits of the count. */
static uint32_t of_edit(uint32_t count, uint32_t joins) { return count | joins << 12; }

/* Writes the file as it stands now: it has to load, unless it is too long to be written, and to be as long as was told beforehand. */
static uint64_t written(const char *what) {
    static uint64_t second[ZHUL_BOOK_WORDS], second_table[ZHUL_TABLE_WORDS];
    static uint8_t second_rules[ZHUL_RULES_BYTES];
    uint64_t told = measured(LENGTH, input, 0, input, 0), answer = measured(WRITE, input, 0, input, 0);
    if (answer == ZHUL_DOES_NOT_FIT && told > FILE_LIMIT) return answer;
    expect(what, ZHUL_CARRIED(answer), (uint32_t)told, 0);
    expect(what, ZHUL_NUMBER(answer), 0, 0);
    expect(what, ZHUL_NUMBER(zhul_load(buffer, ZHUL_CARRIED(answer), second, second_rules, second_table, ZHUL_TABLE_WORDS)), 0, 0);
    return answer;
}

static size_t length, lines;

static void put(const char *format, ...) {
    va_list list;
    va_start(list, format);
    length += (size_t)vsnprintf((char *)input + length, INPUT - length, format, list);
    va_end(list);
    lines++;
}

/* 16 terms, 8 deep, the truth of `last` in the end: every part before it leaves the truth open. One kind has an AND waiting for each term but the last,
   when that is read: this takes the most, since an OR that waits takes less. */
static void put_rule(int waiting, int last) {
    char policy[256] = "";
    for (int depth = 0; depth < 8; depth++) strcat(policy, !waiting ? "user.a=7 OR NOT(" : depth == 0 ? "1=1 AND NOT(" : "1=1 AND 1=1 AND NOT(");
    strcat(policy, last ? "{1,2,3,4,5,6,7,8}SUBSET{1,2,3,4,5,6,7,8}" : "{1,2,3,4,5,6,7,9}SUBSET{1,2,3,4,5,6,7,8}");
    for (int more = 0; !waiting && more < 7; more++) strcat(policy, " AND 1=1");
    put("rule=p,%s))))))))\n", policy);
}

static const char *attribute(unsigned k) {
    static char name[24];
    if (k == 0) return "a";
    snprintf(name, sizeof name, "a%011u", k);
    return name;
}

static uint64_t edited(const char *format, int first, int second) {
    char line[256];
    int n = snprintf(line, sizeof line, format, first, second);
    return measured(EDIT, (const uint8_t *)line, (size_t)n, bytes, 0);
}

/* The group at a place of the chain, from its head. A group settles its parents first, inside its own call, so that numbers against the chain nest
   as deep as the chain is long: both ways are taken. */
static int group(int place, int reversed) { return reversed ? GROUPS - 1 - place : place; }

/* Every table full, all groups in one chain of parents, all users at its end, and values at its head while the limit leaves room for 32 rules. */
static void largest(int reversed) {
    int head = group(0, reversed), next = group(1, reversed), end = group(GROUPS - 1, reversed);
    uint8_t block[50] = {1, GROUPS + USERS, GROUPS + USERS + 1, 0, 255, 255, 255, 0, 8, 0}, bare[10] = {1, GROUPS + USERS, GROUPS + USERS + 1};
    for (int e = 0; e < 8; e++) block[10 + 5 * e] = (uint8_t)(OF_USER + OF_OBJECT + e % 4), block[11 + 5 * e] = (uint8_t)e;
    length = lines = 0;
    put("rights=1\n");
    for (unsigned k = 0; k < ATTRIBUTES; k++) put("attr=%s,%s,int\n", k < OF_USER ? "user" : k < OF_USER + OF_OBJECT ? "object" : "env", attribute(k));
    for (int o = 0; o < 8; o++) put("op=%c\n", 'p' + o);
    for (unsigned p = 0; p < 240; p++) put("atom=user.%s,%u\n", attribute(p / 10), 4294967295u - p % 10);
    for (unsigned p = 0; p < 16; p++) put("atom=object.%s,%u\n", attribute(OF_USER + p / 4), 4294967295u - p % 4);
    for (int g = 0; g < GROUPS; g++) put("ugroup=g%011d\n", g);
    for (int u = 0; u < USERS; u++) put("user=u%011d\n", u);
    put("object=o\n");
    for (int g = 1; g < GROUPS; g++) put("parent=g%011d,g%011d\n", group(g, reversed), group(g - 1, reversed));
    for (int u = 0; u < USERS; u++) put("member=u%011d,g%011d\n", u, end);
    for (unsigned k = 0; k < OF_OBJECT; k++) put("value=o,%s,4294967295\n", attribute(OF_USER + k));
    size_t start = length, start_lines = lines;
    for (int r = 0; r < 32; r++) put_rule(r % 2, r == 31);
    size_t of_rules = length - start;
    length = start, lines = start_lines;
    for (unsigned v = 0; v < 239 && length + of_rules + 100 <= FILE_LIMIT; v++)
        put("value=g%011d,%s,%u\n", head, attribute(v % OF_USER), 4294967295u - v / OF_USER);
    for (int r = 0; r < 32; r++) put_rule(r % 2, r == 31);
    expect("empty", measured(EMPTY, input, 0, block, 0), 0, 0);
    expect("load", measured(LOAD, input, length, block, 0), 0, (uint32_t)lines);
    expect("decide", measured(DECIDE, block, sizeof block, block, 0), ZHUL_PERMIT, 31);
    /* With nothing activated, half of the rules are UNDEF, and for each term that is, its operands are asked for values once more. */
    expect("decide where values are lacking", measured(DECIDE, bare, sizeof bare, block, 0), ZHUL_PERMIT, 31);
    expect("pass", measured(PASS, input, length, block, sizeof block), ZHUL_PERMIT, 0);
    /* Half of the rules have one space that is not written: the one behind a set. */
    expect("write", written("write"), 0, (uint32_t)length - 16);
    /* Of joins the holder at the head takes one, each one below it two: it has one tie up. */
    expect("value at the head", edited("+value=g%011d,a,4294967286\n", head, 0), 0, of_edit(GROUPS + USERS, 1 + 2 * (GROUPS - 1 + USERS)));
    expect("chain cut", edited("-parent=g%011d,g%011d\n", next, head), 0, of_edit(GROUPS - 1 + USERS, 1 + 2 * (GROUPS - 2 + USERS)));
    expect("chain joined", edited("+parent=g%011d,g%011d\n", next, head), 0, of_edit(GROUPS - 1 + USERS, 2 * (GROUPS - 1 + USERS)));
    expect("circle", edited("+parent=g%011d,g%011d\n", head, end), 12, 0);
    expect("decide after edits", measured(DECIDE, block, sizeof block, block, 0), ZHUL_PERMIT, 31);
    expect("member at the end", edited("-member=u%011d,g%011d\n", USERS - 1, end), 0, of_edit(1, 1));
    expect("write after edits", ZHUL_NUMBER(written("write after edits")), 0, 0);
}

/* A rule line that is refused, full of one thing, behind the largest file up to its last rule. */
static void full_line(const char *what, const char *front, const char *unit, const char *middle, const char *back, uint32_t number) {
    static const uint8_t block[10] = {1};
    char policy[249] = "";
    size_t times = (248 - strlen(front) - strlen(middle)) / (strlen(unit) + strlen(back)), start = length;
    strcat(policy, front);
    for (size_t k = 0; k < times; k++) strcat(policy, unit);
    strcat(policy, middle);
    for (size_t k = 0; k < times; k++) strcat(policy, back);
    put("rule=p,%s\n", policy);
    expect(what, measured(LOAD, input, length, block, 0), number, (uint32_t)lines);
    expect(what, measured(PASS, input, length, block, sizeof block), number, 0);
    length = start, lines--;
}

/* A loop judges a policy before calls that nest read it: no such line takes more than the largest files that are accepted. */
static void refused(void) {
    do length--; while (input[length - 1] != '\n');
    lines--;
    full_line("parentheses", "", "(", "", "", 6);
    full_line("parentheses that end", "", "(", "TRUE", ")", 7);
    full_line("parentheses after NOT", "", "NOT(", "TRUE", ")", 7);
    full_line("parentheses after terms", "", "1=1 AND(", "1=1", ")", 7);
    full_line("terms joined by AND", "", "1=1 AND ", "1=1", "", 7);
    full_line("terms joined by OR", "", "1=1 OR ", "1=1", "", 7);
    full_line("constants", "1={", "1,", "1}", "", 7);
    full_line("constants without an end", "1={", "1,", "1", "", 6);
}

/* Rules that no load leaves: every byte is 5, the code of a left parenthesis, so that each byte of a rule is one depth more. No bytes nest deeper. */
static void stray(void) {
    static const char file[] = "rights=1\nop=p\nuser=u\nobject=o\nrule=p,TRUE\n";
    static const uint8_t block[10] = {1, 1, 2};
    expect("load before other rules", measured(LOAD, (const uint8_t *)file, sizeof file - 1, block, 0), 0, 5);
    memset(rules, 5, sizeof rules);
    expect("decide on other rules", measured(DECIDE, block, sizeof block, block, 0), ZHUL_UNDEFINED, of_cause(ZHUL_UNLIKE));
    printf("%s on rules that no load leaves %zu\n", names[DECIDE], job.depth);
}

/* A length and a write, which have to agree, whatever they are. */
static void write_stray(void) {
    uint64_t told = measured(LENGTH, input, 0, input, 0), answer = measured(WRITE, input, 0, input, 0);
    if (answer != (told > FILE_LIMIT ? ZHUL_DOES_NOT_FIT : told << 32)) printf("%s: another length than was told\n", names[WRITE]), exit(1);
}

static uint64_t drawn(void) {
    static uint64_t seed = 1;
    seed ^= seed << 13, seed ^= seed >> 7, seed ^= seed << 17;
    return seed;
}

/* Books and rules that no call leaves: the largest file's book with rules of one byte, for each byte; books and rules of one byte; drawn ones. */
static void stray_writes(void) {
    largest(0);
    most[WRITE] = most[LENGTH] = 0;
    for (int byte = 0; byte < 256; byte++) memset(rules, byte, sizeof rules), write_stray();
    for (int byte = 0; byte < 256; byte++) memset(rules, byte, sizeof rules), memset(book, byte, sizeof book), write_stray();
    for (int times = 0; times < 256; times++) {
        for (size_t i = 0; i < sizeof rules; i++) rules[i] = (uint8_t)(drawn() >> 32);
        for (size_t i = 0; i < ZHUL_BOOK_WORDS; i++) book[i] = times % 2 == 0 ? drawn() : drawn() >> (drawn() >> 32) % 64;
        write_stray();
    }
    for (int call = WRITE; call <= LENGTH; call++) printf("%s on books and rules that no call leaves %zu\n", names[call], most[call]);
}

static int digit(uint8_t c) { return c >= '0' && c <= '9' ? c - '0' : c >= 'a' && c <= 'f' ? c - 'a' + 10 : -1; }

static long unhex(const uint8_t *s, size_t n) {
    for (size_t i = 0; i < n; i++)
        if (n % 2 != 0 || digit(s[i]) < 0) return -1;
    for (size_t i = 0; i < n / 2; i++) bytes[i] = (uint8_t)(16 * digit(s[2 * i]) + digit(s[2 * i + 1]));
    return (long)(n / 2);
}

/* The next answer of SESSION.out as number and carried. */
static void expected(FILE *out, const char *name, uint32_t *number, uint32_t *carried) {
    char line[64] = "";
    uint32_t joins;
    *number = *carried = 0;
    if (fgets(line, sizeof line, out) == NULL) printf("%s: no more answers\n", name), exit(1);
    if (strcmp(line, "try=deny\n") == 0) *number = ZHUL_DENY;
    else if (strcmp(line, "try=undefined,absent\n") == 0) *number = ZHUL_UNDEFINED, *carried = of_cause(ZHUL_ABSENT);
    else if (strcmp(line, "try=undefined,unlike\n") == 0) *number = ZHUL_UNDEFINED, *carried = of_cause(ZHUL_UNLIKE);
    else if (sscanf(line, "edit=%" SCNu32 ",%" SCNu32 ",%" SCNu32, number, carried, &joins) == 3) *carried = of_edit(*carried, joins);
    else if (sscanf(line, "try=permit,%" SCNu32, carried) != 1 && sscanf(line, "try=refused,%" SCNu32, number) != 1)
        sscanf(strchr(line, '=') + 1, "%" SCNu32 ",%" SCNu32, number, carried);
}

static size_t line_length(size_t at, size_t n) {
    const uint8_t *end = memchr(input + at, '\n', n - at);
    return end == NULL ? n - at : (size_t)(end - input) - at + 1;
}

static int is_end(const uint8_t *s, size_t k) { return (k == 4 || (k == 5 && s[4] == '\n')) && memcmp(s, "end=", 4) == 0; }

/* A session of the office program. Before the first edit a request is made with zhul_pass too, which has to give the same. */
static void session(const char *name) {
    char out_name[4096];
    uint32_t number, carried, loaded;
    snprintf(out_name, sizeof out_name, "%.*s.out", (int)strlen(name) - 3, name);
    FILE *in = fopen(name, "rb"), *out = fopen(out_name, "rb");
    if (in == NULL || out == NULL) fprintf(stderr, "stack: %s can't be read\n", name), exit(2);
    size_t n = fread(input, 1, INPUT + 1, in), at = 0, k = 0;
    int edited = 0;
    if (n <= INPUT) {
        while (at < n && !is_end(input + at, k = line_length(at, n))) at += k;
        size_t file = at;
        expected(out, name, &loaded, &carried);
        expect(name, measured(LOAD, input, file, input, 0), loaded, carried);
        for (at += at < n ? k : 0; at < n; at += k) {
            k = line_length(at, n);
            size_t body = input[at + k - 1] == '\n' ? k - 1 : k;
            long b = -1;
            expected(out, name, &number, &carried);
            if (input[at] == '+' || input[at] == '-') expect(name, measured(EDIT, input + at, k, input, 0), number, carried), edited = 1;
            else if (body >= 4 && memcmp(input + at, "try=", 4) == 0 && (b = unhex(input + at + 4, body - 4)) >= 0) {
                expect(name, measured(DECIDE, bytes, (size_t)b, input, 0), number, carried);
                /* zhul_pass loads into the same table, so what follows finds it as it was. */
                if (!edited) expect(name, measured(PASS, input, file, bytes, (size_t)b), loaded != 0 ? loaded : number, 0);
            }
        }
        written(name);
    }
    fclose(in);
    fclose(out);
}

int main(int argc, char **argv) {
    largest(0);
    largest(1);
    size_t accepted[CALLS];
    memcpy(accepted, most, sizeof most);
    refused();
    for (int i = 1; i < argc; i++) session(argv[i]);
    for (int call = 0; call < CALLS; call++) printf("%s %zu (the largest files that are accepted: %zu)\n", names[call], most[call], accepted[call]);
    stray();
    stray_writes();
    return 0;
}
