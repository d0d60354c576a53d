/* Zhulmekov: access control at ski-lift turnstiles. The calls for hosts in C; compiles as C89 (with <stdint.h>) to C23 and as C++.

   A host owns three buffers, the book, the rules and the table, and lends them to the calls; zhul_write is lent a fourth, which it writes a file into.
   No call allocates, locks or keeps anything between calls, and none writes outside what it is lent. No argument may be a null pointer, and no two
   buffers that a call is lent may overlap. A file, an edit line, a block and the buffer of zhul_write are bytes with their length; the table is words
   with their number, which has to be ZHUL_TABLE_WORDS (else every call that is lent a table answers 1 and the table keeps its words; zhul_write and
   zhul_length are lent none).

   The book, the rules and the table may hold anything before a load. Between calls they are the library's: a host may copy and keep them as plain
   memory, and must not write to them. The table's words may be read (see ZHUL_TABLE_WORDS) and compared; the book and the rules may not, since words
   that a book does not use are free: two books of one state can differ there, and a refused load leaves old bytes in the rules. An edit must be lent
   the book and the table that the last load or edit left, a request these two and the rules that the last load left, zhul_write and zhul_length the
   book that the last load or edit left and the rules that the last load left. On other contents these four still end and stay in bounds, but what they
   answer, and what an edit writes to the book and the table and zhul_write to its buffer, is not fixed.

   Before the first load there is no book to lend. A host that may be asked earlier starts with the empty book: it loads a file of 0 bytes. This load
   answers 3 with line 1, as for every file without its first line, and makes the table all 0. On the empty book, which every refused load leaves, each
   edit is refused, each request gets 15 or 16, and the file that zhul_write puts out is the first line alone, 9 bytes, which zhul_length tells.

   Stack, as hosts/stack measures it on x86-64 (KB of 1000 bytes, rounded up; measured, not proved): zhul_pass 84 KB, of which 75 KB are a book and rules
   of its own, zhul_load 9 KB, zhul_edit 8 KB, zhul_decide 2 KB, zhul_write and zhul_length 1 KB: for any file, accepted or refused, and for the last three
   on any book and rules, also on bytes that no call left, which must not be lent.

   Of the C library the calls need memset, memcpy and memmove, and nothing else; a firmware without that library gives its own. */
#ifndef ZHULMEKOV_H
#define ZHULMEKOV_H

#include <stddef.h>
#include <stdint.h>

#ifdef __cplusplus
extern "C" {
#endif

#define ZHUL_TABLE_WORDS 1024  /* words of 64 bits: holder k's set is the four words from word 4k, pair p bit p modulo 64 of word p / 64 of these */
#define ZHUL_BOOK_WORDS 5240   /* words of 64 bits of a book */
#define ZHUL_RULES_BYTES 32768 /* bytes of a book's rules */

/* A pass block, of 10 + 5n bytes; numbers of more bytes have their low byte first:
     byte 0      1
     byte 1      the user's number, byte 2 the object's: holders are numbered in the order of the file's ugroup, ogroup, user and object lines from 1,
                 admin is 0
     byte 3      the operation's number, in the order of the op lines from 0
     bytes 4-7   the activated attributes: bit k is attribute k, in the order of the attr lines of all sources from 0
     byte 8      n, the number of entries, 0 to 8
     byte 9      0
     then        n entries of five bytes: the number of an env or connect attribute, and its value in four bytes (a bool is 0 or 1)
   docs/FORMAT.md has it with examples, and the formats of files, edits and policies. */

/* Numbers: 0 done (of a request: permit), 64 deny, 65 undefined, else a refusal of document 01. Of several refusals the lowest is given, but 13 comes
   before all but 4, and the first offending line of a file decides. zhul_pass gives the refusals of zhul_load, and after an accepted load those of
   zhul_decide. README.md says what to do about each. */

/* Every call that is lent a table; the table keeps its words, a load leaves the empty book, an edit keeps its own. */
#define ZHUL_WRONG_TABLE 1 /* the lent table has not 1,024 words (any call of a host in C that is lent a table) */

/* zhul_load, which carries the line, from 1, but 0 with 1 and 2; it leaves the empty book and, but for 1, a table all 0. */
#define ZHUL_TOO_LONG 2 /* the file has more than 32,768 bytes */
#define ZHUL_WRONG_FIRST_LINE 3 /* the first line is missing, or is not rights=1 with its line end, byte 10 alone: a file with CR LF or with a byte
   order mark is refused here */

/* zhul_load and zhul_edit; a refused edit changes nothing. */
#define ZHUL_UNFRAMED 4 /* a line over 255 bytes (the line end and an edit's sign not counted), without its line end, without = or with an unknown
   key, a second rights among them; from hosts in C also an edit without + or -, or with bytes behind its line end */
#define ZHUL_OUT_OF_ORDER 5 /* a key that should have come earlier (files only) */
#define ZHUL_MALFORMED 6 /* the wrong number of fields, or a source, type, name, value or policy that is malformed: a name over 12 bytes or with a
   capital, a number over 4294967295 or with a leading zero, a string over 12 bytes, a policy that cannot be read, for {} or a set of two types
   too */
#define ZHUL_OVER_LIMITS 7 /* a policy that can be read, but has more than 16 terms (those in parentheses counted, the parentheses themselves not),
   parentheses more than 8 deep or a set of more than 8 values (files only) */
#define ZHUL_UNDECLARED 8 /* a name or a pair that is not declared; for a value line: no such pair of the source that goes with the holder (user for
   users and their groups, object for objects and theirs, admin for admin) */
#define ZHUL_WRONG_SORT 9 /* a parent or member of the wrong sort (a user in a group of objects), a str attribute of env or connect (files only), an
   atom of env or connect or of the wrong type (files only) */
#define ZHUL_REPEATED 10 /* declared already (files only), or a tie that stands already; never for a - line */
#define ZHUL_FULL 11 /* more than 32 attributes, 8 operations, 256 pairs, 255 holders beside admin, 64 groups of both sorts together or 32 rules
   (files only) */
#define ZHUL_CIRCULAR 12 /* a parent line that would make a group stand above itself, also one of a group with itself; never for a - line */

/* zhul_edit. */
#define ZHUL_OTHER_KEY 13 /* an edit of another known key than parent, member or value; comes after 4, before the rest */
#define ZHUL_NOT_STANDING 14 /* - of a tie that does not stand */

/* zhul_decide; nothing is written. */
#define ZHUL_BAD_BLOCK 15 /* a pass block of the wrong form: byte 0 is not 1, byte 8 (n, the number of entries) is above 8, byte 9 is not 0, or the
   length is not 10 + 5n */
#define ZHUL_WRONG_NUMBER 16 /* a pass block whose byte 1 is not the number of a user, byte 2 not of an object (admin, a group and the other sort are
   wrong too) or byte 3 not of an operation; an entry whose attribute is not one of env or connect; an entry of a bool above 1 */
#define ZHUL_NOT_HELD 17 /* a pass block that activates a bit of no user attribute, or a user attribute of which this user has no value, neither its
   own nor from a group */

/* zhul_write; the buffer keeps its bytes. */
#define ZHUL_DOES_NOT_FIT 18 /* the present file is longer than the lent buffer, or than the 32,768 bytes of a file */

/* A request that is not refused. */
#define ZHUL_PERMIT 0
#define ZHUL_DENY 64
#define ZHUL_UNDEFINED 65

/* Why a request is undefined: whom the staff send the skier to, or call. Absent: a value is lacking; the pass, the gate, admin or the entries have none
   of an attribute that a rule asks for, or the pass does not activate it. Unlike: all that a rule asks for is there, but it compares things of
   different types, orders what is no integer, takes for true or false what is no bool, or says UNDEF. Of several undefined rules, one that is absent
   makes the answer absent. */
#define ZHUL_ABSENT 1
#define ZHUL_UNLIKE 2

/* The number of an answer, and what it carries: the line of a load (of an accepted one the lines read), the length in bytes of the file that a write put
   out (0 of a refused one). zhul_length answers a length and nothing else: it has no such parts. An answer to an edit and one to a request carry two
   things each, which the macros below tell apart; ZHUL_CARRIED of a permit is still the rule. */
#define ZHUL_NUMBER(answer) ((uint32_t)((answer) & 0xffffffffu))
#define ZHUL_CARRIED(answer) ((uint32_t)((answer) >> 32))

/* Of an answer to an edit, both 0 of a refused one: the count, how many holders' sets changed, and the set joins that it took. For the edited holder and
   each one below it these are one, and one for each parent or group that it has after the edit, summed, whether its set changed or not: at most 65 for
   each holder, 16,640 in all. They are what an edit's time goes by: see zhul_edit. */
#define ZHUL_COUNT(answer) ((uint32_t)(((answer) >> 32) & 0xfffu))
#define ZHUL_JOINS(answer) ((uint32_t)((answer) >> 44))

/* Of an answer to a request: the rule of a permit, and with ZHUL_UNDEFINED its cause, ZHUL_ABSENT or ZHUL_UNLIKE; 0 with every other number. */
#define ZHUL_RULE(answer) ((uint32_t)(((answer) >> 32) & 0xffu))
#define ZHUL_CAUSE(answer) ((uint32_t)(((answer) >> 40) & 3u))

/* Document 01's one call: loads the file, then decides the block. 0 permit, 64 deny, 65 undefined, else the refusal; the table as after the load. It
   tells neither rule nor cause: 65 is for both causes. It has its book on the stack: see above. */
uint32_t zhul_pass(const uint8_t *file, size_t file_length, const uint8_t *block, size_t block_length, uint64_t *table, size_t table_words);

/* Loads a file into the host's book: book[ZHUL_BOOK_WORDS], rules[ZHUL_RULES_BYTES]. */
uint64_t zhul_load(const uint8_t *file, size_t file_length, uint64_t *book, uint8_t *rules, uint64_t *table, size_t table_words);

/* One edit line, with its sign and its byte 10, on the book and the table that the last load or edit left. The number, the count and the joins: see
   ZHUL_COUNT and ZHUL_JOINS. Time, measured with the library as the older kit, rattle-kit-5b-plain, built it, and not proved: up to 0.1 us and 8 ns for
   each join, but for long chains of groups that stand in the file in no order (README.md, "Edits between two skiers"). */
uint64_t zhul_edit(const uint8_t *line, size_t line_length, uint64_t *book, uint64_t *table, size_t table_words);

/* One pass block, on the book and the table that the last load or edit left and the rules that the last load left. The number, the rule of a permit and
   the cause of undefined: see ZHUL_RULE and ZHUL_CAUSE. Nothing is written. */
uint64_t zhul_decide(const uint8_t *block, size_t block_length, const uint64_t *book, const uint8_t *rules, const uint64_t *table, size_t table_words);

/* The file as it stands now, into the start of the host's buffer[buffer_length], from the book that the last load or edit left and the rules that the
   last load left. Nothing else is written: the bytes of the buffer behind the file keep their content, and so do all of them after a refusal, 18.
   32,768 bytes are always enough for a file that can be loaded; a host that lends so many and gets 18 takes ties away first. The file ends with its
   last line's byte 10; there is no byte 0 behind it. Time: linear in the length of the file, also of one that is refused, and in the number of
   holders. */
uint64_t zhul_write(const uint64_t *book, const uint8_t *rules, uint8_t *buffer, size_t buffer_length);

/* The length in bytes of the file that zhul_write would put out, told beforehand, from the same book and rules. Nothing is written and nothing is
   refused. zhul_write answers 18 precisely when this length is over its buffer's or over 32,768: if it is at most 32,768, a buffer of so many bytes is
   just enough. Edits can make a file longer than that, and its length is told all the same: megabytes are possible (hosts/longest.c: 3,556,503 bytes),
   and whatever book and rules are lent, it is at most 15,782,188. Time: linear as that of a write; some 0.36 of a write that is not refused were
   measured with the library as the older kit, rattle-kit-5b-plain, built it (bench/README.md). */
uint64_t zhul_length(const uint64_t *book, const uint8_t *rules);

#ifdef __cplusplus
}
#endif

#endif
