/* How much stack the calls take, on a stack that was painted before: a run of a sheet with blocks nested 8 deep and an expression nested
   16 deep, and one that moves the largest class there, and nine cells more; a list over such a sheet; two solvers on its innermost
   statement and on an assignment, over 64 kept constraints; reading such a text and writing its program; and reading one bracket and
   30,000 around a number. */
#define _POSIX_C_SOURCE 200809L
#include <pthread.h>
#include <stdint.h>
#include <stdio.h>
#include <string.h>

#include "cordbasin.h"

enum { STACK = 1 << 20, PAINT = 0x5A, IFS = 7, DEEP = 15, BRACKETS = 30000 };
/* How many bytes fail, for each call. */
enum { RUNNING = 18432, LISTING = 12288, ASKING = 12288, WRITING = 65536, READING = 131072 };
/* The words at which the program below has its assignment and its constraint, where no always stands before them; an always, its words,
   and how many are kept. */
enum { ASSIGNMENT = 1, CONSTRAINT = 6 + 3 * IFS, ALWAYS = 3, ALWAYS_WORDS = 4 + 3 * DEEP, KEPT = 64 };
/* A class of as many cells as all identities tie, and as many cells more as are no longer few. */
enum { TIES = 32, CHANGED = 9, FIRST_CHANGED = 40 };

static _Alignas(65536) unsigned char stack[STACK];
static int32_t answer[4], program[CORDBASIN_PROGRAM_WORDS];
static char text[CORDBASIN_TEXT_BYTES];
static size_t bytes;
/* The program of the text that was read last. */
static int32_t typed[CORDBASIN_PROGRAM_WORDS];
static size_t words;

/* A weak part at a place of the program: true and true and .. and true. What follows it is given back. */
static int32_t *part(int32_t *at) {
    *at++ = 1;
    for (int nested = 0; nested < DEEP; nested++) {
        *at++ = 25;
        *at++ = 10;
    }
    for (int nested = 0; nested <= DEEP; nested++) *at++ = 22;
    return at;
}

/* So many words behind a place of the program. What follows them is given back. */
static int32_t *put_words(int32_t *at, const int32_t *words, size_t count) {
    memcpy(at, words, count * sizeof *words);
    return at + count;
}

/* IFS ifs whose test is true, the last with one statement to come; and their else, without any. */
static int32_t *put_ifs(int32_t *at) {
    for (int nested = 0; nested < IFS; nested++) at = put_words(at, (int32_t[]){7, 22, 1}, 3);
    return at;
}

static int32_t *put_elses(int32_t *at) {
    for (int nested = 0; nested < IFS; nested++) *at++ = 0;
    return at;
}

/* The words of so many always, each with that part; v0 := 1; and in IFS ifs: once required v0 = 2, and that part. */
static size_t written(int kept) {
    int32_t *at = program;
    *at++ = kept + 2;
    for (int turn = 0; turn < kept; turn++) {
        *at++ = ALWAYS;
        *at++ = 1;
        at = part(at);
    }
    at = put_ifs(put_words(at, (int32_t[]){1, 0, 0, 23, 1}, 5));
    at = put_elses(part(put_words(at, (int32_t[]){4, 2, 3, 25, 6, 24, 0, 0, 23, 2}, 10)));
    return (size_t)(at - program);
}

static void *run(void *unused) {
    static int32_t environment[128], heap[1601], constraints[98];
    const int32_t proposals[] = {0, 1, 0, 2};
    cordbasin_run(program, written(0), environment, 128, heap, 1601, constraints, 98, proposals, 4, 100, answer);
    return unused;
}

/* Always weak v40 = 1 and that part; v0 == v1, .., v31 == v32; and in IFS ifs: v0 := new {}, which moves the 33 cells. The proposal with
   it moves v40 to v48. */
static void *move_class(void *unused) {
    static int32_t environment[128], heap[1601], constraints[98];
    int32_t *at = program, proposals[2 + 2 * CHANGED] = {0, CHANGED};
    *at++ = 2 + TIES;
    at = part(put_words(at, (int32_t[]){ALWAYS, 2, 1, 25, 6, 24, FIRST_CHANGED, 0, 23, 1}, 10));
    for (int cell = 0; cell <= TIES; cell++) environment[2 * cell] = CORDBASIN_NIL;
    for (int tie = 0; tie < TIES; tie++) at = put_words(at, (int32_t[]){5, tie, 0, tie + 1, 0}, 5);
    at = put_elses(put_words(put_ifs(at), (int32_t[]){2, 0, 0}, 3));
    for (int turn = 0; turn < CHANGED; turn++) {
        environment[2 * (FIRST_CHANGED + turn)] = CORDBASIN_INTEGER;
        proposals[2 + 2 * turn] = FIRST_CHANGED + turn;
        proposals[3 + 2 * turn] = 1;
    }
    cordbasin_run(program, (size_t)(at - program), environment, 128, heap, 1601, constraints, 98, proposals, 2 + 2 * CHANGED, 100, answer);
    return unused;
}

/* v0 := 2, and the constraint is always and kept: it is read again before the list and after the entry. */
static void *assign(void *unused) {
    static int32_t environment[128] = {CORDBASIN_INTEGER, 2}, heap[1601], constraints[98] = {1, 0, CONSTRAINT};
    const int32_t entries[] = {0, 0, CORDBASIN_LITERAL_INTEGER, 2}, proposals[] = {0};
    size_t count = written(0);
    program[CONSTRAINT] = ALWAYS;
    cordbasin_assign(program, count, environment, 128, heap, 1601, constraints, 98, entries, 4, proposals, 1, 100, answer);
    return unused;
}

/* Every always is kept, and v0 is 1. */
static void ask(int32_t word, const int32_t *first, size_t first_words, const int32_t *second, size_t second_words) {
    static int32_t environment[128] = {CORDBASIN_INTEGER, 1}, heap[1601], constraints[98] = {KEPT};
    size_t count = written(KEPT);
    for (int turn = 0; turn < KEPT; turn++) constraints[2 + turn] = 1 + turn * ALWAYS_WORDS;
    cordbasin_ask(program, count, environment, 128, heap, 1601, constraints, 98, KEPT * ALWAYS_WORDS + word, first, first_words, second,
                  second_words, answer);
}

/* No change is turned down, and 2 for v0 is accepted. */
static void *ask_once(void *unused) {
    const int32_t first[] = {0}, second[] = {1, 0, 2};
    ask(CONSTRAINT, first, 1, second, 3);
    return unused;
}

/* A change of v0 itself is turned down, and none is accepted. */
static void *ask_assignment(void *unused) {
    const int32_t first[] = {1, 0, 2}, second[] = {0};
    ask(ASSIGNMENT, first, 3, second, 1);
    return unused;
}

static void *read_text(void *unused) {
    static int32_t origins[CORDBASIN_PROGRAM_WORDS], names[CORDBASIN_NAMES_WORDS];
    words = cordbasin_read((const uint8_t *)text, bytes, typed, CORDBASIN_PROGRAM_WORDS, origins, CORDBASIN_PROGRAM_WORDS, names,
                           CORDBASIN_NAMES_WORDS, answer);
    return unused;
}

static void *write_text(void *unused) {
    static const int32_t names[CORDBASIN_NAMES_WORDS];
    cordbasin_write(typed, words, NULL, 0, names, CORDBASIN_NAMES_WORDS, (uint8_t *)text, sizeof text, answer);
    return unused;
}

/* The same thread without a call, for what a thread itself takes. */
static void *rest(void *unused) {
    written(0);
    return unused;
}

static size_t used(void *(*work)(void *)) {
    pthread_attr_t attributes;
    pthread_t thread;
    memset(stack, PAINT, STACK);
    pthread_attr_init(&attributes);
    if (pthread_attr_setstack(&attributes, stack, STACK) != 0) return STACK;
    if (pthread_create(&thread, &attributes, work, NULL) != 0) return STACK;
    pthread_join(thread, NULL);
    size_t clean = 0;
    while (clean < STACK && stack[clean] == PAINT) clean++;
    return STACK - clean;
}

/* What a call takes beyond the thread; its outcome is told if it is not 0. */
static size_t taken(const char *what, void *(*work)(void *)) {
    size_t without = used(rest), with = used(work);
    printf("%s: outcome %d, %zu bytes of stack\n", what, (int)answer[0], with - without);
    return answer[0] == 0 ? with - without : STACK;
}

static void put(const char *part, int times) {
    for (int turn = 0; turn < times; turn++) {
        memcpy(text + bytes, part, strlen(part));
        bytes += strlen(part);
    }
}

/* A mark follows the last bracket, however many there are: it is looked for in the deepest frame, which is written whole for a mark alone. */
static size_t bracketed(const char *what, int brackets) {
    bytes = 0;
    put("x := ", 1);
    put("(", brackets);
    put("7", 1);
    put(")", brackets);
    put("; skip", 1);
    return taken(what, read_text);
}

/* In IFS ifs an always, with a path, and operators that nest to the right as deep as they may. */
static size_t nested(void) {
    bytes = 0;
    put("if true then {", IFS);
    put("always a.b.c.d.e.f.g.h = 1 /\\ weak ", 1);
    put("(1 + ", DEEP);
    put("a.b.c.d.e.f.g.h", 1);
    put(")", DEEP);
    put("} else {}", IFS);
    return taken("reading blocks and an expression nested deep", read_text);
}

int main(void) {
    size_t deepest = taken("a run of blocks and an expression nested deep", run);
    size_t class = taken("a run that moves a class of 33 cells and 9 more, nested deep", move_class);
    size_t list = taken("a list over blocks and an expression nested deep", assign);
    size_t once = taken("two solvers on a constraint nested deep", ask_once);
    size_t set = taken("two solvers on an assignment, over constraints nested deep", ask_assignment);
    size_t one = bracketed("reading one bracket", 1);
    size_t many = bracketed("reading 30,000 brackets", BRACKETS);
    size_t read = nested();
    size_t write = taken("writing blocks and an expression nested deep", write_text);
    int running = deepest < RUNNING && class < RUNNING && list < LISTING && once < ASKING && set < ASKING;
    return running && read < READING && write < WRITING && many == one ? 0 : 1;
}
