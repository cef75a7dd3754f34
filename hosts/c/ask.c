/* Asks made-up solvers, two at a time, about the last statement of document 01's sheet K1. Each is told how many samples the statement
   sets, and writes a proposal; one of them is honest. What comes back is printed: whose words were accepted, and what the record then
   holds. Also builds as C++. */
#include "cordbasin.h"

#include <stdio.h>
#include <string.h>

/* x := new {bytes: 64, samples: 16}; always required x.bytes = 4 * x.samples; x.samples := 32 */
static const int32_t program[] = {3, 2, 0, 2, 0, 23, 64, 1, 23, 16, 3, 1, 3, 25, 6, 24, 0,
                                  1, 0, 25, 3, 23, 4, 24, 0, 1, 1, 1, 0, 1, 1, 23, 32};
enum { PROGRAM_WORDS = 33, SET = 32 /* the word that has what x.samples is set to */ };

/* The locations of x.bytes and x.samples, field places 0 and 1 of record 0. */
enum { BYTES = 64, SAMPLES = 65 };

/* The most words that a proposal here has. */
enum { LONGEST = 3 };

static int32_t environment[CORDBASIN_ENVIRONMENT_WORDS];
static int32_t heap[CORDBASIN_HEAP_WORDS];
static int32_t constraints[CORDBASIN_CONSTRAINTS_WORDS];

/* Writes a proposal, and gives how many words that has. */
typedef size_t solver(int32_t samples, int32_t *proposal);

static size_t one_entry(int32_t *proposal, int32_t location, int32_t payload)
{
    proposal[0] = 1;
    proposal[1] = location;
    proposal[2] = payload;
    return 3;
}

static size_t honest(int32_t samples, int32_t *proposal)
{
    return one_entry(proposal, BYTES, 4 * samples);
}

/* The layout fits as it is, it says, with no entry at all. */
static size_t idle(int32_t samples, int32_t *proposal)
{
    (void)samples;
    proposal[0] = 0;
    return 1;
}

/* Three bytes for each sample, where the layout wants four. */
static size_t sparing(int32_t samples, int32_t *proposal)
{
    return one_entry(proposal, BYTES, 3 * samples);
}

/* With the old samples it would fit, but these are what the statement has just set. */
static size_t stubborn(int32_t samples, int32_t *proposal)
{
    return one_entry(proposal, SAMPLES, samples / 2);
}

/* Runs the sheet from fresh tables, with no change for its first two statements. For want of a proposal the run stops at the third, and
   its place is the word to ask about. */
static int32_t run(void)
{
    static const int32_t proposals[] = {0, 0};
    int32_t answer[4];
    memset(environment, 0, sizeof environment);
    memset(heap, 0, sizeof heap);
    memset(constraints, 0, sizeof constraints);
    cordbasin_run(program, PROGRAM_WORDS, environment, CORDBASIN_ENVIRONMENT_WORDS, heap, CORDBASIN_HEAP_WORDS, constraints,
                  CORDBASIN_CONSTRAINTS_WORDS, proposals, 2, 100, answer);
    return answer[CORDBASIN_PLACE];
}

/* The integers of record 0, by their labels. */
static void print_record(void)
{
    static const char *const labels[] = {"bytes", "samples"};
    const int32_t *record = heap + 1;
    for (int place = 0; place < record[0]; place++) {
        const int32_t *field = record + 1 + 3 * place;
        printf("%s%s %d", place == 0 ? "record 0: " : ", ", labels[field[0]], (int)field[2]);
    }
    printf("\n");
}

/* The accepted words are the first of the slice of the solver that is told. */
static void print_accepted(int32_t number, const int32_t *words, size_t count)
{
    printf("accepted of solver %d:", (int)number);
    for (size_t word = 0; word < count; word++)
        printf(" %d", (int)words[word]);
    printf("\n");
}

static void ask(const char *who, solver *one, solver *other)
{
    int32_t first[LONGEST], second[LONGEST], answer[3];
    int32_t word = run();
    size_t first_words = one(program[SET], first), second_words = other(program[SET], second);
    size_t accepted = cordbasin_ask(program, PROGRAM_WORDS, environment, CORDBASIN_ENVIRONMENT_WORDS, heap, CORDBASIN_HEAP_WORDS,
                                    constraints, CORDBASIN_CONSTRAINTS_WORDS, word, first, first_words, second, second_words, answer);
    printf("%s: outcome %d at place %d\n", who, (int)answer[CORDBASIN_OUTCOME], (int)answer[CORDBASIN_PLACE]);
    if (answer[CORDBASIN_SOLVER] != 0)
        print_accepted(answer[CORDBASIN_SOLVER], answer[CORDBASIN_SOLVER] == 1 ? first : second, accepted);
    print_record();
    printf("\n");
}

int main(void)
{
    ask("honest, idle", honest, idle);
    ask("idle, honest", idle, honest);
    ask("stubborn, honest", stubborn, honest);
    /* Two that lie: the number is the second's. */
    ask("stubborn, sparing", stubborn, sparing);
    ask("sparing, stubborn", sparing, stubborn);
}
