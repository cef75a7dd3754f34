/* Reads three sheets from their texts, runs each from fresh tables and prints what comes back: document 01's sheet K1, on whose tables
   two lists then set fields, and whose text is then written again; one that is refused when it runs; and one that is no program. Also
   builds as C++. */
#include "cordbasin.h"

#include <stdio.h>
#include <string.h>

/* The text at hand. */
static const char *text;

/* Its program, and how many words that has. */
static int32_t program[CORDBASIN_PROGRAM_WORDS];
static size_t program_words;
static int32_t origins[CORDBASIN_PROGRAM_WORDS];
static int32_t names[CORDBASIN_NAMES_WORDS];

static int32_t environment[CORDBASIN_ENVIRONMENT_WORDS];
static int32_t heap[CORDBASIN_HEAP_WORDS];
static int32_t constraints[CORDBASIN_CONSTRAINTS_WORDS];

/* The name whose place and length stand at a word of the table of names. */
static void print_name(int word)
{
    printf("%.*s", (int)names[word + 1], text + names[word]);
}

/* A cell's kind and payload. */
static void print_cell(const int32_t *cell)
{
    static const char *const kinds[] = {"absent", "nil", "boolean", "integer", "record"};
    printf(" %s", kinds[cell[0]]);
    if (cell[0] > CORDBASIN_NIL)
        printf(" %d", (int)cell[1]);
}

static void print_variables(void)
{
    for (int variable = 0; variable < 64; variable++) {
        const int32_t *cell = environment + 2 * variable;
        if (cell[0] == CORDBASIN_ABSENT)
            continue;
        print_name(2 * variable);
        printf(":");
        print_cell(cell);
        printf("\n");
    }
}

static void print_records(void)
{
    for (int record = 0; record < heap[0]; record++) {
        const int32_t *words = heap + 1 + 25 * record;
        printf("record %d:", record);
        for (int place = 0; place < words[0]; place++) {
            const int32_t *field = words + 1 + 3 * place;
            printf("%s", place == 0 ? " " : ", ");
            print_name(CORDBASIN_FIRST_LABEL + 2 * field[0]);
            print_cell(field + 1);
        }
        printf("\n");
    }
}

static void print_constraints(void)
{
    for (int kept = 0; kept < constraints[0]; kept++)
        printf("kept constraint: byte %d of the text\n", (int)origins[constraints[2 + kept]]);
    for (int kept = 0; kept < constraints[1]; kept++)
        printf("kept identity: byte %d of the text\n", (int)origins[constraints[66 + kept]]);
}

static void print_tables(void)
{
    print_variables();
    print_records();
    print_constraints();
}

static void print_answer(const char *call, const int32_t *answer, size_t unread)
{
    printf("%s: outcome %d at place %d\n", call, (int)answer[CORDBASIN_OUTCOME], (int)answer[CORDBASIN_PLACE]);
    printf("%d steps, %d proposals accepted, %d words unread\n", (int)answer[CORDBASIN_STEPS],
           (int)answer[CORDBASIN_ACCEPTED], (int)unread);
}

/* A refusal, shown in the text: its number, line and column, the line, and a mark under the byte. */
static void show(int outcome, int place)
{
    int start = place, line = 1;
    while (start > 0 && text[start - 1] != '\n')
        start--;
    for (int byte = 0; byte < start; byte++)
        line += text[byte] == '\n';
    printf("%d at line %d, column %d\n", outcome, line, place - start + 1);
    printf("%.*s\n", (int)strcspn(text + start, "\r\n"), text + start);
    for (int byte = start; byte < place; byte++)
        putchar(text[byte] == '\t' ? '\t' : ' ');
    printf("^\n");
}

/* From 4 on the place is a word of the program, and the origins have the byte that it comes from. */
static void run(const int32_t *proposals, size_t count)
{
    int32_t answer[4];
    memset(environment, 0, sizeof environment);
    memset(heap, 0, sizeof heap);
    memset(constraints, 0, sizeof constraints);
    size_t unread = cordbasin_run(program, program_words, environment, CORDBASIN_ENVIRONMENT_WORDS, heap, CORDBASIN_HEAP_WORDS,
                                  constraints, CORDBASIN_CONSTRAINTS_WORDS, proposals, count, 100, answer);
    print_answer("run", answer, unread);
    if (answer[CORDBASIN_OUTCOME] >= CORDBASIN_UNFIT_START)
        show((int)answer[CORDBASIN_OUTCOME], (int)origins[answer[CORDBASIN_PLACE]]);
    print_tables();
}

/* On the tables that are there. From 5 on the place is an entry's index, and no word of the program. */
static void assign(const int32_t *entries, size_t entries_words, const int32_t *proposals, size_t count)
{
    int32_t answer[4];
    size_t unread = cordbasin_assign(program, program_words, environment, CORDBASIN_ENVIRONMENT_WORDS, heap, CORDBASIN_HEAP_WORDS,
                                     constraints, CORDBASIN_CONSTRAINTS_WORDS, entries, entries_words, proposals, count, 100, answer);
    print_answer("list", answer, unread);
    if (answer[CORDBASIN_OUTCOME] >= CORDBASIN_BUDGET_SPENT)
        printf("entry %d is refused\n", (int)answer[CORDBASIN_PLACE]);
    print_tables();
    printf("\n");
}

static void read_and_run(const char *typed, const int32_t *proposals, size_t count)
{
    int32_t answer[4];
    text = typed;
    program_words = cordbasin_read((const uint8_t *)text, strlen(text), program, CORDBASIN_PROGRAM_WORDS, origins,
                                   CORDBASIN_PROGRAM_WORDS, names, CORDBASIN_NAMES_WORDS, answer);
    printf("read: outcome %d at byte %d, %d words, %d variables, %d labels\n", (int)answer[CORDBASIN_OUTCOME],
           (int)answer[CORDBASIN_PLACE], (int)program_words, (int)answer[CORDBASIN_VARIABLES], (int)answer[CORDBASIN_LABELS]);
    if (answer[CORDBASIN_OUTCOME] == CORDBASIN_FINISHED)
        run(proposals, count);
    else
        show((int)answer[CORDBASIN_OUTCOME], (int)answer[CORDBASIN_PLACE]);
    printf("\n");
}

/* On K1's tables. x is variable 0; bytes is label 0, at location 64, and samples label 1, at 65. */
static void set_fields(void)
{
    /* x.samples := 40, with 160 for x.bytes; x.bytes := 192, with 48 for x.samples. */
    static const int32_t lengths[] = {0, 1, 1, CORDBASIN_LITERAL_INTEGER, 40, 0, 1, 0, CORDBASIN_LITERAL_INTEGER, 192};
    static const int32_t fitting[] = {1, 64, 160, 1, 65, 48};
    assign(lengths, 10, fitting, 6);
    /* The same, and no change for the second, so that x.bytes is not 4 * x.samples. */
    static const int32_t silent[] = {1, 64, 160, 0};
    assign(lengths, 10, silent, 4);
}

/* Writes a program and prints its text, with the names that stand in a source. */
static void write_text(const int32_t *words, size_t count, const char *source, const int32_t *table)
{
    static uint8_t written[CORDBASIN_TEXT_BYTES];
    int32_t answer[4];
    size_t bytes = cordbasin_write(words, count, (const uint8_t *)source, strlen(source), table, CORDBASIN_NAMES_WORDS, written,
                                   sizeof written, answer);
    printf("write: outcome %d at place %d, %d bytes, %d variables, %d labels\n", (int)answer[CORDBASIN_OUTCOME],
           (int)answer[CORDBASIN_PLACE], (int)bytes, (int)answer[CORDBASIN_VARIABLES], (int)answer[CORDBASIN_LABELS]);
    printf("%.*s\n\n", (int)bytes, (const char *)written);
}

/* K1's program as it comes to support, words without a text, and as it was read, with its own names. */
static void write_texts(void)
{
    static const int32_t words[] = {3, 2, 0, 2, 0, 23, 64, 1, 23, 16, 3, 1, 3, 25, 6, 24, 0,
                                    1, 0, 25, 3, 23, 4, 24, 0, 1, 1, 1, 0, 1, 1, 23, 32};
    static const int32_t no_names[CORDBASIN_NAMES_WORDS] = {0};
    write_text(words, 33, "", no_names);
    write_text(program, program_words, text, names);
}

int main(void)
{
    /* One for each statement: no change, no change, and 128 for location 64, field place 0 of record 0. */
    static const int32_t proposals[] = {0, 0, 1, 64, 128};
    read_and_run("x := new {bytes: 64, samples: 16};\n"
                 "always required x.bytes = 4 * x.samples;\n"
                 "x.samples := 32",
                 proposals, 5);
    set_fields();
    write_texts();
    /* The new record has no samples, so that the kept constraint no longer reads. */
    read_and_run("x := new {bytes: 64, samples: 16};\n"
                 "always required x.bytes = 4 * x.samples;\n"
                 "x := new {bytes: 128}",
                 proposals, 5);
    read_and_run("x := new {bytes: 64, samples: 16}\n"
                 "always required x.bytes = 4 * x.samples",
                 proposals, 5);
}
