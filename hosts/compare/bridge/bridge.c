/* Answers from the proved archives, for a machine that cannot link them. A question on standard input begins with a number, 0 to 6.
   0, of the reader: three counts, of the program's words, places and tables; the places; the program; the tables. The
   answer is the program's number, then one for each place and each table.
   1, of pieces: five counts, of the words of the program, the environment, the heap and the constraints, and of pieces;
   each piece's call and first word; the program; the tables. The answer is four words for each piece.
   2, of a text: four counts, of its bytes and of the words of program, origins and names; the bytes; these words. The answer
   is the four words of the reading's answer, how many words the program has, and program, origins and names.
   3, of a run: five counts, of the words of program, environment, heap, constraints and proposals; the budget; these words.
   The answer is the four words of the run's answer, how many words of the proposals are unread, and the three tables.
   4, of a list: six counts, of the words of program, environment, heap, constraints, entries and proposals; the rest and the
   answer are as for a run.
   5, of a program to be written: four counts, of its words, of the source's bytes, of the words of names and of the bytes lent
   for the text; all these. The answer is the four words of the writing's answer, how many bytes the text has, and the lent bytes.
   6, of an asking: six counts, of the words of program, environment, heap, constraints and both slices; the statement's word; the
   words of them all. The answer is the three words of the asking's answer, how many words are accepted, and the three tables. */
typedef __INT32_TYPE__ word;
typedef __SIZE_TYPE__ number;

enum { WORDS = 8192, PLACES = 1024, TABLES = 64, TABLE_WORDS = 98, PIECES = 256, BYTES = 1 << 20, LENT = 3, MOST_ROWS = 6 };
enum { RUN = 3, LIST = 4, ASKING = 6 };

number compared_program(const word *program, number words);
number compared_statement(const word *program, number words, number at);
number compared_constraints(const word *program, number words, const word *constraints, number count);
void compared_path(const word *environment, number e, const word *heap, number h, const word *p, number n, word *answer, number a);
void compared_expression(const word *environment, number e, const word *heap, number h, const word *p, number n, word *answer, number a);
void compared_test(const word *environment, number e, const word *heap, number h, const word *p, number n, word *answer, number a);
void compared_parts(const word *environment, number e, const word *heap, number h, const word *p, number n, word *answer, number a);
void compared_kept(const word *program, number words, const word *environment, number e, const word *heap, number h,
                   const word *constraints, number c, word *answer, number a);
number cordbasin_read(const unsigned char *text, number bytes, word *program, number p, word *origins, number o, word *names,
                      number n, word *answer);
number cordbasin_run(const word *program, number p, word *environment, number e, word *heap, number h, word *constraints, number c,
                     const word *proposals, number r, word budget, word *answer);
number cordbasin_assign(const word *program, number p, word *environment, number e, word *heap, number h, word *constraints, number c,
                        const word *entries, number n, const word *proposals, number r, word budget, word *answer);
number cordbasin_ask(const word *program, number p, word *environment, number e, word *heap, number h, word *constraints, number c,
                     word at, const word *first, number f, const word *second, number s, word *answer);
number cordbasin_write(const word *program, number p, const unsigned char *source, number s, const word *names, number n,
                       unsigned char *text, number t, word *answer);

static number what, counts[MOST_ROWS], places[PLACES], answers[1 + PLACES + TABLES], pieces[PIECES][2];
static word program[WORDS], tables[TABLES][TABLE_WORDS], environment[WORDS], heap[WORDS], constraints[WORDS], fours[PIECES][4], lent[LENT][WORDS], rows[MOST_ROWS][WORDS], single;
static unsigned char text[BYTES], page[BYTES];

static long call(long what, long first, const void *second, number third)
{
    long result;
    __asm__ volatile("syscall" : "=a"(result) : "a"(what), "D"(first), "S"(second), "d"(third) : "rcx", "r11", "memory");
    return result;
}

/* The archives' own calls for a row of equal bytes, and for a copy; there is no C library here. */
void *memset(void *to, int byte, number count)
{
    void *at = to;
    __asm__ volatile("rep stosb" : "+D"(at), "+c"(count) : "a"(byte) : "memory");
    return to;
}

void *memcpy(void *to, const void *from, number count)
{
    void *at = to;
    __asm__ volatile("rep movsb" : "+D"(at), "+S"(from), "+c"(count) : : "memory");
    return to;
}

static void leave(int status)
{
    for (;;)
        call(60, status, 0, 0);
}

/* Reads (0) or writes (1) all the bytes; the end of the input before the first byte ends the program well. */
static void pass(long way, void *bytes, number count, int at_start)
{
    number done = 0;
    while (done < count) {
        long now = call(way, way, (char *)bytes + done, count - done);
        if (now <= 0)
            leave(!(now == 0 && at_start && done == 0));
        done += (number)now;
    }
}

static void answer_reader(void)
{
    number n = 0;
    pass(0, counts, 3 * sizeof *counts, 0);
    if (counts[0] > WORDS || counts[1] > PLACES || counts[2] > TABLES)
        leave(2);
    pass(0, places, counts[1] * sizeof *places, 0);
    pass(0, program, counts[0] * sizeof *program, 0);
    pass(0, tables, counts[2] * sizeof *tables, 0);
    answers[n++] = compared_program(program, counts[0]);
    for (number i = 0; i < counts[1]; i++)
        answers[n++] = compared_statement(program, counts[0], places[i]);
    for (number i = 0; i < counts[2]; i++)
        answers[n++] = compared_constraints(program, counts[0], tables[i], TABLE_WORDS);
    pass(1, answers, n * sizeof *answers, 0);
}

static void answer_piece(number call, number start, word *four)
{
    number at = start < counts[0] ? start : counts[0], left = counts[0] - at;
    const word *p = program + at;
    switch (call) {
    case 0: compared_path(environment, counts[1], heap, counts[2], p, left, four, 4); break;
    case 1: compared_expression(environment, counts[1], heap, counts[2], p, left, four, 4); break;
    case 2: compared_test(environment, counts[1], heap, counts[2], p, left, four, 4); break;
    case 3: compared_parts(environment, counts[1], heap, counts[2], p, left, four, 4); break;
    case 4: compared_kept(program, counts[0], environment, counts[1], heap, counts[2], constraints, counts[3], four, 4); break;
    default: leave(2);
    }
}

static void answer_pieces(void)
{
    pass(0, counts, 5 * sizeof *counts, 0);
    if (counts[0] > WORDS || counts[1] > WORDS || counts[2] > WORDS || counts[3] > WORDS || counts[4] > PIECES)
        leave(2);
    pass(0, pieces, counts[4] * sizeof *pieces, 0);
    pass(0, program, counts[0] * sizeof *program, 0);
    pass(0, environment, counts[1] * sizeof *environment, 0);
    pass(0, heap, counts[2] * sizeof *heap, 0);
    pass(0, constraints, counts[3] * sizeof *constraints, 0);
    for (number i = 0; i < counts[4]; i++)
        answer_piece(pieces[i][0], pieces[i][1], fours[i]);
    pass(1, fours, counts[4] * sizeof *fours, 0);
}

static void answer_text(void)
{
    pass(0, counts, 4 * sizeof *counts, 0);
    if (counts[0] > BYTES || counts[1] > WORDS || counts[2] > WORDS || counts[3] > WORDS)
        leave(2);
    pass(0, text, counts[0], 0);
    for (int i = 0; i < LENT; i++)
        pass(0, lent[i], counts[1 + i] * sizeof **lent, 0);
    answers[0] = cordbasin_read(text, counts[0], lent[0], counts[1], lent[1], counts[2], lent[2], counts[3], fours[0]);
    pass(1, fours[0], sizeof fours[0], 0);
    pass(1, answers, sizeof *answers, 0);
    for (int i = 0; i < LENT; i++)
        pass(1, lent[i], counts[1 + i] * sizeof **lent, 0);
}

/* A row and its count, as the calls take them. */
#define ROW(i) rows[i], counts[i]

/* Of a run, a list or an asking, which have so many rows of words and a single word beside them. */
static void answer_call(int count)
{
    pass(0, counts, count * sizeof *counts, 0);
    pass(0, &single, sizeof single, 0);
    for (int i = 0; i < count; i++) {
        if (counts[i] > WORDS)
            leave(2);
        pass(0, rows[i], counts[i] * sizeof **rows, 0);
    }
    switch (what) {
    case RUN: answers[0] = cordbasin_run(ROW(0), ROW(1), ROW(2), ROW(3), ROW(4), single, fours[0]); break;
    case LIST: answers[0] = cordbasin_assign(ROW(0), ROW(1), ROW(2), ROW(3), ROW(4), ROW(5), single, fours[0]); break;
    default: answers[0] = cordbasin_ask(ROW(0), ROW(1), ROW(2), ROW(3), single, ROW(4), ROW(5), fours[0]);
    }
    pass(1, fours[0], (what == ASKING ? 3 : 4) * sizeof **fours, 0);
    pass(1, answers, sizeof *answers, 0);
    for (int i = 1; i <= LENT; i++)
        pass(1, rows[i], counts[i] * sizeof **rows, 0);
}

static void answer_program(void)
{
    pass(0, counts, 4 * sizeof *counts, 0);
    if (counts[0] > WORDS || counts[1] > BYTES || counts[2] > WORDS || counts[3] > BYTES)
        leave(2);
    pass(0, program, counts[0] * sizeof *program, 0);
    pass(0, text, counts[1], 0);
    pass(0, lent[0], counts[2] * sizeof **lent, 0);
    pass(0, page, counts[3], 0);
    answers[0] = cordbasin_write(program, counts[0], text, counts[1], lent[0], counts[2], page, counts[3], fours[0]);
    pass(1, fours[0], sizeof fours[0], 0);
    pass(1, answers, sizeof *answers, 0);
    pass(1, page, counts[3], 0);
}

__attribute__((noreturn, used)) static void serve(void)
{
    for (;;) {
        pass(0, &what, sizeof what, 1);
        switch (what) {
        case 0: answer_reader(); break;
        case 1: answer_pieces(); break;
        case 2: answer_text(); break;
        case RUN: answer_call(5); break;
        case LIST: answer_call(6); break;
        case 5: answer_program(); break;
        case ASKING: answer_call(6); break;
        default: leave(2);
        }
    }
}

__asm__(".globl _start\n_start: xorl %ebp, %ebp\n andq $-16, %rsp\n call serve\n");
