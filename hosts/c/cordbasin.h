/* Cordbasin's calls for a host in C or C++. Link libcordbasin.a; it needs at most memcpy, memset, memmove and memcmp. */
#ifndef CORDBASIN_H
#define CORDBASIN_H

#include <stddef.h>
#include <stdint.h>

#ifdef __cplusplus
extern "C" {
#endif

/* How many words each lent table has. Fresh tables are all zero. */
enum {
    CORDBASIN_ENVIRONMENT_WORDS = 128, /* kind and payload of the variables 0 to 63 */
    CORDBASIN_HEAP_WORDS = 1601,       /* record count; 64 records of field count and 8 times label, kind, payload */
    CORDBASIN_CONSTRAINTS_WORDS = 98   /* value count, identity count, 64 value positions, 32 identity positions */
};

/* How many words are lent for a text to be read into. */
enum {
    CORDBASIN_PROGRAM_WORDS = 4096, /* the most that a program may have; as many origins */
    CORDBASIN_NAMES_WORDS = 192,    /* first byte and length of the names of 64 variables, then of 32 labels */
    CORDBASIN_FIRST_LABEL = 128     /* the word at which the labels' begin */
};

/* The most bytes that a text may have: with so many lent, every text that can be written has room. */
enum { CORDBASIN_TEXT_BYTES = 65536 };

/* The kinds of a cell, the first of its two words. */
enum {
    CORDBASIN_ABSENT = 0,   /* payload 0 */
    CORDBASIN_NIL = 1,      /* payload 0 */
    CORDBASIN_BOOLEAN = 2,  /* payload 0 or 1 */
    CORDBASIN_INTEGER = 3,  /* payload any word */
    CORDBASIN_REFERENCE = 4 /* payload a record number below the record count */
};

/* The words of a literal, behind the target in an entry of a list. */
enum {
    CORDBASIN_LITERAL_NIL = 20,
    CORDBASIN_LITERAL_FALSE = 21,
    CORDBASIN_LITERAL_TRUE = 22,
    CORDBASIN_LITERAL_INTEGER = 23 /* the integer is the next word */
};

/* Outcomes, and the place that each comes with. 1 to 4 are tried in this order; they cost no steps, accept no proposal and change no
   table. From 5 on the tables hold what the last accepted statement left. 7, 8, 9 and 15 come with the word at fault; the place of the
   others from 5 on is the word of the statement that is refused (the while's where a later test cannot be paid). For a program that
   was read from a text, origins[place] is the byte to show. */
enum {
    /* place: the program's length */
    CORDBASIN_FINISHED = 0,
    /* a table's length or the budget is wrong; place: 0 */
    CORDBASIN_WRONG_SIZE = 1,
    /* the program does not read; place: its first unfit word, its length if words run out, 4096 if it has over 4,096 words; of an
       asking also: no statement that reads a proposal begins at the word */
    CORDBASIN_UNFIT_PROGRAM = 2,
    /* a table's content is unfit; place: the first such table, 0 environment, 1 heap, 2 constraints */
    CORDBASIN_UNFIT_TABLE = 3,
    /* at the start a kept constraint does not read, or a required part or an identity does not hold; place: its position */
    CORDBASIN_UNFIT_START = 4,
    /* the next step would pass the budget */
    CORDBASIN_BUDGET_SPENT = 5,
    /* no proposal words are left */
    CORDBASIN_NO_PROPOSAL = 6,
    /* an absent variable, a missing field, or a path through what is no record; place: the path's variable word */
    CORDBASIN_NO_CELL = 7,
    /* a value of the wrong kind; place: the first word of the operation (its 25) or of the test, the priority of the part, or the
       variable word of the identity's side */
    CORDBASIN_WRONG_KIND = 8,
    /* a sum, difference or product, outside constraints, leaves 32 bits; place: its first word (its 25) */
    CORDBASIN_OUT_OF_RANGE = 9,
    /* there are 64 records already */
    CORDBASIN_HEAP_FULL = 10,
    /* an identity does not hold now */
    CORDBASIN_NOT_IDENTICAL = 11,
    /* the identities would move a frozen cell, one that a path leads through */
    CORDBASIN_IDENTITY_CLASH = 12,
    /* the target of an identity is given a boolean or an integer */
    CORDBASIN_PLAIN_IDENTITY = 13,
    /* there is no room for a position that is not yet kept */
    CORDBASIN_NO_ROOM = 14,
    /* a kept value constraint no longer reads; place: the word that 7 or 8 would have in the first such constraint, in kept order */
    CORDBASIN_LOST_CONSTRAINT = 15,
    /* the proposal is cut short, its n is out of range, or its locations do not rise or are outside 0 to 575; of an asking also: words
       are left over behind it */
    CORDBASIN_UNFIT_PROPOSAL = 16,
    /* an entry of the proposal names a cell or a payload that it may not */
    CORDBASIN_UNFIT_ENTRY = 17,
    /* the proposal changes something, and every part was satisfied without it */
    CORDBASIN_NEEDLESS_CHANGE = 18,
    /* a required part is not met after the proposal */
    CORDBASIN_REQUIRED_UNMET = 19
};

/* Outcomes of reading a text, beside 0 and 1. The place is the first byte of the token at which one of them applies first; it is the
   text's length where the text ends too early, and 65536 where it is too long. */
enum {
    /* the token may not stand there, or there is none, or a label that this new has already */
    CORDBASIN_UNFIT_TEXT = 20,
    /* the name of the 65th variable or the 33rd label */
    CORDBASIN_TOO_MANY_NAMES = 21,
    /* the token passes a limit of document 01, or byte 65,536 */
    CORDBASIN_OVER_LIMIT = 22
};

/* The outcome of a list, beside those of a run. From 5 on a list's place is the index of the entry that is refused, no word. */
enum {
    /* an entry is no target and literal: a word is out of its range, or the words run out; found at its turn, before 5 */
    CORDBASIN_UNFIT_ASSIGNMENT = 23
};

/* Outcomes of writing a program, beside 0 to 2. They are tried in their order, 24 before 25. */
enum {
    /* a name that is given is no part of the source, no name of the notation or longer than 65,536 bytes; two variables or two labels
       have one name; or a number is used, and the one before it is not used earlier. place: the first number at fault, variables 0 to
       63, then labels as 64 to 95 */
    CORDBASIN_UNFIT_NAMES = 24,
    /* the whole text is longer than the lent bytes or than 65,536; place: the length that it has */
    CORDBASIN_TEXT_TOO_LONG = 25
};

/* Where each number stands in the answer. */
enum {
    CORDBASIN_OUTCOME = 0,
    CORDBASIN_PLACE = 1,
    CORDBASIN_STEPS = 2,     /* statements or entries begun, refused ones too, and later tests of whiles */
    CORDBASIN_ACCEPTED = 3,  /* proposals accepted */
    CORDBASIN_VARIABLES = 2, /* of a text: how many variables it has */
    CORDBASIN_LABELS = 3,    /* of a text: how many labels it has */
    CORDBASIN_SOLVER = 2     /* of an asking: whose proposal was accepted, 1 the first's, 2 the second's, 0 neither's */
};

/* Runs a program on lent tables.

   Each pointer is to as many words as the count beside it says; with a count of 0 it is not followed, and may be null. The tables
   and the answer overlap nothing else that is handed over. That is all that is asked of the caller: every content and every length
   has its answer. The call allocates nothing and keeps nothing, so that two threads may run on tables of their own. It ends within
   the budget.

   program       the sheet's program, one block of at most 4,096 words; only read
   environment   the variables, 128 words; holds what the run leaves
   heap          the records, 1,601 words; holds what the run leaves
   constraints   the kept positions, 98 words; holds what the run leaves
   proposals     the solver's proposals, one after another, any number of words; only read
   budget        how many steps may be taken, 0 to 1,000,000
   answer        where outcome, place, steps and accepted proposals are stored

   Returns how many words of the proposals are unread: the last so many. A proposal that is turned down is unread. */
size_t cordbasin_run(const int32_t *program, size_t program_words, int32_t *environment, size_t environment_words,
                     int32_t *heap, size_t heap_words, int32_t *constraints, size_t constraints_words,
                     const int32_t *proposals, size_t proposals_words, int32_t budget, int32_t answer[4]);

/* Carries out a list of entries on lent tables, up to the first that is refused. Each is the assignment of a literal to a target, costs
   a step and reads one proposal.

   What is said of pointers, of overlap and of threads above holds here too. Program, tables, proposals, budget and answer are as for a
   run. The program is not run: it is the one that the kept positions stand in.

   entries   one after another until the words end, any number of them; only read. Each is a variable, 0 to 63; n, 0 to 7; n labels, 0
             to 31; and 20 for nil, 21 for false, 22 for true, or 23 and an integer

   Returns how many words of the proposals are unread, as a run does. Outcome 0 comes with the number of entries as place, 1 to 4 with
   the place of a run, any other with the index of the refused entry, from 0. Entries after it are not looked at, and the tables hold
   what the entries before it left. An entry that is no target and literal costs no step. */
size_t cordbasin_assign(const int32_t *program, size_t program_words, int32_t *environment, size_t environment_words,
                        int32_t *heap, size_t heap_words, int32_t *constraints, size_t constraints_words,
                        const int32_t *entries, size_t entries_words, const int32_t *proposals, size_t proposals_words,
                        int32_t budget, int32_t answer[4]);

/* Asks two solvers about one statement, on lent tables. The statement is done by itself: blocks around it and their tests do not count.

   What is said of pointers, of overlap and of threads above holds here too. Program and tables are as for a run. No steps are counted.

   word     the first word of the statement, on any depth of the program: an assignment, a new, or an always or once of a constraint
   first    the first solver's proposal, one and no word more; only read
   second   the second solver's, in the same form; only read. It is tried where the first is turned down, by 6 or by 16 to 19
   answer   where outcome, place and solver are stored

   Returns how many words were accepted: the first so many of the slice of the solver that is told. Outcome 0 comes with the word as
   place. On any other outcome the call returns 0, the solver is 0, and the tables are as they were. The outcomes are a run's, but for
   5 and 11, with its places, and are tried in its order. 2 is also for a word at which no such statement begins, after 2 for the
   program and before 3; place: the word as it was given, negative ones too. A slice without words is 6. Where both are turned down,
   the outcome is the second's, or the first's where the second has no words. */
size_t cordbasin_ask(const int32_t *program, size_t program_words, int32_t *environment, size_t environment_words,
                     int32_t *heap, size_t heap_words, int32_t *constraints, size_t constraints_words, int32_t word,
                     const int32_t *first, size_t first_words, const int32_t *second, size_t second_words, int32_t answer[3]);

/* Reads a text in the papers' notation to the words of a program.

   What is said of pointers, of overlap and of threads above holds here too. The call's stack does not grow with the text.

   text      the bytes that were typed, at most 65,536; only read
   program   4,096 words; holds the program's words, and behind them what it held before
   origins   4,096 words; for each word of the program the first byte of the token that it comes from
   names     192 words; variable v's first appearance begins at byte names[2v] and has names[2v + 1] bytes, label l's stands at
             128 + 2l and 129 + 2l; 0 where there is none
   answer    where outcome, place, and the numbers of variables and labels are stored

   Returns how many words the program has. Outcome 0 comes with the text's length as place; its words always read, so that no run of
   them answers 2. On any other outcome the call returns 0 and writes to the answer alone, whose last two numbers are 0. 1 is for
   program, origins or names of another length, with place 0. */
size_t cordbasin_read(const uint8_t *text, size_t text_bytes, int32_t *program, size_t program_words, int32_t *origins,
                      size_t origins_words, int32_t *names, size_t names_words, int32_t answer[4]);

/* Writes the text of a program in the papers' notation: a statement to a line, every priority, and brackets only where they are needed.

   What is said of pointers, of overlap and of threads above holds here too, and the text overlaps nothing else that is handed over.

   program   the words of a program, at most 4,096; only read
   source    the bytes in which the names stand, any number of them; only read
   names     192 words, as cordbasin_read gives them for a text, which is then the source; only read. Where a length is 0 no name is
             given: variable 3 is then v3 in the text, and label 3 f3
   text      holds the program's text, and behind it what it held before. There is no 0 at its end
   answer    where outcome, place, and how many variables and labels are used are stored

   Returns how many bytes the text has. Outcome 0 comes with the program's length as place; cordbasin_read reads the text to the same
   words. On any other outcome the call returns 0 and writes to the answer alone, whose last two numbers are 0. They are tried in this
   order: 1 is for names of another length, with place 0; 2 has the place of a run; then 24 and 25. */
size_t cordbasin_write(const int32_t *program, size_t program_words, const uint8_t *source, size_t source_bytes,
                       const int32_t *names, size_t names_words, uint8_t *text, size_t text_bytes, int32_t answer[4]);

#ifdef __cplusplus
}
#endif

#endif
