/* The solver's calls, as libknobharbor.a has them (`tools/archive` for x86-64, `tools/cross TARGET` for others). Everything
   that a call answers and leaves is proved of the code behind it (crates/knobharbor, docs/CLAIMS.md); that this header says the same
   as that code is not proved.

   All memory is the caller's. A state lives in five lent tables; a changing call is lent a working room of five tables more, and a
   place for its answer. What has a fixed size crosses as a pointer, and its parameter says the size; a list whose length is free
   crosses as a pointer and a length of 64 bits, counted in elements.

   What the caller owes, and no call can test: a pointer is not null, is aligned, and points at as many elements as its parameter or
   its length says, also where that is 0; no two of a call's tables, places and lists overlap; no other thread uses them during the
   call; the float unit rounds to nearest, ties to even, flushes no subnormal number to zero and traps on nothing, as C starts it
   (FTZ or DAZ set, or another rounding mode: the answers differ, and no number says so; docs/TARGETS.md has the registers).

   The code keeps nothing between calls and has no data of its own, so calls on different tables may run at the same time, in
   threads or in an interrupt; calls on the same tables, or with the same working room, may not. (Queries only read: several may
   run at once on the same tables.) A call that an interrupt leaves half-way must go on before the tables are used again.

   The calls are used most easily by the functions at the end, `kh_reset` and so on, over whole tables. */
#ifndef KNOBHARBOR_H
#define KNOBHARBOR_H

#include <stdbool.h>
#include <stddef.h>
#include <stdint.h>

#ifdef __cplusplus
extern "C" {
#endif

/* ---- version */

/* of this header and the archive that was built with it; a state kept by one version is not promised to read in another */
#define KNOBHARBOR_VERSION_MAJOR 0
#define KNOBHARBOR_VERSION_MINOR 7
#define KNOBHARBOR_VERSION_PATCH 0
#define KNOBHARBOR_VERSION "0.7.0"

/* ---- sizes */

/* the lengths that tables have */
#define KNOBHARBOR_WORDS 338
#define KNOBHARBOR_CELLS 6579
#define KNOBHARBOR_BYTES 1360
#define KNOBHARBOR_REALS 1180
/* the places of fetch's three lists: 32 variables that are gone, and 32 that are live */
#define KNOBHARBOR_CHANGES 64
/* the places of a changing call's answer: the number, the pivots, the mark; and of a fetch's: the number, the count */
#define KNOBHARBOR_ANSWER 3
#define KNOBHARBOR_FETCHED 2
/* the bytes of the service cable's reader, the places of what a line's reader hands over beside the terms, and the writer's buffer */
#define KNOBHARBOR_CABLE 201
#define KNOBHARBOR_LINE_WORDS 6
#define KNOBHARBOR_LINE_REALS 2
#define KNOBHARBOR_LINE_BUFFER 200

/* how much a state holds; edits count among the constraints */
#define KNOBHARBOR_VARIABLES 32
#define KNOBHARBOR_CONSTRAINTS 48
#define KNOBHARBOR_TERMS 16

/* the strength from which on a constraint is required */
#define KNOBHARBOR_REQUIRED 1001001000.0
/* the crate's other three; any strength between 0 and required will do */
#define KNOBHARBOR_STRONG 1000000.0
#define KNOBHARBOR_MEDIUM 1000.0
#define KNOBHARBOR_WEAK 1.0

/* the group of a constraint whose line of text names none; any from 1 to 65,535 will do */
#define KNOBHARBOR_USUAL_GROUP 1

/* the largest budget */
#define KNOBHARBOR_LARGEST_BUDGET 65535

/* the cutoff of near zero that a reset is usually given, and the largest that it takes; any above 0 will do */
#define KNOBHARBOR_USUAL_CUTOFF 1e-8
#define KNOBHARBOR_LARGEST_CUTOFF 1e-6

/* ---- tables */

/* Five tables of the right lengths, 79,296 bytes: one to keep, and one as working room. Both may start with any content: reset
   makes a state of the first, and every call leaves the second all zero. */
typedef struct knobharbor_tables {
    uint64_t words[KNOBHARBOR_WORDS];
    double reals[KNOBHARBOR_REALS];
    double values[KNOBHARBOR_CELLS];
    uint16_t keys[KNOBHARBOR_CELLS];
    uint8_t bytes[KNOBHARBOR_BYTES];
} knobharbor_tables;

/* the arguments that lend all five: knobharbor_reset(KNOBHARBOR_LEND(&tables), KNOBHARBOR_USUAL_CUTOFF, answer) */
#define KNOBHARBOR_LEND(t) (t)->words, (t)->keys, (t)->bytes, (t)->reals, (t)->values

/* ---- answers */

/* "given exactly if"; in the order of the documents, which is not the order of the tests. 19 to 23, 32 and 33 are a line's, below. */
typedef enum knobharbor_number {
    KNOBHARBOR_ACCEPTED = 0,
    KNOBHARBOR_NOT_FINITE = 1,        /* a coefficient, the constant, an added constraint's strength, or a suggestion is not finite */
    KNOBHARBOR_NEGATIVE_STRENGTH = 2, /* an added constraint's strength is below zero */
    KNOBHARBOR_MANY_TERMS = 3,        /* more than 16 terms */
    KNOBHARBOR_CONSTRAINT_LIVE = 4,   /* constraint number is live */
    KNOBHARBOR_NO_CONSTRAINT = 5,     /* constraint number is not live */
    KNOBHARBOR_EDIT_LIVE = 6,         /* the variable already has an edit */
    KNOBHARBOR_REQUIRED_EDIT = 7,     /* the clipped edit strength is 1,001,001,000 */
    KNOBHARBOR_NO_EDIT = 8,           /* the variable has no edit */
    KNOBHARBOR_MANY_VARIABLES = 9,    /* live variables plus the new ones in terms not near zero exceed 32 */
    KNOBHARBOR_MANY_CONSTRAINTS = 10, /* 48 constraints live */
    KNOBHARBOR_IDS_USED = 11,         /* next id is above 4,294,900,000; a reset starts them anew */
    KNOBHARBOR_CANNOT_BE_MET = 12,    /* the steps find the constraint cannot be met */
    KNOBHARBOR_LEFT_FINITE = 13,      /* a step writes a cell, a row constant or a factor not finite */
    KNOBHARBOR_BUDGET_USED = 14,      /* a pass needs a pivot and the budget is used */
    KNOBHARBOR_NO_LEAVING = 15,       /* an optimise pass finds no leaving row */
    KNOBHARBOR_NO_ENTERING = 16,      /* a dual pass finds no entering symbol */
    KNOBHARBOR_NO_ROW = 17,           /* a removal finds no leaving row */
    KNOBHARBOR_NOT_A_STATE = 18,      /* a lent table doesn't read as a state (in C a table has the length of its type) */
    KNOBHARBOR_BAD_CUTOFF = 24,       /* a reset's cutoff is not above 0 and at most 1E-6 */
    KNOBHARBOR_MANY_GONE = 25,        /* a removal would make a 33rd gone entry; a fetch empties them */
    KNOBHARBOR_GROUP_ZERO = 26,       /* an add or a drop naming group 0 */
    KNOBHARBOR_EMPTY_GROUP = 27       /* no constraint in the group */
} knobharbor_number;

/* What a changing call answers, in the three places that it is lent: here as the functions at the end hand them on. A refusal answers the stored mark, or no on 18 or if the steps taken weren't all whole. */
typedef struct knobharbor_answer {
    uint32_t number; /* a knobharbor_number */
    uint32_t pivots; /* pivots made, no more than the budget */
    bool whole;      /* yes: every step since the reset was in whole numbers within bounds, refused calls' aside; the values meet
                        every required constraint exactly, and no fractions do better */
} knobharbor_answer;

/* Why a line of text was refused, beside the numbers above: document 02's. */
typedef enum knobharbor_line_number {
    KNOBHARBOR_LINE_LONG = 19,      /* a line of more than 4,096 bytes */
    KNOBHARBOR_LINE_UNREAD = 20,    /* not in the grammar, with the offset */
    KNOBHARBOR_LINE_DEEP = 21,      /* deeper than 16 levels of brackets */
    KNOBHARBOR_LINE_LARGE = 22,     /* a number, a product of multipliers or a sum above 1,048,576, or a variable above 4,294,967,295 */
    KNOBHARBOR_LINE_VARIABLES = 23, /* more than 16 variables */
    KNOBHARBOR_LINE_OVER = 32,      /* over the cable, or to be written: a line of more than 200 bytes, its newline apart */
    KNOBHARBOR_LINE_UNENDED = 33,   /* over the cable: closed inside a line, too long or not */
    KNOBHARBOR_LINE_STRENGTH = 34,  /* a strength above 1,001,001,000 */
    KNOBHARBOR_LINE_GROUP = 35,     /* a group that is not from 1 to 65,535 */
    KNOBHARBOR_LINE_UNSAID = 36     /* to be written: terms not ascending, or anything a line can't say */
} knobharbor_line_number;

/* What the add of a line answers. */
typedef struct knobharbor_text_answer {
    uint32_t number; /* a knobharbor_line_number or a knobharbor_number */
    uint32_t pivots; /* as above */
    bool whole;      /* as above; a line that is refused answers the stored mark, or no if the tables don't read as a state */
    size_t offset;   /* beside 20: the first byte with which no line can go on; else 0 */
} knobharbor_text_answer;

typedef struct knobharbor_fetched {
    uint32_t number; /* 0 or 18 */
    uint32_t count;  /* how many places of the three lists are filled */
} knobharbor_fetched;

/* a variable times a coefficient */
typedef struct knobharbor_term {
    uint32_t variable;
    double coefficient;
} knobharbor_term;

/* what a constraint's sum of terms plus its constant is to zero */
typedef enum knobharbor_kind {
    KNOBHARBOR_AT_MOST = 0,
    KNOBHARBOR_EQUAL = 1,
    KNOBHARBOR_AT_LEAST = 2
} knobharbor_kind;

/* ---- changing calls

   Each tests, takes its steps in the working room, and writes to the tables if it is accepted. A refusal changes no table. The
   working room is all zero after every call, refused or not. The answer is the number, the pivots made, and the mark as 0 or 1.
   The tests come in the order that is given with each call. A call makes at most `budget` pivots, 0 to 65,535. */

/* No variable, constraint or edit is left; the mark is yes. From here on a number is near zero if its size is strictly below the
   cutoff: such a coefficient counts as absent, and such a remainder as met. No other call changes the cutoff; in runs whose mark is
   yes, no answer depends on it. Any content will do, so it is accepted, but for a cutoff outside the range: 24, which changes no table
   and answers the stored mark, or no if the tables don't read as a state. */
void knobharbor_reset(
    uint64_t words[KNOBHARBOR_WORDS], uint16_t keys[KNOBHARBOR_CELLS], uint8_t bytes[KNOBHARBOR_BYTES],
    double reals[KNOBHARBOR_REALS], double values[KNOBHARBOR_CELLS], double cutoff, uint32_t answer[KNOBHARBOR_ANSWER]);

/* Adds the constraint of this number: the sum of the terms, plus the constant, is at most, equal to or at least zero, with this
   strength. It is in this group, from 1 to 65,535, by which knobharbor_drop knows it; a number is one constraint's, whatever its group.
   Tests 18, 26, 1, 2, 3, 4, 10, 9, 11; steps 12 to 15. A kind that is none of the three is answered 18 too. */
void knobharbor_add(
    uint64_t words[KNOBHARBOR_WORDS], uint16_t keys[KNOBHARBOR_CELLS], uint8_t bytes[KNOBHARBOR_BYTES],
    double reals[KNOBHARBOR_REALS], double values[KNOBHARBOR_CELLS],
    uint64_t wwords[KNOBHARBOR_WORDS], uint16_t wkeys[KNOBHARBOR_CELLS], uint8_t wbytes[KNOBHARBOR_BYTES],
    double wreals[KNOBHARBOR_REALS], double wvalues[KNOBHARBOR_CELLS], uint32_t answer[KNOBHARBOR_ANSWER], uint16_t group,
    uint32_t number, const knobharbor_term *terms, uint64_t term_count, double constant, uint32_t kind, double strength, uint16_t budget);

/* The same, with the terms as two lists: vars[i] times coefs[i]. Lists of different lengths are answered 18 too. */
void knobharbor_add_lists(
    uint64_t words[KNOBHARBOR_WORDS], uint16_t keys[KNOBHARBOR_CELLS], uint8_t bytes[KNOBHARBOR_BYTES],
    double reals[KNOBHARBOR_REALS], double values[KNOBHARBOR_CELLS],
    uint64_t wwords[KNOBHARBOR_WORDS], uint16_t wkeys[KNOBHARBOR_CELLS], uint8_t wbytes[KNOBHARBOR_BYTES],
    double wreals[KNOBHARBOR_REALS], double wvalues[KNOBHARBOR_CELLS], uint32_t answer[KNOBHARBOR_ANSWER], uint16_t group,
    uint32_t number, const uint32_t *vars, uint64_t var_count, const double *coefs, uint64_t coef_count, double constant, uint32_t kind,
    double strength, uint16_t budget);

/* The same of a line of text, without a newline: `2*(v1 + 3) <= v2` adds 2 v1 - v2 + 6 at most zero, required, in group 1. The line's own
   refusals, 19 to 23, come first and touch no table; then those of knobharbor_add. Beside 20 the offset is that of the first byte
   with which no line can go on; else it is 0. */
void knobharbor_add_text(
    uint64_t words[KNOBHARBOR_WORDS], uint16_t keys[KNOBHARBOR_CELLS], uint8_t bytes[KNOBHARBOR_BYTES],
    double reals[KNOBHARBOR_REALS], double values[KNOBHARBOR_CELLS],
    uint64_t wwords[KNOBHARBOR_WORDS], uint16_t wkeys[KNOBHARBOR_CELLS], uint8_t wbytes[KNOBHARBOR_BYTES],
    double wreals[KNOBHARBOR_REALS], double wvalues[KNOBHARBOR_CELLS], uint32_t answer[KNOBHARBOR_ANSWER], uint64_t *offset,
    uint32_t number, const uint8_t *line, uint64_t length, uint16_t budget);

/* Removes the constraint of this number. Tests 18, 5, 25; steps 13, 14, 15, 17. A variable that none names any more goes with it: the
   next fetch lists it as gone. */
void knobharbor_remove(
    uint64_t words[KNOBHARBOR_WORDS], uint16_t keys[KNOBHARBOR_CELLS], uint8_t bytes[KNOBHARBOR_BYTES],
    double reals[KNOBHARBOR_REALS], double values[KNOBHARBOR_CELLS],
    uint64_t wwords[KNOBHARBOR_WORDS], uint16_t wkeys[KNOBHARBOR_CELLS], uint8_t wbytes[KNOBHARBOR_BYTES],
    double wreals[KNOBHARBOR_REALS], double wvalues[KNOBHARBOR_CELLS], uint32_t answer[KNOBHARBOR_ANSWER],
    uint32_t number, uint16_t budget);

/* Removes every constraint of this group, by ascending number, all or none, under one budget: whole removals one after the other. If one
   of them is refused, the drop is, by that number, with the pivots made so far, and every constraint stays. Edits are in no such group:
   they stay, those of a pane's splitters too (knobharbor_remove_edit removes one). Tests 18, 26, 27, 25; steps 13, 14, 15,
   17. */
void knobharbor_drop(
    uint64_t words[KNOBHARBOR_WORDS], uint16_t keys[KNOBHARBOR_CELLS], uint8_t bytes[KNOBHARBOR_BYTES],
    double reals[KNOBHARBOR_REALS], double values[KNOBHARBOR_CELLS],
    uint64_t wwords[KNOBHARBOR_WORDS], uint16_t wkeys[KNOBHARBOR_CELLS], uint8_t wbytes[KNOBHARBOR_BYTES],
    double wreals[KNOBHARBOR_REALS], double wvalues[KNOBHARBOR_CELLS], uint32_t answer[KNOBHARBOR_ANSWER],
    uint16_t group, uint16_t budget);

/* Makes the variable one that can be dragged: an equality with 0, at this strength clipped. Tests 18, 6, 7, 10, 9, 11; steps 12
   to 15. */
void knobharbor_add_edit(
    uint64_t words[KNOBHARBOR_WORDS], uint16_t keys[KNOBHARBOR_CELLS], uint8_t bytes[KNOBHARBOR_BYTES],
    double reals[KNOBHARBOR_REALS], double values[KNOBHARBOR_CELLS],
    uint64_t wwords[KNOBHARBOR_WORDS], uint16_t wkeys[KNOBHARBOR_CELLS], uint8_t wbytes[KNOBHARBOR_BYTES],
    double wreals[KNOBHARBOR_REALS], double wvalues[KNOBHARBOR_CELLS], uint32_t answer[KNOBHARBOR_ANSWER],
    uint32_t variable, double strength, uint16_t budget);

/* Removes the variable's edit, and with it the last suggestion. Tests 18, 8, 25; steps 13, 14, 15, 17. */
void knobharbor_remove_edit(
    uint64_t words[KNOBHARBOR_WORDS], uint16_t keys[KNOBHARBOR_CELLS], uint8_t bytes[KNOBHARBOR_BYTES],
    double reals[KNOBHARBOR_REALS], double values[KNOBHARBOR_CELLS],
    uint64_t wwords[KNOBHARBOR_WORDS], uint16_t wkeys[KNOBHARBOR_CELLS], uint8_t wbytes[KNOBHARBOR_BYTES],
    double wreals[KNOBHARBOR_REALS], double wvalues[KNOBHARBOR_CELLS], uint32_t answer[KNOBHARBOR_ANSWER],
    uint32_t variable, uint16_t budget);

/* Drags the variable: its edit aims at the suggestion from now on. Tests 18, 1, 8; steps 13, 14, 16. After a refusal the edit
   still aims at the suggestion before. */
void knobharbor_suggest(
    uint64_t words[KNOBHARBOR_WORDS], uint16_t keys[KNOBHARBOR_CELLS], uint8_t bytes[KNOBHARBOR_BYTES],
    double reals[KNOBHARBOR_REALS], double values[KNOBHARBOR_CELLS],
    uint64_t wwords[KNOBHARBOR_WORDS], uint16_t wkeys[KNOBHARBOR_CELLS], uint8_t wbytes[KNOBHARBOR_BYTES],
    double wreals[KNOBHARBOR_REALS], double wvalues[KNOBHARBOR_CELLS], uint32_t answer[KNOBHARBOR_ANSWER],
    uint32_t variable, double suggestion, uint16_t budget);

/* ---- fetch changes */

/* Lists, by ascending number, the variables that calls have moved and whose value is not the one last fetched, with their values, and
   those that have gone since the last fetch, as gone, with 0.0: no constraint or edit names them any more. One that went and is back is
   listed as gone and then with its value, 0 too. A second fetch straight after lists none. One that goes before a fetch has listed it,
   and a new one that stands at 0, are not listed. So a display that draws from the lists alone is right if it starts empty at the reset,
   takes each list in order, forgets what is gone and takes what it does not know as 0.
   The answer is 0 or 18, and how many places of the lists are filled: numbers[i] stands at moved[i], or is gone where gone[i] is 1. The
   lists are zero past the count; on 18 they are all zero and no table changes. Keys and values are only read. */
void knobharbor_fetch(
    uint64_t words[KNOBHARBOR_WORDS], uint16_t keys[KNOBHARBOR_CELLS], uint8_t bytes[KNOBHARBOR_BYTES],
    double reals[KNOBHARBOR_REALS], double values[KNOBHARBOR_CELLS], uint32_t answer[KNOBHARBOR_FETCHED],
    uint64_t numbers[KNOBHARBOR_CHANGES], double moved[KNOBHARBOR_CHANGES], uint8_t gone[KNOBHARBOR_CHANGES]);

/* Drags the variable and lists what has changed: knobharbor_suggest and then knobharbor_fetch, with one test of the tables in place of two.
   `answer` is what the suggestion answers, `fetched` and the three lists are the fetch's. The fetch is made also where the suggestion is
   refused: it lists what waited. On 18 both answer 18, the lists are all zero and no table changes. The working room is all zero after the
   call. */
void knobharbor_drag(
    uint64_t words[KNOBHARBOR_WORDS], uint16_t keys[KNOBHARBOR_CELLS], uint8_t bytes[KNOBHARBOR_BYTES],
    double reals[KNOBHARBOR_REALS], double values[KNOBHARBOR_CELLS],
    uint64_t wwords[KNOBHARBOR_WORDS], uint16_t wkeys[KNOBHARBOR_CELLS], uint8_t wbytes[KNOBHARBOR_BYTES],
    double wreals[KNOBHARBOR_REALS], double wvalues[KNOBHARBOR_CELLS], uint32_t answer[KNOBHARBOR_ANSWER],
    uint32_t fetched[KNOBHARBOR_FETCHED], uint64_t numbers[KNOBHARBOR_CHANGES], double moved[KNOBHARBOR_CHANGES],
    uint8_t gone[KNOBHARBOR_CHANGES], uint32_t variable, double suggestion, uint16_t budget);

/* ---- queries

   False or 0.0 for an unknown number, and where the tables do not read as a state. They write nothing. */

/* The variable's value now. */
double knobharbor_value(
    const uint64_t words[KNOBHARBOR_WORDS], const uint16_t keys[KNOBHARBOR_CELLS], const uint8_t bytes[KNOBHARBOR_BYTES],
    const double reals[KNOBHARBOR_REALS], const double values[KNOBHARBOR_CELLS], uint32_t variable);

bool knobharbor_has_constraint(
    const uint64_t words[KNOBHARBOR_WORDS], const uint16_t keys[KNOBHARBOR_CELLS], const uint8_t bytes[KNOBHARBOR_BYTES],
    const double reals[KNOBHARBOR_REALS], const double values[KNOBHARBOR_CELLS], uint32_t number);

bool knobharbor_has_edit(
    const uint64_t words[KNOBHARBOR_WORDS], const uint16_t keys[KNOBHARBOR_CELLS], const uint8_t bytes[KNOBHARBOR_BYTES],
    const double reals[KNOBHARBOR_REALS], const double values[KNOBHARBOR_CELLS], uint32_t variable);

/* ---- the service line

   A constraint as a line of text, in its second edition: `2*(v1 + 3) <= v2 @ 1000, 2` is 2 v1 - v2 + 6 at most zero, of strength 1000 and
   in group 2. The ending is free: without it a line is required and in group 1. (knobharbor_add_text above reads the first edition, which
   has no ending.) What a reader hands over stands in four places, which it writes whole:

   words         [0] how many bytes were taken; [1] 0 if the line reads, else a knobharbor_line_number; [2] beside 20 the offset;
                 [3] the kind; [4] how many terms; [5] the group
   reals         [0] the constant; [1] the strength
   variables     the terms, ascending by variable: variables[i] times coefficients[i], for i below words[4]
   coefficients

   This is as knobharbor_add_lists and knobharbor_write_line take it. What an answer does not say is 0 in its place: beside a refusal all
   of the constraint, and where there is no answer all but the bytes taken. knobharbor_show hands a constraint of the solver over in the same
   places. */

/* A line by itself, without a newline: of at most 4,096 bytes, else 19; then the refusals 20 to 23, 34 and 35. All of it is taken. */
void knobharbor_read_line(const uint8_t *line, uint64_t length, uint64_t words[KNOBHARBOR_LINE_WORDS], double reals[KNOBHARBOR_LINE_REALS],
                          uint32_t variables[KNOBHARBOR_TERMS], double coefficients[KNOBHARBOR_TERMS]);

/* Writes the one plain line of a constraint into the buffer, without a newline, zero past it: `2*v1-v2+6<=0@1000,2`. Read, it gives the
   constraint back as numbers; of a line that was written so and then read, it gives that line. The answer is 0; 18 for a buffer that has
   not KNOBHARBOR_LINE_BUFFER bytes, which stays as it is; 36 for terms that do not ascend by variable or anything a line can't say (more
   than 16 terms, a coefficient that is 0, a number that is not whole or too large, a group of 0, a kind that is none of the three, lists
   of different lengths), then 32 for a line of more than 200 bytes, both with a buffer that is all zero. */
uint32_t knobharbor_write_line(uint8_t *buffer, uint64_t length, uint32_t kind, double strength, uint16_t group, double constant,
                               const uint32_t *vars, uint64_t var_count, const double *coefs, uint64_t coef_count);

/* The live constraint of this number as it was added, with its group; terms that the add skipped are left out, and the others stand in the
   order in which they were given. words[1] is 0; or 5 for a number that is not live (an edit has none) and 18 where the tables do not read as
   a state, with all else 0. No bytes are taken and there is no offset: words[0] and words[2] are 0. Handed on to knobharbor_write_line it is the
   constraint's plain line, so that a unit writes its whole layout number by number; what a line can't say is 36 there, terms that were not
   added by ascending variable too. No table is written. */
void knobharbor_show(
    const uint64_t words[KNOBHARBOR_WORDS], const uint16_t keys[KNOBHARBOR_CELLS], const uint8_t bytes[KNOBHARBOR_BYTES],
    const double reals[KNOBHARBOR_REALS], const double values[KNOBHARBOR_CELLS], uint32_t number, uint64_t line_words[KNOBHARBOR_LINE_WORDS],
    double line_reals[KNOBHARBOR_LINE_REALS], uint32_t variables[KNOBHARBOR_TERMS], double coefficients[KNOBHARBOR_TERMS]);

/* ---- lines over the service cable

   A reader of lines that come in pieces, cut anywhere. The reader is `cable`: zeros are a new one, and any content is a reader, so that
   no call is refused. However the bytes are cut, the list of all answers and the reader at the end are those of one piece. */

/* The first line that ends in the piece: whether there is one. A piece may have any length, 0 too. Go on behind the bytes taken until
   there is none. Refusal 32 comes before those of a line by itself. */
bool knobharbor_cable_take(uint8_t cable[KNOBHARBOR_CABLE], const uint8_t *piece, uint64_t length, uint64_t words[KNOBHARBOR_LINE_WORDS],
                           double reals[KNOBHARBOR_LINE_REALS], uint32_t variables[KNOBHARBOR_TERMS],
                           double coefficients[KNOBHARBOR_TERMS]);

/* No more bytes come: whether a line had begun, which is then refused with 33. The reader is as new. */
bool knobharbor_cable_close(uint8_t cable[KNOBHARBOR_CABLE], uint64_t words[KNOBHARBOR_LINE_WORDS], double reals[KNOBHARBOR_LINE_REALS],
                            uint32_t variables[KNOBHARBOR_TERMS], double coefficients[KNOBHARBOR_TERMS]);

/* ---- strengths */

/* a, b and c, each times w and held to 0..1000 (NaN gives 0), weighted 1,000,000, 1,000 and 1 */
double knobharbor_strength_create(double a, double b, double c, double w);

/* held to 0..1,001,001,000 (NaN gives 1,001,001,000) */
double knobharbor_strength_clip(double strength);

/* ---- the calls over whole tables: t is what is kept, room the working room. Each is the call of its name above. */

/* an answer's three places as a struct */
static inline knobharbor_answer kh_answered(const uint32_t answer[KNOBHARBOR_ANSWER])
{
    knobharbor_answer a;
    a.number = answer[0];
    a.pivots = answer[1];
    a.whole = answer[2] != 0;
    return a;
}

/* with the usual cutoff, which is always accepted */
static inline knobharbor_answer kh_reset(knobharbor_tables *t)
{
    uint32_t answer[KNOBHARBOR_ANSWER];
    knobharbor_reset(KNOBHARBOR_LEND(t), KNOBHARBOR_USUAL_CUTOFF, answer);
    return kh_answered(answer);
}

static inline knobharbor_answer kh_reset_with_cutoff(knobharbor_tables *t, double cutoff)
{
    uint32_t answer[KNOBHARBOR_ANSWER];
    knobharbor_reset(KNOBHARBOR_LEND(t), cutoff, answer);
    return kh_answered(answer);
}

static inline knobharbor_answer kh_add(knobharbor_tables *t, knobharbor_tables *room, uint16_t group, uint32_t number,
                                       const knobharbor_term *terms, size_t count, double constant, knobharbor_kind kind,
                                       double strength, uint16_t budget)
{
    uint32_t answer[KNOBHARBOR_ANSWER];
    knobharbor_add(KNOBHARBOR_LEND(t), KNOBHARBOR_LEND(room), answer, group, number, terms, count, constant, (uint32_t)kind, strength, budget);
    return kh_answered(answer);
}

/* the same of two lists of `count` each */
static inline knobharbor_answer kh_add_lists(knobharbor_tables *t, knobharbor_tables *room, uint16_t group, uint32_t number,
                                             const uint32_t *vars, const double *coefs, size_t count, double constant,
                                             knobharbor_kind kind, double strength, uint16_t budget)
{
    uint32_t answer[KNOBHARBOR_ANSWER];
    knobharbor_add_lists(KNOBHARBOR_LEND(t), KNOBHARBOR_LEND(room), answer, group, number, vars, count, coefs, count, constant,
                         (uint32_t)kind, strength, budget);
    return kh_answered(answer);
}

static inline knobharbor_text_answer kh_add_text(knobharbor_tables *t, knobharbor_tables *room, uint32_t number, const uint8_t *line,
                                                 size_t length, uint16_t budget)
{
    uint32_t answer[KNOBHARBOR_ANSWER];
    uint64_t offset;
    knobharbor_text_answer a;
    knobharbor_add_text(KNOBHARBOR_LEND(t), KNOBHARBOR_LEND(room), answer, &offset, number, line, length, budget);
    a.number = answer[0];
    a.pivots = answer[1];
    a.whole = answer[2] != 0;
    a.offset = (size_t)offset;
    return a;
}

static inline knobharbor_answer kh_remove(knobharbor_tables *t, knobharbor_tables *room, uint32_t number, uint16_t budget)
{
    uint32_t answer[KNOBHARBOR_ANSWER];
    knobharbor_remove(KNOBHARBOR_LEND(t), KNOBHARBOR_LEND(room), answer, number, budget);
    return kh_answered(answer);
}

static inline knobharbor_answer kh_drop(knobharbor_tables *t, knobharbor_tables *room, uint16_t group, uint16_t budget)
{
    uint32_t answer[KNOBHARBOR_ANSWER];
    knobharbor_drop(KNOBHARBOR_LEND(t), KNOBHARBOR_LEND(room), answer, group, budget);
    return kh_answered(answer);
}

static inline knobharbor_answer kh_add_edit(knobharbor_tables *t, knobharbor_tables *room, uint32_t variable, double strength,
                                            uint16_t budget)
{
    uint32_t answer[KNOBHARBOR_ANSWER];
    knobharbor_add_edit(KNOBHARBOR_LEND(t), KNOBHARBOR_LEND(room), answer, variable, strength, budget);
    return kh_answered(answer);
}

static inline knobharbor_answer kh_remove_edit(knobharbor_tables *t, knobharbor_tables *room, uint32_t variable, uint16_t budget)
{
    uint32_t answer[KNOBHARBOR_ANSWER];
    knobharbor_remove_edit(KNOBHARBOR_LEND(t), KNOBHARBOR_LEND(room), answer, variable, budget);
    return kh_answered(answer);
}

static inline knobharbor_answer kh_suggest(knobharbor_tables *t, knobharbor_tables *room, uint32_t variable, double suggestion,
                                           uint16_t budget)
{
    uint32_t answer[KNOBHARBOR_ANSWER];
    knobharbor_suggest(KNOBHARBOR_LEND(t), KNOBHARBOR_LEND(room), answer, variable, suggestion, budget);
    return kh_answered(answer);
}

/* what a fetch lists: variable numbers[i] is gone if gone[i] is 1, else it stands at values[i], for i below the count that it answers */
typedef struct knobharbor_changes {
    uint64_t numbers[KNOBHARBOR_CHANGES];
    double values[KNOBHARBOR_CHANGES];
    uint8_t gone[KNOBHARBOR_CHANGES];
} knobharbor_changes;

static inline knobharbor_fetched kh_fetch(knobharbor_tables *t, knobharbor_changes *changes)
{
    uint32_t answer[KNOBHARBOR_FETCHED];
    knobharbor_fetched f;
    knobharbor_fetch(KNOBHARBOR_LEND(t), answer, changes->numbers, changes->values, changes->gone);
    f.number = answer[0];
    f.count = answer[1];
    return f;
}

/* a suggestion and then a fetch: what the suggestion answers; what the fetch answers goes to `fetched` */
static inline knobharbor_answer kh_drag(knobharbor_tables *t, knobharbor_tables *room, uint32_t variable, double suggestion,
                                        uint16_t budget, knobharbor_fetched *fetched, knobharbor_changes *changes)
{
    uint32_t answer[KNOBHARBOR_ANSWER], listed[KNOBHARBOR_FETCHED];
    knobharbor_drag(KNOBHARBOR_LEND(t), KNOBHARBOR_LEND(room), answer, listed, changes->numbers, changes->values, changes->gone, variable,
                    suggestion, budget);
    fetched->number = listed[0];
    fetched->count = listed[1];
    return kh_answered(answer);
}

static inline double kh_value(const knobharbor_tables *t, uint32_t variable)
{
    return knobharbor_value(KNOBHARBOR_LEND(t), variable);
}

static inline bool kh_has_constraint(const knobharbor_tables *t, uint32_t number)
{
    return knobharbor_has_constraint(KNOBHARBOR_LEND(t), number);
}

static inline bool kh_has_edit(const knobharbor_tables *t, uint32_t variable)
{
    return knobharbor_has_edit(KNOBHARBOR_LEND(t), variable);
}

/* the service cable's reader: a new one is all zero, `knobharbor_cable cable = {{0}}` */
typedef struct knobharbor_cable {
    uint8_t bytes[KNOBHARBOR_CABLE];
} knobharbor_cable;

/* what a line is answered, or a constraint that is shown; beside a refusal all but its number and offset are 0 */
typedef struct knobharbor_line {
    uint32_t number; /* 0: it reads, or is live; else a knobharbor_line_number, or 5 or 18 of a constraint */
    size_t offset;   /* beside 20: the first byte with which no line can go on; else 0 */
    knobharbor_kind kind;
    uint16_t group;
    double strength;
    double constant;
    size_t count; /* how many terms: variables[i] times coefficients[i] */
    uint32_t variables[KNOBHARBOR_TERMS];
    double coefficients[KNOBHARBOR_TERMS];
} knobharbor_line;

static inline void kh_line_says(knobharbor_line *line, const uint64_t *words, const double *reals)
{
    line->number = (uint32_t)words[1];
    line->offset = (size_t)words[2];
    line->kind = (knobharbor_kind)words[3];
    line->count = (size_t)words[4];
    line->group = (uint16_t)words[5];
    line->constant = reals[0];
    line->strength = reals[1];
}

/* A line of `length` bytes by itself: the answer's number. */
static inline uint32_t kh_read_line(const uint8_t *text, size_t length, knobharbor_line *line)
{
    uint64_t words[KNOBHARBOR_LINE_WORDS];
    double reals[KNOBHARBOR_LINE_REALS];
    knobharbor_read_line(text, length, words, reals, line->variables, line->coefficients);
    kh_line_says(line, words, reals);
    return line->number;
}

/* The constraint of this number as it was added: the answer's number. */
static inline uint32_t kh_show(const knobharbor_tables *t, uint32_t number, knobharbor_line *line)
{
    uint64_t words[KNOBHARBOR_LINE_WORDS];
    double reals[KNOBHARBOR_LINE_REALS];
    knobharbor_show(KNOBHARBOR_LEND(t), number, words, reals, line->variables, line->coefficients);
    kh_line_says(line, words, reals);
    return line->number;
}

/* The plain line of a line that reads, of a constraint that is shown, or of one that the caller has filled: at most 16 terms. */
static inline uint32_t kh_write_line(uint8_t buffer[KNOBHARBOR_LINE_BUFFER], const knobharbor_line *line)
{
    return knobharbor_write_line(buffer, KNOBHARBOR_LINE_BUFFER, (uint32_t)line->kind, line->strength, line->group, line->constant,
                                 line->variables, line->count, line->coefficients, line->count);
}

/* The piece and its length move behind the bytes taken: `while (kh_cable_take(&cable, &piece, &length, &line))` has each line. */
static inline bool kh_cable_take(knobharbor_cable *cable, const uint8_t **piece, size_t *length, knobharbor_line *line)
{
    uint64_t words[KNOBHARBOR_LINE_WORDS];
    double reals[KNOBHARBOR_LINE_REALS];
    bool ended = knobharbor_cable_take(cable->bytes, *piece, *length, words, reals, line->variables, line->coefficients);
    kh_line_says(line, words, reals);
    *piece += (size_t)words[0];
    *length -= (size_t)words[0];
    return ended;
}

static inline bool kh_cable_close(knobharbor_cable *cable, knobharbor_line *line)
{
    uint64_t words[KNOBHARBOR_LINE_WORDS];
    double reals[KNOBHARBOR_LINE_REALS];
    bool begun = knobharbor_cable_close(cable->bytes, words, reals, line->variables, line->coefficients);
    kh_line_says(line, words, reals);
    return begun;
}

/* Adds the constraint of a line that reads, or of one that is shown, at its strength and in its group, under this number. */
static inline knobharbor_answer kh_add_line(knobharbor_tables *t, knobharbor_tables *room, uint32_t number, const knobharbor_line *line,
                                            uint16_t budget)
{
    return kh_add_lists(t, room, line->group, number, line->variables, line->coefficients, line->count, line->constant,
                        line->kind, line->strength, budget);
}

/* An answer's number in words. */
static inline const char *kh_words(uint32_t number)
{
    static const char *const words[] = {
        "accepted",
        "a coefficient, the constant, the strength or the suggestion is infinite or not a number",
        "the strength is negative",
        "the constraint has more than 16 terms",
        "the constraint is there already",
        "there is no such constraint",
        "the variable has an edit already",
        "an edit cannot be required",
        "the variable has no edit",
        "there would be more than 32 variables",
        "there are 48 constraints already, edits counted",
        "symbol ids are used up; a reset starts them anew",
        "the constraint cannot be met together with the other required ones",
        "the arithmetic left the finite numbers",
        "the pivot budget is used up",
        "an optimise pass found no row to leave: the arithmetic has lost the problem",
        "a drag found no symbol to enter: the arithmetic has lost the problem",
        "a removal found no row for its marker: the arithmetic has lost it",
        "a lent table has the wrong length or does not read as a state",
        "the line has more than 4,096 bytes",
        "the line is not in the grammar",
        "the line has more than 16 levels of brackets",
        "the line has a number above 1,048,576, or a variable above 4,294,967,295",
        "the line has more than 16 variables",
        "the cutoff is not above 0 and at most 1E-6",
        "more than 32 variables that are gone would wait for a fetch",
        "group 0 is the edits' own",
        "there is no constraint in the group",
    };
    if (number == KNOBHARBOR_LINE_OVER)
        return "the line has more than 200 bytes";
    if (number == KNOBHARBOR_LINE_UNENDED)
        return "the input ended inside a line";
    if (number == KNOBHARBOR_LINE_STRENGTH)
        return "the line's strength is above 1,001,001,000";
    if (number == KNOBHARBOR_LINE_GROUP)
        return "the line's group is not from 1 to 65,535";
    if (number == KNOBHARBOR_LINE_UNSAID)
        return "no line can say the constraint";
    return number < sizeof words / sizeof words[0] ? words[number] : "no number of the document's";
}

/* ---- what is not declared here

   The archive has more names, knobharbor_held_add, _remove, _drop, _add_edit, _remove_edit, _suggest, _fetch, _value, _has_constraint and
   _has_edit: the same calls behind the test that the tables read as a state. They are the Rust crate's, whose solver keeps its tables to
   itself, so that they always do. They are no public calls: of tables that do not read as a state they promise nothing, not even to stay
   within them, and in C nothing keeps the tables from being written by others. */

#ifdef __cplusplus
}
#endif

#endif
