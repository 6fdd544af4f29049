/*
 * The solver, the maker, the gate and the moves between editions of Strovimel, as C calls.
 *
 * What every call promises is proved for all arguments: any bytes, any numbers, any lengths. What it owes in return:
 * - each pointer points to as many elements as the length behind it says; a workspace begins at a multiple of 8, as a
 *   uint64_t does, and bytes begin anywhere;
 * - no pointer is null. Null with length 0 is tried by the comparison and taken as an empty buffer, but the kit that
 *   compiles the library does not promise it;
 * - what a call may write (work, out, list of the maker) overlaps nothing else that is lent to it.
 *
 * A call reads and writes nothing but what is lent to it. It asks for no memory and keeps nothing between calls, so calls
 * on separate buffers may run at the same time. Its stack, measured by `compare/run stack`: the solver 23,544 bytes, the
 * maker 19,288, the gate 344, either move 264. The library is x86-64 code. Link libstrovimel_c.a; or, for the gate
 * alone, libstrovimel_gate_c.a; not both.
 */
#ifndef STROVIMEL_H
#define STROVIMEL_H

#include <stddef.h>
#include <stdint.h>

#ifdef __cplusplus
extern "C" {
#endif

/* Sizes. */
#define STROVIMEL_WORK_WORDS 7564 /* words of workspace that solver and gate need */
#define STROVIMEL_LONGEST 60      /* the most bytes of a word, of a term, of a list's n */
#define STROVIMEL_SHEET_MIN 32    /* the fewest bytes of a sheet: the trailer of a PRM1 sheet */
#define STROVIMEL_SHEET_MAX 3380  /* the most bytes of a sheet: full tables and the trailer of a PRM2 sheet */

/*
 * A sheet's tables, as a refusal names them, and the number that stands for a PRM2 trailer's new bytes (cut rule,
 * comparison rule, two zeros). The records of each table are counted from 0.
 */
#define STROVIMEL_TABLE_LETTERS 0u
#define STROVIMEL_TABLE_TEXT 1u
#define STROVIMEL_TABLE_ROWS 2u
#define STROVIMEL_TABLE_PARTS 3u
#define STROVIMEL_TABLE_ASSERTIONS 4u
#define STROVIMEL_TABLE_NEW_BYTES 5u

/* Answers of the solver, the maker, the gate and the moves. */
#define STROVIMEL_FOUND 0u   /* solver: a key was found */
#define STROVIMEL_NONE 1u    /* solver: no key satisfies the sheet */
#define STROVIMEL_SPENT 2u   /* solver: the budget did not suffice */
#define STROVIMEL_WRITTEN 0u /* maker: the list is written; moves: the sheet */
#define STROVIMEL_YES 0u     /* gate: the list accepts the word */
#define STROVIMEL_NO 1u      /* gate: it does not */

/*
 * Refusals: the first that holds, in the order that each call gives. 141 stands behind 14 and is one of "10 to 17", the
 * faults of a sheet, which is to be mended where it was written. A refused call changes nothing.
 */
#define STROVIMEL_SHEET_SHORT 10u    /* the sheet is too short to be one: under 32 bytes */
#define STROVIMEL_SHEET_LONG 11u     /* the sheet is too long: over 3,380 bytes */
#define STROVIMEL_SHEET_MARK 12u     /* not a sheet, or a damaged one: it ends with neither PRM1 nor PRM2 */
#define STROVIMEL_SHEET_TOTAL 13u    /* bytes were lost or added: not the length that it tells, or PRM2 and under 36 */
#define STROVIMEL_SHEET_COUNTS 14u   /* a table has too many records, or there are no letters: see table */
#define STROVIMEL_SHEET_LENGTHS 141u /* the shortest length is above the longest, or the longest above 60 */
#define STROVIMEL_SHEET_OFFSETS 15u  /* the tables do not stand end to end, or do not end at the trailer */
#define STROVIMEL_SHEET_RECORD 16u   /* a bad new byte, or a record of, say, a bad kind: see table and record */
#define STROVIMEL_SHEET_TERM 17u     /* an assertion has a term that can grow longer than 60 bytes: see record */
#define STROVIMEL_WORKSPACE 18u      /* the workspace is too small: under 7,564 words */
#define STROVIMEL_OUTPUT 19u         /* the output is too small: shorter than the sheet's longest length */
#define STROVIMEL_ROW 20u            /* the sheet has no row of that number */
#define STROVIMEL_LENGTH 21u         /* no list is made for words of that length: above 60 */
#define STROVIMEL_SPACE 22u          /* the list is longer than the space lent */
#define STROVIMEL_LIST 30u           /* the cut list is not well formed: damaged, or lent with too little text */
#define STROVIMEL_WORD 31u           /* the word has not the length that the list was made for */
#define STROVIMEL_RULE 40u           /* the first edition has no such rule: the cut or the comparison rule is not 0 */
#define STROVIMEL_ROOM 41u           /* there is no room: the moved sheet is longer than the output */

/*
 * table and record say where a sheet is faulty, and are 0 in every other answer:
 * - 14: the first table with a bad count, and record 0;
 * - 16: for a bad new byte of a PRM2 trailer table 5, and record 0; else the first table with a bad record, and the
 *   first such record in it;
 * - 17: table 4, and the first assertion with too long a term.
 */
typedef struct {
    uint32_t number; /* 0, 1, 2, or 10 to 19, or 141 */
    uint32_t table;
    uint32_t record;
    uint32_t length; /* of the word found, else 0 */
    uint64_t trials; /* 0 or 1: the walk's full count; 2: the budget; a refusal: 0 */
} strovimel_solved;

typedef struct {
    uint32_t number; /* 0, or 10 to 17, 141; maker: 20, 21, 22; moves: 40, 41 */
    uint32_t table;
    uint32_t record;
    uint32_t length; /* of the list or the sheet written, else 0 */
} strovimel_made;

/*
 * Answers a sheet. Checks 10 to 19 in the order above. Else 0: the first key that satisfies the sheet, shortest, then
 * by bytes, stands at the start of out, and later bytes of out are kept; 1: no key satisfies; 2: exactly when the
 * walk's count is above the budget. After 1 and 2 out is kept; after 0, 1 and 2 the first 7,564 words of work are zero,
 * and later words are kept.
 */
strovimel_solved strovimel_solve(const uint8_t *sheet, size_t sheet_len, uint64_t budget,
                                 uint64_t *work, size_t work_len, uint8_t *out, size_t out_len);

/*
 * Writes the cut list of a sheet's row for words of `length` bytes. Checks 10 to 17 in the order above, then 20 to
 * 22. Else 0: the list stands at the start of the space, and later bytes of it are kept. A list is under 2^32 bytes
 * long.
 */
strovimel_made strovimel_make(const uint8_t *sheet, size_t sheet_len, uint64_t row, uint64_t length,
                              uint8_t *list, size_t list_len);

/*
 * Whether a cut list accepts a word: the number alone, as no sheet is read. Checks 30, 31, then 18. Else 0: yes; 1: no.
 * For a list that strovimel_make wrote, with the sheet's text, yes is said exactly when the row derives the word. After
 * 0 and 1 the first 7,564 words of work are zero, and later words are kept.
 */
uint32_t strovimel_gate(const uint8_t *list, size_t list_len, const uint8_t *text, size_t text_len,
                        const uint8_t *word, size_t word_len, uint64_t *work, size_t work_len);

/*
 * Moves a sheet to the second edition. Checks 10 to 17 in the order above, where 12 is also said of a PRM2 sheet, then
 * 41: out is shorter than the sheet and four bytes. Else 0: the sheet with its four new bytes zero, marked PRM2, stands
 * at the start of out, and later bytes of out are kept. An out of STROVIMEL_SHEET_MAX bytes has room for every sheet.
 */
strovimel_made strovimel_to_second(const uint8_t *sheet, size_t sheet_len, uint8_t *out, size_t out_len);

/*
 * Moves a sheet to the first edition. Checks 10 to 17 in the order above, where 12 is also said of a PRM1 sheet, then
 * 40: its cut rule or its comparison rule is not 0; then 41: out is shorter than the sheet less four bytes. Else 0: the
 * sheet without its new bytes, marked PRM1, stands at the start of out, and later bytes of out are kept.
 *
 * There and back gives the bytes of the original sheet, and strovimel_solve and strovimel_make answer both alike.
 */
strovimel_made strovimel_to_first(const uint8_t *sheet, size_t sheet_len, uint8_t *out, size_t out_len);

#ifdef __cplusplus
}
#endif

#endif
