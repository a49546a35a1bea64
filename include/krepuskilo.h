/* Krepuskilo for C: sheets, tables, rows and plans as numbers in slices that the caller lends.
 *
 * The functions are those of crates/unit, proved there to do what their contracts say: the calls of the scope document (document 01),
 * their values laid out as numbers. Link libunit.a, which `rt lib`, called in crates/unit, writes into crates/unit/out (x86-64, Linux).
 *
 * Every function answers
 *   0                     the call is accepted,
 *   1 to 8, 20 to 25      it is refused, by document 01's number (below),
 *   KREPUSKILO_SHORT      info, table or plan is shorter than its size below; then nothing at all is written.
 *
 * info has 4 numbers. info[0] is the position of a refusal, 0 if the call is accepted. info[1] to info[3] are as each function says; they
 * are 0 where it says nothing, and 0 in a refusal.
 *
 * A table has 257 numbers: its count, 128 masks of true propositions, 128 masks of false ones, bit p for proposition p. The entries of
 * the table are in the first `count` masks of both kinds.
 *
 * Numbers and bytes past those named are kept as they were, in every slice but the memory of a search.
 *
 * Numbers of refusals, with the position of the byte at fault, from 0:
 *   1 the bytes end too early (position: the length)
 *   2 count out of its range           3 literal of 2n or more
 *   4 literal not above the one before 5 literal complements the one before
 *   6 bytes after the plan             7 move number not on the sheet (in a step: position 0)
 * and at position 0:
 *   8 search limit above 8
 *   20 no starting world               21 table or picture full           22 table not as described
 *   23 buffer or rows too short        24 precondition not sure           25 contradictory results
 *
 * What the caller sees to, since C has no types for it: each pointer is to at least as many elements as the length after it says, is not
 * null and is aligned, even where that length is 0; and no slice that is written overlaps another one.
 *
 * The functions keep nothing and allocate nothing: they work on the stack alone (KREPUSKILO_STACK_* below), and call only memcpy and
 * memset. */
#ifndef KREPUSKILO_H
#define KREPUSKILO_H

#include <stddef.h>
#include <stdint.h>

#ifdef __cplusplus
extern "C" {
#endif

/* The answer if a slice is shorter than its size here. */
#define KREPUSKILO_SHORT 255

/* Sizes in numbers (a plan's in bytes): info, a table, the rows of a run (65 of three numbers), a plan that was found. */
#define KREPUSKILO_INFO 4
#define KREPUSKILO_TABLE 257
#define KREPUSKILO_ROWS 195
#define KREPUSKILO_PLAN 8

/* No accepted sheet is longer than this, in bytes; any sheet may be handed in. */
#define KREPUSKILO_SHEET 3711

/* A buffer of this many bytes is long enough for every picture: 2, and 8 for each of at most 256 clauses. */
#define KREPUSKILO_PICTURE 2050

/* The clauses in a row whose picture is full. */
#define KREPUSKILO_FULL_PICTURE 257

/* The stack that each call takes, in bytes, the frames of all that it calls among it. Measured, not proved, and no less than that, in whole kibibytes:
 * tests/stack.c runs the calls on sheets that take them as deep as they go, built for x86-64 as `rt lib` does. */
#define KREPUSKILO_STACK_JUDGE 7168
#define KREPUSKILO_STACK_START 10240
#define KREPUSKILO_STACK_STEP 9216
#define KREPUSKILO_STACK_PICTURE 18432
#define KREPUSKILO_STACK_RUN 16384
#define KREPUSKILO_STACK_SEARCH 29696
#define KREPUSKILO_STACK_SEARCH_WITH 21504

/* Judges a sheet. Answers 0, or 1 to 7 with the position of the first fault. */
uint8_t krepuskilo_judge(const uint8_t *sheet, size_t sheet_len, uint64_t *info, size_t info_len);

/* The first table of a sheet, into table. Answers 0; 1 to 7; 20 or 21. Refused: the 257 numbers are 0. Unused masks are 0. */
uint8_t krepuskilo_start(const uint8_t *sheet, size_t sheet_len, uint32_t *table, size_t table_len, uint64_t *info, size_t info_len);

/* The step of a table by the move of this number on the sheet, from 0: table in and out. Answers 0; 1 to 7; 7 at position 0 if the move is
 * not on the sheet; 22, 24, 25 or 21. Unused masks are not read, and are 0 afterwards. Refused: every number of table is as it was. */
uint8_t krepuskilo_step(const uint8_t *sheet, size_t sheet_len, uint32_t *table, size_t table_len, uint64_t move, uint64_t *info, size_t info_len);

/* The picture of a table (its prime implicates), into buffer: the number of clauses in two bytes, then for each clause its masks of true
 * and of false propositions, four bytes each, high byte first, sorted. Answers 0; 1 to 7; 22, 21, or 23 if buffer is shorter than
 * 2 + 8 * clauses. info[1]: the number of clauses, at most 256. Refused: buffer is as it was. */
uint8_t krepuskilo_picture(const uint8_t *sheet, size_t sheet_len, const uint32_t *table, size_t table_len, uint8_t *buffer, size_t buffer_len, uint64_t *info, size_t info_len);

/* The run of a sheet's plan. rows gets three numbers for each place arrived at, place i from number 3 * i on: the place, the entries of its
 * table, the clauses of its picture (257 if that is full). table gets the last table that the run had, 0 in unused masks.
 * Answers 0; 1 to 7; 23 if rows_len / 3 is below 65; 20 or 21 of the start.
 * info[1]: the verdict, 0 reached, 1 short, 2 stopped, 3 full. info[2]: the place, if stopped or full. info[3]: 24 or 25, if stopped.
 * Refused: rows are as they were, the 257 numbers of table are 0. */
uint8_t krepuskilo_run(const uint8_t *sheet, size_t sheet_len, uint64_t *rows, size_t rows_len, uint32_t *table, size_t table_len, uint64_t *info, size_t info_len);

/* The first plan of at most `limit` moves that is reached or full, shorter plans first, then in ascending order of moves; the sheet's own
 * plan is ignored. plan gets eight bytes, zeros past its length. Answers 0; 1 to 7; 8; 20 or 21 of the start.
 * info[1]: 0 reached, 1 full, 2 none. info[2]: the place, if full. info[3]: the length, 0 if none.
 * Refused: the eight bytes of plan are 0. */
uint8_t krepuskilo_search(const uint8_t *sheet, size_t sheet_len, uint64_t limit, uint8_t *plan, size_t plan_len, uint64_t *info, size_t info_len);

/* The same with a memory of memory_len numbers, and the quicker the more slots of KREPUSKILO_MEMORY_SLOT numbers it has: belief states from
 * which nothing was found are not searched again. The answer does not depend on it. What the memory holds does not matter, nor how long it
 * is, none at all and parts of a slot included. It is scratch: afterwards it holds anything, but where KREPUSKILO_SHORT is answered it is as
 * it was. krepuskilo_search has eight slots of its own, on its stack.
 *
 * By how many times a memory lessens the steps of a search, from least to most over twelve sheets of classic domains (docs/BENCHMARKS.md):
 *   slots     bytes      steps fewer by
 *   8         8,256      1.1 to 5.2
 *   64        66,048     3.3 to 19
 *   256       264,192    4.0 to 69
 *   1,024     1,056,768  4.4 to 78
 *   no bound             4.5 to 81
 * Sorting networks gain less: 12 times with 1,024 slots for five wires, 3 times for six. */
#define KREPUSKILO_MEMORY_SLOT 258
uint8_t krepuskilo_search_with(const uint8_t *sheet, size_t sheet_len, uint64_t limit, uint32_t *memory, size_t memory_len, uint8_t *plan, size_t plan_len, uint64_t *info, size_t info_len);

#ifdef __cplusplus
}
#endif

#endif
