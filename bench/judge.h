/* The judge: does the board's table, with one change, give every output that was seen?
 *
 * The function stands in target/staticlib/libjudge.a, which bench/build writes: x86-64 code that needs no library. Proved of its source
 * (crates/judge_c, over crates/judge; docs/READING.md tells where) are its answer for any bytes, lengths and number, that it reads nothing
 * outside the two slices, and that it ends. That this header declares it rightly, and that NULL with length 0 works, is tested
 * (tests/harness).
 */
#ifndef JUDGE_H
#define JUDGE_H

#include <stddef.h>
#include <stdint.h>

#ifdef __cplusplus
extern "C" {
#endif

/* The answers. */
#define JUDGE_DIFFERS 0u    /* some output of some case differs from the changed machine's */
#define JUDGE_REPRODUCES 1u /* the changed machine gives every output of every case */
#define JUDGE_REFUSED 16u   /* an answer of 16 or more: 16 plus one of the refusals below */

/* The refusals that the judge gives. */
#define JUDGE_VERSION 2u /* byte 0 of a file is not 1 */
#define JUDGE_LENGTH 3u  /* a file has under 3 bytes, or its length field is not the count of the rest */
#define JUDGE_SIZE 4u    /* the table's n, k or m is outside 1 to 16 or missing, or its rest is not 3 + 2nk bytes */
#define JUDGE_CELL 5u    /* a cell's next state or output is out of range, and it is not undefined */
#define JUDGE_STEP 6u    /* a case of the record has an input or an output that the table does not have */
#define JUDGE_RECORD 10u /* a case's length is 0 or over 64, a case ends past the record, or there are over 64 cases */
#define JUDGE_NUMBER 11u /* the fault number is not below n * k * (n + m) */

/* Judges the record against the table with the one change that the fault number stands for.
 *
 * table, table_length    a table file
 * record, record_length  a record file
 * number                 a fault number: cell * (n + m) + j, where cell = state * k + input; for j below m the cell gives output j, from m on
 *                        it goes to state j - m. A number that leaves the table as it is, or that changes an undefined cell, is judged
 *                        like any other
 *
 * Any bytes, any lengths and any number are taken. The answer is 1, 0, or 16 plus the first refusal that holds in this order: the table's
 * (LENGTH for under 3 bytes, VERSION, LENGTH, SIZE, CELL), the record's (LENGTH for under 3 bytes, VERSION, LENGTH, RECORD), STEP, NUMBER.
 * LENGTH and VERSION do not tell which of the two files they are about. A record of no case is reproduced by every number.
 *
 * The caller sees to it that each pointer leads to as many bytes as its length says, and that nobody writes to them during the call. A
 * pointer may be NULL where its length is 0, and the two may lead to the same bytes. The function takes both slices to read only, has no state of
 * its own and allocates nothing, so calls may be made from several threads at once. */
uint32_t judge(const uint8_t *table, size_t table_length, const uint8_t *record, size_t record_length, uint32_t number);

#ifdef __cplusplus
}
#endif

#endif
