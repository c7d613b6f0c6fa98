/* The checker of calibration sheets, for C.
 *
 * Every call takes any bytes and any numbers, and answers. Places and indices count from zero. Buffers must not overlap, int32_t
 * buffers are aligned as int32_t is, and a null pointer is allowed only with length 0.
 *
 * Numbers of an answer:
 *    0  accepted
 *    1  the sheet's length is below 16 or above 3,104
 *    2  its last four bytes are wrong
 *    3  V, U, C or N is over its limit, or trailer byte 9 is not 0 (bench_eliminate: v above 24)
 *    4  a distance or the length disagrees (bench_eliminate: count is not a multiple of 32)
 *    5  a unit record is out of range, or not 0 in columns V to 23; place: the record (bench_eliminate: the equation)
 *    6  a channel byte is no record; place: the channel
 *    7  a line's code, operand or unused byte is wrong; place: the line
 *   11  no such line (bench_line only)
 *    8  the lent table is too short
 *    9  an exponent passes 100,000,000 in size; place: the line (bench_eliminate: the equation)
 *   10  the units clash; place: the line (bench_eliminate: the equation)
 * Where no place is named it is 0.
 */
#ifndef BENCH_H
#define BENCH_H

#include <stddef.h>
#include <stdint.h>

#ifdef __cplusplus
extern "C" {
#endif

/* place is 0 when accepted. free has bit j set exactly when unknown j is still free. A refusal has rounds 0 and free 0, and writes
 * nothing into the lent table. */
typedef struct {
    uint32_t number, rounds;
    uint64_t place, free;
} bench_answer;

/* A part of the sheet, in bytes; 0, 0 when empty. */
typedef struct {
    uint64_t start, length;
} bench_part;

/* Checks a sheet and works out its units. Needs room for 32V numbers: accepted, row j of the table is unknown j over the free
 * unknowns (columns 0 to 23) and the bases s, m, kg, A, K, mol, cd, pulse (24 to 31), written one after the other; the rest of the
 * table stays. */
bench_answer bench_check(const uint8_t *sheet, size_t length, int32_t *table, size_t room);

/* The unit of line k with the solved units put in. Needs room for 32 numbers: accepted, the first 32 are the row, the rest of the
 * table stays, and rounds and free are the sheet's. A result past the limit is 9 with place k. */
bench_answer bench_line(const uint8_t *sheet, size_t length, size_t k, int32_t *table, size_t room);

/* Solves equations of 32 numbers, end to end, over v unknowns: each row is a product of powers that is 1. What it writes and
 * answers is otherwise as for a sheet. */
bench_answer bench_eliminate(size_t v, const int32_t *numbers, size_t count, int32_t *table, size_t room);

/* The part of the sheet that holds its lines: empty for refusals 1 to 7 and for a sheet with no line. It does not solve. */
bench_part bench_lines(const uint8_t *sheet, size_t length);

#ifdef __cplusplus
}
#endif

#endif
