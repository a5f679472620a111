/*
 * Colwythar: H.266 (VVC) split flags into the table of coding blocks, and back; and H.265 (HEVC) ones.
 *
 * Link with libcolwythar.a, for 64-bit x86-64 Linux (`bin/install PREFIX` puts it in place, with a pkg-config file). It
 * needs memcpy and memset, allocates nothing, keeps no state, and uses less than 16 KiB of stack. Each function is
 * proved to do what crates/colwythar/src says of it, for all settings, addresses, bytes, lengths, accounts and limits.
 *
 * Settings are eight numbers: CTU side, MinCb side, MinQt side, M (greatest multi-type depth), MaxBt side, MaxTt side,
 * picture width, picture height, in luma samples. Those of H.265, for the functions colwythar_h265_..., are four: CTU
 * side, MinCb side (that of the smallest block), picture width, picture height.
 *
 * A flag is one byte, 0 or 1. A row is 8 bytes: X and Y (16 bits each, low byte first), exponent of the width, exponent
 * of the height, QT depth, MTT depth, which is 0 in H.265.
 *
 * An answer is two numbers. answer[0] is COLWYTHAR_ACCEPTED, which is 0, where the call is accepted, else the number of
 * the refusal, which is never 0; answer[1] is the count of rows, flags, units or bytes of a page, or which of two tables is
 * finer, or the refusal's place, 0 where none is named below. A refused call leaves every buffer, the due address and the
 * accounts as they were; an accepted one leaves the bytes past its answer as they were.
 *
 * What the caller must see to: pointers are not null, also where their length is 0, and point to as much as their
 * type or length says; what is written to (rows, flags or page, due, accounts, answer) overlaps nothing else that is
 * passed.
 */
#ifndef COLWYTHAR_H
#define COLWYTHAR_H

#include <stddef.h>
#include <stdint.h>

#ifdef __cplusplus
extern "C" {
#endif

/* Limits, proved: no unit, of H.266 or H.265, has more rows, row bytes or flags, so buffers of these lengths are never too
 * short. */
#define COLWYTHAR_MAX_ROWS 1024
#define COLWYTHAR_MAX_ROW_BYTES 8192
#define COLWYTHAR_MAX_FLAGS 1786

/* The same for units of H.265. Proved, too: with N = CTU side / MinCb a unit has at most N x N rows and (N x N - 1) / 3 flags,
 * and for each CTU side and MinCb some unit has so many. These are the numbers for 64 and 8. */
#define COLWYTHAR_H265_MAX_ROWS 64
#define COLWYTHAR_H265_MAX_ROW_BYTES 512
#define COLWYTHAR_H265_MAX_FLAGS 21

/* The most flags of a unit of H.266, by its CTU side 32, 64 or 128. Proved: no unit has more, and some unit has so many:
 * one of 32 by 32 or 64 by 64, halved vertically and horizontally in turn down to blocks of 8 by 4, or four such quarters of
 * 64 by 64 (settings 32 4 8 6 32 32 32 32, 64 4 8 8 64 64 64 64, and 128 4 8 8 128 64 128 128). */
#define COLWYTHAR_MAX_FLAGS_OF_CTU(ctu) ((ctu) == 32 ? 110 : (ctu) == 64 ? 446 : COLWYTHAR_MAX_FLAGS)

/* A bound on the flags of a unit of so many rows: 4 for each row, less 2; 0 for no rows, which no unit has. Proved: no unit
 * of so many rows has more flags, in H.265 neither, so a flag buffer of this length is never refused with 17; and for 1 to
 * 64 rows some unit of H.266 has so many: for one row in a picture half as wide as the unit (settings 64 4 8 3 64 32 32 64,
 * flags 0 0), for others one of 64 by 64 that is halved until it has so many blocks. From 65 rows on none has, which is
 * found by search. Where the number by the CTU side is smaller, that is enough. */
#define COLWYTHAR_MAX_FLAGS_OF_ROWS(rows) ((rows) ? 4 * (size_t)(rows) - 2 : 0)

/* The side of the pipeline units, by the CTU side: the smaller of 64 and the CTU side. They are squares, laid side by side
 * from (0, 0). Proved: each row lies inside one of them or consists of whole ones; with CTU side 16 or 32, no row leaves its
 * own. Proved, too: the rows that lie in one of them follow each other in the unit's table; and once a sample of one has
 * come and the next row does not lie in it, or the table ends, all of its samples that lie in the picture have come, each
 * once, and none comes later, also where the tables of a session follow each other. So a pipeline may start on one of them
 * when the first row of the next appears. */
#define COLWYTHAR_PIPELINE_SIDE(ctu) ((ctu) < 64 ? (ctu) : 64)

/* The bytes of a line of a page, and of the page of a unit with COLWYTHAR_MAX_ROWS rows. Proved: a page of that length is
 * never too short. */
#define COLWYTHAR_LINE_BYTES 33
#define COLWYTHAR_MAX_PAGE_BYTES 33792

/* Which of two tables of a unit is finer, as colwythar_compare answers it. Proved of all tables that it accepts with the
 * same settings and address, so that a caller may leave comparisons out; A is finer or equal to B where the answer for A
 * and B is COLWYTHAR_EQUAL_BLOCKS or COLWYTHAR_FIRST_FINER:
 * - any two of these tables are accepted together;
 * - for a table and itself the answer is COLWYTHAR_EQUAL_BLOCKS;
 * - if A is finer or equal to B, and B to C, then A is to C;
 * - if A is finer or equal to B, and B to A, they have the same rectangles, and the answer is COLWYTHAR_EQUAL_BLOCKS;
 * - for B and A the answer is that for A and B, with first finer and second finer exchanged. */
#define COLWYTHAR_EQUAL_BLOCKS  0 /* the two have the same rectangles */
#define COLWYTHAR_FIRST_FINER   1 /* every block of the second is a union of blocks of the first, not the other way round */
#define COLWYTHAR_SECOND_FINER  2 /* every block of the first is a union of blocks of the second, not the other way round */
#define COLWYTHAR_NEITHER_FINER 3

/* The numbers of an answer. Within a group the first that fails, in the order of the numbers, is answered; but 11 and 12
 * are met in the walk, whichever comes first, 27 and 28 are tested before 16, the session's are tested in the order
 * 22, 20, 21, before the flags, and a grant's are 37 and 38, before the session's, and 36, after all others. H.265 has 34,
 * 35, 7 and 8, in this order, in place of 1 to 9. */
#define COLWYTHAR_ACCEPTED 0

/* The settings. */
#define COLWYTHAR_BAD_CTU            1 /* CTU side not 32, 64 or 128 */
#define COLWYTHAR_BAD_MIN_CB         2 /* MinCb not a power of two from 4 to the smaller of 64 and the CTU side */
#define COLWYTHAR_BAD_MIN_QT         3 /* MinQt not a power of two from MinCb to the smaller of 64 and the CTU side */
#define COLWYTHAR_BAD_DEPTH          4 /* M above 2 x (exponent of the CTU side - exponent of MinCb) */
#define COLWYTHAR_BAD_MAX_BT         5 /* MaxBt not a power of two from MinQt to the CTU side */
#define COLWYTHAR_BAD_MAX_TT         6 /* MaxTt not a power of two from MinQt to the smaller of 64 and the CTU side */
#define COLWYTHAR_BAD_WIDTH          7 /* width 0, above 16,384, or no multiple of the larger of 8 and MinCb */
#define COLWYTHAR_BAD_HEIGHT         8 /* height likewise */
#define COLWYTHAR_BAD_EDGE           9 /* M is 0, and width or height no multiple of MinQt */

/* The settings of H.265. 7 and 8 follow: there MinCb is the larger of 8 and MinCb. */
#define COLWYTHAR_BAD_H265_CTU      34 /* CTU side not 16, 32 or 64 */
#define COLWYTHAR_BAD_H265_MIN_CB   35 /* MinCb not a power of two from 8 to the CTU side */

/* The unit. */
#define COLWYTHAR_NO_UNIT           10 /* no such unit */

/* Reading flags. */
#define COLWYTHAR_FLAGS_END         11 /* a flag is missing: the flags end too early; place: the number of bytes */
#define COLWYTHAR_BAD_FLAG          12 /* a byte above 1 where a flag is read; place: its index */
#define COLWYTHAR_FLAGS_LEFT        13 /* bytes follow the last flag; place: the first of them */
#define COLWYTHAR_SHORT_ROW_BUFFER  14 /* row buffer too short; place: the rows needed */

/* Turning rows back. Only one of 27, 28 and 16 can hold; an empty table is refused with 27, and more rows than any unit has
 * with 28 or 16, like any others. For 16 the row at the place, counted from 0, is the first that fits no tree of the unit. */
#define COLWYTHAR_CUT_ROW           15 /* row bytes no multiple of 8; place: the whole rows */
#define COLWYTHAR_ROWS_END          27 /* a row is missing: the table ends too early; place: the number of rows */
#define COLWYTHAR_ROWS_LEFT         28 /* rows follow a whole table; place: the first of them, its number of rows */
#define COLWYTHAR_NO_TREE           16 /* no flags give these rows; place: the most leading rows that some table begins with */
#define COLWYTHAR_SHORT_FLAG_BUFFER 17 /* flag buffer too short; place: the flags needed */

/* The session. */
#define COLWYTHAR_COMPLETE          20 /* the picture is complete */
#define COLWYTHAR_NOT_DUE           21 /* the address is not the due one; place: the due one */
#define COLWYTHAR_NO_SESSION        22 /* its settings are refused, or the due address exceeds the unit count */

/* Printing a page, after 1 to 10, 15, 27, 28 and 16. */
#define COLWYTHAR_SHORT_PAGE        23 /* page too short; place: the bytes needed */

/* A grant: 37 and 38, then the unit call's, then 36. */
#define COLWYTHAR_NOT_GRANTED       36 /* more rows than could be had; place: the rows that could */
#define COLWYTHAR_NO_ACCOUNT        37 /* the camera has no account */
#define COLWYTHAR_BAD_ACCOUNTS      38 /* the shares exceed the limit, or the common part is overdrawn */

/* Reads the flags of the unit at an address into the row buffer. Answers the number of rows, or 1 to 14. */
void colwythar_read_unit(const uint32_t settings[8], uint64_t address, const uint8_t *flags, size_t flags_len,
                         uint8_t *rows, size_t rows_len, uint64_t answer[2]);

/* Turns the rows of the unit at an address back into the flags that give them. Answers the number of flags, or 1 to
 * 10, 15, 27, 28, 16 and 17. */
void colwythar_write_flags(const uint32_t settings[8], uint64_t address, const uint8_t *rows, size_t rows_len,
                           uint8_t *flags, size_t flags_len, uint64_t answer[2]);

/* Prints the rows of the unit at an address into the page, where some flags give them: a line for each row, 33 bytes of
 * ASCII. Address, X and Y have 6 columns each, width and height in samples 4 each, QT depth and MTT depth 3 each, decimal
 * and right-aligned with spaces; then a line feed. Answers the number of bytes, or 1 to 10, 15, 27, 28, 16 and
 * 23. */
void colwythar_page(const uint32_t settings[8], uint64_t address, const uint8_t *rows, size_t rows_len, uint8_t *page,
                    size_t page_len, uint64_t answer[2]);

/* Compares two tables of the unit at an address, each the rows that some flags give. Answers COLWYTHAR_EQUAL_BLOCKS,
 * COLWYTHAR_FIRST_FINER, COLWYTHAR_SECOND_FINER or COLWYTHAR_NEITHER_FINER, or 1 to 10, then 15, 27, 28 and 16 of the first
 * table, then of the second. Depths and the order of rows play no part. The two tables may overlap. */
void colwythar_compare(const uint32_t settings[8], uint64_t address, const uint8_t *first, size_t first_len,
                       const uint8_t *second, size_t second_len, uint64_t answer[2]);

/* Counts the units of a picture, also those at its edges. Answers the number of units, or 1 to 9. */
void colwythar_unit_count(const uint32_t settings[8], uint64_t answer[2]);

/* Opens the session of a picture: answers 0 and 0, and sets the due address to 0, or answers 1 to 9 and leaves it. The
 * session is the settings and the due address. */
void colwythar_open(const uint32_t settings[8], uint64_t *due, uint64_t answer[2]);

/* The unit call on a session: reads the flags of the unit at an address, which must be the due one, into the row buffer,
 * and moves the due address on. Answers the number of rows, or 22, 20, 21 and 11 to 14. After the last unit the due
 * address is the number of units, and the picture is complete. */
void colwythar_unit(const uint32_t settings[8], uint64_t *due, uint64_t address, const uint8_t *flags,
                    size_t flags_len, uint8_t *rows, size_t rows_len, uint64_t answer[2]);

/* A camera's account in a bank of cameras that share memory for a limit of rows in a picture period. There is one for each
 * camera, lent as a list. What the limit has beyond the sum of the shares is common; what an account has used beyond its
 * share is drawn from the common part. */
typedef struct {
    uint32_t share; /* the rows reserved for the camera */
    uint32_t used;  /* the rows of the tables granted to it in this period */
} colwythar_account;

/* The unit call of a camera of a bank, counted from 0: as colwythar_unit, but the table is granted only where it has no more
 * rows than could be had. These are the camera's unused share and what is left of the common part; where the limit is above
 * 4,294,967,295, they are also at most that number less the used rows, which are counted no further. A granted table's rows
 * are added to the used ones. Answers the number of rows, or 37 and 38, then 22, 20, 21 and 11 to 14, then 36. Any number of
 * accounts with any numbers in them is taken, and any limit; sums don't wrap.
 *
 * Proved of all calls on one list with one limit that begin with a new period and alone change the list:
 * - the used rows of all cameras are together the rows of the tables granted since the last new period;
 * - they never exceed the limit;
 * - where the shares sum to at most the limit, no table within its camera's unused share is refused with 36 or 38, whatever
 *   the other cameras did. */
void colwythar_grant(const uint32_t settings[8], uint64_t *due, uint64_t address, const uint8_t *flags,
                     size_t flags_len, uint8_t *rows, size_t rows_len, colwythar_account *accounts,
                     size_t accounts_len, uint64_t camera, uint64_t limit, uint64_t answer[2]);

/* A new picture period of a bank: sets the used rows of all accounts to 0, and leaves their shares. Never refused. */
void colwythar_new_period(colwythar_account *accounts, size_t accounts_len);

/* The same for H.265, whose tree is a quad tree only: a node has a flag where it lies inside the picture and is larger than
 * MinCb, and is split without one where it reaches out of the picture. */

/* As colwythar_read_unit. Answers the number of rows, or 34, 35, 7, 8 and 10 to 14. */
void colwythar_h265_read_unit(const uint32_t settings[4], uint64_t address, const uint8_t *flags, size_t flags_len,
                              uint8_t *rows, size_t rows_len, uint64_t answer[2]);

/* As colwythar_write_flags. Answers the number of flags, or 34, 35, 7, 8, 10, 15, 27, 28, 16 and 17. */
void colwythar_h265_write_flags(const uint32_t settings[4], uint64_t address, const uint8_t *rows, size_t rows_len,
                                uint8_t *flags, size_t flags_len, uint64_t answer[2]);

/* As colwythar_unit_count. Answers the number of units, or 34, 35, 7 and 8. */
void colwythar_h265_unit_count(const uint32_t settings[4], uint64_t answer[2]);

/* As colwythar_open. Answers 0 and 0, or 34, 35, 7 and 8. */
void colwythar_h265_open(const uint32_t settings[4], uint64_t *due, uint64_t answer[2]);

/* As colwythar_unit. Answers the number of rows, or 22, 20, 21 and 11 to 14. */
void colwythar_h265_unit(const uint32_t settings[4], uint64_t *due, uint64_t address, const uint8_t *flags,
                         size_t flags_len, uint8_t *rows, size_t rows_len, uint64_t answer[2]);

#ifdef __cplusplus
}
#endif

#endif
