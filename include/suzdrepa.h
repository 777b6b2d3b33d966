/*
 * suzdrepa.h - fixed-point wavelet engine for roll pictures
 *
 * Link with libengine.a. Every function is total: it takes any pointers to
 * memory of the stated lengths and any numbers, needs no setup, keeps no state
 * between calls (that of a rolling scan stands in the caller's memory), and
 * ends.
 *
 * POINTERS. Where a length is 0 its pointer is not used and may be NULL; a
 * pointer without a length must point to what its type says. Every pointer is
 * aligned as its type asks: one to uint16_t, int32_t, uint32_t, int64_t or
 * uint64_t stands where the compiler would put such a number. (NULL is
 * aligned.)
 *
 * Lengths count elements, not bytes: `pixels_len` of a uint16_t array of
 * 640 * 512 pixels is 640 * 512.
 *
 * Memory that a call writes must not overlap what it reads or the other
 * memory it writes. What is declared const is read and never written.
 *
 * THE ANSWER of every call is 0 where the call was done, else the number of
 * the refusal, and with refusals 6 and 7 also the node they hold of:
 *
 *   bits  0 to  7   refusal number             SUZ_NUMBER(answer)
 *   bits  8 to 15   level, from 1              SUZ_LEVEL(answer)
 *   bits 16 to 23   pass, 1 to 3               SUZ_PASS(answer)
 *   bits 24 to 31   node, 1 to 6               SUZ_NODE(answer)
 *
 * Level, pass and node are 0 with every other number.
 *
 *   pass 1 rows, 2 columns of row-low, 3 columns of row-high
 *   node 1 P1, 2 U1, 3 P2, 4 U2, 5 G1 (low values), 6 G2 (high values)
 *
 *   number  meaning
 *    0      done
 *    1      the bytes end before a field's tag, length or announced value is whole
 *    2      the tag is not the next one due, or a caller names one outside 1 to 5
 *           or one that the table lacks
 *    3      the length is not that tag's
 *    4      a number is outside its limits, or an unused level is not zero
 *    5      bytes follow the last field: any byte but 5 after the fourth, or any
 *           after the fifth
 *    6      a node does not fit
 *    7      a kept node's error is not below two steps
 *    8      a side is 0 or above 4,096
 *    9      a lent slice is too short
 *   10      a pixel is 2^B or more
 *   11      the 5/3 plane is the transform of no picture of that depth and size
 *           (in the order of rows and columns of the call)
 *   12      a coefficient is outside its node's width
 *   13      viewing is not accurate to half a grey, or a value may pass 2^15
 *   14      a table not of one level, a line or an end out of turn, or a line
 *           of another width (rolling scan)
 *
 * STACK. No call takes memory but on the stack, and no call calls itself. In
 * the library for x86-64 each stays within so many KiB, beside what memcpy and
 * memset of the C library take (the project's tests read this off its machine
 * code):
 *
 *   260   suz_inverse53, suz_inverse53_rows_first
 *    80   suz_view97
 *    20   suz_scan_line
 *     4   suz_forward53, suz_forward97, suz_table_check, suz_table_bound,
 *         suz_table_change, suz_table_change_constant,
 *         suz_table_change_product, suz_table_view, suz_view_distance,
 *         suz_scan_begin, suz_scan_end
 *     1   suz_table_form, suz_table_value, suz_table_write,
 *         suz_table_write_products
 *
 * PICTURES. Depth B is 1 to 12 bits, levels L 1 to 5. A side is 1 to 4,096,
 * whatever the levels. Pixels are 16-bit, row by row, without gaps between rows,
 * each below 2 to the power B.
 *
 * PLANES are 32-bit signed, row by row, as large as the picture. Each level
 * puts the low values of every row and column first: the part that level 1
 * leaves as low-low is the upper left (width + 1) / 2 by (height + 1) / 2, and
 * level 2 works that part in place, and so on. Row-high, column-low stands
 * upper right; row-low, column-high lower left.
 *
 * A row or a column of a single sample, as a strip one sample wide has them and
 * as a small picture has them at its last levels, gives that sample as its only
 * low value and no high one; the 9/7 transform cuts it to the fractional bits of
 * G1. Earlier libraries refused 8 a side that was not greater than 2 to the
 * power (L - 1).
 *
 * EXACT COPIES are 5/3 planes. New ones have the order of JPEG 2000 Part 1:
 * each level works the columns, then the rows. Copies made earlier were worked
 * rows first, as the 9/7 transform is. The subbands stand in the same places,
 * but many numbers differ, and each order has a way back of its own:
 *
 *   the copy was made by                              its picture is given by
 *   suz_forward53, columns first                      suz_inverse53
 *   suz_forward53 of earlier libraries, rows first    suz_inverse53_rows_first
 *
 * (Libraries without suz_inverse53_rows_first are the earlier ones.) Nothing in
 * the numbers tells the two kinds apart: keep with each copy which it is. Given
 * a copy of the other kind, a call refuses it 11, or answers 0 and gives, as a
 * rule, another picture.
 *
 * LENT MEMORY. Each transform of a whole picture takes pixels, plane and a work
 * area. All three need width * height elements. Elements past that count are
 * never written. The work area is 32-bit, that of suz_view97 64-bit, and may
 * hold anything before the call.
 *
 *   done         the output (plane, or pixels for the way back and for viewing)
 *                has its first width * height elements written; the work area's
 *                first width * height elements are 0
 *   refused 11   the work area's first width * height elements are 0, the
 *                output is untouched
 *   refused by   nothing is touched
 *   another
 *
 * WIDTH TABLES are bytes: four fields in order, or five, each a tag (one byte),
 * a length (two bytes, high byte first) and a value. With four a table is
 * 20 + 36 * L bytes long, with five 23 + 48 * L.
 *
 *   tag  length  value
 *   1    1       depth B, 1 to 12
 *   2    1       levels L, 1 to 5
 *   3    6       fractional bits F, 1 to 24, of the constants of P1, U1, P2,
 *                U2, G1, G2
 *   4    36 * L  per level the six nodes of pass 1, of pass 2, of pass 3, each
 *                integer bits (1 to 12), then fractional bits f (0 to 20)
 *   5    12 * L  may be absent: per level the four products of pass 1, of pass
 *                2, of pass 3, each its fractional bits fp (0 to 44)
 *
 * They are read field by field. In each the first of these that applies is the
 * answer: tag or length is not whole (1), the tag is not the one due (2), the
 * length is not that tag's (3), the value is not whole (1), a number is outside
 * its limits (4). After a right fourth field the table may end. Any byte there
 * but 5 is refused 5, whatever comes after it; a byte 5 begins the fifth field,
 * and what follows a right fifth field is refused 5.
 *
 * A node holds an integer v that means v / 2^f, with v from -2^(IB+f-1) to
 * 2^(IB+f-1) - 1. A coefficient of the 9/7 plane has the f of the node that
 * gave it: pass 2 left of the middle, pass 3 right of it, G1 above, G2 below,
 * of its level.
 *
 * PRODUCT WIDTHS are the numbers of tag 5. The stages P1, U1, P2 and U2 each add
 * to a value a product: their constant times the sum of two neighbours. It has F
 * fractional bits more than what is multiplied has, and that is
 *
 *   product 1 P1    what enters the pass: the pixels, B bits, or G1 or G2 of the
 *                   pass before
 *   product 2 U1    P1
 *   product 3 P2    U1
 *   product 4 U2    P2
 *
 * A table without tag 5 cuts no product: each is added as it is, and the sum is
 * cut once, downwards, to the f of its node. With tag 5 a product that has more
 * than fp fractional bits is cut downwards to fp of them before it is added; the
 * sum is cut as ever. fp of 44 cuts nothing, since no product has more. What a
 * cut may lose, 2^-fp, is counted in the error of its stage, so that an accepted
 * table promises the same with tag 5 as without. Where no fp of a table cuts
 * anything, it gives the coefficients of the table without tag 5.
 *
 * VIEWING works the inverse 9/7 transform with 20 fractional bits at every node
 * and constants of 24 bits, whatever bits the table has for them; of the table
 * it takes depth, levels, and the widths of the nodes that gave the coefficients.
 * Product widths count in its verdict (6 and 7) alone.
 * A viewed value means a pixel's (p - 2^(B-1)) / 2^B: it is taken in greys of
 * 2^-B, 2^(B-1) is added, and the pixel shown is the nearest, halves up, within
 * 0 to 2^B - 1. Under a table that viewing does not refuse every value is less
 * than half a grey from the exact inverse of what is stored, so the pixel shown
 * is one of the two greys nearest to it.
 *
 * The more levels and the more bits a pixel has, the harder that is. Some
 * tables can be viewed with one level at any depth, with two up to 11 bits,
 * three up to 9, four up to 7, five up to 5 bits; beyond that every table is
 * refused 13. Integer bits of kept nodes that are more than the judge asks for
 * make it harder.
 *
 * ROLLING SCAN: the 9/7 transform of one level, of a strip that comes line by
 * line. The strip may have any number of lines from 1, past 4,096 too; a line
 * has 1 to 4,096 pixels. suz_scan_begin takes the table, suz_scan_line each
 * line of pixels, and suz_scan_end says that there are no more. Lines of
 * coefficients, as wide as the strip, are given as soon as they are ready. With
 * lines of pixels counted from 0:
 *
 *   call                                      gives
 *   line 2n + 4                               low n, high n
 *   every other line                          none
 *   the end after 1 line                      low 0
 *   the end after 2 lines                     low 0, high 0
 *   the end after 2m + 1 lines (m from 1)     low m - 1, high m - 1, low m
 *   the end after 2m lines (m from 2)         low m - 2, high m - 2,
 *                                             low m - 1, high m - 1
 *
 * So they come as low 0, high 0, low 1, high 1, and so on, each once. They are
 * the rows of the plane of the whole strip, the one that suz_forward97 gives
 * where the strip is no higher than 4,096: low n is its row n, and high n its
 * row (height + 1) / 2 + n.
 *
 * A scan has memory of the caller, and any number of scans may go on at once:
 *
 *   state   SUZ_SCAN_LENGTH bytes
 *   held    SUZ_SCAN_HELD_LINES * width elements
 *   out     SUZ_SCAN_OUT_LINES * width elements
 *
 * State and held lines go from call to call as the last one that was done left
 * them; what they hold is the library's own. They may lie elsewhere at each
 * call, and held may hold anything before the first line. Lines given stand
 * first in out, in their order, and *given tells how many. All that is past
 * them in out, past those lines in held and past those bytes in state is never
 * written. The pixels of a line are read in its own call only.
 *
 *   done      state is written, for a line or an end also *given, the lines
 *             given, and held as far as it goes
 *   refused   nothing is touched
 *
 * A line or an end is refused 9 at once where the state is too short, and 14
 * where its bytes are not those of a scan that began and has not ended. A
 * refused line counts as not there: the scan goes on with the next one. So that
 * bytes that no scan left do no harm, each line and each end reads and judges
 * the table in the state anew, at the cost of suz_table_check. Held lines that
 * no scan left do no harm either: the call does what it does otherwise, but
 * which values it gives is not said.
 */
#ifndef SUZDREPA_H
#define SUZDREPA_H

#include <stddef.h>
#include <stdint.h>

#ifdef __cplusplus
extern "C" {
#endif

/* The parts of an answer. */
#define SUZ_NUMBER(answer) ((unsigned)((uint32_t)(answer) & 0xFFu))
#define SUZ_LEVEL(answer)  ((unsigned)(((uint32_t)(answer) >> 8) & 0xFFu))
#define SUZ_PASS(answer)   ((unsigned)(((uint32_t)(answer) >> 16) & 0xFFu))
#define SUZ_NODE(answer)   ((unsigned)(((uint32_t)(answer) >> 24) & 0xFFu))

/* Limits. */
#define SUZ_MAX_DEPTH 12
#define SUZ_MAX_LEVELS 5
#define SUZ_MAX_SIDE 4096
#define SUZ_MAX_INTEGER_BITS 12
#define SUZ_MAX_FRACTION_BITS 20
#define SUZ_MAX_CONSTANT_BITS 24
#define SUZ_MAX_PRODUCT_BITS 44

/* The bytes of a width table before its widths, and the widths of a level. */
#define SUZ_TABLE_HEAD 20
#define SUZ_TABLE_LEVEL 36

/* The bytes of tag 5 before its numbers, and the numbers of a level. */
#define SUZ_TABLE_PRODUCT_HEAD 3
#define SUZ_TABLE_PRODUCT_LEVEL 12

/* The length in bytes of a width table of so many levels: without tag 5, and
 * with it. No table is longer than SUZ_TABLE_LENGTH_PRODUCTS(SUZ_MAX_LEVELS). */
#define SUZ_TABLE_LENGTH(levels) (SUZ_TABLE_HEAD + SUZ_TABLE_LEVEL * (size_t)(levels))
#define SUZ_TABLE_LENGTH_PRODUCTS(levels) \
    (SUZ_TABLE_LENGTH(levels) + SUZ_TABLE_PRODUCT_HEAD + SUZ_TABLE_PRODUCT_LEVEL * (size_t)(levels))

/* How many numbers the constants, the widths and the product widths of a table
 * have, all levels. */
#define SUZ_TABLE_CONSTANTS 6
#define SUZ_TABLE_WIDTHS (SUZ_TABLE_LEVEL * SUZ_MAX_LEVELS)
#define SUZ_TABLE_PRODUCTS (SUZ_TABLE_PRODUCT_LEVEL * SUZ_MAX_LEVELS)

/* The bytes of a scan's state, and the lines that a call is lent to hold and
 * for output. (In libraries without tag 5 the state had 60 bytes: a program of
 * that time is compiled anew, else its scans are refused 9.) */
#define SUZ_SCAN_LENGTH 75
#define SUZ_SCAN_HELD_LINES 7
#define SUZ_SCAN_OUT_LINES 4

/* A short text for the number of an answer. */
static inline const char *suz_refusal_text(uint32_t answer)
{
    switch (SUZ_NUMBER(answer)) {
    case 0: return "done";
    case 1: return "the bytes end before a field's tag, length or announced value is whole";
    case 2: return "the tag is not the next one due, or a caller names one outside 1 to 5 or one that the table lacks";
    case 3: return "the length is not that tag's";
    case 4: return "a number is outside its limits, or an unused level is not zero";
    case 5: return "bytes follow the last field: any byte but 5 after the fourth, or any after the fifth";
    case 6: return "a node does not fit";
    case 7: return "a kept node's error is not below two steps";
    case 8: return "a side is 0 or above 4,096";
    case 9: return "a lent slice is too short";
    case 10: return "a pixel is 2^B or more";
    case 11: return "the 5/3 plane is the transform of no picture of that depth and size";
    case 12: return "a coefficient is outside its node's width";
    case 13: return "viewing is not accurate to half a grey, or a value may pass 2^15";
    case 14: return "a table not of one level, a line or an end out of turn, or a line of another width";
    default: return "unknown";
    }
}

/*
 * Reads a width table and judges it.
 * 0: under this table no picture of its depth and of admitted size drives any
 *    value out of its width, and every coefficient is less than two of its own
 *    steps from the exact one.
 * Refused 1 to 5, field by field, then 6 and 7 in node order (at one node 6
 * first). Reads the table, writes nothing.
 */
uint32_t suz_table_check(const uint8_t *table, size_t table_len);

/*
 * Reads a width table and does not judge it: 0 or 1 to 5, field by field.
 * Reads the table, writes nothing.
 */
uint32_t suz_table_form(const uint8_t *table, size_t table_len);

/*
 * Where the value of a tag stands in the table's bytes.
 * 0: *start and *length are written; the value is table[*start] up to, not
 *    including, table[*start + *length].
 * Refused 2 for a tag outside 1 to 5, then 1 to 5 of the whole table, then 2
 * for tag 5 where the table has none; *start and *length are untouched.
 */
uint32_t suz_table_value(const uint8_t *table, size_t table_len, uint8_t tag,
                         uint32_t *start, uint32_t *length);

/*
 * The bounds of one node, in units of 2 to the power -32: how far its exact
 * value may lie from 0 (range), and how far its value from the exact one
 * (error).
 * 0: *range and *error are written.
 * Refused 1 to 5 of the table's bytes, 4 where the table lacks the level, pass
 * or node, then 6 or 7 of the first refused node before this one in node order:
 * past a refused node bounds may leave 64 bits. The first refused node itself
 * has its bounds told. Where refused, *range and *error are untouched.
 */
uint32_t suz_table_bound(const uint8_t *table, size_t table_len,
                         uint8_t level, uint8_t pass, uint8_t node,
                         uint64_t *range, uint64_t *error);

/*
 * Writes a new table, equal to the old but for the width of one node, to the
 * start of `out`. The new table is as long as the old one; `out` past it is
 * untouched. The new table is not judged.
 * Refused 1 to 5 of the old table, 4 where the table lacks the level, pass or
 * node or where a number is outside its limits, 9 where `out` is shorter than
 * the table; `out` is untouched.
 */
uint32_t suz_table_change(const uint8_t *table, size_t table_len,
                          uint8_t level, uint8_t pass, uint8_t node,
                          uint8_t integer_bits, uint8_t fraction_bits,
                          uint8_t *out, size_t out_len);

/*
 * Writes a new table, equal to the old but for the fractional bits F of one
 * node's constant, to the start of `out`, as suz_table_change does.
 * Refused 1 to 5 of the old table, 4 where the node is outside 1 to 6 or the
 * bits are outside their limits, 9 where `out` is shorter than the table;
 * `out` is untouched.
 */
uint32_t suz_table_change_constant(const uint8_t *table, size_t table_len,
                                   uint8_t node, uint8_t bits,
                                   uint8_t *out, size_t out_len);

/*
 * Writes a new table, equal to the old but for the fractional bits fp of one
 * product (1 P1, 2 U1, 3 P2, 4 U2), to the start of `out`, as suz_table_change
 * does.
 * Refused 1 to 5 of the old table, 4 where it has no tag 5, where it lacks the
 * level, pass or product or where the bits are outside their limits, 9 where
 * `out` is shorter than the table; `out` is untouched.
 */
uint32_t suz_table_change_product(const uint8_t *table, size_t table_len,
                                  uint8_t level, uint8_t pass, uint8_t product,
                                  uint8_t bits, uint8_t *out, size_t out_len);

/*
 * Writes the table of these parts to the start of `out`: depth, levels, the
 * constants' fractional bits F in the order of tag 3, and the widths in the
 * order of tag 4, of five levels, with zeros at those that the table lacks.
 * The table has no tag 5. It is SUZ_TABLE_LENGTH(levels) bytes long; `out` past
 * it is untouched. It is not judged.
 * Refused 4, 9 where `out` is shorter than the table; `out` is untouched.
 */
uint32_t suz_table_write(uint8_t depth, uint8_t levels,
                         const uint8_t constants[SUZ_TABLE_CONSTANTS],
                         const uint8_t widths[SUZ_TABLE_WIDTHS],
                         uint8_t *out, size_t out_len);

/*
 * As suz_table_write, of a table that has tag 5 unless has_products is 0. The
 * products' numbers stand in the order of tag 5, of five levels, with zeros at
 * those that the table lacks; where has_products is 0 all of them are 0. With
 * tag 5 the table is SUZ_TABLE_LENGTH_PRODUCTS(levels) bytes long, without it
 * SUZ_TABLE_LENGTH(levels).
 * Refused 4, 9 where `out` is shorter than the table; `out` is untouched.
 */
uint32_t suz_table_write_products(uint8_t depth, uint8_t levels,
                                  const uint8_t constants[SUZ_TABLE_CONSTANTS],
                                  const uint8_t widths[SUZ_TABLE_WIDTHS],
                                  uint8_t has_products,
                                  const uint8_t products[SUZ_TABLE_PRODUCTS],
                                  uint8_t *out, size_t out_len);

/*
 * Reads a width table, judges it, and judges whether planes stored under it can
 * be viewed.
 * 0: suz_view97 shows every plane whose coefficients are within their widths,
 *    each value less than half a grey from the exact inverse (see VIEWING).
 * Refused 1 to 5, then 6 and 7 as suz_table_check refuses them, then 13. Reads
 * the table, writes nothing.
 */
uint32_t suz_table_view(const uint8_t *table, size_t table_len);

/*
 * How far viewing may lead from what was scanned, in units of 2 to the power
 * -32: where suz_forward97 stored a picture under this table and suz_view97
 * shows it, each value before rounding is at most so far from the scanned
 * pixel's (p - 2^(B-1)) / 2^B. A grey is 2 to the power (32 - B) such units; a
 * pixel shown is at most the distance in greys, rounded to the nearest, halves
 * up, from the one scanned.
 * 0: *distance is written.
 * Refused as suz_table_view refuses; *distance is untouched.
 */
uint32_t suz_view_distance(const uint8_t *table, size_t table_len,
                           uint64_t *distance);

/*
 * 9/7 forward under a width table; depth and levels are the table's.
 * Reads table and pixels, writes plane and work (see LENT MEMORY).
 * Refused 1 to 5 of the table's bytes, then 6 and 7, 8, 9, 10.
 */
uint32_t suz_forward97(const uint8_t *table, size_t table_len,
                       const uint16_t *pixels, size_t pixels_len,
                       size_t width, size_t height,
                       int32_t *plane, size_t plane_len,
                       int32_t *work, size_t work_len);

/*
 * Viewing: the picture of a stored 9/7 plane (see VIEWING); depth and levels
 * are the table's. The plane need not be one that suz_forward97 stored.
 * Reads table and plane, writes pixels and work (see LENT MEMORY).
 * Refused 1 to 5 of the table's bytes, then 6 and 7, 13, 8, 9, and 12 where
 * one of the plane's first width * height coefficients is outside the width of
 * the node that gives that place.
 */
uint32_t suz_view97(const uint8_t *table, size_t table_len,
                    const int32_t *plane, size_t plane_len,
                    size_t width, size_t height,
                    uint16_t *pixels, size_t pixels_len,
                    int64_t *work, size_t work_len);

/*
 * Begins a rolling scan under a width table of one level (see ROLLING SCAN).
 * Reads table, writes state.
 * 0: the state is that of a scan without a line.
 * Refused 1 to 5 of the table's bytes, then 14 where it has more levels than
 * one, 6 and 7, and 9 where the state is shorter than SUZ_SCAN_LENGTH. Where
 * refused, the state is untouched; a scan that it holds goes on.
 */
uint32_t suz_scan_begin(const uint8_t *table, size_t table_len,
                        uint8_t *state, size_t state_len);

/*
 * The next line of a rolling scan; the first one that is taken settles the
 * width. Reads pixels, reads and writes state and held, writes out and *given.
 * 0: the line is taken; *given is 0 or 2, and so many lines stand in out.
 * Refused 9 where the state is too short, then 14 where no scan began, where it
 * has ended, or where the width is not that of the first line, 8 where the
 * width is outside 1 to 4,096, 9 where pixels, held or out are too short, and
 * 10.
 */
uint32_t suz_scan_line(uint8_t *state, size_t state_len,
                       const uint16_t *pixels, size_t pixels_len, size_t width,
                       int32_t *held, size_t held_len,
                       int32_t *out, size_t out_len, uint32_t *given);

/*
 * The end of a rolling scan. Reads and writes state and held, writes out and
 * *given.
 * 0: the scan has ended; *given is 1 to 4, and so many lines stand in out.
 * Refused 9 where the state is too short, then 14 where no scan began, where it
 * has ended, or where no line was taken, and 9 where held or out are too short.
 */
uint32_t suz_scan_end(uint8_t *state, size_t state_len,
                      int32_t *held, size_t held_len,
                      int32_t *out, size_t out_len, uint32_t *given);

/*
 * 5/3 forward: the exact copy of a picture, in the order of JPEG 2000 Part 1.
 * Each level works the columns, then the rows. suz_inverse53 gives the picture
 * back (see EXACT COPIES).
 * Reads pixels, writes plane and work (see LENT MEMORY).
 * Refused 4 (depth or levels), 8, 9, 10.
 */
uint32_t suz_forward53(uint8_t depth, uint8_t levels,
                       const uint16_t *pixels, size_t pixels_len,
                       size_t width, size_t height,
                       int32_t *plane, size_t plane_len,
                       int32_t *work, size_t work_len);

/*
 * 5/3 back: the picture of an exact copy that was worked columns first, as
 * suz_forward53 works it. The inverse of each level, the last one first, works
 * the rows, then the columns. For copies made earlier, rows first, take
 * suz_inverse53_rows_first; this call refuses them 11, or answers 0 and gives,
 * as a rule, another picture (see EXACT COPIES).
 * Reads plane, writes pixels and work (see LENT MEMORY).
 * Refused 4 (depth or levels), 8, 9, 11.
 */
uint32_t suz_inverse53(uint8_t depth, uint8_t levels,
                       const int32_t *plane, size_t plane_len,
                       size_t width, size_t height,
                       uint16_t *pixels, size_t pixels_len,
                       int32_t *work, size_t work_len);

/*
 * 5/3 back for copies made earlier: the picture of an exact copy that was
 * worked rows first, as earlier libraries worked it. The inverse of each
 * level, the last one first, works the columns, then the rows. For copies that
 * suz_forward53 makes now take suz_inverse53; this call refuses them 11, or
 * answers 0 and gives, as a rule, another picture (see EXACT COPIES).
 * Reads plane, writes pixels and work (see LENT MEMORY).
 * Refused as suz_inverse53: 4 (depth or levels), 8, 9, 11.
 */
uint32_t suz_inverse53_rows_first(uint8_t depth, uint8_t levels,
                                  const int32_t *plane, size_t plane_len,
                                  size_t width, size_t height,
                                  uint16_t *pixels, size_t pixels_len,
                                  int32_t *work, size_t work_len);

#ifdef __cplusplus
}
#endif

#endif
