/* editions_calls.h: which rows of two ranges are equal, where they part, and which agree at fewer digits; how a table's Maps are
 * named; and the table that written rows are.
 *
 * Further calls on the tables of editions.h. What editions.h says of images, lent memory, threads and answers holds here too,
 * and its functions take these answers apart. Link with libcalls_c.a; it needs no other library, and a program may link it
 * beside libeditions_c.a.
 *
 * A range is `count` rows of a table from row `start` on. Each call on two ranges is refused by the first of these that holds:
 *   - 10 to 19, with the side and the node, as editions_compare refuses an image, left before right;
 *   - EDITIONS_TYPES, where the tables' types do not agree, also where count is 0;
 *   - EDITIONS_DIGITS, editions_compare_digits alone, where the root is neither Decimal32 nor Decimal64 or `digits` is above 9,
 *     also where count is 0;
 *   - EDITIONS_RANGE, with the side, where start + count exceeds the table's length, left before right. The sum does not wrap,
 *     and a start that is the length, with count 0, is no fault. */
#ifndef EDITIONS_CALLS_H
#define EDITIONS_CALLS_H

#include "editions.h"

#ifdef __cplusplus
extern "C" {
#endif

/* Whether the rows of two ranges are equal, in turn, in nullness and value. The answer's value is 1 for yes and 0 for no;
 * ranges without rows are equal. */
uint64_t editions_compare_range(const uint8_t *left, size_t left_length, const uint8_t *right, size_t right_length,
                                uint32_t left_start, uint32_t right_start, uint32_t count);

/* The first row of two ranges that is not equal, counted from 0 at the start of the ranges: the answer's value is 0 where
 * there is none, that is where editions_compare_range says yes, and else one more than the row. */
uint64_t editions_first_difference(const uint8_t *left, size_t left_length, const uint8_t *right, size_t right_length,
                                   uint32_t left_start, uint32_t right_start, uint32_t count);

/* Whether the numbers of two ranges agree, in turn, once their last `digits` digits are dropped, 0 to 9. Of a row that is not
 * null the stored whole number, an i32 or i64, is divided by 10 to the `digits`, to the nearest, halves away from zero: with
 * one digit dropped 25 gives 3, -25 gives -3, and 4 and -4 give 0. Null agrees only with null. The answer's value is 1 for yes
 * and 0 for no; ranges without rows agree. With `digits` 0 the answer is that of editions_compare_range, where it is not
 * EDITIONS_DIGITS. */
uint64_t editions_compare_digits(const uint8_t *left, size_t left_length, const uint8_t *right, size_t right_length,
                                 uint32_t left_start, uint32_t right_start, uint32_t count, uint32_t digits);

/* Whether every Map's entries are named `entries` and their two fields `key` and `value`, in this order, byte for byte. Every
 * Map of the tree counts, at any depth, also one without rows, one in a Dictionary's values, and one in a union's child that
 * no row names. The answer's value is 1 for yes and 0 for no; a table without Maps: yes. Refused by 10 to 19 as
 * editions_check, and by nothing else. */
uint64_t editions_map_names(const uint8_t *image, size_t image_length);

/* Builds the table of `count` rows that editions_write has written, `rows`, and puts its image to the front of `out`; the
 * answer's value is the image's length. The type is that of `image`: codes, p1, p2, names and nullable flags are taken from it,
 * and no row. Writing the built table gives `rows` again, and rows that were written of a table of this type are equal to those
 * that are built. docs/FORMAT.md has the built image byte for byte: the same type and rows give the same image. Refused by the
 * first of these that holds:
 *   - 10 to 19 as editions_check;
 *   - EDITIONS_UNREADABLE, where a node of `image` has another code than 0 to 30, 33, 34 and 38, whatever `rows` are;
 *   - EDITIONS_STRING, where `rows` are not exactly `count` rows of this type, or have ill-formed text for Utf8 or LargeUtf8;
 *   - EDITIONS_OUTPUT, where the image would be longer than `out` or than 16,777,216 bytes, or a node of it would have more than
 *     1,073,741,824 rows.
 * A refusal changes no byte of `out`; bytes past the image are never changed. `image` and `rows` may overlap. */
uint64_t editions_build(const uint8_t *image, size_t image_length, uint32_t count, const uint8_t *rows, size_t rows_length,
                        uint8_t *out, size_t out_length);

#ifdef __cplusplus
}
#endif

/* Of a first difference that is not refused: whether there is one. */
static inline int editions_differs(uint64_t answer) { return editions_value(answer) != 0; }

/* Of a first difference that is one: its row. Row r is row left_start + r of the left table, right_start + r of the right. */
static inline uint32_t editions_row(uint64_t answer) { return (uint32_t)(editions_value(answer) - 1u); }

#endif
