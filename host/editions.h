/* editions.h: which rows of two Arrow tables are equal, whatever layout each table has.
 *
 * A table is an image: one block of bytes, little-endian, with a header, node records, buffer entries and then the buffers;
 * the library's docs/FORMAT.md says how to write one. Link with libeditions_c.a; it needs no other library. Ranges of rows
 * are compared, and tables built of written rows, by the calls of editions_calls.h.
 *
 * The calls read only the bytes that they are lent, keep nothing between calls, allocate nothing and may run in any number
 * of threads. Any bytes may be lent as an image; one that breaks the rules is refused by number. A pointer may be NULL where
 * its length is 0. The images of a comparison may overlap; `out` must not overlap what is lent to be read.
 *
 * Every call answers with one number; take it apart with the functions at the end. */
#ifndef EDITIONS_H
#define EDITIONS_H

#include <stddef.h>
#include <stdint.h>

#ifdef __cplusplus
extern "C" {
#endif

/* Whether an image may be compared and written: 0, or refused by 10 to 19 with the node that is at fault. */
uint64_t editions_check(const uint8_t *image, size_t image_length);

/* Whether two tables are equal: types and lengths agree, and each row in nullness and value. The answer's value is 1 for
 * yes and 0 for no. Both images are checked first: refused by 10 to 19, with the side and the node, left before right. */
uint64_t editions_compare(const uint8_t *left, size_t left_length, const uint8_t *right, size_t right_length);

/* Writes `count` rows from row `start` on to the front of `out`, and answers how many bytes that are. Two ranges of equally
 * many rows of tables of equal type give the same bytes exactly when they are equal. Refused by 10 to 19 as editions_check,
 * by 21 where start + count exceeds the table's length, by 43 where the bytes do not fit. A refusal changes no byte of
 * `out`; bytes past those written are never changed. */
uint64_t editions_write(const uint8_t *image, size_t image_length, uint32_t start, uint32_t count, uint8_t *out,
                        size_t out_length);

#ifdef __cplusplus
}
#endif

/* The refusals; editions_refusal_text says what each is. The three calls above never answer EDITIONS_TYPES, EDITIONS_DIGITS,
 * EDITIONS_UNREADABLE or EDITIONS_STRING. */
enum {
    EDITIONS_SIZE = 10, EDITIONS_CODE = 11, EDITIONS_TREE = 12, EDITIONS_NAME = 13, EDITIONS_BUFFER = 14,
    EDITIONS_TOO_FEW = 15, EDITIONS_CHILD = 16, EDITIONS_OFFSETS = 17, EDITIONS_ROWS = 18, EDITIONS_TEXT = 19,
    EDITIONS_TYPES = 20, EDITIONS_RANGE = 21, EDITIONS_DIGITS = 22, EDITIONS_UNREADABLE = 23, EDITIONS_STRING = 24,
    EDITIONS_OUTPUT = 43
};

enum { EDITIONS_LEFT = 0, EDITIONS_RIGHT = 1 };

/* The refusal's number, or 0. */
static inline unsigned editions_refusal(uint64_t answer) { return (unsigned)(answer & 255u); }

/* The side of a refused image or range: EDITIONS_LEFT or EDITIONS_RIGHT. A call on one image takes it as left. */
static inline unsigned editions_side(uint64_t answer) { return (unsigned)(answer >> 8 & 255u); }

/* The node of a refusal by 10 to 19. */
static inline unsigned editions_node(uint64_t answer) { return (unsigned)(answer >> 16 & 65535u); }

/* The value of a call that is not refused: 1 or 0 for a comparison, the number of bytes for a write or a built image. */
static inline uint64_t editions_value(uint64_t answer) { return answer >> 8; }

/* What a refusal's number says, as a sentence; 0 has one too, and so has a number that is no refusal. Never NULL. */
static inline const char *editions_refusal_text(unsigned refusal)
{
    switch (refusal) {
    case 0: return "The call is not refused.";
    case EDITIONS_SIZE: return "The image is too long, too short for its tables, or has too few or too many nodes or buffers.";
    case EDITIONS_CODE: return "A type code, flag or parameter is not allowed, or a bitmap stands where none may be.";
    case EDITIONS_TREE: return "The tree is broken: child counts, numbering, depth, type ids, a Map's entries or run ends.";
    case EDITIONS_NAME: return "A name is too long or lies outside the image.";
    case EDITIONS_BUFFER: return "Buffers are miscounted, lie outside or are not whole elements, or rows are too many.";
    case EDITIONS_TOO_FEW: return "A bitmap or a buffer has too few elements for the rows.";
    case EDITIONS_CHILD: return "A child has too few rows, or run ends and run values are not equally many.";
    case EDITIONS_OFFSETS: return "Offsets are negative, fall or pass the end, or a list view lies outside its child.";
    case EDITIONS_ROWS: return "A row's type id, dense offset, key or view is not allowed, or run ends are not.";
    case EDITIONS_TEXT: return "A text of a row that is not null is not well-formed UTF-8.";
    case EDITIONS_TYPES: return "Ranges of tables of unequal type are not compared.";
    case EDITIONS_RANGE: return "The range passes the table's last row.";
    case EDITIONS_DIGITS: return "Digits are dropped of Decimal32 and Decimal64 at the root alone, and at most nine.";
    case EDITIONS_UNREADABLE: return "Rows are read back of the codes 0 to 30, 33, 34 and 38 alone.";
    case EDITIONS_STRING: return "The bytes are not that many rows of the type, or a text among them is not well-formed UTF-8.";
    case EDITIONS_OUTPUT: return "The output is longer than the buffer, or a built image than one may be.";
    default: return "The number is not a refusal of these calls.";
    }
}

#endif
