/* A small host: two tables of three Int8 rows, the middle one null, with other bytes under the null, and a third table that
 * differs in its last row. It checks the two, compares them, finds where the third parts from them, writes their rows, builds a
 * table of what is written, and prints what it found. */
#include "editions.h"
#include "editions_calls.h"

#include <stdio.h>
#include <string.h>

/* The sizes of an image's header, of a node's record and of a buffer's entry. */
enum { HEADER = 4, RECORD = 44, ENTRY = 8 };

/* Of a record: where its type code stands, two codes, and a flag. */
enum { CODE = 0, INT8 = 2, NO_SUCH_CODE = 44, HAS_BITMAP = 2 };

enum { ROWS = 3, MOST_BYTES = 256 };

/* An image under construction. */
struct image {
    uint8_t bytes[MOST_BYTES];
    size_t length;
};

static void put(struct image *image, size_t width, uint32_t value)
{
    for (size_t k = 0; k < width; k++)
        image->bytes[image->length++] = (uint8_t)(value >> 8 * k);
}

/* One node of Int8 with a bitmap: the header, the node's record, its buffer's entry, the values, the bitmap. */
static void int8_table(struct image *image, const uint8_t *values, uint32_t count, uint8_t bitmap)
{
    const uint32_t data = HEADER + RECORD + ENTRY;
    image->length = 0;
    put(image, 2, 1);            /* nodes */
    put(image, 2, 1);            /* buffers */
    put(image, 1, INT8);         /* type code */
    put(image, 1, HAS_BITMAP);   /* flags */
    put(image, 1, 0);            /* type id */
    put(image, 1, 0);            /* name length */
    put(image, 4, 0);            /* p1 */
    put(image, 4, 0);            /* p2 */
    put(image, 4, count);        /* length */
    put(image, 4, 0);            /* offset */
    put(image, 4, 0);            /* name place */
    put(image, 4, data + count); /* bitmap place */
    put(image, 4, 1);            /* bitmap length */
    put(image, 4, 0);            /* first bit */
    put(image, 2, 1);            /* first child */
    put(image, 2, 0);            /* children */
    put(image, 2, 0);            /* first buffer */
    put(image, 2, 1);            /* buffers */
    put(image, 4, data);         /* the buffer: place and length */
    put(image, 4, count);
    for (uint32_t k = 0; k < count; k++)
        put(image, 1, values[k]);
    put(image, 1, bitmap);
}

static void report(const char *what, uint64_t answer)
{
    if (editions_refusal(answer) != 0)
        printf("%s: refused by %u, side %u, node %u. %s\n", what, editions_refusal(answer), editions_side(answer),
               editions_node(answer), editions_refusal_text(editions_refusal(answer)));
    else
        printf("%s: %llu\n", what, (unsigned long long)editions_value(answer));
}

static void report_difference(const char *what, uint64_t answer)
{
    if (editions_refusal(answer) != 0)
        report(what, answer);
    else if (editions_differs(answer))
        printf("%s: row %u\n", what, (unsigned)editions_row(answer));
    else
        printf("%s: nowhere\n", what);
}

int main(void)
{
    const uint8_t january[ROWS] = {5, 0, 7};
    const uint8_t june[ROWS] = {5, 9, 7};
    const uint8_t july[ROWS] = {5, 0, 8};
    const uint8_t bitmap = 5; /* rows 0 and 2 are not null */
    struct image left, right, third;
    uint8_t rows[16];

    int8_table(&left, january, ROWS, bitmap);
    int8_table(&right, june, ROWS, bitmap);
    int8_table(&third, july, ROWS, bitmap);
    report("check the left table", editions_check(left.bytes, left.length));
    report("check the right table", editions_check(right.bytes, right.length));
    report("compare", editions_compare(left.bytes, left.length, right.bytes, right.length));

    report("compare two rows with the third table's",
           editions_compare_range(left.bytes, left.length, third.bytes, third.length, 0, 0, 2));
    report_difference("where the left and the right table part",
                      editions_first_difference(left.bytes, left.length, right.bytes, right.length, 0, 0, ROWS));
    report_difference("where the left and the third table part",
                      editions_first_difference(left.bytes, left.length, third.bytes, third.length, 0, 0, ROWS));

    uint64_t answer = editions_write(left.bytes, left.length, 0, ROWS, rows, sizeof rows);
    report("write the left rows", answer);
    printf("the bytes:");
    for (uint64_t k = 0; k < editions_value(answer); k++)
        printf(" %02x", rows[k]);
    printf("\n");

    struct image built;
    size_t length = (size_t)editions_value(answer);
    answer = editions_build(right.bytes, right.length, ROWS, rows, length, built.bytes, sizeof built.bytes);
    report("build a table of these bytes", answer);
    built.length = (size_t)editions_value(answer);
    report("compare it with the left table", editions_compare(left.bytes, left.length, built.bytes, built.length));
    report("build a table of one row of them",
           editions_build(right.bytes, right.length, 1, rows, length, built.bytes, sizeof built.bytes));

    report("write into four bytes", editions_write(left.bytes, left.length, 0, ROWS, rows, 4));
    left.bytes[HEADER + CODE] = NO_SUCH_CODE; /* of node 0 */
    report("compare a damaged table", editions_compare(left.bytes, left.length, right.bytes, right.length));
    return 0;
}
