/* Lays out an image (docs/FORMAT.md), in memory of its own or in that of the caller: nodes in the order of their numbers,
 * buffers in the order of their nodes, each part behind the one before it. The sizes, the places and the limits of the format
 * stand here, and nowhere else in the tests in C. */
#ifndef TESTS_IMAGE_H
#define TESTS_IMAGE_H

#include <stdint.h>
#include <stdlib.h>
#include <string.h>

/* The header: the number of nodes and that of buffers, of two bytes each. */
enum { HEADER_NODES = 0, HEADER_BUFFERS = 2, IMAGE_HEADER = 4 };

/* Where the fields of a record stand, and how long a record is. */
enum {
    RECORD_CODE = 0,
    RECORD_FLAGS = 1,
    RECORD_TYPE_ID = 2,
    RECORD_NAME_LENGTH = 3,
    RECORD_P1 = 4,
    RECORD_P2 = 8,
    RECORD_LENGTH = 12,
    RECORD_OFFSET = 16,
    RECORD_NAME = 20,
    RECORD_BITMAP = 24,
    RECORD_BITMAP_LENGTH = 28,
    RECORD_FIRST_BIT = 32,
    RECORD_FIRST_CHILD = 36,
    RECORD_CHILDREN = 38,
    RECORD_FIRST_BUFFER = 40,
    RECORD_BUFFERS = 42,
    IMAGE_RECORD = 44
};

enum { FLAG_NULLABLE = 1, FLAG_BITMAP = 2 };

/* The entry of a buffer: its place and its length, of four bytes each. */
enum { ENTRY_PLACE = 0, ENTRY_LENGTH = 4, IMAGE_ENTRY = 8 };

/* How long an image may be, how many elements a node may have, how deep it may stand, how long a name may be, and how many
 * type codes there are. */
enum { IMAGE_LONGEST = 16777216, IMAGE_MOST_ELEMENTS = 1073741824, IMAGE_DEEPEST = 16, IMAGE_LONGEST_NAME = 64, IMAGE_CODES = 44 };

/* How many bytes the header and the tables of so many nodes and buffers have. */
#define IMAGE_TABLES(nodes, buffers) (IMAGE_HEADER + IMAGE_RECORD * (nodes) + IMAGE_ENTRY * (buffers))

struct image {
    uint8_t *bytes;
    size_t most;                  /* how many there may be */
    uint32_t length;              /* up to the end of the last part */
    uint32_t nodes, buffers;      /* as announced */
    uint32_t node, buffer, child; /* laid out so far; the next first child */
};

static inline void image_put(struct image *m, uint32_t at, uint64_t x, int width)
{
    for (int i = 0; i < width; i++)
        m->bytes[at + i] = (uint8_t)(x >> (8 * i));
}

static inline uint64_t image_get(const uint8_t *bytes, uint32_t at, int width)
{
    uint64_t x = 0;
    for (int i = 0; i < width; i++)
        x |= (uint64_t)bytes[at + i] << (8 * i);
    return x;
}

/* The place of a node's record. */
static inline uint32_t image_record(uint32_t node) { return IMAGE_HEADER + IMAGE_RECORD * node; }

/* An image of so many nodes and buffers in the caller's memory of `most` bytes. The header and the tables are made zero;
 * the bytes behind them stay as they are. */
static inline struct image image_in(uint8_t *bytes, size_t most, uint32_t nodes, uint32_t buffers)
{
    struct image m = {bytes, most, IMAGE_TABLES(nodes, buffers), nodes, buffers, 0, 0, 1};
    if (bytes == NULL || m.length > most)
        abort();
    memset(bytes, 0, m.length);
    image_put(&m, HEADER_NODES, nodes, 2);
    image_put(&m, HEADER_BUFFERS, buffers, 2);
    return m;
}

/* An image of so many nodes and buffers, in memory of `most` bytes, all zero. */
static inline struct image image_begin(uint32_t nodes, uint32_t buffers, size_t most)
{
    return image_in(calloc(1, most), most, nodes, buffers);
}

/* The next node. Returns the place of its record. */
static inline uint32_t image_node(struct image *m, int code, uint32_t p1, uint32_t length, uint32_t children, uint32_t buffers)
{
    uint32_t at = image_record(m->node++);
    m->bytes[at + RECORD_CODE] = (uint8_t)code;
    image_put(m, at + RECORD_P1, p1, 4);
    image_put(m, at + RECORD_LENGTH, length, 4);
    image_put(m, at + RECORD_FIRST_CHILD, m->child, 2);
    image_put(m, at + RECORD_CHILDREN, children, 2);
    image_put(m, at + RECORD_FIRST_BUFFER, m->buffer, 2);
    image_put(m, at + RECORD_BUFFERS, buffers, 2);
    m->child += children;
    return at;
}

/* So many bytes behind the last part. Returns their place. */
static inline uint32_t image_part(struct image *m, uint32_t length)
{
    uint32_t at = m->length;
    if (length > m->most - at)
        abort();
    m->length += length;
    return at;
}

/* The next buffer is so many bytes from a place on. */
static inline void image_entry(struct image *m, uint32_t at, uint32_t length)
{
    uint32_t entry = IMAGE_TABLES(m->nodes, m->buffer++);
    image_put(m, entry + ENTRY_PLACE, at, 4);
    image_put(m, entry + ENTRY_LENGTH, length, 4);
}

/* The next buffer, a part of so many bytes. Returns its place. */
static inline uint32_t image_buffer(struct image *m, uint32_t length)
{
    uint32_t at = image_part(m, length);
    image_entry(m, at, length);
    return at;
}

/* A bitmap of so many rows from a first bit on, all of them null. Returns its place. */
static inline uint32_t image_bitmap(struct image *m, uint32_t record, uint32_t rows, uint32_t first)
{
    uint32_t length = (first + rows + 7) / 8, at = image_part(m, length);
    m->bytes[record + RECORD_FLAGS] |= FLAG_BITMAP;
    image_put(m, record + RECORD_BITMAP, at, 4);
    image_put(m, record + RECORD_BITMAP_LENGTH, length, 4);
    image_put(m, record + RECORD_FIRST_BIT, first, 4);
    return at;
}

/* Bit i of those from a place on is set. */
static inline void image_set(struct image *m, uint32_t at, uint32_t i) { m->bytes[at + i / 8] |= (uint8_t)(1 << (i % 8)); }

#endif
