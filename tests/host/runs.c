/* Rows of run-end encoded columns, written over every range of them and compared, where runs are cut in many ways: alone, of
 * values of many types, and below lists, Structs, unions and Dictionaries. Each written range goes into a buffer that it fits
 * exactly, into one that is a byte short, and into a longer one.
 *
 * A row is told by its type and a number, its seed: the seed says the value, or the seeds of the child rows. What is wanted
 * follows from type and seeds alone (row_bytes). How the rows are laid out (offsets, slices, further elements, further cuts of
 * the runs) is drawn. */
#define _DEFAULT_SOURCE
#include "../../host/editions.h"
#include "../../host/editions_calls.h"
#include "../image.h"
#include "drawn.h"
#include "expect.h"
#include "memory.h"

/* The type codes that are laid out here. */
enum {
    NULLS = 0, BOOLEAN = 1, INT8 = 2, INT16 = 3, INT32 = 4, INT64 = 5, UTF8 = 26, LIST = 33, LIST_VIEW = 35, FIXED_SIZE_LIST = 37,
    STRUCT = 38, DENSE_UNION = 39, SPARSE_UNION = 40, DICTIONARY = 41, RUN_END_ENCODED = 43
};

/* The most children and buffers of a node, nodes of an image, and bytes of a row. */
enum { CHILDREN = 3, BUFFERS = 2, NODES = 16, ROW_MOST = 4096 };

/* Texts have fewer bytes than the first, lists fewer rows than the second; then the rows of a fixed list, how far the first
 * child seeds of two lists are apart, and how many values a Dictionary has. */
enum { TEXT_LENGTHS = 23, LIST_SIZES = 6, FIXED_SIZE = 3, LIST_STEP = 3, KEYS = 100 };

/* How many rows a column has at most whose ranges are all asked about; up to how many there is one of each number of rows, and
 * above that of every so manyth; the rows of a long column, and how many of its ranges are asked about. */
enum { ROWS = 70, FEW_ROWS = 24, STEP = 7, LONG_ROWS = 100003, LONG_RANGES = 1000 };

/* The type ids of a union's children. */
static const uint8_t ids[CHILDREN] = {3, 9, 127};

struct type {
    int code;
    int nulls;                              /* some rows are null */
    unsigned way;                           /* of runs: how many ways behind the column's first one they are cut */
    const struct type *children[CHILDREN];  /* of runs the values alone */
};

/* What the values of a column are drawn from. */
static uint64_t salt;

/* Memory of one column after the other, all zero. */
static struct {
    uint8_t bytes[1 << 26];
    size_t used;
} arena;

static void *take(size_t length)
{
    uint8_t *at = arena.bytes + arena.used;
    arena.used += (length + 15) / 16 * 16;
    if (arena.used > sizeof arena.bytes)
        abort();
    return memset(at, 0, length);
}

/* A number of so many bytes at a place. Returns the place after it. */
static uint8_t *put(uint8_t *at, uint64_t x, uint32_t width)
{
    for (uint32_t k = 0; k < width; k++)
        *at++ = (uint8_t)(x >> 8 * k);
    return at;
}

/* How rows are cut into runs: all of one row, all equally long, of one row and longer in turn, of drawn lengths, and longer than
 * the column; this length. */
enum { ONES, EQUAL, IN_TURN, DRAWN, WHOLE, WAYS };
enum { WHOLE_RUN = ROWS + 10 };

/* For each way the run that a seed is in, which is the seed of the run's value; and how many seeds are in runs: enough for lists
 * of lists, or for a long column. */
enum { SHORT_SEEDS = 1 << 13, LONG_SEEDS = 1 << 17 };
static uint32_t run_of[WAYS][LONG_SEEDS], seeds_in_runs;

static void cut_runs(uint32_t seeds, uint32_t longest)
{
    seeds_in_runs = seeds;
    for (unsigned way = 0; way < WAYS; way++)
        for (uint32_t seed = 0, run = 0; seed < seeds; run++) {
            const uint32_t lengths[WAYS] = {1, longest, run % 2 ? longest : 1, 1 + drawn(longest), WHOLE_RUN};
            for (uint32_t k = 0; k < lengths[way] && seed < seeds; k++)
                run_of[way][seed++] = run;
        }
}

/* The way of a column's first runs, counted on past the last one; it says the width of their ends too. */
static unsigned first_way;

static uint32_t run_at(const struct type *t, uint32_t seed)
{
    if (seed >= seeds_in_runs)
        abort();
    return run_of[(first_way + t->way) % WAYS][seed];
}

static int ends_code(const struct type *t) { return INT16 + (int)((first_way + t->way) % 3); }

/* What a row is. */
static uint64_t value_of(uint32_t seed) { return mix(salt + seed); }
static int is_null(const struct type *t, uint32_t seed) { return t->nulls && value_of(seed) % 3 == 0; }
static uint32_t text_length(uint32_t seed) { return value_of(seed) % 5 == 0 ? 0 : (value_of(seed) >> 32) % TEXT_LENGTHS; }
static uint8_t text_byte(uint32_t seed, uint32_t k) { return (uint8_t)('a' + (value_of(seed) + 5 * k) % 26); }

static uint32_t width_of(int code) { return 1u << (code - INT8); }

/* How many children a type has, and which of them a union's row names. */
static unsigned children_of(const struct type *t)
{
    unsigned count = 0;
    while (count < CHILDREN && t->children[count])
        count++;
    return count;
}

static unsigned named_by(const struct type *t, uint32_t seed) { return (unsigned)(value_of(seed) >> 16) % children_of(t); }

/* The seeds of the rows that a row has of a child: so many from a first one on. */
struct stretch {
    uint32_t first, count;
};

static struct stretch stretch_of(const struct type *t, uint32_t seed)
{
    struct stretch rows = {seed, 1};
    switch (t->code) {
    case LIST:
    case LIST_VIEW:
        rows.first = LIST_STEP * seed;
        rows.count = (uint32_t)(value_of(seed) >> 8) % LIST_SIZES;
        break;
    case FIXED_SIZE_LIST:
        rows.first = FIXED_SIZE * seed;
        rows.count = FIXED_SIZE;
        break;
    case DICTIONARY:
        rows.first = seed % KEYS;
        break;
    case RUN_END_ENCODED:
        rows.first = run_at(t, seed);
        break;
    }
    return rows;
}

/* The bytes of a row, put at a place. Returns the place after them. */
static uint8_t *row_bytes(const struct type *t, uint32_t seed, uint8_t *at)
{
    unsigned first = 0, last = children_of(t);
    struct stretch rows = stretch_of(t, seed);
    *at++ = !is_null(t, seed);
    if (is_null(t, seed))
        return at;
    switch (t->code) {
    case BOOLEAN:
        return put(at, seed & 1, 1);
    case INT8:
    case INT32:
    case INT64:
        return put(at, value_of(seed), width_of(t->code));
    case UTF8:
        at = put(at, text_length(seed), 4);
        for (uint32_t k = 0; k < text_length(seed); k++)
            *at++ = text_byte(seed, k);
        return at;
    case LIST:
    case LIST_VIEW:
        at = put(at, rows.count, 4);
        break;
    case DENSE_UNION:
    case SPARSE_UNION:
        first = named_by(t, seed);
        last = first + 1;
        *at++ = ids[first];
        break;
    }
    for (unsigned c = first; c < last; c++)
        for (uint32_t k = 0; k < rows.count; k++)
            at = row_bytes(t->children[c], rows.first + k, at);
    return at;
}

/* A node of an image before it stands in one. */
struct part {
    uint8_t *bytes;
    uint32_t length;
};

struct node {
    int code, nulls;
    uint32_t p1, length, offset, first_bit;
    uint8_t id;
    unsigned children, buffers;
    struct node *child[CHILDREN];
    struct part buffer[BUFFERS], bitmap;
};

static struct node *node_of(int code, uint32_t rows)
{
    struct node *n = take(sizeof *n);
    n->code = code;
    n->length = rows;
    n->offset = drawn(4);
    return n;
}

static uint8_t *add_buffer(struct node *n, uint32_t length)
{
    struct part part = {take(length), length};
    n->buffer[n->buffers++] = part;
    return part.bytes;
}

static void set_bit(uint8_t *bits, uint32_t k) { bits[k / 8] |= (uint8_t)(1 << k % 8); }

/* The elements of a node: those of its rows, and others before the offset and behind the last row, of which each is as the one
 * beside it, or drawn. */
struct elements {
    uint32_t *seeds, count;
};

static struct elements elements_of(const struct node *n, const uint32_t *seeds)
{
    uint32_t end = n->offset + n->length;
    struct elements e = {NULL, end + drawn(3)};
    e.seeds = take(e.count * sizeof *e.seeds);
    for (uint32_t k = 0; k < n->length; k++)
        e.seeds[n->offset + k] = seeds[k];
    for (uint32_t k = n->offset; k-- > 0;)
        e.seeds[k] = k + 1 < end && drawn(2) ? e.seeds[k + 1] : drawn(WHOLE_RUN);
    for (uint32_t k = end; k < e.count; k++)
        e.seeds[k] = k > 0 && drawn(2) ? e.seeds[k - 1] : drawn(WHOLE_RUN);
    return e;
}

static struct node *lay(const struct type *t, const uint32_t *seeds, uint32_t rows);

static void add_child(struct node *n, struct node *child, uint8_t id)
{
    child->id = id;
    n->child[n->children++] = child;
}

/* A child's rows are those of one element after the other. */
static struct node *lay_in_turn(const struct type *t, struct elements e, const struct type *child)
{
    uint32_t rows = 0, *seeds = take((size_t)e.count * LIST_SIZES * sizeof *seeds);
    for (uint32_t k = 0; k < e.count; k++)
        for (uint32_t i = 0; i < stretch_of(t, e.seeds[k]).count; i++)
            seeds[rows++] = stretch_of(t, e.seeds[k]).first + i;
    return lay(child, seeds, rows);
}

/* A child's rows are those of all seeds up to the last one that an element has, so that a row's number is its seed. */
static struct node *lay_shared(const struct type *t, struct elements e, const struct type *child)
{
    uint32_t rows = 0;
    for (uint32_t k = 0; k < e.count; k++) {
        struct stretch s = stretch_of(t, e.seeds[k]);
        rows = s.first + s.count > rows ? s.first + s.count : rows;
    }
    uint32_t *seeds = take(rows * sizeof *seeds);
    for (uint32_t k = 0; k < rows; k++)
        seeds[k] = k;
    return lay(child, seeds, rows);
}

/* Whether rows of one value are cut into further runs: never where this is 0, else between one in so many of them. */
static uint32_t further_cuts;

/* The run ends, sliced, and the values. The last end is that of the elements, or the most that there may be, or one whose lower
 * bytes by themselves are below the others. */
static void lay_runs(struct node *n, const struct type *t, struct elements e)
{
    uint32_t runs = 0, *values = take(e.count * sizeof *values), *ends = take(e.count * sizeof *ends);
    for (uint32_t k = 0; k < e.count; k++) {
        uint32_t value = run_at(t, e.seeds[k]);
        if (runs == 0 || values[runs - 1] != value || (further_cuts > 0 && drawn(further_cuts) == 0))
            values[runs++] = value;
        ends[runs - 1] = k + 1;
    }
    struct node *first = node_of(ends_code(t), runs);
    uint32_t width = width_of(first->code), behind = drawn(3);
    uint8_t *at = add_buffer(first, (first->offset + runs + behind) * width);
    uint64_t most = UINT64_MAX >> (65 - 8 * width);
    const uint64_t lasts[] = {most, most / 2 + 2, e.count, e.count};
    for (uint32_t k = 0; k < first->offset; k++)
        at = put(at, value_of(k), width);
    for (uint32_t k = 0; k < runs; k++)
        at = put(at, k + 1 < runs ? ends[k] : lasts[drawn(4)], width);
    for (uint32_t k = 0; k < behind; k++)
        at = put(at, value_of(k), width);
    add_child(n, first, 0);
    add_child(n, lay(t->children[0], values, runs), 0);
}

static void lay_text(struct node *n, struct elements e)
{
    uint32_t length = 0;
    uint8_t *offsets = put(add_buffer(n, (e.count + 1) * 4), 0, 4);
    for (uint32_t k = 0; k < e.count; k++)
        offsets = put(offsets, length += text_length(e.seeds[k]), 4);
    uint8_t *text = add_buffer(n, length);
    for (uint32_t k = 0; k < e.count; k++)
        for (uint32_t i = 0; i < text_length(e.seeds[k]); i++)
            *text++ = text_byte(e.seeds[k], i);
}

/* The buffers of a node but for runs and text. */
static void lay_buffers(struct node *n, const struct type *t, struct elements e)
{
    uint32_t end = 0;
    uint8_t *first, *second;
    switch (t->code) {
    case BOOLEAN:
        first = add_buffer(n, (e.count + 7) / 8);
        for (uint32_t k = 0; k < e.count; k++)
            if (e.seeds[k] & 1)
                set_bit(first, k);
        break;
    case INT8:
    case INT32:
    case INT64:
        first = add_buffer(n, e.count * width_of(t->code));
        for (uint32_t k = 0; k < e.count; k++)
            first = put(first, value_of(e.seeds[k]), width_of(t->code));
        break;
    case LIST:
        first = put(add_buffer(n, (e.count + 1) * 4), 0, 4);
        for (uint32_t k = 0; k < e.count; k++)
            first = put(first, end += stretch_of(t, e.seeds[k]).count, 4);
        break;
    case LIST_VIEW:
        first = add_buffer(n, e.count * 4);
        second = add_buffer(n, e.count * 4);
        for (uint32_t k = 0; k < e.count; k++) {
            first = put(first, stretch_of(t, e.seeds[k]).first, 4);
            second = put(second, stretch_of(t, e.seeds[k]).count, 4);
        }
        break;
    case DENSE_UNION:
    case SPARSE_UNION:
        first = add_buffer(n, e.count);
        for (uint32_t k = 0; k < e.count; k++)
            *first++ = ids[named_by(t, e.seeds[k])];
        if (t->code == SPARSE_UNION)
            break;
        second = add_buffer(n, e.count * 4);
        for (uint32_t k = 0; k < e.count; k++)
            second = put(second, e.seeds[k], 4);
        break;
    case DICTIONARY:
        n->p1 = INT8;
        first = add_buffer(n, e.count);
        for (uint32_t k = 0; k < e.count; k++)
            *first++ = (uint8_t)stretch_of(t, e.seeds[k]).first;
        break;
    case FIXED_SIZE_LIST:
        n->p1 = FIXED_SIZE;
        break;
    }
}

/* A node of rows of those seeds, and what is below it. */
static struct node *lay(const struct type *t, const uint32_t *seeds, uint32_t rows)
{
    struct node *n = node_of(t->code, rows);
    struct elements e = elements_of(n, seeds);
    int is_union = t->code == DENSE_UNION || t->code == SPARSE_UNION;
    int shared = t->code == LIST_VIEW || t->code == DENSE_UNION || t->code == DICTIONARY;
    n->nulls = t->nulls;
    if (t->nulls) {
        n->first_bit = drawn(10);
        n->bitmap.length = (n->first_bit + rows + 7) / 8;
        n->bitmap.bytes = take(n->bitmap.length);
        for (uint32_t k = 0; k < rows; k++)
            if (!is_null(t, seeds[k]))
                set_bit(n->bitmap.bytes, n->first_bit + k);
    }
    if (t->code == RUN_END_ENCODED) {
        lay_runs(n, t, e);
        return n;
    }
    if (t->code == UTF8)
        lay_text(n, e);
    else
        lay_buffers(n, t, e);
    for (unsigned c = 0; c < children_of(t); c++)
        add_child(n, (shared ? lay_shared : lay_in_turn)(t, e, t->children[c]), is_union ? ids[c] : 0);
    return n;
}

/* A table: its image, which ends where memory may not be read, and the bytes of its rows, with the end of each. */
struct table {
    uint8_t *image, *bytes;
    size_t length;
    uint32_t rows, *ends;
};

/* Memory for two images and an output, and what an output has before a call. */
static struct lent memory[3];
static uint8_t noise[1 << 22];

static void lay_image(struct table *made, struct lent lent, struct node *root)
{
    struct node *nodes[NODES + CHILDREN] = {root};
    unsigned count = 1, buffers = 0;
    made->length = 0;
    for (unsigned k = 0; k < count; k++) {
        struct node *n = nodes[k];
        if (count > NODES)
            abort();
        for (unsigned c = 0; c < n->children; c++)
            nodes[count++] = n->child[c];
        for (unsigned b = 0; b < n->buffers; b++, buffers++)
            made->length += n->buffer[b].length;
        made->length += n->bitmap.length;
    }
    made->length += IMAGE_TABLES(count, buffers);
    made->image = lent_bytes(lent, made->length, 1);
    struct image m = image_in(made->image, made->length, count, buffers);
    for (unsigned k = 0; k < count; k++) {
        struct node *n = nodes[k];
        uint32_t record = image_node(&m, n->code, n->p1, n->length, n->children, n->buffers);
        image_put(&m, record + RECORD_OFFSET, n->offset, 4);
        image_put(&m, record + RECORD_TYPE_ID, n->id, 1);
        for (unsigned b = 0; b < n->buffers; b++)
            memcpy(m.bytes + image_buffer(&m, n->buffer[b].length), n->buffer[b].bytes, n->buffer[b].length);
        if (n->nulls) {
            m.bytes[record + RECORD_FLAGS] |= FLAG_NULLABLE;
            memcpy(m.bytes + image_bitmap(&m, record, n->length, n->first_bit), n->bitmap.bytes, n->bitmap.length);
        }
    }
}

static struct table table_of(struct lent lent, const struct type *t, const uint32_t *seeds, uint32_t rows)
{
    struct table made = {NULL, NULL, 0, rows, take((rows + 1) * sizeof *made.ends)};
    lay_image(&made, lent, lay(t, seeds, rows));
    uint8_t row[ROW_MOST];
    for (uint32_t k = 0; k < rows; k++)
        made.ends[k + 1] = made.ends[k] + (uint32_t)(row_bytes(t, seeds[k], row) - row);
    made.bytes = take(made.ends[rows] + 1);
    for (uint32_t k = 0; k < rows; k++)
        row_bytes(t, seeds[k], made.bytes + made.ends[k]);
    return made;
}

/* A range of a table's rows, written into that room, which ends where memory may not be touched. */
static void write_into(const char *what, unsigned long which, const struct table *t, uint32_t start, uint32_t count, size_t room)
{
    size_t length = t->ends[start + count] - t->ends[start], written = room < length ? 0 : length;
    uint64_t wanted = room < length ? answer_of(EDITIONS_OUTPUT, 0, 0, 0) : answer_of(0, 0, 0, length);
    uint8_t *out = lent_bytes(memory[2], room, 1);
    memcpy(out, noise, room);
    uint64_t answer = editions_write(t->image, t->length, start, count, out, room);
    expect(what, which, answer, wanted);
    if (answer == wanted)
        must(what, which,
             memcmp(out, t->bytes + t->ends[start], written) == 0 &&
                 memcmp(out + written, noise + written, room - written) == 0);
}

static void write_range(const char *what, unsigned long which, const struct table *t, uint32_t start, uint32_t count)
{
    size_t length = t->ends[start + count] - t->ends[start];
    if (length > 0)
        write_into(what, which, t, start, count, length - 1);
    write_into(what, which, t, start, count, length);
    write_into(what, which, t, start, count, length + 1 + drawn(40));
}

/* In what is printed of a range the last two digits are the count, those before them the start, the first ones the rows. */
static unsigned long range_number(const struct table *t, uint32_t start, uint32_t count)
{
    return (t->rows * 100ul + start) * 100 + count;
}

static void write_ranges(const char *what, const struct table *t)
{
    for (uint32_t start = 0; start <= t->rows; start++)
        for (uint32_t count = 0; start + count <= t->rows; count++)
            write_range(what, range_number(t, start, count), t, start, count);
}

/* Two tables of which one row alone differs, or none where there is no such row. */
static void compare_ranges(const char *what, const struct table *left, const struct table *right, uint32_t differs)
{
    for (uint32_t start = 0; start <= left->rows; start++)
        for (uint32_t count = 0; start + count <= left->rows; count++)
            expect(what, range_number(left, start, count),
                   editions_compare_range(left->image, left->length, right->image, right->length, start, start, count),
                   answer_of(0, 0, 0, differs < start || differs >= start + count));
}

/* Another seed, whose row is not that of this one. */
static uint32_t other_seed(const struct type *t, uint32_t seed)
{
    uint8_t row[ROW_MOST], other[ROW_MOST];
    size_t length = (size_t)(row_bytes(t, seed, row) - row);
    for (uint32_t next = seed + 1;; next++)
        if ((size_t)(row_bytes(t, next, other) - other) != length || memcmp(row, other, length) != 0)
            return next;
}

struct column {
    const char *what;
    struct type type;
    int jumps; /* the rows' seeds are in any order, so that their child rows may be too */
};

/* Runs of one way and, below the same column, of another. */
#define RUNS(values) {.code = RUN_END_ENCODED, .children = {values}}
#define OTHER_RUNS(values) {.code = RUN_END_ENCODED, .way = 3, .children = {values}}

static const struct type null = {.code = NULLS}, boolean = {.code = BOOLEAN}, int8 = {.code = INT8},
                         int8_or_null = {.code = INT8, .nulls = 1}, int32 = {.code = INT32}, int64 = {.code = INT64},
                         text = {.code = UTF8}, text_or_null = {.code = UTF8, .nulls = 1};
static const struct type lists = {.code = LIST, .nulls = 1, .children = {&int8}},
                         structs = {.code = STRUCT, .nulls = 1, .children = {&int8_or_null, &text}},
                         dictionaries = {.code = DICTIONARY, .nulls = 1, .children = {&text_or_null}};
static const struct type int64_runs = RUNS(&int64), text_runs = RUNS(&text), null_runs = RUNS(&text_or_null),
                         other_runs = OTHER_RUNS(&text), dictionary_runs = OTHER_RUNS(&dictionaries);
static const struct type run_structs = {.code = STRUCT, .children = {&int64_runs, &other_runs}},
                         run_lists = {.code = LIST, .nulls = 1, .children = {&other_runs}};

static const struct column columns[] = {
    {"runs of nulls", RUNS(&null), 0},
    {"runs of Booleans", RUNS(&boolean), 0},
    {"runs of Int8 and null", RUNS(&int8_or_null), 0},
    {"runs of Int64", RUNS(&int64), 0},
    {"runs of texts", RUNS(&text), 0},
    {"runs of lists", RUNS(&lists), 0},
    {"runs of Structs", RUNS(&structs), 0},
    {"runs of Dictionaries", RUNS(&dictionaries), 0},
    {"runs of runs", RUNS(&other_runs), 0},
    {"runs of Structs of runs", RUNS(&run_structs), 0},
    {"runs of lists of runs", RUNS(&run_lists), 0},
    {"Structs of runs", {.code = STRUCT, .children = {&int64_runs, &other_runs, &int32}}, 0},
    {"Structs of runs in any order", {.code = STRUCT, .nulls = 1, .children = {&null_runs, &dictionary_runs}}, 1},
    {"lists of runs", {.code = LIST, .nulls = 1, .children = {&text_runs}}, 0},
    {"lists of Structs of runs", {.code = LIST, .children = {&run_structs}}, 0},
    {"lists of lists of runs", {.code = LIST, .children = {&run_lists}}, 0},
    {"list views of runs", {.code = LIST_VIEW, .children = {&text_runs}}, 1},
    {"list views of Structs of runs", {.code = LIST_VIEW, .nulls = 1, .children = {&run_structs}}, 1},
    {"fixed lists of runs", {.code = FIXED_SIZE_LIST, .children = {&null_runs}}, 0},
    {"sparse unions of runs", {.code = SPARSE_UNION, .children = {&int64_runs, &int32, &other_runs}}, 0},
    {"dense unions of runs", {.code = DENSE_UNION, .children = {&text_runs, &int32, &dictionary_runs}}, 1},
    {"Dictionaries of runs", {.code = DICTIONARY, .nulls = 1, .children = {&null_runs}}, 1},
};

/* So many rows of a column, laid out twice, the second time cut into further runs; and a third time with one row changed. All
 * rows of nulls are the same. */
static void every_range(const struct column *c, uint32_t rows)
{
    uint32_t seeds[ROWS], from = drawn(8), changed = drawn(rows);
    arena.used = 0;
    salt = mix(state);
    first_way = rows;
    cut_runs(SHORT_SEEDS, 2 + drawn(10));
    for (uint32_t k = 0; k < rows; k++)
        seeds[k] = c->jumps && drawn(2) ? drawn(rows) : from + k;
    further_cuts = 0;
    struct table left = table_of(memory[0], &c->type, seeds, rows);
    write_ranges(c->what, &left);
    further_cuts = 1 + drawn(3);
    struct table right = table_of(memory[1], &c->type, seeds, rows);
    write_ranges(c->what, &right);
    compare_ranges(c->what, &left, &right, rows);
    if (c->type.children[0] == &null)
        return;
    seeds[changed] = other_seed(&c->type, seeds[changed]);
    struct table other = table_of(memory[1], &c->type, seeds, rows);
    compare_ranges(c->what, &left, &other, changed);
}

/* Many rows, cut into runs in one way, and ranges of them of any size, the whole column among them. */
static void long_column(const char *what, const struct type *t, unsigned way, uint32_t longest)
{
    static uint32_t seeds[LONG_ROWS];
    arena.used = 0;
    first_way = way;
    further_cuts = 0;
    cut_runs(LONG_SEEDS, longest);
    for (uint32_t k = 0; k < LONG_ROWS; k++)
        seeds[k] = k;
    struct table all = table_of(memory[0], t, seeds, LONG_ROWS);
    for (uint32_t k = 0; k < LONG_RANGES; k++) {
        uint32_t count = drawn(1 + (LONG_ROWS >> drawn(17))), start = drawn(LONG_ROWS - count + 1);
        write_range(what, k, &all, start, count);
    }
    write_range(what, LONG_RANGES, &all, 0, LONG_ROWS);
}

int main(int argc, char **argv)
{
    if (argc != 2) {
        fprintf(stderr, "usage: runs SEED\n");
        return 2;
    }
    state = strtoull(argv[1], NULL, 10);
    for (int k = 0; k < 3; k++)
        memory[k] = lent_pages(IMAGE_LONGEST);
    for (size_t k = 0; k < sizeof noise; k++)
        noise[k] = (uint8_t)drawn(256);
    for (unsigned k = 0; k < sizeof columns / sizeof columns[0]; k++)
        for (uint32_t rows = 1; rows <= ROWS; rows++)
            if (rows <= FEW_ROWS || (rows + k) % STEP == 0)
                every_range(&columns[k], rows);
    long_column("long runs of Int64", &int64_runs, WAYS * 2 + DRAWN, 40);
    long_column("long runs of texts", &text_runs, WAYS + ONES, 1);
    return tally("runs");
}
