/* The calls of both headers as a host uses them: on the model's cases, at the largest sizes, on empty slices, with output
 * buffers that fit exactly or are one byte short, and with a row that differs at each place; and the refusals' sentences. */
#define _DEFAULT_SOURCE
#include "../../host/editions.h"
#include "../../host/editions_calls.h"
#include "../image.h"
#include "expect.h"
#include "memory.h"

#define MOST 65536u

/* The type codes that are laid out here. */
enum { NULLS = 0, BOOLEAN = 1, INT8 = 2, INT32 = 4, INT64 = 5, FIXED_SIZE_BINARY = 30, LIST_VIEW = 35, SPARSE_UNION = 40, RUN_END_ENCODED = 43 };

/* Memory for two images and an output. */
static struct lent memory[3];

/* An image of the file, and the copy of it that is lent. */
struct copy {
    const uint8_t *stored;
    uint8_t *bytes;
    size_t length;
};

static struct copy copied(struct cursor *c, struct lent lent, int at_end)
{
    struct copy image;
    image.stored = bytes(c, &image.length);
    if (image.length > MOST) {
        printf("an image of %zu bytes\n", image.length);
        exit(1);
    }
    image.bytes = lent_bytes(lent, image.length, at_end);
    memcpy(image.bytes, image.stored, image.length);
    return image;
}

/* No call changes an image. */
static void unchanged(struct copy image, unsigned long which)
{
    must("an image that changed in case", which, memcmp(image.bytes, image.stored, image.length) == 0);
}

static void check_case(struct cursor *c, unsigned long which, int at_end)
{
    struct copy image = copied(c, memory[0], at_end);
    uint64_t wanted = number(c, 8);
    expect("check", which, editions_check(image.bytes, image.length), wanted);
    unchanged(image, which);
}

static void compare_case(struct cursor *c, unsigned long which, int at_end)
{
    struct copy left = copied(c, memory[0], at_end), right = copied(c, memory[1], at_end);
    uint64_t wanted = number(c, 8);
    expect("compare", which, editions_compare(left.bytes, left.length, right.bytes, right.length), wanted);
    unchanged(left, which);
    unchanged(right, which);
}

static void write_case(struct cursor *c, unsigned long which, int at_end)
{
    struct copy image = copied(c, memory[0], at_end);
    uint32_t start = (uint32_t)number(c, 4), count = (uint32_t)number(c, 4), room = (uint32_t)number(c, 4);
    uint64_t wanted = number(c, 8);
    size_t length;
    const uint8_t *written = bytes(c, &length);
    uint8_t *out = lent_bytes(memory[2], room, at_end);
    for (uint32_t k = 0; k < room; k++)
        out[k] = (uint8_t)(k * 7 + 3);
    expect("write", which, editions_write(image.bytes, image.length, start, count, out, room), wanted);
    unchanged(image, which);
    must("the written bytes of case", which, memcmp(out, written, length) == 0);
    for (size_t k = length; k < room; k++)
        if (out[k] != (uint8_t)(k * 7 + 3)) {
            must("the bytes past those of case", which, 0);
            break;
        }
}

static void ranges_case(struct cursor *c, unsigned long which, int at_end)
{
    struct copy left = copied(c, memory[0], at_end), right = copied(c, memory[1], at_end);
    for (uint64_t ranges = number(c, 4); ranges > 0; ranges--) {
        uint32_t i = (uint32_t)number(c, 4), j = (uint32_t)number(c, 4), count = (uint32_t)number(c, 4);
        uint64_t same = number(c, 8), first = number(c, 8);
        expect("compare_range", which,
               editions_compare_range(left.bytes, left.length, right.bytes, right.length, i, j, count), same);
        expect("first_difference", which,
               editions_first_difference(left.bytes, left.length, right.bytes, right.length, i, j, count), first);
    }
    unchanged(left, which);
    unchanged(right, which);
}

static void digits_case(struct cursor *c, unsigned long which, int at_end)
{
    struct copy left = copied(c, memory[0], at_end), right = copied(c, memory[1], at_end);
    for (uint64_t ranges = number(c, 4); ranges > 0; ranges--) {
        uint32_t i = (uint32_t)number(c, 4), j = (uint32_t)number(c, 4), count = (uint32_t)number(c, 4);
        uint32_t digits = (uint32_t)number(c, 4);
        uint64_t wanted = number(c, 8);
        expect("compare_digits", which,
               editions_compare_digits(left.bytes, left.length, right.bytes, right.length, i, j, count, digits), wanted);
    }
    unchanged(left, which);
    unchanged(right, which);
}

static void names_case(struct cursor *c, unsigned long which, int at_end)
{
    struct copy image = copied(c, memory[0], at_end);
    uint64_t wanted = number(c, 8);
    expect("map_names", which, editions_map_names(image.bytes, image.length), wanted);
    unchanged(image, which);
}

static void model_cases(const char *path)
{
    static void (*const cases[])(struct cursor *, unsigned long, int) = {check_case,  compare_case, write_case,
                                                                         ranges_case, digits_case,  names_case};
    size_t size;
    uint8_t *whole = whole_file(path, &size);
    struct cursor c = {whole};
    for (unsigned long which = 0; c.at < whole + size; which++)
        cases[number(&c, 1)](&c, which, which % 4 != 0);
    free(whole);
}

/* Two images that are lent, and what both calls on ranges answer of `count` rows from the same start on: a first difference
 * of that value, and yes where it is 0. */
struct two {
    const uint8_t *left, *right;
    size_t left_length, right_length;
};

static void expect_value(const char *what, unsigned long which, const struct two *t, uint32_t start, uint32_t count, uint64_t value)
{
    expect(what, which, editions_compare_range(t->left, t->left_length, t->right, t->right_length, start, start, count),
           answer_of(0, 0, 0, value == 0));
    uint64_t first = editions_first_difference(t->left, t->left_length, t->right, t->right_length, start, start, count);
    expect(what, which, first, answer_of(0, 0, 0, value));
    must("the row of", which, editions_differs(first) ? value == editions_row(first) + UINT64_C(1) : value == 0);
}

/* Both are refused alike. */
static void expect_refusal(const char *what, unsigned long which, const struct two *t, uint32_t left_start, uint32_t right_start,
                           uint32_t count, uint64_t refusal)
{
    expect(what, which,
           editions_compare_range(t->left, t->left_length, t->right, t->right_length, left_start, right_start, count), refusal);
    expect(what, which,
           editions_first_difference(t->left, t->left_length, t->right, t->right_length, left_start, right_start, count), refusal);
}

/* How many rows a table of Int8 has whose image has that many bytes. */
static uint32_t int8_rows(uint32_t length) { return length - IMAGE_TABLES(1, 1); }

/* A table of Int8 whose image has that many bytes. Returns the place of the values. */
static uint32_t int8_image(uint8_t *bytes, uint32_t length)
{
    uint32_t rows = int8_rows(length);
    struct image m = image_in(bytes, length, 1, 1);
    image_node(&m, INT8, 0, rows, 0, 1);
    uint32_t values = image_buffer(&m, rows);
    for (uint32_t k = 0; k < rows; k++)
        bytes[values + k] = (uint8_t)(k * 31 + (k >> 8));
    return values;
}

/* Ranges of two images of the largest size whose last rows differ, and that have so many. */
static void largest_ranges(const uint8_t *left, uint8_t *right, uint32_t rows)
{
    const struct two t = {left, right, IMAGE_LONGEST, IMAGE_LONGEST};
    expect_value("largest range", 0, &t, 0, rows, rows);
    expect_value("largest range", 1, &t, 0, rows - 1, 0);
    expect_value("largest range", 2, &t, rows - 1, 1, 1);
    expect_value("largest range", 3, &t, rows, 0, 0);
    right[IMAGE_LONGEST - rows / 2] ^= 128;
    expect_value("largest range", 4, &t, 0, rows, rows - rows / 2 + 1);
    expect_value("largest range", 5, &t, rows - rows / 2 + 1, rows / 2 - 1, rows / 2 - 1);
    right[IMAGE_LONGEST - rows / 2] ^= 128;
    expect_refusal("past the rows", 2, &t, 0, 0, rows + 1, answer_of(EDITIONS_RANGE, EDITIONS_LEFT, 0, 0));
    expect_refusal("past the rows", 3, &t, rows, rows, 1, answer_of(EDITIONS_RANGE, EDITIONS_LEFT, 0, 0));
    expect_refusal("past the rows", 4, &t, 0, rows, 1, answer_of(EDITIONS_RANGE, EDITIONS_RIGHT, 0, 0));
    expect_refusal("past the rows", 5, &t, 0, UINT32_MAX, 1, answer_of(EDITIONS_RANGE, EDITIONS_RIGHT, 0, 0));
    expect_refusal("past the rows", 6, &t, 1, 0, UINT32_MAX, answer_of(EDITIONS_RANGE, EDITIONS_LEFT, 0, 0));
    expect_refusal("past the rows", 7, &t, UINT32_MAX, UINT32_MAX, UINT32_MAX, answer_of(EDITIONS_RANGE, EDITIONS_LEFT, 0, 0));
}

static void largest(void)
{
    struct lent first = lent_pages(IMAGE_LONGEST + 1), second = lent_pages(IMAGE_LONGEST + 1);
    uint8_t *left = lent_bytes(first, IMAGE_LONGEST, 1), *right = lent_bytes(second, IMAGE_LONGEST, 1);
    uint32_t rows = int8_rows(IMAGE_LONGEST), values = int8_image(left, IMAGE_LONGEST);
    int8_image(right, IMAGE_LONGEST);
    expect("largest check", 0, editions_check(left, IMAGE_LONGEST), 0);
    expect("largest without Maps", 0, editions_map_names(left, IMAGE_LONGEST), answer_of(0, 0, 0, 1));
    expect("largest compare", 0, editions_compare(left, IMAGE_LONGEST, right, IMAGE_LONGEST), answer_of(0, 0, 0, 1));
    right[IMAGE_LONGEST - 1] ^= 1;
    expect("largest compare", 1, editions_compare(left, IMAGE_LONGEST, right, IMAGE_LONGEST), 0);
    largest_ranges(left, right, rows);
    uint8_t *out = malloc((size_t)2 * rows);
    if (!out)
        exit(1);
    expect("largest write", 0, editions_write(left, IMAGE_LONGEST, 0, rows, out, (size_t)2 * rows), answer_of(0, 0, 0, 2u * rows));
    unsigned long wrong = 0;
    for (uint32_t k = 0; k < rows; k++)
        wrong += out[2 * (size_t)k] != 1 || out[2 * (size_t)k + 1] != left[values + k];
    expect("largest write's bytes", 0, wrong, 0);
    out[0] = 77;
    expect("largest write, one short", 0, editions_write(left, IMAGE_LONGEST, 0, rows, out, (size_t)2 * rows - 1),
           answer_of(EDITIONS_OUTPUT, 0, 0, 0));
    expect("largest write, one short, unchanged", 0, out[0], 77);
    expect("past the rows", 0, editions_write(left, IMAGE_LONGEST, rows, 1, out, 2), answer_of(EDITIONS_RANGE, 0, 0, 0));
    expect("past the rows", 1, editions_write(left, IMAGE_LONGEST, UINT32_MAX, UINT32_MAX, out, 2), answer_of(EDITIONS_RANGE, 0, 0, 0));
    free(out);
    /* one byte more than the most */
    left = lent_bytes(first, IMAGE_LONGEST + 1, 1);
    int8_image(left, IMAGE_LONGEST);
    expect("too large", 0, editions_check(left, IMAGE_LONGEST + 1), answer_of(EDITIONS_SIZE, 0, 0, 0));
    expect("too large", 3, editions_map_names(left, IMAGE_LONGEST + 1), answer_of(EDITIONS_SIZE, 0, 0, 0));
    expect("too large", 1, editions_compare(right, IMAGE_LONGEST, left, IMAGE_LONGEST + 1), answer_of(EDITIONS_SIZE, EDITIONS_RIGHT, 0, 0));
    const struct two t = {right, left, IMAGE_LONGEST, IMAGE_LONGEST + 1};
    expect_refusal("too large", 2, &t, 0, 0, 0, answer_of(EDITIONS_SIZE, EDITIONS_RIGHT, 0, 0));
}

static void empty(void)
{
    uint8_t image[IMAGE_TABLES(1, 1) + 1], out[4] = {1, 2, 3, 4};
    int8_image(image, sizeof image);
    expect("no image", 0, editions_check(NULL, 0), answer_of(EDITIONS_SIZE, 0, 0, 0));
    expect("no image", 1, editions_check(image, 0), answer_of(EDITIONS_SIZE, 0, 0, 0));
    expect("no image", 3, editions_map_names(NULL, 0), answer_of(EDITIONS_SIZE, 0, 0, 0));
    expect("no image", 4, editions_map_names(image, 0), answer_of(EDITIONS_SIZE, 0, 0, 0));
    expect("no Map", 0, editions_map_names(image, sizeof image), answer_of(0, 0, 0, 1));
    expect("no image", 2, editions_compare(NULL, 0, NULL, 0), answer_of(EDITIONS_SIZE, 0, 0, 0));
    expect("no right image", 0, editions_compare(image, sizeof image, NULL, 0), answer_of(EDITIONS_SIZE, EDITIONS_RIGHT, 0, 0));
    const struct two none = {NULL, NULL, 0, 0}, no_right = {image, NULL, sizeof image, 0};
    const struct two same = {image, image, sizeof image, sizeof image};
    expect_refusal("no images", 0, &none, 0, 0, 0, answer_of(EDITIONS_SIZE, EDITIONS_LEFT, 0, 0));
    expect_refusal("no right image", 1, &no_right, UINT32_MAX, 0, 0, answer_of(EDITIONS_SIZE, EDITIONS_RIGHT, 0, 0));
    expect_value("an image and itself", 0, &same, 0, 1, 0);
    expect_value("an image and itself", 1, &same, 1, 0, 0);
    expect("no image to write", 0, editions_write(NULL, 0, 0, 0, NULL, 0), answer_of(EDITIONS_SIZE, 0, 0, 0));
    expect("no rows into nothing", 0, editions_write(image, sizeof image, 0, 0, NULL, 0), 0);
    expect("a row into nothing", 0, editions_write(image, sizeof image, 0, 1, NULL, 0), answer_of(EDITIONS_OUTPUT, 0, 0, 0));
    expect("a row into one byte", 0, editions_write(image, sizeof image, 0, 1, out, 1), answer_of(EDITIONS_OUTPUT, 0, 0, 0));
    expect("unchanged", 0, out[0], 1);
    expect("a row into two bytes", 0, editions_write(image, sizeof image, 0, 1, out, 2), answer_of(0, 0, 0, 2));
    expect("the byte past it", 0, out[2], 3);
}

/* List views as deep as may be, each of which covers all 64 rows of its child: a row takes 64 ^ VIEWS bytes, and 43 is said
 * at once. All of them have the same offsets and sizes. */
static void nested_views(void)
{
    enum { VIEWS = IMAGE_DEEPEST - 1, NODES = VIEWS + 1, BUFFERS = 2 * VIEWS + 1, ROWS = 64, NUMBERS = 4 * ROWS };
    static uint8_t image[IMAGE_TABLES(NODES, BUFFERS) + 2 * NUMBERS + ROWS];
    struct image m = image_in(image, sizeof image, NODES, BUFFERS);
    uint32_t offsets = image_part(&m, NUMBERS), sizes = image_part(&m, NUMBERS);
    for (unsigned row = 0; row < ROWS; row++) {
        image_put(&m, offsets + 4 * row, 0, 4);
        image_put(&m, sizes + 4 * row, ROWS, 4);
    }
    for (unsigned node = 0; node < VIEWS; node++) {
        image_node(&m, LIST_VIEW, 0, ROWS, 1, 2);
        image_entry(&m, offsets, NUMBERS);
        image_entry(&m, sizes, NUMBERS);
    }
    image_node(&m, INT8, 0, ROWS, 0, 1);
    image_buffer(&m, ROWS);
    static uint8_t out[100000];
    expect("nested views", 0, editions_check(image, sizeof image), 0);
    expect("nested views", 1, editions_write(image, sizeof image, 0, 1, out, sizeof out), answer_of(EDITIONS_OUTPUT, 0, 0, 0));
    expect("nested views", 2, editions_write(image, sizeof image, 0, ROWS, out, sizeof out), answer_of(EDITIONS_OUTPUT, 0, 0, 0));
}

/* As many rows as a node may have, in a few bytes: of code 0, and in two runs, of which the last is of one row. */
static void most_rows(void)
{
    enum { RUNS = 2, LENGTH = IMAGE_TABLES(3, 2) + 4 * RUNS + RUNS };
    uint8_t nulls[IMAGE_TABLES(1, 0)], left[LENGTH], right[LENGTH];
    struct image m = image_in(nulls, sizeof nulls, 1, 0);
    image_node(&m, NULLS, 0, IMAGE_MOST_ELEMENTS, 0, 0);
    const struct two same = {nulls, nulls, sizeof nulls, sizeof nulls};
    expect_value("most rows", 0, &same, 0, IMAGE_MOST_ELEMENTS, 0);
    expect_refusal("most rows", 1, &same, 1, 0, IMAGE_MOST_ELEMENTS, answer_of(EDITIONS_RANGE, EDITIONS_LEFT, 0, 0));
    for (unsigned side = 0; side < 2; side++) {
        m = image_in(side ? right : left, LENGTH, 3, 2);
        image_node(&m, RUN_END_ENCODED, 0, IMAGE_MOST_ELEMENTS, 2, 0);
        image_node(&m, INT32, 0, RUNS, 0, 1);
        uint32_t ends = image_buffer(&m, 4 * RUNS);
        image_put(&m, ends, IMAGE_MOST_ELEMENTS - 1, 4);
        image_put(&m, ends + 4, IMAGE_MOST_ELEMENTS, 4);
        image_node(&m, INT8, 0, RUNS, 0, 1);
        uint32_t values = image_buffer(&m, RUNS);
        image_put(&m, values, 7, 1);
        image_put(&m, values + 1, side, 1);
    }
    const struct two runs = {left, right, LENGTH, LENGTH};
    expect_value("most rows", 2, &runs, 0, IMAGE_MOST_ELEMENTS, IMAGE_MOST_ELEMENTS);
    expect_value("most rows", 3, &runs, 0, IMAGE_MOST_ELEMENTS - 1, 0);
    expect_value("most rows", 4, &runs, IMAGE_MOST_ELEMENTS - 1, 1, 1);
}

/* A column of PLACES rows, more than the library compares at once. The bit numbered `first` + `step` * k of its image belongs to
 * row k: the last of its value, or the one of the bitmap. */
enum { PLACES = 1100 };

struct column {
    uint8_t *bytes;
    size_t length;
    uint32_t first, step;
};

/* How many bits a value of that code has, and whether the column has a bitmap. */
struct kind {
    int code;
    uint32_t p1, bits;
    int masked;
};

/* The rows' values begin at element `at`, or the bitmap at that bit, with every tenth row null. */
static struct column column(struct lent lent, const struct kind *kind, uint32_t at)
{
    uint32_t offset = kind->masked ? 0 : at, data = ((offset + PLACES) * kind->bits + 7) / 8;
    uint32_t length = IMAGE_TABLES(1, 1) + data + (kind->masked ? (at + PLACES + 7) / 8 : 0);
    struct column made = {lent_bytes(lent, length, 1), length, 0, kind->bits};
    memset(made.bytes, 0, length);
    struct image m = image_in(made.bytes, length, 1, 1);
    uint32_t record = image_node(&m, kind->code, kind->p1, PLACES, 0, 1), values = image_buffer(&m, data);
    image_put(&m, record + RECORD_OFFSET, offset, 4);
    for (uint32_t bit = 0; bit < PLACES * kind->bits; bit++)
        if (bit * 2654435761u >> 30 == 1)
            image_set(&m, values, offset * kind->bits + bit);
    made.first = 8 * values + (offset + 1) * kind->bits - 1;
    if (kind->masked) {
        uint32_t bitmap = image_bitmap(&m, record, PLACES, at);
        for (uint32_t k = 0; k < PLACES; k++)
            if (k % 10 != 3)
                image_set(&m, bitmap, at + k);
        made.first = 8 * bitmap + at;
        made.step = 1;
    }
    return made;
}

static void turn(const struct column *column, uint32_t k)
{
    uint32_t bit = column->first + column->step * k;
    column->bytes[bit / 8] ^= (uint8_t)(1u << bit % 8);
}

/* Row k alone differs, for each k; then all rows from k on. */
static void turned_rows(const struct two *t, const struct column *right)
{
    expect_value("places", 0, t, 0, PLACES, 0);
    for (uint32_t k = 0; k < PLACES; k++) {
        turn(right, k);
        expect_value("the range with row", k, t, 0, PLACES, k + 1);
        expect_value("the range before row", k, t, 0, k, 0);
        expect_value("the range from row", k, t, k, PLACES - k, 1);
        expect_value("the range behind row", k, t, k + 1, PLACES - k - 1, 0);
        turn(right, k);
    }
    for (uint32_t k = PLACES; k-- > 0;) {
        turn(right, k);
        expect_value("the rows differ from", k, t, 0, PLACES, k + 1);
    }
}

/* A row that differs, at each place of columns that begin at different places of a byte and of a word. */
static void places(void)
{
    static const struct kind kinds[] = {
        {BOOLEAN, 0, 1, 0}, {INT8, 0, 8, 0}, {INT64, 0, 64, 0}, {FIXED_SIZE_BINARY, 3, 24, 0}, {INT8, 0, 8, 1}, {BOOLEAN, 0, 1, 1}};
    static const uint32_t starts[] = {0, 1, 6, 9};
    for (unsigned kind = 0; kind < sizeof kinds / sizeof kinds[0]; kind++)
        for (unsigned k = 0; k < 16; k++) {
            struct column left = column(memory[0], &kinds[kind], starts[k / 4]);
            struct column right = column(memory[1], &kinds[kind], starts[k % 4]);
            const struct two t = {left.bytes, right.bytes, left.length, right.length};
            turned_rows(&t, &right);
        }
}

/* A sparse union of two Int8 columns, of more rows than two blocks that the library compares at once. Its ids, and the values
 * of each child, stand one after the other; a row of the child that the id does not name has the value `unnamed`. Returns the
 * place of the ids. */
enum { UNION_BLOCK = 4096, UNION_ROWS = 2 * UNION_BLOCK + 700, UNION_LENGTH = IMAGE_TABLES(3, 3) + 3 * UNION_ROWS };

static uint32_t union_image(uint8_t *bytes, uint8_t unnamed)
{
    struct image m = image_in(bytes, UNION_LENGTH, 3, 3);
    image_node(&m, SPARSE_UNION, 0, UNION_ROWS, 2, 1);
    uint32_t ids = image_buffer(&m, UNION_ROWS);
    for (uint32_t k = 0; k < UNION_ROWS; k++)
        bytes[ids + k] = (uint8_t)(k * 2654435761u >> 31);
    for (uint32_t c = 0; c < 2; c++) {
        uint32_t child = image_node(&m, INT8, 0, UNION_ROWS, 0, 1), values = image_buffer(&m, UNION_ROWS);
        bytes[child + RECORD_TYPE_ID] = (uint8_t)c;
        for (uint32_t k = 0; k < UNION_ROWS; k++)
            bytes[values + k] = bytes[ids + k] == c ? (uint8_t)(k * 31 + (k >> 8)) : unnamed;
    }
    return ids;
}

/* A row that differs, at the ends of the blocks and at some places inside: the row that the id names, the other child's row,
 * the id. The rows that no id names are the same on both sides, and then others. */
static void unions(void)
{
    for (uint8_t unnamed = 1; unnamed < 3; unnamed++) {
        uint8_t *left = lent_bytes(memory[0], UNION_LENGTH, 1), *right = lent_bytes(memory[1], UNION_LENGTH, 1);
        uint32_t ids = union_image(left, 1);
        union_image(right, unnamed);
        const struct two t = {left, right, UNION_LENGTH, UNION_LENGTH};
        expect_value("unions", 0, &t, 0, UNION_ROWS, 0);
        for (uint32_t k = 0; k < UNION_ROWS; k++) {
            if (k % 43 != 0 && (k + 2) % UNION_BLOCK > 3 && k + 3 < UNION_ROWS)
                continue;
            uint8_t *id = right + ids + k, *named = id + (1 + *id) * UNION_ROWS, *other = id + (2 - *id) * UNION_ROWS;
            *named ^= 128;
            expect_value("the unions with row", k, &t, 0, UNION_ROWS, k + 1);
            expect_value("the unions before row", k, &t, 0, k, 0);
            expect_value("the unions from row", k, &t, k, UNION_ROWS - k, 1);
            *named ^= 128;
            *other ^= 128;
            expect_value("a row that no id names, of the unions", k, &t, 0, UNION_ROWS, 0);
            *other ^= 128;
            *id ^= 1;
            expect_value("the unions with the id of row", k, &t, 0, UNION_ROWS, k + 1);
            *id ^= 1;
        }
    }
}

/* Every number has a sentence of its own; all those that no call answers share one. */
static void texts(void)
{
    static const unsigned numbers[] = {0, 10, 11, 12, 13, 14, 15, 16, 17, 18, 19, 20, 21, 22, 23, 24, 43};
    enum { COUNT = sizeof numbers / sizeof numbers[0] };
    const char *other = editions_refusal_text(255);
    for (unsigned k = 0; k < COUNT; k++) {
        const char *text = editions_refusal_text(numbers[k]);
        size_t length = strlen(text);
        must("no sentence for", numbers[k], length > 10 && text[0] >= 'A' && text[0] <= 'Z' && text[length - 1] == '.');
        must("no sentence of its own for", numbers[k], strcmp(text, other) != 0);
        for (unsigned j = 0; j < k; j++)
            must("no sentence of its own for", numbers[k], strcmp(text, editions_refusal_text(numbers[j])) != 0);
    }
    for (unsigned number = 0, k = 0; number < 300; number++)
        if (k < COUNT && numbers[k] == number)
            k++;
        else
            must("the sentence of a refusal for", number, strcmp(editions_refusal_text(number), other) == 0);
}

int main(int argc, char **argv)
{
    if (argc != 2) {
        fprintf(stderr, "usage: test CASES\n");
        return 2;
    }
    for (int k = 0; k < 3; k++)
        memory[k] = lent_pages(MOST);
    model_cases(argv[1]);
    largest();
    empty();
    nested_views();
    most_rows();
    places();
    unions();
    texts();
    return tally("host");
}
