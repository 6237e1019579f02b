/* Times the comparison of tables of about a million values, in one process, beside the Rust; then the search for the first
 * unequal row.
 *
 * For each layout there are two pairs of images with equal rows: one whose two sides are laid out alike, and one whose
 * right side is laid out otherwise, as the line says. `editions_compare` checks both images and compares all rows;
 * `editions_check` is the check of the right image alone; the Rust is `equal` of arrow-data on the same buffers, loaded
 * before and checked by nobody; memcmp is of the left image and a copy of it: what reading two images takes. Each figure is
 * the median of 31 calls, the four taken in turn. Without -DRUST the Rust is left out.
 *
 * The second table has the layouts whose right side is laid out otherwise, over all rows: `editions_compare_range` on the
 * pair with equal rows; `editions_first_difference` on that pair, and where the last row that is not null has another value,
 * where the last row is null on one side alone, and where row 0 has another value. Each ratio is to the comparison of equal
 * rows, of medians of 31, the two calls taken in turn on the same memory; for the row that is null on one side alone the equal
 * rows have a bitmap too. Where row 0 differs, the figures are the least of 301: the call, `editions_check` of both images, the
 * call on no rows, which checks both images and compares their types, and the first less the last, which is the search.
 *
 * The third table, of text, is that of text.c; the fourth, of rows of runs that are written, that of write.c; the fifth, of
 * numbers at fewer digits, that of digits.c; the sixth, of the names of Maps, that of names.c; the seventh, of tables that are
 * built of written rows, that of build.c. */
#include "../host/editions_calls.h"
#include "bench.h"

#include <stdio.h>
#include <string.h>

#ifdef RUST
extern void *rust_load(const uint8_t *image, size_t length);
extern int32_t rust_equal(const void *left, const void *right);
extern void rust_free(void *array);
#else
static void *rust_load(const uint8_t *image, size_t length) { return length ? (void *)image : NULL; }
static int32_t rust_equal(const void *left, const void *right) { return left != NULL && right != NULL; }
static void rust_free(void *array) { (void)array; }
#endif

enum { SHORT_TIMES = 301 };

/* The value of a row: this one, or another. */
static uint64_t value(struct side x, uint32_t row, uint64_t v) { return row == x.changed ? ~v : v; }

/* The elements of a fixed-width node, those before its first row too. */
static void elements(struct image *m, uint32_t record, struct side x, uint32_t width, uint32_t rows, uint32_t seed)
{
    uint32_t at = image_buffer(m, width * (x.before + rows));
    image_put(m, record + RECORD_OFFSET, x.before, 4);
    for (uint32_t i = 0; i < x.before + rows; i++) {
        uint32_t row = i - x.before;
        uint64_t v = i < x.before || is_null(x, row) ? unread(x, i + seed) : value(x, row, mix(row + seed));
        for (uint32_t k = 0; k < width; k += 8, v = mix(v))
            image_put(m, at + width * i + k, v, width - k < 8 ? (int)(width - k) : 8);
    }
}

static struct image fixed(int code, uint32_t p1, uint32_t width, struct side x)
{
    struct image m = begin(1, 1);
    uint32_t r = image_node(&m, code, p1, ROWS, 0, 1);
    elements(&m, r, x, width, ROWS, 0);
    nulls(&m, r, x, ROWS);
    return m;
}

static struct image int64s(struct side x) { return fixed(5, 0, 8, x); }
static struct image int32s(struct side x) { return fixed(4, 0, 4, x); }
static struct image int16s(struct side x) { return fixed(3, 0, 2, x); }
static struct image int8s(struct side x) { return fixed(2, 0, 1, x); }
static struct image decimal128s(struct side x) { return fixed(17, 38, 16, x); }
static struct image binaries(struct side x) { return fixed(30, 5, 5, x); }

static struct image booleans(struct side x)
{
    struct image m = begin(1, 1);
    uint32_t offset = x.other ? 5 : 3, r = image_node(&m, 1, 0, ROWS, 0, 1), b = image_buffer(&m, (offset + ROWS + 7) / 8);
    for (uint32_t i = 0; i < ROWS; i++)
        if ((is_null(x, i) ? unread(x, i) : value(x, i, mix(i))) >> 40 & 1)
            image_set(&m, b, offset + i);
    image_put(&m, r + RECORD_OFFSET, offset, 4);
    nulls(&m, r, x, ROWS);
    return m;
}

/* Texts of 4 to 11 bytes, beginning with the one of that number, the offsets of so many bytes each; before the first row
 * and under nulls other texts, and other lengths, on the other side. A row that is changed has another text as long. */
static void texts(struct image *m, uint32_t record, struct side x, uint32_t width, uint32_t rows, uint32_t first)
{
    uint32_t all = x.before + rows, offsets = image_buffer(m, width * (all + 1)), size = 0, at = 0;
    image_put(m, record + RECORD_OFFSET, x.before, 4);
    for (int write = 0; write < 2; write++) {
        uint32_t text = write ? image_buffer(m, size) : 0;
        for (uint32_t i = 0; i < all; i++) {
            uint32_t row = i - x.before;
            uint64_t v = i < x.before || is_null(x, row) ? unread(x, i) : mix((first + row) % rows);
            uint32_t len = 4 + (uint32_t)(v % 8), turn = i >= x.before && row == x.changed;
            if (!write) {
                image_put(m, offsets + width * i, size, (int)width);
                size += len;
                continue;
            }
            for (uint32_t k = 0; k < len; k++)
                m->bytes[text + at + k] = (uint8_t)('a' + ((v >> (8 + 3 * k)) + turn) % 26);
            at += len;
        }
    }
    image_put(m, offsets + width * all, size, (int)width);
}

static struct image strings(int code, uint32_t width, uint32_t rows, struct side x)
{
    struct image m = begin(1, 2);
    uint32_t r = image_node(&m, code, 0, rows, 0, 2);
    texts(&m, r, x, width, rows, 0);
    nulls(&m, r, x, rows);
    return m;
}

static struct image utf8s(struct side x) { return strings(26, 4, ROWS, x); }
static struct image large_utf8s(struct side x) { return strings(28, 8, ROWS / 2, x); }

/* Texts of 4 and of 20 bytes, in turn; the long ones share a pool of 1,000, which on the other side stands in the second
 * of two buffers and begins elsewhere. */
static struct image views(struct side x)
{
    uint32_t rows = ROWS / 2, start = x.other ? 7 : 0;
    struct image m = begin(1, x.other ? 3 : 2);
    uint32_t r = image_node(&m, 31, 0, rows, 0, x.other ? 3 : 2), v = image_buffer(&m, 16 * (x.before + rows));
    image_put(&m, r + RECORD_OFFSET, x.before, 4);
    if (x.other)
        image_buffer(&m, 100);
    uint32_t pool = image_buffer(&m, start + 20 * 1000) + start;
    for (uint32_t i = 0; i < 20 * 1000; i++)
        m.bytes[pool + i] = (uint8_t)('a' + mix(i) % 26);
    for (uint32_t i = 0; i < rows; i++) {
        uint64_t text = is_null(x, i) ? unread(x, i) : value(x, i, mix(i));
        uint32_t at = v + 16 * (x.before + i), offset = 20 * (uint32_t)(text % 1000);
        image_put(&m, at, i % 2 ? 20 : 4, 4);
        for (int k = 0; k < 4; k++)
            m.bytes[at + 4 + k] = i % 2 ? m.bytes[pool + offset + k] : (uint8_t)('a' + (text >> (8 * k)) % 26);
        if (i % 2) {
            image_put(&m, at + 8, x.other ? 1 : 0, 4);
            image_put(&m, at + 12, start + offset, 4);
        }
    }
    nulls(&m, r, x, rows);
    return m;
}

/* Keys of Int32 into texts; on the other side the texts stand in another order, and keys under nulls are others. */
static struct image dictionaries(uint32_t values, struct side x)
{
    struct image m = begin(2, 3);
    uint32_t r = image_node(&m, 41, 4, ROWS, 1, 1), k = image_buffer(&m, 4 * (x.before + ROWS));
    uint32_t c = image_node(&m, 26, 0, values, 0, 2);
    image_put(&m, r + RECORD_OFFSET, x.before, 4);
    for (uint32_t i = 0; i < ROWS; i++) {
        uint32_t key = (uint32_t)((is_null(x, i) ? unread(x, i) : value(x, i, mix(i))) % values);
        image_put(&m, k + 4 * (x.before + i), x.other ? (key + 7) % values : key, 4);
    }
    texts(&m, c, PLAIN, 4, values, x.other ? values - 7 : 0);
    nulls(&m, r, x, ROWS);
    return m;
}

static struct image few_values(struct side x) { return dictionaries(1000, x); }
static struct image many_values(struct side x) { return dictionaries(300000, x); }

/* Lists of four Int32; on the other side the child has rows before the first list's, and under nulls lists are longer. */
static struct image lists(struct side x)
{
    struct image m = begin(2, 2);
    uint32_t rows = ROWS / 4, start = x.other ? 5 : 0, at = start;
    uint32_t r = image_node(&m, 33, 0, rows, 1, 1), o = image_buffer(&m, 4 * (x.before + rows + 1));
    image_put(&m, r + RECORD_OFFSET, x.before, 4);
    for (uint32_t i = 0; i < x.before; i++)
        image_put(&m, o + 4 * i, start, 4);
    for (uint32_t i = 0; i <= rows; i++) {
        image_put(&m, o + 4 * (x.before + i), at, 4);
        at += is_null(x, i) && x.other ? 6 : 4;
    }
    uint32_t all = at;
    image_node(&m, 4, 0, all, 0, 1);
    uint32_t v = image_buffer(&m, 4 * all), put = start;
    for (uint32_t i = 0; i < rows; i++) {
        uint32_t count = is_null(x, i) && x.other ? 6 : 4;
        for (uint32_t k = 0; k < count; k++, put++)
            image_put(&m, v + 4 * put, is_null(x, i) ? unread(x, put) : value(x, i, mix(4 * i + k)), 4);
    }
    nulls(&m, r, x, rows);
    return m;
}

/* The same as list views; on the other side the windows stand in the child from the last to the first. */
static struct image list_views(struct side x)
{
    struct image m = begin(2, 3);
    uint32_t rows = ROWS / 4, r = image_node(&m, 35, 0, rows, 1, 2);
    uint32_t o = image_buffer(&m, 4 * (x.before + rows)), s = image_buffer(&m, 4 * (x.before + rows));
    image_node(&m, 4, 0, 4 * rows, 0, 1);
    uint32_t v = image_buffer(&m, 16 * rows);
    image_put(&m, r + RECORD_OFFSET, x.before, 4);
    for (uint32_t i = 0; i < rows; i++) {
        uint32_t at = 4 * (x.other ? rows - 1 - i : i);
        image_put(&m, o + 4 * (x.before + i), at, 4);
        image_put(&m, s + 4 * (x.before + i), 4, 4);
        for (uint32_t k = 0; k < 4; k++)
            image_put(&m, v + 4 * (at + k), is_null(x, i) ? unread(x, at + k) : value(x, i, mix(4 * i + k)), 4);
    }
    nulls(&m, r, x, rows);
    return m;
}

/* Fixed lists of four Int32, sliced on the other side, the child too. */
static struct image fixed_lists(struct side x)
{
    struct image m = begin(2, 1);
    uint32_t rows = ROWS / 4, r = image_node(&m, 37, 4, rows, 1, 0);
    image_put(&m, r + RECORD_OFFSET, x.before, 4);
    uint32_t c = image_node(&m, 4, 0, 4 * (x.before + rows), 0, 1), shift = x.other ? 2 : 0;
    uint32_t v = image_buffer(&m, 4 * (shift + 4 * (x.before + rows)));
    image_put(&m, c + RECORD_OFFSET, shift, 4);
    for (uint32_t i = 0; i < rows; i++)
        for (uint32_t k = 0; k < 4; k++)
            image_put(&m, v + 4 * (shift + 4 * (x.before + i) + k),
                      is_null(x, i) ? unread(x, i) : value(x, i, mix(4 * i + k)), 4);
    nulls(&m, r, x, rows);
    return m;
}

/* An Int32, an Int64 and an Int16 in each Struct; the children of a sliced Struct have the rows before its first too. A row
 * that is changed has another Int64. */
static struct image structs(struct side x)
{
    struct image m = begin(4, 3);
    uint32_t rows = ROWS / 2, widths[] = {4, 8, 2}, r = image_node(&m, 38, 0, rows, 3, 0);
    int codes[] = {4, 5, 3};
    image_put(&m, r + RECORD_OFFSET, x.before, 4);
    for (uint32_t c = 0; c < 3; c++) {
        image_node(&m, codes[c], 0, x.before + rows, 0, 1);
        uint32_t b = image_buffer(&m, widths[c] * (x.before + rows));
        for (uint32_t i = 0; i < rows; i++) {
            uint64_t v = is_null(x, i) ? unread(x, i) : mix(i + c);
            image_put(&m, b + widths[c] * (x.before + i), c == 1 ? value(x, i, v) : v, (int)widths[c]);
        }
    }
    nulls(&m, r, x, rows);
    return m;
}

/* Two texts in each Struct; on the other side both children are sliced. A row that is changed has another second text. */
static struct image pairs_of_texts(struct side x)
{
    struct image m = begin(3, 4);
    uint32_t rows = ROWS / 2, r = image_node(&m, 38, 0, rows, 2, 0);
    for (uint32_t c = 0; c < 2; c++) {
        struct side child = {x.before, 0, x.other, 0, c == 1 ? x.changed : NONE, NONE};
        texts(&m, image_node(&m, 26, 0, rows, 0, 2), child, 4, rows, c);
    }
    nulls(&m, r, x, rows);
    return m;
}

/* Unions of an Int64 and an Int32, the ids mixed. Dense: each child holds its own rows, on the other side from the last to
 * the first. Sparse: rows that no id names are the same on both sides, or with `unnamed` others. */
static struct image unions(int dense, int unnamed, struct side x)
{
    struct image m = begin(3, dense ? 4 : 3);
    uint32_t rows = ROWS / 2, count[2] = {0, 0}, widths[] = {8, 4};
    int codes[] = {5, 4};
    uint32_t r = image_node(&m, dense ? 39 : 40, 0, rows, 2, dense ? 2 : 1), all = x.before + rows;
    uint32_t ids = image_buffer(&m, all), offsets = dense ? image_buffer(&m, 4 * all) : 0;
    image_put(&m, r + RECORD_OFFSET, x.before, 4);
    for (uint32_t i = 0; i < rows; i++)
        count[mix(i) >> 40 & 1]++;
    for (uint32_t c = 0; c < 2; c++) {
        uint32_t length = dense ? count[c] : all, at = 0;
        uint32_t child = image_node(&m, codes[c], 0, length, 0, 1), b = image_buffer(&m, widths[c] * length);
        m.bytes[child + RECORD_TYPE_ID] = (uint8_t)c;
        for (uint32_t i = 0; i < rows; i++) {
            int named = (mix(i) >> 40 & 1) == c;
            uint32_t row = x.before + i;
            if (dense && !named)
                continue;
            if (dense) {
                row = x.other ? length - 1 - at : at;
                image_put(&m, offsets + 4 * (x.before + i), row, 4);
                at++;
            }
            uint64_t v = named || !unnamed ? mix(i + c) : unread(x, i + c);
            image_put(&m, b + widths[c] * row, named ? value(x, i, v) : v, (int)widths[c]);
        }
    }
    for (uint32_t i = 0; i < rows; i++)
        m.bytes[ids + x.before + i] = (uint8_t)(mix(i) >> 40 & 1);
    return m;
}

static struct image dense_unions(struct side x) { return unions(1, 0, x); }
static struct image sparse_unions(struct side x) { return unions(0, 0, x); }
static struct image other_sparse_unions(struct side x) { return unions(0, 1, x); }

/* A million rows whose values change every 10; runs of 10, on the other side of 5. A row that is changed is changed with its
 * run. */
static struct image runs(struct side x)
{
    struct image m = begin(3, 2);
    uint32_t length = x.other ? 5 : 10, count = ROWS / length;
    image_node(&m, 43, 0, ROWS, 2, 0);
    image_node(&m, 4, 0, count, 0, 1);
    uint32_t e = image_buffer(&m, 4 * count);
    image_node(&m, 5, 0, count, 0, 1);
    uint32_t v = image_buffer(&m, 8 * count);
    for (uint32_t i = 0; i < count; i++) {
        image_put(&m, e + 4 * i, length * (i + 1), 4);
        uint64_t of = mix(length * i / 10);
        image_put(&m, v + 8 * i, x.changed != NONE && x.changed / length == i ? ~of : of, 8);
    }
    return m;
}

static void measure(const char *name, const char *laid, struct image a, struct image b)
{
    double compare[TIMES], check[TIMES], rust[TIMES], bytes[TIMES];
    volatile uint64_t same = 0;
    uint8_t *copy = malloc(a.length);
    void *left = rust_load(a.bytes, a.length), *right = rust_load(b.bytes, b.length);
    if (copy == NULL || editions_compare(a.bytes, a.length, b.bytes, b.length) != YES || rust_equal(left, right) != 1) {
        printf("%s, %s: not equal: check %llx, compare %llx, the Rust %d\n", name, laid,
               (unsigned long long)editions_check(b.bytes, b.length),
               (unsigned long long)editions_compare(a.bytes, a.length, b.bytes, b.length), rust_equal(left, right));
        exit(1);
    }
    memcpy(copy, a.bytes, a.length);
    for (int i = 0; i < TIMES; i++) {
        double t0 = now();
        same += editions_compare(a.bytes, a.length, b.bytes, b.length);
        double t1 = now();
        same += editions_check(b.bytes, b.length);
        double t2 = now();
        same += (uint64_t)rust_equal(left, right);
        double t3 = now();
        same += (uint64_t)memcmp(a.bytes, copy, a.length);
        double t4 = now();
        compare[i] = t1 - t0;
        check[i] = t2 - t1;
        rust[i] = t3 - t2;
        bytes[i] = t4 - t3;
    }
    double c = median(compare), k = median(check), r = median(rust), m = median(bytes);
#ifdef RUST
    printf("| %s | %s | %.0f | %.0f | %.0f | %.2f | %.0f |\n", name, laid, c / 1000, k / 1000, r / 1000, c / r, m / 1000);
#else
    (void)r;
    printf("| %s | %s | %.0f | %.0f | - | - | %.0f |\n", name, laid, c / 1000, k / 1000, m / 1000);
#endif
    rust_free(left);
    rust_free(right);
    free(copy);
    free(a.bytes);
    free(b.bytes);
}

/* What is measured: a layout, how the right side is laid out otherwise, and whether every tenth row is null. */
static const struct layout {
    const char *name, *otherwise;
    struct image (*lay)(struct side);
    int nulls;
} LAYOUTS[] = {
    {"Int64", "sliced by 3", int64s, 0},
    {"Int64, every tenth null", "sliced, other bytes under nulls", int64s, 1},
    {"Int32, every tenth null", "sliced, other bytes under nulls", int32s, 1},
    {"Int16, every tenth null", "sliced, other bytes under nulls", int16s, 1},
    {"Int8, every tenth null", "sliced, other bytes under nulls", int8s, 1},
    {"Decimal128, every tenth null", "sliced, other bytes under nulls", decimal128s, 1},
    {"FixedSizeBinary of 5, every tenth null", "sliced, other bytes under nulls", binaries, 1},
    {"Boolean", "offsets 3 and 5", booleans, 0},
    {"Boolean, every tenth null", "offsets 3 and 5, other bits under nulls", booleans, 1},
    {"Utf8", "sliced by 3", utf8s, 0},
    {"Utf8, every tenth null", "sliced, other texts under nulls", utf8s, 1},
    {"LargeUtf8", "sliced by 3", large_utf8s, 0},
    {"LargeUtf8, every tenth null", "sliced, other texts under nulls", large_utf8s, 1},
    {"Utf8View, half of them longer than 12 bytes", "sliced, another buffer", views, 0},
    {"Utf8View, the same, every tenth null", "sliced, another buffer, other views under nulls", views, 1},
    {"Dictionary<Int32, Utf8>, 1,000 values", "sliced, values in another order", few_values, 0},
    {"Dictionary<Int32, Utf8>, 1,000 values, every tenth null", "sliced, values in another order", few_values, 1},
    {"Dictionary<Int32, Utf8>, 300,000 values", "sliced, values in another order", many_values, 0},
    {"List<Int32>, 250,000 lists of 4", "sliced, child rows start elsewhere", lists, 0},
    {"List<Int32>, the same, every tenth null", "sliced, longer lists under nulls", lists, 1},
    {"ListView<Int32>, 250,000 lists of 4", "sliced, child rows in another order", list_views, 0},
    {"ListView<Int32>, the same, every tenth null", "sliced, child rows in another order", list_views, 1},
    {"FixedSizeList<Int32>, 250,000 lists of 4", "list and child sliced", fixed_lists, 0},
    {"FixedSizeList<Int32>, the same, every tenth null", "list and child sliced, other bytes under nulls", fixed_lists, 1},
    {"Struct of three", "sliced", structs, 0},
    {"Struct of three, every tenth null", "sliced, other bytes under nulls", structs, 1},
    {"Struct of two texts", "both children sliced", pairs_of_texts, 0},
    {"dense Union of two", "sliced, children in another order", dense_unions, 0},
    {"sparse Union of two", "sliced", sparse_unions, 0},
    {"sparse Union of two, rows that no id names", "sliced, other bytes in these rows", other_sparse_unions, 0},
    {"RunEndEncoded<Int32, Int64>, runs of 10", "against runs of 5", runs, 0},
};

enum { COUNT = sizeof LAYOUTS / sizeof LAYOUTS[0] };

/* A call on ranges of two images, over the first so many rows of both. */
typedef uint64_t range_call(const uint8_t *, size_t, const uint8_t *, size_t, uint32_t, uint32_t, uint32_t);

static uint64_t ask(range_call *call, struct image a, struct image b, uint32_t rows)
{
    return call(a.bytes, a.length, b.bytes, b.length, 0, 0, rows);
}

/* Ends where the search on a pair does not find a row that is unequal after rows that are equal, or finds one in spite of
 * `none`. */
static void hold(const char *name, struct image a, struct image b, uint32_t rows, int none)
{
    uint64_t found = ask(editions_first_difference, a, b, rows);
    uint32_t row = editions_row(found);
    int right = none ? found == 0
                     : editions_refusal(found) == 0 && editions_differs(found) && row < rows &&
                           ask(editions_compare_range, a, b, row) == YES &&
                           editions_compare_range(a.bytes, a.length, b.bytes, b.length, row, row, 1) == 0;
    if (!right) {
        printf("%s: the first unequal row of %u is %llx\n", name, rows, (unsigned long long)found);
        exit(1);
    }
}

/* The bytes in which another image of the same layout differs. */
struct change {
    uint32_t count, at[64];
    uint8_t bytes[64];
};

static struct change change_to(struct image b, struct image c)
{
    struct change d = {0, {0}, {0}};
    if (b.length != c.length)
        abort();
    for (uint32_t i = 0; i < b.length; i++)
        if (b.bytes[i] != c.bytes[i]) {
            if (d.count == 64)
                abort();
            d.at[d.count] = i;
            d.bytes[d.count++] = c.bytes[i];
        }
    free(c.bytes);
    return d;
}

/* Changes an image, and back the next time. Without a change the image stays. */
static void turn(struct image b, struct change *d)
{
    for (uint32_t i = 0; d != NULL && i < d->count; i++) {
        uint8_t was = b.bytes[d->at[i]];
        b.bytes[d->at[i]] = d->bytes[i];
        d->bytes[i] = was;
    }
}

/* The search on a pair whose right image is changed, or stays, beside the comparison of the pair: the medians, taken in turn. */
struct turns {
    double compare, search;
};

static struct turns in_turn(const char *name, struct image a, struct image b, struct change *d, uint32_t rows)
{
    double compare[TIMES], search[TIMES];
    volatile uint64_t same = 0;
    turn(b, d);
    hold(name, a, b, rows, d == NULL);
    turn(b, d);
    for (int i = 0; i < TIMES; i++) {
        double t0 = now();
        same += ask(editions_compare_range, a, b, rows);
        double t1 = now();
        turn(b, d);
        double t2 = now();
        same += ask(editions_first_difference, a, b, rows);
        double t3 = now();
        turn(b, d);
        compare[i] = t1 - t0;
        search[i] = t3 - t2;
    }
    struct turns t = {median(compare), median(search)};
    return t;
}

static double least(double x, double y) { return x < y ? x : y; }

/* The search on a pair whose row 0 differs: the call, the check of both images, the call on no rows, and the search. */
static void search_alone(const char *name, struct image a, struct image b, uint32_t rows)
{
    double call = 1e12, checks = 1e12, empty = 1e12;
    volatile uint64_t same = 0;
    hold(name, a, b, rows, 0);
    for (int i = 0; i < SHORT_TIMES; i++) {
        double t0 = now();
        same += editions_check(a.bytes, a.length);
        same += editions_check(b.bytes, b.length);
        double t1 = now();
        same += ask(editions_first_difference, a, b, 0);
        double t2 = now();
        same += ask(editions_first_difference, a, b, rows);
        double t3 = now();
        checks = least(checks, t1 - t0);
        empty = least(empty, t2 - t1);
        call = least(call, t3 - t2);
    }
    printf(" %.1f | %.1f | %.1f | %.1f |\n", call / 1000, checks / 1000, empty / 1000, (call - empty) / 1000);
}

/* The search for the first unequal row of one layout, the right side laid out otherwise. */
static void measure_search(const struct layout *l)
{
    struct side y = side(l->nulls, 1), first = y, last = y, masked = y;
    struct image a = l->lay(side(l->nulls, 0)), b = l->lay(y);
    uint32_t rows = (uint32_t)image_get(a.bytes, image_record(0) + RECORD_LENGTH, 4);
    first.changed = 0;
    last.changed = is_null(y, rows - 1) ? rows - 2 : rows - 1;
    masked.bitmap = 1;
    struct side turned = masked;
    turned.turned = rows - 1;
    struct change to_last = change_to(b, l->lay(last)), to_first = change_to(b, l->lay(first));
    struct turns none = in_turn(l->name, a, b, NULL, rows), value = in_turn(l->name, a, b, &to_last, rows);
    printf("| %s | %s | %.0f | %.0f | %.2f | %.0f | %.2f |", l->name, l->otherwise, none.compare / 1000, none.search / 1000,
           none.search / none.compare, value.search / 1000, value.search / value.compare);
    struct image c = l->lay(masked);
    /* a union's and a run's rows are never null */
    if (c.bytes[image_record(0) + RECORD_FLAGS] & FLAG_BITMAP) {
        struct change to_turned = change_to(c, l->lay(turned));
        struct turns nullness = in_turn(l->name, a, c, &to_turned, rows);
        printf(" %.0f | %.2f |", nullness.search / 1000, nullness.search / nullness.compare);
    } else {
        printf(" - | - |");
    }
    turn(b, &to_first);
    search_alone(l->name, a, b, rows);
    free(a.bytes);
    free(b.bytes);
    free(c.bytes);
}

static void compare_table(void)
{
    printf("| layout, about a million values | the two sides | check and compare, us | check alone, us | the Rust, us | to the Rust | memcmp, us |\n");
    printf("|---|---|---|---|---|---|---|\n");
    for (int i = 0; i < COUNT; i++) {
        const struct layout *l = &LAYOUTS[i];
        measure(l->name, "alike", l->lay(side(l->nulls, 0)), l->lay(side(l->nulls, 0)));
        measure(l->name, l->otherwise, l->lay(side(l->nulls, 0)), l->lay(side(l->nulls, 1)));
    }
}

static void search_table(void)
{
    printf("| layout, about a million values | the two sides | range compared, us | no row differs, us | to the comparison | the last differs, us | to the comparison | the last in nullness, us | to the comparison | row 0 differs, us | both checked, us | no rows asked for, us | the search, us |\n");
    printf("|---|---|---|---|---|---|---|---|---|---|---|---|---|\n");
    for (int i = 0; i < COUNT; i++)
        measure_search(&LAYOUTS[i]);
}

static const struct table {
    const char *name;
    void (*print)(void);
} TABLES[] = {{"compare", compare_table},
              {"search", search_table},
              {"text", text_table},
              {"write", write_table},
              {"digits", digits_table},
              {"names", names_table},
              {"build", build_table}};

enum { TABLE_COUNT = sizeof TABLES / sizeof TABLES[0] };

/* Prints the table that is named, or all of them; 2 where there is none of that name. */
int main(int argc, char **argv)
{
    int printed = 0;
    for (int i = 0; i < TABLE_COUNT; i++)
        if (argc < 2 || strcmp(argv[1], TABLES[i].name) == 0) {
            if (printed++)
                printf("\n");
            TABLES[i].print();
        }
    return printed ? 0 : 2;
}
