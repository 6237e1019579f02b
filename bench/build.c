/* The seventh table: what building a table of written rows takes, beside writing these rows.
 *
 * Each line has an image, without nulls or with every tenth row null, laid out plainly or sliced. `editions_write` of all its
 * rows and `editions_build` of what is written, with the image as the given one, are called in turn, every second time in the
 * other order; both check the image first, which is timed too. Each figure is the median of 31 calls, and the ratio that of
 * the two medians. Before each call the string and the output are read, which is not timed.
 *
 * Before anything is timed, the built image is held to be accepted, to equal the rows and to be written as they are. */
#include "../host/editions_calls.h"
#include "bench.h"

#include <stdio.h>
#include <string.h>

enum { INT32 = 4, INT64 = 5, UTF8 = 26, LIST = 33, STRUCT = 38 };

/* Structs of a list; child rows before the first list's, where the source is sliced; bytes of a string. */
enum { PER_LIST = 4, BEFORE_LISTS = 5, ROOM = 2 * IMAGE_LONGEST };

/* Elements of so many bytes, those before the first row too. */
static void put_numbers(struct image *m, uint32_t record, struct side x, uint32_t width, uint32_t rows)
{
    uint32_t at = image_buffer(m, width * (x.before + rows));
    image_put(m, record + RECORD_OFFSET, x.before, 4);
    for (uint32_t i = 0; i < x.before + rows; i++) {
        uint32_t row = i - x.before;
        image_put(m, at + width * i, i < x.before || is_null(x, row) ? unread(x, i) : mix(row), (int)width);
    }
}

/* Texts of 4 to 11 letters; those before the first row and under nulls are others on the other side. */
static void put_texts(struct image *m, uint32_t record, struct side x, uint32_t rows)
{
    uint32_t all = x.before + rows, offsets = image_buffer(m, 4 * (all + 1)), data = m->length, at = data;
    image_put(m, record + RECORD_OFFSET, x.before, 4);
    for (uint32_t i = 0; i < all; i++) {
        uint32_t row = i - x.before;
        uint64_t v = i < x.before || is_null(x, row) ? unread(x, i) : mix(row);
        image_put(m, offsets + 4 * i, at - data, 4);
        for (uint32_t k = 0, size = 4 + (uint32_t)(v % 8); k < size; k++)
            m->bytes[at++] = (uint8_t)('a' + (v >> (8 + 3 * k)) % 26);
    }
    image_put(m, offsets + 4 * all, at - data, 4);
    image_buffer(m, at - data);
}

static struct image int64s(struct side x)
{
    struct image m = begin(1, 1);
    uint32_t r = image_node(&m, INT64, 0, ROWS, 0, 1);
    put_numbers(&m, r, x, 8, ROWS);
    nulls(&m, r, x, ROWS);
    return m;
}

static struct image utf8s(struct side x)
{
    struct image m = begin(1, 2);
    uint32_t r = image_node(&m, UTF8, 0, ROWS, 0, 2);
    put_texts(&m, r, x, ROWS);
    nulls(&m, r, x, ROWS);
    return m;
}

/* Lists of four Structs of an Int32 and a text, a million values; every tenth list, Struct and value is null where nulls are. */
static struct image list_of_structs(struct side x)
{
    struct image m = begin(4, 4);
    uint32_t lists = ROWS / 2 / PER_LIST, start = x.other ? BEFORE_LISTS : 0, structs = start + PER_LIST * lists;
    uint32_t l = image_node(&m, LIST, 0, lists, 1, 1), o = image_buffer(&m, 4 * (x.before + lists + 1));
    image_put(&m, l + RECORD_OFFSET, x.before, 4);
    for (uint32_t i = 0; i <= x.before + lists; i++)
        image_put(&m, o + 4 * i, i < x.before ? start : start + PER_LIST * (i - x.before), 4);
    uint32_t s = image_node(&m, STRUCT, 0, structs, 2, 0), all = x.before + structs;
    image_put(&m, s + RECORD_OFFSET, x.before, 4);
    uint32_t n = image_node(&m, INT32, 0, all, 0, 1);
    put_numbers(&m, n, x, 4, all);
    uint32_t t = image_node(&m, UTF8, 0, all, 0, 2);
    put_texts(&m, t, x, all);
    nulls(&m, l, x, lists);
    nulls(&m, s, x, structs);
    nulls(&m, n, x, all);
    nulls(&m, t, x, all);
    return m;
}

static const struct line {
    const char *name;
    struct image (*lay)(struct side);
} LINES[] = {
    {"Int64, 1,000,000 rows", int64s},
    {"Utf8, 1,000,000 rows", utf8s},
    {"List<Struct<Int32, Utf8>>, 125,000 lists of 4", list_of_structs},
};

enum { LINE_COUNT = sizeof LINES / sizeof LINES[0] };

/* Ends where a call has another answer. */
static void hold(const char *name, const char *what, uint64_t answer, uint64_t wanted)
{
    if (answer == wanted)
        return;
    printf("| %s: %s: %llx and not %llx\n", name, what, (unsigned long long)answer, (unsigned long long)wanted);
    exit(1);
}

/* What a line is measured with: the image, its rows as they are written, and an output. */
struct parts {
    struct image m;
    uint32_t rows;
    uint8_t *string, *out;
    size_t string_length, built_length;
};

static struct parts parts_of(const char *name, struct image m)
{
    struct parts p = {m, (uint32_t)image_get(m.bytes, image_record(0) + RECORD_LENGTH, 4), malloc(ROOM), malloc(ROOM), 0, 0};
    if (p.string == NULL || p.out == NULL)
        abort();
    uint64_t written = editions_write(m.bytes, m.length, 0, p.rows, p.string, ROOM);
    hold(name, "the write", editions_refusal(written), 0);
    p.string_length = editions_value(written);
    uint64_t built = editions_build(m.bytes, m.length, p.rows, p.string, p.string_length, p.out, IMAGE_LONGEST);
    hold(name, "the build", editions_refusal(built), 0);
    p.built_length = editions_value(built);
    hold(name, "the built image", editions_check(p.out, p.built_length), 0);
    hold(name, "its rows", editions_compare_range(m.bytes, m.length, p.out, p.built_length, 0, 0, p.rows), YES);
    uint8_t *again = malloc(ROOM);
    if (again == NULL)
        abort();
    hold(name, "its rows written", editions_write(p.out, p.built_length, 0, p.rows, again, ROOM), written);
    hold(name, "their bytes", memcmp(again, p.string, p.string_length) != 0, 0);
    free(again);
    return p;
}

/* Reads what the next call reads and writes. */
static void touch(const struct parts *p)
{
    volatile uint64_t sum = 0;
    for (size_t k = 0; k < p->string_length; k += 64)
        sum += p->string[k] + (k < p->built_length ? p->out[k] : 0u);
}

static double time_write(const struct parts *p)
{
    touch(p);
    double t0 = now();
    volatile uint64_t answer = editions_write(p->m.bytes, p->m.length, 0, p->rows, p->out, ROOM);
    (void)answer;
    return now() - t0;
}

static double time_build(const struct parts *p)
{
    touch(p);
    double t0 = now();
    volatile uint64_t answer = editions_build(p->m.bytes, p->m.length, p->rows, p->string, p->string_length, p->out, IMAGE_LONGEST);
    (void)answer;
    return now() - t0;
}

static double time_check(const struct parts *p)
{
    double t0 = now();
    volatile uint64_t answer = editions_check(p->m.bytes, p->m.length);
    (void)answer;
    return now() - t0;
}

static void measure(const struct line *l, struct side x)
{
    struct parts p = parts_of(l->name, l->lay(x));
    double writes[TIMES], builds[TIMES], checks[TIMES];
    for (int i = 0; i < TIMES; i++) {
        if (i % 2)
            builds[i] = time_build(&p);
        writes[i] = time_write(&p);
        if (i % 2 == 0)
            builds[i] = time_build(&p);
        checks[i] = time_check(&p);
    }
    double w = median(writes), b = median(builds), c = median(checks);
    printf("| %s%s | %s | %.0f | %.0f | %.2f | %.0f | %.1f | %.1f |\n", l->name, x.nulls ? ", every tenth null" : "",
           x.other ? "sliced" : "plain", b / 1000, w / 1000, b / w, c / 1000, b / p.rows, w / p.rows);
    free(p.m.bytes);
    free(p.string);
    free(p.out);
}

void build_table(void)
{
    printf("| table | its image | build, us | write, us | to the write | check alone, us | build a row, ns | write a row, ns |\n");
    printf("|---|---|---|---|---|---|---|---|\n");
    for (int i = 0; i < LINE_COUNT; i++)
        for (int k = 0; k < 4; k++)
            measure(&LINES[i], side(k / 2, k % 2));
}
