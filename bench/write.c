/* The fourth table: what writing rows of a run-end encoded column takes, beside writing the same values as a plain column.
 *
 * Each line has two images with the same values: in one they stand in a plain column, in the other in a column of runs. Of both
 * are timed: `editions_write`, which checks the image first; `editions_check` alone; and a plain loop in C that puts out the
 * same bytes from the same image, and neither checks anything nor asks whether the bytes fit. Each figure is the median of 31
 * calls, the six taken in turn; before each the image and the output are read, which is not timed. The call less the check is
 * the difference of the two medians, and is what is compared with the loop; it is left out where it is less than the check,
 * whose errors are then too large for it.
 *
 * Before anything is timed, the output of the call is held to be that of the loop, byte for byte, and that of the runs to be
 * that of the plain column with a 01 more in front of each value. */
#include "../host/editions.h"
#include "bench.h"

#include <stdio.h>
#include <string.h>

/* What a line's column stands in: nothing, a Struct behind an Int32, or lists of four of its rows each. */
enum within { ALONE, IN_STRUCT, IN_LISTS };

/* Rows of a list; runs of 1 to 19 rows, as it falls; rows of a range; bytes of an output. */
enum { LIST = 4, MIXED = 0, RANGE = 1000, ROOM = 2 * IMAGE_LONGEST };

/* Where runs are mixed, all is sliced: elements before the first row of the column, of the run ends and of the run values. */
enum { BEFORE = 3, BEFORE_ENDS = 2, BEFORE_VALUES = 5 };

/* What is measured, with values of either kind: what the column stands in, its rows, the rows of a run, and how many rows from
 * the middle are written, 0 for all. */
static const struct shape {
    enum within within;
    uint32_t rows, run, range;
} SHAPES[] = {
    {ALONE, ROWS, 1, 0},
    {ALONE, 1000, 10, 0},
    {ALONE, 10000, 10, 0},
    {ALONE, 100000, 10, 0},
    {ALONE, ROWS, 10, 0},
    {ALONE, ROWS, 1000, 0},
    {ALONE, ROWS, 100000, 0},
    {ALONE, ROWS, MIXED, 0},
    {IN_STRUCT, ROWS / 2, 10, 0},
    {IN_STRUCT, ROWS / 2, 100000, 0},
    {IN_LISTS, ROWS, 10, 0},
    {ALONE, ROWS, 10, RANGE},
    {ALONE, ROWS, 100000, RANGE},
    {ALONE, ROWS, MIXED, RANGE},
};

enum { SHAPE_COUNT = sizeof SHAPES / sizeof SHAPES[0] };

/* One line of the table: a shape, with texts or with Int64; the range that is written, in rows of the table. */
struct line {
    struct shape shape;
    int text;
    uint32_t start, count;
};

/* Where the loop in C finds a column: the element of row 0; the Int32 of the Struct or the offsets of the lists; run 0's
 * end, or none, and how many runs there are; the first value, or the first text's offset; the texts. */
struct column {
    uint32_t first;
    const uint8_t *outside, *ends;
    uint32_t runs;
    const uint8_t *values, *texts;
};

struct laid {
    struct image m;
    struct column c;
};

static struct line line_of(struct shape s, int text)
{
    uint32_t all = s.within == IN_LISTS ? s.rows / LIST : s.rows;
    struct line l = {s, text, s.range ? (all - s.range) / 2 : 0, s.range ? s.range : all};
    return l;
}

static uint32_t values_written(const struct line *l) { return l->shape.within == IN_LISTS ? LIST * l->count : l->count; }

static uint32_t sliced(const struct line *l, uint32_t before) { return l->shape.run == MIXED ? before : 0; }

static uint32_t run_length(const struct line *l, uint32_t run)
{
    return l->shape.run == MIXED ? 1 + (uint32_t)(mix(run) >> 40) % 19 : l->shape.run;
}

/* The run of each element of the column, up to its last row. */
static uint32_t *runs_of(const struct line *l, uint32_t all)
{
    uint32_t *of = malloc(all * sizeof *of), run = 0, left = run_length(l, 0);
    if (of == NULL)
        abort();
    for (uint32_t j = 0; j < all; j++) {
        if (left-- == 0)
            left = run_length(l, ++run) - 1;
        of[j] = run;
    }
    return of;
}

/* The Struct and its Int32, or the lists. Returns the place of its elements. */
static uint32_t lay_outside(struct image *m, const struct line *l)
{
    uint32_t rows = l->shape.rows, at = 0;
    if (l->shape.within == IN_STRUCT) {
        image_node(m, 38, 0, rows, 2, 0);
        image_node(m, 4, 0, rows, 0, 1);
        at = image_buffer(m, 4 * rows);
        for (uint32_t i = 0; i < rows; i++)
            image_put(m, at + 4 * i, mix(i), 4);
    } else if (l->shape.within == IN_LISTS) {
        image_node(m, 33, 0, rows / LIST, 1, 1);
        at = image_buffer(m, 4 * (rows / LIST + 1));
        for (uint32_t i = 0; i <= rows / LIST; i++)
            image_put(m, at + 4 * i, LIST * i, 4);
    }
    return at;
}

/* The node of runs, and their ends. Returns the place of run 0's end. */
static uint32_t lay_ends(struct image *m, const struct line *l, const uint32_t *of, uint32_t all, uint32_t runs)
{
    uint32_t before = sliced(l, BEFORE_ENDS), node = image_node(m, 43, 0, l->shape.rows, 2, 0);
    uint32_t ends = image_node(m, 4, 0, runs, 0, 1), at = image_buffer(m, 4 * (before + runs));
    image_put(m, node + RECORD_OFFSET, all - l->shape.rows, 4);
    image_put(m, ends + RECORD_OFFSET, before, 4);
    for (uint32_t i = 0; i < before; i++)
        image_put(m, at + 4 * i, mix(i), 4);
    for (uint32_t j = 0; j < all; j++)
        image_put(m, at + 4 * (before + of[j]), j + 1, 4);
    return at + 4 * before;
}

/* The value of a number: an Int64, or a text of 4 to 11 letters. Returns how many bytes it has. */
static uint32_t put_number(struct image *m, uint32_t at, int text, uint32_t number)
{
    uint64_t v = mix(number);
    uint32_t size = text ? 4 + (uint32_t)(v >> 40) % 8 : 8;
    if (m->most - at < size)
        abort();
    for (uint32_t k = 0; k < size; k++)
        m->bytes[at + k] = (uint8_t)(text ? 'a' + (v >> (8 + 3 * k)) % 26 : v >> (8 * k));
    return size;
}

/* A node of values: so many elements before its first row, and its rows. An element's value has the number of the run that it
 * lies `of`, or its own. The values stand last: how many bytes they have is known when they are there. */
static void lay_values(struct laid *t, int text, uint32_t before, uint32_t rows, const uint32_t *of)
{
    struct image *m = &t->m;
    uint32_t all = before + rows, node = image_node(m, text ? 26 : 5, 0, rows, 0, text ? 2 : 1);
    uint32_t offsets = text ? image_buffer(m, 4 * (all + 1)) : 0, data = m->length, at = data;
    image_put(m, node + RECORD_OFFSET, before, 4);
    for (uint32_t i = 0; i < all; i++) {
        if (text)
            image_put(m, offsets + 4 * i, at - data, 4);
        at += put_number(m, at, text, of != NULL ? of[i] : i - before);
    }
    if (text)
        image_put(m, offsets + 4 * all, at - data, 4);
    image_buffer(m, at - data);
    t->c.values = m->bytes + (text ? offsets : data);
    t->c.texts = m->bytes + data;
}

/* A line's image: the plain column, or the one of runs, in what it stands in. */
static struct laid lay(const struct line *l, int runs)
{
    static const uint32_t nodes[] = {0, 2, 1};
    enum within within = l->shape.within;
    uint32_t before = sliced(l, BEFORE), all = before + l->shape.rows, *of = runs_of(l, all), count = of[all - 1] + 1;
    struct laid t = {begin(nodes[within] + (runs ? 3 : 1), (within != ALONE) + (runs != 0) + (l->text ? 2 : 1)),
                     {before, NULL, NULL, count, NULL, NULL}};
    t.c.outside = t.m.bytes + lay_outside(&t.m, l);
    if (runs) {
        uint32_t before_values = sliced(l, BEFORE_VALUES);
        t.c.ends = t.m.bytes + lay_ends(&t.m, l, of, all, count);
        lay_values(&t, l->text, before_values, count, NULL);
        t.c.values += (l->text ? 4 : 8) * before_values;
    } else {
        lay_values(&t, l->text, before, l->shape.rows, of);
    }
    free(of);
    return t;
}

/* Number i of those of four bytes from a place on. The machine is little-endian, as the image is. */
static inline uint32_t get_u32(const uint8_t *from, uint32_t i)
{
    uint32_t x;
    memcpy(&x, from + 4 * (size_t)i, 4);
    return x;
}

static inline uint8_t *put_u32(uint8_t *to, uint32_t x)
{
    memcpy(to, &x, 4);
    return to + 4;
}

ALWAYS_INLINE uint8_t *put_value(uint8_t *to, struct column c, int text, uint32_t i)
{
    *to++ = 1;
    if (!text) {
        memcpy(to, c.values + 8 * (size_t)i, 8);
        return to + 8;
    }
    uint32_t from = get_u32(c.values, i), size = get_u32(c.values, i + 1) - from;
    to = put_u32(to, size);
    memcpy(to, c.texts + from, size);
    return to + size;
}

/* A row of the column. The run is that of a row before it, and moves on to its own. */
ALWAYS_INLINE uint8_t *put_row(uint8_t *to, struct column c, int text, int runs, uint32_t *run, uint32_t row)
{
    uint32_t j = c.first + row;
    if (!runs)
        return put_value(to, c, text, j);
    while (get_u32(c.ends, *run) <= j)
        ++*run;
    *to++ = 1;
    return put_value(to, c, text, *run);
}

/* The first run whose end is above an element. */
static uint32_t run_at(struct column c, uint32_t j)
{
    uint32_t low = 0, high = c.runs;
    while (low < high) {
        uint32_t middle = low + (high - low) / 2;
        if (get_u32(c.ends, middle) <= j)
            low = middle + 1;
        else
            high = middle;
    }
    return low;
}

/* The loop over a line's rows. Returns the end of the output. */
ALWAYS_INLINE uint8_t *put_rows(uint8_t *to, struct column c, const struct line *l, enum within within, int text, int runs)
{
    uint32_t end = l->start + l->count, run = runs ? run_at(c, c.first + l->start * (within == IN_LISTS ? LIST : 1)) : 0;
    for (uint32_t i = l->start; i < end; i++) {
        uint32_t first = i, behind = i + 1;
        if (within == IN_STRUCT) {
            *to++ = 1;
            *to++ = 1;
            to = put_u32(to, get_u32(c.outside, i));
        } else if (within == IN_LISTS) {
            first = get_u32(c.outside, i);
            behind = get_u32(c.outside, i + 1);
            *to++ = 1;
            to = put_u32(to, behind - first);
        }
        for (uint32_t row = first; row < behind; row++)
            to = put_row(to, c, text, runs, &run, row);
    }
    return to;
}

/* Each kind of values, of column and of what it stands in has a loop of its own. */
ALWAYS_INLINE uint8_t *put_rows_within(uint8_t *to, struct column c, const struct line *l, int text, int runs)
{
    switch (l->shape.within) {
    case IN_STRUCT: return put_rows(to, c, l, IN_STRUCT, text, runs);
    case IN_LISTS: return put_rows(to, c, l, IN_LISTS, text, runs);
    default: return put_rows(to, c, l, ALONE, text, runs);
    }
}

static size_t loop(uint8_t *out, struct column c, const struct line *l)
{
    int runs = c.ends != NULL;
    uint8_t *end = l->text ? runs ? put_rows_within(out, c, l, 1, 1) : put_rows_within(out, c, l, 1, 0)
                   : runs  ? put_rows_within(out, c, l, 0, 1)
                           : put_rows_within(out, c, l, 0, 0);
    return (size_t)(end - out);
}

static void print_line(const struct line *l)
{
    static const char *const within[] = {"alone", "in a Struct, with an Int32", "in lists of 4"};
    printf("| %s | %s | %u | ", l->text ? "Utf8" : "Int64", within[l->shape.within], l->shape.rows);
    if (l->shape.run == MIXED)
        printf("1 to 19, all sliced | ");
    else
        printf("%u | ", l->shape.run);
    if (l->shape.range)
        printf("%u from the middle |", l->shape.range);
    else
        printf("all |");
}

static void fail(const struct line *l, const char *what, uint64_t got)
{
    print_line(l);
    printf(" %s: %llx\n", what, (unsigned long long)got);
    exit(1);
}

/* Ends where the call is refused, or the loop puts out other bytes. Returns how many there are. */
static size_t hold_loop(const struct line *l, const struct laid *t, uint8_t *out, uint8_t *by_loop)
{
    uint64_t answer = editions_write(t->m.bytes, t->m.length, l->start, l->count, out, ROOM);
    if (editions_refusal(answer))
        fail(l, "refused", answer);
    size_t size = loop(by_loop, t->c, l);
    if (size != editions_value(answer) || memcmp(out, by_loop, size) != 0)
        fail(l, "the loop puts out other bytes, or so many", size);
    return size;
}

/* Ends where the output of the runs is not that of the plain column with a 01 more in front of each value. */
static void hold_ones(const struct line *l, const uint8_t *plain, size_t plain_size, const uint8_t *runs, size_t runs_size)
{
    uint32_t count = values_written(l);
    size_t at = 0;
    if (runs_size != plain_size + count)
        fail(l, "bytes of the runs", runs_size);
    for (uint32_t i = 0; i < count; i++) {
        size_t outside = l->shape.within == IN_STRUCT ? 6 : l->shape.within == IN_LISTS && i % LIST == 0 ? 5 : 0;
        size_t value = at + outside, size = l->text ? 5 + (size_t)get_u32(plain + value + 1, 0) : 9;
        if (memcmp(plain + at, runs + i + at, outside) != 0 || runs[i + value] != 1 ||
            memcmp(plain + value, runs + i + 1 + value, size) != 0)
            fail(l, "other bytes for the runs in value", i);
        at = value + size;
    }
    if (at != plain_size)
        fail(l, "bytes of the plain column", plain_size);
}

/* what the calls answer, so that none is left out */
static volatile uint64_t answers;

static void read_all(const uint8_t *bytes, size_t length)
{
    uint64_t sum = 0;
    for (size_t i = 0; i < length; i += 64)
        sum += bytes[i];
    answers += sum;
}

/* What is timed, of the plain column and of the runs. */
enum { CALL, CHECK, LOOP, TIMED };

static double time_one(int what, const struct line *l, const struct laid *t, uint8_t *out, size_t size)
{
    read_all(t->m.bytes, t->m.length);
    read_all(out, size);
    double t0 = now();
    answers += what == CALL    ? editions_write(t->m.bytes, t->m.length, l->start, l->count, out, ROOM)
               : what == CHECK ? editions_check(t->m.bytes, t->m.length)
                               : loop(out, t->c, l);
    return now() - t0;
}

/* The call less the check, or 0 where that is left out. */
static double less(double call, double check) { return call < 2 * check ? 0 : call - check; }

static void print_figure(const char *form, double x, int there)
{
    if (there)
        printf(form, x);
    else
        printf(" - |");
}

static void print_figures(const struct line *l, double figures[2][TIMED])
{
    double *p = figures[0], *r = figures[1], plain = less(p[CALL], p[CHECK]), runs = less(r[CALL], r[CHECK]);
    uint32_t values = values_written(l);
    print_line(l);
    printf(" %.1f | %.1f | %.2f |", p[CALL] / 1000, r[CALL] / 1000, r[CALL] / p[CALL]);
    printf(" %.1f | %.1f |", p[CHECK] / 1000, r[CHECK] / 1000);
    print_figure(" %.1f |", plain / 1000, plain > 0);
    print_figure(" %.1f |", runs / 1000, runs > 0);
    print_figure(" %.2f |", runs / plain, plain > 0 && runs > 0);
    printf(" %.1f | %.1f |", p[LOOP] / 1000, r[LOOP] / 1000);
    print_figure(" %.2f |", plain / p[LOOP], plain > 0);
    print_figure(" %.2f |", runs / r[LOOP], runs > 0);
    printf(" %.1f | %.1f |\n", p[CALL] / values, r[CALL] / values);
}

static void measure_write(const struct line *l, uint8_t *outs[3])
{
    double times[2][TIMED][TIMES], figures[2][TIMED];
    struct laid laid[] = {lay(l, 0), lay(l, 1)};
    size_t sizes[2];
    for (int runs = 0; runs < 2; runs++)
        sizes[runs] = hold_loop(l, &laid[runs], outs[runs], outs[2]);
    hold_ones(l, outs[0], sizes[0], outs[1], sizes[1]);
    for (int i = 0; i < TIMES; i++)
        for (int what = 0; what < TIMED; what++)
            for (int runs = 0; runs < 2; runs++)
                times[runs][what][i] = time_one(what, l, &laid[runs], outs[2], sizes[runs]);
    for (int what = 0; what < TIMED; what++)
        for (int runs = 0; runs < 2; runs++)
            figures[runs][what] = median(times[runs][what]);
    print_figures(l, figures);
    free(laid[0].m.bytes);
    free(laid[1].m.bytes);
}

void write_table(void)
{
    uint8_t *outs[3];
    for (int i = 0; i < 3; i++) {
        outs[i] = malloc(ROOM);
        if (outs[i] == NULL)
            abort();
        memset(outs[i], 0xff, ROOM);
    }
    printf("| values | the column | its rows | rows of a run | written | plain, us | runs, us | runs to plain | check of plain, us | check of runs, us | plain less check, us | runs less check, us | runs to plain, less check | loop in C, plain, us | loop in C, runs, us | plain less check, to the loop | runs less check, to the loop | plain, ns a value | runs, ns a value |\n");
    printf("|---|---|---|---|---|---|---|---|---|---|---|---|---|---|---|---|---|---|---|\n");
    for (int text = 0; text < 2; text++)
        for (int i = 0; i < SHAPE_COUNT; i++) {
            struct line l = line_of(SHAPES[i], text);
            measure_write(&l, outs);
        }
    for (int i = 0; i < 3; i++)
        free(outs[i]);
}
