/* What the tables of the benchmark share: how a column is laid out, and how calls are timed. */
#ifndef BENCH_BENCH_H
#define BENCH_BENCH_H

#include "../tests/image.h"

#include <stdlib.h>
#include <time.h>

enum { ROWS = 1000000, TIMES = 31 };

/* no row */
#define NONE UINT32_MAX

/* what a comparison that says yes answers */
#define YES ((uint64_t)1 << 8)

#define ALWAYS_INLINE static inline __attribute__((always_inline))

/* How one side is laid out: elements before the first row; whether every tenth row is null; whether it is laid out
 * otherwise where the layout leaves a choice (bytes under nulls, order of keys and of what is stored, cuts of runs); whether
 * it has a bitmap, as where rows are null; a row that has another value, or none; a row that the bitmap has null where it would
 * not be, or the other way round, or none. */
struct side {
    uint32_t before;
    int nulls, other, bitmap;
    uint32_t changed, turned;
};

static const struct side PLAIN = {0, 0, 0, 0, NONE, NONE};

/* A side without nulls, or with every tenth row null; the other one is sliced by 3. */
static inline struct side side(int nulls, int other)
{
    struct side x = {other ? 3 : 0, nulls, other, nulls, NONE, NONE};
    return x;
}

static inline uint64_t mix(uint64_t i) { return (i + 1) * 0x9e3779b97f4a7c15u; }

/* Numbers whose low bits, too, do not come round. */
static inline uint64_t scatter(uint64_t i)
{
    uint64_t v = mix(i);
    return mix(v ^ v >> 32) >> 16;
}

/* What stands where no row of the side is read: other bytes on the other side. */
static inline uint64_t unread(struct side x, uint32_t i) { return x.other ? ~mix(i) : mix(i); }

static inline int is_null(struct side x, uint32_t i) { return x.nulls && i % 10 == 9; }

static inline struct image begin(uint32_t nodes, uint32_t buffers) { return image_begin(nodes, buffers, IMAGE_LONGEST); }

static inline void nulls(struct image *m, uint32_t record, struct side x, uint32_t rows)
{
    if (!x.bitmap)
        return;
    uint32_t first = x.other ? 5 : 0, at = image_bitmap(m, record, rows, first);
    for (uint32_t i = 0; i < rows; i++)
        if (is_null(x, i) == (i == x.turned))
            image_set(m, at, first + i);
}

static inline int by_value(const void *a, const void *b)
{
    double x = *(const double *)a, y = *(const double *)b;
    return (x > y) - (x < y);
}

static inline double now(void)
{
    struct timespec t;
    clock_gettime(CLOCK_MONOTONIC, &t);
    return 1e9 * (double)t.tv_sec + (double)t.tv_nsec;
}

static inline double median(double *times)
{
    qsort(times, TIMES, sizeof *times, by_value);
    return times[TIMES / 2];
}

/* The third table: what the check of text takes. */
void text_table(void);

/* The fourth table: what writing rows of runs takes. */
void write_table(void);

/* The fifth table: what comparing numbers at fewer digits takes. */
void digits_table(void);

/* The sixth table: what asking for the names of Maps takes. */
void names_table(void);

/* The seventh table: what building a table of written rows takes. */
void build_table(void);

#endif
