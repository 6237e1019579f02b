/* The fifth table: what comparing numbers at fewer digits takes, beside comparing them as they are, and beside a loop in C.
 *
 * Each line has two images of a million Decimal32 or Decimal64 of both signs, of at most 9 and 15 digits, which agree once the
 * last digits are dropped. `editions_compare_digits`, which checks both images first, is timed over all rows. Where the two
 * sides have equal numbers it stands beside `editions_compare_range`, which checks both images too. Where all numbers differ,
 * or one in a hundred, it stands beside a plain loop in C over the same numbers and null bits, which divides both numbers where
 * they differ, and checks nothing. Each figure is the median of 31 calls, the two taken in turn.
 *
 * Before anything is timed, both are held to say yes, and, where numbers differ, to say no with one digit fewer dropped. */
#include "../host/editions_calls.h"
#include "bench.h"

#include <stdio.h>
#include <string.h>

/* A type of numbers: its code, its precision, the bytes of a number, and how many digits the numbers have at most. */
static const struct type {
    const char *name;
    int code;
    uint32_t precision, width, digits;
} TYPES[] = {{"Decimal32", 15, 9, 4, 9}, {"Decimal64", 16, 18, 8, 15}};

/* How the numbers of the two sides meet: one in so many differs, as it falls, or none; and how many digits are dropped. */
static const struct meeting {
    const char *name;
    uint32_t one_in, digits;
} MEETINGS[] = {
    {"equal", 0, 2},
    {"all differ", 1, 2},
    {"all differ", 1, 6},
    {"one in 100 differs", 100, 2},
};

enum { TYPE_COUNT = sizeof TYPES / sizeof TYPES[0], MEETING_COUNT = sizeof MEETINGS / sizeof MEETINGS[0] };

/* One line of the table: whether every tenth row is null, and whether the right side is laid out otherwise. */
struct line {
    const struct type *type;
    const struct meeting *meeting;
    int nulls, other;
};

/* Where the loop in C finds a side: the number of row 0; the null bits and the bit of row 0, which are not read where no row
 * is null. */
struct column {
    const uint8_t *numbers, *bits;
    uint32_t first_bit;
};

struct pair {
    struct image left, right;
    struct column left_column, right_column;
};

static uint64_t ten_to(uint32_t digits)
{
    uint64_t x = 1;
    while (digits-- > 0)
        x *= 10;
    return x;
}

/* What is drawn for a row: the digits of its number, the number without its sign, the sign, whether the right side has another
 * number, and which. */
enum draw { DRAW_DIGITS, DRAW_SIZE, DRAW_SIGN, DRAW_OTHER, DRAW_STEP, DRAWS };

static uint64_t draw(uint32_t row, enum draw what) { return scatter((uint64_t)DRAWS * row + what); }

/* The number of a row without its sign: of at most 1 digit, of at most 2, and so on, as often each. It is below 9, 90 and so
 * on, so that the other numbers that are kept as the same one have no more digits than the type's. */
static uint64_t size_of(const struct type *t, uint32_t row)
{
    uint32_t digits = 1 + (uint32_t)(draw(row, DRAW_DIGITS) % t->digits);
    return draw(row, DRAW_SIZE) % (9 * ten_to(digits - 1));
}

/* Another size that is kept as the same number: a step away among those that are, and from the last on to the first. */
static uint64_t other_size(uint64_t size, uint32_t digits, uint64_t step)
{
    uint64_t power = ten_to(digits), kept = (size + power / 2) / power;
    uint64_t least = kept ? kept * power - power / 2 : 0, count = kept ? power : power / 2;
    return least + (size - least + 1 + step % (count - 1)) % count;
}

static int64_t number(const struct line *l, uint32_t row, int right)
{
    const struct meeting *t = l->meeting;
    uint64_t size = size_of(l->type, row);
    if (right && t->one_in && draw(row, DRAW_OTHER) % t->one_in == 0)
        size = other_size(size, t->digits, draw(row, DRAW_STEP));
    return draw(row, DRAW_SIGN) % 2 ? -(int64_t)size : (int64_t)size;
}

static struct image lay(const struct line *l, int right)
{
    struct side x = side(l->nulls, right && l->other);
    struct image m = begin(1, 1);
    uint32_t width = l->type->width, all = x.before + ROWS, r = image_node(&m, l->type->code, l->type->precision, ROWS, 0, 1);
    uint32_t at = image_buffer(&m, width * all);
    image_put(&m, r + RECORD_OFFSET, x.before, 4);
    for (uint32_t i = 0; i < all; i++) {
        uint32_t row = i - x.before;
        uint64_t v = i < x.before || is_null(x, row) ? unread(x, i) : (uint64_t)number(l, row, right);
        image_put(&m, at + width * i, v, (int)width);
    }
    nulls(&m, r, x, ROWS);
    return m;
}

static struct column column_of(struct image m, uint32_t width)
{
    uint32_t r = image_record(0), numbers = IMAGE_TABLES(1, 0) + ENTRY_PLACE;
    struct column c = {m.bytes + image_get(m.bytes, numbers, 4) + width * image_get(m.bytes, r + RECORD_OFFSET, 4),
                       m.bytes + image_get(m.bytes, r + RECORD_BITMAP, 4),
                       (uint32_t)image_get(m.bytes, r + RECORD_FIRST_BIT, 4)};
    return c;
}

static struct pair lay_pair(const struct line *l)
{
    struct image a = lay(l, 0), b = lay(l, 1);
    struct pair p = {a, b, column_of(a, l->type->width), column_of(b, l->type->width)};
    return p;
}

/* The number of a row, of eight bytes or of four. The machine is little-endian, as the image is. */
ALWAYS_INLINE int64_t number_at(struct column c, int wide, uint32_t row)
{
    int64_t x;
    int32_t y;
    if (wide) {
        memcpy(&x, c.numbers + 8 * (size_t)row, 8);
        return x;
    }
    memcpy(&y, c.numbers + 4 * (size_t)row, 4);
    return y;
}

static inline int null_at(struct column c, uint32_t row)
{
    uint32_t bit = c.first_bit + row;
    return !(c.bits[bit / 8] >> bit % 8 & 1);
}

/* A number divided by a power of ten, to the nearest, halves away from zero; numbers of four bytes are divided in four. A mask
 * takes the sign off and puts it back: where signs are mixed, a branch would be guessed wrongly for every second number. */
ALWAYS_INLINE int64_t kept(int64_t x, int wide, uint64_t power)
{
    uint64_t mask = 0 - (uint64_t)(x < 0), size = ((uint64_t)x ^ mask) - mask + power / 2;
    uint64_t y = wide ? size / power : (uint32_t)size / (uint32_t)power;
    return (int64_t)((y ^ mask) - mask);
}

/* The loop over all rows: whether they agree. */
ALWAYS_INLINE int agree(struct column a, struct column b, int wide, int nulls, uint64_t power)
{
    for (uint32_t row = 0; row < ROWS; row++) {
        if (nulls) {
            int null = null_at(a, row);
            if (null != null_at(b, row))
                return 0;
            if (null)
                continue;
        }
        int64_t x = number_at(a, wide, row), y = number_at(b, wide, row);
        if (x != y && kept(x, wide, power) != kept(y, wide, power))
            return 0;
    }
    return 1;
}

/* Each width, with nulls and without, has a loop of its own. It answers as the calls do. */
static uint64_t loop(const struct line *l, const struct pair *p, uint32_t digits)
{
    struct column a = p->left_column, b = p->right_column;
    uint64_t power = ten_to(digits);
    int yes = l->type->width == 8 ? l->nulls ? agree(a, b, 1, 1, power) : agree(a, b, 1, 0, power)
              : l->nulls          ? agree(a, b, 0, 1, power)
                                  : agree(a, b, 0, 0, power);
    return yes ? YES : 0;
}

static uint64_t call(const struct pair *p, uint32_t digits)
{
    return editions_compare_digits(p->left.bytes, p->left.length, p->right.bytes, p->right.length, 0, 0, ROWS, digits);
}

/* What stands beside the call: the loop, or the comparison of equal numbers as they are. */
static uint64_t beside(const struct line *l, const struct pair *p, uint32_t digits)
{
    if (l->meeting->one_in)
        return loop(l, p, digits);
    return editions_compare_range(p->left.bytes, p->left.length, p->right.bytes, p->right.length, 0, 0, ROWS);
}

static void print_line(const struct line *l)
{
    const char *otherwise = l->nulls ? "sliced by 3, other bytes under nulls, another first bit" : "sliced by 3";
    printf("| %s%s | %s | %s | %u |", l->type->name, l->nulls ? ", every tenth null" : "", l->other ? otherwise : "alike",
           l->meeting->name, l->meeting->digits);
}

/* Ends where the call, or what stands beside it, has another answer. */
static void hold_answer(const struct line *l, const struct pair *p, uint32_t digits, uint64_t answer)
{
    uint64_t by_call = call(p, digits), by_other = beside(l, p, digits);
    if (by_call == answer && by_other == answer)
        return;
    print_line(l);
    printf(" %u dropped: the call says %llx, what stands beside it %llx\n", digits, (unsigned long long)by_call,
           (unsigned long long)by_other);
    exit(1);
}

/* Ends where the numbers do not agree, or, where some differ, agree with one digit fewer dropped. */
static void hold(const struct line *l, const struct pair *p)
{
    hold_answer(l, p, l->meeting->digits, YES);
    if (l->meeting->one_in)
        hold_answer(l, p, l->meeting->digits - 1, 0);
}

static void measure_digits(const struct line *l)
{
    double calls[TIMES], others[TIMES];
    volatile uint64_t same = 0;
    struct pair p = lay_pair(l);
    hold(l, &p);
    for (int i = 0; i < TIMES; i++) {
        double t0 = now();
        same += call(&p, l->meeting->digits);
        double t1 = now();
        same += beside(l, &p, l->meeting->digits);
        double t2 = now();
        calls[i] = t1 - t0;
        others[i] = t2 - t1;
    }
    double c = median(calls), o = median(others);
    print_line(l);
    printf(" %.0f | %s | %.0f | %.2f |\n", c / 1000, l->meeting->one_in ? "loop in C" : "range compared", o / 1000, c / o);
    free(p.left.bytes);
    free(p.right.bytes);
}

void digits_table(void)
{
    printf("| a million numbers | the two sides | their numbers | digits dropped | at fewer digits, us ");
    printf("| beside it | that, us | to that |\n");
    printf("|---|---|---|---|---|---|---|---|\n");
    for (int meeting = 0; meeting < MEETING_COUNT; meeting++)
        for (int type = 0; type < TYPE_COUNT; type++)
            for (int nulls = 0; nulls < 2; nulls++)
                for (int other = 0; other < 2; other++) {
                    struct line l = {&TYPES[type], &MEETINGS[meeting], nulls, other};
                    measure_digits(&l);
                }
}
