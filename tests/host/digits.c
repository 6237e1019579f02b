/* Decimals of both widths, compared once digits are dropped: numbers at the halves, beside them and at the ends of the widths,
 * each against each; drawn numbers; columns longer than the blocks of rows that the library looks at together, whose rows all
 * agree, or all but one, at each place; images of the largest size; and the refusals.
 *
 * What is wanted rests on `kept` alone, which multiplies and compares in 128 bits, and divides by nothing but 2. */
#define _DEFAULT_SOURCE
#include "../../host/editions.h"
#include "../../host/editions_calls.h"
#include "../image.h"
#include "drawn.h"
#include "expect.h"
#include "memory.h"

__extension__ typedef __int128 wide;

/* The type codes; the precision, which does not count: most numbers here have more digits; how many of them may be dropped. */
enum { DECIMAL32 = 15, DECIMAL64 = 16, PRECISION = 1, MOST_DIGITS = 9 };

static const wide powers[MOST_DIGITS + 1] = {1, 10, 100, 1000, 10000, 100000, 1000000, 10000000, 100000000, 1000000000};

/* What is kept of a number: the greatest q for which 2pq is not above 2|number| + p, with the number's sign. At a half the two
 * are the same, so that it goes away from zero. */
static int64_t kept(int64_t number, uint32_t digits)
{
    wide power = powers[digits], most = 2 * (number < 0 ? -(wide)number : (wide)number) + power, q = 0;
    for (wide step = (wide)1 << 63; step > 0; step /= 2)
        if (2 * power * (q + step) <= most)
            q += step;
    return (int64_t)(number < 0 ? -q : q);
}

/* Document 02's numbers, and what it keeps of them. */
static void document(void)
{
    static const struct {
        int64_t number;
        uint32_t digits;
        int64_t kept;
    } told[] = {{25, 1, 3}, {-25, 1, -3}, {4, 1, 0}, {-4, 1, 0}, {INT32_MIN, 9, -2}, {INT32_MAX, 1, 214748365}};
    for (unsigned k = 0; k < sizeof told / sizeof told[0]; k++)
        must("what is kept of number", k, kept(told[k].number, told[k].digits) == told[k].kept);
}

static uint32_t width_of(int code) { return code == DECIMAL64 ? 8 : 4; }
static int64_t least_of(int code) { return code == DECIMAL64 ? INT64_MIN : INT32_MIN; }
static int64_t most_of(int code) { return code == DECIMAL64 ? INT64_MAX : INT32_MAX; }
static int fits(int code, wide number) { return least_of(code) <= number && number <= most_of(code); }

/* How a column is laid out: its offset; the rows before those that are asked about; whether there is a bitmap, its first bit,
 * and whether it or the numbers are the last bytes of the image. */
struct layout {
    uint32_t offset, before;
    int masked;
    uint32_t first_bit;
    int bitmap_last;
};

static const struct layout plain = {0, 0, 0, 0, 0};

/* A column, in an image that ends where memory may not be read: where the number and the bit of the first row stand that is
 * asked about, the bit counted from the image's first one. */
struct column {
    uint8_t *image;
    size_t length;
    uint32_t width, start, number, bit;
    int masked;
};

/* Memory for two images. */
static struct lent memory[2];

/* A column of so many rows behind those before them. What is not set later is drawn: all numbers, all bits. */
static struct column column_of(struct lent lent, int code, uint32_t rows, const struct layout *l)
{
    uint32_t all = l->before + rows, width = width_of(code), data = (l->offset + all) * width;
    size_t length = IMAGE_TABLES(1, 1) + data + (l->masked ? (l->first_bit + all + 7) / 8 : 0);
    struct column c = {lent_bytes(lent, length, 1), length, width, l->before, 0, 0, l->masked};
    for (size_t k = 0; k < length; k++)
        c.image[k] = (uint8_t)drawn_word();
    struct image m = image_in(c.image, length, 1, 1);
    uint32_t record = image_node(&m, code, PRECISION, all, 0, 1), bitmap = 0;
    image_put(&m, record + RECORD_OFFSET, l->offset, 4);
    if (l->masked && !l->bitmap_last)
        bitmap = image_bitmap(&m, record, all, l->first_bit);
    c.number = image_buffer(&m, data) + (l->offset + l->before) * width;
    if (l->masked && l->bitmap_last)
        bitmap = image_bitmap(&m, record, all, l->first_bit);
    c.bit = 8 * bitmap + l->first_bit + l->before;
    return c;
}

static void put_number(const struct column *c, uint32_t k, int64_t number)
{
    for (uint32_t i = 0; i < c->width; i++)
        c->image[c->number + k * c->width + i] = (uint8_t)((uint64_t)number >> 8 * i);
}

/* Where there is no bitmap, no row is null. */
static void put_null(const struct column *c, uint32_t k, int null)
{
    uint8_t *byte = c->image + (c->bit + k) / 8, bit = (uint8_t)(1u << (c->bit + k) % 8);
    if (c->masked)
        *byte = null ? *byte & (uint8_t)~bit : *byte | bit;
}

/* Row i of one column and row j of the other, and those behind them. */
static uint64_t compared(const struct column *l, const struct column *r, uint32_t i, uint32_t j, uint32_t count,
                         uint32_t digits)
{
    return editions_compare_digits(l->image, l->length, r->image, r->length, l->start + i, r->start + j, count, digits);
}

static void expect_agree(const char *what, unsigned long which, const struct column *l, const struct column *r, uint32_t i,
                         uint32_t j, uint32_t count, uint32_t digits, int agree)
{
    expect(what, which, compared(l, r, i, j, count, digits), answer_of(0, 0, 0, agree != 0));
}

/* Numbers, each once. */
enum { LIST_MOST = 2000 };

struct list {
    int code;
    uint32_t count;
    int64_t numbers[LIST_MOST];
};

/* A number and its negative, where they fit and are not there yet. */
static void add(struct list *list, wide number)
{
    for (int turn = 0; turn < 2; turn++, number = -number) {
        uint32_t k = 0;
        while (k < list->count && list->numbers[k] != number)
            k++;
        if (k < list->count || !fits(list->code, number))
            continue;
        if (k == LIST_MOST)
            abort();
        list->numbers[list->count++] = (int64_t)number;
    }
}

static void add_beside(struct list *list, wide number)
{
    for (int step = -1; step <= 1; step++)
        add(list, number + step);
}

/* For all digits the halves, the whole numbers and those beside them, from 0 on, at the ends of the width and at a drawn place;
 * the ends; and numbers whose lower four bytes are the same. */
static void fill(struct list *list)
{
    const wide most = (wide)most_of(list->code) + 1, high = (wide)1 << 32;
    for (uint32_t digits = 0; digits <= MOST_DIGITS; digits++) {
        wide power = powers[digits], last = most / power;
        const wide times[] = {0, 1, 2, last - 1, last, (wide)drawn_word() % last};
        for (unsigned k = 0; k < sizeof times / sizeof times[0]; k++) {
            add_beside(list, times[k] * power);
            add_beside(list, times[k] * power + power / 2);
        }
    }
    for (int step = 0; step < 4; step++) {
        add(list, most - step);
        add(list, high + 5 * step);
        add(list, 2 * high + 5 * step);
        add(list, high / 2 + 5 * step);
    }
}

/* Behind the numbers stand nulls, over what was drawn. Each row against each, one at a time, at all digits. */
static void each_against_each(int code)
{
    enum { NULLS = 4 };
    static const struct layout left_layout = {0, 0, 1, 0, 0}, right_layout = {3, 5, 1, 6, 1};
    static struct list list;
    static int64_t wanted[LIST_MOST];
    list.code = code;
    list.count = 0;
    fill(&list);
    uint32_t rows = list.count + NULLS;
    struct column left = column_of(memory[0], code, rows, &left_layout);
    struct column right = column_of(memory[1], code, rows, &right_layout);
    for (uint32_t k = 0; k < rows; k++) {
        put_null(&left, k, k >= list.count);
        put_null(&right, k, k >= list.count);
        if (k < list.count) {
            put_number(&left, k, list.numbers[k]);
            put_number(&right, k, list.numbers[k]);
        }
    }
    for (uint32_t digits = 0; digits <= MOST_DIGITS; digits++) {
        for (uint32_t k = 0; k < list.count; k++)
            wanted[k] = kept(list.numbers[k], digits);
        for (uint32_t i = 0; i < rows; i++)
            for (uint32_t j = 0; j < rows; j++)
                expect_agree("the pair", (digits * 10000ul + i) * 10000 + j, &left, &right, i, j, 1, digits,
                             i < list.count && j < list.count ? wanted[i] == wanted[j] : (i < list.count) == (j < list.count));
    }
}

/* A number of any size, with either sign. */
static int64_t drawn_number(int code)
{
    uint32_t bits = 8 * width_of(code) - 1;
    int64_t size = (int64_t)(drawn_word() >> (64 - bits) >> drawn(bits));
    return drawn(2) ? size : -size;
}

/* Drawn numbers, each beside one that is at most the power away from it, one pair at a time. */
static void drawn_pairs(int code, uint32_t digits)
{
    enum { PAIRS = 20000 };
    struct column left = column_of(memory[0], code, PAIRS, &plain), right = column_of(memory[1], code, PAIRS, &plain);
    for (uint32_t k = 0; k < PAIRS; k++) {
        int64_t number = drawn_number(code), other = number;
        wide next = number + (wide)(drawn_word() % (uint64_t)(2 * powers[digits])) - powers[digits];
        if (fits(code, next))
            other = (int64_t)next;
        put_number(&left, k, number);
        put_number(&right, k, other);
        expect_agree("drawn pair", digits * 100000ul + k, &left, &right, k, k, 1, digits,
                     kept(number, digits) == kept(other, digits));
    }
}

/* A row of both columns: the left number, the last one from it in some direction that agrees with it, and the one behind that,
 * which does not. */
struct row {
    int64_t number, near, far;
};

/* The last number in a direction that is kept as this one is. */
static int64_t last_alike(int code, int64_t number, uint32_t digits, int direction)
{
    wide at = number;
    for (wide step = 1 << 30; step > 0; step /= 2) {
        wide next = at + direction * step;
        if (fits(code, next) && kept((int64_t)next, digits) == kept(number, digits))
            at = next;
    }
    return (int64_t)at;
}

static struct row drawn_row(int code, uint32_t digits)
{
    int direction = drawn(2) ? 1 : -1;
    struct row row = {drawn_number(code), 0, 0};
    row.near = last_alike(code, row.number, digits, direction);
    if (!fits(code, (wide)row.near + direction)) {
        direction = -direction;
        row.near = last_alike(code, row.number, digits, direction);
    }
    row.far = row.near + direction;
    return row;
}

/* Rows of each width for each number of digits, more than the library looks at together. */
enum { ROWS = 1100, MANY_ROWS = 2100 };

static struct row drawn_rows[2][MOST_DIGITS + 1][MANY_ROWS];

static void draw_rows(void)
{
    for (uint32_t digits = 0; digits <= MOST_DIGITS; digits++)
        for (uint32_t k = 0; k < MANY_ROWS; k++)
            for (int code = DECIMAL32; code <= DECIMAL64; code++)
                drawn_rows[code - DECIMAL32][digits][k] = drawn_row(code, digits);
}

/* Where both columns have bitmaps: some of 64 rows are null, the same of the next 64, then all of 64, then none. */
static int is_null(uint32_t k) { return k / 64 % 4 == 2 || (k / 64 % 4 < 2 && k % 10 == 3); }

/* Two columns whose rows agree. The right one has the left one's numbers, or `apart` the last ones that agree with them. */
struct two {
    struct column left, right;
    const struct row *drawn;
    uint32_t rows, digits;
    int apart, nulls;
};

static struct two two_of(int code, uint32_t digits, const struct layout *left, const struct layout *right, uint32_t rows,
                         int apart)
{
    struct two t = {column_of(memory[0], code, rows, left), column_of(memory[1], code, rows, right),
                    drawn_rows[code - DECIMAL32][digits], rows, digits, apart, left->masked && right->masked};
    for (uint32_t k = 0; k < rows; k++) {
        int null = t.nulls && is_null(k);
        put_null(&t.left, k, null);
        put_null(&t.right, k, null);
        if (null)
            continue;
        put_number(&t.left, k, t.drawn[k].number);
        put_number(&t.right, k, apart ? t.drawn[k].near : t.drawn[k].number);
    }
    return t;
}

/* The rows from `start` on. */
static void expect_rows(const char *what, unsigned long which, const struct two *t, uint32_t start, uint32_t count, int agree)
{
    expect_agree(what, which, &t->left, &t->right, start, start, count, t->digits, agree);
}

/* Row k alone does not agree, and what is before and behind it does. */
static void one_unlike(const struct two *t, uint32_t k)
{
    expect_rows("the range with row", k, t, 0, t->rows, 0);
    if (k % 4 == 0) {
        expect_rows("the range before row", k, t, 0, k, 1);
        expect_rows("the range up to row", k, t, 0, k + 1, 0);
        expect_rows("the range from row", k, t, k, t->rows - k, 0);
        expect_rows("the range behind row", k, t, k + 1, t->rows - k - 1, 1);
    }
}

/* At each place a number that does not agree, one that does where the others are the same, and a null beside a number. Under a
 * null any number will do. */
static void each_place(const struct two *t)
{
    const struct column *masked = t->right.masked ? &t->right : &t->left;
    expect_rows("all rows", t->rows, t, 0, t->rows, 1);
    for (uint32_t k = 0; k < t->rows; k++) {
        int null = t->nulls && is_null(k);
        const struct row *row = &t->drawn[k];
        put_number(&t->right, k, row->far);
        if (null)
            expect_rows("under a null", k, t, 0, t->rows, 1);
        else
            one_unlike(t, k);
        put_number(&t->right, k, row->near);
        if (!t->apart) {
            expect_rows("all the same but row", k, t, 0, t->rows, 1);
            put_number(&t->right, k, row->number);
        }
        if (masked->masked) {
            put_null(masked, k, !null);
            one_unlike(t, k);
            put_null(masked, k, null);
        }
    }
}

/* Every pair of layouts, both widths, and both kinds of agreement, with as many digits dropped as the pair's turn has. */
static void places(void)
{
    static const struct layout layouts[] = {{0, 0, 0, 0, 0}, {1, 0, 0, 0, 0}, {6, 3, 0, 0, 0}, {9, 64, 0, 0, 0},
                                            {0, 0, 1, 0, 1}, {1, 0, 1, 1, 0}, {6, 3, 1, 6, 1}, {9, 5, 1, 13, 0}};
    enum { LAYOUTS = sizeof layouts / sizeof layouts[0] };
    for (unsigned k = 0; k < 4 * LAYOUTS * LAYOUTS; k++) {
        unsigned left = k / 4 / LAYOUTS, right = k / 4 % LAYOUTS;
        struct two t = two_of(k % 2 ? DECIMAL32 : DECIMAL64, k / 4 % (MOST_DIGITS + 1), &layouts[left], &layouts[right],
                              left == right ? MANY_ROWS : ROWS, k / 2 % 2);
        each_place(&t);
    }
}

/* Images of the most bytes, which numbers fill to the last one. */
static void largest(int code)
{
    uint32_t rows = (IMAGE_LONGEST - IMAGE_TABLES(1, 1)) / width_of(code), last = rows - 1;
    struct column left = column_of(memory[0], code, rows, &plain), right = column_of(memory[1], code, rows, &plain);
    for (uint32_t digits = 1; digits <= MOST_DIGITS; digits += 4) {
        const struct row *chosen = drawn_rows[code - DECIMAL32][digits];
        for (uint32_t k = 0; k < rows; k++) {
            put_number(&left, k, chosen[k % MANY_ROWS].number);
            put_number(&right, k, chosen[k % MANY_ROWS].near);
        }
        expect_agree("the longest images", digits, &left, &right, 0, 0, rows, digits, 1);
        put_number(&right, last, chosen[last % MANY_ROWS].far);
        expect_agree("the last row of the longest images", digits, &left, &right, 0, 0, rows, digits, 0);
        expect_agree("the last row of the longest images", digits, &left, &right, last, last, 1, digits, 0);
        expect_agree("the rows before the last one", digits, &left, &right, 0, 0, last, digits, 1);
    }
}

/* Each refusal comes before those behind it; `digits` is any number of four bytes. */
static void refusals(void)
{
    static const uint32_t too_many[] = {10, 11, 256, 265, 65536, UINT32_MAX - 1, UINT32_MAX};
    const uint64_t no_left = answer_of(EDITIONS_SIZE, EDITIONS_LEFT, 0, 0);
    const uint64_t no_right = answer_of(EDITIONS_SIZE, EDITIONS_RIGHT, 0, 0);
    const uint64_t left_rows = answer_of(EDITIONS_RANGE, EDITIONS_LEFT, 0, 0);
    const uint64_t right_rows = answer_of(EDITIONS_RANGE, EDITIONS_RIGHT, 0, 0);
    const struct column none = {0}, small = column_of(memory[0], DECIMAL32, 3, &plain);
    const struct column large = column_of(memory[1], DECIMAL64, 3, &plain);
    for (unsigned k = 0; k < sizeof too_many / sizeof too_many[0]; k++) {
        uint32_t digits = too_many[k];
        expect("no images", k, compared(&none, &none, 0, 0, 0, digits), no_left);
        expect("no right image", k, compared(&small, &none, 4, 0, 0, digits), no_right);
        expect("two widths, too many digits and rows", k, compared(&small, &large, 4, 0, 0, digits), EDITIONS_TYPES);
        expect("too many digits", k, compared(&large, &large, 0, 0, 3, digits), EDITIONS_DIGITS);
        expect("too many digits, no rows", k, compared(&small, &small, 0, 0, 0, digits), EDITIONS_DIGITS);
        expect("too many digits and rows", k, compared(&small, &small, 0, 4, 4, digits), EDITIONS_DIGITS);
    }
    for (uint32_t digits = 0; digits <= MOST_DIGITS; digits++) {
        expect("two widths", digits, compared(&large, &small, 0, 0, 0, digits), EDITIONS_TYPES);
        expect("too many rows on both sides", digits, compared(&small, &small, 1, 1, 3, digits), left_rows);
        expect("too many rows on the right", digits, compared(&large, &large, 0, UINT32_MAX, 1, digits), right_rows);
        expect("no rows behind the last one", digits, compared(&large, &large, 3, 3, 0, digits), answer_of(0, 0, 0, 1));
    }
}

int main(int argc, char **argv)
{
    if (argc != 2) {
        fprintf(stderr, "usage: digits SEED\n");
        return 2;
    }
    state = strtoull(argv[1], NULL, 10);
    for (int k = 0; k < 2; k++)
        memory[k] = lent_pages(IMAGE_LONGEST);
    draw_rows();
    document();
    refusals();
    places();
    for (int code = DECIMAL32; code <= DECIMAL64; code++) {
        each_against_each(code);
        for (uint32_t digits = 0; digits <= MOST_DIGITS; digits++)
            drawn_pairs(code, digits);
        largest(code);
    }
    return tally("digits");
}
