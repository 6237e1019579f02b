/* The third table: what the check of text takes, beside `std::str::from_utf8` of the Rust called for each value.
 *
 * Each line has a column of text in one script and one layout. `editions_check` of it is timed beside `editions_check` of the
 * same bytes with the code of the binary layout (27 for 26, 29 for 28, 32 for 31), which is checked alike but for the text; the
 * difference is what the text costs. The Rust goes over the same memory, and calls from_utf8 for each row that is not null.
 * Each figure is the median of 31 calls, the three taken in turn; before each the image is checked as binary and read from its
 * first byte to its last, which is not timed. Without -DRUST the Rust is left out.
 *
 * Short values are words of 4 to 13 letters, as many as an image has room for, at most a million. What no row reads is
 * ill-formed where the line says so. */
#include "../host/editions.h"
#include "bench.h"

#include <stdio.h>
#include <string.h>

/* Where the Rust finds a column: its rows; the place of row 0's offset or view, and the bytes of one; the place of the entry
 * of the text's buffer or of the first data buffer; the bitmap's place, or 0, and the bit of row 0. */
struct column {
    uint32_t rows, first, width, entry, bitmap, first_bit;
};

#ifdef RUST
extern size_t rust_from_utf8(const uint8_t *image, size_t length, const struct column *column);
#endif

enum { LONG_VALUE = 8000000, VIEW_ROWS = 600000, INLINE = 12 };

/* The letters of a script by their code points: the usual ones; others, of which one letter in `every` is one, or none; what
 * stands between two words. */
struct script {
    const char *name;
    uint32_t first, count, every, other, others, space;
};

static const struct script SCRIPTS[] = {
    {"ASCII", 'a', 26, 0, 0, 0, ' '},
    {"Latin, one letter in 8 accented", 'a', 26, 8, 0xe0, 0x9f, ' '},
    {"Cyrillic", 0x430, 32, 0, 0, 0, ' '},
    {"CJK", 0x4e00, 20000, 0, 0, 0, 0x3000},
    {"letters of four bytes", 0x20000, 40000, 0, 0, 0, ' '},
    {"Latin, one letter in 1,000 accented", 'a', 26, 1000, 0xe0, 0x9f, ' '},
};

enum { SCRIPT_COUNT = sizeof SCRIPTS / sizeof SCRIPTS[0] };

static uint32_t letter(const struct script *s, uint64_t seed)
{
    uint64_t v = scatter(seed);
    if (s->every && v % s->every == 0)
        return s->other + (uint32_t)(v >> 16) % s->others;
    return s->first + (uint32_t)(v >> 16) % s->count;
}

static uint32_t letter_size(uint32_t c) { return c < 0x80 ? 1 : c < 0x800 ? 2 : c < 0x10000 ? 3 : 4; }

/* Puts a letter by RFC 3629. Returns how many bytes it has, as the others below do. */
static uint32_t put_letter(uint8_t *to, uint32_t c)
{
    static const uint8_t first[] = {0, 0, 0xc0, 0xe0, 0xf0};
    uint32_t size = letter_size(c);
    for (uint32_t k = size; k-- > 1; c >>= 6)
        to[k] = (uint8_t)(0x80 | (c & 0x3f));
    to[0] = (uint8_t)(first[size] | c);
    return size;
}

/* A word of 4 to 13 letters. */
static uint32_t put_word(uint8_t *to, const struct script *s, uint32_t i)
{
    uint32_t letters = 4 + (uint32_t)(scatter(i) % 10), size = 0;
    for (uint32_t k = 0; k < letters; k++)
        size += put_letter(to + size, letter(s, 16 * (uint64_t)i + k));
    return size;
}

/* Letters of 4 to 12 bytes, or of 13 to 31, as it falls. */
static uint32_t put_short_or_long(uint8_t *to, const struct script *s, uint32_t i)
{
    uint64_t v = scatter(i);
    uint32_t least = v >> 32 & 1 ? INLINE + 1 + (uint32_t)(v % 16) : 4 + (uint32_t)(v % 6), size = 0;
    for (uint32_t k = 0; size < least; k++)
        size += put_letter(to + size, letter(s, 32 * (uint64_t)i + k));
    return size;
}

/* Words, up to the length of the long value. */
static uint32_t put_words(uint8_t *to, const struct script *s, uint32_t i)
{
    uint32_t size = 0;
    while (size < LONG_VALUE) {
        size += put_word(to + size, s, i++);
        size += put_letter(to + size, s->space);
    }
    return size;
}

/* A layout of text: its code, the bytes of an offset or a view, what its values are and how long one may be, how many rows
 * there are, 0 for as many as there is room for, how many of the scripts are measured, and how many of these in all manners. */
static const struct text_layout {
    const char *name;
    int code;
    uint32_t width;
    uint32_t (*put)(uint8_t *, const struct script *, uint32_t);
    uint32_t longest, rows;
    int scripts, in_all_manners;
} TEXT_LAYOUTS[] = {
    {"Utf8", 26, 4, put_word, 64, 0, SCRIPT_COUNT, SCRIPT_COUNT},
    {"LargeUtf8", 28, 8, put_word, 64, 0, 2, 2},
    {"Utf8View, half of them longer than 12 bytes", 31, 16, put_short_or_long, 64, VIEW_ROWS, SCRIPT_COUNT, 2},
    {"Utf8, one value of 8 MB", 26, 4, put_words, LONG_VALUE + 64, 1, SCRIPT_COUNT, 0},
    {"Utf8View, one value of 8 MB", 31, 16, put_words, LONG_VALUE + 64, 1, SCRIPT_COUNT, 0},
};

enum { TEXT_LAYOUT_COUNT = sizeof TEXT_LAYOUTS / sizeof TEXT_LAYOUTS[0] };

/* How a column is laid out: a side, and whether null rows are empty and not ill-formed. Where there are elements before the
 * first row, these are ill-formed, and so are bytes behind the last one. */
static const struct manner {
    const char *name;
    struct side side;
    int empty;
} MANNERS[] = {
    {"all rows", {0, 0, 0, 0, NONE, NONE}, 0},
    {"sliced by 3, ill-formed before and behind", {3, 0, 0, 0, NONE, NONE}, 0},
    {"every tenth null, ill-formed under nulls", {0, 1, 0, 1, NONE, NONE}, 0},
    {"every tenth null, empty under nulls", {0, 1, 0, 1, NONE, NONE}, 1},
};

enum { MANNER_COUNT = sizeof MANNERS / sizeof MANNERS[0] };

/* One line of the table. */
struct line {
    const struct script *script;
    const struct text_layout *layout;
    const struct manner *manner;
};

/* How many words of a script an image has room for, in whole thousands. They have 8.5 letters on average. */
static uint32_t rows_that_fit(const struct script *s, uint32_t width)
{
    double letter = letter_size(s->first), room = IMAGE_LONGEST - 200000;
    if (s->every)
        letter += (letter_size(s->other) - letter) / s->every;
    uint32_t fit = 1000 * (uint32_t)(room / (width + 8.5 * letter) / 1000);
    return fit < ROWS ? fit : ROWS;
}

static uint32_t rows_of(const struct line *l)
{
    return l->layout->rows ? l->layout->rows : rows_that_fit(l->script, l->layout->width);
}

/* So many bytes that are no text, nor the beginning of one, the first of them in no text at all. */
static void put_ill_formed(uint8_t *to, uint32_t size, uint32_t i)
{
    for (uint32_t k = 0; k < size; k++)
        to[k] = k == 0 ? 0xff : (uint8_t)scatter(i + k);
}

/* The value of an element behind the image's last part: text where a row reads it, else ill-formed bytes, or none. */
static uint32_t put_value(struct image *m, uint32_t at, const struct line *l, uint32_t i)
{
    struct side x = l->manner->side;
    if (m->most - at < l->layout->longest)
        abort();
    uint32_t size = l->layout->put(m->bytes + at, l->script, i);
    if (i >= x.before && !is_null(x, i - x.before))
        return size;
    if (i >= x.before && l->manner->empty)
        return 0;
    put_ill_formed(m->bytes + at, size, i);
    return size;
}

/* The buffer of the values between two places; behind them ill-formed bytes, as many as there are elements before them. */
static void end_values(struct image *m, uint32_t data, uint32_t at, struct side x)
{
    put_ill_formed(m->bytes + at, x.before, at);
    image_buffer(m, at - data + x.before);
}

static void lay_offsets(struct image *m, const struct line *l, uint32_t offsets, uint32_t all)
{
    uint32_t width = l->layout->width, data = m->length, at = data;
    for (uint32_t i = 0; i < all; i++) {
        image_put(m, offsets + width * i, at - data, (int)width);
        at += put_value(m, at, l, i);
    }
    image_put(m, offsets + width * all, at - data, (int)width);
    end_values(m, data, at, l->manner->side);
}

static void lay_views(struct image *m, const struct line *l, uint32_t views, uint32_t all)
{
    uint32_t data = m->length, at = data;
    for (uint32_t i = 0; i < all; i++) {
        uint32_t view = views + 16 * i, size = put_value(m, at, l, i);
        image_put(m, view, size, 4);
        memcpy(m->bytes + view + 4, m->bytes + at, size > INLINE ? 4 : size);
        if (size > INLINE) {
            image_put(m, view + 12, at - data, 4);
            at += size;
        }
    }
    end_values(m, data, at, l->manner->side);
}

/* A column of text. The values stand last: how many bytes they have is known when they are there. */
static struct image lay_text(const struct line *l)
{
    struct side x = l->manner->side;
    uint32_t rows = rows_of(l), all = x.before + rows, width = l->layout->width, view = width == 16;
    struct image m = begin(1, 2);
    uint32_t r = image_node(&m, l->layout->code, 0, rows, 0, 2), first = image_buffer(&m, width * (all + !view));
    image_put(&m, r + RECORD_OFFSET, x.before, 4);
    nulls(&m, r, x, rows);
    (view ? lay_views : lay_offsets)(&m, l, first, all);
    return m;
}

static struct column column_of(struct image m, const struct line *l)
{
    uint32_t r = image_record(0), entries = IMAGE_TABLES(1, 0), width = l->layout->width;
    struct column c = {rows_of(l), (uint32_t)image_get(m.bytes, entries + ENTRY_PLACE, 4) + width * l->manner->side.before,
                       width, entries + IMAGE_ENTRY, (uint32_t)image_get(m.bytes, r + RECORD_BITMAP, 4), 0};
    return c;
}

/* The same bytes as text, or as binary: the code of a binary layout is the next one. */
static void as_code(struct image m, int code) { m.bytes[image_record(0) + RECORD_CODE] = (uint8_t)code; }

static void fail(const struct line *l, const char *what, uint64_t got)
{
    printf("%s, %s, %s: %s: %llx\n", l->layout->name, l->script->name, l->manner->name, what, (unsigned long long)got);
    exit(1);
}

#ifdef RUST
/* Ends where the Rust finds other values well-formed than those that rows read, and empty ones: among the rows that are not
 * null, and among all elements. */
static void hold_values(struct image m, const struct line *l, struct column c)
{
    struct side x = l->manner->side;
    size_t null_rows = x.nulls ? c.rows / 10 : 0, read = c.rows - null_rows;
    struct column all = {c.rows + x.before, c.first - c.width * x.before, c.width, c.entry, 0, 0};
    size_t found = rust_from_utf8(m.bytes, m.length, &c), found_of_all = rust_from_utf8(m.bytes, m.length, &all);
    if (found != read)
        fail(l, "well-formed rows", found);
    if (found_of_all != read + (l->manner->empty ? null_rows : 0))
        fail(l, "well-formed elements", found_of_all);
}
#else
static void hold_values(struct image m, const struct line *l, struct column c) { (void)m, (void)l, (void)c; }
static size_t rust_from_utf8(const uint8_t *image, size_t length, const struct column *column)
{
    return image[0] + length + column->rows;
}
#endif

/* Ends where the image is refused, as text or as binary. */
static void hold_accepted(struct image m, const struct line *l)
{
    for (int code = l->layout->code; code <= l->layout->code + 1; code++) {
        as_code(m, code);
        uint64_t answer = editions_check(m.bytes, m.length);
        if (answer != 0)
            fail(l, "refused", answer);
    }
}

/* One line. A single value tells nothing about the check before: it has two offsets or one view to look at. */
static void print_line(const struct line *l, double text, double binary, double rust)
{
    printf("| %s | %s | %u | %s | %.0f | %.0f | %.0f |", l->layout->name, l->script->name, rows_of(l), l->manner->name,
           text / 1000, binary / 1000, (text - binary) / 1000);
#ifdef RUST
    printf(" %.0f | %.2f |", rust / 1000, (text - binary) / rust);
#else
    (void)rust;
    printf(" - | - |");
#endif
    if (rows_of(l) > 1)
        printf(" %.2f |\n", text / binary);
    else
        printf(" - |\n");
}

/* what the calls answer, so that none is left out */
static volatile uint64_t answers;

/* Checks an image as binary, and reads it from its first byte to its last, so that each call that is timed finds the caches
 * alike, and branches guessed alike: the first check after the Rust takes a third longer. */
static void prepare(struct image m, int binary)
{
    uint64_t sum = 0;
    as_code(m, binary);
    answers += editions_check(m.bytes, m.length);
    for (uint32_t i = 0; i < m.length; i += 64)
        sum += m.bytes[i];
    answers += sum;
}

static double time_check(struct image m, int code, int binary)
{
    prepare(m, binary);
    as_code(m, code);
    double t0 = now();
    answers += editions_check(m.bytes, m.length);
    return now() - t0;
}

static double time_rust(struct image m, struct column c, int binary)
{
    prepare(m, binary);
    double t0 = now();
    answers += rust_from_utf8(m.bytes, m.length, &c);
    return now() - t0;
}

static void measure_text(const struct line *l)
{
    double text[TIMES], binary[TIMES], rust[TIMES];
    int code = l->layout->code;
    struct image m = lay_text(l);
    struct column c = column_of(m, l);
    hold_accepted(m, l);
    hold_values(m, l, c);
    for (int i = 0; i < TIMES; i++) {
        text[i] = time_check(m, code, code + 1);
        binary[i] = time_check(m, code + 1, code + 1);
        rust[i] = time_rust(m, c, code + 1);
    }
    print_line(l, median(text), median(binary), median(rust));
    free(m.bytes);
}

static void measure_layout(const struct text_layout *layout)
{
    for (int s = 0; s < layout->scripts; s++)
        for (int k = 0; k < (s < layout->in_all_manners ? MANNER_COUNT : 1); k++) {
            struct line l = {&SCRIPTS[s], layout, &MANNERS[k]};
            measure_text(&l);
        }
}

void text_table(void)
{
    printf("| layout | text | values | laid out | check as text, us | check as binary, us | the text, us | from_utf8, us | to from_utf8 | to the check as binary |\n");
    printf("|---|---|---|---|---|---|---|---|---|---|\n");
    for (int i = 0; i < TEXT_LAYOUT_COUNT; i++)
        measure_layout(&TEXT_LAYOUTS[i]);
}
