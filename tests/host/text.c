/* Text that is UTF-8 and text that is not, asked of editions_check: every string of one, two and three bytes and many of four,
 * alone and with letters around it; each way to be ill-formed at each place of texts of many lengths; columns of text of which
 * each offset is moved; and views that share their bytes. Which strings are well-formed the model says (tests/host/strings.py). */
#define _DEFAULT_SOURCE
#include "../../host/editions.h"
#include "../image.h"
#include "expect.h"
#include "memory.h"

enum { UTF8 = 26, LARGE_UTF8 = 28, UTF8_VIEW = 31 };

/* A view: its bytes, those of the text that it may hold, and where they stand; the most bytes of a table's strings; the most
 * of an image. */
enum { VIEW = 16, VIEW_MOST = 12, VIEW_TEXT = 4, STRING_MOST = 4, MOST = 65536 };

/* Letters of one, two, three and four bytes. */
enum { WIDEST = 4 };
static const char *const letters[WIDEST] = {"x", "\xc3\xa9", "\xe4\xb8\xad", "\xf0\x9f\x98\x80"};

static struct lent memory;

static void expect_text(const char *what, unsigned long which, const uint8_t *image, size_t length, int well_formed)
{
    expect(what, which, editions_check(image, length), answer_of(well_formed ? 0 : EDITIONS_TEXT, EDITIONS_LEFT, 0, 0));
}

/* So many bytes of text: letters of a width up to the end, and as many x before them as they leave. */
static void fill(uint8_t *at, size_t length, size_t width)
{
    size_t rest = width == 1 ? length : length % width;
    memset(at, 'x', rest);
    for (size_t k = rest; k < length; k += width)
        memcpy(at + k, letters[width - 1], width);
}

static size_t offset_width(int code) { return code == LARGE_UTF8 ? 8 : 4; }

/* A text of so many bytes as a table's only row, or between a row of a letter of two bytes and one of three. Where it can, the
 * image ends with it, at memory that may not be read. */
struct table {
    uint8_t *image, *text;
    size_t length;
};

static struct table table_of(int code, uint32_t length, int neighbours)
{
    const uint32_t before = neighbours ? 2 : 0, after = neighbours ? 3 : 0, ends[] = {0, before, before + length, before + length + after};
    uint32_t rows = neighbours ? 3 : 1, first = code == UTF8_VIEW ? VIEW : (rows + 1) * offset_width(code);
    uint32_t data = code == UTF8_VIEW && length <= VIEW_MOST ? 0 : ends[3];
    struct table made = {NULL, NULL, IMAGE_TABLES(1, 2) + first + data};
    made.image = lent_bytes(memory, made.length, 1);
    struct image m = image_in(made.image, made.length, 1, 2);
    image_node(&m, code, 0, rows, 0, 2);
    uint32_t at = image_buffer(&m, first), text = image_buffer(&m, data);
    memset(made.image + at, 0, first);
    if (code == UTF8_VIEW)
        image_put(&m, at, length, 4);
    else
        for (uint32_t k = 0; k <= rows; k++)
            image_put(&m, at + k * offset_width(code), ends[neighbours ? k : k + 1], offset_width(code));
    made.text = made.image + (data == 0 ? at + VIEW_TEXT : text + before);
    memcpy(made.text - before, letters[1], before);
    memcpy(made.text + length, letters[2], after);
    return made;
}

/* A long view begins with its text's first bytes. */
static void stored_prefix(const struct table *t, int code, size_t length)
{
    if (code == UTF8_VIEW && length > VIEW_MOST)
        memcpy(t->text - VIEW + VIEW_TEXT, t->text, 4);
}

/* The tables of the file: every string of their choices. */
struct strings {
    unsigned length;
    uint32_t counts[STRING_MOST];
    const uint8_t *choices[STRING_MOST], *well_formed;
    uint32_t total;
};

static struct strings next_strings(struct cursor *c)
{
    struct strings s = {(unsigned)number(c, 1), {0}, {NULL}, NULL, 1};
    for (unsigned k = 0; k < s.length; k++) {
        s.counts[k] = (uint32_t)number(c, 2);
        s.choices[k] = c->at;
        c->at += s.counts[k];
        s.total *= s.counts[k];
    }
    s.well_formed = c->at;
    if (s.length > 0)
        c->at += s.total;
    return s;
}

static void put_string(const struct strings *s, uint32_t which, uint8_t *at)
{
    for (unsigned k = s->length; k-- > 0; which /= s->counts[k])
        at[k] = s->choices[k][which % s->counts[k]];
}

/* Each string as the text of a table that is laid out once: alone and between other rows. */
static void strings_alone(const struct strings *s, int code, int neighbours)
{
    struct table t = table_of(code, s->length, neighbours);
    for (uint32_t which = 0; which < s->total; which++) {
        put_string(s, which, t.text);
        expect_text("string", which, t.image, t.length, s->well_formed[which]);
    }
}

/* Each string inside a text of letters of that width, at one place after the other. */
static void strings_inside(const struct strings *s, int code, size_t width, size_t length)
{
    struct table t = table_of(code, length, 0);
    size_t place = 0;
    for (uint32_t which = 0; which < s->total; which++) {
        fill(t.text, place, width);
        put_string(s, which, t.text + place);
        fill(t.text + place + s->length, length - place - s->length, width);
        stored_prefix(&t, code, length);
        expect_text("string inside a text", which, t.image, t.length, s->well_formed[which]);
        place = (place + 7) % (length - s->length + 1);
    }
}

static void every_string(struct cursor *c)
{
    for (struct strings s = next_strings(c); s.length > 0; s = next_strings(c)) {
        strings_alone(&s, UTF8, 0);
        strings_alone(&s, LARGE_UTF8, 1);
        strings_alone(&s, UTF8_VIEW, 0);
        strings_inside(&s, UTF8, 1, 80);
        for (size_t width = 1; s.length <= 2 && width <= WIDEST; width++) {
            strings_inside(&s, UTF8, width, 700);
            strings_inside(&s, UTF8_VIEW, width, 300);
        }
    }
}

/* A letter, or what is ill-formed also between letters. */
struct piece {
    const uint8_t *bytes;
    size_t length;
    int well_formed;
};

static struct piece *pieces;
static size_t piece_count;

static void read_pieces(struct cursor *c)
{
    piece_count = number(c, 2);
    pieces = malloc(piece_count * sizeof *pieces);
    if (!pieces)
        exit(1);
    for (size_t k = 0; k < piece_count; k++) {
        pieces[k].bytes = bytes(c, &pieces[k].length);
        pieces[k].well_formed = (int)number(c, 1);
    }
}

/* Each piece, or each `step`th, at each place of a text of so many bytes, letters of a width around it. */
static void pieces_at_places(int code, size_t length, size_t width, size_t step)
{
    struct table t = table_of(code, (uint32_t)length, code == LARGE_UTF8);
    for (size_t place = 0; place < length; place++) {
        fill(t.text, place, width);
        for (size_t k = place % step; k < piece_count; k += step) {
            const struct piece *p = &pieces[k];
            if (p->length > length - place)
                continue;
            memcpy(t.text + place, p->bytes, p->length);
            fill(t.text + place + p->length, length - place - p->length, width);
            stored_prefix(&t, code, length);
            expect_text("a piece at place", place, t.image, t.length, p->well_formed);
        }
    }
}

static void every_place(void)
{
    static const int codes[] = {UTF8, LARGE_UTF8, UTF8_VIEW};
    static const struct {
        size_t first, last, step;
    } lengths[] = {{1, 20, 1}, {31, 33, 1}, {47, 49, 1}, {63, 65, 1}, {79, 81, 1}, {127, 129, 1}, {255, 260, 1}, {511, 514, 5}, {1000, 1003, 11}, {1024, 1024, 11}, {4095, 4097, 127}};
    for (unsigned k = 0; k < sizeof lengths / sizeof lengths[0]; k++)
        for (size_t length = lengths[k].first; length <= lengths[k].last; length++)
            for (unsigned code = 0; code < 3; code++)
                for (size_t width = 1; width <= WIDEST; width++)
                    pieces_at_places(codes[code], length, width, lengths[k].step);
}

/* Rows of one letter each, of one to four bytes in turn. Before the first row, as elements before the offset, and behind the
 * last stand bytes that are in no letter. */
enum { ROWS = 280, BEFORE = 3, OFFSETS = BEFORE + ROWS + 1, TEXT_END = BEFORE + ROWS / 4 * (1 + 2 + 3 + 4), TEXT = TEXT_END + 1 };

struct rows {
    uint8_t *bytes;
    size_t length;
    struct image image;
    uint32_t record, offsets, width, bitmap;
    uint32_t ends[OFFSETS + 1]; /* the offsets, and the end of the bytes */
    uint8_t begins[TEXT + 1];   /* whether a letter does, or the last one ends, at that byte */
};

static void put_offset(struct rows *r, uint32_t k, uint32_t at) { image_put(&r->image, r->offsets + k * r->width, at, r->width); }

static void lay_rows(struct rows *r, int code)
{
    r->width = offset_width(code);
    r->length = IMAGE_TABLES(1, 2) + OFFSETS * r->width + (ROWS + 7) / 8 + TEXT;
    r->bytes = lent_bytes(memory, r->length, 1);
    r->image = image_in(r->bytes, r->length, 1, 2);
    r->record = image_node(&r->image, code, 0, ROWS, 0, 2);
    image_put(&r->image, r->record + RECORD_OFFSET, BEFORE, 4);
    r->offsets = image_buffer(&r->image, OFFSETS * r->width);
    r->bitmap = image_bitmap(&r->image, r->record, ROWS, 0);
    memset(r->bytes + r->bitmap, 255, (ROWS + 7) / 8);
    uint32_t text = image_buffer(&r->image, TEXT), at = 0;
    memset(r->bytes + text, 255, TEXT);
    memset(r->begins, 0, sizeof r->begins);
    for (uint32_t k = 0; k < OFFSETS; k++) {
        uint32_t letter = k < BEFORE || k == OFFSETS - 1 ? 0 : (k - BEFORE) % WIDEST + 1;
        r->ends[k] = at;
        r->begins[at] = k >= BEFORE;
        put_offset(r, k, at);
        if (letter > 0)
            memcpy(r->bytes + text + at, letters[letter - 1], letter);
        at += letter > 0 ? letter : 1;
    }
    r->ends[OFFSETS] = TEXT;
}

/* A row that was null is not, and the other way round; nothing where there is no such row. */
static void turn_null(struct rows *r, uint32_t row)
{
    if (row < ROWS)
        r->bytes[r->bitmap + row / 8] ^= (uint8_t)(1u << row % 8);
}

/* The offset before a row, the end of the one above it, is moved to each place between the offsets beside it, while none, one
 * or both of the two rows are null. A letter that is cut makes both ill-formed. */
static void move_offset(struct rows *r, uint32_t row, unsigned masks)
{
    uint32_t k = BEFORE + row;
    for (uint32_t at = r->ends[k - 1]; at <= r->ends[k + 1]; at++)
        for (unsigned nulls = 0; nulls < masks; nulls++) {
            int judged = (row > 0 && !(nulls & 1)) || (row < ROWS && !(nulls & 2));
            put_offset(r, k, at);
            turn_null(r, nulls & 1 ? row - 1 : ROWS);
            turn_null(r, nulls & 2 ? row : ROWS);
            expect_text("the offset before row", row, r->bytes, r->length, !judged || r->begins[at]);
            turn_null(r, nulls & 1 ? row - 1 : ROWS);
            turn_null(r, nulls & 2 ? row : ROWS);
        }
    put_offset(r, k, r->ends[k]);
}

static void every_offset(void)
{
    static struct rows r;
    static const int codes[] = {UTF8, LARGE_UTF8};
    for (unsigned code = 0; code < 2; code++) {
        lay_rows(&r, codes[code]);
        for (uint32_t row = 0; row <= ROWS; row++)
            move_offset(&r, row, 4);
        r.bytes[r.record + RECORD_FLAGS] = 0;
        for (uint32_t row = 0; row <= ROWS; row++)
            move_offset(&r, row, 1);
    }
}

/* Views of one text, all of it each, so that they have many more bytes in all than the image. The text is letters of `width`
 * bytes, and behind it stand `extra` bytes of the same buffer that are in no letter and that no view has. */
struct sharing {
    struct image image;
    uint32_t views, rows, data, size;
};

static void put_view(struct sharing *x, uint32_t row, uint32_t from, uint32_t length)
{
    uint32_t at = x->views + row * VIEW;
    image_put(&x->image, at, length, 4);
    memcpy(x->image.bytes + at + VIEW_TEXT, x->image.bytes + x->data + from, 4);
    image_put(&x->image, at + 8, 0, 4);
    image_put(&x->image, at + 12, from, 4);
}

static struct sharing share(uint8_t *bytes, size_t most, uint32_t rows, uint32_t size, uint32_t width, uint32_t extra)
{
    struct sharing x = {image_in(bytes, most, 1, 2), 0, rows, 0, size};
    image_node(&x.image, UTF8_VIEW, 0, rows, 0, 2);
    x.views = image_buffer(&x.image, rows * VIEW);
    x.data = image_buffer(&x.image, size + extra);
    fill(bytes + x.data, size, width);
    memset(bytes + x.data + size, 0x80, extra);
    for (uint32_t row = 0; row < rows; row++)
        put_view(&x, row, 0, size);
    return x;
}

/* One view more is each part of the data that is long enough for a view of a buffer: it is well-formed exactly if it begins and
 * ends between letters. */
static void views_that_share(void)
{
    enum { SHARING = 60, DATA = 96 };
    for (uint32_t width = 1; width <= WIDEST; width++)
        for (uint32_t extra = 0; extra <= 2; extra++) {
            size_t length = IMAGE_TABLES(1, 2) + SHARING * VIEW + DATA + extra;
            struct sharing x = share(lent_bytes(memory, length, 1), length, SHARING, DATA, width, extra);
            for (uint32_t from = 0; from + VIEW_MOST < DATA; from++)
                for (uint32_t to = from + VIEW_MOST + 1; to <= DATA; to++) {
                    put_view(&x, SHARING / 2, from, to - from);
                    expect_text("a view of bytes that others share", from * 1000 + to, x.image.bytes, length,
                                from % width == 0 && to % width == 0);
                }
        }
}

/* So many views of so long a text that to walk each of them would take hours; the last one ends inside a letter. */
static void many_views_of_one_text(void)
{
    enum { MANY = 500000, LONG_TEXT = 8000000 };
    size_t length = IMAGE_TABLES(1, 2) + MANY * VIEW + LONG_TEXT;
    uint8_t *bytes = calloc(1, length);
    struct sharing x = share(bytes, length, MANY, LONG_TEXT, 2, 0);
    expect_text("many views of one text", MANY, bytes, length, 1);
    put_view(&x, MANY - 1, 0, LONG_TEXT - 1);
    expect_text("the last of many views cut", MANY, bytes, length, 0);
    free(bytes);
}

int main(int argc, char **argv)
{
    if (argc != 2) {
        fprintf(stderr, "usage: text STRINGS\n");
        return 2;
    }
    size_t size;
    struct cursor c = {whole_file(argv[1], &size)};
    memory = lent_pages(MOST);
    every_string(&c);
    read_pieces(&c);
    every_place();
    every_offset();
    views_that_share();
    many_views_of_one_text();
    return tally("text");
}
