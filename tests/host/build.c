/* Tables that are built of written rows. editions_build is asked about the calls of tests/host/written.py; about columns of every
 * length up to 140 rows, of which one row is null, or one is not; about images of the most bytes; and, where `most` is said,
 * about as many rows as a node may have and one more.
 *
 * Each call of the file is made with room for exactly the image, for one byte less, for none and for more, and its string is cut
 * at each place, lengthened, and taken for more rows and for fewer. What is built is held to the file byte for byte, is checked,
 * written again, compared with the rows that were written, and given as the image of its own type. Images, strings and buffers
 * begin or end at a page that may not be touched, and what stands on their other side is looked at too. */
#define _DEFAULT_SOURCE
#include "../../host/editions.h"
#include "../../host/editions_calls.h"
#include "../image.h"
#include "drawn.h"
#include "expect.h"
#include "memory.h"

enum { NULLS = 0, BOOLEAN = 1, INT8 = 2, INT64 = 5, UTF8 = 26, BINARY = 27, LARGE_UTF8 = 28, FIXED_SIZE_BINARY = 30, LIST = 33 };

/* The bytes of a string, and of what is looked at on the other side of a buffer. */
enum { LONGEST_STRING = 2 * IMAGE_LONGEST, BESIDE = 64 };

/* How many places of a long string it is cut at. */
enum { CUTS = 24 };

/* Memory for an image, a string, an output, what is written again, and the image that rows were written of. */
static struct lent given_memory, string_memory, out_memory, again_memory, source_memory;

/* A call, with what is wanted of it where there is room enough. */
struct call {
    const uint8_t *given, *string, *built;
    size_t given_length, string_length, built_length;
    uint32_t count;
    uint64_t wanted;
    unsigned long which;
};

/* What stands in a buffer and beside it before the call. */
static uint8_t mark_of(size_t k) { return (uint8_t)(k * 7 + 3); }

/* Whether these bytes still are what stood there, from the one numbered so on. */
static int untouched(const uint8_t *bytes, size_t from, size_t end)
{
    for (size_t k = from; k < end; k++)
        if (bytes[k] != mark_of(k))
            return 0;
    return 1;
}

/* Of that room, at the front or the end of its pages, with what stands beside it. */
struct room {
    uint8_t *out, *beside;
    size_t length;
};

static struct room room_of(size_t length, int at_end)
{
    struct room r = {lent_bytes(out_memory, length, at_end), NULL, length};
    r.beside = at_end ? r.out - BESIDE : r.out + length;
    for (size_t k = 0; k < length; k++)
        r.out[k] = mark_of(k);
    for (size_t k = 0; k < BESIDE; k++)
        r.beside[k] = mark_of(k);
    return r;
}

static uint8_t *copy_of(struct lent lent, const uint8_t *bytes, size_t length, int at_end)
{
    uint8_t *copy = lent_bytes(lent, length, at_end);
    memcpy(copy, bytes, length);
    return copy;
}

/* The call with that room, and what it leaves behind. Returns the buffer. */
static const uint8_t *ask(const char *what, const struct call *c, size_t length, uint64_t wanted, int at_end)
{
    uint8_t *given = copy_of(given_memory, c->given, c->given_length, at_end);
    uint8_t *string = copy_of(string_memory, c->string, c->string_length, at_end);
    struct room r = room_of(length, at_end);
    uint64_t answer = editions_build(c->given_length ? given : NULL, c->given_length, c->count, c->string_length ? string : NULL,
                                     c->string_length, length ? r.out : NULL, length);
    expect(what, c->which, answer, wanted);
    size_t changed = editions_refusal(wanted) ? 0 : c->built_length;
    if (changed)
        must("another image is built in call", c->which, memcmp(r.out, c->built, changed) == 0);
    must("bytes past the image, or of a refused call, that changed in call", c->which, untouched(r.out, changed, length));
    must("bytes beside the buffer that changed in call", c->which, untouched(r.beside, 0, BESIDE));
    must("a given image that changed in call", c->which, memcmp(given, c->given, c->given_length) == 0);
    must("a string that changed in call", c->which, memcmp(string, c->string, c->string_length) == 0);
    return r.out;
}

/* The string with other bytes at its end, or another count: no longer that many rows. */
static void ask_other(const struct call *c, size_t length, uint32_t count)
{
    struct call other = *c;
    other.string_length = length;
    other.count = count;
    ask("another string or count of call", &other, drawn(2) ? c->built_length : 0, EDITIONS_STRING, drawn(4) != 0);
}

/* No proper part of written rows is as many rows, nor are they any other number of rows. */
static void not_rows(const struct call *c)
{
    static uint8_t longer[LONGEST_STRING];
    size_t length = c->string_length, all = length <= 4 * CUTS ? length : CUTS;
    if (length >= LONGEST_STRING)
        return;
    for (size_t k = 0; k < all; k++)
        ask_other(c, all == length ? k : k < 4 ? length - 1 - k : drawn((uint32_t)length), c->count);
    struct call more = *c;
    memcpy(longer, c->string, length);
    more.string = longer;
    for (uint8_t byte = 0; byte < 3; byte++) {
        longer[length] = byte;
        ask_other(&more, length + 1, c->count);
    }
    ask_other(c, length, c->count + 1);
    ask_other(c, length, UINT32_MAX);
    if (c->count > 0)
        ask_other(c, length, c->count - 1);
}

/* A built table that is lent as it is: accepted, of the given type, and written as it was read; the rows that were written are
 * those of the other image from a row on, where there is one. */
static void hold(const struct call *c, const uint8_t *built, const uint8_t *source, size_t source_length, uint32_t start)
{
    size_t length = c->built_length, written = c->string_length;
    expect("the check of the built image of call", c->which, editions_check(built, length), 0);
    uint8_t *again = lent_bytes(again_memory, written, 1);
    expect("the write of the built table of call", c->which, editions_write(built, length, 0, c->count, again, written),
           answer_of(0, 0, 0, written));
    must("other rows are written of the built table of call", c->which, memcmp(again, c->string, written) == 0);
    expect("the type of the built table of call", c->which,
           editions_compare_range(c->given, c->given_length, built, length, 0, 0, 0), answer_of(0, 0, 0, 1));
    if (source)
        expect("the rows of the built table of call", c->which,
               editions_compare_range(source, source_length, built, length, start, 0, c->count), answer_of(0, 0, 0, 1));
    struct call of_its_type = *c;
    of_its_type.given = c->built;
    of_its_type.given_length = length;
    ask("the built image as the given one of call", &of_its_type, length, c->wanted, 1);
}

/* A call with every room. */
static void rooms(const struct call *c)
{
    size_t length = c->built_length;
    int refused = editions_refusal(c->wanted) != 0;
    /* of a call that is refused for another fault than its room */
    size_t enough = c->wanted == EDITIONS_OUTPUT ? IMAGE_LONGEST : refused ? 1000 : length;
    ask("no room in call", c, 0, refused ? c->wanted : EDITIONS_OUTPUT, 1);
    ask("more room than enough in call", c, enough + 1 + drawn(100), c->wanted, 1);
    ask("more room than enough in call", c, enough + 1 + drawn(9), c->wanted, 0);
    if (refused)
        return;
    ask("one byte less in call", c, length - 1, EDITIONS_OUTPUT, 1);
    ask("one byte less in call", c, length - 1, EDITIONS_OUTPUT, 0);
    ask("less room in call", c, drawn((uint32_t)length), EDITIONS_OUTPUT, 1);
    ask("exact room in call", c, length, c->wanted, 0);
}

static void built_call(const struct call *c, const uint8_t *source, size_t source_length, uint32_t start)
{
    rooms(c);
    if (editions_refusal(c->wanted) != 0)
        return;
    hold(c, ask("exact room in call", c, c->built_length, c->wanted, 1), source, source_length, start);
    not_rows(c);
}

static void model_calls(const char *path)
{
    size_t size;
    uint8_t *whole = whole_file(path, &size);
    struct cursor at = {whole};
    for (unsigned long which = 0; at.at < whole + size; which++) {
        struct call c = {0};
        c.which = which;
        c.given = bytes(&at, &c.given_length);
        c.count = (uint32_t)number(&at, 4);
        c.string = bytes(&at, &c.string_length);
        c.wanted = number(&at, 8);
        c.built = bytes(&at, &c.built_length);
        uint64_t of = number(&at, 1);
        size_t source_length = of == 1 ? c.given_length : 0;
        const uint8_t *source = of == 1 ? c.given : of == 2 ? bytes(&at, &source_length) : NULL;
        uint32_t start = of ? (uint32_t)number(&at, 4) : 0;
        if (source)
            source = copy_of(source_memory, source, source_length, 1);
        built_call(&c, source, source_length, start);
    }
    free(whole);
}

/* Columns of one node, whose rows are told by their number; their strings and images are made here. */
enum { MOST_ROWS = 140, COLUMN_LENGTH = 65536 };

static const struct kind {
    int code;
    uint32_t width, offsets;
} kinds[] = {{BOOLEAN, 0, 0}, {INT8, 1, 0},           {INT64, 8, 0},     {FIXED_SIZE_BINARY, 3, 0},
             {UTF8, 0, 4},    {FIXED_SIZE_BINARY, 0, 0}, {LARGE_UTF8, 0, 8}};

/* The value of a row: so many letters, which are its number's. */
static uint32_t value_of(const struct kind *k, uint32_t row, uint8_t *to)
{
    uint32_t size = k->offsets ? row % 5 : k->code == BOOLEAN ? 1 : k->width;
    for (uint32_t i = 0; i < size; i++)
        to[i] = k->code == BOOLEAN ? row % 3 != 1 : (uint8_t)('a' + (row + 7 * i) % 26);
    return size;
}

static size_t put_row(const struct kind *k, uint32_t row, int null, uint8_t *to)
{
    uint8_t value[16];
    uint32_t size = value_of(k, row, value), front = 1;
    to[0] = !null;
    if (null)
        return 1;
    for (uint32_t i = 0; k->offsets && i < 4; i++)
        to[front++] = (uint8_t)(size >> 8 * i);
    memcpy(to + front, value, size);
    return front + size;
}

/* The image of a column of these rows, of which those are null. */
static size_t column_image(const struct kind *k, uint32_t rows, const uint8_t *is_null, uint8_t *to)
{
    uint32_t buffers = k->offsets ? 2 : 1, text = 0;
    struct image m = image_in(to, COLUMN_LENGTH, 1, buffers);
    memset(to + m.length, 0, COLUMN_LENGTH - m.length);
    uint32_t record = image_node(&m, k->code, k->code == FIXED_SIZE_BINARY ? k->width : 0, rows, 0, buffers);
    uint32_t bitmap = image_bitmap(&m, record, rows, 0);
    uint32_t first = image_buffer(&m, k->offsets ? (rows + 1) * k->offsets : k->code == BOOLEAN ? (rows + 7) / 8 : rows * k->width);
    uint32_t data = m.length;
    for (uint32_t row = 0; row < rows; row++) {
        uint8_t value[16];
        uint32_t size = is_null[row] ? 0 : value_of(k, row, value);
        if (!is_null[row])
            image_set(&m, bitmap, row);
        if (k->offsets) {
            memcpy(to + data + text, value, size);
            text += size;
            image_put(&m, first + (row + 1) * k->offsets, text, (int)k->offsets);
        } else if (k->code == BOOLEAN) {
            if (size && value[0])
                image_set(&m, first, row);
        } else {
            memcpy(to + first + row * k->width, value, size);
        }
    }
    if (k->offsets)
        image_buffer(&m, text);
    return m.length;
}

static void column_call(const struct kind *k, uint32_t rows, const uint8_t *is_null, unsigned long which)
{
    static uint8_t given[COLUMN_LENGTH], string[COLUMN_LENGTH], built[COLUMN_LENGTH];
    struct call c = {given, string, built, 0, 0, 0, rows, 0, which};
    c.given_length = column_image(k, 0, NULL, given);
    for (uint32_t row = 0; row < rows; row++)
        c.string_length += put_row(k, row, is_null[row], string + c.string_length);
    c.built_length = column_image(k, rows, is_null, built);
    c.wanted = answer_of(0, 0, 0, c.built_length);
    hold(&c, ask("the column", &c, c.built_length, c.wanted, 1), NULL, 0, 0);
    ask("the column, one byte less", &c, c.built_length - 1, EDITIONS_OUTPUT, 1);
}

/* Every number of rows, with one null and with one row that is not, at each place of some lengths; none null, and all. */
static void columns(void)
{
    static uint8_t is_null[MOST_ROWS];
    for (unsigned kind = 0; kind < sizeof kinds / sizeof kinds[0]; kind++)
        for (uint32_t rows = 0; rows <= MOST_ROWS; rows++)
            for (int null = 0; null < 2; null++) {
                memset(is_null, null, rows);
                unsigned long which = (kind * 1000ul + rows) * 2 + (unsigned)null;
                column_call(&kinds[kind], rows, is_null, which);
                for (uint32_t k = rows % 13 == 0 || rows > 62 ? 0 : rows; k < rows; k += rows > 66 ? 5 : 1) {
                    is_null[k] = (uint8_t)!null;
                    column_call(&kinds[kind], rows, is_null, which);
                    is_null[k] = (uint8_t)null;
                }
            }
}

/* Int8: as many rows as fill the longest image, and one more. */
static void largest_numbers(void)
{
    enum { FRONT = IMAGE_TABLES(1, 1), ROWS = 14913031 };
    uint8_t given[FRONT], *string = lent_bytes(string_memory, 2 * ROWS + 2, 1), *out = lent_bytes(out_memory, IMAGE_LONGEST, 1);
    struct image m = image_in(given, FRONT, 1, 1);
    image_node(&m, INT8, 0, 0, 0, 1);
    image_buffer(&m, 0);
    for (uint32_t k = 0; k <= ROWS; k++) {
        string[2 * k] = 1;
        string[2 * k + 1] = (uint8_t)(k * 31 + (k >> 8));
    }
    expect("a row more than fills the longest image", 0,
           editions_build(given, FRONT, ROWS + 1, string, 2 * ROWS + 2, out_memory.pages, out_memory.size), EDITIONS_OUTPUT);
    expect("the longest image, one byte less", 0, editions_build(given, FRONT, ROWS, string, 2 * ROWS, out + 1, IMAGE_LONGEST - 1),
           EDITIONS_OUTPUT);
    expect("the longest image", 0, editions_build(given, FRONT, ROWS, string, 2 * ROWS, out, IMAGE_LONGEST),
           answer_of(0, 0, 0, IMAGE_LONGEST));
    unsigned long wrong = 0;
    for (uint32_t k = 0; k < ROWS; k++)
        wrong += out[IMAGE_LONGEST - ROWS + k] != string[2 * k + 1] || (out[FRONT + k / 8] >> k % 8 & 1) != 1;
    expect("the rows of the longest image", 0, wrong, 0);
    expect("the spare bits of the longest image", 0, out[FRONT + ROWS / 8] >> ROWS % 8, 0);
    expect("the check of the longest image", 0, editions_check(out, IMAGE_LONGEST), 0);
    /* the same of a string that has a row too few */
    expect("the longest image, the last byte missing", 0,
           editions_build(given, FRONT, ROWS, string, 2 * ROWS - 1, out, IMAGE_LONGEST), EDITIONS_STRING);
}

/* One Binary value that fills the longest image, and one byte more. */
static void largest_text(void)
{
    enum { FRONT = IMAGE_TABLES(1, 2), GIVEN = FRONT + 4, SIZE = IMAGE_LONGEST - FRONT - 1 - 8 };
    uint8_t given[GIVEN], *string = lent_bytes(string_memory, SIZE + 6, 1), *out = lent_bytes(out_memory, IMAGE_LONGEST + 1, 1);
    struct image m = image_in(given, GIVEN, 1, 2);
    image_node(&m, BINARY, 0, 0, 0, 2);
    image_put(&m, image_buffer(&m, 4), 0, 4);
    image_buffer(&m, 0);
    string[0] = 1;
    for (uint32_t extra = 0; extra < 2; extra++) {
        for (uint32_t k = 0; k < 4; k++)
            string[1 + k] = (uint8_t)((SIZE + extra) >> 8 * k);
        for (uint32_t k = 0; k < SIZE + extra; k++)
            string[5 + k] = (uint8_t)(k * 31 + (k >> 8));
        out[IMAGE_LONGEST] = 77;
        expect("the longest value", extra, editions_build(given, GIVEN, 1, string, 5 + SIZE + extra, out, IMAGE_LONGEST + 1),
               extra ? EDITIONS_OUTPUT : answer_of(0, 0, 0, IMAGE_LONGEST));
        must("the byte past the longest image", extra, out[IMAGE_LONGEST] == 77);
        if (!extra) {
            uint8_t *again = lent_bytes(again_memory, 5 + SIZE, 1);
            expect("the check of the longest value", 0, editions_check(out, IMAGE_LONGEST), 0);
            expect("the write of the longest value", 0, editions_write(out, IMAGE_LONGEST, 0, 1, again, 5 + SIZE),
                   answer_of(0, 0, 0, 5 + SIZE));
            must("the bytes of the longest value", 0, memcmp(again, string, 5 + SIZE) == 0);
        }
    }
}

/* Lists of Int8 whose offsets take one byte, two and three. */
static void long_lists(void)
{
    enum { LISTS = 3, ROWS = 70000 + 300 + 5, GIVEN = IMAGE_TABLES(2, 2) + 4 };
    static const uint32_t counts[LISTS] = {5, 300, 70000};
    enum { BUILT = IMAGE_TABLES(2, 2) + 1 + 4 * (LISTS + 1) + (ROWS + 7) / 8 + ROWS };
    uint8_t given[GIVEN], *string = lent_bytes(string_memory, 5 * LISTS + 2 * ROWS, 1), *at = string;
    struct image m = image_in(given, GIVEN, 2, 2);
    image_node(&m, LIST, 0, 0, 1, 1);
    image_put(&m, image_buffer(&m, 4), 0, 4);
    image_node(&m, INT8, 0, 0, 0, 1);
    image_buffer(&m, 0);
    for (uint32_t k = 0; k < LISTS; k++) {
        *at++ = 1;
        for (int i = 0; i < 4; i++)
            *at++ = (uint8_t)(counts[k] >> 8 * i);
        for (uint32_t row = 0; row < counts[k]; row++) {
            *at++ = 1;
            *at++ = (uint8_t)(row * 31 + (row >> 8));
        }
    }
    size_t written = (size_t)(at - string);
    uint8_t *out = lent_bytes(out_memory, BUILT, 1), *again = lent_bytes(again_memory, written, 1);
    expect("long lists", 0, editions_build(given, GIVEN, LISTS, string, written, out, BUILT), answer_of(0, 0, 0, BUILT));
    expect("the check of long lists", 0, editions_check(out, BUILT), 0);
    expect("the write of long lists", 0, editions_write(out, BUILT, 0, LISTS, again, written), answer_of(0, 0, 0, written));
    must("the rows of long lists", 0, memcmp(again, string, written) == 0);
}

/* So many bytes of 01, which end at a page that may not be touched: the pages of a small file, again and again. */
static uint8_t *ones(size_t length)
{
    enum { PIECE = 1 << 20 };
    size_t pieces = length / PIECE + 1;
    FILE *file = tmpfile();
    static uint8_t piece[PIECE];
    memset(piece, 1, PIECE);
    uint8_t *pages = mmap(NULL, (pieces + 1) * PIECE, PROT_NONE, MAP_PRIVATE | MAP_ANONYMOUS, -1, 0);
    if (!file || fwrite(piece, 1, PIECE, file) != PIECE || fflush(file) != 0 || pages == MAP_FAILED) {
        perror("pages");
        exit(1);
    }
    for (size_t k = 0; k < pieces; k++)
        if (mmap(pages + k * PIECE, PIECE, PROT_READ | PROT_WRITE, MAP_PRIVATE | MAP_FIXED, fileno(file), 0) == MAP_FAILED) {
            perror("pages");
            exit(1);
        }
    return pages + pieces * PIECE - length;
}

/* As many rows of Null as a node may have, and one more: at the root, and in one list. */
static void most_rows(void)
{
    enum { ROOT = IMAGE_TABLES(1, 0), IN_LIST = IMAGE_TABLES(2, 1), GIVEN = IN_LIST + 4, BUILT = IN_LIST + 1 + 8 };
    const size_t most = IMAGE_MOST_ELEMENTS;
    uint8_t root[ROOT], list[GIVEN], out[BUILT], *end = ones(most + 8) + most + 8;
    struct image m = image_in(root, ROOT, 1, 0);
    image_node(&m, NULLS, 0, 0, 0, 0);
    expect("the most rows", 0, editions_build(root, ROOT, IMAGE_MOST_ELEMENTS, end - most, most, out, ROOT),
           answer_of(0, 0, 0, ROOT));
    image_put(&m, image_record(0) + RECORD_LENGTH, IMAGE_MOST_ELEMENTS, 4);
    must("the image of the most rows", 0, memcmp(out, root, ROOT) == 0);
    memset(out, 77, sizeof out);
    expect("a row more than the most", 0,
           editions_build(root, ROOT, IMAGE_MOST_ELEMENTS + 1u, end - most - 1, most + 1, out, BUILT), EDITIONS_OUTPUT);
    m = image_in(list, GIVEN, 2, 1);
    image_node(&m, LIST, 0, 0, 1, 1);
    image_put(&m, image_buffer(&m, 4), 0, 4);
    image_node(&m, NULLS, 0, 0, 0, 0);
    uint8_t *front = end - most - 1 - 4;
    for (int k = 0; k < 4; k++)
        front[k] = (uint8_t)((most + 1) >> 8 * k);
    expect("a list of a row more than the most", 0, editions_build(list, GIVEN, 1, front - 1, most + 6, out, BUILT),
           EDITIONS_OUTPUT);
    must("the buffer of a row more than the most", 0, out[0] == 77 && out[BUILT - 1] == 77);
    end[-(ptrdiff_t)most - 1] = 0;
    expect("a row more than the most, and the first is none", 0,
           editions_build(root, ROOT, IMAGE_MOST_ELEMENTS + 1u, end - most - 1, most + 1, out, BUILT), EDITIONS_STRING);
}

int main(int argc, char **argv)
{
    if (argc != 3 && !(argc == 4 && strcmp(argv[3], "most") == 0)) {
        fprintf(stderr, "usage: build CALLS SEED [most]\n");
        return 2;
    }
    state = strtoull(argv[2], NULL, 10);
    given_memory = lent_pages(IMAGE_LONGEST + BESIDE);
    string_memory = lent_pages(LONGEST_STRING);
    out_memory = lent_pages(IMAGE_LONGEST + 2 * BESIDE + 100);
    again_memory = lent_pages(LONGEST_STRING);
    source_memory = lent_pages(IMAGE_LONGEST);
    model_calls(argv[1]);
    columns();
    largest_numbers();
    largest_text();
    long_lists();
    if (argc == 4)
        most_rows();
    return tally("build");
}
