/* Mutated images through the calls of both headers. What must hold of any bytes is asked: an accepted image equals itself, a
 * comparison is symmetric, equal tables write the same bytes, a refused write changes nothing, and an output that fits
 * exactly does not fit into one byte less. Both calls on ranges are refused alike and in the right order; a first difference
 * is none exactly when the ranges are equal, the rows before it are equal, and its row is not. The comparison at fewer digits
 * is refused as they are, or by 22 before 21; it is symmetric, says yes of equal rows, of no others where no digit is dropped,
 * and of a range exactly when it does of both halves. The query for Map names is refused as the check is; else it says what a
 * walk over the nodes finds. Rows that are written are built again where the type's codes may be: a table that is accepted, equals
 * them and is written as they were. Any other string is refused, or gives a table that is accepted and writes the string.
 *
 * An input is seven numbers of two bytes, the left image and the right one. The numbers: how long the left image is; then, of
 * ranges, the left start, the right start and the count, and the digits, as `ranged` takes them; then where a string of rows is
 * damaged, and how.
 *
 * With LIBFUZZER defined this is a target of libFuzzer; else a program that mutates the inputs of a directory for some
 * seconds: fuzz CORPUS SECONDS SEED. */
#define _DEFAULT_SOURCE
#include "../../host/editions.h"
#include "../../host/editions_calls.h"
#include "../image.h"
#include "memory.h"

#include <dirent.h>
#include <time.h>

enum { MOST = 1 << 16, ROOM = 4096, BUILT = 4 * ROOM };

/* The numbers of an input: their places, and how many bytes they have together. */
enum {
    INPUT_LEFT_LENGTH = 0,
    INPUT_LEFT_START = 2,
    INPUT_RIGHT_START = 4,
    INPUT_COUNT = 6,
    INPUT_DIGITS = 8,
    INPUT_PLACE = 10,
    INPUT_DAMAGE = 12,
    INPUT_NUMBERS = 14
};

/* The type codes whose digits may be dropped, and how many. */
enum { DECIMAL32 = 15, DECIMAL64 = 16, MOST_DIGITS = 9 };

enum { FIXED_SIZE_BINARY = 30, LIST = 33, LARGE_LIST = 34, STRUCT = 38, MAP = 42 };

/* what a comparison that says yes answers */
static const uint64_t EQUAL = (uint64_t)1 << 8;

/* what a first difference that is the range's first row answers */
static const uint64_t FIRST_ROW = (uint64_t)1 << 8;

/* the side of a refused right image or range, in an answer */
static const uint64_t RIGHT = (uint64_t)EDITIONS_RIGHT << 8;

static struct lent lent[5];

static void must(int holds, const char *what)
{
    if (!holds) {
        fprintf(stderr, "fuzz: %s\n", what);
        abort();
    }
}

/* How many rows the root of an image has; 0 where it is too short for a root. */
static uint32_t root_rows(const uint8_t *image, size_t length)
{
    return length < IMAGE_TABLES(1, 0) ? 0 : (uint32_t)image_get(image, image_record(0) + RECORD_LENGTH, 4);
}

/* The rows of a table, written into a buffer of that room. */
static uint64_t rows_of(const uint8_t *image, size_t length, uint8_t *out, size_t room)
{
    memset(out, 0xa5, room);
    uint64_t answer = editions_write(image, length, 0, root_rows(image, length), out, room);
    size_t kept = editions_refusal(answer) ? 0 : editions_value(answer);
    must(kept <= room, "more written than there is room for");
    for (size_t k = kept; k < room; k++)
        must(out[k] == 0xa5, "a byte past the output was changed");
    return answer;
}

/* Two images, and ranges of their rows. */
struct pair {
    const uint8_t *left, *right;
    size_t left_length, right_length;
    uint32_t left_start, right_start, count;
};

static uint64_t compare_range(const struct pair *p, uint32_t skipped, uint32_t count)
{
    return editions_compare_range(p->left, p->left_length, p->right, p->right_length, p->left_start + skipped,
                                  p->right_start + skipped, count);
}

static uint64_t first_difference(const struct pair *p, uint32_t skipped, uint32_t count)
{
    return editions_first_difference(p->left, p->left_length, p->right, p->right_length, p->left_start + skipped,
                                     p->right_start + skipped, count);
}

/* How a pair of ranges is refused, but for unequal types: a and b are the checks of the images. */
static uint64_t refusal_of(const struct pair *p, uint64_t a, uint64_t b)
{
    if (a != 0)
        return a;
    if (b != 0)
        return b | RIGHT;
    if ((uint64_t)p->left_start + p->count > root_rows(p->left, p->left_length))
        return EDITIONS_RANGE;
    if ((uint64_t)p->right_start + p->count > root_rows(p->right, p->right_length))
        return EDITIONS_RANGE | RIGHT;
    return 0;
}

/* The row where two ranges part: the rows before it are equal, and it is not. */
static void parted(const struct pair *p, uint64_t first)
{
    must(editions_value(first) <= p->count, "a first difference past the range");
    uint32_t row = editions_row(first);
    must(compare_range(p, 0, row) == EQUAL, "the rows before the first difference are not equal");
    must(first_difference(p, 0, row) == 0, "the rows before the first difference have one");
    must(compare_range(p, row, 1) == 0, "the row of the first difference is equal");
    must(first_difference(p, row, p->count - row) == FIRST_ROW, "the first difference is another one from its row on");
}

/* Both calls on ranges; a and b are the checks of the images, ab their comparison. */
static void ranges(const struct pair *p, uint64_t a, uint64_t b, uint64_t ab)
{
    uint64_t same = compare_range(p, 0, p->count), first = first_difference(p, 0, p->count), refusal = refusal_of(p, a, b);
    if (editions_refusal(same) != 0 || editions_refusal(first) != 0)
        must(first == same, "the calls on ranges are not refused alike");
    if (same == EDITIONS_TYPES) {
        must(a == 0 && b == 0, "types are looked at before images are checked");
        must(ab == 0, "equal tables of unequal types");
        return;
    }
    if (editions_refusal(same) != 0 || refusal != 0) {
        must(same == refusal, "ranges are refused otherwise");
        return;
    }
    must(same == EQUAL || same == 0, "a range comparison that says neither yes nor no");
    must(editions_differs(first) == (same == 0), "a first difference of equal ranges, or none of unequal ones");
    if (editions_differs(first))
        parted(p, first);
    const struct pair turned = {p->right, p->left, p->right_length, p->left_length, p->right_start, p->left_start, p->count};
    must(first_difference(&turned, 0, p->count) == first, "a first difference that is not symmetric");
    const struct pair itself = {p->left, p->left, p->left_length, p->left_length, p->left_start, p->left_start, p->count};
    must(first_difference(&itself, 0, p->count) == 0, "rows that differ from themselves");
    const struct pair whole = {p->left, p->right, p->left_length, p->right_length, 0, 0, root_rows(p->left, p->left_length)};
    if (root_rows(p->left, p->left_length) == root_rows(p->right, p->right_length))
        must(compare_range(&whole, 0, whole.count) == ab, "the range of all rows and the tables are not equal alike");
}

static uint64_t compare_digits(const struct pair *p, uint32_t skipped, uint32_t count, uint32_t digits)
{
    return editions_compare_digits(p->left, p->left_length, p->right, p->right_length, p->left_start + skipped,
                                   p->right_start + skipped, count, digits);
}

/* Rows that may be compared at fewer digits, where `same` says whether they are equal. */
static void agreeing(const struct pair *p, uint64_t same, uint32_t digits)
{
    uint64_t agree = compare_digits(p, 0, p->count, digits);
    must(agree == EQUAL || agree == 0, "a comparison at fewer digits that says neither yes nor no");
    if (same == EQUAL || digits == 0)
        must(agree == same, "equal rows that do not agree, or unequal ones that agree with no digit dropped");
    const struct pair turned = {p->right, p->left, p->right_length, p->left_length, p->right_start, p->left_start, p->count};
    must(compare_digits(&turned, 0, p->count, digits) == agree, "a comparison at fewer digits that is not symmetric");
    uint32_t half = p->count / 2;
    int parts = compare_digits(p, 0, half, digits) == EQUAL && compare_digits(p, half, p->count - half, digits) == EQUAL;
    must(parts == (agree == EQUAL), "rows that agree otherwise than their two halves");
}

/* The comparison at fewer digits, at that many and, where it is not refused, at all that there may be. */
static void fewer_digits(const struct pair *p, uint32_t digits)
{
    uint64_t same = compare_range(p, 0, p->count), agree = compare_digits(p, 0, p->count, digits);
    if (editions_refusal(same) != 0 && editions_refusal(same) != EDITIONS_RANGE) {
        must(agree == same, "images or types are refused otherwise at fewer digits");
        return;
    }
    int root = p->left[image_record(0) + RECORD_CODE];
    if ((root != DECIMAL32 && root != DECIMAL64) || digits > MOST_DIGITS)
        must(agree == EDITIONS_DIGITS, "digits are dropped that may not be");
    else if (editions_refusal(same) != 0)
        must(agree == same, "ranges are refused otherwise at fewer digits");
    else
        for (uint32_t dropped = 0; dropped <= MOST_DIGITS; dropped++)
            agreeing(p, same, dropped);
}

/* Whether a node of an accepted image has that name. */
static int is_named(const uint8_t *image, uint32_t node, const char *name)
{
    uint32_t record = image_record(node), place = (uint32_t)image_get(image, record + RECORD_NAME, 4);
    size_t length = strlen(name);
    return image[record + RECORD_NAME_LENGTH] == length && memcmp(image + place, name, length) == 0;
}

/* The first child of a node of an accepted image. */
static uint32_t first_child(const uint8_t *image, uint32_t node)
{
    return (uint32_t)image_get(image, image_record(node) + RECORD_FIRST_CHILD, 2);
}

/* The query for Map names; a is the check of the image. */
static void map_names(const uint8_t *image, size_t length, uint64_t a)
{
    uint64_t names = editions_map_names(image, length);
    int right = 1;
    if (a != 0) {
        must(names == a, "the query for Map names is refused otherwise than the check");
        return;
    }
    for (uint32_t node = 0; node < image_get(image, HEADER_NODES, 2); node++)
        if (image[image_record(node) + RECORD_CODE] == MAP) {
            uint32_t entries = first_child(image, node), key = first_child(image, entries);
            right = right && is_named(image, entries, "entries");
            right = right && is_named(image, key, "key") && is_named(image, key + 1, "value");
        }
    must(names == (right ? EQUAL : 0), "the names of Maps are others");
}

/* The check and the comparison of two images, and the write of the left one. */
static void three_calls(const struct pair *p, uint64_t a, uint64_t b, uint64_t ab)
{
    const uint8_t *left = p->left, *right = p->right;
    size_t cut = p->left_length, rest = p->right_length;
    uint8_t *out = lent_bytes(lent[2], ROOM, 1);
    static uint8_t first[ROOM];
    uint64_t ba = editions_compare(right, rest, left, cut);
    if (a == 0 && b == 0)
        must(ab == ba, "a comparison that is not symmetric");
    else if (a != 0)
        must(ab == a, "a refused left image is not the comparison's answer");
    else
        must(ab == (b | RIGHT), "a refused right image is not the comparison's answer");
    if (a == 0)
        must(editions_compare(left, cut, left, cut) == EQUAL, "a table that does not equal itself");
    else
        must(editions_write(left, cut, 0, 0, out, ROOM) == a, "a refused image is not the write's answer");
    if (a != 0)
        return;
    uint64_t written = rows_of(left, cut, out, ROOM);
    must(editions_refusal(written) == 0 || editions_refusal(written) == EDITIONS_OUTPUT, "a write of all rows is refused");
    if (editions_refusal(written) != 0)
        return;
    size_t n = editions_value(written);
    memcpy(first, out, n);
    if (n > 0)
        must(rows_of(left, cut, lent_bytes(lent[2], n - 1, 1), n - 1) == EDITIONS_OUTPUT, "one byte less is enough");
    must(rows_of(left, cut, lent_bytes(lent[2], n, 1), n) == written, "an exact buffer is not enough");
    if (b == 0 && ab == EQUAL) {
        must(rows_of(right, rest, out, ROOM) == written, "equal tables take different numbers of bytes");
        must(memcmp(first, out, n) == 0, "equal tables write different bytes");
    }
}

/* Whether rows of an accepted image may be read back. */
static int is_readable(const uint8_t *image)
{
    int readable = 1;
    for (uint32_t node = 0; node < image_get(image, HEADER_NODES, 2); node++) {
        int code = image[image_record(node) + RECORD_CODE];
        readable = readable && (code <= FIXED_SIZE_BINARY || code == LIST || code == LARGE_LIST || code == STRUCT);
    }
    return readable;
}

/* What is built of a string into a buffer of that room; nothing else of it changes. */
static uint64_t build(const uint8_t *image, size_t length, uint32_t count, const uint8_t *rows, size_t size, uint8_t *out,
                      size_t room)
{
    memset(out, 0xa5, room);
    uint64_t answer = editions_build(image, length, count, rows, size, out, room);
    size_t kept = editions_refusal(answer) ? 0 : editions_value(answer);
    must(kept <= room, "more built than there is room for");
    for (size_t k = kept; k < room; k++)
        must(out[k] == 0xa5, "a byte past the built image was changed");
    return answer;
}

/* A part of a built image stands where the one before it ends. Returns where it ends itself. */
static uint32_t behind(uint32_t at, uint64_t place, uint64_t length)
{
    must(place == at, "a part of a built image stands elsewhere");
    return at + (uint32_t)length;
}

/* A built image is its tables, the names, and of each node its bitmap and its buffers, one behind the other; no offset and no
 * first bit is other than 0. */
static void hold_places(const uint8_t *built, size_t length)
{
    uint32_t nodes = (uint32_t)image_get(built, HEADER_NODES, 2), buffers = (uint32_t)image_get(built, HEADER_BUFFERS, 2);
    uint32_t at = IMAGE_TABLES(nodes, buffers), entry = IMAGE_TABLES(nodes, 0);
    for (uint32_t node = 0; node < nodes; node++) {
        uint32_t record = image_record(node), size = built[record + RECORD_NAME_LENGTH];
        at = behind(at, image_get(built, record + RECORD_NAME, 4) + (size ? 0 : at), size);
    }
    for (uint32_t node = 0; node < nodes; node++) {
        uint32_t record = image_record(node);
        int masked = built[record + RECORD_CODE] != 0;
        must(!(built[record + RECORD_FLAGS] & FLAG_BITMAP) == !masked, "a built node with a bitmap, or without");
        must(image_get(built, record + RECORD_OFFSET, 4) == 0 && image_get(built, record + RECORD_FIRST_BIT, 4) == 0,
             "a built node with an offset or a first bit");
        at = behind(at, image_get(built, record + RECORD_BITMAP, 4) + (masked ? 0 : at),
                    masked ? (image_get(built, record + RECORD_LENGTH, 4) + 7) / 8 : 0);
        for (uint32_t k = 0; k < image_get(built, record + RECORD_BUFFERS, 2); k++, entry += IMAGE_ENTRY)
            at = behind(at, image_get(built, entry + ENTRY_PLACE, 4), image_get(built, entry + ENTRY_LENGTH, 4));
    }
    must(at == length, "a built image that does not end with its last part");
}

/* A table that was built of a string: accepted, of the type of its image, written as the string, and in no room less. */
static void hold_built(const uint8_t *image, size_t length, uint32_t count, const uint8_t *rows, size_t size, size_t built)
{
    uint8_t *out = lent_bytes(lent[2], built, 1), *again = lent_bytes(lent[4], size, 1);
    must(build(image, length, count, rows, size, out, built) == (uint64_t)built << 8, "an exact buffer is not enough for an image");
    must(editions_check(out, built) == 0, "a built image that is refused");
    hold_places(out, built);
    must(root_rows(out, built) == count, "another number of rows is built");
    must(editions_compare_range(image, length, out, built, 0, 0, 0) == EQUAL, "another type is built");
    must(rows_of(out, built, again, size) == (uint64_t)size << 8, "a built table takes another number of bytes");
    must(memcmp(again, rows, size) == 0, "a built table writes other bytes");
    must(build(image, length, count, rows, size, lent_bytes(lent[2], built - 1, 1), built - 1) == EDITIONS_OUTPUT,
         "one byte less is enough for an image");
}

/* Any string as so many rows of an accepted image whose rows may be read back. Returns whether they were. */
static int any_string(const uint8_t *image, size_t length, uint32_t count, const uint8_t *rows, size_t size)
{
    uint64_t answer = build(image, length, count, rows, size, lent_bytes(lent[2], BUILT, 1), BUILT);
    if (editions_refusal(answer) == 0)
        hold_built(image, length, count, rows, size, editions_value(answer));
    else
        must(answer == EDITIONS_STRING || answer == EDITIONS_OUTPUT, "a string is refused otherwise");
    return answer != EDITIONS_STRING;
}

/* A string with one change; it has room for a byte more. Returns how long it is. */
static size_t damaged(uint8_t *rows, size_t size, uint32_t place, uint32_t damage)
{
    size_t at = place % (size + 1);
    uint8_t byte = (uint8_t)(damage & 256 ? damage % 3 : damage);
    switch (at < size ? damage >> 9 & 3 : 0) {
    case 0: memmove(rows + at + 1, rows + at, size - at); rows[at] = byte; return size + 1;
    case 1: memmove(rows + at, rows + at + 1, size - at - 1); return size - 1;
    case 2: return at;
    default: rows[at] = byte; return size;
    }
}

/* Rows that were written, where their place is the end of their pages. */
static uint8_t *lent_rows(const uint8_t *rows, size_t size)
{
    uint8_t *copy = lent_bytes(lent[3], size, 1);
    memcpy(copy, rows, size);
    return copy;
}

/* Rows of the left image that are written are built again; they are no row more, and once they are damaged any string. */
static void written_rows(const struct pair *p, uint32_t place, uint32_t damage)
{
    static uint8_t string[ROOM + 1];
    const uint8_t *left = p->left;
    size_t length = p->left_length;
    uint64_t answer = editions_write(left, length, p->left_start, p->count, string, ROOM);
    if (editions_refusal(answer) != 0)
        return;
    size_t size = editions_value(answer);
    uint8_t *rows = lent_rows(string, size), *out = lent_bytes(lent[2], BUILT, 1);
    must(any_string(left, length, p->count, rows, size), "written rows are not read back");
    answer = build(left, length, p->count, rows, size, out, BUILT);
    if (editions_refusal(answer) == 0)
        must(editions_compare_range(left, length, out, editions_value(answer), p->left_start, 0, p->count) == EQUAL,
             "other rows are read back");
    must(!any_string(left, length, p->count + 1, rows, size), "written rows are read back as one more");
    size = damaged(string, size, place, damage);
    any_string(left, length, p->count, lent_rows(string, size), size);
}

/* Tables of the left image's type, where it may be read back, of its rows and of the right image as a string; a is the check of
 * the left image. */
static void built_tables(const struct pair *p, uint64_t a, uint32_t place, uint32_t damage)
{
    uint64_t wanted = a != 0 ? a : is_readable(p->left) ? 0 : EDITIONS_UNREADABLE;
    if (wanted != 0) {
        size_t room = damage % 2 ? BUILT : 0;
        must(build(p->left, p->left_length, p->count, p->right, p->right_length, lent_bytes(lent[2], room, 1), room) == wanted,
             "an image whose rows may not be read back is refused otherwise");
        return;
    }
    any_string(p->left, p->left_length, p->count, p->right, p->right_length);
    written_rows(p, place, damage);
}

/* A start, a count or a number of digits: mostly one of 0 to one more than the most, else one of the four largest. */
static uint32_t ranged(const uint8_t *number, uint64_t most)
{
    uint32_t x = (uint32_t)image_get(number, 0, 2);
    return x < 61440 ? (uint32_t)(x % (most + 2)) : UINT32_MAX - x % 4;
}

static void one(const uint8_t *data, size_t size)
{
    if (size < INPUT_NUMBERS || size > MOST)
        return;
    const uint8_t *images = data + INPUT_NUMBERS;
    size_t length = size - INPUT_NUMBERS, cut = image_get(data, INPUT_LEFT_LENGTH, 2) % (length + 1), rest = length - cut;
    uint8_t *left = lent_bytes(lent[0], cut, 1), *right = lent_bytes(lent[1], rest, 1);
    memcpy(left, images, cut);
    memcpy(right, images + cut, rest);
    struct pair p = {left, right, cut, rest, 0, 0, 0};
    uint32_t rows = root_rows(left, cut);
    p.left_start = ranged(data + INPUT_LEFT_START, rows);
    p.right_start = ranged(data + INPUT_RIGHT_START, root_rows(right, rest));
    p.count = ranged(data + INPUT_COUNT, p.left_start <= rows ? rows - p.left_start : rows);
    uint64_t a = editions_check(left, cut), b = editions_check(right, rest), ab = editions_compare(left, cut, right, rest);
    map_names(left, cut, a);
    map_names(right, rest, b);
    three_calls(&p, a, b, ab);
    uint32_t digits = ranged(data + INPUT_DIGITS, MOST_DIGITS);
    ranges(&p, a, b, ab);
    fewer_digits(&p, digits);
    built_tables(&p, a, (uint32_t)image_get(data, INPUT_PLACE, 2), (uint32_t)image_get(data, INPUT_DAMAGE, 2));
    p.right_start = p.left_start;
    ranges(&p, a, b, ab);
    fewer_digits(&p, digits);
    must(memcmp(left, images, cut) == 0 && memcmp(right, images + cut, rest) == 0, "an image was changed");
}

static void begin(void)
{
    for (int k = 0; k < 5; k++)
        lent[k] = lent_pages(MOST);
}

#ifdef LIBFUZZER
int LLVMFuzzerInitialize(int *argc, char ***argv)
{
    (void)argc;
    (void)argv;
    begin();
    return 0;
}

int LLVMFuzzerTestOneInput(const uint8_t *data, size_t size)
{
    one(data, size);
    return 0;
}
#else
static uint64_t state;

static uint32_t next(uint32_t below)
{
    state ^= state << 13;
    state ^= state >> 7;
    state ^= state << 17;
    return (uint32_t)((state >> 32) % below);
}

enum { SEEDS = 1024 };

static struct {
    uint8_t *left, *right;
    size_t left_length, right_length;
} seeds[SEEDS];

static unsigned read_seeds(const char *path)
{
    unsigned count = 0;
    char name[4096];
    DIR *directory = opendir(path);
    if (!directory) {
        perror(path);
        exit(1);
    }
    for (struct dirent *entry; (entry = readdir(directory)) && count < SEEDS;) {
        if (entry->d_name[0] == '.')
            continue;
        snprintf(name, sizeof name, "%s/%s", path, entry->d_name);
        FILE *file = fopen(name, "rb");
        uint8_t *bytes = malloc(MOST / 2);
        size_t length = file && bytes ? fread(bytes, 1, MOST / 2, file) : 0;
        if (length < INPUT_NUMBERS || image_get(bytes, INPUT_LEFT_LENGTH, 2) > length - INPUT_NUMBERS) {
            fprintf(stderr, "fuzz: %s is no input\n", name);
            exit(1);
        }
        seeds[count].left = bytes + INPUT_NUMBERS;
        seeds[count].left_length = image_get(bytes, INPUT_LEFT_LENGTH, 2);
        seeds[count].right = seeds[count].left + seeds[count].left_length;
        seeds[count].right_length = length - INPUT_NUMBERS - seeds[count].left_length;
        count++;
        fclose(file);
    }
    closedir(directory);
    return count;
}

static void mutate(uint8_t *image, size_t length)
{
    static const uint8_t odd[] = {0, 1, 2, 3, 12, 13, IMAGE_DEEPEST, IMAGE_CODES - 1, IMAGE_CODES, IMAGE_LONGEST_NAME, 127, 128, 0xc2, 0xed, 0xf4, 255};
    for (uint32_t turns = next(4); turns > 0 && length > 0; turns--) {
        size_t tables = IMAGE_TABLES(image[HEADER_NODES], 1u);
        size_t end = next(3) != 0 && tables < length ? tables : length;
        size_t at = next((uint32_t)end);
        switch (next(4)) {
        case 0: image[at] ^= (uint8_t)(1u << next(8)); break;
        case 1: image[at] = odd[next(sizeof odd)]; break;
        case 2: image[at] = (uint8_t)next(256); break;
        default: image[at] = image[next((uint32_t)length)]; break;
        }
    }
}

int main(int argc, char **argv)
{
    if (argc != 4) {
        fprintf(stderr, "usage: fuzz CORPUS SECONDS SEED\n");
        return 2;
    }
    begin();
    unsigned count = read_seeds(argv[1]);
    state = strtoull(argv[3], NULL, 10) * 2654435761u + 88172645463325252u;
    static uint8_t data[MOST];
    unsigned long runs = 0, accepted = 0;
    time_t end = time(NULL) + atol(argv[2]);
    while (time(NULL) < end) {
        for (int turn = 0; turn < 256; turn++, runs++) {
            unsigned k = next(count), other = next(3) ? k : next(count);
            size_t left = seeds[k].left_length, right = seeds[other].right_length;
            uint8_t *images = data + INPUT_NUMBERS;
            data[INPUT_LEFT_LENGTH] = (uint8_t)left;
            data[INPUT_LEFT_LENGTH + 1] = (uint8_t)(left >> 8);
            for (unsigned at = INPUT_LEFT_START; at < INPUT_NUMBERS; at++)
                data[at] = (uint8_t)next(256);
            memcpy(images, seeds[k].left, left);
            memcpy(images + left, seeds[other].right, right);
            mutate(images, left);
            mutate(images + left, right);
            accepted += editions_check(images, left) == 0;
            one(data, INPUT_NUMBERS + left + right);
        }
    }
    printf("fuzz: seed %s, %lu pairs of images, %lu left ones accepted, no finding\n", argv[3], runs, accepted);
    return 0;
}
#endif
