/* The sixth table: what asking for the names of Maps takes, beside checking the image; and what comparing Maps takes whose
 * names differ.
 *
 * Each line of its first part has one image, whose Maps have all their names right, so that all are read, or whose first Map's
 * entries have another. `editions_map_names`, which checks the image first, and `editions_check` are called in turn, the one
 * and the other first, as many times each as take about a fifth of a millisecond: a time is one such batch by the number of its
 * calls, and each figure is the median of 31. Before anything is timed, both are held to their answers.
 *
 * The second part is `editions_compare` of two Lists of Maps with equal rows, whose Maps have the same names, and others on the
 * right, in turn on the same memory. Each figure is the median of 31 calls, each of which is held to say yes. */
#include "../host/editions_calls.h"
#include "bench.h"

#include <stdio.h>
#include <string.h>

enum { INT8 = 2, INT64 = 5, UTF8 = 26, LIST = 33, STRUCT = 38, MAP = 42 };

/* The most nodes and Maps of a tree; the Maps that stand in each other below a List; the columns of a Struct that are Maps. */
enum { MOST_NODES = 256, MOST_MAPS = 85, NESTED = 7, COLUMNS = 63 };

/* The bytes of a name's room. */
enum { ROOM = 9 };

/* A batch takes about so many nanoseconds. */
#define BATCH 200000.0

/* The names of a Map's entries and fields. */
struct names {
    const char *entries, *key, *value;
};

static const struct names RIGHT = {"entries", "key", "value"}, OTHER = {"key_value", "keys", "values"};

/* The nodes of a tree, level by level; how many Maps it has and may have, and whether Maps stand in keys as in values. */
struct tree {
    uint32_t count, maps, most_maps;
    int in_keys;
    struct node {
        int code, is_entries;
        uint32_t children;
        const char *name;
    } nodes[MOST_NODES];
};

static void add(struct tree *t, uint32_t parent, int code, const char *name)
{
    struct node n = {code, t->count > 0 && t->nodes[parent].code == MAP, 0, name};
    if (t->count > 0)
        t->nodes[parent].children++;
    t->nodes[t->count++] = n;
    t->maps += code == MAP;
}

/* The children of all Maps and of their entries, and of those that come with them. */
static void expand(struct tree *t)
{
    for (uint32_t k = 0; k < t->count; k++)
        if (t->nodes[k].code == MAP) {
            add(t, k, STRUCT, RIGHT.entries);
        } else if (t->nodes[k].is_entries) {
            add(t, k, t->in_keys && t->maps < t->most_maps ? MAP : INT8, RIGHT.key);
            add(t, k, t->maps < t->most_maps ? MAP : INT8, RIGHT.value);
        }
}

/* A name where the record says. */
static void set_name(struct image *m, uint32_t record, const char *name)
{
    uint32_t length = (uint32_t)strlen(name);
    memcpy(m->bytes + image_get(m->bytes, record + RECORD_NAME, 4), name, length);
    image_put(m, record + RECORD_NAME_LENGTH, length, 1);
}

/* The next name, with room for any other of these. */
static void put_name(struct image *m, uint32_t record, const char *name)
{
    image_put(m, record + RECORD_NAME, image_part(m, ROOM), 4);
    set_name(m, record, name);
}

/* Every node has so many rows, and each list and Map one row of its child. */
static struct image lay_tree(const struct tree *t, uint32_t rows)
{
    uint32_t buffers = 0;
    for (uint32_t k = 0; k < t->count; k++)
        buffers += t->nodes[k].code != STRUCT;
    struct image m = begin(t->count, buffers);
    for (uint32_t k = 0; k < t->count; k++) {
        const struct node *n = &t->nodes[k];
        uint32_t r = image_node(&m, n->code, 0, rows, n->children, n->code != STRUCT);
        if (n->code == INT8) {
            uint32_t at = image_buffer(&m, rows);
            for (uint32_t i = 0; i < rows; i++)
                image_put(&m, at + i, mix(i + k), 1);
        } else if (n->code != STRUCT) {
            uint32_t at = image_buffer(&m, 4 * (rows + 1));
            for (uint32_t i = 0; i <= rows; i++)
                image_put(&m, at + 4 * i, i, 4);
        }
        put_name(&m, r, n->name);
    }
    return m;
}

static struct image root_map(void)
{
    struct tree t = {0, 0, 1, 0, {{0, 0, 0, NULL}}};
    add(&t, 0, MAP, "");
    expand(&t);
    return lay_tree(&t, 100);
}

static struct image many_columns(void)
{
    struct tree t = {0, 0, COLUMNS, 0, {{0, 0, 0, NULL}}};
    add(&t, 0, STRUCT, "");
    for (int k = 0; k < COLUMNS; k++)
        add(&t, 0, MAP, "column");
    while (t.count + 3 * COLUMNS < MOST_NODES)
        add(&t, 0, INT8, "column");
    expand(&t);
    return lay_tree(&t, 3);
}

static struct image nested(void)
{
    struct tree t = {0, 0, NESTED, 0, {{0, 0, 0, NULL}}};
    add(&t, 0, LIST, "");
    add(&t, 0, MAP, "item");
    expand(&t);
    return lay_tree(&t, 3);
}

static struct image most_maps(void)
{
    struct tree t = {0, 0, MOST_MAPS, 1, {{0, 0, 0, NULL}}};
    add(&t, 0, MAP, "");
    expand(&t);
    return lay_tree(&t, 0);
}

static struct image no_maps(void)
{
    struct tree t = {0, 0, 0, 0, {{0, 0, 0, NULL}}};
    add(&t, 0, STRUCT, "");
    while (t.count < MOST_NODES)
        add(&t, 0, INT8, "column");
    return lay_tree(&t, 3);
}

static struct image one_column(void)
{
    struct tree t = {0, 0, 0, 0, {{0, 0, 0, NULL}}};
    add(&t, 0, INT8, "");
    return lay_tree(&t, 3);
}

static struct image int64s(void)
{
    struct image m = begin(1, 1);
    image_node(&m, INT64, 0, ROWS, 0, 1);
    uint32_t at = image_buffer(&m, 8 * ROWS);
    for (uint32_t i = 0; i < ROWS; i++)
        image_put(&m, at + 8 * i, mix(i), 8);
    return m;
}

/* So many offsets, each so many rows behind the one before it; before the first row are elements without any. */
static void offsets(struct image *m, uint32_t record, struct side x, uint32_t rows, uint32_t start, uint32_t step)
{
    uint32_t at = image_buffer(m, 4 * (x.before + rows + 1));
    image_put(m, record + RECORD_OFFSET, x.before, 4);
    for (uint32_t i = 0; i < x.before + rows + 1; i++)
        image_put(m, at + 4 * i, start + (i < x.before ? 0 : step * (i - x.before)), 4);
}

/* Lists of four Maps of ten entries each, texts of 2 to 6 letters to Int64, a million entries in all. A sliced side has elements
 * before the first row of the lists, the Maps and the values, and rows of the entries before the first Map's. */
static struct image list_of_maps(struct side x)
{
    enum { ENTRIES = 10, MAPS = 4 };
    uint32_t start = x.other ? 5 : 0, maps = ROWS / ENTRIES, all = start + ROWS, size = 0;
    struct image m = begin(5, 5);
    uint32_t list = image_node(&m, LIST, 0, maps / MAPS, 1, 1);
    offsets(&m, list, x, maps / MAPS, 0, MAPS);
    uint32_t map = image_node(&m, MAP, 0, maps, 1, 1);
    offsets(&m, map, x, maps, start, ENTRIES);
    uint32_t entries = image_node(&m, STRUCT, 0, all, 2, 0), key = image_node(&m, UTF8, 0, all, 0, 2);
    uint32_t ends = image_buffer(&m, 4 * (all + 1));
    for (uint32_t i = 0; i < all; i++) {
        image_put(&m, ends + 4 * i, size, 4);
        size += 2 + (uint32_t)(scatter(i - start) % 5);
    }
    image_put(&m, ends + 4 * all, size, 4);
    uint32_t text = image_buffer(&m, size);
    for (uint32_t i = 0, at = 0; i < all; i++) {
        uint64_t v = scatter(i - start);
        for (uint32_t k = 0; k < 2 + v % 5; k++)
            m.bytes[text + at++] = (uint8_t)('a' + (v >> (8 + 4 * k)) % 26);
    }
    uint32_t value = image_node(&m, INT64, 0, all, 0, 1), at = image_buffer(&m, 8 * (x.before + all));
    image_put(&m, value + RECORD_OFFSET, x.before, 4);
    for (uint32_t i = 0; i < x.before + all; i++)
        image_put(&m, at + 8 * i, mix(i - x.before - start), 8);
    put_name(&m, map, "item");
    put_name(&m, entries, RIGHT.entries);
    put_name(&m, key, RIGHT.key);
    put_name(&m, value, RIGHT.value);
    return m;
}

static struct image glossary(void) { return list_of_maps(PLAIN); }

static const struct line {
    const char *name;
    struct image (*lay)(void);
} LINES[] = {
    {"List<Map<Utf8, Int64>>, 1,000,000 entries", glossary},
    {"Map of two Int8, 100 rows", root_map},
    {"Struct of 63 Maps, 256 nodes, 3 rows", many_columns},
    {"7 Maps in each other below a List, depth 16, 3 rows", nested},
    {"85 Maps in keys and values, 256 nodes, no rows", most_maps},
    {"no Map: Struct of 255 Int8, 3 rows", no_maps},
    {"no Map: Int8, 3 rows", one_column},
    {"no Map: Int64, 1,000,000 rows", int64s},
};

enum { LINE_COUNT = sizeof LINES / sizeof LINES[0] };

typedef uint64_t call(const uint8_t *image, size_t length);

/* So many calls, by their number. */
static double batch(call *f, struct image m, uint32_t calls)
{
    volatile uint64_t sum = 0;
    double t0 = now();
    for (uint32_t k = 0; k < calls; k++)
        sum += f(m.bytes, m.length);
    return (now() - t0) / calls;
}

/* Ends where a call has another answer. */
static void hold(const char *name, uint64_t answer, uint64_t wanted)
{
    if (answer == wanted)
        return;
    printf("| %s: %llx and not %llx\n", name, (unsigned long long)answer, (unsigned long long)wanted);
    exit(1);
}

static void measure_names(const char *name, const char *what, struct image m, uint64_t wanted)
{
    double queries[TIMES], checks[TIMES];
    hold(name, editions_check(m.bytes, m.length), 0);
    hold(name, editions_map_names(m.bytes, m.length), wanted);
    uint32_t calls = 1 + (uint32_t)(BATCH / batch(editions_check, m, 10));
    for (int i = 0; i < TIMES; i++) {
        if (i % 2)
            queries[i] = batch(editions_map_names, m, calls);
        checks[i] = batch(editions_check, m, calls);
        if (i % 2 == 0)
            queries[i] = batch(editions_map_names, m, calls);
    }
    double q = median(queries), c = median(checks);
    printf("| %s | %s | %.3f | %.3f | %.3f |\n", name, what, q / 1000, c / 1000, q / c);
}

/* The image of a line with the names right and, where it has a Map, with those of the first Map's entries another. */
static void measure_line(const struct line *l)
{
    struct image m = l->lay();
    uint32_t nodes = (uint32_t)image_get(m.bytes, HEADER_NODES, 2), k = 0;
    while (k < nodes && m.bytes[image_record(k) + RECORD_CODE] != MAP)
        k++;
    measure_names(l->name, k < nodes ? "right" : "-", m, YES);
    if (k < nodes) {
        uint32_t entries = (uint32_t)image_get(m.bytes, image_record(k) + RECORD_FIRST_CHILD, 2);
        m.bytes[image_get(m.bytes, image_record(entries) + RECORD_NAME, 4)] ^= 1;
        measure_names(l->name, "the first another", m, 0);
    }
    free(m.bytes);
}

/* The names of the Maps of a List of Maps. */
static void rename_maps(struct image *m, const struct names *names)
{
    set_name(m, image_record(2), names->entries);
    set_name(m, image_record(3), names->key);
    set_name(m, image_record(4), names->value);
}

/* The time of comparing two Lists of Maps once the right one has these names. */
static double compare_named(const char *sides, const struct image *a, struct image *b, const struct names *names)
{
    rename_maps(b, names);
    double t0 = now();
    uint64_t answer = editions_compare(a->bytes, a->length, b->bytes, b->length);
    double t1 = now();
    hold(sides, answer, YES);
    return t1 - t0;
}

/* Two Lists of Maps, the right one laid out alike or otherwise, with the same names and with others, in the same memory. */
static void measure_compare(const char *sides, struct side x)
{
    double same[TIMES], other[TIMES];
    struct image a = list_of_maps(PLAIN), b = list_of_maps(x);
    for (int i = 0; i < TIMES; i++) {
        same[i] = compare_named(sides, &a, &b, &RIGHT);
        other[i] = compare_named(sides, &a, &b, &OTHER);
    }
    double s = median(same), o = median(other);
    printf("| %s | %s | %.0f | %.0f | %.2f |\n", LINES[0].name, sides, s / 1000, o / 1000, o / s);
    free(a.bytes);
    free(b.bytes);
}

void names_table(void)
{
    printf("| table | its Maps' names | the query, us | the check, us | to the check |\n");
    printf("|---|---|---|---|---|\n");
    for (int i = 0; i < LINE_COUNT; i++)
        measure_line(&LINES[i]);
    printf("\n| table | the two sides | the same names, us | other names, us | to the same |\n");
    printf("|---|---|---|---|---|\n");
    measure_compare("alike", PLAIN);
    measure_compare("sliced", side(0, 1));
}
