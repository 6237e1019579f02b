/* The names of Maps, in trees of up to 256 nodes: a Map below each kind of parent at each depth, Maps in the keys and values of
 * Maps, 85 in one tree. editions_map_names is asked where all names are right, where one of them is another, wherever they
 * stand in the image, and where the image is refused. editions_compare and the calls on ranges are asked of two tables that
 * differ in one label, in all labels that do not count, and in one more, or in a row.
 *
 * What is wanted follows from the tree that was laid out, in which each node has a role, and from no byte of the image. */
#define _DEFAULT_SOURCE
#include "../../host/editions.h"
#include "../../host/editions_calls.h"
#include "../image.h"
#include "drawn.h"
#include "expect.h"
#include "memory.h"

enum {
    INT8 = 2,
    INT32 = 4,
    UTF8 = 26,
    LIST = 33,
    LIST_VIEW = 35,
    FIXED_SIZE_LIST = 37,
    STRUCT = 38,
    DENSE_UNION = 39,
    SPARSE_UNION = 40,
    DICTIONARY = 41,
    MAP = 42,
    RUN_END_ENCODED = 43
};

enum { MOST_NODES = 256, MOST_MAPS = 85, ROWS = 3, MOST = 65536, LAST_ID = 5 };

/* What a node is to its parent. */
enum role { ROOT, CHILD, ENTRIES, KEY, VALUE, OF_DICTIONARY };

static const char *const role_names[] = {NULL, NULL, "entries", "key", "value", NULL};

struct node {
    int code;
    enum role role;
    uint32_t parent, children, id, p1, nullable, name_length;
    uint8_t name[IMAGE_LONGEST_NAME];
};

struct tree {
    uint32_t count;
    struct node nodes[MOST_NODES];
};

/* Where a node is to stand. */
struct spot {
    uint32_t parent;
    enum role role;
    uint32_t id;
};

static const struct spot top = {0, ROOT, 0};

static struct spot child_of(uint32_t parent)
{
    struct spot s = {parent, CHILD, 0};
    return s;
}

static struct spot field_of(uint32_t entries, enum role role)
{
    struct spot s = {entries, role, 0};
    return s;
}

static uint32_t add(struct tree *t, struct spot s, int code)
{
    if (t->count == MOST_NODES)
        abort();
    struct node *n = &t->nodes[t->count];
    memset(n, 0, sizeof *n);
    n->code = code;
    n->role = s.role;
    n->parent = s.parent;
    n->id = s.id;
    if (t->count > 0)
        t->nodes[s.parent].children++;
    n->p1 = code == DICTIONARY ? INT8 : code == FIXED_SIZE_LIST ? 1 : code == MAP ? drawn(2) : 0;
    return t->count++;
}

static void add_leaf(struct tree *t, struct spot s) { add(t, s, drawn(2) ? INT8 : UTF8); }

/* A Map and its entries, without their fields. Returns the entries. */
static uint32_t add_map(struct tree *t, struct spot s)
{
    return add(t, field_of(add(t, s, MAP), ENTRIES), STRUCT);
}

static void add_map_of_leaves(struct tree *t, struct spot s)
{
    uint32_t entries = add_map(t, s);
    add_leaf(t, field_of(entries, KEY));
    add_leaf(t, field_of(entries, VALUE));
}

/* What a Map may stand in: its code, how many children it has, and which of them the Map is. Rows of a union name its first
 * child alone. */
static const struct way {
    int code;
    uint32_t children, place;
} ways[] = {{LIST, 1, 0},        {LIST_VIEW, 1, 0},   {FIXED_SIZE_LIST, 1, 0}, {STRUCT, 2, 0},     {STRUCT, 2, 1},
            {DENSE_UNION, 2, 0}, {DENSE_UNION, 2, 1}, {SPARSE_UNION, 2, 0},    {SPARSE_UNION, 2, 1}, {DICTIONARY, 1, 0},
            {RUN_END_ENCODED, 2, 1}, {MAP, 2, 0}, {MAP, 2, 1}};

enum { WAYS = sizeof ways / sizeof ways[0] };

/* How many levels it is. */
static uint32_t levels_of(const struct way *w) { return w->code == MAP ? 2 : 1; }

/* Where its child stands that is numbered so. */
static struct spot spot_of(const struct way *w, uint32_t parent, uint32_t child)
{
    struct spot s = child_of(parent);
    if (w->code == MAP)
        s.role = child ? VALUE : KEY;
    else if (w->code == DICTIONARY)
        s.role = OF_DICTIONARY;
    else if (child && (w->code == DENSE_UNION || w->code == SPARSE_UNION))
        s.id = LAST_ID;
    return s;
}

/* A Map of leaves that stands so many times in the same, or each time in something drawn, down to the depth that is left. */
static void chain(struct tree *t, struct spot s, const struct way *same, uint32_t times, uint32_t left)
{
    const struct way *w = same ? same : &ways[drawn(WAYS)];
    if (times == 0 || left < levels_of(w) + 3) {
        add_map_of_leaves(t, s);
        return;
    }
    uint32_t parent = w->code == MAP ? add_map(t, s) : add(t, s, w->code);
    for (uint32_t k = 0; k < w->children; k++) {
        struct spot below = spot_of(w, parent, k);
        if (k == w->place)
            chain(t, below, same, times - 1, left - levels_of(w));
        else if (w->code == RUN_END_ENCODED)
            add(t, below, INT32);
        else
            add_leaf(t, below);
    }
}

/* A tree of as many Maps as there may be, in the keys and values of Maps. */
static void add_maps_of_maps(struct tree *t)
{
    uint32_t entries[MOST_MAPS], count = 0;
    entries[count++] = add_map(t, top);
    for (uint32_t k = 0; k < MOST_MAPS; k++)
        for (int role = KEY; role <= VALUE; role++)
            if (count < MOST_MAPS)
                entries[count++] = add_map(t, field_of(entries[k], (enum role)role));
            else
                add_leaf(t, field_of(entries[k], (enum role)role));
}

/* A Struct of Maps and leaves, of as many nodes as there may be. */
static void add_struct_of_maps(struct tree *t)
{
    uint32_t root = add(t, top, STRUCT);
    while (t->count + 4 <= MOST_NODES)
        add_map_of_leaves(t, child_of(root));
    while (t->count < MOST_NODES)
        add_leaf(t, child_of(root));
}

/* The nodes in the order of their numbers: those of a parent together, level by level. */
static void in_order(struct tree *t)
{
    static struct tree made;
    uint32_t from[MOST_NODES] = {0};
    made.count = 1;
    made.nodes[0] = t->nodes[0];
    for (uint32_t k = 0; k < made.count; k++)
        for (uint32_t old = 1; old < t->count; old++)
            if (t->nodes[old].parent == from[k]) {
                from[made.count] = old;
                made.nodes[made.count] = t->nodes[old];
                made.nodes[made.count++].parent = k;
            }
    *t = made;
}

static uint32_t put_name(struct node *n, const void *name, uint32_t length)
{
    memcpy(n->name, name, length);
    return n->name_length = length;
}

/* All Maps have their names. The others have any, these too, and all flags are drawn. */
static void label(struct tree *t)
{
    for (uint32_t k = 0; k < t->count; k++) {
        struct node *n = &t->nodes[k];
        const char *name = role_names[n->role];
        uint8_t other[IMAGE_LONGEST_NAME];
        for (uint32_t i = 0; i < sizeof other; i++)
            other[i] = (uint8_t)drawn(256);
        n->nullable = drawn(2);
        if (!name && drawn(3) > 0)
            name = role_names[ENTRIES + drawn(3)];
        if (name)
            put_name(n, name, (uint32_t)strlen(name));
        else
            put_name(n, other, drawn(2) ? drawn(IMAGE_LONGEST_NAME + 1) : 0);
    }
}

/* What the query is to say. */
static int is_right(const struct node *n)
{
    const char *name = role_names[n->role];
    return !name || (n->name_length == strlen(name) && memcmp(n->name, name, n->name_length) == 0);
}

static uint64_t wanted(const struct tree *t)
{
    int right = 1;
    for (uint32_t k = 0; k < t->count; k++)
        right &= is_right(&t->nodes[k]);
    return answer_of(0, 0, 0, right);
}

/* Where the names stand: each in a slot of its own, with a byte to spare; each right behind the one before it, the last one at
 * the image's end, in the order of the nodes or in a drawn one; equal ones at one place; those that fit in the bytes of a record
 * that say where the bitmap is, which are not read. */
enum placing { SLOTS, TIGHT, DRAWN_ORDER, SHARED, IN_RECORDS, PLACINGS };

enum { SLOT = IMAGE_LONGEST_NAME + 1, UNREAD = RECORD_FIRST_CHILD - RECORD_BITMAP };

/* A tree in an image that ends where memory may not be read. Every node has the same number of rows, and row i of a node reads
 * row i of its children; nodes share their buffers, whose places are these, in turn: whole numbers of four bytes from 0 on, ones,
 * a byte 0, and bytes from 0 on, letters, each for every row; and what makes an image be refused: bytes that are neither ids,
 * keys nor text. */
struct laid {
    uint8_t *image;
    size_t length;
    uint32_t rows, steps, ones, zeros, keys, letters, bad;
    uint32_t names[MOST_NODES], buffers[MOST_NODES];
};

static struct lent memory[2];

static uint32_t buffers_of(int code)
{
    switch (code) {
    case UTF8:
    case LIST_VIEW:
    case DENSE_UNION: return 2;
    case FIXED_SIZE_LIST:
    case STRUCT:
    case RUN_END_ENCODED: return 0;
    default: return 1;
    }
}

/* The only numbers of four bytes are run ends. */
static void lay_buffers(struct image *m, const struct laid *l, const struct node *n)
{
    uint32_t r = l->rows;
    switch (n->code) {
    case UTF8:
        image_entry(m, l->steps, 4 * (r + 1));
        image_entry(m, l->letters, r);
        break;
    case LIST:
    case MAP: image_entry(m, l->steps, 4 * (r + 1)); break;
    case LIST_VIEW:
        image_entry(m, l->steps, 4 * r);
        image_entry(m, l->ones, 4 * r);
        break;
    case DENSE_UNION:
        image_entry(m, l->zeros, r);
        image_entry(m, l->steps, 4 * r);
        break;
    case SPARSE_UNION: image_entry(m, l->zeros, r); break;
    case DICTIONARY: image_entry(m, l->keys, r); break;
    case INT32: image_entry(m, l->steps + 4, 4 * r); break;
    case INT8: image_entry(m, l->letters, r); break;
    default: break;
    }
}

/* The place of a name. */
static uint32_t name_place(struct image *m, const struct tree *t, struct laid *l, uint32_t k, enum placing placing)
{
    const struct node *n = &t->nodes[k];
    if (placing == IN_RECORDS && n->name_length <= UNREAD)
        return image_record(k) + RECORD_BITMAP;
    for (uint32_t j = 0; placing == SHARED && j < t->count; j++)
        if (l->names[j] && t->nodes[j].name_length == n->name_length && memcmp(t->nodes[j].name, n->name, n->name_length) == 0)
            return l->names[j];
    return image_part(m, placing == SLOTS ? (uint32_t)SLOT : n->name_length);
}

static void lay_names(struct image *m, const struct tree *t, struct laid *l, enum placing placing)
{
    uint32_t order[MOST_NODES];
    for (uint32_t k = 0; k < t->count; k++)
        order[k] = k;
    for (uint32_t k = t->count; placing == DRAWN_ORDER && k > 1; k--) {
        uint32_t j = drawn(k), kept = order[j];
        order[j] = order[k - 1];
        order[k - 1] = kept;
    }
    for (uint32_t i = 0; i < t->count; i++) {
        uint32_t k = order[i];
        const struct node *n = &t->nodes[k];
        l->names[k] = name_place(m, t, l, k, placing);
        memcpy(m->bytes + l->names[k], n->name, n->name_length);
        image_put(m, image_record(k) + RECORD_NAME_LENGTH, n->name_length, 1);
        image_put(m, image_record(k) + RECORD_NAME, l->names[k], 4);
    }
}

static void lay_parts(struct image *m, struct laid *l)
{
    l->steps = image_part(m, 4 * (l->rows + 2));
    l->ones = image_part(m, 4 * l->rows);
    l->zeros = image_part(m, l->rows);
    l->keys = image_part(m, l->rows);
    l->letters = image_part(m, l->rows);
    l->bad = image_part(m, l->rows);
    for (uint32_t i = 0; i < l->rows + 2; i++)
        image_put(m, l->steps + 4 * i, i, 4);
    for (uint32_t i = 0; i < l->rows; i++) {
        image_put(m, l->ones + 4 * i, 1, 4);
        image_put(m, l->zeros + i, 0, 1);
        image_put(m, l->keys + i, i, 1);
        image_put(m, l->letters + i, 'a' + i, 1);
        image_put(m, l->bad + i, 255, 1);
    }
}

/* Into memory that ends with the image. It is laid out at the front first, since it is not known before how long it is. */
static struct laid lay(struct lent lent, const struct tree *t, uint32_t rows, enum placing placing)
{
    static uint8_t room[MOST];
    struct laid l = {0};
    uint32_t buffers = 0;
    for (uint32_t k = 0; k < t->count; k++)
        buffers += buffers_of(t->nodes[k].code);
    struct image m = image_in(room, sizeof room, t->count, buffers);
    l.rows = rows;
    lay_parts(&m, &l);
    for (uint32_t k = 0; k < t->count; k++) {
        const struct node *n = &t->nodes[k];
        l.buffers[k] = IMAGE_TABLES(t->count, m.buffer);
        uint32_t record = image_node(&m, n->code, n->p1, rows, n->children, buffers_of(n->code));
        image_put(&m, record + RECORD_FLAGS, n->nullable ? FLAG_NULLABLE : 0, 1);
        image_put(&m, record + RECORD_TYPE_ID, n->id, 1);
        lay_buffers(&m, &l, n);
    }
    lay_names(&m, t, &l, placing);
    l.length = m.length;
    l.image = lent_bytes(lent, l.length, 1);
    memcpy(l.image, room, l.length);
    return l;
}

static uint64_t asked(const struct laid *l) { return editions_map_names(l->image, l->length); }

/* Yes, or no. */
static void expect_names(const char *what, unsigned long which, const struct laid *l, int yes)
{
    expect(what, which, asked(l), answer_of(0, 0, 0, yes));
}

static void put_length(const struct laid *l, uint32_t k, uint32_t length)
{
    l->image[image_record(k) + RECORD_NAME_LENGTH] = (uint8_t)length;
}

static void put_place(const struct laid *l, uint32_t k, uint32_t place)
{
    for (int i = 0; i < 4; i++)
        l->image[image_record(k) + RECORD_NAME + i] = (uint8_t)(place >> 8 * i);
}

/* Names and places as they were laid out. */
static void put_back(const struct laid *l, const struct tree *t, uint32_t k)
{
    const struct node *n = &t->nodes[k];
    memcpy(l->image + l->names[k], n->name, n->name_length);
    put_length(l, k, n->name_length);
    put_place(l, k, l->names[k]);
}

/* A Map's name is of another length, of those above its own by steps, or another role's; its bytes come round in its slot. */
static void other_lengths(const struct tree *t, const struct laid *l, uint32_t k, uint32_t step)
{
    const struct node *n = &t->nodes[k];
    uint8_t *slot = l->image + l->names[k];
    for (uint32_t i = n->name_length; i < SLOT; i++)
        slot[i] = slot[i - n->name_length];
    for (uint32_t length = 0; length <= IMAGE_LONGEST_NAME; length += length > n->name_length ? step : 1)
        if (length != n->name_length) {
            put_length(l, k, length);
            expect_names("another length", k, l, 0);
        }
    put_back(l, t, k);
    for (int role = ENTRIES; role <= VALUE; role++)
        if ((enum role)role != n->role) {
            uint32_t length = (uint32_t)strlen(role_names[role]);
            memcpy(slot, role_names[role], length);
            put_length(l, k, length);
            expect_names("another role's name", k, l, 0);
        }
    put_back(l, t, k);
}

/* A Map's name is empty, at any place; begins later in its slot, where it stands twice, and ends as before or is as long; or lies
 * in the header. */
static void other_places(const struct tree *t, const struct laid *l, uint32_t k)
{
    static const uint32_t anywhere[] = {0, 1, IMAGE_HEADER, MOST, UINT32_MAX / 2, UINT32_MAX - 6, UINT32_MAX};
    const struct node *n = &t->nodes[k];
    memcpy(l->image + l->names[k] + n->name_length, n->name, n->name_length);
    for (unsigned i = 0; i < sizeof anywhere / sizeof anywhere[0]; i++) {
        put_length(l, k, 0);
        put_place(l, k, anywhere[i]);
        expect_names("an empty name anywhere", k, l, 0);
    }
    for (uint32_t moved = 1; moved <= n->name_length; moved++)
        for (int cut = 0; cut < 2; cut++) {
            put_place(l, k, l->names[k] + moved);
            put_length(l, k, n->name_length - (cut ? moved : 0));
            expect_names("a name that begins later", k, l, !cut && moved == n->name_length);
        }
    put_length(l, k, n->name_length);
    for (uint32_t place = 0; place < IMAGE_HEADER; place++) {
        put_place(l, k, place);
        expect_names("a name in the header", k, l, 0);
    }
    put_back(l, t, k);
}

/* A byte more, behind the name or before it: so many of the 256. */
static void one_more(const struct tree *t, const struct laid *l, uint32_t k, uint32_t values)
{
    const struct node *n = &t->nodes[k];
    uint8_t *slot = l->image + l->names[k];
    uint32_t start = values < 256 ? drawn(256) : 0;
    for (int before = 0; before < 2; before++) {
        memcpy(slot + before, n->name, n->name_length);
        put_length(l, k, n->name_length + 1);
        for (uint32_t i = 0; i < values; i++) {
            slot[before ? 0 : n->name_length] = (uint8_t)(start + i);
            expect_names("a byte more", k, l, 0);
        }
        put_back(l, t, k);
    }
}

/* One byte of the name, each in turn, is another: all 255, or so many of those that differ in one bit. */
static void one_byte(const struct tree *t, const struct laid *l, uint32_t k, uint32_t values)
{
    const struct node *n = &t->nodes[k];
    for (uint32_t at = 0; at < n->name_length; at++) {
        uint8_t *byte = l->image + l->names[k] + at, kept = *byte;
        for (uint32_t i = 0; i < values; i++) {
            *byte = kept ^ (uint8_t)(values == 255 ? i + 1 : 1u << (7 * at + 5 + i) % 8);
            expect_names("one byte", k, l, 0);
        }
        *byte = kept;
    }
}

/* The names of two nodes are exchanged. */
static void exchanged(const struct tree *t, const struct laid *l, uint32_t j, uint32_t k)
{
    const struct node *a = &t->nodes[j], *b = &t->nodes[k];
    put_place(l, j, l->names[k]);
    put_length(l, j, b->name_length);
    put_place(l, k, l->names[j]);
    put_length(l, k, a->name_length);
    expect_names("names exchanged", j, l, 0);
    put_back(l, t, j);
    put_back(l, t, k);
}

/* A name that does not count: empty, anywhere; a role's; any bytes, and as many as there may be. */
static void no_matter(const struct tree *t, const struct laid *l, uint32_t k)
{
    uint8_t *slot = l->image + l->names[k];
    const char *name = role_names[ENTRIES + drawn(3)];
    put_length(l, k, 0);
    put_place(l, k, UINT32_MAX - drawn(2));
    expect_names("no name of a Map is empty", k, l, 1);
    put_back(l, t, k);
    put_length(l, k, (uint32_t)strlen(name));
    memcpy(slot, name, strlen(name));
    expect_names("no name of a Map is a Map's", k, l, 1);
    slot[drawn((uint32_t)strlen(name))] ^= (uint8_t)(1u << drawn(8));
    expect_names("no name of a Map is another", k, l, 1);
    put_length(l, k, IMAGE_LONGEST_NAME);
    expect_names("no name of a Map is long", k, l, 1);
    put_back(l, t, k);
}

/* How much is asked of a tree: of each byte of a name how many other ones; how many bytes before and behind it; and the step
 * from one length to the next, 0 where other lengths are not asked about. */
struct share {
    uint32_t values, more, step;
};

static const struct share all = {255, 256, 1}, bits = {8, 16, 1}, few = {2, 2, 14}, one = {1, 1, 0};

/* Each name is another, one at a time. */
static void one_other(const struct tree *t, uint32_t rows, const struct share *share)
{
    static uint8_t kept[MOST];
    struct laid l = lay(memory[0], t, rows, SLOTS);
    memcpy(kept, l.image, l.length);
    expect_names("all right", 0, &l, 1);
    for (uint32_t k = 0; k < t->count; k++) {
        uint32_t parent = t->nodes[k].parent;
        if (!role_names[t->nodes[k].role]) {
            no_matter(t, &l, k);
            continue;
        }
        one_byte(t, &l, k, share->values);
        one_more(t, &l, k, share->more);
        if (share->step > 0) {
            other_lengths(t, &l, k, share->step);
            other_places(t, &l, k);
        }
        if (t->nodes[k].role == KEY) {
            exchanged(t, &l, k, k + 1);
            exchanged(t, &l, k, parent);
            exchanged(t, &l, k + 1, parent);
        }
    }
    expect_names("all right again", 0, &l, 1);
    for (uint32_t k = 0; k < t->count; k++)
        memcpy(l.image + l.names[k], kept + l.names[k], SLOT);
    must("an image that changed", 0, memcmp(kept, l.image, l.length) == 0);
}

/* Each placing, all names right, and then one of them another, as laid out. */
static void placings(struct tree *t, uint32_t rows)
{
    for (int placing = 0; placing < PLACINGS; placing++) {
        struct laid l = lay(memory[0], t, rows, (enum placing)placing);
        expect("right names, placed", placing, asked(&l), wanted(t));
        for (uint32_t k = 0; k < t->count; k++) {
            struct node kept = t->nodes[k];
            if (!role_names[kept.role])
                continue;
            uint32_t at = drawn(kept.name_length), how = drawn(3);
            if (how == 0)
                t->nodes[k].name[at] ^= (uint8_t)(1u << drawn(8));
            else
                t->nodes[k].name_length = how == 1 ? at : kept.name_length + 1;
            l = lay(memory[0], t, rows, (enum placing)placing);
            expect("another name, placed", placing, asked(&l), wanted(t));
            t->nodes[k] = kept;
        }
    }
}

/* The three names of a Map at the root, in all orders, right behind each other: right, or one of them short or long by one, or
 * of one byte, so that it is the image's last part in two of six orders. */
static void orders(void)
{
    static const uint32_t order[6][3] = {{1, 2, 3}, {1, 3, 2}, {2, 1, 3}, {2, 3, 1}, {3, 1, 2}, {3, 2, 1}};
    static const int steps[] = {0, -1, 1, -2, 2};
    struct tree t = {0};
    add_map_of_leaves(&t, top);
    in_order(&t);
    label(&t);
    t.nodes[0].name_length = 0;
    for (unsigned k = 0; k < 6 * 3 * 5; k++) {
        uint32_t changed = 1 + k / 6 % 3;
        struct tree other = t;
        other.nodes[changed].name_length += (uint32_t)steps[k / 18];
        struct laid l = lay(memory[0], &other, k % 2 ? ROWS : 0, TIGHT);
        uint32_t at = l.names[1];
        for (int i = 0; i < 3; i++) {
            uint32_t node = order[k % 6][i];
            l.names[node] = at;
            at += other.nodes[node].name_length;
            put_back(&l, &other, node);
        }
        must("the last name's end", k, at == l.length);
        expect("names in order", k, asked(&l), wanted(&other));
    }
}

/* Places of one text that holds the names many times, over one another, and lengths: for each of the three nodes in turn. */
static void places(void)
{
    static const char text[] = "keyentriesvaluekeysvaluentrieskentrieentries\0valuekEyvaluevalueskey";
    enum { LENGTH = sizeof text - 1 };
    struct tree t = {0};
    add_map_of_leaves(&t, top);
    in_order(&t);
    label(&t);
    put_name(&t.nodes[0], text, 0);
    struct laid l = lay(memory[0], &t, ROWS, TIGHT);
    uint8_t *image = lent_bytes(memory[1], l.length + LENGTH, 1);
    memcpy(image, l.image, l.length);
    memcpy(image + l.length, text, LENGTH);
    l.image = image;
    uint32_t start = (uint32_t)l.length;
    l.length += LENGTH;
    for (uint32_t k = 1; k < 4; k++) {
        for (uint32_t length = 0; length <= 9; length++)
            for (uint32_t at = 0; at + length <= LENGTH; at++) {
                struct node n = t.nodes[k];
                put_name(&n, text + at, length);
                put_length(&l, k, length);
                put_place(&l, k, start + at);
                expect_names("a part of a text", at, &l, is_right(&n));
            }
        put_back(&l, &t, k);
    }
}

/* Names in the records: one of them is looked for at each place of the tables, where it stands only once. */
static void in_tables(void)
{
    struct tree t = {0};
    add_map_of_leaves(&t, top);
    in_order(&t);
    label(&t);
    put_name(&t.nodes[0], "", 0);
    for (int begins = 0; begins < 2; begins++) {
        struct laid l = lay(memory[0], &t, ROWS, IN_RECORDS);
        if (begins) {
            memcpy(lent_bytes(memory[1], l.length, 0), l.image, l.length);
            l.image = lent_bytes(memory[1], l.length, 0);
        }
        for (uint32_t k = 1; k < 4; k++) {
            for (uint32_t place = 0; place + t.nodes[k].name_length <= l.steps; place++) {
                put_place(&l, k, place);
                expect_names("in the tables", place, &l, place == l.names[k]);
            }
            put_back(&l, &t, k);
        }
    }
}

/* Names in the longest image: at its end, and far from others that stand at places alike in their lower bits. */
static void far_places(void)
{
    static const uint32_t apart[] = {1u << 8, 1u << 16, 1u << 23, IMAGE_LONGEST - MOST};
    struct lent longest = lent_pages(IMAGE_LONGEST);
    struct tree t = {0};
    add_map_of_leaves(&t, top);
    in_order(&t);
    label(&t);
    struct laid l = lay(memory[0], &t, ROWS, IN_RECORDS);
    uint8_t *image = lent_bytes(longest, IMAGE_LONGEST, 1);
    memcpy(image, l.image, l.length);
    l.image = image;
    uint32_t end = (uint32_t)l.length;
    l.length = IMAGE_LONGEST;
    for (unsigned k = 0; k < 3 * sizeof apart / sizeof apart[0]; k++) {
        uint32_t node = 1 + k % 3, size = t.nodes[node].name_length, near = end + k % 7, far = near + apart[k / 3];
        if (far + MOST > IMAGE_LONGEST)
            far = IMAGE_LONGEST - size;
        for (int right = 0; right < 2; right++) {
            memset(image + near, 'x', size);
            memset(image + far, 'y', size);
            memcpy(image + (right ? far : near), t.nodes[node].name, size);
            put_place(&l, node, far);
            expect_names("a far name", k, &l, right);
            put_place(&l, node, near);
            expect_names("a near name", k, &l, !right);
        }
        put_place(&l, node, l.names[node]);
    }
}

/* A fault of a node, with the names as they are: the query is refused as the check is, and it is this refusal. */
static void expect_fault(const struct laid *l, size_t length, unsigned fault, uint32_t node)
{
    expect("the check of a fault", fault * 1000ul + node, editions_check(l->image, length), answer_of(fault, 0, node, 0));
    expect("the names of a fault", fault * 1000ul + node, editions_map_names(l->image, length), answer_of(fault, 0, node, 0));
}

/* Some bytes of the image are others, and then again as they were. */
static void with(const struct laid *l, uint32_t at, uint32_t x, uint32_t width, unsigned fault, uint32_t node)
{
    uint8_t kept[4];
    memcpy(kept, l->image + at, width);
    for (uint32_t i = 0; i < width; i++)
        l->image[at + i] = (uint8_t)(x >> 8 * i);
    expect_fault(l, l->length, fault, node);
    memcpy(l->image + at, kept, width);
}

/* What a child with a row too few makes of its parent: 0 where no row asks for it. */
static unsigned too_few(const struct node *parent, const struct node *child)
{
    switch (parent->code) {
    case LIST:
    case LIST_VIEW:
    case MAP: return EDITIONS_OFFSETS;
    case DICTIONARY: return EDITIONS_ROWS;
    case DENSE_UNION: return child->id == 0 ? EDITIONS_ROWS : 0;
    default: return EDITIONS_CHILD;
    }
}

/* The faults of a node's buffers. */
static void buffer_faults(const struct laid *l, const struct node *n, uint32_t k)
{
    uint32_t entry = l->buffers[k], second = entry + IMAGE_ENTRY, past = l->steps + 4;
    uint32_t width = n->code == INT8 || n->code >= DENSE_UNION ? 1 : 4;
    if (n->code == MAP)
        width = 4;
    uint32_t size = width * (l->rows + (n->code == UTF8 || n->code == LIST || n->code == MAP));
    with(l, entry + ENTRY_PLACE, (uint32_t)l->length - size + 1, 4, EDITIONS_BUFFER, k);
    with(l, entry + ENTRY_LENGTH, size - width, 4, EDITIONS_TOO_FEW, k);
    if (n->code == UTF8 || n->code == LIST || n->code == MAP || n->code == LIST_VIEW)
        with(l, entry + ENTRY_PLACE, past, 4, EDITIONS_OFFSETS, k);
    if (n->code == DENSE_UNION)
        with(l, second + ENTRY_PLACE, past, 4, EDITIONS_ROWS, k);
    if (n->code == DENSE_UNION || n->code == SPARSE_UNION || n->code == DICTIONARY)
        with(l, entry + ENTRY_PLACE, l->bad, 4, EDITIONS_ROWS, k);
    if (n->code == UTF8)
        with(l, second + ENTRY_PLACE, l->bad, 4, EDITIONS_TEXT, k);
    if (n->code == INT32)
        with(l, entry + ENTRY_PLACE, l->steps, 4, EDITIONS_ROWS, n->parent);
}

/* Each fault of each node. */
static void faults(const struct tree *t, const struct laid *l)
{
    for (uint32_t k = 0; k < t->count; k++) {
        const struct node *n = &t->nodes[k], *parent = &t->nodes[n->parent];
        uint32_t record = image_record(k);
        with(l, record + RECORD_CODE, IMAGE_CODES, 1, EDITIONS_CODE, k);
        with(l, record + RECORD_FLAGS, 4, 1, EDITIONS_CODE, k);
        with(l, record + RECORD_FIRST_CHILD, 0, 2, EDITIONS_TREE, k);
        if (parent->code != DENSE_UNION && parent->code != SPARSE_UNION)
            with(l, record + RECORD_TYPE_ID, 1, 1, EDITIONS_TREE, k);
        if (parent->code == MAP && k > 0)
            with(l, record + RECORD_CODE, FIXED_SIZE_LIST, 1, EDITIONS_TREE, n->parent);
        with(l, record + RECORD_NAME_LENGTH, IMAGE_LONGEST_NAME + 1, 1, EDITIONS_NAME, k);
        if (n->name_length > 0)
            with(l, record + RECORD_NAME, (uint32_t)l->length - n->name_length + 1, 4, EDITIONS_NAME, k);
        with(l, record + RECORD_FIRST_BUFFER, 9999, 2, EDITIONS_BUFFER, k);
        if (k > 0 && too_few(parent, n) != 0)
            with(l, record + RECORD_LENGTH, l->rows - 1, 4, too_few(parent, n), n->parent);
        if (buffers_of(n->code) > 0)
            buffer_faults(l, n, k);
    }
    for (uint32_t length = 0; length < IMAGE_TABLES(t->count, 0); length += 1 + length / 16)
        expect_fault(l, length, EDITIONS_SIZE, 0);
    with(l, HEADER_NODES, 0, 2, EDITIONS_SIZE, 0);
    with(l, HEADER_NODES, MOST_NODES + 1, 2, EDITIONS_SIZE, 0);
    with(l, HEADER_BUFFERS, 1025, 2, EDITIONS_SIZE, 0);
}

/* With right names, and with one that is another. */
static void refused(const struct tree *t)
{
    struct laid l = lay(memory[0], t, ROWS, SLOTS);
    faults(t, &l);
    for (uint32_t k = t->count; k-- > 0;)
        if (role_names[t->nodes[k].role]) {
            l.image[l.names[k]] ^= 1;
            expect_names("a name that is another", k, &l, 0);
            faults(t, &l);
            break;
        }
}

/* Whether a node's name, and its flag, count. */
static int name_counts(const struct node *n) { return n->role == CHILD; }
static int flag_counts(const struct node *n) { return n->role == CHILD || n->role == KEY || n->role == VALUE; }

/* Tables whose types agree, and ranges of all their rows and of none, both ways round: the row where they part, or as many as
 * there are. */
static void expect_pair(const char *what, unsigned long which, const struct laid *a, const struct laid *b, uint32_t row)
{
    const uint64_t yes = answer_of(0, 0, 0, 1), same = row == a->rows ? yes : 0;
    const uint64_t first = answer_of(0, 0, 0, row == a->rows ? 0 : row + 1);
    for (int turn = 0; turn < 2; turn++) {
        const struct laid *l = turn ? b : a, *r = turn ? a : b;
        expect(what, which, editions_compare(l->image, l->length, r->image, r->length), same);
        expect(what, which, editions_compare_range(l->image, l->length, r->image, r->length, 0, 0, a->rows), same);
        expect(what, which, editions_compare_range(l->image, l->length, r->image, r->length, 0, 0, 0), yes);
        expect(what, which, editions_first_difference(l->image, l->length, r->image, r->length, 0, 0, a->rows), first);
    }
}

/* The tables one way round, and ranges the other. */
static void expect_label(const char *what, unsigned long which, const struct laid *a, const struct laid *b, int agree)
{
    const struct laid *l = which % 2 ? b : a, *r = which % 2 ? a : b;
    expect(what, which, editions_compare(l->image, l->length, r->image, r->length), answer_of(0, 0, 0, agree));
    expect(what, which, editions_compare_range(r->image, r->length, l->image, l->length, 0, 0, a->rows),
           agree ? answer_of(0, 0, 0, 1) : EDITIONS_TYPES);
}

/* One label of the right table is another, each in turn. */
static void one_label(const char *what, const struct tree *t, const struct laid *a, const struct laid *b)
{
    for (uint32_t k = 0; k < t->count; k++) {
        const struct node *n = &t->nodes[k];
        uint8_t *record = b->image + image_record(k), *slot = b->image + b->names[k], kept = *slot;
        record[RECORD_FLAGS] ^= FLAG_NULLABLE;
        expect_label(what, k, a, b, !flag_counts(n));
        record[RECORD_FLAGS] ^= FLAG_NULLABLE;
        if (n->code == MAP) {
            record[RECORD_P1] ^= 1;
            expect_label(what, k, a, b, 0);
            record[RECORD_P1] ^= 1;
        }
        uint8_t length = record[RECORD_NAME_LENGTH];
        record[RECORD_NAME_LENGTH] = length == IMAGE_LONGEST_NAME ? (uint8_t)(length - 1) : (uint8_t)(length + 1);
        expect_label(what, k, a, b, !name_counts(n));
        record[RECORD_NAME_LENGTH] = length;
        if (length == 0)
            continue;
        *slot ^= (uint8_t)(1u << drawn(8));
        expect_label(what, k, a, b, !name_counts(n));
        *slot = kept;
    }
}

/* The tree with other labels wherever they do not count. */
static struct tree freed(const struct tree *t)
{
    struct tree other = *t;
    label(&other);
    for (uint32_t k = 0; k < t->count; k++) {
        struct node *n = &other.nodes[k];
        const struct node *kept = &t->nodes[k];
        if (name_counts(n))
            put_name(n, kept->name, kept->name_length);
        else if (role_names[n->role])
            n->name_length = drawn(n->name_length + 1);
        if (flag_counts(n))
            n->nullable = kept->nullable;
    }
    return other;
}

/* Two tables of the same rows and labels, or with other labels wherever they do not count: then one label more, or a row. */
static void pairs(const struct tree *t, uint32_t rows, int same)
{
    struct tree other = same ? *t : freed(t);
    struct laid a = lay(memory[0], t, rows, SLOTS), b = lay(memory[1], &other, rows, SLOTS);
    expect_pair("labels that agree", (unsigned long)same, &a, &b, rows);
    one_label(same ? "one label" : "one label more", &other, &a, &b);
    for (uint32_t row = 0; row < rows; row++) {
        b.image[b.letters + row] ^= 1;
        expect_pair("a row", row, &a, &b, row);
        b.image[b.letters + row] ^= 1;
    }
}

/* Everything of one tree. */
static void all_of(struct tree *t, const struct share *share)
{
    in_order(t);
    label(t);
    one_other(t, 0, share);
    one_other(t, ROWS, &one);
    placings(t, 0);
    placings(t, ROWS);
    pairs(t, 0, 1);
    pairs(t, ROWS, 0);
    refused(t);
}

/* A Map below each kind of parent, at each depth; and below drawn ones. */
static void chains(void)
{
    enum { DRAWN_TREES = 20 };
    for (uint32_t k = 0; k < WAYS; k++)
        for (uint32_t times = k == 0 ? 0 : 1; times <= (IMAGE_DEEPEST - 3) / levels_of(&ways[k]); times++)
            for (uint32_t lists = 0; lists < levels_of(&ways[k]); lists++) {
                struct tree t = {0};
                struct spot s = lists ? child_of(add(&t, top, LIST)) : top;
                chain(&t, s, &ways[k], times, IMAGE_DEEPEST - lists);
                all_of(&t, (k + times) % 2 ? &all : &bits);
            }
    for (uint32_t k = 0; k < DRAWN_TREES; k++) {
        struct tree t = {0};
        uint32_t root = add(&t, top, STRUCT);
        for (uint32_t j = 0; j < 3; j++)
            chain(&t, child_of(root), NULL, drawn(IMAGE_DEEPEST), IMAGE_DEEPEST - 1);
        all_of(&t, &few);
    }
}

/* Trees without a Map. */
static void without(void)
{
    struct tree leaf = {0}, many = {0};
    add_leaf(&leaf, top);
    all_of(&leaf, &few);
    uint32_t root = add(&many, top, STRUCT);
    while (many.count < MOST_NODES)
        add_leaf(&many, child_of(root));
    all_of(&many, &few);
}

int main(int argc, char **argv)
{
    if (argc != 2) {
        fprintf(stderr, "usage: names SEED\n");
        return 2;
    }
    state = strtoull(argv[1], NULL, 10);
    for (int k = 0; k < 2; k++)
        memory[k] = lent_pages(MOST);
    orders();
    places();
    in_tables();
    far_places();
    chains();
    struct tree maps = {0}, columns = {0};
    add_maps_of_maps(&maps);
    all_of(&maps, &few);
    add_struct_of_maps(&columns);
    all_of(&columns, &few);
    without();
    expect("no image", 0, editions_map_names(NULL, 0), answer_of(EDITIONS_SIZE, 0, 0, 0));
    return tally("names");
}
