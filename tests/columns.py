"""Random columns: a type, rows of that type, and the many layouts that an image may give them.

A `Type` is what two images must have in common to be comparable; a row is a plain value (None, bytes, lists, pairs), texts
being UTF-8 where they are to be; `lay` gives rows a layout: offsets, first bits, garbage under nulls, keys and runs and views
in any order. Two layouts of the same rows make equal tables.
"""

import letters
from image import FIELDS, INLINE, LONGEST_NAME, VIEW, by_level, flags, number, tables, tables_size, view
from model import BOOLEAN, DENSE_UNION, DICTIONARY, FIXED_SIZE_BINARY, FIXED_SIZE_LIST, LIST, LIST_VIEWS, LISTS, MAP, NULL
from model import OFFSET_WIDTH, P1, READABLE, RUN_END_ENCODED, SPARSE_UNION, STRUCT, TEXTS, UNIONS, UTF8S, VIEWS, WIDTHS

LEAVES = [NULL, BOOLEAN, *range(2, LIST)]
NESTED = [*range(LIST, RUN_END_ENCODED + 1)]

# the names of a Map's entries, key and value that the query asks for
MAP_NAMES = [b"entries", b"key", b"value"]

# how long texts that are not among the usual few are
TEXT_LENGTHS = [1, 4, 12, 13, 20]

# how many of these are ill-formed where they are to be UTF-8
ILL_FORMED = 0.0


class Type:
    def __init__(self, code, p1=0, p2=0, children=(), name=b"", nullable=False, id=0):
        self.code, self.p1, self.p2, self.children = code, p1, p2, list(children)
        self.name, self.nullable, self.id = name, nullable, id

    def copy(self, **changes):
        made = Type(self.code, self.p1, self.p2, [child.copy() for child in self.children], self.name, self.nullable, self.id)
        for field, value in changes.items():
            setattr(made, field, value)
        return made

    def width(self):
        if self.code == FIXED_SIZE_BINARY:
            return self.p1
        return WIDTHS[self.p1 if self.code == DICTIONARY else self.code]

    def all(self):
        return [self] + [below for child in self.children for below in child.all()]

    def maps(self):
        """Of each Map the Map, its entries, its key and its value."""
        return [(map, *map.children, *map.children[0].children) for map in self.all() if map.code == MAP]


def map_name(rng, usual):
    """A name for a Map's entries, key or value: the one that is asked for, one near it, or any."""
    return rng.choice([usual, usual, usual[:-1], usual + b"s", rng.randbytes(rng.choice([0, 1, 3]))])


def random_map(rng, depth):
    """The entries of a Map of a depth that may not count them, half of them with the names that are asked for."""
    below = [random_type(rng, max(depth - rng.choice([1, 2]), 1)) for _ in range(2)]
    entries = Type(STRUCT, children=below, nullable=rng.random() < 0.3)
    usual = rng.random() < 0.5
    for node, name in zip([entries, *below], MAP_NAMES):
        node.name = name if usual else map_name(rng, name)
    return entries


def random_type(rng, depth=3, code=None):
    """A type of at most that depth, but for the entries of Maps."""
    if code is None:
        code = rng.choice(LEAVES if depth <= 1 else LEAVES + NESTED * 3 + [MAP] * 9)
    made = Type(code, name=rng.randbytes(rng.choice([0, 0, 1, 3, LONGEST_NAME])), nullable=rng.random() < 0.5)
    low, high = P1.get(code, (0, 0))
    made.p1 = rng.choice([0, 1, 2, 3, 7, 16]) if code in (FIXED_SIZE_BINARY,) else rng.choice([0, 1, 2, 3]) if code == FIXED_SIZE_LIST else rng.randint(low, high)
    if 15 <= code <= 18:
        made.p2 = rng.choice([-128, -1, 0, 5, 127])
    if code == MAP:
        made.children = [random_map(rng, depth)]
    elif code == RUN_END_ENCODED:
        made.children = [Type(rng.choice([3, 4, 5]), name=b"run_ends"), random_type(rng, depth - 1)]
    elif code in UNIONS:
        ids = sorted(rng.sample(range(128), rng.randint(1, 3)))
        made.children = [random_type(rng, depth - 1).copy(id=id) for id in ids]
    elif code == STRUCT:
        made.children = [random_type(rng, depth - 1) for _ in range(rng.randint(0, 3))]
    elif code in NESTED:
        made.children = [random_type(rng, depth - 1)]
    return made


def readable_type(rng, depth, code=None):
    """A type whose rows may be read back, of at most that depth."""
    leaves, nested = sorted(READABLE & {*LEAVES}), sorted(READABLE & {*NESTED})
    if code is None:
        code = rng.choice(leaves if depth <= 1 else leaves + nested * 12)
    made = random_type(rng, 1, code)
    if code in nested:
        made.children = [readable_type(rng, depth - 1) for _ in range(rng.choice([0, 1, 1, 2, 3]) if code == STRUCT else 1)]
    return made


def has_bitmap(type):
    return type.code not in (NULL, DENSE_UNION, SPARSE_UNION, RUN_END_ENCODED)


def random_row(rng, type, nulls=0.2):
    """None is a null row. A Dictionary's and a run's value is a list of one row, since that row may be null by itself."""
    code = type.code
    if has_bitmap(type) and rng.random() < nulls:
        return None
    if code == NULL:
        return b""
    if code == BOOLEAN:
        return rng.randint(0, 1)
    if code in TEXTS or code in VIEWS:
        made = letters.ill_formed if rng.random() < ILL_FORMED else letters.text
        size = rng.choice(TEXT_LENGTHS)
        return rng.choice([b"", b"a", b"b", b"ab", made(rng, size) if code in UTF8S else rng.randbytes(size)])
    if code in LISTS or code in LIST_VIEWS:
        return [random_row(rng, type.children[0], nulls) for _ in range(rng.choice([0, 1, 2, 3]))]
    if code == FIXED_SIZE_LIST:
        return [random_row(rng, type.children[0], nulls) for _ in range(type.p1)]
    if code == STRUCT:
        return [random_row(rng, child, nulls) for child in type.children]
    if code in UNIONS:
        child = rng.choice(type.children)
        return (child.id, random_row(rng, child, nulls))
    if code in (DICTIONARY, RUN_END_ENCODED):
        return [random_row(rng, type.children[-1], nulls)]
    few = [bytes(type.width()), b"\x01".ljust(type.width(), b"\x00")[: type.width()], b"\x80".rjust(type.width(), b"\x00")[: type.width()]]
    return rng.choice(few + [rng.randbytes(type.width())])


def unread_row(rng, type):
    """What stands under a null or before the offset: any value of the type, and any bytes where it is text."""
    return letters.garbage(rng, rng.choice(TEXT_LENGTHS)) if type.code in UTF8S else random_row(rng, type, 0.0)


class Node:
    """A laid out column: what its record says, and the bytes of its buffers."""

    def __init__(self, type, length, offset, buffers, children=(), bitmap=None, first_bit=0):
        self.type, self.length, self.offset = type, length, offset
        self.buffers, self.children = list(buffers), list(children)
        self.bitmap, self.first_bit = bitmap, first_bit


def lay(rng, type, rows, plain=False):
    """A node whose rows are these. `plain` leaves out what only makes a layout unusual."""
    code = type.code
    odd = 0.0 if plain else 0.5
    offset = rng.choice([1, 2, 5, 9]) if rng.random() < odd else 0
    stored = [unread_row(rng, type) for _ in range(offset)] + [unread_row(rng, type) if row is None else row for row in rows]
    e = len(stored)
    bitmap, first_bit = None, 0
    if has_bitmap(type) and (None in rows or rng.random() < odd):
        first_bit = rng.choice([0, 1, 3, 8, 13]) if rng.random() < odd else 0
        bits = [rng.randint(0, 1) for _ in range(first_bit)] + [int(row is not None) for row in rows]
        bits += [rng.randint(0, 1) for _ in range(-len(bits) % 8)]
        bitmap = bytes(sum(bits[k + b] << b for b in range(8)) for k in range(0, len(bits), 8))
        bitmap += rng.randbytes(1) if rng.random() < odd else b""
    node = Node(type, len(rows), offset, [], (), bitmap, first_bit)
    judged = [offset <= j and rows[j - offset] is not None for j in range(e)]
    spare = rng.randint(1, 3) if rng.random() < odd else 0
    if code == NULL:
        pass
    elif code == BOOLEAN:
        bits = stored + [rng.randint(0, 1) for _ in range(-e % 8)]
        node.buffers = [bytes(sum(bits[k + b] << b for b in range(8)) for k in range(0, e, 8))]
    elif code in TEXTS:
        start = rng.randbytes(rng.choice([0, 3])) if rng.random() < odd else b""
        ends, data = [len(start)], start
        for text in stored:
            data += text
            ends.append(len(data))
        node.buffers = [b"".join(number(OFFSET_WIDTH[code], end) for end in ends), data + rng.randbytes(spare)]
    elif code in VIEWS:
        node.buffers = lay_views(rng, stored, judged, odd)
    elif code in LISTS:
        child = type.children[0]
        below = [random_row(rng, child) for _ in range(rng.choice([0, 2]))] if rng.random() < odd else []
        ends = [len(below)]
        for row in stored:
            below += row
            ends.append(len(below))
        below += [random_row(rng, child) for _ in range(spare)]
        node.buffers = [b"".join(number(OFFSET_WIDTH[code], end) for end in ends)]
        node.children = [lay(rng, child, below, plain)]
    elif code in LIST_VIEWS:
        node.buffers, node.children = lay_list_views(rng, type, stored, odd, plain)
    elif code == FIXED_SIZE_LIST:
        child = type.children[0]
        below = [row for rows in stored for row in rows] + [random_row(rng, child) for _ in range(spare)]
        node.children = [lay(rng, child, below, plain)]
    elif code == STRUCT:
        for k, child in enumerate(type.children):
            below = [row[k] for row in stored] + [random_row(rng, child) for _ in range(rng.randint(0, spare))]
            node.children.append(lay(rng, child, below, plain))
    elif code in UNIONS:
        node.buffers, node.children = lay_union(rng, type, stored, offset, spare, plain)
    elif code == DICTIONARY:
        node.buffers, node.children = lay_dictionary(rng, type, stored, judged, odd, plain)
    elif code == RUN_END_ENCODED:
        node.children = lay_runs(rng, type, stored, odd, plain)
    else:
        node.buffers = [b"".join(stored) + rng.randbytes(spare)]
    return node


def lay_views(rng, stored, judged, odd):
    data = [bytearray(rng.randbytes(rng.randint(0, 3))) for _ in range(rng.randint(1, 3))]
    views = b""
    for text, counts in zip(stored, judged):
        if not counts and rng.random() < odd:
            views += rng.randbytes(VIEW)
        elif len(text) <= INLINE:
            views += view(text)
        else:
            k = rng.randrange(len(data))
            views += view(text, k, len(data[k]))
            data[k] += text + rng.randbytes(rng.choice([0, 2]))
    return [views] + [bytes(part) for part in data]


def lay_list_views(rng, type, stored, odd, plain):
    child, width = type.children[0], OFFSET_WIDTH[type.code]
    below, places = [], [None] * len(stored)
    order = list(range(len(stored)))
    if rng.random() < odd:
        rng.shuffle(order)
    for j in order:
        row = stored[j]
        shared = [at for at in range(len(below) + 1 - len(row)) if below[at : at + len(row)] == row]
        if shared and rng.random() < odd:
            places[j] = rng.choice(shared)
        else:
            if rng.random() < odd:
                below.append(random_row(rng, child))
            places[j] = len(below)
            below += row
    buffers = [b"".join(number(width, x) for x in column) for column in (places, [len(row) for row in stored])]
    return buffers, [lay(rng, child, below, plain)]


def lay_union(rng, type, stored, offset, spare, plain):
    ids = [id for id, _ in stored]
    if type.code == SPARSE_UNION:
        children = []
        for child in type.children:
            below = [row if id == child.id else random_row(rng, child) for id, row in stored]
            children.append(lay(rng, child, below + [random_row(rng, child) for _ in range(rng.randint(0, spare))], plain))
        buffers = []
    else:
        below = {child.id: [random_row(rng, child) for _ in range(rng.randint(0, spare))] for child in type.children}
        offsets = [0] * len(stored)
        order = list(range(len(stored)))
        if not plain:
            rng.shuffle(order)
        for j in order:
            id, row = stored[j]
            offsets[j] = len(below[id])
            below[id].append(row)
        children = [lay(rng, child, below[child.id], plain) for child in type.children]
        buffers = [b"".join(number(4, x) for x in offsets)]
    if not plain:
        # ids before the offset are not judged
        ids[:offset] = [rng.randrange(256) for _ in range(offset)]
    return [bytes(ids)] + buffers, children


def lay_dictionary(rng, type, stored, judged, odd, plain):
    child, width = type.children[0], type.width()
    values = [random_row(rng, child) for _ in range(rng.randint(0, 2))] if rng.random() < odd else []
    seen = set(map(repr, values))
    for row in stored:
        if repr(row[0]) not in seen or rng.random() < odd / 2:
            values.append(row[0])
            seen.add(repr(row[0]))
    if rng.random() < odd:
        rng.shuffle(values)
    # as many as a key can name
    values = values[: 256**width // (2 if type.p1 <= 5 else 1)]
    places = {}
    for k, value in enumerate(values):
        places.setdefault(repr(value), []).append(k)
    keys = []
    for row, counts in zip(stored, judged):
        if counts:
            # an IndexError where no key can name the value
            keys.append(rng.choice(places.get(repr(row[0]), [])))
        else:
            keys.append(rng.randrange(256) if rng.random() < odd else 0)
    return [b"".join(number(width, key) for key in keys)], [lay(rng, child, values, plain)]


def lay_runs(rng, type, stored, odd, plain):
    ends_type, child = type.children
    ends, values = [], []
    for j, row in enumerate(stored):
        if values and values[-1] == row[0] and not rng.random() < odd / 2:
            ends[-1] = j + 1
        else:
            ends.append(j + 1)
            values.append(row[0])
    if ends and rng.random() < odd:
        ends[-1] += rng.randint(0, 4)
    if rng.random() < odd / 2:
        ends.append((ends[-1] if ends else 0) + 2)
        values.append(random_row(rng, child))
    width = WIDTHS[ends_type.code]
    offset = rng.choice([1, 3]) if rng.random() < odd else 0
    stored_ends = rng.randbytes(offset * width) + b"".join(number(width, end) for end in ends)
    return [Node(ends_type, len(ends), offset, [stored_ends]), lay(rng, child, values, plain)]


def image(rng, root, plain=False):
    """The bytes of a laid out column: nodes level by level, then the buffers, bitmaps and names, in any order and apart."""
    nodes = by_level(root)
    start = tables_size(len(nodes), sum(len(node.buffers) for node in nodes))
    parts = [part for node in nodes for part in (*node.buffers, node.bitmap, node.type.name) if part]
    if not plain:
        rng.shuffle(parts)
    places, data = {}, b""
    for part in parts:
        if part in places and not plain:
            continue
        data += rng.randbytes(rng.choice([0, 0, 0, 1, 5])) if not plain else b""
        places[part] = start + len(data)
        data += part

    def garbage(field):
        """What a field holds that is not read."""
        return 0 if plain else rng.randrange(256 ** FIELDS[field])

    def described(node):
        t = node.type
        fields = dict(code=t.code, flags=flags(t.nullable, node.bitmap is not None), type_id=t.id, p1=t.p1, p2=t.p2)
        fields |= dict(length=node.length, offset=node.offset, name_length=len(t.name))
        fields["name_place"] = places[t.name] if t.name else garbage("name_place")
        if node.bitmap is None:
            fields |= {field: garbage(field) for field in ("bitmap_place", "bitmap_length", "first_bit")}
        else:
            fields |= dict(bitmap_place=places.get(node.bitmap, 0), bitmap_length=len(node.bitmap), first_bit=node.first_bit)
        return fields, [(places.get(stored, 0), len(stored)) for stored in node.buffers]

    return b"".join(tables(nodes, described)) + data


def change_row(rng, type, row):
    """A row that differs in one place, at any depth; the row itself where it has no other value."""
    code = type.code
    if row is None or (has_bitmap(type) and rng.random() < 0.15):
        return random_row(rng, type, 0.0) if row is None else None
    if code == NULL:
        return row
    if code == BOOLEAN:
        return 1 - row
    if code in TEXTS or code in VIEWS:
        if row and rng.random() < 0.7:
            return letters.changed(rng, row) if code in UTF8S else change_byte(rng, row)
        return row + b"x"
    if code in LISTS or code in LIST_VIEWS:
        if row and rng.random() < 0.7:
            k = rng.randrange(len(row))
            return row[:k] + [change_row(rng, type.children[0], row[k])] + row[k + 1 :]
        return row + [random_row(rng, type.children[0])]
    if code in UNIONS:
        child = next(child for child in type.children if child.id == row[0])
        if rng.random() < 0.3:
            other = rng.choice(type.children)
            return (other.id, random_row(rng, other))
        return (row[0], change_row(rng, child, row[1]))
    if code in (FIXED_SIZE_LIST, STRUCT, DICTIONARY, RUN_END_ENCODED):
        if not row:
            return row
        k = rng.randrange(len(row))
        child = type.children[k] if code == STRUCT else type.children[-1]
        return row[:k] + [change_row(rng, child, row[k])] + row[k + 1 :]
    return change_byte(rng, row) if row else row


def change_byte(rng, row):
    k = rng.randrange(len(row))
    return row[:k] + bytes([row[k] ^ (1 << rng.randrange(8))]) + row[k + 1 :]


def change_type(rng, type):
    """A type that differs in one of p1, p2, a name, a nullable flag or an id, somewhere in the tree; where there are Maps, half
    of the time in a label of one, of its entries, its key, its value or a child of these."""
    made = type.copy()
    node = rng.choice(made.all())
    what = rng.randrange(5)
    maps = made.maps()
    if maps and rng.random() < 0.5:
        map, entries, *fields = rng.choice(maps)
        below = [child for field in fields for child in field.children]
        node, what = rng.choice([map, entries, *fields, *below]), rng.randrange(3)
    if what == 0:
        node.name = rng.randbytes(rng.choice([0, 1, 2]))
    elif what == 1:
        node.nullable = not node.nullable
    elif what == 2 and node.code in P1 and node.code not in (FIXED_SIZE_BINARY, FIXED_SIZE_LIST, DICTIONARY):
        node.p1 = rng.randint(*P1[node.code])
    elif what == 3 and 15 <= node.code <= 18:
        node.p2 = rng.choice([-128, 0, 1, 127])
    elif node.code in UNIONS and node.children:
        child = node.children[-1]
        if child.id < 127:
            child.id += 1
    return made


def relabelled(old, new, row):
    """A row of a type as one of another that differs in labels alone: ids change with their children's."""
    if row is None:
        return None
    if old.code in UNIONS:
        k = next(k for k, child in enumerate(old.children) if child.id == row[0])
        return (new.children[k].id, relabelled(old.children[k], new.children[k], row[1]))
    if old.code in NESTED:
        children = range(len(row)) if old.code == STRUCT else [-1] * len(row)
        return [relabelled(old.children[k], new.children[k], below) for k, below in zip(children, row)]
    return row


def damage(rng, data):
    """An image with a few bytes changed, cut or added."""
    data = bytearray(data)
    for _ in range(rng.choice([1, 1, 1, 2, 4])):
        what = rng.randrange(6)
        if what == 0 and len(data) > 1:
            del data[rng.randrange(len(data)) :]
        elif what == 1:
            data += rng.randbytes(rng.randint(1, 8))
        elif data:
            # half of the changes hit the header and the tables
            end = min(len(data), tables_size(data[0], 1)) if rng.random() < 0.6 else len(data)
            at = rng.randrange(end)
            data[at] = rng.choice([0, 1, 255, data[at] ^ (1 << rng.randrange(8)), rng.randrange(256)])
    return bytes(data)
