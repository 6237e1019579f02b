"""Random pairs of accepted images to ask both sides about, and the file that a program answers them from.

A pair has a kind: the same rows in two layouts, one difference at any depth, types that differ, ranges, no rows, one or more
differences far down. Types and layouts are those of tests/columns.py; `odd_places` adds what an accepted image may hold where
nothing counts.
"""

import os
import struct
import sys

sys.path.insert(0, os.path.join(os.path.dirname(os.path.abspath(__file__)), ".."))

import columns
import model
from image import DEEPEST, VIEW, number
from model import DENSE_UNION, DICTIONARY, FIXED_SIZE_BINARY, LIST_VIEWS, LISTS, MAP, OFFSET_WIDTH, RUN_END_ENCODED, STRUCT, TEXTS, UNIONS, VIEWS, WIDTHS

KINDS = ["layouts", "difference", "labels", "types", "range", "range with a difference", "no rows", "differences far down"]

# how many of the long tables have more than a block of rows
VERY_LONG = 0.03

# how many types with nodes below the root get a Map among them
MAPS = 0.3

# codes whose rows have the same form, so that one type's rows can be laid out as another's
FORMS = [[code for code in WIDTHS if WIDTHS[code] == width] for width in (1, 2, 4, 8, 16)]
FORMS += [[*TEXTS, *VIEWS], [33, 34, 35, 36], [39, 40]]


class Case:
    def __init__(self, left, right, range=None, masks=0):
        self.left, self.right, self.range, self.masks = left, right, range, masks

    def packed(self, rows=False):
        """As tests/rust/harness/src/cases.rs reads it; `rows` asks the Rust for the first unequal row too."""
        kind = (self.range is not None) + 2 * self.masks + 4 * rows
        return struct.pack("<I", len(self.left)) + self.left + struct.pack("<I", len(self.right)) + self.right + struct.pack("<IIIB", *self.part(), kind)

    def part(self):
        """The range that is asked about; where whole tables are, as many rows as the left one has."""
        return self.range or (0, 0, model.Image(self.left).nodes[0].length)

    def frames(self):
        """The session's frames that store the pair and ask about it."""
        for side, data in enumerate((self.left, self.right)):
            yield bytes([7, side])
            for at in range(0, len(data), model.Session.PIECE):
                yield bytes([1 + side]) + data[at : at + model.Session.PIECE]
            yield bytes([3, side])
        yield b"\x05" + struct.pack("<III", *self.range) if self.range else b"\x04"

    def rows(self):
        """The rows of the longer table."""
        return max(model.Image(image).nodes[0].length for image in (self.left, self.right))

    def deeper_maps(self):
        """Whether the left table has Maps below the root."""
        return any(record.code == MAP for record in model.Image(self.left).nodes[1:])

    def line(self):
        starts = " ".join(map(str, self.range or (0, 0, 0)))
        return "%s %s %s %s" % (self.left.hex(), self.right.hex(), starts, "range" if self.range else "whole")

    def model(self):
        """The answer of document 01's model: (number, side, node, value)."""
        if self.range:
            return model.compare_range(self.left, self.right, *self.range)
        return model.compare(self.left, self.right)

    def range_model(self):
        """The model's answer on the range `part`."""
        return model.compare_range(self.left, self.right, *self.part())

    def first_model(self):
        """The model's first unequal row of the range `part`."""
        return model.first_difference(self.left, self.right, *self.part())


def random_type(rng, code):
    depth = rng.choice([2, 2, 3, 3, 3, 4, 5])
    made = columns.random_type(rng, depth, code)
    if made.children and rng.random() < MAPS:
        put_map(rng, made)
    if made.code in UNIONS and rng.random() < 0.05:
        made.children = []
    elif rng.random() < 0.01:
        while depth_of(made) < DEEPEST:
            parent = rng.choice([33, 37, 38, 40])
            made = columns.Type(parent, int(parent == 37), children=[made.copy(id=5 if parent == 40 else 0)])
    return made


def put_map(rng, type):
    """A Map instead of a node below the root that may be of any type."""
    kept = [node.children[0] for node in type.all() if node.code in (MAP, RUN_END_ENCODED)]
    places = [(node, k) for node in type.all() for k, child in enumerate(node.children) if child not in kept]
    node, k = rng.choice(places)
    old = node.children[k]
    node.children[k] = columns.random_type(rng, rng.choice([2, 2, 3, 4]), MAP).copy(name=old.name, nullable=old.nullable, id=old.id)


def depth_of(type):
    return 1 + max(map(depth_of, type.children), default=0)


def random_rows(rng, type, nulls):
    if type.code in UNIONS and not type.children:
        return []
    count = rng.choice([0, 1, 2, 3, 5, 8])
    if depth_of(type) <= 2 and rng.random() < 0.08:
        # more than a word or a block of rows
        count = rng.choice([1023, 1025, 2500]) if rng.random() < VERY_LONG else rng.choice([63, 64, 65, 130, 300])
    return [columns.random_row(rng, type, nulls) for _ in range(count)]


def change_labels(rng, type):
    made = type
    for _ in range(rng.randint(1, 3)):
        made = columns.change_type(rng, made)
    return made


def labels_that_do_not_count(rng, type):
    """Another name and flag for the root, for Dictionaries' children and for the entries of Maps, and other names for keys and
    values, at any depth."""
    made = type.copy()
    free = [made] + [node.children[0] for node in made.all() if node.code == DICTIONARY]
    named = []
    for _, entries, *fields in made.maps():
        free.append(entries)
        named += fields
    for node in free + named:
        if rng.random() < 0.5:
            node.name = rng.choice([rng.randbytes(rng.randint(0, 3)), rng.choice(columns.MAP_NAMES)])
    for node in free:
        node.nullable = rng.random() < 0.5
    return made


def change_form(rng, type):
    """A type of another code, key code or count of children somewhere. `refit` gives its rows."""
    made = type.copy()
    entries = [node.children[0] for node in made.all() if node.code == MAP]
    node = rng.choice([node for node in made.all() if node not in entries])
    siblings = [form for form in FORMS if node.code in form]
    if node.code == STRUCT and rng.random() < 0.5:
        node.children.append(columns.Type(0, name=b"new"))
    elif node.code == DICTIONARY:
        node.p1 = rng.randint(2, 9)
    elif siblings and node.name != b"run_ends":
        node.code = rng.choice(siblings[0])
        low, high = model.P1.get(node.code, (0, 0))
        node.p1, node.p2 = rng.randint(low, high), 0
    elif node.code == RUN_END_ENCODED:
        node.children[0].code = rng.choice([3, 4, 5])
    return made


def refit(old, new, row):
    """A row of the old type as one of the new, which may have one more child."""
    if row is None or old.code not in columns.NESTED:
        return row
    if old.code in UNIONS:
        k = next(k for k, child in enumerate(old.children) if child.id == row[0])
        return (row[0], refit(old.children[k], new.children[k], row[1]))
    if old.code == STRUCT:
        return [refit(*each) for each in zip(old.children, new.children, row)] + [b""] * (len(new.children) - len(old.children))
    return [refit(old.children[-1], new.children[-1], below) for below in row]


def change_one(rng, type, rows):
    if not rows:
        return rows
    k = rng.randrange(len(rows))
    return rows[:k] + [columns.change_row(rng, type, rows[k])] + rows[k + 1 :]


def far_down(rng, code):
    """A type, rows of it, others of which one to four differ, and the range of these or none: 64 rows and more, the first of
    those that differ in the second half, at the end, or where a power of two ends or begins."""
    type = random_type(rng, code)
    while depth_of(type) > 3 or type.code in UNIONS and not type.children:
        type = random_type(rng, code)
    nulls = rng.choice([0.0, 0.1, 0.2, 0.5, 0.9])
    count = 1025 if rng.random() < VERY_LONG / 4 else rng.choice([64, 65, 100, 130, 200, 300])
    rows, before, after, others_before, others_after = (
        [columns.random_row(rng, type, nulls) for _ in range(size)] for size in (count, *(rng.choice([0, 0, 1, 7, 64]) for _ in range(4)))
    )
    first = min(rng.choice([rng.randrange(count // 2, count), rng.choice([63, 64, 127, 128, 255, 256]), count - 1]), count - 1)
    others = list(rows)
    for k in [first] + [rng.randrange(first, count) for _ in range(rng.randrange(4))]:
        others[k] = columns.change_row(rng, type, others[k])
    if rng.random() < 0.5:
        return type, rows, others, None
    return type, before + rows + after, others_before + others + others_after, (len(before), len(others_before), count)


def random_case(rng, code, kind):
    """A pair of that kind; the left or the right type has that code. None where the rows do not fit the layout, or a type is
    deeper than an image may be."""
    if kind == "differences far down":
        type, rows, others, asked = far_down(rng, code)
        return laid_out(rng, type, rows, type, others, asked)
    nulls = rng.choice([0.0, 0.1, 0.2, 0.5, 0.9])
    type = random_type(rng, code)
    rows = [] if kind == "no rows" else random_rows(rng, type, nulls)
    other, others = type, rows
    if rng.random() < 0.3:
        other = labels_that_do_not_count(rng, type)
    asked = None
    if kind == "difference":
        others = change_one(rng, type, rows)
        if rng.random() < 0.05:
            others = others[:-1]
    elif kind == "labels":
        other = change_labels(rng, type)
        others = [columns.relabelled(type, other, row) for row in rows]
    elif kind == "types":
        other = change_form(rng, type)
        if depth_of(other) > DEEPEST:
            return None
        others = [refit(type, other, row) for row in rows]
    elif kind.startswith("range"):
        start = rng.randint(0, len(rows))
        count = rng.randint(0, len(rows) - start)
        part = rows[start : start + count]
        if kind != "range":
            part = change_one(rng, type, part)
        before, after = random_rows(rng, type, nulls), random_rows(rng, type, nulls)
        others = before + part + after
        asked = (start, len(before), count)
    elif kind == "no rows" and rng.random() < 0.5:
        asked = (0, 0, 0)
    return laid_out(rng, type, rows, other, others, asked)


def laid_out(rng, type, rows, other, others, asked):
    """The pair of these rows, each side of its type and in a layout of its own, the sides in either order. None where the rows
    do not fit the layout."""
    try:
        left, right = laid(rng, type, rows), laid(rng, other, others)
    except IndexError:
        # more values than a Dictionary's keys of one byte can name
        return None
    if rng.random() < 0.5:
        left, right = right, left
        asked = asked and (asked[1], asked[0], asked[2])
    return Case(left, right, asked, rng.randint(0, 1))


def laid(rng, type, rows):
    """An image of these rows, in any layout."""
    no_rows = type.code in UNIONS and not type.children
    node = columns.lay(rng, type, rows, plain=no_rows or rng.random() < 0.1)
    if rng.random() < 0.5:
        odd_places(rng, node)
    return columns.image(rng, node)


def odd_places(rng, node):
    """Anything where nothing counts: elements past e, dense offsets before the offset, places of null and empty list views."""
    code, e = node.type.code, node.offset + node.length
    width = OFFSET_WIDTH.get(code, 4)
    past = rng.randrange(3)
    if code in LISTS or code in TEXTS:
        node.buffers[0] += rng.randbytes(past * width)
    elif code in LIST_VIEWS:
        end = node.children[0].length
        pairs = [[int.from_bytes(part[k : k + width], "little") for part in node.buffers] for k in range(0, e * width, width)]
        for j, pair in enumerate(pairs):
            if j < node.offset or is_null(node, j - node.offset):
                pair[0] = rng.randint(0, end)
                pair[1] = rng.randint(0, end - pair[0])
            elif pair[1] == 0:
                pair[0] = rng.randint(0, end)
        node.buffers = [b"".join(number(width, pair[k]) for pair in pairs) + rng.randbytes(past * width) for k in (0, 1)]
    elif code in UNIONS:
        node.buffers[0] += rng.randbytes(past)
        if code == DENSE_UNION:
            node.buffers[1] = rng.randbytes(4 * node.offset) + node.buffers[1][4 * node.offset :] + rng.randbytes(4 * past)
    elif code == DICTIONARY:
        node.buffers[0] += rng.randbytes(past * node.type.width())
    elif code in VIEWS:
        node.buffers[0] += rng.randbytes(past * VIEW)
        node.buffers += [rng.randbytes(past)] * past
    elif code == FIXED_SIZE_BINARY or code == model.BOOLEAN or code in WIDTHS:
        node.buffers[0] += rng.randbytes(past)
    for child in node.children:
        odd_places(rng, child)


def is_null(node, i):
    bit = node.first_bit + i
    return node.bitmap is not None and node.bitmap[bit // 8] >> (bit % 8) & 1 == 0
