"""The pairs that document 01 names, as calls on images, and its answers; of Maps inside a List, document 02's.

Images are laid out from columns as crates/cases/specs/Build.antt lays them out: nodes level by level, and the bytes of
each node's buffers, bitmap and name after the tables, in that order.
"""

from image import DEEPEST, by_level, flags, number, tables, tables_size, view

# The type codes that the pairs use.
INT8, INT16, FLOAT32, UTF8, FIXED_SIZE_BINARY, UTF8_VIEW = 2, 3, 11, 26, 30, 31
LIST, LARGE_LIST_VIEW, STRUCT, SPARSE_UNION, DICTIONARY, MAP, RUN_END_ENCODED = 33, 36, 38, 40, 41, 42, 43


class Column:
    """A node: its field, what it stores, and its children."""

    def __init__(self, code, rows, buffers, children=(), p1=0, name="", nullable=False, id=0, bits=None):
        self.code, self.rows, self.p1, self.id = code, rows, p1, id
        self.buffers, self.children, self.nullable = list(buffers), list(children), nullable
        self.name = name.encode("ascii")
        self.bitmap = b""
        if bits is not None:
            packed = sum(bit << place for place, bit in enumerate(bits))
            self.bitmap = number((len(bits) + 7) // 8, packed)

    def placed(self):
        return b"".join(self.buffers) + self.bitmap + self.name

    def described(self, place):
        """The fields of its record, and the places and lengths of its buffers, where its bytes stand from that place on."""
        buffers = []
        for stored in self.buffers:
            buffers.append((place, len(stored)))
            place += len(stored)
        fields = dict(code=self.code, flags=flags(self.nullable, self.bitmap), type_id=self.id, p1=self.p1, length=self.rows)
        if self.bitmap:
            fields |= dict(bitmap_place=place, bitmap_length=len(self.bitmap))
        if self.name:
            fields |= dict(name_place=place + len(self.bitmap), name_length=len(self.name))
        return fields, buffers


def image(root):
    """The image of a column, in parts: the header, the records, the entries and the bytes of each node."""
    nodes = by_level(root)
    places, place = {}, tables_size(len(nodes), sum(len(node.buffers) for node in nodes))
    for node in nodes:
        places[node] = place
        place += len(node.placed())
    return tables(nodes, lambda node: node.described(places[node])) + [node.placed() for node in nodes if node.placed()]


# Columns.


def numbers(code, width, values, **field):
    return Column(code, len(values), [b"".join(number(width, value) for value in values)], **field)


def int8(values, **field):
    return numbers(INT8, 1, values, **field)


def texts(values, **field):
    ends = [sum(map(len, values[:i])) for i in range(len(values) + 1)]
    offsets = b"".join(number(4, end) for end in ends)
    return Column(UTF8, len(values), [offsets, "".join(values).encode("ascii")], **field)


def lists(code, offsets, child, **field):
    return Column(code, len(offsets) - 1, [b"".join(number(4, offset) for offset in offsets)], [child], **field)


def session(middle):
    """Three rows of Int8, the middle one null, with that byte under the null."""
    return image(int8([5, middle, 7], bits=[1, 0, 1]))


def list_of(offsets, rows):
    return image(lists(LIST, offsets, int8(rows, name="item")))


def runs_of(rows, ends, values):
    children = [numbers(INT16, 2, ends, name="run_ends"), texts(values, name="values")]
    return image(Column(RUN_END_ENCODED, rows, [], children))


def dictionary_of(keys, bits=None):
    """Int8 keys into two values: the text "a", and a null."""
    values = texts(["a", ""], nullable=True, bits=[1, 0])
    return image(Column(DICTIONARY, len(keys), [bytes(keys)], [values], p1=INT8, nullable=True, bits=bits))


def float_of(bits):
    return image(numbers(FLOAT32, 4, [bits]))


def map_of(key, name=""):
    """One Map row of two entries, by the key's name."""
    children = [texts(["a", "b"], name=key), int8([1, 2], name="value", nullable=True)]
    return lists(MAP, [0, 2], Column(STRUCT, 2, [], children, name="entries"), name=name)


def binary_of(width):
    return image(Column(FIXED_SIZE_BINARY, 3, [b""], p1=width))


def depth_of(depth):
    """One Int8 row under Structs, of that depth."""
    column = int8([7])
    for _ in range(depth - 1):
        column = Column(STRUCT, 1, [], [column])
    return image(column)


def sparse_of(first, second):
    """Two rows of a sparse union, of ids 3 and 5: the first row is the first child's, the second the second's."""
    children = [int8(first, name="a", id=3), int8(second, name="b", id=5)]
    return image(Column(SPARSE_UNION, 2, [bytes([3, 5])], children))


def large_list_view_of(offset, size):
    buffers = [number(8, offset), number(8, size)]
    return image(Column(LARGE_LIST_VIEW, 1, buffers, [int8([7], name="item")]))


# The session's first line without its frame byte: the layout above must give these bytes.
SESSION = (
    "01000100 02020000 00000000 00000000 03000000 00000000 00000000 3b000000"
    "01000000 00000000 01000000 00000100 38000000 03000000 05000705"
)
assert b"".join(session(0)) == bytes.fromhex(SESSION)

# Calls and answers.

ACCEPTED, EQUAL, UNEQUAL = (0, 0, 0, 0), (0, 0, 0, 1), (0, 0, 0, 0)


def refused(fault, side=0, node=0):
    return (fault, side, node, 0)


def check(whole):
    return ("check", [("image", whole)], [])


def compare(left, right):
    return ("compare", [("left", left), ("right", right)], [])


def compare_range(left, right, left_start, right_start, count):
    return ("compare_range", [("left", left), ("right", right)], [left_start, right_start, count])


def write(whole, start, count, room):
    return ("write", [("image", whole)], [start, count, room])


LONG = b"thirteen long"

# The document's words, the call and the answer.
PAIRS = [
    ("P1 the session's tables: equal.", compare(session(0), session(9)), EQUAL),
    (
        "P2 offsets 0,2,4 against 4,6,8, same child rows: equal.",
        compare(list_of([0, 2, 4], [1, 2, 3, 4]), list_of([4, 6, 8], [9, 9, 9, 9, 1, 2, 3, 4])),
        EQUAL,
    ),
    (
        "P3 run ends 2,5 of a,b against 1,2,5 of a,a,b: equal.",
        compare(runs_of(5, [2, 5], ["a", "b"]), runs_of(5, [1, 2, 5], ["a", "a", "b"])),
        EQUAL,
    ),
    (
        "P4 null key against key to a null value: unequal.",
        compare(dictionary_of([0], bits=[0]), dictionary_of([1])),
        UNEQUAL,
    ),
    (
        "P5 Float32 bits 00000000 against 80000000 hexadecimal: unequal.",
        compare(float_of(0x00000000), float_of(0x80000000)),
        UNEQUAL,
    ),
    (
        "P6 root Maps differing in key name: equal.",
        compare(image(map_of("key")), image(map_of("keys"))),
        EQUAL,
    ),
    (
        "P6 inside a List: equal, as document 02 has it.",
        compare(
            image(lists(LIST, [0, 1], map_of("key", "item"))),
            image(lists(LIST, [0, 1], map_of("keys", "item"))),
        ),
        EQUAL,
    ),
    (
        "P7 start 3 count 0 of 3 rows: equal.",
        compare_range(session(0), session(9), 3, 3, 0),
        EQUAL,
    ),
    (
        "P7 start 4: 21, the left side's.",
        compare_range(session(0), session(9), 4, 3, 0),
        refused(21),
    ),
    (
        "P7 start 4: 21, the right side's.",
        compare_range(session(0), session(9), 3, 4, 0),
        refused(21, side=1),
    ),
    ("P8 FixedSizeBinary width 0: accepted.", check(binary_of(0)), ACCEPTED),
    ("P8 FixedSizeBinary width -1: 11.", check(binary_of(-1)), refused(11)),
    (
        "P9 the session's five row bytes into 5: written.",
        write(session(0), 0, 3, 5),
        (0, 0, 0, 5),
    ),
    ("P9 the session's five row bytes into 4: 43.", write(session(0), 0, 3, 4), refused(43)),
    ("P10 depth 16 accepted.", check(depth_of(DEEPEST)), ACCEPTED),
    (
        "P10 depth 17: 12, of the node of that depth.",
        check(depth_of(DEEPEST + 1)),
        refused(12, node=DEEPEST),
    ),
    (
        "13-byte views in different buffers: equal.",
        compare(
            image(Column(UTF8_VIEW, 1, [view(LONG, 0, 0), LONG])),
            image(Column(UTF8_VIEW, 1, [view(LONG, 1, 2), b"another", b"--" + LONG])),
        ),
        EQUAL,
    ),
    (
        "Sparse unions that differ only in a child that the row's id does not name: equal.",
        compare(sparse_of([1, 8], [8, 2]), sparse_of([1, 9], [9, 2])),
        EQUAL,
    ),
    (
        "View of 5 with a nonzero pad byte: 18.",
        check(image(Column(UTF8_VIEW, 1, [number(4, 5) + b"hello" + bytes([0, 0, 0, 0, 0, 0, 1])]))),
        refused(18),
    ),
    (
        "LargeListView offset 9,223,372,036,854,775,807, size 1: 17.",
        check(large_list_view_of(9223372036854775807, 1)),
        refused(17),
    ),
]
