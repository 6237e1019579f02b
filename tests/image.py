"""Lays out images (docs/FORMAT.md): their sizes, the fields of a record, the limits, and the bytes of header, records and entries.

Whatever lays out an image in Python does it with this. The model (tests/model.py), which takes images apart and judges them,
has numbers of its own, written from document 01; nothing here is taken from it.
"""

# The fields of a record in their order, and the width of each in bytes.
FIELDS = {
    "code": 1,
    "flags": 1,
    "type_id": 1,
    "name_length": 1,
    "p1": 4,
    "p2": 4,
    "length": 4,
    "offset": 4,
    "name_place": 4,
    "bitmap_place": 4,
    "bitmap_length": 4,
    "first_bit": 4,
    "first_child": 2,
    "child_count": 2,
    "first_buffer": 2,
    "buffer_count": 2,
}

HEADER, RECORD, ENTRY = 4, sum(FIELDS.values()), 8

# The flags.
NULLABLE, HAS_BITMAP = 1, 2

# How many type codes there are, how deep a node may stand, how long a name may be, how many nodes an image may have, and how
# many elements a node.
CODES, DEEPEST, LONGEST_NAME, MOST_NODES, MOST_ELEMENTS = 44, 16, 64, 256, 1 << 30

# The bytes of a view, and how many of a text it holds itself.
VIEW, INLINE = 16, 12


def number(width, value):
    return (value % 256**width).to_bytes(width, "little")


def view(text, buffer=0, offset=0):
    """The view of a text; of one that it does not hold itself, the data buffer and the offset in it."""
    if len(text) <= INLINE:
        return number(4, len(text)) + text.ljust(INLINE, b"\x00")
    return number(4, len(text)) + text[:4] + number(4, buffer) + number(4, offset)


def tables_size(nodes, buffers):
    """How many bytes the header and the tables have: the place of the first part behind them."""
    return HEADER + RECORD * nodes + ENTRY * buffers


def header(nodes, buffers):
    return number(2, nodes) + number(2, buffers)


def flags(nullable, has_bitmap):
    return (NULLABLE if nullable else 0) | (HAS_BITMAP if has_bitmap else 0)


def record(**values):
    """A record; a field that is not named is 0."""
    assert values.keys() <= FIELDS.keys(), values
    return b"".join(number(width, values.get(field, 0)) for field, width in FIELDS.items())


def field_place(node, field):
    """Where a field of a node's record stands."""
    before = list(FIELDS).index(field)
    return HEADER + RECORD * node + sum(list(FIELDS.values())[:before])


def with_fields(data, node, **values):
    """An image with other values in fields of a node's record."""
    for field, value in values.items():
        at = field_place(node, field)
        data = data[:at] + number(FIELDS[field], value) + data[at + FIELDS[field] :]
    return data


def entry(place, length):
    return number(4, place) + number(4, length)


def by_level(root):
    """The nodes in the order of their numbers: the root, its children, their children."""
    nodes, level = [], [root]
    while level:
        nodes += level
        level = [child for node in level for child in node.children]
    return nodes


def tables(nodes, described):
    """The header, each record and each entry, of nodes in the order of their numbers. Of a node `described` gives the fields
    of its record, but for those of its children and buffers, and the place and the length of each of its buffers."""
    records, entries, child = [], [], 1
    for node in nodes:
        fields, buffers = described(node)
        numbers = dict(first_child=child, child_count=len(node.children), first_buffer=len(entries), buffer_count=len(buffers))
        records.append(record(**fields, **numbers))
        entries += [entry(*buffer) for buffer in buffers]
        child += len(node.children)
    return [header(len(nodes), len(entries)), *records, *entries]
