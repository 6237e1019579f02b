"""Nodes that are laid out by hand, a function for each layout: what their buffers hold is given as it is to stand there.

`image` gives the bytes of a tree of them.
"""

import columns
from columns import Node, Type
from image import number

NULL, BOOLEAN, INT8, INT16, INT32, INT64, UINT8 = 0, 1, 2, 3, 4, 5, 6
FLOAT32, FLOAT64 = 11, 12
UTF8, BINARY, LARGE_UTF8, LARGE_BINARY, FIXED_SIZE_BINARY, UTF8_VIEW, BINARY_VIEW = 26, 27, 28, 29, 30, 31, 32
LIST, LARGE_LIST, LIST_VIEW, LARGE_LIST_VIEW, FIXED_SIZE_LIST, STRUCT = 33, 34, 35, 36, 37, 38
DENSE, SPARSE, DICTIONARY, MAP, RUNS = 39, 40, 41, 42, 43


def packed(bits):
    """Bits given as text, the first bit first."""
    return number((len(bits) + 7) // 8, sum(int(bit) << place for place, bit in enumerate(bits)))


def column(code, rows, buffers=(), children=(), p1=0, p2=0, name=b"", nullable=False, id=0, offset=0, bits=None, first_bit=0):
    """A node. Its bitmap is given from bit 0 on, bits before the first included."""
    type = Type(code, p1, p2, [child.type for child in children], name, nullable, id)
    return Node(type, rows, offset, buffers, children, None if bits is None else packed(bits), first_bit)


def numbers(values, code=INT8, width=1, offset=0, **field):
    return column(code, len(values) - offset, [b"".join(number(width, value) for value in values)], offset=offset, **field)


def booleans(values, offset=0, rows=None, **field):
    return column(BOOLEAN, len(values) - offset if rows is None else rows, [packed(values)], offset=offset, **field)


def wide(values, width, offset=0, **field):
    return column(FIXED_SIZE_BINARY, len(values) - offset, [b"".join(values)], p1=width, offset=offset, **field)


def texts(values, code=UTF8, before=b"", after=b"", offset=0, rows=None, **field):
    ends, data = [len(before)], before
    for value in values:
        data += value
        ends.append(len(data))
    width = 8 if code in (LARGE_UTF8, LARGE_BINARY) else 4
    buffers = [b"".join(number(width, end) for end in ends), data + after]
    return column(code, len(values) - offset if rows is None else rows, buffers, offset=offset, **field)


def views(values, data=(), offset=0, code=UTF8_VIEW, rows=None, **field):
    return column(code, len(values) - offset if rows is None else rows, [b"".join(values), *data], offset=offset, **field)


def lists(offsets, child, code=LIST, offset=0, **field):
    width = 8 if code == LARGE_LIST else 4
    return column(code, len(offsets) - 1 - offset, [b"".join(number(width, x) for x in offsets)], [child], offset=offset, **field)


def list_views(places, child, code=LIST_VIEW, offset=0, **field):
    """Places are pairs of offset and size."""
    width = 8 if code == LARGE_LIST_VIEW else 4
    buffers = [b"".join(number(width, place[k]) for place in places) for k in (0, 1)]
    return column(code, len(places) - offset, buffers, [child], offset=offset, **field)


def fixed_lists(rows, size, child, **field):
    return column(FIXED_SIZE_LIST, rows, (), [child], p1=size, **field)


def structs(rows, *children, **field):
    return column(STRUCT, rows, (), children, **field)


def sparse(ids, *children, offset=0, **field):
    return column(SPARSE, len(ids) - offset, [bytes(ids)], children, offset=offset, **field)


def dense(ids, places, *children, offset=0, **field):
    return column(DENSE, len(ids) - offset, [bytes(ids), b"".join(number(4, x) for x in places)], children, offset=offset, **field)


def dictionary(keys, values, key=INT8, width=1, offset=0, **field):
    buffers = [b"".join(number(width, x) for x in keys)]
    return column(DICTIONARY, len(keys) - offset, buffers, [values], p1=key, offset=offset, **field)


def runs(rows, ends, values, code=INT16, width=2, ends_offset=0, **field):
    return column(RUNS, rows, (), [numbers(ends, code, width, offset=ends_offset, name=b"run_ends"), values], **field)


def maps(offsets, keys, values, entries=b"entries", flag=False, rows=None, **field):
    return lists(offsets, structs(offsets[-1], keys, values, name=entries, nullable=flag), MAP, **field)


def item(values, **field):
    return numbers(values, name=b"i", **field)


def image(root):
    """The image of a node: every part behind the one before it, and no other bytes."""
    return columns.image(None, root, plain=True)
