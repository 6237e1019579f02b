"""Calls on purpose that build a table of written rows, with document 02's answers: the columns that are built are laid out by
hand, and `built` puts their parts where the document has them. The model is not asked for any of them.

A call is words, the given image, the count, the string, and the answer: an image, or a refusal.
"""

import itertools

import letters
import maps
import texts as ill
from image import DEEPEST, LONGEST_NAME, MOST_NODES, by_level, entry, flags, header, number, record, tables_size, with_fields
from model import P1, WIDTHS
from nodes import BINARY, LARGE_BINARY, LARGE_LIST, LARGE_UTF8, LIST, NULL, STRUCT, UTF8, booleans, column, dense, dictionary
from nodes import fixed_lists, image, item, list_views, lists, numbers, runs, sparse, structs, texts, views, wide
from nodes import maps as map_of

LARGEST = 0xFFFFFFFF

# a width whose one element is longer than an image
WIDEST = 16_777_216


def refused(fault, node=0):
    return (fault, 0, node, 0)


def built(root):
    """The image of a column: names first, then of each node its bitmap and its buffers, one behind the other."""
    nodes = by_level(root)
    data = bytearray(b"".join(node.type.name for node in nodes))
    front = tables_size(len(nodes), sum(len(node.buffers) for node in nodes))
    records, entries, name, child = [], [], front, 1
    for node in nodes:
        t = node.type
        fields = dict(code=t.code, flags=flags(t.nullable, t.code != NULL), p1=t.p1, p2=t.p2, length=node.length)
        fields |= dict(name_length=len(t.name), name_place=name if t.name else 0, first_child=child, child_count=len(node.children))
        fields |= dict(first_buffer=len(entries), buffer_count=len(node.buffers))
        if t.code != NULL:
            fields |= dict(bitmap_place=front + len(data), bitmap_length=len(node.bitmap))
            data += node.bitmap
        for part in node.buffers:
            entries.append(entry(front + len(data), len(part)))
            data += part
        records.append(record(**fields))
        name += len(t.name)
        child += len(node.children)
    return b"".join([header(len(nodes), len(entries)), *records, *entries, bytes(data)])


# Written rows.


def text_row(value):
    return b"\1" + number(4, len(value)) + value


def list_row(*rows):
    return b"\1" + number(4, len(rows)) + b"".join(rows)


def struct_row(*rows):
    return b"\1" + b"".join(rows)


NO, YES = b"\0", b"\1"

CALLS = []


def call(words, given, count, string, answer):
    CALLS.append((words, given, count, string, answer))


def reads(words, given, string, made):
    """The string is as many rows as the column that is built of it has."""
    call(words, image(given), made.length, string, built(made))


def is_no_rows(words, given, count, string):
    call(words, image(given), count, string, refused(24))


# One column.


def fixed_code(code):
    """Its first p1, and the p2 that it has."""
    return dict(p1=P1.get(code, (0, 0))[0], p2=-3 if 15 <= code <= 18 else 0)


def leaf_calls(code):
    width, field = WIDTHS[code], fixed_code(code)
    one, other = bytes(range(1, width + 1)), bytes(range(255, 255 - width, -1))
    given = column(code, 0, [b""], **field)

    def made(bits, values, rows):
        return column(code, rows, [values], bits=bits, **field)

    reads(f"code {code}: a row, a null, a row", given, YES + one + NO + YES + other, made("101", one + bytes(width) + other, 3))
    reads(f"code {code}: no rows", given, b"", made("", b"", 0))
    reads(f"code {code}: nine rows", given, NO * 8 + YES + other, made("000000001", bytes(8 * width) + other, 9))
    is_no_rows(f"code {code}: a byte too few", given, 1, YES + one[:-1])
    is_no_rows(f"code {code}: a byte too many", given, 1, YES + one + NO)
    is_no_rows(f"code {code}: the mark 02", given, 1, b"\2" + one)
    is_no_rows(f"code {code}: a mark and no value", given, 1, YES)


for code in WIDTHS:
    leaf_calls(code)

for name, flag in itertools.product([b"", b"n", b"x" * LONGEST_NAME], [False, True]):
    labels = dict(name=name, nullable=flag)
    about = f"a name of {len(name)} bytes, {'' if flag else 'not '}nullable"
    reads(f"{about}: Null", column(NULL, 5, **labels), YES * 2, column(NULL, 2, **labels))
    reads(f"{about}: Int8", numbers([9], **labels), YES + b"\7" + NO, numbers([7, 0], bits="10", **labels))
    reads(f"{about}: Struct", structs(3, item([1, 2, 3]), **labels), struct_row(YES + b"\7") + NO,
          structs(2, item([7, 0], bits="10"), bits="10", **labels))
    reads(f"{about}: child", lists([0, 1], numbers([1], **labels)), list_row(NO), lists([0, 1], numbers([0], bits="0", **labels), bits="1"))

reads("Null: no rows", column(NULL, 1), b"", column(NULL, 0))
reads("Null: three rows", column(NULL, 0), YES * 3, column(NULL, 3))
is_no_rows("a row of Null that is 00", column(NULL, 0), 1, NO)
is_no_rows("a row of Null that is 00, of a nullable one", column(NULL, 0, nullable=True), 1, NO)
is_no_rows("the last row of Null is 00", column(NULL, 0), 3, YES * 2 + NO)
is_no_rows("a row of Null that is 02", column(NULL, 0), 1, b"\2")
is_no_rows("rows of Null too many", column(NULL, 0), 2, YES * 3)
is_no_rows("rows of Null too few", column(NULL, 0), LARGEST, YES * 3)

BOOLEANS = booleans("")
reads("Booleans", BOOLEANS, b"\1\1\0\1\0\1\1", booleans("1001", bits="1011"))
reads("Booleans: no rows", BOOLEANS, b"", booleans("", bits=""))
reads("Booleans: eight", BOOLEANS, b"\1\1" * 8, booleans("1" * 8, bits="1" * 8))
reads("Booleans: nine", BOOLEANS, b"\1\1" * 9, booleans("1" * 9, bits="1" * 9))
reads("Booleans: seventeen, the first null", BOOLEANS, NO + b"\1\1" * 16, booleans("0" + "1" * 16, bits="0" + "1" * 16))
for byte in (2, 3, 128, 255):
    is_no_rows(f"a Boolean of {byte}", BOOLEANS, 1, bytes([1, byte]))
    is_no_rows(f"a Boolean of {byte} behind others", BOOLEANS, 3, bytes([1, 1, 0, 1, byte]))
    is_no_rows(f"a mark of {byte}", BOOLEANS, 1, bytes([byte, 1]))

for width, value in ((0, b""), (1, b"a"), (5, b"abcde")):
    given = wide([], width)
    reads(f"FixedSizeBinary of {width}", given, YES + value + NO + YES + value, wide([value, bytes(width), value], width, bits="101"))
    reads(f"FixedSizeBinary of {width}: no rows", given, b"", wide([], width, bits=""))
    is_no_rows(f"FixedSizeBinary of {width}: a byte more", given, 1, YES + value + b"\0")
    reads(f"FixedSizeBinary of {width} that is no text", given, YES + b"\xff" * width, wide([b"\xff" * width], width, bits="1"))
is_no_rows("FixedSizeBinary of the most bytes, which are not there", wide([], WIDEST), 1, YES + b"a" * 100)

for code in (UTF8, BINARY, LARGE_UTF8, LARGE_BINARY):
    given = texts([], code)
    reads(f"code {code}: texts", given, text_row("é".encode()) + NO + text_row(b"") + text_row(b"ab"),
          texts(["é".encode(), b"", b"", b"ab"], code, bits="1011"))
    reads(f"code {code}: no rows", given, b"", texts([], code, bits=""))
    reads(f"code {code}: a null", given, NO, texts([b""], code, bits="0"))
    reads(f"code {code}: a null behind a text", given, text_row(b"abc") + NO * 8, texts([b"abc"] + [b""] * 8, code, bits="100000000"))
    reads(f"code {code}: an empty text", given, text_row(b""), texts([b""], code, bits="1"))
    is_no_rows(f"code {code}: a text cut off", given, 1, text_row(b"abc")[:-1])
    is_no_rows(f"code {code}: a length cut off", given, 1, text_row(b"")[:-1])
    is_no_rows(f"code {code}: the longest length", given, 1, YES + number(4, LARGEST) + b"abc")
    is_no_rows(f"code {code}: a length of 31 bits", given, 1, YES + number(4, 0x80000003) + b"abc")
    is_no_rows(f"code {code}: a length of eight bytes", given, 1, YES + number(8, 3) + b"abc")
    judged = code in (UTF8, LARGE_UTF8)
    for piece in letters.BROKEN if judged else letters.BROKEN[::9]:
        string, made = text_row(b"a") + text_row(piece), texts([b"a", piece], code, bits="11")
        call(f"code {code}: {piece.hex()}", image(given), 2, string, refused(24) if judged else built(made))
    for letter in letters.LETTERS:
        reads(f"code {code}: {letter.hex()}", given, text_row(letter), texts([letter], code, bits="1"))
    # a letter over two rows
    cut = [text_row(b"\xc3"), text_row(b"\xa9")]
    call(f"code {code}: a letter over two rows", image(given), 2, b"".join(cut),
         refused(24) if judged else built(texts([b"\xc3", b"\xa9"], code, bits="11")))

# Lists and Structs.

for code in (LIST, LARGE_LIST):
    given = lists([0], item([]), code)
    reads(f"code {code}: lists", given, list_row(YES + b"\5", NO) + NO + list_row() + list_row(YES + b"\7"),
          lists([0, 2, 2, 2, 3], item([5, 0, 7], bits="101"), code, bits="1011"))
    reads(f"code {code}: no rows", given, b"", lists([0], item([], bits=""), code, bits=""))
    reads(f"code {code}: an empty list", given, list_row(), lists([0, 0], item([], bits=""), code, bits="1"))
    reads(f"code {code}: a null", given, NO, lists([0, 0], item([], bits=""), code, bits="0"))
    reads(f"code {code}: of Null", lists([0], column(NULL, 0, name=b"i"), code), list_row(YES, YES, YES) + NO + list_row(YES),
          lists([0, 3, 3, 4], column(NULL, 4, name=b"i"), code, bits="101"))
    reads(f"code {code}: of text", lists([0], texts([], name=b"i"), code), list_row(text_row(b"a"), NO, text_row(b"bc")),
          lists([0, 3], texts([b"a", b"", b"bc"], name=b"i", bits="101"), code, bits="1"))
    is_no_rows(f"code {code}: a row missing", given, 1, YES + number(4, 2) + YES + b"\5")
    is_no_rows(f"code {code}: a row too many", given, 1, YES + number(4, 1) + YES + b"\5" + NO)
    is_no_rows(f"code {code}: the most rows", given, 1, YES + number(4, LARGEST) + NO * 20)
    is_no_rows(f"code {code}: the most rows of Null", lists([0], column(NULL, 0), code), 1, YES + number(4, LARGEST) + YES * 20)
    is_no_rows(f"code {code}: a count of eight bytes", given, 1, YES + number(8, 1) + YES + b"\5")
    is_no_rows(f"code {code}: a row of Null that is 00", lists([0], column(NULL, 0), code), 1, list_row(NO))
    is_no_rows(f"code {code}: ill-formed text", lists([0], texts([]), code), 1, list_row(text_row(b"a"), text_row(b"\xff")))

reads("an empty Struct", structs(3), YES + NO + YES, structs(3, bits="101"))
reads("an empty Struct: no rows", structs(3), b"", structs(0, bits=""))
is_no_rows("an empty Struct: a byte more", structs(3), 1, YES + YES)
MIXED = structs(0, column(NULL, 0, name=b"n"), item([]), texts([], name=b"t"), booleans("", name=b"b"), lists([0], item([]), name=b"l"),
                wide([], 2, name=b"w"), structs(0, column(NULL, 0), item([])), structs(0))
reads("a Struct, null and not", MIXED,
      struct_row(YES, YES + b"\5", text_row(b"a"), b"\1\1", list_row(NO, YES + b"\7"), YES + b"xy", struct_row(YES, YES + b"\6"), YES)
      + NO + struct_row(YES, NO, NO, NO, NO, NO, NO, NO),
      structs(3, column(NULL, 3, name=b"n"), item([5, 0, 0], bits="100"), texts([b"a", b"", b""], name=b"t", bits="100"),
              booleans("100", name=b"b", bits="100"), lists([0, 2, 2, 2], item([0, 7], bits="01"), name=b"l", bits="100"),
              wide([b"xy", b"\0\0", b"\0\0"], 2, name=b"w", bits="100"), structs(3, column(NULL, 3), item([6, 0, 0], bits="100"), bits="100"),
              structs(3, bits="100"), bits="101"))
reads("a Struct: no rows", MIXED, b"",
      structs(0, column(NULL, 0, name=b"n"), item([], bits=""), texts([], name=b"t", bits=""), booleans("", name=b"b", bits=""),
              lists([0], item([], bits=""), name=b"l", bits=""), wide([], 2, name=b"w", bits=""),
              structs(0, column(NULL, 0), item([], bits=""), bits=""), structs(0, bits=""), bits=""))
is_no_rows("a Struct whose last child is missing", structs(0, item([]), item([])), 1, struct_row(YES + b"\5"))
is_no_rows("a Struct whose Null is 00", structs(0, column(NULL, 0), item([])), 1, struct_row(NO, YES + b"\5"))
is_no_rows("a Struct whose children stand in the other order", structs(0, item([]), texts([])), 1, struct_row(text_row(b"ab"), YES + b"\5"))
# the nodes of depth 3 follow those of depth 2, and the rows of depth 3 do not
reads("two levels", structs(0, structs(0, item([])), structs(0, texts([], name=b"t"))),
      struct_row(struct_row(YES + b"\1"), struct_row(text_row(b"a"))) + struct_row(NO, struct_row(NO)) + NO,
      structs(3, structs(3, item([1, 0, 0], bits="100"), bits="100"), structs(3, texts([b"a", b"", b""], name=b"t", bits="100"), bits="110"), bits="110"))
reads("a List of Structs", lists([0], structs(0, item([]), texts([], name=b"t"))),
      list_row(struct_row(YES + b"\1", text_row(b"ab")), NO) + NO + list_row(struct_row(NO, text_row(b""))),
      lists([0, 2, 2, 3], structs(3, item([1, 0, 0], bits="100"), texts([b"ab", b"", b""], name=b"t", bits="101"), bits="101"), bits="101"))
# where the parts at the very end are empty, their places are the image's length
reads("empty parts at the end", structs(0, item([]), texts([], name=b"t"), structs(0)), b"",
      structs(0, item([], bits=""), texts([], name=b"t", bits=""), structs(0, bits=""), bits=""))
reads("an empty List's text at the end", lists([0], wide([], 0)), list_row(YES, YES), lists([0, 2], wide([b"", b""], 0, bits="11"), bits="1"))


def chain(code, leaf, deepest=DEEPEST):
    """A leaf below Structs, below lists, or below each in turn, as deep as a node may stand."""
    for level in range(deepest - 1):
        as_list = code == LIST or (code is None and level % 2 == 0)
        length = leaf.length
        field = dict(name=b"%d" % level, bits=None if leaf.bitmap is None else "1" * (1 if as_list else length))
        leaf = lists([0, length], leaf, **field) if as_list else structs(length, leaf, **field)
    return leaf


def chain_row(code, row, deepest=DEEPEST):
    for level in range(deepest - 1):
        row = list_row(row) if code == LIST or (code is None and level % 2 == 0) else struct_row(row)
    return row


for code, words in ((LIST, "Lists"), (STRUCT, "Structs"), (None, "Lists and Structs")):
    reads(f"{words} as deep as may be", chain(code, item([5])), chain_row(code, YES + b"\7"), chain(code, item([7], bits="1")))
    reads(f"{words} as deep as may be, the last null", chain(code, item([5])), chain_row(code, NO), chain(code, item([0], bits="0")))
    is_no_rows(f"{words} as deep as may be, a level missing", chain(code, item([5])), 1, chain_row(code, YES + b"\7", DEEPEST - 1))
    is_no_rows(f"{words} as deep as may be, a level more", chain(code, item([5])), 1, chain_row(code, YES + b"\7", DEEPEST + 1))


def nulls_below(levels, child):
    for level in range(levels):
        child = structs(1, child, name=b"%d" % level, bits="0")
    return child


reads("a null Struct above Structs as deep as may be", chain(STRUCT, item([5])), NO, nulls_below(DEEPEST - 1, item([0], bits="0")))
reads("a null Struct above Structs and a Null", chain(STRUCT, column(NULL, 1)), NO, nulls_below(DEEPEST - 1, column(NULL, 1)))

# as many nodes as there may be, each with a name of its own
WIDE = [b"%03d" % k * 21 + b"!" for k in range(MOST_NODES - 1)]
reads("as many nodes as may be", structs(2, *(numbers([1, 2], name=name) for name in WIDE)),
      struct_row(*(YES + bytes([k]) for k in range(MOST_NODES - 1))) + NO,
      structs(2, *(numbers([k, 0], name=name, bits="10") for k, name in enumerate(WIDE)), bits="10"))
reads("as many texts as may be", structs(0, *(texts([], name=b"t", nullable=k % 2 == 0) for k in range(MOST_NODES - 1))),
      struct_row(*(text_row(b"%d" % k) if k % 3 else NO for k in range(MOST_NODES - 1))),
      structs(1, *(texts([b"%d" % k if k % 3 else b""], name=b"t", nullable=k % 2 == 0, bits="1" if k % 3 else "0") for k in range(MOST_NODES - 1)), bits="1"))

# Only the type of the given image is used.
SLICED = [
    ("elements before the rows", numbers([9, 9, 1, 2], offset=2, name=b"i")),
    ("a bitmap from bit 5 on", numbers([1, 2, 3], name=b"i", bits="11111010", first_bit=5)),
    ("no bitmap", numbers([1, 2], name=b"i")),
    ("no rows", numbers([], name=b"i")),
]
for words, given in SLICED:
    reads(f"given {words}", given, YES + b"\5" + NO, numbers([5, 0], name=b"i", bits="10"))
    reads(f"given in a Struct {words}", structs(given.length, given), struct_row(NO), structs(1, numbers([0], name=b"i", bits="0"), bits="1"))
reads("given texts that begin behind others", texts([b"x", b"y"], before=b"\xff\xff", after=b"\xfe", offset=1), text_row(b"z"), texts([b"z"], bits="1"))
reads("given lists of rows from row 3 on", lists([3, 4], item([1, 2, 3, 4])), list_row(YES + b"\5"), lists([0, 1], item([5], bits="1"), bits="1"))
reads("given a null over ill-formed text", texts([b"\xff"], bits="0"), text_row(b"z"), texts([b"z"], bits="1"))

# Count and string.
for count, string in ((0, NO), (1, b""), (2, NO), (1, NO * 2), (LARGEST, NO), (LARGEST, b""), (0x80000000, NO), (65537, NO), (257, NO)):
    is_no_rows(f"count {count} of {len(string)} bytes", numbers([1]), count, string)

# 10 to 19 of the given image, before all others.
for words, data, answer in maps.QUERIES:
    if answer[0]:
        call(f"refused by the check: {words}", data, 1, NO, answer)
for words, data, answer in ill.IMAGES:
    if answer[0]:
        call(f"refused by the check: {words}", data, 0, b"", answer)
call("no image", b"", 0, b"", refused(10))
call("an unknown code", with_fields(image(numbers([1])), 0, code=44), 1, b"\2", refused(11))
call("19 before 23", image(structs(1, texts([b"\xff"]), views([bytes(16)]))), 1, b"\2", refused(19, 1))
call("19 before 24", image(texts([b"\xff"])), 1, b"\2", refused(19))

# 23, whatever the string is and however many rows there are.
UNREADABLE = {
    31: views([]),
    32: views([], code=32),
    35: list_views([], item([])),
    36: list_views([], item([]), 36),
    37: fixed_lists(0, 2, item([])),
    39: dense([], [], item([])),
    40: sparse([], item([])),
    41: dictionary([], item([])),
    42: map_of([0], item([]), item([])),
    43: runs(0, [], item([])),
}
for code, given in UNREADABLE.items():
    below = [("at the root", given), ("below a List without rows", lists([0], given)), ("below a LargeList", lists([0], given, LARGE_LIST))]
    below += [("first in a Struct", structs(0, given, item([]))), ("last in a Struct", structs(0, item([]), texts([]), given))]
    below += [("as deep as may be", chain(STRUCT, given, DEEPEST - 3)), ("below a null list", lists([0, 0], given, bits="0"))]
    below += [("as the last of many", structs(0, *([item([])] * 250), given))]
    for words, root in below:
        for count, string in ((0, b""), (1, NO), (1, b"\2"), (LARGEST, b"")):
            call(f"code {code} {words}, {count} rows of {len(string)} bytes", image(root), count, string, refused(23))

# 43 where the image is longer than one may be, however short the string is.
for count in (1, 2, 255, 256, 257):
    call(f"{count} nulls of the widest", image(wide([], WIDEST)), count, NO * count, refused(43))
    half = WIDEST // 2
    made = built(wide([bytes(half)], half, bits="0")) if count == 1 else refused(43)
    call(f"{count} nulls of half the widest", image(wide([], half)), count, NO * count, made)
call("256 nulls of the widest and one more byte", image(wide([], WIDEST)), 256, NO * 257, refused(24))
WIDEST_COLUMNS = structs(0, *([wide([], WIDEST)] * 255))
for count in (1, 2, 3):
    call(f"{count} nulls above 255 of the widest", image(WIDEST_COLUMNS), count, NO * count, refused(43))
call("no rows of the widest", image(wide([], WIDEST)), 0, b"", built(wide([], WIDEST, bits="")))
reads("the widest below an empty list and a null", lists([0], wide([], WIDEST)), list_row() + NO,
      lists([0, 0, 0], wide([], WIDEST, bits=""), bits="10"))
