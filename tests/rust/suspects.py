"""Pairs laid out on purpose where the Rust might depart from the format, file by file, with the documents' answers; and those
where it does.

Each entry of SUSPECTS: the Rust's file, what the pair is about, the case, the answer. Each of GAPS: the same, with the Rust's
answer and ours.
"""

from cases import Case
from image import MOST_ELEMENTS as MOST
from image import VIEW, number, view
from nodes import BINARY, BINARY_VIEW, FIXED_SIZE_BINARY, FLOAT32, FLOAT64, INT16, INT32, INT64, LARGE_LIST, LARGE_LIST_VIEW, LARGE_UTF8, NULL, RUNS, UINT8
from nodes import booleans, column, dense, dictionary, fixed_lists, image, item, list_views, lists, maps, numbers, runs, sparse, structs, texts, views, wide

YES, NO = 1, 0


def a_map(key=b"key", value=b"value", key_flag=False, value_flag=True, **field):
    """One row of two entries."""
    return maps([0, 2], texts([b"a", b"b"], name=key, nullable=key_flag), numbers([1, 2], name=value, nullable=value_flag), **field)


def under_list(child):
    return lists([0, child.length], child)


LONG, LONGER = b"thirteen long", b"thirteen longs, and more"

SUSPECTS, GAPS = [], []


def suspect(file, about, left, right, answer, range=None):
    case = Case(image(left), image(right), range)
    SUSPECTS.append((file, about, case, answer))


def gap(file, about, left, right, rust, ours):
    GAPS.append((file, about, Case(image(left), image(right)), rust, ours))


# mod.rs and utils.rs: masks, types, lengths
f = "utils.rs"
suspect(f, "a mask without nulls and no mask", numbers([5, 6, 7], bits="111"), numbers([5, 6, 7]), YES)
suspect(f, "no mask and a mask without nulls", numbers([5, 6, 7]), numbers([5, 6, 7], bits="0111", first_bit=1), YES)
suspect(f, "a mask with a null and no mask", numbers([5, 6, 7], bits="101"), numbers([5, 6, 7]), NO)
suspect(f, "no mask and a mask with a null", numbers([5, 6, 7]), numbers([5, 6, 7], bits="110"), NO)
suspect(f, "masks at different first bits, an offset on one side", numbers([5, 6, 7], bits="0010101", first_bit=4), numbers([9, 9, 5, 8, 7], bits="101", offset=2), YES)
suspect(f, "masks that would agree if the offset were added to the first bit", numbers([5, 6, 7, 8], bits="01101", offset=1), numbers([6, 7, 8], bits="110"), NO)
suspect(f, "as many nulls in other rows", numbers([5, 6, 7], bits="101"), numbers([5, 6, 7], bits="110"), NO)
suspect(f, "no rows, a bitmap of first bits alone", numbers([], bits="00000", first_bit=5), numbers([9], offset=1), YES)
suspect(f, "lengths differ", numbers([5, 6]), numbers([5, 6, 7]), NO)
suspect(f, "masks longer than a word", numbers([7] * 70, bits="1" * 69 + "0"), numbers([7] * 70, bits="0" * 3 + "1" * 69 + "0", first_bit=3), YES)
suspect(f, "masks longer than a word that differ in the last row", numbers([7] * 70, bits="1" * 69 + "0"), numbers([7] * 70, bits="0" * 3 + "1" * 70, first_bit=3), NO)
suspect(f, "the root's name and flag", numbers([5], name=b"a", nullable=True), numbers([5], name=b"b"), YES)
suspect(f, "a Dictionary's child's name and flag", dictionary([0], item([5], nullable=True)), dictionary([0], numbers([5])), YES)
suspect(f, "names under a Dictionary's child", dictionary([0], structs(1, item([5]))), dictionary([0], structs(1, numbers([5], name=b"j"))), NO)
suspect(f, "a Struct's child's name", structs(1, item([5])), structs(1, numbers([5], name=b"j")), NO)
suspect(f, "a Struct's child's flag", structs(1, item([5])), structs(1, item([5], nullable=True)), NO)
suspect(f, "a list's child's name", under_list(item([5])), under_list(numbers([5], name=b"j")), NO)
suspect(f, "a union's child's id", sparse([3], item([5], id=3)), sparse([4], item([5], id=4)), NO)
suspect(f, "dense and sparse", sparse([3], item([5], id=3)), dense([3], [0], item([5], id=3)), NO)
suspect(f, "the name of a run's values", runs(2, [2], item([5])), runs(2, [2], numbers([5], name=b"j")), NO)
suspect(f, "the flag of run ends", runs(2, [2], item([5])), column(RUNS, 2, (), [numbers([2], INT16, 2, name=b"run_ends", nullable=True), item([5])]), NO)
suspect(f, "the code of run ends", runs(2, [2], item([5])), runs(2, [2], item([5]), INT32, 4), NO)
suspect(f, "the code of keys", dictionary([0], item([5])), dictionary([0], item([5]), UINT8), NO)
suspect(f, "codes of one width", numbers([5], INT32, 4), numbers([5], 13, 4), NO)
suspect(f, "precision", numbers([5], 15, 4, p1=3), numbers([5], 15, 4, p1=4), NO)
suspect(f, "scale", numbers([5], 15, 4, p1=3, p2=-128), numbers([5], 15, 4, p1=3, p2=127), NO)
suspect(f, "scale -128 on both sides", numbers([5], 15, 4, p1=3, p2=-128), numbers([5], 15, 4, p1=3, p2=-128), YES)
suspect(f, "units", numbers([5], 21, 8, p1=2), numbers([5], 21, 8, p1=3), NO)
suspect(f, "count of children", structs(1, item([5])), structs(1, item([5]), item([6])), NO)
suspect(f, "Map at the root: names of key and value", a_map(b"key", b"value"), a_map(b"k", b"v"), YES)
suspect(f, "Map at the root: the entries' name and flag", a_map(), a_map(entries=b"e", flag=True), YES)
suspect(f, "Map at the root: the key's flag", a_map(), a_map(key_flag=True), NO)
suspect(f, "Map at the root: the value's flag", a_map(), a_map(value_flag=False), NO)
suspect(f, "Map at the root: sorted", a_map(p1=1), a_map(), NO)
suspect(f, "Map at the root: a name below the value", maps([0, 1], item([1]), structs(1, item([5]))), maps([0, 1], item([1]), structs(1, numbers([5], name=b"j"))), NO)
suspect(f, "Map in a List: a name below the value", under_list(maps([0, 1], item([1]), structs(1, item([5])))), under_list(maps([0, 1], item([1]), structs(1, numbers([5], name=b"j")))), NO)
suspect(f, "Map in a List: the same names", under_list(a_map(b"k", b"v", entries=b"e")), under_list(a_map(b"k", b"v", entries=b"e")), YES)
suspect(f, "Map in a List: the key's flag", under_list(a_map()), under_list(a_map(key_flag=True)), NO)
suspect(f, "Map in a List: its own name", under_list(a_map(name=b"m")), under_list(a_map(name=b"n")), NO)
suspect(f, "Map in a List: sorted", under_list(a_map(p1=1)), under_list(a_map()), NO)
suspect(f, "Map under a Dictionary: its own name and flag", dictionary([0], a_map(name=b"m", nullable=True)), dictionary([0], a_map()), YES)
suspect(f, "Map under a Dictionary: the value's flag", dictionary([0], a_map()), dictionary([0], a_map(value_flag=False)), NO)
suspect(f, "Map as a Map's value: its own flag", maps([0, 1], item([1]), a_map(name=b"m")), maps([0, 1], item([1]), a_map(name=b"m", nullable=True)), NO)
suspect(f, "Map as a Map's value: its own name", maps([0, 1], item([1]), a_map(name=b"m")), maps([0, 1], item([1]), a_map(name=b"n")), YES)

# labels of a Map below the root, which the Rust counts
gap(f, "Map in a List: the key's name", under_list(a_map()), under_list(a_map(b"k")), NO, YES)
gap(f, "Map in a List: the value's name", under_list(a_map()), under_list(a_map(value=b"v")), NO, YES)
gap(f, "Map in a List: the entries' name", under_list(a_map()), under_list(a_map(entries=b"e")), NO, YES)
gap(f, "Map in a List: the entries' flag", under_list(a_map()), under_list(a_map(flag=True)), NO, YES)
gap(f, "Map in a List without rows: the key's name", lists([0, 0], a_map()), lists([0, 0], a_map(b"k")), NO, YES)
gap(f, "Map in a Struct: the key's name", structs(1, a_map()), structs(1, a_map(b"k")), NO, YES)
gap(f, "Map in a sparse union: the key's name", sparse([3], a_map(id=3)), sparse([3], a_map(b"k", id=3)), NO, YES)
gap(f, "Map in runs: the key's name", runs(2, [2], a_map()), runs(2, [2], a_map(b"k")), NO, YES)
gap(f, "Map under a Dictionary: the key's name", dictionary([0], a_map()), dictionary([0], a_map(b"k")), NO, YES)
gap(f, "Map under a Dictionary: the entries' flag", dictionary([0], a_map()), dictionary([0], a_map(flag=True)), NO, YES)
gap(f, "Map as a Map's value: the key's name", maps([0, 1], item([1]), a_map(name=b"m")), maps([0, 1], item([1]), a_map(b"k", name=b"m")), NO, YES)
gap(f, "Map as a Map's key: the value's name", maps([0, 1], a_map(), item([1])), maps([0, 1], a_map(value=b"v"), item([1])), NO, YES)

f = "null.rs"
suspect(f, "rows of Null", column(NULL, 3), column(NULL, 3, offset=7), YES)
suspect(f, "lengths of Null", column(NULL, 3), column(NULL, 2), NO)
suspect(f, "Lists of Null of other counts", lists([0, 1, 3], column(NULL, 3)), lists([0, 2, 3], column(NULL, 3)), NO)
suspect(f, "a key to Null and a null key", dictionary([0], column(NULL, 1)), dictionary([0], column(NULL, 1), bits="0"), NO)

f = "primitive.rs"
for share, mask in (("below", "10111"), ("at", "01101"), ("above", "01100"), ("all", "00000")):
    right = "000" + mask
    suspect(f, "null fraction %s 0.4, other values under nulls" % share, numbers([5 if bit == "1" else 1 for bit in mask], bits=mask), numbers([9] + [5 if bit == "1" else 2 for bit in mask], bits=right, first_bit=3, offset=1), YES)
for share, mask in (("below", "10111"), ("at", "01101"), ("above", "00101")):
    suspect(f, "null fraction %s 0.4, the last value differs" % share, numbers([5, 5, 5, 5, 6], bits=mask), numbers([5, 5, 5, 5, 7], bits=mask), NO)
suspect(f, "Float32 -0 and +0", numbers([0x80000000], FLOAT32, 4), numbers([0], FLOAT32, 4), NO)
suspect(f, "Float64 -0 and +0", numbers([1 << 63], FLOAT64, 8), numbers([0], FLOAT64, 8), NO)
suspect(f, "the same NaN", numbers([0x7FC00000], FLOAT32, 4), numbers([0x7FC00000], FLOAT32, 4), YES)
suspect(f, "NaNs of other bits", numbers([0x7FC00000], FLOAT32, 4), numbers([0x7FC00001], FLOAT32, 4), NO)
suspect(f, "a buffer that is not whole elements", column(INT32, 1, [number(4, 5) + b"xyz"]), numbers([5], INT32, 4), YES)
for code, width in ((17, 16), (18, 32), (24, 8), (25, 16), (10, 2)):
    rest = dict(p1=5) if code < 20 and code > 14 else {}
    suspect(f, "code %d, its last byte" % code, numbers([7, 1], code, width, **rest), numbers([7, 1 + (1 << 8 * width - 1)], code, width, **rest), NO)
    suspect(f, "code %d at an offset" % code, numbers([3, 7, 1], code, width, offset=1, **rest), numbers([7, 1], code, width, **rest), YES)
suspect(f, "no rows at the end of the buffer", numbers([5, 6], INT64, 8, offset=2), numbers([], INT64, 8), YES)
suspect(f, "few nulls, a range from other rows", numbers([1, 2, 3, 4], bits="1011"), numbers([9, 3, 4], bits="011"), YES, (1, 0, 3))
suspect(f, "many nulls, a range from other rows", numbers([1, 2, 3, 4], bits="0001"), numbers([9, 4], bits="01"), YES, (2, 0, 2))

f = "fixed_binary.rs"
suspect(f, "width 0", wide([b""] * 3, 0), wide([b""] * 5, 0, offset=2), YES)
suspect(f, "width 0 with the same nulls", wide([b""] * 3, 0, bits="101"), wide([b""] * 3, 0, bits="1101", first_bit=1), YES)
suspect(f, "width 0 with other nulls", wide([b""] * 3, 0, bits="101"), wide([b""] * 3, 0, bits="011"), NO)
suspect(f, "width 3 at an offset, other bytes under a null", wide([b"abc", b"def", b"ghi"], 3, bits="101"), wide([b"xxx", b"abc", b"yyy", b"ghi"], 3, offset=1, bits="101"), YES)
suspect(f, "width 3, the last byte", wide([b"abc", b"def"], 3), wide([b"abc", b"deg"], 3), NO)
suspect(f, "rows that are the same joined but of another width", wide([b"ab", b"cd"], 2), wide([b"abc", b"d  "], 3), NO)
suspect(f, "many nulls", wide([b"ab", b"cd", b"ef"], 2, bits="001"), wide([b"xy", b"zw", b"ef"], 2, bits="001"), YES)
suspect(f, "few nulls, a range from other rows", wide([b"ab", b"cd", b"ef", b"gh"], 2, bits="1011"), wide([b"xx", b"ef", b"gh"], 2, bits="011"), YES, (1, 0, 3))
suspect(f, "many nulls, a range from other rows", wide([b"ab", b"cd", b"ef", b"gh"], 2, bits="0001"), wide([b"xx", b"gh"], 2, bits="01"), YES, (2, 0, 2))

f = "boolean.rs"
suspect(f, "odd offsets", booleans("1011001"), booleans("11011001", offset=1), YES)
suspect(f, "other odd offsets, the last bit differs", booleans("1011001", offset=2), booleans("1101100011000", offset=7, rows=5), NO)
suspect(f, "whole bytes and a rest, other bits after", booleans("1011001110101", rows=11), booleans("1011001110110", rows=11), YES)
suspect(f, "whole bytes and a rest that differs", booleans("1011001110101"), booleans("1011001110111"), NO)
suspect(f, "whole bytes that differ", booleans("1011001110101"), booleans("1111001110101"), NO)
suspect(f, "an offset of whole bytes", booleans("000000001011001110101", offset=8), booleans("1011001110101"), YES)
suspect(f, "other bits under nulls at an odd offset", booleans("10110", bits="10011"), booleans("0011110", offset=2, bits="0010011", first_bit=2), YES)
suspect(f, "a range with nulls from other rows", booleans("10110", bits="11011"), booleans("01110", bits="10111"), NO, (1, 0, 4))
suspect(f, "a range with nulls from other rows, equal", booleans("10110", bits="11011"), booleans("0010", bits="1011"), YES, (1, 0, 4))
suspect(f, "more than a word at odd offsets", booleans("01" * 40, offset=1), booleans("01" * 41, offset=3), YES)
suspect(f, "more than a word, the last bit differs", booleans("01" * 40, offset=1), booleans("01" * 40 + "00", offset=3), NO)
suspect(f, "no rows at the end of an odd offset", booleans("10110", offset=5), booleans("", rows=0), YES)
suspect(f, "a range from an odd row", booleans("1011001"), booleans("0101100"), YES, (0, 1, 6))
suspect(f, "a range of no rows at the end", booleans("1011001"), booleans("0"), YES, (7, 1, 0))

f = "variable_size.rs"
suspect(f, "cut in other places", texts([b"ab", b"c"]), texts([b"a", b"bc"]), NO)
suspect(f, "the first offset not 0", texts([b"ab", b"c"]), texts([b"ab", b"c"], before=b"zz", after=b"z"), YES)
suspect(f, "both first offsets not 0, cut in other places", texts([b"ab", b"c"], before=b"z"), texts([b"a", b"bc"], before=b"zz"), NO)
suspect(f, "at an offset", texts([b"xyz", b"ab", b"c"], offset=1), texts([b"ab", b"c"]), YES)
suspect(f, "empty texts at the end of the bytes", texts([b"", b""], before=b"abc"), texts([b"", b""]), YES)
suspect(f, "no rows, an offset into the bytes", texts([b"abc"], offset=1), texts([]), YES)
suspect(f, "other texts under nulls", texts([b"a", b"long", b"b"], bits="101"), texts([b"a", b"", b"b"], bits="0101", first_bit=1), YES)
suspect(f, "an empty text and a null", texts([b""]), texts([b""], bits="0"), NO)
suspect(f, "an empty text and a zero byte", texts([b""]), texts([b"\0"]), NO)
suspect(f, "offsets of eight bytes", texts([b"xyz", b"ab", b"c"], LARGE_UTF8, offset=1), texts([b"ab", b"c"], LARGE_UTF8, before=b"q"), YES)
suspect(f, "a letter of two bytes beside two letters that look the same", texts([b"\xc3\xa9"]), texts([b"e\xcc\x81"]), NO)
suspect(f, "a letter of four bytes, its last byte", texts([b"\xf0\x9f\x98\x80"]), texts([b"\xf0\x9f\x98\x81"]), NO)
suspect(f, "U+FEFF in front, and none", texts([b"\xef\xbb\xbfa"]), texts([b"a"]), NO)
suspect(f, "U+0000, U+FEFF, U+FFFF and U+10FFFF", texts([b"\0", b"\xef\xbb\xbf\xef\xbf\xbf", b"\xf4\x8f\xbf\xbf"]), texts([b"z", b"\0", b"\xef\xbb\xbf\xef\xbf\xbf", b"\xf4\x8f\xbf\xbf"], offset=1), YES)
suspect(f, "no letters where no row is", texts([b"\xff", b"a", b"\xc3", b"b"], before=b"\x80", after=b"\xf5", offset=1, bits="101"), texts([b"a", b"\xed\xa0\x80", b"b"], bits="101"), YES)
suspect(f, "no letters in Binary", texts([b"\xff\xfe"], BINARY), texts([b"\xff\xfe"], BINARY, before=b"\xff"), YES)
suspect(f, "a range of no rows at the end", texts([b"a", b"b"]), texts([]), YES, (2, 0, 0))
suspect(f, "a range that starts at a null", texts([b"a", b"q", b"b"], bits="101"), texts([b"", b"b"], bits="01"), YES, (1, 0, 2))

f = "byte_view.rs"
suspect(f, "12 bytes", views([view(b"twelve bytes")]), views([view(b"twelve bytes")], [b"spare"]), YES)
suspect(f, "12 bytes, the last differs", views([view(b"twelve bytes")]), views([view(b"twelve bytez")]), NO)
suspect(f, "13 bytes in other buffers", views([view(LONG)], [LONG]), views([view(LONG, 1, 2)], [b"", b"--" + LONG + b"-"]), YES)
suspect(f, "13 bytes, the fifth differs", views([view(LONG)], [LONG]), views([view(b"thirTeen long"[:4] + b"T" + LONG[5:])], [b"thirT" + LONG[5:]]), NO)
suspect(f, "13 bytes, the last differs", views([view(LONG)], [LONG]), views([view(LONG[:-1] + b"G")], [LONG[:-1] + b"G"]), NO)
suspect(f, "the same prefix, other lengths", views([view(LONG)], [LONGER]), views([view(LONGER)], [LONGER]), NO)
suspect(f, "lengths 0 and 1 of a zero byte", views([view(b"")]), views([view(b"\0")]), NO)
suspect(f, "anything under a null", views([view(b"a"), b"\xff" * VIEW], bits="10"), views([b"\xee" * VIEW, view(b"a"), view(b"b")], offset=1, bits="10"), YES)
suspect(f, "anything under a null before the range's start", views([b"\xff" * VIEW, view(b"a")], bits="01"), views([view(b"a")]), YES, (1, 0, 1))
suspect(f, "BinaryView at an offset", views([b"\xff" * VIEW, view(LONG)], [LONG], offset=1, code=BINARY_VIEW), views([view(LONG, 0, 3)], [b"abc" + LONG], code=BINARY_VIEW), YES)

f = "list.rs"
suspect(f, "offsets 0,2,4 and 4,6,8", lists([0, 2, 4], item([1, 2, 3, 4])), lists([4, 6, 8], item([9, 9, 9, 9, 1, 2, 3, 4])), YES)
suspect(f, "cut in other places, both from 0", lists([0, 1, 3], item([1, 2, 3])), lists([0, 2, 3], item([1, 2, 3])), NO)
suspect(f, "cut in other places, not from 0", lists([1, 2, 4], item([9, 1, 2, 3])), lists([0, 2, 3], item([1, 2, 3])), NO)
suspect(f, "the last list is longer", lists([0, 1, 2], item([1, 2, 3])), lists([0, 1, 3], item([1, 2, 3])), NO)
suspect(f, "offsets on list and child", lists([0, 1, 2, 4], item([7, 8, 9, 1, 2, 3], offset=2), offset=1), lists([0, 1, 3], item([1, 2, 3])), YES)
suspect(f, "the list's own offset is not added to child rows", lists([0, 0, 1], item([1, 2]), offset=1), lists([0, 1], item([2])), NO)
suspect(f, "empty lists at odd places", lists([3, 3, 3], item([1, 2, 3])), lists([0, 0, 0], item([], bits="")), YES)
suspect(f, "an empty list and a null", lists([0, 0], item([])), lists([0, 0], item([]), bits="0"), NO)
suspect(f, "other rows under a null list", lists([0, 1, 3, 4], item([1, 8, 9, 2]), bits="101"), lists([0, 1, 1, 2], item([1, 2]), bits="101"), YES)
suspect(f, "all null, other counts", lists([0, 1], item([1]), bits="0"), lists([0, 0], item([]), bits="0"), YES)
suspect(f, "beside a null, a list that is longer on one side", lists([0, 1, 1], item([1, 2]), bits="10"), lists([0, 2, 2], item([1, 2]), bits="10"), NO)
suspect(f, "beside a null, offsets on the right", lists([0, 1, 1], item([1]), bits="10"), lists([0, 1, 2, 2], item([7, 7, 1], offset=1), offset=1, bits="10"), YES)
suspect(f, "no lists, child rows all the same", lists([2], item([1, 2])), lists([0], item([])), YES)
suspect(f, "a null child row and a value", lists([0, 2], item([1, 2], bits="10")), lists([0, 2], item([1, 2])), NO)
suspect(f, "other bytes under a null child row", lists([0, 2], item([1, 5], bits="10")), lists([1, 3], item([9, 1, 6], bits="110")), YES)
suspect(f, "Lists of Lists cut in other places", lists([0, 2], lists([0, 1, 2], item([1, 2]), name=b"i")), lists([0, 2], lists([0, 2, 2], item([1, 2]), name=b"i")), NO)
suspect(f, "offsets of eight bytes", lists([0, 2, 4], item([1, 2, 3, 4]), LARGE_LIST), lists([1, 3, 5], item([9, 1, 2, 3, 4]), LARGE_LIST), YES)
suspect(f, "an empty list of a child whose e is its offset", lists([0, 0], texts([b"a"], offset=1)), lists([0, 0], texts([])), YES)
suspect(f, "Maps at other offsets", maps([0, 0, 2], texts([b"a", b"b"], name=b"key"), item([1, 2]), offset=1), maps([0, 2], texts([b"a", b"b"], name=b"key"), item([1, 2])), YES)
suspect(f, "Maps whose entries are in another order", maps([0, 2], item([1, 2]), item([3, 4])), maps([0, 2], item([2, 1]), item([4, 3])), NO)
suspect(f, "a range of lists", lists([0, 1, 2, 3], item([1, 2, 3])), lists([0, 1, 2], item([2, 3])), YES, (1, 0, 2))

f = "list_view.rs"
suspect(f, "other orders and shared rows", list_views([(0, 2), (1, 2)], item([1, 2, 3])), list_views([(2, 2), (0, 2)], item([2, 3, 1, 2])), YES)
suspect(f, "other sizes, the same rows joined", list_views([(0, 1), (1, 2)], item([1, 2, 3])), list_views([(0, 2), (2, 1)], item([1, 2, 3])), NO)
suspect(f, "empty views at odd places", list_views([(3, 0), (0, 0)], item([1, 2, 3])), list_views([(0, 0), (0, 0)], item([])), YES)
suspect(f, "other sizes under the same nulls", list_views([(0, 2), (0, 3)], item([1, 2, 3]), bits="10"), list_views([(0, 2), (2, 0)], item([1, 2]), bits="010", first_bit=1), YES)
suspect(f, "all null, other sizes", list_views([(0, 2)], item([1, 2]), bits="0"), list_views([(0, 0)], item([]), bits="0"), YES)
suspect(f, "an empty view and a null", list_views([(0, 0)], item([1])), list_views([(0, 0)], item([1]), bits="0"), NO)
suspect(f, "one differing row at the end", list_views([(0, 2), (1, 2)], item([1, 2, 3])), list_views([(0, 2), (1, 2)], item([1, 2, 4])), NO)
suspect(f, "at an offset, the child at another", list_views([(9, 0), (0, 2)], item([7] * 7 + [1, 2], offset=0), LARGE_LIST_VIEW, offset=1), list_views([(0, 2)], item([8, 7, 7], offset=1), LARGE_LIST_VIEW), YES)
suspect(f, "no rows", list_views([], item([])), list_views([(1, 0)], item([1]), offset=1), YES)
suspect(f, "a range that starts at a null", list_views([(0, 1), (0, 3), (1, 2)], item([1, 2, 3]), bits="101"), list_views([(0, 0), (0, 2)], item([2, 3]), bits="01"), YES, (1, 0, 2))

f = "fixed_list.rs"
suspect(f, "size 0", fixed_lists(3, 0, item([])), fixed_lists(3, 0, item([1, 2]), offset=4), YES)
suspect(f, "size 0 with the same nulls", fixed_lists(3, 0, item([]), bits="010"), fixed_lists(3, 0, item([1]), bits="1010", first_bit=1), YES)
suspect(f, "size 0 with other nulls", fixed_lists(3, 0, item([]), bits="010"), fixed_lists(3, 0, item([]), bits="001"), NO)
suspect(f, "offsets on list and child", fixed_lists(1, 2, item([7, 8, 9, 1, 2], offset=1), offset=1), fixed_lists(1, 2, item([1, 2])), YES)
suspect(f, "the last value differs", fixed_lists(2, 2, item([1, 2, 3, 4])), fixed_lists(2, 2, item([1, 2, 3, 5])), NO)
suspect(f, "other values under a null list", fixed_lists(2, 2, item([1, 2, 3, 4]), bits="01"), fixed_lists(2, 2, item([8, 9, 3, 4]), bits="01"), YES)
suspect(f, "a null child row under a null list", fixed_lists(2, 2, item([1, 2, 3, 4], bits="0011"), bits="01"), fixed_lists(2, 2, item([8, 9, 3, 4]), bits="01"), YES)
suspect(f, "a null list and a list of nulls", fixed_lists(1, 1, item([1]), bits="0"), fixed_lists(1, 1, item([1], bits="0")), NO)
suspect(f, "beside a null, offsets on the right", fixed_lists(2, 1, item([1, 2]), bits="10"), fixed_lists(2, 1, item([7, 8, 1, 3], offset=1), bits="10", offset=1), YES)
suspect(f, "offsets on the right", fixed_lists(2, 1, item([1, 2])), fixed_lists(2, 1, item([7, 8, 1, 2], offset=1), offset=1), YES)
suspect(f, "a range at a list's offset", fixed_lists(3, 2, item([1, 2, 3, 4, 5, 6])), fixed_lists(1, 2, item([9, 9, 5, 6]), offset=1), YES, (2, 0, 1))

f = "structure.rs"
suspect(f, "no children", structs(3), structs(3, offset=5), YES)
suspect(f, "no children, the same nulls", structs(3, bits="010"), structs(3, bits="10010", first_bit=2), YES)
suspect(f, "no children, other nulls", structs(3, bits="010"), structs(3, bits="100"), NO)
suspect(f, "offsets on Struct and child", structs(2, item([7, 8, 1, 2], offset=1), offset=1), structs(2, item([1, 2])), YES)
suspect(f, "the second child differs", structs(1, item([1]), item([2])), structs(1, item([1]), item([3])), NO)
suspect(f, "other children under a null", structs(2, item([1, 2]), bits="01"), structs(2, item([9, 2], bits="01"), bits="01"), YES)
suspect(f, "a null Struct and a null child", structs(1, item([1]), bits="0"), structs(1, item([1], bits="0")), NO)
suspect(f, "children longer than the Struct", structs(1, item([1, 2, 3])), structs(1, item([1])), YES)
suspect(f, "a child's mask at a Struct's offset", structs(2, item([9, 1, 2], bits="001"), offset=1), structs(2, item([5, 2], bits="01")), YES)
suspect(f, "beside a null, offsets on the right", structs(2, item([1, 2]), bits="10"), structs(2, item([7, 8, 1, 3], offset=1), offset=1, bits="10"), YES)

f = "union.rs"
suspect(f, "sparse, a child that is not named differs", sparse([3, 5], item([1, 8], id=3), item([8, 2], id=5)), sparse([3, 5], item([1, 9], id=3), item([9, 2], id=5)), YES)
suspect(f, "sparse, other ids, the same values", sparse([3], item([1], id=3), item([1], id=5)), sparse([5], item([1], id=3), item([1], id=5)), NO)
suspect(f, "sparse, offsets on union and children", sparse([200, 3, 5], item([9, 1, 7, 0], id=3, offset=1), item([8, 8, 2], id=5), offset=1), sparse([3, 5], item([1, 8], id=3), item([8, 2], id=5)), NO)
suspect(f, "sparse, offsets on union and children, equal", sparse([200, 3, 5], item([9, 7, 1, 0], id=3, offset=1), item([8, 8, 2], id=5), offset=1), sparse([3, 5], item([1, 8], id=3), item([8, 2], id=5)), YES)
suspect(f, "sparse, offsets on the right", sparse([3, 5], item([1, 8], id=3), item([8, 2], id=5)), sparse([200, 3, 5], item([9, 7, 1, 0], id=3, offset=1), item([8, 8, 2], id=5), offset=1), YES)
suspect(f, "sparse, a series of one id whose last row differs", sparse([3, 3, 3, 5], item([1, 2, 3, 0], id=3), item([0, 0, 0, 4], id=5)), sparse([3, 3, 3, 5], item([1, 2, 9, 0], id=3), item([0, 0, 0, 4], id=5)), NO)
suspect(f, "sparse, null in the named child", sparse([3], item([1], id=3, bits="0")), sparse([3], item([2], id=3, bits="0")), YES)
suspect(f, "sparse, id 127 and id 0", sparse([127, 0], item([9, 2], id=0), item([1, 9], id=127)), sparse([127, 0], item([8, 2], id=0), item([1, 8], id=127)), YES)
suspect(f, "dense, the rows in another order", dense([3, 5, 3], [0, 0, 1], item([1, 3], id=3), item([2], id=5)), dense([3, 5, 3], [1, 2, 0], item([3, 1], id=3), item([9, 9, 2], id=5)), YES)
suspect(f, "dense, other ids, the same values", dense([3], [0], item([1], id=3), item([1], id=5)), dense([5], [0], item([1], id=3), item([1], id=5)), NO)
suspect(f, "dense, anything before the offset", dense([200, 3], [-1, 0], item([1], id=3), offset=1), dense([3], [1], item([9, 1], id=3)), YES)
suspect(f, "dense, one row differs", dense([3, 3], [0, 1], item([1, 2], id=3)), dense([3, 3], [0, 1], item([1, 3], id=3)), NO)
suspect(f, "without children and rows", sparse([]), sparse([]), YES)
suspect(f, "dense, without children and rows", dense([], []), dense([], []), YES)
suspect(f, "a range of a sparse union", sparse([3, 5, 3], item([1, 0, 2], id=3), item([0, 4, 0], id=5)), sparse([5, 3], item([9, 2], id=3), item([4, 9], id=5)), YES, (1, 0, 2))

f = "dictionary.rs"
suspect(f, "other keys to the same values", dictionary([0, 1, 0], item([5, 6])), dictionary([2, 0, 1], item([6, 5, 5])), YES)
suspect(f, "the same keys to other values", dictionary([0, 1], item([5, 6])), dictionary([0, 1], item([6, 5])), NO)
suspect(f, "a null key and a key to a null", dictionary([0], item([5, 6], bits="10"), bits="0"), dictionary([1], item([5, 6], bits="10")), NO)
suspect(f, "keys to different null values", dictionary([0], item([5], bits="0")), dictionary([1], item([5, 6], bits="10")), YES)
suspect(f, "any key under a null", dictionary([0, -1], item([5]), bits="10"), dictionary([0, 77], item([5]), bits="10"), YES)
suspect(f, "any key before the offset", dictionary([-7, 0], item([5]), offset=1), dictionary([0], item([5])), YES)
suspect(f, "no values, all keys null", dictionary([3, 4], item([]), bits="00"), dictionary([0, 0], item([5]), bits="00"), YES)
suspect(f, "UInt8 keys above 127", dictionary([200], item([1] * 200 + [7]), UINT8), dictionary([0], item([7]), UINT8), YES)
suspect(f, "UInt64 keys", dictionary([1, 0], item([5, 6]), 9, 8), dictionary([0, 1], item([6, 5]), 9, 8), YES)
suspect(f, "values at an offset", dictionary([0], item([5, 6], offset=1)), dictionary([1], item([5, 6])), YES)
suspect(f, "Dictionary of Dictionary", dictionary([0, 1], dictionary([1, 0], item([5, 6]))), dictionary([1, 0], dictionary([0, 1], item([5, 6]))), YES)
suspect(f, "Dictionary of Lists", dictionary([1, 0], lists([0, 1, 3], item([1, 2, 3]))), dictionary([0, 1], lists([0, 2, 3], item([2, 3, 1]))), YES)
suspect(f, "beside a null, offsets on the right", dictionary([0, 0], item([5]), bits="10"), dictionary([0, 1, 0], item([7, 8, 5], offset=1), offset=1, bits="10"), YES)

f = "run.rs"
suspect(f, "ends 2,5 of a,b and 1,2,5 of a,a,b", runs(5, [2, 5], texts([b"a", b"b"])), runs(5, [1, 2, 5], texts([b"a", b"a", b"b"])), YES)
suspect(f, "as many runs, other boundaries", runs(5, [2, 5], item([1, 2])), runs(5, [3, 5], item([1, 2])), NO)
suspect(f, "as many runs, other boundaries, one value", runs(5, [2, 5], item([1, 1])), runs(5, [3, 5], item([1, 1])), YES)
suspect(f, "the last run differs", runs(5, [2, 4, 5], item([1, 2, 3])), runs(5, [2, 4, 5], item([1, 2, 4])), NO)
suspect(f, "the last row alone differs", runs(5, [2, 5], item([1, 2])), runs(5, [2, 4, 5], item([1, 2, 3])), NO)
suspect(f, "a last end above e", runs(5, [2, 9], item([1, 2])), runs(5, [2, 5], item([1, 2])), YES)
suspect(f, "runs past e", runs(5, [2, 5, 8], item([1, 2, 3])), runs(5, [2, 5], item([1, 2])), YES)
suspect(f, "an offset inside a run", runs(4, [2, 5], item([1, 2]), offset=1), runs(4, [1, 4], item([1, 2])), YES)
suspect(f, "an offset at a run's end", runs(3, [2, 5], item([1, 2]), offset=2), runs(3, [3], item([2])), YES)
suspect(f, "the same ends at other offsets", runs(3, [2, 5], item([1, 2]), offset=0), runs(3, [2, 5], item([1, 2]), offset=1), NO)
suspect(f, "run ends and values at offsets", column(RUNS, 5, (), [numbers([-1, 2, 5], INT16, 2, offset=1, name=b"run_ends"), item([9, 9, 1, 2], offset=2)]), runs(5, [2, 5], item([1, 2])), YES)
suspect(f, "run ends that are not whole elements", column(RUNS, 2, (), [column(INT16, 1, [number(2, 2) + b"x"], name=b"run_ends"), item([1])]), runs(2, [2], item([1])), YES)
suspect(f, "null values", runs(4, [2, 4], item([1, 2], bits="10")), runs(4, [2, 3, 4], item([1, 8, 9], bits="100")), YES)
suspect(f, "a null value and a value", runs(2, [2], item([1], bits="0")), runs(2, [2], item([1])), NO)
suspect(f, "null values under the same ends", runs(4, [2, 4], item([1, 7], bits="10")), runs(4, [2, 4], item([1, 8], bits="10")), YES)
suspect(f, "no rows, no runs", runs(0, [], item([])), runs(0, [3], item([1])), YES)
suspect(f, "no rows, an offset", runs(0, [3], item([1]), offset=3), runs(0, [], item([])), YES)
suspect(f, "run ends of four bytes", runs(5, [2, 5], item([1, 2]), INT32, 4), runs(5, [2, 3, 5], item([1, 2, 2]), INT32, 4), YES)
suspect(f, "run ends of eight bytes", runs(5, [2, 5], item([1, 2]), INT64, 8), runs(5, [2, 3, 5], item([1, 2, 2]), INT64, 8), YES)
suspect(f, "the largest Int16 run end", runs(32767, [32767], item([1])), runs(32767, [1, 32767], item([1, 1])), YES)
suspect(f, "the largest Int16 run end, the last row differs", runs(32767, [32767], item([1])), runs(32767, [32766, 32767], item([1, 2])), NO)
suspect(f, "runs of runs", runs(4, [2, 4], runs(2, [1, 2], item([1, 2]))), runs(4, [1, 2, 4], runs(3, [2, 3], item([1, 2]))), YES)
suspect(f, "runs in a List", lists([0, 2, 4], runs(4, [1, 4], item([1, 2]))), lists([1, 3, 5], runs(5, [2, 5], item([1, 2]))), YES)
suspect(f, "a range from inside a run", runs(5, [2, 5], item([1, 2])), runs(3, [1, 3], item([1, 2])), YES, (1, 0, 3))
suspect(f, "a range of no rows at the end", runs(5, [2, 5], item([1, 2])), runs(0, [], item([])), YES, (5, 0, 0))

# as many rows as a node may have; the model, which counts rows, is not asked about these
f = "most rows"
suspect(f, "Null", column(NULL, MOST), column(NULL, MOST), YES)
suspect(f, "FixedSizeBinary of width 0", column(FIXED_SIZE_BINARY, MOST, [b""]), column(FIXED_SIZE_BINARY, MOST, [b""]), YES)
suspect(f, "a Struct without children", structs(MOST), structs(MOST), YES)
suspect(f, "fixed lists of size 0", fixed_lists(MOST, 0, item([])), fixed_lists(MOST, 0, item([])), YES)
suspect(f, "fixed lists of Null", fixed_lists(1 << 10, 1 << 20, column(NULL, MOST)), fixed_lists(1 << 10, 1 << 20, column(NULL, MOST)), YES)
suspect(f, "a List of Null", lists([0, MOST], column(NULL, MOST)), lists([0, MOST], column(NULL, MOST)), YES)
suspect(f, "a List of Null, one row fewer", lists([0, MOST], column(NULL, MOST)), lists([1, MOST], column(NULL, MOST)), NO)
suspect(f, "runs", runs(MOST, [5, MOST], item([1, 2]), INT32, 4), runs(MOST, [5, 7, MOST], item([1, 2, 2]), INT32, 4), YES)
suspect(f, "runs, the last row differs", runs(MOST, [5, MOST], item([1, 2]), INT32, 4), runs(MOST, [5, MOST - 1, MOST], item([1, 2, 3]), INT32, 4), NO)
suspect(f, "the last row of runs", runs(1, [5, MOST], item([1, 2]), INT32, 4, offset=MOST - 1), runs(1, [1], item([2]), INT32, 4), YES)
suspect(f, "the largest Int64 run end", runs(MOST, [5, (1 << 63) - 1], item([1, 2]), INT64, 8), runs(MOST, [5, 7, MOST], item([1, 2, 2]), INT64, 8), YES)
suspect(f, "a range at the end", column(NULL, MOST), column(NULL, 1), YES, (MOST - 1, 0, 1))
