"""Maps on purpose, with document 02's answers: pairs whose Maps differ in labels that count and in labels that do not, at every
place where a Map may stand, and images whose Maps' names are the three that the query asks for, or others.
"""

from image import DEEPEST, LONGEST_NAME, field_place, number, with_fields
from nodes import INT32, LARGE_LIST, LARGE_LIST_VIEW, LIST, MAP
from nodes import column, dense, dictionary, fixed_lists, image, item, list_views, lists, maps, numbers, runs, sparse, structs, texts

YES, NO = (0, 0, 0, 1), (0, 0, 0, 0)


def refused(fault, node=0):
    return (fault, 0, node, 0)


# Columns of keys and of values, of none or two rows.


def letters(rows, **field):
    return texts([b"a", b"b"][:rows], **field)


def small(rows, last=2, **field):
    return numbers([1, last][:rows], **field)


def struct_of(name=b"x", flag=False, second=b"y"):
    """Structs of two, by the first one's name and flag and the second one's name."""
    return lambda rows, **field: structs(rows, small(rows, name=name, nullable=flag), small(rows, name=second), **field)


def list_of(name=b"item", flag=False):
    return lambda rows, **field: lists([*range(rows + 1)], small(rows, name=name, nullable=flag), **field)


def dictionary_of(name=b"", flag=False, below=b"x"):
    """Dictionaries of Structs: the name and the flag of the Structs, and the name of their field."""
    return lambda rows, **field: dictionary([0] * rows, structs(2, small(2, name=below), name=name, nullable=flag), **field)


def union_of(id=3, name=b"x"):
    return lambda rows, **field: sparse([id] * rows, small(rows, name=name, id=id), **field)


def decimal_of(p1=3, p2=0):
    return lambda rows, **field: numbers([1, 2][:rows], 15, 4, p1=p1, p2=p2, **field)


def a_map(rows=1, key=b"key", value=b"value", key_flag=False, value_flag=True, keys=letters, values=small, **field):
    """So many rows, none or one, of two entries; `keys` and `values` make its two columns."""
    ends = [0, 2][: rows + 1]
    return maps(ends, keys(ends[-1], name=key, nullable=key_flag), values(ends[-1], name=value, nullable=value_flag), **field)


def with_id(id, child):
    """The child of a union."""
    child.type.id = id
    return child


# Where a Map stands.


class Place:
    """Words; what puts a Map there, in a table of as many rows or of one; whether the Map's own name and its own flag count;
    and the name that the query asks for, where it is a Map's key or value. All other names that it asks for are right."""

    def __init__(self, words, table, name=True, flag=True, asked=b"n"):
        self.words, self.table, self.name, self.flag, self.asked = words, table, name, flag, asked


def sevens(child, name=b"i", **field):
    """A column as long as that one."""
    return numbers([7] * child.length, name=name, **field)


def as_key(child, **field):
    return maps([0, child.length], child, sevens(child, b"value"), **field)


def as_value(child, **field):
    return maps([0, child.length], sevens(child, b"key"), child, **field)


def zeros(child, **field):
    """A Dictionary whose keys name the first row."""
    return dictionary([0] * child.length, child, **field)


def one_list(child, **field):
    return lists([0, child.length], child, **field)


def deep(levels, child):
    """So many Structs, one below the other."""
    for _ in range(levels):
        child = structs(child.length, child)
    return child


def chain(levels, child):
    """So many Maps, each the value of the one before it."""
    for _ in range(levels):
        child = as_value(child, name=b"value")
    return child


PLACES = [
    Place("at the root", lambda m: m, name=False, flag=False),
    Place("in a List", one_list),
    Place("in a LargeList", lambda m: one_list(m, code=LARGE_LIST)),
    Place("in a ListView", lambda m: list_views([(0, m.length)], m)),
    Place("in a LargeListView", lambda m: list_views([(0, m.length)], m, LARGE_LIST_VIEW)),
    Place("in a FixedSizeList", lambda m: fixed_lists(m.length, 1, m)),
    Place("in a Struct", lambda m: structs(m.length, m)),
    Place("as a Struct's second child", lambda m: structs(m.length, sevens(m), m)),
    Place("in a Dictionary", zeros, name=False, flag=False),
    Place("in runs", lambda m: runs(2 * m.length, [2] * m.length, m)),
    Place("in a dense union", lambda m: dense([5] * m.length, [0] * m.length, item([], id=3), with_id(5, m))),
    Place("in a sparse union", lambda m: sparse([5] * m.length, sevens(m, id=3), with_id(5, m))),
    Place("as a Map's key", as_key, name=False, asked=b"key"),
    Place("as a Map's value", as_value, name=False, asked=b"value"),
    Place("as the value of a Map in a List", lambda m: one_list(as_value(m)), name=False, asked=b"value"),
    Place("in a List that is a Map's value", lambda m: as_value(one_list(m, name=b"value"))),
    Place("in a Struct that is a Map's key", lambda m: as_key(structs(m.length, m, name=b"key"))),
    Place("in a Dictionary in a Struct in a List", lambda m: one_list(structs(m.length, zeros(m))), name=False, flag=False),
    Place("in a Dictionary that is a Map's value", lambda m: as_value(zeros(m, name=b"value")), name=False, flag=False),
    # key and value as deep as a node may stand
    Place("below as many Structs as there may be", lambda m: deep(DEEPEST - 3, m)),
    Place("the last of as many Maps as there may be", lambda m: structs(m.length, chain(DEEPEST // 2 - 2, m)), name=False, asked=b"value"),
]
AT_ROOT, IN_LIST, IN_DICTIONARY = PLACES[0], PLACES[1], PLACES[8]

# Labels of a Map that do not count at any of these places, the other side having the usual ones.
EVERY = dict(entries=b"e", flag=True, key=b"k", value=b"v")
FREE = [
    ("the entries' name", dict(entries=b"e")),
    ("the entries' flag", dict(flag=True)),
    ("the key's name", dict(key=b"k")),
    ("the value's name", dict(value=b"v")),
    ("all four", EVERY),
]

# These count at each of them.
COUNTED = [
    ("the key's flag", dict(key_flag=True)),
    ("the value's flag", dict(value_flag=False)),
    ("both flags, as if key and value were exchanged", dict(key_flag=True, value_flag=False)),
    ("sorted", dict(p1=1)),
]

# Labels below key and value: words, of either side the column, and whether they agree.
BELOW = [
    ("the same Structs", struct_of(), struct_of(), True),
    ("the name of a Struct's first field", struct_of(b"x"), struct_of(b"z"), False),
    ("the name of a Struct's second field", struct_of(), struct_of(second=b"z"), False),
    ("the names of a Struct's fields exchanged", struct_of(b"x", second=b"y"), struct_of(b"y", second=b"x"), False),
    ("the flag of a Struct's field", struct_of(), struct_of(flag=True), False),
    ("the name of a List's child", list_of(), list_of(b"i"), False),
    ("the flag of a List's child", list_of(), list_of(flag=True), False),
    ("the name of a Dictionary's child", dictionary_of(b"a"), dictionary_of(b"b"), True),
    ("the flag of a Dictionary's child", dictionary_of(), dictionary_of(flag=True), True),
    ("a name below a Dictionary's child", dictionary_of(), dictionary_of(below=b"z"), False),
    ("the id of a union's child", union_of(3), union_of(4), False),
    ("the name of a union's child", union_of(3), union_of(3, b"z"), False),
    ("precision", decimal_of(3), decimal_of(4), False),
    ("scale", decimal_of(3, 0), decimal_of(3, 1), False),
    ("the code", small, lambda rows, **field: numbers([1, 2][:rows], INT32, 4, **field), False),
]

# Words, the left image, the right one, whether the types agree, whether the tables are equal.
PAIRS = []


def pair(words, left, right, agree, equal=None, turned=False):
    """Two columns, as left and right or the other way round. Tables whose types agree are equal unless it says otherwise."""
    sides = [image(left), image(right)]
    if turned:
        sides.reverse()
    PAIRS.append((words, *sides, agree, agree if equal is None else equal))


# the last value is another
OTHER = dict(values=lambda rows, **field: small(rows, 3, **field))


def label_pairs(place, turned):
    """Each label of a Map at a place, with rows; without, those that do not count, together, and two that do; and rows that
    differ under labels that agree."""

    def side(rows=1, **labels):
        return place.table(a_map(rows, **labels))

    def case(about, left, right, agree, equal=None):
        pair(f"a Map {place.words}{about}", left, right, agree, equal, turned)

    labels = [(*each, True) for each in FREE] + [(*each, False) for each in COUNTED]
    labels += [("its own name", dict(name=b"n"), not place.name), ("its own flag", dict(nullable=True), not place.flag)]
    for about, other, agree in labels:
        case(f": {about}", side(), side(**other), agree)
    case(": a row and none, and all four", side(), side(0, **EVERY), True, False)
    case(": a value differs, and all four", side(), side(**OTHER, **EVERY), True, False)
    case(": a null and a row, and all four", side(bits="0"), side(**EVERY), True, False)
    case(": nulls over other rows, and all four", side(bits="0"), side(bits="0", **OTHER, **EVERY), True)
    case(", no rows: all four", side(0), side(0, **EVERY), True)
    case(", no rows: the value's flag", side(0), side(0, value_flag=False), False)
    case(", no rows: its own flag", side(0), side(0, nullable=True), not place.flag)


def below_pairs(about, one, other, agree):
    """What stands below a key and below a value, with other names for the Map."""
    for place in (AT_ROOT, IN_LIST, IN_DICTIONARY):
        for what in ("keys", "values"):
            sides = [place.table(a_map(**{what: one})), place.table(a_map(**{what: other}, **EVERY))]
            pair(f"below the {what} of a Map {place.words}: {about}", *sides, agree, turned=what == "values")


def two(first, second):
    """Two Maps in a Struct."""
    return structs(1, a_map(name=b"a", **first), a_map(name=b"b", **second))


def no_map(key=b"key", entries=b"entries", code=LIST):
    """A List of Structs of two, named as a Map's entries are."""
    below = structs(2, letters(2, name=key), small(2, name=b"value", nullable=True), name=entries)
    return lists([0, 2], below, code)


for k, each in enumerate(PLACES):
    label_pairs(each, turned=k % 2 == 1)
for each in BELOW:
    below_pairs(*each)
pair("two Maps in a Struct: the names of the second", two({}, {}), two({}, EVERY), True)
pair("two Maps in a Struct: a name of each", two({}, dict(key=b"k")), two(dict(value=b"v"), {}), True)
pair("two Maps in a Struct: the flag of the second's value", two({}, {}), two({}, dict(value_flag=False)), False)
pair("a Map as a Map's value: labels of both", as_value(a_map()), maps([0, 1], item([7]), a_map(name=b"v", **EVERY), b"e", True), True)
pair("a Map as a Map's value: the flag of the outer key", as_value(a_map()), maps([0, 1], item([7], nullable=True), a_map()), False)
pair("names of no bytes, and the usual ones", one_list(a_map()), one_list(a_map(entries=b"", key=b"", value=b"")), True)
pair("names of 64 bytes that differ in the last", one_list(a_map(key=b"k" * 64)), one_list(a_map(key=b"k" * 63 + b"l")), True)
pair("the names of key and value exchanged", one_list(a_map()), one_list(a_map(key=b"value", value=b"key")), True)
pair("a List of Structs of two is no Map: a field's name", no_map(), no_map(b"k"), False)
pair("a List of Structs of two is no Map: the Structs' name", no_map(), no_map(entries=b"e"), False)
pair("a List of Structs of two and a Map", no_map(), no_map(code=MAP), False)
pair("as a Map's value, a Map and a List of Structs of two", as_value(no_map(code=MAP)), as_value(no_map()), False)


# The query. Names that are not the one that is asked for: a part of it, more than it, in other letters, another's.
WRONG = {
    "entries": [b"entrie", b"entries ", b"entries\0", b"", b"e", b"Entries", b"ENTRIES", b"entriet", b"dntries", b"entry", b"key", b"value"],
    "key": [b"ke", b"keys", b"key\0", b" key", b"", b"k", b"Key", b"KEY", b"kez", b"jey", b"value", b"entries"],
    "value": [b"valu", b"values", b"value\0", b"", b"v", b"Value", b"VALUE", b"valuf", b"walue", b"eulav", b"key", b"entries"],
}
for asked, others in WRONG.items():
    others.append(asked.encode().ljust(LONGEST_NAME, b"s"))

# Words, the image, the answer.
QUERIES = []


def query(words, answer, *made):
    """Columns, or images."""
    QUERIES.extend((words, each if isinstance(each, bytes) else image(each), answer) for each in made)


def name_queries(place):
    """A Map at a place, with rows and without: right, each name wrong, and all of them."""
    for rows in (0, 1):
        words = f"a Map {place.words}" + ("" if rows else ", no rows")
        chosen = {what: others[(len(QUERIES) + k) % len(others)] for k, (what, others) in enumerate(WRONG.items())}
        query(f"{words}: right", YES, place.table(a_map(rows, name=place.asked)))
        for what, other in chosen.items():
            query(f"{words}: {what} is {other}", NO, place.table(a_map(rows, name=place.asked, **{what: other})))
        query(f"{words}: {chosen}", NO, place.table(a_map(rows, name=place.asked, **chosen)))
        query(f"{words}: key and value exchanged", NO, place.table(a_map(rows, name=place.asked, key=b"value", value=b"key")))
        if place.asked != b"n":
            query(f"{words}: its own name, which is asked for", NO, place.table(a_map(rows, name=b"n")))


for what, others in WRONG.items():
    for other in others:
        query(f"{what} is {other}", NO, a_map(**{what: other}), one_list(a_map(**{what: other})))
for each in PLACES:
    name_queries(each)

query("no Map", YES, item([1]), column(0, 0), structs(0), dictionary([0], texts([b"a"])), no_map(), no_map(b"k", b"e"))
query("no Map: a Struct named as a Map's entries, with other fields", YES, structs(1, item([1]), item([2]), name=b"entries"))
query("the root's name", YES, a_map(name=b"entries"), a_map(name=b"m" * LONGEST_NAME), a_map(name=b""))
query("labels that are no names", YES, a_map(flag=True, key_flag=True, value_flag=False, nullable=True, p1=1))
query("names below key and value", YES, a_map(keys=struct_of(b"a"), values=list_of(b"b")))

right, wrong = a_map(name=b"value"), a_map(name=b"value", key=b"keys")
query("the root right, a deeper one wrong", NO, as_value(wrong), as_value(one_list(a_map(value=b"val"), name=b"value")))
query("the root wrong, a deeper one right", NO, maps([0, 1], numbers([7], name=b"keys"), right), as_value(right, entries=b"entry"))
query("one of two wrong", NO, two({}, dict(key=b"k")), two(dict(value=b"v"), {}), two(dict(entries=b""), {}))
query("both right", YES, two({}, {}))
query("the last of many wrong", NO, structs(1, *(a_map() for _ in range(62)), a_map(value=b"values")))
query("the last of many", YES, structs(1, *(a_map() for _ in range(63))))

query("in a Dictionary's values that no key names", NO, dictionary([], wrong), dictionary([0], wrong, bits="0"))
query("in a Dictionary's values that no key names, right", YES, dictionary([], right), dictionary([0], right, bits="0"))
for answer, made in ((YES, {}), (NO, dict(entries=b"e"))):
    about = "right" if answer == YES else "wrong"
    query(f"in a union's child that no row names, {about}", answer, sparse([3], item([1], id=3), with_id(5, a_map(**made))))
    query(f"in a dense union's child that no row names, {about}", answer, dense([3], [0], item([1], id=3), with_id(5, a_map(0, **made))))
    query(f"in a run behind the last row, {about}", answer, runs(0, [1], a_map(**made)))
    query(f"in child rows that no list holds, {about}", answer, lists([1, 1], a_map(**made)), list_views([(0, 0)], a_map(**made)), fixed_lists(0, 2, a_map(**made)))
    query(f"under nulls, {about}", answer, structs(1, a_map(**made), bits="0"), a_map(bits="0", **made))
    query(f"before the offset, {about}", answer, structs(0, a_map(**made), offset=1))


# Where the names' bytes lie. The nodes are the Map, its entries, key and value; the last bytes of the image are the value's name.
ENTRIES, KEY, VALUE = 1, 2, 3


def named(data, node, place, length):
    return with_fields(data, node, name_place=place, name_length=length)


def in_text(text):
    """A Map whose first key is that text, and where its bytes lie."""
    data = image(a_map(keys=lambda rows, **field: texts([text, b""], **field)))
    return data, data.index(text)


data, at = in_text(b"entrieskeyvaluekeys")
over = named(named(named(data, ENTRIES, at, 7), KEY, at + 7, 3), VALUE, at + 10, 5)
query("names that lie over the bytes of a text", YES, over)
query("one of them a byte too far", NO, named(over, ENTRIES, at + 1, 7), named(over, KEY, at + 8, 3), named(over, VALUE, at + 11, 5))
query("one of them a byte too long", NO, named(over, ENTRIES, at, 8), named(over, KEY, at + 7, 4), named(over, VALUE, at + 10, 6))
query("one of them a byte too short", NO, named(over, ENTRIES, at, 6), named(over, KEY, at + 7, 2), named(over, VALUE, at + 10, 4))
query("a key's name that is another place of the same bytes", YES, named(over, KEY, at + 15, 3))
usual = image(a_map())
end = len(usual)
query("a name that ends where the image does", YES, usual)
query("with more bytes behind it", YES, usual + b"s", usual + b"\0")
query("a name that ends where the image does, of one byte more", NO, named(usual + b"s", VALUE, end - 5, 6))
query("a name that begins before, and ends where the image does", NO, named(usual, VALUE, end - 6, 6), named(usual, VALUE, end - 4, 4))
query("a name past the end of the image", refused(13, VALUE), named(usual, VALUE, end - 5, 6), named(usual, VALUE, end - 4, 5), usual[:-1])
query("a name of no bytes, anywhere", NO, named(usual, VALUE, 0xFFFFFFFF, 0), named(usual, KEY, end + 1, 0), named(usual, ENTRIES, 0, 0))
query("a name over header and records", NO, named(usual, ENTRIES, 0, 7), named(usual, KEY, 0, 3), named(usual, VALUE, 4, 5))
hidden = with_fields(usual, VALUE, bitmap_place=int.from_bytes(b"key", "little"))
query("a name over fields of a record that are not read", YES, named(hidden, KEY, field_place(VALUE, "bitmap_place"), 3))
query("a name over fields of a record that are not read, and one more byte", NO, named(hidden, KEY, field_place(VALUE, "bitmap_place"), 4))
shared = image(a_map(key=b"keys"))
query("a name inside another node's", YES, named(with_fields(shared, KEY, name_length=3), 0, shared.index(b"keys"), 4))
query("key and value of one name", NO, named(usual, VALUE, usual.index(b"key"), 3), named(usual, KEY, end - 5, 5))
beside = image(two({}, {}))
query("two Maps whose names are the same bytes", YES, beside)
query("two Maps, of which one has the other's name for the entries", YES, named(image(two({}, dict(entries=b"e"))), 4, beside.index(b"entries"), 7))


def faulty(names):
    """Images with each fault, by the names that they have: number, node and image."""
    usual = image(a_map(**names))
    keys, values = (make(2, name=names.get(name, name.encode())) for name, make in (("key", letters), ("value", small)))
    entries = structs(2, keys, values, name=names.get("entries", b"entries"))
    yield from ((10, 0, b""), (10, 0, usual[:4]), (10, 0, usual[:100]))
    yield from ((11, 0, image(a_map(p1=2, **names))), (11, ENTRIES, with_fields(usual, ENTRIES, flags=4)))
    yield 12, 0, image(lists([0, 2], structs(2, keys, name=entries.type.name), MAP))
    yield 12, 0, image(lists([0, 2], structs(2, keys, values, values, name=entries.type.name), MAP))
    yield 12, 0, image(lists([0, 2], sparse([0, 1], keys, with_id(1, small(2))), MAP))
    yield 13, KEY, image(a_map(**names | dict(key=b"key".ljust(LONGEST_NAME + 1, b"s"))))
    yield 14, 0, image(column(MAP, 1, [number(4, 0) + number(4, 2) + b"x"], [entries]))
    yield 15, 0, image(column(MAP, 1, [number(4, 0)], [entries]))
    yield 16, ENTRIES, image(lists([0, 2], structs(3, keys, values, name=entries.type.name), MAP))
    yield 17, 0, image(lists([0, 2, 1], entries, MAP))
    yield 17, 0, image(lists([0, 3], entries, MAP))
    yield 18, 2, image(structs(1, a_map(**names), dictionary([1], item([1]))))
    yield 19, KEY, image(a_map(keys=lambda rows, **field: texts([b"a", b"\xc3"], **field), **names))


for each in ({}, {"entries": b"e", "key": b"k", "value": b"v"}, {"key": b"keys"}):
    for fault, node, data in faulty(each):
        query(f"refused by {fault}, with {each or 'the right names'}", refused(fault, node), data)
