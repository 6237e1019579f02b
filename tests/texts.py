"""Images on purpose for 19, ill-formed text, with document 02's answers: texts that are letters and texts that are none, where
they are judged and where they are not.
"""

import letters
from image import MOST_NODES, number, view
from nodes import BINARY, BINARY_VIEW, LARGE_BINARY, LARGE_LIST, LARGE_LIST_VIEW, LARGE_UTF8
from nodes import dense, dictionary, fixed_lists, image, item, list_views, lists, maps, runs, sparse, structs, texts, views

ACCEPTED = (0, 0, 0, 0)

# half a letter; letters of two, three and four bytes
HALF, TWO, THREE, FOUR = b"\xc3", b"\xc3\xa9", b"\xe4\xb8\xad", b"\xf0\x9f\x98\x80"

# a text that no view holds itself, and one with half a letter at its end
LONG, LONG_HALF = b"thirteen long" + TWO, b"thirteen long" + HALF


def refused(node=0, fault=19):
    return (fault, 0, node, 0)


def short(*rows, **field):
    """Texts that their views hold themselves."""
    return views([view(row) for row in rows], **field)


def half(name=b"i", **field):
    """A child whose only row is half a letter."""
    return texts([HALF], name=name, **field)


def alone(text):
    """A text as the only row: of each code, in its view and, with more before it, behind one."""
    long = LONG + text
    return [("Utf8", texts([text])), ("LargeUtf8", texts([text], LARGE_UTF8)), ("Utf8View", short(text)), ("a long Utf8View", views([view(long)], [long]))]


def split(letter):
    """A letter over two rows, for each place where it can be cut."""
    return [texts([b"a" + letter[:k], letter[k:] + b"b"]) for k in range(1, len(letter))]


def many(count, wrong):
    """A Struct of so many texts, of which one is half a letter."""
    return structs(1, *(texts([HALF if k == wrong else TWO]) for k in range(count)))


# Words, the column, the answer.
COLUMNS = []


def case(words, answer, *made):
    COLUMNS.extend((words, each, answer) for each in made)


case("letters at the limits of every alternative", ACCEPTED, texts(letters.LETTERS), texts(letters.LETTERS, LARGE_UTF8), short(*letters.LETTERS))
case("all of them in one text", ACCEPTED, *(made for _, made in alone(b"".join(letters.LETTERS)[:12])), texts([b"".join(letters.LETTERS)]))
case("no text, and texts of no bytes", ACCEPTED, texts([]), texts([b"", b""], before=HALF), short(b"", b""))
case("under a null", ACCEPTED, texts([b"a", HALF, b"b"], bits="101"), texts([HALF], LARGE_UTF8, bits="000000000", first_bit=8), short(HALF, TWO, bits="01"))
case("a long text under a null", ACCEPTED, texts([LONG_HALF], bits="0"), views([view(LONG_HALF), view(LONG)], [LONG_HALF, LONG], bits="00"))
case("beside a null", refused(), texts([b"a", HALF, b"b"], bits="110"), short(HALF, TWO, bits="10"), texts([TWO, HALF], bits="101", first_bit=1))
case("a null of the bit that the offset would name", refused(), texts([b"a", HALF], offset=1, bits="10"))
case("before the offset", ACCEPTED, texts([HALF, b"a"], offset=1), texts([b"a", HALF], LARGE_UTF8, offset=2), short(HALF, b"a", offset=1))
case("behind the offset", refused(), texts([b"a", HALF], offset=1), texts([b"a", HALF, TWO], LARGE_UTF8, offset=1), short(b"a", HALF, offset=1))
case("in bytes that no row holds", ACCEPTED, texts([TWO], before=HALF, after=b"\xa9"), texts([TWO], before=b"\x80", after=b"\xff"))
case("in view data that no row holds", ACCEPTED, views([view(LONG, 0, 1)], [HALF + LONG + b"\xa9"]), views([view(LONG)], [LONG, LONG_HALF]))
case("a letter whose tail stands behind the last row", refused(), texts([HALF], after=b"\xa9"), views([view(LONG_HALF)], [LONG]))
case("a letter whose first byte stands before the first row", refused(), texts([b"\xa9"], before=HALF), views([view(b"\xa9" + LONG, 0, 1)], [TWO + LONG]))
case("past the rows", ACCEPTED, texts([TWO, HALF], rows=1), texts([HALF, HALF, TWO], LARGE_UTF8, offset=2, rows=0), short(TWO, HALF, rows=1))
case("a letter that the element past the rows goes on with", refused(), texts([HALF, b"\xa9"], rows=1), short(HALF, b"\xa9", rows=1))
case("a letter over two rows", refused(), *split(TWO), *split(THREE), *split(FOUR), texts([HALF, b"\xa9"], LARGE_UTF8), short(HALF, b"\xa9"))
case("a letter over two rows, both null", ACCEPTED, texts([b"a", HALF, b"\xa9", b"b"], bits="1001"))
case("a letter over two rows, one null", refused(), texts([HALF, b"\xa9"], bits="10"), texts([HALF, b"\xa9"], bits="01"))
case("a letter over two rows and an empty one", refused(), texts([HALF, b"", b"\xa9"]), texts([HALF, b"", b"\xa9"], bits="101"))
case("the first row, the last row", refused(), texts([HALF] + [TWO] * 20), texts([TWO] * 20 + [HALF]), short(*[TWO] * 20, HALF))
case("binary kinds", ACCEPTED, texts([HALF], BINARY), texts([HALF], LARGE_BINARY), short(HALF, code=BINARY_VIEW), views([view(LONG_HALF)], [LONG_HALF], code=BINARY_VIEW))
case("names", ACCEPTED, structs(1, texts([TWO], name=HALF), name=b"\xff"))
case("under a null Struct", refused(1), structs(1, half(), bits="0"), structs(2, texts([b"a", HALF], name=b"i"), bits="10"))
case("before a Struct's offset, past its rows", refused(1), structs(1, texts([HALF, b"a"]), offset=1), structs(1, texts([b"a", HALF])))
case("before the text's own offset, under a Struct", ACCEPTED, structs(1, texts([HALF, b"a"], offset=1)), structs(1, texts([HALF], bits="0")))
case("child rows that no list holds", refused(1), lists([1, 1], half()), lists([0, 1], texts([b"a", HALF])), lists([0, 1], half(), LARGE_LIST, bits="0"))
case("child rows that no list view holds", refused(1), list_views([(0, 0)], half()), list_views([(0, 1)], texts([b"a", HALF]), LARGE_LIST_VIEW))
case("child rows of a null fixed list", refused(1), fixed_lists(1, 1, half(), bits="0"), fixed_lists(0, 2, half()))
case("a Map's key", refused(2), maps([0, 1], half(b"key"), item([1])))
case("a Map's value", refused(3), maps([0, 1], texts([TWO], name=b"key"), half(b"value")))
case("values that no key names", refused(1), dictionary([0], texts([b"a", HALF])), dictionary([], half()), dictionary([0], half(), bits="0"))
case("rows that no id names", refused(2), sparse([3], item([1], id=3), half(id=5)), dense([3], [0], item([1], id=3), half(id=5)))
case("a run behind the last row", refused(2), runs(2, [2, 3], texts([b"a", HALF])), runs(0, [1], half()))
case("the lower of two nodes", refused(1), structs(1, half(), short(HALF)), structs(1, short(HALF, name=b"i"), half(b"j")))
case("the last node of most", refused(MOST_NODES - 1), many(MOST_NODES - 1, MOST_NODES - 2))
case("18 of a higher node before 19 of a lower", refused(2, 18), structs(1, half(), dictionary([1], item([1]))), structs(1, half(), views([number(4, 1) + b"ab".ljust(12, b"\0")])))
case("18 before 19 of one node", refused(0, 18), views([view(HALF), number(4, 1) + b"ab".ljust(12, b"\0")]), views([view(LONG_HALF), view(LONG, 0, 2)], [LONG_HALF]))
case("16 before 19", refused(0, 16), structs(2, half()))
case("17 before 19", refused(2, 17), structs(1, half(), lists([0, 2], item([1]))))

IMAGES = [(words, image(made), answer) for words, made, answer in COLUMNS]

# Each way to be ill-formed, and each letter at a limit, as the only row of a table.
ALONE = [("%s as %s" % (text.hex(), code), image(made), refused()) for text in letters.BROKEN for code, made in alone(text)]
ALONE += [("%s as %s" % (text.hex(), code), image(made), ACCEPTED) for text in letters.LETTERS for code, made in alone(text)]
