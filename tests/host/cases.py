#!/usr/bin/env python3
"""Writes calls with their answers for the host tests: document 01's pairs, the texts of tests/texts.py, the decimals of
tests/decimals.py and the Maps of tests/maps.py with their answers, and random images, good and damaged, with what the model says
of them.

    python3 tests/host/cases.py FILE COUNT SEED [CORPUS]

FILE gets records. A record of one call has its number (0 check, 1 compare, 2 write), the images (u32 length, bytes), for a
write u32 start, count and room, then the answer as u64 and, for a write, the bytes written (u32 length, bytes). A record
of ranges has the number 3, two images and the number of ranges as u32; then for each range left start, right start and count
as u32, and as u64 the answers of the range comparison and of the first difference. A record of digits has the number 4 and is
like one of ranges; each range has the digits as a fourth number, and the answer of the comparison at fewer digits. A record of
Map names has the number 5, an image, and as u64 the query's answer. CORPUS, a directory, gets inputs of tests/host/fuzz.c, to
start a fuzzer from.
"""

import functools
import os
import random
import sys

sys.path.insert(0, os.path.join(os.path.dirname(os.path.abspath(__file__)), ".."))

import columns
import decimals
import maps
import model
import pairs
import texts
from columns import MAP_NAMES
from decimals import LARGEST
from image import CODES, number
from model import DECIMAL32, DECIMAL64, MAP, MOST_DIGITS
from nodes import INT32, INT64

# the longest input that a fuzzer starts from
LONGEST_INPUT = 4096

# how long texts are: some longer than the blocks of 16 and of 64 bytes that are looked at at once, and than four parts
columns.TEXT_LENGTHS = [1, 4, 12, 13, 20] * 4 + [15, 16, 17, 33, 64, 65, 130, 300, 520]

# how many of them are ill-formed, in one table of so many
ILL_FORMED, TABLES = 0.05, 5

# an image that is asked about several times is checked once
model.checked = functools.lru_cache(maxsize=8)(model.checked)


def sized(data):
    return number(4, len(data)) + data


def packed(answer):
    refusal, side, node, value = answer
    return number(8, refusal | side << 8 | node << 16 if refusal else value << 8)


def table(rng, seed):
    columns.ILL_FORMED = ILL_FORMED if seed % TABLES == 0 else 0.0
    kind = columns.random_type(rng, rng.choice([1, 2, 3, 4]), seed % CODES)
    return kind, [columns.random_row(rng, kind) for _ in range(rng.choice([0, 1, 3, 9, 40, 70, 150]))]


class NoLayout(Exception):
    """A Dictionary has more values than its keys of one byte can name."""


def laid(rng, kind, rows):
    try:
        return columns.image(rng, columns.lay(rng, kind, rows))
    except IndexError as fault:
        raise NoLayout from fault


def write_call(image, start, count, room, answer, written):
    return b"\x02" + sized(image) + number(4, start) + number(4, count) + number(4, room) + packed(answer) + sized(written)


def ranges_call(left, right, ranges):
    """Both calls on ranges, with the model's answers."""
    record = b"\x03" + sized(left) + sized(right) + number(4, len(ranges))
    for asked in ranges:
        record += b"".join(number(4, x) for x in asked)
        record += packed(model.compare_range(left, right, *asked)) + packed(model.first_difference(left, right, *asked))
    return record


def digits_call(left, right, asked):
    """The comparison at fewer digits, with the model's answers."""
    record = b"\x04" + sized(left) + sized(right) + number(4, len(asked))
    for each in asked:
        record += b"".join(number(4, x) for x in each) + packed(model.compare_digits(left, right, *each))
    return record


def names_call(image):
    """The query for Map names, with the model's answer."""
    return b"\x05" + sized(image) + packed(model.map_names(image))


def document_calls():
    """Document 01's pairs, with its answers. A pair of ranges is asked for its first difference too, and each left image for its
    Maps' names; these answers are the model's."""
    for _, (call, images, rest), answer in pairs.PAIRS:
        lent = [b"".join(parts) for _, parts in images]
        yield names_call(lent[0])
        if call == "check":
            yield b"\x00" + sized(lent[0]) + packed(answer)
        elif call == "compare":
            yield b"\x01" + sized(lent[0]) + sized(lent[1]) + packed(answer)
        elif call == "write":
            yield write_call(lent[0], *rest, answer, model.write(lent[0], *rest)[1])
        else:
            assert model.compare_range(*lent, *rest) == answer
            yield ranges_call(*lent, [rest])


def text_calls():
    """The images of tests/texts.py, each checked, asked for its Maps' names and written, and compared with itself, with no
    image, and behind a table of another type."""
    other = b"".join(pairs.session(0))
    for words, image, answer in texts.IMAGES + texts.ALONE:
        assert model.check(image) == answer, words
        yield b"\x00" + sized(image) + packed(answer)
        yield names_call(image)
        yield write_call(image, 0, 1, 64, *model.write(image, 0, 1, 64))
        for left, right in ((image, image), (image, b""), (other, image)):
            yield b"\x01" + sized(left) + sized(right) + packed(model.compare(left, right))
            yield ranges_call(left, right, [(0, 0, 1)])


def decimal_calls():
    """The pairs of tests/decimals.py."""
    for stored, digits, kept in decimals.KEPT:
        assert model.kept(stored, digits) == kept, (stored, digits)
    for words, left, right, asked, answer in decimals.PAIRS:
        assert model.compare_digits(left, right, *asked) == answer, words
        yield digits_call(left, right, [asked])


def map_calls():
    """The pairs and the queries of tests/maps.py. A pair whose types agree is asked about over the left table's rows."""
    for words, left, right, agree, equal in maps.PAIRS:
        for one, other in ((left, right), (right, left)):
            rows = model.checked(one).nodes[0].length
            assert model.compare(one, other) == (0, 0, 0, int(equal)), words
            assert (model.compare_range(one, other, 0, 0, 0)[0] != 20) == agree, words
            yield b"\x01" + sized(one) + sized(other) + packed(model.compare(one, other))
            yield ranges_call(one, other, [(0, 0, 0), (0, 0, rows)])
            yield names_call(one)
    for words, image, answer in maps.QUERIES:
        assert model.map_names(image) == answer, words
        yield b"\x00" + sized(image) + packed(answer if answer[0] else (0, 0, 0, 0))
        yield names_call(image)


def calls(rng, seed):
    kind, rows = table(rng, seed)
    left = laid(rng, kind, rows)
    right = laid(rng, kind, rows)
    changed = columns.change_type(rng, kind)
    others = [right, laid(rng, changed, [columns.relabelled(kind, changed, row) for row in rows])]
    if rows:
        k = rng.randrange(len(rows))
        others.append(laid(rng, kind, rows[:k] + [columns.change_row(rng, kind, rows[k])] + rows[k + 1 :]))
    damaged = [columns.damage(rng, left) for _ in range(4)]
    for image in [left] + damaged:
        yield b"\x00" + sized(image) + packed(model.check(image))
        yield names_call(image)
    for image in others + damaged[:1]:
        yield b"\x01" + sized(left) + sized(image) + packed(model.compare(left, image))
        yield b"\x01" + sized(image) + sized(left) + packed(model.compare(image, left))
    for image in [left] + damaged[:2]:
        start = rng.randint(0, len(rows) + 1)
        count = rng.choice([0, 1, len(rows) - start + 1, max(len(rows) - start, 0)])
        count = max(count, 0)
        _, whole = model.write(image, start, count, 1 << 20)
        for room in {len(whole), max(len(whole) - 1, 0), len(whole) + rng.randint(1, 9)}:
            answer, written = model.write(image, start, count, room)
            yield write_call(image, start, count, room, answer, written)


def changed(rng, kind, row):
    """A row that differs from this one, where there is such a row: null and not null, or in one value."""
    if columns.has_bitmap(kind) and rng.random() < 0.3:
        return columns.random_row(rng, kind, 0.0) if row is None else None
    return columns.change_row(rng, kind, row)


def around(rng, k, count, shift):
    """Ranges about row k of `count` rows, of which the right table has `shift` before them: all rows; up to row k and with it;
    from row k on and behind it; and from a row before it on."""
    i = rng.randint(0, k)
    for start, end in ((0, count), (0, k), (0, k + 1), (k, count), (k + 1, count), (i, rng.randint(i, count))):
        yield (start, start + shift, end - start)


def anywhere(rng, left, right):
    """Ranges of two tables of so many rows: inside, at the ends, and past them."""
    i, j = rng.randint(0, left), rng.randint(0, right)
    most = min(left - i, right - j)
    yield from ((i, j, rng.randint(0, most)), (i, j, most), (i, j, most + 1))
    odd = [(left, right, 0), (left + 1, right, 0), (left, right + 1, 0), (left + 1, right + 1, 0), (left, right, 1)]
    odd += [(i, j, LARGEST), (LARGEST, j, most), (i, LARGEST, most), (LARGEST, LARGEST, LARGEST), (0, LARGEST, 0)]
    yield from rng.sample(odd, 3)


def range_calls(rng, seed):
    """Ranges of a table and of one with nearly the same rows, as left and right and the other way round."""
    kind, rows = table(rng, seed)
    shift = rng.choice([0, 0, 1, 3, 8, 67])
    before, after = ([columns.random_row(rng, kind) for _ in range(n)] for n in (shift, rng.choice([0, 2])))
    whole = before + rows + after
    left, right = laid(rng, kind, rows), laid(rng, kind, whole)
    # the same rows in two layouts, and the others against each other
    asked = [(left, right, [(0, shift, len(rows)), *anywhere(rng, len(rows), len(whole))])]
    # one row changed, in some tables a second one behind it
    for k in {0, len(rows) - 1, rng.randrange(len(rows))} if rows else ():
        other = list(whole)
        for row in (k, rng.randrange(k, len(rows)))[: rng.choice([1, 1, 2])]:
            other[shift + row] = changed(rng, kind, rows[row])
        asked.append((left, laid(rng, kind, other), list(around(rng, k, len(rows), shift))))
    # another type; damaged images, of which some are still accepted
    retyped = columns.change_type(rng, kind)
    typed = laid(rng, retyped, [columns.relabelled(kind, retyped, row) for row in whole])
    damaged = [columns.damage(rng, image) for image in (left, right, typed)]
    for one, other in ((left, typed), (left, damaged[1]), (left, damaged[2]), (damaged[0], damaged[1])):
        asked.append((one, other, list(anywhere(rng, len(rows), len(whole)))))
    for one, other, ranges in asked:
        yield ranges_call(one, other, ranges)
        yield ranges_call(other, one, [(j, i, n) for i, j, n in ranges])


def both_ways(left, right, asked):
    yield digits_call(left, right, asked)
    yield digits_call(right, left, [(j, i, n, digits) for i, j, n, digits in asked])


def near_decimals(rng, seed):
    """A type of decimals, rows of it and the digits that they are near a half of."""
    kind = columns.random_type(rng, 1, rng.choice([DECIMAL32, DECIMAL64]))
    digits = seed % (MOST_DIGITS + 1)
    count = rng.choice([0, 1, 3, 9, 40, 70, 150])
    return kind, [decimals.some_row(rng, kind.code, digits) for _ in range(count)], digits


def other_decimals(rng, kind):
    """Another type of the same width: of another precision or scale, or integers."""
    integers = columns.Type(INT32 if kind.code == DECIMAL32 else INT64)
    return rng.choice([kind.copy(p1=kind.p1 % 9 + 1), kind.copy(p2=(kind.p2 + 1) % 100), integers])


def near_calls(rng, seed):
    """Ranges of a table of decimals and of one whose numbers are near."""
    kind, rows, digits = near_decimals(rng, seed)
    shift = rng.choice([0, 0, 1, 3, 8, 67])
    before, after = ([decimals.some_row(rng, kind.code, digits) for _ in range(n)] for n in (shift, rng.choice([0, 2])))

    def beside(unlike=()):
        """The rows' neighbours, of which those do not agree, with the others before and after them."""
        return before + [decimals.near_row(rng, kind.code, row, digits, k not in unlike) for k, row in enumerate(rows)] + after

    whole = beside()
    left, right = laid(rng, kind, rows), laid(rng, kind, whole)

    def anyhow(ranges):
        """Each range at these digits and at others."""
        return [(*each, dropped) for each in ranges for dropped in (digits, decimals.any_digits(rng))]

    # rows that agree, at all digits, and others
    asked = [(0, shift, len(rows), dropped) for dropped in range(MOST_DIGITS + 2)]
    yield from both_ways(left, right, asked + anyhow(anywhere(rng, len(rows), len(whole))))
    # one row that does not
    for k in {0, len(rows) - 1, rng.randrange(len(rows))} if rows else ():
        yield from both_ways(left, laid(rng, kind, beside({k})), anyhow(around(rng, k, len(rows), shift)))
    # another type; damaged images, of which some are still accepted
    typed = laid(rng, other_decimals(rng, kind), whole)
    damaged = [columns.damage(rng, image) for image in (left, right, typed)]
    for one, other in ((left, typed), (left, damaged[1]), (left, damaged[2]), (damaged[0], damaged[1])):
        yield from both_ways(one, other, anyhow(anywhere(rng, len(rows), len(whole))))


def rooted_calls(rng, seed):
    """Tables of any root, at any digits."""
    kind, rows = table(rng, seed)
    left, right = laid(rng, kind, rows), laid(rng, kind, rows)
    for one, other in ((left, right), (left, columns.damage(rng, right))):
        asked = [(*each, decimals.any_digits(rng)) for each in anywhere(rng, len(rows), len(rows))]
        yield from both_ways(one, other, [(0, 0, len(rows), 0)] + asked)


# names beside those that are asked for
NEAR = [b"", b"key_value", b"keys", b"values", b"Key", b"valu", b"entrie", b"entries\0", b"item", *MAP_NAMES]


def labelled(kind):
    """The type with the names that are asked for."""
    made = kind.copy()
    for _, *nodes in made.maps():
        for node, name in zip(nodes, MAP_NAMES):
            node.name = name
    return made


def one_wrong(rng, kind):
    """One name of one Map, if there is one, is another: near the right one, or with one byte changed, put in or left out."""
    made = kind.copy()
    if made.maps():
        _, *nodes = rng.choice(made.maps())
        node = rng.choice(nodes)
        at = rng.randrange(len(node.name) + 1)
        cut, byte = node.name[at + 1 :], bytes([rng.randrange(256)])
        changes = [node.name[:at] + cut, node.name[:at] + byte + cut, node.name[:at] + byte + node.name[at:], rng.choice(NEAR)]
        node.name = rng.choice([name for name in [*changes, b"other"] if name != node.name])
    return made


def freed(rng, kind):
    """The type with other labels wherever labels of Maps do not count: the entries' name and flag, the names of the fields."""
    made = kind.copy()
    for _, *nodes in made.maps():
        nodes[0].nullable = rng.random() < 0.5
        for node in nodes:
            node.name = rng.choice(NEAR)
    return made


def random_maps(rng, more):
    """A Map with so many more in one another below it, each in a key or a value."""
    made = columns.random_type(rng, 2, MAP)
    if more:
        made.children[0].children[rng.randrange(2)] = random_maps(rng, more - 1)
    return made


def map_type(rng):
    """Maps in one another, most of the time as the last child of another code."""
    made = random_maps(rng, rng.choice([0, 0, 1, 2, 4]))
    outer = columns.random_type(rng, 3, rng.choice(columns.NESTED))
    if outer.code == MAP or not outer.children:
        return made
    last = outer.children[-1]
    outer.children[-1] = made.copy(name=last.name, nullable=last.nullable, id=last.id)
    return outer


def map_table(rng):
    """A type with Maps and rows of it: few, for they are long."""
    columns.ILL_FORMED = 0.0
    kind = map_type(rng)
    return kind, [columns.random_row(rng, kind) for _ in range(rng.choice([0, 0, 1, 2, 5]))]


def named_calls(rng):
    """Tables with Maps: all names right, one of them wrong, any names; damaged; and pairs that differ in their Maps' labels, and
    in one label or one row more."""
    kind, rows = map_table(rng)
    right = labelled(kind)
    types = [right, one_wrong(rng, right), one_wrong(rng, right), freed(rng, right)]
    images = [laid(rng, each, rows) for each in types]
    for image in images + [columns.damage(rng, image) for image in images]:
        yield names_call(image)
    other = freed(rng, right)
    asked = [laid(rng, other, rows)]
    changed_type = columns.change_type(rng, other)
    asked.append(laid(rng, changed_type, [columns.relabelled(other, changed_type, row) for row in rows]))
    if rows:
        k = rng.randrange(len(rows))
        asked.append(laid(rng, other, rows[:k] + [changed(rng, kind, rows[k])] + rows[k + 1 :]))
    for image in asked:
        for one, two in ((images[0], image), (image, images[0])):
            yield b"\x01" + sized(one) + sized(two) + packed(model.compare(one, two))
            yield ranges_call(one, two, [(0, 0, len(rows)), (0, 0, 0)])


def two_images(rng, left, right):
    """Two images, any starts and count, any number of digits, and any damage, as tests/host/fuzz.c reads them."""
    return b"".join(number(2, x) for x in (len(left), *(rng.randrange(1 << 16) for _ in range(6)))) + left + right


def fuzz_input(rng, seed):
    """Two layouts of a table, in half of them with one row changed, of which some have ill-formed text."""
    kind, rows = table(rng, seed)
    other = list(rows)
    if rows and rng.random() < 0.5:
        k = rng.randrange(len(rows))
        other[k] = changed(rng, kind, rows[k])
    return two_images(rng, laid(rng, kind, rows), laid(rng, kind, other))


def decimal_input(rng, seed):
    """Two tables of decimals whose rows are near, of which most agree."""
    kind, rows, digits = near_decimals(rng, seed)
    other = [decimals.near_row(rng, kind.code, row, digits, rng.random() < 0.98) for row in rows]
    return two_images(rng, laid(rng, kind, rows), laid(rng, kind, other))


def map_input(rng):
    """Two tables with Maps, with the same rows: the names right or one of them wrong, and any."""
    kind, rows = map_table(rng)
    right = labelled(kind)
    left = right if rng.random() < 0.5 else one_wrong(rng, right)
    return two_images(rng, laid(rng, left, rows), laid(rng, freed(rng, right), rows))


def readable_input(rng):
    """Two layouts of rows that may be read back."""
    columns.ILL_FORMED = 0.0
    kind = columns.readable_type(rng, rng.choice([1, 2, 3, 4]))
    rows = [columns.random_row(rng, kind) for _ in range(rng.choice([0, 1, 3, 9]))]
    return two_images(rng, laid(rng, kind, rows), laid(rng, kind, rows))


def records(rng, seed):
    yield from calls(rng, seed)
    # every code has its turn at the first and the last, since 44 is no multiple of 3
    yield from (range_calls, near_calls, rooted_calls)[seed % 3](rng, seed)


def fuzz_inputs(seeds):
    """Random tables, one of decimals beside every seventh, one with Maps beside every fifth and one whose rows may be read back
    beside every second, and each text of tests/texts.py beside the one after it."""
    for seed in seeds:
        try:
            yield fuzz_input(random.Random(seed), seed)
            if seed % 5 == 0:
                yield map_input(of_maps(seed))
        except NoLayout:
            continue
        if seed % 2 == 0:
            yield readable_input(random.Random(f"read back {seed}"))
        if seed % 7 == 0:
            yield decimal_input(random.Random(seed), seed)
    images = [image for _, image, _ in texts.IMAGES]
    for k, (left, right) in enumerate(zip(images, images[1:])):
        yield two_images(random.Random(k), left, right)


def of_maps(seed):
    """The numbers that tables with Maps are drawn from, so that those of all other tables stay the same."""
    return random.Random(f"maps {seed}")


def write_corpus(corpus, seeds):
    for k, data in enumerate(fuzz_inputs(seeds)):
        if len(data) <= LONGEST_INPUT:
            with open(os.path.join(corpus, f"{k}"), "wb") as file:
                file.write(data)


def joined(records):
    """The records of a table; none where it has no layout."""
    try:
        return b"".join(records)
    except NoLayout:
        return b""


def main():
    path, count, first = sys.argv[1], int(sys.argv[2]), int(sys.argv[3])
    seeds = range(first, first + count)
    with open(path, "wb") as file:
        file.write(b"".join(document_calls()))
        file.write(b"".join(text_calls()))
        file.write(b"".join(decimal_calls()))
        file.write(b"".join(map_calls()))
        for seed in seeds:
            file.write(joined(records(random.Random(seed), seed)))
            file.write(joined(named_calls(of_maps(seed))))
    if len(sys.argv) > 4:
        write_corpus(sys.argv[4], seeds[:400])


main()
