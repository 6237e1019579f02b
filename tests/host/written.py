#!/usr/bin/env python3
"""Writes strings of rows with the images that are built of them, for tests/host/build.c: the calls of tests/rows.py, with
document 02's answers, and random ones, with the model's.

    python3 tests/host/written.py FILE COUNT SEED

FILE gets records: the given image (u32 length, bytes), the count as u32, the string, the answer where there is room enough as
u64, and the image that is built, none where the call is refused; then the rows that the string was written of: a byte that is
0 for none, 1 for those of the given image, 2 for those of another, which then stands here, and the row where they begin, as
u32. Behind 0 there is nothing.
"""

import os
import random
import sys

sys.path.insert(0, os.path.join(os.path.dirname(os.path.abspath(__file__)), ".."))

import columns
import model
import rows
from image import number
from model import LARGE_LIST, LIST, READABLE, STRUCT

LARGEST = 0xFFFFFFFF

# how long texts are: some longer than the blocks of 16 and of 64 bytes that are looked at at once
columns.TEXT_LENGTHS = [1, 4, 12, 13, 20] * 4 + [15, 16, 17, 33, 64, 65, 130, 300]

NESTED = [LIST, LARGE_LIST, STRUCT]


def sized(data):
    return number(4, len(data)) + data


def packed(answer):
    refusal, side, node, value = answer
    return number(8, refusal | side << 8 | node << 16 if refusal else value << 8)


NO_ROWS = number(1, 0)


def record(given, count, string, answer, image, of=NO_ROWS):
    return sized(given) + number(4, count) + sized(string) + packed(answer) + sized(image) + of


def asked(given, count, string, of=NO_ROWS):
    """A call with the model's answer; the rows that the string was written of stand there where it is built."""
    answer, image = model.build(given, count, string, 1 << 60)
    return record(given, count, string, answer, image, NO_ROWS if answer[0] else of)


def purpose_calls():
    for words, given, count, string, answer in rows.CALLS:
        refused = isinstance(answer, tuple)
        wanted = (answer, b"") if refused else ((0, 0, 0, len(answer)), answer)
        assert model.build(given, count, string, 1 << 60) == wanted, words
        yield record(given, count, string, *wanted)


def deep_type(rng, depth):
    """A type of exactly that depth: a leaf below Lists, LargeLists and Structs, of which some have a second child."""
    made = columns.readable_type(rng, 1)
    for _ in range(depth - 1):
        code = rng.choice(NESTED)
        children = [made] + [columns.readable_type(rng, 1) for _ in range(rng.choice([0, 0, 1]) if code == STRUCT else 0)]
        rng.shuffle(children)
        made = columns.random_type(rng, 1, code).copy(children=children)
    return made


def any_type(rng, seed):
    if seed % 5 == 0:
        return deep_type(rng, rng.choice([5, 9, 16]))
    return columns.readable_type(rng, rng.choice([1, 2, 3, 4]), sorted(READABLE)[seed % len(READABLE)])


def some_rows(rng, kind, counts):
    nulls = rng.choice([0.0, 0.1, 0.3, 0.8])
    return [columns.random_row(rng, kind, nulls) for _ in range(rng.choice(counts))]


def laid(rng, kind, of):
    return columns.image(rng, columns.lay(rng, kind, of))


def damage(rng, string):
    """A string with a byte changed, put in or left out, or two parts of it exchanged."""
    at = rng.randrange(len(string) + 1)
    byte = bytes([rng.choice([0, 1, 2, 3, 127, 128, 255, rng.randrange(256)])])
    what = rng.randrange(4)
    if what == 0:
        return string[:at] + byte + string[at:]
    if what == 1:
        return string[:at] + string[at + rng.choice([1, 1, 2, 5]) :]
    if what == 2 and len(string) > 1:
        cut = rng.randrange(at + 1)
        return string[cut:at] + string[:cut] + string[at:]
    return string[:at] + byte + string[at + 1 :]


def read_calls(rng, seed):
    """A range of a table that is written and read back: with its own image, with another of its type, and damaged."""
    kind = any_type(rng, seed)
    of = some_rows(rng, kind, [0, 1, 3, 9, 40, 70, 150] if len(kind.all()) < 7 else [0, 1, 3, 9, 40])
    source = laid(rng, kind, of)
    start = rng.choice([0, 0, rng.randint(0, len(of))])
    count = rng.choice([len(of) - start, rng.randint(0, len(of) - start)])
    answer, string = model.write(source, start, count, 1 << 24)
    assert answer[0] == 0
    yield asked(source, count, string, number(1, 1) + number(4, start))
    other = laid(rng, kind, some_rows(rng, kind, [0, 1, 5]))
    yield asked(other, count, string, number(1, 2) + sized(source) + number(4, start))
    for _ in range(6):
        yield asked(other, count, damage(rng, string))
    for wrong in (rng.randint(0, count + 3), 2 * count, LARGEST - rng.randrange(3)):
        yield asked(other, wrong, damage(rng, string) if rng.random() < 0.3 else string)
    # an image of another type, and one that is damaged and may still be accepted
    yield asked(laid(rng, columns.change_type(rng, kind), []), count, string)
    for _ in range(2):
        yield asked(columns.damage(rng, other), count, string)


def any_calls(rng, seed):
    """A type of any code, which most of the time may not be read, with any string."""
    kind = columns.random_type(rng, rng.choice([1, 2, 3]), seed % (columns.NESTED[-1] + 1))
    try:
        given = laid(rng, kind, some_rows(rng, kind, [0, 1, 5]))
    except IndexError:
        return
    for image in (given, columns.damage(rng, given)):
        yield asked(image, rng.choice([0, 1, LARGEST]), rng.choice([b"", b"\0", b"\2", rng.randbytes(9)]))


def main():
    path, count, first = sys.argv[1], int(sys.argv[2]), int(sys.argv[3])
    with open(path, "wb") as file:
        file.write(b"".join(purpose_calls()))
        for seed in range(first, first + count):
            rng = random.Random(f"written {seed}")
            file.write(b"".join(read_calls(rng, seed)))
            if seed % 3 == 0:
                file.write(b"".join(any_calls(rng, seed)))


main()
