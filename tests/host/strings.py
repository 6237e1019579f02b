#!/usr/bin/env python3
"""Writes short strings with whether they are UTF-8, by the letters of the model, for tests/host/text.c.

    python3 tests/host/strings.py FILE

FILE gets tables and then pieces. A table has the number of bytes of its strings; for each of these bytes the number of its
choices as u16, and the choices; then, for each string in the order of the choices, a byte that is 1 where it is well-formed.
A 0 ends the tables. A piece is a letter or is ill-formed, also between letters; after their number as u16 each has its length
as u32, its bytes, and 1 or 0.
"""

import itertools
import os
import random
import sys

sys.path.insert(0, os.path.join(os.path.dirname(os.path.abspath(__file__)), ".."))

import letters
import model
from image import number

EVERY = bytes(range(256))

# of four bytes: the third may also begin a letter, and both may be no tail
THIRD, FOURTH = bytes.fromhex("007f80bfc0c2e0ff"), bytes.fromhex("007f80bfc0")

# the bytes at the limits of the ranges of RFC 3629
AT_LIMITS = bytes.fromhex("007f80 8f90 9fa0 bfc0c1c2 dfe0e1 ecedee eff0f1 f3f4f5 ff")

TABLES = [[EVERY], [EVERY] * 2, [EVERY] * 3, [EVERY, EVERY, THIRD, FOURTH]]


def table(choices):
    """For each string of these choices, in order, whether it is a letter and then a well-formed string."""
    if not choices:
        return b"\1"
    sizes = [1]
    for each in reversed(choices):
        sizes.insert(0, sizes[0] * len(each))
    made = bytearray(sizes[0])
    for letter in model.LETTERS:
        if len(letter) <= len(choices):
            rest = table(choices[len(letter) :])
            fitting = [[size * k for k, byte in enumerate(each) if low <= byte <= high] for each, size, (low, high) in zip(choices, sizes[1:], letter)]
            for places in itertools.product(*fitting):
                made[sum(places) : sum(places) + len(rest)] = rest
    return bytes(made)


def held_to_the_model():
    """The model says the same of each string of the smaller tables, and of those of bytes at the limits."""
    for choices in (*TABLES[:2], [AT_LIMITS] * 3, [AT_LIMITS] * 4):
        assert table(choices) == bytes(model.well_formed(bytes(each)) for each in itertools.product(*choices))


def held_to_python():
    """The model's letters are the code points that Python's encoder writes."""
    made = {bytes(each) for letter in model.LETTERS for each in itertools.product(*(range(low, high + 1) for low, high in letter))}
    assert made == {chr(c).encode() for c in (*range(0xD800), *range(0xE000, 0x110000))}


def pieces():
    """Letters and what is ill-formed, each held to the model alone and between letters."""
    rng = random.Random(19)
    given = [(piece, True) for piece in letters.LETTERS] + [(piece, False) for piece in letters.BROKEN]
    for piece, well in given:
        for size in (0, 1, 2, 5, 20):
            assert model.well_formed(letters.text(rng, size) + piece + letters.text(rng, size)) == well, piece
    return given


def main():
    held_to_python()
    held_to_the_model()
    with open(sys.argv[1], "wb") as file:
        for choices in TABLES:
            file.write(number(1, len(choices)) + b"".join(number(2, len(each)) + each for each in choices) + table(choices))
        given = pieces()
        file.write(number(1, 0) + number(2, len(given)))
        for piece, well in given:
            file.write(number(4, len(piece)) + piece + number(1, well))


main()
