#!/usr/bin/env python3
"""Holds the worked images of docs/FORMAT.md to the model of document 01.

The bytes of each table follow each other at the places that it names; the first image is that of the session's first line; all
are accepted, have as many bytes as the page says, and their rows have the bytes that it gives; the third is what is built of its
rows' bytes with the second for its type.
"""

import os
import re

import model

ROOT = os.path.join(os.path.dirname(os.path.abspath(__file__)), "..")
ROW = r"\| (\d+) \| `([0-9a-f ]+)` \| .*\n"


def read(*path):
    with open(os.path.join(ROOT, *path), encoding="utf-8") as file:
        return file.read()


def worked(page):
    """Each worked image: its size as the page has it, its bytes, and the bytes of its rows."""
    for part in re.finditer(rf"in (\d+) bytes[.:]\n\n.*\n.*\n((?:{ROW})+)\n(.*)\n", page):
        data = b""
        for place, piece in re.findall(ROW, part.group(2)):
            assert int(place) == len(data), f"place {place} stands at {len(data)}"
            data += bytes.fromhex(piece)
        told = part.group(part.lastindex).split("rows' bytes", 1)[1]
        yield int(part.group(1)), data, bytes.fromhex("".join(re.findall(r"`([0-9a-f ]+)`", told)))


def main():
    images = list(worked(read("docs", "FORMAT.md")))
    assert len(images) == 3, f"{len(images)} worked images"
    first = bytes.fromhex(read("tests", "session.txt").split("\n")[0])
    assert first[1:] == images[0][1], "the first image is not that of the session's first line"
    for size, data, told in images:
        assert len(data) == size, f"{len(data)} bytes and not {size}"
        assert model.check(data) == (0, 0, 0, 0), f"refused: {model.check(data)}"
        rows = model.Image(data).nodes[0].length
        written = model.write(data, 0, rows, 1 << 20)[1]
        assert written == told, f"the rows' bytes are {written.hex(' ')}"
    (_, given, _), (size, made, string) = images[1:]
    assert model.build(given, 2, string, size) == ((0, 0, 0, size), made), "the third image is not the one that is built"
    print(f"format: {len(images)} worked images are as the model has them")


main()
