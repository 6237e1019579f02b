#!/usr/bin/env python3
"""Writes what the program `editions` is run on, and what it must print: crates/editions/stdin and stdout.

The lines are made here; the replies are those of the model (tests/model.py), which is written from document 01 and shares
nothing with the program. In turn: document 01's session; lines that are no frames; every frame in every state of the two
sides; document 01's pairs; rows of each layout, written; images with each fault; texts that are UTF-8 and texts that are not;
Maps whose labels differ, compared in whole and as ranges; random tables of every type code, compared and written in two
layouts; and the fixed list of the Rust's answers (tests/rust/answers.txt), whose replies are the Rust's.

    python3 tests/vectors.py            write the two files
    python3 tests/vectors.py --check    say whether they are as written
"""

import os
import random
import sys

import columns
import maps
import model
import pairs
import texts
from image import CODES, DEEPEST, number

CRATE = os.path.join(os.path.dirname(os.path.abspath(__file__)), "..", "crates", "editions")

ANSWERS = os.path.join(os.path.dirname(os.path.abspath(__file__)), "rust", "answers.txt")

LEFT, RIGHT = 0, 1


class Script:
    """Lines of the session."""

    def __init__(self):
        self.lines, self.known = [], {}

    def line(self, characters):
        self.lines.append(characters if isinstance(characters, bytes) else characters.encode("ascii"))

    def answered(self, reply):
        """The reply to the last line is known, and not asked of the model."""
        self.known[len(self.lines) - 1] = reply

    def replies(self):
        session = model.Session()
        return "".join((self.known.get(k) or session.reply(line)) + "\n" for k, line in enumerate(self.lines)).encode("ascii")

    def frame(self, *parts):
        self.line(b"".join(parts).hex())

    def pieces(self, side, data, size=model.Session.PIECE):
        for at in range(0, len(data), size):
            self.frame(bytes([1 + side]), data[at : at + size])

    def close(self, side):
        self.frame(bytes([3, side]))

    def empty(self, side):
        self.frame(bytes([7, side]))

    def store(self, side, data):
        """The side emptied, filled and closed."""
        self.empty(side)
        self.pieces(side, data)
        self.close(side)

    def compare(self):
        self.frame(b"\x04")

    def compare_range(self, i, j, n):
        self.frame(b"\x05", number(4, i), number(4, j), number(4, n))

    def write(self, side, i, n):
        self.frame(bytes([6, side]), number(4, i), number(4, n))


def document(script):
    """The session of document 01."""
    script.line("01 " + pairs.SESSION)
    script.line("02 " + pairs.SESSION[:-8] + "05090705")
    for line in ("03 00", "03 01", "04", "06 00 00000000 03000000"):
        script.line(line)


def bad_lines(script):
    """1, 2 and 3: lines that are no frames, with both sides as the lines before left them."""
    for line in ["", " ", "0", "4", "04 ", " 04", "0 4", "04  04", "0A", "0g", "04\t", "04\r", "4G", "zz", "00", "08", "ff", "0404", "00 04"]:
        script.line(line)
    script.line(bytes(range(11, 256)) + bytes(range(10)))
    # 65 bytes are a frame, 66 are none, whatever follows
    for count in (64, 65, 66, 67, 200):
        script.line("04" * count)
        script.line(" ".join(["04"] * count))
    script.line(" ".join(["01"] * 66))
    script.line("x" * 194)
    script.line("0" * 195)
    script.line("5" * 5_000)
    # wrong lengths and sides
    for line in ["01", "02", "03", "0300 00", "0302", "03ff", "0400", "05", "05" + "00" * 11, "05" + "00" * 13]:
        script.line(line)
    for line in ["06", "06" + "00" * 8, "06" + "00" * 10, "0602" + "00" * 8, "07", "0702", "070000", "07 00", "07 01"]:
        script.line(line)


def every_state(script):
    """Every frame while each side is empty, holds a piece, or is closed."""
    good = b"".join(pairs.session(0))

    def bring(side, state):
        script.empty(side)
        if state == "piece":
            script.pieces(side, good[:20])
        if state == "closed":
            script.pieces(side, good)
            script.close(side)

    frames = [(1, b"\x01"), (2, b"\x01"), (3, b"\x00"), (3, b"\x01"), (4, b""), (5, bytes(12)), (6, bytes(9)), (6, b"\x01" + bytes(8)), (7, b"\x00"), (7, b"\x01")]
    for left in ("empty", "piece", "closed"):
        for right in ("empty", "piece", "closed"):
            for kind, body in frames:
                bring(LEFT, left)
                bring(RIGHT, right)
                script.frame(bytes([kind]), body)
                # what the frame left behind: both sides are asked once more
                script.close(LEFT)
                script.close(RIGHT)
                script.compare()


def full_store(script):
    """40: a store filled to its last byte; a piece that does not fit is not stored in part."""
    good = b"".join(pairs.session(0))
    filler = good + bytes(model.Session.STORE - len(good))
    script.empty(LEFT)
    script.pieces(LEFT, filler[:-1])
    script.frame(b"\x01", b"\x00\x00")
    script.frame(b"\x01", b"\x00")
    script.frame(b"\x01", b"\x00")
    script.close(LEFT)
    script.write(LEFT, 0, 3)
    script.store(RIGHT, good)
    script.compare()


def desk(script):
    """The pairs of document 01."""
    for _, (call, images, rest), _ in pairs.PAIRS:
        for side, (_, whole) in enumerate(images):
            script.store(side, b"".join(whole))
        if call == "compare":
            script.compare()
            script.write(LEFT, 0, 1)
        elif call == "compare_range":
            script.compare_range(*rest)
        elif call == "write":
            script.write(LEFT, *rest[:2])
        else:
            script.write(LEFT, 0, 1)


def view_of_all(depth, rows):
    """List views that each cover all rows of their child, one under the other: as many values as rows ^ depth."""
    child = pairs.int8([7] * rows)
    for _ in range(depth):
        buffers = [number(4, 0) * rows, number(4, rows) * rows]
        child = pairs.Column(35, rows, buffers, [child])
    return b"".join(pairs.image(child))


def written(script):
    """A few rows of each layout, written; the length is often over 64."""
    rng = random.Random(9)
    for code in range(CODES):
        kind = columns.random_type(rng, 2, code)
        rows = [columns.random_row(rng, kind, 0.25) for _ in range(5)]
        script.store(LEFT, columns.image(rng, columns.lay(rng, kind, rows)))
        script.write(LEFT, 0, 0)
        for start in range(5):
            script.write(LEFT, start, 1)
        script.write(LEFT, 1, 4)
        script.write(LEFT, 5, 0)
        script.write(LEFT, 5, 1)
        script.write(LEFT, 0xFFFFFFFF, 0xFFFFFFFF)
    # 43 at once, where the rows would take more bytes than there are atoms
    script.store(LEFT, view_of_all(DEEPEST - 1, 64))
    for count in (0, 1, 64):
        script.write(LEFT, 0, count)


def faults(script):
    """Images that are refused: six or more of each number that damage finds."""
    rng = random.Random(18)
    found = {fault: 0 for fault in range(10, 20)}
    for _ in range(200_000):
        kind = columns.random_type(rng, rng.choice([1, 2, 3]))
        rows = [columns.random_row(rng, kind) for _ in range(rng.choice([1, 3]))]
        data = columns.damage(rng, columns.image(rng, columns.lay(rng, kind, rows)))
        fault = model.check(data)[0]
        if fault and found[fault] < 8 and len(data) < 500:
            found[fault] += 1
            side = rng.choice([LEFT, RIGHT])
            script.store(side, data)
            # the refused close emptied its side
            script.close(side)
        if min(found.values()) >= 8:
            break
    assert min(found.values()) >= 6, found


def utf8(script):
    """Texts on purpose, on either side in turn: a side that is refused by 19 is empty and open, one that is accepted is
    written."""
    good = b"".join(pairs.session(0))
    for k, (words, image, answer) in enumerate(texts.IMAGES + [case for case in texts.ALONE if case[0].endswith(" Utf8")]):
        assert model.check(image) == answer, words
        side = k % 2
        script.store(side, image)
        if answer[0]:
            script.compare()
            script.pieces(side, good)
            script.close(side)
        script.write(side, 0, 1)


def map_labels(script):
    """The pairs of tests/maps.py, compared, and as the range of the left one's rows. A side that holds its image is not filled
    again. What is asked of names has no frame, and is held to the model alone."""
    for words, image, answer in maps.QUERIES:
        assert model.map_names(image) == answer, words
    held = [None, None]
    for words, *images, agree, equal in maps.PAIRS:
        assert model.compare_range(*images, 0, 0, 0) == ((0, 0, 0, 1) if agree else (20, 0, 0, 0)), words
        assert model.compare(*images) == (0, 0, 0, int(equal)), words
        for side, image in enumerate(images):
            if image != held[side]:
                script.store(side, image)
        held = images
        script.compare()
        script.compare_range(0, 0, model.Image(images[LEFT]).nodes[0].length)


def tables(script):
    """Random tables of every code: the same rows in two layouts, and with one difference; ranges; writes."""
    for seed in range(3 * CODES):
        rng = random.Random(seed)
        while True:
            kind = columns.random_type(rng, rng.choice([1, 2, 2, 3]), seed % CODES)
            rows = [columns.random_row(rng, kind) for _ in range(rng.choice([1, 2, 4]))]
            k = rng.randrange(len(rows))
            other = rows[:k] + [columns.change_row(rng, kind, rows[k])] + rows[k + 1 :]
            changed = columns.change_type(rng, kind)
            renamed = [columns.relabelled(kind, changed, row) for row in rows]
            images = [columns.image(rng, columns.lay(rng, t, r)) for t, r in ((kind, rows), (kind, rows), (kind, other), (changed, renamed))]
            if max(map(len, images)) <= 600:
                break
        script.store(LEFT, images[0])
        for image in images[1:]:
            script.store(RIGHT, image)
            script.compare()
            script.compare_range(rng.randint(0, len(rows)), rng.randint(0, len(rows)), rng.randint(0, 2))
        script.write(LEFT, 0, 1)
        script.write(RIGHT, 0, 1)


def most_rows(data):
    return max(record.length for record in model.Image(data).nodes)


def rust(script):
    """The Rust's answers. The model, which goes row by row, does not close tables of very many rows: all that are listed are
    accepted."""
    with open(ANSWERS, encoding="ascii") as listed:
        for line in listed:
            if not line.strip() or line.startswith("#"):
                continue
            left, right, *numbers, kind, answer = line.split()
            images = [bytes.fromhex(left), bytes.fromhex(right)]
            if max(map(len, images)) > model.Session.STORE:
                continue
            for side, data in enumerate(images):
                script.store(side, data)
                if most_rows(data) > 10_000:
                    script.answered("00")
            if kind == "whole":
                script.compare()
            else:
                script.compare_range(*map(int, numbers))
            script.answered("00" + ("01" if answer == "1" else "00"))


def script():
    made = Script()
    for part in (document, bad_lines, every_state, full_store, desk, written, faults, utf8, map_labels, tables, rust):
        part(made)
    # the last line ends with the input
    made.line("04")
    return made


def main():
    made = script()
    files = {"stdin": b"\n".join(made.lines), "stdout": made.replies()}
    same = True
    for name, data in files.items():
        path = os.path.join(CRATE, name)
        if sys.argv[1:] == ["--check"]:
            with open(path, "rb") as file:
                if file.read() != data:
                    print("not as written: crates/editions/" + name)
                    same = False
        else:
            with open(path, "wb") as file:
                file.write(data)
    return 0 if same else 1


if __name__ == "__main__":
    sys.exit(main())
