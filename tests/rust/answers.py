#!/usr/bin/env python3
"""The fixed list of the Rust's answers, answers.txt: pairs of accepted images, each with what the Rust says.

    answers.py write      lay the pairs out, ask the Rust (tests/rust/run has built it) and write the list
    answers.py rust       the Rust still answers as in the list, and on the gaps as it is said to
    answers.py library    the library answers as in the list, and on the gaps as we do, with the model's first unequal rows
    answers.py model      the model answers as in the list, and on the gaps as we do; no misreading does; needs no Rust
    answers.py session    the list as lines for the session program
    answers.py replies    what the session program must print for them

The list has document 01's pairs (tests/pairs.py), pairs for its misreadings, those of suspects.py, and random small ones of
each type code, which were laid out once and are kept as they stand in it. The gaps, pairs on which document 02 has another
answer than the Rust, are not in it: they are those of suspects.py and the one among document 01's pairs.
"""

import os
import sys

from cases import Case
from compare import BOTH, answers, word
from nodes import image, item, lists, numbers, structs
from suspects import GAPS, NO, SUSPECTS, YES

import labels
import model
import pairs

FILE = os.path.join(os.path.dirname(os.path.abspath(__file__)), "answers.txt")

HEAD = """\
# Answers of the Rust, the equal module of arrow-data 60.1.0 as tests/rust builds it, on accepted images.
# Written by `tests/rust/answers.py write`, which lays the pairs out and asks the Rust.
# A line: left image, right image (hexadecimal), left start, right start, count, whole or range, and the answer: 1 yes, 0 no.
# A line that starts with # names what follows.
"""

# the title of the random pairs
SMALL = "Small pairs of each code"


def asked():
    """Document 01's pairs with its answers. Where it has one image, the image is compared with itself; no pair where an image
    is refused, or where only writing is."""
    for words, (call, images, numbers), (number, _, _, value) in pairs.PAIRS:
        left, right = (b"".join(parts) for _, parts in (images * 2)[:2])
        if number or call == "write":
            yield words, None, None
        else:
            yield words, Case(left, right, tuple(numbers) or None), value if call != "check" else YES


def desk():
    """Those that are listed."""
    for words, case, answer in asked():
        if case is None:
            yield words + " Not asked.", None, None
        elif labels.differ(case.left, case.right):
            yield words + " The Rust counts the key's name: a gap. Not asked.", None, None
        else:
            yield words, case, answer


def gaps():
    """Of each gap its words, the pair, the Rust's answer and ours."""
    for words, case, answer in asked():
        if case and labels.differ(case.left, case.right):
            yield words, case, NO, answer
    for file, about, case, rust, ours in GAPS:
        yield "%s: %s" % (file, about), case, rust, ours


def hold_gaps(who, said, meant):
    """How many gaps one side answers otherwise than it is to."""
    wrong = 0
    for (words, *_), one, other in zip(gaps(), said, meant, strict=True):
        if one != other:
            print("%s: meant %s, %s says %s" % (words, other, who, one))
            wrong += 1
    print("%d gaps asked of %s, %d others" % (len(meant), who, wrong))
    return wrong


def misreadings():
    """Pairs on which a misreading of document 01 gives the other answer."""

    def pair(words, left, right, answer, range=None):
        return words, Case(image(left), image(right), range), answer

    words = "Indexing the bitmap by the node's offset"
    yield pair(words, numbers([9, 5, 6, 7], offset=1, bits="1011"), numbers([5, 8, 7], bits="101"), YES)
    yield pair(words, numbers([9, 5, 6, 7], offset=1, bits="1010"), numbers([5, 6, 7], bits="010"), NO)
    yield pair(words + ", in a child", structs(1, item([9, 5], offset=1, bits="01")), structs(1, item([6], bits="0")), YES)
    words = "Adding a List's own offset to child rows"
    yield pair(words, lists([0, 1, 2], item([4, 5, 6]), offset=1), lists([0, 1], item([5])), YES)
    yield pair(words, lists([0, 1, 2], item([4, 5, 6]), offset=1), lists([0, 1], item([6])), NO)
    yield pair(words + ", a Map", lists([0, 1, 2], structs(3, item([4, 5, 6]), item([1, 2, 3])), 42, offset=1), lists([0, 1], structs(1, item([6]), item([3])), 42), NO)
    words = "Reading values under nulls"
    yield pair(words, numbers([5, 0, 7], bits="101"), numbers([5, 9, 7], bits="101"), YES)
    yield pair(words + ", a List's rows", lists([0, 1, 3], item([4, 5, 6]), bits="10"), lists([0, 1, 1], item([4]), bits="10"), YES)
    yield pair(words + ", a Struct's children", structs(2, item([4, 5]), bits="01"), structs(2, item([9, 5]), bits="01"), YES)
    yield "Adding offset and size before bounding them: the image is refused, 17. Not asked.", None, None
    words = "Calling -0 and +0 equal"
    yield pair(words + ", Float16", numbers([0x8000], 10, 2), numbers([0], 10, 2), NO)
    yield pair(words + ", Float32", numbers([1 << 31], 11, 4), numbers([0], 11, 4), NO)
    yield pair(words + ", Float64", numbers([1 << 63], 12, 8), numbers([0], 12, 8), NO)


def entries():
    """The list as it stands: of each entry the title that it stands under, its words, its pair or none, and the answer."""
    title = words = None
    with open(FILE, encoding="ascii") as lines:
        for line in lines:
            if not line.strip():
                title = words = None
            elif not line.startswith("#"):
                left, right, *starts, kind, answer = line.split()
                asked = tuple(map(int, starts)) if kind == "range" else None
                yield title, words, Case(bytes.fromhex(left), bytes.fromhex(right), asked), int(answer)
            else:
                title, words = title or line[2:-1], line[2:-1]
                if words.endswith("Not asked."):
                    yield title, words, None, None


def groups():
    yield "Pairs from the proof desk", list(desk())
    yield "Misreadings that pass a light test", list(misreadings())
    yield "Places where the Rust might depart from the format", [("%s: %s" % (file, about), case, answer) for file, about, case, answer in SUSPECTS]
    yield SMALL, [entry for title, *entry in entries() if title == SMALL]


def counted(case):
    """Whether the model, which goes row by row, can be asked."""
    return all(record.length < 1 << 20 for data in (case.left, case.right) for record in model.Image(data).nodes)


def write():
    lines, wrong = [HEAD], 0
    for title, entries in groups():
        lines.append("\n# %s\n" % title)
        given = iter(answers("release/beside", [case for _, case, _ in entries if case]))
        for words, case, answer in entries:
            lines.append("# %s\n" % words)
            if case:
                said = next(given)
                modelled = case.model() if counted(case) else (0, 0, 0, answer)
                if (modelled, said) != ((0, 0, 0, answer), str(answer)):
                    print("%s: meant %d, the model %s, the Rust %s" % (words, answer, modelled, said))
                    wrong += 1
                lines.append("%s %s\n" % (case.line(), said))
    with open(FILE, "w", encoding="ascii") as out:
        out.writelines(lines)
    return wrong


def read():
    return [(case, answer) for _, _, case, answer in entries() if case]


def rust():
    listed, programs = read(), ("release/beside", "checked/beside")
    wrong = 0
    for program in programs:
        given = answers(program, [case for case, _ in listed])
        wrong += sum(said != str(answer) for said, (_, answer) in zip(given, listed))
    print("%d listed answers asked of the Rust again, %d others" % (len(listed), wrong))
    for program in programs:
        given = answers(program, [case for _, case, _, _ in gaps()])
        wrong += hold_gaps("the Rust (%s)" % program, given, [str(rust) for *_, rust, _ in gaps()])
    return wrong


def library():
    listed = read()
    wrong = 0
    for line, (case, answer) in zip(answers(BOTH, [case for case, _ in listed]), listed):
        whole, ranged, first, _ = line.split()
        wrong += whole != ("-" if case.range else str(answer))
        if counted(case):
            wrong += (ranged, first) != (word(case.range_model()), word(case.first_model()))
        else:
            wrong += (ranged, first == "0") != (str(answer), answer == YES)
    print("%d listed answers and first unequal rows asked of the library, %d others" % (len(listed), wrong))
    given = [line.split()[:3] for line in answers(BOTH, [case for _, case, _, _ in gaps()])]
    meant = [[str(ours), word(case.range_model()), word(case.first_model())] for _, case, _, ours in gaps()]
    return wrong + hold_gaps("the library", given, meant)


# The misreadings, as models that read an accepted image wrongly.


class Misreading(model.Image):
    def check(self):
        """The pairs are accepted; only the reading of rows is wrong."""


class BitmapByOffset(Misreading):
    def valid(self, node, i):
        record = self.nodes[node]
        bit = record.first_bit + record.offset + i
        return not record.has_bitmap or self.data[min(record.bitmap_place + bit // 8, len(self.data) - 1)] >> (bit % 8) & 1 == 1


class ListOffsetAdded(Misreading):
    def rows(self, node, start, end):
        parent = self.parent(node)
        shift = self.nodes[parent].offset if parent is not None and self.nodes[parent].code in model.LISTS else 0
        return super().rows(node, start + shift, end + shift) if end + shift <= self.nodes[node].length else ()


class UnderNulls(Misreading):
    def row(self, node, i):
        if self.valid(node, i):
            return super().row(node, i)
        self.valid = lambda node, i: True
        try:
            return ("null", super().row(node, i))
        except (StopIteration, IndexError):
            return None
        finally:
            del self.valid


class ZerosEqual(Misreading):
    def row(self, node, i):
        row = super().row(node, i)
        code = self.nodes[node].code
        return ("bytes", bytes(len(row[1]))) if 10 <= code <= 12 and row and int.from_bytes(row[1], "little") == 1 << 8 * len(row[1]) - 1 else row


def by_model():
    listed = [(case, answer) for case, answer in read() if counted(case)]
    wrong = sum(case.model() != (0, 0, 0, answer) for case, answer in listed)
    print("%d listed answers asked of the model, %d others" % (len(listed), wrong))
    wrong += hold_gaps("the model", [word(case.model()) for _, case, _, _ in gaps()], [str(ours) for *_, ours in gaps()])
    # gaps, and no listed pairs, leave the comparison of random pairs too
    wrong += sum(not labels.differ(case.left, case.right) for _, case, _, _ in gaps())
    wrong += sum(labels.differ(case.left, case.right) for case, _ in listed)
    right = model.Image
    for reading in (BitmapByOffset, ListOffsetAdded, UnderNulls, ZerosEqual):
        model.Image = reading
        told = sum(case.model() != (0, 0, 0, answer) for case, answer in listed)
        model.Image = right
        print("  %s is told by %d of them" % (reading.__name__, told))
        wrong += told == 0
    return wrong


def session():
    """The session program's input for the list, and its replies."""
    given, replies = [], []
    for case, answer in read():
        frames = [frame.hex() for frame in case.frames()]
        given += frames
        replies += ["00"] * (len(frames) - 1) + ["00%02x" % answer]
    return "".join(line + "\n" for line in given), "".join(line + "\n" for line in replies)


def main():
    what = sys.argv[1] if len(sys.argv) == 2 else ""
    if what == "session" or what == "replies":
        print(session()[what == "replies"], end="")
        return 0
    return 1 if {"write": write, "rust": rust, "library": library, "model": by_model}[what]() else 0


if __name__ == "__main__":
    sys.exit(main())
