#!/usr/bin/env python3
"""Asks the Rust and our side about random pairs, and says where they disagree.

    compare.py PAIRS SEED    after tests/rust/run has built the programs

Our side is the model of document 01 (tests/model.py) and, where they are built, the proved library, asked by the program
`both`, and the session program, asked about ranges. The Rust is asked as users build it and with its own assertions. All are
asked whether the tables or the ranges are equal; the model and the library also for the first unequal row of the range, and
the Rust about its rows one at a time up to the first that it finds unequal. Whole tables are asked about as the range of the
left one's rows too. All answers must be the same. A pair of which an image is refused for its text (19) is not held to the
Rust, which does not look at that; our side is held to the refusal. Nor is a pair whose types agree, but for the Rust, which
counts the labels of Maps below the root (labels.py); our side is held to the model. The exit status is 1 on a disagreement.
"""

import collections
import itertools
import os
import random
import subprocess
import sys
import time

import cases
import columns
import labels
import model
from cases import KINDS, random_case
from image import CODES

TARGET = os.path.join(os.path.dirname(os.path.abspath(__file__)), "..", "..", "target")
BUILT = os.path.join(TARGET, "rust")
SESSION = os.environ.get("EDITIONS") or os.path.join(TARGET, "..", "crates", "editions", "out", "editions")
BOTH = "release/both"
BATCH = 20000

# tables of so many rows and more are counted, and first unequal rows past these
LONG = [64, 1023]
PAST = [0, 63]

# the refusals for ill-formed text and for types that differ, and what the session says to a comparison with a side that is not
# closed
ILL_FORMED, TYPES, NOT_CLOSED = 19, 20, "2a"

# what a program is asked, in the order of its words
QUESTIONS = ["whether they are equal", "whether the ranges are", "the first unequal row, plus 1"]

# more long tables and texts than in the fixed list
VERY_LONG = 0.15
TEXT_LENGTHS = [1, 2, 3, 4, 5, 7, 8, 9, 11, 12, 13, 16, 20, 63, 64, 65, 71, 200]


def answers(program, asked, by_rows=itertools.repeat(False)):
    """The program's lines, one for each case. `by_rows` says of each whether the Rust is asked about single rows too."""
    given = b"".join(case.packed(rows) for case, rows in zip(asked, by_rows))
    said = subprocess.run([os.path.join(BUILT, program)], input=given, stdout=subprocess.PIPE, check=True, timeout=600).stdout
    lines = said.decode("ascii").splitlines()
    assert len(lines) == len(asked)
    return lines


def session_answers(asked):
    """What the session program says of the ranges that fit into its stores: a list with None for every other case."""
    frames = [list(case.frames()) if case.range and max(len(case.left), len(case.right)) <= model.Session.STORE else [] for case in asked]
    given = "".join(frame.hex() + "\n" for each in frames for frame in each)
    said = subprocess.run([SESSION], input=given.encode("ascii"), stdout=subprocess.PIPE, check=True, timeout=600).stdout
    replies = iter(said.decode("ascii").splitlines())
    return [[next(replies) for _ in each][-1] if each else None for each in frames]


def batch(seed, number, count):
    rng = random.Random("%d/%d" % (seed, number))
    made = []
    while len(made) < count:
        k = len(made)
        case = random_case(rng, k % CODES, KINDS[k // CODES % len(KINDS)])
        if case:
            made.append(case)
    return made


def word(answer):
    """An answer of the model as the program `both` prints it."""
    number, side, node, value = answer
    return "r%d.%d.%d" % (number, side, node) if number else str(value)


class Tally:
    def __init__(self):
        self.kinds = collections.Counter()
        self.ranges = self.session = self.by_rows = self.maps = self.wrong = 0
        self.ours = [0] * len(QUESTIONS)
        self.refused = collections.Counter()
        # pairs that differ in labels which only the Rust counts, by our answer
        self.labels = collections.Counter()
        self.long = collections.Counter()
        self.differences, self.past = 0, collections.Counter()

    def disagreement(self, what, case):
        self.wrong += 1
        if self.wrong <= 10:
            print("DISAGREEMENT: %s\n  %s" % (what, case.line()))

    def hold(self, who, said, meant, case):
        """What one side says, a word for each question, to what the model says."""
        if len(said) != len(meant):
            return self.disagreement("%s says %s, and is asked %d questions" % (who, " ".join(said), len(meant)), case)
        for question, one, other in zip(QUESTIONS, said, meant):
            if one != other:
                self.disagreement("%s: the model says %s, %s %s" % (question, other, who, one), case)

    def add(self, kind, case, first, given, reply):
        """`first` is the model's first unequal row; `given` maps each program to its line; `reply` is the session's, or None."""
        number, _, node, value = answer = case.model()
        if number == ILL_FORMED:
            return self.add_refused(case, answer, given.get(BOTH), reply)
        if number:
            return self.disagreement("the model refuses a pair that the generator means to be accepted: %d, node %d" % (number, node), case)
        ranged = answer if case.range else case.range_model()
        if first[:3] != ranged[:3] or not first[0] and (first[3] == 0) != ranged[3]:
            self.disagreement("the model says %s of the range, and %s is its first unequal row" % (word(ranged), word(first)), case)
        ours = ["-" if case.range else str(value), word(ranged), word(first)]
        rust = [str(value)] + [word(ranged), word(first)] * (not first[0])
        if labels.differ(case.left, case.right):
            if ranged[0] == TYPES:
                self.disagreement("the model counts labels of deeper Maps", case)
            self.labels[value] += 1
            rust = None
        else:
            self.count(kind, case, value, first)
        for program, line in given.items():
            words = line.split()
            if program == BOTH:
                self.hold("the library", words[: len(QUESTIONS)], ours, case)
                self.ours = [asked + (one != "-") for asked, one in zip(self.ours, words)]
                words = words[len(QUESTIONS) :]
            if rust:
                self.hold("the Rust (%s)" % program, words, rust, case)
        if reply is not None:
            self.session += 1
            self.hold("the session", [reply], ["00%02x" % value], case)

    def add_refused(self, case, answer, line, reply):
        """A pair that is refused for its text: the library's line, if any, and the session's reply are held to the model."""
        self.refused[answer[0]] += 1
        if line is not None:
            ours = ["-" if case.range else word(answer), word(answer), word(answer)]
            self.hold("the library", line.split()[: len(QUESTIONS)], ours, case)
        if reply is not None:
            self.hold("the session", [reply], [NOT_CLOSED], case)

    def count(self, kind, case, value, first):
        self.kinds[kind, value] += 1
        self.ranges += case.range is not None
        self.maps += case.deeper_maps()
        self.long.update(least for least in LONG if case.rows() >= least)
        if first[0]:
            self.refused[first[0]] += 1
            return
        self.by_rows += 1
        self.differences += first[3] > 0
        self.past.update(row for row in PAST if first[3] > row + 1)

    def report(self):
        for kind in KINDS:
            print("  %-24s %8d yes %8d no" % (kind, self.kinds[kind, 1], self.kinds[kind, 0]))
        print("  " + ", ".join("%d of %d rows and more" % (self.long[least], least) for least in LONG) + ", %d with Maps below the root" % self.maps)
        print("  %d of them ranges; the Rust was asked row by row about %d pairs; by 20 are refused %d, by 21 %d" % (self.ranges, self.by_rows, self.refused[TYPES], self.refused[21]))
        print("  %d have ill-formed text (19), and are none of these" % self.refused[ILL_FORMED])
        print("  %d differ in labels of deeper Maps, which only the Rust counts, and are none of these: our side says yes of %d, no of %d" % (self.labels.total(), self.labels[1], self.labels[0]))
        print("  %d have a first unequal row, %s" % (self.differences, ", ".join("%d past row %d" % (self.past[row], row) for row in PAST)))
        print("  the library was asked about %d whole tables, %d ranges and %d first unequal rows, the session about %d ranges" % (*self.ours, self.session))


def main():
    pairs, seed = int(sys.argv[1]), int(sys.argv[2])
    cases.VERY_LONG, columns.TEXT_LENGTHS = VERY_LONG, TEXT_LENGTHS
    programs = ["release/beside", "checked/beside"]
    if os.path.exists(os.path.join(BUILT, BOTH)):
        programs.append(BOTH)
    session = os.path.exists(SESSION)
    asked = ["the model"] + programs + ["editions"] * session
    print("%d pairs, seed %d, in batches of %d; asked: %s" % (pairs, seed, BATCH, ", ".join(asked)), flush=True)
    tally, started = Tally(), time.time()
    for number in range(0, pairs, BATCH):
        made = batch(seed, number // BATCH, min(BATCH, pairs - number))
        firsts = [case.first_model() for case in made]
        given = {program: answers(program, made, [first[0] == 0 for first in firsts]) for program in programs}
        replies = session_answers(made) if session else [None] * len(made)
        for k, case in enumerate(made):
            tally.add(KINDS[k // CODES % len(KINDS)], case, firsts[k], {program: given[program][k] for program in programs}, replies[k])
        if (number + BATCH) % (5 * BATCH) == 0:
            print("  %d asked, %d disagreements" % (number + len(made), tally.wrong), flush=True)
    tally.report()
    print("  %.0f seconds" % (time.time() - started))
    print("%d disagreements" % tally.wrong)
    return 1 if tally.wrong else 0


if __name__ == "__main__":
    sys.exit(main())
