#!/usr/bin/env python3
"""What the Rust does with images that are refused: a table of the refusal's number beside the Rust's answer.

The left image is the refused one. After tests/rust/run has built the programs.
"""

from cases import Case
from compare import answers
from image import DEEPEST, number, view
from nodes import INT8, INT16, INT32, LARGE_LIST_VIEW, LARGE_UTF8, MAP, RUNS, UTF8
from nodes import column, dense, dictionary, image, item, list_views, lists, numbers, runs, sparse, structs, texts, views, wide
from suspects import LONG

REFUSED = []


def refused(about, left, right=None):
    REFUSED.append((about, Case(image(left), image(right or left))))


def deep(levels):
    made = item([7])
    for _ in range(levels - 1):
        made = structs(1, made)
    return made


def offsets(values, data, code=UTF8):
    return column(code, len(values) - 1, [b"".join(number(4, x) for x in values), data])


WRONG_PREFIX = number(4, 13) + b"----" + number(4, 0) + number(4, 0)

refused("FixedSizeBinary of width -1", wide([], -1))
refused("depth %d" % (DEEPEST + 1), deep(DEEPEST + 1))
refused("union ids 3 and 3", sparse([3], item([1], id=3), item([2], id=3)), sparse([3], item([1], id=3), item([9], id=3)))
refused("a Map's Struct of one", lists([0, 1], structs(1, item([1])), MAP))
refused("run ends of Int8", runs(2, [2], item([1]), INT8, 1))
refused("run ends with a bitmap", column(RUNS, 2, (), [numbers([2], INT16, 2, name=b"run_ends", bits="0"), item([1])]), runs(2, [2], item([1])))
refused("values under e elements", column(INT32, 2, [number(4, 5) + b"xyz"]))
refused("a Struct's child under e rows", structs(3, item([1, 2])))
refused("a Struct's child under e rows, its buffer long enough", structs(3, column(INT8, 2, [b"\1\2\3"], name=b"i")), structs(3, item([1, 2, 3])))
refused("a negative text offset", offsets([-1, 1], b"a"))
refused("falling text offsets", offsets([1, 0], b"a"))
refused("a text offset past the bytes", offsets([0, 2], b"a"))
refused("falling list offsets, a row that both pass over", lists([0, 2, 1], item([1, 2])), lists([0, 2, 1], item([1, 9])))
refused("a list view past its child", list_views([(0, 2)], item([1])))
refused("LargeListView offset 9223372036854775807, size 1", list_views([(2**63 - 1, 1)], item([1]), LARGE_LIST_VIEW))
refused("an id without a child", sparse([4], item([1], id=3)))
refused("a dense offset past the child", dense([3], [1], item([1], id=3)))
refused("a key past the values", dictionary([1], item([1])))
refused("a negative key", dictionary([-1], item([1])))
refused("a view of another buffer than there is", views([view(LONG, 1)], [LONG]))
refused("a view past its buffer", views([view(LONG, 0, 1)], [LONG]))
refused("a pad byte that is not 0", views([number(4, 5) + b"hello" + b"\0\0\0\0\0\0\1"]), views([view(b"hello")]))
refused("a stored prefix that is wrong", views([WRONG_PREFIX], [LONG]), views([WRONG_PREFIX], [b"THIR" + LONG[4:]]))
refused("run ends that fall, the last rows' value passed over", runs(4, [2, 1, 4], item([1, 2, 3])), runs(4, [2, 4], item([1, 2])))
refused("a last run end below e", runs(4, [2], item([1])))
refused("a text that is no letter", texts([b"\xff\xfe"]))
refused("a text that ends inside a letter, which the next row goes on with", texts([b"\xc3", b"\xa9"]))
refused("an overlong form, beside the letter", texts([b"\xc0\x80"]), texts([b"\0"]))
refused("a surrogate, of eight-byte offsets", texts([b"\xed\xa0\x80"], LARGE_UTF8))
refused("a view of a letter above U+10FFFF", views([view(b"\xf4\x90\x80\x80")]))
refused("a long view that begins inside a letter", views([view(b"\xa9 and so on, on", 0, 1)], [b"\xc3\xa9 and so on, on"]))
refused("half a letter under a null Struct, beside another text", structs(1, texts([b"\xc3"], name=b"i"), bits="0"), structs(1, texts([b"a"], name=b"i"), bits="0"))
refused("half a letter in a value that no key names, beside none", dictionary([0], texts([b"a", b"\xc3"])), dictionary([0], texts([b"a"])))


def main():
    cases = [case for _, case in REFUSED]
    said = [answers(program, cases) for program in ("release/beside", "checked/beside")]
    words = {"0": "no", "1": "yes", "2": "panics", "3": "cannot be read"}
    print("| refused image | number | the Rust | with its assertions and overflow checks |\n|---|---|---|---|")
    for (about, case), *given in zip(REFUSED, *said):
        assert case.model()[0], about
        print("| %s | %d | %s |" % (about, case.model()[0], " | ".join(words[answer] for answer in given)))


if __name__ == "__main__":
    main()
