#!/usr/bin/env python3
"""Brings the names of this repository's own definitions and lemmas to one spelling, snake case.

usage: spell_names.py [--dry]     at the top of the repository, once, after the kit's port.py and before any edit by hand

What is renamed: what the files of crates/*/specs and the lemma files crates/*/proofs/*.antt declare (definitions, lemmas, fields of
records, constructors). A word in camel case becomes one in snake case, and a dash an underscore. A lemma that would have the name
of a definition gets `_lem`. Types, modules, functions of src/, exported names, strings and inputs keep their names.
The renamed words are written anew in .antt and .rt files (there in contracts only), in must-fail edits and in the documents.
"""
import os
import re
import sys

WORD = re.compile(r"(?<![\w'\"\u2080-\u2089-])[A-Za-z_][A-Za-z0-9_'\u2080-\u2089\u2032-]*")
CAMEL = re.compile(r"(?<![\w'\"-])[a-z][a-z0-9]*[A-Z][A-Za-z0-9]*(?![\w'-])")
DECLARED = re.compile(r"(?:(?:abbrev|unfoldable|pub|axiom|infix[lr]? \d+) )*([A-Za-z][A-Za-z0-9_'-]*) :")
INSIDE = re.compile(r" +(?:(?:abbrev|unfoldable|pub) )*([A-Za-z][A-Za-z0-9_'-]*(?: [A-Za-z][A-Za-z0-9_'-]*)*) : ")


def files(root, ends, inside=None):
    for folder, dirs, names in os.walk(root):
        dirs[:] = sorted(d for d in dirs if d not in (".git", "out", "target", "__pycache__"))
        for name in sorted(names):
            if name.endswith(ends):
                yield os.path.join(folder, name)


def read(path):
    with open(path, encoding="utf-8") as f:
        return f.read()


def is_lemma_file(path):
    parts = path.split(os.sep)
    return parts[-2] == "proofs"


def declared():
    """The names that specs/ and lemma files declare: those of specs/, and those of proofs/."""
    specs, lemmas = set(), set()
    for path in files("crates", ".antt"):
        parts = path.split(os.sep)
        if "specs" not in parts and not is_lemma_file(path):
            continue
        into = specs if "specs" in parts else lemmas
        for line in read(path).split("\n"):
            found = DECLARED.match(line)
            if found:
                into.add(found.group(1))
                continue
            found = INSIDE.match(line)
            words = found.group(1).split() if found else []
            if words and words[0] not in ("let", "record", "pub", "data", "module"):
                into.update(words)
    return specs, lemmas


def snake(word):
    """A camel case word in snake case; a type's name, which begins with a capital, stays."""
    if not word or word[0].isupper():
        return word
    return re.sub(r"([A-Z])", lambda m: "_" + m.group(1).lower(), word)


def spelled(name):
    """A name's spelling in snake case."""
    return "_".join(snake(part) for part in name.split("-"))


# Names that would fall together with another's new one.
APART = {"line_Before": "line_before", "in-turn": "in_turn_lem", "cut-at": "cut_at_lem", "oneByte": "one_byte_lem", "no-id": "without_id",
         "buffer-total": "buffers_total", "own-width": "own_width_lem", "view-place": "view_place_lem"}

# Lemmas that have the new name of a definition already.
GIVES_WAY = "after_check from_each kept_run rows_in run_ends same_byte same_whole masked_row part_bytes row_gives same_bytes same_row struct_row too_long too_many".split()


def mapping():
    specs, lemmas = declared()
    new, taken = {}, set()
    for name in sorted(specs):
        to = spelled(name)
        new[name] = to
        taken.add(to)
    for name in sorted(lemmas - specs):
        to = spelled(name)
        if to != name and to in taken:
            to += "_lem"
        new[name] = to
    new.update(APART)
    return {a: b for a, b in new.items() if a != b}, new


def give_way():
    """The lemmas of GIVES_WAY get `_lem`, in lemma files and where a proof imports one."""
    for path in files("crates", ".antt"):
        text = out = read(path)
        if "specs" in path.split(os.sep) and not is_lemma_file(path):
            continue
        for name in GIVES_WAY:
            imported = re.search(r"(?m)^use Rattle[^{\n]*\.proofs\.[^{\n]*\{(?:[^}]*[ {,])?" + name + r"[,}]", out)
            if is_lemma_file(path) or imported:
                out = re.sub(r"(?<![\w.'\"-])" + name + r"(?![\w'-]| = λ l\. )", name + "_lem", out)
        if out != text:
            with open(path, "w", encoding="utf-8") as f:
                f.write(out)


def of_library(text):
    """The names that a file imports from the library: they are not this repository's."""
    crates = "|".join(sorted(os.listdir("crates")))
    found = re.findall(r"(?ms)^(?:ghost )?use (?!Rattle\.(?:" + crates + r")\.)[^{\n]*\{([^}]*)\}", text)
    return {word.strip() for names in found for part in names.split(",") for word in part.split(" as ")}


def respelled(line, path, turned, kept):
    """A line with the names' new spelling. Words with dashes are names only in antt's text, in imports and between backticks."""
    def one(m):
        return m.group(0) if m.group(0) in kept else turned.get(m.group(0), m.group(0))
    if path.endswith(".md"):
        return re.sub(r"`[^`]*`", lambda m: WORD.sub(one, m.group(0)), line)
    if path.endswith(".rt"):
        return WORD.sub(one, line) if line.lstrip().startswith("ghost use ") else CAMEL.sub(one, line)
    code, mark, comment = line.partition("-- ") if path.endswith(".antt") else (line, "", "")
    return WORD.sub(one, code) + mark + CAMEL.sub(one, comment)


def main():
    turned, new = mapping()
    if "--dry" in sys.argv:
        seen = {}
        for a, b in new.items():
            seen.setdefault(b, []).append(a)
        for b, names in sorted(seen.items()):
            if len(names) > 1:
                print("fall together:", b, names)
        for a, b in sorted(turned.items()):
            print(a, b)
        return
    give_way()
    for path in list(files(".", (".antt", ".rt", ".edit", ".md"))):
        text = read(path)
        kept = of_library(text)
        out = "\n".join(respelled(line, path, turned, kept) for line in text.split("\n"))
        if out != text:
            with open(path, "w", encoding="utf-8") as f:
                f.write(out)


main()
