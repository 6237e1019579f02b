#!/usr/bin/env python3
"""Writes the list of what changed in contracts, definitions and theorems, old and new side by side, as docs/DESIGN-PASS.md ends.

    python3 KIT/port/contracts.py OLD NEW --json | python3 tools/changes.py OLD NEW

OLD and NEW are checkouts, KIT the folder of the kit, whose script compares contracts and definitions. Theorems are the
declarations of proofs/, outside of answers, that README.md or docs/ name in OLD.
"""
import glob
import json
import os
import re
import sys

OLD, NEW = sys.argv[1], sys.argv[2]


def read(path):
    try:
        with open(path) as f:
            return f.read()
    except FileNotFoundError:
        return ''


def named(top):
    """The words that README.md and docs/ write as code."""
    words = set()
    for path in [os.path.join(top, 'README.md')] + glob.glob(os.path.join(top, 'docs/*.md')):
        for code in re.findall(r'`([^`\n]+)`', read(path)):
            words.update(re.findall(r"[A-Za-z_][\w'-]*", code))
    return words


def theorems(top):
    """Each public declaration of proofs/, outside of answers: crate, name and statement."""
    found = {}
    for path in sorted(glob.glob(os.path.join(top, 'crates/*/proofs/**/*.antt'), recursive=True)):
        if os.path.basename(path) in ('Answers.antt', 'Invariants.antt', 'Lib.antt'):
            continue
        crate = os.path.relpath(path, top).split(os.sep)[1]
        for m in re.finditer(r"^ *pub (?:unfoldable )?([\w'-]+) :((?:.*\n)(?: +(?!pub )[→×(◌].*\n)*)", read(path), re.M):
            found[crate, m[1]] = re.sub(r'\s+', ' ', m[2]).strip()
        for m in re.finditer(r"^pub record ([\w'-]+)(.*(?:\n .*)*)", read(path), re.M):
            found[crate, m[1]] = re.sub(r'\s+', ' ', m[2]).strip()
    return found


def is_pub(top, function):
    crate, path, name = function.split(' ', 2)
    text = read(os.path.join(top, 'crates', crate, path))
    return re.search(r'^ *pub fn ' + re.escape(name.split(' ')[-1]) + r'\b', text, re.M) is not None


def clauses(kind, rows):
    return '; '.join(f"{kind} {(name + ' ') if name else ''}`{text}`" for name, text in rows)


def side(word, parts):
    parts = [p for p in parts if p]
    if parts:
        print(f'  - {word}: ' + '; '.join(parts))


def main():
    r = json.load(sys.stdin)
    pub = {}
    for row in r['contracts changed']:
        pub.setdefault(row[0], {})['contract'] = row
    for row in r['signatures changed']:
        pub.setdefault(row[0], {})['signature'] = row
    print('### Public functions\n')
    for name in sorted(pub):
        if not (is_pub(OLD, name) or is_pub(NEW, name)):
            continue
        crate, path, fn = name.split(' ', 2)
        print(f'- `{crate}`, {path}, `{fn}`')
        c = pub[name].get('contract')
        s = pub[name].get('signature')
        side('was', [f'`{s[1]}`' if s else '', clauses('requires', c[1]) if c else '', clauses('ensures', c[2]) if c else ''])
        side('is', [f'`{s[2]}`' if s else '', clauses('requires', c[3]) if c else '', clauses('ensures', c[4]) if c else ''])
    print('\n### Functions that are gone\n')
    for name in r['functions not found again']:
        print(f"- {name.split(' (')[0]}")
    print('\n### Definitions\n')
    d = r['definitions']
    print('Gone: ' + ', '.join(f'`{name}` ({crate})' for crate, name in d['gone']) + '.\n')
    for crate, name, old, new in d['changed']:
        print(f'- `{crate}`, `{name}`\n  - was: `{old}`\n  - is: `{new}`')
    print('\n### Theorems that README.md or docs/ named\n')
    old, new, words = theorems(OLD), theorems(NEW), named(OLD)
    for (crate, name), text in sorted(old.items()):
        if name not in words or new.get((crate, name)) == text:
            continue
        print(f"- `{crate}`, `{name}`\n  - was: `{text}`\n  - is: " + (f'`{new[crate, name]}`' if (crate, name) in new else 'gone'))


main()
