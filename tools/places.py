#!/usr/bin/env python3
"""Counts the places that docs/DESIGN-PASS.md speaks of, in crates/*/src, a line for each.

    python3 tools/places.py POINT [FOLDER]

POINT is 1 to 8, FOLDER the top of a checkout, by default this one. What a point looks for is said in words beside its
function. A place that stays as it is has a comment with 'Kept:' beside it that says why: in its line, in the comment over it,
over the function, type or impl that it stands in, or at the head of the file. One at the head counts for those places alone that
it can be about: what it says is kept has to name their kind ('refusals are numbers here' counts for numbers, and for no loop). A
place without one is still to do. The last line has the count, and how many have a reason.
"""
import glob
import os
import re
import sys

TOP = sys.argv[2] if len(sys.argv) > 2 else os.path.join(os.path.dirname(os.path.abspath(__file__)), '..')


def sources():
    for path in sorted(glob.glob(os.path.join(TOP, 'crates/*/src/**/*.rt'), recursive=True)):
        with open(path) as f:
            yield os.path.relpath(path, TOP), f.read()


def line_of(text, at):
    return text.count('\n', 0, at) + 1


def functions(text):
    """The functions of a file: name, parameters, body, and where they start."""
    for m in re.finditer(r'\bfn (\w+)(<[^{(]*>)?\(', text):
        at = m.end()
        depth = 1
        while depth:
            depth += {'(': 1, ')': -1}.get(text[at], 0)
            at += 1
        params = re.sub(r'\s+', ' ', text[m.end():at - 1])
        body = re.compile(r'[{;]$', re.M).search(text, at)
        if body[0] == ';':
            continue
        indent = re.compile(r' *').match(text, text.rindex('\n', 0, m.start()) + 1)[0]
        end = text.index('\n' + indent + '}', body.end())
        yield m[1], params, text[body.end():end], m.start()


def comment_over(lines, n):
    """The comment that ends right over line n, counted from 0."""
    top = n
    while top and lines[top - 1].strip().startswith(('//', '#[')):
        top -= 1
    return lines[top:n]


# Words of which a line at the head of a file has one in what it says is kept, where it is about places of a point; for point 1
# the word is the place's own kind.
NAMED = {
    '2': 'twin|alike',
    '3': 'loop|while',
    '4': 'lesser|arms|byte|conversion|converted',
    '5': 'node|image|table|store',
    '6': 'slice|place|table',
    '7': 'match',
}


def names_kind(comment, point, what):
    """What a comment says is kept, up to its first stop or reason, names the place's kind."""
    kind = NAMED.get(point) or re.match(r'\w+', what)[0]
    said = re.search(r'Kept:(.*?)(?:[,;:.]|\bsince\b|$)', ' '.join(c.lstrip('/ ') for c in comment))
    return bool(said and re.search(r'\b(?:' + kind + r')s?\b', said[1]))


def is_kept(path, line, point, what):
    with open(os.path.join(TOP, path)) as f:
        lines = f.read().split('\n')
    n = line - 1
    end = n
    while lines[end].strip().startswith('//'):
        end += 1
    beside = lines[n:end + 1] + comment_over(lines, n)
    head = 0
    while lines[head].startswith('//'):
        head += 1
    if names_kind(lines[:head], point, what):
        return True
    depth = len(lines[n]) - len(lines[n].lstrip())
    for k in range(n - 1, -1, -1):
        indent = len(lines[k]) - len(lines[k].lstrip())
        if lines[k].strip() and indent < depth and not lines[k].strip().startswith(('//', ')', '}', 'requires', 'ensures', '{')):
            beside += comment_over(lines, k)
            depth = indent
        if not depth:
            break
    return any('Kept:' in b for b in beside)


FOUND = 'Accepted|Yes|Agreed|Within|Nowhere|Bytes|Left|Done|Compare|Fits'
REFUSED = 'Refused|No|OutOfRange|Short|TooLong|At|NotRows|Unreadable'


def point1():
    """Enums with a variant for what is found and one for what is refused or not there; flags in structs; constants that stand for nothing; numbers for
    refusals; comments of functions that say which number stands for nothing."""
    for path, text in sources():
        for m in re.finditer(r'\benum (\w+) \{(.*?)\n\}', text, re.S):
            if all(re.search(r'^\s*(' + names + r')\b', m[2], re.M) for names in (FOUND, REFUSED)):
                yield path, line_of(text, m.start()), 'enum ' + m[1]
        for m in re.finditer(r'^    (?:pub )?(\w+): bool,$', text, re.M):
            yield path, line_of(text, m.start()), 'flag ' + m[1]
        for m in re.finditer(r'const (NOT?_\w+):', text):
            yield path, line_of(text, m.start()), 'constant ' + m[1]
        for m in re.finditer(r'Refused\((?:\d+|u8)\)|\bnumber: (?:[1-9]\d*|u8)\b|numbers_of\([1-9]\d', text):
            yield path, line_of(text, m.start()), 'number ' + m[0]
        for m in re.finditer(r'^ *// .*(\bor (?:n|the end of \w+(?: \w+)?|the node itself)\b.*\b(?:where|none)\b|[;:,] (?:0|none) where\b).*$', text, re.M):
            yield path, line_of(text, m.start()), 'stands for nothing: ' + m[1]


WORDS = set('if else while for in let mut return match as fn true false loop break continue ref move'.split())


def shape(body):
    body = re.sub(r'//[^\n]*', '', body)
    tokens = re.findall(r'[A-Za-z_]\w*|\d+|[^\s\w]', body)
    out = []
    for t in tokens:
        if t in WORDS:
            out.append(t)
        elif re.match(r'[A-Za-z_]', t):
            out.append('w')
        elif t.isdigit():
            out.append('n')
        else:
            out.append(t)
    return ' '.join(out)


def point2():
    """Functions with the same shape as one before them, once names and numbers are left out, of 25 words and signs and more."""
    seen = {}
    for path, text in sources():
        for name, params, body, at in functions(text):
            s = shape(body)
            if s.count(' ') < 24:
                continue
            if s in seen:
                yield path, line_of(text, at), name + ', as ' + seen[s]
            else:
                seen[s] = name + ' of ' + path


def point3():
    """Loops that are no `for`."""
    for path, text in sources():
        for m in re.finditer(r'^ *(?:\'\w+: )?(while|loop)\b.*$', text, re.M):
            yield path, line_of(text, m.start()), m[0].strip()


def point4():
    """The lesser of two numbers, a test that is true in some arms and false in the others, bytes of a number by division, bytes
    copied, compared or set one by one, and functions whose whole work is a conversion."""
    looked = [
        (r'if (\w+) < ([\w.()]+) \{\s*\1\s*\} else \{\s*\2\s*\}', 'the lesser of two'),
        (r'=> (?:true|false),\s*_ => (?:true|false),', 'a test by arms'),
        (r'\(\w+ (?:% 256|/ 256)\) as u8', 'a byte of a number'),
        (r'\w+\[[^\]\n]*\] = \w+\[[^\]\n]*\];', 'bytes copied'),
        (r'\w+\[k\] = 0;', 'bytes set'),
        (r'fn (?:wide|least|yes_or_no|side_byte|agreed_byte|digit|digit_text|low_byte|high_byte|numbers_of|side_number|front)\(', 'a conversion'),
        (r'if (?:byte\()?\w+(?:\[|, )(?:(?!\.\.)[^\n])*!= (?:byte\()?\w+(?:\[|, )', 'bytes compared'),
    ]
    for path, text in sources():
        for pattern, what in looked:
            for m in re.finditer(pattern, text):
                yield path, line_of(text, m.start()), what + ': ' + re.sub(r'\s+', ' ', m[0])


def point5():
    """Functions that take an image and the number of one of its nodes, or the lent tables of a filling, or both stores of a
    session, each by itself."""
    for path, text in sources():
        for name, params, body, at in functions(text):
            if re.search(r'\w+: &\[u8\], (?:\w+: u8, )?\w*(?:node|n|i): u32\b', params):
                yield path, line_of(text, at), name + ': an image and a node'
            elif re.search(r'spans: &mut \[usize\]', params) and re.search(r'rows: &mut \[usize\]', params):
                yield path, line_of(text, at), name + ': the tables of a filling'
            elif re.search(r'left: &(?:mut )?\[u8(?:; STORE)?\], right: &(?:mut )?\[u8(?:; STORE)?\], state: \w+', params):
                yield path, line_of(text, at), name + ': both stores and the state'


def point6():
    """Functions that take a slice with a place and a count in it, and functions that take tables of numbers side by side."""
    for path, text in sources():
        for name, params, body, at in functions(text):
            if re.search(r'&(?:mut )?\[u8\][^&]*\b(?:at|place|from|p|la|x|view): usize\b', params):
                yield path, line_of(text, at), name + ': a slice and a place in it'
            elif len(re.findall(r'&(?:mut )?\[usize\]', params)) > 1:
                yield path, line_of(text, at), name + ': tables side by side'


def point7():
    """A `match` on a number that says what to do."""
    for path, text in sources():
        for m in re.finditer(r'^ *match (\w+|\w+\(.*\)) \{\n(?: *\d+ =>)', text, re.M):
            yield path, line_of(text, m.start()), m[0].split('\n')[0].strip()


def point8():
    """Answers of proofs, for each crate."""
    for crate in sorted(os.listdir(os.path.join(TOP, 'crates'))):
        n = 0
        for path in glob.glob(os.path.join(TOP, 'crates', crate, 'proofs/**/Answers.antt'), recursive=True):
            with open(path) as f:
                n += len(re.findall(r'^(?:pub )?[\w-]+(?:\+[\w-]+)* : goal\.', f.read(), re.M))
        for _ in range(n):
            yield 'crates/' + crate, 0, 'an answer'


def main():
    point = globals()['point' + sys.argv[1]]
    places = list(point())
    if sys.argv[1] == '8':
        for crate in sorted({p for p, _, _ in places}):
            print(crate, sum(1 for p, _, _ in places if p == crate))
        print(len(places))
        return
    kept = 0
    for path, line, what in places:
        has = is_kept(path, line, sys.argv[1], what)
        kept += has
        print(f'{path}:{line}: {what}' + (', kept' if has else ''))
    print(f'{len(places)}, {kept} kept with a reason')


main()
