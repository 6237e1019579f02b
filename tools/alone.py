#!/usr/bin/env python3
"""Names the answers of proofs that the check finds alone, and takes them away.

    python3 tools/alone.py CRATE..           names them
    python3 tools/alone.py --drop CRATE..    and drops them from crates/CRATE/proofs

All answers of a crate are taken away in a copy, of which `rt check --allow-holes` then says which goals it cannot prove: an
answer to any other goal is one that it finds alone. What was dropped is to be checked again (`rt check --fix-imports`).
"""
import os
import re
import shutil
import subprocess
import sys
import tempfile

TOP = os.path.join(os.path.dirname(os.path.abspath(__file__)), '..')
ANSWER = re.compile(r'^pub ([\w:+-]+) : goal\.', re.M)
DECLARED = re.compile(r'(?m)^(?=(?:pub |abbrev |unfoldable )?[\w:+-]+ :|module |record )')


def answer_files(crate):
    for folder, _, names in os.walk(os.path.join(crate, 'proofs')):
        if 'Answers.antt' in names:
            yield os.path.relpath(os.path.join(folder, 'Answers.antt'), crate)


def found_alone(name):
    """Of each file of answers those that the check finds alone, and whether that is all of them."""
    with tempfile.TemporaryDirectory() as top:
        copy = os.path.join(top, 'r')
        shutil.copytree(TOP, copy, ignore=shutil.ignore_patterns('out', '.git'))
        crate = os.path.join(copy, 'crates', name)
        answers = {}
        for path in answer_files(crate):
            with open(os.path.join(crate, path)) as f:
                answers[path] = ANSWER.findall(f.read())
        for path in answers:
            os.remove(os.path.join(crate, path))
        run = subprocess.run(['rt', 'check', '--allow-holes'], cwd=crate, stdout=subprocess.PIPE, stderr=subprocess.STDOUT, text=True)
        wanted = {}
        for m in re.finditer(r'expected answers in (\S+); `search` did not prove (.*)', run.stdout):
            wanted[os.path.normpath(m[1])] = set(re.findall(r'`([^`]+)`', m[2].split('; it calls')[0]))
        if 'crate ' + name + ':' not in run.stdout:
            sys.exit(run.stdout)
    for path, names in sorted(answers.items()):
        # an answer to a goal of several clauses stands where the check asks for one clause of it
        open_goals = {re.sub(r'-clause-\w+$', '', n) for n in wanted.get(os.path.normpath(path), set())}
        open_goals |= wanted.get(os.path.normpath(path), set())
        alone = [n for n in names if n not in open_goals]
        yield path, alone, len(alone) == len(names)


def drop(path, alone):
    with open(path) as f:
        blocks = DECLARED.split(f.read())
    kept = [b for b in blocks if not (ANSWER.match(b) and ANSWER.match(b)[1] in alone)]
    with open(path, 'w') as f:
        f.write(''.join(kept).rstrip('\n') + '\n')


def main():
    dropping = sys.argv[1] == '--drop'
    count = 0
    for name in sys.argv[1 + dropping:]:
        for path, alone, whole in found_alone(name):
            if not alone:
                continue
            count += len(alone)
            print(f'{name} {path}: ' + ' '.join(alone), flush=True)
            if dropping:
                there = os.path.join(TOP, 'crates', name, path)
                if whole:
                    os.remove(there)
                else:
                    drop(there, alone)
    print(count)


main()
