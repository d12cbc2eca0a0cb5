#!/usr/bin/env python3
"""Lists the answers that the check finds alone: tools/needless.py FOLDER [CRATE..]

FOLDER is a clone that is used for this alone. Each crate is checked once with all its Answers.antt away, and those of its answers are printed whose goals
the check then does not leave open. A goal of which several depend on one search may be printed and yet be needed: check the crate without it."""
import os
import re
import subprocess
import sys

CRATES = os.path.join(sys.argv[1], 'crates')


def answers_of(crate):
    for folder, _, names in os.walk(os.path.join(CRATES, crate, 'proofs')):
        if 'Answers.antt' in names:
            yield os.path.join(folder, 'Answers.antt')


def left_open(said):
    found = {}
    for goal, function in re.findall(r'note: `([^`]+)` of proofs/(\S+?)/Answers\.antt must prove', said):
        found.setdefault(function, set()).add(goal)
    for function, goals in re.findall(r'expected answers in \./proofs/(\S+?)/Answers\.antt; `search` did not prove ([^\n]*)', said):
        found.setdefault(function, set()).update(re.findall(r'`([^`]+)`', goals))
    return found


def is_open(goal, goals):
    return any(other == goal or other.startswith(goal + '-clause') or goal.startswith(other + '-clause') for other in goals)


def try_crate(crate):
    saved = {}
    for name in list(answers_of(crate)):
        with open(name, encoding='utf-8') as file:
            saved[name] = file.read()
    try:
        for name in saved:
            os.remove(name)
        run = subprocess.run(['rt', 'check', '--allow-holes'], cwd=os.path.join(CRATES, crate), capture_output=True, text=True, check=False)
    finally:
        for name, text in saved.items():
            with open(name, 'w', encoding='utf-8') as file:
                file.write(text)
    goals = left_open(run.stdout + run.stderr)
    for name, text in sorted(saved.items()):
        function = os.path.relpath(os.path.dirname(name), os.path.join(CRATES, crate, 'proofs'))
        for goal in re.findall(r'^pub (\S+) : goal\.', text, re.M):
            if not is_open(goal, goals.get(function, set())):
                print(f'{crate} {function}: {goal}', flush=True)


for each in sys.argv[2:] or sorted(os.listdir(CRATES)):
    try_crate(each)
