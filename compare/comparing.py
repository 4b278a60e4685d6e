"""What the scripts of compare/ share: where things are, command lines, and where two answers differ."""

import glob
import itertools
import os
import re
import shutil
import subprocess
import sys

COMPARE = os.path.dirname(os.path.abspath(__file__))
ROOT = os.path.dirname(COMPARE)
TARGET = os.path.join(ROOT, 'target', 'compare')
REFERENCE = os.path.join(TARGET, 'reference')
GENERATE = os.path.join(TARGET, 'generate')
CALLS = os.path.join(TARGET, 'calls')
ROOFTOP = os.path.join(TARGET, 'rooftop')
BOARD = os.path.join(TARGET, 'board')
EVENTS = os.path.join(TARGET, 'events')

sys.path.insert(0, os.path.join(ROOT, 'tools'))
from tables.columns import KINDS, WIDTH
from tables.fields import from_column
from tables.stored import KEEP_HOUR


# Beside the kinds freeze protection is played in the start in which stage 2 keeps to its hour.
PLAYED = [*KINDS, KEEP_HOUR]

# The Rust's own rows of each, by the names that the reference knows them by.
SCENARIOS = {'freeze': ['freeze', 'fine_step'], 'relief': ['relief'], 'econ': ['econ'],
             KEEP_HOUR: ['freeze', 'fine_step']}


def scenario(name):
    """The command that prints these rows as a row file."""
    return [REFERENCE, 'scenario', name]


def arguments(name, number_name, number, words, kinds=KINDS):
    """The command line of run, speed and instructions: PROGRAM, a number that may be left out, kinds."""
    if not words:
        sys.exit(f'usage: compare/{name} PROGRAM [{number_name}] [KIND..]')
    program, *rest = words
    path = os.path.abspath(program)
    if not os.path.exists(path):
        path = shutil.which(program)
    if path is None or os.path.isdir(path) or not os.access(path, os.X_OK):
        sys.exit(f'compare/{name}: not a program: {program}')
    if rest and rest[0] not in kinds:
        word = rest.pop(0)
        if not re.fullmatch('[1-9][0-9]{0,8}', word):
            sys.exit(f'compare/{name}: not a number for {number_name}: {word}')
        number = int(word)
    for kind in rest:
        if kind not in kinds:
            sys.exit(f'compare/{name}: no such kind: {kind}')
    if stale(path):
        print(f'compare/{name}: warning: {program} is older than the code below crates/ (tools/build rows makes it anew)',
              file=sys.stderr)
    return path, number, rest or kinds


def stale(program):
    """Whether this is target/bin/rows, and some file of the crates' code is newer."""
    if os.path.realpath(program) != os.path.realpath(os.path.join(ROOT, 'target', 'bin', 'rows')):
        return False
    code = glob.glob(os.path.join(ROOT, 'crates', '*', 'src', '**', '*.rt'), recursive=True)
    return any(os.path.getmtime(path) > os.path.getmtime(program) for path in code)


def build(name):
    """Builds what is missing. Without rustc there is nothing to compare; a build that fails counts
    as one failure."""
    status = subprocess.run([os.path.join(COMPARE, 'build')]).returncode
    if status == 77:
        print('0 passed, 0 failed')
        sys.exit(0)
    if status != 0:
        print(f'{name}: the reference cannot be built')
        print('0 passed, 1 failed')
        sys.exit(1)


def built(part):
    """Builds a part that not everybody has what it needs for; whether it is there. The build has said why where it is not."""
    status = subprocess.run([os.path.join(COMPARE, 'build'), part]).returncode
    if status not in (0, 77):
        sys.exit(f'compare: {part} cannot be built')
    return status == 0


def columns(text):
    return [text[at:at + WIDTH] for at in range(0, len(text), WIDTH)]


def read(column, form):
    """The value of a column, or None where it is badly formed."""
    try:
        return from_column(column, form) if len(column) == WIDTH else None
    except ValueError:
        return None


def difference(expected, got):
    """The place of the first byte in which two outputs differ, answer line and column both counted from 0,
    or None. The column is None where the lines differ in length."""
    if expected == got:
        return None
    pairs = itertools.zip_longest(expected.split(b'\n'), got.split(b'\n'))
    index, (left, right) = next((index, pair) for index, pair in enumerate(pairs) if pair[0] != pair[1])
    if left is None or right is None or len(left) != len(right):
        return index, None
    return index, next(at for at, byte in enumerate(left) if byte != right[at]) // WIDTH
