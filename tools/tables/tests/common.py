"""What the tests share: where things are, the tool run as a tester runs it, and the reference."""

import functools
import os
import random
import subprocess
import sys
import unittest

from tables.columns import ROWS
from tables.fields import NAN, number
from tables.stored import ROOT

REFERENCE = os.path.join(ROOT, 'target', 'compare', 'reference')
GENERATE = os.path.join(ROOT, 'target', 'compare', 'generate')


def table(*words, data=b''):
    """Exit status, standard output and standard error of tools/table."""
    ended = subprocess.run([sys.executable, os.path.join(ROOT, 'tools', 'table'), *words], input=data,
                           stdout=subprocess.PIPE, stderr=subprocess.PIPE)
    return ended.returncode, ended.stdout, ended.stderr.decode()


@functools.cache
def needs_reference():
    """Builds the programs of compare/, or skips the test that calls it."""
    built = subprocess.run([os.path.join(ROOT, 'compare', 'build')], stdout=subprocess.PIPE)
    if built.returncode == 77:
        raise unittest.SkipTest('there is no rustc on this machine')
    if built.returncode:
        raise AssertionError('the reference cannot be built')


def play(rows):
    """The reference's answers to a row file."""
    return subprocess.run([REFERENCE], input=rows, stdout=subprocess.PIPE, check=True).stdout


def read(*path):
    with open(os.path.join(ROOT, *path), 'rb') as file:
        return file.read()


EDGES = [0, 1 << 63, 1, (1 << 63) + 1, (1 << 52) - 1, 1 << 52, 0x7fefffffffffffff, 0xffefffffffffffff,
         0x7ff0000000000000, 0xfff0000000000000, NAN, 0x7ff0000000000001, 0xfff8000000000000, (1 << 64) - 1,
         0x3ff0000000000000, 0x4330000000000000, 0x4340000000000001]


def pattern(chance):
    """A pattern of any class: edges, subnormals, infinities, NaNs with any payload, any bits, short decimals."""
    sort = chance.randrange(6)
    if sort == 0:
        return chance.choice(EDGES)
    if sort == 1:
        return chance.getrandbits(1) << 63 | chance.getrandbits(chance.randrange(1, 53))
    if sort == 2:
        return chance.getrandbits(1) << 63 | 0x7ff << 52 | chance.getrandbits(52)
    return chance.getrandbits(64)


def values(kind, chance):
    """A row of any values of this kind."""
    row = []
    for _, form in ROWS[kind]:
        if form == 'b':
            row.append(chance.getrandbits(1))
        elif form == 'i':
            row.append(chance.choice([-1 << 63, (1 << 63) - 1, 0, -1, chance.getrandbits(64) - (1 << 63)]))
        else:
            row.append(chance.choice([number(pattern(chance)), round(chance.uniform(-400, 400), 2)]))
    return row


def rows_of(kind, seed, count=200):
    chance = random.Random(seed)
    return [values(kind, chance) for _ in range(count)]
