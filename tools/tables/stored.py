"""The stored row files, played/*.rows, and the reference's answers, *.answers; compare/stored makes and checks them."""

import glob
import os

ROOT = os.path.normpath(os.path.join(os.path.dirname(os.path.abspath(__file__)), '..', '..'))

# What a program is called with where freeze protection is to start so that its stage 2 keeps to its hour.
KEEP_HOUR = 'keep-hour'


def path(name, ending):
    return os.path.join(ROOT, 'played', f'{name}.{ending}')


def names():
    return sorted(os.path.basename(rows)[:-len('.rows')] for rows in glob.glob(path('*', 'rows')))


def content(name, ending):
    with open(path(name, ending), 'rb') as file:
        return file.read()


def words(name):
    """What a program is called with to play a file of this name; a name begins with a kind, or with that word."""
    return [KEEP_HOUR] if name.split('_')[0] == KEEP_HOUR else []


def stored():
    """Name, rows and answers of each."""
    return [(name, content(name, 'rows'), content(name, 'answers')) for name in names()]
