"""The comparison of joined rows must find each fault that it can be given, pass without one, and tell the events that
its lists have not; in a full run, which is made with the fault `uncounted`, each of these is a failure."""

import os
import subprocess

import comparing
from checks.programs import refuses
from checks.report import check

# Rows at most that a list is cut down to, by the fault; for the others 4. A full window has 512.
MOST = {'order': 700}

SCRIPT = os.path.join(comparing.COMPARE, 'rooftop')


def played(*words):
    return subprocess.run([SCRIPT, *words], capture_output=True, text=True)


def check_joined():
    if not comparing.built('rooftop'):
        return
    check_faults()
    ended = played('12')
    passes = ended.returncode == 0 and ended.stdout.endswith('\n24 passed, 0 failed\n')
    check('joined rows are answered as by the wired trace functions', '' if passes else ended.stdout + ended.stderr)
    ended = played('1')
    check('events that one list of joined rows has not are told',
          '' if 'events that never occurred' in ended.stdout else ended.stdout + ended.stderr)
    for words in ('0', 'x', '5 fan', '--fault', '--fault nothing', '5 --fault fan more', '--faults more'):
        refuses(f'rooftop {words}', [SCRIPT, *words.split()])


def check_faults():
    """Each fault that the program lists shows as a difference."""
    listed = played('--faults')
    faults = [line.split(': ', 1) for line in listed.stdout.splitlines()]
    check('the faults of joined rows are listed',
          '' if listed.returncode == 0 and faults else f'none: {listed.stdout}{listed.stderr}')
    for fault, what in faults:
        ended = played('--fault', fault)
        if fault == 'uncounted':
            told = ended.stdout.count('events that never occurred')
            found = told == 2 and ended.stdout.endswith(' passed, 2 failed\n')
        else:
            found = 'first difference' in ended.stdout and 1 <= ended.stdout.count('Row {') <= MOST.get(fault, 4)
        check(f'joined rows show where {what}', '' if ended.returncode == 1 and found else ended.stdout + ended.stderr)
