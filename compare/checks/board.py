"""The comparison of boards must find each fault that it can be given, pass without one, and tell the events that its
schedules have not; in a full run, which is made with the fault `uncounted`, each of these is a failure."""

import os
import subprocess

import comparing
from checks.programs import refuses
from checks.report import check

SCRIPT = os.path.join(comparing.COMPARE, 'board')


def played(*words):
    return subprocess.run([SCRIPT, *words], capture_output=True, text=True)


def check_board():
    if not comparing.built('board'):
        return
    check_faults()
    ended = played('12')
    passes = ended.returncode == 0 and ended.stdout.endswith('\n12 passed, 0 failed\n')
    check('a board answers each unit as it is answered alone', '' if passes else ended.stdout + ended.stderr)
    ended = played('1')
    check('events that one schedule has not are told',
          '' if 'events that never occurred' in ended.stdout else ended.stdout + ended.stderr)
    for words in ('0', 'x', '5 idle', '--fault', '--fault nothing', '5 --fault idle more', '--faults more'):
        refuses(f'board {words}', [SCRIPT, *words.split()])


def check_faults():
    """Each fault that the program lists shows as a difference."""
    listed = played('--faults')
    faults = [line.split(': ', 1) for line in listed.stdout.splitlines()]
    check('the faults of boards are listed',
          '' if listed.returncode == 0 and faults else f'none: {listed.stdout}{listed.stderr}')
    for fault, what in faults:
        ended = played('--fault', fault)
        if fault == 'uncounted':
            told = 'events that never occurred: taken\n' in ended.stdout
            found = told and ended.stdout.endswith(' passed, 1 failed\n')
        else:
            found = 'first difference' in ended.stdout
        check(f'a board shows where {what}', '' if ended.returncode == 1 and found else ended.stdout + ended.stderr)
