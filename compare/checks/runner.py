"""The runner must find wrong programs, and pass one that is right."""

import os
import signal
import subprocess
import tempfile
import time

from checks.report import check, script
from comparing import COMPARE, REFERENCE, SCENARIOS

# Programs that change the reference's output, input or words, by the kind of rows on which they show: what comes after
# `reference` in a shell.
WRONG = {
    'freeze': [
        ('another status', "| sed -E 's/^( {20})3$/\\12/'"),
        ('a float one step beside', "| sed -E 's/^(.{83})0/\\11/'"),
        ('a last line too few', "| sed '$d'"),
        ('a line too many', "; printf '%21d\\n' 5"),
        ('no last newline', "| awk 'NR > 1 { print line } { line = $0 } END { printf \"%s\", line }'"),
        ('nothing printed', '> /dev/null'),
        ('a wrong end status', '; exit 3'),
        ('a minus before a zero', "| sed -E 's/^(.{63}) {20}0/\\1  9223372036854775808/'"),
        ('a zero for a NaN', "| sed 's/9221120237041090560/                  0/g'"),
        ('another pattern of a NaN', "| sed 's/9221120237041090560/9221120237041090561/g'"),
    ],
    'relief': [
        ('4 in the place of 11', "| sed -E 's/^ {19}11$/                    4/'"),
        ('an alarm of 258 cut to 8 bits and taken', "< <(LC_ALL=C sed -E 's/ {18}258/                    2/g')"),
    ],
    'keep-hour': [
        ('the published start in the place of the other', ''),
    ],
}


def start(program, rounds, kind):
    return subprocess.Popen([os.path.join(COMPARE, 'run'), program, str(rounds), kind],
                            stdout=subprocess.PIPE, text=True)


def play(folder, kind, rounds, change='"$@"'):
    program = os.path.join(folder, 'program')
    script(program, f'#!/bin/bash\n"{REFERENCE}" {change}\n')
    runner = start(program, rounds, kind)
    printed = runner.communicate()[0]
    return runner.returncode, printed


def passes_all(status, printed, rounds, kind):
    return status == 0 and printed.endswith(f'\n{rounds + len(SCENARIOS[kind])} passed, 0 failed\n')


def check_interrupted(folder):
    """A runner that is stopped and goes on while it waits to write loses no bytes. Among the files are
    some that do not fit into a pipe, and the program reads late."""
    program = os.path.join(folder, 'program')
    script(program, f'#!/bin/bash\nsleep 0.2\nexec "{REFERENCE}"\n')
    runner = start(program, 12, 'relief')
    while runner.poll() is None:
        time.sleep(0.05)
        runner.send_signal(signal.SIGSTOP)
        runner.send_signal(signal.SIGCONT)
    printed = runner.stdout.read()
    runner.stdout.close()
    clear = passes_all(runner.returncode, printed, 12, 'relief')
    check('the runner loses no bytes when it is interrupted', '' if clear else printed)


def check_runner():
    with tempfile.TemporaryDirectory() as folder:
        for kind, changes in WRONG.items():
            for name, change in changes:
                status, printed = play(folder, kind, 12, change)
                counts = printed.splitlines()[-1].split()
                found = status != 0 and 'first difference' in printed and counts[2] != '0'
                check(f'the runner finds {name}', '' if found else printed)
        for kind in SCENARIOS:
            status, printed = play(folder, kind, 12)
            check(f'the runner passes the reference on {kind} rows', '' if passes_all(status, printed, 12, kind) else printed)
        check_interrupted(folder)
