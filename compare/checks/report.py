"""Counts and prints the checks of compare/check."""

import os
import subprocess

from comparing import REFERENCE

passed = failed = 0


def check(name, fault):
    """One check; `fault` says what is wrong, or is empty."""
    global passed, failed
    if fault:
        failed += 1
        print(f'failed: {name}\n        {fault}')
    else:
        passed += 1
        print(f'passed: {name}')


def expect(name, got, expected):
    check(name, '' if got == expected else f'expected {expected!r}, got {got!r}')


def answers(text, *words):
    """The answers to a row file of the reference, called with these words."""
    return subprocess.run([REFERENCE, *words], input=text, stdout=subprocess.PIPE, check=True).stdout


def statuses(text):
    return [int(line[:21]) for line in answers(text).splitlines()]


def script(path, text):
    """Writes a program."""
    with open(path, 'w') as file:
        file.write(text)
    os.chmod(path, 0o755)
