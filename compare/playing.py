"""Plays a program and the reference on one row file, and shows where they differ."""

import os
import random
import signal
import subprocess
import tempfile
import time
from collections import namedtuple

import comparing
from comparing import REFERENCE, TARGET
from tables.columns import ANSWERS, ROWS, WIDTH
from tables.statuses import Status

SECONDS = 60     # longer than a program needs for any of the files
PIECES = [1, 20, 21, 252, 253, 4000, 4096, 30000, 65536]
NO_END = f'did not end within {SECONDS} s'

# A row file to play: its kind, what it is called, the command that prints it, the words that programs are called with,
# and the seed of its pieces.
File = namedtuple('File', 'kind name command words seed')

# A difference: answer line and column, counted from 0, and the two lines, None where there is none.
Place = namedtuple('Place', 'index column expected got')


def hand_over(pipe, piece):
    """Writes the whole piece: a write that a signal ends early writes only a part."""
    while piece:
        piece = piece[pipe.write(piece):]


def answers(program, path, words=(), seed=0):
    """What the program, called with these words, prints for the rows of a file, and how it ended where that was
    not well. Every fourth seed hands the rows over in pieces of many sizes."""
    pieces = random.Random(seed) if seed % 4 == 3 else None
    with open(path, 'rb') as rows, tempfile.TemporaryFile() as out:
        try:
            process = subprocess.Popen([program, *words], stdin=subprocess.PIPE if pieces else rows, stdout=out,
                                       bufsize=0, start_new_session=True)
        except OSError as error:
            return b'', f'cannot be run: {error}'
        try:
            while pieces and (piece := rows.read(pieces.choice(PIECES))):
                hand_over(process.stdin, piece)
        except BrokenPipeError:
            pass
        if pieces:
            process.stdin.close()
        try:
            status = process.wait(timeout=SECONDS)
        except subprocess.TimeoutExpired:
            os.killpg(process.pid, signal.SIGKILL)
            process.wait()
            return b'', NO_END
        out.seek(0)
        return out.read(), status and f'ended with status {status}'


def play(program, path, words=(), seed=0):
    """What goes wrong with this file: a Place, a sentence, or None."""
    expected, wrong = answers(REFERENCE, path, words)
    if wrong:
        return f'the reference {wrong}'
    got, wrong = answers(program, path, words, seed)
    if wrong:
        return f'the program {wrong}'
    found = comparing.difference(expected, got)
    return found and Place(*found, line_at(expected, found[0]), line_at(got, found[0]))


def line_at(text, index):
    lines = text.split(b'\n')
    return None if index >= len(lines) or index == len(lines) - 1 and not lines[index] else lines[index]


class Difference:
    """A file on which the two differ, cut down to lines that suffice for a difference."""

    def __init__(self, program, file, path, found, seconds=20):
        self.program, self.file, self.found = program, file, found
        self.kind, self.seed = 'freeze' if file.words else file.kind, file.seed     # keep-hour has freeze rows
        self.saved = os.path.join(TARGET, 'difference.rows')
        with open(path, 'rb') as rows:
            self.lines = rows.read().splitlines(keepends=True)
        end = time.monotonic() + seconds
        size = len(self.lines) // 2
        while size and time.monotonic() < end and self.wrong(self.lines):
            at = len(self.lines) - size
            while at > 0 and time.monotonic() < end:
                shorter = self.lines[:at] + self.lines[at + size:]
                if self.wrong(shorter):
                    self.lines = shorter
                at -= size
            size //= 2

    def wrong(self, lines):
        with open(self.saved, 'wb') as rows:
            rows.writelines(lines)
        return play(self.program, self.saved, self.file.words, self.seed)

    def show(self):
        found = self.found if isinstance(self.found, str) else f'answer line {self.found.index + 1} differs'
        print(f'first difference: {self.file.kind}, {self.file.name}: {found}')
        pieces = ', handed over in pieces' if self.seed % 4 == 3 else ''
        saved = os.path.relpath(self.saved)
        print(f'  the input, cut down to {len(self.lines)} lines{pieces}, is in {saved}')
        wrong = self.wrong(self.lines)
        if wrong is None:
            print('  played again, the difference did not occur; what was found first:')
        self.show_wrong(wrong or self.found)
        for line in self.lines[:20]:
            print(f'    {show_row(self.kind, line)}')
        if len(self.lines) > 20:
            print('    ..')

    def show_wrong(self, wrong):
        if isinstance(wrong, str):
            print(f'  {wrong}')
            return
        print(f'  answer line {wrong.index + 1}, which answers input line {wrong.index + 2}')
        if wrong.column is not None:
            print(f'  column {wrong.column + 1}, {ANSWERS[self.kind][wrong.column][0]}')
        for word, line in (('expected', wrong.expected), ('got     ', wrong.got)):
            print(f'  {word} {self.show_line(line, wrong.column)}')

    def show_line(self, line, place):
        if line is None:
            return 'no line'
        if place is None:
            return line[:300].decode('ascii', 'backslashreplace')
        name, form = ANSWERS[self.kind][place]
        column = comparing.columns(line)[place]
        value = comparing.read(column, form)
        if name == 'status':
            value = Status(value).meaning if value in list(Status) else 'no status'
        words = f' ({value})' if form == 'f' or name == 'status' else ''
        return column.decode('ascii', 'backslashreplace').strip() + words


def show_row(kind, line):
    """A row line in words where it is well formed, else its bytes."""
    values = [comparing.read(column, form)
              for column, (_, form) in zip(comparing.columns(line.rstrip(b'\n')), ROWS[kind])]
    if len(line) != len(ROWS[kind]) * WIDTH + 1 or None in values:
        return repr(line[:300])
    return ', '.join(f'{name} {value!r}' for (name, _), value in zip(ROWS[kind], values))
