"""CSV to rows to CSV, rows to CSV to rows, and answers to CSV, on random and on generated files."""

import csv
import io
import math
import random
import subprocess
import unittest

from tables import files
from tables.columns import ANSWERS, KINDS, ROWS
from tables.fields import NAN, from_cell, number, to_column
from tables.tests.common import GENERATE, needs_reference, pattern, play, rows_of, table

SEEDS = range(1, 72, 5)   # every sort of file: odd times, odd fields, damaged lines


def one_nan(rows):
    """The rows with every NaN the one that `nan` is written as."""
    return [[number(NAN) if isinstance(value, float) and math.isnan(value) else value for value in row] for row in rows]


class RoundTrips(unittest.TestCase):
    def check(self, kind, rows):
        """A row file and its CSV make each other."""
        text = files.write_rows(kind, rows)
        self.assertEqual(files.read_rows(text, 'rows')[0], kind)
        made = files.rows_csv(*files.read_rows(text, 'rows'))
        again = files.write_rows(kind, files.read_csv(kind, made, 'csv'))
        self.assertEqual(again, text)
        self.assertEqual(files.rows_csv(*files.read_rows(again, 'rows')), made)
        self.assertEqual(len(made.splitlines()), 1 + len(rows))

    def test_random_rows(self):
        for kind in KINDS:
            for seed in range(3):
                self.check(kind, one_nan(rows_of(kind, seed)))
            self.check(kind, [])

    def test_other_nans_become_the_one(self):
        for kind in KINDS:
            rows = rows_of(kind, 7)
            self.assertEqual(files.write_rows(kind, rows), files.write_rows(kind, one_nan(rows)))

    def test_columns_in_any_order_spreadsheet_endings_and_quotes(self):
        for kind in KINDS:
            rows = one_nan(rows_of(kind, 11, 20))
            made = files.rows_csv(kind, rows).decode()
            lines = [line.split(',') for line in made.splitlines()]
            order = list(range(len(ROWS[kind])))
            random.Random(3).shuffle(order)
            shuffled = [[line[place] for place in order] for line in lines]
            for quote, end in (('', '\n'), ('', '\r\n'), ('"', '\r\n')):
                text = end.join(','.join(quote + cell + quote for cell in line) for line in shuffled)
                for data in (text.encode(), text.encode('utf-8-sig') + end.encode()):
                    self.assertEqual(files.write_rows(kind, files.read_csv(kind, data, 'csv')), files.write_rows(kind, rows))

    def test_generated_files(self):
        needs_reference()
        damaged = refused = 0
        for kind in KINDS:
            for seed in SEEDS:
                data = subprocess.run([GENERATE, kind, str(seed)], stdout=subprocess.PIPE, check=True).stdout
                if not data.startswith(kind.encode() + b'\n'):
                    self.assertRaises(files.Refused, files.read_rows, data, 'rows')
                    continue
                # `played` refuses files where damaged lines and statuses of 5 disagree
                answers = play(data)
                _, rows, read = files.played(data, 'rows', answers, 'answers')
                damaged += rows.count(None)
                refused += sum(status != 0 for status, _ in read)
                self.check(kind, one_nan([row for row in rows if row is not None]))
                self.back(kind, answers, read)
                joined = files.joined_csv(kind, rows, read).decode().splitlines()
                inputs = len(ROWS[kind])
                for line, row, alone in zip(joined[1:], rows, files.answers_csv(kind, read).decode().splitlines()[1:]):
                    cells = line.split(',')
                    self.assertEqual(','.join(cells[inputs:]), alone)
                    self.assertEqual(cells[:inputs], files.cells(ROWS[kind], row))
        self.assertGreater(damaged, 50)
        self.assertGreater(refused, damaged)

    def back(self, kind, answers, read):
        """The CSV of answers holds them whole: written back, it is the program's output."""
        lines = csv.reader(io.StringIO(files.answers_csv(kind, read).decode()))
        self.assertEqual(next(lines), [name for name, _ in ANSWERS[kind]])
        text = b''
        for cells in lines:
            full = cells if cells[0] == '0' else cells[:1]
            self.assertTrue(all(cell == '' for cell in cells[len(full):]))
            text += b''.join(to_column(from_cell(cell, form), form) for cell, (_, form) in zip(full, ANSWERS[kind])) + b'\n'
        self.assertEqual(text, answers)

    def test_the_commands(self):
        rows = files.write_rows('econ', one_nan(rows_of('econ', 5, 30)))
        status, made, _ = table('from-rows', data=rows)
        self.assertEqual(status, 0)
        self.assertEqual(table('to-rows', 'econ', '-', data=made), (0, rows, ''))
        answer = b'%21d%21d%21d%21d%21d\n' % (0, 0, 1, 0, pattern(random.Random(2))) + b'%21d\n' % 3
        status, made, _ = table('answers', 'econ', data=answer)
        self.assertEqual((status, made.decode().splitlines()[2]), (0, '3,,,,'))
