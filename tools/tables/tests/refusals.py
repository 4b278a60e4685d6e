"""Each way in which a file can be wrong, and what is said of it."""

import os
import tempfile
import unittest

from tables import files
from tables.columns import ROWS
from tables.fields import NAN
from tables.tests.common import rows_of, table

HEAD = ','.join(name for name, _ in ROWS['econ'])
GOOD = '0,0,0,0,295.15,1,1,0'
ROW = b''.join(b'%21d' % value for value in (0, 0, 0, 0, 4643211215818981376, 1, 1, 0)) + b'\n'
ANSWER = b''.join(b'%21d' % value for value in (0, 0, 1, 0, 4607182418800017408)) + b'\n'


def cell(name, text):
    """A row of the economizer with another text in one cell."""
    cells = GOOD.split(',')
    cells[[column for column, _ in ROWS['econ']].index(name)] = text
    return ','.join(cells)


TEMPERATURE, FAN, MODE = 'outdoor_air_temperature', 'supply_fan_status', 'operation_mode'
NOT_NUMBERS = ['', ' 1', '1 ', '1_0', '1_0.5', '+1', '.5', '5.', '1e', '01', '-', '--1', '1,', 'NaN', 'NAN', '-nan',
               'nan(1)', 'infinity', 'Infinity', '+inf', 'INF', 'Inf', '0x1p3', '0x10', '１２', '1２', '٣', '1.5f', '1 5',
               'cold', '1e5.5', '\u00a01', '1\t', '−1', '1\x00', 'None', 'true', '1\n2']
NOT_INTEGERS = ['', ' 1', '1.0', '1e3', '+1', '01', '-0', '1_0', '−1', '１', 'nan', 'one']
NOT_FLAGS = ['', '2', '-1', '01', '1.0', ' 1', 'yes', 'no', 'true', 'TRUE', '１']


class Refusals(unittest.TestCase):
    def refused(self, read, *arguments):
        with self.assertRaises(files.Refused) as caught:
            read(*arguments, 'FILE')
        return str(caught.exception)

    def csv(self, *lines):
        return self.refused(files.read_csv, 'econ', '\n'.join(lines).encode())

    def test_cells(self):
        for name, texts, what in ((TEMPERATURE, NOT_NUMBERS, 'is not a number'),
                                  (FAN, NOT_FLAGS, 'is not 0 or 1'),
                                  (MODE, NOT_INTEGERS, 'is not a whole number'),
                                  (TEMPERATURE, ['1e309', '-1e309', '1' + '0' * 400], 'is beyond the largest double'),
                                  (MODE, ['9223372036854775808', '-9223372036854775809', '1' + '0' * 5000], 'is beyond 64 bits')):
            for text in texts:
                with self.subTest(text=text, column=name):
                    said = self.csv(HEAD, GOOD, cell(name, f'"{text}"'), GOOD)
                    shown = text if len(text) <= 40 else text[:40] + '..'
                    self.assertEqual(said, f'FILE: line 3, column {name}: {shown!r} {what}')

    def test_the_first_line(self):
        for head, said in (
                (HEAD.replace('operation_mode,', ''), 'line 1, column operation_mode: missing'),
                (HEAD + ',time', 'line 1, column time: stands there 2 times'),
                (HEAD + ',valve', "line 1: 'valve' is not a column of econ"),
                (HEAD.replace('time,', 'Time,'), "line 1: 'Time' is not a column of econ\nFILE: line 1, column time: missing"),
                (HEAD.replace('time,', ' time,'), "line 1: ' time' is not a column of econ\nFILE: line 1, column time: missing"),
                (HEAD + ',', "line 1: '' is not a column of econ")):
            with self.subTest(head=head):
                self.assertEqual(self.csv(head, GOOD), f'FILE: {said}')
        self.assertIn('column time: missing', self.csv(''))
        self.assertIn('column time: missing', self.csv(GOOD))

    def test_lines(self):
        for line, said in ((GOOD + ',0', '9 cells for 8 columns'), (GOOD[:-2], '7 cells for 8 columns'),
                           ('', 'no cells for 8 columns'), (GOOD.replace(',', ';'), '1 cells for 8 columns')):
            with self.subTest(line=line):
                self.assertEqual(self.csv(HEAD, GOOD, line, GOOD), f'FILE: line 3: {said}')
        self.assertIn('FILE: line 3: ', self.csv(HEAD, GOOD, '"0"x,0,0,0,0,1,1,0'))
        for lines in (1, 10000):
            self.assertEqual(self.csv(HEAD, GOOD, '"0', *[GOOD] * lines), 'FILE: line 3: a cell that does not end, is a quote left open?')
        said = self.refused(files.read_csv, 'econ', f'{HEAD}\n{GOOD}\n'.encode() + b'\xff' + GOOD.encode())
        self.assertEqual(said, 'FILE: line 3: not UTF-8')

    def test_every_fault_is_told_up_to_a_bound(self):
        said = self.csv(HEAD, cell(FAN, 'x'), GOOD, cell(MODE, 'y'))
        self.assertEqual(said, "FILE: line 2, column supply_fan_status: 'x' is not 0 or 1\n"
                               "FILE: line 4, column operation_mode: 'y' is not a whole number")
        self.assertEqual(self.csv(HEAD, *[cell(FAN, 'x')] * 30).splitlines()[-1], 'FILE: and 10 more')

    def test_row_files(self):
        for data, said in (
                (b'', 'line 1: not one of freeze, relief, econ and a newline'),
                (b'econ', 'line 1: not one of freeze, relief, econ and a newline'),
                (b'econ\r\n' + ROW, 'line 1: not one of freeze, relief, econ and a newline'),
                (b'\n' + ROW, 'line 1: not one of freeze, relief, econ and a newline'),
                (b'econ\n' + ROW + ROW[1:] + ROW, 'line 3: 167 bytes where 168 stand in 8 columns'),
                (b'econ\n\n', 'line 2: 0 bytes where 168 stand in 8 columns'),
                (b'econ\n' + ROW + ROW[:-1], 'line 3: the last newline is missing'),
                (b'econ\n' + ROW[:-2] + b'x\n',
                 f'line 2, column freeze_protection_stage: {"x".rjust(21)!r} is not a number at the right end of its column'),
                (b'econ\n' + b'%021d' % 1 + ROW[21:],
                 f"line 2, column time: '{1:021d}' is not a number at the right end of its column"),
                (b'econ\n' + b'%21d' % -1 + ROW[21:], f"line 2, column time: '{-1:21d}' is not a 64-bit pattern"),
                (b'econ\n' + b'%21d' % (1 << 64) + ROW[21:], f"line 2, column time: '{1 << 64:21d}' is not a 64-bit pattern"),
                (b'econ\n' + ROW[:105] + b'%21d' % 2 + ROW[126:], f"line 2, column supply_fan_status: '{2:21d}' is not 0 or 1"),
                (b'econ\n' + ROW[:-22] + b'%21d\n' % (1 << 63),
                 f"line 2, column freeze_protection_stage: '{1 << 63:21d}' is beyond 64 bits")):
            with self.subTest(data=data):
                self.assertEqual(self.refused(files.read_rows, data), f'FILE: {said}')

    def test_answers(self):
        for data, said in (
                (ANSWER[:-1], 'line 1: the last newline is missing'),
                (ANSWER + ANSWER[1:], 'line 2: 104 bytes where 105 stand in 5 columns'),
                (b'%21d\n' % 0, 'line 1, column status: 0 with 0 outputs'),
                (b'%21d\n' % 7, 'line 1, column status: 7 with 0 outputs'),
                (b'%21d\n' % 4, 'line 1, column status: 4 with 0 outputs'),
                (b'%21d\n' % 11, 'line 1, column status: 11 with 0 outputs'),
                (b'%21d' % 3 + ANSWER[21:], 'line 1, column status: 3 with 4 outputs'),
                (ANSWER[:42] + b'%21d' % 2 + ANSWER[63:],
                 f"line 1, column minimum_outdoor_air_loop_enabled: '{2:21d}' is not 0 or 1")):
            with self.subTest(data=data):
                self.assertEqual(self.refused(files.read_answers, 'econ', data), f'FILE: {said}')
        for rows, answers, said in (
                (b'econ\n' + ROW, ANSWER * 2, 'FILE: 2 answers to the 1 rows of ROWS'),
                (b'econ\n' + ROW, b'%21d\n' % 5, 'FILE: line 1: status 5, but line 2 of ROWS gets 0'),
                (b'econ\nx\n', ANSWER, 'FILE: line 1: status 0, but line 2 of ROWS gets 5'),
                (b'econ\n' + ROW, b'%21d\n' % 6, 'FILE: line 1: status 6, but line 2 of ROWS gets 0'),
                (b'econ\n' + b'%21d' % NAN + ROW[21:], ANSWER, 'FILE: line 1: status 0, but line 2 of ROWS gets 1')):
            self.assertEqual(self.refused(files.played, rows, 'ROWS', answers), said)

    def test_answers_to_alarms(self):
        """11 is due where an alarm does not fit a signed byte, after 3 and before 4."""
        played = (5.0, -128), (4.0, 128), (6.0, 128), (6.0, -129), (6.0, 127)
        rows = files.write_rows('relief', [[time, 1, 1, 18.0, 0, 0, 0, alarm, 0, 0, 0, 0] for time, alarm in played])
        answers = [b'%21d' % 0 * 10 + b'\n', *(b'%21d\n' % status for status in (3, 11, 11, 4))]
        files.played(rows, 'ROWS', b''.join(answers), 'FILE')
        for line, status, due in ((2, 11, 3), (3, 0, 11), (4, 4, 11), (5, 11, 0)):
            wrong = b'%21d\n' % status if status else answers[0]
            said = self.refused(files.played, rows, 'ROWS', b''.join([*answers[:line - 1], wrong, *answers[line:]]))
            self.assertEqual(said, f'FILE: line {line}: status {status}, but line {line + 1} of ROWS gets {due}')

    def test_the_command_says_so_and_writes_nothing(self):
        data = f'{HEAD}\n{GOOD}\n{cell(TEMPERATURE, "1_0")}\n'.encode()
        said = f"standard input: line 3, column {TEMPERATURE}: '1_0' is not a number\n"
        self.assertEqual(table('to-rows', 'econ', data=data), (1, b'', said))
        with tempfile.TemporaryDirectory() as folder:
            out, source = os.path.join(folder, 'out'), os.path.join(folder, 'source')
            with open(source, 'wb') as file:
                file.write(data)
            for before in (None, b'as it was'):
                if before:
                    with open(out, 'wb') as file:
                        file.write(before)
                said = f"{source}: line 3, column {TEMPERATURE}: '1_0' is not a number\n"
                self.assertEqual(table('to-rows', 'econ', source, '-o', out), (1, b'', said))
                self.assertEqual(sorted(os.listdir(folder)), ['out', 'source'] if before else ['source'])
            with open(out, 'rb') as file:
                self.assertEqual(file.read(), b'as it was')
            made = files.rows_csv('econ', rows_of('econ', 1, 3))
            self.assertEqual(table('to-rows', 'econ', '-o', out, data=made), (0, b'', ''))
            self.assertEqual(sorted(os.listdir(folder)), ['out', 'source'])
            with open(out, 'rb') as file:
                self.assertEqual(file.read(), files.write_rows('econ', rows_of('econ', 1, 3)))
            self.assertEqual(table('to-rows', 'econ', os.path.join(folder, 'none'))[0], 1)
            status, _, said = table('to-rows', 'econ', '-o', os.path.join(folder, 'none', 'out'), data=made)
            self.assertEqual((status, said), (1, f"tools/table: [Errno 2] No such file or directory: '{folder}/none/out'\n"))
            status, _, said = table('answers', 'freeze', '--rows', out, data=b'%21d\n' % 1 * 3)
            self.assertEqual((status, said), (1, f'{out}: line 1: econ where freeze is asked for\n'))
        self.assertEqual(table('to-rows', 'frieze')[0], 2)
        self.assertEqual(table('frieze')[0], 2)

    def test_a_link_and_a_pipe_stay(self):
        with tempfile.TemporaryDirectory() as folder:
            link, pipe = os.path.join(folder, 'link'), os.path.join(folder, 'pipe')
            os.symlink('out', link)
            os.mkfifo(pipe)
            reader = os.open(pipe, os.O_RDONLY | os.O_NONBLOCK)
            try:
                for path in (link, pipe):
                    self.assertEqual(table('from-rows', '-o', path, data=b'econ\n'), (0, b'', ''))
                self.assertEqual(os.read(reader, 10000).decode(), HEAD + '\n')
            finally:
                os.close(reader)
            self.assertTrue(os.path.islink(link))
            with open(os.path.join(folder, 'out')) as file:
                self.assertEqual(file.read(), HEAD + '\n')
