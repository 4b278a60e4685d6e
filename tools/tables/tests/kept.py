"""The files that are kept: the winters, the tables of docs/ANSWERS.md, and the statuses and columns of docs/ROW_FILES.md."""

import csv
import io
import re
import unittest

from tables import files, timeline
from tables.columns import ANSWERS, ROWS, WORDS
from tables.statuses import Status, whose
from tables.stored import stored, words
from tables.tests.common import needs_reference, play, read

WINTERS = {'cold-snap.csv': 'freeze', 'relief-hour.csv': 'relief', 'warm-spell.csv': 'econ'}


def joined(rows, answers):
    """Each row with its answer, by column name."""
    text = files.joined_csv(*files.played(rows, 'rows', answers, 'answers')).decode()
    return list(csv.DictReader(io.StringIO(text)))


def cells(text):
    """The cells of a table of a page: its head, and the lines below the rule."""
    head, _, *body = [[cell.strip() for cell in line.strip('|').split('|')] for line in text.splitlines()]
    return head, body


def turns(lines, name):
    """The values of a column one after another, each once, of accepted rows."""
    found = []
    for line in lines:
        if line['status'] == '0' and found[-1:] != [line[name]]:
            found.append(line[name])
    return found


class Winters(unittest.TestCase):
    def played(self, name):
        needs_reference()
        kind = WINTERS[name]
        rows = files.write_rows(kind, files.read_csv(kind, read('winters', name), name))
        return rows, play(rows)

    def test_the_tables_are_written_as_the_tool_writes_them(self):
        for name, kind in WINTERS.items():
            data = read('winters', name)
            self.assertEqual(files.rows_csv(kind, files.read_csv(kind, data, name)), data)

    def test_the_cold_snap(self):
        rows, answers = self.played('cold-snap.csv')
        lines = joined(rows, answers)
        self.assertEqual(''.join(turns(lines, 'out_freeze_protection_stage')), '01012101232')
        self.assertEqual([line['status'] for line in lines if line['status'] != '0'], ['1', '3'])
        reset = [at for at, line in enumerate(lines) if line['software_reset'] == '1']
        self.assertEqual([lines[at + by]['out_freeze_protection_stage'] for at in reset for by in (-1, 0)], ['3', '2'])
        drawn = timeline.draw(*files.played(rows, 'rows', answers, 'answers')[1:])
        self.assertEqual(drawn, read('winters', 'cold-snap.svg'))

    def test_the_relief_hour(self):
        lines = joined(*self.played('relief-hour.csv'))
        on = [''.join(str(fan) for fan in (1, 2, 3, 4) if line[f'out_fan_speed_{fan}'] != '0.0') for line in lines]
        self.assertEqual([each for each, before in zip(on[1:], on) if each != before], ['3', '13', '123', '12', '2', ''])
        shut = [line['time'] for line in lines if line['alarm_2'] == '2' and line['out_damper_2'] == '0.0']
        self.assertEqual(shut, ['360.0', '420.0', '480.0'])
        self.assertTrue(all(line['out_damper_4'] == '1.0' for line in lines if line['alarm_4'] == '3'))

    def test_the_warm_spell(self):
        lines = {line['time']: line['out_outdoor_damper_command'] for line in joined(*self.played('warm-spell.csv'))}
        for time, command in (('570.0', '0.0'), ('600.0', '1.0'), ('915.0', '1.0'), ('930.0', '0.0'), ('1140.0', '1.0'),
                              ('1380.0', '0.0'), ('1620.0', '0.0'), ('2040.0', '1.0'), ('2100.0', '0.0')):
            self.assertEqual(lines[time], command, time)


class Answers(unittest.TestCase):
    def test_every_list_is_shown_as_it_is(self):
        """A table of docs/ANSWERS.md after the name of a row file holds columns of its rows and answers. The page
        shows every stored file whose name begins with no kind, and says how it is played."""
        page = read('docs', 'ANSWERS.md').decode()
        shown = re.findall(r'tools/play (?:--(\S+) )?played/(\S+)\.rows\n\n((?:\|.*\n)+)', page)
        lists = {name: played for name, *played in stored() if name.split('_')[0] not in ROWS}
        self.assertEqual(sorted(name for _, name, _ in shown), list(lists))
        for manner, name, text in shown:
            with self.subTest(name=name):
                self.assertEqual([manner] if manner else [], words(name))
                head, body = cells(text)
                lines = joined(*lists[name])
                self.assertEqual(body, [[line[column] for column in head] for line in lines])
                kind = files.read_rows(lists[name][0], name)[0]
                self.assertLessEqual({column for column, _ in ROWS[kind] if len({line[column] for line in lines}) > 1}, set(head))


class RowFiles(unittest.TestCase):
    def test_the_columns_are_those_of_the_tool(self):
        """docs/ROW_FILES.md has, under each kind, the columns of a row and of its answer in order."""
        page = read('docs', 'ROW_FILES.md').decode()
        shown = re.findall(r'`(\w+)`\n\nA row:\n\n((?:\|.*\n)+)\nIts answer:\n\n((?:\|.*\n)+)', page)
        self.assertEqual([kind for kind, _, _ in shown], list(ROWS))
        for kind, *texts in shown:
            for text, columns in zip(texts, (ROWS[kind], ANSWERS[kind])):
                self.assertEqual(cells(text)[1], [[name, WORDS[form]] for name, form in columns])

    def test_the_statuses_are_those_of_the_tool(self):
        """Its table of statuses is the tool's, in order and word for word."""
        page = read('docs', 'ROW_FILES.md').decode()
        shown, = re.findall(r'## Statuses\n\n[^|]*((?:\|.*\n)+)', page)
        self.assertEqual(cells(shown)[1], [[str(int(each)), whose(each), each.meaning] for each in Status])
