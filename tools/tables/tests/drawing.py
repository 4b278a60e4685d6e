"""The timeline: well-formed XML, the right steps, bands and marks, the same bytes each time."""

import os
import re
import tempfile
import unittest
import xml.etree.ElementTree as tree

from tables import files, timeline
from tables.columns import ANSWERS, ROWS
from tables.tests.common import table

SVG = '{http://www.w3.org/2000/svg}'


def row(time, supply, reset=0):
    named = dict(time=float(time), supply_air_temperature=float(supply), software_reset=reset)
    return [named.get(name, 0 if form == 'b' else 0.5) for name, form in ROWS['freeze']]


def answer(stage):
    return 0, [stage if name == 'freeze_protection_stage' else 0.5 if form == 'f' else 0
               for name, form in ANSWERS['freeze'][1:]]


ROWS_PLAYED = [row(0, 273), row(300, 273), row(360, 273, 1), row(100, 290), None, row(420, 281), row(7200, 281.5)]
ANSWERS_PLAYED = [answer(0), answer(3), answer(2), (3, None), (5, None), answer(2), answer(0)]


class Drawing(unittest.TestCase):
    def draw(self, rows, answers, *title):
        return tree.fromstring(timeline.draw(rows, answers, *title))

    def test_a_known_file(self):
        drawn = self.draw(ROWS_PLAYED, ANSWERS_PLAYED)
        path = drawn.find(f'.//{SVG}path[@id="stage"]').get('d')
        self.assertEqual(len(re.findall('V', path)), 3)     # 0, 3, 2, 0
        self.assertEqual(len(re.findall('H', path)), 4)
        heights = [float(y) for y in re.findall(r'[MV](?:[\d.]+ )?([\d.]+)', path)]
        self.assertEqual(heights[0], heights[3])
        self.assertTrue(heights[1] < heights[2] < heights[3])
        classes = [part.get('class') for part in drawn.iter() if part.get('class')]
        self.assertEqual([name for name in classes if name.startswith('stage-')], ['stage-3', 'stage-2'])
        self.assertEqual(classes.count('refused'), 1 + 1)   # both stand at 360 s; one is the legend's
        self.assertEqual(classes.count('reset'), 1 + 1)
        self.assertEqual(classes.count('threshold'), 4)
        texts = [part.text for part in drawn.iter(f'{SVG}text')]
        for text in ('274.15 K: stage 3 (5 min)', '276.45 K: stage 2 (5 min), 3 (15 min)', '277.55 K: stage 1 (5 min)',
                     '280.15 K: recovery (5 min)', 'refused row (2)', 'reset (1)', 'time in hours', 'stage 0', '0.5', '2'):
            self.assertIn(text, texts)
        supply = drawn.find(f'.//{SVG}path[@id="supply"]').get('d')
        self.assertEqual(len(supply.split('L')), 5)

    def test_text_is_escaped(self):
        title = 'unit <7> & "north"\x00\x1b\ud800\uffff'
        drawn = self.draw(ROWS_PLAYED, ANSWERS_PLAYED, title)
        self.assertEqual(drawn.find(f'{SVG}title').text, 'unit <7> & "north"')

    def test_odd_files_are_drawn(self):
        for rows in ([], [row(0, 277)], [row(5, 277), row(5, 273)], [row(0, 277), row(1e-300, 277)], [row(1e300, 277)],
                     [row(0, -1e300), row(1.7e308, 1e300)], [row(1e15, 277), row(1e15 + 2, 277)], [row(0, 277), row(1e7, 277)]):
            with self.subTest(rows=rows):
                drawn = self.draw(rows, [answer(index % 4) for index in range(len(rows))])
                for part in drawn.iter(f'{SVG}path'):
                    numbers = [float(word) for word in re.findall(r'[^MLHVmlhz ]+', part.get('d'))]
                    self.assertTrue(all(-20 <= each <= 1000 for each in numbers), part.get('d'))
        self.draw([None, row('nan', 277)], [(5, None), (1, None)])

    def test_late_times_have_their_hours_from_the_first_row(self):
        drawn = self.draw([row(1.7e9, 281), row(1.7e9 + 7200, 281)], [answer(0)] * 2)
        texts = [part.text for part in drawn.iter(f'{SVG}text')]
        for text in ('0', '0.5', '2', 'time in hours from 1700000000.0 s on'):
            self.assertIn(text, texts)

    def test_long_files_stay_small(self):
        rows = [row(60 * n, 270 + n * 7919 % 150 / 10) for n in range(20000)]
        drawn = timeline.draw(rows, [answer(0)] * len(rows))
        self.assertLess(len(drawn), 60000)
        heights = re.findall(r'[ML][\d.]+ ([\d.]+)', re.search('id="supply" d="([^"]*)"', drawn.decode()).group(1))
        self.assertGreater(len(heights), 2000)

    def test_the_command(self):
        rows, answers = (files.write_rows('freeze', [each for each in ROWS_PLAYED if each]),
                         b''.join(b'%21d\n' % status if values is None else self.line(values)
                                  for (status, values), each in zip(ANSWERS_PLAYED, ROWS_PLAYED) if each))
        with tempfile.TemporaryDirectory() as folder:
            for name, data in (('rows', rows), ('answers', answers)):
                with open(os.path.join(folder, name), 'wb') as file:
                    file.write(data)
            paths = [os.path.join(folder, name) for name in ('rows', 'answers')]
            first, second = table('timeline', *paths), table('timeline', *paths)
            self.assertEqual(first, second)
            self.assertEqual(first[0], 0, first[2])
            self.assertEqual(tree.fromstring(first[1]).tag, f'{SVG}svg')
            with open(paths[0], 'wb') as file:
                file.write(b'econ\n')
            with open(paths[1], 'wb') as file:
                file.write(b'')
            self.assertEqual(table('timeline', *paths), (1, b'', f'{paths[0]}: line 1: econ where freeze is asked for\n'))

    def line(self, values):
        columns = (files.to_column(value, form) for value, (_, form) in zip(values, ANSWERS['freeze'][1:]))
        return files.to_column(0, 'i') + b''.join(columns) + b'\n'
