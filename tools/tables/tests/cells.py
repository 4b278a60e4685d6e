"""One field at a time, and the table of fields against the records of the crates."""

import math
import os
import random
import re
import unittest

from tables.columns import ANSWERS, ROWS
from tables.fields import NAN, bits, from_cell, from_column, number, to_cell, to_column
from tables.tests.common import EDGES, ROOT, pattern

RECORDS = {
    'freeze': ('freeze_protection', 'FreezeRow', 'FreezeCommands'),
    'relief': ('relief_fan_group', 'ReliefRow', 'ReliefCommands'),
    'econ': ('economizer_controller', 'EconomizerRow', 'EconomizerCommands'),
}
FORMS = {'f64': 'f', 'bool': 'b', 'i64': 'i', 'u64': 'i'}


def record(crate, name):
    """The fields of a struct as the crate's types.rt has them, arrays by index."""
    with open(os.path.join(ROOT, 'crates', crate, 'src', 'types.rt'), encoding='utf-8') as file:
        body = re.search(rf'pub struct {name} {{(.*?)}}', file.read(), re.S).group(1)
    fields = []
    for field, kind, count in re.findall(r'pub (\w+): \[?(\w+)(?:; (\d+)\])?,', body):
        names = [f'{field}_{index + 1}' for index in range(int(count))] if count else [field]
        fields += [(each, FORMS[kind]) for each in names]
    return fields


class Cells(unittest.TestCase):
    def test_the_table_has_the_records_fields_in_their_order(self):
        for kind, (crate, row, commands) in RECORDS.items():
            self.assertEqual(ROWS[kind], record(crate, row))
            self.assertEqual(ANSWERS[kind], [('status', 'i'), *record(crate, commands)])

    def test_floats_read_back_to_the_same_bits(self):
        chance = random.Random(1)
        for bit in EDGES + [pattern(chance) for _ in range(20000)]:
            value = number(bit)
            cell = to_cell(value, 'f')
            expected = NAN if math.isnan(value) else bit
            back = from_cell(cell, 'f')
            self.assertEqual(to_column(back, 'f'), b'%21d' % expected, cell)
            self.assertEqual(to_cell(from_column(b'%21d' % bit, 'f'), 'f'), cell)

    def test_how_floats_are_written(self):
        for bit, cell in [(NAN, 'nan'), ((1 << 64) - 1, 'nan'), (0x7ff0000000000001, 'nan'), (0x7ff << 52, 'inf'),
                          (0xfff << 52, '-inf'), (0, '0.0'), (1 << 63, '-0.0'), (1, '5e-324'),
                          (0x7fefffffffffffff, '1.7976931348623157e+308'), (bits(0.1), '0.1'),
                          (bits(277.55), '277.55'), (bits(300.0), '300.0'), (bits(1e16), '1e+16')]:
            self.assertEqual(to_cell(number(bit), 'f'), cell)

    def test_decimals_that_are_read(self):
        for cell, value in [('0', 0.0), ('-0', -0.0), ('-0.0', -0.0), ('12', 12.0), ('277.550', 277.55),
                            ('1e3', 1000.0), ('2.5E+3', 2500.0), ('1e-999', 0.0), ('-1e-400', -0.0),
                            ('9007199254740993', 9007199254740992.0), ('inf', math.inf), ('-inf', -math.inf)]:
            self.assertEqual(bits(from_cell(cell, 'f')), bits(value), cell)

    def test_integers_and_flags(self):
        for cell in ('0', '-1', '9223372036854775807', '-9223372036854775808'):
            self.assertEqual(to_cell(from_cell(cell, 'i'), 'i'), cell)
            self.assertEqual(to_column(from_cell(cell, 'i'), 'i'), cell.rjust(21).encode())
        for cell in ('0', '1'):
            self.assertEqual(to_column(from_cell(cell, 'b'), 'b'), cell.rjust(21).encode())
