"""One field, as a CSV cell and as a column of a row line (document 01, 'Row lines').

The names, forms and order of the fields stand in columns.py. A form is

    f   a float     cell: a number as in JSON, or nan, inf, -inf       column: its 64-bit pattern
    b   a yes or no cell: 1 or 0                                       column: 1 or 0
    i   an integer  cell: as the column                                column: from -2^63 to 2^63 - 1

A number as in JSON has ASCII digits only, no plus before it, no space, no underscore, no needless zero
before it, and a digit on both sides of its point: 0.5, -12, 1e-05, 2.5E+3. It is read as the double
nearest to it; one beyond the largest double is refused. A float is written with the fewest
significant digits that read back to the same pattern. Every NaN is `nan`, and `nan` is one pattern.
"""

import math
import re
import struct

from tables.columns import WIDTH

NAN = 9221120237041090560

NUMBER = re.compile(r'-?(0|[1-9][0-9]*)(\.[0-9]+)?([eE][+-]?[0-9]+)?')
INTEGER = re.compile(r'0|-?[1-9][0-9]{0,18}')
COLUMN = re.compile(rb' *(0|-?[1-9][0-9]*)')
LEAST, GREATEST = -1 << 63, (1 << 63) - 1


def bits(value):
    """The pattern of a float."""
    return struct.unpack('<Q', struct.pack('<d', value))[0]


def number(pattern):
    """The float of a pattern."""
    return struct.unpack('<d', struct.pack('<Q', pattern))[0]


def from_cell(text, form):
    """The value of a cell. ValueError says what is wrong with it."""
    if form == 'f':
        if text in ('nan', 'inf', '-inf'):
            return float(text)
        if not NUMBER.fullmatch(text):
            raise ValueError('is not a number')
        value = float(text)
        if math.isinf(value):
            raise ValueError('is beyond the largest double')
        return value
    if form == 'b':
        if text not in ('0', '1'):
            raise ValueError('is not 0 or 1')
        return int(text)
    if not INTEGER.fullmatch(text):
        beyond = re.fullmatch('-?[1-9][0-9]{19,}', text)
        raise ValueError('is beyond 64 bits' if beyond else 'is not a whole number')
    if not LEAST <= int(text) <= GREATEST:
        raise ValueError('is beyond 64 bits')
    return int(text)


def to_cell(value, form):
    return repr(value) if form == 'f' else str(value)


def from_column(text, form):
    """The value of a column, 21 bytes. ValueError says what is wrong with it."""
    if not COLUMN.fullmatch(text):
        raise ValueError('is not a number at the right end of its column')
    value = int(text)
    if form == 'f':
        if not 0 <= value < 1 << 64:
            raise ValueError('is not a 64-bit pattern')
        return number(value)
    if form == 'b' and value not in (0, 1):
        raise ValueError('is not 0 or 1')
    if not LEAST <= value <= GREATEST:
        raise ValueError('is beyond 64 bits')
    return value


def to_column(value, form):
    if form == 'f':
        value = NAN if math.isnan(value) else bits(value)
    return b'%*d' % (WIDTH, value)
