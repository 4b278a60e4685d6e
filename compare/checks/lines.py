"""The reference's row reader: document 01, 'Row lines' and the refusals 5 and 6."""

from checks.report import answers, expect, statuses
from comparing import KEEP_HOUR
from tables.columns import KINDS

KIND = b'econ\n'
ROW = (b'                    0                    0                    0                    0'
       b'  4643211215818981376                    1                    1                    0\n')
ANSWER = (b'                    0                    0                    1                    0'
          b'  4607182418800017408\n')
FIVE = b'                    5\n'
SIX = b'                    6\n'

FIRST_LINES = [
    ('empty input', b''),
    ('an empty first line', b'\n' + KIND + ROW),
    ('a first line with no newline', b'econ'),
    ('a space after the kind', b'econ \n' + ROW),
    ('a space before the kind', b' econ\n' + ROW),
    ('a carriage return after the kind', b'econ\r\n' + ROW),
    ('a capital letter', b'Econ\n' + ROW),
    ('a NUL after the kind', b'econ\0\n' + ROW),
    ('a letter too few', b'eco\n' + ROW),
    ('another word', b'fan\n' + ROW),
    ('a long first line', b'e' * 100_000 + b'\n' + KIND + ROW),
]


def column(index, number):
    """The row with another number in one column."""
    return ROW[:21 * index] + number.rjust(21) + ROW[21 * index + 21:]


BADLY_FORMED = [
    ('a short line', ROW[1:]),
    ('a long line', b' ' + ROW),
    ('a column too few', ROW[21:]),
    ('a column too many', b'                    0' + ROW),
    ('an empty line', b'\n'),
    ('a very long line', ROW[:-1] * 10_000 + b'\n'),
    ('a carriage return', ROW[:-1] + b'\r\n'),
    ('a carriage return for the last digit', ROW[:-2] + b'\r\n'),
    ('a tab', ROW.replace(b' ', b'\t', 1)),
    ('a NUL byte', ROW.replace(b' ', b'\0', 1)),
    ('a blank column', column(1, b'')),
    ('a leading zero', column(1, b'01')),
    ('two zeros', column(1, b'00')),
    ('a plus sign', column(1, b'+1')),
    ('a minus in a float', column(1, b'-1')),
    ('a minus zero in a float', column(1, b'-0')),
    ('a letter', column(1, b'1a')),
    ('a decimal point', column(1, b'1.5')),
    ('a byte above 127', column(1, b'\xb1')),
    ('the byte before the digits', column(1, b'/')),
    ('the byte after the digits', column(1, b':')),
    ('a space after a digit', column(1, b'1 ')),
    ('a space inside a number', column(1, b'1 1')),
    ('2^64', column(1, b'18446744073709551616')),
    ('a number of 21 digits', column(1, b'100000000000000000000')),
    ('a yes or no of 2', column(5, b'2')),
    ('a yes or no of 01', column(5, b'01')),
    ('a yes or no of 10', column(5, b'10')),
    ('a minus in a yes or no', column(5, b'-1')),
    ('a minus zero in an integer', column(6, b'-0')),
    ('a minus alone', column(6, b'-')),
    ('a minus and a space', column(6, b'- 1')),
    ('two minuses', column(6, b'--1')),
    ('a minus after a digit', column(6, b'1-')),
    ('a leading zero after a minus', column(6, b'-01')),
    ('2^63 in an integer', column(6, b'9223372036854775808')),
    ('one below -2^63', column(6, b'-9223372036854775809')),
    ('2^64 in an integer', column(6, b'18446744073709551616')),
]


def check_lines():
    expect("the worked example of 'Row lines'", answers(KIND + ROW), ANSWER)
    for name, text in FIRST_LINES:
        expect(f'6 for {name}', answers(text), SIX)
    for kind in KINDS:
        expect(f'nothing for {kind} alone', answers(kind.encode() + b'\n'), b'')
    for name, text in FIRST_LINES:
        expect(f'{KEEP_HOUR}: 6 for {name}', answers(text, KEEP_HOUR), SIX)
    expect(f'{KEEP_HOUR}: nothing for freeze alone', answers(b'freeze\n', KEEP_HOUR), b'')
    expect(f'{KEEP_HOUR}: economizer rows as without', answers(KIND + ROW, KEEP_HOUR), ANSWER)
    for name, line in BADLY_FORMED:
        expect(f'5 for {name}, and the next line is read', answers(KIND + line + ROW), FIVE + ANSWER)
    expect('5 for a missing last newline', answers(KIND + ROW + ROW[:-1]), ANSWER + FIVE)
    expect('5 for bytes after the last newline', answers(KIND + ROW + b' '), ANSWER + FIVE)

    nan = column(0, b'9221120237041090560')
    expect('5 precedes 1', statuses(KIND + nan[:-1] + b' \n' + nan), [5, 1])
    expect('1 for the largest pattern, a NaN', statuses(KIND + column(1, b'18446744073709551615')), [1])
    for bound in (b'9223372036854775807', b'-9223372036854775808', b'-1'):
        expect(f'{bound.decode()} is taken in an integer', statuses(KIND + column(7, bound)), [0])
