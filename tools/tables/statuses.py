"""The statuses that begin an answer: the one table of them, in the order in which they are tried.

A status is a line here: its number, the kinds of row files it is given in, and what it means. Two kinds are no row
files: a row that is written, and one that is offered to a board. A status is a whole number like any other.
docs/ROW_FILES.md shows the table, and a test holds the page to it.
"""

import enum

from tables.columns import KINDS


class Status(enum.IntEnum):
    def __new__(cls, number, kinds, meaning):
        status = int.__new__(cls, number)
        status._value_, status.kinds, status.meaning = number, kinds, meaning
        return status

    NO_KIND = 6, KINDS, ('the first line names no kind, or has no newline, or the input is empty; nothing after it'
                         ' is read')
    BADLY_FORMED = 5, KINDS, ('the line has another length, a column is badly formed or out of range, or the last'
                              ' newline is missing')
    NOT_FINITE = 1, KINDS, 'a number, the time included, is a NaN or infinite'
    SIGNED_TIME = 2, KINDS, "the time's sign bit is set, as in -0.0"
    EARLIER = 3, KINDS, 'the time is below that of the last accepted row; an equal time is taken'
    ALARM_OUT_OF_RANGE = 11, ['relief'], 'an alarm is below -128 or above 127'
    WINDOW_FULL = 4, ['relief'], 'the window, with old points dropped, holds 512, and the last is of another time'
    NO_ROOM = 10, ['writing'], 'what is left of the buffer is shorter than the line and its newline'
    NO_UNIT = 12, ['board'], 'the row is offered to a unit above 5'
    LINE_FULL = 13, ['board'], "the unit's waiting line already holds 4 rows"
    ACCEPTED = 0, KINDS, 'the row is accepted, and its commands follow'


def given_in(kind):
    """The statuses that an answer of this kind can have."""
    return [status for status in Status if kind in status.kinds]


def whose(status):
    """The kinds of a status in words."""
    return 'all' if status.kinds == KINDS else ', '.join(status.kinds)
