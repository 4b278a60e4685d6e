"""Whole files: CSV tables, row files, and the output of the program `rows`.

Rows are lists of values in the record's order. What is wrong with a file is told in full by Refused,
with the file's line numbers counted from 1, and nothing of a refused file is handed on.
"""

import csv
import io
import math

from tables.columns import ANSWERS, KINDS, ROWS, WIDTH
from tables.fields import from_cell, from_column, to_cell, to_column
from tables.statuses import Status, given_in

SHOWN = 20   # faults of a file that are told one by one


class Refused(Exception):
    """A file that cannot be taken, and its faults."""

    def __init__(self, name, faults):
        lines = [f'{name}: {fault}' for fault in faults[:SHOWN]]
        if len(faults) > SHOWN:
            lines.append(f'{name}: and {len(faults) - SHOWN} more')
        super().__init__('\n'.join(lines))


def told(place, text, error):
    return f'{place}: {text if len(text) <= 40 else text[:40] + ".."!r} {error}'


# ---- CSV

def read_csv(kind, data, name):
    """The rows of a CSV table: UTF-8, cells apart by commas, a first line with the names of the kind's
    columns in any order. Lines end with LF or CR LF; quotes round a cell and a byte order mark at the
    front, which spreadsheets write, are taken."""
    try:
        text = data.decode('utf-8-sig')
    except UnicodeDecodeError as error:
        line = data.count(b'\n', 0, error.start) + 1
        raise Refused(name, [f'line {line}: not UTF-8']) from None
    reader, line = csv.reader(io.StringIO(text, newline=''), strict=True), 1
    try:
        head = next(reader, [])
        places = columns_of(kind, head, name)
        rows, faults = [], []
        line = reader.line_num + 1         # where the next row begins: a quoted cell may hold newlines
        for cells in reader:
            at, line = line, reader.line_num + 1
            if len(cells) != len(head):
                number = 'no' if not cells else len(cells)
                faults.append(f'line {at}: {number} cells for {len(head)} columns')
                continue
            row = []
            for column, form, place in places:
                try:
                    row.append(from_cell(cells[place], form))
                except ValueError as error:
                    faults.append(told(f'line {at}, column {column}', cells[place], error))
            rows.append(row)
    except csv.Error as error:
        end = 'unexpected end' in str(error) or 'field limit' in str(error)
        raise Refused(name, [f'line {line}: {"a cell that does not end, is a quote left open?" if end else error}']) from None
    if faults:
        raise Refused(name, faults)
    return rows


def columns_of(kind, head, name):
    """Name, form and place of each column of the kind in this first line."""
    known = [column for column, _ in ROWS[kind]]
    faults = [f'line 1, column {column}: stands there {head.count(column)} times'
              for column in known if head.count(column) > 1]
    faults += [told('line 1', column, f'is not a column of {kind}') for column in head if column not in known]
    faults += [f'line 1, column {column}: missing' for column in known if column not in head]
    if faults:
        raise Refused(name, faults)
    return [(column, form, head.index(column)) for column, form in ROWS[kind]]


def csv_text(head, lines):
    return ''.join(','.join(cells) + '\n' for cells in [head, *lines]).encode()


def names(table):
    return [name for name, _ in table]


def cells(table, values):
    """The cells of a row, all empty where there is none."""
    if values is None:
        return [''] * len(table)
    return [to_cell(value, form) for value, (_, form) in zip(values, table, strict=True)]


def rows_csv(kind, rows):
    return csv_text(names(ROWS[kind]), [cells(ROWS[kind], row) for row in rows])


def answers_csv(kind, answers):
    table = ANSWERS[kind]
    return csv_text(names(table), [answer_cells(table, answer) for answer in answers])


def answer_cells(table, answer):
    status, values = answer
    return [str(status), *cells(table[1:], values)]


def joined_csv(kind, rows, answers):
    """Each row and its answer. The names of outputs get `out_` before them, since some are names of
    fields too. A damaged line has no fields to show."""
    table = ANSWERS[kind]
    head = [*names(ROWS[kind]), 'status', *('out_' + name for name in names(table[1:]))]
    return csv_text(head, [cells(ROWS[kind], row) + answer_cells(table, answer)
                           for row, answer in zip(rows, answers, strict=True)])


# ---- row files

def write_rows(kind, rows):
    lines = [b''.join(to_column(value, form) for value, (_, form) in zip(row, ROWS[kind], strict=True))
             for row in rows]
    return b''.join(line + b'\n' for line in [kind.encode(), *lines])


def read_rows(data, name, damaged=False):
    """The kind and the rows of a row file. Where damaged lines are taken, which `rows` answers with 5,
    each gives None for its row."""
    lines, rest = split(data)
    first = lines.pop(0) if lines else rest
    kind = first.decode('ascii', 'replace')
    if kind not in KINDS or data == first:
        raise Refused(name, [f'line 1: not one of {", ".join(KINDS)} and a newline'])
    rows, faults = [], []
    for line, text in enumerate(lines, 2):
        rows.append(read_line(ROWS[kind], text, f'line {line}', faults))
    if rest:
        rows.append(None)
        faults.append(f'line {len(lines) + 2}: the last newline is missing')
    if faults and not damaged:
        raise Refused(name, faults)
    return kind, rows


def split(data):
    """The lines that end with a newline, and the bytes after the last one."""
    *lines, rest = data.split(b'\n')
    return lines, rest


def read_line(table, text, place, faults):
    """The values of a line, or None and its faults."""
    if len(text) != WIDTH * len(table):
        faults.append(f'{place}: {len(text)} bytes where {WIDTH * len(table)} stand in {len(table)} columns')
        return None
    values, before = [], len(faults)
    for at, (column, form) in enumerate(table):
        field = text[WIDTH * at:WIDTH * at + WIDTH]
        try:
            values.append(from_column(field, form))
        except ValueError as error:
            faults.append(told(f'{place}, column {column}', field.decode('ascii', 'backslashreplace'), error))
    return values if len(faults) == before else None


# ---- the output of `rows`

def read_answers(kind, data, name):
    """For each line of the output its status and its values, which are None where the row was refused."""
    lines, rest = split(data)
    answers, faults, known = [], [], given_in(kind)
    for line, text in enumerate(lines, 1):
        table = ANSWERS[kind][:1] if len(text) == WIDTH else ANSWERS[kind]
        values = read_line(table, text, f'line {line}', faults)
        if values is None:
            continue
        status, *values = values
        if status not in known or (status == Status.ACCEPTED) != bool(values):
            faults.append(f'line {line}, column status: {status} with {len(values)} outputs')
        answers.append((status, values or None))
    if rest:
        faults.append(f'line {len(lines) + 1}: the last newline is missing')
    if faults:
        raise Refused(name, faults)
    return answers


def status_of(kind, row, last):
    """The status of a row after an accepted one of the time `last`, wherever the window has room."""
    if not all(map(math.isfinite, row)):
        return Status.NOT_FINITE
    if math.copysign(1.0, row[0]) < 0:
        return Status.SIGNED_TIME
    if last is not None and row[0] < last:
        return Status.EARLIER
    alarms = [value for value, (name, _) in zip(row, ROWS[kind]) if name.startswith('alarm_')]
    return Status.ACCEPTED if all(-128 <= alarm <= 127 for alarm in alarms) else Status.ALARM_OUT_OF_RANGE


def played(rows_data, rows_name, answers_data, answers_name, wanted=None):
    """A row file, of the kind that is wanted, and its answers: the kind, the rows (None for a damaged line) and the answers."""
    kind, rows = read_rows(rows_data, rows_name, damaged=True)
    if wanted not in (None, kind):
        raise Refused(rows_name, [f'line 1: {kind} where {wanted} is asked for'])
    answers = read_answers(kind, answers_data, answers_name)
    if len(rows) != len(answers):
        raise Refused(answers_name, [f'{len(answers)} answers to the {len(rows)} rows of {rows_name}'])
    faults, last = [], None
    for line, (row, (status, _)) in enumerate(zip(rows, answers), 1):
        due = Status.BADLY_FORMED if row is None else status_of(kind, row, last)
        if status != due and not (status == Status.WINDOW_FULL and due == Status.ACCEPTED):
            faults.append(f'line {line}: status {status}, but line {line + 1} of {rows_name} gets {due}')
        if due == status == Status.ACCEPTED:
            last = row[0]
    if faults:
        raise Refused(answers_name, faults)
    return kind, rows, answers
