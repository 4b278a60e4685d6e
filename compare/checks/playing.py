"""Plays the cases of document 01, and those of the start in which stage 2 keeps to its hour."""

import math

import comparing
from checks.cases import CASES, DEFAULTS, KEEP_HOUR_CASES, NAMES
from checks.report import answers, check, expect, statuses
from tables.columns import ANSWERS, ROWS
from tables.files import write_rows


def value(word):
    return eval(word, {'nan': math.nan, 'inf': math.inf})


def table(kind, text):
    """The rows of a table, and for each what its answer must hold."""
    head, *lines = [line.split('|') for line in text.strip().splitlines()]
    fields, outputs = ([NAMES[kind].get(name, name) for name in part.split()] for part in head)
    rows, expected = [], []
    for left, right in lines:
        named = DEFAULTS[kind] | dict(zip(fields, map(value, left.split()), strict=True))
        rows.append(named)
        looked_at = zip(outputs, right.split(), strict=True)
        expected.append({'status': 0} | {name: value(word) for name, word in looked_at if word != '-'})
    return rows, expected


def row_file(kind, rows):
    return write_rows(kind, [[row[name] for name, _ in ROWS[kind]] for row in rows])


def records(kind, text):
    """Each answer line as a record."""
    return [{name: comparing.read(column, form)
             for column, (name, form) in zip(comparing.columns(line), ANSWERS[kind])}
            for line in text.splitlines()]


def check_case(name, kind, text, *words):
    """A table, played by the reference that is called with these words."""
    rows, expected = table(kind, text)
    got = records(kind, answers(row_file(kind, rows), *words))
    faults = [] if len(got) == len(rows) else [f'{len(got)} answers to {len(rows)} rows']
    for row, (wanted, answer) in enumerate(zip(expected, got)):
        faults += [f'row {row}: {output} is {answer.get(output)!r}, expected {wanted[output]!r}'
                   for output in wanted if answer.get(output) != wanted[output]]
    check(name, '; '.join(faults))


def check_cases():
    for name, kind, text in CASES:
        check_case(name, kind, text)
    for name, text in KEEP_HOUR_CASES:
        check_case(f'{comparing.KEEP_HOUR}: {name}', 'freeze', text, comparing.KEEP_HOUR)
    check_f7()
    check_r5()
    check_alarms_in_a_full_window()


def check_f7():
    """Stage 3 in rows 60 s apart, with the loop's sum worked beside it."""
    rows = [DEFAULTS['freeze'] | {'time': 60.0 * row, 'supply_air_temperature': 273.0,
                                  'mixed_air_temperature': 300.0} for row in range(200)]
    got = [answer['heating_coil_command'] for answer in records('freeze', answers(row_file('freeze', rows)))]
    error, total, sums, expected = 300.15 - 300.0, 0.0, [], []
    for row in range(200):
        unlimited = error + total
        limited = unlimited if math.isnan(unlimited) else min(max(unlimited, 0.0), 1.0)
        expected.append(limited if row >= 5 else DEFAULTS['freeze']['heating_coil'])
        sums.append(total)
        total += 2.0 * (error - (unlimited - limited) / 0.9) * (60.0 if row else 0.0)
    shown = [str(heat) for heat in got]
    expect('F7 the loop by turns at its limits, then NaN', shown, [str(heat) for heat in expected])
    check('F7 its sum grows 132-fold a row, with alternate signs',
          '' if all(-132.4 < after / before < -132.3 for before, after in zip(sums[10:140], sums[11:141]))
          else str(sums))
    check('F7 it overflows to NaN at last', '' if shown[100] != 'nan' and shown[-1] == 'nan' else shown)


# Times that fill the window of 512 points.
HALF_SECONDS = [row / 2 for row in range(512)]


def window(times, *more):
    """The statuses of relief rows at these times, and then of more, each by its time and the alarm of fan 4."""
    rows = [{'time': time} for time in times] + [{'time': time, 'alarm_4': alarm} for time, alarm in more]
    return statuses(row_file('relief', [DEFAULTS['relief'] | row for row in rows]))


def check_r5():
    expect('R5 512 are accepted, 256 and 300 are refused, 300.5 is taken',
           window(HALF_SECONDS + [256, 300, 300.5]), [0] * 512 + [4, 4, 0])
    expect('R5 one step before 300.5 is refused',
           window(HALF_SECONDS + [math.nextafter(300.5, 0), 300.5, 300.75]), [0] * 512 + [4, 0, 4])
    expect('R5 the last time is taken in a full window',
           window(HALF_SECONDS + [255.5, 255.5, 255.75]), [0] * 514 + [4])


def check_alarms_in_a_full_window():
    expect('11 precedes 4',
           window(HALF_SECONDS, (256, 128), (256, 127), (300, -129), (300, -128)), [0] * 512 + [11, 4, 11, 4])
    expect('a row refused with 11 takes no place in the window',
           window(HALF_SECONDS[:-1], (255.25, 128), (255.5, 127), (256, 127)), [0] * 511 + [11, 0, 4])
    expect('nor does it make room there',
           window(HALF_SECONDS, (300.5, 128), (300, 127), (300.5, 127)), [0] * 512 + [11, 4, 0])
