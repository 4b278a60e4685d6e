"""The timeline of a freeze file as SVG: the stage above, the supply air temperature below, one axis of hours.

The same rows and answers give the same bytes. A refused row has no command and its time may be no time at all,
so its mark stands at the last accepted row before it.
"""

import math
from xml.sax.saxutils import escape

from tables.columns import ANSWERS, ROWS
from tables.files import Refused
from tables.statuses import Status

TITLE = 'Freeze protection: stage and supply air temperature'

WIDTH, HEIGHT = 1000, 560
LEFT, RIGHT = 70, 755                  # both panels
STAGE_TOP, STAGE_BOTTOM = 84, 224      # stage 3 and stage 0 stand 14 inside
RESETS, REFUSED = 236, 251             # their marks
AIR_TOP, AIR_BOTTOM = 262, 500
COLDEST, WARMEST = 253.15, 313.15      # the temperature panel is never wider than this

STAGES = [('0', '#ffffff'), ('1', '#fdf0c2'), ('2', '#fbcf9d'), ('3', '#f2a7a0')]
THRESHOLDS = [                         # kelvin, what it leads to and after how long, colour
    (280.15, 'recovery (5 min)', '#2f7d4f'),
    (277.55, 'stage 1 (5 min)', '#a07800'),
    (276.45, 'stage 2 (5 min), 3 (15 min)', '#c05a00'),
    (274.15, 'stage 3 (5 min)', '#b3261e'),
]
HOURS = (0.1, 0.25, 0.5, 1, 2, 3, 6, 12, 24)
INK, GREY, AIR = '#222222', '#8a8a8a', '#1f4e8c'

STYLE = f'''text{{font-family:Helvetica,Arial,sans-serif;font-size:12px;fill:{INK}}}
.h{{font-size:17px;font-weight:bold}}.l{{font-size:13px}}.e{{text-anchor:end}}.m{{text-anchor:middle}}
.g{{stroke:{GREY};stroke-opacity:.3}}.f{{fill:none;stroke:{GREY}}}'''


def place(name, table):
    return [column for column, _ in table].index(name)


TIME, SUPPLY, RESET = (place(name, ROWS['freeze'])
                       for name in ('time', 'supply_air_temperature', 'software_reset'))
STAGE = place('freeze_protection_stage', ANSWERS['freeze'][1:])


def short(value):
    """A coordinate, to a tenth."""
    return f'{value:.1f}'.removesuffix('.0')


def printable(text):
    """The text with its markup escaped, and without what XML does not allow."""
    allowed = (c for c in text if c >= ' ' and not '\ud800' <= c <= '\udfff' and c not in '\ufffe\uffff')
    return escape(''.join(allowed))


def label(x, y, text, kind='', colour=None):
    kind = kind and f' class="{kind}"'
    fill = f' style="fill:{colour}"' if colour else ''
    return f'<text x="{short(x)}" y="{short(y)}"{kind}{fill}>{printable(text)}</text>'


def line(x1, y1, x2, y2, rest):
    return f'<path d="M{short(x1)} {short(y1)}L{short(x2)} {short(y2)}" {rest}/>'


def steps(low, high, most, sizes=()):
    """Round numbers from low to high, at most so many of them and one, a step of one of these sizes apart, or
    else of 1, 2 or 5 times a power of ten."""
    least = (high - low) / most
    unit = 10.0 ** math.floor(math.log10(least))
    sizes = sizes if sizes and sizes[0] <= least <= sizes[-1] else [unit * factor for factor in (1, 2, 5, 10)]
    step = next(size for size in sizes if size >= least * (1 - 1e-9))
    first = math.ceil(low / step - 1e-9)
    return [(first + n) * step for n in range(math.floor(high / step + 1e-9) - first + 1)]


def draw(rows, answers, title=TITLE):
    taken, refused, last = [], [], None
    for line, (row, (status, values)) in enumerate(zip(rows, answers, strict=True), 1):
        if status != Status.ACCEPTED:
            refused.append(last)
        elif not 0 <= values[STAGE] <= 3:
            raise Refused('the answers', [f'line {line}: there is no stage {values[STAGE]}'])
        else:
            last = row[TIME]
            taken.append((row[TIME], values[STAGE], row[SUPPLY], row[RESET]))
    start, end = (taken[0][0], taken[-1][0]) if taken else (0.0, 0.0)
    if end - start < 1.0:
        end = start + 3600.0
    if end == start:                   # a time so great that an hour is lost in it
        start = 0.0
    across = lambda time: LEFT + (time - start) / (end - start) * (RIGHT - LEFT)
    parts = [
        f'<svg xmlns="http://www.w3.org/2000/svg" viewBox="0 0 {WIDTH} {HEIGHT}" width="{WIDTH}" height="{HEIGHT}" role="img">',
        f'<title>{printable(title)}</title>',
        f'<style>{STYLE}</style>',
        f'<rect width="{WIDTH}" height="{HEIGHT}" fill="#ffffff"/>',
        label(LEFT, 30, title, 'h'),
        *legend(sum(reset for *_, reset in taken), len(refused)),
        *bands(taken, across),
        *hours(start, end, across),
        *stage_panel(taken, across),
        *marks(taken, refused, start, across),
        *air_panel(taken, across),
        '</svg>',
    ]
    return ('\n'.join(parts) + '\n').encode()


def legend(resets, refused):
    parts, x, y = [], LEFT, 56
    for name, colour in STAGES:
        parts.append(f'<rect x="{x}" y="{y - 11}" width="18" height="13" fill="{colour}" stroke="{GREY}"/>')
        parts.append(label(x + 24, y, f'stage {name}'))
        x += 92
    parts += [reset_mark(x + 8, y - 4), label(x + 20, y, f'reset ({resets})')]
    parts += [refused_mark(x + 118, y - 4), label(x + 130, y, f'refused row ({refused})')]
    return parts


def runs(taken):
    """The unbroken runs of a stage: their start, the start of the next or the last time, and the stage."""
    found = []
    for time, stage, *_ in taken:
        if not found or found[-1][1] != stage:
            found.append([time, stage])
    ends = [time for time, _ in found[1:]] + [taken[-1][0] if taken else 0.0]
    return [(time, end, stage) for (time, stage), end in zip(found, ends)]


def bands(taken, across):
    parts = []
    for begin, end, stage in runs(taken):
        x, width = across(begin), across(end) - across(begin)
        if stage and width:
            box = f'x="{short(x)}" width="{width:.2f}" fill="{STAGES[stage][1]}"'
            parts.append(f'<rect class="stage-{stage}" y="{STAGE_TOP}" height="{AIR_BOTTOM - STAGE_TOP}" {box}/>')
    return parts


def hours(start, end, across):
    """The axis, from the first accepted row on."""
    parts = []
    for hour in steps(0.0, (end - start) / 3600.0, 12, HOURS):
        x = min(across(start + hour * 3600.0), RIGHT)
        parts.append(line(x, STAGE_TOP, x, AIR_BOTTOM, 'class="g"'))
        parts.append(label(x, AIR_BOTTOM + 18, f'{hour:.6g}', 'm'))
    words = f'time in hours from {start!r} s on' if start else 'time in hours'
    return [*parts, label((LEFT + RIGHT) / 2, AIR_BOTTOM + 42, words, 'm l')]


def stage_panel(taken, across):
    down = lambda stage: STAGE_BOTTOM - 14 - stage * (STAGE_BOTTOM - STAGE_TOP - 28) / 3
    parts = []
    for stage in range(4):
        parts.append(line(LEFT, down(stage), RIGHT, down(stage), 'class="g"'))
        parts.append(label(LEFT - 10, down(stage) + 4, str(stage), 'e'))
    parts.append(turned(STAGE_TOP, STAGE_BOTTOM, 'stage'))
    parts.append(frame(STAGE_TOP, STAGE_BOTTOM))
    path = ''
    for begin, end, stage in runs(taken):
        path += f'V{short(down(stage))}' if path else f'M{short(across(begin))} {short(down(stage))}'
        path += f'H{short(across(end))}'
    if path:
        parts.append(f'<path id="stage" d="{path}" fill="none" stroke="{INK}" stroke-width="2"/>')
        parts.append(f'<circle cx="{short(across(taken[-1][0]))}" cy="{short(down(taken[-1][1]))}" r="3" fill="{INK}"/>')
    return parts


def marks(taken, refused, start, across):
    """Resets and refused rows, one mark for each place on the paper."""
    resets = dict.fromkeys(short(across(time)) for time, _, _, reset in taken if reset)
    lost = dict.fromkeys(short(across(start if time is None else time)) for time in refused)
    return [reset_mark(float(x), RESETS) for x in resets] + [refused_mark(float(x), REFUSED) for x in lost]


def reset_mark(x, y):
    return f'<path class="reset" d="M{short(x - 5)} {y + 4}h10l-5 -9z" fill="{AIR}"/>'


def refused_mark(x, y):
    return f'<path class="refused" d="M{short(x - 4)} {y - 4}l8 8m0 -8l-8 8" stroke="{INK}" stroke-width="2"/>'


def air_panel(taken, across):
    known = [supply for _, _, supply, _ in taken] + [kelvin for kelvin, _, _ in THRESHOLDS]
    low, high = max(min(known) - 1.0, COLDEST), min(max(known) + 1.0, WARMEST)
    down = lambda kelvin: AIR_BOTTOM - (min(max(kelvin, low), high) - low) / (high - low) * (AIR_BOTTOM - AIR_TOP)
    parts = []
    for kelvin in steps(low, high, 8):
        parts.append(line(LEFT, down(kelvin), RIGHT, down(kelvin), 'class="g"'))
        parts.append(label(LEFT - 10, down(kelvin) + 4, f'{kelvin:.6g}', 'e'))
    parts.append(turned(AIR_TOP, AIR_BOTTOM, 'supply air, K'))
    parts.append(frame(AIR_TOP, AIR_BOTTOM))
    free = AIR_TOP - 12.0
    for kelvin, words, colour in THRESHOLDS:
        y = down(kelvin)
        free = max(y, free + 14)       # labels never stand on each other
        parts.append(line(LEFT, y, RIGHT, y, f'class="threshold" stroke="{colour}" stroke-dasharray="6 4"'))
        parts.append(label(RIGHT + 8, free + 4, f'{kelvin} K: {words}', '', colour))
    points = thinned([(across(time), down(supply)) for time, _, supply, _ in taken])
    if points:
        path = 'M' + 'L'.join(f'{short(x)} {short(y)}' for x, y in points)
        parts.append(f'<path id="supply" d="{path}" fill="none" stroke="{AIR}" stroke-width="1.5" stroke-linejoin="round"/>')
        parts.append(f'<circle cx="{short(points[-1][0])}" cy="{short(points[-1][1])}" r="3" fill="{AIR}"/>')
    return parts


def thinned(points):
    """Of the points that share a pixel across, the first, the highest, the lowest and the last, in order."""
    kept, at = [], 0
    while at < len(points):
        end = at
        while end < len(points) and math.floor(points[end][0]) == math.floor(points[at][0]):
            end += 1
        heights = [y for _, y in points[at:end]]
        chosen = {at, end - 1, at + heights.index(min(heights)), at + heights.index(max(heights))}
        kept += [points[index] for index in sorted(chosen)]
        at = end
    return kept


def turned(top, bottom, text):
    return f'<text class="m l" transform="translate(24 {(top + bottom) // 2}) rotate(-90)">{printable(text)}</text>'


def frame(top, bottom):
    return f'<rect class="f" x="{LEFT}" y="{top}" width="{RIGHT - LEFT}" height="{bottom - top}"/>'
