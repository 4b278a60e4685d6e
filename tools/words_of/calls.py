"""The calls of the economizer: those of freeze protection under other names."""

import os
import re

# what stands in place of what, in this order
ECON = [
    ('(keeps_hour: u64)', '()'),
    ('(freeze_start (word_flag keeps_hour))', 'economizer_fresh'),
    ('freeze_start(keeps_hour != 0)', 'economizer_fresh()'),
    ('{freeze_start, freeze_row}', '{economizer_fresh, economizer_row}'),
    ('{freeze_row, freeze_start}', '{economizer_fresh, economizer_row}'),
    ('freeze_protection::signals::freeze_signals', 'economizer_controller::step::economizer_signals'),
    ('freeze_protection.specs.Signals', 'economizer_controller.specs.Step'),
    ('freeze_protection', 'economizer_controller'),
    ('freeze_lines.specs.Freeze', 'econ_lines.specs.Econ'),
    ('declared.freeze.', 'declared.econ.'),
    ('proofs.freeze.', 'proofs.econ.'),
    ('freeze_lines::freeze', 'econ_lines::econ'),
    ('freeze_lines', 'econ_lines'),
    ('{freeze_words', '{economizer_words'),
    (' freeze_words ', ' economizer_words '),
    ('freeze_words', 'econ_words'),
    ('FreezeLines', 'EconLines'),
    ('freeze_kind', 'econ_kind'),
    ('woldgrater_freeze', 'woldgrater_econ'),
    ('Freeze protection', 'The economizer'),
    ('freeze protection', 'the economizer'),
    ('Freeze', 'Economizer'),
    ('freeze', 'economizer'),
]
# lines that speak of what is left on freeze protection's timers: the economizer has none
TIMERS = re.compile('(?<!Line)(?<!line_)[Ll]eft')
# and of the manner of its start: the economizer has one start
MANNER = re.compile('word_flag[^ ]|stage 2')
# the files that are written so: what they are written from, the names, and which lines are passed over
FILES = {
    'woldgrater/src/econ.rt': ('woldgrater/src/freeze.rt', ECON, MANNER),
    'woldgrater/specs/Economizer.antt': ('woldgrater/specs/Freeze.antt', ECON),
    'woldgrater/proofs/econ/woldgrater_econ_row/Answers.antt': ('woldgrater/proofs/freeze/woldgrater_freeze_row/Answers.antt', ECON),
    'woldgrater_service/src/econ.rt': ('woldgrater_service/src/freeze.rt', ECON, TIMERS),
}


def renamed(text, names):
    for old, new in names:
        text = text.replace(old, new)
    return text


def files(root):
    found = {}
    for path, (origin, names, *passed_over) in FILES.items():
        with open(os.path.join(root, 'crates', origin), encoding='utf-8') as source:
            text = ''.join(line for line in source if not any(lines.search(line) for lines in passed_over))
            mark = '--' if path.endswith('.antt') else '//'
            found[f'crates/{path}'] = f'{mark} Written by tools/words from what freeze protection has.\n' + renamed(text, names)
    return found
