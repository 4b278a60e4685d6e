"""The records of the header and of the Rust examples: what the exported calls take and give, as C and Rust declare it."""

import re
import textwrap

from . import declared

# the states, which C sees as words only, and what the calls take and give, in the order of the header
OPAQUE = ['FreezeState', 'ReliefHeld', 'EconomizerState', 'RooftopHeld', 'State']
SEQUENCES = [
    ('Timers', ['TimerOutput']),
    ('Freeze protection', ['FreezeState', 'FreezeRow', 'FreezeCommands', 'FreezeCalls', 'FreezeSignals', 'FreezeLeft', 'FreezeGiven',
                           'FreezeShown']),
    ('Economizer', ['EconomizerState', 'EconomizerRow', 'EconomizerCommands', 'DamperLimits', 'EnableSignals', 'EnableLimits', 'EconomizerSignals',
                    'EconomizerGiven', 'EconomizerShown']),
    ('Relief fan group', ['ReliefHeld', 'ReliefRow', 'ReliefCommands', 'PressureControl', 'DamperEnable', 'StageUp', 'StageDown', 'ReliefSignals',
                          'ReliefLeft', 'ReliefGiven', 'ReliefShown', 'AlarmGiven']),
    ('The joined row', ['RooftopHeld', 'RooftopRow', 'RooftopCommands', 'RooftopGiven']),
    ('The board', ['BoardWords', 'BoardServed']),
    ('The line of a row', ['LineGiven']),
    ('Row files', ['State', 'Fed']),
]
C = {'f64': 'double', 'u64': 'uint64_t', 'usize': 'size_t', 'i64': 'int64_t', 'bool': 'uint64_t'}
RUST = {'f64': 'f64', 'u64': 'u64', 'usize': 'usize', 'i64': 'i64', 'bool': 'u64'}
NAMES = {'FreezeState': 'freeze_state', 'EconomizerState': 'econ_state', 'ReliefHeld': 'relief_state', 'RooftopHeld': 'rooftop_state', 'BoardWords': 'board',
         'LineGiven': 'line_given', 'State': 'state'}
# a field whose name is a word of C++
C_FIELDS = {'xor': 'xor_y'}
BEGIN, END = 'records, written by tools/words', 'end of the records'


def c_name(name):
    return 'woldgrater_' + NAMES.get(name, declared.snake(name).replace('economizer', 'econ'))


def rust_name(name):
    names = {'EconomizerState': 'EconState', 'ReliefHeld': 'ReliefState', 'RooftopHeld': 'RooftopState', 'BoardWords': 'Board'}
    return names.get(name, name.replace('Economizer', 'Econ'))


class Records:
    """The types that stand in the header, by their names."""

    def __init__(self, root, types):
        self.types = {**types, **declared.declarations(root, ['woldgrater', 'woldgrater_service'])}
        self.held = {kind.words: name for name, kind in types.items()}

    def meant(self, part):
        """The type that a field stands for: the words of a type are given under its own name."""
        return self.held.get(part, part) if part not in OPAQUE else part

    def words(self, part):
        """How many words of 8 bytes a field has."""
        found = declared.array(part)
        if found:
            return -(-found[1] // 8) if found[0] == 'i8' else found[1] * self.words(found[0])
        if part in C:
            return 1
        kind = self.types[self.meant(part)]
        if kind.variants:
            return 1 + sum(self.words(held) for _, held in kind.variants if held)
        return sum(self.words(field) for _, field in kind.fields)

    def comment(self, name):
        return self.types[name].comment.replace('`', '') or None

    def c(self):
        lines = []
        for title, names in SEQUENCES:
            lines += [f'/* {title}. */', '']
            for name in names:
                if name in OPAQUE:
                    lines += [f'struct {c_name(name)} {{', f'    uint64_t words[{self.words(name)}];', '};', '']
                    continue
                if self.comment(name):
                    lines += commented(self.comment(name))
                lines += [f'struct {c_name(name)} {{'] + [self.c_field(field, part) for field, part in self.types[name].fields] + ['};', '']
        return '\n'.join(lines)

    def c_field(self, field, part):
        one, lengths = declared.dimensions(part)
        one = self.meant(one)
        text = f'    {C.get(one) or "struct " + c_name(one)} {C_FIELDS.get(field, field)}' + ''.join(f'[{length}]' for length in lengths) + ';'
        return f'{text:60}/* flag */' if one == 'bool' else text

    def rust(self):
        lines = []
        for _, names in SEQUENCES:
            for name in names:
                if name in OPAQUE:
                    fields = [f'    words: [u64; {self.words(name)}],']
                else:
                    fields = [f'    pub {field}: {self.rust_type(part)},' for field, part in self.types[name].fields]
                lines += ['#[repr(C)]', '#[derive(Clone, Copy)]', f'pub struct {rust_name(name)} {{', *fields, '}', '']
        return '\n'.join(lines)

    def rust_type(self, part):
        one, lengths = declared.dimensions(part)
        one = self.meant(one)
        text = RUST.get(one) or rust_name(one)
        for length in reversed(lengths):
            text = f'[{text}; {length}]'
        return text


def commented(text):
    """A comment of C."""
    lines = textwrap.wrap(text, 112)
    return [f'/* {lines[0]}'] + [f' * {line}' for line in lines[1:-1]] + [f' * {lines[-1]} */'] if len(lines) > 1 else [f'/* {text} */']


def replaced(root, path, made):
    """The text of a file with its records made anew."""
    with open(f'{root}/{path}', encoding='utf-8') as source:
        text = source.read()
    parts = re.fullmatch(rf'(?s)(.*{BEGIN}[^\n]*\n)(.*?)([^\n]*{END}.*)', text)
    if not parts:
        raise SystemExit(f'tools/words: {path} has no place for the records')
    return parts[1] + '\n' + made + parts[3]


def files(root, types):
    records = Records(root, types)
    return {
        'include/woldgrater.h': replaced(root, 'include/woldgrater.h', records.c()),
        'examples/rust/woldgrater.rs': replaced(root, 'examples/rust/woldgrater.rs', records.rust()),
    }
