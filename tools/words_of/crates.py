"""The crates of words: for each type its source, its definitions and its proofs."""

from . import declared, texts

# the crates that declare what is held, and the crate of words that each has
HOMES = {
    'reals': 'block_words',
    'logical': 'block_words',
    'moving_average': 'block_words',
    'freeze_protection': 'freeze_words',
    'economizer_controller': 'econ_words',
    'relief_fan_group': 'relief_words',
    'rooftop': 'rooftop_words',
    'row_kinds': 'reader_words',
}
ABOUT = {
    'block_words': 'the blocks that states are made of',
    'freeze_words': 'freeze protection',
    'econ_words': 'the economizer',
    'relief_words': 'the relief fan group',
    'rooftop_words': 'the joined row',
    'reader_words': 'the row reader',
}
# what is asked of a type: `of`, its words; `value`, what words stand for; `zero`, words that are all 0 by default
STATES = ['FreezeState', 'EconomizerState', 'ReliefHeld', 'RooftopHeld', 'RowReader']
ROWS = ['FreezeRow', 'EconomizerRow', 'ReliefRow', 'RooftopRow']
GIVEN = ['FreezeCommands', 'EconomizerCommands', 'ReliefCommands', 'RooftopCommands', 'FreezeSignals', 'EconomizerSignals', 'ReliefSignals', 'FreezeLeft', 'ReliefLeft']
FOLDERS = [f'crates/{crate}/{part}' for crate in ABOUT for part in ('src', 'specs', 'proofs')]


def by_hand(path):
    """Whether a file of these crates is not this script's: what a flag is as a word, and what holds of lists."""
    return path in ('crates/block_words/specs/Flags.antt', 'crates/block_words/proofs/Elements.antt')


def declarations(root):
    return declared.declarations(root, HOMES)


def asked(types):
    """What is asked of each type, and of lists of it: {name: set}, {(name, length): set}."""
    wants, lists = {}, {}

    def ask(kind, what):
        one = declared.element(kind)
        if one in declared.PLAIN or one == 'bool':
            return
        if one != kind and what != 'zero':
            lists.setdefault(declared.array(kind), set()).add(what)
        kind = one
        if what in wants.setdefault(kind, set()):
            return
        wants[kind].add(what)
        for part in parts(types[kind]):
            ask(part, what)

    for names, all_asked in ((STATES, ('of', 'value')), (ROWS, ('value',)), (GIVEN, ('of', 'zero'))):
        for name in names:
            for what in all_asked:
                ask(name, what)
    return wants, lists


def parts(kind):
    """The types that a type is made of."""
    return [part for _, part in kind.fields or kind.variants if part]


def ordered(types, wants):
    """The types, leaves first."""
    found = []

    def add(name):
        if name in types and name in wants and name not in found:
            for part in parts(types[name]):
                add(declared.element(part))
            found.append(name)

    for name in wants:
        add(name)
    return found


def files(types):
    wants, lists = asked(types)
    order = ordered(types, wants)
    found = {}
    for crate, about in ABOUT.items():
        mine = [types[name] for name in order if HOMES[types[name].crate] == crate]
        writer = texts.Writer(crate, types, HOMES, wants, lists)
        for kind in mine:
            found.update(writer.files(kind))
        found.update(writer.tables(mine, about))
    return {f'crates/{path}': text for path, text in found.items()}
