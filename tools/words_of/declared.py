"""The types that are declared in the crates, and the names of their words."""

import os
import re

DECLARED = re.compile(r'(?m)^((?://.*\n)*)(?:#\[(?:repr|derive)\(.*\)\]\n)*pub (struct|enum) (\w+) \{\n((?:    .*\n)*)\}')
SEEN = 'Seen'
PLAIN = {'f64': '0.0', 'u64': '0', 'usize': '0', 'i64': '0', 'i8': '0'}


class Type:
    """A struct or an enum: its name, its crate and module, what its comment says, and its fields or its variants with what each holds (None:
    nothing)."""

    def __init__(self, name, crate, module, comment, fields=None, variants=None):
        self.name, self.crate, self.module, self.comment, self.fields, self.variants = name, crate, module, comment, fields, variants
        # as src and as definitions name it; the name of what each variant holds
        self.typed = self.spec = name
        self.holds = {variant: snake(variant) for variant, _ in variants or []}
        self.base = name.removesuffix('State').removesuffix('Held') or name
        self.words = self.base + 'Words'
        called = snake(self.base)
        # a module is not called as a library
        self.file = f'{called}_state' if called == crate else called
        self.page = self.base
        self.to, self.back, self.zero, self.law = (f'{called}_{ending}' for ending in ('words', 'of', 'zero', 'back'))


def snake(name):
    return re.sub(r'(?<=[a-z0-9])(?=[A-Z])', '_', name).lower()


def array(kind):
    """The element and the length of an array's type; None for any other."""
    found = re.fullmatch(r'\[(\w+); (\d+)\]', kind)
    return (found[1], int(found[2])) if found else None


def dimensions(kind):
    """What an array, or an array of arrays, is made of, and its lengths, the outermost first: none of any other type."""
    lengths = []
    while found := re.fullmatch(r'\[(.+); (\d+)\]', kind):
        kind = found[1]
        lengths.append(int(found[2]))
    return kind, lengths


def unused(kind):
    """How many bytes an array of signed bytes leaves unused in its last word."""
    found = array(kind)
    return -found[1] % 8 if found and found[0] == 'i8' else 0


def element(kind):
    found = array(kind)
    return found[0] if found else kind


def seen():
    found = Type(SEEN, 'reals', 'seen', '', variants=[('None', None), ('Some', 'f64')])
    found.typed, found.spec, found.holds = 'Option<f64>', 'Option Float', {'None': 'none', 'Some': 'at'}
    return found


def declarations(root, crates):
    """Every public struct and enum of these crates, by its name; and the library's `Option<f64>` under the name of what it is here, a time seen or not."""
    found = {SEEN: seen()}
    for crate in crates:
        folder = os.path.join(root, 'crates', crate, 'src')
        for name in sorted(os.listdir(folder)):
            with open(os.path.join(folder, name), encoding='utf-8') as source:
                text = source.read()
            module = '' if name == 'lib.rt' else name.removesuffix('.rt')
            for comment, kind, title, body in DECLARED.findall(text):
                if title in found:
                    raise SystemExit(f'tools/words: {title} is declared in {found[title].crate} and in {crate}')
                lines = [line.strip().removesuffix(',') for line in re.sub(r'//.*', '', body).splitlines() if line.strip()]
                comment = ' '.join(line.removeprefix('//').strip() for line in comment.splitlines())
                if kind == 'struct':
                    fields = [tuple(line.removeprefix('pub ').replace('Option<f64>', SEEN).split(': ', 1)) for line in lines]
                    found[title] = Type(title, crate, module, comment, fields=fields)
                else:
                    variants = [re.fullmatch(r'(\w+)(?:\((\w+)\))?', line) for line in lines]
                    if all(variants):
                        found[title] = Type(title, crate, module, comment, variants=[(v[1], v[2]) for v in variants])
    return found
