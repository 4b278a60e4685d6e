"""The definitions of the words of a type."""

import re

from . import declared
from .names import MADE, Names, applied, order, word_fields

# what definitions take of the library, in the order in which it is named
PLAIN = ['eqb', 'cond', 'pos', 'replicate', 'map', 'Float', 'Option', 'None', 'Some']


class Definitions(Names):
    def definitions(self, kind, asked):
        found, plain = set(), set()
        body = []
        for name, part in kind.fields or kind.variants:
            if not part:
                continue
            one = declared.element(part)
            if one == 'bool' and asked - {'zero'}:
                found.add(f'use {self.flags_page()}.{{' + ', '.join(n for what, n in (('of', 'flag_word'), ('value', 'word_flag')) if what in asked) + '}')
            elif one in self.types:
                other = self.types[one]
                names = [n for what, n in (('of', other.to), ('value', other.back), ('zero', other.zero)) if what in asked and not (what == 'zero' and other.variants)]
                found.add(f'use {self.page(other)}.{{{", ".join(names)}}}')
            if declared.array(part) and one not in declared.PLAIN and asked - {'zero'}:
                plain.add('map')
        if self.library(kind):
            plain |= {'Float', 'Option', 'None', 'Some'}
        elif asked & {'of', 'value'}:
            found.add(f'use {self.declared(kind)}.{{{kind.name}}}')
        found.add(f'use {self.words_declared(kind)}.{{{kind.words}}}')
        if kind.variants:
            if not self.library(kind):
                found.add(f'use {self.declared(kind)}.TheVariants.{{{", ".join(name for name, _ in kind.variants)}}}')
            if 'value' in asked:
                plain |= {'eqb', 'cond'}
        if 'of' in asked:
            body += ['', f'-- `{kind.typed}` as words', f'unfoldable pub {kind.to} : {kind.spec} → {kind.words}']
            if kind.variants:
                body += self.of_enum_spec(kind)
            else:
                body += [f'{kind.to} s = record {{'] + [f'  {name} = {self.word_of(kind, name, part)};' for name, part in word_fields(kind)] + ['}']
        if 'value' in asked:
            body += ['', f'-- the `{kind.typed}` that words stand for' + (f'; a number that no variant has is read as `{kind.variants[-1][0]}`' if kind.variants else ''),
                     f'unfoldable pub {kind.back} : {kind.words} → {kind.spec}']
            if kind.variants:
                body += [f'{kind.back} w = {self.value_enum_spec(kind)}']
            else:
                body += [f'{kind.back} w = record {{'] + [f'  {name} = {self.spec_call(part, "value", f"w.{name}")};' for name, part in kind.fields] + ['}']
        if 'zero' in asked:
            body += ['', '-- all words 0', f'unfoldable pub {kind.zero} : {kind.words}', f'{kind.zero} = record {{']
            body += [f'  {name} = {self.zero_spec(part)};' for name, part in word_fields(kind)] + ['}']
        text = '\n'.join(body)
        plain |= {word for word in ('replicate', 'pos') if re.search(rf'\b{word}\b', text)}
        if re.search(r'\bplus_zero\b', text):
            found.add('use Rattle.reals.specs.Constants.{plus_zero}')
        if plain:
            found.add('use Rattle.std.specs.Prelude.{' + ', '.join(word for word in PLAIN if word in plain) + '}')
        return f'-- `{kind.typed}` {self.of_crate(kind)}as words. {MADE}\n' + '\n'.join(sorted(found, key=order)) + '\n' + text + '\n'

    def word_of(self, kind, name, part):
        """A field of the words of s: that of s made over, or 0 where it only fills a word."""
        return self.spec_call(part, 'of', f's.{name}') if (name, part) in kind.fields else self.zero_spec(part)

    def of_enum_spec(self, kind):
        lines = []
        for at, (name, part) in enumerate(kind.variants):
            fields = [f'variant = {at}']
            for other, its in kind.variants:
                if its:
                    text = self.spec_call(its, 'of', 'x') if other == name else self.zero_spec(its)
                    fields.append(f'{kind.holds[other]} = {text}')
            lines.append(f'{kind.to} {f"({name} x)" if part else name} = record {{ {"; ".join(fields)} }}')
        return lines

    def value_enum_spec(self, kind):
        text = ''
        for at in range(len(kind.variants) - 1, -1, -1):
            name, part = kind.variants[at]
            made = name
            if part:
                made = '(' + applied(name, self.spec_call(part, 'value', f'w.{kind.holds[name]}')) + ')'
            if not text:
                text = made[1:-1] if made.startswith('(') and len(kind.variants) == 1 else made
            else:
                text = f'cond (eqb w.variant {at}) {made} {text if text.startswith("(") or " " not in text else f"({text})"}'
        return text
