"""What the words of a type are called, and where they stand."""

import re

from . import declared

COUNTS = {4: 'four'}
# a struct of more fields is long
LONG = 12
MADE = 'Written by tools/words.'


def held(kind):
    """The fields of an enum's words: the number of the variant, and what each variant holds."""
    return [('variant', 'u64')] + [(kind.holds[name], part) for name, part in kind.variants if part]


def word_fields(kind):
    """The fields of a struct's words: its own, and after signed bytes those that fill their word, so that no byte of a struct is left open."""
    fields = []
    for name, part in kind.fields:
        spare = declared.unused(part)
        fields += [(name, part)] + ([(f'{name}_unused', f'[i8; {spare}]')] if spare else [])
    return fields


def order(line):
    """The library's names before the repository's, and of these the declared types first."""
    return ('use Rattle.std.' not in line and 'use mathlib.' not in line, '.declared.' not in line, line)


def applied(name, text):
    """A definition at an argument."""
    return f'{name} {text}' if re.fullmatch(r"[\w.]+", text) else f'{name} ({text})'


class Names:
    """The names of one crate of words."""

    def __init__(self, crate, types, homes, wants, lists):
        self.crate, self.types, self.homes, self.wants, self.lists = crate, types, homes, wants, lists

    # ---- where things stand

    def home(self, kind):
        return self.homes[kind.crate]

    def page(self, kind):
        """The page of a type's definitions, as seen from this crate."""
        return f'Rattle.{self.home(kind)}.specs.{kind.page}'

    def flags_page(self):
        return 'Rattle.block_words.specs.Flags'

    def laws(self, kind):
        return f'Rattle.{self.home(kind)}.proofs.Back'

    def elements(self):
        """The page of the laws of flags and of lists."""
        return 'Rattle.block_words.proofs.Elements'

    def module(self, kind):
        """The module of a type's words in src."""
        home = self.home(kind)
        return f'crate::{kind.file}' if home == self.crate else f'{home}::{kind.file}'

    def flags_specs(self):
        """The same page as src names it."""
        return 'crate::specs::Flags' if self.crate == 'block_words' else 'block_words::specs::Flags'

    def origin(self, kind):
        """The type itself as src names it."""
        return f'{kind.crate}::{kind.module}::{kind.name}' if kind.module else f'{kind.crate}::{kind.name}'

    def library(self, kind):
        """Whether a type is the library's."""
        return kind.typed != kind.name

    def of_crate(self, kind):
        return '' if self.library(kind) else f'of {kind.crate} '

    def variant(self, kind, name):
        """A variant as src names it."""
        return name if self.library(kind) else f'{kind.name}::{name}'

    def declared(self, kind):
        module = f'.{kind.module}' if kind.module else ''
        return f'Rattle.{kind.crate}.specs.declared{module}.{kind.name}'

    def words_declared(self, kind):
        return f'Rattle.{self.home(kind)}.specs.declared.{kind.file}.{kind.words}'

    # ---- the parts of a field

    def words_type(self, part):
        """The type of a field's words."""
        found = declared.array(part)
        one = declared.element(part)
        kind = one if one in declared.PLAIN else 'u64' if one == 'bool' else self.types[one].words
        return f'[{kind}; {found[1]}]' if found else kind

    def zero_of(self, part):
        """Words of a part that are all 0, as src writes them."""
        found = declared.array(part)
        one = declared.element(part)
        if one == 'bool':
            text = '0'
        elif one in declared.PLAIN:
            text = declared.PLAIN[one]
        else:
            text = self.zero_literal(self.types[one])
        return f'[{text}; {found[1]}]' if found else text

    def zero_literal(self, kind):
        fields = held(kind) if kind.variants else word_fields(kind)
        return kind.words + ' { ' + ', '.join(f'{name}: {self.zero_of(part)}' for name, part in fields) + ' }'

    def zero_spec(self, part):
        """The same as a definition."""
        found = declared.array(part)
        one = declared.element(part)
        if one == 'f64':
            text = 'plus_zero'
        elif one in ('i64', 'i8'):
            text = 'pos 0'
        elif one in declared.PLAIN or one == 'bool':
            text = '0'
        elif self.types[one].variants:
            text = 'record { ' + '; '.join(f'{name} = {self.zero_spec(kept)}' for name, kept in held(self.types[one])) + ' }'
        else:
            text = self.types[one].zero
        if found:
            return f'replicate {found[1]} ' + (f'({text})' if ' ' in text else text)
        return text

    def call(self, part, what):
        """The conversion of a part, as src calls it; None for a part that stays as it is."""
        one = declared.element(part)
        if one in declared.PLAIN:
            return None
        if one == 'bool':
            if declared.array(part):
                return 'array::from_fn(|i| u64::from({}[i]))' if what == 'of' else 'array::from_fn(|i| {}[i] != 0)'
            return 'u64::from({})' if what == 'of' else '{} != 0'
        kind = self.types[one]
        if declared.array(part):
            return self.list_call(kind, declared.array(part)[1], what) + '({})'
        return f'{kind.words if what == "of" else kind.typed.split("<")[0]}::from({{}})'

    def list_call(self, kind, length, what):
        """The function that makes a list of a type over."""
        return f'{kind.file}_{"words" if what == "of" else "values"}_of_{COUNTS[length]}'

    def flag_lists(self, kind):
        """The lengths of the lists of flags of a long struct."""
        if not kind.fields or len(kind.fields) <= LONG:
            return []
        return sorted({declared.array(part)[1] for _, part in kind.fields if declared.array(part) and declared.element(part) == 'bool'})

    def flags_call(self, length, what):
        """The function that makes such a list over."""
        return f'flag_{"words" if what == "of" else "values"}_of_{COUNTS[length]}'

    def spec_call(self, part, what, text):
        """What a part becomes, as a definition says it."""
        one = declared.element(part)
        if one in declared.PLAIN:
            return text
        if one == 'bool':
            name = 'flag_word' if what == 'of' else 'word_flag'
        else:
            name = self.types[one].to if what == 'of' else self.types[one].back
        return applied(f'map {name}' if declared.array(part) else name, text)

    def law_of(self, part, text):
        """The proof that the words of a part stand for it, along i."""
        one = declared.element(part)
        if one in declared.PLAIN:
            return text
        names = ('flag_word', 'word_flag', 'flag_back') if one == 'bool' else (self.types[one].to, self.types[one].back, self.types[one].law)
        if declared.array(part):
            return applied(f'each_back {names[0]} {names[1]} {names[2]}', text) + ' i'
        return applied(names[2], text) + ' i'
