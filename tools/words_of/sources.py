"""The source of the words of a type: the struct, and the conversions to and fro."""

from . import declared
from .names import MADE, Names, held, word_fields


def grouped(paths):
    """`use` lines, those of one module together."""
    modules = {}
    for path in paths:
        module, name = path.rsplit('::', 1)
        modules.setdefault(module, []).append(name)
    return [f'use {module}::{names[0]};' if len(names) == 1 else f'use {module}::{{{", ".join(names)}}};' for module, names in modules.items()]


class Sources(Names):
    def uses(self, kind, asked):
        """The `use` lines of a type's source."""
        found = set() if self.library(kind) else {self.origin(kind)}
        for part in [part for _, part in kind.fields or kind.variants if part]:
            one = declared.element(part)
            if one in self.types:
                found.add(f'{self.module(self.types[one])}::{self.types[one].words}')
                if declared.array(part):
                    found |= {f'{self.module(self.types[one])}::{self.list_call(self.types[one], declared.array(part)[1], what)}' for what in asked - {'zero'}}
                elif 'value' in asked and not self.library(self.types[one]):
                    found.add(self.origin(self.types[one]))
        if self.lists_of(kind) or any(part and declared.array(part) and declared.element(part) == 'bool' for _, part in kind.fields or kind.variants) and asked - {'zero'}:
            found.add('std::array')
        return sorted(found, key=lambda path: (not path.startswith('crate::'), path))

    def source(self, kind, asked):
        names = [name for what, name in (('of', kind.to), ('value', kind.back), ('zero', kind.zero)) if what in asked]
        flags = [(length, what) for length in self.flag_lists(kind) for what in sorted(asked - {'zero'})]
        lines = [f'// `{kind.typed}` {self.of_crate(kind)}as words. {MADE}',
                 'ghost use Rattle.std.specs.Prelude.{◌≡◌' + (', map' if self.lists_of(kind) or flags else '') + '};']
        if flags:
            lines.append(f'ghost use {self.flags_page()}.{{{", ".join("flag_word" if what == "of" else "word_flag" for _, what in flags)}}};')
        lines += [f'ghost use Rattle.{self.crate}.specs.{kind.page}.{{{", ".join(names)}}};', '']
        lines += grouped(self.uses(kind, asked))
        lines += [''] + (['// The number of the variant, and a place for what each holds: C has no enum that carries a value.'] if kind.variants else [])
        lines += ['#[repr(C)]', '#[derive(Clone, Copy)]', f'pub struct {kind.words} {{']
        lines += [f'    pub {name}: {self.words_type(part)},' for name, part in (held(kind) if kind.variants else word_fields(kind))]
        lines += ['}']
        if 'of' in asked:
            body = self.of_enum(kind) if kind.variants else self.of_struct(kind)
            lines += self.conversion(kind.typed, kind.words, f'λ s w. w ≡ {kind.to} s', kind, 'of', body)
        if 'value' in asked:
            body = self.value_enum(kind) if kind.variants else self.value_struct(kind)
            lines += self.conversion(kind.words, kind.typed, f'λ w s. s ≡ {kind.back} w', kind, 'value', body)
        if 'zero' in asked:
            lines += self.zero_made(kind)
        for length, what in self.lists_of(kind):
            lines += self.list_made(kind, length, what)
        for length, what in flags:
            lines += self.flags_made(length, what)
        return '\n'.join(lines) + '\n'

    def lists_of(self, kind):
        """The lists of a type that are made over, by their lengths."""
        return [(length, what) for (name, length), all_what in sorted(self.lists.items()) if name == kind.name for what in sorted(all_what)]

    def list_made(self, kind, length, what):
        """A list made over: by a function, since of a struct with eight of them the check does not find the proof; and by `from_fn`, since with `map`
        a relief row needs a third more of the stack."""
        name, argument = self.list_call(kind, length, what), 'values' if what == 'of' else 'words'
        given, made = (kind.typed, kind.words) if what == 'of' else (kind.words, kind.typed)
        return ['', '// A function of its own: the check does not find eight such lists written inside their struct.',
                f'pub fn {name}({argument}: [{given}; {length}]) -> [{made}; {length}]',
                f'    ensures {{ result ≡ map {kind.to if what == "of" else kind.back} {argument} }}', '{',
                f'    array::from_fn(|i| {made}::from({argument}[i]))', '}']

    def flags_made(self, length, what):
        """A list of flags of a long struct made over: by a function too."""
        argument, given, made = ('values', 'bool', 'u64') if what == 'of' else ('words', 'u64', 'bool')
        definition = 'flag_word' if what == 'of' else 'word_flag'
        return ['', '// A function of its own: the check does not find such a list written inside a long struct.',
                f'#[tactic(auto, unfolding({self.flags_specs()}::{definition}))]', '#[inline(always)]',
                f'fn {self.flags_call(length, what)}({argument}: [{given}; {length}]) -> [{made}; {length}]',
                f'    ensures {{ result ≡ map {definition} {argument} }}', '{',
                f'    {self.call(f"[bool; {length}]", what).format(argument)}', '}']

    def conversion(self, given, made, gives, kind, what, body):
        """An `impl From`. Its proof opens the definitions, the rest is found. The compiler takes it into its caller: else a call of the archives
        makes whole states on its stack to copy them."""
        opened = [f'crate::specs::{kind.page}::{kind.to if what == "of" else kind.back}']
        if any(part and declared.element(part) == 'bool' for _, part in kind.fields or kind.variants):
            opened.append(f'{self.flags_specs()}::{"flag_word" if what == "of" else "word_flag"}')
        argument = 'value' if what == 'of' else 'words'
        remark = [f'    // {self.remark(kind, what)}'] if kind.variants else []
        return ['', f'impl From<{given}> for {made} {{', f'    ghost from_gives = {{ {gives} }};', '', *remark,
                f'    #[tactic(auto, unfolding({", ".join(opened)}))]', '    #[inline(always)]',
                f'    fn from({argument}: {given}) -> Self {{', *body, '    }', '}']

    def zero_made(self, kind):
        """Words that are all 0, by default: a derived `Default` says its value field by field, and not that it is the definition's."""
        lines = ['', f'impl Default for {kind.words} {{', f'    ghost is_default = {{ λ w. w ≡ {kind.zero} }};', '',
                 f'    #[tactic(auto, unfolding(crate::specs::{kind.page}::{kind.zero}))]', '    #[inline(always)]', '    fn default() -> Self {',
                 f'        {kind.words} {{']
        for name, part in word_fields(kind):
            one = declared.element(part)
            text = f'{self.types[one].words}::default()' if one in self.types and not declared.array(part) else self.zero_of(part)
            lines.append(f'            {name}: {text},')
        return lines + ['        }', '    }', '}']

    def remark(self, kind, what):
        if what == 'of':
            return 'The number of the variant, and what it holds; 0 for what the others would.'
        return f'A number that no variant has is read as `{kind.variants[-1][0]}`.'

    def made_of(self, owner, name, part, what, kind=None):
        """A field of what is made, in a struct or in a list."""
        if kind and declared.element(part) == 'bool' and declared.array(part) and self.flag_lists(kind):
            return f'{self.flags_call(declared.array(part)[1], what)}({owner}.{name})'
        return (self.call(part, what) or '{}').format(f'{owner}.{name}')

    def struct_made(self, owner, made, fields, kind, what):
        """A struct made of another. Arrays are named first: of some structs the borrow checker takes them from variables only."""
        lists = [(name, part) for name, part in kind.fields if declared.array(part)]
        lines = ['        // By name first: the borrow checker takes some of these arrays from variables only.'] if lists else []
        lines += [f'        let {name} = {self.made_of(owner, name, part, what, kind)};' for name, part in lists] + [f'        {made} {{']
        for name, part in fields:
            if (name, part) in lists:
                lines.append(f'            {name},')
            else:
                lines.append(f'            {name}: {self.made_of(owner, name, part, what) if (name, part) in kind.fields else self.zero_of(part)},')
        return lines + ['        }']

    def of_struct(self, kind):
        return self.struct_made('value', kind.words, word_fields(kind), kind, 'of')

    def value_struct(self, kind):
        return self.struct_made('words', kind.name, kind.fields, kind, 'value')

    def of_enum(self, kind):
        lines = ['        match value {']
        for at, (name, part) in enumerate(kind.variants):
            name_held = kind.holds[name]
            fields = [f'variant: {at}']
            for other, its in kind.variants:
                if its and other == name:
                    call = self.call(its, 'of')
                    fields.append(f'{name_held}: {call.format(name_held)}' if call else name_held)
                elif its:
                    fields.append(f'{kind.holds[other]}: {self.zero_of(its)}')
            pattern = self.variant(kind, name) + (f'({name_held})' if part else '')
            lines.append(f'            {pattern} => {kind.words} {{ {", ".join(fields)} }},')
        return lines + ['        }']

    def value_enum(self, kind):
        lines = ['        match words.variant {']
        for at, (name, part) in enumerate(kind.variants):
            text = self.variant(kind, name)
            if part:
                call = self.call(part, 'value') or '{}'
                text += f'({call.format(f"words.{kind.holds[name]}")})'
            number = '_' if name == kind.variants[-1][0] else at
            lines.append(f'            {number} => {text},')
        return lines + ['        }']
