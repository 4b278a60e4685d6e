"""The proofs that words stand for what they were made of. That the functions meet their definitions is found by the check."""

from . import declared
from .names import MADE, Names, order


class Proofs(Names):
    def back(self, mine):
        both = [kind for kind in mine if {'of', 'value'} <= self.wants[kind.name]]
        uses, body = {'use mathlib.Core.Path.{◌≡◌, refl}' if any(kind.variants for kind in both) else 'use mathlib.Core.Path.{◌≡◌}'}, []
        laws = set()
        for kind in both:
            uses.add('use Rattle.std.specs.Prelude.{Float, Option, None, Some}' if self.library(kind) else f'use {self.declared(kind)}.{{{kind.name}}}')
            uses.add(f'use {self.page(kind)}.{{{kind.to}, {kind.back}}}')
            unfolded = f'{kind.back} {kind.to}'
            body += ['', f'pub {kind.law} : (s : {kind.spec}) → {kind.back} ({kind.to} s) ≡ s', f'unfolding {unfolded}']
            if kind.variants and not self.library(kind):
                uses.add(f'use {self.declared(kind)}.TheVariants.{{{", ".join(name for name, _ in kind.variants)}}}')
            if kind.variants:
                for name, part in kind.variants:
                    if part and part not in declared.PLAIN:
                        body.append(f'{kind.law} ({name} x) = λ i. {name} ({self.law_of(part, "x")})')
                    else:
                        body.append(f'{kind.law} {f"({name} x)" if part else name} = refl')
            else:
                body += [f'{kind.law} s = λ i. record {{'] + [f'  {name} = {self.law_of(part, f"s.{name}")};' for name, part in kind.fields] + ['}']
            for _, part in kind.fields or kind.variants:
                if not part:
                    continue
                one = declared.element(part)
                if one == 'bool':
                    laws.add((self.elements(), 'flag_back'))
                elif one in self.types and self.home(self.types[one]) != self.crate:
                    laws.add((self.laws(self.types[one]), self.types[one].law))
                if declared.array(part) and one not in declared.PLAIN:
                    laws.add((self.elements(), 'each_back'))
                    if one == 'bool':
                        uses.add(f'use {self.flags_page()}.{{flag_word, word_flag}}')
                    else:
                        uses.add(f'use {self.page(self.types[one])}.{{{self.types[one].to}, {self.types[one].back}}}')
        for page in sorted({page for page, _ in laws}):
            uses.add(f'use {page}.{{{", ".join(sorted(name for where, name in laws if where == page))}}}')
        return f'-- The words of a value stand for the value. {MADE}\n' + '\n'.join(sorted(uses, key=order)) + '\n' + '\n'.join(body) + '\n'
