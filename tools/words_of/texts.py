"""The files of one crate of words."""

from .definitions import Definitions
from .names import MADE
from .proofs import Proofs
from .sources import Sources


class Writer(Sources, Definitions, Proofs):
    """Writes the files of one crate of words."""

    def files(self, kind):
        asked = self.wants[kind.name]
        return {
            f'{self.crate}/src/{kind.file}.rt': self.source(kind, asked),
            f'{self.crate}/specs/{kind.page}.antt': self.definitions(kind, asked),
        }

    def tables(self, mine, about):
        what = 'as words of 8 bytes that a caller in C can hold'
        first = self.crate == 'block_words'
        source = [f'// What C holds of {about}: the fields of each type in their order, {what}. {MADE}', '#![tactic(auto)]', ''] + [f'pub mod {kind.file};' for kind in mine]
        pages = [f'-- What C holds of {about}, {what}, and what words stand for (docs/DECISIONS.md, \'In firmware\'). {MADE}']
        pages += (['pub mod Flags'] if first else []) + [f'pub mod {kind.page}' for kind in mine]
        proofs = [f'-- That the words of {about} stand for it. {MADE}'] + (['pub mod Elements'] if first else []) + ['pub mod Back']
        found = {
            f'{self.crate}/src/lib.rt': '\n'.join(source) + '\n',
            f'{self.crate}/specs/Lib.antt': '\n'.join(pages) + '\n',
            f'{self.crate}/proofs/Lib.antt': '\n'.join(proofs) + '\n',
        }
        found[f'{self.crate}/proofs/Back.antt'] = self.back(mine)
        return found
