"""The exports of the libraries for firmware, each in a crate of exports: it calls the library's function with its clauses."""

import os
import re

# the modules of each library that have functions to be exported
LIBRARIES = {
    'woldgrater': ['freeze', 'econ', 'relief', 'joined', 'units'],
    'woldgrater_service': ['freeze', 'econ', 'relief', 'play', 'chunks'],
}
# the modules whose exports have a crate of their own, and in the archive an object: in one object with others, the functions that both
# call are called there too, with copies of whole states, and each row takes up to twice as long
APART = {'joined': 'woldgrater_rooftop_c', 'units': 'woldgrater_board_c'}
FUNCTION = re.compile(r"((?://.*\n)+)(?:#\[.*\]\n)*pub fn (woldgrater_\w+)(<'a>)?\(([^)]*)\)((?: -> \w+)?)\n((?:    .*\n)+)\{", re.M)


def imports(text, mark):
    """The names that a file takes by such lines, each with its path."""
    found = {}
    for path, several, one in re.findall(rf'(?m)^{mark} ([\w.:]+?)(?:\.|::)(?:\{{(.*)\}}|(\w+));$', text):
        for name in (several or one).split(', '):
            found[name] = path
    return found


def exported(library, module, text):
    """The text of a module of exports."""
    about = next(line for line in text.split('\n') if line.startswith('// ') and 'tools/words' not in line)
    functions = FUNCTION.findall(text)
    words = set(re.findall(r'\w+|[≡≤]', ' '.join(clauses for *_, clauses in functions)))
    lines = [f'// Written by tools/words from the library {library}: an export says its clauses itself, and takes no generic record.', about]
    pages = {}
    for name, path in imports(text, 'ghost use').items():
        if name.strip('◌') in words:
            pages.setdefault(path, []).append(name)
    lines += [f'ghost use {path}.{{{", ".join(names)}}};' for path, names in pages.items()] + ['']
    types = {name for *_, parameters, result, _ in functions for name in re.findall(r'[A-Z]\w+', f'{parameters} {result}')}
    homes = imports(text, 'use')
    lines += sorted(f'use {homes.get(name, f"{library}::{module}").replace("crate::", library + "::")}::{name};' for name in types)
    for comment, name, life, parameters, result, clauses in functions:
        given = ', '.join(re.findall(r'(\w+):', parameters))
        lines += ['', f'{comment}#[unsafe(no_mangle)]', f'pub extern "C" fn {name}{life}({parameters}){result}',
                  f'{clauses}{{', f'    {library}::{module}::{name}({given})', '}']
    return '\n'.join(lines) + '\n'


def files(root, made):
    """The modules of exports; `made` has the texts of libraries' modules that are written too."""
    found = {}
    for library, modules in LIBRARIES.items():
        for module in modules:
            path = f'crates/{library}/src/{module}.rt'
            text = made.get(path)
            if text is None:
                with open(os.path.join(root, path), encoding='utf-8') as source:
                    text = source.read()
            found[f'crates/{APART.get(module, library + "_c")}/src/{module}.rt'] = exported(library, module, text)
    return found
