#!/usr/bin/env python3
"""Writes crates/colorgrad_exports/src anew from crates/colorgrad_c/src: of each public call there an export of its name.

usage: python3 tools/exports.py     at the top of the repository; then `rt fmt` in crates/colorgrad_exports

An export has the parameters and the clauses of its call, and hands it what it is given; `.ci/pinned` sees that it is so. A file
imports those definitions that its clauses name. lib.rt is written by hand."""
import re
from pathlib import Path

LIBRARY, EXPORTS = Path('crates/colorgrad_c/src'), Path('crates/colorgrad_exports/src')
CALL = re.compile(r'^pub (?:extern "C" )?fn (\w+)\(([^)]*)\)( -> [^\n{]+)?\n((?:    .*\n)*)\{\n', re.M)
IMPORT = re.compile(r'^ghost use (\S+)\.\{([^}]*)\};', re.M)


def imports(text, clauses):
    """The lines that bring what the clauses name, a name or an operator."""
    words = {part for word in re.findall(r'[^\s(){},;]+', clauses) for part in (word, word.split('.')[0])}
    for path, names in IMPORT.findall(text):
        kept = [name.strip() for name in names.split(',') if name.strip().replace('◌', '') in words]
        if kept:
            yield 'ghost use %s.{%s};\n' % (path, ', '.join(kept))


def main():
    for source in sorted(LIBRARY.glob('*.rt')):
        text = source.read_text()
        calls = CALL.findall(text)
        if not calls:
            continue
        about = ''.join(re.match(r'(?://.*\n)*', text)[0])
        made = about + ''.join(imports(text, ' '.join(clauses for _, _, _, clauses in calls)))
        for name, parameters, result, clauses in calls:
            handed = ', '.join(re.findall(r'(\w+): ', parameters))
            made += '\n#[unsafe(no_mangle)]\npub extern "C" fn %s(%s)%s\n%s{\n' % (name, parameters, result, clauses)
            made += '    colorgrad_c::%s::%s(%s)\n}\n' % (source.stem, name, handed)
        (EXPORTS / source.name).write_text(made)


main()
