#!/usr/bin/env python3
"""words.py CRATE: the words that `rattle check` and `rattle build` take for a crate of crates.txt, one a line, over the libraries that
`rt ci` left in crates/*/out/rlib. They are those that rt itself gives. Run in the crate's folder, rattle proves the crate so without
rt's pass over crates.txt, which takes most of a minute for an upper crate."""
import os
import shutil
import sys

TOP = os.path.dirname(os.path.dirname(os.path.abspath(__file__)))
KIT = os.path.dirname(os.path.dirname(os.path.realpath(shutil.which('rt') or '/none/bin/rt')))


def crates_in(file):
    """For each crate of crates.txt the libraries that it names, and the words behind its own name."""
    uses, kinds = {}, {}
    with open(file, encoding='utf-8') as lines:
        for line in lines:
            head, colon, rest = line.partition('#')[0].partition(':')
            if colon:
                name, *kind = head.split()
                uses[name], kinds[name] = rest.split(), kind
    return uses, kinds


def below(crate, uses):
    """The crates of the repository below a crate, each behind those that it uses."""
    found = []

    def visit(name):
        for it in uses[name]:
            if it in uses and it not in found:
                visit(it)
                found.append(it)

    visit(crate)
    return found


def words(crate, top=TOP):
    uses, kinds = crates_in(f'{top}/crates.txt')
    libraries = lambda name: f'{top}/crates/{name}/out/rlib'
    root = 'main' if os.path.isfile(f'{top}/crates/{crate}/src/main.rt') else 'lib'
    found = ['--crate-name', crate, f'src/{root}.rt', '--extern', f'std={KIT}/rlibs/std.rlib']
    for name in uses[crate]:
        if name not in uses:
            found += ['--extern', f'{name}={KIT}/rlibs/{name}.rlib']
    found += ['-L', f'dependency={KIT}/rlibs']
    for name in uses[crate]:
        if name in uses:
            found += ['--extern', f'{name}={libraries(name)}/{name}.rlib']
    for name in below(crate, uses):
        found += ['-L', f'dependency={libraries(name)}']
    found += ['--antt-project', f'{KIT}/rattle/logic/antt-project.json', '--logic-built', f'{KIT}/logic_built', '--links', f'{crate}=']
    return found + ['--crate-type', 'staticlib'] * ('staticlib' in kinds[crate])


if __name__ == '__main__':
    print('\n'.join(words(sys.argv[1])))
