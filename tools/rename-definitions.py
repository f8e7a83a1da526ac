#!/usr/bin/env python3
"""Gives definitions the names that definition-names.txt lists.

    rename-definitions.py [--names FILE]     in the project's root

A definition is renamed where it stands and wherever a file imports it; with it must-fail edits of that file. A word that merely looks alike stays: what a file
neither defines nor imports is another's. Comments change in backquotes alone. A second run changes nothing. `rename-crates.py --patch` runs it too, so that a
patch written in old names becomes one in new names. Python 3, standard library only.
"""
import argparse
import glob
import os
import re

BEFORE = r'(?<![^\s(){}\[\];,.⌜⌝`"λ])'
AFTER = r'(?![^\s(){}\[\];,.⌜⌝`"])'
MARKS = r'(?:(?:unfoldable|abbrev|pub) )*'


def read(path):
    with open(path, encoding='utf-8', newline='') as f:
        return f.read()


def write(path, old, new):
    if new != old:
        with open(path, 'w', encoding='utf-8', newline='') as f:
            f.write(new)
    return new != old


def load(path):
    """The definitions and the modules to be renamed."""
    lines = [line.split() for line in read(path).splitlines() if line and not line.startswith('#')]
    return [l for l in lines if len(l) == 5], [l for l in lines if len(l) == 4]


def token(old, new, text):
    return re.sub(BEFORE + re.escape(old) + AFTER, new, text)


def in_contracts(text, old, new):
    return re.sub(r'⌜[^⌝]*⌝', lambda m: token(old, new, m.group(0)), text)


def in_proofs(text, old, new):
    out = []
    for line in text.split('\n'):
        i = line.find('--')
        code, comment = (line, '') if i < 0 else (line[:i], line[i:])
        if not re.match(r'\s*use ', code):
            code = token(old, new, code)
            comment = re.sub(r'`[^`]*`', lambda m: token(old, new, m.group(0)), comment)
        out.append(code + comment)
    return '\n'.join(out)


def imported(crate, owner, part, module):
    return f'Rattle·{owner}·{part}.{part}.{module}' if crate == owner else f'Rattle·{owner}.{part}.{module}'


def plan(path, text, definitions):
    """The names that change in this file, and its text with the `use` lines changed."""
    crate, changes = path.split('/')[1], []
    for owner, part, module, old, new in definitions:
        if path == f'crates/{owner}/{part}/{module}.antt':
            if re.search(rf'^\s*{MARKS}(?:record |data )?{re.escape(old)}(?= |:)', text, re.M):
                changes.append((old, new))
            continue
        full = re.escape(imported(crate, owner, part, module))

        def listed(m):
            names = re.split(r',\s*', m.group(2).strip())
            here = [n.split(' as ')[-1] for n in names if n.split(' as ')[0] == old]
            changes.extend((n, new) for n in here)
            return m.group(1) + ', '.join(new if n.split(' as ')[0] == old else n for n in names) + '}' if here else m.group(0)

        text = re.sub(r'(use ' + full + r'\.\{)([^}]*)\}', listed, text)
        alias = re.search(r'use ' + full + r' as (\w+)', text)
        if alias:
            changes.append((f'{alias.group(1)}.{old}', f'{alias.group(1)}.{new}'))
    return changes, text


def rename(path, definitions):
    text = read(path)
    changes, new = plan(path, text, definitions)
    for old, name in changes:
        if '.' in old:
            new = token(old, name, new)
        else:
            new = in_contracts(new, old, name) if path.endswith('.rt') else in_proofs(new, old, name)
    if not write(path, text, new):
        return False
    crate, inner = path.split('/')[1], '/'.join(path.split('/')[2:])
    for edit in glob.glob(f'crates/{crate}/must-fail/*.edit'):
        lines = read(edit)
        if f'file: {inner}\n' in lines:
            renamed = lines
            for old, name in changes:
                renamed = '\n'.join(token(old, name, l) if l[:5] in ('old: ', 'new: ') else l for l in renamed.split('\n'))
            write(edit, lines, renamed)
    return True


def rename_module(crate, part, old, new):
    folder = f'crates/{crate}/{part}'
    if os.path.exists(f'{folder}/{old}.antt'):
        os.rename(f'{folder}/{old}.antt', f'{folder}/{new}.antt')
    if os.path.exists(f'{folder}/Lib.antt'):
        lib = read(f'{folder}/Lib.antt')
        write(f'{folder}/Lib.antt', lib, re.sub(rf'^pub mod {old}$', f'pub mod {new}', lib, flags=re.M))
    reference = re.compile(rf'(Rattle·{crate}(?:·{part})?(?:\.{part})?\.(?:{part}\.)?){old}(?=[.\s;])')
    for path in sources(('.antt', '.rt', '.edit')):
        text = read(path)
        renamed = reference.sub(lambda m: m.group(1) + new, text)
        if path.startswith(f'crates/{crate}/must-fail'):
            renamed = renamed.replace(f'file: {part}/{old}.antt', f'file: {part}/{new}.antt')
        write(path, text, renamed)


def sources(ends):
    return sorted(p for p in glob.glob('crates/**/*', recursive=True) if p.endswith(ends))


def main():
    here = os.path.dirname(os.path.abspath(__file__))
    p = argparse.ArgumentParser(description=__doc__, formatter_class=argparse.RawDescriptionHelpFormatter)
    p.add_argument('--names', default=os.path.join(here, 'definition-names.txt'))
    definitions, modules = load(p.parse_args().names)
    changed = sum(rename(path, definitions) for path in sources(('.antt', '.rt')))
    for module in modules:
        rename_module(*module)
    print(f'definitions renamed in {changed} files')


if __name__ == '__main__':
    main()
