#!/usr/bin/env python3
"""Old and new side by side: tools/port/sides.py CONTRACTS.json OLD_FOLDER NEW_FOLDER

Reads what the kit's contracts.py wrote with --json of two checkouts, and prints as Markdown the public types, signatures and clauses that
changed, and the definitions and theorems of specs/ whose statement changed otherwise than by the name of the Option (mathlib's none and some,
now the Prelude's None and Some); then the definitions that are new and those that are gone. docs/DESIGN-PASS.md ends with it.
"""
import json
import pathlib
import re
import sys

data = json.load(open(sys.argv[1]))
old_top, top = map(pathlib.Path, sys.argv[2:4])


def option(text):
    return re.sub(r'\bnone\b', 'None', re.sub(r'\bsome\b', 'Some', text))


def is_public(crate, path, name):
    name = name.split('::')[-1].split()[-1]
    file = top / 'crates' / crate / path
    return file.exists() and re.search(rf'^ *pub (?:extern "C" )?fn {re.escape(name)}\b', file.read_text(), re.M)


def short(text):
    return re.sub(r'\s+', ' ', text).strip().replace(', )', ')').replace('( ', '(')


def clauses(rows):
    return '; '.join((f'{name}: ' if name else '') + short(text) for name, text in rows) or 'none'


def statement(texts):
    """What is stated, without its proof or its clauses."""
    out = []
    for text in texts:
        m = re.match(r"((?:abbrev |unfoldable )?(?:pub )?)([\w'\-◌+*≤<≡]+) : (.*)$", text, re.S)
        if m:
            name = re.escape(m.group(2))
            cut = re.search(rf" (?:unfolding (?:[\w'\-]+ )+)?{name}(?= )", m.group(3))
            if m.group(1).startswith(('abbrev', 'unfoldable')):
                out.append(short(text))
            else:
                out.append(short(text[:m.start(3) + cut.start()] if cut else text))
        else:
            out.append(short(text))
    return out


def types(folder):
    """The public structs, enums and traits, each with its ghost facts and its model."""
    found = {}
    for path in sorted(folder.glob('crates/*/src/**/*.rt')):
        crate = path.relative_to(folder).parts[1]
        text = re.sub(r' *//[^\n]*', '', path.read_text())
        for m in re.finditer(r'^(?:#\[derive[^\n]*\n)?pub (?:struct|enum|trait) (\w+)[^\n]*\{\n.*?^\}$', text, re.M | re.S):
            model = re.search(rf'^impl(?:<[^>]*>)? Model for {m.group(1)}\b.*?^\}}$', text, re.M | re.S)
            found[crate, m.group(1)] = short(m.group(0)) + (' ' + short(model.group(0)) if model else '')
    return found


def names(folder):
    """The public names that stand in specs/, by crate."""
    found = {}
    for path in sorted(folder.glob('crates/*/specs/**/*.antt')):
        crate = path.relative_to(folder).parts[1]
        for m in re.finditer(r"^ *(?:abbrev |unfoldable )?pub (?:record |data )?([\w'\-]+)(?= )", path.read_text(), re.M):
            if m.group(1) not in ('mod', 'use', 'record', 'data'):
                found.setdefault(crate, set()).add(m.group(1))
    return found


print('### Public types\n')
olds, news = types(old_top), types(top)
for key in sorted(olds | news):
    old, new = olds.get(key), news.get(key)
    if old != new:
        print(f'- `{"::".join(key)}`' + (f'\n  - was `{old}`' if old else '') + (f'\n  - is `{new}`' if new else '\n  - is gone'))
print('\n### Public functions: signatures\n')
for where, old, new in data['signatures changed']:
    crate, path, name = where.split(' ', 2)
    if is_public(crate, path, name):
        print(f'- `{crate}::{name}`\n  - was `{short(old)}`\n  - is `{short(new)}`')
print('\n### Public functions: clauses\n')
for where, required, ensured, requires, ensures in data['contracts changed']:
    crate, path, name = where.split(' ', 2)
    if not is_public(crate, path, name):
        continue
    print(f'- `{crate}::{name}`')
    for word, old, new in (('requires', required, requires), ('ensures', ensured, ensures)):
        if old != new:
            print(f'  - {word}, was `{clauses(old)}`\n  - {word}, is `{clauses(new)}`')
same = 0
print('\n### Definitions and theorems of specs\n')
for crate, name, old, new in data['definitions']['changed']:
    old, new = statement(old), statement(new)
    if [option(t) for t in old] == [option(t) for t in new]:
        same += 1
        continue
    print(f'- `{crate}`, `{name}`\n  - was `{" / ".join(old)}`\n  - is `{" / ".join(new)}`')
print(f'\nOf {same} more only the proof or the name of the Option changed.')
olds, news = names(old_top), names(top)
print('\n### Definitions and fields that are new, and gone\n')
for crate in sorted(olds | news):
    for word, left, right in (('new', news, olds), ('gone', olds, news)):
        if more := sorted(left.get(crate, set()) - right.get(crate, set())):
            print(f'- `{crate}`, {word}: ' + ', '.join(f'`{n}`' for n in more))
