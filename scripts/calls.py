#!/usr/bin/env python3
"""Holds docs/CALLS.md to the crates: fails where a call, its numbers or its promise's name differ.

A table of CALLS.md stands under a heading `## CRATE: ..`, a row a call: names | operands | numbers | promise. Checked:
- each public function of the crate is named in one row, and each name of a row is a public function of the crate;
- the first name of the promise column stands in the contract of each call of the row;
- the promise column says what the tag is where the promise is one of `WritesTagged` or of tags in place, as its definition has it, and only there;
- the numbers are those of the rows (`row .. N`) that the promise's definition reaches in specs/, in the order of scheme/specs/Checks
  (18 and 19, the programs' own, stand before it). A definition that says only that a number applies lists none.
"""
import re
import sys
from pathlib import Path

ROOT = Path(__file__).resolve().parent.parent
FUNCTION = re.compile(r'^( *)pub (?:extern "C" )?fn (\w+)', re.M)
NAME = re.compile(r"«?[A-Za-z_][\w']*»?")
# How a tag is defined, and how CALLS.md says it; the first that is found.
TAGS = [
    ('tag_from (Fresh', '; the tally is E, c is 1'), ('tag_of (add_carried', '; the tallies and the c are added'),
    ('tag_from (Switched', '; no tally, c is kept'), ('tag_from (Sample', '; no tally, c is kept'), ('switched_tags', '; of each row no tally, c is kept'),
    ('tag_from ', '; no tally, c is 1'),
]


def comments_out(text, mark):
    return re.sub(mark + r'[^\n]*', '', text)


def imported(text):
    """Which crate each name of the text's imports comes from."""
    names = {}
    for m in re.finditer(r'^(?:ghost )?use Rattle\.(\w+)\.specs\.[\w.]+\.\{([^}]*)\}', text, re.M):
        names.update((name.split(' as ')[0].strip(), m.group(1)) for name in m.group(2).split(','))
    return names


def functions(crate):
    """The public functions of a crate: name (with its type, if it is a method), contract, and where its names come from."""
    found = {}
    paths = (ROOT / 'crates' / crate / 'src').rglob('*.rt')
    for path in sorted(paths):
        text = comments_out(path.read_text(), '//')
        names = imported(text)
        for m in FUNCTION.finditer(text):
            owner = re.findall(r'^impl(?:<[^>]*>)? (\w+)', text[:m.start()], re.M) if m.group(1) else []
            name = (owner[-1] + '::' if owner else '') + m.group(2)
            body = re.search(r'^%s\{| \{$' % m.group(1), text[m.end():], re.M)
            found[name] = text[m.end():m.end() + body.start()], names
    return found


def definitions(crate):
    """The definitions of a crate's specs, and what each imports from where."""
    found, imports = {}, {}
    for path in sorted((ROOT / 'crates' / crate / 'specs').rglob('*.antt')):
        text = comments_out(path.read_text(), '--')
        imports.update(imported(text))
        for m in re.finditer(r'^(?:abbrev |unfoldable )?pub (?:record |data )?(\w+).*?(?=\n\n|\Z)', text, re.M | re.S):
            found[m.group(1)] = m.group(0)
    return found, imports


def row_numbers(text):
    """The N of each `row CONDITION N`."""
    found = set()
    for m in re.finditer(r'\brow ', text):
        at = m.end()
        if text[at] == '(':
            depth = 0
            for at in range(at, len(text)):
                depth += (text[at] == '(') - (text[at] == ')')
                if depth == 0:
                    break
        number = re.match(r'\S* (\d+)', text[at:])
        if number:
            found.add(int(number.group(1)))
    return found


def numbers_of(crate, name, specs, seen):
    """The numbers of the rows that a definition reaches."""
    if (crate, name) in seen:
        return set()
    seen.add((crate, name))
    found, imports = specs(crate)
    if name not in found:
        home = imports.get(name)
        return numbers_of(home, name, specs, seen) if home and home != crate else set()
    text = found[name]
    numbers = row_numbers(text)
    for other in set(NAME.findall(text)):
        if other != name and re.search(r'(_rows|_refusal|_answer|^rows|^tried)$', other):
            numbers |= numbers_of(crate, other, specs, seen)
    return numbers


def home_of(crate, name, specs):
    """The crate that defines a name."""
    found, imports = specs(crate)
    return crate if name in found or imports.get(name, crate) == crate else home_of(imports[name], name, specs)


def tag_said(definition):
    """What is to be said of the tag of a call with this promise."""
    if 'WritesTagged ' not in definition and 'switched_tags' not in definition:
        return None
    return next((said for how, said in TAGS if how in definition), 'a tag of another kind')


def listed(text):
    """The numbers of a cell: `1 to 5, 11`."""
    out = []
    for first, last in re.findall(r'(\d+)(?: to (\d+))?', text):
        out += range(int(first), int(last or first) + 1)
    return out


def tables():
    crate = None
    for line in (ROOT / 'docs/CALLS.md').read_text().splitlines():
        heading = re.match(r'## (\w+):', line)
        if heading:
            crate = heading.group(1)
        cells = [c.strip() for c in line.strip().strip('|').split(' | ')]
        if crate and line.startswith('| `') and not line.startswith('| `saigagalena_`') and len(cells) == 4:
            yield crate, re.findall(r'`([\w:]+)`', cells[0]), cells


def main():
    cache, faults, named = {}, [], {}

    def specs(crate):
        if crate not in cache:
            cache[crate] = definitions(crate)
        return cache[crate]

    order = specs('scheme')[0]
    order = [int(n) for part in ('sizes', 'values') for n in re.findall(r'\d+', order[part].split('=', 1)[1])]
    code = {}
    for crate, names, cells in tables():
        code.setdefault(crate, functions(crate))
        promise = re.search(r'`(\w+)', cells[3])
        for name in names:
            full = next((f for f in (name, 'saigagalena_' + name) if f in code[crate]), None)
            where = '%s: `%s`' % (crate, name)
            if full is None:
                faults.append(where + ' is no public function')
                continue
            named.setdefault(crate, set()).add(full)
            contract, names = code[crate][full]
            if promise is None:
                continue
            if promise.group(1) not in NAME.findall(contract):
                faults.append('%s: its contract does not name `%s`' % (where, promise.group(1)))
            home = names.get(promise.group(1), crate)
            want = sorted(numbers_of(home, promise.group(1), specs, set()), key=lambda n: order.index(n) if n in order else -1)
            definition = specs(home_of(home, promise.group(1), specs))[0].get(promise.group(1), '')
            said = next((said for _, said in TAGS if said in cells[3]), None)
            if said != tag_said(definition):
                faults.append('%s: the tag is said to be "%s", not "%s"' % (where, said, tag_said(definition)))
            if listed(cells[2]) != want:
                faults.append('%s: refuses by %s, and by CALLS.md %s' % (where, want, listed(cells[2])))
    for crate in code:
        for name in sorted(set(code[crate]) - named.get(crate, set())):
            faults.append('%s: `%s` is not in CALLS.md' % (crate, name))
    print('\n'.join(faults))
    print('calls: %d crates, %d public functions, %d differ' % (len(code), sum(map(len, code.values())), len(faults)))
    return 1 if faults else 0


sys.exit(main())
