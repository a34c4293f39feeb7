#!/usr/bin/env python3
"""Makes the definitions of `rules`, `colours`, `areas`, `records` and `sheet` wrong by one token, one at a time, in a copy of the repository, and tells which wrong
ones the checker still takes: no promise speaks against those. Those of `rules` are held to its promises and to the closed runs of `cases`.
docs/DECISIONS.md lists them.

    python3 tests/wrong.py [--most N] [--seed S] [FILE..]

FILE is a name in crates/rules/specs, as Table, or a crate and a name, as colours/Rows, areas/Rows, records/Lives or sheet/Columns; with none, every file of rules is tried. A change
is a figure one more or one less, a test, a truth value, a constructor or a field for another of its type, a `not` left out, a `Some` for
a `None` or a `None` for a `Some`, or the test of an `Option` field for a truth value of its struct. A change
that no longer has a type is left out of the count. Each takes some seconds; at most N are tried, chosen by the seed S.
"""
import argparse
import os
import random
import re
import shutil
import subprocess
import tempfile

RULES = ['Numbers', 'Operands', 'Places', 'Speeds', 'Hold', 'Table', 'Checks', 'Releases', 'BrakeTest', 'Odometer', 'Shows',
         'colours/Numbers', 'colours/Rows', 'areas/Numbers', 'areas/Rows', 'areas/Stays', 'records/Numbers', 'records/Rows', 'records/Lives', 'Reports', 'Commands', 'Refusals', 'Calls']
HELD = {'rules': 'cases'}  # the crate above, whose check proves this one too
SWAPS = {'ltb': ['leb'], 'leb': ['ltb'], 'lt': ['le'], 'le': ['lt'], '&&': ['||'], '||': ['&&'], 'true': ['false'], 'false': ['true'],
         'min': ['Prim.Native.Nat.max'], 'not': [''], 'None': ['(Some 0)', '(Some true)', '(Some false)'],
         'is_none': ['Rattle.std.specs.Prelude.is_some'], 'is_some': ['Rattle.std.specs.Prelude.is_none']}
TOKEN = re.compile(r'0x[0-9A-F]+\b|\b\d+\b|\b(?:ltb|leb|lt|le|true|false|min|not|is_none|is_some)\b|&&|\|\||\b(?:[A-Z]\w*\.)?[A-Z]\w*\b|(?<=[\w)])\.[a-z]\w*\b')
SOME = re.compile(r'Some (?:[\w.]+|\((?:[^()]|\((?:[^()]|\([^()]*\))*\))*\))')  # with what it holds
OWNER = re.compile(r'[\w.]+$')  # what a field is of
TESTED = re.compile(r'is_(none|some) ([\w.]+)\.(\w+)')


def fields_and_variants():
    """field -> the fields of its struct that have its type; enum -> its variants; truth value -> the `Option` fields of its struct."""
    fields, variants, options = {}, {}, {}
    for crate in ('rules', 'colours', 'areas', 'records', 'sheet', 'curve', 'pressure'):
        with open(f'crates/{crate}/src/lib.rt') as f:
            text = re.sub(r'//.*', '', f.read())
        for body in re.findall(r'pub struct \w+ \{(.*?)\n\}', text, re.S):
            of = re.findall(r'pub (\w+): ([^\n]*),', body)
            for name, kind in of:
                fields.setdefault(name, set()).update(other for other, same in of if same == kind and other != name)
                if kind == 'bool':
                    options.setdefault(name, set()).update(other for other, same in of if same.startswith('Option<'))
        for name, body in re.findall(r'pub enum (\w+) \{(.*?)\n\}', text, re.S):
            variants[name] = re.findall(r'\b([A-Z]\w*)\b(?:\([^)]*\)| = \w+)?,', body)
    return fields, variants, options


def with_options(line, token, options):
    """(start, end, text) for each change that turns on an `Option`: what a `Some` holds left out, and the test of an `Option` field
    for a truth value of its struct, or the other way round."""
    old = token.group()
    if old == 'Some':
        held = SOME.match(line, token.start())
        if held:
            yield held.start(), held.end(), 'None'
    elif old.startswith('.'):
        owner = OWNER.search(line[:token.start()])
        for name in sorted(options.get(old[1:], ())) if owner else ():
            yield owner.start(), token.end(), f'(Rattle.std.specs.Prelude.is_some {owner.group()}.{name})'
    elif old in ('is_none', 'is_some'):
        tested = TESTED.match(line, token.start())
        for name, others in sorted(options.items()) if tested else ():
            if tested.group(3) in others:
                value = f'{tested.group(2)}.{name}'
                yield tested.start(), tested.end(), f'not {value}' if tested.group(1) == 'none' else value


def wrong(text, fields, variants, options):
    """(line number, line, changed line) for each change of a definition's body."""
    inside = False
    imported = [names.split(', ') for names in re.findall(r'TheVariants\.\{(.*)\}', text)]
    for at, line in enumerate(text.split('\n')):
        start = re.match(r'(?:abbrev |unfoldable )?(?:pub )?(\w\S*) :', line)
        if start:
            inside = start.group(1)[0].islower()
            continue
        if re.match(r'(?:pub )?(?:record|data) ', line):
            inside = False
        if not inside or re.match(r'\s*(?:use |--|$)', line):
            continue
        body = line.find('=') + 1 if ' = ' in line and not line.startswith(' ') else 0
        for token in TOKEN.finditer(line, body):
            old = token.group()
            if old in SWAPS:
                others = SWAPS[old]
            elif old.startswith('0x'):
                others = [hex(int(old, 16) + 1)]
            elif old.isdigit():
                others = [str(int(old) + 1)] + ([str(int(old) - 1)] if int(old) else [])
            elif old.startswith('.'):
                others = ['.' + name for name in sorted(fields.get(old[1:], ()))]
            elif '.' in old:
                enum, variant = old.split('.')
                others = [f'{enum}.{name}' for name in variants.get(enum, ()) if name != variant]
            else:
                others = [name for names in imported if old in names for name in names if name != old]
            changes = [(token.start(), token.end(), new) for new in others] + list(with_options(line, token, options))
            for start, end, new in changes:
                yield at, line, line[:start] + new + line[end:]


def main():
    args = argparse.ArgumentParser()
    args.add_argument('--most', type=int, default=10**9)
    args.add_argument('--seed', type=int, default=1)
    args.add_argument('files', nargs='*')
    args = args.parse_intermixed_args()
    os.chdir(os.path.join(os.path.dirname(os.path.abspath(__file__)), '..'))
    tables = fields_and_variants()
    found = []
    for name in args.files or RULES:
        crate, name = name.split('/') if '/' in name else ('rules', name)
        with open(f'crates/{crate}/specs/{name}.antt') as f:
            found += [(crate, name, *change) for change in wrong(f.read(), *tables)]
    random.Random(args.seed).shuffle(found)
    counts = {'taken': 0, 'refused': 0, 'no type': 0}
    with tempfile.TemporaryDirectory() as work:
        copy = os.path.join(work, 'copy')
        shutil.copytree('.', copy, symlinks=True, ignore=shutil.ignore_patterns('.git', 'out'))
        for crate, name, at, line, new in sorted(found[:args.most]):
            path = os.path.join(copy, f'crates/{crate}/specs/{name}.antt')
            with open(path) as f:
                text = f.read()
            lines = text.split('\n')
            lines[at] = new
            with open(path, 'w') as f:
                f.write('\n'.join(lines))
            run = subprocess.run(['rt', 'check'], cwd=os.path.join(copy, 'crates', HELD.get(crate, crate)), capture_output=True, text=True)
            with open(path, 'w') as f:
                f.write(text)
            errors = re.findall(r'^\./(\S+?\.antt:\d+)\S*: error: `?([\w-]*)', run.stdout + run.stderr, re.M)
            word = 'taken' if run.returncode == 0 else 'no type' if any(e[0].startswith('specs/') for e in errors) else 'refused'
            counts[word] += 1
            if word != 'no type':
                print(f'{word} {name}:{at + 1}: {line.strip()}  ->  {new.strip()}' + (f'   (first {errors[0][0]} {errors[0][1]})' if errors else ''), flush=True)
    print(f'{len(found)} ways to be wrong; ' + ', '.join(f'{n} {word}' for word, n in counts.items()))


main()
