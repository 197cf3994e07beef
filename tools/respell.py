#!/usr/bin/env python3
"""Respells the repository's own definitions and lemmas: words in snake case, types in camel case.

Run once at the top of a checkout, after the toolchain's port.py. Names that the toolchain makes (goals, steps, fields of
contexts) and names of its library stay as they are; so do functions of src/, strings, inputs and outputs.
"""
import pathlib
import re
import sys

ROOT = pathlib.Path('.')
SIGNATURE = re.compile(r'^(\s*)(?:\|\s*)?((?:(?:abbrev|unfoldable|pub|data|record|ruleset)\s+)*)([^\s(){}.:,;«»]+)\s+(?:\([^:]*:.*\)\s*)?:\s+(.*)$')
HEAD = re.compile(r'^\s*(?:pub\s+)?(data|record|ruleset)\s+([^\s(){}.:,;«»]+)')
DASHED = re.compile(r'[^\W\d_][^\s-]*(-[^\s-]+)+$')
QUOTED = re.compile(r'«([^»]+)»')
PLAIN = re.compile(r'[^\W\d]\w*$')
# Variables of proofs, and names that an import gives.
LOCAL = {name: name.replace('-', '_') for name in (
    'alone-back b-is served-is t-size t-sound t-whole w-is telling-reads two-lines seen-lawful judged-trace now-served now-missed'
    ' mount-numbered all-answer').split()} | {'All-same': 'all_same'}
# Words that stay in quotes.
RESERVED = set('data record deriving module where use mod pub package open as unfoldable abbrev axiom unfold unfolding ruleset mutual'
               ' infix infixl infixr elim let in do Type coe fcoe tcoe hcom com'.split())
TOKEN = re.compile(r"[^\s(){}.,;\[\]«»λ|↦]+")


def antt_files():
    return sorted(p for p in ROOT.glob('crates/*/*/**/*.antt') if p.parts[2] in ('specs', 'proofs'))


def own_names():
    names = {}
    for path in antt_files():
        for line in path.read_text().splitlines():
            if line.lstrip().startswith('--'):
                continue
            head = HEAD.match(line)
            if head:
                names.setdefault(head.group(2), []).append(path)
                continue
            m = SIGNATURE.match(line)
            if m and not m.group(4).startswith('goal.'):
                names.setdefault(m.group(3), []).append(path)
    return names


def respelled(name):
    if name[0].isupper():
        return ''.join(part[0].upper() + part[1:] for part in re.split('[-_]', name) if part)
    return name.replace('-', '_')


def unquoted(match, mapping):
    name = mapping.get(match.group(1), match.group(1))
    return name if PLAIN.match(name) and name not in RESERVED else f'«{name}»'


def main():
    names = own_names()
    mapping = dict(LOCAL)
    for name, places in names.items():
        capital = name[0].isupper()
        if capital and all('proofs' in p.parts for p in places):
            continue  # a lemma about a fact keeps the fact's name in front of a dash
        if DASHED.match(name) or (capital and '_' in name):
            mapping[name] = respelled(name)
    taken = set(names)
    for name, new in sorted(mapping.items()):
        if new in taken:
            print(f'falls together: {name} -> {new}: {[str(p) for p in names.get(name, [])]} {[str(p) for p in names[new]]}')
    by_new = {}
    for name, new in mapping.items():
        by_new.setdefault(new, []).append(name)
    for new, olds in by_new.items():
        if len(olds) > 1:
            print(f'two names: {olds} -> {new}')
    if '--list' in sys.argv:
        for name, new in sorted(mapping.items()):
            print(name, new, sorted({p.parts[1] for p in names.get(name, [])}))
        return
    changed = 0
    for path in antt_files():
        text = path.read_text()
        lines = []
        for line in text.splitlines(keepends=True):
            if line.lstrip().startswith('--'):
                lines.append(line)
                continue
            lines.append(TOKEN.sub(lambda m: mapping.get(m.group(0), m.group(0)), line))
        new = ''.join(lines)
        new = QUOTED.sub(lambda m: unquoted(m, mapping), new)
        if new != text:
            path.write_text(new)
            changed += 1
    for path in sorted(ROOT.glob('crates/*/src/**/*.rt')):
        text = path.read_text()
        new = QUOTED.sub(lambda m: unquoted(m, mapping), text)
        if new != text:
            path.write_text(new)
            changed += 1
    print(f'respelled: {len(mapping)} names, {changed} files')


main()
