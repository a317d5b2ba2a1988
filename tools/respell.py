#!/usr/bin/env python3
"""respell.py: spells the definitions and lemmas of the crates as the library spells its own.

usage: tools/respell.py [--check]          at the top of the repository, once, right after the kit's port.py

A definition or a lemma is in snake case, with no dash and no capital inside (`carriedBy` is `carried_by`, `row-first` is `row_first`), and
one that is a fact and already has a capital is in camel case (`Told-by` is `ToldBy`). A name that is declared in a file of specs/ or proofs/
turns, but for those that only a function's own proof file declares, whose spelling is that of the goals. Functions, types, fields and
constants of src/ keep their names, and so do strings, inputs and outputs.

What turns: the code of every .antt file, and its comments' code spans; in .rt files the clauses and the `ghost use` lines, and code spans; the
texts of must-fail/*.edit; code spans of README.md and docs/. Two names that would be one have a line 'left:'; where
a label, a field or a folder is spelled so already, a line says 'look:'.
Exit status: 0, or 1 where a line begins 'left:'.
"""
import collections
import glob
import os
import re
import sys

WORD = re.compile(r'[^\s(){}.;,@"«»`]+')
DECLARED = re.compile(
    r'(?m)^ *(?:pub |abbrev |unfoldable |record |data )*([^\s(){}.;,@"«»:`]+)(?: \{[^{}\n]*\}| \([^()\n]*\))* :(?= |$)')
# Lemmas that would meet a definition.
LEMMAS = {'bits-at', 'has-key'}
OWN = re.compile(r'/proofs/(?:.*/)?(?:Proof|Answers|Invariants)\.antt$')


def turned(name):
    """The new spelling of a name."""
    if name[0].isupper():
        return re.sub(r'-([a-z])', lambda m: m.group(1).upper(), name) if re.search(r'[a-z]', name) and not name.isupper() else name
    words = re.sub(r'(?<=[a-z0-9])[A-Z]', lambda m: '_' + m.group(0).lower(), name)
    return words.replace('-', '_')


def read(path):
    with open(path, encoding='utf-8') as f:
        return f.read()


def uncommented(text):
    return re.sub(r'(?m)(?:(?<=\s)|^)--(?=\s|$).*$', '', text)


def files(pattern):
    return [p for p in sorted(glob.glob(pattern, recursive=True)) if '/out/' not in p]


def table():
    antt = files('crates/*/specs/**/*.antt') + files('crates/*/proofs/**/*.antt')
    sources = files('crates/*/src/**/*.rt')
    declared, words, functions, fields = set(), collections.defaultdict(set), set(), set()
    for path in antt + sources:
        text = uncommented(read(path)) if path.endswith('.antt') else read(path)
        for word in WORD.findall(text):
            words[word].add(path)
        if path.endswith('.rt'):
            functions.update(re.findall(r'\bfn (\w+)', text))
            fields.update(re.findall(r'(?m)^ +(?:pub )?([a-z]\w*): ', text))
        elif not OWN.search(path):
            declared.update(DECLARED.findall(text))
    rows = {}
    for name in sorted(declared):
        if re.fullmatch(r"[A-Za-z0-9_'-]+", name) and turned(name) != name and not (name[0].isupper() and '-' not in name):
            rows[name] = turned(name) + ('_lem' if name in LEMMAS else '')

    # A lemma that would have the name of a definition gets `_lem`.
    for name, new in list(rows.items()):
        if '-' not in name and not name[0].isupper():
            for other in [o for o in rows if o != name and rows[o] == new and '-' in o] + ([new] if new in declared - fields else []):
                if words[other] & words[name]:
                    rows[other] = new + '_lem'
    left = []
    taken = collections.defaultdict(list)
    for name, new in rows.items():
        taken[new].append(name)
    for new, olds in sorted(taken.items()):
        both = [(a, b) for a in olds for b in olds if a < b and words[a] & words[b]]
        meets = set() if new in rows else {p for o in olds for p in words[o] & words.get(new, set())}
        if new in functions and new not in declared:
            meets = {p for p in meets if p.endswith('.antt') and not OWN.search(p)}
        left += [f'left: {a} and {b} would both be {new}' for a, b in both]
        left += [f'look: {" or ".join(olds)} meets {new}, a label or a folder, in {p}' for p in sorted(meets)[:3]]
    return rows, left


def in_words(text, rows):
    """The text with its names turned, strings as they are."""
    parts = re.split(r'("(?:[^"\\\n]|\\.)*")', text)
    return ''.join(p if i % 2 else WORD.sub(lambda m: rows.get(m.group(0), m.group(0)), p) for i, p in enumerate(parts))


def in_spans(text, rows):
    return re.sub(r'`[^`\n]+`', lambda m: in_words(m.group(0), rows), text)


def antt(text, rows):
    out = []
    for line in text.split('\n'):
        at = re.search(r'(?:(?<=\s)|^)--(?=\s|$)', line)
        cut = at.start() if at else len(line)
        out.append(in_words(line[:cut], rows) + in_spans(line[cut:], rows))
    return '\n'.join(out)


def rust(text, rows):
    out = []
    for line in text.split('\n'):
        at = line.find('//')
        cut = at if at >= 0 and line[:at].count('"') % 2 == 0 else len(line)
        code = line[:cut]
        if re.match(r'\s*(?:pub )?ghost use ', code) or any(mark in code for mark in '≡≤λ') or re.search(r'(?:requires|ensures)\*? .*\{', code):
            code = in_words(code, rows)
        out.append(code + in_spans(line[cut:], rows))
    return '\n'.join(out)


def edit(text, rows):
    kind = 'rt' if re.search(r'(?m)^file: .*\.rt$', text) else 'antt'
    return re.sub(r'(?m)^((?:old|new): ?)(.*)$', lambda m: m.group(1) + (rust if kind == 'rt' else antt)(m.group(2), rows), text)


def main():
    if not os.path.isdir('crates'):
        sys.exit('respell: crates/ isn\'t here')
    rows, left = table()
    changed = 0
    for pattern, how in (('crates/*/specs/**/*.antt', antt), ('crates/*/proofs/**/*.antt', antt), ('crates/*/src/**/*.rt', rust),
                         ('crates/*/must-fail/*.edit', edit), ('README.md', in_spans), ('docs/*.md', in_spans)):
        for path in files(pattern):
            old = read(path)
            new = how(old, rows)
            if new != old:
                changed += 1
                if '--check' not in sys.argv:
                    with open(path, 'w', encoding='utf-8') as f:
                        f.write(new)
    print('\n'.join(left + [f'respell: {len(rows)} names, {changed} files']))
    return 1 if any(line.startswith('left') for line in left) else 0


sys.exit(main())
