#!/usr/bin/env python3
"""named.py: names the points of a function that its proof cites.

An answer in a `Proof.antt` gets `c`, what is known at one point of the function's code; `c .before` is the point before it, and so
back to the start. A chain of many `.before` says nothing to a reader, and a call that is put between two points breaks every chain
across it. This script gives each point that an answer cites a name, once, from the nearest to the farthest:

    let told = c .before .before in
    let parse = told .before in
    first-refused (parse .parse .ensures) (told .told .ensures)

so that a change of the code moves one line of each answer. A point is named after what stands there: a call, a branch (`if1`), an arm, and
`start` for the function's own arguments. No name is more than three `.before` from the one in front of it; where the points that are cited
lie farther apart, one between them gets a name too. Answers whose chains are three or shorter stay as they are.

    tools/named.py CRATE FN..     rewrites crates/CRATE/proofs/**/FN/Proof.antt (FN may be a path below proofs/)
    tools/named.py CRATE          rewrites every one with a chain of more than three, or a line of more than 150 characters
    FIELD=WORD                    among them: calls the point that holds FIELD by WORD
    --again                       also lays out what is named already: points that are cited no more lose their names
    --anchor                      the code has changed: finds each point again by what is cited there, wherever that stands now
    --no-gen                      takes target/gen-CRATE as it is; else `rt dev CRATE --generated` writes it first

It also breaks lines at 140 characters, and lists the terms that still stand twice in an answer: those want a `let`, or a law. Run `rt fmt` and
`rt check CRATE` after it.
"""
import glob
import os
import re
import subprocess
import sys

from layout import OPEN, SHUT, flat, leading_lets, tokens, wrapped

MOST = 3        # the longest chain that stays
# words of the language and its tactics: a point that is called so gets another name
TAKEN = set('data record where use mod pub as open module let in do elim with rw simp search cc omega grw cap now length refl sym ap'.split())
NAMES = dict(w.split('=') for w in sys.argv[1:] if '=' in w)


def records_of(text):
    """The records of a generated file: {record: [(field, its type)]}."""
    records, current = {}, None
    for line in text.split('\n'):
        m = re.match(r'\s+pub record (\S+)\s', line)
        if m:
            current = records.setdefault(m.group(1), [])
            continue
        m = re.match(r'\s+pub (\S+) :\s*(.*)', line)
        if m and current is not None:
            current.append((m.group(1), m.group(2)))
    return records


def points_of(records, name):
    """The fields of each point, from the one whose record has this name back to the start."""
    out = []
    while name in records:
        out.append([f for f, _ in records[name] if f != 'before'])
        back = [t for f, t in records[name] if f == 'before']
        if not back:
            break
        name = back[0].split()[0].strip('()')
    return out


def generated(crate):
    """The records that Rattle generated for CRATE's functions: {function: [(need, [the fields of each point, from the nearest])]}."""
    base = f'target/gen-{crate}/Rattle·{crate}·proofs/proofs/'
    found = {}
    for path in glob.glob(base + '**/Lts*.antt', recursive=True):
        text = open(path).read()
        records = records_of(text)
        needs = [(m.group(1), points_of(records, m.group(2))) for m in re.finditer(r'(Need-\S+) =\s*\(c : ([^)\s]+)', text)]
        found[os.path.dirname(path)[len(base):].lstrip('+')] = needs
    return found


def is_name(tok):
    return tok not in ' ,;' and tok not in OPEN and tok not in SHUT and not tok.startswith('.')


class Point(int):
    """A point in a token list: how far behind `c` it is."""


def resolve(toks, known):
    """Turns each known variable with the `.before`s behind it into a Point."""
    out, i = [], 0
    while i < len(toks):
        t = toks[i]
        if t in known and not (out and isinstance(out[-1], str) and out[-1] == 'λ'):
            k, j = known[t], i + 1
            while toks[j:j + 2] == [' ', '.before']:
                k, j = k + 1, j + 2
            out.append(Point(k))
            i = j
        else:
            out.append(t)
            i += 1
    return out


def longest(text):
    return max((m.group(0).count('.before') for m in re.finditer(r'(?:\s*\.before)+', text)), default=0)


def cited(toks):
    """{point: the fields that are cited there}"""
    at = {}
    for i, t in enumerate(toks):
        if isinstance(t, Point):
            field = toks[i + 2][1:] if i + 2 < len(toks) and toks[i + 1] == ' ' and str(toks[i + 2]).startswith('.') else None
            at.setdefault(int(t), []).append(field)
    return at


class Unnamed(Exception):
    pass


def held(fields, asked):
    """What stands at the point whose record has these fields, of which those asked for are cited."""
    if 'args' in fields or any(f in ('args', 'pre', 'good', 'blocks') for f in asked):
        return 'start'
    pick = [f for f in asked if f and (not fields or f in fields)] or fields
    if not pick:
        raise Unnamed
    return pick[0].replace('«', '').replace('»', '').replace('_', '-')


def names_of(holds, called, used):
    """A name for each point: the one that it had, or what it holds, without `get-`, and without its number where no other has the same."""
    short = {p: NAMES[h] if h in NAMES else re.sub('^get-', '', h) for p, h in holds.items()}
    bare = {p: h if re.match(r'if\d+$', h) else re.sub(r'(?<=[a-z])\d+$', '', h) for p, h in short.items()}
    names = {}
    for p in sorted(holds):
        name = called.get(p) or (bare[p] if list(bare.values()).count(bare[p]) == 1 else short[p])
        while name in used or name in TAKEN:
            name += '-at'
        names[p] = name
        used.add(name)
    return names


def stepping(points, chain):
    """The points, and those between them that need a name so that no step is more than MOST."""
    out, at = [], 0
    for p in sorted(points):
        while p - at > MOST:
            best = None
            for q in range(at + MOST, at, -1):
                fields = chain[q] if chain and q < len(chain) else []
                plain = not fields or 'known' in fields[0] or 'told' in fields[0]
                score = (plain, -(p - q <= MOST), -q)
                if best is None or score < best[0]:
                    best = (score, q)
            at = best[1]
            out.append(at)
        if p != at:
            out.append(p)
            at = p
    return out


def terms_twice(text):
    """The bracketed terms and paths that stand more than once, longest first, without those inside another."""
    seen = {}
    stack = []
    for i, ch in enumerate(text):
        if ch == '(':
            stack.append(i)
        elif ch == ')' and stack:
            j = stack.pop()
            seen.setdefault(text[j:i + 1], 0)
            seen[text[j:i + 1]] += 1
    twice = [t for t, n in seen.items() if n > 1 and len(t) > 24 and '.' in t and 'search' not in t]
    return [t for t in sorted(twice, key=len, reverse=True) if not any(t != u and t in u for u in twice)]


def holding(points, at, chain, where):
    """What each point holds. What is cited must stand there, else the chain is another's."""
    holds = {}
    for p in points:
        fields = chain[p] if chain and p < len(chain) else []
        for f in at.get(p, []):
            if f and fields and f not in fields:
                raise SystemExit(f'named.py: {where}: point {p} has {fields}, and {f} is cited')
        holds[p] = held(fields, at.get(p, []))
    return holds


def anchored(toks, chain, moved):
    """The same tokens, each point moved to where the field stands now that is cited there; moved learns from where to where."""
    out = []
    for i, t in enumerate(toks):
        field = toks[i + 2][1:] if i + 2 < len(toks) and toks[i + 1] == ' ' and str(toks[i + 2]).startswith('.') else None
        found = [k for k, fields in enumerate(chain) if field in fields]
        if isinstance(t, Point) and field and len(found) == 1:
            moved[int(t)] = found[0]
            t = Point(found[0])
        out.append(t)
    return out


def body_named(body, variables, chain, where, short=False):
    """An answer with its points named: (lets, the term). Where it is to be short, of two points the nearer alone gets a name."""
    toks = tokens(flat(body))
    lets, rest = leading_lets(toks)
    known, kept, called = {variables[0]: 0}, [], {}
    for name, typ, value in lets:
        value = resolve(value, known)
        if len(value) == 1 and isinstance(value[0], Point):
            known[name] = int(value[0])
            if len(name) > 1:
                called[int(value[0])] = name
            continue
        if name in known:
            del known[name]
        kept.append((name, resolve(tokens(typ), known) if typ else None, value))
    rest = resolve(rest, known)
    if '--anchor' in sys.argv and chain:
        moved = {}
        kept = [(n, anchored(ty, chain, moved) if ty else None, anchored(v, chain, moved)) for n, ty, v in kept]
        rest = anchored(rest, chain, moved)
        called = {moved[p]: n for p, n in called.items() if p in moved}
    everything = [t for n, ty, v in kept for t in (ty or []) + [' '] + v] + [' '] + rest
    at = cited(everything)
    points = stepping([p for p in at if p > 0], chain)
    used = {t for t in everything if not isinstance(t, Point) and is_name(t)} | {n for n, _, _ in kept} | set(variables)
    names = {0: variables[0], **names_of(holding(points, at, chain, where), called, used)}
    lines, here = [], 0
    if short and len(points) == 2 and len(at.get(points[1], [])) == 1:
        names[points[1]] = names[points[0]] + ' .before' * (points[1] - points[0])
        points = points[:1]
    for p in points:
        lines.append(f'let {names[p]} = {names[here]}{" .before" * (p - here)} in')
        here = p

    def text(ts):
        return ''.join(names[int(t)] if isinstance(t, Point) else t for t in ts)
    for n, ty, v in kept:
        lines.append(f'let {n}{" : " + text(ty) if ty else ""} = {text(v)} in')
    return lines, text(rest)


def laid(lets, term, indent, first):
    """Lets a line each, then the term; all of it on one line where it is short."""
    one = ' '.join(lets + [term])
    if len(lets) <= 1 and first + len(one) + indent <= 138:
        return [one]
    out = []
    for l in lets:
        out += wrapped(l, indent)
    return out + wrapped(term, indent)


def spec_arguments(text):
    """The arguments of `tie.spec`: [(start, end)] in the text."""
    m = re.search(r'(?:tie\.spec|lts\.spec)\b', text)
    out, i, depth, begin = [], m.end(), 0, None
    while i < len(text):
        ch = text[i]
        if depth == 0 and ch in ' \n)':
            if begin is not None:
                out.append((begin, i))
                begin = None
            if ch == ')':
                break
        elif begin is None:
            begin = i
        if ch in OPEN:
            depth += 1
        elif ch in SHUT and depth:
            depth -= 1
        i += 1
    else:
        if begin is not None:
            out.append((begin, len(text)))
    return out


def too_long(text):
    if '--anchor' in sys.argv:
        return '.before' in text
    again = '--again' in sys.argv and re.search(r'\blet \S+ = \S+(?: \.before)+ in\b', text)
    return longest(text) > MOST or max(map(len, text.split('\n'))) > 150 or bool(again)


def clause(block, needs, where):
    """Rewrites an answer that has a name of its own."""
    m = re.search(r'(?m)^(\S+) ((?:t )?c(?: κs)?) =[ \n]', block)
    need = re.search(r'Need-[^\s)]+', block[:m.start()])
    chain = dict(needs).get(need.group(0)) if need else None
    body = block[m.end():]
    if not too_long(body) or '--' in body or re.search(r'(?m)\bwhere$', body):
        return block
    name = where + ' ' + m.group(1)
    try:
        lets, term = body_named(body, ['c', 'κs'] if ' κs' in m.group(2) else ['c'], chain, name)
    except Unnamed:
        print(f'{name}: left as it is: which point this is of, is not known')
        return block
    report(name, lets, term)
    lines = laid(lets, term, 4, 200 if lets else 0)
    head = block[:m.end()].rstrip()
    if len(lines) == 1 and len(m.group(0)) + len(lines[0]) <= 130:
        return head + ' ' + lines[0]
    return head + '\n' + '\n'.join('    ' + l for l in lines)


def spec(block, needs, where):
    """Rewrites the answers that stand in the call of `tie.spec`."""
    args = spec_arguments(block)
    answers = [a for a in args if re.match(r'\(λ c( κs)?\.\s|(?!Inv-|μ-)[^\s().]+$', block[a[0]:a[1]])]
    chains = [c for _, c in needs] if len(needs) == len(answers) else None
    if needs and chains is None:
        print(f'{where}: {len(needs)} needs, {len(answers)} answers: named by what they cite')
    out, last = '', 0
    for n, (a, e) in enumerate(answers):
        arg = block[a:e]
        m = re.match(r'\(λ (c(?: κs)?)\.\s', arg)
        if not m or not too_long(arg) or '--' in arg:
            continue
        name = f'{where} answer {n + 1}'
        try:
            lets, term = body_named(arg[m.end():-1], m.group(1).split(), chains[n] if chains else None, name)
        except Unnamed:
            print(f'{name}: left as it is: which point this is of, is not known')
            continue
        report(name, lets, term)
        lines = laid(lets, term, 4, len(m.group(0)) + 1)
        if len(lines) > 1:
            brief = laid(*body_named(arg[m.end():-1], m.group(1).split(), chains[n] if chains else None, name, True), 4, len(m.group(0)) + 1)
            lines = brief if len(brief) == 1 else lines
        head = f'(λ {m.group(1)}.'
        whole = len(lines) == 1 and len(head) + len(lines[0]) + 6 <= 140
        new = head + (' ' + lines[0] if whole else ''.join('\n    ' + l for l in lines)) + ')'
        before = block[last:a].rstrip(' ')
        out += (before if before.endswith('\n') else before + '\n') + '    ' + new
        last = e
        tail = re.match(r' +(?=\S)', block[e:])
        if tail and block[e] == ' ':
            out += '\n    '
            last = e + tail.end()
    return out + block[last:]


def report(where, lets, term):
    for t in terms_twice(' '.join(lets + [term])):
        print(f'{where}: twice: {t[:160]}')


def rewrite(path, needs):
    text = open(path).read()
    where = path.split('/proofs/', 1)[1].rsplit('/', 1)[0]
    blocks = re.split(r'(\n\n+)', text)
    for i, b in enumerate(blocks):
        if re.search(r'(?:tie\.spec|lts\.spec)\b', b):
            blocks[i] = spec(b, needs, where)
        elif re.search(r'(?m)^(\S+) ((?:t )?c(?: κs)?) =[ \n]', b):
            blocks[i] = clause(b, needs, where)
    new = ''.join(blocks)
    if new != text:
        open(path, 'w').write(new if new.endswith('\n') else new + '\n')
    left = longest(new)
    wide = max(map(len, new.split('\n')))
    print(f'{where}: {"written" if new != text else "as it was"}; longest chain {left}, longest line {wide}')


def main():
    words = [w for w in sys.argv[1:] if not w.startswith('-') and '=' not in w]
    if not words:
        raise SystemExit(__doc__)
    crate, functions = words[0], words[1:]
    if '--no-gen' not in sys.argv:
        subprocess.run(['rt', 'dev', crate, '--generated', os.path.abspath(f'target/gen-{crate}')], capture_output=True)
    known = generated(crate)
    base = f'crates/{crate}/proofs/'
    for path in sorted(glob.glob(base + '**/Proof.antt', recursive=True)):
        fn = os.path.dirname(path)[len(base):]
        if functions and not any(fn == f or fn.endswith('/' + f) for f in functions):
            continue
        if not functions and not too_long(open(path).read()):
            continue
        rewrite(path, known.get(fn.lstrip('+'), []))


if __name__ == '__main__':
    main()
