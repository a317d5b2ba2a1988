"""layout.py: terms of antt as one line, and broken into lines. named.py uses it."""
import re

WIDE = 140      # the longest line that is written
TOKEN = re.compile(r'\s+|[()\[\]{},;]|"[^"]*"|[^\s()\[\]{},;]+')
OPEN, SHUT = '([{', ')]}'
LOOSE = {'∙', '∷', '++', '×', '→', '≡', '⊎', ',', '|', '↦', '≤', '<', '+'}


def tokens(text):
    return [' ' if t.isspace() else t for t in TOKEN.findall(text.strip())]


def strip(toks):
    while toks and toks[0] == ' ':
        toks = toks[1:]
    while toks and toks[-1] == ' ':
        toks = toks[:-1]
    return toks


def flat(text):
    """One line, with no blank inside a bracket's edge and no comma before a closing one."""
    t = ''.join(tokens(text))
    t = re.sub(r'([(\[{]) ', r'\1', t)
    t = re.sub(r',? ([)\]}])', r'\1', t)
    return t


def leading_lets(toks):
    """Splits `let x : T = e in ..` into [(x, T or None, e)] and the rest."""
    lets = []
    while toks and toks[0] == 'let':
        depth, inner, eq, end = 0, 0, None, None
        for i, t in enumerate(toks[1:], 1):
            if t in OPEN:
                depth += 1
            elif t in SHUT:
                depth -= 1
            elif t == 'let' and depth == 0:
                inner += 1
            elif t == '=' and depth == 0 and eq is None:
                eq = i
            elif t == 'in' and depth == 0:
                if inner == 0:
                    end = i
                    break
                inner -= 1
        if end is None or eq is None:
            break
        head = ''.join(toks[1:eq]).strip()
        name, _, typ = head.partition(' : ')
        lets.append((name, typ or None, [t for t in strip(toks[eq + 1:end])]))
        toks = strip(toks[end + 1:])
    return lets, toks


def items(text):
    """The parts of a one-line term that stand beside each other: words with their projections, brackets with what is in them."""
    out, depth, start, toks, pos = [], 0, None, TOKEN.findall(text), 0
    for n, t in enumerate(toks):
        if t.isspace() and depth == 0:
            after = toks[n + 1] if n + 1 < len(toks) else ''
            if start is not None and not after.startswith('.') and not glued(toks, n):
                out.append(text[start:pos])
                start = None
        else:
            start = pos if start is None else start
            depth += (t in OPEN) - (t in SHUT)
        pos += len(t)
    if start is not None:
        out.append(text[start:])
    return out


def glued(toks, n):
    """No line ends at this space: behind a λ and its variables, an operator, `let x =` and the like."""
    before, after = toks[n - 1], toks[n + 1]
    binds = [i for i in range(n) if toks[i] == 'λ']
    inside = bool(binds) and not any(toks[i].endswith('.') for i in range(binds[-1], n))
    return inside or before in LOOSE - {','} | {'←', 'let', '=', ':', '|', 'rw', 'simp', 'at'} or after in ('=', ':', 'in', 'at')


def segments(parts):
    """Parts, cut before each operator of the loosest sort that is there."""
    for sort in (('∙',), ('≡', '→', '×')):
        if any(p.split(' ')[0] in sort for p in parts[1:]):
            out = [[parts[0]]]
            for p in parts[1:]:
                if p.split(' ')[0] in sort:
                    out.append([p])
                else:
                    out[-1].append(p)
            return [' '.join(o) for o in out]
    return parts


def wrapped(text, indent, room=None):
    """The lines of a one-line term: whole parts to a line as they fit; a part that is wider than a line is broken inside."""
    room = room or WIDE - indent
    if len(text) <= room:
        return [text]
    if text.startswith('let '):
        lets, rest = leading_lets(tokens(text))
        if lets:
            heads = [f'let {n}{" : " + t if t else ""} = {"".join(v)} in' for n, t, v in lets]
            return [l for h in heads for l in ([h] if len(h) <= room else wrapped(' ' + h, indent, room))] + wrapped(''.join(rest), indent, room)
    parts = items(text)
    if len(parts) == 1:
        return broken(parts[0], indent, room)
    lines = ['']
    for part in segments(parts):
        joined = (lines[-1] + ' ' + part).strip()
        if len(joined) <= room:
            lines[-1] = joined
        elif lines == [lines[-1]] and len(lines[-1]) < 12 and part[0] in OPEN:
            inner = wrapped(part, indent, room - len(joined) + len(part))
            lines = [(lines[-1] + ' ' + inner[0]).strip()] + inner[1:]
        elif len(part) <= room:
            lines.append(part)
        else:
            lines += wrapped(part, indent, room)
    return [l for n in lines if n for l in ([n] if len(n) <= room else broken(n, indent, room))]


def broken(part, indent, room):
    """A part that is wider than a line: broken inside its brackets, at the commas where it is a tuple."""
    opens = next((i for i, ch in enumerate(part) if ch in OPEN), None)
    shuts = max(part.rfind(ch) for ch in SHUT)
    if opens is None or shuts < opens:
        return [part]
    head, inner, tail = part[:opens + 1], part[opens + 1:shuts], part[shuts:]
    if re.match(r'λ [^.]*\. ', inner):
        cut = inner.index('. ') + 2
        head, inner = head + inner[:cut], inner[cut:]
    pieces, depth, start = [], 0, 0
    for i, ch in enumerate(inner):
        depth += (ch in OPEN) - (ch in SHUT)
        if ch == ',' and depth == 0:
            pieces.append(inner[start:i + 1].strip())
            start = i + 1
    pieces.append(inner[start:].strip())
    lines = [l for p in pieces for l in wrapped(p, indent, room - len(head) - len(tail))]
    lines[0] = head + lines[0]
    lines[-1] += tail
    return lines
