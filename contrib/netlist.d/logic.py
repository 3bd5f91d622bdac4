"""Boolean expressions of cells.

An expression is ("v", name), ("c", bit), ("!", expression), or ("&", "|" or "^", [expressions]).
"""

from itertools import product

ZERO, ONE = ("c", 0), ("c", 1)
# a gate is found by its truth table up to this many pins
MOST_PINS = 8


def inverse(e):
    return simple(("!", e))


def simple(e, known=None):
    """Returns the expression flat, with the bits of `known` put in, without double inversions."""
    known = known or {}
    if e[0] == "c":
        return e
    if e[0] == "v":
        return ("c", known[e[1]]) if e[1] in known else e
    if e[0] == "!":
        of = simple(e[1], known)
        return ("c", 1 - of[1]) if of[0] == "c" else of[1] if of[0] == "!" else ("!", of)
    return joined(e[0], flattened(e[0], [simple(one, known) for one in e[1]]))


def flattened(kind, parts):
    """Returns the operands, with those of operands of the same kind in their place."""
    return [one for part in parts for one in (part[1] if part[0] == kind else [part])]


def joined(kind, parts):
    """Returns one operation on simple operands, without constants."""
    kept, odd = [], 0
    for one in parts:
        if one[0] == "c" and (kind, one[1]) in (("&", 0), ("|", 1)):
            return one
        if kind == "^" and one[0] in "c!":
            odd ^= 1 if one[0] == "!" else one[1]
        if kind == "^" and one[0] == "!":
            kept.append(one[1])
        elif one[0] != "c":
            kept.append(one)
    kept = flattened(kind, kept)
    if not kept:
        return ("c", odd if kind == "^" else int(kind == "&"))
    whole = kept[0] if len(kept) == 1 else (kind, kept)
    return simple(("!", whole)) if odd else whole


def support(e, counts=None):
    """Counts how often the expression reads each name, in the order of the first reads."""
    counts = {} if counts is None else counts
    if e[0] == "v":
        counts[e[1]] = counts.get(e[1], 0) + 1
    elif e[0] == "!":
        support(e[1], counts)
    elif e[0] != "c":
        for one in e[1]:
            support(one, counts)
    return counts


def substituted(e, name, by):
    """Returns the expression with `by` in place of a name."""
    if e[0] == "v":
        return by if e[1] == name else e
    if e[0] == "c":
        return e
    if e[0] == "!":
        return ("!", substituted(e[1], name, by))
    return (e[0], [substituted(one, name, by) for one in e[1]])


def renamed(e, names):
    """Returns the expression with other names; None stays None."""
    if e is None or e[0] == "c":
        return e
    if e[0] == "v":
        return ("v", names.get(e[1], e[1]))
    if e[0] == "!":
        return ("!", renamed(e[1], names))
    return (e[0], [renamed(one, names) for one in e[1]])


def value(e, bits):
    """Returns the expression's bit under bits of its names."""
    if e[0] == "v":
        return bits[e[1]]
    if e[0] == "c":
        return e[1]
    if e[0] == "!":
        return 1 - value(e[1], bits)
    of = [value(one, bits) for one in e[1]]
    return int(all(of)) if e[0] == "&" else int(any(of)) if e[0] == "|" else sum(of) % 2


def table(e, names):
    """Returns the truth table over these names, the first of them the highest bit of a row."""
    rows = product((0, 1), repeat=len(names))
    return tuple(value(e, dict(zip(names, bits))) for bits in rows)


def matters(rows, count, at):
    """Whether the name at this place of `count` changes the value of a table's row."""
    other = 1 << (count - 1 - at)
    return any(rows[row] != rows[row ^ other] for row in range(len(rows)))


def as_gate(e):
    """Returns the expression as one gate, if a gate has its truth table; else as it is."""
    e = simple(e)
    names = sorted(support(e))
    if len(names) > MOST_PINS:
        return e
    rows = table(e, names)
    idle = [name for at, name in enumerate(names) if not matters(rows, len(names), at)]
    if idle:
        e = simple(e, {name: 0 for name in idle})
        names = sorted(support(e))
        rows = table(e, names)
    of = [("v", name) for name in support(e)]
    if len(of) < 2:
        return ("c", rows[0]) if not of else of[0] if rows == (0, 1) else ("!", of[0])
    for kind in "&|^":
        same = table((kind, of), names)
        if same == rows:
            return (kind, of)
        if tuple(1 - bit for bit in same) == rows:
            return ("!", (kind, of))
    return e
