"""A reader of planning files, from document 01, "Planning file" and "What a call returns", and from document 02, paper 2, alone."""
import bisect
import re

FIELD = rb"(0|[1-9][0-9]{0,6})"


def line_at(file, at, fields):
    """The numbers of a line and where the next one starts, or None."""
    found = re.compile(b",".join([FIELD] * fields) + b"\n").match(file, at)
    return found and ([int(number) for number in found.groups()], found.end())


def header_of(file):
    """Line 1's first five numbers, whether lines of holds follow the arcs, and where line 2 starts; None if it is ill-formed."""
    five, six = line_at(file, 0, 5), line_at(file, 0, 6)
    if five:
        return five[0], False, five[1]
    if six and six[0][5] == 1:
        return six[0][:5], True, six[1]
    return None


def header_fault(numbers, lent):
    n, m, ceiling, source, segments = numbers
    if not 1 <= n <= 4096:
        return 1, 0
    if m > 65536:
        return 4, 0
    if ceiling > 1048575:
        return 2, 0
    if source >= n:
        return 3, 0
    if not 2 <= segments <= 64:
        return 9, 0
    for i, words in enumerate([n + 1, m, m, n]):
        if lent[i] < words:
            return 10, i
    return None


def arcs_at(file, at, n, m, ceiling):
    """A fault and None, or None and the arcs and where the line behind them starts."""
    arcs = []
    for arc in range(m):
        line = line_at(file, at, 3)
        if not line:
            return (11, arc + 2), None
        (tail, head, cost), at = line
        if tail >= n or (arcs and tail < arcs[-1][0]):
            return (12, arc), None
        if head >= n:
            return (7, arc), None
        if cost > ceiling:
            return (8, arc), None
        arcs.append((tail, head, cost))
    return None, (arcs, at)


def holds_at(file, at, n, m, ceiling):
    """The same of the holds, whose lines stand behind line 1 and m lines of arcs."""
    holds = []
    for v in range(n):
        line = line_at(file, at, 1)
        if not line:
            return (11, m + 2 + v), None
        (hold,), at = line
        if hold > ceiling:
            return (20, v), None
        holds.append(hold)
    return None, (holds, at)


def lists_of(n, arcs, holds):
    """Starts, heads, costs and holds."""
    tails, heads, costs = [[arc[i] for arc in arcs] for i in range(3)]
    return [[bisect.bisect_left(tails, v) for v in range(n + 1)], heads, costs, holds]


def read(file, lent):
    """A fault and None, or None and line 1's first five numbers and the four lists. `lent` has the number of words lent of each list."""
    header = header_of(file)
    if not header:
        return (11, 1), None
    numbers, with_holds, at = header
    n, m, ceiling = numbers[:3]
    fault = header_fault(numbers, lent)
    if fault:
        return fault, None
    fault, found = arcs_at(file, at, n, m, ceiling)
    if fault:
        return fault, None
    arcs, at = found
    fault, found = holds_at(file, at, n, m, ceiling) if with_holds else (None, ([0] * n, at))
    if fault:
        return fault, None
    holds, at = found
    if at != len(file):
        return (11, m + 2 + (n if with_holds else 0)), None
    for arc, (tail, _, cost) in enumerate(arcs):
        if cost + holds[tail] > ceiling:
            return (8, arc), None
    return None, (numbers, lists_of(n, arcs, holds))
