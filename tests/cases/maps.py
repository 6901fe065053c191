"""A map's lists, as rows fill them, and what a call is refused for because of them or of the lists it is lent, from document 01, "What a call
returns", and from document 02, papers 2 and 7, alone."""
import bisect

WORD = 4294967296


def tail_of(starts, arc):
    """The node v with starts[v] <= arc < starts[v + 1]."""
    return bisect.bisect_right(starts, arc) - 1


def map_fault(n, source, starts, heads, costs=None, holds=None, ceiling=0, at_heads=False):
    """Refusals 1 to 6, 20, 7 and 8 in their order; a route has no costs, no holds and no ceiling, and 8 of a run to a destination is with the
    holds of heads. A refusal is (number, place), and None is none."""
    m = len(heads)
    if not 1 <= n <= 4096:
        return 1, 0
    if ceiling > 1048575:
        return 2, 0
    if source >= n:
        return 3, 0
    if m > 65536 or (costs is not None and len(costs) != m):
        return 4, 0
    if len(starts) != n + 1:
        return 5, 0
    for i in range(n + 1):
        first = i == 0 and starts[i] != 0
        falls = i > 0 and starts[i] < starts[i - 1]
        last = i == n and starts[i] != m
        if first or falls or starts[i] > m or last:
            return 6, i
    if holds is not None and len(holds) != n:
        return 20, 0
    for v in range(n if holds is not None else 0):
        if holds[v] > ceiling:
            return 20, v
    for arc in range(m):
        if heads[arc] >= n:
            return 7, arc
    for arc in range(m if costs is not None else 0):
        node = heads[arc] if at_heads else tail_of(starts, arc)
        if costs[arc] + holds[node] > ceiling:
            return 8, arc
    return None


def work_words(n, segments):
    return 4 * n + (64 if segments is None else 384)


def lent_fault(n, m, lent, segments):
    """Refusals 9 and 10 of a run, which is lent so many words of each list: four lists, or eight for a run to a destination."""
    if segments is not None and not 2 <= segments <= 64:
        return 9, 0
    needed = [n, n, n, work_words(n, segments), n + 1, m, m, m]
    for i, words in enumerate(lent):
        if words < needed[i]:
            return 10, i
    return None


def following(word, drawing, step):
    for _ in range(2 if drawing else 0):
        word = (word * 1664525 + 1013904223) % WORD
    return word if drawing else (word + step) % WORD


def taken(word, drawing, by, modulus):
    if modulus == 0:
        return word
    return (word // by if drawing else word) % modulus


class Lists:
    """The map's lists, and the rows that put words into them."""

    def __init__(self):
        by_node, by_arc = ["starts", "parents", "holds"], ["heads", "costs"]
        self.lists = {**{name: [0] * 4098 for name in by_node}, **{name: [0] * 65537 for name in by_arc}}

    def part(self, name, words):
        assert words <= len(self.lists[name])
        return self.lists[name][:words]

    def words(self, name, place, *words):
        assert place + len(words) <= len(self.lists[name])
        self.lists[name][place : place + len(words)] = words

    def spread(self, name, at, end, first, by, modulus, drawing):
        assert end <= len(self.lists[name])
        word = first
        for i in range(at, end):
            self.lists[name][i] = taken(word, drawing, by, modulus)
            word = following(word, drawing, by)

    def fill(self, name, at, end, first=0, step=0, modulus=0):
        self.spread(name, at, end, first, step, modulus, False)

    def draw(self, name, at, end, first, divisor, modulus):
        self.spread(name, at, end, first, divisor, modulus, True)
