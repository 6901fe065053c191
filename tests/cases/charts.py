"""The maps of crates/test_generated, generated anew: by a rule, with holds, with numbers and words at the edge of a refusal."""
from generated import WORD, below, ceiling_of, following, one_of, seed

NONE = WORD - 1
LISTS = ["starts", "heads", "costs", "holds"]

# Maps (crates/test_generated/src/maps.rt), each rule by its place here.
RULES = ["random", "grid", "chain", "equal star", "distinct star", "zero costs", "two parts", "loops", "decreases", "no arcs", "same degree"]


def small(rule, number):
    words = [seed(rule, number)]
    for _ in range(4):
        words.append(following(words[-1]))
    nodes = below(words[0], 48) + 1
    return {
        "rule": RULES[rule],
        "nodes": nodes,
        "ceiling": ceiling_of(words[1]),
        "source": below(words[2], nodes),
        "segments": below(words[3], 63) + 2,
        "measure": below(words[4], 6) + 1,
        "seed": words[4],
    }


def degree(chart, v, word):
    n = chart["nodes"]
    star = n - 1 if v == 0 else 0
    known = {"grid": 4, "chain": min(n - 1 - v, 1), "equal star": star, "distinct star": star}
    known.update({"decreases": n - 1 - v, "no arcs": 0, "same degree": chart["measure"]})
    return known.get(chart["rule"], below(word, chart["measure"] + 1))


def grid_head(chart, v, slot):
    n, width = chart["nodes"], chart["measure"]
    right = v + 1 if v % width + 1 < width and v + 1 < n else v
    return [right, v - 1 if v % width else v, v + width if v + width < n else v, v - width if v >= width else v][slot]


def head_of(chart, v, slot, word):
    rule, n = chart["rule"], chart["nodes"]
    half = n // 2
    if rule == "grid":
        return grid_head(chart, v, slot)
    if rule in ("chain", "equal star", "distinct star", "decreases"):
        return v + 1 + slot
    if rule == "two parts":
        return below(word, half) if v < half else half + below(word, n - half)
    if rule == "loops":
        return (v + slot % 2) % n
    return below(word, n)


def cost_of(chart, slot, word):
    n, ceiling, measure = chart["nodes"], chart["ceiling"], chart["measure"]
    any_cost = below(following(word), ceiling + 1)
    costs = {
        "chain": max(ceiling - (below(word, 2) if measure % 2 else 0), 0),
        "equal star": ceiling,
        "distinct star": n - 1 - slot if measure % 2 else slot,
        "zero costs": 0 if below(word, 4) else any_cost,
        "decreases": measure * (2 * slot + 1),
    }
    return costs.get(chart["rule"], any_cost if below(word, 8) else ceiling)


def arcs_of(chart):
    """Starts, heads and costs."""
    lists = {name: [] for name in LISTS}
    word = chart["seed"]
    for v in range(chart["nodes"]):
        lists["starts"].append(len(lists["heads"]))
        word = following(word)
        for slot in range(degree(chart, v, word)):
            lists["heads"].append(head_of(chart, v, slot, following(word)))
            word = following(word, 2)
            lists["costs"].append(cost_of(chart, slot, word))
    lists["starts"].append(len(lists["heads"]))
    return lists


# Holds (holds.rt): none, any, what the arcs leave, the most but at the source, the most at the source.


def any_hold(most, word):
    kind = below(word, 8)
    return [0, 0, most][kind] if kind < 3 else below(following(word), most + 1)


def put_holds(chart, rule, lists):
    ceiling = chart["ceiling"]
    word = following(chart["seed"])
    for v in range(chart["nodes"]):
        word = following(word, 2)
        arcs = range(lists["starts"][v], lists["starts"][v + 1])
        left = max(ceiling - max([lists["costs"][arc] for arc in arcs], default=0), 0)
        at_source = v == chart["source"]
        most = 0 if at_source else ceiling
        source_most = ceiling if at_source else any_hold(ceiling // 2, word)
        hold = [0, any_hold(ceiling, word), left, most, source_most][rule]
        lists["holds"].append(hold)
        for arc in arcs:
            lists["costs"][arc] = min(lists["costs"][arc], ceiling - hold)


class Case:
    """A map's numbers, how many words each list has, and the words. One that the map has not is any that no file has."""

    def __init__(self, chart, rule):
        lists = arcs_of(chart)
        put_holds(chart, rule, lists)
        self.chart = chart
        self.words = {(name, i): word for name in LISTS for i, word in enumerate(lists[name])}
        self.nodes, self.arcs = chart["nodes"], len(lists["heads"])
        self.ceiling, self.source, self.segments = chart["ceiling"], chart["source"], chart["segments"]
        self.starts, self.costs, self.holds = self.nodes + 1, self.arcs, self.nodes

    def word(self, name, i):
        return self.words.get((name, i), 4294967209)

    def left(self, arc):
        """What the hold of an arc's tail leaves of the ceiling."""
        for v in range(self.nodes):
            if arc < self.word("starts", v + 1):
                return max(self.ceiling - self.word("holds", v), 0)
        return self.ceiling

    # Edges (edges.rt).

    def put_word(self, refusal, word):
        lists = {6: ("starts", self.starts), 7: ("heads", self.arcs), 8: ("costs", self.arcs), 20: ("holds", self.nodes)}
        if refusal not in lists:
            return
        name, count = lists[refusal]
        place, second = below(word, count), following(word)
        left = self.left(place)
        numbers = {
            6: [below(second, 6), self.arcs, self.arcs + 1],
            7: [self.nodes - 1, self.nodes, NONE],
            8: [left, left + 1, NONE],
            20: [self.ceiling, self.ceiling + 1, NONE],
        }
        self.words[name, place] = one_of(second, *numbers[refusal])

    def put_number(self, refusal, word):
        n = self.nodes
        if refusal == 1:
            self.nodes = one_of(word, 0, 4096, 4097)
        if refusal == 2:
            self.ceiling = one_of(word, 1048575, 1048576, NONE)
        if refusal == 3:
            self.source = one_of(word, (n - 1) % WORD, n, NONE)
        if refusal == 4:
            self.arcs = one_of(word, self.arcs + 1, 65536, 65537)
            self.costs = one_of(following(word), self.arcs, self.arcs, self.costs)
        if refusal == 5:
            self.starts = one_of(word, n, self.starts, self.starts + 1)
        if refusal == 9:
            self.segments = one_of(word, 0, 1, 2, 64, 65, NONE)
        if refusal == 20:
            self.holds = one_of(word, (n - 1) % WORD, n, n + 1)
