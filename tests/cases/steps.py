"""The search and the steps of both heaps, taken literally, from document 01 and from document 02, papers 2, 3 and 6, alone."""
import heapq

NONE = 4294967295


def dijkstra(n, source, starts, heads, costs, holds):
    """Distances, and the nodes in the order scanned: each time the one that waits with the smallest distance, and the smallest number among
    equals (document 02, paper 6)."""
    distances = [NONE] * n
    distances[source] = 0
    waiting = [(0, source)]
    order = []
    while waiting:
        distance, v = heapq.heappop(waiting)
        if distance > distances[v]:
            continue
        order.append(v)
        leaving = distance if v == source else distance + holds[v]
        for arc in range(starts[v], starts[v + 1]):
            total = leaving + costs[arc]
            if total < distances[heads[arc]]:
                distances[heads[arc]] = total
                heapq.heappush(waiting, (total, heads[arc]))
    return distances, order


def cheapest_walks(n, source, starts, heads, costs, holds):
    """By the words of document 02, paper 2: arcs and the holds of the nodes strictly between the ends, each visit counted, the source's too. Of
    the walks with 0 to n arcs, the cheapest to each node."""
    best = [NONE] * n
    ending = {source: 0}
    for arcs in range(n + 1):
        longer = {}
        for v, cost in ending.items():
            best[v] = min(best[v], cost)
            for arc in range(starts[v], starts[v + 1]):
                total = cost + (holds[v] if arcs > 0 else 0) + costs[arc]
                longer[heads[arc]] = min(total, longer.get(heads[arc], total))
        ending = longer
    return best


def ceiling_of_logarithm(base, number):
    exponent = 0
    while base**exponent < number:
        exponent += 1
    return exponent


class Heap:
    """The buckets of a heap, and how a removal looks at them; segments is None for one level, K for two."""

    def __init__(self, n, ceiling, segments):
        self.segments = segments
        if segments is None:
            self.buckets = ceiling_of_logarithm(2, ceiling + 1) + 2
        else:
            self.buckets = max(2, ceiling_of_logarithm(segments, ceiling + 1) + 1)
        top = n * ceiling + 1
        self.bounds = [None]
        total = 0
        for i in range(1, self.buckets):
            total += self.size(i)
            self.bounds.append(min(total - 1, top))
        self.bounds.append(top)

    def size(self, i):
        if self.segments is None:
            return 1 if i == 1 else 2 ** (i - 2)
        return self.segments**i

    def bucket(self, key, start):
        """The bucket of a key, and the bounds that the search for it has read (document 02, paper 3)."""
        read = []
        for i in range(start, 0, -1):
            read.append(self.bounds[i])
            if read[-1] < key:
                return i + 1, len(read)
        return 1, len(read)

    def segment(self, i, key):
        if self.segments is None or i == self.buckets:
            return 1
        return self.segments - (self.bounds[i] - key) // self.segments ** (i - 1)

    def upper_end(self, i, segment):
        if self.segments is None or i == self.buckets:
            return self.bounds[i]
        return self.bounds[i] - (self.segments - segment) * self.segments ** (i - 1)

    def lower(self, j, least, end):
        """New bounds of the buckets below j, whose smallest key is least."""
        self.bounds[1] = min(least - 1 + self.size(1), end)
        for i in range(2, j):
            self.bounds[i] = min(self.bounds[i - 1] + self.size(i), end)


class Steps:
    """The steps of a run, and its counts."""

    def __init__(self, n, ceiling, source, starts, heads, costs, holds, segments):
        self.heap = Heap(n, ceiling, segments)
        self.source = source
        self.map = starts, heads, costs, holds
        self.distances = [NONE] * n
        self.parents = [NONE] * n
        self.roster = []
        self.standing = {}
        self.insertions = self.decreases = self.shifts = self.looks = self.reads = 0
        self.label(source, 0, NONE)
        while self.standing:
            self.scan(self.remove())

    def place(self, v, start):
        self.standing[v], reads = self.heap.bucket(self.distances[v], start)
        self.reads += reads

    def label(self, v, key, arc):
        self.distances[v] = key
        self.parents[v] = arc
        if v in self.standing:
            self.place(v, self.standing[v])
            self.decreases += 1
        else:
            self.place(v, self.heap.buckets)
            self.insertions += 1

    def remove(self):
        heap, key = self.heap, self.distances
        j = min(self.standing.values())
        bucket = [v for v, i in self.standing.items() if i == j]
        segment = min(heap.segment(j, key[v]) for v in bucket)
        self.looks += j if heap.segments is None else j + segment
        members = [v for v in bucket if heap.segment(j, key[v]) == segment]
        least, scanned = min((key[v], v) for v in members)
        if j > 1:
            heap.lower(j, least, heap.upper_end(j, segment))
        del self.standing[scanned]
        for v in members if j > 1 else []:
            if v != scanned:
                self.place(v, j)
                self.shifts += 1
        self.roster.append(scanned)
        return scanned

    def scan(self, v):
        starts, heads, costs, holds = self.map
        hold = 0 if v == self.source else holds[v]
        for arc in range(starts[v], starts[v + 1]):
            total = self.distances[v] + costs[arc] + hold
            if total < self.distances[heads[arc]]:
                self.label(heads[arc], total, arc)

    def numbers(self):
        placements = self.insertions + self.decreases + self.shifts
        return [len(self.roster), self.heap.buckets, self.decreases, placements, self.looks, self.reads]
