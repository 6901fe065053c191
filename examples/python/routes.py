"""Both heaps and every route from the source of a file, or to a node, from Python, through a shared object made of the archive:
routes.py LIBRARY [NODE] < FILE

The shared object: gcc -shared -o libroosternow.so -Wl,--whole-archive libroosternow.a -Wl,--no-whole-archive
"""
import ctypes
import sys

NODES, ARCS, NONE = 4096, 65536, 4294967295


def words(count):
    return (ctypes.c_uint32 * count)()


def first(count, of):
    """The first words of a list, shared with it."""
    return (ctypes.c_uint32 * count).from_buffer(of)


def number(value):
    return ctypes.c_uint32(value)


def lent(*lists):
    """Each list as the functions take it: a pointer and the number of its elements."""
    return [word for each in lists for word in (each, ctypes.c_size_t(len(each)))]


def called(function, count, *arguments):
    """The numbers that a call gives back behind the first two; a refusal is raised."""
    numbers = (ctypes.c_uint64 * count)()
    function.restype = None
    function(*arguments, numbers)
    if numbers[0] != 0:
        raise ValueError("refused with %d at %d" % (numbers[0], numbers[1]))
    return numbers[2:]


def print_counts(n, m, one, two):
    print("%d,%d,%d,%d" % (n, m, two[0], two[2]))
    print("one,%d,%d,%d,%d" % (one[1], *one[3:]))
    print("two,%d,%d,%d,%d" % (two[1], *two[3:]))


def from_source(planner, n, ceiling, source, segments, starts, heads, costs, holds):
    distances, parents, roster, route = words(n), words(n), words(n), words(n)
    size = [number(n), number(ceiling), number(source)]
    lists = lent(starts, heads, costs, holds, distances, parents, roster)
    one = called(planner.roosternow_one_level, 8, *size, *lists, *lent(words(4 * n + 64)))
    two = called(planner.roosternow_two_level, 8, *size, number(segments), *lists, *lent(words(4 * n + 384)))
    print_counts(n, len(heads), one, two)
    for node in range(n):
        if distances[node] != NONE:
            walked = [number(n), number(source), *lent(starts, heads, parents), number(node), *lent(route)]
            nodes = called(planner.roosternow_route, 3, *walked)[0]
            print(node, distances[node], *route[:nodes], sep=",")


def to_node(planner, n, ceiling, destination, segments, starts, heads, costs, holds):
    m = len(heads)
    distances, parents, roster = words(n), words(n), words(n)
    size = [number(n), number(ceiling), number(destination)]
    lists = lent(starts, heads, costs, holds, distances, parents, roster)
    reversed_map = lent(words(n + 1), words(m), words(m), words(m))
    one = called(planner.roosternow_one_level_to, 8, *size, *lists, *lent(words(4 * n + 64)), *reversed_map)
    two = called(planner.roosternow_two_level_to, 8, *size, number(segments), *lists, *lent(words(4 * n + 384)), *reversed_map)
    print_counts(n, m, one, two)
    for node in range(n):
        if distances[node] != NONE:
            route = [node]
            while route[-1] != destination:
                route.append(heads[parents[route[-1]]])
            print(node, distances[node], *route, sep=",")


def main(planner, data, destination):
    file = (ctypes.c_uint8 * len(data)).from_buffer_copy(data)
    starts, heads, costs, holds = words(NODES + 1), words(ARCS), words(ARCS), words(NODES)
    n, m, ceiling, source, segments = called(planner.roosternow_read, 7, *lent(file, starts, heads, costs, holds))
    lists = first(n + 1, starts), first(m, heads), first(m, costs), first(n, holds)
    if destination is None:
        from_source(planner, n, ceiling, source, segments, *lists)
    else:
        to_node(planner, n, ceiling, destination, segments, *lists)


if __name__ == "__main__":
    if len(sys.argv) not in (2, 3) or not "".join(sys.argv[2:] or "0").isdecimal():
        print("use: routes.py LIBRARY [NODE] < FILE", file=sys.stderr)
        sys.exit(2)
    try:
        main(ctypes.CDLL(sys.argv[1]), sys.stdin.buffer.read(), int(sys.argv[2]) if len(sys.argv) == 3 else None)
    except ValueError as refusal:
        print("routes.py:", refusal, file=sys.stderr)
        sys.exit(1)
