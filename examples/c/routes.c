/* Reads a planning file, plans with both heaps, and prints the route to every node that is reached, in the order of the roster: routes FILE */
#include "roosternow.h"

#include <inttypes.h>
#include <stdio.h>

#define NODES ROOSTERNOW_MOST_NODES
#define ARCS ROOSTERNOW_MOST_ARCS
#define MOST_BYTES (8u * (6u + 3u * ARCS + NODES)) /* a field has at most 7 digits and a byte that ends it; six in line 1, three for an arc */

static uint8_t bytes[MOST_BYTES];
static uint32_t starts[ROOSTERNOW_STARTS(NODES)], heads[ARCS], costs[ARCS], holds[NODES];
static uint32_t distances[NODES], parents[NODES], roster[NODES], route[NODES];
static uint32_t work[ROOSTERNOW_WORK_TWO_LEVEL(NODES)]; /* enough for one level too */

static int refused(const char *what, const uint64_t *numbers) {
    if (numbers[ROOSTERNOW_RETURNED] == ROOSTERNOW_ACCEPTED) {
        return 0;
    }
    fprintf(stderr, "%s: refused with %" PRIu64 " at %" PRIu64 ": %s\n", what, numbers[ROOSTERNOW_RETURNED],
            numbers[ROOSTERNOW_PLACE], roosternow_refusal_text(numbers[ROOSTERNOW_RETURNED]));
    return 1;
}

static void print_run(const char *heap, const uint64_t *numbers) {
    printf("%s: %" PRIu64 " nodes reached, %" PRIu64 " buckets, %" PRIu64 " decreases, %" PRIu64 " placements, %" PRIu64 " looks, %" PRIu64
           " reads\n",
           heap, numbers[ROOSTERNOW_REACHED], numbers[ROOSTERNOW_BUCKETS], numbers[ROOSTERNOW_DECREASES], numbers[ROOSTERNOW_PLACEMENTS],
           numbers[ROOSTERNOW_LOOKS], numbers[ROOSTERNOW_READS]);
}

static int print_route(uint32_t n, uint32_t m, uint32_t source, uint32_t destination) {
    uint64_t numbers[ROOSTERNOW_ROUTE_NUMBERS];
    roosternow_route(n, source, starts, ROOSTERNOW_STARTS(n), heads, m, parents, n, destination, route, NODES, numbers);
    if (refused("route", numbers)) {
        return 1;
    }
    printf("to %" PRIu32 " for %" PRIu32 ":", destination, distances[destination]);
    for (uint64_t i = 0; i < numbers[ROOSTERNOW_ROUTE_NODES]; i++) {
        printf(" %" PRIu32, route[i]);
    }
    printf("\n");
    return 0;
}

static int plan(uint32_t n, uint32_t m, uint32_t ceiling, uint32_t source, uint32_t segments) {
    uint64_t one[ROOSTERNOW_RUN_NUMBERS], two[ROOSTERNOW_RUN_NUMBERS];
    roosternow_one_level(n, ceiling, source, starts, ROOSTERNOW_STARTS(n), heads, m, costs, m, holds, n, distances, n, parents, n, roster,
                         n, work, ROOSTERNOW_WORK_ONE_LEVEL(n), one);
    if (refused("one level", one)) {
        return 1;
    }
    roosternow_two_level(n, ceiling, source, segments, starts, ROOSTERNOW_STARTS(n), heads, m, costs, m, holds, n, distances, n, parents, n,
                         roster, n, work, ROOSTERNOW_WORK_TWO_LEVEL(n), two);
    if (refused("two levels", two)) {
        return 1;
    }
    print_run("one level", one);
    print_run("two levels", two);
    /* The roster has the nodes in the order scanned: each time the labelled node of smallest distance, and of smallest number among equals. Both
       heaps give the same order, so that two listings of one map match line by line. */
    for (uint64_t i = 0; i < two[ROOSTERNOW_REACHED]; i++) {
        if (print_route(n, m, source, roster[i])) {
            return 1;
        }
    }
    return 0;
}

int main(int count, char **words) {
    if (count != 2) {
        fprintf(stderr, "use: routes FILE\n");
        return 2;
    }
    FILE *file = fopen(words[1], "rb");
    if (!file) {
        perror(words[1]);
        return 2;
    }
    size_t length = fread(bytes, 1, sizeof bytes, file);
    int whole = feof(file) || fgetc(file) == EOF;
    fclose(file);
    if (!whole) {
        fprintf(stderr, "%s: longer than any planning file\n", words[1]);
        return 2;
    }
    uint64_t map[ROOSTERNOW_READ_NUMBERS];
    roosternow_read(bytes, length, starts, ROOSTERNOW_STARTS(NODES), heads, ARCS, costs, ARCS, holds, NODES, map);
    if (refused("file", map)) {
        return 1;
    }
    return plan((uint32_t)map[ROOSTERNOW_NODES], (uint32_t)map[ROOSTERNOW_ARCS], (uint32_t)map[ROOSTERNOW_CEILING],
                (uint32_t)map[ROOSTERNOW_SOURCE], (uint32_t)map[ROOSTERNOW_SEGMENTS]);
}
