/* Reads a planning file and prints the cost and the route to a node, a charger say, from every node: arrive FILE NODE */
#include "roosternow.h"

#include <inttypes.h>
#include <stdio.h>
#include <stdlib.h>
#include <string.h>

#define NODES ROOSTERNOW_MOST_NODES
#define ARCS ROOSTERNOW_MOST_ARCS
#define MOST_BYTES (8u * (6u + 3u * ARCS + NODES)) /* a field has at most 7 digits and a byte that ends it; six in line 1, three for an arc */

static uint8_t bytes[MOST_BYTES];
static uint32_t starts[ROOSTERNOW_STARTS(NODES)], heads[ARCS], costs[ARCS], holds[NODES];
static uint32_t distances[NODES], parents[NODES], roster[NODES], work[ROOSTERNOW_WORK_TWO_LEVEL(NODES)];
static uint32_t reversed_starts[ROOSTERNOW_REVERSED_STARTS(NODES)];
static uint32_t reversed_heads[ROOSTERNOW_REVERSED_BY_ARC(ARCS)], reversed_costs[ROOSTERNOW_REVERSED_BY_ARC(ARCS)];
static uint32_t old_arcs[ROOSTERNOW_REVERSED_BY_ARC(ARCS)];

static int refused(const char *what, const uint64_t *numbers) {
    if (numbers[ROOSTERNOW_RETURNED] == ROOSTERNOW_ACCEPTED) {
        return 0;
    }
    fprintf(stderr, "%s: refused with %" PRIu64 " at %" PRIu64 ": %s\n", what, numbers[ROOSTERNOW_RETURNED],
            numbers[ROOSTERNOW_PLACE], roosternow_refusal_text(numbers[ROOSTERNOW_RETURNED]));
    return 1;
}

/* The parent of a node is the arc to take there, and its head the next node: the route is followed as it is printed, and needs no list. */
static void print_route(uint32_t node, uint32_t destination) {
    if (distances[node] == ROOSTERNOW_NONE) {
        printf("from %" PRIu32 ": no route\n", node);
        return;
    }
    printf("from %" PRIu32 " for %" PRIu32 ": %" PRIu32, node, distances[node], node);
    while (node != destination) {
        node = heads[parents[node]];
        printf(" %" PRIu32, node);
    }
    printf("\n");
}

static int arrive(uint32_t n, uint32_t m, uint32_t ceiling, uint32_t destination, uint32_t segments) {
    uint64_t run[ROOSTERNOW_RUN_NUMBERS];
    roosternow_two_level_to(n, ceiling, destination, segments, starts, ROOSTERNOW_STARTS(n), heads, m, costs, m, holds, n, distances, n, parents,
                            n, roster, n, work, ROOSTERNOW_WORK_TWO_LEVEL(n), reversed_starts, ROOSTERNOW_REVERSED_STARTS(n), reversed_heads, m,
                            reversed_costs, m, old_arcs, m, run);
    if (refused("run", run)) {
        return 1;
    }
    printf("%" PRIu64 " of %" PRIu32 " nodes reach %" PRIu32 ": %" PRIu64 " buckets, %" PRIu64 " decreases, %" PRIu64 " placements, %" PRIu64
           " looks, %" PRIu64 " reads\n",
           run[ROOSTERNOW_REACHED], n, destination, run[ROOSTERNOW_BUCKETS], run[ROOSTERNOW_DECREASES], run[ROOSTERNOW_PLACEMENTS],
           run[ROOSTERNOW_LOOKS], run[ROOSTERNOW_READS]);
    for (uint32_t v = 0; v < n; v++) {
        print_route(v, destination);
    }
    return 0;
}

int main(int count, char **words) {
    size_t digits = count == 3 ? strspn(words[2], "0123456789") : 0;
    if (digits == 0 || digits > 7 || words[2][digits] != 0) {
        fprintf(stderr, "use: arrive FILE NODE, a number of at most 7 digits\n");
        return 2;
    }
    FILE *file = fopen(words[1], "rb");
    if (!file) {
        perror(words[1]);
        return 2;
    }
    size_t length = fread(bytes, 1, sizeof bytes, file);
    int whole = feof(file) || fgetc(file) == EOF;
    fclose(file);
    if (!whole) {
        fprintf(stderr, "%s: longer than any planning file\n", words[1]);
        return 2;
    }
    uint64_t map[ROOSTERNOW_READ_NUMBERS];
    roosternow_read(bytes, length, starts, ROOSTERNOW_STARTS(NODES), heads, ARCS, costs, ARCS, holds, NODES, map);
    if (refused("file", map)) {
        return 1;
    }
    return arrive((uint32_t)map[ROOSTERNOW_NODES], (uint32_t)map[ROOSTERNOW_ARCS], (uint32_t)map[ROOSTERNOW_CEILING], (uint32_t)atoi(words[2]),
                  (uint32_t)map[ROOSTERNOW_SEGMENTS]);
}
