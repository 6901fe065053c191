/* The smallest program: a yard of eight nodes in constants, lists of fixed size, one level, the route to every node. At nodes 1, 4 and 5 are
   doors, where a tug holds before it drives on. */
#include "roosternow.h"

#include <inttypes.h>
#include <stdio.h>

#define NODES 8
#define ARCS 13
#define CEILING 60
#define DEPOT 0

static const uint32_t starts[NODES + 1] = {0, 3, 5, 7, 9, 10, 12, 12, 13};
static const uint32_t heads[ARCS] = {1, 2, 4, 3, 2, 3, 5, 6, 0, 5, 6, 2, 0};
static const uint32_t costs[ARCS] = {20, 45, 60, 15, 10, 5, 30, 55, 20, 0, 12, 30, 8};
/* Through the door at node 1 the way to node 2 costs 20 + 20 + 10, so the arc from the depot, 45, is cheaper. The depot has no hold: its own
   arcs would not pay it, but they are checked with it, and one of them costs as much as the ceiling. */
static const uint32_t holds[NODES] = {0, 20, 0, 0, 10, 6, 0, 0};
static uint32_t distances[NODES], parents[NODES], roster[NODES], route[NODES], work[ROOSTERNOW_WORK_ONE_LEVEL(NODES)];

static int refused(const uint64_t *numbers) {
    if (numbers[ROOSTERNOW_RETURNED] == ROOSTERNOW_ACCEPTED) {
        return 0;
    }
    puts(roosternow_refusal_text(numbers[ROOSTERNOW_RETURNED]));
    return 1;
}

int main(void) {
    uint64_t numbers[ROOSTERNOW_RUN_NUMBERS];
    if (roosternow_version() != ROOSTERNOW_VERSION) {
        puts("header and archive are of different versions");
        return 1;
    }
    roosternow_one_level(NODES, CEILING, DEPOT, starts, NODES + 1, heads, ARCS, costs, ARCS, holds, NODES, distances, NODES, parents, NODES,
                         roster, NODES, work, ROOSTERNOW_WORK_ONE_LEVEL(NODES), numbers);
    if (refused(numbers)) {
        return 1;
    }
    for (uint32_t v = 0; v < NODES; v++) {
        if (distances[v] == ROOSTERNOW_NONE) {
            printf("to %" PRIu32 ": no route\n", v);
            continue;
        }
        roosternow_route(NODES, DEPOT, starts, NODES + 1, heads, ARCS, parents, NODES, v, route, NODES, numbers);
        if (refused(numbers)) {
            return 1;
        }
        printf("to %" PRIu32 " for %" PRIu32 ":", v, distances[v]);
        for (uint64_t i = 0; i < numbers[ROOSTERNOW_ROUTE_NODES]; i++) {
            printf(" %" PRIu32, route[i]);
        }
        printf("\n");
    }
    return 0;
}
