/* A rack that plans eight loops on one processor, slot after slot, each within a budget of heap operations (placements, looks and reads) that
   was set before any map was known: rack [--budget-share THOUSANDTHS] */
#include "roosternow.h"

#include <inttypes.h>
#include <stdio.h>
#include <stdlib.h>
#include <string.h>

#define LOOPS 8
#define SLOTS 1000
#define NODES ROOSTERNOW_MOST_NODES
#define ARCS 8192

struct size {
    uint32_t n, arcs_of_node, ceiling, segments; /* segments 0 for one level */
};

/* The K of loops 2, 3, 4 and 6 makes their budgets least (docs/DATASHEET.md, "Which K"). */
static const struct size sizes[LOOPS] = {
    {24, 4, 255, 0},
    {48, 3, 1000, 0},
    {64, 4, 4095, 8},
    {96, 6, 10000, 11},
    {180, 4, 65535, 10},
    {320, 8, 99999, 16},
    {512, 4, 1048575, 16},
    {4096, 2, 1048575, 32},
};

/* Every arc of a loop, closed ones too: arc a leaves node a / arcs_of_node. A hold is at most a quarter of the ceiling, and a cost at most the
   rest, so that both together are within it. */
static struct {
    uint32_t heads[ARCS], costs[ARCS], holds[NODES];
    unsigned char closed[ARCS];
    uint64_t budget, most_used;
} loops[LOOPS];

/* One set of lists is enough, since one loop is planned at a time. */
static uint32_t starts[ROOSTERNOW_STARTS(NODES)], heads[ARCS], costs[ARCS];
static uint32_t distances[NODES], parents[NODES], roster[NODES], work[ROOSTERNOW_WORK_TWO_LEVEL(NODES)];

static uint32_t below(uint32_t limit) {
    static uint64_t state = UINT64_C(88172645463325252);
    state ^= state << 13;
    state ^= state >> 7;
    state ^= state << 17;
    return (uint32_t)((state >> 32) % limit);
}

static uint32_t arcs_of(int loop) {
    return sizes[loop].n * sizes[loop].arcs_of_node;
}

static uint32_t most_hold(int loop) {
    return sizes[loop].ceiling / 4;
}

static uint32_t some_cost(int loop) {
    return below(sizes[loop].ceiling - most_hold(loop) + 1);
}

/* A ring, and the further arcs of each node to anywhere; no holds at first. */
static void lay(int loop) {
    uint32_t n = sizes[loop].n, each = sizes[loop].arcs_of_node;
    for (uint32_t a = 0; a < arcs_of(loop); a++) {
        loops[loop].heads[a] = a % each == 0 ? (a / each + 1) % n : below(n);
        loops[loop].costs[a] = some_cost(loop);
    }
}

static void set_budget(int loop, uint32_t thousandths) {
    const struct size *size = &sizes[loop];
    uint64_t most = size->segments == 0
                        ? roosternow_most_operations_one_level(size->n, arcs_of(loop), size->ceiling)
                        : roosternow_most_operations_two_level(size->n, arcs_of(loop), size->ceiling, size->segments);
    loops[loop].budget = most * thousandths / 1000;
}

/* What has happened on the floor since the slot before: closed arcs open, open arcs close or cost something else, and a
   door takes another time. */
static void change(int loop) {
    uint32_t m = arcs_of(loop);
    for (uint32_t i = 0; i <= m / 32; i++) {
        uint32_t a = below(m);
        if (loops[loop].closed[a] || below(8) == 0) {
            loops[loop].closed[a] = !loops[loop].closed[a];
        } else {
            loops[loop].costs[a] = some_cost(loop);
        }
    }
    loops[loop].holds[below(sizes[loop].n)] = below(most_hold(loop) + 1);
}

/* The map of a slot, in the lent lists: the open arcs, numbered anew. Gives their number. */
static uint32_t open_arcs(int loop) {
    uint32_t m = 0, each = sizes[loop].arcs_of_node;
    for (uint32_t a = 0; a < arcs_of(loop); a++) {
        if (a % each == 0) {
            starts[a / each] = m;
        }
        if (!loops[loop].closed[a]) {
            heads[m] = loops[loop].heads[a];
            costs[m] = loops[loop].costs[a];
            m++;
        }
    }
    starts[sizes[loop].n] = m;
    return m;
}

static void plan(int loop, uint32_t m, uint64_t *numbers) {
    uint32_t n = sizes[loop].n, ceiling = sizes[loop].ceiling, segments = sizes[loop].segments;
    const uint32_t *holds = loops[loop].holds;
    if (segments == 0) {
        roosternow_one_level(n, ceiling, 0, starts, ROOSTERNOW_STARTS(n), heads, m, costs, m, holds, n, distances, n, parents, n, roster, n,
                             work, ROOSTERNOW_WORK_ONE_LEVEL(n), numbers);
    } else {
        roosternow_two_level(n, ceiling, 0, segments, starts, ROOSTERNOW_STARTS(n), heads, m, costs, m, holds, n, distances, n, parents, n,
                             roster, n, work, ROOSTERNOW_WORK_TWO_LEVEL(n), numbers);
    }
}

/* 1 if the run was over its budget. A refused run ends the program. */
static int serve(int loop, int slot) {
    uint64_t numbers[ROOSTERNOW_RUN_NUMBERS];
    plan(loop, open_arcs(loop), numbers);
    if (numbers[ROOSTERNOW_RETURNED] != ROOSTERNOW_ACCEPTED) {
        fprintf(stderr, "rack: loop %d, slot %d: refused with %" PRIu64 " at %" PRIu64 ": %s\n", loop, slot, numbers[ROOSTERNOW_RETURNED],
                numbers[ROOSTERNOW_PLACE], roosternow_refusal_text(numbers[ROOSTERNOW_RETURNED]));
        exit(1);
    }
    uint64_t used = numbers[ROOSTERNOW_PLACEMENTS] + numbers[ROOSTERNOW_LOOKS] + numbers[ROOSTERNOW_READS];
    int over = used > loops[loop].budget;
    if (over && loops[loop].most_used <= loops[loop].budget) {
        fprintf(stderr, "rack: loop %d, slot %d: %" PRIu64 " heap operations, %" PRIu64 " in the budget\n", loop, slot, used,
                loops[loop].budget);
    }
    if (used > loops[loop].most_used) {
        loops[loop].most_used = used;
    }
    return over;
}

static void print_loops(void) {
    printf("loop     n     m        C  heap   budget  most used  share in thousandths\n");
    for (int loop = 0; loop < LOOPS; loop++) {
        char heap[16] = "one";
        uint64_t budget = loops[loop].budget, used = loops[loop].most_used;
        if (sizes[loop].segments > 0) {
            snprintf(heap, sizeof heap, "K %" PRIu32, sizes[loop].segments);
        }
        printf("%4d  %4" PRIu32 "  %4" PRIu32 "  %7" PRIu32 "  %-4s  %7" PRIu64 "  %9" PRIu64 "  %20" PRIu64 "\n", loop, sizes[loop].n,
               arcs_of(loop), sizes[loop].ceiling, heap, budget, used, budget == 0 ? 0 : used * 1000 / budget);
    }
}

/* The share that the words ask for, or -1. */
static int share_of(int count, char **words) {
    if (count == 1) {
        return 1000;
    }
    if (count != 3 || strcmp(words[1], "--budget-share") != 0) {
        return -1;
    }
    size_t digits = strspn(words[2], "0123456789");
    if (digits == 0 || digits > 4 || words[2][digits] != 0) {
        return -1;
    }
    int share = atoi(words[2]);
    return share <= 1000 ? share : -1;
}

int main(int count, char **words) {
    int share = share_of(count, words), overruns = 0;
    if (share < 0) {
        fprintf(stderr, "use: rack [--budget-share THOUSANDTHS], a number up to 1000\n");
        return 2;
    }
    if (roosternow_version() != ROOSTERNOW_VERSION) {
        fprintf(stderr, "rack: header and archive are of different versions\n");
        return 1;
    }
    for (int loop = 0; loop < LOOPS; loop++) {
        lay(loop);
        set_budget(loop, (uint32_t)share);
    }
    for (int slot = 0; slot < SLOTS; slot++) {
        for (int loop = 0; loop < LOOPS; loop++) {
            change(loop);
            overruns += serve(loop, slot);
        }
    }
    print_loops();
    printf("%d overruns in %d plans\n", overruns, SLOTS * LOOPS);
    return overruns > 0;
}
