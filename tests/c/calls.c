/*
 * Calls every function of roosternow.h on valid and damaged inputs, and compares each answer and each lent word with plain.h. Guard bytes
 * stand before and behind every list. Files that are accepted are read, written and read again. Use: calls [INPUTS [SEED]] [-- FILE..]
 */
#include "plain.h"
#include "roosternow.h"

#include <pthread.h>
#include <stdlib.h>

/* ---- random numbers */

static uint64_t state;

static uint32_t below(uint32_t bound) {
    state ^= state << 13, state ^= state >> 7, state ^= state << 17;
    return (uint32_t)((state * UINT64_C(0x2545F4914F6CDD1D)) >> 32) % bound;
}

static bool one_in(uint32_t chances) {
    return below(chances) == 0;
}

/* ---- what was called */

enum function { ONE_LEVEL, TWO_LEVEL, ONE_LEVEL_TO, TWO_LEVEL_TO, ROUTE, READ, READ_DIMACS, WRITE, ANSWER, FUNCTIONS };

#define REFUSALS 21
#define LISTS_TO 8 /* that a run to a destination fills */

static const char *const names[FUNCTIONS] = {"one_level", "two_level", "one_level_to", "two_level_to", "route", "read", "read_dimacs", "write",
                                             "answer"};
static uint64_t told[FUNCTIONS][REFUSALS], told_held[FUNCTIONS], told_sums[FUNCTIONS];
static uint64_t told_places[FUNCTIONS][LISTS_TO], taken_here[FUNCTIONS], taken_by_a_run[FUNCTIONS];
static uint64_t input;

static void expect(bool holds, const char *what) {
    if (holds) return;
    fprintf(stderr, "calls: input %" PRIu64 ": %s\n", input, what);
    exit(1);
}

/* ---- lists with guards */

#define GUARD 32
#define GUARD_BYTE 0xA5

struct list {
    uint8_t *base, *before;
    size_t size, length, capacity;
};

static struct list make(size_t size, size_t capacity) {
    struct list list = {malloc(size * capacity + 2 * GUARD), malloc(size * capacity + 1), size, 0, capacity};
    expect(list.base && list.before, "no memory");
    return list;
}

static uint32_t *words_of(const struct list *list) {
    return (uint32_t *)(void *)(list->base + GUARD);
}

static uint8_t *bytes_of(const struct list *list) {
    return list->base + GUARD;
}

/* So many elements of random content. */
static void lend(struct list *list, size_t length) {
    size_t bytes = list->size * length;
    expect(length <= list->capacity, "a list of the test is too small");
    list->length = length;
    memset(list->base, GUARD_BYTE, GUARD);
    memset(list->base + GUARD + bytes, GUARD_BYTE, GUARD);
    for (size_t i = 0; i < bytes; i += 4) {
        uint32_t word = below(UINT32_MAX);
        memcpy(list->base + GUARD + i, &word, bytes - i < 4 ? bytes - i : 4);
    }
}

static void keep(struct list *list) {
    memcpy(list->before, list->base + GUARD, list->size * list->length);
}

/* An empty list is handed over as null now and then. */
static uint32_t *words_or_null(const struct list *list) {
    return list->length == 0 && one_in(2) ? NULL : words_of(list);
}

/* The first elements are those expected, the others as they were, and the guards untouched. */
static void compare(const struct list *list, const void *expected, size_t filled, const char *what) {
    size_t bytes = list->size * list->length, done = list->size * filled;
    for (size_t i = 0; i < GUARD; i++) {
        expect(list->base[i] == GUARD_BYTE && list->base[GUARD + bytes + i] == GUARD_BYTE, "a guard was written");
    }
    expect(filled <= list->length, what);
    expect(done == 0 || memcmp(list->base + GUARD, expected, done) == 0, what);
    expect(memcmp(list->base + GUARD + done, list->before + done, bytes - done) == 0, what);
}

static struct list starts, heads, costs, holds, distances, parents, roster, work, route, bytes, written, output, run_numbers, route_numbers;
static struct list reversed_starts, reversed_heads, reversed_costs, old_arcs;

static void make_lists(void) {
    starts = make(4, PLAIN_NODES + 8), heads = make(4, PLAIN_ARCS + 8), costs = make(4, PLAIN_ARCS + 8), holds = make(4, PLAIN_NODES + 8);
    distances = make(4, PLAIN_NODES + 8), parents = make(4, PLAIN_NODES + 8), roster = make(4, PLAIN_NODES + 8);
    work = make(4, 4 * PLAIN_NODES + 400), route = make(4, PLAIN_NODES + 8);
    reversed_starts = make(4, PLAIN_NODES + 8), reversed_heads = make(4, PLAIN_ARCS + 8), reversed_costs = make(4, PLAIN_ARCS + 8);
    old_arcs = make(4, PLAIN_ARCS + 8);
    bytes = make(1, 36 * (PLAIN_ARCS + 8)), written = make(1, ROOSTERNOW_PLAN_BYTES(PLAIN_NODES, PLAIN_ARCS) + 64);
    output = make(1, ROOSTERNOW_ANSWER_BYTES);
    run_numbers = make(8, ROOSTERNOW_RUN_NUMBERS), route_numbers = make(8, ROOSTERNOW_ROUTE_NUMBERS);
}

static void free_lists(void) {
    struct list *all[] = {&starts, &heads, &costs, &holds, &distances, &parents, &roster,
                          &work, &route, &bytes, &written, &output, &run_numbers, &route_numbers,
                          &reversed_starts, &reversed_heads, &reversed_costs, &old_arcs};
    for (size_t i = 0; i < sizeof all / sizeof all[0]; i++) free(all[i]->base), free(all[i]->before);
}

static uint64_t *lend_numbers(struct list *numbers, size_t count) {
    lend(numbers, count);
    keep(numbers);
    return (uint64_t *)(void *)bytes_of(numbers);
}

/* ---- maps */

static struct plain_map map;
static uint32_t segments;

static uint32_t some_ceiling(void) {
    static const uint32_t edges[] = {0, 1, 2, 3, 7, 8, 9, 15, 16, 63, 64, 65, 1000, 4095, 4096, 262143, 1048574, 1048575};
    return one_in(3) ? below(1048576) : edges[below(sizeof edges / sizeof edges[0])];
}

/* Holds of 0, small ones, or up to the ceiling; few nodes have the ceiling itself. */
static void draw_holds(uint32_t n) {
    uint32_t most = one_in(3) ? 0 : one_in(2) && map.ceiling > 3 ? 3 : map.ceiling;
    lend(&holds, n);
    for (uint32_t v = 0; v < n; v++) words_of(&holds)[v] = most > 0 && one_in(16) ? map.ceiling : below(most + 1);
}

/* A cost of an arc that counts with the hold of v: with it as much as the ceiling, or at most `dearest`. */
static uint32_t some_cost(uint32_t v, uint32_t dearest) {
    uint32_t left = map.ceiling - words_of(&holds)[v];
    return one_in(16) ? left : below((dearest < left ? dearest : left) + 1);
}

/* Costs that a run takes, each with the hold of its arc's tail, or a run to a destination, with that of its head. */
static void draw_costs(bool to) {
    uint32_t dearest = one_in(4) && map.ceiling > 3 ? 3 : map.ceiling;
    for (uint32_t v = 0; v < map.n; v++) {
        for (uint32_t a = words_of(&starts)[v]; a < words_of(&starts)[v + 1]; a++) {
            words_of(&costs)[a] = some_cost(to ? words_of(&heads)[a] : v, dearest);
        }
    }
}

/* A valid map of n nodes and m arcs in the lists. */
static void draw_map(uint32_t n, uint32_t m) {
    uint32_t *start = words_of(&starts);
    lend(&starts, (size_t)n + 1), lend(&heads, m), lend(&costs, m);
    map.n = n, map.ceiling = some_ceiling(), map.source = below(n);
    segments = 2 + below(63);
    memset(start, 0, 4 * ((size_t)n + 1));
    for (uint32_t a = 0; a < m; a++) start[below(n) + 1]++;
    for (uint32_t v = 0; v < n; v++) start[v + 1] += start[v];
    draw_holds(n);
    for (uint32_t a = 0; a < m; a++) words_of(&heads)[a] = below(n);
    draw_costs(false);
}

static void draw_some_map(bool large) {
    uint32_t n = large ? 1 + below(PLAIN_NODES) : 1 + below(24);
    if (large && one_in(2)) n = PLAIN_NODES;
    draw_map(n, large ? below(PLAIN_ARCS + 1) : below(3 * n + 8));
}

static void change_word(const struct list *list, uint32_t spread) {
    if (list->length == 0) return;
    words_of(list)[below((uint32_t)list->length)] = one_in(4) ? below(UINT32_MAX) : below(spread);
}

/* One word more, one word fewer, or none. */
static void change_length(struct list *list) {
    switch (below(3)) {
    case 0: list->length += list->length < list->capacity; break;
    case 1: list->length -= list->length > 0; break;
    default: list->length = 0; break;
    }
}

/* An arc whose cost and its tail's or head's hold are together above every ceiling, though not in 32 bits, where their sum wraps. */
static void wrap_sum(void) {
    uint32_t a = below((uint32_t)heads.length + 1), v = 0;
    while (v + 1 < starts.length && words_of(&starts)[v + 1] <= a) v++;
    if (a < heads.length && one_in(2)) v = words_of(&heads)[a];
    if (a >= costs.length || v >= holds.length || map.ceiling == 0) return;
    words_of(&holds)[v] = 1 + below(map.ceiling);
    words_of(&costs)[a] = UINT32_MAX - below(words_of(&holds)[v]);
}

/* One fault in the map or in the words told with it; now and then it makes none. */
static void damage_map(void) {
    switch (below(18)) {
    case 0: map.n = one_in(2) ? 0 : 4097 + below(3); break;
    case 1: map.n = below(30); break;
    case 2: map.ceiling = 1048576 + below(3); break;
    case 3: map.ceiling = below(map.ceiling + 1); break;
    case 4: map.source = map.n + below(3); break;
    case 5: map.source = below(UINT32_MAX); break;
    case 6: if (costs.length) costs.length--; break;
    case 7: if (heads.length) heads.length--; break;
    case 8: if (starts.length) starts.length--; break;
    case 9: change_word(&starts, (uint32_t)heads.length + 2); break;
    case 10: change_word(&heads, map.n + 2); break;
    case 11: change_word(&costs, map.ceiling + 2); break;
    case 12: segments = one_in(2) ? below(2) : 65 + below(1000); break;
    case 13: change_word(&holds, map.ceiling + 2); break;
    case 14: change_length(&holds); break;
    case 15: wrap_sum(); break;
    case 16: if (holds.length) words_of(&holds)[below((uint32_t)holds.length)] += 1; break;
    default: if (one_in(40)) lend(&heads, PLAIN_ARCS + 1), lend(&costs, PLAIN_ARCS + 1); break;
    }
}

/* A list cut short by the test has its guards moved up to its new end. */
static void settle(struct list *list) {
    memset(list->base + GUARD + list->size * list->length, GUARD_BYTE, GUARD);
    keep(list);
}

static void settle_map(void) {
    settle(&starts), settle(&heads), settle(&costs), settle(&holds);
    map.starts = words_of(&starts), map.heads = words_of(&heads), map.costs = words_of(&costs), map.holds = words_of(&holds);
    map.starts_words = starts.length, map.heads_words = heads.length, map.costs_words = costs.length, map.holds_words = holds.length;
}

static void compare_map(void) {
    compare(&starts, NULL, 0, "starts changed"), compare(&heads, NULL, 0, "heads changed"), compare(&costs, NULL, 0, "costs changed");
    compare(&holds, NULL, 0, "holds changed");
}

/* ---- the runs */

static struct plain_run run;

static void lend_about(struct list *list, size_t needed, uint32_t damage) {
    lend(list, one_in(damage) ? below((uint32_t)needed + 1) : needed + below(5));
    keep(list);
}

static size_t lent_nodes(void) {
    return map.n <= PLAIN_NODES ? map.n : PLAIN_NODES;
}

static void lend_by_node(struct list *list, uint32_t damage) {
    lend_about(list, lent_nodes(), damage);
}

/* The lists that every run fills; gives the work words that it needs. */
static size_t lend_run(bool two, uint32_t damage) {
    size_t needed = 4 * lent_nodes() + (two ? 384 : 64);
    lend_by_node(&distances, damage), lend_by_node(&parents, damage), lend_by_node(&roster, damage);
    lend(&work, one_in(damage) ? needed - 1 - below((uint32_t)needed) : needed + below(5)), keep(&work);
    return needed;
}

/* What document 01 says of a roster, each reached node once by nondecreasing distance, is true of the order scanned. */
static void expect_roster(void) {
    static bool seen[PLAIN_NODES];
    uint32_t last = 0;
    memset(seen, 0, sizeof seen);
    for (uint64_t i = 0; i < run.reached; i++) {
        uint32_t v = run.roster[i];
        expect(!seen[v] && run.distances[v] != PLAIN_NONE && run.distances[v] >= last, "plain.h: the roster is not by distance, each node once");
        seen[v] = true, last = run.distances[v];
    }
    for (uint32_t v = 0; v < map.n; v++) expect(seen[v] == (run.distances[v] != PLAIN_NONE), "plain.h: a node is missing in the roster");
}

/* Of a small map: each distance is the least cost of a route, by what a route costs. */
static void expect_cheapest(bool to) {
    static uint64_t least[PLAIN_NODES];
    if (map.n > 24) return;
    if (to) plain_cheapest_to(&map, least);
    else plain_cheapest(&map, least);
    for (uint32_t v = 0; v < map.n; v++) {
        expect(run.distances[v] == (least[v] == UINT64_MAX ? PLAIN_NONE : least[v]), "plain.h: a distance is not the least cost of a route");
    }
}

/* The numbers and the lists that every run fills, by what plain.h has planned, or every word as it was. */
static void compare_run(enum function function, struct plain_fault fault, size_t needed) {
    static const uint32_t zeros[4 * PLAIN_NODES + 384];
    bool accepted = fault.number == 0;
    uint64_t expected[ROOSTERNOW_RUN_NUMBERS] = {fault.number, fault.place, 0, 0, 0, 0, 0, 0};
    if (accepted) {
        expect_cheapest(function == ONE_LEVEL_TO || function == TWO_LEVEL_TO);
        expect_roster();
        expected[2] = run.reached, expected[3] = run.buckets, expected[4] = run.decreases;
        expected[5] = run.placements, expected[6] = run.looks, expected[7] = run.reads;
    }
    told[function][fault.number]++;
    compare(&run_numbers, expected, ROOSTERNOW_RUN_NUMBERS, names[function]);
    compare_map();
    compare(&distances, run.distances, accepted ? map.n : 0, "distances");
    compare(&parents, run.parents, accepted ? map.n : 0, "parents");
    compare(&roster, run.roster, accepted ? run.reached : 0, "roster");
    compare(&work, zeros, accepted ? needed : 0, "work");
}

static void call_run(bool two, uint32_t damage) {
    uint64_t *numbers = lend_numbers(&run_numbers, ROOSTERNOW_RUN_NUMBERS);
    size_t needed = lend_run(two, damage);
    if (two) {
        roosternow_two_level(map.n, map.ceiling, map.source, segments, words_or_null(&starts), starts.length, words_or_null(&heads),
                             heads.length, words_or_null(&costs), costs.length, words_or_null(&holds), holds.length,
                             words_or_null(&distances), distances.length, words_or_null(&parents), parents.length, words_or_null(&roster),
                             roster.length, words_or_null(&work), work.length, numbers);
    } else {
        roosternow_one_level(map.n, map.ceiling, map.source, words_or_null(&starts), starts.length, words_or_null(&heads), heads.length,
                             words_or_null(&costs), costs.length, words_or_null(&holds), holds.length, words_or_null(&distances),
                             distances.length, words_or_null(&parents), parents.length, words_or_null(&roster), roster.length,
                             words_or_null(&work), work.length, numbers);
    }
    size_t lent[4] = {distances.length, parents.length, roster.length, work.length};
    struct plain_fault fault = plain_run_check(&map, false, two, segments, lent);
    if (fault.number == 0) expect(plain_plan(&map, two, segments, &run), "plain.h: the smallest node is not in the lowest bucket");
    compare_run(two ? TWO_LEVEL : ONE_LEVEL, fault, needed);
}

/* ---- runs to a destination, which is the map's source */

static struct plain_reversed reversed;

static void lend_working(uint32_t damage) {
    lend_about(&reversed_starts, lent_nodes() + 1, damage), lend_about(&reversed_heads, heads.length, damage);
    lend_about(&reversed_costs, heads.length, damage), lend_about(&old_arcs, heads.length, damage);
}

static void plan_to(bool two) {
    expect(plain_plan_to(&map, two, segments, &reversed, &run), "plain.h: the smallest node is not in the lowest bucket");
    for (uint32_t v = 0; v < map.n; v++) {
        if (run.distances[v] == PLAIN_NONE) expect(run.parents[v] == PLAIN_NONE, "plain.h: a parent without a distance");
        else expect(plain_leads_to(&map, run.parents, v, run.distances[v]), "plain.h: parents do not lead to the destination for the distance");
    }
    expect(run.parents[map.source] == PLAIN_NONE, "plain.h: the destination has a parent");
}

/* The reversed map, or every word as it was. */
static void compare_working(bool accepted) {
    size_t m = accepted ? heads.length : 0;
    compare(&reversed_starts, reversed.starts, accepted ? (size_t)map.n + 1 : 0, "reversed starts");
    compare(&reversed_heads, reversed.heads, m, "reversed heads"), compare(&reversed_costs, reversed.costs, m, "reversed costs");
    compare(&old_arcs, reversed.old, m, "old arcs");
}

/* A run takes the working lists as its map, and gives the same; its parents are places of the old arcs. */
static void expect_run_of_working(bool two) {
    static uint32_t own[3 * PLAIN_NODES + 4 * PLAIN_NODES + 384];
    uint32_t n = map.n, *found = own + n;
    size_t m = heads.length, needed = 4 * (size_t)n + (two ? 384 : 64);
    uint64_t numbers[ROOSTERNOW_RUN_NUMBERS];
    if (two) {
        roosternow_two_level(n, map.ceiling, map.source, segments, words_of(&reversed_starts), (size_t)n + 1, words_of(&reversed_heads), m,
                             words_of(&reversed_costs), m, map.holds, n, own, n, found, n, own + 2 * n, n, own + 3 * n, needed, numbers);
    } else {
        roosternow_one_level(n, map.ceiling, map.source, words_of(&reversed_starts), (size_t)n + 1, words_of(&reversed_heads), m,
                             words_of(&reversed_costs), m, map.holds, n, own, n, found, n, own + 2 * n, n, own + 3 * n, needed, numbers);
    }
    for (uint32_t v = 0; v < n; v++) found[v] = found[v] == PLAIN_NONE ? PLAIN_NONE : words_of(&old_arcs)[found[v]];
    expect(memcmp(numbers, bytes_of(&run_numbers), sizeof numbers) == 0, "a run of the working lists: numbers");
    expect(memcmp(own, run.distances, 4 * (size_t)n) == 0, "a run of the working lists: distances");
    expect(memcmp(found, run.parents, 4 * (size_t)n) == 0, "a run of the working lists: parents");
    expect(memcmp(own + 2 * n, run.roster, 4 * run.reached) == 0, "a run of the working lists: roster");
}

/* Which list is too short, and which maps are taken either by a run or by one to a destination: 8 is by another hold. */
static void tell_to(enum function function, struct plain_fault fault) {
    uint64_t by_a_run = plain_map_check(&map, false).number, here = plain_map_check(&map, true).number;
    if (fault.number == 10) told_places[function][fault.place]++;
    taken_here[function] += here == 0 && by_a_run == 8;
    taken_by_a_run[function] += here == 8 && by_a_run == 0;
}

static void call_run_to(bool two, uint32_t damage) {
    enum function function = two ? TWO_LEVEL_TO : ONE_LEVEL_TO;
    uint64_t *numbers = lend_numbers(&run_numbers, ROOSTERNOW_RUN_NUMBERS);
    size_t needed = lend_run(two, damage);
    lend_working(damage);
    if (two) {
        roosternow_two_level_to(map.n, map.ceiling, map.source, segments, words_or_null(&starts), starts.length, words_or_null(&heads),
                                heads.length, words_or_null(&costs), costs.length, words_or_null(&holds), holds.length,
                                words_or_null(&distances), distances.length, words_or_null(&parents), parents.length, words_or_null(&roster),
                                roster.length, words_or_null(&work), work.length, words_or_null(&reversed_starts), reversed_starts.length,
                                words_or_null(&reversed_heads), reversed_heads.length, words_or_null(&reversed_costs),
                                reversed_costs.length, words_or_null(&old_arcs), old_arcs.length, numbers);
    } else {
        roosternow_one_level_to(map.n, map.ceiling, map.source, words_or_null(&starts), starts.length, words_or_null(&heads), heads.length,
                                words_or_null(&costs), costs.length, words_or_null(&holds), holds.length, words_or_null(&distances),
                                distances.length, words_or_null(&parents), parents.length, words_or_null(&roster), roster.length,
                                words_or_null(&work), work.length, words_or_null(&reversed_starts), reversed_starts.length,
                                words_or_null(&reversed_heads), reversed_heads.length, words_or_null(&reversed_costs),
                                reversed_costs.length, words_or_null(&old_arcs), old_arcs.length, numbers);
    }
    size_t lent[LISTS_TO] = {distances.length,       parents.length,        roster.length,         work.length,
                             reversed_starts.length, reversed_heads.length, reversed_costs.length, old_arcs.length};
    struct plain_fault fault = plain_run_check(&map, true, two, segments, lent);
    if (fault.number == 0) plan_to(two);
    compare_run(function, fault, needed);
    compare_working(fault.number == 0);
    if (fault.number == 0) expect_run_of_working(two);
    tell_to(function, fault);
}

/* ---- routes */

/* By the parents that the call before has left, by random ones, or by a mixture. */
static void call_route(uint32_t damage) {
    static uint32_t nodes[PLAIN_NODES];
    uint64_t *numbers = lend_numbers(&route_numbers, ROOSTERNOW_ROUTE_NUMBERS), count;
    uint32_t destination = one_in(20) ? map.n + below(3) : below(map.n ? map.n : 1);
    if (one_in(damage)) change_word(&parents, (uint32_t)heads.length + 1);
    for (size_t i = 0; one_in(damage) && i < parents.length; i++) change_word(&parents, (uint32_t)heads.length + 1);
    keep(&parents);
    size_t n = lent_nodes();
    lend(&route, one_in(4) ? below((uint32_t)n + 3) : n), keep(&route);
    roosternow_route(map.n, map.source, words_or_null(&starts), starts.length, words_or_null(&heads), heads.length, words_or_null(&parents),
                     parents.length, destination, words_or_null(&route), route.length, numbers);
    struct plain_fault fault = plain_route(&map, words_of(&parents), parents.length, destination, route.length, nodes, &count);
    uint64_t expected[ROOSTERNOW_ROUTE_NUMBERS] = {fault.number, fault.place, count};
    told[ROUTE][fault.number]++;
    compare(&route_numbers, expected, ROOSTERNOW_ROUTE_NUMBERS, "route: numbers");
    compare_map();
    compare(&parents, NULL, 0, "route: parents changed");
    compare(&route, nodes, (size_t)count, "route: nodes");
}

/* ---- planning files */

static struct plain_file file;

/* What stands behind K in line 1: nothing, or 1 where holds are told; now and then something else. */
static const char *some_sixth(bool held) {
    static const char *const others[] = {",0", ",2", ",01", ",", ",1,1", ",1,0", ",10"};
    if (one_in(60)) return others[below(sizeof others / sizeof others[0])];
    return held ? ",1" : "";
}

/* The map of the lists as a planning file, with its holds or without. A line has at most three numbers of 10 digits, line 1 five and a few bytes. */
static void write_file(void) {
    char *text = (char *)bytes_of(&bytes);
    size_t room = bytes.capacity;
    size_t m = heads.length, told_arcs = one_in(300) ? 65535 + below(4) : m;
    bool held = !one_in(3);
    size_t at = (size_t)snprintf(text, room, "%" PRIu32 ",%zu,%" PRIu32 ",%" PRIu32 ",%" PRIu32 "%s\n", map.n, told_arcs, map.ceiling,
                                 map.source, segments, some_sixth(held));
    uint32_t tail = 0;
    for (uint32_t a = 0; a < m; a++) {
        while (tail + 1 < map.n && tail + 1 < starts.length && words_of(&starts)[tail + 1] <= a) tail++;
        at += (size_t)snprintf(text + at, room - at, "%" PRIu32 ",%" PRIu32 ",%" PRIu32 "\n", tail, words_of(&heads)[a], words_of(&costs)[a]);
    }
    for (size_t v = 0; held && v < holds.length; v++) at += (size_t)snprintf(text + at, room - at, "%" PRIu32 "\n", words_of(&holds)[v]);
    bytes.length = at;
}

/* A byte changed, left out or put in, or the file cut. */
static void damage_file(const char *drawn) {
    uint8_t *text = bytes_of(&bytes);
    size_t at = below((uint32_t)bytes.length + 1);
    uint8_t byte = one_in(8) ? (uint8_t)below(256) : (uint8_t)drawn[below((uint32_t)strlen(drawn))];
    switch (below(4)) {
    case 0: if (at < bytes.length) text[at] = byte; break;
    case 1: if (at < bytes.length) memmove(text + at, text + at + 1, bytes.length-- - at - 1); break;
    case 2: memmove(text + at + 1, text + at, bytes.length++ - at), text[at] = byte; break;
    default: bytes.length = at; break;
    }
}

/* What was written is damaged, now and then, by bytes of those drawn. */
static void finish_file(uint32_t damage, const char *drawn) {
    while (bytes.length > 0 && one_in(damage)) damage_file(drawn);
    memset(bytes.base, GUARD_BYTE, GUARD);
    settle(&bytes);
}

static void draw_file(uint32_t damage) {
    write_file();
    finish_file(damage, "0123456789,\n -\r");
}

static const uint8_t *bytes_or_null(void) {
    return bytes.length == 0 && one_in(2) ? NULL : bytes_of(&bytes);
}

static void lend_map(uint32_t damage) {
    uint32_t n = map.n <= PLAIN_NODES ? map.n : PLAIN_NODES, m = (uint32_t)heads.length;
    lend(&starts, one_in(damage) ? below(n + 1) : (size_t)n + 1 + below(4)), keep(&starts);
    lend(&heads, one_in(damage) ? below(m + 1) : m + below(4)), keep(&heads);
    lend(&costs, one_in(damage) ? below(m + 1) : m + below(4)), keep(&costs);
}

/* Whether both runs take the map that plain.h has read. */
static bool is_runnable(void) {
    static const size_t enough[4] = {PLAIN_NODES, PLAIN_NODES, PLAIN_NODES, 4 * PLAIN_NODES + 384};
    struct plain_map read = {file.n, file.ceiling, file.source, file.starts, file.heads, file.costs, file.holds,
                             (size_t)file.n + 1, file.m, file.m, file.n};
    return plain_run_check(&read, false, false, 0, enough).number == 0 && plain_run_check(&read, false, true, file.K, enough).number == 0;
}

/* What a planning file was told: of the refusals 8, those for a sum are counted apart, which come behind every line. */
static void tell_file(enum function function, struct plain_fault fault) {
    told[function][fault.number]++;
    told_held[function] += fault.number == 0 && file.held;
    told_sums[function] += fault.number == 8 && file.costs[fault.place] <= file.ceiling;
    if (fault.number == 0) expect(is_runnable(), "plain.h: a file that is read is a map that a run refuses");
}

/* The map of the file in the lists of both readers, or every word as it was. */
static void compare_read(bool accepted) {
    compare(&bytes, NULL, 0, "read: bytes changed");
    compare(&starts, file.starts, accepted ? (size_t)file.n + 1 : 0, "read: starts");
    compare(&heads, file.heads, accepted ? file.m : 0, "read: heads");
    compare(&costs, file.costs, accepted ? file.m : 0, "read: costs");
}

static void call_read(uint32_t damage) {
    uint64_t *numbers = lend_numbers(&run_numbers, ROOSTERNOW_READ_NUMBERS);
    lend_map(damage), lend_by_node(&holds, damage);
    roosternow_read(bytes_or_null(), bytes.length, words_or_null(&starts), starts.length, words_or_null(&heads), heads.length,
                    words_or_null(&costs), costs.length, words_or_null(&holds), holds.length, numbers);
    size_t lent[4] = {starts.length, heads.length, costs.length, holds.length};
    struct plain_fault fault = plain_read(bytes_of(&bytes), bytes.length, lent, &file);
    uint64_t expected[ROOSTERNOW_READ_NUMBERS] = {fault.number, fault.place, 0, 0, 0, 0, 0};
    bool accepted = fault.number == 0;
    if (accepted) {
        expected[2] = file.n, expected[3] = file.m, expected[4] = file.ceiling, expected[5] = file.source, expected[6] = file.K;
    }
    tell_file(READ, fault);
    compare(&run_numbers, expected, ROOSTERNOW_READ_NUMBERS, "read: numbers");
    compare_read(accepted);
    compare(&holds, file.holds, accepted ? file.n : 0, "read: holds");
}

/* ---- planning files written */

static char plan_file[24 * (PLAIN_ARCS + PLAIN_NODES + 8)];

/* Just the length, one byte fewer, none or any number below, the most that a map of this size takes, or any number more. */
static size_t some_room(size_t length) {
    switch (below(5)) {
    case 0: return length;
    case 1: return length - 1;
    case 2: return one_in(2) ? 0 : below((uint32_t)length);
    case 3: return ROOSTERNOW_PLAN_BYTES(map.n, heads.length);
    default: return length + 1 + below(40);
    }
}

/* The map of the lists into a buffer of junk with so much room; `length` is that of its file. */
static bool call_write(struct plain_fault fault, size_t length, size_t room) {
    uint64_t *numbers = lend_numbers(&route_numbers, ROOSTERNOW_WRITE_NUMBERS);
    if (fault.number == 0 && room < length) fault = plain_fault(10, 0);
    bool accepted = fault.number == 0;
    uint64_t expected[ROOSTERNOW_WRITE_NUMBERS] = {fault.number, fault.place, accepted ? length : 0};
    lend(&written, room), keep(&written);
    uint8_t *buffer = room == 0 && one_in(2) ? NULL : bytes_of(&written);
    roosternow_write(map.n, map.ceiling, map.source, segments, words_or_null(&starts), starts.length, words_or_null(&heads), heads.length,
                     words_or_null(&costs), costs.length, words_or_null(&holds), holds.length, buffer, room, numbers);
    told[WRITE][fault.number]++;
    compare(&route_numbers, expected, ROOSTERNOW_WRITE_NUMBERS, "write: numbers");
    compare_map();
    compare(&written, plan_file, accepted ? length : 0, "write: bytes");
    return accepted;
}

/* What was written is read to the same numbers and the same lists, and these are written to the same bytes. */
static void expect_read_back(size_t length) {
    static struct plain_file back;
    static uint8_t again[sizeof plan_file];
    size_t n = map.n, m = heads.length;
    uint64_t numbers[ROOSTERNOW_READ_NUMBERS], expected[ROOSTERNOW_READ_NUMBERS] = {0, 0, n, m, map.ceiling, map.source, segments};
    roosternow_read(bytes_of(&written), length, back.starts, n + 1, back.heads, m, back.costs, m, back.holds, n, numbers);
    expect(memcmp(numbers, expected, sizeof expected) == 0, "write: other numbers are read back");
    expect(memcmp(back.starts, map.starts, 4 * (n + 1)) == 0, "write: other starts are read back");
    expect(memcmp(back.heads, map.heads, 4 * m) == 0, "write: other heads are read back");
    expect(memcmp(back.costs, map.costs, 4 * m) == 0, "write: other costs are read back");
    expect(memcmp(back.holds, map.holds, 4 * n) == 0, "write: other holds are read back");
    roosternow_write((uint32_t)numbers[ROOSTERNOW_NODES], (uint32_t)numbers[ROOSTERNOW_CEILING], (uint32_t)numbers[ROOSTERNOW_SOURCE],
                     (uint32_t)numbers[ROOSTERNOW_SEGMENTS], back.starts, n + 1, back.heads, m, back.costs, m, back.holds, n, again, length,
                     numbers);
    expect(numbers[ROOSTERNOW_RETURNED] == 0 && numbers[ROOSTERNOW_LENGTH] == length, "write: what was read back has another length");
    expect(memcmp(again, bytes_of(&written), length) == 0, "write: what was read back has other bytes");
}

static bool has_hold(void) {
    for (size_t v = 0; v < holds.length; v++) {
        if (words_of(&holds)[v] != 0) return true;
    }
    return false;
}

static void write_map(void) {
    struct plain_fault fault = plain_write_check(&map, segments);
    bool valid = fault.number == 0;
    size_t length = valid ? plain_plan_file(&map, segments, plan_file, sizeof plan_file) : 0;
    expect(!valid || length <= ROOSTERNOW_PLAN_BYTES(map.n, heads.length), "ROOSTERNOW_PLAN_BYTES: too few");
    if (!call_write(fault, length, valid ? some_room(length) : below(200))) return;
    told_held[WRITE] += has_hold();
    expect_read_back(length);
}

/* Every number has as many digits as it can have, but for holds: with 0, and with a cost of 7 digits beside a hold of 5. */
static void write_largest(uint32_t hold, uint32_t last_hold, size_t length) {
    lend(&starts, PLAIN_NODES + 1), lend(&heads, PLAIN_ARCS), lend(&costs, PLAIN_ARCS), lend(&holds, PLAIN_NODES);
    map.n = PLAIN_NODES, map.ceiling = 1048575, map.source = PLAIN_NODES - 1, segments = 64;
    for (uint32_t v = 0; v < PLAIN_NODES; v++) words_of(&starts)[v] = 0, words_of(&holds)[v] = hold;
    words_of(&starts)[PLAIN_NODES] = PLAIN_ARCS, words_of(&holds)[PLAIN_NODES - 1] = last_hold;
    for (uint32_t a = 0; a < PLAIN_ARCS; a++) words_of(&heads)[a] = PLAIN_NODES - 1, words_of(&costs)[a] = 1000000;
    settle_map();
    expect(plain_plan_file(&map, segments, plan_file, sizeof plan_file) == length, "plain.h: a largest file has another length");
    expect(length <= ROOSTERNOW_PLAN_BYTES(PLAIN_NODES, PLAIN_ARCS), "ROOSTERNOW_PLAN_BYTES: too few for a largest file");
    expect(!call_write(plain_fault(0, 0), length, length - 1), "write: a largest file in a byte too few");
    expect(call_write(plain_fault(0, 0), length, length), "write: a largest file");
    expect_read_back(length);
}

/* The map of a file into the lists, just as long as it takes them; false if it is refused. */
static bool read_named(const char *name) {
    uint64_t numbers[ROOSTERNOW_READ_NUMBERS];
    FILE *stream = fopen(name, "rb");
    expect(stream != NULL, name);
    lend(&bytes, bytes.capacity);
    bytes.length = fread(bytes_of(&bytes), 1, bytes.capacity, stream);
    fclose(stream);
    expect(bytes.length < bytes.capacity, "a file is too long for the test");
    lend(&starts, PLAIN_NODES + 1), lend(&heads, PLAIN_ARCS), lend(&costs, PLAIN_ARCS), lend(&holds, PLAIN_NODES);
    roosternow_read(bytes_of(&bytes), bytes.length, words_of(&starts), starts.length, words_of(&heads), heads.length, words_of(&costs),
                    costs.length, words_of(&holds), holds.length, numbers);
    if (numbers[ROOSTERNOW_RETURNED] != 0) return false;
    map.n = (uint32_t)numbers[ROOSTERNOW_NODES], map.ceiling = (uint32_t)numbers[ROOSTERNOW_CEILING];
    map.source = (uint32_t)numbers[ROOSTERNOW_SOURCE], segments = (uint32_t)numbers[ROOSTERNOW_SEGMENTS];
    starts.length = (size_t)map.n + 1, holds.length = map.n, heads.length = costs.length = numbers[ROOSTERNOW_ARCS];
    settle_map();
    return true;
}

/* Every file that is accepted is written as it was, unless it tells holds that are all 0, which are left out; and it is read back. */
static void write_named(int count, char **names) {
    static const size_t enough[4] = {PLAIN_NODES + 1, PLAIN_ARCS, PLAIN_ARCS, PLAIN_NODES};
    uint64_t accepted = 0, shorter = 0;
    for (int i = 0; i < count; i++) {
        bool valid = read_named(names[i]);
        expect((plain_read(bytes_of(&bytes), bytes.length, enough, &file).number == 0) == valid, names[i]);
        if (!valid) continue;
        bool left_out = file.held && !has_hold();
        size_t length = plain_plan_file(&map, segments, plan_file, sizeof plan_file);
        expect(call_write(plain_fault(0, 0), length, length), names[i]);
        bool same = length == bytes.length && memcmp(bytes_of(&written), bytes_of(&bytes), length) == 0;
        expect(same != left_out, names[i]);
        expect_read_back(length);
        accepted++, shorter += left_out;
    }
    if (count > 0) {
        printf("%d files: %" PRIu64 " accepted, each read, written, read again and written again: the same numbers, lists and bytes; %" PRIu64
               " without the holds of 0 that it told, the others as they were\n",
               count, accepted, shorter);
    }
}

/* ---- road files */

/* A text behind what the file has. */
static void append(const char *text) {
    size_t length = strlen(text);
    expect(bytes.length + length + 1 < bytes.capacity, "a road file of the test is too long");
    memcpy(bytes_of(&bytes) + bytes.length, text, length + 1);
    bytes.length += length;
}

static void append_comments(void) {
    static const char *const comments[] = {"c\n", "c a 1 1 1\n", "cp sp 1 1\n", "c \r\n", "c\t0 \xff\n"};
    while (one_in(12)) append(comments[below(sizeof comments / sizeof comments[0])]);
}

static void append_problem(void) {
    char text[64];
    size_t arcs = one_in(300) ? 65535 + below(4) : one_in(40) ? heads.length + 1 - below(3) : heads.length;
    snprintf(text, sizeof text, "p sp %" PRIu32 " %zu\n", map.n, arcs);
    append(text);
}

/* Arc a of the lists, with nodes from 1; a bad one has a tail and a head from 0 to n + 1. */
static void append_arc(uint32_t a, uint32_t tail, bool bad) {
    char text[64];
    uint64_t from = bad ? below(map.n + 2) : (uint64_t)tail + 1, to = bad ? below(map.n + 2) : (uint64_t)words_of(&heads)[a] + 1;
    snprintf(text, sizeof text, "a %" PRIu64 " %" PRIu64 " %" PRIu32 "\n", from, to, words_of(&costs)[a]);
    append(text);
}

/* The map of the lists as a road file, its arcs in any order. */
static void write_road(void) {
    static uint32_t tails[PLAIN_ARCS + 8], order[PLAIN_ARCS + 8];
    uint32_t m = (uint32_t)heads.length, tail = 0;
    uint32_t again = one_in(30) ? below(m + 1) : m, bad = one_in(8) ? below(m + 1) : m;
    for (uint32_t a = 0; a < m; a++) {
        while (tail + 1 < map.n && tail + 1 < starts.length && words_of(&starts)[tail + 1] <= a) tail++;
        uint32_t other = below(a + 1);
        tails[a] = tail, order[a] = order[other], order[other] = a;
    }
    bytes.length = 0;
    append_comments();
    if (!one_in(40)) append_problem();
    for (uint32_t i = 0; i < m; i++) {
        append_comments();
        if (i == again) append_problem();
        append_arc(order[i], tails[order[i]], i == bad);
    }
    append_comments();
    finish_file(3, "0123456789 \n cpas\r-");
}

static void call_read_dimacs(uint32_t damage) {
    uint64_t *numbers = lend_numbers(&run_numbers, ROOSTERNOW_DIMACS_NUMBERS);
    lend_map(damage);
    roosternow_read_dimacs(bytes_or_null(), bytes.length, map.ceiling, words_or_null(&starts), starts.length, words_or_null(&heads),
                           heads.length, words_or_null(&costs), costs.length, numbers);
    size_t lent[3] = {starts.length, heads.length, costs.length};
    struct plain_fault fault = plain_read_dimacs(bytes_of(&bytes), bytes.length, map.ceiling, lent, &file);
    bool accepted = fault.number == 0;
    uint64_t expected[ROOSTERNOW_DIMACS_NUMBERS] = {fault.number, fault.place, accepted ? file.n : 0, accepted ? file.m : 0};
    told[READ_DIMACS][fault.number]++;
    compare(&run_numbers, expected, ROOSTERNOW_DIMACS_NUMBERS, "read_dimacs: numbers");
    compare_read(accepted);
}

/* ---- the text */

static void compare_answer(struct plain_fault fault, size_t length) {
    static const uint32_t zeros[ROOSTERNOW_ANSWER_WORK];
    static char text[ROOSTERNOW_ANSWER_BYTES + 64];
    static struct plain_run one;
    bool accepted = fault.number == 0;
    size_t expected, n = accepted ? file.n : 0, m = accepted ? file.m : 0;
    if (accepted) {
        map.n = file.n, map.ceiling = file.ceiling, map.source = file.source;
        map.starts = file.starts, map.heads = file.heads, map.costs = file.costs, map.holds = file.holds;
        expect(plain_plan(&map, false, 0, &one) && plain_plan(&map, true, file.K, &run), "plain.h: the smallest node is not in the lowest bucket");
        expect(one.reached == run.reached && memcmp(one.roster, run.roster, 4 * run.reached) == 0, "plain.h: the heaps have different rosters");
        expected = plain_text(text, sizeof text, &file, &one, &run);
    } else {
        expected = (size_t)snprintf(text, sizeof text, "refused,%" PRIu64 ",%" PRIu64 "\n", fault.number, fault.place);
    }
    expect(length == expected, "answer: length");
    compare(&output, text, expected, "answer: text");
    compare(&bytes, NULL, 0, "answer: bytes changed");
    compare(&starts, file.starts, accepted ? n + 1 : 0, "answer: starts");
    compare(&heads, file.heads, m, "answer: heads"), compare(&costs, file.costs, m, "answer: costs");
    compare(&holds, file.holds, n, "answer: holds");
    compare(&distances, run.distances, n, "answer: distances"), compare(&parents, run.parents, n, "answer: parents");
    compare(&roster, run.roster, accepted ? run.reached : 0, "answer: roster");
    compare(&work, zeros, accepted ? 4 * n + 384 : 0, "answer: work");
}

static void call_answer(void) {
    lend(&starts, ROOSTERNOW_ANSWER_STARTS), lend(&heads, ROOSTERNOW_ANSWER_ARCS), lend(&costs, ROOSTERNOW_ANSWER_ARCS);
    lend(&holds, ROOSTERNOW_ANSWER_NODES);
    lend(&distances, ROOSTERNOW_ANSWER_NODES), lend(&parents, ROOSTERNOW_ANSWER_NODES), lend(&roster, ROOSTERNOW_ANSWER_NODES);
    lend(&work, ROOSTERNOW_ANSWER_WORK), lend(&output, ROOSTERNOW_ANSWER_BYTES);
    struct list *all[] = {&starts, &heads, &costs, &holds, &distances, &parents, &roster, &work, &output};
    for (size_t i = 0; i < sizeof all / sizeof all[0]; i++) keep(all[i]);
    size_t length = roosternow_answer(bytes_or_null(), bytes.length, words_of(&starts), words_of(&heads), words_of(&costs), words_of(&holds),
                                      words_of(&distances), words_of(&parents), words_of(&roster), words_of(&work), bytes_of(&output));
    static const size_t lent[4] = {ROOSTERNOW_ANSWER_STARTS, ROOSTERNOW_ANSWER_ARCS, ROOSTERNOW_ANSWER_ARCS, ROOSTERNOW_ANSWER_NODES};
    struct plain_fault fault = plain_fault(13, 0);
    if (bytes.length <= ROOSTERNOW_ANSWER_INPUT) fault = plain_read(bytes_of(&bytes), bytes.length, lent, &file);
    tell_file(ANSWER, fault);
    compare_answer(fault, length);
}

/* A map for the text: small, at the edge of the fixed sizes, or past 65,536 bytes. */
static void draw_map_for_answer(void) {
    if (one_in(200)) draw_map(510 + below(5), 2046 + below(5));
    else if (one_in(1000)) draw_map(1 + below(PLAIN_NODES), 8000);
    else draw_some_map(false);
    if (one_in(4)) damage_map();
}

/* ---- several threads at once, over lists that are only read */

struct worker {
    const struct plain_run *expected;
    bool right;
};

static void *work_on(void *argument) {
    struct worker *worker = argument;
    uint32_t *own = malloc(4 * (3 * (size_t)map.n + ROOSTERNOW_WORK_TWO_LEVEL(map.n)));
    uint64_t numbers[ROOSTERNOW_RUN_NUMBERS];
    worker->right = own != NULL;
    for (int i = 0; own && i < 200; i++) {
        uint32_t n = map.n;
        roosternow_two_level(n, map.ceiling, map.source, segments, map.starts, map.starts_words, map.heads, map.heads_words, map.costs,
                             map.costs_words, map.holds, map.holds_words, own, n, own + n, n, own + 2 * n, n, own + 3 * n,
                             ROOSTERNOW_WORK_TWO_LEVEL(n), numbers);
        worker->right = worker->right && numbers[0] == 0 && numbers[6] == worker->expected->looks && numbers[7] == worker->expected->reads;
        worker->right = worker->right && memcmp(own, worker->expected->distances, 4 * (size_t)n) == 0;
        worker->right = worker->right && memcmp(own + n, worker->expected->parents, 4 * (size_t)n) == 0;
    }
    free(own);
    return NULL;
}

static void call_from_threads(void) {
    struct worker workers[4];
    pthread_t threads[4];
    draw_map(500, 4000), settle_map();
    expect(plain_plan(&map, true, segments, &run), "plain.h: the smallest node is not in the lowest bucket");
    for (int i = 0; i < 4; i++) {
        workers[i].expected = &run;
        expect(pthread_create(&threads[i], NULL, work_on, &workers[i]) == 0, "no thread");
    }
    for (int i = 0; i < 4; i++) {
        pthread_join(threads[i], NULL);
        expect(workers[i].right, "threads: another answer");
    }
}

/* ---- all */

/* Each of the eight lists has to be the one too short, and 8 to tell a run and one to a destination apart, both ways. */
static void report_to(int function, uint64_t inputs) {
    printf(" 10 by list:");
    for (int list = 0; list < LISTS_TO; list++) {
        printf("%s%" PRIu64, list ? "," : "", told_places[function][list]);
        expect(inputs < 100000 || told_places[function][list], "no refusal for a list that is too short");
    }
    printf(" taken here, by a run 8:%" PRIu64 " taken by a run, here 8:%" PRIu64, taken_here[function], taken_by_a_run[function]);
    expect(inputs < 100000 || (taken_here[function] && taken_by_a_run[function]), "8 tells no run and run to a destination apart");
}

/* Every refusal that a function can make has to be seen, as rows of the documents' table. */
static void report(uint64_t inputs) {
    static const uint32_t possible[FUNCTIONS] = {0x1005FF, 0x1007FF, 0x1005FF, 0x1007FF, 0x3C4FB, 0x101F9F, 0xC1597, 0x1007FF, 0x103F9F};
    for (int function = 0; function < FUNCTIONS; function++) {
        uint64_t calls = 0;
        printf("%-12s", names[function]);
        for (int number = 0; number < REFUSALS; number++) {
            calls += told[function][number];
            if (told[function][number]) printf(" %d:%" PRIu64, number, told[function][number]);
            bool seen = told[function][number] > 0, can = possible[function] >> number & 1;
            if (inputs >= 100000) expect(seen == can, "a refusal was never told, or one that is not the function's");
        }
        if (told_held[function]) printf(" with holds:%" PRIu64, told_held[function]);
        if (told_sums[function]) printf(" 8 for a sum:%" PRIu64, told_sums[function]);
        if (function == ONE_LEVEL_TO || function == TWO_LEVEL_TO) report_to(function, inputs);
        printf(" calls:%" PRIu64 "\n", calls);
        expect(calls >= inputs, "too few calls");
        bool planning = inputs >= 100000 && (function == READ || function == ANSWER);
        expect(!planning || (told_held[function] && told_sums[function]), "no file with holds, or none with a sum above its ceiling");
        bool both = told_held[WRITE] > 0 && told_held[WRITE] < told[WRITE][0];
        expect(inputs < 100000 || both, "no file written with holds, or none without");
    }
}

/* The data sheet's formulas, worked out by hand: R (5 B - 4) + 3 m + 3 and R (5 B + K - 4) + 3 m + 3. */
static void expect_operations(void) {
    expect(roosternow_most_operations_one_level(5, 7, 9) == 5 * 26 + 24, "heap operations of document 01's listing, one level");
    expect(roosternow_most_operations_two_level(5, 7, 9, 3) == 5 * 19 + 24, "heap operations of document 01's listing, two levels");
    expect(roosternow_most_operations_one_level(300, 1200, 10000) == 26403, "heap operations of a loop, one level");
    expect(roosternow_most_operations_two_level(300, 1200, 10000, 7) == 13503, "heap operations of a loop, two levels");
    expect(roosternow_most_operations_one_level(1, 0, 0) == 1 * 6 + 3, "heap operations of one node, one level");
    expect(roosternow_most_operations_two_level(4096, 3, 0, 2) == 4 * 8 + 12, "heap operations of four nodes at most, two levels");
    expect(roosternow_most_operations_one_level(4097, 0, 0) == 0, "heap operations of a size that is refused");
    expect(roosternow_most_operations_two_level(1, 0, 0, 65) == 0, "heap operations of a K that is refused");
}

/* A number from 1 of at most 18 digits; 0 for any other word. */
static uint64_t number_of(const char *word) {
    size_t digits = strspn(word, "0123456789");
    return word[digits] == 0 && word[0] != '0' && digits <= 18 ? strtoull(word, NULL, 10) : 0;
}

/* Every function on maps and files drawn anew. */
static void call_all(bool large) {
    draw_some_map(large);
    while (!large && one_in(3)) damage_map();
    settle_map();
    call_run(false, large ? 1000000 : 12);
    call_route(6);
    call_run(true, large ? 1000000 : 12);
    call_route(6);
    write_map();
    draw_some_map(large);
    if (!one_in(4)) draw_costs(true);
    while (!large && one_in(3)) damage_map();
    settle_map();
    call_run_to(false, large ? 1000000 : 24);
    call_run_to(true, large ? 1000000 : 24);
    draw_some_map(large);
    while (!large && one_in(4)) damage_map();
    draw_file(2);
    call_read(16);
    draw_some_map(large);
    while (!large && one_in(4)) damage_map();
    write_road();
    call_read_dimacs(16);
    draw_map_for_answer();
    draw_file(3);
    call_answer();
}

int main(int count, char **words) {
    int files = 1;
    while (files < count && strcmp(words[files], "--") != 0) files++;
    uint64_t inputs = files > 1 ? number_of(words[1]) : 100000;
    state = files > 2 ? number_of(words[2]) : UINT64_C(88172645463325252);
    if (files > 3 || inputs == 0 || state == 0) {
        fprintf(stderr, "use: calls [INPUTS [SEED]] [-- FILE..], numbers from 1 of at most 18 digits\n");
        return 2;
    }
    expect(roosternow_version() == ROOSTERNOW_VERSION, "the archive is of another version than its header");
    expect_operations();
    make_lists();
    for (input = 0; input < inputs; input++) call_all(input % 10000 == 0);
    call_from_threads();
    report(inputs);
    write_largest(0, 0, 1179675);
    write_largest(1000000, 10000, 1212443);
    write_named(files < count ? count - files - 1 : 0, words + files + 1);
    printf("%" PRIu64 " inputs: every answer and every lent word as expected, every guard untouched\n", inputs);
    free_lists();
    return 0;
}
