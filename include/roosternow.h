/*
 * roosternow.h - cheapest routes by one- and two-level radix heaps, for C11 and C++11.
 *
 * The archive is made by scripts/archive (target/staticlib/libroosternow.a, x86-64 Linux). It needs `memset` of the C library
 * and nothing else: no heap, no files, no other symbol. Every function below is proved against a contract (crates/roosternow/src)
 * that says what it answers and what it leaves in every lent list, for every input that meets the rules here.
 *
 * The map. n nodes are numbered 0 to n - 1, m arcs from 0. The arcs leaving node v are numbers starts[v] up to but not including
 * starts[v + 1], arc a goes to node heads[a] and costs costs[a], and node v has the hold holds[v]. Self-loops and parallel arcs are allowed.
 * Words are 32 bits.
 *
 * What a route costs: its arcs' costs and the holds of the nodes strictly between its ends, each visit counted; at its ends it pays none.
 * For a map without holds the caller lends n zeros, and a route costs the sum of its arcs' costs.
 *
 * Rules for every function.
 * - A list is a pointer and the number of its elements. The pointer is aligned for its type, and that many elements may be read, and
 *   written where the pointer is not to const. A list of 0 elements may have a null pointer. `numbers` and the lists of fixed size are
 *   never null.
 * - A list that is written (a pointer not to const) overlaps no other list of the call. Lists that are only read may overlap.
 * - Words and bytes past those that a function fills are untouched. A refusal changes none but `numbers` (roosternow_answer: but `output`).
 * - There is no state between calls and no global state. Calls may run in several threads at once, and in interrupt handlers, if no list
 *   that one of them writes is used by another at that time. A function calls nothing back, does not block and always returns.
 * - In an interrupt handler: the code of this archive, as disassembled, uses the general registers and xmm0 to xmm6 (SSE2), nothing of x87,
 *   MMX or AVX. So a handler saves the SSE registers before a call, and all vector registers if its `memset` uses wider ones, as that of a C
 *   library may. A function may use the red zone, as its calling convention lets it: an interrupt of the handler itself leaves the 128
 *   bytes below the stack pointer as they are, or has another stack. The stack is aligned to 16 bytes as for every call and has the bytes
 *   that the function's "Costs" name; `memset` is bound before, by a static link or `-z now`, since a dynamic linker that binds it in the
 *   call takes stack of its own.
 * - A function refuses, with a number and a place, whatever it is not to work on (enum roosternow_refusal); nothing has to be checked by
 *   the caller but the rules above.
 * - r is the number of reached nodes, the source included (of a run to a destination: of nodes that reach it, the destination included), and
 *   B the number of buckets: ceil(log2(C + 1)) + 2 for the one-level heap, at most 22; max(2, ceil(logK(C + 1)) + 1) for the two-level heap,
 *   at most 5 for K = 64.
 *
 * Changes. Versions are MAJOR.MINOR. Within a major version functions, refusals (the next free numbers) and macros may be added, and
 * nothing that is here changes its name, its parameters, its numbers or their places. A new major version may change all of it. A program
 * may hold ROOSTERNOW_VERSION against the least version that it needs; header and archive are of one version.
 */
#ifndef ROOSTERNOW_H
#define ROOSTERNOW_H

#include <stddef.h>
#include <stdint.h>

#define ROOSTERNOW_VERSION_MAJOR 2
#define ROOSTERNOW_VERSION_MINOR 0
#define ROOSTERNOW_VERSION (ROOSTERNOW_VERSION_MAJOR * 1000 + ROOSTERNOW_VERSION_MINOR)

/* The least and the most that are accepted. */
#define ROOSTERNOW_LEAST_NODES 1u
#define ROOSTERNOW_MOST_NODES 4096u
#define ROOSTERNOW_MOST_ARCS 65536u
#define ROOSTERNOW_MOST_CEILING 1048575u
#define ROOSTERNOW_LEAST_SEGMENTS 2u
#define ROOSTERNOW_MOST_SEGMENTS 64u

/* "None": the distance of an unreached node, the parent of the source and of unreached nodes; in a run to a destination of those that do not
   reach it, and its own parent. */
#define ROOSTERNOW_NONE UINT32_C(4294967295)

/* Words to lend for n nodes: starts, work of each run, and each of holds, distances, parents, roster and route. */
#define ROOSTERNOW_STARTS(n) ((size_t)(n) + 1u)
#define ROOSTERNOW_WORK_ONE_LEVEL(n) (4u * (size_t)(n) + 64u)
#define ROOSTERNOW_WORK_TWO_LEVEL(n) (4u * (size_t)(n) + 384u)
#define ROOSTERNOW_BY_NODE(n) ((size_t)(n))

/* Words of the working lists of a run to a destination, for n nodes and m arcs: reversed_starts, and each of reversed_heads, reversed_costs and
   old_arcs. */
#define ROOSTERNOW_REVERSED_STARTS(n) ((size_t)(n) + 1u)
#define ROOSTERNOW_REVERSED_BY_ARC(m) ((size_t)(m))

/* Bytes to lend to roosternow_write, enough for the planning file of every map of n nodes and m arcs: line 1 has at most 29 bytes, the line of
   an arc 18 and that of a hold 8. */
#define ROOSTERNOW_PLAN_BYTES(n, m) (29u + 18u * (size_t)(m) + 8u * (size_t)(n))

/* Bytes of stack to have for roosternow_route on a map of n nodes. For a route of at most p nodes, and a table known to lead back to the
   source, ROOSTERNOW_ROUTE_STACK(p) is enough. Measured on x86-64 Linux (tests/c/stack), not proved. */
#define ROOSTERNOW_ROUTE_STACK(n) (160u * (size_t)(n) + 1024u)

/* Words of `numbers`. */
#define ROOSTERNOW_RUN_NUMBERS 8
#define ROOSTERNOW_ROUTE_NUMBERS 3
#define ROOSTERNOW_READ_NUMBERS 7
#define ROOSTERNOW_DIMACS_NUMBERS 4
#define ROOSTERNOW_WRITE_NUMBERS 3

/* The fixed sizes of roosternow_answer, and the most bytes that it takes. */
#define ROOSTERNOW_ANSWER_STARTS 513
#define ROOSTERNOW_ANSWER_ARCS 2048
#define ROOSTERNOW_ANSWER_NODES 512
#define ROOSTERNOW_ANSWER_WORK 2432
#define ROOSTERNOW_ANSWER_BYTES 33280
#define ROOSTERNOW_ANSWER_INPUT 65536

/* A list of at least so many elements: C's `static`, of which C++ knows nothing. */
#ifdef __cplusplus
#define ROOSTERNOW_LENT(elements)
#else
#define ROOSTERNOW_LENT(elements) static elements
#endif

#ifdef __cplusplus
extern "C" {
#endif

/* What stands at each place of `numbers`. All numbers of a refusal but the first two are 0. */
enum roosternow_number {
    ROOSTERNOW_RETURNED = 0, /* enum roosternow_refusal */
    ROOSTERNOW_PLACE = 1,    /* the refusal's place, 0 where it has none */
    /* one_level, two_level, one_level_to, two_level_to */
    ROOSTERNOW_REACHED = 2,    /* r */
    ROOSTERNOW_BUCKETS = 3,    /* B */
    ROOSTERNOW_DECREASES = 4,  /* decreases + r <= m + 1 */
    ROOSTERNOW_PLACEMENTS = 5, /* placements + r <= r * B + m + 1 */
    ROOSTERNOW_LOOKS = 6,      /* at most r * B; for two levels r * (B + K) */
    ROOSTERNOW_READS = 7,      /* reads + r <= r * B + 2 * placements */
    /* route */
    ROOSTERNOW_ROUTE_NODES = 2, /* nodes of the route, source and destination included */
    /* read; read_dimacs has the first two */
    ROOSTERNOW_NODES = 2,
    ROOSTERNOW_ARCS = 3,
    ROOSTERNOW_CEILING = 4,
    ROOSTERNOW_SOURCE = 5,
    ROOSTERNOW_SEGMENTS = 6,
    /* write */
    ROOSTERNOW_LENGTH = 2 /* bytes of the file */
};

/* Refusals, in numbers[ROOSTERNOW_RETURNED]; the place is in numbers[ROOSTERNOW_PLACE], and 0 where none is named. */
enum roosternow_refusal {
    ROOSTERNOW_ACCEPTED = 0,
    ROOSTERNOW_BAD_NODES = 1,
    ROOSTERNOW_BAD_CEILING = 2,
    ROOSTERNOW_BAD_SOURCE = 3, /* a run to a destination: the destination */
    ROOSTERNOW_BAD_ARCS = 4,
    ROOSTERNOW_BAD_STARTS_LENGTH = 5,
    ROOSTERNOW_BAD_STARTS = 6, /* place: least such index */
    ROOSTERNOW_BAD_HEAD = 7,   /* place: least arc; roosternow_read_dimacs: the arcs before it */
    ROOSTERNOW_BAD_COST = 8,   /* place: least arc; roosternow_read_dimacs: the arcs before it */
    ROOSTERNOW_BAD_SEGMENTS = 9,
    ROOSTERNOW_SHORT_LIST = 10, /* place: first such list, numbered at each function */
    ROOSTERNOW_BAD_LINE = 11,   /* place: line from 1 */
    ROOSTERNOW_BAD_TAIL = 12,   /* place: arc; roosternow_read_dimacs: the arcs before it */
    ROOSTERNOW_LONG_INPUT = 13, /* roosternow_answer only */
    ROOSTERNOW_BAD_DESTINATION = 14,
    ROOSTERNOW_NO_PARENT = 15,
    ROOSTERNOW_BAD_PARENTS = 16,
    ROOSTERNOW_SHORT_ROUTE = 17,
    ROOSTERNOW_BAD_ROAD_LINE = 18,  /* roosternow_read_dimacs only; place: line from 1 */
    ROOSTERNOW_BAD_ROAD_ORDER = 19, /* roosternow_read_dimacs only; place: line from 1 */
    ROOSTERNOW_BAD_HOLD = 20        /* place: least node; the runs and roosternow_write: also 0 for a list that is not n words */
};

/* A refusal in words. */
static inline const char *roosternow_refusal_text(uint64_t returned) {
    switch (returned) {
    case ROOSTERNOW_ACCEPTED: return "accepted";
    case ROOSTERNOW_BAD_NODES: return "n outside 1 to 4,096";
    case ROOSTERNOW_BAD_CEILING: return "C above 1,048,575";
    case ROOSTERNOW_BAD_SOURCE: return "source, or destination of a run to it, not below n";
    case ROOSTERNOW_BAD_ARCS: return "more than 65,536 arcs, or heads and costs differ in length";
    case ROOSTERNOW_BAD_STARTS_LENGTH: return "starts not n + 1 words";
    case ROOSTERNOW_BAD_STARTS: return "starts: first not 0, one below its predecessor or above m, or last not m";
    case ROOSTERNOW_BAD_HEAD: return "head not below n; in a road file outside 1 to n";
    case ROOSTERNOW_BAD_COST: return "cost above C, by itself or with its tail's hold, in a run to a destination its head's";
    case ROOSTERNOW_BAD_SEGMENTS: return "K outside 2 to 64";
    case ROOSTERNOW_SHORT_LIST: return "lent list too short";
    case ROOSTERNOW_BAD_LINE: return "line missing, ill-formed or left over";
    case ROOSTERNOW_BAD_TAIL: return "tail below the one before or not below n; in a road file outside 1 to n";
    case ROOSTERNOW_LONG_INPUT: return "input over 65,536 bytes";
    case ROOSTERNOW_BAD_DESTINATION: return "destination not below n";
    case ROOSTERNOW_NO_PARENT: return "destination has no parent and is not the source";
    case ROOSTERNOW_BAD_PARENTS: return "parents do not lead back to the source by arcs below m whose heads fit, in at most n - 1 arcs";
    case ROOSTERNOW_SHORT_ROUTE: return "route list has fewer words than the route has nodes";
    case ROOSTERNOW_BAD_ROAD_LINE: return "line of a road file ill-formed or empty";
    case ROOSTERNOW_BAD_ROAD_ORDER: return "road file: second p line, arc before it or beyond m, or p line or arc lacking at the end";
    case ROOSTERNOW_BAD_HOLD: return "holds not n words, or a hold above C";
    default: return "no refusal of this version";
    }
}

/* The least exponent with which a power of the base, 2 or more, is above the ceiling. */
static inline uint64_t roosternow_exponent_above(uint64_t base, uint32_t ceiling) {
    uint64_t exponent = 0;
    for (uint64_t power = 1; power <= ceiling; power *= base) {
        exponent++;
    }
    return exponent;
}

/* R times `for_each_node`, and 3 * m + 3; 0 for a size that the runs refuse. */
static inline uint64_t roosternow_most_operations(uint32_t n, uint32_t m, uint32_t ceiling, uint64_t for_each_node) {
    uint64_t reached = n <= m ? n : (uint64_t)m + 1u;
    if (n < ROOSTERNOW_LEAST_NODES || n > ROOSTERNOW_MOST_NODES || m > ROOSTERNOW_MOST_ARCS || ceiling > ROOSTERNOW_MOST_CEILING) {
        return 0;
    }
    return reached * for_each_node + 3u * m + 3u;
}

/*
 * The most heap operations of a run, one to a destination too, placements, looks and reads together, on any map with n nodes and m arcs: a
 * budget before a map is known. With R the smaller of n and m + 1: R * (5 * B - 4) + 3 * m + 3 for one level, R * (5 * B + K - 4) + 3 * m + 3
 * for two. 0 for a size that the run refuses, since a refused run makes none. The largest size, with K = 64, has 630,787 and 544,771.
 */
static inline uint64_t roosternow_most_operations_one_level(uint32_t n, uint32_t m, uint32_t ceiling) {
    uint64_t buckets = roosternow_exponent_above(2, ceiling) + 2u;
    return roosternow_most_operations(n, m, ceiling, 5u * buckets - 4u);
}

static inline uint64_t roosternow_most_operations_two_level(uint32_t n, uint32_t m, uint32_t ceiling, uint32_t segments) {
    if (segments < ROOSTERNOW_LEAST_SEGMENTS || segments > ROOSTERNOW_MOST_SEGMENTS) {
        return 0;
    }
    uint64_t buckets = roosternow_exponent_above(segments, ceiling) + 1u;
    return roosternow_most_operations(n, m, ceiling, 5u * (buckets < 2u ? 2u : buckets) + segments - 4u);
}

/* ROOSTERNOW_VERSION of the archive: a program compares it with the macro, so that a header of another version is noticed. */
uint32_t roosternow_version(void);

/*
 * The one-level run: cheapest routes from the source to every node.
 *
 * Needs: the map in starts (n + 1 words), heads and costs (m words each) and holds (n words); `ceiling` C, which no hold exceeds, and no cost
 *   together with the hold of its arc's tail, the source's arcs included though they pay none; n words for each of distances, parents and
 *   roster; ROOSTERNOW_WORK_ONE_LEVEL(n) words of work. None of these four has to be cleared.
 * Gives: distances[v], the least cost of a route to v, and parents[v], the last arc of such a route; ROOSTERNOW_NONE where there is none. A
 *   parent is the first arc examined that gives the distance, where nodes are scanned in the roster's order, and arcs by number. roster[0] to
 *   roster[r - 1] are the reached nodes in the order in which they are scanned: each time the labelled node of smallest distance, and of
 *   smallest number among equals; a node is labelled from the first arc examined that leads to it until it is scanned. So distances never fall
 *   along the roster. It is not by distance and then by number: arcs 0 to 2 and 2 to 1 of cost 0 give 0, 2, 1. Both functions give the same
 *   order. The words from roster[r] on are as they were. The ROOSTERNOW_WORK_ONE_LEVEL(n) first work words are 0. numbers: 0, 0, r, B,
 *   decreases, placements, looks, reads.
 * Refuses: 1 to 6, 20, 7, 8, then 10 with place 0 distances, 1 parents, 2 roster, 3 work; in this order, the first found.
 * Costs: time in proportion to n + m + r * B at most; stack below 2 KB.
 */
void roosternow_one_level(uint32_t n, uint32_t ceiling, uint32_t source,
                          const uint32_t *starts, size_t starts_words,
                          const uint32_t *heads, size_t heads_words,
                          const uint32_t *costs, size_t costs_words,
                          const uint32_t *holds, size_t holds_words,
                          uint32_t *distances, size_t distances_words,
                          uint32_t *parents, size_t parents_words,
                          uint32_t *roster, size_t roster_words,
                          uint32_t *work, size_t work_words,
                          uint64_t numbers[ROOSTERNOW_LENT(ROOSTERNOW_RUN_NUMBERS)]);

/*
 * The two-level run: the same with `segments` K segments to a bucket, 2 to 64.
 *
 * Which K: the bound on heap operations is least where 5 * B + K is, which from C = 16 up some K of 5 to 14 attains (for C = 1,048,575
 *   11). In time 16 to 64 is fastest on most maps, and 16 on chains (docs/BENCHMARK.md, "How time changes with K"). So a small K where
 *   a slot is sized by heap operations, and 32 where time counts.
 * Needs: as roosternow_one_level, with ROOSTERNOW_WORK_TWO_LEVEL(n) words of work.
 * Gives: as roosternow_one_level, with distances, parents, roster, r and decreases equal to its own, for every K, and
 *   ROOSTERNOW_WORK_TWO_LEVEL(n) work words 0.
 * Refuses: 1 to 6, 20, 7, 8, 9, then 10 with place 0 distances, 1 parents, 2 roster, 3 work; in this order, the first found.
 * Costs: time in proportion to n + m + r * (B + K) at most; stack below 4 KB.
 */
void roosternow_two_level(uint32_t n, uint32_t ceiling, uint32_t source, uint32_t segments,
                          const uint32_t *starts, size_t starts_words,
                          const uint32_t *heads, size_t heads_words,
                          const uint32_t *costs, size_t costs_words,
                          const uint32_t *holds, size_t holds_words,
                          uint32_t *distances, size_t distances_words,
                          uint32_t *parents, size_t parents_words,
                          uint32_t *roster, size_t roster_words,
                          uint32_t *work, size_t work_words,
                          uint64_t numbers[ROOSTERNOW_LENT(ROOSTERNOW_RUN_NUMBERS)]);

/*
 * The one-level run to a destination: cheapest routes to it from every node, by a run from it over the reversed map.
 *
 * Needs: as roosternow_one_level, with the destination as source, but no cost exceeds C together with the hold of its arc's head, not tail,
 *   arcs into the destination included though they pay none. So a map that a run takes may be refused here, and conversely. Besides four working
 *   lists: n + 1 words of reversed_starts and m words of each of reversed_heads, reversed_costs and old_arcs. None of the eight lists has to be
 *   cleared.
 * Gives: distances[v], the least cost of a route from v to the destination, and parents[v], the first arc to take from v on such a route, by
 *   the map's own number; ROOSTERNOW_NONE where there is none. parents[v], then the parent of its head, and so on, lead to the destination for
 *   distances[v]; roosternow_route does not take these parents, since it follows them backwards. The working lists hold the reversed map:
 *   the arcs that lead to v, by number, have the places reversed_starts[v] up to but not including reversed_starts[v + 1], and the arc at place
 *   i comes from node reversed_heads[i], costs reversed_costs[i], without holds, and has the number old_arcs[i]. Roster, parents and numbers
 *   are by the steps of roosternow_one_level on this map: roster[0] to roster[r - 1] are the nodes that reach the destination, in the order in
 *   which they are scanned, the destination first, and a parent is the first arc examined that gives the distance, which need not be the one of
 *   smallest number. roosternow_one_level takes this map with the same C and holds; with another destination as source it gives what a run to
 *   that one gives, but for parents, which are places of old_arcs. Words past the n + 1 and m of the working lists, and from roster[r] on, are
 *   as they were. The ROOSTERNOW_WORK_ONE_LEVEL(n) first work words are 0. numbers: 0, 0, r, B, decreases, placements, looks, reads.
 * Refuses: 1, 2, 3 (the destination), 4 to 6, 20, 7, 8 with the least arc whose cost is above C together with the hold of its head, then 10
 *   with place 0 distances, 1 parents, 2 roster, 3 work, 4 reversed_starts, 5 reversed_heads, 6 reversed_costs, 7 old_arcs; in this order, the
 *   first found.
 * Costs: time as roosternow_one_level, with the reversed map made before, in proportion to n + m; stack below 2 KB.
 */
void roosternow_one_level_to(uint32_t n, uint32_t ceiling, uint32_t destination,
                             const uint32_t *starts, size_t starts_words,
                             const uint32_t *heads, size_t heads_words,
                             const uint32_t *costs, size_t costs_words,
                             const uint32_t *holds, size_t holds_words,
                             uint32_t *distances, size_t distances_words,
                             uint32_t *parents, size_t parents_words,
                             uint32_t *roster, size_t roster_words,
                             uint32_t *work, size_t work_words,
                             uint32_t *reversed_starts, size_t reversed_starts_words,
                             uint32_t *reversed_heads, size_t reversed_heads_words,
                             uint32_t *reversed_costs, size_t reversed_costs_words,
                             uint32_t *old_arcs, size_t old_arcs_words,
                             uint64_t numbers[ROOSTERNOW_LENT(ROOSTERNOW_RUN_NUMBERS)]);

/*
 * The two-level run to a destination: the same with `segments` K segments to a bucket, 2 to 64. Which K: as for roosternow_two_level.
 *
 * Needs: as roosternow_one_level_to, with ROOSTERNOW_WORK_TWO_LEVEL(n) words of work.
 * Gives: as roosternow_one_level_to, with distances, parents, roster, working lists, r and decreases equal to its own, for every K, and
 *   ROOSTERNOW_WORK_TWO_LEVEL(n) work words 0.
 * Refuses: as roosternow_one_level_to, with 9 between 8 and 10.
 * Costs: time as roosternow_two_level, with the reversed map made before, in proportion to n + m; stack below 4 KB.
 */
void roosternow_two_level_to(uint32_t n, uint32_t ceiling, uint32_t destination, uint32_t segments,
                             const uint32_t *starts, size_t starts_words,
                             const uint32_t *heads, size_t heads_words,
                             const uint32_t *costs, size_t costs_words,
                             const uint32_t *holds, size_t holds_words,
                             uint32_t *distances, size_t distances_words,
                             uint32_t *parents, size_t parents_words,
                             uint32_t *roster, size_t roster_words,
                             uint32_t *work, size_t work_words,
                             uint32_t *reversed_starts, size_t reversed_starts_words,
                             uint32_t *reversed_heads, size_t reversed_heads_words,
                             uint32_t *reversed_costs, size_t reversed_costs_words,
                             uint32_t *old_arcs, size_t old_arcs_words,
                             uint64_t numbers[ROOSTERNOW_LENT(ROOSTERNOW_RUN_NUMBERS)]);

/*
 * The route from the source to a destination, by a parent table that a run has filled or that comes from elsewhere.
 *
 * Needs: starts (n + 1 words) and heads (m words) of the map; n words of parents at least; a route list with room for the route, for which
 *   n words are always enough.
 * Gives: the nodes of the route in the route list, source first; numbers: 0, 0, how many nodes. After a run that was accepted on the same
 *   map and source, the route to every reached node is given, and costs its distance.
 * Refuses: 1, 3, 4 (heads alone), 5, 6, 7, 10 with place 1 parents, 14 to 17; in this order, the first found.
 * Costs: time in proportion to n + m, plus log2(n) for each arc of the route; 160 bytes of stack for each node of the route and below 1 KB
 *   besides, at most 656,384 bytes for a route, or a table that goes round, of 4,096 nodes (ROOSTERNOW_ROUTE_STACK).
 */
void roosternow_route(uint32_t n, uint32_t source,
                      const uint32_t *starts, size_t starts_words,
                      const uint32_t *heads, size_t heads_words,
                      const uint32_t *parents, size_t parents_words,
                      uint32_t destination,
                      uint32_t *route, size_t route_words,
                      uint64_t numbers[ROOSTERNOW_LENT(ROOSTERNOW_ROUTE_NUMBERS)]);

/*
 * The map of a planning file. Line 1 is n,m,C,source,K; then m lines tail,head,cost with tails never falling. Where line 1 has a sixth field,
 * which is 1, it tells holds: n lines of one hold each stand behind the arcs, that of node 0 first. Without it holds are 0. A field is 1 to 7
 * digits with no leading zero except 0 itself. Each line ends in one line feed, the last too.
 *
 * Needs: the file's bytes; n + 1 words of starts, m words of each of heads and costs and n words of holds at least, whether it tells holds or
 *   not.
 * Gives: n + 1 starts, m heads, m costs and n holds, as the runs take them; numbers: 0, 0, n, m, C, source, K. Both runs accept such a map.
 * Refuses: line 1 by 11, 1, 4, 2, 3, 9, then 10 with place 0 starts, 1 heads, 2 costs, 3 holds; then each arc's line by 11, 12, 7, 8 (the cost
 *   by itself); each hold's line by 11, 20; then left-over bytes by 11; then 8 with the least arc whose cost is above C together with the hold
 *   of its tail, the source's arcs included; in this order, the first found. Lines are counted from 1: arc a has line a + 2, the hold of
 *   node v line m + 2 + v.
 * Costs: time in proportion to the bytes and n, the bytes read twice, those of a file that tells holds three times, and with
 *   each arc once more its tail's hold; stack below 1 KB.
 */
void roosternow_read(const uint8_t *bytes, size_t bytes_length,
                     uint32_t *starts, size_t starts_words,
                     uint32_t *heads, size_t heads_words,
                     uint32_t *costs, size_t costs_words,
                     uint32_t *holds, size_t holds_words,
                     uint64_t numbers[ROOSTERNOW_LENT(ROOSTERNOW_READ_NUMBERS)]);

/*
 * The map of a road file in the shortest path format of the 9th DIMACS Challenge. Lines that begin with c are comments; one line
 * `p sp n m` comes before any arc, and there are m lines `a tail head cost`, nodes from 1, arcs in any order. Fields are parted by one space;
 * digits and line ends are as in a planning file.
 *
 * Needs: the file's bytes; `ceiling` C, which no cost exceeds; n + 1 words of starts and m words of each of heads and costs at least.
 * Gives: n + 1 starts, m heads and m costs, as the runs take them: nodes from 0, arcs numbered by tail, in the order of the file within a
 *   tail. numbers: 0, 0, n, m. Both runs accept such a map with n holds of 0, which the caller lends, this C, every source below n and every
 *   K of 2 to 64.
 * Refuses: line by line, 18, then 19 (a second p line, an arc before it or beyond m), then the p line by 1, 4, 2, then 10 with place 0
 *   starts, 1 heads, 2 costs, and an a line by 12 (tail outside 1 to n), 7 (head outside 1 to n), 8, each with the number of arcs before it;
 *   at the end 19 with the last line, 1 for an empty file, if the p line or an arc is lacking; in this order, the first found.
 * Costs: time in proportion to the bytes and n, the bytes read three times; stack below 1 KB.
 */
void roosternow_read_dimacs(const uint8_t *bytes, size_t bytes_length, uint32_t ceiling,
                            uint32_t *starts, size_t starts_words,
                            uint32_t *heads, size_t heads_words,
                            uint32_t *costs, size_t costs_words,
                            uint64_t numbers[ROOSTERNOW_LENT(ROOSTERNOW_DIMACS_NUMBERS)]);

/*
 * The planning file of a map, as roosternow_read reads it.
 *
 * Needs: the map, C, source and K as roosternow_two_level takes them; bytes with room for the file, for which ROOSTERNOW_PLAN_BYTES(n, m) are
 *   always enough. They do not have to be cleared.
 * Gives: the file at the front of bytes; numbers: 0, 0, its length. Arcs stand by number. Line 1 has the sixth field, and lines of holds follow,
 *   unless all holds are 0. The same map, C, source and K give the same bytes, whatever stood there before, and no others give these bytes.
 *   roosternow_read accepts the file, gives back the same n, m, C, source and K, and fills the same starts, heads, costs and holds.
 * Refuses: 1 to 6, 20, 7, 8, 9, then 10 with place 0 bytes; in this order, the first found. K is looked at though nothing is run, and before
 *   the room. A refusal changes no byte, and tells no length.
 * Costs: time in proportion to n and the bytes of the file, the lists gone through three times: checked, measured, written; stack below 1 KB.
 */
void roosternow_write(uint32_t n, uint32_t ceiling, uint32_t source, uint32_t segments,
                      const uint32_t *starts, size_t starts_words,
                      const uint32_t *heads, size_t heads_words,
                      const uint32_t *costs, size_t costs_words,
                      const uint32_t *holds, size_t holds_words,
                      uint8_t *bytes, size_t bytes_length,
                      uint64_t numbers[ROOSTERNOW_LENT(ROOSTERNOW_WRITE_NUMBERS)]);

/*
 * The text that the program `plan` prints for a planning file: both runs, with distances and parents, or one line `refused,NUMBER,PLACE`.
 *
 * Needs: the file's bytes, and lists of the fixed sizes. None has to be cleared.
 * Gives: the text at the front of output, and how many bytes it has. starts, heads, costs and holds have the map, distances, parents, roster
 *   and work what the two-level run leaves.
 * Refuses: in its text, 13 first (more than 65,536 bytes), then as roosternow_read with lists of these sizes. Output is then written, and
 *   no other list.
 * Costs: as roosternow_read, both runs and the text, at most 64 bytes for each node and 512; stack below 4 KB.
 */
size_t roosternow_answer(const uint8_t *bytes, size_t bytes_length,
                         uint32_t starts[ROOSTERNOW_LENT(ROOSTERNOW_ANSWER_STARTS)],
                         uint32_t heads[ROOSTERNOW_LENT(ROOSTERNOW_ANSWER_ARCS)],
                         uint32_t costs[ROOSTERNOW_LENT(ROOSTERNOW_ANSWER_ARCS)],
                         uint32_t holds[ROOSTERNOW_LENT(ROOSTERNOW_ANSWER_NODES)],
                         uint32_t distances[ROOSTERNOW_LENT(ROOSTERNOW_ANSWER_NODES)],
                         uint32_t parents[ROOSTERNOW_LENT(ROOSTERNOW_ANSWER_NODES)],
                         uint32_t roster[ROOSTERNOW_LENT(ROOSTERNOW_ANSWER_NODES)],
                         uint32_t work[ROOSTERNOW_LENT(ROOSTERNOW_ANSWER_WORK)],
                         uint8_t output[ROOSTERNOW_LENT(ROOSTERNOW_ANSWER_BYTES)]);

#ifdef __cplusplus
}
#endif

#endif
