/* Reads a road file of the 9th DIMACS Challenge's shortest path format and prints the cheapest route from its node 1 to every other, with one
   level; nodes are told as the file has them, from 1: road FILE C */
#include "roosternow.h"

#include <inttypes.h>
#include <stdio.h>
#include <stdlib.h>
#include <string.h>

#define NODES ROOSTERNOW_MOST_NODES
#define ARCS ROOSTERNOW_MOST_ARCS

static uint8_t bytes[1u << 22]; /* 65,536 arcs take at most 20 bytes each; the rest is for comments */
static uint32_t starts[ROOSTERNOW_STARTS(NODES)], heads[ARCS], costs[ARCS];
static const uint32_t no_holds[NODES]; /* a road file tells none */
static uint32_t distances[NODES], parents[NODES], roster[NODES], route[NODES], work[ROOSTERNOW_WORK_ONE_LEVEL(NODES)];

static int refused(const char *what, const uint64_t *numbers) {
    if (numbers[ROOSTERNOW_RETURNED] == ROOSTERNOW_ACCEPTED) {
        return 0;
    }
    fprintf(stderr, "%s: refused with %" PRIu64 " at %" PRIu64 ": %s\n", what, numbers[ROOSTERNOW_RETURNED],
            numbers[ROOSTERNOW_PLACE], roosternow_refusal_text(numbers[ROOSTERNOW_RETURNED]));
    return 1;
}

static int print_route(uint32_t n, uint32_t m, uint32_t destination) {
    uint64_t numbers[ROOSTERNOW_ROUTE_NUMBERS];
    if (distances[destination] == ROOSTERNOW_NONE) {
        printf("to %" PRIu32 ": no route\n", destination + 1);
        return 0;
    }
    roosternow_route(n, 0, starts, ROOSTERNOW_STARTS(n), heads, m, parents, n, destination, route, NODES, numbers);
    if (refused("route", numbers)) {
        return 1;
    }
    printf("to %" PRIu32 " for %" PRIu32 ":", destination + 1, distances[destination]);
    for (uint64_t i = 0; i < numbers[ROOSTERNOW_ROUTE_NODES]; i++) {
        printf(" %" PRIu32, route[i] + 1);
    }
    printf("\n");
    return 0;
}

static int plan(size_t length, uint32_t ceiling) {
    uint64_t road[ROOSTERNOW_DIMACS_NUMBERS], run[ROOSTERNOW_RUN_NUMBERS];
    roosternow_read_dimacs(bytes, length, ceiling, starts, ROOSTERNOW_STARTS(NODES), heads, ARCS, costs, ARCS, road);
    if (refused("file", road)) {
        return 1;
    }
    uint32_t n = (uint32_t)road[ROOSTERNOW_NODES], m = (uint32_t)road[ROOSTERNOW_ARCS];
    roosternow_one_level(n, ceiling, 0, starts, ROOSTERNOW_STARTS(n), heads, m, costs, m, no_holds, n, distances, n, parents, n, roster, n,
                         work, ROOSTERNOW_WORK_ONE_LEVEL(n), run);
    if (refused("one level", run)) {
        return 1;
    }
    printf("%" PRIu32 " nodes, %" PRIu32 " arcs, %" PRIu64 " nodes reached\n", n, m, run[ROOSTERNOW_REACHED]);
    for (uint32_t v = 0; v < n; v++) {
        if (print_route(n, m, v)) {
            return 1;
        }
    }
    return 0;
}

int main(int count, char **words) {
    size_t digits = count == 3 ? strspn(words[2], "0123456789") : 0;
    if (digits == 0 || digits > 7 || words[2][digits] != 0) {
        fprintf(stderr, "use: road FILE C, a number of at most 7 digits\n");
        return 2;
    }
    FILE *file = fopen(words[1], "rb");
    if (!file) {
        perror(words[1]);
        return 2;
    }
    size_t length = fread(bytes, 1, sizeof bytes, file);
    int whole = feof(file) || fgetc(file) == EOF;
    fclose(file);
    if (!whole) {
        fprintf(stderr, "%s: longer than %zu bytes\n", words[1], sizeof bytes);
        return 2;
    }
    return plan(length, (uint32_t)atoi(words[2]));
}
