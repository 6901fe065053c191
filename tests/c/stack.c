/* The stack that each function of the archive takes: it runs on a stack that was filled with a mark, and the mark that is left is searched for.
   What is counted begins with the frame of the function that makes the call, so the arguments that it pushes are in it. */
#include <pthread.h>
#include <stdio.h>
#include <stdlib.h>
#include <string.h>

#include "roosternow.h"

enum { NODES = 4096, STACK = 2 << 20, MARK = 0xa5, FILE_NODES = 512, FILE_ARCS = 2048 };

static uint32_t starts[NODES + 1], heads[NODES], costs[NODES], holds[NODES];
static uint32_t distances[NODES], parents[NODES], roster[NODES], work[ROOSTERNOW_WORK_TWO_LEVEL(NODES)], route[NODES];
static uint32_t reversed_starts[NODES + 1], reversed_heads[NODES], reversed_costs[NODES], old_arcs[NODES];
static uint64_t numbers[ROOSTERNOW_RUN_NUMBERS];
static uint8_t file[65536], output[ROOSTERNOW_ANSWER_BYTES], written[ROOSTERNOW_PLAN_BYTES(NODES, NODES)];
static size_t file_length;
static uintptr_t frame;

__attribute__((noinline)) static void *call_one_level(void *unused) {
    frame = (uintptr_t)__builtin_frame_address(0);
    roosternow_one_level(NODES, 1048575, 0, starts, NODES + 1, heads, NODES - 1, costs, NODES - 1, holds, NODES, distances, NODES, parents,
                         NODES, roster, NODES, work, ROOSTERNOW_WORK_TWO_LEVEL(NODES), numbers);
    return unused;
}

__attribute__((noinline)) static void *call_two_level(void *unused) {
    frame = (uintptr_t)__builtin_frame_address(0);
    roosternow_two_level(NODES, 1048575, 0, 64, starts, NODES + 1, heads, NODES - 1, costs, NODES - 1, holds, NODES, distances, NODES,
                         parents, NODES, roster, NODES, work, ROOSTERNOW_WORK_TWO_LEVEL(NODES), numbers);
    return unused;
}

__attribute__((noinline)) static void *call_one_level_to(void *unused) {
    frame = (uintptr_t)__builtin_frame_address(0);
    roosternow_one_level_to(NODES, 1048575, NODES - 1, starts, NODES + 1, heads, NODES - 1, costs, NODES - 1, holds, NODES, distances, NODES,
                            parents, NODES, roster, NODES, work, ROOSTERNOW_WORK_TWO_LEVEL(NODES), reversed_starts, NODES + 1, reversed_heads,
                            NODES, reversed_costs, NODES, old_arcs, NODES, numbers);
    return unused;
}

__attribute__((noinline)) static void *call_two_level_to(void *unused) {
    frame = (uintptr_t)__builtin_frame_address(0);
    roosternow_two_level_to(NODES, 1048575, NODES - 1, 64, starts, NODES + 1, heads, NODES - 1, costs, NODES - 1, holds, NODES, distances,
                            NODES, parents, NODES, roster, NODES, work, ROOSTERNOW_WORK_TWO_LEVEL(NODES), reversed_starts, NODES + 1,
                            reversed_heads, NODES, reversed_costs, NODES, old_arcs, NODES, numbers);
    return unused;
}

__attribute__((noinline)) static void *call_route(void *unused) {
    frame = (uintptr_t)__builtin_frame_address(0);
    roosternow_route(NODES, 0, starts, NODES + 1, heads, NODES - 1, parents, NODES, NODES - 1, route, NODES, numbers);
    return unused;
}

__attribute__((noinline)) static void *call_write(void *unused) {
    frame = (uintptr_t)__builtin_frame_address(0);
    roosternow_write(NODES, 1048575, 0, 64, starts, NODES + 1, heads, NODES - 1, costs, NODES - 1, holds, NODES, written, sizeof written,
                     numbers);
    return unused;
}

__attribute__((noinline)) static void *call_read(void *unused) {
    frame = (uintptr_t)__builtin_frame_address(0);
    roosternow_read(file, file_length, starts, NODES + 1, heads, NODES, costs, NODES, holds, NODES, numbers);
    return unused;
}

__attribute__((noinline)) static void *call_read_dimacs(void *unused) {
    frame = (uintptr_t)__builtin_frame_address(0);
    roosternow_read_dimacs(file, file_length, 1048575, starts, NODES + 1, heads, NODES, costs, NODES, numbers);
    return unused;
}

__attribute__((noinline)) static void *call_answer(void *unused) {
    frame = (uintptr_t)__builtin_frame_address(0);
    size_t length = roosternow_answer(file, file_length, starts, heads, costs, holds, distances, parents, roster, work, output);
    numbers[ROOSTERNOW_RETURNED] = length == 0;
    return unused;
}

/* Bytes between the caller's frame and the lowest byte that the call has changed. */
static size_t taken(void *(*call)(void *)) {
    static unsigned char *stack;
    pthread_attr_t attributes;
    pthread_t thread;
    size_t lowest = 0;
    if (stack == NULL) stack = aligned_alloc(4096, STACK);
    if (stack == NULL) abort();
    memset(stack, MARK, STACK);
    if (pthread_attr_init(&attributes) != 0 || pthread_attr_setstack(&attributes, stack, STACK) != 0) abort();
    if (pthread_create(&thread, &attributes, call, NULL) != 0 || pthread_join(thread, NULL) != 0) abort();
    while (lowest < STACK && stack[lowest] == MARK) lowest++;
    return (size_t)(frame - (uintptr_t)(stack + lowest));
}

/* A chain, so that the route to its last node passes through all. Holds leave nothing of the ceiling, so that no look at all costs at once
   settles refusal 8, and each sum is looked at. Some costs and holds have seven digits, so that the writer goes as deep as it can. */
static void lay_chain(void) {
    for (uint32_t v = 0; v < NODES; v++) starts[v] = v;
    starts[NODES] = NODES - 1;
    for (uint32_t a = 0; a + 1 < NODES; a++) {
        heads[a] = a + 1;
        costs[a] = a * 257 % 1048576;
        holds[a] = 1048575 - costs[a];
    }
}

/* The same at the heads, for runs to the chain's last node. */
static void hold_at_heads(void) {
    holds[0] = 0;
    for (uint32_t a = 0; a + 1 < NODES; a++) holds[heads[a]] = 1048575 - costs[a];
}

/* Four arcs to a node, the last the dearest; its hold leaves nothing of the ceiling for that one. */
static void write_file(void) {
    file_length = (size_t)sprintf((char *)file, "%d,%d,1048575,0,64,1\n", FILE_NODES, FILE_ARCS);
    for (int a = 0; a < FILE_ARCS; a++) {
        file_length += (size_t)sprintf((char *)file + file_length, "%d,%d,%d\n", a / 4, (a * 7 + 1) % FILE_NODES, a * 509);
    }
    for (int v = 0; v < FILE_NODES; v++) file_length += (size_t)sprintf((char *)file + file_length, "%d\n", 1048575 - (4 * v + 3) * 509);
}

/* The same arcs, those of the last node first. */
static void write_road(void) {
    file_length = (size_t)sprintf((char *)file, "c\np sp %d %d\n", FILE_NODES, FILE_ARCS);
    for (int a = FILE_ARCS - 1; a >= 0; a--) {
        file_length += (size_t)sprintf((char *)file + file_length, "a %d %d %d\n", a / 4 + 1, (a * 7 + 1) % FILE_NODES + 1, a * 509);
    }
}

static void print(const char *name, void *(*call)(void *)) {
    size_t bytes = taken(call);
    if (numbers[ROOSTERNOW_RETURNED] != 0) abort();
    printf("%s,%zu\n", name, bytes);
}

int main(void) {
    lay_chain();
    print("roosternow_one_level", call_one_level);
    print("roosternow_two_level", call_two_level);
    print("roosternow_route", call_route);
    print("roosternow_write", call_write);
    hold_at_heads();
    print("roosternow_one_level_to", call_one_level_to);
    print("roosternow_two_level_to", call_two_level_to);
    write_file();
    print("roosternow_read", call_read);
    print("roosternow_answer", call_answer);
    write_road();
    print("roosternow_read_dimacs", call_read_dimacs);
    return 0;
}
