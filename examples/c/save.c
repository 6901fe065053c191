/* What an editor does: reads a planning file, changes one hold or one cost, and prints the file of the changed map: save FILE hold NODE VALUE,
   save FILE cost ARC VALUE */
#include "roosternow.h"

#include <inttypes.h>
#include <stdio.h>
#include <stdlib.h>
#include <string.h>

#define NODES ROOSTERNOW_MOST_NODES
#define ARCS ROOSTERNOW_MOST_ARCS

static uint8_t bytes[ROOSTERNOW_PLAN_BYTES(NODES, ARCS)]; /* no planning file is longer, so the one that is read fits too */
static uint32_t starts[ROOSTERNOW_STARTS(NODES)], heads[ARCS], costs[ARCS], holds[NODES];

static int refused(const char *what, const uint64_t *numbers) {
    if (numbers[ROOSTERNOW_RETURNED] == ROOSTERNOW_ACCEPTED) {
        return 0;
    }
    fprintf(stderr, "%s: refused with %" PRIu64 " at %" PRIu64 ": %s\n", what, numbers[ROOSTERNOW_RETURNED],
            numbers[ROOSTERNOW_PLACE], roosternow_refusal_text(numbers[ROOSTERNOW_RETURNED]));
    return 1;
}

/* A number of at most 7 digits; -1 for any other word. */
static int number_of(const char *word) {
    size_t digits = strspn(word, "0123456789");
    return digits > 0 && digits <= 7 && word[digits] == 0 ? atoi(word) : -1;
}

/* The changed map goes to the bytes from which it was read: they are not needed any more. */
static int save(const uint64_t *map) {
    uint64_t file[ROOSTERNOW_WRITE_NUMBERS];
    uint32_t n = (uint32_t)map[ROOSTERNOW_NODES], m = (uint32_t)map[ROOSTERNOW_ARCS];
    roosternow_write(n, (uint32_t)map[ROOSTERNOW_CEILING], (uint32_t)map[ROOSTERNOW_SOURCE], (uint32_t)map[ROOSTERNOW_SEGMENTS], starts,
                     ROOSTERNOW_STARTS(n), heads, m, costs, m, holds, n, bytes, ROOSTERNOW_PLAN_BYTES(n, m), file);
    if (refused("changed map", file)) {
        return 1;
    }
    size_t length = (size_t)file[ROOSTERNOW_LENGTH];
    return fwrite(bytes, 1, length, stdout) == length && fflush(stdout) == 0 ? 0 : 2;
}

static int change(size_t length, int in_holds, uint32_t place, uint32_t value) {
    uint64_t map[ROOSTERNOW_READ_NUMBERS];
    roosternow_read(bytes, length, starts, ROOSTERNOW_STARTS(NODES), heads, ARCS, costs, ARCS, holds, NODES, map);
    if (refused("file", map)) {
        return 1;
    }
    if (place >= map[in_holds ? ROOSTERNOW_NODES : ROOSTERNOW_ARCS]) {
        fprintf(stderr, "the map has no %s %" PRIu32 "\n", in_holds ? "node" : "arc", place);
        return 2;
    }
    (in_holds ? holds : costs)[place] = value;
    return save(map);
}

int main(int count, char **words) {
    int place = count == 5 ? number_of(words[3]) : -1, value = count == 5 ? number_of(words[4]) : -1;
    int in_holds = count == 5 && strcmp(words[2], "hold") == 0;
    if (place < 0 || value < 0 || (!in_holds && strcmp(words[2], "cost") != 0)) {
        fprintf(stderr, "use: save FILE hold NODE VALUE, or save FILE cost ARC VALUE, numbers of at most 7 digits\n");
        return 2;
    }
    FILE *file = fopen(words[1], "rb");
    if (!file) {
        perror(words[1]);
        return 2;
    }
    size_t length = fread(bytes, 1, sizeof bytes, file);
    int whole = feof(file) || fgetc(file) == EOF;
    fclose(file);
    if (!whole) {
        fprintf(stderr, "%s: longer than any planning file\n", words[1]);
        return 2;
    }
    return change(length, in_holds, (uint32_t)place, (uint32_t)value);
}
