/* Calls `bb_trace` with parameters in the order of the header, which TRACE_PARAMETERS has, and prints each
 * count of `bb_look` by its name. The arguments: a machine, four numbers, a list and replies to it. */
#include <stdio.h>
#include <stdlib.h>
#include <string.h>

#include "bb.h"

#define ROOM 4096
#define PRINT(count) printf(#count " %d\n", (int)counts[count])

static const uint8_t *bytes(const char *text) { return (const uint8_t *)text; }

static uint64_t number(const char *text) { return strtoull(text, NULL, 10); }

static void print_trace(char **arguments) {
    const uint8_t *given_line = bytes(arguments[1]);
    size_t given_line_len = strlen(arguments[1]), given_out_len = ROOM, count = 0, *given_count = &count;
    uint64_t given_steps = number(arguments[2]), given_cells = number(arguments[3]);
    uint64_t given_from = number(arguments[4]), given_every = number(arguments[5]);
    uint8_t given_out[ROOM];
    uint32_t status = bb_trace(TRACE_PARAMETERS);
    if (status <= BB_NOT_CLEAN) fwrite(given_out, 1, count, stdout);
    printf("status %d\n", (int)status);
}

static void print_counts(const char *list, const char *replies) {
    uint64_t counts[7] = {0}, lines = 0;
    if (bb_look(bytes(list), strlen(list), bytes(replies), strlen(replies), counts, &lines) != BB_CLEAN) {
        printf("not clean\n");
        return;
    }
    PRINT(BB_COUNT_HALT);
    PRINT(BB_COUNT_CYCLER);
    PRINT(BB_COUNT_TRANSLATED);
    PRINT(BB_COUNT_BACKWARD);
    PRINT(BB_COUNT_UNDECIDED_STEPS);
    PRINT(BB_COUNT_UNDECIDED_CELLS);
    PRINT(BB_COUNT_REFUSED);
}

int main(int argc, char **argv) {
    if (argc != 8) return 2;
    print_trace(argv);
    print_counts(argv[6], argv[7]);
    return 0;
}
