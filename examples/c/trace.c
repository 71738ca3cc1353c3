/* Prints lines of a machine's trace up to a step: of every step, or of some.
 *
 *     trace MACHINE UPTO [EVERY [FROM]]
 *
 * The first call says how much room the lines need.
 */
#include <stdio.h>
#include <stdlib.h>
#include <string.h>

#include "bb.h"

/* The number that is word `at`, if there are so many words. */
static uint64_t number(int words, char **word, int at, uint64_t otherwise) {
    return at < words ? strtoull(word[at], NULL, 10) : otherwise;
}

int main(int words, char **word) {
    if (words < 3) {
        fprintf(stderr, "trace: a machine and a step are asked for\n");
        return BB_LIMITS;
    }
    const uint8_t *machine = (const uint8_t *)word[1];
    size_t length = strlen(word[1]), count;
    uint64_t upto = number(words, word, 2, 0), every = number(words, word, 3, 1);
    uint64_t from = number(words, word, 4, 0);
    uint8_t none[1], *out = NULL;
    uint32_t status = bb_trace(upto, 65536, from, every, machine, length, none, 0, &count);
    if (status == BB_SHORT) {
        size_t room = count;
        out = malloc(room);
        status = out == NULL ? BB_MEMORY
                             : bb_trace(upto, 65536, from, every, machine, length, out, room, &count);
    }
    if (status > BB_NOT_CLEAN)
        fprintf(stderr, "trace: status %u\n", (unsigned)status);
    else if (count > 0)
        fwrite(out, 1, count, stdout);
    free(out);
    return (int)status;
}
