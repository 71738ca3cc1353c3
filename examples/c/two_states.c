/* Makes each machine of two states and two symbols, 28,561 of them, and asks for its verdict as it makes it.
 * Prints how many there are of each kind; with a word, each verdict line before.
 *
 *     two_states [lines]
 */
#include <stdio.h>
#include <string.h>

#include "bb.h"

static const char *const KINDS[] = {"halt", "cycler", "translated", "backward", "undecided"};

/* The entry with this number, of thirteen. */
static void entry(int number, char *text) {
    if (number == 12) {
        memcpy(text, "---", 3);
        return;
    }
    text[0] = "01"[number % 2];
    text[1] = "LR"[number / 2 % 2];
    text[2] = "ABZ"[number / 4];
}

int main(int words, char **word) {
    int counts[5] = {0};
    (void)word;
    for (int number = 0; number < 13 * 13 * 13 * 13; number++) {
        char machine[] = "------_------";
        uint8_t reply[BB_DECIDE_LINE_ROOM(sizeof machine)];
        size_t length = sizeof machine - 1, count;
        entry(number / 2197, machine);
        entry(number / 169 % 13, machine + 3);
        entry(number / 13 % 13, machine + 7);
        entry(number % 13, machine + 10);
        if (bb_decide_line(1000, 64, 30, 1000, true, true, true, (const uint8_t *)machine, length, reply,
                           sizeof reply, &count) != BB_CLEAN)
            return 1;
        if (words > 1)
            printf("%.*s\n", (int)count, (const char *)reply);
        for (int kind = 0; kind < 5; kind++) {
            size_t size = strlen(KINDS[kind]);
            if (memcmp(reply + length + 1, KINDS[kind], size) == 0)
                counts[kind]++;
        }
    }
    for (int kind = 0; kind < 5; kind++)
        printf("%s: %d\n", KINDS[kind], counts[kind]);
    return 0;
}
