/* Decides the machines that are its arguments, one call for each.
 *
 *     decide 1RB1LB_1LA1RZ 1RA1RA
 */
#include <stdio.h>
#include <stdlib.h>
#include <string.h>

#include "bb.h"

int main(int words, char **word) {
    int worst = BB_CLEAN;
    for (int at = 1; at < words; at++) {
        size_t length = strlen(word[at]), room = BB_DECIDE_LINE_ROOM(length), count;
        uint8_t *reply = malloc(room);
        if (reply == NULL)
            return BB_MEMORY;
        uint32_t status = bb_decide_line(1000000, 65536, 300, 1000000, true, true, true,
                                         (const uint8_t *)word[at], length, reply, room, &count);
        if (status > BB_NOT_CLEAN) {
            fprintf(stderr, "decide: status %u\n", (unsigned)status);
            free(reply);
            return (int)status;
        }
        printf("%.*s\n", (int)count, (const char *)reply);
        free(reply);
        if (status == BB_NOT_CLEAN)
            worst = BB_NOT_CLEAN;
    }
    return worst;
}
