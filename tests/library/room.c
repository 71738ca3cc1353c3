/* The room that the header's macros give for a reply, which needs no library; C and C++ alike. */
#include <limits.h>

#include "bb.h"
#include "require.h"

int main(void) {
    int lines = 43826197, length = INT_MAX;
    uint32_t few = 100000000;
    size_t many = 100000000;
    REQUIRE(BB_DECIDE_ROOM(14 * many, lines) == 5694967306u);
    REQUIRE(BB_DECIDE_ROOM(length, 1) == 2147483745u);
    REQUIRE(BB_DECIDE_ROOM(0, few) == 9800000000u);
    REQUIRE(BB_DECIDE_ROOM(many, many) == 9900000000u);
    REQUIRE(BB_DECIDE_ROOM(0, 0) == 0);
    REQUIRE(BB_DECIDE_ROOM(1 + 2, 3 + 4) == 689);
    REQUIRE(BB_DECIDE_LINE_ROOM(13) == 110);
    REQUIRE(BB_DECIDE_LINE_ROOM(length) == 2147483744u);
    REQUIRE(2 * BB_DECIDE_LINE_ROOM(1 + 2) == 200);
    REQUIRE(BB_CHECK_ROOM(length) == 15032385529u);
    REQUIRE(BB_CHECK_ROOM(few * 8u) == 5600000000u);
    REQUIRE(BB_CHECK_ROOM(1 + 2) == 21);
    REQUIRE(BB_CHECK_LINE_ROOM == 6);
    REQUIRE(BB_RECURRENCE_ROOM(length, lines) == 18976743259u);
    REQUIRE(BB_RECURRENCE_ROOM(few * 8u, few) == 14600000000u);
    REQUIRE(BB_RECURRENCE_ROOM(1 + 2, 3 + 4) == 651);
    REQUIRE(sizeof BB_DECIDE_ROOM(1, 1) == sizeof(size_t));
    REQUIRE(sizeof BB_DECIDE_LINE_ROOM(1) == sizeof(size_t));
    REQUIRE(sizeof BB_CHECK_ROOM(1) == sizeof(size_t));
    REQUIRE(sizeof BB_RECURRENCE_ROOM(1, 1) == sizeof(size_t));
    return failed > 0;
}
