/* What the library does with buffers, limits and threads; C and C++ alike. Prints what doesn't hold. */
#include <pthread.h>
#include <stdlib.h>
#include <string.h>

#include "bb.h"
#include "require.h"

#define THREADS 100
#define ROOM 256

static const char LIST[] = "1RB1LB_1LA1RZ\n1RA1RA\n\n0RB---_0LA---";
static const char VERDICTS[] =
    "1RB1LB_1LA1RZ halt 6 4\n1RA1RA translated R 1 2 1 1\nrefused 1\n0RB---_0LA--- cycler 2 4\n";
static const char ANSWERS[] = "ok\nok\nopen\nok\n";
static const char MACHINE[] = "1RB1LB_1LA1RZ", THREE[] = "0 A 0 0 0\n3 B -1 -1 011\n6 Z 0 -2 1111\n";

/* What each call writes to, and the count that it gives. */
static __thread uint8_t out[ROOM];
static __thread size_t count;

static const uint8_t *bytes(const char *text) { return (const uint8_t *)text; }

static void reset(void) {
    memset(out, 0xAA, sizeof out);
    count = 99;
}

/* The calls at small limits, all deciders on. */
static uint32_t decide(const char *list, size_t room) {
    reset();
    return bb_decide(1000, 64, 30, 1000, true, true, true, bytes(list), strlen(list), out, room, &count);
}

static uint32_t decide_line(const char *line, size_t room) {
    reset();
    return bb_decide_line(1000, 64, 30, 1000, true, true, true, bytes(line), strlen(line), out, room, &count);
}

static uint32_t check(const char *list, size_t room) {
    reset();
    return bb_check(1000, 64, 30, 1000, bytes(list), strlen(list), out, room, &count);
}

static uint32_t check_line(const char *line, size_t room) {
    reset();
    return bb_check_line(1000, 64, 30, 1000, bytes(line), strlen(line), out, room, &count);
}

static uint32_t trace(const char *line, uint64_t from, uint64_t every, size_t room) {
    reset();
    return bb_trace(1000, 64, from, every, bytes(line), strlen(line), out, room, &count);
}

/* Whether the buffer has the text, and behind it only what it was filled with. */
static bool has(const char *text) {
    size_t length = strlen(text);
    bool same = memcmp(out, text, length) == 0;
    for (size_t at = length; at < ROOM; at++)
        same = same && out[at] == 0xAA;
    return same;
}

/* Whether a call gave this status, and counted and wrote this text. */
static bool wrote(uint32_t found, uint32_t status, const char *text) {
    return found == status && count == strlen(text) && has(text);
}

/* Whether a call lacked room for so many bytes, and wrote none. */
static bool lacked(uint32_t found, size_t length) { return found == BB_SHORT && count == length && has(""); }

static void require_lists(void) {
    size_t whole = sizeof VERDICTS - 1;
    REQUIRE(wrote(decide(LIST, ROOM), BB_NOT_CLEAN, VERDICTS));
    REQUIRE(wrote(decide(LIST, whole), BB_NOT_CLEAN, VERDICTS));
    REQUIRE(lacked(decide(LIST, whole - 1), whole));
    REQUIRE(lacked(decide(LIST, 0), whole));
    REQUIRE(wrote(decide("", ROOM), BB_CLEAN, ""));
    REQUIRE(wrote(decide("", 0), BB_CLEAN, ""));
    REQUIRE(wrote(decide("1RZ---", ROOM), BB_CLEAN, "1RZ--- halt 1 1\n"));
    REQUIRE(wrote(check(VERDICTS, ROOM), BB_CLEAN, ANSWERS));
    REQUIRE(lacked(check(VERDICTS, sizeof ANSWERS - 2), sizeof ANSWERS - 1));
}

static void require_lines(void) {
    static const char REPLY[] = "1RB1LB_1LA1RZ halt 6 4";
    REQUIRE(wrote(decide_line(MACHINE, ROOM), BB_CLEAN, REPLY));
    REQUIRE(wrote(decide_line(MACHINE, sizeof REPLY - 1), BB_CLEAN, REPLY));
    REQUIRE(lacked(decide_line(MACHINE, sizeof REPLY - 2), sizeof REPLY - 1));
    REQUIRE(wrote(decide_line("", ROOM), BB_NOT_CLEAN, "refused 1"));
    REQUIRE(wrote(decide_line("1RZ---\n", ROOM), BB_NOT_CLEAN, "refused 7"));
    REQUIRE(wrote(check_line(REPLY, ROOM), BB_CLEAN, "ok"));
    REQUIRE(wrote(check_line("1RB1LB_1LA1RZ halt 6 5", ROOM), BB_NOT_CLEAN, "bad"));
    REQUIRE(wrote(check_line("1RA1RA halt 1001 0", ROOM), BB_NOT_CLEAN, "over"));
    REQUIRE(wrote(check_line("refused 14", ROOM), BB_CLEAN, "open"));
    REQUIRE(wrote(check_line("", BB_CHECK_LINE_ROOM), BB_NOT_CLEAN, "unread"));
}

static void require_traces(void) {
    size_t whole = sizeof THREE - 1;
    REQUIRE(wrote(trace(MACHINE, 0, 3, ROOM), BB_CLEAN, THREE));
    REQUIRE(wrote(trace(MACHINE, 0, 3, whole), BB_CLEAN, THREE));
    REQUIRE(lacked(trace(MACHINE, 0, 3, whole - 1), whole));
    REQUIRE(lacked(trace(MACHINE, 0, 3, 0), whole));
    REQUIRE(wrote(trace(MACHINE, 7, 1, ROOM), BB_CLEAN, ""));
    REQUIRE(wrote(trace(MACHINE, UINT64_MAX, 9, 0), BB_CLEAN, ""));
    REQUIRE(wrote(trace(MACHINE, 2, UINT64_MAX, ROOM), BB_CLEAN, "2 A 0 0 11\n"));
    REQUIRE(wrote(trace("1RZ---\n", 9, 9, ROOM), BB_NOT_CLEAN, "refused 7\n"));
    REQUIRE(wrote(trace(MACHINE, 0, 0, ROOM), BB_LIMITS, ""));
    REQUIRE(wrote(trace("", 0, 0, ROOM), BB_LIMITS, ""));
    reset();
    uint32_t cut = bb_trace(9, 2, 1, 1, bytes("1RA1RA"), 6, out, ROOM, &count);
    REQUIRE(wrote(cut, BB_NOT_CLEAN, "1 A 1 0 10\n"));
}

/* Whether a call refused its limits, counted nothing and wrote nothing. */
static bool refused(uint32_t found) {
    bool holds = wrote(found, BB_LIMITS, "");
    reset();
    return holds;
}

static void require_refused(uint64_t steps, uint64_t cells, uint64_t depth, uint64_t nodes) {
    const uint8_t *list = bytes(LIST);
    reset();
    REQUIRE(refused(bb_decide(steps, cells, depth, nodes, true, true, true, list, 6, out, ROOM, &count)));
    REQUIRE(refused(bb_check(steps, cells, depth, nodes, list, 6, out, ROOM, &count)));
    REQUIRE(refused(bb_check_line(steps, cells, depth, nodes, list, 6, out, ROOM, &count)));
    uint32_t line = bb_decide_line(steps, cells, depth, nodes, true, true, true, list, 6, out, ROOM, &count);
    REQUIRE(refused(line));
    if (depth != 3 && nodes == 1) REQUIRE(refused(bb_trace(steps, cells, 0, 1, list, 6, out, ROOM, &count)));
}

static void require_limits(void) {
    require_refused(1000000000001, 64, 30, 1);
    require_refused(1, 0, 0, 1);
    require_refused(1, 67108865, 30, 1);
    require_refused(1, 4, 3, 1);
    require_refused(1, 64, 30, 1000000000001);
    reset();
    uint32_t status =
        bb_decide_line(3, 64, 30, 1000, true, true, false, bytes("0RB---_0LA---"), 13, out, ROOM, &count);
    REQUIRE(wrote(status, BB_CLEAN, "0RB---_0LA--- undecided steps"));
}

/* Whether `bb_look` gives this status and these numbers; where nothing is counted, counts stay 9. */
static bool looks(const char *list, const char *replies, uint32_t status, const uint64_t wanted[7],
                  uint64_t wanted_lines) {
    uint64_t counts[7] = {9, 9, 9, 9, 9, 9, 9}, lines = 99;
    uint32_t found =
        bb_look(bytes(list), strlen(list), bytes(replies), strlen(replies), counts, &lines);
    return found == status && lines == wanted_lines && memcmp(counts, wanted, sizeof counts) == 0;
}

static void require_looks(void) {
    static const uint64_t EACH[7] = {1, 0, 1, 1, 0, 0, 1}, OTHERS[7] = {0, 1, 0, 0, 1, 2, 0};
    static const uint64_t NONE[7] = {0}, AS_IT_WAS[7] = {9, 9, 9, 9, 9, 9, 9};
    static const char REPLIES[] =
        "1RB1LB_1LA1RZ halt 6 4\n1RA1RA translated R 1 2 1 1\nrefused 1\n0RB---_0LA--- backward 2 4\n";
    static const char UNDECIDED[] = "1RA1RA undecided cells\n1RA1RA undecided steps\n"
                                    "1RA1RA undecided cells\n1RA1RA cycler 1 2\n";
    REQUIRE(looks(LIST, REPLIES, BB_CLEAN, EACH, 4));
    REQUIRE(looks("1RA1RA\n1RA1RA\n1RA1RA\n1RA1RA\n", UNDECIDED, BB_CLEAN, OTHERS, 4));
    REQUIRE(looks("", "", BB_CLEAN, NONE, 0));
    REQUIRE(looks("1RZ---\n1RZ---\n", "1RZ--- halt 1 1\n", BB_NOT_CLEAN, AS_IT_WAS, 1));
    REQUIRE(looks("1RZ---", "1RZ--- halt 1 1\nrefused 1\n", BB_NOT_CLEAN, AS_IT_WAS, 1));
    REQUIRE(looks("1RZ---\n", "1RZ--- halt 1 1", BB_NOT_CLEAN, AS_IT_WAS, 0));
    REQUIRE(looks("1RZ---\n", "1RA1RA cycler 1 2\n", BB_NOT_CLEAN, AS_IT_WAS, 0));
    REQUIRE(looks("\n1rB1LB\n", "refused 1\nrefused 3\n", BB_NOT_CLEAN, AS_IT_WAS, 1));
    REQUIRE(looks("1RA1RAx\n", "1RA1RAx halt 6 4\n", BB_NOT_CLEAN, AS_IT_WAS, 0));
    REQUIRE(looks("1RA1RA\n", "1RA1RA cycler 1 02\n", BB_NOT_CLEAN, AS_IT_WAS, 0));
}

/* Whether `bb_check_cost` gives this status and these numbers; without a status of BB_CLEAN they stay 9. */
static bool costs(const char *list, uint64_t cells, uint32_t status, const uint64_t wanted[4]) {
    uint64_t cost[4] = {9, 9, 9, 9};
    uint32_t found = bb_check_cost(1000, cells, 30, 1000, bytes(list), strlen(list), cost);
    return found == status && memcmp(cost, wanted, sizeof cost) == 0;
}

static void require_costs(void) {
    static const uint64_t NONE[4] = {0}, AS_IT_WAS[4] = {9, 9, 9, 9}, SUM[4] = {506, 240, 250, 2};
    REQUIRE(costs("1RB1LB_1LA1RZ halt 6 4\n0RB---_0LA--- backward 3 240\n"
                  "1RA1RA cycler 9 250\n1RA1RA cycler 8 250", 64, BB_CLEAN, SUM));
    REQUIRE(costs("", 64, BB_CLEAN, NONE));
    REQUIRE(costs("refused 1\n1RA1RA undecided steps\n1RA1RA halt 1001 0\n1RA1RA cycler 7 7\n", 64, BB_CLEAN, NONE));
    REQUIRE(costs("1RA1RA cycler 1 2\n", 0, BB_LIMITS, AS_IT_WAS));
}

/* Whether the recurrences of a list end with this status and these replies, and with room for one byte less are
 * too long. */
static bool recurs(const char *list, bool entries, uint64_t cells, uint32_t status, const char *wanted) {
    size_t length = strlen(wanted);
    reset();
    bool holds = wrote(bb_recurrence(1000, cells, entries, bytes(list), strlen(list), out, ROOM, &count), status, wanted);
    reset();
    uint32_t found = bb_recurrence(1000, cells, entries, bytes(list), strlen(list), out, length - 1, &count);
    return holds && found == BB_SHORT && count == length;
}

static void require_recurrences(void) {
    static const char PAIRS[] = "1RB---_1RB--- translated R 1 2 1 1\n0RB---_0LA--- cycler 2 4";
    REQUIRE(recurs(PAIRS, false, 64, BB_CLEAN,
                   "1RB---_1RB--- recurs 1 1 1 0 * quasihalts 1\n0RB---_0LA--- recurs 0 2 0 * *\n"));
    REQUIRE(recurs(PAIRS, true, 64, BB_CLEAN,
                   "1RB---_1RB--- recurs 1 1 1 0 * quasihalts 1 entries 0 - * -\n"
                   "0RB---_0LA--- recurs 0 2 0 * * entries * - * -\n"));
    REQUIRE(recurs("1RA1RA cycler 1 2\n1RA1RA cycler 1 1001\n1RB1LB_1LA1RZ halt 6 4\nrefused 1\n1RA1RA\n", false, 64,
                   BB_NOT_CLEAN, "bad\nover\nopen\nopen\nunread\n"));
    reset();
    REQUIRE(refused(bb_recurrence(1000, 0, false, bytes(PAIRS), strlen(PAIRS), out, ROOM, &count)));
}

static void require_machine_lines(void) {
    static const char MACHINES[] = "1LA1RB_1LB0RA\n1RZ---\n1RB2LB\n";
    static const char LINES[] = "1LA1RB_1LB0RA line 1RA---_------ mirror AB 01 runs\n"
                                "1RZ--- line ------ same A 01 halt 0 0 1RZ\nunread\n";
    reset();
    REQUIRE(wrote(bb_line_of(1000, 64, bytes(MACHINES), strlen(MACHINES), out, ROOM, &count), BB_CLEAN, LINES));
    reset();
    uint32_t status = bb_line_of(1000, 64, bytes(MACHINES), strlen(MACHINES), out, strlen(LINES) - 1, &count);
    REQUIRE(status == BB_SHORT && count == strlen(LINES));
    reset();
    REQUIRE(refused(bb_line_of(1000, 0, bytes(MACHINES), strlen(MACHINES), out, ROOM, &count)));
}

static void *decide_often(void *wrong) {
    for (int at = 0; at < 20; at++) {
        if (!wrote(decide(LIST, ROOM), BB_NOT_CLEAN, VERDICTS)) *(bool *)wrong = true;
        if (!wrote(check_line("0RB---_0LA--- backward 2 4", ROOM), BB_CLEAN, "ok")) *(bool *)wrong = true;
    }
    return NULL;
}

static void require_threads(void) {
    pthread_t threads[THREADS];
    bool wrong[THREADS] = {false}, all = true;
    for (int at = 0; at < THREADS; at++)
        all = pthread_create(&threads[at], NULL, decide_often, &wrong[at]) == 0 && all;
    for (int at = 0; at < THREADS && all; at++)
        all = pthread_join(threads[at], NULL) == 0 && !wrong[at];
    REQUIRE(all);
}

int main(void) {
    require_lists();
    require_lines();
    require_traces();
    require_machine_lines();
    require_limits();
    require_looks();
    require_costs();
    require_recurrences();
    require_threads();
    return failed > 0;
}
