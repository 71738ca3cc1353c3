/* Times the library's calls: nanoseconds a call for one line, and a line in a list of 10,000; beside them a
 * line of a list for the program, whose path is the argument. All is processor time. */
#include <fcntl.h>
#include <stdio.h>
#include <stdlib.h>
#include <string.h>
#include <sys/resource.h>
#include <sys/wait.h>
#include <time.h>
#include <unistd.h>

#include "bb.h"

#define LINES 10000
#define LISTS 20

static const char *const MACHINES[] = {"1RB1LB_1LA1RC", "1RB1LB_1LA1RZ", "1RA1RA"};
static const uint64_t CELLS[] = {64, 65536};

static double now(void) {
    struct timespec time;
    clock_gettime(CLOCK_PROCESS_CPUTIME_ID, &time);
    return (double)time.tv_sec * 1e9 + (double)time.tv_nsec;
}

/* The nanoseconds of one call with a line. */
static double of_line(const char *line, uint64_t cells, int calls) {
    uint8_t out[256];
    size_t count;
    double begin = now();
    for (int at = 0; at < calls; at++)
        if (bb_decide_line(1000000, cells, 30, 1000, true, true, true, (const uint8_t *)line, strlen(line),
                           out, sizeof out, &count) > BB_NOT_CLEAN)
            exit(1);
    return (now() - begin) / calls;
}

/* The nanoseconds a line of a few calls, each with a list that has it 10,000 times. */
static double in_list(const char *line, uint64_t cells) {
    size_t length = (strlen(line) + 1) * LINES, room = BB_DECIDE_ROOM(length, LINES), count;
    uint8_t *list = malloc(length + 1), *out = malloc(room);
    if (list == NULL || out == NULL)
        exit(1);
    for (size_t at = 0; at < length; at += strlen(line) + 1) {
        memcpy(list + at, line, strlen(line));
        list[at + strlen(line)] = '\n';
    }
    double begin = now();
    for (int at = 0; at < LISTS; at++)
        if (bb_decide(1000000, cells, 30, 1000, true, true, true, list, length, out, room,
                      &count) > BB_NOT_CLEAN)
            exit(1);
    double spent = now() - begin;
    free(list);
    free(out);
    return spent / LISTS / LINES;
}

static double of_children(void) {
    struct rusage used;
    getrusage(RUSAGE_CHILDREN, &used);
    return (double)(used.ru_utime.tv_sec + used.ru_stime.tv_sec) * 1e9 +
           (double)(used.ru_utime.tv_usec + used.ru_stime.tv_usec) * 1e3;
}

/* The nanoseconds that the program takes for a list that has the line so many times. */
static double of_program(const char *program, const char *line, uint64_t cells, int lines) {
    FILE *list = tmpfile();
    char number[32];
    if (list == NULL)
        exit(1);
    for (int at = 0; at < lines; at++)
        fprintf(list, "%s\n", line);
    fflush(list);
    rewind(list);
    snprintf(number, sizeof number, "%llu", (unsigned long long)cells);
    double begin = of_children();
    pid_t child = fork();
    if (child == 0) {
        if (dup2(fileno(list), 0) < 0 || dup2(open("/dev/null", O_WRONLY), 1) < 0)
            _exit(127);
        execl(program, "bb", "decide", "--steps", "1000000", "--cells", number, "--depth", "30", "--nodes",
              "1000", (char *)NULL);
        _exit(127);
    }
    int status;
    if (child < 0 || waitpid(child, &status, 0) != child || !WIFEXITED(status) || WEXITSTATUS(status) > 1)
        exit(1);
    fclose(list);
    return of_children() - begin;
}

static double least(double a, double b) { return a < b ? a : b; }

int main(int count, char **words) {
    if (count != 2)
        return 2;
    for (int size = 0; size < 2; size++) {
        for (int kind = 0; kind < 3; kind++) {
            int steps = kind == 2 && size == 1 ? 50 : 20000;
            double line = 1e18, list = 1e18, program = 1e18, none = 1e18;
            for (int run = 0; run < 5; run++) {
                line = least(line, of_line(MACHINES[kind], CELLS[size], steps));
                if (steps > 50) {
                    list = least(list, in_list(MACHINES[kind], CELLS[size]));
                    none = least(none, of_program(words[1], MACHINES[kind], CELLS[size], 0));
                    program = least(program, of_program(words[1], MACHINES[kind], CELLS[size],
                                                        LISTS * LINES));
                }
            }
            printf("%-14s %6d cells: %9.0f ns a call", MACHINES[kind], (int)CELLS[size], line);
            if (steps > 50)
                printf(", %5.0f ns a line of a list, %5.0f ns in `bb decide`", list,
                       (program - none) / LISTS / LINES);
            printf("\n");
        }
    }
    return 0;
}
