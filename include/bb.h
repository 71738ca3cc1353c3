/* Verdicts on small Turing machines, answers to verdicts, exact recurrences, lines of machines, traces, and looks
 * at replies, as calls.
 *
 * The lines are those of the program `bb`, which README.md describes. docs/library.md says how to build and
 * link this, and what is proved of it.
 *
 * Limits. `steps`: of one simulation, 0 to 1,000,000,000,000. `cells`: of one tape, 1 to 67,108,864; a call
 * that decides or finds recurrences makes three tapes of as many bytes, one that checks two, one that traces or
 * finds lines one. `depth`: levels of the backward tree, 0 to 10,000. `nodes`: of that tree, 0 to 1,000,000,000,000. 2 * depth - 1 must be at
 * most `cells`.
 *
 * Deciders. Each of `cyclers`, `translated` and `backward` is on or off; they are asked in that order.
 *
 * What a caller has to uphold:
 * - No pointer is NULL, also where its length is 0. Each points to as many bytes as its length says.
 * - No length is above PTRDIFF_MAX.
 * - `count` is aligned as a `size_t` is, `counts`, `lines` and `cost` as a `uint64_t` is.
 * - What a call reads doesn't overlap with what it writes: `out` and `count`, or `counts` and `lines`, or
 *   `cost`; nor do these with each other.
 * - During a call no other thread changes what it reads, and none reads or writes what it writes.
 * - A `bool` is 0 or 1.
 * - `malloc`, `realloc` and `free` come from one allocator, and align as C says: for any object that fits.
 * - No call from a signal handler, or from the forked child of a process that has threads.
 *
 * A call keeps nothing: neither pointers nor memory. So calls in different threads don't disturb each other.
 *
 * `*count` is the number of bytes of the reply; `bb_look` and `bb_check_cost` have none. Where the status is
 * BB_CLEAN or BB_NOT_CLEAN they stand at the beginning of `out`, and the rest of `out` is as it was. Where it is
 * BB_SHORT, `out` is as it was, and `*count` is how long it has to be. Else `out` is as it was, and `*count`
 * is 0. No byte 0 is put behind the reply.
 */
#ifndef BB_H
#define BB_H

#ifdef __cplusplus
#include <cstddef>
#include <cstdint>
#else
#include <stdbool.h>
#include <stddef.h>
#include <stdint.h>
#endif

#define BB_VERSION "0.2.0"

/* Each line was a machine; each answer was `ok` or `open`; no limit of cells cut the trace off; each line has
 * a reply of its form. */
#define BB_CLEAN 0
/* A line was refused; an answer was `bad`, `over` or `unread`; the limit of cells cut the trace off; a line
 * has no reply of its form, or there are more replies than lines. */
#define BB_NOT_CLEAN 1
/* The limits were refused; `every` was 0. */
#define BB_LIMITS 2
/* An allocation failed. */
#define BB_MEMORY 3
/* `out` is too short. The work was done, and is lost. */
#define BB_SHORT 4

/* Where the array `counts` of bb_look has the number of replies of each kind. */
#define BB_COUNT_HALT 0
#define BB_COUNT_CYCLER 1
#define BB_COUNT_TRANSLATED 2
#define BB_COUNT_BACKWARD 3
#define BB_COUNT_UNDECIDED_STEPS 4
#define BB_COUNT_UNDECIDED_CELLS 5
#define BB_COUNT_REFUSED 6

/* Bytes of `out` with which BB_SHORT never comes, for a list of so many bytes and lines, and for one line of
 * so many bytes. A list has a line more than newlines, unless it ends in one or is empty. Lengths and lines
 * may be of any integer type, and aren't negative; the room is a `size_t`. */
#define BB_DECIDE_ROOM(list_len, lines) ((size_t)(list_len) + (size_t)98 * (size_t)(lines))
#define BB_DECIDE_LINE_ROOM(line_len) ((size_t)(line_len) + (size_t)97)
#define BB_CHECK_ROOM(lines) ((size_t)7 * (size_t)(lines))
#define BB_CHECK_LINE_ROOM 6
#define BB_RECURRENCE_ROOM(list_len, lines) \
    ((size_t)7 * (size_t)(list_len) + (size_t)90 * (size_t)(lines))

#ifdef __cplusplus
extern "C" {
#endif

/* A reply to each line of a list, each with a newline: the machine and its verdict, or `refused` and the
 * column. A line ends at a newline; a last line without one counts if it isn't empty. */
uint32_t bb_decide(uint64_t steps, uint64_t cells, uint64_t depth, uint64_t nodes, bool cyclers,
                   bool translated, bool backward, const uint8_t *list, size_t list_len, uint8_t *out,
                   size_t out_len, size_t *count);

/* The reply to one line, without a newline. A line that is refused costs no tapes. Where more than 1,024
 * cells are allowed, up to 4,096 steps are tried on small tapes first: so it makes at most
 * 3 * steps + 3 * min(steps, 4096) steps. That bound is proved of the function inside that decides; the
 * contract of this call doesn't speak of steps. */
uint32_t bb_decide_line(uint64_t steps, uint64_t cells, uint64_t depth, uint64_t nodes, bool cyclers,
                        bool translated, bool backward, const uint8_t *line, size_t line_len, uint8_t *out,
                        size_t out_len, size_t *count);

/* An answer to each verdict line of a list, each with a newline: `ok`, `bad`, `over`, `open` or `unread`. */
uint32_t bb_check(uint64_t steps, uint64_t cells, uint64_t depth, uint64_t nodes, const uint8_t *list,
                  size_t list_len, uint8_t *out, size_t out_len, size_t *count);

/* The answer to one verdict line, without a newline. A line that is `unread`, or a refusal, costs no tapes. */
uint32_t bb_check_line(uint64_t steps, uint64_t cells, uint64_t depth, uint64_t nodes, const uint8_t *line,
                       size_t line_len, uint8_t *out, size_t out_len, size_t *count);

/* Lines of a machine's trace, each with a newline: those of the steps `from`, `from + every` and so on, up to
 * the last step inside the limits; maybe none. A line is `<step> <state> <position> <low> <cells>`: the head's
 * position, the position of the first cell, and a digit for each cell visited so far. To a line that is no
 * machine, `refused` and the column with a newline. A step between costs what it costs to simulate it. No room
 * is told that is surely enough: with an `out_len` of 0, `*count` tells how much is, at the cost of the whole
 * run. */
uint32_t bb_trace(uint64_t steps, uint64_t cells, uint64_t from, uint64_t every, const uint8_t *line,
                  size_t line_len, uint8_t *out, size_t out_len, size_t *count);

/* The most that checking a list can cost, without checking it. A claim costs at most the steps and nodes that
 * it names: none if it is answered without a run, as `over` or `bad`. `cost` gets four numbers: the steps of
 * all lines together, the nodes of all lines together (each at most 2^64 - 1, which stands for that or more),
 * the steps and nodes of the most expensive line, and the index of that line, from 0: the first of equal ones,
 * and 0 if no line costs anything. It allocates nothing. The status is BB_CLEAN or BB_LIMITS; `cost` is
 * unchanged after BB_LIMITS. */
uint32_t bb_check_cost(uint64_t steps, uint64_t cells, uint64_t depth, uint64_t nodes, const uint8_t *list,
                       size_t list_len, uint64_t cost[4]);

/* The exact recurrence of each pair of a list of verdict lines, each with a newline: the line of the program
 * `recurrence`, `<machine> recurs <start> <period> <shift> <use of A> ..`, with the last use of each entry if
 * `entries`; the answer to a pair that doesn't hold, `open` for a line without a pair, `unread` for no verdict line.
 * The status is BB_CLEAN if each reply is a recurrence or `open`. */
uint32_t bb_recurrence(uint64_t steps, uint64_t cells, bool entries, const uint8_t *list, size_t list_len,
                       uint8_t *out, size_t out_len, size_t *count);

/* The line of each machine of a list, each with a newline: the machine of a complete list of its size whose verdict
 * settles it, as `cover --lines` prints it; `unread` for a line that is no machine. `steps` and `cells` are the
 * limits of that list. No room is told that is surely enough: BB_SHORT tells how much is. The status is never
 * BB_NOT_CLEAN. */
uint32_t bb_line_of(uint64_t steps, uint64_t cells, const uint8_t *list, size_t list_len, uint8_t *out,
                    size_t out_len, size_t *count);

/* Looks at the replies to the lines of a list: whether each line has one of its form, in order, each with a
 * newline, and whether there are no more. A reply has its form where it is the line's bytes, a space and a
 * verdict, together a verdict line; or `refused` and the line's column, where the line is no machine. Then
 * `counts` tells how many there are of halt, cycler, translated, backward, undecided steps, undecided cells
 * and refused, in this order (BB_COUNT_HALT to BB_COUNT_REFUSED), and `*lines` is their sum. Else `counts` is as it was, and `*lines` is the
 * first line that has none, from 0: the number of lines where each has one. Whether a verdict is right isn't
 * looked at: no step is made. It takes no memory. */
uint32_t bb_look(const uint8_t *list, size_t list_len, const uint8_t *replies, size_t replies_len,
                 uint64_t counts[7], uint64_t *lines);

#ifdef __cplusplus
}
#endif

#endif
