/* The carrier round planner's calls, for C and C++ on x86-64 Linux. Link libplanner.a, which `./archive` makes.
 *
 * Rules of every call:
 * - A slice is a pointer and then how many elements it has. A pointer is never null, also where the length is 0 (malloc(0) may
 *   give a null pointer), and it is aligned for its element. A list of fixed length is a pointer alone: all its elements must be
 *   there.
 * - What is written through a pointer to non-const must not overlap anything else that is lent to the same call.
 * - No call keeps a pointer, allocates, blocks, or reads or writes anything but what is lent to it. Calls on different buffers
 *   may run at the same time.
 * - Every input is answered: bad bytes, lengths and numbers get a cause. The first number of an answer is the cause, 0 where the
 *   call is accepted; on a cause the other numbers are 0, but for the kind, 3, and the tasks, 255, of a search (planner_search and
 *   planner_gate_board).
 * - A refused call writes its numbers, the three lists of the least assignment and the lines of the gate board, and nothing else.
 *
 * Sheets: bytes as document 01 says. m carriers and tasks, horizon H, places y * w + x. A path lists H + 1 places.
 * Grid bytes: 0 free; 1 blocked; 2, 3, 4 and 5 free, but a lane: it may be left only to the north (place - w), east, south or west.
 * A carrier may wait on a lane, and enter it from any side. A lane that leads off the grid or to a blocked place is not left.
 * A sheet of no bytes (sheet_len 0) is a dark house, a round without carriers: it is accepted, m is 0, and it has no header to read
 * m and H from. The empty plan is its only plan.
 *
 * Causes, in the order in which they are tried:
 *    1  the sheet has one to seven bytes
 *    2  a header byte is outside its range
 *    3  the directory is cut off or breaks a pair's rule
 *    4  a grid byte is above 5
 *    5  a start is off the grid, blocked or shared
 *    6  a goal is off the grid or blocked
 *    7  two tasks have one last goal
 *    8  a carrier's or task's number is not below m
 *    9  the records are not in fives, over 4096, or one is not a constraint of this sheet
 *   12  a count m is outside 1 to 12, or a table is not m by m
 *   10  the workspace is short
 *   11  the output is short; of the first collision and the plan check, the paths are not exactly m * (H + 1) words
 */
#ifndef PLANNER_H
#define PLANNER_H

#include <stddef.h>
#include <stdint.h>

#ifdef __cplusplus
extern "C" {
#endif

/* The first cause that lies in the sheet itself, 1 to 7; 0 for an accepted sheet, and so for the dark house. */
uint32_t planner_cause(const uint8_t *sheet, size_t sheet_len);

/* How many 32-bit words of workspace the sheet asks for, at most 4460544; 0 for the dark house, which needs none, and for a refused
 * sheet: planner_cause tells them apart. */
size_t planner_workspace(const uint8_t *sheet, size_t sheet_len);

/* Where the goals of a task stand in the sheet, two bytes each, low byte first.
 * numbers[2]: the offset in bytes from the sheet's start, the length in bytes; on any cause, 1 to 8, both are 0. The dark house has
 *       no task: cause 8. */
void planner_task_goals(const uint8_t *sheet, size_t sheet_len, size_t task, size_t *numbers);

/* One carrier's least path for a task, under constraints: least finish, then first list of places. Causes 1 to 11; 8 for the dark
 * house, which has no carrier and no task.
 * work: planner_workspace(sheet) words or more. What it holds before changes nothing; what it holds after an accepted call is
 *       free. A refused call leaves it as it was.
 * out: H + 1 words or more. Where there is a path, its places are the first H + 1; the other words stay. All stay where there is
 *       none or the call is refused.
 * records: five words to a constraint: kind (0 place, 1 move), carrier, u, v (0 in kind 0), t. Kind 0: the carrier is not on u
 *       at t. Kind 1: it does not go from u to v between t and t + 1. records_len counts words.
 * numbers[3]: the cause; 1 if there is a path; its finish. */
void planner_least_path(const uint8_t *sheet, size_t sheet_len, size_t carrier, size_t task, uint32_t *work, size_t work_len,
                        uint16_t *out, size_t out_len, const uint16_t *records, size_t records_len, uint32_t *numbers);

/* The least assignment of a table of m by m entries, row by row, a row to a carrier and a column to a task; 65535 bars an entry.
 * The first by sum, then by list of tasks. Cause 12.
 * tasks[12]: the task of each carrier, 255 from m on, and 255 throughout if there is no assignment or the call is refused.
 * rows[12], columns[12]: prices. A row's plus a column's is at most each entry that is not barred, and equals it on the chosen
 *       ones; a column's is at most 0; 0 from m on, and 0 throughout without an assignment.
 * numbers[3]: the cause; 1 if there is an assignment; its sum. */
void planner_least_assignment(uint8_t m, const uint16_t *table, size_t table_len, uint8_t *tasks, int32_t *rows,
                              int32_t *columns, uint32_t *numbers);

/* The assignments of a table of m by m entries in order: by sum, then by list of tasks. Cause 12.
 * work: 512 words for each assignment that is to be listed. What it holds before changes nothing; what it holds after an accepted
 *       call is free. A refused call leaves it as it was.
 * lists: 12 bytes for each assignment that is listed: the task of each carrier, 255 from m on. As many are listed, from the first
 *       on, as there are, as work and lists have room for, and 4096 at most; the other bytes stay.
 * numbers[2]: the cause; how many are listed. */
void planner_assignments_in_order(uint8_t m, const uint16_t *table, size_t table_len, uint32_t *work, size_t work_len,
                                  uint8_t *lists, size_t lists_len, uint32_t *numbers);

/* The first collision of m paths of h + 1 words each, carrier by carrier: least time, place before move, least pair i < j.
 * Causes 12, 11.
 * numbers[8]: the cause; 1 if there is a collision; its kind (0 place, 1 move); t; i; j; i's place at t; of a move, i's place at
 *       t + 1, else 0. */
void planner_first_collision(uint8_t m, uint8_t h, const uint16_t *paths, size_t paths_len, uint32_t *numbers);

/* The search for a plan of least flowtime: constraints on colliding pairs, and the assignments in their order; the cheapest open
 * node is taken first. Causes 1 to 7, 10, 11. It takes no memory but what is lent and its stack: 512 KiB of stack are enough (320
 * KiB sufficed on every sheet measured, paths of 255 steps among them).
 * For the dark house it answers with the empty plan: flowtime, nodes and bound 0, all tasks 255. work and out may then have any
 * length, also 0, and every word of both stays.
 * work: planner_workspace(sheet) words or more. What it holds before changes nothing; what it holds after an accepted call is
 *       free. A refused call leaves it as it was.
 * out: m * (H + 1) words or more. The paths of a plan are the first m * (H + 1), carrier by carrier; the other words stay. All
 *       stay without a plan.
 * numbers[17]: the cause; the kind (0 a plan of least flowtime, 1 there is no plan, 2 the node limit is spent, 3 refused); the
 *       flowtime, 0 without a plan; the nodes made; the bound: of a plan its flowtime, of kind 2 a number that no plan's flowtime
 *       is below, else 0; then the task of each of 12 carriers, 255 from m on, and 255 throughout without a plan. */
void planner_search(const uint8_t *sheet, size_t sheet_len, uint32_t *work, size_t work_len, uint16_t *out, size_t out_len,
                    uint32_t *numbers);

/* The gate board: has the search run, and lists the tasks of a plan in the order of their finishes. Causes 1 to 7, 10, 11, as the
 * search has them; the board has none of its own. Its stack is the search's.
 * work, out, numbers[17]: as planner_search takes and writes them; so a plan's paths are written too.
 * lines[48]: twelve lines of four numbers each: the last goal (its place), the carrier, the task, the finish. Of a plan the first m
 *       lines are one for each task, sorted by finish and then by last goal, both rising; the others are zeros. One of the first m
 *       may be all zeros as well, so that m alone says how many there are. Without a plan, for the dark house and on a cause all 48
 *       are 0. */
void planner_gate_board(const uint8_t *sheet, size_t sheet_len, uint32_t *work, size_t work_len, uint16_t *out, size_t out_len,
                        uint32_t *numbers, uint32_t *lines);

/* Whether the tasks and paths are a plan for the sheet. Causes 1 to 7, 11.
 * tasks[12]: the task of each carrier, 255 from m on. paths: m * (H + 1) words, carrier by carrier.
 * numbers[3]: the cause; 1 for a plan; its flowtime.
 * For the dark house twelve 255 and no words are a plan, of flowtime 0; other tasks and no words are none; any words are cause 11. */
void planner_check_plan(const uint8_t *sheet, size_t sheet_len, const uint8_t *tasks, const uint16_t *paths, size_t paths_len,
                        uint32_t *numbers);

#ifdef __cplusplus
}
#endif

#endif
