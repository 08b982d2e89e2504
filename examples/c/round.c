/* Plans one job sheet, with as much workspace as it asks for, and prints the listing of document 01; then, of a plan, the gate
 * board: a line for each car, the first to arrive first. A sheet of no bytes is a dark house, whose plan has no carriers.
 *
 *     cc -std=c99 -Wall -Wextra -pedantic -Iinclude examples/c/round.c target/staticlib/libplanner.a -o round
 *     ./round < sheet
 *
 * Exit status: 0 for a plan, 1 for none, 2 for spent, 3 for a refused sheet, 4 if it cannot be read or there is no memory.
 */
#include <inttypes.h>
#include <stdio.h>
#include <stdlib.h>

#include "planner.h"

/* An accepted sheet has at most 1304 bytes; one byte more tells that there are too many. */
enum { MOST_BYTES = 1304 };

/* The listing's lines, one for each carrier. Each line of the board has a carrier and its finish. */
static void print_paths(const uint32_t *tasks, const uint16_t *paths, const uint32_t *lines, size_t m, size_t steps)
{
    uint32_t finish[12] = {0};
    for (size_t line = 0; line < m; line++)
        finish[lines[4 * line + 1]] = lines[4 * line + 3];
    for (size_t carrier = 0; carrier < m; carrier++) {
        printf("carrier %zu task %" PRIu32 " finish %" PRIu32 ":", carrier, tasks[carrier], finish[carrier]);
        for (size_t time = 0; time < steps; time++)
            printf(" %" PRIu16, paths[carrier * steps + time]);
        printf("\n");
    }
}

/* The gate board. A line may be all zeros, so that m says how many there are. */
static void print_board(const uint32_t *lines, size_t m)
{
    for (size_t line = 0; line < m; line++, lines += 4)
        printf("gate %" PRIu32 " carrier %" PRIu32 " task %" PRIu32 " finish %" PRIu32 "\n", lines[0], lines[1], lines[2],
               lines[3]);
}

static void print_answer(const uint32_t *answer, const uint16_t *paths, const uint32_t *lines, size_t m, size_t steps)
{
    switch (answer[1]) {
    case 0:
        printf("plan %" PRIu32 " nodes %" PRIu32 "\n", answer[2], answer[3]);
        print_paths(answer + 5, paths, lines, m, steps);
        print_board(lines, m);
        break;
    case 1:
        printf("none nodes %" PRIu32 "\n", answer[3]);
        break;
    case 2:
        printf("spent %" PRIu32 " nodes %" PRIu32 "\n", answer[4], answer[3]);
        break;
    default:
        printf("refused %" PRIu32 "\n", answer[0]);
    }
}

int main(void)
{
    uint8_t sheet[MOST_BYTES + 1];
    size_t bytes = fread(sheet, 1, sizeof sheet, stdin);
    if (ferror(stdin)) {
        fprintf(stderr, "round: the sheet cannot be read\n");
        return 4;
    }
    uint32_t cause = planner_cause(sheet, bytes);
    if (cause != 0) {
        printf("refused %" PRIu32 "\n", cause);
        return 3;
    }

    /* An accepted sheet has its header, but for the dark house: no bytes, no carriers, no words of workspace or paths. */
    size_t m = bytes > 0 ? sheet[2] : 0, steps = bytes > 0 ? (size_t)sheet[3] + 1 : 0;
    size_t words = planner_workspace(sheet, bytes);
    /* One word more than is lent, since malloc(0) may be NULL, and no call takes a null pointer. */
    uint32_t *work = malloc((words + 1) * sizeof *work);
    uint16_t *paths = malloc((m * steps + 1) * sizeof *paths);
    if (work == NULL || paths == NULL) {
        fprintf(stderr, "round: no memory for %zu words of workspace\n", words);
        free(work);
        free(paths);
        return 4;
    }

    /* The cause, the kind, the flowtime, the nodes, the bound, and the task of each of twelve carriers; then the board, four
     * numbers to a line: gate, carrier, task, finish. planner_search takes and writes the same without a board. */
    uint32_t answer[17], lines[48];
    planner_gate_board(sheet, bytes, work, words, paths, m * steps, answer, lines);
    print_answer(answer, paths, lines, m, steps);
    free(work);
    free(paths);
    return (int)answer[1];
}
