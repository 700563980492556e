/* The rival's program: document 01's program in C, as quick as portable C makes it, for the planner to be measured against.
 * It reads a saved search from standard input, runs the house chooser for up to 1,000,000 steps with 512 slots, and prints
 * the program's text. */

#include <stdio.h>

#include "rival_core.h"

enum { PROGRAM_STEPS = 1000000 };

/* One byte more than the largest file, so that a longer one is seen. */
static uint8_t file[MOST_BLOCKS * BLOCK_BYTES + 1];
static struct saved saved;
static struct search search;

/* The lines of a solved search: each variable and its value in the top subproblem. */
static void print_solution(void)
{
    const word *top = search.slot[search.subproblems - 1];
    int i;
    for (i = 0; i < search.n; i++)
        printf("%d %d\n", i, lowest(top[i]));
}

/* Runs the chooser on the search that was read and prints what came of it. */
static void run(void)
{
    static const char *const WORDS[] = {"none", "running", "solved", "unsolvable"};
    struct ran ran;
    search.steps = saved.steps;
    search.checks = saved.checks;
    search.subproblems = saved.subproblems;
    search.slots = MOST_SLOTS;
    enter_lanes(&search, saved.n, &saved.rows, saved.agenda);
    ran = choose(&search, PROGRAM_STEPS);
    printf("%s\nsteps %lu checks %llu\n", WORDS[ran.verdict], (unsigned long)search.steps, (unsigned long long)search.checks);
    if (ran.refusal != 0)
        printf("refused %lu\n", (unsigned long)ran.refusal);
    if (ran.verdict == SOLVED)
        print_solution();
}

int main(void)
{
    size_t blocks = blocks_in(file, fread(file, 1, sizeof file, stdin));
    uint32_t refusal = blocks == 0 ? 14 : read_saved(&saved, file, blocks);
    if (refusal != 0)
        printf("refused %lu\n", (unsigned long)refusal);
    else
        run();
    return 0;
}
