/* Many calls on one saved search of n 32, d 16, for the price of what every call does before its work.
 *
 *   calls request FILE TIMES   run with one request each, on an agenda that the chooser filled in its first 20,000 steps; the
 *                              five kinds in turn, each on the same search, which is put back after each call
 *   calls checks FILE TIMES    run with no request on that agenda: the first checks alone
 *   calls loaded FILE TIMES    the same on the search just loaded
 *   calls verdict FILE TIMES   choose for no step, on the search just loaded
 *   calls decide FILE TIMES    load, then choose up to the verdict
 *
 * Built with -DRIVAL it calls the rival, else the library. It prints a sum of all that came out, to be compared. */

#include <stdint.h>
#include <stdio.h>
#include <stdlib.h>
#include <string.h>

#ifdef RIVAL
#include "rival_calls.h"
#define rastwob_run rival_run
#define rastwob_choose rival_choose
#define rastwob_load rival_load
#else
#include "rastwob.h"
#endif

enum { N = 32, D = 16, SLOTS = 512, SLOT_BYTES = 2 * (N + 2), REQUEST_WORDS = N + 3, KINDS = 5 };
enum { FILLING_STEPS = 20000, MOST_STEPS = 1000000 };

static uint8_t file[101 * 512];
static size_t file_length;
static uint8_t domains[2 * N], tables[2 * N * N * D], agenda[SLOTS * SLOT_BYTES], kept[SLOTS * SLOT_BYTES];
static uint16_t requests[KINDS][REQUEST_WORDS];
static uint32_t steps, subproblems;
static uint64_t checks, sum;

/* Ends with a message. */
static void give_up(const char *why)
{
    fprintf(stderr, "calls: %s\n", why);
    exit(2);
}

/* Adds a number to the sum of all that came out, so that their order counts. */
static void tell(uint64_t number)
{
    sum = (sum ^ number) * 0x100000001B3u;
}

/* Adds lent bytes. */
static void tell_bytes(const uint8_t *bytes, size_t length)
{
    size_t k;
    for (k = 0; k < length; k++)
        tell(bytes[k]);
}

/* Loads the file. */
static void load(void)
{
    uint32_t n, d;
    uint32_t refusal = rastwob_load(file, file_length, domains, sizeof domains, tables, sizeof tables, agenda, sizeof agenda, &n, &d,
                                    &steps, &checks, &subproblems);
    if (refusal != 0)
        give_up("the file is refused");
}

/* Runs the chooser. */
static void choose(uint32_t limit)
{
    uint32_t verdict, taken;
    tell(rastwob_choose(N, D, domains, sizeof domains, tables, sizeof tables, agenda, sizeof agenda, limit, &steps, &checks,
                        &subproblems, &verdict, &taken));
    tell(verdict);
    tell(taken);
    tell(steps);
    tell(checks);
    tell(subproblems);
}

/* Word k of a slot. */
static uint16_t word_of(uint32_t slot, uint32_t k)
{
    return (uint16_t)(agenda[slot * SLOT_BYTES + 2 * k] | agenda[slot * SLOT_BYTES + 2 * k + 1] << 8);
}

/* A request of each kind on the top subproblem, on its first variable with more than one value. */
static void make_requests(void)
{
    const uint32_t top = subproblems - 1;
    uint32_t kind, k, V = 0;
    uint16_t lowest;
    while (V < N && (word_of(top, V) & (word_of(top, V) - 1)) == 0)
        V++;
    if (subproblems == 0 || V == N)
        give_up("the top subproblem has no variable to split");
    lowest = (uint16_t)(word_of(top, V) & -word_of(top, V));
    for (kind = 1; kind <= KINDS; kind++) {
        uint16_t *request = requests[kind - 1];
        request[0] = (uint16_t)kind;
        request[1] = (uint16_t)V;
        for (request[2] = 0; lowest >> request[2] != 1;)
            request[2]++;
        for (k = 0; k < N; k++)
            request[3 + k] = k == V ? lowest : word_of(top, k);
    }
}

/* One call of run with one request; then the search is as it was. */
static void ask(uint32_t turn)
{
    const uint32_t steps_kept = steps, bottom = subproblems - 1;
    const uint64_t checks_kept = checks;
    uint32_t verdict, taken;
    size_t from = bottom * SLOT_BYTES, length;
    tell(rastwob_run(N, D, domains, sizeof domains, tables, sizeof tables, agenda, sizeof agenda,
                     (const uint8_t *)requests[turn % KINDS], sizeof requests[0], &steps, &checks, &subproblems, &verdict, &taken));
    tell(verdict);
    tell(taken);
    tell(checks);
    tell(subproblems);
    if (turn < KINDS)
        tell_bytes(agenda, sizeof agenda);
    length = (subproblems > bottom ? subproblems - bottom : 1) * SLOT_BYTES;
    memcpy(agenda + from, kept + from, length);
    steps = steps_kept;
    checks = checks_kept;
    subproblems = bottom + 1;
}

/* So many calls of run. */
static void ask_often(uint32_t times)
{
    uint32_t k;
    load();
    choose(FILLING_STEPS);
    make_requests();
    memcpy(kept, agenda, sizeof agenda);
    for (k = 0; k < times; k++)
        ask(k);
}

/* So many runs with no request, which leave the search as it is. */
static void check_often(uint32_t times)
{
    uint32_t verdict, taken, k;
    for (k = 0; k < times; k++) {
        tell(rastwob_run(N, D, domains, sizeof domains, tables, sizeof tables, agenda, sizeof agenda, (const uint8_t *)requests, 0,
                         &steps, &checks, &subproblems, &verdict, &taken));
        tell(verdict);
        tell(taken);
        tell(steps);
        tell(checks);
        tell(subproblems);
    }
    tell_bytes(agenda, sizeof agenda);
}

/* So many calls of choose that take no step. */
static void say_often(uint32_t times)
{
    uint32_t k;
    for (k = 0; k < times; k++)
        choose(0);
    tell_bytes(agenda, sizeof agenda);
}

/* So many loads, each with its verdict. */
static void decide_often(uint32_t times)
{
    uint32_t k;
    for (k = 0; k < times; k++) {
        load();
        choose(MOST_STEPS);
    }
}

/* Does what the first word says; 0 where it says nothing. */
static int go(const char *way, uint32_t times)
{
    if (strcmp(way, "request") == 0) {
        ask_often(times);
    } else if (strcmp(way, "checks") == 0) {
        load();
        choose(FILLING_STEPS);
        check_often(times);
    } else if (strcmp(way, "loaded") == 0) {
        load();
        check_often(times);
    } else if (strcmp(way, "verdict") == 0) {
        load();
        say_often(times);
    } else if (strcmp(way, "decide") == 0) {
        decide_often(times);
    } else {
        return 0;
    }
    return 1;
}

int main(int argc, char **argv)
{
    FILE *in = argc == 4 ? fopen(argv[2], "rb") : NULL;
    if (in == NULL)
        give_up("usage: calls request|checks|loaded|verdict|decide FILE TIMES");
    file_length = fread(file, 1, sizeof file, in);
    fclose(in);
    if (!go(argv[1], (uint32_t)strtoul(argv[3], NULL, 10)))
        give_up("neither request, checks, loaded, verdict nor decide");
    printf("subproblems %lu sum %016llx\n", (unsigned long)subproblems, (unsigned long long)sum);
    return 0;
}
