/* The driver: makes the calls of rastwob.h that it reads from standard input and writes back all that they left.
 *
 * A call on standard input, every number low byte first:
 *   call (1 byte: 1 open, 2 run, 3 choose, 4 save, 5 load), shift (1 byte),
 *   n, d, limit, steps (4 bytes each), checks (8), subproblems (4),
 *   then domains, tables, agenda, requests, file: each its length (4) and its bytes.
 * The answer on standard output:
 *   refusal, n, d, steps (4 each), checks (8), subproblems, verdict, taken, blocks (4 each),
 *   then the five buffers' bytes at exit, and 1 byte: 1 if every guard is intact, else 0.
 *
 * Each buffer and each number behind a pointer is lent at exactly its length, with guard bytes before and after;
 * shift moves the buffers (not the numbers) to places of any alignment. Before the call the numbers hold what was read, and
 * verdict, taken and blocks a mark, so that a number which the call leaves unwritten is seen. */

#include <stdint.h>
#include <stdio.h>
#include <stdlib.h>
#include <string.h>

#include "rastwob.h"

enum { GUARD = 16, BUFFERS = 5, NUMBERS = 8 };
enum { OPEN = 1, RUN = 2, CHOOSE = 3, SAVE = 4, LOAD = 5 };
enum { DOMAINS, TABLES, AGENDA, REQUESTS, FILE_BYTES };
enum { N, D, STEPS, CHECKS, SUBPROBLEMS, VERDICT, TAKEN, BLOCKS };

static const uint32_t UNWRITTEN = 0xA5A5A5A5u;

/* Memory lent to a call: its bytes, and where the whole with its guards begins. */
struct lent {
    uint8_t *whole;
    uint8_t *bytes;
    size_t before;
    size_t length;
};

/* One call as read, with everything that is lent to it. */
struct call {
    int name;
    uint32_t limit;
    struct lent buffers[BUFFERS];
    struct lent numbers[NUMBERS];
};

/* Ends with a message where the driver cannot go on. */
static void give_up(const char *why)
{
    fprintf(stderr, "driver: %s\n", why);
    exit(2);
}

/* The guard byte at a place, unlike its neighbours, so that a moved guard is seen too. */
static uint8_t guard_byte(size_t place)
{
    return (uint8_t)(0x5A ^ (place * 29u));
}

/* Lends so many bytes with guards on both sides. */
static struct lent lend(size_t length, size_t shift)
{
    struct lent made;
    size_t k;
    made.before = GUARD + shift;
    made.length = length;
    made.whole = malloc(made.before + length + GUARD);
    if (made.whole == NULL)
        give_up("no memory");
    for (k = 0; k < made.before + length + GUARD; k++)
        made.whole[k] = guard_byte(k);
    made.bytes = made.whole + made.before;
    return made;
}

/* Whether both guards are as they were lent. */
static int guards_intact(const struct lent *lent)
{
    size_t k;
    for (k = 0; k < lent->before; k++)
        if (lent->whole[k] != guard_byte(k))
            return 0;
    for (k = lent->before + lent->length; k < lent->before + lent->length + GUARD; k++)
        if (lent->whole[k] != guard_byte(k))
            return 0;
    return 1;
}

/* Reads exactly so many bytes. */
static void read_bytes(uint8_t *into, size_t length)
{
    if (length > 0 && fread(into, 1, length, stdin) != length)
        give_up("a call is cut short");
}

/* Reads a number of so many bytes, low byte first. */
static uint64_t read_number(int bytes)
{
    uint8_t read[8];
    uint64_t number = 0;
    int k;
    read_bytes(read, (size_t)bytes);
    for (k = bytes; k-- > 0;)
        number = number << 8 | read[k];
    return number;
}

/* Writes a number in so many bytes, low byte first. */
static void write_number(uint64_t number, int bytes)
{
    int k;
    for (k = 0; k < bytes; k++)
        putchar((int)(number >> (8 * k) & 0xFF));
}

/* A lent number of 4 bytes. */
static uint32_t *number(struct call *call, int which)
{
    return (uint32_t *)(void *)call->numbers[which].bytes;
}

/* The lent number of 8 bytes. */
static uint64_t *checks(struct call *call)
{
    return (uint64_t *)(void *)call->numbers[CHECKS].bytes;
}

/* Lends the numbers, with the marks in those that only come out. */
static void lend_numbers(struct call *call)
{
    int k;
    for (k = 0; k < NUMBERS; k++)
        call->numbers[k] = lend(k == CHECKS ? sizeof(uint64_t) : sizeof(uint32_t), 0);
    *number(call, VERDICT) = UNWRITTEN;
    *number(call, TAKEN) = UNWRITTEN;
    *number(call, BLOCKS) = UNWRITTEN;
}

/* Reads one call; 0 at the end of the input. */
static int read_call(struct call *call)
{
    int first = getchar();
    size_t shift;
    int k;
    if (first == EOF)
        return 0;
    call->name = first;
    shift = (size_t)read_number(1);
    lend_numbers(call);
    *number(call, N) = (uint32_t)read_number(4);
    *number(call, D) = (uint32_t)read_number(4);
    call->limit = (uint32_t)read_number(4);
    *number(call, STEPS) = (uint32_t)read_number(4);
    *checks(call) = read_number(8);
    *number(call, SUBPROBLEMS) = (uint32_t)read_number(4);
    for (k = 0; k < BUFFERS; k++) {
        call->buffers[k] = lend((size_t)read_number(4), shift);
        read_bytes(call->buffers[k].bytes, call->buffers[k].length);
    }
    return 1;
}

/* Makes the call and gives its refusal. */
static uint32_t make_call(struct call *call)
{
    struct lent *b = call->buffers;
    uint32_t n = *number(call, N), d = *number(call, D);
    uint32_t *steps = number(call, STEPS), *subproblems = number(call, SUBPROBLEMS);
    uint32_t *verdict = number(call, VERDICT), *taken = number(call, TAKEN);
    switch (call->name) {
    case OPEN:
        return rastwob_open(n, d, b[DOMAINS].bytes, b[DOMAINS].length, b[TABLES].bytes, b[TABLES].length,
                            b[AGENDA].bytes, b[AGENDA].length, steps, checks(call), subproblems);
    case RUN:
        return rastwob_run(n, d, b[DOMAINS].bytes, b[DOMAINS].length, b[TABLES].bytes, b[TABLES].length,
                           b[AGENDA].bytes, b[AGENDA].length, b[REQUESTS].bytes, b[REQUESTS].length,
                           steps, checks(call), subproblems, verdict, taken);
    case CHOOSE:
        return rastwob_choose(n, d, b[DOMAINS].bytes, b[DOMAINS].length, b[TABLES].bytes, b[TABLES].length,
                              b[AGENDA].bytes, b[AGENDA].length, call->limit,
                              steps, checks(call), subproblems, verdict, taken);
    case SAVE:
        return rastwob_save(n, d, b[DOMAINS].bytes, b[DOMAINS].length, b[TABLES].bytes, b[TABLES].length,
                            b[AGENDA].bytes, b[AGENDA].length, *steps, *checks(call), *subproblems,
                            b[FILE_BYTES].bytes, b[FILE_BYTES].length, number(call, BLOCKS));
    case LOAD:
        return rastwob_load(b[FILE_BYTES].bytes, b[FILE_BYTES].length, b[DOMAINS].bytes, b[DOMAINS].length,
                            b[TABLES].bytes, b[TABLES].length, b[AGENDA].bytes, b[AGENDA].length,
                            number(call, N), number(call, D), steps, checks(call), subproblems);
    default:
        give_up("no such call");
        return 0;
    }
}

/* Writes the answer: refusal, numbers, buffers, guards. */
static void write_answer(struct call *call, uint32_t refusal)
{
    int intact = 1;
    int k;
    write_number(refusal, 4);
    for (k = 0; k < NUMBERS; k++) {
        write_number(k == CHECKS ? *checks(call) : *number(call, k), k == CHECKS ? 8 : 4);
        intact = intact && guards_intact(&call->numbers[k]);
    }
    for (k = 0; k < BUFFERS; k++) {
        fwrite(call->buffers[k].bytes, 1, call->buffers[k].length, stdout);
        intact = intact && guards_intact(&call->buffers[k]);
    }
    write_number((uint64_t)intact, 1);
    if (fflush(stdout) != 0)
        give_up("cannot write");
}

/* Takes back everything lent. */
static void free_call(struct call *call)
{
    int k;
    for (k = 0; k < NUMBERS; k++)
        free(call->numbers[k].whole);
    for (k = 0; k < BUFFERS; k++)
        free(call->buffers[k].whole);
}

int main(void)
{
    struct call call;
    while (read_call(&call)) {
        write_answer(&call, make_call(&call));
        free_call(&call);
    }
    return 0;
}
