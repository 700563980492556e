/* What the rival's program and the rival's calls share: masks, tables, the rules, files, the house chooser.
 *
 * Rules and words are document 01's. A lent word is read where it stands, as this machine (x86-64) holds it. The chooser's
 * subproblems stand in lanes: 8, 16 or 32 masks of 16 bits, the first of these that holds n, so that the compiler can work on
 * eight masks at once; a lane at n or above holds all bits, and no row takes one away. A loop over lanes has a fixed number of
 * turns and no branch. */

#ifndef RIVAL_CORE_H
#define RIVAL_CORE_H

#include <stddef.h>
#include <stdint.h>
#include <string.h>

#define MOST_STEPS 4294967295u
#define CHECKS_IN_A_STEP 496u
#define ALL_BITS 0xFFFFu

enum { MOST_VARIABLES = 32, MOST_VALUES = 16, MOST_SLOTS = 512, MOST_BLOCKS = 101 };
enum { BLOCK_BYTES = 512, CONTENT_WORDS = 253, HEAD_WORDS = 9 };
enum { NONE, RUNNING, SOLVED, UNSOLVABLE };

/* Inlined whatever its size, so that n, d or the lanes are constants in it where a caller gives constants. */
#define INLINED static inline __attribute__((always_inline))

/* A loop over lanes; the pragma keeps gcc from taking it apart before it has seen that eight turns can be made at once. */
#define LANES(k, from, to) _Pragma("GCC unroll 4") for (k = (from); k < (to); k++)

typedef uint16_t word;

/* ---- Words and masks ------------------------------------------------------------------------------------------------- */

/* Word k of lent bytes, at any address. */
INLINED word word_at(const uint8_t *bytes, size_t k)
{
    word w;
    memcpy(&w, bytes + 2 * k, sizeof w);
    return w;
}

/* Writes word k of lent bytes. */
INLINED void put_word(uint8_t *bytes, size_t k, word w)
{
    memcpy(bytes + 2 * k, &w, sizeof w);
}

/* Word k of a file, high byte first. */
INLINED word file_word(const uint8_t *bytes, size_t k)
{
    word w = word_at(bytes, k);
    return (word)(w << 8 | w >> 8);
}

/* The number of values of a mask: sums of ones in ever wider fields, since not every x86-64 has an instruction for it. */
INLINED word count(word mask)
{
    mask = (word)(mask - ((mask >> 1) & 0x5555));
    mask = (word)((mask & 0x3333) + ((mask >> 2) & 0x3333));
    mask = (word)((mask + (mask >> 4)) & 0x0F0F);
    return (word)((mask + (mask >> 8)) & 0x1F);
}

/* The number of variables of a set, likewise. */
INLINED int count_of_set(uint32_t set)
{
    set = set - ((set >> 1) & 0x55555555u);
    set = (set & 0x33333333u) + ((set >> 2) & 0x33333333u);
    set = (set + (set >> 4)) & 0x0F0F0F0Fu;
    return (int)(set * 0x01010101u >> 24);
}

/* The lowest value of a mask, or the lowest variable of a set, that is not empty. */
INLINED int lowest(uint32_t set)
{
    return __builtin_ctz(set);
}

/* The set of the variables below a number of them, or the mask of the values below a number. */
INLINED uint32_t first_bits(int number)
{
    return number == 32 ? 0xFFFFFFFFu : (1u << number) - 1;
}

/* The bit of each lane in its half of a set of variables. */
#define HALF_BITS                                                                                                              \
    0x0001, 0x0002, 0x0004, 0x0008, 0x0010, 0x0020, 0x0040, 0x0080, 0x0100, 0x0200, 0x0400, 0x0800, 0x1000, 0x2000, 0x4000, 0x8000
static const word BIT[MOST_VARIABLES] = {HALF_BITS, HALF_BITS};

/* The number of each lane. */
static const word LANE[MOST_VARIABLES] = {0,  1,  2,  3,  4,  5,  6,  7,  8,  9,  10, 11, 12, 13, 14, 15,
                                          16, 17, 18, 19, 20, 21, 22, 23, 24, 25, 26, 27, 28, 29, 30, 31};

/* Read from place 32 - j on: all bits in lane j, zero in the others. */
static const word ONE_LANE[2 * MOST_VARIABLES + 1] = {[MOST_VARIABLES] = ALL_BITS};

/* Read from place 32 - j on: all bits in the lanes after j, zero in the others. */
static const word LANES_AFTER[2 * MOST_VARIABLES + 1] = {
    [MOST_VARIABLES + 1] = ALL_BITS, ALL_BITS, ALL_BITS, ALL_BITS, ALL_BITS, ALL_BITS, ALL_BITS, ALL_BITS,
    ALL_BITS, ALL_BITS, ALL_BITS, ALL_BITS, ALL_BITS, ALL_BITS, ALL_BITS, ALL_BITS,
    ALL_BITS, ALL_BITS, ALL_BITS, ALL_BITS, ALL_BITS, ALL_BITS, ALL_BITS, ALL_BITS,
    ALL_BITS, ALL_BITS, ALL_BITS, ALL_BITS, ALL_BITS, ALL_BITS, ALL_BITS, ALL_BITS};

/* ---- Tables: the mask of the values of j allowed beside a of i is word (i n + j) d + a --------------------------------- */

/* The masks of one pair, as 16 rows of 16 bits. */
struct matrix {
    word row[MOST_VALUES];
};

/* The d rows at an address, zeros after them. */
INLINED struct matrix rows_at(const uint8_t *bytes, int d)
{
    struct matrix m = {{0}};
    memcpy(m.row, bytes, 2 * (size_t)d);
    return m;
}

/* One step in four of turning a matrix. The rows in places k and k + 8 swap the bits that lie across the diagonal, those of the
   mask in the second with those so many places higher in the first, and then stand side by side: after four steps, by 8, 4,
   2 and 1, each row has met its four others and is in its own place again. */
INLINED void turn_step(word *restrict to, const word *restrict from, int places, word mask)
{
    int k;
    LANES (k, 0, MOST_VALUES / 2) {
        word unlike = (word)((from[k] >> places ^ from[k + 8]) & mask);
        to[2 * k] = (word)(from[k] ^ unlike << places);
        to[2 * k + 1] = from[k + 8] ^ unlike;
    }
}

/* Rows for columns. */
INLINED struct matrix turned(struct matrix m)
{
    struct matrix half;
    turn_step(half.row, m.row, 8, 0x00FF);
    turn_step(m.row, half.row, 4, 0x0F0F);
    turn_step(half.row, m.row, 2, 0x3333);
    turn_step(m.row, half.row, 1, 0x5555);
    return m;
}

/* The bits of all rows together. */
INLINED word bits_of(const struct matrix *m)
{
    word bits = 0;
    int k;
    for (k = 0; k < MOST_VALUES; k++)
        bits |= m->row[k];
    return bits;
}

/* The byte at which the masks of i and j begin. */
INLINED size_t pair_at(int n, int d, int i, int j)
{
    return 2 * (size_t)((i * n + j) * d);
}

/* The masks allowed beside one value, in lanes: made from the tables when they are first asked for. */
struct rows {
    int n, d;
    const uint8_t *tables;
    word made[MOST_VARIABLES];                              /* bit v of V: row[V][v] is made */
    word row[MOST_VARIABLES][MOST_VALUES][MOST_VARIABLES];  /* what is allowed beside v of V; of V itself, v alone */
};

/* Starts with no row made. */
INLINED void begin_rows(struct rows *r, int n, int d, const uint8_t *tables)
{
    r->n = n;
    r->d = d;
    r->tables = tables;
    memset(r->made, 0, sizeof r->made);
}

/* The row of v of V. */
INLINED const word *row_of(struct rows *r, int V, int v)
{
    word *row = r->row[V][v];
    if (!(r->made[V] >> v & 1)) {
        int j;
        for (j = 0; j < MOST_VARIABLES; j++)
            row[j] = j < r->n ? word_at(r->tables + pair_at(r->n, r->d, V, j), (size_t)v) : ALL_BITS;
        row[V] = (word)(1u << v);
        r->made[V] |= (word)(1u << v);
    }
    return row;
}

/* ---- The rules for subproblems ----------------------------------------------------------------------------------------- */

/* The marks of a slot, which stand after its n masks. */
INLINED uint32_t marks_at(const uint8_t *slot, int n)
{
    return (uint32_t)word_at(slot, (size_t)n) << 16 | word_at(slot, (size_t)n + 1);
}

/* Up to 16 masks of a slot: adds to wrong what is empty, not part of the problem's, or marked and more than one value. The masks
   that are marked go into held, zeros for the others. */
INLINED void look_at(const uint8_t *slot, const uint8_t *domains, uint32_t marked, int from, int to, word *held, word *wrong)
{
    const word marks = (word)(marked >> from);
    int k;
    LANES (k, from, to) {
        word mask = word_at(slot, (size_t)k);
        word foreign = (word)(mask & ~word_at(domains, (size_t)k));
        word empty = mask == 0 ? ALL_BITS : 0;
        word hold = (marks & BIT[k]) == 0 ? 0 : mask;
        wrong[k] |= (word)(foreign | empty | (hold & (hold - 1)));
        held[k] = hold;
    }
}

/* Adds to wrong what is held and not allowed beside another that is held. (A mask with no value below d is wrong already, and
   is taken as d - 1.) */
INLINED void look_beside(const word *held, uint32_t marked, struct rows *rows, word *wrong)
{
    const uint32_t last = 1u << (rows->d - 1);
    int k;
    for (; marked != 0; marked &= marked - 1) {
        const int i = lowest(marked);
        const word *row = row_of(rows, i, lowest(held[i] | last));
        LANES (k, 0, MOST_VARIABLES)
            wrong[k] |= (word)(held[k] & ~row[k]);
    }
}

/* Whether the first subproblems of an agenda obey the rules: all are looked at, and what is wrong is asked once. */
INLINED int subproblems_obey(const uint8_t *agenda, size_t subproblems, const uint8_t *domains, struct rows *rows, int n)
{
    word held[MOST_VARIABLES] = {0}, wrong[MOST_VARIABLES] = {0}, any = 0;
    uint32_t beyond = 0;
    size_t k;
    for (k = 0; k < subproblems; k++, agenda += 2 * (n + 2)) {
        uint32_t marked = marks_at(agenda, n);
        beyond |= marked & ~first_bits(n);
        marked &= first_bits(n);
        look_at(agenda, domains, marked, 0, n < 16 ? n : 16, held, wrong);
        if (n > 16)
            look_at(agenda, domains, marked, 16, n, held, wrong);
        look_beside(held, marked, rows, wrong);
    }
    for (k = 0; k < MOST_VARIABLES; k++)
        any |= wrong[k];
    return any == 0 && beyond == 0;
}

/* ---- Files: 14 and 15 -------------------------------------------------------------------------------------------------- */

/* The check of a block as it should stand. A sum of words with their bytes changed round is the sum with its bytes changed
   round (RFC 1071, 2 B), so the words are added as they stand. */
INLINED word check_of(const uint8_t *block)
{
    uint32_t sum = 0;
    size_t k;
    for (k = 0; k < BLOCK_BYTES / 2 - 1; k++)
        sum += word_at(block, k);
    sum = (sum & 0xFFFF) + (sum >> 16);
    sum = (sum & 0xFFFF) + (sum >> 16);
    return (word)~sum;
}

/* The number of blocks of a file, 0 if it is refused 14. */
static size_t blocks_in(const uint8_t *file, size_t length)
{
    const size_t blocks = length / BLOCK_BYTES;
    size_t k;
    if (length % BLOCK_BYTES != 0 || blocks > MOST_BLOCKS)
        return 0;
    for (k = 0; k < blocks; k++) {
        const uint8_t *block = file + k * BLOCK_BYTES;
        if (word_at(block, BLOCK_BYTES / 2 - 1) != check_of(block) || file_word(block, 0) != k + 1 || file_word(block, 1) != blocks)
            return 0;
    }
    return blocks;
}

/* What a file says: its content, with room for the zeros after it, and the tables in full. */
struct saved {
    int n, d;
    uint32_t steps, subproblems;
    uint64_t checks;
    const uint8_t *domains, *agenda;
    word content[MOST_BLOCKS * CONTENT_WORDS];
    word tables[MOST_VARIABLES * MOST_VARIABLES * MOST_VALUES];
    struct rows rows;
};

/* The content of the blocks, joined. */
static void read_content(struct saved *s, const uint8_t *file, size_t blocks)
{
    size_t b, k;
    for (b = 0; b < blocks; b++)
        for (k = 0; k < CONTENT_WORDS; k++)
            s->content[b * CONTENT_WORDS + k] = file_word(file + b * BLOCK_BYTES, k + 2);
}

/* Makes the tables in full, zeros for a variable with itself; whether a mask has a bit at d or above. */
INLINED int tables_of(struct saved *s, const word *masks, int n, int d)
{
    uint8_t *tables = (uint8_t *)s->tables;
    struct matrix bits = {{0}};
    int i, j, k;
    for (i = 0; i < n; i++) {
        memset(tables + pair_at(n, d, i, i), 0, 2 * (size_t)d);
        for (j = i + 1; j < n; j++, masks += d) {
            struct matrix rows = rows_at((const uint8_t *)masks, d), columns = turned(rows);
            memcpy(tables + pair_at(n, d, i, j), rows.row, 2 * (size_t)d);
            memcpy(tables + pair_at(n, d, j, i), columns.row, 2 * (size_t)d);
            LANES (k, 0, MOST_VALUES)
                bits.row[k] |= rows.row[k];
        }
    }
    return bits_of(&bits) > first_bits(d);
}

/* The words of the content from domains to agenda, once they fill the blocks: whether they break a rule. */
INLINED int breaks_a_rule(struct saved *s, size_t words, size_t blocks, int n, int d)
{
    const word *domains = s->content + HEAD_WORDS, *masks = domains + n, *agenda = masks + n * (n - 1) / 2 * d;
    word wide = 0, after = 0;
    size_t k;
    s->domains = (const uint8_t *)domains;
    s->agenda = (const uint8_t *)agenda;
    begin_rows(&s->rows, n, d, (const uint8_t *)s->tables);
    for (k = 0; k < (size_t)n; k++)
        wide |= domains[k];
    for (k = words; k < blocks * CONTENT_WORDS; k++)
        after |= s->content[k];
    return tables_of(s, masks, n, d) || wide > first_bits(d) || after != 0 || s->checks > (uint64_t)CHECKS_IN_A_STEP * s->steps ||
           !subproblems_obey(s->agenda, s->subproblems, s->domains, &s->rows, n);
}

/* Reads the blocks of a file: 0, or the refusal 15. */
static uint32_t read_saved(struct saved *s, const uint8_t *file, size_t blocks)
{
    const word *w = s->content;
    size_t words;
    int n, d;
    read_content(s, file, blocks);
    s->n = n = w[0];
    s->d = d = w[1];
    s->steps = (uint32_t)w[2] << 16 | w[3];
    s->checks = (uint64_t)w[4] << 48 | (uint64_t)w[5] << 32 | (uint64_t)w[6] << 16 | w[7];
    s->subproblems = w[8];
    if (n < 1 || n > MOST_VARIABLES || d < 1 || d > MOST_VALUES || s->subproblems > MOST_SLOTS)
        return 15;
    words = HEAD_WORDS + (size_t)n + (size_t)(n * (n - 1) / 2 * d) + (size_t)s->subproblems * (size_t)(n + 2);
    if ((words + CONTENT_WORDS - 1) / CONTENT_WORDS != blocks)
        return 15;
    if (n == 32 && d == 16)
        return breaks_a_rule(s, words, blocks, 32, 16) ? 15 : 0;
    if (d == 8)
        return breaks_a_rule(s, words, blocks, n, 8) ? 15 : 0;
    return breaks_a_rule(s, words, blocks, n, d) ? 15 : 0;
}

/* ---- A search in lanes --------------------------------------------------------------------------------------------------- */

struct search {
    int n, slots;
    uint32_t steps, subproblems;
    uint64_t checks;
    struct rows *rows;
    word slot[MOST_SLOTS][MOST_VARIABLES]; /* the agenda, bottom first */
    uint32_t marked[MOST_SLOTS];
};

/* What a run or the chooser returns beside the three numbers. */
struct ran {
    uint32_t verdict, refusal, taken;
};

/* Takes over the subproblems of an agenda that obey the rules. */
INLINED void enter_lanes(struct search *s, int n, struct rows *rows, const uint8_t *agenda)
{
    uint32_t k;
    int i;
    s->n = n;
    s->rows = rows;
    for (k = 0; k < s->subproblems; k++, agenda += 2 * (n + 2)) {
        for (i = 0; i < n; i++)
            s->slot[k][i] = word_at(agenda, (size_t)i);
        for (; i < MOST_VARIABLES; i++)
            s->slot[k][i] = ALL_BITS;
        s->marked[k] = marks_at(agenda, n);
    }
}

/* ---- The house chooser --------------------------------------------------------------------------------------------------- */

/* The greatest key of all lanes, and the number of values in all. A key is 16 less the number of values, then 31 less the
   variable's number, so that the greatest is the one chosen; an instantiated variable has 0. */
INLINED int greatest_key(const word *P, uint32_t marked, int lanes, word *total)
{
    const word low = (word)marked, high = (word)(marked >> 16);
    int16_t greatest = INT16_MIN;
    word sum = 0;
    int k;
    LANES (k, 0, lanes < 16 ? lanes : 16) {
        word values = count(P[k]);
        int16_t key = (int16_t)((low & BIT[k]) == 0 ? (16 << 5 | 31) - LANE[k] - (values << 5) : 0);
        sum = (word)(sum + values);
        greatest = key > greatest ? key : greatest;
        if (lanes > 16) {
            values = count(P[k + 16]);
            key = (int16_t)((high & BIT[k]) == 0 ? (16 << 5 | 15) - LANE[k] - (values << 5) : 0);
            sum = (word)(sum + values);
            greatest = key > greatest ? key : greatest;
        }
    }
    *total = sum;
    return greatest;
}

/* Whether a mask of P is empty once it is cut to the row. */
INLINED int empties(const word *P, const word *row, int lanes)
{
    word empty = 0;
    int k;
    LANES (k, 0, lanes)
        empty |= (word)-((P[k] & row[k]) == 0);
    return empty != 0;
}

/* Of up to 16 lanes, the variables that hold a value outside the row, as bits of their half. */
INLINED uint32_t outside_half(const word *P, const word *row, int from, int to)
{
    word set = 0;
    int k;
    LANES (k, from, to)
        set |= (word)((P[k] & ~row[k]) == 0 ? 0 : BIT[k]);
    return set;
}

/* The variables that hold a value outside the row. */
INLINED uint32_t outside(const word *P, const word *row, int lanes)
{
    uint32_t low = outside_half(P, row, 0, lanes < 16 ? lanes : 16);
    return lanes <= 16 ? low : low | outside_half(P, row, 16, lanes) << 16;
}

/* A piece cut to a row: the precluded piece, or the extraction target. */
INLINED void cut_to(word *piece, const word *P, const word *row, int lanes)
{
    int k;
    LANES (k, 0, lanes)
        piece[k] = P[k] & row[k];
}

/* A further piece of kinds 3 and 5: variables before j cut to the row, j to what lies outside it, the others as they are. */
INLINED void further_piece(word *piece, const word *P, const word *row, int j, int lanes)
{
    const word *at_j = ONE_LANE + MOST_VARIABLES - j, *after_j = LANES_AFTER + MOST_VARIABLES - j;
    int k;
    LANES (k, 0, lanes)
        piece[k] = (word)(P[k] & ((row[k] ^ at_j[k]) | after_j[k]));
}

/* P without the value of V's row in V, and the row with all bits at V: what the further pieces of kind 3 are cut from and by. */
INLINED void without_value(word *P_less, word *row_less, const word *P, const word *row, int V, int lanes)
{
    const word *at_V = ONE_LANE + MOST_VARIABLES - V;
    int k;
    LANES (k, 0, lanes) {
        P_less[k] = (word)(P[k] & ~(row[k] & at_V[k]));
        row_less[k] = row[k] | at_V[k];
    }
}

/* Places the pieces of kind 3, the top one in slot top; the variables of set have one each below it. */
INLINED void place_disjunction(struct search *s, const word *P, const word *row, int V, uint32_t set, int top, uint32_t marked, int lanes)
{
    word P_less[MOST_VARIABLES], row_less[MOST_VARIABLES];
    without_value(P_less, row_less, P, row, V, lanes);
    cut_to(s->slot[top], P, row, lanes);
    s->marked[top] = marked | 1u << V;
    for (; set != 0; set &= set - 1) {
        further_piece(s->slot[--top], P_less, row_less, lowest(set), lanes);
        s->marked[top] = marked;
    }
}

/* The chooser for up to limit steps. The number of lanes is a constant at each use. */
INLINED struct ran choose_in(struct search *s, uint32_t limit, const int lanes)
{
    const uint32_t all = first_bits(s->n), left = MOST_STEPS - s->steps, most = limit < left ? limit : left;
    const uint32_t spare = (uint32_t)(MOST_VALUES * (lanes - s->n));
    const int slots = s->slots;
    struct rows *rows = s->rows;
    struct ran ran = {RUNNING, 0, 0};
    uint64_t checks = s->checks;
    uint32_t taken = 0;
    int m = (int)s->subproblems;

    while (m > 0 && s->marked[m - 1] != all && taken < most) {
        word *P = s->slot[m - 1];
        word total;
        int key = greatest_key(P, s->marked[m - 1], lanes, &total);
        int V = ~key & 31, values = 16 - (key >> 5);
        const word *row = row_of(rows, V, lowest(P[V]));
        if (empties(P, row, lanes)) {
            /* kind 2, the precluded piece dropped: V without v, or nothing */
            if (values > 1)
                P[V] &= (word)(P[V] - 1);
            else
                m--;
        } else if (values == 1) {
            /* kind 3, V without v empty: the precluded piece alone */
            cut_to(P, P, row, lanes);
            s->marked[m - 1] |= 1u << V;
        } else {
            uint32_t set = outside(P, row, lanes) & ~(1u << V);
            int top = m - 1 + count_of_set(set);
            if (top < slots) {
                place_disjunction(s, P, row, V, set, top, s->marked[m - 1], lanes);
                m = top + 1;
            } else if (m < slots) {
                /* kind 2 for want of room */
                cut_to(s->slot[m], P, row, lanes);
                s->marked[m] = s->marked[m - 1] | 1u << V;
                P[V] &= (word)(P[V] - 1);
                m++;
            } else {
                ran.refusal = 12;
                break;
            }
        }
        checks += total - spare - (uint32_t)values;
        taken++;
    }

    ran.verdict = m == 0 ? UNSOLVABLE : s->marked[m - 1] == all ? SOLVED : RUNNING;
    if (ran.verdict == RUNNING && ran.refusal == 0 && taken < limit)
        ran.refusal = 11;
    ran.taken = taken;
    s->steps += taken;
    s->checks = checks;
    s->subproblems = (uint32_t)m;
    return ran;
}

/* The chooser for up to limit steps. */
static struct ran choose(struct search *s, uint32_t limit)
{
    if (s->n <= 8)
        return choose_in(s, limit, 8);
    if (s->n <= 16)
        return choose_in(s, limit, 16);
    return choose_in(s, limit, 32);
}

#endif
