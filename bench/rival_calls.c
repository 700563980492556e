/* The rival's calls: the first checks on every call, then the requests, the chooser or the blocks, on the lent bytes as they stand. */

#include "rival_calls.h"
#include "rival_core.h"

/* What a call is lent, once 1 to 3 are passed. */
struct lent {
    int n, d;
    const uint8_t *domains, *tables;
    uint8_t *agenda;
    size_t slots, slot_bytes;
};

/* ---- The first checks -------------------------------------------------------------------------------------------------------- */

/* 1 to 3. */
static uint32_t lengths_refusal(uint32_t n, uint32_t d, size_t domains, size_t tables, size_t agenda, size_t requests)
{
    size_t slot;
    if (n < 1 || n > MOST_VARIABLES)
        return 1;
    if (d < 1 || d > MOST_VALUES)
        return 2;
    slot = 2 * ((size_t)n + 2);
    if (domains != 2 * (size_t)n || tables != 2 * (size_t)n * n * d)
        return 3;
    if (agenda % slot != 0 || agenda == 0 || agenda > MOST_SLOTS * slot)
        return 3;
    return requests % (2 * ((size_t)n + 3)) != 0 ? 3 : 0;
}

/* 4 and 5: the masks of each pair, whole, against those of the pair the other way round. */
INLINED uint32_t problem_refusal(const uint8_t *domains, const uint8_t *tables, int n, int d)
{
    struct matrix bits = {{0}}, one_way = {{0}};
    word values = 0;
    int i, j, k;
    for (i = 0; i < n; i++)
        values |= word_at(domains, (size_t)i);
    for (i = 0; i < n; i++)
        for (j = i + 1; j < n; j++) {
            struct matrix rows = rows_at(tables + pair_at(n, d, i, j), d), back = rows_at(tables + pair_at(n, d, j, i), d);
            struct matrix columns = turned(back);
            LANES (k, 0, MOST_VALUES) {
                bits.row[k] |= rows.row[k] | back.row[k];
                one_way.row[k] |= rows.row[k] ^ columns.row[k];
            }
        }
    if (values > first_bits(d) || bits_of(&bits) > first_bits(d))
        return 4;
    return bits_of(&one_way) != 0 ? 5 : 0;
}

/* 6: the three numbers, the subproblems, and zeros in the unused slots. */
INLINED uint32_t search_refusal(const struct lent *l, uint32_t steps, uint64_t checks, uint32_t subproblems, struct rows *rows, int n)
{
    word unused = 0;
    size_t k;
    if (subproblems > l->slots || checks > (uint64_t)CHECKS_IN_A_STEP * steps)
        return 6;
    for (k = subproblems * (size_t)(n + 2); k < l->slots * (size_t)(n + 2); k++)
        unused |= word_at(l->agenda, k);
    return unused != 0 || !subproblems_obey(l->agenda, subproblems, l->domains, rows, n) ? 6 : 0;
}

/* 4 to 6, with n and d constants where they are the largest; some rows are made. */
static uint32_t handed_refusal(const struct lent *l, uint32_t steps, uint64_t checks, uint32_t subproblems, struct rows *rows)
{
    uint32_t refusal;
    begin_rows(rows, l->n, l->d, l->tables);
    if (l->n == 32 && l->d == 16) {
        refusal = problem_refusal(l->domains, l->tables, 32, 16);
        return refusal != 0 ? refusal : search_refusal(l, steps, checks, subproblems, rows, 32);
    }
    refusal = problem_refusal(l->domains, l->tables, l->n, l->d);
    return refusal != 0 ? refusal : search_refusal(l, steps, checks, subproblems, rows, l->n);
}

/* What is lent, by numbers that 1 to 3 let through. */
static struct lent lend(uint32_t n, uint32_t d, const uint8_t *domains, const uint8_t *tables, uint8_t *agenda, size_t agenda_length)
{
    struct lent l = {(int)n, (int)d, domains, tables, agenda, 0, 2 * ((size_t)n + 2)};
    l.slots = agenda_length / l.slot_bytes;
    return l;
}

/* ---- One request ------------------------------------------------------------------------------------------------------------- */

/* A search under way: the top subproblem in lanes, and the three numbers. */
struct state {
    word P[MOST_VARIABLES];
    uint32_t marked, steps, subproblems;
    uint64_t checks;
};

/* The pieces of a split: top, the one first named, which is there if first is not 0; below it one for each variable of set, cut
   from P by row as further_piece does, with P's marks. */
struct pieces {
    word P[MOST_VARIABLES], row[MOST_VARIABLES], top[MOST_VARIABLES];
    uint32_t set, top_marked, marked, checks;
    int first;
};

/* Writes a subproblem into a slot. */
INLINED void write_slot(const struct lent *l, size_t slot, const word *masks, uint32_t marked, int n)
{
    uint8_t *to = l->agenda + slot * l->slot_bytes;
    int k;
    for (k = 0; k < n; k++)
        put_word(to, (size_t)k, masks[k]);
    put_word(to, (size_t)n, (word)(marked >> 16));
    put_word(to, (size_t)n + 1, (word)marked);
}

/* Reads the top subproblem. */
INLINED void read_top(const struct lent *l, struct state *s, int n)
{
    const uint8_t *from = l->agenda + (s->subproblems - 1) * l->slot_bytes;
    int k;
    for (k = 0; k < n; k++)
        s->P[k] = word_at(from, (size_t)k);
    s->marked = marks_at(from, n);
}

/* The values of a mask that are its smallest, the odd one with them. */
static word smaller_half(word mask)
{
    word rest = mask;
    int half = (count(mask) + 1) / 2;
    while (half-- > 0)
        rest &= (word)(rest - 1);
    return mask & (word)~rest;
}

/* Kind 1's look at the instantiated variables: how many are looked at; whether one forbids v. */
static uint32_t looked_at(const struct lent *l, const struct state *s, int V, int v, int *forbidden)
{
    uint32_t looked = 0, marked = s->marked;
    for (*forbidden = 0; marked != 0 && !*forbidden; marked &= marked - 1) {
        int i = lowest(marked);
        looked++;
        *forbidden = (s->P[i] & ~word_at(l->tables + pair_at(l->n, l->d, V, i), (size_t)v)) != 0;
    }
    return looked;
}

/* The variables of a set up to the first that the row empties: a piece of a later one has that empty mask too. */
static uint32_t up_to_first(uint32_t set, uint32_t empty)
{
    return empty == 0 ? set : set & ((empty & -empty) * 2 - 1);
}

/* Kinds 2 and 3: the precluded piece, and V without v, whole or in parts. */
INLINED void precluding_pieces(const struct lent *l, const struct state *s, int kind, int V, int v, struct pieces *made, int n, int d)
{
    const word rest = (word)(s->P[V] & ~(1u << v));
    uint32_t empty = 0, out = 0, total = 0;
    int k;
    for (k = 0; k < n; k++) {
        word row = k == V ? (word)(1u << v) : word_at(l->tables + pair_at(n, d, V, k), (size_t)v);
        made->row[k] = row;
        made->top[k] = s->P[k] & row;
    }
    for (k = 0; k < n; k++) {
        empty |= (uint32_t)(made->top[k] == 0) << k;
        out |= (uint32_t)((s->P[k] & ~made->row[k]) != 0) << k;
        total += count(s->P[k]);
    }
    memcpy(made->P, s->P, sizeof made->P);
    made->first = empty == 0;
    made->top_marked = s->marked | 1u << V;
    made->checks = total - count(s->P[V]);
    if (kind == 2) {
        made->set = rest != 0 ? 1u << V : 0;
        for (k = 0; k < V; k++)
            made->row[k] = ALL_BITS;
    } else {
        made->set = rest != 0 ? up_to_first(out & ~(1u << V), empty) : 0;
        made->P[V] = rest;
        made->row[V] = ALL_BITS;
    }
}

/* Kinds 1 and 4: V at some values, then V without them. */
INLINED void halves(const struct state *s, int V, word first, uint32_t top_marked, struct pieces *made)
{
    memcpy(made->P, s->P, sizeof made->P);
    memset(made->row, 0xFF, sizeof made->row);
    made->row[V] = first;
    made->set = s->P[V] != first ? 1u << V : 0;
    made->top_marked = top_marked;
    made->first = 1;
}

/* Kind 5: the target, then for each variable that it narrows what lies outside it. */
INLINED void extraction(const struct state *s, const uint8_t *targets, struct pieces *made, int n)
{
    int k;
    memcpy(made->P, s->P, sizeof made->P);
    made->set = 0;
    for (k = 0; k < n; k++) {
        made->row[k] = word_at(targets, (size_t)k);
        made->set |= (uint32_t)(made->row[k] != s->P[k]) << k;
    }
    made->top_marked = s->marked;
    made->first = 1;
}

/* 10, of the targets. */
INLINED int targets_wrong(const struct state *s, const uint8_t *targets, int n)
{
    word wrong = 0, unlike = 0;
    int k;
    for (k = 0; k < n; k++) {
        word target = word_at(targets, (size_t)k);
        wrong |= (word)((target & ~s->P[k]) | -(target == 0));
        unlike |= target ^ s->P[k];
    }
    return wrong != 0 || unlike == 0;
}

/* 11 and 7 to 10. */
INLINED uint32_t request_refusal(const struct state *s, const uint8_t *request, int n, int d)
{
    const word kind = word_at(request, 0), V = word_at(request, 1), v = word_at(request, 2);
    if (s->steps == MOST_STEPS)
        return 11;
    if (kind < 1 || kind > 5)
        return 7;
    if (kind == 5)
        return targets_wrong(s, request + 6, n) ? 10 : 0;
    if (V >= n || (s->marked >> V & 1) != 0)
        return 8;
    if (kind == 4)
        return (s->P[V] & (s->P[V] - 1)) == 0 ? 9 : 0;
    return v >= d || (s->P[V] >> v & 1) == 0 ? 9 : 0;
}

/* The pieces of a request that 7 to 10 let through. */
INLINED void split(const struct lent *l, const struct state *s, const uint8_t *request, struct pieces *made, int n, int d)
{
    const int kind = word_at(request, 0), V = word_at(request, 1), v = word_at(request, 2);
    made->checks = 0;
    made->marked = s->marked;
    if (kind == 1) {
        int forbidden;
        halves(s, V, (word)(1u << v), s->marked | 1u << V, made);
        made->checks = looked_at(l, s, V, v, &forbidden);
        made->first = !forbidden;
    } else if (kind <= 3) {
        precluding_pieces(l, s, kind, V, v, made, n, d);
        return;
    } else if (kind == 4) {
        halves(s, V, smaller_half(s->P[V]), s->marked, made);
    } else {
        extraction(s, request + 6, made, n);
    }
    cut_to(made->top, made->P, made->row, n);
}

/* Places the pieces in the stead of the top subproblem, a slot that is left zero; leaves the new top in s. */
INLINED void place(const struct lent *l, struct state *s, const struct pieces *made, int n)
{
    const size_t bottom = s->subproblems - 1, further = (size_t)count_of_set(made->set);
    uint32_t set = made->set;
    size_t slot = bottom + further;
    s->subproblems = (uint32_t)(slot + (size_t)made->first);
    if (made->first)
        write_slot(l, slot, made->top, made->top_marked, n);
    for (; set != 0; set &= set - 1) {
        word piece[MOST_VARIABLES];
        further_piece(piece, made->P, made->row, lowest(set), n);
        write_slot(l, --slot, piece, made->marked, n);
    }
    if (s->subproblems == bottom)
        memset(l->agenda + bottom * l->slot_bytes, 0, l->slot_bytes);
}

/* The verdict of the state; the top subproblem, if there is one, is read. */
INLINED uint32_t verdict_of(const struct lent *l, struct state *s, int n)
{
    if (s->subproblems == 0)
        return UNSOLVABLE;
    read_top(l, s, n);
    return s->marked == first_bits(n) ? SOLVED : RUNNING;
}

/* A run of whole requests. */
INLINED struct ran run_list(const struct lent *l, struct state *s, const uint8_t *requests, size_t number, int n, int d)
{
    struct ran ran = {verdict_of(l, s, n), 0, 0};
    struct pieces made;
    while (ran.verdict == RUNNING && ran.taken < number) {
        ran.refusal = request_refusal(s, requests, n, d);
        if (ran.refusal != 0)
            break;
        split(l, s, requests, &made, n, d);
        if (s->subproblems - 1 + (size_t)count_of_set(made.set) + (size_t)made.first > l->slots) {
            ran.refusal = 12;
            break;
        }
        place(l, s, &made, n);
        s->steps++;
        s->checks += made.checks;
        requests += 2 * (n + 3);
        ran.taken++;
        ran.verdict = verdict_of(l, s, n);
    }
    return ran;
}

/* ---- The calls --------------------------------------------------------------------------------------------------------------- */

uint32_t rival_open(uint32_t n, uint32_t d, const uint8_t *domains, size_t domains_length, const uint8_t *tables, size_t tables_length,
                    uint8_t *agenda, size_t agenda_length, uint32_t *steps, uint64_t *checks, uint32_t *subproblems)
{
    uint32_t refusal = lengths_refusal(n, d, domains_length, tables_length, agenda_length, 0);
    uint32_t k;
    *steps = 0;
    *checks = 0;
    *subproblems = 0;
    if (refusal == 0)
        refusal = problem_refusal(domains, tables, (int)n, (int)d);
    if (refusal != 0)
        return refusal;
    memset(agenda, 0, agenda_length);
    for (k = 0; k < n; k++)
        if (word_at(domains, k) == 0)
            return 0;
    memcpy(agenda, domains, domains_length);
    *subproblems = 1;
    return 0;
}

uint32_t rival_run(uint32_t n, uint32_t d, const uint8_t *domains, size_t domains_length, const uint8_t *tables, size_t tables_length,
                   uint8_t *agenda, size_t agenda_length, const uint8_t *requests, size_t requests_length, uint32_t *steps,
                   uint64_t *checks, uint32_t *subproblems, uint32_t *verdict, uint32_t *taken)
{
    uint32_t refusal = lengths_refusal(n, d, domains_length, tables_length, agenda_length, requests_length);
    struct state s;
    struct rows rows;
    struct lent l;
    struct ran ran;
    size_t number;
    *verdict = NONE;
    *taken = 0;
    if (refusal != 0)
        return refusal;
    l = lend(n, d, domains, tables, agenda, agenda_length);
    refusal = handed_refusal(&l, *steps, *checks, *subproblems, &rows);
    if (refusal != 0)
        return refusal;
    s.steps = *steps;
    s.checks = *checks;
    s.subproblems = *subproblems;
    number = requests_length / (2 * ((size_t)n + 3));
    ran = n == 32 && d == 16 ? run_list(&l, &s, requests, number, 32, 16) : run_list(&l, &s, requests, number, (int)n, (int)d);
    *steps = s.steps;
    *checks = s.checks;
    *subproblems = s.subproblems;
    *verdict = ran.verdict;
    *taken = ran.taken;
    return ran.refusal;
}

uint32_t rival_choose(uint32_t n, uint32_t d, const uint8_t *domains, size_t domains_length, const uint8_t *tables, size_t tables_length,
                      uint8_t *agenda, size_t agenda_length, uint32_t limit, uint32_t *steps, uint64_t *checks, uint32_t *subproblems,
                      uint32_t *verdict, uint32_t *taken)
{
    static struct search search; /* one call at a time */
    uint32_t refusal = lengths_refusal(n, d, domains_length, tables_length, agenda_length, 0);
    struct rows rows;
    struct lent l;
    struct ran ran;
    uint32_t k;
    *verdict = NONE;
    *taken = 0;
    if (refusal != 0)
        return refusal;
    l = lend(n, d, domains, tables, agenda, agenda_length);
    refusal = handed_refusal(&l, *steps, *checks, *subproblems, &rows);
    if (refusal != 0)
        return refusal;
    search.steps = *steps;
    search.checks = *checks;
    search.subproblems = *subproblems;
    search.slots = (int)l.slots;
    enter_lanes(&search, (int)n, &rows, agenda);
    ran = choose(&search, limit);
    for (k = 0; k < search.subproblems; k++)
        write_slot(&l, k, search.slot[k], search.marked[k], (int)n);
    for (; k < *subproblems; k++)
        memset(agenda + k * l.slot_bytes, 0, l.slot_bytes);
    *steps = search.steps;
    *checks = search.checks;
    *subproblems = search.subproblems;
    *verdict = ran.verdict;
    *taken = ran.taken;
    return ran.refusal;
}

/* Where the words of a file go: the block that is filled, and the words that it has. */
struct writer {
    uint8_t *block;
    uint32_t words, number, blocks;
};

/* Ends a block: zeros in what is left of it, and its check. */
static void end_block(struct writer *w)
{
    memset(w->block + 4 + 2 * w->words, 0, 2 * (size_t)(CONTENT_WORDS - w->words));
    put_word(w->block, BLOCK_BYTES / 2 - 1, check_of(w->block));
}

/* Writes a word of the content, and before the first of a block its number and their count. */
static void write_word(struct writer *w, word content)
{
    if (w->words == CONTENT_WORDS) {
        end_block(w);
        w->block += BLOCK_BYTES;
        w->words = 0;
        w->number++;
    }
    if (w->words == 0) {
        put_word(w->block, 0, (word)(w->number << 8));
        put_word(w->block, 1, (word)(w->blocks << 8));
    }
    put_word(w->block, w->words + 2, (word)(content << 8 | content >> 8));
    w->words++;
}

/* Writes lent words. */
static void write_words(struct writer *w, const uint8_t *words, size_t number)
{
    size_t k;
    for (k = 0; k < number; k++)
        write_word(w, word_at(words, k));
}

uint32_t rival_save(uint32_t n, uint32_t d, const uint8_t *domains, size_t domains_length, const uint8_t *tables, size_t tables_length,
                    const uint8_t *agenda, size_t agenda_length, uint32_t steps, uint64_t checks, uint32_t subproblems, uint8_t *file,
                    size_t file_length, uint32_t *blocks)
{
    uint32_t refusal = lengths_refusal(n, d, domains_length, tables_length, agenda_length, 0);
    struct writer w = {file, 0, 1, 0};
    struct rows rows;
    struct lent l;
    size_t words;
    uint32_t i;
    int k;
    *blocks = 0;
    if (refusal != 0)
        return refusal;
    l = lend(n, d, domains, tables, (uint8_t *)agenda, agenda_length);
    refusal = handed_refusal(&l, steps, checks, subproblems, &rows);
    if (refusal != 0)
        return refusal;
    words = HEAD_WORDS + n + (size_t)n * (n - 1) / 2 * d + (size_t)subproblems * (n + 2);
    w.blocks = (uint32_t)((words + CONTENT_WORDS - 1) / CONTENT_WORDS);
    if (file_length < (size_t)w.blocks * BLOCK_BYTES)
        return 13;
    write_word(&w, (word)n);
    write_word(&w, (word)d);
    write_word(&w, (word)(steps >> 16));
    write_word(&w, (word)steps);
    for (k = 48; k >= 0; k -= 16)
        write_word(&w, (word)(checks >> k));
    write_word(&w, (word)subproblems);
    write_words(&w, domains, n);
    for (i = 0; i + 1 < n; i++)
        write_words(&w, tables + pair_at((int)n, (int)d, (int)i, (int)i + 1), (size_t)(n - 1 - i) * d);
    write_words(&w, agenda, (size_t)subproblems * (n + 2));
    end_block(&w);
    *blocks = w.blocks;
    return 0;
}

/* 3 and 12, of the memory lent to a load. */
static uint32_t room_refusal(const struct saved *s, size_t domains, size_t tables, size_t agenda)
{
    uint32_t refusal = lengths_refusal((uint32_t)s->n, (uint32_t)s->d, domains, tables, agenda, 0);
    if (refusal != 0)
        return refusal;
    return s->subproblems > agenda / (2 * ((size_t)s->n + 2)) ? 12 : 0;
}

uint32_t rival_load(const uint8_t *file, size_t file_length, uint8_t *domains, size_t domains_length, uint8_t *tables,
                    size_t tables_length, uint8_t *agenda, size_t agenda_length, uint32_t *n, uint32_t *d, uint32_t *steps,
                    uint64_t *checks, uint32_t *subproblems)
{
    static struct saved saved; /* one call at a time */
    size_t blocks = blocks_in(file, file_length), used;
    uint32_t refusal = blocks == 0 ? 14 : read_saved(&saved, file, blocks);
    *n = *d = *steps = *subproblems = 0;
    *checks = 0;
    if (refusal == 0)
        refusal = room_refusal(&saved, domains_length, tables_length, agenda_length);
    if (refusal != 0)
        return refusal;
    used = saved.subproblems * 2 * ((size_t)saved.n + 2);
    memcpy(domains, saved.domains, domains_length);
    memcpy(tables, saved.tables, tables_length);
    memcpy(agenda, saved.agenda, used);
    memset(agenda + used, 0, agenda_length - used);
    *n = (uint32_t)saved.n;
    *d = (uint32_t)saved.d;
    *steps = saved.steps;
    *checks = saved.checks;
    *subproblems = saved.subproblems;
    return 0;
}
