"""Random inputs for the tests, good and bad, all drawn from one generator with a fixed seed.

Each fault below breaks one rule of document 01 in something that was right, and says False where it
cannot (a bit above d where d is 16, say), so that the caller draws again.
"""

import reference as r

FAR_NUMBERS = (33, 34, 64, 255, 65535, 65536, 65537, 1 << 31, (1 << 32) - 1)
FAR_WORDS = (33, 34, 255, 256, 32767, 32768, 65535)


# ---- Problems and subproblems ---------------------------------------------------------------------

def random_mask(rng, d, density):
    """A mask below d; density 0 to 4 goes from few values to many."""
    bits = [rng.getrandbits(d) for _ in range(3)]
    return (bits[0] & bits[1] & bits[2], bits[0] & bits[1], bits[0], bits[0] | bits[1],
            bits[0] | bits[1] | bits[2])[density]


def nonempty_part(rng, mask):
    """A part of a mask with at least one value."""
    part = mask & rng.getrandbits(16)
    return part if part else 1 << rng.choice(r.values(mask))


def pair_masks(rng, d, density):
    """The allowed masks of one pair: no constraint, unequal values, or at random."""
    style = rng.randrange(4)
    if style == 0:
        return [(1 << d) - 1] * d
    if style == 1:
        return [((1 << d) - 1) & ~(1 << a) for a in range(d)]
    return [random_mask(rng, d, density) for _ in range(d)]


def random_tables(rng, n, d, density):
    """Symmetric tables, with anything at the places for i with itself."""
    tables = [rng.getrandbits(16) for _ in range(n * n * d)]
    for i, j in r.pairs(n):
        masks = pair_masks(rng, d, density)
        for a in range(d):
            tables[(i * n + j) * d + a] = masks[a]
            tables[(j * n + i) * d + a] = sum(1 << b for b in range(d) if r.has(masks[b], a))
    return tables


def random_problem(rng, n, d, density=None, empty_chance=0.0):
    """A problem that obeys the rules; a domain is empty only by the given chance."""
    density = rng.randrange(5) if density is None else density
    domains = [nonempty_part(rng, (1 << d) - 1) if rng.random() < 0.5 else (1 << d) - 1
               for _ in range(n)]
    if rng.random() < empty_chance:
        domains[rng.randrange(n)] = 0
    return r.Problem(n, d, tuple(domains), tuple(random_tables(rng, n, d, density)))


def random_subproblem(rng, problem):
    """A subproblem that may stand on the agenda: parts of the domains, some variables instantiated."""
    made = r.Subproblem(tuple(nonempty_part(rng, mask) for mask in problem.domains), frozenset())
    for i in rng.sample(range(problem.n), rng.randrange(problem.n + 1)):
        trial = r.instantiate(made, i, rng.choice(r.values(made.domains[i])))
        if r.mutually_allowed(problem, trial):
            made = trial
    return made


def random_agenda(rng, problem, number):
    """So many subproblems of the problem; none where a domain of it is empty."""
    if 0 in problem.domains:
        return []
    return [random_subproblem(rng, problem) for _ in range(number)]


# ---- Requests -------------------------------------------------------------------------------------

def anything(rng, n):
    """Targets that the kind does not read."""
    return tuple(rng.choice((0, 1, 65535, rng.getrandbits(16))) for _ in range(n))


def good_request(rng, problem, P, kind):
    """A request of this kind that 7 to 10 let through, or None where there is none."""
    free = [i for i in range(problem.n) if i not in P.marked]
    wide = [i for i in range(problem.n) if r.count(P.domains[i]) > 1]
    junk = rng.choice((0, rng.getrandbits(16)))
    if kind in (1, 2, 3) and free:
        V = rng.choice(free)
        return r.Request(kind, V, rng.choice(r.values(P.domains[V])), anything(rng, problem.n))
    if kind == 4 and wide:
        return r.Request(kind, rng.choice(wide), junk, anything(rng, problem.n))
    if kind == 5 and wide:
        targets = [nonempty_part(rng, mask) if rng.random() < 0.6 else mask for mask in P.domains]
        i = rng.choice(wide)
        targets[i] = P.domains[i] & ~(1 << rng.choice(r.values(P.domains[i])))
        return r.Request(kind, junk, rng.getrandbits(16), tuple(targets))
    return None


def any_good_request(rng, problem, P):
    """A request of a random kind that 7 to 10 let through; a running search always has one."""
    kinds = rng.sample((1, 2, 3, 4, 5), 5)
    made = [good_request(rng, problem, P, kind) for kind in kinds]
    return [request for request in made if request][0]


def request_refused_7(rng, problem, P):
    """A kind that is not 1 to 5."""
    kind = rng.choice((0, 6, 7, 255, 256, 257, 258, 65535))
    return any_good_request(rng, problem, P)._replace(kind=kind)


def request_refused_8(rng, problem, P):
    """V out of range or instantiated; v and the targets are anything."""
    outside = [problem.n, problem.n + 1, 32, 65535, 256 + rng.randrange(problem.n)]
    outside = [V for V in outside if V >= problem.n]
    inside = sorted(P.marked)
    V = rng.choice(inside) if inside and rng.random() < 0.5 else rng.choice(outside)
    return r.Request(rng.randrange(1, 5), V, rng.choice((0, rng.getrandbits(16))), anything(rng, problem.n))


def request_refused_9(rng, problem, P):
    """v out of range or not in V's domain; or a domain of one value halved."""
    free = [i for i in range(problem.n) if i not in P.marked]
    single = [i for i in free if r.count(P.domains[i]) == 1]
    V = rng.choice(free)
    missing = [v for v in range(problem.d) if not r.has(P.domains[V], v)]
    style = rng.randrange(3)
    if style == 0 and single:
        return r.Request(4, rng.choice(single), rng.getrandbits(16), anything(rng, problem.n))
    if style == 1 and missing:
        return r.Request(rng.randrange(1, 4), V, rng.choice(missing), anything(rng, problem.n))
    far = rng.choice((problem.d, problem.d + 1, 16, 17, 32, 65535, 256 + r.values(P.domains[V])[0]))
    return r.Request(rng.randrange(1, 4), V, max(far, problem.d), anything(rng, problem.n))


def request_refused_10(rng, problem, P):
    """A target empty, or not part of P's domain, or all equal P's; the others are narrowed or not."""
    style = rng.randrange(3)
    targets = list(P.domains)
    if style > 0 and rng.random() < 0.5:
        targets = [nonempty_part(rng, mask) for mask in P.domains]
    i = rng.randrange(problem.n)
    outside = [bit for bit in range(16) if not r.has(P.domains[i], bit)]
    if style == 1 or (style == 2 and not outside):
        targets[i] = 0
    elif style == 2:
        targets[i] |= 1 << rng.choice(outside)
    return r.Request(5, rng.getrandbits(16), rng.getrandbits(16), tuple(targets))


REFUSED_REQUESTS = {7: request_refused_7, 8: request_refused_8, 9: request_refused_9, 10: request_refused_10}


def words_of_requests(requests):
    """The words of a request list."""
    words = []
    for request in requests:
        words += [request.kind, request.V, request.v] + list(request.targets)
    return words


# ---- Searches -------------------------------------------------------------------------------------

def opened(problem, slots):
    """A fresh search on so many slots."""
    whole = r.Subproblem(problem.domains, frozenset())
    return r.Search(problem, slots, [] if r.is_empty(whole) else [whole], 0, 0)


def is_running(search):
    """Whether the search can take a request."""
    return r.verdict_of(search.problem, search.agenda) == r.RUNNING


def walked(rng, search, steps):
    """The search after up to so many random requests, and the requests that it took."""
    taken = []
    for _ in range(steps):
        if not is_running(search):
            break
        request = any_good_request(rng, search.problem, search.agenda[-1])
        refusal, search = r.step(search, request)
        if not refusal:
            taken.append(request)
    return search, taken


def random_counts(rng):
    """Steps and checks that a search may say, at the edges too."""
    steps = rng.choice((0, 1, rng.randrange(1000), rng.getrandbits(32), r.MOST_STEPS))
    checks = rng.choice((0, r.CHECKS_IN_A_STEP * steps, rng.randrange(r.CHECKS_IN_A_STEP * steps + 1)))
    return steps, checks


def random_slots(rng, least):
    """A number of slots, often just enough."""
    return min(512, max(1, least + rng.choice((0, 0, 1, 2, 3, rng.randrange(8), rng.randrange(64)))))


def random_search(rng, problem):
    """A search that obeys the rules: begun by opening, or with an agenda from anywhere."""
    if rng.random() < 0.5:
        search = walked(rng, opened(problem, 512), rng.randrange(6))[0]
        return search._replace(slots=random_slots(rng, len(search.agenda)))
    agenda = random_agenda(rng, problem, rng.choice((0, 1, 1, 2, 3, rng.randrange(8))))
    steps, checks = random_counts(rng)
    return r.Search(problem, random_slots(rng, len(agenda)), agenda, steps, checks)


# ---- Faults in a slot's words, shared by 6 and 15 -------------------------------------------------

def slot_empty_domain(rng, problem, slot):
    """An empty domain, of a variable that is not instantiated."""
    marked = r.subproblem_of_words(problem.n, slot).marked
    free = [i for i in range(problem.n) if i not in marked]
    if not free:
        return False
    slot[rng.choice(free)] = 0
    return True


def slot_not_part(rng, problem, slot):
    """A domain with a value that the problem's does not have."""
    marked = r.subproblem_of_words(problem.n, slot).marked
    places = [(i, bit) for i in range(problem.n) if i not in marked
              for bit in range(16) if not r.has(problem.domains[i], bit)]
    if not places:
        return False
    i, bit = rng.choice(places)
    slot[i] |= 1 << bit
    return True


def slot_mark(slot, n, i):
    """Marks a variable in a slot's words."""
    slot[n if i >= 16 else n + 1] |= 1 << (i % 16)


def slot_mark_outside(rng, problem, slot):
    """A mark at n or above."""
    if problem.n == 32:
        return False
    slot_mark(slot, problem.n, rng.randrange(problem.n, 32))
    return True


def slot_mark_wide(rng, problem, slot):
    """An instantiated domain with more than one value."""
    wide = [i for i in range(problem.n) if r.count(slot[i]) > 1]
    if not wide:
        return False
    slot_mark(slot, problem.n, rng.choice(wide))
    return True


def forbidden_pairs(problem):
    """The pairs of values, in the domains, that are not allowed beside each other."""
    return [(i, a, j, b) for i, j in r.pairs(problem.n)
            for a in r.values(problem.domains[i])
            for b in r.values(problem.domains[j] & ~r.allowed(problem, i, a, j))]


def slot_forbidden(rng, problem, slot):
    """Two instantiated values that are not allowed beside each other."""
    forbidden = forbidden_pairs(problem)
    if not forbidden:
        return False
    i, a, j, b = rng.choice(forbidden)
    slot[i], slot[j] = 1 << a, 1 << b
    slot_mark(slot, problem.n, i)
    slot_mark(slot, problem.n, j)
    return True


SLOT_FAULTS = {
    "empty domain": slot_empty_domain,
    "domain not part of the problem's": slot_not_part,
    "mark at n or above": slot_mark_outside,
    "instantiated domain not one value": slot_mark_wide,
    "instantiated values not allowed": slot_forbidden,
}


def spoil_slot(rng, problem, words, start, number, fault):
    """One fault in one of the slots that stand in these words from a start on."""
    if number == 0:
        return False
    width = r.slot_words(problem.n)
    place = start + rng.randrange(number) * width
    slot = words[place:place + width]
    done = SLOT_FAULTS[fault](rng, problem, slot)
    words[place:place + width] = slot
    return done


# ---- Files and their faults -----------------------------------------------------------------------

def mended(file, block):
    """The file with the check of one block made right."""
    start = block * 512
    words = r.words_high_first(file[start:start + 510])
    return file[:start] + r.bytes_high_first(words + [r.check_of(words)]) + file[start + 512:]


def with_bit_changed(file, place):
    """The file with one bit changed."""
    changed = bytearray(file)
    changed[place // 8] ^= 1 << (place % 8)
    return bytes(changed)


def with_word(file, block, word, value):
    """The file with one word of a block changed, and nothing mended."""
    start = block * 512 + word * 2
    return file[:start] + value.to_bytes(2, "big") + file[start + 2:]


def other_word(rng, word):
    """A word unlike the one given, often near it."""
    near = [(word + 1) & 0xFFFF, (word - 1) & 0xFFFF, word ^ 0x100, word ^ 0xFFFF, rng.getrandbits(16)]
    return rng.choice([value for value in near if value != word])


def spoil_no_block(rng, file):
    """Nothing at all."""
    return b""


def spoil_not_whole(rng, file):
    """Some bytes too few or too many."""
    if rng.random() < 0.5:
        return file[:-rng.choice((1, 2, 256, 511, rng.randrange(1, 512)))]
    return file + bytes(rng.getrandbits(8) for _ in range(rng.choice((1, 2, 511, rng.randrange(1, 512)))))


def spoil_more_than_101(rng, file):
    """More than 101 blocks, each with its number, count and check right."""
    content = r.content_in(file)
    return r.file_of(content + [0] * (253 * rng.choice((102, 102, 103, 110)) - len(content)))


def spoil_check(rng, file):
    """One check wrong, or one bit that its check does not fit."""
    block = rng.randrange(len(file) // 512)
    if rng.random() < 0.5:
        place = block * 512 * 8 + rng.randrange(2 * 16, 255 * 16)
        return with_bit_changed(file, place)
    right = r.words_high_first(file)[block * 256 + 255]
    return with_word(file, block, 255, other_word(rng, right))


def spoil_number(rng, file):
    """One block's number wrong, its check mended."""
    block = rng.randrange(len(file) // 512)
    return mended(with_word(file, block, 0, other_word(rng, block + 1)), block)


def spoil_count(rng, file):
    """One block's count of blocks wrong, its check mended."""
    block = rng.randrange(len(file) // 512)
    return mended(with_word(file, block, 1, other_word(rng, len(file) // 512)), block)


FILE_FAULTS_14 = {
    "no block": spoil_no_block,
    "not whole blocks": spoil_not_whole,
    "more than 101 blocks": spoil_more_than_101,
    "check": spoil_check,
    "number": spoil_number,
    "count": spoil_count,
}


def content_n(rng, search, content):
    """n not 1 to 32."""
    content[0] = rng.choice((0,) + FAR_WORDS)
    return content


def content_d(rng, search, content):
    """d not 1 to 16."""
    content[1] = rng.choice((0, 17, 18) + FAR_WORDS)
    return content


def content_number(rng, search, content):
    """More than 512 subproblems, there or not."""
    if search.agenda and search.problem.n <= 3 and rng.random() < 0.5:
        return r.content_of(search._replace(agenda=[search.agenda[0]] * 513))
    content[8] = rng.choice((513, 514, 1024, 32768, 65535))
    return content


def content_domain_bit(rng, search, content):
    """A domain with a bit at d or above."""
    if search.problem.d == 16:
        return None
    content[9 + rng.randrange(search.problem.n)] |= 1 << rng.randrange(search.problem.d, 16)
    return content


def content_table_bit(rng, search, content):
    """An allowed mask with a bit at d or above."""
    n, d = search.problem.n, search.problem.d
    if d == 16 or n == 1:
        return None
    content[9 + n + rng.randrange(len(r.pairs(n)) * d)] |= 1 << rng.randrange(d, 16)
    return content


def content_checks(rng, search, content):
    """More checks than 496 × steps."""
    most = r.CHECKS_IN_A_STEP * search.steps
    checks = rng.choice((most + 1, most + 1 + rng.getrandbits(20), most + 65536, most + (1 << 48), (1 << 64) - 1))
    content[4:8] = r.parts_of(checks, 4)
    return content


def content_blocks(rng, search, content):
    """Words that do not fill exactly that many blocks: one too many, one too few, or a far number."""
    n = search.problem.n
    style = rng.randrange(3)
    blocks = r.blocks_for(len(content))
    if style == 0 and blocks < r.MOST_BLOCKS:
        return content + [0] * ((blocks + 1) * 253 - len(content))
    if style == 1 and blocks > 1:
        return content[:(blocks - 1) * 253]
    more = [k for k in range(513) if r.blocks_for(r.words_in_all(n, search.problem.d, k)) != blocks]
    content[8] = rng.choice(more)
    return content


def content_after(rng, search, content):
    """A word that is not zero after the last."""
    space = r.blocks_for(len(content)) * 253 - len(content)
    if space == 0:
        return None
    after = [0] * space
    after[rng.choice((0, space - 1, rng.randrange(space)))] = rng.choice((1, 256, 65535))
    return content + after


CONTENT_FAULTS = {
    "n not 1 to 32": content_n,
    "d not 1 to 16": content_d,
    "more than 512 subproblems": content_number,
    "domain bit": content_domain_bit,
    "table bit": content_table_bit,
    "more than 496 x steps checks": content_checks,
    "not exactly that many blocks": content_blocks,
    "nonzero after": content_after,
}


def spoiled_content(rng, search, fault):
    """The content of a search with one rule of 15 broken, or None where it cannot be."""
    content = r.content_of(search)
    if fault in CONTENT_FAULTS:
        return CONTENT_FAULTS[fault](rng, search, content)
    start = r.words_up_to_agenda(search.problem.n, search.problem.d)
    done = spoil_slot(rng, search.problem, content, start, len(search.agenda), fault)
    return content if done else None


FAULTS_OF_15 = list(CONTENT_FAULTS) + list(SLOT_FAULTS)


def file_with_check_0(rng, search):
    """A file of one block whose right check is 0, by the choice of its low word of steps; or None."""
    search = search._replace(steps=rng.randrange(1, 1 << 16) << 16, checks=0)
    file = r.file_of(r.content_of(search))
    if len(file) != 512:
        return None
    right = r.words_high_first(file)[255]
    search = search._replace(steps=search.steps + right)
    file = r.file_of(r.content_of(search))
    return file if r.words_high_first(file)[255] == 0 else None
