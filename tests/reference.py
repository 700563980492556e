"""A second implementation of document 01, written from its rules to be read beside them: clear, slow, plain.

The headings are document 01's, and so are the names. Words stand in plain lists of integers, and a
lent buffer is a list that a call rewrites in place. Where a refusal number has several reasons, a
function reasons_of_N lists all that apply, so that a test can tell whether it met each one alone.
"""

from collections import namedtuple

MOST_VARIABLES = 32
MOST_VALUES = 16
MOST_SLOTS = 512
MOST_BLOCKS = 101
MOST_STEPS = 4294967295
CHECKS_IN_A_STEP = 496
PROGRAM_STEPS = 1000000
BLOCK_BYTES = 512
CONTENT_WORDS = 253
HEAD_WORDS = 9

NONE, RUNNING, SOLVED, UNSOLVABLE = 0, 1, 2, 3
VERDICT_WORDS = ("none", "running", "solved", "unsolvable")

BACKTRACKING, FORWARD_CHECKING, IDC, HALVING, EXTRACTION = 1, 2, 3, 4, 5

Problem = namedtuple("Problem", "n d domains tables")
Subproblem = namedtuple("Subproblem", "domains marked")
Request = namedtuple("Request", "kind V v targets")
State = namedtuple("State", "steps checks subproblems")
Opened = namedtuple("Opened", "refusal state")
Ran = namedtuple("Ran", "verdict refusal taken state")
Saved = namedtuple("Saved", "refusal blocks")
Loaded = namedtuple("Loaded", "refusal n d state")

NOTHING = State(0, 0, 0)


# ---- Masks ----------------------------------------------------------------------------------------

def has(mask, value):
    """Whether the value is in the mask."""
    return (mask >> value) & 1 == 1


def values(mask):
    """The values of a mask, in rising order."""
    return [value for value in range(MOST_VALUES) if has(mask, value)]


def count(mask):
    """How many values a mask has."""
    return bin(mask).count("1")


def without(mask, other):
    """The values of a mask that are not in the other."""
    return mask & ~other


def part_of(mask, whole):
    """Whether every value of the mask is in the whole."""
    return without(mask, whole) == 0


def has_bit_at_or_above(mask, d):
    """Whether a bit stands where no value is."""
    return mask >> d != 0


# ---- The problem and a subproblem -----------------------------------------------------------------

def allowed(problem, i, a, j):
    """The mask of the values of j allowed beside value a of i."""
    return problem.tables[(i * problem.n + j) * problem.d + a]


def others(problem, variable):
    """All other variables, in rising order."""
    return [j for j in range(problem.n) if j != variable]


def is_empty(subproblem):
    """A subproblem with an empty domain has no possibility; pieces like that are dropped."""
    return 0 in subproblem.domains


def with_domain(subproblem, variable, mask):
    """The subproblem with one domain put in place of the variable's."""
    domains = list(subproblem.domains)
    domains[variable] = mask
    return Subproblem(tuple(domains), subproblem.marked)


def instantiate(subproblem, V, v):
    """The subproblem with V instantiated to v."""
    cut = with_domain(subproblem, V, 1 << v)
    return Subproblem(cut.domains, subproblem.marked | {V})


def is_solution_shown(problem, subproblem):
    """Whether all variables are instantiated: with such a top a search is solved."""
    return subproblem.marked == frozenset(range(problem.n))


def verdict_of(problem, agenda):
    """The verdict of an agenda, a list of subproblems with the top last."""
    if not agenda:
        return UNSOLVABLE
    if is_solution_shown(problem, agenda[-1]):
        return SOLVED
    return RUNNING


def mutually_allowed(problem, subproblem):
    """Whether the instantiated values are allowed beside each other, where each is one value below d."""
    held = [(i, values(subproblem.domains[i])[0]) for i in sorted(subproblem.marked)
            if i < problem.n and count(subproblem.domains[i]) == 1]
    held = [(i, a) for i, a in held if a < problem.d]
    return all(has(allowed(problem, i, a, j), b) for i, a in held for j, b in held if i < j)


def rules_broken(problem, subproblem):
    """The rules for a subproblem on the agenda that this one breaks."""
    broken = []
    if is_empty(subproblem):
        broken.append("empty domain")
    if not all(part_of(mine, whole) for mine, whole in zip(subproblem.domains, problem.domains)):
        broken.append("domain not part of the problem's")
    if any(i >= problem.n for i in subproblem.marked):
        broken.append("mark at n or above")
    if any(count(subproblem.domains[i]) != 1 for i in subproblem.marked if i < problem.n):
        broken.append("instantiated domain not one value")
    if not mutually_allowed(problem, subproblem):
        broken.append("instantiated values not allowed")
    return broken


# ---- The five splits ------------------------------------------------------------------------------

def looked_at(problem, P, V, v):
    """Kind 1: the instantiated variables up to and with the first that forbids v; and whether one does."""
    looked = 0
    for i in sorted(P.marked):
        looked += 1
        if not part_of(P.domains[i], allowed(problem, V, v, i)):
            return looked, True
    return looked, False


def value_removed(P, V, v):
    """Piece (b) of kinds 1 and 2: V's domain without v."""
    return with_domain(P, V, without(P.domains[V], 1 << v))


def precluded(problem, P, V, v):
    """V instantiated to v, all others left with what can stand beside v."""
    piece = instantiate(P, V, v)
    for j in others(problem, V):
        piece = with_domain(piece, j, P.domains[j] & allowed(problem, V, v, j))
    return piece


def backtracking(problem, P, V, v):
    """Kind 1: (a) V instantiated to v, unless an instantiated value forbids it; (b) V without v."""
    forbidden = looked_at(problem, P, V, v)[1]
    first = [] if forbidden else [instantiate(P, V, v)]
    return first + [value_removed(P, V, v)]


def forward_checking(problem, P, V, v):
    """Kind 2: (a) the precluded piece; (b) V without v."""
    return [precluded(problem, P, V, v), value_removed(P, V, v)]


def idc_piece(problem, P, V, v, j):
    """Kind 3's piece for j: those before j can stand beside v, j cannot, and V is without v."""
    domains = list(P.domains)
    domains[V] = without(P.domains[V], 1 << v)
    for i in others(problem, V):
        if i < j:
            domains[i] = P.domains[i] & allowed(problem, V, v, i)
    domains[j] = without(P.domains[j], allowed(problem, V, v, j))
    return Subproblem(tuple(domains), P.marked)


def inferred_disjunction(problem, P, V, v):
    """Kind 3: the precluded piece, then a piece for each other variable, instantiated or not."""
    pieces = [precluded(problem, P, V, v)]
    for j in others(problem, V):
        pieces.append(idc_piece(problem, P, V, v, j))
    return pieces


def halving(P, V):
    """Kind 4: V's smaller half of the values, the odd one with them, then the rest."""
    held = values(P.domains[V])
    half = (len(held) + 1) // 2
    smaller = sum(1 << value for value in held[:half])
    return [with_domain(P, V, smaller), with_domain(P, V, without(P.domains[V], smaller))]


def extraction(problem, P, targets):
    """Kind 5: the target, then for each variable that it narrows what lies outside it there."""
    pieces = [Subproblem(tuple(targets), P.marked)]
    for i in range(problem.n):
        if targets[i] != P.domains[i]:
            outside = (without(P.domains[i], targets[i]),)
            domains = tuple(targets[:i]) + outside + P.domains[i + 1:]
            pieces.append(Subproblem(domains, P.marked))
    return pieces


def split(problem, P, request):
    """The pieces of an accepted request, the first named first, empty ones dropped."""
    kind, V, v, targets = request
    if kind == BACKTRACKING:
        pieces = backtracking(problem, P, V, v)
    elif kind == FORWARD_CHECKING:
        pieces = forward_checking(problem, P, V, v)
    elif kind == IDC:
        pieces = inferred_disjunction(problem, P, V, v)
    elif kind == HALVING:
        pieces = halving(P, V)
    else:
        pieces = extraction(problem, P, targets)
    return [piece for piece in pieces if not is_empty(piece)]


def checks_of(problem, P, request):
    """The constraint checks that an accepted request costs."""
    if request.kind == BACKTRACKING:
        return looked_at(problem, P, request.V, request.v)[0]
    if request.kind in (FORWARD_CHECKING, IDC):
        return sum(count(P.domains[j]) for j in others(problem, request.V))
    return 0


# ---- Refusal numbers 7 to 12: one request ---------------------------------------------------------

def reasons_of_8(problem, P, request):
    """Of kinds 1 to 4: no such variable, or one that is instantiated."""
    if request.kind == EXTRACTION:
        return []
    if request.V >= problem.n:
        return ["V is n or more"]
    return ["V is instantiated"] if request.V in P.marked else []


def reasons_of_9(problem, P, request):
    """Of kinds 1 to 3: v is no value, or none of V's; of kind 4: V has a single one."""
    if request.kind == EXTRACTION:
        return []
    domain = P.domains[request.V]
    if request.kind == HALVING:
        return ["kind 4, one value"] if count(domain) == 1 else []
    if request.v >= problem.d:
        return ["v is d or more"]
    return [] if has(domain, request.v) else ["v not in V's domain"]


def reasons_of_10(problem, P, request):
    """Of kind 5: a target without a value, or with one that P lacks; or each target is its domain."""
    if request.kind != EXTRACTION:
        return []
    reasons = []
    if 0 in request.targets:
        reasons.append("target empty")
    if not all(part_of(target, mine) for target, mine in zip(request.targets, P.domains)):
        reasons.append("target not part")
    if tuple(request.targets) == P.domains:
        reasons.append("all targets equal")
    return reasons


def request_refusal(problem, P, request, steps, free):
    """The refusal of one request on top of P, in the order 11, 7, 8, 9, 10, 12; free counts P's slot."""
    if steps == MOST_STEPS:
        return 11
    if not 1 <= request.kind <= 5:
        return 7
    if reasons_of_8(problem, P, request):
        return 8
    if reasons_of_9(problem, P, request):
        return 9
    if reasons_of_10(problem, P, request):
        return 10
    if len(split(problem, P, request)) > free:
        return 12
    return 0


# ---- The search, on a list of subproblems ---------------------------------------------------------

Search = namedtuple("Search", "problem slots agenda steps checks")


def free_slots(search):
    """The free slots, with the top subproblem's counted free."""
    return search.slots - len(search.agenda) + 1


def step(search, request):
    """One request on a running search: the refusal, and the search that it leaves."""
    problem, slots, agenda, steps, checks = search
    P = agenda[-1]
    refusal = request_refusal(problem, P, request, steps, free_slots(search))
    if refusal:
        return refusal, search
    pieces = split(problem, P, request)
    after = agenda[:-1] + pieces[::-1]
    return 0, Search(problem, slots, after, steps + 1, checks + checks_of(problem, P, request))


def run_list(search, requests):
    """A run of a list of requests: refusal, requests taken, and the search that it leaves."""
    for taken, request in enumerate(requests):
        if verdict_of(search.problem, search.agenda) != RUNNING:
            return 0, taken, search
        refusal, search = step(search, request)
        if refusal:
            return refusal, taken, search
    return 0, len(requests), search


def chosen_variable(problem, P):
    """Of the variables not instantiated the one with the fewest values, and of several the lowest."""
    free = [i for i in range(problem.n) if i not in P.marked]
    return min(free, key=lambda i: (count(P.domains[i]), i))


def chosen_request(search):
    """The house chooser's request on a running search."""
    problem, P = search.problem, search.agenda[-1]
    V = chosen_variable(problem, P)
    v = values(P.domains[V])[0]
    targets = (0,) * problem.n
    disjunction = Request(IDC, V, v, targets)
    no_room = len(split(problem, P, disjunction)) > free_slots(search)
    if is_empty(precluded(problem, P, V, v)) or no_room:
        return Request(FORWARD_CHECKING, V, v, targets)
    return disjunction


def choose_list(search, limit):
    """The house chooser for up to limit steps: refusal, steps taken, and the search that it leaves."""
    for taken in range(limit):
        if verdict_of(search.problem, search.agenda) != RUNNING:
            return 0, taken, search
        refusal, search = step(search, chosen_request(search))
        if refusal:
            return refusal, taken, search
    return 0, limit, search


# ---- In memory: the agenda's words ----------------------------------------------------------------

def slot_words(n):
    """A slot has n masks and the instantiated set in two words."""
    return n + 2


def words_of_subproblem(subproblem):
    """The words of one slot: the masks, then the instantiated set, high word first."""
    bits = sum(1 << i for i in subproblem.marked)
    return list(subproblem.domains) + [bits >> 16, bits & 0xFFFF]


def subproblem_of_words(n, words):
    """The subproblem that a slot's words say, whether or not it obeys the rules."""
    bits = words[n] << 16 | words[n + 1]
    return Subproblem(tuple(words[:n]), frozenset(i for i in range(32) if (bits >> i) & 1))


def subproblems_of_words(n, words, number):
    """The first subproblems of an agenda's words, bottom first."""
    width = slot_words(n)
    return [subproblem_of_words(n, words[k * width:(k + 1) * width]) for k in range(number)]


def words_of_agenda(n, slots, agenda):
    """An agenda's words: the subproblems bottom first, then zeros in the unused slots."""
    words = []
    for subproblem in agenda:
        words += words_of_subproblem(subproblem)
    return words + [0] * (slots * slot_words(n) - len(words))


# ---- Refusal numbers 1 to 6: the first checks -----------------------------------------------------
# A list of words may be None: bytes from C that are not whole words, which is 3 in 3's place.

def agenda_length_wrong(n, agenda):
    """Agenda not 1 to 512 whole slots."""
    if agenda is None or len(agenda) % slot_words(n) != 0:
        return True
    return not 1 <= len(agenda) // slot_words(n) <= MOST_SLOTS


def reasons_of_3(n, d, domains, tables, agenda, requests=()):
    """Domains, tables, agenda or request list of a wrong length."""
    reasons = []
    if domains is None or len(domains) != n:
        reasons.append("domains")
    if tables is None or len(tables) != n * n * d:
        reasons.append("tables")
    if agenda_length_wrong(n, agenda):
        reasons.append("agenda")
    if requests is None or len(requests) % (n + 3) != 0:
        reasons.append("request list")
    return reasons


def reasons_of_4(problem):
    """A bit at d or above, in a domain or in a mask that is read."""
    reasons = []
    if any(has_bit_at_or_above(mask, problem.d) for mask in problem.domains):
        reasons.append("domain bit")
    read = (allowed(problem, i, a, j) for i in range(problem.n) for j in others(problem, i)
            for a in range(problem.d))
    if any(has_bit_at_or_above(mask, problem.d) for mask in read):
        reasons.append("table bit")
    return reasons


def one_way_only(problem):
    """Whether a pair is allowed one way only, over all values below d, in a domain or not."""
    for i in range(problem.n):
        for j in range(i + 1, problem.n):
            for a in range(problem.d):
                for b in range(problem.d):
                    if has(allowed(problem, i, a, j), b) != has(allowed(problem, j, b, i), a):
                        return True
    return False


def problem_refusal(n, d, domains, tables, agenda, requests=()):
    """The refusals 1 to 5, in this order."""
    if not 1 <= n <= MOST_VARIABLES:
        return 1
    if not 1 <= d <= MOST_VALUES:
        return 2
    if reasons_of_3(n, d, domains, tables, agenda, requests):
        return 3
    problem = Problem(n, d, tuple(domains), tuple(tables))
    if reasons_of_4(problem):
        return 4
    if one_way_only(problem):
        return 5
    return 0


def too_many_checks(steps, checks):
    """More than 496 × steps checks."""
    return checks > CHECKS_IN_A_STEP * steps


def reasons_of_6(problem, agenda, state):
    """The rules that a handed-in search breaks."""
    reasons = ["more than 496 x steps checks"] if too_many_checks(state.steps, state.checks) else []
    width = slot_words(problem.n)
    if state.subproblems > len(agenda) // width:
        return reasons + ["more subproblems than slots"]
    for subproblem in subproblems_of_words(problem.n, agenda, state.subproblems):
        reasons += rules_broken(problem, subproblem)
    if any(agenda[state.subproblems * width:]):
        reasons.append("nonzero unused slot")
    return sorted(set(reasons))


def first_checks(n, d, domains, tables, agenda, requests, state):
    """The refusals 1 to 6, in this order, on every run, chooser and save."""
    refusal = problem_refusal(n, d, domains, tables, agenda, requests)
    if refusal:
        return refusal
    if reasons_of_6(Problem(n, d, tuple(domains), tuple(tables)), agenda, state):
        return 6
    return 0


# ---- The calls: open, run, choose -----------------------------------------------------------------

def open_search(n, d, domains, tables, agenda):
    """Opening: agenda and counts cleared, and the problem in slot 0 unless a domain has no value."""
    refusal = problem_refusal(n, d, domains, tables, agenda)
    if refusal:
        return Opened(refusal, NOTHING)
    whole = Subproblem(tuple(domains), frozenset())
    placed = [] if is_empty(whole) else [whole]
    agenda[:] = words_of_agenda(n, len(agenda) // slot_words(n), placed)
    return Opened(0, State(0, 0, len(placed)))


def search_handed_in(n, d, domains, tables, agenda, state):
    """The search that words and numbers say, once the first checks have passed."""
    problem = Problem(n, d, tuple(domains), tuple(tables))
    subproblems = subproblems_of_words(n, agenda, state.subproblems)
    return Search(problem, len(agenda) // slot_words(n), subproblems, state.steps, state.checks)


def requests_of_words(n, words):
    """The list of requests, each n + 3 words: kind, V, v, targets."""
    width = n + 3
    parts = [words[k:k + width] for k in range(0, len(words), width)]
    return [Request(part[0], part[1], part[2], tuple(part[3:])) for part in parts]


def left_behind(search, refusal, taken, agenda):
    """Writes the agenda as a run leaves it, and gives what a run returns."""
    agenda[:] = words_of_agenda(search.problem.n, search.slots, search.agenda)
    state = State(search.steps, search.checks, len(search.agenda))
    return Ran(verdict_of(search.problem, search.agenda), refusal, taken, state)


def run(n, d, domains, tables, agenda, requests, state):
    """A run of a list of requests on a handed-in search."""
    refusal = first_checks(n, d, domains, tables, agenda, requests, state)
    if refusal:
        return Ran(NONE, refusal, 0, state)
    search = search_handed_in(n, d, domains, tables, agenda, state)
    refusal, taken, search = run_list(search, requests_of_words(n, requests))
    return left_behind(search, refusal, taken, agenda)


def choose(n, d, domains, tables, agenda, limit, state):
    """The house chooser on a handed-in search, for up to limit steps."""
    refusal = first_checks(n, d, domains, tables, agenda, (), state)
    if refusal:
        return Ran(NONE, refusal, 0, state)
    search = search_handed_in(n, d, domains, tables, agenda, state)
    refusal, taken, search = choose_list(search, limit)
    return left_behind(search, refusal, taken, agenda)


# ---- Saved search: blocks of 512 bytes ------------------------------------------------------------

def ones_complement_sum(words):
    """RFC 1071: the sum of 16-bit words, each carry out of the top added in at the bottom."""
    total = 0
    for word in words:
        total += word
        total = (total & 0xFFFF) + (total >> 16)
    return total


def check_of(words):
    """RFC 1071: the checksum is the complement of the sum."""
    return 0xFFFF - ones_complement_sum(words)


def parts_of(number, places):
    """A number in 16-bit words, high first."""
    return [(number >> (16 * k)) & 0xFFFF for k in reversed(range(places))]


def number_of(words):
    """The number that 16-bit words say, high first."""
    number = 0
    for word in words:
        number = number << 16 | word
    return number


def pairs(n):
    """The pairs i below j, in rising order of i, then j."""
    return [(i, j) for i in range(n) for j in range(i + 1, n)]


def content_of(search):
    """The content of a saved search, in order."""
    problem = search.problem
    words = [problem.n, problem.d] + parts_of(search.steps, 2) + parts_of(search.checks, 4)
    words += [len(search.agenda)] + list(problem.domains)
    for i, j in pairs(problem.n):
        words += [allowed(problem, i, a, j) for a in range(problem.d)]
    for subproblem in search.agenda:
        words += words_of_subproblem(subproblem)
    return words


def blocks_for(number_of_words):
    """How many blocks the content fills."""
    return (number_of_words + CONTENT_WORDS - 1) // CONTENT_WORDS


def bytes_high_first(words):
    """A file's words are big-endian."""
    return b"".join(word.to_bytes(2, "big") for word in words)


def words_high_first(file):
    """The big-endian words of whole blocks."""
    return [file[k] << 8 | file[k + 1] for k in range(0, len(file), 2)]


def file_of(content):
    """The blocks of a content: number, number of blocks, 253 words, check; zeros after the last word."""
    blocks = blocks_for(len(content))
    padded = content + [0] * (blocks * CONTENT_WORDS - len(content))
    file = b""
    for k in range(blocks):
        words = [k + 1, blocks] + padded[k * CONTENT_WORDS:(k + 1) * CONTENT_WORDS]
        file += bytes_high_first(words + [check_of(words)])
    return file


def save(n, d, domains, tables, agenda, state, file):
    """Save: writes the blocks at the front of the lent file buffer and leaves the rest."""
    refusal = first_checks(n, d, domains, tables, agenda, (), state)
    if refusal:
        return Saved(refusal, 0)
    written = file_of(content_of(search_handed_in(n, d, domains, tables, agenda, state)))
    if len(file) < len(written):
        return Saved(13, 0)
    file[:len(written)] = written
    return Saved(0, len(written) // BLOCK_BYTES)


def reasons_of_14(file):
    """Bytes that are no whole blocks, none or more than 101 of them, or a block whose number, count or check is wrong."""
    if len(file) == 0:
        return ["no block"]
    if len(file) % BLOCK_BYTES != 0:
        return ["not whole blocks"]
    blocks = len(file) // BLOCK_BYTES
    reasons = ["more than 101 blocks"] if blocks > MOST_BLOCKS else []
    for k in range(blocks):
        words = words_high_first(file[k * BLOCK_BYTES:(k + 1) * BLOCK_BYTES])
        if words[-1] != check_of(words[:-1]):
            reasons.append("check")
        if words[0] != k + 1:
            reasons.append("number")
        if words[1] != blocks:
            reasons.append("count")
    return sorted(set(reasons))


def content_in(file):
    """The content words of whole blocks, the zeros after them too."""
    content = []
    for k in range(0, len(file), BLOCK_BYTES):
        content += words_high_first(file[k:k + BLOCK_BYTES])[2:2 + CONTENT_WORDS]
    return content


def words_up_to_agenda(n, d):
    """The content's words before the agenda."""
    return HEAD_WORDS + n + len(pairs(n)) * d


def words_in_all(n, d, subproblems):
    """The content's words."""
    return words_up_to_agenda(n, d) + subproblems * slot_words(n)


def tables_in(content, n, d):
    """The tables of a file: its masks for i below j, the same pairs for j and i, zeros for i with itself."""
    tables = [0] * (n * n * d)
    place = HEAD_WORDS + n
    for i, j in pairs(n):
        for a in range(d):
            mask = content[place]
            tables[(i * n + j) * d + a] = mask
            for b in range(d):
                if has(mask, b):
                    tables[(j * n + i) * d + b] |= 1 << a
            place += 1
    return tables


def search_in(content, slots):
    """The search that a content says, whether or not it obeys the rules, on so many slots."""
    n, d, number = content[0], content[1], content[8]
    domains = tuple(content[HEAD_WORDS:HEAD_WORDS + n])
    problem = Problem(n, d, domains, tuple(tables_in(content, n, d)))
    agenda = subproblems_of_words(n, content[words_up_to_agenda(n, d):], number)
    return Search(problem, slots, agenda, number_of(content[2:4]), number_of(content[4:8]))


def reasons_of_15(content):
    """Words that break a rule, need another number of blocks, or are followed by other than zeros."""
    n, d, number = content[0], content[1], content[8]
    if not 1 <= n <= MOST_VARIABLES:
        return ["n not 1 to 32"]
    if not 1 <= d <= MOST_VALUES:
        return ["d not 1 to 16"]
    if number > MOST_SLOTS:
        return ["more than 512 subproblems"]
    in_all = words_in_all(n, d, number)
    if blocks_for(in_all) != len(content) // CONTENT_WORDS:
        return ["not exactly that many blocks"]
    search = search_in(content, MOST_SLOTS)
    reasons = reasons_of_4(search.problem)
    for subproblem in search.agenda:
        reasons += rules_broken(search.problem, subproblem)
    if too_many_checks(search.steps, search.checks):
        reasons.append("more than 496 x steps checks")
    if any(content[in_all:]):
        reasons.append("nonzero after")
    return sorted(set(reasons))


def file_refusal(file):
    """The refusals 14 and 15, which look at the file alone."""
    if reasons_of_14(file):
        return 14
    return 15 if reasons_of_15(content_in(file)) else 0


def load(file, domains, tables, agenda):
    """Load: writes the file's problem and agenda into lent words, zeros for a variable with itself."""
    refusal = file_refusal(file)
    if refusal:
        return Loaded(refusal, 0, 0, NOTHING)
    content = content_in(file)
    n, d, number = content[0], content[1], content[8]
    if reasons_of_3(n, d, domains, tables, agenda):
        return Loaded(3, 0, 0, NOTHING)
    slots = len(agenda) // slot_words(n)
    if number > slots:
        return Loaded(12, 0, 0, NOTHING)
    search = search_in(content, slots)
    domains[:] = search.problem.domains
    tables[:] = search.problem.tables
    agenda[:] = words_of_agenda(n, slots, search.agenda)
    return Loaded(0, n, d, State(search.steps, search.checks, number))


# ---- The program ----------------------------------------------------------------------------------

def sizes_said(file):
    """n and d as the file's first words say, so that the program lends what load wants; else 1 and 1."""
    if file_refusal(file):
        return 1, 1
    return tuple(content_in(file)[:2])


def answer_to(file, limit=PROGRAM_STEPS):
    """The whole text that the program prints for a file; only tests give another limit."""
    n, d = sizes_said(file)
    domains, tables, agenda = [0] * n, [0] * (n * n * d), [0] * (MOST_SLOTS * slot_words(n))
    loaded = load(file, domains, tables, agenda)
    if loaded.refusal:
        return "refused %d\n" % loaded.refusal
    ran = choose(n, d, domains, tables, agenda, limit, loaded.state)
    text = "%s\nsteps %d checks %d\n" % (VERDICT_WORDS[ran.verdict], ran.state.steps, ran.state.checks)
    if ran.refusal:
        text += "refused %d\n" % ran.refusal
    if ran.verdict == SOLVED:
        top = subproblems_of_words(n, agenda, ran.state.subproblems)[-1]
        text += "".join("%d %d\n" % (i, values(top.domains[i])[0]) for i in range(n))
    return text


# ---- For C: the calls on bytes, every word low byte first -----------------------------------------

def words_low_first(lent):
    """The words that bytes from C say, or None where they are not whole words."""
    if len(lent) % 2 != 0:
        return None
    return [lent[k] | lent[k + 1] << 8 for k in range(0, len(lent), 2)]


def write_low_first(lent, words):
    """Writes words back into lent bytes; bytes that are not whole words stay as they are."""
    if words is not None:
        lent[:] = b"".join(word.to_bytes(2, "little") for word in words)


def c_open(n, d, domains, tables, agenda):
    """rastwob_open on bytes."""
    words = words_low_first(agenda)
    opened = open_search(n, d, words_low_first(domains), words_low_first(tables), words)
    write_low_first(agenda, words)
    return opened


def c_run(n, d, domains, tables, agenda, requests, state):
    """rastwob_run on bytes."""
    words = words_low_first(agenda)
    ran = run(n, d, words_low_first(domains), words_low_first(tables), words,
              words_low_first(requests), state)
    write_low_first(agenda, words)
    return ran


def c_choose(n, d, domains, tables, agenda, limit, state):
    """rastwob_choose on bytes."""
    words = words_low_first(agenda)
    ran = choose(n, d, words_low_first(domains), words_low_first(tables), words, limit, state)
    write_low_first(agenda, words)
    return ran


def c_save(n, d, domains, tables, agenda, state, file):
    """rastwob_save on bytes; the file's bytes are as they are."""
    return save(n, d, words_low_first(domains), words_low_first(tables), words_low_first(agenda),
                state, file)


def c_load(file, domains, tables, agenda):
    """rastwob_load on bytes; the file's bytes are as they are."""
    lent = [domains, tables, agenda]
    words = [words_low_first(buffer) for buffer in lent]
    loaded = load(file, *words)
    for buffer, written in zip(lent, words):
        write_low_first(buffer, written)
    return loaded
