"""Calls of the five C functions for differential.py: right ones, and ones with each rule broken.

A fault takes a call that was right and breaks one rule in it; it says False where it cannot, and the
caller draws again. The calls with two or three faults at once show the order of the refusals.
"""

import itertools

import file_inputs
import inputs
import reference as r
import wire

FIRST_CHECKED = (wire.OPEN, wire.RUN, wire.CHOOSE, wire.SAVE)
HANDED_IN = (wire.RUN, wire.CHOOSE, wire.SAVE)
ENDINGS = (None, 7, 8, 9, 10, 11, 12)


def low_first(words):
    """Words as C holds them."""
    return bytearray(b"".join(word.to_bytes(2, "little") for word in words))


def junk(rng, length):
    """Bytes that a lent buffer held before."""
    return bytearray(rng.getrandbits(8) for _ in range(length))


# ---- Right calls ----------------------------------------------------------------------------------

def random_size(rng):
    """n and d: mostly small, now and then up to 32 and 16."""
    if rng.random() < 0.04:
        return rng.choice(((32, 16), (32, 1), (1, 16), (17, 16), (rng.randrange(1, 33), rng.randrange(1, 17))))
    return rng.randrange(1, 6), rng.randrange(1, 6)


def random_search(rng):
    """A search that obeys the rules."""
    n, d = random_size(rng)
    return inputs.random_search(rng, inputs.random_problem(rng, n, d, empty_chance=0.05))


def running_search(rng):
    """A search that obeys the rules and can take a request."""
    while True:
        search = random_search(rng)
        if inputs.is_running(search):
            return search


def call_on(rng, name, search):
    """A call that is handed this search, with no requests, limit or file yet."""
    problem = search.problem
    call = wire.Call(name, problem.n, problem.d, 0, search.steps, search.checks, len(search.agenda),
                     rng.randrange(4))
    call.domains[:] = low_first(problem.domains)
    call.tables[:] = low_first(problem.tables)
    call.agenda[:] = low_first(r.words_of_agenda(problem.n, search.slots, search.agenda))
    return call


def open_call(rng, search):
    """Opening, on an agenda that holds anything."""
    call = call_on(rng, wire.OPEN, search)
    call.agenda[:] = junk(rng, len(call.agenda))
    call.steps, call.checks = rng.getrandbits(32), rng.getrandbits(64)
    call.subproblems = rng.getrandbits(32)
    return call


def widened(search):
    """The search with full domains in its problem and the whole problem on top, so that splits need room."""
    problem = search.problem._replace(domains=((1 << search.problem.d) - 1,) * search.problem.n)
    agenda = search.agenda + [r.Subproblem(problem.domains, frozenset())]
    return search._replace(problem=problem, agenda=agenda, slots=len(agenda))


def least_slots(search, requests):
    """Just so many slots that the requests fit."""
    lengths = [len(search.agenda)]
    for request in requests:
        search = r.step(search, request)[1]
        lengths.append(len(search.agenda))
    return max(lengths)


def too_wide(rng, after, slots):
    """A request that this search would take but for the room in so many slots, or None."""
    problem, P = after.problem, after.agenda[-1]
    for kind in rng.sample((1, 2, 3, 3, 4, 5), 6):
        request = inputs.good_request(rng, problem, P, kind)
        if request and len(r.split(problem, P, request)) > slots - len(after.agenda) + 1:
            return request
    return None


def last_requests(rng, after, slots, ending):
    """What ends a list on a running search: a refused request, and some that are never read; or None."""
    problem, P = after.problem, after.agenda[-1]
    if ending is None:
        return []
    if ending == 12:
        refused = too_wide(rng, after, slots)
    elif ending == 11:
        makers = list(inputs.REFUSED_REQUESTS.values()) + [inputs.any_good_request]
        refused = rng.choice(makers)(rng, problem, P)
    else:
        refused = inputs.REFUSED_REQUESTS[ending](rng, problem, P)
    if refused is None:
        return None
    return [refused] + [inputs.any_good_request(rng, problem, P) for _ in range(rng.randrange(3))]


def never_read(rng, problem):
    """Requests for a finished search, which reads none."""
    n = problem.n
    return [r.Request(rng.getrandbits(16), rng.randrange(n), 0, inputs.anything(rng, n)) for _ in range(rng.randrange(3))]


def counts_for(search, ending, taken):
    """The search with counts at which the requests taken fit, and for 11 not one more."""
    if ending is None:
        return search
    if ending == 11:
        return search._replace(steps=r.MOST_STEPS - taken, checks=0)
    return search._replace(steps=min(search.steps, r.MOST_STEPS - 10), checks=0)


def run_call(rng, search, ending):
    """A run of a few requests that ends in this refusal, or None where it cannot."""
    search = (widened(search) if ending == 12 else search)._replace(slots=512)
    after, taken = inputs.walked(rng, search._replace(steps=0) if ending else search, rng.randrange(6))
    slots = max(1, least_slots(search._replace(steps=0), taken))
    if inputs.is_running(after):
        last = last_requests(rng, after, slots, ending)
    else:
        last = None if ending else never_read(rng, search.problem)
    if last is None:
        return None
    room = 0 if ending == 12 else rng.choice((0, 0, 1, 40))
    if ending is None:
        slots, room = len(search.agenda), rng.choice((0, 1, 2, 3, 10, 40))
    search = counts_for(search, ending, len(taken))._replace(slots=min(512, max(1, slots + room)))
    call = call_on(rng, wire.RUN, search)
    call.requests[:] = low_first(inputs.words_of_requests(taken + last))
    return call


def choose_call(rng, search, ending):
    """The chooser for a few steps, or near its two refusals and short of room for kind 3."""
    if ending == 11:
        search = search._replace(steps=r.MOST_STEPS - rng.randrange(3))
    if ending == 12:
        search = widened(search)._replace(steps=min(search.steps, 1 << 31), checks=0)
        search = search._replace(slots=search.slots + rng.choice((0, 1, 1, 2)))
    call = call_on(rng, wire.CHOOSE, search)
    many = (1 << 32) - 1 if search.problem.n <= 5 and search.problem.d <= 5 else 40
    call.limit = many if ending else rng.choice((0, 1, 2, 3, rng.randrange(30), many))
    return call


def save_call(rng, search):
    """Save into a buffer that is long enough, or just so."""
    call = call_on(rng, wire.SAVE, search)
    needed = len(r.file_of(r.content_of(search)))
    call.file[:] = junk(rng, needed + rng.choice((0, 0, 1, 512, rng.randrange(600))))
    return call


def load_call(rng, search):
    """Load into buffers of the right length that hold anything; the numbers behind the pointers too."""
    problem = search.problem
    call = wire.Call(wire.LOAD, rng.getrandbits(32), rng.getrandbits(32), 0, rng.getrandbits(32),
                     rng.getrandbits(64), rng.getrandbits(32), rng.randrange(4))
    call.domains[:] = junk(rng, 2 * problem.n)
    call.tables[:] = junk(rng, 2 * len(problem.tables))
    call.agenda[:] = junk(rng, 2 * search.slots * r.slot_words(problem.n))
    call.file[:] = r.file_of(r.content_of(search))
    return call


def right_call(rng, name, search, ending=None):
    """A call of this name that only its own requests or limit may refuse, or None."""
    if name == wire.OPEN:
        return open_call(rng, search)
    if name == wire.RUN:
        return run_call(rng, search, ending)
    if name == wire.CHOOSE:
        return choose_call(rng, search, ending)
    return save_call(rng, search) if name == wire.SAVE else load_call(rng, search)


# ---- Faults of the first checks -------------------------------------------------------------------

def refit(call):
    """Gives the buffers the lengths that the call's own n and d ask for."""
    call.domains[:] = bytes(2 * call.n)
    call.tables[:] = bytes(2 * call.n * call.n * call.d)
    call.agenda[:] = bytes(2 * 3 * (call.n + 2))


def fault_n(rng, call, search):
    """1: n not 1 to 32, the buffers fitting it or not."""
    call.n = rng.choice((0, 33, 65536 + search.problem.n) + inputs.FAR_NUMBERS)
    if call.n in (0, 33, 34) and call.d <= 18 and rng.random() < 0.5:
        refit(call)
    return True


def fault_d(rng, call, search):
    """2: d not 1 to 16, the buffers fitting it or not."""
    call.d = rng.choice((0, 17, 18, 65536 + search.problem.d, 256 + search.problem.d) + inputs.FAR_NUMBERS)
    if call.d in (0, 17, 18) and call.n <= 34 and rng.random() < 0.5:
        refit(call)
    return True


def wrong_length(rng, buffer):
    """Makes a buffer a word longer or shorter."""
    if rng.random() < 0.5 and len(buffer) >= 2:
        del buffer[-2:]
    else:
        buffer += bytes(2)


def fault_domains(rng, call, search):
    """3: domains not n words."""
    wrong_length(rng, call.domains)
    return True


def fault_tables(rng, call, search):
    """3: tables not n × n × d words."""
    wrong_length(rng, call.tables)
    return True


def fault_agenda_part(rng, call, search):
    """3: agenda not whole slots."""
    call.agenda += bytes(2 * rng.randrange(1, r.slot_words(search.problem.n)))
    return True


def fault_agenda_none(rng, call, search):
    """3: no slot."""
    call.agenda[:] = b""
    return True


def fault_agenda_over(rng, call, search):
    """3: more than 512 slots."""
    whole = 2 * rng.choice((513, 514, 1024)) * r.slot_words(search.problem.n)
    call.agenda += bytes(max(0, whole - len(call.agenda)))
    return True


def fault_requests(rng, call, search):
    """3: request list not whole requests."""
    call.requests += bytes(2 * rng.randrange(1, search.problem.n + 3))
    return True


def odd_fault(name):
    """3: the fault that makes this byte slice one byte longer or shorter, so not whole words."""
    def fault(rng, call, search):
        """Adds a byte or takes one off."""
        buffer = getattr(call, name)
        if rng.random() < 0.5 and buffer:
            del buffer[-1:]
        else:
            buffer += b"\0"
        return True
    return fault


def word_or(buffer, place, bits):
    """Sets bits in one word of a buffer."""
    word = (buffer[2 * place] | buffer[2 * place + 1] << 8) | bits
    buffer[2 * place:2 * place + 2] = word.to_bytes(2, "little")


def fault_domain_bit(rng, call, search):
    """4: a domain with a bit at d or above."""
    n, d = search.problem.n, search.problem.d
    if d == 16 or len(call.domains) < 2 * n:
        return False
    word_or(call.domains, rng.randrange(n), 1 << rng.randrange(d, 16))
    return True


def read_place(rng, problem):
    """A random place of the tables that is read."""
    i, j = rng.sample(range(problem.n), 2)
    return (i * problem.n + j) * problem.d + rng.randrange(problem.d)


def fault_table_bit(rng, call, search):
    """4: a read table mask with a bit at d or above."""
    n, d = search.problem.n, search.problem.d
    if d == 16 or n == 1 or len(call.tables) < 2 * n * n * d:
        return False
    word_or(call.tables, read_place(rng, search.problem), 1 << rng.randrange(d, 16))
    return True


def fault_one_way(rng, call, search):
    """5: a pair allowed one way only."""
    n, d = search.problem.n, search.problem.d
    if n == 1 or len(call.tables) < 2 * n * n * d:
        return False
    bit, place = rng.randrange(d), read_place(rng, search.problem)
    call.tables[2 * place + bit // 8] ^= 1 << (bit % 8)
    return True


def fault_too_many(rng, call, search):
    """6: more subproblems than slots."""
    slots = len(call.agenda) // (2 * r.slot_words(search.problem.n))
    call.subproblems = rng.choice((slots + 1, slots + 1, 513, 65536 + len(search.agenda), (1 << 32) - 1))
    return True


def fault_unused(rng, call, search):
    """6: a nonzero unused slot."""
    used = len(search.agenda) * r.slot_words(search.problem.n)
    if 2 * used >= len(call.agenda) - 1:
        return False
    place = rng.choice((used, len(call.agenda) // 2 - 1, rng.randrange(used, len(call.agenda) // 2)))
    word_or(call.agenda, place, 1 << rng.randrange(16))
    return True


def fault_checks(rng, call, search):
    """6: more than 496 × steps checks."""
    most = r.CHECKS_IN_A_STEP * call.steps
    call.checks = rng.choice((most + 1, most + 1 + rng.getrandbits(20), (most + (1 << 32)), (1 << 64) - 1))
    return True


def slot_fault(name):
    """6: the fault that breaks this rule for subproblems in one of the call's slots."""
    def fault(rng, call, search):
        """Breaks the rule in a random slot that is in use."""
        words = r.words_low_first(call.agenda)
        number = len(search.agenda)
        if words is None or len(words) < number * r.slot_words(search.problem.n):
            return False
        done = inputs.spoil_slot(rng, search.problem, words, 0, number, name)
        call.agenda[:] = low_first(words)
        return done
    return fault


# ---- Faults of save and load ----------------------------------------------------------------------

def fault_short_file(rng, call, search):
    """13: the file buffer is shorter than the blocks to write."""
    needed = len(r.file_of(r.content_of(search)))
    del call.file[rng.choice((needed - 1, needed - 2, needed - 512, 0, rng.randrange(needed))):]
    return True


def file_fault(name):
    """14: the fault that spoils a call's file so."""
    def fault(rng, call, search):
        """Spoils the call's file, where it is still whole blocks."""
        if len(call.file) == 0 or len(call.file) % 512 != 0:
            return False
        call.file[:] = inputs.FILE_FAULTS_14[name](rng, bytes(call.file))
        return True
    return fault


def content_fault(name):
    """15: the fault that breaks this rule in a call's file."""
    def fault(rng, call, search):
        """Writes the blocks of a content that breaks the rule."""
        content = inputs.spoiled_content(rng, search, name)
        if content is None:
            return False
        call.file[:] = r.file_of(content)
        return True
    return fault


def fault_few_slots(rng, call, search):
    """12 at load: more subproblems than slots."""
    if len(search.agenda) < 2:
        return False
    slots = rng.randrange(1, len(search.agenda))
    del call.agenda[2 * slots * r.slot_words(search.problem.n):]
    return True


def all_faults():
    """Every fault: its name, the calls that can have it, and its function."""
    lengths = [("domains", fault_domains), ("tables", fault_tables), ("agenda part", fault_agenda_part),
               ("agenda none", fault_agenda_none), ("agenda over", fault_agenda_over)]
    lengths += [("odd " + name, odd_fault(name)) for name in ("domains", "tables", "agenda")]
    made = [("n", FIRST_CHECKED, fault_n), ("d", FIRST_CHECKED, fault_d)]
    made += [(name, FIRST_CHECKED + (wire.LOAD,), fault) for name, fault in lengths]
    made += [("requests", (wire.RUN,), fault_requests), ("odd requests", (wire.RUN,), odd_fault("requests"))]
    made += [("domain bit", FIRST_CHECKED, fault_domain_bit),
             ("table bit", FIRST_CHECKED, fault_table_bit), ("one way", FIRST_CHECKED, fault_one_way),
             ("too many", HANDED_IN, fault_too_many), ("unused", HANDED_IN, fault_unused),
             ("checks", HANDED_IN, fault_checks)]
    made += [(name, HANDED_IN, slot_fault(name)) for name in inputs.SLOT_FAULTS]
    made += [("short file", (wire.SAVE,), fault_short_file), ("few slots", (wire.LOAD,), fault_few_slots)]
    made += [(name, (wire.LOAD,), content_fault(name)) for name in inputs.FAULTS_OF_15]
    made += [(name, (wire.LOAD,), file_fault(name)) for name in inputs.FILE_FAULTS_14]
    return made


FAULTS = all_faults()


def call_with(rng, name, faults, ending=None):
    """A call with these faults, drawn again until at least one of them can be had."""
    while True:
        search = running_search(rng) if ending else random_search(rng)
        call = right_call(rng, name, search, ending)
        if call is None:
            continue
        done = [fault(rng, call, search) for fault in faults]
        if any(done) or not faults:
            return call


def directed_calls(rng, rounds):
    """Each fault in each call that can have it, and each ending, so many times."""
    for _ in range(rounds):
        for _, names, fault in FAULTS:
            for name in names:
                yield call_with(rng, name, [fault])
        for ending in ENDINGS * 4 + (9, 9, 12, 12, 12):
            yield call_with(rng, wire.RUN, [], ending)
        for ending in (None, 11, 11, 12, 12, 12, 12, 12, 12):
            yield call_with(rng, wire.CHOOSE, [], ending)
        for name in wire.CALL_NAMES:
            yield call_with(rng, name, [])


def paired_calls(rng, times):
    """Every two faults that a call can have, together: they show the order of the refusals."""
    for name in list(wire.CALL_NAMES) * times:
        possible = [fault for _, names, fault in FAULTS if name in names]
        for first, second in itertools.combinations(possible, 2):
            yield call_with(rng, name, [first, second])


def mixed_calls(rng, number):
    """Calls with no fault, or up to three at once."""
    for _ in range(number):
        name = rng.choice(list(wire.CALL_NAMES))
        possible = [fault for _, names, fault in FAULTS if name in names]
        faults = rng.sample(possible, rng.choice((0, 0, 1, 2, 2, 3)))
        ending = rng.choice(ENDINGS) if name in (wire.RUN, wire.CHOOSE) else None
        yield call_with(rng, name, faults, ending)


# ---- Full size ------------------------------------------------------------------------------------

def full_search(rng, number):
    """The largest size, n 32 and d 16 in 512 slots, with so many subproblems."""
    problem = inputs.random_problem(rng, 32, 16, 4)
    some = inputs.random_agenda(rng, problem, 3)
    return r.Search(problem, 512, [rng.choice(some) for _ in range(number)], 1000, 400000)


def full_run(rng, search, number):
    """A run of about so many requests that it takes, and one more for which there may be no room."""
    after, requests = inputs.walked(rng, search, number)
    if inputs.is_running(after):
        requests.append(inputs.any_good_request(rng, search.problem, after.agenda[-1]))
    call = call_on(rng, wire.RUN, search)
    call.requests[:] = low_first(inputs.words_of_requests(requests))
    return call


def full_calls(rng, times):
    """Each call on more than half of the largest agenda, up to all of it."""
    for number in (257, 400, 511, 512) * times:
        search = full_search(rng, number)
        yield open_call(rng, search)
        yield full_run(rng, search, 0)
        yield full_run(rng, search, 24)
        call = call_on(rng, wire.CHOOSE, search)
        call.limit = 3
        yield call
        yield save_call(rng, search)
        yield load_call(rng, search)


def long_runs(rng):
    """Lists of about 200 requests and of more, by the chooser's own choices, all taken or the last refused 7."""
    search = inputs.opened(file_inputs.pigeons(7, 6), 512)
    after, requests = search, []
    for _ in range(450):
        requests.append(r.chosen_request(after))
        after = r.step(after, requests[-1])[1]
    for number in (200, 201, 400, 401, 450):
        for last in (requests[number - 1], requests[number - 1]._replace(kind=9)):
            call = call_on(rng, wire.RUN, search)
            call.requests[:] = low_first(inputs.words_of_requests(requests[:number - 1] + [last]))
            yield call
