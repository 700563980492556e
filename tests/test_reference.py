"""Quick checks of reference.py: document 01's own cases, RFC 1071's example, and brute force on small problems.

Run it with no arguments; it takes some seconds, from a fixed seed, and ends with "ok" or an error.
"""

import random
import time

import brute
import inputs
import reference as r

SEED = 20010


# ---- Problems that document 01 names --------------------------------------------------------------

def problem_of(n, d, domains, unequal):
    """A problem in which the given pairs hold unequal values and no other pair is constrained."""
    tables = [0] * (n * n * d)
    for i in range(n):
        for j in range(n):
            for a in range(d):
                taken = 1 << a if (i, j) in unequal or (j, i) in unequal else 0
                tables[(i * n + j) * d + a] = 0 if i == j else ((1 << d) - 1) & ~taken
    return r.Problem(n, d, tuple(domains), tuple(tables))


def ring():
    """Four variables, d 3, neighbours unequal, all domains 7."""
    return problem_of(4, 3, (7, 7, 7, 7), {(0, 1), (1, 2), (2, 3), (3, 0)})


def triangle(d):
    """Three variables, all unequal, full domains."""
    return problem_of(3, d, ((1 << d) - 1,) * 3, {(0, 1), (0, 2), (1, 2)})


class Lent:
    """A problem and an agenda in lent words, as a caller of the calls holds them."""

    def __init__(self, problem, slots=512):
        """Lends an agenda full of junk and opens it."""
        self.problem = problem
        self.agenda = [0xBEEF] * (slots * (problem.n + 2))
        opened = r.open_search(*problem, self.agenda)
        assert opened.refusal == 0
        self.state = opened.state

    def run(self, *requests):
        """Runs requests given as (kind, V, v) or (kind, V, v, targets) and keeps the state left."""
        whole = [r.Request(*q) if len(q) == 4 else r.Request(*q, (0,) * self.problem.n) for q in requests]
        ran = r.run(*self.problem, self.agenda, inputs.words_of_requests(whole), self.state)
        self.state = ran.state
        return ran

    def shown(self):
        """The subproblems, top first, as (masks, sorted marks)."""
        held = r.subproblems_of_words(self.problem.n, self.agenda, self.state.subproblems)
        return [(p.domains, sorted(p.marked)) for p in reversed(held)]

    def sizes(self):
        """The sizes of the subproblems, top first."""
        return [brute.size(domains) for domains, _ in self.shown()]


# ---- Cases with numbers ---------------------------------------------------------------------------

def test_ring_kind_1():
    """Ring, kind 1, V 0, v 0."""
    lent = Lent(ring())
    ran = lent.run((1, 0, 0))
    assert (ran.verdict, ran.refusal, ran.taken) == (r.RUNNING, 0, 1)
    assert lent.shown() == [((1, 7, 7, 7), [0]), ((6, 7, 7, 7), [])]
    assert ran.state == (1, 0, 2)


def test_ring_kind_2():
    """Ring, kind 2: sizes 12 and 54, checks 9."""
    lent = Lent(ring())
    ran = lent.run((2, 0, 0))
    assert lent.shown() == [((1, 6, 7, 6), [0]), ((6, 7, 7, 7), [])]
    assert lent.sizes() == [12, 54] and ran.state.checks == 9


def test_ring_kind_3():
    """Ring, kind 3: sizes 12, 18, 12, checks 9."""
    lent = Lent(ring())
    ran = lent.run((3, 0, 0))
    assert lent.shown() == [((1, 6, 7, 6), [0]), ((6, 1, 7, 7), []), ((6, 6, 7, 1), [])]
    assert lent.sizes() == [12, 18, 12] and ran.state.checks == 9


def test_triangle_kind_5():
    """Triangle, target 3,3,3: sizes 8, 9, 6, 4."""
    lent = Lent(triangle(3))
    ran = lent.run((5, 0, 0, (3, 3, 3)))
    assert lent.sizes() == [8, 9, 6, 4] and ran.state == (1, 0, 4)


def test_halving():
    """Domain 7 halved: 3, then 4."""
    lent = Lent(problem_of(1, 3, (7,), set()))
    lent.run((4, 0, 0))
    assert lent.shown() == [((3,), []), ((4,), [])]


def test_one_variable():
    """n 1, d 1: kind 1 solves in one step; an empty domain is unsolvable with no step."""
    lent = Lent(problem_of(1, 1, (1,), set()))
    ran = lent.run((1, 0, 0))
    assert (ran.verdict, ran.state.steps) == (r.SOLVED, 1)
    lent = Lent(problem_of(1, 1, (0,), set()))
    ran = lent.run((9, 9, 9))
    assert (ran.verdict, ran.refusal, ran.taken, ran.state) == (r.UNSOLVABLE, 0, 0, (0, 0, 0))


def test_two_variables_unequal():
    """Two variables, d 1, unequal: kind 2 on 0 leaves nothing."""
    lent = Lent(problem_of(2, 1, (1, 1), {(0, 1)}))
    ran = lent.run((2, 0, 0))
    assert (ran.verdict, ran.state.steps, ran.state.subproblems) == (r.UNSOLVABLE, 1, 0)
    assert not any(lent.agenda)


def test_instantiated_kept_in_kind_3():
    """Domains {0}, {0, 1}, unequal: kind 1, kind 3, kind 1 solve in 3 steps and 2 checks."""
    lent = Lent(problem_of(2, 2, (1, 3), {(0, 1)}))
    lent.run((1, 0, 0))
    lent.run((3, 1, 0))
    assert lent.shown() == [((1, 2), [0])]
    ran = lent.run((1, 1, 1))
    assert (ran.verdict, ran.state.steps, ran.state.checks) == (r.SOLVED, 3, 2)


def test_triangle_kind_1_then_3():
    """Three that differ, two values: kind 3 after kind 1 has 1,2,3 on top, with 0 marked."""
    lent = Lent(triangle(2))
    ran = lent.run((1, 0, 0), (3, 1, 0))
    assert ran.taken == 2 and lent.shown()[0] == ((1, 2, 3), [0])


def test_edges():
    """n 32 and d 16 accepted; 33 and 17 refused; one slot is too few for kind 2 on the ring."""
    for n, d, refusal in ((32, 16, 0), (33, 16, 1), (32, 17, 2), (33, 17, 1), (0, 1, 1), (1, 0, 2)):
        full = [(1 << d) - 1]
        assert r.open_search(n, d, full * n, full * (n * n * d), [7] * (3 * (n + 2))).refusal == refusal
    ran = Lent(ring(), 1).run((2, 0, 0))
    assert (ran.verdict, ran.refusal, ran.taken, ran.state) == (r.RUNNING, 12, 0, (0, 0, 1))
    assert Lent(ring(), 2).run((2, 0, 0)).refusal == 0


# ---- Blocks and the program -----------------------------------------------------------------------

def test_rfc_1071():
    """RFC 1071's own example: the sum is ddf2, the checksum 220d."""
    words = [0x0001, 0xF203, 0xF4F5, 0xF6F7]
    assert r.ones_complement_sum(words) == 0xDDF2 and r.check_of(words) == 0x220D


def saved_bytes(lent):
    """The bytes that save writes of a lent search."""
    file = bytearray(b"\xEE" * 512 * 102)
    saved = r.save(*lent.problem, lent.agenda, lent.state, file)
    assert saved.refusal == 0 and set(file[saved.blocks * 512:]) == {0xEE}
    return bytes(file[:saved.blocks * 512])


def test_largest_file():
    """The largest file is 101 blocks, 25,385 words."""
    assert r.words_in_all(32, 16, 512) == 25385 and r.blocks_for(25385) == 101


def test_printed_example():
    """The program's printed example, and its one-line refusal."""
    lent = Lent(problem_of(2, 2, (1, 3), {(0, 1)}))
    file = saved_bytes(lent)
    assert r.answer_to(file) == "solved\nsteps 2 checks 3\n0 0\n1 1\n"
    assert r.answer_to(b"") == r.answer_to(file[:-1]) == "refused 14\n"


def test_content_in_order():
    """The content of a saved search, word by word."""
    lent = Lent(problem_of(2, 2, (1, 3), {(0, 1)}))
    lent.state = lent.state._replace(steps=0xA00002, checks=0x100000003)
    lent.run()
    words = r.words_high_first(saved_bytes(lent))
    assert words[:2] == [1, 1]
    assert words[2:20] == [2, 2, 0xA0, 2, 0, 1, 0, 3, 1, 1, 3, 2, 1, 1, 3, 0, 0, 0]


# ---- Brute force on small problems ----------------------------------------------------------------

def small_problem(rng):
    """A problem small enough to list all its plans, now and then with an empty domain."""
    n = rng.randrange(1, 5)
    d = rng.randrange(1, 5 if n < 4 else 4)
    return inputs.random_problem(rng, n, d, empty_chance=0.05)


def plans_of(problem, domains):
    """The solutions of a subproblem's domains."""
    return brute.plans(problem.n, problem.d, domains, problem.tables)


def check_step(problem, before, request, after):
    """One accepted request: sound, cover, and for every kind but 3 exactly one piece for each plan."""
    P = before.agenda[-1]
    pieces = after.agenda[len(before.agenda) - 1:]
    mine = plans_of(problem, P.domains)
    theirs = [plans_of(problem, piece.domains) for piece in pieces]
    found = [plan for part in theirs for plan in part]
    assert set(found) <= mine, "sound"
    assert bool(found) == bool(mine), "cover"
    if request.kind != r.IDC:
        assert len(found) == len(mine) and set(found) == mine, "exact"
    assert all(not r.rules_broken(problem, piece) for piece in pieces), "rules"
    assert all(P.marked <= piece.marked for piece in pieces), "marks kept"
    falls = [brute.size(p.domains) * (problem.n - len(p.marked) + 1) - 1 for p in pieces]
    assert sum(falls) + 1 <= brute.size(P.domains) * (problem.n - len(P.marked) + 1) - 1, "falls"


def check_stop(problem, search):
    """At each stop: verdict, solvability and the step limit, against all plans of the problem."""
    whole = plans_of(problem, problem.domains)
    assert bool(whole) == any(plans_of(problem, p.domains) for p in search.agenda)
    verdict = r.verdict_of(problem, search.agenda)
    assert (verdict == r.UNSOLVABLE) == (not search.agenda)
    assert verdict != r.UNSOLVABLE or not whole
    if verdict == r.SOLVED:
        assert tuple(r.values(mask)[0] for mask in search.agenda[-1].domains) in whole
    assert search.steps <= brute.step_limit(problem.n, problem.domains)
    assert search.checks <= 496 * search.steps


def test_by_brute_force(rounds=1500):
    """Random searches to their end, each step and each stop looked at."""
    rng = random.Random(SEED)
    for _ in range(rounds):
        problem = small_problem(rng)
        search = inputs.opened(problem, rng.choice((3, 8, 512)))
        check_stop(problem, search)
        while inputs.is_running(search):
            request = inputs.any_good_request(rng, problem, search.agenda[-1])
            refusal, after = r.step(search, request)
            if refusal == 12:
                break
            assert refusal == 0
            check_step(problem, search, request, after)
            search = after
            check_stop(problem, search)


def test_chooser_by_brute_force(rounds=1500):
    """The house chooser to its end: the verdict is right, and it meets only 12."""
    rng = random.Random(SEED + 1)
    for _ in range(rounds):
        problem = small_problem(rng)
        search = inputs.opened(problem, rng.choice((1, 2, 3, 512)))
        refusal, taken, search = r.choose_list(search, 5000)
        assert refusal in (0, 12) and taken == search.steps
        check_stop(problem, search)
        assert refusal == 12 or not inputs.is_running(search)


def taken_requests(rng, problem, slots):
    """A list of requests that a fresh search takes, with a few that it refuses after them."""
    search, taken = inputs.walked(rng, inputs.opened(problem, slots), rng.randrange(1, 20))
    if inputs.is_running(search):
        P = search.agenda[-1]
        taken.append(inputs.REFUSED_REQUESTS[rng.randrange(7, 11)](rng, problem, P))
        taken.append(inputs.any_good_request(rng, problem, P))
    return taken


def reloaded(lent):
    """The search saved and loaded into junk of equal length."""
    file = saved_bytes(lent)
    domains = [0xDEAD] * lent.problem.n
    tables = [0xDEAD] * len(lent.problem.tables)
    agenda = [0xDEAD] * len(lent.agenda)
    loaded = r.load(file, domains, tables, agenda)
    assert loaded.refusal == 0 and loaded.state == lent.state
    assert agenda == lent.agenda
    other = Lent(lent.problem, 1)
    other.problem = r.Problem(loaded.n, loaded.d, tuple(domains), tuple(tables))
    other.agenda, other.state = agenda, loaded.state
    assert saved_bytes(other) == file
    return other


def test_cut_against_uncut(rounds=1000):
    """A list cut at a random place, saved, loaded and gone on with: as uncut."""
    rng = random.Random(SEED + 2)
    for _ in range(rounds):
        problem, slots = small_problem(rng), rng.choice((4, 16, 512))
        requests = taken_requests(rng, problem, slots)
        uncut, cut = Lent(problem, slots), Lent(problem, slots)
        whole = uncut.run(*requests)
        place = rng.randrange(len(requests) + 1)
        first = cut.run(*requests[:place])
        cut = reloaded(cut)
        rest = cut.run(*requests[first.taken:])
        assert (whole.verdict, whole.refusal, whole.state) == (rest.verdict, rest.refusal, rest.state)
        assert whole.taken == first.taken + rest.taken and uncut.agenda == cut.agenda


def test_refused_loads_change_nothing(rounds=600):
    """Each reason of 14 and 15, met alone, refuses and leaves the lent words."""
    rng = random.Random(SEED + 3)
    met = set()
    for k in range(rounds):
        search = inputs.random_search(rng, inputs.random_problem(rng, rng.randrange(1, 6), rng.randrange(1, 6)))
        names = list(inputs.FILE_FAULTS_14) + inputs.FAULTS_OF_15
        name = names[k % len(names)]
        if name in inputs.FILE_FAULTS_14:
            file = inputs.FILE_FAULTS_14[name](rng, r.file_of(r.content_of(search)))
            assert name in r.reasons_of_14(file)
        else:
            content = inputs.spoiled_content(rng, search, name)
            if content is None:
                continue
            file = r.file_of(content)
            assert name in r.reasons_of_15(r.content_in(file)), name
        lent = [[5] * 4, [6] * 9, [7] * 8]
        loaded = r.load(file, *lent)
        assert loaded == (14 if name in inputs.FILE_FAULTS_14 else 15, 0, 0, (0, 0, 0))
        assert lent == [[5] * 4, [6] * 9, [7] * 8]
        met.add(name)
    assert met == set(names)


def main():
    """Runs every test in the order of this file."""
    begun = time.time()
    tests = [(name, test) for name, test in globals().items() if name.startswith("test_")]
    for name, test in tests:
        test()
        print("ok  %s  (%s)" % (name, test.__doc__))
    print("ok: %d tests in %.1f s" % (len(tests), time.time() - begun))


if __name__ == "__main__":
    main()
