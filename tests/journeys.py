"""Part (c) of differential.py: small searches to their end, the library's own agenda looked at by brute force.

Everything checked here comes from the bytes that the library returned and from all plans of the problem,
listed by brute.py; no rule of reference.py is used but the making of requests.
"""

import brute
import call_inputs
import inputs
import reference as r
import wire

MOST_ROUNDS = 80


class Held:
    """A search as a C caller holds it: the problem's words, the agenda's bytes and the three numbers."""

    def __init__(self, n, d, domains, tables, slots):
        """A problem with an agenda of so many slots that holds anything."""
        self.n, self.d, self.domains, self.tables = n, d, list(domains), list(tables)
        self.agenda = b"\xEE" * (2 * slots * (n + 2))
        self.steps = self.checks = self.subproblems = 0

    def call(self, name):
        """A call that is handed this search."""
        call = wire.Call(name, self.n, self.d, 0, self.steps, self.checks, self.subproblems)
        call.domains[:] = call_inputs.low_first(self.domains)
        call.tables[:] = call_inputs.low_first(self.tables)
        call.agenda[:] = self.agenda
        return call

    def keep(self, answer):
        """Keeps what a call left."""
        self.agenda = answer.buffers[2]
        self.steps, self.checks, self.subproblems = answer.steps, answer.checks, answer.subproblems

    def slots_in_use(self):
        """The subproblems as (domains, marked bits), bottom first, read from the bytes."""
        words = [self.agenda[k] | self.agenda[k + 1] << 8 for k in range(0, len(self.agenda), 2)]
        width = self.n + 2
        slots = [words[k * width:(k + 1) * width] for k in range(self.subproblems)]
        return [(slot[:self.n], slot[self.n] << 16 | slot[self.n + 1]) for slot in slots]

    def outcome(self):
        """What a cut and an uncut search must have in common."""
        return self.agenda, self.steps, self.checks, self.subproblems


def must(truth, what):
    """Stops at a promise that does not hold."""
    if not truth:
        raise wire.Difference("by brute force: " + what)


class Journey:
    """One small problem, taken from opening to its end in many calls."""

    def __init__(self, rng, ask, met):
        """Draws the problem and the room; ask makes a compared call, met counts."""
        self.rng, self.ask, self.met = rng, ask, met
        n = rng.randrange(1, 5)
        d = rng.randrange(1, 5 if n < 4 else 4)
        self.problem = inputs.random_problem(rng, n, d, rng.randrange(4), empty_chance=0.05)
        self.slots = rng.choice((2, 4, 16, 512 if n < 3 else 64))
        self.plans = brute.plans(*self.problem)
        self.kinds = rng.choice(((1, 2, 3, 4, 5), (1, 3), (1, 4), (4, 5), (1, 4, 5), (1, 2, 3)))

    def opened(self):
        """The problem opened by the library."""
        held = Held(*self.problem, self.slots)
        answer = self.ask(held.call(wire.OPEN))
        must(answer.refusal == 0, "a right problem is refused")
        held.keep(answer)
        return held

    def run(self, held, requests):
        """A run by the library."""
        call = held.call(wire.RUN)
        call.requests[:] = call_inputs.low_first(inputs.words_of_requests(requests))
        answer = self.ask(call)
        held.keep(answer)
        return answer

    def choose(self, held, limit):
        """The chooser by the library."""
        call = held.call(wire.CHOOSE)
        call.limit = limit
        answer = self.ask(call)
        held.keep(answer)
        return answer

    def saved_and_loaded(self, held):
        """The search saved, then loaded from exactly its blocks into memory that holds anything."""
        call = held.call(wire.SAVE)
        call.file[:] = b"\xEE" * (512 * 101)
        saved = self.ask(call)
        must(saved.refusal == 0, "a search as a run left it is refused by save")
        other = Held(*self.problem, self.slots)
        call = other.call(wire.LOAD)
        for buffer in (call.domains, call.tables):
            buffer[:] = b"\xEE" * len(buffer)
        call.file[:] = saved.buffers[4][:512 * saved.blocks]
        loaded = self.ask(call)
        must(loaded.refusal == 0 and (loaded.n, loaded.d) == self.problem[:2], "a saved file is refused by load")
        other.domains = r.words_low_first(loaded.buffers[0])
        other.tables = r.words_low_first(loaded.buffers[1])
        other.keep(loaded)
        must(other.outcome() == held.outcome(), "load does not give back what was saved")
        self.met("brute: saved and loaded")
        return other

    def look(self, held, verdict):
        """At a stop: solvable exactly if some subproblem is, the verdict right, the step limit kept."""
        slots = held.slots_in_use()
        parts = [brute.plans(held.n, held.d, domains, self.problem.tables) for domains, _ in slots]
        must(any(parts) == bool(self.plans), "solvable is not what some subproblem is")
        must(all(part <= self.plans for part in parts), "a subproblem has a plan that the problem has not")
        must((verdict == r.UNSOLVABLE) == (not slots), "unsolvable is not said exactly when the agenda is empty")
        must(verdict != r.UNSOLVABLE or not self.plans, "unsolvable is said where a plan exists")
        all_marked = bool(slots) and slots[-1][1] == (1 << held.n) - 1
        must((verdict == r.SOLVED) == all_marked, "solved is not said exactly when the top is instantiated")
        if verdict == r.SOLVED:
            shown = tuple(brute.held_values(mask)[0] for mask in slots[-1][0])
            must(shown in self.plans, "solved shows what is no plan")
        limit = brute.step_limit(held.n, self.problem.domains)
        left = sum(brute.steps_left(held.n, *slot) for slot in slots)
        must(held.steps + left <= limit, "the steps taken and those still possible pass the step limit")
        must(held.steps <= limit, "the step limit is passed")
        if held.steps == limit > 0:
            self.met("brute: stop, at the step limit")
        self.met("brute: stop, " + r.VERDICT_WORDS[verdict])

    def requests_for(self, held):
        """Some requests, the first a good one for the top, the next made for the same top."""
        domains, bits = held.slots_in_use()[-1]
        P = r.Subproblem(tuple(domains), frozenset(i for i in range(held.n) if (bits >> i) & 1))
        return [self.request_for(P) for _ in range(self.rng.randrange(1, 4))]

    def request_for(self, P):
        """A good request of one of this journey's kinds, or of any kind where there is none."""
        request = inputs.good_request(self.rng, self.problem, P, self.rng.choice(self.kinds))
        return request or inputs.any_good_request(self.rng, self.problem, P)

    def to_the_end(self):
        """Runs, saves and loads until a verdict, looking at each stop; gives the search and requests taken."""
        held = self.opened()
        verdict = self.run(held, []).verdict
        self.look(held, verdict)
        taken = []
        for _ in range(MOST_ROUNDS):
            if verdict != r.RUNNING:
                break
            requests = self.requests_for(held)
            answer = self.run(held, requests)
            taken += requests[:answer.taken]
            verdict = answer.verdict
            self.look(held, verdict)
            if self.rng.random() < 0.15:
                held = self.saved_and_loaded(held)
        return held, taken

    def cut_against_uncut(self, held, taken):
        """The requests taken one by one above, in one run: the same agenda, counts and verdict."""
        uncut = self.opened()
        answer = self.run(uncut, taken)
        must(answer.taken == len(taken) and answer.refusal == 0, "an uncut run does not take what the cut one took")
        must(uncut.outcome() == held.outcome(), "cut and uncut differ")
        self.met("brute: cut against uncut")

    def chooser_cut_against_uncut(self):
        """The chooser, some steps and then the rest after save and load, against all at once."""
        uncut, cut = self.opened(), self.opened()
        last = self.choose(uncut, 3000)
        self.look(uncut, last.verdict)
        first = self.choose(cut, self.rng.randrange(last.taken + 1))
        self.look(cut, first.verdict)
        cut = self.saved_and_loaded(cut)
        rest = self.choose(cut, 3000 - first.taken)
        must(cut.outcome() == uncut.outcome(), "cut and uncut choosers differ")
        must((rest.verdict, rest.refusal) == (last.verdict, last.refusal), "cut and uncut choosers end differently")
        self.met("brute: chooser cut against uncut")


def travel(rng, ask, met, journeys):
    """So many journeys."""
    for _ in range(journeys):
        journey = Journey(rng, ask, met)
        held, taken = journey.to_the_end()
        journey.cut_against_uncut(held, taken)
        journey.chooser_cut_against_uncut()
