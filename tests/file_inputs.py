"""Files for the program, for differential.py: fresh, stopped midway, full, near the step limit, and spoiled.

Each is given as a label, its bytes, and its text where the making of it already gave that. The program runs
up to 1,000,000 steps, so a search that the reference does not end within some hundred steps is brought near
the step limit, where refusal 11 ends it.
"""

import inputs
import reference as r

BUDGET = 800


def file_of(search):
    """The bytes that save writes of a search."""
    return r.file_of(r.content_of(search))


def quick_text(file):
    """The program's text, or None where it would take more steps than the budget."""
    text = r.answer_to(file, BUDGET)
    return None if text.startswith("running") and "refused" not in text else text


def hurried(rng, search):
    """The search with its count of steps so near the limit that refusal 11 ends it soon."""
    return search._replace(steps=r.MOST_STEPS - rng.choice((0, 1, 2, rng.randrange(40))))


def random_size(rng):
    """n and d over the whole range."""
    style = rng.randrange(10)
    if style < 5:
        return rng.randrange(1, 6), rng.randrange(1, 6)
    if style < 8:
        return rng.randrange(6, 17), rng.randrange(1, 13)
    if style < 9:
        return rng.randrange(17, 33), rng.randrange(1, 17)
    return rng.choice(((32, 16), (32, 1), (32, 2), (1, 16), (31, 16), (32, 15), (1, 1)))


def any_problem(rng, empty_chance=0.05):
    """A problem of any size."""
    n, d = random_size(rng)
    return inputs.random_problem(rng, n, d, empty_chance=empty_chance)


def small_problem(rng):
    """A problem that the reference works through at once."""
    return inputs.random_problem(rng, rng.randrange(1, 6), rng.randrange(1, 6))


def small_search(rng):
    """A search on a small problem, with an agenda from anywhere."""
    return inputs.random_search(rng, small_problem(rng))


def fresh(rng):
    """A search just opened."""
    return inputs.opened(any_problem(rng), 512)


def after_kind(kind):
    """A maker of searches stopped just after a request of this kind."""
    def make(rng):
        """Some requests of any kind, then one of this kind; None where there is none."""
        search = inputs.walked(rng, inputs.opened(any_problem(rng, 0.0), 512), rng.randrange(8))[0]
        if not inputs.is_running(search):
            return None
        request = inputs.good_request(rng, search.problem, search.agenda[-1], kind)
        if request is None:
            return None
        refusal, search = r.step(search, request)
        return None if refusal else search
    return make


def after_chooser(rng):
    """A search stopped after some steps of the chooser, still running."""
    search = r.choose_list(inputs.opened(any_problem(rng, 0.0), 512), rng.randrange(1, 12))[2]
    return search if inputs.is_running(search) else None


def finished(verdict):
    """A maker of searches stopped at this verdict."""
    def make(rng):
        """The chooser to its end; None where it ends otherwise."""
        search = r.choose_list(inputs.opened(any_problem(rng, 0.1), 512), BUDGET)[2]
        return search if r.verdict_of(search.problem, search.agenda) == verdict else None
    return make


def full(rng):
    """An agenda that leaves the chooser little room or none, with a top that it can split."""
    problem = inputs.random_problem(rng, rng.randrange(2, 5), rng.randrange(2, 5), rng.randrange(2, 5))
    problem = problem._replace(domains=((1 << problem.d) - 1,) * problem.n)
    below = inputs.random_agenda(rng, problem, 2)
    number = rng.choice((512, 512, 512, 511, 510))
    top = r.Subproblem(problem.domains, frozenset())
    return r.Search(problem, 512, [rng.choice(below) for _ in range(number - 1)] + [top], 7, 0)


def near_limit(rng):
    """A search whose steps are all but used up."""
    search = small_search(rng)
    return hurried(rng, search) if inputs.is_running(search) else None


def largest(rng):
    """n 32, d 16 and 512 subproblems: 101 blocks, with a top that is decided soon."""
    problem = inputs.random_problem(rng, 32, 16, 4)
    below = inputs.random_agenda(rng, problem, 3)
    search = r.Search(problem, 512, [rng.choice(below) for _ in range(512)], 1000, 400000)
    return hurried(rng, search) if rng.random() < 0.5 else search


SEARCHES = {
    "fresh": (fresh, 110),
    "after kind 1": (after_kind(1), 25),
    "after kind 2": (after_kind(2), 25),
    "after kind 3": (after_kind(3), 25),
    "after kind 4": (after_kind(4), 25),
    "after kind 5": (after_kind(5), 25),
    "after the chooser": (after_chooser, 25),
    "already solved": (finished(r.SOLVED), 25),
    "already unsolvable": (finished(r.UNSOLVABLE), 25),
    "agenda from anywhere": (small_search, 40),
    "agenda full or nearly": (full, 50),
    "steps near the limit": (near_limit, 40),
}


def drawn(rng, make):
    """A search from a maker, drawn again while it has none."""
    while True:
        search = make(rng)
        if search is not None:
            return search


def files_of_searches(rng, times):
    """The files that should be read and run."""
    for label, (make, number) in SEARCHES.items():
        for _ in range(number * times):
            search = drawn(rng, make)
            file = file_of(search)
            text = quick_text(file)
            yield (label, file, text) if text else (label, file_of(hurried(rng, search)), None)
    for _ in range(4 * times):
        yield "101 blocks", file_of(largest(rng)), None


def files_refused_14(rng, rounds):
    """Each reason of 14, one by one; and FFFF where the check 0 is right, beside the right one."""
    for _ in range(rounds):
        for name, spoil in inputs.FILE_FAULTS_14.items():
            yield "spoiled for 14", spoil(rng, file_of(small_search(rng))), None
        file = None
        while file is None:
            file = inputs.file_with_check_0(rng, small_search(rng))
        yield "check 0", file, None
        yield "check FFFF for 0", inputs.with_word(file, 0, 255, 0xFFFF), None


def files_refused_15(rng, rounds):
    """Each reason of 15, one by one."""
    for _ in range(rounds):
        for name in inputs.FAULTS_OF_15:
            content = None
            while content is None:
                content = inputs.spoiled_content(rng, small_search(rng), name)
            yield "spoiled for 15", r.file_of(content), None


def files_with_bit_changed(rng, rounds):
    """One bit changed anywhere, its block's check mended and not."""
    for _ in range(rounds):
        file = file_of(small_search(rng))
        used = 16 * (2 + len(r.content_of(r.search_in(r.content_in(file), 512)))) if len(file) == 512 else 0
        place = rng.randrange(used) if used and rng.random() < 0.6 else rng.randrange(8 * len(file))
        changed = inputs.with_bit_changed(file, place)
        yield "bit changed", changed, None
        yield "bit changed, check mended", inputs.mended(changed, place // 4096), None


def all_files(rng, times):
    """Every file of part (a), each with its label, and its text where that is known already."""
    yield from files_refused_14(rng, 22 * times)
    yield from files_refused_15(rng, 22 * times)
    yield from files_with_bit_changed(rng, 60 * times)
    yield from files_of_searches(rng, times)


# ---- The limit of 1,000,000 steps, by parts -------------------------------------------------------

def exhausted(problem, subproblem):
    """What the chooser spends on a subproblem that it proves unsolvable: steps, checks, most subproblems."""
    search = r.Search(problem, 512, [subproblem], 0, 0)
    most = 1
    while inputs.is_running(search):
        search = r.choose_list(search, 1)[2]
        most = max(most, len(search.agenda))
    assert not search.agenda
    return search.steps, search.checks, most


def pigeons(n, d):
    """n variables that all differ, of d values: unsolvable where d is below n."""
    full_mask = (1 << d) - 1
    tables = [0 if i == j else full_mask & ~(1 << a) for i in range(n) for j in range(n) for a in range(d)]
    return r.Problem(n, d, (full_mask,) * n, tuple(tables))


def spent_on_each(problem):
    """For each number of values, widest first: the subproblem with those domains, and what is spent on it."""
    masks = [(1 << width) - 1 for width in range(problem.d, 0, -1)]
    whole = [r.Subproblem((mask,) * problem.n, frozenset()) for mask in masks]
    return [(subproblem,) + exhausted(problem, subproblem) for subproblem in whole]


def copies_for(total, spent):
    """How many copies of each subproblem make the chooser take exactly so many steps."""
    numbers = []
    for _, steps, _, _ in spent:
        numbers.append(total // steps)
        total %= steps
    assert total == 0
    return numbers


def files_at_the_limit():
    """Searches that would take 999,999, 1,000,000 and 1,000,001 steps, and the texts that the parts add up to.

    The agenda holds copies of few subproblems, none with a solution, the narrowest at the bottom, which
    takes one step. The chooser looks only at the top and at the room, and there is room enough, so it
    spends on each copy what it spends on it alone.
    """
    problem = pigeons(7, 6)
    spent = spent_on_each(problem)
    for total in (999999, 1000000, 1000001):
        numbers = copies_for(total, spent)
        agenda = []
        for number, part in zip(numbers, spent):
            agenda = [part[0]] * number + agenda
        assert len(agenda) + max(part[3] for part in spent) <= 512
        checks = sum(number * part[2] for number, part in zip(numbers, spent))
        over = total > r.PROGRAM_STEPS
        assert not over or numbers[-1] > 0
        verdict = r.VERDICT_WORDS[r.RUNNING if over else r.UNSOLVABLE]
        counts = (5 + min(total, r.PROGRAM_STEPS), 100 + checks - (spent[-1][2] if over else 0))
        file = file_of(r.Search(problem, 512, agenda, 5, 100))
        yield file, "%s\nsteps %d checks %d\n" % ((verdict,) + counts)
