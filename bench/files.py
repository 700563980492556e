#!/usr/bin/env python3
"""The problem files of the speed measurements, the same bytes each time.

  files.py FOLDER     writes them into a folder

Only random() of a generator with a fixed seed is drawn from, which all versions of Python give alike. The blocks are
written by the second implementation in tests/.
"""

import os
import random
import sys

sys.path.insert(0, os.path.join(os.path.dirname(os.path.abspath(__file__)), os.pardir, "tests"))

import reference as r  # noqa: E402

SEED = 1071


def below(rng, number):
    """A number below the one given."""
    return int(rng.random() * number)


def full(d):
    """The mask of all values."""
    return (1 << d) - 1


def allow(tables, n, d, i, a, j, b):
    """Allows b of j beside a of i, both ways."""
    tables[(i * n + j) * d + a] |= 1 << b
    tables[(j * n + i) * d + b] |= 1 << a


def random_tables(rng, n, d, density, tightness, plan=None):
    """Each pair is constrained by the chance density; of a constrained pair each two values are forbidden by the chance
    tightness, unless both are the plan's."""
    tables = [0] * (n * n * d)
    for i, j in r.pairs(n):
        constrained = rng.random() < density
        for a in range(d):
            for b in range(d):
                forbidden = constrained and rng.random() < tightness
                if not forbidden or (plan and (plan[i], plan[j]) == (a, b)):
                    allow(tables, n, d, i, a, j, b)
    return tables


def all_different(n, d):
    """Tables in which all variables differ."""
    return [0 if i == j else full(d) & ~(1 << a) for i in range(n) for j in range(n) for a in range(d)]


def fresh(n, d, domains, tables):
    """A search as opening leaves it."""
    problem = r.Problem(n, d, tuple(domains), tuple(tables))
    return r.Search(problem, 512, [r.Subproblem(problem.domains, frozenset())], 0, 0)


def dense(rng):
    """Every pair constrained, about as tight as leaves one plan in the mean."""
    return fresh(32, 16, [full(16)] * 32, random_tables(rng, 32, 16, 1.0, 0.164))


def sparse(rng):
    """Two pairs in five constrained, each more tightly."""
    return fresh(32, 16, [full(16)] * 32, random_tables(rng, 32, 16, 0.4, 0.36))


def pigeons(rng):
    """All of 32 variables differ, of 16 values."""
    return fresh(32, 16, [full(16)] * 32, all_different(32, 16))


def eight(rng):
    """Every pair constrained, of 8 values."""
    return fresh(32, 8, [full(8)] * 32, random_tables(rng, 32, 8, 1.0, 0.126))


def small(rng):
    """All of 12 variables differ, of 11 values."""
    return fresh(12, 16, [full(11)] * 12, all_different(12, 16))


def crowded(rng):
    """All of 32 variables differ, of 16 values, above 496 subproblems: no room for the pieces of kind 3."""
    search = pigeons(rng)
    return search._replace(agenda=search.agenda * 497)


def once(rng):
    """Variables 0 to 2 have one value each, and that of 2 leaves none of 3."""
    tables = random_tables(rng, 32, 16, 1.0, 0.164, [0] * 32)
    for a in range(16):
        tables[(2 * 32 + 3) * 16 + 0] &= ~(1 << a)
        tables[(3 * 32 + 2) * 16 + a] &= ~1
    return fresh(32, 16, [1, 1, 1] + [full(16)] * 29, tables)


def marked_part(rng, plan, chance):
    """A subproblem that holds the plan, each variable instantiated by a chance, else with some values more."""
    marked = frozenset(i for i in range(32) if rng.random() < chance)
    masks = [1 << plan[i] if i in marked else 1 << plan[i] | below(rng, 1 << 16) for i in range(32)]
    return r.Subproblem(tuple(masks), marked)


def largest(rng):
    """101 blocks: 512 subproblems, half of their variables instantiated; the top one lacks one instantiated variable."""
    plan = [below(rng, 16) for _ in range(32)]
    tables = random_tables(rng, 32, 16, 1.0, 0.164, plan)
    agenda = [marked_part(rng, plan, 0.5) for _ in range(511)]
    agenda.append(r.Subproblem(tuple(1 << v for v in plan), frozenset(range(31))))
    return fresh(32, 16, [full(16)] * 32, tables)._replace(agenda=agenda, steps=1000, checks=100000)


FILES = (dense, sparse, pigeons, eight, small, crowded, once, largest)


def write_all(folder):
    """Writes every file into the folder, each from its own draw of the seed."""
    for number, make in enumerate(FILES):
        file = r.file_of(r.content_of(make(random.Random(SEED + number))))
        with open(os.path.join(folder, make.__name__ + ".search"), "wb") as out:
            out.write(file)


if __name__ == "__main__":
    if len(sys.argv) != 2:
        sys.exit(__doc__)
    write_all(sys.argv[1])
