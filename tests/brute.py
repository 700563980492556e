"""Plans by brute force on small problems, straight from document 01's words and from nothing else here.

It reads masks and tables by itself, so that a mistake in reference.py cannot hide a mistake elsewhere.
"""

from itertools import product


def held_values(mask):
    """The values of a mask."""
    return [value for value in range(16) if (mask >> value) & 1]


def beside(n, d, tables, i, a, j, b):
    """Whether value b of j is allowed beside value a of i."""
    return (tables[(i * n + j) * d + a] >> b) & 1 == 1


def is_plan(n, d, domains, tables, choice):
    """Whether each variable holds a value of its domain and every two hold allowed values."""
    in_domains = all((domains[i] >> choice[i]) & 1 for i in range(n))
    return in_domains and all(beside(n, d, tables, i, choice[i], j, choice[j])
                              for i in range(n) for j in range(n) if i != j)


def plans(n, d, domains, tables):
    """All solutions, as a set of tuples of values."""
    choices = product(*[held_values(mask) for mask in domains])
    return {choice for choice in choices if is_plan(n, d, domains, tables, choice)}


def size(domains):
    """The number of possibilities: the product of the domain sizes."""
    number = 1
    for mask in domains:
        number *= len(held_values(mask))
    return number


def step_limit(n, domains):
    """The most steps ever accepted: S × (n + 1) − 1, and none where S is 0."""
    possibilities = size(domains)
    return possibilities * (n + 1) - 1 if possibilities else 0


def steps_left(n, domains, marked_bits):
    """The most steps that a subproblem can still cost: size × (unmarked + 1) − 1."""
    return size(domains) * (n - bin(marked_bits).count("1") + 1) - 1
