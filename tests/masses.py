"""Grades, sets of parts, their numbers, masses and steps, written with no line of the program."""
from itertools import combinations

DECADE = [500000, 400000, 315000, 250000, 200000, 160000, 125000, 100000, 80000, 63000]
TOTAL = 10**18


def figure(grade):
    return DECADE[grade % 10] // 10 ** (grade // 10)


def subsets(parts):
    for size in range(len(parts) + 1):
        yield from (frozenset(c) for c in combinations(parts, size))


def mass(grades, failed):
    left = TOTAL
    for part, grade in enumerate(grades, start=1):
        falls = left * figure(grade) // 1000000
        left = falls if part in failed else left - falls
    return left


def number(state):
    return sum(2 ** (part - 1) for part in state)


def parent(state):
    """The state one step before, and whether that step was an add."""
    top = max(state)
    rest = state - {top}
    if top == 1 or top - 1 in rest:
        return rest, True
    return rest | {top - 1}, False
