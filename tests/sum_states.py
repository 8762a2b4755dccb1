#!/usr/bin/env python3
"""Works out, with no line of the program, what `sum_states` must print, and compares it with crates/sum_states/stdout.

It also compares the rounded sums with unrounded products: rounding may raise the reliability, by less than 2^n units of
10^-18, and never lowers it. Exit status 0 when all agrees."""
from fractions import Fraction

from masses import TOTAL, figure, mass, subsets
from stored import compare


def exact(grades, failed):
    p = Fraction(1)
    for part, grade in enumerate(grades, start=1):
        q = Fraction(figure(grade), 1000000)
        p *= q if part in failed else 1 - q
    return p


def report(name, parts, paths, feed, states):
    grades = [grade for grade, _ in parts]
    works = lambda failed: feed not in failed and any(not (path & failed) for path in paths)
    lines = [name, "part,grade,ppm,cents"]
    lines += [f"{i},{g},{figure(g)},{c}" for i, (g, c) in enumerate(parts, start=1)]
    every = list(subsets(range(1, len(parts) + 1)))
    if states:
        rows = sorted((sum(2 ** (i - 1) for i in s), mass(grades, s), "up" if works(s) else "down") for s in every)
        lines += ["state,mass,verdict"] + [",".join(map(str, row)) for row in rows]
    working = sum(mass(grades, s) for s in every if works(s))
    failing = sum(mass(grades, s) for s in every if not works(s))
    unrounded = sum(exact(grades, s) for s in every if works(s)) * TOTAL
    assert working + failing == TOTAL
    assert 0 <= working - unrounded < 2 ** len(parts), (name, working, unrounded)
    return lines + [f"working,{working}", f"failing,{failing}", f"reliability,{working * 10**9 // TOTAL}"]


SMALL = ("small station", [(7, 64000), (7, 64000), (17, 9500)], [{1}, {2}], 3, True)
CABINET = (
    "cabinet",
    [(5, 182000), (5, 182000), (8, 74000), (8, 74000), (11, 74000), (12, 3900), (12, 3900), (16, 41500), (20, 26000)],
    [{radio, amplifier, fan, 8} for fan in (6, 7) for radio, amplifier in ((1, 3), (1, 5), (2, 4), (2, 5))],
    9,
    False,
)

compare("sum_states", report(*SMALL) + report(*CABINET))
