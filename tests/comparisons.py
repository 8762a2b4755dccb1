#!/usr/bin/env python3
"""Works out, with no line of the program, what `comparisons` must print, and compares it with crates/comparisons/stdout.

The stations are made by the program's rule, which stands here once more. States are sets, and a listing is not run by its steps:
all states of a sheet are sorted, and those are left out that no listing may hand out (a state is handed out where each state on
its way from the empty one, but itself, works or is left by a move). Whether a listing ends full follows from how many steps lead
on from the states handed out. With --write it writes the stdout. Exit status 0 when all agrees."""
from masses import mass, number, parent, subsets
from stored import compare

MASK = 2**64 - 1
MOST_WAITING = 1024


class Draws:
    """The program's numbers, each worked out from the one before."""

    def __init__(self, count, steps):
        self.seed = count * 256 + steps

    def word(self):
        self.seed = (self.seed * 6364136223846793005 + 1442695040888963407) & MASK
        return self.seed >> 33

    def below(self, bound):
        return self.word() % bound

    def set(self, count):
        drawn = self.word() % 2 ** (count + 1)
        return frozenset(p for p in range(1, count + 2) if drawn >> (p - 1) & 1)

    def part(self, count):
        return 1 + self.below(count + 2)


class Station:
    """A sheet with its states in the order of each ranking, and the draws that are left for its pile."""

    def __init__(self, count, steps):
        draws = Draws(count, steps)
        self.count, grade, grades = count, 0, []
        for _ in range(count):
            grade = min(39, grade + draws.below(steps))
            draws.below(250)
            grades.append(grade)
        self.left = draws.seed
        self.states = sorted(subsets(range(1, count + 1)), key=number)
        self.parents = {s: parent(s) for s in self.states if s}
        masses = {s: mass(grades, s) for s in self.states}
        self.orders = {
            "exact": sorted(self.states, key=lambda s: -masses[s]),
            "points": sorted(self.states, key=lambda s: sum(grades[p - 1] for p in s)),
        }

    def draws(self):
        draws = Draws(0, 0)
        draws.seed = self.left
        return draws

    def handed_out(self, up):
        """The states that a listing may hand out, and how many steps to such states lead on from each."""
        may, children = {frozenset()}, {frozenset(): 0}
        for s in self.states[1:]:
            before, added = self.parents[s]
            if before in may and (before in up or not added):
                may.add(s)
                children[s] = 0
                children[before] += 1
        return may, children


def path_list(draws, count):
    paths = [draws.set(count) for _ in range(draws.below(5))]
    return lambda s: any(not p & s for p in paths)


def quorum(draws, count):
    least = draws.below(count + 2)
    members = draws.set(count)
    return lambda s: len(members - s) >= least


def network(draws, count):
    start, end = draws.below(5), draws.below(5)
    links = []
    for _ in range(count + 1):
        one, other = draws.below(5), draws.below(5)
        links.append((one, other, draws.part(count)))

    def works(s):
        sound = [{a, b} for a, b, p in links if p not in s]
        reached, before = {start}, set()
        while reached != before:
            before = set(reached)
            for ends in sound:
                if ends & reached:
                    reached |= ends
        return end in reached

    return works


def bare(below, part):
    return below


def feed(below, part):
    return lambda s: part not in s and below(s)


def bypass(below, part):
    return lambda s: part not in s or below(s)


def sound(below, part):
    return lambda s: below(s - {part})


def failed(below, part):
    return lambda s: below(s | {part})


def row(name, ranking, figures):
    """A line of a kind of pile: figures of stations, each whether it is full, how many working states and cuts, and its order."""
    handed = sum(len(order) for _, _, _, order in figures)
    full = sum(f for f, _, _, _ in figures)
    working = sum(w for f, w, _, _ in figures if not f)
    cuts = sum(c for f, _, c, _ in figures if not f)
    pairs = sum(max(len(order) - 1, 0) for _, _, _, order in figures)
    digest = 0
    for _, _, _, order in figures:
        for s in order:
            digest = (digest * 31 + number(s)) & MASK
    # two figures a station, for each state handed out its verdict and that it is new, and each pair of neighbours
    comparisons = 2 * len(figures) + 2 * handed + pairs + working + cuts
    return f"{name},{ranking},{len(figures)},{full},{handed},{working},{cuts},{digest},{comparisons},agree"


def listed(station, up, ranking):
    """The states that a listing hands out in order, and whether it ends full."""
    may, children = station.handed_out(up)
    order, waiting = [], 1
    for s in station.orders[ranking]:
        if s in may:
            waiting += children[s] - 1
            if waiting > MOST_WAITING:
                return order, True
            order.append(s)
    return order, False


def kind(stations, bottom, layer):
    """Figures of all stations under this kind of pile, by each ranking."""
    figures = {"exact": [], "points": []}
    for station in stations:
        draws = station.draws()
        below = bottom(draws, station.count)
        works = layer(below, None if layer is bare else draws.part(station.count))
        up = {s for s in station.states if works(s)}
        cuts = sum(s not in up and all(s - {p} in up for p in s) for s in station.states)
        for ranking, rows in figures.items():
            order, full = listed(station, up, ranking)
            if not full:
                assert up <= set(order)
            rows.append((full, len(up), cuts, order))
    return figures


stations = [Station(count, steps) for count in range(13) for steps in range(1, 14 - count)]
lines = ["structure,layer,ranking,stations,full,handed,working,cuts,order,comparisons,result"]
for bottom, word in [(path_list, "path list"), (quorum, "quorum"), (network, "network")]:
    for layer, words in [
        (bare, "none"),
        (feed, "feed"),
        (bypass, "bypass"),
        (sound, "given sound"),
        (failed, "given failed"),
    ]:
        for ranking, figures in kind(stations, bottom, layer).items():
            lines.append(row(f"{word},{words}", ranking, figures))

compare("comparisons", lines)
