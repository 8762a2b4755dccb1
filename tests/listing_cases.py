#!/usr/bin/env python3
"""Works out, with no line of the program, what `listing_cases` must print, and compares it with crates/listing_cases/stdout.

States are sets here. A listing is not run by its steps: the states it hands out are found by sorting all states of the
sheet, and leaving out those that no listing may hand out (a state is handed out where each state on its way from the empty
one, but itself, works or is left by a move). Figures come from the masses of all states. Exit status 0 when all agrees."""
from masses import TOTAL, mass, number, parent, subsets
from stored import compare

MASK = 2**64 - 1


def exact(grades):
    return lambda s: (-mass(grades, s), number(s))


def points(grades):
    return lambda s: (sum(grades[p - 1] for p in s), number(s))


def by_number(grades):
    return lambda s: number(s)


class Station:
    def __init__(self, grades, works, ranking):
        self.grades, self.works = grades, works
        key = ranking(grades)
        every = sorted(subsets(range(1, len(grades) + 1)), key=key)
        handed = {}
        for s in every:
            if not s:
                handed[s] = True
            else:
                before, added = parent(s)
                handed[s] = handed[before] and (works(before) or not added)
        self.order = [s for s in every if handed[s]]
        self.masses = {s: mass(grades, s) for s in every}
        self.working = sum(m for s, m in self.masses.items() if works(s))

    def sums(self, count):
        """The up sum, and the masses of all states that agree with a failing one up to its greatest part."""
        out = self.order[:count]
        up = sum(self.masses[s] for s in out if self.works(s))
        down = 0
        for s in out:
            if not self.works(s):
                top = max(s, default=0)
                down += sum(m for y, m in self.masses.items() if {p for p in y if p <= top} == s)
        return up, down

    def waiting(self, count):
        """States that come by a step from one handed out, or the empty one, and are not handed out yet."""
        out = set(self.order[:count])
        return len([s for s in self.order[count:] if not s or parent(s)[0] in out])

    def figures(self, count):
        up, down = self.sums(count)
        return f"{up * 10**9 // TOTAL},{-(-(TOTAL - down) * 10**9 // TOTAL)},{count},{self.waiting(count)}"

    def row(self, name):
        order = 0
        for s in self.order:
            order = (order * 31 + number(s)) & MASK
        low, high = self.working * 10**9 // TOTAL, -(-self.working * 10**9 // TOTAL)
        return f"{name},{len(self.order)},{order},{low},{high},agrees"


class Calls:
    """Calls on a station, by the states that it hands out in order."""

    def __init__(self, station, limit=None):
        self.station, self.count, self.lines = station, 0, []

    def next(self):
        if self.count == len(self.station.order):
            return self.lines.append("next,finished")
        s = self.station.order[self.count]
        self.count += 1
        self.lines.append(f"next,{number(s)},{'up' if self.station.works(s) else 'down'}")

    def run(self, target, budget):
        if target > 1000000:
            return self.lines.append("run,refused,12")
        begun = self.count
        while True:
            up, down = self.station.sums(self.count)
            if up + down >= target * 10**12:
                ending = "reached"
            elif self.count == len(self.station.order):
                ending = "finished"
            elif self.count - begun == budget:
                ending = "spent"
            else:
                self.count += 1
                continue
            return self.lines.append(f"run,{ending},{self.count - begun}")

    def figures(self):
        self.lines.append("figures," + self.station.figures(self.count))


def fed(paths, feed):
    return lambda s: feed not in s and any(not (p & s) for p in paths)


def piled(count, sound):
    def works(s):
        below = s - {2} if sound else s | {2}
        return 6 not in s or len({1, 2, 3, 4, 5} - below) >= count

    return works


def networked(start, end):
    links = [(0, 1, 1), (1, 2, 2), (2, 3, 3), (3, 0, 4), (1, 3, 5)]

    def works(s):
        reached = {start}
        for _ in range(16):
            reached |= {b for a, b, p in links if p not in s and a in reached} | {a for a, b, p in links if p not in s and b in reached}
        return end in reached

    return works


def standby(s):
    return not {1, 3} <= s


lines = ["station,handed,order,lower,upper,against the sum"]
NINE = [5, 5, 8, 8, 11, 12, 12, 16, 20]
for name, grades, paths, feed in [
    ("two radios", [7, 7, 17], [{1}, {2}], 3),
    ("equal grades", [3, 3, 6], [{1, 2}, {3}], 1),
    ("even odds", [0, 0, 0, 0], [{2, 3}, {1, 4}], 4),
    ("feed off the sheet", [5, 9, 9, 20], [{1, 2}, {1, 3, 4}], 7),
    ("nine parts", NINE, [{1, 3, 6, 8}, {1, 5, 6, 8}, {2, 4, 6, 8}, {2, 4, 7, 8}], 9),
]:
    lines += [Station(grades, fed(paths, feed), r).row(name) for r in (exact, points)]
SEVEN = [1, 4, 4, 10, 15, 22, 39]
for name, count, sound in [("three of five given sound", 3, True), ("three of five given failed", 3, False), ("six of five", 6, True)]:
    lines += [Station(SEVEN, piled(count, sound), r).row(name) for r in (exact, points)]
lines += [Station([6, 6, 9, 9, 13], networked(0, 2), exact).row("square network"), Station([6, 6, 9, 9, 13], networked(1, 1), points).row("equal terminals")]
FOUR = [2, 8, 8, 30]
lines += [
    Station(FOUR, standby, by_number).row("standby"),
    Station(FOUR, standby, exact).row("standby by mass"),
    Station(FOUR, lambda s: 4 not in s and standby(s), by_number).row("standby behind a feed"),
]

c = Calls(Station([7, 7, 17], lambda s: len({1, 2, 3} - s) >= 2, exact))
c.run(0, 5), c.run(1000001, 5), c.run(1000000, 0), c.run(890000, 5), c.run(1000000, 1), c.figures(), c.run(1000000, 100), c.next(), c.figures()
lines += ["runs"] + c.lines

c = Calls(Station([7, 7, 17], lambda s: False, exact))
c.next(), c.figures(), c.next()
lines += ["empty path list"] + c.lines

c = Calls(Station([], lambda s: True, exact))
c.next(), c.next(), c.figures()
lines += ["no parts"] + c.lines

# twenty equal parts: all of size k weigh the same, so sizes come one after the other, each by number; so many wait after each
grades = [10] * 20
waiting, handed = {frozenset()}, []
key = exact(grades)
cache = {}


def keyed(s):
    if s not in cache:
        cache[s] = key(s)
    return cache[s]


while True:
    first = min(waiting, key=keyed)
    top = max(first, default=0)
    new = set()
    if top < 20:
        if len(first) <= 10:
            new.add(first | {top + 1})
        if top > 0:
            new.add(first - {top} | {top + 1})
    if len(waiting) - 1 + len(new) > 1024:
        break
    waiting = waiting - {first} | new
    handed.append(first)
assert all(len(s) <= 10 for s in handed)
up = sum(mass(grades, s) for s in handed)
shown = f"figures,{up * 10**9 // TOTAL},1000000000,{len(handed)},{len(waiting)}"
lines += ["full", f"run,full,{len(handed)}", "next,refused,11", "next,refused,11", shown, "unchanged,true"]

station = Station(FOUR, standby, by_number)
c = Calls(station)
c.run(1000000, 3), c.figures()
lines += ["stopped"] + c.lines + [station.row("opened again")]

c = Calls(station)
for call in [
    c.figures, c.next, lambda: c.run(0, 9), lambda: c.run(1000001, 9), lambda: c.run(1000000, 4),
    c.next, lambda: c.run(900000, 9), lambda: c.run(1000000, 99), c.next, c.figures,
]:
    call()
    c.figures()
lines += ["replayed"] + c.lines + [station.row("opened again")]

compare("listing_cases", lines)
