#!/usr/bin/env python3
"""Works out, with no line of the program, what `list_sheets` must print, and compares it with crates/list_sheets/stdout.

A sheet's text is read by its rules, line by line. A listing is not run by its steps: all states of at least some mass are
found by going through the parts, and are sorted by mass; a state is handed out where each state on its way from the empty one,
but itself, works or is left by a move. How many wait follows from how many steps lead on from those handed out. It also sees
that the sheets in crates/list_sheets/data are those in sheets/, and that the program lists each of them. With --write it
writes the stdout. Exit status 0 when all agrees."""
import pathlib
import re
import sys

from masses import TOTAL, figure, mass, parent
from stored import compare

MOST = 4096
LIMITED = [("worked.txt", 7), ("worked.txt", 6), ("worked.txt", 0), ("cabinet.txt", 10)]
COUNTS = {b"part": (3, 3), b"path": (1, 40), b"feed": (1, 1)}


class Fault(Exception):
    def __init__(self, number, layer, line, field):
        super().__init__(f"refused,{number},{layer},{line},{field}")


def numbers_in(fields, line):
    for place, field in enumerate(fields, start=2):
        if not re.fullmatch(rb"0|[1-9][0-9]{0,7}", field):
            raise Fault(17, "line", line, place)
    return [int(field) for field in fields]


def read(text):
    """The grades, the paths as sets of part numbers, and the feed part; or the first fault."""
    if len(text) > 65536:
        raise Fault(13, "text", 0, 0)
    grades, paths, feed = [], [], None
    lines = text.split(b"\n")
    last = lines.pop()
    for line, row in enumerate(lines + ([last] if last else []), start=1):
        if line > len(lines):
            raise Fault(14, "text", line, 0)
        word, *fields = row.split(b",")
        if word not in COUNTS:
            raise Fault(15, "line", line, 1)
        if not COUNTS[word][0] <= len(fields) <= COUNTS[word][1]:
            raise Fault(16, "line", line, 0)
        numbers = numbers_in(fields, line)
        late = feed is not None or (word == b"part" and paths)
        if late or (word == b"part" and numbers[0] != len(grades) + 1):
            raise Fault(18, "line", line, 1)
        if word == b"part":
            if len(grades) == 40:
                raise Fault(5, "draft", line, 2)
            if numbers[1] > 39:
                raise Fault(2, "draft", line, 3)
            if grades and numbers[1] < grades[-1]:
                raise Fault(4, "draft", line, 3)
            grades.append(numbers[1])
            continue
        before = 0
        for place, number in enumerate(numbers, start=2):
            if not before < number <= len(grades):
                raise Fault(19, "line", line, place)
            before = number
        if word == b"feed":
            feed = numbers[0]
            continue
        if len(paths) == 256:
            raise Fault(20, "line", line, 0)
        paths.append(frozenset(numbers))
    if feed is None:
        raise Fault(18, "line", len(lines) + 1, 1)
    return grades, paths, feed


def heaviest(grades, least):
    """All states of at least this mass, heaviest first, of equal ones that of the smaller number. A state with later parts
    sound outweighs all that agree with it up to its greatest part."""
    count = len(grades)
    found = []

    def go(failed, number, top, left):
        whole = left
        for grade in grades[top:]:
            whole -= whole * figure(grade) // 1000000
        if whole < least:
            return
        found.append((-whole, number, failed))
        for part in range(top + 1, count + 1):
            falls = left * figure(grades[part - 1]) // 1000000
            go(failed | {part}, number + 2 ** (part - 1), part, falls)
            left -= falls

    go(frozenset(), 0, 0, TOTAL)
    return [failed for _, _, failed in sorted(found)]


def handed_out(grades, works, least):
    handed = {}
    for state in heaviest(grades, least):
        if not state:
            handed[state] = True
        else:
            before, added = parent(state)
            handed[state] = handed[before] and (works(before) or not added)
    return [state for state, out in handed.items() if out]


def rows(grades, works, most, order):
    """The lines of a listing that hands out states in this order; none where the order is too short to say how it ends."""
    count, waiting, up, down, lines = len(grades), 1, 0, 0, []
    for step in range(most + 1):
        if waiting == 0:
            return lines + ["end,finished"]
        if step == most:
            return lines + ["end,spent"]
        if step == len(order):
            return None
        state = order[step]
        top = max(state, default=0)
        working = works(state)
        waiting += (top < count and working) + (0 < top < count) - 1
        if waiting > 1024:
            return lines + ["end,full"]
        if working:
            up += mass(grades, state)
        else:
            down += mass(grades[:top], state)
        number = sum(2 ** (part - 1) for part in state)
        low, high = up * 10**9 // TOTAL, -(-(TOTAL - down) * 10**9 // TOTAL)
        lines.append(f"{step + 1},{number},{'up' if working else 'down'},{low},{high}")


def listing(text, most):
    try:
        grades, paths, feed = read(text)
    except Fault as fault:
        return [str(fault)]
    works = lambda failed: feed not in failed and any(not (path & failed) for path in paths)
    least = TOTAL
    while True:
        found = rows(grades, works, most, handed_out(grades, works, least))
        if found is not None:
            return ["step,state,verdict,lower,upper"] + found
        least //= 8


def main():
    top = pathlib.Path(__file__).resolve().parent.parent
    crate = top / "crates" / "list_sheets"
    sheets = {path.name: path.read_bytes() for path in (top / "sheets").iterdir()}
    copies = {path.name: path.read_bytes() for path in (crate / "data").iterdir()}
    if sheets != copies:
        return "crates/list_sheets/data holds other sheets than sheets/"
    cases = [(name, MOST) for name in sorted(sheets)] + LIMITED
    lines = [line for name, most in cases for line in [f"{name},{most}"] + listing(sheets[name], most)]
    compare("list_sheets", lines)


if __name__ == "__main__":
    sys.exit(main())
