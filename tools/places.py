#!/usr/bin/env python3
"""Lists the places in src/ that older forms of the language may have left, point by point.

    tools/places.py [TOP] [-v]

TOP is a checkout (this one, if none is named). -v prints each place. A pattern finds candidates; which of them are places, and
why one stays, is read and written in docs/DESIGN-PASS.md.
"""
import pathlib
import re
import sys
from collections import defaultdict

SKIP = re.compile(r"^\s*//")


def sources(top):
    for path in sorted(top.glob("crates/*/src/**/*.rt")):
        yield path.relative_to(top / "crates"), path.read_text().splitlines()


def code(lines):
    """The lines of code with their numbers: no comments, no ghost lines, no clauses."""
    for number, line in enumerate(lines, 1):
        if SKIP.match(line) or re.match(r"\s*(ghost|requires|ensures)\b", line):
            continue
        yield number, line


PATTERNS = {
    "1 an answer passed on by hand": r"let (Ok|Some|Err)\(.*\) = .*|Ok\((\w+)\) => Ok\(\2\)|Err\(\w+\) => (return )?Err|None => (return )?(None|Err)",
    "1 a number for a refusal or a place in an error": r"Result<.*, u(8|16|32|64|size)>|unwrap_or\(0\)",
    "3 a loop that counts, searches or folds by hand": r"^\s*for .* in |^\s*while |^\s*loop \{",
    "4 a conversion by `as` or by a constructor that tests": r"\bas (u8|u16|u32|u64|usize|char)\b|pub(\(crate\))? fn new\(\w+: u\d+\) -> (Option|Result)",
    "4 an order or an equality by hand": r"Rank::|Stage::\w+ => true",
    "4 printing by hand": r'=> "|if \w+.* \{ "',
    "7 a switch on which step to run": r"dyn |: fn\(|Call::\w+.* =>",
}


def own_enums(lines):
    """Enums of two cases, one of which carries a value and one none, as Option, or both, as Result."""
    text = "\n".join(lines)
    for found in re.finditer(r"enum (\w+)[^{]*\{(.*?)\n\}", text, re.S):
        cases = re.findall(r"^    (\w+)(\(|\{)?", re.sub(r"//.*", "", found.group(2)), re.M)
        carries = [bool(mark) for _, mark in cases]
        if len(cases) == 2 and any(carries):
            yield text[: found.start()].count("\n") + 1, "enum " + found.group(1)


def flags(lines):
    for number, line in code(lines):
        if re.search(r"\b\w+: bool\b", line):
            yield number, line.strip()


def buffers(lines):
    for number, line in code(lines):
        if re.search(r"while \w+ < \w+ \{", line) or re.search(r"^\s*(pub(\(crate\))? )?parts: usize", line):
            yield number, line.strip()


def repeated(top):
    """Functions and types that stand twice: the same name, or the same body once names and numbers are blotted out."""
    named, shaped = defaultdict(list), defaultdict(list)
    for path, lines in sources(top):
        text = "\n".join(line for _, line in code(lines))
        for found in re.finditer(r"\b(fn|struct|enum) (\w+)[^;{]*(\{.*?\n(    )?\})", text, re.S):
            kind, name, body = found.group(1), found.group(2), found.group(3)
            where = f"{path}: {kind} {name}"
            if kind != "fn" or name not in ("new", "main", "run", "works_in", "key", "compare", "number", "from", "fmt"):
                named[kind, name].append(where)
            if kind == "fn":
                shape = re.sub(r"\b(\w*[a-z]\w*|\d[\d_]*)\b", "x", re.sub(r"\s+", " ", body))
                if len(shape) > 24:
                    shaped[shape].append(where)
    twice = [places for places in named.values() if len(places) > 1]
    twice += [places for places in shaped.values() if len(places) > 1 and sorted(places) not in map(sorted, twice)]
    return twice


def travelling(top):
    """Pairs of parameters that stand together in three functions or more of a crate."""
    pairs = defaultdict(set)
    for path, lines in sources(top):
        text = "\n".join(lines)
        for found in re.finditer(r"\bfn (\w+)(?:<.*?>)?\((.*?)\)\s*(?:->|\n|requires|ensures|\{)", text, re.S):
            parts = sorted(set(re.findall(r"(\w+): ", found.group(2))))
            for i, one in enumerate(parts):
                for other in parts[i + 1:]:
                    pairs[path.parts[0], one, other].add(found.group(1))
    return {k: v for k, v in pairs.items() if len(v) > 2}


def facts(top):
    """Facts of clauses that stand at three functions or more of a crate."""
    seen = defaultdict(set)
    for path, lines in sources(top):
        name = ""
        for number, line in enumerate(lines, 1):
            called = re.search(r"\bfn (\w+)", line)
            if called:
                name = called.group(1)
            clause = re.match(r"\s*(?:requires|ensures)\s*\w*\s*\{ (.*) \}$", line)
            if clause:
                for fact in re.split(r" × | → ", clause.group(1)):
                    fact = re.sub(r"\b(self|waiting|listing)\.(old|now|new)\b", r"\1", fact.strip("() "))
                    seen[path.parts[0], fact].add(name)
    return {k: v for k, v in seen.items() if len(v) > 2}


def main():
    words = [word for word in sys.argv[1:] if word != "-v"]
    top = pathlib.Path(words[0] if words else pathlib.Path(__file__).resolve().parent.parent)
    verbose = "-v" in sys.argv[1:]
    found = defaultdict(list)
    for path, lines in sources(top):
        for title, pattern in PATTERNS.items():
            for number, line in code(lines):
                if re.search(pattern, line):
                    found[title].append(f"{path}:{number}: {line.strip()}")
        for title, finder in (
            ("1 an own enum of the shape of Option or Result", own_enums),
            ("1 a flag", flags),
            ("6 a count beside a buffer, a search by hand", buffers),
        ):
            found[title] += [f"{path}:{number}: {line}" for number, line in finder(lines)]
    found["2 the same name or shape twice"] = [" = ".join(places) for places in repeated(top)]
    found["5 parameters that travel together"] = [f"{k[0]}: {k[1]}, {k[2]}: {', '.join(sorted(v))}" for k, v in sorted(travelling(top).items())]
    found["5 a fact in three contracts or more"] = [f"{k[0]}: {k[1]}: {', '.join(sorted(v))}" for k, v in sorted(facts(top).items())]
    answers = sorted(top.glob("crates/*/proofs/**/Answers.antt"))
    found["8 a file of answers"] = [str(path.relative_to(top / "crates")) for path in answers]
    for title in sorted(found):
        print(f"{len(found[title]):4} {title}")
        if verbose:
            for place in found[title]:
                print("       " + place)


if __name__ == "__main__":
    main()
