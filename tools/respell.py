#!/usr/bin/env python3
"""Respells the repository's own definitions and lemmas: words in snake case, types in upper camel case.

usage: python3 tools/respell.py        at the top of the repository, once, after the kit's port.py

A name of ours is one that a file of specs/ or proofs/ declares, or that a use line brings in under another name, and that
has a dash, or is a type in snake case. It is respelled in every .rt and .antt file of crates/, but not in a file that imports a library's word of that
spelling, and never inside an import from a library. Names that the toolchain makes (the goals that answer files answer)
keep their spelling, and so do functions of src/, strings, inputs and outputs, which have no dashes of this kind. Where a
new spelling already stands in a file that uses the old one, the script changes nothing, names both and exits with 1."""
import os
import re
import sys

ANSWERS = {"Answers.antt", "Invariants.antt", "Proof.antt", "Choices.antt"}
TOKEN = re.compile(r"[^\s(){}\[\].;,\"]+")
DECLARED = re.compile(r"\s*(?:abbrev |unfoldable |pub |record |data )*([^\s(){}:;,.]+)(?: +[({].*)? : (.*)")
HEADED = re.compile(r"\s*(?:pub )?(?:record|data) (\S+)")
RENAMED = re.compile(r"[^\s,{]+ as ([^\s,}]+)")
# where the plain respelling is another word's
CHOSEN = {"bit-and": "bit_of_and", "bit-or": "bit_of_or", "bit-xor": "bit_of_xor", "Bad-number": "IsBadNumber", "is-done": "done_at"}
IMPORT = re.compile(r"\s*(?:pub )?(?:ghost )?use ([^\s.]+(?:\.[^\s.{;]+)*)\.\{([^}]*)\}")


def files():
    for folder, dirs, names in os.walk("crates"):
        dirs[:] = sorted(d for d in dirs if d != "out")
        for name in sorted(names):
            if name.endswith((".rt", ".antt")):
                yield os.path.join(folder, name)


def declared(path, text):
    """The names with a dash that the file declares, or brings in under another name."""
    found = set()
    for line in text.splitlines():
        if IMPORT.match(line):
            found.update(RENAMED.findall(line))
        if not path.endswith(".antt"):
            continue
        head, one = HEADED.match(line), DECLARED.match(line)
        if head:
            found.add(head.group(1))
        elif one and not (os.path.basename(path) in ANSWERS and re.match(r"\s*goal\.", one.group(2))):
            found.add(one.group(1))
    dashed = r"[A-Za-z0-9_']+(-[A-Za-z0-9_']+)+"
    half_turned = r"[A-Z][a-z0-9]*(_[A-Za-z0-9']+)+"
    return {n for n in found if re.fullmatch(f"{dashed}|{half_turned}", n)}


def imported(text, crates):
    """The names that the file imports from a library."""
    names = set()
    for line in text.splitlines():
        m = IMPORT.match(line)
        if m and not (m.group(1).startswith("Rattle.") and m.group(1).split(".")[1] in crates):
            for item in m.group(2).split(","):
                names.add(item.split(" as ")[-1].strip())
    return names


def respelled(name):
    if name in CHOSEN:
        return CHOSEN[name]
    words = re.split("[-_]", name) if name[0].isupper() else name.split("-")
    if name[0].isupper():
        return "".join(w[0].upper() + w[1:] for w in words)
    return "_".join(words)


def turn(text, path, ours, crates):
    library = imported(text, crates)
    mine = {n: t for n, t in ours.items() if n not in library}

    def line_turned(line):
        m = IMPORT.match(line)
        if m and not (m.group(1).startswith("Rattle.") and m.group(1).split(".")[1] in crates):
            # of a library's import only the new names after 'as' are ours
            return re.sub(r" as ([^\s,}]+)", lambda a: " as " + mine.get(a.group(1), a.group(1)), line)
        return TOKEN.sub(lambda t: mine.get(t.group(0), t.group(0)), line)

    before = set(TOKEN.findall(text))
    clash = sorted((n, t) for n, t in mine.items() if n in before and t in before)
    return "".join(line_turned(line) for line in text.splitlines(keepends=True)), clash


def main():
    crates = set(os.listdir("crates"))
    texts = {p: open(p, encoding="utf-8").read() for p in files()}
    ours = {n: respelled(n) for p, text in texts.items() for n in declared(p, text)}
    turned, clashes = {}, []
    for path, text in texts.items():
        turned[path], clash = turn(text, path, ours, crates)
        clashes += [(path, n, t) for n, t in clash]
    for path, old, new in clashes:
        print(f"{path}: {old} and {new} would fall together")
    if clashes:
        sys.exit(1)
    changed = 0
    for path, text in turned.items():
        if text != texts[path]:
            open(path, "w", encoding="utf-8").write(text)
            changed += 1
    print(f"{len(ours)} names respelled in {changed} files")


main()
