#!/usr/bin/env python3
"""Holds the texts that `reading_cases` reads, each with the answer to it as the rules of a sheet's text give it, worked out by
hand. Compares the texts with crates/reading_cases/stdin and the answers with crates/reading_cases/stdout; where the first
argument is `write`, it writes the two. Exit status 0 when all agrees.

A semicolon stands for the end of a line. A case without a number of entries has a list of 256."""
import pathlib
import sys

# forty parts, of which the last is part 40
FORTY = "".join(f"part,{number},5,100;" for number in range(1, 41))
FORTY_NUMBERS = ",".join(str(number) for number in range(1, 41))
ONE = "part,1,5,100;"
TWO = "part,1,5,100;part,2,5,100;"
DONE = ONE + "feed,1;"

CASES = [
    # well-formed texts
    (ONE + "feed,1;", "read,1,0,1"),
    (ONE + "path,1;feed,1;", "read,1,1,1"),
    (ONE + "path,1;path,1;feed,1;", "read,1,2,1"),
    (TWO + "path,1,2;path,2;feed,2;", "read,2,2,2"),
    ("part,1,0,0;part,2,39,99999999;feed,2;", "read,2,0,2"),
    (FORTY + f"path,{FORTY_NUMBERS};feed,40;", "read,40,1,40"),
    (ONE + "path,1;" * 256 + "feed,1;", "read,1,256,1"),
    (0, ONE + "feed,1;", "read,1,0,1"),
    (1, ONE + "path,1;feed,1;", "read,1,1,1"),
    # no line, no end of a line, no feed line
    ("", "refused,18,line,1,1"),
    (";", "refused,15,line,1,1"),
    (ONE, "refused,18,line,2,1"),
    (ONE + "path,1;", "refused,18,line,3,1"),
    ("part,1,5,100", "refused,14,text,1,0"),
    (ONE + "feed,1", "refused,14,text,2,0"),
    (DONE + "x", "refused,14,text,3,0"),
    # words
    ("Part,1,5,100;", "refused,15,line,1,1"),
    ("parts,1,5,100;", "refused,15,line,1,1"),
    ("par,1,5,100;", "refused,15,line,1,1"),
    (" part,1,5,100;", "refused,15,line,1,1"),
    (",1,5,100;", "refused,15,line,1,1"),
    (ONE + "food,1;", "refused,15,line,2,1"),
    (ONE + ";feed,1;", "refused,15,line,2,1"),
    # numbers of fields
    ("part;", "refused,16,line,1,0"),
    ("path;", "refused,16,line,1,0"),
    ("feed;", "refused,16,line,1,0"),
    ("part,1,5;", "refused,16,line,1,0"),
    ("part,1,5,100,;", "refused,16,line,1,0"),
    (ONE + "feed,1,1;", "refused,16,line,2,0"),
    (FORTY + f"path,{FORTY_NUMBERS},41;", "refused,16,line,41,0"),
    # numbers
    ("path,;", "refused,17,line,1,2"),
    ("feed,;", "refused,17,line,1,2"),
    ("part,,,;", "refused,17,line,1,2"),
    ("part,01,5,100;", "refused,17,line,1,2"),
    ("part,1,00,100;", "refused,17,line,1,3"),
    ("part,1,5,0100;", "refused,17,line,1,4"),
    ("part,1,5,100000000;", "refused,17,line,1,4"),
    ("part,1,+5,100;", "refused,17,line,1,3"),
    ("part,1,-5,100;", "refused,17,line,1,3"),
    ("part,1,5, 100;", "refused,17,line,1,4"),
    ("part,one,5,100;", "refused,17,line,1,2"),
    ("part,1,x,x;", "refused,17,line,1,3"),
    (ONE + "path,1,2x;", "refused,17,line,2,3"),
    (TWO + "path,1,2,;", "refused,17,line,3,4"),
    (ONE + "feed,1x;", "refused,17,line,2,2"),
    (ONE + "feed,001;", "refused,17,line,2,2"),
    # turns
    ("part,0,5,100;", "refused,18,line,1,1"),
    ("part,2,5,100;", "refused,18,line,1,1"),
    (ONE + ONE, "refused,18,line,2,1"),
    (ONE + "part,3,5,100;", "refused,18,line,2,1"),
    (ONE + "path,1;part,2,5,100;", "refused,18,line,3,1"),
    (DONE + "part,2,5,100;", "refused,18,line,3,1"),
    (DONE + "path,1;", "refused,18,line,3,1"),
    (DONE + "feed,1;", "refused,18,line,3,1"),
    # parts of paths and of the feed
    ("path,1;", "refused,19,line,1,2"),
    ("path,0;", "refused,19,line,1,2"),
    ("feed,1;", "refused,19,line,1,2"),
    ("feed,0;", "refused,19,line,1,2"),
    (ONE + "path,0;", "refused,19,line,2,2"),
    (ONE + "path,2;", "refused,19,line,2,2"),
    (ONE + "path,1,2;", "refused,19,line,2,3"),
    (TWO + "path,2,1;", "refused,19,line,3,3"),
    (TWO + "path,1,1;", "refused,19,line,3,3"),
    (TWO + "path,1,2,2;", "refused,19,line,3,4"),
    (TWO + "path,1,99999999;", "refused,19,line,3,3"),
    (ONE + "feed,0;", "refused,19,line,2,2"),
    (ONE + "feed,2;", "refused,19,line,2,2"),
    (ONE + "path,1;feed,257;", "refused,19,line,3,2"),
    # numbers of paths
    (300, ONE + "path,1;" * 257 + "feed,1;", "refused,20,line,258,0"),
    (1, ONE + "path,1;path,1;feed,1;", "refused,20,line,3,0"),
    (0, ONE + "path,1;feed,1;", "refused,20,line,2,0"),
    # what a draft refuses
    (FORTY + "part,41,5,100;", "refused,5,draft,41,2"),
    ("part,1,40,100;", "refused,2,draft,1,3"),
    ("part,1,256,100;", "refused,2,draft,1,3"),
    ("part,1,99999999,100;", "refused,2,draft,1,3"),
    (ONE + "part,2,4,100;", "refused,4,draft,2,3"),
    # two faults in one line, of which the first in the order of the rules is told
    ("x", "refused,14,text,1,0"),
    ("part", "refused,14,text,1,0"),
    ("part,01,5,100", "refused,14,text,1,0"),
    ("part,2,5,100", "refused,14,text,1,0"),
    ("feed,1", "refused,14,text,1,0"),
    (0, ONE + "path,1", "refused,14,text,2,0"),
    (FORTY + "part,41,5,100", "refused,14,text,41,0"),
    ("part,1,40,100", "refused,14,text,1,0"),
    (ONE + "part,2,4,100", "refused,14,text,2,0"),
    ("pat;", "refused,15,line,1,1"),
    ("pat,01;", "refused,15,line,1,1"),
    (DONE + "pat,1;", "refused,15,line,3,1"),
    ("pat,1;", "refused,15,line,1,1"),
    ("part,01,5;", "refused,16,line,1,0"),
    (DONE + "feed;", "refused,16,line,3,0"),
    ("feed,1,1;", "refused,16,line,1,0"),
    (0, FORTY + f"path,{FORTY_NUMBERS},40;", "refused,16,line,41,0"),
    (FORTY + "part,41,5;", "refused,16,line,41,0"),
    ("part,1,40;", "refused,16,line,1,0"),
    (ONE + "part,2,4;", "refused,16,line,2,0"),
    ("part,2,05,100;", "refused,17,line,1,3"),
    (DONE + "feed,01;", "refused,17,line,3,2"),
    (ONE + "path,2,x;", "refused,17,line,2,3"),
    (0, ONE + "path,01;", "refused,17,line,2,2"),
    (FORTY + "part,41,5,x;", "refused,17,line,41,4"),
    ("part,1,40,x;", "refused,17,line,1,4"),
    (ONE + "part,2,4,x;", "refused,17,line,2,4"),
    (DONE + "feed,2;", "refused,18,line,3,1"),
    (DONE + "path,0;", "refused,18,line,3,1"),
    (0, DONE + "path,1;", "refused,18,line,3,1"),
    (FORTY + "part,40,5,100;", "refused,18,line,41,1"),
    (FORTY + "part,42,5,100;", "refused,18,line,41,1"),
    ("part,2,40,100;", "refused,18,line,1,1"),
    (ONE + "part,1,4,100;", "refused,18,line,2,1"),
    (0, ONE + "path,2;", "refused,19,line,2,2"),
    (FORTY + "part,41,40,100;", "refused,5,draft,41,2"),
    (FORTY + "part,41,4,100;", "refused,5,draft,41,2"),
    # two faulty lines, of which the first is told
    ("part,2,5,100;x", "refused,18,line,1,1"),
    (ONE + "path,2;;", "refused,19,line,2,2"),
    ("part,1,40,100;part,01,5,100;", "refused,2,draft,1,3"),
]

# after the table, texts of 65,536 and of 65,537 bytes, all of them the letter x
LONG = ["refused,14,text,1,0", "refused,13,text,0,0"]


def table_and_answers():
    cases = [case if len(case) == 3 else (256, *case) for case in CASES]
    table = "".join(f"{entries} {text}\n" for entries, text, _ in cases)
    return table, "".join(answer + "\n" for answer in [answer for _, _, answer in cases] + LONG)


here = pathlib.Path(__file__).resolve().parent.parent / "crates" / "reading_cases"
bad = 0
for name, wanted in zip(["stdin", "stdout"], table_and_answers()):
    if sys.argv[1:] == ["write"]:
        (here / name).write_text(wanted)
    if (here / name).read_text() != wanted:
        print(f"reading_cases: {name} is not what the table says", file=sys.stderr)
        bad = 1
if not bad:
    print(f"reading_cases: {len(CASES) + len(LONG)} texts agree with the answers worked out by hand")
sys.exit(bad)
