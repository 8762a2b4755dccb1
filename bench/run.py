#!/usr/bin/env python3
"""Compares the programs `list_states` and `next_rounds` with plain Rust (plain/main.rs, std alone) on the same heavy sheets.

It builds all three, sees that they write the same, runs them in turn, and prints the ratio of their median times, and how many
states next alone hands out in a second. It needs `rt` and `rustc`."""
import pathlib
import random
import statistics
import subprocess
import tempfile
import time

TOP = pathlib.Path(__file__).resolve().parent.parent
RUNS = 101
ROUNDS = 20


def text(grades, paths, feed):
    rows = [f"part,{i},{grade},100" for i, grade in enumerate(grades, start=1)]
    rows += ["path," + ",".join(map(str, path)) for path in paths] + [f"feed,{feed}"]
    return "".join(row + "\n" for row in rows).encode()


def sheets():
    dice = random.Random(1)
    some = [sorted(dice.sample(range(1, 40), dice.randint(6, 14))) for _ in range(256)]
    return {
        "mast": (TOP / "sheets" / "mast.txt").read_bytes(),
        # ten parts that no path needs: from the 1,024th state on 1,024 states wait
        "wide": text([0] * 10 + [20] * 30, [range(11, 40)], 40),
        # 256 paths, of which most fail in most states
        "paths": text([2] * 10 + [8] * 10 + [12] * 20, some, 40),
    }


def built(name, *args):
    """A proved program, built for release."""
    crate = TOP / "crates" / name
    given = (TOP / "sheets" / "worked.txt").read_bytes()
    subprocess.run(["rt", "run", "--", *args], cwd=crate, input=given, check=True, capture_output=True)
    return crate / "out" / name


def output(command, given):
    return subprocess.run(command, input=given, check=True, capture_output=True).stdout


def timed(command, given):
    begun = time.perf_counter()
    output(command, given)
    return time.perf_counter() - begun


def medians(commands, given, runs):
    """The median time of each command, which are run in turn."""
    times = [[timed(command, given) for command in commands] for _ in range(runs)]
    return [statistics.median(column) for column in zip(*times)]


def main():
    with tempfile.TemporaryDirectory() as folder:
        plain = pathlib.Path(folder) / "plain"
        subprocess.run(["rustc", "-O", "-o", plain, TOP / "bench" / "plain" / "main.rs"], check=True)
        proved, rounds = built("list_states"), built("next_rounds", "0")
        print("whole program,lines,ending,milliseconds proved,milliseconds plain,ratio")
        for name, given in sheets().items():
            out = output([proved], given)
            if out != output([plain], given):
                return f"{name}: the two write different listings"
            ours, theirs = medians([[proved], [plain]], given, RUNS)
            lines = out.decode().splitlines()
            print(f"{name},{len(lines)},{lines[-1]},{ours * 1000:.2f},{theirs * 1000:.2f},{ours / theirs:.2f}")
        print("next alone,states,million states a second proved,million states a second plain,ratio of times")
        for name, given in sheets().items():
            commands = [[program, str(count)] for count in (0, ROUNDS) for program in (rounds, plain)]
            out = output(commands[2], given)
            if out != output(commands[3], given):
                return f"{name}: the two hand out different states"
            empty, bare, ours, theirs = medians(commands, given, 15)
            states = int(out.split(b",")[1])
            ours, theirs = ours - empty, theirs - bare
            print(f"{name},{states},{states / ours / 1e6:.2f},{states / theirs / 1e6:.2f},{ours / theirs:.2f}")


if __name__ == "__main__":
    raise SystemExit(main())
