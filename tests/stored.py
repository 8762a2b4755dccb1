"""Compares a program's stored output with what an independent calculation gives, or stores that when --write is given."""
import pathlib
import sys

CRATES = pathlib.Path(__file__).resolve().parent.parent / "crates"


def compare(program, lines):
    expected = "".join(line + "\n" for line in lines)
    stdout = CRATES / program / "stdout"
    if sys.argv[1:] == ["--write"]:
        stdout.write_text(expected)
    if stdout.read_text() != expected:
        sys.exit(f"crates/{program}/stdout is not what the independent calculation gives")
    print(f"{program}: stored output agrees with the independent calculation")
