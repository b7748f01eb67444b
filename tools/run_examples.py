#!/usr/bin/env python3
"""Runs the programs of examples/ as the table examples/EXPECTED says, and compares what they print, their lines and
their statuses with it. Each program has to stand in the table.

Usage: tools/run_examples.py PROGRAM, where PROGRAM is the built program, as crates/grift/out/grift.
A row of the table has three cells: the words of a command, with files of examples/; what is printed, with \\n for each
line feed; and the line on standard error, which a `check` that goes well has not, with those that stand behind it.
"""
import pathlib
import subprocess
import sys

EXAMPLES = pathlib.Path(__file__).resolve().parent.parent / "examples"
# What a line begins with, and the status that goes with it.
STATUSES = {"answer": 0, "refused": 1, "blame": 3, "trap": 4, "exhausted region": 5, "exhausted stack": 6, "spent": 7}


def rows():
    """The words of each row, what it prints, and its line."""
    for line in (EXAMPLES / "EXPECTED").read_text().splitlines():
        if not line.startswith("#"):
            words, output, last = (cell.strip() for cell in line.split("|"))
            yield words, output.replace("\\n", "\n"), last.replace("\\n", "\n")


def status_of(line):
    return next((status for start, status in STATUSES.items() if line.startswith(start)), 0)


def come_to(program, words):
    """What a command prints, its line and its status."""
    command, name, *options = words.split()
    run = subprocess.run([program, command, name, *options], capture_output=True, text=True, cwd=EXAMPLES)
    return run.stdout, run.stderr, run.returncode


def main():
    if len(sys.argv) != 2:
        sys.exit(__doc__)
    table = list(rows())
    faults = 0
    for words, output, line in table:
        came = come_to(pathlib.Path(sys.argv[1]).resolve(), words)
        wanted = output, line + "\n" if line else "", status_of(line)
        if came != wanted:
            print(f"{words}: {came}, where the table has {wanted}")
            faults += 1
    for name in sorted({path.name for path in EXAMPLES.glob("*.grift")} - {words.split()[1] for words, _, _ in table}):
        print(f"{name}: not in the table")
        faults += 1
    print(f"{len(table)} rows in the table, {faults} faults")
    return 1 if faults else 0


if __name__ == "__main__":
    sys.exit(main())
