#!/usr/bin/env python3
"""Compares `grift run` with the calculus, over the files of a folder or over random programs.

Usage: tools/compare_runs.py [--model] PROGRAM FOLDER
       tools/compare_runs.py [--model] [--piles] PROGRAM COUNT [SEED]

PROGRAM is the built program, as crates/grift/out/grift. The calculus is that of the interpreter in calculus.py, and
under --model that of `grift model`; both make casts one by one. Of a folder each file that ends by .grift is compared,
on the input of the file of its name that ends by .input, if it is there; the random programs are those of the seeds
from SEED, or 0, on, with random inputs, under --piles those in which loops cast a function, a box and a vector. Both
runs have to print the same and to end by the same line. Where region, stack or steps end first, or the calculus's steps
do, what the one has printed has to be a beginning of what the other has. Texts that differ are shown with both ends,
and the status is 1.
"""
import argparse
import collections
import pathlib
import subprocess
import sys
import tempfile
from concurrent.futures import ThreadPoolExecutor

sys.dont_write_bytecode = True
from calculus import run_text  # noqa: E402 (nothing of it is to stay in the repository)
from random_programs import Programs  # noqa: E402

LIMITS = ["--region", "1048576", "--stack", "262144", "--steps", "50000000"]
TURNS = 200_000
# How many of the integers in a random program are read.
READING = 0.1
JOBS = 4
# What a line begins with where a limit has ended the run.
CUT_OFF = ("exhausted", "spent")


def printed(program, command, text, numbers, options):
    """What a text prints on an input and its last line, by a command of the program."""
    with tempfile.TemporaryDirectory() as folder:
        file, entered = pathlib.Path(folder, "program"), pathlib.Path(folder, "input")
        file.write_text(text, newline="")
        entered.write_text(numbers, newline="")
        done = subprocess.run([program, command, file, *options, "--input", entered], capture_output=True, text=True)
    return done.stdout, done.stderr.strip()


def calculus(words, text, numbers):
    """What a text prints on an input in the calculus, and its last line."""
    if words.model:
        return printed(words.program, "model", text, numbers, ["--steps", str(TURNS)])
    return run_text(text, TURNS, numbers)


def agree(ours, theirs):
    """Whether two runs, each what is printed and a line, are one as far as both have come."""
    if any(line.startswith(CUT_OFF) for _, line in (ours, theirs)):
        return ours[0].startswith(theirs[0]) or theirs[0].startswith(ours[0])
    return ours == theirs


def compared(words, name, text, numbers):
    """The kind of the run's end, or None where both differ, which is then told."""
    ours, theirs = printed(words.program, "run", text, numbers, LIMITS), calculus(words, text, numbers)
    if not agree(ours, theirs):
        print(f"{name}:\n{text}on {numbers!r}\ngrift run: {ours}\ncalculus: {theirs}", flush=True)
        return None
    return ours[1].split(" ")[0]


def texts(words):
    """The names, texts and inputs to compare."""
    if not words.of.isdigit():
        paths = sorted(pathlib.Path(words.of).glob("*.grift"))
        inputs = [path.with_suffix(".input") for path in paths]
        return [(p.name, p.read_text(), n.read_text() if n.exists() else "") for p, n in zip(paths, inputs)]
    seeds = [(seed, Programs(seed, READING)) for seed in range(words.seed, words.seed + int(words.of))]
    made = Programs.piles if words.piles else Programs.program
    return [(f"seed {seed}", made(programs), programs.numbers()) for seed, programs in seeds]


def main():
    parser = argparse.ArgumentParser(description=__doc__, formatter_class=argparse.RawDescriptionHelpFormatter)
    parser.add_argument("--model", action="store_true")
    parser.add_argument("--piles", action="store_true")
    parser.add_argument("program")
    parser.add_argument("of", metavar="FOLDER|COUNT")
    parser.add_argument("seed", type=int, nargs="?", default=0)
    words = parser.parse_args()
    cases = texts(words)
    with ThreadPoolExecutor(JOBS) as pool:
        kinds = collections.Counter(pool.map(lambda case: compared(words, *case), cases))
    differ = kinds.pop(None, 0)
    print(f"{len(cases)} programs, {differ} differ;", ", ".join(f"{kind} {count}" for kind, count in kinds.items()))
    return 1 if differ else 0


if __name__ == "__main__":
    sys.exit(main())
