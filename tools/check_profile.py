#!/usr/bin/env python3
"""Shows what a check of a crate took: its parts by seconds, the goals of its proofs by steps, and its functions by size.

Usage: tools/check_profile.py CRATE [COUNT]

CRATE is the name of a crate in which rt check or rt lib has run, and COUNT how many lines to show of each, or 20. The
checker saves each part of a check as a file of its own when it is done, so the seconds are those between a file and the
one before: they mean something after one check from nothing by one job (rt check --jobs 1, with no folder out before),
and nothing where several checks have left files. A part `FUNCTION.Lts` is what is shown of ownership, `FUNCTION.Proof`
the goals that were searched, `FUNCTION.Answers` those with answers by hand. Beside each goal stand the steps that it
took; a million are a little less than a second. Goals with many steps under `Proof` want answers.

After rt lib it also shows the functions whose logic is largest: its size in MB, how many steps and locals the function
has, and the bytes that one local takes at one step. The size is about their product, and what a check does before it
proves anything goes by the sum of these sizes. Where one local takes hundreds of bytes, some type of the function shows
all of its fields or variants there; with a drop by hand it shows none.
"""
import json
import pathlib
import re
import sys

ROOT = pathlib.Path(__file__).resolve().parent.parent
GOAL = re.compile(rb'"name":"([^"]*)","notes".*?"steps":\[(\d+),(\d+),\d+\]', re.S)


def part_of(file, crate):
    """The name of a file's part, without what all files have."""
    name = file.name.removesuffix(".oantt").removesuffix(".decls").removeprefix("Rattle-")
    return name.removeprefix(f"{crate}-").removeprefix("proofs.")


def seconds_of(files, crate):
    """The parts with the seconds from the file before to theirs, the longest first."""
    timed = sorted((file.stat().st_mtime, file) for file in files)
    spans = [(after[0] - before[0], after[1]) for before, after in zip(timed, timed[1:])]
    return [(span, part_of(file, crate)) for span, file in sorted(spans, reverse=True)]


def goals_of(files, crate):
    """The goals with their steps, those that took most first."""
    goals = []
    for file in files:
        if file.name.endswith(".decls.oantt"):
            for found in GOAL.finditer(file.read_bytes()):
                goals.append((int(found[2]) + int(found[3]), f"{part_of(file, crate)} {found[1].decode()}"))
    return sorted(goals, reverse=True)


def sizes_of(file):
    """The functions of a library with the size of their logic, their steps, their locals and the bytes of a local."""
    name, sizes, shapes = "", {}, {}
    for line in file.read_text(encoding="utf-8").splitlines():
        if line.startswith('"'):
            name = json.loads(line)
        elif line.startswith('{"Lts"'):
            function = name.removeprefix("proofs/").removesuffix("/Given").removesuffix("/View")
            sizes[function] = sizes.get(function, 0) + len(line)
            if function not in shapes:
                logic = json.loads(line)["Lts"]
                steps, places = len(logic["mir"]["body"]), len(logic["mir"]["locals"])
                shapes[function] = steps, places, len(json.dumps(logic["plan"]["body"])) // max(1, steps * places)
    return sorted(((size, function, shapes[function]) for function, size in sizes.items()), reverse=True)


def main(words):
    if not words or len(words) > 2 or words[0].startswith("-"):
        print(__doc__.strip())
        return 2
    crate, count = words[0], int(words[1]) if len(words) == 2 else 20
    kept = ROOT / "crates" / crate / "out" / "incremental"
    files = [file for file in kept.rglob("*.oantt") if file.is_file()]
    if not files:
        print(f"no check of {crate} has left anything in {kept.relative_to(ROOT)}")
        return 1
    for span, part in seconds_of(files, crate)[:count]:
        print(f"{span:8.1f} s  {part}")
    for steps, goal in goals_of(files, crate)[:count]:
        print(f"{steps / 1e6:8.2f} M  {goal}")
    for made in (ROOT / "crates" / crate / "out" / "rlib" / f"{crate}.rlib" / "lang" / "antt").glob("made.json"):
        for size, function, (steps, places, each) in sizes_of(made)[:count]:
            print(f"{size / 1e6:8.2f} MB {function}: {steps} steps, {places} locals, {each} bytes each")
    return 0


if __name__ == "__main__":
    sys.exit(main(sys.argv[1:]))
