#!/usr/bin/env python3
"""Checks by random programs that no run blames a label that the audit of its program lists.

Usage: tools/check_audits.py PROGRAM [COUNT [SEED]], where PROGRAM is the built program, as crates/grift/out/grift.
A program has functions of integers and truth values, whose types are partly written, and casts put in at random; so
many of them blame. Each is audited and run, and what is listed is compared with what is blamed.
"""
import collections
import concurrent.futures
import pathlib
import random
import re
import subprocess
import sys
import tempfile

TYPES = ("Int", "Bool", "Dyn")
PLACE = re.compile(r"[1-9][0-9]*:[1-9][0-9]*")
SUMMARY = re.compile(r"safe ([0-9]+) of ([0-9]+)")

Function = collections.namedtuple("Function", "name parameters answer")


class Writer:
    """Writes one program."""

    def __init__(self, source):
        self.source = source
        self.functions = []
        self.names = 0

    def fresh(self):
        self.names += 1
        return f"x{self.names}"

    def wanted(self, wanted, depth, names):
        """An expression where this type is wanted: of the type, or of one that a cast leads to it."""
        if wanted == "Dyn":
            return self.of(self.source.choice(TYPES), depth, names)
        return self.of(self.source.choice((wanted, wanted, "Dyn")), depth, names)

    def of(self, kind, depth, names):
        """An expression of this type."""
        if depth <= 0:
            return self.leaf(kind, names)
        form = self.source.randrange(6)
        if form == 0:
            return self.leaf(kind, names)
        if form == 1:
            return f"(: {self.wanted(kind, depth - 1, names)} {kind})"
        if form == 2:
            test = self.wanted("Bool", depth - 1, names)
            return f"(if {test} {self.of(kind, depth - 1, names)} {self.of(kind, depth - 1, names)})"
        if form == 3:
            return self.let(kind, depth, names)
        if form == 4:
            return self.call(kind, depth, names)
        return self.operation(kind, depth, names)

    def leaf(self, kind, names):
        known = [name for name, its in names if its == kind]
        if known and self.source.random() < 0.7:
            return self.source.choice(known)
        if kind == "Dyn":
            return f"(: {self.leaf(self.source.choice(TYPES[:2]), names)} Dyn)"
        return str(self.source.randrange(-9, 10)) if kind == "Int" else self.source.choice(("#t", "#f"))

    def let(self, kind, depth, names):
        name, its = self.fresh(), self.source.choice(TYPES)
        bound = self.wanted(its, depth - 1, names)
        return f"(let ([{name} : {its} {bound}])\n {self.of(kind, depth - 1, names + [(name, its)])})"

    def call(self, kind, depth, names):
        fitting = [function for function in self.functions if function.answer == kind]
        if not fitting:
            return self.operation(kind, depth, names)
        function = self.source.choice(fitting)
        arguments = "".join(f" {self.wanted(its, depth - 1, names)}" for its in function.parameters)
        return f"({function.name}{arguments})"

    def operation(self, kind, depth, names):
        if kind == "Dyn":
            return f"(: {self.wanted('Dyn', depth - 1, names)} Dyn)"
        if kind == "Bool" and self.source.random() < 0.4:
            return f"(not {self.wanted('Bool', depth - 1, names)})"
        operator = self.source.choice("+-*") if kind == "Int" else self.source.choice(("<", "<=", "="))
        return f"({operator} {self.wanted('Int', depth - 1, names)} {self.wanted('Int', depth - 1, names)})"

    def define(self):
        """A function, which calls earlier ones alone; what has no written type is a Dyn."""
        name = f"f{len(self.functions)}"
        parameters = [(self.fresh(), self.source.choice(TYPES)) for _ in range(self.source.randrange(1, 4))]
        answer = self.source.choice(TYPES)
        plain = lambda its: its == "Dyn" and self.source.random() < 0.5
        head = " ".join([name] + [name if plain(its) else f"[{name} : {its}]" for name, its in parameters])
        written = "" if plain(answer) else f" : {answer}"
        body = self.wanted(answer, 3, parameters)
        self.functions.append(Function(name, [its for _, its in parameters], answer))
        return f"(define ({head}){written}\n {body})"

    def program(self):
        lines = [self.define() for _ in range(self.source.randrange(1, 4))]
        return "\n".join(lines + [self.of(self.source.choice(TYPES), 4, [])]) + "\n"


def said(program, command, name):
    done = subprocess.run([program, command, name], capture_output=True, text=True)
    return done.returncode, done.stdout, done.stderr


def checked(program, seed):
    """What the program of a seed comes to: the kind of its run's line, and how many labels of how many are listed."""
    text = Writer(random.Random(seed)).program()
    with tempfile.TemporaryDirectory() as folder:
        name = pathlib.Path(folder) / "a.grift"
        name.write_text(text)
        status, listed, line = said(program, "audit", name)
        *places, last = listed.splitlines() or [""]
        counts = SUMMARY.fullmatch(last)
        if status != 0 or line or not counts or not all(PLACE.fullmatch(place) for place in places):
            raise AssertionError(f"seed {seed}: the audit is {status}, {listed!r}, {line!r}\n{text}")
        if len(places) != int(counts[1]) or len(set(places)) != len(places):
            raise AssertionError(f"seed {seed}: the audit counts wrongly: {listed!r}\n{text}")
        status, _, line = said(program, "run", name)
    kind = line.split()[0]
    if status not in (0, 3, 4) or (kind == "blame" and line.split()[1] in places):
        raise AssertionError(f"seed {seed}: the run is {status}, {line!r}, where the audit is {listed!r}\n{text}")
    return kind, int(counts[1]), int(counts[2])


def main():
    if len(sys.argv) < 2:
        sys.exit(__doc__)
    count = int(sys.argv[2]) if len(sys.argv) > 2 else 1000
    first = int(sys.argv[3]) if len(sys.argv) > 3 else 1
    with concurrent.futures.ThreadPoolExecutor(2) as pool:
        done = list(pool.map(lambda seed: checked(sys.argv[1], seed), range(first, first + count)))
    kinds = collections.Counter(kind for kind, _, _ in done)
    print(f"{count} programs: " + ", ".join(f"{number} {kind}" for kind, number in sorted(kinds.items())))
    listed, labels = sum(safe for _, safe, _ in done), sum(labels for _, _, labels in done)
    print(f"{listed} of {labels} labels are listed, none blamed")


if __name__ == "__main__":
    main()
