#!/usr/bin/env python3
"""Compares what the account of a program allows with runs of the compiled program.

Usage: tools/accounts.py [--ratios K] PROGRAM COUNT [SEED]
       tools/accounts.py --check

The account is that of core_calc, found by the interpreter in calculus.py, which makes casts one by one. PROGRAM is the
built program, as crates/grift/out/grift. It runs the random programs of the seeds from SEED, or 0, on, with random
inputs, of four of them one small, and one in which loops cast a function, a box and a vector, under the limits that the
accounts allow, or the greatest that the command takes. A run has to print the same and to end by the same line as the
interpreter's. Those that differ are shown with their limits and both ends, and the status is 1. Of the first K programs
the least region, stack and number of instructions are found by halving, the other two limits being as allowed; a table
has the program that needs most of what is allowed of each, and the one in the middle.

With --check nothing is run: the accounts of a few programs at some moments have to be those of the table below.
"""
import argparse
import collections
import pathlib
import re
import subprocess
import sys
import tempfile
from concurrent.futures import ThreadPoolExecutor

sys.dont_write_bytecode = True
from calculus import Forms, Run, Wrap, cast_made, head_of, parts_of, read  # noqa: E402 (nothing is to stay)
from compare_runs import JOBS, READING, TURNS  # noqa: E402
from random_programs import Programs  # noqa: E402

# The limits in the order of the options, with the greatest that the command takes.
GREATEST = {"region": 1 << 30, "stack": 1 << 28, "steps": 2**63 - 1}

# Programs, each with its size, height and width, and with its account after so many steps: the steps, if there are as
# many, the words, the charge of the next step, the work and the depth.
CHECKED = """
(+ 40 2) => 4,0,2 0:0,0,0,20,0 1:1,0,0,40,0 2:1,0,0,40,0
42 => 2,0,2 0:0,0,0,18,0 3:0,0,0,18,0
(: (: #t Dyn) Int) => 6,0,2 0:0,0,16,22,1 1:1,16,16,44,1 2:2,32,16,66,1 3:3,48,0,88,1
((: (lambda ([x : Int]) : Int x) (Dyn -> Dyn)) 5) => 12,1,2 0:0,0,64,28,2 2:2,1360,16,1364,2 3:3,1376,0,1392,2
  5:5,1376,16,1448,2 7:7,1408,0,1504,2 9:9,1408,16,1560,2 12:10,1424,0,1588,2
((: (lambda ([x : Int]) : Int x) (Dyn -> Dyn)) #t) => 13,1,2 4:4,1380,0,1425,2 7:7,1412,0,1512,2 20:7,1412,0,1512,2
(let ([b (box 1)]) (let ([d (: b (Ref Dyn))]) (begin (box-set! d #t) (unbox b)))) => 23,1,2 1:1,16,0,78,1
  2:2,16,0,117,1 3:3,16,1296,156,1 5:5,1312,0,1514,1 9:9,1344,16,1670,2 20:10,1360,0,1709,2
(let ([v (: (make-vector 3 1) (Vect Dyn))]) (begin (vector-set! v 0 #t) (vector-ref v 0))) => 22,1,2 1:1,19,1296,79,2
  2:2,1315,0,1397,2 4:4,1315,16,1473,2 20:8,1363,0,1625,2
(make-vector -1 0) => 5,1,2 0:0,0,0,21,0 1:1,0,0,42,0 2:1,0,0,42,0
(* (%/ 7 2) (%% 9 4)) => 8,0,2 0:0,0,0,24,1 1:1,0,0,560,1 2:2,0,0,1096,1 3:3,0,0,1632,1
(letrec ([f (lambda ([n : Int]) : Int (if (= n 0) 0 (+ 1 (f (- n 1)))))]) (f 2)) => 23,1,2 0:0,0,108,39,0
  1:1,108,0,78,0 5:5,108,0,234,1 9:9,108,0,390,2 13:13,108,0,546,3 30:21,108,0,858,3
(tuple-proj (: (: (tuple 1 #t) Dyn) (Tuple Int Int)) 1) => 11,1,2 0:0,0,60,27,3 1:1,60,16,54,3 2:2,76,16,81,3
  3:3,92,1296,108,3 4:4,1388,0,1415,3 5:5,1388,0,1442,3 6:6,1388,16,1469,3 9:7,1404,0,1496,3
(let ([t (: (tuple 7 (lambda (x) x)) Dyn)]) (tuple-proj t 0)) => 16,2,2 1:1,80,80,64,3 3:3,176,0,128,3 5:5,176,16,192,3
  12:8,208,0,288,3
(%/ 1 0) => 4,0,2 0:0,0,0,20,0 1:1,0,0,552,0 2:1,0,0,552,0
(begin (print-int (+ 40 2)) (newline) 7) => 9,0,2 0:0,0,0,25,2 2:2,0,0,75,2 5:5,0,0,150,2 9:6,0,0,175,2
"""

Measures = collections.namedtuple("Measures", "size height width")
Account = collections.namedtuple("Account", "steps words charge work depth")


# ---- the size of a program


class CountedForms(Forms):
    """Keeps the types that the elaboration forms, with their parts."""

    def __init__(self):
        super().__init__()
        self.types = set()

    def keep(self, kind):
        if kind not in self.types:
            self.types.add(kind)
            for part in parts_of(kind):
                self.keep(part)
        return kind

    def cast(self, term, kind, wanted, place):
        return super().cast(term, kind, self.keep(wanted), place)

    def written(self, datum):
        return self.keep(super().written(datum))

    def expr(self, form, scope):
        term, kind = super().expr(form, scope)
        return term, self.keep(kind)

    def letrec(self, form, scope):
        for binding in form.node[1].node:
            params, result, _ = self.params_of(binding.node[-1])
            self.keep(("Fun", tuple(kind for _, kind in params), "Dyn" if result is None else result))
        return super().letrec(form, scope)


def extent(term):
    """The nodes and the binders of a term."""
    kind, first = term[:2]
    if kind in ("value", "name"):
        return 1
    if kind == "lambda":
        return 1 + len(first) + extent(term[2])
    if kind == "group":
        return 1 + sum(1 + len(params) + extent(body) for _, params, body in first) + extent(term[2])
    if kind == "let":
        return 1 + sum(1 + extent(bound) for _, bound in first) + extent(term[2])
    if kind in ("cast", "part", "part of dyn"):
        return 1 + extent(first)
    if kind == "call":
        return 1 + extent(first) + sum(map(extent, term[2]))
    return 1 + sum(map(extent, {"prim": term[2:3], "if": [term[1:]]}.get(kind, [first])[0]))


def height(kind):
    return max((1 + height(part) for part in parts_of(kind)), default=0)


def elaborated(text):
    """The term of a text, and its measures."""
    forms = CountedForms()
    term, _ = forms.program(read(text))
    widest = max(len(parts_of(kind)) for kind in forms.types)
    return term, Measures(extent(term) + len(forms.types), max(map(height, forms.types)), max(2, widest))


# ---- the account of a run


def casts_of(value):
    """The casts of a value's wrappers, the outermost first: the types that they go between, and their labels."""
    found = []
    while isinstance(value, Wrap):
        found.append((value.source, value.target, value.label))
        value = value.value
    return found


class CountedRun(Run):
    """Notes of each step of the calculus what it may ask for, its work beside what each step has, and how many contexts
    are pending before it."""

    def __init__(self, measures, numbers=""):
        super().__init__(numbers=numbers)
        self.size, height, width = measures
        self.wrap_charge = 32 * (width + 8) * (2 * width) ** height
        self.noted = []

    def note(self, charge=0, work=0, above=0):
        """A step with so many contexts around it beside those that wait."""
        self.noted.append((charge, work, len(self.waiting) + above))

    def note_each(self, value, waits=True):
        """A step for each wrapper, whose cast then waits or not, and one for what is in them."""
        for above in range(len(casts_of(value)) + 1):
            self.note(above=waits and above)

    def note_cast(self, value, source, target, above):
        """The steps of one cast: behind one out of Dyn comes that from the type that is kept."""
        wraps = "Dyn" not in (source, target) and head_of(source) == head_of(target) and parts_of(source) != ()
        more = self.wrap_charge if wraps else 0
        self.note(more + 16, more, above)
        if source == "Dyn" != target:
            self.note_cast(value, value.kind, target, above)

    def account(self, moment):
        """The account after so many steps, or as many as there are."""
        made, ahead = self.noted[:moment], self.noted[moment:moment + 1]
        charges, works, depths = zip(*(made + ahead or [(0, 0, 0)]))
        at = len(made)
        work = (self.size + 16) * (at + 1) + sum(works[:at])
        return Account(at, sum(charges[:at]), sum(charges[at:]), work, max(depths))

    def enter(self, term, scope):
        if term[0] in ("lambda", "group"):
            self.note(4 * self.size + 16)
        return super().enter(term, scope)

    def sequence(self, terms, place, scope):
        """A step drops the value before the place, and one the sequence around the last term."""
        for _ in range((place > 0) + (place + 1 == len(terms))):
            self.note()
        return super().sequence(terms, place, scope)

    def give(self, value):
        context = self.waiting[-1]
        if context[0] == "if":
            self.note(above=-1)
        if context[0] == "cast":
            self.note_cast(value, context[1], context[2], -1)
        return super().give(value)

    def operate(self, kind, term, values, scope):
        if kind != "prim":
            self.note(4 * self.size + 16 if kind == "tuple" else 0)
        return super().operate(kind, term, values, scope)

    def apply(self, function, arguments):
        """Behind the steps for the wrappers and before the last come the casts of the arguments, one by one."""
        self.note_each(function)
        entry, casts = self.noted.pop(), casts_of(function)
        for place, value in enumerate(arguments):
            for made, (source, target, label) in enumerate(casts):
                self.note_cast(value, target[1][place], source[1][place], 2 * len(casts) - made)
                value = cast_made(value, target[1][place], source[1][place], label)
        self.noted.append(entry)
        return super().apply(function, arguments)

    def project(self, value, number):
        self.note_each(value)
        return super().project(value, number)

    def project_dyn(self, value, number, label):
        self.note(16)
        return super().project_dyn(value, number, label)

    def operator(self, word, values):
        if word == "make-vector" and values[0] >= 0:
            self.note(values[0] + 16, values[0])
        elif word not in ("unbox", "box-set!", "vector-ref", "vector-set!", "vector-length"):
            self.note(16 if word == "box" else 0, 512 if word in ("*", "%/", "%%") else 0)
        return super().operator(word, values)

    def read(self, word, value, index=0):
        self.note_each(value, word != "vector-length")
        return super().read(word, value, index)

    def unwrap_and_write(self, cell, index, value):
        """A step for each wrapper, with the cast of what is written behind it; but first the index is tested."""
        bare, written = cell, value
        while isinstance(bare, Wrap):
            bare = bare.value
        self.note()
        for source, target, label in casts_of(cell) if 0 <= index < len(bare.values) else []:
            self.note_cast(written, target[1], source[1], 1)
            written = cast_made(written, target[1], source[1], label)
            self.note()
        return super().unwrap_and_write(cell, index, value)


def accounted(text, numbers=""):
    """What a text prints on an input and its last line, or None where it doesn't end; its measures, and the run."""
    term, measures = elaborated(text)
    run = CountedRun(measures, numbers)
    line = run.go(term, TURNS)
    return line and ("".join(run.printed), line), measures, run


def check():
    """Compares accounts with the table."""
    rows = [row.partition(" => ") for row in re.split(r"\n(?=\S)", CHECKED.strip())]
    compared, differ = 0, 0
    for source, _, entries in rows:
        _, measures, run = accounted(source)
        for entry in entries.split():
            moment, _, wanted = entry.rpartition(":")
            found = run.account(int(moment)) if moment else measures
            compared += 1
            if ",".join(map(str, found)) != wanted:
                print(f"{source}: {entry}, found {found}")
                differ += 1
    print(f"{len(rows)} programs with their measures at {compared - len(rows)} moments, {differ} differ")
    return 1 if differ else 0


# ---- compiled programs


def end_of(words, limits, entered):
    """What a command prints under these limits, and its last line."""
    options = [word for name in GREATEST for word in (f"--{name}", str(min(limits[name], GREATEST[name])))]
    done = subprocess.run([*words, *options, "--input", entered], capture_output=True)
    return done.stdout.decode("latin-1"), done.stderr.decode("latin-1").strip()


def least(name, limits, wanted, words, entered):
    """The least multiple of 8 of one limit with which a run comes to this end."""
    low, high = -1, min(limits[name], GREATEST[name]) // 8
    while low + 1 < high:
        middle = (low + high) // 2
        is_enough = end_of(words, limits | {name: 8 * middle}, entered) == wanted
        low, high = (low, middle) if is_enough else (middle, high)
    return 8 * high


def compared(program, seed, is_measured):
    """How the program of a seed ends, or None where the ends differ; what it is allowed, and what it needs."""
    programs = Programs(seed, READING)
    small = lambda: programs.loose(programs.precise(2), [], 2) + "\n"  # noqa: E731
    text = [programs.program, small, programs.program, programs.piles][seed % 4]()
    numbers = programs.numbers()
    wanted, measures, run = accounted(text, numbers)
    if wanted is None:
        return "unfinished", {}, {}
    account, size = run.account(len(run.noted)), measures.size + 16
    stack = 64 * (account.depth + 1) * size + 4096 * (measures.height + 4)
    limits = {"region": 8 * account.words, "stack": stack, "steps": 64 * account.work}
    with tempfile.TemporaryDirectory() as folder:
        file, entered, image = [str(pathlib.Path(folder, name)) for name in ("program", "input", "image")]
        pathlib.Path(file).write_text(text, newline="")
        pathlib.Path(entered).write_text(numbers, newline="")
        found = end_of([program, "run", file], limits, entered)
        if found != wanted:
            print(f"seed {seed}:\n{text}on {numbers!r}\n{measures}\n{account}\n{limits}")
            print(f"grift run: {found}\ncalculus: {wanted}", flush=True)
            return None, limits, {}
        needed = {}
        if is_measured:
            pathlib.Path(image).write_bytes(subprocess.run([program, "image", file], capture_output=True).stdout)
            needed = {name: least(name, limits, wanted, [program, "exec", image], entered) for name in limits}
    return wanted[1].split(" ")[0], limits, needed


def put_ratios(done):
    """The table of the program that needs most of what is allowed, and of the one in the middle."""
    print("| Limit | Needed | Allowed | Ratio | Seed |\n|---|---|---|---|---|")
    for name in GREATEST:
        rows = [(needed[name], limits[name], seed) for seed, (_, limits, needed) in done if needed]
        rows.sort(key=lambda row: -row[0] / max(row[1], 1))
        for used, most, seed in (rows[0], rows[len(rows) // 2]):
            print(f"| {name} | {used:,} | {most:,} | {used / max(most, 1):.5f} | {seed} |")


def main():
    if sys.argv[1:] == ["--check"]:
        return check()
    parser = argparse.ArgumentParser(description=__doc__, formatter_class=argparse.RawDescriptionHelpFormatter)
    parser.add_argument("--ratios", type=int, default=0, metavar="K")
    parser.add_argument("program")
    parser.add_argument("count", type=int)
    parser.add_argument("seed", type=int, nargs="?", default=0)
    words = parser.parse_args()
    seeds = range(words.seed, words.seed + words.count)
    with ThreadPoolExecutor(JOBS) as pool:
        done = list(pool.map(lambda seed: compared(words.program, seed, seed - words.seed < words.ratios), seeds))
    kinds = collections.Counter(kind for kind, _, _ in done)
    differ = kinds.pop(None, 0)
    print(f"{len(done)} programs, {differ} differ;", ", ".join(f"{kind} {count}" for kind, count in kinds.items()))
    cut = [name for _, limits, _ in done for name in limits if limits[name] > GREATEST[name]]
    print("cut off:", ", ".join(f"{name} {cut.count(name)}" for name in GREATEST))
    if words.ratios:
        put_ratios(list(zip(seeds, done)))
    return 1 if differ else 0


if __name__ == "__main__":
    sys.exit(main())
