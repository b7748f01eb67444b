#!/usr/bin/env python3
"""Runs versions of a program that differ in which of its types are written, and tells what each costs.

Usage: tools/lattice.py PROGRAM [--random COUNT] [--seed SEED] [--region BYTES] [--svg NAME] FILE..
PROGRAM is the built program, as crates/grift/out/grift. Of each source FILE, which has all its types written, versions
are made with some of them taken away: none, all, each one alone, and COUNT sets at random (50). Every version is run,
and all have to print the same and end by the same line. What a version costs is the least number of instructions with
which it ends, found by halving. Each is told beside the version with all types and the one with none; of a file the
worst and the mean are told, how many versions take more than three times the instructions of the one with none, and a
plot of how many versions (upwards) stay within which factor of that one (to the right).

A type that can be taken away is that of a parameter, of a binding, of an accumulator, or of a function's result. The
type of an ascription `(: e T)` stays: it is a cast that the program asks for.
"""
import argparse
import collections
import concurrent.futures
import os
import pathlib
import random
import re
import subprocess
import sys
import tempfile

TOKEN = re.compile(rb"[ \t\r\n]+|;[^\n]*|[()\[\]]|[^ \t\r\n;()\[\]]+")
MOST = 10**12
SLOW = 3

# An atom or a list of a source, from one byte to another.
Node = collections.namedtuple("Node", "start end text parts")
Version = collections.namedtuple("Version", "taken output line steps")


def read(source):
    """The atoms and lists of a source."""
    open_lists, place = [(0, [])], 0
    while place < len(source):
        token = TOKEN.match(source, place)
        text, start, place = token.group(), place, token.end()
        if text in b"([":
            open_lists.append((start, []))
        elif text in b")]":
            begun, parts = open_lists.pop()
            open_lists[-1][1].append(Node(begun, place, None, parts))
        elif not text[:1].isspace() and not text.startswith(b";"):
            open_lists[-1][1].append(Node(start, place, text, None))
    return open_lists[0][1]


def is_word(node, word):
    return node.text == word


def written_type(nodes, place):
    """The bytes of `: T`, with what separates it from what stands before, where `:` stands at this place of a list."""
    if place + 1 < len(nodes) and is_word(nodes[place], b":"):
        return [[(nodes[place - 1].end, nodes[place + 1].end)]]
    return []


def of_parameters(nodes):
    """The types of parameters, each with the brackets round it."""
    typed = [node for node in nodes if node.parts]
    return [[(node.start, node.parts[0].start), (node.parts[0].end, node.end)] for node in typed]


def of_bindings(nodes):
    """The types of bindings, which have their expression behind the type."""
    return [spans for node in nodes if node.parts for spans in written_type(node.parts, 1)]


def of_form(parts):
    """The types that a form writes itself, each as the stretches of bytes that go with it."""
    head = parts[0].text
    if head == b"lambda":
        return of_parameters(parts[1].parts) + written_type(parts, 2)
    if head == b"define":
        parameters = of_parameters(parts[1].parts[1:]) if parts[1].parts is not None else []
        return parameters + written_type(parts, 2)
    if head in (b"let", b"letrec"):
        return of_bindings(parts[1].parts)
    if head == b"repeat" and len(parts) == 4:
        return of_bindings(parts[2:3])
    return []


def types_of(nodes):
    """The types of a source that can be taken away, in its order."""
    types, left = [], list(nodes)
    while left:
        node = left.pop()
        if node.parts:
            left += node.parts
            types += of_form(node.parts)
    return sorted(types)


def without(source, types):
    """The source without these types."""
    kept, place = [], 0
    for start, end in sorted(span for spans in types for span in spans):
        kept.append(source[place:start])
        place = end
    return b"".join(kept) + source[place:]


class Runs:
    """Runs versions in a folder of its own, in a region of so many bytes."""

    def __init__(self, program, folder, region):
        self.program, self.folder, self.region = program, folder, region

    def come_to(self, name, steps):
        limits = ["--region", str(self.region), "--stack", str(2**24), "--steps", str(steps)]
        done = subprocess.run([self.program, "run", name, *limits], capture_output=True, text=True)
        return done.stdout, done.stderr.strip()

    def least(self, name, line):
        """The least number of instructions with which the program ends by this line."""
        low, high = 0, 1024
        while self.come_to(name, high)[1] != line:
            low, high = high, high * 4
        while high - low > 1:
            middle = (low + high) // 2
            if self.come_to(name, middle)[1] == line:
                high = middle
            else:
                low = middle
        return high

    def version(self, source, types, taken):
        """What the source comes to without the types with these numbers."""
        with tempfile.NamedTemporaryFile(dir=self.folder, suffix=".grift", delete=False) as file:
            file.write(without(source, [types[number] for number in taken]))
        output, line = self.come_to(file.name, MOST)
        steps = self.least(file.name, line)
        os.unlink(file.name)
        return Version(taken, output, line, steps)


def choices(many, count, seed):
    """Which types to take away: none, all, each one alone, and this many sets at random."""
    source = random.Random(seed)
    sets = [frozenset(), frozenset(range(many))] + [frozenset([number]) for number in range(many)]
    sets += [frozenset(n for n in range(many) if source.random() < 0.5) for _ in range(count)]
    return list(dict.fromkeys(sets))


def factors(versions, base):
    return sorted(version.steps / base.steps for version in versions)


def plot(ratios, width=50, height=10):
    """How many versions stay within which factor, as lines of text."""
    most = max(ratios[-1], 1.0)
    lines = []
    for row in range(height, 0, -1):
        needed = row / height * len(ratios)
        cells = (sum(r <= column / width * most for r in ratios) >= needed for column in range(1, width + 1))
        lines.append(f"{row * 100 // height:4} % |" + "".join("#" if cell else " " for cell in cells))
    return lines + ["       +" + "-" * width, f"        0 {most:>{width - 2}.2f}"]


def svg(name, curves):
    """Writes the same as curves, one a file, into a file of vector graphics."""
    most = max(max(ratios[-1], 1.0) for _, ratios in curves)
    colours = ("#1b6ca8", "#c0392b", "#2e8b57", "#8e44ad", "#d68910", "#34495e")
    size = 'width="680" height="420" font-family="sans-serif" font-size="12"'
    parts = [f'<svg xmlns="http://www.w3.org/2000/svg" {size}>']
    parts.append('<path d="M60 20V360H640" fill="none" stroke="black"/>')
    for tick in range(6):
        x, y = 60 + 580 * tick / 5, 360 - 340 * tick / 5
        parts.append(f'<text x="{x:.0f}" y="378" text-anchor="middle">{most * tick / 5:.2f}</text>')
        parts.append(f'<text x="54" y="{y + 4:.0f}" text-anchor="end">{20 * tick} %</text>')
    parts.append('<text x="350" y="404" text-anchor="middle">instructions, as a multiple of those with no types</text>')
    for number, (title, ratios) in enumerate(curves):
        colour, points, reached = colours[number % len(colours)], ["60,360"], 360.0
        for count, ratio in enumerate(ratios, 1):
            x = 60 + 580 * ratio / most
            points.append(f"{x:.1f},{reached:.1f}")
            reached = 360 - 340 * count / len(ratios)
            points.append(f"{x:.1f},{reached:.1f}")
        parts.append(f'<polyline points="{" ".join(points)} 640,20" fill="none" stroke="{colour}" stroke-width="2"/>')
        parts.append(f'<text x="500" y="{300 + 16 * number}" fill="{colour}">{title}</text>')
    pathlib.Path(name).write_text("\n".join(parts + ["</svg>", ""]))


def told(title, many, versions):
    """Prints what the versions of a file come to, and gives their factors."""
    typed, untyped = versions[0], versions[1]
    ratios = factors(versions, untyped)
    worst = max(versions, key=lambda version: version.steps)
    slow = sum(ratio > SLOW for ratio in ratios)
    print(f"{title}: {many} types, {len(versions)} versions, {typed.line}")
    print(f"  all types written {typed.steps:,} instructions, none {untyped.steps:,}")
    of_none, of_all = worst.steps / untyped.steps, worst.steps / typed.steps
    print(f"  worst {worst.steps:,}: {of_none:.2f} of none, {of_all:.2f} of all,")
    print(f"    without the types {', '.join(str(number + 1) for number in sorted(worst.taken)) or '(none)'}")
    print(f"  mean {sum(ratios) / len(ratios):.2f} of none; more than {SLOW} times none: {slow} of {len(ratios)}")
    print("\n".join("  " + line for line in plot(ratios)))
    return ratios


def run_file(runs, file, count, seed):
    """The versions of a file, all and none of its types first, and how many types it has."""
    source = pathlib.Path(file).read_bytes()
    types = types_of(read(source))
    with concurrent.futures.ThreadPoolExecutor(os.cpu_count()) as pool:
        sets = choices(len(types), count, seed)
        versions = list(pool.map(lambda taken: runs.version(source, types, taken), sets))
    for version in versions:
        if (version.output, version.line) != (versions[0].output, versions[0].line):
            taken = ", ".join(str(number + 1) for number in sorted(version.taken))
            sys.exit(f"{file}: without the types {taken} it prints {version.output!r} and ends by {version.line}, "
                     f"where with all it prints {versions[0].output!r} and ends by {versions[0].line}")
    return len(types), versions


def main():
    words = argparse.ArgumentParser(description=__doc__, formatter_class=argparse.RawDescriptionHelpFormatter)
    words.add_argument("program")
    words.add_argument("files", nargs="+")
    words.add_argument("--random", type=int, default=50)
    words.add_argument("--seed", type=int, default=1)
    words.add_argument("--region", type=int, default=2**26)
    words.add_argument("--svg")
    call = words.parse_args()
    curves = []
    with tempfile.TemporaryDirectory() as folder:
        runs = Runs(call.program, folder, call.region)
        for file in call.files:
            many, versions = run_file(runs, file, call.random, call.seed)
            curves.append((pathlib.Path(file).stem, told(file, many, versions)))
    if call.svg:
        svg(call.svg, curves)


if __name__ == "__main__":
    main()
