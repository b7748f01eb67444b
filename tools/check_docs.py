#!/usr/bin/env python3
"""Checks the pages: runs each line of their `check` blocks and the source of each `casts` and `code` block, looks for
each file that they name, and compares the kinds of refusals in the table of docs/LANGUAGE.md, which ./grift tells what
to do from, with those of the program.

In docs/ARCHITECTURE.md each name of a definition, lemma, function, test, edit or crate has to be there, too.

Usage: tools/check_docs.py [--files]. With --files nothing is run, so that the program need not be built; else the
status is 2 where it isn't.
A line of a `check` block is a source, `=>`, and what `grift check` says of it: `type T, casts N`, or its refusal. The
first line of a `casts` or a `code` block is a source, the others lines that `grift casts` or `grift code` puts of it,
one after another.
"""
import pathlib
import re
import subprocess
import sys
import tempfile

sys.dont_write_bytecode = True
import explain  # noqa: E402 (nothing of it is to stay in the repository)

ROOT = pathlib.Path(__file__).resolve().parent.parent
PROGRAM = ROOT / "crates" / "grift" / "out" / "grift"
REFUSALS = ROOT / "crates" / "grift_base" / "src" / "refusals.rt"
PAGES = [ROOT / "README.md", *sorted((ROOT / "docs").glob("*.md")), *sorted(ROOT.glob("crates/*/README.md"))]
BLOCK = re.compile(r"^```check\n(.*?)^```$", re.M | re.S)
LISTING = re.compile(r"^```(casts|code)\n(.*?)\n(.*?)^```$", re.M | re.S)
QUOTED = re.compile(r"`([^`\n]+)`")
LINKED = re.compile(r"\]\(([^)#:]+)\)")
ARCHITECTURE = ROOT / "docs" / "ARCHITECTURE.md"
NAME = re.compile(r"[a-z]+(?:_[a-z0-9]+)+")
FILE = re.compile(r"[\w+./-]+\.(rt|antt|md|py|grift|edit)|\./grift|(docs|tools|crates|examples)(/[\w+.-]+)*/?")


def run_on(command, source):
    """What a command of the program does with a source."""
    with tempfile.NamedTemporaryFile("w", suffix=".grift") as file:
        file.write(source)
        file.flush()
        return subprocess.run([PROGRAM, command, file.name], capture_output=True, text=True)


def said_of(source):
    """What `grift check` says of a source, in one line."""
    run = run_on("check", source)
    return ", ".join(run.stdout.splitlines()) if run.returncode == 0 else run.stderr.strip()


def faults_of_examples(page):
    for block in BLOCK.findall(page.read_text()):
        for line in block.splitlines():
            source, _, wanted = line.rpartition("=>")
            said = said_of(source.strip())
            if said != wanted.strip():
                yield f"{source.strip()}: {said}, where the page has {wanted.strip()}"


def faults_of_listings(page):
    for command, source, lines in LISTING.findall(page.read_text()):
        if f"\n{lines}" not in f"\n{run_on(command, source).stdout}":
            yield f"{source}: `grift {command}` puts no such lines"


def faults_of_files(page, names):
    text = page.read_text()
    for name in [it for it in QUOTED.findall(text) if FILE.fullmatch(it)]:
        stands = "/" in name and any((base / name).exists() for base in (ROOT, ROOT / "crates", page.parent))
        if not stands and pathlib.PurePath(name).name not in names:
            yield f"there is no {name}"
    for name in LINKED.findall(text):
        if not (page.parent / name).exists():
            yield f"there is no {name}"


def names_that_stand():
    """The words of all sources, the names of must-fail edits and those of crates."""
    words = {path.stem for path in ROOT.glob("crates/*/must-fail/*.edit")}
    for kind in ("src/**/*.rt", "specs/**/*.antt", "proofs/**/*.antt"):
        for path in ROOT.glob(f"crates/*/{kind}"):
            words.update(NAME.findall(path.read_text()))
    return words | {path.name for path in ROOT.glob("crates/*")}


def faults_of_names(page):
    wanted = {name for name in QUOTED.findall(page.read_text()) if NAME.fullmatch(name)}
    yield from (f"nothing is called {name}" for name in sorted(wanted - names_that_stand()))


def faults_of_refusals():
    """Kinds of refusals that stand in the program or in the table of the page alone."""
    there = set(re.findall(r'RefusalKind::\w+ => \(\d+, "([a-z-]+)"\)', REFUSALS.read_text()))
    told = set(explain.advice())
    yield from (f"the table of refusals lacks {kind}" for kind in sorted(there - told))
    yield from (f"the table of refusals has {kind}, which is none" for kind in sorted(told - there))


def main():
    is_run = "--files" not in sys.argv[1:]
    if is_run and not PROGRAM.exists():
        print("the program isn't built: ./grift run examples/answer.grift builds it, and --files needs none")
        return 2
    names = {path.name for path in ROOT.rglob("*") if "out" not in path.parts and ".git" not in path.parts}
    faults = 0
    for page in PAGES:
        found = list(faults_of_files(page, names))
        if page == explain.LANGUAGE:
            found += faults_of_refusals()
        if page == ARCHITECTURE:
            found += faults_of_names(page)
        if is_run:
            found += [*faults_of_examples(page), *faults_of_listings(page)]
        for fault in found:
            print(f"{page.relative_to(ROOT)}: {fault}")
        faults += len(found)
    print(f"{len(PAGES)} pages, {faults} faults")
    return 1 if faults else 0


if __name__ == "__main__":
    sys.exit(main())
