#!/usr/bin/env python3
"""Writes into the page of each crate which files of definitions and proofs it has, and what each is about: the first
sentence of its first lines. Files stand behind those that they use.

Usage: tools/list_files.py [--check]. With --check nothing is written, and the status is 1 where a page isn't as it
would be written.
"""
import pathlib
import re
import sys
import textwrap

ROOT = pathlib.Path(__file__).resolve().parent.parent
BEGIN = "<!-- the files, as tools/list_files.py writes them -->"
END = "<!-- their end -->"
HEADINGS = {"specs": "**Definitions**, in `specs/`:", "proofs": "**Proofs**, in `proofs/`:"}
USED = re.compile(r"^\s*(?:pub )?use Rattle\.(\w+)\.(specs|proofs)\.([\w.]+?)\.?(?:\{|$)", re.M)


def about(text):
    """Returns the first sentence of the lines that a file begins with."""
    lines = []
    for line in text.split("\n"):
        if not line.startswith("--"):
            break
        lines.append(line.removeprefix("--").strip())
    words = " ".join(lines)
    end = re.search(r"[.:](?= [A-Z]|$)", words)
    return words[: end.start()] if end else words


def files_of(crate, part, folder):
    """Returns the files of a folder by subject, or of none, each behind those that it uses, with their texts."""
    texts = {it.stem: it.read_text() for it in sorted((crate / part / folder).glob("*.antt"))}
    heads = {name for name in texts if (crate / part / folder / name).is_dir()}
    texts = {name: text for name, text in texts.items() if name != "Lib" and name not in heads}
    before = f"{folder}." if folder else ""
    uses = {
        name: [used.removeprefix(before) for of, at, used in USED.findall(text) if of == crate.name and at == part]
        for name, text in texts.items()
    }
    ordered = []

    def put(name):
        if name in texts and name not in ordered:
            for used in sorted(uses[name]):
                put(used)
            ordered.append(name)

    for name in texts:
        put(name)
    return [(name, texts[name]) for name in ordered]


def wrapped(said, first="", rest=""):
    return textwrap.wrap(said, 120, initial_indent=first, subsequent_indent=rest, break_on_hyphens=False)


def listed(crate):
    """Returns the lines about the files of a crate."""
    lines = []
    for part, heading in HEADINGS.items():
        subjects = [it for it in sorted((crate / part).glob("*.antt")) if (crate / part / it.stem).is_dir()]
        folders = [("", heading)]
        folders += [(it.stem, f"In `{part}/{it.stem}/`. {about(it.read_text())}:") for it in subjects]
        for folder, told in folders:
            files = files_of(crate, part, folder)
            if files:
                lines += ["", *wrapped(told), ""]
            for name, text in files:
                lines += wrapped(f"`{name}.antt`: {about(text)}", "- ", "  ")
    return "\n".join([BEGIN, *lines, "", END]) if lines else ""


def page_with(text, block):
    """Returns a page with the lines about its files, at its end where it had none."""
    before, begin, rest = text.partition(BEGIN)
    after = rest.partition(END)[2] if begin else ""
    return before.rstrip("\n") + "\n" + (f"\n{block}\n" if block else "") + after.lstrip("\n")


def main():
    differ = []
    for page in sorted(ROOT.glob("crates/*/README.md")):
        text = page.read_text()
        wanted = page_with(text, listed(page.parent))
        if wanted != text:
            differ.append(page)
            if "--check" not in sys.argv[1:]:
                page.write_text(wanted)
    for page in differ:
        print(f"{page.relative_to(ROOT)}: {'differs' if '--check' in sys.argv[1:] else 'written'}")
    return 1 if differ and "--check" in sys.argv[1:] else 0


if __name__ == "__main__":
    sys.exit(main())
