#!/usr/bin/env python3
"""Says more of a line of the program than the line itself: the place in the source that it names, and what to do.

Usage: tools/explain.py LINE WORD.., with the line, and the words that the program was given.
It is called by ./grift on a terminal alone. What a refusal means is read from the table of docs/LANGUAGE.md.
"""
import os
import pathlib
import re
import shutil
import sys
import unicodedata

ROOT = pathlib.Path(__file__).resolve().parent.parent
LANGUAGE = ROOT / "docs" / "LANGUAGE.md"
TABLE = re.compile(r"^\| KIND \| Where \| What to do \|\n\|[-|]+\|\n((?:\|.*\|\n)+)", re.M)
PLACED = re.compile(r"(?:refused (?P<kind>[a-z-]+)|blame) (?P<line>[0-9]+):(?P<column>[0-9]+)")
BLAME = "the cast at this expression met a value of another type"
OTHER_LINES = {
    "words refused": "`./grift --help` prints the commands",
    "load failed": "there is no such file, or it can't be read",
    "exhausted region": "`--region N` gives more bytes, a multiple of 8",
    "exhausted stack": "`--stack N` gives more bytes, a multiple of 8; a call in tail position needs none",
    "spent steps": "`--steps N` gives more instructions",
}
TAB = 8
# What of a source is read: a place in what is behind that is not shown.
SOURCE_SIZE = 262_144


def advice():
    """What stands where a source is refused, and what to do about it, by the kind of the refusal."""
    table = TABLE.search(LANGUAGE.read_text())
    rows = [[cell.strip() for cell in row.strip("|").split("|")] for row in table[1].splitlines()] if table else []
    return {kind.strip("`"): f"{where}: {what}" for kind, where, what in rows}


def width_of(text, at=0):
    """How many columns a text takes that begins at a column."""
    end = at
    for it in text:
        if it == "\t":
            end += TAB - end % TAB
        elif not unicodedata.combining(it):
            end += 2 if unicodedata.east_asian_width(it) in "WF" else 1
    return end - at


def legible(piece):
    """The text of these bytes, with a mark for what isn't UTF-8 or doesn't belong on a terminal."""
    text = piece.decode(errors="replace")
    hidden = ("Cc", "Cf", "Zl", "Zp")
    return "".join("\ufffd" if unicodedata.category(it) in hidden and it != "\t" else it for it in text)


def cut(before, behind, width):
    """The parts of both texts that fit in a width, the end of the first among them."""
    before, behind = before.replace("\t", " "), behind.replace("\t", " ")
    marked, goes_on = "", ""
    while width_of(before) > width * 2 // 3:
        before, marked = before[1:], ".."
    while width_of(before + behind) > width - len(marked) - len(goes_on):
        behind, goes_on = behind[:-1], ".."
    return marked + before, behind + goes_on


def place(source, line, column, columns):
    """The line of a source with a mark under a column of it, which counts bytes; nothing where there is no such."""
    lines = source.split(b"\n")
    if not 1 <= line <= len(lines) or not 1 <= column <= len(lines[line - 1]):
        return []
    text = lines[line - 1]
    before, behind = legible(text[:column - 1]), legible(text[column - 1:].removesuffix(b"\r"))
    gutter = f"{line:5} | "
    if width_of(before + behind, len(gutter)) > columns - len(gutter) - 1:
        before, behind = cut(before, behind, max(columns - len(gutter) - 1, 20))
    under = "".join(it if it == "\t" else " " * width_of(it) for it in before)
    return [gutter + before + behind, " " * 5 + " | " + under + "^"]


def explained(words, line, columns):
    """What is said of a line that the program put when it was given these words."""
    placed = PLACED.fullmatch(line)
    if not placed:
        return [OTHER_LINES[line]] if line in OTHER_LINES else []
    command, file = words[:2]
    if command == "exec":
        return []
    told = []
    if os.path.isfile(file):
        with open(file, "rb") as opened:
            told += place(opened.read(SOURCE_SIZE), int(placed["line"]), int(placed["column"]), columns)
    if placed["kind"] is None:
        return [*told, BLAME]
    return [*told, advice().get(placed["kind"], "")]


def main():
    sys.stdout.reconfigure(errors="replace")
    lines, *words = sys.argv[1:]
    # Behind the line of a run stand those of `--space`, if it was given.
    line = lines.partition("\n")[0]
    columns = shutil.get_terminal_size().columns or 80
    for told in explained(words, line, columns):
        if told:
            print(told)


if __name__ == "__main__":
    main()
