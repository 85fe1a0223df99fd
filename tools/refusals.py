#!/usr/bin/env python3
"""Writes the tables of docs/REFUSALS.md from the one table of refusals, in the crate `explanations`.

    tools/refusals.py            writes them
    tools/refusals.py --check    writes nothing, and tells the parts that are otherwise; the status is 0 where none is, else 1

Each part of the table stands under a heading of its title. What else stands in the page is written by hand.
"""
import pathlib
import re
import sys

TOP = pathlib.Path(__file__).resolve().parent.parent
SOURCES = TOP / "crates/explanations/src"
PAGE = TOP / "docs/REFUSALS.md"
HEAD = "| Refusal | When | Remedy |\n|---|---|---|\n"
# A text, a row and a part of the table, as they stand in the sources.
TEXT = r'"((?:[^"\\]|\\.)*)"'
ROW = re.compile(rf"Explanation \{{\s*number: (\d+),\s*name: {TEXT},\s*when: {TEXT},\s*remedy: {TEXT},\s*\}}")
PART = re.compile(rf"Part \{{\s*title: {TEXT},\s*rows: &(\w+)::(\w+),\s*\}}")


def plain(text):
    """A text without the escapes of a literal."""
    return re.sub(r"\\(.)", lambda it: {"n": "\n", "t": "\t"}.get(it[1], it[1]), text)


def rows_of(module, name):
    """The rows of a module's list of this name, as lines of a table."""
    rows = re.search(rf"const {name}: .*?\n\];", (SOURCES / f"table/{module}.rt").read_text(), re.S)[0]
    cells = ([f"{number} {name}", plain(when), plain(remedy)] for number, name, when, remedy in ROW.findall(rows))
    return "".join(f"| {' | '.join(cell.replace('|', chr(92) + '|') for cell in row)} |\n" for row in cells)


def main(words):
    if words not in ([], ["--check"]):
        sys.exit(__doc__.strip())
    page, wrong = PAGE.read_text(), 0
    parts = PART.findall((SOURCES / "table.rt").read_text())
    if len(parts) != page.count(HEAD):
        sys.exit(f"{PAGE.name}: {page.count(HEAD)} tables of refusals, for {len(parts)} parts of the table")
    for title, module, name in parts:
        place = re.compile(rf"(^## {re.escape(title)}\n(?:(?!^## ).*\n)*?){re.escape(HEAD)}((?:\|.*\n)*)", re.M)
        found = place.search(page)
        if not found:
            sys.exit(f"{PAGE.name}: no table under the heading {title}")
        rows = rows_of(module, name)
        if found[2] != rows:
            wrong += 1
            print(f"{PAGE.name}: {title}: not as the table of `explanations` has it; tools/refusals.py writes it")
        page = page[:found.start(2)] + rows + page[found.end(2):]
    if not words:
        PAGE.write_text(page)
    return 1 if wrong and words else 0


if __name__ == "__main__":
    sys.exit(main(sys.argv[1:]))
