#!/usr/bin/env python3
"""Writes hwtool/_remedies.py, the table of what each refusal means and what to do about it, from docs/REFUSALS.md: what
`hwtool explain` tells, with a remedy that names another one, as `as 21`, in that one's words.

    python3 make_remedies.py            writes the file
    python3 make_remedies.py --check    ends with status 1 where the file that stands is another
"""

import pathlib
import re
import sys
from typing import Dict, Iterator, List, NamedTuple, Tuple

HERE = pathlib.Path(__file__).resolve().parent
SOURCE = HERE.parent / "docs" / "REFUSALS.md"
TARGET = HERE / "hwtool" / "_remedies.py"
HEAD = "| Refusal | When | Remedy |"


class Row(NamedTuple):
    """A row of a table of the document: the title that it stands under, and its cells."""

    part: str
    number: int
    name: str
    when: str
    remedy: str


def rows(text: str) -> Iterator[Row]:
    """The rows of all tables of refusals."""
    part, inside = "", False
    for line in text.splitlines():
        if line.startswith("## "):
            part = line[3:]
        if not line.startswith("|"):
            inside = False
        elif line == HEAD:
            inside = True
        elif inside and not line.startswith("|---"):
            told, when, remedy = (cell.strip().replace(r"\|", "|") for cell in re.split(r"(?<!\\)\|", line)[1:-1])
            number, name = told.split(" ")
            yield Row(part, int(number), name, when, remedy)


def resolved(row: Row, table: List[Row]) -> str:
    """The remedy of a row in its own words. One that is that of another refusal is looked for in the same part first, there in
    the case that comes of the same, and then behind what is met most."""
    named = re.match(r"as (\d+)\b", row.remedy)
    if not named:
        return row.remedy
    meant = [it for it in table if it.number == int(named[1])]
    here = [it for it in meant if it.part == row.part]
    alike = [it for it in here if it.when == row.when]
    other = (alike or here or [it for it in meant if it.part != "What is met most"])[0]
    return resolved(other, table) + row.remedy[named.end() :]


def table(text: str) -> Dict[int, List[Tuple[str, str, str, str]]]:
    """The cases of each refusal by its number."""
    found = list(rows(text))
    cases: Dict[int, List[Tuple[str, str, str, str]]] = {}
    for row in found:
        cases.setdefault(row.number, []).append((row.part, row.name, row.when, resolved(row, found)))
    return dict(sorted(cases.items()))


def written(text: str) -> str:
    """The file that is made of the document."""
    lines = [
        '"""What refusals mean and what to do about them. Made by make_remedies.py from docs/REFUSALS.md."""',
        "",
        "from typing import Dict, Tuple",
        "",
        "# By number: the cases, each with the part of the tool that tells it, its name, when it is told and what to do then.",
        "CASES: Dict[int, Tuple[Tuple[str, str, str, str], ...]] = {",
    ]
    for number, cases in table(text).items():
        lines.append(f"    {number}: (")
        for case in cases:
            lines += ["        (", *(f"            {cell!r}," for cell in case), "        ),"]
        lines.append("    ),")
    return "\n".join([*lines, "}", ""])


def main() -> int:
    made = written(SOURCE.read_text(encoding="utf-8"))
    if sys.argv[1:] == ["--check"]:
        if TARGET.read_text(encoding="utf-8") == made:
            return 0
        print(f"{TARGET} is not what {SOURCE} makes: run {pathlib.Path(__file__).name}", file=sys.stderr)
        return 1
    TARGET.write_text(made, encoding="utf-8")
    return 0


if __name__ == "__main__":
    sys.exit(main())
