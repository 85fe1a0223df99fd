#!/usr/bin/env python3
"""Prints the gates that each word operator takes over the sharing maker, both operands fresh inputs, as a table.

`gate_counts.rt.txt` is the program over `gates`: it is proved, and built by `rt run` in a copy of the crates that it
stands on. Needs the toolchain (`rt`).

    python3 bench/gate_counts.py run
"""

import subprocess
import tempfile

from building import built
from timing import RUN, words

CRATES = ["base", "aiger", "gates"]
COLUMNS = 3


def counts(program):
    """Of each operator its gates at the widths, in the program's order."""
    said = subprocess.run([program], check=True, capture_output=True, text=True).stdout
    gates = {}
    for line in said.splitlines():
        name, _width, count = line.split()
        name = name.removeprefix("Unary(").removeprefix("Binary(").removesuffix(")").lower()
        gates.setdefault(name, []).append(int(count))
    return gates


def table(gates):
    """The rows of the operators, in columns."""
    print("|" + " Operator | 8 | 32 | 64 |" * COLUMNS)
    print("|" + "---|---|---|---|" * COLUMNS)
    names = list(gates)
    rows = -(-len(names) // COLUMNS)
    for row in range(rows):
        cells = []
        for column in range(COLUMNS):
            place = column * rows + row
            if place < len(names):
                cells += [f"`{names[place]}`"] + [f"{count:,}" for count in gates[names[place]]]
            else:
                cells += [""] * 4
        print("| " + " | ".join(cells) + " |")


def main():
    words(__doc__, RUN)
    with tempfile.TemporaryDirectory() as folder:
        program, _processor = built(folder, "gate_counts", CRATES)
        table(counts(program))


if __name__ == "__main__":
    main()
