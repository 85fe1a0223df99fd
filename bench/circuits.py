#!/usr/bin/env python3
"""Times `aig-convert` of our program, and of another beside it.

The circuits have 1,000 inputs, 2,000 latches, an output, a bad property, and 1,000,000 and 10,000,000 gates, most of
whose operands are close to them. Each is read in binary, in ascii with its gates in order, in ascii with its gates in
reverse order, and in ascii with its gates in order and its variables named anew; it is written in both forms. Of each
program it prints the least processor time (user and system) of five runs or more and the greatest peak memory; with another
program its own beside ours, the two in turns, and the ratios. What they write is thrown away.

    python3 bench/circuits.py run
    python3 bench/circuits.py run --other PROGRAM
"""

import os
import subprocess
import tempfile

from timing import RUN, head, ours, row, words

GATES = [1_000_000, 10_000_000]
INPUTS = 1_000
LATCHES = 2_000
LEAVES = INPUTS + LATCHES


def operand(variable, salt):
    """A literal below a gate's: most are of the 2,000 variables before it, and each eighth is of any."""
    spread = (variable * 2_654_435_761 + salt * 40_503) % 2**32
    reach = variable - 1 if spread % 8 == 0 else min(variable - 1, 2_000)
    return 2 * (variable - 1 - (spread >> 8) % reach) + (spread >> 5) % 2


def kept(variable):
    """A variable by its own name."""
    return variable


def write(path, gates, places, name=kept):
    """An ascii file whose gate lines stand in the order of `places`, with each variable by its name."""

    def literal(number):
        return 2 * name(number // 2) + number % 2 if number > 1 else number

    greatest = LEAVES + gates
    with open(path, "w") as out:
        out.write(f"aag {greatest} {INPUTS} {LATCHES} 1 {gates} 1\n")
        for variable in range(1, INPUTS + 1):
            out.write(f"{literal(2 * variable)}\n")
        for variable in range(INPUTS + 1, LEAVES + 1):
            out.write(f"{literal(2 * variable)} {literal(2 * (greatest - variable))}\n")
        out.write(f"{literal(2 * greatest)}\n{literal(2 * greatest + 1)}\n")
        for place in places:
            variable = LEAVES + 1 + place
            one, other = operand(variable, 1), operand(variable, 2)
            out.write(f"{literal(2 * variable)} {literal(max(one, other))} {literal(min(one, other))}\n")


def forms(folder, gates):
    """The files of a circuit of so many gates, each with what it is."""
    greatest = LEAVES + gates

    def anew(variable):
        return variable * 7_919 % greatest + 1

    # multiples of a prime that does not divide the count of variables name each of them once
    assert greatest % 7_919
    order = os.path.join(folder, "order.aag")
    write(order, gates, range(gates))
    reverse = os.path.join(folder, "reverse.aag")
    write(reverse, gates, range(gates - 1, -1, -1))
    named = os.path.join(folder, "named.aag")
    write(named, gates, range(gates), anew)
    binary = os.path.join(folder, "order.aig")
    with open(binary, "wb") as out:
        subprocess.run([ours(), "aig-convert", "--binary", order], stdout=out, check=True)
    return [
        ("binary", binary),
        ("ascii, in order", order),
        ("ascii, gates in reverse", reverse),
        ("ascii, variables named anew", named),
    ]


def main():
    other = words(__doc__, RUN, other="`aig-convert --ascii|--binary CIRCUIT`").other
    print(head("Circuit", "Gates", other))
    with tempfile.TemporaryDirectory() as folder:
        for gates in GATES:
            for what, path in forms(folder, gates):
                for form in ("--binary", "--ascii"):
                    print(row(f"{what}, to {form[2:]}", gates, other, ["aig-convert", form, path]), flush=True)


if __name__ == "__main__":
    main()
