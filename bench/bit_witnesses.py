#!/usr/bin/env python3
"""Times the commands on witnesses of circuits: `check-aig`, `restore` and `lift`, of our program and of another beside it.

A counter of 64 bits with 192 input bits, in frames of random inputs, is judged over the circuit of its model, restored from its engine
form in both forms that engines write, and lifted to the model, also from there. Lines of 2,000, 60,000 and 140,000 bits are judged as
witnesses of a circuit with as many inputs. Another program is timed where it has the command, which is `check-aig` and `lift`. Of each
program it prints the least processor time (user and system) of five runs or more and the greatest peak memory; with another program
its own beside ours, the two in turns, and the ratios.

    python3 bench/bit_witnesses.py run
    python3 bench/bit_witnesses.py run --other PROGRAM
"""

import os
import random
import subprocess
import tempfile
from itertools import chain

from timing import RUN, head, ours, row, words

FRAMES = [10_000, 100_000]
# The bits of a line, and how many lines.
LINES = [(2_000, 10_000), (60_000, 400), (140_000, 160)]

# It counts where all three words are one, and never gets to its bad value in so few frames.
MODEL = """1 sort bitvec 1
2 sort bitvec 64
3 zero 2
4 ones 2
5 input 2 a
6 input 2 b
7 input 2 c
8 state 2 n
9 init 2 8 3
10 and 2 5 6
11 and 2 10 7
12 add 2 8 11
13 next 2 8 12
14 eq 1 8 4
15 bad 14 full
"""


def put(path, lines):
    """Writes a file of lines; answers its path."""
    with open(path, "w") as out:
        out.writelines(f"{line}\n" for line in lines)
    return path


def lines_of(width, count):
    """So many lines of random bits, one after the other, since what is held here would be counted as the programs'."""
    chance = random.Random(width + count)
    for _ in range(count):
        yield f"{chance.getrandbits(width):0{width}b}"


def made(arguments, path):
    """What our program writes; answers the path of the file."""
    with open(path, "wb") as out:
        subprocess.run([ours(), *arguments], stdout=out, check=True)
    return path


def counted(folder, other):
    """The rows of the counter."""
    model = put(os.path.join(folder, "model.btor2"), MODEL.splitlines())
    circuit = made(["lower", "--binary", model], os.path.join(folder, "circuit.aig"))
    for frames in FRAMES:
        witness = put(os.path.join(folder, "witness"), chain(["1", "b0", "0" * 64], lines_of(192, frames), ["."]))
        found = put(os.path.join(folder, "found"), chain(["0" * 64], lines_of(192, frames), ["# DONE"]))
        yield "check-aig", frames, other, ["check-aig", circuit, witness]
        yield "restore", frames, None, ["restore", circuit, witness]
        yield "restore --abc", frames, None, ["restore", "--abc", circuit, found]
        yield "lift", frames, other, ["lift", model, witness]
        yield "lift --engine", frames, None, ["lift", "--engine", model, witness]
        yield "lift --engine --abc", frames, None, ["lift", "--engine", "--abc", model, found]


def long_lines(folder, other):
    """The rows of long lines."""
    for width, lines in LINES:
        circuit = put(os.path.join(folder, "wide.aag"), chain([f"aag {width} {width} 0 0 0 1"], (2 * k + 2 for k in range(width)), ["0"]))
        witness = put(os.path.join(folder, "wide"), chain(["1", "b0", ""], lines_of(width, lines), ["."]))
        yield f"check-aig, {width:,} bits a line", lines, other, ["check-aig", circuit, witness]


def main():
    other = words(__doc__, RUN, other="`check-aig CIRCUIT WITNESS` and `lift MODEL WITNESS`").other
    print(head("Command", "Frames", other))
    with tempfile.TemporaryDirectory() as folder:
        for rows in (counted, long_lines):
            for name, frames, beside, arguments in rows(folder, other):
                cells = row(name, frames, beside, arguments, status=1)
                # the columns of the other program stay empty where it has no such command
                print(cells if beside or not other else "| {} | {} | {} | | | {} | | |".format(*cells.strip("| ").split(" | ")), flush=True)


if __name__ == "__main__":
    main()
