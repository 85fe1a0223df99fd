#!/usr/bin/env python3
"""Times `check-btor` of our program, and of another beside it.

The model is a bit that toggles and an input; the witnesses give the input a word in each of 20,000, 200,000 and
1,000,000 frames. Of each program it prints the least processor time (user and system) of five runs or more and the greatest
peak memory; with another program its own beside ours, the two in turns, and the ratios.

    python3 bench/witnesses.py run
    python3 bench/witnesses.py run --other PROGRAM
"""

import os
import tempfile

from timing import RUN, head, row, words

FRAMES = [20_000, 200_000, 1_000_000]

MODEL = """1 sort bitvec 1
2 zero 1
3 state 1 t
4 init 1 3 2
5 not 1 3
6 next 1 3 5
7 input 1 x
8 and 1 3 7
9 bad 8
"""


def witness(frames):
    """A witness of so many frames, whose input changes with every third one."""
    parts = "".join(f"@{k}\n0 {k // 3 % 2}\n" for k in range(frames))
    return f"sat\nb0\n#0\n0 0\n{parts}.\n"


def main():
    other = words(__doc__, RUN, other="`check-btor MODEL WITNESS`").other
    print(head("Witness", "Frames", other))
    with tempfile.TemporaryDirectory() as folder:
        model = os.path.join(folder, "model.btor2")
        with open(model, "w") as out:
            out.write(MODEL)
        for frames in FRAMES:
            path = os.path.join(folder, f"frames{frames}.witness")
            with open(path, "w") as out:
                out.write(witness(frames))
            print(row(f"frames{frames}", frames, other, ["check-btor", model, path]), flush=True)


if __name__ == "__main__":
    main()
