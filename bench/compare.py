#!/usr/bin/env python3
"""Times `show`, `cost` and `lower` in both forms of our program, and of another beside it.

Of each program, model and command it prints the least processor time (user and system) of five runs or more and the greatest
peak memory; with another program its own beside ours, the two in turns, and the ratios. What they write is thrown away.

    python3 bench/models.py FOLDER
    python3 bench/compare.py FOLDER/*.btor2
    python3 bench/compare.py FOLDER/*.btor2 --other PROGRAM
"""

import os

from timing import head, row, words

COMMANDS = (["show"], ["cost"], ["lower", "--ascii"], ["lower", "--binary"])


def main():
    given = words(
        __doc__, ("models", {"nargs": "+", "metavar": "MODEL", "help": "a BTOR2 model"}), other="the same commands"
    )
    print(head("Model", "Lines", given.other))
    for model in given.models:
        with open(model, "rb") as text:
            lines = sum(1 for _ in text)
        for command in COMMANDS:
            name = f"{' '.join(command)} of {os.path.basename(model)}"
            print(row(name, lines, given.other, [*command, model]), flush=True)


if __name__ == "__main__":
    main()
