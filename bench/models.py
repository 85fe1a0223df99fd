#!/usr/bin/env python3
"""Writes large models, the same every time.

A model `chain` has sorts of widths 1 to 64, inputs and states (half of them with an init), one chain of `and` and `not`
for each width, a next for every state, and 16 bad properties and 16 constraints. An `and` takes the chain's end and
a leaf, so that no gate has a constant operand and hardly any operand pair comes twice. A model `every` has all line
forms that are lowered, with all operators at all widths; of these there are two, of 1,000 and of 5,000 lines, since
products and quotients take thousands of gates each. Files that are there are kept.

    python3 bench/models.py FOLDER
    python3 bench/models.py FOLDER 5000 50000
"""

import os
import random

from timing import words

OBSERVED = 16

CONSTANTS = "zero one ones const constd consth".split()
REDUCTIONS = "redand redor redxor".split()
ONE_OPERAND = "not inc dec neg".split()
TESTS = "eq neq ugt ugte ult ulte sgt sgte slt slte uaddo saddo usubo ssubo umulo smulo sdivo".split()
TWO_OPERANDS = "and nand or nor xor xnor rol ror sll srl sra add sub mul udiv sdiv urem srem smod".split()
OF_BITS = "iff implies".split()
OBSERVATIONS = "bad constraint fair output justice".split()
LOWERED = "bad constraint output".split()


def model(lines, seed=1):
    """The text of a model of so many lines."""
    draw = random.Random(seed)
    text = []
    sorts = {}
    nodes = {}

    def item(body):
        text.append(f"{len(text) + 1} {body}")
        return len(text)

    for width in range(1, 65):
        sorts[width] = item(f"sort bitvec {width}")
    zeros = {width: item(f"zero {sorts[width]}") for width in sorts}
    states = []
    for k in range(max(64, lines // 400)):
        width = k % 64 + 1
        nodes.setdefault(width, []).append(item(f"input {sorts[width]} in{k}"))
        states.append((item(f"state {sorts[width]} st{k}"), width))
        nodes[width].append(states[-1][0])
    for state, width in states[::2]:
        item(f"init {sorts[width]} {state} {zeros[width]}")

    ends = {width: leaves[0] for width, leaves in nodes.items()}

    def leaf(width):
        return nodes[width][draw.randrange(len(nodes[width]))]

    tail = len(states) + 2 * OBSERVED
    while len(text) < lines - tail:
        width = draw.randint(1, 64)
        if draw.random() < 0.6:
            ends[width] = item(f"and {sorts[width]} {ends[width]} {leaf(width)}")
        else:
            ends[width] = item(f"not {sorts[width]} {ends[width]}")
    for state, width in states:
        item(f"next {sorts[width]} {state} {ends[width]}")
    for k in range(OBSERVED):
        item(f"bad {ends[1]} p{k}")
        item(f"constraint {ends[1]} c{k}")
    return "\n".join(text) + "\n"


def mixed(count, seed=1, observations=OBSERVATIONS):
    """So many items of all line forms, of the observed lines of these: of each its word, its numbers and the number of its name, or 0.

    An item's id is its place from 1. The numbers are those of its line, but that of a constant's digits stand how many
    they are and their value. One in twenty of the nodes is an input or a state, half of the states have an init, and
    all have a next; one in twenty is a constant, in each spelling in turn, and one in ten has a name.
    """
    draw = random.Random(seed)
    items = []
    nodes = {width: [] for width in range(1, 65)}
    states = []

    def item(word, *numbers, name=0):
        items.append((word, numbers, name))
        return len(items)

    def node(width, word, *numbers):
        """An item with a value. The sort of a width is the item whose id is the width."""
        name = len(items) + 1 if draw.random() < 0.1 or word in ("input", "state") else 0
        nodes[width].append(item(word, width, *numbers, name=name))

    def pick(width):
        """A node of a width: mostly one of the last."""
        there = nodes[width]
        return there[-1 - min(int(draw.expovariate(0.05)), len(there) - 1)]

    def constant(width, word):
        value = draw.getrandbits(width)
        if word == "const":
            node(width, word, width, value)
        elif word == "constd":
            node(width, word, value - (value >> width - 1 << width if draw.random() < 0.5 else 0))
        elif word == "consth":
            node(width, word, (width + 3) // 4, value)
        else:
            node(width, word)

    def operator(width):
        kind = draw.choice("one two two two test reduction bits uext sext slice concat ite".split())
        narrow, wide = draw.randint(1, width), draw.randint(width, 64)
        if kind == "one":
            node(width, draw.choice(ONE_OPERAND), pick(width))
        elif kind == "two":
            node(width, draw.choice(TWO_OPERANDS), pick(width), pick(width))
        elif kind == "test":
            node(1, draw.choice(TESTS), pick(width), pick(width))
        elif kind == "reduction":
            node(1, draw.choice(REDUCTIONS), pick(width))
        elif kind == "bits":
            node(1, draw.choice(OF_BITS), pick(1), pick(1))
        elif kind == "slice":
            lower = draw.randint(0, wide - width)
            node(width, kind, pick(wide), lower + width - 1, lower)
        elif kind == "ite":
            node(width, kind, pick(1), pick(width), pick(width))
        elif kind == "concat" and narrow < width:
            node(width, kind, pick(narrow), pick(width - narrow))
        else:
            node(width, kind if kind != "concat" else "uext", pick(narrow), width - narrow)

    def state(width):
        node(width, "state")
        states.append((nodes[width][-1], width))
        if len(states) % 2:
            item("init", width, states[-1][0], zeros[width])

    for width in range(1, 65):
        item("sort", width)
    for width in nodes:
        node(width, "zero")
    zeros = {width: there[0] for width, there in nodes.items()}
    for width in nodes:
        node(width, "input")
        state(width)
    while len(items) + len(states) + 2 < count:
        width = draw.randint(1, 64)
        kind = draw.random()
        if kind < 0.025:
            node(width, "input")
        elif kind < 0.05:
            state(width)
        elif kind < 0.1:
            constant(width, CONSTANTS[len(items) % len(CONSTANTS)])
        elif kind < 0.12:
            word = draw.choice(observations)
            operands = [pick(1) for _ in range(draw.randint(1, 4) if word == "justice" else 1)]
            item(word, *([len(operands)] if word == "justice" else []), *operands, name=len(items) + 1)
        else:
            operator(width)
    for kept, width in states:
        item("next", width, kept, pick(width))
    while len(items) < count:
        item("output", pick(1))
    return items


def text_of(items):
    """The BTOR2 text of items."""
    lines = []
    for k, (word, numbers, name) in enumerate(items):
        if word == "const":
            numbers = (numbers[0], f"{numbers[2]:0{numbers[1]}b}")
        elif word == "consth":
            numbers = (numbers[0], f"{numbers[2]:0{numbers[1]}x}")
        elif word == "sort":
            numbers = ("bitvec", *numbers)
        lines.append(" ".join([str(k + 1), word, *map(str, numbers), *([f"n{name}"] if name else [])]))
    return "\n".join(lines) + "\n"


def list_of(items):
    """The same items, a line each: the word, the number of the name or 0, and the numbers.

    Before the number of a decimal stands 1 where it is negative, else 0.
    """
    lines = []
    for word, numbers, name in items:
        if word == "constd":
            numbers = (numbers[0], int(numbers[1] < 0), abs(numbers[1]))
        lines.append(" ".join([word, str(name), *map(str, numbers)]))
    return "\n".join(lines) + "\n"


def main():
    given = words(
        __doc__,
        ("folder", {"metavar": "FOLDER", "help": "where the models are written"}),
        ("sizes", {"nargs": "*", "type": int, "metavar": "LINES", "default": [10_000, 100_000, 1_000_000],
                   "help": "how many lines a model has; without any 10,000, 100,000 and 1,000,000"}),
    )
    os.makedirs(given.folder, exist_ok=True)
    kinds = [("chain", lines, model) for lines in given.sizes]
    kinds += [("every", lines, lambda lines: text_of(mixed(lines, observations=LOWERED))) for lines in (1_000, 5_000)]
    for kind, lines, written in kinds:
        path = os.path.join(given.folder, f"{kind}{lines}.btor2")
        if not os.path.exists(path):
            with open(path, "w") as out:
                out.write(written(lines))
        print(path)


if __name__ == "__main__":
    main()
