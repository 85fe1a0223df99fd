#!/usr/bin/env python3
"""Times `check-proof --lrat` of our program on long proofs with hints, and beside it a program that only reads the numbers.

The model is a circuit whose bad property is the last of a chain of AND gates, and it is its own witness circuit. A step is the resolvent
of two clauses of the formula, with both as its hints, so each is judged, and nothing is derived. Of the form `kept` no clause is taken
away; of `taken` each step is, behind the next.

Of each it prints the least processor time (user and system) of five runs or more and the greatest peak memory. The other program is
numbers_plain.rs. With a finder, hints_plain.rs, it also has CaDiCaL prove that two products of nine bits are one, has the finder find
the hints, and times both proofs.

    rustc -O -o /tmp/numbers bench/numbers_plain.rs
    rustc -O -o /tmp/hints bench/hints_plain.rs
    python3 bench/hints.py run
    python3 bench/hints.py run --other /tmp/numbers --finder /tmp/hints
"""

import itertools
import os
import subprocess
import tempfile

from timing import RUN, head, ours, row, words

GATES = 1_000
MEGABYTES = [10, 100]
BITS = 9


def chain(gates):
    """A circuit of inputs and a chain of gates, the last of which is bad."""
    inputs = gates + 1
    lines = [f"aag {inputs + gates} {inputs} 0 0 {gates} 1", *(str(2 * it) for it in range(1, inputs + 1)), str(2 * (inputs + gates))]
    above = 2
    for place in range(gates):
        lines.append(f"{2 * (inputs + place + 1)} {above} {2 * (place + 2)}")
        above = 2 * (inputs + place + 1)
    return "\n".join(lines) + "\n"


def resolvents(clauses):
    """Pairs of clauses by their numbers, with what both give together."""
    by_literal = {}
    for number, clause in enumerate(clauses, 1):
        for literal in clause:
            by_literal.setdefault(literal, []).append(number)
    for number, clause in enumerate(clauses, 1):
        for literal in clause:
            for other in by_literal.get(-literal, [])[:2]:
                found = {*clause, *clauses[other - 1]} - {literal, -literal}
                if not any(-it in found for it in found):
                    yield sorted(found), number, other


def steps(clauses, size, is_taken):
    """The lines of steps, of so many bytes together."""
    given = [f"{' '.join(map(str, [*found, 0, one, other, 0]))}\n" for found, one, other in resolvents(clauses)]
    written = 0
    for number, behind in enumerate(itertools.cycle(given), len(clauses) + 1):
        line = f"{number} {behind}"
        if is_taken and number - 1 > len(clauses):
            line += f"{number} d {number - 1} 0\n"
        yield line
        written += len(line)
        if written >= size:
            return


def products(bits):
    """A model of two registers that take the product of two inputs in two ways, and the invariant that they are one."""
    lines = [f"sort bitvec {bits}", "zero 1", "state 1 x", "init 1 3 2", "state 1 y", "init 1 5 2", "input 1", "input 1"]
    lines += ["mul 1 7 8", "mul 1 8 7", "next 1 3 9", "next 1 5 10", "sort bitvec 1", "neq 13 3 5", "bad 14"]
    cubes = [
        "".join("-" if it % bits != bit else "01"[(it < bits) == is_first] for it in range(2 * bits))
        for bit in range(bits) for is_first in (True, False)
    ]
    names = " ".join(f"lo{it}" for it in range(2 * bits))
    invariant = [f".i {2 * bits}", ".o 1", f".p {len(cubes)}", f".ilb {names}", ".ob inv", *(f"{it} 1" for it in cubes), ".e"]
    return "".join(f"{at} {line}\n" for at, line in enumerate(lines, 1)), "\n".join(invariant) + "\n"


def time_products(folder, finder):
    """The rows of a proof of CaDiCaL's, without its hints and with them."""
    model, invariant, formula, plain, hinted = (os.path.join(folder, name) for name in ("m.btor2", "m.pla", "m.cnf", "m.drat", "m.lrat"))
    for path, text in zip((model, invariant), products(BITS)):
        with open(path, "w") as out:
            out.write(text)
    subprocess.run([ours(), "obligation", "-o", formula, model, invariant], check=True)
    subprocess.run(["cadical", "-q", "--no-binary", formula, plain], stdout=subprocess.DEVNULL)
    with open(hinted, "w") as out:
        subprocess.run([finder, formula, plain], stdout=out, check=True)
    for name, proof, flags in (("products", plain, []), ("products with hints", hinted, ["--lrat"])):
        print(row(name, os.path.getsize(proof), None, ["check-proof", "--quiet", *flags, model, invariant, proof]), flush=True)


def main():
    finder = ("--finder", {"metavar": "PROGRAM", "help": "a program that takes `CNF DRAT` and writes LRAT"})
    given = words(__doc__, RUN, finder, other="`PROOF`")
    other = given.other
    print(head("Proof", "Bytes", other))
    with tempfile.TemporaryDirectory() as folder:
        circuit, formula, proof = (os.path.join(folder, name) for name in ("circuit.aag", "formula.cnf", "proof.lrat"))
        with open(circuit, "w") as out:
            out.write(chain(GATES))
        front = ["--circuit", "--aiger"]
        subprocess.run([ours(), "obligation", *front, "-o", formula, circuit, circuit], check=True)
        with open(formula) as text:
            clauses = [[int(it) for it in line.split()[:-1]] for line in text if line[0] != "p"]
        for is_taken in (False, True):
            for megabytes in MEGABYTES:
                with open(proof, "w") as out:
                    out.writelines(steps(clauses, megabytes * 1_000_000, is_taken))
                judging = ["check-proof", "--lrat", "--quiet", *front, circuit, circuit, proof]
                print(row("taken" if is_taken else "kept", os.path.getsize(proof), other, judging, 1, [proof]), flush=True)
        if given.finder:
            time_products(folder, given.finder)


if __name__ == "__main__":
    main()
