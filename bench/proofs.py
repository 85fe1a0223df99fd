#!/usr/bin/env python3
"""Times `check-proof` of our program on proofs that aim at its dear places, and a plain checker beside it.

The model is a circuit with so many inputs, of which one is its bad property, and the witness circuit claims nothing, so the
formula is satisfied and all of a proof is judged: `not derived`. The proofs:

    unread     a clause added and taken away, 40,000 times, over 10,000 to 400,000 inputs that nothing reads
    order      a clause of 10,000 and 40,000 literals, taken away in another order of them
    sums       so many clauses of four literals with one sum, taken away last first

Of each it prints the least processor time (user and system) of five runs or more and the greatest peak memory. The plain
checker `rup` is quadratic in `order` itself.

    python3 bench/proofs.py run
    python3 bench/proofs.py run --other PROGRAM
"""

import os
import subprocess
import tempfile

from timing import RUN, head, ours, row, words

UNREAD = [10_000, 100_000, 400_000]
ORDER = [10_000, 40_000]
SUMS = [1_000, 4_000, 16_000]
TURNS = 40_000


def unread(size):
    """Inputs, and a proof that does not name them."""
    return size, "1 -1 0\nd 1 -1 0\n" * TURNS


def order(size):
    """As many inputs as a clause has literals, and a proof that takes the clause away from its last literal on."""
    literals = ["-1", *map(str, range(1, size))]
    return size, f"{' '.join(literals)} 0\nd {' '.join(reversed(literals))} 0\n"


def sums(size):
    """Twice as many inputs as there are clauses, and a proof of clauses whose numbers add up to the same."""
    clauses = [f"1 -1 {k} {2 * size + 3 - k} 0\n" for k in range(2, size + 2)]
    return 2 * size + 2, "".join(clauses) + "".join(f"d {clause}" for clause in clauses)


def main():
    other = words(__doc__, RUN, other="`CNF PROOF`").other
    print(head("Proof", "Size", other))
    with tempfile.TemporaryDirectory() as folder:
        circuit, formula, proof = (os.path.join(folder, name) for name in ("circuit.aig", "formula.cnf", "proof.drat"))
        for make, sizes in ((unread, UNREAD), (order, ORDER), (sums, SUMS)):
            for size in sizes:
                inputs, text = make(size)
                with open(circuit, "w") as out:
                    out.write(f"aig {inputs} {inputs} 0 0 0 1\n2\n")
                with open(proof, "w") as out:
                    out.write(text)
                front = ["--circuit", "--aiger"]
                subprocess.run([ours(), "obligation", *front, "-o", formula, circuit, circuit], check=True)
                judging = ["check-proof", *front, circuit, circuit, proof]
                print(row(make.__name__, size, other, judging, 1, [formula, proof]), flush=True)


if __name__ == "__main__":
    main()
