#!/usr/bin/env python3
"""Times the judge of proofs without hints alone, on formulas and proofs that aim at its dear places, and another program beside it.

`formulas.rt.txt` is the program that judges: it is proved, and built by `rt run` in a copy of `base` and `drup`. The formulas and
proofs, of a size n:

    unread     n variables that nothing names; a clause is added and taken away 40,000 times
    order      a clause of n literals, taken away in another order of them
    sums       n clauses of four literals with one sum, taken away
    front      a clause whose first n literals are falsified is looked at in each of n steps
    prefix     a chain of n implications; each step shows that the first variable gives one further behind it
    suffix     the same chain; each step shows that a variable gives the last one, from behind
    counter    two counters of n bits that count in one way are one: CaDiCaL's proof, in ascii

All but `counter` derive nothing. Of each it prints the least processor time (user and system) of five runs, and the power of n by
which it grows from the size before.

    python3 bench/formulas.py run
    python3 bench/formulas.py run --other PROGRAM
"""

import math
import os
import subprocess
import tempfile

from building import built
from timing import RUN, measure, ratio, shown, words

ROUNDS = 5
TURNS = 40_000


def unread(n):
    return n, [[1]], "1 -1 0\nd 1 -1 0\n" * TURNS


def order(n):
    literals = ["-1", *map(str, range(1, n))]
    return n, [[1]], f"{' '.join(literals)} 0\nd {' '.join(reversed(literals))} 0\n"


def sums(n):
    clauses = [f"1 -1 {k} {2 * n + 3 - k} 0\n" for k in range(2, n + 2)]
    return 2 * n + 2, [[1]], "".join(clauses) + "".join(f"d {it}" for it in clauses)


def front(n):
    formula = [[*range(1, n + 3)], *([-it] for it in range(1, n + 1))]
    return n + 2, formula, f"{n + 1} {n + 2} 0\nd {n + 1} {n + 2} 0\n" * n


def chain(n):
    return [[-it, it + 1] for it in range(1, n)]


def prefix(n):
    return n, chain(n), "".join(f"-1 {it} 0\n" for it in range(3, n + 1))


def suffix(n):
    return n, chain(n), "".join(f"-{it} {n} 0\n" for it in range(n - 2, 0, -1))


def incremented(bits, fresh, formula):
    """The bits of one more than bits have, with the clauses of their gates."""
    carry, found = next(fresh), []
    formula.append([carry])
    for bit in bits:
        total, both = next(fresh), next(fresh)
        formula += [[-total, carry, bit], [-total, -carry, -bit], [total, -carry, bit], [total, carry, -bit]]
        formula += [[-both, carry], [-both, bit], [both, -carry, -bit]]
        found.append(total)
        carry = both
    return found


def counter(n):
    fresh, formula = iter(range(1, 10 * n + 10)), []
    bits = [next(fresh) for _ in range(n)]
    one, other = (incremented(bits, fresh, formula) for _ in range(2))
    differ = []
    for left, right in zip(one, other):
        it = next(fresh)
        formula += [[-it, left, right], [-it, -left, -right], [it, -left, right], [it, left, -right]]
        differ.append(it)
    return next(fresh) - 1, [*formula, differ], None


SIZES = [
    (unread, [100_000, 400_000]),
    (order, [15_000, 60_000]),
    (sums, [1_000, 4_000]),
    (front, [5_000, 20_000]),
    (prefix, [8_000, 32_000]),
    (suffix, [8_000, 32_000]),
    (counter, [500, 2_000]),
]


def written(folder, made):
    """The paths of a formula and a proof."""
    variables, clauses, text = made
    formula, proof = (os.path.join(folder, name) for name in ("formula.cnf", "proof.drat"))
    with open(formula, "w") as out:
        out.write(f"p cnf {variables} {len(clauses)}\n")
        out.writelines(f"{' '.join(map(str, it))} 0\n" for it in clauses)
    if text is None:
        subprocess.run(["cadical", "-q", "--no-binary", formula, proof], stdout=subprocess.DEVNULL)
    else:
        with open(proof, "w") as out:
            out.write(text)
    return [formula, proof]


def main():
    program = ("--program", {"metavar": "PROGRAM", "help": "the program of `formulas.rt.txt`, where it is built already"})
    given = words(__doc__, RUN, program, other="`CNF PROOF`")
    with tempfile.TemporaryDirectory() as folder:
        ours = given.program or built(folder, "formulas", ["base", "drup"])[0]
        programs = [ours, *([given.other] if given.other else [])]
        print("| Proof | n | Time | Power |" + (" Other | Power | Ratio |" if given.other else ""))
        print("|" + "---|" * (7 if given.other else 4))
        for make, sizes in SIZES:
            before = None
            for size in sizes:
                files = written(folder, make(size))
                runs = [[measure([it, *files], int(make is not counter))[0] for it in programs] for _ in range(ROUNDS)]
                times = [min(run[at] for run in runs) for at in range(len(programs))]
                cells = [make.__name__, f"{size:,}"]
                for at, now in enumerate(times):
                    cells += [shown(now), f"{math.log(now / before[1][at], size / before[0]):.1f}" if before else ""]
                cells += [ratio(*times)] if given.other else []
                print(f"| {' | '.join(cells)} |", flush=True)
                before = size, times


if __name__ == "__main__":
    main()
