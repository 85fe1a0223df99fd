#!/usr/bin/env python3
"""Times each word operator of the crate `base`, beside the same in plain Rust where `rustc` is there.

`operators.rt.txt` is the program over `base`: it is proved, and built by `rt run`. `operators_plain.rs` is the plain
one, of the same shape, built by `rustc -O` for the same processor. Each goes over 4,096 samples 256 times in one loop
for each operator and width, with a clock around it, and takes the least of five such repetitions; this script takes
the least of five turns of both. The samples come from a small generator before the clock starts; their widths lie
beside their words. Both programs take the operators' names as arguments, so no compiler knows them, and the loops are
functions that are not inlined: in both programs' machine code there is one loop for all operators of two operands, with
one indirect jump for each word. Each word counts a step and goes into a checksum; checksums and steps must agree.
For `uext`, `sext` and `concat` the width is that of what they give. Needs the toolchain (`rt`); with `rustc` it prints
the ratios of our time to the plain one, without it our nanoseconds for a word.

    python3 bench/operators.py run
"""

import os
import shutil
import subprocess
import sys
import tempfile

from building import BENCH, built
from timing import RUN, words

TURNS = 5
WORDS = 4096 * 256
LIMIT = 2
COLUMNS = 3
NAMES = """
    not inc dec neg redand redor redxor
    iff implies eq neq ugt ugte ult ulte sgt sgte slt slte
    and nand or nor xor xnor rol ror sll srl sra
    add sub mul udiv sdiv urem srem smod
    uaddo saddo usubo ssubo umulo smulo sdivo
    ite slice uext sext concat
""".split()


def run(program):
    """Of each operator and width the nanoseconds, and the checksum with the steps."""
    said = subprocess.run([program, *NAMES], check=True, capture_output=True, text=True).stdout
    rows = [line.split() for line in said.splitlines()]
    return {(name, int(width)): (int(time), rest) for name, width, time, *rest in rows}


def plain_program(folder, processor):
    """The plain program, built for this processor, where there is a compiler."""
    if not shutil.which("rustc"):
        return None
    plain = os.path.join(folder, "plain")
    source = os.path.join(BENCH, "operators_plain.rs")
    flags = ["--edition", "2024", "-O", "-C", "target-cpu=" + processor]
    subprocess.run(["rustc", *flags, "-o", plain, source], check=True)
    return plain


def table(figures):
    """The rows of figures of each operator at both widths, in columns."""
    print("|" + " Operator | 64 bits | 7 bits |" * COLUMNS)
    print("|" + "---|---|---|" * COLUMNS)
    height = -(-len(NAMES) // COLUMNS)
    for row in range(height):
        names = NAMES[row::height]
        cells = [f" `{name}` | {figures[name, 64]:.2f} | {figures[name, 7]:.2f} |" for name in names]
        print("|" + "".join(cells) + " | | |" * (COLUMNS - len(names)))
    print()


def main():
    words(__doc__, RUN)
    with tempfile.TemporaryDirectory() as folder:
        ours, processor = built(folder, "operators", ["base"])
        plain = plain_program(folder, processor)
        least = {program: {} for program in (ours, plain) if program}
        results = {}
        for _ in range(TURNS):
            for program in least:
                for key, (time, result) in run(program).items():
                    if results.setdefault(key, result) != result:
                        sys.exit(f"{key}: {results[key]} and {result}")
                    least[program][key] = min(time, least[program].get(key, time))
    if len(results) != 2 * len(NAMES):
        sys.exit("an operator is missing")
    each = {program: {key: time / WORDS for key, time in times.items()} for program, times in least.items()}
    ratios = {key: each[ours][key] / each[plain][key] for key in results} if plain else {}
    table(ratios or each[ours])
    for program, text in ((ours, "ours"), (plain, "plain")):
        if program:
            times = each[program].values()
            print(f"{text}: {min(times):.1f} to {max(times):.1f} ns a word, {sum(times) / len(times):.2f} on average")
    for (name, width), ratio in ratios.items():
        if ratio > LIMIT:
            print(f"above {LIMIT}: {name} at {width} bits, {ratio:.2f}")


if __name__ == "__main__":
    main()
