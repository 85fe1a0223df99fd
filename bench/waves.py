#!/usr/bin/env python3
"""Times `wave` of our program, and of another beside it, over the same witness.

The models are a counter of 8 bits with two inputs, whose dump has most of its words in each frame, and a chain of 1,000
nodes of 32 bits, of which a tenth have a symbol. Of each program it prints the least processor time (user and system) of
five runs, the greatest peak memory, and how many megabytes of a dump it writes in a second; with another program its own
beside ours, the two in turns, and the ratios. The plain program is `wave_plain.rs`:

    rustc --edition 2021 -O -C target-cpu=x86-64-v2 -o wave_plain bench/wave_plain.rs
    python3 bench/waves.py run --other ./wave_plain

`--program PROGRAM` stands for ours where that is not `crates/hwtool/out/hwtool`.
"""

import argparse
import os
import subprocess
import sys
import tempfile

from timing import OURS, ROUNDS, measure, ratio

FRAMES = [50_000, 500_000, 5_000_000]

COUNTER = """1 sort bitvec 1
2 sort bitvec 8
3 input 1 reset
4 input 1 enable
5 zero 2
6 state 2 count
7 init 2 6 5
8 inc 2 6
9 ite 2 4 8 6
10 ite 2 3 5 9
11 next 2 6 10
12 ones 2
13 eq 1 6 12
14 bad 13 full
"""


def counted(k):
    """A frame of a witness of the counter, which counts in each."""
    return f"@{k}\n0 0\n1 1\n"


def chain(nodes):
    """A chain of sums, exclusive ors and rotations from an input and a state of 32 bits."""
    lines = ["1 sort bitvec 1", "2 sort bitvec 32", "3 input 2 in", "4 zero 2", "5 state 2 sum", "6 init 2 5 4"]
    last = 5
    for k in range(nodes):
        id = 7 + k
        op = ("add", "xor", "rol")[k % 3]
        symbol = f" node{k}" if k % 10 == 0 else ""
        lines.append(f"{id} {op} 2 {last} {3 if k % 2 else max(last - 1, 5) if last > 7 else 3}{symbol}")
        last = id
    lines += [f"{last + 1} next 2 5 {last}", f"{last + 2} redor 1 5", f"{last + 3} not 1 {last + 2}", f"{last + 4} bad {last + 3}"]
    return "\n".join(lines) + "\n"


def chained(k):
    """A frame of a witness of the chain, with another input in each."""
    return f"@{k}\n0 {k * 2654435761 % (1 << 32):032b}\n"


def dumped(program, files):
    """How many bytes a program writes, whatever it judges."""
    ran = subprocess.Popen([program, "wave", *files], stdout=subprocess.PIPE, stderr=subprocess.DEVNULL)
    size = sum(len(piece) for piece in iter(lambda: ran.stdout.read(1 << 16), b""))
    ran.wait()
    return size


def best(programs, files):
    """The least seconds and the greatest memory of each program, in turns. Both are to accept or refuse alike."""
    found = {}
    for _ in range(ROUNDS):
        for program in programs:
            seconds, memory = measure(["sh", "-c", 'exec "$0" wave "$@" 2>/dev/null', program, *files])
            least, most = found.get(program, (seconds, memory))
            found[program] = (min(least, seconds), max(most, memory))
    return found


def main():
    parser = argparse.ArgumentParser(description=__doc__, formatter_class=argparse.RawDescriptionHelpFormatter)
    parser.add_argument("run", choices=["run"], help="do it; this takes some minutes")
    parser.add_argument("--other", metavar="PROGRAM", help="another program that takes `wave MODEL WITNESS`")
    parser.add_argument("--program", metavar="PROGRAM", default=OURS, help="our program")
    if len(sys.argv) == 1:
        parser.print_help()
        return
    given = parser.parse_args()
    programs = [given.program] + ([given.other] if given.other else [])
    print("| Model | Frames | Dump | Time | Other | Ratio | Memory | Other | Ratio | Ours a second | Other |")
    print("|" + "---|" * 11)
    trials = [("counter", COUNTER, counted, frames) for frames in FRAMES]
    trials += [("1,000 nodes", chain(1000), chained, frames) for frames in (1_000, 10_000)]
    with tempfile.TemporaryDirectory() as folder:
        for name, model, witness, frames in trials:
            files = [os.path.join(folder, "model"), os.path.join(folder, "witness")]
            with open(files[0], "w") as out:
                out.write(model)
            with open(files[1], "w") as out:
                out.write("sat\nb0\n")
                out.writelines(witness(k) for k in range(frames))
                out.write(".\n")
            sizes = [dumped(program, files) for program in programs]
            if len(set(sizes)) > 1:
                sys.exit(f"{name}, {frames} frames: the dumps have {sizes} bytes")
            found = best(programs, files)
            size, rows = sizes[0] / 1e6, [found[program] for program in programs]
            (own, room), (their, rooms) = rows[0], rows[-1]
            print(
                f"| {name} | {frames:,} | {size:.1f} MB | {own:.3f} s | {their:.3f} s | {ratio(own, their)} "
                f"| {room:.0f} MB | {rooms:.0f} MB | {ratio(room, rooms)} | {size / own:.0f} MB | {size / their:.0f} MB |",
                flush=True,
            )


if __name__ == "__main__":
    main()
