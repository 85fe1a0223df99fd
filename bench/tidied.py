#!/usr/bin/env python3
"""Times `tidy-witness` of our program beside sed, over the same witness, which both write alike.

    python3 bench/tidied.py run

The witness is one of words, of a state of 8 bits and two inputs, whose lines end with carriage returns and blanks, with a
comment in each tenth frame and an `x` in each word. Of each it prints the least processor time (user and system) of five
runs, the two in turns, and the greatest peak memory.
"""

import os
import subprocess
import sys
import tempfile

import timing

FRAMES = [10_000, 100_000, 1_000_000]
# What ends a line goes, then what says nothing; an x of a word is 0, and the witness ends at its dot.
PLAIN = [r"s/[ \t\r]+$//", r"/^(;|$|u[0-9]+$)/d", ":again", r"s/^([0-9]+ +[01x]*)x/\10/", "t again", r"/^\.$/q"]


def main():
    given = timing.words(__doc__, timing.RUN)
    assert given.run == "run"
    sed = ["sed", "-E"] + [word for part in PLAIN for word in ("-e", part)]
    print("| Frames | Text | Time | sed's | Ratio | Memory | sed's |\n|---|---|---|---|---|---|---|")
    for frames in FRAMES:
        with tempfile.TemporaryDirectory() as folder:
            path = os.path.join(folder, "witness")
            with open(path, "w", newline="") as file:
                file.write("sat\r\nb0 \r\n#0\r\n0 0000000x\r\n")
                for k in range(frames):
                    comment = f"; frame {k}\r\n" if k % 10 == 0 else ""
                    file.write(f"@{k}\r\n{comment}0 x\r\n1 {k % 256:08b}x go@{k} \r\n")
                file.write(".\r\n")
            commands = [[timing.ours(), "tidy-witness", path], [*sed, path]]
            # told by sums, since what this script holds counts as memory of what it starts
            sums = [subprocess.check_output(["sh", "-c", '"$@" | sha256sum', "sh", *it]) for it in commands]
            if sums[0] != sums[1]:
                sys.exit("the two write different texts")
            runs = [[timing.measure(it) for it in commands] for _ in range(timing.ROUNDS)]
            seconds = [min(run[k][0] for run in runs) for k in (0, 1)]
            memory = [max(run[k][1] for run in runs) for k in (0, 1)]
            size = os.path.getsize(path) / 1e6
            print(
                f"| {frames:,} | {size:.1f} MB | {seconds[0]:.3f} s | {seconds[1]:.3f} s | {seconds[0] / seconds[1]:.2f} |"
                f" {memory[0]:.0f} MB | {memory[1]:.0f} MB |"
            )


main()
