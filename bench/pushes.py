#!/usr/bin/env python3
"""Times pushes of all line forms into a model, with peak memory, and beside another program's.

`pushes.rt.txt` is the program that pushes: it is proved, and built by `rt run` in a copy of `base` and `btor2`. It reads
a list of items from standard input, in batches, and times the pushes alone, by the processor's clock. Another program
gets the same models, `mixed` of `models.py`. Of each size it prints the least time of 15 runs and how it grows, and the
greatest peak memory of each program and of a run that pushes nothing. Needs the toolchain (`rt`) and GNU `time`.

    python3 bench/pushes.py run
    python3 bench/pushes.py run --other PROGRAM
"""

import os
import shutil
import subprocess
import sys
import tempfile

from building import built
from models import list_of, mixed, text_of
from timing import RUN, ratio, words

RUNS = 15
SIZES = [10_000, 100_000, 1_000_000]


def measure(folder, command, listed):
    """What a command prints of a list, and its peak memory in MB."""
    said = os.path.join(folder, "memory")
    with open(listed) as items:
        words = [shutil.which("time"), "-f", "%M", "-o", said, *command]
        printed = subprocess.run(words, stdin=items, check=True, capture_output=True, text=True).stdout
    with open(said) as memory:
        return printed, int(memory.read()) / 1024


def main():
    other = words(__doc__, RUN, other="`show MODEL`").other
    if not shutil.which("time"):
        sys.exit("GNU time is not there")
    with tempfile.TemporaryDirectory() as folder:
        ours, _ = built(folder, "pushes", ["base", "btor2"])
        models = {}
        for size in SIZES:
            items = mixed(size)
            models[size] = [os.path.join(folder, f"mixed{size}{ending}") for ending in (".list", ".btor2")]
            for path, text in zip(models[size], (list_of(items), text_of(items))):
                with open(path, "w") as out:
                    out.write(text)
        times, peaks, other_peaks, nothing = ({size: [] for size in SIZES} for _ in range(4))
        for _ in range(RUNS):
            for size, (listed, model) in models.items():
                printed, peak = measure(folder, [ours], listed)
                pushed, time = map(int, printed.split())
                if pushed != size:
                    sys.exit(f"{pushed:,} of {size:,} items were pushed")
                times[size].append(time)
                peaks[size].append(peak)
                nothing[size].append(measure(folder, [ours, "nothing"], listed)[1])
                if other:
                    other_peaks[size].append(measure(folder, [other, "show", model], listed)[1])
    beside = " Other | Ratio |" if other else ""
    print(f"| Items | Pushes | An item | Growth | Memory |{beside} Nothing pushed |")
    print("|" + "---|" * (8 if other else 6))
    before = None
    for size in SIZES:
        least, peak = min(times[size]), max(peaks[size])
        growth = f"{least / before:.1f}" if before else ""
        if other:
            beside = f" {max(other_peaks[size]):.1f} MB | {ratio(peak, max(other_peaks[size]))} |"
        print(
            f"| {size:,} | {least / 1e6:.1f} ms | {least / size:.0f} ns | {growth} | {peak:.1f} MB |{beside}"
            f" {max(nothing[size]):.1f} MB |"
        )
        before = least


if __name__ == "__main__":
    main()
