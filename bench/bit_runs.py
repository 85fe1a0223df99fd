#!/usr/bin/env python3
"""Times runs of circuits over 100 frames, with peak memory, and beside another program's.

`bit_runs.rt.txt` is the program that runs a circuit: it is proved, and built by `rt run` in a copy of the crates that it
stands on. It reads a list of gates from standard input and times, by the processor's clock, making the run and the
frames alone. Another program gets the same circuits in binary AIGER, and witnesses with the same inputs, of 100 frames
and of one; the difference is the time of 99 frames. Of each size it prints the least time of a frame of five runs, in
turns, and the greatest peak memory. Needs the toolchain (`rt`) and GNU `time`.

    python3 bench/bit_runs.py run
    python3 bench/bit_runs.py run --other PROGRAM
"""

import os
import random
import shutil
import subprocess
import sys
import tempfile

from building import built
from timing import ROUNDS, RUN, measure, ratio, words

SIZES = [100_000, 1_000_000]
INPUTS = 1000
LATCHES = 2000
FRAMES = 100


def chance():
    """Bits that look like chance, as the program that is timed makes them."""
    state = 1
    while True:
        state = (state * 6364136223846793005 + 1442695040888963407) % 2**64
        yield "1" if state >= 2**63 else "0"


def circuit(size):
    """Nexts of the latches and operands of the gates, most of which are close to the gate."""
    r = random.Random(size)
    first = INPUTS + LATCHES + 1
    gates = []
    for variable in range(first, first + size):
        near = [variable - 1 - min(int(r.expovariate(1) * scale), variable - 2) for scale in (60, 4000)]
        one, two = (2 * v + r.getrandbits(1) for v in near)
        gates.append((max(one, two), min(one, two)))
    last = first + size - 1
    nexts = [2 * (last - r.randrange(5000)) + r.getrandbits(1) for _ in range(LATCHES)]
    return nexts, gates


def delta(number):
    """A number in the binary form: seven bits a byte, the lowest first."""
    digits = bytearray()
    while number >= 128:
        digits.append(number & 127 | 128)
        number >>= 7
    digits.append(number)
    return digits


def write(folder, size):
    """The files of a circuit: the list, the binary text, and witnesses of all frames and of one."""
    nexts, gates = circuit(size)
    paths = [os.path.join(folder, f"gates{size}{ending}") for ending in (".list", ".aig", ".all", ".one")]
    last = INPUTS + LATCHES + size
    with open(paths[0], "w") as out:
        out.write(f"circuit {INPUTS} {LATCHES}\n")
        out.writelines(f"gate {one} {two}\n" for one, two in gates)
        out.writelines(f"latch {k} {literal}\n" for k, literal in enumerate(nexts))
        out.write(f"bad {2 * last} 0\n")
    with open(paths[1], "wb") as out:
        out.write(f"aig {last} {INPUTS} {LATCHES} 0 {size} 1\n".encode())
        out.write("".join(f"{literal}\n" for literal in nexts).encode())
        out.write(f"{2 * last}\n".encode())
        for place, (one, two) in enumerate(gates):
            out.write(delta(2 * (INPUTS + LATCHES + 1 + place) - one) + delta(one - two))
    for path, frames in ((paths[2], FRAMES), (paths[3], 1)):
        bits = chance()
        with open(path, "w") as out:
            out.write("1\nb0\n" + "0" * LATCHES + "\n")
            for _ in range(frames):
                out.write("".join(next(bits) for _ in range(INPUTS)) + "\n")
            out.write(".\n")
    return paths


def peak(folder, command, source=None):
    """What a command prints, and its peak memory in MB."""
    said = os.path.join(folder, "memory")
    words = [shutil.which("time"), "-f", "%M", "-o", said, *command]
    printed = subprocess.run(words, stdin=source, check=True, capture_output=True, text=True).stdout
    with open(said) as memory:
        return printed, int(memory.read()) / 1024


def run(folder, program, listed):
    """Nanoseconds of all frames of a listed circuit, and the peak memory in MB."""
    with open(listed) as gates:
        printed, memory = peak(folder, [program, str(FRAMES)], gates)
    frames, rose, _, time = map(int, printed.split())
    if frames != FRAMES or rose == 0:
        sys.exit(f"{frames} frames, in {rose} of which the bad property rose")
    return time, memory


def main():
    other = words(__doc__, RUN, other="`check-aig CIRCUIT WITNESS`").other
    if not shutil.which("time"):
        sys.exit("GNU time is not there")
    with tempfile.TemporaryDirectory() as folder:
        ours, _ = built(os.path.join(folder, "built"), "bit_runs", ["base", "aiger", "btor2", "runs"])
        beside = " Other | Ratio |" if other else ""
        print(f"| Gates | Frames | A frame |{beside} A gate | Memory |{beside}")
        print("|" + "---|" * (9 if other else 5))
        for size in SIZES:
            listed, text, all_frames, one_frame = write(folder, size)
            times, peaks, all_times, one_times, other_peaks = ([] for _ in range(5))
            for _ in range(ROUNDS):
                time, memory = run(folder, ours, listed)
                times.append(time / FRAMES)
                peaks.append(memory)
                if other:
                    command = [other, "check-aig", text]
                    all_times.append(measure([*command, all_frames])[0] * 1e9)
                    one_times.append(measure([*command, one_frame])[0] * 1e9)
                    other_peaks.append(peak(folder, [*command, all_frames])[1])
            least, most = min(times), max(peaks)
            cells = [f"{least / 1e6:.2f} ms", f"{least / size:.2f} ns", f"{most:.1f} MB"]
            if other:
                theirs = (min(all_times) - min(one_times)) / (FRAMES - 1)
                cells[2:] = [cells[2], f"{max(other_peaks):.1f} MB", ratio(most, max(other_peaks))]
                cells[1:1] = [f"{theirs / 1e6:.2f} ms", ratio(least, theirs)]
            print(f"| {size:,} | {FRAMES} | {' | '.join(cells)} |")


if __name__ == "__main__":
    main()
