#!/usr/bin/env python3
"""Tries what tools/start.c puts before the released program: start.py [PROGRAM], the released one where none is named.

Under each of 100 limits of address space each command does what it does without one, or says `no memory`; none ends by a signal.
Under the least ones the system's loader may refuse it before it begins.
Where the kernel lacks the newer call that tells of files, as before Linux 4.11, the results are the same; and so they are under a
small limit of the stack. The status is 0 where all is as it should be, else 1.
"""
import ctypes
import os
import resource
import struct
import subprocess
import sys
import tempfile
from pathlib import Path

TOP = Path(__file__).resolve().parent.parent
EXAMPLES = TOP / "examples"
# The limits of address space, in bytes.
LIMITS = range(3_500_000, 9_500_000, 60_000)
# Limits of the stack: one that the start goes by, and two that it lets be.
STACKS = (4 << 20, 1 << 20, 512 << 10)
# So many items, frames and steps have texts that take more memory than the limits leave.
ITEMS, FRAMES, STEPS = 12_000, 4, 20_000
NO_MEMORY = (3, b"no memory\n")
# What the loader ends with, and what it says.
UNLOADED, LOADER_SAYS = 127, b"error while loading shared libraries"
# A filter of system calls: the number of the call is loaded; statx is answered by "no such call", all others are let through.
STATX, NO_SUCH_CALL, ANSWERED, ALLOWED = 332, 38, 0x00050000, 0x7FFF0000
FILTER = ((0x20, 0, 0, 0), (0x15, 0, 1, STATX), (0x06, 0, 0, ANSWERED | NO_SUCH_CALL), (0x06, 0, 0, ALLOWED))
# The numbers by which prctl is told.
NO_NEW_PRIVILEGES, SECCOMP, BY_FILTER = 38, 22, 2


def large_model():
    """A model of many items, whose two inputs are of eight bits."""
    items = "".join(f"{k} add 2 {k - 1} {k - 2}\n" for k in range(5, ITEMS))
    return f"1 sort bitvec 1\n2 sort bitvec 8\n3 input 2\n4 input 2\n{items}{ITEMS} redor 1 {ITEMS - 1}\n{ITEMS + 1} bad {ITEMS}\n"


def commands(program, folder):
    """Words of each command, over texts of many items, frames or steps, and over small ones."""
    model, circuit, form, witness, bits, steps = (folder / it for it in ("btor2", "aig", "form", "witness", "bits", "steps"))
    invariant = EXAMPLES / "wraps.invariant"
    model.write_text(large_model())
    witness.write_text("sat\nb0\n" + "".join(f"@{k}\n0 00000001\n1 00000000\n" for k in range(FRAMES)) + ".\n")
    bits.write_text("1\nb0\n\n" + "1000000000000000\n" * FRAMES + ".\n")
    steps.write_text("1 -1 0\nd 1 -1 0\n" * STEPS)
    for made, words in ((circuit, ["--binary"]), (form, ["--engine", "--binary"])):
        made.write_bytes(subprocess.run([program, "lower", *words, model], check=True, stdout=subprocess.PIPE).stdout)
    found = [["lower", model], ["lower", "--engine", model], ["show", model], ["aig-convert", circuit], ["aig-convert", "--engine", circuit]]
    found += [["check-btor", model, witness], ["wave", model, witness], ["check-aig", circuit, bits], ["tidy-witness", witness]]
    found += [["lift", model, bits], ["restore", circuit, bits], ["lift", "--engine", model, bits], ["vectors", witness]]
    wraps = EXAMPLES / "wraps.btor2"
    found += [["obligation", model, invariant], ["check-proof", wraps, invariant, steps], ["obligation", "--circuit", "--aiger", circuit, form]]
    found += [["check-proof", wraps, invariant, EXAMPLES / "wraps.proof"], ["check-btor", EXAMPLES / "toggler.btor2", EXAMPLES / "toggler.witness"]]
    found += [["lower", wraps], ["cost", wraps], ["explain"], ["--help"], ["--version"], ["no-command"]]
    return [[program, *map(str, it)] for it in found]


def ran(words, prepare=None, folder=None):
    """What comes of a run: its status, standard error and output."""
    done = subprocess.run(words, stdin=subprocess.DEVNULL, capture_output=True, preexec_fn=prepare, cwd=folder, check=False)
    return done.returncode, done.stderr, done.stdout


def limited(kind, size):
    """What sets a limit of a process that is to be."""
    return lambda: resource.setrlimit(kind, (size, size))


def without_statx():
    """Makes the kernel an older one, for a process that is to be."""
    rules = ctypes.create_string_buffer(b"".join(struct.pack("HBBI", *it) for it in FILTER))
    program = struct.pack("HxxxxxxP", len(FILTER), ctypes.addressof(rules))
    libc = ctypes.CDLL(None, use_errno=True)
    if libc.prctl(NO_NEW_PRIVILEGES, 1, 0, 0, 0) != 0 or libc.prctl(SECCOMP, BY_FILTER, program, 0, 0) != 0:
        raise OSError(ctypes.get_errno(), "no filter of system calls")


class Tally:
    """How much was tried, and what was not as it should be."""

    def __init__(self):
        self.tried = self.wrong = self.unloaded = 0

    def one_of(self, name, wanted, got):
        """What came of something is one of what is wanted."""
        self.tried += 1
        if got not in wanted:
            self.wrong += 1
            print(f"{name}: {str(got)[:200]}, not {' or '.join(str(it)[:200] for it in wanted)}")


def try_limits(tally, program, folder):
    """Little memory, and little stack."""
    for words in commands(program, folder):
        name, free = " ".join(words[1:]), ran(words)
        for size in LIMITS:
            status, told, output = ran(words, limited(resource.RLIMIT_AS, size))
            if status == UNLOADED and LOADER_SAYS in told and not output:
                tally.unloaded += 1
                continue
            # what was written before memory was wanting is a part of the output
            wanting = (*NO_MEMORY, output if free[2].startswith(output) else None)
            tally.one_of(f"{name} in {size} bytes", [free, wanting], (status, told, output))
        for size in STACKS:
            tally.one_of(f"{name} in a stack of {size} bytes", [free], ran(words, limited(resource.RLIMIT_STACK, size)))


def try_older_kernel(tally, program, folder):
    """Files that are read and written where the kernel lacks statx, and such as cannot be."""
    model = EXAMPLES / "toggler.btor2"
    try:
        ran([program, "--version"], without_statx)
    except subprocess.SubprocessError:
        print("left out: an older kernel, since calls can't be filtered here")
        return
    (folder / "link").symlink_to("linked")
    (folder / "kept").write_text("kept")
    os.chmod(folder / "kept", 0o640)
    for words in (["-o", "made"], ["-o", "kept"], ["-o", "link"], ["-o", "/dev/stdout"], ["-o", "/dev/null"], ["-o", "."], ["-o", "none/there"]):
        seen = []
        for prepare in (None, without_statx):
            for name in ("made", "linked"):
                (folder / name).unlink(missing_ok=True)
            result = ran([program, "lower", *words, model], prepare, folder)
            files = [(it.name, it.is_symlink(), it.stat().st_mode, it.read_bytes()) for it in sorted(folder.iterdir()) if it.is_file()]
            seen.append((result, files))
        tally.one_of(f"{' '.join(words)} on an older kernel", seen[:1], seen[1])


def main():
    program = os.path.abspath(sys.argv[1]) if len(sys.argv) > 1 else str(TOP / "release/hwtool")
    tally = Tally()
    for group in (try_limits, try_older_kernel):
        with tempfile.TemporaryDirectory() as folder:
            group(tally, program, Path(folder))
    print(f"{tally.tried} tried, {tally.wrong} wrong; the loader refused {tally.unloaded} more")
    return 1 if tally.wrong else 0


if __name__ == "__main__":
    sys.exit(main())
