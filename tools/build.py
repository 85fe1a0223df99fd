#!/usr/bin/env python3
"""Proves and builds the program, with crates that do not stand on each other side by side.

    tools/build.py              the program, and the libraries that it stands on
    tools/build.py NAME ..      the same of these crates: the program, a library, or the library for C programs

A crate is proved as the gate proves it, from its sources, over the statements of the libraries below: what can be cited of a
library, without the proofs that were admitted when it was proved. That is a fifth of what stands in the libraries that `rt lib`
and `rt run` make, over which checks go on from each other; those are other files, and no part of this.

Of the crates whose libraries stand, those with the longest way up to the program come first. A further job of a crate costs, since
each function is checked by a copy of the checker, which reads for itself what it cites of the libraries; so a crate has more
than one only where processors are free. What is made of a crate stands in its folder `out/proved`, with a note of all that it
was made from, and is made again where that is another: nothing else is kept, so a crate that changed is proved whole, and so is
each above it.

On standard error it tells how far it is: on a terminal in one line that changes, else in a line a minute at most, and one a crate.
What the prover says goes into the log `crates/hwtool/out/build.log`, and of a crate that is not proved the last lines are told
too. The status is 0 where all stands.
"""
import fcntl
import functools
import hashlib
import os
import pathlib
import re
import shutil
import signal
import subprocess
import sys
import time

TOP = pathlib.Path(__file__).resolve().parent.parent
PROGRAM = "hwtool"
RT = shutil.which("rt") or sys.exit("hwtool: the toolchain's command rt is not on the path")
# The toolchain's folder.
KIT = pathlib.Path(os.path.realpath(RT)).parent.parent
# Memory that a check of a large crate takes, with the copies of itself that work on its functions.
NEED = 3_000_000_000
# What a crate without code takes, in bytes of code that take as long.
READING = 20_000
# Of what the prover says of a crate that is not proved, so many lines are told.
TOLD = 12


class Crate:
    """A crate of crates.txt: its name, what it is, the repository's libraries and the toolchain's that it names."""

    def __init__(self, line, crates):
        front, _, behind = line.partition(":")
        self.name, *kinds = front.split()
        self.folder = TOP / "crates" / self.name
        self.is_program = (self.folder / "src/main.rt").is_file()
        self.is_static = "staticlib" in kinds
        self.line = line
        self.direct = [crates[it] for it in behind.split() if it in crates]
        self.of_kit = ["std", *(it for it in behind.split() if it not in crates)]
        # in the order of crates.txt, in which a crate stands behind those below it
        self.below = [it for it in crates.values() if it in self.direct or any(it in direct.below for direct in self.direct)]

    def files(self):
        """What the crate is made from."""
        parts = [self.folder / it for it in ("src", "specs", "proofs")]
        return sorted(it for part in parts for it in part.rglob("*") if it.is_file())

    @functools.cached_property
    def weight(self):
        """What the crate's time goes by: the bytes of its code, and as many as reading the libraries takes."""
        return READING + sum(it.stat().st_size for it in self.files() if it.suffix == ".rt")

    def sum_of_files(self):
        """A sum of the crate's files as they stand."""
        return hashlib.sha256(repr([(str(it.relative_to(self.folder)), it.read_bytes()) for it in self.files()]).encode()).hexdigest()

    @functools.cached_property
    def sum(self):
        """That sum as it was when the build began."""
        return self.sum_of_files()

    def made_from(self):
        """All that it is made from: the toolchain, its line, and the sums of the files of those below and of its own."""
        return repr([(KIT / "KIT-ID").read_text(), self.line, *(it.sum for it in [*self.below, self])])

    @property
    def proved(self):
        """The folder of what is made."""
        return self.folder / "out/proved"

    @property
    def made(self):
        """What is made: a library, the library for C programs, or what the program is linked from."""
        return self.proved / (f"lib{self.name}.a" if self.is_static else f"{self.name}.o" if self.is_program else f"{self.name}.rlib")

    @property
    def stamp(self):
        """The file that says what it was made from."""
        return self.proved / "made-from"

    @property
    def said(self):
        """The file with what the prover said of it."""
        return self.proved / "said"

    @property
    def verdict(self):
        """The last line that the prover said, `logic=proved functions=8 ..` where it is proved."""
        return self.said.read_text(errors="replace").rstrip().rpartition("\n")[2]

    @property
    def functions(self):
        """How many functions of it are proved."""
        return int(re.search(r"^logic=proved functions=(\d+)", self.verdict)[1])

    def stands(self):
        """Whether what stands was made of what it is made from now."""
        return self.made.exists() and self.said.is_file() and self.stamp.is_file() and self.stamp.read_text() == self.made_from()

    def inputs(self, verb, jobs):
        """The words of a command that reads the crate over the libraries below."""
        words = [KIT / "bin/rattle", verb, "--crate-name", self.name, f"src/{'main' if self.is_program else 'lib'}.rt"]
        words += ["--antt-project", KIT / "rattle/logic/antt-project.json", "--logic-built", KIT / "logic_built", "--jobs", jobs]
        for it in self.of_kit:
            words += ["--extern", f"{it}={KIT}/rlibs/{it}.rlib"]
        for it in self.direct:
            words += ["--extern", f"{it.name}={it.made}"]
        for it in [KIT / "rlibs", *(it.proved for it in self.below)]:
            words += ["-L", f"dependency={it}"]
        return [str(it) for it in [*words, *["--crate-type", "staticlib"] * self.is_static]]

    def command(self, jobs):
        """What proves the crate and makes it."""
        links = self.is_program or self.is_static
        return [*self.inputs("build", jobs), *(["--toolchain", f"{KIT}/toolchain"] if links else ["--statements"]), "-o", str(self.made)]

    def checking(self):
        """What checks the crate, or what `--only` names of it, and makes nothing."""
        return self.inputs("check", 1)


class Check:
    """A check of a crate that is under way."""

    def __init__(self, crate, jobs):
        self.crate, self.jobs = crate, jobs
        shutil.rmtree(crate.proved, ignore_errors=True)
        crate.proved.mkdir(parents=True)
        with open(crate.said, "w") as said:
            self.run = subprocess.Popen(crate.command(jobs), cwd=crate.folder, stdin=subprocess.DEVNULL, stdout=said, stderr=said)

    def end(self, log):
        """Puts what was said into the log; answers whether the crate is proved, or else tells the last lines."""
        said = self.crate.said.read_text(errors="replace")
        log.write(f"---- crate {self.crate.name}\n{said}")
        log.flush()
        if self.run.returncode != 0:
            telling = [it for it in said.splitlines() if not it.endswith(": proved")]
            say("\n".join([f"crate {self.crate.name} is not proved:", *telling[-TOLD:], f"all that the prover said: {log.name}"]))
            return False
        # what was edited meanwhile is made again by the next build
        if self.crate.sum_of_files() == self.crate.sum:
            self.crate.stamp.write_text(self.crate.made_from())
        return True


class Telling:
    """Tells how far a build is."""

    def __init__(self, wanted, standing):
        self.wanted, self.begun, self.told, self.done = wanted, time.monotonic(), 0, -1
        self.to_do = sum(it.weight for it in wanted if it not in standing)
        self.is_terminal = sys.stderr.isatty()

    @property
    def minutes(self):
        return (time.monotonic() - self.begun) / 60

    def tell(self, standing, running, left):
        """Says how many crates are done, and how long what is left takes at the pace so far."""
        # a crate that is under way counts half
        half_done = sum(check.crate.weight for check in running) / 2
        done = self.to_do - sum(it.weight for it in left) - half_done
        rest = f", about {max(1, round(self.minutes * (self.to_do / done - 1)))} left" if done > self.to_do / 10 else ""
        line = f"hwtool: crate {min(len(standing) + 1, len(self.wanted))} of {len(self.wanted)}, {int(self.minutes)} minutes so far{rest}"
        if self.is_terminal:
            print(f"\r{line}\x1b[K", end="", file=sys.stderr, flush=True)
        elif self.minutes >= self.told + 1 and len(standing) > self.done:
            self.told, self.done = self.minutes, len(standing)
            print(line, file=sys.stderr, flush=True)

    def clear(self):
        """Takes the line that changes away."""
        if self.is_terminal:
            print("\r\x1b[K", end="", file=sys.stderr, flush=True)


def say(line):
    print(f"hwtool: {line}", file=sys.stderr, flush=True)


def crates_of(file):
    """The crates that a file like crates.txt names, by their names."""
    found = {}
    for line in file.read_text().splitlines():
        if line[:1].isalpha():
            crate = Crate(line, found)
            found[crate.name] = crate
    return found


def heights(wanted):
    """Of each crate its weight and that of the heaviest chain of crates above it."""
    found = {}
    for crate in reversed(wanted):
        found[crate] = crate.weight + max((found[it] for it in found if crate in it.direct), default=0)
    return found


def free_memory():
    """The bytes of memory that are free."""
    lines = pathlib.Path("/proc/meminfo").read_text().splitlines()
    return next(int(line.split()[1]) * 1024 for line in lines if line.startswith("MemAvailable:"))


def build(wanted, log):
    """Makes the crates, each of which stands behind those below it; answers whether all are proved."""
    processors = len(os.sched_getaffinity(0))
    at_once = max(1, min(processors + 1, free_memory() // NEED))
    height, standing, running = heights(wanted), set(), []
    for crate in wanted:
        if crate.stands() and standing.issuperset(crate.below):
            standing.add(crate)
    left = sorted((it for it in wanted if it not in standing), key=lambda it: -height[it])
    telling = Telling(wanted, standing)
    try:
        while left or running:
            begin = [it for it in left if standing.issuperset(it.below)][:at_once - len(running)]
            for place, crate in enumerate(begin):
                left.remove(crate)
                # those that begin share the processors that are free; what only the crates above it wait for has all
                free = processors - sum(it.jobs for it in running)
                is_last = all(crate in it.below for it in left)
                jobs = processors if is_last else max(1, -(-free // (len(begin) - place)))
                running.append(Check(crate, jobs))
            telling.tell(standing, running, left)
            time.sleep(0.1)
            for check in [it for it in running if it.run.poll() is not None]:
                running.remove(check)
                telling.clear()
                if not check.end(log):
                    return False
                standing.add(check.crate)
        functions = sum(it.functions for it in wanted)
        say(f"{len(wanted)} crates, {functions} functions, all proved, in {round(telling.minutes)} minutes")
        return True
    finally:
        telling.clear()
        for check in running:
            check.run.terminate()
            check.run.wait()


def tell_layout(wanted):
    """Tells the files of these crates that are not in the toolchain's layout, with which the gate takes no crate."""
    files = [it for crate in wanted for it in crate.files()]
    checked = subprocess.run([KIT / "bin/rattle", "fmt", "--check", *files], stdin=subprocess.DEVNULL, capture_output=True, text=True)
    if checked.returncode != 0:
        say(f"the gate will refuse what is not in the layout; run `rt fmt` in its crate\n{(checked.stdout + checked.stderr).strip()}")


def link(program, log):
    """Links the program."""
    words = [KIT / "bin/rattle-link", "--target", "x86_64-unknown-linux-gnu", "--toolchain", KIT / "toolchain"]
    words += ["-o", program.folder / "out" / program.name, program.made, KIT / "c/libos_c.a", KIT / "c/liblibc_c.a"]
    return subprocess.run(words, stdin=subprocess.DEVNULL, stdout=log, stderr=log).returncode


def make(names):
    """Makes the crates of these names, and those that they stand on; answers all of these, lowest first, or none where one is
    not proved."""
    crates = crates_of(TOP / "crates.txt")
    named = [crates.get(it) or sys.exit(f"hwtool: crates.txt names no crate {it}") for it in names]
    wanted = [it for it in crates.values() if it in named or any(it in above.below for above in named)]
    out = crates[PROGRAM].folder / "out"
    out.mkdir(exist_ok=True)
    with open(out / "lock", "w") as lock, open(out / "build.log", "w") as log:
        # two builds at once would make each crate twice
        fcntl.flock(lock, fcntl.LOCK_EX)
        if not build(wanted, log) or any(link(it, log) for it in named if it.is_program):
            return []
        tell_layout(wanted)
        return wanted


if __name__ == "__main__":
    # so that what is under way ends with this
    signal.signal(signal.SIGTERM, lambda *_: sys.exit(143))
    sys.exit(0 if make(sys.argv[1:] or [PROGRAM]) else 1)
