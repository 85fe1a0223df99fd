#!/usr/bin/env python3
"""Runs all that is run by hand beside the gate, one after the other, and says of each in a line what came of it.

    all.py [NAME ..]        all, or these (all.py --list tells the names); make check-all runs it too, with ONLY="NAME .."

What is tried is the program that ./hwtool would run, which builds it where it has to, or HWTOOL=PATH; and the library for C programs
that is released, where it is of these sources, or that tools/release.py makes of them, or HWTOOL_LIBRARY=PATH/libhwtool.so. What lacks
a tool is skipped, and what a script leaves out itself is told under its line. Of one that fails the last lines are shown, and all that
it said is kept in a file that is named. The status is 0 where none fails, else 1; and 4 where there is none of a name.
"""
import dataclasses
import functools
import os
import pathlib
import re
import shutil
import signal
import subprocess
import sys
import tempfile
import time
import typing

TOP = pathlib.Path(__file__).resolve().parent.parent
RELEASE = TOP / "release"
# What stands for the program, and for the folder of the libraries for C programs, among words.
PROGRAM, LIBRARIES = "PROGRAM", "LIBRARIES"
# Of what fails so many last lines are shown.
SHOWN = 12
# What a line has that says how much was tried.
COUNT = re.compile(r"\d.*\b(?:tried|passed|wrong|tests|should be)\b")


class Left(Exception):
    """Why something is not tried."""


@dataclasses.dataclass
class Check:
    """One of the checks: its words, the tools that it needs, how many last lines say what was tried, what of the library it takes."""

    name: str
    words: typing.List[str]
    needs: typing.Sequence[str] = ()
    lines: int = 1
    has_library: bool = False


CHECKS = [
    Check("sources", ["tests/sources.py"]),
    Check("definitions", ["tools/definitions.py"]),
    Check("refusals", ["tools/refusals.py", "--check"]),
    Check("documents", ["tests/documents.py"]),
    Check("blocks", ["tests/blocks.py", PROGRAM], has_library=True),
    Check("program", ["tests/program.sh", PROGRAM]),
    Check("rows", ["tests/rows.py", PROGRAM]),
    Check("judging", ["tests/judging.py", PROGRAM]),
    Check("hostile", ["tests/hostile.py", PROGRAM]),
    Check("start", ["tests/start.py"]),
    Check("fitted", ["tests/fitted.py", PROGRAM]),
    Check("whole", ["tests/whole.py", PROGRAM]),
    Check("dumps", ["tests/dumps.py", PROGRAM]),
    Check("restored_cuts", ["tests/restored_cuts.py", PROGRAM]),
    Check("certificate_cuts", ["tests/certificate_cuts.py", PROGRAM]),
    Check("remedies", ["tests/remedies.py", PROGRAM]),
    Check("refused_memory", ["tests/refused_memory.py", PROGRAM], ["cc"]),
    Check("c_library", ["tests/c_library.sh", PROGRAM, LIBRARIES], ["cc"], lines=3, has_library=True),
    Check("python", ["-m", "unittest", "discover", "-s", "python/tests"], has_library=True),
    Check("release", ["tests/release.sh"], ["git", "objdump", "nm"]),
    Check("hinted", ["tests/hinted.py", PROGRAM], ["cadical"]),
    Check("witness_circuits", ["tests/witness_circuits.py", PROGRAM], ["cadical"]),
    Check("flow", ["tests/flow.sh", PROGRAM], ["yosys", "berkeley-abc", "cadical", "z3"]),
    Check("flow_tool", ["tests/flow_tool.py", PROGRAM], ["yosys", "berkeley-abc", "cadical"]),
]


@functools.lru_cache(None)
def is_released():
    """Whether what is released was made of these sources."""
    said = dict(it.split(": ", 1) for it in (RELEASE / "PROVED.txt").read_text().splitlines() if ": " in it)
    words = [TOP / "tools/sources-sum.sh", *said["crates that it was built from"].split()]
    return subprocess.run(words, capture_output=True, text=True).stdout.strip() == said["sum of their sources"]


@functools.lru_cache(None)
def program():
    """The program that is tried."""
    if "HWTOOL" in os.environ:
        found = pathlib.Path(shutil.which(os.environ["HWTOOL"]) or os.environ["HWTOOL"]).resolve()
    elif is_released():
        found = RELEASE / "hwtool"
    else:
        # so that it is built where it has to be
        subprocess.run([TOP / "hwtool", "lower", TOP / "examples/toggler.btor2"], stdin=subprocess.DEVNULL, stdout=subprocess.DEVNULL)
        found = TOP / "crates/hwtool/out/hwtool"
        found = found if found.exists() else RELEASE / "hwtool"
    if not os.access(found, os.X_OK):
        sys.exit(f"all.py: {found} is no program")
    return found


class Run:
    """A run of some of the checks, which keeps what those say that fail."""

    def __init__(self):
        self.folder = pathlib.Path(tempfile.mkdtemp(prefix="hwtool-check-all-"))
        self.passed, self.failed, self.skipped, self.under_way = [], [], [], None

    @functools.cached_property
    def libraries(self):
        """The folder of the libraries for C programs."""
        if "HWTOOL_LIBRARY" in os.environ:
            return pathlib.Path(os.environ["HWTOOL_LIBRARY"]).resolve().parent
        if is_released():
            return RELEASE
        if not shutil.which("rt"):
            raise Left("no rt to build the library for C programs with")
        made = self.folder / "libraries"
        status, said = self.call([sys.executable, TOP / "tools/release.py", "--libraries", made], os.environ)
        if status != 0:
            raise OSError(f"the library for C programs is not built:\n{said}")
        return made

    def call(self, words, environment):
        """The status of a command, and what it says."""
        self.under_way = subprocess.Popen(
            [str(it) for it in words], cwd=TOP, env={**environment, "PYTHONDONTWRITEBYTECODE": "1"}, stdin=subprocess.DEVNULL,
            stdout=subprocess.PIPE, stderr=subprocess.STDOUT, text=True, errors="replace", start_new_session=True,
        )
        said = self.under_way.communicate()[0]
        return self.under_way.returncode, said

    def ran(self, check, is_named):
        """What a check came to: its status, and what it said."""
        script = next((it for it in check.words if "/" in it), "")
        lacking = [it for it in check.needs if not shutil.which(it)]
        if lacking or not (TOP / script).exists():
            raise Left(f"no {', '.join(lacking) or script}")
        if check.name == "release" and not is_named and not is_released():
            raise Left("what is released is of other sources")
        environment = dict(os.environ)
        if check.has_library:
            environment["HWTOOL_LIBRARY"] = str(self.libraries / "libhwtool.so")
        values = {PROGRAM: program, LIBRARIES: lambda: self.libraries}
        words = [values[it]() if it in values else it for it in check.words]
        return self.call([*[sys.executable] * (not script.endswith(".sh")), *words], environment)

    def check(self, check, is_named):
        """Runs a check, and tells what came of it."""
        print(f"{check.name:18}", end="", flush=True)
        began = time.monotonic()
        try:
            status, said = self.ran(check, is_named)
        except Left as why:
            self.skipped.append(check.name)
            print(f"skipped: {why}", flush=True)
            return
        except OSError as error:
            status, said = 1, str(error)
        seconds = f"{time.monotonic() - began:.0f} s"
        if status == 0:
            self.passed.append(check.name)
            print(f"{verdict(said, check.lines):60} {seconds:>6}")
            print("".join(f"    {it}\n" for it in re.findall(r"^left out: .*", said, re.M)), end="")
        else:
            self.failed.append(check.name)
            log = self.folder / f"{check.name}.log"
            log.write_text(said)
            print(f"{f'FAILED, status {status}':60} {seconds:>6}")
            print("".join(f"    {it[:160]}\n" for it in said.splitlines()[-SHOWN:]) + f"    all that it said: {log}")
        sys.stdout.flush()

    def end(self):
        """Ends what is under way, with all that it started, and keeps no more than what is to be read."""
        if self.under_way and self.under_way.poll() is None:
            os.killpg(self.under_way.pid, signal.SIGTERM)
            self.under_way.wait()
        shutil.rmtree(self.folder / "libraries", ignore_errors=True)
        if not self.failed:
            self.folder.rmdir()


def verdict(said, lines):
    """What a check that passes says it tried: its last counts, in the same words."""
    counts = [it for it in said.splitlines() if COUNT.search(it) and not it.startswith("left out: ")][-lines:]
    if lines == 1:
        counts = [re.sub(r"^[\w -]+: (?=\d)|^Ran (?=\d)| in [\d.]+s$", "", it) for it in counts]
    line = re.sub(r"\b0 (?:wrong|not as they should be)", "none wrong", "; ".join(counts)) or "nothing wrong"
    return line if re.search("wrong|passed", line) else f"{line}, none wrong"


def main(names):
    known = [it.name for it in CHECKS]
    if names[:1] in (["--list"], ["--help"], ["-h"]):
        print("\n".join(known) if names[0] == "--list" else __doc__.strip())
        return 0
    unknown = [it for it in names if it not in known]
    if unknown:
        print(f"all.py: none is called {', '.join(unknown)}; there are {', '.join(known)}", file=sys.stderr)
        return 4
    chosen = [it for it in CHECKS if not names or it.name in names]
    if any(PROGRAM in it.words for it in chosen):
        print(f"{subprocess.run([program(), '--version'], capture_output=True, text=True).stdout.strip()}, {program()}", flush=True)
    run = Run()
    try:
        for it in chosen:
            run.check(it, it.name in names)
    finally:
        run.end()
    skipped = f", {len(run.skipped)} skipped ({', '.join(run.skipped)})" if run.skipped else ""
    if run.failed:
        print(f"{len(run.failed)} of {len(run.passed) + len(run.failed)} FAILED ({', '.join(run.failed)}){skipped}")
    else:
        print(f"all {len(run.passed)} passed{skipped}" if run.passed else f"nothing was tried{skipped}")
    return 1 if run.failed else 0


if __name__ == "__main__":
    # so that what is under way ends with this
    signal.signal(signal.SIGTERM, lambda *_: sys.exit(143))
    sys.exit(main(sys.argv[1:]))
