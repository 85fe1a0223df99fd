#!/usr/bin/env python3
"""Tries hwtool-judge: judging.py [PROGRAM], the released program if none is named.

Each line of a list has to have the words and the status that hwtool gives by itself, in the order of the list, however many processes
there are. Stand-ins for hwtool are slow, die, or say nothing. The status is 0 where all is as it should be, else 1.
"""
import difflib
import json
import os
import pprint
import signal
import subprocess
import sys
import tempfile
import time
from pathlib import Path
from typing import Any, Dict, List, Optional, Sequence

TOP = Path(__file__).resolve().parent.parent
TOOL = TOP / "tools/hwtool-judge"
NEVER = "1 sort bitvec 1\n2 zero 1\n3 state 1 s\n4 init 1 3 2\n5 next 1 3 3\n6 bad 3 never\n7 not 1 3\n8 constraint 3 risen\n"
# A line of a list, its status, what stands behind its number, and what its object has besides line and status.
LINES: List[Any] = [
    ("check-btor counter.btor2 counter.witness", 0, "accepted 4 frames",
     {"verdict": "accepted", "frames": 4, "claims": [{"bad": 0, "frame": 3, "id": 10}]}),
    ("  check-aig\ttwice.aag twice.witness ", 0, "accepted 2 frames",
     {"verdict": "accepted", "frames": 2, "claims": [{"bad": 0, "frame": 1, "symbol": "twice"}]}),
    ("check-btor counter.btor2 counter-short.witness", 1, "not reached: b0", {"verdict": "not reached", "bad": 0, "id": 10}),
    ("check-btor never.btor2 begins-high.witness", 1, "initial value differs at 0",
     {"verdict": "initial value differs", "state": 0, "id": 3, "symbol": "s"}),
    ("check-btor never.btor2 violates.witness", 1, "violated: frame 0, constraint 0",
     {"verdict": "violated", "frame": 0, "constraint": 0, "id": 8, "symbol": "risen"}),
    ("check-btor counter.btor2 twice.witness", 1, "malformed line 1: 110 BadHeader",
     {"verdict": "malformed", "unit": "line", "place": 1, "number": 110, "name": "BadHeader"}),
    ("check-btor counter.btor2 unknown.witness", 1, "no claim", {"verdict": "no claim"}),
    ("check-btor --fit memory.btor2 memory.witness", 0, "accepted 3 frames",
     {"verdict": "accepted", "frames": 3, "claims": [{"bad": 0, "frame": 2, "id": 17, "symbol": "both"}]}),
    ("check-proof wraps.btor2 wraps.invariant wraps.proof", 0, "holds: b0", {"verdict": "holds", "bad": 0, "id": 11}),
    ("check-proof --aiger --circuit ring.aag ring-witness.aag ring.proof", 0, "holds: b0",
     {"verdict": "holds", "bad": 0, "symbol": "two"}),
    ("check-proof guarded.btor2 guarded.invariant nothing", 1, "not derived", {"verdict": "not derived", "bad": 0, "id": 10}),
    ("check-proof followers.btor2 followers.invariant says-1.proof", 1, "not implied line 1",
     {"verdict": "not implied", "bad": 0, "id": 13, "unit": "line", "place": 1}),
    ("check-btor no-next.btor2 counter.witness", 2, "no-next.btor2: item 3: 70 NoNext",
     {"verdict": "refused", "file": "no-next.btor2", "unit": "item", "place": 3, "number": 70, "name": "NoNext"}),
    ("check-btor twice.aag counter.witness", 2, "twice.aag: line 1: 20 BadToken",
     {"verdict": "refused", "file": "twice.aag", "unit": "line", "place": 1, "number": 20, "name": "BadToken"}),
    ("check-btor nothere.btor2 counter.witness", 3, "nothere.btor2: device: no such file",
     {"verdict": "failed", "why": "nothere.btor2: device: no such file"}),
    ("check-btor m\u00fcller.btor2 x", 3, "m\u00fcller.btor2: device: no such file",
     {"verdict": "failed", "why": "m\u00c3\u00bcller.btor2: device: no such file"}),
    ("lower counter.btor2", 4, "words: a line of a list has the words of check-btor, check-aig or check-proof",
     {"verdict": "failed", "why": "words: a line of a list has the words of check-btor, check-aig or check-proof"}),
    ("check-btor counter.btor2 -", 4, "words: no line of a list reads standard input",
     {"verdict": "failed", "why": "words: no line of a list reads standard input"}),
]
COUNTS = {"judgements": 18, "accepted": 5, "not_accepted": 7, "refused": 4, "failed": 2, "status": 4}
SUMMARY = "18 judgements: 5 accepted or hold, 7 not, 4 refused, 2 failed"


class Trials:
    """What is tried in a folder, and how often it was wrong."""

    def __init__(self, program: Path, folder: Path) -> None:
        """With a program, in a folder that has the files of examples/ and some others."""
        self.program, self.folder = program, folder
        self.tried = self.wrong = 0
        for it in (TOP / "examples").glob("*.*"):
            (folder / it.name).write_bytes(it.read_bytes())
        for name, text in {
            "never.btor2": NEVER,
            "memory.witness": "sat\nb0\n@0\n0 00\n1 11111111\n@1\n0 11\n1 11111111\n@2\n.\n",
            "begins-high.witness": "sat\nb0\n#0\n0 1\n@0\n.\n",
            "violates.witness": "sat\nb0\n@0\n.\n",
            "unknown.witness": "unknown\n",
            "nothing": "",
            "says-1.proof": "1 0\n",
        }.items():
            (folder / name).write_text(text)

    def same(self, what: str, wanted: Any, got: Any) -> None:
        """Two things are one."""
        self.tried += 1
        if wanted != got:
            self.wrong += 1
            lines = difflib.ndiff(pprint.pformat(wanted).splitlines(), pprint.pformat(got).splitlines())
            print(f"{what}:\n" + "".join(f"{it}\n" for it in lines if it[0] != " "))

    def call(self, *words: str, given: str = "", program: Optional[Path] = None) -> "subprocess.CompletedProcess[str]":
        """What hwtool-judge says."""
        command = [sys.executable, str(TOOL), "--hwtool", str(program or self.program), *words]
        return subprocess.run(
            command, cwd=self.folder, input=given, capture_output=True, encoding="utf-8", errors="surrogateescape", timeout=120
        )

    def script(self, name: str, text: str) -> Path:
        """A program in the place of hwtool."""
        file = self.folder / name
        file.write_text("#!/bin/sh\n" + text)
        file.chmod(0o755)
        return file


def numbered(lines: Sequence[str]) -> str:
    """Lines with their numbers, as they are told, where each stands behind a comment and an empty line."""
    return "".join(f"line {3 * at}: {it}\n" for at, it in enumerate(lines, 1))


def verdicts(trials: Trials) -> None:
    """Each kind of a line, by one process and by several, as text and as objects; and what hwtool says by itself."""
    text = "".join(f"# {at}\n\n{line}\n" for at, (line, *_) in enumerate(LINES))
    for jobs in "1", "2", "9":
        said = trials.call("-j", jobs, "-", given=text)
        printed = numbered([it[2] for it in LINES]) + SUMMARY + "\n"
        trials.same(f"lines, -j {jobs}", (4, printed, ""), (said.returncode, said.stdout, said.stderr))
        said = trials.call("--json", "-j", jobs, "-", given=text)
        wanted: List[Dict[str, Any]] = [
            {"line": 3 * at, "status": status, **more} for at, (_, status, _, more) in enumerate(LINES, 1)
        ]
        trials.same(f"objects, -j {jobs}", [*wanted, COUNTS], [json.loads(it) for it in said.stdout.splitlines()])
    for line, status, words, _ in LINES:
        said = trials.call("-", given=line + "\n")
        trials.same(f"status of {line}", (status, f"line 1: {words}"), (said.returncode, said.stdout.splitlines()[0]))
        if not line.startswith("lower") and "-" not in line.split():
            alone = subprocess.run([trials.program, *line.split()], cwd=trials.folder, capture_output=True, encoding="utf-8")
            trials.same(f"hwtool {line}", (status, words), (alone.returncode, (alone.stdout + alone.stderr).splitlines()[0]))


def lists(trials: Trials) -> None:
    """Lists as they are met."""
    said = trials.call("-", given="")
    trials.same("an empty list", (0, "0 judgements: 0 accepted or hold, 0 not, 0 refused, 0 failed\n"), (said.returncode, said.stdout))
    (trials.folder / "list").write_text("check-btor --names counter.btor2 counter.witness")
    said = trials.call("list")
    wanted = "line 1: accepted 4 frames\nline 1: b0 is reached in frame 3\nline 1: b0 is line 10\n"
    wanted += "1 judgements: 1 accepted or hold, 0 not, 0 refused, 0 failed\n"
    trials.same("a last line without its end, and names", (0, wanted), (said.returncode, said.stdout))
    said = trials.call("nothere")
    trials.same("a list that is not there", (3, "hwtool-judge: nothere: No such file or directory\n"), (said.returncode, said.stderr))
    trials.same("a folder as list", 3, trials.call(".").returncode)
    said = trials.call("-", given="check-btor \udcff.btor2 x\n")
    trials.same("a name that is no text", (4, True), (said.returncode, "line 1: " in said.stdout))
    trials.same("no process", 4, trials.call("-j", "0", "list").returncode)
    trials.same("no list", 4, trials.call().returncode)
    trials.same("no program", 3, trials.call("list", program=trials.folder / "nothere").returncode)


def stand_ins(trials: Trials) -> None:
    """Programs that are slow, die, or say nothing."""
    slow = trials.script("slow", 'read -r _ time _; sleep "$time"; echo "line 1: accepted $time frames"; echo "1 judgements"\n')
    said = trials.call("-j", "4", "-", given="".join(f"check-btor {it} x\n" for it in (0.6, 0.3, 0, 0)), program=slow)
    trials.same("the order of the list", [0.6, 0.3, 0, 0], [float(it.split()[3]) for it in said.stdout.splitlines()[:4]])
    dies = trials.script("dies", 'read -r _ what _; case $what in die) kill -KILL $$ ;; quiet) exit 1 ;; hang) sleep 600 ;; esac\n'
                         'echo "line 1: accepted 1 frames"; echo "1 judgements"\n')
    said = trials.call("-", given="check-btor die x\ncheck-btor quiet x\ncheck-btor good x\n", program=dies)
    wanted = "line 1: hwtool was ended by signal 9\nline 2: hwtool said nothing\nline 3: accepted 1 frames\n"
    wanted += "3 judgements: 1 accepted or hold, 0 not, 0 refused, 2 failed\n"
    trials.same("a program that dies, and one that says nothing", (3, wanted), (said.returncode, said.stdout))
    (trials.folder / "list").write_text("check-btor good x\n" + "check-btor hang x\n" * 5)
    for number in (signal.SIGINT, signal.SIGTERM, signal.SIGHUP):
        command = [sys.executable, str(TOOL), "-j", "3", "--hwtool", str(dies), "list"]
        running = subprocess.Popen(command, cwd=trials.folder, stdout=subprocess.PIPE, text=True)
        assert running.stdout
        first = running.stdout.readline()
        time.sleep(0.2)
        began = time.monotonic()
        running.send_signal(number)
        running.wait(timeout=60)
        trials.same(f"stopped by {number.name}", ("line 1: accepted 1 frames\n", 128 + number), (first, running.returncode))
        trials.same(f"at once, {number.name}", True, time.monotonic() - began < 5)
        hanging = subprocess.run(["pgrep", "-f", f"^/bin/sh {dies} judge"], capture_output=True, text=True).stdout
        trials.same(f"nothing is left, {number.name}", "", hanging)
        running.stdout.close()


def outputs(trials: Trials) -> None:
    """Outputs that fail."""
    (trials.folder / "list").write_text("check-btor counter.btor2 counter.witness\n" * 3000)
    with open("/dev/full", "w") as full:
        command = [sys.executable, str(TOOL), "--hwtool", str(trials.program), "list"]
        trials.same("a full device", 3, subprocess.run(command, cwd=trials.folder, stdout=full, stderr=subprocess.DEVNULL).returncode)
    running = subprocess.Popen(command, cwd=trials.folder, stdout=subprocess.PIPE, stderr=subprocess.PIPE, text=True)
    assert running.stdout and running.stderr
    running.stdout.close()
    trials.same("an output that is closed", ("", 3), (running.stderr.read(), running.wait(timeout=60)))
    running.stderr.close()


def main(words: Sequence[str]) -> int:
    """All of it."""
    program = Path(words[0] if words else TOP / "release/hwtool").resolve()
    with tempfile.TemporaryDirectory() as folder:
        trials = Trials(program, Path(folder))
        for it in (verdicts, lists, stand_ins, outputs):
            it(trials)
    print(f"judging: {trials.tried} tried, {trials.wrong} wrong")
    return 1 if trials.wrong else 0


if __name__ == "__main__":
    os.environ["PYTHONDONTWRITEBYTECODE"] = "1"
    sys.exit(main(sys.argv[1:]))
