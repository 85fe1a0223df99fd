"""A run that is stopped by a signal in each of its phases: it ends at once, keeps what was checked, and leaves nothing behind."""
import os
import shutil
import signal
import subprocess
import time

from .common import EXAMPLES, left_over, liar, tally, wait_for

# How long a run may go on behind a signal, in seconds.
SOON = 5.0
# What stands for a program in a phase: it says that it has begun, and does not go on for long.
SLOW = """#!/bin/sh
case " $* " in
*" $SLOW_WORD "*) : >"$SLOW_BEGAN"; sleep 3631 ;;
esac
exec "$SLOW_REAL" "$@"
"""
# The frames of a counterexample that takes long to draw.
MANY_FRAMES = 150000
COUNTERS = EXAMPLES / "two-counters.btor2"
# The calls of hwtool in which a run is stopped, and what is known then of two properties, of which the first fails.
CALLS = {
    "--version": None,
    "show": None,
    "lower": None,
    "--binary": None,
    "lift": [None, None],
    "check-btor": [None, None],
    "wave": [None, None],
    "obligation": [7, None],
    "check-proof": [7, None],
}


def try_signals(place):
    """In each phase, by each signal."""
    place = place.sub("signals")
    (place.folder / "tmp").mkdir()
    for call, known in CALLS.items():
        try_stop(place, f"hwtool {call}", COUNTERS, [], known, slow=("hwtool", call))
    try_stop(place, "yosys", EXAMPLES / "flow/queue.v", [], None, slow=("yosys", "-QT"))
    engine = ["--engine", "bmc3", "--engine", f"hang={liar('hang', '{counterexample}')}"]
    for number in (signal.SIGINT, signal.SIGTERM, signal.SIGHUP):
        try_stop(place, "an engine", COUNTERS, engine, [7, None], number=number, until="lying_engine.py")
    solver = ["--engine", "bmc3", "--engine", "pdr", "--solver", f"hang={liar('hang', '{proof}', handed='{formula}')}"]
    try_stop(place, "a solver", COUNTERS, solver, [7, None], until="lying_engine.py")
    try_drawing(place)


def try_stop(place, phase, design, words, known, number=signal.SIGINT, slow=(), until=""):
    """Stops a run in a phase, by two signals: its status, how soon it ends, what it keeps, and what it leaves."""
    what, began = f"stopped by {number.name} in {phase}", place.folder / "began"
    shutil.rmtree(place.folder / "it.flow", ignore_errors=True)
    began.unlink(missing_ok=True)
    environment = {**os.environ, "TMPDIR": str(place.folder / "tmp")}
    command = place.words(design, "-o", "it.flow", "-j", "1", *words)
    if slow:
        program, word = slow
        stand_in = place.folder / "slow" / program
        stand_in.parent.mkdir(exist_ok=True)
        stand_in.write_text(SLOW)
        stand_in.chmod(0o755)
        real = place.program if program == "hwtool" else shutil.which(program)
        environment.update(SLOW_WORD=word, SLOW_BEGAN=str(began), SLOW_REAL=real)
        if program == "hwtool":
            command += ["--hwtool", str(stand_in)]
        else:
            environment["PATH"] = f"{stand_in.parent}:{environment['PATH']}"
    process = subprocess.Popen(command, cwd=place.folder, env=environment, stdout=subprocess.DEVNULL, stderr=subprocess.PIPE, text=True)
    wait_for(lambda: process.poll() is not None or (left_over(place, until) if until else began.exists()))
    check_end(place, what, process, number)
    if known is None:
        tally.true(f"{what}: no folder is left", not (place.folder / "it.flow").exists())
    else:
        tally.same(f"{what}: what is known", known, place.verdicts("it.flow"))
        open_ones = known.count(None)
        tally.same(f"{what}: check.sh", (5, f"{2 - open_ones} confirmed, 0 not, {open_ones} open"), place.checked("it.flow"))


def check_end(place, what, process, number):
    """Sends two signals to a run: it ends soon by the status of the signal, and leaves neither processes nor work."""
    sent = time.monotonic()
    process.send_signal(number)
    time.sleep(0.05)
    process.send_signal(number)
    try:
        said = process.communicate(timeout=30)[1]
    except subprocess.TimeoutExpired:
        process.kill()
        said = process.communicate()[1]
    lasted = time.monotonic() - sent
    tally.same(f"{what}: status", 128 + number, process.returncode)
    tally.true(f"{what}: it ends soon, and says so", lasted < SOON and "the same words go on from here" in said, f"{lasted:.1f} s, {said}")
    tally.same(f"{what}: nothing goes on", [], left_over(place))
    tally.same(f"{what}: what is left of the work", [], os.listdir(place.folder / "tmp"))


def try_drawing(place):
    """While the page is drawn, of a counterexample that is very long."""
    model = ["1 sort bitvec 1", "2 sort bitvec 20", "3 zero 2", "4 state 2 count", "5 init 2 4 3", "6 inc 2 4", "7 next 2 4 6"]
    model += [f"8 constd 2 {MANY_FRAMES}", "9 eq 1 4 8", "10 bad 9 late"]
    (place.folder / "late.btor2").write_text("\n".join(model) + "\n")
    (place.folder / "late.witness").write_text("sat\nb0\n#0\n" + "".join(f"@{it}\n" for it in range(MANY_FRAMES + 1)) + ".\n")
    engine = "late=" + liar("given", place.folder / "late.witness", "{model_witness}", handed="{model}")
    shutil.rmtree(place.folder / "it.flow", ignore_errors=True)
    environment = {**os.environ, "TMPDIR": str(place.folder / "tmp")}
    command = place.words("late.btor2", "-o", "it.flow", "--engine", engine)
    process = subprocess.Popen(
        command, cwd=place.folder, env=environment, stdout=subprocess.PIPE, stderr=subprocess.PIPE, text=True, bufsize=1
    )
    line = next((it for it in process.stdout if it.startswith("b0 ")), "")
    tally.true("a very long counterexample", f"fails in frame {MANY_FRAMES} " in line, line)
    time.sleep(0.3)
    check_end(place, "stopped while the page is drawn", process, signal.SIGINT)
    tally.same("stopped while the page is drawn: what is known", [MANY_FRAMES], place.verdicts("it.flow"))
    tally.same("stopped while the page is drawn: check.sh", (0, "1 confirmed, 0 not"), place.checked("it.flow"))
