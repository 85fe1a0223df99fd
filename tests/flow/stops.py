"""Runs that go on where an earlier one was stopped, many properties side by side, and two runs in one folder."""
import json
import os
import pathlib
import random
import shlex
import shutil
import signal
import subprocess
import time

from .common import ALL_HOLD, BROKE, EXAMPLES, HOLDS, ONE_FAILS, WORDS, counter_model, lasting, left_over, liar, tally, wait_for


# How often a run is stopped at a chance time, in each of two ways.
STOPS = 12
# The words of the child that `hang_and_leave` of the lying engine leaves.
SLEEPS = "sleep\x003615"


def try_going_on(place):
    """A second run takes what is checked, by its check alone; not of another design, and not what was changed by hand."""
    place = place.sub("going-on")
    text = (EXAMPLES / "flow/queue.v").read_text()
    (place.folder / "queue.v").write_text(text)
    place.run("queue.v")
    first = place.results("queue.flow")
    mark = place.folder / "called"
    touch = f"touch=touch {mark} {{form}}"
    done = place.run("queue.v", "--engine", touch)
    tally.same("a second run", (ONE_FAILS, lasting(first), False), (done.returncode, lasting(place.results("queue.flow")), mark.exists()))
    at = place.folder / "queue.flow"
    told = place.results("queue.flow")
    told["properties"][2].update(verdict="holds", judged="holds", command="hwtool --version", said="holds: b2")
    (at / "results.json").write_text(json.dumps(told))
    for it in ("invariant", "proof"):
        shutil.copyfile(at / "b1" / it, at / "b2" / it)
    done = place.run("queue.v")
    tally.true("files in the way that no run made", done.returncode == WORDS and "b2/proof" in done.stderr, done.stderr)
    for it in ("invariant", "proof"):
        tally.same("they stay", (at / "b1" / it).read_text(), (at / "b2" / it).read_text())
        (at / "b2" / it).unlink()
    place.run("queue.v")
    tally.same("results that were changed by hand", lasting(first), lasting(place.results("queue.flow")))
    (at / "b2/witness").write_text((at / "b0/witness").read_text())
    tally.same("check.sh over a witness that was changed", (1, "3 confirmed, 1 not, 1 differing"), place.checked("queue.flow"))
    place.run("queue.v")
    tally.same("a witness that was changed by hand", lasting(first), lasting(place.results("queue.flow")))
    for rubbish in (
        "",
        "{",
        "[]",
        '{"sum": 1}',
        json.dumps({**first, "properties": [1, {"number": "x"}, {"number": 2, "verdict": [], "seconds": {}}]}),
    ):
        (at / "results.json").write_text(rubbish)
        tally.same(f"results.json as {rubbish[:20]!r}", ONE_FAILS, place.run("queue.v").returncode)
        tally.same("and what comes of it", lasting(first), lasting(place.results("queue.flow")))
    # with a room for all that comes, and a register that begins with 0
    (place.folder / "queue.v").write_text(text.replace("push && !full", "push && count < 4").replace("reg full;", "reg full = 0;"))
    place.run("queue.v")
    tally.same("another design", [HOLDS, HOLDS, HOLDS], place.verdicts("queue.flow"))
    tally.same("its check.sh", (0, "4 confirmed, 0 not"), place.checked("queue.flow"))
    try_held(place)


def try_held(place):
    """Two runs in one folder; and what is left of engines when a run is stopped, or killed."""

    def held(way, until):
        """A run whose engine hangs in a way, once there is a process of it with some words."""
        words = place.words("queue.v", "-o", "held.flow", "-j", "1", "--engine", f"hang={liar(way, '{counterexample}')}")
        process = subprocess.Popen(words, cwd=place.folder, stdout=subprocess.DEVNULL, stderr=subprocess.DEVNULL)
        wait_for(lambda: left_over(place, until))
        return process

    words = shlex.join(place.words("queue.v", "-o", "job.flow"))
    job = subprocess.run(["sh", "-c", f"sleep 3641 >/dev/null 2>&1 & exec {words}"], cwd=place.folder, capture_output=True, check=False)
    mine = left_over(place, "sleep\x003641")
    tally.same("a job of the shell that it was started from", (ALL_HOLD, 1), (job.returncode, len(mine)))
    for it in mine:
        os.kill(it, signal.SIGKILL)
    process = held("hang", "lying_engine.py")
    tally.same("two runs in one folder", BROKE, place.run("queue.v", "-o", "held.flow").returncode)
    process.send_signal(signal.SIGINT)
    tally.same("a signal's status", 128 + signal.SIGINT, process.wait(60))
    tally.same("nothing goes on behind it", [], left_over(place, "lying_engine.py"))
    process = held("hang_and_leave", SLEEPS)
    process.kill()
    process.wait()
    wait_for(lambda: not left_over(place), 5)
    tally.same("what is left of a run that was killed", [], left_over(place))
    tally.same("the next run", ALL_HOLD, place.run("queue.v", "-o", "held.flow").returncode)


def try_stopped(place):
    """A run that is stopped at chance times, again and again, comes to what an undisturbed one does."""
    place = place.sub("stopped")
    text, wanted = counter_model(24, 14)
    (place.folder / "counter.btor2").write_text(text)
    began = time.monotonic()
    place.run("counter.btor2", "-o", "whole.flow", "-j", "2")
    lasts = time.monotonic() - began
    tally.same("an undisturbed run", wanted, place.verdicts("whole.flow"))
    chance = random.Random(1)
    for number in (signal.SIGKILL, signal.SIGTERM):
        shutil.rmtree(place.folder / "counter.flow", ignore_errors=True)
        known = []
        for _ in range(STOPS):
            process = subprocess.Popen(
                place.words("counter.btor2", "-j", "2"), cwd=place.folder, stdout=subprocess.DEVNULL, stderr=subprocess.DEVNULL
            )
            try:
                process.wait(chance.uniform(0.05, lasts / 3))
            except subprocess.TimeoutExpired:
                process.send_signal(number)
                status = process.wait(60)
                tally.true("a stopped run's status", status in (-number, 128 + number, ONE_FAILS), status)
            wait_for(lambda: not left_over(place), 5)
            tally.same("what is left of its engines", [], left_over(place))
            if (place.folder / "counter.flow/results.json").exists():
                before, known = known, place.verdicts("counter.flow")
                lost = [it for it, (was, now) in enumerate(zip(before, known)) if was is not None and now is None]
                tally.same("what was known and is no more", [], lost)
                tally.true("what is known so far", all(got in (None, want) for got, want in zip(known, wanted)), known)
        done = place.run("counter.btor2", "-j", "2")
        tally.same(
            f"stopped by {number.name}",
            (ONE_FAILS, lasting(place.results("whole.flow"))),
            (done.returncode, lasting(place.results("counter.flow"))),
        )
        tally.same("its check.sh", (0, "24 confirmed, 0 not"), place.checked("counter.flow"))
        tally.same(
            "what is left in the folder",
            sorted(it.name for it in (place.folder / "whole.flow").iterdir()),
            sorted(it.name for it in (place.folder / "counter.flow").iterdir()),
        )


def try_many(place):
    """300 properties side by side: never more than so many processes, and each verdict is the one that is wanted."""
    place = place.sub("many")
    text, wanted = counter_model(300, 50)
    (place.folder / "many.btor2").write_text(text)
    process = subprocess.Popen(place.words("many.btor2", "-j", "3"), cwd=place.folder, stdout=subprocess.DEVNULL)
    most = 0
    while process.poll() is None:
        children = pathlib.Path(f"/proc/{process.pid}/task")
        try:
            most = max(most, len({child for it in children.iterdir() for child in (it / "children").read_text().split()}))
        except OSError:
            pass
        time.sleep(0.01)
    tally.same("300 properties", (ONE_FAILS, wanted), (process.returncode, place.verdicts("many.flow")))
    tally.true("so many processes side by side", 1 <= most <= 3, most)
    tally.same("their check.sh", (0, "300 confirmed, 0 not"), place.checked("many.flow"))
