"""Engines that write wherever their user may, and leave what they can: no false verdict comes of one, and no other one loses by it."""
import shutil

from .common import BROKE, ONE_FAILS, OPEN, REFUSED, tally
from .folders import FIRST_LINE, MARK, looks_like_results
from .stranger import Stranger, end_all, seen, why_not

# How long a run may last before it is killed, in seconds.
MOST_SECONDS = 180
# What a run says in which nothing is confirmed: that it is open, or that the design is refused, which was spoilt before.
ALONE = (OPEN, REFUSED)
# The engines behind the hostile one, which find what is so.
HONEST = ["--engine", "bmc3", "--engine", "pdr", "-j", "2", "--timeout", "20"]
# What is so of each property of the queue.
TRUE = {0: ("fails", 0), 1: ("holds", None), 2: ("fails", 5)}


def try_hostile(place):
    """Each way, tried as a user of its own in a folder of its own."""
    if why_not():
        print(f"left out: hostile engines, {why_not()}")
        return
    place = place.sub("hostile")
    try:
        for way in WAYS:
            try_way(Stranger(place, way), way, WAYS[way])
        try_wiped(Stranger(place, "wiped"))
        try_large(Stranger(place, "large"))
        try_no_memory_of_it(Stranger(place, "again"))
    finally:
        end_all()


def lies_of(stranger):
    """The places that a hostile engine is told of."""
    at = stranger.project / "queue.flow"
    return {"folder": at, "program": stranger.program, "source": stranger.project / "queue.v", "precious": stranger.home / "precious"}


# By the way, what it is told of.
WAYS = {
    "one_model_up": [],
    "false_model": ["folder"],
    "false_everything": ["folder", "program", "source"],
    "pipes_for_all": ["folder"],
    "folders_for_all": ["folder"],
    "another_folder": ["folder", "precious"],
    "links_to": ["folder", "precious"],
    "no_rights": [],
    "deep_and_many": [],
    "bare_child": [],
    "daemon_that_forks": [],
    "kill_what_stands_around": [],
    "stop_what_stands_around": [],
    "say_it_holds": ["folder"],
}


def try_way(stranger, way, told):
    """A hostile engine before honest ones, and by itself: what is told and kept is so, and what is not of the run is as it was."""
    looks_like_results(stranger.home / "precious")
    program = stranger.folder / "true-hwtool"
    shutil.copy(stranger.program, program)
    stranger.give()
    precious, places = seen(stranger.home / "precious"), lies_of(stranger)
    words = ["queue.v", "--engine", f"liar={stranger.hostile(way, [places[it] for it in told])}"]
    done = stranger.run(*words, *HONEST, seconds=MOST_SECONDS)
    tally.true(f"{way}: it ends", done.returncode is not None, f"after {done.seconds:.0f} s")
    stranger.no_one_left(way)
    stranger.nothing_left(way)
    at = stranger.project / ("queue.flow-moved" if way == "another_folder" else "queue.flow")
    tally.untouched(f"{way}: files of the user", precious, seen(stranger.home / "precious"))
    tally.true(f"{way}: what is said", done.returncode == ONE_FAILS, f"{done.returncode} {done.stdout} {done.stderr}")
    shutil.copy(program, stranger.program)
    if not (at / "results.json").is_file():
        tally.true(f"{way}: results", False, "there are none")
        return
    kept = {it["number"]: (it["verdict"], it["frame"]) for it in stranger.results(at.name)["properties"]}
    tally.same(f"{way}: verdicts", TRUE, kept)
    wanted = (1, "4 confirmed, 0 not, 1 differing") if way == "false_everything" else (0, "4 confirmed, 0 not")
    tally.same(f"{way}: check.sh", wanted, stranger.checked(at.name))
    mark = (at / MARK).read_text() if (at / MARK).is_file() else ""
    tally.true(f"{way}: the mark", mark.startswith(FIRST_LINE) and "precious" not in mark, mark)
    alone = stranger.run(*words, "-o", "alone", "--property", "2", "--timeout", "10", seconds=MOST_SECONDS)
    stranger.no_one_left(f"{way}, alone")
    tally.true(f"{way}, alone: nothing is confirmed", alone.returncode in ALONE, f"{alone.returncode} {alone.stdout} {alone.stderr}")
    tally.untouched(f"{way}, alone: files of the user", precious, seen(stranger.home / "precious"))


def try_wiped(stranger):
    """An engine that removes what others work on: that may cost them their time, and neither the run nor the truth."""
    done = stranger.run("queue.v", "--engine", f"liar={stranger.hostile('wipe_places', [])}", *HONEST, seconds=MOST_SECONDS)
    tally.true("others wiped: what is said", done.returncode in (ONE_FAILS, OPEN), f"{done.returncode} {done.stdout} {done.stderr}")
    kept = [(it["number"], (it["verdict"], it["frame"])) for it in stranger.results("queue.flow")["properties"]]
    tally.same("others wiped: false verdicts", [], [it for it in kept if it[1] not in (TRUE[it[0]], ("open", None))])
    stranger.no_one_left("others wiped")
    stranger.nothing_left("others wiped")


def try_large(stranger):
    """A proof that is too large to be held is spoilt behind its check: its verdict is withdrawn, and that is told."""
    words = "'cadical -q --no-binary {formula} own >&2; yes \"1 -1 0\" | head -n 60000 >{proof}; cat own >>{proof}'"
    proof = stranger.project / "queue.flow/b1/proof"
    engines = ["--engine", 'pdr_alone=berkeley-abc -q "read_aiger {form}; strash; pdr -d -I {invariant}"']
    engines += ["--engine", f"liar={stranger.hostile('spoil_when_there', [proof])}"]
    done = stranger.run("queue.v", "-j", "3", *engines, "--solver", f"large=sh -c {words}", seconds=MOST_SECONDS)
    tally.true("a large proof that is spoilt: what is told", "b1/proof: was spoilt" in done.stderr, f"{done.returncode} {done.stderr}")
    tally.same("a large proof that is spoilt: status", BROKE, done.returncode)
    tally.same("a large proof that is spoilt: check.sh", (OPEN, "0 confirmed, 0 not, 3 open"), stranger.checked("queue.flow"))


def try_no_memory_of_it(stranger):
    """The run behind one whose engine left folders without rights and pipes does what it would have done without it."""
    at = stranger.project / "queue.flow"
    for way in ("no_rights", "pipes_for_all", "folders_for_all"):
        told = [at] if way != "no_rights" else []
        stranger.run("queue.v", "--engine", f"liar={stranger.hostile(way, told)}", "--timeout", "10", seconds=MOST_SECONDS)
        done = stranger.run("queue.v", *HONEST, seconds=MOST_SECONDS)
        tally.true(f"a run behind {way}", done.returncode == ONE_FAILS, f"{done.returncode} {done.stderr}")
        tally.same(f"a run behind {way}: check.sh", (0, "4 confirmed, 0 not"), stranger.checked("queue.flow"))
        shutil.rmtree(at)
