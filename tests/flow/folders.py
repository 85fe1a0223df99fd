"""What is taken for a folder of results, and what is written and removed there: nothing that hwtool-flow did not make."""
import os
import shutil
import signal
import subprocess

from .common import ALL_HOLD, ONE_FAILS, REFUSED, WORDS, left_over, liar, tally, wait_for
from .stranger import Stranger, seen, why_not

MARK = ".hwtool-flow"
FIRST_LINE = "hwtool-flow folder of results 1\n"
HOLDING = "1 sort bitvec 1\n2 zero 1\n3 bad 2 never\n"
FAILING = "1 sort bitvec 1\n2 one 1\n3 bad 2 always\n"


def looks_like_results(folder):
    """Makes a folder that looks like one of results, with files of the user in it."""
    for it in ("work/mine", "b0/deep", "b17"):
        (folder / it).mkdir(parents=True)
    files = ("work/precious", "work/mine/precious", "b0/witness", "b0/deep/precious", "b17/notes")
    for it in (*files, "results.json", "model.btor2", "check.sh"):
        (folder / it).write_text(f"of the user: {it}\n")


def try_folders(place):
    """Folders that look like results are refused and stay as they are; in a folder of runs, what the user put there stays."""
    place = place.sub("folders")
    try_taken(place)
    try_going_over(place)
    try_in_the_way(place)
    try_beside(place)
    if why_not():
        print(f"left out: folders that look like results at each place, {why_not()}")
        return
    try_each_place(Stranger(place, "stranger"))


def try_taken(place):
    """Which folder is taken: a new one and an empty one, and none with something in it but the mark."""
    (place.folder / "holds.btor2").write_text(HOLDING)
    (place.folder / "none.btor2").write_text("1 sort bitvec 1\n2 input 1\n")
    (place.folder / "empty").mkdir()
    for it in ("new", "empty"):
        tally.same(f"a refused design, {it}", REFUSED, place.run("none.btor2", "-o", it).returncode)
    tally.same("what is left of it", ["empty"], [it.name for it in sorted(place.folder.glob("[en][me]*")) if it.is_dir()])
    (place.folder / "empty").mkdir(exist_ok=True)
    tally.same("what is left in it", [], os.listdir(place.folder / "empty"))
    for it in ("new", "empty", "new", "empty"):
        tally.same(f"a folder that is {it}", ALL_HOLD, place.run("holds.btor2", "-o", it).returncode)
    marks = {
        "without a mark": lambda at: None,
        "with another first line": lambda at: (at / MARK).write_text("hwtool-flow folder of results 10\nwork\nb0\n"),
        "with a mark of no lines": lambda at: (at / MARK).write_text(""),
        "with a link as its mark": lambda at: (at / MARK).symlink_to(place.folder / "new" / MARK),
        "with a pipe as its mark": lambda at: os.mkfifo(at / MARK),
        "with a folder as its mark": lambda at: (at / MARK).mkdir(),
    }
    for number, (what, mark) in enumerate(marks.items()):
        at = place.folder / f"looks{number}"
        looks_like_results(at)
        mark(at)
        refused(place, f"a folder {what}", at, at)
    if os.getuid() == 0:
        at = place.folder / "of-another"
        looks_like_results(at)
        (at / MARK).write_text(FIRST_LINE + "work\nb0\nresults.json\n")
        os.chown(at / MARK, 65534, 65534)
        refused(place, "a mark of another user", at, at)
    (place.folder / "link").symlink_to("new")
    refused(place, "a link to a folder of results", "link", place.folder)
    (place.folder / "file").write_text("")
    refused(place, "a file", "file", place.folder)


def refused(place, what, folder, watched, design="holds.btor2"):
    """A folder is refused with what to do, and nothing in another one is touched."""
    before = seen(watched)
    done = place.run(design, "-o", folder)
    told = done.returncode == WORDS and "by -o" in done.stderr
    tally.true(f"{what}: refused", told, f"{done.returncode} {done.stderr}")
    tally.untouched(f"{what}: nothing is touched", before, seen(watched))


def try_going_over(place):
    """A run of another model removes what runs made, and nothing that the user put there, also behind links."""
    (place.folder / "fails.btor2").write_text(FAILING)
    place.run("fails.btor2", "-o", "over")
    at, precious = place.folder / "over", place.folder / "precious"
    looks_like_results(precious)
    for it in ("b0/notes", "b9/witness", "work/precious", "mine"):
        (at / it).parent.mkdir(exist_ok=True)
        (at / it).write_text("of the user\n")
    (at / "results.json").unlink()
    (at / "results.json").symlink_to(precious / "results.json")
    before = seen(precious)
    tally.same("a run of another model", ALL_HOLD, place.run("holds.btor2", "-o", "over").returncode)
    mine = [(at / it).read_text() for it in ("b0/notes", "b9/witness", "work/precious", "mine")]
    tally.same("what the user put there", ["of the user\n"] * 4, mine)
    tally.same("what runs made of the other one", False, (at / "b0/witness").exists())
    shutil.move(at / "b0", place.folder / "aside")
    (at / "b0").symlink_to(precious / "b0")
    for design, wanted in (("fails.btor2", ONE_FAILS), ("holds.btor2", ALL_HOLD)):
        tally.same(f"a link in place of b0, {design}", wanted, place.run(design, "-o", "over").returncode)
    tally.untouched("what links led to", before, seen(precious))
    (at / MARK).write_text(FIRST_LINE + f"../precious/b0\n{precious}/results.json\nb9/../../precious/check.sh\n.\n..\n\nb0\n")
    for it in ("results.json", "check.sh", "report.html", "model.btor2"):
        (at / it).unlink()
    shutil.rmtree(at / "b0")
    tally.same("a mark that lists what is elsewhere", ONE_FAILS, place.run("fails.btor2", "-o", "over").returncode)
    tally.untouched("what it listed", before, seen(precious))


def try_in_the_way(place):
    """Where a file of the user stands in the way of results it is told, and nothing is written; a folder in place of a file stays."""
    (place.folder / "both.btor2").write_text("1 sort bitvec 1\n2 one 1\n3 bad 2 always\n4 zero 1\n5 bad 4 never\n")
    place.run("holds.btor2", "-o", "way")
    at = place.folder / "way"
    for name in ("b1", "b0/witness"):
        (at / name).write_text("of the user\n")
        refused(place, f"{name} in the way", at, at, design="both.btor2" if name == "b1" else "fails.btor2")
        (at / name).unlink()
    (at / "results.json").unlink()
    (at / "results.json/mine").mkdir(parents=True)
    (at / "results.json/mine/precious").write_text("of the user\n")
    done = place.run("both.btor2", "-o", "way")
    moved = [it.read_text() for it in at.glob("results.json.moved-*/mine/precious")]
    tally.same("a folder in place of results.json", (ONE_FAILS, ["of the user\n"]), (done.returncode, moved))
    tally.true("which is told", "a folder stood in place of results.json" in done.stderr, done.stderr)


def try_beside(place):
    """Two runs side by side, of whose folders one has a name that the other's begins: neither ends the other."""
    words = place.words("fails.btor2", "-o", "side|2", "--timeout", "60", "--engine", f"hang={liar('hang', '{counterexample}')}")
    (place.folder / "side").mkdir()
    process = subprocess.Popen(words, cwd=place.folder, stdout=subprocess.DEVNULL, stderr=subprocess.DEVNULL)
    wait_for(lambda: left_over(place, "lying_engine.py"))
    tally.same("a run beside it", ALL_HOLD, place.run("holds.btor2", "-o", "side").returncode)
    tally.true("the other one goes on", process.poll() is None and left_over(place, "lying_engine.py"), process.poll())
    process.send_signal(signal.SIGINT)
    process.wait(60)


def try_each_place(stranger):
    """At each place where a run may write stands what looks like results: it is the same before and behind each refused run."""
    for at in ("home", "home/project", "home/project/queue.flow", "home/project/out", "tmp", "tmp/hwtool-flow-precious"):
        looks_like_results(stranger.folder / at)
    (stranger.project / "link").symlink_to("out")
    (stranger.home / "to-root").symlink_to("/")
    stranger.give()
    before = seen(stranger.folder)
    folders = ["", "out", ".", "..", stranger.home, "../project", "link", "link/", "out/../out", stranger.folder, stranger.folder / "tmp"]
    folders += ["/", "../to-root", "/tmp"]
    for folder in folders:
        done = stranger.run("queue.v", *(["-o", folder] if folder else []))
        what = f"-o {folder}" if folder else "no -o"
        tally.true(f"{what}: refused", done.returncode == WORDS and "by -o" in done.stderr, f"{done.returncode} {done.stderr}")
        tally.untouched(f"{what}: nothing is touched", before, seen(stranger.folder))
    for empty in ("home/project/design", "home/other-home"):
        (stranger.folder / empty).mkdir()
    shutil.move(stranger.project / "queue.v", stranger.project / "design")
    stranger.give()
    environment = {"PATH": os.environ["PATH"], "HOME": str(stranger.folder / "home/other-home"), "TMPDIR": str(stranger.folder / "tmp")}
    before = seen(stranger.folder)
    for folder in ("design", stranger.folder / "home/other-home"):
        done = stranger.run("design/queue.v", "-o", folder, env=environment)
        tally.true(f"{folder}: refused", done.returncode == WORDS and "by -o" in done.stderr, f"{done.returncode} {done.stderr}")
        tally.untouched(f"{folder}: nothing is touched", before, seen(stranger.folder))
    done = stranger.run("design/queue.v", "-o", "results")
    tally.same("a folder of its own", ONE_FAILS, done.returncode)
    tally.untouched("what is touched outside of it", before, seen(stranger.folder, [stranger.project / "results"]))
    stranger.no_one_left("folders")
