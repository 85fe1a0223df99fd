"""Devices that fail, tools that are not there, a program that is broken, and what is installed."""
import os
import pathlib
import shutil
import subprocess
import sys
import tempfile

from .common import BROKE, EXAMPLES, HOLDS, ONE_FAILS, OPEN, TOOL, TOP, counter_model, tally


def try_devices(place):
    """A full disk, and a folder that cannot be written: the status says so, and no half of a result stands."""
    place = place.sub("devices")
    shutil.copyfile(EXAMPLES / "flow/queue.v", place.folder / "queue.v")
    try_closed_folder(place)
    try_lacking_memory(place)
    text, wanted = counter_model(24, 14)
    (place.folder / "counter.btor2").write_text(text)
    try_full_disk(place, "queue.v", [0, HOLDS, 5], (4, 12, 24, 36, 48, 64, 80, 100))
    try_full_disk(place, "counter.btor2", wanted, (40, 60, 80, 100, 130, 160, 200, 240))


# What takes from a system that files in memory are sealed, or run.
LACKS = {
    "no files in memory": "import os; del os.memfd_create",
    "nothing run from memory": """
import subprocess
class Refused(subprocess.Popen):
    def __init__(self, words, executable=None, **more):
        if executable:
            raise PermissionError(13, executable)
        super().__init__(words, **more)
subprocess.Popen = Refused
""",
}


def try_lacking_memory(place):
    """Where files in memory cannot be sealed, or not be run, the verdicts are the same."""
    for what, lack in LACKS.items():
        start = f"{lack}\nimport runpy, sys\nsys.argv = sys.argv[1:]\nrunpy.run_path(sys.argv[0], run_name='__main__')"
        command = [sys.executable, "-c", start, *place.words("queue.v")[1:]]
        done = subprocess.run(command, cwd=place.folder, capture_output=True, text=True, check=False)
        tally.same(f"{what}: status", (ONE_FAILS, ""), (done.returncode, done.stderr))
        tally.same(f"{what}: verdicts", [0, HOLDS, 5], place.verdicts("queue.flow"))
        tally.same(f"{what}: check.sh", (0, "4 confirmed, 0 not"), place.checked("queue.flow"))
        shutil.rmtree(place.folder / "queue.flow")


def try_closed_folder(place):
    """A folder that cannot be written: of root another user, who has copies of all that is needed."""
    closed, copies = place.sub("closed").folder, place.sub("copies").folder
    shutil.copytree(TOOL.parent / "flow", copies / "flow")
    for it in (TOOL, place.program, EXAMPLES / "counter.btor2"):
        shutil.copy(it, copies)
    other = ["setpriv", "--reuid=65534", "--regid=65534", "--clear-groups"] if os.getuid() == 0 else []
    for it in place.folder.parents:
        if str(it).startswith(tempfile.gettempdir() + "/"):
            it.chmod(0o755)
    closed.chmod(0o555)
    words = [*other, "/usr/bin/python3", copies / TOOL.name, copies / "counter.btor2"]
    done = subprocess.run(words, cwd=closed, capture_output=True, text=True, check=False)
    so = done.returncode == BROKE and "Permission denied" in done.stderr
    tally.true("a folder that cannot be written", so, f"{done.returncode} {done.stderr}")


def try_full_disk(place, design, wanted, sizes):
    """Runs on a disk that is full too soon, with more and more room, and last with enough."""
    disk, name = place.folder / "disk", f"disk/{pathlib.Path(design).stem}.flow"
    disk.mkdir(exist_ok=True)
    if subprocess.run(["mount", "-t", "tmpfs", "-o", "size=4k", "none", disk], check=False, stderr=subprocess.DEVNULL).returncode != 0:
        print("left out: a full disk, since nothing can be mounted")
        return
    try:
        for size in sizes:
            subprocess.run(["mount", "-o", f"remount,size={size}k", disk], check=True)
            done = place.run(design, "-o", name, "-j", "2")
            enough = done.returncode == ONE_FAILS and "b0" in done.stdout
            tally.true(f"{design} on a disk of {size} k", done.returncode == BROKE or enough, f"{done.returncode} {done.stderr}")
            kept = place.folder / name / "results.json"
            known = place.verdicts(name) if kept.exists() else []
            tally.true("what is known", all(got in (None, want) for got, want in zip(known, wanted)), known)
        subprocess.run(["mount", "-o", "remount,size=4m", disk], check=True)
        place.run(design, "-o", name)
        tally.same(f"{design} with room again", wanted, place.verdicts(name))
        tally.same("its check.sh", (0, f"{place.judged(name)} confirmed, 0 not"), place.checked(name))
    finally:
        subprocess.run(["umount", disk], check=False)


def try_missing(place):
    """Tools that are not there are said, with the package that has them."""
    place = place.sub("missing")
    queue, counter = EXAMPLES / "flow/queue.v", EXAMPLES / "two-counters.btor2"
    for gone, design, wanted in [
        ({"yosys"}, queue, (BROKE, [])),
        ({"berkeley-abc"}, counter, (BROKE, [])),
        ({"cadical"}, counter, (ONE_FAILS, [7, None])),
        ({"cadical"}, EXAMPLES / "wraps.btor2", (BROKE, [None])),
        ({"yosys"}, counter, (ONE_FAILS, [7, HOLDS])),
    ]:
        path = place.folder / f"without-{'-'.join(gone)}"
        if not path.exists():
            path.mkdir()
            for it in {"sh", "yosys", "berkeley-abc", "cadical"} - gone:
                if shutil.which(it):
                    (path / it).symlink_to(shutil.which(it))
        done = place.run(design, "-o", "it.flow", "--engine", "bmc3", "--engine", "pdr", env={**os.environ, "PATH": str(path)})
        known = place.verdicts("it.flow") if (place.folder / "it.flow").exists() else []
        tally.same(f"without {gone}, {design.name}", wanted, (done.returncode, known))
        if wanted[0] == BROKE or None in wanted[1]:
            tally.true(f"without {gone}: what is said", f"apt-get install {next(iter(gone))}" in done.stderr, done.stderr)
        shutil.rmtree(place.folder / "it.flow", ignore_errors=True)
    done = subprocess.run(
        [sys.executable, str(TOOL), "--hwtool", "nowhere", str(counter)], cwd=place.folder, capture_output=True, text=True, check=False
    )
    tally.true("without the program", done.returncode == BROKE and "nowhere" in done.stderr, done.stderr)
    try_broken_program(place, counter)


def try_broken_program(place, counter):
    """A program in place of hwtool that dies, hangs up or says what it should not: no verdict comes of it."""
    for name, text in {
        "dies": "kill -SEGV $$",
        "fails": "exit 3",
        "accepts": 'case $1 in check-*) echo "accepted 1 frames" ;; *) exec "$REAL" "$@" ;; esac',
    }.items():
        stand_in = place.folder / name
        stand_in.write_text(f"#!/bin/sh\n{text}\n")
        stand_in.chmod(0o755)
        done = subprocess.run(
            [sys.executable, str(TOOL), "--hwtool", str(stand_in), "-o", "it.flow", str(counter)],
            cwd=place.folder,
            capture_output=True,
            text=True,
            check=False,
            env={**os.environ, "REAL": place.program},
        )
        tally.true(
            f"a program that {name}",
            done.returncode in (BROKE, OPEN) and "checked  " not in done.stdout,
            f"{done.returncode} {done.stdout}",
        )
        shutil.rmtree(place.folder / "it.flow", ignore_errors=True)


def try_installed(place):
    """What `make install` puts into a folder works from there, and `make uninstall` leaves no file of it."""
    place = place.sub("a prefix")
    if not shutil.which("make"):
        print("left out: what is installed, since there is no make")
        return
    make = ["make", "-s", "-C", str(TOP), f"PREFIX={place.folder}"]
    subprocess.run([*make, "install"], check=True)
    words = [place.folder / "bin/hwtool-flow", EXAMPLES / "two-counters.btor2"]
    done = subprocess.run(words, cwd=place.folder, capture_output=True, text=True, check=False)
    tally.same("what is installed", (ONE_FAILS, "", [7, HOLDS]), (done.returncode, done.stderr, place.verdicts("two-counters.flow")))
    shutil.rmtree(place.folder / "two-counters.flow")
    subprocess.run([*make, "uninstall"], check=True)
    tally.same("what is left of it", [], [str(it) for it in place.folder.rglob("*") if not it.is_dir()])
