"""Root in a root directory of its own: there is nothing there but a small tree that was made for it, and no other file system.

It is root of a user namespace alone, which outside is a user of its own; so nothing of the machine is within its reach, whatever
hwtool-flow does.
"""
import json
import pathlib
import re
import shutil
import subprocess

from .common import WORDS, tally
from .folders import HOLDING, looks_like_results
from .stranger import PYTHON, Stranger, why_not

# What stands in the tree that was made.
SIGN = "made-for-these-tries"
ENTER = f"""
PATH=$PATH:/usr/sbin:/sbin
mount --bind "$1" "$1" && mount -t proc proc "$1/proc" && cd "$1" && pivot_root . old && exec {PYTHON} -I -S -B /inside.py "$2"
exit 98
"""
# What is run there: it first sees that it is alone, and tells of each run its status, what it says, and what differs behind it.
INSIDE = """
import ctypes, hashlib, json, os, stat, subprocess, sys
ctypes.CDLL(None).umount2(b"/old", 2)
mounts = [it.split()[4] for it in open("/proc/self/mountinfo")]
if os.listdir("/old") or not os.path.exists("/SIGN") or sorted(mounts) != ["/", "/proc"]:
    sys.exit(99)

def seen():
    found = {}
    for at, folders, files in os.walk("/"):
        folders[:] = [it for it in folders if os.path.join(at, it) not in ("/proc", "/new", "/tmp")]
        for it in [*folders, *files]:
            path = os.path.join(at, it)
            state = os.lstat(path)
            held = hashlib.sha256(open(path, "rb").read()).hexdigest() if stat.S_ISREG(state.st_mode) else ""
            found[path] = [state.st_mode, state.st_ino, held]
    return found

told, before = [], seen()
for words in json.loads(sys.argv[1]):
    done = subprocess.run([sys.executable, "/tools/hwtool-flow", *words], capture_output=True, text=True, cwd="/", env={"HOME": "/root"})
    now = seen()
    told.append([done.returncode, done.stderr, sorted(it for it in {*before, *now} if before.get(it) != now.get(it))])
print(json.dumps(told))
""".replace("SIGN", SIGN)


def libraries(*programs):
    """The libraries that programs are linked with, and what loads them."""
    said = subprocess.run(["ldd", *programs], capture_output=True, text=True, check=False).stdout
    return {pathlib.Path(it) for it in re.findall(r"(?:=> |^\s)(/\S+)", said, re.M)}


def make_tree(stranger):
    """A root directory with Python, hwtool and hwtool-flow; and at its top, in the home and beside a design, what looks like results."""
    root = stranger.folder / "root"
    python = pathlib.Path(PYTHON).resolve()
    where = subprocess.run([PYTHON, "-c", "import os; print(os.path.dirname(os.__file__))"], capture_output=True, text=True, check=True)
    library = pathlib.Path(where.stdout.strip())
    ignored = shutil.ignore_patterns("dist-packages", "test", "idlelib", "ensurepip", "lib2to3", "tkinter", "config-*")
    shutil.copytree(library, root / library.relative_to("/"), ignore=ignored)
    for it in [python, *libraries(python, stranger.program, *library.glob("lib-dynload/*.so"))]:
        (root / it.relative_to("/")).parent.mkdir(parents=True, exist_ok=True)
        shutil.copy(it, root / it.relative_to("/"))
    (root / PYTHON.lstrip("/")).symlink_to(python.name)
    shutil.copytree(stranger.folder / "bin", root / "tools")
    for it in ("proc", "old", "tmp", "root", "design", "dev"):
        (root / it).mkdir()
    (root / "dev/null").write_text("")
    for it in (root, root / "root", root / "design"):
        looks_like_results(it)
    (root / "design/holds.btor2").write_text(HOLDING)
    (root / "link").symlink_to("/")
    (root / SIGN).write_text("")
    (root / "inside.py").write_text(INSIDE)
    stranger.give()
    return root


def try_rooted(place):
    """As root: the root directory, the home, the design's folder and a link to the root are refused, and nothing there is touched."""
    reason = why_not() or ("" if shutil.which("unshare") and shutil.which("ldd") else "since there is no unshare or no ldd")
    if reason:
        print(f"left out: root in a root directory of its own, {reason}")
        return
    stranger = Stranger(place.sub("rooted"), "stranger")
    root = make_tree(stranger)
    engine = ["--engine", f"none={PYTHON} -c pass {{form}} {{invariant}}", "design/holds.btor2"]
    folders = ["/", "/root", "/design", "/link", "/link/", ".", "/tools/..", "/new"]
    words = json.dumps([["-o", it, *engine] for it in folders])
    enter = ["unshare", "--user", "--map-root-user", "--mount", "--pid", "--fork", "--propagation", "private", "sh", "-c", ENTER, "sh"]
    process = stranger.as_user([*enter, root, words])
    out, err = process.communicate(timeout=600)
    if process.returncode != 0:
        print(f"left out: root in a root directory of its own, since it cannot be had here: {err.strip().splitlines()[-1:]}")
        return
    for folder, (status, said, touched) in zip(folders, json.loads(out)):
        refused = folder != "/new"
        is_so = status == WORDS and "by -o" in said if refused else status != WORDS
        tally.true(f"as root, -o {folder}: {'refused' if refused else 'taken'}", is_so, f"{status} {said}")
        tally.same(f"as root, -o {folder}: what is touched", [], touched)
    tally.true("as root, a folder of its own", (root / "new/results.json").exists(), said)
