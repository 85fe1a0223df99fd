"""A user of its own, who may write in one folder alone: what is hostile is tried as that user, and by nobody else."""
import hashlib
import json
import os
import pathlib
import shutil
import signal
import stat
import subprocess
import tempfile
import time

from .common import EXAMPLES, HOSTILE, LIAR, TOOL, Place, tally, wait_for

# A number that no user has.
USER = 47831
# A Python that any user may run.
PYTHON = "/usr/bin/python3"
# What a run is told, so that no system's folder is named by it.
PATH = "/usr/local/bin:/usr/bin:/bin"


def why_not():
    """Why nothing hostile is tried; nothing where it is."""
    if os.getuid() != 0:
        return "since only root may run it as another user"
    if not shutil.which("setpriv") or not os.access(PYTHON, os.X_OK):
        return f"since there is no setpriv or no {PYTHON}"
    return "since there are processes of its user already" if of_user() else ""


def of_user():
    """All processes of the user."""
    found = []
    for it in filter(str.isdigit, os.listdir("/proc")):
        try:
            if os.stat(f"/proc/{it}").st_uid == USER or f"\nUid:\t{USER}\t" in pathlib.Path(f"/proc/{it}/status").read_text():
                found.append(int(it))
        except OSError:
            pass
    return found


class Stranger(Place):
    """A folder of the user, with copies of the tool, the program and the hostile engine, a home and a folder for work in it."""

    def __init__(self, place, name):
        super().__init__(place.folder / name, str(place.folder / name / "bin/hwtool"))
        for it in [self.folder, *self.folder.parents]:
            if str(it).startswith(tempfile.gettempdir() + "/") and it.exists():
                it.chmod(0o755)
        for it in ("bin", "home/project", "tmp"):
            (self.folder / it).mkdir(parents=True)
        self.home, self.project, self.engine = self.folder / "home", self.folder / "home/project", self.folder / "bin" / HOSTILE.name
        shutil.copytree(TOOL.parent / "flow", self.folder / "bin/flow", ignore=shutil.ignore_patterns("__pycache__"))
        for it in (TOOL, LIAR, HOSTILE):
            shutil.copy(it, self.folder / "bin")
        shutil.copy(place.program, self.folder / "bin/hwtool")
        shutil.copy(EXAMPLES / "flow/queue.v", self.project)
        self.give()

    def give(self):
        """Makes all in the folder the user's own."""
        subprocess.run(["chown", "-R", f"{USER}:{USER}", self.folder], check=True)

    def as_user(self, words, **more):
        """A process of the user, in the project."""
        environment = {"PATH": PATH, "HOME": str(self.home), "TMPDIR": str(self.folder / "tmp"), "LANG": "C.UTF-8"}
        words = ["setpriv", f"--reuid={USER}", f"--regid={USER}", "--clear-groups", *map(str, words)]
        pipes = {"stdin": subprocess.DEVNULL, "stdout": subprocess.PIPE, "stderr": subprocess.PIPE, "text": True, "cwd": self.project}
        return subprocess.Popen(words, **{**pipes, "env": environment, "errors": "replace", **more})

    def begun(self, *words, **more):
        """A run that goes on."""
        return self.as_user([PYTHON, self.folder / "bin" / TOOL.name, *words], **more)

    def run(self, *words, seconds=120, **more):
        """A run; its status, both outputs, and its seconds. One that does not end is killed, and has no status."""
        began, process = time.monotonic(), self.begun(*words, **more)
        try:
            out, err = process.communicate(timeout=seconds)
        except subprocess.TimeoutExpired:
            end_all()
            out, err = process.communicate()
            process.returncode = None
        done = subprocess.CompletedProcess(words, process.returncode, out, err)
        done.seconds = time.monotonic() - began
        return done

    def hostile(self, way, files):
        """The command of an engine that is hostile in a way. It is told where all stands that it might spoil."""
        return " ".join(map(str, [PYTHON, "-B", self.engine, way, *files, "{invariant}", "--", "{form}"]))

    def checked(self, name):
        """The status of check.sh, and its last line."""
        process = self.as_user(["sh", f"{name}/check.sh", self.program])
        out, err = process.communicate(timeout=120)
        return process.returncode, (out.splitlines() or [err])[-1]

    def results(self, name):
        """What a run kept."""
        return json.loads((self.project / name / "results.json").read_text())

    def no_one_left(self, what):
        """No process of the user is left, soon."""
        wait_for(lambda: not of_user(), 3)
        tally.same(f"{what}: processes that are left", [], [pathlib.Path(f"/proc/{it}/cmdline").read_bytes() for it in of_user()])
        end_all()

    def nothing_left(self, what):
        """No place of work is left."""
        tally.same(f"{what}: what is left of the work", [], sorted(it.name for it in (self.folder / "tmp").iterdir()))


def end_all():
    """Ends the processes of the user, of whom there are none but those of these tries."""
    while found := of_user():
        for it in found:
            try:
                os.kill(it, signal.SIGKILL)
            except ProcessLookupError:
                pass
        time.sleep(0.01)


def seen(folder, without=()):
    """All that is in a folder: by its path, what it is, its inode, its rights, and what it holds."""
    found = {}
    for at, folders, files in os.walk(folder):
        for it in [*folders, *files]:
            path = pathlib.Path(at) / it
            if any(path == other or other in path.parents for other in without):
                continue
            state = path.lstat()
            held = os.readlink(path) if path.is_symlink() else ""
            if stat.S_ISREG(state.st_mode):
                held = hashlib.sha256(path.read_bytes()).hexdigest()
            found[str(path)] = stat.filemode(state.st_mode), state.st_ino, held
    return found
