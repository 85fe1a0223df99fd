"""Processes: each in a session of its own, bounded in time and in what it writes, and ended with all that came of it."""
import contextlib
import enum
import math
import os
import select
import signal
import subprocess
import sys
import threading
import time
from dataclasses import dataclass
from pathlib import Path
from typing import Dict, Iterator, Optional, Sequence, Union

from .files import HANDED, is_sealed, nameless, open_plain, write_all
from .warden import PR_SET_CHILD_SUBREAPER, PR_SET_DUMPABLE, below, kill, parents, set_process

# The text of what stands around each program, read before any of them runs.
WARDEN = Path(__file__).with_name("warden.py").read_text(encoding="utf-8")
# How often it is looked at whether all is to stop, in seconds.
LONGEST_NAP = 0.05
# How long it is waited for a warden to end all that it stands around.
GRACE = 3.0
# How often processes that nobody stands around are looked for: what is killed may take a while to be gone.
MOST_ROUNDS = 200

# Where a process writes: a file that is made anew, or one that is open.
Output = Union[Path, int]


class Stopped(Exception):
    """All is to stop."""


class Ending(enum.Enum):
    """How a process came to its end."""

    BY_ITSELF = "by itself"
    OUT_OF_TIME = "out of time"
    STOPPED = "stopped"


@dataclass(frozen=True)
class Ended:
    """A process that is no more: how it ended, its exit status (below 0 a signal's number), and its seconds."""

    how: Ending
    status: int
    seconds: float

    def __str__(self) -> str:
        if self.how is not Ending.BY_ITSELF:
            return self.how.value
        if self.status == -signal.SIGXFSZ:
            return "wrote too much"
        return f"killed by signal {-self.status}" if self.status < 0 else f"status {self.status}"


class Runner:
    """Runs processes, from any thread. Where `stopping` is set, all are killed, and none is started for long."""

    def __init__(self) -> None:
        self.stopping = threading.Event()
        self._lock = threading.Lock()
        # processes that are not strays: those that were children of this one before, and those that it starts
        self._known = {pid for pid, parent in parents().items() if parent == os.getpid()}
        self._breaks = False
        # what stands around each program, where no other process can change it
        self._warden = nameless()
        write_all(self._warden.fileno(), WARDEN.encode())
        is_sealed(self._warden)
        # what has lost its parent comes here, where it is found; and no other process of this user looks into this one
        set_process(PR_SET_CHILD_SUBREAPER, 1)
        set_process(PR_SET_DUMPABLE, 0)

    # ---- signals

    def stop(self) -> None:
        """Has all stop; what the main thread does by itself stops too."""
        self.stopping.set()
        if self._breaks:
            self._breaks = False
            raise Stopped

    @contextlib.contextmanager
    def at_once(self) -> Iterator[None]:
        """What the main thread does here is broken off where all is to stop."""
        self._breaks = True
        try:
            if self.stopping.is_set():
                raise Stopped
            yield
        finally:
            self._breaks = False

    # ---- processes

    def run_own(
        self,
        words: Sequence[str],
        folder: Path,
        out: Output,
        err: Output,
        seconds: Optional[float],
        program: Optional[str] = None,
        handed: Sequence[int] = (),
    ) -> Ended:
        """Runs a program of ours in a folder, which is handed some open files, for so many seconds at most."""
        return self._run(words, folder, out, err, seconds, subprocess.DEVNULL, program, handed)

    def run(
        self,
        words: Sequence[str],
        folder: Path,
        out: Output,
        err: Optional[Output],
        seconds: Optional[float],
        most_bytes: Optional[int],
        home: Optional[Path] = None,
    ) -> Ended:
        """Runs a program that nothing is known of: all that came of it ends with it, and none of its files gets larger than is said.

        With `home` that is its home folder, where it may keep what it likes.
        """
        ours, theirs = os.pipe()
        try:
            warden = self._warden.fileno()
            around = [sys.executable, "-I", "-S", "-B", f"{HANDED}{warden}", str(most_bytes or 0), str(theirs), *words]
            environment = {**os.environ, "HOME": str(home)} if home else None
            ended = self._run(around, folder, out, err, seconds, subprocess.PIPE, None, [theirs, warden], environment)
            self.end_strays()
            os.set_blocking(ours, False)
            with contextlib.suppress(BlockingIOError, ValueError):
                return Ended(ended.how, os.waitstatus_to_exitcode(int(os.read(ours, 32))), ended.seconds)
            return ended
        finally:
            os.close(ours)
            os.close(theirs)

    def _run(
        self,
        words: Sequence[str],
        folder: Path,
        out: Output,
        err: Optional[Output],
        seconds: Optional[float],
        source: int,
        program: Optional[str],
        handed: Sequence[int],
        environment: Optional[Dict[str, str]] = None,
    ) -> Ended:
        """Runs a command in a session of its own, and ends what is left of it."""
        began = time.monotonic()
        if self.stopping.is_set():
            return Ended(Ending.STOPPED, 0, 0.0)
        with opened(out) as to_out, opened(subprocess.STDOUT if err is None else err) as to_err:
            with self._lock:
                process = subprocess.Popen(
                    words,
                    executable=program,
                    cwd=folder,
                    stdin=source,
                    stdout=to_out,
                    stderr=to_err,
                    start_new_session=True,
                    pass_fds=handed,
                    env=environment,
                )
                self._known.add(process.pid)
        try:
            how = self._wait(process.pid, math.inf if seconds is None else began + seconds)
        finally:
            self._end(process)
        return Ended(how, process.returncode, time.monotonic() - began)

    def _wait(self, pid: int, deadline: float) -> Ending:
        """Waits until a process has ended, is out of time, or all are to stop."""
        end = os.pidfd_open(pid)
        try:
            while True:
                left = deadline - time.monotonic()
                if self.stopping.is_set():
                    return Ending.STOPPED
                if select.select([end], [], [], max(0.0, min(left, LONGEST_NAP)))[0]:
                    return Ending.BY_ITSELF
                if left <= 0:
                    return Ending.OUT_OF_TIME
        finally:
            os.close(end)

    def _end(self, process: subprocess.Popen) -> None:
        """Ends a process: a warden by its standard input, so that it ends what it stands around, and else by a signal."""
        if process.stdin:
            process.stdin.close()
            with contextlib.suppress(subprocess.TimeoutExpired):
                process.wait(GRACE)
        if process.returncode is None:
            # the group is killed before its leader is reaped, so that its number is still its own
            os.killpg(process.pid, signal.SIGKILL)
            process.wait()
        with self._lock:
            self._known.discard(process.pid)

    def end_strays(self) -> None:
        """Kills what has come to this process since nobody stands around it any more. What is in its own session came of nothing here."""
        for _ in range(MOST_ROUNDS):
            with self._lock:
                strays = {it for it, parent in parents().items() if parent == os.getpid() and it not in self._known and is_apart(it)}
                kill(below(strays))
                for it in strays:
                    with contextlib.suppress(ChildProcessError):
                        os.waitpid(it, os.WNOHANG)
            if not strays:
                return
            time.sleep(LONGEST_NAP / 10)


def is_apart(pid: int) -> bool:
    """Whether a process is in another session than this one."""
    try:
        return os.getsid(pid) != os.getsid(0)
    except OSError:
        return False


@contextlib.contextmanager
def opened(where: Output) -> Iterator[int]:
    """An open file to write to."""
    if isinstance(where, int):
        yield where
        return
    found = os.open(where, os.O_WRONLY | os.O_CREAT | os.O_TRUNC | os.O_NOFOLLOW | os.O_NONBLOCK | os.O_CLOEXEC, 0o600)
    try:
        yield found
    finally:
        os.close(found)


@contextlib.contextmanager
def readable(where: Output) -> Iterator[int]:
    """An open file to read from."""
    if isinstance(where, int):
        yield where
        return
    found = open_plain(where)
    try:
        yield found
    finally:
        os.close(found)


def head_of(where: Output, most: int = 1 << 16) -> str:
    """The beginning of what a process wrote, as text; nothing where there is no such file."""
    return part_of(where, most, False)


def tail_of(where: Output, most: int = 4096) -> str:
    """The end of what a process has written so far, as text; nothing where there is no such file."""
    return part_of(where, most, True)


def part_of(where: Output, most: int, at_end: bool) -> str:
    """A part of a file, from its beginning or up to its end."""
    try:
        with readable(where) as file:
            begins = max(0, os.fstat(file).st_size - most) if at_end else 0
            return os.pread(file, most, begins).decode("utf-8", "replace")
    except OSError:
        return ""
