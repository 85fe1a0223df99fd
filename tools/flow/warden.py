"""What stands around a program of which nothing is known: it ends all that came of that program.

It is run by running.py, as a process of its own, by the words MOST STATUS WORD ..: the bytes that a file may get, or 0 where any
number is allowed; where to write how the program ended; and the program's words. All ends when the program does, or when standard
input ends. Its other end is held by hwtool-flow, which lets it go to stop this, or when it is no more, whatever ended it.
"""
import ctypes
import os
import resource
import select
import sys
from typing import Dict, List, Optional, Set

PR_SET_PDEATHSIG, PR_SET_DUMPABLE, PR_SET_CHILD_SUBREAPER = 1, 4, 36
# How long ended children are left unburied, and how long it is waited between two looks for what is to be killed, in milliseconds
# and in seconds.
UNBURIED, NAP = 500, 0.002
# Above all that is open here.
MOST_OPEN = 4096


def set_process(what: int, value: int) -> bool:
    """Sets an attribute of this process; whether that could be done."""
    try:
        return ctypes.CDLL(None).prctl(what, value, 0, 0, 0) == 0
    except (OSError, AttributeError):
        return False


def parents() -> Dict[int, int]:
    """The parent of each process."""
    found = {}
    for it in filter(str.isdigit, os.listdir("/proc")):
        try:
            with open(f"/proc/{it}/stat", "rb") as file:
                found[int(it)] = int(file.read().rpartition(b")")[2].split()[1])
        except OSError:
            pass
    return found


def below(tops: Set[int]) -> Set[int]:
    """Some processes with all that came of them."""
    known, found, new = parents(), set(tops), set(tops)
    while new:
        new = {it for it, parent in known.items() if parent in new} - found
        found |= new
    return found


def kill(pids: Set[int]) -> None:
    """Kills processes."""
    for it in pids:
        try:
            os.kill(it, 9)
        except (ProcessLookupError, PermissionError):
            pass


def started(most: int, words: List[str]) -> int:
    """The program's process."""
    pid = os.fork()
    if pid:
        return pid
    try:
        os.setsid()
        resource.setrlimit(resource.RLIMIT_CORE, (0, 0))
        if most:
            resource.setrlimit(resource.RLIMIT_FSIZE, (most, most))
        os.dup2(os.open(os.devnull, os.O_RDONLY), 0)
        os.closerange(3, MOST_OPEN)
        os.execvp(words[0], words)
    except (OSError, ValueError) as why:
        os.write(2, f"{words[0]}: {why}\n".encode("utf-8", "backslashreplace"))
    finally:
        os._exit(127)


def buried(program: int) -> Optional[int]:
    """Buries children that have ended; how the program ended, if it is one of them."""
    ended = None
    try:
        while found := os.waitpid(-1, os.WNOHANG):
            if found[0] == 0:
                break
            if found[0] == program:
                ended = found[1]
    except ChildProcessError:
        pass
    return ended


def end_children() -> None:
    """Kills all that came of this process, until there is nothing."""
    while True:
        kill(below({os.getpid()}) - {os.getpid()})
        try:
            while os.waitpid(-1, os.WNOHANG)[0]:
                pass
        except ChildProcessError:
            return
        select.select([], [], [], NAP)


def main(most: int, status: int, words: List[str]) -> None:
    """Runs the program, and ends all that came of it."""
    set_process(PR_SET_CHILD_SUBREAPER, 1)
    program = started(most, words)
    waited = select.poll()
    waited.register(0, select.POLLIN)
    waited.register(os.pidfd_open(program), select.POLLIN)
    ended = None
    while ended is None and 0 not in [it for it, _ in waited.poll(UNBURIED)]:
        ended = buried(program)
    if ended is not None:
        os.write(status, str(ended).encode())
    end_children()


if __name__ == "__main__":
    main(int(sys.argv[1]), int(sys.argv[2]), sys.argv[3:])
