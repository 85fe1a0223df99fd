#!/usr/bin/env python3
"""An engine, or a solver, that lies: lying_engine.py WAY [FILE ..] -- WORD ... tests/flow_tool.py has hwtool-flow run it in each way.

What a way writes is a claim that no check may confirm, or none at all. A FILE that is read stands in front of one that is written.
"""
import os
import pathlib
import shutil
import signal
import subprocess
import sys
import time


def lines_of(path):
    """The lines of a counterexample as ABC writes it: the initial bits, the frames, the end."""
    return pathlib.Path(path).read_text().replace("# DONE", "").split()


def cut(true, into):
    """A true counterexample, cut in the middle of a frame."""
    text = pathlib.Path(true).read_text()
    pathlib.Path(into).write_text(text[: len(text) // 2 + 1])


def a_frame_short(true, into):
    """A true counterexample without its last frame."""
    pathlib.Path(into).write_text("\n".join(lines_of(true)[:-1]) + "\n")


def turned(true, into):
    """A true counterexample with each bit of its frames turned."""
    first, *frames = lines_of(true)
    pathlib.Path(into).write_text("\n".join([first, *(it.translate(str.maketrans("01", "10")) for it in frames)]) + "\n")


def given(what, into):
    """What is given, of another property or another formula."""
    shutil.copyfile(what, into)


def told(what):
    """What is given, on standard output."""
    sys.stdout.write(pathlib.Path(what).read_text())


def no_invariant(into):
    """Sets of states that are reached: those in which the first latch is 1."""
    pathlib.Path(into).write_text(".i 1\n.o 1\n.p 1\n.ilb lo0\n.ob inv\n1 1\n.e\n")


def all_states(into):
    """No set of states at all, so that the property would hold in each."""
    pathlib.Path(into).write_text(".i 0\n.o 1\n.p 0\n.ilb\n.ob inv\n.e\n")


def the_first_state(into):
    """A set of states that has the first state in it."""
    pathlib.Path(into).write_text(".i 1\n.o 1\n.p 1\n.ilb lo0\n.ob inv\n0 1\n.e\n")


def always_safe(into):
    """A witness circuit whose property never fails, so that the property would hold in each state."""
    pathlib.Path(into).write_text("aag 0 0 0 0 0 1\n0\n")


def never_met(into):
    """A witness circuit with a constraint that is never met."""
    pathlib.Path(into).write_text("aag 0 0 0 0 0 1 1\n0\n0\n")


def no_such_literal(into):
    """A witness circuit, one input of which stands for a literal that is not there."""
    pathlib.Path(into).write_text("aag 1 1 0 0 0 1\n2\n2\ni0 = 99999999\n")


def two_properties(into):
    """A circuit with two bad properties."""
    pathlib.Path(into).write_text("aag 0 0 0 0 0 2\n0\n0\n")


def at_once(into):
    """A proof whose first step is the empty clause."""
    pathlib.Path(into).write_text("0\n")


def nothing(into):
    """An empty file."""
    pathlib.Path(into).write_text("")


def rubbish(into):
    """Bytes that are no text."""
    pathlib.Path(into).write_bytes(bytes(range(256)) * 64)


def without_end(into):
    """A text that never ends, in the file and on standard output."""
    with open(into, "w") as file:
        while True:
            file.write("0101\n" * 4096)
            print("0101\n" * 4096)


def a_link(into):
    """A link to a text that never ends."""
    os.symlink("/dev/zero", into)


def a_pipe(into):
    """A pipe that nobody writes to."""
    os.mkfifo(into)


def a_folder(into):
    """A folder in place of a file."""
    os.mkdir(into)


def crash(*_files):
    """It dies by a signal."""
    os.kill(os.getpid(), signal.SIGSEGV)


def fail(*_files):
    """It ends with a status, and says something."""
    sys.exit("this engine does not work")


def hang(*_files):
    """It does not end, and no signal but the last ends it."""
    for number in (signal.SIGTERM, signal.SIGINT, signal.SIGHUP):
        signal.signal(number, signal.SIG_IGN)
    time.sleep(3600)


def leave_child(*_files):
    """It ends, and its children go on: one beside it, one in a session of its own, and one whose parent is gone."""
    subprocess.Popen(["sleep", "3611"])
    subprocess.Popen(["sleep", "3612"], start_new_session=True)
    subprocess.Popen(["sh", "-c", "setsid sh -c 'sleep 3613 & sleep 3614' & exit"]).wait()


def hang_and_leave(*_files):
    """It does not end, and has a child in a session of its own."""
    subprocess.Popen(["sleep", "3615"], start_new_session=True)
    hang()


def spoil(form):
    """It spoils what it was handed."""
    pathlib.Path(form).write_bytes(b"")


WAYS = {
    it.__name__: it
    for it in [
        cut,
        a_frame_short,
        turned,
        given,
        told,
        no_invariant,
        all_states,
        the_first_state,
        always_safe,
        never_met,
        no_such_literal,
        two_properties,
        at_once,
        nothing,
        rubbish,
        without_end,
        a_link,
        a_pipe,
        a_folder,
        crash,
        fail,
        hang,
        leave_child,
        hang_and_leave,
        spoil,
    ]
}

if __name__ == "__main__":
    WAYS[sys.argv[1]](*sys.argv[2 : sys.argv.index("--")])
