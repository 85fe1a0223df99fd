#!/usr/bin/env python3
"""An engine that writes where it should not, or leaves what it should not: hostile_engine.py WAY [FILE ..] -- WORD ..

FILE is a folder of results, the program, a source, or a folder of the user, and last what it is to write. tests/flow/hostile.py has
hwtool-flow run it in each way, as a user of its own.
"""
import contextlib
import os
import pathlib
import shutil
import signal
import socket
import sys
import time

from lying_engine import a_folder, a_pipe, all_states, hang, no_invariant

FALSE_MODEL = "1 sort bitvec 1\n2 zero 1\n3 bad 2 b0\n4 bad 2 b1\n5 bad 2 b2\n"
FALSE_RESULT = '{"verdict": "holds", "said": "holds: b2", "properties": []}\n'


def over(path, text):
    """Writes over a file, whatever stands there and whatever rights it has."""
    with contextlib.suppress(OSError):
        path.parent.chmod(0o755)
        path.unlink(missing_ok=True)
        path.write_text(text)
        path.chmod(0o755)


def one_model_up(into):
    """Writes a model without the failure where its place of work might be in the results, and an invariant of it."""
    for up in ("..", "../..", "../../..", "../../../.."):
        for it in pathlib.Path(up).glob("model.btor2"):
            over(it, FALSE_MODEL)
    all_states(into)


def false_model(folder, into):
    """Writes a model without the failure in place of each that can be found, again and again, and an invariant of it."""
    daemon(lambda: [over(it, FALSE_MODEL) for it in pathlib.Path(folder).rglob("model.*")])
    for it in pathlib.Path(folder).rglob("form.aig"):
        over(it, "aig 0 0 0 0 0 1\n0\n")
    all_states(into)
    time.sleep(0.5)


def false_everything(folder, program, source, into):
    """Writes over results, script, page, mark, files of all properties, sources and the program, again and again; and lies."""
    there = pathlib.Path(folder)

    def spoil():
        over(there / "results.json", FALSE_RESULT)
        over(there / "check.sh", "#!/bin/sh\necho 'holds: b2'\necho '3 confirmed, 0 not'\n")
        over(there / ".hwtool-flow", "hwtool-flow folder of results 1\n../precious\n")
        for it in [*there.glob("model.*"), *there.glob("b*/*"), there / "b1/witness", there / "report.html"]:
            over(it, FALSE_MODEL)
        over(pathlib.Path(program), "#!/bin/sh\necho 'holds: b2'\n")
        over(pathlib.Path(source), "module queue(input clk);\nendmodule\n")

    daemon(spoil)
    all_states(into)
    time.sleep(0.5)


def pipes_for_all(folder, into):
    """Puts pipes, links and folders in place of all files of results, and of its own output."""
    there = pathlib.Path(folder)
    for it in ["results.json", "check.sh", "report.html", "model.btor2", ".hwtool-flow", "b1", "b2/proof", "b2/witness", "b0/form.aig"]:
        with contextlib.suppress(OSError):
            if (there / it).is_dir():
                shutil.rmtree(there / it)
            (there / it).unlink(missing_ok=True)
            os.mkfifo(there / it)
    os.mkfifo("log")
    a_pipe(into)


def folders_for_all(folder, into):
    """Puts folders with something in them in place of files of results, and takes rights away."""
    there = pathlib.Path(folder)
    for it in ["results.json", "check.sh", "report.html", "model.btor2", ".hwtool-flow.part", "b1", "b2/witness"]:
        with contextlib.suppress(OSError):
            if not (there / it).is_dir():
                (there / it).unlink(missing_ok=True)
            (there / it / "in").mkdir(parents=True)
            (there / it / "in").chmod(0)
            (there / it).chmod(0)
    for it in ("b0", "b2", "."):
        (there / it).chmod(0)
    a_folder(into)


def another_folder(folder, precious, into):
    """Moves the folder of results away, and puts a link to another folder in its place."""
    os.rename(folder, folder + "-moved")
    os.symlink(precious, folder)
    all_states(into)


def links_to(folder, precious, into):
    """Puts links to files of the user in place of files of results."""
    there = pathlib.Path(folder)
    for it in ("results.json", "check.sh", "report.html", "model.btor2", ".hwtool-flow"):
        (there / it).unlink(missing_ok=True)
        (there / it).symlink_to(pathlib.Path(precious) / it)
    for it in ("b0", "b1"):
        shutil.rmtree(there / it, ignore_errors=True)
        (there / it).symlink_to(pathlib.Path(precious) / "b0")
    os.symlink(pathlib.Path(precious) / "results.json", into)


def spoil_when_there(path, into):
    """Waits for a file of another property, and writes over it."""
    wanted = pathlib.Path(path)
    while not wanted.exists():
        time.sleep(0.01)
    over(wanted, FALSE_MODEL)


def wipe_places(into):
    """Removes all places of work but its own, for a while."""
    own, until = pathlib.Path.cwd(), time.monotonic() + 1
    while time.monotonic() < until:
        for it in own.parent.glob("hwtool-flow-*"):
            if it != own:
                shutil.rmtree(it, ignore_errors=True)


def no_rights(into):
    """Leaves folders that nobody may look into, one in another, and goes without rights on its own."""
    for depth in range(1, 6):
        os.makedirs("closed/" * depth, exist_ok=True)
    pathlib.Path("closed/closed/file").write_text("")
    for depth in range(5, 0, -1):
        os.chmod("closed/" * depth, 0)
    os.mkfifo("pipe")
    socket.socket(socket.AF_UNIX).bind("socket")
    os.symlink("/", "root")
    os.chmod(".", 0)


def deep_and_many(into):
    """Leaves a tree too deep for a path, and very many files."""
    for number in range(20000):
        pathlib.Path(f"file{number}").touch()
    for _ in range(3000):
        os.mkdir("a-folder-in-a-folder")
        os.chdir("a-folder-in-a-folder")
    pathlib.Path("file").write_text("")


def bare_child(into):
    """Leaves a child with no environment, in a session of its own, whose parents are gone."""
    bare(lambda: os.execve("/bin/sleep", ["sleep", "3621"], {}))


def daemon_that_forks(into):
    """Leaves children that start others anew whenever one is killed."""
    def again():
        for _ in range(400):
            if os.fork():
                os._exit(0)
            os.setsid()
            time.sleep(0.002)
        time.sleep(3622)

    bare(again)


def kill_what_stands_around(into):
    """Kills its parent, so that nobody stands around it, and leaves children."""
    bare(lambda: os.execve("/bin/sleep", ["sleep", "3623"], {}))
    os.kill(os.getppid(), signal.SIGKILL)
    time.sleep(3624)


def stop_what_stands_around(into):
    """Stops its parent, and does not end."""
    bare(lambda: os.execve("/bin/sleep", ["sleep", "3625"], {}))
    os.kill(os.getppid(), signal.SIGSTOP)
    hang()


def say_it_holds(folder, into):
    """Writes what a check says into each process of this user that it can look into, and never ends."""
    while True:
        for it in filter(str.isdigit, os.listdir("/proc")):
            for number in (1, 2):
                with contextlib.suppress(OSError):
                    words = pathlib.Path(f"/proc/{it}/cmdline").read_bytes()
                    if b"check-" in words and b"lying_engine" not in words:
                        with open(f"/proc/{it}/fd/{number}", "r+b", buffering=0) as file:
                            file.write(b"holds: b2\n")
        no_invariant(into)


def bare(what):
    """Does something in a process whose parents are gone, in a session of its own, which holds no file of its parents."""
    if os.fork() == 0:
        os.setsid()
        if os.fork() == 0:
            os.closerange(0, 64)
            what()
        os._exit(0)
    os.wait()


def daemon(what):
    """Does something again and again, in such a process."""
    what()

    def again():
        while True:
            with contextlib.suppress(Exception):
                what()
            time.sleep(0.001)

    bare(again)


if __name__ == "__main__":
    globals()[sys.argv[1]](*sys.argv[2 : sys.argv.index("--")])
