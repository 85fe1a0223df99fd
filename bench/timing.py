"""What the scripts here share: words of the command line, runs of programs, and rows of tables.

Ours is the program that the launcher builds; another program with the same commands may be timed beside it, in turns.
"""

import argparse
import os
import sys

# Of each program so many runs at least, and of short ones more, for half a second.
ROUNDS = 5
ENOUGH = 0.5
TOP = os.path.normpath(os.path.join(os.path.dirname(os.path.abspath(__file__)), ".."))
OURS = os.path.join(TOP, "crates", "hwtool", "out", "hwtool")


def words(about, *positional, other=None):
    """The words of a script that says what it does and ends where there are none.

    `positional` are pairs of a name and what is passed on to `add_argument`; `other` says what another program takes.
    """
    parser = argparse.ArgumentParser(description=about, formatter_class=argparse.RawDescriptionHelpFormatter)
    for name, more in positional:
        parser.add_argument(name, **more)
    if other:
        parser.add_argument("--other", metavar="PROGRAM", help=f"another program that takes {other}, timed beside ours")
    if len(sys.argv) == 1:
        parser.print_help()
        sys.exit(0)
    given = parser.parse_args()
    if getattr(given, "other", None) and not os.access(given.other, os.X_OK):
        parser.error(f"{given.other} is no program")
    return given


RUN = ("run", {"choices": ["run"], "help": "do it; this takes some minutes"})


def ours():
    """Our program, which must have been built."""
    if not os.access(OURS, os.X_OK):
        sys.exit("our program is not built yet: `./hwtool --version` at the top builds it")
    return OURS


def measure(command, wanted=0):
    """Processor seconds (user and system) and peak memory in MB of one run with this status, whose output is thrown away.

    It is spawned, since a process that is forked off this one pays for this one's pages, a millisecond and a half.
    """
    nowhere = [(os.POSIX_SPAWN_OPEN, it, os.devnull, os.O_WRONLY, 0) for it in (1, 2)[: 1 + wanted]]
    child = os.posix_spawnp(command[0], command, os.environ, file_actions=nowhere)
    _, status, used = os.wait4(child, 0)
    if os.waitstatus_to_exitcode(status) != wanted:
        sys.exit(f"{' '.join(command)}: status {os.waitstatus_to_exitcode(status)}")
    return used.ru_utime + used.ru_stime, used.ru_maxrss / 1024


def head(name, count, other):
    """The head of a table of such rows, where our program is there to fill it."""
    ours()
    cells = [name, count, "Time", "Memory"]
    if other:
        cells = [name, count, "Time", "Other", "Ratio", "Memory", "Other", "Ratio"]
    return f"| {' | '.join(cells)} |\n|{'---|' * len(cells)}"


def row(name, count, other, arguments, status=0, others=None):
    """The row of a table: the least time and the greatest memory of each program, in turns, with these arguments and status.

    `others` are the arguments of the other program, where it takes others.
    """
    best, taken, rounds = {}, 0, 0
    while rounds < ROUNDS or taken < ENOUGH:
        rounds += 1
        for program, given in [(ours(), arguments)] + ([(other, others or arguments)] if other else []):
            seconds, memory = measure([program, *given], status)
            taken += seconds
            least, most = best.get(program, (seconds, memory))
            best[program] = (min(least, seconds), max(most, memory))
    seconds, memory = best[ours()]
    if not other:
        return f"| {name} | {count:,} | {shown(seconds)} | {memory:.0f} MB |"
    their_seconds, their_memory = best[other]
    return (
        f"| {name} | {count:,} | {shown(seconds)} | {shown(their_seconds)} | {ratio(seconds, their_seconds)} "
        f"| {memory:.0f} MB | {their_memory:.0f} MB | {ratio(memory, their_memory)} |"
    )


def shown(seconds):
    """A time, in milliseconds where it is short."""
    return f"{seconds:.2f} s" if seconds >= 0.1 else f"{seconds * 1000:.2f} ms"


def ratio(one, other):
    """How often the other goes into the one; nothing where the other is too small to be seen."""
    return f"{one / other:.2f}" if other else ""


if __name__ == "__main__":
    print(__doc__.strip())
