"""Runs of Yosys: their steps, what it warns of, and what is said where it ends badly."""
import contextlib
import re
import shutil
import threading
from pathlib import Path
from typing import Callable, Iterator, List, Optional, Sequence, Tuple

from .engines import InputRefused, missing_line
from .names import PLACE_END, Names
from .program import Broke
from .running import Ended, Ending, Runner, Stopped, tail_of

WARNING = re.compile(r"((?:\S+:\d+: )?)Warning: (.*)")
# What is no warning of the design: steps that select what it need not have.
OF_STEPS = re.compile(r"did not match any|^Selection ")
# A warning of what Yosys made itself, of which the design knows nothing: words of a memory beyond its last one.
OF_YOSYS = re.compile(r"No driver for signal \$")
# Warnings of what makes the model another design's.
REFUSED = re.compile(r"multiple conflicting drivers|found logic loop|Driver-driver conflict|is driving constant bits")
# Assertions that this Yosys does not read, in a text that it found at fault.
NOT_READ = re.compile(
    r"property\s*\(\s*(@|disable)|\|->|\|=>|\belse\s*\$|\bendproperty\b|\bendclocking\b|\bendsequence\b|\bendchecker\b"
    r"|\bdefault\s+(clocking|disable)\b|##\s*[\d\[]|\b(until|nexttime|always|s_always|strong|weak|implies|iff|inside|let)\b\s*[\[(]"
    r"|\b(assert|assume|cover)\b.*\b(until|nexttime|implies|iff|inside|not)\b|\b(assert|assume|cover)\b\s*#0"
)
ASSERTIONS = "docs/FLOW.md has a table of the assertions that Yosys takes, with what to write in place of others"
# How many lines before and behind the place of a fault are looked at for such assertions.
AROUND = 3
# How many lines of a warning are told.
MOST_LINES = 4
# When a run is told as slow.
SLOW_SECONDS = 60
SLOW = (
    "yosys ({name}) has taken {seconds} s so far: a memory becomes a register for each word, and multipliers and dividers are large; "
    "smaller parameters (--param) make a smaller model"
)


class Yosys:
    """Runs steps, with the names of the user's files made plain, and keeps what is warned of, each once."""

    def __init__(self, runner: Runner, names: Names, design: str, slow: Callable[[str], None]) -> None:
        self.runner, self.names, self.design, self.slow = runner, names, design, slow
        self.warnings: List[str] = []

    def run(self, name: str, steps: Sequence[str], warns: bool = True) -> Path:
        """Runs steps; answers the file of what Yosys said."""
        if shutil.which("yosys") is None:
            raise Broke(missing_line("yosys"))
        script, log = Path(self.names.own(f"{name}.ys")), Path(self.names.own(f"{name}.log"))
        script.write_text("\n".join(steps) + "\n", encoding="utf-8", errors="surrogateescape")
        with self._told_where_slow(name):
            ended = self.runner.run(["yosys", "-QT", "-s", str(script)], Path.cwd(), log, None, None, None, self.names.folder)
        if ended.how is Ending.STOPPED:
            raise Stopped
        if ended.status != 0:
            raise self._fault(ended, tail_of(log))
        if warns:
            self._warn(lines_of(log))
        return log

    @contextlib.contextmanager
    def _told_where_slow(self, name: str) -> Iterator[None]:
        """Tells what may take so long, where Yosys says nothing for a while."""
        timer = threading.Timer(SLOW_SECONDS, self.slow, [SLOW.format(name=name, seconds=SLOW_SECONDS)])
        timer.daemon = True
        timer.start()
        try:
            yield
        finally:
            timer.cancel()

    def _warn(self, log: Iterator[str]) -> None:
        """Keeps the warnings of a run; those that say that the model is another design's are refusals."""
        for found, more in warnings_in(log):
            if OF_STEPS.search(found[2]) or OF_YOSYS.match(found[2]):
                continue
            text = self.names.told(" ".join([found[1] + found[2].rstrip(), *more]))
            if REFUSED.search(text):
                raise InputRefused(f"{self.design}: yosys: {text}")
            if text not in self.warnings:
                self.warnings.append(text)

    def _fault(self, ended: Ended, log: str) -> Exception:
        """What to say of a run that did not do well: refused where Yosys says why."""
        errors = re.findall(r"^.*ERROR: .*", log, flags=re.M)
        if not errors or ended.status < 0:
            return Broke(f"yosys: {ended}: {log.strip()[-200:]}")
        error = self.names.told(errors[-1])
        return InputRefused("; ".join([f"{self.design}: yosys: {error}", *self._shown(errors[-1])]))

    def _shown(self, error: str) -> List[str]:
        """The line of the source that an error is about, and where to look if it is an assertion."""
        place = re.match(rf"(.*?){PLACE_END}: ERROR: ", error)
        text = self._text_of(place[1]) if place else None
        if place is None or text is None:
            return []
        number = int(re.findall(r":(\d+)", place[0])[-1])
        lines = text.split("\n")
        said = [f"that line is `{' '.join(lines[number - 1].split())}`"] if 0 < number <= len(lines) else []
        near = "\n".join(lines[max(0, number - 1 - AROUND) : number + AROUND])
        return said + ([ASSERTIONS] if "syntax error" in error and NOT_READ.search(near) else [])

    @staticmethod
    def _text_of(name: str) -> Optional[str]:
        """The text of a file that Yosys names."""
        try:
            return Path(name).read_text(encoding="utf-8", errors="replace") if Path(name).is_file() else None
        except OSError:
            return None


def warnings_in(log: Iterator[str]) -> Iterator[Tuple["re.Match[str]", List[str]]]:
    """The warnings in what Yosys says, each with the lines that go on with it, which are indented."""
    found, more = None, []
    for line in log:
        if found and line.startswith("    ") and len(more) < MOST_LINES:
            more.append(line.strip())
            continue
        if found:
            yield found, more
        found, more = WARNING.search(line), []
    if found:
        yield found, more


def lines_of(path: Path) -> Iterator[str]:
    """The lines of a file, whatever bytes are in it."""
    with open(path, encoding="utf-8", errors="replace") as file:
        yield from file


def text_of(path: Path) -> str:
    """The text of a file, in which each byte that is no sign stands for itself."""
    return path.read_text(encoding="utf-8", errors="surrogateescape")
