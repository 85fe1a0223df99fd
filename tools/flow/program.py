"""The calls of `hwtool`, and what its words say. Here alone is read what a check answers."""
import contextlib
import copy
import os
import re
from dataclasses import dataclass
from pathlib import Path
from typing import BinaryIO, Callable, List, Optional, Sequence, Union

from .files import HANDED, PIECE, Changed, Held, is_sealed, nameless, open_whole, pieces, sum_of, sum_of_file, write_all
from .model import Evidence, Kind, Model
from .running import Ended, Ending, Runner, Stopped, head_of

# What a check has at least, however short the time for engines is.
LEAST_SECONDS = 60.0
DEVICE_FAILED = 3
# How a program of the machine begins, and one that a shell reads does not.
MACHINE_CODE = b"\x7fELF"
# How a value change dump begins.
TITLE = b"$comment "

# A word of a call: as it stands, or a file that no other process can change, told by its name.
Word = Union[str, Held]


class Broke(Exception):
    """A program that is relied on, or a device, failed."""


@dataclass(frozen=True)
class Said:
    """What a call of `hwtool` answered: its status, both of its outputs, and the file that it made, if it was to make one."""

    words: Sequence[str]
    status: int
    out: str
    told: str
    made: Optional[Held] = None

    @property
    def line(self) -> str:
        """Its first line."""
        return ((self.out + self.told).splitlines() or [f"status {self.status}"])[0]


@dataclass(frozen=True)
class Judged:
    """What a check said of a verdict: the call, whether it confirms the verdict, its line, and the first frame of a failure."""

    command: Sequence[str]
    confirmed: bool
    line: str
    frame: Optional[int] = None

    @property
    def check(self) -> str:
        """The check's name."""
        return self.command[0]


class Program:
    """`hwtool`, as it was when the run began, called in a folder. What a check reads is handed over as files that are open."""

    def __init__(self, path: str, runner: Runner, seconds: float) -> None:
        self.path, self.runner, self.folder = path, runner, Path("/")
        self.seconds = max(seconds, LEAST_SECONDS)
        with open_whole(path) as file:
            self.sum, is_code = sum_of(file.fileno()), os.pread(file.fileno(), len(MACHINE_CODE), 0) == MACHINE_CODE
            self._image = self._copied(file) if is_code else None

    def within(self, folder: Path) -> "Program":
        """The same, called in a folder where files have plain names."""
        found = copy.copy(self)
        found.folder = folder
        return found

    @staticmethod
    def _copied(source: BinaryIO) -> Optional[BinaryIO]:
        """A copy in memory that nobody can change or, but for root, read, so that no other process looks into its calls either."""
        image = nameless()
        for piece in pieces(source.fileno()):
            write_all(image.fileno(), piece)
        os.fchmod(image.fileno(), 0o111)
        if not is_sealed(image):
            return None
        # what is open to be written is not run
        return os.open(f"{HANDED}{image.fileno()}", os.O_PATH | os.O_CLOEXEC)

    def _run(self, words: Sequence[str], out: BinaryIO, told: BinaryIO, handed: Sequence[int]) -> Ended:
        """Runs the copy in memory; where there is none, the file, if that is what it was."""
        run, given = self.runner.run_own, [self.path, *words]
        if self._image is not None:
            with contextlib.suppress(PermissionError):
                image = f"{HANDED}{self._image}"
                return run(given, self.folder, out.fileno(), told.fileno(), self.seconds, image, [*handed, self._image])
            # a system that runs nothing from memory
            self._image = None
        if not self.is_as_it_was():
            raise Broke(f"{self.path}: was changed by another process")
        return run(given, self.folder, out.fileno(), told.fileno(), self.seconds, None, handed)

    def call(self, *words: Word, into: str = "") -> Said:
        """A call. With `into` its standard output is a file of that name. A device that failed is `Broke`."""
        out, told = nameless(), nameless()
        try:
            with contextlib.ExitStack() as stack:
                handed = {it.name: stack.enter_context(it.opened()) for it in words if isinstance(it, Held)}
                given = [f"{HANDED}{handed[it.name]}" if isinstance(it, Held) else it for it in words]
                ended = self._run(given, out, told, list(handed.values()))
        except Changed as why:
            raise Broke(str(why)) from None
        if ended.how is Ending.STOPPED:
            raise Stopped
        names = [it.name if isinstance(it, Held) else it for it in words]
        if ended.how is Ending.OUT_OF_TIME:
            return Said(names, 1, "", f"out of time, after {self.seconds:.0f} s")
        by_number = {str(number): name for name, number in handed.items()}

        def plain(text: str) -> str:
            """A text with the names of files that were handed over."""
            return re.sub(rf"{HANDED}(\d+)", lambda it: by_number.get(it[1], it[0]), text)

        made = Held(into, titled(out, plain)) if into and ended.status == 0 else None
        said = Said(names, ended.status, "" if into else plain(head_of(out.fileno())), plain(head_of(told.fileno())), made)
        if ended.status < 0 or ended.status >= DEVICE_FAILED:
            raise Broke(f"hwtool {' '.join(names)}: {ended if ended.status < 0 else said.line}")
        return said

    def version(self) -> str:
        """Its name and version."""
        return self.call("--version").line

    def is_as_it_was(self) -> bool:
        """Whether its file is still what the run began with."""
        try:
            return sum_of_file(self.path) == self.sum
        except OSError:
            return False

    # ---- what is made of a model

    def form(self, model: Model, number: int, into: str) -> Said:
        """Makes the engine form of a bad property."""
        lower = "lower" if model.kind is Kind.WORDS else "aig-convert"
        return self.call(lower, "--engine", "--bad", str(number), "--binary", model.held, into=into)

    def tidied(self, witness: Held, into: str) -> Said:
        """Makes of a witness as tools write it one in the strict form."""
        return self.call("tidy-witness", witness, into=into)

    def witness(self, model: Model, number: int, found: Held, by_abc: bool, into: str) -> Said:
        """Makes of what an engine found over the form a witness of the model."""
        back = ["lift", "--engine", "--names"] if model.kind is Kind.WORDS else ["restore"]
        form = ["--abc"] if by_abc else []
        return self.call(*back, *form, "--bad", str(number), model.held, found, into=into)

    def unfitted(self, model: Model, witness: Held, into: str) -> Optional[Held]:
        """The witness of the text that a model was fitted from which says what one of the model says, where there is one, and
        `check-btor --fit` accepts it."""
        if model.whole is None:
            return None
        found = self.call("unfit", "--names", model.whole, witness, into=into).made
        return found if found and self.call("check-btor", "--fit", model.whole, found).status == 0 else None

    def formula(self, model: Model, number: int, evidence: Evidence, certificate: Held, into: str) -> Said:
        """Makes the formula that nothing satisfies where an invariant is one, or a witness circuit guards the property."""
        return self.call("obligation", *of_kind(model, evidence), "--bad", str(number), model.held, certificate, into=into)

    def dump(self, model: Model, witness: Held, into: str) -> Said:
        """Makes a value change dump of the frames of a witness."""
        return self.call("wave", model.held, witness, into=into)

    # ---- what is judged

    def judge_failure(self, model: Model, number: int, witness: Held) -> Judged:
        """Whether a witness is one of this property: `accepted`, and the property among those that are reached."""
        check = "check-btor" if model.kind is Kind.WORDS else "check-aig"
        said = self.call(check, "--names", model.held, witness)
        reached = re.search(rf"^b{number} is reached in frame (\d+)$", said.told, flags=re.M)
        if said.status == 0 and said.out.startswith("accepted ") and reached:
            return Judged(said.words, True, said.line, int(reached[1]))
        return Judged(said.words, False, said.line + (f", but of another property than b{number}" if said.status == 0 else ""))

    def judge_holding(self, model: Model, number: int, evidence: Evidence, certificate: Held, proof: Held, has_hints: bool) -> Judged:
        """Whether an invariant or a witness circuit, and a proof, show that this property holds."""
        lrat = ["--lrat"] if has_hints else []
        said = self.call("check-proof", *of_kind(model, evidence), *lrat, "--bad", str(number), "--names", model.held, certificate, proof)
        return Judged(said.words, said.status == 0 and said.out.splitlines()[:1] == [f"holds: b{number}"], said.line)


def titled(made: BinaryIO, plain: Callable[[str], str]) -> BinaryIO:
    """What a call made. A dump has the names of files in its first line, where they stand as they are told."""
    first = os.pread(made.fileno(), PIECE, 0).partition(b"\n")[0]
    if not first.startswith(TITLE):
        return made
    found = nameless()
    write_all(found.fileno(), plain(first.decode("utf-8", "replace")).encode())
    for piece in pieces(made.fileno(), len(first)):
        write_all(found.fileno(), piece)
    return found


def of_kind(model: Model, evidence: Evidence) -> List[str]:
    """The words that say what a certificate is, and what it is over."""
    over_form = ["--circuit", "--engine"] if evidence is Evidence.WITNESS_CIRCUIT else []
    return [*over_form, *(["--aiger"] if model.kind is Kind.CIRCUIT else [])]
