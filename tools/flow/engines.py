"""The engines and solvers that hwtool-flow knows, and those that its words name.

A new engine is a line of ENGINES. Its command is given in words, and the words say by their placeholders what it is handed and
what it gives. It runs in a folder of its own, in which nothing else is.
"""
import enum
import os
import re
import shlex
import shutil
from dataclasses import dataclass
from pathlib import Path
from typing import Dict, List, Optional, Sequence

from .files import nameless
from .model import Evidence, Verdict
from .running import Runner, head_of


class WordsRefused(Exception):
    """The words of the command line are refused."""


class InputRefused(Exception):
    """The design is refused."""


class Gives(enum.Enum):
    """What an engine may write, by the placeholder for the file in its command."""

    # a counterexample over the engine form, as ABC's `write_cex -a` writes it
    ABC_COUNTEREXAMPLE = "counterexample"
    # a witness of the engine form, as the AIGER format has it
    FORM_WITNESS = "witness"
    # a witness of the model, as the BTOR2 format has it
    MODEL_WITNESS = "model_witness"
    # an invariant over the engine form, as ABC's `pdr -d -I` writes it
    INVARIANT = "invariant"
    # a witness circuit of the engine form, as the AIGER format has it
    WITNESS_CIRCUIT = "witness_circuit"

    @property
    def evidence(self) -> Evidence:
        """What a check is handed of it."""
        certificates = {Gives.INVARIANT: Evidence.INVARIANT, Gives.WITNESS_CIRCUIT: Evidence.WITNESS_CIRCUIT}
        return certificates.get(self, Evidence.WITNESS)

    @property
    def claims(self) -> Verdict:
        """What it claims of the property."""
        return self.evidence.shows


class Handed(enum.Enum):
    """What an engine or a solver may be handed, by its placeholder."""

    FORM = "form"
    MODEL = "model"
    FORMULA = "formula"
    PROOF = "proof"
    HINTED_PROOF = "hinted_proof"
    BAD = "bad"
    DEPTH = "depth"
    SECONDS = "seconds"


@dataclass(frozen=True)
class Engine:
    """An engine: its words, its part of the time that is left, and what in its output tells how far it is.

    Where `proves` is said, what it writes of a property that holds is a claim only with these words in its output. Where `option` is
    said, only a program whose help names it is one.
    """

    name: str
    command: Sequence[str]
    weight: int = 1
    progress: str = r"^\s*(\d+) [+:]"
    proves: str = ""
    option: str = ""

    def placeholders(self) -> List[str]:
        """The placeholders in its words."""
        return [name for word in self.command for name in re.findall(r"\{(\w+)\}", word)]

    def gives(self) -> List[Gives]:
        """What it writes into files; where there are none, its standard output is a witness of what it is handed."""
        return [it for it in Gives if it.value in self.placeholders()]

    def says(self) -> Gives:
        """What its standard output is, where it writes no files."""
        return Gives.MODEL_WITNESS if Handed.MODEL.value in self.placeholders() else Gives.FORM_WITNESS

    def filled(self, values: Dict[str, str]) -> List[str]:
        """Its program, and its words with values for the placeholders."""
        words = [re.sub(r"\{(\w+)\}", lambda found: values[found[1]], word) for word in self.command[1:]]
        return [program_of(self) or self.command[0], *words]

    def frame_in(self, text: str) -> Optional[int]:
        """The last frame that it tells in its output, if any."""
        found = re.findall(self.progress, text, flags=re.M)
        return int(found[-1]) if found else None


def abc(name: str, steps: str, weight: int) -> Engine:
    """An engine of ABC, which is handed the engine form in every case."""
    return Engine(
        name, ["berkeley-abc", "-q", f"read_aiger {{form}}; {steps}; write_cex -a {{counterexample}}"], weight, proves="Property proved"
    )


# Tried in this order. Each has its part of the time that is left: its weight among its own and those behind it.
ENGINES = [
    abc("bmc3", "bmc3 -v -F {depth} -T {seconds}", 2),
    abc("pdr", "strash; pdr -v -T {seconds} -d -I {invariant}", 5),
    abc("scorr_pdr", "strash; scorr; pdr -v -T {seconds} -d -I {invariant}", 2),
    abc("sim3", "sim3 -F {depth} -T {seconds}", 1),
]

# Any of these that is there makes proofs; the first is taken.
SOLVERS = [
    Engine("cadical", ["cadical", "-q", "--lrat", "--no-binary", "{formula}", "{hinted_proof}"], option="--lrat"),
    Engine("cadical", ["cadical", "-q", "--no-binary", "{formula}", "{proof}"]),
    Engine("kissat", ["kissat", "-q", "--no-binary", "{formula}", "{proof}"]),
]

# By which names a program may be on the path.
NAMES = {"berkeley-abc": ["berkeley-abc", "abc", "yosys-abc"]}

# The words by which a program of the tables tells its version.
VERSIONS = {
    "yosys": ["-V"],
    "berkeley-abc": ["-q", "version"],
    "abc": ["-q", "version"],
    "yosys-abc": ["-q", "version"],
    "cadical": ["--version"],
    "kissat": ["--version"],
}
# How long a program has for that, and for its help, in seconds.
VERSION_SECONDS = 10.0

# The Debian package that has a program.
PACKAGES = {"yosys": "yosys", "berkeley-abc": "berkeley-abc", "cadical": "cadical"}

ENGINE_WORDS = {it.value for it in Gives} | {it.value for it in (Handed.FORM, Handed.MODEL, Handed.BAD, Handed.DEPTH, Handed.SECONDS)}
# The proof that a solver writes, in DRAT or in LRAT.
PROOFS = {it.value for it in (Handed.PROOF, Handed.HINTED_PROOF)}
SOLVER_WORDS = {it.value for it in (Handed.FORMULA, Handed.SECONDS)} | PROOFS


def names_of(table: Sequence[Engine]) -> str:
    """The names of a table."""
    return ", ".join(dict.fromkeys(it.name for it in table))


def named(word: str, table: Sequence[Engine], known: set, needed: set) -> List[Engine]:
    """Engines by their name in a table, or one by NAME=COMMAND, whose placeholders must be known, one of some among them."""
    name, equals, command = word.partition("=")
    if not equals:
        found = [it for it in table if it.name == name]
        if not found:
            raise WordsRefused(f"{name}: not one of {names_of(table)}, and no NAME=COMMAND")
        return found
    try:
        engine = Engine(name, shlex.split(command))
    except ValueError as fault:
        raise WordsRefused(f"{word}: {fault}") from None
    strange = [it for it in engine.placeholders() if it not in known]
    if not re.fullmatch(r"[\w.-]+", name) or not engine.command or strange:
        raise WordsRefused(f"{word}: {'no placeholder {' + strange[0] + '}' if strange else 'a name of letters and digits, =, a command'}")
    if not needed & set(engine.placeholders()):
        raise WordsRefused(f"{word}: none of {', '.join('{' + it + '}' for it in sorted(needed))} is in the command")
    return [engine]


def engine_named(word: str) -> Engine:
    """An engine of the table, or one of the command line."""
    return named(word, ENGINES, ENGINE_WORDS, {Handed.FORM.value, Handed.MODEL.value})[0]


def solvers_named(word: str) -> List[Engine]:
    """The solvers of the table with a name, or one of the command line."""
    return named(word, SOLVERS, SOLVER_WORDS, PROOFS)


def program_of(engine: Engine) -> Optional[str]:
    """Where the program of an engine stands, so that it can be run from any folder; nothing where it is not there."""
    name = engine.command[0]
    found = next(filter(None, map(shutil.which, NAMES.get(name, [name]))), None)
    return os.path.abspath(found) if found else None


def is_there(engine: Engine, runner: Runner) -> bool:
    """Whether the program of an engine can be run, and its help names the option that is asked of it, if one is."""
    program = program_of(engine)
    if program is None or not engine.option:
        return program is not None
    return re.search(rf"(?<![\w-]){re.escape(engine.option)}(?![\w-])", said_by([program, "--help"], runner)) is not None


def missing_line(program: str) -> str:
    """What to say of a program that is not there."""
    package = PACKAGES.get(program)
    return f"{program}: not on the path" + (f"; Debian has it as {package}: apt-get install {package}" if package else "")


def said_by(words: Sequence[str], runner: Runner) -> str:
    """What a program says that does well; of another one nothing."""
    with nameless() as said:
        ended = runner.run_own(words, Path("/"), said.fileno(), said.fileno(), VERSION_SECONDS)
        return head_of(said.fileno()) if ended.status == 0 else ""


def version_of(program: str, runner: Runner) -> str:
    """The version of a program of the tables by its own word, in its last line; of another program nothing is asked."""
    words = VERSIONS.get(os.path.basename(program))
    lines = said_by([program, *words], runner).split("\n") if words else []
    return next((it.strip() for it in reversed(lines) if it.strip()), "")
