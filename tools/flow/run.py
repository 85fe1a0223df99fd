"""A run: what is there for it, its properties side by side, and what is told and kept of them."""
import argparse
import concurrent.futures
import contextlib
import enum
import os
import shutil
import sys
from dataclasses import dataclass
from pathlib import Path
from typing import Any, Callable, Dict, Iterator, List, Optional

from . import engines
from .engines import Engine, WordsRefused
from .asking import Asker
from .check_script import script
from .files import HANDED, place_of_work, sum_of_file
from .findings import Finding, count_of
from .folders import Folder
from .model import Design, Property, Role, Verdict
from .names import printable
from .program import Broke, Program
from .proving import FILES, Prover
from .reading import Reader
from .report import page
from .results import CHECK, REPORT, RESULTS, Outcome, Results, Source, Tool, told_before, written
from .running import Runner
from .summary import as_json, found, known_of
from .telling import Teller, head_lines, summary
from .verilog import Wanted

Pool = concurrent.futures.ThreadPoolExecutor

# How often the lines of running properties are written anew, in seconds.
REDRAWN = 0.2


class Status(enum.IntEnum):
    """The exit statuses."""

    ALL_HOLD = 0
    ONE_FAILS = 1
    INPUT_REFUSED = 2
    BROKE = 3
    WORDS_REFUSED = 4
    SOME_OPEN = 5


def program_named(word: Optional[str]) -> str:
    """The program that checks: the one that is named, else one that stands beside this, or on the path, or was released."""
    here = Path(sys.argv[0]).resolve().parent
    for it in [word] if word else [str(here / "hwtool"), "hwtool", str(here.parent / "release" / "hwtool")]:
        found = shutil.which(it)
        if found:
            return os.path.abspath(found)
    raise Broke(f"{word or 'hwtool'}: not there, or no program")


@dataclass(frozen=True)
class Tools:
    """The programs of a run that are there, and what to say of those that are not."""

    program: str
    engines: List[Engine]
    solver: Optional[Engine]
    missing: List[str]

    @staticmethod
    def found(words: argparse.Namespace, runner: Runner) -> "Tools":
        """What the words name, or else the tables; where no engine is there, nothing can be done."""
        wanted = [engines.engine_named(it) for it in words.engine] if words.engine else engines.ENGINES
        solvers = engines.solvers_named(words.solver) if words.solver else engines.SOLVERS
        there = [it for it in wanted if engines.is_there(it, runner)]
        solver = next((it for it in solvers if engines.is_there(it, runner)), None)
        missing = sorted({engines.missing_line(it.command[0]) for it in wanted if it not in there})
        if solver is None:
            missing.append(engines.missing_line(solvers[0].command[0]) + "; nothing is proved to hold without a solver")
        if not there:
            raise Broke("; ".join(missing))
        return Tools(program_named(words.hwtool), there, solver, missing)

    def told(self, runner: Runner, by_yosys: bool) -> List[Tool]:
        """What results.json tells of the engines and the solver, and of Yosys where that made the model."""
        used = [(it.name, engines.program_of(it)) for it in [*self.engines, *([self.solver] if self.solver else [])]]
        used += [("yosys", shutil.which("yosys"))] if by_yosys else []
        versions = {program: engines.version_of(program, runner) for program in {it for _, it in used if it}}
        return [Tool(name, program, sum_if_readable(program), versions[program]) for name, program in used if program]


def sum_if_readable(program: str) -> str:
    """The sum of a program, which may be one that can be run and not read."""
    try:
        return sum_of_file(program)
    except OSError:
        return ""


def inputs_of(words: argparse.Namespace) -> List[Path]:
    """The files that a run reads."""
    return [*words.design, *filter(None, [words.yosys, words.read])]


def wanted_of(words: argparse.Namespace) -> Wanted:
    """What the words say of a design."""
    return Wanted(
        words.design,
        words.top,
        words.yosys,
        words.read,
        words.include,
        words.define,
        words.param,
        words.clocked_resets,
        words.zero_undefined,
    )


class Run:
    """One run over a design, in its folder of results."""

    def __init__(self, words: argparse.Namespace, runner: Runner, folder: Folder, tools: Tools) -> None:
        self.words, self.runner, self.folder, self.tools = words, runner, folder, tools
        self.program = Program(tools.program, runner, words.timeout)
        self.frames = words.frames or words.depth
        # with --json standard output is for that alone
        self.into = sys.stderr if words.json else sys.stdout
        self.name = " ".join(printable(str(it)) for it in words.design or [words.read])
        self.sources = [Source.of(it) for it in inputs_of(words)]
        self.parts = [Source.of(it) for it in sorted(Path(__file__).parent.glob("*.*"))]

    def status(self) -> Status:
        """Reads the design, works on its properties, and tells and keeps what came of it."""
        for line in self.tools.missing:
            self.note(line)
        program = Tool("hwtool", self.program.path, self.program.sum, self.program.version())
        design = self.design()
        properties = self.chosen(design)
        teller = Teller(self.into, [str(it) for it in properties])
        for line in head_lines(self.name, design):
            teller.say(line)
        tools = self.tools.told(self.runner, bool(design.steps))
        outcomes = {it.key: Outcome(it) for it in design.properties}
        results = Results(self.name, self.sources, program, tools, design, outcomes, self.frames)
        self.work(results, properties, teller)
        if self.words.json:
            sys.stdout.write(as_json(results))
        told = [found(it, results) for it in properties]
        teller.say(summary(told, results, self.is_whole(), str(self.folder.path)))
        return self.status_of(told, results)

    def is_whole(self) -> bool:
        """Whether all of the design is asked about."""
        return not self.words.property

    def note(self, line: str) -> None:
        """Tells something beside the results."""
        print(f"hwtool-flow: {line}", file=sys.stderr, flush=True)

    def design(self) -> Design:
        """The design. From here on nothing is read of it but what this holds."""
        with place_of_work(self.runner.stopping.is_set, self.note) as place, self.runner.at_once():
            work = place.path / "reading"
            work.mkdir()
            program = self.program.within(place.path)
            design = Reader(wanted_of(self.words), program, self.runner, work, self.frames, self.note).design().taken()
        for it in self.sources:
            if not it.is_as_it_was():
                raise Broke(f"{it.path}: was changed while it was read")
        return design

    def adopted(self, design: Design) -> Dict[str, Dict[str, Any]]:
        """What an earlier run told of each property of the same texts; of others all that was made is removed."""
        keys, texts = [it.key for it in design.properties], [one.name for it in design.texts for one in it.kept]
        self.folder.claim([RESULTS, CHECK, REPORT, *texts, *keys, *(f"{key}/{name}" for key in keys for name in FILES)])
        told = told_before(self.folder, design)
        if told is None:
            self.folder.clear()
        for it in design.texts:
            for one in it.kept:
                self.folder.write(one, for_good=True)
        return told or {}

    def chosen(self, design: Design) -> List[Property]:
        """The properties that the words name, or all."""
        if not self.words.property:
            return design.properties
        for word in self.words.property:
            if not any(it.is_named(word) for it in design.properties):
                raise WordsRefused(f"no property {word}; there are {', '.join(map(str, design.properties))}")
        return [it for it in design.properties if any(it.is_named(word) for word in self.words.property)]

    def provers(self, design: Design) -> Dict[Role, Prover]:
        """What works on the properties of each text."""
        tools, words, found = self.tools, self.words, {}
        for it in design.texts:
            depth = max(words.depth, self.frames + design.ahead) if it.role is Role.FRAMES else words.depth + design.ahead
            found[it.role] = Prover(
                it, self.folder, self.program, self.runner, tools.engines, tools.solver, depth, words.timeout, design.clock
            )
        return found

    def work(self, results: Results, properties: List[Property], teller: Teller) -> None:
        """Confirms again what an earlier run found, works on the others, so many side by side, and keeps what came of it."""
        told = self.adopted(results.design)
        asker = Asker(results.design, self.provers(results.design), results.outcomes)
        # until the checks have answered, results.json stays as it is
        self.confirm_again(asker, results, told)
        try:
            self.keep(results)
            self.prove(asker, results, properties, teller)
        finally:
            teller.clear()
            self.settle(results)
        with self.runner.at_once():
            self.folder.write(written(REPORT, page(results, Path(f"{HANDED}{self.folder.at}"))))

    @contextlib.contextmanager
    def workers(self) -> Iterator[Pool]:
        """What works on so many properties side by side. Whatever goes wrong, nothing goes on behind it."""
        with Pool(self.words.jobs) as pool:
            try:
                yield pool
            except BaseException:
                self.runner.stopping.set()
                raise

    def confirm_again(self, asker: Asker, results: Results, told: Dict[str, Dict[str, Any]]) -> None:
        """Asks the checks about all that an earlier run found."""
        known = [it for text in results.design.texts for it in text.properties if it.key in told]
        with self.workers() as pool:
            for outcome in pool.map(lambda it: asker.provers[it.role].confirm_again(it, told[it.key]), known):
                if outcome:
                    results.outcomes[outcome.property.key] = outcome

    def prove(self, asker: Asker, results: Results, properties: List[Property], teller: Teller) -> None:
        """Asks about the assumptions first, and about properties, and keeps and tells what comes of them."""
        with self.workers() as pool:
            first = pool.submit(self.assumptions_asked, asker, results, teller)
            waiting = {first, *(pool.submit(self.property_asked, it, asker, results, teller) for it in properties)}
            later: List[Callable[[], None]] = []
            while waiting:
                done, waiting = concurrent.futures.wait(waiting, REDRAWN, concurrent.futures.FIRST_COMPLETED)
                # what a property comes to is told behind what the assumptions do
                later = [it.result() for it in done if it is first] + later + [it.result() for it in done if it is not first]
                if first not in waiting:
                    for tell in later:
                        tell()
                    later = []
                if done:
                    self.keep(results)
                self.tell_notes(teller)
                teller.show(asker.shown(), len(waiting))

    def assumptions_asked(self, asker: Asker, results: Results, teller: Teller) -> Callable[[], None]:
        """Asks about the assumptions; what tells of it."""
        asker.assumptions(self.frames)
        known = known_of(results)
        return lambda: teller.assumed(known) if known else None

    def property_asked(self, it: Property, asker: Asker, results: Results, teller: Teller) -> Callable[[], None]:
        """Asks about a property; what tells of it."""
        asker.property(it)
        return lambda: teller.done(found(it, results), results.design)

    def keep(self, results: Results) -> None:
        """Writes what came of all properties so far."""
        self.folder.write(written(RESULTS, as_json(results)))
        self.folder.write(written(CHECK, script(results, self.folder.path)), executable=True)

    def settle(self, results: Results) -> None:
        """Once nothing else runs: has what is kept be what was judged, and withdraws a verdict of which that cannot be had."""
        self.runner.end_strays()
        lost = self.folder.settle()
        for it in list(results.outcomes.values()):
            spoilt = [name for name in lost if name in it.files]
            if spoilt:
                broke = f"{spoilt[0]}: another process spoilt what was judged"
                results.outcomes[it.property.key] = Outcome(it.property, tries=it.tries, broke=broke)
        self.keep(results)
        for it in [*self.sources, *self.parts]:
            if not it.is_as_it_was():
                self.folder.notes.append(f"{it.path}: was changed while this went on; the verdicts are of what was read before")
        if not self.program.is_as_it_was():
            self.folder.notes.append(f"{self.program.path}: was changed while this went on; the verdicts are by what it was before")

    def tell_notes(self, teller: Teller) -> None:
        """Tells what other processes spoilt."""
        while self.folder.notes:
            teller.clear()
            self.note(self.folder.notes.pop(0))

    def status_of(self, told: List[Finding], results: Results) -> Status:
        """The exit status."""
        if count_of(told, Verdict.FAILS):
            return Status.ONE_FAILS
        if count_of(told, Verdict.OPEN) and (self.tools.missing or any(it.outcome.broke for it in told)):
            return Status.BROKE
        known = known_of(results)
        left = count_of(told, Verdict.VACUOUS, Verdict.NEVER) or not all(it.is_settled for it in told)
        apart = self.is_whole() and results.design.not_judged
        return Status.SOME_OPEN if left or apart or known and not known.is_settled else Status.ALL_HOLD
