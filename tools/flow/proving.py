"""One property: engines are tried in order, and what they claim is checked. Who claims what is not confirmed costs its time."""
import contextlib
import os
import threading
import time
from dataclasses import dataclass, field
from pathlib import Path
from typing import Any, BinaryIO, ContextManager, Dict, Iterator, List, Optional, Tuple

from .engines import Engine, Gives, Handed
from .files import HANDED, SPOILT, Held, Place, nameless, place_of_work
from .folders import Folder
from .model import Evidence, Kind, Model, Property, Verdict
from .program import Broke, Judged, Program, Said
from .results import Claim, Outcome, Try, tries_of_json, written
from .running import Ended, Ending, Runner, Stopped, tail_of
from .waves import read_dump, saved_file, shown

# What an engine, and what a solver, may write into one file.
ENGINE_BYTES = 64 << 20
SOLVER_BYTES = 4 << 30
# How much of an engine's last words is told.
MOST_WORDS = 200
FORM, DUMP, SAVED, FORMULA, PROOF, HINTED_PROOF = "form.aig", "dump.vcd", "dump.gtkw", "formula.cnf", "proof", "proof.lrat"
WITNESS = Evidence.WITNESS.value
# That of the text that a model was fitted from.
WHOLE_WITNESS = "whole-witness"
# How the first frame of a dump begins.
FIRST_FRAME = b"\n#"
# The files of a property.
FILES = [FORM, DUMP, SAVED, FORMULA, PROOF, WHOLE_WITNESS, *(it.value for it in Evidence)]


@dataclass
class Running:
    """A property that is being worked on: since when, by what, and where that tells how far it is."""

    property: Property
    began: float = field(default_factory=time.monotonic)
    engine: Optional[Engine] = None
    log: Optional[BinaryIO] = None

    def how_far(self) -> str:
        """By what it is being worked on, for how long, and in which frame that is."""
        if self.engine is None:
            return f"{time.monotonic() - self.began:.0f} s"
        log = self.log
        try:
            frame = self.engine.frame_in(tail_of(log.fileno())) if log else None
        except ValueError:
            # it was closed meanwhile
            frame = None
        return f"{self.engine.name}, {time.monotonic() - self.began:.0f} s" + (f", frame {frame}" if frame is not None else "")


@dataclass
class Prover:
    """All that properties of one model are worked on with."""

    model: Model
    folder: Folder
    program: Program
    runner: Runner
    engines: List[Engine]
    solver: Optional[Engine]
    depth: int
    timeout: float
    # the design's one clock, of which a picture says no more than its frames
    clock: str = ""
    # what is being worked on, by number, for whoever shows it
    running: Dict[int, Running] = field(default_factory=dict)
    lock: threading.Lock = field(default_factory=threading.Lock)

    def prove(self, it: Property) -> Outcome:
        """What comes of a property."""
        if self.runner.stopping.is_set():
            raise Stopped
        job = Job(self, it)
        with self.lock:
            self.running[it.number] = job.shown
        try:
            return job.outcome()
        finally:
            with self.lock:
                del self.running[it.number]

    def shown(self) -> List[Running]:
        """The properties that are being worked on, in order."""
        with self.lock:
            return [self.running[it] for it in sorted(self.running)]

    def confirm_again(self, it: Property, told: Dict[str, Any]) -> Optional[Outcome]:
        """What an earlier run told of a property, where its check says so now; nothing where it does not."""
        job = Job(self, it)
        seconds = told.get("seconds")
        seconds = seconds if isinstance(seconds, float) else 0.0
        try:
            for evidence in [one for one in Evidence if one.shows.value == told.get("judged")]:
                grounds = job.kept_before(evidence)
                judged = job.judge(grounds) if grounds else None
                if grounds and judged and judged.confirmed:
                    return job.confirmed(grounds, judged, str(told.get("engine")), seconds, tries_of_json(told))
        except Broke:
            pass
        return None


@dataclass
class Attempt:
    """A run of an engine, and the judgement that confirms what it claimed, if one does."""

    what: Try
    judged: Optional[Judged] = None
    grounds: Optional["Grounds"] = None


@dataclass(frozen=True)
class Grounds:
    """What shows a verdict, as a check reads it: a witness, or a certificate with its proof."""

    evidence: Evidence
    text: Held
    proof: Optional[Held] = None


class NotMade(Exception):
    """What a check would read could not be made, by which call."""

    def __init__(self, call: str, line: str) -> None:
        super().__init__(line)
        self.call = call


class Job:
    """The work on one property. What checks read is held where no engine can change it, and written into the results at the end."""

    def __init__(self, prover: Prover, it: Property) -> None:
        self.prover, self.property, self.program, self.model = prover, it, prover.program, prover.model
        self.shown = Running(it)
        self._form: Optional[Held] = None

    def name(self, file: str) -> str:
        """A file of its results."""
        return f"{self.property.key}/{file}"

    def outcome(self) -> Outcome:
        """Tries the engines, each for its part of the time that is left, until a check confirms what one claims."""
        began, tries = time.monotonic(), []
        try:
            form = self.form()
            for engine, seconds in self.shares(began + self.prover.timeout):
                done = self.attempt(engine, form, seconds, began + self.prover.timeout)
                tries.append(done.what)
                if done.judged and done.grounds:
                    return self.confirmed(done.grounds, done.judged, engine.name, time.monotonic() - began, tries)
            files = self.prover.folder.keep(self.property.key, [form])
            return Outcome(self.property, seconds=time.monotonic() - began, tries=tries, files=files)
        except Broke as fault:
            return Outcome(self.property, seconds=time.monotonic() - began, tries=tries, broke=str(fault))

    def confirmed(self, grounds: Grounds, judged: Judged, engine: str, seconds: float, tries: List[Try]) -> Outcome:
        """The outcome of a property whose verdict a check has confirmed, with its files written."""
        files = self.prover.folder.keep(self.property.key, [self.form(), *self.beside(grounds)])
        verdict = grounds.evidence.shows
        return Outcome(self.property, verdict, judged.frame, engine, seconds, judged.check, judged.command, judged.line, tries, files)

    def form(self) -> Held:
        """The engine form, which is made once."""
        if self._form is None:
            said = self.program.form(self.model, self.property.number, self.name(FORM))
            if said.made is None:
                raise Broke(said.line)
            self._form = said.made
        return self._form

    def beside(self, grounds: Grounds) -> List[Held]:
        """What shows a verdict, with what is there to look at: the frames of a witness, and the same over the text that the model was
        fitted from, or the formula that a proof refutes."""
        if grounds.proof is None:
            whole = self.program.unfitted(self.model, grounds.text, self.name(WHOLE_WITNESS))
            return [grounds.text, *([whole] if whole else []), *self.drawn(grounds.text)]
        formula = self.program.formula(self.model, self.property.number, grounds.evidence, grounds.text, self.name(FORMULA)).made
        return [grounds.text, grounds.proof, *([formula] if formula else [])]

    def kept_before(self, evidence: Evidence) -> Optional[Grounds]:
        """What an earlier run kept to show a verdict, if all of it is there."""
        folder = self.prover.folder
        with contextlib.suppress(OSError):
            proof = self.proof_before() if evidence.shows is Verdict.HOLDS else None
            return Grounds(evidence, folder.read(self.name(evidence.value), ENGINE_BYTES), proof)
        return None

    def proof_before(self) -> Held:
        """The proof that an earlier run kept, in either form."""
        with contextlib.suppress(OSError):
            return self.prover.folder.read(self.name(HINTED_PROOF), SOLVER_BYTES)
        return self.prover.folder.read(self.name(PROOF), SOLVER_BYTES)

    def shares(self, deadline: float) -> Iterator[Tuple[Engine, float]]:
        """The engines, each with its part of the time that is left when its turn comes."""
        weights = [it.weight for it in self.prover.engines]
        for place, engine in enumerate(self.prover.engines):
            left = deadline - time.monotonic()
            if left > 0:
                yield engine, left * engine.weight / sum(weights[place:])

    # ---- an engine

    def attempt(self, engine: Engine, form: Held, seconds: float, deadline: float) -> Attempt:
        """Runs an engine, and has each of its claims checked. One whose folder another process spoils costs its time alone."""
        began = time.monotonic()
        try:
            return self.run_and_check(engine, form, seconds, deadline)
        except OSError as why_not:
            if why_not.errno not in SPOILT:
                raise
            return Attempt(Try(engine.name, f"could not be run: {why_not}", time.monotonic() - began))

    def run_and_check(self, engine: Engine, form: Held, seconds: float, deadline: float) -> Attempt:
        """Runs an engine in a place of work, and has each of its claims checked."""
        with self.place(engine.name) as place, nameless(is_large=True) as log:
            ended = self.run_engine(engine, form, seconds, place, log)
            end = tail_of(log.fileno())
            done = Attempt(Try(engine.name, why(ended, end), ended.seconds, engine.frame_in(end)))
            for gives in engine.gives() or [engine.says()]:
                is_claim = gives.claims is Verdict.FAILS or engine.proves in end
                found = self.found(engine, gives, place, log) if is_claim else None
                if found:
                    judged = self.check(gives, found, deadline, done)
                    done.what.claims.append(Claim(gives.claims, judged.check, judged.line, judged.confirmed))
                    if judged.confirmed:
                        done.judged = judged
                        break
        return done

    def place(self, of: str) -> ContextManager[Place]:
        """A folder of work for an engine or a solver."""
        notes = self.prover.folder.notes
        return place_of_work(self.prover.runner.stopping.is_set, lambda left: notes.append(f"{of} on {self.property.key}: {left}"))

    def run_engine(self, engine: Engine, form: Held, seconds: float, place: Place, log: BinaryIO) -> Ended:
        """Runs an engine in a folder of its own, with copies of what it is handed."""
        values = {it.value: it.value for it in Gives}
        values.update({Handed.FORM.value: FORM, Handed.MODEL.value: self.model.name, Handed.BAD.value: str(self.property.number)})
        values.update({Handed.DEPTH.value: str(self.prover.depth), Handed.SECONDS.value: str(max(1, int(seconds)))})
        if Handed.FORM.value in engine.placeholders():
            place.put(FORM, form)
        if Handed.MODEL.value in engine.placeholders():
            place.put(self.model.name, self.model.held)
        self.shown.engine, self.shown.log = engine, log
        with nameless(is_large=True) as aside:
            err = None if engine.gives() else aside.fileno()
            ended = self.prover.runner.run(engine.filled(values), place.path, log.fileno(), err, seconds, ENGINE_BYTES)
        self.shown.log = None
        if ended.how is Ending.STOPPED:
            raise Stopped
        return ended

    def found(self, engine: Engine, gives: Gives, place: Place, log: BinaryIO) -> Optional[Held]:
        """What an engine wrote, if it is a plain file with something in it."""
        if engine.gives():
            found = place.take(gives.value, gives.value, ENGINE_BYTES)
        else:
            found = Held.of_file(gives.value, log.fileno())
        return found if found and found.size else None

    # ---- what it claims

    def check(self, gives: Gives, found: Held, deadline: float, done: Attempt) -> Judged:
        """Has a claim checked; where what a check would read cannot be made, the call that does not make it stands for the check."""
        try:
            if gives.claims is Verdict.HOLDS:
                done.grounds = self.with_proof(gives.evidence, found, deadline)
            else:
                done.grounds = Grounds(Evidence.WITNESS, self.witness_of(gives, found))
            return self.judge(done.grounds)
        except NotMade as why_not:
            return Judged([why_not.call], False, str(why_not))

    def made(self, said: Said) -> Held:
        """What a call has made."""
        if said.made is None:
            raise NotMade(said.words[0], said.line)
        return said.made

    def witness_of(self, gives: Gives, found: Held) -> Held:
        """A witness of the model, made of what an engine found."""
        if gives is not Gives.ABC_COUNTEREXAMPLE:
            found = self.made(self.program.tidied(found, self.name(WITNESS)))
        if gives is not Gives.MODEL_WITNESS:
            by_abc = gives is Gives.ABC_COUNTEREXAMPLE
            found = self.made(self.program.witness(self.model, self.property.number, found, by_abc, self.name(WITNESS)))
        return found

    def with_proof(self, evidence: Evidence, found: Held, deadline: float) -> Grounds:
        """An invariant or a witness circuit with the proof by which a solver refutes what it owes."""
        solver = self.prover.solver
        if solver is None:
            raise NotMade("check-proof", "there is no solver that could make a proof")
        certificate = found.named(self.name(evidence.value))
        formula = self.made(self.program.formula(self.model, self.property.number, evidence, certificate, self.name(FORMULA)))
        seconds = max(0.0, deadline - time.monotonic())
        values = {Handed.FORMULA.value: FORMULA, Handed.SECONDS.value: str(max(1, int(seconds)))}
        values.update({Handed.PROOF.value: PROOF, Handed.HINTED_PROOF.value: HINTED_PROOF})
        name = HINTED_PROOF if Handed.HINTED_PROOF.value in solver.placeholders() else PROOF
        with self.place(solver.name) as place, nameless(is_large=True) as log:
            place.put(FORMULA, formula)
            ended = self.prover.runner.run(solver.filled(values), place.path, log.fileno(), None, seconds, SOLVER_BYTES)
            if ended.how is Ending.STOPPED:
                raise Stopped
            proof = place.take(name, self.name(name), SOLVER_BYTES)
        if proof is None:
            raise NotMade(solver.name, f"it wrote no proof: {ended}")
        return Grounds(evidence, certificate, proof)

    def judge(self, grounds: Grounds) -> Judged:
        """Has what shows a verdict judged. This call alone makes a verdict."""
        if grounds.proof is None:
            return self.program.judge_failure(self.model, self.property.number, grounds.text)
        has_hints = os.path.basename(grounds.proof.name) == HINTED_PROOF
        return self.program.judge_holding(self.model, self.property.number, grounds.evidence, grounds.text, grounds.proof, has_hints)

    def drawn(self, witness: Held) -> List[Held]:
        """The frames of a witness of a model for GTKWave, and which signals are to be seen first."""
        if self.model.kind is not Kind.WORDS:
            return []
        dump = self.program.dump(self.model, witness, self.name(DUMP)).made
        if dump is None:
            return []
        with Held.of_bytes(DUMP, head_of_dump(dump)).opened() as file:
            seen = shown(read_dump(Path(f"{HANDED}{file}")), self.property, self.prover.clock)
        return [dump, written(self.name(SAVED), saved_file(DUMP, seen))]


def head_of_dump(dump: Held) -> bytes:
    """What stands in a dump in front of its frames: the names of signals."""
    head = b""
    for piece in dump.pieces():
        head += piece
        if FIRST_FRAME in head:
            break
    return head.partition(FIRST_FRAME)[0] + b"\n"


def why(ended: Ended, log: str) -> str:
    """How an engine ended, and its last words where that was not well."""
    words = [line.strip() for line in log.splitlines() if line.strip()][-1:] if ended.status > 0 else []
    return ": ".join([str(ended), *("".join(filter(str.isprintable, it))[:MOST_WORDS] for it in words)])
