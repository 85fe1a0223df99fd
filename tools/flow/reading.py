"""A design as the texts that `hwtool` takes: Verilog by Yosys, with the steps that docs/FLOW.md has for it; BTOR2; AIGER."""
import os
import re
import shutil
from dataclasses import replace
from pathlib import Path
from typing import Callable, List, Optional, Sequence, Set, Tuple

from . import vacuity
from .account import Account
from .clocks import Timing
from .engines import InputRefused, WordsRefused
from .model import Design, Kind, Model, Property, Role, Said
from .names import Names
from .program import Broke, Program
from .running import Runner
from .statements import Says
from .verilog import SYSTEM_VERILOG, Bridge, Wanted, reading_steps
from .yosys import Yosys, text_of

VERILOG, BTOR2, AIGER = {".v", ".vh"} | SYSTEM_VERILOG, {".btor2", ".btor"}, {".aig", ".aag"}
# A step of Yosys that reads files.
READS = re.compile(r"\s*(read|read_\w+|verific)\b")

# A constraint of a model in the one spelling: its number, and its name if it has one.
CONSTRAINT = r"^(\d+) constraint \d+(?: (\S+))?$"
# The number of what is refused of a word of more than 64 bits.
TOO_WIDE = 5
IN_PIECES, FITTED = "words of more than 64 bits in pieces", "fitted, since the model is beyond what the other commands take"
WRITE_ONE = {
    "Verilog": "as in `always @* has_room: assert (count <= 4);`",
    "BTOR2": "as in `10 bad 9`, of a node of one bit",
    "AIGER": "a bad property (the header's number behind outputs, latches and gates), or an output",
}
BY_OWN_STEPS = "the steps of {} were not looked at: whether all that the source says is in the model, in its own frame, is theirs"
RESETS_HINT = (
    "where resets and latches change with the edges of the one clock alone, --clocked-resets makes a smaller model, "
    "in which that is assumed"
)
AS_ZERO = "undefined bits are 0 (--zero-undefined): x, what nothing drives, what is out of range, and a division by zero"


def is_verilog(files: Sequence[Path]) -> bool:
    """Whether files are in Verilog, by the ends of their names."""
    return {it.suffix.lower() for it in files} <= VERILOG


def script_reads(script: Path) -> bool:
    """Whether a script of Yosys has a step that reads files."""
    try:
        return any(map(READS.match, script.read_text(encoding="utf-8", errors="replace").splitlines()))
    except OSError:
        return False


class NotTaken(InputRefused):
    """A text that `hwtool` refuses, with the number of the refusal; a line is told as that of the text, with its place in the source."""

    def __init__(self, design: str, line: str, path: Optional[Path] = None) -> None:
        found = re.search(r": (\d+) [A-Z]\w+$", line)
        self.number = int(found[1]) if found else 0
        said = line.split(": ", 1)[-1]
        where = f"{path.name}: " if path else ""
        remedy = f"; hwtool explain {self.number} says what to do" if found else ""
        super().__init__(f"{design}: {where}{said}{line_told(path, said)}{remedy}")


def line_told(path: Optional[Path], said: str) -> str:
    """The line of a text that a refusal names, and the place in the source that Yosys noted on it or on the next one that has one."""
    found = re.match(r"line (\d+): ", said)
    if path is None or found is None:
        return ""
    lines = path.read_text(encoding="utf-8", errors="replace").splitlines()[int(found[1]) - 1 :]
    places = [re.search(r"; (\S+:\d+\.\d+-\d+\.\d+)\s*$", line) for line in lines]
    place = next((f", of {it[1]} or near it" for it in places if it), "")
    return f", in `{lines[0].strip()}`{place}" if lines else ""


class Reader:
    """Makes the texts of a design, in the folder `work`; they are judged readable by `hwtool` alone."""

    def __init__(self, wanted: Wanted, program: Program, runner: Runner, work: Path, frames: int, slow: Callable[[str], None]) -> None:
        self.wanted, self.program, self.runner, self.work, self.frames, self.slow = wanted, program, runner, work, frames, slow

    def design(self) -> Design:
        """The design; refused where there is none, or it asks nothing."""
        ends = {it.suffix.lower() for it in self.wanted.files}
        for it in [*self.wanted.files, *filter(None, [self.wanted.read, self.wanted.script])]:
            if not it.is_file():
                raise Broke(f"{it}: no such file")
        if self.wanted.read or is_verilog(self.wanted.files):
            return self.having(self.of_verilog(), "Verilog")
        if len(self.wanted.files) == 1 and ends <= BTOR2:
            return self.having(self.of_text(self.taken(self.copied(Kind.WORDS), Kind.WORDS), ["as BTOR2"]), "BTOR2")
        if len(self.wanted.files) == 1 and ends <= AIGER:
            return self.having(self.of_circuit(), "AIGER")
        raise WordsRefused("a design is files of Verilog (.v, .sv), or one of BTOR2 (.btor2, .btor) or AIGER (.aig, .aag)")

    def having(self, design: Design, language: str) -> Design:
        """A design that asks something."""
        if not design.properties and not any(it.says in (Says.LIVE.value, Says.ASSERT.value) for it in design.not_judged):
            raise InputRefused(f"{self.wanted.name}: it has no property; write one, {WRITE_ONE[language]}")
        return design

    def copied(self, kind: Kind) -> Path:
        """The file of the design, in the folder of work."""
        into = self.work / f"model.{kind.value}"
        shutil.copyfile(self.wanted.files[0], into)
        return into

    # ---- texts

    def taken(self, path: Path, kind: Kind, role: Role = Role.MODEL) -> Model:
        """A text that `hwtool` takes, with its properties; refused in its words where it does not."""
        place = f"{self.work.name}/{path.name}"
        model = self.of_words(path, place, role) if kind is Kind.WORDS else self.of_names(path, place, role)
        if model.properties:
            self.make(path, "lower" if kind is Kind.WORDS else "aig-convert", "--engine", "--binary", "--bad", "0", place)
        return model

    def of_words(self, path: Path, place: str, role: Role) -> Model:
        """A text in BTOR2, in the one spelling that `show` gives, with the places that Yosys noted. One of the whole language becomes the
        text that it is fitted into, whose properties are in the same order."""
        places = places_of_bads(path.read_text(encoding="utf-8", errors="replace"))
        shown, fitted, whole = self.shown(path, place)
        lines = re.findall(r"^\d+ bad (\d+)(?: (\S+))?$", shown, flags=re.M)
        always = nodes_of_one(shown) if role is Role.ENABLES else set()
        properties = [
            Property(number, name, noted, role, always_asked=node in always)
            for number, ((node, name), noted) in enumerate(zip(lines, places))
        ]
        assumed = [Said("assume", name or f"constraint {line}", "") for line, name in re.findall(CONSTRAINT, shown, flags=re.M)]
        return Model(Kind.WORDS, path, properties, role, constraints=assumed, fitted=fitted, whole_path=whole)

    def shown(self, path: Path, place: str) -> Tuple[str, str, Optional[Path]]:
        """A text in its one spelling; and where it was fitted what is to be said of that, and the file of the text before."""
        try:
            shown, note = self.made(path, "show", place), FITTED
        except NotTaken as fault:
            shown, note = "", IN_PIECES if fault.number == TOO_WIDE else FITTED
        fitted = self.made(path, "fit", place)
        if shown.rpartition(";")[0] == fitted:
            return shown, "", None
        whole = path.with_name(f"whole-{path.name}")
        os.replace(path, whole)
        os.replace(self.work / "made", path)
        return self.made(path, "show", place), note, whole

    def of_names(self, path: Path, place: str, role: Role) -> Model:
        """A circuit, its bad properties and the names of its inputs, by its header and its table of names."""
        shown = self.made(path, "aig-convert", place)
        header = [int(it) for it in shown.split("\n", 1)[0].split()[1:]] + [0] * 4
        names = dict(re.findall(r"^([bci]\d+) (.*)$", shown, flags=re.M))
        properties = [Property(number, names.get(f"b{number}", ""), "", role) for number in range(header[5])]
        inputs = [names.get(f"i{number}", f"i{number}") for number in range(header[1])]
        assumed = [Said("assume", names.get(f"c{number}", f"constraint {number}"), "") for number in range(header[6])]
        return Model(Kind.CIRCUIT, path, properties, role, inputs, assumed)

    def of_text(self, model: Model, notes: List[str]) -> Design:
        """A design that is one text, with that about its assumptions."""
        told = [*notes, *filter(None, [model.fitted])]
        return Design(model, frames=self.frames_of(model, 0), notes=told, assumptions=model.constraints)

    def of_circuit(self) -> Design:
        """A circuit, of which the outputs are the properties where there are no others."""
        model = self.taken(self.copied(Kind.CIRCUIT), Kind.CIRCUIT)
        if model.properties:
            return self.of_text(model, ["as AIGER"])
        os.replace(self.make(model.path, "aig-convert", "--outputs", "--binary", f"{self.work.name}/{model.path.name}"), model.path)
        return self.of_text(self.taken(model.path, Kind.CIRCUIT), ["as AIGER", "its outputs as properties"])

    def frames_of(self, model: Model, ahead: int) -> Optional[Model]:
        """The text about the assumptions of a model, where it has any: for how many frames they can hold."""
        if not model.constraints:
            return None
        of_words, place = model.kind is Kind.WORDS, f"{self.work.name}/{model.path.name}"
        shown = self.made(model.path, "show" if of_words else "aig-convert", place)
        path = self.work / f"{Role.FRAMES.value}.{model.kind.value}"
        path.write_text((vacuity.over_words if of_words else vacuity.over_bits)(shown, self.frames + ahead), encoding="utf-8")
        if not of_words:
            os.replace(self.make(path, "aig-convert", "--binary", f"{self.work.name}/{path.name}"), path)
        return self.taken(path, model.kind, Role.FRAMES)

    def make(self, of: Path, *words: str) -> Path:
        """The file that a command makes of a text; refused in the words of `hwtool` where it makes none."""
        said = self.program.call(*words, "-o", f"{self.work.name}/made")
        if said.status != 0:
            raise NotTaken(self.wanted.name, said.line, None if self.is_own(of) else of)
        return self.work / "made"

    def is_own(self, path: Path) -> bool:
        """Whether a text is the design's own file."""
        return path.stem == Role.MODEL.value and self.wanted.files[:1] != [] and self.wanted.files[0].suffix.lower() in BTOR2 | AIGER

    def made(self, of: Path, *words: str) -> str:
        """The text that a command makes."""
        return self.make(of, *words).read_text(encoding="utf-8", errors="replace")

    # ---- Verilog

    def of_verilog(self) -> Design:
        """The texts that Yosys makes, with the remedies for what `hwtool` refuses."""
        names = Names(self.work)
        yosys = Yosys(self.runner, names, self.wanted.name, self.slow)
        if self.wanted.script:
            return self.by_own_steps(self.wanted.script, yosys, names)
        bridge = Bridge(self.wanted, yosys, names)
        return self.bridged(bridge, bridge.flatten())

    def bridged(self, bridge: Bridge, timing: Timing) -> Design:
        """The texts of a design by the recipe, each bad property tied to its statement."""
        paths = bridge.write(timing)
        account, ahead = bridge.account, int(timing.in_steps)
        model = self.tied(self.taken(paths["model"], Kind.WORDS), account, Says.ASSERT)
        account.count_constraints(len(model.constraints))
        covers = self.tied(self.taken(paths["cover"], Kind.WORDS, Role.COVER), account, Says.COVER)
        enables = self.taken(paths["enables"], Kind.WORDS, Role.ENABLES)
        always = {it.name for it in enables.properties if it.always_asked}
        account.tied(Says.ASSERT, [it.name for it in enables.properties])
        model = replace(model, properties=[replace(it, always_asked=it.name in always) for it in model.properties])
        undefined, meaning = bridge.undefined, list(bridge.notes)
        if self.wanted.zero_undefined:
            meaning.append(AS_ZERO)
        as_what = [f"undefined bits as {'0' if self.wanted.zero_undefined else 'any'}"] if undefined else []
        return Design(
            model,
            covers if covers.properties else None,
            enables if enables.properties else None,
            self.frames_of(model, ahead),
            ["by yosys", f"top {bridge.top} ({bridge.how})", str(timing), *as_what, *filter(None, [model.fitted])],
            meaning,
            bridge.yosys.warnings,
            [Said(it.says.value, it.name, it.place) for it in bridge.assumed()],
            [Said(it.says.value, it.name, it.place, it.why) for it in bridge.not_judged()],
            timing.clock,
            ahead,
            RESETS_HINT if timing.resets_open else "",
            bridge.told_steps(timing),
            bridge.left_out(),
        )

    @staticmethod
    def tied(model: Model, account: Account, says: Says) -> Model:
        """A text whose properties have what the account knows of them."""
        formals = account.tied(says, [it.name for it in model.properties])
        named = zip(model.properties, formals)
        return replace(model, properties=[replace(it, name=one.name, place=one.place, note=one.note) for it, one in named])

    def by_own_steps(self, script: Path, yosys: Yosys, names: Names) -> Design:
        """The texts that a script of one's own makes, which the flow cannot look into."""
        steps = script.read_text(encoding="utf-8", errors="surrogateescape").splitlines()
        reads = [] if script_reads(script) else reading_steps(self.wanted, names, False)
        steps = [*reads, *steps]
        paths = [names.own(f"{it.value}.btor2") for it in (Role.MODEL, Role.COVER)]
        yosys.run("own", [*steps, f"write_btor {paths[0]}", f"write_btor -c {paths[1]}"])
        for it in paths:
            Path(it).write_text(names.told(text_of(Path(it))), "utf-8", "surrogateescape")
        model, covers = (self.taken(Path(it), Kind.WORDS, role) for it, role in zip(paths, (Role.MODEL, Role.COVER)))
        notes = [f"by yosys and {script.name}", *filter(None, [model.fitted])]
        meaning, told = [BY_OWN_STEPS.format(script.name)], [names.told(it) for it in [*steps, "write_btor"]]
        return Design(
            model,
            covers if covers.properties else None,
            None,
            self.frames_of(model, 0),
            notes,
            meaning,
            yosys.warnings,
            model.constraints,
            steps=told,
            own_steps=script.name,
        )


def places_of_bads(text: str) -> List[str]:
    """Of each bad property of a text the place that stands behind it, or nothing."""
    parts = (line.partition(";") for line in text.splitlines())
    return [behind.strip() for front, _, behind in parts if front.split()[1:2] == ["bad"]]


def nodes_of_one(shown: str) -> Set[str]:
    """The nodes of a text, by their numbers, that are the bit 1 as they stand."""
    found: Set[str] = set()
    for line in shown.splitlines():
        words = line.split()
        is_one = words[1:2] == ["one"] or words[1:2] == ["const"] and words[3:4] == ["1"]
        if is_one or words[1:2] == ["and"] and set(words[3:5]) <= found:
            found.add(words[0])
    return found
