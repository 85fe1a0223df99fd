"""A design in Verilog as models, by Yosys: nothing that it asserts, assumes or covers is lost on the way without a word."""
import re
from dataclasses import dataclass, field
from pathlib import Path
from typing import Dict, Iterator, List, Optional, Sequence, Set, Tuple

from . import recipe
from .account import Account, Formal, NotJudged
from .clocks import Timing, timing_of
from .engines import InputRefused, WordsRefused
from .names import Names, printable
from .rtlil import Bit, Driver, Module, drivers_of, drives, read
from .statements import Says, Statement, binds_in, code_of, has_delays, statements_in
from .yosys import Yosys, lines_of, text_of

SYSTEM_VERILOG = {".sv", ".svh"}
MODULE_NAME = re.compile(r"[A-Za-z_][\w$]*\Z", re.ASCII)
MACRO = re.compile(r"[A-Za-z_]\w*(=[\w'.+-]*)?\Z", re.ASCII)
PARAMETER_VALUE = re.compile(r"""(-?\d+|\d*'s?[bodhBODH][0-9a-fA-F_]+|"[\w .+-]*")\Z""", re.ASCII)
# Steps of Yosys that read and define, and do nothing else.
READING = {"read", "read_verilog", "read_rtlil", "read_ilang", "read_json", "verilog_defines", "verilog_defaults"}
# Words of such steps by which statements would be lost without a word, or defaults that the flow sets.
LOSING = {"-noassert", "-noassume", "-norestrict", "-defer", "-clear", "-push", "-pop"}
IMPLICIT = re.compile(r"Identifier `\\(\S+)' is implicitly declared")
# A name of Yosys for a module with parameters.
WITH_PARAMETERS = re.compile(r"\$paramod(?:\$\w+)?\\([^\\]+)")
# Cells whose word Verilog leaves x for some operands; and what Yosys makes undefined by itself.
MAY_GIVE_X = {"$shiftx", "$div", "$mod", "$divfloor", "$modfloor"}
OF_YOSYS = re.compile(r"\$(formal|memwr)\$")
# A line that connects something to a constant with z, and a constant.
WITH_Z = re.compile(r"^\s*connect .*\d'[01xzm-]*z.*$", re.M)
CONSTANT = re.compile(r"\d'[01xzm-]*")
ALL_AT_ONCE = {"$allconst", "$allseq"}
# How many names of a kind are told.
MOST_NAMES = 8

DRIVEN_PIN = "is an input and driven inside (a pin that the design drives: write an output, and an input beside it)"
FREE_Z = "z, where nothing drives, is any bit in each frame"
DELAYS = "delays (#..) are dropped"
CLOCK_INSIDE = (
    "a clock that the design makes ({}): its registers take what stood before the edge, "
    "and a simulation may read what the same edge wrote"
)
FIRST_STEP = "with several clocks $initstate and `initial` are about the first step, which need not be an edge"


@dataclass(frozen=True)
class Wanted:
    """What the words of the command line say of a design."""

    files: List[Path]
    top: Optional[str] = None
    script: Optional[Path] = None
    read: Optional[Path] = None
    include: List[Path] = field(default_factory=list)
    defines: List[str] = field(default_factory=list)
    parameters: List[str] = field(default_factory=list)
    clocked_resets: bool = False
    zero_undefined: bool = False

    @property
    def name(self) -> str:
        """The design for a reader: its first file."""
        return printable(str((self.files or [self.read])[0]))


def reading_steps(wanted: Wanted, names: Names, dumps: bool) -> List[str]:
    """The steps that read the files, each by its own ending, or those of a script that reads; with dumps of what was read."""
    for it in wanted.defines:
        if not MACRO.match(it):
            raise WordsRefused(f"-D {it}: a name, and letters, digits and _ ' . + - behind =; write others as `define in a file")
    folders = [names.plain(it) for it in wanted.include if it.is_dir()]
    folders += [it for it in map(names.beside, wanted.files) if it]
    words = ["-formal", "-noblackbox", *(["-dump_ast1", "-no_dump_ptr", "-ppdump"] if dumps else [])]
    words += [f"-I{it}" for it in dict.fromkeys(folders)] + [f"-D{it}" for it in wanted.defines]
    defaults = "verilog_defaults -add " + " ".join(words)
    if wanted.read:
        return [defaults, *steps_of(wanted.read)]
    return [defaults, *(f"read_verilog {language_of(it)}{names.plain(it)}" for it in wanted.files)]


def language_of(path: Path) -> str:
    """The word for the language of a file, by its own ending."""
    return "-sv " if path.suffix.lower() in SYSTEM_VERILOG else ""


def steps_of(script: Path) -> List[str]:
    """The steps of a script that reads; refused where one does more."""
    lines = script.read_text(encoding="utf-8", errors="surrogateescape").splitlines()
    steps = [line for line in lines if not line.strip().startswith("#")]
    for line in steps:
        if line.strip().endswith("\\"):
            raise WordsRefused(f"--read {printable(str(script))}: a line that goes on in the next")
        for step in filter(None, map(str.strip, line.split(";"))):
            if step.split()[0] not in READING or "<<" in step or LOSING & set(step.split()):
                raise WordsRefused(f"--read {printable(str(script))}: `{printable(step)}` is not a step that only reads, and reads all")
    return steps


class Bridge:
    """One design on its way: what was read, the flat design, its account, and what is told of it."""

    def __init__(self, wanted: Wanted, yosys: Yosys, names: Names) -> None:
        self.wanted, self.yosys, self.names = wanted, yosys, names
        self.design = wanted.name
        # what is told beside each verdict, since it changes what that means
        self.notes: List[str] = []
        self.boxes: List[str] = []
        self.undefined = False
        self.below: Set[str] = set()
        self._read()

    # ---- what was read

    def _read(self) -> None:
        """Reads the source: its statements, its modules, and which of these is the top."""
        log = self.yosys.run("reading", [*reading_steps(self.wanted, self.names, True), f"write_rtlil {self.names.own('read.il')}"])
        self.modules = read(text_of(Path(self.names.own("read.il"))))
        self.statements: List[Statement] = statements_in(lines_of(log))
        for it in self.statements:
            it.place = self.names.told(it.place)
        code = code_of(lines_of(log))
        bind = binds_in(code)
        if bind:
            why = "a `bind`, which this Yosys drops without a word; write the instance into the module"
            raise InputRefused(f"{self.design}: `{bind} ..`: {why}")
        if has_delays(code):
            self.notes.append(DELAYS)
        self.top, self.how = self._chosen()
        self.parameters = self._parameters()
        self.account = Account(self.design, self.statements, self.modules)

    def _chosen(self) -> Tuple[str, str]:
        """The top module, and why it is that."""
        own = {name[1:]: it for name, it in self.modules.items() if "\\blackbox" not in it.attributes}
        wanted = self.wanted.top
        if wanted is not None:
            if wanted not in own:
                raise WordsRefused(f"--top {printable(wanted)}: no such module; there are {listed(sorted(own))}")
            top, how = wanted, "by --top"
        else:
            parts = {name: {cell.part[1:] for cell in it.cells if not cell.is_own} for name, it in own.items()}
            roots = [name for name in own if not any(name in below for other, below in parts.items() if other != name)]
            if len(roots) != 1:
                said = f"several modules are part of no other: {listed(sorted(roots))}; choose one by --top"
                raise InputRefused(f"{self.design}: {said if roots else 'no module that is part of no other; choose one by --top'}")
            top, how = roots[0], "the only root"
        if not MODULE_NAME.match(top):
            raise InputRefused(f"{self.design}: the top {printable(top)} has a name of other letters than A-Z a-z 0-9 _ $")
        return top, how

    def _parameters(self) -> List[str]:
        """The words that set parameters of the top."""
        there, words = self.modules[f"\\{self.top}"].parameters, []
        for it in self.wanted.parameters:
            name, _, value = it.partition("=")
            if not MODULE_NAME.match(name) or not PARAMETER_VALUE.match(value):
                raise WordsRefused(f"--param {printable(it)}: a name, =, and a number or a string of plain letters in double quotes")
            if name not in there:
                raise WordsRefused(f"--param {printable(it)}: {self.top} has no such parameter; there are {listed(there) or 'none'}")
            words.append(f"-set {name} {value}")
        return words

    # ---- one flat module

    def flattening(self) -> List[str]:
        """The steps that make one module of what was read."""
        own, clocked = self.names.own, self.names.plain(recipe.beside("clocked.v"))
        return recipe.flattening(self.top, self.parameters, clocked, own("hierarchy.il"), own("flat.il"), own("seen.il"))

    def flatten(self) -> Timing:
        """Makes one module of the design, refuses what has no meaning, and names each formal cell; answers what a frame is."""
        own = self.names.own
        self.yosys.run("flat", [*reading_steps(self.wanted, self.names, False), *self.flattening()])
        self.below = modules_below(read(text_of(Path(own("hierarchy.il")))), self.top)
        text = text_of(Path(own("flat.il")))
        modules = read(text)
        module = modules[f"\\{self.top}"]
        self._refuse_cells(module)
        drivers = drivers_of(module, modules)
        self._refuse_drivers(module, modules, drivers)
        named = self._without_z(self.account.take(module, text, self.names.told, self.below))
        Path(own("named.il")).write_text(named, "utf-8", "surrogateescape")
        seen = read(text_of(Path(own("seen.il"))))
        self.undefined = has_undefined(seen[f"\\{self.top}"], seen, choices_of_yosys(module, drivers))
        return self._timing(timing_of(seen[f"\\{self.top}"], seen, self.wanted.clocked_resets))

    def _timing(self, timing: Timing) -> Timing:
        """Notes what clocks change of what a verdict means."""
        if timing.inside:
            self.notes.append(CLOCK_INSIDE.format(", ".join(timing.inside)))
        if len(timing.clocks) > 1 and re.search(r"\$initstate\b", text_of(Path(self.names.own("flat.il")))):
            self.notes.append(FIRST_STEP)
        return timing

    def _refuse_cells(self, module: Module) -> None:
        """Refuses cells that ask for all values at once, and notes the black boxes."""
        self.boxes = sorted({it.kind for it in module.cells if not it.is_own})
        for it in module.cells:
            if it.kind in ALL_AT_ONCE:
                raise InputRefused(f"{self.design}: {it.kind[1:]} asks for all values at once, which is not asked of a bad property")
        for box in self.boxes:
            if not MODULE_NAME.match(box[1:]):
                raise InputRefused(f"{self.design}: a black box with the name {printable(box[1:])}")
            self.notes.append(f"{box[1:]} is a black box: what it gives is any bit in each frame")

    def _refuse_drivers(self, module: Module, modules: Dict[str, Module], drivers: Dict[Bit, List[Driver]]) -> None:
        """Refuses a bit with two drivers: of two nets Yosys makes one without a word; notes what nothing drives."""
        for bit, by in drivers.items():
            if isinstance(bit, str):
                raise InputRefused(f"{self.design}: a constant is driven by {module.spelt(by[0].by) if by[0].kind == 'net' else by[0].by}")
            real = [it for it in by if not is_loose(it, drivers)]
            if len(real) > 1:
                pin = any(it.kind == "input" for it in real)
                said = DRIVEN_PIN if pin else f"has {len(real)} drivers"
                raise InputRefused(f"{self.design}: {module.spelt(bit)} {said}")
        free = names_of_free(module, modules, drivers)
        implicit = {it for text in self.yosys.warnings for it in IMPLICIT.findall(text)}
        lost = [it for it in free if any(it == name or it.endswith(f".{name}") for name in implicit)]
        if lost:
            why = "neither declared nor driven (names of what stands in other modules are not read)"
            raise InputRefused(f"{self.design}: {listed(lost)}: {why}")
        if free:
            self.notes.append(f"not driven, so any bit in each frame: {listed(free)}")

    def _without_z(self, text: str) -> str:
        """The text without z, which has no words in a model: where buffers of three states did not take it, it is any bit."""
        found = WITH_Z.sub(lambda line: CONSTANT.sub(lambda it: it[0].replace("z", "x"), line[0]), text)
        if found != text:
            self.notes.append(FREE_Z)
        return found

    # ---- what is written

    def steps(self, timing: Timing) -> List[str]:
        """The steps from the named design to a model."""
        boxes = [f"\\{it[1:]}" for it in self.boxes]
        free = self.names.plain(recipe.beside("free-x.v"))
        named = self.names.own("named.il")
        with_async = timing.asynchronous and not timing.in_steps
        return recipe.whole(named, self.top, boxes, timing.in_steps, with_async, free, self.wanted.zero_undefined)

    def write(self, timing: Timing) -> Dict[str, Path]:
        """Writes the models: `model`, `cover` and `enables`."""
        paths = {it: Path(self.names.own(f"{it}.btor2")) for it in ("model", "cover", "enables")}
        written = recipe.writing(*map(str, paths.values()), self.names.plain(recipe.beside("enables.v")))
        self.yosys.run("model", [*self.steps(timing), *written])
        for it in paths.values():
            it.write_text(self.names.told(text_of(it)), "utf-8", "surrogateescape")
        return paths

    def told_steps(self, timing: Timing) -> List[str]:
        """All steps from the source to the model, with the names of the user."""
        steps = [*reading_steps(self.wanted, self.names, False), *self.flattening(), *self.steps(timing), "write_btor model.btor2"]
        maps = f"{recipe.beside('enables.v').parent}/"
        return [printable(self.names.told(it)).replace(maps, "") for it in steps]

    def left_out(self) -> List[str]:
        """The modules of the source that are not below the top."""
        return sorted({printable(name[1:]) for name in self.modules} - self.below)

    def not_judged(self) -> List[NotJudged]:
        """What of the source is not judged."""
        return list(self.account.not_judged(self.top, self.below))

    def assumed(self) -> List[Formal]:
        """The assumptions."""
        return self.account.named(Says.ASSUME)


def has_undefined(module: Module, modules: Dict[str, Module], apart: Set[str]) -> bool:
    """Whether some bit of what the design reads is undefined: x, not driven, or the word of a cell that may give x; some cells apart."""
    if any(it.kind in MAY_GIVE_X for it in module.cells) or names_of_free(module, modules, drivers_of(module, modules)):
        return True
    cells = (it for it in module.cells if it.name not in apart and not it.kind.startswith("$mem"))
    read_there = (bit for it in cells for words in it.ports.values() for bit in module.bits(words))
    return any(bit == "x" for bit in read_there) or any(by == "x" for _, by in module.pairs())


def choices_of_yosys(module: Module, drivers: Dict[Bit, List[Driver]]) -> Set[str]:
    """The multiplexers that choose what Yosys makes undefined by itself, and where it does not matter."""
    cells = {it.name: it for it in module.cells if it.kind in ("$mux", "$pmux")}
    waiting: List[Bit] = [(name, at) for name, wire in module.wires.items() if OF_YOSYS.search(name) for at in range(wire.width)]
    found: Set[str] = set()
    seen = set(waiting)
    while waiting:
        for driver in drivers.get(waiting.pop(), []):
            bits = [driver.by] if driver.kind == "net" else []
            if driver.kind == "cell" and driver.by[1] in cells and driver.by[1] not in found:
                found.add(driver.by[1])
                bits = [bit for port in ("\\A", "\\B") for bit in module.bits(cells[driver.by[1]].ports[port])]
            fresh = set(bits) - seen
            seen |= fresh
            waiting += fresh
    return found


def listed(names: Sequence[str]) -> str:
    """Names in a row, not too many."""
    shown = [printable(it) for it in names[:MOST_NAMES]]
    return ", ".join(shown) + (f" and {len(names) - MOST_NAMES} more" if len(names) > MOST_NAMES else "")


def module_of(name: str) -> str:
    """The module of the source behind a name of Yosys."""
    found = WITH_PARAMETERS.match(name)
    return found[1] if found else name.lstrip("\\")


def modules_below(parts: Dict[str, Module], top: str) -> Set[str]:
    """The modules of the source from the top on."""
    found: Set[str] = set()
    more = {f"\\{top}"} & set(parts) or {name for name in parts if module_of(name) == top}
    while more:
        found |= more
        more = {cell.kind for name in more for cell in parts[name].cells if cell.kind in parts} - found
    return set(map(module_of, found))


def is_loose(driver: Driver, drivers: Dict[Bit, List[Driver]]) -> bool:
    """Whether a driver is a net of Yosys's own that nothing drives."""
    bit = driver.by
    return driver.kind == "net" and isinstance(bit, tuple) and bit[0].startswith("$") and bit not in drivers


def names_of_free(module: Module, modules: Dict[str, Module], drivers: Dict[Bit, List[Driver]]) -> List[str]:
    """The wires of the design with a bit that is read and not driven."""
    free = {bit[0] for bit in bits_read(module, modules) if not isinstance(bit, str) and bit not in drivers}
    return sorted(it.lstrip("\\") for it in free if it.startswith("\\"))


def bits_read(module: Module, modules: Dict[str, Module]) -> Iterator[Bit]:
    """The bits that something reads."""
    for cell in module.cells:
        for port, words in cell.ports.items():
            if not drives(cell, port, modules):
                yield from module.bits(words)
    for _, by in module.pairs():
        yield by
