"""RTLIL, the text in which Yosys keeps a netlist: its modules with their wires and cells, and what drives each bit."""
import re
from dataclasses import dataclass, field
from typing import Dict, Iterator, List, Sequence, Tuple, Union

# A bit of a netlist: of a wire, with its place from the lowest on; or a constant's letter.
Bit = Union[Tuple[str, int], str]
# Ports of Yosys's own cells that drive.
OUTPUTS = {"\\Y", "\\Q", "\\RD_DATA", "\\X", "\\CO"}
# What stands before the module of an array of parts, with how many there are.
ARRAY = "$array:"
PLACES = re.compile(r"\[(-?\d+)(?::(-?\d+))?\]\Z")


@dataclass
class Cell:
    """A cell: the line on which it begins, from 0, and of each port the words of what it is connected to."""

    kind: str
    name: str
    attributes: Dict[str, str]
    line: int
    parameters: Dict[str, str] = field(default_factory=dict)
    ports: Dict[str, List[str]] = field(default_factory=dict)

    @property
    def is_own(self) -> bool:
        """Whether it is one of Yosys's, and no part of the design that stayed a part."""
        return self.kind.startswith("$") and not self.kind.startswith(ARRAY)

    @property
    def part(self) -> str:
        """The module of a part, or of an array of parts."""
        return self.kind.rsplit(":", 1)[-1] if self.kind.startswith(ARRAY) else self.kind

    def parameter(self, name: str, default: str = "") -> str:
        """The digits of a parameter, highest first."""
        return self.parameters.get(name, default).split("'")[-1]


@dataclass
class Wire:
    """A wire: its width, and `input`, `output`, `inout` or nothing."""

    width: int = 1
    way: str = ""


@dataclass
class Module:
    """A module: its wires and cells by their names, the pairs that it connects, and the names of its parameters."""

    name: str
    attributes: Dict[str, str]
    wires: Dict[str, Wire] = field(default_factory=dict)
    cells: List[Cell] = field(default_factory=list)
    connects: List[Tuple[List[str], List[str]]] = field(default_factory=list)
    parameters: List[str] = field(default_factory=list)
    memories: List[str] = field(default_factory=list)

    def bits(self, words: Sequence[str]) -> List[Bit]:
        """The bits of what words name, lowest first."""
        parts: List[List[Bit]] = []
        place = 0
        while place < len(words):
            word = words[place]
            place += 1
            if word in "{}":
                continue
            if word[0] in "\\$":
                found = PLACES.match(words[place]) if place < len(words) else None
                place += bool(found)
                ends = (int(found[2] or found[1]), int(found[1]) + 1) if found else (0, self.wires[word].width)
                parts.append([(word, at) for at in range(*ends)])
            elif "'" in word:
                parts.append(list(word.split("'")[1][::-1]))
            else:
                parts.append(list(format(int(word) & 0xFFFFFFFF, "032b")[::-1]))
        return [bit for part in reversed(parts) for bit in part]

    def pairs(self) -> Iterator[Tuple[Bit, Bit]]:
        """The bits that are connected, each with what drives it."""
        for left, right in self.connects:
            yield from zip(self.bits(left), self.bits(right))

    def spelt(self, bit: Bit) -> str:
        """A bit for a reader."""
        if isinstance(bit, str):
            return bit
        return bit[0].lstrip("\\") + (f"[{bit[1]}]" if self.wires[bit[0]].width > 1 else "")


class Reader:
    """Reads a text line by line, as `write_rtlil` writes it."""

    def __init__(self) -> None:
        self.modules: Dict[str, Module] = {}
        self._module = Module("", {})
        self._cell = Cell("", "", {}, 0)
        self._in_cell, self._depth = False, 0
        self._attributes: Dict[str, str] = {}

    def take(self, number: int, line: str) -> None:
        """Reads a line."""
        words = line.split()
        if not words or words[0].startswith("#") or words[0] == "autoidx":
            return
        if self._depth:
            self._depth += (words[0] == "switch") - (words[0] == "end")
        elif words[0] == "attribute":
            self._attributes[words[1]] = line.split(words[1], 1)[1].strip()
        elif self._in_cell:
            self._take_in_cell(words)
        else:
            self._take_in_module(number, words)

    def _given(self) -> Dict[str, str]:
        """The attributes of what begins."""
        given, self._attributes = self._attributes, {}
        return given

    def _take_in_cell(self, words: List[str]) -> None:
        """Reads a line between a cell's first and its end."""
        if words[0] == "parameter":
            self._cell.parameters[words[-2]] = words[-1]
        elif words[0] == "connect":
            self._cell.ports[words[1]] = words[2:]
        elif words[0] == "end":
            self._module.cells.append(self._cell)
            self._in_cell = False

    def _take_in_module(self, number: int, words: List[str]) -> None:
        """Reads a line that stands in no cell."""
        if words[0] == "module":
            self._module = self.modules[words[1]] = Module(words[1], self._given())
        elif words[0] == "wire":
            self._given()
            self._module.wires[words[-1]] = wire_of(words)
        elif words[0] == "memory":
            self._given()
            self._module.memories.append(words[-1])
        elif words[0] == "cell":
            self._cell, self._in_cell = Cell(words[1], words[2], self._given(), number), True
        elif words[0] == "process":
            self._given()
            self._depth = 1
        elif words[0] == "parameter":
            self._module.parameters += [it[1:] for it in words[1:2]]
        elif words[0] == "connect":
            at = words.index("}") + 1 if words[1] == "{" else 3 if words[2].startswith("[") else 2
            self._module.connects.append((words[1:at], words[at:]))


def wire_of(words: List[str]) -> Wire:
    """The wire that a line makes."""
    found = Wire()
    for word, following in zip(words, words[1:]):
        if word == "width":
            found.width = int(following)
        elif word in ("input", "output", "inout"):
            found.way = word
    return found


def read(text: str) -> Dict[str, Module]:
    """The modules of a text, by name."""
    reader = Reader()
    for number, line in enumerate(text.split("\n")):
        reader.take(number, line)
    return reader.modules


@dataclass(frozen=True)
class Driver:
    """What drives a bit: an input, a cell by its name, or a net by the bit behind it."""

    kind: str
    by: object


def drivers_of(module: Module, modules: Dict[str, Module]) -> Dict[Bit, List[Driver]]:
    """What drives each bit of a flat module; its parts that stayed are found among the modules."""
    found: Dict[Bit, List[Driver]] = {}

    def add(bit: Bit, driver: Driver) -> None:
        ones = found.setdefault(bit, [])
        if driver not in ones:
            ones.append(driver)

    for name, wire in module.wires.items():
        if wire.way in ("input", "inout"):
            for at in range(wire.width):
                add((name, at), Driver("input", name))
    for cell in module.cells:
        for port, words in cell.ports.items():
            if drives(cell, port, modules):
                for at, bit in enumerate(module.bits(words)):
                    add(bit, Driver("cell", (cell.kind, cell.name, at)))
    for to, by in module.pairs():
        if to != by:
            add(to, Driver("net", by))
    return found


def drives(cell: Cell, port: str, modules: Dict[str, Module]) -> bool:
    """Whether a port of a cell drives what it is connected to."""
    if cell.is_own:
        return port in OUTPUTS or cell.kind == "$memrd" and port == "\\DATA"
    part = modules.get(cell.kind)
    return part is not None and port in part.wires and part.wires[port].way in ("output", "inout")


def root_of(bit: Bit, drivers: Dict[Bit, List[Driver]]) -> Bit:
    """Where a bit comes from, through nets."""
    seen = set()
    while not isinstance(bit, str) and bit not in seen:
        seen.add(bit)
        first = drivers.get(bit, [Driver("", None)])[0]
        if first.kind != "net":
            break
        bit = first.by  # type: ignore[assignment]
    return bit
