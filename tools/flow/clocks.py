"""What a flat design waits for: clocks, resets and latches that wait for none, and so what a frame of the model is."""
import re
from dataclasses import dataclass
from typing import Dict, List, Set

from .rtlil import OUTPUTS, Bit, Cell, Driver, Module, drivers_of, root_of

# Registers and latches that do not wait for a clock, or not alone.
ASYNCHRONOUS = re.compile(r"\$(adffe?|aldffe?|dffsre?|a?dlatch|dlatchsr|sr)\Z")
FORMAL_CLOCK = "the formal clock"


@dataclass(frozen=True)
class Edge:
    """A bit that registers wait for, and whether they wait for it to rise."""

    bit: Bit
    rises: bool = True


@dataclass(frozen=True)
class Timing:
    """Clocks by their names, those that the design makes itself, and why a frame is a step between edges, if it is."""

    clocks: List[str]
    inside: List[str]
    why: str
    asynchronous: bool
    clocked_resets: bool

    @property
    def in_steps(self) -> bool:
        """Whether a frame is a step, in which each clock may rise or not; else it is an edge of the one clock."""
        return bool(self.why)

    @property
    def clock(self) -> str:
        """The one clock of which each frame is an edge, if there is one."""
        return self.clocks[0] if self.clocks and not self.in_steps else ""

    @property
    def resets_open(self) -> bool:
        """Whether resets or latches alone make a frame a step."""
        return self.in_steps and self.asynchronous and len(self.clocks) == 1

    def __str__(self) -> str:
        if self.in_steps:
            return f"{self.why}, by clk2fflogic"
        if not self.clocks:
            return "no clock"
        return "one clock" + (", resets and latches with it, by async2sync" if self.asynchronous else "")


class Looker:
    """Looks at a flat module, whose cells that change nothing are merged."""

    def __init__(self, module: Module, modules: Dict[str, Module]) -> None:
        self.module, self.drivers = module, drivers_of(module, modules)
        self.edges: Set[Edge] = set()
        self.read: Set[Bit] = set()
        self.asynchronous = False
        for it in module.cells:
            self._look_at(it)
        outputs = {name for name, wire in module.wires.items() if wire.way == "output"}
        self.read |= {root_of(by, self.drivers) for to, by in module.pairs() if to[0] in outputs}

    def _look_at(self, cell: Cell) -> None:
        """Takes in what a cell waits for, and what it reads."""
        for port, words in cell.ports.items():
            bits = [root_of(bit, self.drivers) for bit in self.module.bits(words)]
            if port.endswith("CLK"):
                self.edges |= set(edges_of(cell, port, bits))
            elif port not in OUTPUTS:
                self.read |= set(bits)
        if cell.kind == "$ff":
            self.edges.add(Edge(FORMAL_CLOCK))
        self.asynchronous |= bool(ASYNCHRONOUS.match(cell.kind))

    def timing(self, clocked_resets: bool) -> Timing:
        """What a frame is."""
        inside = [it for it in self.edges if not isinstance(it.bit, str) and self._first(it.bit).kind != "input"]
        clocks = sorted(self._spelt(it) for it in self.edges)
        why = ""
        if len(self.edges) > 1:
            why = f"{len(self.edges)} clocks ({', '.join(clocks)})"
        elif inside:
            why = "a clock that the design makes"
        elif any(it.bit in self.read for it in self.edges):
            why = "one clock, which is read too"
        elif self.asynchronous and not clocked_resets:
            why = f"{'one' if self.edges else 'no'} clock, resets or latches that do not wait for it"
        return Timing(clocks, sorted(map(self._spelt, inside)), why, self.asynchronous, clocked_resets)

    def _first(self, bit: Bit) -> Driver:
        """What drives a bit, if anything does."""
        return self.drivers.get(bit, [Driver("", None)])[0]

    def _spelt(self, edge: Edge) -> str:
        """An edge for a reader."""
        name = edge.bit if isinstance(edge.bit, str) else self.module.spelt(edge.bit)
        return name if edge.rises else f"falling {name}"


def edges_of(cell: Cell, port: str, bits: List[Bit]) -> List[Edge]:
    """What a port for clocks waits for; of a memory there is a bit for each place where it is read or written."""
    rises, enabled = cell.parameter(f"{port}_POLARITY", "1"), cell.parameter(f"{port}_ENABLE", "1")
    return [Edge(bit, digit(rises, at) == "1") for at, bit in enumerate(bits) if digit(enabled, at) == "1"]


def digit(digits: str, at: int) -> str:
    """A digit from the lowest on; the lowest one where there are fewer."""
    return digits[-1 - at] if at < len(digits) else digits[-1]


def timing_of(module: Module, modules: Dict[str, Module], clocked_resets: bool) -> Timing:
    """What a frame of the model of a flat module is."""
    return Looker(module, modules).timing(clocked_resets)
