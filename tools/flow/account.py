"""The account: each statement of the source, the cells that came of it, and what becomes of each of them.

Each formal cell gets a name of its own before a model is written, and is tied to a bad property by that name.
"""
import re
from dataclasses import dataclass
from typing import Callable, Dict, Iterator, List, Sequence, Set

from .engines import InputRefused
from .recipe import IN_RESET
from .rtlil import Cell, Module
from .statements import CELLS, Says, Statement, line_of

# What tribuf makes of a net with several drivers.
OF_DRIVERS = "tribuf_conflict"
# Puts the names of the user in place of those that Yosys was told.
Told = Callable[[str], str]
WHY_LIVE = "what happens at last is not asked of a bad property"
WHY_FAIR = "fairness is dropped, so that a failure may need a run that is not fair"
WHY_AWAY = "it is generated away (under a condition that is constant), or in a task or function that is not called"


@dataclass(frozen=True)
class Formal:
    """A formal cell of the flat design: its name in the account, what it says, its statement's place, and what is to be told of it."""

    name: str
    says: Says
    place: str
    note: str = ""


@dataclass(frozen=True)
class NotJudged:
    """A statement, or a cell, that is not judged, and why."""

    name: str
    says: Says
    place: str
    why: str


class Namer:
    """Gives names that nothing else in a module has."""

    def __init__(self, module: Module) -> None:
        others = [it.name for it in module.cells if it.kind not in CELLS]
        self._taken: Set[str] = {it.lstrip("\\") for it in [*module.wires, *module.memories, *others]}

    def name(self, wanted: str) -> str:
        """This name, or the first with a number behind it that is free."""
        base = re.sub(r"[^\w.\[\]]", "_", wanted)
        found, count = base, 0
        while found in self._taken:
            count += 1
            found = f"{base}_{count}"
        self._taken.add(found)
        return found


class Account:
    """The statements of a design, and the formal cells of its flat module."""

    def __init__(self, design: str, statements: Sequence[Statement], modules: Dict[str, Module]) -> None:
        self.design, self.statements, self.modules = design, statements, modules
        self.formals: List[Formal] = []

    def take(self, module: Module, text: str, told: Told, below: Set[str]) -> str:
        """Takes in the formal cells of a flat module, with the modules below it; answers its text, in which each has a name of its own."""
        lines, namer = text.split("\n"), Namer(module)
        at_place: Dict[str, List[Statement]] = {}
        for it in self.statements:
            at_place.setdefault(it.place, []).append(it)
        for cell in sorted((it for it in module.cells if it.kind in CELLS), key=lambda it: it.line):
            says = CELLS[cell.kind]
            own = self._statements(cell, says, at_place, told, below)
            place = own[0].place if own else next(iter(places_in(cell, told)), "?:0")
            name = namer.name(name_of(cell, says, place))
            if IN_RESET in {it.lstrip("\\") for it in cell.attributes}:
                raise InputRefused(
                    f"{self.design}: {name} ({place}) is asked where an asynchronous reset acts, and no clock rises; "
                    "write it in a block of the clock alone, or in `always @*`"
                )
            lines[cell.line] = lines[cell.line].replace(f"cell {cell.kind} {cell.name}", f"cell {cell.kind} \\{name}")
            for it in own:
                it.cells.append(name)
            self.formals.append(self._formal(cell, says, name, place, bool(own)))
        return "\n".join(lines)

    @staticmethod
    def _statements(cell: Cell, says: Says, at_place: Dict[str, List[Statement]], told: Told, below: Set[str]) -> List[Statement]:
        """The statements of which a cell came: of the places that flattening puts together, the statement's own.

        One file may be included in several modules, of which some may not be below the top."""
        for place in places_in(cell, told):
            found = [it for it in at_place.get(place, []) if it.says is says]
            if found:
                return [it for it in found if it.module in below] or found
        return []

    @staticmethod
    def _formal(cell: Cell, says: Says, name: str, place: str, is_said: bool) -> Formal:
        """What is known of a formal cell."""
        note = "of Yosys: the drivers of a net do not clash" if OF_DRIVERS in cell.name else "" if is_said else "its text was not read"
        return Formal(name, says, place, note)

    # ---- what came of it

    def named(self, says: Says) -> List[Formal]:
        """The cells of one kind."""
        return [it for it in self.formals if it.says is says]

    def tied(self, says: Says, names: Sequence[str]) -> List[Formal]:
        """The cell of each bad property, in order; refused where cells and properties are not the same, one to one."""
        cells = {it.name: it for it in self.named(says)}
        lost = [it for it in cells.values() if it.name not in names]
        strange = [it for it in names if it not in cells]
        if lost:
            raise Lost(f"{self.design}: {lost[0].name} ({lost[0].place}) was lost between the source and the model")
        if strange or len(set(names)) != len(names):
            raise Lost(f"{self.design}: the model has a bad property of no statement of its own: {', '.join(strange or names)}")
        return [cells[it] for it in names]

    def count_constraints(self, count: int) -> None:
        """Refuses a model that has not a constraint for each assumption."""
        wanted = len(self.named(Says.ASSUME))
        if count != wanted:
            raise Lost(f"{self.design}: of {wanted} assumptions the model has {count}")

    def not_judged(self, top: str, below: Set[str]) -> Iterator[NotJudged]:
        """What is not judged: cells of liveness and fairness, and statements of which no cell came."""
        for says, why in ((Says.LIVE, WHY_LIVE), (Says.FAIR, WHY_FAIR)):
            yield from (NotJudged(it.name, says, it.place, why) for it in self.named(says))
        names = {it.name for it in self.formals}
        for it in self.statements:
            if not it.cells:
                name = f"{it.module}.{it.name}" if it.name in names else it.name
                yield NotJudged(name, it.says, it.place, self._why(it, top, below))

    def _why(self, it: Statement, top: str, below: Set[str]) -> str:
        """Why no cell came of a statement."""
        module = self.modules.get(f"\\{it.module}")
        if module and "\\blackbox" in module.attributes:
            return f"{it.module} is a black box"
        return WHY_AWAY if it.module in below else f"{it.module} is not below {top}"


class Lost(InputRefused):
    """Something of the source is not in the model."""


def places_in(cell: Cell, told: Told) -> List[str]:
    """The places of a cell, in the words of the user."""
    return [told(it) for it in cell.attributes.get("\\src", "").strip('"').split("|") if ":" in it]


def name_of(cell: Cell, says: Says, place: str) -> str:
    """The label of a cell behind its instances, or what it says and its line."""
    if not cell.name.startswith("$"):
        return cell.name.lstrip("\\")
    above = re.match(r"\$flatten(.*?)\$", cell.name)
    kind = "drivers" if OF_DRIVERS in cell.name else says.value
    return f"{above[1].replace(chr(92), '') if above else ''}{kind}_{line_of(place)}"
