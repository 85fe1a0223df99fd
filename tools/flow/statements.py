"""What the source says: its assertions, assumptions and covers, as Yosys's parser dumps them, and what Yosys drops without a word."""
import enum
import re
from dataclasses import dataclass, field
from typing import Iterable, List, Optional


class Says(enum.Enum):
    """What a statement of the source does; the value is the kind of its cell."""

    ASSERT = "assert"
    COVER = "cover"
    ASSUME = "assume"
    LIVE = "live"
    FAIR = "fair"

    @property
    def cell(self) -> str:
        """The kind of cell that Yosys makes of it."""
        return f"${self.value}"


CELLS = {it.cell: it for it in Says}
NODE = re.compile(r"\s*AST_([A-Z]+) <(.*:[\d.]+-[\d.]+)>(?:.* str='(.*)')?")
# Nodes of the parser that have names for what is in them.
AROUND = {"MODULE", "INTERFACE", "PACKAGE"}
TEXT_BEGINS, TEXT_ENDS = "-- Verilog code after preprocessor --", "-- END OF DUMP --"
NO_CODE = re.compile(r'"(?:\\.|[^"\\\n])*"|//[^\n]*|/\*.*?\*/', re.S)
BIND = re.compile(r"(?<![\w$.\\`])bind\s+[\w$]+(?:[\w$.\[\]:,\s]*?)\s+[\w$]+\s*(?:#|[\w$]+\s*\()")
DELAY = re.compile(r"(?<![\w#'$\\])#\s*\d|(?:=|;|\bbegin|\balways|\binitial|\belse|\bassign)\s*#\s*\(")


@dataclass
class Statement:
    """A statement: its place, its label if it has one, the module it stands in, and the names of the cells that came of it."""

    says: Says
    place: str
    label: str
    module: str
    cells: List[str] = field(default_factory=list)

    @property
    def name(self) -> str:
        """How it is called where no cell came of it."""
        return self.label or f"{self.says.value}_{line_of(self.place)}"


def line_of(place: str) -> str:
    """The last line of a place FILE:LINE.COLUMN-LINE.COLUMN, since it may begin on the line of what stands before it."""
    return place.rsplit(":", 1)[-1].split("-")[-1].split(".")[0]


def statements_in(log: Iterable[str]) -> List[Statement]:
    """The statements in what the parser dumps, in their order."""
    found, module = [], ""
    for line in log:
        node = NODE.match(line)
        if not node:
            continue
        name = (node[3] or "").lstrip("\\")
        if node[1] in AROUND:
            module = name
        elif f"${node[1].lower()}" in CELLS:
            found.append(Statement(CELLS[f"${node[1].lower()}"], node[2], name, module))
    return found


def code_of(log: Iterable[str]) -> str:
    """The text behind the preprocessor, without strings and comments."""
    lines, inside = [], False
    for line in log:
        if line.startswith((TEXT_BEGINS, TEXT_ENDS)):
            inside = line.startswith(TEXT_BEGINS)
        elif inside:
            lines.append(line)
    return NO_CODE.sub(" ", "".join(lines))


def binds_in(code: str) -> Optional[str]:
    """A `bind` of the source, if there is one."""
    found = BIND.search(code)
    return " ".join(found[0].split()) if found else None


def has_delays(code: str) -> bool:
    """Whether the source has delays, which Yosys drops."""
    return bool(DELAY.search(code))
