"""The frames of a witness, signal by signal: as `hwtool wave` dumps them of a model, or as the witness of a circuit has them."""
import enum
import re
from dataclasses import dataclass, field, replace
from pathlib import Path
from typing import Dict, List, Sequence, Tuple

from .model import Property

# The name of a part of a word that was taken apart: a bit, or a piece by its upper and its lower bit.
PART = re.compile(r"(?P<word>.+)\[(?:\d+:)?(?P<lower>\d+)\]")


class Scope(enum.Enum):
    """What a signal is; the value is its scope in a dump. In this order signals are shown."""

    ASSUMPTION = "constraints"
    PROPERTY = "bad"
    INPUT = "inputs"
    STATE = "states"
    OUTPUT = "outputs"
    NODE = "nodes"


@dataclass
class Signal:
    """A signal: its name in the dump, its width, and its word in each frame, in binary digits."""

    scope: Scope
    name: str
    width: int
    words: List[str] = field(default_factory=list)
    # where it is a word of parts that stand alone in the dump, these from the highest on
    parts: List["Signal"] = field(default_factory=list)

    @property
    def label(self) -> str:
        """Its name for a reader: that of the design, without what the dump puts around it."""
        plain = self.name[1:] if self.name.startswith("\\") else self.name
        plain = re.sub(r"^(bad|constraint):", "", plain)
        if self.scope is Scope.ASSUMPTION:
            return f"assumption {plain}" if plain.isdigit() else plain
        return f"b{plain}" if self.scope is Scope.PROPERTY and plain.isdigit() else plain

    @property
    def is_named(self) -> bool:
        """Whether the design has a name for it: what has none is called by its line."""
        return not re.fullmatch(r"n\d+", self.name)

    @property
    def in_gtkwave(self) -> str:
        """Its name as GTKWave's saved files have it."""
        return f"{self.scope.value}.{self.name}" + (f"[{self.width - 1}:0]" if self.width > 1 else "")


def read_dump(path: Path) -> List[Signal]:
    """The signals of a dump as `hwtool wave` writes it."""
    by_id: Dict[str, Signal] = {}
    scope, frame = Scope.NODE, -1
    with open(path, encoding="utf-8", errors="replace") as file:
        for line in file:
            words = line.split()
            if words[:2] == ["$scope", "module"]:
                scope = Scope(words[2])
            elif words[:1] == ["$var"]:
                by_id[words[3]] = Signal(scope, words[4], int(words[2]))
            elif line.startswith("#"):
                frame = int(line[1:])
                repeat(by_id.values(), frame)
            elif line.startswith(("0", "1", "b")):
                word, name = words if line[0] == "b" else (line[0], line[1:].strip())
                put(by_id[name], frame, word.lstrip("b"))
    # behind the last frame stands one more moment
    for it in by_id.values():
        del it.words[frame:]
    return list(by_id.values())


def repeat(signals, frame: int) -> None:
    """Has signals keep their words up to a frame that has begun."""
    for it in signals:
        if it.words:
            it.words += [it.words[-1]] * (frame + 1 - len(it.words))


def put(it: Signal, frame: int, word: str) -> None:
    """Gives a signal a word in the frame that has begun."""
    it.words[frame:] = [word]


def read_bits(path: Path, inputs: Sequence[str], of: Property, rises: int) -> List[Signal]:
    """The inputs of a circuit in the frames of a witness of it, and its property, of which the check said where it rises."""
    lines = path.read_text(encoding="ascii").split("\n")
    frames = lines[3 : 3 + rises + 1]
    found = [Signal(Scope.PROPERTY, of.name or str(of.number), 1, ["0"] * rises + ["1"])]
    return found + [Signal(Scope.INPUT, name, 1, [line[place] for line in frames]) for place, name in enumerate(inputs)]


def shown(signals: Sequence[Signal], of: Property, clock: str) -> List[Signal]:
    """What is shown of a failing property: the assumptions, itself, and what has a name; not the clock, of which each frame is an edge."""
    signals = joined(signals)
    ones = [it for it in signals if it.scope is Scope.PROPERTY]
    own = ones[of.number] if len(ones) > of.number else ones[0]
    order = list(Scope)
    rest = [it for it in signals if it.scope in order[2:] and it.is_named and not (it.scope is Scope.INPUT and it.name == clock)]
    front = [it for it in signals if it.scope is Scope.ASSUMPTION]
    return [*front, own, *sorted(rest, key=lambda it: order.index(it.scope))]


def in_own_frame(signals: Sequence[Signal], ahead: int) -> List[Signal]:
    """Signals, in which what is asked and assumed of a frame stands there, and not so many frames later as the model looks at it."""
    if not ahead:
        return list(signals)
    later = (Scope.PROPERTY, Scope.ASSUMPTION)
    return [replace(it, words=it.words[ahead:] if it.scope in later else it.words[:-ahead]) for it in signals]


def joined(signals: Sequence[Signal]) -> List[Signal]:
    """Signals, in which parts of one name, `word[0]` or `word[63:0]` and on, are one word."""
    found: Dict[Tuple[Scope, str], Dict[int, Signal]] = {}
    for it in signals:
        part = PART.fullmatch(it.name)
        if part and it.scope is not Scope.PROPERTY:
            found.setdefault((it.scope, part["word"]), {})[int(part["lower"])] = it
    words = {key: parts for key, parts in found.items() if len(parts) > 1 and are_whole(parts)}
    made: List[Signal] = []
    for it in signals:
        part = PART.fullmatch(it.name)
        parts = words.get((it.scope, part["word"])) if part else None
        if parts is None:
            made.append(it)
        elif not any(one.parts and one.parts[-1] is parts[0] for one in made):
            made.append(word_of(part["word"], [parts[lower] for lower in sorted(parts, reverse=True)]))
    return made


def are_whole(parts: Dict[int, Signal]) -> bool:
    """Whether parts, by their lower bits, make a word: each begins where the one below it ends."""
    end = 0
    for lower in sorted(parts):
        if lower != end:
            return False
        end += parts[lower].width
    return True


def word_of(name: str, parts: List[Signal]) -> Signal:
    """The word of some parts, from the highest on."""
    words = ["".join(digits) for digits in zip(*(it.words for it in parts))]
    return Signal(parts[0].scope, name, sum(it.width for it in parts), words, parts)


def saved_file(dump: str, signals: Sequence[Signal]) -> str:
    """What GTKWave saves of a view: the signals that are shown, bits in binary and words in hexadecimal; of a word in pieces these."""
    lines = [f'[dumpfile] "{dump}"', "[timestart] 0", "*-1.500000 0 -1 -1"]
    for it in signals:
        if it.parts and all(one.width == 1 for one in it.parts):
            lines += ["@22", bits_in_gtkwave(it)]
        else:
            for one in it.parts or [it]:
                lines += ["@28" if one.width == 1 else "@22", one.in_gtkwave]
    return "\n".join(lines) + "\n"


def bits_in_gtkwave(it: Signal) -> str:
    """A word of bits that stand alone, as GTKWave's saved files have it."""
    return " ".join([f"#{{{it.scope.value}.{it.name}[{it.width - 1}:0]}}", *(one.in_gtkwave for one in it.parts)])
