"""What a run came to: what was judged over each text of a design, and by which programs."""
import json
import shlex
from dataclasses import asdict, dataclass, field
from pathlib import Path
from typing import Any, Dict, List, Optional, Sequence

from .files import Held, sum_of_file
from .folders import Folder
from .model import Design, Property, Role, Verdict

RESULTS, CHECK, REPORT = "results.json", "check.sh", "report.html"
# Larger ones are none of a run.
MOST_RESULTS = 1 << 28


@dataclass
class Claim:
    """What an engine claimed, and what the call said by which it was not confirmed, or was."""

    verdict: Verdict
    check: str
    said: str
    confirmed: bool = False


@dataclass
class Try:
    """A run of an engine: how it ended, its seconds, and what it claimed."""

    engine: str
    ended: str
    seconds: float
    # the last frame that it told, by its own word
    frame: Optional[int] = None
    claims: List[Claim] = field(default_factory=list)

    @staticmethod
    def of_json(it: Dict[str, Any]) -> "Try":
        """What results.json has of one."""
        claims = [Claim(Verdict(one["verdict"]), str(one["check"]), str(one["said"]), one["confirmed"] is True) for one in it["claims"]]
        return Try(str(it["engine"]), str(it["ended"]), float(it["seconds"]), it["frame"], claims)


def tries_of_json(told: Dict[str, Any]) -> List[Try]:
    """What results.json tells of the engines that were tried on a property; nothing where that was changed by hand."""
    try:
        return [Try.of_json(it) for it in told["tries"]]
    except (KeyError, TypeError, ValueError):
        return []


@dataclass
class Outcome:
    """What came of a property. Other than `open` only by a check that confirmed it, whose call and line stand here."""

    property: Property
    verdict: Verdict = Verdict.OPEN
    frame: Optional[int] = None
    engine: str = ""
    seconds: float = 0.0
    check: str = ""
    command: Sequence[str] = ()
    said: str = ""
    tries: List[Try] = field(default_factory=list)
    # the sum of each of its files
    files: Dict[str, str] = field(default_factory=dict)
    # why a program that is relied on, or a device, stopped it
    broke: str = ""

    def as_json(self) -> Dict[str, Any]:
        """The object of results.json: what was judged over a text."""
        it = asdict(self)
        it["key"] = self.property.key
        it["number"] = self.property.number
        it["seconds"] = round(self.seconds, 3)
        it["judged"], it["judged_frame"] = self.verdict.value, self.frame
        it["command"] = shlex.join(["hwtool", *self.command]) if self.command else ""
        for one in it["tries"]:
            one["seconds"] = round(one["seconds"], 3)
            for claim in one["claims"]:
                claim["verdict"] = claim["verdict"].value
        first = ["key", "number", "judged", "judged_frame", "engine", "seconds", "check", "command", "said"]
        return {key: it[key] for key in [*first, "files", "tries", "broke"]}

    def confirming_line(self) -> str:
        """The line that its check says, which names the property by its number in the text."""
        key = f"b{self.property.number}"
        return f"{key} is reached in frame {self.frame}" if self.verdict is Verdict.FAILS else f"holds: {key}"


@dataclass(frozen=True)
class Source:
    """A file that the model was made of, and its sum when it was read."""

    path: Path
    sum: str

    @staticmethod
    def of(path: Path) -> "Source":
        """A file as it is now."""
        return Source(path, sum_of_file(path))

    def is_as_it_was(self) -> bool:
        """Whether it is what was read."""
        try:
            return sum_of_file(self.path) == self.sum
        except OSError:
            return False


@dataclass(frozen=True)
class Tool:
    """A program of a run: its name there, its file with the sum of that, and its version by its own word."""

    name: str
    program: str
    sum: str
    version: str = ""


@dataclass
class Results:
    """All that a run came to: the design and its texts, the programs, and what was judged over each text, by key."""

    name: str
    sources: List[Source]
    program: Tool
    tools: List[Tool]
    design: Design
    outcomes: Dict[str, Outcome]
    # for how many frames the assumptions are to hold
    frames: int = 0

    def judged(self) -> List[Outcome]:
        """What was judged, in the order of texts and numbers."""
        roles = list(Role)
        return sorted(self.outcomes.values(), key=lambda it: (roles.index(it.property.role), it.property.number))


def told_before(folder: Folder, design: Design) -> Optional[Dict[str, Dict[str, Any]]]:
    """What results.json tells of each property by its key, where an earlier run wrote it of the same text; nothing of another model."""
    try:
        results = json.loads(b"".join(folder.read(RESULTS, MOST_RESULTS).pieces()))
        told = {it["key"]: it for it in [*results["properties"], *results["beside"]]}
        before, now = results["texts"], texts_of(design)
        same = [it for it in design.texts if before.get(it.name) == now[it.name]]
        keys = {one.key for it in same for one in it.properties}
        return {key: it for key, it in told.items() if key in keys} if design.model in same else None
    except (OSError, ValueError, KeyError, TypeError, AttributeError, RecursionError):
        return None


def texts_of(design: Design) -> Dict[str, str]:
    """The sum of each text, by its name, and of what it was fitted from."""
    return {one.name: one.sum for it in design.texts for one in it.kept}


def written(name: str, text: str) -> Held:
    """A text that is to be written under a name."""
    return Held.of_bytes(name, text.encode("utf-8", "surrogateescape"))
