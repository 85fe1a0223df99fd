"""What is proved of: texts of a model in BTOR2 or of a circuit in AIGER with their bad properties, and the design that they are of."""
import enum
from dataclasses import dataclass, field, replace
from pathlib import Path
from typing import List, Optional

from .files import Held, open_whole


class Kind(enum.Enum):
    """What a model is a text of; the value is the end of its file's name."""

    WORDS = "btor2"
    CIRCUIT = "aig"


class Role(enum.Enum):
    """What the bad properties of a text ask; the value is the name of its file."""

    # whether an assertion fails
    MODEL = "model"
    # whether a cover is reached
    COVER = "cover"
    # whether an assertion is asked at all
    ENABLES = "enables"
    # whether the assumptions hold up to a frame
    FRAMES = "frames"

    @property
    def letter(self) -> str:
        """What stands before the number of its properties: b0, c0, e0, f0."""
        return "b" if self is Role.MODEL else self.value[0]


class Verdict(enum.Enum):
    """What is known of a property."""

    HOLDS = "holds"
    FAILS = "fails"
    OPEN = "open"
    # it holds only since the assumptions never do, or since it is never asked
    VACUOUS = "vacuous"
    # of a cover
    REACHED = "reached"
    NEVER = "never"
    NOT_JUDGED = "not judged"


class Evidence(enum.Enum):
    """What shows a verdict, with a proof where a property holds; the value is the name of its file."""

    WITNESS = "witness"
    INVARIANT = "invariant"
    WITNESS_CIRCUIT = "witness-circuit"

    @property
    def shows(self) -> Verdict:
        """The verdict that it shows of a bad property."""
        return Verdict.FAILS if self is Evidence.WITNESS else Verdict.HOLDS


@dataclass(frozen=True)
class Property:
    """A bad property: its number from 0 in a text, its name if it has one, and where in the design it stands, if that is known."""

    number: int
    name: str = ""
    place: str = ""
    role: Role = Role.MODEL
    # what is to be said of it beside its verdict
    note: str = ""
    # whether it is asked in every frame, as far as its text shows, so that it cannot hold for want of being asked
    always_asked: bool = True

    @property
    def key(self) -> str:
        """How it is called: b0, b1, .. as the formats do; c0, .. of covers."""
        return f"{self.role.letter}{self.number}"

    def is_named(self, word: str) -> bool:
        """Whether a word of the command line means it: by its key or name, or, of an assertion, by its number."""
        return word in (self.key, self.name) or self.role is Role.MODEL and word == str(self.number)

    def __str__(self) -> str:
        return f"{self.key} {self.name}".rstrip()


@dataclass(frozen=True)
class Said:
    """A statement of the design beside its properties: what it says, its name and place, and why it is not judged, if it is not."""

    says: str
    name: str
    place: str
    why: str = ""

    def __str__(self) -> str:
        return f"{self.says} {self.name}" + (f" ({self.place})" if self.place else "")


@dataclass(frozen=True)
class Model:
    """A text that `hwtool` takes, and the properties in it."""

    kind: Kind
    path: Path
    properties: List[Property]
    role: Role = Role.MODEL
    # the names of a circuit's inputs
    inputs: List[str] = field(default_factory=list)
    # its constraints, by their names in the text
    constraints: List[Said] = field(default_factory=list)
    # what is said of it where it was fitted, and the file of the text of the whole language that it was fitted from
    fitted: str = ""
    whole_path: Optional[Path] = None
    # its text, once all that checks it reads nothing else
    text: Optional[Held] = None
    # that text of the whole language
    whole: Optional[Held] = None

    @property
    def held(self) -> Held:
        """Its text, which no other process can change."""
        if self.text is None:
            raise ValueError(f"{self.path}: is not held yet")
        return self.text

    def taken(self) -> "Model":
        """The same with its text, as that stands in its file now, and the one that it was fitted from."""
        with open_whole(self.path) as file:
            found = replace(self, text=Held.of_file(self.name, file.fileno()))
        if self.whole_path is None:
            return found
        with open_whole(self.whole_path) as file:
            return replace(found, whole=Held.of_file(f"whole-{self.name}", file.fileno()))

    @property
    def kept(self) -> List[Held]:
        """The texts that stand in the folder of results: its own, and the one that it was fitted from."""
        return [self.held, *([self.whole] if self.whole else [])]

    @property
    def name(self) -> str:
        """The name of its file in the folder of results."""
        return f"{self.role.value}.{self.kind.value}"


@dataclass(frozen=True)
class Design:
    """All texts of one design, how they came to be, and what is to be said of it."""

    model: Model
    covers: Optional[Model] = None
    enables: Optional[Model] = None
    frames: Optional[Model] = None
    # for whoever reads the first line: by what it was read, and what was seen in it
    notes: List[str] = field(default_factory=list)
    # what changes what each verdict means
    meaning: List[str] = field(default_factory=list)
    # what Yosys warned of
    warnings: List[str] = field(default_factory=list)
    assumptions: List[Said] = field(default_factory=list)
    not_judged: List[Said] = field(default_factory=list)
    # the design's one clock, where each frame is an edge of that
    clock: str = ""
    # how many frames of the model come before the first one of the design
    ahead: int = 0
    # what may help where a property stays open
    hint: str = ""
    # the steps of Yosys by which it was made
    steps: List[str] = field(default_factory=list)
    # modules of the source that are not in it
    left_out: List[str] = field(default_factory=list)
    # whose steps made it, if they were not looked at
    own_steps: str = ""

    def taken(self) -> "Design":
        """The same with its texts, as they stand in their files now."""
        held = {it.role: it.taken() for it in self.texts}
        return replace(
            self,
            model=held[Role.MODEL],
            covers=held.get(Role.COVER),
            enables=held.get(Role.ENABLES),
            frames=held.get(Role.FRAMES),
        )

    @property
    def texts(self) -> List[Model]:
        """All texts."""
        return [it for it in (self.model, self.covers, self.enables, self.frames) if it is not None]

    @property
    def properties(self) -> List[Property]:
        """What is asked of it: its assertions, and its covers behind them."""
        return [*self.model.properties, *(self.covers.properties if self.covers else [])]


def counted(count: int, one: str, many: str = "") -> str:
    """So many of something."""
    return f"{count} {one if count == 1 else many or one + 's'}"
