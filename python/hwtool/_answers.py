"""What calls answer."""

from __future__ import annotations

import enum
from dataclasses import dataclass, field
from typing import NamedTuple, Optional, Tuple

from ._refusals import remedy_of


class Kind(enum.Enum):
    """What is said of a witness."""

    ACCEPTED = 0
    """It is a run of the model, or circuit, in which each claimed bad property rises and all constraints hold."""
    NOT_REACHED = 1
    """A claimed bad property rises in no frame."""
    VIOLATED = 2
    """A constraint does not hold in a frame."""
    INIT_DIFFERS = 3
    """A state, or a latch, begins with another value than its initial one."""
    MALFORMED = 4
    """A line is faulty."""
    NO_CLAIM = 5
    """It claims nothing."""
    NOT_CLAIMED = 8
    """It is accepted, and does not claim the bad property that is asked for."""


class ProofKind(enum.Enum):
    """What is said of a proof."""

    HOLDS = 0
    """The bad property rises in no frame up to which the constraints hold."""
    MALFORMED = 4
    """A line is faulty."""
    NOT_IMPLIED = 6
    """A step does not follow."""
    NOT_DERIVED = 7
    """It ends before anything is shown."""


class Claim(NamedTuple):
    """A claim of an accepted witness: the position of the bad property, and the first frame in which it is reached, both from 0."""

    bad: int
    frame: int


@dataclass(frozen=True)
class Verdict:
    """What is said of a witness. `str` of it is the line that the program prints. It is true where it is accepted.

    Fields that its kind does not name are None.
    """

    kind: Kind
    frames: Optional[int] = None
    """How many frames an accepted witness has."""
    claim: Optional[int] = None
    """The first claimed bad property that is not reached, or the one asked for that is not claimed, from 0."""
    frame: Optional[int] = None
    """The first frame in which a constraint does not hold, from 0."""
    constraint: Optional[int] = None
    """The first constraint that does not hold in it, from 0."""
    state: Optional[int] = None
    """The first state, or latch of a circuit, that begins with another value than its initial one, from 0."""
    line: Optional[int] = None
    """The faulty line, from 1."""
    why: Optional[int] = None
    """The number of what is wrong with it."""
    why_name: Optional[str] = None
    """The name of what is wrong with it."""
    of_circuit: bool = field(default=False, compare=False, repr=False)
    """Whether the witness is one of a circuit."""
    claims: Optional[Tuple[Claim, ...]] = None
    """The claims of an accepted witness, in file order of the bad properties."""

    @property
    def accepted(self) -> bool:
        """Whether the witness is one."""
        return self.kind is Kind.ACCEPTED

    @property
    def remedy(self) -> Optional[str]:
        """What to do about a faulty line: where it depends, a line for each case."""
        return None if self.why is None else remedy_of(self.why, "witness of a circuit" if self.of_circuit else "witness of a model")

    def __bool__(self) -> bool:
        return self.accepted

    def __str__(self) -> str:
        return {
            Kind.ACCEPTED: f"accepted {self.frames} frames",
            Kind.NOT_REACHED: f"not reached: b{self.claim}",
            Kind.VIOLATED: f"violated: frame {self.frame}, constraint {self.constraint}",
            Kind.INIT_DIFFERS: f"initial value differs at {self.state}",
            Kind.MALFORMED: f"malformed line {self.line}: {self.why} {self.why_name}",
            Kind.NO_CLAIM: "no claim",
            Kind.NOT_CLAIMED: f"not claimed: b{self.claim}",
        }[self.kind]


@dataclass(frozen=True)
class ProofVerdict:
    """What is said of a proof. `str` of it is the line that the program prints. It is true where the property holds.

    Fields that its kind does not name are None.
    """

    kind: ProofKind
    bad: int
    """The bad property that it is about, from 0."""
    line: Optional[int] = None
    """The line with which all is shown, 0 where nothing was to be shown, or the faulty one, or that of the step that does not
    follow; from 1."""
    why: Optional[int] = None
    """The number of what is wrong with a faulty line."""
    why_name: Optional[str] = None
    """The name of what is wrong with it."""

    @property
    def holds(self) -> bool:
        """Whether the bad property rises in no frame up to which the constraints hold, from any initial state."""
        return self.kind is ProofKind.HOLDS

    @property
    def remedy(self) -> Optional[str]:
        """What to do about a faulty line: where it depends, a line for each case."""
        return None if self.why is None else remedy_of(self.why, "proof")

    def __bool__(self) -> bool:
        return self.holds

    def __str__(self) -> str:
        return {
            ProofKind.HOLDS: f"holds: b{self.bad}",
            ProofKind.MALFORMED: f"malformed line {self.line}: {self.why} {self.why_name}",
            ProofKind.NOT_IMPLIED: f"not implied line {self.line}",
            ProofKind.NOT_DERIVED: "not derived",
        }[self.kind]


@dataclass(frozen=True)
class Cost:
    """How much the circuit of a model has at most. `str` of it is what the program prints."""

    gates: int
    """AND gates."""
    variables: int
    """Variables: inputs, latches and gates."""

    def __str__(self) -> str:
        return f"gates {self.gates}\nvariables {self.variables}"


@dataclass(frozen=True)
class Lifted:
    """A witness of a circuit, or of its engine form, as one of the model. It is true where it is accepted."""

    verdict: Verdict
    """What is said of the witness of the circuit."""
    text: bytes
    """The model's witness; of a malformed one what stands before the faulty line, and of one that claims nothing, nothing."""

    def __bool__(self) -> bool:
        return self.verdict.accepted


@dataclass(frozen=True)
class Unfitted:
    """A witness of the model that `fit` makes as one of the model itself, or the other way round. It is true where it is accepted."""

    verdict: Verdict
    """What is said of both."""
    text: bytes
    """The witness that is made; of a malformed one what stands before the faulty line, and of one that claims nothing, nothing of it."""

    def __bool__(self) -> bool:
        return self.verdict.accepted


@dataclass(frozen=True)
class Restored:
    """What an engine found over the engine form of a circuit, as a witness of the circuit. It is true where this is accepted."""

    verdict: Verdict
    """What is said of the circuit's witness; of a text with a faulty line, or that claims nothing, this."""
    text: bytes
    """The circuit's witness; of a text with a faulty line what stands before it, and of one that claims nothing, nothing."""

    def __bool__(self) -> bool:
        return self.verdict.accepted


@dataclass(frozen=True)
class Dump:
    """The frames of a witness as a value change dump (IEEE 1364). It is true where the witness is accepted."""

    verdict: Verdict
    """What is said of the witness."""
    text: bytes
    """The dump."""

    def __bool__(self) -> bool:
        return self.verdict.accepted
