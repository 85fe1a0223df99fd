"""What the judgements over the texts of a design mean: of each property, and of the assumptions. Nothing here is judged."""
from dataclasses import dataclass
from typing import Dict, Iterable, List, Optional

from .model import Design, Property, Role, Verdict, counted
from .results import Outcome

NEVER_ASSUMED = "holds only since the assumptions never do"
NEVER_ASKED = "holds only since it is never asked"
ASKED_OPEN = "whether it is ever asked is open"
NEVER_COVERED = "is never reached, but only since the assumptions never hold"


@dataclass(frozen=True)
class Assumed:
    """For how many frames the assumptions can hold, and for how many they never do, each with the judgement that says so."""

    wanted: int
    reached: Optional[Outcome] = None
    never: Optional[Outcome] = None
    ahead: int = 0

    @property
    def most(self) -> int:
        """For how many frames they can hold, as far as that is known."""
        return max(0, self.reached.property.number + 1 - self.ahead) if self.reached else 0

    @property
    def fewest(self) -> Optional[int]:
        """For how many frames they never hold, if that is so."""
        return max(1, self.never.property.number + 1 - self.ahead) if self.never else None

    @property
    def is_settled(self) -> bool:
        """Whether nothing is open."""
        return self.never is not None or self.most >= self.wanted

    def __str__(self) -> str:
        if self.never:
            if not self.most:
                return "the assumptions never hold" + ("" if self.fewest == 1 else f" for {counted(self.fewest, 'frame')}")
            return f"the assumptions never hold for {counted(self.fewest, 'frame')}; for {counted(self.most, 'frame')} they can"
        if self.is_settled:
            return f"the assumptions can hold for {counted(self.wanted, 'frame')}"
        known = f"; for {counted(self.most, 'frame')} they can" if self.most else ""
        return f"whether the assumptions can hold for {counted(self.wanted, 'frame')} is open{known} (--frames asks for fewer)"


def assumed(design: Design, outcomes: Iterable[Outcome], wanted: int) -> Optional[Assumed]:
    """What is known of the assumptions; nothing where there are none."""
    if design.frames is None:
        return None
    found = sorted((it for it in outcomes if it.property.role is Role.FRAMES), key=lambda it: it.property.number)
    reached = [it for it in found if it.verdict is Verdict.FAILS]
    never = [it for it in found if it.verdict is Verdict.HOLDS]
    return Assumed(wanted, reached[-1] if reached else None, never[0] if never else None, design.ahead)


@dataclass(frozen=True)
class Finding:
    """What is known of a property: its verdict and frame, the judgement of its own, and the one that makes it vacuous, with why."""

    property: Property
    outcome: Outcome
    verdict: Verdict
    frame: Optional[int] = None
    because: Optional[Outcome] = None
    why: str = ""

    @property
    def is_settled(self) -> bool:
        """Whether nothing about it is open."""
        return self.verdict is not Verdict.OPEN and self.why != ASKED_OPEN

    @property
    def words(self) -> str:
        """The verdict in words."""
        if self.frame is not None:
            return f"{self.verdict.value}{' in frame ' if self.verdict in (Verdict.FAILS, Verdict.REACHED) else ' '}{self.frame}"
        return self.verdict.value


def finding(it: Property, design: Design, outcomes: Dict[str, Outcome], known: Optional[Assumed]) -> Finding:
    """What is known of a property."""
    outcome = outcomes[it.key]
    if outcome.verdict is Verdict.OPEN or outcome.frame is None and outcome.verdict is Verdict.FAILS:
        return Finding(it, outcome, Verdict.OPEN)
    is_cover = it.role is Role.COVER
    if outcome.verdict is Verdict.FAILS:
        return Finding(it, outcome, Verdict.REACHED if is_cover else Verdict.FAILS, max(0, outcome.frame - design.ahead))
    if known and known.never:
        return Finding(it, outcome, Verdict.VACUOUS, None, known.never, NEVER_COVERED if is_cover else NEVER_ASSUMED)
    asked = outcomes.get(asked_key(it, design))
    if asked and asked.verdict is Verdict.HOLDS:
        return Finding(it, outcome, Verdict.VACUOUS, None, asked, NEVER_ASKED)
    unknown = asked and asked.verdict is Verdict.OPEN
    return Finding(it, outcome, Verdict.NEVER if is_cover else Verdict.HOLDS, why=ASKED_OPEN if unknown else "")


def asked_key(it: Property, design: Design) -> str:
    """The key of the property that asks whether this one is asked at all; nothing where it always is."""
    found = asking(it, design)
    return found.key if found else ""


def asking(it: Property, design: Design) -> Optional[Property]:
    """The property that asks whether this one is asked at all."""
    if it.role is not Role.MODEL or it.always_asked or design.enables is None:
        return None
    return next((one for one in design.enables.properties if one.name == it.name), None)


def count_of(findings: Iterable[Finding], *verdicts: Verdict) -> int:
    """How many properties have one of some verdicts."""
    return sum(it.verdict in verdicts for it in findings)


def notes_of(it: Finding, design: Design) -> List[str]:
    """What is to be said beside a verdict, since it changes what that means."""
    return [*([it.why] if it.why else []), *([it.property.note] if it.property.note else []), *design.meaning]
