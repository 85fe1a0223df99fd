"""What is asked of a design, by the provers of its texts: each property; whether it is asked at all; how long the assumptions can hold."""
from typing import Dict, List

from .findings import asking
from .model import Design, Property, Role, Verdict
from .proving import Prover, Running
from .results import Outcome

# What stands between a try of so many frames and the next one of fewer, where the first is open.
FEWER = 10


class Asker:
    """Asks provers, one for each text, and puts what they answer where all judgements are."""

    def __init__(self, design: Design, provers: Dict[Role, Prover], outcomes: Dict[str, Outcome]) -> None:
        self.design, self.provers, self.outcomes = design, provers, outcomes

    def ask(self, it: Property) -> Outcome:
        """What comes of a property of a text, which is noted also where all is to stop."""
        known = self.outcomes.get(it.key)
        if known and known.verdict is not Verdict.OPEN:
            return known
        self.outcomes[it.key] = self.provers[it.role].prove(it)
        return self.outcomes[it.key]

    def property(self, it: Property) -> None:
        """Asks about a property of the design; where it holds, whether it is asked at all."""
        if self.ask(it).verdict is Verdict.HOLDS:
            asked = asking(it, self.design)
            if asked:
                self.ask(asked)

    def shown(self) -> List[Running]:
        """What is being worked on."""
        return [it for prover in self.provers.values() for it in prover.shown()]

    # ---- the assumptions

    def assumptions(self, frames: int) -> None:
        """Asks whether the assumptions can hold for so many frames; else for how many they can, and for how many they never do."""
        if self.design.frames is None:
            return
        asked = self.design.frames.properties
        last = min(frames + self.design.ahead, len(asked)) - 1
        verdict = self.ask(asked[last]).verdict
        if verdict is Verdict.HOLDS:
            self.narrowed(asked, last)
        elif verdict is Verdict.OPEN:
            self.fewer(asked, last)

    def narrowed(self, asked: List[Property], never: int) -> None:
        """Finds the first frame up to which the assumptions never hold."""
        reached_at = -1
        while never - reached_at > 1:
            # most assumptions that contradict each other do so early
            place = min((reached_at + never) // 2, 2 * reached_at + 2)
            verdict = self.ask(asked[place]).verdict
            if verdict is Verdict.OPEN:
                break
            reached_at, never = (place, never) if verdict is Verdict.FAILS else (reached_at, place)
        found = [it for it in asked if it.key in self.outcomes]
        reached = [it for it in found if self.outcomes[it.key].verdict is Verdict.FAILS]
        held = [it for it in found if self.outcomes[it.key].verdict is Verdict.HOLDS]
        for it in found:
            if it not in (reached[-1:] + held[:1]):
                self.forget(it)

    def fewer(self, asked: List[Property], last: int) -> None:
        """Where so many frames are open, asks for fewer of them until that is known."""
        while last > self.design.ahead:
            last = max(last // FEWER, self.design.ahead)
            if self.ask(asked[last]).verdict is not Verdict.OPEN:
                return

    def forget(self, it: Property) -> None:
        """Drops a judgement that says no more than others."""
        del self.outcomes[it.key]
        self.provers[it.role].folder.keep(it.key, [])
