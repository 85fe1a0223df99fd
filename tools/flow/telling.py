"""The lines on the terminal: one for each property that is done, and, on a terminal, one for each that runs."""
from typing import List, Optional, TextIO

from .findings import Assumed, Finding, count_of
from .model import Design, Property, Verdict, counted
from .proving import Running
from .results import Outcome, Results
from .summary import known_of

WIDEST_NAME = 40
# How many running properties are shown at once.
MOST_SHOWN = 16


class Teller:
    """Writes lines; those of running properties stand below the others, and are written over."""

    def __init__(self, into: TextIO, names: List[str]) -> None:
        self.into, self.live, self.shown = into, into.isatty(), 0
        self.width = min(WIDEST_NAME, max(map(len, names), default=0))

    def say(self, line: str) -> None:
        """Writes a line that stays."""
        self.clear()
        print(line, file=self.into, flush=True)

    def done(self, it: Finding, design: Design) -> None:
        """Writes what came of a property, and what was claimed of it in vain."""
        checked = "-" if it.verdict is Verdict.OPEN else "checked"
        marks = "".join(f" [{place}]" for place in range(1, len(design.meaning) + 1))
        seconds = it.outcome.seconds
        self.say(f"{self.padded(it.property)}   {it.words:18}  {checked:8}  {it.outcome.engine or '-':9}  {seconds:.1f} s{marks}")
        for line in beside(it, design):
            self.say(f"    {line}")

    def assumed(self, known: Assumed) -> None:
        """Writes what is known of the assumptions."""
        self.say(f"assumed    {known}{', checked' if known.is_settled else ''}")

    def padded(self, it: Property) -> str:
        """A property, with blanks behind it."""
        return f"{str(it):{self.width}}"

    def clear(self) -> None:
        """Takes the lines of running properties away."""
        if self.shown:
            self.into.write(f"\x1b[{self.shown}A\x1b[J")
            self.shown = 0

    def show(self, running: List[Running], undone: int) -> None:
        """Writes a line for each property that runs."""
        if not self.live:
            return
        self.clear()
        lines = [f"{self.padded(it.property)}   {it.how_far()}" for it in running[:MOST_SHOWN]]
        lines += [f"{undone - len(lines)} more"] if undone > len(lines) else []
        self.into.write("".join(line + "\n" for line in lines))
        self.into.flush()
        self.shown = len(lines)


def in_vain(it: Outcome) -> List[str]:
    """What is to be said of an outcome beside it: claims that no check confirmed, and what broke."""
    lines = [
        f"{one.engine}: claims that it {claim.verdict.value}; not confirmed by {claim.check}: {claim.said}"
        for one in it.tries
        for claim in one.claims
        if not claim.confirmed
    ]
    if it.verdict is Verdict.OPEN:
        lines += [
            f"{one.engine}: {one.ended}, after {one.seconds:.1f} s"
            + ("" if one.frame is None else f", in frame {one.frame} by its own word")
            for one in it.tries
            if not one.claims
        ]
    return [*lines, *filter(None, [it.broke])]


def beside(it: Finding, design: Design) -> List[str]:
    """What is to be said beside a verdict, other than what is said of each."""
    own = [*filter(None, [it.why, it.property.note])]
    return [*own, *in_vain(it.outcome), *([design.hint] if design.hint and it.verdict is Verdict.OPEN else [])]


def head_lines(name: str, design: Design) -> List[str]:
    """What is told of a design before any verdict."""
    covers = len(design.covers.properties) if design.covers else 0
    asked = len(design.model.properties)
    count = f"{counted(asked, 'assertion')}, {counted(covers, 'cover')}" if covers else counted(asked, "property", "properties")
    lines = [f"reading    {name} {', '.join([design.notes[0], count, *design.notes[1:]])}"]
    lines += [f"assuming   {it.name}" + (f" ({it.place})" if it.place else "") for it in design.assumptions]
    lines += [f"left out   {', '.join(design.left_out)}: not below the top"] if design.left_out else []
    lines += [f"not judged {it}: {it.why}" for it in design.not_judged]
    lines += [f"warning    {it}" for it in design.warnings]
    return lines + [f"note [{place + 1}]   {it}" for place, it in enumerate(design.meaning)]


def summary(told: List[Finding], results: Results, is_whole: bool, folder: str) -> str:
    """The last line."""
    holds, fails, left = (count_of(told, it) for it in (Verdict.HOLDS, Verdict.FAILS, Verdict.OPEN))
    others = [(it, count_of(told, it)) for it in (Verdict.VACUOUS, Verdict.REACHED, Verdict.NEVER)]
    apart = len(results.design.not_judged) if is_whole else 0
    counts = [f"{holds} hold{'s' * (holds == 1)}", f"{fails} fail{'s' * (fails == 1)}", f"{left} open"]
    counts += [f"{count} {it.value}" for it, count in others if count] + ([f"{apart} not judged"] if apart else [])
    all_said = all(it.is_settled for it in told) and not apart and is_settled(known_of(results))
    whole = f"all checked that {results.design.own_steps} wrote" if results.design.own_steps else "all checked"
    checked = whole if all_said else "all others checked" if len(told) > left else "nothing checked"
    return f"{counted(len(told), 'property', 'properties')}: {', '.join(counts)}; {checked}; results in {folder}/"


def is_settled(known: Optional[Assumed]) -> bool:
    """Whether nothing about the assumptions is open."""
    return known is None or known.is_settled
