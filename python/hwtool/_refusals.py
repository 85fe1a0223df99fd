"""Refusals, and what to do about them."""

from __future__ import annotations

from typing import Dict, Iterable, NamedTuple, Optional, Tuple

from ._library import name_of
from ._remedies import CASES

_OFTEN = "What is met most"

# The parts of the table that speak of each kind of text, beside what is met most, which speaks of all. Of several groups the
# first one counts that has the refusal.
_PARTS = {
    "model": ({"Texts of models", "Items of a model", "Lowering", "Runs and judges", "Dumps", "Engine forms"},),
    "circuit": ({"Texts of circuits", "Engine forms"},),
    "invariant": ({"Invariants and certificates"},),
    "witness of a model": ({"Witnesses"},),
    "witness of a circuit": ({"Witnesses of circuits"}, {"Witnesses"}),
    "proof": ({"Formulas and proofs"},),
}


class Case(NamedTuple):
    """One case of a refusal: the part of the tool that tells it, its name, when it is told, and what to do then."""

    part: str
    name: str
    when: str
    remedy: str


def explain(number: int) -> Tuple[Case, ...]:
    """What the refusal, or the fault of a line, with this number means and what to do about it: its cases, those first that are
    met most. Empty where no refusal has this number."""
    return tuple(Case(*case) for case in CASES.get(number, ()))


def name(number: int) -> str:
    """The name of the refusal, or of the fault of a line, with this number, as the program prints it: `name(23)` is
    `UnknownOperator`. Raises LookupError where no refusal has this number."""
    found = name_of(number)
    if found is None:
        raise LookupError(f"no refusal has the number {number}")
    return found


def _cases_of(number: int, kind: str) -> Iterable[Case]:
    """The cases that this kind of text may meet, those apart that come of the same as one before them."""
    cases = explain(number)
    for parts in _PARTS[kind]:
        if any(case.part in parts for case in cases):
            cases = tuple(case for case in cases if case.part == _OFTEN or case.part in parts)
            break
    distinct: Dict[str, Case] = {}
    for case in cases:
        distinct.setdefault(case.when, case)
    return distinct.values()


def remedy_of(number: int, kind: str) -> str:
    """What to do: where there are several cases a line for each, which says when it is that one."""
    cases = list(_cases_of(number, kind))
    if len(cases) == 1:
        return cases[0].remedy
    return "\n".join(f"{case.when}: {case.remedy}" for case in cases)


class Refused(Exception):
    """A text, or what it says, is not taken. `str` of it is the line that the program prints.

    - `number` and `name`: what is wrong with it, as docs/REFUSALS.md of the repository tells;
    - `kind`: which text it is, `model`, `circuit`, `invariant` or `witness circuit`;
    - `unit` and `place`: where it is. `line`, from 1, of the text of a model or an invariant; `byte`, from 0, of that of a
      circuit or a witness circuit; `item`, the id of a line of a model that is well-formed and not taken by this call; both None where it is about
      the whole;
    - `file`: the path that the text was read from, or None;
    - `remedy`: what to do about it. Where it depends, a line for each case.
    """

    def __init__(
        self, number: int, name: str, kind: str, unit: Optional[str] = None, place: Optional[int] = None, file: Optional[str] = None
    ) -> None:
        super().__init__(number, name, kind, unit, place, file)
        self.number = number
        self.name = name
        self.kind = kind
        self.unit = unit
        self.place = place
        self.file = file

    @property
    def remedy(self) -> str:
        return remedy_of(self.number, self.kind)

    def __str__(self) -> str:
        place = "" if self.unit is None else f"{self.unit} {self.place}: "
        return f"{self.kind if self.file is None else self.file}: {place}{self.number} {self.name}"
