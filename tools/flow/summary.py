"""results.json: all that a run came to, for other programs."""
import json
from dataclasses import asdict
from typing import Any, Dict, List, Optional

from .findings import Assumed, Finding, assumed, finding, notes_of
from .model import Design, Property, Role, Said, Verdict
from .results import Outcome, Results, texts_of


def known_of(results: Results) -> Optional[Assumed]:
    """What is known of the assumptions."""
    return assumed(results.design, results.outcomes.values(), results.frames)


def found(it: Property, results: Results) -> Finding:
    """What is known of a property."""
    return finding(it, results.design, results.outcomes, known_of(results))


def findings(results: Results) -> List[Finding]:
    """What is known of each property of the design."""
    return [found(it, results) for it in results.design.properties]


def as_json(results: Results) -> str:
    """The text of results.json."""
    design = results.design
    properties = [property_json(it, design) for it in findings(results)] + [said_json(it) for it in design.not_judged]
    front = {
        "design": results.name,
        "sources": [{"name": str(it.path), "sum": it.sum} for it in results.sources],
        "model": design.model.name,
        "sum": design.model.held.sum,
        "texts": texts_of(design),
        "reading": design.notes,
        "notes": design.meaning,
        "warnings": design.warnings,
        "left_out": design.left_out,
        "steps": design.steps,
        "program": results.program.version,
        "tools": [asdict(it) for it in [results.program, *results.tools]],
        "assumptions": assumptions_json(results),
    }
    beside = [it.as_json() for it in results.judged() if it.property.role in (Role.ENABLES, Role.FRAMES)]
    return json.dumps({**front, "properties": properties, "beside": beside}, indent=1) + "\n"


def property_json(it: Finding, design: Design) -> Dict[str, Any]:
    """The object of a property: what is known of it, and what was judged over its text."""
    says = "cover" if it.property.role is Role.COVER else "assert"
    front = {"name": it.property.name, "place": it.property.place, "says": says, "verdict": it.verdict.value, "frame": it.frame}
    because = it.because.property.key if it.because else ""
    more = {"over": text_name(it.property, design), "because": because, "notes": notes_of(it, design)}
    return {**front, **more, **it.outcome.as_json()}


def said_json(it: Said) -> Dict[str, Any]:
    """The object of a statement that is not judged, and why."""
    front = {"key": "", "number": None, "name": it.name, "place": it.place, "says": it.says}
    return {**front, "verdict": Verdict.NOT_JUDGED.value, "frame": None, "notes": [it.why]}


def assumptions_json(results: Results) -> Dict[str, Any]:
    """The assumptions, and for how many frames they can hold, and never do."""
    known = known_of(results)
    statements = [{"name": it.name, "place": it.place} for it in results.design.assumptions]
    told: Dict[str, Any] = {"statements": statements, "asked": results.frames}
    if known is None:
        return {**told, "hold_for": None, "never_for": None, "said": "no assumptions"}
    return {**told, "hold_for": known.most, "never_for": known.fewest, "said": str(known)}


def text_name(it: Property, design: Design) -> str:
    """The name of the text that a property is judged over."""
    return next(one.name for one in design.texts if one.role is it.role)


def shown_by(it: Outcome, design: Design) -> str:
    """What stands before the line of a check where it is not over the model."""
    return "" if it.property.role is Role.MODEL else f"{text_name(it.property, design)}: "
