"""The page, report.html: the design, a table of properties, a picture of each that fails, and what was checked of each that holds."""
import re
import shlex
from pathlib import Path
from typing import List, Optional

from .findings import Finding, count_of, notes_of
from .markup import tag, text
from .model import Evidence, Kind, Role, Said, Verdict
from .pictures import MOST_FRAMES, MOST_ROWS, picture
from .proving import DUMP, FORMULA, PROOF, SAVED, WHOLE_WITNESS, WITNESS
from .results import Outcome, Results
from .summary import findings, known_of, text_name
from .telling import in_vain
from .waves import in_own_frame, read_bits, read_dump, shown

# Sections that stand open at first.
MOST_OPEN = 16
# How many frames of the design are told as one behind those of its model, and why.
STEPS = "Frame {frame} of the design is frame {judged} of the model, in which what was asked there is looked at."
MEANS = {
    Verdict.HOLDS: "It fails in no frame up to which the assumptions hold, from any initial state, under every input sequence.",
    Verdict.FAILS: "There is a run from an initial state, in which all assumptions hold and the property fails in frame {frame}.",
    Verdict.OPEN: "Nothing is known of it: no engine claimed what a check confirmed.",
    Verdict.VACUOUS: "That says nothing of the design: it {why}.",
    Verdict.REACHED: "There is a run from an initial state, in which all assumptions hold and the cover is reached in frame {frame}.",
    Verdict.NEVER: "It is reached in no frame up to which the assumptions hold, from any initial state, under any input sequence.",
}
# The sign and the class of a verdict, so that it is seen without colours too.
SIGNS = {
    Verdict.HOLDS: ("✓", "holds"),
    Verdict.FAILS: ("✗", "fails"),
    Verdict.OPEN: ("?", "open"),
    Verdict.VACUOUS: ("∅", "open"),
    Verdict.REACHED: ("✓", "holds"),
    Verdict.NEVER: ("∅", "open"),
    Verdict.NOT_JUDGED: ("–", "open"),
}
COUNTED = [(Verdict.HOLDS, "hold"), (Verdict.FAILS, "fail"), (Verdict.OPEN, "open")]
COUNTED_IF_ANY = [(Verdict.VACUOUS, "vacuous"), (Verdict.REACHED, "reached"), (Verdict.NEVER, "never reached")]
# The files of certificates.
CERTIFICATES = [it.value for it in Evidence if it.shows is Verdict.HOLDS]
# What the buttons of a picture do: the key that does the same, what stands on the button, and what it means.
BUTTONS = [
    ("+", "+", "fewer frames (+)"),
    ("-", "−", "more frames (-)"),
    ("ArrowLeft", "←", "a frame back (left)"),
    ("ArrowRight", "→", "a frame on (right)"),
    ("Home", "⇤", "to the first frame (Home)"),
    ("0", "0", "as at first (0)"),
]


def beside(name: str) -> str:
    """The text of a file that stands beside this one."""
    return Path(__file__).with_name(name).read_text(encoding="utf-8")


STYLE, SCRIPT = beside("page.css"), beside("page.js")


def page(results: Results, folder: Path) -> str:
    """The page of all that a run came to, whose files stand in a folder."""
    head = [
        '<meta charset="utf-8">\n<meta name="viewport" content="width=device-width, initial-scale=1">\n',
        tag("title", text(f"{results.name}: properties")),
        tag("style", "\n", beside("page.css")),
    ]
    told = findings(results)
    sections = [section(it, results, folder, place < MOST_OPEN) for place, it in enumerate(told)]
    body = [
        front(results, told),
        table(results, told),
        assumptions(results),
        tag("h2", "Property by property"),
        *sections,
        trust(results),
        tag("script", "\n", beside("page.js")),
    ]
    return "<!DOCTYPE html>\n" + tag("html", tag("head", *head), "\n", tag("body", "\n", "\n".join(body)), lang="en") + "\n"


def front(results: Results, told: List[Finding]) -> str:
    """The design, how it was read, how many properties came to what, and what Yosys warned of."""
    design = results.design
    counted = [*COUNTED, *(it for it in COUNTED_IF_ANY if count_of(told, it[0]))]
    counts = [tag("li", f"{word}: {count_of(told, it)}", class_=SIGNS[it][1]) for it, word in counted]
    counts += [tag("li", f"not judged: {len(design.not_judged)}", class_="open")] if design.not_judged else []
    read = tag("p", text(f"read {', '.join(design.notes)}; model "), tag("code", design.model.name), class_="soft")
    left = [f"not below the top, and so left out: {', '.join(design.left_out)}"] if design.left_out else []
    said = [*left, *(f"warning: {it}" for it in design.warnings), *(f"note: {it}" for it in design.meaning)]
    lines = tag("ul", *(tag("li", text(it)) for it in said), class_="said") if said else ""
    return tag("h1", text(results.name)) + read + tag("ul", *counts, class_="counts") + lines


def table(results: Results, told: List[Finding]) -> str:
    """The table of properties, and behind them of what is not judged."""
    head = tag("tr", *(tag("th", it) for it in ["Property", "Verdict", "Checked by", "Found by", "Seconds"]))
    rows = [row(it) for it in told] + [row_not_judged(it) for it in results.design.not_judged]
    return tag("div", tag("table", tag("thead", head), tag("tbody", "\n", "\n".join(rows))), class_="wide")


def row(it: Finding) -> str:
    """A line of the table."""
    key = it.property.key
    name = [tag("a", key, href=f"#{key}"), " ", *named(it.property.name, it.property.place)]
    cells = [
        tag("td", *name),
        tag("td", verdict_words(it), class_=f"verdict {SIGNS[it.verdict][1]}"),
        tag("td", tag("code", it.outcome.check or "-")),
        tag("td", text(it.outcome.engine or "-")),
        tag("td", f"{it.outcome.seconds:.1f}", class_="number"),
    ]
    return tag("tr", *cells, class_="property")


def row_not_judged(it: Said) -> str:
    """A line of the table about what is not judged, and why."""
    sign, kind = SIGNS[Verdict.NOT_JUDGED]
    verdict = tag("td", f"{sign} not judged", class_=f"verdict {kind}")
    what, why = tag("td", text(f"{it.says} "), *named(it.name, it.place)), tag("td", text(it.why), colspan=3)
    return tag("tr", what, verdict, why, class_="unjudged")


def named(name: str, place: str) -> List[str]:
    """A name and a place."""
    return [tag("span", text(name), class_="mono"), " ", tag("span", text(place), class_="soft")]


def assumptions(results: Results) -> str:
    """The assumptions, and for how many frames they can hold."""
    known = known_of(results)
    if known is None:
        return ""
    rows = [tag("li", *named(it.name, it.place)) for it in results.design.assumptions]
    said = [tag("p", text(f"All is said of runs in which these hold; {known}."))] + [tag("ul", *rows)] * bool(rows)
    calls = [call(it, results) for it in (known.reached, known.never) if it]
    return tag("h2", "Assumptions") + "".join(said + calls)


def verdict_words(it: Finding) -> str:
    """A verdict in a word, or with its frame, behind its sign."""
    return f"{SIGNS[it.verdict][0]} {it.words}"


def section(it: Finding, results: Results, folder: Path, is_open: bool) -> str:
    """All about one property."""
    outcome = it.outcome
    parts = [tag("p", text(MEANS[it.verdict].format(frame=it.frame, why=it.why)))]
    parts += [call(one, results) for one in (outcome, it.because) if one and one.command]
    if it.frame is not None:
        parts.append(drawn(it, it.frame, results, folder))
    if outcome.verdict is Verdict.HOLDS:
        parts.append(tag("p", certificate(folder / it.property.key), class_="certificate"))
    notes = [*notes_of(it, results.design), *([results.design.hint] if results.design.hint and it.verdict is Verdict.OPEN else [])]
    parts += [tag("p", text(line), class_="soft") for line in [*notes, *in_vain(outcome)]]
    if outcome.verdict is not Verdict.OPEN:
        parts.append(links(outcome, folder))
    kind = f"verdict {SIGNS[it.verdict][1]}"
    title = [tag("span", verdict_words(it), class_=kind), " ", tag("span", text(it.property), class_="mono")]
    details = tag("summary", *title) + tag("div", *parts, class_="inside")
    return tag("section", tag("details", details, **({"open": ""} if is_open else {})), id=it.property.key)


def call(it: Outcome, results: Results) -> str:
    """The call that says what was judged, and its words."""
    over = "" if it.property.role is Role.MODEL else f" over {text_name(it.property, results.design)}"
    said = f"$ {shlex.join(['hwtool', *it.command])}\n{said_by(it)}"
    return tag("p", f"So says this call{over}:") + tag("pre", text(said), class_="call")


def said_by(it: Outcome) -> str:
    """What a check said: its line, and the one that names the property where that is another."""
    return "\n".join(dict.fromkeys([it.said, it.confirming_line()]))


def links(it: Outcome, folder: Path) -> str:
    """The files of a property."""
    key = it.property.key
    names = [name for name in (WITNESS, WHOLE_WITNESS, DUMP, SAVED, *CERTIFICATES, FORMULA, PROOF) if (folder / key / name).exists()]
    return tag("p", " · ".join(tag("a", name, href=f"{key}/{name}") for name in names), class_="soft")


def drawn(it: Finding, rises: int, results: Results, folder: Path) -> str:
    """The picture of a failing property, or of a cover that is reached, where there is something to draw."""
    at, design, name = folder / it.property.key, results.design, it.property.name or it.property.key
    judged = it.outcome.frame if it.outcome.frame is not None else rises
    try:
        if design.model.kind is Kind.WORDS:
            signals = read_dump(at / DUMP)
        else:
            signals = read_bits(at / WITNESS, design.model.inputs, it.property, judged)
        seen = shown(in_own_frame(signals, judged - rises), it.property, design.clock)
        svg = picture(seen, rises, f"the frames of {it.property} up to frame {rises}")
    except (OSError, ValueError, IndexError, KeyError) as fault:
        return tag("p", text(f"There is no picture: {fault}"), class_="soft")
    notes = ["words in hexadecimal"]
    notes += [f"each frame is an edge of {design.clock}"] if design.clock else []
    notes += [f"the last {MOST_FRAMES} frames up to it"] if rises >= MOST_FRAMES else []
    notes += [f"{len(seen) - MOST_ROWS} more signals are in {DUMP}"] if len(seen) > MOST_ROWS else []
    what = "is reached" if it.verdict is Verdict.REACHED else "fails"
    steps = [f" {STEPS.format(frame=rises, judged=judged)}"] if judged != rises else []
    said = text(f" {what}; {'; '.join(notes)}.")
    caption = tag("figcaption", f"Frame {rises} is marked, in which ", tag("code", text(name)), said, *steps)
    buttons = [tag("button", sign, type="button", data_key=key, title=title, aria_label=title) for key, sign, title in BUTTONS]
    return tag("figure", tag("div", *buttons, class_="tools"), tag("div", svg, class_="wide"), caption, class_="frames-of", tabindex=0)


def certificate(at: Path) -> str:
    """How large a certificate is: the invariant or witness circuit, the formula that it owes, and the proof that refutes that."""
    try:
        what, clauses, steps = reason(at), number_in(at / FORMULA, r"^p cnf \d+ (\d+)"), steps_in(at / PROOF)
    except OSError as fault:
        return text(f"How large the certificate is cannot be told: {fault}")
    return (
        f"{what} The formula that it owes has {clauses} clauses, and the proof that nothing satisfies it {steps} "
        f"{'step' if steps == 1 else 'steps'}."
    )


def reason(at: Path) -> str:
    """How large an invariant is, or a witness circuit."""
    circuit = at / Evidence.WITNESS_CIRCUIT.value
    if circuit.exists():
        latches, gates = (number_in(circuit, rf"^a[ai]g(?: \d+){{{place}}} (\d+)") for place in (2, 4))
        return f"The witness circuit has {latches} latches and {gates} gates."
    cubes = number_in(at / Evidence.INVARIANT.value, r"^\.p (\d+)")
    return f"The invariant: {cubes} {'set' if cubes == 1 else 'sets'} of states that are never reached."


def number_in(path: Path, pattern: str) -> Optional[int]:
    """The number that a line of a file has; nothing where no line has it."""
    with open(path, encoding="utf-8", errors="replace") as file:
        return next((int(found[1]) for found in (re.match(pattern, line) for line in file) if found), None)


def steps_in(path: Path) -> int:
    """How many clauses a proof adds."""
    with open(path, encoding="utf-8", errors="replace") as file:
        return sum(1 for line in file if line.strip() and not line.startswith(("d", "c")))


def trust(results: Results) -> str:
    """What the page says of trust, and how the model came to be."""
    design = results.design
    texts = [piece for it in design.texts for piece in (tag("code", it.name), f" (SHA-256 {it.held.sum}), ")]
    said = [
        f"Each verdict here is the exit status and the words of calls of {text(results.program.version)}, over ",
        *texts,
        "of which the first is the model. Of engines and solvers nothing is trusted, and of hwtool-flow that it hands on these words: ",
        tag("code", "sh check.sh"),
        " makes all the calls again, by hwtool alone.",
    ]
    if design.steps:
        made = tag("p", "That the model is the design's rests on Yosys and these steps:") + tag("pre", text("\n".join(design.steps)))
    else:
        made = tag("p", "The model is the design's file, or what ", tag("code", "hwtool aig-convert --outputs"), " made of it.")
    return tag("h2", "What is trusted") + tag("p", *said) + made
