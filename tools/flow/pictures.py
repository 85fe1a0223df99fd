"""Frames of signals as a picture (SVG): it is whole without scripts, and a script of the page may show other frames of it.

What stands in frames (lines, boxes, marks) is one nested picture whose unit is a frame, so that a view of it is a change of
its `viewBox`. What is written stands above it, each text with its first frame and its number of frames.
"""
from dataclasses import dataclass
from typing import Iterator, List, Sequence, Tuple

from .markup import tag, text
from .waves import Scope, Signal

NAMES, WIDTH, WIDEST_FRAME, ROW, HEAD = 200, 960, 80, 22, 26
# Frames that are shown at first; frames that a picture has at most (the last ones), and rows.
FIRST_VIEW, MOST_FRAMES, MOST_ROWS = 12, 240, 60
# How small a picture may become on a narrow page.
LEAST_SIZE = 0.65
LETTER = 7.2
# How far the slanted ends of a word reach into its frame, how far lines stay from the ends of their row, and texts from its foot.
SLANT, GAP, FOOT = 0.07, 4, 7
HEADINGS = {Scope.INPUT: "inputs", Scope.STATE: "registers", Scope.OUTPUT: "outputs", Scope.NODE: "wires"}
KINDS = {Scope.PROPERTY: " bad", Scope.ASSUMPTION: " assumed"}


@dataclass(frozen=True)
class View:
    """The frames that a picture has, from the first to before the last; those that are shown; and how wide one is."""

    first: int
    last: int
    begin: int
    count: int
    scale: float

    @property
    def width(self) -> int:
        """The width of all that is shown."""
        return round(self.count * self.scale)


def view_of(frames: int, marked: int) -> View:
    """What is shown at first of so many frames: the last ones up to the marked one."""
    end = min(marked + 1, frames)
    first = max(0, end - MOST_FRAMES)
    last = min(frames, first + MOST_FRAMES)
    begin = max(first, end - FIRST_VIEW)
    count = min(FIRST_VIEW, last - begin)
    return View(first, last, begin, count, min(WIDEST_FRAME, (WIDTH - NAMES) / count))


@dataclass(frozen=True)
class Label:
    """A text in the middle of some frames in turn."""

    value: str
    begin: int
    count: int
    y: int
    kind: str

    def drawn(self, view: View) -> str:
        """The text in the middle of what is shown of its frames; what has no room is cut, or not shown."""
        left, right = max(self.begin, view.begin), min(self.begin + self.count, view.begin + view.count)
        room = int(((right - left) * view.scale - 8) / LETTER)
        shown = self.value if len(self.value) <= room else self.value[: room - 1] + "…" if room > 1 else ""
        x = round(NAMES + ((left + right) / 2 - view.begin) * view.scale, 1) if right > left else NAMES
        return tag(
            "text",
            text(shown) if right > left else "",
            class_=self.kind,
            x=x,
            y=self.y,
            data_f=self.begin,
            data_n=self.count,
            data_v=self.value,
        )


def picture(signals: Sequence[Signal], marked: int, title: str) -> str:
    """The last frames of signals up to the marked one, and some behind it."""
    view = view_of(len(signals[0].words), marked)
    rows = list(placed(signals[:MOST_ROWS]))
    height = rows[-1][1] + ROW + GAP
    shapes = [tag("rect", class_="marked", x=marked, y=0, width=1, height=height), grid(view, height)]
    labels = [Label(str(frame), frame, 1, HEAD - 10, "frame") for frame in range(view.first, view.last)]
    names: List[str] = []
    for before, (it, y) in zip([None, *signals], rows):
        names += [heading(it.scope, y)] if it.scope in HEADINGS and (before is None or before.scope is not it.scope) else []
        names.append(name(it, y))
        shapes += [box(it, y, view)] if it.width > 1 else levels(it, y, view)
        labels += (
            [Label(hexadecimal(word), begin, end - begin, y + ROW - FOOT, "value") for word, begin, end in runs(it, view)]
            if it.width > 1
            else []
        )
    frames = tag(
        "svg",
        *shapes,
        class_="frames",
        x=NAMES,
        y=0,
        width=view.width,
        height=height,
        viewBox=f"{view.begin} 0 {view.count} {height}",
        preserveAspectRatio="none",
    )
    whole = NAMES + view.width
    return tag(
        "svg",
        tag("g", *names),
        frames,
        tag("g", *(it.drawn(view) for it in labels), class_="texts"),
        class_="waves",
        role="img",
        aria_label=title,
        viewBox=f"0 0 {whole} {height}",
        style=f"max-width: {whole}px; min-width: {LEAST_SIZE * whole:.0f}px",
        data_first=view.first,
        data_last=view.last,
        data_from=view.begin,
        data_count=view.count,
        data_names=NAMES,
        data_width=whole,
        data_letter=LETTER,
    )


def placed(signals: Sequence[Signal]) -> Iterator[Tuple[Signal, int]]:
    """Signals with their heights; where another kind begins there is room for its heading."""
    y, scope = HEAD, None
    for it in signals:
        if it.scope is not scope and it.scope in HEADINGS:
            y += ROW
        scope = it.scope
        yield it, y
        y += ROW


def heading(scope: Scope, y: int) -> str:
    """What stands above the first signal of a kind."""
    return tag("text", HEADINGS[scope], class_="kind", x=NAMES - 8, y=y - 6)


def name(it: Signal, y: int) -> str:
    """The name of a signal, in front of its row; the end of a long one is left out."""
    whole = it.label + (f"[{it.width - 1}:0]" if it.width > 1 else "")
    most = int((NAMES - 14) / LETTER)
    cut = whole if len(whole) <= most else whole[: most - 1] + "…"
    return tag("text", tag("title", text(whole)), text(cut), class_=f"signal{KINDS.get(it.scope, '')}", x=NAMES - 8, y=y + ROW - FOOT)


def grid(view: View, height: int) -> str:
    """A line where each frame begins."""
    return tag("path", class_="grid", d="".join(f"M{it} {HEAD - 6}V{height}" for it in range(view.first, view.last + 1)))


def runs(it: Signal, view: View) -> Iterator[Tuple[str, int, int]]:
    """The words of a signal, each with the first frame that has it and the first behind that has another."""
    begin = view.first
    for frame in range(view.first + 1, view.last + 1):
        if frame == view.last or it.words[frame] != it.words[begin]:
            yield it.words[begin], begin, frame
            begin = frame


def levels(it: Signal, y: int, view: View) -> List[str]:
    """A bit as a line that is high or low, with what is below it where it is high."""
    high, low, line, area = y + GAP, y + ROW - GAP, "", ""
    for word, begin, end in runs(it, view):
        line += f"{'L' if line else 'M'}{begin} {high if word == '1' else low}H{end}"
        area += f"M{begin} {low}V{high}H{end}V{low}Z" if word == "1" else ""
    kind = KINDS.get(it.scope, "")
    return [*([tag("path", class_=f"area{kind}", d=area)] if area else []), tag("path", class_=f"line{kind}", d=line)]


def box(it: Signal, y: int, view: View) -> str:
    """A word as a box with slanted ends for all frames in turn that have it."""
    high, low, middle = y + GAP, y + ROW - GAP, y + ROW / 2
    line = "".join(
        f"M{begin} {middle}L{begin + SLANT} {high}H{end - SLANT}L{end} {middle}L{end - SLANT} {low}H{begin + SLANT}Z"
        for _, begin, end in runs(it, view)
    )
    return tag("path", class_="line", d=line)


def hexadecimal(word: str) -> str:
    """A word in hexadecimal digits, as many as its width takes."""
    return f"{int(word, 2):0{(len(word) + 3) // 4}x}"
