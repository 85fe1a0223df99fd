"""The page: what stands in it without scripts, and what a browser makes of it."""
import html.parser
import pathlib
import re
import shutil
import subprocess
import tempfile

from .common import EXAMPLES, tally


# Signals of the picture of a queue without room: the assumption, the property, three inputs without the clock, eight registers,
# an output, a wire.
QUEUE_SIGNALS = 1 + 1 + 3 + 8 + 1 + 1


class Page(html.parser.HTMLParser):
    """What stands in a page: its rows, signals, marks, texts, and what it would load from elsewhere."""

    def __init__(self, text):
        super().__init__()
        self.rows, self.signals, self.marked, self.loads, self.texts, self.views = 0, [], [], [], [], []
        self.in_signal = False
        self.feed(text)

    def handle_starttag(self, tag, attrs):
        attrs = dict(attrs)
        kind = attrs.get("class") or ""
        self.rows += tag == "tr" and kind == "property"
        self.signals += [[]] if kind == "waves" else []
        self.marked += [int(attrs["x"])] if kind == "marked" else []
        self.views += [attrs["viewbox"]] if kind == "frames" else []
        self.loads += [attrs[it] for it in ("src", "href", "data") if it in attrs and not attrs[it].startswith(("#", "b"))]
        if tag == "text":
            self.in_signal = kind.startswith("signal")
            self.signals[-1] += [""] if self.in_signal else []

    def handle_endtag(self, tag):
        self.in_signal &= tag != "text"

    def handle_data(self, data):
        self.texts.append(data)
        if self.in_signal:
            self.signals[-1][-1] += data


def chromium(page, *words):
    """What Chromium says of a page; it is tried again where it hangs."""
    profile = pathlib.Path(tempfile.mkdtemp())
    flags = ["--headless", "--no-sandbox", "--disable-gpu", "--disable-dev-shm-usage", "--no-first-run", f"--user-data-dir={profile}"]
    try:
        for _ in range(3):
            # into a file: a process that it leaves may hold a pipe
            with open(profile / "said", "w+", encoding="utf-8") as said:
                try:
                    subprocess.run(
                        ["chromium", *flags, *words, page.as_uri()], stdout=said, stderr=subprocess.DEVNULL, timeout=60, check=True
                    )
                    said.seek(0)
                    return said.read()
                except subprocess.TimeoutExpired:
                    pass
        return "chromium hangs"
    finally:
        shutil.rmtree(profile, ignore_errors=True)


def dumped(page, width, script=""):
    """What Chromium has of a page in a window of a width, after a script."""
    text = page.read_text().replace("</body>", f"<script>{script}</script></body>")
    into = page.with_name("looked-at.html")
    into.write_text(text)
    return chromium(into, f"--window-size={width},900", "--dump-dom")


def try_page(place, screenshot):
    """The page: what stands in it without scripts; and in a browser, at two widths, and by the keyboard."""
    place = place.sub("page")
    shutil.copyfile(EXAMPLES / "flow/queue.v", place.folder / "queue.v")
    place.run("queue.v")
    page = place.folder / "queue.flow/report.html"
    text = page.read_text()
    look_at("without a browser", Page(text))
    tally.same("what is loaded from elsewhere", [], re.findall(r"https?://|url\(|@import", text))
    place.run(EXAMPLES / "twice.aag")
    seen = Page((place.folder / "twice.flow/report.html").read_text())
    tally.same("the page of a circuit", ([["twicetwice", "xx"]], [1]), (seen.signals, seen.marked))
    if not shutil.which("chromium"):
        print("left out: the page in a browser, since there is no chromium")
        return
    for width in (1200, 500):
        looked = dumped(
            page,
            width,
            "document.title = [document.documentElement.scrollWidth <= innerWidth, getComputedStyle(document.querySelector('.tools')).display]",
        )
        look_at(f"in a window of {width}", Page(looked))
        tally.true(f"the page fits {width}", "<title>true,flex</title>" in looked, re.findall("<title>.*</title>", looked))
    press = (
        "const it = document.querySelectorAll('figure')[1]; it.focus(); const f = it.querySelector('svg.frames'), seen = [];"
        "for (const key of ['+', 'Home', 'ArrowRight', '-', '0']) { it.dispatchEvent(new KeyboardEvent('keydown', {key}));"
        "seen.push(f.getAttribute('viewBox').split(' ').slice(0, 3).join(' ')); }"
        "document.title = [document.activeElement === it, ...seen].join(';')"
    )
    # six frames; two thirds of them around the middle; from the first; one on; all; as at first
    looked = dumped(page, 1200, press)
    seen = "<title>true;1 0 4;0 0 4;1 0 4;0 0 6;0 0 6</title>" in looked
    tally.true("zoom by the keyboard", seen, re.findall("<title>.*</title>", looked))
    if screenshot:
        # of the three properties the last one stands open
        closed = page.with_name("looked-at.html")
        closed.write_text(text.replace('<details open="">', "<details>", 2))
        chromium(closed, "--hide-scrollbars", "--window-size=980,1260", f"--screenshot={screenshot}")
        tally.true("the screenshot", 0 < pathlib.Path(screenshot).stat().st_size < 200_000)


def look_at(how, seen):
    """What the page of the queue has to have."""
    tally.same(f"{how}: rows and marks", (3, [0, 5]), (seen.rows, seen.marked))
    tally.same(f"{how}: signals", [QUEUE_SIGNALS, QUEUE_SIGNALS], list(map(len, seen.signals)))
    tally.same(f"{how}: frames", ["0 0 1", "0 0 6"], [it.rsplit(" ", 1)[0] for it in seen.views])
    tally.same(
        f"{how}: the assumption and the property stand first",
        ["assumption 0", "assert_has_room"],
        [it[: len(it) // 2] for it in seen.signals[1][:2]],
    )
    texts = " ".join(seen.texts)
    for it in (
        "✗ fails in frame 5",
        "✓ holds",
        "hwtool check-proof --bad 1 --names model.btor2 b1/invariant b1/proof",
        "b2 is reached in frame 5",
        "queue.v:34",
    ):
        tally.true(f"{how}: {it}", it in texts)
    tally.same(f"{how}: what is loaded", [], seen.loads)
