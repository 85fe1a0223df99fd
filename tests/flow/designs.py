"""Designs, the words and names around them, and what is told of them."""
import os
import pathlib
import pty
import re
import shutil
import subprocess

from .common import ALL_HOLD, BROKE, EXAMPLES, HOLDS, ONE_FAILS, OPEN, REFUSED, WORDS, liar, tally


# What is wanted of each property, in order: that it holds, or the first frame in which it fails.
DESIGNS = {
    # nothing resets `full`; the ends go with the count; the fifth word is taken in frame 4, and counted in frame 5
    "flow/queue.v": [0, HOLDS, 5],
    # a clock rises at the earliest in frame 1, and again in frame 3
    "flow/two-clocks.v": [3],
    # the reset holds the count down first; a latch begins with any bit
    "flow/reset.v": [HOLDS, 0],
    "flow/undefined.v": [0],
    # from place 0 to place 3 in three steps; a ring loses nothing
    "flow/wide.v": [3, HOLDS],
    # what begins with any word begins with 1
    "any-start.btor2": [0],
    "free.btor2": [0],
    "counter.btor2": [3],
    "toggler.btor2": [1],
    "followers.btor2": [HOLDS],
    "guarded.btor2": [HOLDS],
    "wraps.btor2": [HOLDS],
    "two-counters.btor2": [7, HOLDS],
    "skips.btor2": [HOLDS],
    "apart.btor2": [HOLDS],
    "drains.btor2": [HOLDS],
    "ring.aag": [HOLDS],
    "twice.aag": [1],
}


def try_designs(place):
    """The examples: each verdict is the one that is wanted and checked, and check.sh confirms it again."""
    place = place.sub("designs")
    for design, wanted in DESIGNS.items():
        name = f"{pathlib.Path(design).stem}.flow"
        done = place.run(EXAMPLES / design, "-j", "2")
        tally.same(f"{design}: verdicts", wanted, place.verdicts(name))
        tally.same(f"{design}: status", ONE_FAILS if any(it != HOLDS for it in wanted) else ALL_HOLD, done.returncode)
        tally.same(f"{design}: errors", "", done.stderr)
        tally.same(f"{design}: check.sh", (0, f"{place.judged(name)} confirmed, 0 not"), place.checked(name))
        tally.true(
            f"{design}: the last line", done.stdout.splitlines()[-1].endswith(f"0 open; all checked; results in {name}/"), done.stdout
        )
    try_steps(place)


def over_whole_model(place, folder):
    """What is judged of the first property's witness over the model as it was before it was fitted, and that witness."""
    found = [place.folder / folder / it for it in ("whole-model.btor2", "b0/whole-witness")]
    done = subprocess.run([place.program, "check-btor", "--fit", *found], capture_output=True, text=True, check=False)
    return done.stdout, found[1].read_text()


def try_steps(place):
    """What is seen in a design, and said of it; and words that say otherwise."""
    reading = {
        "queue": ["by yosys", "top queue (the only root)", "one clock"],
        "two-clocks": ["by yosys", "top two_clocks (the only root)", "2 clocks (see_clk, send_clk), by clk2fflogic"],
        "reset": ["by yosys", "top reset (the only root)", "one clock, resets or latches that do not wait for it, by clk2fflogic"],
        "undefined": ["by yosys", "top undefined (the only root)", "no clock", "undefined bits as any"],
        "wide": ["by yosys", "top wide (the only root)", "one clock", "words of more than 64 bits in pieces"],
    }
    for name, wanted in reading.items():
        tally.same(f"{name}: what is said of it", wanted, place.results(f"{name}.flow")["reading"])
    said, text = over_whole_model(place, "wide.flow")
    tally.same("wide: a witness over words as they stand in the source", "accepted 4 frames\n", said)
    tally.true("wide: with their names", re.search(r"^0 0{95}1 ring@0$", text, flags=re.M), text)
    (place.folder / "begun.btor2").write_text(BEGUN)
    place.run("begun.btor2")
    said, text = over_whole_model(place, "begun.flow")
    tally.same("begun: a witness over an array that begins with another", "accepted 1 frames\n", said)
    tally.true("begun: without its first words", "\n#0\n@0\n" in text, text)
    place.run(EXAMPLES / "flow/undefined.v", "--zero-undefined", "-o", "zero.flow")
    tally.same("undefined bits as 0", [HOLDS], place.verdicts("zero.flow"))
    place.run(EXAMPLES / "flow/reset.v", "--clocked-resets", "-o", "sync.flow")
    tally.same(
        "resets with the clock",
        ([HOLDS, 0], 3),
        (place.verdicts("sync.flow"), len(re.findall(" state ", (place.folder / "sync.flow/model.btor2").read_text()))),
    )
    (place.folder / "own.ys").write_text("prep -flatten -top undefined\nsetundef -undriven -zero\n")
    place.run(EXAMPLES / "flow/undefined.v", "--yosys", "own.ys", "-o", "own.flow")
    tally.same("a script of one's own", [HOLDS], place.verdicts("own.flow"))
    shutil.copytree(EXAMPLES / "flow", place.folder / "recipe")
    subprocess.run(place.words("--yosys", "queue.ys", "queue.v"), cwd=place.folder / "recipe", check=False, stdout=subprocess.DEVNULL)
    tally.same("a script that reads and writes files", [0, HOLDS, 5], place.verdicts("recipe/queue.flow"))
    (place.folder / "outputs.aag").write_text("aag 1 0 1 1 0\n2 3\n2\no0 late\n")
    place.run("outputs.aag")
    tally.same(
        "outputs as properties", ([1], "late"), (place.verdicts("outputs.flow"), place.results("outputs.flow")["properties"][0]["name"])
    )
    try_own_designs(place)


# Designs of a few lines: by the name of a file its text, what is said of it, and what is wanted of its properties.


# An array that begins with another, which is an input.
BEGUN = """1 sort bitvec 1
2 sort array 1 1
3 input 2 start
4 state 2 cells
5 init 2 4 3
6 next 2 4 4
7 input 1 at
8 read 1 4 7
9 bad 8
"""

# Designs of a few lines: by the name of a file its text, what is said of it, and what is wanted of its properties.
OWN = {
    # rises in frame 1 at the earliest, falls in frame 2
    "edges.v": (
        "module edges(input clk);\nreg a = 0, b = 0;\nalways @(posedge clk) a <= !a;\nalways @(negedge clk) b <= a;\n"
        "always @* both: assert (!(a && b));\nendmodule\n",
        ["by yosys", "2 clocks (clk, falling clk), by clk2fflogic"],
        [2],
    ),
    # what is read of a clock where it rises is what it was before
    "reads.v": (
        "module reads(input clk);\nreg seen = 0;\nalways @(posedge clk) seen <= clk;\nalways @* never: assert (!seen);\nendmodule\n",
        ["by yosys", "one clock, which is read too, by clk2fflogic"],
        [HOLDS],
    ),
    # each clock rises in frame 1 at the earliest, and what is written there is read then
    "memory.v": (
        "module memory(input one, other, input [1:0] at, input word, output seen);\nreg cells [0:3];\ninteger i;\n"
        "initial for (i = 0; i < 4; i = i + 1) cells[i] = 0;\n"
        "always @(posedge one) cells[at] <= word;\nalways @(posedge other) cells[at] <= 0;\nassign seen = cells[at];\n"
        "always @* dark: assert (!seen);\nendmodule\n",
        ["by yosys", "2 clocks (one, other), by clk2fflogic"],
        [1],
    ),
    # a latch is open or keeps what it had, and begins with any bit
    "latch.v": (
        "module latch(input open, in, output reg kept);\nalways @* if (open) kept = in;\n"
        "always @* keeps: assert (!open || kept == in);\nalways @* dark: assert (!kept);\nendmodule\n",
        ["by yosys", "no clock, resets or latches that do not wait for it, by clk2fflogic"],
        [0, HOLDS],
    ),
    "words.sv": (
        "module words(input logic clk);\nlogic [3:0] count = 0;\nalways_ff @(posedge clk) count <= count == 9 ? 0 : count + 1;\n"
        "always_comb low: assert (count < 10);\nalways_comb five: assert (count != 5);\nendmodule\n",
        ["by yosys", "one clock"],
        [5, HOLDS],
    ),
    # the name of a property has those of the modules around it
    "parts.v": (
        "module part(input clk, output reg [1:0] n);\ninitial n = 0;\nalways @(posedge clk) n <= n + 1;\nalways @* three: assert (n != 3);\n"
        "endmodule\nmodule whole(input clk);\nwire [1:0] a, b;\npart p(clk, a);\npart q(clk, b);\nalways @* same: assert (a == b);\nendmodule\n",
        ["by yosys", "one clock"],
        [3, 3, HOLDS],
    ),
}


def try_own_designs(place):
    """Designs of a few lines."""
    for name, (text, said, wanted) in OWN.items():
        (place.folder / name).write_text(text)
        done = place.run(name)
        folder = f"{pathlib.Path(name).stem}.flow"
        tally.true(f"{name}: status", done.returncode == (ONE_FAILS if wanted != [HOLDS] else ALL_HOLD), f"{done.returncode} {done.stderr}")
        if (place.folder / folder).exists():
            by_name = dict(zip([it["name"] for it in place.results(folder)["properties"]], place.verdicts(folder)))
            tally.same(f"{name}: what is said", said, place.results(folder)["reading"][:1] + place.results(folder)["reading"][2:])
            tally.same(f"{name}: verdicts", wanted, [by_name[it] for it in sorted(by_name)])
    files = ["part.v", "whole.v"]
    for file, text in zip(files, OWN["parts.v"][0].split("module whole")):
        (place.folder / file).write_text(("module whole" if file == "whole.v" else "") + text)
    place.run(*files, "--top", "whole", "-o", "both.flow")
    tally.same("two files", ["p.three", "q.three", "same"], sorted(it["name"] for it in place.results("both.flow")["properties"]))


def try_words(place):
    """One property alone, the results printed, words and inputs that are refused."""
    place = place.sub("words")
    queue = EXAMPLES / "flow/queue.v"
    done = place.run(queue, "--property", "assert_ends_agree")
    tally.same("one property", (ALL_HOLD, [None, HOLDS, None]), (done.returncode, place.verdicts("queue.flow")))
    done = place.run(queue, "--property", "2", "--json")
    tally.same("the other ones stay", (ONE_FAILS, [None, HOLDS, 5]), (done.returncode, place.verdicts("queue.flow")))
    tally.same("results that are printed", (place.folder / "queue.flow/results.json").read_text(), done.stdout)
    tally.same(
        "a shallow search",
        (OPEN, [None]),
        (place.run(EXAMPLES / "counter.btor2", "--depth", "3", "--engine", "bmc3").returncode, place.verdicts("counter.flow")),
    )
    for why, words in {
        "a property that is none": [queue, "--property", "7"],
        "an engine that is none": [queue, "--engine", "none"],
        "a command without a form": [queue, "--engine", "it=true"],
        "an unknown placeholder": [queue, "--engine", "it=true {form} {else}"],
        "no depth": [queue, "--depth", "0"],
        "no time": [queue, "--timeout", "soon"],
        "no language": ["words.txt"],
        "no design": [],
    }.items():
        (place.folder / "words.txt").write_text("")
        done = place.run(*words)
        tally.same(why, (WORDS, ""), (done.returncode, done.stdout.partition("reading")[0]))
    inputs = {
        "module none(input a, output b);\nassign b = !a;\nendmodule\n": ("none.v", "assert"),
        "1 sort bitvec 1\n2 input 1\n": ("none.btor2", "bad"),
        "aag 1 1 0 0 0\n2\n": ("none.aag", "bad property"),
        "module broken(": ("broken.v", "ERROR"),
        "1 sort bitvec 65\n2 input 1\n3 fair 2\n": ("wide.btor2", "line 3: 6 SortMismatch; hwtool explain 6"),
        "aag x\n": ("broken.aag", "50 BadHeader"),
        "1 sort bitvec 1\n2 input 1\n3 justice 1 2\n4 bad 2\n": ("justice.btor2", "90 Justice"),
    }
    for text, (name, wanted) in inputs.items():
        (place.folder / name).write_text(text)
        done = place.run(name)
        tally.true(
            f"{name}: refused",
            done.returncode == REFUSED and wanted in done.stderr and name in done.stderr,
            f"{done.returncode} {done.stderr}",
        )
        tally.true(f"{name}: nothing is left", not (place.folder / name.replace(name.split(".")[-1], "flow")).exists())
    tally.same("a file that is not there", BROKE, place.run("nowhere.v").returncode)
    done = place.run(queue, "-o", ".")
    tally.true("a folder of something else", done.returncode == WORDS and "no folder of results" in done.stderr, done.stderr)
    try_terminal(place)


def try_terminal(place):
    """On a terminal there is a line for each property that runs, with how long and how far."""
    ours, theirs = pty.openpty()
    words = place.words(
        EXAMPLES / "two-counters.btor2", "--engine", "hang=" + liar("hang", "{counterexample}"), "--engine", "bmc3", "--timeout", "6"
    )
    process = subprocess.Popen(words, cwd=place.folder, stdout=theirs, stderr=theirs)
    os.close(theirs)
    seen = b""
    try:
        while piece := os.read(ours, 65536):
            seen += piece
    except OSError:
        pass
    os.close(ours)
    process.wait()
    tally.true("what runs is shown", re.search(rb"b0 +hang, [0-9]+ s", seen) and b"\x1b[" in seen, repr(seen))
    tally.true("what is done stays", re.search(rb"b0 +fails in frame 7 +checked +bmc3 +", seen), repr(seen))


def try_names(place):
    """Names with blanks, quotes and signs of the shell, of the folder and the files."""
    place = place.sub("a 'b' \"c\" $(d) ; e")
    for design, wanted in {"flow/queue.v": [0, HOLDS, 5], "two-counters.btor2": [7, HOLDS]}.items():
        end = pathlib.Path(design).suffix
        for name in [f"q u'e\"u$(e)` & [x] *{end}", f"-x{end}", f"~y{end}", f"<<z{end}", f"é{end}"]:
            shutil.copyfile(EXAMPLES / design, place.folder / name)
            done = place.run("-j", "2", "--", name)
            folder = f"{pathlib.Path(name).stem}.flow"
            tally.same(f"{name}: status", (ONE_FAILS, ""), (done.returncode, done.stderr))
            if done.returncode == ONE_FAILS:
                tally.same(f"{name}: verdicts", wanted, place.verdicts(folder))
                tally.same(f"{name}: check.sh", (0, f"{place.judged(folder)} confirmed, 0 not"), place.checked(f"./{folder}"))
            shutil.rmtree(place.folder / folder, ignore_errors=True)
