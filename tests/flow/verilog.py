"""Designs in Verilog whose verdicts are worked out by hand, from tests/designs, and what is told of what a verdict cannot say.

The first line of a design has its truth: `// truth: NAME=VERDICT ..` or `// truth: refused: WORDS OF IT`, and behind `; words:` the
words of the run. A verdict is `holds`, `fails`, `fails@FRAME`, `vacuous`, `reached`, `reached@FRAME`, `never` or `unjudged`. An
assumption may stand there too, as `constraint`.
"""
import concurrent.futures
import os
import re
import shlex
import shutil
import subprocess
import sys

from .common import ALL_HOLD, HOLDS, ONE_FAILS, OPEN, REFUSED, TOP, WORDS, tally

HERE = TOP / "tests/designs"
# Files of other designs.
PARTS = {"two-files-new.sv"}
# Runs side by side.
AT_ONCE = 2
# Verdicts with which all is well.
GOOD = {"holds", "reached", "constraint"}


def truth_of(file):
    """What the first line of a design says: its truth, and the words of the run."""
    line = file.read_text(errors="surrogateescape").split("\n", 1)[0]
    truth, _, words = line.split("truth:", 1)[1].partition("; words:")
    return truth.strip(), shlex.split(words)


def said_of(results):
    """What results.json has of each property and assumption."""
    found = {it["name"]: "constraint" for it in results["assumptions"]["statements"]}
    for it in results["properties"]:
        verdict = "unjudged" if it["verdict"] == "not judged" else it["verdict"]
        found[it["name"]] = verdict if it["frame"] is None else f"{verdict}@{it['frame']}"
    return found


def is_as(wanted, got):
    """Whether a verdict is the one that is wanted, which need not say a frame."""
    return wanted == got or "@" not in wanted and got.split("@")[0] == wanted


def status_of(verdicts):
    """The status that goes with verdicts."""
    kinds = {it.split("@")[0] for it in verdicts}
    return ONE_FAILS if "fails" in kinds else ALL_HOLD if kinds <= GOOD else OPEN


def try_truths(place):
    """Each design has the verdicts of its first line, and no others; check.sh confirms them all."""
    place = place.sub("truths")
    shutil.copytree(HERE, place.folder / "designs")
    files = sorted(it for it in (place.folder / "designs").iterdir() if it.suffix in (".v", ".sv") and it.name not in PARTS)
    with concurrent.futures.ThreadPoolExecutor(AT_ONCE) as pool:
        for _ in pool.map(lambda it: try_truth(place, it), files):
            pass
    tally.true("a word of the command line is not run", not list(place.folder.rglob("was_run")))


def try_truth(place, file):
    """One design."""
    truth, words = truth_of(file)
    there = place.sub(file.name.replace(".", "-"))
    there.folder.rmdir()
    there.folder.symlink_to(place.folder / "designs")
    name = f"../{file.name}.flow"
    done = there.run("-j", "1", "--depth", "20", "--timeout", "120", "-o", name, *words, file.name)
    if truth.startswith("refused:"):
        tally.true(f"{file.name}: refused", done.returncode in (REFUSED, WORDS) and truth[8:].strip() in done.stderr, done.stderr)
        tally.true(f"{file.name}: leaves no folder", not (place.folder / f"{file.name}.flow").exists())
        return
    if done.returncode not in (ALL_HOLD, ONE_FAILS, OPEN):
        tally.true(f"{file.name}: is judged", False, done.stderr)
        return
    results = place.results(f"{file.name}.flow")
    said = said_of(results)
    wanted = dict(it.split("=") for it in truth.split())
    for it, verdict in wanted.items():
        tally.true(f"{file.name}: {it}", is_as(verdict, said.get(it, "nothing")), f"wanted {verdict}, got {said.get(it, 'nothing')}")
    more = {it: verdict for it, verdict in said.items() if it not in wanted and verdict != "constraint"}
    tally.same(f"{file.name}: other properties", {}, more)
    tally.same(f"{file.name}: status", status_of(wanted.values()), done.returncode)
    judged = sum(it["judged"] != "open" for it in [*results["properties"], *results["beside"]] if it["key"])
    status, line = place.checked(f"{file.name}.flow")
    tally.same(f"{file.name}: check.sh", (0, f"{judged} confirmed, 0 not"), (status, line))
    all_checked = done.stdout.splitlines()[-1].split("; ")[-2] == "all checked"
    tally.same(f"{file.name}: all checked", "unjudged" not in wanted.values(), all_checked)


# ---- words about Verilog, and what is told

def try_reading(place):
    """What is told beside verdicts, words that read in other ways, names of all kinds, and refusals."""
    place = place.sub("reading")
    shutil.copytree(HERE, place.folder / "designs")
    told = (try_notes, try_own_reading, try_own_steps, try_effects, try_names, try_refusals, try_assumptions, try_undefined, try_pages)
    for attempt in told:
        attempt(place.sub(attempt.__name__))


def design(name):
    """A design of the folder beside."""
    return f"../designs/{name}"


def try_notes(place):
    """What changes the meaning of verdicts has a number, which stands beside each; warnings are told once; modules that are left out."""
    for name, wanted in {
        "delays.v": "delays (#..) are dropped",
        "gated.v": "a clock that the design makes (g)",
        "black-boxes.v": "secret is a black box",
        "x-words.sv": "not driven, so any bit in each frame: u",
        "initstate-clocks.v": "with several clocks $initstate",
    }.items():
        done = place.run("--depth", "10", design(name))
        notes = [line for line in done.stdout.splitlines() if line.startswith("note [")]
        verdicts = [line for line in done.stdout.splitlines() if " checked " in line and not line.startswith("assumed")]
        tally.true(f"{name}: a note", any(wanted in it for it in notes), done.stdout)
        tally.true(f"{name}: beside each verdict", verdicts and all(it.endswith("[1]") or "[1] " in it for it in verdicts), done.stdout)
        results = place.results(f"{name.split('.')[0]}.flow")
        kept = [it["notes"] for it in results["properties"] if it["key"]]
        tally.true(f"{name}: in results.json", all(any(wanted in line for line in it) for it in kept), kept)
        page = (place.folder / f"{name.split('.')[0]}.flow/report.html").read_text()
        tally.true(f"{name}: on the page", wanted.split("$")[0] in page)
    done = place.run(design("x-words.sv"), "-o", "again.flow", "--property", "a_known")
    told = [line for line in done.stdout.splitlines() if line.startswith("warning") and "used but has no driver" in line]
    tally.same("a warning is told once", 1, len(told))
    tally.same("warnings in results.json", 1, sum("has no driver" in it for it in place.results("again.flow")["warnings"]))
    done = place.run(design("two-top.v"), "--top", "b")
    tally.true("the top and why", "top b (by --top)" in done.stdout and "left out   a: not below the top" in done.stdout, done.stdout)
    said = "not judged assert bad_one" in done.stdout and "1 not judged; all others checked" in done.stdout
    tally.true("what is not judged", said, done.stdout)
    tally.same("its status", OPEN, done.returncode)
    hurry = "import sys\nfrom flow import command_line, yosys\nyosys.SLOW_SECONDS = 0.01\nsys.exit(command_line.main(sys.argv[1:]))\n"
    words = [sys.executable, "-c", hurry, *place.words(design("late.v"))[2:]]
    environment = {**os.environ, "PYTHONPATH": str(TOP / "tools"), "PYTHONDONTWRITEBYTECODE": "1"}
    done = subprocess.run(words, cwd=place.folder, env=environment, capture_output=True, text=True, check=False)
    tally.true("a hint where Yosys is slow", done.stderr.startswith("hwtool-flow: yosys (reading) has taken"), done.stderr)
    done = place.run(design("async-reset.v"), "--engine", "bmc3", "--depth", "3")
    tally.true("a hint where resets keep it open", done.stdout.count("--clocked-resets makes a smaller model") == 3, done.stdout)


def try_own_reading(place):
    """A script that reads in place of files, with all that follows; and none that does more."""
    (place.folder / "read.ys").write_text(f"# the source\nverilog_defines -DTOP=9; read_verilog -formal {design('late.v')}\n")
    done = place.run("--read", "read.ys")
    tally.same("a script that reads", (ONE_FAILS, [4]), (done.returncode, place.verdicts("read.flow")))
    for why, text in {
        "a command": "read_verilog late.v; exec -- touch was_run\n",
        "a line that a shell runs": "!touch was_run\nread_verilog late.v\n",
        "a step that changes the design": "read_verilog late.v\nproc\n",
        "a line that goes on": "read_verilog late.v \\\n; exec -- touch was_run\n",
        "assertions left out": "read_verilog -noassert late.v\n",
        "defaults cleared": "verilog_defaults -clear\nread_verilog late.v\n",
        "a text in the script": "read_verilog <<EOT\nmodule m; endmodule\nEOT\n",
    }.items():
        (place.folder / "bad.ys").write_text(text)
        done = place.run("--read", "bad.ys")
        tally.true(f"--read with {why}", done.returncode == WORDS and "bad.ys" in done.stderr, f"{done.returncode} {done.stderr}")
    tally.true("nothing was run", not list(place.folder.rglob("was_run")))


def try_own_steps(place):
    """Steps in place of the recipe: what was not looked at stands beside each verdict, and the last line does not say that all is."""
    (place.folder / "own.ys").write_text("prep -flatten -top late\ndffunmap\n")
    done = place.run("--yosys", "own.ys", design("late.v"))
    tally.true("what was not looked at", "note [1]   the steps of own.ys were not looked at" in done.stdout, done.stdout)
    tally.true("beside the verdict", re.search(r"^b0 a_not_4 .* \[1\]$", done.stdout, flags=re.M), done.stdout)
    tally.true("the last line", "all checked that own.ys wrote" in done.stdout, done.stdout)
    (place.folder / "arrays.ys").write_text("prep -flatten -top memory\ndffunmap\n")
    done = place.run("--yosys", "arrays.ys", design("memory.v"))
    tally.true("a memory that stays an array is fitted", "fitted, since the model is beyond" in done.stdout, done.stdout)
    said = re.findall(r"^b\d (\w+) +(holds|fails)", done.stdout, flags=re.M)
    tally.same("and judged", [("a_init", "fails"), ("a_read", "holds"), ("a_sync", "holds")], sorted(said))
    words = "reg [31:0] m [0:65535]; always @(posedge clk) if (we) m[at] <= d; always @* a_read: assert (m[at] == 0);"
    (place.folder / "large.v").write_text(f"module memory(input clk, input we, input [15:0] at, input [31:0] d);\n{words}\nendmodule\n")
    done = place.run("--yosys", "arrays.ys", "large.v")
    said = re.search(r"model\.btor2: line \d+: 21 ArraySort, in `\d+ sort array .*`, of \S*large\.v:\d+", done.stderr)
    tally.true("a refused line is the model's, with its place", done.returncode == REFUSED and said, done.stderr)


def try_effects(place):
    """Words that would have no effect are refused."""
    (place.folder / "own.ys").write_text("prep -flatten -top late\ndffunmap\n")
    (place.folder / "reads.ys").write_text(f"read_verilog {design('late.v')}\nprep -flatten -top late\ndffunmap\n")
    model = TOP / "examples/counter.btor2"
    for words in (
        ["--yosys", "own.ys", "--top", "late", design("late.v")],
        ["--yosys", "own.ys", "--param", "W=3", design("late.v")],
        ["--yosys", "own.ys", "--clocked-resets", design("late.v")],
        ["--yosys", "own.ys", "--zero-undefined", design("late.v")],
        ["--yosys", "reads.ys", "-D", "X", design("late.v")],
        ["--yosys", "reads.ys", "-I", ".", design("late.v")],
        ["--read", "own.ys", design("late.v")],
        [model, "--top", "late"],
        [model, "-D", "X"],
        [model, "--clocked-resets"],
        [],
    ):
        done = place.run(*words)
        tally.same(f"without effect: {' '.join(map(str, words))}", WORDS, done.returncode)


def try_names(place):
    """Names of files, folders, modules and parameters that Yosys would expand or run, and texts that are no UTF-8."""
    text = (HERE / "name.v").read_text()
    (place.folder / "a1.v").write_text(text.replace("q <= 0", "q <= 1"))
    odd = ["a[1].v", "a*.v", "a?.v", "it's \"this\".v", "a; exec -- touch was_run.v", "!touch was_run.v", "line\nfeed.v"]
    odd += ["~.v", "-D.v", "{a}.v", "#a.v"]
    for name in [*odd, os.fsdecode(b"latin-\xe9.v")]:
        (place.folder / name).write_text(text)
        done = subprocess.run(
            [os.fsencode(it) for it in place.words("-o", "odd.flow", "--", name)],
            cwd=place.folder,
            capture_output=True,
            check=False,
        )
        said = done.stderr.decode("utf-8", "replace")
        tally.same(f"{name!r}: status", (ALL_HOLD, ""), (done.returncode, said))
        if done.returncode == ALL_HOLD:
            told = place.results("odd.flow")["properties"][0]["place"]
            tally.true(f"{name!r}: its place", told.endswith(":3.76-3.95"), told)
        shutil.rmtree(place.folder / "odd.flow", ignore_errors=True)
    above = place.folder / "in [1] $(x); y"
    above.mkdir()
    (above / "beside.v").write_text((HERE / "beside.v").read_text())
    (above / "beside.vh").write_text((HERE / "beside.vh").read_text())
    tally.same("an include beside, in a folder with such a name", ALL_HOLD, place.run(above / "beside.v").returncode)
    (place.folder / "include.v").write_text(text.replace("module", '`include "beside.vh"\nmodule', 1))
    tally.same("-I of such a folder", ALL_HOLD, place.run("include.v", "-I", above).returncode)
    (place.folder / "bytes.v").write_bytes(text.encode() + b"// \xff\xfe\xe9 no UTF-8\n")
    tally.same("bytes that are no UTF-8", ALL_HOLD, place.run("bytes.v").returncode)
    for words in (
        ["--top", "name\n!touch was_run"],
        ["--top", "name; exec -- touch was_run"],
        ["--param", "A=1; exec -- touch was_run"],
        ["-D", "A=\n!touch was_run"],
    ):
        tally.same(f"{words}: refused", WORDS, place.run(*words, "bytes.v").returncode)
    tally.same("nothing was run", [], [it.name for it in place.folder.rglob("was_run")])


def try_refusals(place):
    """The refusal of an assertion that Yosys does not read shows the line and names the table; another syntax error does not."""
    taken = {
        "assert property (@(posedge clk) a |-> b);": True,
        "assert property (a |=> b);": True,
        "assert property (disable iff (a) b);": True,
        "assert property (a) else $error(\"no\");": True,
        "assert property (a ##1 b);": True,
        "default clocking @(posedge clk); endclocking": True,
        "sequence s; a ##1 b; endsequence": True,
        "assign c = = a;": False,
    }
    for line, names in taken.items():
        text = f"module sva(input clk, input a, input b);\n  {line}\n  always @* assert (a || !a);\nendmodule\n"
        (place.folder / "sva.sv").write_text(text)
        done = place.run("sva.sv")
        tally.true(f"{line}: refused with the line", done.returncode == REFUSED and "that line is `" in done.stderr, done.stderr)
        tally.same(f"{line}: the table is named", names, "docs/FLOW.md has a table" in done.stderr)
    tally.true("the table is there", "## Assertions that Yosys takes" in (TOP / "docs/FLOW.md").read_text())


def try_assumptions(place):
    """Assumptions of each kind of design: for how many frames they hold, and what is so where they never do."""
    texts = {
        "never.btor2": "1 sort bitvec 1\n2 input 1 a\n3 not 1 2\n4 constraint 2 high\n5 constraint 3\n6 state 1 q\n7 zero 1\n8 init 1 6 7\n"
        "9 next 1 6 2\n10 bad 6 rises\n",
        "never.aag": "aag 2 1 1 0 0 1 2\n2\n4 2\n4\n2\n3\nb0 rises\nc0 high\n",
    }
    for name, text in texts.items():
        (place.folder / name).write_text(text)
        done = place.run(name, "-o", f"{name}.flow")
        results = place.results(f"{name}.flow")
        tally.same(f"{name}: vacuous", (OPEN, ["vacuous"]), (done.returncode, place.verdicts(f"{name}.flow")))
        said = "holds only since the assumptions never do" in done.stdout and "assuming   high" in done.stdout
        tally.true(f"{name}: in words", said, done.stdout)
        tally.same(f"{name}: for how many frames", (0, 1), (results["assumptions"]["hold_for"], results["assumptions"]["never_for"]))
        tally.same(f"{name}: check.sh", (0, "2 confirmed, 0 not"), place.checked(f"{name}.flow"))
    for frames, wanted, said in (("4", HOLDS, (4, None)), ("5", "vacuous", (4, 5)), ("60", "vacuous", (4, 5))):
        done = place.run(design("vacuous-later.v"), "--frames", frames, "-o", "later.flow")
        known = place.results("later.flow")["assumptions"]
        tally.same(f"--frames {frames}", (wanted, said), (place.verdicts("later.flow")[0], (known["hold_for"], known["never_for"])))
        tally.same(f"--frames {frames}: check.sh", (0, f"{place.judged('later.flow')} confirmed, 0 not"), place.checked("later.flow"))
    done = place.run(design("vacuous-later.v"), "--engine", "bmc3", "--frames", "6", "-o", "open.flow")
    said = "whether the assumptions can hold for 6 frames is open" in done.stdout
    tally.true("open assumptions", done.returncode == ONE_FAILS and said, done.stdout)
    proofs = 'proofs=berkeley-abc -q "read_aiger {form}; strash; pdr -d -I {invariant}"'
    done = place.run(design("vacuous-antecedent.v"), "--engine", proofs, "--property", "a_asked")
    said = "whether it is ever asked is open" in done.stdout and "all others checked" in done.stdout
    tally.true("open whether it is asked", done.returncode == OPEN and said, done.stdout)
    again = place.run(design("vacuous-later.v"), "-o", "later.flow", "--frames", "60")
    tally.true("a second run", "the assumptions never hold for 5 frames; for 4 frames they can, checked" in again.stdout, again.stdout)


def try_undefined(place):
    """What --zero-undefined makes of x: all of it is 0, and that is told."""
    for name, wanted in {
        "x-words.sv": {"a_case": HOLDS, "a_full": HOLDS, "a_lit": HOLDS, "a_undriven": HOLDS, "a_known": HOLDS, "a_reg": 0},
        "x-index.v": {"a_bit": HOLDS, "a_part": HOLDS, "a_inside": HOLDS, "a_param": HOLDS, "a_mem": HOLDS},
        "x-divide.v": {"a_q": 0, "a_r": 0, "a_s": 0, "a_fine": HOLDS},
    }.items():
        done = place.run("--zero-undefined", design(name))
        results = place.results(f"{name.split('.')[0]}.flow")
        got = {it["name"]: it["frame"] if it["frame"] is not None else it["verdict"] for it in results["properties"]}
        tally.same(f"{name} with 0", wanted, got)
        tally.true(f"{name}: told", "--zero-undefined" in done.stdout and "undefined bits as 0" in done.stdout, done.stdout)


def try_pages(place):
    """The page has what is not judged, the assumptions, one row for a word of 80 bits, and the frame of the design."""
    place.run(design("wide-words.v"))
    page = (place.folder / "wide-words.flow/report.html").read_text()
    tally.true("a word of 80 bits in one row", "<title>w[79:0]</title>" in page and "<title>w[0]</title>" not in page)
    tally.true("in hexadecimal", "00000000000000000004" in page)
    tally.true("the assumptions", "assume_6" in page and "the assumptions can hold for" in page)
    place.run(design("live.sv"))
    page = (place.folder / "live.flow/report.html").read_text()
    tally.true("what is not judged", "not judged: 1" in page and "a_live" in page)
    place.run(design("async-reset.v"), "--property", "a_step")
    results, page = place.results("async-reset.flow"), (place.folder / "async-reset.flow/report.html").read_text()
    frame = next(it["frame"] for it in results["properties"] if it["name"] == "a_step")
    tally.true("the frame of the design", f"Frame {frame} is marked" in page and f"is frame {frame + 1} of the model" in page)
    tally.true("the marked one", f'class="marked" x="{frame}"' in page)
