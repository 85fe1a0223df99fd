"""Engines and solvers that lie, in each way, and those that tell the truth in each form."""
import os
import re
import shutil
import subprocess
import sys

from .common import ALL_HOLD, EXAMPLES, HOLDS, MAKER, ONE_FAILS, OPEN, TOP, left_over, liar, maker, tally


BY_INVARIANT = maker("--invariant found", 'berkeley-abc -q "read_aiger {form}; strash; pdr -d -I found" >&2; ')


def true_files(place):
    """What true engines write of the queue: counterexamples, an invariant, a proof, witnesses; by kind and number."""
    place.run(EXAMPLES / "flow/queue.v", "-o", "true.flow")
    at = place.folder / "true.flow"
    files = {"invariant": at / "b1/invariant", "proof": at / "b1/proof", "formula": at / "b1/formula.cnf"}
    files["witness circuit"] = place.folder / "true1.aig"
    words = ["--invariant", files["invariant"], "-o", files["witness circuit"], at / "b1/form.aig"]
    subprocess.run([sys.executable, MAKER, *words], check=True)
    for number in (0, 2):
        into = place.folder / f"true{number}.cex"
        abc = f"read_aiger {at}/b{number}/form.aig; bmc3 -F 40; write_cex -a {into}"
        subprocess.run(["berkeley-abc", "-q", abc], check=True, stdout=subprocess.DEVNULL)
        files.update({f"counterexample {number}": into, f"witness {number}": at / f"b{number}/witness"})
    return files


def lies(files):
    """Engines and solvers that lie about the queue: the words for each, and which verdict they claim of b2."""
    other, own = files["counterexample 0"], files["counterexample 2"]
    engines = {
        "cut": liar("cut", own, "{counterexample}"),
        "a frame short": liar("a_frame_short", own, "{counterexample}"),
        "turned": liar("turned", own, "{counterexample}"),
        "of another property": liar("given", other, "{counterexample}"),
        "a model's witness of another property": liar("given", files["witness 0"], "{model_witness}", handed="{model}"),
        "the same on standard output": liar("told", files["witness 0"], handed="{model}"),
        "a model's witness as one of the form": liar("told", files["witness 2"]),
        "no invariant": liar("no_invariant", "{invariant}"),
        "no set of states": liar("all_states", "{invariant}"),
        "a set with the first state": liar("the_first_state", "{invariant}"),
        "an invariant of another property": liar("given", files["invariant"], "{invariant}"),
        "a witness circuit that is always safe": liar("always_safe", "{witness_circuit}"),
        "a witness circuit that is never met": liar("never_met", "{witness_circuit}"),
        "a witness circuit of a literal that is not there": liar("no_such_literal", "{witness_circuit}"),
        "a witness circuit of two properties": liar("two_properties", "{witness_circuit}"),
        "a witness circuit of another property": liar("given", files["witness circuit"], "{witness_circuit}"),
        "the form as its own witness circuit": liar("given", "{form}", "{witness_circuit}"),
        "an induction that does not go through": maker("--induction 3"),
        "an invariant as a witness circuit": liar("given", files["invariant"], "{witness_circuit}"),
        "rubbish as a witness circuit": liar("rubbish", "{witness_circuit}"),
        "a witness circuit without end": liar("without_end", "{witness_circuit}"),
        "nothing": liar("nothing", "{counterexample}"),
        "rubbish": liar("rubbish", "{counterexample}"),
        "rubbish as an invariant": liar("rubbish", "{invariant}"),
        "a text without end": liar("without_end", "{counterexample}"),
        "an invariant without end": liar("without_end", "{invariant}"),
        "a link": liar("a_link", "{counterexample}"),
        "a pipe": liar("a_pipe", "{invariant}"),
        "a folder": liar("a_folder", "{counterexample}"),
        "a crash": liar("crash", "{counterexample}"),
        "a failure": liar("fail", "{counterexample}"),
        "no end": liar("hang", "{counterexample}"),
        "children that go on": liar("leave_child", "{counterexample}"),
        "a form that is spoilt": liar("spoil", "{form}"),
    }
    solvers = {
        "the empty clause at once": liar("at_once", "{proof}", handed="{formula}"),
        "a proof of another formula": liar("given", EXAMPLES / "followers.proof", "{proof}", handed="{formula}"),
        "the formula in place of a proof": liar("given", files["formula"], "{proof}", handed="{formula}"),
        "an empty proof": liar("nothing", "{proof}", handed="{formula}"),
        "rubbish as a proof": liar("rubbish", "{proof}", handed="{formula}"),
        "a link as a proof": liar("a_link", "{proof}", handed="{formula}"),
        "a pipe as a proof": liar("a_pipe", "{proof}", handed="{formula}"),
        "a solver that crashes": liar("crash", "{proof}", handed="{formula}"),
        "a solver without end": liar("hang", "{proof}", handed="{formula}"),
    }
    return engines, solvers


# What is said of a lie: the check that does not confirm it, or that there is no claim. Of the others no more is asked than that
# nothing is confirmed.
SAID_OF = {
    "cut": "lift: malformed",
    "a frame short": "lift: not reached: b2",
    "of another property": "lift: not reached: b2",
    "a model's witness of another property": "check-btor: accepted 1 frames, but of another property than b2",
    "the same on standard output": "check-btor: accepted 1 frames, but of another property than b2",
    "a model's witness as one of the form": "lift: ",
    "no invariant": "check-proof: not derived",
    "no set of states": "check-proof: not derived",
    "a set with the first state": "obligation: ",
    "a witness circuit that is always safe": "check-proof: not derived",
    "a witness circuit that is never met": "check-proof: not derived",
    "a witness circuit of a literal that is not there": "214 NoSuchLiteral",
    "a witness circuit of two properties": "213 SeveralProperties",
    "a witness circuit of another property": "check-proof: not derived",
    "the form as its own witness circuit": "check-proof: not derived",
    "an induction that does not go through": "check-proof: not derived",
    "an invariant as a witness circuit": "obligation: ",
    "rubbish as a witness circuit": "obligation: ",
    "rubbish": "lift: malformed",
    "rubbish as an invariant": "obligation: ",
    "nothing": "status 0",
    "a text without end": "",
    "a crash": "killed by signal 11",
    "a failure": "status 1: this engine does not work",
    "no end": "out of time",
    "the empty clause at once": "check-proof: not implied",
    "a proof of another formula": "check-proof: ",
    "an empty proof": "check-proof: not derived",
    "rubbish as a proof": "check-proof: malformed",
    "a solver that crashes": "it wrote no proof: killed by signal 11",
    "a solver without end": "it wrote no proof: out of time",
}


def try_lies(place):
    """An engine that lies: by itself nothing is confirmed, and before others the verdicts are as without it."""
    place = place.sub("lies")
    files = true_files(place)
    queue = EXAMPLES / "flow/queue.v"
    engines, solvers = lies(files)
    for way, command in engines.items():
        alone = place.run(queue, "-o", "alone.flow", "--engine", f"liar={command}", "--property", "2", "--timeout", "6")
        tally.same(f"{way}, alone", (OPEN, None), (alone.returncode, place.verdict("alone.flow", 2)))
        tally.true(f"{way}: what is said", SAID_OF.get(way, "") in alone.stdout, alone.stdout + alone.stderr)
        first = place.run(
            queue,
            "-o",
            "first.flow",
            "--engine",
            f"liar={command}",
            "--engine",
            "bmc3",
            "--engine",
            "pdr",
            "--property",
            "2",
            "--timeout",
            "20",
        )
        tally.same(
            f"{way}, before others",
            (ONE_FAILS, 5, "bmc3"),
            (first.returncode, place.verdict("first.flow", 2), "bmc3" if " bmc3 " in first.stdout else first.stdout + first.stderr),
        )
        tally.same(f"{way}: check.sh", (OPEN, "2 confirmed, 0 not, 2 open"), place.checked("first.flow"))
        kept = sorted(it.name for it in (place.folder / "first.flow/b2").iterdir())
        tally.same(f"{way}: what is kept", ["dump.gtkw", "dump.vcd", "form.aig", "witness"], kept)
        tally.same(f"{way}: nothing goes on", [], left_over(place))
        for it in ("alone.flow", "first.flow"):
            shutil.rmtree(place.folder / it, ignore_errors=True)
    for way, command in solvers.items():
        done = place.run(queue, "-o", "alone.flow", "--engine", "pdr", "--solver", f"liar={command}", "--property", "1", "--timeout", "8")
        tally.same(f"{way}, alone", (OPEN, None), (done.returncode, place.verdict("alone.flow", 1)))
        tally.true(f"{way}: what is said", SAID_OF.get(way, "") in done.stdout, done.stdout + done.stderr)
        shutil.rmtree(place.folder / "alone.flow")


def try_other_forms(place):
    """Engines that tell the truth in the other forms: witnesses of the form and of the model, in files and on standard output."""
    place = place.sub("forms")
    files = true_files(place)
    form = files["witness 2"].with_name("form.aig")
    inputs = int(form.read_bytes().split(None, 3)[2])
    first, *frames = files["counterexample 2"].read_text().replace("# DONE", "").split()
    tally.same("a frame's bits", {inputs}, set(map(len, frames)))
    (place.folder / "form.witness").write_text("\n".join(["1", "b0", first, *frames, "."]) + "\n\n\r")
    for way, command in {
        "a witness of the form": liar("given", place.folder / "form.witness", "{witness}"),
        "a witness of the form on standard output": liar("told", place.folder / "form.witness"),
        "a witness of the model": liar("given", files["witness 2"], "{model_witness}", handed="{model}"),
        "a witness of the model on standard output": liar("told", files["witness 2"], handed="{model}"),
    }.items():
        done = place.run(EXAMPLES / "flow/queue.v", "-o", "other.flow", "--engine", f"other={command}", "--property", "2")
        tally.true(
            way, done.returncode == ONE_FAILS and re.search(r"fails in frame 5 +checked +other", done.stdout), done.stdout + done.stderr
        )
        shutil.rmtree(place.folder / "other.flow")
    try_witness_circuits(place)
    try_hinted_proofs(place)


def try_hinted_proofs(place):
    """Solvers that write proofs with hints: one that is named, CaDiCaL where its help says that it can, and one that lies."""
    place = place.sub("hinted")
    queue = EXAMPLES / "flow/queue.v"
    refute = f"{sys.executable} {TOP}/tests/hinted.py --refute"
    words = [queue, "-o", "hinted.flow", "--engine", "pdr", "--property", "1"]
    done = place.run(*words, "--solver", f"hints={refute} {{formula}} {{hinted_proof}}")
    tally.same("a proof with hints", (ALL_HOLD, HOLDS), (done.returncode, place.verdict("hinted.flow", 1)))
    kept = sorted(it.name for it in (place.folder / "hinted.flow/b1").iterdir())
    tally.same("a proof with hints: what is kept", ["form.aig", "formula.cnf", "invariant", "proof.lrat"], kept)
    tally.same("a proof with hints: check.sh", (OPEN, "2 confirmed, 0 not, 2 open"), place.checked("hinted.flow"))
    again = place.run(*words, "--solver", "none=false {proof}")
    tally.same("a proof with hints: a second run", (ALL_HOLD, HOLDS), (again.returncode, place.verdict("hinted.flow", 1)))
    shutil.rmtree(place.folder / "hinted.flow")
    known = place.folder / "bin/cadical"
    known.parent.mkdir()
    known.write_text(f'#!/bin/sh\ncase $1 in --help) echo "  --lrat" ;; --version) echo 9 ;; *) PATH={os.environ["PATH"]} exec {refute} "$4" "$5" ;; esac\n')
    known.chmod(0o755)
    done = place.run(*words, env={**os.environ, "PATH": f"{known.parent}:{os.environ['PATH']}"})
    tally.same("CaDiCaL that knows hints", (ALL_HOLD, HOLDS), (done.returncode, place.verdict("hinted.flow", 1)))
    kept = sorted(it.name for it in (place.folder / "hinted.flow/b1").iterdir())
    tally.same("CaDiCaL that knows hints: what is kept", ["form.aig", "formula.cnf", "invariant", "proof.lrat"], kept)
    shutil.rmtree(place.folder / "hinted.flow")
    lie = liar("given", EXAMPLES / "followers.proof", "{hinted_proof}", handed="{formula}")
    done = place.run(*words, "--solver", f"liar={lie}", "--timeout", "8")
    tally.same("a proof without hints", (OPEN, None), (done.returncode, place.verdict("hinted.flow", 1)))
    tally.true("a proof without hints: what is said", "check-proof: malformed" in done.stdout, done.stdout + done.stderr)


def try_witness_circuits(place):
    """Engines that give witness circuits, of a model and of a circuit; what is kept, confirmed again, and not where it was changed."""
    designs = {"flow/queue.v": (1, [None, HOLDS, None]), "skips.btor2": (0, [HOLDS]), "ring.aag": (0, [HOLDS])}
    for way, command in {"three frames": maker("--induction 3"), "an invariant": BY_INVARIANT}.items():
        for design, (number, wanted) in designs.items():
            what, at = f"{design}, a witness circuit of {way}", place.folder / "circuit.flow"
            words = [EXAMPLES / design, "-o", "circuit.flow", "--property", number]
            # the assumptions are for another engine
            done = place.run(*words, "--engine", f"other={command}", "--engine", "bmc3")
            tally.same(f"{what}: verdicts", (ALL_HOLD, wanted), (done.returncode, place.verdicts("circuit.flow")))
            left, assumed = ((OPEN, ", 2 open"), 1) if len(wanted) == 3 else ((0, ""), 0)
            tally.same(f"{what}: check.sh", (left[0], f"{1 + assumed} confirmed, 0 not{left[1]}"), place.checked("circuit.flow"))
            kept = sorted(it.name for it in (at / f"b{number}").iterdir())
            tally.same(f"{what}: what is kept", ["form.aig", "formula.cnf", "proof", "witness-circuit"], kept)
            tally.true(f"{what}: the page", "The witness circuit has " in (at / "report.html").read_text())
            mark = place.folder / "called"
            again = place.run(*words, "--engine", f"touch=touch {mark} {{form}}")
            seen = again.returncode, place.verdicts("circuit.flow"), mark.exists()
            tally.same(f"{what}: a second run", (ALL_HOLD, wanted, False), seen)
            (at / f"b{number}/witness-circuit").write_text("aag 0 0 0 0 0 1\n0\n")
            spoilt = (1, f"{assumed} confirmed, 1 not{left[1]}, 1 differing")
            tally.same(f"{what}: check.sh over another one", spoilt, place.checked("circuit.flow"))
            again = place.run(*words, "--engine", "bmc3")
            seen = again.returncode, place.verdict("circuit.flow", number)
            tally.same(f"{what}: a second run over another one", (OPEN, None), seen)
            shutil.rmtree(at)
