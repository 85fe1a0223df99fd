#!/usr/bin/env python3
"""Tries `check-btor --fit`, `unfit` and `unfit --back` on random witnesses of models with words of any width, beside a judge that is
written here from docs/FORMATS.md.

    unfitted.py [PROGRAM] [--rounds N] [--seed N] [--keep FOLDER]

PROGRAM is crates/hwtool/out/hwtool where none is given. Models are those of fitted.py. A witness of each is made with random words, of
which some are left out, and of some something is spoilt. What `check-btor --fit` tells of it has to be what the judge here says, line and
reason among it. What `unfit --back` writes of it is judged by `check-btor` over the fitted model, and a witness of the fitted model, of
which some pieces are left out, is brought back by `unfit` and judged here: the same has to be said of both. It says how much was tried;
--keep keeps what came out wrong. The status is 0 where nothing did, else 1.
"""
import argparse
import json
import pathlib
import random
import re
import subprocess
import sys
import tempfile

TOP = pathlib.Path(__file__).resolve().parent.parent
sys.dont_write_bytecode = True
sys.path.insert(0, str(TOP / "tests"))
from fitted import Model, Wrong, pieces, random_model  # noqa: E402

DECIMAL = re.compile(r"(0|[1-9][0-9]*)\Z")
SYMBOL = re.compile(r"[!-:<-~][!-~]{0,254}\Z")


class Malformed(Exception):
    """A line that may not stand there, and why."""


class Judge:
    """Reads the text of a witness of a model, line by line, and judges it."""

    def __init__(self, model):
        self.model, self.claims, self.frames, self.place = model, [], [], "status"
        self.states, self.inputs = None, {}

    def claim(self, line):
        found = [re.match(r"([bj])(0|[1-9][0-9]*)\Z", it) for it in line.split(" ")]
        if not all(found):
            raise Malformed("111 BadClaim")
        if any(it[1] == "j" for it in found):
            raise Malformed("112 JusticeClaim")
        self.claims = [int(it[2]) for it in found]
        if len(set(self.claims)) < len(self.claims) or max(self.claims) >= len(self.model.bads):
            raise Malformed("111 BadClaim")

    def assign(self, line, ids, part, may):
        index, _, rest = line.partition(" ")
        if not DECIMAL.match(index) or int(index) >= len(ids) or not may(ids[int(index)]):
            raise Malformed("114 BadIndex")
        if int(index) in part:
            raise Malformed("115 IndexTwice")
        value, space, symbol = rest.partition(" ")
        if " " not in line or len(value) != self.model.width[ids[int(index)]] or set(value) - set("01x"):
            raise Malformed("116 BadValue")
        if "x" in value:
            raise Malformed("117 Undetermined")
        if space and not SYMBOL.match(symbol):
            raise Malformed("121 BadSymbol")
        part[int(index)] = int(value, 2)

    def close(self, place):
        self.frames.append((self.states or {}, self.inputs))
        self.states, self.inputs, self.place = None, {}, place

    def take(self, line):
        """One line; answers whether it says that nothing is claimed."""
        model, k = self.model, len(self.frames)
        if self.place == "status":
            if line in ("unsat", "unknown"):
                return True
            if not line.startswith(";"):
                if line != "sat":
                    raise Malformed("110 BadHeader")
                self.place = "claims"
        elif self.place == "claims":
            self.claim(line)
            self.place = "parts"
        elif self.place == "parts":
            if line not in ("#0", "@0"):
                raise Malformed("113 FrameOrder")
            self.place, self.states = ("states", {}) if line == "#0" else ("inputs", None)
        elif self.place == "states" and line == f"@{k}":
            self.place = "inputs"
        elif self.place == "inputs" and line == f"@{k + 1}":
            self.close("inputs")
        elif self.place == "inputs" and line == f"#{k + 1}" and model.free():
            self.close("states")
            self.states = {}
        elif self.place == "inputs" and line == ".":
            self.close("end")
        elif self.place == "end":
            raise Malformed("119 Trailing")
        elif line[:1] in ("#", "@", "."):
            raise Malformed("113 FrameOrder")
        elif self.place == "states":
            self.assign(line, model.states, self.states, lambda it: k == 0 or it in model.free())
        else:
            self.assign(line, model.inputs, self.inputs, lambda it: True)
        return False

    def verdict(self):
        model = self.model
        first = model.first({it: 0 for it in model.states})
        for k, it in enumerate(model.states):
            if it in model.init and self.frames[0][0].get(k, first[it]) != first[it]:
                return f"initial value differs at {k}"
        by_ids = lambda ids, part: {it: part.get(k, 0) for k, it in enumerate(ids)}
        free = [by_ids(model.states, states) for states, _ in self.frames]
        told = model.run(free[0], [by_ids(model.inputs, inputs) for _, inputs in self.frames], free)
        for at, words in enumerate(told):
            for k, (it, _) in enumerate(model.constraints):
                if not words[it]:
                    return f"violated: frame {at}, constraint {k}"
        for k in sorted(self.claims):
            if not any(words[model.bads[k][0]] for words in told):
                return f"not reached: b{k}"
        self.firsts = {k: next(at for at, words in enumerate(told) if words[model.bads[k][0]]) for k in sorted(self.claims)}
        return f"accepted {len(told)} frames"


def judged(model, text):
    """The line that is told of a text."""
    return told_of(Judge(model), text)


def told_of(judge, text):
    """The same by a judge, which keeps in which frames the claims of an acceptance are reached first."""
    lines = text.split("\n")
    for at, line in enumerate(lines[:-1], 1):
        try:
            if judge.take(line):
                return "no claim"
        except Malformed as why:
            return f"malformed line {at}: {why}"
    if judge.place == "end" and not lines[-1]:
        return judge.verdict()
    return f"malformed line {len(lines)}: {'119 Trailing' if judge.place == 'end' else '118 Truncated'}"


# ---- random witnesses


def random_part(by, ids, model, word):
    """Assignments of some of the nodes, in any order."""
    some = [(k, it) for k, it in enumerate(ids) if by.random() < 0.7]
    by.shuffle(some)
    names = ["", "", "", " x@0", " " + "y" * 255]
    return [f"{k} {word(k, it):0{model.width[it]}b}{by.choice(names)}" for k, it in some]


def random_witness(by, model):
    """A witness with random words, of which some are left out."""
    word = lambda k, it: by.choice([0, (1 << model.width[it]) - 1, by.randrange(1 << model.width[it])])
    first = model.first({it: 0 for it in model.states})
    begin = lambda k, it: first[it] if it in model.init and by.random() < 0.9 else word(k, it)
    lines = [f"; {by.random()}" for _ in range(by.choice([0, 0, 1, 2]))] + ["sat"]
    bads = list(range(len(model.bads)))
    by.shuffle(bads)
    lines.append(" ".join(f"b{it}" for it in bads[: by.randrange(1, len(bads) + 1)]))
    if by.random() < 0.7:
        lines += ["#0", *random_part(by, model.states, model, begin)]
    for at in range(by.randrange(1, 5)):
        if at > 0 and model.free() and by.random() < 0.7:
            there = [it for it in random_part(by, model.states, model, word) if model.states[int(it.split()[0])] in model.free()]
            lines += [f"#{at}", *there]
        lines += [f"@{at}", *random_part(by, model.inputs, model, word)]
    return "".join(f"{it}\n" for it in [*lines, "."])


def spoilt(by, text):
    """A text with something changed."""
    lines = text.split("\n")
    at = by.randrange(len(lines))
    kind = by.randrange(7)
    if kind == 0:
        lines.insert(at, by.choice(lines))
    elif kind == 1:
        del lines[at]
    elif kind == 2:
        return text[: by.randrange(len(text) + 1)]
    elif kind == 3:
        lines.insert(at, by.choice(["", " ", ";", "x", "#0", "@0", "@1", "#1", ".", "sat", "unsat", "unknown", "b0", "j0", "0", "0 ", "00 0", "-1 0"]))
    else:
        line = lines[at]
        place = by.randrange(len(line) + 1)
        lines[at] = line[:place] + by.choice(["0", "1", "x", " ", ";", "b", "9", "\x7f", ""]) + line[place + by.randrange(2) :]
    return "\n".join(lines)


# ---- comparing


def owner(model, index):
    """The state that a piece is of."""
    for k, it in enumerate(model.states):
        index -= len(pieces(model.width[it]))
        if index < 0:
            return k
    raise Wrong("a piece is of no state")


def joined(model, line):
    """What is said over the model where this is said over the fitted one."""
    found = re.match(r"initial value differs at (\d+)\Z", line)
    return f"initial value differs at {owner(model, int(found[1]))}" if found else line


def run(*words):
    done = subprocess.run(words, capture_output=True)
    return done.returncode, done.stdout.decode(), done.stderr.decode()


def one_line(told, where):
    if not told.endswith("\n") or told.count("\n") != 1:
        raise Wrong(f"{where} tells {told!r}")
    return told[:-1]


def status_of(line):
    return 0 if line.startswith("accepted") else 1


def as_object(program, model, said, expected, judge, by):
    """Compares what is told of claims: in which frames they are reached first, and whether one that is asked for is made."""
    bad = by.randrange(len(judge.model.bads))
    asked = ["--bad", str(bad)] if by.random() < 0.5 else []
    status, out, err = run(program, "check-btor", "--json", "--fit", *asked, model, said)
    told, is_accepted = json.loads(out), expected.startswith("accepted")
    verdict = re.match(r"[a-z ]+?(?= \d| line|:|\Z| at \d)", expected)[0]
    if is_accepted and asked and bad not in judge.firsts:
        verdict = "not claimed"
    if (told["verdict"], status, err) != (verdict, status_of(verdict), ""):
        raise Wrong(f"check-btor --fit --json tells {told} with {status} for {expected!r}")
    if verdict == "accepted" and {it["bad"]: it["frame"] for it in told["claims"]} != judge.firsts:
        raise Wrong(f"the claims are told as {told['claims']}, not {judge.firsts}")


def tried(program, text, by, folder):
    """Judges, spreads and unfits witnesses of one model; answers what was tried, or raises."""
    model, fitted, said, back = folder / "model.btor2", folder / "fitted.btor2", folder / "said", folder / "back"
    model.write_text(text)
    fitted.write_text(run(program, "fit", model)[1])
    wide, narrow = Model(text), Model(fitted.read_text())
    witness = random_witness(by, wide)
    is_spoilt = by.random() < 0.4
    said.write_text(spoilt(by, witness) if is_spoilt else witness)
    judge = Judge(wide)
    expected = told_of(judge, said.read_text())
    status, out, err = run(program, "check-btor", "--fit", model, said)
    if (status, one_line(out, "check-btor"), err) != (status_of(expected), expected, ""):
        raise Wrong(f"check-btor --fit tells {out!r}{err!r} with {status} for {expected!r}")
    as_object(program, model, said, expected, judge, by)
    status, out, err = run(program, "unfit", "--back", model, said)
    if (status, one_line(err, "unfit --back")) != (status_of(expected), expected):
        raise Wrong(f"unfit --back tells {err!r} with {status} for {expected!r}")
    back.write_text(out)
    if not expected.startswith(("malformed", "no claim")):
        told = joined(wide, one_line(run(program, "check-btor", fitted, back)[1], "check-btor"))
        if told != expected or joined(wide, judged(narrow, out)) != expected:
            raise Wrong(f"over the fitted model {told!r} for {expected!r}")
    # the other way
    said.write_text(spoilt(by, random_witness(by, narrow)) if by.random() < 0.2 else random_witness(by, narrow))
    expected = joined(wide, judged(narrow, said.read_text()))
    names = ["--names"] if by.random() < 0.5 else []
    status, out, err = run(program, "unfit", *names, model, said)
    if (status, one_line(err, "unfit")) != (status_of(expected), expected):
        raise Wrong(f"unfit tells {err!r} with {status} for {expected!r}")
    if not expected.startswith(("malformed", "no claim")):
        back.write_text(out)
        told = one_line(run(program, "check-btor", "--fit", model, back)[1], "check-btor")
        if judged(wide, out) != expected or told != expected:
            raise Wrong(f"what unfit writes is {told!r} and here {judged(wide, out)!r} for {expected!r}")
    return "spoilt" if is_spoilt else "whole"


def main():
    words = argparse.ArgumentParser()
    words.add_argument("program", nargs="?", type=pathlib.Path, default=TOP / "crates/hwtool/out/hwtool")
    words.add_argument("--rounds", type=int, default=2000)
    words.add_argument("--seed", type=int, default=1)
    words.add_argument("--keep", type=pathlib.Path)
    asked = words.parse_args()
    program, counts, wrong = asked.program.resolve(), {}, 0
    with tempfile.TemporaryDirectory() as there:
        folder = pathlib.Path(there)
        for at in range(asked.rounds):
            by = random.Random(f"{asked.seed} {at}")
            text = random_model(by)
            try:
                how = tried(program, text, by, folder)
                counts[how] = counts.get(how, 0) + 1
            except Wrong as why:
                wrong += 1
                print(f"round {at} of seed {asked.seed}: {why}", flush=True)
                if asked.keep:
                    asked.keep.mkdir(exist_ok=True)
                    (asked.keep / f"{asked.seed}-{at}.btor2").write_text(text)
                    (asked.keep / f"{asked.seed}-{at}.said").write_bytes((folder / "said").read_bytes())
    print(f"{asked.rounds} models tried: {', '.join(f'{many} {how}' for how, many in sorted(counts.items()))}; {wrong} wrong")
    sys.exit(1 if wrong else 0)


if __name__ == "__main__":
    main()
