#!/usr/bin/env python3
"""Tries proofs with hints: what `check-proof --lrat` says beside a judge that is written here from docs/FORMATS.md.

    hinted.py [PROGRAM] [--rounds N] [--seed N]
    hinted.py --refute FORMULA PROOF

PROGRAM is crates/hwtool/out/hwtool where none is given. The formulas are those that the examples owe. CaDiCaL refutes each, and the
hints of its proof are found here, by propagation with reasons; each proof is written as text and in the binary form, whole, cut and
spoilt by chance, in its steps and in its bytes. It says how much was tried, and how it came out. The status is 0 where the program
says of each what is said here, else 1.

The second form refutes a formula in DIMACS by CaDiCaL, and writes the proof with hints as text. Its status is 20 then, as CaDiCaL's.
"""
import argparse
import collections
import itertools
import pathlib
import random
import re
import subprocess
import sys
import tempfile

TOP = pathlib.Path(__file__).resolve().parent.parent
EXAMPLES = TOP / "examples"
# The words of `obligation` and `check-proof` of each example, without its proof.
OWED = [
    [EXAMPLES / "wraps.btor2", EXAMPLES / "wraps.invariant"],
    [EXAMPLES / "followers.btor2", EXAMPLES / "followers.invariant"],
    ["--bad", "1", EXAMPLES / "two-counters.btor2", EXAMPLES / "two-counters.invariant"],
    ["--circuit", "--aiger", EXAMPLES / "ring.aag", EXAMPLES / "ring-witness.aag"],
    ["--circuit", EXAMPLES / "apart.btor2", EXAMPLES / "apart-witness.aig"],
]
MOST_ID = 2**32 - 1
NUMBER = re.compile(rb"-?(0|[1-9][0-9]*)")


# ---- formulas and hints


def clauses_of(dimacs):
    """The count of variables of a formula, and its clauses."""
    lines = [it.split() for it in dimacs.splitlines() if it[:1] not in ("c", "")]
    return int(lines[0][2]), [[int(it) for it in line[:-1]] for line in lines[1:]]


class Reasons:
    """What follows from literals by unit propagation over clauses with ids, and by which clause each."""

    def __init__(self, standing):
        self.standing = standing

    def hints(self, clause):
        """The ids by which a clause follows, in the order of propagation; nothing where it does not."""
        reason, order, true = {}, [], {-it for it in clause}
        if any(-it in true for it in true):
            return None
        while True:
            before = len(true)
            for at, literals in self.standing.items():
                rest = {it for it in literals if -it not in true}
                if not rest:
                    return self.used(at, reason, order)
                if len(rest) == 1:
                    (given,) = rest
                    if given not in true:
                        true.add(given)
                        reason[given] = at
                        order.append(given)
            if len(true) == before:
                return None

    def used(self, last, reason, order):
        """Of what followed the ids that the falsified clause rests on."""
        wanted = {-it for it in self.standing[last]}
        found = [last]
        for given in reversed(order):
            if given in wanted:
                found.append(reason[given])
                wanted |= {-it for it in self.standing[reason[given]] if it != given}
        return found[::-1]


def hinted(clauses, drat):
    """The steps with hints of a proof without: `(id, literals, hints)`, or the ids that are taken away."""
    standing = dict(enumerate(clauses, 1))
    last, steps = len(clauses), []
    for line in drat.splitlines():
        words = line.split()
        literals = [int(it) for it in words[words[0] == "d":-1]]
        if words[0] == "d":
            gone = next((at for at, it in standing.items() if sorted(it) == sorted(literals)), None)
            if gone is not None:
                del standing[gone]
                steps.append([gone])
            continue
        hints = Reasons(standing).hints(literals)
        last += 1
        standing[last] = literals
        steps.append((last, literals, hints or []))
        if not literals:
            break
    return steps


# ---- texts


def as_text(steps, front):
    """Steps in the text form; an id stands in front of those that take clauses away."""
    lines = [" ".join(map(str, [it[0], *it[1], 0, *it[2], 0] if isinstance(it, tuple) else [front, "d", *it, 0])) for it in steps]
    return "".join(f"{it}\n" for it in lines).encode()


def coded(number):
    """A number, seven bits a byte."""
    found = bytearray()
    while number > 127:
        found.append(128 | number & 127)
        number >>= 7
    return bytes([*found, number])


def as_bytes(steps):
    """Steps in the binary form."""
    literal = lambda it: coded(2 * abs(it) + (it < 0))
    whole = lambda it: b"a" + coded(it[0]) + b"".join(map(literal, it[1])) + b"\0" + b"".join(map(coded, it[2])) + b"\0"
    return b"".join(whole(it) if isinstance(it, tuple) else b"d" + b"".join(map(coded, it)) + b"\0" for it in steps)


# ---- what a proof is judged as


class Refused(Exception):
    """A line, or a step in the binary form, is refused."""


def text_words(data):
    """The words of a text in turn, with their lines: numbers, `d`, or nothing for one that is none; and the line behind the last."""
    lines = data.split(b"\n")
    for line, text in enumerate(lines, 1):
        if not text.startswith(b"c"):
            for word in re.split(rb"[ \t\r]+", text):
                if word:
                    whole = NUMBER.fullmatch(word) and word != b"-0"
                    yield line, "d" if word == b"d" else int(word) if whole and abs(int(word)) < 2**64 else None
    yield len(lines), "end"


def text_steps(data, variables):
    """The steps of a text in turn, each with its line."""
    words = text_words(data)
    for line, word in words:
        if word == "end":
            return
        if word is None or word == "d" or not 1 <= word <= MOST_ID:
            raise Refused(line, "161 BadWord")
        at, literals, hints, lists = word, [], [], 0
        while lists < 2:
            line, word = next(words)
            if word == "end":
                raise Refused(line, "163 CutOff")
            if word == "d" and not lists and not literals:
                lists = 3
            elif word is None or word == "d":
                raise Refused(line, "161 BadWord")
            elif word == 0:
                lists += 1
            elif lists == 0:
                if abs(word) > variables:
                    raise Refused(line, "162 BadVariable")
                literals.append(word)
            elif abs(word) > MOST_ID:
                raise Refused(line, "161 BadWord")
            elif word < 0:
                raise Refused(line, "169 RatStep")
            else:
                hints.append(word)
        if lists == 2:
            yield line, (at, literals, hints)
        while lists == 3:
            line, word = next(words)
            if word == "end":
                raise Refused(line, "163 CutOff")
            if word == 0:
                break
            if word is None or word == "d" or not 1 <= word <= MOST_ID:
                raise Refused(line, "161 BadWord")
            yield line, [word]


def byte_steps(data, variables):
    """The steps of bytes in turn, each with its number."""
    place = 0

    def number(step):
        nonlocal place
        end = place
        while end < len(data) and data[end] > 127:
            end += 1
        if end == len(data):
            raise Refused(step, "163 CutOff")
        piece, place = data[place:end + 1], end + 1
        if piece == b"\0":
            return 0
        if piece[-1] == 0:
            raise Refused(step, "161 BadWord")
        return min(sum((it & 127) << 7 * at for at, it in enumerate(piece)), 2**64 - 1)

    for step in itertools.count(1):
        if place == len(data):
            return
        letter = data[place:place + 1]
        if letter not in (b"a", b"d"):
            raise Refused(step, "161 BadWord")
        place += 1
        at, literals, hints = 0, [], []
        if letter == b"a":
            at = number(step)
            if not 1 <= at <= MOST_ID:
                raise Refused(step, "161 BadWord")
            while (found := number(step)) != 0:
                if found < 2:
                    raise Refused(step, "161 BadWord")
                if found >> 1 > variables:
                    raise Refused(step, "162 BadVariable")
                literals.append(-(found >> 1) if found & 1 else found >> 1)
        while (found := number(step)) != 0:
            if found > MOST_ID:
                raise Refused(step, "161 BadWord")
            if letter == b"d":
                yield step, [found]
            hints.append(found)
        if letter == b"a":
            yield step, (at, literals, hints)


def judged(variables, clauses, data):
    """What is said of a proof."""
    standing, last = dict(enumerate(clauses, 1)), len(clauses)
    steps = (byte_steps if data[:1] in (b"a", b"d") else text_steps)(data, variables)
    if [] in clauses:
        return "holds"
    try:
        for line, step in steps:
            if isinstance(step, list):
                standing.pop(step[0], None)
                continue
            at, literals, hints = step
            if at <= last:
                raise Refused(line, "167 BadId")
            true, falsified = {-it for it in literals}, False
            for hint in hints:
                if hint not in standing:
                    raise Refused(line, "168 NoClause")
                rest = {it for it in standing[hint] if -it not in true}
                if len(rest) > 1:
                    break
                if not rest:
                    falsified = True
                    break
                true |= rest
            if not falsified:
                return f"not implied line {line}"
            if not literals:
                return "holds"
            standing[at], last = literals, at
    except Refused as fault:
        return "malformed line {}: {}".format(*fault.args)
    return "not derived"


# ---- spoilt proofs


def spoilt_steps(steps, variables, chance):
    """Steps of which one is not as it was."""
    found = [(it[0], list(it[1]), list(it[2])) if isinstance(it, tuple) else list(it) for it in steps]
    place = chance.randrange(len(found))
    step = found[place]
    if isinstance(step, list):
        what = chance.choice(["gone", "other", "twice"])
        if what == "gone":
            del found[place]
        elif what == "other":
            found[place] = [chance.randint(1, steps[-1][0] + 1)]
        else:
            found[place] = step * 2
        return found
    at, literals, hints = step
    ways = ["gone", "id", "literal", "more", "hint", "less", "order", "minus", "deletes"]
    what = chance.choice(ways)
    if what == "gone":
        del found[place]
    elif what == "id":
        found[place] = (max(1, at + chance.choice([-2, -1, 1, 5])), literals, hints)
    elif what == "literal" and literals:
        literals[chance.randrange(len(literals))] *= -1
    elif what == "more":
        literals.append(chance.choice([-1, 1]) * chance.randint(1, variables + 1))
    elif what == "hint" and hints:
        hints[chance.randrange(len(hints))] = chance.randint(1, at)
    elif what == "less" and hints:
        del hints[chance.randrange(len(hints))]
    elif what == "order":
        chance.shuffle(hints)
    elif what == "deletes":
        found.insert(place, [chance.randint(1, at)])
    return found


def spoilt_bytes(data, chance):
    """Bytes that are cut, or of which some are others."""
    found = bytearray(data)
    what = chance.choice(["cut", "byte", "more", "none", "minus", "line"])
    place = chance.randrange(len(found)) if found else 0
    if what == "cut":
        del found[place:]
    elif what == "byte" and found:
        found[place] = chance.choice(b"0123456789 -dac\n\t\r\0\x80\xff")
    elif what == "more":
        found.insert(place, chance.choice(b"0123456789 -dac\n\0\x80"))
    elif what == "minus":
        found[place:place] = b" -1 "
    elif what == "line":
        found[place:place] = chance.choice([b"\nc a line that says nothing\n", b"\n\n", b"\r\n"])
    return bytes(found)


def refuted(formula, drat):
    """The count of variables and the clauses of the formula of a file, and the steps by which CaDiCaL refutes it."""
    subprocess.run(["cadical", "-q", "--no-binary", formula, drat], stdout=subprocess.DEVNULL)
    variables, clauses = clauses_of(formula.read_text())
    return variables, clauses, hinted(clauses, drat.read_text())


def refute(formula, proof):
    """Writes the proof with hints of a formula."""
    with tempfile.TemporaryDirectory() as folder:
        steps = refuted(formula, pathlib.Path(folder, "o.drat"))[2]
    proof.write_bytes(as_text(steps, steps[-1][0]))
    return 20


def main():
    words = argparse.ArgumentParser(description=__doc__.splitlines()[0])
    words.add_argument("--refute", nargs=2, type=pathlib.Path, metavar=("FORMULA", "PROOF"))
    words.add_argument("program", nargs="?", default=TOP / "crates/hwtool/out/hwtool")
    words.add_argument("--rounds", type=int, default=1000)
    words.add_argument("--seed", type=int, default=1)
    asked = words.parse_args()
    if asked.refute:
        return refute(*asked.refute)
    program, chance = pathlib.Path(asked.program).resolve(), random.Random(asked.seed)
    came, wrong = collections.Counter(), 0
    with tempfile.TemporaryDirectory() as folder:
        formula, drat, proof = (pathlib.Path(folder, it) for it in ("o.cnf", "o.drat", "o.lrat"))
        for owed in OWED:
            subprocess.run([program, "obligation", "-o", formula, *owed], check=True)
            variables, clauses, steps = refuted(formula, drat)
            for turn in range(asked.rounds):
                tried = steps
                for _ in range(chance.choice([0, 1, 1, 1, 2, 3]) if turn > 1 else 0):
                    tried = spoilt_steps(tried, variables, chance) if tried else tried
                data = as_text(tried, steps[-1][0]) if turn % 2 else as_bytes(tried)
                if turn > 1 and chance.random() < 0.4:
                    data = spoilt_bytes(data, chance)
                proof.write_bytes(data)
                said = subprocess.run([program, "check-proof", "--lrat", "--quiet", *owed, proof], capture_output=True, text=True)
                wanted = judged(variables, clauses, data)
                got = re.sub(r"^holds: b\d+$", "holds", said.stdout.strip())
                came[re.sub(r" line \d+", "", wanted)] += 1
                if got != wanted or said.returncode != (wanted != "holds") or (turn < 2 and wanted != "holds"):
                    wrong += 1
                    kept = f"wrong-{wrong}.lrat"
                    pathlib.Path(tempfile.gettempdir(), kept).write_bytes(data)
                    print(f"{' '.join(map(str, owed))}, turn {turn}: wanted {wanted!r}, got {said.returncode} {got!r} {said.stderr!r} (kept as {kept})")
    told = ", ".join(f"{count} {what}" for what, count in came.most_common())
    print(f"{sum(came.values())} proofs with hints tried, {wrong} wrong: {told}")
    return int(wrong != 0)


if __name__ == "__main__":
    sys.exit(main())
