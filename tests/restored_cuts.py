#!/usr/bin/env python3
"""Cuts the second file of each row of `restore` and of `lift --engine` after each of its bytes, and compares what the built
program answers with what is reckoned here from docs/FORMATS.md: the frames before the cut, the first faulty line, and what
these are restored to and how that is judged, by an evaluator of ascii circuits of its own.

    restored_cuts.py [PROGRAM]

PROGRAM is crates/hwtool/out/hwtool where none is given. For `lift --engine` the circuit is the one that the program lowers the
model to, and what is restored is lifted by `lift` and judged by `check-btor`. The status is 0 where all is as it should be,
else 1.
"""

import os
import subprocess
import sys
import tempfile

TOP = os.path.dirname(os.path.dirname(os.path.realpath(__file__)))
ROWS = f"{TOP}/crates/cli_rows/stdin"
NAMES = {150: "NoFrame", 151: "InitialOne", 152: "NoBit", 153: "WrongLength"}


class Circuit:
    """An ascii circuit in order, as the program writes it."""

    def __init__(self, text):
        lines = text.split("\n")
        counts = [int(it) for it in lines[0].split()[1:]]
        counts += [0] * (9 - len(counts))
        _, self.inputs, latches, outputs, gates, bads, constraints, justice, fair = counts
        self.has_form = not justice and not fair
        at = 1 + self.inputs
        self.own = [int(it) for it in lines[1:at]]
        self.latches = [[int(it) for it in line.split()] for line in lines[at : at + latches]]
        for latch in self.latches:
            latch += [0] * (3 - len(latch))
        at += latches + outputs
        self.bads = [int(it) for it in lines[at : at + bads]]
        at += bads
        self.constraints = [int(it) for it in lines[at : at + constraints]]
        at += constraints
        self.gates = [[int(it) for it in line.split()] for line in lines[at : at + gates]]

    def free(self):
        """Which latches have no initial value."""
        return [k for k, (own, _, reset) in enumerate(self.latches) if reset == own]

    def form_inputs(self):
        """How many inputs its engine form has."""
        return max(1, self.inputs + len(self.free()))

    def frames(self, initial, inputs):
        """Of each frame the values of the bad properties and of the constraints."""
        state, found = list(initial), []
        for bits in inputs:
            value = {0: 0}
            value.update(zip(self.own, bits))
            value.update((own, bit) for (own, _, _), bit in zip(self.latches, state))
            left = list(self.gates)
            read = lambda lit: value[lit & ~1] ^ (lit & 1)
            while left:
                ready = [it for it in left if it[1] & ~1 in value and it[2] & ~1 in value]
                left = [it for it in left if it not in ready]
                for own, one, two in ready:
                    value[own] = read(one) & read(two)
            found.append(([read(it) for it in self.bads], [read(it) for it in self.constraints]))
            state = [read(then) for _, then, _ in self.latches]
        return found


def frames_of_abc(text, width):
    """The frames of the text of a counterexample up to its first faulty line, and that line with its number."""
    text = text.split(b"#")[0]
    lines = text.split(b"\n")
    if lines[-1] == b"":
        lines.pop()
    if not lines:
        return [], (1, 150)
    for byte in lines[0]:
        if byte != ord("0"):
            return [], (1, 151 if byte == ord("1") else 152)
    if len(lines) == 1:
        return [], (2, 150)
    frames = []
    for number, line in enumerate(lines[1:], 2):
        if line.strip(b"01"):
            return frames, (number, 152)
        if len(line) != width:
            return frames, (number, 153)
        frames.append([byte - ord("0") for byte in line])
    return frames, None


def restored(circuit, bad, given, ended):
    """What frames of the form are restored to, and how that is judged where a last line stands."""
    if not given:
        return b"", None
    free = circuit.free()
    from_form = dict(zip(free, given[0][circuit.inputs :]))
    initial = [from_form.get(k, reset) for k, (_, _, reset) in enumerate(circuit.latches)]
    inputs = [bits[: circuit.inputs] for bits in given]
    held, verdict, last = True, f"not reached: b{bad}", len(inputs)
    broken = None
    for number, (bads, constraints) in enumerate(circuit.frames(initial, inputs)):
        if broken is None and not all(constraints):
            broken = f"violated: frame {number}, constraint {constraints.index(0)}"
        held = held and all(constraints)
        if held and bads[bad]:
            verdict, last = f"accepted {number + 1} frames", number + 1
            break
    if broken is not None and not verdict.startswith("accepted"):
        verdict = broken
    bits = lambda row: "".join(str(it) for it in row)
    lines = ["1", f"b{bad}", bits(initial)] + [bits(row) for row in inputs[:last]] + ["."] * ended
    return "".join(f"{line}\n" for line in lines).encode(), verdict


def frames_of_witness(text, circuit, width, choice):
    """The frames of a witness of the form that is cut, its claim, and whether its last line and one behind it are there; none
    where its head is not whole."""
    lines = text.split(b"\n")[:-1]
    claim = int(lines[1][1:]) if len(lines) > 1 else 0
    frames = []
    for line in lines[3:]:
        if line == b".":
            break
        frames.append([byte - ord("0") for byte in line])
    return frames, claim if choice is None else choice, b"." in lines[3:]


def rows():
    """The words of each row, the lines of its first file, those of its second, its status and its line on standard error."""
    first = []
    for block in open(ROWS, encoding="latin-1").read().split("\n\n"):
        lines = [it for it in block.split("\n") if not it.startswith("#")]
        words = next((it[2:].split() for it in lines if it.startswith("$ ")), None)
        if words is None:
            continue
        if "1^" not in lines:
            first = [it[2:] for it in lines if it[:2] in ("1|", "1/")]
        second = "".join(it[2:] + "\n" * (it[1] == "|") for it in lines if it[:2] in ("2|", "2/"))
        yield words, "".join(f"{it}\n" for it in first), second


def main():
    program = os.path.realpath(sys.argv[1] if len(sys.argv) > 1 else f"{TOP}/crates/hwtool/out/hwtool")
    tried = wrong = 0
    with tempfile.TemporaryDirectory() as folder:
        def run(words):
            ran = subprocess.run([program, *words], cwd=folder, capture_output=True)
            return ran.returncode, ran.stdout, ran.stderr

        def put(name, content):
            with open(f"{folder}/{name}", "wb") as it:
                it.write(content)

        for words, first, second in rows():
            is_lift = words[0] == "lift" and "--engine" in words
            if not is_lift and words[0] != "restore" or "-" in words or not second:
                continue
            put(words[-2], first.encode("latin-1"))
            lowered = run(["lower", words[-2]]) if is_lift else (0, first.encode(), b"")
            choice = int(words[words.index("--bad") + 1]) if "--bad" in words and words[words.index("--bad") + 1].isdigit() else None
            if lowered[0] or not lowered[1].startswith(b"aag"):
                continue
            circuit = Circuit(lowered[1].decode("latin-1"))
            if not circuit.has_form or (choice or 0) >= len(circuit.bads) or choice is None and "--abc" in words and len(circuit.bads) != 1:
                continue
            text = second.encode("latin-1")
            for count in range(len(text)):
                cut = text[:count]
                put(words[-1], cut)
                status, out, err = run(words)
                if "--abc" in words:
                    frames, fault = frames_of_abc(cut, circuit.form_inputs())
                    bits, verdict = restored(circuit, choice or 0, frames, fault is None)
                    line = f"malformed line {fault[0]}: {fault[1]} {NAMES[fault[1]]}" if fault else verdict
                else:
                    # a cut witness ends in a line that does not end, or before its last one
                    whole = run_whole(run, put, program, circuit, text, cut, words, lowered[1], is_lift)
                    frames, bad, ended = frames_of_witness(cut[: whole[1]], circuit, circuit.form_inputs(), choice)
                    bits, verdict = restored(circuit, bad, frames, ended)
                    line = whole[0] or verdict
                if is_lift:
                    put("circuit", lowered[1])
                    put("bits", bits)
                    named = ["--names"] if "--names" in words else []
                    expected = run(["lift", *named, words[-2], "bits"])[1] if bits else b""
                else:
                    expected = bits
                tried += 1
                said = err.decode("latin-1").split("\n")[0]
                is_right = out == expected and said == line and status == (0 if line.startswith("accepted") else 1)
                if is_right and is_lift and line == verdict:
                    put("words", out)
                    is_right = run(["check-btor", words[-2], "words"])[1].decode().strip() == line
                if not is_right:
                    wrong += 1
                    print(f"{' '.join(words)}, cut after {count} bytes: status {status}, {said!r} where {line!r}; {out!r} where {expected!r}")
    print(f"{tried} cuts tried, {wrong} wrong")
    return 1 if wrong else 0


def run_whole(run, put, program, circuit, text, cut, words, lowered, is_lift):
    """The line of the first faulty line of a cut witness over the engine form, as `check-aig` tells it there, none where there is
    none; and how many bytes stand before that line."""
    choice = ["--bad", words[words.index("--bad") + 1]] if "--bad" in words else []
    put("whole", lowered)
    form = run(["aig-convert", "--engine", *choice, "whole"])[1]
    put("form", form)
    put("of-form", cut)
    said = run(["check-aig", "form", "of-form"])[1].decode().strip()
    if said == "no claim":
        return said, 0
    if not said.startswith("malformed line"):
        return None, len(cut)
    number = int(said.split()[2].rstrip(":"))
    return said, len(b"".join(it + b"\n" for it in cut.split(b"\n")[: number - 1]))


if __name__ == "__main__":
    sys.exit(main())
