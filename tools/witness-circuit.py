#!/usr/bin/env python3
"""A witness circuit for a bad property of a circuit: of an invariant, or of an induction over several frames.

    tools/witness-circuit.py --invariant INVARIANT [--bad K] [-o FILE] CIRCUIT
    tools/witness-circuit.py --induction DEPTH [--bad K] [-o FILE] CIRCUIT

CIRCUIT is in AIGER, in either form, and K its bad property, 0 if it is not said. INVARIANT is what ABC's `pdr -d -I` writes over
the engine form CIRCUIT. DEPTH says how many frames in turn are to be safe, so that the next one is. FILE is written in the binary
form where its name ends in `.aig`, else in ascii, as standard output is. A text that is not taken is told, with status 2.

The inputs and latches of CIRCUIT are those of the witness circuit too, first and in order, and have names `= N`, which say by what
literal N the file CIRCUIT has them. Behind these an induction has latches of its own: for each earlier frame its latches and
inputs, and whether there was such a frame.

Whether it shows that the property holds says `hwtool check-proof --circuit`, and not this script.
"""
import argparse
import re
import sys
from dataclasses import dataclass, field
from pathlib import Path
from typing import Dict, Iterable, List, Optional, Sequence, Tuple

FALSE, TRUE = 0, 1
# A cube: for some latches, by number, whether they are 1.
Cube = List[Tuple[int, bool]]


class Refused(Exception):
    """A text is not taken."""


@dataclass
class Circuit:
    """A circuit. Variables are numbered inputs first, then latches, then gates; 2v is variable v, 2v + 1 its negation."""

    inputs: int = 0
    # of each latch its next literal, and its reset: 0, 1, or none where it begins with any bit
    latches: List[Tuple[int, Optional[int]]] = field(default_factory=list)
    gates: List[Tuple[int, int]] = field(default_factory=list)
    outputs: List[int] = field(default_factory=list)
    bads: List[int] = field(default_factory=list)
    constraints: List[int] = field(default_factory=list)
    # how many justice properties and fairness constraints there are
    of_liveness: int = 0
    # by which literals the file has the variables, in order
    own: List[int] = field(default_factory=list)
    # names of inputs `i0` and latches `l0`
    names: Dict[str, str] = field(default_factory=dict)

    def leaves(self) -> Tuple[List[int], List[int]]:
        """The literals of its inputs and of its latches."""
        first = self.inputs + 1
        return [2 * it for it in range(1, first)], [2 * it for it in range(first, first + len(self.latches))]


# ---- gates


class Net:
    """Gates over inputs and latches: none is made twice, and none of a constant or of two literals of one variable."""

    def __init__(self, inputs: int, latches: int) -> None:
        self.inputs, self.latches = Circuit(inputs, [(0, 0)] * latches).leaves()
        self.gates: List[Tuple[int, int]] = []
        self._made: Dict[Tuple[int, int], int] = {}

    def both(self, a: int, b: int) -> int:
        """Both literals are true."""
        a, b = max(a, b), min(a, b)
        if b == FALSE or a == b ^ 1:
            return FALSE
        if b == TRUE or a == b:
            return a
        if (a, b) not in self._made:
            self.gates.append((a, b))
            self._made[a, b] = 2 * (len(self.inputs) + len(self.latches) + len(self.gates))
        return self._made[a, b]

    def every(self, literals: Iterable[int]) -> int:
        """All literals are true: by pairs, and pairs of these, of which many lists of literals have some in common."""
        found = list(literals) or [TRUE]
        while len(found) > 1:
            found += [TRUE] * (len(found) % 2)
            found = [self.both(a, b) for a, b in zip(found[::2], found[1::2])]
        return found[0]

    def some(self, literals: Iterable[int]) -> int:
        """Some literal is true."""
        return self.every(it ^ 1 for it in literals) ^ 1

    def implies(self, a: int, b: int) -> int:
        """Where one literal is true, so is the other."""
        return self.both(a, b ^ 1) ^ 1

    def same(self, a: int, b: int) -> int:
        """Two literals are alike."""
        return self.both(self.implies(a, b), self.implies(b, a))


class Frame:
    """A frame of a circuit in a net, from literals for its inputs and latches; called with a literal, it answers that of the net."""

    def __init__(self, net: Net, circuit: Circuit, inputs: Sequence[int], latches: Sequence[int]) -> None:
        self.inputs, self.latches = list(inputs), list(latches)
        self._table = [FALSE, *inputs, *latches]
        for a, b in circuit.gates:
            self._table.append(net.both(self(a), self(b)))

    def __call__(self, literal: int) -> int:
        return self._table[literal >> 1] ^ (literal & 1)

    def all(self, literals: Iterable[int]) -> List[int]:
        """The literals of the net for some literals."""
        return [self(it) for it in literals]


def swept(circuit: Circuit) -> Circuit:
    """A circuit without the gates that nothing needs."""
    before = 1 + circuit.inputs + len(circuit.latches)
    needed = bytearray(before + len(circuit.gates))
    for it in [*(follows for follows, _ in circuit.latches), *circuit.bads, *circuit.constraints]:
        needed[it >> 1] = 1
    for place in reversed(range(len(circuit.gates))):
        if needed[before + place]:
            for it in circuit.gates[place]:
                needed[it >> 1] = 1
    table, gates = [2 * it for it in range(before)], []
    for place, gate in enumerate(circuit.gates):
        if needed[before + place]:
            a, b = (table[it >> 1] ^ (it & 1) for it in gate)
            gates.append((a, b))
        table.append(2 * (before + len(gates) - 1))
    new = [[table[it >> 1] ^ (it & 1) for it in some] for some in (circuit.bads, circuit.constraints)]
    latches = [(table[follows >> 1] ^ (follows & 1), reset) for follows, reset in circuit.latches]
    return Circuit(circuit.inputs, latches, gates, [], new[0], new[1], 0, circuit.own, circuit.names)


# ---- witness circuits


def shared_names(circuit: Circuit) -> Dict[str, str]:
    """The names by which inputs and latches stand for those of a circuit."""
    keys = [*(f"i{it}" for it in range(circuit.inputs)), *(f"l{it}" for it in range(len(circuit.latches)))]
    return {key: f"= {literal}" for key, literal in zip(keys, circuit.own)}


def of_invariant(circuit: Circuit, bad: int, cubes: Sequence[Cube]) -> Circuit:
    """The circuit itself, of which no state is in a cube."""
    net = Net(circuit.inputs, len(circuit.latches))
    now = Frame(net, circuit, net.inputs, net.latches)
    in_cubes = [net.every(now.latches[latch] ^ (not one) for latch, one in cube) for cube in cubes]
    latches = [(now(follows), reset) for follows, reset in circuit.latches]
    fails = net.some([now(circuit.bads[bad]), *in_cubes])
    names = shared_names(circuit)
    return swept(Circuit(circuit.inputs, latches, net.gates, [], [fails], now.all(circuit.constraints), names=names))


def begins(net: Net, circuit: Circuit, frame: Frame) -> int:
    """The latches of a frame agree with their resets."""
    resets = [reset for _, reset in circuit.latches]
    return net.every(latch ^ (reset == 0) for latch, reset in zip(frame.latches, resets) if reset is not None)


def goes_on(net: Net, circuit: Circuit, before: Frame, after: Frame) -> int:
    """The latches of a frame are what the frame before makes of them."""
    return net.every(net.same(latch, before(follows)) for latch, (follows, _) in zip(after.latches, circuit.latches))


def induction_claims(net: Net, circuit: Circuit, bad: int, frames: Sequence[Frame], there: Sequence[int]) -> List[int]:
    """What is claimed of a frame and those before it, the latest first, where `there` says whether there was such a frame."""
    claims = [frames[0](circuit.bads[bad]) ^ 1]
    for place in range(1, len(frames)):
        earlier, later = frames[place], frames[place - 1]
        safe = net.every([*earlier.all(circuit.constraints), earlier(circuit.bads[bad]) ^ 1])
        claims += [
            net.implies(there[place], there[place - 1]),
            net.implies(there[place], net.both(safe, goes_on(net, circuit, earlier, later))),
            net.implies(net.both(there[place - 1], there[place] ^ 1), begins(net, circuit, later)),
        ]
    return claims


def of_induction(circuit: Circuit, bad: int, depth: int) -> Circuit:
    """The circuit with a history: the earlier frames, one less than the depth, which were safe and led here."""
    count = len(circuit.latches)
    size = count + circuit.inputs + 1
    net = Net(circuit.inputs, count + (depth - 1) * size)
    frames, there = [Frame(net, circuit, net.inputs, net.latches[:count])], [TRUE]
    for place in range(count, len(net.latches), size):
        piece = net.latches[place : place + size]
        frames.append(Frame(net, circuit, piece[count:-1], piece[:count]))
        there.append(piece[-1])
    latches = [(frames[0](follows), reset) for follows, reset in circuit.latches]
    for frame, was in zip(frames[:-1], there):
        latches += [(it, 0) for it in [*frame.latches, *frame.inputs, was]]
    fails = net.every(induction_claims(net, circuit, bad, frames, there)) ^ 1
    names = shared_names(circuit)
    return swept(Circuit(circuit.inputs, latches, net.gates, [], [fails], frames[0].all(circuit.constraints), names=names))


# ---- texts of circuits


class Text:
    """A text of a circuit, read from its front."""

    def __init__(self, data: bytes) -> None:
        self.data, self.place = data, 0

    def line(self) -> bytes:
        """The next line."""
        start, self.place = self.place, self.data.index(b"\n", self.place) + 1
        return self.data[start : self.place - 1]

    def numbers(self, count: int) -> List[List[int]]:
        """The numbers of so many lines."""
        return [[int(it) for it in self.line().split()] for _ in range(count)]

    def literals(self, count: int) -> List[int]:
        """The one number of each of so many lines."""
        return [only for only, in self.numbers(count)]

    def delta(self) -> int:
        """A number in groups of seven bits, the lowest first."""
        found, shift, byte = 0, 0, 128
        while byte & 128:
            byte = self.data[self.place]
            found |= (byte & 127) << shift
            self.place, shift = self.place + 1, shift + 7
        return found

    def gate(self, own: int) -> List[int]:
        """A gate of the binary form: its literal and those of its operands."""
        greater = own - self.delta()
        return [own, greater, greater - self.delta()]

    def names(self) -> Dict[str, str]:
        """The names up to the comment."""
        found = {}
        while self.place < len(self.data):
            key, _, name = self.line().partition(b" ")
            if key == b"c":
                break
            found[key.decode()] = name.decode("latin-1")
        return found


def read_circuit(data: bytes) -> Circuit:
    """The circuit of a text in either form."""
    try:
        return circuit_of(Text(data))
    except (ValueError, IndexError, KeyError, UnicodeDecodeError):
        raise Refused("is no circuit in AIGER") from None


def circuit_of(text: Text) -> Circuit:
    """The circuit of a text; faults of the text are those of Python."""
    form, *counts = text.line().split()
    _, inputs, latches, outputs, gates, bads, constraints, justice, fair = [*map(int, counts), 0, 0, 0, 0][:9]
    binary = {b"aag": False, b"aig": True}[form]
    first = 2 * (inputs + 1)
    of_inputs = list(range(2, first, 2)) if binary else text.literals(inputs)
    of_latches = text.numbers(latches)
    if binary:
        of_latches = [[first + 2 * place, *rest] for place, rest in enumerate(of_latches)]
    lists = [text.literals(it) for it in (outputs, bads, constraints)]
    text.literals(sum(text.literals(justice)) + fair)
    first += 2 * latches
    of_gates = [text.gate(first + 2 * it) for it in range(gates)] if binary else text.numbers(gates)
    found = numbered(of_inputs, of_latches, of_gates, lists)
    found.of_liveness, found.names = justice + fair, text.names()
    return found


def numbered(inputs: List[int], latches: List[List[int]], gates: List[List[int]], lists: List[List[int]]) -> Circuit:
    """The circuit of lists of a file, which may number its variables as it likes, and have its gates in any order."""
    own = [*inputs, *(it[0] for it in latches)]
    variables = {0: 0, **{literal >> 1: place + 1 for place, literal in enumerate(own)}}
    operands = {literal >> 1: (a, b) for literal, a, b in gates}
    order = ordered(operands, variables)

    def new(literal: int) -> int:
        return 2 * variables[literal >> 1] + (literal & 1)

    return Circuit(
        len(inputs),
        [(new(it[1]), reset_of(it)) for it in latches],
        [(max(map(new, operands[it])), min(map(new, operands[it]))) for it in order],
        *([new(it) for it in some] for some in lists),
        own=[*own, *(2 * it for it in order)],
    )


def reset_of(latch: List[int]) -> Optional[int]:
    """The reset of a line of a latch, from its literal on; none where it begins with any bit."""
    reset = latch[2] if len(latch) > 2 else 0
    return None if reset == latch[0] else {0: 0, 1: 1}[reset]


def ordered(operands: Dict[int, Tuple[int, int]], variables: Dict[int, int]) -> List[int]:
    """The gates in an order in which each stands behind its operands; they get their numbers in it."""
    found, seen = [], set()
    for gate in operands:
        waiting = [gate]
        while waiting:
            it = waiting[-1]
            missing = [operand >> 1 for operand in operands[it] if operand >> 1 not in variables] if it not in variables else []
            if missing and it in seen:
                raise ValueError("a gate depends on itself")
            seen.add(it)
            waiting += missing
            if not missing:
                waiting.pop()
                if it not in variables:
                    variables[it] = len(variables)
                    found.append(it)
    return found


def write_circuit(circuit: Circuit, binary: bool) -> bytes:
    """The text of a circuit in one of the forms."""
    of_inputs, of_latches = circuit.leaves()
    first = circuit.inputs + len(circuit.latches) + 1
    counts = [first - 1 + len(circuit.gates), circuit.inputs, len(of_latches), len(circuit.outputs), len(circuit.gates)]
    counts += [len(circuit.bads)] * bool(circuit.bads or circuit.constraints) + [len(circuit.constraints)] * bool(circuit.constraints)
    lines = [" ".join(["aig" if binary else "aag", *map(str, counts)])]
    lines += [] if binary else map(str, of_inputs)
    for own, (follows, reset) in zip(of_latches, circuit.latches):
        said = {0: [], 1: ["1"], None: [str(own)]}[reset]
        lines.append(" ".join([*([] if binary else [str(own)]), str(follows), *said]))
    lines += map(str, [*circuit.outputs, *circuit.bads, *circuit.constraints])
    if not binary:
        lines += [f"{2 * (first + place)} {a} {b}" for place, (a, b) in enumerate(circuit.gates)]
    names = [f"{key} {name}" for key, name in circuit.names.items()]
    return text_of(lines) + (deltas_of(circuit.gates, first) if binary else b"") + text_of(names)


def text_of(lines: Iterable[str]) -> bytes:
    """Lines as a text."""
    return "".join(f"{it}\n" for it in lines).encode("latin-1")


def deltas_of(gates: Sequence[Tuple[int, int]], first: int) -> bytes:
    """Gates from a variable on, in the binary form."""
    found = bytearray()
    for place, (a, b) in enumerate(gates):
        for delta in (2 * (first + place) - a, a - b):
            while delta >= 128:
                found.append(delta & 127 | 128)
                delta >>= 7
            found.append(delta)
    return bytes(found)


# ---- invariants


def read_cubes(text: str, latches: int) -> List[Cube]:
    """The cubes of an invariant over an engine form of so many latches."""
    lines = [it for it in text.split("\n") if it and not it.startswith("#")]
    head, cubes = lines[:5], lines[5:-1]
    said = re.fullmatch(r"\.i (\d+)\n\.o 1\n\.p (\d+)\n\.ilb((?: lo\d+)*) ?\n\.ob ?\S*", "\n".join(head))
    if not said or lines[-1] != ".e":
        raise Refused("is no invariant as ABC's `pdr -d -I` writes it over a binary engine form")
    named = [int(it[2:]) for it in said[3].split()]
    if len(named) != int(said[1]) or len(cubes) != int(said[2]) or any(it >= latches for it in named):
        raise Refused("has other counts than it says, or another latch than the circuit")
    return [cube_of(it, named) for it in cubes]


def cube_of(line: str, named: Sequence[int]) -> Cube:
    """The cube of a line."""
    bits, _, one = line.partition(" ")
    if one != "1" or len(bits) != len(named) or set(bits) - set("01-"):
        raise Refused(f"has a line that is no cube: {line}")
    return [(latch, bit == "1") for latch, bit in zip(named, bits) if bit != "-"]


# ---- words


def whole(word: str) -> int:
    """A number from 0 on."""
    if not re.fullmatch(r"\d{1,9}", word):
        raise argparse.ArgumentTypeError(f"{word}: no number")
    return int(word)


def depth_of(word: str) -> int:
    """A number of frames, from 1 on."""
    if whole(word) == 0:
        raise argparse.ArgumentTypeError("an induction has a frame at least")
    return int(word)


def words_of(arguments: Sequence[str]) -> argparse.Namespace:
    """What the words say."""
    words = argparse.ArgumentParser(description="a witness circuit for a bad property of a circuit")
    ways = words.add_mutually_exclusive_group(required=True)
    ways.add_argument("--invariant", type=Path, metavar="FILE", help="of an invariant as ABC writes it over the engine form CIRCUIT")
    ways.add_argument("--induction", type=depth_of, metavar="DEPTH", help="of an induction: so many safe frames, and the next is safe")
    words.add_argument("--bad", type=whole, default=0, metavar="K", help="the bad property, from 0")
    words.add_argument("-o", "--output", type=Path, metavar="FILE", help="binary where the name ends in .aig; else standard output")
    words.add_argument("circuit", type=Path, metavar="CIRCUIT", help="a circuit in AIGER")
    return words.parse_args(arguments)


def witness_circuit(words: argparse.Namespace) -> Circuit:
    """The witness circuit that the words ask for."""
    at = words.circuit
    try:
        circuit = read_circuit(at.read_bytes())
        if words.bad >= len(circuit.bads) or circuit.of_liveness:
            raise Refused(f"has no bad property {words.bad}" if not circuit.of_liveness else "has properties of liveness")
        if words.induction:
            return of_induction(circuit, words.bad, words.induction)
        at = words.invariant
        cubes = read_cubes(at.read_text(encoding="latin-1"), len(circuit.latches))
        return of_invariant(circuit, words.bad, cubes)
    except Refused as why:
        raise Refused(f"{at}: {why}") from None


def main(arguments: Sequence[str]) -> int:
    """All of the script; answers its exit status."""
    words = words_of(arguments)
    try:
        found = witness_circuit(words)
        if words.output:
            words.output.write_bytes(write_circuit(found, words.output.suffix == ".aig"))
        else:
            sys.stdout.buffer.write(write_circuit(found, False))
        return 0
    except (Refused, OSError) as why:
        print(f"witness-circuit.py: {why}", file=sys.stderr)
        return 2


if __name__ == "__main__":
    sys.exit(main(sys.argv[1:]))
