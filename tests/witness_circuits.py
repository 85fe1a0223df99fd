#!/usr/bin/env python3
"""Tries witness circuits: the verdict of `check-proof --circuit` beside what the definitions say, evaluated here by CaDiCaL.

    witness_circuits.py [PROGRAM] [--rounds N] [--seed N]
    witness_circuits.py [PROGRAM] --over CIRCUIT WITNESS_CIRCUIT [--number K] [--rises] -- WORD .. MODEL

PROGRAM is crates/hwtool/out/hwtool where none is given. The first form makes small circuits by chance, of which all states are
looked at; witness circuits of inductions and of invariants by tools/witness-circuit.py, whole and spoilt in each way, with names
for other literals than latches and inputs; and files of either form, with numbers of their own. The second form tries one witness
circuit, whole and spoilt, over the circuit that PROGRAM judges it over, whose bad property K is meant; WORD .. MODEL is what
PROGRAM is told of that, and --rises that the property can rise.

A witness circuit is to hold exactly where it guards the property, as is worked out from both circuits; wherever it meets the five
checks of the competition; and never where the property can rise. It says how much was tried. The status is 0 where all is as it
should be, else 1.
"""
import argparse
import collections
import dataclasses
import importlib.util
import itertools
import pathlib
import random
import re
import subprocess
import sys
import tempfile

TOP = pathlib.Path(__file__).resolve().parent.parent
SCRIPT = TOP / "tools/witness-circuit.py"
MOST_DEPTH = 6
# What a refused witness circuit is refused by.
NO_PROPERTY, SEVERAL_PROPERTIES, NO_SUCH_LITERAL = "212 NoProperty", "213 SeveralProperties", "214 NoSuchLiteral"

sys.dont_write_bytecode = True
spec = importlib.util.spec_from_file_location("witness_circuit", SCRIPT)
made = sys.modules["witness_circuit"] = importlib.util.module_from_spec(spec)
spec.loader.exec_module(made)
Circuit, Net, Frame = made.Circuit, made.Net, made.Frame


class Tally:
    """How much was tried, how it came out, and what was not as it should be."""

    def __init__(self):
        self.outcomes, self.wrong = collections.Counter(), 0

    def same(self, what, wanted, got):
        """Two values are one."""
        if wanted != got:
            self.wrong += 1
            print(f"{what}: wanted {wanted!r}, got {got!r}", flush=True)


tally = Tally()


# ---- what a witness circuit is worth


def said_literal(name):
    """The literal that a name says, if it does."""
    found = re.fullmatch(r"= (0|[1-9]\d*)", name)
    return int(found[1]) if found else None


def mapping_of(circuit, witness):
    """For each input and latch of a witness circuit the literal of the circuit that it stands for, in the circuit's numbering, or none;
    nothing where a name says a literal that the circuit does not have."""
    said = [
        [said_literal(witness.names.get(f"{letter}{place}", "")) for place in range(count)]
        for letter, count in (("i", witness.inputs), ("l", len(witness.latches)))
    ]
    if not any(it is not None for it in said[0] + said[1]):
        return [(own + [None] * len(some))[: len(some)] for own, some in zip(circuit.leaves(), said)]
    known = {0: 0, **{own >> 1: 2 * (place + 1) for place, own in enumerate(circuit.own)}}
    if any(it is not None and it >> 1 not in known for it in said[0] + said[1]):
        return None
    return [[None if it is None else known[it >> 1] ^ (it & 1) for it in some] for some in said]


def beside(frame, mapping, own):
    """The bits of a witness circuit beside a frame of the circuit: what is shared is read there."""
    return [it if literal is None else frame(literal) for literal, it in zip(mapping, own)]


def property_of(witness):
    """The literal that is true where the property of a witness circuit fails."""
    return (witness.bads or witness.outputs)[0]


class Parts:
    """A net with room for so many frames of two circuits, from leaves of their own."""

    def __init__(self, circuit, witness, frames):
        self.circuit, self.witness = circuit, witness
        size = circuit.inputs + len(circuit.latches), witness.inputs + len(witness.latches)
        self.net = Net(frames * sum(size), 0)
        self.free = iter(self.net.inputs)

    def leaves(self, of):
        """New leaves of a circuit: inputs and latches."""
        return [next(self.free) for _ in range(of.inputs)], [next(self.free) for _ in of.latches]

    def frame(self, of, inputs, latches):
        """A frame of a circuit."""
        return Frame(self.net, of, inputs, latches)

    def next_frame(self, of, before):
        """The frame of a circuit behind another one."""
        return self.frame(of, self.leaves(of)[0], before.all(follows for follows, _ in of.latches))

    def met(self, of, frame):
        """The constraints of a circuit hold in a frame."""
        return self.net.every(frame.all(of.constraints))

    def safe(self, frame):
        """The property of the witness circuit holds in a frame."""
        return frame(property_of(self.witness)) ^ 1

    def begins(self, bits, latches, chosen):
        """The bits of those latches that are chosen agree with their resets."""
        return self.net.every(
            bit ^ (reset == 0) for bit, (_, reset), is_so in zip(bits, latches, chosen) if is_so and reset is not None
        )


def guards_not(circuit, number, witness, mapping):
    """A net, and the literal that some values make true exactly where a witness circuit does not guard a bad property."""
    parts = Parts(circuit, witness, 4)
    net, (inputs, latches) = parts.net, mapping
    now = parts.frame(circuit, *parts.leaves(circuit))
    then = parts.next_frame(circuit, now)
    own_inputs, own_latches = parts.leaves(witness)
    here = parts.frame(witness, beside(now, inputs, own_inputs), beside(now, latches, own_latches))
    follows = here.all(it for it, _ in witness.latches)
    there = parts.frame(witness, beside(then, inputs, parts.leaves(witness)[0]), beside(then, latches, follows))
    holds, goes_on = (net.both(parts.met(witness, it), parts.safe(it)) for it in (here, there))
    own = [it is None for it in latches]
    begins = net.both(
        parts.begins(now.latches, circuit.latches, [True] * len(circuit.latches)), parts.begins(here.latches, witness.latches, own)
    )
    fails = net.some(
        [
            net.both(begins, holds ^ 1),
            net.every([holds, parts.met(circuit, then), goes_on ^ 1]),
            net.both(holds, now(circuit.bads[number])),
        ]
    )
    return net, net.both(parts.met(circuit, now), fails)


def certifies_not(circuit, number, witness, mapping):
    """The same of the five checks: that one of them fails."""
    parts = Parts(circuit, witness, 6)
    net, (inputs, latches) = parts.net, mapping
    now = parts.frame(circuit, *parts.leaves(circuit))
    then = parts.next_frame(circuit, now)
    own_inputs, own_latches = parts.leaves(witness)
    here = parts.frame(witness, beside(now, inputs, own_inputs), beside(now, latches, own_latches))
    own_inputs, own_latches = parts.leaves(witness)
    there = parts.frame(witness, beside(then, inputs, own_inputs), beside(then, latches, own_latches))
    shared = [it is not None for it in latches]
    everywhere = [True] * len(shared)
    begins = parts.begins(now.latches, circuit.latches, [True] * len(circuit.latches))
    both_met = net.both(parts.met(circuit, now), parts.met(witness, here))
    taken = net.every(
        net.same(then(literal), here(follows)) for literal, (follows, _) in zip(latches, witness.latches) if literal is not None
    )
    alone = parts.frame(witness, *parts.leaves(witness))
    behind = parts.next_frame(witness, alone)
    starts = net.both(parts.begins(here.latches, witness.latches, shared), parts.met(witness, here))
    fails = [
        net.every([parts.met(circuit, now), begins, starts ^ 1]),
        net.every([both_met, parts.met(circuit, then), net.both(taken, parts.met(witness, there)) ^ 1]),
        net.every([both_met, parts.safe(here), now(circuit.bads[number])]),
        net.every([parts.met(witness, alone), parts.begins(alone.latches, witness.latches, everywhere), parts.safe(alone) ^ 1]),
        net.every([parts.met(witness, alone), parts.met(witness, behind), parts.safe(alone), parts.safe(behind) ^ 1]),
    ]
    return net, net.some(fails)


def formula_of(net, literal):
    """The formula that is satisfied exactly where values make a literal true, in DIMACS."""
    first = 1 + len(net.inputs)
    true = first + len(net.gates)

    def said(it):
        return (-1 if it & 1 else 1) * (it >> 1) if it > 1 else (true if it else -true)

    clauses = [[true], [said(literal)]]
    for place, (a, b) in enumerate(net.gates):
        gate = first + place
        clauses += [[-gate, said(a)], [-gate, said(b)], [gate, -said(a), -said(b)]]
    lines = [f"p cnf {true} {len(clauses)}", *(" ".join(map(str, [*it, 0])) for it in clauses)]
    return "\n".join(lines) + "\n"


# ---- the program


class Place:
    """A folder for tries, and the program."""

    def __init__(self, folder, program):
        self.folder, self.program = pathlib.Path(folder), program

    def call(self, *words):
        """A call of the program."""
        return subprocess.run([self.program, *map(str, words)], cwd=self.folder, capture_output=True, text=True, check=False)

    def written(self, name, circuit, chance):
        """A file with a circuit, in one of the forms by chance."""
        form = chance.choice(["aag", "aig", "own.aag"])
        text = own_text(circuit, chance).encode() if form == "own.aag" else made.write_circuit(circuit, form == "aig")
        (self.folder / f"{name}.{form}").write_bytes(text)
        return f"{name}.{form}"

    def is_refuted(self, formula, *more):
        """Whether CaDiCaL refutes a formula, with a proof where a file is named for it."""
        words = ["cadical", "-q", *more[1:], formula, *more[:1]]
        return subprocess.run(words, cwd=self.folder, stdout=subprocess.DEVNULL, check=False).returncode == 20

    def holds_not(self, net, literal):
        """Whether nothing makes a literal true."""
        (self.folder / "own.cnf").write_text(formula_of(net, literal))
        return self.is_refuted("own.cnf")

    def verdict(self, words, witness, binary):
        """What the program says of a witness circuit: that it holds, that it does not, or by what it is refused."""
        said = self.call("obligation", "--circuit", *words[:-1], "-o", "formula.cnf", words[-1], witness)
        if said.returncode == 2:
            return said.stderr.strip().split(": ")[-1]
        if said.returncode != 0:
            return f"obligation: status {said.returncode}: {said.stdout}{said.stderr}"
        refuted = self.is_refuted("formula.cnf", "proof", *([] if binary else ["--no-binary"]))
        said = self.call("check-proof", "--circuit", *words, witness, "proof")
        holds = said.returncode == 0 and re.match(r"holds: b\d+\n", said.stdout) is not None
        if holds != refuted or said.returncode not in (0, 1):
            return f"check-proof: status {said.returncode}: {said.stdout}{said.stderr}, where CaDiCaL says {refuted}"
        return holds


def judge(place, what, trial, witness_file, binary, can_rise=None):
    """Tries one witness circuit; answers the verdict."""
    circuit, number, words = trial
    witness = made.read_circuit((place.folder / witness_file).read_bytes())
    wanted, certified = wanted_of(place, circuit, number, witness)
    got = place.verdict(words, witness_file, binary)
    tally.outcomes["holds" if got is True else "holds not" if got is False else got] += 1
    tally.same(what, wanted, got)
    if certified:
        tally.outcomes["meets the five checks"] += 1
        tally.same(f"{what}: what meets the five checks", True, got)
    if can_rise:
        tally.same(f"{what}: a property that can rise", True, got is not True)
    return got


def wanted_of(place, circuit, number, witness):
    """What is to come of a witness circuit; and whether it meets the five checks."""
    properties = len(witness.bads or witness.outputs)
    if properties != 1:
        return (SEVERAL_PROPERTIES if properties else NO_PROPERTY), False
    mapping = mapping_of(circuit, witness)
    if mapping is None:
        return NO_SUCH_LITERAL, False
    certified = place.holds_not(*certifies_not(circuit, number, witness, mapping))
    return place.holds_not(*guards_not(circuit, number, witness, mapping)), certified


# ---- spoilt witness circuits


def changed(witness, **fields):
    """A witness circuit with other parts."""
    return dataclasses.replace(witness, **fields)


def any_literal(witness, chance):
    """Some literal of a circuit."""
    return chance.randrange(2 * (witness.inputs + len(witness.latches) + len(witness.gates)) + 2)


def with_names(witness, turn):
    """A witness circuit whose names of literals were turned: each place of the table with its literal."""
    said = [(key, int(name[2:])) for key, name in sorted(witness.names.items()) if said_literal(name) is not None]
    return changed(witness, names={key: f"= {it}" for key, it in turn(said) if it is not None})


def one_of(some, change, chance):
    """A list in which one element is changed; as it was where there is none."""
    place = chance.randrange(len(some)) if some else 0
    return [change(it) if at == place else it for at, it in enumerate(some)]


def of_another_property(witness, chance):
    """Another literal in place of the property."""
    return changed(witness, bads=[any_literal(witness, chance)], outputs=[])


def property_turned(witness, chance):
    return changed(witness, bads=[property_of(witness) ^ 1], outputs=[])


def never_failing(witness, chance):
    return changed(witness, bads=[0], outputs=[])


def as_an_output(witness, chance):
    """It says the same."""
    return changed(witness, bads=[], outputs=[property_of(witness)])


def two_properties(witness, chance):
    return changed(witness, bads=[property_of(witness)] * 2, outputs=[])


def no_property(witness, chance):
    return changed(witness, bads=[], outputs=[])


def negated_in_one(witness, chance):
    return with_names(witness, lambda said: one_of(said, lambda it: (it[0], it[1] ^ 1), chance))


def off_by_one(witness, chance):
    """Each name says the next variable."""
    return with_names(witness, lambda said: [(key, it + 2) for key, it in said])


def back_by_one(witness, chance):
    """Each name says the variable before."""
    return with_names(witness, lambda said: [(key, max(0, it - 2)) for key, it in said])


def exchanged(witness, chance):
    """Two names are exchanged, or more."""
    return with_names(witness, lambda said: list(zip((key for key, _ in said), chance.sample([it for _, it in said], len(said)))))


def one_shared_less(witness, chance):
    return with_names(witness, lambda said: one_of(said, lambda it: (it[0], None), chance))


def no_names(witness, chance):
    return changed(witness, names={})


# Names that say no literal, or one that no circuit has.
ODD_NAMES = ["=", "= ", "=4", "= 04", "= 4 ", "= 4 x", " = 4", "= +4", "= four", "= 4294967296", "= 18446744073709551616"]


def an_odd_name(witness, chance):
    key = chance.choice(sorted(witness.names) or ["b0"])
    return changed(witness, names={**witness.names, key: chance.choice(ODD_NAMES)})


def too_great_a_literal(witness, chance):
    return with_names(witness, lambda said: one_of(said, lambda it: (it[0], 2_000_000), chance))


def no_constraints(witness, chance):
    return changed(witness, constraints=[])


def another_constraint(witness, chance):
    return changed(witness, constraints=[*witness.constraints, any_literal(witness, chance)])


def never_met(witness, chance):
    return changed(witness, constraints=[*witness.constraints, 0])


def reset_turned(witness, chance):
    """Another reset of one latch, an own one where there is one."""
    own = [it for it in range(len(witness.latches)) if said_literal(witness.names.get(f"l{it}", "")) is None]
    place = chance.choice(own or list(range(len(witness.latches))) or [0])
    resets = {0: 1, 1: None, None: 0}
    latches = [(follows, resets[reset] if at == place else reset) for at, (follows, reset) in enumerate(witness.latches)]
    return changed(witness, latches=latches)


def any_resets(witness, chance):
    """No latch has an initial value."""
    return changed(witness, latches=[(follows, None) for follows, _ in witness.latches])


def another_next(witness, chance):
    return changed(witness, latches=one_of(witness.latches, lambda it: (any_literal(witness, chance), it[1]), chance))


def operand_negated(witness, chance):
    gates = one_of(witness.gates, lambda it: tuple(sorted((it[0] ^ 1, it[1]), reverse=True)), chance)
    return changed(witness, gates=gates)


SPOILT = [
    of_another_property,
    property_turned,
    never_failing,
    as_an_output,
    two_properties,
    no_property,
    negated_in_one,
    off_by_one,
    back_by_one,
    exchanged,
    one_shared_less,
    no_names,
    an_odd_name,
    too_great_a_literal,
    no_constraints,
    another_constraint,
    never_met,
    reset_turned,
    any_resets,
    another_next,
    operand_negated,
]


def judge_spoilt(place, what, trial, witness, chance, ways=SPOILT, can_rise=None):
    """Tries a witness circuit that is spoilt, in each of some ways."""
    for way in ways:
        file = place.written("spoilt", way(witness, chance), chance)
        judge(place, f"{what}, {way.__name__}", trial, file, chance.random() < 0.5, can_rise)


# ---- small circuits by chance


def grown(net, chance, gates):
    """So many gates by chance over what a net has; all literals that there are then."""
    known = [made.FALSE, *net.inputs, *net.latches]
    for _ in range(gates):
        a, b = (chance.choice(known) ^ chance.randrange(2) for _ in range(2))
        known.append(net.both(a, b))
    return known


def by_gates(chance):
    """A circuit of a few inputs, latches, gates and constraints, and the literals that it has."""
    net = Net(chance.randrange(4), chance.randrange(1, 5))
    known = grown(net, chance, chance.randrange(3, 14))
    return net, known, [chance.choice(known) ^ chance.randrange(2) for _ in net.latches]


def by_table(chance):
    """The same of a circuit that has any state behind each, or one of two: so it has long ways that are not reached."""
    net = Net(chance.choice([0, 0, 1]), 4)
    table = []
    for leaves in itertools.product([0, 1], repeat=len(net.inputs) + len(net.latches)):
        here = net.every(it ^ one for it, one in zip([*net.inputs, *net.latches], leaves))
        table.append((here, chance.randrange(1 << len(net.latches))))
    nexts = [net.some(here for here, behind in table if behind >> place & 1) for place in range(len(net.latches))]
    return net, [*net.inputs, *net.latches, *(here for here, _ in table)], nexts


def small_circuit(chance):
    """A small circuit, with constraints and bad properties; many of these are a state that is reached from others alone that are not."""
    net, known, nexts = chance.choice([by_gates, by_table, by_table])(chance)
    latches = [(follows, chance.choice([0, 0, 0, 1, 1, None])) for follows in nexts]
    constraints = [chance.choice(known) ^ chance.randrange(2) for _ in range(chance.choice([0, 0, 0, 1, 2]))]
    found = Circuit(len(net.inputs), latches, net.gates, [], [], constraints)
    bads = [chance.choice(known) ^ chance.randrange(2) for _ in range(chance.randrange(1, 3))]
    behind = behind_of(found)
    unreached = sorted(set(range(len(behind))) - reached_of(found))
    late = sorted({it for state in unreached for it in behind[state]}.intersection(unreached))
    for place in range(len(bads)):
        if unreached and chance.random() < 0.6:
            state = chance.choice(late or unreached)
            bads[place] = net.every(it ^ (not state >> at & 1) for at, it in enumerate(net.latches))
    return changed(found, bads=bads)


class Table:
    """The values of all literals of a circuit, for all its states and inputs side by side."""

    def __init__(self, circuit):
        count = circuit.inputs + len(circuit.latches)
        self.width = 1 << count
        self.all = (1 << self.width) - 1
        # the bit of place p of variable v is bit v of p
        self.values = [0, *(self.all // ((1 << (1 << it)) + 1) << (1 << it) for it in range(count))]
        for a, b in circuit.gates:
            self.values.append(self(a) & self(b))

    def __call__(self, literal):
        return self.values[literal >> 1] ^ (self.all if literal & 1 else 0)


def behind_of(circuit):
    """For each state of a circuit, latch by latch a bit, the states that may follow while its constraints hold."""
    table, inputs = Table(circuit), 1 << circuit.inputs
    met = table.all
    for it in circuit.constraints:
        met &= table(it)
    nexts = [table(follows) for follows, _ in circuit.latches]
    found = []
    for state in range(1 << len(nexts)):
        places = [state * inputs + given for given in range(inputs) if met >> (state * inputs + given) & 1]
        found.append({sum((one >> at & 1) << place for place, one in enumerate(nexts)) for at in places})
    return found


def reached_of(circuit):
    """The states of a circuit that are reached while its constraints hold, the last one of a run too."""
    behind = behind_of(circuit)
    resets = [reset for _, reset in circuit.latches]
    found = {state for state in range(len(behind)) if all(it in (None, state >> place & 1) for place, it in enumerate(resets))}
    waiting = list(found)
    while waiting:
        new = behind[waiting.pop()] - found
        found |= new
        waiting += new
    return found


def can_rise(circuit, number):
    """Whether a bad property rises in a frame up to which the constraints hold."""
    table, inputs = Table(circuit), 1 << circuit.inputs
    rises = table(circuit.bads[number])
    for it in circuit.constraints:
        rises &= table(it)
    return any(rises >> (state * inputs + given) & 1 for state in reached_of(circuit) for given in range(inputs))


def cubes_of(circuit, chance):
    """Cubes of states that are not reached, made as large as they go in an order by chance."""
    count = len(circuit.latches)
    reached, cubes = reached_of(circuit), []

    def has_reached(cube):
        return any(all((it >> latch & 1) == one for latch, one in cube) for it in reached)

    for state in range(1 << count):
        if state in reached or any(all((state >> latch & 1) == one for latch, one in cube) for cube in cubes):
            continue
        cube = [(latch, state >> latch & 1) for latch in range(count)]
        for it in chance.sample(cube, count):
            fewer = [one for one in cube if one != it]
            cube = cube if has_reached(fewer) else fewer
        cubes.append(cube)
    return cubes


def invariant_text(cubes):
    """Cubes as ABC writes them."""
    named = sorted({latch for cube in cubes for latch, _ in cube})
    names = " ".join([".ilb", *(f"lo{it:02}" for it in named)])
    lines = ["# an invariant", f".i {len(named)}", ".o 1", f".p {len(cubes)}", names, ".ob inv"]
    lines += ["".join(str(dict(cube).get(it, "-")) for it in named) + " 1" for cube in cubes]
    return "\n".join([*lines, ".e", "", ""])


def own_text(circuit, chance):
    """A circuit in ascii, its variables named anew and its gates in any order."""
    count = circuit.inputs + len(circuit.latches) + len(circuit.gates)
    most = count + chance.randrange(4)
    new = [0, *chance.sample(range(1, most + 1), count)]

    def said(literal):
        return 2 * new[literal >> 1] ^ (literal & 1)

    inputs, latches = circuit.leaves()
    counts = [most, *map(len, (inputs, latches, circuit.outputs, circuit.gates, circuit.bads, circuit.constraints))]
    lines = [" ".join(["aag", *map(str, counts)]), *(str(said(it)) for it in inputs)]
    for own, (follows, reset) in zip(latches, circuit.latches):
        lines.append(f"{said(own)} {said(follows)} {said(own) if reset is None else reset}")
    lines += [str(said(it)) for it in [*circuit.outputs, *circuit.bads, *circuit.constraints]]
    first = 1 + circuit.inputs + len(latches)
    gates = [f"{said(2 * (first + place))} {said(a)} {said(b)}" for place, (a, b) in enumerate(circuit.gates)]
    names = [f"{key} {name}" for key, name in circuit.names.items()]
    return "\n".join([*lines, *chance.sample(gates, len(gates)), *chance.sample(names, len(names))]) + "\n"


def watched(witness, chance):
    """The same witness circuit, of which what is shared are inputs alone, some of them for the negation of what they stood for."""
    inputs, latches = witness.leaves()
    shared = [place for place in range(len(latches)) if said_literal(witness.names.get(f"l{place}", "")) is not None]
    own = [place for place in range(len(latches)) if place not in shared]
    net = Net(witness.inputs + len(shared), len(own))
    names = [witness.names.get(f"i{place}") for place in range(witness.inputs)] + [witness.names[f"l{place}"] for place in shared]
    turned = [it is not None and said_literal(it) is not None and chance.random() < 0.5 for it in names]
    leaves = [it ^ is_so for it, is_so in zip(net.inputs, turned)]
    table = {**dict(zip(shared, leaves[witness.inputs :])), **dict(zip(own, net.latches))}
    frame = Frame(net, witness, leaves[: witness.inputs], [table[place] for place in range(len(latches))])
    said = {f"i{at}": f"= {said_literal(it) ^ is_so}" if is_so else it for at, (it, is_so) in enumerate(zip(names, turned)) if it}
    kept = [(frame(witness.latches[place][0]), witness.latches[place][1]) for place in own]
    return Circuit(len(leaves), kept, net.gates, [], frame.all(witness.bads), frame.all(witness.constraints), names=said)


def small_observer(circuit, chance):
    """A witness circuit by chance, each of whose inputs stands for any literal of the circuit, and each of whose latches may."""
    net = Net(chance.randrange(1, 5), chance.randrange(3))
    known = grown(net, chance, chance.randrange(8))
    literals = [0, *circuit.own]
    keys = [*(f"i{it}" for it in range(len(net.inputs))), *(f"l{it}" for it in range(len(net.latches)) if chance.random() < 0.5)]
    names = {key: f"= {chance.choice(literals) ^ chance.randrange(2)}" for key in keys if chance.random() < 0.9}
    latches = [(chance.choice(known), chance.choice([0, 1, None])) for _ in net.latches]
    return Circuit(len(net.inputs), latches, net.gates, [], [chance.choice(known) ^ chance.randrange(2)], [], names=names)


# ---- tries


def by_script(place, what, file, *words):
    """The witness circuit that the script writes."""
    words = [sys.executable, SCRIPT, "-o", file, *map(str, words)]
    done = subprocess.run(words, cwd=place.folder, capture_output=True, text=True, check=False)
    tally.same(f"{what}: the script", (0, ""), (done.returncode, done.stderr))
    return made.read_circuit((place.folder / file).read_bytes())


def try_induction(place, what, file, trial, chance, rises):
    """Inductions of each depth over a circuit: whole, as inputs alone, and spoilt in some ways. A depth that is enough stays so."""
    circuit, number, words = trial
    known = []
    for depth in range(1, MOST_DEPTH + 1):
        into = f"witness.{chance.choice(['aag', 'aig'])}"
        witness = by_script(place, what, into, "--induction", depth, "--bad", number, file)
        here = f"{what}, depth {depth}"
        known.append(judge(place, here, trial, into, chance.random() < 0.5, rises))
        again = place.written("watched", watched(witness, chance), chance)
        tally.same(f"{here}: as inputs alone", known[-1], judge(place, here, trial, again, chance.random() < 0.5, rises))
        judge_spoilt(place, here, trial, witness, chance, chance.sample(SPOILT, 2), rises)
    tally.same(f"{what}: depths", sorted(known, key=str), known)
    other = (number + 1) % len(circuit.bads)
    by_script(place, what, "other.aag", "--induction", MOST_DEPTH, "--bad", other, file)
    judge(place, f"{what}, the witness circuit of b{other}", trial, "other.aag", False, rises)


def try_invariant(place, what, file, trial, chance, rises):
    """An invariant over an engine form, with all cubes and with some; spoilt in some ways."""
    circuit, number, words = trial
    cubes = cubes_of(circuit, chance)
    for some in (cubes, chance.sample(cubes, len(cubes) * 3 // 4)):
        (place.folder / "invariant").write_text(invariant_text(some))
        into = f"witness.{chance.choice(['aag', 'aig'])}"
        witness = by_script(place, what, into, "--invariant", "invariant", file)
        got = judge(place, f"{what}, {len(some)} cubes", trial, into, chance.random() < 0.5, rises)
        if some is cubes:
            tally.same(f"{what}: all that is not reached", not rises, got)
        judge_spoilt(place, what, trial, witness, chance, chance.sample(SPOILT, 2), rises)


TOGGLER = "aag 1 0 1 0 0 1\n2 3\n2\n"
# Words for the script with the texts of CIRCUIT and INVARIANT, and what it says of them.
REFUSED = [
    (["--induction", "2"], "1 sort bitvec 1\n", "", "circuit: is no circuit in AIGER"),
    (["--induction", "2"], "aag 1 0 1 0 0 1\n2 3\n", "", "circuit: is no circuit in AIGER"),
    (["--induction", "2"], "aag 2 0 0 0 2 1\n2\n2 4 4\n4 2 2\n", "", "circuit: is no circuit in AIGER"),
    (["--induction", "2"], "aag 1 0 1 0 0 1\n2 5\n2\n", "", "circuit: is no circuit in AIGER"),
    (["--induction", "2", "--bad", "1"], TOGGLER, "", "circuit: has no bad property 1"),
    (["--induction", "2"], "aag 1 0 1 0 0 1 0 1\n2 3\n2\n1\n2\n", "", "circuit: has properties of liveness"),
    (["--induction", "0"], TOGGLER, "", "an induction has a frame at least"),
    (["--induction", "two"], TOGGLER, "", "no number"),
    (["--induction", "2", "--invariant", "invariant"], TOGGLER, "", "not allowed with"),
    ([], TOGGLER, "", "required"),
    (["--invariant", "nowhere"], TOGGLER, "", "nowhere"),
    (["--invariant", "invariant"], TOGGLER, ".i 1\n.o 1\n.p 1\n.ilb lo0\n.ob inv\n1 1\n", "invariant: is no invariant"),
    (["--invariant", "invariant"], TOGGLER, ".i 1\n.o 1\n.p 1\n.ilb t[0]\n.ob inv\n1 1\n.e\n", "invariant: is no invariant"),
    (["--invariant", "invariant"], TOGGLER, ".i 1\n.o 1\n.p 1\n.ilb lo1\n.ob inv\n1 1\n.e\n", "another latch"),
    (["--invariant", "invariant"], TOGGLER, ".i 1\n.o 1\n.p 2\n.ilb lo0\n.ob inv\n1 1\n.e\n", "other counts"),
    (["--invariant", "invariant"], TOGGLER, ".i 1\n.o 1\n.p 1\n.ilb lo0\n.ob inv\n11 1\n.e\n", "no cube: 11 1"),
    (["--invariant", "invariant"], TOGGLER, "", "invariant: is no invariant"),
]


def try_words(place):
    """Words and texts that the script refuses; and that its output is the same in both forms."""
    for words, circuit, invariant, wanted in REFUSED:
        (place.folder / "circuit").write_text(circuit)
        (place.folder / "invariant").write_text(invariant)
        words = [sys.executable, SCRIPT, *words, "circuit"]
        done = subprocess.run(words, cwd=place.folder, capture_output=True, text=True, check=False)
        tally.same(f"{words[2:]}: {wanted}", (2, "", True), (done.returncode, done.stdout, wanted in done.stderr))
    (place.folder / "circuit").write_text(TOGGLER)
    both = [by_script(place, "both forms", file, "--induction", "3", "circuit") for file in ("it.aag", "it.aig")]
    tally.same("both forms", *both)
    words = [sys.executable, SCRIPT, "--induction", "3", "circuit"]
    told = subprocess.run(words, cwd=place.folder, stdout=subprocess.PIPE, check=False).stdout
    tally.same("standard output", (place.folder / "it.aag").read_bytes(), told)


def try_small(place, round_number, chance):
    """One small circuit, as it is and in its engine form, in each way."""
    what = f"round {round_number}"
    file = place.written("circuit", small_circuit(chance), chance)
    circuit = made.read_circuit((place.folder / file).read_bytes())
    number = chance.randrange(len(circuit.bads))
    rises = can_rise(circuit, number)
    tally.outcomes["properties that can rise" if rises else "properties that cannot"] += 1
    said = ["--aiger", "--bad", str(number)]
    plain = circuit, number, [*said, file]
    try_induction(place, what, file, plain, chance, rises)
    for _ in range(2):
        observer = place.written("observer", small_observer(circuit, chance), chance)
        judge(place, f"{what}, an observer", plain, observer, False, rises)
    form = place.call("aig-convert", "--engine", "--bad", number, "-o", "form.aag", file)
    tally.same(f"{what}: its engine form", (0, ""), (form.returncode, form.stderr))
    engine = made.read_circuit((place.folder / "form.aag").read_bytes()), 0, ["--engine", *said, file]
    try_invariant(place, f"{what}, its form", "form.aag", engine, chance, rises)
    depth = chance.randrange(1, MOST_DEPTH + 1)
    by_script(place, what, "witness.aag", "--induction", depth, "form.aag")
    judge(place, f"{what}, its form, depth {depth}", engine, "witness.aag", True, rises)


def try_over(place, words, chance):
    """One witness circuit, whole and spoilt in each way."""
    for name, path in (("circuit", words.over[0]), ("witness", words.over[1])):
        (place.folder / name).write_bytes(pathlib.Path(path).read_bytes())
    *told, model = words.of_program
    told.append(str(pathlib.Path(model).resolve()))
    trial = made.read_circuit((place.folder / "circuit").read_bytes()), words.number, told
    for binary in (False, True):
        judge(place, words.over[1], trial, "witness", binary, words.rises)
    witness = made.read_circuit((place.folder / "witness").read_bytes())
    judge_spoilt(place, words.over[1], trial, witness, chance, SPOILT, words.rises)


def main():
    words = argparse.ArgumentParser(description="tries witness circuits")
    words.add_argument("program", nargs="?", default=str(TOP / "crates/hwtool/out/hwtool"))
    words.add_argument("--rounds", type=int, default=40, metavar="N", help="so many small circuits (40)")
    words.add_argument("--seed", type=int, default=1, metavar="N")
    words.add_argument("--over", nargs=2, metavar=("CIRCUIT", "WITNESS_CIRCUIT"), help="this one, with words for the program behind --")
    words.add_argument("--number", type=int, default=0, metavar="K", help="the bad property of CIRCUIT")
    words.add_argument("--rises", action="store_true", help="the property can rise")
    own = list(itertools.takewhile(lambda it: it != "--", sys.argv[1:]))
    words = words.parse_args(own)
    words.of_program = sys.argv[2 + len(own) :]
    chance = random.Random(words.seed)
    with tempfile.TemporaryDirectory() as folder:
        place = Place(folder, pathlib.Path(words.program).resolve())
        if words.over:
            try_over(place, words, chance)
        else:
            try_words(place)
            for number in range(words.rounds):
                try_small(place, number, random.Random(f"{words.seed} {number}"))
    counts = ", ".join(f"{count} {what}" for what, count in sorted(tally.outcomes.items()))
    print(f"witness circuits: {counts}; {tally.wrong} wrong")
    sys.exit(1 if tally.wrong else 0)


if __name__ == "__main__":
    main()
