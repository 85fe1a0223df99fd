#!/usr/bin/env python3
"""Remedies keep the meaning: what `hwtool explain` tells to do about a refusal is done, and looked at.

tests/remedies.py [PROGRAM], by hand, beside the gate. Each case has a text that the program refuses by a number, and the text
that the remedy makes of it, which the program takes. Where the remedy promises the same meaning, both are run frame by frame
by the evaluator of this file, over all input sequences or many; a model that is taken also as the circuit that `lower` makes
of it. What Yosys and ABC are to mend is tried where they are installed. The last line tells how many cases were tried and how
many are wrong; the status is 1 where any is.
"""

import gzip
import lzma
import os
import pathlib
import random
import re
import shutil
import subprocess
import sys
import tempfile

TOP = pathlib.Path(__file__).resolve().parent.parent
REFUSALS = (TOP / "docs/REFUSALS.md").read_text().replace("\\|", "|")
FRAMES = 4
ALL_BITS = 11  # sequences of so many bits are all tried
MANY = 200
sys.setrecursionlimit(100000)


class Leaves:
    """The words of what a run is free to choose: of inputs, of first states, of states without a next. A name has one word
    in a frame, in whichever text it stands, and `name[k]` is bit k of a word that is there; words are cut from the bits of
    `number`, or are random."""

    def __init__(self, number, chance=None):
        self.number, self.chance, self.words, self.taken = number, chance, {}, 0

    def word(self, name, frame, width):
        key = (name, frame)
        whole, bracket, place = name.rpartition("[") if isinstance(name, str) else ("", "", "")
        if key not in self.words and bracket and width == 1 and (whole, frame) in self.words:
            return (self.words[(whole, frame)] >> int(place[:-1])) & 1
        if key not in self.words:
            if self.chance:
                self.words[key] = self.chance.getrandbits(width)
            else:
                self.words[key] = self.number & ((1 << width) - 1)
                self.number >>= width
            self.taken += width
        return self.words[key]


def signed(word, width):
    return word - (1 << width) if word >> (width - 1) else word


def trunc_div(a, b):
    return abs(a) // abs(b) * (1 if (a < 0) == (b < 0) else -1)


class Model:
    """A BTOR2 model, read leniently: negative operands, words of any width, arrays, inits of any value, carriage returns."""

    def __init__(self, text, renamed=()):
        self.sorts, self.nodes, self.init, self.next = {}, {}, {}, {}
        self.inputs, self.states, self.bads, self.constraints = [], [], [], []
        self.renamed = dict(renamed)
        for line in text.replace(b"\xef\xbb\xbf", b"").decode("utf-8", "replace").splitlines():
            words = line.split(";")[0].split() if line.lstrip().startswith(";") else line.split()
            words = words[: next((k for k, word in enumerate(words) if word.startswith(";")), len(words))]
            if len(words) >= 2:
                self.line(int(words[0]), words[1], words[2:])

    def line(self, name, form, rest):
        if form == "sort":
            self.sorts[name] = ("array", int(rest[1]), int(rest[2])) if rest[0] == "array" else int(rest[1])
        elif form == "init":
            self.init.setdefault(int(rest[1]), int(rest[2]))
        elif form == "next":
            self.next.setdefault(int(rest[1]), int(rest[2]))
        elif form == "bad":
            self.bads.append(int(rest[0]))
        elif form == "constraint":
            self.constraints.append(int(rest[0]))
        elif form not in ("output", "justice", "fair"):
            self.nodes[name] = (form, int(rest[0]), rest[1:])
            if form == "input":
                self.inputs.append(name)
            if form == "state":
                self.states.append(name)

    def symbol(self, name):
        rest = self.nodes[name][2]
        own = rest[0] if rest else (id(self), name)
        return self.renamed.get(own, (own, 0))

    def chosen(self, name, frame):
        """The word of a leaf: of an array one for each place, by the names that registers of it have."""
        sort = self.sorts[self.nodes[name][1]]
        symbol, later = self.symbol(name)
        if isinstance(sort, tuple):
            places = 1 << self.sorts[sort[1]]
            return tuple(self.leaves.word(f"{symbol}[{k}]", frame + later, self.sorts[sort[2]]) for k in range(places))
        return self.leaves.word(symbol, frame + later, sort)

    def run(self, leaves, frames):
        """In each frame: the bad properties, and the constraints."""
        self.leaves, told, before = leaves, [], {}
        for frame in range(frames):
            self.values, self.frame, self.before = {}, frame, before
            for name in self.inputs:
                self.values[name] = self.chosen(name, frame)
            for name in self.states:
                if (frame == 0 and name not in self.init) or (frame > 0 and name not in self.next):
                    self.values[name] = self.chosen(name, frame)
            told.append(([self.value(it) for it in self.bads], [self.value(it) for it in self.constraints]))
            before = {name: self.value(self.next[name]) for name in self.states if name in self.next}
        return told

    def width(self, name):
        return self.sorts[self.nodes[abs(name)][1]]

    def value(self, name):
        if name < 0:
            return self.value(-name) ^ ((1 << self.width(name)) - 1)
        if name not in self.values:
            self.values[name] = self.computed(name)
        return self.values[name]

    def computed(self, name):
        form, sort, rest = self.nodes[name]
        width = self.sorts[sort]
        if form == "state":
            if self.frame:
                return self.before[name]
            word = self.value(self.init[name])
            if isinstance(width, tuple) and not isinstance(word, tuple):
                return (word,) * (1 << self.sorts[width[1]])
            return word
        if form == "read":
            return self.value(int(rest[0]))[self.value(int(rest[1]))]
        if form == "write":
            words, place = list(self.value(int(rest[0]))), self.value(int(rest[1]))
            words[place] = self.value(int(rest[2]))
            return tuple(words)
        ones = (1 << width) - 1 if isinstance(width, int) else None
        if form in ("zero", "one", "ones"):
            return {"zero": 0, "one": 1, "ones": ones}[form]
        if form in ("const", "constd", "consth"):
            return int(rest[0], {"const": 2, "constd": 10, "consth": 16}[form]) & ones
        a = self.value(int(rest[0]))
        m = self.width(int(rest[0]))
        if form in ("uext", "sext", "slice"):
            if form == "slice":
                return (a >> int(rest[2])) & ones
            return a if form == "uext" else signed(a, m) & ones
        if form == "ite":
            return self.value(int(rest[1])) if a else self.value(int(rest[2]))
        b = self.value(int(rest[1])) if len(rest) > 1 and rest[1].lstrip("-").isdigit() else 0
        return self.operator(form, a, b, m, rest, ones)

    def operator(self, form, a, b, m, rest, ones):
        full = (1 << m) - 1 if isinstance(m, int) else None
        if form == "concat":
            return a << self.width(int(rest[1])) | b
        s, t = (signed(a, m), signed(b, m)) if full is not None else (0, 0)
        found = {
            "not": lambda: a ^ full, "inc": lambda: a + 1, "dec": lambda: a - 1, "neg": lambda: -a,
            "redand": lambda: a == full, "redor": lambda: a != 0, "redxor": lambda: bin(a).count("1"),
            "and": lambda: a & b, "or": lambda: a | b, "xor": lambda: a ^ b, "nand": lambda: ~(a & b), "nor": lambda: ~(a | b),
            "xnor": lambda: ~(a ^ b), "implies": lambda: not a or b, "iff": lambda: a == b, "eq": lambda: a == b,
            "neq": lambda: a != b, "ult": lambda: a < b, "ulte": lambda: a <= b, "ugt": lambda: a > b, "ugte": lambda: a >= b,
            "slt": lambda: s < t, "slte": lambda: s <= t, "sgt": lambda: s > t, "sgte": lambda: s >= t,
            "add": lambda: a + b, "sub": lambda: a - b, "mul": lambda: a * b, "sll": lambda: a << min(b, m),
            "srl": lambda: a >> min(b, m), "sra": lambda: s >> min(b, m),
            "udiv": lambda: a // b if b else -1, "urem": lambda: a % b if b else a, "udivo": lambda: 0,
            "sdivo": lambda: s == -(1 << (m - 1)) and t == -1,
        }[form]()
        return int(found) & ones


class Circuit:
    """An AIGER circuit of either form, read leniently: any deltas, any names, whatever comment."""

    def __init__(self, text, outputs_are_bad=False):
        text = text.replace(b"\xef\xbb\xbf", b"")
        head, _, rest = text.partition(b"\n")
        words = head.split()
        counts = [int(it) for it in words[1:]] + [0] * (10 - len(words))
        self.binary = words[0] == b"aig"
        m, self.i, self.l, o, a, b, c, j, f = counts
        self.rest = rest
        self.inputs = [2 * k + 2 for k in range(self.i)] if self.binary else [self.numbers()[0] for _ in range(self.i)]
        self.latches = []
        for k in range(self.l):
            numbers = self.numbers()
            if self.binary:
                numbers = [2 * (self.i + k) + 2] + numbers
            self.latches.append((numbers + [0])[:3])
        outputs = [self.numbers()[0] for _ in range(o)]
        self.bads = [self.numbers()[0] for _ in range(b)]
        self.constraints = [self.numbers()[0] for _ in range(c)]
        sizes = [self.numbers()[0] for _ in range(j)]
        for _ in range(sum(sizes) + f):
            self.numbers()
        if outputs_are_bad:
            self.bads += outputs
        self.gates = {}
        for k in range(a):
            if self.binary:
                own = 2 * (self.i + self.l + k) + 2
                first = own - self.delta()
                self.gates[own] = (first, first - self.delta())
            else:
                own, first, second = self.numbers()
                self.gates[own] = (first, second)
        self.names = {}
        while self.rest[:1] in (b"i", b"l", b"o", b"b", b"c") and self.rest[1:2].isdigit():
            line, _, self.rest = self.rest.partition(b"\n")
            place, _, name = line.decode("utf-8", "replace").partition(" ")
            self.names[place] = name.rstrip("\r")

    def numbers(self):
        line, _, self.rest = self.rest.partition(b"\n")
        return [int(it) for it in line.split()]

    def delta(self):
        number, place = 0, 0
        while True:
            byte, self.rest = self.rest[0], self.rest[1:]
            number |= (byte & 127) << place
            place += 7
            if byte < 128:
                return number

    def bit(self, leaves, place, frame):
        """The bit of an input or a first state, by its name. Of `init:NAME`, as Yosys has it, the first frame's is that of NAME."""
        name = self.names.get(place, place)
        own = name.lstrip("!").removeprefix("init:") if frame == 0 else name.lstrip("!")
        return leaves.word(own, frame, 1) ^ name.startswith("!")

    def run(self, leaves, frames):
        told, state = [], None
        for frame in range(frames):
            values = {0: 0, 1: 1}
            for k, own in enumerate(self.inputs):
                values[own] = self.bit(leaves, f"i{k}", frame)
            for k, (own, _, reset) in enumerate(self.latches):
                if frame:
                    values[own] = state[k]
                elif reset == own:
                    values[own] = self.bit(leaves, f"l{k}", 0)
                elif reset > 1:
                    self.gates[own] = (reset, 1)  # no AIGER: the first bit is that of another literal
                else:
                    values[own] = reset
            told.append(([self.value(values, it) for it in self.bads], [self.value(values, it) for it in self.constraints]))
            state = [self.value(values, following) for _, following, _ in self.latches]
        return told

    def value(self, values, literal):
        if literal not in values:
            own = literal & ~1
            if own not in values:
                first, second = self.gates[own]
                values[own] = self.value(values, first) & self.value(values, second)
            values[literal] = values[own] ^ (literal & 1)
        return values[literal]


def read(text, renamed=(), outputs_are_bad=False):
    first = text.replace(b"\xef\xbb\xbf", b"").split(None, 1)[0]
    return Circuit(text, outputs_are_bad) if first in (b"aag", b"aig") else Model(text, renamed)


def differing(first, second, frames, many=MANY):
    """Where two texts are not the same, of all sequences or many; None where they are in all of them."""
    leaves = Leaves(0)
    first.run(leaves, frames), second.run(leaves, frames)
    few = leaves.taken <= ALL_BITS
    for number in range(1 << leaves.taken if few else many):
        leaves = Leaves(number, None if few else random.Random(number))
        one, other = first.run(leaves, frames), second.run(leaves, frames)
        if one != other:
            frame = next(k for k in range(frames) if one[k] != other[k])
            return f"sequence {number}, frame {frame}: {one[frame]} before and {other[frame]} after, of {str(leaves.words)[:300]}"
    return None


class Trials:
    def __init__(self, program, folder):
        self.program, self.folder, self.tried, self.wrong, self.left = program, folder, 0, 0, []

    def run(self, words, text, name="before"):
        (self.folder / name).write_bytes(text)
        words = [str(self.folder / word[1:]) if word.startswith("@") else word for word in words]
        words = [name if word == "FILE" else word for word in words] + ([] if "FILE" in words else [name])
        try:
            return subprocess.run([self.program, *words], capture_output=True, cwd=self.folder, timeout=120)
        except subprocess.TimeoutExpired:
            return subprocess.CompletedProcess(words, 1, b"", b"it takes more than two minutes")

    def said(self, words):
        """Words of a remedy, which docs/REFUSALS.md is to have as they stand."""
        if "`" + words not in REFUSALS:
            self.wrong += 1
            print(f"remedies: docs/REFUSALS.md does not say `{words}`")
        return words

    def shell(self, command, text):
        """What a command of a remedy makes of FILE: itself, or NEW."""
        self.said(command + "`")
        (self.folder / "FILE").write_bytes(text)
        (self.folder / "NEW").unlink(missing_ok=True)
        subprocess.run(["sh", "-ec", command], cwd=self.folder, check=True, capture_output=True)
        new = self.folder / "NEW"
        return (new if new.exists() else self.folder / "FILE").read_bytes()

    def tidied(self, text):
        """What `tidy-witness` makes of a text, as remedies of witnesses say."""
        self.said("hwtool tidy-witness FILE`")
        return self.run(["tidy-witness"], text).stdout

    def case(self, number, title, words, before, after, same, renamed=(), frames=FRAMES, as_bad=(False, False), many=MANY):
        """One remedy: `before` is refused by the number, `after` is taken, and where `same` both do the same. A leaf of
        `after` may be another one of `before`, some frames later (`renamed`), and outputs of either be looked at (`as_bad`)."""
        self.tried += 1
        faults = []
        refused = self.run(words, before)
        told = (refused.stderr + refused.stdout).decode("utf-8", "replace")
        if refused.returncode not in (1, 2) or f": {number} " not in told:
            faults.append(f"it is not refused by {number}: status {refused.returncode}, {told.strip()[:200]}")
        taken = self.run(words, after, "after")
        if taken.returncode:
            faults.append(f"what the remedy makes is not taken: {(taken.stderr + taken.stdout).decode('utf-8', 'replace').strip()[:200]}")
        if same and not faults:
            found = differing(read(before, (), as_bad[0]), read(after, renamed, as_bad[1]), frames, many)
            if found:
                faults.append(found)
        if words == ["lower"] and not faults:
            found = differing(read(after), Circuit(taken.stdout), frames, many)
            if found:
                faults.append("its circuit: " + found)
        self.wrong += bool(faults)
        for fault in faults:
            print(f"remedies: {number} {title}: {fault}")


    def control(self, title, before, after):
        """What is no remedy, since it says something else: the evaluator is to tell so."""
        self.tried += 1
        if not differing(read(before), read(after), FRAMES):
            self.wrong += 1
            print(f"remedies: {title}: it says something else, and the evaluator does not tell")


def text(lines):
    """Lines of a model: those of a block without its margin."""
    return ("\n".join(line.strip() for line in lines.strip().splitlines()) + "\n").encode()


COUNTER = text("""
    1 sort bitvec 1
    2 sort bitvec 2
    3 zero 2
    4 state 2 c
    5 init 2 4 3
    6 input 1 go
    7 inc 2 4
    8 ite 2 6 7 4
    9 next 2 4 8
    10 ones 2
    11 eq 1 4 10
    12 bad 11 full
""")


def models(trials):
    """Models that are changed by hand, as the remedies say."""
    case = trials.case
    lower = ["lower"]
    trials.said("hwtool fit FILE >NEW`")
    fitted = lambda model: trials.run(["fit"], model).stdout
    pair = text("""
        1 sort bitvec 1
        2 sort bitvec 2
        3 state 2 a
        4 state 2 b
        5 init 2 4 3
        6 inc 2 3
        7 next 2 3 6
        8 inc 2 4
        9 next 2 4 8
        10 neq 1 3 4
        11 bad 10
    """)
    case(11, "the init's value is a state", lower, pair, fitted(pair), True)
    free = pair.replace(b"5 init 2 4 3\n", b"")
    trials.control("an init that is left out", pair, free)
    trials.control("an init that is left out and constrained", pair, free + b"12 eq 1 4 3\n13 constraint 12\n")
    second = text("""
        1 sort bitvec 1
        2 sort bitvec 2
        3 input 2 x
        4 state 2 a
        5 state 2 b
        6 inc 2 3
        7 init 2 4 6
        8 not 2 4
        9 init 2 5 8
        10 add 2 4 3
        11 next 2 4 10
        12 xor 2 5 4
        13 next 2 5 12
        14 redand 1 5
        15 bad 14
        16 redor 1 4
        17 constraint 16
    """)
    case(11, "the init's value is an expression, and a second init reads the state", lower, second, fitted(second), True)
    negative = text("""
        1 sort bitvec 1
        2 sort bitvec 2
        3 ones 2
        4 state 2 a
        5 init 2 4 3
        6 input 2 x
        7 and 2 4 -6
        8 next 2 4 7
        9 redor 1 4
        10 bad -9
    """)
    case(24, "negative operands", lower, negative, negative.replace(b"7 and 2 4 -6", b"11 not 2 6\n7 and 2 4 11").replace(b"10 bad -9", b"12 not 1 9\n10 bad 12"), True)
    trials.control("a negative operand as `neg`", negative, negative.replace(b"7 and 2 4 -6", b"11 neg 2 6\n7 and 2 4 11"))
    case(24, "negative operands, fitted", lower, negative, fitted(negative), True)
    case(24, "a negative init", lower, negative.replace(b"init 2 4 3", b"init 2 4 -3").replace(b"-6", b"6").replace(b"bad -9", b"bad 9"),
         negative.replace(b"5 init 2 4 3", b"13 zero 2\n5 init 2 4 13").replace(b"-6", b"6").replace(b"bad -9", b"bad 9"), True)
    stuck = text("""
        1 sort bitvec 1
        2 sort bitvec 2
        3 one 2
        4 state 2 s
        5 init 2 4 3
        6 redand 1 4
        7 bad 6
    """)
    moving = stuck + b"8 input 2 later\n9 next 2 4 8\n"
    trials.control("a state that is its own next", stuck, stuck + b"8 next 2 4 4\n")
    trials.control("a state without its init", stuck, stuck.replace(b"5 init 2 4 3\n", b""))
    case(92, "a state with an init and no next", lower, stuck, moving, True, {"later": ("s", 1)})
    case(92, "a state with an init and no next, fitted", lower, stuck, fitted(stuck), True)
    (trials.folder / "claimed").write_bytes(b"sat\nb0\n@0\n0 11\n@1\n.\n")
    for command in ("check-btor", "wave"):
        case(70, "a state with an init and no next", [command, "FILE", "@claimed"], stuck, moving, False)
    justice = COUNTER + b"13 justice 1 6\n14 fair 6\n"
    case(90, "a justice line", lower, justice, COUNTER, True)
    case(91, "a fairness line", lower, COUNTER + b"14 fair 6\n", COUNTER, True)
    case(13, "a justice line without a node", lower, COUNTER + b"13 justice 0\n", COUNTER, True)
    overflow = COUNTER.replace(b"11 eq 1 4 10", b"13 udivo 1 4 10\n14 not 1 13\n15 eq 1 4 10\n11 and 1 14 15")
    case(23, "`udivo`", lower, overflow, overflow.replace(b"udivo 1 4 10", b"zero 1"), True)
    case(20, "carriage returns", lower, COUNTER.replace(b"\n", b"\r\n"), trials.shell(r"tr -d '\r' <FILE >NEW", COUNTER.replace(b"\n", b"\r\n")), True)
    case(20, "a byte order mark", lower, b"\xef\xbb\xbf" + COUNTER, trials.shell("tail -c +4 FILE >NEW", b"\xef\xbb\xbf" + COUNTER), True)
    case(20, "a comment without its mark", lower, COUNTER.replace(b"full", b"full of words"), COUNTER.replace(b"full", b"full ; of words"), True)
    case(28, "no last line feed", lower, COUNTER[:-1], trials.shell("echo >>FILE", COUNTER[:-1]), True)
    case(26, "a name with an umlaut", lower, COUNTER.replace(b" c\n", " zähler\n".encode()), COUNTER.replace(b" c\n", b" zaehler\n"), True)
    case(26, "a name of 256 bytes", lower, COUNTER.replace(b"full", b"f" * 256), COUNTER, True)
    case(1, "an id twice", lower, COUNTER.replace(b"10 ones", b"9 ones").replace(b"4 10", b"4 9"), COUNTER, False)
    case(2, "an id above 4,294,967,295", lower, COUNTER.replace(b"10 ones", b"4294967296 ones").replace(b"4 10", b"4 4294967296"), COUNTER, True)
    case(3, "a sort behind its use", lower, COUNTER.replace(b"2 sort bitvec 2\n", b"") + b"2 sort bitvec 2\n", COUNTER, True)
    case(4, "an operand behind its use", lower, COUNTER.replace(b"7 inc 2 4\n", b"") + b"7 inc 2 4\n", COUNTER, True)
    case(9, "an init twice", lower, COUNTER + b"13 init 2 4 3\n", COUNTER, True)
    case(10, "a next twice", lower, COUNTER + b"13 next 2 4 8\n", COUNTER, True)
    case(6, "an operand that is too narrow", lower, COUNTER.replace(b"7 inc 2 4", b"7 add 2 4 6"), COUNTER.replace(b"7 inc 2 4", b"13 uext 2 6 1\n7 add 2 4 13"), False)
    case(7, "a slice's bits in the other order", lower, COUNTER.replace(b"11 eq 1 4 10", b"11 slice 1 4 2 2"), COUNTER.replace(b"11 eq 1 4 10", b"11 slice 1 4 1 1"), False)
    case(8, "an init's state behind its value", lower, COUNTER.replace(b"init 2 4 3", b"init 2 3 4"), COUNTER, False)
    case(25, "a constant with too few digits", lower, COUNTER.replace(b"10 ones 2", b"10 const 2 1"), COUNTER.replace(b"10 ones 2", b"10 const 2 01"), False)
    case(5, "a word of 80 bits", lower, text("""
        1 sort bitvec 1
        2 sort bitvec 40
        3 sort bitvec 80
        4 input 2 a
        5 input 2 b
        6 concat 3 4 5
        7 slice 2 6 79 40
        8 slice 2 6 39 0
        9 eq 1 7 8
        10 constd 3 0
        11 eq 1 6 10
        12 or 1 9 11
        13 bad 12
    """), text("""
        1 sort bitvec 1
        2 sort bitvec 40
        4 input 2 a
        5 input 2 b
        9 eq 1 4 5
        10 zero 2
        11 eq 1 4 10
        14 eq 1 5 10
        15 and 1 11 14
        12 or 1 9 15
        13 bad 12
    """), True)
    case(21, "a memory of two words", lower, text("""
        1 sort bitvec 1
        2 sort bitvec 2
        3 sort array 1 2
        4 state 3 m
        5 input 1 place
        6 input 2 word
        7 write 3 4 5 6
        8 next 3 4 7
        9 read 2 4 5
        10 redand 1 9
        11 bad 10
    """), text("""
        1 sort bitvec 1
        2 sort bitvec 2
        3 state 2 m[0]
        4 state 2 m[1]
        5 input 1 place
        6 input 2 word
        7 ite 2 5 3 6
        8 next 2 3 7
        12 ite 2 5 6 4
        13 next 2 4 12
        9 ite 2 5 4 3
        10 redand 1 9
        11 bad 10
    """), True, frames=2)
    many = b"".join(b"%d mul 3 1000000 1000000\n" % (1000001 + k) for k in range(27000))
    case(93, "more gates than a circuit may have", lower, COUNTER + b"3000000 sort bitvec 64\n".replace(b"3000000", b"13") + many.replace(b"mul 3", b"mul 13").replace(b"1000000 1000000", b"14 14").join([b"14 input 13 wide\n", b""]), COUNTER, True)
    lines = b"".join(b"%d not 1 6\n" % (20 + k) for k in range(1 << 20))
    case(12, "more lines than a model may have", lower, COUNTER + lines, COUNTER, True)


def files(trials):
    """Files that came another way than they went."""
    case, circuit = trials.case, (TOP / "examples/twice.aag").read_bytes()
    binary = subprocess.run([trials.program, "aig-convert", "--binary", TOP / "examples/twice.aag"], capture_output=True).stdout
    convert = ["aig-convert"]
    def zstd(text):
        return subprocess.run(["zstd", "-qc"], input=text, capture_output=True, check=True).stdout

    for name, packed in (("gzip", gzip.compress), ("xz", lzma.compress), ("zstd", zstd)):
        if shutil.which(name):
            unpacked = trials.shell(f"{name} -dc <FILE >NEW", packed(COUNTER))
            case(28 if b"\n" not in packed(COUNTER) else 20, f"a model that {name} made smaller", ["lower"], packed(COUNTER), unpacked, False)
            # a line feed among its bytes or not
            case(50 if b"\n" in packed(circuit) else 58, f"a circuit that {name} made smaller", convert, packed(circuit), trials.shell(f"{name} -dc <FILE >NEW", packed(circuit)), False)
    dos = circuit.replace(b"\n", b"\r\n")
    case(50, "carriage returns", convert, dos, trials.shell(r"tr -d '\r' <FILE >NEW", dos), True)
    case(50, "a byte order mark", convert, b"\xef\xbb\xbf" + circuit, trials.shell("tail -c +4 FILE >NEW", b"\xef\xbb\xbf" + circuit), True)
    cut = circuit.split(b"c\n")[0][:-1]
    case(58, "no last line feed", convert, cut, trials.shell("echo >>FILE", cut), True)
    case(58, "a comment's line without its line feed", convert, binary + b"c", trials.shell("echo >>FILE", binary + b"c"), True)


def circuits(trials):
    """Circuits that are changed by hand, as the remedies say."""
    case, convert, form = trials.case, ["aig-convert"], ["aig-convert", "--engine"]
    plain = b"aag 3 1 1 0 1 1\n2\n4 2\n6\n6 4 2\nb0 twice\n"
    case(57, "a name of 301 bytes", convert, plain.replace(b"twice", b"t" * 301), plain, True)
    case(57, "a name twice", convert, plain + b"b0 again\n", plain, True)
    case(57, "a comment behind `c` on its line, as ABC's `&w` writes it", convert, plain + b"cn\0\0\0\2t\0\n", plain + b"c\nn\0\0\0\2t\0\n", True)
    case(55, "a delta in more bytes than it takes", convert, b"aig 3 1 1 0 1 1\n2\n6\n\x82\x00\x02", b"aig 3 1 1 0 1 1\n2\n6\n\x02\x02", True)
    case(51, "M below the variables that there are", convert, plain.replace(b"aag 3", b"aag 2"), plain, True)
    # where latch 4 was read, in latch 6, stands 15: in the first frame, where latch 8 is 1, the input, and later the latch
    case(53, "a latch that begins with another literal", convert, b"aag 3 1 2 0 0 1\n2\n4 6 2\n6 4\n6\n",
         b"aag 7 1 3 0 3 1\n2\n4 6\n6 15\n8 0 1\n6\n10 8 2\n12 9 4\n14 13 11\n", True)
    trials.control("a latch that begins with 0 in place of another literal", b"aag 3 1 2 0 0 1\n2\n4 6 2\n6 4\n6\n", b"aag 3 1 2 0 0 1\n2\n4 6\n6 4\n6\n")
    live = b"aag 3 1 1 0 1 1 0 1 1\n2\n4 2\n6\n1\n4\n2\n6 4 2\n"
    fair = b"aag 3 1 1 0 1 1 0 0 1\n2\n4 2\n6\n2\n6 4 2\n"
    case(140, "a justice property", form, live, plain, True)
    case(141, "a fairness constraint", form, fair, plain, True)
    trials.control("a justice property as a bad one", live, b"aag 3 1 1 0 1 2\n2\n4 2\n6\n4\n6 4 2\n")


def outputs(trials):
    """A circuit of before AIGER 1.9, whose property is an output."""
    if subprocess.run([trials.program, "explain", "145"], capture_output=True).returncode:
        trials.left.append("145, which this program does not have")
        return
    old = b"aag 3 1 1 1 1\n2\n4 2\n6\n6 4 2\ni0 x\no0 twice\n"
    new = trials.run(["aig-convert", "--outputs"], old).stdout
    trials.case(145, "an output in place of a bad property", ["aig-convert", "--engine"], old, new, True, as_bad=(True, False))
    trials.case(145, "a cut model", ["lower", "--engine"], b"1 sort bitvec 1\n2 state 1\n", COUNTER, False)
    trials.case(145, "a model of a Yosys that failed", ["lower", "--engine"], b"", COUNTER, False)


def witnesses(trials):
    """Witnesses and counterexamples that are mended."""
    case = trials.case
    (trials.folder / "m").write_bytes((TOP / "examples/counter.btor2").read_bytes())
    good = (TOP / "examples/counter.witness").read_bytes()
    judge = ["check-btor", "@m"]
    case(118, "no last line feed", judge, good[:-1], trials.shell("echo >>FILE", good[:-1]), False)
    case(119, "two witnesses", judge, good + good, trials.tidied(good + good), False)
    carried = good.split(b"\n", 1)[1].replace(b"\n", b"\r\n")
    case(110, "carriage returns", judge, carried, trials.tidied(carried), False)
    case(117, "an `x` at a state with an init", judge, good.replace(b"@0\n", b"#0\n0 0x\n@0\n"), good.replace(b"@0\n", b"#0\n0 00\n@0\n"), False)
    (trials.folder / "m").write_bytes((TOP / "examples/toggler.btor2").read_bytes())
    case(110, "a circuit's witness", judge, b"1\nb0\n0\n\n\n.\n", (TOP / "examples/toggler.witness").read_bytes(), False)
    (trials.folder / "c").write_bytes((TOP / "examples/twice.aag").read_bytes())
    restore = ["restore", "--abc", "@c"]
    case(151, "a counterexample on one line, as ABC writes it without `-a`", restore, b"011# DONE\n", b"0\n1\n1# DONE\n", False)
    case(152, "a counterexample with open bits", restore, b"0\n1\nx# DONE\n", b"0\n1\n1# DONE\n", False)


def proofs(trials):
    """A proof of a solver that makes a variable of its own, which is none of the formula's."""
    for name in ("btor2", "invariant"):
        (trials.folder / name).write_bytes((TOP / f"examples/guarded.{name}").read_bytes())
    good = (TOP / "examples/guarded.proof").read_bytes()
    trials.said("--no-factor`")
    trials.said("--bva 0`")
    trials.case(162, "a variable of the solver's own", ["check-proof", "@btor2", "@invariant", "FILE"], b"99999 1 0\n" + good, good, False)


NAMED = """
module named (input clk, input [39:0] a, input [39:0] b, output [39:0] y);
    wire [79:0] packet = {a, b};
    reg [39:0] r = 0;
    always @(posedge clk) r <= a ^ b;
    assign y = r;
    always @* assert (r[1:0] != 3);
endmodule
"""
RING = """
module ring (input clk, input go, input [2:0] first, output hit);
    reg [66:0] bits;
    reg started = 0;
    always @(posedge clk) begin
        started <= 1;
        if (!started) bits <= first; else if (go) bits <= {bits[65:0], bits[66]};
    end
    always @* assert (!bits[2]);
endmodule
"""
BUS = """
module bus (input en, input [3:0] a, output [3:0] y);
    assign y = en ? a : 4'b1zzz;
    always @* assert (y[3]);
endmodule
"""
MEMORY = """
module memory (input clk, input at, input [1:0] word, output [1:0] y);
    reg [1:0] m [0:1];
    reg [1:0] r = 0;
    always @(posedge clk) begin m[at] <= word; r <= m[at]; end
    assign y = r;
    always @* assert (r != 3);
endmodule
"""
PARTLY = """
module partly (input clk, input d, output [3:0] q);
    reg [3:0] r;
    initial r[1:0] = 0;
    always @(posedge clk) r <= {r[2:0], d};
    assign q = r;
    always @* assert (r != 15);
endmodule
"""
TWO_WRITERS = """
module writers (input a_clk, input b_clk, input at, input [1:0] word, output [1:0] y);
    reg [1:0] m [0:1];
    always @(posedge a_clk) m[at] <= word;
    always @(posedge b_clk) m[!at] <= ~word;
    assign y = m[at];
    always @* assert (y != 3);
endmodule
"""


def designs(trials):
    """What Yosys mends."""
    if not shutil.which("yosys"):
        trials.left.append("the remedies of Yosys, which is not installed")
        return

    def written(design, top, passes, last="write_btor NEW"):
        (trials.folder / "d.v").write_text(design)
        words = "; ".join(it for it in ["read_verilog -formal d.v", f"prep -top {top}", passes, last] if it)
        subprocess.run(["yosys", "-q", "-p", words], cwd=trials.folder, check=True, capture_output=True)
        return (trials.folder / "NEW").read_bytes()

    case, said, lower = trials.case, trials.said, ["lower"]
    for what, wide in (("a wide word that is only a name", written(NAMED, "named", "memory_map; dffunmap")),
                       ("a wide register", written(RING, "ring", "memory_map; dffunmap"))):
        # that it stays the same model is tried by fitted.py
        case(5, what, lower, wide, trials.run(["fit"], wide).stdout, False)
    partly = written(PARTLY, "partly", "memory_map; dffunmap").replace(b"5 state 4\n", b"5 state 4 free\n")
    case(11, "a register of which only some bits have an initial value", lower, partly, trials.run(["fit"], partly).stdout, True)
    case(20, "`z` in a constant", lower, written(BUS, "bus", "memory_map; dffunmap"),
         written(BUS, "bus", f"memory_map; {said('setundef -zero')}; dffunmap"), False)
    case(21, "a memory, fitted", lower, written(MEMORY, "memory", "dffunmap"), trials.run(["fit"], written(MEMORY, "memory", "dffunmap")).stdout, False)
    case(21, "a memory", lower, written(MEMORY, "memory", "dffunmap"),
         written(MEMORY, "memory", f"{said('memory_map')}; dffunmap"), True, frames=3)
    case(21, "a memory with two write clocks", lower, written(TWO_WRITERS, "writers", "memory_map; dffunmap"),
         written(TWO_WRITERS, "writers", f"{said('clk2fflogic; memory_map -formal')}; dffunmap"), False)


def abc(trials):
    """What ABC mends."""
    if not shutil.which("berkeley-abc"):
        trials.left.append("the remedies of ABC, which is not installed")
        return
    binary = subprocess.run([trials.program, "aig-convert", "--binary", "--engine", TOP / "examples/twice.aag"], capture_output=True).stdout
    (trials.folder / "a.aig").write_bytes(binary)

    def written(commands):
        subprocess.run(["berkeley-abc", "-q", commands], cwd=trials.folder, check=True, capture_output=True)
        return (trials.folder / "NEW").read_bytes()

    packed = written("&r a.aig; &w NEW")
    convert = ["aig-convert"]
    trials.case(57, "a circuit of `&w`", convert, packed, written("&r a.aig; &w -n NEW"), True, as_bad=(True, True))
    trials.case(58, "a circuit of `write_aiger -u`", convert, written("read_aiger a.aig; write_aiger -u NEW"), written("read_aiger a.aig; write_aiger NEW"), True, as_bad=(True, True))
    (trials.folder / "c").write_bytes((TOP / "examples/twice.aag").read_bytes())
    trials.case(151, "a counterexample of `write_cex`", ["restore", "--abc", "@c"], written("read_aiger a.aig; bmc3 -F 9; write_cex NEW"), written("read_aiger a.aig; bmc3 -F 9; write_cex -a NEW"), False)


def main():
    program = os.path.abspath(sys.argv[1]) if len(sys.argv) > 1 else str(TOP / "crates/hwtool/out/hwtool")
    with tempfile.TemporaryDirectory() as folder:
        trials = Trials(program, pathlib.Path(folder))
        for part in (models, files, circuits, outputs, witnesses, proofs, designs, abc):
            part(trials)
    for it in trials.left:
        print(f"left out: {it}")
    print(f"{trials.tried} remedies tried, {trials.wrong} wrong")
    sys.exit(1 if trials.wrong else 0)


if __name__ == "__main__":
    main()
