#!/usr/bin/env python3
"""Reads dumps back that the built program writes by `wave`, and compares them with frames that are computed here.

    dumps.py [PROGRAM]

PROGRAM is crates/hwtool/out/hwtool where none is given, which `rt run` builds. The models are those of examples/ and
random ones with all operators, states of each kind and names of each kind; the witnesses are those of examples/, also cut
after each byte, and random ones, some of them cut behind a line. An evaluator of its own gives the frames by whole numbers,
as SMT-LIB says what operators mean; a reader of its own takes a dump apart, and sees that the first frame has all words,
that a later one has those that changed and no other, that a moment stands behind the last frame, and that no two signals
of a scope have one name, for which further random models have names that are alike, and some that a dump might give. It
says what was tried. The status is 0 where all is as it should be, else 1.
"""

import os
import random
import re
import subprocess
import sys
import tempfile

TOP = os.path.dirname(os.path.dirname(os.path.realpath(__file__)))
PROGRAM = f"{TOP}/crates/hwtool/out/hwtool"
# How many random models are tried, each with four witnesses, and how many with names that are alike, each with one.
MODELS = 150
ALIKE = 400
SCOPES = ["inputs", "states", "bad", "constraints", "outputs", "nodes"]
CONSTANTS = {"zero", "one", "ones", "const", "constd", "consth"}
LINES = {"sort", "init", "next", "bad", "constraint", "output", "fair", "justice"}


# ---- what operators mean, by whole numbers


def signed(n, x):
    """The signed number of a word of n bits."""
    return x - (1 << n) if x >> (n - 1) else x


def truncated(a, b):
    """The quotient rounded towards zero."""
    return abs(a) // abs(b) * (1 if (a < 0) == (b < 0) else -1)


def unary(op, n, a):
    """The word of an operator of one operand of n bits."""
    top = (1 << n) - 1
    return {
        "not": top - a,
        "inc": (a + 1) & top,
        "dec": (a - 1) & top,
        "neg": -a & top,
        "redand": int(a == top),
        "redor": int(a != 0),
        "redxor": a.bit_count() & 1,
    }[op]


def divided(op, n, a, b):
    """The word of a division."""
    top = (1 << n) - 1
    s, t = signed(n, a), signed(n, b)
    if b == 0:
        return {"udiv": top, "urem": a, "sdiv": 1 if s < 0 else top, "srem": a, "smod": a}[op]
    return {
        "udiv": a // b,
        "urem": a % b,
        "sdiv": truncated(s, t) & top,
        "srem": (s - t * truncated(s, t)) & top,
        "smod": (s - t * (s // t)) & top,
    }[op]


def overflows(op, n, a, b):
    """Whether the result of an operator does not fit."""
    s, t = signed(n, a), signed(n, b)
    low, high = -(1 << (n - 1)), (1 << (n - 1)) - 1
    return int(
        {
            "uaddo": a + b > (1 << n) - 1,
            "usubo": a < b,
            "umulo": a * b > (1 << n) - 1,
            "saddo": not low <= s + t <= high,
            "ssubo": not low <= s - t <= high,
            "smulo": not low <= s * t <= high,
            "sdivo": s == low and t == -1,
        }[op]
    )


def binary(op, n, a, b):
    """The word of an operator of two operands of n bits."""
    top = (1 << n) - 1
    s, t = signed(n, a), signed(n, b)
    if op in {"udiv", "urem", "sdiv", "srem", "smod"}:
        return divided(op, n, a, b)
    if op in {"uaddo", "usubo", "umulo", "saddo", "ssubo", "smulo", "sdivo"}:
        return overflows(op, n, a, b)
    k = b % n
    return {
        "iff": lambda: int(a == b),
        "implies": lambda: int(a == 0 or b == 1),
        "eq": lambda: int(a == b),
        "neq": lambda: int(a != b),
        "ugt": lambda: int(a > b),
        "ugte": lambda: int(a >= b),
        "ult": lambda: int(a < b),
        "ulte": lambda: int(a <= b),
        "sgt": lambda: int(s > t),
        "sgte": lambda: int(s >= t),
        "slt": lambda: int(s < t),
        "slte": lambda: int(s <= t),
        "and": lambda: a & b,
        "nand": lambda: top - (a & b),
        "or": lambda: a | b,
        "nor": lambda: top - (a | b),
        "xor": lambda: a ^ b,
        "xnor": lambda: top - (a ^ b),
        "rol": lambda: (a << k) & top | a >> (n - k),
        "ror": lambda: a >> k | (a << (n - k)) & top,
        "sll": lambda: (a << b) & top if b < n else 0,
        "srl": lambda: a >> b if b < n else 0,
        "sra": lambda: (s >> min(b, n)) & top,
        "add": lambda: (a + b) & top,
        "sub": lambda: (a - b) & top,
        "mul": lambda: (a * b) & top,
    }[op]()


# ---- models, as they are written


class Line:
    """A line of a model: its id, its form, the numbers behind it, and its symbol."""

    def __init__(self, tokens):
        self.id, self.form = int(tokens[0]), tokens[1]
        words = tokens[2:]
        if self.form == "sort":
            count = 2
        elif self.form in {"input", "state", "zero", "one", "ones"}:
            count = 1
        elif self.form in {"const", "constd", "consth"}:
            count = 2
        elif self.form in {"bad", "constraint", "output", "fair"}:
            count = 1
        elif self.form in {"init", "next", "uext", "sext"}:
            count = 3
        elif self.form in {"slice", "ite"}:
            count = 4
        elif self.form in {"not", "inc", "dec", "neg", "redand", "redor", "redxor"}:
            count = 2
        else:
            count = 3
        self.words = words[:count]
        self.symbol = words[count] if len(words) > count else None

    def has_value(self):
        """Whether the line is a node with a word."""
        return self.form not in LINES

    def shown(self):
        """The id of the node whose word the line shows."""
        return int(self.words[0]) if self.form in {"bad", "constraint", "output"} else self.id


class Model:
    """A model, and the words of its nodes from frame to frame."""

    def __init__(self, text):
        rows = (row.split(";")[0].split() for row in text.splitlines())
        self.lines = [Line(tokens) for tokens in rows if tokens]
        self.by_id = {line.id: line for line in self.lines}
        self.inputs = [line for line in self.lines if line.form == "input"]
        self.states = [line for line in self.lines if line.form == "state"]
        self.bads = [line for line in self.lines if line.form == "bad"]
        self.constraints = [line for line in self.lines if line.form == "constraint"]
        self.init = {int(line.words[1]): int(line.words[2]) for line in self.lines if line.form == "init"}
        self.next = {int(line.words[1]): int(line.words[2]) for line in self.lines if line.form == "next"}

    def width(self, id):
        """How many bits a node has."""
        line = self.by_id[id]
        return int(self.by_id[int(line.words[0])].words[1])

    def is_free(self, line):
        """Whether a state is given any word in each frame."""
        return line.id not in self.init and line.id not in self.next

    def constant(self, id):
        """The word of a constant node."""
        line, n = self.by_id[id], self.width(id)
        if line.form == "zero":
            return 0
        if line.form == "one":
            return 1
        if line.form == "ones":
            return (1 << n) - 1
        base = {"const": 2, "constd": 10, "consth": 16}[line.form]
        return int(line.words[1], base) % (1 << n)

    def frame(self, given):
        """The words of all nodes, where those of the leaves are given."""
        words = dict(given)
        for line in self.lines:
            if line.has_value() and line.id not in words:
                words[line.id] = self.word(line, words)
        return words

    def word(self, line, words):
        """The word of a node, from those of its operands."""
        if line.form in CONSTANTS:
            return self.constant(line.id)
        operands = [int(word) for word in line.words[1:]]
        first = operands[0]
        n, a = self.width(first), words[first]
        if line.form == "slice":
            return a >> operands[2] & ((1 << (operands[1] - operands[2] + 1)) - 1)
        if line.form == "uext":
            return a
        if line.form == "sext":
            return signed(n, a) % (1 << (n + operands[1]))
        if line.form == "concat":
            return a << self.width(operands[1]) | words[operands[1]]
        if line.form == "ite":
            return words[operands[1]] if a else words[operands[2]]
        if len(operands) == 1:
            return unary(line.form, n, a)
        return binary(line.form, n, a, words[operands[1]])

    def trace(self, frames):
        """The words of all frames. Each is given as the words of states and of inputs by their indices."""
        words, traced = None, []
        for states, inputs in frames:
            given = {}
            for k, line in enumerate(self.inputs):
                given[line.id] = inputs.get(k, 0)
            for k, line in enumerate(self.states):
                if self.is_free(line) or (words is None and k in states):
                    given[line.id] = states.get(k, 0)
                elif words is None:
                    given[line.id] = self.constant(self.init[line.id]) if line.id in self.init else 0
                else:
                    given[line.id] = words[self.next[line.id]]
            words = self.frame(given)
            traced.append(words)
        return traced

    def verdict(self, claims, traced):
        """The line of the judgement of a whole witness."""
        for k, line in enumerate(self.states):
            if line.id in self.init and traced[0][line.id] != self.constant(self.init[line.id]):
                return f"initial value differs at {k}"
        for k, words in enumerate(traced):
            for i, line in enumerate(self.constraints):
                if words[line.shown()] != 1:
                    return f"violated: frame {k}, constraint {i}"
        for i in sorted(claims):
            if all(words[self.bads[i].shown()] != 1 for words in traced):
                return f"not reached: b{i}"
        return f"accepted {len(traced)} frames"


# ---- witnesses


def written(model, claims, frames):
    """The lines of a witness."""
    lines = ["sat", " ".join(f"b{i}" for i in claims)]
    for k, (states, inputs) in enumerate(frames):
        if states:
            lines.append(f"#{k}")
            lines += [f"{i} {word:0{model.width(model.states[i].id)}b}" for i, word in states.items()]
        lines.append(f"@{k}")
        lines += [f"{i} {word:0{model.width(model.inputs[i].id)}b}" for i, word in inputs.items()]
    return lines + ["."]


def text_of(lines):
    """The text of lines."""
    return "".join(f"{line}\n" for line in lines)


def read_witness(text):
    """The claims and the frames of a witness."""
    claims, frames, part = [], [], None
    for line in text.splitlines():
        if line.startswith(";") or line == "sat":
            continue
        if line == ".":
            break
        if line.startswith("b"):
            claims = [int(word[1:]) for word in line.split()]
        elif line.startswith("#"):
            frames.append(({}, {}))
            part = frames[-1][0]
        elif line.startswith("@"):
            if len(frames) == int(line[1:]):
                frames.append(({}, {}))
            part = frames[-1][1]
        else:
            index, word = line.split()[:2]
            part[int(index)] = int(word, 2)
    return claims, frames


def closed(lines):
    """How many frames the lines of a witness that is cut behind the last of them close."""
    count = sum(line.startswith("@") for line in lines)
    opened = [line for line in lines if line[:1] in "#@"]
    begun = bool(opened) and opened[-1].startswith("#") and count > 0
    return max(count if begun else count - 1, 0)


# ---- dumps


class Wrong(Exception):
    """What is not as it should be."""


def want(holds, what):
    if not holds:
        raise Wrong(what)


def read_dump(text):
    """The signals of a dump, each with its scope, width, code and name, and for each moment what was written of words."""
    lines = text.split("\n")
    want(lines.pop() == "", "the last line has no end")
    want(re.fullmatch(r"\$comment .*\$end", lines[0]), "no comment")
    want(lines[1] == "$timescale 1 ns $end", "no time unit")
    signals, scope, at = [], None, 2
    while lines[at] != "$enddefinitions $end":
        words = lines[at].split(" ")
        if words[0] == "$scope":
            want(scope is None and words[1] == "module", "a scope in a scope")
            scope = words[2]
        elif words[0] == "$upscope":
            scope = None
        else:
            want(words[:2] == ["$var", "wire"] and words[-1] == "$end", f"no signal: {lines[at]}")
            width, places = int(words[2]), words[5:-1]
            want(places == ([] if width == 1 else [f"[{width - 1}:0]"]), f"other places: {lines[at]}")
            signals.append((scope, width, words[3], words[4]))
        at += 1
    moments = []
    for line in lines[at + 1 :]:
        if line.startswith("#"):
            want(line == f"#{len(moments)}", f"another moment: {line}")
            moments.append({})
            continue
        match = re.fullmatch(r"b([01]+) (n\d+)|([01])(n\d+)", line)
        want(match and moments, f"no word: {line}")
        code, digits = match[2] or match[4], match[1] or match[3]
        want(code not in moments[-1], f"a word twice: {line}")
        want((match[1] is None) == (len(digits) == 1), f"other digits: {line}")
        moments[-1][code] = digits
    return signals, moments


PREFIXES = {"bad": "bad:", "constraints": "constraint:"}


def escaped(name):
    """A name as it stands in a dump."""
    return name if re.fullmatch(r"[A-Za-z_][A-Za-z0-9_.]*", name) else "\\" + name


def named(scope, lines):
    """The names of the signals of a scope, in their order. One whose name an earlier one has, or that ends in `#` and
    digits or in `#`, has `#` and its id behind it."""
    earlier = set()
    for number, line in enumerate(lines):
        own = str(number) if scope in PREFIXES else f"n{line.id}"
        name = PREFIXES.get(scope, "") + (own if line.symbol is None else line.symbol)
        apart = name in earlier or re.search(r"#[0-9]*\Z", name)
        earlier.add(name)
        yield escaped(f"{name}#{line.id}" if apart else name), line


def wanted_signals(model, shows_all):
    """The signals that a dump is to have, in order, each with its line."""
    forms = {"inputs": "input", "states": "state", "bad": "bad", "constraints": "constraint", "outputs": "output"}
    for scope in SCOPES:
        shown = []
        for line in model.lines:
            if scope == "nodes":
                inner = line.has_value() and line.form not in {"input", "state"}
                own = inner and (shows_all or line.symbol is not None)
            else:
                own = line.form == forms[scope]
            if own:
                shown.append(line)
        for name, line in named(scope, shown):
            yield scope, model.width(line.shown()), f"n{line.id}", name, line


def compare(model, traced, dump, shows_all):
    """Compares a dump with the frames that it is to show."""
    signals, moments = read_dump(dump)
    wanted = list(wanted_signals(model, shows_all))
    want(signals == [signal[:4] for signal in wanted], f"other signals: {signals}")
    names = [(scope, name) for scope, _, _, name in signals]
    want(len(set(names)) == len(names), f"two signals of one name: {signals}")
    want(len(moments) == (len(traced) + 1 if traced else 0), f"{len(moments)} moments of {len(traced)} frames")
    words = {}
    for k, frame in enumerate(traced):
        for code, digits in moments[k].items():
            want(words.get(code) != digits, f"frame {k}: {code} is written and did not change")
            words[code] = digits
        for _, width, code, _, line in wanted:
            due = f"{frame[line.shown()]:0{width}b}"
            want(words.get(code) == due, f"frame {k}: {code} is {words.get(code)}, not {due}")
    want(not traced or not moments[-1], "words behind the last frame")


# ---- random models


NAMES = ["clk", "a.b", "x_1", "mem[3]", "a:b", "$end", "\\q", "7up", "b]", "#1", "same", "same", "A" * 255]
WIDTHS = [1, 1, 2, 3, 8, 33, 64]
ONE = ["not", "inc", "dec", "neg"]
RED = ["redand", "redor", "redxor"]
ARITHMETIC = (
    "and nand or nor xor xnor rol ror sll srl sra add sub mul udiv sdiv urem srem smod".split()
)
TESTS = (
    "eq neq ugt ugte ult ulte sgt sgte slt slte uaddo saddo usubo ssubo umulo smulo sdivo".split()
)


class Maker:
    """Makes a random model."""

    def __init__(self, chance):
        self.chance, self.lines, self.sorts, self.nodes, self.last = chance, [], {}, {}, 0

    def add(self, words, named=True):
        """A line more; it has a name now and then."""
        self.last += self.chance.choice([1, 1, 1, 7])
        symbol = self.symbol() if named else ""
        self.lines.append(f"{self.last} {words} {symbol}".rstrip())
        return self.last

    def symbol(self):
        """A name, or none."""
        return self.chance.choice(NAMES) if self.chance.random() < 0.4 else ""

    def sort(self, n):
        """The sort of n bits."""
        if n not in self.sorts:
            self.sorts[n] = self.add(f"sort bitvec {n}", named=False)
        return self.sorts[n]

    def node(self, n, words):
        """A node of n bits."""
        id = self.add(words.replace("S", str(self.sort(n)), 1))
        self.nodes.setdefault(n, []).append(id)
        return id

    def some(self, n):
        """A node of n bits that is there, or a new constant."""
        if self.nodes.get(n):
            return self.chance.choice(self.nodes[n])
        return self.node(n, f"constd S {self.chance.randrange(1 << n)}")

    def operator(self):
        """A node by a random operator."""
        chance, n = self.chance, self.chance.choice(WIDTHS)
        kind = chance.randrange(10)
        if kind == 0:
            self.node(n, f"{chance.choice(ONE)} S {self.some(n)}")
        elif kind == 1:
            self.node(1, f"{chance.choice(RED)} S {self.some(n)}")
        elif kind in (2, 3, 4):
            self.node(n, f"{chance.choice(ARITHMETIC)} S {self.some(n)} {self.some(n)}")
        elif kind in (5, 6):
            self.node(1, f"{chance.choice(TESTS)} S {self.some(n)} {self.some(n)}")
        elif kind == 7:
            low = chance.randrange(n)
            high = chance.randrange(low, n)
            self.node(high - low + 1, f"slice S {self.some(n)} {high} {low}")
        elif kind == 8:
            self.node(n, f"ite S {self.some(1)} {self.some(n)} {self.some(n)}")
        else:
            self.wider(n)

    def wider(self, n):
        """A node by an operator whose word is wider than its operands, or by one of single bits."""
        chance, more = self.chance, self.chance.choice([0, 1, 5])
        kind = chance.randrange(3)
        if kind == 0 and n + more <= 64:
            self.node(n + more, f"{chance.choice(['uext', 'sext'])} S {self.some(n)} {more}")
        elif kind == 1 and n < 64:
            self.node(n + 1, f"concat S {self.some(1)} {self.some(n)}")
        else:
            self.node(1, f"{chance.choice(['iff', 'implies'])} S {self.some(1)} {self.some(1)}")

    def model(self):
        """The text of a model."""
        chance = self.chance
        states = []
        for _ in range(chance.randrange(1, 5)):
            n = chance.choice(WIDTHS)
            self.node(n, "input S")
        for _ in range(chance.randrange(1, 5)):
            n = chance.choice(WIDTHS)
            states.append((self.node(n, "state S"), n))
        for _ in range(chance.randrange(2, 30)):
            self.operator()
        for state, n in states:
            kind = chance.randrange(3)
            if kind == 0:
                continue
            if kind == 1:
                top = (1 << n) - 1
                word = self.node(n, f"constd S {chance.randrange(top + 1)}")
                self.add(f"init {self.sort(n)} {state} {word}", named=False)
            self.add(f"next {self.sort(n)} {state} {self.some(n)}", named=False)
        for _ in range(chance.randrange(1, 4)):
            self.add(f"bad {self.some(1)}")
        for _ in range(chance.choice([0, 0, 0, 1])):
            self.add(f"constraint {self.some(1)}")
        for _ in range(chance.randrange(3)):
            n = chance.choice(list(self.nodes))
            self.add(f"output {self.some(n)}")
        return "\n".join(self.lines) + "\n"


class AlikeMaker(Maker):
    """Makes a random model whose lines have names that are alike, and such as a dump might give to others."""

    def symbol(self):
        chance, others = self.chance, [line.split() for line in self.lines]
        kind = chance.randrange(8)
        if kind < 2:
            return ""
        if kind == 2:
            return chance.choice("ab")
        if kind == 3:
            return f"n{chance.randrange(1, self.last + 3)}"
        if kind == 4:
            return str(chance.randrange(4))
        if kind == 5:
            return chance.choice(["bad:", "constraint:", "#", "a#", "n", "#1"]) + chance.choice(["", "0", "1", "a", "n5"])
        # the name of another line, also with an id behind it, which may be its own
        name = chance.choice([words[-1] for words in others] + ["a"])
        while kind == 6 and chance.random() < 0.7 and len(name) < 240:
            name += f"#{chance.randrange(1, self.last + 3)}"
        return name

    def model(self):
        """The text of a model, with more properties and constraints than others have."""
        text, chance = super().model(), self.chance
        for _ in range(chance.randrange(12)):
            self.add(f"{chance.choice(['bad', 'bad', 'constraint'])} {self.some(1)}")
        return text + "".join(f"{line}\n" for line in self.lines[text.count("\n") :])


def random_frames(chance, model):
    """The frames of a random witness: the first gives most states a word, and now and then one that its init does not."""
    frames = []
    for k in range(chance.randrange(1, 9)):
        states, inputs = {}, {}
        for i, line in enumerate(model.states):
            n = model.width(line.id)
            if model.is_free(line):
                if chance.random() < 0.7:
                    states[i] = chance.randrange(1 << n)
            elif k == 0 and chance.random() < 0.7:
                own = line.id in model.init and chance.random() < 0.9
                states[i] = model.constant(model.init[line.id]) if own else chance.randrange(1 << n)
        for i, line in enumerate(model.inputs):
            if chance.random() < 0.7:
                n = model.width(line.id)
                inputs[i] = chance.choice([0, 1, (1 << n) - 1, chance.randrange(1 << n)])
        frames.append((states, inputs))
    return frames


# ---- trials


class Trials:
    """Runs the program, and counts what was tried and what was wrong."""

    def __init__(self, program, folder):
        self.program, self.folder = program, folder
        self.dumps = self.frames = self.words = self.wrong = 0

    def run(self, what, text, witness, traced, verdict, words):
        """One dump of a witness, with these frames and this line of its judgement."""
        with open(f"{self.folder}/model", "w") as file:
            file.write(text)
        with open(f"{self.folder}/witness", "w") as file:
            file.write(witness)
        ran = subprocess.run(
            [self.program, "wave", *words, "model", "witness"], cwd=self.folder, capture_output=True
        )
        model = Model(text)
        self.dumps += 1
        self.frames += len(traced)
        self.words += len(traced) * len(list(wanted_signals(model, "--all" in words)))
        try:
            want(ran.stderr.decode() == f"{verdict}\n", f"{ran.stderr} in place of {verdict}")
            want(ran.returncode == (0 if verdict.startswith("accepted") else 1), f"status {ran.returncode}")
            compare(model, traced, ran.stdout.decode(), "--all" in words)
        except Wrong as wrong:
            self.wrong += 1
            print(f"dumps: {what}: {wrong}")

    def whole(self, what, text, claims, frames, lines):
        """A witness, shown both ways."""
        model = Model(text)
        traced = model.trace(frames)
        for words in ([], ["--all"]):
            self.run(what, text, text_of(lines), traced, model.verdict(claims, traced), words)

    def cut(self, what, text, frames, lines, behind):
        """A witness that is cut behind a line: the frames that were closed, and the line that is missing."""
        model = Model(text)
        traced = model.trace(frames)[: closed(lines[:behind])]
        verdict = f"malformed line {behind + 1}: 118 Truncated"
        self.run(what, text, text_of(lines[:behind]), traced, verdict, ["--all"])

    def cut_anywhere(self, what, text, witness):
        """A witness that is cut after each byte: the frames that were closed, and what `check-btor` says of it."""
        traced = Model(text).trace(read_witness(witness)[1])
        for end in range(len(witness)):
            front = witness[:end]
            with open(f"{self.folder}/model", "w") as file:
                file.write(text)
            with open(f"{self.folder}/witness", "w") as file:
                file.write(front)
            told = subprocess.run(
                [self.program, "check-btor", "model", "witness"], cwd=self.folder, capture_output=True
            ).stdout.decode()
            frames = traced[: closed(front.split("\n")[:-1])]
            self.run(f"{what}, cut after {end} bytes", text, front, frames, told.rstrip("\n"), [])


def main():
    program = sys.argv[1] if len(sys.argv) > 1 else PROGRAM
    chance = random.Random(1)
    with tempfile.TemporaryDirectory() as folder:
        trials = Trials(os.path.realpath(program), folder)
        for name, told in (("counter", "counter"), ("counter", "counter-short"), ("toggler", "toggler"), ("free", "free")):
            with open(f"{TOP}/examples/{name}.btor2") as file:
                text = file.read()
            with open(f"{TOP}/examples/{told}.witness") as file:
                witness = file.read()
            trials.whole(f"{told}.witness", text, *read_witness(witness), witness.splitlines())
            trials.cut_anywhere(f"{told}.witness", text, witness)
        for name in ("counter", "toggler", "free"):
            with open(f"{TOP}/examples/{name}.btor2") as file:
                text = file.read()
            for _ in range(10):
                model = Model(text)
                frames = random_frames(chance, model)
                trials.whole(f"{name}.btor2", text, [0], frames, written(model, [0], frames))
        for number in range(MODELS):
            text = Maker(chance).model()
            model = Model(text)
            for _ in range(3):
                claims = chance.sample(range(len(model.bads)), chance.randrange(1, len(model.bads) + 1))
                frames = random_frames(chance, model)
                lines = written(model, claims, frames)
                trials.whole(f"random model {number}", text, claims, frames, lines)
            trials.cut(f"random model {number}, cut", text, frames, lines, chance.randrange(len(lines)))
        for number in range(ALIKE):
            text = AlikeMaker(chance).model()
            model = Model(text)
            frames = random_frames(chance, model)[:2]
            trials.whole(f"model {number} of names that are alike", text, [0], frames, written(model, [0], frames))
    print(
        f"dumps: {trials.dumps} dumps of {trials.frames} frames and {trials.words} words read back, {trials.wrong} wrong"
    )
    sys.exit(trials.wrong > 0)


if __name__ == "__main__":
    main()
