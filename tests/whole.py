#!/usr/bin/env python3
"""Tries `fit` on random models of the whole language, beside an evaluator that is written here from docs/FORMATS.md.

    whole.py [PROGRAM] [--rounds N] [--seed N] [--keep FOLDER]

PROGRAM is crates/hwtool/out/hwtool where none is given. Each model has arrays, operands with a minus, inits by any line, before or behind
their states, and states with an init and no next, at widths around 64 and above. An array is a list of cells here. The model is fitted, and
both are evaluated, frame by frame, from the same first words and inputs: each bad property, constraint and output has to be the same. A model
of which a first word depends on itself has to be refused by 224. Of one in eight the fitted model is lowered, what
may be found over its circuit and its engine forms is lifted with --fit beside `lift` and `unfit`, and a witness of its frames is judged by `check-btor`, and by `check-btor --fit` as what `unfit` writes of it. A witness of the model itself, which tells cells of arrays, is judged by `check-btor --fit`, one of which a state begins
otherwise too, and by `check-btor` as what `unfit --back` writes. Spoilt texts have to be refused, or to be models that are fitted right. The status is 0 where nothing was wrong, else 1.
"""
import argparse
import json
import pathlib
import random
import subprocess
import sys
import tempfile

sys.path.insert(0, str(pathlib.Path(__file__).resolve().parent))
from fitted import DEAR, MOST_DEAR, SAME, TESTS, TOP, UNARY, Maker, Model, Wrong, binary, cut, piece_names, pieces, signed, spoilt, unary, witness  # noqa: E402

WIDTHS = [1, 1, 2, 3, 7, 31, 32, 33, 62, 63, 64, 65, 66, 100, 127, 128, 129, 200]
INDEX_WIDTHS = [1, 1, 2, 2, 3, 4, 5, 6]
ELEMENT_WIDTHS = [1, 2, 3, 8, 13, 31, 32, 63, 64, 65, 100]


class Circle(Exception):
    """A first word depends on itself."""


# ---- models of the whole language


def bits_of(sort):
    """How many bits a value of a sort has: a width, or the widths of index and element."""
    return sort if isinstance(sort, int) else sort[1] << sort[0]


def word_of(value, sort):
    """A value as one word: of an array its cells, the first lowest."""
    if isinstance(sort, int):
        return value
    return sum(cell << (sort[1] * at) for at, cell in enumerate(value))


class Whole:
    """A model as its text says, by ids."""

    def __init__(self, text):
        self.sorts, self.sort, self.lines, self.names = {}, {}, {}, {}
        self.inputs, self.states, self.bads, self.constraints, self.outputs, self.init, self.next = [], [], [], [], [], {}, {}
        for line in text.splitlines():
            words = line.split(";")[0].split()
            if words:
                self.take(int(words[0]), words[1], words[2:])

    def take(self, at, form, words):
        if form == "sort":
            self.sorts[at] = int(words[1]) if words[0] == "bitvec" else (self.sorts[int(words[1])], self.sorts[int(words[2])])
        elif form in ("bad", "constraint", "output"):
            {"bad": self.bads, "constraint": self.constraints, "output": self.outputs}[form].append((int(words[0]), (words[1:] or [None])[0]))
        elif form in ("init", "next"):
            (self.init if form == "init" else self.next)[int(words[1])] = int(words[2])
        else:
            self.sort[at] = self.sorts[int(words[0])]
            taken = {"input": 0, "state": 0, "zero": 0, "one": 0, "ones": 0, "const": 1, "constd": 1, "consth": 1, "slice": 3, "ite": 3, "write": 3}
            many = taken.get(form, 1 if form in UNARY else 2)
            self.names[at] = (words[1 + many :] or [None])[0]
            if form in ("input", "state"):
                (self.inputs if form == "input" else self.states).append(at)
            self.lines[at] = (form, words[1 : 1 + many])

    def draw(self, by, at):
        """Any value of a node's sort."""
        one = lambda n: by.choice([0, (1 << n) - 1, by.randrange(1 << n)])
        sort = self.sort[at]
        return one(sort) if isinstance(sort, int) else [one(sort[1]) for _ in range(1 << sort[0])]

    def frame(self, states, inputs, is_first):
        """The values of all nodes. In the first frame a state with an init has that value."""
        values, open_ids = dict(inputs), set()

        def value(at):
            if at < 0:
                return (1 << self.sort[-at]) - 1 - value(-at)
            if at not in values:
                if at in open_ids:
                    raise Circle
                open_ids.add(at)
                form, given = self.lines[at]
                if form == "state":
                    values[at] = self.spread(at, value(self.init[at]), self.init[at]) if is_first and at in self.init else states[at]
                else:
                    values[at] = self.given(self.sort[at], form, given, value)
                open_ids.discard(at)
            return values[at]

        sys.setrecursionlimit(100000)
        for at in self.lines:
            value(at)
        return values

    def spread(self, state, value, by):
        """A value as one of the state's sort: a word for an array stands in each cell."""
        sort = self.sort[state]
        return value if self.sort[abs(by)] == sort else [value] * (1 << sort[0])

    def given(self, sort, form, given, value):
        if form in ("zero", "one", "ones"):
            return {"zero": 0, "one": 1, "ones": (1 << sort) - 1}[form]
        if form in ("const", "constd", "consth"):
            return cut(int(given[0], {"const": 2, "constd": 10, "consth": 16}[form]), sort)
        first = int(given[0])
        a, m = value(first), self.sort[abs(first)]
        if form in UNARY:
            return unary(form, a, m)
        if form in ("uext", "sext"):
            return a if form == "uext" else cut(signed(a, m), sort)
        if form == "slice":
            return cut(a >> int(given[2]), sort)
        b = value(int(given[1]))
        if form == "read":
            return a[b]
        if form == "write":
            return [*a[:b], value(int(given[2])), *a[b + 1 :]]
        if form == "concat":
            return a << self.sort[abs(int(given[1]))] | b
        if form == "ite":
            other = value(int(given[2]))
            return b if a else other
        if form in ("eq", "neq") and not isinstance(m, int):
            return int((a == b) == (form == "eq"))
        return binary(form, a, b, m)

    def of(self, values, operand):
        return (1 << self.sort[-operand]) - 1 - values[-operand] if operand < 0 else values[operand]

    def run(self, by, count):
        """The values of all nodes in each frame, of a run that is chosen."""
        told, states = [], {it: self.draw(by, it) for it in self.states}
        for at in range(count):
            values = self.frame(states, {it: self.draw(by, it) for it in self.inputs}, at == 0)
            told.append(values)
            states = {it: self.of(values, self.next[it]) if it in self.next else self.draw(by, it) for it in self.states}
        return told


# ---- random models


class WholeMaker(Maker):
    """A model of the whole language that is made line by line; nodes are kept by their sorts."""

    def sort(self, sort):
        if sort not in self.sorts:
            if isinstance(sort, int):
                self.sorts[sort] = self.add(f"sort bitvec {sort}", name=False)
            else:
                index, element = self.sort(sort[0]), self.sort(sort[1])
                self.sorts[sort] = self.add(f"sort array {index} {element}", name=False)
        return self.sorts[sort]

    def node(self, sort):
        there = self.nodes.get(sort, [])
        if there and self.by.random() < 0.85:
            found = self.by.choice(there)
        elif isinstance(sort, int) and self.by.random() < 0.4:
            found = self.constant(sort)
        else:
            found = self.add(f"input {self.sort(sort)}", sort)
        return -found if isinstance(sort, int) and self.by.random() < 0.15 else found

    def operator(self, sort):
        if not isinstance(sort, int):
            return self.on_array(sort)
        arrays = [it for it in self.nodes if not isinstance(it, int) and it[1] == sort]
        if arrays and self.by.random() < 0.5:
            kind = self.by.choice(arrays)
            array, index = self.array(kind), self.node(kind[0])
            return self.add(f"read {self.sort(sort)} {array} {index}", sort)
        return super().operator(sort)

    def array(self, kind):
        there = self.nodes.get(kind, [])
        return self.by.choice(there) if there else self.add(f"state {self.sort(kind)}", kind)

    def on_array(self, kind):
        form = self.by.choice(["write", "write", "write", "ite", "eq", "neq"])
        a = self.array(kind)
        if form == "write":
            index, word = self.node(kind[0]), self.node(kind[1])
            return self.add(f"write {self.sort(kind)} {a} {index} {word}", kind)
        b = self.array(kind)
        if form == "ite":
            return self.add(f"ite {self.sort(kind)} {self.node(1)} {a} {b}", kind)
        return self.add(f"{form} {self.sort(1)} {a} {b}", 1)


def random_whole(by):
    make = WholeMaker(by, [], {}, {})
    widths = [by.choice(WIDTHS) for _ in range(by.randrange(1, 3))]
    kinds = [(by.choice(INDEX_WIDTHS), by.choice(ELEMENT_WIDTHS)) for _ in range(by.choice([0, 1, 1, 2]))]
    make.sort(1)
    states = []
    for sort in [by.choice([*widths, *kinds, *kinds]) for _ in range(by.randrange(1, 5))]:
        if by.random() < 0.3:
            make.node(sort if isinstance(sort, int) else sort[1])
        at = make.add(f"state {make.sort(sort)}", sort)
        states.append((at, sort))
        if by.random() < 0.3:
            init(make, at, sort)
            states[-1] = (at, sort, "begun")
    for _ in range(by.randrange(3, 16)):
        make.operator(by.choice([*widths, *kinds, *make.nodes]))
    for at, sort, *begun in states:
        if not begun and by.random() < 0.4:
            init(make, at, sort)
        if by.random() < 0.7:
            value = make.node(sort) if isinstance(sort, int) else make.array(sort)
            make.add(f"next {make.sort(sort)} {at} {value}")
    for _ in range(by.randrange(1, 4)):
        make.add(f"bad {make.node(1)}")
    if by.random() < 0.3:
        make.add(f"constraint {make.node(1)}")
    for _ in range(by.randrange(0, 3)):
        make.add(f"output {by.choice([it for some in make.nodes.values() for it in some])}")
    return "".join(f"{it}\n" for it in make.lines)


def init(make, at, sort):
    """An init line of a state: by a constant or any node; of an array also by a word for each cell."""
    by = make.by
    of = sort if isinstance(sort, int) or (by.random() < 0.4 and len(make.nodes.get(sort, [])) > 1) else sort[1]
    if isinstance(of, int):
        value = make.constant(of) if by.random() < 0.4 else make.node(of)
    else:
        value = by.choice([it for it in make.nodes[of] if it != at] or [at])
    make.add(f"init {make.sort(sort)} {at} {value}")


# ---- comparing


def leaf_words(model, leaf, value):
    """The words by which a value of a leaf is told, with their widths and names: itself, or the cells of an array."""
    sort, name = model.sort[leaf], model.names[leaf]
    if isinstance(sort, int):
        return [(value, sort, name)]
    return [(cell, sort[1], name and name[: 255 - len(f"[{at}]")] + f"[{at}]") for at, cell in enumerate(value)]


def split(model, values, leaves, narrow, narrow_leaves):
    """The words of the pieces of leaves, by the ids of the fitted model; what is left of its leaves."""
    given, at = {}, 0
    for leaf in leaves:
        for word, width_of_word, name_of_word in leaf_words(model, leaf, values[leaf]):
            lower = 0
            for width, name in zip(pieces(width_of_word), piece_names(name_of_word, width_of_word)):
                piece = narrow_leaves[at]
                if narrow.width[piece] != width or narrow.names[piece] != name:
                    raise Wrong(f"piece {piece} of {leaf} has {narrow.width[piece]} bits and the name {narrow.names[piece]}")
                given[piece] = cut(word >> lower, width)
                lower += width
                at += 1
    return given, narrow_leaves[at:]


def compare(model, narrow, by):
    """Evaluates both on one run, and answers what a witness of the fitted one needs."""
    count = by.randrange(1, 5)
    told = model.run(by, count)
    inputs = []
    for values in told:
        given, rest = split(model, values, model.inputs, narrow, narrow.inputs)
        inputs.append(given)
        if rest:
            raise Wrong("there are more inputs than pieces")
    states = [split(model, values, model.states, narrow, narrow.states) for values in told]
    if len(states[0][1]) > 1:
        raise Wrong("there are more states than pieces and one for the first frame")
    chosen = {**states[0][0], **{it: 0 for it in states[0][1]}}
    free = [{it: given.get(it, 0) for it in narrow.free()} for given, _ in states]
    narrow_told = narrow.run(chosen, inputs, free)
    if [it for _, it in narrow.bads + narrow.constraints] != [it for _, it in model.bads + model.constraints]:
        raise Wrong("names of bad properties or constraints differ")
    for at, (a, b) in enumerate(zip(told, narrow_told)):
        for those, others in ((model.bads, narrow.bads), (model.constraints, narrow.constraints)):
            if [model.of(a, it) for it, _ in those] != [b[it] for it, _ in others]:
                raise Wrong(f"frame {at} differs: {[model.of(a, it) for it, _ in those]} and {[b[it] for it, _ in others]}")
        rest = list(narrow.outputs)
        for node, name in model.outputs:
            sort, lower = model.sort[abs(node)], 0
            word = word_of(model.of(a, node), sort)
            for width, piece_name in zip(pieces(bits_of(sort)), piece_names(name, bits_of(sort))):
                piece, has = rest.pop(0)
                if (narrow.width[piece], has, b[piece]) != (width, piece_name, cut(word >> lower, width)):
                    raise Wrong(f"an output of {node} differs in frame {at}")
                lower += width
        if rest:
            raise Wrong("there are more outputs than pieces")
    return chosen, inputs, free, narrow_told, told, not states[0][1]


# ---- witnesses of models of the whole language


def assigned(model, leaves, values, by, zeros=0.5):
    """The lines that tell values of leaves. Of those that are 0 so many stay untold."""
    lines = []
    for at, leaf in enumerate(leaves):
        sort, value = model.sort[leaf], values[leaf]
        if isinstance(sort, int):
            lines += [f"{at} {value:0{sort}b}"] if value or by.random() >= zeros else []
        else:
            lines += [f"{at} [{index:0{sort[0]}b}] {cell:0{sort[1]}b}" for index, cell in enumerate(value) if cell or by.random() >= zeros]
    return lines


def whole_witness(model, told, by):
    """A witness of the model itself of what rises in these frames, and the front of the line by which it is judged."""
    risen = [at for at, (it, _) in enumerate(model.bads) if any(model.of(values, it) for values in told)]
    if not risen:
        return None, None
    holds = all(model.of(values, it) for values in told for it, _ in model.constraints)
    first, says = dict(told[0]), "accepted" if holds else "violated"
    begun = [it for it in model.states if it in model.init]
    if begun and by.random() < 0.3:
        other = by.choice(begun)
        sort = model.sort[other]
        if isinstance(sort, int):
            first[other] ^= 1 << by.randrange(sort)
        else:
            cell = by.randrange(1 << sort[0])
            first[other] = [it ^ (1 << by.randrange(sort[1])) if at == cell else it for at, it in enumerate(first[other])]
        says = f"initial value differs at {model.states.index(other)}\n"
    lines = ["sat", " ".join(f"b{it}" for it in risen), "#0", *assigned(model, model.states, first, by, 0 if says[0] == "i" else 0.5)]
    free = [it for it in model.states if it not in model.next]
    for at, values in enumerate(told):
        if at > 0 and free:
            lines.append(f"#{at}")
            lines += [it for it in assigned(model, model.states, values, by) if model.states[int(it.split()[0])] in free]
        lines += [f"@{at}", *assigned(model, model.inputs, values, by)]
    return "".join(f"{it}\n" for it in [*lines, "."]), says


def compare_claims(program, text, model_file, witness_file, model, told, says):
    """Compares in which frames claims are told to be reached first, and of which lines of the model."""
    lines = [line.split(";")[0].split() for line in text.split("\n")]
    ids = {kind: [int(it[0]) for it in lines if it[1:2] == [kind]] for kind in ("bad", "constraint", "state")}
    out = subprocess.run([program, "check-btor", "--fit", "--json", model_file, witness_file], capture_output=True, text=True).stdout
    object_ = json.loads(out)
    if says == "accepted":
        firsts = [next((at for at, values in enumerate(told) if model.of(values, it)), None) for it, _ in model.bads]
        expected = [(k, at, ids["bad"][k]) for k, at in enumerate(firsts) if at is not None]
        claims = [(it["bad"], it["frame"], it["id"]) for it in object_["claims"]]
        if (object_["verdict"], object_["frames"], claims) != ("accepted", len(told), expected):
            raise Wrong(f"claims are told as {out}, not {expected}")
    elif says == "violated":
        if object_["verdict"] != "violated" or object_["id"] != ids["constraint"][object_["constraint"]]:
            raise Wrong(f"a constraint is told as {out}")
    elif object_["verdict"] != "initial value differs" or object_["id"] != ids["state"][int(says.split()[-1])]:
        raise Wrong(f"a state is told as {out}, not {says}")


def compare_shown(program, text, folder, fitted):
    """Compares what `show --fit` writes of a model: it is fitted as the model is, and written as it stands."""
    shown = subprocess.run([program, "show", "--fit", "-"], input=text, capture_output=True, text=True)
    written, _, counts = shown.stdout.rstrip("\n").rpartition("\n")
    again = subprocess.run([program, "show", "--fit", "-"], input=written + "\n", capture_output=True, text=True)
    other = subprocess.run([program, "fit", "-"], input=written + "\n", capture_output=True, text=True)
    if (shown.returncode, counts[:2], again.stdout, other.stdout) != (0, "; ", shown.stdout, fitted):
        raise Wrong(f"show --fit writes {shown.stdout}{shown.stderr}")


def header(program, words, path):
    """The numbers of inputs, latches and bad properties of a circuit that is lowered by these words."""
    done = subprocess.run([program, "lower", "--ascii", *words, path], capture_output=True, text=True)
    counts = [int(it) for it in done.stdout.split("\n", 1)[0].split()[2:]] if done.returncode == 0 else []
    return (counts[0], counts[1], counts[4]) if len(counts) > 4 else None


def found_text(by, inputs, latches, bads, flags):
    """What an engine may have found over a circuit; of one in five a line is spoilt."""
    frames = ["".join(by.choice("01") for _ in range(inputs)) for _ in range(by.randrange(1, 5))]
    first = "".join(by.choice("0001") for _ in range(latches))
    lines = ["0", *frames] if "--abc" in flags else ["1", f"b{by.randrange(bads)}", first, *frames, "."]
    if by.random() < 0.2:
        lines[by.randrange(len(lines))] = "x"
    return "".join(f"{it}\n" for it in lines)


def compare_lifted(program, folder, by):
    """Lifts what is found over the fitted model's circuit with --fit, beside `lift` over the fitted model and `unfit` of what that writes."""
    path, fitted, found = folder / "model.btor2", folder / "fitted.btor2", folder / "found"
    for flags, words in (([], []), (["--engine"], ["--engine"]), (["--engine", "--abc", "--bad", "0"], ["--engine", "--bad", "0"])):
        counts = header(program, words, fitted)
        if counts is None:
            return
        found.write_text(found_text(by, *counts, flags))
        for names in ([], ["--names"]):
            held = subprocess.run([program, "lift", *flags, *names, fitted, found], capture_output=True, text=True)
            (folder / "held").write_text(held.stdout)
            unfitted = subprocess.run([program, "unfit", *names, path, folder / "held"], capture_output=True, text=True)
            lifted = subprocess.run([program, "lift", "--fit", *flags, *names, path, found], capture_output=True, text=True)
            line, own = held.stderr.split("\n")[0], lifted.stderr.split("\n")[0]
            wanted = line if line.startswith(("malformed", "no claim")) else unfitted.stderr.split("\n")[0]
            if (own, lifted.stdout, lifted.returncode) != (wanted, unfitted.stdout, held.returncode):
                raise Wrong(f"lift --fit {flags} tells {lifted.stderr}, not {wanted}, or writes something else")


def tried(program, text, by, folder, is_spoilt):
    """Fits one model, and compares; answers what was tried, or raises."""
    path, fitted = folder / "model.btor2", folder / "fitted.btor2"
    path.write_text(text)
    done = subprocess.run([program, "fit", path], capture_output=True, text=True)
    if done.returncode != 0 and is_spoilt:
        if done.returncode != 2 or done.stdout or not done.stderr.startswith(f"{path}: ") or len(done.stderr.splitlines()) != 1:
            raise Wrong(f"status {done.returncode}: {done.stderr}")
        return "spoilt and refused"
    model = Whole(text)
    try:
        model.run(random.Random(0), 1)
    except Circle:
        if done.returncode != 2 or ": 224 InitCircle\n" not in done.stderr:
            raise Wrong(f"a circle gives status {done.returncode}: {done.stderr}") from None
        return "with a circle"
    if done.returncode != 0 or done.stderr:
        raise Wrong(f"status {done.returncode}: {done.stderr}")
    narrow = Model(done.stdout)
    if any(it > 64 for it in narrow.sorts.values()):
        raise Wrong("a sort is above 64 bits")
    chosen, inputs, free, told, whole_told, is_alone = compare(model, narrow, by)
    fitted.write_text(done.stdout)
    if by.random() < 0.25:
        compare_shown(program, text, folder, done.stdout)
    if by.random() < 0.5:
        said, says = whole_witness(model, whole_told, by)
        if said is not None:
            (folder / "witness").write_text(said)
            judged = subprocess.run([program, "check-btor", "--fit", path, folder / "witness"], capture_output=True, text=True)
            if not judged.stdout.startswith(says):
                raise Wrong(f"its witness is told as {judged.stdout}{judged.stderr}, not {says}")
            compare_claims(program, text, path, folder / "witness", model, whole_told, says)
            back = subprocess.run([program, "unfit", "--back", path, folder / "witness"], capture_output=True, text=True)
            if back.stderr != judged.stdout:
                raise Wrong(f"unfit --back tells {back.stderr}, not {judged.stdout}")
            (folder / "back").write_text(back.stdout)
            narrow_said = subprocess.run([program, "check-btor", fitted, folder / "back"], capture_output=True, text=True).stdout
            if says[0] != "i" and narrow_said != judged.stdout:
                raise Wrong(f"what unfit --back writes is told as {narrow_said}, not {judged.stdout}")
            return "a witness over arrays judged"
    if by.random() < 0.125:
        lowered = subprocess.run([program, "lower", fitted], capture_output=True, text=True)
        again = subprocess.run([program, "lower", "--fit", path], capture_output=True, text=True)
        if lowered.returncode != 0 or lowered.stdout != again.stdout:
            raise Wrong(f"it is lowered otherwise by --fit: {again.stderr}")
        compare_lifted(program, folder, by)
        said, holds = witness(narrow, chosen, inputs, free, told)
        if said is not None:
            (folder / "witness").write_text(said)
            judged = subprocess.run([program, "check-btor", fitted, folder / "witness"], capture_output=True, text=True).stdout
            if judged.startswith("accepted") != holds or (not holds and not judged.startswith("violated")):
                raise Wrong(f"its witness is told as {judged}")
            written = subprocess.run([program, "unfit", path, folder / "witness"], capture_output=True, text=True)
            (folder / "unfitted").write_text(written.stdout)
            own = subprocess.run([program, "check-btor", "--fit", path, folder / "unfitted"], capture_output=True, text=True).stdout
            if (written.stderr, own) != (judged, judged):
                raise Wrong(f"unfit tells {written.stderr}, and what it writes is told as {own}, not {judged}")
            return "a witness judged and unfitted" if is_alone else "a witness judged, unfitted without first words"
    return "spoilt and fitted" if is_spoilt else "fitted"


def main():
    words = argparse.ArgumentParser()
    words.add_argument("program", nargs="?", type=pathlib.Path, default=TOP / "crates/hwtool/out/hwtool")
    words.add_argument("--rounds", type=int, default=2000)
    words.add_argument("--seed", type=int, default=1)
    words.add_argument("--keep", type=pathlib.Path)
    asked = words.parse_args()
    program, counts, wrong = asked.program.resolve(), {}, 0
    with tempfile.TemporaryDirectory() as there:
        for at in range(asked.rounds):
            by = random.Random(f"{asked.seed} {at}")
            text = random_whole(by)
            is_spoilt = by.random() < 0.2
            text = spoilt(text, by) if is_spoilt else text
            try:
                how = tried(program, text, by, pathlib.Path(there), is_spoilt)
                counts[how] = counts.get(how, 0) + 1
            except Wrong as why:
                wrong += 1
                print(f"round {at} of seed {asked.seed}: {why}", flush=True)
                if asked.keep:
                    asked.keep.mkdir(exist_ok=True)
                    (asked.keep / f"{asked.seed}-{at}.btor2").write_text(text)
    print(f"{asked.rounds} models tried: {', '.join(f'{many} {how}' for how, many in sorted(counts.items()))}; {wrong} wrong")
    sys.exit(1 if wrong else 0)


if __name__ == "__main__":
    main()
