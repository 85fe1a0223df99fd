#!/usr/bin/env python3
"""Reads the sources of `runs`, `witness` and `lift`, and looks at how they evaluate, and at what runs and judges own.

    sources.py [TOP]        of this checkout, or of the one whose top folder is TOP

Each step of a frame goes through the counted calls of `base`, one for each operator, and is counted in the one tally of a run.

Outside comments and contracts no case of the two enums of operators is named, a circuit's gates are read in `runs` alone,
`Tally::new` is called in the `new` of the two runs alone, and `witness` and `lift` make no counted call. In `runs` the list of
the gates, as they are arranged, is handed to one function, which does nothing but hand it on to the counted call for many gates:
there the operands of a gate are named in the one place that tells them to `base`, and what tells them is called by nothing. What
arranges gates names their operands, too, but no type of a bit, and nothing of `base` but `Fixed`.

What a run or a judge owns is set when it is made. From the two runs and the two judges on, each field is a number, a bool, an option
of such, a shared reference, a `Fixed` list of values that own nothing, or a struct or an enum of `runs` or `witness` of which the same
holds; of `base` there are only types that own nothing, and in each run or judge one `Tally` in all. So no field can grow, and none
hands out what takes memory: `Fixed` and `Tally` have no calls but those that are listed here.

Prints what breaks one of these rules, and ends with status 0 where nothing does, else 1."""
import pathlib
import re
import sys

TOP = pathlib.Path(sys.argv[1] if len(sys.argv) > 1 else pathlib.Path(__file__).parent.parent).resolve()
CRATES = TOP / "crates"
COUNTED = ("unary", "binary", "ite", "slice", "uext", "sext", "concat", "take", "take_all", "gate", "gate_all")
# Where `runs` hands a circuit's gates on, the call that counts them, and what tells `base` their operands.
HANDED = r"settle_gates\(\s*self\.arrangement\.gates\(self\.circuit\)"
HANDS_ON = "{gate_all(&Operands(gates),first,bits,tally);}"
TELLS = "{letgate=&self.0[k];(gate.rhs0.number(),gate.rhs1.number())}"
# What brings gates into the order in which they are evaluated, and sees no bit.
ARRANGES = "runs/src/arranging.rt"
# Where owning begins; the types of single values, and those of `base` and `aiger` that own nothing.
OWNERS = ("WordRun", "BitRun", "WordJudge", "BitJudge")
PLAIN = {"bool", "usize", *(f"{sign}{bits}" for sign in "iu" for bits in (8, 16, 32, 64, 128))}
OWNS_NOTHING = PLAIN | {"Tally", "Counter", "Numeral", "Width", "Lit", "Gate", "Unary", "Binary"}
# All calls of the two types of `base` on which this rests.
CALLS = {
    "fixed": {"new", "len", "as_slice", "as_mut_slice", "deref", "deref_mut", "index", "index_mut"},
    "tally": {"new", "steps", "step", "take", "take_all", "gate"},
}


def without_blocks(text, opening):
    """The text without what matches, each time up to the brace that closes the one it ends with."""
    kept, at = "", 0
    for found in re.finditer(opening, text):
        if found.start() < at:
            continue
        depth, end = 1, found.end()
        while depth:
            depth += {"{": 1, "}": -1}.get(text[end], 0)
            end += 1
        kept += text[at : found.start()]
        at = end
    return kept + text[at:]


def code(file):
    """The code of a file, without its comments and contracts."""
    text = re.sub(r"//[^\n]*", "", file.read_text(encoding="utf-8"))
    text = re.sub(r"ghost use [^;]*;", "", text)
    return without_blocks(text, r"\b(?:requires|ensures|invariant|ghost)\b[^{};]*\{")


def functions(text):
    """The functions of some code with their bodies, by name."""
    for found in re.finditer(r"\bfn (\w+)", text):
        depth, at = 0, text.index("{", found.end())
        start = at
        while True:
            depth += {"{": 1, "}": -1}.get(text[at], 0)
            at += 1
            if not depth:
                break
        yield found[1], text[start:at]


def gate_faults():
    """What `runs` does with the gates of a circuit but to hand them to the counted call."""
    tells, hands_on = 0, 0
    for file in sorted((CRATES / "runs/src").rglob("*.rt")):
        text, name = code(file), file.relative_to(CRATES)
        if str(name) == ARRANGES:
            text = text.replace("use base::Fixed;", "")
            yield from (f"{name}: names {it}" for it in re.findall(r"\b(?:u8|bool|base|Tally|Operands|operands)\b", text))
            continue
        if len(re.findall(r"\bgates\(", text)) != len(re.findall(HANDED, text)):
            yield f"{name}: reads a circuit's gates"
        for of, body in functions(text):
            packed = re.sub(r"\s+", "", body)
            told, handed = (of, packed) == ("operands", TELLS), (of, packed) == ("settle_gates", HANDS_ON)
            tells, hands_on = tells + told, hands_on + handed
            if re.search(r"\brhs[01]\b", body) and not told:
                yield f"{name}: names the operands of a gate in {of}"
            if re.search(r"\.operands\b|::operands\b", body):
                yield f"{name}: asks for the operands of a gate in {of}"
            if re.search(r"\bOperands\b", body) and not handed:
                yield f"{name}: makes a list of gates in {of}"
    if (tells, hands_on) != (1, 1):
        yield f"runs: gates are told to base in {tells} places, and handed to the counted call in {hands_on}"


def inner(text, begin):
    """What stands between a brace, which ends before `begin`, and the one that closes it."""
    depth, at = 1, begin
    while depth:
        depth += {"{": 1, "}": -1}.get(text[at], 0)
        at += 1
    return text[begin : at - 1]


def split(text):
    """The parts of a list at commas that stand in no bracket."""
    parts, depth = [""], 0
    for sign in text:
        depth += {**dict.fromkeys("<({[", 1), **dict.fromkeys(">)}]", -1)}.get(sign, 0)
        if sign == "," and depth == 0:
            parts.append("")
        else:
            parts[-1] += sign
    return [it.strip() for it in parts if it.strip()]


def types_in(fields):
    """The types of the fields of a struct, or of a case with fields."""
    return [re.sub(r"^(?:#\[[^\]]*\]\s*)*(?:pub(?:\([a-z]+\))? )?(?:ghost )?(?:\w+:(?!:))?\s*", "", it) for it in split(fields)]


def declared():
    """Of each struct and enum of `runs` and `witness` the types of its fields."""
    found = {}
    for file in sorted(it for crate in ("runs", "witness") for it in (CRATES / crate / "src").rglob("*.rt")):
        text = re.sub(r"//[^\n]*", "", file.read_text(encoding="utf-8"))
        for it in re.finditer(r"\b(struct|enum) (\w+)(?:<[^>{(]*>)?\s*([{(;])", text):
            kind, name, opens = it.groups()
            body = inner(text, it.end()) if opens == "{" else text[it.end() : text.index(");", it.end())] if opens == "(" else ""
            cases = [re.sub(r"^(?:#\[[^\]]*\]\s*)*\w+", "", case).strip()[1:-1] for case in split(body)] if kind == "enum" else [body]
            found.setdefault(name, []).append((file.relative_to(CRATES), [of for case in cases for of in types_in(case)]))
    return found


def parts_of(kind):
    """The last name of a type, and the types that it is given."""
    head, _, given = kind.partition("<")
    return head.rpartition("::")[2], split(given[:-1])


def owned_faults(place, kinds, structs, seen, in_list):
    """The types that own what can grow, or are not known, among some that are owned."""
    for kind in kinds:
        head, given = parts_of(kind)
        if kind.startswith("&"):
            if re.match(r"&('\w+ )?mut\b", kind):
                yield f"{place}: owns {kind}"
        elif head == "Option":
            yield from owned_faults(place, given, structs, seen, in_list)
        elif head == "Fixed" and not in_list:
            yield from owned_faults(place, given, structs, seen, True)
        elif head in structs:
            if (head, in_list) not in seen:
                seen.add((head, in_list))
                for file, below in structs[head]:
                    yield from owned_faults(f"{file}: {head}", below, structs, seen, in_list)
        elif head not in OWNS_NOTHING:
            yield f"{place}: owns {kind}"


def tallies_in(kinds, structs):
    """How many tallies some types own; those of a list count twice."""
    count = 0
    for head, given in map(parts_of, kinds):
        if head in ("Option", "Fixed"):
            count += (1 + (head == "Fixed")) * tallies_in(given, structs)
        else:
            count += (head == "Tally") + sum(tallies_in(of, structs) for _, of in structs.get(head, []))
    return count


def owning_faults():
    """What runs and judges own that can grow, or can count a second time."""
    structs, seen = declared(), set()
    yield from (f"no struct {it}" for it in OWNERS if it not in structs)
    there = [it for it in OWNERS if it in structs]
    yield from owned_faults("", there, structs, seen, False)
    yield from (f"{it}: owns {tallies_in([it], structs)} tallies" for it in there if tallies_in([it], structs) != 1)
    for name, calls in CALLS.items():
        there = {of for of, _ in functions(code(CRATES / f"base/src/{name}.rt"))}
        yield from (f"base/src/{name}.rt: a call {it}" for it in sorted(there - calls))


def faults():
    tallies = []
    yield from gate_faults()
    yield from owning_faults()
    for crate in ("runs", "witness", "lift"):
        for file in sorted((CRATES / crate / "src").rglob("*.rt")):
            text, name = code(file), file.relative_to(CRATES)
            for case in re.findall(r"\b(?:Unary|Binary)::[A-Z]\w*", text):
                yield f"{name}: names the case {case}"
            if crate != "runs" and re.search(r"\.gates\(\)", text):
                yield f"{name}: reads a circuit's gates"
            of_base = re.findall(r"\bbase::(\w+)", text) + re.findall(r"\w+", " ".join(re.findall(r"\buse base::\{([^}]*)\}", text)))
            counted = sorted({*of_base} & {*COUNTED, "Tally"})
            if crate != "runs" and counted:
                yield f"{name}: makes a counted call, {counted[0]}"
            tallies += [(str(name), of) for of, body in functions(text) for _ in re.findall(r"\bTally::new\b", body)]
            if len(re.findall(r"\bTally::new\b", text)) != sum(1 for of, _ in tallies if of == str(name)):
                yield f"{name}: makes a tally outside a function"
    if sorted(tallies) != [("runs/src/bit_run.rt", "new"), ("runs/src/word_run.rt", "new")]:
        yield f"tallies are made in {sorted(tallies)}, and not in the new of the two runs alone"


found = list(faults())
print("".join(f"{it}\n" for it in found), end="")
sys.exit(1 if found else 0)
