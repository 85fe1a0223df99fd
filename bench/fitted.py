#!/usr/bin/env python3
"""Tells what fitting takes: items and gates of each form at some widths, and times of `fit` beside `show`.

    python3 bench/fitted.py [PROGRAM]

PROGRAM is crates/hwtool/out/hwtool where none is given. For each form and width a model has inputs, that one line and an output; so it
has for each form of arrays and number of cells, of 32 bits each. A row tells the items of the fitted model, the bound on its gates that
`cost --fit` tells, and the AND gates that `lower --fit` makes. Behind it come the times of `fit` and `show` over a model of the profile
with 1,000,000 lines, and of `fit` over chains of wide words and over a memory.
"""
import pathlib
import resource
import subprocess
import sys
import tempfile

sys.path.insert(0, str(pathlib.Path(__file__).resolve().parent))
import models  # noqa: E402

TOP = pathlib.Path(__file__).resolve().parent.parent
WIDTHS = [65, 96, 128, 256, 1024]
ONE = "not neg inc redand redxor".split()
TWO = "and eq ult slt add sub uaddo saddo sll sra rol mul umulo smulo udiv urem sdiv smod".split()
TESTS = {"eq", "ult", "slt", "uaddo", "saddo", "umulo", "smulo", "redand", "redxor"}
# The widths of indices, and what is made of two arrays, an index and a word.
INDICES = [4, 8, 12]
ARRAYS = {"read": "read 3 5 7", "write": "write 4 5 7 8", "ite": "ite 4 9 5 6", "eq": "eq 1 5 6"}
# What takes thousands of items at 1,024 bits stands there all the same; products and quotients do.
TURNS = 5


def lines(form, width):
    """A model of one form at one width."""
    text = [f"1 sort bitvec {width}", "2 sort bitvec 1", "3 input 1", "4 input 1", "5 input 2"]
    sort = 2 if form in TESTS else 1
    operands = {1: "3", 2: "3 4", 3: "5 3 4"}[3 if form == "ite" else 1 if form in ONE else 2]
    return "".join(f"{it}\n" for it in [*text, f"6 {form} {sort} {operands}", "7 output 6"])


def memory_lines(form, index):
    """A model of one form of arrays at one width of indices."""
    inputs = [f"{at} input {sort}" for at, sort in ((5, 4), (6, 4), (7, 2), (8, 3), (9, 1))]
    text = ["1 sort bitvec 1", f"2 sort bitvec {index}", "3 sort bitvec 32", "4 sort array 2 3", *inputs, f"10 {ARRAYS[form]}", "11 output 10"]
    return "".join(f"{it}\n" for it in text)


def memory(index):
    """A memory that begins with zeros, into which each frame writes, and of which it reads."""
    text = memory_lines("read", index).splitlines()[:9]
    text[4] = "5 state 4 memory"
    behind = ["10 zero 3", "11 init 4 5 10", "12 write 4 5 7 8", "13 next 4 5 12", "14 read 3 5 7", "15 redand 1 14", "16 bad 15"]
    return "".join(f"{it}\n" for it in [*text, *behind])


def chain(width, count):
    """A chain of sums, choices and shifts of words of a width."""
    text = [f"1 sort bitvec {width}", "2 sort bitvec 1", "3 input 1", "4 input 1", "5 input 2"]
    forms = ["add 1 {} 4", "xor 1 {} 3", "ite 1 5 {} 3", "sub 1 4 {}"]
    for at in range(count):
        text.append(f"{6 + at} {forms[at % len(forms)].format(3 if at == 0 else 5 + at)}")
    return "".join(f"{it}\n" for it in [*text, f"{6 + count} output {5 + count}"])


def run(program, *words, given=None):
    done = subprocess.run([program, *words], input=given, capture_output=True, text=True)
    return done.stdout if done.returncode == 0 else None


def timed(program, *words):
    """The least processor time of some turns, in seconds."""
    least = None
    for _ in range(TURNS):
        before = resource.getrusage(resource.RUSAGE_CHILDREN)
        subprocess.run([program, *words], stdout=subprocess.DEVNULL, check=True)
        after = resource.getrusage(resource.RUSAGE_CHILDREN)
        took = after.ru_utime + after.ru_stime - before.ru_utime - before.ru_stime
        least = took if least is None else min(least, took)
    return least


def cell(program, model):
    """The items, the bound and the gates of a model."""
    fitted = run(program, "fit", "-", given=model)
    if fitted is None:
        return "refused"
    bound = run(program, "cost", "--fit", "-", given=model).split()[1]
    circuit = subprocess.run([program, "lower", "--fit", "--binary", "-"], input=model.encode(), capture_output=True).stdout
    gates = circuit.split(b"\n", 1)[0].split()[5].decode()
    return f"{len(fitted.splitlines()):,}, {int(bound):,}, {int(gates):,}"


def table(program, head, forms, sizes, model_of):
    """A row for each form, with a cell for each size."""
    print(f"| {head} | " + " | ".join(map(str, sizes)) + " |\n|---|" + "---|" * len(sizes))
    for form in forms:
        print(f"| `{form}` | " + " | ".join(cell(program, model_of(form, it)) for it in sizes) + " |", flush=True)


def main():
    program = str(pathlib.Path(sys.argv[1] if len(sys.argv) > 1 else TOP / "crates/hwtool/out/hwtool").resolve())
    table(program, "Form", [*ONE, *TWO, "ite"], WIDTHS, lines)
    table(program, "Form of arrays, by the index's bits", ARRAYS, INDICES, memory_lines)
    with tempfile.TemporaryDirectory() as there:
        path = pathlib.Path(there) / "model.btor2"
        path.write_text(models.model(1_000_000))
        fit, show = timed(program, "fit", path), timed(program, "show", path)
        print(f"a model of the profile, 1,000,000 lines: fit {fit:.2f} s, show {show:.2f} s, {fit / show:.2f}")
        for width, count in ((128, 20_000), (1024, 2_000)):
            path.write_text(chain(width, count))
            fit = timed(program, "fit", path)
            made = len(run(program, "fit", path).splitlines())
            print(f"a chain of {count:,} words of {width} bits: fit {fit:.2f} s, {made:,} items, {fit / made * 1e9:.0f} ns an item")
        for index in INDICES:
            path.write_text(memory(index))
            fit, lower = timed(program, "fit", path), timed(program, "lower", "--fit", "--binary", path)
            made = len(run(program, "fit", path).splitlines())
            print(f"a memory of {1 << index:,} words of 32 bits: fit {fit:.2f} s, {made:,} items, lower --fit {lower:.2f} s")


main()
