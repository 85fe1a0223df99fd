#!/usr/bin/env python3
"""A trace of yosys-smtbmc as a witness of the model that the same run of Yosys wrote.

    tools/yw-witness.py [--bad K] MODEL TRACE >WITNESS

MODEL is what `write_btor` wrote, TRACE what `yosys-smtbmc --dump-yw` did, and K the bad property that fails, 0 if it is not
said. Inputs and registers are found by their names. A register without an initial value is in the trace only where
`formalff -clk2ff -ff2anyinit` stood before `write_smt2`; what the trace does not say is 0. Names that Yosys made itself,
`$..`, stand in a model only by `write_btor -x`; what `setundef -anyseq` makes has another name in each text. A signal of the
trace that the model does not have is told, with status 1.

Whether it is a counterexample says `hwtool check-btor MODEL WITNESS`, and not this script.
"""
import argparse
import json
import sys


def leaves(path):
    """The inputs and states of a model: their names, each with what it is, its place among them and its width."""
    widths, found, counts = {}, {}, {"input": 0, "state": 0}
    for line in open(path, encoding="utf-8"):
        words = line.split(";")[0].split()
        if words[1:3] == ["sort", "bitvec"]:
            widths[words[0]] = int(words[3])
        elif words[1:2] in (["input"], ["state"]):
            kind = words[1]
            found[words[3] if len(words) > 3 else (kind, counts[kind])] = (kind, counts[kind], widths.get(words[2], 0))
            counts[kind] += 1
    return found


def name_of(path):
    """The name of a signal in a model: the names of the modules and its own, with points between."""
    return ".".join(part.removeprefix("\\") for part in path)


def words_of(bits, signals, known, of_first):
    """The words that a step gives: by kind and place, a list of bits, the lowest first."""
    found, place = {}, 0
    bits = bits[::-1].replace("x", "0").replace("?", "0")
    for signal in signals:
        if signal["init_only"] and not of_first:
            continue
        piece, place = bits[place : place + signal["width"]], place + signal["width"]
        name = name_of(signal["path"])
        if name in known:
            kind, index, width = known[name]
            word = found.setdefault((kind, index), ["0"] * width)
            word[signal["offset"] : signal["offset"] + len(piece)] = piece
    return found


def main():
    words = argparse.ArgumentParser(description="a trace of yosys-smtbmc as a witness of the model")
    words.add_argument("--bad", type=int, default=0, metavar="K", help="the bad property that fails, from 0")
    words.add_argument("model")
    words.add_argument("trace")
    words = words.parse_args()
    known = leaves(words.model)
    with open(words.trace, encoding="utf-8") as file:
        trace = json.load(file)
    signals = trace["signals"]
    missing = sorted({name_of(it["path"]) for it in signals} - set(known))
    for name in missing:
        print(f"{words.trace}: the model has no input and no state {name}", file=sys.stderr)
    lines = ["sat", f"b{words.bad}"]
    for frame, step in enumerate(trace["steps"]):
        found = words_of(step["bits"], signals, known, frame == 0)
        for kind, opening in (("state", "#"), ("input", "@")):
            given = [(index, word) for (of, index), word in sorted(found.items()) if of == kind]
            if given or kind == "input":
                lines.append(f"{opening}{frame}")
            lines += [f"{index} {''.join(reversed(word))}" for index, word in given]
    print("\n".join([*lines, "."]))
    sys.exit(1 if missing else 0)


main()
