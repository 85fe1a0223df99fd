#!/usr/bin/env python3
"""Cuts the witness circuits and the proofs of examples/ after each byte, and has the program judge what is left.

    certificate_cuts.py [PROGRAM]

PROGRAM is crates/hwtool/out/hwtool where none is given. Each property holds, so a certificate that holds says nothing wrong; but of
these circuits none does that is cut within its gates or within its names: where all names are cut off, the inputs and latches stand
for those of the circuit in order. A proof holds from some byte on, and then with whatever follows. The status is 0 where that is
so, else 1.
"""
import pathlib
import re
import subprocess
import sys
import tempfile

TOP = pathlib.Path(__file__).resolve().parent.parent
EXAMPLES = TOP / "examples"


def statuses(program, words, text, place):
    """The exit statuses of `check-proof` with the file at a place among the words cut after each byte, and whole."""
    found = []
    with tempfile.NamedTemporaryFile() as cut:
        for length in range(len(text) + 1):
            cut.seek(0)
            cut.truncate()
            cut.write(text[:length])
            cut.flush()
            given = [*words[:place], cut.name, *words[place + 1 :]]
            found.append(subprocess.run([program, "check-proof", "--circuit", *given], capture_output=True).returncode)
    return found


def faults(program, witness):
    """What is wrong with the cuts of a witness circuit and of its proof."""
    name = witness.name.split("-witness")[0]
    model, proof = EXAMPLES / f"{name}.btor2", EXAMPLES / f"{name}.proof"
    words = [str(model)] if model.exists() else ["--aiger", str(EXAMPLES / f"{name}.aag")]
    words += [str(witness), str(proof)]
    text = witness.read_bytes()
    named = re.search(rb"[il]\d+ = ", text)
    circuits = statuses(program, words, text, len(words) - 2)
    within = [it for length, it in enumerate(circuits[:-1]) if named is None or length != named.start()]
    if {*within} - {1, 2} or circuits[-1] != 0:
        yield f"{witness.name}: statuses {circuits}"
    proofs = statuses(program, words, proof.read_bytes(), len(words) - 1)
    if proofs != sorted(proofs, reverse=True) or {*proofs} != {0, 1}:
        yield f"{proof.name}: statuses {proofs}"


def main(words):
    program = words[0] if words else str(TOP / "crates/hwtool/out/hwtool")
    witnesses = sorted(EXAMPLES.glob("*-witness.a?g"))
    wrong = [fault for witness in witnesses for fault in faults(program, witness)]
    print("".join(f"{it}\n" for it in wrong) + f"certificate cuts: {len(witnesses)} witness circuits and proofs, {len(wrong)} wrong")
    return 1 if wrong or not witnesses else 0


if __name__ == "__main__":
    sys.exit(main(sys.argv[1:]))
