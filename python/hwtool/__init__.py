"""Word-level hardware models in BTOR2, circuits in AIGER, and their witnesses: proved calls.

    import hwtool

    verdict = hwtool.check_btor("queue.btor2", "queue.witness")
    print(verdict)                # accepted 7 frames
    if verdict.accepted: ...
    print(verdict.claims)         # (Claim(bad=0, frame=6),)

    circuit = hwtool.lower(b"1 sort bitvec 1\\n2 input 1\\n3 bad 2\\n", binary=True)

A text is given as its bytes, or by the path of its file; a `str` is a path. A text that is not taken, or a model that a call
does not take, raises `Refused`, with number, name, place and remedy; want of memory raises `MemoryError`; a file that can't be
read raises `OSError`. A witness or a proof that is none is no error: the verdict says where and why.

Calls may be made by several threads at once, and run beside each other: each lets the interpreter go on. A thread needs a stack
of 256 KB at least (`threading.stack_size`), and no call is made in the child of a `fork` of a process with threads: start
processes by `spawn`.

The library is the one that HWTOOL_LIBRARY names; without it the one that was installed with the package, the one released by
the repository that the package stands in, or the system's.
"""

from ._answers import Claim, Cost, Dump, Kind, Lifted, ProofKind, ProofVerdict, Restored, Unfitted, Verdict
from ._calls import (
    Text,
    check_aig,
    check_btor,
    check_btor_fit,
    check_proof,
    check_proof_aig,
    check_proof_circuit,
    convert,
    cost,
    engine_form,
    fit,
    lift,
    lift_engine,
    lift_engine_abc,
    lift_fit,
    lower,
    obligation,
    obligation_aig,
    obligation_circuit,
    restore,
    restore_abc,
    unfit,
    unfit_back,
    version,
    wave,
)
from ._refusals import Case, Refused, explain, name

__version__ = "0.16.0"

# so is it told where nobody catches it
Refused.__module__ = __name__

__all__ = [
    "Case",
    "Claim",
    "Cost",
    "Dump",
    "Kind",
    "Lifted",
    "ProofKind",
    "ProofVerdict",
    "Refused",
    "Restored",
    "Text",
    "Unfitted",
    "Verdict",
    "check_aig",
    "check_btor",
    "check_btor_fit",
    "check_proof",
    "check_proof_aig",
    "check_proof_circuit",
    "convert",
    "cost",
    "engine_form",
    "explain",
    "fit",
    "lift",
    "lift_engine",
    "lift_engine_abc",
    "lift_fit",
    "lower",
    "name",
    "obligation",
    "obligation_aig",
    "obligation_circuit",
    "restore",
    "restore_abc",
    "unfit",
    "unfit_back",
    "version",
    "wave",
]
