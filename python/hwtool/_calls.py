"""The calls."""

from __future__ import annotations

import ctypes
import operator
import os
from typing import List, NoReturn, Optional, Sequence, SupportsIndex, Tuple, Union

from ._answers import Claim, Cost, Dump, Kind, Lifted, ProofKind, ProofVerdict, Restored, Unfitted, Verdict
from ._library import (
    DONE,
    MODEL_REFUSED,
    NO_MEMORY,
    SECOND_REFUSED,
    TEXT_REFUSED,
    RawClaim,
    RawRefusal,
    RawVerdict,
    call,
    claimed,
    library_version,
    written,
)
from ._refusals import Refused, name

Text = Union[bytes, bytearray, memoryview, str, "os.PathLike[str]", "os.PathLike[bytes]"]
"""A text: its bytes, or the path of its file. A `str` is a path."""

# The calls that judge a witness of each kind of text.
_JUDGES = {"model": "hwtool_check_btor_claims", "fitted": "hwtool_check_btor_fit_claims", "circuit": "hwtool_check_aig_claims"}

# The refusal of an obligation that is too big, which is told of the invariant as a whole.
_TOO_MANY_CUBES = 196

# The refusals of a witness circuit as a whole.
_NO_TEST = range(210, 217)


class _Given:
    """A text that was handed in: its bytes, which nobody changes during a call, and the path that they were read from."""

    def __init__(self, text: Text) -> None:
        self.file: Optional[str] = None
        if isinstance(text, bytes):
            self.bytes = text
        elif isinstance(text, (str, os.PathLike)):
            self.file = os.fsdecode(text)
            try:
                with open(self.file, "rb") as file:
                    self.bytes = file.read()
            except (OSError, ValueError) as error:
                if "\n" not in self.file:
                    raise
                raise ValueError("a str is the path of a file; a text itself is handed in as bytes") from error
        else:
            try:
                self.bytes = memoryview(text).tobytes()
            except TypeError:
                raise TypeError(f"a text is bytes or the path of its file, not {type(text).__name__}") from None

    @property
    def words(self) -> List[object]:
        """How it is given to a call."""
        return [self.bytes, len(self.bytes)]

    @property
    def room(self) -> int:
        """For a text that is made of it, most often enough."""
        return (1 << 24) + 32 * len(self.bytes)


def _position(bad: SupportsIndex) -> int:
    """A position of a bad property."""
    position = operator.index(bad)
    if not 0 <= position < 1 << 64:
        raise ValueError(f"a bad property is named by its position, from 0, and {position} is none")
    return position


def _choice(bad: Optional[SupportsIndex]) -> List[object]:
    """A bad property that may be chosen."""
    return [bad is not None, 0 if bad is None else _position(bad)]


def _refuse(status: int, raw: RawRefusal, kind: str, first: _Given, second: Optional[_Given] = None, second_kind: str = "invariant") -> NoReturn:
    """Tells why a call is not done."""
    if status == NO_MEMORY:
        raise MemoryError("hwtool: no memory")
    number, place = raw.number, raw.place
    if status == TEXT_REFUSED:
        raise Refused(number, name(number), kind, "byte" if kind == "circuit" else "line", place, first.file)
    if second is not None and status == SECOND_REFUSED and second_kind == "invariant":
        raise Refused(number, name(number), second_kind, "line", place, second.file)
    if second is not None and status == SECOND_REFUSED:
        raise Refused(number, name(number), second_kind, None if number in _NO_TEST else "byte", None if number in _NO_TEST else place, second.file)
    if second is not None and number == _TOO_MANY_CUBES:
        raise Refused(number, name(number), "invariant", file=second.file)
    if status == MODEL_REFUSED:
        raise Refused(number, name(number), kind, "item" if place else None, place or None, first.file)
    raise RuntimeError(f"hwtool: the library answered the status {status}")


def _verdict(raw: RawVerdict, of_circuit: bool, claims: Sequence[RawClaim]) -> Verdict:
    """What is said of a witness, with the claims of an acceptance."""
    kind, first, second = Kind(raw.kind), raw.first, raw.second
    if kind is Kind.ACCEPTED:
        told = tuple(Claim(claim.bad, claim.frame) for claim in claims)
        return Verdict(kind, frames=first, of_circuit=of_circuit, claims=told)
    if kind in (Kind.NOT_REACHED, Kind.NOT_CLAIMED):
        return Verdict(kind, claim=first, of_circuit=of_circuit)
    if kind is Kind.VIOLATED:
        return Verdict(kind, frame=first, constraint=second, of_circuit=of_circuit)
    if kind is Kind.INIT_DIFFERS:
        return Verdict(kind, state=first, of_circuit=of_circuit)
    if kind is Kind.MALFORMED:
        return Verdict(kind, line=first, why=raw.why, why_name=name(raw.why), of_circuit=of_circuit)
    return Verdict(kind, of_circuit=of_circuit)


def _judged(kind: str, first: _Given, witness: bytes, bad: Optional[SupportsIndex] = None) -> Tuple[RawVerdict, List[RawClaim]]:
    """Judges a witness of a model, of one that is fitted, or of a circuit, of a bad property where one is asked for."""
    verdict = RawVerdict()
    status, refusal, claims = claimed(_JUDGES[kind], [*first.words, *_choice(bad), witness, len(witness)], verdict)
    if status != DONE:
        _refuse(status, refusal, "circuit" if kind == "circuit" else "model", first)
    return verdict, claims


def check_btor(model: Text, witness: Text, *, bad: Optional[SupportsIndex] = None) -> Verdict:
    """Judges a witness of a BTOR2 model; with `bad` one that is to claim the bad property at this position, from 0.

    Raises Refused where the model is none, or has a state with an init and no next, or no bad property at that position; a
    witness that is none is judged as malformed. Raises MemoryError where memory is wanting, and OSError where a file can't be
    read, as all calls do.
    """
    verdict, claims = _judged("model", _Given(model), _Given(witness).bytes, bad)
    return _verdict(verdict, False, claims)


def check_aig(circuit: Text, witness: Text, *, bad: Optional[SupportsIndex] = None) -> Verdict:
    """Judges a witness of an AIGER circuit of either form; with `bad` one that is to claim the bad property at this position, from
    0. Raises Refused where the circuit is none, has no bad property at that position, or none at all but outputs."""
    verdict, claims = _judged("circuit", _Given(circuit), _Given(witness).bytes, bad)
    return _verdict(verdict, True, claims)


def lower(model: Text, *, binary: bool = False) -> bytes:
    """The AIGER circuit of a BTOR2 model, ascii or binary: in each frame its bad properties rise as the model's do.

    Raises Refused where the model is none, or is not lowered: it has a justice or fairness line, a state with an init and no
    next, or is too big.
    """
    first = _Given(model)
    status, refusal, text = written("hwtool_lower", [*first.words, bool(binary)], first.room)
    if status != DONE:
        _refuse(status, refusal, "model", first)
    return text


def fit(model: Text) -> bytes:
    """A BTOR2 model of the whole language as one that every other call takes: its bad properties can rise in as many frames. The
    whole language has arrays, words of up to 1,048,576 bits, operands with a minus and inits by any line. A model that `lower`
    takes stays as it is, in one spelling.

    Raises Refused where the text is no such model, or is not fitted: it is none that `lower` takes and has a justice or fairness
    line, a first word needs itself, or the fitted model would be too big.
    """
    first = _Given(model)
    status, refusal, text = written("hwtool_fit", first.words, first.room)
    if status != DONE:
        _refuse(status, refusal, "model", first)
    return text


def check_btor_fit(model: Text, witness: Text, *, bad: Optional[SupportsIndex] = None) -> Verdict:
    """Judges a witness of a BTOR2 model of the whole language, as `check_btor` does.

    Raises Refused where the model is none that `fit` takes, or has no bad property at the position `bad`.
    """
    first, second = _Given(model), _Given(witness).bytes
    verdict, claims = _judged("fitted", first, second, bad)
    return _verdict(verdict, False, claims)


def _unfitted(call_name: str, first: _Given, given: List[object], witness: _Given) -> Unfitted:
    """Judges a witness, and writes what it is over the model that is fitted, or over the model itself."""
    verdict = RawVerdict()
    status, refusal, text = written(call_name, [*given, *witness.words], first.room + 64 * witness.room, ctypes.byref(verdict))
    if status != DONE:
        _refuse(status, refusal, "model", first)
    return Unfitted(_verdict(verdict, False, ()), text)


def unfit(model: Text, witness: Text, *, names: bool = False) -> Unfitted:
    """The witness of a BTOR2 model that says what one of the model says that `fit` makes of it: with names behind its words, or
    without. The verdict has no claims. Raises Refused as `check_btor_fit` does."""
    first = _Given(model)
    return _unfitted("hwtool_unfit", first, [*first.words, bool(names)], _Given(witness))


def unfit_back(model: Text, witness: Text) -> Unfitted:
    """The witness of the model that `fit` makes that says what one of the model itself says. The verdict has no claims. Raises
    Refused as `check_btor_fit` does."""
    first = _Given(model)
    return _unfitted("hwtool_unfit_back", first, first.words, _Given(witness))


def cost(model: Text) -> Cost:
    """How many AND gates and variables the circuit of a BTOR2 model has at most. Raises Refused where the model is none."""
    first, gates, variables = _Given(model), ctypes.c_uint64(), ctypes.c_uint64()
    status, refusal = call("hwtool_cost", first.words, ctypes.byref(gates), ctypes.byref(variables))
    if status != DONE:
        _refuse(status, refusal, "model", first)
    return Cost(gates.value, variables.value)


def convert(circuit: Text, *, binary: bool = False) -> bytes:
    """An AIGER circuit of either form in the ascii or the binary one, its variables numbered as in the binary form: inputs,
    latches, gates. Raises Refused where the circuit is none."""
    first = _Given(circuit)
    status, refusal, text = written("hwtool_convert", [*first.words, bool(binary)], first.room)
    if status != DONE:
        _refuse(status, refusal, "circuit", first)
    return text


def engine_form(circuit: Text, *, bad: Optional[SupportsIndex] = None, binary: bool = False) -> bytes:
    """The engine form of an AIGER circuit, which every model checker reads alike: all latches begin with 0, and it has no
    constraints and no names. With all its bad properties, or with the one at position `bad`, from 0, alone.

    Raises Refused where the circuit is none, has a justice property or a fairness constraint, has no bad property at that
    position, or is too big.
    """
    first = _Given(circuit)
    status, refusal, text = written("hwtool_engine_form", [*first.words, *_choice(bad), bool(binary)], first.room)
    if status != DONE:
        _refuse(status, refusal, "circuit", first)
    return text


def _with_verdict(
    call_name: str, given: List[object], kind: str, first: _Given, witness: _Given, of_circuit: bool
) -> Tuple[Verdict, bytes]:
    """Judges a witness and writes what is made of it. The claims of an acceptance are those of the witness of the model or circuit:
    the one that is written, or the one that is dumped."""
    verdict = RawVerdict()
    status, refusal, text = written(call_name, given, first.room + witness.room, ctypes.byref(verdict))
    if status != DONE:
        _refuse(status, refusal, kind, first)
    if Kind(verdict.kind) is not Kind.ACCEPTED:
        return _verdict(verdict, of_circuit, ()), text
    claims = _judged(kind, first, text if of_circuit else witness.bytes)[1]
    return _verdict(verdict, of_circuit, claims), text


def lift(model: Text, witness: Text) -> Lifted:
    """Judges a witness of the circuit that `lower` makes of a BTOR2 model, and lifts it to one of the model, which has the same
    verdict. Raises Refused as `lower` does, and where the model has outputs and no bad property."""
    first, second = _Given(model), _Given(witness)
    return Lifted(*_with_verdict("hwtool_lift", [*first.words, *second.words], "model", first, second, True))


def lift_fit(model: Text, witness: Text, *, names: bool = False) -> Lifted:
    """The same of a BTOR2 model that `fit` takes, with names behind the words or without: the witness is one of the circuit that
    `lower` makes of what `fit` writes. The verdict is what is judged over the model. Raises Refused also as `fit` does."""
    first, second = _Given(model), _Given(witness)
    return Lifted(*_with_verdict("hwtool_lift_fit", [*first.words, bool(names), *second.words], "model", first, second, True))


def lift_engine(
    model: Text, witness: Text, *, bad: Optional[SupportsIndex] = None, names: bool = False, fit: bool = False
) -> Lifted:
    """Judges a witness of the engine form of the circuit that `lower` makes of a BTOR2 model, as `restore` does, and lifts it to
    one of the model: with names behind its words, or without. The form is that with all bad properties, or with the one at
    position `bad`, from 0, alone. With `fit` the model is one that `fit` takes, as for `lift_fit`.

    Raises Refused where `lower` or `engine_form` does, with `fit` also where `fit` does.
    """
    first, second = _Given(model), _Given(witness)
    given = [*first.words, *_choice(bad), bool(names), *second.words]
    call_name = "hwtool_lift_engine_fit" if fit else "hwtool_lift_engine"
    return Lifted(*_with_verdict(call_name, given, "model", first, second, True))


def lift_engine_abc(model: Text, bad: SupportsIndex, found: Text, *, names: bool = False, fit: bool = False) -> Lifted:
    """The same of a counterexample as `restore_abc` takes it, with the bad property of the model at position `bad`, from 0."""
    first, second = _Given(model), _Given(found)
    given = [*first.words, _position(bad), bool(names), *second.words]
    call_name = "hwtool_lift_engine_abc_fit" if fit else "hwtool_lift_engine_abc"
    return Lifted(*_with_verdict(call_name, given, "model", first, second, True))


def restore(circuit: Text, witness: Text, *, bad: Optional[SupportsIndex] = None) -> Restored:
    """Judges a witness of the engine form of an AIGER circuit, and restores it to one of the circuit: with the bad property that
    it claims, up to and with the first frame in which this rises, or of all frames where it does not. The form is that with all
    bad properties, or with the one at position `bad`, from 0, alone.

    Raises Refused where `engine_form` does.
    """
    first, second = _Given(circuit), _Given(witness)
    return Restored(*_with_verdict("hwtool_restore", [*first.words, *_choice(bad), *second.words], "circuit", first, second, True))


def restore_abc(circuit: Text, bad: SupportsIndex, found: Text) -> Restored:
    """The same of a counterexample as ABC writes it: a line of initial bits, which are 0, and a line of input bits for each
    frame. It is one over the engine form of the circuit, and claims the bad property at position `bad`, from 0.

    Raises Refused where `engine_form` does with this bad property; a faulty line is told by the verdict.
    """
    first, second = _Given(circuit), _Given(found)
    given = [*first.words, _position(bad), *second.words]
    return Restored(*_with_verdict("hwtool_restore_abc", given, "circuit", first, second, True))


def wave(model: Text, witness: Text, *, all: bool = False, title: bytes = b"") -> Dump:
    """Judges a witness of a BTOR2 model, and writes its frames as a value change dump, which wave viewers read, with a title in
    its comment. It shows inputs, states, properties and outputs, and of other nodes those that have a symbol, or all.

    Raises Refused as `check_btor` does.
    """
    first, second, about = _Given(model), _Given(witness), memoryview(title).tobytes()
    given = [*first.words, bool(all), about, len(about), *second.words]
    return Dump(*_with_verdict("hwtool_wave", given, "model", first, second, False))


def _owed(call_name: str, kind: str, text: Text, bad: SupportsIndex, certificate: Text, over: Sequence[bool] = (), of: str = "invariant") -> bytes:
    """The formula that a certificate owes, of a kind that these flags choose."""
    first, second = _Given(text), _Given(certificate)
    given = [*first.words, *over, _position(bad), *second.words]
    status, refusal, formula = written(call_name, given, first.room + second.room)
    if status != DONE:
        _refuse(status, refusal, kind, first, second, of)
    return formula


def obligation(model: Text, bad: SupportsIndex, invariant: Text) -> bytes:
    """The formula, in DIMACS CNF, that an invariant owes for the bad property of a BTOR2 model at position `bad`, from 0: where
    nothing satisfies it, the property rises in no frame up to which the constraints hold.

    The invariant is a PLA as ABC writes it over the engine form with that property alone. Raises Refused where the model is
    none or is not lowered, has no such property, or the invariant is none.
    """
    return _owed("hwtool_obligation", "model", model, bad, invariant)


def obligation_aig(circuit: Text, bad: SupportsIndex, invariant: Text) -> bytes:
    """The same for the bad property of an AIGER circuit of either form. Raises Refused where the circuit is none, has no engine
    form with that property, or the invariant is none."""
    return _owed("hwtool_obligation_aig", "circuit", circuit, bad, invariant)


def _certified(
    call_name: str,
    kind: str,
    text: Text,
    bad: SupportsIndex,
    certificate: Text,
    proof: Text,
    lrat: bool,
    over: Sequence[bool] = (),
    of: str = "invariant",
) -> ProofVerdict:
    """Judges a proof of what a certificate owes, of a kind that these flags choose."""
    first, second, third, position = _Given(text), _Given(certificate), _Given(proof), _position(bad)
    raw = RawVerdict()
    status, refusal = call(call_name, [*first.words, *over, position, *second.words, bool(lrat), *third.words], ctypes.byref(raw))
    if status != DONE:
        _refuse(status, refusal, kind, first, second, of)
    found = ProofKind(raw.kind)
    if found is ProofKind.MALFORMED:
        return ProofVerdict(found, position, raw.first, raw.why, name(raw.why))
    return ProofVerdict(found, position, None if found is ProofKind.NOT_DERIVED else raw.first)


def check_proof(model: Text, bad: SupportsIndex, invariant: Text, proof: Text, *, lrat: bool = False) -> ProofVerdict:
    """Judges a proof of what `obligation` writes, in DRAT, or with `lrat` in LRAT. Where it holds, the bad property rises in no frame up to which
    the constraints hold, from any initial state under every input sequence; neither engine nor solver is trusted.

    Raises Refused as `obligation` does; a proof that is none is judged as malformed.
    """
    return _certified("hwtool_check_proof", "model", model, bad, invariant, proof, lrat)


def check_proof_aig(circuit: Text, bad: SupportsIndex, invariant: Text, proof: Text, *, lrat: bool = False) -> ProofVerdict:
    """The same of what `obligation_aig` writes, for an AIGER circuit of either form: from any initial bits that agree with its
    resets. Raises Refused as `obligation_aig` does."""
    return _certified("hwtool_check_proof_aig", "circuit", circuit, bad, invariant, proof, lrat)


def _first_kind(aiger: bool) -> str:
    """What the first text of a call on witness circuits is."""
    return "circuit" if aiger else "model"


def obligation_circuit(first: Text, bad: SupportsIndex, witness: Text, *, aiger: bool = False, over_form: bool = False) -> bytes:
    """The formula, in DIMACS CNF, that a witness circuit owes for the bad property at position `bad`, from 0, of a BTOR2 model, or
    with `aiger` of an AIGER circuit: where nothing satisfies it, the property rises in no frame up to which the constraints hold.

    The witness circuit is an AIGER circuit of either form, of the model's circuit or the circuit, or with `over_form` of its
    engine form with that property alone. Raises Refused where the first text is none, a model is not lowered, there is no such
    property or engine form, or the witness circuit is none.
    """
    over = [bool(aiger), bool(over_form)]
    return _owed("hwtool_obligation_circuit", _first_kind(aiger), first, bad, witness, over, "witness circuit")


def check_proof_circuit(
    first: Text, bad: SupportsIndex, witness: Text, proof: Text, *, lrat: bool = False, aiger: bool = False, over_form: bool = False
) -> ProofVerdict:
    """Judges a proof of what `obligation_circuit` writes, in DRAT, or with `lrat` in LRAT. Where it holds, the bad property rises in no frame up to which
    the constraints hold, from any initial state under every input sequence; neither engine nor solver is trusted.

    Raises Refused as `obligation_circuit` does; a proof that is none is judged as malformed.
    """
    over = [bool(aiger), bool(over_form)]
    return _certified("hwtool_check_proof_circuit", _first_kind(aiger), first, bad, witness, proof, lrat, over, "witness circuit")


def version() -> str:
    """The version of the library."""
    return library_version()
