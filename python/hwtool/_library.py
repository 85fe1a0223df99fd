"""Finds and loads the C library, and types its calls. `include/hwtool.h` of the repository says what each call answers and what
its caller owes; what the caller owes is paid here."""

from __future__ import annotations

import ctypes
import ctypes.util
import mmap
import os
import pathlib
from typing import Iterator, List, Optional, Tuple

HERE = pathlib.Path(__file__).resolve().parent

DONE, TOO_SMALL, TEXT_REFUSED, MODEL_REFUSED, NO_MEMORY, SECOND_REFUSED = range(6)


class RawVerdict(ctypes.Structure):
    """`struct hwtool_verdict`."""

    _fields_ = [
        ("kind", ctypes.c_uint32),
        ("why", ctypes.c_uint32),
        ("first", ctypes.c_uint64),
        ("second", ctypes.c_uint64),
    ]


class RawRefusal(ctypes.Structure):
    """`struct hwtool_refusal`."""

    _fields_ = [("number", ctypes.c_uint32), ("place", ctypes.c_uint64)]


class RawClaim(ctypes.Structure):
    """`struct hwtool_claim`."""

    _fields_ = [("bad", ctypes.c_uint64), ("frame", ctypes.c_uint64)]


# As many claims as a witness has most often at most.
_FEW_CLAIMS = 1024

_TEXT = [ctypes.c_char_p, ctypes.c_size_t]
_BUFFER = [ctypes.c_void_p, ctypes.c_size_t, ctypes.POINTER(ctypes.c_size_t)]
_VERDICT = [ctypes.POINTER(RawVerdict)]
_REFUSAL = [ctypes.POINTER(RawRefusal)]
_CLAIMS = [ctypes.POINTER(RawClaim), ctypes.c_size_t, ctypes.POINTER(ctypes.c_size_t)]
_COUNT = [ctypes.POINTER(ctypes.c_uint64)]

_CALLS = {
    "hwtool_check_btor": [*_TEXT, *_TEXT, *_VERDICT, *_REFUSAL],
    "hwtool_check_aig": [*_TEXT, *_TEXT, *_VERDICT, *_REFUSAL],
    "hwtool_check_btor_claims": [*_TEXT, ctypes.c_bool, ctypes.c_size_t, *_TEXT, *_VERDICT, *_CLAIMS, *_REFUSAL],
    "hwtool_check_aig_claims": [*_TEXT, ctypes.c_bool, ctypes.c_size_t, *_TEXT, *_VERDICT, *_CLAIMS, *_REFUSAL],
    "hwtool_lower": [*_TEXT, ctypes.c_bool, *_BUFFER, *_REFUSAL],
    "hwtool_fit": [*_TEXT, *_BUFFER, *_REFUSAL],
    "hwtool_check_btor_fit": [*_TEXT, *_TEXT, *_VERDICT, *_REFUSAL],
    "hwtool_check_btor_fit_claims": [*_TEXT, ctypes.c_bool, ctypes.c_size_t, *_TEXT, *_VERDICT, *_CLAIMS, *_REFUSAL],
    "hwtool_unfit": [*_TEXT, ctypes.c_bool, *_TEXT, *_VERDICT, *_BUFFER, *_REFUSAL],
    "hwtool_unfit_back": [*_TEXT, *_TEXT, *_VERDICT, *_BUFFER, *_REFUSAL],
    "hwtool_cost": [*_TEXT, *_COUNT, *_COUNT, *_REFUSAL],
    "hwtool_convert": [*_TEXT, ctypes.c_bool, *_BUFFER, *_REFUSAL],
    "hwtool_engine_form": [*_TEXT, ctypes.c_bool, ctypes.c_size_t, ctypes.c_bool, *_BUFFER, *_REFUSAL],
    "hwtool_lift": [*_TEXT, *_TEXT, *_VERDICT, *_BUFFER, *_REFUSAL],
    "hwtool_restore": [*_TEXT, ctypes.c_bool, ctypes.c_size_t, *_TEXT, *_VERDICT, *_BUFFER, *_REFUSAL],
    "hwtool_restore_abc": [*_TEXT, ctypes.c_size_t, *_TEXT, *_VERDICT, *_BUFFER, *_REFUSAL],
    "hwtool_lift_fit": [*_TEXT, ctypes.c_bool, *_TEXT, *_VERDICT, *_BUFFER, *_REFUSAL],
    "hwtool_lift_engine": [*_TEXT, ctypes.c_bool, ctypes.c_size_t, ctypes.c_bool, *_TEXT, *_VERDICT, *_BUFFER, *_REFUSAL],
    "hwtool_lift_engine_fit": [*_TEXT, ctypes.c_bool, ctypes.c_size_t, ctypes.c_bool, *_TEXT, *_VERDICT, *_BUFFER, *_REFUSAL],
    "hwtool_lift_engine_abc": [*_TEXT, ctypes.c_size_t, ctypes.c_bool, *_TEXT, *_VERDICT, *_BUFFER, *_REFUSAL],
    "hwtool_lift_engine_abc_fit": [*_TEXT, ctypes.c_size_t, ctypes.c_bool, *_TEXT, *_VERDICT, *_BUFFER, *_REFUSAL],
    "hwtool_wave": [*_TEXT, ctypes.c_bool, *_TEXT, *_TEXT, *_VERDICT, *_BUFFER, *_REFUSAL],
    "hwtool_obligation": [*_TEXT, ctypes.c_size_t, *_TEXT, *_BUFFER, *_REFUSAL],
    "hwtool_check_proof": [*_TEXT, ctypes.c_size_t, *_TEXT, ctypes.c_bool, *_TEXT, *_VERDICT, *_REFUSAL],
    "hwtool_obligation_aig": [*_TEXT, ctypes.c_size_t, *_TEXT, *_BUFFER, *_REFUSAL],
    "hwtool_check_proof_aig": [*_TEXT, ctypes.c_size_t, *_TEXT, ctypes.c_bool, *_TEXT, *_VERDICT, *_REFUSAL],
    "hwtool_obligation_circuit": [*_TEXT, ctypes.c_bool, ctypes.c_bool, ctypes.c_size_t, *_TEXT, *_BUFFER, *_REFUSAL],
    "hwtool_check_proof_circuit": [*_TEXT, ctypes.c_bool, ctypes.c_bool, ctypes.c_size_t, *_TEXT, ctypes.c_bool, *_TEXT, *_VERDICT, *_REFUSAL],
    "hwtool_name": [ctypes.c_uint32, *_BUFFER],
    "hwtool_version": [*_BUFFER],
}


def _candidates() -> Iterator[str]:
    """Where the library may be, the first that is there first: beside the package, where installing it put it; released by the
    repository that the package stands in; and where the system looks."""
    beside = sorted(HERE.glob("libhwtool.so*"))
    if beside:
        yield str(beside[0])
    released = HERE.parent.parent / "release" / "libhwtool.so"
    if HERE.parent.name == "python" and released.is_file():
        yield str(released)
    found = ctypes.util.find_library("hwtool")
    if found:
        yield found


def _load() -> Tuple[ctypes.CDLL, str]:
    """The library, and the file or name that it was loaded by. A library that is there and can't be loaded is not passed over."""
    place = os.environ.get("HWTOOL_LIBRARY") or next(_candidates(), None)
    if place is None:
        raise ImportError(
            f"hwtool: there is no libhwtool.so: HWTOOL_LIBRARY is not set, none stands beside the package in {HERE}, it stands "
            "in no repository with a release/libhwtool.so, and the system knows none",
            name="hwtool",
        )
    try:
        library = ctypes.CDLL(place)
    except OSError as error:
        raise ImportError(f"hwtool: {place} can't be loaded: {error}", name="hwtool", path=place) from error
    for call, types in _CALLS.items():
        function = getattr(library, call, None)
        if function is None:
            raise ImportError(f"hwtool: {place} has no call {call}", name="hwtool", path=place)
        function.argtypes = types
        function.restype = ctypes.c_uint32
    return library, place


LIBRARY, PLACE = _load()


def call(name: str, given: List[object], *answers: object) -> Tuple[int, RawRefusal]:
    """A call that answers no text: its status and its refusal."""
    refusal = RawRefusal()
    status = getattr(LIBRARY, name)(*given, *answers, ctypes.byref(refusal))
    return status, refusal


def claimed(name: str, given: List[object], verdict: RawVerdict) -> Tuple[int, RawRefusal, List[RawClaim]]:
    """A call that answers claims: its status, its refusal and the claims. It is made a second time where they are many."""
    refusal, needed, claims = RawRefusal(), ctypes.c_size_t(), (RawClaim * _FEW_CLAIMS)()
    while True:
        status = getattr(LIBRARY, name)(*given, ctypes.byref(verdict), claims, len(claims), ctypes.byref(needed), ctypes.byref(refusal))
        if status != TOO_SMALL:
            return status, refusal, claims[: needed.value]
        claims = (RawClaim * needed.value)()


def _room(length: int) -> mmap.mmap:
    """Memory of which only what is written takes any."""
    try:
        return mmap.mmap(-1, length, flags=mmap.MAP_PRIVATE | mmap.MAP_ANONYMOUS)
    except OSError as error:
        raise MemoryError(f"no memory for a text of {length} bytes") from error


def written(name: str, given: List[object], guess: int, *answers: object) -> Tuple[int, RawRefusal, bytes]:
    """A call that answers a text: its status, its refusal and the text. It is made once where the text fits into `guess` bytes,
    and else a second time with as many as are needed."""
    refusal, needed = RawRefusal(), ctypes.c_size_t()
    function = getattr(LIBRARY, name)
    try:
        buffer = _room(guess)
    except MemoryError:
        buffer = _room(1)
    while True:
        start = ctypes.c_char.from_buffer(buffer)
        status = function(*given, *answers, ctypes.addressof(start), len(buffer), ctypes.byref(needed), ctypes.byref(refusal))
        if status != TOO_SMALL:
            return status, refusal, buffer[: needed.value] if status == DONE else b""
        del start
        buffer = _room(needed.value)


def _told(name: str, *given: object) -> Optional[str]:
    """What a call tells that has few bytes; nothing where it tells nothing."""
    buffer, needed = ctypes.create_string_buffer(64), ctypes.c_size_t()
    while True:
        status = getattr(LIBRARY, name)(*given, ctypes.addressof(buffer), len(buffer), ctypes.byref(needed))
        if status == DONE:
            return buffer.raw[: needed.value].decode()
        if status != TOO_SMALL:
            return None
        buffer = ctypes.create_string_buffer(needed.value)


def name_of(number: int) -> Optional[str]:
    """The name of the refusal with this number, where there is one."""
    return _told("hwtool_name", number) if 0 <= number < 1 << 32 else None


def library_version() -> str:
    """The version of the library."""
    return _told("hwtool_version") or ""
