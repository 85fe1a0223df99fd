"""Tries the calls of the library for C programs over the texts of the gate's rows: c_library.py LIBRARY PROGRAM.

Each row of a command that the library has a call for must be answered as the row says; so must it with a buffer that is one
byte too small, and then with one that fits. The first rows of each command are also tried cut after each byte of each file,
and compared with what the program prints and answers then. The last line tells how many were tried, and how many were wrong."""
import ctypes
import os
import re
import struct
import subprocess
import sys
import tempfile

import rows

CUT_ROWS = 4
# What the bytes of a text are for calls that answer claims: as many make a claim.
CLAIM = 16
# What the program says by name of a claim of an accepted witness.
REACHED = re.compile(rb"(?m)^b\d+ is reached in frame \d+\n")
# What it says behind a judgement of an engine form whose making the words do not tell.
TAKEN = re.compile(rb"(?m)^taken as made for [^\n]*\n")
# A position as the program reads it; any other word is a name.
POSITION = re.compile(r"0|[1-9]\d*")


class Verdict(ctypes.Structure):
    _fields_ = [("kind", ctypes.c_uint32), ("why", ctypes.c_uint32), ("first", ctypes.c_uint64), ("second", ctypes.c_uint64)]


class Refusal(ctypes.Structure):
    _fields_ = [("number", ctypes.c_uint32), ("place", ctypes.c_uint64)]


library = ctypes.CDLL(sys.argv[1])
size = ctypes.c_size_t


def of(text):
    return text, size(len(text))


def name(number):
    """The name of a refusal."""
    needed = size()
    buffer = ctypes.create_string_buffer(64)
    status = library.hwtool_name(ctypes.c_uint32(number), buffer, size(64), ctypes.byref(needed))
    return buffer.raw[: needed.value].decode() if status == 0 else "?"


def numbered(number):
    return f"{number} {name(number)}"


def judgement(verdict):
    """The line that the program prints for a verdict on a witness."""
    return {
        0: f"accepted {verdict.first} frames",
        1: f"not reached: b{verdict.first}",
        2: f"violated: frame {verdict.first}, constraint {verdict.second}",
        3: f"initial value differs at {verdict.first}",
        4: f"malformed line {verdict.first}: {numbered(verdict.why) if verdict.kind == 4 else ''}",
        5: "no claim",
        8: f"not claimed: b{verdict.first}",
    }[verdict.kind] + "\n"


def proof_judgement(verdict, bad):
    """The line that the program prints for a verdict on a proof of this bad property."""
    return {
        0: f"holds: b{bad}",
        4: f"malformed line {verdict.first}: {numbered(verdict.why) if verdict.kind == 4 else ''}",
        6: f"not implied line {verdict.first}",
        7: "not derived",
    }[verdict.kind] + "\n"


def place_of(status, refusal, circuit):
    """Where a refusal is, as the program tells it."""
    if status == 2:
        return f"byte {refusal.place}: " if circuit else f"line {refusal.place}: "
    return f"item {refusal.place}: " if refusal.place else ""


def filled(call, given, behind, room, unit):
    """A call with a buffer of so many bytes, or of so many units of bytes: its status, how many it needs, its refusal and the text.
    What is to stay of the buffer does: behind the text, and all of it where there is none."""
    refusal, needed = Refusal(), size(0)
    before = (b"\x00\xff\x5a\n" * (unit * room // 4 + 3))[: unit * room + 8]
    buffer = ctypes.create_string_buffer(before, len(before))
    status = call(*given, *behind, buffer, size(room), ctypes.byref(needed), ctypes.byref(refusal))
    text = buffer.raw[: unit * needed.value] if status == 0 else b""
    assert len(text) <= unit * room and buffer.raw[len(text) :] == before[len(text) :], "bytes that are to stay are written"
    return status, needed.value, refusal, text


def reached(claims):
    """The lines that the program prints for claims."""
    return b"".join(b"b%d is reached in frame %d\n" % claim for claim in struct.iter_unpack("QQ", claims))


def called(call, given, verdict, unit, circuit, file, invariant=None, bad=None):
    """What the program would answer, by a call: status, standard output, standard error. A call that answers a text, or units of so
    many bytes, is made with buffers that are too small, that are as long as it, and that are longer."""
    found, refusal, result = Verdict(), Refusal(), b""
    behind = [ctypes.byref(found)] if verdict else []
    if unit:
        status, needed, refusal, result = filled(call, given, behind, 0, unit)
        for room in (needed - 1, needed + 7, needed) if status in (0, 1) else ():
            if room >= 0:
                status, again, refusal, result = filled(call, given, behind, room, unit)
                assert (status, again) == (1 if room < needed else 0, needed), "a text is told as too long, or as another one"
    else:
        status = call(*given, *behind, ctypes.byref(refusal))
    if status in (2, 3):
        # a formula that is too big is told of the invariant
        about = invariant if refusal.number == 196 else file
        return 2, b"", f"{about}: {place_of(status, refusal, circuit)}{numbered(refusal.number)}\n".encode()
    if status == 5:
        place = "" if 210 <= refusal.number < 217 else f"{'byte' if refusal.number < 160 else 'line'} {refusal.place}: "
        return 2, b"", f"{invariant}: {place}{numbered(refusal.number)}\n".encode()
    assert status == 0, f"status {status}"
    told = b"" if not verdict else (judgement(found) if bad is None else proof_judgement(found, bad)).encode()
    code = 0 if not verdict or found.kind == 0 else 1
    return (code, told, reached(result)) if unit == CLAIM else (code, result, told) if unit else (code, told, b"")


def checked(plain, with_claims, first, choice, second, circuit, file, by_name):
    """What the library answers in place of the program of a witness, with its claims by name. Where no bad property is chosen, both
    calls say the same."""
    status, out, told = called(with_claims, (*first, *choice, *second), True, CLAIM, circuit, file)
    refused = told if status == 2 else b""
    if not choice[0].value:
        assert called(plain, (*first, *second), True, 0, circuit, file) == (status, out, refused), "two calls differ"
    return status, out, told if by_name else refused


def cost(first, file):
    gates, variables, refusal = ctypes.c_uint64(), ctypes.c_uint64(), Refusal()
    status = library.hwtool_cost(*of(first), ctypes.byref(gates), ctypes.byref(variables), ctypes.byref(refusal))
    if status == 2:
        return 2, b"", f"{file}: line {refusal.place}: {numbered(refusal.number)}\n".encode()
    return 0, f"gates {gates.value}\nvariables {variables.value}\n".encode(), b""


# The flags that commands have in rows that the library has a call for, and how many files.
FLAGS = {
    "check-btor": (("--names", "--fit"), 2), "check-aig": (("--names",), 2), "lower": (("--ascii", "--binary"), 1),
    "aig-convert": (("--ascii", "--binary"), 1), "lift": (("--engine", "--abc", "--names", "--fit"), 2), "restore": (("--abc",), 2),
    "wave": (("--all",), 2), "cost": ((), 1), "fit": ((), 1), "unfit": (("--names", "--back"), 2),
    "obligation": (("--aiger", "--circuit", "--engine"), 2), "check-proof": (("--aiger", "--circuit", "--engine", "--lrat"), 3),
}  # fmt: skip


def asked(words):
    """The command, its flags, the bad property that is chosen and the names of its files; None where no call does that."""
    command, flags, names, bad, rest = words[0], [], [], None, iter(words[1:])
    for word in rest:
        if word == "--bad":
            bad = next(rest)
        elif word.startswith("-"):
            flags.append(word)
        else:
            names.append(word)
    known, files = FLAGS.get(command, ((), None))
    if len(names) != files or len(set(flags)) != len(flags) or not set(known).issuperset(flags) or any("/" in name for name in names):
        return None
    # calls take a bad property by its position
    if bad is not None and not POSITION.fullmatch(bad):
        return None
    bad = None if bad is None else int(bad)
    # what is printed by name of a witness of the circuit itself has no call
    if {"--ascii", "--binary"}.issubset(flags) or (command == "lift" and flags and not {"--engine", "--fit"}.intersection(flags)):
        return None
    return command, flags, bad, names


def answer(command, flags, bad, names, texts):
    """What the library answers in place of the program."""
    first, second, third = ([*map(of, texts)] + [(), ()])[:3]
    file, circuit = names[0], command in ("check-aig", "aig-convert", "restore") or "--aiger" in flags
    binary, by_name = ctypes.c_bool("--binary" in flags), ctypes.c_bool("--names" in flags)
    # without a choice the only one is meant
    over, has_hints = (ctypes.c_bool("--aiger" in flags), ctypes.c_bool("--engine" in flags)), ctypes.c_bool("--lrat" in flags)
    position, choice = size(bad or 0), (ctypes.c_bool(bad is not None), size(bad or 0))
    if command in ("check-btor", "check-aig"):
        call = f"hwtool_{command.replace('-', '_')}{'_fit' if '--fit' in flags else ''}"
        plain, with_claims = (getattr(library, f"{call}{behind}") for behind in ("", "_claims"))
        return checked(plain, with_claims, first, choice, second, circuit, file, by_name.value)
    if command == "lower":
        return called(library.hwtool_lower, (*first, binary), False, 1, circuit, file)
    if command == "fit":
        return called(library.hwtool_fit, first, False, 1, circuit, file)
    if command == "unfit" and "--back" in flags:
        return called(library.hwtool_unfit_back, (*first, *second), True, 1, circuit, file)
    if command == "unfit":
        return called(library.hwtool_unfit, (*first, by_name, *second), True, 1, circuit, file)
    if command == "aig-convert":
        return called(library.hwtool_convert, (*first, binary), False, 1, circuit, file)
    if command == "restore" and "--abc" in flags:
        return called(library.hwtool_restore_abc, (*first, position, *second), True, 1, circuit, file)
    if command == "restore":
        return called(library.hwtool_restore, (*first, *choice, *second), True, 1, circuit, file)
    if command == "lift" and "--abc" in flags:
        call = library.hwtool_lift_engine_abc_fit if "--fit" in flags else library.hwtool_lift_engine_abc
        return called(call, (*first, position, by_name, *second), True, 1, circuit, file)
    if command == "lift" and "--engine" in flags:
        call = library.hwtool_lift_engine_fit if "--fit" in flags else library.hwtool_lift_engine
        return called(call, (*first, *choice, by_name, *second), True, 1, circuit, file)
    if command == "lift" and "--fit" in flags:
        return called(library.hwtool_lift_fit, (*first, by_name, *second), True, 1, circuit, file)
    if command == "lift":
        return called(library.hwtool_lift, (*first, *second), True, 1, circuit, file)
    if command == "wave":
        title = f"{names[0]} {names[1]}".encode()
        every = ctypes.c_bool("--all" in flags)
        return called(library.hwtool_wave, (*first, every, *of(title), *second), True, 1, circuit, file)
    if command == "obligation" and "--circuit" in flags:
        return called(library.hwtool_obligation_circuit, (*first, *over, position, *second), False, 1, circuit, file, names[1])
    if command == "check-proof" and "--circuit" in flags:
        given = (*first, *over, position, *second, has_hints, *third)
        return called(library.hwtool_check_proof_circuit, given, True, 0, circuit, file, names[1], bad or 0)
    if command == "obligation":
        call = library.hwtool_obligation_aig if circuit else library.hwtool_obligation
        return called(call, (*first, position, *second), False, 1, circuit, file, names[1])
    if command == "check-proof":
        call = library.hwtool_check_proof_aig if circuit else library.hwtool_check_proof
        return called(call, (*first, position, *second, has_hints, *third), True, 0, circuit, file, names[1], bad or 0)
    return cost(texts[0], file)


def printed(program, words, names, texts, folder):
    """What the program answers and prints."""
    for name_, text in zip(names, texts):
        with open(os.path.join(folder, name_), "wb") as file:
            file.write(text)
    done = subprocess.run([program, *words], cwd=folder, capture_output=True)
    return done.returncode, done.stdout, done.stderr


def without_names(command, flags, told):
    """What the program tells, without the lines that say what a judgement is about, or what a form is taken for, which no call does;
    of a witness that is checked with those that say when claims are reached."""
    status, out, err = told[0], told[1], TAKEN.sub(b"", told[2])
    if "--names" not in flags or status == 2:
        return status, out, err
    return status, out, b"".join(REACHED.findall(err)) if command.startswith("check") else err.split(b"\n")[0] + b"\n"


def main():
    program = os.path.abspath(sys.argv[2])
    tried, wrong, cut = 0, 0, {}

    def compare(about, expected, got):
        nonlocal tried, wrong
        tried += 1
        if expected != got:
            wrong += 1
            print(f"{about}: expected {expected}, got {got}")

    with tempfile.TemporaryDirectory() as folder:
        for row in rows.read_rows():
            words = [word.decode(errors="replace") for word in row.words]
            # with status 4 the program refuses words
            found = asked(words) if words and row.status != 4 else None
            if found is None:
                continue
            command, flags, bad, names = found
            texts = row.files[: len(names)]
            if None in texts:
                continue
            compare(" ".join(words), without_names(command, flags, (row.status, row.out, row.err)), answer(*found, texts))
            kind = command, *sorted(set(flags) & {"--abc", "--engine", "--aiger"})
            if cut.setdefault(kind, 0) == CUT_ROWS or max(map(len, texts)) > 600:
                continue
            cut[kind] += 1
            for which in range(len(texts)):
                for end in range(len(texts[which])):
                    shorter = [*texts[:which], texts[which][:end], *texts[which + 1 :]]
                    told = printed(program, words, names, shorter, folder)
                    # a shorter text may have several bad properties, and then the words leave it open
                    if told[0] == 4:
                        continue
                    compare(f"{words}, file {which + 1} cut after {end}", without_names(command, flags, told), answer(*found, shorter))
    print(f"rows and cuts: {tried} tried, {wrong} wrong")
    return wrong != 0


sys.exit(main())
