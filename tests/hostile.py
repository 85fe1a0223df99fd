#!/usr/bin/env python3
"""Runs the built program on hostile files: texts cut behind any byte, numbers that promise more than follows under little
memory, and lines, empty lines, names and numbers of many megabytes, in time linear in the bytes and, of witnesses, in
little memory.

    hostile.py [PROGRAM]

PROGRAM is crates/hwtool/out/hwtool where none is given, which `rt run` builds. What is wanted is worked out from the
formats. The status is 0 where all is as it should be, else 1.
"""

import os
import resource
import subprocess
import sys
import tempfile
import time

TOP = os.path.dirname(os.path.dirname(os.path.realpath(__file__)))
PROGRAM = f"{TOP}/crates/hwtool/out/hwtool"
# What a program under little memory may take, in bytes.
LITTLE = 24_000_000
# The greatest number in a circuit's header.
MOST = 1 << 30

TOGGLER = b"1 sort bitvec 1\n2 zero 1\n3 state 1 t\n4 init 1 3 2\n5 not 1 3\n6 next 1 3 5\n7 bad 3\n"
COUNTER = (
    b"1 sort bitvec 1\n2 sort bitvec 2\n3 zero 2\n4 state 2 c\n5 init 2 4 3\n6 inc 2 4\n7 next 2 4 6\n"
    b"8 const 2 11\n9 eq 1 4 8\n10 bad 9\n"
)
DELAYED = (
    b"1 sort bitvec 3\n2 sort bitvec 1\n3 input 1 x\n4 state 2 s\n5 slice 2 3 2 2\n6 next 2 4 5\n7 bad 4\n"
)
TOGGLES = b"aag 1 0 1 0 0 1\n2 3\n2\nl0 t[0]\n"
KEEPS = b"aag 2 0 2 0 0 1\n2 2 2\n4 4 4\n4\nl0 s[0]\nl1 s[1]\n"
GATE = b"aig 3 2 0 1 1\n6\n\x02\x02"
COUNTED = b"sat\nb0\n#0\n@0\n@1\n@2\n@3\n.\n"
RISES = b"1\nb0\n0\n\n\n.\n"


class Trial:
    """Runs the program in a folder of its own, and counts what is not as it should be."""

    def __init__(self, program, folder):
        self.program, self.folder = program, folder
        self.count = self.wrong = 0

    def file(self, name, text):
        with open(f"{self.folder}/{name}", "wb") as file:
            file.write(text)

    def run(self, words, memory=None):
        """The status, standard output and standard error of a run, and its seconds."""
        limit = lambda: memory and resource.setrlimit(resource.RLIMIT_AS, (memory, memory))
        begun = time.monotonic()
        ran = subprocess.run(
            [self.program, *words],
            cwd=self.folder,
            stdin=subprocess.DEVNULL,
            capture_output=True,
            preexec_fn=limit,
        )
        return (ran.returncode, ran.stdout, ran.stderr), time.monotonic() - begun

    def expect(self, name, words, wanted, memory=None):
        """Fails where a run does not end so, and tells its seconds."""
        given, seconds = self.run(words, memory)
        self.count += 1
        if given != wanted:
            self.wrong += 1
            print(f"{name}: {str(given)[:300]}, not {str(wanted)[:300]}")
        return seconds


def refused(line):
    """That an input is refused with a line."""
    return (2, b"", line.encode() + b"\n")


def malformed(line, why):
    """That a witness is none."""
    return (1, f"malformed line {line}: {why}\n".encode(), b"")


def cut_texts(trial):
    """Texts cut behind any byte: what is whole is taken, and else the cut line is told."""
    trial.file("counter", COUNTER)
    trial.file("toggles", TOGGLES)
    for text in (TOGGLER, COUNTER, DELAYED):
        for end in range(len(text)):
            front = text[:end]
            trial.file("cut", front)
            lines = front.count(b"\n")
            given, _ = trial.run(["show", "cut"])
            trial.count += 1
            whole = front == b"" or front.endswith(b"\n")
            wanted = f"cut: line {lines + 1}: 28 Unfinished\n".encode()
            if whole and (given[0] != 0 or not given[1].startswith(front + f"; {lines} items,".encode())):
                trial.wrong += 1
                print(f"a model cut behind {end} bytes: {given}")
            if not whole and given != (2, b"", wanted):
                trial.wrong += 1
                print(f"a model cut behind {end} bytes: {given}, not {wanted}")
    for text, needed in ((TOGGLES, 3), (KEEPS, 4), (b"aag 3 2 0 1 1\n2\n4\n6\n6 4 2\n", 5)):
        for end in range(len(text)):
            front = text[:end]
            trial.file("cut", front)
            place = front.rfind(b"\n") + 1
            if place == end and front.count(b"\n") >= needed:
                trial.expect(f"a circuit cut behind {end} bytes", ["aig-convert", "cut"], (0, front, b""))
            else:
                wanted = refused(f"cut: byte {place}: 58 Truncated")
                trial.expect(f"a circuit cut behind {end} bytes", ["aig-convert", "cut"], wanted)
    for end in range(len(GATE)):
        trial.file("cut", GATE[:end])
        place = 0 if end < 14 else 14 if end < 16 else end
        wanted = refused(f"cut: byte {place}: 58 Truncated")
        trial.expect(f"a binary circuit cut behind {end} bytes", ["aig-convert", "cut"], wanted)
    for command, first, text in (("check-btor", "counter", COUNTED), ("check-aig", "toggles", RISES)):
        for end in range(len(text)):
            trial.file("cut", text[:end])
            wanted = malformed(text[:end].count(b"\n") + 1, "118 Truncated")
            trial.expect(f"a witness cut behind {end} bytes", [command, first, "cut"], wanted)


def promising_numbers(trial):
    """Numbers that promise more than follows, under little memory: no list is made by them."""
    fields = ["inputs", "latches", "outputs", "gates", "bad", "constraints", "justice", "fairness"]
    for form in ("aag", "aig"):
        for at, field in enumerate(fields):
            numbers = [0] * 9
            numbers[at + 1] = MOST
            numbers[0] = MOST if field in ("inputs", "latches", "gates") else 0
            text = (form + " " + " ".join(map(str, numbers)) + "\n").encode()
            trial.file("promise", text)
            wanted = refused(f"promise: byte {len(text)}: 58 Truncated")
            words = ["aig-convert", "--binary", "promise"]
            if form == "aig" and field == "inputs":
                # inputs have no lines in the binary form, so this is a circuit
                wanted = (0, b"aig 1073741824 1073741824 0 0 0\n", b"")
            trial.expect(f"{form} of many {field}", words, wanted, LITTLE)
        for size in (MOST, 1_000_000):
            text = f"{form} 0 0 0 0 0 0 0 1\n{size}\n".encode()
            trial.file("promise", text)
            wanted = refused(f"promise: byte {len(text)}: 58 Truncated")
            trial.expect(f"{form} of a large justice", ["aig-convert", "promise"], wanted, LITTLE)
    trial.file("promise", b"aag 1073741824 0 0 0 0\n")
    trial.expect("a large M", ["aig-convert", "promise"], (0, b"aag 0 0 0 0 0\n", b""), LITTLE)
    trial.file("promise", b"aag 1073741824 1 0 1 0\n2147483648\n2147483648\n")
    trial.expect("a large literal", ["aig-convert", "promise"], (0, b"aag 1 1 0 1 0\n2\n2\n", b""), LITTLE)
    for count in (18446744073709551615, 18446744073709551614, 1_000_000_000):
        trial.file("promise", f"1 sort bitvec 1\n2 input 1\n3 justice {count} 2\n".encode())
        wanted = refused("promise: line 3: 20 BadToken")
        trial.expect(f"a justice line of {count}", ["show", "promise"], wanted, LITTLE)
    trial.file("promise", b"1 sort bitvec 18446744073709551617\n")
    trial.expect("a wide sort", ["show", "promise"], refused("promise: line 1: 5 WidthOutOfRange"), LITTLE)
    trial.file("promise", b"4294967295 sort bitvec 1\n4294967294 input 4294967295\n")
    shown = b"; 2 items, 1 inputs, 0 states, 0 bad, 0 constraints\n"
    wanted = (0, b"4294967295 sort bitvec 1\n4294967294 input 4294967295\n" + shown, b"")
    trial.expect("large ids", ["show", "promise"], wanted, LITTLE)
    trial.file("delayed", DELAYED)
    for lines, line, why in (
        ("b18446744073709551615\n", 2, "111 BadClaim"),
        ("b0\n@18446744073709551615\n", 3, "113 FrameOrder"),
        ("b0\n#18446744073709551615\n", 3, "113 FrameOrder"),
        ("b0\n@0\n18446744073709551615 000\n", 4, "114 BadIndex"),
        ("b0\n@0\n18446744073709551616 000\n", 4, "114 BadIndex"),
    ):
        trial.file("promise", b"sat\n" + lines.encode())
        words = ["check-btor", "delayed", "promise"]
        trial.expect(f"a witness with {lines!r}", words, malformed(line, why), LITTLE)
    trial.file("promise", b"1\nb18446744073709551616\n")
    wanted = malformed(2, "111 BadClaim")
    trial.expect("a large claim", ["check-aig", "toggles", "promise"], wanted, LITTLE)


def long_texts():
    """Names, words, a function from a number of bytes to the text of the last file, what is wanted, and whether little memory
    is enough: a witness is judged while it is read."""
    many = lambda front, byte, end=b"\n": lambda size: front + byte * size + end
    shown = (0, b"; 0 items, 0 inputs, 0 states, 0 bad, 0 constraints\n", b"")
    line = lambda number, why: refused(f"long: line {number}: {why}")
    byte = lambda place, why: refused(f"long: byte {place}: {why}")
    show, convert = ["show", "long"], ["aig-convert", "long"]
    words, bits = ["check-btor", "delayed", "long"], ["check-aig", "toggles", "long"]
    lift, vectors = ["lift", "toggler", "long"], ["vectors", "long"]
    front = b"1 sort bitvec 1\n2 input 1 "
    delayed = b"sat\nb0\n@0\n"
    yield "a model's comment", show, many(b";", b"a"), shown, False
    yield "a model's blanks", show, many(b"", b" "), shown, False
    yield "a model's empty lines", show, many(b"", b"\n", b""), shown, False
    yield "a model's token", show, many(b"", b"a"), line(1, "20 BadToken"), False
    yield "a model's number", show, many(b"1 sort bitvec 1", b"0"), line(1, "5 WidthOutOfRange"), False
    yield "a model's binary digits", show, many(b"1 sort bitvec 1\n2 const 1 ", b"1"), line(2, "25 ConstantDoesNotFit"), False
    yield "a model's decimal", show, many(b"1 sort bitvec 1\n2 constd 1 ", b"1"), line(2, "25 ConstantDoesNotFit"), False
    yield "a model's name", show, many(front, b"a"), line(2, "26 BadSymbol"), False
    yield "a circuit's header", convert, many(b"aag 1", b"0"), byte(0, "50 BadHeader"), False
    yield "a circuit's number", convert, many(b"aag 0 0 0 1 0\n1", b"0"), byte(14, "52 BadNumber"), False
    yield "a circuit's name", convert, many(b"aag 1 1 0 0 0\n2\ni0 ", b"a"), byte(16, "57 BadSymbol"), False
    yield "a circuit's empty lines", convert, many(b"aag 0 0 0 0 0\n", b"\n"), byte(14, "57 BadSymbol"), False
    yield "a circuit's comment", convert, many(b"aag 0 0 0 0 0\nc\n", b"a", b""), (0, b"aag 0 0 0 0 0\n", b""), False
    yield "a binary circuit's delta", convert, many(b"aig 3 2 0 0 1\n", b"\xff", b""), byte(14, "56 DeltaTooLong"), False
    yield "a witness's comment", words, many(b";", b"a"), malformed(2, "118 Truncated"), True
    yield "a witness's empty lines", words, many(b"", b"\n", b""), malformed(1, "110 BadHeader"), True
    yield "a witness's number", words, many(delayed + b"1", b"0", b" 000\n"), malformed(4, "114 BadIndex"), True
    yield "a witness's value", words, many(delayed + b"0 ", b"1"), malformed(4, "116 BadValue"), True
    yield "a witness's unfinished value", words, many(delayed + b"0 ", b"1", b""), malformed(4, "118 Truncated"), True
    yield "a witness's name", words, many(delayed + b"0 000 ", b"a"), malformed(4, "121 BadSymbol"), True
    yield "a witness's frame", words, many(b"sat\nb0\n@1", b"0"), malformed(3, "113 FrameOrder"), True
    yield "a witness's claim", words, many(b"sat\nb1", b"0"), malformed(2, "111 BadClaim"), True
    yield "a witness without a claim", words, many(b"unsat\n", b"a", b""), (1, b"no claim\n", b""), True
    yield "a circuit's witness's line", bits, many(b"1\nb0\n", b"0"), malformed(3, "116 BadValue"), True
    yield "a circuit's witness's claim", bits, many(b"1\nb1", b"0"), malformed(2, "111 BadClaim"), True
    yield "a circuit's witness's header", bits, many(b"1", b"1"), malformed(1, "110 BadHeader"), True
    yield "a lifted witness's line", lift, many(b"1\nb0\n", b"0"), (
        1,
        b"sat\nb0\n",
        b"malformed line 3: 116 BadValue\n",
    ), True
    yield "a vector's number", vectors, many(b"add 8 1", b"0", b" 1 2\n"), refused("long: line 1: bad vector"), False
    yield "a vector's word", vectors, many(b"", b"a"), refused("long: line 1: bad vector"), False
    yield "empty lines of vectors", vectors, many(b"", b"\n", b""), refused("long: line 1: bad vector"), False


def long_lines(trial, small, large):
    """Long texts of two sizes, the larger in no more than twice the time that its length tells, and a second."""
    trial.file("delayed", DELAYED)
    trial.file("toggles", TOGGLES)
    trial.file("toggler", TOGGLER)
    for name, words, text, wanted, is_streamed in long_texts():
        memory = LITTLE if is_streamed else None
        seconds = []
        for size in (small, large):
            trial.file("long", text(size))
            seconds.append(trial.expect(f"{name} of {size} bytes", words, wanted, memory))
        trial.count += 1
        if seconds[1] > 1 + 2 * seconds[0] * large / small:
            trial.wrong += 1
            print(f"{name}: {seconds[0]:.2f} s for {small} bytes, {seconds[1]:.2f} s for {large}")
    frames = []
    for size in (small, large):
        trial.file("long", b"1\nb0\n0\n" + b"\n" * size + b".\n")
        wanted = (0, f"accepted {size} frames\n".encode(), b"")
        frames.append(trial.expect(f"{size} frames", ["check-aig", "toggles", "long"], wanted, LITTLE))
    trial.count += 1
    if frames[1] > 1 + 2 * frames[0] * large / small:
        trial.wrong += 1
        print(f"frames: {frames[0]:.2f} s for {small}, {frames[1]:.2f} s for {large}")


def main():
    program = os.path.abspath(sys.argv[1]) if len(sys.argv) > 1 else PROGRAM
    if not os.path.exists(program):
        print(f"{program} is not built: run rt run in crates/hwtool")
        return 1
    with tempfile.TemporaryDirectory() as folder:
        trial = Trial(program, folder)
        cut_texts(trial)
        promising_numbers(trial)
        long_lines(trial, 10_000_000, 100_000_000)
    print(f"{trial.wrong} of {trial.count} failed" if trial.wrong else f"{trial.count} passed")
    return 1 if trial.wrong else 0


if __name__ == "__main__":
    sys.exit(main())
