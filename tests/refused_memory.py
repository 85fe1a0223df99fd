#!/usr/bin/env python3
"""Refuses each allocation of a run in turn, until a run meets no refusal, of each command of the built program and of the
tests on refused memory, and tells each run whose answer is neither the undisturbed one nor the refusal.

    refused_memory.py [PROGRAM [TESTS ..]]

PROGRAM is crates/hwtool/out/hwtool where none is given, which `rt run` builds, and TESTS are those of library_tests and
upper_tests, which `rt test` builds in their out/; where these are not built, they are left out. It takes a C compiler, cc. The
status is 0 where all is as it should be, else 1.
"""

import os
import subprocess
import sys
import tempfile

TOP = os.path.dirname(os.path.dirname(os.path.realpath(__file__)))
PROGRAM = f"{TOP}/crates/hwtool/out/hwtool"
TESTS = [f"{TOP}/crates/{name}/out/{name}_tests" for name in ("library_tests", "upper_tests")]
NO_MEMORY = b"no memory\n"

# The files that commands are run on.
FILES = {
    "toggler": b"1 sort bitvec 1\n2 zero 1\n3 state 1 t\n4 init 1 3 2\n5 not 1 3\n6 next 1 3 5\n7 bad 3\n",
    "counter": b"1 sort bitvec 1\n2 sort bitvec 2\n3 zero 2\n4 state 2 c\n5 init 2 4 3\n6 inc 2 4\n7 next 2 4 6\n"
    b"8 const 2 11\n9 eq 1 4 8\n10 bad 9\n",
    "follower": b"1 sort bitvec 1\n2 state 1 f\n3 state 1 s\n4 input 1 x\n5 next 1 3 2\n6 bad 3\n",
    # enough gates that room is made for those to come
    "sums": b"1 sort bitvec 16\n2 input 1 a\n3 input 1 b\n4 add 1 2 3\n5 sub 1 4 3\n6 mul 1 4 5\n7 udiv 1 6 2\n8 output 7\n",
    "no_next": b"1 sort bitvec 1\n2 zero 1\n3 state 1\n4 init 1 3 2\n",
    "fair": b"1 sort bitvec 1\n2 input 1\n3 fair 2\n",
    "wide": b"1 sort bitvec 65\n",
    "toggles": b"aag 1 0 1 0 0 1\n2 3\n2\nl0 t[0]\n",
    "gate": b"aig 3 2 0 1 1\n6\n\x02\x02",
    "any_order": b"aag 7 2 0 1 2 0 0 2\n2\n4\n12\n2\n0\n5\n4\n12 14 3\n14 2 5\nj0 both\n",
    "cycle": b"aag 3 1 0 1 2\n2\n4\n4 6 2\n6 4 2\n",
    "counted": b"sat\nb0\n#0\n@0\n@1\n@2\n@3\n.\n",
    "not_reached": b"sat\nb0\n@0\n@1\n@2\n.\n",
    "cut": b"sat\nb0\n@0\n",
    "rises": b"1\nb0\n0\n\n\n.\n",
    "differs": b"1\nb0\n1\n\n.\n",
    "followed": b"1\nb0\n0\n01\n00\n.\n",
    "bad_frame": b"1\nb0\n0\nz\n",
    "found": b"0\n0\n0# DONE\n",
    "spoilt": b"0\n0\nx\n",
    "of_form": b"1\nb0\n0\n0\n0\n.\n",
    "wraps": b"1 sort bitvec 1\n2 sort bitvec 4\n3 zero 2\n4 state 2 c\n5 init 2 4 3\n6 inc 2 4\n7 const 2 0111\n8 and 2 6 7\n9 next 2 4 8\n10 slice 1 4 3 3\n11 bad 10\n",
    "never": b".i 1\n.o 1\n.p 1\n.ilb lo3\n.ob inv\n1 1\n.e\n",
    "first": b".i 1\n.o 1\n.p 1\n.ilb lo3\n.ob inv\n0 1\n.e\n",
    "proof": b"-12 0\n-16 0\nd -16 5 0\n-17 0\nd -17 -15 0\n0\nd 16 17 0\n",
    "unproved": b"-12 0\n1 0\n",
    "vectors": b"udiv 8 200 0 255\ninc 8 255 0\n",
    "differing": b"add 8 1 1 3\nsmulo 4 7 7 1\n",
    "no_vector": b"eq 8 5 5 1\niff 2 1 1 1\n",
}

# Commands, done and refused ones. A command without words reads the toggler.
COMMANDS = [
    [],
    ["--help"],
    ["--version"],
    ["lower", "--help"],
    ["frobnicate"],
    ["lower"],
    ["lower", "--ascii", "--binary", "toggler"],
    ["check-btor", "-", "-"],
    ["lower", "counter"],
    ["lower", "--binary", "follower"],
    ["lower", "--binary", "sums"],
    ["lower", "no_next"],
    ["lower", "fair"],
    ["lower", "wide"],
    ["lower", "missing"],
    ["show", "counter"],
    ["show", "wide"],
    ["cost", "counter"],
    ["cost", "wide"],
    ["aig-convert", "toggles"],
    ["aig-convert", "--binary", "any_order"],
    ["aig-convert", "gate"],
    ["aig-convert", "cycle"],
    ["lower", "--engine", "counter"],
    ["lower", "--engine", "--binary", "sums"],
    ["lower", "--engine", "--bad", "1", "counter"],
    ["lower", "--engine", "fair"],
    ["aig-convert", "--engine", "--bad", "0", "toggles"],
    ["aig-convert", "--engine", "any_order"],
    ["explain", "20"],
    ["check-btor", "counter", "counted"],
    ["check-btor", "counter", "not_reached"],
    ["check-btor", "counter", "cut"],
    ["check-btor", "no_next", "counted"],
    ["check-btor", "counter", "missing"],
    ["check-aig", "toggles", "rises"],
    ["check-aig", "toggles", "differs"],
    ["check-aig", "cycle", "rises"],
    ["lift", "toggler", "rises"],
    ["lift", "follower", "followed"],
    ["lift", "toggler", "bad_frame"],
    ["lift", "fair", "rises"],
    ["lift", "--names", "follower", "followed"],
    ["check-btor", "--names", "counter", "not_reached"],
    ["check-btor", "--names", "counter", "counted"],
    ["check-aig", "--names", "toggles", "rises"],
    ["aig-convert", "--outputs", "toggles"],
    ["aig-convert", "--outputs", "--engine", "toggles"],
    ["tidy-witness", "counted"],
    ["check-aig", "--names", "toggles", "differs"],
    ["restore", "--abc", "toggles", "found"],
    ["restore", "--abc", "--bad", "0", "toggles", "spoilt"],
    ["restore", "--abc", "any_order", "found"],
    ["restore", "toggles", "of_form"],
    ["lift", "--engine", "--abc", "toggler", "found"],
    ["lift", "--engine", "--abc", "--names", "toggler", "spoilt"],
    ["lift", "--engine", "toggler", "of_form"],
    ["obligation", "wraps", "never"],
    ["obligation", "wraps", "first"],
    ["obligation", "--bad", "1", "wraps", "never"],
    ["check-proof", "wraps", "never", "proof"],
    ["check-proof", "wraps", "never", "unproved"],
    ["check-proof", "wraps", "first", "proof"],
    ["check-proof", "--aiger", "toggles", "never", "proof"],
    ["check-proof", "--names", "wraps", "never", "proof"],
    ["wave", "counter", "counted"],
    ["wave", "--all", "counter", "cut"],
    ["wave", "no_next", "counted"],
    ["vectors", "vectors"],
    ["vectors", "differing"],
    ["vectors", "no_vector"],
]


class Refuser:
    """Runs programs of which allocations are refused."""

    def __init__(self, folder):
        self.folder = folder
        self.library = f"{folder}/refuse.so"
        self.note = f"{folder}/refused"
        source = f"{TOP}/tests/refuse_allocations.c"
        subprocess.run(["cc", "-shared", "-fPIC", "-O2", "-o", self.library, source], check=True)

    def run(self, words, number=0, rest=False):
        """The status, standard output and standard error of a run, and whether an allocation was refused."""
        environment = {"LD_PRELOAD": self.library, "REFUSED": self.note, "REFUSE": str(number)}
        if rest:
            environment["REFUSE_REST"] = "1"
        if os.path.exists(self.note):
            os.remove(self.note)
        given = FILES["toggler"] if len(words) == 1 else b""
        ran = subprocess.run(
            words, cwd=self.folder, env=environment, input=given, capture_output=True, timeout=60
        )
        return (ran.returncode, ran.stdout, ran.stderr), os.path.exists(self.note)

    def sweep(self, name, words, is_right, rest):
        """How many allocations were refused, and how many runs were wrong, which are told."""
        whole, _ = self.run(words)
        number, wrong = 0, 0
        while True:
            number += 1
            given, was_refused = self.run(words, number, rest)
            if not is_right(given, whole):
                wrong += 1
                which = "all from" if rest else "only"
                print(f"{name}: {which} allocation {number} refused: {given}, undisturbed {whole}")
            if not was_refused:
                return number - 1, wrong


def is_answer(given, whole):
    """Whether a command answers as it does undisturbed, or tells that memory was wanting, and has written nothing or, where
    only the last line was wanting, all of it."""
    status, written, told = given
    return given == whole or (status == 3 and told == NO_MEMORY and written in (b"", whole[1]))


def passes(given, whole):
    """Whether a test passes."""
    return given[0] == 0 and whole[0] == 0


def does_not_fail(given, whole):
    """Whether no claim of a test fails: what it stands on may be refused, which ends it with a status of its own."""
    return given[0] in (0, 1, 101) and whole[0] == 0


def main():
    program = os.path.abspath(sys.argv[1]) if len(sys.argv) > 1 else PROGRAM
    all_tests = [os.path.abspath(tests) for tests in sys.argv[2:]]
    if not all_tests:
        all_tests = [tests for tests in TESTS if os.path.exists(tests)]
        for tests in TESTS:
            if tests not in all_tests:
                print(f"left out: {os.path.basename(tests)}, which rt test builds in its crate")
    refused, wrong = 0, 0
    with tempfile.TemporaryDirectory() as folder:
        for name, text in FILES.items():
            with open(f"{folder}/{name}", "wb") as file:
                file.write(text)
        refuser = Refuser(folder)
        sweeps = []
        if os.path.exists(program):
            for words in COMMANDS:
                sweeps.append((" ".join(words) or "no words", [program, *words], is_answer, False))
                sweeps.append((" ".join(words) or "no words", [program, *words], is_answer, True))
        else:
            print(f"{program} is not built: run rt run in crates/hwtool")
            wrong += 1
        for tests in all_tests:
            if not os.path.exists(tests):
                print(f"{tests} is not built: run rt test in its crate")
                wrong += 1
                continue
            listed = subprocess.run([tests, "--list"], capture_output=True, text=True).stdout
            for line in listed.split():
                name = line.rstrip(":")
                if name.startswith("refused_memory::"):
                    sweeps.append((name, [tests, name], passes, False))
                if name.startswith("no_memory_left::"):
                    sweeps.append((name, [tests, name], does_not_fail, False))
                    sweeps.append((name, [tests, name], does_not_fail, True))
        for name, words, is_right, rest in sweeps:
            more, bad = refuser.sweep(name, words, is_right, rest)
            refused += more
            wrong += bad
    print(f"{len(sweeps)} runs, {refused} allocations refused, {wrong} wrong")
    return 1 if wrong else 0


if __name__ == "__main__":
    sys.exit(main())
