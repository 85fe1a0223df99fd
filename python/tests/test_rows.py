"""Each row of the gate whose command the package has a call for, by the paths of its files and by their bytes."""

import os
import pathlib
import re
import sys
import tempfile
import unittest

HERE = pathlib.Path(__file__).resolve().parent
sys.path.insert(0, str(HERE.parents[1] / "tests"))
if not os.environ.get("HWTOOL_TEST_INSTALLED"):
    sys.path.insert(0, str(HERE.parent))

import hwtool  # noqa: E402
from rows import read_rows  # noqa: E402

FILES = {
    "check-btor": 2, "check-aig": 2, "lower": 1, "cost": 1, "aig-convert": 1, "lift": 2, "wave": 2, "obligation": 2,
    "check-proof": 3, "restore": 2, "fit": 1, "unfit": 2,
}  # fmt: skip
# the flags of commands, beside the two forms of circuits, that a call answers to
FLAGS = {
    "check-btor": {"--names", "--fit"}, "unfit": {"--names", "--back"}, "check-aig": {"--names"}, "wave": {"--all"}, "aig-convert": {"--engine"},
    "lift": {"--engine", "--abc", "--names"}, "restore": {"--abc"}, "obligation": {"--aiger"}, "check-proof": {"--aiger", "--lrat"},
}  # fmt: skip
# the forms of commands that calls of their own answer to
FORMS = {
    ("lift",), ("lift", "--engine"), ("lift", "--abc", "--engine"), ("restore",), ("restore", "--abc"), ("obligation",),
    ("obligation", "--aiger"), ("check-proof",), ("check-proof", "--aiger"), ("check-proof", "--lrat"),
}  # fmt: skip
# what the program says by name of a claim of an accepted witness
REACHED = re.compile(rb"(?m)^b\d+ is reached in frame \d+\n")
# what it says behind a judgement of an engine form whose making the words do not tell
TAKEN = re.compile(rb"(?m)^taken as made for [^\n]*\n")
# a position as the program reads it; any other word is a name
POSITION = re.compile(r"0|[1-9]\d*")


def reached(verdict, flags):
    """The lines that the program prints for the claims of a verdict, where names are asked for."""
    claims = verdict.claims or () if "--names" in flags else ()
    return "".join(f"b{claim.bad} is reached in frame {claim.frame}\n" for claim in claims)


def answer(command, flags, bad, files, names):
    """What a call answers in place of the program: status, standard output, standard error."""
    binary = "--binary" in flags
    try:
        if command in ("check-btor", "check-aig"):
            judge = hwtool.check_aig if command == "check-aig" else hwtool.check_btor_fit if "--fit" in flags else hwtool.check_btor
            verdict = judge(*files, bad=bad)
            return 0 if verdict.accepted else 1, f"{verdict}\n".encode(), reached(verdict, flags).encode()
        # without a choice the only bad property is meant
        if command == "check-proof":
            call = hwtool.check_proof_aig if "--aiger" in flags else hwtool.check_proof
            verdict = call(files[0], bad or 0, files[1], files[2], lrat="--lrat" in flags)
            return 0 if verdict.holds else 1, f"{verdict}\n".encode(), b""
        if command == "obligation":
            call = hwtool.obligation_aig if "--aiger" in flags else hwtool.obligation
            return 0, call(files[0], bad or 0, files[1]), b""
        if command == "fit":
            return 0, hwtool.fit(files[0]), b""
        if command == "cost":
            return 0, f"{hwtool.cost(files[0])}\n".encode(), b""
        if command in ("lift", "restore", "wave", "unfit"):
            if command == "unfit":
                told = hwtool.unfit_back(*files) if "--back" in flags else hwtool.unfit(*files, names="--names" in flags)
            elif command == "wave":
                told = hwtool.wave(*files, all="--all" in flags, title=" ".join(names).encode())
            elif command == "restore":
                told = hwtool.restore_abc(files[0], bad or 0, files[1]) if "--abc" in flags else hwtool.restore(*files, bad=bad)
            elif "--abc" in flags:
                told = hwtool.lift_engine_abc(files[0], bad or 0, files[1], names="--names" in flags)
            elif "--engine" in flags:
                told = hwtool.lift_engine(*files, bad=bad, names="--names" in flags)
            else:
                told = hwtool.lift(*files)
            return 0 if told else 1, told.text, f"{told.verdict}\n{reached(told.verdict, flags)}".encode()
        if command == "aig-convert" and "--engine" in flags:
            return 0, hwtool.engine_form(files[0], bad=bad, binary=binary), b""
        if command == "aig-convert":
            return 0, hwtool.convert(files[0], binary=binary), b""
        return 0, hwtool.lower(files[0], binary=binary), b""
    except hwtool.Refused as refused:
        return 2, b"", f"{refused}\n".encode()


def asked(words):
    """The command, its flags, the bad property that is chosen and the names of its files; None where no call does that."""
    command, flags, names, bad, rest = words[0], [], [], None, iter(words[1:])
    for word in rest:
        if word == "--bad":
            bad = next(rest)
        elif word.startswith("-"):
            flags.append(word)
        else:
            names.append(word)
    known = {"--binary", "--ascii"} | FLAGS.get(command, set())
    if command not in FILES or not known.issuperset(flags) or len(names) != FILES[command] or any("/" in name for name in names):
        return None
    # calls take a bad property by its position
    if bad is not None and not POSITION.fullmatch(bad):
        return None
    bad = None if bad is None else int(bad)
    # of a witness of the circuit itself no call lifts the names
    if command == "lift" and "--names" in flags and "--engine" not in flags:
        return None
    return command, flags, bad, names


class Rows(unittest.TestCase):
    def setUp(self):
        folder = tempfile.TemporaryDirectory()
        self.addCleanup(folder.cleanup)
        self.addCleanup(os.chdir, os.getcwd())
        os.chdir(folder.name)

    def test_rows(self):
        tried, forms = {}, set()
        for row in read_rows():
            # with status 4 the program refuses words
            words = [word.decode(errors="replace") for word in row.words]
            found = asked(words) if words and row.status != 4 else None
            if found is None:
                continue
            command, flags, bad, names = found
            texts = row.files[: len(names)]
            with self.subTest(row=row.line, words=words):
                for name, text in zip(names, texts):
                    pathlib.Path(name).unlink(missing_ok=True)
                    if text is not None:
                        pathlib.Path(name).write_bytes(text)
                if None in texts:
                    with self.assertRaises(FileNotFoundError):
                        answer(command, flags, bad, names, names)
                    continue
                # of what is said by name calls say when claims are reached
                err = TAKEN.sub(b"", row.err)
                if "--names" in flags and row.status != 2:
                    line = b"" if command.startswith("check") else err.split(b"\n")[0] + b"\n"
                    err = line + b"".join(REACHED.findall(err))
                expected = row.status, row.out, err
                self.assertEqual(answer(command, flags, bad, names, names), expected)
                of_bytes = answer(command, flags, bad, texts, names)
                if row.status == 2:
                    # a text that is no file is told by what it is
                    of_bytes = (*of_bytes[:2], names[of_bytes[2].startswith(b"invariant: ")].encode() + of_bytes[2][of_bytes[2].index(b":") :])
                self.assertEqual(of_bytes, expected)
                tried[command] = tried.get(command, 0) + 1
                forms.add((command, *sorted(set(flags) & {"--abc", "--aiger", "--engine", "--lrat"})))
        # rows that were not read would be no test
        self.assertGreater(min(tried.get(command, 0) for command in FILES), 4, tried)
        self.assertEqual(FORMS - forms, set())


if __name__ == "__main__":
    unittest.main()
