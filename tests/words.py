#!/usr/bin/env python3
"""Gives random words to two programs, as the released one and one that was built, and compares what they do.

    words.py PROGRAM OTHER [RUNS [SEED]]

The words are of the commands that read files and write a result, in the forms in which options may be given, with words behind
`--`, unknown flags and flags that are given twice among them. A run is compared by its status, both streams and the files that
lie in its folder afterwards. It prints each run that differs, and each in which words are read in two ways. The status is 0 where
there is none, else 1.
"""
import os
import random
import subprocess
import sys
import tempfile

FLAGS = {
    "lower": "ascii binary engine", "check-btor": "names", "show": "", "cost": "", "aig-convert": "ascii binary outputs engine",
    "check-aig": "names", "lift": "names engine abc", "restore": "abc", "wave": "all", "obligation": "aiger circuit engine",
    "check-proof": "names aiger circuit engine lrat", "tidy-witness": "", "vectors": "",
}
FILE_COUNT = {"check-btor": 2, "check-aig": 2, "lift": 2, "restore": 2, "wave": 2, "obligation": 2, "check-proof": 3}
VALUES = ["0", "3", "1", "x", "-", "", "-1", "18446744073709551616", "007"]
RESULTS = ["out", "-", "o=1", "--x", "", "--", "=", "-o"]
ODD = [
    "--", "-", "---", "--=", "--=x", "-oo", "-h", "--help", "-V", "--version", "--qui", "--quiet=", "--quiet=x", "-q", "-quiet",
    "--output", "--bad", "--pick", "-o", "--engine=1", "--names=", "help", "=", "--MODEL", "--WITNESS=a", "-ö", "--ö=ä", "ä",
    "--output=", "-o=", "-o-", "-o--", "--bad=", "--no=x", " ",
]
FILES = {
    "a": "1 sort bitvec 1\n2 input 1\n3 bad 2\n",
    "b": "aag 1 1 0 0 0 1\n2\n2\n",
    "c=d": "sat\nb0\n@0\n0 1 x@0\n.\n",
}


def option():
    """An option with its value, in one of the forms in which it may be given."""
    name = random.choice(["output", "bad", "pick"])
    value = random.choice(RESULTS if name == "output" else VALUES)
    forms = [[f"--{name}", value], [f"--{name}={value}"]]
    if name == "output":
        forms += [["-o", value], [f"-o{value}"], [f"-o={value}"]]
    return random.choice(forms)


def words():
    """The words of a command line."""
    command = random.choice(list(FLAGS))
    count = FILE_COUNT.get(command, 1) if random.random() < 0.9 else random.randint(0, 4)
    groups = [[random.choice(["a", "b", "-", "c=d", ""])] for _ in range(count)]
    groups += [[f"--{flag}"] for flag in FLAGS[command].split() + ["quiet"] if random.random() < 0.35]
    if random.random() < 0.1:
        groups.append([f"--{random.choice(' '.join(FLAGS.values()).split() + ['quiet'])}"])
    groups += [option() for _ in range(random.choice([0, 0, 1, 1, 2]))]
    random.shuffle(groups)
    for odd, chance in ("--", 0.15), (random.choice(ODD), 0.25):
        if random.random() < chance:
            groups.insert(random.randint(0, len(groups)), [odd])
    return [command] + [word for group in groups for word in group]


def outcome(program, given):
    """What a program does with words: its status, its streams, and the files that lie there afterwards."""
    with tempfile.TemporaryDirectory(prefix="words") as folder:
        for name, text in FILES.items():
            with open(os.path.join(folder, name), "w") as file:
                file.write(text)
        run = subprocess.run([program, *given], cwd=folder, stdin=subprocess.DEVNULL, capture_output=True)
        left = sorted((name, open(os.path.join(folder, name), "rb").read()) for name in os.listdir(folder))
    return run.returncode, run.stdout, run.stderr, left


def main():
    if len(sys.argv) < 3:
        sys.exit(__doc__)
    one, other = map(os.path.realpath, sys.argv[1:3])
    runs = int(sys.argv[3]) if len(sys.argv) > 3 else 1000
    random.seed(int(sys.argv[4]) if len(sys.argv) > 4 else 1)
    faults = understood = 0
    for _ in range(runs):
        given = words()
        here, there = outcome(one, given), outcome(other, given)
        understood += here[0] != 4
        if here != there or b"in two ways" in here[2] + there[2]:
            faults += 1
            print(given, here[:3], there[:3])
    print(f"{runs} runs, {understood} of them not refused for their words, {faults} that differ")
    sys.exit(faults > 0)


main()
