"""Builds the programs that measure: each is a crate of its own in a copy of the crates that it stands on."""

import os
import shutil
import subprocess
import sys

BENCH = os.path.dirname(os.path.abspath(__file__))
TOP = os.path.join(BENCH, "..")


def rows(crates):
    """The rows of these crates in the repository's list."""
    with open(os.path.join(TOP, "crates.txt")) as listed:
        return [row.strip() for row in listed if row.split(":")[0] in crates]


def copy_proofs(written, proofs):
    """Copies what is written of a program's proofs: `.antt.txt` files, which are `.antt` files of no crate here."""
    for folder, _, names in os.walk(written):
        to = os.path.join(proofs, os.path.relpath(folder, written))
        os.makedirs(to, exist_ok=True)
        for name in names:
            shutil.copy(os.path.join(folder, name), os.path.join(to, name.removesuffix(".txt")))


def built(folder, name, crates):
    """Proves and builds the program of `NAME.rt.txt` on these crates, in a folder that is new.

    The answer is its path and the processor that it is built for. `rt run` builds it by LLVM, and runs it once on
    nothing. What the crates' own checks kept is copied along, so that they are not proved anew. Where there is a folder
    `NAME.proofs`, it has what is written of the program's proofs.
    """
    source = os.path.join(folder, "crates", name, "src")
    os.makedirs(source)
    for crate in crates:
        shutil.copytree(os.path.join(TOP, "crates", crate), os.path.join(folder, "crates", crate), symlinks=True)
    shutil.copy(os.path.join(TOP, "HANDLES"), folder)
    shutil.copy(os.path.join(BENCH, name + ".rt.txt"), os.path.join(source, "main.rt"))
    copy_proofs(os.path.join(BENCH, name + ".proofs"), os.path.join(folder, "crates", name, "proofs"))
    with open(os.path.join(folder, "crates.txt"), "w") as listed:
        listed.write("\n".join(rows(crates) + [f"{name}: {' '.join(crates)}"]) + "\n")
    crate = os.path.dirname(source)
    said = subprocess.run(["rt", "run"], cwd=crate, stdin=subprocess.DEVNULL, capture_output=True, text=True)
    if said.returncode != 0:
        sys.exit(said.stdout + said.stderr)
    words = (said.stdout + said.stderr).split()
    processor = next(word[len("cpu=") :] for word in words if word.startswith("cpu="))
    return os.path.join(crate, "out", name), processor


if __name__ == "__main__":
    print(__doc__.strip())
