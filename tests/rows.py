#!/usr/bin/env python3
"""Runs a program on the rows of the gate, which `crates/cli_rows` tries by calls: files in a folder, words, status, both streams.

    rows.py [PROGRAM]

PROGRAM is crates/hwtool/out/hwtool where none is given. The head of crates/cli_rows/src/main.rt says how rows are written. The
status is 0 where all is as it should be, else 1.
"""
import os
import re
import subprocess
import sys
import tempfile
import typing

TOP = os.path.dirname(os.path.dirname(os.path.realpath(__file__)))
ROWS = f"{TOP}/crates/cli_rows/stdin"
PROGRAM = f"{TOP}/crates/hwtool/out/hwtool"


class Row(typing.NamedTuple):
    """A row: the number of its first line, its words, its files in order (None for one that is not there), and what is to come of
    it."""

    line: int
    words: typing.List[bytes]
    files: typing.List[typing.Optional[bytes]]
    status: int
    out: bytes
    err: bytes

    @property
    def names(self):
        """The names of its files: the words behind the first that are no flags, nor what stands behind one with a value."""
        behind_value = False
        for word in self.words[1:]:
            if not behind_value and (not word.startswith(b"-") or word == b"-"):
                yield os.fsdecode(word)
            behind_value = word in (b"-o", b"--output", b"--bad", b"--pick")

    @property
    def asks_for_command(self):
        """Whether the words ask for a command, so that all that is written is told."""
        return self.status != 4 and not {b"explain", b"help", b"--help", b"-h", b"--version", b"-V"}.intersection(self.words)


def unescaped(text):
    return re.sub(rb"\\(?:x(..)|(.))", lambda found: bytes([int(found[1], 16)]) if found[1] else found[2], text)


def read_rows(path=ROWS):
    """The rows of a file."""
    before = None
    with open(path, "rb") as file:
        text = file.read()
    for block in re.finditer(rb"(?:[^\n]+\n)+", text):
        words, texts, status = None, {}, 0
        for line in block[0].split(b"\n")[:-1]:
            kind, mark, rest = line[:1], line[1:2], unescaped(line[2:])
            if kind == b"$":
                words = [unescaped(word) for word in line[1:].split()]
            elif kind == b"1" and mark == b"^":
                texts[b"1"] = before
            elif kind == b"=":
                status = int(line[1:])
            elif mark in (b"|", b"/"):
                texts[kind] = texts.get(kind, b"") + rest + (b"\n" if mark == b"|" else b"")
        if words is not None:
            before = texts.get(b"1", before)
            line = text.count(b"\n", 0, block.start()) + 1
            yield Row(line, words, [texts.get(it) for it in (b"1", b"2", b"3")], status, texts.get(b"o", b""), texts.get(b"e", b""))


def answer(program, row, folder):
    """What a program answers: status, standard output (or the file that stands in its place) and standard error."""
    taken = {"input": b""}
    for name, text in zip(row.names if row.words else ["-"], row.files):
        if name == "-":
            # a folder can't be read, as an input that is not there
            taken = {"input": text} if text is not None else {"stdin": os.open(folder, os.O_RDONLY)}
        elif text is not None:
            with open(os.path.join(folder, name), "wb") as file:
                file.write(text)
    done = subprocess.run([program, *row.words], cwd=folder, capture_output=True, **taken)
    if "stdin" in taken:
        os.close(taken["stdin"])
    return done.returncode, done.stdout, done.stderr


def with_reason(row):
    """A row with what the system tells of an input that is not there, which the calls of the gate's rows don't know."""
    for name, text in zip(row.names if row.words else ["-"], row.files):
        line = os.fsencode(name) + b": device"
        if text is None and row.err == line + b"\n":
            return row._replace(err=line + (b": is a folder\n" if name == "-" else b": no such file\n"))
    return row


def is_right(row, got):
    row = with_reason(row)
    if row.asks_for_command:
        return got == (row.status, row.out, row.err)
    return got[0] == row.status and row.out in got[1] and row.err in got[2]


def main():
    program = os.path.abspath(sys.argv[1] if len(sys.argv) > 1 else PROGRAM)
    tried = wrong = 0
    for row in read_rows():
        # the rows are tried by calls that write to no file
        if b"-o" in row.words or b"--output" in row.words or any(b"/" in word for word in row.words):
            continue
        with tempfile.TemporaryDirectory() as folder:
            got = answer(program, row, folder)
        tried += 1
        if not is_right(row, got):
            wrong += 1
            print(f"{b' '.join(row.words)}: expected {row.status, row.out, row.err}, got {got}")
    print(f"rows: {tried} tried, {wrong} wrong")
    return wrong != 0


if __name__ == "__main__":
    sys.exit(main())
