#!/usr/bin/env python3
"""Tries the wrong bodies that stand beside the gate, each in half a minute, over what tools/build.py keeps of the libraries.

    wrong_bodies.py [--slots N] [CRATE | FOLDER | EDIT ..]

A CRATE stands for the edits in tests/wrong-bodies/CRATE, a FOLDER for its own, as crates/CRATE/must-fail; without any, those of all
crates are tried, N at once. docs/DEVELOPING.md says how an edit is written. It is put into a copy of its crate's sources, and the
functions that it changes are checked alone, by `rattle check --only`. A line for each says what comes of it, and of which functions:

    ensures  the prover refuses it by what a function ensures
    types    it does not compile, as the edit says, with these words: a line `types: WORDS` in it
    sources  tests/sources.py tells it, as the edit says: a line `sources: WORDS` in it
    goal     by another goal: what a call requires, what a loop keeps
    values   by a goal whose written proof finds another value there
    written  only at a written proof that names what the edit took away, so that a right body may be refused too
    PROVED   the contract says nothing against it
    BAD      it fits no text, names no function, or does not compile
    UNTOLD   the prover came to no end

Where an edit changes a constant, or adds a function, a line `only: module::function ..` in it names the functions to check. Last
stands a count for each crate. The status is 0 where all are refused. It is no verdict on a crate, of which other proofs may refuse
an edit too. The libraries below a crate have to stand: tools/build.py makes them.
"""
import collections
import concurrent.futures
import os
import pathlib
import re
import shutil
import signal
import subprocess
import sys
import tempfile
import time

TOP = pathlib.Path(__file__).resolve().parent.parent
BODIES = TOP / "tests/wrong-bodies"
sys.dont_write_bytecode = True
sys.path.insert(0, str(TOP / "tools"))
import build  # noqa: E402

REFUSED = {
    "ensures": "by what a function ensures",
    "types": "by types",
    "sources": "by tests/sources.py",
    "goal": "by another goal",
    "values": "by another value in a written proof",
    "written": "only at a written proof",
}
OTHERS = {"PROVED": "proved", "BAD": "bad", "UNTOLD": "untold"}
FUNCTION = re.compile(r'^( *)(?:pub(?:\([a-z]+\))? )?(?:const )?(?:extern "C" )?fn (\w+)', re.M)
BLOCK = re.compile(r"^(?:pub )?(impl|trait)\b([^{;]*)\{", re.M)
# What the prover says of a goal that stays open, of a written answer that does not fit, and of a text that it cannot read.
OPEN = re.compile(r"^note: \S+: it is not proved that (.*?)(?:;.*)?$", re.M)
UNFIT = re.compile(r"^(?:\./)?(proofs/\S+): error: (.*)$", re.M)
# Of such an answer, that it does not name what the edit took away.
OF_VALUES = re.compile(r"`[^`]*`: (?!.*(?:` has no |not in scope)).*")
REFUSED_TEXT = re.compile(r"(?:\./)?src/\S+: error")
UNREAD = re.compile(r"^(?:\./)?(?:src|specs)/\S+: error: (?!`).*$", re.M)


class Bad(Exception):
    """An edit that shows nothing, and why."""


def owner_of(kind, head):
    """What a block is called in the names of its functions: a trait by its name, an `impl` by its type and its trait."""
    if kind == "trait":
        return re.match(r"\s*(\w+)", head)[1]
    depth = 0
    for place, sign in enumerate(head):
        depth += (sign == "<") - (sign == ">" and head[place - 1] != "-")
        if depth == 0:
            break
    head = head[place + 1 :] if head.startswith("<") else head
    names = [[it for it in re.findall(r"(\w+)(?!\w|::)", re.sub(r"'\w+", "", part))] for part in re.split(r"\bfor\b", head.split("where")[0])]
    # of a type its name, of a trait also what it is made for
    return names[-1][0] + "".join(names[0]) if len(names) == 2 else names[0][0]


def functions_of(text):
    """The functions of a file: where each begins and ends, what it is called in its module, its own name."""
    blocks = [(it.start(), text.find("\n}", it.end()), owner_of(it[1], it[2].strip())) for it in BLOCK.finditer(text)]
    starts = [*FUNCTION.finditer(text)]
    for found, behind in zip(starts, [*(it.start() for it in starts[1:]), len(text)]):
        # the body ends with a brace under the line of its name, or on that line
        last = re.compile(rf"^{found[1]}(?:\S.*)?\}}$", re.M).search(text, found.start(), behind)
        owner = [it for start, end, it in blocks if start < found.start() < end]
        yield found.start(), last.end() if last else behind, "::".join([*owner, found[2]]), found[2]


def changed(text, old, new):
    """The function of a text that a pair changes: its name in its module, and its own. None where it is no single one's body."""
    start, end = text.index(old), text.index(old) + len(old)
    same = len(os.path.commonprefix([old, new]))
    behind = len(os.path.commonprefix([old[same:][::-1], new[same:][::-1]]))
    for first, last, name, own in functions_of(text):
        if first <= start + same and end - behind <= last:
            return name, own
    return None


class Edit:
    """An edit: its crate, the pairs of texts with their files, the functions that it names itself, and what refuses it where that is
    no proof, with words that are then said."""

    def __init__(self, path, crates):
        self.path = path
        self.crate = next((crates[it] for it in (path.parent.name, path.parent.parent.name) if it in crates), None)
        self.pairs, self.only, self.refused_by, self.stray, file, old = [], [], None, None, None, None
        for line in path.read_text().splitlines():
            key, _, text = line.partition(":")
            text = text.removeprefix(" ")
            if key == "file":
                file = text.strip()
            elif key == "old":
                old = text
            elif key == "new":
                self.pairs.append((file, old, text))
            elif key == "only":
                self.only = text.split()
            elif key in ("types", "sources"):
                self.refused_by = key, text.strip()
            elif line.strip():
                self.stray = line.strip()

    def texts(self):
        """The files that it makes, and the functions that it changes, each with the names to try."""
        if self.stray:
            raise Bad(f"a line that belongs to no text, each of which is one line: {self.stray}")
        texts, functions = {}, {}
        for file, old, new in self.pairs:
            text = texts.get(file) or (self.crate.folder / file).read_text()
            if text.count(old) != 1:
                raise Bad(f"an old text stands {text.count(old)} times in {file}: {old.strip()}")
            found = changed(text, old, new) if file.startswith("src/") else None
            if found:
                module = file.removeprefix("src/").removesuffix(".rt").replace("/", "::")
                front = "" if module in ("lib", "main") else f"{module}::"
                # where no name of it is known, as of one of two of a name, the module stands for all in it
                functions[front + found[0]] = (front + found[0], *found, front.removesuffix("::") or found[1])
            texts[file] = text.replace(old, new)
        if not functions and not self.only and not self.refused_by:
            raise Bad("what it changes is no function's body: a line `only: module::function ..` has to name some")
        return texts, [(it,) for it in self.only] or list(functions.values())


def checks(edit, texts, functions, running):
    """What the prover says of the functions, by the first of their names that it knows: the name, its status, its words."""
    with tempfile.TemporaryDirectory(prefix="wrong-body-") as there:
        folder = pathlib.Path(there)
        for part in ("src", "specs", "proofs"):
            if (edit.crate.folder / part).is_dir():
                shutil.copytree(edit.crate.folder / part, folder / part)
        for file, text in texts.items():
            (folder / file).write_text(text)
        for names in dict.fromkeys(zip(*functions)):
            words = [*edit.crate.checking(), *(word for it in names for word in ("--only", it))]
            run = subprocess.Popen(
                words, cwd=folder, stdin=subprocess.DEVNULL, stdout=subprocess.PIPE, stderr=subprocess.STDOUT, text=True, errors="replace"
            )
            running.add(run)
            said = run.communicate()[0].rstrip()
            running.discard(run)
            if run.returncode != 2:
                break
    return " ".join(names), run.returncode, said


def told_of_sources(edit, texts):
    """What tests/sources.py says of the sources with an edit."""
    with tempfile.TemporaryDirectory(prefix="wrong-body-") as there:
        for name in ("base", "runs", "witness", "lift"):
            shutil.copytree(TOP / "crates" / name / "src", pathlib.Path(there, "crates", name, "src"))
        for file, text in texts.items():
            pathlib.Path(there, "crates", edit.crate.name, file).write_text(text)
        return subprocess.run([sys.executable, TOP / "tests/sources.py", there], capture_output=True, text=True, check=False).stdout


def judge_otherwise(edit, running):
    """The same of an edit that no proof refuses: it does not compile, or the script on the sources tells it."""
    by, words = edit.refused_by
    texts, functions = edit.texts()
    said = told_of_sources(edit, texts) if by == "sources" else checks(edit, texts, functions or [("",)], running)[2]
    told = said.splitlines() if by == "sources" else [it for it in said.splitlines() if REFUSED_TEXT.match(it)]
    found = next((it for it in told if words in it), None)
    return (by, "", found) if found else ("PROVED", "", f"nothing says {words}: {said.rpartition(chr(10))[2]}")


def judge(edit, running):
    """What comes of an edit: the word for it, the functions, and what the prover said."""
    try:
        if edit.refused_by:
            return judge_otherwise(edit, running)
        names, status, said = checks(edit, *edit.texts(), running)
    except (Bad, OSError) as error:
        return "BAD", "", str(error)
    last = said.rpartition("\n")[2]
    if status == 0:
        return "PROVED", names, "it is proved"
    if status == 2:
        return "BAD", names, last
    unread, goals, unfit = UNREAD.search(said), OPEN.findall(said), UNFIT.search(said)
    if status != 1:
        return "UNTOLD", names, last
    if unread or not last.startswith("only="):
        return "BAD", names, unread[0] if unread else next((it for it in said.splitlines() if "error" in it), last)
    of_function = [it for it in goals if it.startswith("what the function ensures")]
    if of_function:
        return "ensures", names, f"it is not proved that {of_function[0]}"
    if goals:
        return "goal", names, f"it is not proved that {goals[0]}"
    if unfit and OF_VALUES.match(unfit[2]):
        return "values", names, f"{unfit[1]}: {unfit[2]}"
    return "written", names, f"{unfit[1]}: {unfit[2]}" if unfit else last


def wanted(words):
    """The edits that some words stand for."""
    crates = build.crates_of(TOP / "crates.txt")
    found = []
    for word in words or sorted(it.name for it in BODIES.iterdir()):
        place = BODIES / word if word in crates else pathlib.Path(word).resolve()
        paths = sorted(place.glob("*.edit")) if place.is_dir() else [place] * place.is_file()
        edits = [Edit(it, crates) for it in paths]
        if not edits or None in [it.crate for it in edits]:
            print(f"wrong_bodies.py: {word} is no crate with wrong bodies, no folder of a crate's edits and no edit", file=sys.stderr)
            sys.exit(4)
        found += edits
    return found


def unbuilt(crate):
    """The libraries below a crate that do not stand as its sources ask for, without those below others of them."""
    found = [it for it in crate.below if not it.stands()]
    return [it.name for it in found if not any(it in other.below for other in found)]


def main(words):
    slots = max(1, min(len(os.sched_getaffinity(0)), build.free_memory() // build.NEED))
    if words[:1] == ["--slots"]:
        slots, words = int(words[1]), words[2:]
    if words[:1] in (["-h"], ["--help"]):
        print(__doc__.strip())
        return 0
    edits = wanted(words)
    missing = {it: unbuilt(it) for it in dict.fromkeys(edit.crate for edit in edits)}
    counts = {it: collections.Counter() for it in missing}
    running = set()
    for crate, names in missing.items():
        if names:
            print(f"{crate.name}: not tried, as what it stands on is not built of these sources: tools/build.py {' '.join(names)}", flush=True)

    def tried(edit):
        began = time.monotonic()
        verdict, names, said = judge(edit, running)
        counts[edit.crate][verdict] += 1
        print(f"{verdict:8} {edit.crate.name}/{edit.path.stem}  {time.monotonic() - began:.0f} s  {names}: {said[:300]}", flush=True)

    with concurrent.futures.ThreadPoolExecutor(slots) as pool:
        trials = [pool.submit(tried, it) for it in edits if not missing[it.crate]]
        try:
            for it in trials:
                it.result()
        finally:
            for it in trials:
                it.cancel()
            for it in list(running):
                it.terminate()
    for crate, count in counts.items():
        if count and len(edits) > 1:
            parts = [f"{count[it]} {how}" for it, how in {**REFUSED, **OTHERS}.items() if count[it]]
            print(f"{crate.name}: {sum(count[it] for it in REFUSED)} of {sum(count.values())} refused: {', '.join(parts)}")
    refused = sum(count[it] for count in counts.values() for it in REFUSED)
    if len(edits) > 1:
        print(f"{refused} of {len(edits)} wrong bodies refused")
    return 0 if refused == len(edits) else 1


if __name__ == "__main__":
    # so that what is under way ends with this
    signal.signal(signal.SIGTERM, lambda *_: sys.exit(143))
    sys.exit(main(sys.argv[1:]))
