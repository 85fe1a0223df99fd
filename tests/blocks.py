#!/usr/bin/env python3
"""Runs each fenced block of each document, and says where what it shows is not so.

    blocks.py [--folder FOLDER] [PROGRAM [PAGE ..]]      all pages, or these, with that hwtool, or the released one

What a block is stands behind its first fence; a `text` that begins with `$ ` is a session: each of its commands is run, and what it says
on both streams is compared, but for the seconds that it tells. A page has a folder of its own, which FOLDER keeps: a copy of what a user
has of the repository, with `hwtool`, `hwtool-flow` and the scripts on the path. Models, circuits, witnesses and programs are read,
judged or run. LEFT_OUT has what cannot be run, with the reason; a block that is neither run nor there is a fault. What lacks a tool is
told and left out. HWTOOL_LIBRARY names the library of the Python package. The status is 0 where nothing is wrong, else 1.
"""
import argparse
import ast
import dataclasses
import difflib
import os
import re
import shutil
import signal
import subprocess
import sys
import tempfile
from pathlib import Path
from typing import Callable, Dict, Iterator, List, Optional, Sequence, Set, Tuple

TOP = Path(__file__).resolve().parent.parent
# What of the repository the folder of a page has.
COPIED = ["LICENSE", "Makefile", "docs", "examples", "include", "python", "release", "tools"]
# Where the commands of a page are run, where that is not the top.
PLACES = {"docs/FLOW.md": "examples/flow"}
# The seconds that a command may take.
SECONDS = 300
DIAGRAM = "a diagram"
TOOLCHAIN = "the gate and the checks want the toolchain"
LAYOUT = "a layout, whose places tests/documents.py looks for"
# What is not run, by its page and how its first line begins, or that of a command; and why.
LEFT_OUT = {
    ("README.md", "./.ci/run"): TOOLCHAIN,
    ("README.md", "model --lower--> circuit"): DIAGRAM,
    ("docs/ARCHITECTURE.md", "BTOR2 text --btor2text--> Model"): DIAGRAM,
    ("docs/ARCHITECTURE.md", "a witness as tools write it --tidy--> a witness"): DIAGRAM,
    ("docs/DEVELOPING.md", "crates/NAME/src/ "): LAYOUT,
    ("docs/DEVELOPING.md", "cd crates/NAME"): TOOLCHAIN,
}
# The tools that some commands need besides themselves.
NEEDED = {"hwtool-flow": ["yosys", "berkeley-abc", "cadical"], "yosys-smtbmc": ["z3"]}
TOOLS = ["yosys", "berkeley-abc", "cadical", "z3", "parallel", *NEEDED]


class Left(Exception):
    """Why a block is not run."""


@dataclasses.dataclass
class Block:
    """A fenced block: its page, the number of its first line, what it is, its text, and the paragraph before it."""

    page: str
    line: int
    kind: str
    text: str
    before: str

    @property
    def check(self) -> str:
        """The name of what checks it."""
        return "session" if self.kind == "text" and self.text.startswith("$ ") else self.kind

    def left(self, line: str) -> Optional[Tuple[str, str]]:
        """By which row of LEFT_OUT a line is not run, if it is not."""
        return next((it for it in LEFT_OUT if it[0] == self.page and line.startswith(it[1])), None)


def blocks_of(page: str) -> Iterator[Block]:
    """The blocks of a page, in order."""
    text = (TOP / page).read_text(encoding="utf-8")
    for found in re.finditer(r"^```(\w[\w-]*)?\n(.*?)^```$", text, re.M | re.S):
        front = text[: found.start()]
        paragraphs = [it for it in front.split("\n\n") if it.strip()]
        yield Block(page, front.count("\n") + 2, found[1] or "text", found[2], paragraphs[-1] if paragraphs else "")


def pages() -> List[str]:
    """The documents of the repository."""
    words = ["git", "ls-files", "-co", "--exclude-standard", "*.md"]
    said = subprocess.run(words, cwd=TOP, capture_output=True, text=True, check=True).stdout.split("\n")
    return [it for it in said if it and (TOP / it).is_file()]


def untimed(text: str) -> str:
    """A text whose tenths of seconds are all 0, however wide they stand."""
    return re.sub(r" +\d+\.\d s$", " 0.0 s", text, flags=re.M)


def commands_of(text: str) -> Iterator[Tuple[str, str]]:
    """The commands of a session, each with what stands behind it as said. Lines of a here-document belong to its command."""
    lines = text.splitlines(keepends=True)
    while lines:
        command = lines.pop(0).removeprefix("$ ")
        here = re.search(r"<<'?(\w+)'?", command)
        while here and lines and command.splitlines()[-1] != here[1]:
            command += lines.pop(0)
        said = ""
        while lines and not lines[0].startswith("$ "):
            said += lines.pop(0)
        yield command.rstrip("\n"), said


class Place:
    """The folder in which a page is run."""

    def __init__(self, page: str, folder: Path, program: Path) -> None:
        """Copies what a user has into the folder, and puts the program on the path."""
        self.page, self.top = page, folder / "hwtool"
        programs = folder / "bin"
        for it in (self.top, programs):
            it.mkdir(parents=True)
        for name in COPIED:
            if (TOP / name).is_dir():
                shutil.copytree(TOP / name, self.top / name, ignore=shutil.ignore_patterns("__pycache__", "*.flow"))
            else:
                shutil.copy2(TOP / name, self.top / name)
        (programs / "hwtool").symlink_to(program)
        self.at = self.top / PLACES.get(page, ".")
        self.program = program
        self.environment = {**os.environ, "LC_ALL": "C.UTF-8", "HOME": str(folder), "PYTHONDONTWRITEBYTECODE": "1"}
        self.environment["HWTOOL_LIBRARY"] = str(Path(os.environ.get("HWTOOL_LIBRARY") or TOP / "release/libhwtool.so").resolve())
        self.environment["PATH"] = os.pathsep.join([str(programs), str(self.top / "tools"), os.environ["PATH"]])

    def run(self, words: Sequence[str], given: Optional[str] = None) -> Tuple[int, str]:
        """The status of a command, and what it says on both streams."""
        running = subprocess.Popen(
            words, cwd=self.at, env=self.environment, stdin=subprocess.DEVNULL if given is None else subprocess.PIPE,
            stdout=subprocess.PIPE, stderr=subprocess.STDOUT, text=True, errors="replace", start_new_session=True,
        )
        try:
            said = running.communicate(given, timeout=SECONDS)[0]
        except subprocess.TimeoutExpired:
            os.killpg(running.pid, signal.SIGKILL)
            return -signal.SIGKILL, f"{running.communicate()[0]}not done after {SECONDS} s\n"
        return running.returncode, said


# ---- what a block shows; each of these answers what is not so


def session(block: Block, place: Place) -> Iterator[str]:
    """What commands say otherwise than the block."""
    for command, shown in commands_of(block.text):
        _, said = place.run(["sh", "-c", command])
        if untimed(said) != untimed(shown):
            lines = difflib.unified_diff(untimed(shown).splitlines(), untimed(said).splitlines(), "shown", "said", lineterm="", n=1)
            yield f"$ {command}\n" + "\n".join(f"    {it}" for it in lines)


def shell(block: Block, place: Place) -> Iterator[str]:
    """Which line of commands does not do well; pip has an environment of its own, and no network."""
    for line in block.text.splitlines():
        if block.left(line):
            continue
        if line.startswith("pip "):
            own = place.top / "environment"
            status, said = place.run([sys.executable, "-m", "venv", str(own)])
            if status != 0:
                raise Left("no venv")
            place.environment["PIP_NO_INDEX"] = "1"
            line = f"{own}/bin/{line}"
        status, said = place.run(["sh", "-c", line])
        if status != 0:
            yield f"{line}: status {status}\n{said}"


def python(block: Block, place: Place) -> Iterator[str]:
    """What a program prints otherwise than the comments behind its calls of `print` say, where a comment ends in `..` up to there."""
    place.environment["PYTHONPATH"] = str(place.top / "python")
    status, said = place.run([sys.executable, "-c", block.text])
    lines = block.text.splitlines()
    calls = [it.lineno for it in ast.walk(ast.parse(block.text)) if isinstance(it, ast.Call) and getattr(it.func, "id", "") == "print"]
    comments = [lines[it - 1].partition("  # ")[2].strip() for it in sorted(calls)]
    printed = said.splitlines()
    if status != 0 or len(printed) != len(comments):
        yield f"status {status}, {len(printed)} lines are printed, and {len(comments)} calls print\n{said}"
    for comment, line in zip(comments, printed):
        is_so = line.startswith(comment[:-2]) if comment.endswith("..") else comment in ("", line)
        if not is_so:
            yield f"'{comment}' is printed as '{line}'"


def is_refused(block: Block, said: str) -> Optional[bool]:
    """Where the paragraph before a block says by what it is refused, whether it is."""
    found = re.search(r"refused by (\d+ \w+)", block.before)
    return f": {found[1]}" in said if found else None


def read_by(*words: str) -> Callable[[Block, Place], Iterator[str]]:
    """What a command says that does not read the text, or reads what the paragraph before says to be refused."""

    def check(block: Block, place: Place) -> Iterator[str]:
        status, said = place.run([str(place.program), *words, "-"], block.text)
        refused = is_refused(block, said)
        if refused is False or refused is None and status != 0:
            yield f"hwtool {' '.join(words)}: status {status}\n{said}"

    return check


def example(block: Block, ending: str) -> Optional[Path]:
    """The file of examples/ that has the text of a block."""
    return next((it for it in sorted((TOP / "examples").glob(f"*{ending}")) if it.read_text() == block.text), None)


def judged_by(command: str, ending: str) -> Callable[[Block, Place], Iterator[str]]:
    """Whether a witness is one of examples/, and accepted over what it is a witness of."""

    def check(block: Block, place: Place) -> Iterator[str]:
        file = example(block, ".witness")
        if file is None:
            yield "it is no witness of examples/"
            return
        status, said = place.run([str(place.program), command, str(file.with_suffix(ending)), str(file)])
        if status != 0:
            yield f"hwtool {command}: {said}"

    return check


def edit(block: Block, place: Place) -> Iterator[str]:
    """Whether a wrong body is one of those that are kept."""
    kept = [*TOP.glob("crates/*/must-fail/*.edit"), *TOP.glob("tests/wrong-bodies/*/*.edit")]
    if not any(block.text.strip() in it.read_text() for it in kept):
        yield "no crate has this wrong body"


CHECKS: Dict[str, Callable[[Block, Place], Iterator[str]]] = {
    "session": session,
    "sh": shell,
    "python": python,
    "btor2": read_by("show"),
    "aiger": read_by("aig-convert"),
    "btor2-witness": judged_by("check-btor", ".btor2"),
    "aiger-witness": judged_by("check-aig", ".aag"),
    "edit": edit,
}


# ---- all of them


def lacking(text: str) -> List[str]:
    """The tools that commands need and that are not there."""
    named = [it for it in TOOLS if re.search(rf"(?<![\w.-]){it}(?![\w-])", text)]
    return sorted({need for it in named for need in NEEDED.get(it, [it]) if not shutil.which(need)})


class Run:
    """A run of pages: how many blocks and commands were tried, what is wrong, what was left out."""

    def __init__(self, program: Path) -> None:
        """With this program."""
        self.program = program
        self.blocks = self.commands = 0
        self.wrong: List[str] = []
        self.left: List[str] = []
        self.used: Set[Tuple[str, str]] = set()

    def block(self, block: Block, place: Place) -> None:
        """Tries a block."""
        lines = block.text.splitlines()
        self.used.update(filter(None, map(block.left, lines)))
        row = block.left(lines[0])
        missing = lacking(block.text)
        try:
            if row or missing:
                raise Left(LEFT_OUT[row] if row else f"no {', '.join(missing)}")
            if block.check in CHECKS:
                found = list(CHECKS[block.check](block, place))
            else:
                found = [f"a block of {block.kind} that is neither run nor left out"]
        except Left as why:
            self.left.append(f"{block.page}:{block.line}: {why}")
            return
        self.blocks += 1
        self.commands += len(list(commands_of(block.text))) if block.check == "session" else 1
        self.wrong += [f"{block.page}:{block.line}: {it}" for it in found]

    def page(self, page: str, folder: Path) -> None:
        """Tries all blocks of a page, in order, in one folder."""
        found = list(blocks_of(page))
        fences = re.findall(r"^\s*(?:```|~~~)", (TOP / page).read_text(encoding="utf-8"), re.M)
        if len(fences) != 2 * len(found):
            self.wrong.append(f"{page}: of {len(fences)} fences only {2 * len(found)} are those of blocks that begin at the line's start")
        # its first block needs what the others go on from
        missing = lacking(found[0].text) if page in PLACES else []
        if missing:
            self.left.append(f"{page}: no {', '.join(missing)}")
        elif found:
            place = Place(page, folder / page.replace("/", "-").removesuffix(".md"), self.program)
            for it in found:
                self.block(it, place)

    def end(self, is_all: bool) -> int:
        """Says what came of it."""
        if is_all:
            self.wrong += [f"{page}: '{line}' is left out and not there" for page, line in LEFT_OUT if (page, line) not in self.used]
        print("".join(f"{it}\n" for it in self.wrong), end="")
        print("".join(f"left out: {it}\n" for it in self.left), end="")
        print(f"blocks: {self.blocks} blocks with {self.commands} commands and texts tried, {len(self.wrong)} wrong")
        return 1 if self.wrong else 0


def main(words: List[str]) -> int:
    """All that the words ask for."""
    said = argparse.ArgumentParser(description=__doc__, formatter_class=argparse.RawDescriptionHelpFormatter)
    said.add_argument("--folder", type=Path, help="a new folder, which keeps what is made")
    said.add_argument("program", nargs="?", type=Path, default=TOP / "release/hwtool")
    said.add_argument("pages", nargs="*", metavar="PAGE")
    given = said.parse_args(words)
    run = Run(given.program.resolve())
    with tempfile.TemporaryDirectory() as there:
        for it in given.pages or pages():
            run.page(it, (given.folder or Path(there)).absolute())
    return run.end(not given.pages)


if __name__ == "__main__":
    sys.exit(main(sys.argv[1:]))
