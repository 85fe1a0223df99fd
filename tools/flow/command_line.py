"""The words of hwtool-flow, what stops it, and its exit status."""
import argparse
import os
import re
import signal
import sys
from pathlib import Path
from typing import List, NoReturn

from . import engines
from .engines import InputRefused, WordsRefused
from .folders import Folder
from .program import Broke
from .reading import is_verilog, script_reads
from .run import Run, Status, Tools, inputs_of
from .running import Runner, Stopped


class Words(argparse.ArgumentParser):
    """The words, of which refused ones have a status of their own."""

    def error(self, message: str) -> NoReturn:
        """Tells what is wrong with the words."""
        self.print_usage(sys.stderr)
        self.exit(Status.WORDS_REFUSED, f"hwtool-flow: {message}\n")


ABOUT = """From a design to verdicts that hwtool has checked: Verilog by Yosys, BTOR2 or AIGER. Engines look for counterexamples and
proofs of each property; what they claim counts only where check-btor, check-aig or check-proof confirms it. Results go into
NAME.flow/: the model, witnesses, dumps, certificates, proofs, results.json, report.html, and check.sh, which confirms all
verdicts again by hwtool alone. A second run goes on where the first was stopped."""
STATUSES = """exit statuses: 0 all hold, checked; 1 one fails; 2 an input is refused; 3 a tool is missing or broke, or a device failed;
4 the words are refused; 5 something is open, vacuous, never reached or not judged"""
ENGINE_HELP = f"""engines to try, in this order: {', '.join(it.name for it in engines.ENGINES)}, or NAME=COMMAND. A COMMAND is
handed {{form}}, the engine form of one property in AIGER, or {{model}}, and {{bad}}, {{depth}}, {{seconds}}. It writes
{{counterexample}} as ABC does, {{witness}} of the form, {{model_witness}}, {{invariant}}, or {{witness_circuit}} of the form; if it
names none of these, its standard output is the witness"""
SOLVER_HELP = f"""what makes proofs: {engines.names_of(engines.SOLVERS)}, or NAME=COMMAND with {{formula}}, and
{{proof}} in ascii DRAT or {{hinted_proof}} in LRAT"""
READ_HELP = """steps of Yosys that read the source and do nothing else, in place of files; all that follows is done as for files"""
YOSYS_HELP = """steps of Yosys in place of those that hwtool-flow chooses; it reads the files first, where no step does, and writes the
model last"""


def parser() -> Words:
    """What reads the words, of which tools/manual.py makes the manual page."""
    it = Words(prog="hwtool-flow", description=ABOUT, epilog=STATUSES)
    it.add_argument("design", nargs="*", type=Path, help="files of Verilog (.v, .sv), or one of BTOR2 (.btor2) or AIGER (.aig, .aag)")
    it.add_argument("--top", metavar="MODULE", help="the top module of a design in Verilog")
    it.add_argument("-I", "--include", action="append", default=[], type=Path, metavar="FOLDER", help="where files of `include stand too")
    it.add_argument("-D", "--define", action="append", default=[], metavar="NAME[=VALUE]", help="a macro of the source")
    it.add_argument("--param", action="append", default=[], metavar="NAME=VALUE", help="a parameter of the top module")
    it.add_argument("--read", type=Path, metavar="SCRIPT", help=READ_HELP)
    it.add_argument("--property", action="append", metavar="K", help="only this property, by its number or name; may be said again")
    it.add_argument("--depth", type=whole, default=100, metavar="N", help="how many frames are searched for counterexamples (100)")
    it.add_argument("--frames", type=whole, metavar="N", help="for how many frames the assumptions have to be able to hold (as --depth)")
    it.add_argument("--timeout", type=seconds, default=60.0, metavar="SECONDS", help="what engines and solver have for each property (60)")
    processors = len(os.sched_getaffinity(0))
    it.add_argument("-j", "--jobs", type=whole, default=processors, metavar="N", help="how many properties side by side (as processors)")
    it.add_argument("--engine", action="append", metavar="ENGINE", help=ENGINE_HELP)
    it.add_argument("--solver", metavar="SOLVER", help=SOLVER_HELP)
    it.add_argument("--yosys", type=Path, metavar="SCRIPT", help=YOSYS_HELP)
    it.add_argument(
        "--clocked-resets",
        action="store_true",
        help="resets and latches change with the one clock alone: async2sync, in place of clk2fflogic",
    )
    it.add_argument("--zero-undefined", action="store_true", help="undefined bits are 0; else they are any, in each frame anew")
    it.add_argument("-o", "--output", type=Path, metavar="FOLDER", help="the folder of results (NAME.flow)")
    it.add_argument("--json", action="store_true", help="print results.json, and all else on standard error")
    it.add_argument("--hwtool", metavar="PROGRAM", help="the program that checks; else the one beside hwtool-flow, or on the path")
    return it


def words_of(arguments: List[str]) -> argparse.Namespace:
    """What the words say."""
    it = parser()
    words = it.parse_args(arguments)
    refuse_without_effect(it, words)
    return words


def refuse_without_effect(parser: Words, words: argparse.Namespace) -> None:
    """Refuses words that would have no effect."""
    if bool(words.design) == bool(words.read):
        parser.error("files of a design, or --read SCRIPT")
    of_recipe = {"--top": words.top, "--param": words.param}
    of_recipe.update({"--clocked-resets": words.clocked_resets, "--zero-undefined": words.zero_undefined})
    of_verilog = {**of_recipe, "-I": words.include, "-D": words.define, "--read": words.read}
    without = {}
    if words.yosys:
        without = {**of_recipe, "--read": words.read, **({"-I": words.include, "-D": words.define} if script_reads(words.yosys) else {})}
    elif words.design and not is_verilog(words.design):
        without = of_verilog
    for name, value in without.items():
        if value:
            parser.error(f"{name} has no effect {'beside --yosys SCRIPT' if words.yosys else 'on a design that is not in Verilog'}")


def whole(word: str) -> int:
    """A number from 1 on."""
    if not re.fullmatch(r"[1-9]\d{0,8}", word):
        raise argparse.ArgumentTypeError(f"{word}: no whole number from 1 on")
    return int(word)


def seconds(word: str) -> float:
    """A number of seconds above 0."""
    if not re.fullmatch(r"\d{1,9}([.]\d+)?", word) or float(word) == 0:
        raise argparse.ArgumentTypeError(f"{word}: no number of seconds")
    return float(word)


def folder_named(words: argparse.Namespace) -> Path:
    """The folder of results."""
    return words.output or Path(f"{(words.design or [words.read])[0].stem}.flow")


SIGNALS = (signal.SIGINT, signal.SIGTERM, signal.SIGHUP)


def obey_signals(runner: Runner) -> List[int]:
    """Has a signal stop all that runs; the list that is answered then has its number."""
    seen: List[int] = []

    def stop(number: int, _frame: object) -> None:
        seen.append(number)
        runner.stop()

    for number in SIGNALS:
        signal.signal(number, stop)
    return seen


def pass_over_signals() -> None:
    """Has no further signal change how this ends."""
    for number in SIGNALS:
        signal.signal(number, signal.SIG_IGN)


def status_of(words: argparse.Namespace, runner: Runner) -> int:
    """Does all that the words ask for."""
    there = Tools.found(words, runner)
    folder = Folder(folder_named(words), inputs_of(words))
    try:
        return Run(words, runner, folder, there).status()
    finally:
        runner.end_strays()
        folder.end()
        for line in folder.notes:
            fault(line, Status.BROKE)


def main(arguments: List[str]) -> int:
    """All of hwtool-flow; answers its exit status."""
    sys.stdout.reconfigure(errors="backslashreplace")
    words = words_of(arguments)
    runner = Runner()
    signals = obey_signals(runner)
    try:
        return status_of(words, runner)
    except Stopped:
        return fault("stopped; the same words go on from here", 128 + signals[0] if signals else Status.BROKE)
    except WordsRefused as why:
        return fault(str(why), Status.WORDS_REFUSED)
    except InputRefused as why:
        return fault(str(why), Status.INPUT_REFUSED)
    except (Broke, OSError) as why:
        return fault(str(why), Status.BROKE)
    finally:
        pass_over_signals()


def fault(line: str, status: int) -> int:
    """Tells why nothing more is done, and answers the status."""
    try:
        print(f"hwtool-flow: {line}", file=sys.stderr)
    except OSError:
        pass
    return status
