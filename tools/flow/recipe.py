"""The steps of Yosys, and what each is for; docs/FLOW.md says it at length."""
from pathlib import Path
from typing import List, Sequence

from .statements import Says

# Marks on cells: clocked, and asked where an asynchronous reset acts. Later steps cannot tell either.
CLOCKED, IN_RESET = "hwtool_clocked", "hwtool_in_reset"
FORMAL = " ".join([f"t:{Says.ASSERT.cell}", *(f"t:{it.cell} %u" for it in list(Says)[1:])])
# Cells whose word Verilog leaves x where an index is out of range, or a divisor is 0.
WITH_X = "t:$shiftx t:$div t:$mod t:$divfloor t:$modfloor %u %u %u %u"
# Registers that Yosys puts before formal cells.
OF_FORMAL = "w:$formal$*_EN w:$formal$*_CHECK %u"

# What merges equal cells and drops unused ones, once; no formal cell is merged, and no register without an initial value.
SMALLER_ONCE = [
    "opt_expr -keepdc",
    "opt_clean",
    "opt_muxtree",
    "opt_reduce",
    f"select -set formal {FORMAL}",
    "opt_merge -keepdc @formal %n",
]
SMALLER = [*SMALLER_ONCE, *SMALLER_ONCE, "opt_expr -keepdc", "opt_clean"]


def beside(name: str) -> Path:
    """A map of cells that stands beside this file."""
    return Path(__file__).with_name(name)


def flattening(top: str, parameters: Sequence[str], clocked_map: str, hierarchy: str, flat: str, seen: str) -> List[str]:
    """The design as one module, before any step that changes what is asked; three texts of it are written."""
    return [
        # `hierarchy -chparam` takes no strings
        *([f"chparam {' '.join(parameters)} {top}"] if parameters else []),
        f"hierarchy -check -top {top}",
        f"write_rtlil {hierarchy}",
        # what kept modules and white boxes assert would vanish
        "setattr -mod -unset keep_hierarchy",
        "setattr -unset keep_hierarchy",
        # registers `$formal$.._EN` and `.._CHECK` then stand before each clocked cell, and multiplexers before those
        "proc -noopt",
        f"select -set made {OF_FORMAL}",
        # asked where an asynchronous reset acts: its enable is loaded by the reset, or reset to 1
        f"setattr -unset {IN_RESET} -unset {CLOCKED}",
        "select -set reset w:$formal$*_EN %ci1:+[Q] t:$aldff t:$adff r:ARST_VALUE=1'1 %i %u %i"
        f" %co1:+[Q] w:$formal$*_EN %i %co1:+[EN] {FORMAL} %i",
        f"setattr -set {IN_RESET} 1 @reset",
        # in the other branch the register would forget a failure whose edge raises the reset
        "select -set slow @made %ci1:+[Q] t:$adff t:$aldff %u %i",
        f"techmap -map {clocked_map} @slow",
        f"select -set late w:$formal$*_EN %ci1:+[Q] t:$dff t:$ff %u %i %co1:+[Q] w:$formal$*_EN %i %co1:+[EN] {FORMAL} %i",
        f"setattr -set {CLOCKED} 1 @late",
        "select -clear",
        "flatten -wb",
        "tribuf -formal",
        "check",
        f"write_rtlil {flat}",
        *SMALLER,
        f"write_rtlil {seen}",
    ]


# With one clock what is clocked is judged in the frame of the edge, and no register that Yosys made for it is left.
EARLY = ["chformal -early", "opt_clean", "select -assert-none t:$dff t:$ff %u %co1:+[Q] w:*$formal$*_EN %i"]


def whole(named: str, top: str, boxes: Sequence[str], in_steps: bool, with_async: bool, free_map: str, zero: bool) -> List[str]:
    """From the flat design, in which each formal cell has a name of its own, to what `write_btor` takes."""
    settled = [*([] if in_steps else EARLY)]
    free = f"techmap {'-D ZERO ' if zero else ''}-max_iter 1 -map {free_map} {WITH_X}"
    # clocked cells come a step behind what they sample, so that the others wait a step too
    steps = ["clk2fflogic", "memory_map -formal", f"chformal -assert -assume -cover -delay 1 a:{CLOCKED} %n"]
    edges = ["memory_map -keepdc", *(["async2sync"] if with_async else [])]
    return [
        f"read_rtlil {named}",
        f"hierarchy -top {top}",
        *(f"cutpoint t:{it}" for it in boxes),
        *settled,
        free,
        *SMALLER,
        "memory_collect",
        "check",
        *(steps if in_steps else edges),
        "chformal -live -fair -remove",
        *(["setundef -undriven -zero"] if zero else []),
        "opt_expr -keepdc",
        "opt_clean",
        "dffunmap",
    ]


def writing(model: str, cover: str, enables: str, enables_map: str) -> List[str]:
    """The model with a bad property for each assertion; for each cover; and for each assertion where it is asked at all."""
    return [
        f"write_btor {model}",
        f"write_btor -c {cover}",
        "chformal -cover -remove",
        f"techmap -max_iter 1 -map {enables_map} t:$assert",
        f"write_btor -c {enables}",
    ]
