#!/usr/bin/env python3
"""Tries tools/hwtool-flow: designs, folders, engines that lie in each way, runs that are stopped, devices that fail, the page.

    flow_tool.py [PROGRAM] [--only NAME] [--screenshot FILE]

PROGRAM is the `hwtool` that checks, crates/hwtool/out/hwtool where none is given. What is wanted of each property is worked out by
hand from the design, and the frame is the first in which it can fail. Yosys, ABC and CaDiCaL are needed; the page is looked at where
`chromium` is there, a full disk where a small file system can be mounted, and what is hostile is tried by root alone, as a user made
for it. It says what was tried. The status is 0 where all is as it should be, else 1. The tries stand in the package `flow`.
"""
import argparse
import os
import sys
import tempfile
import time

from flow import designs, devices, engines, folders, hostile, page, rooted, signals, stops, verilog
from flow.common import MARK, TOP, Place, tally

# The groups of tries, by name.
GROUPS = {
    "designs": designs.try_designs,
    "truths": verilog.try_truths,
    "reading": verilog.try_reading,
    "words": designs.try_words,
    "names": designs.try_names,
    "folders": folders.try_folders,
    "rooted": rooted.try_rooted,
    "hostile": hostile.try_hostile,
    "lies": engines.try_lies,
    "other_forms": engines.try_other_forms,
    "going_on": stops.try_going_on,
    "stopped": stops.try_stopped,
    "signals": signals.try_signals,
    "many": stops.try_many,
    "devices": devices.try_devices,
    "missing": devices.try_missing,
    "installed": devices.try_installed,
}


def main() -> None:
    """Runs the groups, each in a folder of its own, and says what came of them."""
    words = argparse.ArgumentParser(description="tries hwtool-flow")
    words.add_argument("program", nargs="?", default=str(TOP / "crates/hwtool/out/hwtool"))
    words.add_argument("--screenshot", metavar="FILE")
    words.add_argument("--only", metavar="NAME", help="one of the groups of tries")
    words = words.parse_args()
    groups = {**GROUPS, "page": lambda place: page.try_page(place, words.screenshot and os.path.abspath(words.screenshot))}
    if words.only not in (None, *groups):
        words.error(f"--only is one of {', '.join(groups)}")
    with tempfile.TemporaryDirectory() as folder:
        os.environ[MARK] = os.path.realpath(folder)
        # what runs leave that are killed is removed with the rest
        os.environ["TMPDIR"] = os.path.join(os.path.realpath(folder), "tmp")
        os.mkdir(os.environ["TMPDIR"])
        os.chmod(os.environ["TMPDIR"], 0o1777)
        place = Place(os.path.realpath(folder), os.path.abspath(words.program))
        for name, group in groups.items():
            if words.only in (None, name):
                began = time.monotonic()
                group(place)
                print(f"hwtool-flow, {name}: {time.monotonic() - began:.0f} s", flush=True)
    print(f"hwtool-flow: {tally.tried} tried, {tally.wrong} wrong")
    sys.exit(1 if tally.wrong else 0)


if __name__ == "__main__":
    main()
