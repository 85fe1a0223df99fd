"""check.sh, which confirms all verdicts of a run again, by `hwtool` alone, and says which file is not what was judged."""
import os
import shlex
from pathlib import Path
from typing import List

from .findings import count_of
from .model import Design, Verdict
from .results import Outcome, Results, Source
from .summary import findings, shown_by

HEAD = r"""#!/bin/sh
# Confirms each verdict of results.json anew, by hwtool alone: sh check.sh [PROGRAM]. Statuses: 0 all properties have verdicts, and all
# are confirmed; 1 one is not, or a file is not what was judged; 3 a tool is missing; 5 the same as 0, but that some are open.
hwtool=$(command -v "${1:-hwtool}") || { echo "check.sh: no ${1:-hwtool}" >&2; exit 3; }
case $hwtool in /*) ;; *) hwtool=$PWD/$hwtool ;; esac
cd "$(dirname "$0")" || exit 3
if command -v sha256sum >/dev/null; then
    digest() { sha256sum; }
elif command -v shasum >/dev/null; then
    digest() { shasum -a 256; }
else
    echo "check.sh: no sha256sum" >&2
    exit 3
fi
confirmed=0
wrong=0
differing=0

# is SUM FILE: whether a file has a sum
is() {
    [ -f "$2" ] && case $(digest <"$2") in "$1 "*) true ;; *) false ;; esac
}

# differs WORDS: tells what differs
differs() {
    differing=$((differing + 1))
    printf 'differs: %s\n' "$1"
}

# judged SUM FILE: a file is the one that was judged, and results.json says so
judged() {
    is "$1" "$2" || differs "$2 is not what was judged"
    [ -f results.json ] && grep -Fq -e "\"$1\"" results.json || differs "results.json tells another sum of $2"
}

# was_read SUM FILE: a file of the design is the one that was read, where it is still there
was_read() {
    if [ ! -f "$2" ]; then
        printf 'not there, and so not compared: %s\n' "$2"
    else
        is "$1" "$2" || differs "$2 is not what the model was made of"
    fi
}

# confirm TEXT LINE WORDS ..: the call does well, and says this line; TEXT is told before it, where it is over another than the model
confirm() {
    over=$1
    line=$2
    shift 2
    if said=$("$hwtool" "$@" 2>&1 </dev/null) && printf '%s\n' "$said" | grep -Fqx -e "$line"; then
        confirmed=$((confirmed + 1))
        echo "$over$line"
    else
        wrong=$((wrong + 1))
        printf 'not so: %s%s\n%s\n' "$over" "$line" "$said"
    fi
}

"""
END = r"""
line="$confirmed confirmed, $wrong not"
[ "$open" = 0 ] || line="$line, $open open"
[ "$differing" = 0 ] || line="$line, $differing differing"
echo "$line"
[ "$wrong$differing" = 00 ] || exit 1
[ "$open" = 0 ] || exit 5
"""


def seen_from(folder: Path, source: Path) -> str:
    """The path of a source in a folder: a relative one where both stand in one place, so that they may be moved together."""
    at, around = os.path.abspath(source), os.path.dirname(os.path.abspath(folder))
    return os.path.relpath(at, folder) if os.path.commonpath([at, around]) == around != "/" else at


def calls(word: str, *rest: str) -> str:
    """A line of the script."""
    return shlex.join([word, *rest])


def lines_of(it: Outcome, design: Design) -> List[str]:
    """The lines about one judgement: that its files are those that were judged, and its check."""
    files = [calls("judged", it.files[name], name) for name in it.command if name in it.files]
    return [*files, calls("confirm", shown_by(it, design), it.confirming_line(), *it.command)]


def source_line(source: Source, folder: Path) -> str:
    """The line about a file of the design."""
    return calls("was_read", source.sum, seen_from(folder, source.path))


def script(results: Results, folder: Path) -> str:
    """The text of check.sh, which stands in a folder."""
    lines = [f"open={count_of(findings(results), Verdict.OPEN)}"]
    note = calls("echo", f"check.sh: not the program of the run, which was {results.program.version}") + " >&2"
    lines.append(calls("is", results.program.sum) + f' "$hwtool" || {note}')
    lines += [source_line(it, folder) for it in results.sources]
    lines += [calls("judged", one.sum, one.name) for it in results.design.texts for one in it.kept]
    for it in results.judged():
        lines += lines_of(it, results.design) if it.verdict is not Verdict.OPEN else []
    return HEAD + "\n".join(lines) + "\n" + END
