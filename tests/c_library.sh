#!/usr/bin/env bash
# Tries the library for C programs: tests/c_library.sh [PROGRAM [FOLDER]], where PROGRAM is hwtool, or the one that `rt run` builds
# in crates/hwtool, and FOLDER has libhwtool.a and libhwtool.so, which are built where none is given. It compiles the example in C
# with warnings as errors, plainly and with the address and undefined-behaviour sanitizers where they are there, runs it and the
# example in Python over examples/, and tries each call over the texts of each row of the gate, over every cut of some, with
# buffers that are too small, and with each allocation refused in turn.
set -euo pipefail
top=$(cd "$(dirname "$(readlink -f "$0")")/.." && pwd)
program=$(readlink -f "${1:-$top/crates/hwtool/out/hwtool}")
folder=$(readlink -f "${2:-.}")
cd "$top"
work=$(mktemp -d)
trap 'rm -rf "$work"' EXIT
if [ $# -gt 1 ]; then
    cp "$folder/libhwtool.a" "$folder/libhwtool.so" "$work"
else
    tools/release.py --libraries "$work" 2>"$work/log" || { tail -n 20 "$work/log"; exit 1; }
fi

tried=0 wrong=0
# same NAME EXPECTED GOT: two texts are one
same() {
    tried=$((tried + 1))
    [ "$2" = "$3" ] && return
    wrong=$((wrong + 1))
    printf '%s: expected\n%s\ngot\n%s\n' "$1" "$2" "$3"
}

# the package in Python is loaded from the sources, over the library that was built, and leaves nothing beside them
export HWTOOL_LIBRARY="$work/libhwtool.so" PYTHONPATH=python PYTHONDONTWRITEBYTECODE=1

flags="-std=c11 -Wall -Wextra -Werror -Iinclude"
"${CC:-cc}" $flags examples/c/judge.c "$work/libhwtool.a" -o "$work/judge"
judges=("$work/judge")
if "${CC:-cc}" $flags -g -fsanitize=address,undefined examples/c/judge.c "$work/libhwtool.a" -o "$work/judge-sanitized" 2>/dev/null; then
    judges+=("$work/judge-sanitized")
fi
if command -v c++ >/dev/null; then
    same "the header in C++" "" "$(echo '#include "hwtool.h"' | c++ -Wall -Wextra -Werror -Iinclude -x c++ -fsyntax-only - 2>&1)"
fi
for witness in examples/*.witness; do
    model=${witness%.witness}.btor2
    [ -f "$model" ] || continue
    status=0; told=$("$program" check-btor "$model" "$witness") || status=$?
    [ "$status" = 0 ] || told="status $status"
    for judge in "${judges[@]}" "python3 examples/python/judge.py"; do
        status=0; got=$($judge "$model" "$witness") || status=$?
        [ "$status" = 0 ] || got="status $status"
        same "$judge $model" "$told" "$got"
    done
done
echo "examples: $tried tried, $wrong wrong"
[ "$wrong" = 0 ]
"${CC:-cc}" $flags tests/c/refused.c "$work/libhwtool.a" -Wl,--wrap=malloc,--wrap=realloc -o "$work/refused"
"$work/refused" examples/wraps.btor2 examples/counter.witness examples/twice.aag examples/twice.witness \
    examples/wraps.invariant examples/wraps.proof
python3 tests/c_library.py "$work/libhwtool.so" "$program"
