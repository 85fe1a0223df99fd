#!/usr/bin/env bash
# For whoever has the toolchain and an hour: prints one page on what stands behind the released program. It checks the sums of
# what is released, proves and builds all that it was made of (what an earlier build kept of the same sources is taken, and
# said), compares what is built with what is released, says what is trusted, and tries five wrong bodies, one for each part of
# what is claimed, which the prover has to refuse. The status is 0 where all is as it should be, else 1.
set -euo pipefail
cd "$(dirname "$(readlink -f "${BASH_SOURCE[0]}")")/.."
export PYTHONDONTWRITEBYTECODE=1
work=$(mktemp -d)
trap 'rm -rf "$work"' EXIT
wrong=0

# part TEXT: begins a part of the page
part() {
    printf '\n%s\n\n' "$1"
}

printf 'hwtool %s, by %s\n' "$(release/hwtool --version | cut -d' ' -f2)" "$(rt version | head -n 1)"

part "1. The sums of what is released"
(cd release && sha256sum -c SHA256SUMS) | sed 's/^/  /' || wrong=1

part "2. Proved and built anew, and compared with what is released"
if tools/release.py "$work/release" >"$work/made" 2>"$work/said"; then
    tail -n 1 "$work/said" | sed 's/^hwtool: /  /'
    for file in "$work"/release/*; do
        name=$(basename "$file")
        if cmp -s "$file" "release/$name"; then
            echo "  the same  $name"
        else
            echo "  ANOTHER   $name"
            wrong=1
        fi
    done
else
    tail -n 20 "$work/said" | sed 's/^/  /'
    wrong=1
fi

part "3. What was proved, and what is trusted for it"
sed -n '/crates, .* functions/,/^Sums/p' "${work}/release/PROVED.txt" 2>/dev/null | sed '$d' | sed 's/^/  /'

part "4. Wrong bodies, one for each part of the claim, which the prover refuses"
tried() {
    echo "  $1:"
    tests/wrong_bodies.py "$2" 2>&1 | sed 's/^/  /' || wrong=1
}
tried "the lowered circuit" tests/wrong-bodies/gates/gate_is_dropped.edit
tried "its constraints and bad properties" tests/wrong-bodies/witness/breach_behind_the_first_frame_is_passed_over.edit
tried "a witness text is judged exactly" tests/wrong-bodies/witness/fault_is_told_a_line_late.edit
tried "lifting keeps the verdict" tests/wrong-bodies/lift/word_is_lifted_to_the_neighbour_of_its_state.edit
tried "it holds" tests/wrong-bodies/certificates/next_property_is_certified.edit

part "$([ "$wrong" = 0 ] && echo "All of this is as it should be." || echo "NOT ALL OF THIS IS AS IT SHOULD BE.")"
exit "$wrong"
