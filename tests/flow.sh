#!/bin/sh
# From a design in Verilog to a counterexample or a proof that is judged, where yosys, berkeley-abc, cadical and z3 are installed
# (Debian: apt-get install yosys berkeley-abc cadical z3): tests/blocks.py runs each block of docs/FLOW.md, which says what stands
# there; and each bad property of each model of examples/ is looked for by ABC in its engine form. What is found is restored and lifted,
# and judged anew; what is proved is proved by CaDiCaL from ABC's invariant, and judged, also with a cube less. Witness circuits are
# made of that invariant, and of inductions over each property, and judged whole and spoilt. What is kept in examples/ is judged too,
# and where GTKWave is installed (gtkwave, xvfb) the dumps of witnesses are opened. tests/witness_circuits.py and tests/flow_tool.py
# try more. It is run by hand, beside the gate: tests/flow.sh [PROGRAM]. Where one of the four is not installed it says so and ends well.
set -u
top=$(cd "$(dirname "$0")/.." && pwd)
program=$(readlink -f "${1:-$top/crates/hwtool/out/hwtool}")
for tool in yosys berkeley-abc cadical z3; do
    if ! command -v "$tool" >/dev/null; then
        echo "flow: $tool is not installed, so nothing was tried"
        exit 0
    fi
done
folder=$(mktemp -d)
trap 'rm -rf "$folder"' EXIT
mkdir "$folder/bin"
ln -s "$program" "$folder/bin/hwtool"
ln -s "$top/tools/yw-witness.py" "$folder/bin/yw-witness.py"
ln -s "$top/tools/witness-circuit.py" "$folder/bin/witness-circuit.py"
ln -s "$top/tools/hwtool-flow" "$folder/bin/hwtool-flow"
PATH=$folder/bin:$PATH
count=0
failed=0

# tell WHAT: one thing was tried, and is not as it should be
tell() {
    echo "flow: $1"
    failed=$((failed + 1))
}

# the page, whose folder is kept
flow=$folder/pages/docs-FLOW/hwtool/examples/flow
if ! python3 "$top/tests/blocks.py" --folder "$folder/pages" "$program" docs/FLOW.md >"$folder/said"; then
    cat "$folder/said"
    tell "docs/FLOW.md says otherwise"
fi
count=$((count + $(sed -n 's/.* with \([0-9]*\) commands.*/\1/p' "$folder/said")))
cd "$flow" || exit 1

# clocks WANTED NAME ITEMS: whether one-clock.ys stops Yosys at a design with these items, or lets it go on
clocks() {
    count=$((count + 1))
    printf 'module top (input clk, other, input [1:0] clks, input d, output reg q, r);\n%s\nendmodule\n' "$3" >clocks.v
    seen=stops
    yosys -q -p "read_verilog -formal clocks.v; prep -flatten -top top; memory_map; script one-clock.ys" >log 2>&1 && seen=goes
    [ "$seen" = "$1" ] || tell "one-clock.ys, $2: it $seen"
}
clocks goes "no register" 'always @* begin q = d; r = clk; end'
clocks goes "one clock" 'always @(posedge clk) begin q <= d; r <= q; end'
clocks goes "one clock and a reset" 'always @(posedge clk, posedge other) if (other) q <= 0; else q <= d; always @(posedge clk) r <= q;'
clocks goes "falling edges alone" 'always @(negedge clk) begin q <= d; r <= q; end'
clocks stops "two clocks" 'always @(posedge clk) q <= d; always @(posedge other) r <= q;'
clocks stops "both edges" 'always @(posedge clk) q <= d; always @(negedge clk) r <= q;'
clocks stops "bits of a signal" 'always @(posedge clks[0]) q <= d; always @(posedge clks[1]) r <= q;'
clocks stops "a gated clock" 'wire gated = clk & d; always @(posedge clk) q <= d; always @(posedge gated) r <= q;'
clocks stops "a divided clock" 'always @(posedge clk) q <= !q; always @(posedge q) r <= d;'
clocks stops "the formal clock" '(* gclk *) reg each; always @(posedge each) q <= d; always @(posedge clk) r <= q;'
clocks stops "a memory's clocks" 'reg m [0:1]; always @(posedge clk) m[d] <= d; always @(posedge other) q <= m[d];'
clocks stops "an assertion's clock" 'always @(posedge clk) q <= d; always @(posedge other) assert (q);'

# found ENGINE MODEL CIRCUIT K: what an engine of ABC finds for bad property K, judged over the circuit and over the model
found() {
    rm -f cex
    berkeley-abc -q "read_aiger form.aig; $1; write_cex -a cex" >log 2>&1
    [ -s cex ] || return 1
    hwtool restore --abc --bad "$4" "$3" cex >bits 2>told || tell "$2, b$4, $1: the circuit's counterexample: $(cat told)"
    hwtool check-aig "$3" bits >again || tell "$2, b$4, $1: the circuit's witness: $(cat again)"
    cmp -s told again || tell "$2, b$4, $1: restored as '$(cat told)', judged as '$(cat again)'"
    hwtool lift "$2" bits >words 2>told || tell "$2, b$4, $1: its lifting: $(cat told)"
    hwtool check-btor "$2" words >again || tell "$2, b$4, $1: the model's witness: $(cat again)"
    hwtool lift --engine --abc --bad "$4" "$2" cex >direct 2>told || tell "$2, b$4, $1: its lifting at once: $(cat told)"
    cmp -s words direct || tell "$2, b$4, $1: lifted at once to another witness"
    # the same as a witness of the form, as the AIGER format has them
    {
        printf '1\nb0\n'
        head -n 1 form.aig | awk '{ for (k = 0; k < $4; k++) printf "0"; print "" }'
        sed -e 1d -e 's/#.*//' -e '/^ *$/d' cex
        echo .
    } >form.bits
    hwtool check-aig form.aig form.bits >again || tell "$2, b$4, $1: the form's witness: $(cat again)"
    hwtool restore --bad "$4" "$3" form.bits >bits-of-form 2>told || tell "$2, b$4, $1: restored from the form's witness: $(cat told)"
    cmp -s bits bits-of-form || tell "$2, b$4, $1: restored from the form's witness to another one"
    hwtool lift --engine --bad "$4" "$2" form.bits >direct 2>told || tell "$2, b$4, $1: the form's witness lifted at once: $(cat told)"
    cmp -s words direct || tell "$2, b$4, $1: the form's witness lifted at once to another one"
    hwtool check-btor "$2" words >again
    grep -q '^accepted' again || tell "$2, b$4, $1: not accepted"
    opens "$2" words
}

# refuted: whether CaDiCaL refutes o.cnf, with o.drat as its proof
refuted() {
    cadical -q --no-binary o.cnf o.drat >log
    [ $? -eq 20 ]
}

# holds MODEL CIRCUIT K: a property that ABC proves is one by its invariant, over the model and over the circuit; and with a cube
# less only where CaDiCaL says so too
holds() {
    count=$((count + 1))
    berkeley-abc -q "read_aiger form.aig; strash; pdr -T 20 -d -I inv.pla" >log 2>&1
    hwtool obligation --bad "$3" -o o.cnf "$1" inv.pla || tell "$1, b$3: no obligation"
    refuted || tell "$1, b$3: CaDiCaL does not refute the obligation"
    hwtool obligation --aiger --bad "$3" -o c.cnf "$2" inv.pla || tell "$1, b$3: no obligation over the circuit"
    cmp -s o.cnf c.cnf || tell "$1, b$3: another obligation over the circuit"
    hwtool check-proof --bad "$3" "$1" inv.pla o.drat >told || tell "$1, b$3: $(cat told)"
    hwtool check-proof --aiger --bad "$3" "$2" inv.pla o.drat >again || tell "$1, b$3: over the circuit $(cat again)"
    [ "$(cat told)" = "holds: b$3" ] && cmp -s told again || tell "$1, b$3: told as '$(cat told)' and '$(cat again)'"
    cubes=$(grep -c '^[-01]* 1$' inv.pla)
    cube=1
    while [ "$cube" -le "$cubes" ]; do
        count=$((count + 1))
        awk -v c="$cube" '/^[.]p / { print ".p " $2 - 1; next } / 1$/ && !/^[.]/ { n++; if (n == c) next } { print }' inv.pla >less.pla
        hwtool obligation --bad "$3" -o o.cnf "$1" less.pla || tell "$1, b$3, without cube $cube: no obligation"
        if refuted; then wanted=0; else wanted=1; fi
        hwtool check-proof --bad "$3" "$1" less.pla o.drat >told
        [ $? -eq "$wanted" ] || tell "$1, b$3, without cube $cube: $(cat told)"
        cube=$((cube + 1))
    done
}

# over CIRCUIT WITNESS_CIRCUIT WORD ..: a witness circuit holds where it guards the property of that circuit, and so do those that
# are made of it by spoiling it, and nowhere else
over() {
    count=$((count + 1))
    python3 "$top/tests/witness_circuits.py" "$folder/bin/hwtool" --over "$@" >over.log || tell "$*: $(cat over.log)"
}

# circuits MODEL CIRCUIT K WORD: witness circuits of the invariant that ABC found, if it did, and of inductions. WORD is --rises where
# the property can rise
circuits() {
    cp form.aig "form-$3.aig"
    echo "${4-}" >"rises-$3"
    if [ -s inv.pla ]; then
        count=$((count + 1))
        witness-circuit.py --invariant inv.pla -o "of-$3.aig" form.aig || tell "$1, b$3: no witness circuit of the invariant"
        hwtool obligation --circuit --engine --bad "$3" -o o.cnf "$1" "of-$3.aig" || tell "$1, b$3: no obligation of a witness circuit"
        refuted || tell "$1, b$3: CaDiCaL does not refute the obligation of a witness circuit"
        hwtool obligation --circuit --engine --aiger --bad "$3" -o c.cnf "$2" "of-$3.aig" || tell "$1, b$3: none over the circuit"
        cmp -s o.cnf c.cnf || tell "$1, b$3: another obligation of a witness circuit over the circuit"
        hwtool check-proof --circuit --engine --bad "$3" "$1" "of-$3.aig" o.drat >told
        [ "$(cat told)" = "holds: b$3" ] || tell "$1, b$3: a witness circuit of the invariant: $(cat told)"
        cadical -q o.cnf o.drat >log
        hwtool check-proof --circuit --engine --aiger --bad "$3" "$2" "of-$3.aig" o.drat >told
        [ "$(cat told)" = "holds: b$3" ] || tell "$1, b$3: the same by a binary proof over the circuit: $(cat told)"
    fi
    for depth in 1 2 3; do
        witness-circuit.py --induction "$depth" --bad "$3" -o induction.aag "$2" || tell "$1, b$3: no witness circuit of an induction"
        over "$2" induction.aag --number "$3" ${4:+"$4"} -- --bad "$3" "$1"
    done
}

# of_others MODEL: the witness circuits of invariants over the engine form of each property of the model
of_others() {
    for witness in of-*.aig; do
        [ -f "$witness" ] || continue
        for form in form-*.aig; do
            k=${form#form-}
            k=${k%.aig}
            rises=$(cat "rises-$k")
            over "$form" "$witness" ${rises:+"$rises"} -- --engine --bad "$k" "$1"
        done
    done
}

# opens MODEL WITNESS: the dump of a witness is read by GTKWave's converter, and by GTKWave, which has all its signals; where
# they are installed
opens() {
    command -v gtkwave >/dev/null && command -v vcd2fst >/dev/null && command -v xvfb-run >/dev/null || return 0
    count=$((count + 1))
    hwtool wave --all -o dump.vcd "$1" "$2" 2>/dev/null
    vcd2fst dump.vcd dump.fst >log 2>&1 || tell "$1: vcd2fst does not read the dump of $2"
    printf 'puts "signals [ gtkwave::getNumFacs ]"\nexit\n' >quit.tcl
    timeout 60 xvfb-run -a gtkwave dump.vcd -S quit.tcl >log 2>&1
    grep -qx "signals $(grep -c '^[$]var ' dump.vcd)" log || tell "$1: GTKWave does not show the dump of $2"
}

# what is kept in examples/
for proof in "$top"/examples/*.proof; do
    count=$((count + 1))
    base=${proof%.proof}
    if [ ! -f "$base.invariant" ]; then
        set -- "$base.btor2"
        [ -f "$1" ] || set -- --aiger "$base.aag"
        [ "$(hwtool check-proof --circuit "$@" "$base"-witness.a?g "$proof")" = "holds: b0" ] || tell "$proof: it does not hold"
        continue
    fi
    k=$(hwtool show "$base.btor2" | sed -n 's/^; .* \([0-9]*\) bad, .*/\1/p')
    k=$((k - 1))
    [ "$(hwtool check-proof --bad "$k" "$base.btor2" "$base.invariant" "$proof")" = "holds: b$k" ] || tell "$proof: it does not hold"
done

cd "$folder" || exit 1
for witness in "$top"/examples/*.witness; do
    model=$(echo "${witness%.witness}" | sed 's/-short$//').btor2
    [ ! -f "$model" ] || opens "$model" "$witness"
done
for model in "$top"/examples/*.btor2 "$flow"/*.btor2; do
    hwtool lower -o circuit.aag "$model" 2>/dev/null || continue
    bads=$(hwtool show "$model" | sed -n 's/^; .* \([0-9]*\) bad, .*/\1/p')
    k=0
    rm -f of-*.aig form-*.aig
    while [ "$k" -lt "$bads" ]; do
        rm -f inv.pla
        hwtool lower --engine --bad "$k" --binary -o form.aig "$model" || tell "$model, b$k: no engine form"
        ways=
        for engine in "bmc3 -F 40" "strash; bmc3 -F 40" "pdr -T 20" "strash; pdr -T 20"; do
            count=$((count + 1))
            if found "$engine" "$model" circuit.aag "$k"; then
                ways="$ways found"
            elif grep -q 'Property proved' log; then
                ways="$ways proved"
            fi
        done
        case $ways in
        *found*proved* | *proved*found*) tell "$model, b$k: found by one engine, and excluded by another" ;;
        *proved*)
            holds "$model" circuit.aag "$k"
            circuits "$model" circuit.aag "$k"
            ;;
        *found*) circuits "$model" circuit.aag "$k" --rises ;;
        *) circuits "$model" circuit.aag "$k" ;;
        esac
        echo "$(basename "$model") b$k:${ways:- nothing found}"
        k=$((k + 1))
    done
    of_others "$model"
done

for tool in gtkwave vcd2fst xvfb-run; do
    command -v "$tool" >/dev/null || echo "left out: dumps in GTKWave, since $tool is not installed"
done
echo "$count tried, $failed not as they should be"
[ "$failed" -eq 0 ]
