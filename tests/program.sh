#!/usr/bin/env bash
# Runs the built program as a user or a script does, and looks at its exit statuses and at what it prints: words that
# are no text, full and closed devices, files that are not there, help and the version. Give the program's path, or
# none for the one that `rt run` builds in crates/hwtool. The status is 0 where all is as it should be, else 1.
set -u
top=$(cd "$(dirname "$(readlink -f "${BASH_SOURCE[0]}")")/.." && pwd)
program=$(readlink -f "${1:-$top/crates/hwtool/out/hwtool}")
folder=$(mktemp -d) || exit 1
trap 'rm -rf "$folder"' EXIT
cd "$folder" || exit 1
cp "$top"/examples/toggler.btor2 model.btor2
cp "$top"/examples/toggler.witness witness
printf 'aag 1 0 1 0 0 1\n2 3\n2\nl0 t[0]\n' >circuit
printf '1\nb0\n0\n\n\n.\n' >bits
printf '0\n0\n0# DONE\n' >cex
printf 'add 8 255 1 0\n' >vectors
cp "$top"/examples/wraps.btor2 "$top"/examples/wraps.invariant "$top"/examples/wraps.proof .
failed=0
count=0

# expect NAME STATUS TEXT-OF-STANDARD-ERROR: what the last command, whose status is in `status`, should have done
expect() {
    count=$((count + 1))
    if [ "$status" != "$2" ]; then
        echo "$1: status $status, not $2"
        failed=$((failed + 1))
    elif [ "$(cat err)" != "$3" ]; then
        echo "$1: standard error has '$(cat err)', not '$3'"
        failed=$((failed + 1))
    fi
}

# expect_line NAME FILE LINE: a file has this line
expect_line() {
    count=$((count + 1))
    if ! grep -qxF -- "$3" "$2"; then
        echo "$1: no line '$3'"
        failed=$((failed + 1))
    fi
}

# expect_nothing NAME FILE: a file is empty
expect_nothing() {
    count=$((count + 1))
    if [ -s "$2" ]; then
        echo "$1: $2 has '$(cat "$2")'"
        failed=$((failed + 1))
    fi
}

# wrong TEXT: what was seen is not as it should be
wrong() {
    echo "$1"
    failed=$((failed + 1))
}

[ -x "$program" ] || {
    echo "$program is not built: run rt run in crates/hwtool"
    exit 1
}

# commands that are done, and a witness that is not accepted
"$program" lower model.btor2 >out 2>err; status=$?
expect "lower" 0 ""
expect_line "lower" out "aag 1 0 1 0 0 1"
"$program" lower --binary model.btor2 >out 2>err; status=$?
expect "lower --binary" 0 ""
expect_line "lower --binary" out "aig 1 0 1 0 0 1"
"$program" cost - <model.btor2 >out 2>err; status=$?
expect "cost" 0 ""
expect_line "cost" out "gates 0"
expect_line "cost" out "variables 1"
"$program" <model.btor2 >out 2>err; status=$?
expect "no words" 0 ""
expect_line "no words" out "aag 1 0 1 0 0 1"
"$program" check-btor model.btor2 - <witness >out 2>err; status=$?
expect "accepted" 0 ""
expect_line "accepted" out "accepted 2 frames"
echo unsat | "$program" check-btor model.btor2 - >out 2>err; status=$?
expect "not accepted" 1 ""
expect_line "not accepted" out "no claim"

# refused input
echo "1 sort bitvec 65" | "$program" show - >out 2>err; status=$?
expect "refused input" 2 "-: line 1: 5 WidthOutOfRange"

# files that are not there, or can't be read
"$program" lower missing.btor2 >out 2>err; status=$?
expect "a missing file" 3 "missing.btor2: device: no such file"
"$program" show "$folder" >out 2>err; status=$?
expect "a folder" 3 "$folder: device: is a folder"
for words in "lower" "lower --binary" "show" "cost" "aig-convert" "vectors"; do
    # shellcheck disable=SC2086
    "$program" $words . >out 2>err; status=$?
    expect "$words of a folder" 3 ".: device: is a folder"
    expect_nothing "$words of a folder" out
done
for command in check-btor check-aig lift; do
    first=model.btor2
    [ "$command" = check-aig ] && first=circuit
    "$program" "$command" . bits >out 2>err; status=$?
    expect "$command of a folder" 3 ".: device: is a folder"
    "$program" "$command" "$first" . >out 2>err; status=$?
    expect "$command with a folder in place of a witness" 3 ".: device: is a folder"
    expect_nothing "$command with a folder in place of a witness" out
    "$program" "$command" "$first" missing >out 2>err; status=$?
    expect "$command with no witness" 3 "missing: device: no such file"
    "$program" "$command" "$first" - <&- >out 2>err; status=$?
    expect "$command with closed standard input" 3 "-: device: error 9"
done
"$program" show - <&- >out 2>err; status=$?
expect "closed standard input" 3 "-: device: error 9"
"$program" check-btor - witness <&- >out 2>err; status=$?
expect "closed standard input in place of a model" 3 "-: device: error 9"

# words
"$program" lower $'model\xff.btor2' >out 2>err; status=$?
expect "a word that is no text" 4 "words: not UTF-8"
"$program" check-btor - - <model.btor2 >out 2>err; status=$?
expect "standard input twice" 4 "words: standard input is read once, so - stands for one file"
"$program" frobnicate >out 2>err; status=$?
expect "refused words" 4 "$(cat err)"
expect_line "refused words" err "Usage: hwtool <COMMAND>"
"$program" lower >out 2>err; status=$?
expect "lower of nothing" 4 "$(cat err)"
expect_line "lower of nothing" err "Usage: hwtool lower <MODEL>"
"$program" --help >out 2>err; status=$?
expect "help" 0 ""
expect_line "help" out "The file - is standard input. A file is read to its end, also behind its first fault."
expect_line "help" out "  2  the input is refused"
"$program" --version >out 2>err; status=$?
expect "version" 0 ""
expect_line "version" out "hwtool 0.16.0"

# certificates, kept in examples/: what holds, a file that is not there, and one file on standard input
for name in wraps guarded followers; do
    "$program" check-proof "$top/examples/$name".btor2 "$top/examples/$name".invariant "$top/examples/$name".proof >out 2>err; status=$?
    expect "check-proof $name" 0 ""
    expect_line "check-proof $name" out "holds: b0"
done
"$program" check-proof --lrat "$top"/examples/wraps.{btor2,invariant,lrat} >out 2>err; status=$?
expect "check-proof --lrat" 0 ""
expect_line "check-proof --lrat" out "holds: b0"
"$program" check-proof --bad 1 "$top"/examples/two-counters.{btor2,invariant,proof} >out 2>err; status=$?
expect "check-proof --bad 1" 0 ""
expect_line "check-proof --bad 1" out "holds: b1"
"$program" lower wraps.btor2 | "$program" check-proof --aiger - wraps.invariant wraps.proof >out 2>err; status=$?
expect "check-proof --aiger" 0 ""
expect_line "check-proof --aiger" out "holds: b0"
"$program" obligation -o owed wraps.btor2 - <wraps.invariant >out 2>err; status=$?
expect "obligation -o" 0 ""
expect_line "obligation -o" owed "p cnf 17 32"
expect_nothing "obligation -o" out
"$program" check-proof wraps.btor2 wraps.invariant nothere >out 2>err; status=$?
expect "a proof that is not there" 3 "nothere: device: no such file"

# refusals are explained as the tables of docs/REFUSALS.md say, which may have `|` in a cell as `\|`
"$program" explain >out 2>err; status=$?
expect "explain" 0 ""
sed 's/\\|/\x01/g' "$top/docs/REFUSALS.md" | awk -F ' *[|] *' '
    /^## / { part = substr($0, 4) }
    /^[|] [0-9]+ [A-Za-z]+ [|]/ { print $2 " (" part ")\n  when: " $3 "\n  do: " $4 }' | tr '\001' '|' >tables
count=$((count + 1))
if ! diff tables out >differences; then
    echo "explain: docs/REFUSALS.md says otherwise"
    cat differences
    failed=$((failed + 1))
fi
"$program" explain 20 >out 2>err; status=$?
expect "explain 20" 0 ""
expect_line "explain 20" out "20 BadToken (Texts of models)"
"$program" explain frobnicate >out 2>err; status=$?
expect "explain of no refusal" 4 "words: frobnicate is no number and no name of a refusal; hwtool explain tells all"

# results that go to a file, which is there only when all of one is written
"$program" lower -o result model.btor2 >out 2>err; status=$?
expect "lower -o" 0 ""
expect_line "lower -o" result "aag 1 0 1 0 0 1"
expect_nothing "lower -o" out
"$program" lift --output result model.btor2 bits >out 2>err; status=$?
expect "lift --output" 0 "accepted 2 frames"
expect_line "lift --output" result "sat"
echo "1 sort bitvec 65" | "$program" lower -o result - >out 2>err; status=$?
expect "lower -o of a refused model" 2 "-: line 1: 5 WidthOutOfRange"
expect_line "lower -o of a refused model" result "sat"
"$program" show -o result missing.btor2 >out 2>err; status=$?
expect "show -o of a missing file" 3 "missing.btor2: device: no such file"
expect_line "show -o of a missing file" result "sat"
"$program" lift -o result model.btor2 - <&- >out 2>err; status=$?
expect "lift -o that is cut off" 3 "-: device: error 9"
expect_line "lift -o that is cut off" result "sat"
"$program" show -o missing/result model.btor2 >out 2>err; status=$?
expect "show -o in no folder" 3 "missing/result: device: no such file"
"$program" show -o "$folder" model.btor2 >out 2>err; status=$?
expect "show -o onto a folder" 3 "$folder: device: is a folder"
"$program" show -o /dev/full model.btor2 >out 2>err; status=$?
expect "show -o onto a full device" 3 "/dev/full: device: no space left"
[ -c /dev/full ] || echo "show -o onto a full device: it is none any more"
"$program" show -o - model.btor2 >out 2>err; status=$?
expect "show -o -" 0 ""
expect_line "show -o -" out "7 bad 3"
ls result.* ./-* >left 2>/dev/null
expect_nothing "parts of results" left

# what -o promises: the file has the whole result or is as it was
ln -s result alias
"$program" show -o alias model.btor2 >out 2>err; status=$?
expect "show -o onto a link" 0 ""
expect_line "show -o onto a link" result "7 bad 3"
[ -L alias ] || wrong "show -o onto a link: it is none any more"
cp model.btor2 read.btor2
ln -sf read.btor2 alias
for name in read.btor2 alias ./read.btor2; do
    "$program" show -o "$name" read.btor2 >out 2>err; status=$?
    expect "show -o $name of the same file" 0 ""
    expect_line "show -o $name of the same file" read.btor2 "7 bad 3"
done
ln -s far/away lost
"$program" show -o lost model.btor2 >out 2>err; status=$?
expect "show -o onto a link into no folder" 3 "lost: device: no such file"
mkdir far
"$program" show -o lost model.btor2 >out 2>err; status=$?
expect "show -o onto a link to no file" 0 ""
expect_line "show -o onto a link to no file" far/away "7 bad 3"
ln -sf lost lost
"$program" show -o lost model.btor2 >out 2>err; status=$?
expect "show -o onto a link to itself" 3 "lost: device: too many links"
chmod 604 result
"$program" show -o result model.btor2 >out 2>err; status=$?
[ "$(stat -c %a result)" = 604 ] || wrong "show -o: a mode of $(stat -c %a result)"
(umask 027; "$program" show -o fresh model.btor2)
[ "$(stat -c %a fresh)" = 640 ] || wrong "show -o of a new file: a mode of $(stat -c %a fresh)"
name=$(printf 'n%.0s' $(seq 250))
"$program" show -o "$name" model.btor2 >out 2>err; status=$?
expect "show -o with a name of 250 bytes" 0 ""
expect_line "show -o with a name of 250 bytes" "$name" "7 bad 3"
"$program" show -o "$name$name" model.btor2 >out 2>err; status=$?
expect "show -o with a name of 500 bytes" 3 "$name$name: device: name too long"

# files that may not be read or written, as a user who is not all-powerful
if [ "$(id -u)" != 0 ]; then
    as_user() { "$@"; }
else
    chmod 711 "$folder"
    as_user() { setpriv --reuid=65534 --regid=65534 --clear-groups "$@"; }
fi
mkdir open closed
chmod 777 open
echo kept >open/fixed
chmod 444 open/fixed
as_user "$program" show -o open/fixed model.btor2 >out 2>err; status=$?
expect "show -o onto a file that may not be written" 3 "open/fixed: device: permission denied"
expect_line "show -o onto a file that may not be written" open/fixed "kept"
echo kept >closed/file
chmod 666 closed/file
chmod 555 closed
as_user "$program" show -o closed/file model.btor2 >out 2>err; status=$?
expect "show -o in a folder that may not be written" 3 "closed/file: device: permission denied"
expect_line "show -o in a folder that may not be written" closed/file "kept"
chmod 700 closed
: >secret
chmod 000 secret
as_user "$program" show secret >out 2>err; status=$?
expect "a file that may not be read" 3 "secret: device: permission denied"
"$program" show model.btor2/x >out 2>err; status=$?
expect "a file below a file" 3 "model.btor2/x: device: a part of its name is no folder"
"$program" show $'a\nb\e[31m\xc2\x9b' >out 2>err; status=$?
expect "a name with what a terminal obeys" 3 $'a?b?[31m\xc2?: device: no such file'

# a file system that is full, in one that may be mounted
if mkdir small && mount -t tmpfs -o size=40k none small 2>/dev/null; then
    echo kept >small/result
    seq 3 9000 | sed 's/$/ input 1/' | cat <(printf '1 sort bitvec 1\n') - >wide.btor2
    "$program" show -o small/result wide.btor2 >out 2>err; status=$?
    expect "show -o in a full folder" 3 "small/result: device: no space left"
    expect_line "show -o in a full folder" small/result "kept"
    ls small >left
    [ "$(cat left)" = result ] || wrong "show -o in a full folder: it has $(cat left)"
    umount small
fi

# a file that nobody writes is not waited for where an earlier one is refused
mkfifo unwritten
echo "1 sort bitvec 65" >refused.btor2
timeout 5 "$program" check-btor refused.btor2 unwritten >out 2>err; status=$?
expect "a refused model in front of a pipe that nobody writes" 2 "refused.btor2: line 1: 5 WidthOutOfRange"

# a pipe is written as it stands
cat unwritten >read &
"$program" show -o unwritten model.btor2 >out 2>err; status=$?
wait $!
expect "show -o onto a pipe" 0 ""
expect_line "show -o onto a pipe" read "7 bad 3"
[ -p unwritten ] || wrong "show -o onto a pipe: it is none any more"

# two writers of one file, of which the slower one is last; and one that is killed
(head -n 1 model.btor2; sleep 1; tail -n +2 model.btor2) | "$program" lower -o both - &
"$program" show -o both model.btor2 >out 2>err; status=$?
expect "show -o beside another writer" 0 ""
expect_line "show -o beside another writer" both "7 bad 3"
wait $!
expect_line "the other writer" both "aag 1 0 1 0 0 1"
(head -n 1 model.btor2; sleep 2) | "$program" lower -o both - &
sleep 0.5
pkill -KILL -f -- "$program lower -o both -"
wait 2>/dev/null
expect_line "a writer that is killed" both "aag 1 0 1 0 0 1"
[ "$(ls both.*.part | wc -l)" = 1 ] || wrong "a writer that is killed: no part"
"$program" show -o both model.btor2 >out 2>err; status=$?
expect "show -o beside the part of a killed run" 0 ""
rm both.*.part

# terminals
if command -v script >/dev/null; then
    script -qec "'$program' lower --binary model.btor2" /dev/null </dev/null >out 2>&1; status=$?
    tr -d '\r' <out >lines
    : >err
    expect "lower --binary to a terminal" 4 ""
    expect_line "lower --binary to a terminal" lines \
        "words: a binary circuit goes to no terminal: redirect standard output, or give -o FILE"
    script -qec "'$program' lower --binary -o result model.btor2" /dev/null </dev/null >out 2>&1; status=$?
    expect "lower --binary -o at a terminal" 0 ""
    expect_line "lower --binary -o at a terminal" result "aig 1 0 1 0 0 1"
    script -qec "'$program'" /dev/null </dev/null >out 2>&1; status=$?
    tr -d '\r' <out >lines
    expect "no words at a terminal" 0 ""
    expect_line "no words at a terminal" lines "Usage: hwtool <COMMAND>"
    script -qec "'$program' lower model.btor2" /dev/null </dev/null >out 2>&1; status=$?
    tr -d '\r' <out >lines
    expect "lower to a terminal" 0 ""
    expect_line "lower to a terminal" lines "aag 1 0 1 0 0 1"

    # work of more than two seconds, of which a terminal shows how far it is, unless that is left out
    slow="{ head -n 1 model.btor2; sleep 3; tail -n +2 model.btor2; }"
    script -qec "$slow | '$program' lower - >circuit.aag" /dev/null </dev/null >out 2>&1; status=$?
    expect "slow work at a terminal" 0 ""
    tr '\r' '\n' <out >lines
    expect_line "slow work at a terminal" lines "read 0 MB"
    tail -n 1 lines | tr -d ' \n' >left
    expect_nothing "slow work at a terminal: a line that is left" left
    script -qec "$slow | '$program' lower --quiet - >circuit.aag" /dev/null </dev/null >out 2>&1; status=$?
    expect "slow work at a terminal, quietly" 0 ""
    expect_nothing "slow work at a terminal, quietly" out
    sh -c "$slow" | "$program" lower - >out 2>err; status=$?
    expect "slow work at no terminal" 0 ""
fi

# a model of a hundred kilobytes whose circuit would have more than 2^30 variables by its bound
{
    printf '1 sort bitvec 64\n2 sort bitvec 1\n3 input 1\n4 input 1\n'
    seq 5 6548 | sed 's/$/ smulo 2 3 4/'
} >big.btor2
"$program" lower big.btor2 >out 2>err; status=$?
expect "a model that is too big" 2 "big.btor2: 93 TooBig"
expect_nothing "a model that is too big" out

# full and closed devices
for words in "--help" "--version" "lower model.btor2" "lower --binary model.btor2" "show model.btor2" "cost model.btor2" \
    "aig-convert circuit" "aig-convert --binary circuit" "aig-convert --outputs circuit" "tidy-witness witness" "check-btor model.btor2 witness" "check-aig circuit bits" \
    "lift model.btor2 bits" "wave model.btor2 witness" "restore --abc circuit cex" "vectors vectors" \
    "obligation wraps.btor2 wraps.invariant" "check-proof wraps.btor2 wraps.invariant wraps.proof"; do
    # shellcheck disable=SC2086
    "$program" $words >/dev/full 2>err; status=$?
    expect "$words onto a full device" 3 "output: device: no space left"
    # shellcheck disable=SC2086
    "$program" $words >&- 2>err; status=$?
    expect "$words onto closed standard output" 3 "output: device: error 9"
done

# a pipe that nothing reads any more, whose signal is ignored: the write fails
mkfifo pipe
for words in "--help" "lower model.btor2" "lift model.btor2 bits" "wave model.btor2 witness" "check-aig circuit bits"; do
    : <pipe &
    exec 3>pipe
    wait $!
    # shellcheck disable=SC2086
    (trap '' PIPE; exec "$program" $words >&3 2>err); status=$?
    exec 3>&-
    expect "$words onto a closed pipe" 3 "output: device: closed by its reader"
done
: >err
"$program" frobnicate >out 2>/dev/full; status=$?
expect "refused words onto a full device" 3 ""
"$program" frobnicate >out 2>&-; status=$?
expect "refused words onto closed standard error" 3 ""
"$program" lower $'\xff' >out 2>/dev/full; status=$?
expect "a word that is no text, onto a full device" 3 ""
"$program" --help >/dev/full 2>/dev/full; status=$?
expect "help and its failure onto full devices" 3 ""

# little memory: whatever is told, it is not a judgement, nor that the input is refused
if command -v prlimit >/dev/null; then
    word=$(head -c 100000 /dev/zero | tr '\0' a)
    for kilobytes in 3000 3500 4000 4500 5000; do
        { prlimit --as=$((kilobytes * 1024)) "$program" lower "$word" "$word" "$word" "$word" >out 2>err; } 2>/dev/null
        status=$?
        count=$((count + 1))
        if [ "$status" -le 2 ]; then
            echo "$kilobytes kilobytes of memory: status $status"
            failed=$((failed + 1))
        fi
    done
fi

if [ "$failed" != 0 ]; then
    echo "$failed of $count failed"
    exit 1
fi
echo "$count passed"
