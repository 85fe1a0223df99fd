#!/usr/bin/env bash
# Tries what is released as those have it who have no toolchain: tests/release.sh, beside the gate. It takes what is committed
# into a folder of its own, without `rt` on the path and without anything built there; runs README's first command and the
# launcher, also as another user in a folder that can't be written; runs the program's tests, hostile texts and the rows of the
# gate; tells which versions of glibc its files ask for; installs into an empty prefix, and compiles and runs the examples from
# there, in C, C++ and Python; looks at the names that the libraries give out, the page and the completions; and runs the program in
# the plain userland of Debian 11, where debootstrap is installed. The status is 0 where all is as it should be, else 1.
set -uo pipefail
top=$(cd "$(dirname "$(readlink -f "${BASH_SOURCE[0]}")")/.." && pwd)
work=$(mktemp -d)
trap 'chmod -R u+w "$work"; rm -rf "$work"' EXIT
chmod 755 "$work"
tried=0 wrong=0 left=()

# good NAME COMMAND ..: a command does well; what it says is shown where it does not
good() {
    local name=$1
    shift
    tried=$((tried + 1))
    if ! "$@" >"$work/said" 2>&1; then
        wrong=$((wrong + 1))
        echo "$name:"
        tail -n 20 "$work/said"
    fi
}

# same NAME EXPECTED GOT: two texts are one
same() {
    tried=$((tried + 1))
    [ "$2" = "$3" ] && return
    wrong=$((wrong + 1))
    printf '%s: expected\n%s\ngot\n%s\n' "$1" "$2" "$3"
}

# at_most SECONDS COMMAND ..: a command is done in so many seconds
at_most() {
    timeout "$1" "${@:2}"
}

# what someone has who has cloned the repository, with a path on which no `rt` is
export PATH=/usr/local/sbin:/usr/sbin:/usr/bin:/sbin:/bin PYTHONDONTWRITEBYTECODE=1
command -v rt >/dev/null && echo "release.sh: rt is on the path even so"
git clone --quiet "$top" "$work/clone" && cd "$work/clone" || exit 1
toggler=$(printf 'aag 1 0 1 0 0 1\n2 3\n2\nl0 t[0]\n')
released=$work/clone/release
version=$("$released/hwtool" --version | cut -d' ' -f2)

# ---- the sums, the first command, the launcher

good "the sums" bash -c 'cd release && sha256sum --quiet -c SHA256SUMS'
same "README's first command" "$toggler" "$(at_most 1 release/hwtool lower examples/toggler.btor2)"
same "the launcher" "$toggler" "$(at_most 1 ./hwtool lower examples/toggler.btor2)"
same "the version" "hwtool $version" "$(at_most 1 ./hwtool --version)"
good "help of other sources" bash -c 'echo >>crates/base/src/lib.rt && timeout 1 ./hwtool --help && timeout 1 ./hwtool lower --help && git checkout -q crates'
good "other sources without a toolchain" bash -c 'echo >>crates/base/src/lib.rt && timeout 1 ./hwtool lower examples/toggler.btor2 && git checkout -q crates'
good "without git" bash -c 'mv .git ../git && timeout 1 ./hwtool lower examples/toggler.btor2 && mv ../git .git'
if [ "$(id -u)" = 0 ]; then
    chmod -R a+rX,a-w .
    same "another user, in a folder that can't be written" "$toggler" "$(at_most 1 setpriv --reuid=65534 --regid=65534 --clear-groups ./hwtool lower examples/toggler.btor2)"
    same "the launcher of an unwritten folder, by its whole path" "$toggler" "$(cd / && at_most 1 setpriv --reuid=65534 --regid=65534 --clear-groups "$work/clone/hwtool" lower "$work/clone/examples/toggler.btor2")"
    chmod -R u+w .
else
    left+=("another user: only root can be one")
fi

# ---- the program

good "tests/program.sh" tests/program.sh "$released/hwtool"
good "tests/hostile.py" python3 tests/hostile.py "$released/hwtool"
good "tests/rows.py" python3 tests/rows.py "$released/hwtool"
good "tests/dumps.py" python3 tests/dumps.py "$released/hwtool"
good "tests/restored_cuts.py" python3 tests/restored_cuts.py "$released/hwtool"
good "tests/start.py" python3 tests/start.py "$released/hwtool"

# ---- what is asked of glibc

# asked FILE: the versions of glibc that a file asks for, newest first, with the names that ask for each
asked() {
    objdump -T "$1" | sed -n 's/.*(GLIBC_\([0-9.]*\)) *\(.*\)/\1 \2/p' | sort -k1,1Vr -k2 |
        awk '$1 != version { if (version) print version ":" names; version = $1; names = "" } { names = names " " $2 } END { print version ":" names }'
}
for file in hwtool libhwtool.so; do
    asked "$released/$file" | sed -e "s/^/$file asks for glibc /" -e '/ 2.2.5: /s/:.*/ for the rest/'
    same "the newest version of glibc that $file asks for is 2.17 at most" 2.17 "$(asked "$released/$file" | sed -n '1s/:.*//p' | cat - <(echo 2.17) | sort -V | tail -n 1)"
done

# ---- the libraries

same "names that are given out" "" "$(nm -D --defined-only "$released/libhwtool.so" | awk '$3 !~ /^hwtool_/')"
same "names that the archive gives out" "$(nm -D --defined-only "$released/libhwtool.so" | awk '{ print $3 }' | sort)" \
    "$(nm -g --defined-only "$released/libhwtool.a" | awk 'NF == 3 { print $3 }' | sort)"
same "names of the header" "$(grep -o 'hwtool_[a-z_]*(' include/hwtool.h | tr -d '(' | sort -u)" "$(nm -D --defined-only "$released/libhwtool.so" | awk '{ print $3 }' | sort -u)"
same "the SONAME" "libhwtool.so.2" "$(objdump -p "$released/libhwtool.so" | awk '$1 == "SONAME" { print $2 }')"
good "the rows by the library" python3 tests/c_library.py "$released/libhwtool.so" "$released/hwtool"

# ---- installed

prefix=$work/prefix
good "make install" make install PREFIX="$prefix"
good "make install into a folder of its own" make install PREFIX=/usr DESTDIR="$work/staged"
good "what was staged" test -x "$work/staged/usr/bin/hwtool"
same "the program that is installed" "$toggler" "$("$prefix/bin/hwtool" lower examples/toggler.btor2)"
if command -v pkg-config >/dev/null && command -v cc >/dev/null; then
    export PKG_CONFIG_PATH=$prefix/lib/pkgconfig
    same "pkg-config" "$version" "$(pkg-config --modversion hwtool)"
    flags="-std=c11 -Wall -Wextra -Werror"
    # shellcheck disable=SC2086,SC2046
    good "the example over the shared library" cc $flags examples/c/judge.c $(pkg-config --cflags --libs hwtool) -o "$work/judge-so"
    # shellcheck disable=SC2086
    good "the example over the archive" cc $flags -I"$prefix/include" examples/c/judge.c "$prefix/lib/libhwtool.a" -o "$work/judge-a"
    same "what it says" "accepted 2 frames" "$(LD_LIBRARY_PATH=$prefix/lib "$work/judge-so" examples/toggler.btor2 examples/toggler.witness)"
    same "what it says over the archive" "accepted 2 frames" "$("$work/judge-a" examples/toggler.btor2 examples/toggler.witness)"
    # shellcheck disable=SC2046
    echo '#include "hwtool.h"' | good "the header in C++" c++ -Wall -Wextra -Werror $(pkg-config --cflags hwtool) -x c++ -fsyntax-only -
else
    left+=("the examples in C: no pkg-config or no cc")
fi
good "tests of the package for Python" env HWTOOL_LIBRARY="$prefix/lib/libhwtool.so" python3 -m unittest discover -q -s python/tests
if python3 -m venv "$work/venv" >/dev/null 2>&1; then
    good "pip install without a network" "$work/venv/bin/pip" install --no-index --quiet ./python
    same "the example in Python" "accepted 2 frames" "$(cd / && "$work/venv/bin/python" "$work/clone/examples/python/judge.py" "$work/clone/examples/toggler.btor2" "$work/clone/examples/toggler.witness")"
else
    left+=("pip install: no venv")
fi
good "hwtool-judge" bash -c "echo check-btor examples/toggler.btor2 examples/toggler.witness | $prefix/bin/hwtool-judge -"
good "hwtool-flow" "$prefix/bin/hwtool-flow" --help
good "witness-circuit.py" "$prefix/bin/witness-circuit.py" --induction 1 -o "$work/induction.aag" examples/ring.aag
good "yw-witness.py" "$prefix/bin/yw-witness.py" --help
good "one-clock.ys" cmp examples/flow/one-clock.ys "$prefix/share/hwtool/one-clock.ys"

# ---- pages and completions

for page in "$prefix"/share/man/man1/*.1; do
    name=$(basename "$page")
    if command -v groff >/dev/null; then
        same "$name" "" "$(groff -man -Tutf8 -ww "$page" 2>&1 >/dev/null)"
    else
        left+=("$name: no groff")
    fi
    if command -v man >/dev/null; then
        same "$name, 50 columns wide" "" "$(MANROFFSEQ='' MANWIDTH=50 man --warnings -E UTF-8 -l -Tutf8 -Z "$page" 2>&1 >/dev/null)"
    else
        left+=("$name, 50 columns wide: no man")
    fi
    if command -v mandoc >/dev/null; then
        same "$name by mandoc" "" "$(mandoc -T lint "$page")"
    else
        left+=("$name by mandoc: it is not installed")
    fi
done

# completes FUNCTION WANTED WORD ..: what bash completes of the last of some words
completes() {
    # the words are those of the other shell
    # shellcheck disable=SC2016
    bash -c 'for it in "$0"/*; do . "$it"; done; COMP_WORDS=("${@:3}") COMP_CWORD=$(($# - 3)); "$1"; [ "${COMPREPLY[*]}" = "$2" ]' \
        "$prefix/share/bash-completion/completions" "$@"
}
good "completions of bash" completes _hwtool lower hwtool low
good "completions of hwtool-flow for bash" completes _hwtool_flow --clocked-resets hwtool-flow --clo
good "no completion of a number" completes _hwtool_flow "" hwtool-flow --depth ""
good "completions of hwtool-judge for bash" completes _hwtool_judge --json hwtool-judge -j 2 --js
for shell in zsh fish; do
    for file in $(find "$prefix" -name '_hwtool*' -o -name '*.fish' | grep "$shell"); do
        if command -v "$shell" >/dev/null; then
            good "completions of $shell, $(basename "$file")" "$shell" -n "$file"
        else
            left+=("completions of $shell, $(basename "$file"): it is not installed")
        fi
    done
done
if command -v fish >/dev/null; then
    same "completions of hwtool-flow for fish" --clocked-resets \
        "$(HOME=$work fish -c "source $prefix/share/fish/vendor_completions.d/hwtool-flow.fish; complete -C 'hwtool-flow --clo'" | cut -f1)"
fi
for script in hwtool-flow hwtool-judge; do
    for option in $("$prefix/bin/$script" --help | grep -o -- '--[a-z][a-z-]*' | sort -u | grep -vx -- --help); do
        for file in "man/man1/$script.1" "bash-completion/completions/$script" "zsh/site-functions/_$script" \
            "fish/vendor_completions.d/$script.fish"; do
            tr -d '\\' <"$prefix/share/$file" | grep -q -- "${option#--}" || same "$option in $file" there missing
        done
        tried=$((tried + 1))
    done
done
good "make uninstall" make uninstall PREFIX="$prefix"
same "what it leaves" "" "$(find "$prefix" -type f -o -type l)"
good "make uninstall again" make uninstall PREFIX="$prefix"

# ---- the plain userland of Debian 11, with glibc 2.31

if [ "$(id -u)" = 0 ] && command -v debootstrap >/dev/null && debootstrap --variant=minbase bullseye "$work/debian" >"$work/said" 2>&1; then
    cp -r release examples "$work/debian/"
    same "Debian 11" "$toggler" "$(chroot "$work/debian" /release/hwtool lower /examples/toggler.btor2)"
    same "a result in a file there" "$toggler" "$(chroot "$work/debian" /release/hwtool lower -o /made /examples/toggler.btor2 && cat "$work/debian/made")"
    same "a judgement there" "accepted 2 frames" "$(chroot "$work/debian" /release/hwtool check-btor /examples/toggler.btor2 /examples/toggler.witness)"
    good "the library there" chroot "$work/debian" /lib64/ld-linux-x86-64.so.2 --list /release/libhwtool.so
else
    left+=("the plain userland of Debian 11: no debootstrap, no root, or no packages")
fi

echo "release: $tried tried, $wrong wrong"
for it in "${left[@]}"; do
    echo "left out: $it"
done
[ "$wrong" = 0 ]
