#!/usr/bin/env bash
# Prints the sum (SHA-256) of all that some crates are made from, as they stand: tools/sources-sum.sh NAME .. goes over their
# lines of crates.txt and each file of their src/, specs/ and proofs/, by path and content.
set -eu
cd "$(dirname "$(readlink -f "${BASH_SOURCE[0]}")")/.."
export LC_ALL=C
{
    awk -v names=" $* " '{ split($1, front, ":"); if (index(names, " " front[1] " ")) print }' crates.txt
    for name; do
        printf 'crates/%s/src\0crates/%s/specs\0crates/%s/proofs\0' "$name" "$name" "$name"
    done | xargs -0 sh -c 'find "$@" -type f -print0 2>/dev/null || true' find | sort -z | xargs -0 sha256sum
} | sha256sum | cut -d' ' -f1
