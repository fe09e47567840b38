#!/usr/bin/env bash
# Proves the library, builds the command sg, and shows it at work: a text made a record, simplified, cleaned up and shown.
#
#     tools/example.sh
#
# SG_BUILT=1 takes cli/target/release/sg as it is.
set -euo pipefail
cd "$(dirname "$0")/.."

# Proves the crates that the library stands on, the lowest first, telling which is proved, of how many; all that rt prints goes to the log.
build() {
    local log=target/example.log n=0 all name
    mkdir -p target
    : >"$log"
    all=$(tools/crates.py below)
    for name in $all; do
        if ! (cd "crates/$name" && rt check) >>"$log" 2>&1; then
            tail -20 "$log" >&2
            exit 1
        fi
        n=$((n + 1))
        printf 'proved %d of %d: %s\n' "$n" "$(wc -w <<<"$all")" "$name" >&2
    done
    if ! tools/staticlib.sh >>"$log" 2>&1; then
        tail -20 "$log" >&2
        exit 1
    fi
    cargo build --quiet --release --offline --manifest-path cli/Cargo.toml
}

# Shows a command, and what it says.
show() {
    echo "\$ $*"
    "$@" 2>&1
}

[ -n "${SG_BUILT:-}" ] || build
PATH=$PWD/cli/target/release:$PATH
rm -rf target/example
mkdir -p target/example
cp docs/example.txt target/example
cd target/example
show sg make example.txt -o example.sgr
show sg simplify example.sgr -o simplified.sgr
show sg text simplified.sgr
show sg cleanup simplified.sgr -o cleaned.sgr
show sg show cleaned.sgr
show sg reference --fasta cleaned.sgr
show sg check -q example.sgr simplified.sgr cleaned.sgr
