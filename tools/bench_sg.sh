#!/usr/bin/env bash
# Times the command sg against the Rust on a folder of regions, on one core and on all, and prints a table.
#
#     tools/bench_sg.sh [COUNT]
#
# COUNT: how many regions, 400 if left out. bench/README.md says what is timed.
# TMPDIR: where the folder is made, /tmp if left out. On a RAM disk, such as /dev/shm, to sync a file costs nothing.
# GATK_RS_SRC: where the Rust's sources are, if not in ../shared/docs/src/gatk-haplotypecaller/src.
set -euo pipefail
cd "$(dirname "$0")/.."

RUNS=5
# In microseconds. A run of the Rust that takes longer is not repeated.
LONG=5000000

for tool in cargo python3 rt; do
    if ! command -v "$tool" >/dev/null; then
        echo "$tool is not present: nothing was timed" >&2
        exit 3
    fi
done

# What rt says is only told if it does not pass.
if ! said=$(tools/staticlib.sh 2>&1); then
    echo "$said" >&2
    exit 1
fi
cargo build --quiet --release --offline --manifest-path cli/Cargo.toml
cargo build --quiet --release --offline --manifest-path oracle/Cargo.toml
sg=${CARGO_TARGET_DIR:-cli/target}/release/sg
rust=${CARGO_TARGET_DIR:-oracle/target}/release/regions
cores=$(nproc)

folder=$(mktemp -d)
trap 'rm -rf "$folder"' EXIT

# Runs a command that fills the folder OUT, and sets $took to its microseconds: the whole process, seen from outside.
run() { # OUT COMMAND..
    rm -rf "$1"
    shift
    # What was written before must not be what this run waits for.
    sync -f "$folder"
    local began=${EPOCHREALTIME/[^0-9]/}
    "$@" >/dev/null
    took=$((${EPOCHREALTIME/[^0-9]/} - began))
}

# Adds the median of several runs to $medians. One that takes longer than LONGEST is not repeated; 0 is no limit.
measure() { # LONGEST OUT COMMAND..
    local longest=$1 times=()
    shift
    while [ ${#times[@]} -lt $RUNS ]; do
        run "$@"
        times+=("$took")
        if [ "$longest" -gt 0 ] && [ "$took" -gt "$longest" ]; then
            break
        fi
    done
    medians+=("$(printf '%s\n' "${times[@]}" | sort -n | sed -n "$(((${#times[@]} + 1) / 2))p")")
}

measure_sg() { # CALL IN NAME OPTION..
    local call=$1 in=$2 out=$folder/sg-$3
    shift 3
    measure 0 "$out" "$sg" "$call" -q -d "$out" "$@" "$in"/*.sgr
}

measure_rust() { # CALL IN NAME JOBS
    measure $LONG "$folder/rust-$3" "$rust" "$1" "$2" "$folder/rust-$3" "$4"
}

# Each run must have made the same files, byte for byte.
require_same() { # CALL
    local other
    for other in sg-all rust-1 rust-all; do
        if ! diff -r "$folder/sg-1" "$folder/$other" >&2; then
            echo "$1: sg-1 and $other differ" >&2
            exit 1
        fi
    done
}

# Measures a command of sg, and prints its row.
row() { # CALL IN
    local files=("$2"/*.sgr)
    medians=()
    measure_sg "$@" 1 -j 1
    measure_sg "$@" all
    measure_rust "$@" 1 1
    measure_rust "$@" all "$cores"
    require_same "$1"
    echo "$1" ${#files[@]} "${medians[@]}" | awk '{
        n = 1000000 * $2
        printf "| %s | %d | %.0f | %.0f | %.0f | %.0f | %.1f | %.1f |\n", $1, $2, n / $3, n / $4, n / $5, n / $6, $5 / $3, $6 / $4
    }'
}

bench/regions.py "$folder/regions" "$@"
all="all $cores cores"
echo "| command | regions | sg regions/s, 1 thread | sg, $all | Rust regions/s, 1 thread | Rust, $all | ratio, 1 thread | ratio, $all |"
echo "|---|---|---|---|---|---|---|---|"
row convert "$folder/regions"
mv "$folder/sg-1" "$folder/converted"
row simplify "$folder/converted"
row cleanup "$folder/converted"
