#!/usr/bin/env bash
# Times our library against the Rust on the benchmark's records, and prints a table.
#
#     tools/bench.sh [quick] [whole]
#
# quick leaves the Rust out on the records on which it takes minutes; whole times the Rust from record to record too.
# bench/README.md says what is timed.
# GATK_RS_SRC: where the Rust's sources are, if not in ../shared/docs/src/gatk-haplotypecaller/src.
set -euo pipefail
cd "$(dirname "$0")/.."

for tool in cargo python3 rt; do
    if ! command -v "$tool" >/dev/null; then
        echo "$tool is not present: nothing was timed" >&2
        exit 3
    fi
done
tools/staticlib.sh
cargo build --quiet --release --offline --manifest-path oracle/Cargo.toml
bench/records.py | "${CARGO_TARGET_DIR:-oracle/target}/release/bench" "$@"
