#!/bin/bash
# Compares the model, the Rust and the calls of our library that oracle/calls.txt names, on seeded cases.
#
#     tools/compare.sh short|long [SEED]
#
# Ends with "no difference" and status 0, or with the first input on which two of them differ and status 1.
# COMPARE_ECHO=1 prints each input first: the last one is the input on which a call did not come back.
# SG_BUILT=1 takes target/staticlib/libsg.a as it is.
# GATK_RS_SRC: where the Rust's sources are, if not in ../shared/docs/src/gatk-haplotypecaller/src.
set -euo pipefail
cd "$(dirname "$0")/.."

if [ $# -lt 1 ] || { [ "$1" != short ] && [ "$1" != long ]; }; then
    sed -n '2,10s/^# \{0,1\}//p' "$0" >&2
    exit 2
fi
calls=$(grep -v '^#' oracle/calls.txt | grep . || true)
for tool in cargo python3 ${calls:+rt}; do
    if ! command -v "$tool" >/dev/null; then
        echo "$tool is not present: no comparison was run" >&2
        exit 3
    fi
done

if [ -n "$calls" ] && [ -z "${SG_BUILT:-}" ]; then
    tools/staticlib.sh
fi
cargo build --quiet --release --offline --manifest-path oracle/Cargo.toml
echo "calls of our library:" ${calls:-none}
tools/make_cases.py "$@" | "${CARGO_TARGET_DIR:-oracle/target}/release/compare"
