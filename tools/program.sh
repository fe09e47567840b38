#!/usr/bin/env bash
# Proves a program, where that has not been done, and builds target/bin/NAME.
#
#     tools/program.sh NAME
set -eu
cd "$(dirname "$0")/.."
(cd "crates/$1" && rt run </dev/null >/dev/null)
mkdir -p target/bin
cp "crates/$1/out/$1" "target/bin/$1"
