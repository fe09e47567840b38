#!/usr/bin/env bash
# Times the checks of records at the limits against reading them once, and prints a table.
set -euo pipefail
cd "$(dirname "$0")/.."

tools/staticlib.sh >&2
mkdir -p target/bench
gcc -std=c11 -O2 -Wall -Wextra -Werror -o target/bench/check bench/check.c target/staticlib/libsg.a
target/bench/check
