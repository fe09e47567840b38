#!/usr/bin/env bash
# Tests libsg.a from outside: from C, from C on threads whose stacks have exact sizes, and from Rust through wrapper/.
# What is not present (gcc, cargo) is told and left out.
set -eu
cd "$(dirname "$0")/.."

tools/staticlib.sh
made=target/tests
mkdir -p "$made"

if command -v gcc >/dev/null 2>&1; then
    # what the archive asks of the program that links it
    asked=$(nm -u target/staticlib/libsg.a | awk '$1 == "U" { print $2 }' | sort | xargs)
    if [ "$asked" != "memcpy memset" ]; then
        echo "the archive asks for: $asked"
        exit 1
    fi
    for name in calls stack; do
        gcc -std=c11 -O2 -Wall -Wextra -Werror -o "$made/$name" "tests/c/$name.c" target/staticlib/libsg.a -lpthread
        "$made/$name"
    done
    # the README's example, on the record that the README names
    sed -n '/^```c$/,/^```$/p' README.md | sed '/^```/d' >"$made/example.c"
    gcc -std=c11 -O2 -Wall -Wextra -Werror -Iinclude -o "$made/example" "$made/example.c" target/staticlib/libsg.a
    told=$("$made/example" <crates/sgshow/stdin 2>&1 >"$made/example.sgr")
    grep -qF "It tells \`$told\`" README.md
    # the sequences of the answer, one behind the other: AAC, T, A and GTT
    grep -qaF AACTAGTT "$made/example.sgr"
else
    echo "note: no gcc: the tests from C are left out"
fi

if command -v cargo >/dev/null 2>&1; then
    cargo test --quiet --offline --manifest-path wrapper/Cargo.toml --lib --test calls
else
    echo "note: no cargo: the tests of the Rust wrapper are left out"
fi
