#!/usr/bin/env bash
# The test command. `rt ci` comes first: it removes what was built, proves every crate from nothing, tries the must-fail edits and runs the
# programs. Its verdict is held back while what it has proved is tested from outside: the library from C and Rust, sgshow on its stored inputs, the
# command sg and the tools, and all calls against the Rust where cargo is present. If all of it passes, the verdict is the last line. Else the last line is
# `failed: NAME`, with the name of the step, and the status is not 0.
set -uo pipefail
cd "$(dirname "$0")/.." || exit 1

# Runs a step and tells how long it took; if it does not pass, nothing more is run.
step() { # NAME COMMAND..
    local name=$1 began=$SECONDS
    shift
    if ! "$@"; then
        echo "failed: $name"
        exit 1
    fi
    echo "$name: passed ($((SECONDS - began)) s)"
}

# rt ci, line by line as it comes, without its last line, which goes to the file $verdict. It does not pass where an edit is bad, which rt ci
# lets pass.
verdict=$(mktemp)
bad=$(mktemp)
trap 'rm -f "$verdict" "$bad"' EXIT
hold_back_last() {
    local line last
    IFS= read -r last || return 0
    while IFS= read -r line; do
        printf '%s\n' "$last"
        [[ $last == 'rt: ok'* && $last =~ ,\ [1-9][0-9]*\ bad ]] && printf '%s\n' "$last" >"$bad"
        last=$line
    done
    printf '%s\n' "$last" >"$verdict"
}
prove() {
    rt ci | hold_back_last
    local status=$?
    if [ -s "$bad" ]; then
        echo 'rt ci found bad edits'
        return 1
    fi
    grep -Eqx '[0-9]+ passed, 0 failed' "$verdict" && return $status
    echo "rt ci ended with: $(cat "$verdict")"
    return 1
}

# The comparison at scale, and the stored list against the script that writes it.
compare() {
    if ! command -v cargo >/dev/null 2>&1 || [ ! -d "${GATK_RS_SRC:-../shared/docs/src/gatk-haplotypecaller/src}" ]; then
        echo "note: no cargo, or no Rust to compare with: the comparison at scale is left out"
        return 0
    fi
    SG_BUILT=1 tools/compare.sh short && tools/compare_bytes.py && tools/make_vectors.py target/vectors && diff -r target/vectors crates/replay/data
}

# sgshow as rt ci has built it.
test_sgshow() {
    mkdir -p target/bin && cp crates/sgshow/out/sgshow target/bin/sgshow && tools/test_sgshow.py
}

pinned=$(sed -n 's/^Kit: `\(.*\)`.*/\1/p' README.md)
kit=$(rt version)
[ "$kit" = "$pinned" ] || echo "note: this kit is '$kit'; the repository was proved with '$pinned'"

step 'rt ci' prove
step 'the library from C and Rust' tools/test_library.sh
step sgshow test_sgshow
step 'the command sg' tools/test_sg.py
step 'what moved' tools/test_moved.py
step layout tools/test_layout.py
step 'shared bindings' tools/test_share.py
step crates.txt tools/crates.py check
step 'the comparison with the Rust' compare
cat "$verdict"
