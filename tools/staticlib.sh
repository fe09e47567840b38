#!/usr/bin/env bash
# Proves the library, where that has not been done, and builds target/staticlib/libsg.a, the archive for C.
set -eu
cd "$(dirname "$0")/.."
(cd crates/sg_c && rt lib)
mkdir -p target/staticlib
cp crates/sg_c/out/libsg_c.a target/staticlib/libsg.a
