#!/usr/bin/env python3
"""Compares how sgshow prints a sequence with the Rust's `prefix_bytes`, on every byte.

    tools/compare_bytes.py

It needs target/bin/sgshow (tools/program.sh sgshow makes it), cargo and the Rust's sources.
"""
import os
import subprocess
import sys

ROOT = os.path.dirname(os.path.dirname(os.path.abspath(__file__)))
sys.path.insert(0, os.path.join(ROOT, "oracle"))
sys.dont_write_bytecode = True

import records  # noqa: E402


def run(command, data):
    return subprocess.run(command, input=data, stdout=subprocess.PIPE, check=True, cwd=ROOT).stdout


def main():
    data = bytes(range(256))
    cargo = ["cargo", "run", "--quiet", "--release", "--offline", "--manifest-path", "oracle/Cargo.toml", "--bin", "prefix_bytes"]
    wanted = run(cargo, data).rstrip(b"\n")
    shown = run(["target/bin/sgshow"], records.encode(records.SGR1, records.SEQUENCE, 0, 10, [data], []))
    if b"v 0 " + wanted not in shown.split(b"\n"):
        sys.exit("sgshow wrote\n%r\nand prefix_bytes\n%r" % (shown, wanted))
    print("prefix_bytes: 256 bytes, no difference")


main()
