#!/usr/bin/env python3
"""Builds the command `sg` and tests it, from outside and by its own tests.

    tools/test_sg.py [NAME..]

runs the checks of tests/sg, or those of the names. It takes target/staticlib/libsg.a as it is (`tools/staticlib.sh`). Where cargo is
not present, that is told and nothing is run.
"""
import os
import shutil
import subprocess
import sys
import tempfile
import time

ROOT = os.path.dirname(os.path.dirname(os.path.abspath(__file__)))
sys.path.insert(0, os.path.join(ROOT, "tests", "sg"))
sys.dont_write_bytecode = True

import calls  # noqa: E402
import files  # noqa: E402
import forms  # noqa: E402
import manyfiles  # noqa: E402

CHECKS = forms.CHECKS + calls.CHECKS + files.CHECKS + manyfiles.CHECKS


def build():
    cargo = ["--quiet", "--release", "--offline", "--manifest-path", os.path.join(ROOT, "cli/Cargo.toml")]
    subprocess.run(["cargo", "build", *cargo], check=True)
    subprocess.run(["cargo", "test", *cargo], check=True)


def main(names):
    if not shutil.which("cargo"):
        print("note: no cargo: the tests of sg are left out")
        return
    build()
    chosen = [check for check in CHECKS if not names or check.__name__ in names]
    for check in chosen:
        began = time.monotonic()
        with tempfile.TemporaryDirectory(prefix="sg-test-") as folder:
            check(folder)
        print("sg: %s passed (%.1f s)" % (check.__name__.replace("check_", "").replace("_", " "), time.monotonic() - began))
    assert chosen, "no check has this name"


main(sys.argv[1:])
