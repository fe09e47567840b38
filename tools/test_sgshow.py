#!/usr/bin/env python3
"""Runs sgshow on the stored cases, with a stack of 8 MiB, and compares what it writes.

    tools/test_sgshow.py [PROGRAM [FOLDER]]

PROGRAM is target/bin/sgshow (tools/program.sh sgshow makes it), FOLDER tests/sgshow: each NAME.in there is read, and NAME.out must be written.
"""
import os
import resource
import subprocess
import sys

ROOT = os.path.dirname(os.path.dirname(os.path.abspath(__file__)))
STACK = 8 << 20


def contents(path):
    with open(path, "rb") as f:
        return f.read()


def limit_stack():
    resource.setrlimit(resource.RLIMIT_STACK, (STACK, STACK))


def main(program=os.path.join(ROOT, "target/bin/sgshow"), folder=os.path.join(ROOT, "tests/sgshow")):
    names = sorted(name[:-3] for name in os.listdir(folder) if name.endswith(".in"))
    for name in names:
        path = os.path.join(folder, name)
        given = contents(path + ".in")
        done = subprocess.run([program], input=given, stdout=subprocess.PIPE, preexec_fn=limit_stack)
        if done.returncode:
            sys.exit("%s: it ended with status %d" % (name, done.returncode))
        if done.stdout != contents(path + ".out"):
            sys.exit("%s: it wrote\n%s" % (name, done.stdout.decode("ascii", "backslashreplace")))
    if not names:
        sys.exit("no cases in " + folder)
    print("sgshow: %d cases, no difference" % len(names))


main(*sys.argv[1:])
