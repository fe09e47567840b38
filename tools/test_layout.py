#!/usr/bin/env python3
"""Tests that the files of crates/ can be read: no line too long, no place named by counting steps,
and no public name of a definition or a law in two files.

    tools/test_layout.py
"""
import os
import re
import sys

ROOT = os.path.dirname(os.path.dirname(os.path.abspath(__file__)))
LONGEST = 200


def faults(path, text):
    for number, line in enumerate(text.split("\n"), 1):
        if len(line) > LONGEST:
            yield "%s:%d: %d characters" % (path, number, len(line))
        if re.search(r"\.before \.before", line):
            yield "%s:%d: a path of `.before`: tools/bind.py names its place" % (path, number)
        if re.match(r"-- src/\S+:\d+", line):
            yield "%s:%d: a position in the source, which the next edit makes untrue" % (path, number)


def public_names(text):
    """The names that a file of definitions or laws declares for others, outside modules and records."""
    return set(re.findall(r"(?m)^(?:unfoldable |abbrev )?pub (?:record |data )?(?!mod )([^\s:({]+)", text))


def main():
    found, count, declared = [], 0, {}
    for folder, inside, names in os.walk(os.path.join(ROOT, "crates")):
        inside[:] = [name for name in inside if name != "out"]
        for name in sorted(names):
            if name.endswith((".antt", ".rt")):
                path = os.path.join(folder, name)
                short = os.path.relpath(path, ROOT)
                with open(path, encoding="utf-8") as f:
                    text = f.read()
                found += faults(short, text)
                count += 1
                if name.endswith(".antt") and name not in ("Proof.antt", "Invariants.antt", "Answers.antt"):
                    for public in public_names(text):
                        declared.setdefault(public, []).append(short)
    for public, paths in sorted(declared.items()):
        if len(paths) > 1:
            found.append("`%s` is declared in %s: one name, one meaning" % (public, " and ".join(sorted(paths))))
    if found or not count:
        sys.exit("\n".join(found[:20] + ["%d faults" % len(found)]))
    print("layout: %d files, no fault" % count)


main()
