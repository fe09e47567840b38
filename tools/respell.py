#!/usr/bin/env python3
"""Brings the names of definitions, laws and fields that are in camel case to snake case: `edgeIn` to `edge_in`, `mem-keepIf` to `mem-keep_if`.

    tools/respell.py [ROOT]

It reads the files of crates/ and the papers, and rewrites them in place. Types and modules keep their capital, names of the Rattle
library and of the source keep their spelling. A law that would get the name of a definition beside it ends in `_lem`.
"""
import os
import re
import sys

ROOT = sys.argv[1] if len(sys.argv) > 1 else os.path.dirname(os.path.dirname(os.path.abspath(__file__)))
# a name: letters, digits, underscores, primes and subscripts, joined by dashes
NAME = re.compile(r"[A-Za-z_][\w'₀-₉ᵈ]*(?:-[\w'₀-₉ᵈ]+)*")
# texts, and in the source also characters, are no names
TEXT = r'"(?:\\.|[^"\\\n])*"'
CHARACTER = r"b?'(?:\\.|[^'\\])'"
# laws whose names fall together with a definition's
LAWS = {"only_out": "only_out_lem", "read_number": "read_number_lem", "whole_length": "whole_length_lem"}
PAPERS = ("README.md", "bench/README.md", "oracle/README.md")


def files(root):
    for top in ("crates", "docs"):
        for folder, dirs, names in os.walk(os.path.join(root, top)):
            dirs[:] = sorted(d for d in dirs if d not in ("out", "data"))
            for name in sorted(names):
                if name.endswith((".antt", ".rt", ".edit", ".md")):
                    yield os.path.join(folder, name)
    for paper in PAPERS:
        yield os.path.join(root, paper)


def part(word):
    """A part of a name in snake case, where it begins with a small letter."""
    if not word[:1].islower():
        return word
    word = "get_or" if word == "getD" else word
    word = re.sub(r"(?<=[a-z0-9'])[A-Z]", lambda m: "_" + m.group(0), word)
    return re.sub(r"[A-Z]+", lambda m: m.group(0).lower(), word)


def respelled(name):
    return "-".join(part(p) for p in name.split("-"))


def imported(text):
    """The names that a text takes from a library, not from a crate of this repository."""
    found = set()
    for path, names in re.findall(r"(?m)^(?:pub |ghost )?use ([\w.·◌-]+)\.\{([^}]*)\}", text):
        crate = re.match(r"Rattle[.·](\w+)", path)
        if not crate or not os.path.isdir(os.path.join(ROOT, "crates", crate.group(1))):
            found.update(n.strip() for n in names.split(","))
    return found


def main():
    texts = {path: open(path, encoding="utf-8").read() for path in files(ROOT) if os.path.exists(path)}
    sources = {path: text for path, text in texts.items() if path.endswith((".antt", ".rt"))}
    kept, wanted = set(), set()
    for path, text in sources.items():
        kept |= imported(text)
        wanted |= {n for n in NAME.findall(text) if respelled(n) != n}
    table = {n: respelled(n) for n in wanted - kept}
    news = {}
    for old, new in sorted(table.items()):
        if new in news:
            print("fall together: %s and %s are %s" % (news[new], old, new))
        news[new] = old
    for path, text in texts.items():
        laws = LAWS if path.endswith(".antt") else {}

        def turn(m):
            name = m.group(0)
            if name in laws and m.string[m.start() - 1:m.start()] != ".":
                return laws[name]
            return table.get(name, name)
        literal = TEXT if path.endswith(".antt") else TEXT + "|" + CHARACTER if path.endswith(".rt") else None
        parts = re.split("(%s)" % literal, text) if literal else [text]
        new = "".join(s if i % 2 else NAME.sub(turn, s) for i, s in enumerate(parts))
        if new != text:
            with open(path, "w", encoding="utf-8") as f:
                f.write(new)
    print("%d names respelled" % len(table))


main()
