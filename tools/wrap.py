#!/usr/bin/env python3
"""Breaks the long lines of antt files, and of contracts in Rattle files, so that they can be read.

    tools/wrap.py [--over N] [--width W] [-n] FILE..

A line of more than N characters (160) is broken into lines of at most W (140) where that can be had: at the place that is least
deep in brackets, before an operator or behind a comma rather than between two words. A long import becomes several of the same
module. A comment and a text in quotes are left as they are. Then `rattle fmt` puts the indentation. What a file says stays the same;
`rt check` is the verdict. -n says what would change and writes nothing.
"""
import os
import re
import shutil
import subprocess
import sys

OPEN, CLOSE = "({[", ")}]"
# A break before one of these reads well; so does one behind a comma, a semicolon, `=`, `in`, `:` or the point of `λ x.`.
BEFORE = {"→", "↔", "∙", "×", "⊎", "≡", "∷", "++", "+", "&&", "||", "|", "where", "let"}
BEHIND = (",", ";", "=", "in", ":", ".", "↦", "(", "{")


def tokens(text):
    """(start, end, depth in brackets) of each word between white space, outside texts in quotes."""
    out, depth, i = [], 0, 0
    while i < len(text):
        if text[i].isspace():
            i += 1
            continue
        j, begin_depth = i, depth
        while j < len(text) and not text[j].isspace():
            if text[j] == '"':
                j = text.index('"', j + 1)
            elif text[j] in OPEN:
                depth += 1
            elif text[j] in CLOSE:
                depth -= 1
            j += 1
        out.append((i, j, min(begin_depth, depth) if text[i] in CLOSE else begin_depth))
        i = j
    return out


def worth(text, left, right):
    """How good a break between two neighbouring words is: higher is better."""
    before, behind = text[right[0]:right[1]], text[left[0]:left[1]]
    good = before in BEFORE or behind.endswith(BEHIND)
    return (12 if good else 0) - 10 * right[2]


def pieces(text, room, more_room):
    """The text cut into pieces of at most `room` characters, where a break can be had."""
    out = []
    while len(text) > room:
        words = tokens(text)
        spots = [(worth(text, a, b) + 20 * b[0] / room, b[0]) for a, b in zip(words, words[1:]) if room * 0.4 < b[0] <= room + 1]
        if not spots:
            spots = [(-b[0], b[0]) for a, b in zip(words, words[1:])][:1]
        if not spots:
            break
        at = max(spots)[1]
        out.append(text[:at].rstrip())
        text, room = text[at:], more_room
    return out + [text]


def imports(line, width):
    """A long import as several of the same module: `rattle fmt` would put each name of a broken one on a line of its own."""
    head, names = re.match(r"((?:pub )?use \S+\.\{)(.*)\}$", line).groups()
    lines = [""]
    for name in names.split(", "):
        if lines[-1] and len(head) + len(lines[-1]) + len(name) + 3 > width:
            lines.append("")
        lines[-1] += (", " if lines[-1] else "") + name
    return [head + line + "}" for line in lines]


def wrapped(text, over, width, only=r""):
    """`only`: lines that this matches are broken, no others."""
    lines = []
    for line in text.split("\n"):
        if len(line) <= over or re.search(r"(^|\s)--(\s|$)", line) or not re.match(only, line):
            lines.append(line)
            continue
        if re.match(r"(pub )?use .*\}$", line):
            lines += imports(line, width)
            continue
        indent = len(line) - len(line.lstrip())
        parts = pieces(line.lstrip(), width - indent, width - indent - 4)
        lines.append(" " * indent + parts[0])
        lines += [" " * (indent + 4) + part for part in parts[1:]]
    return "\n".join(lines)


def laid_out(path):
    rattle = os.path.join(os.path.dirname(os.path.realpath(shutil.which("rt"))), "rattle")
    subprocess.run([rattle, "fmt", "--write", path], check=True, stdout=subprocess.DEVNULL)


def main(argv):
    over, width, dry, files = 160, 140, False, []
    while argv:
        word = argv.pop(0)
        if word in ("--over", "--width"):
            number = int(argv.pop(0))
            over, width = (number, width) if word == "--over" else (over, number)
        elif word == "-n":
            dry = True
        elif word.startswith("-"):
            sys.exit(__doc__)
        else:
            files.append(word)
    if not files:
        sys.exit(__doc__)
    for path in files:
        with open(path, encoding="utf-8") as f:
            old = f.read()
        new = wrapped(old, over, width, r"\s*(requires|ensures) " if path.endswith(".rt") else r"")
        if new == old:
            continue
        print("%s: %d lines were over %d" % (path, sum(len(line) > over for line in old.split("\n")), over))
        if not dry:
            with open(path, "w", encoding="utf-8") as f:
                f.write(new)
            laid_out(path)


main(sys.argv[1:])
