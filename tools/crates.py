#!/usr/bin/env python3
"""Keeps crates.txt exact, and draws the floors from it.

    tools/crates.py check     each line lists the crates that its crate names, and no other; imports go down the floors; the drawing in
                              docs/WORKING.md and the table in README.md are those of crates.txt
    tools/crates.py fix       write the lists, the drawing and the table as they have to be
    tools/crates.py draw      print the drawing
    tools/crates.py below     print the crates that the library stands on, the lowest first, itself last: what tools/staticlib.sh proves

A crate names another in `use` and `ghost use`, in a path of its code, or in a file of specs/ or proofs/; and who makes a struct or an
enum, or takes an enum apart, needs the crates of the types that it holds, which the check has to name. In crates.txt a line
`# floor N: what it is` begins a floor, any other comment line a group in it; a crate's line ends with what the crate is.
"""
import glob
import os
import re
import sys

ROOT = os.path.dirname(os.path.dirname(os.path.abspath(__file__)))
LIST = os.path.join(ROOT, "crates.txt")
WORKING, README = os.path.join(ROOT, "docs", "WORKING.md"), os.path.join(ROOT, "README.md")
BEGIN, END = "<!-- written by tools/crates.py fix -->\n", "<!-- end -->\n"
KIT = {"bytes", "check"}


class Line:
    """A crate of the list: its floor, its group, what it depends on, what it is."""

    def __init__(self, name, deps, what, floor, group):
        self.name, self.deps, self.what, self.floor, self.group = name, deps, what, floor, group


def read_list():
    """The crates in order, and the floors: number to what it is."""
    crates, floors, floor, group = {}, {}, 0, ""
    with open(LIST, encoding="utf-8") as f:
        for text in f.read().split("\n"):
            head = re.match(r"# floor (\d): (.*)", text)
            if head:
                floor, group = int(head.group(1)), ""
                floors[floor] = head.group(2)
            elif text.startswith("#"):
                group = text[1:].strip()
            elif ":" in text:
                left, _, what = text.partition("#")
                name, deps = left.split(":")
                name = name.split()[0]
                crates[name] = Line(name, deps.split(), what.strip(), floor, group)
    return crates, floors


def owners(text):
    """Type to crate, for the types that a Rattle file brings in."""
    found = {name: crate for crate, name in re.findall(r"(?m)^use (\w+)::(\w+);", text)}
    for crate, names in re.findall(r"(?m)^use (\w+)::\{([^}]*)\};", text):
        found.update((name.strip(), crate) for name in names.split(",") if name.strip())
    return found


def held_types():
    """(crate, type) to the crates whose types it holds, in a field or in a field's field: whoever makes one needs them too."""
    fields = {}
    for path in glob.glob(os.path.join(ROOT, "crates", "*", "src", "*.rt")):
        with open(path, encoding="utf-8") as f:
            text = f.read()
        crate, owner = path.split(os.sep)[-3], owners(text)
        for name, body in re.findall(r"(?:struct|enum) (\w+) \{([^}]*)\}", text):
            fields[crate, name] = {(owner.get(t, crate), t) for t in re.findall(r"[:(]\s*([A-Z]\w+)", body)}

    def held(kind):
        return {kind[0]}.union(*(held(inner) for inner in fields.get(kind, ())))
    return {kind: held(kind) - {kind[0]} for kind in fields}


HELD = held_types()


def named_by(crate, crates):
    """The crates and the kit's libraries that the files of a crate name, in the order of the list; the kit's first."""
    found = set()
    for path in glob.glob(os.path.join(ROOT, "crates", crate, "**", "*"), recursive=True):
        if not path.endswith((".rt", ".antt")):
            continue
        with open(path, encoding="utf-8") as f:
            text = f.read()
        if path.endswith(".rt"):
            text = re.sub(r"//.*", "", text)
            found.update(re.findall(r"(?<![\w:])(\w+)::", text))
            owner = owners(text)
            for made in re.findall(r"(?<!struct )\b([A-Z]\w+)(?: \{|::[A-Z]\w*\()", text):
                found.update(HELD.get((owner.get(made, crate), made), ()))
        else:
            text = re.sub(r"(?m)(^|(?<=\s))--.*$", "", text)
        found.update(re.findall(r"Rattle\.(\w+)", text))
    found.discard(crate)
    return sorted(found & KIT) + [c for c in crates if c in found]


def faults(crates):
    for line in crates.values():
        named = named_by(line.name, crates)
        for dep in sorted(set(named) - set(line.deps)):
            yield "%s names %s, which its line does not list" % (line.name, dep)
        for dep in sorted(set(line.deps) - set(named)):
            yield "%s lists %s, which it does not name" % (line.name, dep)
        for dep in named:
            if dep in crates and crates[dep].floor > line.floor:
                yield "%s, on floor %d, names %s on floor %d" % (line.name, line.floor, dep, crates[dep].floor)
        if not line.what:
            yield "%s: its line does not say what it is" % line.name
    folders = {path.split(os.sep)[-3] for path in glob.glob(os.path.join(ROOT, "crates", "*", "src", "*.rt"))}
    for name in sorted(folders ^ crates.keys()):
        yield "%s stands in crates/ or in crates.txt alone" % name


def drawing(crates, floors):
    """The floors, the highest first, each with its groups and their crates."""
    out = []
    for floor in sorted(floors, reverse=True):
        title = "%d  %s" % (floor, floors[floor])
        out += ["    " + title, "    " + "-" * len(title)]
        groups = {}
        for line in crates.values():
            if line.floor == floor:
                groups.setdefault(line.group, []).append(line.name)
        wide = max(len(g) for g in groups)
        for group in reversed(list(groups)):
            out.append("       %-*s  %s" % (wide, group, "  ".join(groups[group])))
        out.append("")
    return "\n".join(line.rstrip() for line in out[:-1]) + "\n"


def table(crates, floors):
    """A line for each crate, the highest floor first."""
    out = ["| crate | floor | what it is |", "|---|---|---|"]
    for floor in sorted(floors, reverse=True):
        out += ["| `%s` | %d | %s |" % (c.name, floor, c.what) for c in crates.values() if c.floor == floor]
    return "\n".join(out) + "\n"


def papers(crates, floors):
    """Path, the text that stands there, and the text that has to."""
    for path, part in ((WORKING, drawing(crates, floors)), (README, table(crates, floors))):
        with open(path, encoding="utf-8") as f:
            text = f.read()
        a, b = text.index(BEGIN) + len(BEGIN), text.index(END)
        yield path, text, text[:a] + "\n" + part + "\n" + text[b:]


def fix(crates, floors):
    lines = []
    with open(LIST, encoding="utf-8") as f:
        for text in f.read().split("\n"):
            head = text.split(":")[0]
            name = head.split()[0] if head.split() else ""
            if name in crates and not text.startswith("#"):
                deps = " ".join(named_by(name, crates))
                text = "%s:%s  # %s" % (head, " " + deps if deps else "", crates[name].what)
            lines.append(text)
    with open(LIST, "w", encoding="utf-8") as f:
        f.write("\n".join(lines))
    for path, _, new in papers(crates, floors):
        with open(path, "w", encoding="utf-8") as f:
            f.write(new)


def check(crates, floors):
    found = list(faults(crates))
    for path, old, new in papers(crates, floors):
        if old != new:
            found.append("%s is not as crates.txt has it: tools/crates.py fix" % os.path.relpath(path, ROOT))
    if found:
        sys.exit("\n".join(found))
    print("crates.txt: %d crates on %d floors, each list exact" % (len(crates), len(floors)))


def below(crates, name):
    """The crate and all that it stands on, of this repository."""
    found, waiting = set(), [name]
    while waiting:
        crate = waiting.pop()
        if crate in crates and crate not in found:
            found.add(crate)
            waiting += crates[crate].deps
    return found


def main(verb):
    crates, floors = read_list()
    if verb == "check":
        check(crates, floors)
    elif verb == "fix":
        fix(crates, floors)
    elif verb == "draw":
        print(drawing(crates, floors), end="")
    elif verb == "below":
        found = below(crates, "sg_c")
        print("\n".join(name for name in crates if name in found))
    else:
        sys.exit(__doc__)


main(sys.argv[1] if len(sys.argv) == 2 else "")
