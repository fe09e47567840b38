#!/usr/bin/env python3
"""Says which definitions, promises and proofs moved between two revisions, and which stayed.

    tools/moved.py BASE [HEAD]

BASE and HEAD are revisions of this repository; without HEAD it is the last commit. Two texts are the same if they
differ in white space and comments only. Names of five kinds of things are told apart:

    definition     what stands under a name in crates/CRATE/specs: CRATE::Module.name
    public promise the contract of a call that C can link, or a definition of specs/ that such a contract names, or that
                   one names which the contract names from specs/ of its own crate
    promise        `requires` and `ensures` of a function: crate::function
    signature      its parameters and its result
    proof file     crates/CRATE/proofs/..: crate/path

It prints a table of counts, the lines of proof, the crates of which no file moved, then the names: first what was
added, changed and removed, last what stayed, a line for each crate.
"""
import io
import re
import signal
import subprocess
import sys
import tarfile

KINDS = ("definitions", "public promises", "promises", "signatures", "proof files")
FATES = ("added", "changed", "removed", "stayed")


# ---- what stands in a revision

def files_of(revision):
    """The text of each file under crates/ at this revision."""
    packed = subprocess.run(["git", "archive", revision, "--", "crates"], stdout=subprocess.PIPE, check=True).stdout
    out = {}
    with tarfile.open(fileobj=io.BytesIO(packed)) as tar:
        for member in tar:
            if member.isfile() and re.search(r"\.(rt|antt|edit)$", member.name):
                out[member.name] = tar.extractfile(member).read().decode("utf-8")
    return out


def without_comments(text, mark):
    """`mark` starts a comment where it stands at the start of a line or behind white space."""
    return re.sub(r"(?m)(^|(?<=\s))%s.*$" % re.escape(mark), "", text)


def bare(text):
    """Without white space, and without the mark that a layout puts behind the last of several lines."""
    return re.sub(r"[,;](?=[)}\]])", "", re.sub(r"\s+", "", text))


# ---- definitions

def definitions(text, read=bare):
    """Name to text of each top-level definition of an antt file: a signature with its clauses, a record, a data type."""
    out, name = {}, None
    for unit in re.split(r"\n(?=\S)", without_comments(text, "--")):
        if not unit.strip() or re.match(r"(pub )?(use|mod) ", unit):
            continue
        head = re.match(r"(?:(?:pub|unfoldable|abbrev|record|data) )*(\S+)(?:\s[^=]*?)?\s:(?:\s|$)", unit.split(" = ")[0])
        if head and not re.match(r"\S+ [^:]*= ", unit):
            name = head.group(1)
        if name is None:
            name = unit.split()[0]
        out[name] = out.get(name, "") + read(unit)
    return out


# ---- functions

def closing(text, at):
    """The index behind the bracket that closes the one at `at`."""
    pairs = {"(": ")", "{": "}"}
    depth, opened = 0, text[at]
    for i in range(at, len(text)):
        if text[i] == opened:
            depth += 1
        elif text[i] == pairs[opened]:
            depth -= 1
            if depth == 0:
                return i + 1
    raise ValueError("a bracket is not closed: " + text[at:at + 60])


def functions(text):
    """Each function of a Rattle file: name, whether C can link it, signature, contract."""
    text = without_comments(text, "//")
    for m in re.finditer(r'(pub\s+extern\s+"C"\s+)?\bfn\s+(\w+)\s*(?:<[^>]*>)?\s*(?=\()', text):
        end = closing(text, m.end())
        signature = text[m.end():end]
        rest = re.match(r"[^{;]*?(?=\brequires\b|\bensures\b|[{;])", text[end:])
        signature += rest.group(0)
        at, contract = end + rest.end(), ""
        while True:
            clause = re.match(r"\s*(requires|ensures)\s*(?=\{)", text[at:])
            if not clause:
                break
            stop = closing(text, at + clause.end())
            contract += text[at:stop]
            at = stop
        yield m.group(2), bool(m.group(1)), bare(signature), contract


def used_definitions(text):
    """Name to CRATE::Module.name, for what the `use` lines of a file bring in from specs/ of some crate."""
    out = {}
    for m in re.finditer(r"(?m)^(?:ghost )?use Rattle·(\w+)(?:·specs)?\.specs\.(\w+)\.\{([^}]*)\}", text):
        for name in m.group(3).split(","):
            out[name.strip()] = "%s::%s.%s" % (m.group(1), m.group(2), name.strip())
    return out


def named_in(text, used):
    return {used[word] for word in re.findall(r"[^\s(){},]+", text) if word in used}


def named_by(files, crate, contract, used):
    """The definitions that a contract names, and those that they name which stand in specs/ of its own crate."""
    out = named_in(contract, used)
    for full in sorted(out):
        owner, module, name = re.match(r"(\w+)::(\w+)\.(.*)", full).groups()
        text = files.get("crates/%s/specs/%s.antt" % (owner, module), "") if owner == crate else ""
        out |= named_in(definitions(text, str).get(name, ""), used_definitions(text))
    return out


# ---- a revision's names

def crate_of(path):
    return path.split("/")[1]


def names_of(files):
    """For each kind: name to text."""
    out = {kind: {} for kind in KINDS}
    named_by_calls = set()
    for path, text in files.items():
        m = re.match(r"crates/(\w+)/specs/(.*)\.antt$", path)
        if m and m.group(2) != "Lib":
            for name, body in definitions(text).items():
                out["definitions"]["%s::%s.%s" % (m.group(1), m.group(2).replace("/", "."), name)] = body
        m = re.match(r"crates/(\w+)/src/(\w+)\.rt$", path)
        if m:
            module = "" if m.group(2) in ("lib", "main") else m.group(2) + "::"
            used = used_definitions(text)
            for name, linked, signature, contract in functions(text):
                full = "%s::%s%s" % (m.group(1), module, name)
                out["signatures"][full] = signature
                out["promises"][full] = bare(contract)
                if linked:
                    out["public promises"][full] = bare(contract)
                    named_by_calls |= named_by(files, m.group(1), contract, used)
        m = re.match(r"crates/(\w+)/proofs/(.*)\.antt$", path)
        if m and not re.search(r"(^|/)Lib$", m.group(2)):
            out["proof files"]["%s/%s" % (m.group(1), m.group(2))] = bare(without_comments(text, "--"))
    for name in named_by_calls:
        if name in out["definitions"]:
            out["public promises"][name] = out["definitions"][name]
    return out


def proof_lines(files):
    return sum(text.count("\n") for path, text in files.items() if re.match(r"crates/\w+/proofs/.*\.antt$", path))


# ---- what moved

def fates(old, new):
    """Fate to names."""
    out = {fate: [] for fate in FATES}
    for name in sorted(old.keys() | new.keys()):
        if name not in old:
            out["added"].append(name)
        elif name not in new:
            out["removed"].append(name)
        else:
            out["stayed" if old[name] == new[name] else "changed"].append(name)
    return out


def untouched(old, new):
    """The crates of which every file stayed, but for white space and comments."""
    def texts(files):
        out = {}
        for path, text in files.items():
            mark = "//" if path.endswith(".rt") else "--"
            out.setdefault(crate_of(path), {})[path] = bare(text if path.endswith(".edit") else without_comments(text, mark))
        return out
    before, after = texts(old), texts(new)
    return sorted(c for c in after if before.get(c) == after[c]), sorted(after)


def print_names(kind, fate, names):
    """A line for each crate."""
    if not names:
        return
    print("\n%s %s: %d\n" % (kind[0].upper() + kind[1:], "that stayed" if fate == "stayed" else fate, len(names)))
    by_crate = {}
    for name in names:
        crate, inner = re.match(r"(\w+)(?:::|/)(.*)", name).groups()
        by_crate.setdefault(crate, []).append(inner)
    for crate in sorted(by_crate):
        print("- `%s`: %s" % (crate, ", ".join(by_crate[crate])))


def main(base, head="HEAD"):
    old, new = files_of(base), files_of(head)
    before, after = names_of(old), names_of(new)
    moved = {kind: fates(before[kind], after[kind]) for kind in KINDS}
    print("| what | added | changed | removed | stayed |\n|---|---|---|---|---|")
    for kind in KINDS:
        print("| %s | %s |" % (kind, " | ".join(str(len(moved[kind][fate])) for fate in FATES)))
    print("\nLines of proof: %d before, %d after." % (proof_lines(old), proof_lines(new)))
    still, crates = untouched(old, new)
    print("\nCrates untouched: %d of %d%s" % (len(still), len(crates), ": " + ", ".join(still) if still else ""))
    for fate in FATES:
        for kind in KINDS:
            print_names(kind, fate, moved[kind][fate])


signal.signal(signal.SIGPIPE, signal.SIG_DFL)  # `moved.py BASE | head` is no error
if len(sys.argv) not in (2, 3) or sys.argv[1].startswith("-"):
    sys.exit(__doc__)
main(*sys.argv[1:])
