#!/usr/bin/env python3
"""Tests moved.py on a small repository of two revisions that it makes, and the notes in docs/requests.

    tools/test_moved.py
"""
import os
import re
import subprocess
import sys
import tempfile

ROOT = os.path.dirname(os.path.dirname(os.path.abspath(__file__)))

BASE = {
    "crates/a/specs/Lib.antt": "pub mod Size\n",
    "crates/a/specs/Size.antt": """-- Sizes.
use Prim.Native.Nat.{ℕ, _+_}

unfoldable pub size : ℕ → ℕ
size zero = 0
size (suc n) = 2

-- goes
unfoldable pub gone : ℕ
gone = 1

pub record Sized (n : ℕ) : Type 0 where
  pub least : 1 ≤ n

pub data Kind : Type 0 where
  small large : Kind
""",
    "crates/a/src/lib.rt": """// A size.
ghost use Rattle·a·specs.specs.Size.{size};

pub fn one(x: u32) -> u32
    requires { ⌜ x ≤ 1 ⌝ }
    ensures { λ r. ⌜ r ≡ size x ⌝ }
{
    x
}

fn two(x: &[u8]) -> u32 {
    2
}

fn three(x: &mut [u64]) {}
""",
    "crates/a/proofs/one/Proof.antt": "-- why\none : A\none = b\n",
    "crates/a/proofs/Laws.antt": "law : A\nlaw = b\n",
    "crates/b/specs/Own.antt": """use Rattle·a.specs.Size.{size, Sized}

abbrev pub SizedTwice : ℕ → Type 0
SizedTwice n = Sized n × Sized (n + 1)

unfoldable pub unused : ℕ
unused = size 1
""",
    "crates/b/src/lib.rt": """ghost use Rattle·b·specs.specs.Own.{SizedTwice};

#[no_mangle]
pub extern "C" fn call(x: u32) -> u32
    ensures { λ r. ⌜ SizedTwice r ⌝ }
{
    x
}
""",
    "crates/c/src/lib.rt": "// Nothing yet.\nfn f() {}\n",
    "crates/c/must-fail/wrong.edit": "file: src/lib.rt\nold: f\nnew: g\n",
}

# What moves, beside white space and comments, which must not show.
EDITS = [
    ("crates/a/specs/Size.antt", "size (suc n) = 2", "size (suc n) = 3  -- more"),
    ("crates/a/specs/Size.antt", "-- goes\nunfoldable pub gone : ℕ\ngone = 1\n", "unfoldable pub come : ℕ\ncome = 1\n"),
    ("crates/a/specs/Size.antt", "small large : Kind", "small\n   large : Kind"),
    ("crates/a/src/lib.rt", "requires { ⌜ x ≤ 1 ⌝ }", "requires { ⌜ x ≤ 2 ⌝ }"),
    ("crates/a/src/lib.rt", "    2\n", "    // as before\n    3\n"),
    ("crates/a/src/lib.rt", "&mut [u64]", "&mut [u8]"),
    ("crates/a/src/lib.rt", "fn two(x: &[u8]) -> u32", "fn two(\n    x: &[u8],\n) -> u32"),
    ("crates/a/proofs/one/Proof.antt", "one = b", "one =\n    b -- still"),
    ("crates/a/proofs/Laws.antt", "law = b", "law = c"),
    ("crates/c/src/lib.rt", "// Nothing yet.\nfn f() {}", "// Still nothing.\nfn f() {\n}"),
]

TABLE = """| what | added | changed | removed | stayed |
|---|---|---|---|---|
| definitions | 1 | 1 | 1 | 4 |
| public promises | 0 | 0 | 0 | 3 |
| promises | 0 | 1 | 0 | 4 |
| signatures | 0 | 1 | 0 | 4 |
| proof files | 0 | 1 | 0 | 1 |

Lines of proof: 5 before, 6 after.

Crates untouched: 2 of 3: b, c
"""

NAMES = [
    "Definitions added: 1\n\n- `a`: Size.come\n",
    "Definitions changed: 1\n\n- `a`: Size.size\n",
    "Definitions removed: 1\n\n- `a`: Size.gone\n",
    "Definitions that stayed: 4\n\n- `a`: Size.Kind, Size.Sized\n- `b`: Own.SizedTwice, Own.unused\n",
    "Public promises that stayed: 3\n\n- `a`: Size.Sized\n- `b`: Own.SizedTwice, call\n",
    "Promises changed: 1\n\n- `a`: one\n",
    "Signatures changed: 1\n\n- `a`: three\n",
    "Proof files changed: 1\n\n- `a`: Laws\n",
    "Proof files that stayed: 1\n\n- `a`: one/Proof\n",
]


def write(folder, files):
    for path, text in files.items():
        os.makedirs(os.path.join(folder, os.path.dirname(path)), exist_ok=True)
        with open(os.path.join(folder, path), "w", encoding="utf-8") as f:
            f.write(text)


def commit(folder, message):
    git = ["git", "-c", "user.name=test", "-c", "user.email=test@localhost", "-c", "commit.gpgsign=false"]
    for words in (["init", "--quiet"], ["add", "--all"], ["commit", "--quiet", "--message", message]):
        subprocess.run(git + words, cwd=folder, check=True)


def moved(folder, *revisions):
    command = [sys.executable, os.path.join(ROOT, "tools", "moved.py"), *revisions]
    return subprocess.run(command, cwd=folder, stdout=subprocess.PIPE, check=True).stdout.decode("utf-8")


def test_small_repository():
    with tempfile.TemporaryDirectory() as folder:
        write(folder, BASE)
        commit(folder, "base")
        head = dict(BASE)
        for path, old, new in EDITS:
            assert old in head[path], (path, old)
            head[path] = head[path].replace(old, new)
        write(folder, head)
        commit(folder, "head")
        out = moved(folder, "HEAD~1")
        assert out.startswith(TABLE), out
        for text in NAMES:
            assert text in out, (text, out)
        assert out == moved(folder, "HEAD~1", "HEAD")
        same = moved(folder, "HEAD", "HEAD")
        assert "| definitions | 0 | 0 | 0 | 6 |" in same and "Crates untouched: 3 of 3: a, b, c" in same, same


# A note's line of revisions: the one that the request was built on, and the last commit before the note.
REVISIONS = re.compile(r"(?m)^Base `[0-9a-f]{7,40}`, last commit before this note `[0-9a-f]{7,40}`\.$")


def test_notes_of_requests():
    folder = os.path.join(ROOT, "docs", "requests")
    names = sorted(os.listdir(folder)) if os.path.isdir(folder) else []
    for name in names:
        assert re.match(r"(0[1-9]|1[0-4])-[a-z0-9-]+\.md$", name), "docs/requests/%s is no NN-name.md" % name
        with open(os.path.join(folder, name), encoding="utf-8") as f:
            text = f.read()
        assert REVISIONS.search(text), "docs/requests/%s has no line `Base .., last commit before this note ..`" % name
        assert "| definitions |" in text, "docs/requests/%s has no table of tools/moved.py" % name
    return len(names)


def test_note_lines():
    good = "Base `34af80d`, last commit before this note `0123456789abcdef`."
    assert REVISIONS.search("# Title\n\n%s\n" % good)
    assert not REVISIONS.search("Base `34af80d`.\n") and not REVISIONS.search(good.replace("34af80d", "HEAD"))


test_small_repository()
test_note_lines()
print("moved.py: no difference; notes of requests: %d, each with its revisions" % test_notes_of_requests())
