"""Files and pipes: names, outputs that appear whole or not at all, exit statuses, what is said."""
import json
import os
import pty
import resource
import shutil
import signal
import subprocess
import termios

from harness import CASE_1, CYCLE, HERE, KMERS, ROOT, SG, STRAY_KMERS, contents, failed, put, run, told

from model import outcome_of
from records import SEQUENCE, SGR2, SIMPLIFY_GRAPH, encode

SIMPLIFIED = outcome_of(SIMPLIFY_GRAPH, CASE_1, 0, ())[0]
# With a space, a quote, a line's end, a dash in front, and bytes that are no UTF-8.
NAMES = [b"a b.sgr", b"it's \"it\".sgr", b"two\nlines.sgr", b"-o.sgr", b"\xff\xfe caf\xe9.sgr", "\u00e9\u4e2d.sgr".encode(), b"no suffix"]
COMMANDS = [
    "check", "convert", "simplify", "cleanup", "clean-non-ref", "reference", "path", "sequence", "show", "text", "make", "gfa",
    "from-gfa", "dot", "caller",
]


def check_statuses(folder):
    """0 all accepted, 1 something refused, 2 usage, 3 files; the last goes before 1."""
    good, bad = put(folder, "good.sgr", CASE_1), put(folder, "bad.sgr", CYCLE)
    none, out = os.path.join(folder, "none.sgr"), os.path.join(folder, "out")
    for inputs, status in (([good], 0), ([good, bad], 1), ([bad], 1), ([good, none], 3), ([bad, none], 3), ([folder], 3)):
        assert run("check", *inputs)[0] == status, inputs
        assert run("simplify", "-f", "-d", out, *inputs)[0] == status, inputs
    for words in ([], ["simplify"], ["simplified", good], ["simplify", good, bad], ["simplify", "--jason", good]):
        status, said, noted = run(*words)
        assert (status, said) == (2, b"") and noted.startswith(b"sg: ") and b"usage: sg " in noted, words
    assert run("a\nb\x1b")[2].startswith(b"sg: no command a\\x0ab\\x1b\n")
    failed(run("simplify", none, "-o", out + ".sgr"), 3, b"sg: " + none.encode() + b": No such file or directory\n")
    failed(run("simplify", folder, "-o", out + ".sgr"), 3, b"sg: " + folder.encode() + b": Is a directory\n")
    assert not os.path.exists(out + ".sgr")
    with open(os.path.join(folder, "huge"), "wb") as file:
        file.truncate((64 << 20) + 1)
    failed(run("check", file.name), 3, b"sg: " + file.name.encode() + b": it has over 64 MiB, and is not read\n")


def check_help(_):
    """Of each command with an example; the manual page is the stored one."""
    status, text, noted = run("help")
    assert (status, noted) == (0, b"") and run("--help") == run("-h") == run("help", "help") == (0, text, b"")
    for name in COMMANDS:
        assert b"\n  " + name.encode() + b" " in text, name
        status, one, _ = run("help", name)
        assert status == 0 and b"\nExample\n\n  sg " + name.encode() + b" " in one, name
        assert run(name, "--help") == run(name, "-h", "-x") == run("--help", name) == (0, one, b""), name
    assert b"\nExamples\n\n  sg make " in text and run("help", "nothing")[0] == 2
    assert run("help", "--man") == (0, contents(os.path.join(ROOT, "docs/sg.1")), b""), "docs/sg.1: sg help --man"
    assert run("--version")[1].startswith(b"sg ")


def check_names(folder):
    """Names of every kind, in and out, in lines and in JSON."""
    where = os.fsencode(folder)
    for name in NAMES:
        put(where, name, CASE_1)
    status, said, _ = run("simplify", "--json", "-d", "out", "--", *NAMES, cwd=folder)
    assert status == 0 and sorted(os.listdir(os.path.join(where, b"out"))) == sorted(NAMES)
    for name, one in zip(NAMES, told(said)):
        assert contents(os.path.join(where, b"out", name)) == SIMPLIFIED
        assert one["file"] == name.decode("utf-8", "replace") and one["output"] == "out/" + one["file"], one
        assert one.get("file_hex", name.hex()) == name.hex() and ("file_hex" in one) == (b"\xff" in name), one
    for name in NAMES:
        put(where, name, CYCLE)
        status, _, noted = run("simplify", "-o", "never", "--", name, cwd=folder)
        assert (status, noted.count(b"\n")) == (1, 1) and not os.path.exists(os.path.join(folder, "never")), name
        assert noted.startswith(b"sg: " + name.replace(b"\n", b"\\x0a") + b": refused 7: "), noted
    assert run("text", "-d", "texts", "--", *NAMES, cwd=folder)[0] == 0
    assert b"\xff\xfe caf\xe9.txt" in os.listdir(os.path.join(where, b"texts"))


def check_outputs(folder):
    """Nothing is overwritten unasked; a device is written as it is; a link stays one; an input may be its own output."""
    record, out = put(folder, "in.sgr", CASE_1), put(folder, "out.sgr", b"old")
    failed(run("simplify", record, "-o", out), 3, b"sg: " + out.encode() + b": it is there already; --force overwrites it\n")
    assert contents(out) == b"old"
    assert run("simplify", "-q", record, "-o", out, "--force") == (0, b"", b"") and contents(out) == SIMPLIFIED
    os.chmod(out, 0o640)
    os.symlink("out.sgr", os.path.join(folder, "link"))
    assert run("text", "-q", "-f", record, "-o", os.path.join(folder, "link"))[0] == 0
    assert os.path.islink(os.path.join(folder, "link")) and contents(out).startswith(b"form SGR1\n")
    assert os.stat(out).st_mode & 0o777 == 0o640
    assert run("simplify", "-q", record, "-o", "/dev/null") == (0, b"", b"")
    assert not os.path.isfile("/dev/null")
    assert run("simplify", "-q", record, "-o", "/dev/stdout") == (0, SIMPLIFIED, b"")
    for name in ("/dev/stdout", "/dev/fd/1"):
        with open(os.path.join(folder, "redirected"), "wb") as file:
            done = subprocess.run([SG, "simplify", "-q", record, "-o", name], stdout=file)
        assert done.returncode == 0 and contents(file.name) == SIMPLIFIED
    os.remove(file.name)
    assert run("simplify", "-q", "-f", record, "-o", record)[0] == 0 and contents(record) == SIMPLIFIED
    # what is refused leaves what was there, forced or not
    put(folder, "in.sgr", CYCLE)
    put(folder, "out.sgr", b"old")
    assert run("simplify", "-f", record, "-o", out)[0] == 1 and contents(out) == b"old"
    failed(run("text", record, "-o", folder), 3, b"sg: " + folder.encode() + b": ")
    dangling = os.path.join(folder, "dangling")
    os.symlink("nowhere", dangling)
    for words in ([], ["-f"]):
        failed(run("text", *words, record, "-o", dangling), 3, b"sg: " + dangling.encode() + b": it is a link that leads nowhere\n")
    os.remove(dangling)
    failed(run("text", record, "-d", out), 3, b"sg: " + out.encode() + b": it is a file, and no folder\n")
    nowhere = os.path.join(folder, "none", "x.sgr")
    failed(run("text", record, "-o", nowhere), 3, b"sg: " + nowhere.encode() + b": No such file or directory\n")
    # of a folder that cannot be made each input is told
    under_file = os.path.join(out, "folder")
    status, said, _ = run("text", "--json", "-q", "-d", under_file, record, record + "x")
    assert status == 3 and [one["failed_file"] for one in told(said)] == [under_file] * 2, said
    assert sorted(os.listdir(folder)) == ["in.sgr", "link", "out.sgr"]


def check_places(folder):
    """Two outputs, or an output and the tallies, never go to one place, by whatever names."""
    os.mkdir(os.path.join(folder, "out"))
    one, two = put(folder, "one.sgr", CASE_1), put(folder, "two.sgr", CASE_1)
    os.symlink("one.sgr", os.path.join(folder, "out", "two.sgr"))
    put(folder, "out/one.sgr", b"old")
    status, _, noted = run("simplify", "-f", "-d", os.path.join(folder, "out"), one, two)
    assert status == 2 and noted.startswith(b"sg: two files would be written to "), noted
    os.symlink("two.sgr", os.path.join(folder, "link"))
    assert run("simplify", "-f", one, "-o", two, "-t", os.path.join(folder, "link"))[0] == 2
    assert run("simplify", "-f", "-d", "", one)[0] == run("simplify", "-f", "")[0] == 2
    assert contents(one) == contents(two) == CASE_1
    fifo = os.path.join(folder, "fifo")
    os.mkfifo(fifo)
    with subprocess.Popen(["head", "-c", "1", fifo], stdout=subprocess.DEVNULL) as reader:
        status, said, _ = run("text", "--json", "-", "-o", fifo, given=encode(SGR2, SEQUENCE, 0, 10, [b"A" * 99] * 9999, []))
        reader.wait()
    assert status == 3 and told(said)[0]["cause"] == "Broken pipe", said


def check_without_links(folder):
    """Where a file has only one name, and where none is without a name, outputs come to their places all the same."""
    if not shutil.which("gcc"):
        print("note: no gcc: the test without links is left out")
        return
    for i, macros in enumerate(([], ["-DNAMED"])):
        shim, work = os.path.join(folder, "%d.so" % i), os.path.join(folder, "%d" % i)
        subprocess.run(["gcc", "-shared", "-fPIC", *macros, "-o", shim, os.path.join(HERE, "no_links.c"), "-ldl"], check=True)
        os.mkdir(work)
        more = {"env": {**os.environ, "LD_PRELOAD": shim}, "cwd": work}
        put(work, "in.sgr", CASE_1)
        words = ["simplify", "-q", "in.sgr", "-o", "out.sgr", "-t", "table"]
        assert run(*words, **more) == (0, b"", b"") and contents(os.path.join(work, "out.sgr")) == SIMPLIFIED
        failed(run(*words, **more), 3, b"sg: out.sgr: it is there already; --force overwrites it\n")
        put(work, "out.sgr", b"old")
        assert run(*words, "-f", **more) == (0, b"", b"") and contents(os.path.join(work, "out.sgr")) == SIMPLIFIED
        assert sorted(os.listdir(work)) == ["in.sgr", "out.sgr", "table"]
        assert contents(os.path.join(work, "table"))[:12] == bytes([2, 0, 0, 0, 0, 0, 0, 0, 6, 0, 0, 0])


def limit_file_size():
    """Files of at most 100 bytes, as on a disk that is full; without the signal the program is told so."""
    signal.signal(signal.SIGXFSZ, signal.SIG_IGN)
    resource.setrlimit(resource.RLIMIT_FSIZE, (100, 100))


def check_full_disk(folder):
    """What cannot be written is told with its name and does not stop the others; nothing of it is left."""
    long = encode(SGR2, SEQUENCE, 0, 10, [b"A" * 200], [])
    inputs = [put(folder, "1 long.sgr", long), put(folder, "2.sgr", CASE_1), put(folder, "3 long.sgr", long)]
    out = os.path.join(folder, "out")
    status, _, noted = run("simplify", "-d", out, *inputs, preexec_fn=limit_file_size)
    lines = noted.decode().splitlines()
    assert status == 3 and os.listdir(out) == ["2.sgr"] and contents(os.path.join(out, "2.sgr")) == SIMPLIFIED
    assert [line.split(": ")[1:] for line in lines[:2]] == [[p, "File too large"] for p in (out + "/1 long.sgr", out + "/3 long.sgr")]
    assert lines[2].startswith("3 files: 1 accepted, 0 refused, 2 failed; "), lines
    full = run("text", "-", "-o", "/dev/full", given=CASE_1)
    failed(full, 3, b"sg: /dev/full: No space left on device\n")
    for words in (["text", "-"], ["check", "-"], ["help"]):
        with open("/dev/full", "wb") as device:
            done = subprocess.run([SG, *words], input=CASE_1, stdout=device, stderr=subprocess.PIPE)
        assert (done.returncode, done.stderr) == (3, b"sg: standard output: No space left on device\n"), done


def check_pipes(folder):
    """A reader that goes away ends the run without a word."""
    large = put(folder, "large.sgr", encode(SGR2, SEQUENCE, 0, 10, [b"A" * 100] * 1000, []))
    inputs = [put(folder, "%d.sgr" % i, CASE_1) for i in range(3000)]
    for words in (["text", large], ["check", *inputs], ["check", "--json", "-q", *inputs], ["help"]):
        with subprocess.Popen([SG, *words], stdout=subprocess.PIPE, stderr=subprocess.PIPE) as process:
            process.stdout.close()
            noted = process.stderr.read()
        assert (process.returncode, noted) == (3, b""), (words[:2], process.returncode, noted)
    done = subprocess.run("%s check - <&-" % SG, shell=True, capture_output=True)
    assert done.returncode in (1, 3) and b"panic" not in done.stderr, done
    done = subprocess.run("%s check %s 2>&-" % (SG, large), shell=True, capture_output=True)
    assert done.returncode == 0 and done.stdout.startswith(os.fsencode(large)), done
    done = subprocess.run("%s text - | %s make -q - | %s simplify -q -" % (SG, SG, SG), shell=True, input=CASE_1, capture_output=True)
    assert (done.returncode, done.stdout, done.stderr) == (0, SIMPLIFIED, b""), done


def on_terminal(words):
    """Exit status and what a terminal shows, if standard output and error are one."""
    ours, theirs = pty.openpty()
    attributes = termios.tcgetattr(theirs)
    attributes[1] &= ~termios.OPOST
    termios.tcsetattr(theirs, termios.TCSANOW, attributes)
    with subprocess.Popen([SG, *words], stdin=subprocess.DEVNULL, stdout=theirs, stderr=theirs) as process:
        os.close(theirs)
        shown = b"".join(iter(lambda: read_terminal(ours), b""))
    os.close(ours)
    return process.returncode, shown


def read_terminal(terminal):
    try:
        return os.read(terminal, 65536)
    except OSError:
        return b""


def check_terminal(folder):
    """A bar, cleared at the end, and a summary; a line's end behind a string; no record."""
    inputs = [put(folder, "%04d.sgr" % i, CYCLE if i == 700 else CASE_1) for i in range(2000)]
    status, shown = on_terminal(["simplify", "-d", os.path.join(folder, "out"), *inputs])
    assert status == 1 and b"\r\x1b[K[" in shown and b"/2000, " in shown, shown
    last = shown.split(b"\r\x1b[K")[-1]
    assert last.startswith(b"2000 files: 1999 accepted, 1 refused (1 with 7), 0 failed; "), last
    assert b"\x1b[Ksg: " + inputs[700].encode() + b": refused 7: " in shown or b"\nsg: " in shown or shown.startswith(b"sg: ")
    assert on_terminal(["reference", "-q", inputs[0]]) == (0, b"AACTGTT\n")
    status, shown = on_terminal(["simplify", inputs[0]])
    assert status == 2 and shown.startswith(b"sg: a record is not written to a terminal: use -o\n")
    assert on_terminal(["simplify", "-q", inputs[0], "-o", "-"])[0] == 0
    status, shown = on_terminal(["check", "-q", *inputs[:3]])
    assert status == 0 and b"\x1b" not in shown and shown.count(b"\n") == 3


def check_example(_):
    """The worked example is what README.md shows of it."""
    done = subprocess.run(
        [os.path.join(ROOT, "tools/example.sh")], env={**os.environ, "SG_BUILT": "1"}, capture_output=True, check=True
    )
    shown = b"".join(b"    " + line + b"\n" for line in done.stdout.splitlines())
    assert done.stderr == b"" and shown in contents(os.path.join(ROOT, "README.md")), done.stdout.decode()


def check_json(folder):
    """What --json says of each command, as it is stored: tests/sg/told.jsonl has the arguments before each answer."""
    put(folder, "case 1.sgr", CASE_1)
    put(folder, "cycle.sgr", CYCLE)
    put(folder, "cut.sgr", CASE_1[:40])
    put(folder, "kmers.sgr", KMERS)
    put(folder, "stray.sgr", STRAY_KMERS)
    put(folder, "bad.txt", b"k 2\nv A*\n")
    put(folder, "bad.gfa", b"H\tkm:i:2\nP\tp\t0+\t*\n")
    put(folder, "good.txt", b"k 10\nv AA\nv TT\ne 0 1 5 r\n")
    put(folder, "table", bytes(192))
    stored = contents(os.path.join(HERE, "told.jsonl")).decode().splitlines()
    found = []
    for line in stored:
        one = json.loads(line)
        if "arguments" in one:
            found.append(line)
            status, said, noted = run(*one["arguments"], cwd=folder)
            assert noted == b"" and status == one["status"], (one, status, noted)
            found += said.decode().splitlines()
    assert found == stored, "\n".join(a + "\n" + b for a, b in zip(found, stored) if a != b)
    named = {json.loads(line)["arguments"][0] for line in stored if "arguments" in line}
    assert named == set(COMMANDS), named


CHECKS = [
    check_statuses, check_help, check_names, check_outputs, check_places, check_without_links, check_full_disk, check_pipes, check_terminal, check_example,
    check_json,
]
