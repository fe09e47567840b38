"""Asks the Rust, through the driver `oracle`."""
import os
import shutil
import struct
import subprocess
import sys

from records import (
    CLEANUP_SEQ_GRAPH, CLEAN_NON_REF_PATHS, FROM_ASSEMBLY_GRAPH, SIMPLIFY_GRAPH, VERTEX_SEQUENCE, without_marks,
)

HERE = os.path.dirname(os.path.abspath(__file__))
ANSWERED, NO_REFERENCE_PATH, NO_ROOM = 0, 10, 11
# The driver's numbers for simplification by the Rust as it stands, and for its check of k-mer graphs.
UNCHANGED_SIMPLIFY_GRAPH = 255
CHECK_KMERS = 254
# What that check must find where conversion, past 6, gives a number.
FOUND_IN_KMERS = {0: 0, 15: 15, 7: 7, 8: 0, 11: 0}
# The calls that answer with a record.
RECORD_CALLS = (FROM_ASSEMBLY_GRAPH, SIMPLIFY_GRAPH, CLEANUP_SEQ_GRAPH, CLEAN_NON_REF_PATHS)


def target_folder():
    return os.environ.get("CARGO_TARGET_DIR", os.path.join(HERE, "target"))


def build():
    if shutil.which("cargo") is None:
        sys.exit("cargo is not present: the Rust cannot be asked")
    # the library that the driver links, as oracle/calls.txt asks; nothing to do where it is there already
    subprocess.run(["tools/staticlib.sh"], cwd=os.path.dirname(HERE), stdout=subprocess.DEVNULL, check=True)
    manifest = os.path.join(HERE, "Cargo.toml")
    subprocess.run(["cargo", "build", "--quiet", "--release", "--offline", "--manifest-path", manifest], check=True)


class Rust:
    def __init__(self):
        build()
        driver = os.path.join(target_folder(), "release", "oracle")
        self.process = subprocess.Popen([driver], stdin=subprocess.PIPE, stdout=subprocess.PIPE)
        self.last = (None, None)

    def make(self, case):
        """Bytes, or None where the Rust gives None; status, rounds and end, 0 where a call has none."""
        key = (case.call, case.record, case.start, case.numbers)
        if self.last[0] != key:
            self.last = (key, self.request(case))
        return self.last[1]

    def request(self, case):
        body = struct.pack("<4I", case.call, case.start, len(case.record), len(case.numbers))
        body += case.record + struct.pack("<%dI" % len(case.numbers), *case.numbers)
        self.process.stdin.write(struct.pack("<I", len(body)) + body)
        self.process.stdin.flush()
        (size,) = struct.unpack("<I", self.process.stdout.read(4))
        frame = self.process.stdout.read(size)
        present, *numbers = struct.unpack_from("<4I", frame)
        return frame[16:] if present else None, numbers

    def check(self, case):
        """Stops where the model's answer is not what the Rust makes, or of k-mers not what its check finds."""
        number = case.answer.number
        if case.call == FROM_ASSEMBLY_GRAPH and number in FOUND_IN_KMERS:
            _, (found, _, _) = self.request(case._replace(call=CHECK_KMERS))
            if found != FOUND_IN_KMERS[number]:
                sys.exit("the Rust's check of the k-mers gives %d, not %d: %s" % (found, number, case.record.hex()))
        if case.call == VERTEX_SEQUENCE or number not in (ANSWERED, NO_REFERENCE_PATH, NO_ROOM):
            return
        output, (status, rounds, end) = self.make(case)
        if not agrees(case, output, status, rounds, end):
            sys.exit("the model and the Rust differ: call %d record %s" % (case.call, case.record.hex()))


def agrees(case, output, status, rounds, end):
    a = case.answer
    if output is None:
        return a.number == NO_REFERENCE_PATH
    if len(output) > case.room:
        return a.number == NO_ROOM
    if case.call == SIMPLIFY_GRAPH and a.fields[1:] != (rounds, end):
        return False
    if case.call == CLEANUP_SEQ_GRAPH and a.fields[0] != status:
        return False
    known = without_marks(a.output) if a.output and case.call in RECORD_CALLS else a.output
    return a.number == ANSWERED and known == output
