"""What the tests of `sg` have in common: the program run, records in files, and what the model says of them."""
import json
import os
import subprocess
import sys

HERE = os.path.dirname(os.path.abspath(__file__))
ROOT = os.path.dirname(os.path.dirname(HERE))
sys.path[:0] = [os.path.join(ROOT, "oracle")]
sys.dont_write_bytecode = True

import examples  # noqa: E402
from model import outcome_of  # noqa: E402
from records import FROM_ASSEMBLY_GRAPH, KMER, SEQUENCE, SGR1, SGR2, VERTEX_SEQUENCE  # noqa: E402
from records import Refused, encode, read_record  # noqa: E402

SG = os.path.join(ROOT, "cli/target/release/sg")
CORES = os.cpu_count() or 1

CASE_1 = encode(SGR1, SEQUENCE, 0, 10, *examples.NINE[0])
CASE_1_AS_SGR2 = encode(SGR2, SEQUENCE, 0, 10, *examples.NINE[0])
CYCLE = encode(SGR1, SEQUENCE, 0, 10, [b"A", b"C"], [(0, 1, 1, 0), (1, 0, 1, 0)])
KMERS = encode(SGR1, KMER, 0, 3, [b"ACG", b"CGT"], [(0, 1, 5, 1)])
STRAY_KMERS = encode(SGR1, KMER, 0, 3, [b"ACG", b"GGG"], [(0, 1, 5, 1)])


def run(*words, given=b"", **more):
    """Exit status, standard output, standard error."""
    done = subprocess.run([SG, *words], input=given, capture_output=True, **more)
    return done.returncode, done.stdout, done.stderr


def contents(path):
    with open(path, "rb") as file:
        return file.read()


def put(folder, name, data):
    """The path of a new file."""
    path = os.path.join(folder, name)
    with open(path, "wb") as file:
        file.write(data)
    return path


def put_all(folder, all_data, suffix=".sgr"):
    """Files numbered in order, in a new folder; their paths."""
    os.mkdir(folder)
    return [put(folder, "%05d%s" % (i, suffix), data) for i, data in enumerate(all_data)]


def told(out):
    """The objects of --json."""
    return [json.loads(line) for line in out.splitlines()]


def run_all(folder, command, inputs, *words):
    """A command on many files: what it told of each, and each output or None."""
    out = os.path.join(folder, "out")
    status, said, noted = run(command, "--json", "-d", out, *words, *inputs)
    objects = told(said)
    assert [o["file"] for o in objects] == inputs, command
    assert status == max(STATUS[o["result"]] for o in objects), (command, status)
    made = [contents(o["output"]) if o["result"] == "accepted" else None for o in objects]
    assert sorted(os.listdir(out)) == sorted(os.path.basename(o["output"]) for o in objects if "output" in o), command
    assert noted == b"" or noted.startswith(b"%d files: " % len(inputs)) and noted.count(b"\n") == 1, (command, noted)
    return objects, made


STATUS = {"accepted": 0, "refused": 1, "failed": 3}


def refusal(data):
    """The model's number for the record: 0 if it is sound and, if it is of k-mers, can be converted."""
    if data[4:5] == b"\0":
        outcome = outcome_of(FROM_ASSEMBLY_GRAPH, data, 0, ())
        return outcome if isinstance(outcome, int) else 0
    try:
        read_record(VERTEX_SEQUENCE, data)
    except Refused as refused:
        return refused.number
    return 0


def failed(result, status, start):
    """That a run failed with this status, one line on standard error that begins so, and nothing on standard output."""
    code, out, noted = result
    assert (code, out) == (status, b""), result
    assert noted.startswith(start) and noted.count(b"\n") == 1 and noted.endswith(b"\n"), (result, start)
