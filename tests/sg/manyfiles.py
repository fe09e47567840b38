"""Ten thousand files: on one core and on all, one by one, and cut off in the middle."""
import os
import random
import signal
import subprocess
import time

from harness import CASE_1, CORES, CYCLE, SG, contents, put_all, run, told
from inputs import damaged_records, sequence_records

from model import outcome_of
from records import SIMPLIFY_GRAPH

COUNT = 10000
ONE_BY_ONE = 100


def many_records(rng):
    """Most of them good."""
    good, bad = list(sequence_records(rng, 200)), [CYCLE, CASE_1[:40], *rng.sample(list(damaged_records(rng, 0)), 20)]
    return [rng.choice(bad) if rng.random() < 0.03 else rng.choice(good) for _ in range(COUNT)]


def outputs(folder):
    return {name: contents(os.path.join(folder, name)) for name in os.listdir(folder)}


def check_ten_thousand(folder):
    """The same outputs, tallies and words from one core, from all, from more threads than cores, and one by one."""
    data = many_records(random.Random("sg, many"))
    inputs = put_all(os.path.join(folder, "in"), data)
    by_model = {record: outcome_of(SIMPLIFY_GRAPH, record, 0, ()) for record in set(data)}
    refused = sum(isinstance(by_model[record], int) for record in data)
    assert 100 < refused < 1000, refused
    said, tables = [], []
    for jobs in (1, CORES, 4 * CORES):
        out, table = os.path.join(folder, "%d" % jobs), os.path.join(folder, "table %d" % jobs)
        status, lines, noted = run("simplify", "--json", "-j", str(jobs), "-t", table, "-d", out, *inputs)
        assert status == 1 and noted.startswith(b"%d files: %d accepted, %d refused (" % (COUNT, COUNT - refused, refused)), noted
        said.append([{**one, "output": None} for one in told(lines)])
        tables.append(contents(table))
    assert said[0] == said[1] == said[2] and tables[0] == tables[1] == tables[2]
    first = outputs(os.path.join(folder, "1"))
    for jobs in (CORES, 4 * CORES):
        assert outputs(os.path.join(folder, "%d" % jobs)) == first
    due = {os.path.basename(path): by_model[record] for path, record in zip(inputs, data)}
    assert first == {name: outcome[0] for name, outcome in due.items() if not isinstance(outcome, int)}
    for path in inputs[:ONE_BY_ONE]:
        outcome, alone = due[os.path.basename(path)], os.path.join(folder, "alone.sgr")
        status = run("simplify", "-q", "-f", path, "-o", alone)[0]
        assert (status, None if status else contents(alone)) == ((1, None) if isinstance(outcome, int) else (0, outcome[0])), path


def killed(words, out, count):
    """Runs until so many outputs are there, and is then killed."""
    with subprocess.Popen([SG, *words], stdout=subprocess.DEVNULL, stderr=subprocess.DEVNULL) as process:
        while process.poll() is None and (not os.path.isdir(out) or len(os.listdir(out)) < count):
            time.sleep(0.001)
        process.send_signal(signal.SIGKILL)
    return process.returncode == -signal.SIGKILL


def check_killed(folder):
    """A killed run leaves whole files and nothing else, hidden files included; where it was to overwrite, old or new ones."""
    data = list(sequence_records(random.Random("sg, killed"), 100)) * 20
    inputs = put_all(os.path.join(folder, "in"), data)
    due = {os.path.basename(path): outcome_of(SIMPLIFY_GRAPH, record, 0, ())[0] for path, record in zip(inputs, data)}
    cut = 0
    for i, count in enumerate((1, 30, 200, 700)):
        out = os.path.join(folder, "out %d" % i)
        cut += killed(["simplify", "-q", "-j", "4", "-d", out, *inputs], out, count)
        found = outputs(out)
        assert all(due[name] == made for name, made in found.items()) and found, set(found) - set(due)
    old = os.path.join(folder, "old")
    put_all(old, [b"old"] * len(data))
    with subprocess.Popen([SG, "simplify", "-q", "-f", "-d", old, *inputs]) as process:
        while contents(os.path.join(old, "00100.sgr")) == b"old" and process.poll() is None:
            time.sleep(0.001)
        process.send_signal(signal.SIGKILL)
    cut += process.returncode == -signal.SIGKILL
    found = outputs(old)
    stray = {name: made for name, made in found.items() if made != b"old" and made != due.get(name)}
    # a file that is about to take its place is whole too, and there is one at a time
    assert all(name.startswith(".sg-") and made in due.values() for name, made in stray.items()), stray.keys()
    assert len(stray) <= 1, stray.keys()
    assert set(found) - set(stray) == set(due) and cut >= 4, cut


CHECKS = [check_ten_thousand, check_killed]
