"""The text that sgshow writes, as documents 01 ("Printed graph") and 02 (change 2) state it, from the model's answer."""
from model import outcome_of
from records import SIMPLIFY_GRAPH, edges_in, form_of, sequences_in

MOST = 65536
END = {1: "quiet", 2: "repeated", 3: "full"}
PRINTED_FLAGS = ["-", "r", "-c", "rc"]
LETTERS = frozenset(b"ABCDEFGHIJKLMNOPQRSTUVWXYZabcdefghijklmnopqrstuvwxyz")


def byte(b):
    return chr(b) if b in LETTERS else "\\x%02x" % b


def sequence(s):
    return "".join(map(byte, s)) or "."


def graph_lines(record):
    """k, counts and the lines of an answer's record, whose limits are wider than those of a record handed in."""
    _, _, _, k, v, e, b, *_ = form_of(record).header.unpack_from(record)
    lines = ["v %d %s" % (i, sequence(s)) for i, s in enumerate(sequences_in(record))]
    for source, target, support, flag in edges_in(record):
        lines.append("e %d %d %d %s" % (source, target, support, PRINTED_FLAGS[flag]))
    return "k %d vertices %d edges %d bytes %d surplus %d" % (k, v, e, b, e - v), lines


def text_of(data):
    outcome = 1 if len(data) > MOST else outcome_of(SIMPLIFY_GRAPH, data, 0, ())
    if not isinstance(outcome, int) and len(outcome[0]) > MOST:
        outcome = 11
    if isinstance(outcome, int):
        return "refused %d\n" % outcome
    record, (rewrites, rounds, end), _ = outcome
    first, lines = graph_lines(record)
    second = "rewrites %d rounds %d end %s" % (rewrites, rounds, END[end])
    return "".join(line + "\n" for line in [first, second, *lines])
