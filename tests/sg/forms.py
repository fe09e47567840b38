"""check, text, make, gfa, from-gfa, dot and show: what a record is, and its other forms."""
import glob
import os
import random

from harness import CASE_1, CASE_1_AS_SGR2, CYCLE, HERE, KMERS, ROOT, STRAY_KMERS, contents, failed, put, put_all
from harness import refusal, run, run_all, told
from inputs import all_records, sequence_records

import examples
import printed
from model import outcome_of
from records import FORMS, SEQUENCE, SGR1, SGR2, SIMPLIFY_GRAPH, edges_in, encode, form_of, layout, lengths_in, sequences_in

FLAGS = ["-", "r", "-c", "rc"]
KINDS = {0: "k-mers", 1: "sequences"}
FACTS = ("form", "kind", "status", "k", "vertices", "edges", "bytes")
STATUSES = {0: "not cleaned", 1: "just reference", 2: "some variation"}
NO_SEQUENCE = "is no sequence: letters, \\xhh for any other byte, or a dot"

# What document 01 prints of its first example, and the graph in it.
PRINTED_1 = contents(os.path.join(ROOT, "crates/sgshow/stdout"))
SIMPLIFIED_1 = ([b"AAC", b"T", b"A", b"GTT"], [(0, 1, 5, 1), (0, 2, 2, 0), (1, 3, 5, 1), (2, 3, 2, 0)])

WRONG_TEXTS = [
    (b"", "no line says k"),
    (b"v A\n", "no line says k"),
    (b"k 2\nk 2\n", "line 2: a second k"),
    (b"k 65536\n", "line 1: 65536 is no number from 0 to 65535"),
    (b"kind 256\n", "line 1: 256 is no number from 0 to 255"),
    (b"k -1\n", "line 1: -1 is no number from 0 to 65535"),
    (b"k " + b"9" * 5000, "line 1: %s.. is no number from 0 to 65535" % ("9" * 32)),
    (b"k \xd9\xa1\n", "line 1: \\xd9\\xa1 is no number from 0 to 65535"),
    (b"refused 3\n", "line 1: refused 3 is no line of the text form"),
    (b"k 2\nv\n", "line 2: v is no line of the text form"),
    (b"k 2\ne 0 1 5\n", "line 2: e 0 1 5 is no line of the text form"),
    (b"k 2\ne 0 1 4294967296 r\n", "line 2: 4294967296 is no number from 0 to 4294967295"),
    (b"k 2\ne 0 1 5 R\n", "line 2: R is no number from 0 to 255"),
    (b"k 2\ne 0 1 5 c\n", "line 2: c is no number from 0 to 255"),
    (b"k 2\n\n# a vertex\nv A*\n", "line 4: A* " + NO_SEQUENCE),
    (b"k 2\nv A\\x4\n", "line 2: A\\x4 " + NO_SEQUENCE),
    (b"k 2\nv ..\n", "line 2: .. " + NO_SEQUENCE),
    (b"k 2\nv 1 A\n", "line 2: vertex 0 has the number 1"),
    (b"k 2\ne 0 4294967296 5 -\n", "line 2: 4294967296 is no number from 0 to 4294967295"),
    (b"form SGR3\n", "line 1: SGR3 is no form: SGR1 or SGR2"),
    (b"form sgr1\n", "line 1: sgr1 is no form: SGR1 or SGR2"),
    (b"form SGR1\nform SGR2\n", "line 2: a second form"),
    (b"form SGR1\nk 2\nv " + b"A" * 65536, "a sequence of 65536 bytes is too long: its field ends at 65535"),
    (b"form SGR1\nk 2\n" + b"v A\n" * 65536, "65536 vertices are too many: their field ends at 65535"),
    (b"form SGR1\nk 2\n" + b"e 0 0 0 -\n" * 65536, "65536 edges are too many: their field ends at 65535"),
    (b"form SGR1\nk 2\ne 0 65536 0 -\n", "an edge has an end 65536: its field ends at 65535"),
    (b"k 2 vertices 2 edges 0 bytes 1 surplus -2\nv 0 A\n", "the counts behind k are not those of the graph"),
]

# Texts that say no form, and the one that is chosen: SGR1 up to its limits and fields.
CHOSEN = [
    (b"k 2\n" + b"v A\n" * 2048, SGR1),
    (b"k 2\n" + b"v A\n" * 2049, SGR2),
    (b"k 2\n" + b"e 0 0 0 -\n" * 4096, SGR1),
    (b"k 2\n" + b"e 0 0 0 -\n" * 4097, SGR2),
    (b"k 2\nv " + b"A" * 8192, SGR1),
    (b"k 2\nv " + b"A" * 8193, SGR2),
    (b"kind 0\nk 2\nv " + b"A" * 65535, SGR1),
    (b"kind 0\nk 2\nv " + b"A" * 65536, SGR2),
    (b"k 2\ne 0 65535 0 -\n", SGR1),
    (b"k 2\ne 0 65536 0 -\n", SGR2),
    (b"k 129\nv A\n", SGR1),
    (b"k 2\n" + b"v A\n" * 70000, SGR2),
]

GFA = b"H\tVN:Z:1.0\tkm:i:10\nS\ta\tAA\nS\tb\tTT\n"
WRONG_GFA = [
    (b"S\ta\tAA\n", "no tag km of a header says k; -k gives it"),
    (GFA + b"P\tp\ta+,b+\t*\n", "line 4: P is no line that a record can keep: H, S or L"),
    (GFA + b"W\tx\n", "line 4: W is no line that a record can keep: H, S or L"),
    (GFA + b"L\ta\t+\tb\t-\t0M\tRC:i:1\n", "line 4: the orientation -: a record's edges lead forward, +"),
    (GFA + b"L\ta\t-\tb\t+\t0M\tRC:i:1\n", "line 4: the orientation -: a record's edges lead forward, +"),
    (GFA + b"L\ta\t+\tb\t+\t2M\tRC:i:1\n", "line 4: the overlap 2M: a record's sequences do not overlap, 0M"),
    (GFA + b"L\ta\t+\tb\t+\t*\tRC:i:1\n", "line 4: the overlap *: a record's sequences do not overlap, 0M"),
    (GFA + b"L\ta\t+\tb\t+\n", "line 4: a field is missing"),
    (GFA + b"S\tc\n", "line 4: a field is missing"),
    (GFA + b"L\ta\t+\tc\t+\t0M\tRC:i:1\n", "line 4: there is no segment c"),
    (GFA + b"L\ta\t+\tb\t+\t0M\n", "line 4: no tag RC says the support; --support gives one to such links"),
    (GFA + b"L\ta\t+\tb\t+\t0M\tRC:i:-1\n", "line 4: the tag RC: -1 is no number from 0 to 4294967295"),
    (GFA + b"L\ta\t+\tb\t+\t0M\tRC:f:1\n", "line 4: the tag RC is not of type i"),
    (GFA + b"L\ta\t+\tb\t+\t0M\tRC:i:1\trf:i:2\n", "line 4: the tag rf: 2 is no number from 0 to 1"),
    (GFA + b"L\ta\t+\tb\t+\t0M\tRC:i:1\tRC:i:1\n", "line 4: a second tag RC"),
    (GFA + b"L\ta\t+\tb\t+\t0M\tsupport\n", "line 4: support is no tag: two letters, a type and a value"),
    (GFA + b"S\ta\tC\n", "line 4: a second segment a, or one without a name"),
    (GFA + b"S\t\tC\n", "line 4: a second segment nothing, or one without a name"),
    (GFA + b"S\tc\t*\n", "line 4: the sequence is not given; an empty one is * with the tag LN:i:0"),
    (GFA + b"S\tc\t\n", "line 4: the sequence is not given; an empty one is * with the tag LN:i:0"),
    (GFA + b"L\ta\t+\tb\t+\t\tRC:i:1\n", "line 4: the overlap nothing: a record's sequences do not overlap, 0M"),
    (GFA + b"S\tc\tAC\t\n", "line 4: nothing is no tag: two letters, a type and a value"),
    (b"\n# nothing\n", "there is no line of GFA in it"),
    (GFA + b"S\tc\tAC\tLN:i:3\n", "line 4: the tag LN is not the length, 2"),
    (GFA + b"S\tc\tA-C\n", "line 4: the sequence holds the byte \\x2d, which GFA does not allow"),
    (GFA + b"H\tkm:i:10\n", "line 4: a second tag km"),
    (b"H\tVN:Z:2.0\n", "line 1: version 2.0: only GFA 1 is read"),
    (b"H\tVN:Z:1.0\tkd:i:0\tkm:i:3\n", "line 1: the kind is not 1: k-mers overlap; their text form can be read"),
    (b"H\tfm:Z:SGR3\n", "line 1: SGR3 is no form: SGR1 or SGR2"),
]

UNSHOWN = [
    ("gfa", ([b"A", b"C*"], []), "vertex 1 holds the byte \\x2a, which GFA cannot show"),
    ("gfa", ([b"A"], [(0, 1, 1, 0)]), "edge 0 has an end 1, but there are 1 vertices"),
    ("gfa", ([b"A", b"C"], [(0, 1, 1, 4)]), "edge 0 has the flag 4, which GFA cannot show"),
    ("dot", ([b"A"], [(0, 0, 1, 0), (7, 0, 1, 0)]), "edge 1 has an end 7, but there are 1 vertices"),
]


def can_be_followed(data):
    """Whether the header says where the parts stand, and the lengths are those of the sequences."""
    form = form_of(data)
    if len(data) < form.header.size or data[:4] != form.mark:
        return False
    _, _, _, _, v, e, b, *offsets = form.header.unpack_from(data)
    return tuple(offsets) == layout(form, v, e, b) and offsets[3] == len(data) and sum(lengths_in(data)) == b


def has_header(data):
    form = form_of(data)
    return len(data) >= form.header.size and data[:4] == form.mark


def reason_of(data):
    """The number that the layout by itself gives a reason for: 1, 2, 4, or none."""
    form = form_of(data)
    if len(data) < form.header.size or form.header.unpack_from(data)[-1] != len(data):
        return 1
    if data[:4] != form.mark:
        return 2
    return None if can_be_followed(data) else 4


def text_of(data):
    mark, kind, status, k, *_ = form_of(data).header.unpack_from(data)
    lines = ["form " + mark.decode(), "kind %d" % kind, "status %d" % status, "k %d" % k]
    lines += ["v " + printed.sequence(s) for s in sequences_in(data)]
    lines += ["e %d %d %d %s" % (*x[:3], FLAGS[x[3]] if x[3] < 4 else x[3]) for x in edges_in(data)]
    return "".join(line + "\n" for line in lines).encode()


def facts_of(data):
    mark, kind, status, k, v, e, b, *_ = form_of(data).header.unpack_from(data)
    counts = {"k": k, "vertices": v, "edges": e, "bytes": b}
    return {"form": mark.decode(), "kind": KINDS.get(kind, "unknown"), "status": STATUSES.get(status, "unknown"), **counts}


def check_verdicts(folder):
    """The library's number, as the model has it, and the facts of every record whose fields can be followed."""
    data = all_records(random.Random("sg, verdicts"))
    inputs = put_all(os.path.join(folder, "in"), data)
    status, out, _ = run("check", "--json", *inputs)
    objects = told(out)
    assert status == 1 and len(objects) == len(inputs)
    for record, said in zip(data, objects):
        assert said.get("number", 0) == refusal(record), (said, record[:64])
        assert said["result"] == ("refused" if refusal(record) else "accepted"), said
        facts = facts_of(record) if has_header(record) else {}
        assert {name: said.get(name) for name in FACTS} == {name: facts.get(name) for name in FACTS}, (said, facts)
        assert ("detail" in said) == (said.get("number", 0) == reason_of(record)), said
    numbers = {said.get("number", 0) for said in objects}
    assert {0, 1, 2, 3, 4, 5, 6, 7, 15} <= numbers, numbers


def check_lines(folder):
    """check in words."""
    sound, cycle = put(folder, "sound.sgr", CASE_1), put(folder, "a cycle.sgr", CYCLE)
    cut, stray = put(folder, "cut.sgr", CASE_1[:40]), put(folder, "stray.sgr", STRAY_KMERS)
    status, out, noted = run("check", *map(os.path.basename, (sound, cycle, cut, stray)), cwd=folder)
    assert (status, out.decode()) == (1, (
        "sound.sgr: form SGR1, kind sequences, status not cleaned, k 10, vertices 4, edges 4, bytes 10\n"
        "a cycle.sgr: form SGR1, kind sequences, status not cleaned, k 10, vertices 2, edges 2, bytes 2, "
        "refused 7: a cycle, a self edge included\n"
        "cut.sgr: form SGR1, kind sequences, status not cleaned, k 10, vertices 4, edges 4, bytes 10, "
        "refused 1: under 32 bytes, of SGR2 under 36, or not the length it states (it has 40 bytes, but says 86)\n"
        "stray.sgr: form SGR1, kind k-mers, status not cleaned, k 3, vertices 2, edges 1, bytes 6, "
        "refused 15: in conversion, an edge whose k-mers do not overlap by k - 1 bytes\n"
    )), out
    assert noted.startswith(b"4 files: 1 accepted, 3 refused (1 with 1, 1 with 7, 1 with 15), 0 failed; "), noted
    assert run("check", sound)[0] == 0


def check_texts(folder):
    """Every record whose fields can be followed is shown and made again, byte for byte; of every other the number is told."""
    data = all_records(random.Random("sg, texts"))
    inputs = put_all(os.path.join(folder, "in"), data)
    objects, texts = run_all(folder, "text", inputs)
    followed = [record for record in data if can_be_followed(record)]
    assert len(followed) > 1000 and len(data) - len(followed) > 300, len(followed)
    for record, said, text in zip(data, objects, texts):
        if can_be_followed(record):
            assert text == text_of(record), (record, text)
        else:
            assert said["number"] == refusal(record) and said["number"] in (1, 2, 3, 4), said
    check_same_problems(folder, inputs, objects)
    again = os.path.join(folder, "again")
    status, _, noted = run("make", "--unchecked", "-d", again, *sorted(glob.glob(os.path.join(folder, "out", "*"))))
    assert status == 0, noted
    made = [contents(path) for path in sorted(glob.glob(os.path.join(again, "*.sgr")))]
    assert made == followed


def check_same_problems(folder, inputs, by_text):
    """gfa and dot can be made of the same records; of some the graph cannot be shown, and that is no number."""
    for command in ("gfa", "dot"):
        work = os.path.join(folder, command)
        os.mkdir(work)
        for said, due in zip(run_all(work, command, inputs)[0], by_text):
            if due["result"] == "refused":
                assert {**said, "output": None} == {**due, "output": None}, (said, due)
            else:
                assert said["result"] == "accepted" or said["number"] is None, said


def damaged_texts(rng, good, count):
    """Bytes changed, lines lost, doubled and swapped."""
    for _ in range(count):
        lines = rng.choice(good).splitlines(keepends=True)
        i, j = rng.randrange(len(lines)), rng.randrange(len(lines))
        lines[i] = rng.choice([b"", lines[i] * 2, lines[j], lines[i].upper(), lines[i][: rng.randrange(len(lines[i]))]])
        data = bytearray(b"".join(lines))
        for _ in range(rng.choice([0, 0, 1, 3])):
            data[rng.randrange(len(data))] = rng.choice(b"0123456789 \t\n\\x.*+-rcevkSLHACGT\xff\0")
        yield bytes(data)


def check_damaged_texts(folder):
    """Whatever a text has become, it is told what is wrong with it, or a sound record is made of it."""
    rng = random.Random("sg, damaged texts")
    records = [record for record in sequence_records(rng, 60) if b"".join(sequences_in(record)).isalpha()]
    as_gfa = [run("gfa", "-", given=record)[1] for record in records]
    made_of = {"make": [text_of(record) for record in records], "from-gfa": as_gfa}
    for command, good in made_of.items():
        work = os.path.join(folder, command)
        os.mkdir(work)
        inputs = put_all(os.path.join(work, "in"), damaged_texts(rng, good, 800), ".txt")
        objects, made = run_all(work, command, inputs)
        for said, record in zip(objects, made):
            assert refusal(record) == 0 if said["result"] == "accepted" else said["cause"], said
        results = [said["result"] for said in objects]
        counts = {result: results.count(result) for result in ("accepted", "refused", "failed")}
        assert counts["accepted"] > 50 and counts["refused"] > 50 and counts["failed"] == 0, (command, counts)


def check_made(folder):
    """make asks the library, unless it is told not to."""
    for record, number in ((CASE_1, 0), (CYCLE, 7), (KMERS, 0), (STRAY_KMERS, 15)):
        status, out, noted = run("make", "-q", "-", given=text_of(record))
        assert (status, out) == ((1, b"") if number else (0, record)), noted
        assert noted.startswith(b"sg: standard input: refused %d: " % number if number else b""), noted
        assert run("make", "-q", "--unchecked", "-", given=text_of(record)) == (0, record, b"")
    loose = b"# case 1\r\n\r\n e 0\t1 5 1\r\nk 10\nv \\x41\\x41\nv CTG\nv CAG\nv TT\ne 1 3 5 r\ne 0 2 2 0\ne 2 3 2 -"
    assert run("make", "-q", "-", given=loose) == (0, CASE_1, b"")
    every_flag = b"k 2\nv A\nv C\n" + b"".join(b"e 0 1 5 %s\n" % flag for flag in (b"-", b"r", b"-c", b"rc", b"4", b"2"))
    made = run("make", "-q", "--unchecked", "-", given=every_flag)[1]
    assert [edge[3] for edge in edges_in(made)] == [0, 1, 2, 3, 4, 2]
    assert run("make", "-q", "-", given=PRINTED_1) == (0, encode(SGR1, SEQUENCE, 0, 10, *SIMPLIFIED_1), b"")
    text = text_of(CASE_1)
    # the form that is asked for goes before the one in the text
    for words, given, due in (
        (["--form", "sgr2"], text, CASE_1_AS_SGR2),
        (["--form=sgr1"], text.replace(b"SGR1", b"SGR2"), CASE_1),
        ([], text.replace(b"SGR1", b"SGR2"), CASE_1_AS_SGR2),
        ([], text.replace(b"form SGR1\n", b""), CASE_1),
    ):
        assert run("make", "-q", *words, "-", given=given) == (0, due, b""), words


def check_wrong_texts(folder):
    inputs = put_all(os.path.join(folder, "in"), [text for text, _ in WRONG_TEXTS], ".txt")
    objects, _ = run_all(folder, "make", inputs, "--unchecked")
    for (_, message), said in zip(WRONG_TEXTS, objects):
        assert (said["result"], said["number"], said["cause"]) == ("refused", None, message), (said, message)
    failed(run("make", "-", given=b"k ten\n"), 1, b"sg: standard input: line 1: ten is no number from 0 to 65535\n")


def check_chosen(folder):
    inputs = put_all(os.path.join(folder, "in"), [text for text, _ in CHOSEN], ".txt")
    objects, made = run_all(folder, "make", inputs, "--unchecked")
    for (text, form), said, record in zip(CHOSEN, objects, made):
        assert (form_of(record), said["form"]) == (form, form.mark.decode()), text[:40]


def check_stored(folder):
    """The first example in every form, as it is stored."""
    for form, mark in ((CASE_1, b"SGR1"), (CASE_1_AS_SGR2, b"SGR2")):
        record = put(folder, mark.decode(), form)
        for name in ("text", "gfa", "dot"):
            due = contents(os.path.join(HERE, "case-1." + name)).replace(b"SGR1", mark)
            assert run(name, record) == run(name, "-", given=form) == (0, due, b""), name
        due = contents(os.path.join(HERE, "case-1.gfa")).replace(b"SGR1", mark)
        assert run("from-gfa", "-q", "-", given=due) == (0, form, b"")
    for data in (b"", CASE_1[:31], CASE_1_AS_SGR2[:35], b"SGR2" + CASE_1[4:], b"SGR3" + CASE_1[4:], CASE_1 + b"A", bytes(100)):
        for name in ("text", "gfa", "dot"):
            failed(run(name, "-", given=data), 1, b"sg: standard input: refused %d: " % refusal(data))


def check_gfa(folder):
    """Sequence graphs of letters come back from GFA as the bytes that they were; k-mers do not, and that is told."""
    data = list(sequence_records(random.Random("sg, gfa"), 300))
    data += [encode(form, SEQUENCE, 0, 10, *graph) for form in FORMS for graph in examples.SEQUENCE_GRAPHS]
    inputs = put_all(os.path.join(folder, "in"), data)
    objects, texts = run_all(folder, "gfa", inputs)
    letters = [b"".join(sequences_in(record)).isalpha() or not b"".join(sequences_in(record)) for record in data]
    assert sum(letters) > 200
    for is_fit, said in zip(letters, objects):
        assert said["result"] == "accepted" or not is_fit, said
    shown = [(record, said["output"]) for record, said in zip(data, objects) if said["result"] == "accepted"]
    _, made = run_all(os.path.join(folder, "out"), "from-gfa", [path for _, path in shown])
    assert made == [record for record, _ in shown]
    status, gfa, _ = run("gfa", "-", given=KMERS)
    assert status == 0 and gfa.splitlines()[-1].split(b"\t")[5] == b"2M"
    assert run("gfa", "-", given=STRAY_KMERS)[1].splitlines()[-1].split(b"\t")[5] == b"*"
    failed(run("from-gfa", "-", given=gfa), 1, b"sg: standard input: line 1: the kind is not 1")


def check_foreign_gfa(_):
    """Names, order, line ends and tags as other programs write them."""
    text = (
        b"# by another program\r\nL\tutg 1\t+\tutg~2\t+\t0M\tRC:i:5\trf:i:1\tMQ:i:9\r\nH\tVN:Z:1.1\r\n"
        b"S\tutg 1\tAA\tLN:i:2\tdp:f:1.5\r\n\r\nS\tutg~2\tTT\r\nS\t3\t*\tLN:i:0\r\nL\tutg 1\t+\t3\t+\t0M\r\n"
    )
    due = encode(SGR1, SEQUENCE, 0, 25, [b"AA", b"TT", b""], [(0, 1, 5, 1), (0, 2, 7, 0)])
    assert run("from-gfa", "-q", "-k", "25", "--support", "7", "-", given=text) == (0, due, b"")
    failed(run("from-gfa", "-k25", "-", given=text), 1, b"sg: standard input: line 8: no tag RC says the support")
    loop = GFA + b"L\ta\t+\ta\t+\t0M\tRC:i:1\n"
    failed(run("from-gfa", "-", given=loop), 1, b"sg: standard input: refused 7: ")
    assert run("from-gfa", "-q", "--unchecked", "--form", "sgr2", "-", given=loop)[1][:4] == b"SGR2"


def check_wrong_gfa(folder):
    inputs = put_all(os.path.join(folder, "in"), [text for text, _ in WRONG_GFA], ".gfa")
    objects, _ = run_all(folder, "from-gfa", inputs)
    for (_, message), said in zip(WRONG_GFA, objects):
        assert (said["result"], said["number"], said["cause"]) == ("refused", None, message), (said, message)


def check_pictures(_):
    for command, graph, message in UNSHOWN:
        due = b"sg: standard input: " + message.encode() + b"\n"
        failed(run(command, "-", given=encode(SGR1, SEQUENCE, 0, 10, *graph)), 1, due)
    flags = encode(SGR1, SEQUENCE, 0, 10, [b"A", b"C"], [(0, 1, 5, flag) for flag in range(4)])
    tags = [line.split(b"\t")[-2:] for line in run("gfa", "-", given=flags)[1].splitlines()[-4:]]
    assert tags == [[b"rf:i:%d" % r, b"cp:i:%d" % c] for c in (0, 1) for r in (0, 1)]
    red = ", color=red, penwidth=2"
    due = ['    0 -> 1 [label="5%s"%s];' % (c, r) for c in ("", " c") for r in ("", red)]
    assert run("dot", "-", given=flags)[1].decode().splitlines()[-5:-1] == due
    odd = encode(SGR1, SEQUENCE, 0, 10, [b"", b'"\\', b"A" * 20 + b"C" * 13], [])
    labels = [line.split("label=")[1] for line in run("dot", "-", given=odd)[1].decode().splitlines()[3:-1]]
    assert labels == ['"0 ."];', '"1 \\\\x22\\\\x5c"];', '"2 AAAAAAAAAAAA..CCCCCCCCCCCC (33)"];'], labels
    empty = encode(SGR1, SEQUENCE, 0, 10, [b""], [])
    assert run("gfa", "-", given=empty)[1].splitlines()[1] == b"S\t0\t*\tLN:i:0"


def shown_by_model(data):
    """What sgshow would print had it no limit of its own."""
    outcome = outcome_of(SIMPLIFY_GRAPH, data, 0, ())
    if isinstance(outcome, int):
        return outcome, None
    first, lines = printed.graph_lines(outcome[0])
    second = "rewrites %d rounds %d end %s" % (*outcome[1][:2], printed.END[outcome[1][2]])
    return 0, "".join(line + "\n" for line in [first, second, *lines]).encode()


def check_shown(folder):
    """What sgshow printed of its stored inputs; past its own limit, what the model says. make takes all of it."""
    inputs = sorted(glob.glob(os.path.join(ROOT, "tests", "sgshow", "*.in")))
    objects, texts = run_all(folder, "show", inputs)
    past_limit = 0
    for path, said, text in zip(inputs, objects, texts):
        stored = contents(path[:-3] + ".out")
        if stored == (text or b"refused %d\n" % said["number"]):
            continue
        past_limit += 1
        assert stored in (b"refused 1\n", b"refused 11\n"), path
        assert (said.get("number", 0), text) == shown_by_model(contents(path)), path
    assert past_limit < 12 and len(inputs) > 190, past_limit
    shown = [said["output"] for said in objects if said["result"] == "accepted"]
    status, _, noted = run("make", "--unchecked", "-q", "-d", os.path.join(folder, "again"), *shown)
    assert (status, noted) == (0, b"")


CHECKS = [
    check_verdicts, check_lines, check_texts, check_damaged_texts, check_made, check_wrong_texts, check_chosen, check_stored, check_gfa,
    check_foreign_gfa, check_wrong_gfa, check_pictures, check_shown,
]
