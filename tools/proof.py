#!/usr/bin/env python3
"""Help with writing proof files. Run it anywhere inside the repository.

    tools/proof.py skel CRATE      write each proof file that the check offers, with a hole `?` for each need (never over
                                   a file that is there)
    tools/proof.py dev CRATE ..    rt dev with short goals: prefixes of modules dropped, runs of `.before` counted
    tools/proof.py chain CRATE FN  for each need of FN: what has happened on the way to it, nearest first
    tools/proof.py fill CRATE FN   reads lines `need = answer` and `use ..` from standard input and puts them into FN's file;
                                   holes that are left become `omega arith`; then as expand
    tools/proof.py expand CRATE FN in FN's file, turn `c@thing` into the path to that thing from the need in which it
                                   stands; `c@args`, `c@pre`, `c@good`, `c@fits` are those of the function's entry
    tools/proof.py compact FILE    move answers of one line into `tie.spec`; once for a file

FN is the folder below proofs/, as `close_edges` or `scan/find`. The usual way: write the code and its contract, `skel`, then
`dev` to see which needs are left, `chain` to see what can be cited, `fill` the answers, `compact`, and tools/bind.py to
name the places. docs/WORKING.md has an example. Nothing here is a verdict: `rt check` is.
"""
import os
import re
import subprocess
import sys
import tempfile

PREFIX = re.compile(r'(Rattle·\w+·(proofs|specs)\.(proofs|specs)|Rattle·\w+\.(proofs|specs)|borrow|lib|mir|denote|mathlib|native|Prim)\.((\w|·|\+)+\.)*')


def root():
    d = os.getcwd()
    while not os.path.exists(os.path.join(d, 'crates.txt')):
        if d == '/':
            sys.exit('no crates.txt here or above')
        d = os.path.dirname(d)
    return d


def proof_file(crate, fn):
    return os.path.join(root(), 'crates', crate, 'proofs', fn, 'Proof.antt')


def run_dev(crate, words=()):
    env = dict(os.environ, RT_CUT='0')
    r = subprocess.run(['rt', 'dev', crate, *words], capture_output=True, text=True, env=env, cwd=root())
    return r.stdout + r.stderr


def dev(crate, *words):
    skip = False
    for line in run_dev(crate, words).split('\n'):
        if line.startswith(('help: write', 'note: what antt said', 'note: antt')):
            skip = True
            continue
        if skip and (line.startswith('  ') or not line.strip()):
            continue
        skip = False
        if re.match(r'fn .*: (proved|no holes)', line) or line.startswith('library '):
            continue
        line = PREFIX.sub('', line)
        line = re.sub(r'\(computed from: .*', '', line)
        line = re.sub(r'( \.before){4,}', lambda m: ' .before^%d' % m.group(0).count('.before'), line)
        print(line[:1800])


def skel(crate):
    lines = run_dev(crate).split('\n')
    i = 0
    while i < len(lines):
        m = re.match(r'help: write (\S+) with these lines', lines[i])
        i += 1
        if not m:
            continue
        path, body = m.group(1), []
        if not os.path.isabs(path):
            path = os.path.join(root(), path)
        while i < len(lines) and (lines[i].startswith('    ') or not lines[i].strip()):
            body.append(lines[i][4:])
            i += 1
        if os.path.exists(path):
            print('kept', path)
            continue
        os.makedirs(os.path.dirname(path), exist_ok=True)
        with open(path, 'w') as f:
            f.write('\n'.join(body).rstrip() + '\n')
        print('wrote', path)
    for line in lines:
        if line.startswith('fn ') and ': proved' not in line or 'error' in line[:200]:
            print(line[:400])


def places(crate, fn):
    """The records of FN's places and the record of each need, from the generated Lts."""
    with tempfile.TemporaryDirectory() as gen:
        run_dev(crate, ['--generated', gen])
        with open(os.path.join(gen, f'Rattle·{crate}·proofs', 'proofs', fn, 'Lts.antt')) as f:
            text = f.read()
    record = {}
    for m in re.finditer(r'pub record (\S+) : Type 0 where\n\s+pub before : (\S+)\n\s+pub (\S+) : ', text):
        record[m.group(1)] = (m.group(2), m.group(3))
    need = dict(re.findall(r'\n\s+(Need-\S+) =\s*\(c : (\S+)\) →', text))
    return record, need


def chain_of(record, place):
    out, k = [], 0
    while place in record:
        place, thing = record[place]
        out.append((thing, k))
        k += 1
    return out, k


def path_to(record, place, thing):
    out, depth = chain_of(record, place)
    if thing in ('args', 'pre', 'good', 'fits', 'κs'):
        return 'c' + ' .before' * depth + ' .' + thing
    for name, k in out:
        if name == thing:
            return 'c' + ' .before' * k + ' .' + thing
    sys.exit(f'no {thing} at {place}; there are: ' + ' '.join(n for n, _ in out))


def chain(crate, fn):
    record, need = places(crate, fn)
    for name, place in need.items():
        print(name, place, ' '.join(n for n, _ in chain_of(record, place)[0]))


def expand(crate, fn):
    record, need = places(crate, fn)
    path = proof_file(crate, fn)
    with open(path) as f:
        blocks = re.split(r'(\n\n+)', f.read())
    for i, block in enumerate(blocks):
        at_need = re.search(r'^([\w-]+) : tie\.(Need-[\w-]+)', block, re.M)
        at_place = re.search(r'\(c : tie\.([\w-]+)', block)
        place = need.get(at_need.group(2)) if at_need else (at_place.group(1) if at_place else None)
        if place and 'c@' in block:
            blocks[i] = re.sub(r'c@([\w-]+)', lambda q: path_to(record, place, q.group(1)), block)
    with open(path, 'w') as f:
        f.write(''.join(blocks))


def fill(crate, fn):
    path = proof_file(crate, fn)
    with open(path) as f:
        text = f.read()
    uses = ['use native.Mathlib.Omega.{arith}']
    for line in sys.stdin.read().split('\n'):
        if line.startswith('use '):
            uses.append(line)
        elif line.startswith('-- '):
            uses.insert(0, line)
        elif line.strip():
            name, answer = (x.strip() for x in line.split(' = ', 1))
            hole = r'\?' if name.startswith(('Inv', 'μ')) else r'(?:\?|omega arith|search needs)'
            text, n = re.subn(r'(?m)^(' + re.escape(name) + r' .*?) = ' + hole + '$', lambda m: m.group(1) + ' = ' + answer, text)
            if n == 0:
                print('no open answer', name)
    text = re.sub(r'(?m)= \?$', '= omega arith', text)
    with open(path, 'w') as f:
        f.write('\n'.join(uses + ['']) + text if uses else text)
    expand(crate, fn)


def compact(path):
    with open(path) as f:
        text = f.read()
    text = re.sub(r'-- src/.*\n', '', text)
    text = re.sub(r'use .* as (reads|lts|[\w-]+-reads)\n', '', text)
    answers, rest = {}, []
    for block in re.split(r'\n\n+', text.strip()):
        lines = block.split('\n')
        m = re.match(r'([\w-]+) : tie\.Need-', lines[0])
        if m and len(lines) == 2 and len(lines[1]) < 200 and '?' not in lines[1]:
            q = re.match(re.escape(m.group(1)) + r' (.*?) = (.*)', lines[1])
            answers[m.group(1)] = q.groups()
        else:
            rest.append(block)
    for i, block in enumerate(rest):
        if '(tie.spec' in block and '-spec :' in block:
            before, after = block.split('(tie.spec', 1)
            names = after.replace(')', ' ').split()
            parts = ['(λ %s. %s)' % answers[n] if n in answers else n for n in names]
            rest[i] = before + '(tie.spec\n    ' + '\n    '.join(parts) + ')'
    with open(path, 'w') as f:
        f.write('\n\n'.join(rest) + '\n')


VERBS = {'dev': dev, 'skel': skel, 'chain': chain, 'expand': expand, 'fill': fill, 'compact': compact}
if len(sys.argv) < 3 or sys.argv[1] not in VERBS:
    sys.exit(__doc__)
VERBS[sys.argv[1]](*sys.argv[2:])
