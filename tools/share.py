#!/usr/bin/env python3
"""Says once what several answers of a proof file bind at one place.

    tools/share.py [OPTIONS] crates/CRATE/proofs/FUNCTION/Proof.antt ..

tools/bind.py names the places that an answer cites in a `where` block below it. Needs that arise at one place of the code
have a context `c` of one type, so where two or more of them bind the same places, the bindings can stand in a module
over that place, and the answers cite them as `at-loop c`:

    module _ (c : tie.After-edge-to Inv-loop μ-loop) where
      abbrev at-loop : tie.At-loop Inv-loop μ-loop
      at-loop = search

      abbrev start : tie.Start Inv-loop μ-loop
      start = let c = at-loop in search

    mul-v : tie.Need-mul-v Inv-loop μ-loop
    mul-v c = omega (arith, at-loop c .loop .inv .low, start c .pre .room)

This tool moves such `where` blocks into modules. `abbrev` lets the names unfold, without which no tactic sees what they
stand for. A name that a file has more than once gets a number: at-loop, at-loop-2. A module that is there already takes
in the answers below it that bind at its place. Bindings by `let` stay where they are.

  --undo       the other way: modules become `where` blocks again. Do this before tools/bind.py, which leaves modules and
               the answers that cite them alone: `tools/share.py --undo FILE; tools/bind.py FILE; tools/share.py FILE`
  --least N    write a file only if that saves at least N lines (1)
  --gen DIR    a folder that `rt dev CRATE --generated DIR/CRATE` wrote; without it the tool has it written
  -n           write nothing, say what would change

What it cannot read it leaves as it is. Run twice it changes nothing. Nothing here is a verdict: `rt check` is.
"""
import argparse
import os
import re
import sys
from collections import namedtuple

sys.path.insert(0, os.path.dirname(os.path.abspath(__file__)))
import bind  # noqa: E402

WORD = re.compile(r'\s+|"(?:[^"\\]|\\.)*"|[(){},;]|[^\s(){},;"]+|"')
CITED = r'(?<![^\s(])%s c(?![^\s),])'
NAME = r'([^\s(),]+)'
NEED = re.compile(r'((?:(?:--|unfolding ).*\n)*)(\S+) : tie\.(Need-\S+)((?: \S+)*)\n\2 (c(?: \S+)*?) =(?=\s)')
MODULE = re.compile(r'((?:--.*\n)*)module _ \(c : tie\.(\S+?)((?: [^\s)]+)*)\) where\n')


class Leave(Exception):
    """Something that this tool does not read."""


class Binding(namedtuple('Binding', 'name typ value')):
    def uses(self):
        """The name that the value starts from, as in `let c = at-loop in search`."""
        return (re.findall(r'^let c = (\S+) in ', self.value) or [None])[0]

    def renamed(self, name, names):
        return Binding(name, self.typ, re.sub(r'^let c = (\S+) in', lambda m: 'let c = %s in' % names[m.group(1)], self.value))

    def text(self, indent, abbrev=''):
        value = ' ' + self.value
        if len(value) > bind.WIDTH - 20:
            value = '\n    ' + indent + bind.folded(self.value, indent + '    ')
        return '%s%s%s : %s\n%s%s =%s' % (indent, abbrev, self.name, self.typ, indent, self.name, value)


def bindings(text, abbrev=''):
    out = []
    for part in re.split(r'\n\n+', text.strip('\n')):
        m = re.match(r'\s*%s(\S+) : (tie\.\S+(?: \S+)*)\n\s*\1 =\s((?:.|\n)*)$' % abbrev, part)
        if not m:
            raise Leave
        b = Binding(m.group(1), m.group(2), ' '.join(m.group(3).split()))
        read = re.match(r'(let c = \S+ in )?(let c : tie\.\S+( \S+)* = search in )*search$', b.value)
        if not read or b.uses() not in [None] + [x.name for x in out]:
            raise Leave
        out.append(b)
    return out


class Answer:
    """A need's signature and its clause, with the bindings of its `where` block."""
    def __init__(self, item):
        m = NEED.match(item)
        if not m:
            raise Leave
        self.head, self.name, self.need, self.args = item[:m.end()], m.group(2), m.group(3), m.group(4).strip()
        self.main, _, where = item[m.end():].partition('\n  where\n')
        if re.search(r'(^|\s)(where|let c|--)(\s|$)|λ ([^.]* )?c[ .]|\(c :|\{-|⟦', self.main):
            raise Leave
        self.where = bindings(where) if where else []
        self.was = item, self.main, self.where

    def cited(self, own):
        """The names of a module that stand here with `c` behind them."""
        return {m for m in re.findall(CITED % NAME, self.main) if m in own} - {b.name for b in self.where}

    def cite(self, names):
        """The clause with a module's name, and `c` behind it, for each name of the `where` block."""
        ws = WORD.findall(self.main)
        at = [i for i, w in enumerate(ws) if not w.isspace()]
        for prev, i, after in zip([None] + at, at, at[1:] + [None]):
            if ws[i] not in names:
                continue
            before = ws[prev] if prev is not None else '='
            if before in ('let', 'λ'):
                raise Leave
            ws[i] = names[ws[i]] + ' c'
            if before in ')}' or bind.is_field(bind.T(before)) or bind.is_name(before):
                if after is not None and bind.is_field(bind.T(ws[after])):
                    raise Leave
                ws[i] = '(%s)' % ws[i]
        return ''.join(ws)

    def uncite(self, names):
        for name in names:
            for form in r'\(%s c\)', CITED:
                self.main = re.sub(form % re.escape(name), names[name], self.main)

    def text(self):
        if self.was[1:] == (self.main, self.where):
            return self.was[0]
        clause = self.head.split('\n')[-1] + self.main
        if max(map(len, clause.split('\n'))) > bind.WIDTH:
            clause = bind.lines_of(clause[:clause.index(' =')], bind.parse(self.main))
        out = self.head[:self.head.rfind('\n') + 1] + clause
        return out + '\n  where\n' + '\n\n'.join(b.text('    ') for b in self.where) if self.where else out


class Module:
    """The bindings over one place. A place's type stands but once on the way, so the type tells which binding is meant."""
    def __init__(self, place, args, note='', own=()):
        self.place, self.args, self.note, self.own = place, args, note, list(own)

    def take(self, b, names, taken):
        """Have a binding of b's type; say under which name."""
        for have in self.own:
            if have.typ == b.typ:
                return have.name
        name, k = b.name, 2
        while name in taken:
            name, k = '%s-%d' % (b.name, k), k + 1
        taken.add(name)
        self.own.append(b.renamed(name, names))
        return name

    def text(self):
        over = ' '.join(['(c : tie.' + self.place, self.args]).strip() + ')'
        return '%smodule _ %s where\n' % (self.note, over) + '\n\n'.join(b.text('  ', 'abbrev ') for b in self.own)


def read(text):
    """The parts of a file between blank lines at its margin, as Answer, Module or plain text."""
    out = []
    for item in re.split(r'\n\n+(?=\S)', text.rstrip('\n')):
        m = MODULE.match(item)
        try:
            own = m and bindings(item[m.end():], 'abbrev ')
            out.append(Module(m.group(2), m.group(3).strip(), m.group(1), own) if m else Answer(item))
        except Leave:
            out.append(item)
    return out


def written(items):
    return '\n\n'.join(x if isinstance(x, str) else x.text() for x in items) + '\n'


def share(text, places):
    items = read(text)
    taken = set(re.findall(r'(?m)^(?:pub |abbrev |  abbrev )*(\S+) :', text)) | set(WORD.findall(text.split('\n\n')[0]))
    groups = {}  # over each place a module, old or new, and the answers that bind there
    for x in items:
        if isinstance(x, Module):
            groups[x.place, x.args] = x, []
        elif isinstance(x, Answer) and x.where and x.need in places.need:
            place = places.need[x.need], x.args
            groups.setdefault(place, (Module(*place), []))[1].append(x)
    for module, answers in groups.values():
        types = [b.typ for x in answers for b in x.where]
        if module not in items and len(types) == len(set(types)):
            continue
        new, names, now = Module(module.place, module.args, '', module.own), {}, set(taken)
        for x in sorted(answers, key=lambda x: -len(x.where)):
            names[x] = {}
            for b in x.where:
                names[x][b.name] = new.take(b, names[x], now)
        try:
            mains = [x.cite(names[x]) for x in answers]
        except Leave:
            continue
        for x, x.main in zip(answers, mains):
            x.where = []
        taken, module.own = now, new.own
        if module not in items:
            items.insert(items.index(answers[0]), module)
    return written(items)


def undo(text):
    items = read(text)
    for module in [x for x in items if isinstance(x, Module)]:
        own = {b.name: b for b in module.own}
        if any(isinstance(x, str) and set(re.findall(CITED % NAME, x)) & set(own) for x in items):
            continue
        for x in [x for x in items if isinstance(x, Answer) and x.cited(own)]:
            used = x.cited(own)
            for b in reversed(module.own):
                if b.name in used and b.uses():
                    used.add(b.uses())
            names, there = {}, set(WORD.findall(x.main)) | {b.name for b in x.where}
            for b in [b for b in module.own if b.name in used]:
                short = re.sub(r'-\d+$', '', b.name)
                names[b.name] = b.name if short in there - {b.name} or short in names.values() else short
            x.uncite(names)
            x.where = [own[n].renamed(names[n], names) for n in names] + x.where
        items.remove(module)
    return written(items)


def main():
    options = argparse.ArgumentParser(usage=__doc__)
    options.add_argument('--undo', action='store_true')
    options.add_argument('--least', type=int, default=1)
    options.add_argument('--gen')
    options.add_argument('-n', action='store_true')
    options.add_argument('files', nargs='+')
    o = options.parse_args()
    for path in o.files:
        with open(path) as f:
            text = f.read()
        places = None if o.undo else bind.places_of(path, o.gen)
        done = undo(text) if o.undo else places and share(text, places)
        new, why = bind.layout(done) if done else (None, 'no generated places')
        if new is None:
            print('%s: left: %s' % (path, why))
        elif new != text and (o.undo or text.count('\n') - new.count('\n') >= o.least):
            print('%s: lines %d -> %d' % (path, text.count('\n'), new.count('\n')))
            if not o.n:
                with open(path, 'w') as f:
                    f.write(new)


if __name__ == '__main__':
    main()
