#!/usr/bin/env python3
"""Names the places that a proof speaks of, instead of counting the steps back to them.

    tools/bind.py [OPTIONS] crates/CRATE/proofs/FUNCTION/Proof.antt ..

A proof file answers needs. What is known at a need comes in `c`, as a chain of records, one for each step of the code
before it, so a fact from an earlier call stands at `c .before .before .before .load .ensures`. Such a path says nothing to
a reader and breaks with the next added local. But each step has a record type of its own, which the kit writes into
the function's `Tie`, and `search` finds the value of that type:

    let at-load : tie.After-load = search in at-load .load .ensures

This tool rewrites the paths of a proof file into that form, breaks its long lines, and takes comments away that only give
a position in the source. Use it after a proof has been found by whatever means, and after a change of the code.

  --form auto|let|where|path   how a place is bound (auto):
                               let    `let at-load : tie.After-load = search in ..`
                               where  a helper below the clause, which no tactic reads as a hypothesis
                               auto   where, if the clause has a tactic (omega, search, simp, rw, cc), else let
                               path   `let at-load = c .before .before in ..`: needs nothing of the kit
  --hop N                      one `search` goes at most N steps back (12; 0: bind by `.before`). If the check says
                               "no proof of `tie.X` was found", a smaller N helps
  --gen DIR                    a folder that `rt dev CRATE --generated DIR/CRATE` wrote; without it the tool has it written
  --width W                    break lines past W characters (120)
  --paths NAME                 bind the places of the answer NAME by path, not by search (repeatable; also FILE:NAME)
  -n                           write nothing, say what would change

An answer that it cannot read is left as it is, and named. Run twice it changes nothing; run after a change of the code
it brings bindings that carry a type up to date. The modules of tools/share.py, and answers that cite them, it leaves
alone: `tools/share.py --undo FILE` before this tool makes them `where` blocks, and `tools/share.py FILE` after it modules.
Nothing here is a verdict: `rt check` is. Run `rt ci` after it: a must-fail edit that was refused only because a path broke
would now be accepted.
"""
import atexit
import os
import re
import shutil
import subprocess
import sys
import tempfile
import textwrap

TACTICS = {'omega', 'search', 'simp', 'rw', 'rw⁻¹', 'grw', 'cc'}
ENTRY = ('args', 'pre', 'good', 'fits', 'κs')
KEYWORDS = {'in', 'let', 'at', '=', ':', 'λ', 'where', 'record', 'elim', 'unfold'}
WIDTH = 120


class Bail(Exception):
    pass


# ---- tokens and groups

class T:
    """A word, with whether white space stood before it."""
    __slots__ = ('s', 'sp')

    def __init__(self, s, sp=True):
        self.s, self.sp = s, sp


class G:
    """A bracket with what it holds."""
    __slots__ = ('o', 'items', 'c', 'sp')

    def __init__(self, o, items, c, sp=True):
        self.o, self.items, self.c, self.sp = o, items, c, sp


PAIR = {'(': ')', '{': '}'}


def parse(text):
    if re.search(r'(^|\s)--(\s|$)|\{-|⟦', text):
        raise Bail('a comment or code inside')
    stack, cur, sp = [], [], True
    for m in re.finditer(r'\s+|"(?:[^"\\]|\\.)*"|[(){},;]|[^\s(){},;"]+|"', text):
        w = m.group(0)
        if w == '"':
            raise Bail('a text that does not end')
        if w.isspace():
            sp = True
            continue
        if w in PAIR:
            stack.append((w, cur, sp))
            cur = []
            sp = False
            continue
        if w in ')}':
            if not stack or PAIR[stack[-1][0]] != w:
                raise Bail('brackets do not match')
            o, outer, osp = stack.pop()
            if cur and isinstance(cur[-1], T) and cur[-1].s in ',;':
                cur.pop()
            outer.append(G(o, cur, w, osp))
            cur = outer
        else:
            cur.append(T(w, sp and w not in ',;'))
        sp = False
    if stack:
        raise Bail('brackets do not match')
    return cur


def flat(items):
    out = ''
    for i, x in enumerate(items):
        if i and x.sp:
            out += ' '
        if isinstance(x, G):
            inner = flat(x.items)
            pad = ' ' if x.o == '{' and i and isinstance(items[i - 1], T) and items[i - 1].s == 'record' and inner else ''
            out += x.o + pad + inner + pad + x.c
        else:
            out += x.s
            if x.s in ',;' and i + 1 < len(items):
                items[i + 1].sp = True
    return out


def walk(items):
    for x in items:
        yield x
        if isinstance(x, G):
            yield from walk(x.items)


def words(items):
    return [x.s for x in walk(items) if isinstance(x, T)]


def is_field(x):
    return isinstance(x, T) and len(x.s) > 1 and x.s[0] == '.' and x.s[1] != '.'


def is_name(s):
    return bool(re.match(r"[^\W\d]|«|\?|_$|\d|\"", s)) and not s.endswith('.') and s not in KEYWORDS


def is_op(x):
    return isinstance(x, T) and not is_field(x) and not is_name(x.s) and x.s not in KEYWORDS and not x.s.endswith('.') and x.s not in ',;'


# ---- paths

def paths(items, var):
    """Each use of var: (list it stands in, index, number of .before, next field or None)."""
    out = []
    binder = False
    for i, x in enumerate(items):
        if isinstance(x, G):
            if binder and var in words(x.items)[:1]:
                raise Bail('%s is bound again inside' % var)
            out += paths(x.items, var)
            continue
        if x.s == 'λ':
            binder = True
            continue
        if binder:
            if x.s.rstrip('.') == var:
                raise Bail('%s is bound again inside' % var)
            if x.s.endswith('.'):
                binder = False
            continue
        if x.s == 'let' and i + 1 < len(items) and isinstance(items[i + 1], T) and items[i + 1].s == var:
            raise Bail('%s is bound again inside' % var)
        if x.s != var:
            continue
        n = 0
        while i + 1 + n < len(items) and isinstance(items[i + 1 + n], T) and items[i + 1 + n].s == '.before':
            n += 1
        nxt = items[i + 1 + n].s[1:] if i + 1 + n < len(items) and is_field(items[i + 1 + n]) else None
        if n or nxt:
            prev = items[i - 1] if i else None
            if isinstance(prev, G) or isinstance(prev, T) and (is_field(prev) or is_name(prev.s)):
                raise Bail('a path that is no term of its own: %s' % flat(items[max(0, i - 2):i + 4])[:80])
        out.append((items, i, n, nxt))
    return out


def replace(items, var, names):
    """Put names[n] for var .before^n, n > 0."""
    i = 0
    while i < len(items):
        x = items[i]
        if isinstance(x, G):
            replace(x.items, var, names)
            if x.o == '(' and len(x.items) == 1 and isinstance(x.items[0], T) and is_name(x.items[0].s):
                items[i] = T(x.items[0].s, True)
        elif x.s == var:
            n = 0
            while i + 1 + n < len(items) and isinstance(items[i + 1 + n], T) and items[i + 1 + n].s == '.before':
                n += 1
            if n:
                items[i:i + 1 + n] = [T(names[n], x.sp)]
        i += 1


def norm(items):
    """The words with brackets, without brackets about one word: to compare two texts."""
    out = []
    for x in items:
        if isinstance(x, T):
            out.append(x.s)
        else:
            inner = norm(x.items)
            if x.o == '(' and len(inner) == 1:
                out += inner
            else:
                out += [x.o] + inner + [x.c]
    return out


def expand_names(ws, var, depth):
    out = []
    for w in ws:
        if w in depth:
            out += [var] + ['.before'] * depth[w]
        else:
            out.append(w)
    return out


# ---- layout

def split_parts(items, sep):
    parts, cur = [], []
    for x in items:
        if isinstance(x, T) and x.s == sep:
            parts.append(cur)
            cur = []
        else:
            cur.append(x)
    return parts + [cur] if cur else parts


def is_tuple(g):
    return isinstance(g, G) and g.o == '(' and any(isinstance(x, T) and x.s == ',' for x in g.items)


def elements(items):
    """Cut a sequence into parts that stay together: a term with its fields, `λ x y.`, `let x : T =`, `record {..}`."""
    out = []
    i = 0
    while i < len(items):
        x = items[i]
        j = i + 1
        if isinstance(x, T) and x.s == 'λ':
            while j < len(items) and not (isinstance(items[j], T) and items[j].s.endswith('.')):
                j += 1
            j = min(j + 1, len(items))
        elif isinstance(x, T) and x.s == 'record' and j < len(items) and isinstance(items[j], G):
            j += 1
        while j < len(items) and (is_field(items[j]) or not items[j].sp):
            j += 1
        out.append(items[i:j])
        i = j
    return out


def lay(items, ind, each=False):
    """Lines for items; `rattle fmt` puts the indentation."""
    room = WIDTH - ind
    s = flat(items)
    if len(s) <= room and not each:
        return [s]
    if len(items) == 1 and is_tuple(items[0]):
        return ['('] + [l for p in split_parts(items[0].items, ',') for l in end(lay(p, ind + 2), ',')] + [')']
    if len(items) == 2 and isinstance(items[0], T) and items[0].s == 'record' and isinstance(items[1], G):
        return ['record {'] + [l for p in split_parts(items[1].items, ';') for l in end(lay(p, ind + 2), ';')] + ['}']
    lines, cur = [], ''

    def flush():
        nonlocal cur
        if cur:
            lines.append(cur)
        cur = ''
    els = elements(items)
    ops = any(len(e) == 1 and is_op(e[0]) for e in els)
    for k, e in enumerate(els):
        f = flat(e)
        if len(e) == 1 and isinstance(e[0], T) and e[0].s in ('∙', '×', '→', '⊎') and len(cur) > 30:
            flush()
        glue = ' ' if cur and e[0].sp else ''
        if len(cur) + len(glue) + len(f) <= room and not (each and not ops and k and isinstance(e[0], G)):
            cur += glue + f
        elif len(f) <= room:
            flush()
            cur = f
        else:
            g = next((x for x in e if isinstance(x, G)), None)
            if g is None:
                flush()
                cur = f
                continue
            at = e.index(g)
            head = flat(e[:at])
            tail = e[at + 1:]
            if is_tuple(g):
                if len(cur) + len(head) > room - 10:
                    flush()
                cur += (' ' if cur and e[0].sp else '') + (head + ' ' if head else '') + '('
                flush()
                for p in split_parts(g.items, ','):
                    lines.extend(end(lay(p, ind + 6), ','))
                cur = ')'
            elif head.endswith('record') and g.o == '{':
                cur += (' ' if cur and e[0].sp else '') + head + ' {'
                flush()
                for p in split_parts(g.items, ';'):
                    lines.extend(end(lay(p, ind + 6), ';'))
                cur = '}'
            else:
                if len(cur) > 40 or each:
                    flush()
                inner = lay(g.items, ind + 1)
                if cur and len(cur) + 2 + len(inner[0]) > room:
                    flush()
                inner[0] = (cur + (' ' if e[0].sp else '') if cur else '') + (head + ' ' if head else '') + g.o + inner[0]
                inner[-1] += g.c
                lines.extend(inner[:-1])
                cur = inner[-1]
            if tail:
                cur += (' ' if tail[0].sp else '') + flat(tail)
        if e and isinstance(e[-1], T) and e[-1].s == 'in':
            flush()
    flush()
    return lines


def end(lines, mark):
    return lines[:-1] + [lines[-1] + mark]


# ---- what the kit says of a function's places

class Places:
    def __init__(self, lts, tie):
        self.record, self.need = {}, {}
        for m in re.finditer(r'pub record (\S+) : Type 0 where\n\s+pub before : (\S+)\n\s+pub (\S+) :', lts):
            self.record[m.group(1)] = (m.group(2), m.group(3))
        for m in re.finditer(r'\n\s+(Need-\S+) =\s*\(c : (\S+)\)\s*→', lts):
            self.need[m.group(1)] = m.group(2)
        self.kind = {}
        for m in re.finditer(r'pub record (\S+)·own : Type 0 where\n(.*?)\n *pub record', lts, re.S):
            fields = set(re.findall(r'\n? *pub (\S+) :', m.group(2)))
            self.kind[m.group(1)] = next((k for k in ('inv', 'came', 'given', 'taken', 'left') if k in fields), 'given')
        m = re.search(r'\n *pub spec :\n(.*?)\n *spec =', tie, re.S)
        self.spec = re.findall(r'\(\S+ : (\S+?)(?:\)| )', m.group(1)) if m else []

    def chain(self, place):
        """The places back from this one: (place, thing), the entry last."""
        out = []
        while place in self.record:
            before, thing = self.record[place]
            out.append((place, thing))
            place = before
        return out + [(place, None)] if place == 'Start' else []


# How many records a thing of each kind has, one entry for each step into it: what `search` and `omega` enter on the way.
FAT = {
    'call': (1, 6, 5, 4, 4, 3, 3, 2, 2, 2, 2, 2, 2, 2),
    'inv': (1, 2, 3, 3, 3, 2, 2, 2, 1, 1, 1),
    'came': (1, 3, 3, 3, 2),
    'given': (1, 2, 2, 1),
    'taken': (1, 1),
    'left': (1, 1),
    'start': (4, 4, 3, 3, 2, 2, 2, 2),
}
ENTERS = 128


def reaches(kinds, roots, target):
    """Whether a search from these places comes to the target: it goes through the fields step by step, and enters 128 records."""
    steps = target - max(r for r in roots if r <= target)
    total = 0
    for level in range(steps):
        for r in roots:
            total += r + level < len(kinds)
            for j in range(level):
                if r + j < len(kinds):
                    fat = FAT[kinds[r + j]]
                    total += fat[level - j - 1] if level - j - 1 < len(fat) else 0
    return total <= ENTERS


_gen = {}


def places_of(path, gen):
    m = re.search(r'(.*/)?crates/([^/]+)/proofs/(.+)/Proof\.antt$', os.path.abspath(path))
    if not m:
        return None
    crate, fn = m.group(2), m.group(3)
    if crate not in _gen:
        d = os.path.join(gen, crate) if gen else tempfile.mkdtemp()
        if not gen:
            atexit.register(shutil.rmtree, d, True)
        if not gen or not os.path.isdir(d):
            subprocess.run(['rt', 'dev', crate, '--generated', d], capture_output=True, cwd=m.group(1))
        _gen[crate] = d
    at = os.path.join(_gen[crate], 'Rattle·%s·proofs' % crate, 'proofs', fn)
    try:
        with open(at + '/Lts.antt') as f, open(at + '/Tie.antt') as g:
            return Places(f.read(), g.read())
    except OSError:
        return None


# ---- a file

def short(thing):
    if len(thing) <= 16:
        return thing
    parts = thing.split('-')
    digits = re.search(r'\d*$', thing).group(0)
    if len(parts) == 1:
        return thing
    return ''.join(p[0] for p in parts) + (digits if not parts[-1].isdigit() or len(parts[-1]) == 0 else digits[1:])


class File:
    def __init__(self, path, opts):
        self.path, self.o = path, opts
        with open(path) as f:
            self.text = f.read()
        self.places = None if opts['form'] == 'path' else places_of(path, opts['gen'])
        self.left = []
        if self.places is None and opts['form'] != 'path':
            self.left.append('no generated places: paths are bound by their length, with no types')
        self.taken = set(re.findall(r'[^\s(){},;.]+', self.text))

    def units(self, text):
        """Top-level units: a line at column 0 with what is indented below it, over blank lines too."""
        out = []
        for line in text.split('\n'):
            if out and (not line or line[0] in ' \t)}'):
                out[-1] += '\n' + line
            else:
                out.append(line)
        return [u + '\n' for u in out]

    def run(self):
        text = re.sub(r'(?m)^-- src/\S+:\d+:\d+\n', '', self.text)
        units = self.units(text)
        out, sigs, lifted = [], {}, []
        for u in units:
            body, tail = u.rstrip('\n'), u[len(u.rstrip('\n')):]
            try:
                new = self.unit(body, sigs)
            except Bail as e:
                name = body.split()[0] if body.split() else ''
                self.left.append('%s: %s' % (name, e))
                new = [body]
            for n in new[:-1]:
                out.append(n + '\n\n')
            out.append(new[-1] + tail)
        return self.place_signatures(out)

    def place_signatures(self, out):
        """A lifted answer goes above the signature of the spec that it was taken from."""
        res = []
        for x in out:
            if x.startswith('\0lift\n'):
                at = len(res)
                while at and re.match(r'(pub |unfolding |unfoldable |abbrev )?\S+( :| [^=]*$)', res[at - 1]) and not res[at - 1].endswith('\n\n'):
                    at -= 1
                res.insert(at, x[6:])
            else:
                res.append(x)
        return re.sub(r'\n{3,}', '\n\n', ''.join(res)).rstrip('\n') + '\n'

    def unit(self, body, sigs):
        if not body or body.startswith('--'):
            return [body]
        if body.startswith(('use ', 'pub use ')):
            return [self.use_line(body)]
        if body.startswith(('unfolding', 'infix', 'data', 'record', 'pub record', 'pub data', 'module', 'mutual', 'ruleset', 'mod ', 'pub mod')):
            if max(map(len, body.split('\n'))) > 200:
                raise Bail('a form that it does not lay out')
            return [body]
        first = parse_head(body)
        if first is None:
            raise Bail('no signature and no clause')
        kind, name, head, rest = first
        if kind == 'sig':
            sigs[name] = rest
            if max(map(len, body.split('\n'))) <= WIDTH + 30:
                return [body]
            return ['\n    '.join(head_lines(head + ' :', rest))]
        if 'tie.spec' in rest:
            return self.spec(name, head, rest, sigs, body)
        return [self.clause(name, head, rest, sigs.get(name, ''), body)]

    def use_line(self, body):
        if len(body) <= WIDTH or '\n' in body or '{' not in body:
            return body
        a, b = body.split('{', 1)
        names = [x.strip() for x in b.rstrip().rstrip('}').split(',') if x.strip()]
        return a + '{\n' + ''.join('  %s,\n' % n for n in names) + '}'

    # -- a clause

    def context(self, sig, head):
        """The clause's variable, its place, and what the places' types are applied to."""
        pats = head.split()[1:]
        sig = ' '.join(sig.split())
        m = re.match(r'\s*tie\.(Need-\S+)((?:\s+\S+)*)\s*$', sig)
        var = 'c' if 'c' in pats else None
        if not var:
            return None, None, ''
        if m:
            return var, self.places.need.get(m.group(1)) if self.places else None, ' '.join(m.group(2).split())
        m = re.search(r'\(c : tie\.([\w·-]+)((?:\s+[^\s()]+)*)\)', sig)
        if m:
            return var, m.group(1), ' '.join(m.group(2).split())
        return var, None, ''

    def clause(self, name, head, rest, sig, body, inline=False):
        var, place, args = self.context(sig, head)
        main, where = cut_where(rest)
        items = parse(main)
        long_line = max(map(len, body.split('\n'))) > WIDTH + 30
        if var is None:
            if where:
                if max(map(len, body.split('\n'))) > 200:
                    raise Bail('a where block of its own')
                return body
            return lines_of(head, items) if long_line else body
        chain = self.places.chain(place) if self.places and place else []
        items, had = self.unbind(items, where, var, chain)
        found = [p for p in paths(items, var) if p[2]]
        if not found:
            if had:
                raise Bail('a binding that nothing uses')
            return lines_of(head, items) if long_line else body
        binds, after = self.bindings(items, found, var, chain, args, name)
        before = norm(items)
        replace(items, var, {d: n for n, d in binds})
        if expand_names(norm(items), var, {n: d for n, d in binds}) != before:
            raise Bail('the text does not read back')
        return self.write(head, items, binds, after, var, chain, args, name, inline)

    def unbind(self, items, where, var, chain):
        """Take bindings of an earlier run out again."""
        depth = {}
        index = {p: i for i, (p, _) in enumerate(chain)}

        def value(typ, val):
            m = re.match(r'tie\.([\w·-]+)', typ) if typ else None
            ws = words(parse(val))
            if ws == ['search'] or ws[-1:] == ['search'] and ws[:1] == ['let'] and ws[1] == var:
                if not m or m.group(1) not in index:
                    return None
                return ['.before'] * index[m.group(1)]
            if not ws or not (ws[0] == var or ws[0] in depth) or not all(w[0] == '.' for w in ws[1:]):
                return None
            if m:
                return ['.before'] * index[m.group(1)] if m.group(1) in index else None
            return (depth[ws[0]] if ws[0] != var else []) + ws[1:]
        if where:
            decls = []
            for l in where.split('\n'):
                if not l.strip():
                    continue
                deep = len(l) - len(l.lstrip())
                if decls and deep > base:
                    decls[-1] += ' ' + l.strip()
                else:
                    base = deep
                    decls.append(l.strip())
            k = 0
            while k < len(decls):
                m = re.match(r'(\S+) : (.*)$', decls[k])
                q = re.match(r'(\S+) = (.*)$', decls[k + 1]) if k + 1 < len(decls) else None
                d = value(m.group(2), q.group(2)) if m and q and m.group(1) == q.group(1) else None
                if d is None:
                    raise Bail('a where block of its own')
                depth[m.group(1)] = d
                k += 2
        while items and isinstance(items[0], T) and items[0].s == 'let':
            ws = [x.s if isinstance(x, T) else flat([x]) for x in items]
            try:
                eq = ws.index('=')
                # the `in` that ends it: skip one for each inner let
                k, open_ = eq + 1, 0
                while not (ws[k] == 'in' and open_ == 0):
                    open_ += (ws[k] == 'let') - (ws[k] == 'in')
                    k += 1
            except (ValueError, IndexError):
                raise Bail('a let that it cannot read')
            typ = flat(items[3:eq]) if ws[2] == ':' else ''
            d = value(typ, flat(items[eq + 1:k]))
            if d is None:
                break
            depth[ws[1]] = d
            items = items[k + 1:]
        if depth:
            put_back(items, var, depth)
        return items, bool(depth)

    def bindings(self, items, found, var, chain, args, name):
        used = {}
        for _, _, n, nxt in found:
            used.setdefault(n, set()).add(nxt)
        names = {}
        for n in sorted(used):
            if chain:
                if n >= len(chain):
                    raise Bail('a path longer than the places on the way')
                thing = chain[n][1]
                for f in used[n]:
                    if f is not None and f != thing and not (thing is None and f in ENTRY):
                        raise Bail('.%s at %s' % (f, chain[n][0]))
            else:
                fs = {f for f in used[n] if f}
                thing = None if fs and fs <= set(ENTRY) else (sorted(fs)[0] if fs else 'c%d' % n)
                if fs and fs & set(ENTRY) and not fs <= set(ENTRY):
                    raise Bail('two things at one place')
            base = 'start' if thing is None else 'at-' + short(thing)
            nm, k = base, 2
            local = self.taken if not base.startswith(('at-', 'start')) else set()
            while nm in names.values() or nm in local:
                nm, k = '%s-%d' % (base, k), k + 1
            names[n] = nm
        clash = set(words(items)) & set(names.values())
        if clash:
            raise Bail('the name %s is taken' % ' '.join(clash))
        return [(names[n], n) for n in sorted(names)], None

    def write(self, head, items, binds, after, var, chain, args, name, inline=False):
        form = self.o['form']
        if inline and form in ('auto', 'where'):
            form = 'let'
        tactic = bool(set(words(items)) & TACTICS)
        if not chain:
            form = 'path'
        elif form == 'auto':
            form = 'where' if tactic else 'let'
        key = '%s:%s' % (self.path, name)
        by_path = key in self.o['paths'] or name in self.o['paths']
        kinds = ['start' if t is None else self.places.kind.get(p, 'call') for p, t in chain]
        if form == 'let' and not inline and self.o['form'] == 'auto':
            roots = [0]
            for _, d in binds:
                if not reaches(kinds, roots, d):
                    form = 'where'
                roots.append(d)
        rows, prev = [], (var, 0)
        for nm, d in binds:
            typ = 'tie.%s%s' % (chain[d][0], ' ' + args if args else '') if chain else ''
            val = prev[0] + ' .before' * (d - prev[1])
            if form != 'path' and not by_path and self.o['hop']:
                roots = [prev[1]] if form == 'where' else [0] + [x for _, x in binds if x <= prev[1]]
                route = self.stations(roots, prev[1], d, kinds, chain)
                if route is not None and len(route) <= 8:
                    val = '' if prev[0] == var or form == 'let' and not route else 'let %s = %s in ' % (var, prev[0])
                    for k in route:
                        val += 'let %s : tie.%s%s = search in ' % (var, chain[k][0], ' ' + args if args else '')
                    val += 'search'
            rows.append((nm, typ, val))
            prev = (nm, d)
        if form == 'where':
            text = lines_of(head, items)
            text += '\n  where'
            for i, (nm, typ, val) in enumerate(rows):
                if len(val) > WIDTH - 10:
                    val = '\n      ' + folded(val, '      ')
                text += '\n%s    %s : %s\n    %s =%s%s' % ('\n' if i else '', nm, typ, nm, '' if val[0] == '\n' else ' ', val)
            return text
        things = [] if tactic else self.things(items, binds, chain)
        lets = ['let %s%s = %s in' % (nm, ' : ' + typ if typ and form != 'path' else '', val) for nm, typ, val in rows]
        lets = [l if len(l) <= WIDTH + 20 else folded(l, '    ') for l in lets] + things
        if inline:
            return ' '.join(lets + [flat(items)])
        return '\n    '.join([head + ' ='] + lets + lay(items, 4, True if len(flat(items)) > WIDTH - 4 else False))

    def stations(self, roots, near, far, kinds, chain):
        """Places to stop at on the way from near to far, so that each search comes to the next; None if there are none."""
        hop, out = self.o['hop'], []
        while far - near > hop or not reaches(kinds, roots, far):
            spots = [k for k in range(min(near + hop, far - 1), near, -1) if reaches(kinds, roots, k)]
            if not spots:
                return None
            good = [k for k in spots[:len(spots) // 2] if not re.search(r'known|-arg\d*$|^t\d+$', chain[k][1] or '')]
            roots = [r for r in roots if r != near and r != 0] + [good[0] if good else spots[0]]
            near = roots[-1]
            out.append(near)
        return out

    def things(self, items, binds, chain):
        """`let tuc = at-tuc .transform-until-complete in`, where a long name is used often."""
        out = []
        for nm, d in binds:
            thing = chain[d][1] if chain else None
            if not thing or short(thing) == thing:
                continue
            new = short(thing)
            if new in self.taken or words_after(items, nm, '.' + thing) < 3:
                continue
            put_thing(items, nm, '.' + thing, new)
            out.append('let %s = %s .%s in' % (new, nm, thing))
        return out

    # -- tie.spec

    def spec(self, name, head, rest, sigs, body):
        main, where = cut_where(rest)
        items = parse(main)
        at = None
        for x in [None] + [y for y in walk(items) if isinstance(y, G)]:
            lst = items if x is None else x.items
            for i, t in enumerate(lst):
                if isinstance(t, T) and t.s == 'tie.spec':
                    at = (lst, i)
        if at is None or where:
            raise Bail('tie.spec in another form')
        lst, i = at
        answers = lst[i + 1:]
        needs = self.places.spec if self.places else []
        given = [x.s for x in answers if isinstance(x, T)]
        args = ' '.join(x for x in given if re.match(r'(Inv|μ)-', x))
        lifted = []
        changed = False
        for k, g in enumerate(answers):
            if not isinstance(g, G) or not g.items or not isinstance(g.items[0], T) or g.items[0].s != 'λ':
                continue
            if '.before' not in words(g.items) and not re.match(r'\(λ [^.]*\. let \S+ : tie\.', flat([g])):
                continue
            j = next(n for n, x in enumerate(g.items) if isinstance(x, T) and x.s.endswith('.') and not is_field(x))
            binder = flat(g.items[1:j + 1])[:-1]
            try:
                if len(needs) != len(answers):
                    one = self.clause('', '_ ' + binder, flat(g.items[j + 1:]), '', '', inline=True)
                    lst[i + 1 + k] = G('(', parse('λ %s. %s' % (binder, one)), ')')
                    changed = True
                    continue
                need = needs[k]
                m = re.match(r'Need-(.*)', need)
                if not m or m.group(1) in sigs:
                    raise Bail('answer %d has no name of its own' % (k + 1))
                nm = m.group(1)
                sig = ' tie.%s%s' % (need, ' ' + args if args else '')
                text = flat(g.items[j + 1:])
                one = self.clause(nm, '%s %s' % (nm, binder), text, sig, text, inline=True)
                if len(one) + len(binder) < WIDTH - 10 and '\n' not in one:
                    lst[i + 1 + k] = G('(', parse('λ %s. %s' % (binder, one)), ')')
                    changed = True
                    continue
                new = self.clause(nm, '%s %s' % (nm, binder), text, sig, text + ' ' * 0)
                if nm in self.taken and re.search(r'(?m)^%s ' % re.escape(nm), self.text):
                    raise Bail('%s is taken' % nm)
                lifted.append('\0lift\n%s :%s\n%s\n\n' % (nm, sig, new))
                lst[i + 1 + k] = T(nm)
            except Bail as e:
                self.left.append('%s, answer %d: %s' % (name, k + 1, e))
        if not lifted and not changed and max(map(len, body.split('\n'))) <= 200:
            return [body]
        # one answer to a line
        if lst is items:
            lines = [flat(items[:i + 1])]
        else:
            lines = None
        out = []
        for x in lst[i + 1:]:
            out += lay([x], 4)
        pre = flat(lst[:i + 1])
        if lst is items:
            text = '\n    '.join([head + ' =', pre] + out)
        else:
            outer = next(y for y in walk(items) if isinstance(y, G) and y.items is lst)
            if items[-1] is not outer:
                raise Bail('tie.spec in another form')
            first = flat(items[:-1])
            out = end(out, ')') if out else out
            text = '\n    '.join([head + ' =', first, '(' + pre] + out)
        return lifted_first(lifted, text)


def words_after(items, a, b):
    n = 0
    for i, x in enumerate(items):
        if isinstance(x, G):
            n += words_after(x.items, a, b)
        elif x.s == a and i + 1 < len(items) and isinstance(items[i + 1], T) and items[i + 1].s == b:
            n += 1
    return n


def put_thing(items, a, b, new):
    i = 0
    while i < len(items):
        x = items[i]
        if isinstance(x, G):
            put_thing(x.items, a, b, new)
        elif x.s == a and i + 1 < len(items) and isinstance(items[i + 1], T) and items[i + 1].s == b:
            items[i:i + 2] = [T(new, x.sp)]
        i += 1


def folded(text, indent):
    """A long binding over several lines: after each `in`, else at the width."""
    out = []
    for part in text.replace(' in ', ' in\n').split('\n'):
        out += textwrap.wrap(part, WIDTH - 6, break_long_words=False, break_on_hyphens=False)
    return ('\n' + indent).join(out)


def lifted_first(lifted, text):
    return [''.join(lifted) and x for x in lifted] + [text]


def put_back(items, var, depth):
    i = 0
    while i < len(items):
        x = items[i]
        if isinstance(x, G):
            put_back(x.items, var, depth)
        elif x.s in depth:
            prev = items[i - 1] if i else None
            alone = isinstance(prev, G) or isinstance(prev, T) and (is_field(prev) or is_name(prev.s))
            nextf = i + 1 < len(items) and is_field(items[i + 1])
            new = [T(var, x.sp)] + [T(w) for w in depth[x.s]]
            if (alone or i + 1 < len(items) and not nextf and not is_op(items[i + 1]) and i == 0) and not nextf:
                items[i] = G('(', [T(var, False)] + new[1:], ')', x.sp)
            else:
                items[i:i + 1] = new
                i += len(new) - 1
        i += 1


def parse_head(body):
    first = body.split('\n')[0]
    m = re.match(r'((?:pub |abbrev |unfoldable )*)(\S+)((?: [^:=]*?)?) :(?=\s|$)', first)
    q = re.match(r'(\S+)((?:\s[^:=]*?)?)\s=(?=\s|$)', body)
    if q and (not m or q.start() == 0 and len(q.group(0)) < len(m.group(0))):
        return 'clause', q.group(1), ' '.join(q.group(0)[:-1].split()), body[q.end():]
    if m:
        return 'sig', m.group(2), m.group(0)[:-2], body[m.end():]
    return None


def cut_where(rest):
    m = re.search(r'\n\s*where\n', rest)
    if m:
        return rest[:m.start()], rest[m.end():]
    if re.search(r'(^|\s)where(\s|$)', rest):
        raise Bail('a where that it cannot read')
    return rest, ''


def head_lines(head, rest):
    items = parse(rest)
    s = flat(items)
    if len(head) + 1 + len(s) <= WIDTH:
        return [head + ' ' + s]
    lines = lay(items, 4)
    return [head + ' ' + lines[0]] + lines[1:] if len(head) + len(lines[0]) < WIDTH else [head] + lines


def lines_of(head, items):
    s = flat(items)
    if len(head) + 3 + len(s) <= WIDTH:
        return '%s = %s' % (head, s)
    if len(items) == 1 and is_tuple(items[0]):
        return '\n    '.join([head + ' = ('] + lay(items, 0)[1:]) if len(s) > WIDTH else '%s =\n    %s' % (head, s)
    return '\n    '.join([head + ' ='] + lay(items, 4, len(s) > WIDTH - 4))


def rattle():
    rt = shutil.which('rt')
    return os.path.join(os.path.dirname(os.path.realpath(rt)), 'rattle') if rt else None


def layout(text):
    tool = rattle()
    if not tool:
        return text, 'no rattle to lay it out'
    with tempfile.TemporaryDirectory() as d:
        p = os.path.join(d, 'Proof.antt')
        with open(p, 'w') as f:
            f.write(text)
        r = subprocess.run([tool, 'fmt', '--write', p], capture_output=True, text=True)
        if r.returncode:
            return None, (r.stdout + r.stderr).strip()[:300].replace(d + '/', '')
        with open(p) as f:
            return f.read(), ''


def stat(text):
    return text.count('.before'), max(map(len, text.split('\n'))), sum(len(l) > 200 for l in text.split('\n')), text.count('\n')


def main(argv):
    global WIDTH
    opts = {'form': 'auto', 'hop': 12, 'gen': None, 'paths': set()}
    files, dry = [], False
    while argv:
        a = argv.pop(0)
        if a == '-n':
            dry = True
        elif a == '--paths':
            opts['paths'].add(argv.pop(0))
        elif a == '--width':
            WIDTH = int(argv.pop(0))
        elif a in ('--form', '--gen'):
            opts[a[2:]] = argv.pop(0)
        elif a == '--hop':
            opts['hop'] = int(argv.pop(0))
        elif a.startswith('-'):
            sys.exit(__doc__)
        else:
            files.append(a)
    if not files:
        sys.exit(__doc__)
    for path in files:
        f = File(path, opts)
        new = f.run()
        done, why = layout(new)
        for l in f.left:
            print('%s: left %s' % (path, l))
        if done is None:
            print('%s: LEFT WHOLE: %s' % (path, why))
            if os.environ.get('BIND_DEBUG'):
                print(new)
            continue
        b, a = stat(f.text), stat(done)
        if done != f.text:
            print('%s: .before %d -> %d, longest %d -> %d, over 200: %d -> %d, lines %d -> %d' % (path, b[0], a[0], b[1], a[1], b[2], a[2], b[3], a[3]))
            if not dry:
                with open(path, 'w') as g:
                    g.write(done)


if __name__ == '__main__':
    main(sys.argv[1:])
