"""Lists the places in src/ that still have an older form, a list for each point of docs/DESIGN-PASS.md.

    tools/places.py            the counts
    tools/places.py list       each place, as POINT FILE:LINE what

It goes by the text, so it finds forms and judges nothing: a place that stays has its reason beside it, or in docs/DESIGN-PASS.md.
"""
import glob
import re
import sys

FUNCTION = re.compile(r'^( *)(?:pub )?fn (\w+)[^;{]*?\(', re.M)


def functions(text):
    """Each function: its line, name, parameters and body."""
    for m in FUNCTION.finditer(text):
        depth, i = 1, m.end()
        while depth:
            depth += {'(': 1, ')': -1}.get(text[i], 0)
            i += 1
        indent = m.group(1)
        start = re.compile(r'\n' + indent + r'\{\n').search(text, i)
        end = re.compile(r'\n' + indent + r'\}').search(text, start.end() - 1) if start else None
        if end:
            yield text.count('\n', 0, m.start()) + 1, m.group(2), text[m.end():i - 1], text[start.end():end.start()]


def parameters(text):
    return re.findall(r'(\w+): ([^,]+)', text)


def enums(text):
    """1: an enum of two variants one of which holds a value."""
    for m in re.finditer(r'^pub enum (\w+) \{\n(.*?)\n\}', text, re.M | re.S):
        variants = [v for v in m.group(2).split('\n') if re.match(r'    \w', v)]
        if len(variants) == 2 and any('(' in v for v in variants):
            yield text.count('\n', 0, m.start()) + 1, 'enum ' + m.group(1)


def flags(text):
    """1: a struct of which a field says whether another counts."""
    for m in re.finditer(r'^pub struct (\w+) \{\n(.*?)\n\}', text, re.M | re.S):
        if re.search(r'^    pub done: bool', m.group(2), re.M):
            yield text.count('\n', 0, m.start()) + 1, 'struct ' + m.group(1)


def numbers(text):
    """1: a number for a kind, an end, a status or a refusal, as a parameter, a field or what an enum holds."""
    for i, line in enumerate(text.split('\n'), 1):
        for m in re.finditer(r'\b(kind|call|end|status|number|missing|off): &?(?:mut )?(?:u32|usize)\b|\b(Refused)\(u32\)', line):
            yield i, m.group(0)


def renamed(body):
    """A body with its names and numbers replaced in the order in which they stand."""
    names = {}
    return re.sub(r"\b[A-Za-z_]\w*\b|\b\d\w*\b", lambda m: names.setdefault(m.group(0), f'x{len(names)}'), re.sub(r'//[^\n]*|\s+', '', body) and body)


def index_loops(text):
    """3: a while whose condition reads a variable that its body counts up or down."""
    for m in re.finditer(r'^( *)(?:\'\w+: )?while ([^\n]*) \{\n(.*?)\n\1\}', text, re.M | re.S):
        for name in set(re.findall(r'\b[a-z_]\w*\b', m.group(2))):
            if re.search(r'^ *' + name + r' [+-]= [^;]*;|^ *' + name + r' = (?:' + name + r' [+-]|\d+ \* )', m.group(3), re.M):
                yield text.count('\n', 0, m.start()) + 1, 'while ' + m.group(2)
                break


def by_hand(text):
    """4: a field set from a variable of its own name, a bool by if, a copy of one field, what a library method does."""
    for i, line in enumerate(text.split('\n'), 1):
        if re.search(r'^\s+(\w+): \1,$|\{ (\w+): \2[ ,]|\{ true \} else|else \{ false \}|^\s+let (?:kmer_size|done) = \w+\.\w+;$', line):
            yield i, line.strip()


GRAPH = {'es', 'm', 'n', 'heads', 'nexts'}


def together(text):
    """5: the parameters of a graph and its index, or of a graph that is held, one by one; a record and its form."""
    for line, name, params, _ in functions(text):
        names = {p for p, _ in parameters(params)}
        if GRAPH <= names or {'held', 'es'} <= names or {'rec', 'form'} <= names or {'es', 'vs', 'p'} <= names:
            yield line, f'fn {name}({len(names)} parameters)'


def lengths(text):
    """6: a slice with the length that counts of it beside it."""
    for line, name, params, _ in functions(text):
        ps = parameters(params)
        for (a, s), (b, t) in zip(ps, ps[1:]):
            if re.match(r'&(mut )?\[', s) and t.strip() == 'usize' and b in ('c', 'n', 'm', 'g', 'len', 'k'):
                yield line, f'fn {name}: {a}, {b}'


def switches(text):
    """7: a step chosen by a number."""
    for i, line in enumerate(text.split('\n'), 1):
        if re.search(r'match kind\b|if call == \d|if kind == \d', line):
            yield i, line.strip()


ONE_FILE = [('1', enums), ('1', flags), ('1', numbers), ('3', index_loops), ('4', by_hand), ('5', together), ('6', lengths), ('7', switches)]


def twins(sources):
    """2: functions of five lines or more that are the same but for their names and numbers, after the first of them."""
    seen = {}
    for path, text in sources:
        for line, name, _, body in functions(text):
            if body.count('\n') >= 5:
                key = renamed(body)
                if key in seen:
                    yield path, line, f'fn {name} as {seen[key]}'
                else:
                    seen[key] = f'{path}: {name}'


def answers():
    """8: the answers of proof files."""
    for path in sorted(glob.glob('crates/*/proofs/**/Answers.antt', recursive=True)):
        for i, line in enumerate(open(path, encoding='utf-8'), 1):
            if re.match(r'pub [^ ]+ : goal\.', line):
                yield path, i, line.split()[1]


def main():
    sources = [(p, open(p, encoding='utf-8').read()) for p in sorted(glob.glob('crates/*/src/**/*.rt', recursive=True))]
    places = [(point, path, line, what) for path, text in sources for point, find in ONE_FILE for line, what in find(text)]
    places += [('2', *place) for place in twins(sources)]
    places += [('8', *place) for place in answers()]
    if sys.argv[1:] == ['list']:
        for point, path, line, what in sorted(places):
            print(point, f'{path}:{line}', what)
    for point in '12345678':
        print(f'point {point}:', sum(p == point for p, *_ in places))


main()
