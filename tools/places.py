#!/usr/bin/env python3
"""Lists the places in crates/*/src that could be written in a plainer form, a list for each kind of place.

usage: places.py [FOLDER]     FOLDER is a checkout; this one if none is named

It goes by the text alone, so what it lists is to be read: docs/DESIGN-PASS.md says of each place whether it was
changed or why it stays.
"""
import collections
import pathlib
import re
import sys


def strip_comments(text):
    return re.sub(r'//[^\n]*', lambda m: ' ' * len(m.group()), text)


class Item:
    """A function: its file and line, its name, its parameters, its clauses and its body."""

    def __init__(self, file, line, owner, name, params, answer, clauses, body):
        self.file, self.line, self.owner, self.name = file, line, owner, name
        self.params, self.answer, self.clauses, self.body = params, answer, clauses, body

    def place(self):
        return f'{self.file}:{self.line} {self.name}'


def matching(text, at, opening, closing):
    depth = 0
    while at < len(text):
        if text[at] == opening:
            depth += 1
        elif text[at] == closing:
            depth -= 1
            if depth == 0:
                return at
        at += 1
    return at


def split_top(text):
    """Splits at the commas that stand in no bracket."""
    parts, depth, last = [], 0, 0
    for i, c in enumerate(text):
        if c in '([{<':
            depth += 1
        elif c in ')]}' or (c == '>' and text[i - 1] not in '-='):
            depth -= 1
        elif c == ',' and depth == 0:
            parts.append(text[last:i].strip())
            last = i + 1
    parts.append(text[last:].strip())
    return [p for p in parts if p]


def functions(file, text):
    clean = strip_comments(text)
    # literals of one byte hold brackets now and then
    clean = re.sub(r"b?'(\\.|[^'\\\n])'", lambda m: 'c' * len(m.group()), clean)
    for m in re.finditer(r'\bfn (\w+)', clean):
        at = clean.find('(', m.end())
        if clean[m.end():m.end() + 1] == '<':
            depth, at = 0, m.end()
            while True:
                if clean[at] == '<':
                    depth += 1
                elif clean[at] == '>' and clean[at - 1] not in '-=':
                    depth -= 1
                    if depth == 0:
                        break
                at += 1
            at = clean.find('(', at)
        end = matching(clean, at, '(', ')')
        params = split_top(clean[at + 1:end])
        rest = end + 1
        answer = ''
        a = re.match(r'\s*->\s*([^{;]*?)(?=\s*(\{|;|\brequires\b|\bensures\b|\bwhere\b|$))', clean[rest:])
        if a:
            answer = a.group(1).strip()
            rest += a.end()
        clauses = []
        while True:
            c = re.match(r'\s*(requires|ensures)(\s+\w+)?\s*\{', clean[rest:])
            if not c:
                break
            start = rest + c.end() - 1
            stop = matching(clean, start, '{', '}')
            clauses.append((c.group(1), ' '.join(clean[start + 1:stop].split())))
            rest = stop + 1
        b = re.match(r'\s*\{', clean[rest:])
        body = ''
        if b:
            start = rest + b.end() - 1
            body = clean[start + 1:matching(clean, start, '{', '}')]
        owners = re.findall(r'^(?:impl|pub trait|trait)\b[^{\n]*', clean[:m.start()], re.M)
        line = clean.count('\n', 0, m.start()) + 1
        yield Item(file, line, owners[-1] if owners else '', m.group(1), params, answer, clauses, body)


def shape(fun):
    """A function's body with its names, numbers and strings left out."""
    tokens = re.findall(r'"[^"]*"|\w+|[^\s\w]', fun.body)
    kept = {'if', 'else', 'match', 'for', 'in', 'while', 'return', 'let', 'mut', 'self', 'Some', 'None', 'Ok', 'Err'}
    return ' '.join(t if t in kept or not re.match(r'[\w"]', t) else 'x' for t in tokens)


def main():
    top = pathlib.Path(sys.argv[1] if len(sys.argv) > 1 else pathlib.Path(__file__).resolve().parent.parent)
    files = sorted(top.glob('crates/*/src/**/*.rt'))
    texts = {str(f.relative_to(top / 'crates')): f.read_text() for f in files}
    funs = [f for name, text in texts.items() for f in functions(name, text)]
    found = collections.OrderedDict()

    def note(kind, place):
        found.setdefault(kind, []).append(place)

    for name, text in texts.items():
        clean = strip_comments(text)
        line = lambda at: clean.count('\n', 0, at) + 1
        for m in re.finditer(r'\benum (\w+)(?:<[^>]*>)?\s*\{', clean):
            body = clean[m.end():matching(clean, m.end() - 1, '{', '}')]
            variants = split_top(body)
            held = [v for v in variants if '(' in v or '{' in v]
            if len(variants) == 2 and held:
                note('1 enums of two variants that hold a value', f'{name}:{line(m.start())} {m.group(1)}')
        for m in re.finditer(r'\bstruct (\w+)(?:<[^>]*>)?\s*(?:where[^{]*)?\{', clean):
            body = clean[m.end():matching(clean, m.end() - 1, '{', '}')]
            fields = [p for p in split_top(body) if 'ghost' not in p]
            types = [p.split(':', 1)[1].strip() for p in fields if ':' in p]
            if 'bool' in types and any(t.startswith('Option') for t in types):
                note('1 structs of a flag and an Option', f'{name}:{line(m.start())} {m.group(1)}')
            lists = [t for t in types if re.match(r"(&('\w+ )?(mut )?)?\[", t)]
            if lists and any(re.search(r'\b(count|held|len|many)\b', p) for p in fields):
                note('6 structs of a buffer and a count', f'{name}:{line(m.start())} {m.group(1)}')
        for m in re.finditer(r'\bwhile\b(?! let)[^{\n]*', clean):
            note('3 loops by a number', f'{name}:{line(m.start())} {m.group().strip()}')
        for m in re.finditer(r'\bfor \(?(\w+)(?:, [&\w]+\))? in ([^\n]*?) \{', clean):
            body = clean[m.end():matching(clean, m.end() - 1, '{', '}')]
            number, source = m.groups()
            indexes = re.search(r'\[[^\]\n]*\b' + number + r'\b', body)
            counted = re.search(r'\.\.\s*\w+(\.\w+)*\.len\(\)', source)
            if ('..' in source or 'enumerate' in source) and (indexes or counted):
                note('3 loops by a number', f'{name}:{line(m.start())} {m.group()[:-2]}')
        for m in re.finditer(r'^\s*for \(?[&\w, ]+\)? in [^\n]*\{\n\s*if [^\n]*\{\n\s*return [^\n]*\n\s*\}\n\s*\}', clean, re.M):
            note('3 loops that look for something', f'{name}:{line(m.start()) + (1 if m.group().startswith(chr(10)) else 0)}')
        for m in re.finditer(r'Err\((\w+)\) => match \1', clean):
            note('1 matches in a match of an Err', f'{name}:{line(m.start())}')
        for m in re.finditer(r'Some\([^)]*\) => Some\(|None => None|Ok\(\(\)\) => Ok\(\(\)\)|Err\(_\) => None', clean):
            note('1 matches that map or hand on', f'{name}:{line(m.start())} {m.group()}')
        for m in re.finditer(r'\.is_err\(\)|let Ok\(|let Some\([^)]*\) = [^\n]* else', clean):
            note('1 results whose error is dropped', f'{name}:{line(m.start())} {m.group()}')
        for m in re.finditer(r'((?:#\[[^\]]*\]\s*)*)pub (?:struct|enum) (\w+)', clean):
            derives = ' '.join(re.findall(r'derive\(([^)]*)\)', m.group(1)))
            if 'Copy' in derives and 'PartialEq' not in derives:
                note('4 plain types without equality', f'{name}:{line(m.start() + len(m.group(1)))} {m.group(2)}')
        for m in re.finditer(r'\* 256|/ 256|% 256|from_be_bytes\(\[\w+\[', clean):
            note('4 bytes of numbers by hand', f'{name}:{line(m.start())}')
        for m in re.finditer(r'\bfn\s*\(|&dyn|Box<dyn', clean):
            note('7 tables of functions', f'{name}:{line(m.start())}')

    for f in funs:
        if re.search(r'^(from_|to_|number$|number_of$|refusal$|words$|.*_words$|write_(hex|name|spaces|key|fields)$|mark$|before$|is_of$)', f.name) and 'fmt' not in f.name:
            note('4 conversions, orders and printing by hand', f.place())
        arms = re.findall(r'=>\s*(\d+|"[^"]*"),', f.body)
        if len(arms) > 2:
            note('1 numbers and words for kinds', f.place())
        if f.answer in ('usize', 'Option<usize>') and any(re.search(r': &mut \[', p) for p in f.params):
            note('6 functions that fill a buffer and answer a count', f.place())
        names = [p.split(':')[0].strip() for p in f.params]
        if any(re.search(r': &(mut )?\[', p) for p in f.params) and any(n in ('count', 'held', 'many', 'len') for n in names):
            note('6 parameters of a buffer and a count', f.place())
        if re.match(r'(call|script|step)s?$', ' '.join(names)):
            note('7 switches on a step', f.place())
    for name, text in texts.items():
        for m in re.finditer(r'\bmatch (call|step|self\.step)\b', text):
            note('7 switches on a step', f'{name}:{text.count(chr(10), 0, m.start()) + 1}')

    shapes = collections.defaultdict(list)
    for f in funs:
        s = shape(f)
        if len(s.split()) >= 16:
            shapes[s].append(f)
    for s, same in shapes.items():
        if len(same) > 1:
            note('2 functions of one shape', ' = '.join(f.place() for f in same))
    consts = collections.defaultdict(list)
    for name, text in texts.items():
        for m in re.finditer(r'\bconst (\w+): ([^=;]+) = ([^;]*);', text):
            if re.match(r'[A-Z]', m.group(2)) and '{' in m.group(3):
                consts[' '.join((m.group(2) + m.group(3)).split())].append(f'{name}:{text.count(chr(10), 0, m.start()) + 1} {m.group(1)}')
    for same in consts.values():
        if len(same) > 1:
            note('2 constants of one value', ' = '.join(same))

    facts = collections.defaultdict(set)
    for f in funs:
        for kind, clause in f.clauses:
            for part in re.split(r' × ', clause):
                part = part.strip('() ')
                if kind == 'requires':
                    facts[re.sub(r'\.(now|old|new)\b', '', part)].add(f.place())
    for fact, where in facts.items():
        if len(where) >= 3:
            note('5 facts asked for by three functions and more', f'{fact}: {len(where)}: ' + ', '.join(sorted(where)))
    sets = {}
    for f in funs:
        if ' for ' in f.owner or 'trait ' in f.owner:
            continue
        sets[f.place()] = frozenset(re.sub(r'&(mut )?', '', p) for p in f.params if ':' in p and 'impl ' not in p)
    together = set()
    for p in sets.values():
        together |= {p & q for q in list(sets.values()) + list(together) if len(p & q) >= 2}
    rows = []
    for params in together:
        where = sorted(place for place, p in sets.items() if params <= p)
        if len(where) >= 3:
            rows.append((', '.join(sorted(params)), where))
    for params, where in sorted(rows):
        note('5 parameters that travel together in three functions and more', f'{params}: {len(where)}: ' + ', '.join(where))

    answers = sum(1 for f in top.glob('crates/*/proofs/**/Answers.antt') for l in f.read_text().splitlines() if re.match(r'\S.* =', l))
    lemmas = sum(1 for f in top.glob('crates/*/proofs/**/*.antt') for l in f.read_text().splitlines() if re.match(r'(\s*)(abbrev )?(pub )?[\w-]+ :', l))
    lines = sum(len(f.read_text().splitlines()) for f in top.glob('crates/*/proofs/**/*.antt'))
    for kind in sorted(found):
        print(f'{kind}: {len(found[kind])}')
        for place in found[kind]:
            print(f'    {place}')
    print(f'8 proofs: {answers} answers, {lemmas} signatures, {lines} lines')


if __name__ == '__main__':
    main()
