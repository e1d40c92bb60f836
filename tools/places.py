#!/usr/bin/env python3
"""The places in src/ that docs/DESIGN-PASS.md counts, by text: tools/places.py [-v] [CRATE..], at the top of a checkout."""
import collections, glob, re, sys

verbose = '-v' in sys.argv
names = [a for a in sys.argv[1:] if a != '-v']
files = sorted(f for c in (names or ['*']) for f in glob.glob(f'crates/{c}/src/**/*.rt', recursive=True))

def functions(path):
    """(line, name, parameters, clauses, body) of each function."""
    text = open(path).read()
    for m in re.finditer(r'^( *)(?:pub(?:\(crate\))? )?(?:extern "C" )?fn (\w+)', text, re.M):
        indent = m.group(1)
        end = re.compile(r'^' + indent + r'\}$', re.M).search(text, m.start())
        whole = text[m.start():end.end() if end else None]
        depth = 0
        start = whole.index('(', whole.index('fn ' + m.group(2)) + 3 + len(m.group(2)))
        for stop in range(start, len(whole)):
            depth += {'(': 1, ')': -1}.get(whole[stop], 0)
            if depth == 0:
                break
        inner = whole[start + 1:stop].replace('\n', ' ')
        rest = whole[stop:]
        head, _, body = rest.partition('{\n') if '\n' + indent + '{\n' not in rest else rest.partition('\n' + indent + '{\n')
        params = [p.strip() for p in re.split(r',(?![^\[<(]*[\]>)])', inner) if p.strip()]
        clauses = re.findall(r'^ *requires(?: \w+)? \{ (.*) \}$', head, re.M)
        yield text[:m.start()].count('\n') + 1, m.group(2), params, clauses, body

def lines(pattern):
    return [(f, n, l.strip()) for f in files for n, l in enumerate(open(f), 1) if re.search(pattern, l)]

def shape(body):
    """A body with its names in the order of their first use, and its numbers as one."""
    seen = {}
    keep = {'if', 'else', 'while', 'for', 'in', 'match', 'let', 'mut', 'return', 'as', 'true', 'false', 'self'}
    out = []
    for t in re.findall(r'b?"[^"]*"|\w+|[^\w\s]', re.sub(r'//.*', '', body)):
        if re.match(r'\d', t) or '"' in t:
            out.append('0')
        elif re.match(r'\w', t) and t not in keep:
            out.append(seen.setdefault(t, f'n{len(seen)}'))
        else:
            out.append(t)
    return ' '.join(out)

def show(point, title, places):
    print(f'{point} {title}: {len(places)}')
    if verbose:
        for p in places:
            print('   ', *p)

fns = [(f, *x) for f in files for x in functions(f)]
show(1, 'enums of the shape of Option or Result', lines(r'^    (Refused|Nothing)(\(\w+\))?,$'))
show(1, 'fields that are a flag or an answer beside a value', lines(r'^    pub (ok|failed|refusal|outcome|answer): '))
show(1, 'functions that answer a bool for done or failed', [(f, n, name) for f, n, name, p, c, b in fns if re.match(r'crates/(journal|pieces)/', f) and re.search(r'-> bool', open(f).read().split('\n')[n - 1] + '\n'.join(open(f).read().split('\n')[n - 1:n + 12]).split('{')[0])])
show(1, 'refusals by their numbers', lines(r'Refused\(\d+\)|\.ask\(.*, \d+\)|put_refusal\(\w+, \d+,'))
twins = collections.defaultdict(list)
for f, n, name, p, c, b in fns:
    if b.count('\n') >= 3:
        twins[shape(b)].append((f, n, name))
show(2, 'functions whose body another one has, but for names and numbers', [(*p, '=', k) for k, g in enumerate(twins.values()) if len(g) > 1 for p in g])
show(3, 'while loops', lines(r'^ *while '))
show(4, 'clocks compared through their number', lines(r'\.0 (<|<=|==|>|>=) '))
show(4, 'conversions by a function of their own name', [(f, n, name) for f, n, name, *_ in fns if re.match(r'(of_fields|fields|of_bytes|bytes|wide|digits\d|family_number|refusal_of\w*|stage_of|player_of|row_of|pending_of|unless_refused)$', name) and 'sheet' not in f])
show(5, 'functions of more than seven parameters', [(f, n, name, len(p)) for f, n, name, p, *_ in fns if len(p) > 7])
told = collections.defaultdict(list)
for f, n, name, p, c, b in fns:
    for k in c:
        for part in re.split(r' × ', k):
            told[part.strip('() ')].append((f, n, name))
show(5, 'facts that three or more contracts require', [(k, len(v)) for k, v in told.items() if len(v) > 2])
def with_all(*wanted):
    return [(f, n, name) for f, n, name, p, *_ in fns if all(any(re.match(w, q) for q in p) for w in wanted)]
show(5, 'functions with k and N beside one another', with_all(r'k: u8', r'(n|groups): u8'))
show(5, 'functions with two or more of the five arrays of a unit', [(f, n, name) for f, n, name, p, *_ in fns if sum(bool(re.match(r'(pending|counts|variables|writes|lasts): &', q)) for q in p) > 1])
show(5, 'functions with out and err', with_all(r'out: ', r'err: '))
show(6, 'functions with a text and how much of it is used', with_all(r'text: &', r'used: '))
show(6, 'functions with a queue and its count', with_all(r'queue: &', r'(count|left): '))
show(6, 'functions with another slice and its length', [(f, n, name) for f, n, name, p, *_ in fns if any(re.match(r'(length|held|filled|count): usize', q) for q in p) and any(re.search(r': (&|\[)', q) for q in p) and not any(re.match(r'(queue|text): &', q) for q in p)])
show(7, 'switches on a name', lines(r'match name \{'))
