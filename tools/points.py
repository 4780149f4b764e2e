#!/usr/bin/env python3
"""Counts, in the code of all crates, the places that docs/DESIGN-PASS.md speaks of.

    tools/points.py [-v] [COMMIT]     of a commit, or of the files as they stand; -v lists the places

Each line: the point, what is counted, how many. Point 8 counts lines of proofs.
"""
import re, signal, subprocess, sys

signal.signal(signal.SIGPIPE, signal.SIG_DFL)

args = [a for a in sys.argv[1:] if a != '-v']
verbose = '-v' in sys.argv[1:]
top = subprocess.run(['git', 'rev-parse', '--show-toplevel'], capture_output=True, text=True).stdout.strip()


def files(pattern):
    if args:
        names = subprocess.run(['git', '-C', top, 'ls-tree', '-r', '--name-only', args[0], 'crates'],
                               capture_output=True, text=True).stdout.split()
    else:
        names = subprocess.run(['git', '-C', top, 'ls-files', 'crates'], capture_output=True, text=True).stdout.split()
    for name in sorted(names):
        if re.search(pattern, name):
            if args:
                text = subprocess.run(['git', '-C', top, 'show', f'{args[0]}:{name}'], capture_output=True, text=True).stdout
            else:
                try:
                    text = open(f'{top}/{name}').read()
                except FileNotFoundError:
                    continue
            yield name, text


def tell(point, what, places):
    print(f'{point}  {what}: {len(places)}')
    if verbose:
        for place in places:
            print('      ' + place)


def functions(text):
    """name, parameters, contract and body of each function"""
    for m in re.finditer(r'\bfn (\w+)(?:<[^>(]*>)?\(', text):
        depth, i = 1, m.end()
        while depth:
            depth += (text[i] == '(') - (text[i] == ')')
            i += 1
        body = re.search(r'\n *\{\n', text[i:])
        inline = re.match(r'[^\n;]*\{\n', text[i:])
        start = i + (inline.end() if inline else body.end() if body else 0)
        indent = re.search(r'[^\n]*$', text[:m.start()]).group(0)
        close = '\n' + (' ' * (len(indent) - len(indent.lstrip()))) + '}'
        end = text.find(close, start)
        yield m.group(1), text[m.end():i - 1], text[i:start], text[start:end]


src = [(n, t) for n, t in files(r'/src/.*\.rt$')]

# 1: enums of two variants of which one is empty or says what failed; fields and parameters that number a refusal
enums, codes = [], []
for name, text in src:
    for m in re.finditer(r'enum (\w+) \{\n(.*?)\n\}', text, re.S):
        variants = [v.strip().rstrip(',') for v in m.group(2).split('\n') if v.strip()]
        if len(variants) == 2 and any('(' in v or '{' in v for v in variants):
            enums.append(f'{name}: {m.group(1)}: {" | ".join(variants)}')
    for m in re.finditer(r'table::number\(|refusal: u32, place: u32|fn \w+\(name: Name, (?:place|at): u32\)', text):
        codes.append(f'{name}: {m.group(0)}')
tell(1, 'enums of the shape of Option or Result', enums)
tell(1, 'numbers, or a name and a number, for a refusal', codes)

# 2: functions that differ only in types, numbers and their own crates' names
shapes = {}
for name, text in src:
    for fn, params, contract, body in functions(text):
        own = re.sub(r'\b%s\b' % fn, 'F', params + '|' + body)
        shape = re.sub(r'\b(u8|u16|u32|u64|usize|i64)\b', 'T', own)
        shape = re.sub(r'\d+', 'N', shape)
        shape = re.sub(r'\b[A-Z]\w*\b', 'C', shape)
        names = {}
        shape = re.sub(r'\b[a-z_]\w*\b', lambda m: names.setdefault(m.group(0), f'v{len(names)}'), shape)
        shape = re.sub(r'\s+', ' ', shape)
        if len(body.strip()) > 0:
            shapes.setdefault(shape, []).append(f'{name}: {fn}')
twins = [' ~ '.join(v) for k, v in shapes.items() if len(v) > 1 and not all('calls' in x or 'records' in x for x in v)]
tell(2, 'groups of functions of one shape', twins)
lent = [f'{n}: {m}' for n, t in files(r'/specs/.*\.antt$') for m in re.findall(r'^abbrev pub ((?:lent|given)_\w+) :', t, re.M)]
tell(2, 'definitions for what is given and what is lent', lent)

# 3: loops that count an index by hand
loops = []
for name, text in src:
    for fn, params, contract, body in functions(text):
        for m in re.finditer(r'while (.*?) \{', body):
            indexes = re.findall(r'\b(\w+) [<>]=? |[<>]=? (\w+)', m.group(1))
            counted = [a or b for a, b in indexes if re.search(r'\b%s [+-]= 1;' % (a or b), body)]
            if counted:
                loops.append(f'{name}: {fn}: while {m.group(1)}')
tell(3, 'loops that count an index by hand', loops)
whiles = [f'{n}: {m}' for n, t in src for m in re.findall(r'\n *(while .*|loop) \{', t)]
tell(3, 'while and loop in all', whiles)

# 4: conversion, order, equality and names by hand
by_hand = []
for name, text in src:
    by_hand += [f'{name}: {m}' for m in re.findall(r'rows::wide\(|fn wide\(|fn least\(', text)]
    by_hand += [f'{name}: {m}: {m}' for m in re.findall(r'\b(\w+): \1,', text)]
    by_hand += [f'{name}: {m}' for m in re.findall(r'#\[derive\(Clone, Copy\)\]\npub (?:struct|enum) \w+(?= \{)', text)]
tell(4, 'conversions, minima, derives and fields by hand', by_hand)
refused = [f'{n}: {m}' for n, t in src for m in re.findall(r'fn ((?:refused|not|no|un)\w*)\(name: Name', t)]
tell(4, 'conversions of a refusal into a result by hand', refused)

# 5: parameters that always travel together
rows, many = [], []
for name, text in src:
    for fn, params, contract, body in functions(text):
        names = [p.split(':')[0].strip() for p in params.split(',')]
        if 'tails' in names and 'heads' in names:
            rows.append(f'{name}: {fn}')
        if len([p for p in params.split(',') if p.strip()]) > 7:
            many.append(f'{name}: {fn}')
tell(5, 'functions that take tails and heads', rows)
tell(5, 'functions of more than seven parameters', many)

# 6: a buffer with its length or place beside it
beside = []
for name, text in src:
    for fn, params, contract, body in functions(text):
        if re.search(r'out: &mut \[u8\],\s*at: usize', params) or re.search(r'todo: &mut \[u32\],\s*count', params):
            beside.append(f'{name}: {fn}')
tell(6, 'functions that take a buffer and the place in it', beside)

# 7: a switch on which step to run
switch = [f'{n}: {m}' for n, t in src for m in re.findall(r'match (?:kind|step|mode|op)\b', t)]
tell(7, 'switches on a kind of step', switch)

# 8: proofs
answers = sum(t.count('\n') for n, t in files(r'/proofs/.*/(Answers|Invariants)\.antt$'))
lemmas = sum(t.count('\n') for n, t in files(r'/proofs/[^/]*\.antt$'))
code = sum(t.count('\n') for n, t in src)
print(f'8  lines of answers and invariants: {answers}')
print(f'8  lines of lemmas: {lemmas}')
print(f'   lines of code: {code}')
