#!/usr/bin/env python3
"""Counts the places of older forms in crates/*/src, point by point, as docs/DESIGN-PASS.md tells them.

    python3 tools/places.py [COMMIT]

of that commit, or of the files as they stand. Each line is a place; the last line of a point has their number.
"""
import collections
import glob
import re
import subprocess
import sys


def sources(commit):
    if not commit:
        return {f: open(f).read() for f in sorted(glob.glob('crates/*/src/*.rt'))}
    names = subprocess.run(['git', 'ls-tree', '-r', '--name-only', commit, 'crates'], capture_output=True, text=True, check=True).stdout.split()
    return {f: subprocess.run(['git', 'show', f'{commit}:{f}'], capture_output=True, text=True, check=True).stdout
            for f in names if re.match(r'crates/[a-z0-9_]+/src/[a-z0-9_]+\.rt$', f)}


files = sources(sys.argv[1] if len(sys.argv) > 1 else '')
crate = {f: f.split('/')[1] for f in files}
functions = []  # file, line, name, parameters, clauses, body
for f, text in files.items():
    lines = text.split('\n')
    i = 0
    while i < len(lines):
        head = re.match(r'( *)(?:pub )?(?:extern "C" )?fn (\w+)', lines[i])
        if not head:
            i += 1
            continue
        indent, j = head.group(1), i
        while lines[j] != indent + '{' and not (lines[j].endswith('{') and not re.match(r' +(requires|ensures)', lines[j])):
            j += 1
        k = j + 1
        while lines[k] != indent + '}':
            k += 1
        signature = '\n'.join(lines[i:j + 1])
        clause = re.search(r'^ +(requires|ensures)', signature, re.M)
        clauses = signature[clause.start():] if clause else ''
        signature = signature[:clause.start()] if clause else signature
        inside = re.search(r'\((.*)\)', signature, re.S)
        parameters = [p.split(':')[0].replace('mut ', '').strip() for p in re.split(r',\s*(?![^\[(]*[\])])', inside.group(1)) if p.strip()]
        functions.append((f, i + 1, head.group(2), signature, parameters, clauses, '\n'.join(lines[j + 1:k])))
        i = k


def point(number, what, places):
    places = sorted(set(places))
    for p in places:
        print(f'    {p}')
    print(f'{number}  {what}: {len(places)}')


def lines_with(pattern, only=None):
    return [f'{f}:{n}: {line.strip()}' for f, text in files.items() if not only or crate[f] in only
            for n, line in enumerate(text.split('\n'), 1) if re.search(pattern, line)]


enums = []
for f, text in files.items():
    for m in re.finditer(r'^(?:pub )?enum (\w+) \{\n(.*?)^\}', text, re.M | re.S):
        variants = re.findall(r'^    (\w+)', m.group(2), re.M)
        if set(variants) & {'Refused', 'Over', 'Nothing', 'Sound', 'None', 'Empty', 'No', 'Dropped'}:
            enums.append(f'{f}: {m.group(1)} ({", ".join(variants)})')
point('1a', "own enums with a case for nothing or for a refusal", enums)
flags = []
for f, text in files.items():
    for m in re.finditer(r'^(#\[repr\(C\)\]\n)?(?:#\[derive[^\n]*\n)?(?:pub )?struct (\w+)[^\n]* \{\n(.*?)^\}', text, re.M | re.S):
        if not m.group(1) and re.search(r'^    (pub )?(refusal: (u64|Refusal)|order: usize|finding|ending|size: u64)', m.group(3), re.M):
            flags.append(f'{f}: {m.group(2)}')
point('1b', 'structs of a flag and values', flags)
point('1c', "functions that answer a refusal's number, or 0",
      [f'{f}:{n}: {name}' for f, n, name, s, p, c, b in functions
       if re.search(r'-> u64', s) and ('refusal' in name or crate[f] in ('formulas', 'import'))])
point('1d', "refusals' numbers written as numbers",
      [x for x in lines_with(r'(number: |Plain\(|refused\(|Refused\(|refusal: |return |=> )(7|8|9|1[0-9]|2[0-9]|30)\b|^ +(25|number: [1-6],)$|^ +number: [1-6]')
       if '48 +' not in x])
point('1e', 'kinds, ops, orders and strengths as numbers',
      lines_with(r'\b(op|order|strength|kind): usize|number: usize, track') + lines_with(r'^pub const \w+: usize', ('text', 'formulas')))
point('1f', 'answers of a limit where nothing is found',
      [f'{f}:{n}: {name}' for f, n, name, s, p, c, b in functions
       if name in ('find', 'locate', 'note', 'enter_known', 'unlike', 'next_marked', 'first_set', 'last') and re.search(r'-> usize', s)])

names = collections.defaultdict(list)
shapes = collections.defaultdict(list)
keep = {'if', 'while', 'return', 'let', 'mut', 'match', 'else', 'for', 'loop', 'in'}
for f, n, name, s, p, c, b in functions:
    if crate[f] in ('ws2s', 'ws2s_c'):
        continue  # one calls the other, under the same names: C's interface
    names[name].append(f'{f}:{n}: {name}')
    body = re.sub(r'\b\w+\b', lambda m: m.group(0) if m.group(0) in keep else 'x', re.sub(r'//.*|\s+', '', b))
    if len(body) > 10:
        shapes[body].append(f'{f}:{n}: {name}')
point('2a', 'functions of a name that another crate or file has too', [x for l in names.values() if len(l) > 1 for x in l])
point('2b', 'functions whose bodies differ in names and numbers alone', [x for l in shapes.values() if len(l) > 1 for x in l])

point('3', '`while` and `loop`', lines_with(r'^ *(while|loop)\b'))
point('4', 'conversions, order, equality and copying by functions of their own',
      [f'{f}:{n}: {name}' for f, n, name, s, p, c, b in functions
       if re.fullmatch(r'wide|narrow|kind_of|larger|greater|same|copy|clear|outside|size|is_blank|is_letter|is_alnum|holds|\w+_numbers|glyph', name)])

facts = collections.defaultdict(set)
for f, n, name, s, p, c, b in functions:
    if crate[f] in ('ws2s', 'ws2s_c'):
        continue
    for required in re.findall(r'requires[^\n]*(?:\n {8,}[^\n]*)*', c):
        for word in set(re.findall(r'(?<![.\w])([A-Z]\w+)\b', required)):
            facts[word].add(f'{crate[f]}::{name}')
point('5a', 'facts that three or more functions require', [f'{w} ({len(l)})' for w, l in facts.items() if len(l) > 2])
point('5b', 'functions of six or more parameters', [f'{f}:{n}: {name} ({len(p)})' for f, n, name, s, p, c, b in functions if len(p) > 5])
point('6', 'arrays with a length beside them among the parameters, or one array for several numbers',
      [f'{f}:{n}: {name}' for f, n, name, s, p, c, b in functions
       if re.search(r'\[usize; (24|5)\]|words: &(mut )?\[u64; 128\]|counts: &|parts: &(mut )?\[|label: &\[|done: &\[|first: &\[u8|codes: &\[u64; 64\][^)]*count: usize|list: &mut \[', s)])
point('7', '`match` and `if` on which step to run', lines_with(r'\bmatch (\w+\.)*(kind|op|step)\b') + lines_with(r'\bif (\w+\.)*(kind|strength|order|op) (==|<|<=) '))
