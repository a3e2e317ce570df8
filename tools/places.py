#!/usr/bin/env python3
"""Counts the places in crates/*/src that docs/DESIGN-PASS.md speaks of, point by point.

usage: tools/places.py [-v] [FOLDER]     -v names each place; FOLDER is a checkout, the current folder by default
"""
import re, sys, glob, os, collections

args = [a for a in sys.argv[1:] if a != '-v']
verbose = '-v' in sys.argv[1:]
root = args[0] if args else '.'
places = collections.OrderedDict()

def put(row, where, text=''):
    places.setdefault(row, []).append((where, text.strip()[:110]))

files = sorted(glob.glob(os.path.join(root, 'crates/*/src/*.rt')))
functions = []   # (file, line, name, signature, clauses, body, comment)
structs = []     # (file, line, derives, kind, name, body)
for path in files:
    lines = open(path).read().split('\n')
    name = os.path.relpath(path, root)
    at = 0
    while at < len(lines):
        line = lines[at]
        m = re.match(r'\s*(pub(\(crate\))? )?(unsafe )?(extern "C" )?fn (\w+)', line)
        if m and not line.strip().startswith('//'):
            start = at
            head = []
            while at < len(lines) and not re.match(r'\s*\{\s*$', lines[at]) and not lines[at].rstrip().endswith('{') and not lines[at].rstrip().endswith(';'):
                head.append(lines[at]); at += 1
            if at < len(lines) and not re.match(r'\s*\{\s*$', lines[at]):
                head.append(lines[at])
            indent = len(lines[start]) - len(lines[start].lstrip())
            body = []
            at += 1
            while at < len(lines) and not (lines[at].startswith(' ' * indent + '}') ):
                body.append(lines[at]); at += 1
            text = '\n'.join(head)
            split = re.split(r'\n\s*(?=requires|ensures|ghost )', text, maxsplit=1)
            comment = []
            k = start - 1
            while k >= 0 and (lines[k].strip().startswith('//') or lines[k].strip().startswith('#[')):
                comment.insert(0, lines[k].strip()); k -= 1
            functions.append((name, start + 1, m.group(5), ' '.join(split[0].split()), split[1] if len(split) > 1 else '', body, ' '.join(comment)))
        m = re.match(r'(pub(\(crate\))? )?(struct|enum) (\w+)', line)
        if m:
            start = at
            derive = ' '.join(l for l in lines[max(0, start - 3):start] if l.startswith('#['))
            body = []
            if line.rstrip().endswith('{'):
                at += 1
                while at < len(lines) and lines[at] != '}':
                    body.append(lines[at].strip()); at += 1
            structs.append((name, start + 1, derive, m.group(3), m.group(4), body))
        at += 1

# ---- 1: numbers for refusals, flags with a value, own Option and Result
numbered = {n for _, _, _, k, n, b in structs if any(re.match(r'(pub )?number: u64', x) for x in b)}
for f, l, d, k, n, b in structs:
    if n in numbered:
        put('1a records with a number', f'{f}:{l}', n)
    if k == 'enum' and any(re.match(r'(Nothing|None)\b', x) for x in b):
        put('1d own Option', f'{f}:{l}', n)
    if k == 'enum' and any(re.match(r'(NotANumber|NotTwoNumbers|Damaged|Trouble|Stopped)\b', x) for x in b):
        put('1e values and faults in one enum', f'{f}:{l}', n)
    if k == 'struct' and any(re.match(r'(pub(\(crate\))? )?(found|whole|over|ended|goes_on|second|option): bool', x) for x in b):
        put('1f flag with a value', f'{f}:{l}', n)
for f, l, n, sig, cl, body, com in functions:
    r = re.search(r'-> (.*)$', sig)
    r = r.group(1).rstrip('{').strip() if r else ''
    if r in numbered:
        put('1b functions that answer such a record', f'{f}:{l}', n)
    if r == 'u64' and re.search(r'question|number', n + cl):
        put('1c functions that answer the number of a question', f'{f}:{l}', n)
    if r == 'bool' and re.search(r'False where|[Ww]hether all|could not be', com):
        put('1g bool for success', f'{f}:{l}', n)
for path in files:
    for i, line in enumerate(open(path), 1):
        w = f'{os.path.relpath(path, root)}:{i}'
        if line.strip().startswith('//'):
            continue
        if re.search(r'number != 0', line):
            put('1h tests of a number for 0', w, line)
        if re.search(r'\b65537\b', line):
            put('1i 65,537 for no value', w, line)
        # ---- 3
        if re.match(r'\s*(while|loop)\b', line):
            put('3 while and loop', w, line)
        # ---- 7
        if re.search(r'\bmatch (operation|selection|change|end|walk|code|test|task|stage)\b', line):
            put('7 match on which step', w, line)

# ---- 2: functions that are one text but for names, numbers and strings
def normal(sig, body):
    text = re.sub(r'//.*', '', ' '.join([sig] + body))
    text = re.sub(r'b?"[^"]*"', 'S', text)
    text = re.sub(r'\b\d[\w]*\b', 'N', text)
    seen = {}
    keep = {'fn', 'let', 'mut', 'if', 'else', 'return', 'match', 'while', 'loop', 'for', 'in', 'break', 'continue', 'pub', 'crate', 'u64', 'u8', 'usize', 'bool', 'self', 'Self', 'as', 'true', 'false', 'extern', 'impl'}
    def name(m):
        w = m.group(0)
        if w in keep or w in ('N', 'S'):
            return w
        return seen.setdefault(w, 'v%d' % len(seen))
    return ' '.join(re.sub(r'[A-Za-z_]\w*', name, text).split())
groups = collections.defaultdict(list)
for f, l, n, sig, cl, body, com in functions:
    if '/export_' in f or '/edges/' in f or len([b for b in body if b.strip()]) < 3:
        continue
    groups[normal(sig, body)].append((f'{f}:{l}', n))
for k, g in groups.items():
    if len(g) > 1:
        for where, n in g:
            put('2 functions that are one text but for names and constants', where, n)
for n, k in collections.Counter(n for _, _, _, _, n, _ in structs).items():
    if k > 1:
        for f, l, _, _, m, _ in structs:
            if m == n:
                put('2b types of one name', f'{f}:{l}', n)

# ---- 4
for f, l, d, k, n, b in structs:
    if 'derive(Clone, Copy)]' in d:
        put('4a types with no derive but Clone and Copy', f'{f}:{l}', n)
for f, l, n, sig, cl, body, com in functions:
    inner = [b.strip() for b in body if b.strip()]
    if len(inner) >= 3 and re.match(r'match \w+ \{$', inner[0]) and inner[-1] == '}' and len(re.findall(r'=>', ' '.join(inner))) >= 2 \
            and not re.search(r'\w\([^)]*,', ' '.join(inner)) and '-> ' in sig:
        put('4b functions that only convert, by one match', f'{f}:{l}', n)
    if re.match(r'(append_|tell)', n):
        put('4c functions that write a message piece by piece', f'{f}:{l}', n)
    if re.match(r'(same|is_text|starts_with|lesser|larger|capped|has_return|is_known)$', n):
        put('4d functions that the library has', f'{f}:{l}', n)

# ---- 5
clauses = collections.defaultdict(list)
for f, l, n, sig, cl, body, com in functions:
    for c in re.findall(r'requires \w*\s*\{([^}]*)\}', cl):
        for part in re.split(r' × ', c):
            key = re.sub(r'\b(a|b|words|other|out|set|self)\b', 'v', part.strip().strip('()'))
            key = re.sub(r'\.(now|old|entry)', '', key)
            clauses[key].append((f'{f}:{l}', n))
for key, g in clauses.items():
    if len({w for w, _ in g}) > 2:
        for where, n in {w: n for w, n in g}.items():
            put('5a functions that require what three or more require', where, f'{n}: {key}')
for f, l, n, sig, cl, body, com in functions:
    if re.search(r'(set|a|target): FixedBitSet, (words): &', sig):
        put('5b functions that take a set and its words apart', f'{f}:{l}', n)
    if re.search(r'(out|report): &mut \[u8\], at: usize', sig):
        put('6a functions that take a buffer and where its text ends', f'{f}:{l}', n)
    if re.search(r'length: usize', sig) and re.search(r'line: &(mut )?\[u8\]', sig):
        put('6b a buffer with a length beside', f'{f}:{l}', n)

for row in sorted(places):
    print(f'{len(places[row]):5d}  {row}')
    if verbose:
        for where, text in places[row]:
            print(f'         {where}: {text}')
