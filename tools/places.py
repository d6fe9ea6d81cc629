#!/usr/bin/env python3
"""places.py [-v] [FOLDER]: counts, in the sources below FOLDER (default: this repository), the places that docs/DESIGN-PASS.md speaks of.
With -v each place is printed. It reads text and knows no types, so a count is of candidates: the page says what became of each."""
import re, sys, glob, os, collections

args = [a for a in sys.argv[1:] if a != '-v']
root = args[0] if args else os.path.join(os.path.dirname(__file__), '..')
found = collections.OrderedDict()


def place(kind, where, what):
    found.setdefault(kind, []).append((where, what))


def functions(text):
    """(line, name, parameters, result, contract, body) of each function"""
    for m in re.finditer(r'^( *)(?:pub )?fn (\w+)(?:<[^>]*>)?\(', text, re.M):
        depth, i = 0, m.end() - 1
        while True:
            depth += text[i] in '([{'
            depth -= text[i] in ')]}'
            if depth == 0:
                break
            i += 1
        start = re.compile(r'^' + m.group(1) + r'\{$|\{$', re.M).search(text, i)
        if not start:
            continue
        end = re.compile(r'^' + m.group(1) + r'\}$', re.M).search(text, start.end())
        head = text[i + 1:start.start()]
        yield (text.count('\n', 0, m.start()) + 1, m.group(2), text[m.end():i], head, text[start.end():end.start() if end else len(text)])


def shape(name, params, head, body):
    """a function without what twins differ in: its name, types, sizes and numbers"""
    s = params + ' -> ' + re.sub(r'(ensures|requires|ghost)\b.*', '', head, flags=re.S) + body
    s = re.sub(r'//.*', '', s)
    s = re.sub(r'\bb?"[^"]*"', 'S', s)
    s = re.sub(r'\b(0x[0-9A-Fa-f]+|\d+)(u8|u16|u32|u64|usize|i32|i64)?\b', 'N', s)
    s = re.sub(r'\b[ui](8|16|32|64|size)\b', 'T', s)
    s = re.sub(r'\b(\w+::)*\w+::\w+\b', 'P', s)
    s = re.sub(r'\b\w+\(', 'F(', s)
    return re.sub(r'\s+', '', s)


for path in sorted(glob.glob(os.path.join(root, 'crates/*/src/**/*.rt'), recursive=True)):
    text = open(path).read()
    short = re.sub(r'.*/crates/', '', path).replace('/src/', '/')
    for m in re.finditer(r'^(?:pub )?enum (\w+)(?:<[^>]*>)? \{\n(.*?)^\}', text, re.M | re.S):
        variants = re.findall(r'^    (\w+)(\([^)]*\))?,', re.sub(r' *//.*', '', m.group(2)), re.M)
        full = [v for v in variants if v[1]]
        bare = [v for v in variants if not v[1]]
        line = text.count('\n', 0, m.start()) + 1
        if full and (len(bare) == 1 or len(variants) == 2 and not bare) or any(v[1] == '(Refusal)' for v in variants):
            place('1 enums of the shape of Option or Result', f'{short}:{line}', m.group(1))
        if 'derive' not in text[max(0, m.start() - 120):m.start()]:
            place('1 enums without derives', f'{short}:{line}', m.group(1))
    for m in re.finditer(r'^(?:pub )?struct (\w+)(?:<[^>]*>)? \{\n(.*?)^\}', text, re.M | re.S):
        line = text.count('\n', 0, m.start()) + 1
        if re.search(r'\b(bad|over|failed|agreed|good): bool|\boutcome: ', m.group(2)) and m.group(2).count(':') > 1:
            place('1 flags with a value beside', f'{short}:{line}', m.group(1))
        if re.search(r': \[\w+; \w+\]', m.group(2)) and re.search(r'\b(n|count|len|depth|used): u', m.group(2)):
            place('6 buffers with a length beside', f'{short}:{line}', m.group(1))
    for m in re.finditer(r'^.*\b(\w+)\((\w+)\) => (?:return )?(?:\w+::)?\w+\(\2\),?$', text, re.M):
        if m.group(1) in ('Err', 'NotRead', 'NotStored', 'Refused', 'NoCode', 'NotWritten', 'Unfit', 'Forbids', 'NoWay', 'Stop', 'Halted'):
            place('1 arms that pass a refusal on', f'{short}:{text.count(chr(10), 0, m.start()) + 1}', m.group(0).strip())
    for m in re.finditer(r'^ *while .*', text, re.M):
        place('3 loops by while', f'{short}:{text.count(chr(10), 0, m.start()) + 1}', m.group(0).strip())
    for m in re.finditer(r'^( *)for (\w+) in [^{]*\.\.[^{]*\{\n(.*?)^\1\}', text, re.M | re.S):
        if re.search(r'\[' + m.group(2) + r'\b', m.group(3)):
            place('3 loops over a range that only index', f'{short}:{text.count(chr(10), 0, m.start()) + 1}', m.group(0).split('\n')[0].strip())
    for m in re.finditer(r'^( *).*\bmatch \w+ \{\n(.*?)^\1\}', text, re.M | re.S):
        arms = re.findall(r'^ +(\d+|0x\w+) => [\w:]+\(', m.group(2), re.M)
        if len(arms) >= 3:
            place('7 switches on a number that call a function each', f'{short}:{text.count(chr(10), 0, m.start()) + 1}', f'{len(arms)} arms')
    shapes = collections.defaultdict(list)
    for line, name, params, head, body in functions(text):
        where = f'{short}:{line}'
        if body.strip():
            shapes[shape(name, params, head, body)].append((where, name))
        flat = re.sub(r'\s+', ' ', params)
        for group, pats in (('er and condition', (r'\ber: &', r'\bf: Condition')), ('board, rom and ram', (r'\bb: Board|\bboard:', r'\brom: &\[u8\]', r'\bram: &')), ('site and rom', (r'\bk: Site', r'\brom: &\[u8\]'))):
            if all(re.search(p, flat) for p in pats):
                place('5 parameters that travel together: ' + group, where, name)
        if re.match(r'(same|equal|agrees)\w*$', name) or re.match(r'(from|to)_\w+$', name) or re.search(r'-> u(8|16|32|64)', head) and re.search(r'^ +\w+::\w+(\(_?\w*\))? => (0x)?\d+,', body, re.M):
            place('4 equality or conversion by hand', where, name)
        if len(re.findall(r'^ +\d+ => \w+::\w+(\(.*\))?,', body, re.M)) >= 2:
            place('4 equality or conversion by hand', where, name)
    for v in shapes.values():
        for where, name in v[1:]:
            place('2 functions of the same shape as one above in their file', where, f'{name} ~ {v[0][1]}')
for kind in sorted(found):
    print(f'{len(found[kind]):4d}  {kind}')
    if '-v' in sys.argv:
        for where, what in found[kind]:
            print(f'          {where}  {what}')
