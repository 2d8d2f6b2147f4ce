#!/usr/bin/env python3
"""Counts, in crates/*/src, the places of each point of docs/DESIGN-PASS.md.

usage: tools/places.py [-v] [COMMIT]
Without a commit it reads the files as they stand; with one, those of the commit. With -v it lists the places, one a line.
"""
import re
import subprocess
import sys

verbose = '-v' in sys.argv
args = [a for a in sys.argv[1:] if not a.startswith('-')]
commit = args[0] if args else None


def sh(*a):
    return subprocess.run(a, capture_output=True, text=True, check=True).stdout


def files():
    if commit:
        names = sh('git', 'ls-tree', '-r', '--name-only', commit, 'crates').split()
    else:
        names = sh('git', 'ls-files', 'crates').split()
    for name in sorted(n for n in names if re.fullmatch(r'crates/[a-z_]+/src/.*\.rt', n)):
        yield name, sh('git', 'show', f'{commit}:{name}') if commit else open(name).read()


def code(text):
    return re.sub(r'//[^\n]*', '', text)


def loops(body):
    # (number, text) of each `for` over a range of numbers
    for m in re.finditer(r'^( *)(?:\'\w+: )?for (\w+) in [^\n]*\.\.[^\n]*\{$', body, re.M):
        end = re.search(r'^' + m.group(1) + r'\}', body[m.end():], re.M)
        yield m.group(2), body[m.end():m.end() + end.end()] if end else body[m.end():]


def facts(head):
    # the facts that a function asks for or promises of what it is lent, each between its braces, spaces made one
    for m in re.finditer(r'\b(?:requires|ensures)\b[^{]*\{', head):
        depth, i = 1, m.end()
        while depth:
            depth += {'{': 1, '}': -1}.get(head[i], 0)
            i += 1
        for fact in head[m.end():i - 1].split(' × '):
            yield re.sub(r'\.(?:now|old)\b', '', re.sub(r'\s+', ' ', fact)).strip(' ()')


found = {}
asked = {}


def add(point, name, text, at, what):
    line = text.count('\n', 0, at) + 1
    found.setdefault(point, []).append(f'{name}:{line}: {what}')


def functions(text):
    # (name, head, body, at) of each function; a body ends at a line of a single brace at the function's own depth
    for m in re.finditer(r'^( *)(?:pub(?:\([a-z]+\))? )?(?:extern "C" )?fn (\w+)', text, re.M):
        end = re.search(r'^' + m.group(1) + r'\}', text[m.end():], re.M)
        whole = text[m.start():m.end() + end.end()] if end else text[m.start():]
        cut = re.search(r'^' + m.group(1) + r'\{', whole, re.M)
        at = cut.start() if cut else whole.find('{')
        yield m.group(2), whole[:at], whole[at:], m.start()


for name, raw in files():
    text = code(raw)
    # 1
    for m in re.finditer(r'\benum (\w+) \{(.*?)\n\}', text, re.S):
        variants = [v.strip() for v in re.split(r',\n', m.group(2)) if v.strip()]
        if any(re.match(r'Refused\b|None\b', v) for v in variants) and not m.group(1).endswith('Error'):
            add('1 own enums shaped as Option or Result', name, text, m.start(), m.group(1))
    for m in re.finditer(r'\bstruct (\w+)(?:<[^>]*>)? \{(.*?)\n\}', text, re.S):
        if re.search(r'\b(ok|short|answer|cause): ', m.group(2)) and not re.search(r'Flat', m.group(1)):
            add('1 a flag or an answer with values beside it', name, text, m.start(), m.group(1))
        elif re.search(r'\b(ok|short|cause): ', m.group(2)):
            add('1 a flag or an answer with values beside it', name, text, m.start(), m.group(1) + ' (C)')
    for m in re.finditer(r'const ([A-Z_0-9]+): (u64|u32) = \d+;', text):
        if '_vectors' in name and m.group(1) not in ('UNTOUCHED_ID', 'MOST'):
            add('1 numbers for kinds', name, text, m.start(), m.group(1))
    for f, head, body, at in functions(text):
        if re.search(r'_cause$|^cause', f) and '-> u32' in head or f in ('given_cause',):
            add('1 numbers for refusals', name, text, at, f)
        elif re.search(r'-> u32', head) and re.search(r'return \d+;', body) and '_cause' in f:
            add('1 numbers for refusals', name, text, at, f)
    for m in re.finditer(r'(?<!Error::)Refused\((\d+|k|number|cause)\)', text):
        if '=>' not in text[m.end():m.end() + 4]:
            add('1 numbers for refusals', name, text, m.start(), m.group(0))
    for f, head, body, at in functions(text):
        if re.search(r'\baction == \d|\basked\[0\] == 0', body):
            add('1 numbers for kinds', name, text, at, f)
    for f, head, body, at in functions(text):
        if '&mut' in head and re.search(r'\) -> bool\b', head):
            add('1 bools that tell of a refusal', name, text, at, f)
    # 3
    for f, head, body, at in functions(text):
        for k, whole in loops(body):
            if re.search(r'\[' + k + r'\]|\[[^\]\n]*\b' + k + r'\b[^\]\n]*\]', whole):
                add('3 loops by for that find places by a number', name, text, at, f + ': ' + k)
        for m in re.finditer(r'\blet mut (\w+)(?:: \w+)? = 0\w*;', body):
            if re.search(r'\b(?:for|while|loop)\b.*\b' + m.group(1) + r' \+= 1;', body[m.end():], re.S) and re.search(r'\[[^\]\n]*\b' + m.group(1) + r'\b', body[m.end():]):
                add('3 counters stepped by hand', name, text, at + len(head) + m.start(), f + ': ' + m.group(1))
    for f, head, body, at in functions(text):
        for m in re.finditer(r'\bwhile\b([^{]*)\{', body):
            add('3 loops by while', name, text, at + len(head) + m.start(), f + ': while' + m.group(1).rstrip())
    # 4
    for f, head, body, at in functions(text):
        if re.fullmatch(r'wide|wide_mark|narrow|as_number|bit|copy|corners|flag', f):
            add('4 conversions and copies by hand', name, text, at, f)
        elif 'abi/src/flat' in name and f != 'from' and re.search(r'-> (Flat|u32|StartValues|SettleValues)', head):
            add('4 conversions and copies by hand', name, text, at, f)
        elif re.search(r'\b(lines?_|more|figures)', f) and 'Write' in head:
            add('4 printing by hand', name, text, at, f)
        zeros = r'(?:\w+: (?:0(?:\.0)?|false|\[0(?:\.0)?; \w+\]),? ?\s*){3,}'
        for m in re.finditer(r'\b[A-Z]\w+ \{\s*' + zeros, body):
            add('4 zeros written out', name, text, at + len(head) + m.start(), f)
    # 5
    for f, head, body, at in functions(text):
        for fact in set(facts(head)) if 'extern' not in head else ():
            if 'result' not in fact and re.search(r'[≤<≡∈]|[A-Z]', fact):
                asked.setdefault((name.split('/')[1], fact), []).append((name, text, at, f))
    for f, head, body, at in functions(text):
        params = re.findall(r'\b(alpha|beta|x|y|tiles|offsets|list): &(?:\'a )?(?:mut )?\[', head)
        if len(params) >= 3:
            add('5 columns that travel together', name, text, at, f + ' (' + ', '.join(params) + ')')
        if re.search(r'cells\.now ≡ sixteen_cells', head):
            add('5 cells of the poses handed beside them', name, text, at, f)
        n = len(re.findall(r'(?:laid_length|step_limit) ≤ length', head))
        if n:
            add('5 lengths of columns in contracts', name, text, at, f'{f}: {n}')
    # 6
    for f, head, body, at in functions(text):
        if re.search(r'read_list\(', body):
            add('6 buffers with a length beside', name, text, at, f)
        if re.search(r'widths: &\[usize\], zeros: &\[bool\]', head):
            add('6 parallel arrays', name, text, at, f)
    # 7
    plain = re.sub(r'\nimpl TryFrom.*?\n\}', lambda m: re.sub(r'[^\n]', ' ', m.group(0)), text, flags=re.S)
    for m in re.finditer(r'match (vectors::word\(rest, 0\)|code|word_at\(words, k\)) \{', plain):
        add('7 switches by code', name, text, m.start(), m.group(0))
    for m in re.finditer(r'if asked\[0\] == 0', text):
        add('7 switches by code', name, text, m.start(), m.group(0))


def shape(head, body):
    # a function with its own name, types, sizes and constants blotted out
    s = head + body
    s = re.sub(r'\b(f64|f32|u8|u16|u32|u64|usize|i64|bool)\b', 'T', s)
    s = re.sub(r'\b0x[0-9a-fA-F_]+\b|\b\d[\d_.]*(e\d+)?\b', 'N', s)
    s = re.sub(r'\b[A-Z][A-Z0-9_]+\b', 'C', s)
    return re.sub(r'\s+', ' ', s)


# 2: structs of one set of field names
fields = {}
for name, raw in files():
    text = code(raw)
    for m in re.finditer(r'\bstruct (\w+)(?:<[^>]*>)? \{(.*?)\n\}', text, re.S):
        key = tuple(re.findall(r'^    (?:pub(?:\([a-z]+\))? )?(\w+):', m.group(2), re.M))
        fields.setdefault(key, []).append((name, text, m.start(), m.group(1)))
for g in fields.values():
    if len(g) > 1:
        for name, text, at, f in g:
            add('2 structs of one set of fields', name, text, at, f)

# 2: functions that are alike once types, sizes and constants are blotted out; names of callees and locals are numbered by first use
groups = {}
for name, raw in files():
    text = code(raw)
    for f, head, body, at in functions(text):
        if 'extern' in head:
            continue
        head = re.sub(r'(requires|ensures)\b.*', '', head, flags=re.S)
        s = shape(head, body)
        names = {}
        s = re.sub(r'\b[a-z_][a-zA-Z0-9_]*\b', lambda m: names.setdefault(m.group(0), f'n{len(names)}')
                   if m.group(0) not in ('let', 'mut', 'if', 'else', 'while', 'return', 'fn', 'pub', 'match', 'as', 'for', 'in', 'true', 'false', 'self', 'usize', 'len') else m.group(0), s)
        groups.setdefault(s, []).append((name, text, at, f))
for s, g in groups.items():
    if len(g) > 1 and len(s) > 60:
        for name, text, at, f in g:
            add('2 functions of one shape', name, text, at, f + ' ~ ' + ', '.join(x[3] for x in g if x[3] != f or x[0] != name))

# 5: a fact in the contracts of three functions of a crate or more
for (crate, fact), places in asked.items():
    if len(places) > 2:
        name, text, at, f = places[0]
        add('5 facts in three contracts or more', name, text, at, fact + ': ' + ', '.join(x[3] for x in places))

for point in sorted(found):
    places = found[point]
    print(f'{len(places):5}  {point}')
    if verbose:
        for p in places:
            print('         ' + p)
