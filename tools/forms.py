#!/usr/bin/env python3
"""Counts, in the crates' src/ at a commit or as they stand, the places of older forms that docs/DESIGN-PASS.md goes by.

    tools/forms.py [COMMIT] [-v]     the counts, point by point; -v lists each place
"""
import re
import subprocess
import sys

ARGS = [a for a in sys.argv[1:] if a != '-v']
VERBOSE = '-v' in sys.argv
COMMIT = ARGS[0] if ARGS else None


def run(*command):
    return subprocess.run(command, capture_output=True, text=True, check=True).stdout


def files():
    """(path, text) of each source file."""
    if COMMIT:
        names = run('git', 'ls-tree', '-r', '--name-only', COMMIT, 'crates').split('\n')
    else:
        names = run('git', 'ls-files', 'crates').split('\n')
    for name in names:
        if re.fullmatch(r'crates/\w+/src/\w+\.rt', name):
            yield name, run('git', 'show', f'{COMMIT}:{name}') if COMMIT else open(name).read()


class Function:
    def __init__(self, path, name, comment, params, result, clauses, body, line):
        self.path, self.name, self.comment, self.params, self.result = path, name, comment, params, result
        self.clauses, self.body, self.line = clauses, body, line
        self.at = f'{path}:{line} {name}'


def functions(path, text):
    for m in re.finditer(r'((?:^[ \t]*//[^\n]*\n)*)(?:^[ \t]*#[^\n]*\n)*^([ \t]*)(?:pub )?(?:extern "C" )?fn (\w+)', text, re.M):
        i = text.index('(', m.end())
        depth, j = 0, i
        while True:
            depth += {'(': 1, ')': -1}.get(text[j], 0)
            j += 1
            if depth == 0:
                break
        k = re.compile(r'^' + m.group(2) + r'\{|\{\s*$', re.M).search(text, j)
        e = re.compile(r'^' + m.group(2) + r'\}', re.M).search(text, k.end() - 1)
        head = text[j:k.start()]
        r = re.match(r'\s*->\s*([^\n{]*)', head)
        yield Function(path, m.group(3), m.group(1), text[i + 1:j - 1], r.group(1).strip() if r else '', head,
                       text[k.start():e.end()], text[:m.end()].count('\n') + 1)


SOURCES = list(files())
ALL = [f for p, t in SOURCES for f in functions(p, t)]
COUNTS = []


def point(n, what, places):
    places = list(places)
    COUNTS.append((n, what, len(places)))
    print(f'{n}  {len(places):4}  {what}')
    if VERBOSE:
        for p in places:
            print('            ' + p)


def enums():
    for p, t in SOURCES:
        for m in re.finditer(r'^pub enum (\w+) \{\n(.*?)^\}', t, re.M | re.S):
            yield p, m.group(1), re.findall(r'^    (\w+)', m.group(2), re.M), m.group(2)


def places(regex, flags=re.M):
    for p, t in SOURCES:
        for m in re.finditer(regex, t, flags):
            yield f'{p}:{t[:m.start()].count(chr(10)) + 1} {m.group(0).strip()[:90]}'


# 1. own enums of the shape of Option or Result, flags beside values, numbers for refusals, sentinels
point(1, 'own enums of the shape of Option or Result',
      (f'{p} {n}' for p, n, vs, b in enums() if len(vs) == 2 and (re.search(r'number: u64', b) or re.search(r'^    (Nothing|NoM|Other|Unmasked),', b, re.M))))
point(1, 'refusals built with a number', places(r'\bnumber: \d+'))
point(1, 'refusals passed on by a match', places(r'Refused \{ number, place \} =>'))
point(1, 'a flag in a struct that says whether its other fields count', places(r'^    pub (some|on|masked): bool'))
point(1, 'functions that say "none" by a number',
      (f.at for f in ALL if re.fullmatch(r'(u64|usize)', f.result) and re.search(r'where (there is none|it is none|none does|it is not)|the place behind the entry where', f.comment) and 'Layers' not in f.result))


# 2. twins: functions of one crate whose bodies differ only in names, constants and numbers
def shape(f):
    body = re.sub(r'//[^\n]*', '', f.body)
    tokens = re.findall(r'b?"(?:[^"\\]|\\.)*"|[A-Za-z_]\w*|\d+|[^\s\w]', body)
    keep = {'if', 'else', 'while', 'for', 'in', 'return', 'match', 'let', 'mut', 'true', 'false', 'loop', 'break', 'as'}
    names = {}
    out = []
    for t in tokens:
        if t in keep or not re.match(r'\w|b?"', t):
            out.append(t)
        else:
            out.append('#')
    return f.path.split('/')[1], ' '.join(out), re.sub(r'\w+: ', '', re.sub(r'\s+', ' ', f.params))


SHAPES = {}
for f in ALL:
    s = shape(f)
    if len(s[1].split()) >= 14:
        SHAPES.setdefault(s, []).append(f)
point(2, 'functions whose body another of its crate has, but for names and constants',
      (f.at for fs in SHAPES.values() if len(fs) > 1 for f in fs))

# 3. loops that count by hand
point(3, 'while loops', places(r"^\s*(?:'\w+: )?while .*\{"))
point(3, 'of them those that go by one', (
    f'{p}:{t[:m.start()].count(chr(10)) + 1} {m.group(0).strip().splitlines()[0]}' for p, t in SOURCES
    for m in re.finditer(r"^( *)(?:'\w+: )?while ([^\n]*)\{\n(?:(?!\1\}).*\n)*?\1\}", t, re.M)
    if re.search(r'^\s*(\w+) [+-]= 1;', m.group(0), re.M) and re.search(r'\b' + re.search(r'^\s*(\w+) [+-]= 1;', m.group(0), re.M).group(1) + r'\b', m.group(2))))

# 4. what a derive or the library has: the lesser, the greater, bytes to numbers and back, casts that a From has
point(4, 'min, max, bytes to numbers and back by hand',
      (f.at for f in ALL if re.fullmatch(r'least|greatest|lesser|greater|wide|put_long', f.name) or re.search(r'(256|65536|4294967296) \* \w*_?at\(', f.body)))
point(4, 'conversions between numbers and kinds as functions',
      (f.at for f in ALL if re.fullmatch(r'signed_of|shifted_of|unshifted|choice_of|release_of|pixel_bytes|one_from|edition_of', f.name)))

# 5. facts in the contracts of three or more functions, and parameters that travel together
FACTS = {}
for f in ALL:
    for c in re.findall(r'requires(?: \w+)? \{ (.*) \}', f.clauses):
        FACTS.setdefault((f.path.split('/')[1], c), []).append(f)
point(5, 'facts that three or more functions of a crate require, word for word',
      (f'{k[0]}: {k[1][:90]} ({len(fs)})' for k, fs in FACTS.items() if len(fs) > 2))
GROUPS = {}
for f in ALL:
    ps = [re.sub(r'\s+', ' ', p).strip() for p in re.split(r',(?![^\[(]*[\])])', f.params) if ':' in p]
    for size in (3, 4, 5):
        for i in range(len(ps) - size + 1):
            GROUPS.setdefault((f.path.split('/')[1], ', '.join(ps[i:i + size])), set()).add(f.at)
BEST = [k for k, v in GROUPS.items() if len(v) > 2 and not any(k != o and k[0] == o[0] and k[1] in o[1] and len(GROUPS[o]) > 2 for o in GROUPS)]
point(5, 'groups of three to five parameters that three or more functions of a crate take', (f'{k[0]}: {k[1]} ({len(GROUPS[k])})' for k in BEST))

# 6. buffers with a length beside them, searches and sorted insertions by hand
point(6, 'an array and how much of it counts, as two parameters', places(r'\w+: &(?:mut )?\[\w+; \w+\],\s*(?:count|depth): usize', re.M | re.S))
point(6, 'a struct of an array and a length', places(r'bytes: \[u8; \d+\],\s*(?:pub )?length: usize', re.M | re.S))
point(6, 'sorted places searched, or inserted into, by hand', (f.at for f in ALL if f.name == 'index_in' or (f.path.startswith('crates/keys') and 'while' in f.body)))
point(6, 'two arrays that go together', places(r'places: &(?:mut )?\[u64; \d+\], lengths: &(?:mut )?\[u64; \d+\]'))

# 7. a switch on which step to run
point(7, 'parameters that choose a step', (f.at for f in ALL if re.search(r'\bquick: bool', f.params)))
