"""Lists the places in src/ that may have an older form, by the eight points of docs/DESIGN-PASS.md.

    python3 tools/forms.py [POINT]

Each line is a candidate, and the page says which of them are places.
"""
import collections
import glob
import itertools
import re
import sys

FILES = sorted(glob.glob('crates/*/src/**/*.rt', recursive=True))


def lines(pattern, without=None):
    found = []
    for f in FILES:
        for i, line in enumerate(open(f), 1):
            if re.search(pattern, line) and not (without and re.search(without, line)):
                found.append(f'{f}:{i}: {line.strip()}')
    return found


def functions():
    """Every function: its file, name, parameters, contract and body."""
    for f in FILES:
        text = re.sub(r'//.*', '', open(f).read())
        for m in re.finditer(r'\bfn ([a-z_0-9]+)(?:<[^(]*>)?\(([^)]*)\)', text):
            rest = text[m.end():]
            clauses, at = [], 0
            for c in re.finditer(r'(?:ensures|requires)\*?(?: [a-z_]+)? \{.*\}', rest):
                if '{' in rest[at:c.start()] or ';' in rest[at:c.start()]:
                    break
                clauses.append(c.group(0))
                at = c.end()
            opened = re.match(r'[^;{]*\{', rest[at:])
            body = ''
            if opened:
                depth, j = 1, at + opened.end()
                start = j
                while depth and j < len(rest):
                    depth += {'{': 1, '}': -1}.get(rest[j], 0)
                    j += 1
                body = rest[start:j - 1]
            yield f, m.group(1), m.group(2), clauses, body


def shape(body):
    body = re.sub(r'"[^"]*"', 's', body)
    body = re.sub(r'\b[0-9][0-9a-zA-Z_.]*', '0', body)
    body = re.sub(r"[A-Za-z_][A-Za-z_0-9]*", lambda m: m.group(0) if m.group(0) in
                  ('if', 'else', 'match', 'let', 'mut', 'for', 'in', 'while', 'return') else 'a', body)
    return re.sub(r'\s+', ' ', body).strip()


def twins():
    by = collections.defaultdict(list)
    for f, name, _, _, body in functions():
        s = shape(body)
        if len(s) >= 24:
            by[s].append(f'{f}: {name}')
    return ['   '.join(v) for v in by.values() if len(v) > 1]


def together():
    by = collections.defaultdict(list)
    for f, name, params, _, _ in functions():
        ps = [' '.join(p.split()) for p in params.split(',') if ':' in p]
        for pair in itertools.combinations(sorted(ps), 2):
            by[pair].append(f'{f.split("/")[1]}::{name}')
    return [f'{len(v)} times: {a}, {b}: {" ".join(v)}' for (a, b), v in
            sorted(by.items(), key=lambda e: -len(e[1])) if len(v) > 2]


def repeated():
    by = collections.defaultdict(list)
    for f, name, _, clauses, _ in functions():
        for c in clauses:
            by[re.sub(r'^(ensures|requires)\*?( [a-z_]+)? ', '', c)].append(f'{f.split("/")[1]}::{name}')
    return [f'{len(v)} times: {c}: {" ".join(v)}' for c, v in
            sorted(by.items(), key=lambda e: -len(e[1])) if len(v) > 2]


POINTS = {
    '1': ('own enums', lambda: lines(r'^(pub(\([a-z]+\))? )?enum ')
          + ['-- numbers'] + lines(r'\bas u8\b|-> u8\b|: u8\b')
          + ['-- flags'] + lines(r'^    (pub(\([a-z]+\))? )?[a-z_]+: bool,|fn .*: bool')),
    '2': ('functions of one shape', twins),
    '3': ('loops', lambda: lines(r'^\s*(while|loop)\b|\bfor [a-z_]+ in [^{]*\.\.')),
    '4': ('conversions and comparisons', lambda: lines(
        r'fn ([a-z]+_)*(same|number|name|equal|of|from|lesser|greater|larger|kept|taken)(_[a-z]+)*\(|fn is_[a-z_]+\(|impl (\w+::)?(Default|Clone|PartialEq|Ord|Display)')),
    '5': ('facts in three contracts', lambda: repeated() + ['-- parameters'] + together()),
    '6': ('arrays in fields', lambda: lines(r'^    (pub(\([a-z]+\))? )?[a-z_]+: (&.*)?\[.*\]') + ['-- buffers'] + lines(r'let mut [a-z_]+ = \[.*;.*\]', r'crates/tests|_tests')),
    '7': ('choices', lambda: lines(r'\bmatch (\*)?[a-z_.]+ \{')),
}

for point, (title, find) in POINTS.items():
    if len(sys.argv) < 2 or sys.argv[1] == point:
        found = find()
        print(f'{point}. {title}: {sum(not x.startswith("-- ") for x in found)}')
        for x in found:
            print('  ', x)
