#!/usr/bin/env python3
"""Counts the places in crates/*/src that docs/DESIGN-PASS.md speaks of, point by point; -v lists them.

    places.py [-v] [POINT..]
"""
import glob, re, sys

verbose = '-v' in sys.argv[1:]
wanted = [a for a in sys.argv[1:] if a != '-v']
sources = sorted(glob.glob('crates/*/src/*.rt'))

# Points whose places a line shows: name, what the line looks like.
LINES = [
    ('1a a refusal, kind or state as a number in a type', r'^    pub (refusal|kind|next): u32,|^    Refused\(u32\),'),
    ('1b a flag beside a value, an enum of the shape of Option', r'^    pub whole: bool,|^    (Missing|Broken|Nothing),'),
    ('1c a constant that numbers refusals, kinds or words', r'^(pub )?const [A-Z]+: u32'),
    ('1d a function that takes or answers such a number', r'fn \w+\(.*\b(refusal|kind): u32|fn (list_fault|pair_fault|key_fault|candidates_fault|refusal_of)\b'),
    ('1e a call over bytes that answers its refusal as a number', r'fn demsharin_'),
    ('3a a loop that counts an index by hand', r"^\s*('\w+: )?while .*(\b\w+ < \w|\b0 < k|\.next < )"),
    ('3b another while', r"^\s*('\w+: )?while (?!.*(\b\w+ < \w|\b0 < k|\.next < ))"),
    ('4a equality and order by a function of its own', r'fn (same|same_exponents|all_zero|less|lesser|lower|compare_numbers|compare_prefixes|compared|precedes|alike|same_factor|same_list|same_quantity|least|larger)\('),
    ('4b an order of its own', r'enum (Sense|Compared)\b'),
    ('4c conversion by a function of its own', r'fn (wide|signed|bits|mark_number|kind_number|kind_factor|prefix_kind|prefix_number|prefix_of|kind_of|magnitude|negative|unlike)\('),
    ('5a parameters that travel together: numerators and denominators of a table', r'dens: &(mut )?\[u32\]'),
    ('5b the five arrays of a table', r'based: &(mut )?\[bool\]'),
    ('5c their lengths in a clause', r'\bRoom |length scales\.now ≡ 128|length nums\.(now|old) ≡ 2048'),
    ('6a a buffer with its length beside it', r'^    pub len: usize'),
    ('6b arrays side by side', r'let mut (dens|keys|places|times) = \['),
    ('7a a switch or a table by code', r'^const ARITIES|^    match code \{|^pub fn arity'),
    ('7b a flag that chooses the step', r'\b(merging|minus|zero): bool'),
]

KEEP = set('fn let mut if else while for in match return break loop pub as true false ref move const'.split())

def functions(text):
    """Each function as its name, the line it starts at, and its body's text."""
    for m in re.finditer(r'^(?:pub )?(?:extern "C" )?fn (\w+)', text, re.M):
        start = re.compile(r'^\{$|\{\n', re.M).search(text, m.end())
        b = re.compile(r'^\{\n', re.M).search(text, m.end())
        if not b:
            continue
        e = text.find('\n}\n', b.end())
        yield m.group(1), text.count('\n', 0, m.start()) + 1, text[b.end():e]

def shape(body):
    body = re.sub(r'//[^\n]*', '', body)
    tokens = re.findall(r'[A-Za-z_]\w*|\d[\w.]*|"[^"]*"|\S', body)
    return ' '.join(t if t in KEEP else 'x' if re.match(r'[A-Za-z_"]', t) else '0' if t[0].isdigit() else t for t in tokens)

def twins():
    """Functions of one shape: bodies of the same tokens, but for names and numbers, of 12 tokens or more."""
    groups = {}
    for p in sources:
        for name, line, body in functions(open(p).read()):
            s = shape(body)
            if s.count(' ') >= 12:
                groups.setdefault(s, []).append('%s:%d %s' % (p[7:], line, name))
    return sorted(g for g in groups.values() if len(g) > 1)

for name, pattern in LINES:
    if wanted and not any(name.startswith(w) for w in wanted):
        continue
    found = ['%s:%d %s' % (p[7:], i, line.strip()) for p in sources for i, line in enumerate(open(p), 1) if re.search(pattern, line) and not line.lstrip().startswith('//')]
    print('%4d  %s' % (len(found), name))
    if verbose:
        print('\n'.join('        ' + f for f in found))
if not wanted or '2' in wanted:
    groups = twins()
    print('%4d  2 groups of functions of one shape, %d functions in all' % (len(groups), sum(len(g) for g in groups)))
    if verbose:
        print('\n'.join('        ' + ' | '.join(g) for g in groups))
