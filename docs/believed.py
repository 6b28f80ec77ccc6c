#!/usr/bin/env python3
"""Which definitions a reader must believe, counted from the public definitions down.

usage: docs/believed.py             lines by file, reached and all, and the sums
       docs/believed.py --unreached what stands in a rule file though nothing public reaches it (there should be none)
       docs/believed.py --why NAME  by which definition NAME is reached first

Reached are the names in the contracts of the shipped calls (CALLS), in those of the byte form and the stream (BYTES) and in the theorems
of `promises`, `filepromises`, `halves`, `cancels`, `knotpromises` and `countpromises`, and, from each, the names in its own text. Lines are those of definitions: no imports, comments or blank lines.
A file specs/Held.antt says how code holds things, every other file of specs is a rule file.
"""
import re
import sys
from pathlib import Path

HOME = Path(__file__).resolve().parent.parent
CALLS = ['lentcalls', 'lentfiles', 'lentknots', 'demsharin']
BYTES = ['wire', 'replies', 'stream', 'inflow']
THEOREMS = ['promises', 'filepromises', 'halves', 'cancels', 'knotpromises', 'countpromises']

USE = re.compile(r'^\s*(?:ghost |pub )?use\s+Rattle\.(\w+)\.specs\.([A-Z]\w*)(?:\.\{(.*)\})?(?:\s+as\s+([^\s;]+))?;?\s*$')


def tokens(text):
    for t in re.findall(r'[^\s(){}\[\],;⌜⌝]+', text):
        yield t
        yield t.rstrip('.')
        yield t.split('.')[0]


def imports(text):
    """what a file's names mean: name -> (crate, module, name there), alias -> (crate, module)"""
    names, aliases = {}, {}
    for line in text.splitlines():
        m = USE.match(line)
        if not m:
            continue
        crate, module, group, alias = m.groups()
        if group is None and alias:
            aliases[alias] = (crate, module)
        for item in (group or '').split(','):
            there, _, here = item.strip().partition(' as ')
            names[(here or there).strip()] = (crate, module, there.strip())
    return names, aliases


class Definition:
    def __init__(self, key, indent, record):
        self.key, self.indent, self.record, self.lines, self.tokens = key, indent, record, [], set()


def definitions(text, crate, module):
    """name -> Definition; a constructor's name leads to its type"""
    found, now, outer = {}, None, []
    for line in text.splitlines():
        s = line.strip()
        if not s or s.startswith(('--', 'use ', 'pub use ', 'pub mod')):
            continue
        indent = len(line) - len(line.lstrip())
        outer = [o for o in outer if o[0] < indent]
        if s.startswith('module _'):
            outer.append((indent, s))
            now = None
            continue
        head = re.match(r'((?:unfoldable|abbrev|pub|data|record)\s+)+([^\s:(){}]+)', s)
        if head and not (now and now.record and indent > now.indent):
            now = Definition((crate, module, head.group(2)), indent, bool(re.match(r'(pub )?(data|record) ', s)))
            found[head.group(2)] = now
            for _, o in outer:
                now.tokens |= set(tokens(o))
        elif now and now.record and re.match(r'(pub )?data ', now.lines[0].strip()):
            found.setdefault(re.match(r'(?:pub )?([^\s:]+)', s).group(1), now)
        if now is None:
            sys.exit(f'{crate}/{module}: no definition to which this belongs: {line}')
        now.lines.append(line)
        now.tokens |= set(tokens(line))
    return found


def main():
    specs, uses = {}, {}
    for path in sorted(HOME.glob('crates/*/specs/*.antt')):
        if path.stem != 'Lib':
            key = (path.parts[-3], path.stem)
            text = path.read_text()
            specs[key], uses[key] = definitions(text, *key), imports(text)

    def meaning(token, names, aliases, own=None):
        if token in names:
            crate, module, there = names[token]
            return specs.get((crate, module), {}).get(there)
        if own and token in specs[own]:
            return specs[own][token]
        alias, _, there = token.partition('.')
        return specs.get(aliases.get(alias), {}).get(there)

    reached = {}

    def reach(text, names, aliases, by, mark):
        work = [(meaning(t, names, aliases), by) for t in tokens(text)]
        while work:
            d, by = work.pop()
            if d is not None and d.key not in reached:
                reached[d.key] = (mark, by)
                own = d.key[:2]
                work += [(meaning(t, *uses[own], own), '/'.join(d.key)) for t in sorted(d.tokens)]

    for mark, crates in (('calls', CALLS), ('bytes', BYTES)):
        for crate in crates:
            for path in sorted(HOME.glob(f'crates/{crate}/src/**/*.rt')):
                text = path.read_text()
                for fn in re.finditer(r'fn (\w+)(?:<[^>]*>)?\(.*?\n\{', text, re.S):
                    reach(fn.group(0).partition('ensures')[2], *imports(text), f'{crate}::{fn.group(1)}', mark)
    for path in [p for crate in THEOREMS for p in sorted(HOME.glob(f'crates/{crate}/proofs/*.antt'))]:
        text, crate = path.read_text(), path.parts[-3]
        for case in re.finditer(r'^ *(?:abbrev (?:pub )?\S+ :|\S+ : List Case)(?:.|\n)*?(?=\n\n|\Z)', text, re.M):
            reach(case.group(0), *imports(text), f'{crate}/{path.stem}', 'theorems')
        for law in re.finditer(r'^( *)pub (?!mod)(\S+) :((?:.|\n)*?)\n *(?:unfolding\b|\2(?=\s)|$)', text, re.M):
            reach(law.group(3), *imports(text), f'{crate}/{path.stem}.{law.group(2)}', 'theorems')

    if '--why' in sys.argv:
        for key, (mark, by) in reached.items():
            if key[2] == sys.argv[-1]:
                print('/'.join(key), 'by', by)
        return
    marks = ('calls', 'bytes', 'theorems')
    sums = dict.fromkeys(marks + ('rest', 'all'), 0)
    for key, found in specs.items():
        own = list({id(d): d for d in found.values()}.values())
        n = {m: sum(len(d.lines) for d in own if reached.get(d.key, ('rest',))[0] == m) for m in marks + ('rest',)}
        n['all'] = sum(n.values())
        for m in sums:
            sums[m] += n[m]
        if '--unreached' in sys.argv:
            rest = [d.key[2] for d in own if d.key not in reached]
            if rest and key[1] != 'Held':
                print(f"crates/{key[0]}/specs/{key[1]}.antt: {', '.join(rest)}")
        else:
            print(f"{n['calls']:5d} {n['bytes']:4d} {n['theorems']:4d} {n['rest']:4d}  crates/{key[0]}/specs/{key[1]}.antt")
    if '--unreached' not in sys.argv:
        print('calls, bytes, theorems, rest')
        print(f"{sums['calls']:5d} {sums['bytes']:4d} {sums['theorems']:4d} {sums['rest']:4d}  of {sums['all']}")


main()
