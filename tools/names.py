#!/usr/bin/env python3
"""Brings the repository's own definitions and lemmas to snake case, once: a dash between words becomes an underscore, and so
does a capital within a name that begins small. What the language's library or the checker names is left as it is. Names
that would fall together with another are printed, and get what RENAMED says."""
import glob, os, re, sys

# where the plain spelling is taken by another name
RENAMED = {
    'byValue': 'call_by_value',
    'inPlace': 'call_in_place',
    'otherLength': 'by_other_length',
}
# lemmas that an earlier script spelled as a definition is spelled now
LEMMAS_FIRST = {n: n + '_lem' for n in ['all_hold', 'at_leaf', 'on_fits', 'place_at', 'same_bytes', 'together_at', 'two_bytes', 'way_at']}
LEMMAS_FIRST['left_after'] = 'left_after_visit'

def files(pattern):
    return [f for f in glob.glob(pattern, recursive=True) if '/out/' not in f and '/target/' not in f]

LEMMAS = [f for f in files('crates/*/specs/**/*.antt') + files('crates/*/proofs/*.antt')]
ANTT = files('crates/**/*.antt')
RT = files('crates/**/*.rt')
EDITS = files('crates/**/*.edit')
PAGES = files('docs/**/*.md') + ['README.md']

WORD = r"[^\W\d][\w'⊎]*(?:-[\w'⊎]+)*"
TOKEN = re.compile(r"(?<![\w'⊎-])" + WORD)
KIT_USE = re.compile(r"^\s*(?:pub |ghost )*use (?!Rattle\.(?:" + '|'.join(sorted(os.listdir('crates'))) + r")\b)[\w.ℕ]+\.\{([^}]*)\}")

def code(line, path):
    return re.sub(r"(^|\s)--.*$", "", line) if path.endswith('.antt') else re.sub(r"//.*$", "", line)

def wanted(name):
    return '-' in name or re.match(r"[a-z][a-z0-9_']*[A-Z]", name)

def snake(name):
    if name in RENAMED:
        return RENAMED[name]
    if '-' in name and (name.replace('-', '_') in every or name.replace('-', '_') in definitions):
        return name.replace('-', '_') + '_lem'
    return '_'.join(word(part) for part in name.split('-'))

def word(part):
    if not part or not part[0].islower():
        return part
    turned = re.sub(r"(?<=[a-z0-9])([A-Z])", r"_\1", part)
    return turned.lower() if turned != part else part

# names that our files declare: a signature, a field or a constructor
own, kit, every = set(), set(), set()
SIG = re.compile(r"^\s*(?:\|\s*)?(?:(?:abbrev|unfoldable|opaque|pub|ghost|let)\s+)*(" + WORD + r"(?:\s+" + WORD + r")*)\s*(?:\{[^}]*\}\s*)?:(?=\s|$)")
PARAM = re.compile(r"[({]((?:" + WORD + r"\s+)*" + WORD + r")\s*:")
for f in LEMMAS:
    for line in open(f):
        c = code(line, f)
        m = SIG.match(c)
        if m:
            own.update(m.group(1).split())
        for m in re.finditer(r"\b(?:abbrev pub|pub record|record|pub data|data|let)\s+(" + WORD + ")", c):
            own.add(m.group(1))
        for m in PARAM.finditer(c):
            own.update(m.group(1).split())
        for m in re.finditer(r"λ\s*([^.]*)\.", c):
            own.update(TOKEN.findall(m.group(1)))
for f in ANTT + RT:
    for line in open(f):
        every.update(TOKEN.findall(code(line, f)))
        m = KIT_USE.match(line)
        if m:
            for n in m.group(1).split(','):
                kit.add(n.split(' as ')[-1].strip())
names = {n for n in own if wanted(n)}
both = names & kit
print('own and imported too, left:', sorted(both))
names -= both
definitions = {snake(n) for n in names if '-' not in n}
new = {n: snake(n) for n in names}
taken = {}
for n, s in new.items():
    taken.setdefault(s, []).append(n)
for s, ns in sorted(taken.items()):
    if len(ns) > 1 or s in every:
        print('falls together:', s, ns, 'stands already' if s in every else '')
if '--write' in sys.argv:
    for f in ANTT + RT + EDITS + PAGES:
        text = old = open(f).read()
        if f.endswith('.antt'):
            text = TOKEN.sub(lambda m: LEMMAS_FIRST.get(m.group(0), m.group(0)), text)
        turn = lambda t: TOKEN.sub(lambda m: new.get(m.group(0), m.group(0)), t)
        turned = re.sub(r"`[^`\n]*`", lambda m: turn(m.group(0)), text) if f.endswith('.md') else turn(text)
        if turned != old:
            open(f, 'w').write(turned)
print(len(names), 'names;', len([n for n in every if wanted(n) and n not in names]), 'left as they are')
