# facts.py (reads fns.py's lines): the facts that stand in the `requires` of three or more functions, a local name written `_`.
import collections, re, sys
found = collections.defaultdict(list)
def parts(text):
    n, start, out = 0, 0, []
    for i, c in enumerate(text):
        n += (c in '({[') - (c in ')}]')
        if c == '×' and n == 0: out.append(text[start:i]); start = i + 1
    out.append(text[start:])
    for p in map(str.strip, out):
        if len(out) > 1 or (p.startswith('(') and p.endswith(')')):
            inner = p[1:-1] if p.startswith('(') and p.endswith(')') else None
            if inner is not None and '×' in inner: yield from parts(inner); continue
            if inner is not None: p = inner
        yield p
for row in map(lambda l: l.rstrip('\n').split('\t'), sys.stdin):
    if not row[5]: continue
    local = [w for w in re.findall(r'(\w+):', row[3])]
    seen = set()
    for p in parts(row[5]):
        for w in local: p = re.sub(r'\b%s\b(?:\.(?:now|old))?' % w, '_', p)
        if p not in seen: seen.add(p); found[p].append(' '.join(row[:3]))
for p, at in sorted(found.items(), key=lambda f: -len(f[1])):
    if len(at) > 2: print(len(at), p, '; '.join(at), sep='\t')
