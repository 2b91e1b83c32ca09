# together.py (reads fns.py's lines): parameters (name and type) that travel together in three or more functions; only the largest such sets.
import collections, itertools, re, sys
sets = collections.defaultdict(list)
def split(s):
    n, start = 0, 0
    for i, c in enumerate(s):
        n += (c in '<([') - (c in '>)]')
        if c == ',' and n == 0: yield s[start:i].strip(); start = i + 1
    yield s[start:].strip()
for row in map(lambda l: l.rstrip('\n').split('\t'), sys.stdin):
    params = [re.sub(r"'\w+ ", '', p) for p in split(row[3]) if ':' in p]
    for k in range(2, len(params) + 1):
        for c in itertools.combinations(sorted(params), k): sets[row[0], c].append(row[1] + ' ' + row[2])
for (crate, c), at in sorted(sets.items()):
    if len(at) < 3: continue
    if any(k == crate and set(c) < set(d) and len(b) == len(at) for (k, d), b in sets.items()): continue
    print(len(at), crate, ', '.join(c), '; '.join(at), sep='\t')
