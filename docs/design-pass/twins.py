# twins.py (reads fns.py's lines): functions of one shape, that is whose result, parameters and body differ in names, numbers and texts alone.
import re, sys
groups = {}
for row in map(lambda l: l.rstrip('\n').split('\t'), sys.stdin):
    crate, name, fn, params, result, _, _, body = row
    if crate == 'exports_c': continue
    names = {}
    def word(m):
        w = m[0]
        if re.match(r'(let|mut|if|else|while|match|return|true|false|as|self|u\d+|i64|usize|bool|f64)$', w): return w
        if re.match(r'b?"|\d', w): return '#'
        return names.setdefault(w, f'v{len(names)}')
    shape = re.sub(r'b?"(?:\\.|[^"\\])*"|\w+', word, f'{params} -> {result} {{ {body} }}').replace('b#', '#')
    shape = re.sub(r',\s*\)', ')', shape)
    if len(re.findall(r'\w+', body)) >= 3: groups.setdefault(shape, []).append(f'{crate} {name} {fn}')
for shape, found in sorted(groups.items(), key=lambda g: g[1]):
    if len(found) > 1: print(len(found), '; '.join(found), sep='\t')
