# fns.py: each function of crates/*/src in one line of eight columns: crate, file, name, parameters, result, requires, ensures, body.
import glob, re
def close(s, i, a, b):
    n = 0
    for j in range(i, len(s)):
        n += (s[j] == a) - (s[j] == b)
        if n == 0: return j
for path in sorted(glob.glob('crates/*/src/*.rt')):
    _, crate, _, name = path.split('/')
    text = re.sub(r'^ghost use.*$|//.*$', '', open(path, encoding='utf-8').read(), flags=re.M)
    for m in re.finditer(r'\bfn (\w+)(?:<(?:->|[^<>]|<[^<>]*>)*>)?\(', text):
        end = close(text, m.end() - 1, '(', ')')
        rest, cut = text[end + 1:], {}
        result = re.match(r'\s*->\s*([^{]*?)\s*(?=requires|ensures|\{)', rest)
        at = result.end() if result else 0
        while c := re.match(r'\s*(requires|ensures)(?: \w+)?\s*\{', rest[at:]):
            e = close(rest, at + c.end() - 1, '{', '}')
            cut[c[1]] = (cut[c[1]] + ' × ' if c[1] in cut else '') + rest[at + c.end():e].strip()
            at = e + 1
        b = rest.index('{', at)
        row = [crate, name[:-3], m[1], text[m.end():end], result[1] if result else '', cut.get('requires', ''), cut.get('ensures', ''), rest[b + 1:close(rest, b, '{', '}')]]
        print('\t'.join(' '.join(c.split()).rstrip(',') for c in row))
