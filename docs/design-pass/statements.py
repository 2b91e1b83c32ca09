# statements.py: each public statement of the files marked THEOREMS in one line of three columns: file, name, statement.
import glob, re
for path in sorted(glob.glob('crates/*/specs/**/*.antt', recursive=True) + glob.glob('crates/*/proofs/**/*.antt', recursive=True)):
    lines = [re.sub(r' *--.*$', '', l.rstrip()) for l in open(path, encoding='utf-8')]
    if not open(path, encoding='utf-8').readline().startswith('-- THEOREMS'): continue
    for i, line in enumerate(lines):
        m = re.match(r'( *)pub ([^ (:]+) :(.*)', line)
        if not m: continue
        outer = next((l for l in reversed(lines[:i]) if l.strip() and len(l) - len(l.lstrip()) < len(m[1])), '')
        if re.match(r' *(pub )?(record|data) ', outer): continue
        j = i + 1
        while j < len(lines) and lines[j].startswith(m[1] + ' ') : j += 1
        print(path[7:-5], m[2], ' '.join(' '.join([m[3]] + lines[i + 1:j]).split()), sep='\t')
