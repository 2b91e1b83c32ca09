# items.py: each line of crates/*/src as four columns: crate, file, the function, type or constant it stands in (`Type.method`), text.
import glob, re
HEAD = re.compile(r'( *)(?:pub(?:\(crate\))? )?(?:extern "C" )?(fn|struct|enum|const|static|impl)\b(?:<[^>]*>)? +(\w+)')
for path in sorted(glob.glob('crates/*/src/*.rt')):
    _, crate, _, name = path.split('/')
    item, owner, above = '-', '', []
    for line in open(path, encoding='utf-8'):
        text = line.rstrip()
        if not text or text.startswith('ghost use'): continue
        if text.lstrip().startswith(('//', '#[')): above.append(text); continue
        head = HEAD.match(text)
        if head:
            if head[2] == 'impl': owner = head[3] + '.'
            elif not head[1]: owner = ''
            item = owner + head[3] if head[2] == 'fn' else head[3]
        for t in above + [text]: print(crate, name[:-3], item, t, sep='\t')
        above = []
