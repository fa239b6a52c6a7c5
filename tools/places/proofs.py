# python3 tools/places/proofs.py DIR: point 8 of docs/DESIGN-PASS.md. Per crate: Answers.antt files, answers in them, Invariants.antt files, helper files (Lib.antt apart), exported
# lemmas in them, how many of these prove a law of specs/, and lemmas that aren't exported. A lemma is a signature at a file's or module's level.
import re, sys, glob, collections
D, total = sys.argv[1].rstrip('/'), collections.Counter()
LAWS = {w for f in glob.glob(D + '/crates/*/specs/**/*.antt', recursive=True) for w in re.findall(r'^abbrev pub (\w+) : Type', open(f).read(), re.M)}
def lemmas(f):
    level = [0]
    for l in open(f):
        if not l.strip() or l.lstrip().startswith('--'): continue
        at = len(l) - len(l.lstrip())
        while len(level) > 1 and at < level[-1]: level.pop()
        if at == level[-1] and re.match(r' *module\b', l): level.append(at + 2)
        elif at == level[-1] and (m := re.match(r' *(pub )?([^\s:()]+) :(?: (.*)|$)', l)): yield m[1], m[3] or ''
print('crate files answers invariants helpers lemmas laws private')
for p in sorted(glob.glob(D + '/crates/*/proofs')):
    n = collections.Counter(files=0, answers=0, invariants=0, helpers=0, lemmas=0, laws=0, private=0)
    for f in glob.glob(p + '/*/**/Answers.antt', recursive=True): n.update(files=1, answers=len(re.findall(r'^pub \S+ : goal\.', open(f).read(), re.M)))
    n.update(invariants=len(glob.glob(p + '/*/**/Invariants.antt', recursive=True)))
    for f in glob.glob(p + '/*.antt'):
        n.update(helpers=not f.endswith('/Lib.antt'))
        for pub, ty in lemmas(f):
            w = re.match(r"[\w']*", ty)[0]
            n.update(lemmas=1, laws=w in LAWS and not re.search('[→≡]', ty)) if pub else n.update(private=1)
    print(p.split('/')[-2], *n.values()); total.update(n)
print('total', *total.values())
