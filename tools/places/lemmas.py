# python3 tools/places/lemmas.py DIR unused: lemmas that nothing cites which a law of specs/, an answer, an attribute of src/ or a computed example (a lemma that isn't exported
# and that no lemma cites) leads to. DIR general: lemmas that speak of no name of this repository, which the library may have. DIR twice: statements that stand in two files or more.
# Point 8 of docs/DESIGN-PASS.md. It reads files as text, and counts a name of a bound variable as cited: each line is a place to look.
import re, sys, glob, collections
D, mode = sys.argv[1].rstrip('/'), sys.argv[2]
SIG, TOKEN = re.compile(r'( *)((?:abbrev |unfoldable )*)(pub )?([^\s:(){}]+) :(?: |$)'), re.compile(r'[^\s(){}\[\],;]+')
HEAD = re.compile(r'( *)(pub )?(?:record|data|ruleset) ([^\s:(){}]+)')
LAWS = {w for f in glob.glob(D + '/crates/*/specs/**/*.antt', recursive=True) for w in re.findall(r'^abbrev pub (\w+) : Type', open(f).read(), re.M)}


class Lemma:
    def __init__(self, file, module, line, name, pub, kind, head, text):
        self.file, self.module, self.line, self.name, self.pub, self.kind, self.head, self.text, self.sig = file, module, line, name, pub, kind, head, [text], [text]


lemmas, imports, modules = {}, {}, {}
for f in sorted(f for s in ('proofs', 'specs') for f in glob.glob(f'{D}/crates/*/{s}/**/*.antt', recursive=True)):
    m = 'Rattle.' + f[len(D + '/crates/'):-5].replace('/', '.')
    t = re.sub(r'(?m)(^|(?<=\s))--(?=\s|-|$).*', '', open(f).read())
    imports[m] = {i.split()[-1]: (u[1], i.split()[0]) for u in re.finditer(r'^(?:pub )?use (\S+?)\.\{(.*?)\}', t, re.M | re.S) for i in u[2].split(',')}
    modules[m] = {u[2] or u[1].split('.')[-1]: u[1] for u in re.finditer(r'^(?:pub )?use ([^\s{]+)(?: as (\S+))?\s*$', t, re.M)}
    levels, heads, cur, insig = [0], [''], None, False
    for n, l in enumerate(t.split('\n'), 1):
        at = len(l) - len(l.lstrip())
        if not l.strip() or re.match(r'(pub )?use ', l): continue
        while len(levels) > 1 and at < levels[-1]: levels.pop(); heads.pop()
        s, h = SIG.match(l), HEAD.match(l)
        if at == levels[-1] and re.match(r' *module\b', l): levels.append(at + 2); heads.append(heads[-1] + l.replace('module _', '').replace(' where', ' ')); cur = None
        elif at == levels[-1] and (s or h):
            name, pub = (h[3], h[2]) if h else (s[4], s[3] or 'pub' in s[2])
            cur, insig = Lemma(f, m, n, name, bool(pub), 'type' if h else 'abbrev' if s[2] else 'lemma', heads[-1], l.strip()), True
            lemmas.setdefault((m, name), cur)
        elif cur:
            insig = insig and at > levels[-1]
            cur.text.append(l); cur.sig += [l] * insig


def cited(module, text):
    words = {w for t in TOKEN.findall(text) for w in [t, *t.split('.')]}
    names = {(module, n): n for n in words if (module, n) in lemmas} | {k: n for n, k in imports[module].items() if n in words or '◌' in n and all(p in words for p in n.split('◌'))}
    names |= {(module, n): n for mod, n in lemmas if mod == module and '◌' in n and all(p in words for p in n.split('◌'))}
    return {*names} | {(modules[module][a], b.split('.')[0]) for a, _, b in (t.partition('.') for t in TOKEN.findall(text)) if a in modules[module]}


def statement(d): return ' '.join((d.head + ' ' + ' '.join(d.sig).split(' : ', 1)[1]).split())


def is_law(d): return d.pub and re.match(r"[\w']*", statement(d))[0] in LAWS and not re.search('[→≡]', statement(d))


def shape(d):
    names = list(dict.fromkeys(n for b in re.findall(r'[({]([^\s(){}:]+(?: [^\s(){}:]+)*) : |λ ([^.(){}]+)\.', statement(d)) for n in ' '.join(b).split()))
    return re.sub(r'[(){}]', '', TOKEN.sub(lambda w: '.'.join([f'v{names.index(p)}' if k == 0 and p in names else p for k, p in enumerate(w[0].split('.'))]), statement(d)))


proofs = [d for d in lemmas.values() if '.proofs.' in d.module and d.kind == 'lemma' and not d.module.endswith(('.Answers', '.Invariants'))]
uses = {k: cited(d.module, '\n'.join(d.text) + d.head) - {k} for k, d in lemmas.items()}
users = collections.Counter(u for us in uses.values() for u in us)
if mode == 'unused':
    todo = [k for k, d in lemmas.items() if '.proofs.' not in d.module or d.module.endswith(('.Answers', '.Invariants')) or d.kind == 'lemma' and (is_law(d) or not d.pub and not users[k])]
    for f in glob.glob(D + '/crates/*/src/**/*.rt', recursive=True):
        for c, path, n in re.findall(r'\b(\w+)::proofs::((?:\w+::)+)(\w+)', open(f).read()): todo.append((f"Rattle.{f.split('/crates/')[1].split('/')[0] if c == 'crate' else c}.proofs.{path[:-2].replace('::', '.')}", n))
    reached = set()
    while todo:
        k = todo.pop()
        if k not in reached: reached.add(k); todo += uses.get(k, ())
    rows = [(d, '') for d in proofs if (d.module, d.name) not in reached]
elif mode == 'general':
    ours = lambda k: k in lemmas or k[0].split('.')[:2] in [['Rattle', c.split('/')[-1]] for c in glob.glob(D + '/crates/*')]
    rows = [(d, statement(d)) for d in proofs if not any(ours(k) for k in cited(d.module, statement(d)) - {(d.module, d.name)})]
else:
    groups = collections.defaultdict(list)
    for d in proofs: groups[shape(d)].append(d)
    rows = [(d, s) for s, ds in groups.items() if len(ds) > 1 and not is_law(ds[0]) for d in ds]
for d, s in rows: print(f"{d.file}:{d.line}: {'pub ' if d.pub else ''}{d.name}, cited {users[d.module, d.name]} times {s}")
