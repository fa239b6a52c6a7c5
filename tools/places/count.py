# python3 tools/places/count.py DIR [POINT..]: the candidates of points 1, 2, 4, 5, 6 and 7 of docs/DESIGN-PASS.md in DIR/crates, each with its place
# file:line, and how many.
import re, sys, glob, collections, itertools
D, WANT = sys.argv[1].rstrip('/'), sys.argv[2:] or list('124567')
SRC = {f[len(D) + 8:].replace('/src/', '/'): [re.sub(r'\s*//.*', '', l.rstrip('\n')) for l in open(f)] for f in sorted(glob.glob(D + '/crates/*/src/*.rt'))}
FN, TY, NOTE = [], [], r' *(requires|ensures) '  # functions: place, name, parameters, result, body, requires; types: place, kind, name, its lines
for f, L in SRC.items():
    own = ''
    for i, l in enumerate(L):
        if m := re.match(r'impl(?:<.*?>)? (?:\S+ for )?(\w+)', l): own = '' if l.endswith('{}') else m[1] + '.'
        elif l == '}': own = ''
        if m := re.match(r'( *)(?:pub(?:\(crate\))? )?(?:const )?(?:unsafe )?(?:extern "C" )?fn (\w+)', l):
            k = next(j for j in range(i, len(L)) if L[j].endswith(';') or not re.match(NOTE, L[j]) and re.search(r'\{\}?$', L[j]))
            if L[k].endswith(';'): continue  # declared in a trait, no body
            end = k if L[k].endswith('{}') else next(j for j in range(k, len(L)) if L[j] == m[1] + '}')
            sig, _, ret = ' '.join(x.strip() for x in L[i:k + 1] if not re.match(NOTE, x)).rstrip('{} ').partition(') -> ')
            ps = re.findall(r'(\w+): ((?:[^,()\[\]<>]|<[^>]*>|\([^)]*\)|\[[^\]]*\])+)', sig[sig.index('(') + 1:])
            FN.append((f'{f}:{i + 1}', own + m[2], ps, ret, '\n'.join(L[k + 1:end]), [x for x in L[i:k] if re.match(r' *requires ', x)]))
        if m := re.match(r'(?:pub(?:\(crate\))? )?(struct|enum) (\w+)[^;]*\{', l):
            TY.append((f'{f}:{i + 1}', m[1], m[2], [x.strip() for x in L[i + 1:L.index('}', i)] if '#[' not in x]))
def show(at, title, rows): print(f'== {title}: {len(rows)}', *(' '.join(map(str, r)) for r in rows), sep='\n   ') if at[0] in WANT else 0
def groups(at, title, key, least=2, of=FN):
    g = collections.defaultdict(dict)
    for x in of: [g[k].setdefault(x[0] + ' ' + x[1 if of is FN else 2]) for k in key(x)]
    show(at, title, sorted([(len(v), k[:90], *('\n      ' + p for p in v)) for k, v in g.items() if len(v) >= least], key=lambda r: -r[0]))
def lines(rx): return [(f'{f}:{i + 1}', l.strip()) for f, L in SRC.items() for i, l in enumerate(L) if re.search(rx, l) and not l.startswith('ghost ')]
def fns(test): return [(x[0], x[1], '-> ' + x[3]) for x in FN if test(x)]
def loose(x): return [' '.join(sorted(re.sub(r'b?"[^"]*"|b\'[^\']*\'|(?!\b(?:if|else|return|match|let|mut|while|for|in|as|self)\b)\b\w[\w.]*', 'w', l).strip() for l in x[4].split('\n')))]
def demands(x): return {re.sub(r'[()]', '', q).strip() for r in x[5] for q in re.sub(r'\b(' + '|'.join(p for p, _ in x[2]) + r')\b(\.\w+)*', '_', r[r.index('{') + 1:r.rindex('}')]).split('×')}
UNIT, SETS = {n for _, k, n, v in TY if k == 'enum' and all(re.fullmatch(r'\w+,', e) for e in v)}, [frozenset(p for p, _ in x[2]) for x in FN if len(x[2]) > 1]
show('1', '1a enums with a bare variant beside one that carries, or with Refused(..)', [(p, n, *v) for p, k, n, v in TY if k == 'enum' and n not in UNIT and any(re.fullmatch(r'\w+,|Refused\(.*', e) for e in v)])
show('1', '1b a flag beside a number', lines(r'\bbool, u\d|negative: bool, \w|, negative: bool\) ->'))
show('1', '1c integers by the name of a kind, code or refusal', [(x[0], x[1], p + ': ' + t) for x in FN for p, t in x[2] if re.fullmatch(r'kind|code|tag|number|stage|direction|claims|overflow_?[xy]|keyword|safety', p) and re.fullmatch(r'u\d+|usize', t)] + lines(r'^    pub (kind|code|tag|number|stage|direction|claims|overflow[xy]): u\d') + fns(lambda x: x[3] == 'u32' and re.search(r'\.number\(\)|=> \d', x[4])))
groups('2', '2a types with the same fields or variants', lambda t: [' '.join(re.sub(r'(pub )?(\w+).*', r'\2', e) for e in t[3])] if len(t[3]) > 1 else [], of=TY), groups('2', '2b functions of one shape', loose), groups('2', '2c functions of one name', lambda x: [x[1].split('.')[-1]])
for title, test in (('4a truths by match or early return', lambda x: x[3] == 'bool' and re.search(r'\bmatch\b|\breturn\b', x[4])), ('4b order, by name', lambda x: re.search(r'(^|\.)(is_nan|is_before|f32_m..|abs|clamp|nearer|or_zero|differs)$', x[1])), ('4c copies: arms, loops and fields', lambda x: re.search(r'(\w+::\w+(?:\(\w+\))?) => \1,|\[\w+ \+ (\w+)\] = \w+\[\2\]|(\w+): [\w.]+\.\3,', x[4])), ('4d casts, numbers against variants, names of conversions', lambda x: re.search(r'=> \d|^ +\d+ =>|\bas (u|i|f)\w+', x[4], re.M) or re.search(r'from_co|_codes?$|_kind$|_of$|_in$|number$|_words?$', x[1])), ('4e printing and reading, by name', lambda x: re.search(r'^(put|digit|cell|left_of|is_digit|skip|numeral|code_|float_of|count_ink)', x[1]))): show('4', title, fns(test))
groups('5', '5a demands of one shape', demands, 3), show('5', '5b parameters together, by name', sorted([(n, ' '.join(sorted(c))) for c in {a & b for a, b in itertools.combinations(SETS, 2) if len(a & b) > 1} if (n := sum(c <= s for s in SETS)) > 2], reverse=True))
show('6', '6 a slice or array beside a length or place', fns(lambda x: any('[' in t for _, t in x[2]) and (any(t == 'usize' for _, t in x[2]) or x[3] == 'usize')))
show('7', '7 literal switches', lines(r'((^ +|[(,] ?)(true|false|(' + '|'.join(UNIT - {'Refusal'}) + r')::\w+)[,)]|\b(' + '|'.join(UNIT - {'Refusal'}) + r')::\w+\.|\bdyn\b|\bFn(Mut|Once)?\(|: fn\()(?!.*=>)'))
