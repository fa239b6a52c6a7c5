"""What the scripts beside this one store: by the published Rust or, where request #106 doesn't compare with the Rust, by a second
implementation.

    ORACLE answer < cases           answers as `ORACLE run` does, and says behind each `case` whose answer that is: `by rust` or `by second`
    ORACLE screen --by < SCREEN     prints a screen's list, or its refusal; before a list the same line

#106 measures the stretch size of a size keyword from the inset-modified block. Of items with a size keyword it compares with the Rust only
those that have both insets of each axis, which don't cross, all lengths and the area being whole quarter pixels up to 4,096 in size,
without percentages and sums. Few random items are such. So a script takes boxes with a size keyword by TURNS, two of five by the Rust and
one of five on which the Rust answers otherwise (while there are any), and the first ones so that each kind of `compared` and `others`
stands among them. It counts them, and writes nothing where a kind is missing or fewer than LEAST are by the Rust. Boxes without a keyword
are the Rust's, and stand where they stood before #106.

`is_compared` reads the request once more, apart from ORACLE: the two must say the same of every box, and `by_whom` of every screen."""
import collections, fractions, itertools, re, struct, subprocess, sys

# words of a length, how many lengths a style has, which of them are width and height, and from which on they are margins; the word of the
# scrollbar width
LENGTH, LENGTHS, SIZE, MARGIN, SCROLLBAR = 3, 22, (16, 17), 4, 77
PX, AUTO, PERCENT, FIT_PERCENT, FIT_PX, SUM = 1, 3, 5, 15, 43, 129
KEYWORDS = {11: 'min-content', 15: 'fit-content percent', 27: 'max-content', 43: 'fit-content px', 59: 'fit-content', 75: 'stretch'}
MOST = 4096
EDGES = 'start', 'center', 'end'
# columns of a field of a screen; its fields are eighths. The claim of each position
FIELD = 11
CLAIMS = {2: 1, 3: 2}
UNLIKE = ('unlike the Rust',)
TURNS, LEAST = ('rust', UNLIKE, 'rust', 'second', 'second'), fractions.Fraction(1, 3)


def f32(word): return struct.unpack('<f', struct.pack('<I', word))[0]
def run(args, text=None): return subprocess.run(args, input=text, capture_output=True, text=True, check=True).stdout
def of(lines, kind): return [l for l in lines if l.startswith(kind + ' ')]
def words(line): return [int(w, 0) for w in line.split()[1:]]


def cut(text):
    """cases or answers, each its lines without comments"""
    return [[l for l in part.split('\n') if l and l[0] != '#'] for part in text.split('end\n') if part.strip()]


def unsigned(line):
    """zeros are equal"""
    return line.replace('0x80000000', '0x00000000')


def answered(oracle, cases):
    """of each case by whom the answer is, its lines, and whether they are the Rust's"""
    text = ''.join('\n'.join(c) + '\nend\n' for c in cases)
    found, rust = (cut(run([oracle, word], text)) for word in ('answer', 'run'))
    assert len(found) == len(rust) == len(cases)
    for case, out, its in zip(cases, found, rust):
        assert case[0] == out[0] == its[0], (case[0], out[0], its[0])
        by = [l.split()[1] for l in of(out, 'by')] or ['refused']
        out = [l for l in out if not l.startswith('by ')]
        assert out == its or by == ['second'], case
        yield by[0], out, list(map(unsigned, out)) == list(map(unsigned, its))


# ---- the request's set


def lengths_of(style): return [(style[LENGTH * i], f32(style[LENGTH * i + 1])) for i in range(LENGTHS)]
def has_keyword(lengths): return any(lengths[i][0] in KEYWORDS for i in SIZE)
def is_quarter(x): return abs(x) <= MOST and 4 * x == int(4 * x)
def is_length(tag): return tag in (PX, FIT_PX)


def is_compared(area, lengths, scrollbar):
    """area: width, height and offset; lengths: tags and values. Document 01 counts a scrollbar width among the lengths that are bounded"""
    return (all(map(is_quarter, [*area[:4], scrollbar])) and all(tag not in (PERCENT, FIT_PERCENT, SUM) for tag, _ in lengths)
            and all(is_quarter(x) for tag, x in lengths if is_length(tag)) and all(tag == PX for tag, _ in lengths[:4])
            and all(block(area, lengths, y) >= 0 for y in (0, 1)))


def block(area, lengths, y):
    """what two insets leave; exact for quarters"""
    return area[y] - lengths[2 * y][1] - lengths[2 * y + 1][1]


def compared(area, lengths):
    """kinds of a box that is compared"""
    for y in (0, 1):
        tag = lengths[SIZE[y]][0]
        if tag in KEYWORDS: yield KEYWORDS[tag], 'xy'[y]
        if tag in KEYWORDS and block(area, lengths, y) == 0: yield 'block 0', 'xy'[y]


def others(area, lengths, cand):
    """kinds of one that isn't"""
    for y in (0, 1):
        if lengths[SIZE[y]][0] not in KEYWORDS: continue
        (left, l), (right, r) = lengths[2 * y:][:2]
        (before, m), (after, n) = lengths[MARGIN + 2 * y:][:2]
        if (left, right) == (AUTO, AUTO):
            start, end = (f32(w) - area[2 + y] for w in cand[3 + 5 * y:][:2])
            edge = EDGES[cand[5 + 5 * y]]
            at = dict(start=start, center=start / 2 + end / 2, end=end)[edge]
            yield 'no insets', edge, 'inside' if 0 < at < area[y] else 'outside'
        elif AUTO in (left, right): yield ('one inset',)
        elif (left, right) == (PX, PX) and area[y] - l - r < 0 and (before, after) == (PX, PX) and m + n < 0: yield 'insets cross', 'margins below 0'
    tags = {tag for tag, _ in lengths}
    if tags & {PERCENT, FIT_PERCENT}: yield ('percentage',)
    if SUM in tags: yield ('sum',)
    numbers = [*area[:2], *(x for tag, x in lengths if is_length(tag))]
    if any(abs(x) <= MOST and not is_quarter(x) for x in numbers): yield ('no quarter',)
    if any(MOST < abs(x) < float('inf') for x in numbers): yield ('above 4,096',)


ALL_COMPARED = {(name, y) for tag, name in KEYWORDS.items() if tag != FIT_PERCENT for y in 'xy'} | {('block 0', y) for y in 'xy'}
ALL_OTHERS = {('no insets', edge, where) for edge in EDGES for where in ('inside', 'outside')} \
    | {('one inset',), ('insets cross', 'margins below 0'), ('percentage',), ('sum',), ('no quarter',), ('above 4,096',), UNLIKE}


def kinds(by, same, area, style, cand):
    """kinds of a box with a size keyword; empty of others. same: the Rust has the same answer"""
    sizes, lengths = [f32(w) for w in area[:4]], lengths_of(style)
    if not has_keyword(lengths): return set()
    if by == 'rust': return {by, *compared(sizes, lengths)}
    return {by, *others(sizes, lengths, cand)} | (set() if same else {UNLIKE})


def placed(case, by, out, same):
    """kinds of each placed box. Of a run all boxes with a keyword are compared, or none"""
    area, styles = words(of(case, 'area')[0]), [words(l) for l in of(case, 'style')]
    records = [words(l) for l in of(out, 'working')]
    sizes, items = [f32(w) for w in area[:4]], [styles[r[0]] for r in records]
    assert (by == 'rust') == all(is_compared(sizes, lengths_of(i), f32(i[SCROLLBAR])) for i in items if has_keyword(lengths_of(i))), (by, case)
    return [kinds(by, same, area, styles[r[0]], r) for r in records]


# ---- screens


def lengths_in(item):
    """of an item's fields"""
    return [(item[k], item[k + 1] / 8) for k in range(0, LENGTH * LENGTHS, LENGTH)]


def by_whom(text):
    """of a screen that isn't refused `rust` or `second`, and how many boxes with a size keyword it has"""
    head, *rows = ([int(line[k:k + FIELD]) for k in range(0, len(line), FIELD)] for line in text.splitlines())
    items, area = rows[:head[8]], [x / 8 for x in head[:4]]
    placed = [c[0] for c in rows[head[8]:] if CLAIMS.get(c[2], 0) & head[5]]
    keyword = {k: lengths_in(items[k]) for k in placed if has_keyword(lengths_in(items[k]))}
    is_rust = all(is_compared(area, lengths, items[k][SCROLLBAR] / 8) for k, lengths in keyword.items())
    return 'rust' if is_rust else 'second', sum(k in keyword for k in placed)


def parted(printed):
    """what `ORACLE screen --by` prints: by whom, None of a refusal, and the list"""
    by, listed = re.fullmatch(rb'(?:by (rust|second)\n)?(.*)', printed, re.DOTALL).groups()
    return by and by.decode(), listed


# ---- which cases are taken, and counts of them


def chosen(found, wanted, kinds_of, key=None):
    """The first so many, but with others in the places of those with a size keyword: by TURNS, each kind once before any is taken because it
    is the next. kinds_of: empty where there is no keyword. No two have the same key"""
    key = key or id
    first, taken = [], set()
    for f in found:
        if len(first) < wanted and key(f) not in taken:
            first.append(f)
            taken.add(key(f))
    assert len(first) == wanted, len(first)
    taken -= {key(f) for f in first if kinds_of(f)}
    pools = {turn: [f for f in found if turn in kinds_of(f)] for turn in TURNS}
    turns, seen = itertools.cycle(TURNS), set()
    for f in first:
        if kinds_of(f):
            turn = next(turns)
            pool = [g for g in pools[turn] if key(g) not in taken] or [g for g in pools['second'] if key(g) not in taken]
            f = next((g for g in pool if kinds_of(g) - seen), pool[0])
            seen |= kinds_of(f)
            taken.add(key(f))
        yield f


class Tally:
    """Boxes of stored samples: how many, how many with a size keyword, and whose these are."""
    def __init__(self): self.boxes, self.found = 0, collections.Counter()

    def add(self, its):
        self.boxes += 1
        self.found.update(its)
        return self

    def keyword(self): return self.found['rust'] + self.found['second']

    def said(self):
        return "%d boxes, %d with a size keyword: %d of these by the published Rust, %d by a second implementation, where request #106 doesn't compare with the Rust" % (
            self.boxes, self.keyword(), self.found['rust'], self.found['second'])

    def hold(self, name, wanted):
        """says all counts, and fails where too few are by the Rust or a wanted kind is missing"""
        print('%s: %s' % (name, self.said()))
        for kind in sorted(k for k in self.found if isinstance(k, tuple)): print('    %s: %d' % (', '.join(kind), self.found[kind]))
        missing = sorted(k for k in wanted if not self.found[k])
        if missing: sys.exit('%s: none with %s' % (name, missing))
        if self.found['rust'] < LEAST * self.keyword(): sys.exit('%s: fewer than %s of the boxes with a size keyword are by the Rust' % (name, LEAST))


def boxes(oracle, profile, seed, wanted):
    """Laid-out boxes of cases with one item and one candidate: area, style, candidate, the answer's lines, kinds."""
    here = __file__.rsplit('/', 1)[0]
    text = run([sys.executable, here + '/directed.py', str(seed), str(4 * wanted)] if profile == 'directed' else [oracle, 'gen', profile, str(seed), str(60 * wanted)])
    cases = [c for c in cut(text) if len(of(c, 'style')) == len(of(c, 'cand')) == 1]
    found = []
    for case, (by, out, same) in zip(cases, answered(oracle, cases)):
        if of(out, 'layout'):
            found.append((*(words(of(case, k)[0]) for k in ('area', 'style', 'cand')), out, *placed(case, by, out, same)))
    return list(chosen(found, wanted, lambda f: f[-1]))
