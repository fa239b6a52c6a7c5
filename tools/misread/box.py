"""One box and its contribution on exact numbers: the definition, the laws of it, and misreadings of it.

`Box` is document 01's seven steps (step 4 as request #106 has it), written apart from the repository's definitions and over `axis.Axis`; `LAWS` are the laws of
crates/oof_box_laws/specs (Resolved.antt, Laws.antt, Keywords.antt) and the size law of crates/oof_box/specs/Theorems.antt, and `ROWS` document 01's rows 10 to 13 and those
of #106, computed in crates/test_oof_box_rows. A law gives None where it says nothing of an input, else True or False. `MISREADINGS` change one method each.
tools/misread/run says which law or row refuses which."""
import functools
import random
from fractions import Fraction as F
from axis import NAN, Axis, Input, larger, twice_anchor, zero

def smaller(a, b): return b if a != a else a if b != b else min(a, b)
def at_most(x, high): return x if high is None else smaller(x, high)
def at_least(x, low): return x if low is None else larger(x, low)
def once(f):
    """A method that is worked out once for an input."""
    name = f.__name__
    @functools.wraps(f)
    def found(s, b, *more):
        key = (name, id(b), *more)
        if key not in s.memo: s.memo[key] = f(s, b, *more), b
        return s.memo[key][0]
    return found

def is_keyword(l): return l is not None and l[0] not in ('px', '%')
def has_keyword(b, y): return is_keyword(b.size[y])

ZEROS = (0, 0, 0, 0)
SIDES = LEFT, RIGHT, TOP, BOTTOM = range(4)


class Box:
    """An input `b` has the block (area, offset, rtl, over: its overflow; pairs by axis where two), the style (inset, margin, padding, border:
    four lengths each, a length being None, ('px', x) or ('%', x); size, min, max: pairs of such or of keywords, ('min',), ('max',), ('fit',),
    ('fitpx', x), ('fit%', x) or ('stretch',); ratio, content, replaced, table, own_rtl, align: per axis a keyword and a safety; overflow: per
    axis; bar; contain: layout and paint), the static position (static, key, psf per axis) and the replies (replied: to step 4's question,
    measured: to step 6's, own). The outcome has the questions in turn: what is asked for (both, width, height, lay out), the known sizes (of
    lay out its size) and the spaces, a number being a definite one."""
    axis = Axis()
    def __init__(s): s.memo = {}

    # step 1
    def resolve(s, l, basis): return None if l is None else l[1] if l[0] == 'px' else s.percent(l[1], basis) if l[0] == '%' else None
    def percent(s, x, basis): return F(x * basis, 100)
    def basis(s, b, field, side):
        return b.area[1] if field == 'inset' and side in (TOP, BOTTOM) else b.area[0]
    @once
    def sides(s, b, field): return [s.resolve(getattr(b, field)[i], s.basis(b, field, i)) for i in SIDES]
    def static(s, b, y): return tuple(x - b.offset[y] for x in b.static[y])
    def extent(s, b, y): return b.area[y]
    def word(s, b, y): return b.align[y]
    def flips(s, b, y): return not y and b.own_rtl != b.rtl
    def keyword(s, k, flips):
        own = {'SelfStart': ('Start', 'End')[flips], 'SelfEnd': ('End', 'Start')[flips]}
        return {'FlexStart': 'Start', 'FlexEnd': 'End', 'Baseline': 'Start', **own}.get(k, k)
    def safety(s, b, y): return s.word(b, y)[1]
    def inline(s, y): return not y
    def reversed(s, b, y): return not y and b.rtl
    def scroll_value(s, o): return o in ('hidden', 'scroll')
    def axis_scrolls(s, b, y): return s.scroll_value(b.over[y])
    @once
    def axis_of(s, b, y):
        inset, margin = s.sides(b, 'inset'), s.sides(b, 'margin')
        return Input(size=s.extent(b, y), inset=tuple(inset[2 * y:2 * y + 2]), margin=tuple(margin[2 * y:2 * y + 2]), area=s.static(b, y), key=b.key[y],
            psf=b.psf[y], al=s.keyword(s.word(b, y)[0], s.flips(b, y)), sf=s.safety(b, y), inline=s.inline(y), rev=s.reversed(b, y), scr=s.axis_scrolls(b, y))
    @once
    def edges(s, b):
        p, q = s.sides(b, 'padding'), s.sides(b, 'border')
        return [p[2 * y] + q[2 * y] + p[2 * y + 1] + q[2 * y + 1] for y in (0, 1)]
    # step 2
    def ratio(s, b, z):
        if b.ratio is None or (z[0] is None) == (z[1] is None): return z
        return [z[0], F(z[0]) / b.ratio] if z[1] is None else [z[1] * b.ratio, z[1]]
    def size_basis(s, b, y): return b.area[y]
    def added(s, b, y): return s.edges(b)[y] if b.content else 0
    @once
    def style_size(s, b, field):
        z = s.ratio(b, [s.resolve(getattr(b, field)[y], s.size_basis(b, y)) for y in (0, 1)])
        return [None if z[y] is None else z[y] + s.added(b, y) for y in (0, 1)]
    def floor(s, m, e): return e if m is None else larger(m, e)
    @once
    def min(s, b): return [s.floor(m, e) for m, e in zip(s.style_size(b, 'min'), s.edges(b))]
    @once
    def max(s, b): return s.style_size(b, 'max')
    def clamp(s, x, low, high): return at_least(at_most(x, high), low)
    def clamped(s, b, z): return [None if z[y] is None else s.clamp(z[y], s.min(b)[y], s.max(b)[y]) for y in (0, 1)]
    @once
    def size(s, b): return s.clamped(b, s.style_size(b, 'size'))
    @once
    def fit(s, b, y): return s.axis.stretch_fit(s.axis_of(b, y))
    # step 3
    def room(s, b, y):
        a = s.axis_of(b, y)
        return min(s.fit(b, y), max(b.area[y] - zero(a.margin[0]) - zero(a.margin[1]), 0)) if b.table else s.fit(b, y)
    def space(s, b): return [s.clamp(s.room(b, y), s.min(b)[y], s.max(b)[y]) for y in (0, 1)]
    # step 4
    def block(s, b, y): return s.axis.block(s.axis_of(b, y))
    def taken(s, b, y): return sum(zero(m) for m in s.axis_of(b, y).margin)
    @once
    def keyword_room(s, b, y):
        l = s.block(b, y)
        return larger(l[1] - l[0] - s.taken(b, y), 0)
    def exact(s, b, l): return l == ('stretch',)
    def content(s, l): return l[0]
    def fit_content(s, b, y): return s.keyword_room(b, y)
    def fit_limit(s, b, y): l = b.size[y]; return l[1] if l[0] == 'fitpx' else s.percent(l[1], b.area[y])
    def keyword_space(s, b, y):
        l = b.size[y]
        return s.content(l) if l[0] in ('min', 'max') else s.fit_limit(b, y) if l[0] in ('fitpx', 'fit%') else s.fit_content(b, y)
    def absent(s, b, y): return s.size(b)[y] is None
    def at_once(s, b): return True
    def in_turn(s, words): return words
    def known_across(s, b, y, known): return list(known)
    def room_across(s, b, y): return s.keyword_room(b, 1 - y)
    def space_across(s, b, y, known): return known[0] if y and known[0] is not None else s.room_across(b, y)
    def settled(s, b, z): return s.clamped(b, s.ratio(b, z))
    @once
    def keyed(s, b):
        """What is known then, and what is asked for it."""
        words = [y for y in (0, 1) if has_keyword(b, y) and s.absent(b, y)]
        asks = [y for y in words if not s.exact(b, b.size[y])]
        if not words: return s.size(b), []
        if len(asks) == 2 and s.at_once(b): return s.settled(b, list(b.replied)), [('both', [None, None], [s.keyword_space(b, y) for y in (0, 1)])]
        known, asked = list(s.size(b)), []
        for y in s.in_turn(words):
            if y in asks:
                told = s.known_across(b, y, known)
                spaces = [s.keyword_space(b, y), s.space_across(b, y, told)]
                asked.append((('width', 'height')[y], told, spaces[::-1] if y else spaces))
            known[y] = b.replied[y] if y in asks else s.keyword_room(b, y)
        return s.settled(b, known), asked
    # step 5
    def left(s, b): return s.keyed(b)[0]
    def stretchable(s, b): return not b.replaced and not b.table
    def stretching(s, b, y): return s.axis.stretches(s.axis_of(b, y), s.stretchable(b))
    def table_stretches(s, b): return False
    def stretch_size(s, b, y): return s.fit(b, y)
    def table_min(s, b, y, low): return larger(low, s.fit(b, y))
    @once
    def stretched(s, b):
        """What is known, and the min that counts."""
        known, low = s.left(b), list(s.min(b))
        want = [known[y] is None and s.stretching(b, y) for y in (0, 1)]
        if b.table and not s.table_stretches(b):
            return known, [s.table_min(b, y, low[y]) if want[y] else low[y] for y in (0, 1)]
        both = all(want) and all(s.axis_of(b, y).al == 'Stretch' for y in (0, 1))
        ratio = (lambda z: z) if both else (lambda z: s.ratio(b, z))
        if want[0]: known = s.stretch_clamp(b, ratio([s.stretch_size(b, 0), known[1]]))
        if want[1] and known[1] is None: known = s.stretch_clamp(b, ratio([known[0], s.stretch_size(b, 1)]))
        return known, low
    def stretch_clamp(s, b, z): return s.clamped(b, z)
    # step 6
    def asks(s, b, known): return None in known
    def fill(s, b, known, y): return b.measured[y] if known[y] is None else known[y]
    @once
    def final(s, b):
        known, low = s.stretched(b)
        asked = s.asks(b, known)
        return [s.clamp(s.fill(b, known, y) if asked else zero(known[y]), low[y], s.max(b)[y]) for y in (0, 1)], asked
    def told(s, b, known): return known
    def asked_in(s, b): return s.space(b)
    def filling(s, b): return 'both', s.told(b, s.stretched(b)[0]), s.asked_in(b)
    def laid_in(s, b): return s.space(b)
    def laid(s, b, z): return z
    # step 7
    def gutters(s, b): return [b.bar if b.overflow[1 - y] == 'scroll' else 0 for y in (0, 1)]
    def kept(s, b): return b.own
    def framed(s, b): return s.sides(b, 'padding'), s.sides(b, 'border')
    def location(s, b, y, p): return p + b.offset[y]
    def margin_of(s, b, y, m): return m
    def sized(s, z, y): return z[y]
    def origin(s, b, at, z):
        x = at[0] - b.offset[0]
        return [b.area[0] - x - z[0] if b.rtl else x, at[1] - b.offset[1]]
    def scroller(s, b): return any(s.scroll_value(o) for o in b.overflow)
    def contained(s, b): return any(b.contain)
    def shows(s, b, y): return b.overflow[y] == 'visible' and not s.scroller(b) and not s.contained(b)
    def own(s, b, y): return b.own[2 * y:2 * y + 2]
    def reach(s, b, z, y):
        o = s.own(b, y)
        return (min(0, o[0]), max(z[y], o[1])) if s.shows(b, y) else (0, z[y])
    def nothing(s, l, m): return l[1] <= 0 or m[1] <= 0
    def scrolls(s, b): return any(s.scroll_value(o) for o in b.over)
    def before(s, right, bottom): return right <= 0 or bottom <= 0
    def contribution(s, b, at, z):
        l, m = s.reach(b, z, 0), s.reach(b, z, 1)
        o = s.origin(b, at, z)
        r = (o[0] + l[0], o[0] + l[1], o[1] + m[0], o[1] + m[1])
        if s.nothing(l, m): return ZEROS
        return ZEROS if s.scrolls(b) and s.before(r[1], r[3]) else r
    @once
    def placed(s, b):
        z, asked = s.final(b)
        p = [s.axis.placement(s.axis_of(b, y), s.sized(z, y)) for y in (0, 1)]
        at = [s.location(b, y, p[y][0]) for y in (0, 1)]
        margin = [s.margin_of(b, y, p[y][1]) for y in (0, 1)]
        questions = s.keyed(b)[1] + [s.filling(b)] * asked + [('lay out', z, s.laid_in(b))]
        return Input(size=s.laid(b, z), questions=questions, at=at, margin=margin, own=s.kept(b), gutters=s.gutters(b),
            framed=s.framed(b), contribution=s.contribution(b, at, z))


# ---- the laws, by the outcome and by what step 2 resolved

# the smaller of x and high, then the larger of that and low
def bounded(x, low, high): return max(x if high is None else min(x, high), low)

# pixels are themselves, percentages are of the basis; auto and a keyword come to nothing
def comes(l, basis): return None if l is None or l[0] not in ('px', '%') else l[1] if l[0] == 'px' else F(l[1] * basis, 100)
# auto, or a keyword
def no_length(l): return l is None or is_keyword(l)
def is_scroller(overflow): return any(o in ('hidden', 'scroll') for o in overflow)

def axes_of_the_block(D, b):
    def holds(y):
        a = D.axis_of(b, y)
        return (a.size == b.area[y] and a.inline == (y == 0) and a.rev == (y == 0 and b.rtl) and a.scr == (b.over[y] in ('hidden', 'scroll')) and a.key == b.key[y]
            and a.psf == b.psf[y] and a.area == tuple(x - b.offset[y] for x in b.static[y]))
    return holds(0) and holds(1)
def auto_sides_are_none(D, b): return all(l is not None or D.sides(b, f)[i] is None for f in ('inset', 'margin') for i, l in enumerate(getattr(b, f)))
def alignment_of_the_style(D, b):
    def says(k, start, end):
        return {'Normal': 'Normal', 'Stretch': 'Stretch', 'Center': 'Center', 'Start': 'Start', 'End': 'End', 'FlexStart': 'Start', 'FlexEnd': 'End', 'Baseline': 'Start',
            'SelfStart': start, 'SelfEnd': end}[k]
    along = b.own_rtl == b.rtl
    x, y = D.axis_of(b, 0), D.axis_of(b, 1)
    return (x.al == (says(b.align[0][0], 'Start', 'End') if along else says(b.align[0][0], 'End', 'Start')) and y.al == says(b.align[1][0], 'Start', 'End')
        and (x.sf, y.sf) == (b.align[0][1], b.align[1][1]))
# a side of size, min and max, from what it comes to
def completes(D, b, y, value, fields=('size', 'min', 'max')):
    """Holds of each field whose side y comes to a value: `value` gives it by the field, or None."""
    e, low, high = D.edges(b)[y], D.min(b)[y], D.max(b)[y]
    add = e if b.content else 0
    found = {'size': D.size(b)[y], 'min': low, 'max': high}
    want = {'size': lambda x: bounded(x + add, low, high), 'min': lambda x: max(x + add, e), 'max': lambda x: x + add}
    said = [(f, value(getattr(b, f))) for f in fields]
    said = [found[f] == want[f](x) for f, x in said if x is not None]
    return all(said) if said else None
def both(found): said = [f for f in found if f is not None]; return all(said) if said else None
def sizes_of_its_box(D, b): return both(completes(D, b, y, lambda z: comes(z[y], b.area[y])) for y in (0, 1))
def ratio_completes(D, b):
    if b.ratio is None: return None
    def lone(y):
        def value(z):
            x = comes(z[1 - y], b.area[1 - y])
            return None if not no_length(z[y]) or x is None else F(x) / b.ratio if y else x * b.ratio
        return value
    return both(completes(D, b, y, lone(y)) for y in (0, 1))
def auto_is_no_size(D, b):
    def none(z, y): return z[y] is None and (b.ratio is None or z[1 - y] is None)
    said = [D.size(b)[y] is None for y in (0, 1) if none(b.size, y)] + [D.max(b)[y] is None for y in (0, 1) if none(b.max, y)]
    said += [D.min(b)[y] == D.edges(b)[y] for y in (0, 1) if none(b.min, y)]
    return all(said) if said else None
def plain(b): return b.ratio is None and not has_keyword(b, 0) and not has_keyword(b, 1)
ALONE = 'width', 'height'
@once
def space_of(D, b):
    def room(y):
        a = D.axis_of(b, y)
        fit = Axis().stretch_fit(a)
        return min(fit, max(a.size - zero(a.margin[0]) - zero(a.margin[1]), 0)) if b.table else fit
    return [bounded(room(y), D.min(b)[y], D.max(b)[y]) for y in (0, 1)]
def space_is_the_block(D, b):
    want = space_of(D, b)
    return all(space == want for kind, known, space in D.placed(b).questions if kind == 'lay out' or plain(b))
# x is told with each question, and never asked for alone
def is_told(D, b, y, x, after=0): return all(known[y] == x and kind != ALONE[y] for kind, known, space in D.placed(b).questions[after:])
def given_size_is_told(D, b):
    given = [y for y in (0, 1) if D.size(b)[y] is not None]
    return all(is_told(D, b, y, D.size(b)[y]) for y in given) if given else None
# a question for side y alone, by its keyword, the other side not being known
def by_its_keyword(b, y, q): kind, known, space = q; return kind == ALONE[y] and has_keyword(b, y) and known[1 - y] is None
def stretched_size_is_told(D, b):
    says = stretched_sides(D, b)
    def told(y, x, q): kind, known, space = q; return known[y] == x and kind != ALONE[y] or by_its_keyword(b, 1 - y, q)
    fit = [bounded(Axis().stretch_fit(D.axis_of(b, y)), D.min(b)[y], D.max(b)[y]) for y in (0, 1)]
    return all(told(y, fit[y], q) for y in says for q in D.placed(b).questions) if says else None
def layout_is_the_reply(D, b):
    p = D.placed(b)
    return p.questions[-1][:2] == ('lay out', p.size) and p.own == b.own
def gutters_and_edges(D, b):
    p = D.placed(b)
    return p.gutters == [b.bar if b.overflow[1] == 'scroll' else 0, b.bar if b.overflow[0] == 'scroll' else 0] and p.framed == (D.sides(b, 'padding'), D.sides(b, 'border'))
def contribution_is_the_union(D, b):
    p = D.placed(b)
    hidden = any(b.contain) or is_scroller(b.overflow)
    reach = [(0, p.size[y]) if hidden or b.overflow[y] != 'visible' else (min(0, b.own[2 * y]), max(p.size[y], b.own[2 * y + 1])) for y in (0, 1)]
    o = from_start(b, p)
    union = (o[0] + reach[0][0], o[0] + reach[0][1], o[1] + reach[1][0], o[1] + reach[1][1])
    zeros = min(reach[0][1], reach[1][1]) <= 0 or is_scroller(b.over) and min(union[1], union[3]) <= 0
    return p.contribution == (ZEROS if zeros else union)
def min_holds(D, b): z = D.placed(b).size; return all(D.min(b)[y] <= z[y] for y in (0, 1))
def max_holds(D, b):
    z, low, high = D.placed(b).size, D.min(b), D.max(b)
    says = [y for y in (0, 1) if high[y] is not None and low[y] <= high[y] and not (b.table and D.size(b)[y] is None and Axis().stretches(D.axis_of(b, y), False) and high[y] < Axis().stretch_fit(D.axis_of(b, y)))]
    return all(z[y] <= high[y] for y in says) if says else None
def given_size_stays(D, b):
    given = [y for y in (0, 1) if D.size(b)[y] is not None]
    return all(D.placed(b).size[y] == D.size(b)[y] for y in given) if given else None
# sides that are auto and stretch, also beside a side with a keyword
def stretched_sides(D, b): return [y for y in (0, 1) if b.ratio is None and not b.table and b.size[y] is None and stretches(D, b, y)]
# auto sides where there is no ratio, also beside a side with a keyword
def auto(b, table): return [y for y in (0, 1) if b.ratio is None and b.table == table and b.size[y] is None]
# after questions by the other side's keyword, if any, both sizes are asked for, side y not being known; then nothing is measured
def measures(D, b, y):
    questions = list(D.placed(b).questions)
    while by_its_keyword(b, 1 - y, questions[0]): del questions[0]
    kind, known, space = questions[0]
    return kind == 'both' and known[y] is None and only_lay_out(questions[1:])
def stretches(D, b, y): return Axis().stretches(D.axis_of(b, y), not b.replaced and not b.table)
def stretch_fills(D, b):
    says = stretched_sides(D, b)
    return all(D.placed(b).size[y] == bounded(Axis().stretch_fit(D.axis_of(b, y)), D.min(b)[y], D.max(b)[y]) for y in says) if says else None
def measured_is_the_reply(D, b):
    says, p = [y for y in auto(b, False) if not stretches(D, b, y)], D.placed(b)
    return all(measures(D, b, y) and p.size[y] == bounded(b.measured[y], D.min(b)[y], D.max(b)[y]) for y in says) if says else None
def table_is_measured(D, b):
    says, p = auto(b, True), D.placed(b)
    def low(y): return max(D.min(b)[y], Axis().stretch_fit(D.axis_of(b, y))) if Axis().stretches(D.axis_of(b, y), False) else D.min(b)[y]
    return all(measures(D, b, y) and p.size[y] == bounded(b.measured[y], low(y), D.max(b)[y]) for y in says) if says else None
def percentages_of_the_width(D, b):
    return all(l is None or D.sides(b, f)[i] == comes(l, b.area[0]) for f in ('margin', 'padding', 'border') for i, l in enumerate(getattr(b, f)))
def insets_of_their_axis(D, b):
    return all(l is None or D.sides(b, 'inset')[i] == comes(l, b.area[i // 2]) for i, l in enumerate(b.inset))
def stands_by_its_axes(D, b):
    p = D.placed(b)
    q = [D.axis.placement(D.axis_of(b, y), p.size[y]) for y in (0, 1)]
    return all(p.at[y] == q[y][0] + b.offset[y] and p.margin[y] == q[y][1] for y in (0, 1))
def stretched_box_fills_its_block(D, b):
    def free(y):
        fit, low, high = Axis().stretch_fit(D.axis_of(b, y)), D.min(b)[y], D.max(b)[y]
        return fit > 0 and not fit < low and (high is None or not high < fit)
    def is_the_block(y):
        at, l = p.at[y] - b.offset[y], Axis().block(D.axis_of(b, y))
        return at == l[0] + p.margin[y][0] and at + p.size[y] + p.margin[y][1] == l[1]
    says, p = [y for y in stretched_sides(D, b) if free(y)], D.placed(b)
    return all(is_the_block(y) for y in says) if says else None
def offset_moves_alone(D, b):
    d = (13, -7)
    c = b.but(offset=tuple(b.offset[y] + d[y] for y in (0, 1)), static=tuple(tuple(x + d[y] for x in b.static[y]) for y in (0, 1)))
    p, q = D.placed(b), D.placed(c)
    return q.at == [p.at[y] + d[y] for y in (0, 1)] and (q.size, q.questions, q.margin, q.contribution) == (p.size, p.questions, p.margin, p.contribution)
def scrolling_contribution_is_reachable(D, b):
    if not is_scroller(b.over): return None
    r = D.placed(b).contribution
    return r == ZEROS or r[1] > 0 and r[3] > 0
# the box's start edges, from the area's start edges
def from_start(b, p): x = p.at[0] - b.offset[0]; return [b.area[0] - x - p.size[0] if b.rtl else x, p.at[1] - b.offset[1]]
def holds(b, p, y, lo, hi): o = from_start(b, p)[y]; r = p.contribution[2 * y:2 * y + 2]; return r[0] <= o + lo and o + hi <= r[1]
def contribution_holds_the_box(D, b):
    p = D.placed(b)
    return p.contribution == ZEROS or all(holds(b, p, y, 0, p.size[y]) for y in (0, 1))
def contribution_holds_its_overflow(D, b):
    if any(b.contain) or is_scroller(b.overflow): return None
    p = D.placed(b)
    return p.contribution == ZEROS or all(b.overflow[y] != 'visible' or holds(b, p, y, *b.own[2 * y:2 * y + 2]) for y in (0, 1))
def contribution_counts(D, b):
    p = D.placed(b)
    if min(p.size) <= 0 or is_scroller(b.over) and any(o + z <= 0 for o, z in zip(from_start(b, p), p.size)): return None
    return all(holds(b, p, y, 0, p.size[y]) for y in (0, 1))
def contribution_holds_no_more(D, b):
    p = D.placed(b)
    if any(b.own[2 * y] < 0 or b.own[2 * y + 1] > p.size[y] for y in (0, 1)): return None
    return p.contribution == ZEROS or all(p.contribution[2 * y] + p.size[y] == p.contribution[2 * y + 1] for y in (0, 1))
def clipped_overflow_is_not_counted(D, b):
    hidden = any(b.contain) or is_scroller(b.overflow)
    clipped = [hidden or b.overflow[y] != 'visible' for y in (0, 1)]
    if not any(clipped): return None
    c = b.but(own=tuple(0 if clipped[i // 2] else x for i, x in enumerate(b.own)))
    return D.placed(b).contribution == D.placed(c).contribution
# ---- of size keywords

# the keyword room: the block less the margins that aren't auto, at least 0
@once
def room_of(D, b, y):
    a = D.axis_of(b, y)
    l = Axis().block(a)
    return max(l[1] - l[0] - zero(a.margin[0]) - zero(a.margin[1]), 0)
# step 2 doesn't have the side, and its keyword is measured, or it is stretch
def is_measured(D, b, y): return has_keyword(b, y) and b.size[y] != ('stretch',) and D.size(b)[y] is None
def is_stretch(D, b, y): return b.size[y] == ('stretch',) and D.size(b)[y] is None
# the space in which a keyword is measured
def space_by(D, b, y):
    l = b.size[y]
    return room_of(D, b, y) if l[0] == 'fit' else l[1] if l[0] == 'fitpx' else F(l[1] * b.area[y], 100) if l[0] == 'fit%' else l[0]
def keyword_is_no_size(D, b):
    both = all(no_length(l) for l in b.size)
    says = [y for y in (0, 1) if both or b.ratio is None and has_keyword(b, y)]
    return all(D.size(b)[y] is None for y in says) if says else None
def keyword_is_no_limit(D, b):
    said = [D.max(b)[y] is None for y in (0, 1) if b.ratio is None and is_keyword(b.max[y]) or all(no_length(l) for l in b.max)]
    said += [D.min(b)[y] == D.edges(b)[y] for y in (0, 1) if b.ratio is None and is_keyword(b.min[y]) or all(no_length(l) for l in b.min)]
    return all(said) if said else None
def stretch_keyword_fills(D, b):
    says = [y for y in (0, 1) if is_stretch(D, b, y)]
    return all(D.placed(b).size[y] == bounded(room_of(D, b, y), D.min(b)[y], D.max(b)[y]) for y in says) if says else None
# clamped, it is told with each question for both sizes and with lay out; before the clamp, a height alone is asked for with the stretch width,
# a width alone with no height
def stretch_keyword_is_told(D, b):
    says = [y for y in (0, 1) if is_stretch(D, b, y)]
    def told(y, kind, known):
        if kind == ALONE[y]: return False
        return known == (bounded(room_of(D, b, y), D.min(b)[y], D.max(b)[y]) if kind in ('both', 'lay out') else None if y else room_of(D, b, y))
    return all(told(y, kind, known[y]) for y in says for kind, known, space in D.placed(b).questions) if says else None
# the dialogue opens with the question, and these sides are its reply, clamped
def opens_with(D, b, question, sides):
    p = D.placed(b)
    return p.questions[0] == question and all(p.size[y] == reply_of(D, b, y) for y in sides)
def reply_of(D, b, y): return bounded(b.replied[y], D.min(b)[y], D.max(b)[y])
def only_lay_out(questions): return all(q[0] == 'lay out' for q in questions)
def both_sides_are_measured(D, b):
    if not is_measured(D, b, 0) or not is_measured(D, b, 1): return None
    return opens_with(D, b, ('both', [None, None], [space_by(D, b, y) for y in (0, 1)]), (0, 1)) and only_lay_out(D.placed(b).questions[1:])
def asked_for_the_width(D, b): return 'width', D.size(b), [space_by(D, b, 0), room_of(D, b, 1)]
def width_is_measured(D, b):
    if not is_measured(D, b, 0) or is_measured(D, b, 1): return None
    return opens_with(D, b, asked_for_the_width(D, b), (0,)) and is_told(D, b, 0, reply_of(D, b, 0), 1)
def height_is_measured(D, b):
    if not is_measured(D, b, 1) or is_measured(D, b, 0): return None
    width = room_of(D, b, 0) if is_stretch(D, b, 0) else D.size(b)[0]
    return opens_with(D, b, ('height', [width, None], [room_of(D, b, 0) if width is None else width, space_by(D, b, 1)]), (1,)) and is_told(D, b, 1, reply_of(D, b, 1), 1)
# an auto side by the other one, as its keyword gives it before the clamp; nothing else is measured
def ratio_completes_a_keyword(D, b):
    if b.ratio is None or D.size(b) != [None, None] or has_keyword(b, 0) == has_keyword(b, 1): return None
    p, y = D.placed(b), 0 if has_keyword(b, 1) else 1
    def is_by(x): return p.size[y] == bounded(F(x) / b.ratio if y else x * b.ratio, D.min(b)[y], D.max(b)[y])
    if is_stretch(D, b, 1 - y): return is_by(room_of(D, b, 1 - y)) and only_lay_out(p.questions)
    asked = asked_for_the_width(D, b) if y else ('height', [None, None], [room_of(D, b, 0), space_by(D, b, 1)])
    return p.questions[0] == asked and only_lay_out(p.questions[1:]) and is_by(b.replied[1 - y])
def filled_in_the_space(D, b):
    if is_measured(D, b, 0) and is_measured(D, b, 1): return None
    want = space_of(D, b)
    return all(space == want for kind, known, space in D.placed(b).questions if kind == 'both')
# neither side is left to step 6
def nothing_is_left_to_fill(D, b):
    filled = all(D.size(b)[y] is not None or has_keyword(b, y) or y in stretched_sides(D, b) for y in (0, 1))
    if not filled or is_measured(D, b, 0) and is_measured(D, b, 1): return None
    return all(q[0] != 'both' for q in D.placed(b).questions)
# the block and the keyword room are above 0, and the room is no smaller than min
def has_room(D, b, y):
    l, x = Axis().block(D.axis_of(b, y)), room_of(D, b, y)
    return is_stretch(D, b, y) and l[0] < l[1] and x > 0 and not x < D.min(b)[y]
# nor larger than max
def room_is_free(D, b, y): return has_room(D, b, y) and (D.max(b)[y] is None or not D.max(b)[y] < room_of(D, b, y))
# the margin box, counted from the area's edge
def margin_box(b, p, y): at = p.at[y] - b.offset[y]; return at - p.margin[y][0], at + p.size[y] + p.margin[y][1]
def stretch_keyword_is_its_block(D, b):
    says = [y for y in (0, 1) if room_is_free(D, b, y)]
    return all(margin_box(b, D.placed(b), y) == Axis().block(D.axis_of(b, y)) for y in says) if says else None
def anchor_inside(a): return a.inset == (None, None) and 0 <= twice_anchor(a) <= 2 * a.size
def stretch_keyword_stays_in_the_area(D, b):
    says = [y for y in (0, 1) if has_room(D, b, y) and anchor_inside(D.axis_of(b, y))]
    def inside(l, size): return 0 <= l[0] and l[1] <= size
    return all(inside(margin_box(b, D.placed(b), y), b.area[y]) for y in says) if says else None
# both insets of each axis given and not crossing; insets and margins in pixels
def compared(b):
    def pixels(l): return l is not None and l[0] == 'px'
    if not all(pixels(l) for l in b.inset) or not all(l is None or pixels(l) for l in b.margin): return False
    return all(not b.area[y] - b.inset[2 * y + 1][1] < b.inset[2 * y][1] for y in (0, 1))
def stretch_as_the_rust(D, b):
    def rust(a): return max(a.size - sum(zero(x) for x in a.inset) - sum(zero(m) for m in a.margin), 0)
    return all(D.keyword_room(b, y) == rust(D.axis_of(b, y)) for y in (0, 1)) if compared(b) else None
def size_law(D, b): z = D.placed(b).size; return all(z[y] == z[y] and D.edges(b)[y] <= z[y] for y in (0, 1))

def named(fs): return {''.join(w.capitalize() for w in f.__name__.split('_')): f for f in fs}

LAWS = named((sizes_of_its_box, min_holds, max_holds, given_size_stays, stretch_fills, measured_is_the_reply, table_is_measured,
    percentages_of_the_width, insets_of_their_axis, stands_by_its_axes, offset_moves_alone, scrolling_contribution_is_reachable,
    contribution_holds_the_box, contribution_holds_its_overflow, contribution_counts, contribution_holds_no_more, clipped_overflow_is_not_counted,
    size_law, axes_of_the_block, auto_sides_are_none, alignment_of_the_style, auto_is_no_size, ratio_completes, space_is_the_block, given_size_is_told,
    stretched_size_is_told, layout_is_the_reply, gutters_and_edges, contribution_is_the_union, stretched_box_fills_its_block, keyword_is_no_size,
    stretch_keyword_fills, both_sides_are_measured, width_is_measured, height_is_measured, filled_in_the_space, nothing_is_left_to_fill, stretch_keyword_is_its_block,
    stretch_keyword_stays_in_the_area, stretch_as_the_rust, keyword_is_no_limit, stretch_keyword_is_told, ratio_completes_a_keyword))

# ---- document 01's rows; then those of request #106, but for the ones that tell how a number is rounded

PLAIN = Input(area=(100, 100), offset=(0, 0), rtl=False, over=('visible', 'visible'), own_rtl=False, bar=0, inset=(None,) * 4, margin=(('px', 0),) * 4, padding=(('px', 0),) * 4,
    border=(('px', 0),) * 4, size=(None, ('px', 10)), min=(None, None), max=(None, None), ratio=None, content=False, replaced=False, table=False,
    align=(('Normal', 'Default'),) * 2, overflow=('visible', 'visible'), contain=(False, False), static=((0, 0), (0, 0)), key=('Start', 'Start'),
    psf=('Default', 'Default'), replied=(0, 0), measured=(0, 0), own=ZEROS)
def row_10(D): return D.placed(PLAIN.but(size=(('px', 30), ('px', 10)), min=(('px', 50), None), max=(('px', 20), None))).size[0] == 50
def row_11(D):
    b = PLAIN.but(min=(('px', NAN), None), padding=(('px', 12),) + (('px', 0),) * 3)
    return D.min(b)[0] == 12 and D.placed(b).size[0] == 12 and D.placed(b.but(size=(('px', 5), ('px', 10)))).size[0] == 12
def row_12(D):
    b = PLAIN.but(size=(('px', 0), ('px', 10)))
    c = PLAIN.but(size=(('px', 10), ('px', 0)))
    return (D.placed(b).contribution == ZEROS and D.placed(b.but(own=(0, 5, 0, 0))).contribution == (0, 5, 0, 10)
        and D.placed(c).contribution == ZEROS and D.placed(c.but(own=(0, 0, 0, 5))).contribution == (0, 10, 0, 5))
def row_13(D):
    b = PLAIN.but(size=(('px', 40), ('px', 10)), over=('scroll', 'scroll'))
    found = lambda i, x, rtl, own=ZEROS: D.placed(b.but(inset=tuple(('px', x) if i == j else None for j in SIDES), rtl=rtl, own=own)).contribution
    return found(LEFT, -40, False, (0, 50, 0, 0)) == (-40, 10, 0, 10) and all(found(i, -40, rtl) == ZEROS and found(i, -39, rtl) == (-39, 1, 0, 10) for i, rtl in ((LEFT, False), (RIGHT, True)))
def label(left, right, margin, size, **more):
    return PLAIN.but(inset=tuple(x if x is None else ('px', x) for x in (left, right, None, None)), margin=(('px', margin),) * 2 + (('px', 0),) * 2, size=size, **more)
STRETCH = ('stretch',), ('px', 10)
def rows_of_stretch(D):
    def anchored(size, x=40, y=0, **more): return D.placed(PLAIN.but(size=size, static=((x, x), (y, y)), **more))
    def wide_from(x, edge, w): return all(anchored(STRETCH, x, key=(edge, 'Start'), rtl=rtl).size[0] == w for rtl in (False, True))
    def wide_across(edge, w): return D.placed(PLAIN.but(size=STRETCH, offset=(16, 0), static=((36, 86), (0, 0)), key=(edge, 'Start'))).size[0] == w
    def wide_in(left, right, margin, w): return all(D.placed(label(left, right, margin, STRETCH, rtl=rtl)).size[0] == w for rtl in (False, True))
    def asks_in(kind, spaces, *size, y=30, **more): q = anchored(size, 40, y, **more).questions[0]; return (q[0], q[2]) == (kind, spaces)
    def knows(y, x, *size): q = anchored(size, 40, 30).questions[0]; return q[0] in ('both', ALONE[1 - y]) and q[1][y] == x
    def comes_to(w, h, *size): return anchored(size, 40, 30, replied=(25, 25), measured=(25, 25)).size == [w, h]
    return (all(wide_from(*row) for row in ((40, 'Start', 60), (70, 'End', 70), (30, 'Center', 60), (70, 'Center', 60), (50, 'Center', 100), (120, 'Start', 0),
            (120, 'Center', 0)))
        and all(anchored(STRETCH, 30, area=(w, 100), key=('Center', 'Start'), rtl=rtl).size[0] == 60 for w, rtl in ((0, False), (0, True), (-100, False)))
        and D.placed(PLAIN.but(size=STRETCH, offset=(16, 0))).size[0] == 116
        and all(wide_across(*row) for row in (('Start', 80), ('End', 70), ('Center', 90)))
        and all(D.placed(PLAIN.but(size=STRETCH, offset=(16, 0), key=(edge, 'Start'))).size[0] == 0 for edge in ('End', 'Center'))
        and anchored(STRETCH).at == [40, 0]
        and all(wide_in(*row) for row in ((30, None, 0, 70), (None, 30, 0, 70), (10, 20, 5, 60), (60, 40, 0, 0), (-50, -50, 0, 200), (NAN, None, 0, 0),
            (60, 60, -30, 60), (120, None, -30, 60), (None, 120, -30, 60), (30, None, 40, 0)))
        and all(D.placed(label(inset, inset, margin, STRETCH, area=(-100, 100))).size[0] == w for inset, margin, w in ((0, -30, 60), (-60, 0, 20)))
        and anchored(STRETCH, margin=(('px', 8), None, ('px', 0), ('px', 0))).size == [52, 10]
        and anchored(STRETCH, max=(('px', 30), None)).size == [30, 10] and anchored(STRETCH, min=(('px', 80), None)).size == [80, 10]
        and anchored((('px', 10), ('stretch',)), 40, 30, area=(200, 100), margin=(('px', 0), ('px', 0), ('%', 10), None)).size == [10, 50]
        and asks_in('both', [60, 70], ('fit',), ('fit',)) and asks_in('both', [25, 70], ('fitpx', 25), ('fit',)) and asks_in('both', [50, 70], ('fit%', 50), ('fit',))
        and asks_in('width', ['min', 70], ('min',), None) and asks_in('width', ['min', 70], ('min',), ('px', 10))
        and asks_in('height', [60, 'max'], None, ('max',)) and asks_in('height', [20, 'max'], ('px', 20), ('max',))
        and knows(0, 60, ('stretch',), ('max',)) and knows(0, 60, ('stretch',), None)
        and asks_in('width', [60, 100], ('fit',), ('px', 10), y=0, max=(('px', 30), None))
        and asks_in('both', [60, 70], ('stretch',), None) and asks_in('both', [60, 70], None, ('stretch',)) and knows(1, 70, None, ('stretch',))
        and comes_to(60, 25, ('stretch',), None) and comes_to(25, 70, None, ('stretch',))
        and asks_in('both', [60, 70], None, None, ratio=2) and anchored((None, None), 40, 30, ratio=2, replied=(30, 30), measured=(30, 30)).size == [30, 30]
        and D.placed(label(60, 60, -30, (None, None), ratio=2)).size == [60, 30]
        and anchored((('px', 80), None), ratio=2, max=(('stretch',), None)).size == [80, 40]
        and anchored((('stretch',), None), ratio=2).size == [60, 30] and anchored(STRETCH, ratio=2).size == [20, 10])
ROWS = {'row 10': row_10, 'row 11': row_11, 'row 12': row_12, 'row 13': row_13, 'rows of stretch': rows_of_stretch}


# ---- the misreadings

def misread(name, **f): return name, type('Misread', (Box,), f)

S = Box
def less_insets(s, b, y): a = s.axis_of(b, y); return (zero(a.inset[0]), a.size - zero(a.inset[1]))
def no_inset(s, b, y): return s.axis_of(b, y).inset == (None, None)
def of_anchor(block): return lambda s, b, y: block(s.axis_of(b, y)) if no_inset(s, b, y) else S.block(s, b, y)
def beside_stretch(s, b, y): return b.size[y] is None and b.size[1 - y] == ('stretch',) and s.absent(b, 1 - y)
def has_keywords(b): return has_keyword(b, 0) or has_keyword(b, 1)
def by_keyword(s, b, y): return has_keyword(b, y) and s.absent(b, y)
def unclamped(s, b, y): return s.keyword_room(b, y) if s.exact(b, b.size[y]) else b.replied[y]
def room_less_insets(s, b, y): l = less_insets(s, b, y); return max(l[1] - l[0] - s.taken(b, y), 0)
def of_height(*which): return lambda s, b, field, side: b.area[1] if (field, side) in which else S.basis(s, b, field, side)

MISREADINGS = [
    misread('top margin: percentages of the height', basis=of_height(('margin', TOP))),
    misread('bottom margin: percentages of the height', basis=of_height(('margin', BOTTOM))),
    misread('top padding: percentages of the height', basis=of_height(('padding', TOP))),
    misread('bottom padding: percentages of the height', basis=of_height(('padding', BOTTOM))),
    misread('top border: percentages of the height', basis=of_height(('border', TOP))),
    misread('left margin: percentages of the height', basis=of_height(('margin', LEFT))),
    misread('right inset: percentages of the height', basis=of_height(('inset', RIGHT))),
    misread('top and bottom insets: percentages of the width', basis=lambda s, b, field, side: b.area[0]),
    misread('percentages: of nothing', percent=lambda s, x, basis: 0),
    misread('min before max', clamp=lambda s, x, low, high: at_most(at_least(x, low), high)),
    misread('min ignored', clamp=lambda s, x, low, high: at_most(x, high)),
    misread('max ignored', clamp=lambda s, x, low, high: at_least(x, low)),
    misread('min: not raised to padding plus border', floor=lambda s, m, e: e if m is None else m),
    misread('min: padding plus border left out where absent', floor=lambda s, m, e: 0 if m is None else larger(m, e)),
    misread('min NaN: passed on', floor=lambda s, m, e: e if m is None else m if m != m else larger(m, e)),
    misread('content-box as border-box', added=lambda s, b, y: 0),
    misread('border-box as content-box', added=lambda s, b, y: s.edges(b)[y]),
    misread('content-box: padding plus border of the other axis', added=lambda s, b, y: s.edges(b)[1 - y] if b.content else 0),
    misread('table: stretched directly', table_stretches=lambda s, b: True),
    misread('table: min not raised', table_min=lambda s, b, y, low: low),
    misread('table: min is the stretch-fit size', table_min=lambda s, b, y, low: s.fit(b, y)),
    misread('table: normal stretches', stretchable=lambda s, b: not b.replaced),
    misread('replaced: normal stretches', stretchable=lambda s, b: not b.table),
    misread('normal never stretches', stretchable=lambda s, b: False),
    misread('never measured: padding plus border', asks=lambda s, b, known: False),
    misread('measured: replaces a given side', fill=lambda s, b, known, y: b.measured[y]),
    misread('measured: sides exchanged', fill=lambda s, b, known, y: b.measured[1 - y] if known[y] is None else known[y]),
    misread('measured: not clamped', final=lambda s, b: ([s.fill(b, s.stretched(b)[0], y) for y in (0, 1)], s.asks(b, s.stretched(b)[0]))),
    misread('stretched: the other axis\' stretch-fit size', fit=lambda s, b, y: S.fit(s, b, 1 - y)),
    misread('stretched: the area', fit=lambda s, b, y: b.area[y]),
    misread('stretched: a given size too', left=lambda s, b: [None if S.stretching(s, b, y) else z for y, z in enumerate(S.left(s, b))]),
    misread('offset: not added to the location', location=lambda s, b, y, p: p),
    misread('offset: added left-to-right only', location=lambda s, b, y, p: p if b.rtl and not y else p + b.offset[y]),
    misread('offset: not taken off the static area', static=lambda s, b, y: b.static[y]),
    misread('offset: of the other axis', location=lambda s, b, y, p: p + b.offset[1 - y]),
    misread('margins: as given, auto as 0', margin_of=lambda s, b, y, m: tuple(zero(x) for x in s.axis_of(b, y).margin)),
    misread('margins: start and end exchanged', margin_of=lambda s, b, y, m: (m[1], m[0])),
    misread('placed by the size of the other axis', sized=lambda s, z, y: z[1 - y]),
    misread('auto margin: 0', sides=lambda s, b, field: [zero(x) if field == 'margin' else x for x in S.sides(s, b, field)]),
    misread('auto inset: 0', sides=lambda s, b, field: [zero(x) if field == 'inset' else x for x in S.sides(s, b, field)]),
    misread('margins in pixels: top and bottom exchanged', sides=lambda s, b, field: (lambda z: [z[0], z[1], z[3], z[2]] if field == 'margin' else z)(S.sides(s, b, field))),
    misread('insets in pixels: top and bottom exchanged', sides=lambda s, b, field: (lambda z: [z[0], z[1], z[3], z[2]] if field == 'inset' else z)(S.sides(s, b, field))),
    misread('padding: left and right exchanged', sides=lambda s, b, field: (lambda z: [z[1], z[0], z[2], z[3]] if field == 'padding' else z)(S.sides(s, b, field))),
    misread('vertical axis: of the width', extent=lambda s, b, y: b.area[0]),
    misread('vertical axis: as the inline axis', inline=lambda s, y: True),
    misread('start and end: by the item\'s direction', reversed=lambda s, b, y: not y and b.own_rtl),
    misread('start and end: left-to-right always', reversed=lambda s, b, y: False),
    misread('vertical axis: reversed right-to-left', reversed=lambda s, b, y: b.rtl),
    misread('justify-self and align-self exchanged', word=lambda s, b, y: b.align[1 - y]),
    misread('self-start as start', flips=lambda s, b, y: False),
    misread('self-start: in the block axis too', flips=lambda s, b, y: b.own_rtl != b.rtl),
    misread('self-start: by the item\'s direction alone', flips=lambda s, b, y: not y and b.own_rtl),
    misread('flex-end as start', keyword=lambda s, k, flips: 'Start' if k == 'FlexEnd' else S.keyword(s, k, flips)),
    misread('baseline as end', keyword=lambda s, k, flips: 'End' if k == 'Baseline' else S.keyword(s, k, flips)),
    misread('safety dropped', safety=lambda s, b, y: 'Default'),
    misread('an axis never scrolls', axis_scrolls=lambda s, b, y: False),
    misread('an axis scrolls where either does', axis_scrolls=lambda s, b, y: any(s.scroll_value(o) for o in b.over)),
    misread('an axis scrolls by the other\'s overflow', axis_scrolls=lambda s, b, y: s.scroll_value(b.over[1 - y])),
    misread('hidden is no scroll container', scroll_value=lambda s, o: o == 'scroll'),
    misread('clip is a scroll container', scroll_value=lambda s, o: o != 'visible'),
    misread('auto as fit-content', stretching=lambda s, b, y: False),
    misread('auto as stretch', stretching=lambda s, b, y: True),
    misread('auto size: 0', size=lambda s, b: [zero(x) for x in S.size(s, b)]),
    misread('max none: 0', max=lambda s, b: [zero(x) for x in S.max(s, b)]),
    misread('size, min, max: percentages of the width', size_basis=lambda s, b, y: b.area[0]),
    misread('ratio: of height to width', ratio=lambda s, b, z: S.ratio(s, b if b.ratio is None else b.but(ratio=1 / b.ratio), z)),
    misread('ratio: ignored', ratio=lambda s, b, z: z),
    misread('ratio: a given height recomputed', ratio=lambda s, b, z: S.ratio(s, b, z if b.ratio is None or z[0] is None else [z[0], None])),
    misread('space: the containing block', room=lambda s, b, y: b.area[y]),
    misread('space: margins left out', room=lambda s, b, y: (lambda l: max(l[1] - l[0], 0))(s.axis.block(s.axis_of(b, y)))),
    misread('space: not clamped', space=lambda s, b: [s.room(b, y) for y in (0, 1)]),
    misread('space: a table\'s as any other\'s', room=lambda s, b, y: s.fit(b, y)),
    misread('measured: the other side not told', told=lambda s, b, known: [None, None]),
    misread('measured: a given side told, a stretched one not', told=lambda s, b, known: s.left(b)),
    misread('stretch keyword: the area less its insets', block=less_insets),
    misread('stretch keyword: the block only where no inset is given', block=lambda s, b, y: S.block(s, b, y) if no_inset(s, b, y) else less_insets(s, b, y)),
    misread('stretch keyword: the block only where an inset is given', block=lambda s, b, y: (0, b.area[y]) if no_inset(s, b, y) else S.block(s, b, y)),
    misread('stretch keyword: the block not closed up', block=lambda s, b, y: s.axis.inset_block(s.axis_of(b, y))),
    misread('stretch keyword: the other axis\' block', block=lambda s, b, y: S.block(s, b, 1 - y)),
    misread('stretch keyword: from the anchor to the end, whatever its edge', block=of_anchor(lambda a: Axis().block(a.but(key='Start')))),
    misread('stretch keyword: the end edge as the start edge', block=of_anchor(lambda a: Axis().block(a.but(key={'End': 'Start'}.get(a.key, a.key))))),
    misread('stretch keyword: the static area', block=of_anchor(lambda a: a.area)),
    misread('stretch keyword: from the center on', block=of_anchor(lambda a: (F(sum(a.area), 2), a.size) if a.key == 'Center' else Axis().block(a))),
    misread('stretch keyword: the offset not taken off the anchor', block=lambda s, b, y: s.axis.block(s.axis_of(b, y).but(area=b.static[y]))),
    misread('stretch keyword: margins left out', taken=lambda s, b, y: 0),
    misread('stretch keyword: the start margin only', taken=lambda s, b, y: zero(s.axis_of(b, y).margin[0])),
    misread('stretch keyword: the end margin only', taken=lambda s, b, y: zero(s.axis_of(b, y).margin[1])),
    misread('stretch keyword: the other axis\' margins', taken=lambda s, b, y: S.taken(s, b, 1 - y)),
    misread('stretch keyword: margins below 0 as 0', taken=lambda s, b, y: sum(max(zero(m), 0) for m in s.axis_of(b, y).margin)),
    misread('stretch keyword: an auto margin takes the room', keyword_room=lambda s, b, y: 0 if None in s.axis_of(b, y).margin else S.keyword_room(s, b, y)),
    misread('stretch keyword: below 0', keyword_room=lambda s, b, y: (lambda l: l[1] - l[0] - s.taken(b, y))(s.block(b, y))),
    misread('stretch keyword: a table\'s as its space', keyword_room=lambda s, b, y: s.room(b, y)),
    misread('stretch keyword: measured', exact=lambda s, b, l: False),
    misread('stretch keyword: of a table measured', exact=lambda s, b, l: not b.table and S.exact(s, b, l)),
    misread('fit-content: not measured', exact=lambda s, b, l: l in (('stretch',), ('fit',))),
    misread('fit-content: measured in the area', fit_content=lambda s, b, y: b.area[y]),
    misread('fit-content: measured in the available space', fit_content=lambda s, b, y: s.space(b)[y]),
    misread('fit-content: measured as max-content', fit_content=lambda s, b, y: 'max'),
    misread('fit-content in pixels: measured in the room', fit_limit=lambda s, b, y: s.keyword_room(b, y) if b.size[y][0] == 'fitpx' else S.fit_limit(s, b, y)),
    misread('fit-content with a limit: in no more than the room', fit_limit=lambda s, b, y: min(s.keyword_room(b, y), S.fit_limit(s, b, y))),
    misread('fit-content in percent: of the room', fit_limit=lambda s, b, y: s.percent(b.size[y][1], s.keyword_room(b, y)) if b.size[y][0] == 'fit%' else S.fit_limit(s, b, y)),
    misread('fit-content in percent: of the width', fit_limit=lambda s, b, y: s.percent(b.size[y][1], b.area[0]) if b.size[y][0] == 'fit%' else S.fit_limit(s, b, y)),
    misread('min-content as max-content', content=lambda s, l: 'max'),
    misread('size keyword: as auto', keyed=lambda s, b: (s.size(b), [])),
    misread('size keyword: fit-content in pixels is a size', resolve=lambda s, l, basis: l[1] if l is not None and l[0] == 'fitpx' else S.resolve(s, l, basis)),
    misread('size keyword: though the ratio gives the side', absent=lambda s, b, y: True),
    misread('the other side\'s space: the area', room_across=lambda s, b, y: b.area[1 - y]),
    misread('the other side\'s space: the area less its insets', room_across=lambda s, b, y: room_less_insets(s, b, 1 - y)),
    misread('the other side\'s space: the available space', room_across=lambda s, b, y: s.space(b)[1 - y]),
    misread('the other side\'s space: the room of the side asked for', room_across=lambda s, b, y: s.keyword_room(b, y)),
    misread('the other side\'s space: max-content', room_across=lambda s, b, y: 'max'),
    misread('the other side\'s space: its room though the width is known', space_across=lambda s, b, y, known: s.room_across(b, y)),
    misread('the other side\'s space: a known height', space_across=lambda s, b, y, known: s.room_across(b, y) if known[1 - y] is None else known[1 - y]),
    misread('height asked for: a stretched width not told', known_across=lambda s, b, y, known: list(s.size(b))),
    misread('height asked for: a stretched width told clamped', known_across=lambda s, b, y, known: s.clamped(b, known)),
    misread('width asked for: what is known not told', known_across=lambda s, b, y, known: list(known) if y else [None, None]),
    misread('width asked for: a stretched height told', known_across=lambda s, b, y, known: list(known) if y or b.size[1] != ('stretch',) or known[1] is not None else [None, s.keyword_room(b, 1)]),
    misread('size keywords: the height\'s first', in_turn=lambda s, words: words[::-1]),
    misread('two measured sides: one by one', at_once=lambda s, b: False),
    misread('two measured sides: asked for again in step 6', asks=lambda s, b, known: None in known or all(by_keyword(s, b, y) and not s.exact(b, b.size[y]) for y in (0, 1))),
    misread('step 6: told a keyword\'s size unclamped', told=lambda s, b, known: [unclamped(s, b, y) if by_keyword(s, b, y) else known[y] for y in (0, 1)]),
    misread('step 6: not told a keyword\'s side', told=lambda s, b, known: [None if by_keyword(s, b, y) else known[y] for y in (0, 1)]),
    misread('size keyword: the ratio not applied to a measured height', settled=lambda s, b, z: s.clamped(b, z) if is_measured(s, b, 1) else S.settled(s, b, z)),
    misread('size keyword: the ratio not applied', settled=lambda s, b, z: s.clamped(b, z)),
    misread('size keyword: the ratio applied to the clamped size', settled=lambda s, b, z: S.settled(s, b, s.clamped(b, z))),
    misread('a keyword in max: the stretch size', max=lambda s, b: [s.keyword_room(b, y) if is_keyword(b.max[y]) else x for y, x in enumerate(S.max(s, b))]),
    misread('a keyword in min: the stretch size', min=lambda s, b: [larger(s.keyword_room(b, y), s.edges(b)[y]) if is_keyword(b.min[y]) else x for y, x in enumerate(S.min(s, b))]),
    misread('a keyword in max beside a ratio and no length: the stretch size', max=lambda s, b: [s.keyword_room(b, y) if is_keyword(b.max[y]) and b.ratio is not None and no_length(b.max[1 - y]) else x for y, x in enumerate(S.max(s, b))]),
    misread('a ratio and two auto sides: the width is its stretch size', left=lambda s, b: [s.keyword_room(b, 0), None] if b.ratio is not None and b.size == (None, None) else S.left(s, b)),
    misread('a ratio and an auto size that stretches: the area less its insets', stretch_size=lambda s, b, y: s.fit(b, y) if b.ratio is None else room_less_insets(s, b, y)),
    misread('auto beside a keyword: not stretched', stretching=lambda s, b, y: not has_keyword(b, 1 - y) and S.stretching(s, b, y)),
    misread('auto beside a keyword: stretched to the area less its insets', stretch_size=lambda s, b, y: room_less_insets(s, b, y) if has_keyword(b, 1 - y) else s.fit(b, y)),
    misread('auto height beside width stretch: its stretch size', left=lambda s, b: [s.clamp(s.keyword_room(b, y), s.min(b)[y], s.max(b)[y]) if z is None and y and beside_stretch(s, b, y) else z for y, z in enumerate(S.left(s, b))]),
    misread('auto height beside width stretch: asked for alone', filling=lambda s, b: ('height', [s.keyword_room(b, 0), None], [s.keyword_room(b, y) for y in (0, 1)]) if beside_stretch(s, b, 1) else S.filling(s, b)),
    misread('auto width beside height stretch: asked for alone', filling=lambda s, b: ('width', [None, None], [s.keyword_room(b, y) for y in (0, 1)]) if beside_stretch(s, b, 0) else S.filling(s, b)),
    misread('auto beside a keyword: measured sides exchanged', fill=lambda s, b, known, y: b.measured[1 - y] if known[y] is None and has_keyword(b, 1 - y) else S.fill(s, b, known, y)),
    misread('table with width stretch: min height not raised', table_min=lambda s, b, y, low: low if y and beside_stretch(s, b, y) else S.table_min(s, b, y, low)),
    misread('table beside a keyword: normal raises its min', stretchable=lambda s, b: not b.replaced and (has_keywords(b) or not b.table)),
    misread('size keyword: though a given side gives it by the ratio', style_size=lambda s, b, field: [None if field == 'size' and is_keyword(l) else z for l, z in zip(b.size, S.style_size(s, b, field))]),
    misread('a keyword beside stretch: both asked for in step 6', asks=lambda s, b, known: None in known or all(by_keyword(s, b, y) for y in (0, 1)) and ('stretch',) in b.size),
    misread('stretch keyword: both asked for in step 6 though the ratio gives the other', asks=lambda s, b, known: None in known or b.ratio is not None and any(beside_stretch(s, b, y) for y in (0, 1))),
    misread('measured: asked for twice', asks=lambda s, b, known: 2 * (None in known)),
    misread('step 6: asked in the keyword room', asked_in=lambda s, b: [s.keyword_room(b, y) for y in (0, 1)] if has_keywords(b) else s.space(b)),
    misread('lay out: in the keyword room', laid_in=lambda s, b: [s.keyword_room(b, y) for y in (0, 1)] if has_keywords(b) else s.space(b)),
    misread('scrollbar: vertical bar from overflow x', gutters=lambda s, b: [b.bar if b.overflow[y] == 'scroll' else 0 for y in (0, 1)]),
    misread('scrollbar: of hidden too', gutters=lambda s, b: [b.bar if b.overflow[1 - y] in ('hidden', 'scroll') else 0 for y in (0, 1)]),
    misread('layout: padding and border exchanged', framed=lambda s, b: (s.sides(b, 'border'), s.sides(b, 'padding'))),
    misread('layout: overflow is the border box', kept=lambda s, b: (0, s.final(b)[0][0], 0, s.final(b)[0][1])),
    misread('contribution: layout containment doesn\'t hold overflow in', contained=lambda s, b: b.contain[1]),
    misread('contribution: paint containment doesn\'t hold overflow in', contained=lambda s, b: b.contain[0]),
    misread('contribution: zeros whenever the height is 0', contribution=lambda s, b, at, z: ZEROS if z[1] <= 0 else S.contribution(s, b, at, z)),
    misread('contribution: a height of 0 counts', nothing=lambda s, l, m: l[1] <= 0),
    misread('contribution: reachable by the border box', contribution=lambda s, b, at, z: (lambda o: ZEROS if s.scrolls(b) and (o[0] + z[0] <= 0 or o[1] + z[1] <= 0) else S.contribution(s, b, at, z))(s.origin(b, at, z))),
    misread('contribution: twice the own overflow', reach=lambda s, b, z, y: (lambda o: (min(0, o[0]), max(z[y], 2 * o[1])) if s.shows(b, y) else (0, z[y]))(s.own(b, y))),
    misread('contribution: from the left always', origin=lambda s, b, at, z: [at[y] - b.offset[y] for y in (0, 1)]),
    misread('contribution: from the right without the width', origin=lambda s, b, at, z: [b.area[0] - at[0] + b.offset[0] if b.rtl else at[0] - b.offset[0], at[1] - b.offset[1]]),
    misread('contribution: the offset counted', origin=lambda s, b, at, z: [b.area[0] - at[0] - z[0] if b.rtl else at[0], at[1]]),
    misread('contribution: from the bottom', origin=lambda s, b, at, z: [S.origin(s, b, at, z)[0], b.area[1] - at[1] + b.offset[1] - z[1]]),
    misread('contribution: a box that can\'t be scrolled to counts', scrolls=lambda s, b: False),
    misread('contribution: zeros before the start in any parent', scrolls=lambda s, b: True),
    misread('contribution: scrolls where both axes do', scrolls=lambda s, b: all(s.scroll_value(o) for o in b.over)),
    misread('contribution: zeros where both ends are before the start', before=lambda s, right, bottom: right <= 0 and bottom <= 0),
    misread('contribution: an end at the start edge counts', before=lambda s, right, bottom: right < 0 or bottom < 0),
    misread('contribution: zeros where it begins before the start', contribution=lambda s, b, at, z: ZEROS if s.scrolls(b) and min(s.origin(b, at, z)) < 0 else S.contribution(s, b, at, z)),
    misread('contribution: an extent of 0 counts', nothing=lambda s, l, m: l[1] < 0 or m[1] < 0),
    misread('contribution: zeros where both extents are 0', nothing=lambda s, l, m: l[1] <= 0 and m[1] <= 0),
    misread('contribution: zeros by the size, whatever overflows', contribution=lambda s, b, at, z: ZEROS if min(z) <= 0 else S.contribution(s, b, at, z)),
    misread('contribution: own overflow never counted', shows=lambda s, b, y: False),
    misread('contribution: own overflow always counted', shows=lambda s, b, y: True),
    misread('contribution: a scroll container\'s overflow counted', scroller=lambda s, b: False),
    misread('contribution: clipped in one axis, clipped in both', shows=lambda s, b, y: b.overflow == ('visible', 'visible') and not s.contained(b)),
    misread('contribution: containment ignored', contained=lambda s, b: False),
    misread('contribution: own overflow in place of the box', reach=lambda s, b, z, y: tuple(s.own(b, y)) if s.shows(b, y) else (0, z[y])),
    misread('contribution: own overflow from the left always', own=lambda s, b, y: (lambda o: (s.final(b)[0][0] - o[1], s.final(b)[0][0] - o[0]) if b.rtl and not y else o)(S.own(s, b, y))),
    misread('contribution: the margin box', reach=lambda s, b, z, y: (lambda l, m: (l[0] - max(zero(m[0]), 0), l[1] + max(zero(m[1]), 0)))(S.reach(s, b, z, y), s.axis_of(b, y).margin)),
]


# ---- inputs

def keyword(r):
    limit = lambda: r.randrange(121)
    return r.choice((('min',), ('max',), ('fit',), ('fitpx', limit()), ('fit%', limit()), *[('stretch',)] * 5))

# a tenth of the boxes may have keywords in min and max
def with_limits(r, b):
    if r.random() < .9: return b
    lengths = lambda pair: tuple(keyword(r) if r.random() < .5 else l for l in pair)
    return b.but(min=lengths(b.min), max=lengths(b.max))

def sample(r):
    n = lambda lo, hi: r.randrange(lo, hi + 1)
    pick = lambda *xs: r.choice(xs)
    def length(lo, hi, auto): return None if r.random() < auto else ('px', n(lo, hi)) if r.random() < .7 else ('%', n(lo, hi))
    def four(lo, hi, auto): return tuple(length(lo, hi, auto) for _ in SIDES)
    def line(lo, hi): x = n(lo, hi); return (x, x + n(0, 40))
    # half of the boxes may have size keywords, and in a third of their axes no inset and an anchor on the area
    keywords = r.random() < .5
    def size(): return keyword(r) if keywords and r.random() < .6 else length(0, 120, .5)
    own = line(-30, 20) + line(-30, 20) if r.random() < .7 else ZEROS
    area, offset = (n(0, 160), n(0, 160)), (n(-30, 30), n(-30, 30))
    inset, static = four(-80, 80, .4), [line(-60, 100), line(-60, 100)]
    for y in (0, 1):
        if keywords and r.random() < .33:
            inset = tuple(None if i // 2 == y else l for i, l in enumerate(inset))
            static[y] = tuple(sorted(offset[y] + n(0, area[y]) for _ in (0, 1)))
    return Input(area=area, offset=offset, rtl=pick(False, True), own_rtl=pick(False, True), bar=n(1, 15),
        over=(pick('visible', 'clip', 'hidden', 'scroll'), pick('visible', 'visible', 'clip', 'hidden', 'scroll')),
        inset=inset, margin=four(-30, 30, .3), padding=tuple(length(0, 15, 0) for _ in SIDES), border=tuple(length(0, 5, 0) for _ in SIDES),
        size=(size(), size()), min=(length(0, 80, .5), length(0, 80, .5)), max=(length(0, 120, .5), length(0, 120, .5)),
        ratio=pick(None, None, None, F(n(1, 8), n(1, 8))), content=pick(False, True), replaced=r.random() < .2, table=r.random() < .3,
        align=tuple((pick(*['Normal', 'Stretch'] * 4, *['Start', 'Center', 'End'] * 2, 'SelfStart', 'SelfEnd', 'FlexStart', 'FlexEnd', 'Baseline'), pick('Default', 'Unsafe', 'Safe')) for _ in (0, 1)),
        overflow=(pick('visible', 'visible', 'visible', 'clip', 'hidden'), pick('visible', 'visible', 'visible', 'clip', 'scroll')), contain=(r.random() < .1, r.random() < .1),
        static=tuple(static), key=(pick('Start', 'Center', 'End'), pick('Start', 'Center', 'End')),
        psf=(pick('Default', 'Unsafe', 'Safe'), pick('Default', 'Unsafe', 'Safe')), replied=(n(0, 120), n(0, 120)), measured=(n(0, 120), n(0, 120)), own=own)

# row 12's boxes, no width or no height: no random one has that, for its padding and border
FLAT = [(PLAIN.but(size=size, own=own),) for size, own in (
    ((('px', 0), ('px', 10)), ZEROS), ((('px', 0), ('px', 10)), (0, 5, 0, 0)), ((('px', 10), ('px', 0)), ZEROS), ((('px', 10), ('px', 0)), (0, 0, 0, 5)))]
# insets that cross, with margins below 0: few random ones have that and a stretch size that min and max leave. Last, auto beside a keyword
CROSSED = [(label(left, right, -30, STRETCH, rtl=rtl),) for left, right in ((60, 60), (120, None), (None, 120)) for rtl in (False, True)]
CROSSED += [(label(60, 60, -30, (None, ('stretch',)), rtl=rtl),) for rtl in (False, True)]

# tables with width or height stretch, whose other side has its min raised: few random ones are
TABLES = [(PLAIN.but(table=True, size=size, inset=(('px', 10), ('px', 20)) * 2, align=(('Stretch', 'Default'),) * 2),) for size in ((('stretch',), None), (None, ('stretch',)))]

def inputs(count, seed=7):
    r = random.Random(seed)
    chosen = FLAT + CROSSED + TABLES
    found = [sample(r) for _ in range(count - len(chosen))]
    found = [(with_limits(r, b),) for b in found]
    found[200:200] = chosen
    return found
