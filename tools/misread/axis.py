"""One axis on exact numbers: its definition, the laws of it, and misreadings of it.

`Axis` is what CSS says (css-position-3, css-align-3), written apart from the repository's definitions; `LAWS` are the laws of
crates/oof_axis/specs/Laws.antt (on exact numbers) and of crates/oof_axis_laws/specs/Laws.antt, under their names. A law gives None where it
says nothing of an input, else True or False. `MISREADINGS` change one method each. tools/misread/run says which law refuses which."""
import random
from fractions import Fraction as F

INF, NAN = float('inf'), float('nan')
# where one of two is NaN, the other
def larger(a, b): return b if a != a else a if b != b else max(a, b)


class Axis:
    """The definition. An input `a` has size, inset and margin (pairs, None is auto), area, key and psf (static area, edge and safety),
    al and sf (alignment and safety), inline, rev and scr."""
    def start(s, a): return 'End' if a.rev else 'Start'
    def end(s, a): return 'Start' if a.rev else 'End'
    def align_in(s, l, box, k):
        return l[0] if k == 'Start' else l[1] - box if k == 'End' else F(l[0] + l[1] - box, 2)
    # the block
    def centered(s, c, w): return (0, 2 * c) if abs(c) <= abs(w - c) else (w - 2 * (w - c), w)
    def static_block(s, k, ar, w):
        return (ar[0], w) if k == 'Start' else (0, ar[1]) if k == 'End' else s.centered(F(ar[0] + ar[1], 2), w)
    def inset_block(s, a):
        i, e = a.inset
        if i is not None and e is not None: return (i, a.size - e)
        if i is not None: return (i, a.size)
        if e is not None: return (0, a.size - e)
        return s.static_block(a.key, a.area, a.size)
    def weaker(s, a):
        i, e = a.inset
        if (i is None) == (e is None): return s.end(a)
        return 'End' if i is not None else 'Start'
    def closed(s, w, l): return (l[1], l[1]) if w == 'Start' else (l[0], l[0])
    def block(s, a):
        l = s.inset_block(a)
        return s.closed(s.weaker(a), l) if l[1] < l[0] else l
    # automatic sizes
    def both(s, a): return a.inset[0] is not None and a.inset[1] is not None
    def stretch_fit(s, a):
        l = s.block(a)
        return max(l[1] - l[0] - (a.margin[0] or 0) - (a.margin[1] or 0), 0)
    def stretching(s, k, plain): return k == 'Stretch' or (k == 'Normal' and plain)
    def stretches(s, a, plain): return s.both(a) and s.stretching(a.al, plain)
    # margins
    def halves(s, f, a):
        if f < 0 and a.inline: return (f, 0) if a.rev else (0, f)
        return (F(f, 2), F(f, 2))
    def filled(s, ms, me, f, a):
        if ms is not None and me is not None: return (ms, me)
        if ms is not None: return (ms, f - ms)
        if me is not None: return (f - me, me)
        return s.halves(f, a)
    def margins(s, a, z):
        if not s.both(a): return (a.margin[0] or 0, a.margin[1] or 0)
        l = s.block(a)
        return s.filled(a.margin[0], a.margin[1], l[1] - l[0] - z, a)
    # position
    def edge(s, k, a): return 'Center' if k == 'Center' else s.end(a) if k == 'End' else s.start(a)
    def limit(s, a, l):
        return (-INF if a.scr and a.rev else min(l[0], 0), INF if a.scr and not a.rev else max(l[1], a.size))
    def kept(s, lim, a, l, box, k):
        if box <= lim[1] - lim[0]: return max(min(s.align_in(l, box, k), lim[1] - box), lim[0])
        return s.align_in(lim, box, s.start(a))
    def normal(s, a): return a.al == 'Normal'
    def self_aligned(s, sf, a, l, box, k):
        if sf == 'Unsafe': return s.align_in(l, box, k)
        if sf == 'Safe': return s.align_in(l, box, s.start(a) if l[1] - l[0] < box else k)
        if box <= l[1] - l[0] or s.normal(a): return s.align_in(l, box, k)
        return s.kept(s.limit(a, l), a, l, box, k)
    def static_aligned(s, sf, a, l, box):
        if sf == 'Safe' and l[1] - l[0] < box: return s.align_in(l, box, s.start(a))
        return s.align_in(a.area, box, a.key)
    def box(s, z, m): return z + m[0] + m[1]
    def lone_start(s, a, l, z, m): return l[0] + m[0]
    def lone_end(s, a, l, z, m): return l[1] - z - m[1]
    def auto_place(s, a, l, z, m): return l[0] + m[0]
    def between(s, a, l, z, m): return s.self_aligned(a.sf, a, l, s.box(z, m), s.edge(a.al, a)) + m[0]
    def from_static(s, a, l, z, m): return s.static_aligned(a.psf, a, l, s.box(z, m)) + m[0]
    def position(s, a, z, m):
        l = s.block(a)
        i, e = a.inset
        if i is None and e is None: return s.from_static(a, l, z, m)
        if e is None: return s.lone_start(a, l, z, m)
        if i is None: return s.lone_end(a, l, z, m)
        if a.margin[0] is not None and a.margin[1] is not None: return s.between(a, l, z, m)
        return s.auto_place(a, l, z, m)
    def placement(s, a, z):
        m = s.margins(a, z)
        return s.position(a, z, m), m


class Input:
    def __init__(s, **k): s.__dict__.update(k)
    def but(s, **k):
        d = dict(s.__dict__)
        d.update(k)
        return Input(**d)
    def __repr__(s): return ' '.join(f'{k}={v}' for k, v in s.__dict__.items())


# ---- the laws

def zero(x): return x or 0

def view(D, a, z):
    p, m = D.placement(a, z)
    return p, m, D.block(a), z + zero(a.margin[0]) + zero(a.margin[1])

def aligned(a): return None not in a.inset and None not in a.margin
def at_start(a, p, m, l, b): return p == (l[1] - b if a.rev else l[0]) + zero(a.margin[0])
def at_end(a, p, m, l, b): return p == (l[0] if a.rev else l[1] - b) + zero(a.margin[0])
def told(a, p, m, l, b):
    if a.al == 'Center': return p == F(l[0] + l[1] - b, 2) + zero(a.margin[0])
    return (at_end if a.al == 'End' else at_start)(a, p, m, l, b)
def block_is(D, a, s, e): return D.block(a) == ((s, e) if not e < s else (e, e) if a.rev else (s, s))
def lone(a): return None if (a.inset[0] is None) == (a.inset[1] is None) else 'start' if a.inset[1] is None else 'end'

def start_inset_held(D, a, z): return D.placement(a, z)[0] == a.inset[0] + zero(a.margin[0]) if lone(a) == 'start' else None
def end_inset_held(D, a, z): return D.placement(a, z)[0] == a.size - a.inset[1] - z - zero(a.margin[1]) if lone(a) == 'end' else None
def start_inset_block(D, a, z):
    if lone(a) == 'start': return D.block(a) == ((a.inset[0],) * 2 if a.size < a.inset[0] else (a.inset[0], a.size))
def end_inset_block(D, a, z):
    if lone(a) == 'end': x = a.size - a.inset[1]; return D.block(a) == ((x, x) if x < 0 else (0, x))
def block_between_insets(D, a, z): return None if None in a.inset else block_is(D, a, a.inset[0], a.size - a.inset[1])
def block_from_static_start(D, a, z): return block_is(D, a, a.area[0], a.size) if a.inset == (None, None) and a.key == 'Start' else None
def block_to_static_end(D, a, z): return block_is(D, a, 0, a.area[1]) if a.inset == (None, None) and a.key == 'End' else None
def block_in_order(D, a, z): l = D.block(a); return l[0] <= l[1]
def given_margin_stays(D, a, z):
    m = D.placement(a, z)[1]
    return all(a.margin[i] is None or m[i] == a.margin[i] for i in (0, 1))
def auto_margins_are_zero(D, a, z): return D.placement(a, z)[1] == (zero(a.margin[0]), zero(a.margin[1])) if None in a.inset else None
def auto_margins_are_equal(D, a, z):
    if None in a.inset or a.margin != (None, None): return None
    p, m, l, b = view(D, a, z)
    return None if l[1] - l[0] - z < 0 and a.inline else m[0] == m[1]
def negative_space_goes_to_the_end(D, a, z):
    if None in a.inset or a.margin != (None, None): return None
    p, m, l, b = view(D, a, z)
    f = l[1] - l[0] - z
    return m == ((f, 0) if a.rev else (0, f)) if f < 0 and a.inline else None
def lone_auto_margin_takes_the_rest(D, a, z):
    if None in a.inset or (a.margin[0] is None) == (a.margin[1] is None): return None
    p, m, l, b = view(D, a, z)
    return m[0] + m[1] == l[1] - l[0] - z
def auto_margin_begins_with_block(D, a, z):
    if None in a.inset or None not in a.margin: return None
    p, m, l, b = view(D, a, z)
    return p == l[0] + m[0]
def fits_as_told(D, a, z):
    if not aligned(a): return None
    v = view(D, a, z)
    return told(a, *v) if v[3] <= v[2][1] - v[2][0] else None
def unsafe_as_told(D, a, z): return told(a, *view(D, a, z)) if aligned(a) and a.sf == 'Unsafe' else None
def normal_at_start(D, a, z): return at_start(a, *view(D, a, z)) if aligned(a) and a.al == 'Normal' else None
def safe_overflow_at_start(D, a, z):
    if not aligned(a) or a.sf != 'Safe': return None
    v = view(D, a, z)
    return at_start(a, *v) if v[2][1] - v[2][0] < v[3] else None
def static_edge_held(D, a, z):
    if a.inset != (None, None): return None
    p, m, l, b = view(D, a, z)
    if a.psf == 'Safe' and l[1] - l[0] < b: return None
    q = a.area[0] if a.key == 'Start' else a.area[1] - b if a.key == 'End' else F(a.area[0] + a.area[1] - b, 2)
    return p == q + zero(a.margin[0])
def static_safe_at_start(D, a, z):
    if a.inset != (None, None) or a.psf != 'Safe': return None
    v = view(D, a, z)
    return at_start(a, *v) if v[2][1] - v[2][0] < v[3] else None
def stretches_between_insets(D, a, z):
    return all(D.stretches(a, q) == (None not in a.inset and (a.al == 'Stretch' or (a.al == 'Normal' and q))) for q in (False, True))
def overflows(D, a, z):
    if not aligned(a) or a.sf != 'Default' or a.al == 'Normal': return None
    v = view(D, a, z)
    return v if v[2][1] - v[2][0] < v[3] else None
def overflow_is_reachable(D, a, z):
    v = overflows(D, a, z)
    return None if not v or a.rev else min(v[2][0], 0) <= v[0] - v[1][0]
def stretch_fit_is_a_size(D, a, z): return 0 <= D.stretch_fit(a)

# those on whole quarters (oof_axis_laws)
def bounds(a, l): return min(l[0], 0), max(l[1], a.size)
def end_inset_exact(D, a, z):
    if lone(a) == 'end': p, m = D.placement(a, z); return p + z + m[1] + a.inset[1] == a.size
def auto_margins_fill(D, a, z):
    if None in a.inset or None not in a.margin: return None
    p, m, l, b = view(D, a, z)
    return p - m[0] == l[0] and p + z + m[1] == l[1]
def fits_inside(D, a, z):
    if not aligned(a): return None
    p, m, l, b = view(D, a, z)
    return None if l[1] - l[0] < b else l[0] <= p - m[0] and p + z + m[1] <= l[1]
def same_size_is_the_block(D, a, z):
    if not aligned(a): return None
    p, m, l, b = view(D, a, z)
    return p - m[0] == l[0] and p + z + m[1] == l[1] if b == l[1] - l[0] else None
def center_is_even(D, a, z):
    if not aligned(a) or a.al != 'Center': return None
    p, m, l, b = view(D, a, z)
    return None if l[1] - l[0] < b else 2 * p + z + m[1] == l[0] + l[1] + m[0]
def end_at_end(D, a, z):
    if not aligned(a) or a.al != 'End': return None
    p, m, l, b = view(D, a, z)
    return None if l[1] - l[0] < b else p - m[0] == l[0] if a.rev else p + z + m[1] == l[1]
def start_kept(a, z, v): p, m, l, b = v; return p + z + m[1] <= l[1] if a.rev else l[0] <= p - m[0]
def safe_keeps_start(D, a, z): return start_kept(a, z, view(D, a, z)) if aligned(a) and a.sf == 'Safe' else None
def static_safe_keeps_start(D, a, z):
    if a.inset != (None, None) or a.psf != 'Safe': return None
    v = view(D, a, z)
    return start_kept(a, z, v) if 0 < v[3] else None
def static_fits_inside(D, a, z):
    if a.inset != (None, None): return None
    p, m, l, b = view(D, a, z)
    return l[0] <= p - m[0] and p + z + m[1] <= l[1] if l[0] < l[1] and b <= l[1] - l[0] else None
def overflow_covers(D, a, z):
    v = overflows(D, a, z)
    if v: p, m, l, b = v; return p - m[0] <= l[0] and l[1] <= p + z + m[1]
def overflow_stays_within(D, a, z):
    v = overflows(D, a, z)
    if not v or a.scr: return None
    p, m, l, b = v
    lo, hi = bounds(a, l)
    return None if hi - lo < b else lo <= p - m[0] and p + z + m[1] <= hi
def overflow_keeps_start(D, a, z):
    v = overflows(D, a, z)
    if not v: return None
    p, m, l, b = v
    lo, hi = bounds(a, l)
    return p + z + m[1] <= hi if a.rev else lo <= p - m[0]
def overflow_moves_no_more(D, a, z):
    v = overflows(D, a, z)
    if not v: return None
    p, m, l, b = v
    lo, hi = bounds(a, l)
    q, n = D.placement(a.but(sf='Unsafe'), z)
    if not (a.scr and a.rev) and q - n[0] < lo or not (a.scr and not a.rev) and hi < q + z + n[1]: return None
    return p == q
def overflow_stops_at_start(D, a, z):
    v = overflows(D, a, z)
    if not v or a.scr and a.rev: return None
    p, m, l, b = v
    lo, hi = bounds(a, l)
    q, n = D.placement(a.but(sf='Unsafe'), z)
    return p - m[0] == lo if (a.scr or b <= hi - lo) and q - n[0] <= lo else None
def overflow_stops_at_end(D, a, z):
    v = overflows(D, a, z)
    if not v or a.scr and not a.rev: return None
    p, m, l, b = v
    lo, hi = bounds(a, l)
    q, n = D.placement(a.but(sf='Unsafe'), z)
    return p + z + m[1] == hi if (a.scr or b <= hi - lo) and hi <= q + z + n[1] else None
def too_large_at_start(D, a, z):
    v = overflows(D, a, z)
    if not v or a.scr: return None
    p, m, l, b = v
    lo, hi = bounds(a, l)
    return None if b <= hi - lo else p + z + m[1] == hi if a.rev else p - m[0] == lo
def block_around_static_center(D, a, z):
    if a.inset != (None, None) or a.key != 'Center' or not 0 <= a.area[0] + a.area[1] <= 2 * a.size: return None
    l = D.block(a)
    return l[0] + l[1] == a.area[0] + a.area[1] and 0 <= l[0] and l[1] <= a.size and (l[0] == 0 or l[1] == a.size)
def stretch_fits(D, a, z):
    l, f = D.block(a), D.stretch_fit(a)
    s = f + zero(a.margin[0]) + zero(a.margin[1])
    return s == l[1] - l[0] if 0 < f else f == 0 and l[1] - l[0] <= s
def stretched_box_is_the_block(D, a, z):
    f = D.stretch_fit(a)
    if not aligned(a) or f <= 0: return None
    p, m, l, b = view(D, a, f)
    return p - m[0] == l[0] and p + f + m[1] == l[1]
def stretched_box_is_the_block_with_any_insets(D, a, z):
    f, l = D.stretch_fit(a), D.block(a)
    if f <= 0 or l[1] <= l[0]: return None
    p, m = D.placement(a, f)
    return p - m[0] == l[0] and p + f + m[1] == l[1]
# twice the anchor: the static position's edge, or the middle of its area
def twice_anchor(a): return sum(a.area) if a.key == 'Center' else 2 * a.area[a.key == 'End']
def static_block_inside(D, a, z):
    if a.inset != (None, None) or not 0 <= twice_anchor(a) <= 2 * a.size: return None
    l = D.block(a)
    return 0 <= l[0] and l[1] <= a.size
def static_block_is_empty(D, a, z):
    if a.inset != (None, None) or a.size <= 0: return None
    before, beyond = twice_anchor(a) <= 0, 2 * a.size <= twice_anchor(a)
    if not {'Start': beyond, 'Center': before or beyond, 'End': before}[a.key]: return None
    l = D.block(a)
    return l[0] == l[1]
# the stretch size of a size keyword (request #106), and the Rust's
def less_margins(a, x): return larger(x - zero(a.margin[0]) - zero(a.margin[1]), 0)
def keyword_room(D, a): l = D.block(a); return less_margins(a, l[1] - l[0])
# of all floats: also where the block's size is NaN or infinite
def stretch_size_is_a_size(D, a, z): return all(0 <= x for x in (keyword_room(D, a), *(less_margins(a, x) for x in (NAN, INF, -INF))))
def stretch_size_is_stretch_fit(D, a, z): return keyword_room(D, a) == D.stretch_fit(a)
def stretch_size_as_the_rust(D, a, z):
    if None in a.inset or a.size - a.inset[1] < a.inset[0]: return None
    return keyword_room(D, a) == less_margins(a, a.size - a.inset[0] - a.inset[1])

def named(fs): return {''.join(w.capitalize() for w in f.__name__.split('_')): f for f in fs}

OF_FLOATS = named((start_inset_held, end_inset_held, start_inset_block, end_inset_block, block_between_insets, block_from_static_start,
    block_to_static_end, block_in_order, given_margin_stays, auto_margins_are_zero, auto_margins_are_equal, negative_space_goes_to_the_end,
    lone_auto_margin_takes_the_rest, auto_margin_begins_with_block, fits_as_told, unsafe_as_told, normal_at_start, safe_overflow_at_start,
    overflow_is_reachable, static_edge_held, static_safe_at_start, stretches_between_insets, stretch_fit_is_a_size, stretch_size_is_a_size))
OF_QUARTERS = named((end_inset_exact, auto_margins_fill, fits_inside, same_size_is_the_block, center_is_even, end_at_end, safe_keeps_start,
    static_safe_keeps_start, static_fits_inside, overflow_covers, overflow_stays_within, overflow_keeps_start, overflow_moves_no_more, overflow_stops_at_start,
    overflow_stops_at_end, too_large_at_start, block_around_static_center, stretch_fits, stretched_box_is_the_block,
    stretched_box_is_the_block_with_any_insets, static_block_inside, static_block_is_empty, stretch_size_is_stretch_fit, stretch_size_as_the_rust))
LAWS = {**OF_FLOATS, **OF_QUARTERS}


# ---- the misreadings

def misread(name, **f): return name, type('Misread', (Axis,), f)

S = Axis
MISREADINGS = [
    misread('lone start inset: the end margin', lone_start=lambda s,a,l,z,m: l[0] + m[1]),
    misread('lone end inset: the start margin', lone_end=lambda s,a,l,z,m: l[1] - z - m[0]),
    misread('lone start inset: margin ignored', lone_start=lambda s,a,l,z,m: l[0]),
    misread('lone end inset: margin ignored', lone_end=lambda s,a,l,z,m: l[1] - z),
    misread('lone start inset: centered in its block', lone_start=lambda s,a,l,z,m: s.align_in(l, s.box(z,m), 'Center') + m[0]),
    misread('lone start inset: aligned in its block', lone_start=lambda s,a,l,z,m: s.between(a,l,z,m)),
    misread('lone end inset: aligned in its block', lone_end=lambda s,a,l,z,m: s.between(a,l,z,m)),
    misread('lone start inset, right-to-left: from the far edge', lone_start=lambda s,a,l,z,m: l[1]-z-m[1] if a.rev else l[0]+m[0]),
    misread('lone end inset: counted from the start edge', inset_block=lambda s,a: (0, a.inset[1]) if a.inset[0] is None and a.inset[1] is not None else S.inset_block(s,a)),
    misread('lone start inset: block is the area', inset_block=lambda s,a: (0, a.size) if a.inset[1] is None and a.inset[0] is not None else S.inset_block(s,a)),
    misread('lone end inset: block is the area', inset_block=lambda s,a: (0, a.size) if a.inset[0] is None and a.inset[1] is not None else S.inset_block(s,a)),
    misread('two insets: block is the area', inset_block=lambda s,a: (0, a.size) if None not in a.inset else S.inset_block(s,a)),
    misread('two insets: end inset as a position', inset_block=lambda s,a: a.inset if None not in a.inset else S.inset_block(s,a)),
    misread('two insets: exchanged', inset_block=lambda s,a: (a.inset[1], a.size-a.inset[0]) if None not in a.inset else S.inset_block(s,a)),
    misread('block never repaired', block=lambda s,a: s.inset_block(a)),
    misread('weaker edge: always right', weaker=lambda s,a: 'End'),
    misread('weaker edge: start by direction', weaker=lambda s,a: s.start(a) if (a.inset[0] is None)==(a.inset[1] is None) else S.weaker(s,a)),
    misread('weaker edge with one inset: the inset side', weaker=lambda s,a: S.weaker(s,a) if (a.inset[0] is None)==(a.inset[1] is None) else 'Start' if a.inset[0] is not None else 'End'),
    misread('closed block: in the middle', closed=lambda s,w,l: (F(l[0]+l[1],2),)*2),
    misread('end aligned as start', edge=lambda s,k,a: s.start(a) if k=='End' else S.edge(s,k,a)),
    misread('center aligned as start', edge=lambda s,k,a: s.start(a) if k=='Center' else S.edge(s,k,a)),
    misread('start and end physical', start=lambda s,a:'Start', end=lambda s,a:'End'),
    misread('stretch aligned as center', edge=lambda s,k,a: 'Center' if k=='Stretch' else S.edge(s,k,a)),
    misread('normal aligned as end', edge=lambda s,k,a: s.end(a) if k=='Normal' else S.edge(s,k,a)),
    misread('center in the area', between=lambda s,a,l,z,m: s.self_aligned(a.sf,a,(0,a.size),s.box(z,m),'Center')+m[0] if a.al=='Center' else S.between(s,a,l,z,m)),
    misread('alignment: border box, margins left out', box=lambda s,z,m: z),
    misread('alignment: start margin counted once more', between=lambda s,a,l,z,m: S.between(s,a,l,z,m)+m[0]),
    misread('safe: always at the start', self_aligned=lambda s,sf,a,l,b,k: s.align_in(l,b,s.start(a)) if sf=='Safe' else S.self_aligned(s,sf,a,l,b,k)),
    misread('safe: never at the start', self_aligned=lambda s,sf,a,l,b,k: s.align_in(l,b,k) if sf=='Safe' else S.self_aligned(s,sf,a,l,b,k)),
    misread('safe: at the physical start', self_aligned=lambda s,sf,a,l,b,k: s.align_in(l,b,'Start' if l[1]-l[0]<b else k) if sf=='Safe' else S.self_aligned(s,sf,a,l,b,k)),
    misread('safe: at the start of the limit', self_aligned=lambda s,sf,a,l,b,k: s.align_in(bounds(a,l),b,s.start(a)) if sf=='Safe' and l[1]-l[0]<b else S.self_aligned(s,sf,a,l,b,k)),
    misread('unsafe as default', self_aligned=lambda s,sf,a,l,b,k: S.self_aligned(s,'Default' if sf=='Unsafe' else sf,a,l,b,k)),
    misread('default as unsafe', self_aligned=lambda s,sf,a,l,b,k: S.self_aligned(s,'Unsafe' if sf=='Default' else sf,a,l,b,k)),
    misread('default as safe', self_aligned=lambda s,sf,a,l,b,k: S.self_aligned(s,'Safe' if sf=='Default' else sf,a,l,b,k)),
    misread('limit for normal', normal=lambda s,a: False),
    misread('no limit for stretch', normal=lambda s,a: a.al in ('Normal','Stretch')),
    misread('limit: the area only', limit=lambda s,a,l: S.limit(s,a,(0,a.size))),
    misread('limit: the block only', limit=lambda s,a,l: (-INF if a.scr and a.rev else l[0], INF if a.scr and not a.rev else l[1])),
    misread('limit: never open', limit=lambda s,a,l: bounds(a,l)),
    misread('limit: open to the right in either direction', limit=lambda s,a,l: (bounds(a,l)[0], INF) if a.scr else bounds(a,l)),
    misread('limit: open at both ends', limit=lambda s,a,l: (-INF, INF) if a.scr else bounds(a,l)),
    misread('too large for the limit: at its left', kept=lambda s,lim,a,l,b,k: lim[0] if not b<=lim[1]-lim[0] else S.kept(s,lim,a,l,b,k)),
    misread('too large for the limit: at the block start', kept=lambda s,lim,a,l,b,k: s.align_in(l,b,s.start(a)) if not b<=lim[1]-lim[0] else S.kept(s,lim,a,l,b,k)),
    misread('too large for the limit: as told', kept=lambda s,lim,a,l,b,k: s.align_in(l,b,k) if not b<=lim[1]-lim[0] else S.kept(s,lim,a,l,b,k)),
    misread('overflow: always at the limit start', kept=lambda s,lim,a,l,b,k: s.align_in(bounds(a,l),b,s.start(a))),
    misread('overflow: only the end of the limit kept', kept=lambda s,lim,a,l,b,k: min(s.align_in(l,b,k),lim[1]-b) if b<=lim[1]-lim[0] else S.kept(s,lim,a,l,b,k)),
    misread('overflow: only the start of the limit kept', kept=lambda s,lim,a,l,b,k: max(s.align_in(l,b,k),lim[0]) if b<=lim[1]-lim[0] else S.kept(s,lim,a,l,b,k)),
    misread('static block: the area', static_block=lambda s,k,ar,w: (0,w)),
    misread('static block: the static area', static_block=lambda s,k,ar,w: ar),
    misread('static block: end as start', static_block=lambda s,k,ar,w: S.static_block(s,'Start' if k=='End' else k,ar,w)),
    misread('static center: the farther edge', centered=lambda s,c,w: (0,2*c) if abs(c)>abs(w-c) else (w-2*(w-c),w)),
    misread('static center: the block is the area', centered=lambda s,c,w: (0,w)),
    misread('static center: as far on either side as the nearer edge', centered=lambda s,c,w: (lambda h: (c-h,c+h))(min(abs(c),abs(w-c)))),
    misread('static center: from the center on', centered=lambda s,c,w: (c,w)),
    misread('static: aligned in the block', from_static=lambda s,a,l,z,m: s.align_in(l,s.box(z,m),a.key)+m[0]),
    misread('static: aligned by justify-self', from_static=lambda s,a,l,z,m: s.align_in(a.area,s.box(z,m),s.edge(a.al,a))+m[0]),
    misread('static: edge by direction', from_static=lambda s,a,l,z,m: s.align_in(a.area,s.box(z,m),{'Start':s.start(a),'End':s.end(a),'Center':'Center'}[a.key])+m[0]),
    misread('static: margin ignored', from_static=lambda s,a,l,z,m: s.static_aligned(a.psf,a,l,s.box(z,m))),
    misread('static safe: always at the start', static_aligned=lambda s,sf,a,l,b: s.align_in(l,b,s.start(a)) if sf=='Safe' else S.static_aligned(s,sf,a,l,b)),
    misread('static safe: never at the start', static_aligned=lambda s,sf,a,l,b: S.static_aligned(s,'Unsafe',a,l,b)),
    misread('static safe: at the physical start', static_aligned=lambda s,sf,a,l,b: l[0] if sf=='Safe' and l[1]-l[0]<b else S.static_aligned(s,sf,a,l,b)),
    misread('static safe: where it overflows the static area', static_aligned=lambda s,sf,a,l,b: s.align_in(a.area,b,s.start(a)) if sf=='Safe' and a.area[1]-a.area[0]<b else S.static_aligned(s,'Unsafe',a,l,b)),
    misread('static default as safe', static_aligned=lambda s,sf,a,l,b: S.static_aligned(s,'Safe' if sf=='Default' else sf,a,l,b)),
    misread('static unsafe as safe', static_aligned=lambda s,sf,a,l,b: S.static_aligned(s,'Safe' if sf=='Unsafe' else sf,a,l,b)),
    misread('negative free space: to the other margin', halves=lambda s,f,a: ((0,f) if a.rev else (f,0)) if f<0 and a.inline else (F(f,2),)*2),
    misread('negative free space: not by direction', halves=lambda s,f,a: (0,f) if f<0 and a.inline else (F(f,2),)*2),
    misread('negative free space: halves in the inline axis', halves=lambda s,f,a: (F(f,2),)*2),
    misread('negative free space: block axis as inline', halves=lambda s,f,a: ((f,0) if a.rev else (0,f)) if f<0 else (F(f,2),)*2),
    misread('negative free space: 0 and 0', halves=lambda s,f,a: (0,0) if f<0 and a.inline else (F(f,2),)*2),
    misread('free space: all to the start margin', halves=lambda s,f,a: (f,0) if f>=0 else S.halves(s,f,a)),
    misread('lone auto margin: 0', filled=lambda s,ms,me,f,a: S.filled(s,ms,me,f,a) if (ms is None)==(me is None) else (zero(ms),zero(me))),
    misread('lone auto margin: all free space', filled=lambda s,ms,me,f,a: (ms,f) if ms is not None and me is None else (f,me) if me is not None and ms is None else S.filled(s,ms,me,f,a)),
    misread('lone auto margin: not below 0', filled=lambda s,ms,me,f,a: (ms,max(f-ms,0)) if ms is not None and me is None else S.filled(s,ms,me,f,a)),
    misread('auto margins also with one inset', both=lambda s,a: a.inset!=(None,None)),
    misread('auto margins: aligned in the block all the same', auto_place=lambda s,a,l,z,m: s.between(a,l,z,(zero(a.margin[0]),zero(a.margin[1])))),
    misread('auto margins: box at the inset, margin ignored', auto_place=lambda s,a,l,z,m: l[0]),
    misread('stretch-fit: margins left out', stretch_fit=lambda s,a: max(s.block(a)[1]-s.block(a)[0],0)),
    misread('stretch-fit: below 0', stretch_fit=lambda s,a: s.block(a)[1]-s.block(a)[0]-zero(a.margin[0])-zero(a.margin[1])),
    misread('stretch-fit: of the area', stretch_fit=lambda s,a: max(a.size-zero(a.margin[0])-zero(a.margin[1]),0)),
    misread('stretches with one inset', stretches=lambda s,a,p: a.inset!=(None,None) and s.stretching(a.al,p)),
    misread('normal stretches replaced boxes', stretching=lambda s,k,p: k in ('Stretch','Normal')),
    misread('normal never stretches', stretching=lambda s,k,p: k=='Stretch'),
]


# ---- inputs

def sample(r):
    n = lambda lo, hi: r.randrange(lo, hi + 1)
    may = lambda lo, hi: None if r.random() < .4 else n(lo, hi)
    pick = lambda *xs: r.choice(xs)
    at = n(-60, 160)
    return Input(size=n(-20, 160), inset=(may(-60, 160), may(-60, 160)), margin=(may(-40, 60), may(-40, 60)), area=(at, at + n(0, 60)),
        key=pick('Start', 'Center', 'End'), psf=pick('Default', 'Unsafe', 'Safe'), al=pick('Normal', 'Stretch', 'Start', 'Center', 'End'),
        sf=pick('Default', 'Unsafe', 'Safe'), inline=pick(False, True), rev=pick(False, True), scr=pick(False, True)), n(0, 260)

def inputs(count, seed=7):
    r = random.Random(seed)
    return [sample(r) for _ in range(count)]
