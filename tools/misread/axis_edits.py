"""Misreadings of one axis, written into definition and code alike, under their names in axis.py. `edits.py` says what an entry is and tries them."""
AXIS, CODE = 'oof_axis/specs/Axis.antt', 'oof_axis/src/lib.rt'
LAWS = ['oof_axis']
MODEL, BLOCKS, MARGINS, PLACES = [f'mirror_axis/proofs/{n}.antt' for n in ('Model', 'ExactBlock', 'ExactMargins', 'ExactPlace')]

# ---- lines of the definition

LONE_START, LONE_END = 'position_in (Some start) None a l size m = ', 'position_in None (Some end) a l size m = '
BOX = '(size ⊕ m.start ⊕ m.end)'
BETWEEN = f'self_aligned a.safety a l {BOX} (align_edge a.alignment a) ⊕ m.start'
BLOCK = 'block a = repaired (start_is_weaker a.inset.start a.inset.end a) (inset_block a.inset.start a.inset.end a)'
CLOSED = '(cond startWeaker (l.end to l.end) (l.start to l.start))'
MIDDLE = '((l.start ⊕ l.end) ⊘ 2f to (l.start ⊕ l.end) ⊘ 2f)'
IS_END, IS_START = 'end_edge a.reversed', 'start_edge a.reversed'
SAFE = f'self_aligned Safe a l outer edge = align_in l outer (cond (lt (span l) outer) ({IS_START}) edge)'
DEFAULT = '\n    cond (le outer (span l) || is_normal a.alignment) (align_in l outer edge) (kept_within (limit a l) a l outer edge)'
LIMIT = 'cond a.scrolls (cond a.reversed (inf true to end) (start to inf false)) (start to end)'
TOO_LARGE = f'(align_in lim outer ({IS_START}))'
STATIC, STATIC_START = 'align_in a.place.area outer a.place.align.keyword', f'align_in l outer ({IS_START})'
STATIC_SAFE = f'cond (lt (span l) outer) ({STATIC_START}) ({STATIC})'
HALF = '(free ⊘ 2f to free ⊘ 2f)'
NEGATIVE = '(cond a.reversed (free to 0f) (0f to free))'
HALVES = f'halves free a = cond (lt free 0f && a.inline) {NEGATIVE} {HALF}'

# ---- pieces of the code

def field(name, value): return name if value == name else f'{name}: {value}'
def line(start, end, indent): return f'Line {{\n{" " * (indent + 4)}{field("start", start)},\n{" " * (indent + 4)}{field("end", end)},\n{" " * indent}}}'
def block_line(start, end): return line(start, end, 12)
def arm(name, value): return f'AlignmentSafety::{name} => {value},'
AT_END = '(None, Some(_)) => imcb.end - size - margin.end,'
# a lone start inset, and an auto margin between two, have one arm
AT_BLOCK = '(Some(_), _) => imcb.start + margin.start,'
def at_start(value): return f'(Some(_), None) => {value},\n            (Some(_), Some(_)) => imcb.start + margin.start,'
def at_auto(value): return f'(Some(_), None) => imcb.start + margin.start,\n            (Some(_), Some(_)) => {value},'
TOLD = 'self.alignment.physical_edge(self)'
ALIGN_HERE = f'self.self_aligned(imcb, outer, {TOLD}) + margin.start'
ALIGNED = 'self.self_aligned(imcb, outer, edge) + margin.start'
TWO, FROM, TO = '(Some(start), Some(end)) => ', '(Some(start), None) => ', '(None, Some(end)) => '
BETWEEN_EDGES, FROM_EDGE, TO_EDGE = f'{TWO}{block_line("start", "self.size - end")}', f'{FROM}{block_line("start", "self.size")}', f'{TO}{block_line("0.0", "self.size - end")}'
BY_DIRECTION = '(Some(_), Some(_)) | (None, None) => self.reversed,'
KEPT = '''{
                if outer <= size || self.alignment == OofAlignment::Normal {
                    align_in_line(imcb, outer, edge)
                } else {
                    self.kept_within(self.overflow_limit(imcb), imcb, outer, edge)
                }
            }'''
AS_TOLD, FLUSH = 'align_in_line(imcb, outer, edge)', 'align_in_line(imcb, outer, self.start_edge())'
def if_over(size, value): return f'AlignmentSafety::Safe if outer > {size} => {{\n                {value}\n            }}'
AT_SAFE, AT_STATIC_SAFE = if_over('size', FLUSH), if_over('imcb.end - imcb.start', FLUSH)
CODE_STATIC = 'align_in_line(self.place.area, outer, self.place.align.keyword)'
HALVED, LEFTWARDS, RIGHTWARDS = line('free / 2.0', 'free / 2.0', 12), line('free', '0.0', 12), line('0.0', 'free', 12)
KEPT_WITHIN = 'sys::f32_max(sys::f32_min(start, limit.end - outer), limit.start)'
LIMIT_LEFT, LIMIT_RIGHT = line('f32::NEG_INFINITY', 'end', 12), line('start', 'f32::INFINITY', 12)
USED = 'Axis.{from_resolved, '

# a static position's box aligned by another rule, safe or not
def static_as(new): return [
    (AXIS, f'static_aligned Default a l outer = {STATIC}', f'static_aligned Default a l outer = {new}'),
    (AXIS, f'static_aligned Unsafe a l outer = {STATIC}', f'static_aligned Unsafe a l outer = {new}'),
    (AXIS, STATIC_SAFE, f'cond (lt (span l) outer) ({new}) ({new})')]

# ---- on quarters

OF_FLOATS = 'oof_axis/proofs/Laws.antt'
AROUND_N = '(zero_n toN dbl_n c) (sub_n w (dbl_n (sub_n w c)) toN w)'
NEARER = 'cond (le (magnitude center) (magnitude (areaSize ⊖ center)))'
FROM_START = '(record { start = zero_exact; end = widen (omega arith) (dbl_exact hc (omega arith)) })'
TO_END = '(record { start = widen (omega arith) (sub_exact hw (dbl_exact rest (omega arith)) (omega arith)); end = widen (omega arith) hw })'
TWICE, LESS_TWICE = '(widen (omega arith) (dbl_exact hc (omega arith)))', '(widen (omega arith) (sub_exact hw (dbl_exact rest (omega arith)) (omega arith)))'
def sorted_exact(one, other): return f'(record {{ start = smaller_exact {one} {other}; end = larger_exact {one} {other} }})'
SPACE = 'span (block a) ⊖ (or_zero a.margin.start ⊕ or_zero a.margin.end)'
SPACE_N = 'sub_n (span_n (block_n σ α)) (add_n (or_zero_n σ.margin_start α.margin.start) (or_zero_n σ.margin_end α.margin.end))'
UNLIMITED = 'self.alignment == OofAlignment::Normal'
LIMITED_N = ('limited_n false reversed', 'abbrev pub self_n')
OPEN = 'cond scrolls (cond reversed (inf true to end) (start to inf false)) (start to end)'
LIMITED_EXACT = ('  limited_exact false r', '  -- ---- the box in the block')

# Of a misreading that only a law on quarters refuses, the integers of an axis, and the proof that they are its numbers, are a third place to be
# misread alike. What has no part in those laws is taken away before they are asked: the code, once it was held to the definition, and
# what speaks of mirror images, which many a misreading breaks too.
NO_CODE = [(CODE, ('// ---- static offsets', None), '')]
NO_MIRROR = [(f'mirror_axis/proofs/{n}.antt', None, None) for n in ('FlipBlock', 'FlipPlace', 'Offset', 'Facing', 'Examples', 'Opposite')] + [
    ('mirror_axis/proofs/Lib.antt', ('pub mod FlipBlock', None), 'pub mod FlipMargins\npub mod Law\n'),
    ('mirror_axis/proofs/FlipMargins.antt', ('use Rattle.mirror_axis.proofs.FlipBlock', '-- ---- with both insets'), '\n'),
    ('mirror_axis/proofs/Law.antt', ('use Rattle.mirror_axis.proofs.FlipBlock', '-- the numbers of an axis'), '\n'),
    ('mirror_axis/proofs/Law.antt', ('image_exact :', None), '')]
QUARTERS = ['oof_axis', ('oof_axis_laws', NO_CODE + NO_MIRROR)]
# Of a block that isn't of whole quarters the integers have no margins and no place: there the law of the block around a static center stands alone
LAW_PROOFS = 'oof_axis_laws/proofs/Laws.antt'
AROUND_ALONE = [(f'mirror_axis/proofs/{n}.antt', None, None) for n in ('ExactMargins', 'ExactPlace', 'FlipMargins')] + [
    ('mirror_axis/proofs/Lib.antt', ('pub mod ExactMargins', 'pub mod Law'), ''),
    (LAW_PROOFS, ('use Rattle.mirror_axis.proofs.ExactMargins', 'use Rattle.mirror_axis.proofs.Law'), ''),
    (LAW_PROOFS, ('pub record Stands', 'is_absent :'), ''),
    (LAW_PROOFS, 'line : LineExact 4', 'line : LineExact 2'),
    (LAW_PROOFS, ('  given_start :', '  abbrev area :'), ''),
    (LAW_PROOFS, ('  static_middle :', '  static_even :'), ''),
    (LAW_PROOFS, ('  abbrev unset :', '  -- the block as the static position has it'), ''),
    (LAW_PROOFS, ('  static_safe_at :', '-- what the sums say'), ''),
    (LAW_PROOFS, ('  abbrev unsafe :', '  -- ---- the block around the static center'), ''),
    (LAW_PROOFS, ('  -- ---- the stretch-fit size', '-- ---- the laws'), ''),
    (LAW_PROOFS, ('pub fits_inside :', 'pub block_around_static_center'), ''),
    (LAW_PROOFS, ('pub stretch_fits :', None), '')]
# OverflowIsReachable: these misreadings keep it, but not its proof, which goes by the limit
NO_REACH = [
    (OF_FLOATS, ('-- where the limit opens to the right', 'pub not_normal'), ''),
    (OF_FLOATS, ('default_aligned :', '-- ---- the static position'), '')]

# a limit with other edges: of the definition, of the code, of the integers, and of the proof that these are those
def limits(start, end, code_start, code_end, start_n, end_n, low, high, low_exact, high_exact): return [
    (AXIS, 'let start = smaller l.start 0f in', f'let start = smaller ({start}) ({start}) in'),
    (AXIS, 'let end = larger l.end a.size in', f'let end = larger ({end}) ({end}) in'),
    (CODE, 'sys::f32_min(imcb.start, 0.0)', f'sys::f32_min({code_start}, {code_start})'),
    (CODE, 'sys::f32_max(imcb.end, self.size)', f'sys::f32_max({code_end}, {code_end})'),
    (MODEL, 'min_n l.start zero_n toN max_n l.end w', f'min_n ({start_n}) ({start_n}) toN max_n ({end_n}) ({end_n})'),
    (PLACES, '(smaller l.start 0f) (limit_n', f'(smaller ({low}) ({low})) (limit_n'),
    (PLACES, '(larger l.end w) (limit_n', f'(larger ({high}) ({high})) (limit_n'),
    (PLACES, 'smaller_exact h.start zero_exact', f'smaller_exact ({low_exact}) ({low_exact})'),
    (PLACES, 'larger_exact h.end (widen (omega arith) hw)', f'larger_exact ({high_exact}) ({high_exact})'),
    (PLACES, 'let start = smaller l.start 0f in', f'let start = smaller ({low}) ({low}) in'),
    (PLACES, 'let end = larger l.end w in', f'let end = larger ({high}) ({high}) in')]

SELF_EXACT_SAFE = '''  self_exact Default {l} {m} {box} {ω} {v} a k h hw b = rw (lt_exact (span_of h) b) (go (lt_n (span_n m) v))
    where
      go : (t : Bool) → Aligned (align_in l box (cond t (start_edge a.reversed) k)) (align_n m v (cond t (start_of a.reversed) k))
      go true = start_exact a h b
      go false = align_exact k h b

'''
NORMAL_AS_SAFE = '''normal_aligned Default a l outer n = go (lt (span l) outer)
  where
    go : (b : Bool) → align_in l outer (cond b (start_edge a.reversed) (start_edge a.reversed)) ≡ align_in l outer (start_edge a.reversed)
    go true = refl
    go false = refl

'''

EDITS = [
    # one inset
    ('lone start inset: the end margin', LAWS, [
        (AXIS, LONE_START + 'l.start ⊕ m.start', LONE_START + 'l.start ⊕ m.end'),
        (CODE, AT_BLOCK, at_start('imcb.start + margin.end'))]),
    ('lone end inset: the start margin', LAWS, [
        (AXIS, LONE_END + 'l.end ⊖ size ⊖ m.end', LONE_END + 'l.end ⊖ size ⊖ m.start'),
        (CODE, AT_END, '(None, Some(_)) => imcb.end - size - margin.start,')]),
    ('lone start inset: margin ignored', LAWS, [
        (AXIS, LONE_START + 'l.start ⊕ m.start', LONE_START + 'l.start'),
        (CODE, AT_BLOCK, at_start('imcb.start'))]),
    ('lone end inset: margin ignored', LAWS, [
        (AXIS, LONE_END + 'l.end ⊖ size ⊖ m.end', LONE_END + 'l.end ⊖ size'),
        (CODE, AT_END, '(None, Some(_)) => imcb.end - size,')]),
    ('lone start inset: centered in its block', LAWS, [
        (AXIS, LONE_START + 'l.start ⊕ m.start', LONE_START + f'align_in l {BOX} Center ⊕ m.start'),
        (CODE, AT_BLOCK, at_start('align_in_line(imcb, outer, AxisStaticEdge::Center) + margin.start'))]),
    ('lone start inset: aligned in its block', LAWS, [
        (AXIS, LONE_START + 'l.start ⊕ m.start', LONE_START + BETWEEN),
        (CODE, AT_BLOCK, at_start(ALIGN_HERE))]),
    ('lone end inset: aligned in its block', LAWS, [
        (AXIS, LONE_END + 'l.end ⊖ size ⊖ m.end', LONE_END + BETWEEN),
        (CODE, AT_END, f'(None, Some(_)) => {ALIGN_HERE},')]),
    ('lone start inset, right-to-left: from the far edge', LAWS, [
        (AXIS, LONE_START + 'l.start ⊕ m.start', LONE_START + 'cond a.reversed (l.end ⊖ size ⊖ m.end) (l.start ⊕ m.start)'),
        (CODE, AT_BLOCK, at_start('if self.reversed { imcb.end - size - margin.end } else { imcb.start + margin.start }'))]),
    ('lone end inset: counted from the start edge', LAWS, [
        (AXIS, 'inset_block None (Some end) a = 0f to a.size ⊖ end', 'inset_block None (Some end) a = 0f to end'),
        (CODE, TO_EDGE, TO + block_line('0.0', 'end'))]),
    ('lone start inset: block is the area', LAWS, [
        (AXIS, 'inset_block (Some start) None a = start to a.size', 'inset_block (Some start) None a = 0f to a.size'),
        (CODE, FROM_EDGE, '(Some(_), None) => ' + block_line('0.0', 'self.size'))]),
    ('lone end inset: block is the area', LAWS, [
        (AXIS, 'inset_block None (Some end) a = 0f to a.size ⊖ end', 'inset_block None (Some end) a = 0f to a.size'),
        (CODE, TO_EDGE, '(None, Some(_)) => ' + block_line('0.0', 'self.size'))]),
    # two insets
    ('two insets: block is the area', LAWS, [
        (AXIS, 'inset_block (Some start) (Some end) a = start to a.size ⊖ end', 'inset_block (Some start) (Some end) a = 0f to a.size'),
        (CODE, BETWEEN_EDGES, '(Some(_), Some(_)) => ' + block_line('0.0', 'self.size'))]),
    ('two insets: end inset as a position', LAWS, [
        (AXIS, 'inset_block (Some start) (Some end) a = start to a.size ⊖ end', 'inset_block (Some start) (Some end) a = start to end'),
        (CODE, BETWEEN_EDGES, TWO + block_line('start', 'end'))]),
    ('two insets: exchanged', LAWS, [
        (AXIS, 'inset_block (Some start) (Some end) a = start to a.size ⊖ end', 'inset_block (Some start) (Some end) a = end to a.size ⊖ start'),
        (CODE, BETWEEN_EDGES, TWO + block_line('end', 'self.size - start'))]),
    ('block never repaired', LAWS, [
        (AXIS, BLOCK, 'block a = inset_block a.inset.start a.inset.end a'),
        (CODE, 'repaired(self.start_is_weaker(), self.inset_block())', 'self.inset_block()')]),
    ('weaker edge: always right', LAWS, [
        (AXIS, 'start_is_weaker (Some start) (Some end) a = a.reversed', 'start_is_weaker (Some start) (Some end) a = false'),
        (AXIS, 'start_is_weaker None (Some end) a = true', 'start_is_weaker None (Some end) a = false'),
        (AXIS, 'start_is_weaker None None a = a.reversed', 'start_is_weaker None None a = false'),
        (CODE, '(None, Some(_)) => true,', '(None, Some(_)) => false,'),
        (CODE, BY_DIRECTION, BY_DIRECTION.replace('self.reversed', 'false'))]),
    ('weaker edge: start by direction', LAWS, [
        (AXIS, '{Bool, true, false, cond, ', '{Bool, true, false, not, cond, '),
        (AXIS, 'start_is_weaker (Some start) (Some end) a = a.reversed', 'start_is_weaker (Some start) (Some end) a = not a.reversed'),
        (AXIS, 'start_is_weaker None None a = a.reversed', 'start_is_weaker None None a = not a.reversed'),
        (CODE, BY_DIRECTION, BY_DIRECTION.replace('self', '!self'))]),
    ('weaker edge with one inset: the inset side', LAWS, [
        (AXIS, 'start_is_weaker (Some start) None a = false', 'start_is_weaker (Some start) None a = true'),
        (AXIS, 'start_is_weaker None (Some end) a = true', 'start_is_weaker None (Some end) a = false'),
        (CODE, '(None, Some(_)) => true,', '(None, Some(_)) => false,'),
        (CODE, '(Some(_), None) => false,', '(Some(_), None) => true,')]),
    ('closed block: in the middle', LAWS, [
        (AXIS, CLOSED, f'(cond startWeaker {MIDDLE} {MIDDLE})'),
        (CODE, 'if startweaker { raw.end } else { raw.start }', 'if startweaker { (raw.start + raw.end) / 2.0 } else { (raw.start + raw.end) / 2.0 }')]),
    # alignment
    ('end aligned as start', LAWS, [
        (AXIS, f'align_edge align.End a = {IS_END}', f'align_edge align.End a = {IS_START}'),
        (CODE, 'OofAlignment::End => axis.end_edge(),', 'OofAlignment::End => axis.start_edge(),')]),
    ('center aligned as start', LAWS, [
        (AXIS, 'align_edge align.Center a = Center', f'align_edge align.Center a = {IS_START}'),
        (CODE, 'OofAlignment::Center => AxisStaticEdge::Center,', 'OofAlignment::Center => axis.start_edge(),')]),
    ('start and end physical', LAWS, [
        (AXIS, IS_START, 'start_edge false', 6),
        (AXIS, IS_END, 'end_edge false'),
        (AXIS, 'start_is_weaker (Some start) (Some end) a = a.reversed', 'start_is_weaker (Some start) (Some end) a = false'),
        (AXIS, 'start_is_weaker None None a = a.reversed', 'start_is_weaker None None a = false'),
        (CODE, '{◌≡◌, not, ', '{◌≡◌, false, not, '),
        (CODE, 'result ≡ start_edge self.reversed', 'result ≡ start_edge false'),
        (CODE, 'result ≡ end_edge self.reversed', 'result ≡ end_edge false'),
        (CODE, 'AxisStaticEdge::start(self.reversed)', 'AxisStaticEdge::start(false)'),
        (CODE, 'AxisStaticEdge::end(self.reversed)', 'AxisStaticEdge::end(false)'),
        (CODE, BY_DIRECTION, BY_DIRECTION.replace('self.reversed', 'false'))]),
    ('stretch aligned as center', LAWS, [
        (AXIS, f'align_edge align.Stretch a = {IS_START}', 'align_edge align.Stretch a = Center'),
        (CODE, 'OofAlignment::Normal | OofAlignment::Stretch | OofAlignment::Start => axis.start_edge(),\n            OofAlignment::Center',
            'OofAlignment::Normal | OofAlignment::Start => axis.start_edge(),\n            OofAlignment::Stretch | OofAlignment::Center')]),
    ('normal aligned as end', LAWS, [
        (AXIS, f'align_edge align.Normal a = {IS_START}', f'align_edge align.Normal a = {IS_END}'),
        (CODE, 'OofAlignment::Normal | OofAlignment::Stretch |', 'OofAlignment::Stretch |'),
        (CODE, 'OofAlignment::End => axis.end_edge(),', 'OofAlignment::Normal | OofAlignment::End => axis.end_edge(),')]),
    ('center in the area', LAWS, [
        (AXIS, '-- one inset: at that inset', '''abbrev pub align_line : OofAlignment → OofAxis → Line Float → Line Float
align_line align.Normal a l = l
align_line align.Stretch a l = l
align_line align.Start a l = l
align_line align.Center a l = 0f to a.size
align_line align.End a l = l

-- one inset: at that inset'''),
        (AXIS, f'({BETWEEN})', f'(self_aligned a.safety a (align_line a.alignment a l) {BOX} (align_edge a.alignment a) ⊕ m.start)'),
        (CODE, USED, f'{USED}align_line, '),
        (CODE, '    // Where the border box of a final size begins.', '''    fn align_line(self, imcb: Line<f32>) -> Line<f32>
        ensures { result ≡ align_line self.alignment self imcb }
    {
        match self.alignment {
            OofAlignment::Normal | OofAlignment::Stretch | OofAlignment::Start | OofAlignment::End => imcb,
            OofAlignment::Center => Line { start: 0.0, end: self.size },
        }
    }

    // Where the border box of a final size begins.'''),
        (CODE, ALIGNED, 'self.self_aligned(self.align_line(imcb), outer, edge) + margin.start')]),
    ('alignment: border box, margins left out', LAWS, [
        (AXIS, BOX, 'size', 2),
        (CODE, '        let outer = size + margin.start + margin.end;\n        match (self.inset', '        let outer = size;\n        match (self.inset')]),
    ('alignment: start margin counted once more', LAWS, [
        (AXIS, f'({BETWEEN})', f'({BETWEEN} ⊕ m.start)'),
        (CODE, ALIGNED, f'{ALIGNED} + margin.start')]),
    # safety
    ('safe: always at the start', LAWS, [
        (AXIS, SAFE, f'self_aligned Safe a l outer edge = align_in l outer (cond (lt (span l) outer) ({IS_START}) ({IS_START}))'),
        (CODE, arm('Safe', AS_TOLD), arm('Safe', FLUSH))]),
    ('safe: never at the start', LAWS, [
        (AXIS, SAFE, 'self_aligned Safe a l outer edge = align_in l outer (cond (lt (span l) outer) edge edge)'),
        (CODE, AT_SAFE, if_over('size', AS_TOLD))]),
    ('safe: at the physical start', LAWS, [
        (AXIS, SAFE, 'self_aligned Safe a l outer edge = align_in l outer (cond (lt (span l) outer) Start edge)'),
        (CODE, AT_SAFE, if_over('size', 'align_in_line(imcb, outer, AxisStaticEdge::Start)'))]),
    ('safe: at the start of the limit', LAWS, [
        (AXIS, SAFE, f'self_aligned Safe a l outer edge = cond (lt (span l) outer) (align_in (smaller l.start 0f to larger l.end a.size) outer ({IS_START})) (align_in l outer edge)'),
        (CODE, AT_SAFE, if_over('size', f'let bounds = {line("sys::f32_min(imcb.start, 0.0)", "sys::f32_max(imcb.end, self.size)", 16)};\n                align_in_line(bounds, outer, self.start_edge())'))]),
    ('unsafe as default', LAWS, [
        (AXIS, 'self_aligned Unsafe a l outer edge = align_in l outer edge', f'self_aligned Unsafe a l outer edge = {DEFAULT}'),
        (CODE, arm('Unsafe', AS_TOLD), f'AlignmentSafety::Unsafe => {KEPT}')]),
    ('default as unsafe', LAWS, [
        (AXIS, f'self_aligned Default a l outer edge ={DEFAULT}', 'self_aligned Default a l outer edge = align_in l outer edge'),
        (CODE, f'AlignmentSafety::Default => {KEPT}', arm('Default', AS_TOLD))]),
    # the limit
    ('limit for normal', LAWS, [
        (AXIS, 'is_normal align.Normal = true', 'is_normal align.Normal = false'),
        (CODE, f' || {UNLIMITED}', '')]),
    ('limit: open at both ends', LAWS, [
        (AXIS, LIMIT, 'cond a.scrolls (cond a.reversed (inf true to inf false) (inf true to inf false)) (start to end)'),
        (CODE, LIMIT_LEFT, line('f32::NEG_INFINITY', 'f32::INFINITY', 12)),
        (CODE, LIMIT_RIGHT, line('f32::NEG_INFINITY', 'f32::INFINITY', 12))]),
    ('too large for the limit: as told', LAWS, [
        (AXIS, TOO_LARGE, '(align_in l outer edge)'),
        (CODE, 'align_in_line(limit, outer, self.start_edge())', 'align_in_line(imcb, outer, edge)')]),
    ('overflow: only the end of the limit kept', LAWS, [
        (AXIS, '(larger (smaller (align_in l outer edge) (lim.end ⊖ outer)) lim.start)', '(smaller (align_in l outer edge) (lim.end ⊖ outer))'),
        (CODE, KEPT_WITHIN, 'sys::f32_min(start, limit.end - outer)')]),
    # the static position
    ('static block: the area', LAWS, [
        (AXIS, 'static_block Start static areaSize = static.start to areaSize', 'static_block Start static areaSize = 0f to areaSize'),
        (AXIS, 'static_block Center static areaSize = centered_block ((static.start ⊕ static.end) ⊘ 2f) areaSize', 'static_block Center static areaSize = 0f to areaSize'),
        (AXIS, 'static_block End static areaSize = 0f to static.end', 'static_block End static areaSize = 0f to areaSize'),
        (CODE, line('area.start', 'size', 8), line('0.0', 'size', 8)),
        (CODE, 'centered_block((area.start + area.end) / 2.0, size)', line('0.0', 'size', 8)),
        (CODE, line('0.0', 'area.end', 8), line('0.0', 'size', 8))]),
    ('static block: the static area', LAWS, [
        (AXIS, 'static_block Start static areaSize = static.start to areaSize', 'static_block Start static areaSize = static'),
        (AXIS, 'static_block Center static areaSize = centered_block ((static.start ⊕ static.end) ⊘ 2f) areaSize', 'static_block Center static areaSize = static'),
        (AXIS, 'static_block End static areaSize = 0f to static.end', 'static_block End static areaSize = static'),
        (CODE, line('area.start', 'size', 8), 'area'),
        (CODE, 'centered_block((area.start + area.end) / 2.0, size)', 'area'),
        (CODE, line('0.0', 'area.end', 8), 'area')]),
    ('static block: end as start', LAWS, [
        (AXIS, 'static_block End static areaSize = 0f to static.end', 'static_block End static areaSize = static.start to areaSize'),
        (CODE, line('0.0', 'area.end', 8), line('area.start', 'size', 8))]),
    ('static: aligned in the block', LAWS, static_as('align_in l outer a.place.align.keyword') + [
        (CODE, CODE_STATIC, 'align_in_line(imcb, outer, self.place.align.keyword)'),
        (CODE, AT_STATIC_SAFE, if_over('imcb.end - imcb.start', 'align_in_line(imcb, outer, self.place.align.keyword)'))]),
    ('static: aligned by justify-self', LAWS, static_as('align_in a.place.area outer (align_edge a.alignment a)') + [
        (CODE, AT_STATIC_SAFE, if_over('imcb.end - imcb.start', CODE_STATIC)),
        (CODE, CODE_STATIC, CODE_STATIC.replace('self.place.align.keyword', TOLD), 2)]),
    ('static: edge by direction', LAWS, [
        (AXIS, '-- no insets: the margin box aligned', '''abbrev pub by_direction : AxisStaticEdge → OofAxis → AxisStaticEdge
by_direction Start a = start_edge a.reversed
by_direction Center a = Center
by_direction End a = end_edge a.reversed

-- no insets: the margin box aligned''')] + static_as('align_in a.place.area outer (by_direction a.place.align.keyword a)') + [
        (CODE, USED, f'{USED}by_direction, '),
        (CODE, '    // Where the border box of a final size begins.', '''    fn by_direction(self, edge: AxisStaticEdge) -> AxisStaticEdge
        ensures { result ≡ by_direction edge self }
    {
        match edge {
            AxisStaticEdge::Start => self.start_edge(),
            AxisStaticEdge::Center => AxisStaticEdge::Center,
            AxisStaticEdge::End => self.end_edge(),
        }
    }

    // Where the border box of a final size begins.'''),
        (CODE, AT_STATIC_SAFE, if_over('imcb.end - imcb.start', CODE_STATIC)),
        (CODE, CODE_STATIC, CODE_STATIC.replace('self.place.align.keyword', 'self.by_direction(self.place.align.keyword)'), 2)]),
    ('static: margin ignored', LAWS, [
        (AXIS, f'static_aligned a.place.align.safety a l {BOX} ⊕ m.start', f'static_aligned a.place.align.safety a l {BOX}'),
        (CODE, 'self.static_aligned(imcb, outer) + margin.start', 'self.static_aligned(imcb, outer)')]),
    ('static safe: always at the start', LAWS, [
        (AXIS, STATIC_SAFE, f'cond (lt (span l) outer) ({STATIC_START}) ({STATIC_START})'),
        (CODE, f'_ => {CODE_STATIC}', f'AlignmentSafety::Safe => {FLUSH},\n            _ => {CODE_STATIC}')]),
    ('static safe: never at the start', LAWS, [
        (AXIS, STATIC_SAFE, f'cond (lt (span l) outer) ({STATIC}) ({STATIC})'),
        (CODE, AT_STATIC_SAFE, if_over('imcb.end - imcb.start', CODE_STATIC))]),
    ('static safe: at the physical start', LAWS, [
        (AXIS, STATIC_SAFE, f'cond (lt (span l) outer) (align_in l outer Start) ({STATIC})'),
        (CODE, AT_STATIC_SAFE, if_over('imcb.end - imcb.start', 'align_in_line(imcb, outer, AxisStaticEdge::Start)'))]),
    ('static safe: where it overflows the static area', LAWS, [
        (AXIS, STATIC_SAFE, f'cond (lt (span a.place.area) outer) (align_in a.place.area outer ({IS_START})) ({STATIC})'),
        (CODE, AT_STATIC_SAFE, if_over('self.place.area.end - self.place.area.start', 'align_in_line(self.place.area, outer, self.start_edge())'))]),
    ('static default as safe', LAWS, [
        (AXIS, f'static_aligned Default a l outer = {STATIC}', f'static_aligned Default a l outer = {STATIC_SAFE}'),
        (CODE, AT_STATIC_SAFE, f'{AT_STATIC_SAFE}\n            {AT_STATIC_SAFE.replace("Safety::Safe", "Safety::Default")}')]),
    ('static unsafe as safe', LAWS, [
        (AXIS, f'static_aligned Unsafe a l outer = {STATIC}', f'static_aligned Unsafe a l outer = {STATIC_SAFE}'),
        (CODE, AT_STATIC_SAFE, f'{AT_STATIC_SAFE}\n            {AT_STATIC_SAFE.replace("Safety::Safe", "Safety::Unsafe")}')]),
    # margins
    ('negative free space: to the other margin', LAWS, [
        (AXIS, NEGATIVE, '(cond a.reversed (0f to free) (free to 0f))'),
        (CODE, LEFTWARDS, line('0.0', 'FREE', 12)),
        (CODE, RIGHTWARDS, line('free', '0.0', 12)),
        (CODE, 'FREE', 'free')]),
    ('negative free space: not by direction', LAWS, [
        (AXIS, NEGATIVE, '(cond a.reversed (0f to free) (0f to free))'),
        (CODE, LEFTWARDS, RIGHTWARDS)]),
    ('negative free space: halves in the inline axis', LAWS, [
        (AXIS, NEGATIVE, f'(cond a.reversed {HALF} {HALF})'),
        (CODE, LEFTWARDS, HALVED),
        (CODE, RIGHTWARDS, HALVED)]),
    ('negative free space: block axis as inline', LAWS, [
        (AXIS, HALVES, f'halves free a = cond (lt free 0f) {NEGATIVE} {HALF}'),
        (CODE, 'if !self.overflows_inline(free) {', 'if !(free < 0.0) {')]),
    ('negative free space: 0 and 0', LAWS, [
        (AXIS, NEGATIVE, '(cond a.reversed (0f to 0f) (0f to 0f))'),
        (CODE, LEFTWARDS, line('0.0', '0.0', 12)),
        (CODE, RIGHTWARDS, line('0.0', '0.0', 12))]),
    ('free space: all to the start margin', LAWS, [
        (AXIS, HALVES, f'halves free a = cond (lt free 0f) (cond a.inline {NEGATIVE} {HALF}) (free to 0f)'),
        (CODE, 'if !self.overflows_inline(free) {\n', f'if !(free < 0.0) {{\n            {line("free", "0.0", 12)}\n        }} else if !self.inline {{\n')]),
    ('lone auto margin: 0', LAWS, [
        (AXIS, 'filled_margins (Some start) None free a = start to free ⊖ start', 'filled_margins (Some start) None free a = start to 0f'),
        (AXIS, 'filled_margins None (Some end) free a = free ⊖ end to end', 'filled_margins None (Some end) free a = 0f to end'),
        (CODE, 'end: free - start,', 'end: 0.0,'),
        (CODE, 'start: free - end,', 'start: 0.0,')]),
    ('lone auto margin: all free space', LAWS, [
        (AXIS, 'filled_margins (Some start) None free a = start to free ⊖ start', 'filled_margins (Some start) None free a = start to free'),
        (AXIS, 'filled_margins None (Some end) free a = free ⊖ end to end', 'filled_margins None (Some end) free a = free to end'),
        (CODE, 'end: free - start,', 'end: free,'),
        (CODE, 'start: free - end,', 'start: free,')]),
    ('lone auto margin: not below 0', LAWS, [
        (AXIS, 'filled_margins (Some start) None free a = start to free ⊖ start', 'filled_margins (Some start) None free a = start to larger (free ⊖ start) 0f'),
        (CODE, 'end: free - start,', 'end: sys::f32_max(free - start, 0.0),')]),
    ('auto margins also with one inset', LAWS, [
        (AXIS, 'both_insets a = is_some a.inset.start && is_some a.inset.end', 'both_insets a = is_some a.inset.start || is_some a.inset.end'),
        (CODE, 'self.inset.both_ends_defined()', 'self.inset.start.is_some() || self.inset.end.is_some()')]),
    ('auto margins: aligned in the block all the same', LAWS, [
        (AXIS, '\n    (l.start ⊕ m.start)', '\n    (self_aligned a.safety a l (size ⊕ or_zero a.margin.start ⊕ or_zero a.margin.end) (align_edge a.alignment a) ⊕ or_zero a.margin.start)'),
        (CODE, AT_BLOCK, at_auto(f'''{{
                let left = self.margin.start.unwrap_or(0.0);
                self.self_aligned(imcb, size + left + self.margin.end.unwrap_or(0.0), {TOLD}) + left
            }}'''))]),
    ('auto margins: box at the inset, margin ignored', LAWS, [
        (AXIS, '\n    (l.start ⊕ m.start)', '\n    l.start'),
        (CODE, AT_BLOCK, at_auto('imcb.start'))]),
    # automatic sizes
    ('stretch-fit: below 0', LAWS, [
        (AXIS, 'larger (span (block a) ⊖ (or_zero a.margin.start ⊕ or_zero a.margin.end)) 0f', 'span (block a) ⊖ (or_zero a.margin.start ⊕ or_zero a.margin.end)'),
        (CODE, 'sys::f32_max(self.inset_modified_containing_block_size() - margins, 0.0)', 'self.inset_modified_containing_block_size() - margins')]),
    ('stretches with one inset', LAWS, [
        (AXIS, 'stretches a plain = both_insets a && ', 'stretches a plain = (is_some a.inset.start || is_some a.inset.end) && '),
        (CODE, '{◌≡◌, not, ◌&&◌}', '{◌≡◌, not, ◌&&◌, ◌||◌, is_some}'),
        (CODE, 'self.both_insets() && self.alignment.stretches', 'self.any_inset() && self.alignment.stretches'),
        (CODE, '    // Whether an auto size is the stretch-fit size.', '''    fn any_inset(self) -> bool
        ensures { result ≡ is_some self.inset.start || is_some self.inset.end }
    {
        self.inset.start.is_some() || self.inset.end.is_some()
    }

    // Whether an auto size is the stretch-fit size.''')]),
    ('normal stretches replaced boxes', LAWS, [
        (AXIS, 'stretching align.Normal plain = plain', 'stretching align.Normal plain = true'),
        (CODE, 'OofAlignment::Normal => plain,', 'OofAlignment::Normal => true,')]),
    ('normal never stretches', LAWS, [
        (AXIS, 'stretching align.Normal plain = plain', 'stretching align.Normal plain = false'),
        (CODE, 'OofAlignment::Normal => plain,', 'OofAlignment::Normal => false,')]),
    # ---- on quarters: around a static center, and the stretch-fit size
    ('static center: the farther edge', QUARTERS, [
        (AXIS, f'{NEARER} (0f to 2f ⊗ center) (areaSize ⊖ 2f ⊗ (areaSize ⊖ center) to areaSize)', f'{NEARER} (areaSize ⊖ 2f ⊗ (areaSize ⊖ center) to areaSize) (0f to 2f ⊗ center)'),
        (CODE, line('0.0', '2.0 * center', 8), line('size - 2.0 * REST', 'size', 8)),
        (CODE, line('size - 2.0 * rest', 'size', 8), line('0.0', '2.0 * center', 8)),
        (CODE, 'REST', 'rest'),
        (MODEL, AROUND_N, '(sub_n w (dbl_n (sub_n w c)) toN w) (zero_n toN dbl_n c)'),
        (BLOCKS, f'{FROM_START}\n      {TO_END}', f'{TO_END}\n      {FROM_START}')]),
    # beyond an edge of the area the block, in place of being closed up, runs from there on: the lesser end first
    ('static center: as far on either side as the nearer edge', QUARTERS, [
        (AXIS, f'{NEARER} (0f to 2f ⊗ center) (areaSize ⊖ 2f ⊗ (areaSize ⊖ center) to areaSize)',
            f'{NEARER} (smaller (2f ⊗ center) 0f to larger (2f ⊗ center) 0f) (smaller (areaSize ⊖ 2f ⊗ (areaSize ⊖ center)) areaSize to larger (areaSize ⊖ 2f ⊗ (areaSize ⊖ center)) areaSize)'),
        (CODE, line('0.0', '2.0 * center', 8), line('sys::f32_min(2.0 * center, 0.0)', 'sys::f32_max(2.0 * center, 0.0)', 8)),
        (CODE, line('size - 2.0 * rest', 'size', 8), line('sys::f32_min(size - 2.0 * rest, size)', 'sys::f32_max(size - 2.0 * rest, size)', 8)),
        (MODEL, AROUND_N, '(min_n (dbl_n c) zero_n toN max_n (dbl_n c) zero_n) (min_n (sub_n w (dbl_n (sub_n w c))) w toN max_n (sub_n w (dbl_n (sub_n w c))) w)'),
        (BLOCKS, 'Order.{magnitude_exact}', 'Order.{magnitude_exact, smaller_exact, larger_exact}'),
        (BLOCKS, f'{FROM_START}\n      {TO_END}', f'{sorted_exact(TWICE, "zero_exact")}\n      {sorted_exact(LESS_TWICE, "(widen (omega arith) hw)")}')]),
    ('static center: the block is the area', QUARTERS, [
        (AXIS, f'{NEARER} (0f to 2f ⊗ center) (areaSize ⊖ 2f ⊗ (areaSize ⊖ center) to areaSize)', f'{NEARER} (0f to areaSize) (0f to areaSize)'),
        (CODE, line('0.0', '2.0 * center', 8), line('0.0', 'size', 8)),
        (CODE, line('size - 2.0 * rest', 'size', 8), line('0.0', 'size', 8)),
        (MODEL, AROUND_N, '(zero_n toN w) (zero_n toN w)'),
        (BLOCKS, f'{FROM_START}\n      {TO_END}', '(record { start = zero_exact; end = widen (omega arith) hw })\n      (record { start = zero_exact; end = widen (omega arith) hw })')]),
    ('static center: from the center on', ['oof_axis', ('oof_axis_laws', NO_CODE + NO_MIRROR + AROUND_ALONE)], [
        (AXIS, f'{NEARER} (0f to 2f ⊗ center) (areaSize ⊖ 2f ⊗ (areaSize ⊖ center) to areaSize)', f'{NEARER} (center to areaSize) (center to areaSize)'),
        (CODE, line('0.0', '2.0 * center', 8), line('center', 'size', 8)),
        (CODE, line('size - 2.0 * rest', 'size', 8), line('center', 'size', 8)),
        (MODEL, AROUND_N, '(c toN w) (c toN w)'),
        (BLOCKS, 'LineExact 4 b', 'LineExact 2 b', 5),
        (BLOCKS, 'LineExact 4 (3 * L + 2 * A)', 'LineExact 2 (3 * L + 2 * A)', 5),
        (BLOCKS, f'{FROM_START}\n      {TO_END}', '(record { start = widen (omega arith) hc; end = widen (omega arith) (eighths hw) })\n      (record { start = widen (omega arith) hc; end = widen (omega arith) (eighths hw) })'),
        (BLOCKS, 'start = widen (omega arith) ha.start; end = widen (omega arith) hw', 'start = widen (omega arith) (eighths ha.start); end = widen (omega arith) (eighths hw)'),
        (BLOCKS, 'start = zero_exact; end = widen (omega arith) ha.end', 'start = zero_exact; end = widen (omega arith) (eighths ha.end)'),
        (BLOCKS, 'start = widen (omega arith) hs;', 'start = widen (omega arith) (eighths hs);', 2),
        (BLOCKS, 'end = widen (omega arith) (sub_exact h.size he (omega arith))', 'end = widen (omega arith) (eighths (sub_exact h.size he (omega arith)))', 2),
        (BLOCKS, 'end = widen (omega arith) h.size', 'end = widen (omega arith) (eighths h.size)')]),
    ('stretch-fit: margins left out', QUARTERS, [
        (AXIS, f'larger ({SPACE}) 0f', 'larger (span (block a)) 0f'),
        (CODE, 'sys::f32_max(self.inset_modified_containing_block_size() - margins, 0.0)', 'sys::f32_max(self.inset_modified_containing_block_size(), 0.0)'),
        (OF_FLOATS, f'larger_bounds ({SPACE})', 'larger_bounds (span (block a))'),
        (MODEL, f'max_n ({SPACE_N}) zero_n', 'max_n (span_n (block_n σ α)) zero_n'),
        (MARGINS, 'larger_exact (widen (omega arith) (sub_exact (span_exact a α h) m (omega arith))) zero_exact', 'larger_exact (widen (omega arith) (span_exact a α h)) zero_exact')]),
    ('stretch-fit: of the area', QUARTERS, [
        (AXIS, f'larger ({SPACE}) 0f', f'larger ({SPACE.replace("span (block a)", "a.size")}) 0f'),
        (CODE, 'sys::f32_max(self.inset_modified_containing_block_size() - margins, 0.0)', 'sys::f32_max(self.size - margins, 0.0)'),
        (OF_FLOATS, f'larger_bounds ({SPACE})', f'larger_bounds ({SPACE.replace("span (block a)", "a.size")})'),
        (MODEL, f'max_n ({SPACE_N}) zero_n', f'max_n ({SPACE_N.replace("span_n (block_n σ α)", "α.size")}) zero_n'),
        (MARGINS, 'sub_exact (span_exact a α h) m (omega arith)', 'sub_exact h.size m (omega arith)')]),
    # default overflow
    ('no limit for stretch', QUARTERS, NO_REACH + [
        (AXIS, 'is_normal align.Stretch = false', 'is_normal align.Stretch = true'),
        (CODE, UNLIMITED, f'{UNLIMITED} || {UNLIMITED.replace("Normal", "Stretch")}'),
        (OF_FLOATS, '(k ≡ align.Normal → ⊥) → is_normal k ≡ false', '(k ≡ align.Normal → ⊥) → (k ≡ align.Stretch → ⊥) → is_normal k ≡ false'),
        (OF_FLOATS, 'not_normal align.Normal n = absurd (n refl)', 'not_normal align.Normal n s = absurd (n refl)'),
        (OF_FLOATS, 'not_normal align.Stretch n = refl', 'not_normal align.Stretch n s = absurd (s refl)'),
        (OF_FLOATS, 'not_normal align.Start n = refl', 'not_normal align.Start n s = refl'),
        (OF_FLOATS, 'not_normal align.Center n = refl', 'not_normal align.Center n s = refl'),
        (OF_FLOATS, 'not_normal align.End n = refl', 'not_normal align.End n s = refl')]),
    ('default as safe', QUARTERS, NO_REACH + [
        (AXIS, f'self_aligned Default a l outer edge ={DEFAULT}', SAFE.replace('Safe', 'Default')),
        (CODE, f'AlignmentSafety::Default => {KEPT}', f'{AT_SAFE.replace("Safety::Safe", "Safety::Default")}\n            {arm("Default", AS_TOLD)}'),
        (MODEL, 'self_n Default σ w l box k = cond (le_n box (span_n l) || is_normal σ.alignment) (align_n l box k) (limited_n σ.scrolls σ.reversed w l box k)', 'self_n Default σ w l box k = align_n l box (cond (lt_n (span_n l) box) (start_of σ.reversed) k)'),
        (PLACES, ('  self_exact Default a k h hw b =', '  static_place_exact :'), SELF_EXACT_SAFE),
        (OF_FLOATS, 'fits_aligned Default a l outer k h = rw h refl', 'fits_aligned Default a l outer k h = rw (fits_not_over outer (span l) h) refl'),
        (OF_FLOATS, ('normal_aligned Default a l outer n =', 'normal_edge :'), NORMAL_AS_SAFE)]),
    ('limit: the area only', QUARTERS, NO_REACH + limits('0f', 'a.size', '0.0', 'self.size', 'zero_n', 'w', '0f', 'w', 'zero_exact', 'widen (omega arith) hw')),
    ('limit: the block only', QUARTERS, NO_REACH + limits('l.start', 'l.end', 'imcb.start', 'imcb.end', 'l.start', 'l.end', 'l.start', 'l.end', 'h.start', 'h.end')),
    ('limit: never open', QUARTERS, NO_REACH + [
        (AXIS, LIMIT, 'start to end'),
        (CODE, LIMIT_LEFT, line('start', 'end', 12)),
        (CODE, LIMIT_RIGHT, line('start', 'end', 12)),
        (MODEL, LIMITED_N, 'limited_n s reversed w l box k = kept_n (limit_n w l) reversed l box k\n\n'),
        (PLACES, OPEN, 'start to end'),
        (PLACES, LIMITED_EXACT, '  limited_exact s r a k e h hw b = rw (← e) (within_exact a k (record { start = low_exact h hw; end = high_exact h hw }) h b)\n\n')]),
    ('limit: open to the right in either direction', QUARTERS, NO_REACH + [
        (AXIS, LIMIT, 'cond a.scrolls (cond a.reversed (start to inf false) (start to inf false)) (start to end)'),
        (CODE, LIMIT_LEFT, line('start', 'f32::INFINITY', 12)),
        (MODEL, 'limited_n true true w l box k = min_n (align_n l box k) (sub_n (limit_n w l).end box)', 'limited_n true true w l box k = max_n (align_n l box k) (limit_n w l).start'),
        (PLACES, OPEN, 'cond scrolls (cond reversed (start to inf false) (start to inf false)) (start to end)'),
        (PLACES, 'limited_exact true true a k e h hw b = open_start a k h b (high_exact h hw)', 'limited_exact true true a k e h hw b = open_end a k h b (low_exact h hw)')]),
    ('too large for the limit: at its left', QUARTERS, NO_REACH + [
        (AXIS, TOO_LARGE, '(align_in lim outer Start)'),
        (CODE, 'align_in_line(limit, outer, self.start_edge())', 'align_in_line(limit, outer, AxisStaticEdge::Start)'),
        (MODEL, '(align_n lim box (start_of reversed))', '(align_n lim box Start)'),
        (PLACES, 'limited_exact false r a k e h hw b = rw (← e) (within_exact', 'limited_exact false r a k e h hw b = (within_exact'),
        (PLACES, '\n      (start_exact a hl b)', '\n      (align_exact Start hl b)')]),
    ('too large for the limit: at the block start', QUARTERS, NO_REACH + [
        (AXIS, TOO_LARGE, f'(align_in l outer ({IS_START}))'),
        (CODE, 'align_in_line(limit, outer, self.start_edge())', 'align_in_line(imcb, outer, self.start_edge())'),
        (MODEL, '(align_n lim box (start_of reversed))', '(align_n l box (start_of reversed))'),
        (PLACES, '\n      (start_exact a hl b)', '\n      (start_exact a h b)')]),
    ('overflow: only the start of the limit kept', QUARTERS, NO_REACH + [
        (AXIS, '(larger (smaller (align_in l outer edge) (lim.end ⊖ outer)) lim.start)', '(larger (align_in l outer edge) lim.start)'),
        (CODE, KEPT_WITHIN, 'sys::f32_max(start, limit.start)'),
        (MODEL, '(max_n (min_n (align_n l box k) (sub_n lim.end box)) lim.start)', '(max_n (align_n l box k) lim.start)'),
        (MODEL, 'limited_n true true w l box k = min_n (align_n l box k) (sub_n (limit_n w l).end box)', 'limited_n true true w l box k = align_n l box k'),
        (PLACES, '(larger_exact (smaller_exact (align_exact k h b) (widen (omega arith) (eighths (sub_exact hl.end b (omega arith))))) (widen', '(larger_exact (align_exact k h b) (widen'),
        (PLACES, 'rw (inf_less ho, le_inf b, inf_less b, smaller_inf (align_exact k h b))', 'rw (inf_less ho, le_inf b)'),
        (PLACES, '(min_n (align_n m v k) (sub_n η v))', '(align_n m v k)'),
        (PLACES, ('      let s = smaller_exact', '  -- the limit, as'), '      rw (less_inf hh, le_inf b, larger_inf (align_exact k h b)) (align_exact k h b)\n\n')]),
    ('overflow: always at the limit start', QUARTERS, NO_REACH + [
        (AXIS, ('    cond (le outer (span lim))', '\n-- both insets: the margin box'), f'    align_in (smaller l.start 0f to larger l.end a.size) outer ({IS_START})\n'),
        (CODE, ('        if outer <= limit.end - limit.start {', '    }\n\n    // The start of the margin box where both'), f'        let bounds = {line("sys::f32_min(imcb.start, 0.0)", "sys::f32_max(imcb.end, self.size)", 8)};\n        align_in_line(bounds, outer, self.start_edge())\n'),
        (MODEL, LIMITED_N, 'limited_n s reversed w l box k = align_n (limit_n w l) box (start_of reversed)\n\n'),
        (PLACES, ('  within_exact :', '  -- the limit, as'), ''),
        (PLACES, '{l : Line Float} {m : LineN} {w box : Float} {ω v : N} (scrolls reversed : Bool) (a : OofAxis) (k : AxisStaticEdge) → a.reversed ≡ reversed → InBlock l m → Exact 4 L w ω', '{l : Line Float} {m : LineN} {box : Float} {ω v : N} (scrolls reversed : Bool) (a : OofAxis) (k : AxisStaticEdge) → a.reversed ≡ reversed → InBlock l m → Exact 4 L a.size ω'),
        (PLACES, 'kept_within (limit_of scrolls reversed w l) a l box k', 'kept_within (limit_of scrolls reversed a.size l) a l box k'),
        (PLACES, LIMITED_EXACT, '  unfolding kept_within\n  limited_exact s r a k e h hw b = rw (← e) (start_exact a (record { start = low_exact h hw; end = high_exact h hw }) b)\n\n')]),
]
