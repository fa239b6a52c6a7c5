#!/usr/bin/env python3
"""axis.py ORACLE: writes the samples of the computed tests of one axis: Quarter, Typical, Wild, Directed and Offsets in
crates/test_oof_axis_samples/specs. Run at the root of the repository, then `rt fmt`.

ORACLE is the program of diff/oracle, on document 01's word records: `ORACLE gen PROFILE SEED COUNT` prints random cases (quarter:
quarter pixels; wild: any float bits; typical: plausible CSS), `ORACLE answer` lays cases out, by taffy 0.15.1 or, where request #106
doesn't compare with the Rust, by a second implementation, and `ORACLE run` answers `offset` lines by taffy 0.15.1. directed.py prints
cases of rare branches. Cases of one item and one candidate are taken, as answers.py says. A box gives two samples, x and y: the axis as steps 1 and
2 of document 01 resolve it, the final size, and the location and margins that its layout has. #106 changes sizes alone: the rules of an
axis, given the size, stay the Rust's."""
import ctypes, random, struct, sys

sys.dont_write_bytecode = True
import answers
from answers import f32, of, run, words

oracle = sys.argv[1]
AUTO = 1 << 32
# words of a length, the tag of a sum, and where a style's margins (a length) and codes stand
LENGTH, SUM = 3, 129
MARGIN, DIRECTION, JUSTIFY = 4, 70, 71

def bits(x): return struct.unpack('<I', bytes(ctypes.c_float(x)))[0]
def plain(word): return 0x7FC00000 if word & 0x7FFFFFFF > 0x7F800000 else word

def length(style, i, basis):
    tag, value, second = style[LENGTH * i:][:LENGTH]
    if tag == 3: return AUTO
    if tag == 1: return plain(value)
    # a product of two floats is exact as a double, so it is rounded once; of a sum of two, rounding to a double first changes no float
    product = bits(f32(value) * f32(basis))
    return plain(bits(f32(product) + f32(second)) if tag == SUM else product)

def axis(area, style, cand, y):
    keyword, safety = style[JUSTIFY + 2 * y:][:2]
    if keyword == 10: keyword, safety = 0, 0
    if keyword in (5, 6): keyword = keyword - 4 if y or style[DIRECTION] == area[4] else 7 - keyword
    return [plain(area[y])] + [length(style, 2 * y + k, area[y]) for k in (0, 1)] + [length(style, MARGIN + 2 * y + k, area[0]) for k in (0, 1)] \
        + [plain(w) for w in cand[3 + 5 * y:5 + 5 * y]] + cand[5 + 5 * y:8 + 5 * y] + [keyword, safety, int(not y), int(not y and area[4] == 1), int(area[6 + y] >= 2)]

def chain(ws): return '(' + ' ∷ '.join(map(str, ws)) + ' ∷ [])'

HEAD = '''-- %s
-- Made by tools/samples/axis.py: edit that, not this. Assumes nothing.
use Rattle.std.specs.Prelude.{List, [], ◌∷◌}
use Rattle.test_oof_axis_samples.specs.Sample.{%s}

unfoldable pub %s : List %s
%s =
    %s
    ∷ []
'''

def write(name, said, kind, what, rows):
    open('crates/test_oof_axis_samples/specs/%s.antt' % name, 'w').write(HEAD % (said, kind, what, kind, what, '\n    ∷ '.join(rows)))
    print(name, len(rows))

everything, files = answers.Tally(), []
for profile, seed, wanted in (('quarter', 7, 60), ('typical', 7, 60), ('wild', 7, 60), ('directed', 7, 180)):
    rows, tally = [], answers.Tally()
    for area, style, cand, out, kinds in answers.boxes(oracle, profile, seed, wanted):
        layout = words(of(out, 'layout')[0])[1:]
        for y in (0, 1):
            rows.append('record { axis = %s; offset = %d; size = %d; found = %s }' % (
                chain(axis(area, style, cand, y)), plain(area[2 + y]), layout[1 + y], chain([layout[9 + y]] + layout[19 + 2 * y:21 + 2 * y])))
        tally.add(kinds)
        everything.add(kinds)
    files.append((profile.capitalize(), 'Both axes of %s; those without are the Rust\'s. Profile %s, seed %d.' % (tally.said(), profile, seed), 'Sample', 'boxes', rows))
everything.hold('by axis', answers.ALL_COMPARED | answers.ALL_OTHERS)
for file in files: write(*file)

r = random.Random(7)
def number(): return bits(r.choice([float(r.randint(-100, 100)), r.uniform(-100, 100), r.randint(-400, 400) / 4]))
given = [[w for _ in range(2) for w in [number(), number(), r.randint(0, 2), r.choice([0, 1, 2, 2, 2]), r.randint(0, 2)]] + [number() for _ in range(6)] for _ in range(60)]
found = [words(l) for l in run([oracle, 'run'], ''.join('offset ' + ' '.join(map(str, g)) + '\n' for g in given)).split('\n') if l]
write('Offsets', '%d static offsets that the Rust resolved (seed 7).' % len(given), 'Offset', 'offsets',
      ['record { given = %s; found = %s }' % (chain(g), chain(f)) for g, f in zip(given, found)])
