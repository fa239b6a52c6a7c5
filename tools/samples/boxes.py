#!/usr/bin/env python3
"""boxes.py ORACLE: writes samples of boxes that taffy 0.15.1 laid out or, where request #106 doesn't compare with the Rust, a second
implementation.

  crates/test_oof_box/stdin           2,000 boxes for the program that replays them on the code
  crates/test_oof_box_rows/specs/*.antt      200 boxes for the computed test of the definitions

ORACLE is the program of diff/oracle, on document 01's word records: `ORACLE gen PROFILE SEED COUNT` prints random cases (quarter
pixels, any float bits, plausible CSS), `ORACLE answer` lays them out and prints questions, replies, layouts and the finish. directed.py
prints cases of rare branches. A case has one item and one candidate, so that the finish rectangle is the box's
contribution, joined with zeros; answers.py says which are taken. Run at the root of the repository, then `rt fmt`.

A box of the first sample is 149 words of 32 bits, little end first:

    0 style (79)   79 area (8)   87 finish (4)
    91 stages, in digits of base 8, the last one highest: keyword both 1, width 2, height 3, step 6 4, lay out 5
    92 candidate (14)   106 replies: keyword (2), step 6 (2), overflow (4)   114 layout (23)
    137 questions: known or final width and height, space across and down (3 times 4)

Of zeros the sign is dropped, every NaN is 7FC00000. A size that isn't known is FFFFFFFF, min-content FFFFFFFE, max-content FFFFFFFD."""
import struct, sys

sys.dont_write_bytecode = True
import answers
from answers import of

oracle = sys.argv[1]
# words of a box, and where a style has its size's tags
BOX, SIZE = 149, (48, 51)
MEASURED = 11, 15, 27, 43, 59
NONE, MIN, MAX = 0xFFFFFFFF, 0xFFFFFFFE, 0xFFFFFFFD
NAMES = {'none': NONE, 'min': MIN, 'max': MAX}

def number(w): return NAMES.get(w) or int(w, 0)
def words(line, skip=1): return [number(w) for w in line.split()[skip:]]
def plain(w): return 0 if w == 0x80000000 else w

def boxes(profile, seed, wanted):
    """Area, style, candidate, questions, replies, layout and finish of cases with one item and one candidate, and the kinds of such with a
    size keyword."""
    for area, style, cand, out, kinds in answers.boxes(oracle, profile, seed, wanted):
        asks = [(l.split()[1], words(l, 3)) for l in of(out, 'ask')]
        layout, finish = words(of(out, 'layout')[0], 2), words(of(out, 'finish')[0])[:4]
        yield (area, style, cand, asks, [words(l) for l in of(out, 'reply')], layout, finish), kinds

def keyword_is_asked(style, asks):
    """Whether the first question is one for size keywords: a width or height question is; one for both is where both tags are
    keywords that are measured (in step 6 a side with such a tag is never absent)."""
    kind = asks[0][0]
    return kind in ('width', 'height') or kind == 'both' and all(style[tag] in MEASURED for tag in SIZE)

def record(box):
    area, style, cand, asks, replies, layout, finish = box
    keyword, fill, overflow, path, questions = [0, 0], [0, 0], [0] * 4, [], []
    for i, ((kind, known), reply) in enumerate(zip(asks, replies)):
        questions += known
        if kind == 'layout': path.append(5); overflow = reply
        elif i == 0 and keyword_is_asked(style, asks): path.append({'both': 1, 'width': 2, 'height': 3}[kind]); keyword = (reply + [0])[:2]
        else: assert kind == 'both'; path.append(4); fill = reply
    code = sum(d * 8 ** i for i, d in enumerate(path))
    w = style + area + [plain(x) for x in finish] + [code] + cand + keyword + fill + overflow + [plain(x) for x in layout] \
        + [plain(x) for x in (questions + [0] * 12)[:12]]
    assert len(w) == BOX
    return w

PROFILES = (('quarter', 21), ('typical', 22), ('wild', 23), ('directed', 24))
stored = {profile: list(boxes(profile, seed, 500)) for profile, seed in PROFILES}
COMPUTED = 50
for name, count in (('on the code', 500), ('computed', COMPUTED)):
    tally = answers.Tally()
    for profile, _ in PROFILES:
        for _, kinds in stored[profile][:count]: tally.add(kinds)
    tally.hold(name, answers.ALL_COMPARED | answers.ALL_OTHERS)

with open('crates/test_oof_box/stdin', 'wb') as f:
    for profile, _ in PROFILES:
        for box, _ in stored[profile]: f.write(struct.pack('<%dI' % BOX, *record(box)))

HEAD = '''-- %s; those without are the Rust's.
-- Profile %s, seed %d: what was given, asked, replied and found.
-- Made by tools/samples/boxes.py: edit that, not this. Assumes nothing.
use Rattle.std.specs.Prelude.{List, [], ◌∷◌}
use Rattle.test_oof_box_rows.specs.Sample.{Sample}

unfoldable pub boxes : List Sample
boxes =
    %s
    ∷ []
'''
def chain(ws): return '(' + ' ∷ '.join(map(str, ws)) + ' ∷ [])'
KINDS = dict(both=0, width=1, height=2, layout=3)
for profile, seed in PROFILES:
    rows, tally = [], answers.Tally()
    for (area, style, cand, asks, replies, layout, finish), kinds in stored[profile][:COMPUTED]:
        tally.add(kinds)
        rows.append('record { area = %s; style = %s; candidate = %s; questions = %s; replies = %s; layout = %s; finish = %s }' % (
            chain(area), chain(style), chain(cand), chain([chain([KINDS[k]] + q) for k, q in asks]), chain([chain(r) for r in replies]), chain(layout), chain(finish)))
    open('crates/test_oof_box_rows/specs/%s.antt' % profile.capitalize(), 'w').write(HEAD % (tally.said(), profile, seed, '\n    ∷ '.join(rows)))
