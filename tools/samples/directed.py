#!/usr/bin/env python3
"""directed.py SEED COUNT: cases of one box in the oracle's format, of rare branches: both or no insets, every alignment and
safety, a lone inset, right-to-left scroll containers, tables, stretch with a ratio, static centers in areas of size 0 or less,
numbers that round. One in ten of the lengths and percentages is a sum. Of the boxes with a size keyword two in five are such as request #106
compares with the Rust, and one in ten has insets that cross and margins below 0."""
import random, struct, sys

sys.dont_write_bytecode = True
from answers import KEYWORDS

r = random.Random(int(sys.argv[1]))
# of the layers, of sums and second values, and of what size keywords change, so that no other word depends on them
layers, sums, keywords = (random.Random(name + ' ' + sys.argv[1]) for name in ('layers', 'sums', 'keywords'))
AUTO, SUM = [3, 0], 129
# lengths of a style, from which on; the word of the scrollbar width
MARGIN, PADDING, SIZE, SCROLLBAR = 4, 8, 16, 77

def bits(x): return struct.unpack('<I', struct.pack('<f', x))[0]
def num(lo, hi): return bits(r.choice([r.uniform(lo, hi), float(r.randint(int(lo), int(hi)))]))
def px(lo, hi): return [1, num(lo, hi)]
def percent(): return [5, bits(r.choice([0.1, 0.25, 0.3, 0.5, 1.0]))]
def inset(): return px(-40, 90) if r.random() < .85 else percent()
def margin(): return AUTO if r.random() < .3 else percent() if r.random() < .2 else px(-15, 30)
def padding(): return percent() if r.random() < .2 else px(0, 8) if r.random() < .6 else [1, 0]
def limit(): return AUTO if r.random() < .7 else px(0, 120)

def length(tag, value):
    """with its second value, which is any word but for a sum"""
    if tag not in (1, 5) or sums.random() > .1: return [tag, value, sums.getrandbits(32)]
    return [SUM, bits(sums.choice([0.1, 0.25, 0.3, 0.5, 1.0, -0.2])), bits(sums.choice([sums.uniform(-30, 30), float(sums.randint(-30, 30))]))]

def insets():
    a, b = inset(), inset()
    return r.choice([a + b] * 5 + [AUTO + AUTO] * 3 + [a + AUTO, AUTO + b])

def size():
    x = r.random()
    if x < .4: return AUTO
    if x < .65: return px(0, 200)
    if x < .75: return percent()
    tag = r.choice([11, 15, 27, 35, 43, 59, 75])
    return [tag, bits(.4) if tag == 15 else num(5, 80)]

def quarter(lo, hi): return keywords.randint(4 * lo, 4 * hi) / 4

def steered(area, style):
    """area and style of a box with a size keyword"""
    if style[3 * SIZE] not in KEYWORDS and style[3 * SIZE + 3] not in KEYWORDS: return
    draw = keywords.random()
    for y in (0, 1):
        at = 6 * y
        if draw < .4:
            # both insets, which don't cross; one block in four is 0
            size, left = quarter(20, 120), quarter(-40, 90)
            right = size - left - keywords.choice([0, quarter(0, 10), quarter(0, 60), quarter(0, 60)])
            area[y], area[2 + y] = bits(size), bits(quarter(-50, 50))
            style[at:at + 2], style[at + 3:at + 5] = [1, bits(left)], [1, bits(right)]
        elif draw < .5:
            style[at:at + 2], style[at + 3:at + 5] = px_of(60, 90), px_of(60, 90)
            for k in (at + 3 * MARGIN, at + 3 * MARGIN + 3): style[k:k + 2] = px_of(-50, -1)
    if draw < .4:
        # quarters throughout, and no percentage
        style[SCROLLBAR] = bits(quarter(0, 20))
        for i in range(MARGIN, 22):
            lo, hi = (-15, 30) if i < PADDING else (0, 8) if i < SIZE else (0, 200)
            if style[3 * i] in (1, 5, 43, SUM): style[3 * i:3 * i + 2] = [43 if style[3 * i] == 43 else 1, bits(quarter(lo, hi))]
            if style[3 * i] == 15: style[3 * i:3 * i + 2] = [43, bits(quarter(lo, hi))]

def px_of(lo, hi): return [1, bits(keywords.uniform(lo, hi))]

def alignment(scene):
    if scene == 'stretch': return [r.choice([0, 9, 9]), 0]
    if scene == 'scroll': return [r.choice([1, 2, 7]), 0]
    if scene == 'overflow': return [r.choice([2, 4, 5, 5, 6, 6, 7, 8]), r.choice([0, 0, 1, 2])]
    return [r.choice([0, 1, 2, 3, 4, 5, 6, 7, 7, 8, 9, 9, 9, 10]), r.choice([0, 0, 1, 2])]

def static(scene):
    if scene == 'center': return [num(-60, 140), num(-60, 140), 1, 2, r.randint(0, 2)]
    return [num(-60, 140), num(-60, 140), r.randint(0, 2), r.choice([0, 1, 2, 2]), r.randint(0, 2)]

def extent(scene): return r.choice([0, 0, num(-120, -20), num(20, 120)]) if scene == 'center' else num(20, 120)

for i in range(int(sys.argv[2])):
    scene = r.choice(['any', 'any', 'lone', 'stretch', 'overflow', 'scroll', 'static', 'center'])
    area = [extent(scene), extent(scene), num(-50, 50), num(-50, 50), 1 if scene == 'scroll' else r.randint(0, 1), 3]
    area += [r.choice([2, 3] if scene == 'scroll' else [0, 0, 1, 2, 3]) for _ in range(2)]
    style = []
    for _ in range(2):
        if scene in ('static', 'center'): style += AUTO + AUTO
        elif scene == 'lone': style += r.choice([AUTO + px(-40, 60), px(-40, 60) + AUTO])
        else: style += insets() if scene == 'any' else px(-40, 60) + px(-40, 60)
    for _ in range(4): style += px(-15, 30) if scene in ('overflow', 'scroll', 'lone') else margin()
    for _ in range(8): style += padding()
    for _ in range(2): style += AUTO if scene == 'stretch' else px(10, 110) if scene == 'overflow' else px(50, 300) if scene in ('center', 'scroll', 'lone') else size()
    for _ in range(4): style += limit()
    style = [word for i in range(0, len(style), 2) for word in length(*style[i:i + 2])]
    style += [int(r.random() < (.6 if scene == 'stretch' else .4)), bits(r.choice([2.0, 0.5, 1.5, 0.3]))]
    style += [r.randint(0, 1), r.choice([0, 0, 0, 1, 2, 2, 3]), r.randint(0, 1)] + alignment(scene) + alignment(scene)
    style += [r.choice([0, 0, 0, 1, 2, 3]), r.choice([0, 0, 0, 1, 2, 3]), num(0, 20), r.choice([0, 0, 0, 1, 2, 3, 4])]
    steered(area, style)
    assert len(style) == 79
    print('case directed-%s-%d' % (sys.argv[1], i))
    print('area', *area)
    print('style', *style)
    print('cand', 0, r.randint(0, 9), r.choice([2, 3]), *static(scene), *static(scene), layers.choice([0, 1, 7, 255]))
    print('host', r.randint(1, 10**6), 'typical' if r.random() < .7 else 'quarter', 0)
    print('end')
