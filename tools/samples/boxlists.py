#!/usr/bin/env python3
"""Writes the telling screens (screens/) and those at the limits of the format (screens/limits/), each with its list and its verdicts, and
what crates/boxlist and crates/boxreach are run on.

    tools/samples/boxlists.py ORACLE     writes all; ORACLE is the program of diff/oracle
    tools/samples/boxlists.py --reach    writes all but the lists, from the stored lists
    tools/samples/boxlists.py --check    says whether all is what this script makes of it, and each screen has a list

The screens come from here. A list (NAME.list, for `boxlist`) is what the published Rust makes of its screen or, where request #106
doesn't compare with the Rust, what ORACLE's second implementation does (`answers.py` says where that is); of a refused screen it is the
refusal by document 01's table, which ORACLE has a model of. NAME.rust, of the screens in BESIDE, is the published Rust's list all the same. The verdicts
(NAME.reach, for `boxreach`) are what reach_model.py makes of the screen's first line and its list. None of it comes from the Rattle
code."""
import os, subprocess, sys

sys.dont_write_bytecode = True
import answers
import reach_model

root = os.path.join(os.path.dirname(os.path.abspath(__file__)), '..', '..')

# ---- lengths: tag, value and second value; numbers are pixels or parts of the area, as the file has them in eighths

LENGTH, AUTO, PERCENT, MIN_CONTENT, FIT_PERCENT, MAX_CONTENT, CONTENT, FIT_PX, FIT, STRETCH, SUM = 1, 3, 5, 11, 15, 27, 35, 43, 59, 75, 129
LENGTH_WORDS, LENGTHS = 3, 22


def eighths(x):
    n = x * 8
    assert n == int(n), x
    return int(n)


def word(tag, x=0, second=0):
    return [tag, eighths(x), eighths(second)]


def px(x):
    return word(LENGTH, x)


def count(n):
    """a length of so many eighths"""
    return [LENGTH, n, 0]


def part(factor, pixels):
    """a sum: so large a part of the area, and so many pixels more"""
    return word(SUM, factor, pixels)


auto, none = word(AUTO), px(0)
LTR, RTL = 0, 1
VISIBLE, CLIP, HIDDEN, SCROLL = 0, 1, 2, 3
ABSENT, START, END, CENTER, STRETCHED = 10, 1, 2, 7, 9
ABSOLUTE, FIXED, STATIC = 2, 3, 0
EDGE_START, EDGE_CENTER, EDGE_END = 0, 1, 2


def style(left=auto, right=auto, top=auto, bottom=auto, margin=(none,) * 4, padding=(none,) * 4, border=(none,) * 4, width=auto, height=auto,
          min=(auto, auto), max=(auto, auto), ratio=None, content_box=0, flags=0, direction=LTR, justify=(ABSENT, 0), align=(ABSENT, 0),
          overflow=(VISIBLE, VISIBLE), scrollbar=0, contain=0):
    lengths = [left, right, top, bottom, *margin, *padding, *border, width, height, *min, *max]
    assert len(lengths) == LENGTHS
    return sum(lengths, []) + [int(ratio is not None), eighths(ratio or 0), content_box, flags, direction, *justify, *align, *overflow, eighths(scrollbar), contain]


def item(style, measured=(0, 0), overflow=(0, 0, 0, 0)):
    return style + [eighths(x) for x in (*measured, *overflow)]


def candidate(node, order=0, position=ABSOLUTE, x=(0, 0), y=(0, 0), edges=(0, 0, 0, 0, 0, 0), layer=0):
    return [node, order, position, *map(eighths, x), *edges[:3], *map(eighths, y), *edges[3:], layer]


LAYER = len(candidate(0)) - 1
CONTAIN = len(style()) - 1
DIRECTION = LENGTH_WORDS * LENGTHS + 4


def opening(width, height, x=0, y=0, direction=LTR, claims=3, overflow=(VISIBLE, VISIBLE)):
    return [*map(eighths, (width, height, x, y)), direction, claims, *overflow]


def mirrored(o, items, candidates):
    """the mirror image by document 01: directions flipped, left and right exchanged, the static areas and their edges mirrored; the layers
    stay. There is none of a screen with sums"""
    def exchanged(item):
        assert SUM not in item[:LENGTH_WORDS * LENGTHS:LENGTH_WORDS]
        left, right = LENGTH_WORDS, 2 * LENGTH_WORDS
        for sides in (0, 4, 8, 12):
            k = LENGTH_WORDS * sides
            item = item[:k] + item[k + left:k + right] + item[k:k + left] + item[k + right:]
        return put(item, DIRECTION, 1 - item[DIRECTION])

    def moved(c):
        across = 2 * o[2] + o[0]
        return c[:3] + [across - c[4], across - c[3], 2 - c[5], c[6], 2 - c[7]] + c[8:]

    return put(o, 4, 1 - o[4]), [exchanged(i) for i in items], [moved(c) for c in candidates]


def put(values, i, v):
    return values[:i] + [v] + values[i + 1:]


def lines(*rows):
    return b''.join(b''.join(b'%11s' % (n if isinstance(n, bytes) else b'%d' % n) for n in r) + b'\n' for r in rows)


def screen(o, items, candidates):
    return lines(o + [len(items), len(candidates)], *items, *candidates)


# ---- the telling screens

# the cache map, a panel of 800 by 480 that scrolls; numbers made up after the incident. The note ends 8 pixels before the tape cell that
# it speaks of, and that cell stands in the first column, 800 pixels from the panel's right edge
panel = opening(800, 480, overflow=(SCROLL, SCROLL))
note = style(right=px(800), top=px(200), margin=(none, px(8), none, none), padding=(px(16), px(8), px(8), px(8)), width=px(320), height=px(96))
label = style(left=px(24), top=px(16), padding=(px(8), px(8), px(4), px(4)))
arabic = opening(800, 480, direction=RTL, overflow=(SCROLL, SCROLL))
mirrored_note = style(
    left=px(800), top=px(200), margin=(px(8), none, none, none), padding=(px(8), px(16), px(8), px(8)), width=px(320), height=px(96), direction=RTL)
mirrored_label = style(right=px(24), top=px(16), padding=(px(8), px(8), px(4), px(4)), direction=RTL)

# a panel at 16, 40 of its window. Six notes around a label; one more is fixed, and this panel claims absolute ones alone. They are
# hoisted in another order than their nodes'. Only the overflow differs between the panels of these boxes
def scrolled(*overflow):
    return opening(640, 360, x=16, y=40, claims=1, overflow=overflow), [
        item(style(left=px(24), top=px(16), padding=(px(8), px(4), px(4), px(4))), (160, 24)),
        item(style(left=px(880), top=px(620), width=px(200), height=px(64))),
        item(style(left=px(700), top=px(120), width=px(170), height=px(48))),
        item(style(left=px(240), bottom=px(408), width=px(150), height=px(56))),
        item(style(right=px(640), top=px(150), width=px(140), height=px(52))),
        item(style(left=px(-64), top=px(270), width=px(180), height=px(44))),
        item(style(left=px(120), top=px(500), width=px(190), height=px(40))),
        item(style(left=px(0), top=px(0)), (30, 30)),
    ], [candidate(2), candidate(7, position=FIXED), *(candidate(k, order=k, x=(16, 16), y=(40, 40)) for k in (0, 4, 1, 6, 3, 5))]


# two reel labels of one layer, a note and an alarm above them. The alarm is hoisted first and drawn last. The mark is claimed twice, and
# its second claim is on the note's layer, behind the note. The fixed one, which this panel doesn't claim, has no place in the order
layered = (
    opening(480, 280, claims=1), [
        item(style(left=px(24), top=px(24), width=px(176), height=px(72))),
        item(style(left=px(168), top=px(64), width=px(176), height=px(72))),
        item(style(left=px(40), top=px(120), width=px(176), height=px(104))),
        item(style(left=px(264), top=px(104), width=px(192), height=px(96))),
        item(style(left=px(152), top=px(184), width=px(176), height=px(72))),
        item(style(left=px(0), top=px(0), width=px(480), height=px(280))),
    ], [
        candidate(3, layer=255), candidate(0), candidate(5, position=FIXED, layer=9), candidate(2, layer=2), candidate(1),
        candidate(4, layer=1), candidate(4, order=1, layer=2),
    ])


# two columns with a gutter of 24 between them, as designers write them. A label stands half the area less 12 from the left and from the top,
# a box so from the right; a note ends 8 before the panel, since its right inset is the whole width and 8 more
column = part(0.5, -36)
summed = (
    opening(800, 480, x=16, y=40, overflow=(SCROLL, SCROLL)), [
        item(style(left=px(24), top=px(24), width=column, height=px(96))),
        item(style(left=part(0.5, 12), top=px(24), width=column, height=px(96))),
        item(style(left=part(0.5, -12), top=part(0.5, -12), padding=(px(8), px(8), px(4), px(4))), (160, 24)),
        item(style(right=part(0.5, -12), bottom=part(0.125, 4), width=px(180), height=part(0.25, -20))),
        item(style(left=px(24), top=px(150), padding=(part(0.125, -84), part(0.125, -84), none, none), min=(part(0.25, 40), auto)), (120, 32)),
        item(style(left=px(24), top=px(204), max=(part(0.5, -100), part(0.125, -12))), (420, 64)),
        item(style(right=part(1, 8), top=px(300), width=px(320), height=px(96))),
        item(style(left=part(0.875, -60), top=part(0.875, 100), width=part(0.25, 20), height=px(48))),
    ], [candidate(k, order=k, x=(16, 16), y=(40, 40)) for k in range(8)])


# labels with a size keyword and no insets, each where its anchor is. A stretched one goes from its anchor to the panel's edge, or as far on
# both sides of a center. Node 3 is asked for its width in 500, and answers that
def anchor(node, x, y, across=EDGE_START):
    return candidate(node, order=node, x=(x, x), y=(y, y), edges=(across, 0, 0, EDGE_START, 0, 0))


anchored = (
    opening(800, 480), [
        item(style(width=word(STRETCH)), (160, 66)),
        item(style(width=word(STRETCH)), (160, 66)),
        item(style(width=word(STRETCH)), (160, 66)),
        item(style(width=word(FIT)), (500, 66)),
        item(style(margin=(px(20), px(30), none, none), width=word(STRETCH)), (160, 66)),
        item(style(width=px(120), height=word(STRETCH))),
        item(style(width=word(STRETCH), height=word(STRETCH))),
    ], [anchor(0, 300, 6), anchor(1, 500, 78, EDGE_END), anchor(2, 500, 150, EDGE_CENTER), anchor(3, 300, 222), anchor(4, 300, 294), anchor(5, 40, 372),
        anchor(6, 300, 372)])


def sixteenth(*overflow):
    """box 0 is centered left of the panel, and its free space is an odd count of eighths: x is half an eighth off. Box 1 is whole"""
    return screen(
        opening(800, 480, overflow=overflow),
        [item(style(px(-400), px(800), px(100), auto, margin=(auto, auto, none, none), width=px(100.125), height=px(40))),
         item(style(left=px(900), top=px(40), width=px(160), height=px(24)))],
        [candidate(0), candidate(1)])


telling = {
    'incident': screen(panel, [item(label, (160, 24)), item(note)], [candidate(0), candidate(1, order=1, layer=1)]),
    'arabic': screen(arabic, [item(mirrored_label, (160, 24)), item(mirrored_note)], [candidate(0, x=(800, 800)), candidate(1, order=1, x=(800, 800), layer=1)]),
    'dialog': screen(
        opening(1024, 600),
        [item(style(px(0), px(0), px(0), px(0), margin=(auto,) * 4, padding=(px(24),) * 4, border=(px(2),) * 4, width=px(400), height=px(240))),
         item(style(px(0), px(0), px(0), px(0), max=(px(600), auto), justify=(CENTER, 0), align=(CENTER, 0)), (512.5, 180))],
        [candidate(0, layer=16), candidate(1, position=FIXED, layer=17)]),
    'labels': screen(
        opening(640, 360, x=8, y=8),
        [item(style(left=px(12), top=px(12)), (96.5, 18)),
         item(style(right=px(12), bottom=px(12)), (131.25, 18)),
         item(style(margin=(px(4), px(4), px(2), px(2))), (57.125, 18), (0, 70, 0, 24)),
         item(style(), (40, 18))],
        [candidate(0), candidate(1), candidate(2, x=(100, 180), y=(200, 230), edges=(EDGE_CENTER, 0, 0, EDGE_CENTER, 0, 0)),
         candidate(3, x=(600, 640), y=(40, 40), edges=(EDGE_END, 2, 0, EDGE_START, 0, 0))]),
    'keywords': screen(
        opening(600, 400),
        [item(style(left=px(10), top=px(10), width=word(MIN_CONTENT), height=word(MAX_CONTENT)), (90, 40)),
         item(style(left=px(10), right=px(10), top=px(60), bottom=px(60), width=word(STRETCH), height=word(STRETCH))),
         item(style(left=px(100), right=px(100), top=px(0), width=word(FIT), height=word(FIT)), (320, 20)),
         item(style(left=px(0), top=px(0), width=word(FIT_PX, 150), height=word(FIT_PERCENT, 0.25)), (180, 220)),
         item(style(right=px(0), bottom=px(0), width=word(CONTENT), height=word(PERCENT, 0.5)), (64, 64)),
         item(style(px(0), px(0), px(0), px(0), width=word(PERCENT, 0.5), ratio=2, margin=(auto,) * 4)),
         item(style(px(20), px(20), px(20), px(20), width=px(100), height=px(50), justify=(END, 0), align=(START, 0))),
         item(style(px(20), px(20), px(20), px(20), justify=(STRETCHED, 0), flags=2), (30, 30))],
        [candidate(k, order=k, layer=7 - k) for k in range(8)]),
    'refused': screen(opening(800, 480), [item(style(padding=(auto, none, none, none)))], [candidate(0)]),
    'scrolled': screen(*scrolled(HIDDEN, SCROLL)),
    'scrolled-arabic': screen(*mirrored(*scrolled(HIDDEN, SCROLL))),
    'clipped': screen(*scrolled(CLIP, HIDDEN)),
    'sixteenth': sixteenth(SCROLL, SCROLL),
    'sums': screen(*summed),
    'layers': screen(*layered),
    'layers-arabic': screen(*mirrored(*layered)),
    'anchor': screen(*anchored),
    'anchor-arabic': screen(*mirrored(*anchored)),
}
# beside whose lists the published Rust's are stored too
BESIDE = 'anchor', 'anchor-arabic'
# each with a mirror image that has the same verdicts and the same layers
IMAGES = {'incident': 'arabic', 'scrolled': 'scrolled-arabic', 'layers': 'layers-arabic', 'anchor': 'anchor-arabic', 'reach-touching': 'reach-touching-arabic'}

ABOUT = {
    'incident': 'a label, and the note that said why a restore was refused, with numbers made up. It ends 8 pixels left of the panel: x −328 pixels (`-2624`), width 320. The overflow holds the label alone: no scrolling goes there. The label is seen, the note unseen. The note is on layer 1, above the label',
    'arabic': 'its mirror image, right-to-left: the note begins 8 pixels right of the panel, at 808 (`6464`). In each row the two x and the width add up to 800. The verdicts are the same',
    'dialog': 'a dialog centered by auto margins, and one centered by alignment whose size its content gives',
    'labels': 'labels as large as the font says, one in an area of its own, one at the end edge',
    'keywords': 'min-content, max-content, stretch, fit-content in three forms, content, percentages, a ratio, a table',
    'refused': 'padding `auto`, which padding doesn\'t take: refusal 3',
    'scrolled': 'a panel at 16, 40 of its window, hidden across and scroll down, so that both axes scroll ([picture](../docs/scrolled.svg)). A label and six notes: scrolling right brings up node 2, down node 6, both node 1; node 5 hangs over the left edge and is seen as it is; node 4 ends at that edge and node 3 above the panel: unseen. A further note is fixed, which this panel doesn\'t claim. Places are not nodes: they are hoisted as 2, 0, 4, 1, 6, 3, 5',
    'scrolled-arabic': 'its mirror image, right-to-left: the same verdicts, and the same offsets, counted leftwards',
    'clipped': 'the boxes of `scrolled` in a panel that clips across and is hidden down: node 6 is still brought up; what lies to the right is unseen, though the overflow holds it',
    'sixteenth': 'box 0 is centered left of the panel and lies on a sixteenth of a pixel: its row is refused with 9. Scrolling brings up box 1, which is whole. The other boxes have their verdicts',
    'sums': 'sums of a percentage and a length ([picture](../docs/sums.svg)), in a panel of 800 by 480 at 16, 40 that scrolls. Nodes 0 and 1 are two columns, each "half the area less 36 px" wide, the second from "half the area and 12 px" on. Node 2, a label, stands "half the area less 12 px" from the left and from the top. Node 3 so from the right; its height is a sum of the area\'s height. Nodes 4 and 5 are as large as their content says, within a min or a max that is a sum; node 4\'s padding is one too. Node 6 ends 8 pixels before the panel, since its right inset is "the area and 8 px": unseen. Scrolling down brings up node 7',
    'layers': 'boxes that overlap, on four layers ([picture](../docs/layers.svg), [in which order they are drawn](../docs/SCREEN-FORMAT.md#in-which-order-boxes-are-drawn)): two reel labels (nodes 0 and 1) on layer 0, a note (2) on layer 2, an alarm (3) on layer 255, hoisted first and drawn last, and a mark (4) that is claimed twice, on layers 1 and 2. A further one is fixed, which this panel doesn\'t claim. Hoisted as nodes 3, 0, 2, 1, 4, 4, drawn as places 1, 3, 4, 2, 5, 0. The list doesn\'t tell the layers',
    'layers-arabic': 'its mirror image, right-to-left: the same layers, and so the same drawing order',
    'anchor': 'labels with the size keyword stretch or fit-content and no insets, in a panel of 800 by 480 ([picture](../docs/anchor.svg)). Their anchors stand in mid-panel, and the size is measured from there: node 0, start edge at 300, is 500 wide and ends at the panel\'s edge. Node 1, end edge at 500, is 500 wide and begins at the other edge. Node 2, center at 500, reaches as far to the left as to the right: 600. Node 3, fit-content at 300, is asked for its width in a space of 500, and answers 500. Node 4 has margins of 20 and 30: 450. Node 5 is stretched down from 372: 108 high. Node 6 is stretched both ways. The overflow ends where the panel does: nothing runs off it. By the published Rust all but node 3 do',
    'anchor-arabic': 'its mirror image, right-to-left: the same sizes, and in each row the two x and the width add up to 800',
    'limits/keywords-block': 'the size keyword stretch in an area of 100, by where the box stands. No insets, node 0 to 4: start edge at 40 is 60 wide, end edge at 70 is 70, center at 30 is 60, center at 50 is 100, start edge at 120 is 0. Node 5 has one inset of 30, and is 70 wide. Nodes 6 and 7 have insets that cross, 60 and 60, or one of 120: their block is 0, and with margins of −30 and −30 each is 60 wide',
    'limits/keywords-both-insets': 'size keywords with both insets of each axis given, in whole quarter pixels: such sizes are the Rust\'s. Nodes 5 and 6 have insets that leave a block of 0: 60 by 60 with margins of −30, else 0 by 0',
    'limits/list-largest': 'one box at the largest numbers that the list prints; the overflow\'s right is larger, and prints `*`',
    'limits/items-128-candidates-256': 'the longest screen, 159,599 bytes, and the longest list: 256 rows, one on each layer',
    'limits/one-byte-too-long': 'such a screen and one byte more, all that the programs read: refusal 8',
    'limits/candidate-of-13-fields': 'a candidate line without its layer, as files had them before layers: refusal 8',
    'limits/item-of-63-fields': 'an item line without second values, as files had them before sums: refusal 8',
    'limits/sum-in-every-length': 'a sum in each of the 22 lengths',
    'limits/sum-no-whole-eighth': 'an eighth of an area of 6,401 eighths, and 4 pixels: x prints `*`',
    'limits/second-value-not-read': 'the largest second values under tags that have none: the list of `example`',
    'limits/second-value-over': 'a second value that is no count of eighths, under a tag that has none: refusal 8 all the same. So is `second-value-blank`',
    'limits/refusal-3-tag-385': 'a tag whose low byte is 129: refusal 3, as for 4 and 6, the Rust\'s own numbers of calc lengths',
    'limits/layer-255': 'the highest layer',
    'limits/layer-256': 'the least that is none: it reads well, and is refused with 4. So is `layer-300`, and `layer-256-unclaimed`, where this panel doesn\'t claim the candidate',
    'limits/layer-over': 'a layer of 4,294,967,296, which is no code: refusal 8',
    'limits/reach-touching': 'ten boxes of a few eighths around a tiny panel: they end at an edge, hang over it by one eighth, begin at it or one eighth before it',
    'limits/reach-far': 'the largest offsets that are printed, 9,999,998 eighths on each axis',
    'limits/reach-rectangle-left': '`sixteenth` in a visible panel. There the overflow holds box 0, and its left edge is no whole eighth: both rows are refused with 9',
}

# ---- the limits

# a sum in each length of item 0, and in item 1 sums that come to a negative size, which its min raises above its max
every_length = (
    opening(800, 480), [
        item(style(
            part(0.25, -150), part(0.5, -350), part(0.125, -20), part(0.5, -200),
            margin=(part(0.125, -96), part(0.125, -95), part(0.125, -94), part(0.125, -93)),
            padding=(part(0.125, -92), part(0.125, -91), part(0.125, -90), part(0.125, -89)),
            border=(part(0.125, -99), part(0.125, -98), part(0.125, -97), part(0.125, -96.5)),
            width=part(0.5, -12), height=part(0.5, -12), min=(part(0.25, 8), part(0.25, 8)), max=(part(0.5, -60), part(0.5, -40)))),
        item(style(
            part(-0.25, 150), auto, auto, part(-0.125, 60),
            width=part(0.125, -500), height=part(0.125, -500), min=(part(0.5, -300), part(0.5, -200)), max=(part(0, 50), part(0, 30)), content_box=1))],
    [candidate(0), candidate(1)])

example_style = style(px(100), px(100), px(20), auto, margin=(auto, auto, none, none), width=px(200), height=px(100), justify=(0, 0), align=(0, 0))
example = screen(opening(800, 480), [example_style + [0] * 6], [candidate(0)])
WIDTH, SECOND = LENGTH_WORDS * 16, LENGTH_WORDS - 1
HEADER = opening(800, 480) + [1, 1]
CANDIDATE = candidate(0)


def one(header=HEADER, style=example_style, replies=(0,) * 6, candidate=CANDIDATE):
    return lines(header, style + list(replies), candidate)


def many(n, m, nodes=lambda k, n: k % n if n else 0):
    """n items, m candidates, each a box of its own size"""
    items = [item(style(left=px(k), top=px(2 * k), width=px(k + 0.125), height=px(10)), (k, k)) for k in range(n)]
    return screen(opening(4000, 3000), items, [candidate(nodes(k, n), order=k, layer=k * 101 % 256) for k in range(m)])


def tiny(boxes, o):
    """boxes of a few eighths: x, y, width, height from the area's corner"""
    return (o, [item(style(count(x), auto, count(y), auto, width=count(w), height=count(h))) for x, y, w, h in boxes],
            [candidate(k, layer=k % 3) for k in reversed(range(len(boxes)))])


# around an area of 8 by 16 eighths: ends at its start edge, hangs over it by one eighth; begins one eighth before its far edge, begins there
touching = [(-2, 3, 2, 5), (-2, 3, 3, 5), (7, 3, 2, 5), (8, 3, 2, 5), (3, -4, 2, 4), (3, -4, 2, 5), (3, 15, 2, 4), (3, 16, 2, 4), (-2, -2, 3, 3), (20, 40, 4, 6)]
flat = [(0, 0, 0, 5), (0, 0, 5, 0), (10, 4, 0, 5), (2, 2, 1, 1), (60, 70, 1, 1)]

# stretch in an area of 100, by what leads to the block: no insets and the anchor, one inset, insets that cross
pull = (px(-30), px(-30), none, none)
blocks = (
    opening(100, 100), [
        *[item(style(top=px(10 * k), width=word(STRETCH), height=px(8))) for k in range(5)],
        item(style(left=px(30), top=px(50), width=word(STRETCH), height=px(8))),
        item(style(left=px(60), right=px(60), top=px(60), margin=pull, width=word(STRETCH), height=px(8))),
        item(style(left=px(120), top=px(70), margin=pull, width=word(STRETCH), height=px(8)))],
    [*(anchor(k, x, 0, edge) for k, (x, edge) in enumerate([(40, EDGE_START), (70, EDGE_END), (30, EDGE_CENTER), (50, EDGE_CENTER), (120, EDGE_START)])),
     *(candidate(k, order=k) for k in (5, 6, 7))])

# every keyword that isn't a percentage, in both axes
both_insets = (
    opening(600, 400), [
        item(style(px(10), px(10), px(60), px(60), width=word(STRETCH), height=word(STRETCH))),
        item(style(px(100), px(100), px(0), px(300), width=word(FIT), height=word(FIT)), (320, 20)),
        item(style(px(10), px(490), px(10), px(350), width=word(MIN_CONTENT), height=word(MAX_CONTENT)), (90, 40)),
        item(style(px(20), px(80.25), px(100), px(100), width=word(MAX_CONTENT), height=word(MIN_CONTENT)), (180, 220)),
        item(style(px(0), px(0), px(0), px(0), width=word(FIT_PX, 150), height=word(FIT_PX, 75)), (140, 60)),
        item(style(px(350), px(250), px(240), px(160), margin=(px(-30),) * 4, width=word(STRETCH), height=word(STRETCH))),
        item(style(px(350), px(250), px(240), px(160), width=word(STRETCH), height=word(STRETCH)))],
    [candidate(k, order=k) for k in range(7)])

limits = {
    'example': example,
    'empty': b'',
    'feed-alone': b'\n',
    'no-item-no-candidate': screen(opening(800, 480), [], []),
    'no-candidate': many(3, 0),
    'items-128': many(128, 128),
    'items-129': many(129, 1),
    'candidates-256': many(100, 256),
    'candidates-257': many(100, 257),
    'items-128-candidates-256': many(128, 256, lambda k, n: (k * 37) % n),
    'one-byte-too-long': many(128, 256) + b'\0',
    'claimed-twice': screen(
        opening(800, 480), [item(style(left=px(10), top=px(10), width=px(50), height=px(20))), item(style(left=px(1), top=px(1)), (9, 9))],
        [candidate(0, layer=3), candidate(1), candidate(0, x=(300, 300), layer=2)]),
    'claimed-twice-elsewhere': screen(
        opening(800, 480), [item(style(), (50, 20))],
        [candidate(0, x=(100, 100), y=(40, 40)), candidate(0, x=(300, 300), y=(80, 80))]),
    'unclaimed': screen(opening(800, 480, claims=1), [item(style(), (5, 5))] * 2, [candidate(0), candidate(1, position=FIXED, layer=255), candidate(1, position=STATIC, layer=8)]),
    'float-largest': one(put(HEADER, 0, 9999999)),
    'float-smallest': one(put(HEADER, 0, -9999999)),
    'float-over': one(put(HEADER, 0, 10000000)),
    'float-under': one(put(HEADER, 0, -10000000)),
    'list-largest': screen(opening(800, 480), [item(style(left=count(9999999), top=count(-9999999)), (8, 8))], [candidate(0)]),
    'list-over': screen(opening(800, 480, x=8), [item(style(left=count(9999999), top=count(-9999999)), (8, 8))], [candidate(0)]),
    'no-whole-eighth': screen(opening(800, 480), [item(style(left=word(PERCENT, 0.125), top=px(3), margin=(word(PERCENT, 0.125), none, none, none), width=px(100), height=px(1)))], [candidate(0)])
    .replace(b'       6400       3840', b'       6401       3840'),
    'code-largest': one(candidate=put(CANDIDATE, 1, 4294967295)),
    'code-over': one(candidate=put(CANDIDATE, 1, 4294967296)),
    'node-largest': one(candidate=put(CANDIDATE, 0, 4294967295)),
    'candidate-of-13-fields': one(candidate=CANDIDATE[:LAYER]),
    'layer-255': one(candidate=put(CANDIDATE, LAYER, 255)),
    'layer-256': one(candidate=put(CANDIDATE, LAYER, 256)),
    'layer-256-unclaimed': one(put(HEADER, 5, 2), candidate=put(CANDIDATE, LAYER, 256)),
    'layer-300': one(candidate=put(CANDIDATE, LAYER, 300)),
    'layer-over': one(candidate=put(CANDIDATE, LAYER, 4294967296)),
    'minus-zero': one(put(put(put(HEADER, 2, b'-0'), 3, b'+0'), 4, b'-0')),
    'no-last-feed': example[:-1],
    'line-left-over': example + lines(CANDIDATE),
    'feed-left-over': example + b'\n',
    'trailing-blank': one(put(HEADER, 0, b'6400 ')),
    'refusal-1-direction': one(put(HEADER, 4, 2)),
    'refusal-1-claims': one(put(HEADER, 5, 4)),
    'refusal-1-before-3': one(put(HEADER, 6, 4), style=put(example_style, 0, 2)),
    'refusal-3-tag': one(style=put(example_style, 0, 257)),
    'refusal-3-tag-4': one(style=put(example_style, WIDTH, 4)),
    'refusal-3-tag-6': one(style=put(example_style, WIDTH, 6)),
    'refusal-3-tag-385': one(style=put(example_style, WIDTH, 256 + SUM)),
    'item-of-63-fields': one(style=[n for k, n in enumerate(example_style) if k >= LENGTH_WORDS * LENGTHS or k % LENGTH_WORDS != SECOND]),
    'second-value-largest': screen(opening(800, 480), [item(style(left=word(SUM, 0.5)[:SECOND] + [9999999], top=word(SUM, 0.5)[:SECOND] + [-9999999]), (8, 8))], [candidate(0)]),
    'second-value-over': one(style=put(example_style, SECOND, 10000000)),
    'second-value-blank': one(style=put(example_style, SECOND, b'')),
    'second-value-not-read': one(style=[(-1) ** k * 9999999 if k < LENGTH_WORDS * LENGTHS and k % LENGTH_WORDS == SECOND else n for k, n in enumerate(example_style)]),
    'sum-in-every-length': screen(*every_length),
    'sum-no-whole-eighth': screen([6401] + opening(800, 480)[1:], [item(style(left=part(0.125, 4), top=px(3), width=part(1, -10), height=px(1)))], [candidate(0)]),
    'refusal-3-before-4': one(style=put(example_style, CONTAIN, 256), candidate=put(CANDIDATE, 0, 1)),
    'refusal-4-node': one(candidate=put(CANDIDATE, 0, 1)),
    'refusal-3-before-layer': one(style=put(example_style, 0, 2), candidate=put(CANDIDATE, LAYER, 256)),
    'refusal-4-no-item': screen(opening(800, 480), [], [candidate(0)]),
    'keywords-block': screen(*blocks),
    'keywords-both-insets': screen(*both_insets),
    'reach-touching': screen(*tiny(touching, opening(1, 2, x=3, y=-5, overflow=(SCROLL, HIDDEN)))),
    'reach-touching-arabic': screen(*mirrored(*tiny(touching, opening(1, 2, x=3, y=-5, overflow=(SCROLL, HIDDEN))))),
    'reach-still': screen(*tiny(touching, opening(1, 2, overflow=(VISIBLE, CLIP)))),
    'reach-scroll-visible': screen(*scrolled(SCROLL, VISIBLE)),
    'reach-flat-boxes': screen(*tiny(flat, opening(1, 2, overflow=(SCROLL, SCROLL)))),
    'reach-negative-box': screen(
        opening(1, 1, overflow=(SCROLL, SCROLL)),
        [item(style(left=px(0), top=px(0), padding=(px(-9), none, none, none), width=px(-4), height=px(4)), overflow=(0, 50, 0, 60))], [candidate(0)]),
    'reach-no-width': screen(*tiny(touching, opening(0, 2, overflow=(SCROLL, SCROLL)))),
    'reach-negative-area': screen(*tiny(touching, opening(-1, -2, overflow=(SCROLL, SCROLL)))),
    'reach-own-overflow': screen(
        opening(100, 100, overflow=(SCROLL, SCROLL)),
        [item(style(left=px(10), top=px(10), width=px(20), height=px(20)), overflow=(-50, 900, -50, 800)), item(style(left=px(-60), top=px(10), width=px(20), height=px(20)))],
        [candidate(0), candidate(1)]),
    'reach-far': screen(*tiny([(9999998, 9999998, 1, 1)], [1, 1, 0, 0, LTR, 3, SCROLL, SCROLL])),
    'reach-rectangle-left': sixteenth(VISIBLE, VISIBLE),
    'refusal-8-before-1': one(put(HEADER, 4, 2), candidate=put(CANDIDATE, LAYER, b'x')),
}

# document 01's list, as it stands there
EXAMPLE = b"""\
    node       x       y   width  height    left   right     top  bottom
       0    2400     160    1600     800    1600    1600       0       0
overflow       0    4000       0     960
"""


def listed(oracle, text):
    """the list of a screen, or its refusal"""
    printed = subprocess.run([oracle, 'screen', '--by'], input=text, stdout=subprocess.PIPE, check=True).stdout
    by, lines = answers.parted(printed)
    assert by == (None if is_refusal(lines) else answers.by_whom(text)[0]), (by, text)
    return lines


def listed_by_rust(oracle, text):
    return subprocess.run([oracle, 'screen', '--rust'], input=text, stdout=subprocess.PIPE, check=True).stdout


def is_refusal(lines):
    return lines.startswith(reach_model.REFUSED)


def sizes(printed):
    """width and height of the boxes of a list, in pixels"""
    return [tuple(int(n) / 8 for n in reach_model.columns(row, 8)[3:5]) for row in printed.splitlines()[1:-1]]


# sizes by hand, from request #106
SIZES = {
    'anchor': [(500, 66), (500, 66), (600, 66), (500, 66), (450, 66), (120, 108), (500, 108)],
    'keywords-block': [(w, 8) for w in (60, 70, 60, 100, 0, 70, 60, 60)],
    'keywords-both-insets': [(580, 280), (320, 20), (90, 40), (180, 220), (140, 60), (60, 60), (0, 0)],
}
SIZES['anchor-arabic'] = SIZES['anchor']


def files(lists, by_rust):
    """every file that this script writes, by its place; lists by name, None where there is none"""
    out = {}
    for name, text in {**telling, **limits}.items():
        out[place(name) + '.screen'] = text
        out[place(name) + '.list'] = lists[name]
        out[place(name) + '.reach'] = lists[name] and reach_model.printed(text, lists[name])
    for name in BESIDE:
        out[place(name) + '.rust'] = by_rust[name]
    for name, image in IMAGES.items():
        assert out[place(name) + '.reach'] == out[place(image) + '.reach'], name
        assert layers(out[place(name) + '.screen']) == layers(out[place(image) + '.screen']), name
    out['crates/boxlist/stdin'] = telling['incident']
    out['crates/boxlist/stdout'] = lists['incident']
    if os.path.isdir(os.path.join(root, 'crates/boxreach')):
        out['crates/boxreach/stdin'] = telling['scrolled']
        out['crates/boxreach/stdout'] = out[place('scrolled') + '.reach']
    out['screens/README.md'] = readme(lists).encode()
    return out


def layers(text):
    """the last field of each candidate line"""
    rows = text.splitlines()
    items = int(reach_model.columns(rows[0], 11)[8])
    return [row[-11:] for row in rows[1 + items:]]


def place(name):
    return ('screens/' if name in telling else 'screens/limits/') + name


def names_by(by, lists):
    """the screens with a list whose placed items with a size keyword are so answered"""
    found = ((n, *answers.by_whom(t)) for n, t in {**telling, **limits}.items() if lists[n] and not is_refusal(lists[n]))
    return [place(n)[len('screens/'):] for n, whose, boxes in found if boxes and whose == by]


def readme(lists):
    return """# Telling screens

Each `NAME.screen` is a [screen file](../docs/SCREEN-FORMAT.md). Beside it stand what two programs print of it, byte for byte:

- `NAME.list`, by `boxlist`: where each box goes. It is what the published Rust makes of the screen or, where it is refused, the refusal by document 01's table. Where request #106 doesn't compare with the Rust, it is what a second implementation makes of it ([diff/oracle](../diff/oracle/README.md)): """ + ', '.join('`%s`' % n for n in names_by('second', lists)) + """.
- `NAME.reach`, by `boxreach`: [which boxes scrolling brings up](../docs/SCREEN-FORMAT.md#can-each-box-be-reached). It is worked out from the screen's first line and its list, by a search over the offsets (`tools/samples/reach_model.py`).
- `NAME.rust`, of """ + ' and '.join('`%s`' % n for n in BESIDE) + """: the published Rust's list all the same, as it was before request #106. The picture shows both.

Such as:

    target/bin/boxlist < screens/incident.screen
    target/bin/boxreach < screens/incident.screen
    tools/picture.py screens/incident.screen > incident.svg

Numbers are eighths of a pixel. `tools/samples/boxlists.py` writes all this; the gate runs both programs on each screen (`tools/run-screens`), also on those at the limits of the format, which stand in `limits/`.

""" + ''.join('- `%s`: %s.\n' % (n, t) for n, t in ABOUT.items())


def stored(path):
    """a file's bytes, or None where there is none"""
    path = os.path.join(root, path)
    return open(path, 'rb').read() if os.path.exists(path) else None


def left_over(made):
    """files in screens/ that this script doesn't write"""
    found = [os.path.join(folder, f) for folder in ('screens', 'screens/limits') for f in os.listdir(os.path.join(root, folder))]
    return sorted(p for p in found if p not in made and os.path.isfile(os.path.join(root, p)))


def main():
    assert {place(n) for n in telling} <= {'screens/' + n for n in ABOUT} <= {place(n) for n in {**telling, **limits}}
    assert not set(telling) & set(limits)
    if len(sys.argv) != 2:
        sys.exit(__doc__)
    reach_model.tries()
    texts = {**telling, **limits}
    if sys.argv[1] in ('--check', '--reach'):
        lists = {n: stored(place(n) + '.list') for n in texts}
        by_rust = {n: stored(place(n) + '.rust') for n in BESIDE}
    else:
        lists = {n: listed(sys.argv[1], t) for n, t in texts.items()}
        by_rust = {n: listed_by_rust(sys.argv[1], texts[n]) for n in BESIDE}
    assert lists['example'] in (None, EXAMPLE)
    for name, wanted in SIZES.items():
        assert lists[name] is None or sizes(lists[name]) == wanted, (name, sizes(lists[name]))
    made = files(lists, by_rust)
    if sys.argv[1] == '--check':
        wrong = [p for p, text in made.items() if text is None or stored(p) != text] + left_over(made)
        for p in wrong:
            print(p, 'is not what tools/samples/boxlists.py writes')
        sys.exit(1 if wrong else 0)
    print('%d screens; with a placed item with a size keyword: %s by the published Rust, %s by the second implementation' % (
        len(texts), *(len(names_by(by, lists)) for by in ('rust', 'second'))))
    for p, text in made.items():
        if text is not None:
            p = os.path.join(root, p)
            os.makedirs(os.path.dirname(p), exist_ok=True)
            open(p, 'wb').write(text)


main()
