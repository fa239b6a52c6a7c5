#!/usr/bin/env python3
"""Draws screens side by side, as one SVG on standard output: the area, each box with its node's number, the scrollable overflow rectangle,
and which boxes no scrolling brings up.

    tools/picture.py SCREEN.. > out.svg             boxes from target/bin/boxlist, verdicts from target/bin/boxreach
    tools/picture.py --from FOLDER SCREEN..         the programs of another folder
    tools/picture.py --stored SCREEN..              NAME.list and NAME.reach beside NAME.screen, and no program; where there is a NAME.rust,
                                                    that list as well, as what was before request #106, and the anchors
    tools/picture.py --write                        writes the pictures of docs/ (from what is stored)
    tools/picture.py --check                        fails unless these are what it makes of them, and every stored screen can be drawn

    --name NODE=WORD    a word for a box beside its number; may stand several times
    --title TEXT        the picture's title

Boxes are drawn in the drawing order, worked out here from the candidate lines: lower layers first, and within one layer as they are
hoisted; so a box covers what is drawn before it, whose outline goes on as dots. Layers are told where some box is above layer 0.

A box is drawn plain if it is seen as it stands, with a double line if scrolling brings it up, hatched if it is unseen, dotted if it is
refused with 9. What can't be drawn is told below. A refused screen is drawn as its refusal and its meaning. Exit status: 1 if a check
fails, 2 if a file or a program is missing, fails, or the call is wrong."""
import html
import importlib.machinery
import importlib.util
import pathlib
import subprocess
import sys
import xml.dom.minidom

root = pathlib.Path(__file__).resolve().parent.parent
sys.dont_write_bytecode = True

PICTURES = {
    "docs/incident.svg": ("The panel of the incident, and its Arabic mirror image", {0: "label", 1: "note"}, ["screens/incident", "screens/arabic"]),
    "docs/layers.svg": ("Boxes that overlap, in the order in which they are drawn", {0: "reel A", 1: "reel B", 2: "note", 3: "alarm", 4: "mark"}, ["screens/layers"]),
    "docs/sums.svg": ("Labels that stand half the area less 12 px from an edge, and other sums",
                      {0: "column", 1: "column", 2: "label", 3: "from the right", 4: "min", 5: "max", 6: "note", 7: "mark"}, ["screens/sums"]),
    "docs/anchor.svg": ("Labels that stretch from their anchors to the panel's edge, where they ran off it before, and their Arabic mirror image",
                        {0: "start", 1: "end", 2: "center", 3: "fit-content", 4: "margins", 5: "down", 6: "both"}, ["screens/anchor", "screens/anchor-arabic"]),
    "docs/scrolled.svg": ("Panels that scroll, and one that clips across", {}, ["screens/scrolled", "screens/scrolled-arabic", "screens/clipped", "screens/sixteenth"]),
}

OVERFLOWS = ("visible", "clip", "hidden", "scroll")
MEANINGS = {"8": "The text is no screen.", "1": "Line 1 has a direction, claims or an overflow outside its list.",
            "3": "An item has a tag or a code that its field doesn't take.", "4": "A candidate has a node that is no item, a code outside its list, or a layer above 255."}
SEEN, SCROLLED, UNSEEN, REFUSED, BEFORE, ANCHOR = "seen", "scrolled", "unseen", "refused", "before", "anchor"
# fields of a screen file, from 0: of the first line, of a candidate line; and the positions that are claimed, each with its bit in claims
CLAIMS, ITEM_COUNT = 5, 8
NODE, POSITION, LAYER = 0, 2, 13
CLAIMED_BY = {2: 1, 3: 2}
# of an axis in a candidate line, start, end and edge; words of a length, and the tag of an inset that isn't given
AXES, LENGTH, AUTO = (3, 8), 3, 3

# pixels of the picture
GAP, SIDE, MOST_HEIGHT, EDGE = 24, 456, 360, 22
TEXT, HEAD, LINE = 13, 16, 18
MANY = 40  # boxes, above which a label stands in its box or nowhere
INK, PALE_INK, GROUND, SHOWN, AREA = "#1b2027", "#4a5460", "#e3e6ea", "#f4f8fc", "#ffffff"
LINES = {SEEN: "#2c6437", SCROLLED: "#1c4a86", UNSEEN: "#8f1d14", REFUSED: "#5b4a00"}
STYLES = {
    SEEN: f'fill="#dbeddd" stroke="{LINES[SEEN]}" stroke-width="1.5"',
    SCROLLED: f'fill="#d4e4f8" stroke="{LINES[SCROLLED]}" stroke-width="1.5"',
    UNSEEN: f'fill="url(#hatch)" stroke="{LINES[UNSEEN]}" stroke-width="2" stroke-dasharray="7 3"',
    REFUSED: f'fill="url(#dots)" stroke="{LINES[REFUSED]}" stroke-width="1.5" stroke-dasharray="2 3"',
    BEFORE: 'fill="#fbe3dc" stroke="#b4462f" stroke-width="1.5" stroke-dasharray="5 3"',
}
PATTERNS = """<defs>
<pattern id="hatch" patternUnits="userSpaceOnUse" width="9" height="9" patternTransform="rotate(45)"><rect width="9" height="9" fill="#fdeeeb"/><line x1="0" y1="0" x2="0" y2="9" stroke="#c8524a" stroke-width="3.5"/></pattern>
<pattern id="dots" patternUnits="userSpaceOnUse" width="8" height="8"><rect width="8" height="8" fill="#fff7d6"/><circle cx="4" cy="4" r="1.6" fill="#7a6400"/></pattern>
</defs>"""


# ---- numbers and text


def pixels(eighths):
    text = f"{abs(eighths) // 8}" if eighths % 8 == 0 else f"{abs(eighths) / 8:.3f}".rstrip("0")
    return ("\u2212" if eighths < 0 else "") + text


def width_of(text, size=TEXT, bold=False):
    """About as wide as a wide font draws it."""
    return len(text) * size * (0.625 if bold else 0.56)


def wrapped(text, width, size=TEXT):
    lines = [""]
    for word in text.split(" "):
        longer = f"{lines[-1]} {word}".strip()
        if lines[-1] and width_of(longer, size) > width:
            lines.append(word)
        else:
            lines[-1] = longer
    return lines


def said(x, y, text, more=""):
    return f'<text x="{x:.1f}" y="{y:.1f}"{" " + more if more else ""}>{html.escape(text, quote=False)}</text>'


def rectangle(x, y, width, height, style):
    return f'<rect x="{x:.1f}" y="{y:.1f}" width="{width:.1f}" height="{height:.1f}" {style}/>'


def listing(things):
    return ", ".join(things[:-1]) + " and " + things[-1] if len(things) > 1 else things[0]


# ---- what is read


class Fault(Exception):
    pass


def columns(line, width):
    return [line[k:k + width].strip() for k in range(0, len(line), width)]


def number(text):
    return None if text == "*" else int(text)


def parted(text):
    """The fields of a good screen: the first line's, those of the items, and those of the claimed candidates."""
    header, *rows = ([int(f) for f in columns(line, 11)] for line in text.decode().splitlines())
    items, candidates = rows[:header[ITEM_COUNT]], rows[header[ITEM_COUNT]:]
    return header, items, [row for row in candidates if header[CLAIMS] & CLAIMED_BY.get(row[POSITION], 0)]


def claimed(text):
    """Node and layer of each claimed candidate of a good screen, in hoisted order: the candidate lines in turn, as no box surfaces any."""
    return [(row[NODE], row[LAYER]) for row in parted(text)[2]]


def anchors(text):
    """Of each box without insets its node and its anchor, in eighths from the area's left and top edge."""
    header, items, candidates = parted(text)
    for row in candidates:
        if all(items[row[NODE]][LENGTH * inset] == AUTO for inset in range(4)):
            # a start edge, a center or an end edge
            sides = [(row[at], (row[at] + row[at + 1]) / 2, row[at + 1])[row[at + 2]] for at in AXES]
            yield row[NODE], tuple(side - offset for side, offset in zip(sides, header[2:4]))


class Box:
    """A row of the list and of the verdicts. x and y count from the area's left and top edge, in eighths; None for `*`."""

    def __init__(self, listed, verdict, offset):
        self.layers, self.node, self.verdict = [], int(listed[0]), verdict
        x, y, self.width, self.height = map(number, listed[1:5])
        self.x, self.y = (None if v is None else v - o for v, o in zip((x, y), offset))
        self.scroll = (int(verdict[1]), int(verdict[2])) if verdict[0] == "seen" else None

    def starred(self):
        return [n for n in ("x", "y", "width", "height") if getattr(self, n) is None]

    def kind(self):
        if self.scroll:
            return SEEN if self.scroll == (0, 0) else SCROLLED
        return self.verdict[0]

    def span(self):
        """left, top, right, bottom; a negative size turned round"""
        xs, ys = sorted((self.x, self.x + self.width)), sorted((self.y, self.y + self.height))
        return xs[0], ys[0], xs[1], ys[1]


class Screen:
    def __init__(self, name, text, listed, verdicts, names, before=None):
        """before: the list as it was before request #106, or None"""
        self.name, self.text, self.names = name, text, names
        self.refusal = listed.decode().rstrip("\n") if listed.startswith(b" refused") else None
        if self.refusal:
            if verdicts != listed:
                raise Fault(f"{name}: the list is refused, and the verdicts are not the same line")
            return
        opening = [int(f) for f in columns(text.split(b"\n", 1)[0].decode(), 11)[:8]]
        self.width, self.height, *self.offset, self.rtl, _, code_x, code_y = opening
        self.codes = OVERFLOWS[code_x], OVERFLOWS[code_y]
        rows, reached = listed.decode().splitlines(), verdicts.decode().splitlines()
        self.overflow = [number(n) for n in columns(rows[-1], 8)[1:]]
        if len(reached) != len(rows) - 1:
            raise Fault(f"{name}: {len(rows) - 2} boxes in the list, {len(reached) - 1} verdicts")
        claims = claimed(text)
        if len(claims) != len(rows) - 2:
            raise Fault(f"{name}: {len(claims)} claimed candidates, {len(rows) - 2} boxes in the list")
        self.by_node = {}
        for listed_row, verdict_row, claim in zip(rows[1:-1], reached[1:], claims):
            self.place(columns(listed_row, 8), columns(verdict_row, 8), *claim)
        self.boxes = list(self.by_node.values())
        # node and layer of each place: lower layers first, and within one layer in hoisted order, as the sort is stable
        self.drawing_order = sorted(claims, key=lambda claim: claim[1])
        self.drawn_last = {node: at for at, (node, _) in enumerate(self.drawing_order)}
        self.layered = any(layer for _, layer in claims)
        # where boxes were that are elsewhere now, by node; and anchors
        self.before, self.anchors = {}, []
        if before is not None:
            rows = [Box(columns(row, 8), [REFUSED], self.offset) for row in before.decode().splitlines()[1:-1]]
            self.before = {box.node: box.span() for box in rows if box.span() != self.by_node[box.node].span()}
            self.anchors = list(anchors(text))

    def place(self, listed, reached, claimed_node, layer):
        """A node that is claimed twice has one layout: it is one box, on two layers."""
        place, node, *verdict = reached
        box = Box(listed, verdict, self.offset)
        if not int(node) == claimed_node == box.node:
            raise Fault(f"{self.name}: at place {place} the list has node {box.node}, the verdicts {node}, the candidate lines {claimed_node}")
        self.by_node.setdefault(box.node, box).layers.append(layer)

    def called(self, box):
        return f"{box.node} {self.names[box.node]}" if box.node in self.names else str(box.node)

    def layer_said(self, box):
        """nothing where all are on layer 0"""
        if not self.layered:
            return ""
        layers = sorted(set(box.layers))
        return f"layer{'s' if len(layers) > 1 else ''} {listing([str(layer) for layer in layers])}"

    def scrolls(self, axis):
        return self.codes[axis] in ("hidden", "scroll")

    def last(self, axis):
        """the last offset of an axis; None if the far edge is no number"""
        far = self.overflow[1 + 2 * axis]
        if not self.scrolls(axis):
            return 0
        return None if far is None else max(0, far - (self.width, self.height)[axis])

    def start(self, x, width):
        return self.width - x - width if self.rtl else x

    def from_start(self, left, right):
        """the ends on the panel, from its left edge, of what runs from `left` to `right` from the start edge"""
        return (self.width - right, self.width - left) if self.rtl else (left, right)


def explained(text, refusal):
    """What tools/explain-screen finds."""
    loader = importlib.machinery.SourceFileLoader("explain_screen", str(root / "tools/explain-screen"))
    module = importlib.util.module_from_spec(importlib.util.spec_from_loader(loader.name, loader))
    loader.exec_module(module)
    explainer = module.Explainer(True)
    explainer.explain(text)
    return [why for number, why in explainer.faults if number == refusal]


# ---- what is said of a screen


def axis_said(screen, axis):
    name, code, last = "xy"[axis], screen.codes[axis], screen.last(axis)
    if not screen.scrolls(axis):
        return f"{name} doesn't scroll ({code})"
    way = "down" if axis else ("left" if screen.rtl else "right")
    if last is None:
        return f"{name} scrolls {way} ({code})"
    return f"{name} scrolls {way} ({code}), " + (f"by 0 to {pixels(last)} px" if last else "here by 0 alone")


def why_unseen(screen, box):
    """From the numbers, axis by axis; the verdict itself comes from boxreach."""
    why = []
    for axis, (start, size, area, before, after, way) in enumerate((
            (screen.start(box.x, box.width), box.width, screen.width, *(("right of", "left of", "left, never right") if screen.rtl else ("left of", "right of", "right, never left"))),
            (box.y, box.height, screen.height, "above", "below", "down, never up"))):
        side = ("width", "height")[axis]
        still = f"{'xy'[axis]} doesn't scroll ({screen.codes[axis]})"
        if size <= 0:
            why.append(f"its {side} is {pixels(size)} px")
        elif area <= 0:
            why.append(f"the area's {side} is {pixels(area)} px")
        elif start + size <= 0:
            why.append(f"{lies(start + size, before)}, and {'scrolling goes ' + way if screen.scrolls(axis) else still}")
        elif start >= area + (screen.last(axis) or 0):
            why.append(f"{lies(start - area, after)}, and {'scrolling ends before it' if screen.scrolls(axis) else still}")
    return "; ".join(why)


def lies(distance, side):
    edge = {"left of": "left", "right of": "right", "above": "top", "below": "bottom"}[side]
    return f"it lies {pixels(abs(distance))} px {side} the area" if distance else f"it only touches the area's {edge} edge, from outside"


def scroll_said(screen, box):
    across, down = box.scroll
    ways = [f"{pixels(n)} px {way}" for n, way in ((across, "left" if screen.rtl else "right"), (down, "down")) if n]
    return f"{listing(ways)} (scrollx {across}, scrolly {down})"


def notes_of(screen):
    """(kind, sentence) for each box that isn't just seen; then those that are, together."""
    notes, seen = [], [b for b in screen.boxes if b.kind() == SEEN]
    for kind in (UNSEEN, REFUSED, SCROLLED):
        found = [b for b in screen.boxes if b.kind() == kind]
        for box in found[:8]:
            name, starred = screen.called(box), box.starred()
            if kind == UNSEEN:
                notes.append((kind, f"{name}: unseen. {capital(why_unseen(screen, box))}."))
            elif kind == SCROLLED:
                notes.append((kind, f"{name}: brought up by scrolling {scroll_said(screen, box)}."))
            elif starred:
                one = len(starred) == 1
                notes.append((kind, f"{name}: refused 9, and not drawn. Its {listing(starred)} {'is' if one else 'are'} no whole {'eighth' if one else 'eighths'} of a pixel, or above 9,999,999 eighths in size (*)."))
            else:
                notes.append((kind, f"{name}: refused 9, for the overflow rectangle."))
        if len(found) > 8:
            notes.append((kind, f"{len(found) - 8} more: {'brought up by scrolling' if kind == SCROLLED else kind}."))
    if seen:
        few = seen[:12]
        notes.append((SEEN, f"{listing([screen.called(b) for b in few])}: seen without scrolling." if len(seen) == len(few)
                      else f"{len(seen)} boxes are seen without scrolling."))
    if screen.before:
        notes.append((BEFORE, before_said(screen)))
    if screen.layered:
        notes.append((None, order_said(screen)))
    if not screen.boxes:
        notes.append((None, "No box is claimed."))
    if None in screen.overflow:
        notes.append((None, "The overflow rectangle isn't drawn: a number of it is no whole eighth, or above 9,999,999 eighths in size (*)."))
    return notes


def before_said(screen):
    """How far the boxes ran off the area."""
    said_of = []
    for node, (left, top, right, bottom) in screen.before.items():
        beyond = [(-left, "left"), (right - screen.width, "right"), (bottom - screen.height, "down")]
        off = [f"{pixels(n)} px {way}" for n, way in beyond if n > 0]
        if off:
            said_of.append(f"{screen.called(screen.by_node[node])} by {listing(off)}")
    return f"Before request #106 they ran off the area: {', '.join(said_of)}." if said_of else "Before request #106 they stood elsewhere."


def order_said(screen):
    by_layer, drawn = {}, set()
    for node, layer in screen.drawing_order:
        by_layer.setdefault(layer, []).append(screen.called(screen.by_node[node]) + (" again" if node in drawn else ""))
        drawn.add(node)
    if len(screen.drawing_order) > 12:
        return f"Drawn lower layers first: {len(screen.drawing_order)} boxes on {len(by_layer)} layers."
    return f"Drawn in this order: {', '.join(f'layer {layer} ({listing(boxes)})' for layer, boxes in by_layer.items())}."


def capital(text):
    return text[:1].upper() + text[1:]


# ---- the drawing


class Drawing:
    """One screen, from (0, 0) of its own; `height` is how far down it goes. `kinds` are what the legend has to explain."""

    def __init__(self, screen, width, place):
        self.screen, self.width, self.place, self.parts, self.height, self.kinds = screen, width, place, [], 0, set()
        self.text(screen.name, HEAD, bold=True)
        if screen.refusal:
            self.refused()
        else:
            self.text(f"area {pixels(screen.width)} \u00d7 {pixels(screen.height)} px, {'right-to-left' if screen.rtl else 'left-to-right'}", TEXT, PALE_INK)
            for axis in (0, 1):
                self.text(axis_said(screen, axis), TEXT, PALE_INK)
            self.height += 10
            self.drawn()
            self.height += 8
            self.noted()

    def text(self, text, size=TEXT, ink=INK, bold=False, indent=0):
        for line in wrapped(text, self.width - indent, size * (1.08 if bold else 1)):
            self.height += round(size * 1.4)
            self.parts.append(said(indent, self.height, line, f'font-size="{size}" fill="{ink}"' + (' font-weight="bold"' if bold else "")))

    def refused(self):
        number = self.screen.refusal.split()[-1]
        self.height += 12
        top, at = self.height, len(self.parts)
        self.height += 29
        self.parts.append(said(12, self.height, self.screen.refusal, 'font-size="15" font-weight="bold" fill="#8f1d14" font-family="monospace" xml:space="preserve"'))
        self.height += 6
        self.text(MEANINGS.get(number, "See docs/SCREEN-FORMAT.md."), indent=12)
        for why in explained(self.screen.text, int(number))[:3]:
            self.height += 4
            self.text(capital(why) + ".", TEXT, PALE_INK, indent=12)
        self.height += 12
        self.parts.insert(at, rectangle(0, top, self.width, self.height - top, 'fill="#fdf3f1" stroke="#8f1d14"'))

    def noted(self):
        for kind, note in notes_of(self.screen):
            self.height += 4
            if kind:
                self.parts.append(sample(kind, 0, self.height + 5, 22, 12))
            self.text(note, bold=kind == UNSEEN, indent=30 if kind else 0)

    # world: eighths from the area's left and top edge

    def drawn(self):
        s = self.screen
        self.drawable = [b for b in s.boxes if not b.starred()]
        spans = [b.span() for b in self.drawable]
        area = (min(0, s.width), min(0, s.height), max(0, s.width), max(0, s.height))
        shown = self.shown()
        overflow = None
        if None not in s.overflow:
            left, right = s.from_start(*s.overflow[:2])
            overflow = (left, s.overflow[2], right, s.overflow[3])
        window = self.window(area, [x for x in (*spans, *s.before.values(), shown, overflow) if x])
        height = self.framed(window)
        if shown and shown != area:
            self.kinds.add("shown")
            self.rect(shown, f'fill="{SHOWN}" stroke="#8a97a6" stroke-width="1"')
        self.rect(area, f'fill="{AREA}" stroke="{INK}" stroke-width="2.5"')
        self.obstacles = [*lines_of(self.at(area), 5)]
        for span in s.before.values():
            self.kinds.add(BEFORE)
            self.rect(span, STYLES[BEFORE])
        beyond = [b for b, span in zip(self.drawable, spans) if not inside(span, window)]
        visible = [b for b in self.drawable if b not in beyond]
        dotted = self.boxes(visible)
        self.arrows(area)
        self.rect(area, f'fill="none" stroke="{INK}" stroke-width="2.5"')
        if overflow:
            self.kinds.add("overflow")
            self.rect(overflow, 'fill="none" stroke="#6a3d9a" stroke-width="2" stroke-dasharray="10 5"')
            self.obstacles += lines_of(self.at(overflow), 4)
        for _, (x, y) in s.anchors:
            self.kinds.add(ANCHOR)
            self.parts.append(mark(*self.at((x, y, x, y))[:2]))
        taken = self.labels(visible, self.at(area), dotted) + [self.at(b.span()) for b in visible] + [self.at(span) for span in s.before.values()]
        if len(visible) <= MANY:
            self.captions(area, shown, taken)
        self.parts.append("</g>")
        self.height += height
        if beyond:
            self.height += 6
            where = [f"{s.called(b)} ({pixels(b.x)}, {pixels(b.y)} px from the area's corner)" for b in beyond[:6]]
            self.text(f"Beyond the picture: {listing(where)}{', and more' if len(beyond) > 6 else ''}.", TEXT, PALE_INK)

    def framed(self, window):
        """The scale and the ground of what is drawn. Answers how high it is."""
        self.left, self.top, right, bottom = window
        self.scale = min((self.width - 2 * EDGE) / max(right - self.left, 1), (MOST_HEIGHT - 2 * EDGE) / max(bottom - self.top, 1))
        wide, height = (right - self.left) * self.scale + 2 * EDGE, (bottom - self.top) * self.scale + 2 * EDGE
        self.x0, self.y0 = (self.width - wide) / 2 + EDGE, self.height + EDGE
        clip = f"frame{self.place}"
        self.frame = (0, self.height, self.width, height)
        self.parts.append(f'<clipPath id="{clip}"><rect x="0" y="{self.height:.1f}" width="{self.width}" height="{height:.1f}"/></clipPath><g clip-path="url(#{clip})">')
        self.parts.append(rectangle(0, self.height, self.width, height, f'fill="{GROUND}"'))
        return height

    def shown(self):
        """All that an offset shows: the area at first and last offset, and between."""
        s = self.screen
        if s.width <= 0 or s.height <= 0 or None in (s.last(0), s.last(1)):
            return None
        left, right = s.from_start(0, s.width + s.last(0))
        return left, 0, right, s.height + s.last(1)

    def window(self, area, spans):
        """What is drawn: everything, but no further from the area than four times its size."""
        all_of = [area, *spans]
        out = [min(a[0] for a in all_of), min(a[1] for a in all_of), max(a[2] for a in all_of), max(a[3] for a in all_of)]
        for axis in (0, 1):
            size = area[axis + 2] - area[axis]
            if size > 0:
                out[axis] = max(out[axis], area[axis] - 4 * size)
                out[axis + 2] = min(out[axis + 2], area[axis + 2] + 4 * size)
        return out

    def at(self, span):
        x, y = self.x0 + (span[0] - self.left) * self.scale, self.y0 + (span[1] - self.top) * self.scale
        return x, y, (span[2] - span[0]) * self.scale, (span[3] - span[1]) * self.scale

    def rect(self, span, style):
        x, y, width, height = self.held(self.at(span))
        self.parts.append(rectangle(x, y, max(width, 0.5), max(height, 0.5), style))

    def held(self, rect):
        """not far beyond the frame, which cuts it off: renderers don't take any number"""
        ends = [max(-50 + self.frame[k], min(v, 50 + self.frame[k] + self.frame[k + 2])) for k, v in ((0, rect[0]), (1, rect[1]), (0, rect[0] + rect[2]), (1, rect[1] + rect[3]))]
        return ends[0], ends[1], ends[2] - ends[0], ends[3] - ends[1]

    def arrows(self, area):
        """From the start corner, along the axes that scroll."""
        s = self.screen
        if s.width <= 0 or s.height <= 0:
            return
        x, y, width, height = self.at(area)
        if s.scrolls(0):
            length, way = min(34, width / 3), -1 if s.rtl else 1
            from_x, to_y = (x + width if s.rtl else x), y + height - 9
            self.parts.append(arrow(from_x + way * 6, to_y, from_x + way * (6 + length), to_y))
            self.obstacles.append((from_x - (length + 8 if s.rtl else 0), to_y - 6, length + 8, 12))
        if s.scrolls(1):
            to_x = (x + 9 if s.rtl else x + width - 9)
            self.parts.append(arrow(to_x, y + 6, to_x, y + 6 + min(34, height / 3)))
            self.obstacles.append((to_x - 6, y, 12, 8 + min(34, height / 3)))

    def box(self, box):
        kind = box.kind()
        self.kinds.add(kind)
        x, y, width, height = self.held(self.at(box.span()))
        width, height = max(width, 2), max(height, 2)
        self.parts.append(rectangle(x, y, width, height, STYLES[kind]))
        if kind == SCROLLED and min(width, height) > 8:
            self.parts.append(rectangle(x + 3, y + 3, width - 6, height - 6, f'fill="none" stroke="{LINES[SCROLLED]}" stroke-width="1"'))

    def covers(self, over, box):
        """whether a box is drawn over a part of another"""
        drawn = self.screen.drawn_last
        return drawn[over.node] > drawn[box.node] and overlap(self.at(over.span()), self.at(box.span())) > 0

    def boxes(self, boxes):
        """All in their drawing order, and then the outlines of those of which others cover a part. Answers these lines."""
        for node, _ in self.screen.drawing_order:
            if self.screen.by_node[node] in boxes:
                self.box(self.screen.by_node[node])
        lines = []
        for box in boxes:
            if any(self.covers(over, box) for over in boxes):
                self.kinds.add("covered")
                self.rect(box.span(), covered_style(box.kind()))
                lines += lines_of(self.at(box.span()), 3)
        return lines

    # labels

    def label(self, box):
        """the lines of a label, the longer and the shorter form"""
        name, layer, kind = self.screen.called(box), self.screen.layer_said(box), box.kind()
        head, tail = f"{name}, {layer}" if layer else name, {UNSEEN: ["unseen"], REFUSED: ["refused 9"]}.get(kind, [])
        if kind == SCROLLED:
            tail = [f"{a} {pixels(n)}" for n, a in ((box.scroll[0], "\u2190" if self.screen.rtl else "\u2192"), (box.scroll[1], "\u2193")) if n]
        forms = [[f"{head}: {'  '.join(tail)}"], [head, *tail], [head, "  ".join(tail)]] if tail else [[head]]
        if layer:
            forms.append([name, layer, *tail])
        return [list(form) for form in dict.fromkeys(map(tuple, [*forms, [name]]))]

    def labels(self, boxes, area, dotted):
        """Each label where it costs least: in its box or beside it, clear of lines, of other boxes and labels. Answers where they stand."""
        spans, taken = [self.at(b.span()) for b in boxes], []
        crowded = len(boxes) > MANY
        order = sorted(range(len(boxes)), key=lambda k: (UNSEEN, REFUSED, SCROLLED, SEEN).index(boxes[k].kind()))
        for k in order:
            best, outside = None, boxes[k].kind() == UNSEEN and not overlap(spans[k], area)
            others = [j for j in range(len(boxes)) if j != k]
            below = {j for j in others if self.covers(boxes[k], boxes[j])}
            forms = self.label(boxes[k])
            for rank, lines in enumerate(forms):
                for inner, rect in self.spots(spans[k], lines, crowded):
                    cost = (120 if lines == forms[-1] and rank else 6 * rank) + (0 if inner else 40)
                    cost += sum(8 * overlap(rect, t) for t in taken) + sum(2 * overlap(rect, line) for line in dotted)
                    # in its box a label may stand over those that the box covers
                    cost += sum(0.6 * overlap(rect, spans[j]) for j in others if not (inner and j in below))
                    cost += 0 if inner else sum(1.5 * overlap(rect, o) for o in self.obstacles) + (0.2 * overlap(rect, area) if outside else 0)
                    cost = round(cost + 50 * (rect[2] * rect[3] - overlap(rect, self.frame)), 3)
                    if best is None or cost < best[0]:
                        best = (cost, inner, rect, lines)
            if best and not (crowded and best[0] > 60):
                self.put_label(boxes[k].kind(), *best[1:])
                taken.append(best[2])
        return taken

    def captions(self, area, shown, taken):
        """Where there is room: what is the area, what scrolling shows besides, and what is outside."""
        avoid, at_area = taken + self.obstacles, self.at(area)
        at_shown = self.at(shown) if shown else at_area
        unseen = [self.at(b.span()) for b in self.drawable if b.kind() == UNSEEN]
        if shown and shown != area:
            self.caption((["scrolling shows this too"], ["scrolling", "shows this", "too"]), at_shown, avoid + [at_area], centre(at_shown))
        self.caption((["the area"],), at_area, avoid, centre(at_area))
        if unseen:
            self.caption((["no scrolling goes here"], ["no scrolling", "goes here"]), self.frame, avoid + [at_shown, at_area], centre(unseen[0]))

    def caption(self, forms, within, avoid, near):
        """The first form that finds room in a rectangle, within the frame, as near to a point as it can be."""
        x, y = max(within[0], self.frame[0]), max(within[1], self.frame[1])
        width, height = min(within[0] + within[2], self.frame[0] + self.frame[2]) - x, min(within[1] + within[3], self.frame[1] + self.frame[3]) - y
        for lines in forms:
            wide, high = max(width_of(line, 12) for line in lines) + 8, 15 * len(lines) + 4
            spots = sorted((abs(left + wide / 2 - near[0]) + abs(top + high / 2 - near[1]), left, top)
                           for left in steps(x + 3, x + width - wide - 3) for top in steps(y + 3, y + height - high - 3))
            free = next((spot for spot in spots if not any(overlap((*spot[1:], wide, high), other) for other in avoid)), None)
            if free:
                _, left, top = free
                for k, line in enumerate(lines):
                    self.parts.append(said(left + wide / 2, top + 13 + 15 * k, line, f'text-anchor="middle" font-size="12" font-style="italic" fill="{PALE_INK}"'))
                avoid.append((left, top, wide, high))
                return

    def spots(self, span, lines, crowded):
        x, y, width, height = span
        wide, high = max(width_of(line, TEXT, True) for line in lines) + 8, len(lines) * 15 + 4
        if wide <= width and high <= height:
            yield True, (x + (width - wide) / 2, y + (height - high) / 2, wide, high)
            edge_x, edge_y = min(4, (width - wide) / 2), min(4, (height - high) / 2)
            left, right, top, bottom = x + edge_x, x + width - wide - edge_x, y + edge_y, y + height - high - edge_y
            for corner in ((left, top), (right, top), (left, bottom), (right, bottom)):
                yield True, (*corner, wide, high)
        if crowded:
            return
        middle_x, middle_y = x + (width - wide) / 2, y + (height - high) / 2
        for at in ((middle_x, y + height + 2), (middle_x, y - high - 2), (x + width + 3, middle_y), (x - wide - 3, middle_y), (x, y + height + 2), (x + width - wide, y + height + 2),
                   (x, y - high - 2), (x + width - wide, y - high - 2)):
            yield False, (*at, wide, high)

    def put_label(self, kind, inner, rect, lines):
        x, y, width, height = rect
        if kind in (UNSEEN, REFUSED) or not inner:
            self.parts.append(rectangle(x, y, width, height, f'rx="3" fill="#ffffff" fill-opacity="{0.95 if inner else 0.8}"'))
        for k, line in enumerate(lines):
            self.parts.append(said(x + width / 2, y + 14 + 15 * k, line, f'text-anchor="middle" font-weight="bold" fill="{INK}"'))


def lines_of(rect, thick):
    x, y, width, height = rect
    half = thick / 2
    return [(x - half, y - half, width + thick, thick), (x - half, y + height - half, width + thick, thick),
            (x - half, y - half, thick, height + thick), (x + width - half, y - half, thick, height + thick)]


def centre(rect):
    return rect[0] + rect[2] / 2, rect[1] + rect[3] / 2


def steps(first, last):
    return [first + 4 * k for k in range(int((last - first) // 4) + 1)] if last >= first else []


def inside(span, window):
    return all(span[k] <= window[k + 2] and span[k + 2] >= window[k] for k in (0, 1))


def overlap(a, b):
    return max(0, min(a[0] + a[2], b[0] + b[2]) - max(a[0], b[0])) * max(0, min(a[1] + a[3], b[1] + b[3]) - max(a[1], b[1]))


def arrow(x0, y0, x1, y1):
    dx, dy = (x1 > x0) - (x1 < x0), (y1 > y0) - (y1 < y0)
    head = f"M{x1 - 6 * dx - 4 * dy:.1f} {y1 - 6 * dy - 4 * dx:.1f}L{x1:.1f} {y1:.1f}L{x1 - 6 * dx + 4 * dy:.1f} {y1 - 6 * dy + 4 * dx:.1f}"
    return f'<path d="M{x0:.1f} {y0:.1f}L{x1:.1f} {y1:.1f}{head}" fill="none" stroke="{PALE_INK}" stroke-width="2"/>'


def sample(kind, x, y, width, height):
    out = rectangle(x + 1, y, width - 2, height, STYLES[kind])
    if kind == SCROLLED:
        out += rectangle(x + 4, y + 3, width - 8, height - 6, f'fill="none" stroke="{LINES[SCROLLED]}" stroke-width="1"')
    return out


def mark(x, y):
    """an anchor"""
    return f'<circle cx="{x:.1f}" cy="{y:.1f}" r="4" fill="{INK}" stroke="#ffffff" stroke-width="1.5"/>'


def covered_style(kind):
    return f'fill="none" stroke="{LINES[kind]}" stroke-width="1.2" stroke-dasharray="1.5 3.5"'


# ---- the whole picture


def legend_rows(drawings):
    """(style, sentence) for each kind of rectangle in the picture"""
    kinds = set().union(*(d.kinds for d in drawings))
    rtl = any(not d.screen.refusal and d.screen.rtl for d in drawings)
    ltr = any(not d.screen.refusal and not d.screen.rtl for d in drawings)
    rows = []
    if any(not d.screen.refusal for d in drawings):
        rows.append((f'fill="{AREA}" stroke="{INK}" stroke-width="2.5"', "The area: what is seen before any scrolling. An arrow in it points where an axis scrolls."))
        if "shown" in kinds:
            rows.append((f'fill="{SHOWN}" stroke="#8a97a6"', "What scrolling can show besides."))
        rows.append((f'fill="{GROUND}"', "Outside: no scrolling shows anything here."))
    if "overflow" in kinds:
        start = "left" if not rtl else "right" if not ltr else "left edge, right-to-left from its right"
        rows.append(('fill="none" stroke="#6a3d9a" stroke-width="2" stroke-dasharray="10 5"',
                     f"The scrollable overflow rectangle, counted from the area's {start} edge" + (", growing left." if rtl else ".")))
    for kind, text in ((SEEN, "A box that is seen without scrolling."), (SCROLLED, "A box that scrolling brings up, with the least offsets, in pixels."),
                       (UNSEEN, "A box that no scrolling brings up: unseen."), (REFUSED, "A box without a verdict: refused 9, a number is no whole eighth of a pixel.")):
        if kind in kinds or any(kind == k for d in drawings if not d.screen.refusal for k, _ in notes_of(d.screen)):
            rows.append((STYLES[kind], text))
    if "covered" in kinds:
        rows.append((covered_style(SEEN), "Where a box is covered: those over it are drawn later."))
    if BEFORE in kinds:
        rows.append((STYLES[BEFORE], "Where a box was before request #106, as the published Rust has it."))
    if ANCHOR in kinds:
        rows.append((ANCHOR, "An anchor: a box without insets is measured from it."))
    return rows


def legend(drawings, width):
    rows = legend_rows(drawings)
    if not rows:
        return [], 0
    parts, y = [], 0
    parts.append(f'<line x1="0" y1="0" x2="{width}" y2="0" stroke="#b8c0c9"/>')
    columns_of = 2 if width > 700 else 1
    wide, y = (width - GAP * (columns_of - 1)) / columns_of, 10
    per = -(-len(rows) // columns_of)
    deepest = 0
    for c in range(columns_of):
        at = y
        for style, text in rows[c * per:(c + 1) * per]:
            x = c * (wide + GAP)
            parts.append(mark(x + 14, at + 10) if style == ANCHOR else rectangle(x + 1, at + 3, 26, 14, style))
            if style == STYLES[SCROLLED]:
                parts.append(rectangle(x + 4, at + 6, 20, 8, f'fill="none" stroke="{LINES[SCROLLED]}" stroke-width="1"'))
            for line in wrapped(text, wide - 38):
                parts.append(said(x + 38, at + 15, line))
                at += LINE
            at += 4
        deepest = max(deepest, at)
    return parts, deepest


def picture(screens, title):
    per_row = 1 if len(screens) == 1 else 2
    wide = 640 if per_row == 1 else SIDE
    drawings = [Drawing(s, wide, k) for k, s in enumerate(screens)]
    width = GAP * 2 + per_row * wide + (per_row - 1) * GAP
    y, body = 12, []
    for k in range(0, len(drawings), per_row):
        line = drawings[k:k + per_row]
        for c, drawing in enumerate(line):
            body += [f'<g transform="translate({GAP + c * (wide + GAP)},{y:.0f})">', *drawing.parts, "</g>"]
        y += max(d.height for d in line) + GAP
    told, deep = legend(drawings, width - 2 * GAP)
    if told:
        body += [f'<g transform="translate({GAP},{y:.0f})">', *told, "</g>"]
        y += deep + 10
    head = f'<svg xmlns="http://www.w3.org/2000/svg" viewBox="0 0 {width} {y:.0f}" width="{width}" height="{y:.0f}" role="img" aria-labelledby="title desc" font-family="Verdana, DejaVu Sans, Arial, sans-serif" font-size="{TEXT}" fill="{INK}">'
    return "\n".join([head, f'<title id="title">{html.escape(title, quote=False)}</title>', f'<desc id="desc">{html.escape(described(screens), quote=False)}</desc>',
                      PATTERNS, f'<rect width="{width}" height="{y:.0f}" fill="#ffffff"/>', *body, "</svg>"]) + "\n"


def described(screens):
    """The picture in words."""
    out = []
    for s in screens:
        if s.refusal:
            number = s.refusal.split()[-1]
            out.append(f"{s.name}: refused {number}. {MEANINGS.get(number, '')}")
        else:
            out.append(f"{s.name}: an area of {pixels(s.width)} by {pixels(s.height)} pixels, {'right-to-left' if s.rtl else 'left-to-right'}. {axis_said(s, 0)}. {axis_said(s, 1)}. "
                       + " ".join(note for _, note in notes_of(s)))
    return " ".join(out)


# ---- the call


def read_screen(path, name, names, source):
    """source: None for what is stored, or the folder of the programs"""
    path = pathlib.Path(path)
    try:
        text = path.read_bytes()
        if source is None:
            before = path.with_suffix(".rust")
            return Screen(name, text, path.with_suffix(".list").read_bytes(), path.with_suffix(".reach").read_bytes(), names,
                          before.read_bytes() if before.exists() else None)
        return Screen(name, text, printed(source / "boxlist", text), printed(source / "boxreach", text), names)
    except OSError as e:
        raise Fault(f"{e.filename}: {e.strerror}")


def printed(program, text):
    if not program.is_file():
        raise Fault(f"there is no {program}: `tools/programs` makes it; or take --stored, or --from FOLDER")
    p = subprocess.run([program], input=text, stdout=subprocess.PIPE, stderr=subprocess.PIPE)
    if p.returncode or p.stderr:
        raise Fault(p.stderr.decode(errors="replace").strip() or f"{program}: status {p.returncode}")
    return p.stdout


def documents():
    for place, (title, names, screens) in PICTURES.items():
        yield root / place, picture([read_screen(root / f"{s}.screen", s, names, None) for s in screens], title)


def called_wrongly():
    print(__doc__, file=sys.stderr)
    return 2


def main(arguments):
    if arguments == ["--write"]:
        for path, text in documents():
            path.write_text(text, encoding="utf-8")
        return 0
    if arguments == ["--check"]:
        wrong = [path.relative_to(root) for path, text in documents() if not path.exists() or path.read_text(encoding="utf-8") != text]
        for path in wrong:
            print(f"{path} is not what tools/picture.py makes of the stored screens (tools/picture.py --write)")
        for path in sorted((root / "screens").rglob("*.screen")):
            xml.dom.minidom.parseString(picture([read_screen(path, path.stem, {0: "<&>"}, None)], path.stem).encode())
        return 1 if wrong else 0
    source, names, title, paths = root / "target/bin", {}, None, []
    arguments = list(arguments)
    while arguments:
        a = arguments.pop(0)
        if a == "--stored":
            source = None
        elif a in ("--from", "--name", "--title") and arguments:
            value = arguments.pop(0)
            if a == "--from":
                source = pathlib.Path(value).resolve()
            elif a == "--title":
                title = value
            else:
                node, equals, word = value.partition("=")
                if not (equals and node.isdigit()):
                    return called_wrongly()
                names[int(node)] = word
        elif a.startswith("-"):
            return called_wrongly()
        else:
            paths.append(a)
    if not paths:
        return called_wrongly()
    screens = [read_screen(p, p.removesuffix(".screen"), names, source) for p in paths]
    sys.stdout.write(picture(screens, title or "Which boxes can be reached: " + listing([s.name for s in screens])))
    return 0


if __name__ == "__main__":
    try:
        sys.exit(main(sys.argv[1:]))
    except Fault as fault:
        print(f"picture.py: {fault}", file=sys.stderr)
        sys.exit(2)
    except BrokenPipeError:
        sys.exit(0)
