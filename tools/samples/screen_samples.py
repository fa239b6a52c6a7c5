#!/usr/bin/env python3
"""Writes the stored screens of crates/test_screen (data/, args) and what the program is to print on them (stdout).

A model of its own: it reads with regular expressions and Python's numbers, from document 01's words and nothing of the Rattle code."""
import os, re, struct, sys

root = os.path.join(os.path.dirname(os.path.abspath(__file__)), '..', '..', 'crates', 'test_screen')

# ---- the format: c is a code, e a float in eighths

FIRST = 'eeee' + 'cccccc'
STYLE = 'cee' * 22 + 'ce' + 'ccccccccc' + 'e' + 'c'
REPLY = 'eeeeee'
CANDIDATE = 'ccc' + 'eeccc' * 2 + 'c'
assert (len(FIRST), len(STYLE), len(REPLY), len(CANDIDATE)) == (10, 79, 6, 14)


def bits(x):
    return struct.unpack('<I', struct.pack('<f', x))[0]


def floating(w):
    return struct.unpack('<f', struct.pack('<I', w))[0]


class Bad(Exception):
    pass


def word(kind, text):
    if not re.fullmatch(rb' *[-+]?[0-9]+', text) or len(text) != 11:
        raise Bad
    n = int(text)
    if kind == 'c':
        if not 0 <= n <= 4294967295:
            raise Bad
        return n
    if abs(n) > 9999999:
        raise Bad
    return bits(n / 8)


def line(kinds, text):
    if len(text) != 11 * len(kinds):
        raise Bad
    return [word(k, text[11 * j:11 * j + 11]) for j, k in enumerate(kinds)]


def read(text):
    if not text.endswith(b'\n'):
        raise Bad
    lines = text[:-1].split(b'\n')
    header = line(FIRST, lines[0])
    n, m = header[8:]
    if n > 128 or m > 256 or len(lines) != 1 + n + m:
        raise Bad
    items = [line(STYLE + REPLY, l) for l in lines[1:1 + n]]
    candidates = [line(CANDIDATE, l) for l in lines[1 + n:]]
    return header, sum((i[:len(STYLE)] for i in items), []), sum((i[len(STYLE):] for i in items), []), sum(candidates, [])


# ---- what is printed

def column(s):
    return '%8s' % s


def eighths(w):
    x = floating(w)
    if x != x or x in (float('inf'), float('-inf')):
        return column('*')
    n = x * 8  # exact: Python's floats are wider
    if n != int(n) or abs(n) > 9999999:
        return column('*')
    return column(int(n))


def code(n):
    return column(n if n <= 9999999 else '*')


def row(node, words):
    return code(node) + ''.join(eighths(w) for w in words) + '\n'


def overflow(words):
    return 'overflow' + ''.join(eighths(w) for w in words) + '\n'


def checksum(words):
    s = 0
    for w in words:
        s = (s * 31 + w) % 4294967291
    return s


def refused(number):
    return ' refused' + code(number) + '\n'


def first(words, kinds):
    """the first record; words that were not read keep the 7 that the program lends"""
    return (words + [7] * len(kinds))[:len(kinds)]


def shown(text):
    try:
        header, styles, replies, candidates = read(text)
    except Bad:
        return refused(8)
    out = 'header' + ''.join(' %d' % w for w in header) + '\n'
    out += 'first replies' + ''.join(' %d' % w for w in first(replies, REPLY)) + '\n'
    out += 'first candidate' + ''.join(' %d' % w for w in first(candidates, CANDIDATE)) + '\n'
    for name, words in (('styles', styles), ('replies', replies), ('candidates', candidates)):
        out += '%s %d words, sum %d\n' % (name, len(words), checksum(words))
    w, h, x, y = header[:4]
    sides = tuple(first(replies, REPLY)[2:])
    return out + row(header[8], (x, y, w, h) + sides) + overflow(sides)


# ---- the screens

def field(n):
    return b'%11s' % (n if isinstance(n, bytes) else b'%d' % n)


def lines(*rows):
    return b''.join(b''.join(field(n) for n in r) + b'\n' for r in rows)


def example_style():
    auto, zero = [3, 0, 0], [1, 0, 0]
    inset = [1, 800, 0] + [1, 800, 0] + [1, 160, 0] + auto
    margin = auto + auto + zero + zero
    size = [1, 1600, 0] + [1, 800, 0]
    return inset + margin + zero * 4 + zero * 4 + size + auto * 4 + [0] * 13


HEADER = [6400, 3840, 0, 0, 0, 3, 0, 0, 1, 1]
REPLIES = [0] * 6
CAND = [0, 0, 2] + [0] * 11
LAYER = len(CANDIDATE) - 1


def screen(header=HEADER, style=None, replies=REPLIES, candidate=CAND):
    return lines(header, (style or example_style()) + replies, candidate)


def put(values, i, v):
    return values[:i] + [v] + values[i + 1:]


good = screen()
samples = {
    'example': good,
    'all-different': screen(
        [-8, 16, -24, 32, 5, 6, 7, 8, 1, 1], [41 * j - 900 if STYLE[j] == 'e' else 37 * j + 1 for j in range(len(STYLE))], [100, -200, 300, -400, 500, -600],
        [11, 12, 13, -14, 15, 16, 17, 18, -19, 20, 21, 22, 23, 24]),
    'two-of-each': lines(
        [800, 480, 8, -8, 1, 2, 3, 0, 2, 2], list(range(len(STYLE))) + [1, 2, 3, 4, 5, 6], list(range(100, 100 + len(STYLE))) + [-1, -2, -3, -4, -5, -6],
        list(range(14)), list(range(14, 28))),
    'none-of-either': lines([800, 480, 0, 0, 0, 0, 0, 0, 0, 0]),
    'float-largest': screen(put(put(HEADER, 0, 9999999), 1, -9999999)),
    'float-over': screen(put(HEADER, 0, 10000000)),
    'float-under': screen(replies=put(REPLIES, 5, -10000000)),
    'code-largest': screen(candidate=put(CAND, LAYER - 1, 4294967295)),
    'code-over': screen(candidate=put(CAND, LAYER - 1, 4294967296)),
    'code-eleven-digits': screen(candidate=put(CAND, 1, b'99999999999')),
    'code-minus-one': screen(put(HEADER, 4, -1)),
    'float-in-tag': screen(style=put(example_style(), 0, -1)),
    'float-in-second-tag': screen(style=put(example_style(), 3, -1)),
    'sum': screen(style=[129, 4, -96] + example_style()[3:]),
    'second-largest': screen(style=put(put(example_style(), 2, 9999999), 65, -9999999)),
    'second-over': screen(style=put(example_style(), 2, 10000000)),
    'second-half': screen(style=put(example_style(), 65, b'0.5')),
    'two-words-a-length': screen(style=[n for j, n in enumerate(example_style()) if j >= 66 or j % 3 < 2]),
    'code-minus-zero': screen(put(HEADER, 4, b'-0')),
    'code-plus': screen(put(HEADER, 4, b'+1')),
    'float-minus-zero': screen(put(put(HEADER, 2, b'-0'), 3, b'+0')),
    'float-plus': screen(put(HEADER, 2, b'+8')),
    'leading-zeros': screen(put(put(HEADER, 2, b'-0000000008'), 4, b'00000000001')),
    'blank-after-sign': screen(put(HEADER, 2, b'- 5')),
    'blank-between-digits': screen(put(HEADER, 2, b'1 5')),
    'trailing-blank': screen(put(HEADER, 2, b'5 ')),
    'two-signs': screen(put(HEADER, 2, b'--5')),
    'signs-mixed': screen(put(HEADER, 2, b'+-5')),
    'sign-alone': screen(put(HEADER, 2, b'-')),
    'blanks-alone': screen(put(HEADER, 2, b'')),
    'letter': screen(put(HEADER, 2, b'5e1')),
    'before-0': screen(put(HEADER, 2, b'/')),
    'after-9': screen(put(HEADER, 2, b':')),
    'tab': screen(put(HEADER, 2, b'\t5')),
    'carriage-return': good.replace(b'\n', b'\r\n'),
    'feed-in-field': screen(put(HEADER, 2, b'5\n')),
    'layer-missing': lines(HEADER, example_style() + REPLIES, CAND[:LAYER]),
    'field-after-layer': lines(HEADER, example_style() + REPLIES, CAND + [0]),
    'layer-255': screen(candidate=put(CAND, LAYER, 255)),
    'layer-300': screen(candidate=put(CAND, LAYER, 300)),
    'layer-largest': screen(candidate=put(CAND, LAYER, 4294967295)),
    'layer-over': screen(candidate=put(CAND, LAYER, 4294967296)),
    'layer-minus-one': screen(candidate=put(CAND, LAYER, -1)),
    'layer-half': screen(candidate=put(CAND, LAYER, b'0.5')),
    'bad-last-field': screen(candidate=put(CAND, LAYER, b'x')),
    'bad-last-reply': screen(replies=put(REPLIES, 5, b'x')),
    'bad-first-style': screen(style=put(example_style(), 0, b'x')),
    'no-last-feed': good[:-1],
    'line-left-over': good + lines(CAND),
    'feed-left-over': good + b'\n',
    'line-missing': lines(HEADER, example_style() + REPLIES),
    'item-line-missing': lines(HEADER, CAND),
    'field-missing': lines(HEADER[:9]) + good[111:],
    'field-left-over': lines(HEADER + [0]) + good[111:],
    'one-column-less': good[1:],
    'one-column-more': b' ' + good,
    'another-feed': good[:110] + b'\x0b' + good[111:],
    'lines-exchanged': lines(HEADER, CAND, example_style() + REPLIES),
    'empty': b'',
    'feed-alone': b'\n',
}


# document 01's list, as it stands there
EXAMPLE = """\
       0    2400     160    1600     800    1600    1600       0       0
overflow       0    4000       0     960
"""


def main():
    data = os.path.join(root, 'data')
    os.makedirs(data, exist_ok=True)
    for old in os.listdir(data):
        os.remove(os.path.join(data, old))
    out = ''
    for name, text in samples.items():
        open(os.path.join(data, name), 'wb').write(text)
        out += '-- %s\n' % name + shown(text)
    open(os.path.join(root, 'args'), 'w').write(''.join(n + '\n' for n in samples))
    out += '-- rows\n' + ''.join(column(s) for s in 'node x y width height left right top bottom'.split()) + '\n'
    out += EXAMPLE
    out += row(9999999, (bits(9999999 / 8), bits(-9999999 / 8), bits(1250000), bits(-1250000), 0, 0x80000000, bits(0.0625), 1))
    out += row(10000000, (bits(0.125), bits(-0.125), 0x7F800000, 0xFF800000, 0x7FC00000, 0xFFFFFFFF, bits(1), bits(-1)))
    out += refused(1)
    open(os.path.join(root, 'stdout'), 'w').write(out)


main()
