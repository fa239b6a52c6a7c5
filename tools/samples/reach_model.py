"""What `boxreach` must print for a screen, worked out apart from the Rattle code: from the first line of the screen and from what
`boxlist` must print for it (boxes and overflow rectangle, as boxlists.py has them), by a search over the scroll offsets in the words of
request #102 (docs/02-change-requests.md). Used by boxlists.py, tools/run-screens and diff/screens.

    printed(screen, list) -> the bytes that boxreach must print
    tries()               -> tries the search beside cells counted one by one, on small panels; the number of panels tried"""
import itertools
import random

NAMES = b'   place    node verdict scrollx scrolly\n'
REFUSED = b' refused'
HIDDEN, SCROLL = 2, 3
NOT_IN_EIGHTHS = 9


def columns(line, width):
    return [line[k:k + width] for k in range(0, len(line), width)]


def row(*words):
    return b''.join(b'%8s' % (w if isinstance(w, bytes) else b'%d' % w) for w in words) + b'\n'


def number(text):
    """a number of a list, or None for `*`: no whole eighth, or above 9,999,999 in size"""
    return None if text.strip() == b'*' else int(text)


def start_and_size(direction, area_width, offset_x, x, width):
    """where a box starts across, from the area's start edge: its left one, or its right one in a right-to-left container"""
    from_left = x - offset_x
    return (area_width - (from_left + width) if direction else from_left), width


def last_offset(code, area_size, far):
    """the last of the offsets 0, 1, 2 .. of an axis"""
    return max(0, far - area_size) if code in (HIDDEN, SCROLL) else 0


def share(area_size, start, size, offset):
    """whether box and area share a stretch of positive length, the view having moved by the offset"""
    return max(start, offset) < min(start + size, offset + area_size)


def least(area_size, start, size, last):
    """the least of the offsets 0 .. last at which they share, or None.

    `share` compares `start` and `offset` with `start + size` and `offset + area_size`: four comparisons, two without the offset and two
    that change once as it grows, where it passes `start - area_size` and `start + size`. Between neighbours of these two offsets nothing
    changes, so that the least one is 0 or such a neighbour. Short ranges are searched whole all the same."""
    if last <= 3000:
        tried = range(last + 1)
    else:
        changes = (start - area_size, start + size)
        tried = sorted(o for o in {0, last, *(c + k for c in changes for k in (-1, 0, 1))} if 0 <= o <= last)
    return next((o for o in tried if share(area_size, start, size, o)), None)


def verdict(opening, box, overflow):
    """three words of a row. opening: the eight first fields; box: x, y, width, height; overflow: left, right, top, bottom"""
    width, height, offset_x, offset_y, direction, _, code_x, code_y = opening
    if None in box or None in overflow:
        return REFUSED.strip(), NOT_IN_EIGHTHS, b'-'
    x, y, box_width, box_height = box
    left, right, top, bottom = overflow
    across = least(width, *start_and_size(direction, width, offset_x, x, box_width), last_offset(code_x, width, right))
    down = least(height, y - offset_y, box_height, last_offset(code_y, height, bottom))
    return (b'unseen', b'-', b'-') if across is None or down is None else (b'seen', across, down)


def read(screen, printed_list):
    """opening, rows of (node, (x, y, width, height)), overflow rectangle, of a screen that is not refused"""
    opening = [int(f) for f in columns(screen.split(b'\n', 1)[0], 11)[:8]]
    lines = printed_list.splitlines()
    rows = [(int(c[0]), tuple(map(number, c[1:5]))) for c in (columns(line, 8) for line in lines[1:-1])]
    return opening, rows, tuple(map(number, columns(lines[-1], 8)[1:]))


def printed(screen, printed_list):
    if printed_list.startswith(REFUSED):
        return printed_list
    opening, rows, overflow = read(screen, printed_list)
    return NAMES + b''.join(row(place, node, *verdict(opening, box, overflow)) for place, (node, box) in enumerate(rows))


# ---- the search, beside cells


def by_cells(opening, box, overflow):
    """The same verdict, with the area and the box as sets of cells of one eighth by one eighth. The view moves right and down by the
    offsets, or left and down in a right-to-left container. Every pair of offsets is tried."""
    width, height, offset_x, offset_y, direction, _, code_x, code_y = opening
    x, y, box_width, box_height = box
    pairs = [(i, j)
             for i in range(max(0, overflow[1] - width) + 1 if code_x in (HIDDEN, SCROLL) else 1)
             for j in range(max(0, overflow[3] - height) + 1 if code_y in (HIDDEN, SCROLL) else 1)
             if shares_cell(range(x, x + box_width), range(offset_x + (-i if direction else i), offset_x + (-i if direction else i) + width))
             and shares_cell(range(y, y + box_height), range(offset_y + j, offset_y + j + height))]
    if not pairs:
        return b'unseen', b'-', b'-'
    pair = min(i for i, _ in pairs), min(j for _, j in pairs)
    assert pair in pairs, 'no pair is least on each axis'
    return (b'seen', *pair)


def shares_cell(a, b):
    return bool(set(a) & set(b))


def tries(count=4000, seed=1):
    """The search and the cells say the same of panels of a few eighths, and long ranges are searched as short ones are."""
    r = random.Random(seed)
    for _ in range(count):
        opening = [r.randint(-1, 6), r.randint(-1, 6), r.randint(-3, 3), r.randint(-3, 3), r.randrange(2), 3, r.randrange(4), r.randrange(4)]
        box = r.randint(-8, 14), r.randint(-8, 14), r.randint(-1, 4), r.randint(-1, 4)
        overflow = 0, r.randint(0, 16), 0, r.randint(0, 16)
        assert verdict(opening, box, overflow) == by_cells(opening, box, overflow), (opening, box, overflow)
    for area, start, size, last in itertools.product((-5, 0, 1, 8, 3000), (-9, -1, 0, 1, 2990, 3007, 6000), (-1, 0, 1, 7, 5000), (3001, 3008, 5999, 6001)):
        plain = next((o for o in range(last + 1) if share(area, start, size, o)), None)
        assert least(area, start, size, last) == plain, (area, start, size, last)
    return count
