#!/usr/bin/env python3
"""Holds `boxlist` to the published Rust, or to the second implementation where request #106 doesn't compare with the Rust, and `boxreach` to a
model over that list (tools/samples/reach_model.py): ORACLE is the program of diff/oracle (`run.sh` builds it, and does a little of each), which
says where; tools/samples/answers.py must say the same. Boxes with a size keyword are counted by what they were held to: with 1,000 random screens
or more it is a failure if none was held to the Rust.

    diff/screens/compare.py ORACLE random SEED COUNT     random screens, about a quarter of them damaged
    diff/screens/compare.py ORACLE large SEED COUNT      random good screens of up to 128 items and 256 candidates
    diff/screens/compare.py ORACLE around SEED COUNT     boxes around panels, in whole numbers, most of which scroll
    diff/screens/compare.py ORACLE layers SEED COUNT     good screens with other layers, wrong ones and an old candidate line of 13 fields
    diff/screens/compare.py ORACLE sums SEED COUNT       good screens with other second values, wrong tags and an old item line of 63 fields
    diff/screens/compare.py ORACLE bytes SEED SECONDS    any bytes: random ones, and good screens changed, cut and run over

`tools/programs` makes the programs, which are taken from target/bin or from the folder PROGRAMS of the environment. Stops at the
first difference, crash, or output that is neither a list nor a refusal."""
import collections, glob, os, random, re, subprocess, sys, tempfile, time

root = os.path.join(os.path.dirname(os.path.abspath(__file__)), '..', '..')
sys.path.insert(0, os.path.join(root, 'tools', 'samples'))
sys.dont_write_bytecode = True
import answers, reach_model
from answers import FIELD as WIDTH, LENGTH, LENGTHS, SCROLLBAR, SUM

boxlist, boxreach = (os.path.join(os.environ.get('PROGRAMS') or os.path.join(root, 'target', 'bin'), name) for name in ('boxlist', 'boxreach'))
HEADER = rb'    node       x       y   width  height    left   right     top  bottom\n'
LIST = re.compile(HEADER + rb'(?:(?: {0,7}(?:-?\d{1,7}|\*)){9}\n)*overflow(?: {0,7}(?:-?\d{1,7}|\*)){4}\n')
LINE = re.compile(rb' refused       ([1-8])\n')
# bytes of the three lines, each with its feed, and of the largest screen
FIRST, ITEM, CANDIDATE = (WIDTH * fields + 1 for fields in (10, LENGTH * LENGTHS + 13 + 6, 14))
LARGEST = FIRST + 128 * ITEM + 256 * CANDIDATE
MOST = 9999999
# the most in size that is compared with the Rust, in eighths
COMPARED = 8 * answers.MOST
HELD_TO = {'rust': 'by the Rust', 'second': 'by the second implementation'}
# so many random screens have a box with a size keyword that is compared with the Rust
ENOUGH = 1000
# the neighbours of a sum's tag, one with its low byte, the Rust's own tags of calc and of fit-content with calc
NO_TAGS = 128, 130, 385, 4, 6
# a second value as it stands in its field, and the refusal that it gets under whatever tag
SECONDS = {b'0': None, b'-0': None, b'+12': None, b'9999999': None, b'-9999999': None, b'10000000': 8, b'-10000000': 8, b'1.5': 8, b'2e0': 8, b'': 8, b'-': 8}
# a layer as it stands in its field, and the refusal that it gets
LAYERS = {b'0': None, b'+7': None, b'255': None, b'256': 4, b'300': 4, b'65536': 4, b'4294967295': 4, b'4294967296': 8, b'-1': 8, b'1.5': 8, b'2e0': 8, b'': 8}


def run(command, text):
    p = subprocess.run(command, input=text, stdout=subprocess.PIPE, stderr=subprocess.PIPE)
    if p.returncode or p.stderr:
        fail(text, '%s: status %d, %r' % (command[0], p.returncode, p.stderr[:200]))
    return p.stdout


def fail(text, why):
    with tempfile.NamedTemporaryFile(delete=False, suffix='.screen') as f:
        f.write(text)
    sys.exit('%s: %s' % (f.name, why))


kinds, verdicts, keywords = collections.Counter(), collections.Counter(), collections.Counter()


def count_keywords(text, told):
    """the boxes with a size keyword of a screen that is no refusal; told: by whom it is, as the oracle says"""
    by, boxes = answers.by_whom(text)
    if told != by:
        fail(text, 'by %s says the oracle, by %s tools/samples/answers.py' % (told, by))
    keywords[HELD_TO[by]] += boxes


def asked(oracle, text):
    return run([oracle, 'screen', '--by'], text)


def hold(text, answer):
    """answer: as it was asked for"""
    told, expected = answers.parted(answer)
    found = run([boxlist], text)
    if found != expected:
        fail(text, 'printed %r, expected %r' % (found[:200], expected[:200]))
    line = LINE.fullmatch(found)
    if line:
        kinds['refused %s' % line[1].decode()] += 1
    elif LIST.fullmatch(found) and all(len(l) in (41, 73) for l in found.splitlines(True)):
        kinds['lists'] += 1
        kinds['rows'] += found.count(b'\n') - 2
        count_keywords(text, told)
    else:
        fail(text, 'neither a list nor a refusal')
    hold_verdicts(text, expected)


def hold_verdicts(text, expected_list):
    expected = reach_model.printed(text, expected_list)
    found = run([boxreach], text)
    if found != expected:
        lines = [(a, b) for a, b in zip(found.splitlines(), expected.splitlines()) if a != b] or [(found[-80:], expected[-80:])]
        fail(text, 'boxreach printed %r, expected %r' % lines[0])
    if not LINE.fullmatch(found):
        for line in found.splitlines()[1:]:
            words = line.split()
            verdicts['scrolled' if words[2] == b'seen' and words[3:] != [b'0', b'0'] else words[2].decode()] += 1


def random_screens(oracle, seed, count):
    with tempfile.TemporaryDirectory() as folder:
        subprocess.check_call([oracle, 'screens', str(seed), str(count), folder], stdout=subprocess.DEVNULL)
        for name in sorted(glob.glob(folder + '/*.screen')):
            text, by, lines = (open(name[:-6] + part, 'rb').read() for part in ('screen', 'by', 'list'))
            hold(text, by + lines)


def layer(r):
    return r.choice((0, 0, 1, 2, 255, r.randrange(256)))


def second():
    """of a tag that has none: whatever it is, it has no say. Sums and second values are drawn apart, so that no other field depends on them."""
    return sums.randint(-MOST, MOST)


def with_sums(pairs, some):
    """tags and values with their second values, one length in 8 as a sum"""
    def length(tag, value):
        if sums.randrange(8):
            return [tag, value, second()]
        return [SUM, sums.choice((8, 8, 4, 4, -8, 16, 0, sums.randrange(-16, 17))), sums.randint(-some // 4, some // 4)]
    return [word for pair in pairs for word in length(*pair)]


def steer(rows, n):
    """in one screen in three the items with a size keyword, of n, are put where they are compared with the Rust. It is drawn apart."""
    if steering.randrange(3):
        return
    even = lambda v: max(-COMPARED, min(COMPARED, v)) // 2 * 2
    head = rows[0]
    head[:4] = map(even, head[:4])
    for item in (item for item in rows[1:1 + n] if answers.has_keyword(answers.lengths_in(item))):
        for at in range(0, LENGTH * LENGTHS, LENGTH):
            item[at] = {5: 1, SUM: 1, 15: 43}.get(item[at], item[at])
            item[at + 1] = even(item[at + 1]) if item[at] in (1, 43) else item[at + 1]
        item[SCROLLBAR] = even(item[SCROLLBAR])
        for axis in (0, 1):
            at = 2 * LENGTH * axis
            start = even(steering.choice((0, steering.randint(0, head[axis]), steering.randint(-head[axis], head[axis]))))
            end = head[axis] - start - even(steering.choice((0, steering.randint(0, abs(head[axis] - start)))))
            item[at:at + 2], item[at + LENGTH:at + LENGTH + 2] = [1, start], [1, min(end, COMPARED)]


def good_screen(r):
    """no word outside its list, so that it is no refusal"""
    n, m = r.choice((1, 2, 5, 20, 128)), r.choice((1, 3, 10, 60, 256))
    some = r.choice((40, 400, 8000, 9999999))

    def length(tags):
        tag = r.choice(tags)
        return [tag, r.randrange(17) if tag in (5, 15) else r.randint(-some // 4, some)]

    edges, sizes = (1, 1, 1, 3, 3, 5), (1, 1, 3, 3, 5, 11, 15, 27, 35, 43, 59, 75)
    rows = [[r.randint(0, some), r.randint(0, some), r.randint(-90, 90), r.randint(-90, 90), r.randrange(2), 3, r.randrange(4), r.randrange(4), n, m]]
    for _ in range(n):
        pairs = [length(edges) for _ in range(8)] + [length((1, 1, 5)) for _ in range(8)] + [length(sizes) for _ in range(6)]
        codes = [r.randrange(5) // 4, r.choice((4, 8, 16, 12)), r.randrange(2), r.choice((0, 0, 1, 2, 3)), r.randrange(2), r.randrange(11), r.randrange(3),
                 r.randrange(11), r.randrange(3), r.randrange(4), r.randrange(4), r.randrange(200), r.choice((0, 0, 1, 2, 255))]
        replies = [r.randint(0, some), r.randint(0, some)] + [r.randint(-some // 8, some) for _ in range(4)]
        rows.append(with_sums(pairs, some) + codes + replies)
    steer(rows, n)
    for k in range(m):
        area = [r.randint(-some // 4, some) for _ in range(4)]
        codes = [r.randrange(3) for _ in range(6)]
        rows.append([r.randrange(n), k, r.choice((2, 2, 2, 3, 3, 0, 1, 4)), *area[:2], *codes[:3], *area[2:], *codes[3:], layer(r)])
    return b''.join(b''.join(b'%11d' % v for v in row) + b'\n' for row in rows)


def made_screens(make):
    """good screens, one after another"""
    def compare(oracle, seed, count):
        r = random.Random(seed)
        for _ in range(count):
            text = make(r)
            hold(text, asked(oracle, text))
    return compare


def around(r):
    """whole numbers, so that no row is refused; boxes on all sides of the area, some of them just beside an edge"""
    width, height, x, y = r.randint(1, 60), r.randint(1, 60), r.randint(-30, 30), r.randint(-30, 30)
    if r.randrange(12) == 0:
        width, height = r.choice(((0, height), (width, 0), (-width, height)))
    n = r.randint(1, 8)

    def length(v, basis):
        """as it is, or as the whole basis and what is left"""
        return [1, v, second()] if sums.randrange(4) else [SUM, 8, v - basis]

    def auto():
        return [3, 0, second()]

    def start(area, size):
        return r.choice((r.randint(-60, 150), r.randint(0, 150), r.randint(0, 150), r.randint(0, 9), -size + r.randint(-1, 1), area + r.randint(-1, 1)))

    rows = [[width, height, x, y, r.randrange(2), r.choice((3, 3, 3, 1, 2)), r.choice((0, 1, 2, 2, 3, 3)), r.choice((0, 1, 2, 2, 3, 3)), n, r.randint(1, 10)]]
    for _ in range(n):
        w, h = (r.randint(1, 40) if r.randrange(12) else 0 for _ in range(2))
        across, down = [length(start(width, w), width), auto()], [length(start(height, h), height), auto()]
        # mostly from the start edge
        if (r.randrange(4) == 0) != rows[0][4]:
            across.reverse()
        if r.randrange(5) == 0:
            down.reverse()
        if r.randrange(6) == 0:
            across = [auto(), auto()]
        lengths = across + down + [length(0, width) for _ in range(12)] + [length(w, width), length(h, height)] + [auto() for _ in range(4)]
        own = [r.choice((0, 0, 0, r.randint(-60, 200))) for _ in range(4)]
        codes = [0, 0, 0, 0, r.randrange(2), 10, 0, 10, 0, r.choice((0, 0, 0, 1, 2, 3)), r.choice((0, 0, 0, 1, 2, 3)), 0, r.choice((0, 0, 0, 2))]
        rows.append(sum(lengths, []) + codes + [w, h] + own)
    for k in range(rows[0][9]):
        rows.append([r.randrange(n), k, r.choice((2, 2, 2, 3)), *sorted(r.randint(-60, 120) for _ in range(2)), r.choice((0, 2)), r.randrange(3), 0,
                     *sorted(r.randint(-60, 120) for _ in range(2)), r.choice((0, 2)), r.randrange(3), 0, layer(r)])
    return b''.join(b''.join(b'%11d' % v for v in row) + b'\n' for row in rows)


def varied(vary):
    """Good screens, and others made of each, of which it is known that the list stays, or which refusal the format asks for."""
    def compare(oracle, seed, count):
        r = random.Random(seed)
        for _ in range(count):
            text = r.choice((good_screen, around))(r)
            as_it_is, lines = asked(oracle, text), text.splitlines(True)
            for other, refusal in vary(r, lines, 1 + int(lines[0][8 * WIDTH:9 * WIDTH])):
                wanted = b' refused%8d\n' % refusal if refusal else as_it_is
                expected = asked(oracle, other)
                if expected != wanted:
                    fail(other, 'the oracle printed %r, the format asks for %r' % (expected[:200], wanted[:200]))
                hold(other, wanted)
    return compare


def layers(r, lines, first):
    """other layers, and one that is spelled so or left out; the candidates' lines begin at `first`"""
    put = lambda line, field: line[:-WIDTH - 1] + field + b'\n'
    yield b''.join(lines[:first] + [put(line, b'%*d' % (WIDTH, layer(r))) for line in lines[first:]]), None
    for field, refusal in [(b'%*s' % (WIDTH, spelled), refusal) for spelled, refusal in LAYERS.items()] + [(b'', 8)]:
        k = r.randrange(first, len(lines))
        yield b''.join(lines[:k] + [put(lines[k], field)] + lines[k + 1:]), refusal


def other_sums(r, lines, first):
    """other second values where they have no say, one that is spelled so, tags beside a sum's, and an old line without second values"""
    items = [[line[at:at + WIDTH] for at in range(0, len(line) - 1, WIDTH)] for line in lines[1:first]]
    unsaid = [(k, LENGTH * l + LENGTH - 1) for k, item in enumerate(items) for l in range(LENGTHS) if int(item[LENGTH * l]) != SUM]

    def put(fields):
        """the screen with these fields, by item and word; a field that is None is left out"""
        rows = [[fields.get((k, word), field) for word, field in enumerate(item)] for k, item in enumerate(items)]
        texts = [b''.join(b'%*s' % (WIDTH, field) for field in row if field is not None) + b'\n' for row in rows]
        return b''.join(lines[:1] + texts + lines[first:])

    yield put({place: b'%d' % second() for place in unsaid}), None
    for spelled, refusal in SECONDS.items():
        yield put({r.choice(unsaid): spelled}), refusal
    for tag in NO_TAGS:
        yield put({(r.randrange(len(items)), LENGTH * r.randrange(LENGTHS)): b'%d' % tag}), 3
    k = r.randrange(len(items))
    yield put({(k, LENGTH * l + LENGTH - 1): None for l in range(LENGTHS)}), 8


def changed(r, text):
    """one change of a text"""
    at = r.randrange(len(text) + 1)
    line = text.rfind(b'\n', 0, at) + 1
    field = line + (at - line) // 11 * 11
    numbers = [b'0', b'-0', b'+0', b'1', b'2', b'3', b'5', b'-1', b'4', b'6', b'128', b'129', b'130', b'385', b'255', b'256', b'257', b'300', b'9999999', b'-9999999', b'10000000', b'-10000000', b'4294967295', b'4294967296', b'99999999999', b'2147483648', b'', b'-', b'+']
    return r.choice((
        lambda: text[:at],
        lambda: text[at:],
        lambda: text[:at] + bytes([r.randrange(256)]) + text[at + 1:],
        lambda: text[:at] + bytes([r.choice(b' 0123456789+-\n\r\t*x\0')]) + text[at + 1:],
        lambda: text[:at] + bytes([r.randrange(256)]) + text[at:],
        lambda: text[:at] + text[at + 1:],
        lambda: text[:field] + b'%11s' % r.choice(numbers) + text[field + 11:],
        lambda: text[:field] + b'%11d' % r.randrange(-200, 20000) + text[field + 11:],
        lambda: text[:field] + b'%11d' % r.randrange(0, 90) + text[field + 11:],
        lambda: text[:field] + b'%-11s' % r.choice(numbers) + text[field + 11:],
        lambda: text + text,
        lambda: text + bytes([r.randrange(256)]) * r.choice((1, WIDTH, 144, CANDIDATE, 694, ITEM, LARGEST + 1, 200000)),
        lambda: text.replace(b'\n', b'\r\n'),
        lambda: b'\n'.join(r.sample(text.split(b'\n'), len(text.split(b'\n')))),
    ))()


def fuzzed(oracle, seed, seconds):
    r = random.Random(seed)
    with tempfile.TemporaryDirectory() as folder:
        subprocess.check_call([oracle, 'screens', str(seed), '300', folder], stdout=subprocess.DEVNULL)
        good = [open(n, 'rb').read() for n in sorted(glob.glob(folder + '/*.screen'))]
    good += [open(n, 'rb').read() for n in sorted(glob.glob(os.path.join(root, 'screens', '*.screen')))]
    end = time.time() + seconds
    while time.time() < end:
        if r.randrange(8) == 0:
            text = bytes(r.choice((range(256), b' 0123456789+-\n'))[r.randrange(14)] for _ in range(r.choice((0, 1, 10, FIRST, FIRST + 1, FIRST + ITEM, 3000))))
        else:
            text = r.choice(good)
            for _ in range(r.choice((1, 1, 1, 2, 5))):
                text = changed(r, text)
        hold(text, asked(oracle, text))


oracle, what, seed, n = sys.argv[1], sys.argv[2], int(sys.argv[3]), int(sys.argv[4])
sums, steering = random.Random('sums %d' % seed), random.Random('steering %d' % seed)
{'random': random_screens, 'large': made_screens(good_screen), 'around': made_screens(around), 'layers': varied(layers), 'sums': varied(other_sums),
 'bytes': fuzzed}[what](oracle, seed, n)
if what == 'random' and n >= ENOUGH and not keywords[HELD_TO['rust']]:
    sys.exit('no box with a size keyword was compared with the Rust')
total = kinds['lists'] + sum(v for k, v in kinds.items() if k.startswith('refused'))
figures = (', '.join('%s %d' % (k, counts[k]) for k in sorted(counts)) or 'none' for counts in (kinds, verdicts, keywords))
print('%d texts, all equal: %s; boxes %s; with a size keyword %s' % (total, *figures))
