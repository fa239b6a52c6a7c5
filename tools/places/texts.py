# python3 tools/places/texts.py LISTING > docs/DESIGN-PASS-TEXTS.md: old and new texts side by side, of the kit's listing of contracts (its
# contracts.py, with --json, over a tree of the commit in docs/DESIGN-PASS.md's first line and this one).
import json, re, sys

# New texts in the older names, so that what changed by a name alone is told apart. Of each pair the new text, then the older name.
NAMES = [(r'\b(Line|Size|Rect)<Option<f32>>', r'Maybe\1'), (r'\(?\b(Line|Size|Rect) \(Option Float\)\)?', r'Maybe\1'), (r'Option<f32>|\(?\bOption Float\b\)?', 'MaybeF32'), (r'\b(Line|Point|Size|Rect)<f32>', r'\1'), (r'\(?\b(Line|Point|Size|Rect) Float\b\)?', r'\1'), (r'\b(Rect|Size)<CompactLength>|\b(Rect|Size) CompactLength', lambda m: 'Length' + (m[1] or m[2])), (r'Size<AvailableSpace>|Size AvailableSpace', 'AvailableSize'), (r'Point<Overflow>|Point Overflow', 'OverflowPoint'), (r'Point<AxisStaticPosition>|Point AxisStaticPosition', 'StaticPosition'), (r'Size<Option<SizingKeywordResolution>>|Size \(Option SizingKeywordResolution\)', 'SizingKeywords'), (r'\b(Rect|Line)<i32>|\b(Rect|Line) ℤ', lambda m: 'Pixel' + (m[1] or m[2])), (r'\bis_some\b', 'present'), (r'\boption_or\b', 'or_else'), (r'\boption_map\b', 'map'), (r'\bmaybe_line_', 'line_')]

def plain(text):
    for new, old in NAMES:
        text = re.sub(new, old, text)
    return re.sub(r'[(),\s]', '', text)

def by_name(rows, name, old, new, show):
    alone = [name(r) for r in rows if plain(old(r)) == plain(new(r))]
    if alone:
        print(f'By those names alone ({len(alone)}): ' + ', '.join(f'`{a}`' for a in alone) + '.\n')
    for r in rows:
        if plain(old(r)) != plain(new(r)):
            print(f'- `{name(r)}`')
            show(r)
    print()

def pair(r, at=1):
    for text in (r[at], r[at + 1]):
        print('  - `' + re.sub(r'\s+', ' ', text if isinstance(text, str) else '; '.join(text)).strip() + '`')

def clauses(r):
    for kind, old, new in (('requires', r[1], r[3]), ('ensures', r[2], r[4])):
        if old != new:
            for side in (old, new):
                print(f'  - {kind} ' + (', '.join(f'`{(label + " ") if label else ""}{text}`' for label, text in side) or 'nothing'))

def flat(x): return ' '.join(map(flat, x)) if isinstance(x, list) else x

d = json.load(open(sys.argv[1]))
print('''# Old and new texts

What changed between the commit in the first line of [DESIGN-PASS](DESIGN-PASS.md) and this tree, as the kit's listing of contracts finds it (`tools/places/texts.py`): signatures, clauses, constants, definitions. Of each the old text, then the new.

Names of types that changed everywhere, so that a text which changed by them alone is listed by its name: `MaybeF32` is `Option<f32>` (`Option Float` in a definition); `Line`, `Point`, `Size` and `Rect` of floats are `Line<f32>` .. `Rect<f32>`; `MaybeLine`, `MaybeSize`, `MaybeRect` are `Line<Option<f32>>`, `Size<Option<f32>>`, `Rect<Option<f32>>`; `LengthRect` and `LengthSize` are `Rect<CompactLength>` and `Size<CompactLength>`; `AvailableSize` is `Size<AvailableSpace>`; `OverflowPoint` is `Point<Overflow>`; `StaticPosition` is `Point<AxisStaticPosition>`; `SizingKeywords` is `Size<Option<SizingKeywordResolution>>`; `PixelRect` and `PixelLine` are `Rect<i32>` and `Line<i32>`. In definitions `present`, `or_else` and `map` are the library's `is_some`, `option_or` and `option_map`, `maybe_line_x` and `maybe_line_y` are `line_x` and `line_y` of any rectangle.

## Signatures
''')
by_name(d['signatures changed'], lambda r: r[0], lambda r: r[1], lambda r: r[2], pair)
print('## Clauses\n')
by_name(d['contracts changed'], lambda r: r[0], lambda r: flat(r[1:3]), lambda r: flat(r[3:5]), clauses)
print('## Constants and ghost members\n')
by_name(d['ghost items and constants']['changed'], lambda r: ' '.join(r[:3]), lambda r: flat(r[3]), lambda r: flat(r[4]), lambda r: pair(r, 3))
print('## Definitions, laws and theorems\n')
by_name(d['definitions']['changed'], lambda r: ' '.join(r[:2]), lambda r: flat(r[2]), lambda r: flat(r[3]), lambda r: pair(r, 2))
print('## Gone\n\nThe page [DESIGN-PASS](DESIGN-PASS.md#old-and-new-texts) says what states the promise of each now.\n')
print('Definitions: ' + ', '.join(f'`{" ".join(x)}`' for x in d['definitions']['gone']) + '.\n')
print('Functions: ' + ', '.join('`' + x.split(' (requires')[0] + '`' for x in d['functions not found again']) + '.\n')
print('## Edits\n')
for r in d['edits and outputs']['changed']:
    print(f'- `{r[0]} {r[1]}`')
    pair(r, 2)
