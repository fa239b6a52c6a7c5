#!/usr/bin/env python3
"""runs.py ORACLE: writes the recorded runs of the computed test of a call, crates/test_run_rows/specs/Runs.antt, and the test itself,
crates/test_run_rows/proofs/Computed.antt, whose `unfolding` line names every definition that a call uses. Run at the root of the
repository, then `rt fmt`.

ORACLE is the program of diff/oracle, on document 01's word records: `ORACLE gen PROFILE SEED COUNT SURFACED` prints random cases
(quarter: quarter pixels; wild: any float bits; typical: plausible CSS) whose host surfaces SURFACED candidates at most, `ORACLE answer`
lays them out, by taffy 0.15.1 or, where request #106 doesn't compare with the Rust, by a second implementation. Of each profile WANTED
runs are taken, as answers.py says, of those that have two items or more, two candidates or more, from 3 to MOST questions, a surfaced
candidate that is claimed and a candidate that isn't, and that differ in the kinds of their questions. Each list is lent one record more than the run fills,
and each slice is full of UNUSED words. Neither implementation has layers: those of the lists are the layers of the candidates and surfaced
records that went there, in turn. The tally of a run is ORACLE's: of the Rust, how often it called back about each item."""
import re, sys

sys.dont_write_bytecode = True
import answers
from answers import of

oracle = sys.argv[1]
SEED, SURFACED, MOST, WANTED, UNUSED = 11, 2, 8, 4, 7
CANDIDATE, LAYER = 14, 13
# what is no number stands above all words, as in specs/Script.antt
NAMED = dict(none=1 << 32, min=1 << 32, max=(1 << 32) + 1)
KINDS = dict(both=0, width=1, height=2, layout=3)
FOLDER = 'crates/test_run_rows/'

def number(w): return NAMED[w] if w in NAMED else int(w, 0)
def words(line): return [number(w) for w in line.split()[1:]]
def flat(rows): return [w for row in rows for w in row]
def chain(ws): return '(' + ''.join('%s ∷ ' % w for w in ws) + '[])'

def reply(kind, ws):
    if kind == 'layout': return 'laid %d %d %d %d ' % tuple(ws[:4]) + chain(ws[4:])
    return '%s %s' % (kind, ' '.join(map(str, ws)))

def claimed(area, cand): return bool(cand[2] in (2, 3) and area[5] >> (cand[2] - 2) & 1)

def candidates(case, out):
    """All that a run is given, in turn: the opening's candidates, then the surfaced ones."""
    surfaced = flat(words(r)[4:] for q, r in zip(of(out, 'ask'), of(out, 'reply')) if q.split()[1] == 'layout')
    return [words(l) for l in of(case, 'cand')] + [surfaced[i:i + CANDIDATE] for i in range(0, len(surfaced), CANDIDATE)]

def layered(case, out, name, inside):
    """The words of a list: the answer's, and behind each record its layer."""
    area = words(of(case, 'area')[0])
    layers = [c[LAYER] for c in candidates(case, out) if claimed(area, c) == inside]
    records = [words(l) for l in of(out, name)]
    assert len(records) == len(layers)
    return flat(r + [layer] for r, layer in zip(records, layers))

def record(case, out):
    items, asked, finish = len(of(case, 'style')), of(out, 'ask'), words(of(out, 'finish')[0])
    layouts = {words(l)[0]: words(l)[1:] for l in of(out, 'layout')}
    answers = [[KINDS[l.split()[1]]] + [number(w) for w in l.split()[2:]] for l in asked] + [[4] + finish]
    fields = dict(
        opening=chain(words(of(case, 'area')[0])),
        styles=chain(flat(map(words, of(case, 'style')))),
        candidates=chain(flat(map(words, of(case, 'cand')))),
        replies=chain(reply(q.split()[1], words(r)) for q, r in zip(asked, of(out, 'reply'))),
        answers=chain(map(chain, answers)),
        layouts=chain(flat(layouts.get(i, 23 * [UNUSED]) for i in range(items))),
        working=chain(layered(case, out, 'working', True) + CANDIDATE * [UNUSED]),
        unclaimed=chain(layered(case, out, 'unclaimed', False) + CANDIDATE * [UNUSED]),
        tally=chain(words(of(out, 'tally')[0])))
    return 'record { %s }' % '; '.join('%s = %s' % f for f in fields.items())

def surfaces(case, out):
    """Some surfaced candidate is claimed, and some candidate isn't."""
    area = words(of(case, 'area')[0])
    return len(of(out, 'working')) > sum(claimed(area, words(l)) for l in of(case, 'cand')) > 0 and of(out, 'unclaimed')

def kinds_of(case, out): return tuple(l.split()[1] for l in of(out, 'ask'))

def taken(profile):
    """cases, answers and the kinds of the placed boxes"""
    cases = answers.cut(answers.run([oracle, 'gen', profile, str(SEED), '2000', str(SURFACED)]))
    found = []
    for case, (by, out, same) in zip(cases, answers.answered(oracle, cases)):
        if len(of(case, 'style')) >= 2 and len(of(case, 'cand')) >= 2 and 3 <= len(kinds_of(case, out)) <= MOST and surfaces(case, out):
            found.append((case, out, answers.placed(case, by, out, same)))
    return list(answers.chosen(found, WANTED, lambda f: set().union(*f[2]), lambda f: kinds_of(*f[:2])))

rows, tally, compared = [], answers.Tally(), 0
for profile in ('quarter', 'typical', 'wild'):
    for case, out, boxes in taken(profile):
        rows.append(record(case, out))
        print(profile, *kinds_of(case, out))
        for kinds in boxes: tally.add(kinds)
        compared += 'second' not in set().union(*boxes)
tally.hold('runs', {('stretch', 'x'), answers.UNLIKE})
open(FOLDER + 'specs/Runs.antt', 'w').write('''-- %d whole runs with surfaced boxes, %d of them by the published Rust (profiles quarter, typical, wild; seed %d).
-- %s.
-- Made by tools/samples/runs.py: edit that, not this. Assumes nothing.
use Rattle.std.specs.Prelude.{List, [], ◌∷◌}
use Rattle.test_run_rows.specs.Script.{Run, both, width, height, laid}

unfoldable pub runs : List Run
runs =
    %s
    ∷ []
''' % (len(rows), compared, SEED, tally.said(), '\n    ∷ '.join(rows)))

# ---- the test: every definition on the way, by its module; of two names that are alike, the later one is primed

MODULES = '''test_run_rows Script Runs Readings
util Order Maybe
geometry Geometry
style Codes Values Resolve
records Records
style_record Record Check Decode
tree Static Codes
tree_record Candidate Layout
sweep Sweep
oof_common ScrollableOverflow SizingKeyword
oof_axis Axis
oof_resolve Resolved
oof_place Placing
oof_box Box Cut
run Refusals Run Theorems'''
FLOATS = 'add sub mul div neg lt le eq is_nan sum round units odd size span climb of_bits to_bits of_fields nan_bits of_int'.split()

uses, unfolding = ['use lib.Ieee.{%s}' % ', '.join(FLOATS)], list(FLOATS)
for line in MODULES.split('\n'):
    crate, *modules = line.split()
    for module in modules:
        items = []
        for name in re.findall(r'^unfoldable pub (\S+) :', open('crates/%s/specs/%s.antt' % (crate, module)).read(), re.M):
            here = name
            while here in unfolding: here += "'"
            unfolding.append(here)
            items.append(name if here == name else '%s as %s' % (name, here))
        if items: uses.append('use Rattle.%s.specs.%s.{%s}' % (crate, module, ', '.join(items)))

open(FOLDER + 'proofs/Computed.antt', 'w').write('''-- The definition of a call gives the recorded runs, and the answers that tell the readings apart, by computation.
-- Made by tools/samples/runs.py: edit that, not this.
use mathlib.Core.Path.{◌≡◌, refl}
use mathlib.Core.Bool.{true}
%s

calls_agree : (all_agree runs ≡ true) × (all readings ≡ true)
unfolding %s
calls_agree = (refl, refl)
''' % ('\n'.join(uses), ' '.join(unfolding)))
