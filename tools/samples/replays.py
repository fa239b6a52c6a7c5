#!/usr/bin/env python3
"""Writes the runs that hosts/c/replay.c replays, and what it must print (hosts/c/replay.stdin and replay.stdout): runs with surfaced boxes
by the published Rust or, where request #106 doesn't compare with the Rust, by a second implementation, and damaged calls between them. A
call is damaged by its reply, by words that the host rewrote, those of the tally among them, by a state that the host forged, or by several of
these.

    tools/samples/replays.py ORACLE [RUNS]

ORACLE is the program of diff/oracle (`gen`, `answer`); RUNS (70 unless said) is the number of runs of each of its three profiles, taken as
answers.py says. What the runs must answer and write is `answer`'s, but for the layers, which it hasn't: those of the lists are the
layers of the candidates and surfaced records that went there, in turn. The tally is counted by the questions' nodes, and is that of `answer`
where nothing of it was forged. What a damaged call must answer is worked out here from document
01's table of refusals. A damaged call changes nothing, so that the run goes on after it as if it had not been made. Now and then the count
of answered questions is forged within its bound, or a word of the tally within that count: that call is accepted, and the finish has the
forged count. What a touch driver reads at the end of each run is worked out here from its layouts, in fractions.
"""
import math
import pathlib
import struct
import sys
from fractions import Fraction

sys.dont_write_bytecode = True
import answers

STYLE, CANDIDATE, LAYOUT = 79, 14, 23
# words of a length: tag, value, second value
LENGTH = 3
LAYER, MOST_LAYER = 13, 255
HERE = pathlib.Path(__file__).resolve().parents[2] / "hosts" / "c"
NOWHERE = 0xFFFFFFFF
# what the tally is full of before a run is opened, as the program has it
NOISE = 0x5A5A5A5A
KINDS = {"both": 0, "width": 1, "height": 2, "layout": 3}
LENGTHS = [{1, 3, 5, 129}] * 8 + [{1, 5, 129}] * 8 + [{1, 3, 5, 11, 15, 27, 35, 43, 59, 75, 129}] * 6
# tags that are none: the low byte of 1 or of 129, the neighbours of 129, the Rust's own of calc and of fit-content with calc
NO_TAGS = [257, 385, 128, 130, 4, 6]
# layers that are none: the first one, one whose low byte is 1, 2 ^ 31, a NaN, the highest word
BAD_LAYERS = [256, 257, 0x80000000, 0x7FC00001, 0xFFFFFFFF]
# the highest code of each word behind the lengths, and where the two keywords stand
CODES = {66: 1, 68: 1, 69: 3, 70: 1, 71: 10, 73: 10, 75: 3, 76: 3, 78: 255}
KEYWORDS = 71, 73


class Draw:
    """Numbers in a fixed order."""

    def __init__(self, state):
        self.state = state

    def below(self, n):
        self.state = (1664525 * self.state + 1013904223) % 2**32
        return (self.state >> 16) % n

    def pick(self, items):
        return items[self.below(len(items))]


# ---- document 01's table


def style_bad(styles):
    for at in range(0, len(styles), STYLE):
        r = styles[at:at + STYLE]
        if any(r[LENGTH * i] not in tags for i, tags in enumerate(LENGTHS)) or any(r[k] > most for k, most in CODES.items()):
            return True
        if any(r[k] != 10 and r[k + 1] > 2 for k in KEYWORDS):
            return True
    return False


def candidate_bad(records, n):
    return any(r[0] >= n or r[2] > 4 or any(r[k] > 2 for k in (5, 6, 7, 10, 11, 12)) or r[LAYER] > MOST_LAYER for r in parted(records))


def parted(records):
    return [records[at:at + CANDIDATE] for at in range(0, len(records), CANDIDATE)]


def is_claimed(record, claims):
    return (record[2] == 2 and claims & 1 != 0) or (record[2] == 3 and claims & 2 != 0)


def claimed(records, claims):
    return sum(is_claimed(r, claims) for r in parted(records))


def full(records, claims, filled, places):
    more = claimed(records, claims)
    rest = len(records) // CANDIDATE - more
    return filled[0] + more > places[0] or filled[1] + rest > places[1]


def slices_bad(run):
    n = run["s"] // STYLE
    return run["s"] % STYLE != 0 or n > 1024 or run["l"] != LAYOUT * n or any(run[k] % CANDIDATE or run[k] > CANDIDATE * 4096 for k in "wu")


def extents_bad(run):
    return slices_bad(run) or run["t"] != run["s"] // STYLE


def opening_refusal(area, styles, candidates, run):
    if any(word > most for word, most in zip(area[4:], (1, 3, 3, 3))):
        return 1
    if extents_bad(run) or len(candidates) % CANDIDATE:
        return 2
    if style_bad(styles):
        return 3
    if candidate_bad(candidates, run["s"] // STYLE):
        return 4
    if full(candidates, area[5], (0, 0), (run["w"] // CANDIDATE, run["u"] // CANDIDATE)):
        return 5
    return 0


def counts_bad(counts, run, tally):
    working, unclaimed, begun, answered = counts
    return max(tally, default=0) > answered or working > run["w"] // CANDIDATE or unclaimed > run["u"] // CANDIDATE or not 1 <= begun <= working or answered > 3 * begun


def reply_refusal(state, kind, surfaced, styles, working, tally, run):
    """`state` is the lent one: the open question's kind (None after the finish), the counts, the lengths at the opening."""
    surfaced = surfaced if kind == 3 else []
    if extents_bad(run) or state["lengths"] != lengths(run) or len(surfaced) % CANDIDATE:
        return 2
    if kind != state["asked"] or counts_bad(state["counts"], run, tally):
        return 6
    if style_bad(styles):
        return 3
    n, filled = run["s"] // STYLE, state["counts"][:2]
    if candidate_bad(working[:CANDIDATE * filled[0]], n) or candidate_bad(surfaced, n):
        return 4
    if full(surfaced, state["claims"], filled, (run["w"] // CANDIDATE, run["u"] // CANDIDATE)):
        return 5
    return 0


# ---- what a touch driver reads


def in_pixels(word):
    """A float by its bits, exactly; None where it isn't a whole eighth of at most 9,999,999 in size."""
    value, = struct.unpack(">f", word.to_bytes(4, "big"))
    eighths = 8 * Fraction(value) if math.isfinite(value) else None
    return eighths / 8 if eighths is not None and eighths.denominator == 1 and abs(eighths) <= 9999999 else None


def nearest(edge):
    """The pixel edge nearest to that, of two the greater, in two's complement."""
    below = math.floor(edge)
    return (below + (edge - below >= Fraction(1, 2))) % 2**32


def touched(area, run, layouts, nodes):
    """Of the nodes that a finished run hoisted: the number of the refusal, or five words of each."""
    if slices_bad(run):
        return 2, []
    told = []
    for node in nodes:
        at = LAYOUT * node
        numbers = [in_pixels(word) for word in (*area[2:4], layouts[at + 9], layouts[at + 10], layouts[at + 1], layouts[at + 2])]
        if None in numbers:
            return 9, []
        left, top, x, y, width, height = numbers
        told += [node, *map(nearest, (x - left, x - left + width, y - top, y - top + height))]
    return 0, told


# ---- states: the counts are filled working and unclaimed records, boxes begun, questions answered


def lengths(run):
    return [run[k] for k in "slwut"]


def forged(state, what, n):
    """As `forge` of the program: n for the progress (1), a count (2 to 5) or a length (6 to 10)."""
    asked, counts, of = state["asked"], list(state["counts"]), list(state["lengths"])
    if what == 1:
        asked = (None, 0, 1, 2, 0, 3)[n]
    elif 2 <= what <= 5:
        counts[what - 2] = n
    elif what >= 6:
        of[what - 6] = n
    return {"asked": asked, "counts": counts, "lengths": of, "claims": state["claims"]}


def forgery(draw, state, run):
    """One number of the state, replaced."""
    working, unclaimed, begun, answered = state["counts"]
    what = 1 + draw.below(9)
    if what == 1:
        return what, draw.below(6)
    if what >= 6:
        of = state["lengths"][what - 6]
        return what, draw.pick([0, of + 1, of + CANDIDATE, of + STYLE, 0xFFFFFFFF])
    n = {2: (begun - 1, run["w"] // CANDIDATE + 1), 3: (run["u"] // CANDIDATE + 1,) * 2, 4: (0, working + 1), 5: (3 * begun + 1,) * 2}[what]
    return what, draw.pick([n[0] % 2**32, n[1], 0xFFFFFFFF])


# ---- the runs


def fields(lines):
    return [line.split() for line in lines]


def words(fields):
    return [int(f, 16) if f.startswith("0x") else int(f) for f in fields]


def shown(word):
    return "0" if word == 0x80000000 else f"{word:x}"


def field(text):
    return shown(int(text, 16)) if text.startswith("0x") else text


class Script:
    """Input and expected output of all runs."""

    def __init__(self):
        self.runs, self.input, self.output = 0, [], []
        # by the result of what a touch driver reads: how many boxes
        self.touched = {}

    def open(self, area, styles, candidates, run):
        self.runs += 1
        self.calls, self.area, self.run = [], area, run
        self.head = [run["s"], len(candidates), run["l"], run["w"], run["u"], run["t"], *area, *styles, *candidates]

    def reply(self, kind, values, surfaced, forgery=(0, 0), style=(NOWHERE, 0), listed=(NOWHERE, 0), tallied=(NOWHERE, 0)):
        self.calls.append([*forgery, *style, *listed, *tallied, kind, *values, *[0] * (4 - len(values)), len(surfaced), *surfaced])

    def say(self, line, counts):
        """An answer, and the counts of the state returned with it."""
        self.output.append(line)
        self.output.append(" ".join(["counts", *map(str, counts)]))

    def close(self, layouts, working, unclaimed, tally, boxes):
        self.input.append(" ".join(f"{w:x}" for w in self.head))
        self.input.append(f"{len(self.calls):x}")
        self.input.extend(" ".join(f"{w:x}" for w in call) for call in self.calls)
        for name, list_ in (("layouts", layouts), ("working", working), ("unclaimed", unclaimed), ("tally", tally)):
            self.output.append(" ".join([name, *map(shown, list_)]))
        result, told = touched(self.area, self.run, layouts, working[:CANDIDATE * boxes:CANDIDATE])
        self.output.append(" ".join(["touch", *(map(shown, told) if result == 0 else ("refused", str(result)))]))
        self.touched.setdefault(result, []).append(boxes)


def layered(area, candidates, answer):
    """Both lists as the run leaves them: the answer's words, and behind each record the layer of what went there."""
    given = candidates + [w for f in answer if f[0] == "reply" for w in words(f[1:])[4:]]
    lists = {}
    for name, inside in (("working", True), ("unclaimed", False)):
        layers = [r[LAYER] for r in parted(given) if is_claimed(r, area[5]) == inside]
        records = [words(f[1:]) for f in answer if f[0] == name]
        assert len(records) == len(layers)
        lists[name] = [w for r, layer in zip(records, layers) for w in (*r, layer)]
    return lists


def rewritten(words, place, word):
    """As `rewrite` of the program."""
    return words if place == NOWHERE else words[:place] + [word] + words[place + 1:]


def replay(script, draw, of_tally, case, answer):
    """One run, with damaged calls in between. What is damaged of the tally is drawn from numbers of its own."""
    area = next(words(f[1:]) for f in case if f[0] == "area")
    styles = [w for f in case if f[0] == "style" for w in words(f[1:])]
    candidates = [w for f in case if f[0] == "cand" for w in words(f[1:])]
    final = layered(area, candidates, answer)
    n = len(styles) // STYLE
    run = {"s": len(styles), "l": LAYOUT * n, "w": len(final["working"]) + CANDIDATE * draw.below(2), "u": len(final["unclaimed"]) + CANDIDATE * draw.below(2), "t": n}
    script.open(area, styles, candidates, run)
    first = claimed(candidates, area[5])
    state = {"asked": None, "counts": [first, len(candidates) // CANDIDATE - first, min(first, 1), 0], "lengths": lengths(run), "claims": area[5]}
    counts, tally, is_forged = state["counts"], [0] * n, False
    mend, mend_tally = ((NOWHERE, 0), (NOWHERE, 0)), (NOWHERE, 0)

    def damage():
        nonlocal mend, mend_tally
        asked = state["asked"]
        kind, values, surfaced, forge, style, listed = asked, [draw.below(5)] * 4, [], (0, 0), *mend
        mending, mend = style[0] != NOWHERE or listed[0] != NOWHERE, ((NOWHERE, 0), (NOWHERE, 0))
        damaged, working = styles, final["working"]
        which = draw.below(8)
        if which == 0 or asked is None:
            kind = draw.pick([k for k in range(4) if k != asked])
        elif which == 1 and not mending:
            word = draw.pick([0, 24, 48, 68, 71, 78])
            at, bad = STYLE * draw.below(n) + word, 257 if word in CODES else draw.pick(NO_TAGS)
            style, mend = (at, bad), ((at, styles[at]), (NOWHERE, 0))
            damaged = styles[:at] + [bad] + styles[at + 1:]
        elif which == 2 and not mending:
            word = draw.pick([0, 2, 5, 12, LAYER])
            at, bad = CANDIDATE * draw.below(counts[0]) + word, draw.pick(BAD_LAYERS) if word == LAYER else 5
            listed, mend = (at, bad), ((NOWHERE, 0), (at, working[at]))
            working = working[:at] + [bad] + working[at + 1:]
        elif which == 3:
            kind, surfaced = 3, [0] * draw.pick([13, 15])
        elif which == 4:
            kind, surfaced = 3, [draw.below(n + 1), 0, draw.below(6)] + [0] * 10 + [draw.pick([0, MOST_LAYER, *BAD_LAYERS])]
        elif which == 5:
            kind, surfaced = 3, ([0, 0, 2] + [0] * 10 + [1] + [0, 0, 3] + [0] * 10 + [MOST_LAYER]) * 2
        if which > 5 or draw.below(3) == 0:
            forge = forgery(draw, state, run)
        tallied = mend_tally
        if asked is not None and tallied[0] == NOWHERE and of_tally.below(3) == 0:
            tallied = of_tally.below(n), of_tally.pick([counts[3] + 1, counts[3] + 1, 0x80000000, 0xFFFFFFFF])
        elif of_tally.below(8) == 0:
            forge = of_tally.pick([(10, 0), (10, n - 1), (10, n + 1), (10, 0xFFFFFFFF), (5, max(0, max(tally) - 1))])
        lent = forged(state, *forge)
        refusal = reply_refusal(lent, kind, surfaced, damaged, working, rewritten(tally, *tallied), run)
        if refusal == 0:
            mend = style, listed
            return
        mend_tally = (NOWHERE, 0) if tallied == mend_tally else (tallied[0], tally[tallied[0]])
        script.reply(kind, values, surfaced, forge, style, listed, tallied)
        script.say(f"refused {refusal}", lent["counts"])

    # questions and replies, in turn
    drift = 0
    turns = [f for f in answer if f[0] in ("ask", "reply")]
    for ask, said in zip(turns[::2], turns[1::2]):
        kind = state["asked"] = KINDS[ask[1]]
        script.say(" ".join([ask[1], f"{int(ask[2]):x}", *map(field, ask[3:])]), counts)
        for _ in range(draw.below(3)):
            damage()
        forge = (0, 0)
        if kind == 3 and draw.below(5) == 0:
            forge, is_forged = (5, max(*tally, draw.below(3 * counts[2] + 1))), True
            drift += forge[1] - counts[3]
            counts[3] = forge[1]
        tallied, mend_tally = mend_tally, (NOWHERE, 0)
        if tallied[0] == NOWHERE and of_tally.below(12) == 0:
            tallied, is_forged = (of_tally.below(n), of_tally.pick([0, counts[3], of_tally.below(counts[3] + 1)])), True
            tally[tallied[0]] = tallied[1]
        values = words(said[1:])
        surfaced = values[4:] if kind == 3 else [7] * draw.below(3)
        script.reply(kind, values[:4] if kind == 3 else values, surfaced, forge, *mend, tallied)
        mend = (NOWHERE, 0), (NOWHERE, 0)
        counts[3] += 1
        tally[int(ask[2])] += 1
        if kind == 3:
            more = claimed(surfaced, area[5])
            counts[0] += more
            counts[1] += len(surfaced) // CANDIDATE - more
            counts[2] = min(counts[2] + 1, counts[0])
    finish = next(f for f in answer if f[0] == "finish")
    state["asked"] = None
    script.say(" ".join(["finish", *map(field, finish[1:5]), str(int(finish[5]) + drift)]), counts)
    damage()
    assert is_forged or (tally == words(next(f for f in answer if f[0] == "tally")[1:]) and sum(tally) == counts[3])
    layouts = [0] * run["l"]
    for f in answer:
        if f[0] == "layout":
            at = LAYOUT * int(f[1])
            layouts[at:at + LAYOUT] = words(f[2:])
    script.close(layouts, *(final[k] + [0] * (run[s] - len(final[k])) for k, s in (("working", "w"), ("unclaimed", "u"))), tally, counts[0])


def refuse_opening(script, draw, of_tally, case):
    """An opening with one or two faults, then a reply to what it returned."""
    area = next(words(f[1:]) for f in case if f[0] == "area")
    styles = [w for f in case if f[0] == "style" for w in words(f[1:])]
    candidates = [w for f in case if f[0] == "cand" for w in words(f[1:])]
    n = len(styles) // STYLE
    records = len(candidates) // CANDIDATE
    first = claimed(candidates, area[5])
    run = {"l": LAYOUT * n, "w": CANDIDATE * first, "u": CANDIDATE * (records - first), "t": n}
    for _ in range(1 + draw.below(2)):
        which = draw.below(7)
        if which == 0:
            area[4 + draw.below(4)] = 4
        elif which == 1:
            run["l"] += draw.pick([-1, 1, LAYOUT])
        elif which == 2:
            candidates = candidates[:-1]
        elif which == 3:
            styles[STYLE * draw.below(n) + draw.pick([0, 3, 27, 60, 66, 75])] = 12
        elif which == 4 and len(candidates) >= CANDIDATE:
            word = draw.pick([0, 2, 6, 11, LAYER])
            candidates[word] = draw.pick(BAD_LAYERS) if word == LAYER else 5
        elif which == 5 and run["w"] > 0:
            run["w"] -= CANDIDATE
        elif run["u"] > 0:
            run["u"] -= draw.pick([1, CANDIDATE])
    if of_tally.below(4) == 0:
        run["t"] += of_tally.pick([-1, 1, n])
    run["s"] = len(styles)
    refusal = opening_refusal(area, styles, candidates, run)
    if refusal == 0:
        return
    script.open(area, styles, candidates, run)
    state = {"asked": None, "counts": [0] * 4, "lengths": lengths(run), "claims": 0}
    script.say(f"refused {refusal}", state["counts"])
    kind, forge = draw.below(4), draw.pick([(0, 0), (1, 1 + draw.below(5)), (4, 1)])
    lent = forged(state, *forge)
    script.reply(kind, [0] * 4, candidates, forge)
    tally = [NOISE] * run["t"]
    script.say(f"refused {reply_refusal(lent, kind, candidates, styles, [], tally, run)}", lent["counts"])
    script.close([0] * run["l"], [0] * run["w"], [0] * run["u"], tally, 0)


def main():
    oracle, runs = sys.argv[1], int(sys.argv[2]) if len(sys.argv) > 2 else 70
    script, draw, of_tally = Script(), Draw(20), Draw(107)

    tally, compared = answers.Tally(), 0
    for seed, profile in enumerate(("quarter", "wild", "typical"), 1):
        cases = answers.cut(answers.run([oracle, "gen", profile, str(seed), str(10 * runs), "6"]))
        found = [(case, out, answers.placed(case, by, out, same)) for case, (by, out, same) in zip(cases, answers.answered(oracle, cases))]
        for case, answer, boxes in answers.chosen(found, runs, lambda f: set().union(*f[2])):
            replay(script, draw, of_tally, fields(case[1:]), fields(answer[1:]))
            if draw.below(2) == 0:
                refuse_opening(script, draw, of_tally, fields(case[1:]))
            for kinds in boxes:
                tally.add(kinds)
            compared += "second" not in set().union(*boxes)
    tally.hold("replays", answers.ALL_COMPARED | {answers.UNLIKE})
    print(f"{compared} of {3 * runs} runs by the Rust")
    for result, boxes in sorted(script.touched.items()):
        print(f"touch driver, {f'refused {result}' if result else 'words'}: {len(boxes)} openings, {sum(boxes)} boxes")
    (HERE / "replay.stdin").write_text("\n".join([f"{script.runs:x}", *script.input]) + "\n")
    (HERE / "replay.stdout").write_text("\n".join(script.output) + "\n")


main()
