#!/usr/bin/env python3
"""Holds every number of hosts/c/oof.h, the state's and a style's words, the tags and the widths of hosts/rust/src, and what both hosts call
the words of a style to the definitions in crates/*/specs.

    hosts/words.py [HEADER]

Each constant of the header must be one that the definitions give, with their number, and none may be missing. It reads text
only; exits with 1 at the first differences.
"""
import itertools
import pathlib
import re
import sys

root = pathlib.Path(__file__).resolve().parent.parent
header = pathlib.Path(sys.argv[1]) if len(sys.argv) > 1 else root / "hosts/c/oof.h"


def text(path):
    return (root / "crates" / path).read_text()


def body(path, name):
    """The equations of a definition, one string a clause: what stands behind `name .. =` up to the next blank line."""
    lines = re.findall(rf"^{name}\b([^=\n]*) =((?:.|\n(?!\n|{name}\b))*)", text(path), re.M)
    assert lines, f"{path} has no {name}"
    return [(arguments.strip(), " ".join(re.sub(r"(?m)(^|\s)-- .*", "", right).split())) for arguments, right in lines]


def number(path, name):
    return int(body(path, name)[0][1])


def count(name):
    """How many words the list of a definition of the state or the answer has: one for each ∷, and those of the lists that it joins."""
    path = next(p for p in (STATE, ANSWER, LAYOUT) if re.search(rf"^{name} ", text(p), re.M))
    right = body(path, name)[0][1]
    return right.count("∷") + sum(count(part.split()[0]) for part in right.split("++") if "∷" not in part)


def codes(path, name, prefix, names=None):
    """`name Variant = N` for each variant, as PREFIX_VARIANT."""
    snake = lambda v: re.sub(r"(?<=[a-z])(?=[A-Z])", "_", v.split(".")[-1]).upper()
    return {prefix + (names or {}).get(v, snake(v)): int(n) for v, n in body(path, name)}


RESOLVE = "style/specs/Resolve.antt"
RECORD, DECODE = "style_record/specs/Record.antt", "style_record/specs/Decode.antt"
CANDIDATE, LAYOUT = "tree_record/specs/Candidate.antt", "tree_record/specs/Layout.antt"
STATE, ANSWER = "oof_c_words/specs/StateWords.antt", "oof_c_words/specs/AnswerWords.antt"
PIXELS, REACH, FOUND = "pixels/specs/Told.antt", "reach/specs/Told.antt", "oof_c_words/specs/CheckWords.antt"
TOUCH = "touch/specs/Touch.antt"
SIDES = ["LEFT", "RIGHT", "TOP", "BOTTOM"]
AT = r"(\w+|\([^()]*\))"  # a word's number, as it is written
known = {"layer_word": number(CANDIDATE, "layer_word")}
for name in re.findall(r"^abbrev pub (\w+) : ℕ$", text(RECORD), re.M):
    known[name] = eval(body(RECORD, name)[0][1], {}, known)


def word_of(written):
    """The number of a word, as it is written by the names of the style record: `(tag_word 4)`, `ratio_word`."""
    (length, right), = body(RECORD, "tag_word")
    tag = lambda m: str(eval(right, {length: int(m[1])}, known))
    return eval(re.sub(r"\btag_word (\d+)", tag, written), {}, known)


def place(record, field, of):
    """The number behind `field = of r NUMBER` in a definition's text."""
    found = re.search(rf"\b{field} = [^;]*?\b{of} (?:r|w) {AT}", record)
    assert found, f"no {field} in {record}"
    return word_of(found[1])


def style():
    out, record = {}, body(DECODE, "style_of")[0][1]
    for field in ("inset", "margin", "padding", "border"):
        first = place(record, field, "rect_at")
        out |= {f"{field.upper()}_{side}": first + known["length_words"] * k for k, side in enumerate(SIDES)}
    for field, prefix in (("size", ""), ("min", "MIN_"), ("max", "MAX_")):
        first = place(record, field, "size_at")
        out |= {prefix + "WIDTH": first, prefix + "HEIGHT": first + known["length_words"]}
    present, ratio = re.findall(rf"\(r {AT}\)", body(DECODE, "ratio_at")[0][1])
    out |= {"RATIO_PRESENT": word_of(present), "RATIO": word_of(ratio)}
    word = lambda of: word_of(re.search(rf"{of} \(r {AT}\)", record)[1])
    out |= {"BOX_SIZING": word("sizing_of"), "FLAGS": word("bit0"), "DIRECTION": word("direction_of"), "CONTAIN": word("contain_of")}
    assert word("bit0") == word("bit1")
    for field in ("justify", "align"):
        first = place(record, field, "align_at")
        out |= {field.upper(): first, field.upper() + "_SAFETY": first + 1}
    for axis, written in re.findall(rf"(x|y) = overflow_of \(r {AT}\)", body(DECODE, "overflow_at")[0][1]):
        out["OVERFLOW_" + axis.upper()] = word_of(written)
    out["SCROLLBAR_WIDTH"] = word("scrollbar = of_bits binary32")
    return {"STYLE_" + name: at for name, at in out.items()}


def length():
    """The words of a length, from its first one."""
    record = body(DECODE, "length_at")[0][1]
    parts = re.findall(r"\b(\w+) = (?:of_bits binary32 )?\(?r (k|\(k \+ \d\))", record)
    out = {"LENGTH_" + field.upper(): eval(at, {}, {"k": 0}) for field, at in parts}
    assert sorted(out.values()) == list(range(known["length_words"])), record
    return out


def style_names():
    """What the words of a style are called, in their order: a length has a tag and two values, and what has a safety is a keyword."""
    words, parts, out = style(), {at: part for part, at in length().items()}, {}
    called = {"LENGTH_TAG": "tag", "LENGTH_VALUE": "value", "LENGTH_SECOND": "second value"}
    for constant, at in words.items():
        name = constant.removeprefix("STYLE_").replace("_", " ").lower()
        if at < known["after_lengths"]:
            out |= {at + k: f"{name}, {called[part]}" for k, part in parts.items()}
        else:
            out[at] = name + " keyword" if constant + "_SAFETY" in words else name
    assert sorted(out) == list(range(known["style_words"])), out
    return [out[at] for at in sorted(out)]


def candidate():
    record, axis = body(CANDIDATE, "candidate_of")[0][1], body(CANDIDATE, "axis_of")[0][1]
    out = {field.upper(): place(record, field, "get_or") for field in ("node", "order", "position", "layer")}
    ends = re.search(r"area = float_at r (k|\([^()]*\)) to float_at r (k|\([^()]*\))", axis)
    inner = {"START": ends[1], "END": ends[2]}
    for field, name in (("keyword", "EDGE"), ("safety", "SAFETY"), ("fallback", "FALLBACK")):
        inner[name] = re.search(rf"{field} = \w+ \(get_or r (\([^()]*\)) 0\)", axis)[1]
    for name in "xy":
        first = place(record, name, "axis_of")
        out |= {f"{name.upper()}_{part}": eval(at, {}, {"k": first}) for part, at in inner.items()}
    return {"CANDIDATE_" + name: at for name, at in out.items()}


def layout():
    record = body(LAYOUT, "layout_of")[0][1]
    inner = lambda field, part: int(re.search(rf"\b{field} = record {{[^}}]*\b{part} = float_at r (\d+)", record)[1])
    out = {"ORDER": place(record, "order", "get_or"), "WIDTH": inner("size", "width"), "HEIGHT": inner("size", "height")}
    out |= {"SCROLLBAR_WIDTH": inner("scrollbar", "width"), "SCROLLBAR_HEIGHT": inner("scrollbar", "height")}
    out |= {"X": inner("location", "x"), "Y": inner("location", "y")}
    sides = re.findall(r"\b(\w+) = float_at r (k|\(k \+ \d\))", body(LAYOUT, "rect_of")[0][1])
    assert [(side.upper(), eval(at, {}, {"k": 0})) for side, at in sides] == [(side, k) for k, side in enumerate(SIDES)], sides
    out |= {field.upper(): place(record, field, "rect_of") for field in ("overflow", "padding", "border", "margin")}
    return {"LAYOUT_" + name: at for name, at in out.items()}


def area(record):
    """The first word of an area, whose four stand one after another."""
    said = re.findall(r"\b(\w+) = float_at r (k|\(k \+ \d\))", body(LAYOUT, "area_of")[0][1])
    assert said == [("width", "k"), ("height", "(k + 1)"), ("x", "(k + 2)"), ("y", "(k + 3)")], said
    return int(re.search(r"\barea = area_of w (\d+)", record)[1])


def state():
    replies, block, extents = (body(STATE, name)[0][1] for name in ("replies_in", "opening_in", "extents_in"))
    first = lambda record, of: int(re.search(rf"\b{of} \(at w (\d+)\)", record)[1])
    alone = lambda record, field: int(re.search(rf"\b{field} = at w (\d+)", record)[1])
    def named(record, *fields):
        """The words of these fields, which stand one after another."""
        found = {name: int(n) for name, n in re.findall(r"\b(\w+) = (?:at|float_at) w (\d+)", record)}
        numbers = [found[field] for field in fields]
        assert numbers == list(range(numbers[0], numbers[0] + len(fields))), record
        return numbers

    counts = named(body(STATE, "counts_in")[0][1], "working", "unclaimed", "begun", "answered")
    out = {"PROGRESS": first(body(STATE, "state_of")[0][1], "progress_of")}
    out |= {"KEYWORD": first(replies, "keyword_reply_of"), "FILL": first(replies, "fill_reply_of")}
    out |= dict(zip(("WORKING", "UNCLAIMED", "BEGUN", "ANSWERED"), counts))
    out["OVERFLOW"] = int(re.fullmatch(r"rect_of w (\d+)", body(STATE, "overflow_in")[0][1])[1])
    out |= {"AREA": area(block), "DIRECTION": alone(block, "direction"), "CLAIMS": alone(block, "claims")}
    out |= {f"OVERFLOW_{axis.upper()}": alone(block, f"overflow{axis}") for axis in "xy"}
    assert "container_of (opening_in w); claims = claims_of (opening_in w)" in body(STATE, "opened_in")[0][1]
    out["LENGTHS"] = named(extents, "styles", "layouts", "working", "unclaimed", "tally")[0]
    return {"STATE_" + name: at for name, at in out.items()}


def answer():
    """Words of an answer by their turn in the lists that `measure_words` and `finish_words` put together."""
    parts = {name: re.findall(r"(?:^|∷ |\()((?:given|space_kind)?[^∷()]*(?:\([^∷]*\))?) (?=∷)", body(ANSWER, name)[0][1]) for name in ("known_words", "space_words")}
    assert [len(p) for p in parts.values()] == [4, 4], parts
    assert "kind ∷ ask.node ∷ []) ++ known_words ask.known ++ space_words ask.space" in body(ANSWER, "measure_words")[0][1]
    assert "4 ∷ ask.node ∷ []) ++ known_words (definite ask.size) ++ space_words ask.space" in body(ANSWER, "lay_out_words")[0][1]
    out = {"ANSWER_KIND": 0, "QUESTION_NODE": 1}
    for first, name, words in ((2, "KNOWN", parts["known_words"]), (6, "AVAILABLE", parts["space_words"])):
        out |= {f"QUESTION_{name}_{side}": first + k for side in ("WIDTH", "HEIGHT") for k, w in enumerate(words)
                if re.match(rf"(given|space_kind) .*\.{side.lower()}$", w)}
    finish = body(ANSWER, "finish_words")[0][1]
    assert "0 ∷ count_word f.count ∷ []) ++ rect_words f.overflow ++" in finish
    sides = re.findall(r"r\.(\w+)", body(LAYOUT, "rect_words")[0][1])
    out |= {"FINISH_COUNT": 1} | {f"FINISH_{side.upper()}": 2 + k for k, side in enumerate(sides)}
    kinds = {"MEASURE_" + re.search(r"Measure(\w+)", v)[1].upper() if "Measure" in v else "LAY_OUT":
             int(r.split()[1]) if "Measure" in v else int(re.search(r"\((\d+) ∷ ask", body(ANSWER, "lay_out_words")[0][1])[1])
             for v, r in body(ANSWER, "question_words")}
    return out | kinds | {"FINISH": int(re.search(r"\((\d+) ∷ count_word", finish)[1])}


def pixels():
    """Edges by their turn in the list that `edges_in` puts together."""
    sides = re.fullmatch(r"((?:p\.\w+ ∷ )+)\[\]", body(PIXELS, "edges_in")[0][1])[1].split(" ∷ ")[:-1]
    return {"PIXEL_" + side.removeprefix("p.").upper(): k for k, side in enumerate(sides)} | {"PIXEL_EDGES": len(sides)}


def touch():
    """A box's words by their turn in the list that `five_words` puts together: the node, then the edges as `edges_in` has them."""
    (arguments, right), = body(TOUCH, "five_words")
    node, edges = arguments.split()
    assert right == f"{node} ∷ map (cast_unsigned w32) (edges_in {edges})", right
    sides = {name.removeprefix("PIXEL_"): 1 + k for name, k in pixels().items() if name != "PIXEL_EDGES"}
    assert number(TOUCH, "touch_width") == 1 + len(sides), sides
    return {"TOUCH_" + name: k for name, k in ({"NODE": 0} | sides).items()} | {"TOUCH_WORDS": 1 + len(sides)}


def reach():
    """The verdict's words by their turn in the lists of a clause for `(Ok (Some o))`, of offsets o, and of one for `(Ok None)`."""
    o, seen = re.search(r"\(Ok \(Some (\w+)\)\).*?= .*?((?:[\w.]+ ∷ )+)\[\]", text(REACH)).groups()
    unseen = re.search(r"\(Ok None\).*?= .*?((?:\w+ ∷ )+)\[\]", text(REACH))[1]
    seen, unseen = seen.split(" ∷ ")[:-1], unseen.split(" ∷ ")[:-1]
    assert len(seen) == len(unseen) and set(unseen[1:]) == {"0"}, (seen, unseen)
    x, y = seen.index(o + ".across"), seen.index(o + ".down")
    return {"REACH_KIND": 0, "REACH_X": x, "REACH_Y": y, "REACH_WORDS": len(seen), "SEEN": int(seen[0]), "UNSEEN": int(unseen[0])}


def bad_word():
    """The two words by their turn in the list of the clause for `(Err bad)`."""
    bad, told = re.search(r"\(Err (\w+)\).*?= .*?found = ((?:count_word [\w.]+ ∷ )+)\[\]", text(FOUND)).groups()
    told = told.replace("count_word ", "").split(" ∷ ")[:-1]
    return {"FOUND_ITEM": told.index(bad + ".item"), "FOUND_STYLE_WORD": told.index(bad + ".word"), "FOUND_WORDS": len(told)}


def tags():
    """By what each comes to in a size."""
    names = {"Length value": "PX", "auto_in f": "AUTO", "Length (basis ⊗ value)": "PERCENT", "Absent": "CONTENT",
             "Length ((basis ⊗ value) ⊕ second)": "SUM",
             "Keyword keyword.MinContent": "MIN_CONTENT", "Keyword keyword.MaxContent": "MAX_CONTENT",
             "Keyword keyword.FitContent": "FIT_CONTENT", "Keyword keyword.Stretch": "STRETCH",
             "Keyword (keyword.FitContentLimit value)": "FIT_CONTENT_PX",
             "Keyword (keyword.FitContentLimit (basis ⊗ value))": "FIT_CONTENT_PERCENT"}
    matches = body(RESOLVE, "by_tag")[0][1] + " " + body(RESOLVE, "in_size")[0][1]
    clauses = re.findall(r"eqb tag (\d+)\) (?:\((.*?)\)|(\w+))(?= \(cond| \(from_size| NotAllowed)", matches)
    return {"TAG_" + names[to or word]: int(n) for n, to, word in clauses}


def wanted():
    out = style() | length() | candidate() | layout() | state() | answer() | pixels() | reach() | touch() | bad_word() | tags()
    out |= {"STYLE_WORDS": known["style_words"], "LENGTH_WORDS": known["length_words"]}
    out |= {"CANDIDATE_WORDS": number(CANDIDATE, "candidate_width"), "LAYOUT_WORDS": number(LAYOUT, "layout_width")}
    out |= {"STATE_WORDS": count("state_words"), "ANSWER_WORDS": count("finish_words")}
    assert count("measure_words") == count("lay_out_words") == count("finish_words")
    refusals = text("run/specs/Refusals.antt")
    out |= {"MOST_ITEMS": int(re.search(r"ltb (\d+) \(items", refusals)[1]), "MOST_RECORDS": int(re.search(r"ltb (\d+) \(length list", refusals)[1])}
    assert body(CANDIDATE, "candidate_kinds")[0][1].endswith("++ (below layer_count ∷ []))")
    out["MOST_LAYER"] = number(CANDIDATE, "layer_count") - 1
    # those of the entries: 7 and 8 belong to parts that have none
    out |= {k: v for k, v in codes("refusal/specs/Refusal.antt", "number_of", "").items() if v not in (7, 8)} | {"ACCEPTED": 0}
    style_codes, edge_codes = "style/specs/Codes.antt", "tree/specs/Codes.antt"
    out |= codes(style_codes, "direction_code", "DIRECTION_") | codes(style_codes, "overflow_code", "OVERFLOW_")
    out |= codes(style_codes, "safety_code", "SAFETY_") | codes(style_codes, "keyword_code", "ALIGN_")
    out |= codes(style_codes, "sizing_code", "BOX_SIZING_", {"BorderBox": "BORDER", "ContentBox": "CONTENT"})
    out["ALIGN_ABSENT"] = int(re.search(r"cond \(eqb k (\d+)\)", body(style_codes, "alignment_of")[0][1])[1])
    out |= codes(style_codes, "position_code", "POSITION_") | codes(edge_codes, "edge_code", "EDGE_")
    low, high = map(int, re.findall(r"cond \w+ (\d) 0", body(style_codes, "bits_code")[0][1]))
    for prefix, first, second in (("CLAIMS_", "ABSOLUTE", "FIXED"), ("FLAG_", "REPLACED", "TABLE"), ("CONTAIN_", "LAYOUT", "PAINT")):
        out |= {prefix + first: low, prefix + second: high}
    out |= codes(ANSWER, "given", "", {"None": "NOT_KNOWN", "(Some size)": "KNOWN"})
    out |= codes(ANSWER, "space_kind", "SPACE_", {"(Definite size)": "DEFINITE"})
    return {"OOF_" + name: n for name, n in out.items()}


def rust_names():
    """What the header calls the Rust host's numbers: the widths, and the modules of the state's words, a style's words and the tags."""
    state = {"PROGRESS": "PROGRESS", "KEYWORD_REPLY": "KEYWORD", "FILL_REPLY": "FILL", "FILLED_WORKING": "WORKING", "FILLED_UNCLAIMED": "UNCLAIMED",
             "BEGUN": "BEGUN", "ANSWERED": "ANSWERED", "OVERFLOW": "OVERFLOW", "AREA": "AREA", "CODES": "DIRECTION", "LENGTHS": "LENGTHS"}
    out = {"state::" + n: "STATE_" + to for n, to in state.items()}
    out |= {n.replace("STYLE_", "style::", 1): n for n in style()}
    out |= {n.replace("TAG_", "tag::", 1): n for n in tags() if n != "TAG_PX"} | {"tag::LENGTH": "TAG_PX"}
    return out | {"STYLE": "STYLE_WORDS", "LENGTH": "LENGTH_WORDS", "VALUE": "LENGTH_VALUE", "SECOND": "LENGTH_SECOND", "CANDIDATE": "CANDIDATE_WORDS",
                  "LAYER": "CANDIDATE_LAYER", "LAYOUT": "LAYOUT_WORDS", "STATE": "STATE_WORDS", "ANSWER": "ANSWER_WORDS", "EDGES": "PIXEL_EDGES",
                  "VERDICT": "REACH_WORDS", "TOUCH": "TOUCH_WORDS", "FOUND": "FOUND_WORDS"}


def rust_numbers():
    """The public numbers of the Rust host's words, those of a module with its name before them."""
    out = {}
    for file in ("ffi.rs", "words.rs"):
        module = ""
        for line in (root / "hosts/rust/src" / file).read_text().splitlines():
            if found := re.match(r"pub mod (\w+) \{", line):
                module = found[1] + "::"
            elif line == "}":
                module = ""
            elif found := re.match(r"(?:    )?pub const (\w+): (?:usize|u32) = (\d+);", line):
                out[module + found[1]] = int(found[2])
    return out


def main():
    found = {n: int(v) for n, v in re.findall(r"\b(OOF_[A-Z0-9_]+) = (\d+)", header.read_text())}
    want = wanted()
    wrong = [f"{n} is {found.get(n, 'missing')}, by the definitions {want.get(n, 'unknown')}" for n in sorted(found | want) if found.get(n) != want.get(n)]
    told = rust_names()
    rust = rust_numbers()
    wrong += [f"Rust: {n} is {rust.get(n, 'missing')}" for n in sorted(rust | told) if rust.get(n) != want.get("OOF_" + told.get(n, ""))]
    called = style_names()
    for path, table in ((header, r"names\[OOF_STYLE_WORDS\] = \{(.*?)\};"), (root / "hosts/rust/src/bad_word.rs", r"NAMES: \[&str; STYLE\] = \[(.*?)\];")):
        said = re.findall(r'"([^"]*)"', re.search(table, path.read_text(), re.S)[1])
        pairs = enumerate(itertools.zip_longest(said, called))
        wrong += [f"{path.name}: word {k} is called {a!r}, by the definitions {b!r}" for k, (a, b) in pairs if a != b]
    for line in wrong:
        print("hosts/words.py:", line)
    print(f"hosts/words.py: {len(found)} numbers of the header and {len(rust)} of the Rust host, {len(called)} names of both, {len(wrong)} wrong")
    return 1 if wrong else 0


sys.exit(main())
