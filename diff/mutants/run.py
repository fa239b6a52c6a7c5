#!/usr/bin/env python3
"""What the differential runs notice: changes one place of the published Rust, of the second implementation or of what says how a tally is kept,
at a time, and says whether diff/runs notices.

    diff/mutants/run.py [CASES of each profile, 20,000 unless said] [EVERY, 1 unless said] [sums, stretch, tally or a Rust file's name]

Each mutant is a copy of the Rust files with one operator, side, constant or branch changed; or one place of what the Rust does with a sum
(tag 129): where its calc branch resolves a length, what basis it is given, and how the oracle's tree computes it and reads its words; or a
wrong reading of the stretch size that the second implementation has by request #106; or a wrong reading of request #107's tally, where the
oracle counts or where the model of diff/runs says what a call refuses and leaves, damaged calls among them. With a name only one of the latter
three, or only the mutants of that file, are made. diff/runs is built against the copy and run; a difference from the library (or a panic) means that it was noticed. What
the two implementations say of each other doesn't count. Survivors are printed: either the change doesn't change what the function says where
it is compared, or the cases miss it. EVERY takes each EVERYth mutant only. A mutant takes some five seconds.
"""
import os
import pathlib
import re
import shutil
import subprocess
import sys

ROOT = pathlib.Path(__file__).resolve().parents[2]
WORK = ROOT / "target" / "mutants"
# file, and the first function that a run reaches
FILES = [
    ("compute/oof.rs", "fn align_in_line"),
    ("compute/common/sizing_keyword.rs", "pub(crate) fn resolve_sizing_keyword"),
    ("compute/common/scrollable_overflow.rs", "pub(crate) fn compute_scrollable_overflow_contribution"),
]
SWAPS = [
    (" <= ", " < "), (" < ", " <= "), (" > ", " >= "), (" + ", " - "), (" - ", " + "), (" / 2.0", " / 4.0"), ("2.0 * ", "3.0 * "),
    ("f32_max(", "f32_min("), ("f32_min(", "f32_max("), (".min(", ".max("), (".max(", ".min("), (" && ", " || "), (" || ", " && "),
    ("!is_", "is_"), ("!both", "both"), ("!overflow", "overflow"), (" == ", " != "), ("is_some()", "is_none()"), ("is_none()", "is_some()"),
    (".start", ".end"), (".end", ".start"), (".left", ".right"), (".right", ".left"), (".top", ".bottom"), (".bottom", ".top"),
    (".width", ".height"), (".height", ".width"), (".x", ".y"), (".y", ".x"), ("true", "false"), ("false", "true"),
    ("::Start", "::End"), ("::End", "::Start"), ("min_size", "max_size"), ("max_size", "min_size"), ("padding", "border"), ("unwrap_or(0.0)", "unwrap_or(1.0)"),
    ("INFINITY", "MAX"), ("is_rtl()", "is_rtl() == false"), ("MIN_CONTENT_TAG", "MAX_CONTENT_TAG"), ("is_table", "is_replaced"), ("is_replaced", "is_table"),
]
# of sums: file (of the Rust, or of the oracle), what stands there and what is put for it, at each place where it stands
RESOLVED = "calc(self.0.calc_value(), dim)"
BY = "|val, basis| tree.calc(val, "
KEPT = "sums.keep(v, float(w[2]))"
FIT = "{ sums.keep(v, float(w[2])); CompactLength::fit_content_calc((8 * sums.0.len()) as *const ()) }"
SUMS = [
    # absent; of no basis; the whole basis; a percentage more
    ("util/resolve.rs", "context.map(|dim| " + RESOLVED + ")", "None"),
    ("util/resolve.rs", RESOLVED, "calc(self.0.calc_value(), 0.0)"),
    ("util/resolve.rs", RESOLVED, "dim"),
    ("util/resolve.rs", RESOLVED, RESOLVED + " + dim"),
    # another basis
    ("compute/oof.rs", BY + "basis)", BY + "basis + 1.0)"),
    ("compute/oof.rs", "(area_width, " + BY + "basis)", "(area_width, " + BY + "area_height)"),
    ("compute/oof.rs", "(area_height, " + BY + "basis)", "(area_height, " + BY + "area_width)"),
    ("compute/oof.rs", "Some(area_width), " + BY + "basis)", "Some(area_width), " + BY + "area_height)"),
    ("compute/oof.rs", "(area_size, " + BY + "basis)", "(area_size, " + BY + "area_width)"),
    ("compute/oof.rs", "(area_size, " + BY + "basis)", "(area_size, " + BY + "area_height)"),
    # fused; without the second value or the product; a difference; another length's sum
    ("case.rs", "product + second", "basis.mul_add(value, second)"),
    ("case.rs", "product + second", "product"),
    ("case.rs", "product + second", "second"),
    ("case.rs", "product + second", "product - second"),
    ("case.rs", "let product = basis * value;", "let product = value;"),
    ("case.rs", "self.0[handle as usize / 8 - 1]", "self.0[(handle as usize / 8) % self.0.len()]"),
    # the two values exchanged, or one of them twice; second values of other tags; absent in min and max; refused in padding and border
    ("case.rs", KEPT, "sums.keep(float(w[2]), v)"),
    ("case.rs", KEPT, "sums.keep(v, v)"),
    ("case.rs", "1 => CompactLength::length(v)", "1 => CompactLength::length(v + float(w[2]))"),
    ("case.rs", "5 => CompactLength::percent(v)", "5 => " + KEPT),
    ("case.rs", "15 => CompactLength::fit_content_percent(v)", "15 => " + FIT),
    ("case.rs", "43 => CompactLength::fit_content_px(v)", "43 => CompactLength::fit_content_px(v + float(w[2]))"),
    ("case.rs", "l.is_length_percentage_or_calc()", "l.is_length_or_percentage()"),
    ("case.rs", "if w[0] == SUM {", "if w[0] == SUM && tags.len() > 2 {"),
    # the tag by its low byte, and beside it the Rust's own
    ("case.rs", "if w[0] == SUM {", "if w[0] % 256 == SUM {"),
    ("case.rs", "if w[0] == SUM {", "if w[0] == SUM || w[0] == 4 {"),
]
# of the second implementation's stretch size: file of the oracle, what stands there once and what is put for it
BLOCK = "Stretch::FromBlock => self.block().span()"
LESS_INSETS = "self.size - or_zero(self.inset[0]) - or_zero(self.inset[1])"
KEYWORD_STRETCH = "larger(room - or_zero(self.margin[0]) - or_zero(self.margin[1]), 0.0)"
STRETCH = [
    # the area less its insets always; but where no inset is given; but where one isn't; but where they don't cross
    ("second/axis.rs", BLOCK, "Stretch::FromBlock => " + LESS_INSETS),
    ("second/axis.rs", BLOCK, "Stretch::FromBlock if self.inset != [None; 2] => " + LESS_INSETS + ",\n" + BLOCK),
    ("second/axis.rs", BLOCK, "Stretch::FromBlock if self.has_both_insets() => " + LESS_INSETS + ",\n" + BLOCK),
    ("second/axis.rs", BLOCK, "Stretch::FromBlock if self.block().span() > 0.0 => " + LESS_INSETS + ",\n" + BLOCK),
    # the block not closed up; from the static area's end; the area
    ("second/axis.rs", BLOCK, "Stretch::FromBlock => self.open_block().0.span()"),
    ("second/axis.rs", BLOCK, "Stretch::FromBlock if self.inset == [None; 2] => self.size - self.anchor.end,\n" + BLOCK),
    ("second/axis.rs", BLOCK, "Stretch::FromBlock => self.size"),
    # margins by their sum; end first; one of them or both left out; no floor
    ("second/axis.rs", KEYWORD_STRETCH, "larger(room - (or_zero(self.margin[0]) + or_zero(self.margin[1])), 0.0)"),
    ("second/axis.rs", KEYWORD_STRETCH, "larger(room - or_zero(self.margin[1]) - or_zero(self.margin[0]), 0.0)"),
    ("second/axis.rs", KEYWORD_STRETCH, "larger(room - or_zero(self.margin[0]), 0.0)"),
    ("second/axis.rs", KEYWORD_STRETCH, "larger(room - or_zero(self.margin[1]), 0.0)"),
    ("second/axis.rs", KEYWORD_STRETCH, "larger(room, 0.0)"),
    ("second/axis.rs", KEYWORD_STRETCH, "room - or_zero(self.margin[0]) - or_zero(self.margin[1])"),
    ("second/axis.rs", KEYWORD_STRETCH, "larger(larger(room, 0.0) - or_zero(self.margin[0]), 0.0) - or_zero(self.margin[1])"),
    # the offset not taken off
    ("second/item.rs", "float(anchor[0]) - area.offset[which]", "float(anchor[0])"),
    ("second/item.rs", "float(anchor[1]) - area.offset[which]", "float(anchor[1])"),
    # in steps 3 and 5, in step 3 alone, in step 5 alone
    ("second/axis.rs", "larger(self.block().span() - (start + end), 0.0)", "self.keyword_stretch(Stretch::FromBlock)"),
    ("second/item.rs", "let fit = self.axes[axis].stretch_fit();\n        if !", "let fit = self.axes[axis].keyword_stretch(super::Stretch::FromBlock);\n        if !"),
    ("second/item.rs", "let fit = self.axes[axis].stretch_fit();\n            if table", "let fit = self.axes[axis].keyword_stretch(super::Stretch::FromBlock);\n            if table"),
    # as or above the limit of a fit-content of px and of percent
    ("second/item.rs", "43 => Keyword::Measure(definite(value))", "43 => Keyword::Measure(definite(stretch))"),
    ("second/item.rs", "43 => Keyword::Measure(definite(value))", "43 => Keyword::Measure(definite(smaller(value, stretch)))"),
    ("second/item.rs", "definite(self.axes[axis].size * value)", "definite(stretch)"),
    ("second/item.rs", "definite(self.axes[axis].size * value)", "definite(stretch * value)"),
    # the Rust's for stretch, for fit-content, or for the other axis' space alone; there the area
    ("second/item.rs", "Keyword::Exact(stretch)", "Keyword::Exact(self.axes[axis].keyword_stretch(super::Stretch::FromArea))"),
    ("second/item.rs", "Keyword::Measure(definite(stretch))", "Keyword::Measure(definite(self.axes[axis].keyword_stretch(super::Stretch::FromArea)))"),
    ("second/mod.rs", "definite(stretch[1])", "definite(item.axes[1].keyword_stretch(Stretch::FromArea))"),
    ("second/mod.rs", "unwrap_or(stretch[0])", "unwrap_or(item.axes[0].keyword_stretch(Stretch::FromArea))"),
    ("second/mod.rs", "definite(stretch[1])", "definite(self.area.size[1])"),
    ("second/mod.rs", "unwrap_or(stretch[0])", "unwrap_or(self.area.size[0])"),
    # there also where a width is known
    ("second/mod.rs", "item.known[0].unwrap_or(stretch[0])", "stretch[0]"),
]
# of the tally: file of the oracle or of diff/runs, what stands there once and what is put for it
CALLED_BACK = "self.out.tally[usize::from(node)] += 1;"
ASKED = "self.out.tally[node as usize] += 1;"
NEXT = "let next = self.out.working.get(self.out.laid.len() + 1).filter(|_| kind == Kind::LayOut).map(|record| record[0] as usize);"
OPENED = "None => vec![0; w.tally.len()]"
ABOVE = "w.tally.iter().any(|&word| u64::from(word) > answered)"
TALLY = [
    # by the Rust's calls back and by the second implementation: node 0; the next box; the box's place; measures or layouts alone; once
    ("run.rs", CALLED_BACK, "self.out.tally[0] += 1;"),
    ("run.rs", CALLED_BACK, NEXT + "self.out.tally[next.unwrap_or(usize::from(node))] += 1;"),
    ("run.rs", CALLED_BACK, "let n = self.out.tally.len(); self.out.tally[self.out.laid.len() % n] += 1;"),
    ("run.rs", CALLED_BACK, "if kind != Kind::LayOut { " + CALLED_BACK + " }"),
    ("run.rs", CALLED_BACK, "if kind == Kind::LayOut { " + CALLED_BACK + " }"),
    ("run.rs", CALLED_BACK, "self.out.tally[usize::from(node)] = 1;"),
    ("second/mod.rs", ASKED, "self.out.tally[0] += 1;"),
    ("second/mod.rs", ASKED, NEXT + "self.out.tally[next.unwrap_or(node as usize)] += 1;"),
    ("second/mod.rs", ASKED, "let n = self.out.tally.len(); self.out.tally[self.out.laid.len() % n] += 1;"),
    ("second/mod.rs", ASKED, "if kind != Kind::LayOut { " + ASKED + " }"),
    ("second/mod.rs", ASKED, "if kind == Kind::LayOut { " + ASKED + " }"),
    ("second/mod.rs", ASKED, "self.out.tally[node as usize] = 1;"),
    # questions asked, not answered; none cleared; those of claimed items alone; only where the run asks something
    ("side.rs", "w.answer[1] = q.node;", "w.answer[1] = q.node;\nw.tally[q.node as usize] += 1;"),
    ("side.rs", "w.tally.fill(0);", ""),
    ("side.rs", "w.tally.fill(0);", "self.run.hoisted.iter().for_each(|&node| w.tally[node as usize] = 0);"),
    ("side.rs", "w.tally.fill(0);", "if !self.run.questions.is_empty() { w.tally.fill(0) }"),
    ("model.rs", OPENED, "None => w.tally.clone()"),
    # cleared by a refused opening; raised by a refused reply; by the node of the question, not of the record as it is
    ("damage.rs", "before.state = model::closed(w);", "before.state = model::closed(w);\nif expected != 0 { before.tally.fill(0) }"),
    ("damage.rs", "let (before, expected) = (w.clone(), model::reply(said, w));", "let (mut before, expected) = (w.clone(), model::reply(said, w));\nif expected != 0 { before.tally.iter_mut().for_each(|word| *word ^= 1) }"),
    ("damage.rs", "model::tally(w, Some(asked))", "{ let _ = asked; model::tally(w, Some(w.answer[1] as usize)) }"),
    # refusal 6 by no word; by the own word alone; by the others alone; by the sum; by the bound of the count; after the reply; as high as it
    ("model.rs", ABOVE, "false"),
    ("model.rs", ABOVE, "w.tally.get(asked_about(w)).is_some_and(|&word| u64::from(word) > answered)"),
    ("model.rs", ABOVE, "w.tally.iter().enumerate().any(|(item, &word)| item != asked_about(w) && u64::from(word) > answered)"),
    ("model.rs", ABOVE, "w.tally.iter().map(|&word| u64::from(word)).sum::<u64>() > answered"),
    ("model.rs", ABOVE, "w.tally.iter().any(|&word| u64::from(word) > 3 * begun)"),
    ("model.rs", ABOVE, "w.tally.iter().any(|&word| u64::from(word) > answered + 1)"),
    ("model.rs", ABOVE, "w.tally.iter().any(|&word| u64::from(word) >= answered)"),
    # refusal 2 where it is short alone, or long alone; its length not kept from the opening
    ("model.rs", "w.tally.len() != items", "w.tally.len() < items"),
    ("model.rs", "w.tally.len() != items", "w.tally.len() > items"),
    ("model.rs", "(0..5).any(", "(0..4).any("),
]
SKIP = re.compile(r"^\s*(//|#\[|use |debug_assert|let _ =|\})|debug_assert|cfg\(|must be resolved|fn \w+\(")


def mutants(source):
    """Of the Rust's files: file, number of the line, what stood there, what stands there, the whole text."""
    for file, first in FILES:
        text = (source / file).read_text()
        lines = text.splitlines(keepends=True)
        begin = next(i for i, line in enumerate(lines) if first in line)
        off, depth = False, 0
        for i in range(begin, len(lines)):
            line = lines[i]
            # what stands under a feature that is off, up to its end
            if re.search(r'#\[cfg\((feature = "grid"|not\(feature = "calc"\))\)\]', line):
                off, depth = True, 0
                continue
            if off:
                depth += sum(line.count(c) for c in "({[") - sum(line.count(c) for c in ")}]")
                off = depth > 0 or not line.rstrip().endswith((",", ";", "}"))
                continue
            if SKIP.search(line):
                continue
            code = line.split("//")[0]
            for old, new in SWAPS:
                for m in re.finditer(re.escape(old) + (r"\b" if old[-1].isalpha() else ""), code):
                    if old[0].isalpha() and m.start() > 0 and (code[m.start() - 1].isalnum() or code[m.start() - 1] == "_"):
                        continue
                    changed = line[:m.start()] + new + line[m.end():]
                    yield source / file, i + 1, line.strip(), changed.strip(), "".join(lines[:i] + [changed] + lines[i + 1:])


def mutants_of(changes, *folders):
    """The same of a list of changes, of files in the first of the folders that has them."""
    for file, old, new in changes:
        path = next(folder / file for folder in folders if (folder / file).exists())
        text = path.read_text()
        places = [m.start() for m in re.finditer(re.escape(old), text)]
        assert places, f"{file}: {old} stands nowhere"
        for at in places:
            yield path, text.count("\n", 0, at) + 1, old, new, text[:at] + new + text[at + len(old):]


def outcome_of(mutant, cases, env):
    """Builds diff/runs with the mutant in its place, and runs it."""
    path, _, _, _, text = mutant
    build = ["cargo", "build", "--offline", "--locked", "--release", "--quiet", "--config", "profile.release.opt-level=1"]
    damaged = cases if WORK / "diff/runs" in path.parents else "0"
    run = [WORK / "cargo/release/runs", cases, "1", "--damaged", damaged, "--large", "0", "--sabotaged", "0", "--library-alone"]
    kept = path.read_text()
    path.write_text(text)
    try:
        if subprocess.run(build, cwd=WORK / "diff/runs", env=env, capture_output=True).returncode != 0:
            return "does not build"
        return "survived" if subprocess.run(run, capture_output=True, timeout=600).returncode == 0 else "noticed"
    finally:
        path.write_text(kept)


def main():
    cases = sys.argv[1] if len(sys.argv) > 1 else "20000"
    every = int(sys.argv[2]) if len(sys.argv) > 2 else 1
    source = subprocess.run([ROOT / "diff/oracle/find-taffy.sh"], capture_output=True, text=True).stdout.strip()
    if not source:
        sys.exit("diff/mutants: not run, the published Rust files are not here (set TAFFY_SRC to the folder src of taffy 0.15.1)")
    # all that is built, so that no file outside is changed
    for part, of in (("src", source), ("diff/oracle", None), ("diff/runs", None), ("hosts/rust", None)):
        shutil.rmtree(WORK / part, ignore_errors=True)
        shutil.copytree(of or ROOT / part, WORK / part)
    library = os.environ.get("OOF_LIB") or ROOT / "target" / "staticlib"
    env = dict(os.environ, TAFFY_SRC=str(WORK / "src"), CARGO_TARGET_DIR=str(WORK / "cargo"), OOF_LIB=str(library))
    name = sys.argv[3] if len(sys.argv) > 3 else None
    made = [mutant for mutant in mutants(WORK / "src") if name in (None, mutant[0].name)]
    for changes, of in (("sums", SUMS), ("stretch", STRETCH), ("tally", TALLY)):
        if name in (None, changes):
            made += mutants_of(of, WORK / "diff/oracle/src", WORK / "diff/runs/src", WORK / "src")
    found = {"noticed": 0, "survived": 0, "does not build": 0}
    for mutant in made[::every]:
        outcome = outcome_of(mutant, cases, env)
        found[outcome] += 1
        if outcome == "survived":
            path, number, old, new, _ = mutant
            print(f"survived: {path.relative_to(WORK)}:{number}\n    {old}\n    {new}", flush=True)
    print(f"diff/mutants: {found['noticed']} noticed, {found['survived']} survived ({found['does not build']} don't build)")


main()
