#!/bin/sh
# Holds from_alignment and resolve_static_offset, which no run calls, to the published Rust. Prints one line of figures; exits with 1 at
# the first difference.
#
#     diff/statics/run.sh [COUNT of each, 1,000,000 unless said] [SEED, 1 unless said]
#
# A crate that exports them is written and proved beside copies of the crates that it needs, in a temporary folder; rt takes over what
# checks of these kept on this machine. Needs rt, cargo on x86-64 and the published Rust files (diff/oracle/find-taffy.sh). Without the latter it says
# so and does nothing.
set -eu
here=$(cd "$(dirname "$0")" && pwd)
part=diff/statics
. "$here/../taffy.sh"
work=$(mktemp -d)
trap 'rm -rf "$work"' EXIT

mkdir -p "$work/crates/statics/src"
grep -E '^(util|geometry|style|refusal|tree|records|tree_record|oof_axis):' "$root/crates.txt" > "$work/crates.txt"
for crate in $(cut -d: -f1 "$work/crates.txt"); do
    mkdir -p "$work/crates/$crate"
    for part in src specs proofs; do
        [ ! -d "$root/crates/$crate/$part" ] || cp -R "$root/crates/$crate/$part" "$work/crates/$crate/"
    done
done
echo 'statics staticlib: util geometry style refusal tree records tree_record oof_axis' >> "$work/crates.txt"
cat > "$work/crates/statics/src/lib.rt" <<'RATTLE'
// Exports the two functions beside the run, over words. `diff/statics/run.sh` proves it in a folder of its own.
#![tactic(auto)]

use geometry::{Line, Rect, Size};
use oof_axis::resolve_static_offset;
use style::alignment::AlignItems;
use tree::layout::AxisStaticPosition;
use tree_record::candidate::{CANDIDATE_WORDS, candidate_at};
use util::bits::to_word;

// Keyword and safety as a style has them; the five words of an axis, and 0 or the number of the refusal.
#[unsafe(no_mangle)]
pub extern "C" fn static_align(
    keyword: u32,
    safety: u32,
    start: f32,
    end: f32,
    is_rtl: bool,
    out: &mut [u32; 5],
) -> u32 {
    let area = Line { start, end };
    match AxisStaticPosition::from_alignment(AlignItems::from_codes(keyword, safety), area, is_rtl) {
        Err(refusal) => u32::from(refusal),
        Ok(place) => {
            out[0] = to_word(place.area.start);
            out[1] = to_word(place.area.end);
            out[2] = u32::from(place.align.keyword);
            out[3] = u32::from(place.align.safety);
            out[4] = u32::from(place.align.fallback);
            0
        }
    }
}

// The place of a candidate's record, by its size and margins.
#[unsafe(no_mangle)]
pub extern "C" fn static_offset(
    candidate: &[u32; CANDIDATE_WORDS],
    width: f32,
    height: f32,
    left: f32,
    right: f32,
    top: f32,
    bottom: f32,
    out: &mut [u32; 2],
) {
    let place = candidate_at(candidate, 0).place;
    let margin = Rect {
        left,
        right,
        top,
        bottom,
    };
    let at = resolve_static_offset(place, Size { width, height }, margin);
    out[0] = to_word(at.x);
    out[1] = to_word(at.y);
}
RATTLE
(cd "$work/crates/statics" && rt lib) > "$work/log" 2>&1 || { cat "$work/log"; exit 1; }
cd "$here"
RUSTFLAGS="-L native=$work/crates/statics/out -l static=statics" CARGO_TARGET_DIR="$CARGO_TARGET_DIR/statics" \
    cargo build --offline --locked --release > "$work/log" 2>&1 || { cat "$work/log"; exit 1; }
"$CARGO_TARGET_DIR/statics/release/statics" "${1:-1000000}" "${2:-1}"
