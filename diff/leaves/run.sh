#!/bin/sh
# Holds the float leaves of crates/util to Rust's own f32. Prints one line of figures; exits with 1 at the first difference.
#
#     diff/leaves/run.sh [MILLIONS OF RANDOM TRIPLES, 20 unless said]
#
# A crate that exports the leaves is written beside a copy of crates/util in a temporary folder, proved, and linked as
# a static library. Needs rt and rustc on x86-64.
set -eu
here=$(cd "$(dirname "$0")" && pwd)
work=$(mktemp -d)
trap 'rm -rf "$work"' EXIT

mkdir -p "$work/crates/leaves/src" "$work/crates/util"
for part in src specs proofs; do
    cp -R "$here/../../crates/util/$part" "$work/crates/util/"
done
printf 'util:\nleaves staticlib: util\n' > "$work/crates.txt"
cat > "$work/crates/leaves/src/lib.rt" <<'RATTLE'
#![tactic(auto)]

use util::eighths::Count;
use util::math::MaybeMath;
use util::{bits, eighths, sys};

#[unsafe(no_mangle)]
pub extern "C" fn leaf_max(a: f32, b: f32) -> f32 {
    sys::f32_max(a, b)
}

#[unsafe(no_mangle)]
pub extern "C" fn leaf_min(a: f32, b: f32) -> f32 {
    sys::f32_min(a, b)
}

#[unsafe(no_mangle)]
pub extern "C" fn leaf_abs(x: f32) -> f32 {
    sys::abs(x)
}

#[unsafe(no_mangle)]
pub extern "C" fn leaf_from_word(w: u32) -> f32 {
    bits::from_word(w)
}

#[unsafe(no_mangle)]
pub extern "C" fn leaf_to_word(x: f32) -> u32 {
    bits::to_word(x)
}

#[unsafe(no_mangle)]
pub extern "C" fn leaf_clamp(x: f32, has_min: bool, min: f32, has_max: bool, max: f32) -> f32 {
    let low = if has_min { Some(min) } else { None };
    let high = if has_max { Some(max) } else { None };
    x.maybe_clamp(low, high)
}

// 0: not whole; n + 2 ^ 32: n eighths; n + 2 ^ 33: -n eighths.
#[unsafe(no_mangle)]
pub extern "C" fn leaf_to_eighths(x: f32) -> u64 {
    match eighths::to_eighths(x) {
        None => 0,
        Some(Count { negative: true, size }) => size | 8589934592,
        Some(Count { negative: false, size }) => size | 4294967296,
    }
}

// 2 ^ 32: absent; else the float's word.
#[unsafe(no_mangle)]
pub extern "C" fn leaf_from_eighths(negative: bool, size: u64) -> u64 {
    match eighths::from_eighths(Count { negative, size }) {
        None => 4294967296,
        Some(x) => u64::from(bits::to_word(x)),
    }
}
RATTLE

(cd "$work/crates/leaves" && rt lib) > "$work/log" 2>&1 || { cat "$work/log"; exit 1; }
rustc -O --edition 2021 -o "$work/leaves" "$here/leaves.rs" -L "$work/crates/leaves/out" -l static=leaves
"$work/leaves" "${1:-20}"
