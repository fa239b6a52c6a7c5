//! Replacements and nodes, good ones and others.
use crate::call::Call;
use oracle::case::{at, LAYOUT, LENGTH, LENGTHS, STYLE};
use oracle::gen;
use oracle::host::Profile;
use runs::rng::Rng;

const NANS: [u32; 5] = [0x7FC0_0000, 0xFFC0_0000, 0x7F80_0001, 0x7FFF_FFFF, u32::MAX];

/// A style of a fresh case
pub fn good_style(profile: Profile, rng: &mut Rng) -> Vec<u32> {
    let (case, _) = gen::case(profile, rng.next(), 0);
    rng.of(&case.styles).to_vec()
}

/// Every number of this style is a NaN
pub fn without_numbers(style: &mut [u32], rng: &mut Rng) {
    let values = (0..LENGTHS).flat_map(|length| [LENGTH * length + 1, LENGTH * length + 2]);
    values.chain([at::RATIO, at::SCROLLBAR]).for_each(|word| style[word] = rng.of(&NANS));
}

/// A word that breaks a rule, or may break one
pub fn break_style(style: &mut [u32], rng: &mut Rng) {
    if style.is_empty() {
        return;
    }
    // a tag, a code, or any word
    let length = LENGTH * rng.below(LENGTHS as u32) as usize;
    let code =
        rng.of(&[at::RATIO_PRESENT, at::BOX_SIZING, at::FLAGS, at::DIRECTION, at::JUSTIFY, at::ALIGN, at::CONTAIN]);
    let any = rng.below(style.len() as u32) as usize;
    let word = rng.of(&[length, length, code, code, any]).min(style.len() - 1);
    style[word] = if rng.one_in(2) { rng.of(&[2, 128, 256, u32::MAX]) } else { rng.code() };
}

/// Lengths that are none of a record
const BESIDE: [usize; 12] = [
    0,
    1,
    LAYOUT,
    57,
    STYLE - 1,
    STYLE + 1,
    2 * STYLE - 1,
    2 * STYLE,
    2 * STYLE + 1,
    3 * STYLE,
    STYLE + 256,
    STYLE + 4096,
];

/// Another length: of those beside a record, or the table's
pub fn other_length(call: &mut Call, rng: &mut Rng) {
    let table = &call.words.styles;
    if rng.one_in(8) && table.len() != STYLE {
        call.style = table.clone();
        return;
    }
    let words = if rng.one_in(4) { rng.of(&[0, STYLE - 1]) } else { rng.of(&BESIDE) };
    let more = call.style.clone().into_iter().chain(table.iter().copied()).chain(std::iter::repeat(1));
    call.style = more.take(words).collect();
}

/// A replacement: mostly a good one
pub fn style(table: &[u32], profile: Profile, rng: &mut Rng) -> Vec<u32> {
    let records = table.len() / STYLE;
    let mut style = match rng.below(8) {
        0 if records > 0 => table[STYLE * rng.below(records as u32) as usize..][..STYLE].to_vec(),
        1 => good_style(rng.of(&[Profile::Quarter, Profile::Wild, Profile::Typical]), rng),
        _ => good_style(profile, rng),
    };
    match rng.below(32) {
        0 | 1 => without_numbers(&mut style, rng),
        2 | 3 => break_style(&mut style, rng),
        4 => style.fill(rng.of(&[0, 1, u32::MAX])),
        _ => {}
    }
    style
}

/// A node below n, where there is one: often one that a candidate names
pub fn node(call: &Call, rng: &mut Rng) -> u32 {
    let items = (call.words.styles.len() / STYLE) as u32;
    let named = call.words.candidates.chunks(oracle::case::CANDIDATE).map(|record| record[0]);
    let named: Vec<u32> = named.filter(|&node| node < items).collect();
    if !named.is_empty() && !rng.one_in(4) {
        rng.of(&named)
    } else {
        rng.below(items.max(1))
    }
}

/// A node that isn't below n: just above, far above, one whose low bits are, or one whose place in words is one of the table in 32 bits
pub fn other_node(call: &mut Call, rng: &mut Rng) {
    let items = (call.words.styles.len() / STYLE) as u32;
    call.node = match rng.below(5) {
        0 => items,
        1 => items + 1 + rng.below(3),
        2 => rng.of(&[u32::MAX, 1 << 31, 0x7FC0_0000]),
        3 => ((u64::from(1 + rng.below(STYLE as u32 - 1)) << 32) / STYLE as u64 + 1) as u32,
        _ => (call.node % items.max(1)) | 1 << rng.of(&[11, 12, 16, 24, 31]),
    };
}
