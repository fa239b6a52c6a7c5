//! Where request #106 compares with the Rust, and so what the library must answer. An item without a size keyword is compared
//! everywhere; one with a size keyword on a set only.
use crate::case::{at, float, Case, Refused, LENGTH, LENGTHS, STYLE, SUM};
use crate::run::{run, Host, Transcript};
use crate::second::{self, Stretch};

/// min-content, fit-content percent, max-content, fit-content px, fit-content, stretch
pub const SIZE_KEYWORDS: [u32; 6] = [11, 15, 27, 43, 59, 75];

pub fn has_size_keyword(style: &[u32; STYLE]) -> bool {
    [at::SIZE, at::SIZE + LENGTH].iter().any(|&at| SIZE_KEYWORDS.contains(&style[at]))
}

/// Whole quarters of at most 4,096 in size
pub fn is_quarters(w: u32) -> bool {
    let quarters = float(w) * 4.0;
    quarters.abs() <= 16_384.0 && quarters.fract() == 0.0
}

/// Both insets of each axis are given and don't cross; all lengths, the scrollbar width and the area are whole quarters of at most
/// 4,096 in size; no percentage and no sum. Ratios, static areas and replies are free.
pub fn on_the_set(area: &[u32; 8], style: &[u32; STYLE]) -> bool {
    let in_quarters = |length: &[u32]| match length[0] {
        1 | 43 => is_quarters(length[1]),
        5 | 15 | SUM => false,
        _ => true,
    };
    area[..4].iter().all(|&w| is_quarters(w))
        && is_quarters(style[at::SCROLLBAR])
        && style[..LENGTH * LENGTHS].chunks(LENGTH).all(in_quarters)
        && (0..2).all(|axis| block_size(area, style, axis).is_some())
}
/// The size of the block between two insets, lengths that don't cross
pub fn block_size(area: &[u32; 8], style: &[u32; STYLE], axis: usize) -> Option<f32> {
    let inset = &style[at::INSET + 2 * LENGTH * axis..];
    let (start, end) = (float(inset[1]), float(area[axis]) - float(inset[LENGTH + 1]));
    (inset[0] == 1 && inset[LENGTH] == 1 && start <= end).then(|| end - start)
}

/// Whose run the library's must be equal to
#[derive(Copy, Clone, Debug, PartialEq, Eq)]
pub enum By {
    /// The published Rust's
    Rust,
    /// The second implementation's, by request #106
    Second,
}
/// Of a run of these boxes, surfaced ones included: the Rust's if each with a size keyword is on the set
pub fn by(case: &Case, hoisted: &[u32]) -> By {
    let mut styles = hoisted.iter().map(|&node| &case.styles[node as usize]);
    match styles.all(|style| !has_size_keyword(style) || on_the_set(&case.area, style)) {
        true => By::Rust,
        false => By::Second,
    }
}

/// What the library must answer. `host` makes a host, the same at each call.
pub fn answer<H: Host>(case: &Case, host: impl Fn() -> H) -> Result<(Transcript, By), Refused> {
    let rust = run(case, &mut host())?;
    match by(case, &rust.hoisted) {
        By::Rust => Ok((rust, By::Rust)),
        By::Second => Ok((second::run(case, &mut host(), Stretch::FromBlock)?, By::Second)),
    }
}
