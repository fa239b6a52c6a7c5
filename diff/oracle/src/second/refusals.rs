//! Document 01's refusals 1 to 4 of an opening.
use crate::case::{
    at, Case, Refused, AUTO_TAGS, LAYER, LENGTH, LENGTHS, MOST_LAYER, PLAIN_TAGS, SIZE_TAGS, STYLE, SUM,
};

pub fn opening(case: &Case) -> Result<(), Refused> {
    let [.., direction, claims, x, y] = case.area;
    let n = case.styles.len();
    let tests = [
        (1, direction > 1 || claims > 3 || x > 3 || y > 3),
        (2, n > 1024),
        (3, case.styles.iter().any(bad_style)),
        (4, case.candidates.iter().any(|record| bad_candidate(record, n))),
    ];
    tests.into_iter().find(|&(_, refused)| refused).map_or(Ok(()), |(number, _)| Err(number))
}

fn bad_style(w: &[u32; STYLE]) -> bool {
    let bad_tag = |i: usize| {
        let tags: &[u32] = match LENGTH * i {
            0..at::PADDING => &AUTO_TAGS,
            at::PADDING..at::SIZE => &PLAIN_TAGS,
            _ => &SIZE_TAGS,
        };
        w[LENGTH * i] != SUM && !tags.contains(&w[LENGTH * i])
    };
    let bad_alignment = |at: usize| w[at] > 10 || (w[at] != 10 && w[at + 1] > 2);
    let most = [
        (at::RATIO_PRESENT, 1),
        (at::BOX_SIZING, 1),
        (at::FLAGS, 3),
        (at::DIRECTION, 1),
        (at::OVERFLOW, 3),
        (at::OVERFLOW + 1, 3),
        (at::CONTAIN, 255),
    ];
    (0..LENGTHS).any(bad_tag)
        || bad_alignment(at::JUSTIFY)
        || bad_alignment(at::ALIGN)
        || most.iter().any(|&(at, most)| w[at] > most)
}

/// Of so many items
pub fn bad_candidate(w: &[u32], n: usize) -> bool {
    w[0] as usize >= n || w[2] > 4 || [5, 6, 7, 10, 11, 12].iter().any(|&at| w[at] > 2) || w[LAYER] > MOST_LAYER
}
