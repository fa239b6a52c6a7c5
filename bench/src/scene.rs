//! What is placed: words from the generator of plausible CSS, without sums, every candidate claimed, none surfaced.
use oracle::case::{CANDIDATE, STYLE};
use oracle::gen;
use oracle::host::Profile;

/// What the host says to every measurement
pub const MEASURED: [f32; 2] = [120.0, 18.0];

pub struct Scene {
    pub area: [u32; 8],
    pub styles: Vec<[u32; STYLE]>,
    pub candidates: Vec<[u32; CANDIDATE]>,
}

/// So many items, and so many boxes that go through them in turn
pub fn scene(seed: u64, items: usize, boxes: usize) -> Scene {
    let (mut case, _) = gen::case_without_sums(Profile::Typical, seed, 0);
    let mut number = 0;
    while case.styles.len() < items || case.candidates.len() < boxes {
        number += 1;
        let more = gen::case_without_sums(Profile::Typical, seed, number).0;
        case.styles.extend(more.styles);
        case.candidates.extend(more.candidates);
    }
    case.styles.truncate(items);
    case.candidates.truncate(boxes);
    for (at, c) in case.candidates.iter_mut().enumerate() {
        (c[0], c[2]) = ((at % items) as u32, 2);
    }
    case.area[5] = 3;
    Scene { area: case.area, styles: case.styles, candidates: case.candidates }
}
