//! Document 01's table of refusals, on its own: which number a call must answer, 0 if it is accepted, and what a refused
//! opening returns. Also which layers the records of a list have (request #104).
//!
//! Written from the document alone. It shares no code with the oracle, the Rust host or the Rattle crates.
use crate::words::{Said, Words};
use oracle::run::Kind;

// Words of a record; a style has 22 lengths of three words, tag, value and second value, and 13 words
const STYLE: usize = 79;
const LENGTH: usize = 3;
const CANDIDATE: usize = 14;
const LAYOUT: usize = 23;

// Places in a style, behind the lengths
const RATIO_PRESENT: usize = 66;
const BOX_SIZING: usize = 68;
const FLAGS: usize = 69;
const DIRECTION: usize = 70;
const JUSTIFY: usize = 71;
const ALIGN: usize = 73;
const OVERFLOW: usize = 75;
const CONTAIN: usize = 78;

// Places in a candidate
const NODE: usize = 0;
const POSITION: usize = 2;
const LAYER: usize = 13;

// Places in a state
const PROGRESS: usize = 0;
const FILLED_WORKING: usize = 7;
const FILLED_UNCLAIMED: usize = 8;
const BEGUN: usize = 9;
const ANSWERED: usize = 10;
const CLAIMS: usize = 20;
const LENGTHS: usize = 23;
const STATE: usize = 28;

/// Opening tests 1, 2, 3, 4, 5 in that order
pub fn opening(w: &Words) -> u32 {
    if bad_area(w) {
        return 1;
    }
    if bad_opening(w) {
        return 2;
    }
    if bad_styles(&w.styles) {
        return 3;
    }
    if bad_candidates(&w.candidates, w.styles.len() / STYLE) {
        return 4;
    }
    if full(w) {
        return 5;
    }
    0
}

/// Test 5 of an opening
pub fn full(w: &Words) -> bool {
    list_full(&w.candidates, w.area[5], 0, 0, w)
}

/// Test 1
pub fn bad_area(w: &Words) -> bool {
    let [.., direction, claims, overflow_x, overflow_y] = w.area;
    direction > 1 || claims > 3 || overflow_x > 3 || overflow_y > 3
}

/// Test 2 of an opening
pub fn bad_opening(w: &Words) -> bool {
    bad_extents(w) || w.candidates.len() % CANDIDATE != 0
}

/// A refused opening returns the state of a finished run with all counts 0; its lengths are those lent
pub fn closed(w: &Words) -> [u32; STATE] {
    let mut state = [0; STATE];
    for (at, length) in lengths(w).into_iter().enumerate() {
        state[LENGTHS + at] = length as u32;
    }
    state
}

/// Of the slices that a reply must lend as its opening did
pub fn lengths(w: &Words) -> [usize; 5] {
    [&w.styles, &w.layouts, &w.working, &w.unclaimed, &w.tally].map(|slice| slice.len())
}

/// A reply 2, 6, 3, 4, 5
pub fn reply(said: &Said, w: &Words) -> u32 {
    if bad_reply(said, w) {
        return 2;
    }
    if wrong_reply(said, w) {
        return 6;
    }
    if bad_styles(&w.styles) {
        return 3;
    }
    if bad_filled(said, w) {
        return 4;
    }
    if full_by(said, w) {
        return 5;
    }
    0
}

/// A measure reply has only its one or two sizes
fn surfaced(said: &Said) -> &[u32] {
    if said.kind == Kind::LayOut {
        &said.surfaced
    } else {
        &[]
    }
}

/// Test 2 of a reply
pub fn bad_reply(said: &Said, w: &Words) -> bool {
    let other = (0..5).any(|i| lengths(w)[i] != w.state[LENGTHS + i] as usize);
    bad_extents(w) || other || surfaced(said).len() % CANDIDATE != 0
}

/// Test 6
pub fn wrong_reply(said: &Said, w: &Words) -> bool {
    let filled_working = w.state[FILLED_WORKING] as usize;
    let (begun, answered) = (w.state[BEGUN] as u64, w.state[ANSWERED] as u64);
    asked(w.state[PROGRESS]) != Some(said.kind)
        || filled_working > w.working.len() / CANDIDATE
        || w.state[FILLED_UNCLAIMED] as usize > w.unclaimed.len() / CANDIDATE
        || begun < 1
        || begun > filled_working as u64
        || answered > 3 * begun
        // request #107: "a word above the run's own count of questions answered is a wrong reply", before this reply
        || w.tally.iter().any(|&word| u64::from(word) > answered)
}

/// Test 4 of a reply: its filled working records, as far as there are any, and its surfaced ones
pub fn bad_filled(said: &Said, w: &Words) -> bool {
    let items = w.styles.len() / STYLE;
    let filled = CANDIDATE.saturating_mul(w.state[FILLED_WORKING] as usize).min(w.working.len());
    bad_candidates(&w.working[..filled], items) || bad_candidates(surfaced(said), items)
}

/// Test 5 of a reply
pub fn full_by(said: &Said, w: &Words) -> bool {
    let filled = [w.state[FILLED_WORKING] as usize, w.state[FILLED_UNCLAIMED] as usize];
    list_full(surfaced(said), w.state[CLAIMS], filled[0], filled[1], w)
}

/// The kind of the open question; none after the finish
pub fn asked(progress: u32) -> Option<Kind> {
    match progress {
        1 | 4 => Some(Kind::Both),
        2 => Some(Kind::Width),
        3 => Some(Kind::Height),
        5 => Some(Kind::LayOut),
        _ => None,
    }
}

fn bad_extents(w: &Words) -> bool {
    let items = w.styles.len() / STYLE;
    w.styles.len() % STYLE != 0
        || items > 1024
        || w.layouts.len() != LAYOUT * items
        // request #107: "a slice that doesn't hold n words is a bad extent"
        || w.tally.len() != items
        || [&w.working, &w.unclaimed].iter().any(|list| list.len() % CANDIDATE != 0 || list.len() / CANDIDATE > 4096)
}

pub fn bad_styles(styles: &[u32]) -> bool {
    styles.chunks(STYLE).any(bad_style)
}
pub fn bad_style(w: &[u32]) -> bool {
    // a sum, tag 129, may stand everywhere; values and second values have no rule
    let tag_is_bad = |length: usize| {
        let tags: &[u32] = match length {
            0..=7 => &[1, 3, 5, 129],                         // inset, margin
            8..=15 => &[1, 5, 129],                           // padding, border
            _ => &[1, 3, 5, 11, 15, 27, 35, 43, 59, 75, 129], // size, min, max
        };
        !tags.contains(&w[LENGTH * length])
    };
    let alignment_is_bad = |at: usize| w[at] > 10 || (w[at] != 10 && w[at + 1] > 2);
    (0..22).any(tag_is_bad)
        || w[RATIO_PRESENT] > 1
        || w[BOX_SIZING] > 1
        || w[FLAGS] > 3
        || w[DIRECTION] > 1
        || alignment_is_bad(JUSTIFY)
        || alignment_is_bad(ALIGN)
        || w[OVERFLOW] > 3
        || w[OVERFLOW + 1] > 3
        || w[CONTAIN] > 255
}

/// Edges and safeties are 0 to 2, a layer 0 to 255
pub fn bad_candidates(records: &[u32], items: usize) -> bool {
    records.chunks(CANDIDATE).any(|w| {
        w[NODE] as usize >= items
            || w[POSITION] > 4
            || [5, 6, 7, 10, 11, 12].iter().any(|&at| w[at] > 2)
            || w[LAYER] > 255
    })
}

/// Request #107: the tally that a call leaves which is accepted, a reply to the question about this item, or an opening
pub fn tally(w: &Words, asked: Option<usize>) -> Vec<u32> {
    match asked {
        Some(node) => w.tally.iter().enumerate().map(|(item, &word)| word + u32::from(item == node)).collect(),
        None => vec![0; w.tally.len()],
    }
}

/// The item of the box at hand, the last one begun, as its record says
pub fn asked_about(w: &Words) -> usize {
    w.working[CANDIDATE * (w.state[BEGUN] as usize - 1) + NODE] as usize
}

fn is_claimed(w: &[u32], claims: u32) -> bool {
    (w[POSITION] == 2 && claims & 1 != 0) || (w[POSITION] == 3 && claims & 2 != 0)
}

/// How many of these records are claimed
pub fn claimed(records: &[u32], claims: u32) -> usize {
    records.chunks(CANDIDATE).filter(|w| is_claimed(w, claims)).count()
}

/// The layers of these records, in turn: of those that go to the working list, and of those that go to the unclaimed list
pub fn layers(records: &[u32], claims: u32) -> [Vec<u32>; 2] {
    [true, false].map(|inside| {
        let here = records.chunks_exact(CANDIDATE).filter(|w| is_claimed(w, claims) == inside);
        here.map(|w| w[LAYER]).collect()
    })
}

fn list_full(records: &[u32], claims: u32, filled_working: usize, filled_unclaimed: usize, w: &Words) -> bool {
    let inside = claimed(records, claims);
    let outside = records.len() / CANDIDATE - inside;
    filled_working + inside > w.working.len() / CANDIDATE || filled_unclaimed + outside > w.unclaimed.len() / CANDIDATE
}
