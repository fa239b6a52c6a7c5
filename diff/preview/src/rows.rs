//! Calls whose number is known: what the request says of the order of its tests, by small screens.
use crate::beside::{held, Difference};
use crate::call::{Call, Entry};
use crate::seen::Seen;
use oracle::case::{CANDIDATE, LAYOUT, LENGTH, LENGTHS, STYLE};
use oracle::run::Kind;
use runs::damage::KINDS;
use runs::model;
use runs::words::{Said, Words};

/// Changes of a call, and the number that it then answers
type Row = (&'static str, fn(&mut Call, &mut Said), u32);

/// A style of lengths, all 0 but a size of 10 by 10
fn style() -> Vec<u32> {
    let mut style = vec![0; STYLE];
    (0..LENGTHS).for_each(|length| style[LENGTH * length] = 1);
    [16, 17, 20, 21].iter().for_each(|length| style[LENGTH * length + 1] = 10f32.to_bits());
    style
}

/// A bad tag of an inset
fn broken() -> Vec<u32> {
    let mut style = style();
    style[0] = 2;
    style
}

/// Two claimed candidates of node 0 over two items; a replacement for node 0 of another size
fn plain() -> Call {
    let pixels = 100f32.to_bits();
    let candidate = [0, 0, 2, 0, 0, 0, 0, 0, 0, 0, 0, 0, 0, 0];
    let words = Words {
        area: [pixels, pixels, 0, 0, 0, 3, 0, 0],
        styles: style().repeat(2),
        candidates: candidate.repeat(2),
        layouts: vec![7; 2 * LAYOUT],
        working: vec![7; 3 * CANDIDATE],
        unclaimed: vec![7; CANDIDATE],
        tally: vec![7; 2],
        state: [7; 28],
        answer: [7; 10],
    };
    let mut call = Call { words, node: 0, style: style() };
    call.style[LENGTH * 16 + 1] = 8f32.to_bits();
    call
}

/// Zeros, and one record surfaced
fn laid_out(kind: Kind) -> Said {
    let surfaced = vec![1, 0, 2, 0, 0, 0, 0, 0, 0, 0, 0, 0, 0, 0];
    Said { kind, values: [0; 4], surfaced }
}

fn break_live(call: &mut Call, item: usize) {
    call.words.styles[STYLE * item..][..STYLE].copy_from_slice(&broken());
}

fn without_items(call: &mut Call) {
    let w = &mut call.words;
    [&mut w.styles, &mut w.layouts, &mut w.tally, &mut w.candidates].iter_mut().for_each(|list| list.clear());
}

const OPENINGS: [Row; 38] = [
    ("as it is", |_, _| {}, 0),
    ("for node 1", |c, _| c.node = 1, 0),
    ("node n", |c, _| c.node = 2, 4),
    ("node n + 1", |c, _| c.node = 3, 4),
    ("node 2 ^ 31", |c, _| c.node = 1 << 31, 4),
    ("node 2 ^ 32 - 1", |c, _| c.node = u32::MAX, 4),
    ("no word", |c, _| c.style.clear(), 2),
    ("a word less", |c, _| c.style.truncate(STYLE - 1), 2),
    ("a word more", |c, _| c.style.push(0), 2),
    ("two records", |c, _| c.style = c.words.styles.clone(), 2),
    ("a record as it was before sums", |c, _| c.style.truncate(57), 2),
    ("node n and a word less", |c, _| (c.node, c.style) = (2, style()[1..].to_vec()), 2),
    ("a bad direction and a word less", |c, _| (c.words.area[4], c.style) = (2, style()[1..].to_vec()), 1),
    ("a bad direction and node n", |c, _| (c.words.area[4], c.node) = (2, 2), 1),
    ("a tally of n + 1 words and node n", |c, _| (c.words.tally, c.node) = (vec![0; 3], 2), 2),
    ("ragged candidates and node n", |c, _| (c.words.candidates, c.node) = (vec![0; 13], 2), 2),
    ("node n and a bad style", |c, _| (c.node, c.words.styles[0]) = (2, 2), 4),
    ("node n and a bad replacement", |c, _| (c.node, c.style) = (2, broken()), 4),
    ("node n and a full list", |c, _| (c.node, c.words.working) = (2, vec![]), 4),
    ("the live record is bad", |c, _| break_live(c, 0), 0),
    ("both live records are bad", |c, _| c.words.styles = broken().repeat(2), 3),
    ("the other live record is bad", |c, _| break_live(c, 1), 3),
    ("the replacement is bad", |c, _| c.style = broken(), 3),
    ("the replacement of a node that no candidate names is bad", |c, _| (c.node, c.style) = (1, broken()), 3),
    ("a bad replacement and a bad candidate", |c, _| (c.style, c.words.candidates[0]) = (broken(), 2), 3),
    ("a bad replacement and a full list", |c, _| (c.style, c.words.working) = (broken(), vec![]), 3),
    ("a bad candidate", |c, _| c.words.candidates[0] = 2, 4),
    ("a full list", |c, _| c.words.working.truncate(CANDIDATE), 5),
    ("no items", |c, _| without_items(c), 4),
    (
        "no items and node 2 ^ 32 - 1",
        |c, _| {
            without_items(c);
            c.node = u32::MAX
        },
        4,
    ),
    (
        "no items and no word",
        |c, _| {
            without_items(c);
            c.style.clear()
        },
        2,
    ),
    (
        "no items, a bad direction and no word",
        |c, _| {
            without_items(c);
            c.style.clear();
            c.words.area[4] = 2
        },
        1,
    ),
    ("the live record as it is", |c, _| c.style = style(), 0),
    ("the live record before is bad", |c, _| (c.node, c.words.styles[0]) = (1, 2), 3),
    ("the replacement's last word is bad", |c, _| c.style[STYLE - 1] = 256, 3),
    ("the live record's last word is bad", |c, _| c.words.styles[STYLE - 1] = 256, 0),
    ("the live record and the replacement are bad alike", |c, _| (c.words.styles[0], c.style) = (2, broken()), 3),
    ("the last of 257 live records is bad", |c, _| lengthen(c), 0),
];

/// To a question of each kind
const REPLIES: [Row; 32] = [
    ("as it is", |_, _| {}, 0),
    ("another replacement", |c, _| c.style = style(), 0),
    ("another node", |c, _| c.node = 1, 0),
    ("node n", |c, _| c.node = 2, 4),
    ("node 2 ^ 32 - 1", |c, _| c.node = u32::MAX, 4),
    ("no word", |c, _| c.style.clear(), 2),
    ("a word less", |c, _| c.style.truncate(STYLE - 1), 2),
    ("a word more", |c, _| c.style.push(0), 2),
    ("two records", |c, _| c.style = c.words.styles.clone(), 2),
    ("node n and a word less", |c, _| (c.node, c.style) = (2, style()[1..].to_vec()), 2),
    ("of another kind", |_, said| said.kind = other(said), 6),
    ("of another kind and node n", |c, said| (c.node, said.kind) = (2, other(said)), 4),
    ("of another kind and a word less", |c, said| (c.style, said.kind) = (style()[1..].to_vec(), other(said)), 2),
    ("of another kind and a bad replacement", |c, said| (c.style, said.kind) = (broken(), other(said)), 6),
    ("a tally word above the count", |c, _| c.words.tally[1] = 1, 6),
    ("a tally word above the count and node n", |c, _| (c.words.tally[1], c.node) = (1, 2), 4),
    (
        "a tally word above the count and a word less",
        |c, _| (c.words.tally[1], c.style) = (1, style()[1..].to_vec()),
        2,
    ),
    ("a tally of n + 1 words and node n", |c, _| (c.words.tally, c.node) = (vec![0; 3], 2), 2),
    ("the live record is bad", |c, _| break_live(c, 0), 0),
    ("the other live record is bad", |c, _| break_live(c, 1), 3),
    ("the replacement is bad", |c, _| c.style = broken(), 3),
    ("node n and a bad replacement", |c, _| (c.node, c.style) = (2, broken()), 4),
    ("the live record before is bad", |c, _| (c.node, c.words.styles[0]) = (1, 2), 3),
    ("the replacement's last word is bad", |c, _| c.style[STYLE - 1] = 256, 3),
    ("the live record's last word is bad", |c, _| c.words.styles[STYLE - 1] = 256, 0),
    ("the live record and the replacement are bad alike", |c, _| (c.words.styles[0], c.style) = (2, broken()), 3),
    ("the last of 257 live records is bad", |c, _| lengthen(c), 0),
    ("a bad working record", |c, _| c.words.working[0] = 2, 4),
    ("a bad working record and a bad replacement", |c, _| (c.style, c.words.working[0]) = (broken(), 2), 3),
    (
        "a bad working record and another live record that is bad",
        |c, _| {
            break_live(c, 1);
            c.words.working[0] = 2
        },
        3,
    ),
    ("finished", |c, _| c.words.state[0] = 0, 6),
    ("finished and node n", |c, _| (c.words.state[0], c.node) = (0, 2), 4),
];

const FINISHED: [Row; 4] = [
    ("finished and a word less", |c, _| (c.words.state[0], c.style) = (0, style()[1..].to_vec()), 2),
    ("no items", |c, _| forget_items(c), 4),
    (
        "no items and node 2 ^ 32 - 1",
        |c, _| {
            forget_items(c);
            c.node = u32::MAX
        },
        4,
    ),
    (
        "no items and no word",
        |c, _| {
            forget_items(c);
            c.style.clear()
        },
        2,
    ),
];

const SURFACED: [Row; 6] = [
    ("ragged surfaced records and node n", |c, said| (c.node, said.surfaced) = (2, vec![0; 13]), 2),
    ("a bad surfaced record", |_, said| said.surfaced[0] = 2, 4),
    ("a bad surfaced record and a bad replacement", |c, said| (c.style, said.surfaced[0]) = (broken(), 2), 3),
    ("too many surfaced records", |_, said| said.surfaced = said.surfaced.repeat(2), 5),
    ("too many surfaced records and node n", |c, said| (c.node, said.surfaced) = (2, said.surfaced.repeat(2)), 4),
    (
        "too many surfaced records and a bad replacement",
        |c, said| (c.style, said.surfaced) = (broken(), said.surfaced.repeat(2)),
        3,
    ),
];

/// The kind after this one
fn other(said: &Said) -> Kind {
    KINDS[(said.kind as usize + 1) % KINDS.len()]
}

/// As if a refused opening had had none
fn forget_items(call: &mut Call) {
    without_items(call);
    call.words.state = model::closed(&call.words);
}

/// A table of 257 items, of which the last is broken and to be replaced
fn lengthen(call: &mut Call) {
    let w = &mut call.words;
    w.styles = [style().repeat(256), broken()].concat();
    w.layouts.resize(257 * LAYOUT, 7);
    w.tally.resize(257, 0);
    let lengths = model::lengths(w);
    lengths.into_iter().enumerate().for_each(|(at, length)| w.state[23 + at] = length as u32);
    call.node = 256;
}

/// Min-content of the sides that the question measures
fn ask(style: &mut [u32], kind: Kind) {
    const MIN_CONTENT: u32 = 27;
    let sides: &[usize] = match kind {
        Kind::Both => &[16, 17],
        Kind::Width => &[16],
        Kind::Height => &[17],
        Kind::LayOut => &[],
    };
    sides.iter().for_each(|side| style[LENGTH * side] = MIN_CONTENT);
}

/// Every row
pub fn all(entry: &Entry, seen: &mut Seen) -> Result<(), Difference> {
    for row in OPENINGS {
        held_to(entry, None, plain(), row, seen)?;
    }
    for kind in KINDS {
        let mut open = plain();
        ask(&mut open.style, kind);
        let first = (open.node, open.style.clone());
        held(entry, None, &mut open, &first, seen)?;
        if open.words.answer[0] != kind as u32 + 1 {
            return Err(format!("the question is {:?}, not of {kind:?}", open.words.answer));
        }
        let surfaced: &[Row] = if kind == Kind::LayOut { &SURFACED } else { &[] };
        for &row in REPLIES.iter().chain(&FINISHED).chain(surfaced) {
            held_to(entry, Some(kind), open.clone(), row, seen)?;
        }
    }
    Ok(())
}

fn held_to(entry: &Entry, kind: Option<Kind>, mut call: Call, row: Row, seen: &mut Seen) -> Result<(), Difference> {
    let (name, change, number) = row;
    let first = (call.node, call.style.clone());
    let mut said = laid_out(kind.unwrap_or(Kind::LayOut));
    change(&mut call, &mut said);
    let result = held(entry, kind.map(|_| &said), &mut call, &first, seen).map_err(|what| format!("{name}: {what}"))?;
    if result != number {
        return Err(format!("{name}, {kind:?}: result {result}, not {number}"));
    }
    Ok(())
}
