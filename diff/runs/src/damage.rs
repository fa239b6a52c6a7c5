//! Damaged calls. What each must answer is the model's word; a refused call may write no lent word but its own state, where it
//! is an opening, and an accepted one only its own.
use crate::model;
use crate::rng::Rng;
use crate::side::{adds_up, question, Difference};
use crate::words::{Library, Said, Words};
use oof::ffi::{state, STATE};
use oracle::case::{float, CANDIDATE, LAYER, LAYOUT, LENGTH, LENGTHS, NAN, STYLE, SUM};
use oracle::gen;
use oracle::host::{Profile, Random};
use oracle::run::{Host, Kind};

/// Where a call is damaged
#[derive(Copy, Clone, PartialEq, Debug)]
pub enum Family {
    /// Of an opening: codes of the area; lengths of slices; words of styles; sums; words of candidates; layers; room; the tally; several
    /// of these
    OpenCodes,
    OpenLengths,
    OpenStyles,
    OpenSums,
    OpenCandidates,
    OpenLayers,
    OpenRoom,
    OpenTally,
    OpenSeveral,
    /// Of a reply: its kind; lengths; rewritten styles; rewritten sums; rewritten working list; surfaced records; layers; several of
    /// these
    ReplyKind,
    ReplyLengths,
    ReplyStyles,
    ReplySums,
    ReplyWorking,
    ReplySurfaced,
    ReplyLayers,
    ReplySeveral,
    /// Of a state: any words; counts; finished ones; one word
    StateRandom,
    StateCounts,
    StateFinished,
    StateWord,
    /// Of the tally in a reply: its length; the word of the box at hand, just above the count and the highest one; words as high as a
    /// forged count; another item's word; another slice; its length in the state; and the record of the box at hand with another node,
    /// which is charged
    TallyLength,
    TallyAbove,
    TallyHighest,
    TallyForged,
    TallyOther,
    TallySwapped,
    TallyState,
    TallyNode,
}
use Family::*;

pub const FAMILIES: [(Family, &str); 29] = [
    (OpenCodes, "opening: codes of the area"),
    (OpenLengths, "opening: lengths of slices"),
    (OpenStyles, "opening: words of styles"),
    (OpenSums, "opening: sums"),
    (OpenCandidates, "opening: words of candidates"),
    (OpenLayers, "opening: layers"),
    (OpenRoom, "opening: lists just too small"),
    (OpenTally, "opening: the tally"),
    (OpenSeveral, "opening: several faults"),
    (ReplyKind, "reply: of another kind"),
    (ReplyLengths, "reply: lengths of slices"),
    (ReplyStyles, "reply: styles rewritten"),
    (ReplySums, "reply: sums"),
    (ReplyWorking, "reply: working list rewritten"),
    (ReplySurfaced, "reply: surfaced records"),
    (ReplyLayers, "reply: layers"),
    (ReplySeveral, "reply: several faults"),
    (StateRandom, "state: any words"),
    (StateCounts, "state: counts"),
    (StateFinished, "state: finished"),
    (StateWord, "state: one word"),
    (TallyLength, "tally: of another length"),
    (TallyAbove, "tally: a word one above the count"),
    (TallyHighest, "tally: the highest word"),
    (TallyForged, "tally: words as high as a forged count"),
    (TallyOther, "tally: another item's word"),
    (TallySwapped, "tally: another slice"),
    (TallyState, "tally: its length in the state"),
    (TallyNode, "tally: another node in the record"),
];

impl Family {
    /// What calls of the families of the tally must have answered, if there were enough of them: accepted, or a refusal's number
    pub fn answers(self) -> &'static [usize] {
        match self {
            OpenTally => &[0, 2],
            TallyLength | TallyState => &[2],
            TallyAbove | TallyHighest => &[6],
            TallyForged => &[0],
            TallyOther | TallySwapped => &[0, 6],
            TallyNode => &[0, 4],
            _ => &[],
        }
    }
    /// These damage only a reply to an open question, of a run of two items or more
    fn is_of_tally(self) -> bool {
        self != OpenTally && !self.answers().is_empty()
    }
}

/// Damaged calls by what they answered: accepted, or a refusal's number
pub type Answered = [u64; 7];

/// A case's words, its lists with no place to spare or a few
fn lend(family: Family, rng: &mut Rng) -> (Words, Random) {
    let profile = rng.of(&[Profile::Quarter, Profile::Wild, Profile::Typical]);
    let (mut case, mut host_seed) = gen::case(profile, rng.next(), 0);
    while family.is_of_tally() && case.styles.len() < 2 {
        (case, host_seed) = gen::case(profile, rng.next(), 0);
    }
    let claimed = model::claimed(&case.candidates.concat(), case.area[5]);
    let spare = rng.below(4) as usize;
    let words = Words::lend(&case, claimed + spare, case.candidates.len() - claimed + spare, rng);
    let host = Random::new(host_seed, profile, case.styles.len(), rng.below(3));
    (words, host)
}

/// Opens a run of a random case and goes through it, with damaged calls of the family on the way
pub fn one(
    family: Family,
    library: &mut Library,
    rng: &mut Rng,
    seen: &mut Answered,
    noticed: &mut bool,
) -> Result<(), Difference> {
    let (mut words, mut host) = lend(family, rng);
    if matches!(
        family,
        OpenCodes
            | OpenLengths
            | OpenStyles
            | OpenSums
            | OpenCandidates
            | OpenLayers
            | OpenRoom
            | OpenTally
            | OpenSeveral
    ) {
        // over noise, or over the state of an open run
        if rng.one_in(2) && Library::default().open(&mut words) != 0 {
            return Err("a good opening is refused".to_string());
        }
        damage_opening(family, &mut words, rng);
        opening(&mut words, library, seen, noticed)?;
        // what it left is the state that the next call is given
        let said = Said { kind: rng.of(&KINDS), values: [(); 4].map(|_| rng.next() as u32), surfaced: vec![] };
        return reply(&said, &mut words, library, seen, noticed);
    }
    let mut whole = Library::default();
    if whole.open(&mut words) != 0 {
        return Err("a good opening is refused".to_string());
    }
    adds_up("an opening", &words)?;
    while let Some(question) = question(&words) {
        damaged_reply(family, question.kind, &words, library, rng, seen, noticed)?;
        let mut said = Said::new(question.kind, &host.answer(&question));
        let expected = model::reply(&said, &words);
        let result = whole.reply(&said, &mut words);
        if result != expected {
            return Err(format!("a reply answers {result}, not {expected}"));
        }
        if result == 5 {
            // the host may reply again with fewer records
            said.surfaced.clear();
            if whole.reply(&said, &mut words) != 0 {
                return Err("a reply with fewer records is refused".to_string());
            }
        }
        adds_up("a reply", &words)?;
    }
    if family.is_of_tally() {
        return Ok(());
    }
    let kind = rng.of(&KINDS);
    damaged_reply(family, kind, &words, library, rng, seen, noticed)
}

pub const KINDS: [Kind; 4] = [Kind::Both, Kind::Width, Kind::Height, Kind::LayOut];

// ---- a call, checked

fn opening(w: &mut Words, library: &mut Library, seen: &mut Answered, noticed: &mut bool) -> Result<(), Difference> {
    let (mut before, expected) = (w.clone(), model::opening(w));
    seen[expected as usize] += 1;
    before.state = model::closed(w); // of a refused one; whatever an accepted one writes there is not compared
    let result = library.open(w);
    let layers = model::layers(&before.candidates, before.area[5]);
    let may = May { node: None, filled: [0, 0], layers, tally: model::tally(&before, None) };
    let outcome = check("opening", expected, result, &before, w, &may);
    tell(expected, outcome, noticed)
}

fn reply(
    said: &Said,
    w: &mut Words,
    library: &mut Library,
    seen: &mut Answered,
    noticed: &mut bool,
) -> Result<(), Difference> {
    let (before, expected) = (w.clone(), model::reply(said, w));
    seen[expected as usize] += 1;
    let asked = (expected == 0).then(|| model::asked_about(w));
    let node = asked.filter(|_| said.kind == Kind::LayOut);
    // only an accepted lay out writes records
    let surfaced: &[u32] = if node.is_some() { &said.surfaced } else { &[] };
    let may = May {
        node,
        filled: [state::FILLED_WORKING, state::FILLED_UNCLAIMED].map(|at| w.state[at] as usize),
        layers: model::layers(surfaced, w.state[state::CODES + 1]),
        tally: asked.map_or(vec![], |asked| model::tally(w, Some(asked))),
    };
    let result = library.reply(said, w);
    let outcome = check(&format!("{said:?}"), expected, result, &before, w, &may);
    tell(expected, outcome, noticed)
}

/// Under sabotage, only refused calls are spoilt in a way that must show: it is noted whether it does
fn tell(expected: u32, outcome: Result<(), Difference>, noticed: &mut bool) -> Result<(), Difference> {
    if outcome.is_err() && expected != 0 {
        *noticed = true;
    }
    outcome
}

/// What an accepted call may write: the layout of the box at hand, and behind the filled records of each list so many as it has
/// layers for; the tally, which it leaves so; beside these, state and answer
struct May {
    node: Option<usize>,
    filled: [usize; 2],
    layers: [Vec<u32>; 2],
    tally: Vec<u32>,
}

/// A refused call leaves every word, of an opening but for its state, which `before` has
fn check(call: &str, expected: u32, result: u32, before: &Words, after: &Words, may: &May) -> Result<(), Difference> {
    if result != expected {
        return Err(format!("{call}: result {result}, by the model {expected}"));
    }
    if expected != 0 {
        return if before == after { Ok(()) } else { Err(format!("{call}: refused {result}, and a word was written")) };
    }
    kept(call, "styles", &before.styles, &after.styles, |_| false)?;
    kept(call, "candidates", &before.candidates, &after.candidates, |_| false)?;
    kept(call, "layouts", &before.layouts, &after.layouts, |at| Some(at / LAYOUT) == may.node)?;
    let lists = [("working", &before.working, &after.working), ("unclaimed", &before.unclaimed, &after.unclaimed)];
    for ((name, before, after), (&filled, layers)) in lists.into_iter().zip(may.filled.iter().zip(&may.layers)) {
        kept(call, name, before, after, |at| (filled..filled + layers.len()).contains(&(at / CANDIDATE)))?;
        let mut records = after.chunks(CANDIDATE).skip(filled);
        if layers.iter().any(|&layer| records.next().map(|record| record[LAYER]) != Some(layer)) {
            return Err(format!("{call}: {name} has another layer than {layers:?} from record {filled} on"));
        }
    }
    if after.tally != may.tally {
        return Err(format!("{call}: the tally is {:?}, not {:?}", after.tally, may.tally));
    }
    if let Some(node) = may.node {
        laid_out(call, &after.layouts[LAYOUT * node..][..LAYOUT])?;
    }
    Ok(())
}

/// No word was written but where it may be
fn kept(call: &str, name: &str, before: &[u32], after: &[u32], may: impl Fn(usize) -> bool) -> Result<(), Difference> {
    match (0..before.len()).find(|&at| before[at] != after[at] && !may(at)) {
        Some(at) => Err(format!("{call}: {name} word {at} was written")),
        None => Ok(()),
    }
}

/// The words of a layout: every NaN is 7FC00000, and the size is no NaN and at least padding plus border where that is no NaN
fn laid_out(call: &str, w: &[u32]) -> Result<(), Difference> {
    if w[1..].iter().any(|&w| float(w).is_nan() && w != NAN) {
        return Err(format!("{call}: another NaN is written"));
    }
    for (size, left, right) in [(1, 11, 12), (2, 13, 14)] {
        let side = |at: usize| float(w[at]) + float(w[at + 4]);
        let floor = side(left) + side(right);
        if !floor.is_nan() && !(float(w[size]) >= floor) {
            return Err(format!("{call}: size {} below {floor}", float(w[size])));
        }
    }
    Ok(())
}

// ---- damage

pub fn damage_opening(family: Family, w: &mut Words, rng: &mut Rng) {
    match family {
        OpenCodes => w.area[4 + rng.below(4) as usize] = rng.code(),
        OpenLengths => {
            if rng.one_in(100) {
                long(w, rng);
            } else {
                let list = match rng.below(6) {
                    0 => &mut w.styles,
                    1 => &mut w.layouts,
                    2 => &mut w.candidates,
                    3 => &mut w.working,
                    4 => &mut w.unclaimed,
                    _ => &mut w.tally,
                };
                resize(list, rng);
            }
        }
        OpenStyles => rewrite_style(w, rng),
        OpenSums => rewrite_sum(w, rng),
        OpenCandidates => {
            let items = w.items() as u32;
            rewrite_record(&mut w.candidates, items, rng);
        }
        OpenLayers => match rng.below(8) {
            0 => drop_layers(&mut w.candidates),
            1 => drop_layers(if rng.one_in(2) { &mut w.working } else { &mut w.unclaimed }),
            _ => rewrite_layer(&mut w.candidates, rng),
        },
        OpenRoom => {
            let list = if rng.one_in(2) { &mut w.working } else { &mut w.unclaimed };
            let less = list.len().saturating_sub(CANDIDATE * (1 + rng.below(4) as usize));
            list.truncate(less);
        }
        OpenTally => match rng.below(4) {
            0 => w.tally.fill(rng.of(&[0, 1, u32::MAX])),
            _ => resize_tally(w, rng),
        },
        _ => {
            for _ in 0..2 + rng.below(2) {
                let part = rng.of(&[
                    OpenCodes,
                    OpenLengths,
                    OpenStyles,
                    OpenSums,
                    OpenCandidates,
                    OpenLayers,
                    OpenRoom,
                    OpenTally,
                ]);
                damage_opening(part, w, rng);
            }
        }
    }
}

/// Near the limits of 1,024 items and 4,096 records
fn long(w: &mut Words, rng: &mut Rng) {
    match rng.below(4) {
        0 => {
            let items = 1023 + rng.below(4) as usize;
            w.styles = w.styles[..STYLE.min(w.styles.len())].repeat(items);
            w.layouts.resize(LAYOUT * items, 1);
            w.tally.resize(items, 1);
        }
        1 => w.working.resize(CANDIDATE * (4095 + rng.below(4) as usize), 1),
        2 => w.unclaimed.resize(CANDIDATE * (4095 + rng.below(4) as usize), 1),
        _ => {
            let records = 4090 + rng.below(12) as usize;
            w.candidates = w.candidates[..CANDIDATE.min(w.candidates.len())].repeat(records);
            w.working.resize(CANDIDATE * 4096, 1);
            w.unclaimed.resize(CANDIDATE * 4096, 1);
        }
    }
}

/// Another length, often by a word or by a record
fn resize(list: &mut Vec<u32>, rng: &mut Rng) {
    let by = rng.of(&[1, 1, 2, LAYER, CANDIDATE, LAYOUT, STYLE, 64]);
    match rng.below(5) {
        0 => list.clear(),
        1 => list.truncate(rng.below(list.len() as u32 + 1) as usize),
        2 => list.truncate(list.len().saturating_sub(by)),
        _ => list.resize(list.len() + by, 1),
    }
}

/// A word less or more, none, as many as another slice has, or twice as many
fn resize_tally(w: &mut Words, rng: &mut Rng) {
    let length = w.tally.len();
    let other = rng.of(&model::lengths(w));
    let chosen = rng.of(&[0, length.saturating_sub(1), length + 1, length + 2, 2 * length, other]);
    w.tally.resize(if chosen == length { length + 1 } else { chosen }, 1);
}

pub fn rewrite_style(w: &mut Words, rng: &mut Rng) {
    if w.styles.is_empty() {
        return;
    }
    // tags and codes three times out of four
    let mut at = rng.below(w.styles.len() as u32) as usize;
    if !rng.one_in(4) && at % STYLE < LENGTH * LENGTHS {
        at -= at % STYLE % LENGTH;
    }
    w.styles[at] = if rng.one_in(3) { w.styles[at] ^ (1 << rng.below(32)) } else { rng.code() };
}

/// One length with a tag that is none, for the most part; as a sum; or with another second value, which has no rule. Or old styles.
fn rewrite_sum(w: &mut Words, rng: &mut Rng) {
    if w.items() == 0 {
        return;
    }
    let from = STYLE * rng.below(w.items() as u32) as usize + LENGTH * rng.below(LENGTHS as u32) as usize;
    let length = &mut w.styles[from..from + LENGTH];
    match rng.below(8) {
        0 => drop_seconds(&mut w.styles),
        1 => length.copy_from_slice(&[SUM, rng.next() as u32, rng.next() as u32]),
        2 => length[2] = rng.next() as u32,
        _ => length[0] = rng.of(&BESIDE_SUM),
    }
}
/// The neighbours of a sum's tag, words with its low byte, and the Rust's own tags of calc and of fit-content with calc
const BESIDE_SUM: [u32; 7] = [128, 130, 385, 0x8181, 0x8000_0081, 4, 6];

/// Styles of 57 words, as they were before there were second values
fn drop_seconds(styles: &mut Vec<u32>) {
    let has_none = |word: usize| word >= LENGTH * LENGTHS || word % LENGTH != 2;
    *styles = (0..styles.len()).filter(|at| has_none(at % STYLE)).map(|at| styles[at]).collect();
}

fn rewrite_record(list: &mut [u32], items: u32, rng: &mut Rng) {
    if list.is_empty() {
        return;
    }
    let at = rng.below(list.len() as u32) as usize;
    list[at] = match rng.below(4) {
        0 => rng.below(6),
        1 => items.wrapping_add(rng.below(3)).wrapping_sub(1),
        2 => list[at] ^ (1 << rng.below(32)),
        _ => rng.code(),
    };
}

/// Another layer in one record, most often too high a one: the first such, one whose low byte is 1, 2 ^ 31, a NaN, the highest word
fn rewrite_layer(list: &mut [u32], rng: &mut Rng) {
    let layer = if rng.one_in(3) { rng.of(&[0, 1, 7, 255]) } else { rng.of(&BAD_LAYERS) };
    let count = (list.len() / CANDIDATE) as u32;
    if count > 0 {
        list[CANDIDATE * rng.below(count) as usize + LAYER] = layer;
    }
}
const BAD_LAYERS: [u32; 5] = [256, 257, 1 << 31, 0x7FC0_0001, u32::MAX];

/// Records of 13 words, as they were before there were layers
fn drop_layers(list: &mut Vec<u32>) {
    *list = list.chunks(CANDIDATE).flat_map(|record| record.iter().take(LAYER)).copied().collect();
}

/// One damaged reply, on a copy of the words
fn damaged_reply(
    family: Family,
    asked: Kind,
    words: &Words,
    library: &mut Library,
    rng: &mut Rng,
    seen: &mut Answered,
    noticed: &mut bool,
) -> Result<(), Difference> {
    let mut w = words.clone();
    let mut said = Said { kind: asked, values: [(); 4].map(|_| rng.next() as u32), surfaced: vec![] };
    if rng.one_in(3) {
        surface(&mut said, &w, rng);
    }
    damage_reply(family, &mut said, &mut w, rng);
    reply(&said, &mut w, library, seen, noticed)
}

pub fn damage_reply(family: Family, said: &mut Said, w: &mut Words, rng: &mut Rng) {
    match family {
        ReplyKind => said.kind = KINDS[(said.kind as usize + 1 + rng.below(3) as usize) % 4],
        ReplyLengths => {
            let which = rng.below(6) as usize;
            let list = match which {
                0 => &mut w.styles,
                1 => &mut w.layouts,
                2 => &mut w.working,
                3 => &mut w.unclaimed,
                4 => &mut w.tally,
                _ => &mut said.surfaced,
            };
            resize(list, rng);
            // the state may be made to agree
            if which < 5 && rng.one_in(4) {
                w.state[state::LENGTHS + which] = list.len() as u32;
            }
        }
        ReplyStyles => rewrite_style(w, rng),
        ReplySums => rewrite_sum(w, rng),
        ReplyWorking => {
            let items = w.items() as u32;
            rewrite_record(&mut w.working, items, rng);
        }
        ReplySurfaced => {
            if rng.one_in(8) {
                said.kind = Kind::LayOut;
            }
            surface(said, w, rng);
            let items = w.items() as u32;
            match rng.below(4) {
                0 => resize(&mut said.surfaced, rng),
                1 => said.surfaced = said.surfaced.repeat(1 + rng.below(4) as usize),
                2 => {}
                _ => rewrite_record(&mut said.surfaced, items, rng),
            }
        }
        ReplyLayers => damage_layers(said, w, rng),
        ReplySeveral => {
            for _ in 0..2 + rng.below(2) {
                let part = rng.of(&[
                    ReplyKind,
                    ReplyLengths,
                    ReplyStyles,
                    ReplyStyles,
                    ReplySums,
                    ReplyWorking,
                    ReplyWorking,
                    ReplySurfaced,
                    ReplyLayers,
                    StateCounts,
                    TallyLength,
                    TallyAbove,
                    TallyOther,
                ]);
                damage_reply(part, said, w, rng);
            }
        }
        StateRandom => {
            let small = rng.one_in(2);
            let kept = w.state;
            w.state = [(); STATE].map(|_| if small { rng.below(6) } else { rng.code() });
            if !rng.one_in(4) {
                w.state[state::LENGTHS..].copy_from_slice(&kept[state::LENGTHS..]);
            }
            if let Some(kind) = model::asked(w.state[state::PROGRESS]) {
                said.kind = if rng.one_in(8) { rng.of(&KINDS) } else { kind };
            }
        }
        StateCounts => {
            for _ in 0..1 + rng.below(2) {
                let at = state::FILLED_WORKING + rng.below(4) as usize;
                let begun = w.state[state::BEGUN];
                w.state[at] = match rng.below(6) {
                    0 => w.state[at].wrapping_add(1),
                    1 => w.state[at].wrapping_sub(1),
                    2 => begun.wrapping_mul(3).wrapping_add(rng.below(3)).wrapping_sub(1),
                    3 => (w.working.len() / CANDIDATE) as u32 + rng.below(2),
                    4 => rng.of(&[u32::MAX, 0x5555_5556, 0x8000_0000, 0x5555_5555]),
                    _ => rng.code(),
                };
            }
        }
        StateFinished => {
            w.state[state::PROGRESS] = rng.of(&[0, 0, 0, 6, 7, 255, 256, 257, 261, 0x1_0005, u32::MAX]);
            if rng.one_in(8) {
                w.state = [0; STATE];
            }
            if rng.one_in(8) {
                for list in [&mut w.styles, &mut w.layouts, &mut w.working, &mut w.unclaimed, &mut w.tally] {
                    list.clear();
                }
            }
        }
        TallyLength | TallyAbove | TallyHighest | TallyForged | TallyOther | TallySwapped | TallyState | TallyNode => {
            damage_tally(family, w, rng)
        }
        _ => {
            let at = rng.below(STATE as u32) as usize;
            w.state[at] = if rng.one_in(2) { w.state[at] ^ (1 << rng.below(32)) } else { rng.code() };
        }
    }
}

/// Of a reply whose state has a box at hand, in a table with items
fn damage_tally(family: Family, w: &mut Words, rng: &mut Rng) {
    let (begun, answered) = (w.state[state::BEGUN], w.state[state::ANSWERED]);
    let node = CANDIDATE * (begun.max(1) as usize - 1);
    let (Some(&own), items) = (w.working.get(node), w.tally.len() as u32) else { return };
    let above = [answered.wrapping_add(1), answered.wrapping_add(2), u32::MAX];
    match family {
        TallyLength => {
            resize_tally(w, rng);
            // the state may be made to agree
            if rng.one_in(4) {
                w.state[state::LENGTHS + 4] = w.tally.len() as u32;
            }
        }
        TallyAbove => rewrite_word(&mut w.tally, own, above[0]),
        TallyHighest => rewrite_word(&mut w.tally, own, u32::MAX),
        TallyForged => {
            let count = rng.below(begun.min(4096) * 3 + 1);
            w.state[state::ANSWERED] = count;
            w.tally.fill_with(|| rng.below(count + 1));
            let highest = if rng.one_in(2) { own } else { rng.below(items.max(1)) };
            rewrite_word(&mut w.tally, highest, count);
        }
        TallyOther => {
            let other = own.wrapping_add(1 + rng.below(items.max(2) - 1)) % items.max(1);
            rewrite_word(&mut w.tally, other, rng.of(&[above[0], above[1], above[2], answered, 0]));
        }
        TallySwapped => {
            let lists = [&w.styles, &w.layouts, &w.working, &w.candidates];
            let words: Vec<u32> = rng.of(&lists).iter().copied().filter(|_| rng.one_in(2)).collect();
            let fill = rng.of(&[0, answered]);
            let mut swapped = if rng.one_in(2) { words } else { vec![] };
            swapped.resize(w.tally.len(), fill);
            w.tally = swapped;
        }
        TallyState => {
            let length = &mut w.state[state::LENGTHS + 4];
            *length = if rng.one_in(2) {
                *length ^ (1 << rng.below(32))
            } else {
                length.wrapping_add(rng.of(&[1, 2, u32::MAX]))
            };
        }
        _ => {
            let other = own.wrapping_add(1 + rng.below(items.max(2) - 1)) % items.max(1);
            w.working[node] = if rng.one_in(4) { rng.of(&[items, items.wrapping_add(1), u32::MAX]) } else { other };
        }
    }
}
fn rewrite_word(list: &mut [u32], at: u32, word: u32) {
    if let Some(place) = list.get_mut(at as usize) {
        *place = word;
    }
}

/// Layers of surfaced records, of working records that are filled, of those behind them, of unclaimed ones
fn damage_layers(said: &mut Said, w: &mut Words, rng: &mut Rng) {
    let filled = (CANDIDATE * w.state[state::FILLED_WORKING].min(4096) as usize).min(w.working.len());
    match rng.below(8) {
        0 => {
            surface(said, w, rng);
            drop_layers(&mut said.surfaced);
        }
        1 => drop_layers(if rng.one_in(2) { &mut w.working } else { &mut w.unclaimed }),
        2 | 3 => {
            surface(said, w, rng);
            rewrite_layer(&mut said.surfaced, rng);
        }
        4 | 5 => rewrite_layer(&mut w.working[..filled], rng),
        6 => rewrite_layer(&mut w.working[filled..], rng),
        _ => rewrite_layer(&mut w.unclaimed, rng),
    }
}

/// Records to surface, good ones for the most part
pub fn surface(said: &mut Said, w: &Words, rng: &mut Rng) {
    let items = w.items().max(1) as u32;
    said.surfaced.clear();
    for _ in 0..1 + rng.below(3) {
        let mut record: [u32; CANDIDATE] = [(); CANDIDATE].map(|_| rng.below(3));
        (record[0], record[2]) = (rng.below(items), rng.of(&[2, 3, 2, 3, 0, 1, 4]));
        record[LAYER] = rng.below(256);
        for at in [3, 4, 8, 9] {
            record[at] = rng.next() as u32;
        }
        said.surfaced.extend(record);
    }
}
