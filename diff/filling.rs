//! Compares a part that fills a lent slice from a finished run, WORDS words for each box, with a model of it. Here is what such parts share:
//! calls of them, what they refuse, wrong entries, and changes of a call. What a program has of its own is taken from it by name.
use crate::finished::{self, bad_nodes_and_codes, other_lengths, other_lengths_recorded, other_tallies, OneFilled};
use crate::finished::{above, bad_record, bad_slices, each_change, of_a_run, unfinished, Run, REFUSALS};
use crate::finished::{
    ANSWERED, BEGUN, CANDIDATE, CODES, FILLED, LAYER, LAYOUT, LAYOUTS, LENGTHS, NODE, ORDER, PROGRESS, STATE, STYLE,
    STYLES, TALLY, UNCLAIMED, WIDTHS, WORKING,
};
use crate::random::Random;
use crate::trial::find_out;
use crate::{
    bad_numbers, called, classes, directed, figures, fill, holds, kinds, random_call, rows, show_boxes, wrong,
};
use crate::{KEPT, TESTS, WORDS};

// ---- a call

#[derive(Clone, PartialEq)]
pub struct Call {
    pub run: Run,
    /// words lent to be filled
    pub words: usize,
}

of_a_run!(Call);

impl Call {
    /// A finished run, so far without boxes
    pub fn new(slices: [Vec<u32>; 4], state: [u32; STATE]) -> Call {
        let mut call = Call { run: Run { slices, state }, words: 0 };
        call.state[PROGRESS] = 0;
        call.state[FILLED] = 0;
        call.record_lengths();
        call
    }

    /// So many boxes, and words for them
    pub fn count_boxes(&mut self, boxes: usize) {
        self.state[FILLED] = boxes as u32;
        self.words = WORDS * boxes;
    }

    /// As many words as the boxes need
    pub fn needed(&self) -> usize {
        WORDS * self.filled()
    }
}

/// A finished run of boxes with these nodes over so many items, with room for two boxes more. Every word without a rule is a NaN.
pub fn plain_call(nodes: &[u32], items: usize) -> Call {
    let records = [items, items, nodes.len() + 2, 1];
    let slices = std::array::from_fn(|k| vec![0x7FC0_0001; records[k] * WIDTHS[k]]);
    let mut call = Call::new(slices, [0x7FC0_0001; STATE]);
    for (k, &node) in nodes.iter().enumerate() {
        let record = call.filled_record(k);
        CODES.iter().for_each(|&(word, most)| record[word] = most);
        record[NODE] = node;
    }
    call.state[FILLED + 1] = 1;
    call.count_boxes(nodes.len());
    call
}

/// Words beside those that are lent, on either side.
const MARGIN: usize = 4;

/// The slice that is lent, in the middle of other words. All have their highest bit.
#[derive(Clone, PartialEq)]
pub struct Words(pub Vec<u32>);

impl Words {
    pub fn new(words: usize, noise: u32) -> Words {
        let word = |k: usize| noise.rotate_left(k as u32 % 31) ^ k as u32 | 1 << 31;
        Words((0..words + 2 * MARGIN).map(word).collect())
    }

    pub fn lent(&mut self) -> &mut [u32] {
        let end = self.0.len() - MARGIN;
        &mut self.0[MARGIN..end]
    }

    /// As many of these as there is room for
    pub fn fill(&mut self, with: &[u32]) {
        self.lent().iter_mut().zip(with).for_each(|(word, other)| *word = *other);
    }
}

pub type Change = finished::Change<Call>;

/// What is called: with all that is lent, and the slice.
pub type Entry = Box<dyn Fn(&mut Call, &mut Words) -> u32>;

pub fn proved(call: &mut Call, words: &mut Words) -> u32 {
    let lent = words.lent();
    called(call, lent.as_mut_ptr(), lent.len())
}

// ---- the model

/// So many words a box; "another length is a bad extent"
fn bad_words(call: &Call) -> bool {
    call.words as u64 != WORDS as u64 * u64::from(call.state[FILLED])
}

/// For each refusal whether its condition holds.
pub fn reasons(call: &Call) -> [bool; 4] {
    [
        bad_slices(call) || bad_words(call),
        unfinished(call) || above(call, WORKING) || above(call, UNCLAIMED),
        call.boxes().any(|record| bad_record(call, record)),
        bad_numbers(call),
    ]
}

#[derive(Clone, PartialEq, Debug)]
pub enum Verdict {
    Written(Vec<u32>),
    Refused(u32),
}

use Verdict::{Refused, Written};

pub fn judge(call: &Call, reasons: [bool; 4], fill: &dyn Fn(&Call) -> Vec<u32>) -> Verdict {
    match (0..4).find(|&k| reasons[k]) {
        Some(k) => Refused(REFUSALS[k]),
        None => Written(fill(call)),
    }
}

pub fn model(call: &Call) -> Verdict {
    judge(call, reasons(call), &fill)
}

// ---- wrong entries

pub type Named = (String, Entry);

pub fn answer(verdict: &Verdict, words: &mut Words) -> u32 {
    match verdict {
        Written(with) => {
            words.fill(with);
            0
        }
        Refused(number) => *number,
    }
}

pub fn named(name: &str, entry: impl Fn(&mut Call, &mut Words) -> u32 + 'static) -> Named {
    (name.to_string(), Box::new(entry))
}

/// An entry that fills the slice with something else
pub fn filled(name: &str, fill: impl Fn(&Call) -> Vec<u32> + 'static) -> Named {
    named(name, move |call, words| answer(&judge(call, reasons(call), &fill), words))
}

/// By other conditions of the refusals, from those that hold; the slice is filled with what there is
pub fn tested(name: &str, other: impl Fn(&Call, [bool; 4]) -> [bool; 4] + 'static) -> Named {
    named(name, move |call, words| answer(&judge(call, other(call, reasons(call)), &fill), words))
}

/// The entry, with a copy of what it is lent changed before
pub fn changed(name: &str, change: impl Fn(&mut Call) + 'static) -> Named {
    named(name, move |call, words| {
        let mut other = call.clone();
        change(&mut other);
        proved(&mut other, words)
    })
}

/// The entry, and then something else, told the result
pub fn then(name: &str, also: fn(&mut Call, &mut Words, u32)) -> Named {
    named(name, move |call, words| {
        let result = proved(call, words);
        also(call, words, result);
        result
    })
}

/// The refusals in another order: B right before A
pub fn ordered(a: usize, b: usize) -> Named {
    named(&format!("{} before {}", REFUSALS[b], REFUSALS[a]), move |call, words| {
        let r = reasons(call);
        match r.iter().position(|&holds| holds) {
            Some(k) if k >= a && r[b] => REFUSALS[b],
            _ => proved(call, words),
        }
    })
}

/// The slice is filled although the call is refused with this number
pub fn filled_before(number: u32) -> Named {
    named(&format!("the slice is filled before {number} is tested"), move |call, words| {
        let result = proved(call, words);
        if result == number {
            words.fill(&fill(call))
        }
        result
    })
}

/// What such a part is easily made to do. A program adds its own
pub fn wrong_filling() -> Vec<Named> {
    let lists = [wrong_lengths(), late_lengths(), wrong_slices(), wrong_widths(), wrong_recorded(), wrong_progress()];
    let records = [wrong_counts(), wrong_records(), wrong_nodes(), wrong_layers(), wrong_codes()];
    lists.into_iter().chain(records).chain([wrong_writes(), wrong_answers()]).flatten().collect()
}

/// Which lengths of the lent slice are taken
fn wrong_lengths() -> Vec<Named> {
    fn length(name: &str, bad: fn(&Call) -> bool) -> Named {
        tested(name, move |c, [_, b, d, e]| [bad_slices(c) || bad(c), b, d, e])
    }
    vec![
        length("the slice's length isn't tested", |_| false),
        length("a shorter slice is filled", |c| c.words > c.needed()),
        length("a longer slice is filled", |c| c.words < c.needed()),
        length("a slice one word longer is filled", |c| bad_words(c) && c.words != c.needed() + 1),
        length("a slice one word shorter is filled", |c| bad_words(c) && c.words + 1 != c.needed()),
        length("an empty slice is filled", |c| bad_words(c) && c.words > 0),
        length("words for the list's records", |c| c.words != WORDS * c.records(WORKING)),
        length("words for the boxes begun", |c| c.words != WORDS * c.state[BEGUN] as usize),
        length("words for the items", |c| c.words != WORDS * c.records(STYLES)),
        length("words for both lists' records", |c| c.words != c.needed() + WORDS * c.state[FILLED + 1] as usize),
        length("a candidate's words a box", |c| c.words != CANDIDATE * c.filled()),
        length("the slice's length in a byte", |c| c.words as u8 != c.needed() as u8),
        tested("an empty slice is 2", |c, [a, b, d, e]| [a || c.words == 0, b, d, e]),
        named("a longer slice is filled, its rest with zeros", |call, words| {
            let mut other = call.clone();
            other.words = other.words.min(other.needed());
            let verdict = model(&other);
            if let Written(with) = &verdict {
                words.lent().iter_mut().skip(with.len()).for_each(|word| *word = 0);
            }
            answer(&verdict, words)
        }),
    ]
}

/// When the length of the lent slice is tested
fn late_lengths() -> Vec<Named> {
    vec![
        tested("another length of the slice is 6", |c, [_, b, d, e]| [bad_slices(c), b || bad_words(c), d, e]),
        named("another length of the slice is 2 after 6", |call, words| match reasons(call) {
            [true, true, ..] if !bad_slices(call) => 6,
            _ => proved(call, words),
        }),
        named("another length of the slice is 2 after 4", |call, words| match reasons(call) {
            [true, false, true, _] if !bad_slices(call) => 4,
            _ => proved(call, words),
        }),
    ]
}

/// What else is refused with 2
fn wrong_slices() -> Vec<Named> {
    /// A copy's slice cut to whole records, if the opening had as many words
    fn cut(call: &mut Call, slice: usize, words: usize) {
        if call.slices[slice].len() > words && call.state[LENGTHS + slice] as usize == call.slices[slice].len() {
            call.slices[slice].truncate(words);
            call.state[LENGTHS + slice] = words as u32;
        }
    }
    vec![
        changed("a piece of a working record is left", |c| cut(c, WORKING, c.records(WORKING) * CANDIDATE)),
        changed("a piece of an unclaimed record is left", |c| cut(c, UNCLAIMED, c.records(UNCLAIMED) * CANDIDATE)),
        changed("a word more is a style", |c| cut(c, STYLES, c.records(STYLES) * STYLE)),
        changed("more layouts than items", |c| cut(c, LAYOUTS, c.records(STYLES) * LAYOUT)),
        tested("the tally's length at the opening is tested", |c, [a, b, d, e]| {
            [a || c.state[TALLY] as usize != c.records(STYLES), b, d, e]
        }),
        tested("1,024 items are too many", |c, [a, b, d, e]| [a || c.records(STYLES) >= 1024, b, d, e]),
        tested("4,096 records are too many", |c, [a, b, d, e]| {
            [a || c.records(WORKING) >= 4096 || c.records(UNCLAIMED) >= 4096, b, d, e]
        }),
        tested("1,025 items are taken", |c, [a, b, d, e]| [a && (bad_words(c) || c.records(STYLES) != 1025), b, d, e]),
        tested("4,097 records are taken", |c, [a, b, d, e]| {
            [a && (bad_words(c) || c.records(WORKING) != 4097), b, d, e]
        }),
        tested("4,097 unclaimed are taken", |c, [a, b, d, e]| {
            [a && (bad_words(c) || c.records(UNCLAIMED) != 4097), b, d, e]
        }),
    ]
}

/// Records as they were before there were layers
fn wrong_widths() -> Vec<Named> {
    vec![
        tested("a list of 4,096 records of 13 words at most", |c, [a, b, d, e]| {
            [a || c.slices[WORKING].len() > 13 * 4096 || c.slices[UNCLAIMED].len() > 13 * 4096, b, d, e]
        }),
        named("records of 13 words are taken", |call, words| {
            let list = |k: usize| call.slices[k].len() % 13 == 0 && call.slices[k].len() % CANDIDATE != 0;
            if call.words == call.needed() && (list(WORKING) || list(UNCLAIMED)) && !unfinished(call) {
                return 0;
            }
            proved(call, words)
        }),
    ]
}

/// Lengths held against the opening's
fn wrong_recorded() -> Vec<Named> {
    let mut wrong = vec![];
    for (k, name) in ["styles", "layouts", "working list", "unclaimed list"].iter().enumerate() {
        let record = move |c: &mut Call| c.state[LENGTHS + k] = c.slices[k].len() as u32;
        wrong.push(changed(&format!("the {name}'s length isn't held against the opening's"), record));
        let low = move |c: &mut Call| {
            let words = c.slices[k].len() as u32;
            if c.state[LENGTHS + k] as u16 == words as u16 {
                c.state[LENGTHS + k] = words
            }
        };
        wrong.push(changed(&format!("the {name}'s length is held against the opening's in 16 bits"), low));
    }
    wrong
}

/// Which run is finished
fn wrong_progress() -> Vec<Named> {
    fn lists(c: &Call) -> bool {
        above(c, WORKING) || above(c, UNCLAIMED)
    }
    vec![
        tested("an unfinished run is taken", |c, [a, _, d, e]| [a, lists(c), d, e]),
        tested("a run at lay out is finished", |c, [a, b, d, e]| [a, lists(c) || (b && c.state[PROGRESS] != 5), d, e]),
        tested("a run at its first question is finished", |c, [a, b, d, e]| {
            [a, lists(c) || (b && c.state[PROGRESS] != 1), d, e]
        }),
        tested("a progress above 5 is unfinished", |c, [a, b, d, e]| [a, b || c.state[PROGRESS] > 5, d, e]),
        tested("the low byte of the progress", |c, [a, b, d, e]| {
            [a, b || matches!(c.state[PROGRESS] as u8, 1..=5), d, e]
        }),
    ]
}

/// Which counts are too high
fn wrong_counts() -> Vec<Named> {
    fn state(name: &str, bad: fn(&Call) -> bool) -> Named {
        tested(name, move |c, [a, b, d, e]| [a, b || bad(c), d, e])
    }
    vec![
        tested("the filled working records aren't tested", |c, [a, _, d, e]| {
            [a, unfinished(c) || above(c, UNCLAIMED), d, e]
        }),
        tested("the filled unclaimed records aren't tested", |c, [a, _, d, e]| {
            [a, unfinished(c) || above(c, WORKING), d, e]
        }),
        tested("one unclaimed record too many is taken", |c, [a, _, d, e]| {
            let unclaimed = u64::from(c.state[FILLED + 1]) > c.records(UNCLAIMED) as u64 + 1;
            [a, unfinished(c) || above(c, WORKING) || unclaimed, d, e]
        }),
        state("a full working list is 6", |c| c.filled() == c.records(WORKING)),
        state("a full unclaimed list is 6", |c| c.state[FILLED + 1] as usize == c.records(UNCLAIMED)),
        state("no boxes is 6", |c| c.filled() == 0),
        state("boxes begun are tested", |c| c.state[BEGUN] as usize > c.filled()),
        state("all boxes must be begun", |c| c.state[BEGUN] != c.state[FILLED]),
        state("no boxes begun is 6", |c| c.state[BEGUN] == 0 && c.filled() > 0),
        state("answered is tested", |c| u64::from(c.state[ANSWERED]) > 3 * u64::from(c.state[BEGUN])),
        tested("above the working list is 2", |c, [a, b, d, e]| [a || above(c, WORKING), b, d, e]),
        tested("above the unclaimed list is 2", |c, [a, b, d, e]| [a || above(c, UNCLAIMED), b, d, e]),
        tested("above the working list is 4", |c, [a, _, d, e]| {
            [a, unfinished(c) || above(c, UNCLAIMED), d || above(c, WORKING), e]
        }),
    ]
}

/// By another condition of 4
fn record_tested(name: &str, bad: impl Fn(&Call, bool) -> bool + 'static) -> Named {
    tested(name, move |c, [a, b, d, e]| [a, b, bad(c, d), e])
}

/// Which records are tested
fn wrong_records() -> Vec<Named> {
    fn unclaimed(c: &Call) -> impl Iterator<Item = &[u32]> {
        c.slices[UNCLAIMED].chunks_exact(CANDIDATE).take(c.state[FILLED + 1] as usize)
    }
    vec![
        record_tested("4 for the first record alone", |c, _| c.boxes().take(1).any(|r| bad_record(c, r))),
        record_tested("4 for all but the first", |c, _| c.boxes().skip(1).any(|r| bad_record(c, r))),
        record_tested("4 for all but the last", |c, _| c.boxes().rev().skip(1).any(|r| bad_record(c, r))),
        record_tested("4 for records that aren't filled", |c, _| {
            c.slices[WORKING].chunks_exact(CANDIDATE).any(|r| bad_record(c, r))
        }),
        record_tested("4 for one record behind the filled ones", |c, _| {
            c.slices[WORKING].chunks_exact(CANDIDATE).take(c.filled().saturating_add(1)).any(|r| bad_record(c, r))
        }),
        record_tested("4 for the unclaimed records too", |c, d| d || unclaimed(c).any(|r| bad_record(c, r))),
        record_tested("4 for the unclaimed records' layers too", |c, d| d || unclaimed(c).any(|r| r[LAYER] > 255)),
        record_tested("4 for the unclaimed records in place of the working ones", |c, _| {
            unclaimed(c).any(|r| bad_record(c, r))
        }),
        record_tested("4 isn't tested", |_, _| false),
    ]
}

/// Which nodes are good, and whether a record is told by its node alone
fn wrong_nodes() -> Vec<Named> {
    fn codes(r: &[u32]) -> bool {
        CODES.iter().any(|&(k, most)| r[k] > most)
    }
    vec![
        record_tested("4 for nodes alone", |c, _| c.boxes().any(|r| r[NODE] as usize >= c.records(STYLES))),
        record_tested("4 for layers alone", |c, _| c.boxes().any(|r| r[LAYER] > 255)),
        record_tested("4 for codes alone", |c, _| c.boxes().any(codes)),
        record_tested("a node of n is taken", |c, _| {
            c.boxes().any(|r| r[NODE] as usize > c.records(STYLES) || codes(r))
        }),
    ]
}

/// A filled record is bad, one code aside
fn bad_without(c: &Call, code: usize) -> bool {
    let bad = |r: &[u32]| CODES.iter().any(|&(k, most)| k != code && r[k] > most);
    c.boxes().any(|r| r[NODE] as usize >= c.records(STYLES) || bad(r))
}

/// Which layers are good
fn wrong_layers() -> Vec<Named> {
    fn layers(name: &str, change: fn(u32) -> u32) -> Named {
        changed(name, move |c| c.slices[WORKING].chunks_exact_mut(CANDIDATE).for_each(|r| r[LAYER] = change(r[LAYER])))
    }
    vec![
        record_tested("layer 255 is 4", |c, d| d || c.column(LAYER).contains(&255)),
        record_tested("layer 256 is taken", |c, d| d && (bad_without(c, LAYER) || c.boxes().any(|r| r[LAYER] > 256))),
        record_tested("layers from 128 on are 4", |c, d| d || c.boxes().any(|r| r[LAYER] > 127)),
        record_tested("layers with a sign", |c, d| {
            d && (bad_without(c, LAYER) || c.boxes().any(|r| r[LAYER] as i32 > 255))
        }),
        layers("the low byte of the layer", |layer| layer & 0xFF),
        layers("the low half of the layer", |layer| layer & 0xFFFF),
        layers("a higher layer is 255", |layer| layer.min(255)),
        layers("a NaN is layer 0", |layer| if f32::from_bits(layer).is_nan() { 0 } else { layer }),
    ]
}

/// Which codes are good
fn wrong_codes() -> Vec<Named> {
    let names =
        ["position", "edge across", "safety across", "fallback across", "edge down", "safety down", "fallback down"];
    let each = names.into_iter().chain(["layer"]).zip(CODES).flat_map(|(name, (code, most))| {
        let untested = record_tested(&format!("the {name} isn't tested"), move |c, _| bad_without(c, code));
        let less = move |c: &Call, d| d || c.boxes().any(|r| r[code] == most);
        [untested, record_tested(&format!("the greatest {name} is 4"), less)]
    });
    each.collect()
}

/// The order of the tests, and what is written in the slice and beside it
fn wrong_writes() -> Vec<Named> {
    vec![
        ordered(0, 1),
        ordered(0, 2),
        ordered(1, 2),
        filled_before(2),
        filled_before(6),
        filled_before(4),
        then("a refused slice is zeroed", |_, words, result| {
            if result != 0 {
                words.lent().fill(0)
            }
        }),
        then("a refusal writes its number", |_, words, result| {
            if result != 0 {
                words.fill(&[result])
            }
        }),
        then("the word behind the slice is written", |_, words, result| {
            let end = words.0.len() - MARGIN;
            words.0[end] ^= u32::from(result == 0)
        }),
        then("the word before the slice is written", |_, words, result| words.0[MARGIN - 1] ^= u32::from(result == 0)),
        then("the last word isn't written", |call, words, result| {
            if let Some(word) = words.lent().last_mut().filter(|_| result == 0) {
                *word = call.state[ANSWERED]
            }
        }),
        then("the first word isn't written", |call, words, result| {
            if let Some(word) = words.lent().first_mut().filter(|_| result == 0) {
                *word = call.state[ANSWERED]
            }
        }),
    ]
}

/// What else is written, and what is answered
fn wrong_answers() -> Vec<Named> {
    vec![
        then("the state is written", |call, _, result| call.state[BEGUN] ^= u32::from(result == 0)),
        then("a refused call closes the state", |call, _, result| {
            if result != 0 {
                call.state[PROGRESS] = 0
            }
        }),
        then("a layout is written", |call, _, result| {
            call.slices[LAYOUTS].iter_mut().take(1).for_each(|word| *word ^= u32::from(result == 0))
        }),
        then("the boxes are marked", |call, _, result| {
            call.slices[WORKING].iter_mut().skip(ORDER).take(1).for_each(|word| *word ^= u32::from(result == 0))
        }),
        then("a bad layer is mended", |call, _, result| {
            if result == 4 {
                call.slices[WORKING].chunks_exact_mut(CANDIDATE).for_each(|r| r[LAYER] = r[LAYER].min(255))
            }
        }),
        named("the boxes are counted", |call, words| match proved(call, words) {
            0 => call.state[FILLED],
            result => result,
        }),
        named("another refusal", |call, words| match proved(call, words) {
            4 => 3,
            result => result,
        }),
        named("nothing is refused", |call, words| answer(&Written(fill(call)), words)),
        named("everything is refused", |_, _| 2),
        named("a style is read", |call, words| match proved(call, words) {
            0 if call.slices[STYLES].first().is_some_and(|&tag| tag > 129) => 3,
            result => result,
        }),
    ]
}

// ---- the comparison

pub fn show(call: &Call) -> String {
    format!("{}, {} words lent, nodes {:?}, {}", call.show(), call.words, first(call, NODE), show_boxes(call))
}

/// A word of the working list's first records
pub fn first(call: &Call, word: usize) -> Vec<u32> {
    call.slices[WORKING].iter().skip(word).step_by(CANDIDATE).take(12).copied().collect()
}

/// Whether the entry does what the model says, and writes no word but the slice's.
fn compare(entry: &Entry, call: &Call, noise: u32) -> Result<Verdict, String> {
    let mut words = Words::new(call.words, noise);
    let (mut lent, mut filled) = (call.clone(), words.clone());
    let result = entry(&mut lent, &mut words);
    let wanted = model(call);
    if result != answer(&wanted, &mut filled) || words != filled {
        let words = &words.0[..words.0.len().min(24)];
        return Err(format!("{}: {result} {words:?}, not {wanted:?}", show(call)));
    }
    if lent != *call {
        return Err(format!("{}: a lent word is written", show(call)));
    }
    if let Written(with) = &wanted {
        assert!(holds(call, with), "the model is wrong: {}", show(call));
    }
    Ok(wanted)
}

/// Calls of a class, and how many there were.
type Class = (&'static str, u64);

/// Classes of calls, each of which must be met.
#[derive(Default)]
pub struct Figures {
    pub calls: u64,
    /// by the set of refusals whose conditions hold
    sets: [u64; 16],
    classes: Vec<Class>,
}

impl Figures {
    fn note(&mut self, call: &Call, verdict: &Verdict) {
        self.calls += 1;
        let reasons = reasons(call);
        self.sets[reasons.iter().enumerate().map(|(k, &holds)| usize::from(holds) << k).sum::<usize>()] += 1;
        let length = reasons == [true, false, false, false] && !bad_slices(call);
        let (words, needed) = (call.words, call.needed());
        let lengths = [
            ("a shorter slice", words < needed),
            ("a longer slice", words > needed),
            ("a slice of one word too many", words == needed + 1),
            ("a slice of one word too few", words + 1 == needed),
            ("an empty slice", words == 0),
        ];
        let lengths = lengths.map(|(name, holds)| (name, length && holds));
        for (k, (name, holds)) in lengths.into_iter().chain(classes(call, verdict)).enumerate() {
            if self.classes.len() == k {
                self.classes.push((name, 0));
            }
            self.classes[k].1 += u64::from(holds);
        }
    }

    /// A class that no call was of.
    fn missed(&self) -> Option<String> {
        let set = self.sets[..1 << TESTS].iter().position(|&n| n == 0).map(|set| format!("refusals {set:04b}"));
        set.or_else(|| self.classes.iter().find(|class| class.1 == 0).map(|class| class.0.to_string()))
    }

    /// How many there were of a class
    pub fn of(&self, name: &str) -> u64 {
        self.classes.iter().filter(|class| class.0 == name).map(|class| class.1).sum()
    }

    /// Accepted, and refused with each number
    pub fn verdicts(&self) -> [u64; 5] {
        let first =
            |k: usize| (1..16).filter(|set: &usize| set.trailing_zeros() as usize == k).map(|set| self.sets[set]).sum();
        [self.sets[0], first(0), first(1), first(2), first(3)]
    }

    /// Refused with 2 for the slice's length alone
    pub fn lengths(&self) -> u64 {
        self.of("a shorter slice") + self.of("a longer slice")
    }
}

pub struct Trial<'a> {
    pub entry: &'a Entry,
    pub random: Random,
    figures: Figures,
}

impl Trial<'_> {
    pub fn new(entry: &Entry, seed: u64) -> Trial<'_> {
        Trial { entry, random: Random::seeded(seed), figures: Figures::default() }
    }

    pub fn check(&mut self, call: &Call) -> Result<Verdict, String> {
        let verdict = compare(self.entry, call, self.random.word())?;
        self.figures.note(call, &verdict);
        Ok(verdict)
    }

    /// A call of which it is known, without the model, what comes out. Where the model says otherwise, neither is to be believed.
    pub fn known(&mut self, call: &Call, verdict: Verdict) -> Result<(), String> {
        assert_eq!(model(call), verdict, "{}", show(call));
        self.check(call).map(|_| ())
    }

    /// With what a changed call is refused is known too.
    pub fn expected(&mut self, call: &Call, refused: u32, change: &str) -> Result<(), String> {
        let number = match self.check(call)? {
            Written(_) => 0,
            Refused(number) => number,
        };
        assert_eq!(number, refused, "{change}: {}", show(call));
        Ok(())
    }

    /// Runs of which the words are known; other lengths of the slice, and every progress.
    pub fn rows(&mut self) -> Result<(), String> {
        for (call, words) in rows() {
            self.known(&call, Written(words.clone()))?;
            for lent in (0..words.len() + 4).filter(|&lent| lent != words.len()) {
                self.known(&Call { words: lent, ..call.clone() }, Refused(2))?;
            }
            for progress in 0..8 {
                let mut call = call.clone();
                call.state[PROGRESS] = progress;
                let verdict = if matches!(progress, 1..=5) { Refused(6) } else { Written(words.clone()) };
                self.known(&call, verdict)?;
                call.words += 1;
                self.known(&call, Refused(2))?;
            }
        }
        Ok(())
    }

    pub fn changes(&mut self) -> Result<(), String> {
        let pool = self.random.pool(8192);
        each_change(&kinds(), [24, 48], |change, name| {
            let mut call = random_call(&mut self.random, &pool);
            let refused = change(&mut call, &mut self.random);
            self.expected(&call, refused, name)
        })
    }

    fn random(&mut self, calls: u64) -> Result<(), String> {
        let (kinds, pool) = (kinds(), self.random.pool(8192));
        let most = (1 << kinds.len()) - 1;
        for _ in 0..calls {
            let mut call = random_call(&mut self.random, &pool);
            let chosen = match self.random.below(16) {
                0..10 => 0,
                10..15 => 1 + self.random.below(most),
                _ => {
                    call.forge(&mut self.random, KEPT);
                    if self.random.below(2) == 0 && call.filled() < 100 {
                        call.words = call.needed();
                    }
                    self.check(&call)?;
                    continue;
                }
            };
            let refused = self.random.change(&mut call, &kinds, chosen);
            self.expected(&call, refused, "random changes")?;
        }
        Ok(())
    }
}

/// Slices of 2^32 words and as many more as the boxes need, which no test of 32 bits tells from the right ones. Nothing may be read or
/// written there, so that a word that is ends this program by a fault, and no memory is taken.
fn longest_slices(rows: &[(Call, Vec<u32>)]) -> Result<(), String> {
    extern "C" {
        fn mmap(at: *mut u32, bytes: usize, rights: i32, flags: i32, file: i32, offset: i64) -> *mut u32;
    }
    const NO_RIGHTS: i32 = 0;
    const PRIVATE_ANONYMOUS: i32 = 0x22;
    let most = (1 << 32) + rows.iter().map(|(call, _)| call.needed()).max().unwrap_or(0);
    let lent = unsafe { mmap(std::ptr::null_mut(), 4 * most, NO_RIGHTS, PRIVATE_ANONYMOUS, -1, 0) };
    if lent as isize == -1 {
        return Err("no room for a slice of 2^32 words".to_string());
    }
    for (call, _) in rows {
        let result = called(call, lent, (1 << 32) + call.needed());
        if result != 2 {
            return Err(format!("{} and 2^32 words: {result}", show(call)));
        }
    }
    Ok(())
}

// ---- changes of a call

/// For which a call is refused with 2, but for those that add many words
pub fn other_extents() -> Vec<Change> {
    let before_layers: Vec<Change> = vec![("records of 13 words, recorded so", |c, r| {
        let k = WORKING + r.below(2);
        // 1 to 13 of them
        let records = c.records(k).clamp(1, 13);
        c.slices[k].resize(13 * records, 0);
        c.record_lengths();
    })];
    [other_lengths(), before_layers, other_lengths_recorded(), other_slices()].concat()
}

fn other_slices() -> Vec<Change> {
    fn boxes(c: &Call) -> usize {
        c.filled().min(5000)
    }
    vec![
        ("a shorter slice", |c, r| match boxes(c) {
            0 => c.words = 1,
            boxes => c.words = r.below((WORDS * boxes) as u32),
        }),
        ("a longer slice", |c, r| c.words = WORDS * boxes(c) + 1 + r.below(3) * r.below(20)),
        ("a slice of a word more", |c, _| c.words = WORDS * boxes(c) + 1),
        ("a slice of a word less", |c, _| c.words = (WORDS * boxes(c)).checked_sub(1).unwrap_or(1)),
        ("a candidate's words a box", |c, _| c.words = CANDIDATE * c.filled().clamp(1, 50)),
        ("a slice of 256 words more", |c, _| c.words = WORDS * boxes(c) + 256),
        ("a slice for the whole list", |c, _| {
            c.words = WORDS * (c.records(WORKING) + usize::from(c.records(WORKING) == c.filled()))
        }),
        ("a box more, without its words", |c, _| c.state[FILLED] = (c.words / WORDS) as u32 + 1),
        ("a box less, with its words", |c, _| c.state[FILLED] = ((c.words / WORDS) as u32).checked_sub(1).unwrap_or(1)),
        ("no box, with a slice", |c, r| {
            c.words = c.words.max(1);
            c.state[FILLED] = 0;
            c.state[PROGRESS] = r.word() % 7;
        }),
        ("the most boxes", |c, _| c.state[FILLED] = u32::MAX),
    ]
}

/// With 6
pub fn other_states() -> Vec<Change> {
    vec![
        ("unfinished", |c, r| c.state[PROGRESS] = 1 + r.word() % 5),
        ("unfinished, without boxes", |c, r| {
            c.count_boxes(0);
            c.state[PROGRESS] = 1 + r.word() % 5
        }),
        ("a box more than the list has", |c, _| c.count_boxes(c.records(WORKING) + 1)),
        ("more boxes than the list has", |c, r| c.count_boxes(c.records(WORKING) + 1 + r.below(40))),
        ("filled above the unclaimed list", |c, r| {
            c.state[FILLED + 1] = c.records(UNCLAIMED) as u32 + 1 + r.word() % 2
        }),
        ("the most unclaimed", |c, _| c.state[FILLED + 1] = u32::MAX),
        ("no records", |c, _| {
            c.count_boxes(c.filled().clamp(1, 5000));
            c.resize(WORKING, 0)
        }),
    ]
}

/// How many boxes there are; if there is none, one is filled
pub fn one_box(c: &mut Call) -> usize {
    if c.filled() == 0 {
        let records = c.records(WORKING).max(1);
        c.resize(WORKING, records);
        c.filled_record(0).fill(0);
        c.count_boxes(1);
    }
    c.filled()
}

/// If there is none, one is filled.
impl OneFilled for Call {
    fn one_filled(&mut self, random: &mut Random) -> &mut [u32] {
        let boxes = one_box(self);
        let k = random.below(boxes as u32);
        self.filled_record(k)
    }
}

/// With 4
pub fn other_records() -> Vec<Change> {
    let no_items: Vec<Change> = vec![("no items", |c, _| {
        one_box(c);
        c.resize(STYLES, 0);
        c.resize(LAYOUTS, 0);
    })];
    [bad_nodes_and_codes(), high_layers(), other_ends(), no_items].concat()
}

fn high_layers() -> Vec<Change> {
    vec![
        ("layer 256", |c, r| c.one_filled(r)[LAYER] = 256),
        ("a layer whose low byte is good", |c, r| {
            let layer = &mut c.one_filled(r)[LAYER];
            *layer = *layer & 0xFF | 1 << (8 + r.below(24));
        }),
        ("any layer above 255", |c, r| c.one_filled(r)[LAYER] = r.word().max(256)),
        ("no layer at all", |c, r| c.one_filled(r)[LAYER] = r.pick(&[0x7FC0_0000, 0x7FC0_0001, 1 << 31, u32::MAX])),
    ]
}

/// Bad records at the first and at the last place
fn other_ends() -> Vec<Change> {
    vec![
        ("a high layer at the first place", |c, _| {
            one_box(c);
            c.filled_record(0)[LAYER] = 256
        }),
        ("a high layer at the last place", |c, _| {
            let last = one_box(c) - 1;
            c.filled_record(last)[LAYER] = 256
        }),
        ("a bad code at the first place", |c, r| {
            one_box(c);
            let (k, most) = r.pick(&CODES);
            c.filled_record(0)[k] = most + 1
        }),
        ("a bad code at the last place", |c, r| {
            let last = one_box(c) - 1;
            let (k, most) = r.pick(&CODES);
            c.filled_record(last)[k] = most + 1
        }),
    ]
}

/// Changes that no such part notices: the tally's length, progress and counts
pub fn other_counts() -> Vec<Change> {
    let own: Vec<Change> = vec![
        ("none", |_, _| ()),
        ("a progress above 5", |c, r| c.state[PROGRESS] = r.pick(&[6, 7, 256, 257, 1 << 31, u32::MAX])),
        ("any count of boxes begun and answered", |c, r| {
            let (k, filled) = (r.below(2), c.state[FILLED]);
            c.state[BEGUN + k] = r.pick(&[0, 1, 7, filled, filled + 1, 99, u32::MAX]);
        }),
    ];
    [other_tallies(), own].concat()
}

pub fn other_styles() -> Vec<Change> {
    vec![("styles", |c, r| c.slices[STYLES].fill(r.pick(&[0, 1, 2, 385, u32::MAX])))]
}

/// Records that aren't read, and words of others that aren't
pub fn unread_records() -> Vec<Change> {
    fn not_filled(c: &mut Call) -> impl Iterator<Item = &mut [u32]> {
        let filled = c.filled();
        c.slices[WORKING].chunks_exact_mut(CANDIDATE).skip(filled)
    }
    vec![
        ("records that aren't filled", |c, r| not_filled(c).for_each(|record| record.fill(r.word() | 1 << 20))),
        ("layers that aren't filled", |c, r| not_filled(c).for_each(|record| record[LAYER] = r.word() % 300)),
        ("unclaimed records", |c, r| c.slices[UNCLAIMED].fill(r.word() | 1 << 20)),
        ("unclaimed layers", |c, r| {
            c.slices[UNCLAIMED].chunks_exact_mut(CANDIDATE).for_each(|record| record[LAYER] = 255 + r.word() % 3)
        }),
        ("a full unclaimed list", |c, _| c.state[FILLED + 1] = c.records(UNCLAIMED) as u32),
        ("candidates' orders and areas", |c, r| {
            let (k, word) = (r.pick(&[1, 3, 4, 8, 9]), r.pick(&[0, 0x3D80_0000, 0x7FC0_0000, u32::MAX]));
            c.slices[WORKING].chunks_exact_mut(CANDIDATE).for_each(|record| record[k] = word);
        }),
    ]
}

/// Layers picked from these for all boxes
fn layers(c: &mut Call, r: &mut Random, of: &[u32]) {
    let filled = c.filled();
    c.slices[WORKING].chunks_exact_mut(CANDIDATE).take(filled).for_each(|record| record[LAYER] = r.pick(of));
}

pub fn other_layers() -> Vec<Change> {
    vec![
        ("one layer", |c, r| {
            let layer = r.word() % 256;
            layers(c, r, &[layer])
        }),
        ("the lowest layer and the highest", |c, r| layers(c, r, &[0, 255])),
        ("the highest layers", |c, r| layers(c, r, &[253, 254, 255])),
        ("layers that differ in one bit", |c, r| {
            let layer = r.word() % 256;
            let bit = 1 << r.below(8);
            layers(c, r, &[layer, layer ^ bit])
        }),
    ]
}

/// Other boxes and lists, for which an accepted call is still accepted
pub fn other_boxes() -> Vec<Change> {
    vec![
        ("one node", |c, r| {
            let (node, filled) = (r.below(c.records(STYLES) as u32) as u32, c.filled());
            c.slices[WORKING].chunks_exact_mut(CANDIDATE).take(filled).for_each(|record| record[NODE] = node);
        }),
        ("no boxes", |c, _| c.count_boxes(0)),
        ("no boxes, no lists", |c, _| {
            c.count_boxes(0);
            c.state[FILLED + 1] = 0;
            c.resize(WORKING, 0);
            c.resize(UNCLAIMED, 0);
        }),
        ("a box less", |c, _| c.count_boxes(c.filled().saturating_sub(1))),
        ("a record more, recorded so", |c, r| c.lengthen(2 + r.below(2))),
        ("a full list", |c, _| c.fit()),
    ]
}

/// These add 50,000 words or more
pub fn large_lists() -> Vec<Change> {
    fn fill(c: &mut Call, boxes: usize, records: usize) {
        c.resize(WORKING, records);
        c.slices[WORKING].fill(0);
        c.count_boxes(boxes);
    }
    vec![
        ("1,024 items, of which the last is claimed", |c, _| {
            c.resize(STYLES, 1024);
            c.resize(LAYOUTS, 1024);
            if c.filled() > 0 {
                let node = c.filled_record(0)[NODE] as usize;
                c.slices[LAYOUTS].copy_within(LAYOUT * node..LAYOUT * (node + 1), LAYOUT * 1023);
                c.filled_record(0)[NODE] = 1023
            }
        }),
        ("4,096 records", |c, r| c.resize(2 + r.below(2), 4096)),
        ("4,096 filled ones", |c, r| {
            let of = r.layers();
            fill(c, 4096, 4096);
            layers(c, r, &of);
        }),
        ("some hundred boxes", |c, r| {
            let (of, boxes) = (r.layers(), 200 + r.below(400));
            fill(c, boxes, boxes + r.below(3));
            layers(c, r, &of);
        }),
    ]
}

// ---- random calls

impl Random {
    /// Layers to pick from: few, or all, at any place
    pub fn layers(&mut self) -> Vec<u32> {
        let (count, from) = (self.pick(&[1, 2, 2, 3, 3, 4, 8, 16, 256]), self.pick(&[0, 0, 1, 126, 128, 248, 255]));
        match self.below(3) {
            0 => (0..count).map(|_| self.word() % 256).collect(),
            _ => (from..from + count).map(|layer| layer % 256).collect(),
        }
    }

    /// A finished run over so many items with so many boxes. Where a word has no rule, it is any.
    pub fn finished(&mut self, pool: &[u32], n: usize, boxes: usize) -> Call {
        let records = [n, n, boxes + self.below(3), self.below(3)];
        let slices = std::array::from_fn(|k| self.noise(pool, records[k] * WIDTHS[k]));
        let state = self.noise(pool, STATE).try_into().expect("a state's words");
        let mut call = Call::new(slices, state);
        for record in call.slices[WORKING].chunks_exact_mut(CANDIDATE).take(boxes) {
            record[NODE] %= n as u32;
            CODES.iter().for_each(|&(k, most)| record[k] %= most + 1);
        }
        call.state[FILLED + 1] %= records[UNCLAIMED] as u32 + 1;
        call.count_boxes(boxes);
        call
    }
}

// ---- the run

/// What a wrong entry is tried with, until it is found out.
fn hunt(entry: &Entry) -> Result<(), String> {
    let mut trial = Trial::new(entry, 1);
    trial.random(2_000)?;
    directed(&mut trial)?;
    trial.random(20_000)
}

pub fn run(thousands: u64, seed: u64) -> Result<String, String> {
    let wrong = wrong();
    find_out(&wrong, hunt)?;
    longest_slices(&rows())?;
    let entry: Entry = Box::new(proved);
    let mut trial = Trial::new(&entry, seed);
    directed(&mut trial)?;
    let tried = trial.figures.calls;
    trial.random(thousands * 1000)?;
    let f = trial.figures;
    if let Some(class) = f.missed() {
        return Err(format!("seed {seed}: no call of the class: {class}"));
    }
    let calls = format!("{tried} directed calls and {} random ones", f.calls - tried);
    Ok(format!("seed {seed}: {calls}, {}: no difference; {} wrong entries found out", figures(&f), wrong.len()))
}
