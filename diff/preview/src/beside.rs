//! One call of a preview beside that of the run over a copy of the table.
use crate::call::{Asked, Call, Entry, First};
use crate::order::{self, Reasons};
use crate::seen::Seen;
use oracle::case::{CANDIDATE, STYLE};
use oracle::run::Kind;
use runs::model;
use runs::words::{Library, Words};

/// What differs, in words for a reader
pub type Difference = String;

/// The library's live entries
pub fn live(asked: Asked, words: &mut Words) -> u32 {
    match asked {
        None => Library::default().open(words),
        Some(said) => Library::default().reply(said, words),
    }
}

/// A call of a run over another table: its result, and the words that it leaves, with the live table
pub fn over(table: Vec<u32>, asked: Asked, call: &Call) -> (u32, Words) {
    let mut words = call.words.clone();
    words.styles = table;
    let result = live(asked, &mut words);
    words.styles.clone_from(&call.words.styles);
    (result, words)
}

/// A refused call leaves every word, an opening but for its state
pub fn refused(asked: Asked, call: &Call, number: u32) -> (u32, Words) {
    let mut words = call.words.clone();
    if asked.is_none() {
        words.state = model::closed(&words);
    }
    (number, words)
}

/// What the call must answer: what the run over the copy does, or the refusal that comes before. The table of refusals says the number too.
pub fn wanted(asked: Asked, call: &Call, reasons: Reasons) -> Result<(u32, Words), Difference> {
    let number = reasons.number();
    let by_live = match reasons.first() {
        Some(first) if !first.is_of_copy() => {
            let wanted = refused(asked, call, number);
            // where what a run lends is refused so, whatever the table's words
            let by_live = match first {
                order::Reason::Area | order::Reason::Extents => over(call.words.styles.clone(), asked, call),
                _ => wanted.clone(),
            };
            if by_live != wanted {
                return Err(format!("the live entry answers {}, by the table of refusals {number}", by_live.0));
            }
            by_live
        }
        _ => over(order::copy(call).expect("a copy"), asked, call),
    };
    if by_live.0 != number {
        return Err(format!("the run over the copy answers {}, by the table of refusals {number}", by_live.0));
    }
    Ok(by_live)
}

/// Makes the call, and holds every word to what is wanted. Answers the refusal's number, or 0.
pub fn held(entry: &Entry, asked: Asked, call: &mut Call, first: &First, seen: &mut Seen) -> Result<u32, Difference> {
    let before = call.clone();
    let reasons = order::reasons(asked, &before);
    let (number, words) = wanted(asked, &before, reasons)?;
    let result = entry(asked, call, first);
    let told = |what: String| Err(format!("{}: {what}\n{}", name(asked), show(&before)));
    if result != number {
        return told(format!("result {result}, not {number}"));
    }
    if let Some(what) = difference(&call.words, &words) {
        return told(what);
    }
    if (&call.node, &call.style) != (&before.node, &before.style) {
        return told("the replacement was written".to_string());
    }
    note(asked, &before, (number, &words), reasons, first, seen);
    Ok(number)
}

pub fn name(asked: Asked) -> String {
    asked.map_or("an opening".to_string(), |said| format!("{said:?}"))
}

/// The first word that differs
pub fn difference(words: &Words, wanted: &Words) -> Option<String> {
    let lists: [(&str, &[u32], &[u32]); 9] = [
        ("answer", &words.answer, &wanted.answer),
        ("state", &words.state, &wanted.state),
        ("layouts", &words.layouts, &wanted.layouts),
        ("working", &words.working, &wanted.working),
        ("unclaimed", &words.unclaimed, &wanted.unclaimed),
        ("tally", &words.tally, &wanted.tally),
        ("table", &words.styles, &wanted.styles),
        ("candidates", &words.candidates, &wanted.candidates),
        ("area", &words.area, &wanted.area),
    ];
    lists.into_iter().find_map(|(name, words, wanted)| {
        if words.len() != wanted.len() {
            return Some(format!("{name} has {} words, not {}", words.len(), wanted.len()));
        }
        let at = (0..words.len()).find(|&at| words[at] != wanted[at])?;
        Some(format!("{name} word {at} is {:08x}, not {:08x}", words[at], wanted[at]))
    })
}

/// A call, for a reader
fn show(call: &Call) -> String {
    let Call { words: w, node, style } = call;
    let lengths = model::lengths(w);
    if w.styles.len() > 4 * STYLE {
        return format!("node {node}, a replacement of {} words; lengths {lengths:?}", style.len());
    }
    format!(
        "area {:x?}, node {node}, replacement {style:x?}\ntable {:x?}\ncandidates {:x?}\nstate {:x?}\nlengths {lengths:?}, working {:x?}",
        w.area, w.styles, w.candidates, w.state, w.working
    )
}

/// Which classes an accepted or refused call is of
fn note(asked: Asked, call: &Call, (number, words): (u32, &Words), reasons: Reasons, first: &First, seen: &mut Seen) {
    seen.calls[usize::from(asked.is_some())] += 1;
    seen.refused(asked.is_none(), reasons);
    note_arguments(call, number, seen);
    if number != 0 {
        return;
    }
    let broken = is_broken(call);
    match asked {
        None => {
            seen.note("an opening, accepted", true);
            seen.note("a finish without a question", words.answer[0] == 0);
            seen.note("a broken live record, replaced: an accepted opening", broken);
        }
        Some(said) => {
            let class = match said.kind {
                Kind::Both => "a reply to a question of both sizes, accepted",
                Kind::Width => "a reply to a question of a width, accepted",
                Kind::Height => "a reply to a question of a height, accepted",
                Kind::LayOut => "a reply to a lay out question, accepted",
            };
            seen.note(class, true);
            let surfaced = said.kind == Kind::LayOut && !said.surfaced.is_empty();
            seen.note("a lay out reply that surfaces records, accepted", surfaced);
            seen.note("a broken live record, replaced: an accepted reply", broken);
            note_changed(asked, call, words, first, seen);
        }
    }
    let other = over(call.words.styles.clone(), asked, call) != (0, words.clone());
    let class = match asked {
        None => "an accepted opening that the live table would answer otherwise",
        Some(_) => "an accepted reply that the live table would answer otherwise",
    };
    seen.note(class, other && !broken);
}

/// The record of the table that the replacement stands for breaks a rule
pub fn is_broken(call: &Call) -> bool {
    let mut records = call.words.styles.chunks_exact(STYLE);
    records.nth(call.node as usize).is_some_and(model::bad_style)
}

/// Other arguments than at the opening
fn note_changed(asked: Asked, call: &Call, words: &Words, first: &First, seen: &mut Seen) {
    let (node, style) = first;
    if (node, style) == (&call.node, &call.style) {
        return;
    }
    let with_first = Call { words: call.words.clone(), node: *node, style: style.clone() };
    let table = order::copy(&with_first).expect("the opening's copy");
    let other = over(table, asked, call) != (0, words.clone());
    if *node != call.node {
        seen.note("another node at a later call, accepted", true);
        seen.note("another node at a later call, accepted and otherwise than with the first", other);
    } else {
        seen.note("another replacement at a later call, accepted", true);
        seen.note("another replacement at a later call, accepted and otherwise than with the first", other);
    }
}

fn note_arguments(call: &Call, number: u32, seen: &mut Seen) {
    let (w, node) = (&call.words, call.node as usize);
    let items = w.styles.len() / STYLE;
    seen.note("a table without items, refused 4", w.styles.is_empty() && number == 4);
    seen.note("node n", node == items);
    seen.note("a node above n", node > items);
    seen.note("node 2 ^ 32 - 1", call.node == u32::MAX);
    seen.note("a replacement of no word", call.style.is_empty());
    seen.note("a replacement of 78 words", call.style.len() == 78);
    seen.note("a replacement of 80 words", call.style.len() == 80);
    seen.note("a replacement of 158 words", call.style.len() == 158);
    seen.note("a table of 1,024 items", items == 1024 && number == 0);
    let named = w.candidates.chunks(CANDIDATE).any(|record| record[0] == call.node);
    let broken = order::is_record(&call.style) && model::bad_style(&call.style);
    seen.note("a broken replacement that no candidate names, refused 3", broken && !named && number == 3);
    if number == 0 {
        let live = w.styles.chunks_exact(STYLE).nth(node);
        seen.note("the live record as its own replacement, accepted", live == Some(&call.style[..]));
        let floats = (0..22).flat_map(|length| [3 * length + 1, 3 * length + 2]).chain([67, 77]);
        let nans = floats.into_iter().all(|word| f32::from_bits(call.style[word]).is_nan());
        seen.note("a replacement without numbers, accepted", nans);
    }
}
