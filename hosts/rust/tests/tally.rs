//! How many questions are answered for each item: typed runs beside the calls that the host counts, and words.
mod common;
use common::Words;
use oof::ffi::{self, state, Reply};
use oof::words::style;
use oof::*;

const FONT: Size<f32> = Size { width: 120.0, height: 18.0 };

/// Counts its calls by item. Surfaces these candidates from the first box that it lays out
struct Counting {
    calls: Vec<u32>,
    surface: Vec<Candidate>,
}
impl Host for Counting {
    fn measure_both(&mut self, node: NodeId, _: Size<Option<f32>>, _: Size<AvailableSpace>) -> Size<f32> {
        self.calls[node as usize] += 1;
        FONT
    }
    fn lay_out(&mut self, node: NodeId, _: Size<f32>, _: Size<AvailableSpace>) -> LaidOut {
        self.calls[node as usize] += 1;
        LaidOut { surfaced: std::mem::take(&mut self.surface), ..LaidOut::default() }
    }
}

fn panel() -> Area {
    Area { size: Size { width: 800.0, height: 480.0 }, ..Area::default() }
}
fn sized(width: Dimension, height: Dimension) -> Style {
    Style { size: Size { width, height }, ..Style::default() }
}
fn of(node: NodeId) -> Candidate {
    Candidate { node, ..Candidate::default() }
}
/// The placement, whose tally is what the host counted, and adds up to the count of questions
fn place(styles: &[Style], candidates: &[Candidate], surface: Vec<Candidate>) -> Placed {
    let mut host = Counting { calls: vec![0; styles.len()], surface };
    let placed = compute_oof_layout_for_area(&mut host, &panel(), styles, candidates).unwrap();
    assert_eq!(placed.tally, host.calls);
    assert_eq!(placed.tally.iter().sum::<u32>() as usize, placed.questions);
    placed
}

/// Given sizes: lay out alone; auto: one measurement more; a width by a keyword beside an auto height: two more; not placed: none
#[test]
fn by_item() {
    use Dimension::*;
    let styles = [
        sized(Length(320.0), Length(24.0)),
        sized(Auto, Auto),
        sized(MinContent, Auto),
        sized(MinContent, MaxContent),
        sized(MinContent, Auto),
    ];
    let placed = place(&styles, &[of(2), of(0), of(1), of(3)], vec![]);
    assert_eq!((placed.tally, placed.questions), (vec![1, 2, 3, 2, 0], 8));
}

/// An item that is claimed twice has the questions of both its boxes, also where the second one surfaced
#[test]
fn claimed_twice() {
    let styles = [sized(Dimension::Auto, Dimension::Auto), sized(Dimension::FitContent, Dimension::Length(24.0))];
    assert_eq!(place(&styles, &[of(0), of(1), of(0)], vec![]).tally, [4, 2]);
    assert_eq!(place(&styles, &[of(0)], vec![of(0), of(1)]).tally, [4, 2]);
    let sticky = Candidate { position: Position::Sticky, ..of(1) }; // not claimed
    assert_eq!(place(&styles, &[of(0)], vec![sticky]).tally, [2, 0]);
}

/// Every two sizes of two items beside one another
#[test]
fn as_the_host_counts() {
    use Dimension::*;
    let sizes = [Auto, Length(30.0), Percent(0.5), MinContent, MaxContent, FitContent, Stretch];
    let all: Vec<Style> = sizes.iter().flat_map(|&w| sizes.iter().map(move |&h| sized(w, h))).collect();
    for first in &all {
        for second in &all {
            let placed = place(&[*first, *second], &[of(1), of(0)], vec![of(1)]);
            assert!(placed.tally[1] >= 2 && placed.tally[1] == 2 * place(&[*second], &[of(0)], vec![]).tally[0]);
        }
    }
}

#[test]
fn without_boxes() {
    assert_eq!(place(&[Style::default(); 3], &[], vec![]).tally, [0, 0, 0]);
    assert_eq!(place(&[], &[], vec![]).tally, []);
}

/// A run by words: two items, and lists of two records
fn words() -> Words {
    Words::over([Style::default(); 2].iter().flat_map(Style::to_words).collect(), 2)
}
const BOTH: Reply = Reply::Both(120.0, 18.0);
const LAID: Reply = Reply::LaidOut([0.0; 4]);

impl Words {
    fn open(&mut self, candidates: &[Candidate]) -> Option<Refusal> {
        let candidates: Vec<u32> = candidates.iter().flat_map(Candidate::to_words).collect();
        Refusal::from_number(ffi::open([800.0, 480.0, 0.0, 0.0], [0, 3, 0, 0], &candidates, &mut self.lent()))
    }
    /// An accepted reply; the two words of the tally, which add up to the questions answered
    fn reply(&mut self, reply: Reply) -> [u32; 2] {
        assert_eq!(ffi::reply(reply, &[], &mut self.lent()), 0);
        self.counts()
    }
    fn counts(&self) -> [u32; 2] {
        let counts = [self.tally[0], self.tally[1]];
        assert_eq!(counts[0] + counts[1], self.state[state::ANSWERED]);
        counts
    }
    /// A refused reply, which writes nothing
    fn refuses(&mut self, reply: Reply, surfaced: &[Candidate], refusal: Refusal) {
        let (before, surfaced) = (self.clone(), surfaced.iter().flat_map(Candidate::to_words).collect::<Vec<_>>());
        assert_eq!(Refusal::from_number(ffi::reply(reply, &surfaced, &mut self.lent())), Some(refusal));
        assert_eq!(*self, before);
    }
}

/// Of two items: two words, at the opening and after it
#[test]
fn other_lengths() {
    for length in [0, 1, 3] {
        let mut w = words();
        w.tally.resize(length, 7);
        assert_eq!(w.open(&[of(0)]), Some(Refusal::BadExtent), "{length} words");
        assert_eq!(w.tally, [words().tally, vec![7]].concat()[..length], "{length} words");
        w.tally.resize(2, 7); // as many as there are items, and not as many as at the opening
        w.refuses(BOTH, &[], Refusal::BadExtent);
        assert_eq!(w.open(&[of(0)]), None);
        w.tally.resize(length, 0);
        w.refuses(BOTH, &[], Refusal::BadExtent);
        w.tally.resize(2, 0);
        assert_eq!(w.reply(BOTH), [1, 0]);
    }
}

/// Above the questions answered as they stand before the reply
#[test]
fn words_above() {
    let mut w = words();
    assert_eq!((w.open(&[of(0)]), w.counts()), (None, [0, 0]));
    w.tally[1] = 1;
    w.refuses(BOTH, &[], Refusal::WrongReply);
    w.tally[1] = 0;
    assert_eq!(w.reply(BOTH), [1, 0]);
    w.tally[1] = 2;
    w.refuses(LAID, &[], Refusal::WrongReply);
    w.tally[1] = 1; // not above
    assert_eq!(ffi::reply(LAID, &[], &mut w.lent()), 0);
    assert_eq!((w.tally, w.state[state::ANSWERED]), (vec![2, 1], 2));
}

/// 1 before another length of the tally, that before styles; a word above after other lengths, before styles
#[test]
fn in_order() {
    let mut w = words();
    w.tally.clear();
    w.styles[style::CONTAIN] = 256;
    assert_eq!(w.open(&[]), Some(Refusal::BadExtent));
    assert_eq!(ffi::open([800.0, 480.0, 0.0, 0.0], [2, 3, 0, 0], &[], &mut w.lent()), Refusal::BadArea.number());

    let mut w = words();
    assert_eq!(w.open(&[of(0)]), None);
    w.tally[1] = 1;
    w.styles[style::CONTAIN] = 256;
    w.refuses(BOTH, &[], Refusal::WrongReply);
    w.layouts.push(0);
    w.refuses(BOTH, &[], Refusal::BadExtent);
}

/// The box whose question is open, by its record as it is then
#[test]
fn charged_boxes() {
    let mut w = words();
    assert_eq!(w.open(&[of(0), of(1)]), None);
    w.working[0] = 1;
    assert_eq!(w.reply(BOTH), [0, 1]);

    let mut w = words();
    assert_eq!((w.open(&[of(0), of(1)]), w.reply(BOTH)), (None, [1, 0]));
    w.refuses(LAID, &[of(0)], Refusal::ListFull);
    assert_eq!(w.reply(LAID), [2, 0]); // the box laid out, and not the next one
    assert_eq!((w.reply(BOTH), w.reply(LAID)), ([2, 1], [2, 2]));
    assert_eq!((w.answer[0], w.answer[1]), (0, 4));

    // what an opening does: it is refused and leaves the words, or clears them, also where it finishes at once
    assert_eq!((w.open(&[of(0); 3]), w.tally.clone()), (Some(Refusal::ListFull), vec![2, 2]));
    w.styles[style::CONTAIN] = 256;
    assert_eq!((w.open(&[]), w.tally.clone()), (Some(Refusal::BadStyle), vec![2, 2]));
    w.styles[style::CONTAIN] = 0;
    assert_eq!((w.open(&[]), w.counts(), w.answer[0]), (None, [0, 0], 0));
}
