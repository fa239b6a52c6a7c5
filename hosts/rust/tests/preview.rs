//! Another style tried for one node: typed previews beside placements over a copy of the table, and words.
mod common;
use common::Words;
use oof::ffi::{self, state, Replacement, Reply};
use oof::words::{style, CANDIDATE, LAYOUT, STYLE};
use oof::*;

/// Keeps what it is asked, and answers by that; surfaces a candidate from the first box that it lays out
#[derive(Default)]
struct Asked {
    measured: Vec<(NodeId, Size<Option<f32>>, Size<AvailableSpace>)>,
    laid_out: Vec<(NodeId, Size<f32>)>,
}
impl Host for Asked {
    fn measure_both(&mut self, node: NodeId, known: Size<Option<f32>>, space: Size<AvailableSpace>) -> Size<f32> {
        self.measured.push((node, known, space));
        let width = match space.width {
            AvailableSpace::Definite(width) => width.min(120.0),
            AvailableSpace::MinContent => 30.0,
            AvailableSpace::MaxContent => 120.0,
        };
        Size { width, height: 18.0 + node as f32 }
    }
    fn lay_out(&mut self, node: NodeId, size: Size<f32>, _: Size<AvailableSpace>) -> LaidOut {
        self.laid_out.push((node, size));
        let surfaced = if self.laid_out.len() == 1 { vec![of(0)] } else { vec![] };
        LaidOut { overflow: Rect { right: size.width, ..Rect::default() }, surfaced }
    }
}

fn panel() -> Area {
    let overflow = Point { x: Overflow::Hidden, y: Overflow::Hidden };
    Area { size: Size { width: 400.0, height: 240.0 }, offset: Point { x: 8.0, y: 16.0 }, overflow, ..Area::default() }
}
fn of(node: NodeId) -> Candidate {
    Candidate { node, ..Candidate::default() }
}
fn at(x: f32, y: f32) -> Style {
    let px = LengthPercentageAuto::Length;
    Style { inset: Rect { left: px(x), top: px(y), ..Rect::AUTO }, ..Style::default() }
}
/// Styles of all kinds of sizes and insets
fn styles() -> Vec<Style> {
    use Dimension::*;
    let sizes = [Auto, Length(30.0), Percent(0.5), MinContent, MaxContent, FitContent, Stretch];
    let boxes = sizes.iter().flat_map(|&width| sizes.iter().map(move |&height| Size { width, height }));
    boxes.zip(0..).map(|(size, k)| Style { size, ..at(7.0 * (k % 5) as f32, 50.0 - k as f32) }).collect()
}
fn placed(styles: &[Style], candidates: &[Candidate]) -> (Placed, Asked) {
    let mut host = Asked::default();
    (compute_oof_layout_for_area(&mut host, &panel(), styles, candidates).unwrap(), host)
}
fn tried(styles: &[Style], node: NodeId, style: &Style, candidates: &[Candidate]) -> (Placed, Asked) {
    let mut host = Asked::default();
    (preview(&mut host, &panel(), styles, node, style, candidates).unwrap(), host)
}

/// Each style in the place of each: the placement over the copy, with the same questions
#[test]
fn as_over_a_copy() {
    let all = styles();
    let mut other = 0;
    for (k, style) in all.iter().enumerate() {
        for (node, j) in (0..3).zip(k + 1..) {
            let table = [all[j % 49], all[(5 * j) % 49], all[(11 * j) % 49]];
            let mut copy = table;
            copy[node as usize] = *style;
            let candidates = [of(2), of(node), of(0)];
            let (expected, asked) = placed(&copy, &candidates);
            let (placed_so, said) = tried(&table, node, style, &candidates);
            assert_eq!(placed_so, expected, "{k}, node {node}");
            assert_eq!((said.measured, said.laid_out), (asked.measured, asked.laid_out), "{k}, node {node}");
            assert_eq!(placed_so.tally.iter().sum::<u32>() as usize, placed_so.questions);
            other += u32::from(placed(&table, &candidates).0 != placed_so);
        }
    }
    assert!(other > 100);
}

/// Of a node that isn't claimed, and of its own style: the live placement
#[test]
fn that_changes_nothing() {
    let table = [at(1.0, 2.0), at(3.0, 4.0)];
    let (live, _) = placed(&table, &[of(0)]);
    assert_eq!(tried(&table, 1, &at(50.0, 60.0), &[of(0)]).0, live);
    assert_eq!(tried(&table, 0, &table[0], &[of(0)]).0, live);
}

/// Tries a style while it is asked: the live placement goes on as it would
struct Trying<'a> {
    asked: Asked,
    table: &'a [Style],
    tried: Vec<Placed>,
}
impl Host for Trying<'_> {
    fn measure_both(&mut self, node: NodeId, known: Size<Option<f32>>, space: Size<AvailableSpace>) -> Size<f32> {
        self.tried.push(tried(self.table, node, &at(90.0, 80.0), &[of(0), of(1), of(2)]).0);
        self.asked.measure_both(node, known, space)
    }
    fn lay_out(&mut self, node: NodeId, size: Size<f32>, space: Size<AvailableSpace>) -> LaidOut {
        self.tried.push(tried(self.table, node, &at(90.0, 80.0), &[of(0), of(1), of(2)]).0);
        self.asked.lay_out(node, size, space)
    }
}
#[test]
fn beside_a_live_placement() {
    let table = [at(10.0, 20.0), at(20.0, 30.0), at(30.0, 40.0)];
    let candidates = [of(0), of(1), of(2)];
    let (alone, asked) = placed(&table, &candidates);
    let mut host = Trying { asked: Asked::default(), table: &table, tried: vec![] };
    let live = compute_oof_layout_for_area(&mut host, &panel(), &table, &candidates).unwrap();
    assert_eq!((live, &host.asked.measured), (alone.clone(), &asked.measured));
    assert_eq!(host.tried.len(), alone.questions);
    for (placed, node) in host.tried.iter().zip([0, 0, 1, 1, 2, 2, 0, 0]) {
        let moved = |other: NodeId| placed.layouts[other as usize] != alone.layouts[other as usize];
        assert_eq!([moved(0), moved(1), moved(2)], [node == 0, node == 1, node == 2]);
        assert_eq!(placed.layouts[node as usize].unwrap().location, Point { x: 98.0, y: 96.0 });
    }
}

/// A preview is read as a placement is: here the style would put the box where no scrolling goes, over another's place
#[test]
fn read_as_a_placement() {
    let table = [at(10.0, 20.0), at(20.0, 30.0)];
    let candidates = [Candidate { layer: 1, ..of(1) }, Candidate { layer: 0, ..of(0) }];
    let (live, _) = placed(&table, &candidates);
    let (away, _) = tried(&table, 1, &at(-121.0, 30.0), &candidates);
    assert_eq!(live.reach(0), Ok(Reach::Seen { x_eighths: 0, y_eighths: 0 }));
    assert_eq!(away.reach(0), Ok(Reach::Unseen));
    assert_eq!(away.drawing_order(), live.drawing_order());
    assert_eq!(away.touch().unwrap()[0].edges, Rect { left: -121, right: -1, top: 30, bottom: 49 });
    assert_eq!(away.pixels(&panel()).len(), 2);
    let (half, _) = tried(&table, 1, &at(0.0625, 30.0), &candidates);
    assert_eq!((half.touch(), half.reach(0)), (Err(Refusal::NotInEighths), Err(Refusal::NotInEighths)));
    assert!(live.touch().is_ok());
}

#[test]
fn refusals() {
    let mut host = Asked::default();
    let style = at(1.0, 2.0);
    let mut refused = |styles: &[Style], node, candidates: &[Candidate], room| {
        preview_with(&mut host, &panel(), styles, node, &style, candidates, room).err()
    };
    let two = [style; 2];
    for node in [2, 3, 256, 65_536, 0x4000_0000, u32::MAX] {
        assert_eq!(refused(&two, node, &[], Room::MOST), Some(Refusal::BadCandidate));
        assert_eq!(refused(&[], node, &[], Room::MOST), Some(Refusal::BadCandidate));
        assert_eq!(refused(&vec![style; 1025], node, &[], Room::MOST), Some(Refusal::BadExtent));
    }
    assert_eq!(refused(&[], 0, &[], Room::MOST), Some(Refusal::BadCandidate));
    assert_eq!(refused(&two, 1, &[], Room::MOST), None);
    assert_eq!(refused(&two, 1, &[of(2)], Room::MOST), Some(Refusal::BadCandidate));
    let room = |working, unclaimed| Room { working, unclaimed };
    assert_eq!(refused(&two, 2, &[of(0), of(1)], room(1, 0)), Some(Refusal::BadCandidate));
    assert_eq!(refused(&two, 1, &[of(0), of(1)], room(1, 0)), Some(Refusal::ListFull));
    assert_eq!(refused(&two, 1, &[of(0), of(1)], room(3, 0)), None);
    assert_eq!(refused(&two, 2, &[], room(4097, 0)), Some(Refusal::BadExtent));
    assert!(host.measured.iter().all(|&(node, ..)| node < 2));
}

/// The last of the most items
#[test]
fn of_many_items() {
    let table = vec![at(1.0, 2.0); 1024];
    let (placed, _) = tried(&table, 1023, &at(70.0, 80.0), &[of(1023), of(0)]);
    assert_eq!(placed.layouts[1023].unwrap().location, Point { x: 78.0, y: 96.0 });
    assert_eq!(placed.layouts[0].unwrap().location, Point { x: 9.0, y: 18.0 });
}

/// A preview by words: three items, and lists of three records
fn words() -> Words {
    Words::over([at(10.0, 20.0), at(20.0, 30.0), at(30.0, 40.0)].iter().flat_map(Style::to_words).collect(), 3)
}
const BOTH: Reply = Reply::Both(120.0, 18.0);
const LAID: Reply = Reply::LaidOut([0.0; 4]);

impl Words {
    fn preview_open(&mut self, codes: [u32; 4], r: Replacement, candidates: &[Candidate]) -> u32 {
        let candidates: Vec<u32> = candidates.iter().flat_map(Candidate::to_words).collect();
        ffi::preview_open([400.0, 240.0, 8.0, 16.0], codes, r, &candidates, &mut self.lent())
    }
    /// A refused opening, which writes the state alone: that of a finished run, with the lengths as lent
    fn opening_refused(&self, codes: [u32; 4], r: Replacement, candidates: &[Candidate]) -> Option<Refusal> {
        let (mut words, mut expected) = (self.clone(), self.clone());
        expected.state = [0; ffi::STATE];
        let slices = [&self.styles, &self.layouts, &self.working, &self.unclaimed, &self.tally];
        for (word, slice) in expected.state[state::LENGTHS..].iter_mut().zip(slices) {
            *word = slice.len() as u32;
        }
        let refusal = Refusal::from_number(words.preview_open(codes, r, candidates));
        assert!(refusal.is_none() || words == expected);
        refusal
    }
    /// A refused reply, which writes nothing
    fn reply_refused(&self, reply: Reply, r: Replacement) -> Option<Refusal> {
        let mut words = self.clone();
        let refusal = Refusal::from_number(ffi::preview_reply(reply, &[], r, &mut words.lent()));
        assert!(refusal.is_none() || words == *self);
        refusal
    }
    fn location(&self, node: usize) -> [f32; 2] {
        [9, 10].map(|word| f32::from_bits(self.layouts[LAYOUT * node + word]))
    }
}
const CODES: [u32; 4] = [0, 3, 0, 0];

/// 1, 2 with the replacement's length, the node, 3 of the copy, 4
#[test]
fn openings_in_order() {
    use Refusal::*;
    let good = at(50.0, 60.0).to_words();
    let mut bad = good.to_vec();
    bad[style::CONTAIN] = 256;
    let long = [good, good].concat();
    let w = words();
    let refused = |codes, node, style: &[u32]| w.opening_refused(codes, Replacement { node, style }, &[of(0)]);
    for length in [0, 1, STYLE - 1, STYLE + 1, 2 * STYLE] {
        assert_eq!(refused(CODES, 1, &long[..length]), Some(BadExtent));
        assert_eq!(refused(CODES, 3, &long[..length]), Some(BadExtent));
        assert_eq!(refused([2, 3, 0, 0], 3, &long[..length]), Some(BadArea));
    }
    assert_eq!(refused(CODES, 3, &good), Some(BadCandidate));
    assert_eq!(refused(CODES, 3, &bad), Some(BadCandidate));
    assert_eq!(refused(CODES, u32::MAX, &good), Some(BadCandidate));
    assert_eq!(refused(CODES, 2, &bad), Some(BadStyle)); // no candidate names it
    assert_eq!(w.opening_refused(CODES, Replacement { node: 2, style: &bad }, &[of(3)]), Some(BadStyle));
    assert_eq!(w.opening_refused(CODES, Replacement { node: 2, style: &good }, &[of(3)]), Some(BadCandidate));
    assert_eq!(refused(CODES, 2, &good), None);

    // a live record is tested unless it is replaced
    let mut broken = words();
    broken.styles[STYLE + style::DIRECTION] = 2;
    let refused = |node, style: &[u32]| broken.opening_refused(CODES, Replacement { node, style }, &[of(0), of(1)]);
    assert_eq!([refused(0, &good), refused(1, &good), refused(2, &good)], [Some(BadStyle), None, Some(BadStyle)]);
    assert_eq!(refused(3, &good), Some(BadCandidate));
}

/// 2 with the replacement's length, the node, 6, 3 of the copy
#[test]
fn replies_in_order() {
    use Refusal::*;
    let good = at(50.0, 60.0).to_words();
    let mut bad = good.to_vec();
    bad[style::CONTAIN] = 256;
    let of_node = |node| Replacement { node, style: &good };
    let mut w = words();
    assert_eq!(w.preview_open(CODES, of_node(1), &[of(0), of(1)]), 0);
    for reply in [BOTH, LAID, Reply::Width(1.0), Reply::Height(1.0)] {
        let wrong = if reply == BOTH { None } else { Some(WrongReply) };
        assert_eq!(w.reply_refused(reply, of_node(1)), wrong);
        assert_eq!(w.reply_refused(reply, of_node(3)), Some(BadCandidate));
        assert_eq!(w.reply_refused(reply, Replacement { node: 3, style: &good[1..] }), Some(BadExtent));
        assert_eq!(w.reply_refused(reply, Replacement { node: 2, style: &bad }), wrong.or(Some(BadStyle)));
    }
    let mut above = w.clone();
    above.tally[2] = 1;
    assert_eq!(above.reply_refused(BOTH, of_node(3)), Some(BadCandidate));
    assert_eq!(above.reply_refused(BOTH, of_node(2)), Some(WrongReply));
    above.tally.push(0);
    assert_eq!(above.reply_refused(BOTH, of_node(3)), Some(BadExtent));

    let mut finished = words();
    assert_eq!(finished.preview_open(CODES, of_node(1), &[]), 0);
    assert_eq!(finished.reply_refused(BOTH, of_node(3)), Some(BadCandidate));
    assert_eq!(finished.reply_refused(BOTH, of_node(1)), Some(WrongReply));
    assert_eq!(words().opening_refused(CODES, of_node(3), &[]), Some(BadCandidate));
}

/// Nothing of node and style is kept: each call goes by its own
#[test]
fn another_at_each_call() {
    let (first, then) = (at(50.0, 60.0).to_words(), at(70.0, 80.0).to_words());
    let mut w = words();
    assert_eq!(w.preview_open(CODES, Replacement { node: 0, style: &first }, &[of(0), of(1)]), 0);
    assert_eq!(ffi::preview_reply(BOTH, &[], Replacement { node: 0, style: &first }, &mut w.lent()), 0);
    assert_eq!(ffi::preview_reply(LAID, &[], Replacement { node: 0, style: &then }, &mut w.lent()), 0);
    assert_eq!(w.location(0), [78.0, 96.0]);
    assert_eq!(ffi::preview_reply(BOTH, &[], Replacement { node: 0, style: &then }, &mut w.lent()), 0);
    assert_eq!(ffi::preview_reply(LAID, &[], Replacement { node: 1, style: &first }, &mut w.lent()), 0);
    assert_eq!((w.location(1), w.answer[0], w.answer[1]), ([58.0, 76.0], 0, 4));
    assert_eq!(w.working[CANDIDATE], 1);
    assert_eq!(w.styles, words().styles);
}

/// A record of the table itself may be tried for another node: both are only read
#[test]
fn a_record_of_the_table() {
    let mut w = words();
    let table = w.styles.clone();
    let mut lent = w.lent();
    let third = Replacement { node: 0, style: &lent.styles[2 * STYLE..] };
    assert_eq!(ffi::preview_open([400.0, 240.0, 8.0, 16.0], CODES, third, &of(0).to_words(), &mut lent), 0);
    assert_eq!(ffi::preview_reply(BOTH, &[], third, &mut lent), 0);
    assert_eq!(ffi::preview_reply(LAID, &[], third, &mut lent), 0);
    assert_eq!((w.location(0), w.styles), ([38.0, 56.0], table));
}
