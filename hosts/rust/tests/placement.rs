//! Runs by callbacks, and every refusal by its name.
use oof::ffi::{self, Lent, Reply};
use oof::words::{style, tag, CANDIDATE, LAYER, LAYOUT};
use oof::*;

const FONT: Size<f32> = Size { width: 120.0, height: 18.0 };
const PANEL: Size<f32> = Size { width: 800.0, height: 480.0 };

/// Says what it was asked; the font's size to every measurement
#[derive(Default)]
struct Notes {
    asked: Vec<String>,
    surface: Vec<Candidate>,
}
impl Host for Notes {
    fn measure_both(&mut self, node: NodeId, known: Size<Option<f32>>, space: Size<AvailableSpace>) -> Size<f32> {
        self.asked.push(format!("both {node} {known:?} {space:?}"));
        FONT
    }
    fn measure_width(&mut self, node: NodeId, known: Size<Option<f32>>, space: Size<AvailableSpace>) -> f32 {
        self.asked.push(format!("width {node} {known:?} {space:?}"));
        FONT.width
    }
    fn measure_height(&mut self, node: NodeId, known: Size<Option<f32>>, space: Size<AvailableSpace>) -> f32 {
        self.asked.push(format!("height {node} {known:?} {space:?}"));
        FONT.height
    }
    fn lay_out(&mut self, node: NodeId, size: Size<f32>, space: Size<AvailableSpace>) -> LaidOut {
        self.asked.push(format!("lay out {node} {size:?} {space:?}"));
        LaidOut { overflow: Rect::default(), surfaced: std::mem::take(&mut self.surface) }
    }
}

fn px(v: f32) -> LengthPercentageAuto {
    LengthPercentageAuto::Length(v)
}
fn pad(v: f32) -> LengthPercentage {
    LengthPercentage::Length(v)
}
/// 20 from the left, 12 from the top, paddings 8 and 16
fn label() -> Style {
    Style {
        inset: Rect { left: px(20.0), top: px(12.0), ..Rect::AUTO },
        padding: Rect { left: pad(8.0), right: pad(16.0), ..Rect::<LengthPercentage>::ZERO },
        ..Style::default()
    }
}
fn panel() -> Area {
    Area { size: PANEL, ..Area::default() }
}

#[test]
fn worked_example() {
    let mut host = Notes::default();
    let placed = compute_oof_layout_for_area(&mut host, &panel(), &[label()], &[Candidate::default()]).unwrap();
    let space = Size { width: AvailableSpace::Definite(780.0), height: AvailableSpace::Definite(468.0) };
    let none: Size<Option<f32>> = Size { width: None, height: None };
    assert_eq!(host.asked, [format!("both 0 {none:?} {space:?}"), format!("lay out 0 {FONT:?} {space:?}")]);
    let layout = placed.layouts[0].unwrap();
    assert_eq!((layout.location, layout.size), (Point { x: 20.0, y: 12.0 }, FONT));
    assert_eq!((layout.padding.left, layout.padding.right), (8.0, 16.0));
    assert_eq!((placed.hoisted, placed.unclaimed, placed.questions), (vec![0], vec![], 2));
    assert_eq!(placed.overflow, Rect { left: 0.0, right: 140.0, top: 0.0, bottom: 30.0 });

    // and its mirror image
    let mut there = Notes::default();
    let mirrored = place_image(&mut there, &panel(), label(), Candidate::default());
    assert_eq!(there.asked, host.asked);
    let image = mirrored.layouts[0].unwrap();
    assert_eq!(layout.location.x + image.location.x + layout.size.width, PANEL.width);
    assert_eq!((image.padding.left, image.padding.right, mirrored.overflow), (16.0, 8.0, placed.overflow));
}

/// The mirror image of a candidate in an area: its x area reflected, start and end exchanged
fn image_of(area: &Area, c: Candidate) -> Candidate {
    let flip = |edge| match edge {
        AxisStaticEdge::Start => AxisStaticEdge::End,
        AxisStaticEdge::Center => AxisStaticEdge::Center,
        AxisStaticEdge::End => AxisStaticEdge::Start,
    };
    let AxisStaticPosition { area: x, align } = c.static_position.x;
    let both = 2.0 * area.offset.x + area.size.width;
    let align = AxisStaticAlign { keyword: flip(align.keyword), fallback: flip(align.fallback), ..align };
    let x = AxisStaticPosition { area: Line { start: both - x.end, end: both - x.start }, align };
    Candidate { static_position: Point { x, ..c.static_position }, ..c }
}

fn place_image(host: &mut Notes, area: &Area, style: Style, candidate: Candidate) -> Placed {
    fn sides<T: Copy>(r: Rect<T>) -> Rect<T> {
        Rect { left: r.right, right: r.left, ..r }
    }
    let image = Style {
        inset: sides(style.inset),
        margin: sides(style.margin),
        padding: sides(style.padding),
        border: sides(style.border),
        direction: Direction::Rtl,
        ..style
    };
    let there = Area { direction: Direction::Rtl, ..*area };
    compute_oof_layout_for_area(host, &there, &[image], &[image_of(area, candidate)]).unwrap()
}

/// A label without insets, in an area whose offset isn't 0: its static area is in the caller's coordinates, and so is its
/// layout; its mirror image stands as far from the other edge
#[test]
fn static_positions_include_the_offset() {
    let area = Area { offset: Point { x: 100.0, y: 40.0 }, ..panel() };
    for (keyword, x) in [(AxisStaticEdge::Start, 130.0), (AxisStaticEdge::Center, 120.0), (AxisStaticEdge::End, 110.0)]
    {
        let align = AxisStaticAlign { keyword, fallback: keyword, ..AxisStaticAlign::default() };
        let place = |start, end| AxisStaticPosition { area: Line { start, end }, align };
        let static_position = Point {
            x: place(130.0, 230.0),
            y: AxisStaticPosition { align: AxisStaticAlign::default(), ..place(40.0, 40.0) },
        };
        let candidate = Candidate { static_position, ..Candidate::default() };
        let placed =
            compute_oof_layout_for_area(&mut Notes::default(), &area, &[Style::default()], &[candidate]).unwrap();
        let layout = placed.layouts[0].unwrap();
        assert_eq!((layout.location, layout.size), (Point { x, y: 40.0 }, FONT), "{keyword:?}");
        let image = place_image(&mut Notes::default(), &area, Style::default(), candidate).layouts[0].unwrap();
        assert_eq!(layout.location.x + image.location.x + FONT.width, 2.0 * 100.0 + PANEL.width, "{keyword:?}");
    }
}

#[test]
fn one_side_is_asked_alone() {
    let width =
        Style { size: Size { width: Dimension::MinContent, height: Dimension::Length(30.0) }, ..Style::default() };
    let height =
        Style { size: Size { width: Dimension::Length(30.0), height: Dimension::MaxContent }, ..Style::default() };
    let mut host = Notes::default();
    let candidates = [Candidate::default(), Candidate { node: 1, ..Candidate::default() }];
    let placed = compute_oof_layout_for_area(&mut host, &panel(), &[width, height], &candidates).unwrap();
    let kinds: Vec<_> = host.asked.iter().map(|q| q.split_once(' ').unwrap().0).collect();
    assert_eq!(kinds, ["width", "lay", "height", "lay"]);
    assert_eq!(placed.layouts[0].unwrap().size, Size { width: 120.0, height: 30.0 });
    assert_eq!(placed.layouts[1].unwrap().size, Size { width: 30.0, height: 18.0 });
}

#[test]
fn surfaced_boxes_are_swept() {
    let fixed = Candidate { node: 1, position: Position::Fixed, order: 5, ..Candidate::default() };
    let sticky = Candidate { node: 2, position: Position::Sticky, order: 6, ..Candidate::default() };
    let mut host = Notes { surface: vec![fixed, sticky], ..Notes::default() };
    let styles = [label(), Style::default(), Style::default()];
    let placed = compute_oof_layout_for_area(&mut host, &panel(), &styles, &[Candidate::default()]).unwrap();
    assert_eq!(placed.hoisted, [0, 1]);
    // shifted by the box's location, 20 and 12
    let at = placed.layouts[1].unwrap();
    assert_eq!((at.order, at.location), (5, Point { x: 20.0, y: 12.0 }));
    assert_eq!((placed.unclaimed.len(), placed.layouts[2]), (1, None));
    assert_eq!(placed.unclaimed[0].static_position.x.area, Line { start: 20.0, end: 20.0 });
}

#[test]
fn wrapper_joins_or_leaves_the_rectangle() {
    let mut host = Notes::default();
    let mut overflow = Rect { left: -5.0, right: 10.0, top: 2.0, bottom: 400.0 };
    let (before, styles, candidates) = (overflow, [label()], [Candidate::default()]);
    assert_eq!(compute_oof_layout(&mut host, None, &styles, &candidates, &mut overflow), Ok(None));
    assert_eq!(compute_oof_layout(&mut host, Some(&panel()), &styles, &[], &mut overflow), Ok(None));
    assert_eq!((overflow, host.asked.len()), (before, 0));
    let placed = compute_oof_layout(&mut host, Some(&panel()), &styles, &candidates, &mut overflow).unwrap();
    assert_eq!(placed.unwrap().questions, 2);
    assert_eq!(overflow, Rect { left: -5.0, right: 140.0, top: 0.0, bottom: 400.0 });
}

#[test]
fn typed_refusals() {
    let mut host = Notes::default();
    let place = |host: &mut Notes, styles: &[Style], candidates: &[Candidate], room| {
        compute_oof_layout_with(host, &panel(), styles, candidates, room).map(|placed| placed.questions)
    };
    let (styles, one) = ([label()], [Candidate::default()]);
    let many = vec![Style::default(); 1025];
    assert_eq!(place(&mut host, &many, &one, Room::MOST), Err(Refusal::BadExtent));
    for records in [4097, usize::MAX / (4 * CANDIDATE), usize::MAX / CANDIDATE + 1, usize::MAX] {
        for room in [Room { working: records, unclaimed: 0 }, Room { working: 1, unclaimed: records }] {
            assert_eq!(place(&mut host, &styles, &one, room), Err(Refusal::BadExtent), "{room:?}");
        }
    }
    let nowhere = Candidate { node: 1, ..Candidate::default() };
    assert_eq!(place(&mut host, &styles, &[nowhere], Room::MOST), Err(Refusal::BadCandidate));
    assert_eq!(place(&mut host, &styles, &one, Room { working: 0, unclaimed: 0 }), Err(Refusal::ListFull));
    let room = Room { working: 1, unclaimed: 0 };
    assert_eq!(place(&mut host, &styles, &one, room), Ok(2));
    host.surface = vec![Candidate::default()];
    assert_eq!(place(&mut host, &styles, &one, room), Err(Refusal::ListFull));
    host.surface = vec![nowhere];
    assert_eq!(place(&mut host, &styles, &one, Room::MOST), Err(Refusal::BadCandidate));
}

#[test]
fn names_and_numbers() {
    let names = ["bad area", "bad extent", "bad style", "bad candidate", "list full", "wrong reply"];
    let named: Vec<_> = (1..).zip(names).chain([(9, "not in eighths")]).collect();
    let all: Vec<_> = Refusal::ALL.iter().map(|refusal| (refusal.number(), refusal.to_string())).collect();
    assert_eq!(all, named.iter().map(|&(number, name)| (number, name.to_string())).collect::<Vec<_>>());
    for number in 0..100 {
        let refusal = Refusal::ALL.iter().copied().find(|refusal| refusal.number() == number);
        assert_eq!(Refusal::from_number(number), refusal);
        assert_eq!(refusal.is_some(), (1..=6).contains(&number) || number == 9);
    }
}

/// All that one call is lent
#[derive(Clone, PartialEq, Debug)]
struct Words {
    codes: [u32; 4],
    styles: Vec<u32>,
    candidates: Vec<u32>,
    layouts: Vec<u32>,
    working: Vec<u32>,
    unclaimed: Vec<u32>,
    tally: Vec<u32>,
    state: [u32; ffi::STATE],
    answer: [u32; ffi::ANSWER],
}
/// One label, lists of one record, and words that tell if they were written
fn words() -> Words {
    Words {
        codes: [0, 3, 0, 0],
        styles: label().to_words().to_vec(),
        candidates: Candidate::default().to_words().to_vec(),
        layouts: vec![0xDEAD_0001; LAYOUT],
        working: vec![0xDEAD_0002; CANDIDATE],
        unclaimed: vec![0xDEAD_0003; CANDIDATE],
        tally: vec![0xDEAD_0004],
        state: std::array::from_fn(|i| 0xDEAD_0100 + i as u32),
        answer: std::array::from_fn(|i| 0xDEAD_0200 + i as u32),
    }
}
impl Words {
    fn lent(&mut self) -> Lent<'_> {
        Lent {
            styles: &self.styles,
            layouts: &mut self.layouts,
            working: &mut self.working,
            unclaimed: &mut self.unclaimed,
            tally: &mut self.tally,
            state: &mut self.state,
            answer: &mut self.answer,
        }
    }
    fn open(&mut self) -> u32 {
        let (codes, candidates) = (self.codes, self.candidates.clone());
        ffi::open([800.0, 480.0, 0.0, 0.0], codes, &candidates, &mut self.lent())
    }
    fn reply(&mut self, reply: Reply, surfaced: &[u32]) -> u32 {
        ffi::reply(reply, surfaced, &mut self.lent())
    }
}
fn refused(number: u32) -> Option<Refusal> {
    Refusal::from_number(number)
}

/// A finished run with all counts 0, opened over slices of these lengths
fn closed(w: &Words) -> [u32; ffi::STATE] {
    let mut state = [0; ffi::STATE];
    let lengths = [w.styles.len(), w.layouts.len(), w.working.len(), w.unclaimed.len(), w.tally.len()];
    (0..5).for_each(|i| state[ffi::state::LENGTHS + i] = lengths[i] as u32);
    state
}

/// Ways to have an opening refused, and how
const BAD_OPENINGS: [(Refusal, fn(&mut Words)); 19] = {
    use Refusal::*;
    [
        (BadArea, |w| w.codes[0] = 2),
        (BadArea, |w| w.codes[1] = 4),
        (BadArea, |w| w.codes[2] = 4),
        (BadArea, |w| w.codes[3] = u32::MAX),
        (BadExtent, |w| w.styles.push(0)),
        (BadExtent, |w| w.styles.truncate(57)), // as styles were before sums
        (BadExtent, |w| w.layouts.push(0)),
        (BadExtent, |w| w.candidates.truncate(CANDIDATE - 1)),
        (BadExtent, |w| w.working.resize(CANDIDATE * 4097, 0)),
        (BadExtent, |w| w.unclaimed.push(0)),
        (BadExtent, |w| w.tally.clear()),
        (BadExtent, |w| w.tally.push(0)),
        (BadStyle, |w| w.styles[style::PADDING_LEFT] = tag::AUTO),
        (BadStyle, |w| w.styles[style::INSET_LEFT] = 256 + tag::LENGTH),
        (BadStyle, |w| w.styles[style::WIDTH] = 256 + tag::SUM),
        (BadCandidate, |w| w.candidates[0] = 1),
        (BadCandidate, |w| w.candidates[LAYER] = 256),
        (BadCandidate, |w| (w.codes[1], w.candidates[LAYER]) = (0, u32::MAX)), // not claimed
        (ListFull, |w| w.working.clear()),
    ]
};

/// Each refusal of an opening: its state is that of a finished run; no other word is written, the answer's included
#[test]
fn refused_openings_write_their_state_only() {
    for (at, (refusal, damage)) in BAD_OPENINGS.into_iter().enumerate() {
        let mut w = words();
        damage(&mut w);
        let left = Words { state: closed(&w), ..w.clone() };
        assert_eq!(refused(w.open()), Some(refusal), "damage {at}");
        assert_eq!(w, left, "damage {at}");
    }
    assert_eq!(words().open(), 0);
}

/// So there is no run to go on with: neither one of zeros, nor the one that stood in the words before
#[test]
fn after_a_refused_opening_no_reply_is_taken() {
    let mut w = Words { state: [0; ffi::STATE], ..words() };
    w.styles[style::PADDING_LEFT] = tag::AUTO;
    assert_eq!(refused(w.open()), Some(Refusal::BadStyle));
    assert_eq!(refused(w.reply(Reply::Both(120.0, 18.0), &[])), Some(Refusal::WrongReply));

    for (at, (refusal, damage)) in BAD_OPENINGS.into_iter().enumerate() {
        let mut w = words();
        assert_eq!(w.open(), 0);
        let mut bad = w.clone();
        damage(&mut bad);
        assert_eq!(refused(bad.open()), Some(refusal), "damage {at}");
        for reply in [Reply::Both(120.0, 18.0), Reply::Width(1.0), Reply::Height(1.0), Reply::LaidOut([0.0; 4])] {
            let number = if refusal == Refusal::BadExtent && bad.candidates == w.candidates { 2 } else { 6 };
            assert_eq!(bad.reply(reply, &[]), number, "damage {at}");
        }
        let mut next = Words { state: bad.state, ..w };
        assert_ne!(next.reply(Reply::Both(120.0, 18.0), &[]), 0, "damage {at}");
    }
}

/// A candidate's words, with any word as its layer
fn on_layer(layer: u32) -> [u32; CANDIDATE] {
    let mut words = Candidate::default().to_words();
    words[LAYER] = layer;
    words
}

/// Each refusal of a reply, to the measure question and to the lay-out question; the run then goes on
#[test]
fn refused_replies_write_nothing() {
    use Refusal::*;
    let laid = Reply::LaidOut([0.0; 4]);
    let mut w = words();
    assert_eq!(w.open(), 0);
    let refuse = |w: &mut Words, refusal, reply, surfaced: &[u32], damage: fn(&mut Words)| {
        let (intact, mut damaged) = (w.clone(), w.clone());
        damage(&mut damaged);
        let before = damaged.clone();
        assert_eq!(refused(damaged.reply(reply, surfaced)), Some(refusal));
        assert_eq!(damaged, before);
        *w = intact;
    };
    refuse(&mut w, WrongReply, Reply::Width(1.0), &[], |_| ());
    refuse(&mut w, WrongReply, Reply::Height(1.0), &[], |_| ());
    refuse(&mut w, WrongReply, laid, &[], |_| ());
    refuse(&mut w, WrongReply, Reply::Both(1.0, 1.0), &[], |w| w.state[ffi::state::BEGUN] = 2);
    refuse(&mut w, WrongReply, Reply::Both(1.0, 1.0), &[], |w| w.state[ffi::state::PROGRESS] = 6);
    refuse(&mut w, WrongReply, Reply::Both(1.0, 1.0), &[], |w| w.tally[0] = 1);
    refuse(&mut w, BadExtent, Reply::Both(1.0, 1.0), &[], |w| w.unclaimed.truncate(0));
    refuse(&mut w, BadExtent, Reply::Both(1.0, 1.0), &[], |w| w.tally.push(0));
    refuse(&mut w, BadStyle, Reply::Both(1.0, 1.0), &[], |w| w.styles[style::CONTAIN] = 256);
    refuse(&mut w, BadCandidate, Reply::Both(1.0, 1.0), &[], |w| w.working[2] = 5);
    assert_eq!(w.reply(Reply::Both(120.0, 18.0), &[7]), 0); // a slice lent with it isn't looked at
    refuse(&mut w, BadExtent, laid, &[0; CANDIDATE - 1], |_| ());
    refuse(&mut w, BadCandidate, laid, &[9; CANDIDATE], |_| ());
    refuse(&mut w, BadCandidate, laid, &on_layer(256), |_| ());
    refuse(&mut w, BadCandidate, laid, &[], |w| w.working[LAYER] = 256);
    refuse(&mut w, ListFull, laid, &Candidate::default().to_words(), |_| ());
    refuse(&mut w, WrongReply, laid, &[], |w| w.tally[0] = u32::MAX);
    refuse(&mut w, WrongReply, Reply::Both(1.0, 1.0), &[0; CANDIDATE - 1], |_| ());
    assert_eq!(w.layouts, words().layouts);
    assert_eq!(w.reply(laid, &[]), 0);
    assert_eq!((w.answer[0], w.answer[1], w.tally[0]), (0, 2, 2));
    refuse(&mut w, WrongReply, laid, &[], |_| ()); // finished
}

/// A state of zeros is a finished run over no words
#[test]
fn a_state_of_zeros_is_finished() {
    let mut w = words();
    w.state = [0; ffi::STATE];
    assert_eq!(refused(w.reply(Reply::Width(0.0), &[])), Some(Refusal::BadExtent));
    let mut none = Words { styles: vec![], layouts: vec![], working: vec![], unclaimed: vec![], tally: vec![], ..w };
    assert_eq!(refused(none.reply(Reply::Width(0.0), &[])), Some(Refusal::WrongReply));
}
