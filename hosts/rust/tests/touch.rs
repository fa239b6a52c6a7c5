//! What a touch driver reads: boxes of runs beside their pixel edges, and every refusal by its name.
mod common;
#[path = "common/filled.rs"]
mod filled;
use common::Words;
use oof::ffi::{self, state, Reply};
use oof::words::{style, CANDIDATE, LAYER, LAYOUT};
use oof::*;

/// Every box's size is given. Each has this overflow of its own
struct Given(Rect<f32>);
impl Host for Given {
    fn measure_both(&mut self, _: NodeId, _: Size<Option<f32>>, _: Size<AvailableSpace>) -> Size<f32> {
        unreachable!("its size is given")
    }
    fn lay_out(&mut self, _: NodeId, _: Size<f32>, _: Size<AvailableSpace>) -> LaidOut {
        LaidOut { overflow: self.0, ..LaidOut::default() }
    }
}

fn px(v: f32) -> LengthPercentageAuto {
    LengthPercentageAuto::Length(v)
}
fn panel() -> Area {
    let (size, offset) = (Size { width: 800.0, height: 480.0 }, Point { x: 100.0, y: 40.0 });
    Area { size, offset, ..Area::default() }
}
/// A box so far from the left and from the top
fn at(left: f32, top: f32, width: f32, height: f32) -> Style {
    Style {
        inset: Rect { left: px(left), top: px(top), ..Rect::AUTO },
        size: Size { width: Dimension::Length(width), height: Dimension::Length(height) },
        ..Style::default()
    }
}
/// Auto margins center it across the panel
fn centered(width: f32) -> Style {
    let (auto, zero) = (LengthPercentageAuto::Auto, px(0.0));
    Style {
        inset: Rect { left: zero, right: zero, top: zero, bottom: auto },
        margin: Rect { left: auto, right: auto, top: zero, bottom: zero },
        ..at(0.0, 0.0, width, 24.0)
    }
}
fn of(node: NodeId) -> Candidate {
    Candidate { node, ..Candidate::default() }
}
fn place(area: &Area, styles: &[Style], nodes: &[NodeId]) -> Placed {
    let candidates: Vec<_> = nodes.iter().copied().map(of).collect();
    compute_oof_layout_for_area(&mut Given(Rect::default()), area, styles, &candidates).unwrap()
}
fn touch_box(node: NodeId, left: i32, right: i32, top: i32, bottom: i32) -> TouchBox {
    TouchBox { node, edges: Rect { left, right, top, bottom } }
}

/// In hoisted order, each by its item's layout; edges below 0 too
#[test]
fn rows() {
    let eighths = |n: i32| n as f32 / 8.0;
    let row = |x, y, width, height| {
        let style = at(eighths(x), eighths(y), eighths(width), eighths(height));
        place(&panel(), &[style], &[0]).touch().unwrap()
    };
    assert_eq!(row(-5, 0, 8, 8), [touch_box(0, -1, 0, 0, 1)]);
    assert_eq!(row(0, -5, 8, 8), [touch_box(0, 0, 1, -1, 0)]);
    assert_eq!(row(-4, 4, 11, 7), [touch_box(0, 0, 1, 1, 1)]);
    let styles = [at(1.0, 3.0, 4.0, 10.0), at(0.0, -8.0, 1.0, 1.0), at(-5.0, 20.0, 2.0, 3.0)];
    let three = [touch_box(2, -5, -3, 20, 23), touch_box(0, 1, 5, 3, 13), touch_box(1, 0, 1, -8, -7)];
    assert_eq!(place(&panel(), &styles, &[2, 0, 1]).touch().unwrap(), three);
}

/// The edges of `Placed::pixels`, or nothing at all where one box has none: in sixteenths, of which half are eighths
#[test]
fn as_pixels() {
    let mut seed = 108u32;
    let mut word = |below: u32| {
        seed = seed.wrapping_mul(1_664_525).wrapping_add(1_013_904_223);
        (seed >> 16) % below
    };
    let (mut told, mut refused) = (0, 0);
    for _ in 0..20_000 {
        let step = if word(8) > 0 { 0.125 } else { 0.0625 };
        let mut number = |below: u32, least: f32| word(below) as f32 * step + least;
        let offset = Point { x: number(400, -20.0), y: number(400, -20.0) };
        let styles: Vec<_> =
            (0..4).map(|_| at(number(999, -60.0), number(999, -60.0), number(400, 0.0), number(400, 0.0))).collect();
        let nodes: Vec<_> = (0..word(6)).map(|_| word(4)).collect();
        let area = Area { offset, direction: [Direction::Ltr, Direction::Rtl][word(2) as usize], ..panel() };
        let placed = place(&area, &styles, &nodes);
        let pixels = placed.pixels(&area);
        let edges = |&node: &NodeId| {
            let edges = pixels[node as usize].expect("it was placed")?;
            Ok(TouchBox { node, edges })
        };
        let expected: Result<Vec<_>, _> = placed.hoisted.iter().map(edges).collect();
        assert_eq!(placed.hoisted, nodes);
        assert_eq!(placed.touch(), expected);
        *(if expected.is_ok() { &mut told } else { &mut refused }) += 1;
    }
    assert!(told > 10_000 && refused > 1000, "{told} {refused}");
}

/// Its last layout at both places; and runs without a box, wherever the area is
#[test]
fn claimed_twice_or_not_at_all() {
    let standing = |x: f32, y: f32| {
        let along = |at| AxisStaticPosition { area: Line { start: at, end: at }, ..AxisStaticPosition::default() };
        Candidate { static_position: Point { x: along(x), y: along(y) }, ..Candidate::default() }
    };
    let size = Size { width: Dimension::Length(160.0), height: Dimension::Length(24.0) };
    let (styles, host) = ([Style { size, ..Style::default() }], &mut Given(Rect::default()));
    let twice = [standing(100.0, 40.0), standing(1000.0, 52.0)];
    let placed = compute_oof_layout_for_area(host, &panel(), &styles, &twice).unwrap();
    assert_eq!(placed.touch(), Ok(vec![touch_box(0, 900, 1060, 12, 36); 2]));

    let nowhere = Area { offset: Point { x: f32::NAN, y: 0.0625 }, ..panel() };
    assert_eq!(place(&nowhere, &styles, &[]).touch(), Ok(vec![]));
    assert_eq!(place(&nowhere, &styles, &[0]).touch(), Err(Refusal::NotInEighths));
    let unclaiming = Area { claims: Claims { absolute: false, fixed: true }, ..nowhere };
    let placed = place(&unclaiming, &styles, &[0]);
    assert_eq!((placed.touch(), placed.unclaimed.len()), (Ok(vec![]), 1));
    assert_eq!(place(&panel(), &[], &[]).touch(), Ok(vec![]));
}

/// One box on a sixteenth refuses all; `Placed::pixels` has the others
#[test]
fn one_refuses_all() {
    let label = at(24.0, 16.0, 160.0, 24.0);
    let placed = place(&panel(), &[label, centered(100.25)], &[0, 1]);
    assert_eq!(placed.touch(), Ok(vec![touch_box(0, 24, 184, 16, 40), touch_box(1, 350, 450, 0, 24)]));
    for nodes in [[0, 1], [1, 0]] {
        let placed = place(&panel(), &[label, centered(100.125)], &nodes);
        assert_eq!(placed.layouts[1].unwrap().location.x, 100.0 + 349.9375);
        assert_eq!(placed.touch(), Err(Refusal::NotInEighths));
        let label = Rect { left: 24, right: 184, top: 16, bottom: 40 };
        assert_eq!(placed.pixels(&panel()), [Some(Ok(label)), Some(Err(Refusal::NotInEighths))]);
    }
}

/// Runs whose boxes differ in padding, border, margins, scrollbars, child overflow and order: what a margin adds, an inset takes off
#[test]
fn only_location_and_size_are_seen() {
    let styles = |k: f32| {
        [at(24.0 - k, 16.0 + k, 160.0, 48.0), at(124.5 - k, 200.0 + k, 240.0, 48.0)].map(|style| {
            let overflow = if k == 0.0 { Overflow::Visible } else { Overflow::Scroll };
            let side = |v: f32| LengthPercentage::Length(v);
            Style {
                margin: Rect { left: px(k), right: px(0.0), top: px(-k), bottom: px(k) },
                padding: Rect { left: side(k), right: side(0.0), top: side(k), bottom: side(0.0) },
                border: Rect { left: side(0.0), right: side(k), top: side(0.0), bottom: side(k) },
                overflow: Point { x: overflow, y: overflow },
                scrollbar_width: 15.0,
                ..style
            }
        })
    };
    let run = |k: u8| {
        let candidates = [1, 0].map(|node| Candidate { order: u32::from(k), layer: k, ..of(node) });
        let mut host = Given(Rect { right: 300.0 * f32::from(k), bottom: 200.0, ..Rect::default() });
        let size = Size { width: 800.0 + f32::from(k), height: 480.0 };
        let area = Area { size, ..panel() };
        compute_oof_layout_for_area(&mut host, &area, &styles(f32::from(k)), &candidates).unwrap()
    };
    let [plain, other] = [0, 2].map(run);
    for node in 0..2 {
        let [a, b] = [&plain, &other].map(|placed| placed.layouts[node].unwrap());
        assert_eq!((a.location, a.size), (b.location, b.size));
        assert!(a.order != b.order && a.scrollable_overflow_rect != b.scrollable_overflow_rect);
        assert!(a.scrollbar_size != b.scrollbar_size && a.padding != b.padding && a.border != b.border);
        assert_ne!(a.margin, b.margin);
    }
    assert_eq!(plain.touch(), Ok(vec![touch_box(1, 125, 365, 200, 248), touch_box(0, 24, 184, 16, 64)]));
    assert_eq!(plain.touch(), other.touch());
    assert_ne!(plain, other);
}

/// The first pixel of a side is covered, and the one behind the last isn't; a size of 0, or turned round, covers none
#[test]
fn covers() {
    let covered = |b: TouchBox| {
        let pixels = (-9..9).flat_map(|y| (-9..9).map(move |x| Point { x, y }));
        pixels.filter(|&pixel| b.covers(pixel)).map(|Point { x, y }| (x, y)).collect::<Vec<_>>()
    };
    assert_eq!(covered(touch_box(0, -2, 1, 3, 4)), [(-2, 3), (-1, 3), (0, 3)]);
    assert_eq!(covered(touch_box(0, 0, 1, -1, 1)), [(0, -1), (0, 0)]);
    for none in [touch_box(0, 2, 2, 0, 5), touch_box(0, 2, 1, 0, 5), touch_box(0, 0, 5, 3, -3)] {
        assert_eq!(covered(none), []);
    }
}

/// A run by words: three boxes of four items, hoisted as 3, 1, 3, and lists of four records
impl Words {
    fn opened() -> Words {
        let table = [at(0.0, 0.0, 1.0, 1.0), at(1.0, 3.0, 4.0, 10.0), at(0.0, 0.0, 1.0, 1.0), at(-5.0, 20.0, 2.0, 3.0)];
        let mut w = Words::over(table.iter().flat_map(Style::to_words).collect(), 4);
        let candidates: Vec<u32> = [of(3), of(1), of(3)].iter().flat_map(Candidate::to_words).collect();
        assert_eq!(ffi::open([800.0, 480.0, 100.0, 40.0], [0, 3, 0, 0], &candidates, &mut w.lent()), 0);
        w
    }
    fn finished() -> Words {
        let mut w = Words::opened();
        for _ in 0..3 {
            assert_eq!(ffi::reply(Reply::LaidOut([0.0; 4]), &[], &mut w.lent()), 0);
        }
        w
    }
    fn touch(&self, words: usize) -> Result<Vec<u32>, Refusal> {
        self.filled(ffi::touch, words)
    }
}
fn words_of_three() -> Result<Vec<u32>, Refusal> {
    let (first, second) = ([3, -5, -3, 20, 23], [1, 1, 5, 3, 13]);
    Ok([first, second, first].concat().into_iter().map(i32::cast_unsigned).collect())
}
const LOCATION_AND_SIZE: [usize; 4] = [9, 10, 1, 2]; // the words of a layout that are x, y, width and height

/// What a driver can't see may be any words, whoever wrote them
#[test]
fn only_location_and_size_are_read() {
    let mut w = Words::finished();
    assert_eq!(w.touch(15), words_of_three());
    w.styles.fill(2); // no tags
    w.unclaimed.fill(256); // bad records
    w.state[state::FILLED_UNCLAIMED] = 4;
    w.working[3 * CANDIDATE..].fill(256); // what isn't filled
    for node in 0..4 {
        for word in 0..LAYOUT {
            if node % 2 == 0 || !LOCATION_AND_SIZE.contains(&word) {
                w.layouts[node * LAYOUT + word] = f32::NAN.to_bits();
            }
        }
    }
    w.state[state::PROGRESS] = 6; // above the list is finished
    (w.state[state::BEGUN], w.state[state::ANSWERED]) = (7, 99);
    w.state[state::LENGTHS + 4] = 99; // of the tally, which isn't lent
    w.state[state::OVERFLOW..][..4].fill(f32::NAN.to_bits());
    w.state[state::AREA..][..2].fill(f32::NAN.to_bits()); // of the area its size
    w.state[state::CODES..][..4].fill(9);
    assert_eq!(w.touch(15), words_of_three());
    w.working[LAYER] = 255;
    w.layouts[LAYOUT + 10] = (-0.0f32).to_bits();
    w.state[state::AREA + 3] = (-0.0f32).to_bits();
    let zero = |w: &Words| w.touch(15).unwrap()[5..10].to_vec();
    assert_eq!(zero(&w), [1, 1, 5, 0, 10]);
    w.layouts[LAYOUT + 10] = 0;
    w.state[state::AREA + 3] = 0;
    assert_eq!(zero(&w), [1, 1, 5, 0, 10]);
}

/// Each refusal that words can meet, in the order of the tests: each damage comes before those above it
#[test]
fn refused_by_name() {
    for bad in [0.0625, 1_250_000.0, f32::NAN, f32::INFINITY, f32::from_bits(1)] {
        for (node, word) in [1, 3].into_iter().flat_map(|node| LOCATION_AND_SIZE.map(|word| (node, word))) {
            let mut w = Words::finished();
            w.layouts[node * LAYOUT + word] = bad.to_bits();
            assert_eq!(w.touch(15), Err(Refusal::NotInEighths), "{bad} as word {word} of {node}");
        }
        for coordinate in 2..4 {
            let mut w = Words::finished();
            w.state[state::AREA + coordinate] = bad.to_bits();
            assert_eq!(w.touch(15), Err(Refusal::NotInEighths), "{bad} of the area");
        }
    }
    let mut w = Words::finished();
    w.layouts[3 * LAYOUT + 1] = f32::NAN.to_bits();
    assert_eq!(w.touch(15), Err(Refusal::NotInEighths));
    w.working[2 * CANDIDATE + LAYER] = 256;
    assert_eq!(w.touch(15), Err(Refusal::BadCandidate));
    w.working[2 * CANDIDATE + LAYER] = 0;
    w.working[2 * CANDIDATE] = 4;
    assert_eq!(w.touch(15), Err(Refusal::BadCandidate));
    w.state[state::FILLED_UNCLAIMED] = 5;
    assert_eq!(w.touch(15), Err(Refusal::WrongReply));
    for words in [0, 3, 5, 10, 14, 16, 20, 69] {
        assert_eq!(w.touch(words), Err(Refusal::BadExtent), "{words} words");
    }
    w.unclaimed.truncate(CANDIDATE);
    assert_eq!(w.touch(15), Err(Refusal::BadExtent));
    let mut ragged = Words::finished();
    ragged.styles.truncate(style::CONTAIN);
    ragged.state[state::LENGTHS] = u32::try_from(ragged.styles.len()).unwrap();
    assert_eq!(ragged.touch(15), Err(Refusal::BadExtent));
}

#[test]
fn unfinished() {
    filled::unfinished(ffi::touch, ffi::TOUCH, &Words::opened(), Words::finished());
}
