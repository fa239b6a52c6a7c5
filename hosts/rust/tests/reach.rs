//! Which boxes scrolling can bring into view: boxes of runs, and every refusal by its name.
mod common;
use common::Words;
use oof::ffi::{self, state, Finished, Lent, Reply};
use oof::words::{style, CANDIDATE, LAYER};
use oof::*;

/// Every box's size is given, so that there is nothing to measure
struct Given;
impl Host for Given {
    fn measure_both(&mut self, _: NodeId, _: Size<Option<f32>>, _: Size<AvailableSpace>) -> Size<f32> {
        unreachable!("its size is given")
    }
}

const DIRECTIONS: [Direction; 2] = [Direction::Ltr, Direction::Rtl];
const OVERFLOWS: [Overflow; 4] = [Overflow::Visible, Overflow::Clip, Overflow::Hidden, Overflow::Scroll];

fn px(v: f32) -> LengthPercentageAuto {
    LengthPercentageAuto::Length(v)
}
fn area(direction: Direction, x: Overflow, y: Overflow) -> Area {
    let (size, offset) = (Size { width: 800.0, height: 480.0 }, Point { x: 100.0, y: 40.0 });
    Area { size, offset, direction, overflow: Point { x, y }, ..Area::default() }
}
/// A box so far from the start edge and from the top
fn at(direction: Direction, start: f32, top: f32, width: f32, height: f32) -> Style {
    let (left, right) = match direction {
        Direction::Ltr => (px(start), LengthPercentageAuto::Auto),
        Direction::Rtl => (LengthPercentageAuto::Auto, px(start)),
    };
    Style {
        inset: Rect { left, right, top: px(top), ..Rect::AUTO },
        size: Size { width: Dimension::Length(width), height: Dimension::Length(height) },
        direction,
        ..Style::default()
    }
}
/// The styles' boxes, the last item first
fn place(area: &Area, styles: &[Style]) -> Placed {
    let candidates: Vec<_> =
        (0..styles.len() as NodeId).rev().map(|node| Candidate { node, ..Candidate::default() }).collect();
    compute_oof_layout_for_area(&mut Given, area, styles, &candidates).unwrap()
}
fn all(placed: &Placed) -> Vec<Result<Reach, Refusal>> {
    (0..placed.hoisted.len()).map(|place| placed.reach(place)).collect()
}
fn seen(x_eighths: u32, y_eighths: u32) -> Result<Reach, Refusal> {
    Ok(Reach::Seen { x_eighths, y_eighths })
}

/// The note ends 8 pixels before the start edge: unseen, whatever scrolls
#[test]
fn incident() {
    for direction in DIRECTIONS {
        let boxes = [at(direction, -328.0, 200.0, 320.0, 96.0), at(direction, 24.0, 16.0, 160.0, 24.0)];
        for overflow in OVERFLOWS {
            let placed = place(&area(direction, overflow, overflow), &boxes);
            assert_eq!(placed.hoisted, [1, 0]);
            assert_eq!(all(&placed), [seen(0, 0), Ok(Reach::Unseen)], "{direction:?} {overflow:?}");
            assert_eq!(placed.reach(2), Err(Refusal::BadExtent));
            assert_eq!(placed.reach(usize::MAX), Err(Refusal::BadExtent));
            assert_eq!(placed.reach(1 << 32), Err(Refusal::BadExtent));
        }
    }
}

/// Behind the far edge: an eighth more than what brings them to touch, where the axis scrolls; the mirror image has the same
#[test]
fn scrolled() {
    for direction in DIRECTIONS {
        let across = at(direction, 900.0, 12.0, 160.0, 24.0);
        let down = at(direction, 20.5, 500.25, 160.0, 24.0);
        for x in OVERFLOWS {
            for y in OVERFLOWS {
                let scrolls = |overflow| matches!(overflow, Overflow::Hidden | Overflow::Scroll);
                let placed = place(&area(direction, x, y), &[across, down]);
                let expected = [
                    if scrolls(y) { seen(0, 8 * 20 + 3) } else { Ok(Reach::Unseen) },
                    if scrolls(x) { seen(8 * 100 + 1, 0) } else { Ok(Reach::Unseen) },
                ];
                assert_eq!(all(&placed), expected, "{direction:?} {x:?} {y:?}");
            }
        }
        let placed = place(&area(direction, Overflow::Scroll, Overflow::Hidden), &[across, down]);
        assert_eq!(placed.reach(1).unwrap().offset(), Some(Point { x: 100.125, y: 0.0 }));
        assert_eq!(placed.reach(0).unwrap().offset(), Some(Point { x: 0.0, y: 20.375 }));
        assert!(placed.reach(0).unwrap().is_seen() && !Reach::Unseen.is_seen());
        assert_eq!(Reach::Unseen.offset(), None);
        let most = Reach::Seen { x_eighths: 9_999_998, y_eighths: 9_999_997 };
        let Point { x, y } = most.offset().unwrap();
        assert_eq!((f64::from(x) * 8.0, f64::from(y) * 8.0), (9_999_998.0, 9_999_997.0));
    }
}

/// Rows of the request, as runs of one box in an area of 8 eighths
#[test]
fn rows() {
    let row = |start: i32, size: i32, overflow| {
        let eighths = |n: i32| n as f32 / 8.0;
        let area = Area { size: Size { width: 1.0, height: 1.0 }, ..area(Direction::Ltr, overflow, overflow) };
        let [here, image] = DIRECTIONS.map(|direction| {
            let style = at(direction, eighths(start), 0.0, eighths(size), 1.0);
            place(&Area { direction, ..area }, &[style]).reach(0)
        });
        assert_eq!(here, image);
        here
    };
    assert_eq!(row(20, 4, Overflow::Scroll), seen(13, 0));
    assert_eq!(row(20, 4, Overflow::Clip), Ok(Reach::Unseen));
    assert_eq!((row(7, 2, Overflow::Visible), row(8, 2, Overflow::Visible)), (seen(0, 0), Ok(Reach::Unseen)));
    assert_eq!((row(-2, 3, Overflow::Scroll), row(-2, 2, Overflow::Scroll)), (seen(0, 0), Ok(Reach::Unseen)));
    assert_eq!(row(2, 0, Overflow::Scroll), Ok(Reach::Unseen));
}

/// A box of its own on a sixteenth is refused alone; one that reaches farthest, with all; paddings aren't looked at
#[test]
fn not_in_eighths() {
    let refused = Err(Refusal::NotInEighths);
    let scroll = area(Direction::Ltr, Overflow::Scroll, Overflow::Scroll);
    let (good, far) = (at(Direction::Ltr, 20.0, 12.0, 160.0, 24.0), at(Direction::Ltr, 900.0, 12.0, 160.0, 24.0));
    let off = at(Direction::Ltr, 20.0625, 12.0, 160.0, 24.0);
    assert_eq!(all(&place(&scroll, &[good, off, far])), [seen(801, 0), refused, seen(0, 0)]);
    let off = at(Direction::Ltr, 900.0625, 12.0, 160.0, 24.0);
    assert_eq!(all(&place(&scroll, &[good, off, far])), [refused; 3]);
    let odd = Area { offset: Point { x: 100.0, y: 40.0 - 0.0625 }, ..scroll };
    assert_eq!(all(&place(&odd, &[good])), [refused]);
    let edge = LengthPercentage::Length(0.0625);
    let padded = Style { padding: Rect { left: edge, right: edge, top: edge, bottom: edge }, ..good };
    assert_eq!(all(&place(&scroll, &[padded])), [seen(0, 0)]);
}

/// Its last layout at both places; and a run without boxes has no place
#[test]
fn claimed_twice_or_not_at_all() {
    let scroll = area(Direction::Ltr, Overflow::Scroll, Overflow::Scroll);
    let size = Size { width: Dimension::Length(160.0), height: Dimension::Length(24.0) };
    let styles = [Style { size, ..Style::default() }];
    let standing = |x: f32, y: f32| {
        let along = |at| AxisStaticPosition { area: Line { start: at, end: at }, ..AxisStaticPosition::default() };
        Candidate { static_position: Point { x: along(x), y: along(y) }, ..Candidate::default() }
    };
    let twice = [standing(100.0, 40.0), standing(1000.0, 40.0)];
    let placed = compute_oof_layout_for_area(&mut Given, &scroll, &styles, &twice).unwrap();
    assert_eq!((placed.hoisted.clone(), all(&placed)), (vec![0, 0], vec![seen(801, 0); 2]));

    let none = Area { claims: Claims { absolute: false, fixed: true }, ..scroll };
    let placed = compute_oof_layout_for_area(&mut Given, &none, &styles, &twice).unwrap();
    assert_eq!((placed.unclaimed.len(), placed.reach(0)), (2, Err(Refusal::BadExtent)));
}

/// Room, and a style that changes no box, don't tell placements apart; the area does
#[test]
fn equality() {
    let scroll = area(Direction::Ltr, Overflow::Scroll, Overflow::Scroll);
    let styles = [at(Direction::Ltr, 900.0, 12.0, 160.0, 24.0)];
    let placed = place(&scroll, &styles);
    let room = Room { working: 1, unclaimed: 0 };
    let tight = compute_oof_layout_with(&mut Given, &scroll, &styles, &[Candidate::default()], room).unwrap();
    assert_eq!(tight, placed);
    assert_eq!(tight.reach(0), placed.reach(0));
    let contained = Style { contain: Contain(1), ..styles[0] };
    assert_eq!(place(&scroll, &[contained]), placed);
    let clipped = place(&Area { overflow: Point { x: Overflow::Clip, y: Overflow::Clip }, ..scroll }, &styles);
    assert_eq!((clipped.layouts.clone(), clipped.overflow), (placed.layouts.clone(), placed.overflow));
    assert_ne!(clipped, placed);
    assert_ne!(clipped.reach(0), placed.reach(0));
    assert!(format!("{placed:?}").ends_with("words: Words { .. } }"));
}

/// A run by words: one box 900 from the left of an area of 800, lists of two records
impl Words {
    fn opened() -> Words {
        let mut w = Words::over(at(Direction::Ltr, 900.0, 12.0, 160.0, 24.0).to_words().to_vec(), 2);
        let candidates = Candidate::default().to_words();
        assert_eq!(w.call(|lent| ffi::open([800.0, 480.0, 0.0, 0.0], [0, 3, 3, 3], &candidates, lent)), 0);
        w
    }
    fn finished() -> Words {
        let mut w = Words::opened();
        assert_eq!(w.call(|lent| ffi::reply(Reply::LaidOut([0.0; 4]), &[], lent)), 0);
        w
    }
    fn call(&mut self, call: impl FnOnce(&mut Lent) -> u32) -> u32 {
        call(&mut self.lent())
    }
    /// Its verdict, or its refusal, which writes none
    fn reach(&self, place: usize) -> Result<[u32; ffi::VERDICT], Refusal> {
        let Words { styles, layouts, working, unclaimed, state, .. } = self;
        let mut verdict = [0xDEAD_0004; ffi::VERDICT];
        match ffi::reach(place, Finished { styles, layouts, working, unclaimed, state }, &mut verdict) {
            0 => Ok(verdict),
            number => {
                assert_eq!(verdict, [0xDEAD_0004; ffi::VERDICT]);
                Err(Refusal::from_number(number).unwrap())
            }
        }
    }
}

/// Each refusal that words can meet, in the order of the tests: each damage comes before those above it
#[test]
fn refused_by_name() {
    let mut w = Words::finished();
    assert_eq!(w.reach(0), Ok([1, 801, 0]));
    w.styles[style::PADDING_LEFT] = 2; // no tag: styles aren't read
    w.unclaimed[2] = 5; // nor is the unclaimed list
    (w.state[state::BEGUN], w.state[state::ANSWERED]) = (7, 99);
    w.state[state::LENGTHS + 4] = 99; // of the tally, which isn't lent
    w.layouts[11] = f32::NAN.to_bits(); // a padding
    assert_eq!(w.reach(0), Ok([1, 801, 0]));
    w.state[state::OVERFLOW] = (-0.1f32).to_bits();
    assert_eq!(w.reach(0), Err(Refusal::NotInEighths));
    w.working[LAYER] = 256;
    assert_eq!(w.reach(0), Err(Refusal::BadCandidate));
    w.working[LAYER] = 255;
    assert_eq!(w.reach(0), Err(Refusal::NotInEighths));
    w.state[state::FILLED_WORKING] = 2; // the second record isn't one
    assert_eq!(w.reach(0), Err(Refusal::BadCandidate));
    w.state[state::FILLED_UNCLAIMED] = 3;
    assert_eq!(w.reach(0), Err(Refusal::WrongReply));
    assert_eq!(w.reach(2), Err(Refusal::BadExtent));
    w.unclaimed.truncate(CANDIDATE);
    assert_eq!(w.reach(0), Err(Refusal::BadExtent));
}

/// An open run has boxes, and no verdict on them; a refused opening has none
#[test]
fn unfinished() {
    let w = Words::opened();
    assert_eq!((w.reach(0), w.reach(1)), (Err(Refusal::WrongReply), Err(Refusal::BadExtent)));
    let mut closed = Words::finished();
    assert_eq!(closed.call(|lent| ffi::open([800.0, 480.0, 0.0, 0.0], [2, 3, 3, 3], &[], lent)), 1);
    assert_eq!(closed.reach(0), Err(Refusal::BadExtent));
    let mut ragged = Words::finished();
    ragged.styles.push(0);
    ragged.state[state::LENGTHS] = u32::try_from(ragged.styles.len()).unwrap();
    assert_eq!(ragged.reach(0), Err(Refusal::BadExtent));
}
