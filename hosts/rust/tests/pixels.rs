//! Whole pixels: the rows of the request, and boxes of runs.
use oof::ffi;
use oof::*;

/// A box along x, in eighths, in an area at `offset`; along y it stands apart from that.
fn row(x: i32, width: i32, offset: i32) -> Result<Rect<i32>, Refusal> {
    let eighths = |n: i32| n as f32 / 8.0;
    let layout = Layout {
        location: Point { x: eighths(x), y: eighths(-13) },
        size: Size { width: eighths(width), height: eighths(25) },
        padding: Rect { left: f32::NAN, right: f32::INFINITY, top: 0.1, bottom: -0.0 },
        ..Layout::default()
    };
    layout.pixels(Point { x: eighths(offset), y: 0.0 })
}
fn edges(left: i32, right: i32) -> Result<Rect<i32>, Refusal> {
    Ok(Rect { left, right, top: -2, bottom: 2 })
}

#[test]
fn rows() {
    const MOST: i32 = 9_999_999;
    for (n, pixel) in [(-13, -2), (-12, -1), (-5, -1), (-4, 0), (3, 0), (4, 1), (11, 1), (12, 2)] {
        assert_eq!(row(n, 0, 0), edges(pixel, pixel), "{n}");
        assert_eq!(row(n + 800, 0, 800), edges(pixel, pixel), "{n}");
    }
    for (x, width, offset, left, right) in [
        (MOST, 0, -6_777_220, 2_097_152, 2_097_152), // an f32 sum would be an eighth more
        (3, 3, 0, 0, 1),
        (6, 3, 0, 1, 1),
        (4, 7, 0, 1, 1),
        (0, -8, 0, 0, -1),
        (MOST, MOST, -MOST, 2_500_000, 3_750_000),
        (-MOST, -MOST, MOST, -2_500_000, -3_750_000),
    ] {
        assert_eq!(row(x, width, offset), edges(left, right), "{x} {width} {offset}");
    }
    assert_eq!(row(MOST + 1, 0, 0), Err(Refusal::NotInEighths));
}

/// Any of the six may be the one that isn't in eighths; the edges then keep their bits
#[test]
fn refused() {
    let good = Layout { size: Size { width: 1.0, height: 1.0 }, ..Layout::default() };
    for bad in [0.0625, 1_250_000.0, -1_250_000.0, f32::NAN, f32::INFINITY, f32::MIN_POSITIVE, f32::from_bits(1)] {
        for place in 0..6 {
            let mut numbers = [0.0, -0.0, 1.0, 1.0, 0.0, 0.0];
            numbers[place] = bad;
            let [x, y, width, height, ox, oy] = numbers;
            let layout = Layout { location: Point { x, y }, size: Size { width, height }, ..good };
            assert_eq!(layout.pixels(Point { x: ox, y: oy }), Err(Refusal::NotInEighths), "{bad} at {place}");
            let mut edges = [1, -2, 3, i32::MIN];
            assert_eq!(ffi::pixels(&layout.to_words(), ox, oy, &mut edges), 9);
            assert_eq!(edges, [1, -2, 3, i32::MIN]);
        }
    }
    assert_eq!(good.pixels(Point::default()), Ok(Rect { left: 0, right: 1, top: 0, bottom: 1 }));
}

struct Font;
impl Host for Font {
    fn measure_both(&mut self, _: NodeId, _: Size<Option<f32>>, _: Size<AvailableSpace>) -> Size<f32> {
        Size { width: 100.125, height: 18.0 }
    }
}

/// Boxes of a run, each by itself: one in eighths, one centered on a sixteenth, one that isn't placed
#[test]
fn boxes_of_a_run() {
    let px = LengthPercentageAuto::Length;
    let start = Style { inset: Rect { left: px(20.5), top: px(12.0), ..Rect::AUTO }, ..Style::default() };
    let centered = Style {
        inset: Rect { left: px(0.0), right: px(0.0), top: px(12.0), ..Rect::AUTO },
        margin: Rect {
            left: LengthPercentageAuto::Auto,
            right: LengthPercentageAuto::Auto,
            top: px(0.0),
            bottom: px(0.0),
        },
        size: Size { width: Dimension::Length(100.125), height: Dimension::Auto },
        ..Style::default()
    };
    let offset = Point { x: 100.0, y: 40.0 };
    let panel = Area { size: Size { width: 800.0, height: 480.0 }, offset, ..Area::default() };
    let candidates = [Candidate::default(), Candidate { node: 1, ..Candidate::default() }];
    let styles = [start, centered, Style::default()];
    let placed = compute_oof_layout_for_area(&mut Font, &panel, &styles, &candidates).unwrap();
    assert_eq!(placed.layouts[1].unwrap().location.x, 100.0 + 349.9375);
    // 20.5 and 120.625: both edges are rounded, and the box is 100 wide
    let first = Rect { left: 21, right: 121, top: 12, bottom: 30 };
    assert_eq!(placed.pixels(&panel), [Some(Ok(first)), Some(Err(Refusal::NotInEighths)), None]);
}

/// A run can write a negative width, and it is accepted
#[test]
fn negative_width() {
    let px = LengthPercentageAuto::Length;
    let zero = LengthPercentage::Length(0.0);
    let style = Style {
        inset: Rect { left: px(0.0), top: px(0.0), ..Rect::AUTO },
        padding: Rect { left: LengthPercentage::Length(-1.0), right: zero, top: zero, bottom: zero },
        size: Size { width: Dimension::Length(-1.0), height: Dimension::Length(1.0) },
        ..Style::default()
    };
    let panel = Area { size: Size { width: 100.0, height: 100.0 }, ..Area::default() };
    let placed = compute_oof_layout_for_area(&mut Font, &panel, &[style], &[Candidate::default()]).unwrap();
    assert_eq!(placed.layouts[0].unwrap().size.width, -1.0);
    assert_eq!(placed.pixels(&panel), [Some(Ok(Rect { left: 0, right: -1, top: 0, bottom: 1 }))]);
}

/// Surfaces the box that it lays out, until so many are laid out
struct Nested(usize);
impl Host for Nested {
    fn measure_both(&mut self, _: NodeId, _: Size<Option<f32>>, _: Size<AvailableSpace>) -> Size<f32> {
        unreachable!("its size is given")
    }
    fn lay_out(&mut self, _: NodeId, _: Size<f32>, _: Size<AvailableSpace>) -> LaidOut {
        self.0 -= 1;
        let surfaced = if self.0 > 0 { vec![far()] } else { vec![] };
        LaidOut { overflow: Rect::default(), surfaced }
    }
}
fn far() -> Candidate {
    let x = AxisStaticPosition { area: Line { start: 4096.0, end: 4096.0 }, ..AxisStaticPosition::default() };
    Candidate { static_position: Point { x, y: AxisStaticPosition::default() }, ..Candidate::default() }
}

/// Whole quarter pixels of at most 4,096, but surfaced boxes that are claimed: the 153rd is too far out
#[test]
fn generations() {
    let px = LengthPercentageAuto::Length;
    let style = Style {
        margin: Rect { left: px(4096.0), right: px(0.0), top: px(0.0), bottom: px(0.0) },
        size: Size { width: Dimension::Length(1.0), height: Dimension::Length(1.0) },
        ..Style::default()
    };
    let panel = Area { size: Size { width: 100.0, height: 100.0 }, ..Area::default() };
    let last = |boxes: usize| {
        let placed = compute_oof_layout_for_area(&mut Nested(boxes), &panel, &[style], &[far()]).unwrap();
        assert_eq!(placed.hoisted.len(), boxes);
        (placed.layouts[0].unwrap().location.x * 8.0, placed.pixels(&panel)[0].unwrap())
    };
    assert_eq!(last(152), (9_961_472.0, Ok(Rect { left: 1_245_184, right: 1_245_185, top: 0, bottom: 1 })));
    assert_eq!(last(153), (10_027_008.0, Err(Refusal::NotInEighths)));
}
