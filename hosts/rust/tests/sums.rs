//! Sums of a percentage and a length: "half the area less 12 px" in every length, and what second values don't do.
use oof::ffi::{self, Lent, Reply};
use oof::words::{style, tag, Answer, CANDIDATE, LAYOUT, LENGTH, SECOND, STYLE, VALUE};
use oof::*;

const FONT: Size<f32> = Size { width: 120.0, height: 18.0 };
const PANEL: Size<f32> = Size { width: 800.0, height: 480.0 };
const SMALL: Size<f32> = Size { width: 200.0, height: 100.0 };

/// All that a run over one style writes
#[derive(PartialEq, Debug)]
struct Written {
    layout: [u32; LAYOUT],
    records: [[u32; CANDIDATE]; 2],
    answer: [u32; ffi::ANSWER],
    questions: Vec<[u32; ffi::ANSWER]>,
}
impl Written {
    fn layout(&self) -> Layout {
        Layout::from_words(&self.layout)
    }
}

/// A run in an area at 0, 0, over words: each measurement gives the font's size, and nothing surfaces
fn run(area: Size<f32>, direction: Direction, styles: &[u32]) -> Result<Written, Refusal> {
    let (mut layout, mut working, mut unclaimed, mut tally) = ([0; LAYOUT], [0; CANDIDATE], [0; CANDIDATE], [0]);
    let (mut state, mut answer, mut questions) = ([0; ffi::STATE], [0; ffi::ANSWER], vec![]);
    let mut reply = None;
    loop {
        let mut lent = Lent {
            styles,
            layouts: &mut layout,
            working: &mut working,
            unclaimed: &mut unclaimed,
            tally: &mut tally,
            state: &mut state,
            answer: &mut answer,
        };
        let number = match reply {
            None => {
                let codes = [direction as u32, 1, 0, 0];
                let candidate = Candidate::default().to_words();
                ffi::open([area.width, area.height, 0.0, 0.0], codes, &candidate, &mut lent)
            }
            Some(reply) => ffi::reply(reply, &[], &mut lent),
        };
        if let Some(refusal) = Refusal::from_number(number) {
            return Err(refusal);
        }
        let asked = Answer::from_words(&answer).expect("an answer");
        reply = Some(match asked {
            Answer::MeasureBoth { .. } => Reply::Both(FONT.width, FONT.height),
            Answer::MeasureWidth { .. } => Reply::Width(FONT.width),
            Answer::MeasureHeight { .. } => Reply::Height(FONT.height),
            Answer::LayOut { .. } => Reply::LaidOut([0.0; 4]),
            _ => return Ok(Written { layout, records: [working, unclaimed], answer, questions }),
        });
        questions.push(answer);
    }
}
fn placed(area: Size<f32>, style: &Style) -> Written {
    run(area, Direction::Ltr, &style.to_words()).expect("nothing here is refused")
}
/// The default style with some words changed
fn changed(changes: &[(usize, u32)]) -> [u32; STYLE] {
    let mut words = Style::default().to_words();
    changes.iter().for_each(|&(word, code)| words[word] = code);
    words
}
/// The words of a length at this word of a style
fn length(at: usize, tag: u32, value: f32, second: f32) -> [(usize, u32); LENGTH] {
    [(at, tag), (at + VALUE, value.to_bits()), (at + SECOND, second.to_bits())]
}
fn lengths() -> impl Iterator<Item = usize> {
    (0..style::RATIO_PRESENT).step_by(LENGTH)
}

#[test]
fn half_the_area_less_12_px() {
    struct Font;
    impl Host for Font {
        fn measure_both(&mut self, _: NodeId, _: Size<Option<f32>>, _: Size<AvailableSpace>) -> Size<f32> {
            FONT
        }
    }
    let (half, top) = (LengthPercentageAuto::Sum(0.5, -12.0), LengthPercentageAuto::Sum(0.25, 6.0));
    for (direction, inset, x) in [
        (Direction::Ltr, Rect { left: half, top, ..Rect::AUTO }, 100.0 + 388.0),
        (Direction::Rtl, Rect { right: half, top, ..Rect::AUTO }, 100.0 + 800.0 - 388.0 - FONT.width),
    ] {
        let panel = Area { size: PANEL, offset: Point { x: 100.0, y: 40.0 }, direction, ..Area::default() };
        let label = Style { inset, direction, ..Style::default() };
        let placed = compute_oof_layout_for_area(&mut Font, &panel, &[label], &[Candidate::default()]).unwrap();
        let layout = placed.layouts[0].unwrap();
        assert_eq!((layout.location, layout.size), (Point { x, y: 40.0 + 126.0 }, FONT), "{direction:?}");
    }
}

/// What the length at this word comes to in a box of its own, as the layout tells
fn came_to(at: usize, value: f32, second: f32) -> f32 {
    let size = if at < style::MAX_WIDTH { 10.0 } else { 90.0 }; // a min raises it, a max lowers it
    let mut changes = vec![];
    for of in [style::WIDTH, style::HEIGHT] {
        changes.extend(length(of, tag::LENGTH, size, 0.0));
    }
    changes.extend(length(at, tag::SUM, value, second));
    let Layout { location: Point { x, y }, size: box_size, margin, padding, border, .. } =
        run(SMALL, Direction::Ltr, &changed(&changes)).expect("every length takes a sum").layout();
    let side = at / LENGTH % 4;
    let of = |r: Rect<f32>| [r.left, r.right, r.top, r.bottom][side];
    match at {
        style::MARGIN_LEFT..style::PADDING_LEFT => of(margin),
        style::PADDING_LEFT..style::BORDER_LEFT => of(padding),
        style::BORDER_LEFT..style::WIDTH => of(border),
        style::WIDTH.. => [box_size.width, box_size.height][side % 2],
        _ => [x, SMALL.width - x - size, y, SMALL.height - y - size][side],
    }
}

/// Whether a length goes by the area's height
fn goes_by_height(at: usize) -> bool {
    [style::INSET_TOP, style::INSET_BOTTOM].contains(&at) || at >= style::WIDTH && at / LENGTH % 2 == 1
}

/// Every length takes a sum, each by its basis; the tags beside it none does
#[test]
fn in_every_length() {
    for at in lengths() {
        assert_eq!(came_to(at, 0.25, -3.0), if goes_by_height(at) { 22.0 } else { 47.0 }, "word {at}");
        for no_tag in [4, 6, tag::SUM - 1, tag::SUM + 1, 256 + tag::SUM] {
            let words = changed(&length(at, no_tag, 0.5, -12.0));
            assert_eq!(run(SMALL, Direction::Ltr, &words), Err(Refusal::BadStyle), "word {at}, tag {no_tag}");
            assert_eq!(first_bad_word(&words), Some(BadWord { item: 0, word: at }), "word {at}, tag {no_tag}");
        }
    }
}

/// The product is rounded before the second value is added: 10 × 0.1 is 1, and fused the sum would be 1.5e-8
#[test]
fn two_roundings() {
    let area = Size { width: 10.0, height: 10.0 };
    let inset = Rect { left: LengthPercentageAuto::Sum(0.1, -1.0), ..Rect::AUTO };
    assert_eq!(0.1f32.mul_add(10.0, -1.0), 1.490_116_1e-8);
    assert_eq!(placed(area, &Style { inset, ..Style::default() }).layout().location.x, 0.0);
}

/// A missing basis counts as with a percentage: what an infinite area leaves of it is a number, and not the second value alone
#[test]
fn in_an_infinite_area() {
    let area = Size { width: f32::INFINITY, ..SMALL };
    for (value, second, expected) in [(0.0, 12.0, f32::NAN), (0.5, -12.0, f32::INFINITY), (0.0, 0.0, f32::NAN)] {
        let of = |tag| {
            let words = changed(&length(style::MARGIN_LEFT, tag, value, second));
            run(area, Direction::Ltr, &words).unwrap().layout().margin.left.to_bits()
        };
        assert_eq!((of(tag::SUM), of(tag::PERCENT)), (expected.to_bits(), expected.to_bits()));
    }
}

/// A sum comes to a number: it is known in questions, a ratio completes from it, content-box adds to it, min and max count
#[test]
fn no_keyword() {
    use Dimension::*;
    let known_width = |max: Dimension, min: Dimension| {
        let written = placed(
            SMALL,
            &Style {
                size: Size { width: Sum(0.5, -12.0), height: MinContent },
                min_size: Size { width: min, height: Auto },
                max_size: Size { width: max, height: Auto },
                ..Style::default()
            },
        );
        match Answer::from_words(&written.questions[0]) {
            Some(Answer::MeasureHeight { known, .. }) => known.width,
            other => panic!("{other:?}"),
        }
    };
    assert_eq!(known_width(Auto, Auto), Some(88.0));
    assert_eq!(known_width(Sum(0.25, 30.0), Auto), Some(80.0));
    assert_eq!(known_width(Sum(0.25, 30.0), Sum(0.5, -1.0)), Some(99.0));

    let size = Size { width: Sum(0.5, -12.0), height: Auto };
    let by_ratio = placed(SMALL, &Style { size, aspect_ratio: Some(2.0), ..Style::default() });
    assert_eq!((by_ratio.questions.len(), by_ratio.layout().size), (1, Size { width: 88.0, height: 44.0 }));
    let padding = Rect { left: LengthPercentage::Sum(0.25, 3.0), ..Rect::<LengthPercentage>::ZERO };
    let content = Style { size, padding, box_sizing: BoxSizing::ContentBox, ..Style::default() };
    assert_eq!(placed(SMALL, &content).layout().size.width, 88.0 + 53.0);
}

/// With second value -0.0 a sum is what a percentage is; under other tags a second value is none
#[test]
fn second_values() {
    for at in lengths() {
        for direction in [Direction::Ltr, Direction::Rtl] {
            let of = |tag, second| run(PANEL, direction, &changed(&length(at, tag, 0.3, second)));
            let sum = of(tag::SUM, -0.0);
            assert!(sum.is_ok(), "word {at}");
            assert_eq!(sum, of(tag::PERCENT, 0.0), "word {at}");
            for tag in 0..=tag::STRETCH {
                let none = of(tag, 0.0);
                for second in [12.0, -0.0, f32::NEG_INFINITY, f32::from_bits(0x7F80_0001), f32::from_bits(1)] {
                    assert_eq!(of(tag, second), none, "word {at}, tag {tag}, second value {second}");
                }
            }
        }
    }
}

/// A sum, and the pixels that it comes to, are placed alike in every two lengths
#[test]
fn as_the_pixels_it_comes_to() {
    let values = [(0.5, -12.0), (0.1, -20.0), (-0.25, 7.125), (1.0e30, 1.0), (f32::NAN, 3.0), (0.0, f32::INFINITY)];
    for (first, second) in lengths().flat_map(|a| lengths().map(move |b| (a, b))) {
        for (value, added) in values {
            let of = |worked: bool| {
                let words = [first, second].map(|at| {
                    let basis = if goes_by_height(at) { PANEL.height } else { PANEL.width };
                    let product = basis * value;
                    if worked {
                        length(at, tag::LENGTH, product + added, 0.0)
                    } else {
                        length(at, tag::SUM, value, added)
                    }
                });
                run(PANEL, Direction::Ltr, &changed(&words.concat())).unwrap()
            };
            assert_eq!(of(false), of(true), "words {first} and {second}, {value} and {added}");
        }
    }
}

/// A style of 57 words, as it was before sums, is no table
#[test]
fn record_of_57() {
    assert_eq!(run(SMALL, Direction::Ltr, &[0; 57]), Err(Refusal::BadExtent));
}
