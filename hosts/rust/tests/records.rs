//! Every record's words, there and back.
use oof::words::{style, tag, Answer, Tagged, CANDIDATE, LAYER, LAYOUT, LENGTH, SECOND, STYLE};
use oof::*;

const VALUES: [f32; 5] = [0.0, -0.0, 1.5, -250.25, f32::INFINITY];

#[test]
fn lengths() {
    use Dimension as D;
    for v in VALUES {
        for (length, words) in [
            (D::Length(v), [1, v.to_bits(), 0]),
            (D::Percent(v), [5, v.to_bits(), 0]),
            (D::Sum(v, -12.0), [129, v.to_bits(), (-12.0f32).to_bits()]),
            (D::FitContentPx(v), [43, v.to_bits(), 0]),
            (D::FitContentPercent(v), [15, v.to_bits(), 0]),
            (D::Auto, [3, 0, 0]),
            (D::MinContent, [11, 0, 0]),
            (D::MaxContent, [27, 0, 0]),
            (D::Content, [35, 0, 0]),
            (D::FitContent, [59, 0, 0]),
            (D::Stretch, [75, 0, 0]),
        ] {
            assert_eq!(length.to_words(), words);
            assert_eq!(D::from_words(words), Some(length));
            let [tag, value, _] = words; // only a sum has a second value
            assert_eq!(D::from_words([tag, value, 0x7FC0_0001]) == Some(length), tag != tag::SUM);
        }
    }
    // which field takes which tag
    for tag in 0..600 {
        let words = [tag, 0, 0];
        assert_eq!(LengthPercentageAuto::from_words(words).is_some(), [1, 3, 5, 129].contains(&tag));
        assert_eq!(LengthPercentage::from_words(words).is_some(), [1, 5, 129].contains(&tag));
        assert_eq!(D::from_words(words).is_some(), [1, 3, 5, 11, 15, 27, 35, 43, 59, 75, 129].contains(&tag));
    }
}

/// A style in which every field tells itself from the others
fn style() -> Style {
    let auto = |v| LengthPercentageAuto::Length(v);
    let plain = |v| LengthPercentage::Percent(v);
    Style {
        inset: Rect { left: auto(1.0), right: LengthPercentageAuto::Percent(2.0), top: auto(3.0), bottom: auto(4.0) },
        margin: Rect { left: auto(5.0), right: auto(6.0), top: LengthPercentageAuto::Auto, bottom: auto(8.0) },
        padding: Rect { left: plain(9.0), right: plain(10.0), top: plain(11.0), bottom: plain(12.0) },
        border: Rect {
            left: plain(13.0),
            right: plain(14.0),
            top: plain(15.0),
            bottom: LengthPercentage::Length(16.0),
        },
        size: Size { width: Dimension::Length(17.0), height: Dimension::Stretch },
        min_size: Size { width: Dimension::Percent(19.0), height: Dimension::MinContent },
        max_size: Size { width: Dimension::FitContentPx(21.0), height: Dimension::FitContentPercent(22.0) },
        aspect_ratio: Some(1.75),
        box_sizing: BoxSizing::ContentBox,
        is_replaced: false,
        is_table: true,
        direction: Direction::Rtl,
        justify_self: Some(AlignSelf { keyword: AlignmentKeyword::Center, safety: AlignmentSafety::Safe }),
        align_self: Some(AlignSelf { keyword: AlignmentKeyword::Stretch, safety: AlignmentSafety::Unsafe }),
        overflow: Point { x: Overflow::Hidden, y: Overflow::Scroll },
        scrollbar_width: 15.0,
        contain: Contain(0xAB),
    }
}

#[test]
fn styles() {
    let f = f32::to_bits;
    let mut words = vec![];
    for (at, tag) in [1, 5, 1, 1, 1, 1, 3, 1, 5, 5, 5, 5, 5, 5, 5, 1, 1, 75, 5, 11, 43, 15].into_iter().enumerate() {
        words.extend([tag, if [3, 75, 11].contains(&tag) { 0 } else { f(at as f32 + 1.0) }, 0]);
    }
    words.extend([1, f(1.75), 1, 2, 1, 7, 2, 9, 1, 2, 3, f(15.0), 0xAB]);
    let words: [u32; STYLE] = words.try_into().unwrap();
    assert_eq!(style().to_words(), words);
    assert_eq!(Style::from_words(&words), Some(style()));
    assert_eq!(Style::from_words(&Style::default().to_words()), Some(Style::default()));

    // each code up to the last of its list, and the first beyond it
    for (at, last) in [
        (style::RATIO_PRESENT, 1),
        (style::BOX_SIZING, 1),
        (style::FLAGS, 3),
        (style::DIRECTION, 1),
        (style::JUSTIFY, 10),
        (style::JUSTIFY_SAFETY, 2),
        (style::ALIGN, 10),
        (style::ALIGN_SAFETY, 2),
        (style::OVERFLOW_X, 3),
        (style::OVERFLOW_Y, 3),
        (style::CONTAIN, 255),
    ] {
        for code in 0..=last + 1 {
            let mut w = words;
            w[at] = code;
            let read = Style::from_words(&w);
            assert_eq!(read.is_some(), code <= last, "word {at}, code {code}");
            if let Some(style) = read {
                assert_eq!(style.to_words()[at], code);
            }
        }
    }
    // with keyword 10 the safety is ignored
    let mut w = words;
    (w[style::JUSTIFY], w[style::JUSTIFY_SAFETY]) = (10, 9);
    assert_eq!(Style::from_words(&w).unwrap().justify_self, None);
}

/// A sum in each of the 22 lengths, every value its own
#[test]
fn sums() {
    let values = |place: usize| (place as f32 + 0.5, -(place as f32));
    let (edge, pad) = (
        |place| LengthPercentageAuto::Sum(values(place).0, values(place).1),
        |place| LengthPercentage::Sum(values(place).0, values(place).1),
    );
    let side = |place| Dimension::Sum(values(place).0, values(place).1);
    let size = |place| Size { width: side(place), height: side(place + 1) };
    let sums = Style {
        inset: Rect { left: edge(0), right: edge(1), top: edge(2), bottom: edge(3) },
        margin: Rect { left: edge(4), right: edge(5), top: edge(6), bottom: edge(7) },
        padding: Rect { left: pad(8), right: pad(9), top: pad(10), bottom: pad(11) },
        border: Rect { left: pad(12), right: pad(13), top: pad(14), bottom: pad(15) },
        size: size(16),
        min_size: size(18),
        max_size: size(20),
        ..Style::default()
    };
    let mut words = Style::default().to_words();
    for (place, length) in words[..style::RATIO_PRESENT].chunks_exact_mut(LENGTH).enumerate() {
        length.copy_from_slice(&[tag::SUM, values(place).0.to_bits(), values(place).1.to_bits()]);
    }
    assert_eq!(sums.to_words(), words);
    assert_eq!(Style::from_words(&words), Some(sums));
    for at in (0..style::RATIO_PRESENT).step_by(LENGTH) {
        for tag in [4, 6, tag::SUM - 1, tag::SUM + 1, 256 + tag::SUM] {
            let mut w = words;
            w[at] = tag;
            assert_eq!(Style::from_words(&w), None, "word {at}, tag {tag}");
        }
        let mut w = words;
        (w[at], w[at + SECOND]) = (tag::PERCENT, u32::MAX);
        assert_eq!(Style::from_words(&w).map(|style| style.to_words()[at + SECOND]), Some(0), "word {at}");
    }
}

#[test]
fn candidates() {
    let axis = |start, end, keyword, safety, fallback| AxisStaticPosition {
        area: Line { start, end },
        align: AxisStaticAlign { keyword, safety, fallback },
    };
    let candidate = Candidate {
        node: 7,
        order: 8,
        position: Position::Sticky,
        static_position: Point {
            x: axis(1.0, 2.0, AxisStaticEdge::Center, AlignmentSafety::Safe, AxisStaticEdge::End),
            y: axis(3.0, 4.0, AxisStaticEdge::End, AlignmentSafety::Unsafe, AxisStaticEdge::Center),
        },
        layer: 9,
    };
    let f = f32::to_bits;
    let words: [u32; CANDIDATE] = [7, 8, 4, f(1.0), f(2.0), 1, 2, 2, f(3.0), f(4.0), 2, 1, 1, 9];
    assert_eq!(candidate.to_words(), words);
    assert_eq!(Candidate::from_words(&words), Some(candidate));
    for (at, last) in [(2, 4), (5, 2), (6, 2), (7, 2), (10, 2), (11, 2), (12, 2), (LAYER, 255)] {
        for code in (0..=last + 1).chain([257, 512, 1 << 24, 1 << 31, u32::MAX]) {
            let mut w = words;
            w[at] = code;
            let read = Candidate::from_words(&w);
            assert_eq!(read.map(|c| c.to_words()), (code <= last).then_some(w), "word {at}, code {code}");
        }
    }
}

#[test]
fn layouts() {
    let mut words: [u32; LAYOUT] = std::array::from_fn(|i| (i as f32 + 0.5).to_bits());
    words[0] = 9;
    let l = Layout::from_words(&words);
    let rect = |v: f32| Rect { left: v, right: v + 1.0, top: v + 2.0, bottom: v + 3.0 };
    assert_eq!((l.order, l.size.width, l.size.height), (9, 1.5, 2.5));
    assert_eq!((l.scrollable_overflow_rect, l.scrollbar_size.width, l.scrollbar_size.height), (rect(3.5), 7.5, 8.5));
    assert_eq!((l.location.x, l.location.y), (9.5, 10.5));
    assert_eq!((l.padding, l.border, l.margin), (rect(11.5), rect(15.5), rect(19.5)));
    assert_eq!(l.to_words(), words);
}

#[test]
fn answers() {
    let f = f32::to_bits;
    let space = Size { width: AvailableSpace::Definite(5.0), height: AvailableSpace::MaxContent };
    let other = Size { width: AvailableSpace::MinContent, height: AvailableSpace::Definite(6.0) };
    let known = Size { width: None, height: Some(2.0) };
    let overflow = Rect { left: 1.0, right: 2.0, top: 3.0, bottom: 4.0 };
    let size = Size { width: 7.0, height: 8.0 };
    for (answer, words) in [
        (Answer::Finish { overflow, questions: 12 }, [0, 12, f(1.0), f(2.0), f(3.0), f(4.0), 0, 0, 0, 0]),
        (Answer::MeasureBoth { node: 3, known, space }, [1, 3, 0, 0, 1, f(2.0), 0, f(5.0), 2, 0]),
        (Answer::MeasureWidth { node: 3, known, space: other }, [2, 3, 0, 0, 1, f(2.0), 1, 0, 0, f(6.0)]),
        (Answer::MeasureHeight { node: 3, known, space }, [3, 3, 0, 0, 1, f(2.0), 0, f(5.0), 2, 0]),
        (Answer::LayOut { node: 3, size, space }, [4, 3, 1, f(7.0), 1, f(8.0), 0, f(5.0), 2, 0]),
    ] {
        assert_eq!(answer.to_words(), words);
        assert_eq!(Answer::from_words(&words), Some(answer));
    }
    assert_eq!(Answer::from_words(&[5; 10]), None);
    assert_eq!(Answer::from_words(&[1, 0, 0, 0, 0, 0, 3, 0, 0, 0]), None);
}
