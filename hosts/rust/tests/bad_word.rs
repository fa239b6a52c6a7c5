//! The first word of a table of styles that breaks a code rule: cases by hand, and every word beside what the types take and an opening
//! refuses.
use oof::ffi::{self, Lent};
use oof::words::{style, tag, LAYOUT, SECOND, STYLE, VALUE};
use oof::*;

/// Good items, but for these words: item, word, code
fn table(items: usize, changes: &[(usize, usize, u32)]) -> Vec<u32> {
    let mut words = Style::default().to_words().repeat(items);
    for &(item, word, code) in changes {
        words[STYLE * item + word] = code;
    }
    words
}
fn first(words: &[u32]) -> Option<(usize, usize)> {
    first_bad_word(words).map(|bad| (bad.item, bad.word))
}

#[test]
fn by_hand() {
    use style::*;
    for (items, changes, expected) in [
        (0, &[][..], None),
        (2, &[], None),
        (2, &[(1, INSET_LEFT, 2)], Some((1, INSET_LEFT))), // not word STYLE
        (2, &[(1, INSET_LEFT, 257)], Some((1, INSET_LEFT))),
        (2, &[(0, CONTAIN, 256), (1, INSET_LEFT, 2)], Some((0, CONTAIN))),
        (2, &[(0, CONTAIN, 255), (1, CONTAIN, 256)], Some((1, CONTAIN))),
        (1, &[(0, JUSTIFY, 11), (0, JUSTIFY_SAFETY, 7)], Some((0, JUSTIFY))),
        (1, &[(0, JUSTIFY, 10), (0, JUSTIFY_SAFETY, 7)], None),
        (1, &[(0, JUSTIFY, 9), (0, JUSTIFY_SAFETY, 3)], Some((0, JUSTIFY_SAFETY))),
        (1, &[(0, RATIO_PRESENT, 2)], Some((0, RATIO_PRESENT))),
        (1, &[(0, RATIO_PRESENT, 1), (0, RATIO, f32::NAN.to_bits())], None),
        (1, &[(0, MARGIN_LEFT, 0), (0, INSET_BOTTOM, tag::MIN_CONTENT)], Some((0, INSET_BOTTOM))),
        (1, &[(0, PADDING_LEFT, tag::AUTO)], Some((0, PADDING_LEFT))),
        (1, &[(0, PADDING_LEFT, tag::SUM)], None),
        (1, &[(0, PADDING_LEFT, tag::SUM), (0, PADDING_LEFT + SECOND, u32::MAX)], None),
        (1, &[(0, INSET_LEFT + SECOND, 2), (0, MAX_HEIGHT, 256 + tag::SUM)], Some((0, MAX_HEIGHT))),
        (1, &[(0, WIDTH, 4), (0, HEIGHT, 6)], Some((0, WIDTH))),
        (1026, &[], None),
        (1026, &[(1024, INSET_RIGHT + VALUE, 2)], None),
        (1026, &[(1025, INSET_LEFT, 2)], Some((1025, INSET_LEFT))),
        (1026, &[(1025, INSET_LEFT, 2), (1024, OVERFLOW_Y, 4)], Some((1024, OVERFLOW_Y))),
    ] {
        assert_eq!(first(&table(items, changes)), expected, "{items} items, {changes:?}");
    }
}

/// A part of a record isn't looked at, wherever it ends
#[test]
fn trailing_part() {
    let words = table(2, &[(1, 0, 2)]);
    for length in 0..2 * STYLE {
        assert_eq!(first_bad_word(&words[..length]), None, "{length}");
    }
    assert_eq!(first(&words), Some((1, 0)));
}

/// Without a bad word the two words keep their bits
#[test]
fn nothing_written() {
    for noise in [[0, 0], [u32::MAX, 0x7FC0_0001]] {
        let mut found = noise;
        assert_eq!(ffi::first_bad_word(&table(2, &[]), &mut found), 0);
        assert_eq!(found, noise);
        assert_eq!(ffi::first_bad_word(&[], &mut found), 0);
        assert_eq!(found, noise);
        assert_eq!(ffi::first_bad_word(&table(3, &[(2, style::DIRECTION, 2)]), &mut found), 1);
        assert_eq!(found, [2, style::DIRECTION as u32]);
    }
}

/// What an opening over a table says, without a candidate
fn opened(styles: &[u32]) -> Option<Refusal> {
    let (mut state, mut answer) = ([0; ffi::STATE], [0; ffi::ANSWER]);
    let mut lent = Lent {
        styles,
        layouts: &mut vec![0; styles.len() / STYLE * LAYOUT],
        working: &mut [],
        unclaimed: &mut [],
        tally: &mut vec![0; styles.len() / STYLE],
        state: &mut state,
        answer: &mut answer,
    };
    Refusal::from_number(ffi::open([200.0, 100.0, 0.0, 0.0], [0, 1, 0, 0], &[], &mut lent))
}

/// Each word of an item, beside a present and an absent keyword: bad where the types have no such style, and an opening refuses it
#[test]
fn every_word() {
    for keyword in [9, 10] {
        for word in 0..STYLE {
            for code in (0..600).chain([65_537, 1 << 24 | 1, 0x7FC0_0000, 1 << 31, u32::MAX]) {
                let words = table(3, &[(1, style::JUSTIFY, keyword), (1, style::ALIGN, keyword), (1, word, code)]);
                let style: [u32; STYLE] = words[STYLE..2 * STYLE].try_into().unwrap();
                let bad = Style::from_words(&style).is_none();
                assert_eq!(first(&words), bad.then_some((1, word)), "word {word}, code {code}");
                assert_eq!(opened(&words), bad.then_some(Refusal::BadStyle), "word {word}, code {code}");
            }
        }
    }
    let long = table(1025, &[(1024, 0, 2)]);
    assert_eq!((first(&long), opened(&long)), (Some((1024, 0)), Some(Refusal::BadExtent)));
    let ragged = &table(2, &[(0, 0, 2)])[..STYLE + 1];
    assert_eq!((first(ragged), opened(ragged)), (Some((0, 0)), Some(Refusal::BadExtent)));
}

/// Typed styles have none
#[test]
fn typed() {
    let (margin, padding) = (LengthPercentageAuto::Percent(f32::NAN), LengthPercentage::Sum(-1.0, f32::INFINITY));
    let sizes = {
        use Dimension::*;
        [Length(1.0), Percent(0.5), Auto, MinContent, MaxContent, Content, FitContent, FitContentPx(2.0)]
            .into_iter()
            .chain([FitContentPercent(0.5), Stretch, Sum(0.5, -12.0)])
    };
    let styles = sizes.map(|d| Style {
        margin: Rect { left: margin, right: LengthPercentageAuto::Auto, top: margin, bottom: margin },
        padding: Rect { left: padding, right: padding, top: padding, bottom: padding },
        size: Size { width: d, height: d },
        min_size: Size { width: d, height: d },
        max_size: Size { width: d, height: d },
        aspect_ratio: Some(f32::NAN),
        box_sizing: BoxSizing::ContentBox,
        is_replaced: true,
        is_table: true,
        direction: Direction::Rtl,
        justify_self: Some(AlignSelf { keyword: AlignmentKeyword::Stretch, safety: AlignmentSafety::Safe }),
        overflow: Point { x: Overflow::Scroll, y: Overflow::Scroll },
        contain: Contain(255),
        ..Style::default()
    });
    assert_eq!(first_bad_word(&styles.flat_map(|style| style.to_words()).collect::<Vec<u32>>()), None);
}

#[test]
fn names() {
    let name = |word| BadWord { item: 3, word }.name();
    for (word, expected) in [
        (style::INSET_LEFT, "inset left, tag"),
        (style::MARGIN_LEFT, "margin left, tag"),
        (style::BORDER_TOP + SECOND, "border top, second value"),
        (style::MAX_HEIGHT + VALUE, "max height, value"),
        (style::RATIO_PRESENT, "ratio present"),
        (style::JUSTIFY, "justify keyword"),
        (style::ALIGN_SAFETY, "align safety"),
        (style::CONTAIN, "contain"),
        (STYLE, "no word of a style"),
        (usize::MAX, "no word of a style"),
    ] {
        assert_eq!(name(word), expected);
    }
    assert_eq!(BadWord { item: 3, word: style::BORDER_LEFT }.to_string(), "item 3: border left, tag");
}
