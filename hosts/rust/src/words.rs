//! Records as 32-bit words, floats by their bits: 79 words a style, 14 a candidate, 23 a layout, 10 an answer.
use crate::*;

/// Words of a style
pub const STYLE: usize = 79;
/// Words of a length: tag, value, second value
pub const LENGTH: usize = 3;
/// Which word of a length is its value
pub const VALUE: usize = 1;
/// Which word of a length is its second value, which a sum has: under any other tag it may hold any bits
pub const SECOND: usize = 2;
/// Words of a candidate
pub const CANDIDATE: usize = 14;
/// Which word of a candidate is its layer, 0 to 255
pub const LAYER: usize = 13;
/// Words of a layout
pub const LAYOUT: usize = 23;

/// Which word of a style is which; of a length, its tag, with [`VALUE`] and [`SECOND`] behind it
#[allow(missing_docs)]
pub mod style {
    pub const INSET_LEFT: usize = 0;
    pub const INSET_RIGHT: usize = 3;
    pub const INSET_TOP: usize = 6;
    pub const INSET_BOTTOM: usize = 9;
    pub const MARGIN_LEFT: usize = 12;
    pub const MARGIN_RIGHT: usize = 15;
    pub const MARGIN_TOP: usize = 18;
    pub const MARGIN_BOTTOM: usize = 21;
    pub const PADDING_LEFT: usize = 24;
    pub const PADDING_RIGHT: usize = 27;
    pub const PADDING_TOP: usize = 30;
    pub const PADDING_BOTTOM: usize = 33;
    pub const BORDER_LEFT: usize = 36;
    pub const BORDER_RIGHT: usize = 39;
    pub const BORDER_TOP: usize = 42;
    pub const BORDER_BOTTOM: usize = 45;
    pub const WIDTH: usize = 48;
    pub const HEIGHT: usize = 51;
    pub const MIN_WIDTH: usize = 54;
    pub const MIN_HEIGHT: usize = 57;
    pub const MAX_WIDTH: usize = 60;
    pub const MAX_HEIGHT: usize = 63;
    pub const RATIO_PRESENT: usize = 66;
    pub const RATIO: usize = 67;
    pub const BOX_SIZING: usize = 68;
    pub const FLAGS: usize = 69;
    pub const DIRECTION: usize = 70;
    pub const JUSTIFY: usize = 71;
    pub const JUSTIFY_SAFETY: usize = 72;
    pub const ALIGN: usize = 73;
    pub const ALIGN_SAFETY: usize = 74;
    pub const OVERFLOW_X: usize = 75;
    pub const OVERFLOW_Y: usize = 76;
    pub const SCROLLBAR_WIDTH: usize = 77;
    pub const CONTAIN: usize = 78;
}

/// The tags of lengths
#[allow(missing_docs)]
pub mod tag {
    pub const LENGTH: u32 = 1;
    pub const AUTO: u32 = 3;
    pub const PERCENT: u32 = 5;
    pub const MIN_CONTENT: u32 = 11;
    pub const FIT_CONTENT_PERCENT: u32 = 15;
    pub const MAX_CONTENT: u32 = 27;
    pub const CONTENT: u32 = 35;
    pub const FIT_CONTENT_PX: u32 = 43;
    pub const FIT_CONTENT: u32 = 59;
    pub const STRETCH: u32 = 75;
    pub const SUM: u32 = 129;
}

fn float(word: u32) -> f32 {
    f32::from_bits(word)
}

/// The one of a list with this code
fn coded<T: Copy>(list: &[T], code: u32) -> Option<T> {
    list.get(code as usize).copied()
}

// ---- lengths

/// A length in three words
pub trait Tagged: Copy {
    /// Tag, value and second value; a value that the tag doesn't take is 0
    fn to_words(self) -> [u32; LENGTH];
    /// The length of these words, if the field takes the tag
    fn from_words(words: [u32; LENGTH]) -> Option<Self>;
}

fn bare(tag: u32) -> [u32; LENGTH] {
    [tag, 0, 0]
}
fn with(tag: u32, value: f32) -> [u32; LENGTH] {
    [tag, value.to_bits(), 0]
}
fn sum(factor: f32, pixels: f32) -> [u32; LENGTH] {
    [tag::SUM, factor.to_bits(), pixels.to_bits()]
}

impl Tagged for LengthPercentageAuto {
    fn to_words(self) -> [u32; LENGTH] {
        match self {
            Self::Length(v) => with(tag::LENGTH, v),
            Self::Percent(v) => with(tag::PERCENT, v),
            Self::Sum(v, w) => sum(v, w),
            Self::Auto => bare(tag::AUTO),
        }
    }
    fn from_words([tag, value, second]: [u32; LENGTH]) -> Option<Self> {
        Some(match tag {
            tag::LENGTH => Self::Length(float(value)),
            tag::PERCENT => Self::Percent(float(value)),
            tag::SUM => Self::Sum(float(value), float(second)),
            tag::AUTO => Self::Auto,
            _ => return None,
        })
    }
}

impl Tagged for LengthPercentage {
    fn to_words(self) -> [u32; LENGTH] {
        match self {
            Self::Length(v) => with(tag::LENGTH, v),
            Self::Percent(v) => with(tag::PERCENT, v),
            Self::Sum(v, w) => sum(v, w),
        }
    }
    fn from_words([tag, value, second]: [u32; LENGTH]) -> Option<Self> {
        Some(match tag {
            tag::LENGTH => Self::Length(float(value)),
            tag::PERCENT => Self::Percent(float(value)),
            tag::SUM => Self::Sum(float(value), float(second)),
            _ => return None,
        })
    }
}

impl Tagged for Dimension {
    fn to_words(self) -> [u32; LENGTH] {
        match self {
            Self::Length(v) => with(tag::LENGTH, v),
            Self::Percent(v) => with(tag::PERCENT, v),
            Self::Sum(v, w) => sum(v, w),
            Self::Auto => bare(tag::AUTO),
            Self::MinContent => bare(tag::MIN_CONTENT),
            Self::MaxContent => bare(tag::MAX_CONTENT),
            Self::Content => bare(tag::CONTENT),
            Self::FitContent => bare(tag::FIT_CONTENT),
            Self::FitContentPx(v) => with(tag::FIT_CONTENT_PX, v),
            Self::FitContentPercent(v) => with(tag::FIT_CONTENT_PERCENT, v),
            Self::Stretch => bare(tag::STRETCH),
        }
    }
    fn from_words([tag, value, second]: [u32; LENGTH]) -> Option<Self> {
        Some(match tag {
            tag::LENGTH => Self::Length(float(value)),
            tag::PERCENT => Self::Percent(float(value)),
            tag::SUM => Self::Sum(float(value), float(second)),
            tag::AUTO => Self::Auto,
            tag::MIN_CONTENT => Self::MinContent,
            tag::MAX_CONTENT => Self::MaxContent,
            tag::CONTENT => Self::Content,
            tag::FIT_CONTENT => Self::FitContent,
            tag::FIT_CONTENT_PX => Self::FitContentPx(float(value)),
            tag::FIT_CONTENT_PERCENT => Self::FitContentPercent(float(value)),
            tag::STRETCH => Self::Stretch,
            _ => return None,
        })
    }
}

fn put_lengths<T: Tagged, const N: usize>(w: &mut [u32], lengths: [T; N]) {
    for (words, length) in w.chunks_exact_mut(LENGTH).zip(lengths) {
        words.copy_from_slice(&length.to_words());
    }
}
/// The length at this place of some, from 0
fn length<T: Tagged>(w: &[u32], place: usize) -> Option<T> {
    T::from_words(w[LENGTH * place..][..LENGTH].try_into().ok()?)
}
fn put_sides<T: Tagged>(w: &mut [u32], r: Rect<T>) {
    put_lengths(w, [r.left, r.right, r.top, r.bottom]);
}
fn sides<T: Tagged>(w: &[u32]) -> Option<Rect<T>> {
    Some(Rect { left: length(w, 0)?, right: length(w, 1)?, top: length(w, 2)?, bottom: length(w, 3)? })
}
fn put_size(w: &mut [u32], s: Size<Dimension>) {
    put_lengths(w, [s.width, s.height]);
}
fn size(w: &[u32]) -> Option<Size<Dimension>> {
    Some(Size { width: length(w, 0)?, height: length(w, 1)? })
}

// ---- styles

const NO_KEYWORD: u32 = 10;
const SIZINGS: [BoxSizing; 2] = [BoxSizing::BorderBox, BoxSizing::ContentBox];
const DIRECTIONS: [Direction; 2] = [Direction::Ltr, Direction::Rtl];
const OVERFLOWS: [Overflow; 4] = [Overflow::Visible, Overflow::Clip, Overflow::Hidden, Overflow::Scroll];
const SAFETIES: [AlignmentSafety; 3] = [AlignmentSafety::Default, AlignmentSafety::Unsafe, AlignmentSafety::Safe];
const KEYWORDS: [AlignmentKeyword; 10] = {
    use AlignmentKeyword::*;
    [Normal, Start, End, FlexStart, FlexEnd, SelfStart, SelfEnd, Center, Baseline, Stretch]
};

fn put_alignment(w: &mut [u32], alignment: Option<AlignSelf>) {
    let [keyword, safety] = alignment.map_or([NO_KEYWORD, 0], |a| [a.keyword as u32, a.safety as u32]);
    (w[0], w[1]) = (keyword, safety);
}
fn alignment(w: &[u32]) -> Option<Option<AlignSelf>> {
    if w[0] == NO_KEYWORD {
        return Some(None); // the safety word is ignored
    }
    Some(Some(AlignSelf { keyword: coded(&KEYWORDS, w[0])?, safety: coded(&SAFETIES, w[1])? }))
}

impl Style {
    /// The record of this style
    pub fn to_words(&self) -> [u32; STYLE] {
        let mut w = [0; STYLE];
        put_sides(&mut w[style::INSET_LEFT..], self.inset);
        put_sides(&mut w[style::MARGIN_LEFT..], self.margin);
        put_sides(&mut w[style::PADDING_LEFT..], self.padding);
        put_sides(&mut w[style::BORDER_LEFT..], self.border);
        put_size(&mut w[style::WIDTH..], self.size);
        put_size(&mut w[style::MIN_WIDTH..], self.min_size);
        put_size(&mut w[style::MAX_WIDTH..], self.max_size);
        if let Some(ratio) = self.aspect_ratio {
            (w[style::RATIO_PRESENT], w[style::RATIO]) = (1, ratio.to_bits());
        }
        w[style::BOX_SIZING] = self.box_sizing as u32;
        w[style::FLAGS] = u32::from(self.is_replaced) | u32::from(self.is_table) << 1;
        w[style::DIRECTION] = self.direction as u32;
        put_alignment(&mut w[style::JUSTIFY..], self.justify_self);
        put_alignment(&mut w[style::ALIGN..], self.align_self);
        (w[style::OVERFLOW_X], w[style::OVERFLOW_Y]) = (self.overflow.x as u32, self.overflow.y as u32);
        w[style::SCROLLBAR_WIDTH] = self.scrollbar_width.to_bits();
        w[style::CONTAIN] = u32::from(self.contain.0);
        w
    }
    /// The style of these words; nothing where a code or tag is outside its list
    pub fn from_words(w: &[u32; STYLE]) -> Option<Style> {
        let (present, flags) = (w[style::RATIO_PRESENT], w[style::FLAGS]);
        if present > 1 || flags > 3 {
            return None;
        }
        Some(Style {
            inset: sides(&w[style::INSET_LEFT..])?,
            margin: sides(&w[style::MARGIN_LEFT..])?,
            padding: sides(&w[style::PADDING_LEFT..])?,
            border: sides(&w[style::BORDER_LEFT..])?,
            size: size(&w[style::WIDTH..])?,
            min_size: size(&w[style::MIN_WIDTH..])?,
            max_size: size(&w[style::MAX_WIDTH..])?,
            aspect_ratio: (present == 1).then(|| float(w[style::RATIO])),
            box_sizing: coded(&SIZINGS, w[style::BOX_SIZING])?,
            is_replaced: flags & 1 != 0,
            is_table: flags & 2 != 0,
            direction: coded(&DIRECTIONS, w[style::DIRECTION])?,
            justify_self: alignment(&w[style::JUSTIFY..])?,
            align_self: alignment(&w[style::ALIGN..])?,
            overflow: Point {
                x: coded(&OVERFLOWS, w[style::OVERFLOW_X])?,
                y: coded(&OVERFLOWS, w[style::OVERFLOW_Y])?,
            },
            scrollbar_width: float(w[style::SCROLLBAR_WIDTH]),
            contain: Contain(u8::try_from(w[style::CONTAIN]).ok()?),
        })
    }
}

// ---- candidates

const POSITIONS: [Position; 5] =
    [Position::Static, Position::Relative, Position::Absolute, Position::Fixed, Position::Sticky];
const EDGES: [AxisStaticEdge; 3] = [AxisStaticEdge::Start, AxisStaticEdge::Center, AxisStaticEdge::End];

fn put_axis(w: &mut [u32], a: AxisStaticPosition) {
    let align = a.align;
    let words = [
        a.area.start.to_bits(),
        a.area.end.to_bits(),
        align.keyword as u32,
        align.safety as u32,
        align.fallback as u32,
    ];
    w[..5].copy_from_slice(&words);
}
fn axis(w: &[u32]) -> Option<AxisStaticPosition> {
    Some(AxisStaticPosition {
        area: Line { start: float(w[0]), end: float(w[1]) },
        align: AxisStaticAlign {
            keyword: coded(&EDGES, w[2])?,
            safety: coded(&SAFETIES, w[3])?,
            fallback: coded(&EDGES, w[4])?,
        },
    })
}

impl Candidate {
    /// The record of this candidate
    pub fn to_words(&self) -> [u32; CANDIDATE] {
        let mut w = [0; CANDIDATE];
        (w[0], w[1], w[2]) = (self.node, self.order, self.position as u32);
        put_axis(&mut w[3..], self.static_position.x);
        put_axis(&mut w[8..], self.static_position.y);
        w[LAYER] = u32::from(self.layer);
        w
    }
    /// The candidate of these words; nothing where a code is outside its list, or the layer is above 255
    pub fn from_words(w: &[u32; CANDIDATE]) -> Option<Candidate> {
        Some(Candidate {
            node: w[0],
            order: w[1],
            position: coded(&POSITIONS, w[2])?,
            static_position: Point { x: axis(&w[3..])?, y: axis(&w[8..])? },
            layer: u8::try_from(w[LAYER]).ok()?,
        })
    }
}

// ---- layouts

fn put_rect(w: &mut [u32], r: Rect<f32>) {
    w[..4].copy_from_slice(&[r.left, r.right, r.top, r.bottom].map(f32::to_bits));
}
fn rect(w: &[u32]) -> Rect<f32> {
    Rect { left: float(w[0]), right: float(w[1]), top: float(w[2]), bottom: float(w[3]) }
}

impl Layout {
    /// The record of this layout
    pub fn to_words(&self) -> [u32; LAYOUT] {
        let mut w = [0; LAYOUT];
        w[0] = self.order;
        (w[1], w[2]) = (self.size.width.to_bits(), self.size.height.to_bits());
        put_rect(&mut w[3..], self.scrollable_overflow_rect);
        (w[7], w[8]) = (self.scrollbar_size.width.to_bits(), self.scrollbar_size.height.to_bits());
        (w[9], w[10]) = (self.location.x.to_bits(), self.location.y.to_bits());
        put_rect(&mut w[11..], self.padding);
        put_rect(&mut w[15..], self.border);
        put_rect(&mut w[19..], self.margin);
        w
    }
    /// The layout of these words
    pub fn from_words(w: &[u32; LAYOUT]) -> Layout {
        Layout {
            order: w[0],
            size: Size { width: float(w[1]), height: float(w[2]) },
            scrollable_overflow_rect: rect(&w[3..]),
            scrollbar_size: Size { width: float(w[7]), height: float(w[8]) },
            location: Point { x: float(w[9]), y: float(w[10]) },
            padding: rect(&w[11..]),
            border: rect(&w[15..]),
            margin: rect(&w[19..]),
        }
    }
}

// ---- answers

/// What an accepted call asks next, or the end of the run.
#[derive(Copy, Clone, Debug, PartialEq)]
#[allow(missing_docs)]
#[non_exhaustive]
pub enum Answer {
    /// The overflow of the boxes placed, and the count of questions answered
    Finish {
        overflow: Rect<f32>,
        questions: u32,
    },
    MeasureBoth {
        node: NodeId,
        known: Size<Option<f32>>,
        space: Size<AvailableSpace>,
    },
    MeasureWidth {
        node: NodeId,
        known: Size<Option<f32>>,
        space: Size<AvailableSpace>,
    },
    MeasureHeight {
        node: NodeId,
        known: Size<Option<f32>>,
        space: Size<AvailableSpace>,
    },
    /// `size` is final
    LayOut {
        node: NodeId,
        size: Size<f32>,
        space: Size<AvailableSpace>,
    },
}

fn put_known(w: &mut [u32], known: Option<f32>) {
    (w[0], w[1]) = known.map_or((0, 0), |v| (1, v.to_bits()));
}
fn known(w: &[u32]) -> Option<f32> {
    (w[0] == 1).then(|| float(w[1]))
}
fn put_space(w: &mut [u32], space: AvailableSpace) {
    (w[0], w[1]) = match space {
        AvailableSpace::Definite(v) => (0, v.to_bits()),
        AvailableSpace::MinContent => (1, 0),
        AvailableSpace::MaxContent => (2, 0),
    }
}
fn space(w: &[u32]) -> Option<AvailableSpace> {
    Some(match w[0] {
        0 => AvailableSpace::Definite(float(w[1])),
        1 => AvailableSpace::MinContent,
        2 => AvailableSpace::MaxContent,
        _ => return None,
    })
}

impl Answer {
    /// The words of this answer
    pub fn to_words(&self) -> [u32; ffi::ANSWER] {
        let mut w = [0; ffi::ANSWER];
        let (kind, node, known, space) = match *self {
            Answer::Finish { overflow, questions } => {
                w[1] = questions;
                put_rect(&mut w[2..], overflow);
                return w;
            }
            Answer::MeasureBoth { node, known, space } => (1, node, known, space),
            Answer::MeasureWidth { node, known, space } => (2, node, known, space),
            Answer::MeasureHeight { node, known, space } => (3, node, known, space),
            Answer::LayOut { node, size, space } => {
                (4, node, Size { width: Some(size.width), height: Some(size.height) }, space)
            }
        };
        (w[0], w[1]) = (kind, node);
        put_known(&mut w[2..], known.width);
        put_known(&mut w[4..], known.height);
        put_space(&mut w[6..], space.width);
        put_space(&mut w[8..], space.height);
        w
    }
    /// The answer of these words; nothing where they are no answer of the library
    pub fn from_words(w: &[u32; ffi::ANSWER]) -> Option<Answer> {
        let node = w[1];
        if w[0] == 0 {
            return Some(Answer::Finish { overflow: rect(&w[2..]), questions: w[1] });
        }
        let known = Size { width: known(&w[2..]), height: known(&w[4..]) };
        let space = Size { width: space(&w[6..])?, height: space(&w[8..])? };
        Some(match w[0] {
            1 => Answer::MeasureBoth { node, known, space },
            2 => Answer::MeasureWidth { node, known, space },
            3 => Answer::MeasureHeight { node, known, space },
            4 => Answer::LayOut { node, size: Size { width: known.width?, height: known.height? }, space },
            _ => return None,
        })
    }
}
