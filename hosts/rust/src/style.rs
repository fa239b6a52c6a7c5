//! Styles.
use crate::{Point, Rect, Size};

/// An inset or a margin.
#[derive(Copy, Clone, Debug, PartialEq)]
#[non_exhaustive] // taffy's calc lengths may be more than sums
pub enum LengthPercentageAuto {
    /// Pixels
    Length(f32),
    /// A part of the area's width (of its height for a top or bottom inset), 1 being all of it
    Percent(f32),
    /// Such a part, and so many pixels more: the product is rounded, then the sum. Half the area less 12 pixels is `Sum(0.5, -12.0)`
    Sum(f32, f32),
    /// Left to the placement
    Auto,
}

/// A padding or a border.
#[derive(Copy, Clone, Debug, PartialEq)]
#[non_exhaustive] // taffy's calc lengths may be more than sums
pub enum LengthPercentage {
    /// Pixels
    Length(f32),
    /// A part of the area's width, 1 being all of it
    Percent(f32),
    /// Such a part, and so many pixels more, as [`LengthPercentageAuto::Sum`]
    Sum(f32, f32),
}

/// A size, a min or a max. In min and max anything but a length, a percentage or a sum is the same as
/// `Auto`.
#[derive(Copy, Clone, Debug, PartialEq)]
#[non_exhaustive] // taffy's calc lengths may be more than sums
pub enum Dimension {
    /// Pixels
    Length(f32),
    /// A part of the area, 1 being all of it
    Percent(f32),
    /// Such a part, and so many pixels more, as [`LengthPercentageAuto::Sum`]
    Sum(f32, f32),
    /// Left to the placement
    Auto,
    /// The narrowest size of the content
    MinContent,
    /// The size of the content with room without end
    MaxContent,
    /// Same as `Auto`
    Content,
    /// Measured in what [`Stretch`](Self::Stretch) would be before min and max
    FitContent,
    /// `fit-content(...)` in pixels: measured in that
    FitContentPx(f32),
    /// `fit-content(...)` in parts of the area: measured in that
    FitContentPercent(f32),
    /// The block less the margins; at least 0, clamped by min and max. Where a ratio and the other side are given, the ratio gives this
    /// side instead. The block is what the insets of the axis leave of the area; an auto one beside a given one is 0, and insets that
    /// cross leave 0. Where both are auto, it is measured from the anchor, the edge of the static area that the candidate names, or its
    /// middle: from a start edge to the right (bottom) edge of the area, from the left (top) edge to an end edge, around a center as
    /// far as the nearer edge. An anchor before the area may so make it larger than the area.
    Stretch,
}

impl Rect<LengthPercentageAuto> {
    /// Four times auto
    pub const AUTO: Self = {
        let auto = LengthPercentageAuto::Auto;
        Rect { left: auto, right: auto, top: auto, bottom: auto }
    };
    /// Four times 0 pixels
    pub const ZERO: Self = {
        let zero = LengthPercentageAuto::Length(0.0);
        Rect { left: zero, right: zero, top: zero, bottom: zero }
    };
}
impl Rect<LengthPercentage> {
    /// Four times 0 pixels
    pub const ZERO: Self = {
        let zero = LengthPercentage::Length(0.0);
        Rect { left: zero, right: zero, top: zero, bottom: zero }
    };
}
impl Size<Dimension> {
    /// Both auto
    pub const AUTO: Self = Size { width: Dimension::Auto, height: Dimension::Auto };
}

/// What a size counts.
#[derive(Copy, Clone, Debug, Default, PartialEq, Eq)]
pub enum BoxSizing {
    /// Content, padding and border
    #[default]
    BorderBox = 0,
    /// Content alone
    ContentBox = 1,
}

/// Which way text runs.
#[derive(Copy, Clone, Debug, Default, PartialEq, Eq)]
pub enum Direction {
    /// Left to right
    #[default]
    Ltr = 0,
    /// Right to left
    Rtl = 1,
}

/// What happens to content beyond a box.
#[derive(Copy, Clone, Debug, Default, PartialEq, Eq)]
pub enum Overflow {
    /// It shows
    #[default]
    Visible = 0,
    /// It is cut off
    Clip = 1,
    /// It is cut off; a program may scroll to it
    Hidden = 2,
    /// The box scrolls
    Scroll = 3,
}

/// Where a box goes in its block, by the flow of text.
#[derive(Copy, Clone, Debug, PartialEq, Eq)]
#[allow(missing_docs)]
pub enum AlignmentKeyword {
    Normal = 0,
    Start = 1,
    End = 2,
    FlexStart = 3,
    FlexEnd = 4,
    SelfStart = 5,
    SelfEnd = 6,
    Center = 7,
    Baseline = 8,
    Stretch = 9,
}

/// What an alignment does with a box that doesn't fit.
#[derive(Copy, Clone, Debug, Default, PartialEq, Eq)]
pub enum AlignmentSafety {
    /// Neither word is given
    #[default]
    Default = 0,
    /// The alignment is kept
    Unsafe = 1,
    /// The box goes to the start edge
    Safe = 2,
}

/// `justify-self` or `align-self`.
#[derive(Copy, Clone, Debug, PartialEq, Eq)]
pub struct AlignSelf {
    /// Where the box goes
    pub keyword: AlignmentKeyword,
    /// And if it doesn't fit
    pub safety: AlignmentSafety,
}

/// `contain`, bits 0 (layout) and 1 (paint); the other six may be anything.
#[derive(Copy, Clone, Debug, Default, PartialEq, Eq)]
pub struct Contain(pub u8);
impl Contain {
    /// `contain: layout`
    pub const LAYOUT: Contain = Contain(1);
    /// `contain: paint`
    pub const PAINT: Contain = Contain(2);
}

/// The style of one item. `Default`: insets, sizes, min and max auto, all else 0, absent or the first of its list.
#[derive(Copy, Clone, Debug, PartialEq)]
pub struct Style {
    /// Distances from the area's edges
    pub inset: Rect<LengthPercentageAuto>,
    /// Margins
    pub margin: Rect<LengthPercentageAuto>,
    /// Paddings
    pub padding: Rect<LengthPercentage>,
    /// Borders
    pub border: Rect<LengthPercentage>,
    /// Size
    pub size: Size<Dimension>,
    /// At least this
    pub min_size: Size<Dimension>,
    /// At most this, `min_size` being stronger
    pub max_size: Size<Dimension>,
    /// Width divided by height
    pub aspect_ratio: Option<f32>,
    /// What `size`, `min_size` and `max_size` count
    pub box_sizing: BoxSizing,
    /// An image and the like
    pub is_replaced: bool,
    /// A table
    pub is_table: bool,
    /// The item's own direction, for self-start and self-end
    pub direction: Direction,
    /// Alignment along x; `None` is normal
    pub justify_self: Option<AlignSelf>,
    /// Alignment along y; `None` is normal
    pub align_self: Option<AlignSelf>,
    /// Overflow along x and y
    pub overflow: Point<Overflow>,
    /// What a scrollbar takes
    pub scrollbar_width: f32,
    /// Containment
    pub contain: Contain,
}

impl Default for Style {
    fn default() -> Self {
        Style {
            inset: Rect::AUTO,
            margin: Rect::<LengthPercentageAuto>::ZERO,
            padding: Rect::<LengthPercentage>::ZERO,
            border: Rect::<LengthPercentage>::ZERO,
            size: Size::AUTO,
            min_size: Size::AUTO,
            max_size: Size::AUTO,
            aspect_ratio: None,
            box_sizing: BoxSizing::default(),
            is_replaced: false,
            is_table: false,
            direction: Direction::default(),
            justify_self: None,
            align_self: None,
            overflow: Point::default(),
            scrollbar_width: 0.0,
            contain: Contain::default(),
        }
    }
}
