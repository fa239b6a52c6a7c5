//! The area, candidates and layouts.
use crate::{AlignmentSafety, Direction, Line, Overflow, Point, Rect, Size};

/// An item: its place in the table of styles.
pub type NodeId = u32;

/// The space that a box may take along one axis.
#[derive(Copy, Clone, Debug, PartialEq)]
pub enum AvailableSpace {
    /// Pixels
    Definite(f32),
    /// As narrow as the content allows
    MinContent,
    /// Without end
    MaxContent,
}

/// Which positions the area is the containing block of.
#[derive(Copy, Clone, Debug, PartialEq, Eq)]
pub struct Claims {
    /// `position: absolute`
    pub absolute: bool,
    /// `position: fixed`
    pub fixed: bool,
}
impl Default for Claims {
    fn default() -> Self {
        Claims { absolute: true, fixed: true }
    }
}

/// The containing block that boxes are placed in. `Default`: of size 0 at 0, left to right, all claimed, overflow visible.
#[derive(Copy, Clone, Debug, Default, PartialEq)]
pub struct Area {
    /// Its size
    pub size: Size<f32>,
    /// Where it begins, in the caller's coordinates: those of candidates and layouts
    pub offset: Point<f32>,
    /// Which way its text runs
    pub direction: Direction,
    /// Which candidates it takes
    pub claims: Claims,
    /// Its overflow along x and y
    pub overflow: Point<Overflow>,
}

/// `position`.
#[derive(Copy, Clone, Debug, Default, PartialEq, Eq)]
#[allow(missing_docs)]
pub enum Position {
    Static = 0,
    Relative = 1,
    #[default]
    Absolute = 2,
    Fixed = 3,
    Sticky = 4,
}

/// The edge of a static area: left or top is the start.
#[derive(Copy, Clone, Debug, Default, PartialEq, Eq)]
#[allow(missing_docs)]
pub enum AxisStaticEdge {
    #[default]
    Start = 0,
    Center = 1,
    End = 2,
}

/// Alignment in a static area.
#[derive(Copy, Clone, Debug, Default, PartialEq, Eq)]
pub struct AxisStaticAlign {
    /// The edge that the box is aligned to
    pub keyword: AxisStaticEdge,
    /// What happens if it doesn't fit
    pub safety: AlignmentSafety,
    /// The edge instead, where `safety` asks for one
    pub fallback: AxisStaticEdge,
}

/// Where a box would stand in normal flow, along one axis.
#[derive(Copy, Clone, Debug, Default, PartialEq)]
pub struct AxisStaticPosition {
    /// From where to where, in the caller's coordinates: the offset of the [`Area`] is included
    pub area: Line<f32>,
    /// How it is aligned in that
    pub align: AxisStaticAlign,
}

/// A box that looks for its containing block. `Default`: item 0, absolute, static position 0, which is the area's corner only
/// where its offset is 0, layer 0.
#[derive(Copy, Clone, Debug, Default, PartialEq)]
pub struct Candidate {
    /// The item
    pub node: NodeId,
    /// Copied to its layout
    pub order: u32,
    /// `position`
    pub position: Position,
    /// Where it would stand in normal flow
    pub static_position: Point<AxisStaticPosition>,
    /// What it is drawn over: every box of a lower layer, and those of its own that are hoisted before it
    /// ([`Placed::drawing_order`](crate::Placed::drawing_order)). Where a box stands doesn't depend on it.
    pub layer: u8,
}

/// Where a box stands.
#[derive(Copy, Clone, Debug, Default, PartialEq)]
pub struct Layout {
    /// The candidate's
    pub order: u32,
    /// Final size, padding and border included
    pub size: Size<f32>,
    /// What the host replied when it laid the box out
    pub scrollable_overflow_rect: Rect<f32>,
    /// What scrollbars take
    pub scrollbar_size: Size<f32>,
    /// Left top corner, in the caller's coordinates: the offset of the [`Area`] is included
    pub location: Point<f32>,
    /// Paddings in pixels
    pub padding: Rect<f32>,
    /// Borders in pixels
    pub border: Rect<f32>,
    /// Margins in pixels, auto ones resolved
    pub margin: Rect<f32>,
}
