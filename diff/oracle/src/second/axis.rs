//! One axis of a box ("One axis" of document 01): the inset-modified block, stretch sizes, margins and position. Places count from
//! the area's start edge, left or top.
use super::Stretch;

#[derive(Copy, Clone, PartialEq)]
pub enum Edge {
    Start,
    Center,
    End,
}
#[derive(Copy, Clone, PartialEq)]
pub enum Safety {
    Default,
    Unsafe,
    Safe,
}
/// A box's own alignment, start and end by the container's direction
#[derive(Copy, Clone, PartialEq)]
pub enum Align {
    Normal,
    Stretch,
    Start,
    Center,
    End,
}

/// A NaN loses to a number, and -0 is below +0
pub fn larger(a: f32, b: f32) -> f32 {
    if a.is_nan() || a < b || (a == b && a.is_sign_negative()) {
        b
    } else {
        a
    }
}
pub fn smaller(a: f32, b: f32) -> f32 {
    if a.is_nan() || b < a || (a == b && b.is_sign_negative()) {
        b
    } else {
        a
    }
}
fn or_zero(v: Option<f32>) -> f32 {
    v.unwrap_or(0.0)
}

#[derive(Copy, Clone)]
pub struct Line {
    pub start: f32,
    pub end: f32,
}
impl Line {
    fn span(self) -> f32 {
        self.end - self.start
    }
    /// Where a margin box of this size starts that is aligned to an edge
    fn aligned(self, size: f32, edge: Edge) -> f32 {
        match edge {
            Edge::Start => self.start,
            Edge::End => self.end - size,
            Edge::Center => (self.start + self.end - size) / 2.0,
        }
    }
}

/// Insets and margins are start and end; an absent one is auto
pub struct Axis {
    /// The area's size
    pub size: f32,
    pub inset: [Option<f32>; 2],
    pub margin: [Option<f32>; 2],
    /// The static area, the edge and the safety that the box has in it
    pub anchor: Line,
    pub anchor_edge: Edge,
    pub anchor_safety: Safety,
    pub align: Align,
    pub safety: Safety,
    /// The x axis
    pub is_inline: bool,
    /// The x axis of a right-to-left container
    pub reversed: bool,
    /// The container scrolls along it
    pub scrolls: bool,
}
impl Axis {
    /// The container's start edge, and its end edge
    fn start_edge(&self) -> Edge {
        if self.reversed {
            Edge::End
        } else {
            Edge::Start
        }
    }
    fn end_edge(&self) -> Edge {
        if self.reversed {
            Edge::Start
        } else {
            Edge::End
        }
    }
    fn has_both_insets(&self) -> bool {
        self.inset.iter().all(Option::is_some)
    }

    /// The inset-modified block. Where its end is below its start it is closed up: the weaker edge moves.
    fn block(&self) -> Line {
        let (Line { start, end }, weaker) = self.open_block();
        match weaker {
            _ if !(end < start) => Line { start, end },
            Edge::Start => Line { start: end, end },
            _ => Line { start, end: start },
        }
    }
    /// Before it is closed up, and its weaker edge: the free side with one inset, else the end edge by direction
    fn open_block(&self) -> (Line, Edge) {
        match self.inset {
            [Some(start), Some(end)] => (Line { start, end: self.size - end }, self.end_edge()),
            [Some(start), None] => (Line { start, end: self.size }, Edge::End),
            [None, Some(end)] => (Line { start: 0.0, end: self.size - end }, Edge::Start),
            [None, None] => (self.anchored_block(), self.end_edge()),
        }
    }
    /// Without insets: from the static area's edge to the area's, or as far to both sides of its center as the nearer edge is
    fn anchored_block(&self) -> Line {
        let Line { start, end } = self.anchor;
        match self.anchor_edge {
            Edge::Start => Line { start, end: self.size },
            Edge::End => Line { start: 0.0, end },
            Edge::Center => {
                let center = (start + end) / 2.0;
                let beyond = self.size - center;
                if center.abs() <= beyond.abs() {
                    Line { start: 0.0, end: 2.0 * center }
                } else {
                    Line { start: self.size - 2.0 * beyond, end: self.size }
                }
            }
        }
    }

    /// The stretch-fit size of steps 3 and 5: the block less the sum of the margins, auto as 0
    pub fn stretch_fit(&self) -> f32 {
        let [start, end] = self.margin.map(or_zero);
        larger(self.block().span() - (start + end), 0.0)
    }
    /// Step 4's stretch size, of the size keywords: margins are taken off in turn. What they are taken off is request #106's change.
    pub fn keyword_stretch(&self, stretch: Stretch) -> f32 {
        let room = match stretch {
            Stretch::FromArea => self.size - or_zero(self.inset[0]) - or_zero(self.inset[1]),
            Stretch::FromBlock => self.block().span(),
        };
        larger(room - or_zero(self.margin[0]) - or_zero(self.margin[1]), 0.0)
    }
    /// Step 5 gives an absent size the stretch-fit size
    pub fn stretches(&self, replaced: bool, table: bool) -> bool {
        let aligned = match self.align {
            Align::Stretch => true,
            Align::Normal => !replaced && !table,
            _ => false,
        };
        self.has_both_insets() && aligned
    }

    /// Margins of a box of this size: auto ones take the free space between two insets
    pub fn margins(&self, size: f32) -> [f32; 2] {
        let free = self.block().span() - size;
        match self.margin {
            [Some(start), Some(end)] => [start, end],
            margin if !self.has_both_insets() => margin.map(or_zero),
            [Some(start), None] => [start, free - start],
            [None, Some(end)] => [free - end, end],
            [None, None] if free < 0.0 && self.is_inline => {
                if self.reversed {
                    [free, 0.0]
                } else {
                    [0.0, free]
                }
            }
            [None, None] => [free / 2.0; 2],
        }
    }

    /// Where a box of this size and these margins starts
    pub fn position(&self, size: f32, margin: [f32; 2]) -> f32 {
        let (block, outer) = (self.block(), size + margin[0] + margin[1]);
        let start = match self.inset {
            [Some(_), None] => block.start,
            [None, Some(_)] => return block.end - size - margin[1],
            [None, None] if self.anchor_safety == Safety::Safe && outer > block.span() => {
                block.aligned(outer, self.start_edge())
            }
            [None, None] => self.anchor.aligned(outer, self.anchor_edge),
            // auto margins have taken the free space
            [Some(_), Some(_)] if self.margin.contains(&None) => block.start,
            [Some(_), Some(_)] => self.aligned_start(block, outer),
        };
        start + margin[0]
    }
    /// Where a margin box of this size starts between two insets
    fn aligned_start(&self, block: Line, outer: f32) -> f32 {
        let as_said = block.aligned(outer, self.edge());
        match self.safety {
            Safety::Safe if outer > block.span() => block.aligned(outer, self.start_edge()),
            Safety::Safe | Safety::Unsafe => as_said,
            Safety::Default if outer <= block.span() || self.align == Align::Normal => as_said,
            Safety::Default => self.limited_start(block, outer, as_said),
        }
    }
    /// Default safety in a block that is too small: as said, but within the limit rectangle; if that is too small, at its start
    fn limited_start(&self, block: Line, outer: f32, as_said: f32) -> f32 {
        let mut limit = Line { start: smaller(block.start, 0.0), end: larger(block.end, self.size) };
        match (self.scrolls, self.reversed) {
            (true, true) => limit.start = f32::NEG_INFINITY,
            (true, false) => limit.end = f32::INFINITY,
            _ => {}
        }
        if outer <= limit.span() {
            larger(smaller(as_said, limit.end - outer), limit.start)
        } else {
            limit.aligned(outer, self.start_edge())
        }
    }
    fn edge(&self) -> Edge {
        match self.align {
            Align::Center => Edge::Center,
            Align::End => self.end_edge(),
            _ => self.start_edge(),
        }
    }
}
