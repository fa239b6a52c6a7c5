//! Whole pixels, for a frame buffer without fractions.
use crate::{ffi, Area, Layout, Placed, Point, Rect, Refusal};

impl Layout {
    /// The pixel edges of the box, counted from the left and top edge of an area at `offset` ([`Area::offset`]), by exact sums.
    ///
    /// An edge of n eighths of a pixel goes to the floor of (n + 4) / 8, also below zero: to the nearest pixel edge, and a half to
    /// the right or down. The box covers the pixels from `left` up to, and not including, `right`, and so from `top` to `bottom`. No
    /// size is rounded by itself: boxes of one area that touch before still touch, and one of less than a pixel may have none. A
    /// negative width has its right edge left of its left one, or equal to it; a negative height the same of bottom and top.
    ///
    /// ```
    /// use oof::*;
    /// let label = Layout {
    ///     location: Point { x: 120.375, y: 52.5 },
    ///     size: Size { width: 80.25, height: 18.0 },
    ///     ..Layout::default()
    /// };
    /// let panel = Point { x: 100.0, y: 40.0 };
    /// assert_eq!(label.pixels(panel), Ok(Rect { left: 20, right: 101, top: 13, bottom: 31 }));
    ///
    /// let off = Layout { location: Point { x: 349.9375, y: 52.5 }, ..label };
    /// assert_eq!(off.pixels(panel), Err(Refusal::NotInEighths));
    /// ```
    ///
    /// Location, size and offset must be whole eighths of a pixel, of at most 9,999,999 eighths (1,249,999.875 pixels) in size;
    /// nothing else is read. Otherwise [`Refusal::NotInEighths`]. A run whose area, lengths, scrollbar widths, static areas and replies
    /// are whole quarter pixels of at most 4,096, without percentage, sum and ratio and without surfaced boxes that are claimed, has no box
    /// that is refused. But a centered box whose free space is an odd count of eighths stands half an eighth off: in an area of 800 at 0, with
    /// left and right inset 0, auto margins and width 100.125, x is 349.9375.
    ///
    /// Edges are not mirrored: a half goes to the right in a right-to-left area too. In an area of 16 eighths a box from 4 to 12
    /// eighths is its own mirror image; its edges are 1 and 2, whose mirror image would be 0 and 1.
    pub fn pixels(&self, offset: Point<f32>) -> Result<Rect<i32>, Refusal> {
        let mut edges = [0; ffi::EDGES];
        Refusal::verdict(ffi::pixels(&self.to_words(), offset.x, offset.y, &mut edges))?;
        let [left, right, top, bottom] = edges;
        Ok(Rect { left, right, top, bottom })
    }
}

impl Placed {
    /// The pixel edges of each box, by item, as [`layouts`](Placed::layouts): `None` for an item that was not placed. Each box has its
    /// own verdict, so that one that isn't in eighths hides no other. `area` is the one that they were placed in.
    pub fn pixels(&self, area: &Area) -> Vec<Option<Result<Rect<i32>, Refusal>>> {
        self.layouts.iter().map(|layout| layout.map(|layout| layout.pixels(area.offset))).collect()
    }
}
