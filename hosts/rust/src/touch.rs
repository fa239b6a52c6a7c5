//! What a touch driver reads of the boxes.
use crate::{ffi, NodeId, Placed, Point, Rect, Refusal};

/// A box as a touch driver reads it: [`Placed::touch`].
#[derive(Copy, Clone, Debug, Default, PartialEq)]
pub struct TouchBox {
    /// The item
    pub node: NodeId,
    /// Its pixel edges, counted from the left and top edge of the area: [`Layout::pixels`](crate::Layout::pixels)
    pub edges: Rect<i32>,
}

impl TouchBox {
    /// Whether it covers a pixel: from `left` up to, and not including, `right`, and so from `top` to `bottom`. A box whose width or height
    /// is 0 or negative covers none.
    pub fn covers(&self, pixel: Point<i32>) -> bool {
        let Rect { left, right, top, bottom } = self.edges;
        (left..right).contains(&pixel.x) && (top..bottom).contains(&pixel.y)
    }
}

impl Placed {
    /// What a touch driver reads: the boxes in hoisted order, as [`hoisted`](Placed::hoisted), each with its pixel edges.
    ///
    /// Of the boxes that cover a pixel, the one that is [drawn](Placed::drawing_order) last is touched:
    ///
    /// ```
    /// use oof::*;
    ///
    /// struct Font;
    /// impl Host for Font {
    ///     fn measure_both(&mut self, _: NodeId, _: Size<Option<f32>>, _: Size<AvailableSpace>) -> Size<f32> {
    ///         Size { width: 120.0, height: 18.0 }
    ///     }
    /// }
    ///
    /// let names = ["label", "note"];
    /// let from_left = |x| Style {
    ///     inset: Rect { left: LengthPercentageAuto::Length(x), top: LengthPercentageAuto::Length(12.0), ..Rect::AUTO },
    ///     ..Style::default()
    /// };
    /// let styles = [from_left(-4.5), from_left(100.0)];
    /// // the note is on a higher layer
    /// let candidates = [(1, 1), (0, 0)].map(|(node, layer)| Candidate { node, layer, ..Candidate::default() });
    /// let panel = Area { size: Size { width: 800.0, height: 480.0 }, ..Area::default() };
    /// let placed = compute_oof_layout_for_area(&mut Font, &panel, &styles, &candidates).unwrap();
    ///
    /// let boxes = placed.touch().unwrap();
    /// assert_eq!(boxes[0], TouchBox { node: 1, edges: Rect { left: 100, right: 220, top: 12, bottom: 30 } });
    /// assert_eq!(boxes[1], TouchBox { node: 0, edges: Rect { left: -4, right: 116, top: 12, bottom: 30 } });
    ///
    /// let order = placed.drawing_order();
    /// let hit = |x, y| {
    ///     let mut from_above = order.iter().rev().map(|&place| boxes[place]);
    ///     from_above.find(|b| b.covers(Point { x, y })).map(|b| names[b.node as usize])
    /// };
    /// assert_eq!(hit(99, 12), Some("label"));
    /// assert_eq!(hit(100, 12), Some("note")); // it covers the label
    /// assert_eq!(hit(219, 29), Some("note"));
    /// assert_eq!(hit(220, 29), None);
    /// ```
    ///
    /// An item that was claimed twice stands there twice, both times with its last layout. Without boxes it is empty. It goes by the words
    /// of the run. A driver can't tell apart placements whose areas have the same offset, with the same hoisted order and the same location
    /// and size of each of its items: padding, border, margins, scrollbars, child overflow and order may differ, and all else.
    ///
    /// [`Refusal::NotInEighths`]: a number isn't one that [`Layout::pixels`](crate::Layout::pixels) accepts, of the area's offset or of some
    /// box's location and size. One such box refuses all: a box that auto margins center may stand on a sixteenth, and then there is
    /// nothing for the driver. [`Placed::pixels`] says which box it is, and has the edges of the others; for a bad offset of the area
    /// it refuses each box.
    pub fn touch(&self) -> Result<Vec<TouchBox>, Refusal> {
        let mut words = vec![0; ffi::TOUCH * self.words.boxes()];
        Refusal::verdict(ffi::touch(self.words.lent(), &mut words))?;
        let read = |&[node, ref edges @ ..]: &[u32; ffi::TOUCH]| {
            let [left, right, top, bottom] = edges.map(u32::cast_signed);
            TouchBox { node, edges: Rect { left, right, top, bottom } }
        };
        Ok(words.as_chunks().0.iter().map(read).collect())
    }
}
