//! Which boxes scrolling can bring into view.
use crate::{ffi, Placed, Point, Refusal};

/// Whether scrolling can bring a box into view: [`Placed::reach`].
#[derive(Copy, Clone, Debug, PartialEq, Eq, Hash)]
pub enum Reach {
    /// It can, and it does at these scroll offsets: the least on each axis, in eighths of a pixel, of at most 9,999,998. They count
    /// in scroll direction, away from the area's start edge: a browser's `scrollLeft` in a right-to-left element is the negative.
    Seen {
        /// Across
        x_eighths: u32,
        /// Down
        y_eighths: u32,
    },
    /// No scrolling brings it up
    Unseen,
}

impl Reach {
    /// Whether it is [`Reach::Seen`]
    pub fn is_seen(self) -> bool {
        self != Reach::Unseen
    }
    /// The offsets in pixels, exactly; nothing if the box is unseen
    pub fn offset(self) -> Option<Point<f32>> {
        let pixels = |eighths: u32| eighths as f32 / 8.0; // below 2^24 eighths nothing is rounded
        match self {
            Reach::Seen { x_eighths, y_eighths } => Some(Point { x: pixels(x_eighths), y: pixels(y_eighths) }),
            Reach::Unseen => None,
        }
    }
}

impl Placed {
    /// Whether scrolling can bring a box into view. `place` is its place in [`hoisted`](Placed::hoisted), from 0.
    ///
    /// A box is seen if there are scroll offsets, across and down, at which box and area share a patch of positive width and height.
    /// Each axis is worked out by itself, by exact sums. The box is counted from the area's start edge: down from the top, across from
    /// the left, in a right-to-left area leftwards from the right. An axis that scrolls (`Hidden` or `Scroll`, by its own
    /// [`Overflow`](crate::Overflow)) has the offsets 0, 1, 2 and so on, in eighths of a pixel, up to the far edge of
    /// [`overflow`](Placed::overflow) (right, bottom, in both directions) less the area's size, or 0 alone if that is negative. An axis
    /// that doesn't scroll has 0 alone. To touch is not to share.
    ///
    /// ```
    /// use oof::*;
    ///
    /// struct Font;
    /// impl Host for Font {
    ///     fn measure_both(&mut self, _: NodeId, _: Size<Option<f32>>, _: Size<AvailableSpace>) -> Size<f32> {
    ///         Size { width: 120.0, height: 18.0 }
    ///     }
    /// }
    ///
    /// let from_left = |x| Style {
    ///     inset: Rect { left: LengthPercentageAuto::Length(x), top: LengthPercentageAuto::Length(12.0), ..Rect::AUTO },
    ///     ..Style::default()
    /// };
    /// let overflow = Point { x: Overflow::Scroll, y: Overflow::Scroll };
    /// let panel = Area { size: Size { width: 800.0, height: 480.0 }, overflow, ..Area::default() };
    /// let styles = [from_left(20.0), from_left(900.0), from_left(-120.0)];
    /// let candidates = [0, 1, 2].map(|node| Candidate { node, ..Candidate::default() });
    /// let placed = compute_oof_layout_for_area(&mut Font, &panel, &styles, &candidates).unwrap();
    ///
    /// assert_eq!(placed.reach(0), Ok(Reach::Seen { x_eighths: 0, y_eighths: 0 }));
    /// // at 100 pixels it touches the view; an eighth further the first of it is in view
    /// assert_eq!(placed.reach(1).unwrap().offset(), Some(Point { x: 100.125, y: 0.0 }));
    /// // it ends where the panel begins, and nothing scrolls there
    /// assert_eq!(placed.reach(2), Ok(Reach::Unseen));
    /// assert_eq!(placed.reach(3), Err(Refusal::BadExtent));
    /// ```
    ///
    /// [`Refusal::BadExtent`]: no box has that place. [`Refusal::NotInEighths`]: a number isn't one that
    /// [`Layout::pixels`](crate::Layout::pixels) accepts, of the area's size and offset, of the box's location and size, or of the four
    /// edges of `overflow`, needed or not. If it is the box's own, other boxes may have answers; otherwise none has. One box that stands
    /// half an eighth off and reaches farthest is enough for that.
    ///
    /// What isn't promised: that a seen box has a pixel in view, since the patch may be an eighth wide; that an unseen box is nowhere on
    /// the screen, since what is painted outside a visible area isn't counted as seen; that nothing covers a seen box, or that the area
    /// itself is in view. An item that was claimed twice has its last layout at both places.
    pub fn reach(&self, place: usize) -> Result<Reach, Refusal> {
        let mut verdict = [0; ffi::VERDICT];
        Refusal::verdict(ffi::reach(place, self.words.lent(), &mut verdict))?;
        let [seen, x_eighths, y_eighths] = verdict;
        Ok(if seen == 0 { Reach::Unseen } else { Reach::Seen { x_eighths, y_eighths } })
    }
}
