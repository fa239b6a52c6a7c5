//! Another style for one node, tried beside the live placement.
use crate::run::Run;
use crate::{Area, Candidate, Host, NodeId, Placed, Refusal, Room, Style};

/// Tries another style for one node: what [`compute_oof_layout_for_area`](crate::compute_oof_layout_for_area) comes to over a copy of the
/// table with `style` in the place of the node's, given the same area, candidates and replies. The host is asked as if that were the table.
/// Neither the table nor a placement over it changes: a preview has lists, layouts and a tally of its own, with [`Room::MOST`].
///
/// An editor drags an overlay, and shows each place while the live screen stays up:
///
/// ```
/// use oof::*;
///
/// struct Font;
/// impl Host for Font {
///     fn measure_both(&mut self, _: NodeId, _: Size<Option<f32>>, _: Size<AvailableSpace>) -> Size<f32> {
///         Size { width: 120.0, height: 18.0 }
///     }
/// }
///
/// let at = |x, y| Style {
///     inset: Rect { left: LengthPercentageAuto::Length(x), top: LengthPercentageAuto::Length(y), ..Rect::AUTO },
///     ..Style::default()
/// };
/// const OVERLAY: NodeId = 1;
/// let styles = [at(10.0, 40.0), at(20.0, 20.0)];
/// let candidates = [0, OVERLAY].map(|node| Candidate { node, ..Candidate::default() });
/// let panel = Area { size: Size { width: 800.0, height: 480.0 }, ..Area::default() };
/// let live = compute_oof_layout_for_area(&mut Font, &panel, &styles, &candidates).unwrap();
///
/// for (x, y) in [(40.0, 100.0), (200.0, 60.0)] {
///     let tried = preview(&mut Font, &panel, &styles, OVERLAY, &at(x, y), &candidates).unwrap();
///     assert_eq!(tried.layouts[1].unwrap().location, Point { x, y });
///     assert_eq!(tried.layouts[0], live.layouts[0]);
///     assert_eq!(tried.touch().unwrap()[1].edges.left, x as i32); // a preview is read as a placement is
/// }
///
/// // the last one is put into effect
/// let mut styles = styles;
/// let tried = preview(&mut Font, &panel, &styles, OVERLAY, &at(200.0, 60.0), &candidates).unwrap();
/// styles[OVERLAY as usize] = at(200.0, 60.0);
/// assert_eq!(compute_oof_layout_for_area(&mut Font, &panel, &styles, &candidates).unwrap(), tried);
/// ```
///
/// Refused as a placement over that copy is. [`Refusal::BadCandidate`] is also a node that the table hasn't, whatever the candidates;
/// an empty table has none. A table of more than 1,024 styles is [`Refusal::BadExtent`] before that.
pub fn preview(
    host: &mut impl Host,
    area: &Area,
    styles: &[Style],
    node: NodeId,
    style: &Style,
    candidates: &[Candidate],
) -> Result<Placed, Refusal> {
    preview_with(host, area, styles, node, style, candidates, Room::MOST)
}

/// Tries another style for one node, with lists of the given lengths: a [`preview`], as
/// [`compute_oof_layout_with`](crate::compute_oof_layout_with) is a placement.
pub fn preview_with(
    host: &mut impl Host,
    area: &Area,
    styles: &[Style],
    node: NodeId,
    style: &Style,
    candidates: &[Candidate],
    room: Room,
) -> Result<Placed, Refusal> {
    Run::new(styles, room, Some((node, style))).place(host, area, candidates)
}
