//! Which box is drawn over which.
use crate::{ffi, Placed, Refusal};

impl Placed {
    /// The order in which the boxes are drawn, as places in [`hoisted`](Placed::hoisted), from 0: lower
    /// [layers](crate::Candidate::layer) first, and within one layer the hoisted order. Each place stands there once; the first is drawn
    /// under all others, the last over them.
    ///
    /// An alarm note is drawn over the reel labels, wherever it stands among the candidates:
    ///
    /// ```
    /// use oof::*;
    ///
    /// struct Font;
    /// impl Host for Font {
    ///     fn measure_both(&mut self, _: NodeId, _: Size<Option<f32>>, _: Size<AvailableSpace>) -> Size<f32> {
    ///         Size { width: 120.0, height: 18.0 }
    ///     }
    /// }
    ///
    /// const LABELS: u8 = 0;
    /// const ALARMS: u8 = 1;
    /// let names = ["first label", "alarm note", "second label"];
    /// let candidates = [
    ///     Candidate { node: 1, layer: ALARMS, ..Candidate::default() },
    ///     Candidate { node: 0, layer: LABELS, ..Candidate::default() },
    ///     Candidate { node: 2, layer: LABELS, ..Candidate::default() },
    /// ];
    /// let from_left = |x| Style { inset: Rect { left: LengthPercentageAuto::Length(x), ..Rect::AUTO }, ..Style::default() };
    /// let styles = [from_left(10.0), from_left(20.0), from_left(30.0)];
    /// let panel = Area { size: Size { width: 800.0, height: 480.0 }, ..Area::default() };
    /// let placed = compute_oof_layout_for_area(&mut Font, &panel, &styles, &candidates).unwrap();
    ///
    /// assert_eq!(placed.hoisted, [1, 0, 2]);
    /// assert_eq!(placed.drawing_order(), [1, 2, 0]); // places, not items
    /// let mut drawn = vec![];
    /// for place in placed.drawing_order() {
    ///     let node = placed.hoisted[place] as usize;
    ///     let layout = placed.layouts[node].expect("it was placed");
    ///     drawn.push((names[node], layout.location.x)); // here a renderer draws the box
    /// }
    /// assert_eq!(drawn, [("first label", 10.0), ("second label", 30.0), ("alarm note", 20.0)]);
    /// ```
    ///
    /// It is as long as `hoisted`: without boxes it is empty. An item that was claimed twice has two places and is drawn twice, both times
    /// with its last layout. Layers count alone: that boxes overlap, or that one hides another, isn't looked at. It goes by the words of
    /// the run, so that nothing is refused here. Its time grows with the boxes times the layers in use, however high these are.
    pub fn drawing_order(&self) -> Vec<usize> {
        let mut order = vec![0; self.words.boxes()];
        Refusal::verdict(ffi::drawing_order(self.words.lent(), &mut order))
            .expect("the words of a finished run are kept");
        order.into_iter().map(|place| place as usize).collect()
    }
}
