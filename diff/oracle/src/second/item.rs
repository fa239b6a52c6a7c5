//! One box: what document 01's steps 1, 2, 3 and 5 find, which ask nothing, and what step 4 asks.
use super::axis::{larger, smaller, Align, Axis, Edge, Line, Safety};
use super::Area;
use crate::case::{at, bits, float, LENGTH, STYLE, SUM, UNLAYERED};
use crate::run::Space;

/// Width and height, of which one may be absent
pub type Sizes = [Option<f32>; 2];
const AXES: [usize; 2] = [0, 1];

pub struct Item<'a> {
    style: &'a [u32; STYLE],
    pub axes: [Axis; 2],
    /// left, right, top, bottom
    pub padding: [f32; 4],
    pub border: [f32; 4],
    ratio: Option<f32>,
    min: [f32; 2],
    max: Sizes,
    /// As far as found
    pub known: Sizes,
    /// Step 3's available space
    pub space: [f32; 2],
}

/// What a size keyword comes to
pub enum Keyword {
    Measure(Space),
    Exact(f32),
}

/// Absent for auto and keywords. A sum is rounded twice.
fn length(style: &[u32; STYLE], at: usize, basis: f32) -> Option<f32> {
    let value = float(style[at + 1]);
    match style[at] {
        1 => Some(value),
        5 => Some(basis * value),
        SUM => {
            let product = basis * value;
            Some(product + float(style[at + 2]))
        }
        _ => None,
    }
}
/// left, right, top, bottom, by the basis across and down
fn sides(style: &[u32; STYLE], group: usize, basis: [f32; 2]) -> [Option<f32>; 4] {
    [0, 1, 2, 3].map(|side| length(style, group + LENGTH * side, basis[side / 2]))
}
/// The ratio gives a lone side its other one
fn completed(sizes: Sizes, ratio: Option<f32>) -> Sizes {
    match (sizes, ratio) {
        ([Some(width), None], Some(ratio)) => [Some(width), Some(width / ratio)],
        ([None, Some(height)], Some(ratio)) => [Some(height * ratio), Some(height)],
        _ => sizes,
    }
}
/// Smaller of size and max, then larger of that and min
fn clamp(size: f32, min: f32, max: Option<f32>) -> f32 {
    larger(max.map_or(size, |max| smaller(size, max)), min)
}
/// Self-start and self-end are by the item's own direction, which is another one than the container's where `flipped`
fn align(keyword: u32, flipped: bool) -> Align {
    match keyword {
        0 | 10 => Align::Normal,
        2 | 4 => Align::End,
        5 if flipped => Align::End,
        6 if !flipped => Align::End,
        7 => Align::Center,
        9 => Align::Stretch,
        _ => Align::Start,
    }
}
fn edge(code: u32) -> Edge {
    [Edge::Start, Edge::Center, Edge::End][code as usize]
}
fn safety(code: u32) -> Safety {
    [Safety::Default, Safety::Unsafe, Safety::Safe][code as usize]
}
pub fn definite(v: f32) -> Space {
    Space::Definite(bits(v))
}

impl<'a> Item<'a> {
    /// Steps 1 to 3, by the item's style and the candidate's record
    pub fn new(area: &Area, style: &'a [u32; STYLE], record: &[u32; UNLAYERED]) -> Self {
        let across = [area.size[0]; 2];
        let [padding, border] = [at::PADDING, at::BORDER].map(|g| sides(style, g, across).map(|v| v.unwrap_or(0.0)));
        let side = |i: usize| padding[i] + border[i];
        let floor = [side(0) + side(1), side(2) + side(3)];
        let ratio = (style[at::RATIO_PRESENT] == 1).then(|| float(style[at::RATIO]));
        let more = if style[at::BOX_SIZING] == 1 { floor } else { [0.0; 2] };
        let sizes = |group: usize| -> Sizes {
            let own = AXES.map(|axis| length(style, group + LENGTH * axis, area.size[axis]));
            let own = completed(own, ratio);
            AXES.map(|axis| own[axis].map(|v| v + more[axis]))
        };
        let (known, min, max) = (sizes(at::SIZE), sizes(at::MIN), sizes(at::MAX));
        let min = AXES.map(|axis| min[axis].map_or(floor[axis], |min| larger(min, floor[axis])));
        let axes = AXES.map(|which| axis(area, style, record, which));
        let mut item = Item { style, axes, padding, border, ratio, min, max, known, space: [0.0; 2] };
        item.known = item.clamped(known);
        item.space = AXES.map(|axis| clamp(item.room(axis), item.min[axis], item.max[axis]));
        item
    }
    fn is_replaced(&self) -> bool {
        self.style[at::FLAGS] & 1 != 0
    }
    fn is_table(&self) -> bool {
        self.style[at::FLAGS] & 2 != 0
    }
    fn clamped(&self, sizes: Sizes) -> Sizes {
        AXES.map(|axis| sizes[axis].map(|size| clamp(size, self.min[axis], self.max[axis])))
    }
    /// The stretch-fit size; of a table the smaller of it and the area less margins
    fn room(&self, axis: usize) -> f32 {
        let fit = self.axes[axis].stretch_fit();
        if !self.is_table() {
            return fit;
        }
        let [start, end] = self.axes[axis].margin.map(|margin| margin.unwrap_or(0.0));
        smaller(fit, larger(self.axes[axis].size - (start + end), 0.0))
    }

    /// What the keyword of an absent size asks for, given its stretch size
    pub fn keyword(&self, axis: usize, stretch: f32) -> Option<Keyword> {
        if self.known[axis].is_some() {
            return None;
        }
        let at = at::SIZE + LENGTH * axis;
        let value = float(self.style[at + 1]);
        Some(match self.style[at] {
            11 => Keyword::Measure(Space::MinContent),
            27 => Keyword::Measure(Space::MaxContent),
            15 => Keyword::Measure(definite(self.axes[axis].size * value)),
            43 => Keyword::Measure(definite(value)),
            59 => Keyword::Measure(definite(stretch)),
            75 => Keyword::Exact(stretch),
            _ => return None,
        })
    }
    /// A side more is known: ratio and clamp
    pub fn settle(&mut self, ratio: Option<f32>) {
        self.known = self.clamped(completed(self.known, ratio));
    }
    pub fn settle_by_ratio(&mut self) {
        self.settle(self.ratio);
    }

    /// Step 5: width, then height; two sides that are both told to stretch don't heed the ratio
    pub fn stretch(&mut self) {
        let (replaced, table) = (self.is_replaced(), self.is_table());
        let stretched = AXES.map(|axis| self.known[axis].is_none() && self.axes[axis].stretches(replaced, table));
        let told = self.axes.iter().all(|axis| axis.align == Align::Stretch);
        let ratio = if stretched == [true; 2] && told { None } else { self.ratio };
        for axis in AXES.into_iter().filter(|&axis| stretched[axis]) {
            let fit = self.axes[axis].stretch_fit();
            if table {
                self.min[axis] = larger(self.min[axis], fit);
            } else if self.known[axis].is_none() {
                self.known[axis] = Some(fit);
                self.settle(ratio);
            }
        }
    }
    /// Step 6, given what was measured, if anything
    pub fn final_size(&self, measured: [f32; 2]) -> [f32; 2] {
        AXES.map(|axis| clamp(self.known[axis].unwrap_or(measured[axis]), self.min[axis], self.max[axis]))
    }
}

/// Step 1: insets, margins and static area of an axis, 0 for x and 1 for y
fn axis(area: &Area, style: &[u32; STYLE], record: &[u32; UNLAYERED], which: usize) -> Axis {
    let inset = sides(style, at::INSET, area.size);
    let margin = sides(style, at::MARGIN, [area.size[0]; 2]);
    let anchor = &record[3 + 5 * which..];
    let keyword = [at::JUSTIFY, at::ALIGN][which];
    let item_is_rtl = style[at::DIRECTION] == 1;
    Axis {
        size: area.size[which],
        inset: [inset[2 * which], inset[2 * which + 1]],
        margin: [margin[2 * which], margin[2 * which + 1]],
        anchor: Line { start: float(anchor[0]) - area.offset[which], end: float(anchor[1]) - area.offset[which] },
        anchor_edge: edge(anchor[2]),
        anchor_safety: safety(anchor[3]),
        align: align(style[keyword], which == 0 && item_is_rtl != area.rtl),
        safety: if style[keyword] == 10 { Safety::Default } else { safety(style[keyword + 1]) },
        is_inline: which == 0,
        reversed: which == 0 && area.rtl,
        scrolls: area.scrolls[which],
    }
}
