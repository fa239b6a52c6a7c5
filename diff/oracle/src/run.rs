//! One run of `compute_oof_layout_for_area` over a scripted tree, written down as a dialogue.
use crate::case::{self, bits, float, Area, Case, Refused, Sums, CANDIDATE, LAYOUT, UNLAYERED};
use crate::compute::common::scrollable_overflow::compute_scrollable_overflow_contribution;
use crate::compute::oof::compute_oof_layout_for_area;
use crate::{
    AvailableSpace, ContainingBlockClaims, Layout, LayoutContainingBlock, LayoutInput, LayoutOutput, LayoutPartialTree,
    NodeId, OofCandidate, OofCandidates, OofPositioningArea, Point, Rect, RequestedAxis, RunMode, Size, SizingMode,
    Style, TraversePartialTree,
};

#[derive(Copy, Clone, Debug, PartialEq, Eq)]
pub enum Kind {
    Both,
    Width,
    Height,
    LayOut,
}
#[derive(Copy, Clone, Debug, PartialEq, Eq)]
pub enum Space {
    Definite(u32),
    MinContent,
    MaxContent,
}
/// A question. For `LayOut` both known sizes are there: the final size.
#[derive(Copy, Clone, Debug, PartialEq, Eq)]
pub struct Question {
    pub kind: Kind,
    pub node: u32,
    pub known: [Option<u32>; 2],
    pub space: [Space; 2],
}
/// Answers questions. A reply is 2 words to `Both` (width, height), 1 word to `Width` or `Height`,
/// and to `LayOut` 4 words (overflow left, right, top, bottom) and then 14 for each surfaced candidate.
pub trait Host {
    fn answer(&mut self, question: &Question) -> Vec<u32>;
}
impl Host for Box<dyn Host> {
    fn answer(&mut self, question: &Question) -> Vec<u32> {
        (**self).answer(question)
    }
}

/// What laying out one box wrote
#[derive(Copy, Clone, Debug, PartialEq)]
pub struct Laid {
    pub node: u32,
    pub layout: [u32; LAYOUT],
    /// Records in the two lists after it, its surfaced ones included
    pub working: usize,
    pub unclaimed: usize,
    /// The union of the contributions so far. The Rust keeps it to itself; it is rebuilt here with taffy's
    /// `compute_scrollable_overflow_contribution` and `union`, and the last one is held to the result.
    pub overflow: [u32; 4],
}
#[derive(Clone, Debug, Default, PartialEq)]
pub struct Transcript {
    pub questions: Vec<Question>,
    pub replies: Vec<Vec<u32>>,
    /// By node; how often the Rust called back to measure it or to lay it out, and was answered (request #107)
    pub tally: Vec<u32>,
    /// Box by box
    pub laid: Vec<Laid>,
    /// By node; the last layout written
    pub layouts: Vec<Option<[u32; LAYOUT]>>,
    pub hoisted: Vec<u32>,
    /// The records behind `hoisted`, surfaced ones shifted, without their layers. The Rust keeps this list to
    /// itself; it is rebuilt here with taffy's `for_position` and `translate`.
    pub working: Vec<[u32; UNLAYERED]>,
    pub unclaimed: Vec<[u32; UNLAYERED]>,
    /// left, right, top, bottom
    pub overflow: [u32; 4],
}

struct Script<'h> {
    container: Style,
    styles: Vec<Style>,
    sums: Sums,
    area: Area,
    /// The union of the contributions so far
    overflow: Rect<f32>,
    /// Surfaced by the box that is being laid out
    surfaced: OofCandidates,
    host: &'h mut dyn Host,
    out: Transcript,
}

pub fn run(case: &Case, host: &mut dyn Host) -> Result<Transcript, Refused> {
    let area = case::area(&case.area)?;
    let n = case.styles.len();
    if n > 1024 {
        return Err(2);
    }
    let mut sums = Sums::default();
    let styles = case.styles.iter().map(|w| case::style(w, &mut sums)).collect::<Result<Vec<_>, _>>()?;
    let candidates = case.candidates.iter().map(|w| case::candidate(w, n)).collect::<Result<Vec<_>, _>>()?;
    let container = Style { overflow: area.overflow, ..Style::DEFAULT };
    let out = Transcript { tally: vec![0; n], layouts: vec![None; n], ..Default::default() };
    let (overflow, surfaced) = (Rect::ZERO, OofCandidates::NONE);
    let mut tree = Script { container, styles, sums, area, overflow, surfaced, host, out };
    tree.sweep(&candidates);
    let (direction, claims) = (tree.area.direction, tree.area.claims);
    let area = OofPositioningArea { size: tree.area.size, offset: tree.area.offset };
    let result = compute_oof_layout_for_area(&mut tree, NodeId::new(u64::MAX), &candidates, area, direction, claims);
    assert_eq!(rect(tree.overflow).map(no_sign), rect(result.scrollable_overflow_rect).map(no_sign));
    let mut out = tree.out;
    out.hoisted = result.hoisted.iter().map(|&node| usize::from(node) as u32).collect();
    assert!(out.working.iter().map(|w| &w[0]).eq(&out.hoisted));
    let unclaimed: Vec<_> = result.unclaimed.iter().map(case::candidate_words).collect();
    assert_eq!(out.unclaimed, unclaimed);
    out.overflow = rect(result.scrollable_overflow_rect);
    Ok(out)
}

impl Script<'_> {
    fn sweep(&mut self, candidates: &[OofCandidate]) {
        for c in candidates {
            let claimed = self.area.claims.for_position(c.position);
            let list = if claimed { &mut self.out.working } else { &mut self.out.unclaimed };
            list.push(case::candidate_words(c));
        }
    }
    /// Joins a box's contribution, as `perform_oof_layout` does
    fn join(&mut self, node: NodeId, layout: &Layout) {
        let (area, style) = (&self.area, &self.styles[usize::from(node)]);
        let mut at = Point { x: layout.location.x - area.offset.x, y: layout.location.y - area.offset.y };
        if area.direction.is_rtl() {
            at.x = area.size.width - at.x - layout.size.width;
        }
        let scrolls = area.overflow.x.is_scroll_container() || area.overflow.y.is_scroll_container();
        let contribution = compute_scrollable_overflow_contribution(
            at,
            layout.size,
            layout.scrollable_overflow_rect,
            style.overflow,
            style.contain,
            scrolls,
        );
        self.overflow = self.overflow.union(contribution);
    }
}
/// Zeros compare as equal
fn no_sign(w: u32) -> u32 {
    if w == 0x8000_0000 {
        0
    } else {
        w
    }
}

fn rect(r: Rect<f32>) -> [u32; 4] {
    [bits(r.left), bits(r.right), bits(r.top), bits(r.bottom)]
}
fn layout_words(l: &Layout) -> [u32; LAYOUT] {
    let mut w = vec![l.order, bits(l.size.width), bits(l.size.height)];
    w.extend(rect(l.scrollable_overflow_rect));
    w.extend([l.scrollbar_size.width, l.scrollbar_size.height, l.location.x, l.location.y].map(bits));
    w.extend([l.padding, l.border, l.margin].into_iter().flat_map(rect));
    w.try_into().unwrap()
}
fn space(s: AvailableSpace) -> Space {
    match s {
        AvailableSpace::Definite(v) => Space::Definite(bits(v)),
        AvailableSpace::MinContent => Space::MinContent,
        AvailableSpace::MaxContent => Space::MaxContent,
    }
}

impl TraversePartialTree for Script<'_> {
    type ChildIter<'a>
        = core::iter::Empty<NodeId>
    where
        Self: 'a;
    fn child_ids(&self, _: NodeId) -> Self::ChildIter<'_> {
        core::iter::empty()
    }
    fn child_count(&self, _: NodeId) -> usize {
        0
    }
    fn get_child_id(&self, _: NodeId, _: usize) -> NodeId {
        unreachable!()
    }
}

impl LayoutPartialTree for Script<'_> {
    type CoreContainerStyle<'a>
        = &'a Style
    where
        Self: 'a;
    type CustomIdent = String;

    fn get_core_container_style(&self, _: NodeId) -> &Style {
        &self.container
    }
    fn resolve_calc_value(&self, handle: *const (), basis: f32) -> f32 {
        self.sums.resolve(handle, basis)
    }
    fn set_unrounded_layout(&mut self, node: NodeId, layout: &Layout) {
        let words = layout_words(layout);
        self.out.layouts[usize::from(node)] = Some(words);
        let mut surfaced = self.surfaced.take();
        surfaced.translate(layout.location);
        self.sweep(surfaced.as_slice());
        self.join(node, layout);
        self.out.laid.push(Laid {
            node: usize::from(node) as u32,
            layout: words,
            working: self.out.working.len(),
            unclaimed: self.out.unclaimed.len(),
            overflow: rect(self.overflow),
        });
    }
    fn compute_child_layout(&mut self, node: NodeId, input: LayoutInput) -> LayoutOutput {
        // What a question leaves out is the same in every one
        assert_eq!(input.parent_size.map(|v| v.map(bits)), self.area.size.map(|v| Some(bits(v))));
        assert_eq!(input.sizing_mode, SizingMode::ContentSize);
        assert_eq!(input.known_dimensions_are_definite, Size { width: true, height: true });

        let kind = match (input.run_mode, input.axis) {
            (RunMode::PerformLayout, RequestedAxis::Both) => Kind::LayOut,
            (RunMode::ComputeSize, RequestedAxis::Both) => Kind::Both,
            (RunMode::ComputeSize, RequestedAxis::Horizontal) => Kind::Width,
            (RunMode::ComputeSize, RequestedAxis::Vertical) => Kind::Height,
            other => panic!("no such question: {other:?}"),
        };
        let question = Question {
            kind,
            node: usize::from(node) as u32,
            known: [input.known_dimensions.width.map(bits), input.known_dimensions.height.map(bits)],
            space: [space(input.available_space.width), space(input.available_space.height)],
        };
        let words = self.host.answer(&question);
        self.out.tally[usize::from(node)] += 1;
        let mut output = LayoutOutput::DEFAULT;
        match kind {
            Kind::Both => output.size = Size { width: float(words[0]), height: float(words[1]) },
            Kind::Width => output.size.width = float(words[0]),
            Kind::Height => output.size.height = float(words[0]),
            Kind::LayOut => {
                let [left, right, top, bottom] = [0, 1, 2, 3].map(|i| float(words[i]));
                output.scrollable_overflow_rect = Rect { left, right, top, bottom };
                for record in words[4..].chunks(CANDIDATE) {
                    let record = case::candidate(record, self.styles.len()).expect("a bad surfaced candidate");
                    output.oof_candidates.push(record);
                }
                self.surfaced = output.oof_candidates.clone();
            }
        }
        self.out.questions.push(question);
        self.out.replies.push(words);
        output
    }
}

impl LayoutContainingBlock for Script<'_> {
    type OofItemStyle<'a>
        = &'a Style
    where
        Self: 'a;
    fn get_oof_item_style(&self, node: NodeId) -> &Style {
        &self.styles[usize::from(node)]
    }
    fn clear_hoisted_children(&mut self, _: NodeId) {}
    fn add_hoisted_children(&mut self, _: NodeId, _: &[NodeId]) {}
}
