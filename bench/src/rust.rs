//! The published Rust, over a tree that does no more than it must.
use crate::scene::{Scene, MEASURED};
use oracle::case;
use oracle::compute::oof::{compute_oof_layout_for_area, OofLayoutResult};
use oracle::{
    Layout, LayoutContainingBlock, LayoutInput, LayoutOutput, LayoutPartialTree, NodeId, OofCandidate,
    OofPositioningArea, Size, Style, TraversePartialTree,
};

pub struct Tree {
    area: case::Area,
    container: Style,
    styles: Vec<Style>,
    candidates: Vec<OofCandidate>,
    pub layouts: Vec<Layout>,
    pub questions: u32,
}

impl Tree {
    pub fn new(scene: &Scene) -> Tree {
        let area = case::area(&scene.area).unwrap();
        let container = Style { overflow: area.overflow, ..Style::DEFAULT };
        // there is no sum in a scene
        let mut sums = case::Sums::default();
        let styles: Vec<Style> = scene.styles.iter().map(|w| case::style(w, &mut sums).unwrap()).collect();
        let candidates = scene.candidates.iter().map(|w| case::candidate(w, styles.len()).unwrap()).collect();
        let layouts = vec![Layout::with_order(0); styles.len()];
        Tree { area, container, styles, candidates, layouts, questions: 0 }
    }
    pub fn run(&mut self) -> OofLayoutResult {
        let candidates = std::mem::take(&mut self.candidates);
        let area = OofPositioningArea { size: self.area.size, offset: self.area.offset };
        let (direction, claims) = (self.area.direction, self.area.claims);
        let result = compute_oof_layout_for_area(self, NodeId::new(u64::MAX), &candidates, area, direction, claims);
        self.candidates = candidates;
        result
    }
}

impl TraversePartialTree for Tree {
    type ChildIter<'a> = core::iter::Empty<NodeId>;
    fn child_ids(&self, _: NodeId) -> Self::ChildIter<'_> {
        core::iter::empty()
    }
    fn child_count(&self, _: NodeId) -> usize {
        0
    }
    fn get_child_id(&self, _: NodeId, _: usize) -> NodeId {
        unreachable!()
    }
}
impl LayoutPartialTree for Tree {
    type CoreContainerStyle<'a> = &'a Style;
    type CustomIdent = String;
    fn get_core_container_style(&self, _: NodeId) -> &Style {
        &self.container
    }
    fn set_unrounded_layout(&mut self, node: NodeId, layout: &Layout) {
        self.layouts[usize::from(node)] = *layout;
    }
    fn compute_child_layout(&mut self, _: NodeId, _: LayoutInput) -> LayoutOutput {
        self.questions += 1;
        LayoutOutput { size: Size { width: MEASURED[0], height: MEASURED[1] }, ..LayoutOutput::DEFAULT }
    }
}
impl LayoutContainingBlock for Tree {
    type OofItemStyle<'a> = &'a Style;
    fn get_oof_item_style(&self, node: NodeId) -> &Style {
        &self.styles[usize::from(node)]
    }
    fn clear_hoisted_children(&mut self, _: NodeId) {}
    fn add_hoisted_children(&mut self, _: NodeId, _: &[NodeId]) {}
}
