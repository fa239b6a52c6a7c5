//! The placement: the library's dialogue, turned into callbacks.
use crate::ffi::{self, state, Finished, Lent, Replacement, Reply};
use crate::words::{Answer, CANDIDATE, LAYER, LAYOUT, STYLE};
use crate::{Area, AvailableSpace, Candidate, Layout, NodeId, Rect, Refusal, Size, Style};
use std::fmt;

/// What laying a box out came to. `Default`: no overflow, nothing surfaced.
#[derive(Clone, Debug, Default, PartialEq)]
pub struct LaidOut {
    /// How far the box's content reaches, from its start edge
    pub overflow: Rect<f32>,
    /// Candidates from within the box that look for their containing block, in the box's coordinates: its location is added. They have
    /// layers of their own, not the box's.
    pub surfaced: Vec<Candidate>,
}

/// Measures boxes and lays them out. At most three calls a box, the last being `lay_out`.
///
/// Each method stands for a call of taffy's `compute_child_layout`. Of its `LayoutInput` it gives what differs from box to box:
/// the known sides and the available space. The rest is the same in every call of this pass, so that it isn't given:
///
/// | of `LayoutInput` | in every call |
/// |---|---|
/// | `parent_size` | the size of the [`Area`], both sides |
/// | `sizing_mode` | `ContentSize`: the item's own size, min, max and ratio are not to be applied again |
/// | `run_mode`, `axis` | `ComputeSize` on both axes or on the one asked for; `PerformLayout` on both in `lay_out` |
/// | `known_dimensions_are_definite` | both true |
/// | `vertical_margins_are_collapsible` | both false |
///
/// A host that needs the size of the area has it from its own call.
pub trait Host {
    /// The size of a box of which some side isn't known
    fn measure_both(&mut self, node: NodeId, known: Size<Option<f32>>, space: Size<AvailableSpace>) -> Size<f32>;
    /// Its width
    fn measure_width(&mut self, node: NodeId, known: Size<Option<f32>>, space: Size<AvailableSpace>) -> f32 {
        self.measure_both(node, known, space).width
    }
    /// Its height
    fn measure_height(&mut self, node: NodeId, known: Size<Option<f32>>, space: Size<AvailableSpace>) -> f32 {
        self.measure_both(node, known, space).height
    }
    /// Lays out what is in the box; `size` is final, padding and border included
    fn lay_out(&mut self, node: NodeId, size: Size<f32>, space: Size<AvailableSpace>) -> LaidOut {
        let _ = (node, size, space);
        LaidOut::default()
    }
}

/// What a placement or a [preview](crate::preview()) came to. It keeps the words of its run, for [`reach`](Placed::reach),
/// [`drawing_order`](Placed::drawing_order) and [`touch`](Placed::touch): a field that is changed afterwards changes nothing there. Two
/// are equal if their fields are, the size, offset, direction and overflow of their areas, and the layers of their boxes.
#[derive(Clone, Debug, PartialEq)]
pub struct Placed {
    /// By item; nothing for those that weren't placed. An item that was claimed twice has its last layout.
    pub layouts: Vec<Option<Layout>>,
    /// The items placed, in order
    pub hoisted: Vec<NodeId>,
    /// Candidates that look for a containing block further up
    pub unclaimed: Vec<Candidate>,
    /// The scrollable overflow of the boxes placed, from the area's start edge
    pub overflow: Rect<f32>,
    /// How many questions the host answered
    pub questions: usize,
    /// By item: how many of these questions were about it, so that a host whose font is slow sees the costly labels. They add up to
    /// `questions`. An item that was claimed twice has those of both its boxes, one that wasn't placed 0.
    pub tally: Vec<u32>,
    pub(crate) words: Words,
}

/// The words of a finished run. The lists are without their empty room, which isn't read, and the state has their lengths.
#[derive(Clone)]
pub(crate) struct Words {
    styles: Vec<u32>,
    layouts: Vec<u32>,
    working: Vec<u32>,
    unclaimed: Vec<u32>,
    state: [u32; ffi::STATE],
}

impl Words {
    fn of(run: Run) -> Words {
        let Run { styles, layouts, mut working, mut unclaimed, mut state, .. } = run;
        let mut trim = |list: &mut Vec<u32>, filled: usize, length: usize| {
            list.truncate(CANDIDATE * state[filled] as usize);
            list.shrink_to_fit();
            state[length] = list.len() as u32;
        };
        trim(&mut working, state::FILLED_WORKING, state::LENGTHS + 2);
        trim(&mut unclaimed, state::FILLED_UNCLAIMED, state::LENGTHS + 3);
        Words { styles, layouts, working, unclaimed, state }
    }
    pub(crate) fn lent(&self) -> Finished<'_> {
        Finished {
            styles: &self.styles,
            layouts: &self.layouts,
            working: &self.working,
            unclaimed: &self.unclaimed,
            state: &self.state,
        }
    }
    /// What a verdict goes by beside the fields of [`Placed`]: the area's size and offset, direction, overflow x and y
    fn area(&self) -> ([f32; 4], [u32; 3]) {
        let codes = state::CODES;
        let numbers = std::array::from_fn(|k| f32::from_bits(self.state[state::AREA + k]));
        (numbers, [self.state[codes], self.state[codes + 2], self.state[codes + 3]])
    }
    /// What the drawing order goes by: the layers of the boxes, in hoisted order
    fn layers(&self) -> impl Iterator<Item = u32> + '_ {
        self.working.as_chunks::<CANDIDATE>().0.iter().map(|record| record[LAYER])
    }
    /// How many boxes were placed
    pub(crate) fn boxes(&self) -> usize {
        self.state[state::FILLED_WORKING] as usize
    }
}
impl PartialEq for Words {
    fn eq(&self, other: &Words) -> bool {
        self.area() == other.area() && self.layers().eq(other.layers())
    }
}
impl fmt::Debug for Words {
    fn fmt(&self, f: &mut fmt::Formatter<'_>) -> fmt::Result {
        f.debug_struct("Words").finish_non_exhaustive()
    }
}

/// Records lent to each list. They can't grow while a run goes on, since its slices keep their lengths. More than 4,096 are
/// refused as [`Refusal::BadExtent`].
#[derive(Copy, Clone, Debug, PartialEq, Eq)]
pub struct Room {
    /// Candidates that the area claims, surfaced ones included; at most 4,096
    pub working: usize,
    /// Candidates that it doesn't claim; at most 4,096
    pub unclaimed: usize,
}
impl Room {
    /// As much as the library takes
    pub const MOST: Room = Room { working: 4096, unclaimed: 4096 };
}

/// Places the candidates that the area claims, with [`Room::MOST`].
pub fn compute_oof_layout_for_area(
    host: &mut impl Host,
    area: &Area,
    styles: &[Style],
    candidates: &[Candidate],
) -> Result<Placed, Refusal> {
    compute_oof_layout_with(host, area, styles, candidates, Room::MOST)
}

/// Places the candidates that the area claims, with lists of the given lengths.
pub fn compute_oof_layout_with(
    host: &mut impl Host,
    area: &Area,
    styles: &[Style],
    candidates: &[Candidate],
    room: Room,
) -> Result<Placed, Refusal> {
    Run::new(styles, room, None).place(host, area, candidates)
}

/// Places the candidates if there are an area and candidates, and joins their overflow with the caller's rectangle.
pub fn compute_oof_layout(
    host: &mut impl Host,
    area: Option<&Area>,
    styles: &[Style],
    candidates: &[Candidate],
    overflow: &mut Rect<f32>,
) -> Result<Option<Placed>, Refusal> {
    let Some(area) = area else { return Ok(None) };
    if candidates.is_empty() {
        return Ok(None);
    }
    let placed = compute_oof_layout_for_area(host, area, styles, candidates)?;
    *overflow = overflow.union(placed.overflow);
    Ok(Some(placed))
}

/// The words that a run or a preview lends to every call
pub(crate) struct Run {
    styles: Vec<u32>,
    layouts: Vec<u32>,
    working: Vec<u32>,
    unclaimed: Vec<u32>,
    tally: Vec<u32>,
    state: [u32; ffi::STATE],
    answer: [u32; ffi::ANSWER],
    replacement: Option<(NodeId, [u32; STYLE])>,
}

impl Run {
    /// A live run, or the preview of another style for a node
    pub(crate) fn new(styles: &[Style], room: Room, replacement: Option<(NodeId, &Style)>) -> Run {
        // one record above the most is refused just as more are
        let list = |records: usize, most: usize| vec![0; CANDIDATE * records.min(most + 1)];
        Run {
            styles: styles.iter().flat_map(Style::to_words).collect(),
            layouts: vec![0; LAYOUT * styles.len()],
            working: list(room.working, Room::MOST.working),
            unclaimed: list(room.unclaimed, Room::MOST.unclaimed),
            tally: vec![0; styles.len()],
            state: [0; ffi::STATE],
            answer: [0; ffi::ANSWER],
            replacement: replacement.map(|(node, style)| (node, style.to_words())),
        }
    }
    fn lent(&mut self) -> (Lent<'_>, Option<Replacement<'_>>) {
        let lent = Lent {
            styles: &self.styles,
            layouts: &mut self.layouts,
            working: &mut self.working,
            unclaimed: &mut self.unclaimed,
            tally: &mut self.tally,
            state: &mut self.state,
            answer: &mut self.answer,
        };
        (lent, self.replacement.as_ref().map(|(node, style)| Replacement { node: *node, style }))
    }
    fn open(&mut self, a: &Area, candidates: &[Candidate]) -> Result<(), Refusal> {
        let claims = u32::from(a.claims.absolute) | u32::from(a.claims.fixed) << 1;
        let area = [a.size.width, a.size.height, a.offset.x, a.offset.y];
        let codes = [a.direction as u32, claims, a.overflow.x as u32, a.overflow.y as u32];
        let candidates = candidate_words(candidates);
        Refusal::verdict(match self.lent() {
            (mut lent, None) => ffi::open(area, codes, &candidates, &mut lent),
            (mut lent, Some(replacement)) => ffi::preview_open(area, codes, replacement, &candidates, &mut lent),
        })
    }
    fn reply(&mut self, reply: Reply, surfaced: &[Candidate]) -> Result<(), Refusal> {
        let surfaced = candidate_words(surfaced);
        Refusal::verdict(match self.lent() {
            (mut lent, None) => ffi::reply(reply, &surfaced, &mut lent),
            (mut lent, Some(replacement)) => ffi::preview_reply(reply, &surfaced, replacement, &mut lent),
        })
    }
    /// From the opening to the finish
    pub(crate) fn place(
        mut self,
        host: &mut impl Host,
        area: &Area,
        candidates: &[Candidate],
    ) -> Result<Placed, Refusal> {
        self.open(area, candidates)?;
        loop {
            match self.answer() {
                Answer::MeasureBoth { node, known, space } => {
                    let size = host.measure_both(node, known, space);
                    self.reply(Reply::Both(size.width, size.height), &[])?;
                }
                Answer::MeasureWidth { node, known, space } => {
                    self.reply(Reply::Width(host.measure_width(node, known, space)), &[])?;
                }
                Answer::MeasureHeight { node, known, space } => {
                    self.reply(Reply::Height(host.measure_height(node, known, space)), &[])?;
                }
                Answer::LayOut { node, size, space } => {
                    let LaidOut { overflow: o, surfaced } = host.lay_out(node, size, space);
                    self.reply(Reply::LaidOut([o.left, o.right, o.top, o.bottom]), &surfaced)?;
                }
                Answer::Finish { overflow, questions } => return Ok(self.placed(overflow, questions as usize)),
            }
        }
    }
    fn answer(&self) -> Answer {
        Answer::from_words(&self.answer).expect("the library answers with a question or a finish")
    }
    fn placed(mut self, overflow: Rect<f32>, questions: usize) -> Placed {
        let filled = |list: &[u32], count: u32| -> Vec<Candidate> {
            let records = list.as_chunks::<CANDIDATE>().0;
            let read = |w: &[u32; CANDIDATE]| Candidate::from_words(w).expect("the library writes good records");
            records[..count as usize].iter().map(read).collect()
        };
        let hoisted: Vec<NodeId> =
            filled(&self.working, self.state[state::FILLED_WORKING]).iter().map(|candidate| candidate.node).collect();
        let mut layouts = vec![None; self.layouts.len() / LAYOUT];
        let records = self.layouts.as_chunks::<LAYOUT>().0;
        for &node in &hoisted {
            layouts[node as usize] = Some(Layout::from_words(&records[node as usize]));
        }
        let unclaimed = filled(&self.unclaimed, self.state[state::FILLED_UNCLAIMED]);
        let tally = std::mem::take(&mut self.tally);
        Placed { layouts, hoisted, unclaimed, overflow, questions, tally, words: Words::of(self) }
    }
}

fn candidate_words(candidates: &[Candidate]) -> Vec<u32> {
    candidates.iter().flat_map(Candidate::to_words).collect()
}
