//! A second implementation of the pass, over the word records and in plain f32: one box by document 01's seven steps, and the run
//! around it. It is written from document 01 and the requests, and from the Rust's text where document 01 goes by it. It uses nothing
//! of taffy. It shares with the Rust's side the records' places, lists of tags and floats (`case`), which items have a size keyword
//! (`set::has_size_keyword`) and the dialogue's types (`run`).
mod axis;
mod item;
mod refusals;

use crate::case::{at, bits, float, Case, Refused, CANDIDATE, UNLAYERED};
use crate::run::{Host, Kind, Laid, Question, Space, Transcript};
use crate::set::has_size_keyword;
use axis::{larger, smaller};
use item::{definite, Item, Keyword, Sizes};

/// What step 4's stretch size takes the margins off
#[derive(Copy, Clone, Debug, PartialEq, Eq)]
pub enum Stretch {
    /// The area less its insets, absent ones as 0: the published Rust
    FromArea,
    /// The inset-modified block of step 3: request #106
    FromBlock,
}

/// What boxes are placed in
pub struct Area {
    size: [f32; 2],
    offset: [f32; 2],
    rtl: bool,
    claims: u32,
    scrolls: [bool; 2],
}
/// No float is another one for it, not even a -0
const NO_SHIFT: [f32; 2] = [-0.0; 2];
/// Hidden and scroll
fn scrolls(overflow: u32) -> bool {
    overflow >= 2
}

struct Run<'a> {
    case: &'a Case,
    host: &'a mut dyn Host,
    stretch: Stretch,
    area: Area,
    /// The union of the contributions so far: left, right, top, bottom
    overflow: [f32; 4],
    out: Transcript,
}

/// Boxes are taken from the front of the working list, to whose rear each may add
pub fn run(case: &Case, host: &mut dyn Host, stretch: Stretch) -> Result<Transcript, Refused> {
    refusals::opening(case)?;
    let [width, height, x, y] = [0, 1, 2, 3].map(|i| float(case.area[i]));
    let area = Area {
        size: [width, height],
        offset: [x, y],
        rtl: case.area[4] == 1,
        claims: case.area[5],
        scrolls: [scrolls(case.area[6]), scrolls(case.area[7])],
    };
    let n = case.styles.len();
    let out = Transcript { tally: vec![0; n], layouts: vec![None; n], ..Default::default() };
    let mut run = Run { case, host, stretch, area, overflow: [0.0; 4], out };
    case.candidates.iter().for_each(|record| run.sweep(record, NO_SHIFT));
    let mut next = 0;
    while let Some(&record) = run.out.working.get(next) {
        run.place(&record);
        next += 1;
    }
    run.out.hoisted = run.out.working.iter().map(|record| record[0]).collect();
    run.out.overflow = run.overflow.map(bits);
    Ok(run.out)
}

impl Run<'_> {
    /// Puts a candidate, shifted so far, into the working list if it is claimed, else into the unclaimed list
    fn sweep(&mut self, record: &[u32], shift: [f32; 2]) {
        let mut words: [u32; UNLAYERED] = record[..UNLAYERED].try_into().unwrap();
        for (at, by) in [(3, shift[0]), (4, shift[0]), (8, shift[1]), (9, shift[1])] {
            words[at] = bits(float(words[at]) + by);
        }
        let claim = match words[2] {
            2 => 1,
            3 => 2,
            _ => 0,
        };
        let list = if self.area.claims & claim != 0 { &mut self.out.working } else { &mut self.out.unclaimed };
        list.push(words);
    }
    fn ask(&mut self, kind: Kind, node: u32, known: Sizes, space: [Space; 2]) -> Vec<u32> {
        let question = Question { kind, node, known: known.map(|v| v.map(bits)), space };
        let words = self.host.answer(&question);
        self.out.tally[node as usize] += 1;
        self.out.questions.push(question);
        self.out.replies.push(words.clone());
        words
    }

    /// One box
    fn place(&mut self, record: &[u32; UNLAYERED]) {
        let node = record[0];
        let style = &self.case.styles[node as usize];
        // steps 1 to 3, 4, 5
        let mut item = Item::new(&self.area, style, record);
        if has_size_keyword(style) {
            self.resolve_keywords(node, &mut item);
        }
        item.stretch();
        // step 6 measures where a side is still absent, and step 7
        let space = item.space.map(definite);
        let mut measured = [0.0; 2];
        if item.known.contains(&None) {
            let words = self.ask(Kind::Both, node, item.known, space);
            measured = [float(words[0]), float(words[1])];
        }
        let size = item.final_size(measured);
        let words = self.ask(Kind::LayOut, node, size.map(Some), space);
        self.lay_out(record, &item, size, &words);
    }
    /// Step 4: two measured sides are one question; a height's question knows the width
    fn resolve_keywords(&mut self, node: u32, item: &mut Item) {
        let stretch = [0, 1].map(|axis: usize| item.axes[axis].keyword_stretch(self.stretch));
        match [0, 1].map(|axis| item.keyword(axis, stretch[axis])) {
            [Some(Keyword::Measure(width)), Some(Keyword::Measure(height))] => {
                let words = self.ask(Kind::Both, node, [None; 2], [width, height]);
                item.known = [Some(float(words[0])), Some(float(words[1]))];
            }
            [width, height] => {
                match width {
                    Some(Keyword::Exact(width)) => item.known[0] = Some(width),
                    Some(Keyword::Measure(space)) => {
                        let words = self.ask(Kind::Width, node, item.known, [space, definite(stretch[1])]);
                        item.known[0] = Some(float(words[0]));
                    }
                    None => {}
                }
                match height {
                    Some(Keyword::Exact(height)) => item.known[1] = Some(height),
                    Some(Keyword::Measure(space)) => {
                        let across = definite(item.known[0].unwrap_or(stretch[0]));
                        let words = self.ask(Kind::Height, node, item.known, [across, space]);
                        item.known[1] = Some(float(words[0]));
                    }
                    None => {}
                }
            }
        }
        item.settle_by_ratio();
    }
    /// Step 7, given the reply: margins, location, layout, surfaced candidates, overflow
    fn lay_out(&mut self, record: &[u32; UNLAYERED], item: &Item, size: [f32; 2], reply: &[u32]) {
        let style = &self.case.styles[record[0] as usize];
        let margin = [0, 1].map(|axis: usize| item.axes[axis].margins(size[axis]));
        let place = |axis: usize| item.axes[axis].position(size[axis], margin[axis]) + self.area.offset[axis];
        let location = [place(0), place(1)];
        let own = [0, 1, 2, 3].map(|i| float(reply[i]));
        // a scrollbar takes its place across the axis that scrolls
        let bar = |overflow: u32| if overflow == 3 { float(style[at::SCROLLBAR]) } else { 0.0 };
        let bars = [bar(style[at::OVERFLOW + 1]), bar(style[at::OVERFLOW])];
        let floats = [&size[..], &own, &bars, &location, &item.padding, &item.border, &margin.concat()].concat();
        let words: Vec<u32> = [record[1]].into_iter().chain(floats.into_iter().map(bits)).collect();
        let layout = words.try_into().unwrap();

        for surfaced in reply[4..].chunks(CANDIDATE) {
            assert!(!refusals::bad_candidate(surfaced, self.case.styles.len()), "a bad surfaced candidate");
            self.sweep(surfaced, location);
        }
        self.join(record[0], location, size, own);
        self.out.layouts[record[0] as usize] = Some(layout);
        self.out.laid.push(Laid {
            node: record[0],
            layout,
            working: self.out.working.len(),
            unclaimed: self.out.unclaimed.len(),
            overflow: self.overflow.map(bits),
        });
    }
    /// Joins a box's contribution, whose x counts from the start edge by the container's direction
    fn join(&mut self, node: u32, location: [f32; 2], size: [f32; 2], own: [f32; 4]) {
        let Area { size: area, offset, rtl, scrolls, .. } = &self.area;
        let mut place = [location[0] - offset[0], location[1] - offset[1]];
        if *rtl {
            place[0] = area[0] - place[0] - size[0];
        }
        let parent_scrolls = scrolls[0] || scrolls[1];
        let style = &self.case.styles[node as usize];
        let escapes = escapes([style[at::OVERFLOW], style[at::OVERFLOW + 1]], style[at::CONTAIN]);
        let [left, right, top, bottom] = contribution(place, size, own, escapes, parent_scrolls);
        let o = self.overflow;
        self.overflow = [smaller(o[0], left), larger(o[1], right), smaller(o[2], top), larger(o[3], bottom)];
    }
}

/// In which axes a box's own overflow escapes it: where it is visible, and the box is no scroll container and isn't contained
fn escapes(overflow: [u32; 2], contain: u32) -> [bool; 2] {
    let kept = overflow.into_iter().any(scrolls) || contain & 3 != 0;
    overflow.map(|overflow| !kept && overflow == 0)
}
/// Zeros if an end extent is at most 0, or if the parent scrolls and right or bottom is
fn contribution(place: [f32; 2], size: [f32; 2], own: [f32; 4], escapes: [bool; 2], parent_scrolls: bool) -> [f32; 4] {
    let start = |axis: usize| if escapes[axis] { smaller(0.0, own[2 * axis]) } else { 0.0 };
    let end = |axis: usize| if escapes[axis] { larger(size[axis], own[2 * axis + 1]) } else { size[axis] };
    if end(0) <= 0.0 || end(1) <= 0.0 {
        return [0.0; 4];
    }
    let [right, bottom] = [place[0] + end(0), place[1] + end(1)];
    if parent_scrolls && (right <= 0.0 || bottom <= 0.0) {
        return [0.0; 4];
    }
    [place[0] + start(0), right, place[1] + start(1), bottom]
}
