//! What the touch driver reads of a run (request #108), by the layouts of the Rust or of the second implementation. The numbers and their
//! sums are taken in floats of 64 bits, in which they are exact.
use oof::{Rect, Refusal, TouchBox};
use oracle::case::{float, Case};
use oracle::run::Transcript;

/// The words of a layout that are x, y, width and height
const LOCATION_AND_SIZE: [usize; 4] = [9, 10, 1, 2];
/// "at most 9,999,999 eighths in size"
const LARGEST: f64 = 9_999_999.0;

/// "accepts them if each is a whole eighth": the pixels that a word is, then
fn number(word: u32) -> Option<f64> {
    let pixels = f64::from(float(word));
    let eighths = 8.0 * pixels;
    (eighths.fract() == 0.0 && eighths.abs() <= LARGEST).then_some(pixels)
}

/// "the floor of (n + 4) divided by 8, also below zero", of n eighths in pixels
fn edge(pixels: f64) -> i32 {
    (pixels + 0.5).floor() as i32
}

fn touched(area: &[u32; 8], node: u32, layout: &[u32]) -> Option<TouchBox> {
    let [x, y, width, height] = LOCATION_AND_SIZE.map(|k| number(layout[k]));
    let (left, top) = (x? - number(area[2])?, y? - number(area[3])?);
    let edges = Rect { left: edge(left), right: edge(left + width?), top: edge(top), bottom: edge(top + height?) };
    Some(TouchBox { node, edges })
}

/// The boxes in hoisted order, or refusal 9
pub fn of(case: &Case, run: &Transcript) -> Result<Vec<TouchBox>, Refusal> {
    let layout = |node: u32| run.layouts[node as usize].as_ref().expect("a hoisted item has a layout");
    let boxes = run.hoisted.iter().map(|&node| touched(&case.area, node, layout(node)));
    boxes.collect::<Option<_>>().ok_or(Refusal::NotInEighths)
}
