//! Equality of runs. Zeros are equal: the Rust's min and max leave their sign open.
use crate::run::{Laid, Question, Space, Transcript};

pub fn float(a: u32, b: u32) -> bool {
    a == b || (a << 1 == 0 && b << 1 == 0)
}
pub fn floats(a: &[u32], b: &[u32]) -> bool {
    a.len() == b.len() && a.iter().zip(b).all(|(&a, &b)| float(a, b))
}
/// The 23 words of a layout
pub fn layout(a: &[u32], b: &[u32]) -> bool {
    a[0] == b[0] && floats(&a[1..], &b[1..])
}
/// The words of a candidate, of which four are floats
pub fn record(a: &[u32], b: &[u32]) -> bool {
    let same = |at: usize| if [3, 4, 8, 9].contains(&at) { float(a[at], b[at]) } else { a[at] == b[at] };
    a.len() == b.len() && (0..a.len()).all(same)
}
pub fn question(a: &Question, b: &Question) -> bool {
    let known = |a: Option<u32>, b: Option<u32>| match (a, b) {
        (Some(a), Some(b)) => float(a, b),
        (a, b) => a == b,
    };
    let space = |a: Space, b: Space| match (a, b) {
        (Space::Definite(a), Space::Definite(b)) => float(a, b),
        (a, b) => a == b,
    };
    (a.kind, a.node) == (b.kind, b.node)
        && (0..2).all(|axis| known(a.known[axis], b.known[axis]) && space(a.space[axis], b.space[axis]))
}
pub fn all<A, B>(a: &[A], b: &[B], same: impl Fn(&A, &B) -> bool) -> bool {
    a.len() == b.len() && a.iter().zip(b).all(|(a, b)| same(a, b))
}
fn laid(a: &Laid, b: &Laid) -> bool {
    (a.node, a.working, a.unclaimed) == (b.node, b.working, b.unclaimed)
        && layout(&a.layout, &b.layout)
        && floats(&a.overflow, &b.overflow)
}

/// The first part of a run that differs. Layouts by node are those that were laid last.
pub fn difference(a: &Transcript, b: &Transcript) -> Option<&'static str> {
    let parts = [
        ("questions", all(&a.questions, &b.questions, question)),
        ("replies", a.replies == b.replies),
        ("the counts by item", a.tally == b.tally),
        ("boxes", all(&a.laid, &b.laid, laid)),
        ("hoisted", a.hoisted == b.hoisted),
        ("working", all(&a.working, &b.working, |a, b| record(a, b))),
        ("unclaimed", all(&a.unclaimed, &b.unclaimed, |a, b| record(a, b))),
        ("overflow", floats(&a.overflow, &b.overflow)),
    ];
    parts.into_iter().find(|&(_, same)| !same).map(|(name, _)| name)
}
