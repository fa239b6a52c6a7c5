//! Compares the C entry `oof_reach`, linked as a static library, with a model in exact integers.
//!
//! The model is request #102 as it is worded: it moves the view over the panel, offset by offset, and looks whether box and view share a
//! patch. It shares no code with the entry, which has a closed form. Before the entry, wrong ones are tried: each must be found out.

#[path = "../eighths.rs"]
mod eighths;
#[path = "../finished.rs"]
mod finished;
#[path = "../random.rs"]
mod random;
#[path = "../trial.rs"]
mod trial;

use eighths::{bits, count, try_counts, COUNTS, LARGEST, LOCATION_AND_SIZE, STRANGE};
use finished::{above, bad_record, bad_slices, each_change, entry, of_a_run, unfinished, Kind, Run};
use finished::{bad_nodes_and_codes, other_lengths, other_lengths_recorded, other_tallies, too_many, OneFilled};
use finished::{
    ANSWERED, AREA, BEGUN, CANDIDATE, CODES, DIRECTION, FILLED, LAYER, LAYOUTS, LENGTHS, OVERFLOW, PROGRESS, RECTANGLE,
    REFUSALS, STATE, STYLE, STYLES, TALLY, UNCLAIMED, WIDTHS, WORKING,
};
use random::Random;
use trial::{find_out, report};

// ---- a call

/// Layers that are none: the first one, one whose low byte is 1, 2 ^ 31, a NaN, the highest word.
const BAD_LAYERS: [u32; 5] = [256, 257, 1 << 31, 0x7FC0_0001, u32::MAX];

const PADDING: usize = 11;

#[derive(Clone, PartialEq)]
struct Call {
    place: usize,
    run: Run,
}

of_a_run!(Call);

impl Call {
    /// The node of a place, where the list has such a record.
    fn node(&self, place: usize) -> Option<usize> {
        self.slices[WORKING].get(place.checked_mul(CANDIDATE)?).map(|&node| node as usize)
    }

    /// One of the twelve numbers, where it is to be found: the area's width, height, x, y; the rectangle's left, right, top, bottom; the
    /// box's x, y, width, height.
    fn number(&mut self, k: usize) -> Option<&mut u32> {
        match k {
            0..4 => Some(&mut self.state[AREA + k]),
            4..8 => Some(&mut self.state[RECTANGLE + k - 4]),
            _ => {
                let at = self.node(self.place)?.checked_mul(23)? + LOCATION_AND_SIZE[k - 8];
                self.slices[LAYOUTS].get_mut(at)
            }
        }
    }

    fn twelve(&self) -> [Option<u32>; 12] {
        let layout = self.node(self.place).and_then(|node| self.slices[LAYOUTS].get(node.checked_mul(23)?..));
        std::array::from_fn(|k| match k {
            0..4 => Some(self.state[AREA + k]),
            4..8 => Some(self.state[RECTANGLE + k - 4]),
            _ => layout.and_then(|words| words.get(LOCATION_AND_SIZE[k - 8]).copied()),
        })
    }
}

type Entry = fn(&mut Call, &mut [u32; 3]) -> u32;

entry!(reach is oof_reach(place: usize; verdict: *mut u32));

const PROVED: Entry = |call, verdict| reach(call, call.place, verdict.as_mut_ptr());

// ---- the model

/// One axis as the words have it, in eighths. Of a right-to-left container x is reversed.
#[derive(Clone, Copy)]
struct Axis {
    area: i64,
    offset: i64,
    near: i64,
    far: i64,
    at: i64,
    size: i64,
    code: u32,
    reversed: bool,
}

/// Both axes. A number that isn't accepted counts as 0: the model has refused it before.
fn axes(call: &Call) -> [Axis; 2] {
    let n = call.twelve().map(|word| word.and_then(count).unwrap_or(0));
    [0, 1].map(|k| Axis {
        area: n[k],
        offset: n[2 + k],
        near: n[4 + 2 * k],
        far: n[5 + 2 * k],
        at: n[8 + k],
        size: n[10 + k],
        code: call.state[OVERFLOW + k],
        reversed: k == 0 && call.state[DIRECTION] != 0,
    })
}

impl Axis {
    fn scrolls(&self) -> bool {
        !matches!(self.code, 0 | 1)
    }

    /// "from 0, in eighths, to the overflow rectangle's far edge less the area's size, or only 0 if that is negative"
    fn last(&self) -> i64 {
        if self.scrolls() {
            (self.far - self.area).max(0)
        } else {
            0
        }
    }

    /// Where the box begins, from the area's left or top edge.
    fn left(&self) -> i64 {
        self.at - self.offset
    }

    /// What box and view have in common at an offset, if positive. The view moves away from the start edge: right-to-left, to the left.
    fn shared(&self, offset: i64) -> i64 {
        let (view, left) = (if self.reversed { -offset } else { offset }, self.left());
        (left + self.size).min(view + self.area) - left.max(view)
    }

    /// The least offset at which they share something.
    fn first(&self) -> Option<i64> {
        let last = self.last();
        if last <= 3000 {
            return (0..=last).find(|&o| self.shared(o) > 0);
        }
        // `shared` is positive where each of two starts is before each of two ends. Of these four comparisons two don't know where the
        // view is, and two turn where the view ends at the box's start or begins at its end. Between these two offsets nothing changes,
        // so the least one is 0 or one of them or beside one.
        let turns =
            [self.left() - self.area, self.left() + self.size].map(|view| if self.reversed { -view } else { view });
        let beside = turns.iter().flat_map(|o| [o - 1, *o, o + 1]);
        beside.chain([0]).filter(|&o| 0 <= o && o <= last && self.shared(o) > 0).min()
    }
}

/// The pair of offsets that is the least on each axis, of those at which box and view share a patch of positive width and height.
fn search([across, down]: [Axis; 2]) -> Option<(i64, i64)> {
    let (m, n) = (across.last(), down.last());
    if (m + 1) * (n + 1) > 2000 {
        // a patch's width depends on the offset across alone, its height on the other alone: the good pairs are all those of an offset
        // that is good across and one that is good down
        return Some((across.first()?, down.first()?));
    }
    let good = |i, j| across.shared(i) > 0 && down.shared(j) > 0;
    let mut least = None;
    for i in 0..=m {
        for j in (0..=n).filter(|&j| good(i, j)) {
            let (a, b) = least.unwrap_or((i, j));
            least = Some((i.min(a), j.min(b)));
        }
    }
    assert!(least.map_or(true, |(i, j)| good(i, j)), "the least on each axis aren't a pair");
    least
}

fn no_box(call: &Call) -> bool {
    call.place as u64 >= u64::from(call.state[FILLED])
}

fn not_eighths(word: Option<u32>) -> bool {
    word.is_some_and(|w| count(w).is_none())
}

/// For each refusal whether its condition holds, of all that is there.
#[inline(never)]
fn reasons(call: &Call) -> [bool; 4] {
    [
        bad_slices(call) || no_box(call),
        unfinished(call) || above(call, WORKING) || above(call, UNCLAIMED),
        call.slices[WORKING].chunks_exact(CANDIDATE).take(call.filled()).any(|record| bad_record(call, record)),
        call.twelve().into_iter().any(not_eighths),
    ]
}

#[derive(Clone, Copy, PartialEq, Debug)]
enum Verdict {
    Seen(i64, i64),
    Unseen,
    Refused(u32),
}

use Verdict::{Refused, Seen, Unseen};

#[inline(never)]
fn judge(call: &Call, reasons: [bool; 4], see: fn([Axis; 2]) -> Option<(i64, i64)>) -> Verdict {
    match (0..4).find(|&k| reasons[k]) {
        Some(k) => Refused(REFUSALS[k]),
        None => see(axes(call)).map_or(Unseen, |(x, y)| Seen(x, y)),
    }
}

fn model(call: &Call) -> Verdict {
    judge(call, reasons(call), search)
}

/// "where both axes scroll and the rectangle holds the box's far edges, the box is unseen exactly if a size of box or area isn't positive
/// or the box ends at or before the start of an axis"
fn held(call: &Call) -> Option<bool> {
    let end = |a: &Axis| if a.reversed { a.area - a.left() } else { a.left() + a.size };
    let axes = axes(call);
    let unseen = || axes.iter().any(|a| a.size <= 0 || a.area <= 0 || end(a) <= 0);
    axes.iter().all(|a| a.scrolls() && end(a) <= a.far).then(unseen)
}

/// The direction flipped and the box reflected in the area, if its x is then still accepted.
fn mirrored(call: &Call) -> Option<Call> {
    let [a, _] = axes(call);
    let x = 2 * a.offset + a.area - a.at - a.size;
    let mut image = call.clone();
    *image.number(8)? = (x.abs() <= LARGEST).then(|| bits(x))?;
    image.state[DIRECTION] = u32::from(call.state[DIRECTION] == 0);
    Some(image)
}

// ---- wrong entries

/// An axis from the area's start edge, as the closed form has it.
struct Line {
    area: i64,
    start: i64,
    size: i64,
    last: i64,
}

fn line(a: &Axis) -> Line {
    let start = if a.reversed { a.area - a.left() - a.size } else { a.left() };
    Line { area: a.area, start, size: a.size, last: a.last() }
}

/// The least offset that brings so many eighths of the box, from its start, into view.
fn least(l: Line, eighths: i64) -> Option<i64> {
    let o = (l.start - l.area + eighths).max(0);
    (l.size > 0 && l.area > 0 && o <= l.last && o < l.start + l.size).then_some(o)
}

fn closed(a: &Axis) -> Option<i64> {
    least(line(a), 1)
}

fn both([x, y]: [Axis; 2], of: fn(&Axis) -> Option<i64>) -> Option<(i64, i64)> {
    of(&x).zip(of(&y))
}

fn answer(verdict: Verdict, out: &mut [u32; 3]) -> u32 {
    *out = match verdict {
        Seen(x, y) => [1, x as u32, y as u32],
        Unseen => [0; 3],
        Refused(number) => return number,
    };
    0
}

/// The entry, with a copy of what it is lent changed before.
#[inline(never)]
fn after(call: &Call, out: &mut [u32; 3], change: fn(&mut Call)) -> u32 {
    let mut other = call.clone();
    change(&mut other);
    PROVED(&mut other, out)
}

/// Both overflow codes changed
fn codes(call: &mut Call, change: fn(u32) -> u32) {
    call.state[OVERFLOW..OVERFLOW + 2].iter_mut().for_each(|code| *code = change(*code));
}

/// All twelve numbers changed
fn all(call: &mut Call, change: fn(u32) -> u32) {
    for k in 0..12 {
        if let Some(word) = call.number(k) {
            *word = change(*word);
        }
    }
}

/// An entry by both axes, none of whose numbers is refused
macro_rules! seen {
    ($name:expr, $see:expr) => {
        ($name, (|call, out| answer(judge(call, reasons(call), $see), out)) as Entry)
    };
}

/// By an axis, the same for both
macro_rules! axis {
    ($name:expr, $of:expr) => {
        seen!($name, |axes| both(axes, $of))
    };
}

/// By other conditions of the refusals
macro_rules! tests {
    ($name:expr, $reasons:expr) => {
        (
            $name,
            (|call, out| {
                let reasons: fn(&Call, [bool; 4]) -> [bool; 4] = $reasons;
                let other = reasons(call, self::reasons(call));
                answer(judge(call, other, search), out)
            }) as Entry,
        )
    };
}

/// The entry, with what it reads changed
macro_rules! changed {
    ($name:expr, $change:expr) => {
        ($name, (|call, out| after(call, out, $change)) as Entry)
    };
}

type Named = (&'static str, Entry);

/// Which offset is the least
fn offsets() -> Vec<Named> {
    vec![
        axis!("touching is enough", |a| least(line(a), 0)),
        axis!("two eighths", |a| least(line(a), 2)),
        axis!("the whole box is brought in", |a| least(line(a), a.size)),
        axis!("the whole box is brought in, as far as it goes", |a| {
            closed(a).map(|_| least(line(a), a.size).unwrap_or(a.last()))
        }),
        axis!("a whole pixel", |a| closed(a).map(|o| (o + 7) / 8 * 8)),
        axis!("the greatest offset", |a| closed(a).map(|_| (line(a).start + a.size - 1).min(a.last()))),
        axis!("the last offset", |a| closed(a).map(|_| a.last())),
        axis!("no offset", |a| closed(a).map(|_| 0)),
        axis!("at rest alone", |a| closed(a).filter(|&o| o == 0)),
        axis!("the offset isn't bounded by 0", |a| closed(a).map(|_| line(a).start - a.area + 1)),
        axis!("negative offsets right-to-left", |a| closed(a).map(|o| if a.reversed { -o } else { o })),
        axis!("the box's end isn't tested", |a| Some((line(a).start - a.area + 1).max(0)).filter(|&o| o <= a.last())),
        axis!("a box that ends at the start is seen", |a| {
            closed(a).or((a.size > 0 && a.area > 0 && line(a).start + a.size == 0).then_some(0))
        }),
        axis!("a box without size is seen", |a| closed(&Axis { size: a.size + i64::from(a.size == 0), ..*a })),
        axis!("an area without size shows a box", |a| closed(&Axis { area: a.area + i64::from(a.area == 0), ..*a })),
        axis!("a negative size reaches back", |a| {
            closed(&Axis { at: a.at + a.size.min(0), size: a.size.abs(), ..*a })
        }),
        axis!("a negative size is its amount", |a| closed(&Axis { size: a.size.abs(), ..*a })),
        axis!("sums in f32", |a| {
            let left = a.at as f32 - a.offset as f32;
            let start = if a.reversed { a.area as f32 - left - a.size as f32 } else { left };
            least(Line { start: start as i64, ..line(a) }, 1)
        }),
        seen!("all unseen", |_| None),
        seen!("all seen", |axes| both(axes, closed).or(Some((0, 0)))),
        seen!("one axis is enough", |[x, y]| {
            let (i, j) = (closed(&x), closed(&y));
            i.or(j).map(|_| (i.unwrap_or(0), j.unwrap_or(0)))
        }),
        seen!("across alone", |[x, _]| closed(&x).map(|o| (o, 0))),
        seen!("down alone", |[_, y]| closed(&y).map(|o| (0, o))),
        seen!("the offsets exchanged", |axes| both(axes, closed).map(|(x, y)| (y, x))),
    ]
}

/// How far the view moves
fn ranges() -> Vec<Named> {
    fn until(a: &Axis, last: i64) -> Option<i64> {
        least(Line { last: if a.scrolls() { last.max(0) } else { 0 }, ..line(a) }, 1)
    }
    vec![
        axis!("the far edge is -left right-to-left", |a| {
            until(a, (if a.reversed { -a.near } else { a.far }) - a.area)
        }),
        axis!("the far edge is area - left right-to-left", |a| {
            until(a, if a.reversed { -a.near } else { a.far - a.area })
        }),
        axis!("up to the far edge", |a| until(a, a.far)),
        axis!("up to one before the last", |a| until(a, a.far - a.area - 1)),
        axis!("up to one after the last", |a| until(a, a.far - a.area + 1)),
        axis!("the near edge counts", |a| until(a, a.far - a.near - a.area)),
        axis!("a negative near edge counts", |a| until(a, a.far - a.near.min(0) - a.area)),
        axis!("the near edge moves the box", |a| closed(&Axis { at: a.at - a.near.min(0), ..*a })),
        axis!("the box's own end is reached too", |a| until(a, (line(a).start + a.size).max(a.far) - a.area)),
        axis!("no offset if the rectangle is smaller", |a| closed(a).filter(|_| !a.scrolls() || a.far >= a.area)),
        axis!("the area's offset counts in the far edge", |a| until(a, a.far - a.offset - a.area)),
        axis!("every axis scrolls", |a| closed(&Axis { code: 3, ..*a })),
        axis!("no end", |a| until(a, LARGEST)),
        axis!("what a visible axis doesn't clip is seen", |a| {
            closed(a).or((a.code == 0 && a.size > 0 && a.area > 0).then_some(0))
        }),
        changed!("the axes' codes exchanged", |c| c.state.swap(OVERFLOW, OVERFLOW + 1)),
        changed!("the code across for both", |c| c.state[OVERFLOW + 1] = c.state[OVERFLOW]),
        changed!("both must scroll", |c| {
            if c.state[OVERFLOW..OVERFLOW + 2].iter().any(|&code| code < 2) {
                codes(c, |_| 0)
            }
        }),
        changed!("hidden doesn't scroll", |c| codes(c, |code| if code == 2 { 1 } else { code })),
        changed!("only 3 scrolls", |c| codes(c, |code| if code == 3 { 3 } else { 0 })),
        changed!("a code above 3 doesn't scroll", |c| codes(c, |code| if code > 3 { 0 } else { code })),
        changed!("the two low bits are the code", |c| codes(c, |code| code & 3)),
        changed!("clip scrolls", |c| codes(c, |code| if code == 1 { 2 } else { code })),
    ]
}

/// What is read
fn readings() -> Vec<Named> {
    vec![
        changed!("x from the left edge in both directions", |c| c.state[DIRECTION] = 0),
        changed!("x from the right edge in both directions", |c| c.state[DIRECTION] = 1),
        changed!("only 1 is right-to-left", |c| c.state[DIRECTION] = u32::from(c.state[DIRECTION] == 1)),
        changed!("the low bit is the direction", |c| c.state[DIRECTION] &= 1),
        seen!("y is reversed too", |[x, y]| both([x, Axis { reversed: x.reversed, ..y }], closed)),
        axis!("right-to-left the box's size is forgotten", |a| {
            least(Line { start: if a.reversed { a.area - a.left() } else { a.left() }, ..line(a) }, 1)
        }),
        axis!("right-to-left x is negated", |a| {
            least(Line { start: if a.reversed { -a.left() } else { a.left() }, ..line(a) }, 1)
        }),
        axis!("right-to-left the offset is added", |a| {
            closed(&Axis { offset: if a.reversed { -a.offset } else { a.offset }, ..*a })
        }),
        axis!("the offset is forgotten", |a| closed(&Axis { offset: 0, ..*a })),
        axis!("the offset is added", |a| closed(&Axis { offset: -a.offset, ..*a })),
        seen!("the offset down is forgotten", |[x, y]| both([x, Axis { offset: 0, ..y }], closed)),
        seen!("the offset across is forgotten", |[x, y]| both([Axis { offset: 0, ..x }, y], closed)),
        seen!("y in place of x", |[x, y]| both([Axis { at: y.at, ..x }, y], closed)),
        seen!("x in place of y", |[x, y]| both([x, Axis { at: x.at, ..y }], closed)),
        seen!("the height in place of the width", |[x, y]| both([Axis { size: y.size, ..x }, y], closed)),
        seen!("the width in place of the height", |[x, y]| both([x, Axis { size: x.size, ..y }], closed)),
        seen!("the area's sides exchanged", |[x, y]| {
            both([Axis { area: y.area, ..x }, Axis { area: x.area, ..y }], closed)
        }),
        seen!("the area's offsets exchanged", |[x, y]| {
            both([Axis { offset: y.offset, ..x }, Axis { offset: x.offset, ..y }], closed)
        }),
        seen!("right and bottom exchanged", |[x, y]| both(
            [Axis { far: y.far, ..x }, Axis { far: x.far, ..y }],
            closed
        )),
        seen!("left, top, right, bottom", |[x, y]| both([Axis { far: y.near, ..x }, y], closed)),
        axis!("near and far exchanged", |a| closed(&Axis { far: a.near, ..*a })),
        changed!("the layout of the place", |c| {
            if let Some(node) =
                c.run.slices[WORKING].get_mut(CANDIDATE * c.place.min(9999)).filter(|node| **node < 1024)
            {
                *node = c.place as u32;
            }
        }),
        changed!("the layout of the first place", |c| {
            if c.place < c.filled() {
                c.place = 0
            }
        }),
        changed!("the place from the end", |c| {
            if c.place < c.filled() {
                c.place = c.filled() - 1 - c.place
            }
        }),
        changed!("the order for the node", |c| {
            let n = c.records(STYLES) as u32;
            c.slices[WORKING].chunks_exact_mut(CANDIDATE).filter(|r| r[0] < n).for_each(|r| r[0] = r[1] % n);
        }),
        changed!("the rectangle of the box's layout", |c| {
            let words = c.node(c.place).and_then(|node| c.slices[LAYOUTS].get(23 * node + 3..)?.get(..4));
            if let Some(words) = words.map(<[u32]>::to_vec) {
                (0..4).filter(|&k| count(words[k]).is_some()).for_each(|k| c.state[RECTANGLE + k] = words[k]);
            }
        }),
    ]
}

/// One of the twelve numbers isn't tested
fn untested<const K: usize>(call: &mut Call, out: &mut [u32; 3]) -> u32 {
    let mut other = reasons(call);
    let words = call.twelve();
    other[3] = (0..12).any(|k| k != K && not_eighths(words[k]));
    answer(judge(call, other, search), out)
}

/// One of the four lengths isn't held against the opening's
fn unrecorded<const K: usize>(call: &mut Call, out: &mut [u32; 3]) -> u32 {
    after(call, out, |c| c.state[LENGTHS + K] = c.slices[K].len() as u32)
}

/// A code of a filled record isn't tested
fn uncoded<const K: usize>(call: &mut Call, out: &mut [u32; 3]) -> u32 {
    after(call, out, |c| c.slices[WORKING].chunks_exact_mut(CANDIDATE).for_each(|record| record[CODES[K].0] = 0))
}

/// The refusals in another order: B right before A
fn ordered<const A: usize, const B: usize>(call: &mut Call, out: &mut [u32; 3]) -> u32 {
    let r = reasons(call);
    match r.iter().position(|&holds| holds) {
        Some(k) if k >= A && r[B] => REFUSALS[B],
        _ => PROVED(call, out),
    }
}

/// What is refused with 2 and 6
fn lengths() -> Vec<Named> {
    vec![
        tests!("the place is held against the list's records", |c, [_, b, d, e]| {
            [bad_slices(c) || c.place >= c.records(WORKING), b, d, e]
        }),
        tests!("the place is held against both", |c, [a, b, d, e]| [a || c.place >= c.records(WORKING), b, d, e]),
        tests!("the place isn't tested", |c, [_, b, d, e]| [bad_slices(c), b, d, e]),
        tests!("a place without a box is 6", |c, [_, b, d, e]| [bad_slices(c), b || no_box(c), d, e]),
        ("a place without a box is 2 after 6", |call, out| match reasons(call) {
            [true, true, _, _] if !bad_slices(call) => 6,
            _ => PROVED(call, out),
        }),
        ("a place without a box is 2 after 4", |call, out| match reasons(call) {
            [true, false, true, _] if !bad_slices(call) => 4,
            _ => PROVED(call, out),
        }),
        changed!("the place after the last has a box", |c| {
            if c.place == c.filled() && c.place > 0 {
                c.place -= 1
            }
        }),
        changed!("the last place has no box", |c| {
            if c.place + 1 == c.filled() {
                c.place += 1
            }
        }),
        changed!("the place in 32 bits", |c| c.place &= 0xFFFF_FFFF),
        changed!("the place held against the boxes begun", |c| c.state[FILLED] = c.state[BEGUN]),
        changed!("the words of a piece of a record are left", |c| {
            (2..4).for_each(|k| {
                let whole = c.records(k) * WIDTHS[k];
                if c.state[LENGTHS + k] as usize == c.slices[k].len() {
                    c.state[LENGTHS + k] = whole as u32;
                }
                c.slices[k].truncate(whole)
            })
        }),
        changed!("a word more is a style", |c| {
            let whole = c.records(STYLES) * STYLE;
            if c.state[LENGTHS] as usize == c.slices[STYLES].len() {
                c.state[LENGTHS] = whole as u32;
            }
            c.slices[STYLES].truncate(whole)
        }),
        changed!("more layouts than items", |c| {
            let whole = c.records(STYLES) * 23;
            if c.slices[LAYOUTS].len() > whole && c.state[LENGTHS + LAYOUTS] as usize == c.slices[LAYOUTS].len() {
                c.slices[LAYOUTS].truncate(whole);
                c.state[LENGTHS + LAYOUTS] = whole as u32;
            }
        }),
        tests!("1,024 items are too many", |c, [a, b, d, e]| [a || c.records(STYLES) >= 1024, b, d, e]),
        tests!("4,096 records are too many", |c, [a, b, d, e]| {
            [a || c.records(WORKING) >= 4096 || c.records(UNCLAIMED) >= 4096, b, d, e]
        }),
        tests!("1,025 items are taken", |c, [a, b, d, e]| [a && c.records(STYLES) != 1025, b, d, e]),
        tests!("4,097 filled are taken", |c, [a, b, d, e]| [a && c.records(WORKING) != 4097, b, d, e]),
        tests!("4,097 unclaimed are taken", |c, [a, b, d, e]| [a && c.records(UNCLAIMED) != 4097, b, d, e]),
        ("the styles aren't held against the opening", unrecorded::<STYLES>),
        ("the layouts aren't held against the opening", unrecorded::<LAYOUTS>),
        ("the working list isn't held against the opening", unrecorded::<WORKING>),
        ("the unclaimed list isn't held against the opening", unrecorded::<UNCLAIMED>),
        tests!("the tally's length at the opening is tested", |c, [a, b, d, e]| {
            [a || c.state[TALLY] as usize != c.records(STYLES), b, d, e]
        }),
        tests!("an unfinished run is answered", |c, [a, _, d, e]| [a, above(c, WORKING) || above(c, UNCLAIMED), d, e]),
        tests!("a run at lay out is finished", |c, [a, b, d, e]| [a, b && c.state[PROGRESS] != 5, d, e]),
        tests!("a progress above 5 is unfinished", |c, [a, b, d, e]| [a, b || c.state[PROGRESS] > 5, d, e]),
        tests!("the filled working records aren't tested", |c, [a, _, d, e]| {
            [a, unfinished(c) || above(c, UNCLAIMED), d, e]
        }),
        tests!("the filled unclaimed records aren't tested", |c, [a, _, d, e]| {
            [a, unfinished(c) || above(c, WORKING), d, e]
        }),
        tests!("a full list is 6", |c, [a, b, d, e]| [a, b || c.filled() == c.records(WORKING), d, e]),
        tests!("boxes begun are tested", |c, [a, b, d, e]| [a, b || c.state[BEGUN] as usize > c.filled(), d, e]),
        tests!("no boxes begun is 6", |c, [a, b, d, e]| [a, b || c.state[BEGUN] == 0, d, e]),
        tests!("all boxes begun", |c, [a, b, d, e]| [a, b || c.state[BEGUN] != c.state[FILLED], d, e]),
        tests!("answered is tested", |c, [a, b, d, e]| {
            [a, b || u64::from(c.state[ANSWERED]) > 3 * u64::from(c.state[BEGUN]), d, e]
        }),
    ]
}

/// What is refused with 4 and 9
fn words() -> Vec<Named> {
    vec![
        tests!("4 for the asked record alone", |c, [a, b, _, e]| {
            [a, b, c.slices[WORKING].chunks_exact(CANDIDATE).nth(c.place).is_some_and(|r| bad_record(c, r)), e]
        }),
        tests!("4 up to the asked record", |c, [a, b, _, e]| {
            [a, b, c.slices[WORKING].chunks_exact(CANDIDATE).take(c.place.min(9999) + 1).any(|r| bad_record(c, r)), e]
        }),
        tests!("4 for all but the last", |c, [a, b, _, e]| {
            [a, b, c.slices[WORKING].chunks_exact(CANDIDATE).take(c.filled().max(1) - 1).any(|r| bad_record(c, r)), e]
        }),
        tests!("4 for records that aren't filled", |c, [a, b, _, e]| {
            [a, b, c.slices[WORKING].chunks_exact(CANDIDATE).any(|r| bad_record(c, r)), e]
        }),
        tests!("4 for the unclaimed too", |c, [a, b, d, e]| {
            let filled = c.state[FILLED + 1] as usize;
            [a, b, d || c.slices[UNCLAIMED].chunks_exact(CANDIDATE).take(filled).any(|r| bad_record(c, r)), e]
        }),
        tests!("4 for the node alone", |c, [a, b, _, e]| {
            let n = c.records(STYLES);
            [a, b, c.slices[WORKING].chunks_exact(CANDIDATE).take(c.filled()).any(|r| r[0] as usize >= n), e]
        }),
        tests!("4 for a node of n alone", |c, [a, b, d, e]| {
            let n = c.records(STYLES);
            [a, b, d && !c.slices[WORKING].chunks_exact(CANDIDATE).take(c.filled()).any(|r| r[0] as usize == n), e]
        }),
        ("the position isn't tested", uncoded::<0>),
        ("the edge across isn't tested", uncoded::<1>),
        ("the safety across isn't tested", uncoded::<2>),
        ("the fallback across isn't tested", uncoded::<3>),
        ("the edge down isn't tested", uncoded::<4>),
        ("the safety down isn't tested", uncoded::<5>),
        ("the fallback down isn't tested", uncoded::<6>),
        ("the layer isn't tested", uncoded::<7>),
        changed!("a layer by its low byte", |c| {
            c.slices[WORKING].chunks_exact_mut(CANDIDATE).for_each(|record| record[LAYER] &= 255);
        }),
        tests!("layer 255 is refused", |c, [a, b, d, e]| {
            [a, b, d || c.slices[WORKING].chunks_exact(CANDIDATE).take(c.filled()).any(|r| r[LAYER] == 255), e]
        }),
        changed!("layer 256 is accepted", |c| {
            let records = c.slices[WORKING].chunks_exact_mut(CANDIDATE);
            records.filter(|record| record[LAYER] == 256).for_each(|record| record[LAYER] = 255);
        }),
        ("a style is read", |call, out| match PROVED(call, out) {
            0 if call.slices[STYLES][0] > 129 => 3,
            result => result,
        }),
        ("the area's width isn't tested", untested::<0>),
        ("the area's height isn't tested", untested::<1>),
        ("the area's x isn't tested", untested::<2>),
        ("the area's y isn't tested", untested::<3>),
        ("the rectangle's left isn't tested", untested::<4>),
        ("the rectangle's right isn't tested", untested::<5>),
        ("the rectangle's top isn't tested", untested::<6>),
        ("the rectangle's bottom isn't tested", untested::<7>),
        ("the box's x isn't tested", untested::<8>),
        ("the box's y isn't tested", untested::<9>),
        ("the box's width isn't tested", untested::<10>),
        ("the box's height isn't tested", untested::<11>),
        tests!("the padding is tested", |c, [a, b, d, e]| {
            let padding =
                c.node(c.place).and_then(|node| c.slices[LAYOUTS].get(23 * node.min(9999) + PADDING).copied());
            [a, b, d, e || not_eighths(padding)]
        }),
        tests!("all boxes are tested", |c, [a, b, d, e]| {
            let all = c.slices[WORKING]
                .chunks_exact(CANDIDATE)
                .take(c.filled())
                .filter_map(|record| c.slices[LAYOUTS].get(23 * record[0] as usize..)?.get(..23));
            let mut numbers = all.flat_map(|layout| LOCATION_AND_SIZE.map(|k| layout[k]));
            [a, b, d, e || numbers.any(|word| not_eighths(Some(word)))]
        }),
        tests!("the far edge isn't tested where nothing scrolls", |c, [a, b, d, _]| {
            let (words, axes) = (c.twelve(), axes(c));
            let unread = |k: usize| k == 4 || k == 6 || k == 5 && !axes[0].scrolls() || k == 7 && !axes[1].scrolls();
            [a, b, d, (0..12).any(|k| !unread(k) && not_eighths(words[k]))]
        }),
        tests!("9,999,999 eighths are refused", |c, [a, b, d, e]| {
            [a, b, d, e || c.twelve().iter().any(|word| word.and_then(count).is_some_and(|n| n.abs() == LARGEST))]
        }),
        tests!("a negative size is refused", |c, [a, b, d, e]| {
            [a, b, d, e || axes(c).iter().any(|axis| axis.size < 0)]
        }),
        tests!("a negative area is refused", |c, [a, b, d, e]| {
            [a, b, d, e || axes(c).iter().any(|axis| axis.area < 0)]
        }),
        tests!("-0 is refused", |c, [a, b, d, e]| [a, b, d, e || c.twelve().contains(&Some(1 << 31))]),
        changed!("10,000,000 eighths are accepted", |c| {
            all(c, |w| if w == bits(LARGEST + 1) { bits(LARGEST) } else { w })
        }),
        changed!("sixteenths are rounded", |c| all(c, |w| ((f32::from_bits(w) * 8.0).round() / 8.0).to_bits())),
        changed!("NaNs are 0", |c| all(c, |w| if f32::from_bits(w).is_nan() { 0 } else { w })),
    ]
}

/// What else a call may do
fn calls() -> Vec<Named> {
    vec![
        ("6 before 2", ordered::<0, 1>),
        ("4 before 2", ordered::<0, 2>),
        ("9 before 2", ordered::<0, 3>),
        ("4 before 6", ordered::<1, 2>),
        ("9 before 6", ordered::<1, 3>),
        ("9 before 4", ordered::<2, 3>),
        ("another refusal", |call, out| PROVED(call, out).min(8)),
        ("not in eighths is unseen", |call, out| match PROVED(call, out) {
            9 => answer(Unseen, out),
            result => result,
        }),
        ("a refused verdict is zeroed", |call, out| match PROVED(call, out) {
            0 => 0,
            result => {
                *out = [0; 3];
                result
            }
        }),
        ("a refusal writes its number", |call, out| match PROVED(call, out) {
            0 => 0,
            result => {
                out[0] = result;
                result
            }
        }),
        ("unseen writes one word", |call, out| {
            let [_, x, y] = *out;
            let result = PROVED(call, out);
            if result == 0 && out[0] == 0 {
                *out = [0, x, y];
            }
            result
        }),
        ("unseen keeps the offset across", |call, out| {
            let result = PROVED(call, out);
            if result == 0 && out[0] == 0 {
                out[1] = closed(&axes(call)[0]).unwrap_or(0) as u32;
            }
            result
        }),
        ("unseen keeps the offset down", |call, out| {
            let result = PROVED(call, out);
            if result == 0 && out[0] == 0 {
                out[2] = closed(&axes(call)[1]).unwrap_or(0) as u32;
            }
            result
        }),
        ("unseen is 1", |call, out| {
            let result = PROVED(call, out);
            out[0] ^= u32::from(result == 0);
            result
        }),
        ("a layout is written", |call, out| {
            let result = PROVED(call, out);
            call.slices[LAYOUTS].iter_mut().take(1).for_each(|word| *word ^= u32::from(result == 0));
            result
        }),
        ("the state is written", |call, out| {
            let result = PROVED(call, out);
            call.state[BEGUN] ^= u32::from(result == 6);
            result
        }),
    ]
}

/// What the request invites one to write. The comparison is worth nothing if it misses one.
fn wrong() -> Vec<Named> {
    [offsets(), ranges(), readings(), lengths(), words(), calls()].concat()
}

// ---- the comparison

fn show(call: &Call) -> String {
    let names = "area width,area height,area x,area y,left,right,top,bottom,x,y,width,height";
    let say = |word: Option<u32>| match word {
        None => "none".to_string(),
        Some(w) => count(w).map_or_else(|| format!("{:e} ({w:08X})", f32::from_bits(w)), |n| format!("{n}e")),
    };
    let numbers = names.split(',').zip(call.twelve()).map(|(name, word)| format!("{name} {}", say(word)));
    format!(
        "place {}, words {:?}, recorded {:?}, progress {}, filled {:?}, direction {}, overflow {:?}, nodes {:?}, {}",
        call.place,
        [0, 1, 2, 3].map(|k| call.slices[k].len()),
        &call.state[LENGTHS..],
        call.state[PROGRESS],
        &call.state[FILLED..FILLED + 2],
        call.state[DIRECTION],
        &call.state[OVERFLOW..OVERFLOW + 2],
        call.slices[WORKING].iter().step_by(CANDIDATE).take(8).collect::<Vec<_>>(),
        numbers.collect::<Vec<_>>().join(", ")
    )
}

/// Whether the entry does what the model says, and writes no word but the verdict's.
fn compare(entry: Entry, call: &Call, noise: u32) -> Result<Verdict, String> {
    let before = [noise, !noise, noise.rotate_left(9)].map(|word| word | 1 << 31);
    let (mut lent, mut out, mut words) = (call.clone(), before, before);
    let result = entry(&mut lent, &mut out);
    let wanted = model(call);
    if (result, out) != (answer(wanted, &mut words), words) {
        return Err(format!("{}: {result} {out:?}, not {wanted:?}", show(call)));
    }
    if lent != *call {
        return Err(format!("{}: a lent word is written", show(call)));
    }
    Ok(wanted)
}

/// An axis from the start edge: the area's size, the box's start and size, the far edge, the overflow code; and the least offset, if any.
type Row = (i64, i64, i64, i64, u32, Option<i64>);

const ROWS: [Row; 41] = [
    // a patch of positive length, on an axis that doesn't scroll
    (8, 8, 2, 99, 0, None),
    (8, 8, 2, 99, 1, None),
    (8, 7, 2, 99, 0, Some(0)),
    (8, 7, 2, 99, 1, Some(0)),
    (8, -2, 2, 99, 0, None),
    (8, -2, 3, 99, 1, Some(0)),
    (8, 2, 0, 99, 0, None),
    (8, 2, -1, 99, 1, None),
    (0, -1, 3, 99, 0, None),
    (-4, -8, 16, 99, 0, None),
    // the least offset, hidden and scroll: neither touching nor the whole box
    (8, 20, 4, 24, 2, Some(13)),
    (8, 20, 4, 24, 3, Some(13)),
    (8, 20, 4, 21, 3, Some(13)),
    (8, 20, 4, 20, 3, None),
    (8, 20, 4, 24, 0, None),
    (8, 20, 4, 24, 1, None),
    (8, 8, 1, 9, 2, Some(1)),
    (8, 8, 1, 8, 2, None),
    (8, 7, 30, 40, 3, Some(0)),
    // right-to-left: x -12 and width 4 in an area of 8
    (8, 16, 4, 20, 3, Some(9)),
    // a rectangle smaller than the area leaves 0
    (8, 3, 2, 4, 3, Some(0)),
    (8, 9, 2, 4, 3, None),
    (8, 3, 2, -40, 2, Some(0)),
    (8, 0, 8, 0, 2, Some(0)),
    // nothing scrolls before the start
    (8, -9, 9, 40, 3, None),
    (8, -9, 10, 40, 3, Some(0)),
    (8, -9, 99, 40, 2, Some(0)),
    (8, 12, 0, 40, 3, None),
    (8, 12, -2, 40, 3, None),
    (0, 12, 4, 40, 3, None),
    (-5, 12, 4, 40, 3, None),
    (1, 12, 1, 13, 3, Some(12)),
    // the limits
    (1, 9_999_998, 1, LARGEST, 3, Some(9_999_998)),
    (1, 9_999_998, 1, 9_999_998, 3, None),
    (4, LARGEST, 4, LARGEST, 3, None),
    (4, 9_999_998, 4, LARGEST, 2, Some(9_999_995)),
    (LARGEST, 0, LARGEST, LARGEST, 3, Some(0)),
    (LARGEST, -LARGEST, LARGEST, LARGEST, 3, None),
    // right-to-left, in an area at 9,999,999: x less the offset is -16,777,217, which no float is
    (8, 6_777_226, LARGEST, LARGEST, 3, Some(6_777_219)),
    // codes above 3 are scroll
    (8, 20, 4, 24, 4, Some(13)),
    (8, 20, 4, 24, u32::MAX, Some(13)),
];

/// Directions, and where the area is. A direction above 1 is right-to-left.
const OFFSETS: [(u32, (i64, i64)); 6] =
    [(0, (0, 0)), (1, (0, 0)), (0, (5, -9)), (2, (5, -9)), (0, (-LARGEST, 800)), (u32::MAX, (LARGEST, -800))];

/// A run of two boxes, hoisted nodes 1 and 0, of which the first is asked; the other's numbers are no counts. None if x or y isn't one.
fn plain(across: Row, down: Row, direction: u32, offset: (i64, i64)) -> Option<Call> {
    let mut slices = [2, 2, 3, 1].iter().zip(WIDTHS).map(|(n, width)| vec![0x7FC0_0001; n * width]);
    let mut call = Call {
        place: 0,
        run: Run { slices: std::array::from_fn(|_| slices.next().unwrap_or_default()), state: [0; STATE] },
    };
    [1, 0].iter().zip(call.slices[WORKING].chunks_exact_mut(CANDIDATE)).for_each(|(&node, record)| {
        record[0] = node;
        CODES.iter().for_each(|&(k, most)| record[k] = most);
    });
    let left = if direction == 0 { across.1 } else { across.0 - across.1 - across.2 };
    let numbers = [
        [across.0, down.0, offset.0, offset.1],
        [-3, across.3, 5, down.3],
        [offset.0 + left, offset.1 + down.1, across.2, down.2],
    ];
    for (k, n) in numbers.concat().into_iter().enumerate() {
        *call.number(k)? = (n.abs() <= LARGEST).then(|| bits(n))?;
    }
    call.state[FILLED] = 2;
    call.state[DIRECTION] = direction;
    call.state[OVERFLOW] = across.4;
    call.state[OVERFLOW + 1] = down.4;
    call.record_lengths();
    Some(call)
}

/// A box from the area's start edges: start and size across, start and size down.
type Placed = [i64; 4];

/// A run of two boxes, hoisted nodes 1 and 0, both of which can be asked: the area, the rectangle from 0 on, the codes, the boxes by place.
fn two(direction: u32, area: [i64; 4], far: [i64; 2], codes: [u32; 2], boxes: [Placed; 2]) -> [Call; 2] {
    let [width, height, x, y] = area;
    let [first, second] = boxes.map(|[start, size, top, height_of]| {
        let (across, down) =
            ((width, start, size, far[0], codes[0], None), (height, top, height_of, far[1], codes[1], None));
        plain(across, down, direction, (x, y)).expect("an accepted run")
    });
    // the second box's layout, which stands at node 1 in its own run, is node 0's
    let mut call = first;
    (0..23).for_each(|k| call.slices[LAYOUTS][k] = second.slices[LAYOUTS][23 + k]);
    (0..2).for_each(|k| call.state[RECTANGLE + 2 * k] = 0);
    [0, 1].map(|place| Call { place, ..call.clone() })
}

// ---- changes of a call

type Change = finished::Change<Call>;

/// In the order in which they are tested.
fn kinds() -> [Kind<Call>; 5] {
    [
        Kind { refused: 2, changes: extents(), big: 2 },
        Kind { refused: 6, changes: counts(), big: 0 },
        Kind { refused: 4, changes: candidates(), big: 0 },
        Kind { refused: 9, changes: numbers(), big: 0 },
        Kind { refused: 0, changes: harmless(), big: 3 },
    ]
}

fn extents() -> Vec<Change> {
    let own: Vec<Change> = vec![
        ("no such place", |c, r| c.place = c.filled() + r.below(3) * r.below(3)),
        ("no such place in 32 bits", |c, r| c.place += 1 << (32 + r.below(31))),
        ("the last place of all", |c, _| c.place = usize::MAX),
        ("nothing filled", |c, r| {
            c.state[FILLED] = 0;
            c.state[PROGRESS] = r.word() % 7;
        }),
    ];
    [other_lengths(), other_lengths_recorded(), own, too_many()].concat()
}

fn counts() -> Vec<Change> {
    vec![
        ("unfinished", |c, r| c.state[PROGRESS] = 1 + r.word() % 5),
        ("filled above the list", |c, r| c.state[FILLED] = c.records(WORKING).max(c.place) as u32 + 1 + r.word() % 2),
        ("filled above the list, and asked there", |c, r| {
            c.place = c.records(WORKING) + r.below(3);
            c.state[FILLED] = c.place as u32 + 1;
        }),
        ("the most filled", |c, _| c.state[FILLED] = u32::MAX),
        ("filled above the unclaimed list", |c, r| {
            c.state[FILLED + 1] = c.records(UNCLAIMED) as u32 + 1 + r.word() % 2
        }),
        ("the most unclaimed", |c, _| c.state[FILLED + 1] = u32::MAX),
        ("no records", |c, _| c.resize(WORKING, 0)),
    ]
}

impl OneFilled for Call {
    fn one_filled(&mut self, random: &mut Random) -> &mut [u32] {
        let k = random.below(self.filled().min(self.records(WORKING)).max(1) as u32);
        self.filled_record(k)
    }
}

fn candidates() -> Vec<Change> {
    let own: Vec<Change> = vec![
        ("a layer above 255", |c, r| c.one_filled(r)[LAYER] = r.pick(&BAD_LAYERS)),
        ("no items", |c, _| {
            c.resize(STYLES, 0);
            c.resize(LAYOUTS, 0);
        }),
        ("a bad record at the place asked", |c, r| {
            let (k, most) = r.pick(&CODES);
            let at = CANDIDATE * c.place + k;
            if let Some(word) = c.slices[WORKING].get_mut(at) {
                *word = most + 1
            }
        }),
    ];
    [bad_nodes_and_codes(), own].concat()
}

fn numbers() -> Vec<Change> {
    fn change(c: &mut Call, k: usize, word: u32) {
        if let Some(old) = c.number(k) {
            *old = word
        }
    }
    vec![
        ("no count", |c, r| change(c, r.below(12), r.pick(&STRANGE))),
        ("no count, of the area", |c, r| change(c, r.below(4), r.pick(&STRANGE))),
        ("no count, of the rectangle", |c, r| change(c, 4 + r.below(4), r.pick(&STRANGE))),
        ("no count, of the box", |c, r| change(c, 8 + r.below(4), r.pick(&STRANGE))),
        ("beside a count", |c, r| change(c, r.below(12), bits(1 + r.small(1 << 19).abs()) + 1)),
        ("any word that is no count", |c, r| {
            let k = r.below(12);
            let word = (0..99).map(|_| r.word()).find(|&w| count(w).is_none());
            change(c, k, word.unwrap_or(u32::MAX))
        }),
    ]
}

fn harmless() -> Vec<Change> {
    let own: Vec<Change> = vec![
        ("none", |_, _| ()),
        ("a progress above 5", |c, r| c.state[PROGRESS] = r.pick(&[6, 7, 256, 1 << 31, u32::MAX])),
        ("any direction", |c, r| c.state[DIRECTION] = r.pick(&[2, 3, 256, 1 << 31, u32::MAX])),
        ("an overflow above 3", |c, r| c.state[OVERFLOW + r.below(2)] = r.pick(&[4, 5, 256, 1 << 31, u32::MAX])),
        ("any count of boxes begun and answered", |c, r| {
            let (k, filled) = (r.below(2), c.state[FILLED]);
            c.state[BEGUN + k] = r.pick(&[0, 1, 7, filled, filled + 1, 99, u32::MAX]);
        }),
        ("any replies and claims", |c, r| c.state[r.pick(&[1, 2, 3, 4, 5, 6, 20])] = r.word()),
        ("any other words of the layout", |c, r| {
            let other = (0..23).filter(|k| !LOCATION_AND_SIZE.contains(k)).nth(r.below(19)).unwrap_or(0);
            let at = c.node(c.place).map_or(0, |node| 23 * node.min(9999) + other);
            if let Some(word) = c.slices[LAYOUTS].get_mut(at) {
                *word = r.pick(&STRANGE)
            }
        }),
        ("any other layouts", |c, r| {
            let node = c.node(c.place).unwrap_or(0);
            let others = c.slices[LAYOUTS].chunks_exact_mut(23).enumerate().filter(|(k, _)| *k != node);
            others.for_each(|(_, layout)| layout[LOCATION_AND_SIZE[r.below(4)]] = r.pick(&STRANGE));
        }),
        ("records that aren't filled", |c, r| {
            let behind = CANDIDATE * c.filled();
            c.slices[WORKING].iter_mut().skip(behind).for_each(|word| *word = r.word() | 1 << 20);
        }),
        ("unclaimed records", |c, r| c.slices[UNCLAIMED].fill(r.word() | 1 << 20)),
        ("a style", |c, r| {
            let at = r.below(STYLE as u32);
            c.slices[STYLES][at] = r.pick(&[2, 385, u32::MAX]);
        }),
        ("a candidate's order and area", |c, r| {
            let (k, word) = (r.pick(&[1, 3, 4, 8, 9]), r.pick(&STRANGE));
            c.slices[WORKING].chunks_exact_mut(CANDIDATE).for_each(|record| record[k] = word);
        }),
        ("-0", |c, r| {
            if let Some(word) = c.number(r.below(12)) {
                *word = 1 << 31
            }
        }),
        ("the limit", |c, r| {
            if let Some(word) = c.number(r.below(12)) {
                *word = bits(LARGEST) | r.word() << 31
            }
        }),
        ("a record more, recorded so", |c, r| c.lengthen(2 + r.below(2))),
        ("a full list", |c, _| c.fit()),
        ("1,024 items, of which the last is asked", |c, _| {
            let (at, node) = (CANDIDATE * c.place, c.node(c.place).unwrap_or(0));
            c.resize(STYLES, 1024);
            c.resize(LAYOUTS, 1024);
            c.slices[LAYOUTS].copy_within(23 * node..23 * node + 23, 23 * 1023);
            c.slices[WORKING][at] = 1023;
        }),
        ("4,096 records", |c, r| c.resize(2 + r.below(2), 4096)),
        ("4,096 filled ones", |c, r| {
            let record = c.slices[WORKING][CANDIDATE * c.place..][..CANDIDATE].to_vec();
            c.resize(WORKING, 4096);
            c.slices[WORKING].chunks_exact_mut(CANDIDATE).for_each(|other| other.copy_from_slice(&record));
            c.state[FILLED] = 4096;
            c.place = r.below(4096);
        }),
    ];
    [other_tallies(), own].concat()
}

// ---- random calls

impl Random {
    /// An axis from its start edge, near a place where the verdict turns as often as not.
    fn row(&mut self) -> [i64; 4] {
        let most = self.pick(&[4, 4, 4, 4, 8, 8, 16, 100, 5000, LARGEST]);
        let positive = self.below(16) > 0;
        let side = |n: i64| if positive { n.abs().max(1) } else { n };
        let (area, size) = (side(self.small(most)), side(self.small(most)));
        let far = match self.below(8) {
            0 => self.small(most),
            1 => area + self.small(2),
            _ => area + self.small(most).abs(),
        };
        let end = far.max(area);
        let turn = match self.below(12) {
            0 => area,
            1 => -size,
            2 => end,
            3 => end - size,
            4 => self.small(2 * most),
            // seen, at rest or if it scrolls
            5..8 => self.small(LARGEST).rem_euclid((area + size).max(1)) - size,
            _ => self.small(LARGEST).rem_euclid((end + size).max(1)) - size,
        };
        [area, turn + self.small(1), size, far].map(|n| n.clamp(-LARGEST, LARGEST))
    }

    /// A call that is accepted. Only the words that are read are drawn; the others are any.
    fn call(&mut self, pool: &[u32]) -> Call {
        let n = 1 + self.below(4);
        let filled = 1 + self.below(4);
        let records = [n, n, filled + self.below(3), self.below(3)];
        let slices = std::array::from_fn(|k| self.noise(pool, records[k] * WIDTHS[k]));
        let mut call = Call { place: self.below(filled as u32), run: Run { slices, state: [0; STATE] } };
        call.state.copy_from_slice(&self.noise(pool, STATE));
        // nodes in some order, each once if there are enough of them, or any
        let (turn, any) = (self.below(n as u32), self.below(2) == 0);
        for (k, record) in call.slices[WORKING].chunks_exact_mut(CANDIDATE).take(filled).enumerate() {
            record[0] = (if any { self.below(n as u32) } else { (n + turn - k % n) % n }) as u32;
            CODES.iter().for_each(|&(k, most)| record[k] %= most + 1);
        }
        if self.below(2) == 0 {
            for layout in call.slices[LAYOUTS].chunks_exact_mut(23) {
                LOCATION_AND_SIZE.iter().for_each(|&k| layout[k] = bits(self.small(9)));
            }
        }
        let rows = [self.row(), self.row()];
        let most = self.pick(&[0, 8, 8, 8, 100_000, LARGEST]);
        let direction = self.word() % 2;
        for (k, [area, start, size, far]) in rows.into_iter().enumerate() {
            let left = if k == 0 && direction == 1 { area - start - size } else { start };
            let near = self.small(12);
            let offset = Some(self.small(most)).filter(|o| (o + left).abs() <= LARGEST).unwrap_or(0);
            let at = (offset + left).clamp(-LARGEST, LARGEST);
            let words = [(k, area), (2 + k, offset), (4 + 2 * k, near), (5 + 2 * k, far), (8 + k, at), (10 + k, size)];
            words.iter().for_each(|&(k, n)| *call.number(k).expect("a box") = bits(n));
        }
        call.state[PROGRESS] = 0;
        call.state[FILLED] = filled as u32;
        call.state[FILLED + 1] %= records[UNCLAIMED] as u32 + 1;
        call.state[DIRECTION] = direction;
        call.state[OVERFLOW] %= 4;
        call.state[OVERFLOW + 1] %= 4;
        call.record_lengths();
        call
    }
}

// ---- the run

/// Classes of calls, each of which must be met.
#[derive(Default)]
struct Figures {
    calls: u64,
    /// seen at 0, 0; at another pair; unseen
    verdicts: [u64; 3],
    refused: [u64; 4],
    /// by the set of refusals whose conditions hold
    reasons: [u64; 16],
    /// by direction and overflow codes, of each verdict
    codes: [[u64; 3]; 32],
    /// left-to-right, right-to-left and down: a box that touches the furthest view, or that it just shows; that touches the first view's
    /// start, or that it just shows; a rectangle smaller than the area
    turns: [[u64; 5]; 3],
    /// an offset of a million or more across, and down; the greatest; an area that isn't at 0; another node than the place; a node that is
    /// claimed twice; a direction above 1; an overflow above 3; a progress above 5
    others: [u64; 9],
    /// held by the rectangle: seen, unseen
    held: [u64; 2],
    /// mirror images by verdict
    mirrored: [u64; 3],
}

impl Figures {
    fn note(&mut self, call: &Call, verdict: Verdict) {
        self.calls += 1;
        let mask = reasons(call).iter().enumerate().map(|(k, &holds)| usize::from(holds) << k).sum::<usize>();
        self.reasons[mask] += 1;
        if let Some(k) = REFUSALS.iter().position(|&number| verdict == Refused(number)) {
            self.refused[k] += 1;
            return;
        }
        let kind = kind(verdict);
        self.verdicts[kind] += 1;
        let axes = axes(call);
        let [x, y] = axes.map(|axis| axis.code.min(3) as usize);
        self.codes[16 * usize::from(axes[0].reversed) + 4 * x + y][kind] += 1;
        for (k, axis) in axes.iter().enumerate() {
            let Line { area, start, size, last } = line(axis);
            if area <= 0 || size <= 0 {
                continue;
            }
            let turns = [
                start == area + last,
                start == area + last - 1 && last > 0,
                start + size == 0,
                start + size == 1,
                axis.scrolls() && axis.far < area,
            ];
            let counted = &mut self.turns[if k == 1 { 2 } else { usize::from(axis.reversed) }];
            (0..5).for_each(|k| counted[k] += u64::from(turns[k]));
        }
        let (i, j) = if let Seen(i, j) = verdict { (i, j) } else { (0, 0) };
        let node = call.node(call.place);
        let others = [
            i >= 1_000_000,
            j >= 1_000_000,
            i.max(j) == LARGEST - 1,
            axes.iter().any(|axis| axis.offset != 0),
            node != Some(call.place),
            (0..call.filled()).filter(|&k| call.node(k) == node).count() > 1,
            call.state[DIRECTION] > 1,
            axes.iter().any(|axis| axis.code > 3),
            call.state[PROGRESS] > 5,
        ];
        (0..9).for_each(|k| self.others[k] += u64::from(others[k]));
    }

    /// A class that no call was of.
    fn missed(&self) -> Option<String> {
        let still = |k: usize| k / 4 % 4 < 2 && k % 4 < 2;
        let codes = (0..32).flat_map(|k| (0..3).map(move |v| (k, v))).filter(|&(k, v)| !(v == 1 && still(k)));
        let classes = [
            ("verdict", self.verdicts.to_vec()),
            ("refusal", self.refused.to_vec()),
            ("set of refusals", self.reasons.to_vec()),
            ("direction, codes and verdict", codes.map(|(k, v)| self.codes[k][v]).collect()),
            ("turn", self.turns.concat()),
            ("other class", self.others.to_vec()),
            ("box held by the rectangle", self.held.to_vec()),
            ("mirror image", self.mirrored.to_vec()),
        ];
        let missed =
            |(name, counts): &(&str, Vec<u64>)| counts.iter().position(|&n| n == 0).map(|k| format!("{name} {k}"));
        classes.iter().find_map(missed)
    }
}

fn kind(verdict: Verdict) -> usize {
    match verdict {
        Seen(0, 0) => 0,
        Seen(..) => 1,
        _ => 2,
    }
}

/// A call, and the two claims over it if it isn't refused.
fn check(entry: Entry, call: &Call, noise: u32, figures: &mut Figures) -> Result<Verdict, String> {
    let verdict = compare(entry, call, noise)?;
    figures.note(call, verdict);
    if matches!(verdict, Refused(_)) {
        return Ok(verdict);
    }
    if let Some(unseen) = held(call) {
        figures.held[usize::from(unseen)] += 1;
        if unseen != (verdict == Unseen) {
            return Err(format!("{}: held by the rectangle, and {verdict:?}", show(call)));
        }
    }
    if let Some(image) = mirrored(call) {
        figures.mirrored[kind(verdict)] += 1;
        let other = compare(entry, &image, !noise)?;
        if other != verdict {
            return Err(format!("{}: {verdict:?}, its mirror image {other:?}", show(call)));
        }
    }
    Ok(verdict)
}

/// A call of which it is known, without the model, what comes out. Where the model says otherwise, neither is to be believed.
fn known(entry: Entry, call: &Call, verdict: Verdict, figures: &mut Figures) -> Result<(), String> {
    assert_eq!(model(call), verdict, "{}", show(call));
    check(entry, call, 0x5A5A_0F0F, figures).map(|_| ())
}

/// With what a changed call is refused is known too.
fn expected(call: &Call, verdict: Verdict, refused: u32, change: &str) {
    let number = if let Refused(number) = verdict { number } else { 0 };
    assert_eq!(number, refused, "{change}: {}", show(call));
}

fn directed(entry: Entry, figures: &mut Figures) -> Result<(), String> {
    for across in ROWS {
        for down in ROWS {
            for (direction, offset) in OFFSETS {
                if let Some(call) = plain(across, down, direction, offset) {
                    let seen = across.5.zip(down.5).map_or(Unseen, |(x, y)| Seen(x, y));
                    known(entry, &call, seen, figures)?;
                }
            }
        }
    }
    for direction in [0, 1] {
        // the incident, and its Arabic mirror image
        let boxes = [[192, 1280, 128, 192], [-2624, 2560, 1600, 768]];
        let [label, note] = two(direction, [6400, 3840, 0, 0], [1472, 320], [2, 2], boxes);
        known(entry, &label, Seen(0, 0), figures)?;
        known(entry, &note, Unseen, figures)?;
        // all of the run's numbers differ
        let [first, second] = two(direction, [16, 9, 5, -3], [40, 30], [3, 0], [[30, 4, 3, 2], [13, 7, 8, 6]]);
        known(entry, &first, Seen(15, 0), figures)?;
        known(entry, &second, Seen(0, 0), figures)?;
        let [first, second] = two(direction, [16, 9, 5, -3], [40, 30], [0, 3], [[1, 4, 28, 2], [16, 7, 8, 6]]);
        known(entry, &first, Seen(0, 20), figures)?;
        known(entry, &second, Unseen, figures)?;
    }
    // the lowest and the highest layer, and those that are none, of the record that is asked for and of the other one
    for layer in [0, 255].into_iter().chain(BAD_LAYERS) {
        for record in 0..2 {
            let mut call = plain(ROWS[2], ROWS[2], 0, (0, 0)).expect("an accepted run");
            call.slices[WORKING][CANDIDATE * record + LAYER] = layer;
            let seen = ROWS[2].5.map_or(Unseen, |at| Seen(at, at));
            known(entry, &call, if layer > 255 { Refused(4) } else { seen }, figures)?;
        }
    }
    for k in 0..12 {
        for word in COUNTS.map(|(word, _)| word).into_iter().chain(STRANGE) {
            for direction in [0, 1] {
                let mut call = plain(ROWS[11], ROWS[2], direction, (3, -4)).expect("an accepted run");
                *call.number(k).expect("a box") = word;
                let verdict = check(entry, &call, word, figures)?;
                expected(&call, verdict, if STRANGE.contains(&word) { 9 } else { 0 }, "a number");
            }
        }
    }
    changed(entry, figures)?;
    grid(entry, figures)
}

fn changed(entry: Entry, figures: &mut Figures) -> Result<(), String> {
    let mut random = Random(102);
    let pool = random.pool(4096);
    each_change(&kinds(), [12, 24], |change, name| {
        let mut call = random.call(&pool);
        let refused = change(&mut call, &mut random);
        let verdict = check(entry, &call, random.word(), figures)?;
        expected(&call, verdict, refused, name);
        Ok(())
    })
}

/// Every axis of a few eighths, beside one that is seen.
fn grid(entry: Entry, figures: &mut Figures) -> Result<(), String> {
    for n in 0..4 * 12 * 5 * 10 * 2 {
        let row = (n % 4, n / 4 % 12 - 4, n / 48 % 5 - 1, n / 240 % 10 - 1, 1 + (n / 2400) as u32, None);
        for (across, down, direction) in [(row, ROWS[2], 0), (row, ROWS[2], 1), (ROWS[12], row, 0)] {
            let call = plain(across, down, direction, (n % 3, n % 7)).expect("an accepted run");
            check(entry, &call, n as u32, figures)?;
        }
    }
    Ok(())
}

fn random(entry: Entry, calls: u64, seed: u64, figures: &mut Figures) -> Result<(), String> {
    let mut random = Random::seeded(seed);
    let pool = random.pool(4096);
    let kinds = kinds();
    for _ in 0..calls {
        let mut call = random.call(&pool);
        let chosen = match random.below(16) {
            0..10 => 0,
            10..14 => 1 + random.below(31),
            14 => 16,
            _ => {
                call.forge(&mut random, &[PROGRESS..BEGUN, RECTANGLE..DIRECTION, LENGTHS..TALLY]);
                check(entry, &call, random.word(), figures)?;
                continue;
            }
        };
        let refused = random.change(&mut call, &kinds, chosen);
        let verdict = check(entry, &call, random.word(), figures)?;
        expected(&call, verdict, refused, "random changes");
    }
    Ok(())
}

/// What a wrong entry is tried with, until it is found out.
fn hunt(entry: Entry) -> Result<(), String> {
    let mut figures = Figures::default();
    random(entry, 2_000, 1, &mut figures)?;
    directed(entry, &mut figures)?;
    random(entry, 20_000, 2, &mut figures)
}

fn run(thousands: u64, seed: u64) -> Result<String, String> {
    try_counts();
    // the closed form that the wrong ones are made from isn't wrong
    hunt(axis!("", closed).1).map_err(|place| format!("closed form: {place}"))?;
    let wrong = wrong();
    find_out(&wrong, |entry| hunt(*entry))?;
    let mut f = Figures::default();
    directed(PROVED, &mut f)?;
    let tried = f.calls;
    random(PROVED, thousands * 1000, seed, &mut f)?;
    if let Some(class) = f.missed() {
        return Err(format!("seed {seed}: no call of {class}"));
    }
    let ([rest, scrolled, unseen], [two, six, four, nine]) = (f.verdicts, f.refused);
    Ok(format!(
        "seed {seed}: {tried} directed calls and {} random ones, {rest} seen at rest, {scrolled} scrolled, {unseen} unseen, \
         {two} refused with 2, {six} with 6, {four} with 4, {nine} with 9: no difference; {} boxes held by the rectangle \
         ({} unseen), {} mirror images; {} wrong entries found out",
        f.calls - tried,
        f.held[0] + f.held[1],
        f.held[1],
        f.mirrored.iter().sum::<u64>(),
        wrong.len()
    ))
}

fn main() {
    report("reach", 400, run);
}
