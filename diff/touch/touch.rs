//! Compares the C entry `oof_touch`, linked as a static library, with a model in exact integers.
//!
//! The model is request #108 as it is worded, over the pixel edges of request #101, and its tests are written anew from the customer's words.
//! An edge goes to the nearest pixel edge, and between two to the greater: distances are compared, where the entry takes the floor of
//! (n + 4) / 8. Before the entry, wrong ones are tried: each must be found out. Last, pairs of runs that are to give the driver identical
//! words.
//!
//!     touch [THOUSANDS] [SEED]     random calls, after directed ones, and a pair of runs for every fourth

#[path = "../eighths.rs"]
mod eighths;
#[path = "../filling.rs"]
mod filling;
#[path = "../finished.rs"]
mod finished;
#[path = "../random.rs"]
mod random;
#[path = "../trial.rs"]
mod trial;

use eighths::{bits, count, edges, try_counts, wrong_edges, Counts, COUNTS, LARGEST, LOCATION_AND_SIZE, ROWS, STRANGE};
use filling::Verdict::{Refused, Written};
use filling::{
    answer, changed, filled, filled_before, large_lists, named, one_box, ordered, other_boxes, other_counts,
    other_extents, other_layers, other_records, other_states, other_styles, plain_call, proved, tested, then,
    unread_records, wrong_filling,
};
use filling::{Call, Change, Entry, Figures, Named, Trial, Verdict, Words};
use finished::{bad_record, bad_slices, entry, too_many, Kind, Run};
use finished::{
    AREA, BEGUN, CANDIDATE, DIRECTION, FILLED, LAYER, LAYOUT, LAYOUTS, LENGTHS, NODE, OFFSET, ORDER, PROGRESS,
    RECTANGLE, STATE, STYLES, TALLY, UNCLAIMED, WORKING,
};
use random::Random;
use std::ops::Range;
use trial::{find_out, report};

/// "five words a box": node, left, right, top, bottom.
const WORDS: usize = 5;

/// Words of the state that `forge` leaves as they are as often as not.
const KEPT: &[Range<usize>] = &[PROGRESS..FILLED, FILLED..BEGUN, OFFSET..DIRECTION, LENGTHS..TALLY];

entry!(called is oof_touch(; words: *mut u32, len: usize));

// ---- the model

/// How many of the refusals there are: all.
const TESTS: usize = 4;

/// x, y, width and height of a node's layout and the area's offset, by their bits, if there is such a layout.
fn numbers(run: &Run, node: u32) -> Option<[u32; 6]> {
    let layout = run.layout(node)?;
    let [x, y, width, height] = LOCATION_AND_SIZE.map(|k| layout[k]);
    Some([x, y, width, height, run.state[OFFSET], run.state[OFFSET + 1]])
}

/// A number of a box isn't in eighths, of those by place and number that are looked at
fn bad_of(run: &Run, looked_at: impl Fn(usize, usize) -> bool) -> bool {
    let bad = |place: usize, six: [u32; 6]| (0..6).any(|k| looked_at(place, k) && count(six[k]).is_none());
    run.boxes().enumerate().any(|(place, record)| numbers(run, record[NODE]).is_some_and(|six| bad(place, six)))
}

/// "Refusal 9 is met here as in #101"
fn bad_numbers(run: &Run) -> bool {
    bad_of(run, |_, _| true)
}

/// A number that isn't accepted counts as 0: the model has refused it before.
fn counts(run: &Run, node: u32) -> Counts {
    numbers(run, node).map_or([0; 6], |six| six.map(|word| count(word).unwrap_or(0)))
}

/// The pixel edge that is nearest to n eighths, and of two that are equally near the greater.
fn nearest(n: i64) -> i64 {
    let before = n.div_euclid(8);
    let after = before + 1;
    if n - 8 * before < 8 * after - n {
        before
    } else {
        after
    }
}

/// "negative ones in two's complement": modulo 2 ^ 32
fn word(edge: i64) -> u32 {
    edge.rem_euclid(1 << 32) as u32
}

/// "node, and its layout's pixel edges of #101 in their order"
fn spell(node: u32, edges: [i64; 4]) -> [u32; 5] {
    let [left, right, top, bottom] = edges.map(word);
    [node, left, right, top, bottom]
}

fn by_edges(call: &Call, of: impl Fn(Counts) -> [i64; 4]) -> Vec<u32> {
    call.column(NODE).into_iter().flat_map(|node| spell(node, of(counts(call, node)))).collect()
}

/// "five words a box, in hoisted order"
fn fill(call: &Call) -> Vec<u32> {
    by_edges(call, |c| edges(c, nearest))
}

/// The same in pixels, as floats of 64 bits, in which these sums are exact: "the floor of (n + 4) divided by 8, also below zero"
fn holds(call: &Call, words: &[u32]) -> bool {
    let floor = |pixels: f64| (pixels + 0.5).floor();
    let is = |words: &[u32], record: &[u32]| {
        let six = numbers(call, record[NODE]).map(|six| six.map(|word| f64::from(f32::from_bits(word))));
        let [x, y, width, height, ox, oy] = six.expect("a layout");
        let sums = [x - ox, x + width - ox, y - oy, y + height - oy];
        words[0] == record[NODE] && (0..4).all(|k| f64::from(words[1 + k] as i32) == floor(sums[k]))
    };
    words.len() == call.needed() && words.chunks_exact(WORDS).zip(call.boxes()).all(|(five, record)| is(five, record))
}

// ---- wrong entries

/// Other edges of each box
fn edged(name: &str, of: impl Fn(Counts) -> [i64; 4] + 'static) -> Named {
    filled(name, move |call| by_edges(call, &of))
}

/// Other words of a box, by its node and its edges
fn spelled(name: &str, spell: fn(u32, [i64; 4]) -> [u32; 5]) -> Named {
    filled(name, move |call| {
        call.column(NODE).into_iter().flat_map(|node| spell(node, edges(counts(call, node), nearest))).collect()
    })
}

/// Words of other boxes: for each, what is told as its node, and the node whose layout it has
fn listed(name: &str, list: fn(&Call) -> Vec<(u32, u32)>) -> Named {
    filled(name, move |call| {
        list(call).into_iter().flat_map(|(told, node)| spell(told, edges(counts(call, node), nearest))).collect()
    })
}

/// By another condition of 9
fn refusing(name: &str, bad: impl Fn(&Call, bool) -> bool + 'static) -> Named {
    tested(name, move |c, [a, b, d, e]| [a, b, d, bad(c, e)])
}

/// By a condition that comes to those of 9
fn also(name: &str, bad: impl Fn(&Call) -> bool + 'static) -> Named {
    refusing(name, move |c, e| e || bad(c))
}

/// The entry, with every number that it reads changed before
fn numbered(name: &str, change: fn(u32) -> u32) -> Named {
    changed(name, move |call| {
        for node in call.column(NODE) {
            if let Some(layout) = call.slices[LAYOUTS].chunks_exact_mut(LAYOUT).nth(node as usize) {
                LOCATION_AND_SIZE.iter().for_each(|&k| layout[k] = change(layout[k]));
            }
        }
        (OFFSET..OFFSET + 2).for_each(|k| call.state[k] = change(call.state[k]));
    })
}

/// What is rounded and added
fn roundings() -> Vec<Named> {
    let own = [
        edged("up to the next pixel edge", |c| edges(c, |n| -(-n).div_euclid(8))),
        edged("halves down below zero", |c| edges(c, |n| nearest(n) - i64::from(n < 0 && n % 8 == -4))),
        edged("to the half before", |c| edges(c, |n| (n - 4).div_euclid(8))),
        edged("eighths in place of pixels", |c| edges(c, |n| n)),
        edged("the offset is forgotten", |[x, y, w, h, _, _]| edges([x, y, w, h, 0, 0], nearest)),
        edged("the offset across is forgotten", |[x, y, w, h, _, oy]| edges([x, y, w, h, 0, oy], nearest)),
        edged("the offset down is forgotten", |[x, y, w, h, ox, _]| edges([x, y, w, h, ox, 0], nearest)),
        edged("the offsets exchanged", |[x, y, w, h, ox, oy]| edges([x, y, w, h, oy, ox], nearest)),
        edged("left from y", |[_, y, w, h, ox, oy]| edges([y, y, w, h, ox, oy], nearest)),
        edged("the size for the location", |[_, _, w, h, ox, oy]| edges([w, h, w, h, ox, oy], nearest)),
        edged("height for width", |[x, y, _, h, ox, oy]| edges([x, y, h, h, ox, oy], nearest)),
        edged("a negative size is turned round", |[x, y, w, h, ox, oy]| {
            edges([x + w.min(0), y + h.min(0), w.abs(), h.abs(), ox, oy], nearest)
        }),
        edged("a negative edge is 0", |c| edges(c, |n| nearest(n).max(0))),
        edged("sums up to the limit", |c| edges(c, |n| nearest(n.clamp(-LARGEST, LARGEST)))),
        edged("far edges are the last pixels", |c| {
            let [left, right, top, bottom] = edges(c, nearest);
            [left, right - 1, top, bottom - 1]
        }),
        edged("a box of less than a pixel has one", |c| {
            let [left, right, top, bottom] = edges(c, nearest);
            [left, right.max(left + i64::from(c[2] > 0)), top, bottom.max(top + i64::from(c[3] > 0))]
        }),
    ];
    wrong_edges().into_iter().map(|(name, of)| edged(name, of)).chain(own).collect()
}

/// How edges are written
fn spellings() -> Vec<Named> {
    vec![
        spelled("magnitudes", |node, edges| spell(node, edges.map(i64::abs))),
        spelled("a sign and a magnitude", |node, edges| spell(node, edges.map(|p| p.abs() | i64::from(p < 0) << 31))),
        spelled("ones' complement", |node, edges| spell(node, edges.map(|p| p - i64::from(p < 0)))),
        spelled("two's complement in 16 bits", |node, edges| spell(node, edges.map(|p| p & 0xFFFF))),
        spelled("two's complement in 24 bits", |node, edges| spell(node, edges.map(|p| p & 0xFF_FFFF))),
        spelled("16 bits with their sign", |node, edges| spell(node, edges.map(|p| i64::from(p as i16)))),
        spelled("edges from 2 ^ 31", |node, edges| spell(node, edges.map(|p| p + (1 << 31)))),
        spelled("floats", |node, edges| spell(node, edges.map(|p| i64::from((p as f32).to_bits())))),
        spelled("the bytes backwards", |node, edges| spell(node, edges.map(|p| i64::from((p as u32).swap_bytes())))),
        spelled("the near edges alone", |node, [left, _, top, _]| spell(node, [left, left, top, top])),
        spelled("right before left", |node, [left, right, top, bottom]| spell(node, [right, left, top, bottom])),
        spelled("bottom before top", |node, [left, right, top, bottom]| spell(node, [left, right, bottom, top])),
        spelled("top and bottom first", |node, [left, right, top, bottom]| spell(node, [top, bottom, left, right])),
        spelled("left, top, bottom, right", |node, [left, right, top, bottom]| spell(node, [left, top, bottom, right])),
        spelled("the node last", |node, edges| {
            let [_, left, right, top, bottom] = spell(node, edges);
            [left, right, top, bottom, node]
        }),
    ]
}

/// Boxes as they are told, by their records
fn told(call: &Call, node: fn(u32, &[u32]) -> (u32, u32)) -> Vec<(u32, u32)> {
    (0..).zip(call.boxes()).map(|(place, record)| node(place, record)).collect()
}

/// The boxes in another order, by a key of their records
fn sorted(call: &Call, key: fn(&[u32]) -> u32) -> Vec<(u32, u32)> {
    let mut records: Vec<&[u32]> = call.boxes().collect();
    records.sort_by_key(|record| key(record));
    records.iter().map(|record| (record[NODE], record[NODE])).collect()
}

/// Which boxes are told, and as what
fn lists() -> Vec<Named> {
    vec![
        listed("places in place of nodes", |call| told(call, |place, r| (place, r[NODE]))),
        listed("nodes from 1", |call| told(call, |_, r| (r[NODE] + 1, r[NODE]))),
        listed("nodes in a byte", |call| told(call, |_, r| (r[NODE] & 0xFF, r[NODE]))),
        listed("places in place of nodes, and their layouts", |call| told(call, |place, _| (place, place))),
        listed("the layout of the node behind", |call| told(call, |_, r| (r[NODE], r[NODE] + 1))),
        listed("the first box's layout for all", |call| {
            let first = call.column(NODE).first().copied().unwrap_or(0);
            call.column(NODE).into_iter().map(|node| (node, first)).collect()
        }),
        listed("the last first", |call| call.column(NODE).into_iter().rev().map(|node| (node, node)).collect()),
        listed("nodes sorted", |call| sorted(call, |r| r[NODE])),
        listed("nodes sorted, the last first", |call| sorted(call, |r| !r[NODE])),
        listed("nodes sorted, their layouts as they were", |call| {
            sorted(call, |r| r[NODE]).into_iter().zip(call.column(NODE)).map(|((told, _), node)| (told, node)).collect()
        }),
        listed("a node that is claimed twice is told once", |call| {
            let nodes = call.column(NODE);
            let first = |k: usize| nodes.iter().position(|&node| node == nodes[k]) == Some(k);
            (0..nodes.len()).filter(|&k| first(k)).map(|k| (nodes[k], nodes[k])).collect()
        }),
        filled("a box without pixels is left out", |call| {
            let all = fill(call);
            all.chunks_exact(WORDS).filter(|w| w[1] != w[2] && w[3] != w[4]).flatten().copied().collect()
        }),
        filled("nodes first, then the edges", |call| {
            let all = fill(call);
            let edges = all.chunks_exact(WORDS).flat_map(|words| &words[1..]).copied();
            call.column(NODE).into_iter().chain(edges).collect()
        }),
        filled("all left edges, all right ones", |call| {
            let all = fill(call);
            (0..WORDS).flat_map(|k| all.iter().skip(k).step_by(WORDS).copied().collect::<Vec<_>>()).collect()
        }),
    ]
}

/// Words that aren't to be read, and change what is written. The request's law alone must find these out
fn readings() -> Vec<Named> {
    /// So many boxes from another record on
    fn records(call: &Call, list: usize, first: usize) -> Vec<(u32, u32)> {
        let nodes = call.slices[list].chunks_exact(CANDIDATE).skip(first).map(|record| record[NODE]);
        nodes.take(call.filled()).map(|node| (node, node)).collect()
    }
    /// Each layout changed before
    fn layouts(name: &str, change: fn(&mut [u32])) -> Named {
        changed(name, move |c| c.slices[LAYOUTS].chunks_exact_mut(LAYOUT).for_each(change))
    }
    vec![
        listed("the layout by turn", |call| told(call, |place, r| (r[NODE], place))),
        listed("the candidates' orders in place of nodes", |call| told(call, |_, r| (r[ORDER], r[NODE]))),
        listed("layers in place of nodes", |call| told(call, |_, r| (r[LAYER], r[NODE]))),
        listed("the drawing order", |call| sorted(call, |r| r[LAYER])),
        listed("the candidates' order", |call| sorted(call, |r| r[ORDER])),
        listed("the records from the second on", |call| records(call, WORKING, 1)),
        listed("the unclaimed records", |call| records(call, UNCLAIMED, 0)),
        layouts("x and y a word before", |layout| layout.copy_within(8..10, LOCATION_AND_SIZE[0])),
        layouts("the size that overflows for the size", |layout| layout.copy_within(3..5, LOCATION_AND_SIZE[2])),
        layouts("the left padding moves the box", |layout| {
            let sum = count(layout[PADDING]).zip(count(layout[LOCATION_AND_SIZE[0]])).map(|(padding, x)| padding + x);
            layout[LOCATION_AND_SIZE[0]] = sum.filter(|n| n.abs() <= LARGEST).map_or(layout[LOCATION_AND_SIZE[0]], bits)
        }),
        changed("the area's size for its offset", |c| c.state.copy_within(AREA..OFFSET, OFFSET)),
        changed("right-to-left x is negated", |c| {
            if c.state[DIRECTION] % 2 == 1 {
                c.slices[LAYOUTS].chunks_exact_mut(LAYOUT).for_each(|layout| layout[LOCATION_AND_SIZE[0]] ^= 1 << 31)
            }
        }),
        then("-0 is another number", |call, words, result| {
            if result == 0 && call.boxes().any(|r| any_number(call, r[NODE], |word| word == 1 << 31)) {
                words.lent()[0] ^= 1
            }
        }),
    ]
}

/// Where a layout has its padding.
const PADDING: usize = 11;

/// Some of a box's six numbers is such
fn any_number(run: &Run, node: u32, such: fn(u32) -> bool) -> bool {
    numbers(run, node).is_some_and(|six| six.into_iter().any(such))
}

/// Words that aren't to be tested. The request's law alone must find these out too
fn unread() -> Vec<Named> {
    fn strange(words: &[u32]) -> bool {
        words.iter().any(|&word| count(word).is_none())
    }
    fn strange_box(layout: &[u32]) -> bool {
        strange(&LOCATION_AND_SIZE.map(|k| layout[k]))
    }
    /// Of layouts of some records
    fn of_records<'a>(call: &Call, mut records: impl Iterator<Item = &'a [u32]>) -> bool {
        records.any(|record| call.layout(record[NODE]).is_some_and(strange_box))
    }
    /// Words of a box's layout
    fn of_layout(name: &str, words: Range<usize>) -> Named {
        also(name, move |c| c.boxes().any(|r| c.layout(r[NODE]).is_some_and(|layout| strange(&layout[words.clone()]))))
    }
    vec![
        also("the area's size is tested", |c| strange(&c.state[AREA..OFFSET])),
        also("the area's size is tested where there is a box", |c| c.filled() > 0 && strange(&c.state[AREA..OFFSET])),
        also("a negative area is 9", |c| c.filled() > 0 && c.state[AREA] >> 31 == 1),
        also("the overflow rectangle is tested", |c| strange(&c.state[RECTANGLE..AREA])),
        of_layout("the child overflow is tested", 3..7),
        of_layout("the scrollbars are tested", 7..9),
        of_layout("the padding is tested", PADDING..15),
        of_layout("the last word of the layout is tested", LAYOUT - 1..LAYOUT),
        of_layout("the order is tested", 0..1),
        also("layouts that aren't placed are tested", |c| c.slices[LAYOUTS].chunks_exact(LAYOUT).any(strange_box)),
        also("the first items' layouts are tested", |c| {
            c.slices[LAYOUTS].chunks_exact(LAYOUT).take(c.filled()).any(strange_box)
        }),
        also("unclaimed boxes are tested", |c| {
            of_records(c, c.slices[UNCLAIMED].chunks_exact(CANDIDATE).take(c.state[FILLED + 1] as usize))
        }),
        also("records that aren't filled are tested", |c| {
            of_records(c, c.slices[WORKING].chunks_exact(CANDIDATE).skip(c.filled()))
        }),
        also("the static area is tested", |c| c.boxes().any(|r| strange(&r[3..5]) || strange(&r[8..10]))),
        also("a style's value is tested", |c| strange(&c.slices[STYLES][1..2])),
    ]
}

/// Which numbers are tested
fn untested() -> Vec<Named> {
    fn of(name: &str, looked_at: impl Fn(usize, usize) -> bool + 'static) -> Named {
        refusing(name, move |c, _| bad_of(c, &looked_at))
    }
    let names = ["x", "y", "width", "height", "offset across", "offset down"];
    let each =
        names.into_iter().enumerate().map(|(k, name)| of(&format!("the {name} isn't tested"), move |_, at| at != k));
    let some = [1, 2, 16, 256, 1024, 4095];
    let first = some
        .into_iter()
        .map(|most| of(&format!("the first boxes alone, at most {most}"), move |place, _| place < most));
    let own = [
        of("9 isn't tested", |_, _| false),
        of("the offset isn't tested", |_, k| k < 4),
        of("the offset alone is tested", |_, k| k >= 4),
        of("the location alone is tested", |_, k| k < 2),
        of("all boxes but the first", |place, _| place > 0),
        of("the offset is tested with the second box", |place, k| k < 4 || place > 0),
        refusing("all boxes but the last", |c, _| bad_of(c, |place, _| place + 1 < c.filled())),
        refusing("the last box alone", |c, _| bad_of(c, |place, _| place + 1 == c.filled())),
        refusing("9 if all boxes are bad", |c, e| {
            e && c.boxes().all(|r| any_number(c, r[NODE], |w| count(w).is_none()))
        }),
        refusing("the sums alone are tested", |c, _| {
            let whole = |pixels: f64| (8.0 * pixels).fract() == 0.0 && pixels.abs() < 1e7;
            c.boxes().filter_map(|r| numbers(c, r[NODE])).any(|six| {
                let [x, y, w, h, ox, oy] = six.map(|word| f64::from(f32::from_bits(word)));
                ![x - ox, x + w - ox, y - oy, y + h - oy].into_iter().all(whole)
            })
        }),
        also("the offset is tested without a box", |c| {
            c.filled() == 0 && c.state[OFFSET..DIRECTION].iter().any(|&word| count(word).is_none())
        }),
    ];
    each.chain(first).chain(own).collect()
}

/// Which numbers are accepted
fn accepted() -> Vec<Named> {
    fn any(name: &str, bad: fn(Counts) -> bool) -> Named {
        also(name, move |c| c.boxes().any(|r| bad(counts(c, r[NODE]))))
    }
    vec![
        any("9,999,999 eighths are refused", |c| c.iter().any(|n| n.abs() == LARGEST)),
        any("a negative size is refused", |c| c[2] < 0 || c[3] < 0),
        any("an empty box is refused", |c| c[2] == 0 || c[3] == 0),
        any("a box before the area is refused", |c| c[0] < c[4]),
        any("a far edge above the limit is refused", |c| (c[0] + c[2]).abs() > LARGEST),
        any("a location above the limit is refused", |c| (c[0] - c[4]).abs() > LARGEST),
        any("sums of 2 ^ 24 eighths are refused", |c| (c[0] + c[2] - c[4]).abs() >= 1 << 24),
        any("odd eighths are refused", |c| c.iter().any(|n| n % 2 != 0)),
        any("halves of a pixel are refused", |c| (c[0] - c[4]).rem_euclid(8) == 4),
        also("-0 is refused", |c| c.boxes().any(|r| any_number(c, r[NODE], |word| word == 1 << 31))),
        numbered("10,000,000 eighths are accepted", |w| if w == bits(LARGEST + 1) { bits(LARGEST) } else { w }),
        numbered("sixteenths are rounded", |w| ((f32::from_bits(w) * 8.0).round() / 8.0).to_bits()),
        numbered("NaNs are 0", |w| if f32::from_bits(w).is_nan() { 0 } else { w }),
        numbered("infinities are the limit", |w| {
            if f32::from_bits(w).is_infinite() {
                bits(LARGEST) | w & 1 << 31
            } else {
                w
            }
        }),
        numbered("what is less than an eighth is 0", |w| if f32::from_bits(w).abs() < 0.125 { 0 } else { w }),
        numbered("numbers are cut to the limit", |w| f32::from_bits(w).clamp(-1_249_999.875, 1_249_999.875).to_bits()),
    ]
}

/// How many words there are
fn lengths() -> Vec<Named> {
    fn length(name: &str, bad: fn(usize, usize) -> bool) -> Named {
        tested(name, move |c, [_, b, d, e]| [bad_slices(c) || bad(c.words, c.filled()), b, d, e])
    }
    vec![
        length("words of no whole box are left", |words, boxes| words / WORDS != boxes),
        length("words of no whole box are begun", |words, boxes| words.div_ceil(WORDS) != boxes),
        length("four words a box", |words, boxes| words != 4 * boxes),
        length("six words a box", |words, boxes| words != 6 * boxes),
        length("a layout's words a box", |words, boxes| words != LAYOUT * boxes),
        length("a word a box", |words, boxes| words != boxes),
        length("the product in 32 bits", |words, boxes| words as u32 != (boxes as u32).wrapping_mul(5)),
    ]
}

fn good(call: &Call, record: &[u32]) -> bool {
    !bad_record(call, record) && !any_number(call, record[NODE], |word| count(word).is_none())
}

/// The five words of those boxes that are good, and for a bad one what is said of it
fn each_box(call: &Call, bad: fn(u32) -> Vec<u32>) -> Vec<u32> {
    let all = fill(call);
    let words = call.boxes().zip(all.chunks_exact(WORDS));
    words.flat_map(|(record, five)| if good(call, record) { five.to_vec() } else { bad(record[NODE]) }).collect()
}

/// What is written although a box is bad
fn writes() -> Vec<Named> {
    vec![
        then("words of the boxes before a bad one are written", |call, words, result| {
            if matches!(result, 4 | 9) {
                let before = call.boxes().take_while(|record| good(call, record)).count();
                words.fill(&fill(call)[..WORDS * before])
            }
        }),
        then("the first node is written before 9", |call, words, result| {
            if result == 9 {
                words.fill(&call.column(NODE)[..1])
            }
        }),
        then("nodes are written before 9 is tested", |call, words, result| {
            if result == 9 {
                let nodes = call.column(NODE);
                words.lent().iter_mut().step_by(WORDS).zip(nodes).for_each(|(word, node)| *word = node)
            }
        }),
        then("words of good boxes are written in any case", |call, words, result| {
            if result == 9 {
                words.fill(&each_box(call, |node| vec![node; WORDS]))
            }
        }),
        filled_before(9),
    ]
}

/// What a bad box is answered with
fn answers() -> Vec<Named> {
    /// Accepted
    fn taken(name: &str, bad: fn(u32) -> Vec<u32>) -> Named {
        named(name, move |call, words| match proved(call, words) {
            9 => answer(&Written(each_box(call, bad)), words),
            result => result,
        })
    }
    vec![
        taken("a bad box is left out", |_| vec![]),
        taken("a bad box has no edges", |node| spell(node, [0; 4]).to_vec()),
        taken("a bad box is all ones", |_| vec![u32::MAX; WORDS]),
        ordered(0, 3),
        ordered(1, 3),
        ordered(2, 3),
        named("9 is 8", |call, words| proved(call, words).min(8)),
        named("9 is 2", |call, words| match proved(call, words) {
            9 => 2,
            result => result,
        }),
    ]
}

/// What the request invites one to write. The comparison is worth nothing if it misses one.
fn wrong() -> Vec<Named> {
    let words = [roundings(), spellings(), lists(), readings()];
    let tests = [unread(), untested(), accepted(), lengths(), writes(), answers(), wrong_filling()];
    words.into_iter().chain(tests).flatten().collect()
}

// ---- classes of calls

fn show_boxes(call: &Call) -> String {
    let say = |word: u32| match count(word) {
        Some(n) => format!("{n}e"),
        None => format!("{:e} ({word:08X})", f32::from_bits(word)),
    };
    let boxes = call.boxes().take(12).filter_map(|record| numbers(call, record[NODE]));
    let offset = [0, 1].map(|k| say(call.state[OFFSET + k]));
    format!(
        "offset {offset:?}, x, y, width, height {:?}",
        boxes.map(|six| six.map(say)[..4].to_vec()).collect::<Vec<_>>()
    )
}

/// Each must be met, whether or not this call is of it.
fn classes(call: &Call, verdict: &Verdict) -> Vec<(&'static str, bool)> {
    let none = Call::new(Default::default(), [0; STATE]);
    let (of_written, of_refused) = match verdict {
        Written(_) => (call, &none),
        Refused(9) => (&none, call),
        Refused(_) => (&none, &none),
    };
    let written = written_classes(of_written).map(|(name, holds)| (name, holds && matches!(verdict, Written(_))));
    let read = unread_classes(of_written).map(|(name, holds)| (name, holds && matches!(verdict, Written(_))));
    let refused = refused_classes(of_refused).map(|(name, holds)| (name, holds && *verdict == Refused(9)));
    written.into_iter().chain(read).chain(refused).collect()
}

/// Of calls that are accepted: their boxes
fn written_classes(call: &Call) -> [(&'static str, bool); 16] {
    let nodes = call.column(NODE);
    let boxes: Vec<Counts> = nodes.iter().map(|&node| counts(call, node)).collect();
    let any = |is: fn(Counts) -> bool| boxes.iter().any(|&c| is(c));
    let edge = |is: fn(i64) -> bool| boxes.iter().any(|&c| edges(c, |n| n).into_iter().any(is));
    [
        ("no box", nodes.is_empty()),
        ("one box", nodes.len() == 1),
        ("two boxes or three", (2..4).contains(&nodes.len())),
        ("256 boxes or more", nodes.len() >= 256),
        ("4,096 boxes", nodes.len() == 4096),
        ("an edge below 0", edge(|n| nearest(n) < 0)),
        ("an edge at -1", edge(|n| nearest(n) == -1)),
        ("a half below 0", edge(|n| n < 0 && n % 8 == -4)),
        ("a half above 0", edge(|n| n > 0 && n % 8 == 4)),
        ("a sum of 2^24 eighths or more", edge(|n| n.abs() >= 1 << 24)),
        ("a number at the limit", any(|c| c.iter().any(|n| n.abs() == LARGEST))),
        ("a negative size", any(|c| c[2] < 0 || c[3] < 0)),
        ("a width without a pixel", any(|c| c[2] > 0 && nearest(c[0] - c[4]) == nearest(c[0] + c[2] - c[4]))),
        ("an area that isn't at a whole pixel", any(|c| c[4] % 8 != 0 && c[5] % 8 != 0)),
        ("a node that is claimed twice", (1..nodes.len().min(64)).any(|k| nodes[..k].contains(&nodes[k]))),
        ("a node before a lower one", nodes.windows(2).any(|pair| pair[0] > pair[1])),
    ]
}

/// Of these: what isn't looked at
fn unread_classes(call: &Call) -> [(&'static str, bool); 8] {
    let strange = |word: &u32| count(*word).is_none();
    let nodes = call.column(NODE);
    let mut others = (0..).zip(call.slices[LAYOUTS].chunks_exact(LAYOUT)).filter(|(node, _)| !nodes.contains(node));
    [
        ("-0", nodes.iter().any(|&node| any_number(call, node, |word| word == 1 << 31))),
        ("room behind the boxes", call.records(WORKING) > nodes.len()),
        ("a progress above 5", call.state[PROGRESS] > 5),
        ("a right-to-left container", call.state[DIRECTION] > 0),
        ("an area's size that isn't in eighths", !nodes.is_empty() && call.state[AREA..OFFSET].iter().any(strange)),
        ("an overflow that isn't in eighths", call.state[RECTANGLE..AREA].iter().any(strange)),
        (
            "an item that isn't placed, nor in eighths",
            others.any(|(_, layout)| LOCATION_AND_SIZE.iter().any(|&k| strange(&layout[k]))),
        ),
        (
            "an offset that isn't in eighths, and no box",
            nodes.is_empty() && call.state[OFFSET..DIRECTION].iter().any(strange),
        ),
    ]
}

/// Of calls that are refused with 9
fn refused_classes(call: &Call) -> [(&'static str, bool); 13] {
    let boxes: Vec<[u32; 6]> = call.boxes().filter_map(|record| numbers(call, record[NODE])).collect();
    let bad = |word: u32| count(word).is_none();
    let places: Vec<usize> = (0..boxes.len()).filter(|&place| boxes[place].into_iter().any(bad)).collect();
    let alone = |k: usize| boxes.iter().all(|six| (0..6).all(|other| other == k || !bad(six[other])));
    let any = |is: fn(f32) -> bool| boxes.iter().flatten().any(|&word| is(f32::from_bits(word)));
    let last = places == [boxes.len() - usize::from(!boxes.is_empty())];
    [
        ("x alone isn't in eighths", alone(0)),
        ("y alone isn't", alone(1)),
        ("the width alone isn't", alone(2)),
        ("the height alone isn't", alone(3)),
        ("the offset across alone isn't", alone(4)),
        ("the offset down alone isn't", alone(5)),
        ("the first box alone of several", boxes.len() > 1 && places == [0]),
        ("the last box alone of several", boxes.len() > 1 && last),
        ("the last box alone of 4,096", boxes.len() == 4096 && last),
        ("a NaN", any(f32::is_nan)),
        ("an infinity", any(f32::is_infinite)),
        ("half an eighth", any(|x| (8.0 * x).fract().abs() == 0.5)),
        ("10,000,000 eighths", any(|x| x.abs() == 1_250_000.0)),
    ]
}

fn figures(f: &Figures) -> String {
    let [written, two, six, four, nine] = f.verdicts();
    format!(
        "{written} written ({} with an edge below 0, {} with a half below 0, {} with a node that is claimed twice, {} without a box), \
         {two} refused with 2 ({} for the slice's length alone), {six} with 6, {four} with 4, {nine} with 9",
        f.of("an edge below 0"),
        f.of("a half below 0"),
        f.of("a node that is claimed twice"),
        f.of("no box"),
        f.lengths(),
    )
}

// ---- directed calls

/// Boxes in eighths, x, y, width and height, and their edges where the area is at 0.
const ITEMS: [([i64; 4], [i32; 4]); 6] = [
    ([-5, 0, 8, 8], [-1, 0, 0, 1]),
    ([4, -4, 0, 4], [1, 1, 0, 0]),
    // the incident's note, and one as high
    ([-2624, 192, 2560, 1280], [-328, -8, 24, 184]),
    ([LARGEST, -LARGEST, LARGEST, -LARGEST], [1_250_000, 2_500_000, -1_250_000, -2_500_000]),
    // turned round, and of less than a pixel
    ([3, 12, -8, 3], [0, -1, 2, 2]),
    ([0, 0, 0, 0], [0, 0, 0, 0]),
];

/// Hoisted nodes.
const NODES: [&[u32]; 8] =
    [&[], &[0], &[5, 5, 2], &[2, 1, 0], &[0, 1, 2], &[3, 0, 4, 0], &[1, 1, 1], &[5, 4, 3, 2, 1, 0]];

/// A finished run of boxes with these nodes over items with these locations and sizes, and one item more.
fn plain(nodes: &[u32], items: &[[i64; 4]], offset: [i64; 2]) -> Call {
    let mut call = plain_call(nodes, items.len() + 1);
    for (layout, numbers) in call.slices[LAYOUTS].chunks_exact_mut(LAYOUT).zip(items) {
        LOCATION_AND_SIZE.iter().zip(numbers).for_each(|(&k, &n)| layout[k] = bits(n));
    }
    call.state[OFFSET..DIRECTION].copy_from_slice(&offset.map(bits));
    call
}

/// Finished runs, and what is written
fn rows() -> Vec<(Call, Vec<u32>)> {
    // the words by a conversion of Rust's, which wraps
    let five = |node: u32, edges: [i64; 4]| [vec![node], edges.iter().map(|&p| p as i32 as u32).collect()].concat();
    let items = ITEMS.map(|(numbers, _)| numbers);
    let lists = NODES.map(|nodes| {
        let words = nodes.iter().flat_map(|&node| five(node, ITEMS[node as usize].1.map(i64::from)));
        (plain(nodes, &items, [0, 0]), words.collect())
    });
    let across_and_down = ROWS.iter().flat_map(|across| ROWS.iter().map(move |down| (across, down)));
    let single = across_and_down.map(|(&(x, width, ox, left, right), &(y, height, oy, top, bottom))| {
        (plain(&[0], &[[x, y, width, height]], [ox, oy]), five(0, [left, right, top, bottom]))
    });
    lists.into_iter().chain(single).collect()
}

/// One of the numbers that are read: of a box, by its place, x, y, width and height; the area's offset
fn number(call: &mut Call, place: usize, k: usize) -> &mut u32 {
    if k >= 4 {
        return &mut call.run.state[OFFSET + k - 4];
    }
    let node = call.filled_record(place)[NODE] as usize;
    &mut call.run.slices[LAYOUTS][LAYOUT * node + LOCATION_AND_SIZE[k]]
}

impl Trial<'_> {
    /// Rows of the request: -1 by its bits, and what is refused before a number is looked at.
    fn own_rows(&mut self) -> Result<(), String> {
        let one = plain(&[0], &[ITEMS[0].0], [0, 0]);
        self.known(&one, Written(vec![0, 0xFFFF_FFFF, 0, 0, 1]))?;
        let mut twice = plain(&[0, 0], &[ITEMS[0].0], [0, 0]);
        self.known(&twice, Written(vec![0, 0xFFFF_FFFF, 0, 0, 1, 0, 0xFFFF_FFFF, 0, 0, 1]))?;
        // filled 2 over a list of one record
        twice.resize(WORKING, 1);
        self.known(&twice, Refused(6))?;
        twice.words = 5;
        self.known(&twice, Refused(2))?;
        // no box, and no offset either
        let mut none = plain(&[], &[ITEMS[0].0], [0, 0]);
        for word in STRANGE {
            none.state[OFFSET..DIRECTION].fill(word);
            self.known(&none, Written(vec![]))?;
        }
        Ok(())
    }

    /// Every number of one of three boxes as words that are one and words that are none; the other refusals before.
    fn numbers(&mut self) -> Result<(), String> {
        let items = [0, 1, 2].map(|k| ITEMS[k].0);
        for word in COUNTS.map(|(word, _)| word).into_iter().chain(STRANGE) {
            let strange = STRANGE.contains(&word);
            for (place, k) in (0..3).flat_map(|place| (0..6).map(move |k| (place, k))) {
                let mut call = plain(&[2, 0, 1], &items, [3, -4]);
                *number(&mut call, place, k) = word;
                self.expected(&call, if strange { 9 } else { 0 }, "a number")?;
                call.filled_record(2 - place)[LAYER] = 256;
                self.expected(&call, 4, "a number, and a layer")?;
                call.state[FILLED + 1] = 2;
                self.expected(&call, 6, "a number, a layer, and counts above the lists")?;
                call.words = 14;
                self.expected(&call, 2, "a number, a layer, counts, and a shorter slice")?;
                // of an item that isn't placed
                let mut call = plain(&[2, 1], &items, [3, -4]);
                if k < 4 {
                    call.slices[LAYOUTS][LOCATION_AND_SIZE[k]] = word;
                    self.expected(&call, 0, "a number that isn't read")?;
                }
            }
        }
        Ok(())
    }

    /// Locations of up to 20 eighths on either side of 0 in one run, beside every size of up to 12 and offsets of up to 9.
    fn grid(&mut self) -> Result<(), String> {
        let nodes: Vec<u32> = (0..41).rev().collect();
        for n in 0..25 * 19 {
            let (size, offset) = (n % 25 - 12, n / 25 - 9);
            let items: Vec<[i64; 4]> = (-20..=20).map(|at| [at, 2 * size - at, size, at - size]).collect();
            self.check(&plain(&nodes, &items, [offset, size - offset]))?;
        }
        Ok(())
    }

    /// Many boxes; then one that is bad, at either end, whose node no other has.
    fn large(&mut self) -> Result<(), String> {
        let items: Vec<[i64; 4]> = (0..1023).map(|n| [n * 7 - 3000, 4000 - n * 13, n % 40, n % 17 - 8]).collect();
        for boxes in [255, 256, 257, 1023, 1024, 1025, 4095, 4096] {
            for own in [None, Some(0), Some(1), Some(boxes / 2), Some(boxes - 1)] {
                let of = |place: usize| if own == Some(place) { 1022 } else { place as u32 * 769 % 1022 };
                let mut call = plain(&(0..boxes).map(of).collect::<Vec<_>>(), &items, [5, -3]);
                call.fit();
                if let Some(place) = own {
                    let (k, word) =
                        self.random.pick(&[(0, STRANGE[4]), (1, STRANGE[15]), (2, STRANGE[18]), (3, STRANGE[6])]);
                    *number(&mut call, place, k) = word;
                }
                self.expected(&call, if own.is_some() { 9 } else { 0 }, "many boxes")?;
            }
        }
        Ok(())
    }
}

fn directed(trial: &mut Trial) -> Result<(), String> {
    trial.rows()?;
    trial.own_rows()?;
    trial.numbers()?;
    trial.changes()?;
    trial.large()?;
    trial.grid()
}

// ---- changes of a call, and random calls

/// In the order in which they are tested.
fn kinds() -> [Kind<Call>; 5] {
    let harmless = [other_counts(), unread_words(), other_styles(), unread_records(), other_layers(), other_boxes()];
    let numbers = [other_numbers(), bad_ends()].concat();
    [
        Kind { refused: 2, changes: [other_extents(), other_words(), too_many()].concat(), big: 2 },
        Kind { refused: 6, changes: other_states(), big: 0 },
        Kind { refused: 4, changes: other_records(), big: 0 },
        Kind { refused: 9, changes: numbers, big: 0 },
        Kind {
            refused: 0,
            changes: harmless.into_iter().chain([accepted_numbers(), large_lists()]).flatten().collect(),
            big: 4,
        },
    ]
}

/// Lengths of no whole box
fn other_words() -> Vec<Change> {
    vec![
        ("words of no whole box", |c, r| c.words = WORDS * c.filled().min(5000) + 1 + r.below(4)),
        ("four words a box", |c, _| c.words = 4 * c.filled().clamp(1, 5000)),
        ("a layout's words a box", |c, _| c.words = LAYOUT * c.filled().clamp(1, 50)),
        ("five words a box in 32 bits", |c, r| {
            // 0xCCCC_CCCD times 5 is 1, modulo 2 ^ 32
            let (fives, more) = (WORDS * r.below(5), 1 + r.below(4));
            c.words = fives + more;
            c.state[FILLED] = (c.words as u32).wrapping_mul(0xCCCC_CCCD);
        }),
    ]
}

/// A number of a box, or of the offset; if there is no box, one is filled
fn one_number<'a>(c: &'a mut Call, r: &mut Random, of: Range<u32>) -> &'a mut u32 {
    let (boxes, k) = (one_box(c), of.start + r.below(of.end - of.start) as u32);
    let place = r.below(boxes as u32);
    number(c, place, k as usize)
}

/// For which a call is refused with 9
fn other_numbers() -> Vec<Change> {
    vec![
        ("no number", |c, r| *one_number(c, r, 0..6) = r.pick(&STRANGE)),
        ("no number, of a box", |c, r| *one_number(c, r, 0..4) = r.pick(&STRANGE)),
        ("no number, of the offset", |c, r| *one_number(c, r, 4..6) = r.pick(&STRANGE)),
        ("beside a number", |c, r| *one_number(c, r, 0..6) = bits(1 + r.small(1 << 19).abs()) + 1),
        ("any word that is no number", |c, r| {
            let word = (0..99).map(|_| r.word()).find(|&w| count(w).is_none());
            *one_number(c, r, 0..6) = word.unwrap_or(u32::MAX)
        }),
        ("halves of an eighth that add up", |c, r| {
            let (half, k) = (f32::from_bits(0x3D80_0000), r.below(2));
            one_box(c);
            *number(c, 0, k) = (half + r.below(9) as f32).to_bits();
            *number(c, 0, 4 + k) = (half - r.below(9) as f32).to_bits();
        }),
        ("half an eighth, by which a centered box is off", |c, r| {
            *one_number(c, r, 0..2) = (349.9375 + r.below(9) as f32).to_bits()
        }),
    ]
}

/// Bad numbers at the first and at the last place, and everywhere
fn bad_ends() -> Vec<Change> {
    vec![
        ("a bad box at the first place", |c, r| {
            one_box(c);
            *number(c, 0, r.below(4)) = r.pick(&STRANGE)
        }),
        ("a bad box at the last place", |c, r| {
            let last = one_box(c) - 1;
            *number(c, last, r.below(4)) = r.pick(&STRANGE)
        }),
        ("no number anywhere", |c, r| {
            for place in 0..one_box(c).min(50) {
                (0..6).for_each(|k| *number(c, place, k) = r.pick(&STRANGE));
            }
        }),
    ]
}

/// What the driver isn't given, and no box without its offset
fn unread_words() -> Vec<Change> {
    vec![
        ("any replies, overflow, area's size and codes", |c, r| {
            let k = r.pick(&[1, 2, 3, 4, 5, 6, 11, 12, 13, 14, 15, 16, 19, 20, 21, 22]);
            c.state[k] = r.pick(&[0, 1, 2, 256, 0x3D80_0000, 0x7FC0_0000, u32::MAX])
        }),
        ("an area's size that isn't in eighths", |c, r| c.state[AREA + r.below(2)] = r.pick(&STRANGE)),
        ("any other words of layouts", |c, r| {
            for layout in c.slices[LAYOUTS].chunks_exact_mut(LAYOUT) {
                (0..LAYOUT).filter(|k| !LOCATION_AND_SIZE.contains(k)).for_each(|k| layout[k] = r.pick(&STRANGE));
            }
        }),
        ("layouts that aren't placed", |c, r| {
            let nodes = c.column(NODE);
            let layouts = (0..).zip(c.slices[LAYOUTS].chunks_exact_mut(LAYOUT));
            layouts.filter(|(node, _)| !nodes.contains(node)).for_each(|(_, layout)| layout.fill(r.pick(&STRANGE)));
        }),
        ("an item that isn't in eighths, in records that aren't read", |c, _| {
            let (n, filled) = (c.records(STYLES), c.filled());
            c.resize(STYLES, n + 1);
            c.resize(LAYOUTS, n + 1);
            c.resize(UNCLAIMED, 2);
            c.state[FILLED + 1] = 2;
            let [.., working, unclaimed] = &mut c.slices;
            let behind = working.chunks_exact_mut(CANDIDATE).skip(filled);
            behind.chain(unclaimed.chunks_exact_mut(CANDIDATE)).for_each(|record| record[NODE] = n as u32);
        }),
        ("any offset, and no box", |c, r| {
            c.count_boxes(0);
            c.state[OFFSET + r.below(2)] = r.pick(&STRANGE)
        }),
    ]
}

/// Other numbers that are accepted
fn accepted_numbers() -> Vec<Change> {
    vec![
        ("-0", |c, r| *one_number(c, r, 0..6) = 1 << 31),
        ("the limit", |c, r| *one_number(c, r, 0..6) = bits(LARGEST) | r.word() << 31),
        ("the limits, all of them", |c, r| {
            for place in 0..one_box(c).min(50) {
                (0..6).for_each(|k| *number(c, place, k) = bits(LARGEST) | r.word() << 31);
            }
        }),
    ]
}

impl Random {
    /// A number of up to so many eighths, or at the limit, or beside half a pixel
    fn number(&mut self, most: i64) -> u32 {
        let n = match self.below(12) {
            0 => self.pick(&[LARGEST, -LARGEST, 0]),
            1..4 => (8 * self.small(most) + 4 + self.small(1)).clamp(-LARGEST, LARGEST),
            _ => self.small(most),
        };
        bits(n)
    }
}

/// A call that is accepted. Words that aren't read are any, or numbers as well.
fn random_call(random: &mut Random, pool: &[u32]) -> Call {
    let n = 1 + random.below(4);
    let boxes = random.pick(&[0, 1, 1, 2, 2, 3, 3, 4, 5, 6, 8, 12, 20]);
    let mut call = random.finished(pool, n, boxes);
    if random.below(2) == 0 {
        all_numbers(&mut call, random);
    }
    let most = random.pick(&[4, 12, 12, 40, 40, 5000, 100_000, LARGEST]);
    for layout in call.slices[LAYOUTS].chunks_exact_mut(LAYOUT) {
        LOCATION_AND_SIZE.iter().for_each(|&k| layout[k] = random.number(most));
    }
    let most = random.pick(&[0, 12, 12, 5000, LARGEST]);
    (OFFSET..DIRECTION).for_each(|k| call.state[k] = random.number(most));
    call
}

/// Numbers in all words of layouts, and in the floats of the state
fn all_numbers(call: &mut Call, random: &mut Random) {
    let most = random.pick(&[4, 40, 5000]);
    call.slices[LAYOUTS].fill_with(|| random.number(most));
    call.state[RECTANGLE..DIRECTION].fill_with(|| random.number(most));
}

// ---- the request's law

/// Another run of the same boxes, by their nodes and the numbers that are read; a zero may have another sign. The other words are any, and
/// there may be other items, records and refused words behind.
fn twin(call: &Call, random: &mut Random, pool: &[u32]) -> Call {
    let nodes = call.column(NODE);
    let least = nodes.iter().max().map_or(1, |&node| node as usize + 1);
    let items = (least + random.below(3)).min(1024);
    let mut other = random.finished(pool, items, nodes.len());
    if other.records(WORKING) > 4096 {
        other.fit();
    }
    for list in [WORKING, UNCLAIMED] {
        other.slices[list].chunks_exact_mut(CANDIDATE).for_each(|record| record[NODE] %= items as u32);
    }
    other.state[PROGRESS] = random.pick(&[0, 0, 6, u32::MAX]);
    if random.below(2) == 0 {
        all_numbers(&mut other, random);
    }
    let mut same = |word: u32| if word << 1 == 0 { random.word() << 31 } else { word };
    for (place, &node) in nodes.iter().enumerate() {
        other.filled_record(place)[NODE] = node;
        let six = numbers(call, node).expect("a layout");
        (0..6).for_each(|k| *number(&mut other, place, k) = same(six[k]));
    }
    other
}

/// "give the driver identical words": pairs of runs, some of which are refused with 9. Answers how many were accepted, and how many refused.
fn pairs(entry: &Entry, count: u64, seed: u64) -> Result<[u64; 2], String> {
    let (mut random, mut figures) = (Random::seeded(seed), [0; 2]);
    let (pool, kinds) = (random.pool(8192), kinds());
    for _ in 0..count {
        let mut call = random_call(&mut random, &pool);
        // with 9, or a change that is accepted
        let chosen = random.pick(&[0, 0, 8, 16]);
        random.change(&mut call, &kinds, chosen);
        let mut other = twin(&call, &mut random, &pool);
        let noise = random.word();
        let both = [&mut call, &mut other].map(|call| {
            let mut words = Words::new(call.words, noise);
            (entry(call, &mut words), words)
        });
        let same = both[0] == both[1];
        match both.map(|(result, _)| result) {
            [0, _] if same => figures[0] += 1,
            [9, _] if same => figures[1] += 1,
            [first, second] => {
                return Err(format!("{}: {first}, and with other words beside {second}", filling::show(&call)));
            }
        }
    }
    Ok(figures)
}

fn law(thousands: u64, seed: u64) -> Result<String, String> {
    let unlawful: Vec<Named> = readings().into_iter().chain(unread()).collect();
    find_out(&unlawful, |entry| pairs(entry, 20_000, 1).map(|_| ()))?;
    let entry: Entry = Box::new(proved);
    let [written, refused] = pairs(&entry, 250 * thousands, seed)?;
    Ok(format!("{written} pairs of runs with identical words, {refused} refused alike; {} wrong entries found out by pairs alone", unlawful.len()))
}

fn main() {
    try_counts();
    report("touch", 400, |thousands, seed| {
        Ok(format!("{}; {}", filling::run(thousands, seed)?, law(thousands, seed)?))
    });
}
