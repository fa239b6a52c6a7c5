//! Wrong entries, which what the request says invites one to write. Each is wrong in one of the five entries: the opening, or one kind of
//! reply. The comparison is worth nothing if it misses one.
use crate::beside::{over, refused};
use crate::call::{proved, Asked, Call, Entry, First};
use crate::order::{self, reasons, Reason, Reasons, ALL};
use crate::seen::is_hidden;
use oracle::case::{CANDIDATE, LAYOUT, LENGTH, LENGTHS, STYLE};
use oracle::run::Kind;
use runs::model;
use runs::words::{Said, Words};

pub type Named = (String, Entry);

/// A call of one entry, made in another way
type Act = Box<dyn Fn(Asked, &mut Call, &First) -> u32>;

/// The five entries
#[derive(Copy, Clone, PartialEq)]
enum At {
    Opening,
    Reply(Kind),
}
const OPENING: &[At] = &[At::Opening];
const REPLIES: &[At] =
    &[At::Reply(Kind::Both), At::Reply(Kind::Width), At::Reply(Kind::Height), At::Reply(Kind::LayOut)];
const ALL_ENTRIES: &[At] =
    &[At::Opening, At::Reply(Kind::Both), At::Reply(Kind::Width), At::Reply(Kind::Height), At::Reply(Kind::LayOut)];

impl At {
    fn of(asked: Asked) -> At {
        asked.map_or(At::Opening, |said| At::Reply(said.kind))
    }
    fn name(self) -> &'static str {
        match self {
            At::Opening => "the opening",
            At::Reply(Kind::Both) => "replies of both sizes",
            At::Reply(Kind::Width) => "replies of a width",
            At::Reply(Kind::Height) => "replies of a height",
            At::Reply(Kind::LayOut) => "lay out replies",
        }
    }
}

/// Wrong at each of these entries by itself
fn wrong(name: &str, at: &[At], act: impl Fn(Asked, &mut Call, &First) -> u32 + Clone + 'static) -> Vec<Named> {
    let one = |&at: &At| {
        let act: Act = Box::new(act.clone());
        let entry = move |asked: Asked, call: &mut Call, first: &First| {
            if At::of(asked) == at {
                act(asked, call, first)
            } else {
                proved(asked, call)
            }
        };
        (format!("{name}, at {}", at.name()), Box::new(entry) as Entry)
    };
    at.iter().map(one).collect()
}

fn leave(call: &mut Call, (result, words): (u32, Words)) -> u32 {
    call.words = words;
    result
}

fn refuse(asked: Asked, call: &mut Call, number: u32) -> u32 {
    let outcome = refused(asked, call, number);
    leave(call, outcome)
}

/// The run over this table goes on, whatever the request's own tests say
fn go_on(table: Vec<u32>, asked: Asked, call: &mut Call) -> u32 {
    let outcome = over(table, asked, call);
    leave(call, outcome)
}

/// The words of a replacement, as far as there are any, from this item of the table on, as far as it goes
fn written(call: &Call, item: usize, style: &[u32]) -> Vec<u32> {
    let mut table = call.words.styles.clone();
    table
        .iter_mut()
        .skip(item.saturating_mul(STYLE))
        .zip(style.iter().take(STYLE))
        .for_each(|(word, &new)| *word = new);
    table
}

fn items(call: &Call) -> usize {
    call.words.styles.len() / STYLE
}

// ---- other tables

/// By another table, where the request's own tests pass
fn table(name: &str, table: fn(&Call, &First) -> Vec<u32>) -> Vec<Named> {
    wrong(name, ALL_ENTRIES, by_table(table))
}

fn by_table(table: fn(&Call, &First) -> Vec<u32>) -> impl Fn(Asked, &mut Call, &First) -> u32 + Clone {
    move |asked, call, first| match reasons(asked, call).first() {
        Some(reason) if !reason.is_of_copy() => refuse(asked, call, reason.number()),
        _ => go_on(table(call, first), asked, call),
    }
}

/// Some words of the replacement aren't written
fn kept(call: &Call, keep: fn(usize) -> bool) -> Vec<u32> {
    let (mut table, at) = (order::copy(call).expect("a copy"), STYLE * call.node as usize);
    (0..STYLE).filter(|&word| keep(word)).for_each(|word| table[at + word] = call.words.styles[at + word]);
    table
}

fn tables() -> Vec<Named> {
    [
        table("the live style is read for the node", |call, _| call.words.styles.clone()),
        table("the replacement is read for all nodes", |call, _| call.style.repeat(items(call))),
        table("the replacement is read for node 0", |call, _| written(call, 0, &call.style)),
        table("the replacement is read for the last node", |call, _| written(call, items(call) - 1, &call.style)),
        table("the replacement is read for the node behind", |call, _| {
            written(call, (call.node as usize + 1) % items(call), &call.style)
        }),
        table("the replacement is read for the node before", |call, _| {
            written(call, (call.node as usize + items(call) - 1) % items(call), &call.style)
        }),
        table("the replacement is read for all other nodes", |call, _| {
            let at = STYLE * call.node as usize;
            written(
                &Call { words: with(call, call.style.repeat(items(call))), ..call.clone() },
                call.node as usize,
                &call.words.styles[at..],
            )
        }),
        table("the replacement is read from the node on", |call, _| {
            let mut table = call.words.styles.clone();
            table.truncate(STYLE * call.node as usize);
            (call.node as usize..items(call)).for_each(|_| table.extend(&call.style));
            table
        }),
        table("the replacement is read up to the node", |call, _| {
            let behind = STYLE * (call.node as usize + 1);
            [call.style.repeat(call.node as usize + 1), call.words.styles[behind..].to_vec()].concat()
        }),
        table("the replacement is read by the node's low byte", |call, _| {
            written(call, call.node as usize % 256, &call.style)
        }),
    ]
    .into_iter()
    .flatten()
    .collect()
}

/// Parts of the replacement
fn parts() -> Vec<Named> {
    [
        table("the replacement's last word isn't read", |call, _| kept(call, |word| word == STYLE - 1)),
        table("the replacement's first word isn't read", |call, _| kept(call, |word| word == 0)),
        table("the replacement's lengths aren't read", |call, _| kept(call, |word| word < LENGTH * LENGTHS)),
        table("the replacement's lengths alone are read", |call, _| kept(call, |word| word >= LENGTH * LENGTHS)),
        table("the replacement's insets aren't read", |call, _| kept(call, |word| word < LENGTH * 4)),
        table("the replacement's size isn't read", |call, _| kept(call, |word| (48..54).contains(&word))),
        table("the replacement's values aren't read", |call, _| {
            kept(call, |word| word < LENGTH * LENGTHS && word % LENGTH == 1)
        }),
        table("the replacement's second values aren't read", |call, _| {
            kept(call, |word| word < LENGTH * LENGTHS && word % LENGTH == 2)
        }),
        table("the replacement is read a word further on", |call, _| {
            let mut style = call.style.clone();
            style.rotate_left(1);
            written(call, call.node as usize, &style)
        }),
    ]
    .into_iter()
    .flatten()
    .collect()
}

fn with(call: &Call, table: Vec<u32>) -> Words {
    let mut words = call.words.clone();
    words.styles = table;
    words
}

/// What the opening was given, at later calls
fn remembered() -> Vec<Named> {
    fn first(call: &Call, node: u32, style: &[u32]) -> Vec<u32> {
        written(call, node as usize, style)
    }
    [
        wrong(
            "the opening's replacement is remembered",
            REPLIES,
            by_table(|call, (_, style)| first(call, call.node, style)),
        ),
        wrong("the opening's node is remembered", REPLIES, by_table(|call, (node, _)| first(call, *node, &call.style))),
        wrong(
            "the opening's node and replacement are remembered",
            REPLIES,
            by_table(|call, (node, style)| first(call, *node, style)),
        ),
        wrong("another node than the opening's is refused", REPLIES, |asked, call, (node, _)| {
            if reasons(asked, call).first().is_none() && *node != call.node {
                return refuse(asked, call, 4);
            }
            proved(asked, call)
        }),
        wrong("another replacement than the opening's is refused", REPLIES, |asked, call, (_, style)| {
            if reasons(asked, call).first().is_none() && *style != call.style {
                return refuse(asked, call, 6);
            }
            proved(asked, call)
        }),
    ]
    .into_iter()
    .flatten()
    .collect()
}

/// Half of what a lay out reply leaves
fn halves() -> Vec<Named> {
    [
        wrong("the layout is the live style's", &REPLIES[3..], |asked, call, _| {
            let live = over(call.words.styles.clone(), asked, call);
            let result = proved(asked, call);
            if result == 0 && live.0 == 0 {
                call.words.layouts = live.1.layouts;
            }
            result
        }),
        wrong("the question behind a layout is the live style's", &REPLIES[3..], |asked, call, _| {
            let live = over(call.words.styles.clone(), asked, call);
            let result = proved(asked, call);
            if result == 0 && live.0 == 0 {
                (call.words.answer, call.words.state) = (live.1.answer, live.1.state);
            }
            result
        }),
    ]
    .into_iter()
    .flatten()
    .collect()
}

// ---- other orders of the tests

/// The second reason is tested before the first
fn ordered(first: Reason, second: Reason) -> Vec<Named> {
    let at: &[At] = match (first, second) {
        (Reason::Area, _) => OPENING,
        (Reason::Reply, Reason::Room) => &REPLIES[3..],
        (Reason::Reply, _) | (_, Reason::Reply) => REPLIES,
        // a measure's reply adds no record
        (_, Reason::Room) => &[At::Opening, At::Reply(Kind::LayOut)],
        _ => ALL_ENTRIES,
    };
    wrong(&format!("{} before {}", second.name(), first.name()), at, move |asked, call, _| {
        let of = reasons(asked, call);
        match of.first() {
            Some(reason) if reason == first && of.has(second) => refuse(asked, call, second.number()),
            _ => proved(asked, call),
        }
    })
}

/// The reason has another number
fn numbered(reason: Reason, number: u32) -> Vec<Named> {
    wrong(&format!("{number} for {}", reason.name()), ALL_ENTRIES, move |asked, call, _| {
        match reasons(asked, call).first() {
            Some(first) if first == reason => refuse(asked, call, number),
            _ => proved(asked, call),
        }
    })
}

fn orders() -> Vec<Named> {
    let mut all = vec![];
    for (k, &first) in ALL.iter().enumerate() {
        for &second in ALL[k + 1..].iter().filter(|second| second.number() != first.number()) {
            // an opening has no wrong reply, a reply no bad area
            if !is_hidden(first, second) && (first, second) != (Reason::Area, Reason::Reply) {
                all.extend(ordered(first, second));
            }
        }
    }
    for (reason, numbers) in
        [(Reason::Replacement, [1, 3, 4]), (Reason::Node, [1, 2, 6]), (Reason::NewStyle, [1, 2, 4])]
    {
        numbers.into_iter().for_each(|number| all.extend(numbered(reason, number)));
    }
    all
}

// ---- other conditions of the request's own tests

/// Another condition in place of a reason
fn tested(reason: Reason, name: &str, at: &[At], bad: impl Fn(&Call) -> bool + Clone + 'static) -> Vec<Named> {
    wrong(name, at, move |asked, call, _| {
        let Reasons(mut of) = reasons(asked, call);
        let taken = of[reason as usize] && !bad(call);
        of[reason as usize] = bad(call);
        match Reasons(of).first() {
            Some(other) if !other.is_of_copy() => refuse(asked, call, other.number()),
            _ if taken && !order::is_below(call) => go_on(call.words.styles.clone(), asked, call),
            _ if taken => go_on(written(call, call.node as usize, &call.style), asked, call),
            _ => proved(asked, call),
        }
    })
}

fn nodes() -> Vec<Named> {
    let test = |name: &str, bad: fn(&Call) -> bool| tested(Reason::Node, name, ALL_ENTRIES, bad);
    [
        test("the node isn't tested", |_| false),
        test("node n is taken", |call| call.node > items(call) as u32),
        test("node n - 1 is refused", |call| call.node as usize + 1 >= items(call)),
        test("node 0 is refused", |call| call.node == 0 || !order::is_below(call)),
        test("the node's sign", |call| call.node as i32 >= items(call) as i32),
        test("16 bits of the node", |call| call.node as u16 as usize >= items(call)),
        test("10 bits of the node", |call| (call.node & 0x3FF) as usize >= items(call)),
        test("31 bits of the node", |call| (call.node & 0x7FFF_FFFF) as usize >= items(call)),
        test("a node above n alone, of 2 ^ 32 - 1", |call| !order::is_below(call) && call.node != u32::MAX),
        test("the node's place in 32 bits", |call| {
            call.node.wrapping_mul(STYLE as u32) as usize >= call.words.styles.len()
        }),
        test("a node below 1,024 is taken", |call| call.node >= 1024),
        test("a node below the table's words is taken", |call| call.node as usize >= call.words.styles.len()),
        test("a node below the layouts' words is taken", |call| call.node as usize >= call.words.layouts.len()),
        test("the node is held against the working list", |call| {
            call.node as usize >= call.words.working.len() / CANDIDATE
        }),
        test("a node that no candidate names is refused", |call| {
            !order::is_below(call) || !call.words.candidates.chunks(CANDIDATE).any(|record| record[0] == call.node)
        }),
        test("a table without items takes any node", |call| !order::is_below(call) && items(call) > 0),
    ]
    .into_iter()
    .flatten()
    .collect()
}

fn replacements() -> Vec<Named> {
    let test = |name: &str, bad: fn(&Call) -> bool| tested(Reason::Replacement, name, ALL_ENTRIES, bad);
    [
        test("the replacement's length isn't tested", |_| false),
        test("a longer replacement is taken", |call| call.style.len() < STYLE),
        test("a shorter replacement is taken", |call| call.style.len() > STYLE),
        test("no replacement is the live style", |call| !call.style.is_empty() && !order::is_record(&call.style)),
        test("whole records are taken", |call| call.style.len() % STYLE != 0),
        test("a record or more is taken, if whole", |call| call.style.len() % STYLE != 0 || call.style.is_empty()),
        test("78 words are taken", |call| call.style.len() + 1 != STYLE && !order::is_record(&call.style)),
        test("80 words are taken", |call| call.style.len() != STYLE + 1 && !order::is_record(&call.style)),
        test("two records are taken", |call| call.style.len() != 2 * STYLE && !order::is_record(&call.style)),
        test("a table is taken", |call| call.style.len() != call.words.styles.len() && !order::is_record(&call.style)),
        test("57 words are taken", |call| call.style.len() != 57 && !order::is_record(&call.style)),
        test("the low byte of the replacement's length", |call| call.style.len() as u8 as usize != STYLE),
        test("the replacement's length in records", |call| call.style.len() / STYLE != 1),
        test("a replacement as long as a layout is taken", |call| {
            call.style.len() != LAYOUT && !order::is_record(&call.style)
        }),
    ]
    .into_iter()
    .flatten()
    .collect()
}

// ---- other tests of the styles

/// Other records are tested: these of the live table, and the replacement or not
fn styles(name: &str, bad: fn(Asked, &Call) -> bool) -> Vec<Named> {
    wrong(name, ALL_ENTRIES, move |asked, call, _| {
        let of = reasons(asked, call);
        match of.first() {
            Some(reason) if reason.number() != 3 && reason <= Reason::OldStyle => refuse(asked, call, reason.number()),
            _ if bad(asked, call) => refuse(asked, call, 3),
            _ => {
                // the bad records of the copy aren't noticed
                let mut table = order::copy(call).expect("a copy");
                table.chunks_exact_mut(STYLE).filter(|record| model::bad_style(record)).for_each(|record| {
                    record.fill(0);
                    (0..LENGTHS).for_each(|length| record[LENGTH * length] = 1);
                });
                go_on(table, asked, call)
            }
        }
    })
}

/// The live table's bad records
fn bad_records(call: &Call) -> impl Iterator<Item = usize> + '_ {
    (0..)
        .zip(call.words.styles.chunks_exact(STYLE))
        .filter(|(_, record)| model::bad_style(record))
        .map(|(item, _)| item)
}

fn named(asked: Asked, call: &Call, item: usize) -> bool {
    let list = if asked.is_none() { &call.words.candidates } else { &call.words.working };
    list.chunks(CANDIDATE).any(|record| record[0] as usize == item)
}

fn bad_copy(call: &Call, of: impl Fn(usize) -> bool) -> bool {
    let node = call.node as usize;
    bad_records(call).any(|item| item != node && of(item)) || (model::bad_style(&call.style) && of(node))
}

fn style_tests() -> Vec<Named> {
    [
        styles("the live record is tested too", |_, call| {
            bad_copy(call, |_| true) || bad_records(call).next().is_some()
        }),
        styles("the live table is tested alone", |_, call| bad_records(call).next().is_some()),
        styles("the replacement isn't tested", |_, call| bad_records(call).any(|item| item != call.node as usize)),
        styles("the replacement is tested alone", |_, call| model::bad_style(&call.style)),
        styles("no style is tested", |_, _| false),
        styles("styles that are named are tested alone", |asked, call| bad_copy(call, |item| named(asked, call, item))),
        styles("the replacement is tested if it is named", |asked, call| {
            bad_copy(call, |item| item != call.node as usize || named(asked, call, item))
        }),
        styles("records behind the node aren't tested", |_, call| bad_copy(call, |item| item <= call.node as usize)),
        styles("records before the node aren't tested", |_, call| bad_copy(call, |item| item >= call.node as usize)),
        styles("the record right behind the node isn't tested", |_, call| {
            bad_copy(call, |item| item != call.node as usize + 1)
        }),
        styles("the record right before the node isn't tested", |_, call| {
            bad_copy(call, |item| item + 1 != call.node as usize)
        }),
        styles("the first record isn't tested", |_, call| bad_copy(call, |item| item > 0)),
        styles("the last record isn't tested", |_, call| bad_copy(call, |item| item + 1 < items(call))),
        styles("a bad word that the live record has too is taken", |_, call| {
            let live = &call.words.styles[STYLE * call.node as usize..][..STYLE];
            bad_copy(call, |item| item != call.node as usize || call.style != live)
        }),
    ]
    .into_iter()
    .flatten()
    .collect()
}

// ---- other writes

/// The entry, and then something else, told the result and the words before
fn then(name: &str, at: &[At], also: fn(&mut Call, u32, &Call, Option<Reason>)) -> Vec<Named> {
    wrong(name, at, move |asked, call, _| {
        let (before, reason) = (call.clone(), reasons(asked, call).first());
        let result = proved(asked, call);
        also(call, result, &before, reason);
        result
    })
}

/// Of the table and of the replacement
fn styles_written() -> Vec<Named> {
    [
        then("the replacement is written into the table", ALL_ENTRIES, |call, result, _, _| {
            if result == 0 {
                call.words.styles = order::copy(call).expect("a copy")
            }
        }),
        then("the replacement is written into the table by a refused call", ALL_ENTRIES, |call, result, _, _| {
            if result != 0 {
                call.words.styles = order::copy(call).unwrap_or_else(|| call.words.styles.clone())
            }
        }),
        then("the replacement is cleared", ALL_ENTRIES, |call, result, _, _| {
            if result == 0 {
                call.style.fill(0)
            }
        }),
        then("the live record is written into the replacement", ALL_ENTRIES, |call, result, _, _| {
            if result == 0 {
                call.style = call.words.styles[STYLE * call.node as usize..][..STYLE].to_vec()
            }
        }),
    ]
    .into_iter()
    .flatten()
    .collect()
}

/// Of the state
fn states_written() -> Vec<Named> {
    use Reason::{Node, Replacement};
    [
        then("the state isn't closed for a bad node", OPENING, |call, _, before, reason| {
            if reason == Some(Node) {
                call.words.state = before.words.state
            }
        }),
        then("the state isn't closed for another replacement", OPENING, |call, _, before, reason| {
            if reason == Some(Replacement) {
                call.words.state = before.words.state
            }
        }),
        then("the state is closed by a bad node", REPLIES, |call, _, _, reason| {
            if reason == Some(Node) {
                call.words.state = model::closed(&call.words)
            }
        }),
        then("the state is closed by another replacement", REPLIES, |call, _, _, reason| {
            if reason == Some(Replacement) {
                call.words.state = model::closed(&call.words)
            }
        }),
    ]
    .into_iter()
    .flatten()
    .collect()
}

/// Of words of the state
fn words_written() -> Vec<Named> {
    use Reason::Node;
    [
        then("the state of a refused opening is all 0", OPENING, |call, result, _, _| {
            if result != 0 {
                call.words.state.fill(0)
            }
        }),
        then("the state has the replacement's length", ALL_ENTRIES, |call, result, _, _| {
            if result == 0 {
                call.words.state[23] = call.style.len() as u32 + 1
            }
        }),
        then("the state is finished by a bad node", REPLIES, |call, _, _, reason| {
            if reason == Some(Node) {
                call.words.state[0] = 0
            }
        }),
        then("a bad node counts as a question answered", REPLIES, |call, _, _, reason| {
            if reason == Some(Node) {
                call.words.state[10] += 1
            }
        }),
    ]
    .into_iter()
    .flatten()
    .collect()
}

/// Of the tally and of the answer, by a refused call
fn refusals_written() -> Vec<Named> {
    use Reason::{Node, Replacement};
    [
        then("the tally is cleared before the node is tested", OPENING, |call, _, _, reason| {
            if reason == Some(Node) {
                call.words.tally.iter_mut().for_each(|word| *word = !*word)
            }
        }),
        then("the tally is raised before the node is tested", REPLIES, |call, _, _, reason| {
            if reason == Some(Node) {
                call.words.tally.iter_mut().take(1).for_each(|word| *word = word.wrapping_add(1))
            }
        }),
        then("the answer is cleared by a bad node", ALL_ENTRIES, |call, _, _, reason| {
            if reason == Some(Node) {
                call.words.answer = call.words.answer.map(|word| word ^ 1)
            }
        }),
        then("the answer is cleared by another replacement", ALL_ENTRIES, |call, _, _, reason| {
            if reason == Some(Replacement) {
                call.words.answer = call.words.answer.map(|word| word ^ 1)
            }
        }),
    ]
    .into_iter()
    .flatten()
    .collect()
}

/// Of the slices
fn slices_written() -> Vec<Named> {
    [
        then("a layout's last word is written", ALL_ENTRIES, |call, _, _, _| {
            call.words.layouts.last_mut().map_or((), |word| *word ^= 1 << 31)
        }),
        then("a working record's last word is written", ALL_ENTRIES, |call, _, _, _| {
            call.words.working.last_mut().map_or((), |word| *word ^= 1)
        }),
        then("an unclaimed record's last word is written", ALL_ENTRIES, |call, _, _, _| {
            call.words.unclaimed.last_mut().map_or((), |word| *word ^= 1)
        }),
        then("the tally's last word is written", ALL_ENTRIES, |call, _, _, _| {
            call.words.tally.last_mut().map_or((), |word| *word ^= 1)
        }),
        then("the finish counts one less", &REPLIES[3..], |call, result, _, _| {
            if result == 0 && call.words.answer[0] == 0 {
                call.words.answer[1] -= 1
            }
        }),
    ]
    .into_iter()
    .flatten()
    .collect()
}

// ---- exchanged arguments

/// With other numbers of the reply
fn said(name: &str, at: &[At], change: fn(&mut Said)) -> Vec<Named> {
    wrong(name, at, move |asked, call, _| {
        let mut said = asked.expect("a reply").clone();
        change(&mut said);
        proved(Some(&said), call)
    })
}

/// With other words
fn words(name: &str, at: &[At], change: fn(&mut Words)) -> Vec<Named> {
    wrong(name, at, move |asked, call, _| {
        let mut other = call.clone();
        change(&mut other.words);
        let result = proved(asked, &mut other);
        change(&mut other.words);
        call.words = other.words;
        result
    })
}

fn arguments() -> Vec<Named> {
    fn exchange(words: &mut Words) {
        std::mem::swap(&mut words.working, &mut words.unclaimed);
    }
    [
        words("width and height are exchanged", OPENING, |w| w.area.swap(0, 1)),
        words("x and y are exchanged", OPENING, |w| w.area.swap(2, 3)),
        words("direction and claims are exchanged", OPENING, |w| w.area.swap(4, 5)),
        words("overflow x and y are exchanged", OPENING, |w| w.area.swap(6, 7)),
        words("the lists are exchanged", ALL_ENTRIES, exchange),
        said("width and height of a reply are exchanged", &REPLIES[..1], |said| said.values.swap(0, 1)),
        said("left and right are exchanged", &REPLIES[3..], |said| said.values.swap(0, 1)),
        said("top and bottom are exchanged", &REPLIES[3..], |said| said.values.swap(2, 3)),
        said("left and top are exchanged", &REPLIES[3..], |said| said.values.swap(0, 2)),
        said("surfaced records are dropped", &REPLIES[3..], |said| said.surfaced.clear()),
        said("a width is a height", &REPLIES[1..2], |said| said.kind = Kind::Height),
        said("a height is a width", &REPLIES[2..3], |said| said.kind = Kind::Width),
    ]
    .into_iter()
    .flatten()
    .collect()
}

pub fn all() -> Vec<Named> {
    let tables = [tables(), parts(), remembered(), halves()];
    let tests = [orders(), nodes(), replacements(), style_tests()];
    let writes = [styles_written(), states_written(), words_written(), refusals_written(), slices_written()];
    tables.into_iter().chain(tests).chain(writes).chain([arguments()]).flatten().collect()
}
