//! Compares the C entry `oof_first_bad_word`, linked as a static library, with a model written from document 01's text.
//!
//! The model has for each word of a style the values that it may take. It lists every word of the whole table that breaks a rule, and takes
//! the first. It shares no code with the entry, which walks over the table and stops. An opening over the same table must be refused with 3
//! exactly where a word is named and 2 doesn't come first. Before the entry, wrong ones are tried: each must be found out.
//!
//!     words [THOUSANDS] [SEED]     random tables, after directed ones
//!     words tables                 reads tables, a line each, and prints what the entry names, or a dash

#[path = "../random.rs"]
mod random;
#[path = "../trial.rs"]
mod trial;

use random::Random;
use std::ops::Range;

mod c {
    extern "C" {
        pub fn oof_first_bad_word(styles: *const u32, styles_len: usize, found: *mut u32) -> u32;
        pub fn oof_open(
            width: f32,
            height: f32,
            x: f32,
            y: f32,
            direction: u32,
            claims: u32,
            overflow_x: u32,
            overflow_y: u32,
            styles: *const u32,
            styles_len: usize,
            candidates: *const u32,
            candidates_len: usize,
            layouts: *mut u32,
            layouts_len: usize,
            working: *mut u32,
            working_len: usize,
            unclaimed: *mut u32,
            unclaimed_len: usize,
            tally: *mut u32,
            tally_len: usize,
            state: *mut u32,
            answer: *mut u32,
        ) -> u32;
    }
}

/// Words of a style, of a length in it (tag, value, second value), and of a candidate; and the most items that an opening takes.
const WORDS: usize = 79;
const LENGTH: usize = 3;
const CANDIDATE: usize = 14;
const MOST_ITEMS: usize = 1024;

/// An item and a word of its record, both from 0.
type Place = (usize, usize);

/// A table of styles, which no entry may write, and two words for what is found.
type Entry = Box<dyn Fn(&mut [u32], &mut [u32; 2]) -> u32>;

fn proved(table: &mut [u32], found: &mut [u32; 2]) -> u32 {
    unsafe { c::oof_first_bad_word(table.as_ptr(), table.len(), found.as_mut_ptr()) }
}

/// The result of an opening without candidates.
fn open(table: &[u32]) -> u32 {
    let mut layouts = vec![7; table.len() / WORDS * 23];
    let mut tally = vec![7; table.len() / WORDS];
    let (mut state, mut answer) = ([7; 28], [7; 10]);
    let (mut working, mut unclaimed) = ([0; CANDIDATE], [0; CANDIDATE]);
    unsafe {
        c::oof_open(
            800.0,
            480.0,
            0.0,
            0.0,
            0,
            3,
            0,
            0,
            table.as_ptr(),
            table.len(),
            [0; CANDIDATE].as_ptr(),
            0,
            layouts.as_mut_ptr(),
            layouts.len(),
            working.as_mut_ptr(),
            CANDIDATE,
            unclaimed.as_mut_ptr(),
            CANDIDATE,
            tally.as_mut_ptr(),
            tally.len(),
            state.as_mut_ptr(),
            answer.as_mut_ptr(),
        )
    }
}

// ---- the model

/// What a word of a style may be.
#[derive(Clone, Copy)]
enum Allowed {
    Any,
    OneOf(&'static [u32]),
    Below(u32),
}

use Allowed::{Any, Below, OneOf};

/// "Inset and margin take 1, 3, 5; padding and border 1, 5; sizes take all." And "the new tag 129 is allowed in every length field".
const SUM: u32 = 129;
const EDGE: Allowed = OneOf(&[1, 3, 5, SUM]);
const FLAT: Allowed = OneOf(&[1, 5, SUM]);
const SIZE: Allowed = OneOf(&[1, 3, 5, 11, 15, 27, 35, 43, 59, 75, SUM]);

/// "A style is then 79 words": the tags of its 22 lengths, inset, margin, padding, border, size, min, max; and the 13 words behind them.
const LENGTHS: [Allowed; 22] = [
    EDGE, EDGE, EDGE, EDGE, EDGE, EDGE, EDGE, EDGE, FLAT, FLAT, FLAT, FLAT, FLAT, FLAT, FLAT, FLAT, SIZE, SIZE, SIZE,
    SIZE, SIZE, SIZE,
];
const CODES: [Allowed; 13] = [
    Below(2),   // ratio present
    Any,        // ratio
    Below(2),   // box sizing
    Below(4),   // flags
    Below(2),   // direction
    Below(11),  // justify keyword
    Below(3),   // its safety
    Below(11),  // align keyword
    Below(3),   // its safety
    Below(4),   // overflow x
    Below(4),   // overflow y
    Any,        // scrollbar width
    Below(256), // contain
];
/// Words of a record: where two of the lengths stand, and some of the words behind them.
const PADDING_LEFT: usize = LENGTH * 8;
const WIDTH: usize = LENGTH * 16;
const AFTER_LENGTHS: usize = LENGTH * LENGTHS.len();
const RATIO_PRESENT: usize = AFTER_LENGTHS;
const RATIO: usize = AFTER_LENGTHS + 1;
const JUSTIFY: usize = AFTER_LENGTHS + 5;
const ALIGN: usize = AFTER_LENGTHS + 7;
const OVERFLOW_Y: usize = AFTER_LENGTHS + 10;
const CONTAIN: usize = AFTER_LENGTHS + 12;
const KEYWORDS: [usize; 2] = [JUSTIFY, ALIGN];
const ABSENT: u32 = 10;

const _: () = assert!(WORDS == AFTER_LENGTHS + CODES.len() && WORDS == CONTAIN + 1);

/// Which length's tag a record's word is.
fn tag_of(k: usize) -> Option<usize> {
    (k < AFTER_LENGTHS && k % LENGTH == 0).then_some(k / LENGTH)
}

/// What a record's word may be.
fn allowed(k: usize) -> Allowed {
    match (k.checked_sub(AFTER_LENGTHS), tag_of(k)) {
        (Some(code), _) => CODES[code],
        (None, Some(length)) => LENGTHS[length],
        (None, None) => Any,
    }
}

impl Allowed {
    fn takes(&self, word: u32) -> bool {
        match *self {
            Any => true,
            OneOf(words) => words.contains(&word),
            Below(count) => word < count,
        }
    }
}

/// "10 is absent and means normal with default safety, the safety word then being ignored"
fn is_safety(k: usize) -> bool {
    KEYWORDS.contains(&k.wrapping_sub(1))
}

fn breaks(record: &[u32], k: usize) -> bool {
    let ignored = is_safety(k) && record[k - 1] == ABSENT;
    !ignored && !allowed(k).takes(record[k])
}

/// Every word of the whole records that breaks a rule.
fn bad(table: &[u32], breaks: impl Fn(&[u32], usize) -> bool) -> Vec<Place> {
    let mut places = vec![];
    for (item, record) in table.chunks_exact(WORDS).enumerate() {
        places.extend((0..WORDS).filter(|&k| breaks(record, k)).map(|k| (item, k)));
    }
    places
}

/// The first item that has such a word, and the first of its words.
fn model(table: &[u32]) -> Option<Place> {
    bad(table, breaks).into_iter().min()
}

// ---- wrong entries

type Named = (String, Entry);

fn tell(named: Option<Place>, found: &mut [u32; 2]) -> u32 {
    let Some((item, word)) = named else { return 0 };
    *found = [item as u32, word as u32];
    1
}

fn named(name: &str, entry: impl Fn(&mut [u32], &mut [u32; 2]) -> u32 + 'static) -> Named {
    (name.to_string(), Box::new(entry))
}

/// An entry that names another word of those that break a rule
fn chosen(name: &str, choose: fn(&[Place]) -> Option<Place>) -> Named {
    named(name, move |table, found| tell(choose(&bad(table, breaks)), found))
}

/// That goes by another rule
fn ruled(name: &str, rule: impl Fn(&[u32], usize) -> bool + 'static) -> Named {
    named(name, move |table, found| tell(bad(table, &rule).first().copied(), found))
}

/// That looks at another part of the table
fn part(name: &str, part: fn(&[u32]) -> &[u32]) -> Named {
    named(name, move |table, found| proved(&mut part(table).to_vec(), found))
}

/// That tells something else of the word that is named
fn told(name: &str, tell: fn(&mut [u32; 2])) -> Named {
    named(name, move |table, found| {
        let result = proved(table, found);
        if result == 1 {
            tell(found);
        }
        result
    })
}

/// Which of the bad words is named
fn choices() -> Vec<Named> {
    fn last_word(bad: &[Place]) -> Option<Place> {
        bad.iter().rfind(|place| place.0 == bad[0].0).copied()
    }
    fn of_item(bad: &[Place], item: usize) -> Option<Place> {
        bad.iter().find(|place| place.0 == item).copied()
    }
    vec![
        chosen("nothing", |_| None),
        chosen("the last bad word of the item", last_word),
        chosen("the last bad item", |bad| of_item(bad, bad.last()?.0)),
        chosen("the last bad word of all", |bad| bad.last().copied()),
        chosen("the second bad word, if any", |bad| bad.get(1).or(bad.first()).copied()),
        chosen("the first word, then the item", |bad| bad.iter().min_by_key(|place| place.1).copied()),
        chosen("nothing, if several items are bad", |bad| bad.first().copied().filter(|p| p.0 == bad[bad.len() - 1].0)),
        // without its label the break leaves the walk over the words alone
        chosen("the break without its label: the next bad item", |bad| {
            bad.iter().find(|place| place.0 > bad[0].0).or(bad.first()).copied()
        }),
        chosen("the break without its label: the item after", |bad| bad.first().map(|&(item, k)| (item + 1, k))),
        chosen("the break without its label: the last item's first word", |bad| bad.last().map(|&(item, _)| (item, 0))),
    ]
}

/// How much of the table is looked at
fn parts() -> Vec<Named> {
    vec![
        part("only the first 1,024 items", |table| &table[..table.len().min(WORDS * 1024)]),
        part("only the first 1,023 items", |table| &table[..table.len().min(WORDS * 1023)]),
        part("only the first 128 items", |table| &table[..table.len().min(WORDS * 128)]),
        part("only the first item", |table| &table[..table.len().min(WORDS)]),
        part("nothing above 1,024 items", |table| if table.len() / WORDS > MOST_ITEMS { &[] } else { table }),
        part("the words in 16 bits", |table| &table[..table.len() & 0xFFFF]),
        part("nothing with a trailing part", |table| if table.len() % WORDS == 0 { table } else { &[] }),
        part("not the last item", |table| &table[..table.len().saturating_sub(WORDS)]),
        part("the last word is trailing", |table| &table[..table.len().saturating_sub(1)]),
        named("a trailing part is looked at", |table, found| {
            let mut padded = table.to_vec();
            let missing = padded.len().next_multiple_of(WORDS) - padded.len();
            padded.extend((WORDS - missing..WORDS).map(plain));
            proved(&mut padded, found)
        }),
        named("not the first item", |table, found| {
            let result = proved(&mut table[table.len().min(WORDS)..].to_vec(), found);
            found[0] = found[0].wrapping_add(result);
            result
        }),
    ]
}

/// The word's number if a length had so many words
fn shorten(found: &mut [u32; 2], words: usize) {
    let k = found[1] as usize;
    let short = if k < AFTER_LENGTHS { k / LENGTH * words } else { k - (LENGTH - words) * LENGTHS.len() };
    found[1] = short as u32;
}

/// What is told of the word that is named
fn tellings() -> Vec<Named> {
    vec![
        told("the word's place in the table", |found| found[1] += WORDS as u32 * found[0]),
        told("the item's place in the table", |found| found[0] *= WORDS as u32),
        told("the word before the item", |found| found.swap(0, 1)),
        told("items from 1", |found| found[0] += 1),
        told("words from 1", |found| found[1] += 1),
        told("lengths counted as one word", |found| shorten(found, 1)),
        told("lengths counted as two words", |found| shorten(found, 2)),
        told("words from 0 behind the lengths", |found| {
            found[1] -= if (found[1] as usize) < AFTER_LENGTHS { 0 } else { AFTER_LENGTHS as u32 }
        }),
        told("items in 16 bits", |found| found[0] &= 0xFFFF),
        told("items in 10 bits", |found| found[0] &= 0x3FF),
        told("items in 8 bits", |found| found[0] &= 0xFF),
    ]
}

/// The result, and what is written
fn answers() -> Vec<Named> {
    vec![
        named("the refusal's number", |table, found| 3 * proved(table, found)),
        named("0 where a word is named", |table, found| 1 - proved(table, found)),
        named("the item alone is written", |table, found| {
            let [_, word] = *found;
            let result = proved(table, found);
            found[1] = word;
            result
        }),
        named("the word alone is written", |table, found| {
            let [item, _] = *found;
            let result = proved(table, found);
            found[0] = item;
            result
        }),
        named("zeros are written for nothing", |table, found| {
            *found = [0; 2];
            proved(table, found)
        }),
        named("the count of items is written for nothing", |table, found| {
            found[0] = (table.len() / WORDS) as u32;
            proved(table, found)
        }),
        named("the bad word is mended", |table, found| {
            let result = proved(table, found);
            if result == 1 {
                table[WORDS * found[0] as usize + found[1] as usize] = 1;
            }
            result
        }),
    ]
}

/// Each word by itself
fn words() -> Vec<Named> {
    let mut wrong = vec![];
    for word in 0..WORDS {
        let name = |what: &str| format!("word {word} {what}");
        let others = move |record: &[u32], k: usize| k != word && breaks(record, k);
        if let Any = allowed(word) {
            let float = |record: &[u32], k: usize| f32::from_bits(record[k]).is_nan();
            wrong.push(ruled(&name("is tested"), move |r, k| breaks(r, k) || k == word && float(r, k)));
            continue;
        }
        // of word 0: the walk starts after the first field
        wrong.push(ruled(&name("isn't tested"), others));
        if let Below(count) = allowed(word) {
            let more = move |r: &[u32], k: usize| breaks(r, k) && !(k == word && r[k] == count);
            wrong.push(ruled(&name("takes one more"), more));
            wrong.push(ruled(&name("takes one less"), move |r, k| breaks(r, k) || k == word && r[k] == count - 1));
        }
    }
    wrong
}

/// Which tags a field takes
fn tags() -> Vec<Named> {
    /// Lengths, of the 22, by another list of tags
    fn listed(name: &str, lengths: Range<usize>, tags: &'static [u32]) -> Named {
        let is_one = move |k: usize| tag_of(k).is_some_and(|length| lengths.contains(&length));
        ruled(name, move |record, k| if is_one(k) { !tags.contains(&record[k]) } else { breaks(record, k) })
    }
    /// A part of each tag compared
    fn masked(name: &str, mask: u32) -> Named {
        ruled(name, move |r, k| if tag_of(k).is_some() { !allowed(k).takes(r[k] & mask) } else { breaks(r, k) })
    }
    let OneOf(all) = SIZE else { unreachable!() };
    let mut wrong = vec![
        listed("insets take all tags", 0..4, all),
        listed("margins take all tags", 4..8, all),
        listed("insets take no auto", 0..4, &[1, 5, SUM]),
        listed("margins take no auto", 4..8, &[1, 5, SUM]),
        listed("margins take no percentage", 4..8, &[1, 3, SUM]),
        listed("padding takes auto", 8..12, &[1, 3, 5, SUM]),
        listed("borders take auto", 12..16, &[1, 3, 5, SUM]),
        listed("borders take no percentage", 12..16, &[1, SUM]),
        listed("sizes take what insets take", 16..18, &[1, 3, 5, SUM]),
        listed("min and max take no keyword", 18..22, &[1, 3, 5, SUM]),
        listed("max takes what padding takes", 20..22, &[1, 5, SUM]),
        masked("low bytes of tags", 0xFF),
        masked("low halves of tags", 0xFFFF),
        masked("tags without their sign", !(1 << 31)),
        ruled("0 is a tag", |r, k| breaks(r, k) && !(tag_of(k).is_some() && r[k] == 0)),
        ruled("odd numbers up to 75 are tags of sizes", |r, k| {
            breaks(r, k) && !(is_size(k) && r[k] % 2 == 1 && r[k] <= 75)
        }),
    ];
    for &tag in all {
        wrong.push(ruled(&format!("no size takes {tag}"), move |r, k| breaks(r, k) || is_size(k) && r[k] == tag));
    }
    wrong
}

/// Whether a record's word is the tag of a size, a min or a max
fn is_size(k: usize) -> bool {
    tag_of(k).is_some_and(|length| length >= 16)
}

/// Which lengths take a sum, which tags are one, and which second values there are
fn sums() -> Vec<Named> {
    fn none(name: &str, lengths: Range<usize>) -> Named {
        let refused = move |r: &[u32], k: usize| tag_of(k).is_some_and(|l| lengths.contains(&l)) && r[k] == SUM;
        ruled(&format!("{name} take no sum"), move |r, k| breaks(r, k) || refused(r, k))
    }
    fn second(name: &str, bad: fn(tag: u32, second: u32) -> bool) -> Named {
        ruled(name, move |r, k| breaks(r, k) || k < AFTER_LENGTHS && k % LENGTH == 2 && bad(r[k - 2], r[k]))
    }
    let mut wrong = vec![
        none("lengths", 0..22),
        none("insets", 0..4),
        none("margins", 4..8),
        none("padding and borders", 8..16),
        none("sizes", 16..18),
        none("min and max", 18..22),
        second("a second value of another tag is to be 0", |tag, second| tag != SUM && second != 0),
        second("a second value is a tag", |_, second| ![1, 3, 5, SUM].contains(&second)),
        second("a sum's second value is to be a number", |tag, second| tag == SUM && f32::from_bits(second).is_nan()),
    ];
    // the Rust's calc and fit-content(calc), and what stands beside 129
    for tag in [4, 6, SUM - 1, SUM + 1, 256 + SUM] {
        wrong
            .push(ruled(&format!("{tag} is a tag"), move |r, k| breaks(r, k) && !(tag_of(k).is_some() && r[k] == tag)));
        wrong
            .push(ruled(&format!("{tag} is a tag of sizes"), move |r, k| breaks(r, k) && !(is_size(k) && r[k] == tag)));
    }
    wrong
}

/// Which codes a word takes
fn codes() -> Vec<Named> {
    /// Safeties by the keyword that they go by
    fn ignored(name: &str, ignored: fn(&[u32], usize) -> bool) -> Named {
        ruled(name, move |r, k| if is_safety(k) { !ignored(r, k - 1) && r[k] > 2 } else { breaks(r, k) })
    }
    fn low(name: &str, mask: u32) -> Named {
        let is_code = |k: usize| k >= AFTER_LENGTHS && !is_safety(k);
        ruled(name, move |r, k| if is_code(k) { !allowed(k).takes(r[k] & mask) } else { breaks(r, k) })
    }
    vec![
        low("low bytes of codes", 0xFF),
        low("low halves of codes", 0xFFFF),
        low("codes without their sign", !(1 << 31)),
        ruled("codes with a sign", |r, k| breaks(r, k) && (k < AFTER_LENGTHS || (r[k] as i32) >= 0)),
        ignored("a safety behind keyword 10 is tested", |_, _| false),
        ignored("a safety behind keyword 0 isn't tested", |r, k| [0, ABSENT].contains(&r[k])),
        ignored("a safety behind keyword 9 isn't tested", |r, k| [9, ABSENT].contains(&r[k])),
        ignored("no safety is tested", |_, _| true),
        ignored("safeties go by the keyword of justify", |r, _| r[KEYWORDS[0]] == ABSENT),
        ignored("safeties go by the keyword of align", |r, _| r[KEYWORDS[1]] == ABSENT),
        ignored("safeties go by both keywords", |r, _| KEYWORDS.iter().all(|&k| r[k] == ABSENT)),
        named("a safety before its keyword", |table, found| {
            let first = bad(table, breaks).first().copied();
            tell(
                first.map(|(item, k)| {
                    let record = &table[WORDS * item..][..WORDS];
                    (item, if KEYWORDS.contains(&k) && breaks(record, k + 1) { k + 1 } else { k })
                }),
                found,
            )
        }),
        ruled("a ratio of 0 or less is bad", |r, k| {
            breaks(r, k) || k == RATIO && r[RATIO_PRESENT] == 1 && f32::from_bits(r[k]) <= 0.0
        }),
        ruled("a value behind auto is to be 0", |r, k| {
            breaks(r, k) || k < AFTER_LENGTHS && k % LENGTH == 1 && r[k - 1] == 3 && r[k] != 0
        }),
    ]
}

/// What the request invites one to write. The comparison is worth nothing if it misses one.
fn wrong() -> Vec<Named> {
    [choices(), parts(), tellings(), answers(), words(), tags(), sums(), codes()].into_iter().flatten().collect()
}

// ---- the comparison

fn show(table: &[u32]) -> String {
    let words = bad(table, breaks);
    let said = words.iter().take(6).map(|&(item, k)| format!("{} at {item}:{k}", table[WORDS * item + k]));
    let said: Vec<String> = said.chain((words.len() > 6).then(|| "..".to_string())).collect();
    format!("{} words ({} items), bad [{}]", table.len(), table.len() / WORDS, said.join(", "))
}

/// Whether the entry does what the model says, and writes no word but the two.
fn compare(entry: &Entry, table: &[u32], noise: u32) -> Result<Option<Place>, String> {
    let before = [noise, !noise].map(|word| word | 1 << 31);
    let (mut lent, mut found, mut words) = (table.to_vec(), before, before);
    let result = entry(&mut lent, &mut found);
    let wanted = model(table);
    if (result, found) != (tell(wanted, &mut words), words) {
        return Err(format!("{}: {result} {found:?}, not {wanted:?}", show(table)));
    }
    if lent != table {
        return Err(format!("{}: a word of the table is written", show(table)));
    }
    Ok(wanted)
}

/// A table made from another one, of which it is known what is named.
fn same(entry: &Entry, table: &[u32], named: Option<Place>, noise: u32) -> Result<(), String> {
    match compare(entry, table, noise)? {
        other if other == named => Ok(()),
        other => Err(format!("{}: {other:?} is named, not {named:?}", show(table))),
    }
}

/// An opening over the table: 2 for its extent, then 3 exactly where a word is named.
fn opened(table: &[u32], named: Option<Place>) -> Result<u32, String> {
    let result = open(table);
    let wanted = match named {
        _ if table.len() % WORDS != 0 || table.len() > WORDS * MOST_ITEMS => 2,
        Some(_) => 3,
        None => 0,
    };
    (result == wanted).then_some(result).ok_or_else(|| format!("{}: opened with {result}, not {wanted}", show(table)))
}

/// What tables of a class have, and how many there were.
type Class = (&'static str, u64);

/// Of tables with nothing named
const NOTHING: [&str; 5] = [
    "no word at all",
    "whole records alone",
    "a trailing part",
    "a trailing part in which a word would break a rule",
    "an ignored safety above 2",
];

/// With a word named
const BESIDE: [&str; 5] = [
    "no other bad word",
    "another bad word in its item",
    "a bad word in a later item",
    "a trailing part",
    "1,024 items before it",
];

const OPENED: [&str; 3] = ["an opening accepted", "an opening refused with 2", "an opening refused with 3"];

fn count<const N: usize>(classes: &mut [Class; N], holds: [bool; N]) {
    (0..N).for_each(|k| classes[k].1 += u64::from(holds[k]));
}

/// Classes of tables, each of which must be met.
struct Figures {
    tables: u64,
    /// by the word that is named
    named: [u64; WORDS],
    nothing: [Class; 5],
    beside: [Class; 5],
    opened: [Class; 3],
}

impl Figures {
    fn new() -> Figures {
        let none = |name| (name, 0);
        Figures {
            tables: 0,
            named: [0; WORDS],
            nothing: NOTHING.map(none),
            beside: BESIDE.map(none),
            opened: OPENED.map(none),
        }
    }

    fn note(&mut self, table: &[u32], named: Option<Place>, opened: u32) {
        self.tables += 1;
        count(&mut self.opened, [0, 2, 3].map(|result| result == opened));
        let trailing = table.chunks_exact(WORDS).remainder();
        let Some((item, word)) = named else {
            let ignored = |r: &[u32]| KEYWORDS.iter().any(|&k| r[k] == ABSENT && r[k + 1] > 2);
            let nothing = [
                table.is_empty(),
                !table.is_empty() && trailing.is_empty(),
                !trailing.is_empty(),
                (0..trailing.len()).any(|k| breaks(trailing, k)),
                table.chunks_exact(WORDS).any(ignored),
            ];
            return count(&mut self.nothing, nothing);
        };
        self.named[word] += 1;
        let all = bad(table, breaks);
        let beside = [
            all.len() == 1,
            all.iter().filter(|place| place.0 == item).count() > 1,
            all.iter().any(|place| place.0 > item),
            !trailing.is_empty(),
            item >= MOST_ITEMS,
        ];
        count(&mut self.beside, beside);
    }

    /// A class that no table was of, or a float that was named.
    fn missed(&self) -> Option<String> {
        let word = |k: usize| match (self.named[k], allowed(k)) {
            (1.., Any) => Some(format!("word {k} is named, a float")),
            (0, OneOf(_) | Below(_)) => Some(format!("no table with word {k} named")),
            _ => None,
        };
        let kinds =
            [("nothing named and ", &self.nothing[..]), ("a word named and ", &self.beside), ("", &self.opened)];
        let missed = |(kind, classes): &(&str, &[Class])| {
            let (name, _) = classes.iter().find(|class| class.1 == 0)?;
            Some(format!("no table with {kind}{name}"))
        };
        (0..WORDS).find_map(word).or_else(|| kinds.iter().find_map(missed))
    }

    fn named(&self) -> u64 {
        self.named.iter().sum()
    }
}

// ---- directed tables

/// The least word that a place takes; a NaN for a float.
fn plain(k: usize) -> u32 {
    match allowed(k) {
        Any => 0x7FC0_0001,
        OneOf(words) => words[0],
        Below(_) => 0,
    }
}

/// The greatest one
fn greatest(k: usize) -> u32 {
    match allowed(k) {
        Any => u32::MAX,
        OneOf(words) => words[words.len() - 1],
        Below(count) => count - 1,
    }
}

fn filled(words: usize, word: fn(usize) -> u32) -> Vec<u32> {
    (0..words).map(|at| word(at % WORDS)).collect()
}

/// The words of a table, what is replaced in it, and what is then named.
type Row = (usize, &'static [(usize, u32)], Option<Place>);

const ROWS: [Row; 37] = [
    (0, &[], None),
    (1, &[(0, 2)], None),
    (57, &[(0, 2)], None), // a record, before sums
    (WORDS - 1, &[(0, 2)], None),
    (WORDS, &[], None),
    (WORDS, &[(0, 2)], Some((0, 0))),
    (WORDS, &[(CONTAIN, 256)], Some((0, CONTAIN))),
    // item and word, not the word's place in the table
    (2 * WORDS, &[(WORDS, 2)], Some((1, 0))),
    (3 * WORDS, &[(2 * WORDS + PADDING_LEFT, 3)], Some((2, PADDING_LEFT))),
    // sums: the whole tag, any second value
    (WORDS, &[(PADDING_LEFT, 129), (PADDING_LEFT + 2, u32::MAX)], None),
    (WORDS, &[(PADDING_LEFT, 1), (PADDING_LEFT + 2, u32::MAX)], None),
    (WORDS, &[(WIDTH, 4)], Some((0, WIDTH))),
    (WORDS, &[(WIDTH, 6)], Some((0, WIDTH))),
    (WORDS, &[(WIDTH, 385)], Some((0, WIDTH))),
    (WORDS, &[(WIDTH, 128)], Some((0, WIDTH))),
    (WORDS, &[(WIDTH, 130)], Some((0, WIDTH))),
    (WORDS, &[(WIDTH, 129), (WIDTH + 1, 385), (WIDTH + 2, 385)], None),
    // keywords and safeties
    (WORDS, &[(JUSTIFY, 11), (JUSTIFY + 1, 7)], Some((0, JUSTIFY))),
    (WORDS, &[(JUSTIFY, 10), (JUSTIFY + 1, 7)], None),
    (WORDS, &[(JUSTIFY, 9), (JUSTIFY + 1, 3)], Some((0, JUSTIFY + 1))),
    (WORDS, &[(ALIGN, 11), (ALIGN + 1, 7)], Some((0, ALIGN))),
    (WORDS, &[(ALIGN, 10), (ALIGN + 1, u32::MAX)], None),
    (WORDS, &[(ALIGN, 9), (ALIGN + 1, 3)], Some((0, ALIGN + 1))),
    (WORDS, &[(JUSTIFY, 10), (JUSTIFY + 1, 0), (ALIGN, 0), (ALIGN + 1, 3)], Some((0, ALIGN + 1))),
    (WORDS, &[(JUSTIFY, 0), (JUSTIFY + 1, 3), (ALIGN, 10), (ALIGN + 1, 0)], Some((0, JUSTIFY + 1))),
    (WORDS, &[(JUSTIFY, 266), (JUSTIFY + 1, 0)], Some((0, JUSTIFY))),
    // a ratio: its word is a float
    (WORDS, &[(RATIO_PRESENT, 2)], Some((0, RATIO_PRESENT))),
    (WORDS, &[(RATIO_PRESENT, 1), (RATIO, 0x7FC0_0000)], None),
    (WORDS, &[(RATIO_PRESENT, 1), (RATIO, 0)], None),
    // the first item, then its first word
    (2 * WORDS, &[(CONTAIN, 256), (WORDS, 2)], Some((0, CONTAIN))),
    (2 * WORDS, &[(OVERFLOW_Y, 4), (CONTAIN, 256), (WORDS, 2)], Some((0, OVERFLOW_Y))),
    // a trailing part isn't looked at
    (WORDS + 1, &[(WORDS, 2)], None),
    (2 * WORDS - 1, &[(WORDS, 2), (2 * WORDS - 2, 4)], None),
    (2 * WORDS - 1, &[(CONTAIN, 256), (WORDS, 2)], Some((0, CONTAIN))),
    // all items are, however many
    (WORDS * 1025, &[(WORDS * 1024 + CONTAIN, 256)], Some((1024, CONTAIN))),
    (WORDS * 1025 - 1, &[(WORDS * 1024, 2)], None),
    (WORDS * 1150, &[(WORDS * 1149, 2)], Some((1149, 0))),
];

/// What a word is replaced by: all small numbers, aliases of good words, floats.
fn values() -> Vec<u32> {
    let good = [0, 1, 2, 3, 5, 10, 11, 15, 27, 35, 43, 59, 75, SUM, 255];
    let aliases = [8, 16, 24, 31].iter().flat_map(|bit| good.map(|word| word | 1 << bit));
    let floats = [0x3F80_0000, 0x7F80_0000, 0x7FC0_0000, 0xFF80_0000, u32::MAX - 1, u32::MAX];
    let mut values: Vec<u32> = (0..=260).chain(aliases).chain(floats).collect();
    values.sort_unstable();
    values.dedup();
    values
}

/// The words that have a rule.
fn ruled_words() -> Vec<usize> {
    (0..WORDS).filter(|&k| !matches!(allowed(k), Any)).collect()
}

struct Trial<'a> {
    entry: &'a Entry,
    random: Random,
    figures: Figures,
}

impl Trial<'_> {
    fn new(entry: &Entry, seed: u64) -> Trial<'_> {
        Trial { entry, random: Random::seeded(seed), figures: Figures::new() }
    }

    /// A table and its opening; and, where a word is named, that the words behind it have no say, and that none is named without its item's
    /// last words.
    fn check(&mut self, table: &[u32]) -> Result<(), String> {
        let (entry, random) = (self.entry, &mut self.random);
        let named = compare(entry, table, random.word())?;
        self.figures.note(table, named, opened(table, named)?);
        let Some((item, word)) = named else { return Ok(()) };
        let mut other = table.to_vec();
        other[WORDS * item + word + 1..].fill_with(|| random.word());
        same(entry, &other, named, random.word())?;
        let end = WORDS * (item + 1);
        same(entry, &other[..end], named, random.word())?;
        same(entry, &other[..end - 1 - random.below(WORDS as u32)], None, random.word())
    }

    /// A table of which it is known, without the model, what is named. Where the model says otherwise, neither is to be believed.
    fn known(&mut self, table: &[u32], named: Option<Place>) -> Result<(), String> {
        assert_eq!(model(table), named, "{}", show(table));
        self.check(table)
    }

    fn rows(&mut self) -> Result<(), String> {
        for (words, replaced, named) in ROWS {
            for word in [plain, greatest] {
                let mut table = filled(words, word);
                replaced.iter().for_each(|&(at, word)| table[at] = word);
                self.known(&table, named)?;
            }
        }
        Ok(())
    }

    /// Every word of a record by each of the values, in the first, the middle and the last item, and in a table of one.
    fn values(&mut self) -> Result<(), String> {
        for value in values() {
            for k in 0..WORDS {
                for (items, item, word) in [
                    (1, 0, plain as fn(usize) -> u32),
                    (1, 0, greatest),
                    (3, 0, greatest),
                    (3, 1, plain),
                    (3, 2, greatest),
                ] {
                    let mut table = filled(WORDS * items, word);
                    table[WORDS * item + k] = value;
                    self.check(&table)?;
                }
            }
        }
        Ok(())
    }

    /// Every two bad words, of one item and of two.
    fn pairs(&mut self) -> Result<(), String> {
        let words = ruled_words();
        for &a in &words {
            for &b in &words {
                for (i, j) in [(0, 0), (1, 1), (0, 1), (2, 0), (1, 2)] {
                    let mut table = filled(WORDS * 3, plain);
                    for (item, k) in [(i, a), (j, b)] {
                        let odd = self.random.pick(&[2, 4, 6, 128, 130, 256, 385, 1 << 31 | 1, u32::MAX, 76]);
                        table[WORDS * item + k] = if allowed(k).takes(odd) { 256 } else { odd };
                    }
                    self.known(&table, Some((i, a).min((j, b))))?;
                }
            }
        }
        Ok(())
    }

    /// Safeties behind keywords.
    fn safeties(&mut self) -> Result<(), String> {
        for keyword in (0..=12).chain([255, 266, 1 << 31 | 10]) {
            for safety in [0, 1, 2, 3, 4, 7, 10, 255, 256, 258, 1 << 31, u32::MAX] {
                for (k, other) in [(0, 0), (0, 10), (1, 0), (1, 10)] {
                    let mut table = filled(WORDS * 2, if keyword % 2 == 0 { plain } else { greatest });
                    let (at, beside) = (WORDS + KEYWORDS[k], WORDS + KEYWORDS[1 - k]);
                    table[at..at + 2].copy_from_slice(&[keyword, safety]);
                    table[beside..beside + 2].copy_from_slice(&[other, 0]);
                    let named = match (keyword, safety) {
                        (11.., _) => Some((1, KEYWORDS[k])),
                        (0..=9, 3..) => Some((1, KEYWORDS[k] + 1)),
                        _ => None,
                    };
                    self.known(&table, named)?;
                }
            }
        }
        Ok(())
    }

    /// Many items, with a bad word in the first, in the last, and around 1,024; and a trailing part, whose first word is bad.
    fn large(&mut self) -> Result<(), String> {
        for (items, trailing) in [1023, 1024, 1025, 1150, 1300].iter().flat_map(|&n| [(n, 0), (n, 1), (n, WORDS - 1)]) {
            let mut table = filled(WORDS * items + trailing, greatest);
            table.iter_mut().skip(WORDS * items).take(1).for_each(|word| *word = 2);
            self.known(&table, None)?;
            for item in [0, 1, 127, 128, 1022, 1023, 1024, items - 1].into_iter().filter(|&item| item < items) {
                for k in [0, KEYWORDS[0] + 1, CONTAIN] {
                    let mut other = table.clone();
                    // with a keyword the safety isn't ignored
                    other[WORDS * item + KEYWORDS[0]] = 9;
                    other[WORDS * item + k] = 256;
                    self.known(&other, Some((item, k)))?;
                }
            }
        }
        // more items than 16 bits count
        let mut table = filled(WORDS * 65_538, plain);
        table[WORDS * 65_537 + CONTAIN] = 256;
        self.known(&table, Some((65_537, CONTAIN)))
    }

    fn directed(&mut self) -> Result<(), String> {
        self.rows()?;
        self.safeties()?;
        self.pairs()?;
        self.values()?;
        self.large()
    }

    fn random(&mut self, tables: u64) -> Result<(), String> {
        let pool: Vec<Vec<u32>> = (0..64).map(|_| self.random.record()).collect();
        let values = values();
        for _ in 0..tables {
            let table = self.random.table(&pool, &values);
            self.check(&table)?;
        }
        Ok(())
    }
}

// ---- random tables

impl Random {
    /// A record of good words. Floats, and safeties that are ignored, are any.
    fn record(&mut self) -> Vec<u32> {
        let mut record: Vec<u32> = vec![];
        for k in 0..WORDS {
            let word = match allowed(k) {
                _ if is_safety(k) && record[k - 1] == ABSENT => self.word(),
                Any => self.word(),
                OneOf(words) => self.pick(words),
                Below(count) => self.word() % count,
            };
            record.push(word);
        }
        record
    }

    /// Up to 8 items, now and then some 1,024, and a trailing part; then up to 4 words are replaced.
    fn table(&mut self, pool: &[Vec<u32>], values: &[u32]) -> Vec<u32> {
        let mut table = vec![];
        if self.below(512) == 0 {
            let items = self.pick(&[1023, 1024, 1024, 1025, 1026, 1200]);
            (0..items).for_each(|_| table.extend(&pool[self.below(pool.len() as u32)]));
        } else {
            (0..self.below(9)).for_each(|_| table.extend(self.record()));
        }
        if self.below(4) == 0 {
            let part = self.record();
            table.extend(&part[..self.below(WORDS as u32)]);
        }
        let items = table.len().div_ceil(WORDS);
        for _ in 0..self.below(5) {
            let item = match self.below(4) {
                0 => items.saturating_sub(1 + self.below(2)),
                1 => self.below(2),
                _ => self.below(items.max(1) as u32),
            };
            if let Some(word) = table.get_mut(WORDS * item + self.below(WORDS as u32)) {
                *word = if self.below(4) == 0 { self.word() } else { self.pick(values) };
            }
        }
        table
    }
}

// ---- the run

/// What a wrong entry is tried with, until it is found out.
fn hunt(entry: &Entry) -> Result<(), String> {
    let mut trial = Trial::new(entry, 1);
    trial.random(2_000)?;
    trial.directed()?;
    trial.random(20_000)
}

fn run(thousands: u64, seed: u64) -> Result<String, String> {
    let wrong = wrong();
    trial::find_out(&wrong, hunt)?;
    let entry: Entry = Box::new(proved);
    let mut trial = Trial::new(&entry, seed);
    trial.directed()?;
    let tried = trial.figures.tables;
    trial.random(thousands * 1000)?;
    let f = trial.figures;
    if let Some(missed) = f.missed() {
        return Err(format!("seed {seed}: {missed}"));
    }
    let [accepted, extent, style] = f.opened.map(|class| class.1);
    let [_, of_item, of_later, ..] = f.beside.map(|class| class.1);
    Ok(format!(
        "seed {seed}: {tried} directed tables and {} random ones, {} with a word named ({of_item} beside another of its item, \
         {of_later} before a later item's), each again with random words behind it, {} with none; {accepted} openings accepted, \
         {extent} refused with 2, {style} with 3: no difference; {} wrong entries found out",
        f.tables - tried,
        f.named(),
        f.tables - f.named(),
        wrong.len()
    ))
}

/// What the entry names of each table of standard input.
fn tables() {
    for line in std::io::stdin().lines() {
        let line = line.expect("a line");
        let mut table: Vec<u32> = line.split_whitespace().map(|word| word.parse().expect("a word")).collect();
        let mut found = [0; 2];
        match proved(&mut table, &mut found) {
            0 => println!("-"),
            _ => println!("{} {}", found[0], found[1]),
        }
    }
}

fn main() {
    let words: Vec<String> = std::env::args().skip(1).collect();
    if words == ["tables"] {
        return tables();
    }
    let number = |k: usize, other: u64| words.get(k).map_or(other, |n| n.parse().expect("a number"));
    match run(number(0, 200), number(1, 1)) {
        Ok(figures) => println!("diff/words: {figures}"),
        Err(place) => {
            println!("diff/words: DIFFERENCE {place}");
            std::process::exit(1);
        }
    }
}
