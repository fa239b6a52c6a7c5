//! Holds previews (request #109) to runs over a copy of the table with the replacement written in, call by call, through the entries of the
//! static library.
//!
//!     preview [PREVIEWS] [SEED] [--figures]
//!
//! First wrong entries are tried: each must be found out. Then screens are drawn until there were PREVIEWS (20,000 unless said). The
//! first difference is printed with its call, and the exit status is 1; so it is if something was never met in 20,000 previews or more. With
//! --figures the counts of all that was met are printed.
mod beside;
mod call;
mod draw;
mod frozen;
mod order;
mod rows;
mod screen;
mod seen;
mod wrong;

use beside::Difference;
use call::{proved, proved_frozen, Entry};
use frozen::Frozen;
use order::Reason;
use seen::Seen;
use std::cell::{Cell, RefCell};
use std::process::exit;
use std::rc::Rc;

/// Screens until which each wrong entry must be found out
const HUNT: u64 = 20_000;
/// With so many previews it is a failure if something was never met
const LONG_ENOUGH: u64 = 20_000;

struct Options {
    previews: u64,
    seed: u64,
    figures: bool,
}

fn options() -> Options {
    let (mut numbers, mut figures) = (vec![], false);
    for arg in std::env::args().skip(1) {
        match (arg.as_str(), arg.replace(['_', ','], "").parse()) {
            ("--figures", _) => figures = true,
            (_, Ok(number)) if numbers.len() < 2 => numbers.push(number),
            _ => {
                eprintln!("usage: preview [PREVIEWS] [SEED] [--figures]");
                exit(2)
            }
        }
    }
    let number = |at: usize, unless_said: u64| numbers.get(at).copied().unwrap_or(unless_said);
    Options { previews: number(0, 20_000), seed: number(1, 1), figures }
}

/// Rows and screens, until a difference or there were so many previews. One call in four is lent table and replacement where they can't be
/// written.
fn compare(seed: u64, previews: u64, seen: &mut Seen) -> Result<(), Difference> {
    let (frozen, calls) = (RefCell::new([Frozen::new(), Frozen::new()]), Cell::new(0u64));
    let entry: Entry = Box::new(move |asked, call, _| {
        calls.set(calls.get() + 1);
        if calls.get() % 4 == 0 {
            proved_frozen(asked, call, &mut frozen.borrow_mut())
        } else {
            proved(asked, call)
        }
    });
    rows::all(&entry, seen)?;
    let mut number = 0;
    while seen.previews < previews {
        let outcome = screen::screen(&entry, seed, number, seen);
        outcome.map_err(|difference| format!("seed {seed}, screen {number}: {difference}"))?;
        number += 1;
    }
    Ok(())
}

/// Makes every call by the wrong entries too, beside the library's, until each of them has left other words. Answers how many there are.
fn hunt() -> usize {
    let wrong = wrong::all();
    let all = wrong.len();
    let at_large = Rc::new(RefCell::new(wrong));
    let hunted = Rc::clone(&at_large);
    let entry: Entry = Box::new(move |asked, call, first| {
        let before = call.clone();
        let result = proved(asked, call);
        at_large.borrow_mut().retain(|(_, entry)| {
            let mut other = before.clone();
            entry(asked, &mut other, first) == result && other == *call
        });
        result
    });
    let mut seen = Seen::default();
    rows::all(&entry, &mut seen).unwrap_or_else(|difference| fail(format!("DIFFERENCE {difference}")));
    for number in 0..HUNT {
        if hunted.borrow().is_empty() {
            return all;
        }
        let outcome = screen::screen(&entry, 1, number, &mut seen);
        outcome.unwrap_or_else(|difference| fail(format!("DIFFERENCE seed 1, screen {number}: {difference}")));
    }
    let names: Vec<String> = hunted.borrow().iter().map(|(name, _)| name.clone()).collect();
    fail(format!("not found out: {}", names.join("; ")))
}

fn fail(why: String) -> ! {
    println!("diff/preview: {why}");
    exit(1)
}

fn main() {
    let o = options();
    let wrong = hunt();
    let mut seen = Seen::default();
    let outcome = compare(o.seed, o.previews, &mut seen);
    outcome.unwrap_or_else(|difference| fail(format!("DIFFERENCE {difference}")));
    if o.figures {
        seen.show();
    }
    let never = seen.never();
    if seen.previews >= LONG_ENOUGH && !never.is_empty() {
        fail(format!("NEVER met: {}", never.join("; ")));
    }
    println!("{}", line(o.seed, &seen, wrong));
}

fn line(seed: u64, seen: &Seen, wrong: usize) -> String {
    let own = |opening: bool| {
        let [length, node] = [Reason::Replacement, Reason::Node].map(|reason| seen.first(opening, reason));
        format!("{length} refused 2 for the replacement's length, {node} refused 4 for the node")
    };
    format!(
        "diff/preview: seed {seed}: {} previews of {} screens agree with runs over copies: {} openings ({}), {} replies ({}); {} finishes; a broken live record under {} accepted openings; {} accepted replies with another replacement or node; {} calls of live runs between them as alone; {wrong} wrong entries found out",
        seen.previews,
        seen.screens,
        seen.calls[0],
        own(true),
        seen.calls[1],
        own(false),
        seen.of("a finish"),
        seen.of("a broken live record, replaced: an accepted opening"),
        seen.of("another replacement at a later call, accepted") + seen.of("another node at a later call, accepted"),
        seen.live,
    )
}
