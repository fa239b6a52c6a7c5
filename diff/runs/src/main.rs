//! Runs the published Rust, the second implementation and the static library side by side, then damages calls.
//!
//!     runs [CASES] [SEED] [--damaged CALLS] [--large CASES] [--sabotaged CASES] [--library-alone] [--figures]
//!
//! CASES (20,000 unless said) are run of each profile, CALLS (as many as CASES) are damaged in each family, and 50 large cases
//! are run. Then one bit of what the library says is flipped in each of 2,000 runs of each profile, and in 200 refused calls of
//! each family: all must be noticed. The first difference is printed with its case, and the exit status is 1; so it is if no sum
//! stood in some length, if too few boxes with a size keyword were compared with the Rust, if no item had several boxes, if no run or every
//! one was refused to the touch driver, or if a family of the tally didn't answer all that it is there for. With --library-alone the second
//! implementation isn't held to the Rust (diff/mutants changes one of them). With --figures the counts of each part are printed.
use oracle::case::{Case, LENGTHS};
use oracle::host::Profile;
use runs::answers::{Answers, Keywords};
use runs::cases::{large_case, small_case};
use runs::damage;
use runs::rng::Rng;
use runs::side::{compare, Counted, Setting};
use runs::words::{Library, Saboteur};
use std::process::exit;

struct Options {
    cases: u64,
    seed: u64,
    damaged: u64,
    large: u64,
    sabotaged: u64,
    library_alone: bool,
    figures: bool,
}

const UNLESS_SAID: Options = Options {
    cases: 20_000,
    seed: 1,
    damaged: u64::MAX,
    large: 50,
    sabotaged: 2000,
    library_alone: false,
    figures: false,
};

fn options() -> Options {
    let (mut o, mut args) = (UNLESS_SAID, std::env::args().skip(1));
    let mut place = 0;
    while let Some(arg) = args.next() {
        let number = |text: Option<String>| match text.as_deref().unwrap_or("").replace(['_', ','], "").parse() {
            Ok(number) => number,
            Err(_) => usage(),
        };
        match arg.as_str() {
            "--damaged" => o.damaged = number(args.next()),
            "--large" => o.large = number(args.next()),
            "--sabotaged" => o.sabotaged = number(args.next()),
            "--library-alone" => o.library_alone = true,
            "--figures" => o.figures = true,
            _ => {
                *(if place == 0 { &mut o.cases } else { &mut o.seed }) = number(Some(arg));
                place += 1;
            }
        }
    }
    if o.damaged == u64::MAX {
        o.damaged = o.cases;
    }
    o
}
fn usage() -> ! {
    eprintln!(
        "usage: runs [CASES] [SEED] [--damaged CALLS] [--large CASES] [--sabotaged CASES] [--library-alone] [--figures]"
    );
    exit(2)
}

/// Runs a case; what differs ends the program
fn side_by_side(o: &Options, case: &Case, setting: &Setting, mut rng: Rng, seen: &mut Counted) {
    let answers = Answers::of(case, setting);
    let held = if o.library_alone { Ok(()) } else { answers.hold() };
    let outcome = held.and_then(|()| compare(case, setting, &answers, &mut Library::default(), &mut rng, seen));
    if let Err(difference) = outcome {
        let Setting { host_seed, surfaced, .. } = setting;
        println!(
            "DIFFERENCE in {} (by {:?}): {difference}\nhost seed {host_seed:#010x}, {surfaced} surfaced\n{case:x?}",
            case.name, answers.by
        );
        exit(1);
    }
}

fn show(name: &str, seen: &Counted) {
    let Counted { cases, boxes, questions: q, surfaced, unclaimed, words, nans, signs, refused, .. } = seen;
    println!("{name}: {cases} cases, {boxes} boxes, {surfaced} surfaced, {unclaimed} unclaimed, questions {q:?} (both, width, height, lay out)");
    println!("    {words} words compared, {nans} NaNs in layouts, {signs} zeros of another sign; openings refused {:?} (1 to 4)", &refused[1..5]);
    let Counted { items, shared, .. } = seen;
    println!("    {items} items with questions, {shared} of them with several boxes");
    println!("    {} runs read by the touch driver, {} refused to it", seen.touched[0], seen.touched[1]);
    let Counted { with_sums, styles, styles_with_sums, sums, .. } = seen;
    println!("    {with_sums} runs by sums: {styles_with_sums} of {styles} styles, in each length {sums:?}");
    let Keywords { compared, closed, alone, other, runs_by_rust, runs_by_second } = seen.keywords;
    println!("    {runs_by_rust} runs held to the Rust, {runs_by_second} to the second implementation alone; boxes with a size keyword: {compared} compared with the Rust, {closed} of them with a block of size 0; {alone} held to the second implementation alone, {other} of them not as the Rust has them");
}

fn all_profiles(o: &Options) -> Counted {
    let mut all = Counted::default();
    for (name, profile) in Profile::NAMES {
        let mut seen = Counted::default();
        for number in 0..o.cases {
            let (case, setting, rng) = small_case(profile, o.seed, number);
            side_by_side(o, &case, &setting, rng, &mut seen);
        }
        keywords_were_compared(o, name, &seen.keywords);
        add(o, name, &seen, &mut all);
    }
    let mut seen = Counted::default();
    for number in 0..o.large {
        let (case, setting, rng) = large_case(o.seed, number);
        side_by_side(o, &case, &setting, rng, &mut seen);
    }
    add(o, "large", &seen, &mut all);
    all
}
fn add(o: &Options, name: &str, seen: &Counted, all: &mut Counted) {
    if o.figures {
        show(name, seen);
    }
    *all += seen;
}

/// Damaged calls of every family; their number
fn damaged(o: &Options) -> u64 {
    let mut all = 0;
    for (family, name) in damage::FAMILIES {
        let mut seen = [0; 7];
        let mut number = 0;
        while seen.iter().sum::<u64>() < o.damaged {
            let mut rng = Rng::of_case(o.seed, name, number);
            if let Err(difference) = damage::one(family, &mut Library::default(), &mut rng, &mut seen, &mut false) {
                println!("DIFFERENCE in {name}, seed {}, number {number}: {difference}", o.seed);
                exit(1);
            }
            number += 1;
        }
        let never: Vec<usize> = family.answers().iter().copied().filter(|&answer| seen[answer] == 0).collect();
        if o.damaged >= LONG_ENOUGH && !never.is_empty() {
            println!("NEVER answered {never:?} in {name}");
            exit(1);
        }
        if o.figures {
            println!("{name}: accepted {}, refused {:?} (1 to 6)", seen[0], &seen[1..]);
        }
        all += seen.iter().sum::<u64>();
    }
    all
}

/// Every flipped bit must be noticed
fn sabotage(o: &Options) -> u64 {
    let (mut runs, mut calls) = (0, 0);
    for (_, profile) in Profile::NAMES {
        for number in 0..o.sabotaged {
            let (case, setting, mut rng) = small_case(profile, o.seed, number);
            let mut seen = Counted::default();
            let questions = {
                let mut count = Counted::default();
                side_by_side(o, &case, &setting, rng.clone(), &mut count);
                count.questions.iter().sum::<u64>() as u32
            };
            let answers = Answers::of(&case, &setting);
            let saboteur = Saboteur { wait: rng.below(questions + 1), rng: Rng(rng.next()), done: false };
            let mut library = Library { saboteur: Some(saboteur) };
            if compare(&case, &setting, &answers, &mut library, &mut rng, &mut seen).is_ok() {
                println!("UNNOTICED in {}", case.name);
                exit(1);
            }
            runs += 1;
        }
    }
    for (family, name) in damage::FAMILIES {
        for number in 0..o.sabotaged / 10 {
            let mut rng = Rng::of_case(o.seed, name, number);
            // how many calls the run damages, and which of them are refused
            let (mut seen, mut noticed) = ([0; 7], false);
            let _ = damage::one(family, &mut Library::default(), &mut rng.clone(), &mut seen, &mut noticed);
            if seen[0] > 0 || seen == [0; 7] {
                continue; // of an accepted call only the frame is checked
            }
            let wait = Rng::of_case(!o.seed, name, number).below(seen.iter().sum::<u64>() as u32);
            let saboteur = Saboteur { wait, rng: Rng(number), done: false };
            let mut library = Library { saboteur: Some(saboteur) };
            let outcome = damage::one(family, &mut library, &mut rng, &mut [0; 7], &mut noticed);
            if outcome.is_ok() || !noticed {
                println!("UNNOTICED in {name}, number {number}");
                exit(1);
            }
            calls += 1;
        }
    }
    if o.figures {
        println!("sabotage: noticed in {runs} runs and {calls} refused calls, all that there were");
    }
    runs + calls
}

/// With so many cases of each profile it is a failure if something never occurred
const LONG_ENOUGH: u64 = 1000;

/// Of the boxes with a size keyword, one in six or more was compared with the Rust, some of them with a block of size 0
fn keywords_were_compared(o: &Options, name: &str, seen: &Keywords) {
    let enough = 6 * seen.compared >= seen.compared + seen.alone && seen.closed > 0;
    if o.cases >= LONG_ENOUGH && !enough {
        println!("TOO FEW boxes with a size keyword were compared with the Rust in {name}: {seen:?}");
        exit(1);
    }
}

/// Some item had several boxes, whose questions all stand in its word
fn some_items_had_several_boxes(o: &Options, seen: &Counted) {
    if o.cases >= LONG_ENOUGH && seen.shared == 0 {
        println!("NO ITEM had several boxes");
        exit(1);
    }
}

/// The touch driver read some runs, and some were refused to it
fn some_runs_were_touched(o: &Options, seen: &Counted) {
    if o.cases >= LONG_ENOUGH && seen.touched.contains(&0) {
        println!("NO RUN, or every one, was refused to the touch driver: {:?}", seen.touched);
        exit(1);
    }
}

/// A sum stood in every length of a style that a box was placed by
fn every_length_held_a_sum(o: &Options, seen: &Counted) {
    let none: Vec<usize> = (0..LENGTHS).filter(|&length| seen.sums[length] == 0).collect();
    if o.cases >= LONG_ENOUGH && !none.is_empty() {
        println!("NO SUM in the lengths {none:?}");
        exit(1);
    }
}

fn main() {
    let o = options();
    let seen = all_profiles(&o);
    every_length_held_a_sum(&o, &seen);
    some_items_had_several_boxes(&o, &seen);
    some_runs_were_touched(&o, &seen);
    let calls = damaged(&o);
    let flips = sabotage(&o);
    let Keywords { compared, alone, runs_by_rust, runs_by_second, .. } = seen.keywords;
    println!(
        "diff/runs: seed {}: {} runs agree, {runs_by_rust} with the Rust, {runs_by_second} with the second implementation ({} boxes, {} questions; with a size keyword {compared} boxes with the Rust, {alone} with the second implementation; {} styles with sums, {} sums or more in each length; {} items with questions, {} of them with several boxes; {} runs read by the touch driver, {} refused to it), {calls} damaged calls with document 01's table; {flips} flipped bits, all noticed",
        o.seed,
        seen.cases,
        seen.boxes,
        seen.questions.iter().sum::<u64>(),
        seen.styles_with_sums,
        seen.sums.iter().min().unwrap(),
        seen.items,
        seen.shared,
        seen.touched[0],
        seen.touched[1],
    );
}
