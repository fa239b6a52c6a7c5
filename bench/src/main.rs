//! Times the same runs through the published Rust and through the library, in one process; then the library's calls as the table grows,
//! good and with a bad word, the drawing order as more layers are in use, what a touch driver reads, and a preview's calls beside the
//! live run's.
//!
//!     bench [ROUNDS]
//!     bench profile rust|library ITEMS BOXES RUNS      # one side alone on 64 tables in turn, for a profiler
//!
//! Each figure is the median of ROUNDS (101 unless said) rounds, in CPU time, so that a busy machine matters less; what is
//! compared takes turns. Nothing is asserted about times; that both place the boxes alike is, and what the calls answer.
mod library;
mod rust;
mod scene;

use library::Words;
use oof::ffi::{self, state, Replacement, Reply};
use oof::words::{CANDIDATE, LAYER, LAYOUT, STYLE};
use oof::{first_bad_word, BadWord};
use oracle::set::{has_size_keyword, on_the_set};
use rust::Tree;
use scene::{scene, Scene};
use std::hint::black_box;

/// Of the tables that grow
const ITEMS: [usize; 4] = [1, 32, 128, 1024];

/// How many styles a box is placed with in turn. A processor that foretells branches learns few of them by heart
const IN_TURN: [usize; 6] = [1, 4, 16, 64, 256, 4096];

/// CPU time of this thread, in seconds
fn now() -> f64 {
    extern "C" {
        fn clock_gettime(clock: i32, time: *mut [i64; 2]) -> i32;
    }
    const THREAD_CPU_TIME: i32 = 3;
    let mut time = [0; 2];
    // SAFETY: on 64-bit Linux a timespec is two 64-bit integers
    assert_eq!(unsafe { clock_gettime(THREAD_CPU_TIME, &mut time) }, 0);
    time[0] as f64 + time[1] as f64 * 1e-9
}

/// Median seconds of one call, for each of the functions, which take turns. A round lasts about a millisecond.
fn medians<const N: usize>(rounds: usize, mut f: [&mut dyn FnMut(); N]) -> [f64; N] {
    let repeats: [u32; N] = std::array::from_fn(|i| {
        let mut repeats = 1;
        loop {
            let start = now();
            (0..repeats).for_each(|_| f[i]());
            if now() - start > 1e-3 || repeats >= 1 << 20 {
                return repeats;
            }
            repeats *= 2;
        }
    });
    let mut times: [Vec<f64>; N] = std::array::from_fn(|_| vec![]);
    for _ in 0..rounds {
        for i in 0..N {
            let start = now();
            (0..repeats[i]).for_each(|_| f[i]());
            times[i].push((now() - start) / repeats[i] as f64);
        }
    }
    times.map(|mut t| {
        t.sort_by(f64::total_cmp);
        t[t.len() / 2]
    })
}

fn shown(seconds: f64) -> String {
    match seconds {
        s if s < 1e-6 => format!("{:.0} ns", s * 1e9),
        s if s < 1e-3 => format!("{:.2} µs", s * 1e6),
        s => format!("{:.2} ms", s * 1e3),
    }
}

/// Both place every box alike, but for those with a size keyword that request #106 doesn't compare
fn agree(scene: &Scene, tree: &Tree, words: &Words) {
    for (at, (l, style)) in tree.layouts.iter().zip(&scene.styles).enumerate() {
        if has_size_keyword(style) && !on_the_set(&scene.area, style) {
            continue;
        }
        let w: Vec<f32> = words.layouts[23 * at..23 * at + 23].iter().map(|&w| f32::from_bits(w)).collect();
        let ours = [w[1], w[2], w[9], w[10], w[19], w[20], w[21], w[22]];
        let m = l.margin;
        let theirs = [l.size.width, l.size.height, l.location.x, l.location.y, m.left, m.right, m.top, m.bottom];
        assert_eq!(ours, theirs, "item {at}");
    }
}

/// A scene through both sides: a line of the table
fn side_by_side(name: &str, rounds: usize, scenes: &[(usize, usize)]) {
    let scenes: Vec<_> = (0..).zip(scenes).map(|(seed, &(items, boxes))| scene(seed, items, boxes)).collect();
    let mut trees: Vec<Tree> = scenes.iter().map(Tree::new).collect();
    let mut words: Vec<Words> = scenes.iter().map(Words::new).collect();
    let (mut questions, mut boxes) = (0, 0);
    for ((tree, words), scene) in trees.iter_mut().zip(&mut words).zip(&scenes) {
        boxes += tree.run().hoisted.len();
        assert_eq!(words.run(), 0);
        assert_eq!(words.answer[1], tree.questions);
        questions += tree.questions;
        agree(scene, tree, words);
    }
    let count = scenes.len();
    let mut rust = || {
        for tree in &mut trees {
            black_box(tree.run());
        }
    };
    let mut library = || {
        for words in &mut words {
            black_box(words.run());
        }
    };
    let [rust, library] = medians(rounds, [&mut rust, &mut library]);
    let each = |time: f64| shown(time / count as f64);
    println!(
        "| {name} | {:.1} | {} | {} | {:.2} |",
        questions as f64 / boxes as f64,
        each(rust),
        each(library),
        library / rust
    );
}

/// The sum of a table's words. In a function of its own, which run.sh has the compiler align: the same loop takes twice as long
/// where it straddles lines of code
#[inline(never)]
fn sum_of(words: &[u32]) -> u32 {
    words.iter().fold(0, |sum, word| sum.wrapping_add(*word))
}

/// A run of one box of the first item, opened, which asks to measure both
fn measuring(items: usize) -> Words {
    let mut opened = (0..).map(|seed| Words::new(&scene(seed, items, 1)));
    opened.find_map(|mut words| (words.open() == 0 && words.answer[0] == 1).then_some(words)).expect("there is no end")
}

/// One call over a table, beside one sum of its words
fn one_call(rounds: usize, items: usize) {
    let mut words = measuring(items);
    let (state, answer, table) = (words.state, words.answer, words.styles.clone());
    let mut sum = || {
        black_box(sum_of(black_box(&table)));
    };
    let mut call = || {
        // with the state, the tally is as it was before the call
        (words.state, words.answer) = (state, answer);
        words.tally[answer[1] as usize] = 0;
        assert_eq!(black_box(words.reply(Reply::Both(120.0, 18.0))), 0);
    };
    let [sum, call] = medians(rounds, [&mut sum, &mut call]);
    println!(
        "| {items} | {} | {} | {:.1} | {:.2} ns | {:.2} ns |",
        shown(sum),
        shown(call),
        call / sum,
        sum / items as f64 * 1e9,
        call / items as f64 * 1e9
    );
}

/// Where a table has its one bad word, if any: the first item's first word, its last, the last item's last
fn places(items: usize) -> [Option<BadWord>; 4] {
    let at = |item, word| Some(BadWord { item, word });
    [None, at(0, 0), at(0, STYLE - 1), at(items - 1, STYLE - 1)]
}

/// A table with a bad word: no tag as word 0, no contain as the last word
fn with_bad(scene: &Scene, place: Option<BadWord>) -> Words {
    let mut words = Words::new(scene);
    if let Some(BadWord { item, word }) = place {
        words.styles[STYLE * item + word] = if word == 0 { 2 } else { 256 };
    }
    words
}

/// The check of a table alone and a whole opening, by where the bad word stands, beside one sum of the table's words
fn bad_words(rounds: usize, items: usize) {
    let scene = scene(0, items, 1);
    let table = Words::new(&scene).styles;
    let mut sum = || {
        black_box(sum_of(black_box(&table)));
    };
    let mut finds = places(items).map(|place| {
        let styles = with_bad(&scene, place).styles;
        move || assert_eq!(black_box(first_bad_word(black_box(&styles))), place)
    });
    let mut opens = places(items).map(|place| {
        let mut words = with_bad(&scene, place);
        move || assert_eq!(black_box(words.open()), if place.is_some() { 3 } else { 0 })
    });
    let [find_0, find_1, find_2, find_3] = finds.each_mut();
    let [open_0, open_1, open_2, open_3] = opens.each_mut();
    let [sum, times @ ..] = medians(rounds, [&mut sum, find_0, find_1, find_2, find_3, open_0, open_1, open_2, open_3]);
    let sum = shown(sum);
    for (called, times) in ["the function", "an opening"].iter().zip(times.map(shown).chunks(4)) {
        println!("| {items} | {sum} | {called} | {} |", times.join(" | "));
    }
}

/// A finished run of so many boxes, whose layers are drawn from so many, spread over all 256
fn on_layers(items: usize, boxes: usize, layers: u32) -> Words {
    let mut words = Words::new(&scene(0, items, boxes));
    assert_eq!(words.run(), 0);
    for (record, k) in words.working.chunks_exact_mut(CANDIDATE).zip(0u32..) {
        // each of them, then any
        let layer = if k < layers { k } else { (k.wrapping_mul(0x9E37_79B1) >> 16) % layers };
        record[LAYER] = layer * (256 / layers);
    }
    words
}

/// The places by layer, by the Rust's stable sort
fn sort(words: &Words, places: &mut [u32]) {
    places.iter_mut().zip(0..).for_each(|(place, k)| *place = k);
    places.sort_by_key(|&place| words.working[CANDIDATE * place as usize + LAYER]);
}

/// The drawing order, beside one sum of the working list's words and a stable sort
fn drawing(rounds: usize, items: usize, boxes: usize, layers: u32) {
    let words = on_layers(items, boxes, layers);
    let (mut order, mut sorted) = (vec![0; boxes], vec![0; boxes]);
    assert_eq!(words.drawing_order(&mut order), 0);
    sort(&words, &mut sorted);
    assert_eq!(order, sorted);
    let mut sum = || {
        black_box(sum_of(black_box(&words.working)));
    };
    let mut draw = || assert_eq!(black_box(black_box(&words).drawing_order(&mut order)), 0);
    let mut sort = || sort(black_box(&words), black_box(&mut sorted));
    let [sum, draw, sort] = medians(rounds, [&mut sum, &mut draw, &mut sort]);
    println!(
        "| {boxes} | {layers} | {} | {} | {} | {:.1} | {:.2} ns |",
        shown(sum),
        shown(draw),
        shown(sort),
        draw / sum,
        draw / boxes as f64 / f64::from(layers) * 1e9
    );
}

/// A finished run of so many boxes, on two layers. They and the area stand on whole eighths
fn in_eighths(items: usize, boxes: usize) -> Words {
    let mut words = on_layers(items, boxes, 2);
    let mut eighths = (0u32..).map(|k| ((k.wrapping_mul(0x9E37_79B1) >> 19) as f32 - 4096.0) / 8.0);
    let mut next = || eighths.next().expect("there is no end").to_bits();
    for layout in words.layouts.chunks_exact_mut(LAYOUT) {
        // width, height, x, y
        for word in [1, 2, 9, 10] {
            layout[word] = next();
        }
    }
    words.state[state::AREA + 2..state::AREA + 4].fill_with(next);
    words
}

/// Every word of the layouts of the boxes, in hoisted order
fn sum_of_layouts(words: &Words) -> u32 {
    words
        .working
        .chunks_exact(CANDIDATE)
        .fold(0, |sum, record| sum.wrapping_add(sum_of(&words.layouts[LAYOUT * record[0] as usize..][..LAYOUT])))
}

/// Each box's node and its edges, by a call of `oof_pixels` for each
fn touch_by_box(words: &Words, told: &mut [u32]) {
    let [x, y] = [2, 3].map(|word| f32::from_bits(words.state[state::AREA + word]));
    for (record, five) in words.working.chunks_exact(CANDIDATE).zip(told.chunks_exact_mut(ffi::TOUCH)) {
        let layout = words.layouts[LAYOUT * record[0] as usize..][..LAYOUT].try_into().expect("as long");
        let mut edges = [0; ffi::EDGES];
        assert_eq!(ffi::pixels(layout, x, y, &mut edges), 0);
        five[0] = record[0];
        five[1..].copy_from_slice(&edges.map(i32::cast_unsigned));
    }
}

/// What a touch driver reads, beside one read of the boxes' layouts, the same by a call for each box, and the drawing order
fn touching(rounds: usize, items: usize, boxes: usize) {
    let words = in_eighths(items, boxes);
    let (mut told, mut by_box, mut order) = (vec![0; ffi::TOUCH * boxes], vec![0; ffi::TOUCH * boxes], vec![0; boxes]);
    assert_eq!(words.touch(&mut told), 0);
    touch_by_box(&words, &mut by_box);
    assert_eq!(told, by_box);
    let mut sum = || {
        black_box(sum_of_layouts(black_box(&words)));
    };
    let mut touch = || assert_eq!(black_box(black_box(&words).touch(&mut told)), 0);
    let mut each = || touch_by_box(black_box(&words), black_box(&mut by_box));
    let mut draw = || assert_eq!(black_box(black_box(&words).drawing_order(&mut order)), 0);
    let [sum, each, touch, draw] = medians(rounds, [&mut sum, &mut each, &mut touch, &mut draw]);
    println!(
        "| {boxes} | {items} | {} | {} | {} | {} | {:.1} | {:.2} ns |",
        shown(sum),
        shown(each),
        shown(draw),
        shown(touch),
        touch / sum,
        touch / boxes as f64 * 1e9
    );
}

/// The words of a live run, and of a preview beside it, whose table has no good word in the node's record
fn live_and_tried(items: usize, node: usize) -> [Words; 2] {
    let [live, mut tried] = [measuring(items), measuring(items)];
    tried.styles[STYLE * node..][..STYLE].fill(u32::MAX);
    [live, tried]
}

/// A preview's opening and its reply to a measure question, beside the live run's: the replacement is the node's own style, so that both do the
/// same
fn previewing(rounds: usize, items: usize, node: usize) {
    let [mut live_opened, mut tried_opened] = live_and_tried(items, node);
    let [mut live, mut tried] = live_and_tried(items, node);
    let style = live.styles[STYLE * node..][..STYLE].to_vec();
    let r = Replacement { node: node as u32, style: &style };
    assert_eq!((live.open(), tried.preview_open(r)), (0, 0));
    let (state, answer) = (live.state, live.answer);
    assert_eq!((tried.state, tried.answer), (state, answer));
    let mut open = || assert_eq!(black_box(live_opened.open()), 0);
    let mut preview_open = || assert_eq!(black_box(tried_opened.preview_open(black_box(r))), 0);
    // with the state, the tally is as it was before the call
    let rewind = |words: &mut Words| {
        (words.state, words.answer) = (state, answer);
        words.tally[answer[1] as usize] = 0;
    };
    let both = Reply::Both(120.0, 18.0);
    let mut reply = || {
        rewind(&mut live);
        assert_eq!(black_box(live.reply(both)), 0);
    };
    let mut preview_reply = || {
        rewind(&mut tried);
        assert_eq!(black_box(tried.preview_reply(both, black_box(r))), 0);
    };
    let [open, preview_open, reply, preview_reply] =
        medians(rounds, [&mut open, &mut preview_open, &mut reply, &mut preview_reply]);
    assert_eq!((live.state, live.answer), (tried.state, tried.answer));
    println!(
        "| {items} | {node} | {} | {} | {:.2} | {} | {} | {:.2} |",
        shown(open),
        shown(preview_open),
        preview_open / open,
        shown(reply),
        shown(preview_reply),
        preview_reply / reply
    );
}

/// So many runs of one side, for a profiler: `rust` or `library`, items, boxes, runs
fn profile(args: &[String]) {
    let [items, boxes, runs] = [1, 2, 3].map(|i| args[i].parse::<usize>().expect("a number"));
    let scenes: Vec<_> = (0..64).map(|seed| scene(seed, items, boxes)).collect();
    let mut trees: Vec<Tree> = scenes.iter().map(Tree::new).collect();
    let mut words: Vec<Words> = scenes.iter().map(Words::new).collect();
    for at in 0..runs {
        match args[0].as_str() {
            "rust" => drop(black_box(trees[at % 64].run())),
            _ => assert_eq!(words[at % 64].run(), 0),
        }
    }
}

/// The tables of entries that read a finished run
fn finished_runs(rounds: usize) {
    println!("| boxes | layers in use | one sum of the list | the drawing order | a stable sort | order / sum | order, a box and layer |");
    println!("|---|---|---|---|---|---|---|");
    drawing(rounds, 100, 100, 2);
    for layers in [1, 2, 16, 256] {
        drawing(rounds, 1, 4096, layers);
    }
    println!();
    println!("| boxes | items | one sum of layouts | pixels by box | the drawing order | driver's words | words / sum | words, a box |");
    println!("|---|---|---|---|---|---|---|---|");
    for (items, boxes) in [(1, 1), (100, 100), (1, 4096), (1024, 4096)] {
        touching(rounds, items, boxes);
    }
}

fn main() {
    let args: Vec<String> = std::env::args().skip(1).collect();
    if args.first().is_some_and(|arg| arg == "profile") {
        return profile(&args[1..]);
    }
    let rounds = args.first().map_or(101, |s| s.parse().expect("rounds"));
    println!("| a run | questions a box | the Rust | the library | ratio |");
    println!("|---|---|---|---|---|");
    for styles in IN_TURN {
        let name = format!("1 box of 1 item ({styles} style{} in turn)", if styles == 1 { "" } else { "s" });
        side_by_side(&name, rounds, &vec![(1, 1); styles]);
    }
    side_by_side("4 boxes of 4 items (64 tables in turn)", rounds, &[(4, 4); 64]);
    side_by_side("100 boxes of 100 items", rounds, &[(100, 100)]);
    side_by_side("4,096 boxes of 1,024 items", rounds.min(5), &[(1024, 4096)]);
    println!();
    println!("| items | one sum of the table | one call | ratio | sum an item | call an item |");
    println!("|---|---|---|---|---|---|");
    for items in ITEMS {
        one_call(rounds, items);
    }
    println!();
    let last = STYLE - 1;
    println!(
        "| items | one sum of the table | called | a good table | bad at 0:0 | bad at 0:{last} | bad at last:{last} |"
    );
    println!("|---|---|---|---|---|---|---|");
    for items in ITEMS {
        bad_words(rounds, items);
    }
    println!();
    finished_runs(rounds);
    println!();
    println!("| items | node | an opening | a preview's | ratio | a reply | a preview's | ratio |");
    println!("|---|---|---|---|---|---|---|---|");
    for items in ITEMS {
        previewing(rounds, items, 0);
        if items > 1 {
            previewing(rounds, items, items - 1);
        }
    }
}
