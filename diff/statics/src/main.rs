//! Holds `from_alignment` and `resolve_static_offset`, linked as a static library, to the published Rust.
//!
//! Zeros are equal and NaNs are equal, as document 01 compares with the Rust; a NaN's word must be 7FC00000. Before it compares, the
//! program tries wrong answers: each must be noticed.
use oracle::case::{CANDIDATE, LAYER};
use oracle::leaves;

extern "C" {
    fn static_align(keyword: u32, safety: u32, start: f32, end: f32, is_rtl: bool, out: &mut [u32; 5]) -> u32;
    fn static_offset(
        candidate: &[u32; CANDIDATE],
        width: f32,
        height: f32,
        left: f32,
        right: f32,
        top: f32,
        bottom: f32,
        out: &mut [u32; 2],
    );
}

const ABSENT: u32 = 10;
const SPECIAL: [u32; 12] = [
    0x0000_0000,
    0x8000_0000,
    0x7F80_0000,
    0xFF80_0000,
    0x7FC0_0000,
    0xFFC0_0001,
    0x0000_0001,
    0x7F7F_FFFF,
    0xFF7F_FFFF,
    0x3F80_0000,
    0xBF80_0000,
    0x4480_0000,
];

/// splitmix64
struct Rng(u64);
impl Rng {
    fn next(&mut self) -> u64 {
        self.0 = self.0.wrapping_add(0x9E37_79B9_7F4A_7C15);
        let z = (self.0 ^ (self.0 >> 30)).wrapping_mul(0xBF58_476D_1CE4_E5B9);
        let z = (z ^ (z >> 27)).wrapping_mul(0x94D0_49BB_1331_11EB);
        z ^ (z >> 31)
    }
    fn below(&mut self, n: u64) -> u32 {
        ((self.next() >> 32) % n) as u32
    }
    /// any bits, a special one, or plausible pixels
    fn float(&mut self) -> u32 {
        match self.below(4) {
            0 => self.next() as u32,
            1 => SPECIAL[self.below(12) as usize],
            _ => ((self.below(8001) as f32 - 4000.0) / 4.0).to_bits(),
        }
    }
}

fn is_nan(w: u32) -> bool {
    f32::from_bits(w).is_nan()
}

/// As numbers; the library's NaN has one word.
fn agree(rust: u32, ours: u32) -> bool {
    if is_nan(rust) || is_nan(ours) {
        return is_nan(rust) && ours == 0x7FC0_0000;
    }
    f32::from_bits(rust) == f32::from_bits(ours)
}

/// Keyword, safety, start, end, right-to-left; five words or a refusal.
fn align_ours(w: &[u32; 5]) -> Result<[u32; 5], u32> {
    let mut out = [7; 5];
    match unsafe { static_align(w[0], w[1], f32::from_bits(w[2]), f32::from_bits(w[3]), w[4] == 1, &mut out) } {
        0 => Ok(out),
        number => Err(number),
    }
}

fn align_differs(w: &[u32; 5], ours: Result<[u32; 5], u32>) -> bool {
    match (leaves::from_alignment(w), ours) {
        (Ok(rust), Ok(ours)) => !(agree(rust[0], ours[0]) && agree(rust[1], ours[1]) && rust[2..] == ours[2..]),
        (Err(rust), Err(ours)) => rust as u32 != ours,
        _ => true,
    }
}

/// Two axes of five words, width, height, margins; x and y. The layer isn't read: it is any word.
fn offset_ours(w: &[u32; 16]) -> [u32; 2] {
    let mut candidate = [0; CANDIDATE];
    candidate[3..LAYER].copy_from_slice(&w[..10]);
    candidate[LAYER] = w[10];
    let f = |k: usize| f32::from_bits(w[k]);
    let mut out = [7; 2];
    unsafe { static_offset(&candidate, f(10), f(11), f(12), f(13), f(14), f(15), &mut out) };
    out
}

fn offset_differs(w: &[u32; 16], ours: [u32; 2]) -> bool {
    match leaves::static_offset(w) {
        Ok(rust) => !(agree(rust[0], ours[0]) && agree(rust[1], ours[1])),
        Err(_) => true,
    }
}

fn axis(r: &mut Rng) -> [u32; 5] {
    [r.float(), r.float(), r.below(3), r.below(3), r.below(3)]
}

fn offset_case(r: &mut Rng) -> [u32; 16] {
    let (x, y) = (axis(r), axis(r));
    let mut w = [0; 16];
    w[..5].copy_from_slice(&x);
    w[5..10].copy_from_slice(&y);
    w[10..].iter_mut().for_each(|v| *v = r.float());
    w
}

/// Whether safe alignment takes the fallback edge in x.
fn falls_back(w: &[u32; 16]) -> bool {
    let f = |k: usize| f32::from_bits(w[k]);
    w[3] == 2 && w[2] != w[4] && f(10) + f(12) + f(13) > f(1) - f(0)
}

fn fail(what: &str, words: &[u32]) -> ! {
    let hex: Vec<String> = words.iter().map(|w| format!("{w:08x}")).collect();
    println!("diff/statics: {what} differs from the Rust at {}", hex.join(" "));
    std::process::exit(1)
}

/// Wrong answers must be noticed: one bit of each word flipped, a refusal for an answer.
fn sabotage(r: &mut Rng) {
    let w = [1, 0, 1f32.to_bits(), 2f32.to_bits(), 0];
    let right = align_ours(&w).unwrap();
    for k in 0..5 {
        let mut wrong = right;
        wrong[k] ^= 1;
        assert!(align_differs(&w, Ok(wrong)), "a wrong word {k} of from_alignment goes unnoticed");
    }
    assert!(align_differs(&w, Err(7)), "a refusal goes unnoticed");
    assert!(align_differs(&[5, 0, 0, 0, 0], Ok(right)), "an accepted self-start goes unnoticed");
    loop {
        let w = offset_case(r);
        let right = offset_ours(&w);
        if right.iter().any(|&v| is_nan(v) || f32::from_bits(v) == 0.0) {
            continue;
        }
        for k in 0..2 {
            let mut wrong = right;
            wrong[k] ^= 1;
            assert!(offset_differs(&w, wrong), "a wrong word {k} of resolve_static_offset goes unnoticed");
        }
        return;
    }
}

fn main() {
    let mut given = std::env::args().skip(1).map(|a| a.parse::<u64>().expect("COUNT SEED: two numbers"));
    let (count, seed) = (given.next().unwrap_or(1_000_000), given.next().unwrap_or(1));
    let mut r = Rng(seed);
    sabotage(&mut r);
    let (mut aligned, mut refused) = (0u64, 0u64);
    for keyword in 0..=ABSENT {
        for safety in 0..3 {
            for rtl in 0..2 {
                for _ in 0..count / 66 {
                    let w = [keyword, safety, r.float(), r.float(), rtl];
                    let ours = align_ours(&w);
                    if align_differs(&w, ours) {
                        fail("from_alignment", &w);
                    }
                    aligned += 1;
                    refused += ours.is_err() as u64;
                }
            }
        }
    }
    let mut fallbacks = 0u64;
    for _ in 0..count {
        let w = offset_case(&mut r);
        if offset_differs(&w, offset_ours(&w)) {
            fail("resolve_static_offset", &w);
        }
        fallbacks += falls_back(&w) as u64;
    }
    println!("diff/statics: from_alignment {aligned} ({refused} refused), resolve_static_offset {count} ({fallbacks} with another fallback edge in x), seed {seed}: all equal");
}
