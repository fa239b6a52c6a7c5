//! Compares the float leaves of crates/util, linked as a static library, with Rust's own f32.
//!
//! Zeros are equal and NaNs are equal, as document 01 compares with the Rust; what it fixes beyond that (-0 is below +0,
//! a NaN's word is 7FC00000) is checked by bits. Counts of eighths are checked in f64, where they are exact. Before the
//! leaves, wrong ones are tried: each must be found out.

#[path = "../random.rs"]
mod random;

use random::Random;

extern "C" {
    fn leaf_max(a: f32, b: f32) -> f32;
    fn leaf_min(a: f32, b: f32) -> f32;
    fn leaf_abs(x: f32) -> f32;
    fn leaf_from_word(w: u32) -> f32;
    fn leaf_to_word(x: f32) -> u32;
    fn leaf_clamp(x: f32, has_min: bool, min: f32, has_max: bool, max: f32) -> f32;
    fn leaf_to_eighths(x: f32) -> u64;
    fn leaf_from_eighths(negative: bool, n: u64) -> u64;
}

/// What is compared: the leaves, or the leaves with a wrong one among them.
#[derive(Clone, Copy)]
struct Leaves {
    max: fn(f32, f32) -> f32,
    min: fn(f32, f32) -> f32,
    abs: fn(f32) -> f32,
    from_word: fn(u32) -> f32,
    to_word: fn(f32) -> u32,
    clamp: fn(f32, Option<f32>, Option<f32>) -> f32,
    to_eighths: fn(f32) -> Option<(bool, u64)>,
    from_eighths: fn(bool, u64) -> Option<u32>,
}

const PROVED: Leaves = Leaves {
    max: |a, b| unsafe { leaf_max(a, b) },
    min: |a, b| unsafe { leaf_min(a, b) },
    abs: |x| unsafe { leaf_abs(x) },
    from_word: |w| unsafe { leaf_from_word(w) },
    to_word: |x| unsafe { leaf_to_word(x) },
    clamp: |x, min, max| unsafe {
        leaf_clamp(x, min.is_some(), min.unwrap_or(7.0), max.is_some(), max.unwrap_or(7.0))
    },
    to_eighths: |x| match unsafe { leaf_to_eighths(x) } {
        0 => None,
        c => Some((c >> 33 == 1, c & 0xFFFF_FFFF)),
    },
    from_eighths: |negative, n| u32::try_from(unsafe { leaf_from_eighths(negative, n) }).ok(),
};

const LARGEST: u64 = 9_999_999;

/// Bends that each leaf invites. The comparison is worth nothing if it misses one.
fn wrong() -> Vec<(&'static str, Leaves)> {
    let l = PROVED;
    vec![
        ("max passes a NaN on", Leaves { max: |a, b| if a < b { b } else { a }, ..l }),
        ("min passes a NaN on", Leaves { min: |a, b| if b < a { b } else { a }, ..l }),
        ("max takes the first zero", Leaves { max: |a, b| if a == b { a } else { a.max(b) }, ..l }),
        ("min takes the first zero", Leaves { min: |a, b| if a == b { a } else { a.min(b) }, ..l }),
        ("abs keeps -0", Leaves { abs: |x| if x < 0.0 { -x } else { x }, ..l }),
        ("a NaN is written with its payload", Leaves { to_word: f32::to_bits, ..l }),
        ("the least NaN word is read as infinity", Leaves { from_word: |w| f32::from_bits(if w == 0x7F80_0001 { 0x7F80_0000 } else { w }), ..l }),
        ("max wins over min", Leaves { clamp: |x, min, max| rust_clamp(rust_clamp(x, min, None), None, max), ..l }),
        ("a NaN bound binds", Leaves { clamp: |x, min, max| match max { Some(m) if m.is_nan() => m, _ => rust_clamp(x, min, max) }, ..l }),
        ("an eighth is rounded", Leaves { to_eighths: |x| Some((x < 0.0, (x.abs() * 8.0).round() as u64)).filter(|c| c.1 <= LARGEST), ..l }),
        ("-0 is a negative count", Leaves { to_eighths: |x| rust_count(x).map(|(_, n)| (x.is_sign_negative(), n)), ..l }),
        ("10,000,000 eighths are a count", Leaves { from_eighths: |s, n| if n <= LARGEST + 1 { Some(rust_eighths(s, n)) } else { None }, ..l }),
        ("no eighths, negative, are -0", Leaves { from_eighths: |s, n| if n <= LARGEST { Some(rust_eighths(false, n) | (s as u32) << 31) } else { None }, ..l }),
    ]
}

/// util/math.rs of the Rust.
fn rust_clamp(x: f32, min: Option<f32>, max: Option<f32>) -> f32 {
    match (min, max) {
        (Some(min), Some(max)) => x.min(max).max(min),
        (None, Some(max)) => x.min(max),
        (Some(min), None) => x.max(min),
        (None, None) => x,
    }
}

/// Exact: eight times a float is an f64.
fn rust_count(x: f32) -> Option<(bool, u64)> {
    let v = f64::from(x) * 8.0;
    (v == v.trunc() && v.abs() <= LARGEST as f64).then(|| (v < 0.0, v.abs() as u64))
}

fn rust_eighths(negative: bool, n: u64) -> u32 {
    let v = n as f64 / 8.0;
    let x = v as f32;
    assert!(f64::from(x) == v);
    if negative && n > 0 { (-x).to_bits() } else { x.to_bits() }
}

/// Equal as document 01 compares: zeros and NaNs are one.
fn same(r: f32, w: f32) -> bool {
    r == w || r.is_nan() && w.is_nan()
}

/// Equal, and of two zeros the one wanted.
fn same_zero(r: f32, w: f32, minus: bool) -> bool {
    same(r, w) && (r != 0.0 || r.is_sign_negative() == minus)
}

fn unary(l: &Leaves, x: f32) -> Result<(), String> {
    let w = x.to_bits();
    let word = if x.is_nan() { 0x7FC0_0000 } else { w };
    let ok = same_zero((l.abs)(x), x.abs(), false)
        && (l.to_word)(x) == word
        && same_zero((l.from_word)(w), x, x.is_sign_negative())
        && (l.to_eighths)(x) == rust_count(x);
    ok.then_some(()).ok_or(format!("at {x:e} ({w:08X})"))
}

fn binary(l: &Leaves, a: f32, b: f32) -> Result<(), String> {
    // of two zeros max is -0 only where both are, min where either is; of a zero and a NaN, the zero
    let minus = |x: f32, nan: bool| if x.is_nan() { nan } else { x.is_sign_negative() };
    let ok = same_zero((l.max)(a, b), a.max(b), minus(a, true) && minus(b, true))
        && same_zero((l.min)(a, b), a.min(b), minus(a, false) || minus(b, false));
    ok.then_some(()).ok_or(format!("at {a:e} and {b:e} ({:08X}, {:08X})", a.to_bits(), b.to_bits()))
}

fn ternary(l: &Leaves, x: f32, min: f32, max: f32) -> Result<(), String> {
    for (low, high) in [(Some(min), Some(max)), (None, Some(max)), (Some(min), None), (None, None)] {
        if !same((l.clamp)(x, low, high), rust_clamp(x, low, high)) {
            return Err(format!("clamping {x:e} between {low:?} and {high:?}"));
        }
    }
    Ok(())
}

fn count(l: &Leaves, n: u64) -> Result<(), String> {
    for negative in [false, true] {
        let want = (n <= LARGEST).then(|| rust_eighths(negative, n));
        if (l.from_eighths)(negative, n) != want {
            return Err(format!("at {n} eighths, negative: {negative}"));
        }
        // and back
        if let Some(w) = want {
            if (l.to_eighths)(f32::from_bits(w)) != Some((negative && n > 0, n)) {
                return Err(format!("at the float of {n} eighths, negative: {negative}"));
            }
        }
    }
    Ok(())
}

/// Both signs of zeros, subnormals, eighths and what lies beside them, ends of ranges, infinities, NaNs.
fn special() -> Vec<f32> {
    let sizes = [
        0, 1, 2, 0x007F_FFFF, 0x0080_0000, 0x3DFF_FFFF, 0x3E00_0000, 0x3E00_0001, 0x3E4C_CCCD, 0x3F00_0000, 0x3F7F_FFFF,
        0x3F80_0000, 0x3F80_0001, 0x3FC0_0000, 0x4000_0000, 0x4248_0000, 0x4998_967F, 0x4998_9680, 0x4B18_967F, 0x4B80_0000,
        0x7F7F_FFFF, 0x7F80_0000, 0x7F80_0001, 0x7FC0_0000, 0x7FFF_FFFF,
    ];
    sizes.iter().flat_map(|&w| [f32::from_bits(w), f32::from_bits(w | 0x8000_0000)]).collect()
}

fn specials(l: &Leaves, list: &[f32]) -> Result<(), String> {
    for &x in list {
        unary(l, x)?;
        for &y in list {
            binary(l, x, y)?;
            for &z in list {
                ternary(l, x, y, z)?;
            }
        }
    }
    [0, 1, 2, 7, 8, 9, LARGEST - 1, LARGEST, LARGEST + 1, 1 << 24, 1 << 32, u64::MAX].iter().try_for_each(|&n| count(l, n))
}

impl Random {
    /// Any bits; a special value; a small count of eighths; or a neighbour of the float before.
    fn float(&mut self, list: &[f32], before: f32) -> f32 {
        let w = self.word();
        match self.word() % 8 {
            0 => list[w as usize % list.len()],
            1 => (w as i32 >> 8) as f32 / 8.0,
            2 => f32::from_bits(before.to_bits().wrapping_add(w % 3).wrapping_sub(1)),
            _ => f32::from_bits(w),
        }
    }
}

fn run(millions: u64) -> Result<String, String> {
    let list = special();
    let wrong = wrong();
    for (name, l) in &wrong {
        if specials(l, &list).is_ok() {
            return Err(format!("not found out: {name}"));
        }
    }
    let l = &PROVED;
    specials(l, &list)?;
    let counts = LARGEST + 1000;
    (0..=counts).try_for_each(|n| count(l, n))?;
    let triples = millions * 1_000_000;
    let mut random = Random(0x9E37_79B9_7F4A_7C15);
    let (mut y, mut z) = (0.0, 0.0);
    for _ in 0..triples {
        let x = random.float(&list, y);
        unary(l, x)?;
        binary(l, x, y)?;
        ternary(l, x, y, z)?;
        (y, z) = (x, y);
    }
    Ok(format!(
        "{triples} random triples, {} special ones, {} counts of eighths: no difference; {} wrong leaves found out",
        list.len().pow(3),
        2 * (counts + 1),
        wrong.len()
    ))
}

fn main() {
    let millions = std::env::args().nth(1).and_then(|n| n.parse().ok()).unwrap_or(20);
    match run(millions) {
        Ok(figures) => println!("leaves: {figures}"),
        Err(place) => {
            println!("leaves: DIFFERENCE {place}");
            std::process::exit(1);
        }
    }
}
