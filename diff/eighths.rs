//! Numbers in eighths of a pixel and their pixel edges, for the parts that take them: which float is which number, floats that are none,
//! edges that are known, and wrong edges.
#![allow(dead_code)] // not every part needs all of it

/// The most that a number may be in size, in eighths.
pub const LARGEST: i64 = 9_999_999;

/// The words of a layout that are x, y, width and height.
pub const LOCATION_AND_SIZE: [usize; 4] = [9, 10, 1, 2];

/// A float as a number of eighths, if it is one: an odd number times a power of two, in integers.
pub fn count(word: u32) -> Option<i64> {
    let (exponent, fraction) = ((word >> 23 & 255) as i32, i64::from(word & 0x7F_FFFF));
    // the size is m * 2 ^ power eighths
    let (m, power) = if exponent == 0 { (fraction, -146) } else { (fraction | 1 << 23, exponent - 147) };
    if m == 0 {
        return Some(0);
    }
    let twos = m.trailing_zeros() as i32;
    // an odd number of a fraction of an eighth is none; from 2 ^ 24 eighths on, infinities and NaNs included, all are too large
    let size = match power + twos {
        0..24 => (m >> twos) << (power + twos),
        _ => return None,
    };
    (size <= LARGEST).then_some(if word >> 31 == 1 { -size } else { size })
}

/// The float of a number, exact up to 2 ^ 24 eighths.
pub fn bits(n: i64) -> u32 {
    let x = n as f32 / 8.0;
    assert!(x as f64 * 8.0 == n as f64);
    x.to_bits()
}

/// What isn't a number of eighths: halves and less of one, neighbours of such numbers, more than the limit, infinities, NaNs.
pub const STRANGE: [u32; 20] = [
    0x3D80_0000, // 0.0625
    0xBDCC_CCCD, // -0.1
    0x3DFF_FFFF,
    0x3E00_0001,
    0x43AE_F800, // 349.9375
    0x4900_0001, // 524,288.03125
    0x4998_9680, // 1,250,000: 10,000,000 eighths
    0xC998_9680,
    0x49FF_FFFF,
    0x4A00_0000,
    0x0000_0001,
    0x8000_0001,
    0x007F_FFFF,
    0x0080_0000,
    0x7F7F_FFFF,
    0x7F80_0000,
    0xFF80_0000,
    0x7F80_0001,
    0x7FC0_0000,
    0xFFFF_FFFF,
];

/// Words and the numbers that they are.
pub const COUNTS: [(u32, i64); 9] = [
    (0, 0),
    (1 << 31, 0),
    (0x3E00_0000, 1),
    (0xBE00_0000, -1),
    (0x3F80_0000, 8),
    (0x43AF_0000, 2800),
    (0x4980_0000, 8_388_608),
    (0x4998_967F, LARGEST),
    (0xC998_967F, -LARGEST),
];

/// Fails where `count`, `bits` and these words don't fit.
pub fn try_counts() {
    COUNTS.iter().for_each(|&(word, n)| assert_eq!(count(word), Some(n)));
    STRANGE.iter().for_each(|&word| assert_eq!(count(word), None));
    (-LARGEST..=LARGEST).step_by(997).for_each(|n| assert_eq!(count(bits(n)), Some(n)));
}

// ---- pixel edges

/// x, width, offset x in eighths, and the edges that they have.
pub const ROWS: [(i64, i64, i64, i64, i64); 24] = [
    (-13, 0, 0, -2, -2),
    (-12, 0, 0, -1, -1),
    (-5, 0, 0, -1, -1),
    (-4, 0, 0, 0, 0),
    (3, 0, 0, 0, 0),
    (4, 0, 0, 1, 1),
    (11, 0, 0, 1, 1),
    (12, 0, 0, 2, 2),
    // a float's sum of the first is 16,777,220
    (9_999_999, 0, -6_777_220, 2_097_152, 2_097_152),
    (9_999_999, 6_777_220, 0, 1_250_000, 2_097_152),
    (9_999_999, 6_777_220, -1, 1_250_000, 2_097_153),
    // a size has no pixels of its own
    (3, 3, 0, 0, 1),
    (6, 3, 0, 1, 1),
    (4, 7, 0, 1, 1),
    (3, 3, 3, 0, 0),
    // negative sizes
    (0, -8, 0, 0, -1),
    (-4, -1, 0, 0, -1),
    (12, -16, 8, 1, -1),
    // the limits
    (9_999_999, 9_999_999, -9_999_999, 2_500_000, 3_750_000),
    (-9_999_999, -9_999_999, 9_999_999, -2_500_000, -3_750_000),
    (9_999_999, -9_999_999, 9_999_999, 0, -1_250_000),
    (-9_999_999, 9_999_999, -9_999_999, 0, 1_250_000),
    // the incident: in whole pixels, as it is printed
    (192, 1280, 0, 24, 184),
    (-2624, 2560, 0, -328, -8),
];

/// x, y, width, height, offset x and y in eighths.
pub type Counts = [i64; 6];

/// The floor of (n + 4) / 8: the integer p with 8 p <= n + 4 < 8 p + 8.
pub fn pixel(n: i64) -> i64 {
    let p = (n + 4) / 8 - i64::from((n + 4) % 8 < 0);
    assert!(8 * p <= n + 4 && n + 4 < 8 * p + 8);
    p
}

/// Left, right, top, bottom, by exact sums.
pub fn edges([x, y, w, h, ox, oy]: Counts, pixel: impl Fn(i64) -> i64) -> [i64; 4] {
    [pixel(x - ox), pixel(x + w - ox), pixel(y - oy), pixel(y + h - oy)]
}

/// Edges that request #101 invites one to take
pub type WrongEdges = (&'static str, fn(Counts) -> [i64; 4]);

pub fn wrong_edges() -> Vec<WrongEdges> {
    [roundings(), sums(), exchanges()].concat()
}

/// What is rounded, and how
fn roundings() -> Vec<WrongEdges> {
    vec![
        ("division toward zero", |c| edges(c, |n| (n + 4) / 8)),
        ("halves away from zero", |c| edges(c, |n| (n.abs() + 4) / 8 * n.signum())),
        ("halves down", |c| edges(c, |n| (n + 3).div_euclid(8))),
        ("halves to even", |c| edges(c, |n| (n as f64 / 8.0).round_ties_even() as i64)),
        ("no rounding", |c| edges(c, |n| n.div_euclid(8))),
        ("sizes rounded by themselves", |[x, y, w, h, ox, oy]| {
            let (left, top) = (pixel(x - ox), pixel(y - oy));
            [left, left + pixel(w), top, top + pixel(h)]
        }),
        ("the offset rounded by itself", |[x, y, w, h, ox, oy]| {
            let (a, b) = (pixel(ox), pixel(oy));
            [pixel(x) - a, pixel(x + w) - a, pixel(y) - b, pixel(y + h) - b]
        }),
    ]
}

/// What is added
fn sums() -> Vec<WrongEdges> {
    vec![
        ("sums in f32", |c| {
            let [x, y, w, h, ox, oy] = c.map(|n| n as f32);
            [x - ox, x - ox + w, y - oy, y - oy + h].map(|n| pixel(n as i64))
        }),
        ("sums in f32, the size first", |c| {
            let [x, y, w, h, ox, oy] = c.map(|n| n as f32);
            [x - ox, x + w - ox, y - oy, y + h - oy].map(|n| pixel(n as i64))
        }),
        ("ends without the offset", |[x, y, w, h, ox, oy]| [pixel(x - ox), pixel(x + w), pixel(y - oy), pixel(y + h)]),
        ("the offset added", |[x, y, w, h, ox, oy]| edges([x, y, w, h, -ox, -oy], pixel)),
        ("a negative size is 0", |[x, y, w, h, ox, oy]| edges([x, y, w.max(0), h.max(0), ox, oy], pixel)),
    ]
}

/// Numbers in another one's place
fn exchanges() -> Vec<WrongEdges> {
    vec![
        ("top from x", |[x, _, w, h, ox, oy]| edges([x, x, w, h, ox, oy], pixel)),
        ("width for height", |[x, y, w, _, ox, oy]| edges([x, y, w, w, ox, oy], pixel)),
        ("left, top, right, bottom", |c| {
            let [left, right, top, bottom] = edges(c, pixel);
            [left, top, right, bottom]
        }),
        ("sizes instead of ends", |c| {
            let [left, right, top, bottom] = edges(c, pixel);
            [left, right - left, top, bottom - top]
        }),
    ]
}
