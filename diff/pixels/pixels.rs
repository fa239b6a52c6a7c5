//! Compares the C entry `oof_pixels`, linked as a static library, with a model in exact integers, and its pixels with taffy's rounding.
//!
//! The model takes a float apart by its bits, and shares no code with the entry. Where taffy's util/sys.rs is at hand, its `round` says
//! what pixel a count of eighths is. Before the entry, wrong ones are tried: each must be found out.

#[path = "../eighths.rs"]
mod eighths;
#[path = "../random.rs"]
mod random;
#[path = "../trial.rs"]
mod trial;

use eighths::{bits, edges, pixel, wrong_edges, Counts, LARGEST, LOCATION_AND_SIZE, ROWS};
use random::Random;
use trial::{find_out, report};

mod c {
    extern "C" {
        pub fn oof_pixels(layout: *const u32, x: f32, y: f32, edges: *mut i32) -> u32;
    }
}

type Entry = dyn Fn(&[u32; 23], f32, f32, &mut [i32; 4]) -> u32;

fn proved(layout: &[u32; 23], x: f32, y: f32, edges: &mut [i32; 4]) -> u32 {
    unsafe { c::oof_pixels(layout.as_ptr(), x, y, edges.as_mut_ptr()) }
}

const REFUSED: u32 = 9;

/// The six numbers that are read, by their bits: x, y, width, height, offset x and y.
type Case = [u32; 6];

// ---- the model

/// A float as a count of eighths, if it is one: sign, exponent and fraction, in integers.
fn count(word: u32) -> Option<i64> {
    let (exponent, fraction) = ((word >> 23 & 255) as i32, i128::from(word & 0x7F_FFFF));
    // the size is m * 2 ^ power eighths
    let (m, power) = match exponent {
        255 => return None,
        0 => (fraction, -146),
        _ => (fraction | 1 << 23, exponent - 147),
    };
    let size = match power {
        0.. => m << power.min(64),
        -60..0 if m % (1 << -power) == 0 => m >> -power,
        _ if m == 0 => 0,
        _ => return None,
    };
    let n = i64::try_from(size).ok().filter(|&n| n <= LARGEST)?;
    Some(if word >> 31 == 1 { -n } else { n })
}

fn all(c: [Option<i64>; 6]) -> Option<Counts> {
    c.iter().all(Option::is_some).then(|| c.map(Option::unwrap))
}

fn model(case: &Case) -> Option<[i64; 4]> {
    all(case.map(count)).map(|c| edges(c, pixel))
}

// ---- wrong entries

type Named = (&'static str, Box<Entry>);

/// An entry over counts, of which some may be none.
fn any(name: &'static str, of: impl Fn([Option<i64>; 6]) -> Option<[i64; 4]> + 'static) -> Named {
    let entry: Box<Entry> = Box::new(move |layout, x, y, out| {
        let [at, down, width, height] = LOCATION_AND_SIZE.map(|k| layout[k]);
        let Some(e) = of([at, down, width, height, x.to_bits(), y.to_bits()].map(count)) else { return REFUSED };
        *out = e.map(|n| n as i32);
        0
    });
    (name, entry)
}

/// The entry, with x, y, width and height changed before.
fn changed(name: &'static str, change: fn(u32) -> u32) -> Named {
    let entry: Box<Entry> = Box::new(move |layout, x, y, out| {
        let mut other = *layout;
        LOCATION_AND_SIZE.iter().for_each(|&k| other[k] = change(layout[k]));
        proved(&other, x, y, out)
    });
    (name, entry)
}

/// What is accepted
fn tests() -> Vec<Named> {
    vec![
        any("a negative size is refused", |c| all(c).filter(|c| c[2] >= 0 && c[3] >= 0).map(|c| edges(c, pixel))),
        any("9,999,999 eighths are refused", |c| {
            all(c).filter(|c| c.iter().all(|n| n.abs() < LARGEST)).map(|c| edges(c, pixel))
        }),
        any("a bad offset is 0", |[x, y, w, h, ox, oy]| {
            all([x, y, w, h, ox.or(Some(0)), oy.or(Some(0))]).map(|c| edges(c, pixel))
        }),
        any("offset y isn't tested", |[x, y, w, h, ox, oy]| {
            all([x, y, w, h, ox, oy.or(Some(0))]).map(|c| edges(c, pixel))
        }),
        any("the height isn't tested", |[x, y, w, h, ox, oy]| {
            all([x, y, w, h.or(Some(0)), ox, oy]).map(|c| edges(c, pixel))
        }),
        changed("10,000,000 eighths are accepted", |w| if w == bits(LARGEST + 1) { bits(LARGEST) } else { w }),
        changed("sixteenths are rounded", |w| ((f32::from_bits(w) * 8.0).round() / 8.0).to_bits()),
    ]
}

/// What else a call may do
fn calls() -> Vec<Named> {
    fn call(name: &'static str, entry: fn(&[u32; 23], f32, f32, &mut [i32; 4]) -> u32) -> Named {
        (name, Box::new(entry))
    }
    vec![
        call("another refusal", |layout, x, y, out| proved(layout, x, y, out).min(8)),
        call("padding is read", |layout, x, y, out| {
            let good = count(layout[11]).is_some();
            if good {
                proved(layout, x, y, out)
            } else {
                REFUSED
            }
        }),
        call("a refusal writes", |layout, x, y, out| {
            let result = proved(layout, x, y, out);
            out[3] ^= i32::from(result == REFUSED);
            result
        }),
    ]
}

/// What the request invites one to write. The comparison is worth nothing if it misses one.
fn wrong() -> Vec<Named> {
    let edges = wrong_edges().into_iter().map(|(name, of)| any(name, move |c| all(c).map(of)));
    edges.chain(tests()).chain(calls()).collect()
}

// ---- the comparison

fn show(case: &Case) -> String {
    let say = |k: usize| match count(case[k]) {
        Some(n) => format!("{n}e"),
        None => format!("{:e} ({:08X})", f32::from_bits(case[k]), case[k]),
    };
    let names = ["x", "y", "width", "height", "offset x", "offset y"];
    names.iter().enumerate().map(|(k, name)| format!("{name} {}", say(k))).collect::<Vec<_>>().join(", ")
}

/// One call, with `noise` in the words that aren't read and in the edges before it.
fn call(entry: &Entry, case: &Case, noise: u32) -> (u32, [i32; 4], [i32; 4]) {
    let mut layout: [u32; 23] = std::array::from_fn(|k| noise.rotate_left(k as u32) ^ (k as u32) << 27);
    (0..4).for_each(|k| layout[LOCATION_AND_SIZE[k]] = case[k]);
    let before = [noise as i32, !noise as i32, 7, i32::MIN];
    let mut edges = before;
    (entry(&layout, f32::from_bits(case[4]), f32::from_bits(case[5]), &mut edges), edges, before)
}

/// Whether the entry does what the model says.
fn compare(entry: &Entry, case: &Case, noise: u32) -> Result<Option<[i64; 4]>, String> {
    let (result, edges, before) = call(entry, case, noise);
    let wanted = model(case);
    let same = match wanted {
        Some(e) => result == 0 && edges.map(i64::from) == e,
        None => result == REFUSED && edges == before,
    };
    same.then_some(wanted).ok_or_else(|| format!("{}: {result} {edges:?}, not {wanted:?}", show(case)))
}

/// Both signs of zeros, subnormals, eighths and what lies beside them, ends of ranges, infinities, NaNs.
fn special() -> Vec<u32> {
    let counts = [
        0,
        1,
        3,
        4,
        5,
        8,
        12,
        13,
        6_777_217,
        6_777_220,
        8_388_607,
        8_388_608,
        9_999_998,
        LARGEST,
        LARGEST + 1,
        1 << 24,
    ];
    let sizes = [
        1,
        2,
        0x007F_FFFF,
        0x0080_0000,
        0x3D80_0000,
        0x3DFF_FFFF,
        0x7F7F_FFFF,
        0x7F80_0000,
        0x7F80_0001,
        0x7FC0_0000,
        0x7FFF_FFFF,
    ];
    let mut words: Vec<u32> =
        counts.iter().flat_map(|&n| [bits(n), bits(n) + 1, bits(n).wrapping_sub(1)]).chain(sizes).collect();
    words.extend([0.0625f32, 0.1875, 0.9375, 349.9375, 524_288.06].map(f32::to_bits));
    words.iter().flat_map(|&w| [w, w ^ 1 << 31]).collect()
}

fn directed(entry: &Entry) -> Result<u64, String> {
    let mut tried = 0;
    let mut try_case = |case: &Case, noise: u32| {
        tried += 1;
        compare(entry, case, noise)
    };
    for (n, &(at, size, offset, start, end)) in ROWS.iter().enumerate() {
        for (at2, size2, offset2, start2, end2) in ROWS {
            let case = [at, at2, size, size2, offset, offset2].map(bits);
            // where the model and the rows differ, neither is to be believed
            assert_eq!(model(&case), Some([start, end, start2, end2]), "{}", show(&case));
            // the words that aren't read: zeros, and NaNs
            [0, u32::MAX, 0x7FC0_0000].iter().try_for_each(|&noise| try_case(&case, noise ^ n as u32).map(|_| ()))?;
        }
    }
    let list = special();
    for &a in &list {
        for &b in &list {
            for &c in &list {
                try_case(&[a, bits(3), b, bits(-5), c, bits(12)], a)?;
                try_case(&[bits(3), a, bits(-5), b, bits(12), c], b)?;
            }
        }
    }
    // each of the six places by itself
    for &a in &list {
        for k in 0..6 {
            let mut case = [1, -2, 3, 4, -5, 6].map(bits);
            case[k] = a;
            try_case(&case, a)?;
        }
    }
    Ok(tried)
}

impl Random {
    /// A count that is accepted: any, small, or at the limit.
    fn count(&mut self) -> i64 {
        let w = i64::from(self.word());
        let size = match self.word() % 4 {
            0 => w % 64,
            1 => LARGEST - w % 16,
            _ => w % (LARGEST + 1),
        };
        if self.word() % 2 == 0 {
            size
        } else {
            -size
        }
    }

    /// Any bits, a special value, a neighbour of a count, or a sixteenth; mostly an accepted count.
    fn float(&mut self, list: &[u32], strange: u32) -> u32 {
        let (w, n) = (self.word(), bits(self.count()));
        match self.word() % strange {
            0 => w,
            1 => list[w as usize % list.len()],
            2 => n.wrapping_add(w % 5).wrapping_sub(2),
            3 => (w as i32 as f32 / 16.0).to_bits(),
            _ => n,
        }
    }
}

struct Figures {
    accepted: u64,
    refused: u64,
    touching: u64,
}

fn random(millions: u64, seed: u64) -> Result<Figures, String> {
    let list = special();
    let mut random = Random::seeded(seed);
    let mut figures = Figures { accepted: 0, refused: 0, touching: 0 };
    for _ in 0..millions * 1_000_000 {
        let strange = if random.word() % 2 == 0 { 40 } else { 8 };
        let case: Case = std::array::from_fn(|_| random.float(&list, strange));
        let Some(e) = compare(&proved, &case, random.word())? else {
            figures.refused += 1;
            continue;
        };
        figures.accepted += 1;
        // a box that begins where this one ends, as floats
        let sum = |k: usize| (f32::from_bits(case[k]) + f32::from_bits(case[k + 2])).to_bits();
        let next = [sum(0), sum(1), case[3], case[2], case[4], case[5]];
        if let Some(f) = compare(&proved, &next, random.word())? {
            figures.touching += 1;
            if (e[1], e[3]) != (f[0], f[2]) {
                return Err(format!("{}: the next box doesn't touch", show(&case)));
            }
        }
    }
    Ok(figures)
}

/// Every count of up to 2 ^ 24 eighths in size, as a difference of two that are accepted, against taffy's rounding. Of its form without
/// std, the counts where it says another pixel: they must be the halves below zero.
#[cfg(taffy)]
fn rounding() -> Result<String, String> {
    const MOST: i64 = 1 << 24;
    let mut other = 0;
    for n in -MOST..=MOST {
        let case = [n / 2, 0, 0, 0, n / 2 - n, 0].map(bits);
        let (result, edges, _) = call(&proved, &case, 0);
        let value = f32::from_bits(bits(n));
        let (std, core) = (round_std::round(value), round_core::round(value));
        if result != 0 || f64::from(edges[0]) != f64::from(std) {
            return Err(format!("at {n}e: {result} {}, taffy rounds to {std}", edges[0]));
        }
        if core != std {
            other += 1;
            if n >= 0 || n % 8 != -4 || core != std - 1.0 {
                return Err(format!("at {n}e taffy rounds to {std}, and without std to {core}"));
            }
        }
    }
    Ok(format!("{} counts rounded as by taffy, {other} of them not as by its form without std", 2 * MOST + 1))
}

#[cfg(not(taffy))]
fn rounding() -> Result<String, String> {
    Ok("taffy's rounding isn't at hand".to_string())
}

fn run(millions: u64, seed: u64) -> Result<String, String> {
    let wrong = wrong();
    find_out(&wrong, |entry| directed(entry.as_ref()).map(|_| ()))?;
    let tried = directed(&proved)?;
    let f = random(millions, seed)?;
    Ok(format!(
        "seed {seed}: {tried} directed cases, {} random ones ({} refused), {} boxes that touch: no difference; {}; {} wrong entries found out",
        f.accepted + f.refused,
        f.refused,
        f.touching,
        rounding()?,
        wrong.len()
    ))
}

fn main() {
    report("pixels", 2, run);
}
