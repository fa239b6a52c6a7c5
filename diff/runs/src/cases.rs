//! Random cases, beyond what the oracle draws: with rare branches, with a code replaced, and large ones.
use crate::rng::Rng;
use crate::side::Setting;
use oracle::case::{at, Case, CANDIDATE, LENGTH, LENGTHS, STYLE};
use oracle::gen;
use oracle::host::Profile;

/// Case `number` of a profile. One in 4 takes rare branches (`lean`); one in 16 has a code replaced, so that an opening may be
/// refused 1, 3 or 4.
pub fn small_case(profile: Profile, seed: u64, number: u64) -> (Case, Setting, Rng) {
    let (mut case, host_seed) = gen::case(profile, seed, number);
    let mut rng = Rng::of_case(seed, &case.name, number);
    if rng.one_in(4) {
        lean(&mut case, profile, &mut rng);
        gen::steer(&mut case, seed, number);
    }
    if rng.one_in(16) {
        break_code(&mut case, &mut rng);
    }
    let surfaced = rng.of(&[0, 1, 2, 3, 4, 6, 8, 12]);
    let spare = [rng.below(3) as usize, rng.below(3) as usize];
    (case, Setting { host_seed, profile, surfaced, spare }, rng)
}

/// Makes the styles take branches that the profiles seldom take: what stretches, with a ratio or as a table; what is centered
/// or overflows between two insets; static centers
fn lean(case: &mut Case, profile: Profile, rng: &mut Rng) {
    const AUTO: u32 = 3;
    const STRETCH: u32 = 9;
    for style in &mut case.styles {
        let which = rng.below(4);
        for side in 0..4 {
            let inset = &mut style[at::INSET + LENGTH * side..];
            if which == 3 {
                (inset[0], inset[1]) = (AUTO, 0);
            } else if inset[0] == AUTO {
                (inset[0], inset[1]) = (1, (rng.below(200) as f32 * 0.25).to_bits());
            }
        }
        match which {
            0 | 1 => {
                let lone = rng.below(4) as usize; // one side may keep its size
                for axis in (0..2).filter(|&axis| axis != lone) {
                    let size = &mut style[at::SIZE + LENGTH * axis..];
                    (size[0], size[1]) = (AUTO, 0);
                }
                for keyword in [at::JUSTIFY, at::ALIGN] {
                    style[keyword] = rng.of(&[STRETCH, STRETCH, 0, 10, 7]);
                }
                style[at::FLAGS] = if which == 1 { 2 + rng.below(2) } else { rng.of(&[0, 0, 1]) };
                if profile != Profile::Quarter && rng.one_in(2) {
                    (style[at::RATIO_PRESENT], style[at::RATIO]) = (1, rng.of(&[0.5f32, 1.0, 1.5, 2.0]).to_bits());
                }
            }
            2 => {
                for keyword in [at::JUSTIFY, at::ALIGN] {
                    (style[keyword], style[keyword + 1]) = (rng.of(&[1, 2, 5, 6, 7, 7]), rng.below(3));
                }
            }
            _ => {}
        }
    }
    for candidate in &mut case.candidates {
        for edge in [5, 10] {
            if rng.one_in(2) {
                (candidate[edge], candidate[edge + 1]) = (1, rng.below(3));
            }
        }
    }
}

fn break_code(case: &mut Case, rng: &mut Rng) {
    let code = rng.code();
    match rng.below(3) {
        0 => case.area[4 + rng.below(4) as usize] = code,
        1 => {
            let item = rng.below(case.styles.len() as u32) as usize;
            let word = rng.below(STYLE as u32) as usize;
            // of a length, its tag
            case.styles[item][if word < LENGTH * LENGTHS { word - word % LENGTH } else { word }] = code;
        }
        _ => {
            let at = rng.below(case.candidates.len() as u32) as usize;
            case.candidates[at][rng.below(CANDIDATE as u32) as usize] = code;
        }
    }
}

/// A case of many items and boxes; the first ones are as large as a run can be
pub fn large_case(seed: u64, number: u64) -> (Case, Setting, Rng) {
    let profile = [Profile::Typical, Profile::Wild, Profile::Quarter][number as usize % 3];
    let mut rng = Rng::of_case(seed, "large", number);
    let (items, boxes) = match number {
        0..3 => (1024, 4096),
        _ => (1 + rng.below(300) as usize, rng.below(600) as usize),
    };
    let (mut case, host_seed) = gen::case(profile, seed, number);
    case.name = format!("large-{}", case.name);
    let mut from = number << 20;
    while case.styles.len() < items || case.candidates.len() < boxes {
        from += 1;
        let more = gen::case(profile, !seed, from).0;
        case.styles.extend(more.styles);
        case.candidates.extend(more.candidates);
    }
    case.styles.truncate(items);
    case.candidates.truncate(boxes);
    for c in &mut case.candidates {
        c[0] = rng.below(items as u32);
    }
    gen::steer(&mut case, seed, number);
    let surfaced = if number < 3 { 0 } else { rng.below(100) };
    (case, Setting { host_seed, profile, surfaced, spare: [0, 0] }, rng)
}
