//! Random segments by what their level letter reckons with: as roads have them, and any numbers of 32 bits.

use super::Random;

const MOST: u64 = u32::MAX as u64;

/// Areas, length x lanes, at which something may change: from the first on every n is A, past the others a limit x area is more than
/// 64 bits hold.
const TURNS: [u64; 6] = [(1 << 33) - 2, u64::MAX / 45, u64::MAX / 35, u64::MAX / 26, u64::MAX / 18, u64::MAX / 11];

/// The parts, the length and the lanes of a segment.
#[derive(Clone, Copy, Debug, PartialEq)]
pub struct Graded {
    pub n: u64,
    pub length: u64,
    pub lanes: u64,
}

impl Graded {
    pub fn new(random: &mut Random) -> Graded {
        let (length, lanes) = match random.within(0, 5) {
            0..=2 => (random.within(300, 26_400), random.within(1, 8)),
            3 => about_a_turn(random),
            _ => (any(random), any(random)),
        };
        Graded { n: parts(random, length * lanes), length, lanes }
    }
}

/// A length and lanes whose area is about one of the turns.
fn about_a_turn(random: &mut Random) -> (u64, u64) {
    let area = random.pick(&TURNS);
    let length = random.within(area.div_ceil(MOST), area.isqrt());
    let lanes = area / length + random.within(0, 1);
    if random.chance(50) {
        (length, lanes.min(MOST))
    } else {
        (lanes.min(MOST), length)
    }
}

/// A number of 32 bits, of any size, often an end of the type.
fn any(random: &mut Random) -> u64 {
    match random.within(0, 9) {
        0 => random.pick(&[0, 1, MOST - 1, MOST]),
        _ => {
            let bits = random.within(1, 32);
            random.within(0, (1 << bits) - 1)
        }
    }
}

/// Parts for an area: in three of four cases, where they fit the type, a limit's largest n, or one less or more.
fn parts(random: &mut Random, area: u64) -> u64 {
    let limit: u128 = random.pick(&[11, 18, 26, 35, 45]);
    let largest = u64::try_from(limit * u128::from(area) / 22).unwrap_or(u64::MAX);
    if random.chance(25) || largest > MOST {
        return any(random);
    }
    (largest + random.within(0, 2)).saturating_sub(1).min(MOST)
}
