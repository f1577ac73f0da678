//! One section of a planning sheet: its capacity, its rates, its speed and its density.

/// A section, and what comes in and goes out before it.
#[derive(Clone, Debug)]
pub struct Section {
    /// L
    pub length: u64,
    pub lanes: u64,
    /// The row of the table that its free-flow speed names
    pub curve: &'static Curve,
    /// CAF, in thousandths
    pub capacity_factor: u64,
    pub inflow: u64,
    pub outflow: u64,
}

/// What a section comes to.
#[derive(Clone, Copy, Debug, PartialEq)]
pub enum Answer {
    Free {
        speed: f64,
        density: f64,
    },
    Slowed {
        /// RU
        under: f64,
        speed: f64,
        density: f64,
    },
    Queued {
        /// RU
        under: f64,
        /// RO
        over: f64,
        speed: f64,
        density: f64,
    },
}

/// A row of the table: the curve of the rate RU over the ratio p, which counts from p = E on.
#[derive(Debug)]
pub struct Curve {
    /// The free-flow speed, in miles an hour
    pub ffs: u64,
    a: f64,
    b: f64,
    c: f64,
    d: f64,
    /// E
    pub start: f64,
}

/// The table.
pub static CURVES: [Curve; 5] = [
    Curve { ffs: 75, a: 68.99, b: -77.97, c: 34.04, d: -5.82, start: 0.44 },
    Curve { ffs: 70, a: 71.24, b: -85.48, c: 35.58, d: -5.44, start: 0.52 },
    Curve { ffs: 65, a: 92.45, b: -127.33, c: 56.34, d: -8.00, start: 0.62 },
    Curve { ffs: 60, a: 121.35, b: -184.84, c: 83.21, d: -9.33, start: 0.72 },
    Curve { ffs: 55, a: 156.43, b: -248.99, c: 99.20, d: -0.12, start: 0.82 },
];

impl Curve {
    /// The row of a free-flow speed, where the table has one.
    pub fn of(ffs: u64) -> Option<&'static Curve> {
        CURVES.iter().find(|row| row.ffs == ffs)
    }

    /// The curve as it is printed, which may be below zero.
    fn printed(&self, w: f64) -> f64 {
        ((self.a * w + self.b) * w + self.c) * w + self.d
    }

    /// The rate RU, zero where the printed curve is below.
    fn rate(&self, p: f64) -> f64 {
        if p < self.start {
            return 0.0;
        }
        let printed = self.printed(p.min(1.0));
        if printed < 0.0 {
            0.0
        } else {
            printed
        }
    }
}

impl Answer {
    /// Whether the printed curve is below zero here. At no demand is it zero itself.
    pub fn is_floored(&self) -> bool {
        matches!(self, Answer::Slowed { under, .. } if *under == 0.0)
    }

    pub fn density(&self) -> f64 {
        match *self {
            Answer::Free { density, .. } | Answer::Slowed { density, .. } | Answer::Queued { density, .. } => density,
        }
    }
}

impl Section {
    /// The capacity c.
    pub fn capacity(&self) -> i64 {
        let of_a_lane = 2_200 + 10 * (self.curve.ffs.min(70) - 50);
        (of_a_lane * self.lanes * self.capacity_factor / 1000) as i64
    }

    /// What the section comes to at a demand d.
    pub fn answer(&self, demand: i64) -> Answer {
        let d = demand as f64;
        let p = d / self.capacity() as f64;
        let queued = demand > self.capacity();
        let under = self.curve.rate(p);
        let over = if queued { self.queue_rate(p) } else { 0.0 };
        let travel_rate = (under + over) + 3600.0 / self.curve.ffs as f64;
        let speed = 3600.0 / travel_rate;
        let density = (d / speed) / self.lanes as f64;
        match queued {
            true => Answer::Queued { under, over, speed, density },
            false if p < self.curve.start => Answer::Free { speed, density },
            false => Answer::Slowed { under, speed, density },
        }
    }

    /// The rate RO.
    fn queue_rate(&self, p: f64) -> f64 {
        (450.0 / (self.length as f64 / 5280.0)) * (p - 1.0)
    }
}

#[cfg(test)]
mod tests {
    use super::*;

    /// A section of a mile.
    fn section(ffs: u64, lanes: u64, capacity_factor: u64) -> Section {
        let curve = Curve::of(ffs).expect("a speed of the table");
        Section { length: 5_280, lanes, curve, capacity_factor, inflow: 0, outflow: 0 }
    }

    #[test]
    fn capacities() {
        let speeds = [55, 60, 65, 70, 75];
        assert_eq!(speeds.map(|ffs| section(ffs, 1, 1_000).capacity()), [2_250, 2_300, 2_350, 2_400, 2_400]);
        assert_eq!(speeds.map(|ffs| section(ffs, 3, 333).capacity()), [2_247, 2_297, 2_347, 2_397, 2_397]);
        assert!([0, 50, 54, 62, 76, 80].iter().all(|&ffs| Curve::of(ffs).is_none()));
    }

    /// Answers of sections with three lanes, by their bits.
    fn comes_to(worked: &[(u64, i64, &str)]) {
        for &(ffs, demand, answer) in worked {
            assert_eq!(section(ffs, 3, 1_000).answer(demand).to_string(), answer, "{ffs} mi/h, {demand}");
        }
    }

    #[test]
    fn worked_sections() {
        comes_to(&[
            (75, 0, "free 4052c00000000000 0000000000000000"),
            (55, 5_534, "free 404b800000000000 4040c50adc50adc5"),
            (55, 5_535, "slowed 3fab741cb2684d1c 404b7a3cd11df6e0 4040c955ee70bfd6"),
            (65, 4_371, "slowed 3f93046efa89a400 40503e9b044816b2 40366c433ca97bcb"),
            (60, 6_900, "slowed 4024c7ae147ae13f 4049926269fa8b72 40467c56789abcdd"),
            (60, 6_901, "queued 4024c7ae147ae13f 3fb0b21642c86340 40498c5320e3be06 40468281921f7c08"),
            (65, 14_100, "queued 402aeb851eb851f0 407c200000000000 401bc10471c63f58 40852b0b33e6719b"),
            (70, 20_000, "queued 402fccccccccccc6 4089000000000000 40109a4ad80c4ff7 409918a7f529fd49"),
        ]);
    }

    #[test]
    fn worked_sections_where_the_curve_dips() {
        comes_to(&[
            (75, 3_167, "free 4052c00000000000 402c26af37c048d1"),
            (75, 3_168, "slowed 0000000000000000 4052c00000000000 402c28f5c28f5c29"),
            (75, 3_240, "slowed 0000000000000000 4052c00000000000 402ccccccccccccd"),
            (75, 3_384, "slowed 3fbe33a8f9ded340 4052b43b39a4dea5 402e27680dbb4e33"),
            (70, 3_743, "free 4051800000000000 4031d2e52e52e52e"),
            (70, 3_744, "slowed 0000000000000000 4051800000000000 4031d41d41d41d42"),
            (70, 3_764, "slowed 0000000000000000 4051800000000000 4031ec7ec7ec7ec8"),
            (70, 3_816, "slowed 3f88b5c950159000 40517ef2ff5eff7c 40322cfa21bababd"),
        ]);
    }

    #[test]
    fn a_section_at_e_by_hand() {
        // 44 % of 2,400; 48 seconds a mile, as when free
        let answer = section(75, 1, 1_000).answer(1_056);
        assert_eq!(answer, Answer::Slowed { under: 0.0, speed: 75.0, density: 14.08 });
        assert!(answer.is_floored() && answer.to_string().starts_with("slowed 0000000000000000 "));
    }

    #[test]
    fn none_is_faster_than_free_flow() {
        let mut floored = Vec::new();
        for curve in &CURVES {
            let section = section(curve.ffs, 1, 1_000);
            let capacity = section.capacity();
            let start = (curve.start * capacity as f64).round() as i64;
            floored.push(0);
            for demand in start..=capacity {
                let answer = section.answer(demand);
                let Answer::Slowed { under, speed, .. } = answer else { panic!("{demand} comes to {answer}") };
                assert!(under >= 0.0 && speed <= curve.ffs as f64, "{demand} comes to {answer}");
                let printed = curve.printed(demand as f64 / capacity as f64);
                assert!(printed != 0.0 && under.to_bits() == if printed < 0.0 { 0 } else { printed.to_bits() });
                *floored.last_mut().unwrap() += u64::from(answer.is_floored());
            }
        }
        // to 45.07 % of 2,400 from 44 %, and to 52.75 % from 52 %
        assert_eq!(floored, [1_081 - 1_055, 1_266 - 1_247, 0, 0, 0]);
    }
}
