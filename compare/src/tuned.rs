//! The engine's job in Rust tuned for speed by hand: the second thing that the engine is timed against.
//!
//! Whatever a step needs that does not change from step to step is worked out once: by the road, by the period, and what
//! depends on the open lanes when their number changes. A step is one pass over the segments, the two "largest y" are
//! closed forms, and no division but by constants is made whose result is known beforehand, nor one for the remainder after the
//! step. Off(y) is always formed, by a product and a constant division, also where there is no share. A segment's two totals are
//! two additions where it lets out; its part-feet are worked out once a period, by what left in it and the length in force. Of the
//! last step's flows nothing is kept.

use crate::outcome::{Forecast, Outcome, Standing};
use std::hint::black_box;
use std::ops::RangeInclusive;

/// A whole study, from its bytes to the listing's numbers.
pub fn forecast(study: &[u8]) -> Outcome {
    match run(study) {
        Ok(facility) => Outcome::Forecast(facility.forecast()),
        Err(Refusal { number, place }) => Outcome::Refused { number, place: place as u64 },
    }
}

/// Runs a study, then reports so many times, on its segments in turn: the sum of their letters' bytes.
pub fn reports(study: &[u8], times: usize) -> u64 {
    let Ok(facility) = run(study) else { return 0 };
    let report = |i: usize| black_box(black_box(&facility.segments[i % facility.segments.len()]).report()).0.letter;
    (0..times).map(|i| u64::from(report(i))).sum()
}

/// Both totals of each segment of a study, none where it is refused.
#[cfg(test)]
pub fn totals(study: &[u8]) -> Option<Vec<(u64, u64)>> {
    let facility = run(study).ok()?;
    Some(facility.segments.iter().map(|segment| (segment.total_off, segment.total_y)).collect())
}

fn run(study: &[u8]) -> Result<Facility, Refusal> {
    let mut reader = Reader { bytes: study, place: 0 };
    let mut facility = Facility::lay(&mut reader)?;
    let mut periods = 0;
    while reader.place < study.len() {
        if periods == 96 {
            return Err(Refusal { number: 13, place: reader.place });
        }
        facility.take(&mut reader)?;
        for _ in 0..60 {
            facility.step();
        }
        periods += 1;
    }
    Ok(facility)
}

struct Refusal {
    number: u64,
    place: usize,
}

struct Reader<'a> {
    bytes: &'a [u8],
    place: usize,
}

impl Reader<'_> {
    fn field(&mut self, range: RangeInclusive<u64>) -> Result<u64, Refusal> {
        self.field_or(range, 4)
    }

    fn field_or(&mut self, range: RangeInclusive<u64>, outside: u64) -> Result<u64, Refusal> {
        let place = self.place;
        let value = self.number().map_err(|number| Refusal { number, place })?;
        if range.contains(&value) {
            Ok(value)
        } else {
            Err(Refusal { number: outside, place })
        }
    }

    fn number(&mut self) -> Result<u64, u64> {
        let mut value = 0;
        for (i, &byte) in self.bytes[self.place..].iter().take(5).enumerate() {
            value |= u64::from(byte & 0x7F) << (7 * i);
            match byte {
                16.. if i == 4 => return Err(2),
                0 if i > 0 => return Err(3),
                0..=0x7F => {
                    self.place += i + 1;
                    return Ok(value);
                }
                _ => {}
            }
        }
        Err(1)
    }
}

/// What the road has for all segments.
#[derive(Clone, Copy)]
struct Common {
    jam_density: u64,
    capacity_density: u64,
    drop: u64,
}

struct Facility {
    common: Common,
    segments: Vec<Segment>,
    origin: u64,
    mainline_demand: u64,
    exit_capacity: u64,
    arriving: u64,
    arrived: u64,
    left: u64,
    part_steps: u64,
}

struct Segment {
    // from the road
    length: u64,
    lanes: u64,
    reach: u64,
    full_capacity: u64,
    ramp_capacity: u64,
    share: u64,
    off_capacity: u64,
    /// The most that the off-ramp may be due, in thousandths of a part.
    most_due: u64,
    // from the open lanes
    open: u64,
    capacity: u64,
    dropped_capacity: u64,
    jam: u64,
    at_capacity: u64,
    // from the period
    ramp_demand: u64,
    ramp_limit: u64,
    // the state
    n: u64,
    q: u64,
    remainder: u64,
    total_off: u64,
    total_y: u64,
    // of the periods before
    y_before: u64,
    part_feet_before: u64,
}

/// A segment whose outflow waits for the next node's.
struct Leaving<'a> {
    segment: &'a mut Segment,
    most: u64,
    through: u64,
}

impl Facility {
    fn lay(reader: &mut Reader) -> Result<Facility, Refusal> {
        let ns = reader.field(1..=64)?;
        let common = Common {
            jam_density: reader.field(100..=300)?,
            capacity_density: reader.field(30..=60)?,
            drop: reader.field(0..=50)?,
        };
        Ok(Facility {
            common,
            segments: (0..ns).map(|_| Segment::lay(reader, common)).collect::<Result<_, _>>()?,
            origin: 0,
            mainline_demand: 0,
            exit_capacity: 0,
            arriving: 0,
            arrived: 0,
            left: 0,
            part_steps: 0,
        })
    }

    fn take(&mut self, reader: &mut Reader) -> Result<(), Refusal> {
        let ns = self.segments.len() as u64;
        reader.field_or(ns..=ns, 14)?;
        self.mainline_demand = reader.field(0..=20_000)?;
        self.exit_capacity = reader.field(0..=20_000)?;
        self.arriving = self.mainline_demand;
        for segment in &mut self.segments {
            segment.end_period();
            segment.ramp_demand = reader.field(0..=10_000)?;
            segment.ramp_limit = reader.field(0..=10_000)?.min(segment.ramp_capacity);
            let open = reader.field(1..=segment.lanes)?;
            if open != segment.open {
                segment.open_lanes(open, self.common);
            }
            self.arriving += segment.ramp_demand;
        }
        Ok(())
    }

    fn step(&mut self) {
        let mut wish = self.origin + self.mainline_demand;
        let mut queue_before = self.origin > 0;
        let mut left = 0;
        let mut before: Option<Leaving> = None;
        for segment in &mut self.segments {
            let supply = segment.supply(queue_before);
            let ramp = segment.ramp_flow(supply, wish);
            let mainline = wish.min(supply - ramp);
            match before {
                None => self.origin = wish - mainline,
                Some(leaving) => left += leaving.let_out(mainline),
            }
            queue_before = segment.n > segment.at_capacity;
            let (most, through) = segment.could_leave();
            segment.n += mainline + ramp;
            segment.q = segment.q + segment.ramp_demand - ramp;
            before = Some(Leaving { segment, most, through });
            wish = through;
        }
        if let Some(leaving) = before {
            let exit = wish.min(self.exit_capacity);
            left += leaving.let_out(exit) + exit;
        }
        self.arrived += self.arriving;
        self.left += left;
        self.part_steps += self.arrived - self.left;
    }

    fn forecast(&self) -> Forecast {
        Forecast {
            arrived: self.arrived,
            left: self.left,
            stored: self.segments.iter().map(|s| s.n + s.q).sum::<u64>() + self.origin,
            part_steps: self.part_steps,
            part_feet: self.segments.iter().map(Segment::part_feet).sum(),
            origin: self.origin,
            segments: self.segments.iter().map(Segment::standing).collect(),
        }
    }
}

impl Segment {
    fn lay(reader: &mut Reader, common: Common) -> Result<Segment, Refusal> {
        let length = reader.field(300..=26_400)?;
        let lanes = reader.field(1..=8)?;
        let speed = reader.field(15..=85)?;
        let full_capacity = reader.field(1..=20_000)?;
        let ramp_capacity = reader.field(0..=10_000)?;
        let share = reader.field(0..=1_000)?;
        let off_capacity = reader.field(0..=10_000)?;
        let mut segment = Segment {
            length,
            lanes,
            reach: 22 * speed,
            full_capacity,
            ramp_capacity,
            share,
            off_capacity,
            most_due: 1000 * off_capacity + 999,
            open: 0,
            capacity: 0,
            dropped_capacity: 0,
            jam: 0,
            at_capacity: 0,
            ramp_demand: 0,
            ramp_limit: 0,
            n: 0,
            q: 0,
            remainder: 0,
            total_off: 0,
            total_y: 0,
            y_before: 0,
            part_feet_before: 0,
        };
        segment.open_lanes(lanes, common);
        Ok(segment)
    }

    /// Works out what depends on the open lanes.
    fn open_lanes(&mut self, open: u64, common: Common) {
        let area = self.length * open;
        self.open = open;
        self.capacity = if open == self.lanes { self.full_capacity } else { self.full_capacity * open / self.lanes };
        self.dropped_capacity = self.capacity * (100 - common.drop) / 100;
        self.jam = common.jam_density * area / 22;
        self.at_capacity = common.capacity_density * area / 22;
    }

    /// The most that can leave, and how much of it goes through. The remainder is from then on that of all of it leaving.
    fn could_leave(&mut self) -> (u64, u64) {
        let wish = self.wish_to_leave();
        let due = wish * self.share + self.remainder;
        if due <= self.most_due {
            let off = due / 1000;
            self.remainder = due - 1000 * off;
            (wish, wish - off)
        } else {
            // the off-ramp is full
            let most = (self.most_due - self.remainder) / self.share;
            self.remainder = self.remainder + most * self.share - 1000 * self.off_capacity;
            (most, most - self.off_capacity)
        }
    }

    /// What leaves where less is let in than wished, so that some share goes through. The remainder is first set back.
    fn held_back(&mut self, most: u64, through: u64, let_in: u64) -> u64 {
        if self.share == 0 {
            return let_in;
        }
        let remainder = self.remainder + 1000 * (most - through) - most * self.share;
        let leaving = (1000 * let_in + remainder) / (1000 - self.share);
        self.remainder = remainder + leaving * self.share - 1000 * (leaving - let_in);
        leaving
    }

    fn wish_to_leave(&self) -> u64 {
        let most = self.n.min(self.capacity);
        let moved = self.n * self.reach;
        if moved >= most * self.length {
            most
        } else {
            moved.div_ceil(self.length)
        }
    }

    fn supply(&self, queue_before: bool) -> u64 {
        let entrance = if queue_before { self.dropped_capacity } else { self.capacity };
        let room = self.jam.saturating_sub(self.n);
        if self.n <= self.at_capacity {
            // the queue's limit is then no less than the capacity
            entrance.min(room)
        } else {
            entrance.min(room).min(self.capacity * room / (self.jam - self.at_capacity))
        }
    }

    fn ramp_flow(&self, supply: u64, mainline_wish: u64) -> u64 {
        let wish = (self.q + self.ramp_demand).min(self.ramp_limit);
        let spare = supply.saturating_sub(mainline_wish);
        if wish <= spare {
            wish
        } else {
            wish.min(spare.max(supply / (2 * self.open)))
        }
    }

    /// Adds the part-feet of the period that ends to those of the periods before.
    fn end_period(&mut self) {
        self.part_feet_before = self.part_feet();
        self.y_before = self.total_y;
    }

    fn part_feet(&self) -> u64 {
        self.part_feet_before + (self.total_y - self.y_before) * self.length
    }

    /// How the segment stands, what its off-ramp got in all, and all that left.
    fn report(&self) -> (Standing, u64, u64) {
        (self.standing(), self.total_off, self.total_y)
    }

    fn standing(&self) -> Standing {
        Standing { n: self.n, q: self.q, letter: self.letter(), part_feet: self.part_feet() }
    }

    fn letter(&self) -> u8 {
        let area = self.length * self.open;
        match 22 * self.n {
            density if density <= 11 * area => b'A',
            density if density <= 18 * area => b'B',
            density if density <= 26 * area => b'C',
            density if density <= 35 * area => b'D',
            density if density <= 45 * area => b'E',
            _ => b'F',
        }
    }
}

impl Leaving<'_> {
    /// Takes what leaves out of the segment, now that the next node's flow is known; gives what took the off-ramp.
    fn let_out(self, let_in: u64) -> u64 {
        let Leaving { segment, most, through } = self;
        let leaving = if let_in == through { most } else { segment.held_back(most, through, let_in) };
        let off = leaving - let_in;
        segment.n -= leaving;
        segment.total_off += off;
        segment.total_y += leaving;
        off
    }
}
