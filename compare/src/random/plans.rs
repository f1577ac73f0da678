//! Random planning sheets in chains: the sheets of a chain are mostly of the same sections, period after period, each on the
//! carryover that the one before left.

use super::{mostly_sound, segments};
use super::{Fields, Layout, Random, Style};
use crate::model::planning::section::{Section, CURVES};
use crate::model::planning::MOST_DEMAND;
use crate::plans::{Carryover, Record};

/// A chain in the making.
pub struct Chain {
    random: Random,
    sections: Vec<Section>,
    /// Whether the next sheet is the first.
    begins: bool,
    /// How many sheets are still to be made.
    more: u64,
}

/// The largest flow into a section, and out.
const MOST_FLOW: u64 = 20_000;

/// Free-flow speeds that the table has not.
const ODD_SPEEDS: [u64; 10] = [0, 54, 56, 59, 61, 67, 71, 74, 76, 80];

fn sections(random: &mut Random) -> Vec<Section> {
    (0..segments(random)).map(|_| section(random)).collect()
}

fn section(random: &mut Random) -> Section {
    let (any_length, any_factor) = (random.within(300, 26_400), random.within(100, 1_000));
    Section {
        length: random.pick(&[300, 301, 2_640, 5_280, 26_399, 26_400, any_length, any_length, any_length, any_length]),
        lanes: random.within(1, 8),
        curve: random.pick(&CURVES.each_ref()),
        capacity_factor: random.pick(&[100, 101, 900, 999, 1_000, 1_000, 1_000, any_factor, any_factor, any_factor]),
        inflow: 0,
        outflow: 0,
    }
}

/// A demand that leaves no queue; often just above E x capacity, where some of the printed curves are below zero.
fn demand_within_capacity(random: &mut Random, section: &Section) -> u64 {
    let capacity = section.capacity() as u64;
    let start = (section.curve.start * capacity as f64).ceil() as u64;
    match random.within(1, 100) {
        1..=45 => start + random.within(0, capacity / 80),
        46..=55 => start - 1 + random.within(0, 2),
        56..=68 => random.within(0, start),
        69..=75 => 0,
        76..=92 => random.within(start, capacity),
        _ => capacity,
    }
}

fn demand_above_capacity(random: &mut Random, section: &Section) -> u64 {
    let capacity = section.capacity() as u64;
    let double = capacity + random.within(1, capacity);
    let far = capacity + random.within(1, MOST_FLOW);
    random.pick(&[capacity + 1, capacity + 1, double, double, far])
}

/// A demand at the largest or next to it, below zero, or far above every capacity.
fn extreme_demand(random: &mut Random) -> i64 {
    let any = random.within(1, MOST_FLOW) as i64;
    let far = random.within(MOST_FLOW, MOST_DEMAND as u64) as i64;
    random.pick(&[-1, -1, -any, far, MOST_DEMAND - 1, MOST_DEMAND, MOST_DEMAND, MOST_DEMAND + 1, MOST_DEMAND + any])
}

/// What comes in and what goes out where so much is to be gained or lost, as far as both can; often more than they need be.
fn flows(random: &mut Random, gain: i64) -> (u64, u64) {
    let change = gain.unsigned_abs().min(MOST_FLOW);
    let room = MOST_FLOW - change;
    let any = random.within(0, room);
    let both = random.pick(&[0, 0, 0, any, any, room]);
    if gain < 0 {
        (both, both + change)
    } else {
        (both + change, both)
    }
}

impl Chain {
    /// The chain of one seed.
    pub fn new(seed: u64) -> Chain {
        let mut random = Random::new(seed);
        let more = if random.chance(85) { random.within(1, 6) } else { random.within(7, 20) };
        Chain { sections: sections(&mut random), random, begins: true, more }
    }

    /// The next sheet, where the one before left a carryover; none at the chain's end.
    pub fn next(&mut self, left: &[u32]) -> Option<Record> {
        self.more = self.more.checked_sub(1)?;
        let begins = std::mem::take(&mut self.begins);
        if !begins && self.random.chance(3) {
            self.sections = sections(&mut self.random);
        }
        let demands = self.demands();
        let carryover = if begins || self.random.chance(20) {
            let mut carryover = self.carryover();
            make_up(&mut carryover, &demands);
            self.lead_to(&demands, &carryover);
            Carryover::Given(self.at_times_of_another_length(carryover))
        } else {
            self.lead_to(&demands, left);
            Carryover::Left
        };
        Some(Record { name: "sheet".into(), sheet: self.bytes(), carryover })
    }

    /// The demands that the sections are to have: some with queues, many without, some all at one limit of the letters.
    fn demands(&mut self) -> Vec<i64> {
        let queued_percent = self.random.pick(&[0, 0, 0, 10, 30, 60]);
        let limit = self.random.pick(&[11, 18, 26, 35, 45]);
        let at_limit = self.random.chance(5);
        let mut demands = Vec::new();
        for section in &self.sections {
            demands.push(match self.random.chance(queued_percent) {
                _ if at_limit => limit * section.curve.ffs * section.lanes + self.random.within(0, 1),
                true => demand_above_capacity(&mut self.random, section),
                false => demand_within_capacity(&mut self.random, section),
            } as i64);
        }
        if self.random.chance(5) {
            let at = self.any_section();
            demands[at] = extreme_demand(&mut self.random);
        }
        demands
    }

    fn any_section(&mut self) -> usize {
        self.random.within(0, self.sections.len() as u64 - 1) as usize
    }

    /// A carryover, a place for each section: often of zeros, at times with one that is huge, or all.
    fn carryover(&mut self) -> Vec<u32> {
        let most = self.random.pick(&[0, 0, 0, 5, 300, 5_000]);
        let mut carryover: Vec<u32> = self.sections.iter().map(|_| self.random.within(0, most) as u32).collect();
        let at = self.any_section();
        let near = u32::MAX - self.random.within(0, MOST_FLOW) as u32;
        let any = self.random.within(0, u32::MAX.into()) as u32;
        match self.random.within(1, 100) {
            1..=4 => carryover[at] = self.random.pick(&[u32::MAX, near, near, 1 << 31, 1_000_000, 1_000_001, any]),
            5 => carryover.fill(u32::MAX),
            _ => {}
        }
        carryover
    }

    /// Sets all flows, so that the demands come as near to these as they can; of a huge one, for which a sheet is refused, the last 32
    /// bits do.
    fn lead_to(&mut self, demands: &[i64], carryover: &[u32]) {
        let mut demand = 0;
        for ((section, wanted), &left_over) in self.sections.iter_mut().zip(demands).zip(carryover) {
            demand += i64::from(left_over);
            let turns = (demand + (1 << 31)) >> 32;
            (section.inflow, section.outflow) = flows(&mut self.random, wanted + (turns << 32) - demand);
            demand += section.inflow as i64 - section.outflow as i64;
        }
    }

    fn at_times_of_another_length(&mut self, mut carryover: Vec<u32>) -> Vec<u32> {
        let length = carryover.len();
        if self.random.chance(5) {
            carryover.resize(self.random.pick(&[0, length - 1, length + 1, 65]), 0);
        }
        carryover
    }

    /// The sheet's bytes, at times damaged or with a speed that the table has not.
    fn bytes(&mut self) -> Vec<u8> {
        let mut fields = Fields::new(self.random.split(), Layout::OPEN, Style::Usual);
        fields.sheets.push(0);
        fields.fixed(self.sections.len() as u64, 1, 64);
        for section in &self.sections {
            fields.fixed(section.length, 300, 26_400);
            fields.fixed(section.lanes, 1, 8);
            fields.fixed(section.curve.ffs, 55, 75);
            fields.fixed(section.capacity_factor, 100, 1_000);
            fields.lanes.push(section.lanes);
        }
        for section in &self.sections {
            fields.fixed(section.inflow, 0, MOST_FLOW);
            fields.fixed(section.outflow, 0, MOST_FLOW);
        }
        if self.random.chance(2) {
            let speed = 4 * self.any_section() + 3;
            fields.all[speed].value = self.random.pick(&ODD_SPEEDS);
        }
        mostly_sound(&mut self.random, fields)
    }
}

/// Raises a carryover where the flows alone cannot make up for a demand.
fn make_up(carryover: &mut [u32], demands: &[i64]) {
    let mut before = 0;
    for (left_over, &demand) in carryover.iter_mut().zip(demands) {
        let missing = demand - before - i64::from(*left_over);
        *left_over += (missing - MOST_FLOW as i64).max(0) as u32;
        before = demand;
    }
}
