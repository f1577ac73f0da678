//! The comparison: many random studies, each given to the engine, to the model, to the idiomatic and to the tuned version.

pub mod conversions;
pub mod letters;
pub mod lists;
pub mod plans;
mod program;
pub mod tables;

use crate::model::facility::Facility;
use crate::model::sheets::Refusal;
use crate::outcome::{Outcome, NUMBERS};
use crate::random::{self, Layout, Random};
use crate::{engine, idiomatic, model, tuned};
use std::collections::BTreeMap;
use std::time::{Duration, Instant};

/// How many studies came to what.
#[derive(Default)]
struct Tally {
    accepted: u64,
    refused: BTreeMap<u64, u64>,
    mainline_queue: u64,
    ramp_queue: u64,
    closed_lane: u64,
    above_jam: u64,
    no_capacity: u64,
    remainder: u64,
    /// Of each study, the most of a segment.
    part_feet: PartFeet,
    letters: BTreeMap<u8, u64>,
}

/// How many part-feet were told: how often any, how often more than 32 bits hold, and the most.
#[derive(Default)]
struct PartFeet {
    above_zero: u64,
    above_32_bits: u64,
    most: u64,
}

impl PartFeet {
    fn add(&mut self, part_feet: u64) {
        self.above_zero += u64::from(part_feet > 0);
        self.above_32_bits += u64::from(part_feet > u32::MAX.into());
        self.most = self.most.max(part_feet);
    }
}

impl Tally {
    fn add(&mut self, run: &Result<Facility, Refusal>) {
        let facility = match run {
            Err(refusal) => {
                *self.refused.entry(refusal.number).or_default() += 1;
                return;
            }
            Ok(facility) => facility,
        };
        let reports = || (1..=facility.segments()).filter_map(|i| facility.report(i).ok());
        self.accepted += 1;
        self.mainline_queue += u64::from(facility.origin() > 0);
        self.ramp_queue += u64::from(reports().any(|report| report.q > 0));
        self.closed_lane += u64::from(facility.has_closed_lane());
        self.above_jam += u64::from(facility.has_segment_above_jam());
        self.no_capacity += u64::from(facility.has_segment_without_capacity());
        self.remainder += u64::from(facility.remainders().iter().any(|&remainder| remainder > 0));
        self.part_feet.add(reports().map(|report| report.part_feet).max().unwrap_or_default());
        for report in reports() {
            *self.letters.entry(report.letter).or_default() += 1;
        }
    }

    fn print(&self) {
        println!("accepted     {:>7}", self.accepted);
        println!("  of which {} end with a mainline queue, {} with a ramp queue", self.mainline_queue, self.ramp_queue);
        println!("  {} with a closed lane, {} with a segment above its jam", self.closed_lane, self.above_jam);
        println!("  {} with a segment whose open lanes have no capacity", self.no_capacity);
        println!("  {} with a remainder", self.remainder);
        let PartFeet { above_zero, above_32_bits, most } = self.part_feet;
        println!(
            "  {above_zero} with part-feet above 0, {above_32_bits} with a segment's above 32 bits, at most {most}"
        );
        println!("  segments by letter: {}", by_letter(&self.letters));
        print_refused(&self.refused);
    }
}

/// How many had each letter, in a line.
fn by_letter(letters: &BTreeMap<u8, u64>) -> String {
    let letters = letters.iter().map(|(&letter, count)| format!("{} {count}", char::from(letter)));
    letters.collect::<Vec<_>>().join(", ")
}

fn print_refused(refused: &BTreeMap<u64, u64>) {
    for (number, count) in refused {
        println!("refused {number:>2}   {count:>7}");
    }
}

/// Compares the forecasts of `count` studies; true where all were equal.
pub fn run(seed: u64, count: u64) -> bool {
    println!("comparing {count} random studies, seed {seed}");
    let mut tally = Tally::default();
    let layout = |_| Layout::OFTEN_CLOSED;
    let equal = each(seed, count, layout, |made, study| {
        let run = model::run(study);
        same(study, &model::outcome(&run))?;
        engine::refuses_short_buffer(study, made as usize % NUMBERS)?;
        tally.add(&run);
        Ok(())
    });
    if equal {
        tally.print();
        println!("all {count} studies equal, number by number");
    }
    equal
}

/// Makes `count` random studies, each in the layout that its place has, and has them compared; true where none differs.
fn each(
    seed: u64,
    count: u64,
    layout: impl Fn(u64) -> Layout,
    mut compared: impl FnMut(u64, &[u8]) -> Result<(), String>,
) -> bool {
    let mut progress = Progress::new();
    let mut seeds = Random::new(seed);
    for made in 0..count {
        let study = random::study(seeds.within(0, u64::MAX - 1), layout(made));
        if let Err(difference) = compared(made, &study) {
            println!("study {} differs, its bytes: {}", made + 1, hex(&study));
            println!("{difference}");
            return false;
        }
        progress.tell(made + 1, "studies");
    }
    true
}

/// Shows now and then how far a comparison is.
struct Progress {
    shown: Instant,
}

impl Progress {
    fn new() -> Progress {
        Progress { shown: Instant::now() }
    }

    fn tell(&mut self, count: u64, of: &str) {
        if self.shown.elapsed() > Duration::from_secs(5) {
            println!("  {count} {of}, all equal so far");
            self.shown = Instant::now();
        }
    }
}

/// Holds the engine, the idiomatic and the tuned version against what is expected of a study.
pub fn same(study: &[u8], expected: &Outcome) -> Result<(), String> {
    engine_gives(study, expected)?;
    timed_versions_give(study, expected)
}

/// Holds the idiomatic and the tuned version against it.
fn timed_versions_give(study: &[u8], expected: &Outcome) -> Result<(), String> {
    for (name, other) in [("idiomatic", idiomatic::forecast(study)), ("tuned", tuned::forecast(study))] {
        if other != *expected {
            let (other, ours) = (other.listing(), expected.listing());
            return Err(format!("the {name} version, not the engine, says:\n{other}the model says:\n{ours}"));
        }
    }
    Ok(())
}

/// Holds the engine alone against it, all its numbers.
fn engine_gives(study: &[u8], expected: &Outcome) -> Result<(), String> {
    let ours = expected.numbers();
    let theirs = engine::numbers(study)?;
    let Some((at, ours, theirs)) = first_difference(&ours, &theirs) else { return Ok(()) };
    let listing = expected.listing();
    Err(format!("out[{at}] should be {ours} and the engine gives {theirs}; the model says:\n{listing}"))
}

/// The place of the first number in which two rows differ, with what stands there in both.
fn first_difference(ours: &[u64], theirs: &[u64]) -> Option<(usize, u64, u64)> {
    let mut pairs = ours.iter().zip(theirs).enumerate();
    pairs.find(|(_, (ours, theirs))| ours != theirs).map(|(at, (&ours, &theirs))| (at, ours, theirs))
}

fn hex(bytes: &[u8]) -> String {
    bytes.iter().map(|byte| format!("{byte:02X}")).collect::<Vec<_>>().join(" ")
}

#[cfg(test)]
mod tests {
    use super::*;
    use crate::model::sheets::Entry;

    #[test]
    fn the_timed_versions_agree_with_the_model() {
        let layout = |_| Layout::OFTEN_CLOSED;
        assert!(each(1, 5_000, layout, |_, study| timed_versions_give(study, &model::forecast(study))));
    }

    /// Both totals of each segment of a study by the model, none where it is refused.
    fn totals(study: &[u8]) -> Option<Vec<(u64, u64)>> {
        let facility = model::run::<Entry>(study).ok()?;
        let reports = (1..=facility.segments()).filter_map(|i| facility.report(i).ok());
        Some(reports.map(|report| (report.total_off, report.total_y)).collect())
    }

    #[test]
    fn the_timed_versions_keep_the_models_totals() {
        let layout = |_| Layout::OFTEN_CLOSED;
        assert!(each(2, 2_000, layout, |_, study| {
            let expected = totals(study);
            match idiomatic::totals(study) == expected && tuned::totals(study) == expected {
                true => Ok(()),
                false => Err("the totals differ".into()),
            }
        }));
    }
}
