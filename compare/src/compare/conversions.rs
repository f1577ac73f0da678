//! The comparison of conversions: random studies of either layout, converted by the engine and by the model. What the engine then
//! forecasts is held against the first rules.

use super::{each, engine_gives, print_refused};
use crate::model::convert::{self, Way};
use crate::model::facility::{Facility, MOST_PERIODS};
use crate::model::{self, first, sheets::Refusal};
use crate::outcome::Outcome;
use crate::random::Layout;
use crate::{engine, random::Random};
use std::collections::BTreeMap;

/// More than any study takes.
const AMPLE: usize = 33_000;

/// A converted study, run by the first rules in its first layout; or the refusal.
type Run = Result<Facility<first::Entry>, Refusal>;

/// How many studies came to what.
#[derive(Default)]
struct Tally {
    converted: u64,
    without_sheets: u64,
    most_sheets: u64,
    mainline_queue: u64,
    refused: BTreeMap<u64, u64>,
}

impl Tally {
    fn add(&mut self, run: &Run) {
        match run {
            Err(refusal) => *self.refused.entry(refusal.number).or_default() += 1,
            Ok(facility) => {
                self.converted += 1;
                self.without_sheets += u64::from(facility.periods() == 0);
                self.most_sheets += u64::from(facility.periods() == MOST_PERIODS);
                self.mainline_queue += u64::from(facility.origin() > 0);
            }
        }
    }

    fn print(&self) {
        println!("converted    {:>7}", self.converted);
        println!("  of which {} have no sheet, {} have {MOST_PERIODS}", self.without_sheets, self.most_sheets);
        println!("  {} end with a mainline queue", self.mainline_queue);
        print_refused(&self.refused);
    }
}

/// Compares the conversions of `count` studies of the first layout, then of as many of the second; true where all were equal.
pub fn run(seed: u64, count: u64) -> bool {
    // half of the second layout's studies have every lane open
    let second = [Layout::OPEN, Layout::RARELY_CLOSED, Layout::OPEN, Layout::OFTEN_CLOSED];
    converted(Way::ToSecond, seed, count, |_| Layout::First)
        && converted(Way::ToFirst, seed, count, |made| second[made as usize % second.len()])
}

fn converted(way: Way, seed: u64, count: u64, layout: impl Fn(u64) -> Layout) -> bool {
    let (from, to) = match way {
        Way::ToSecond => ("first", "second"),
        Way::ToFirst => ("second", "first"),
    };
    println!("converting {count} random studies of the {from} layout to the {to}, seed {seed}");
    let mut tally = Tally::default();
    let equal = each(seed, count, layout, |made, study| {
        tally.add(&same(way, study, made)?);
        Ok(())
    });
    if equal {
        tally.print();
        println!("all {count} studies equal, byte by byte, and number by number when forecast");
    }
    equal
}

/// Holds the engine's conversion of a study against the model's, there and back and with little room, and its forecast of the second
/// layout against the first rules' of the first.
pub fn same(way: Way, study: &[u8], seed: u64) -> Result<Run, String> {
    match alike(way, study, AMPLE)? {
        Err(refusal) => {
            if alike(way, study, 0)?.as_ref() != Err(&refusal) {
                return Err(format!("{way} without room is not refused by {} as with room", refusal.number));
            }
            refused_alike(way, study, &refusal)?;
            Ok(Err(refusal))
        }
        Ok(converted) => {
            enough_room_and_less(way, study, converted.len(), seed)?;
            if alike(way.back(), &converted, study.len())?.as_deref() != Ok(study) {
                return Err("the study does not come back from its conversion".into());
            }
            let (in_first, in_second) = match way {
                Way::ToSecond => (study, &converted[..]),
                Way::ToFirst => (&converted[..], study),
            };
            let run = model::run(in_first);
            engine_gives(in_second, &model::outcome(&run))?;
            Ok(run)
        }
    }
}

/// What a target of `room` bytes gets for a study, where the engine and the model agree on it.
pub fn alike(way: Way, study: &[u8], room: usize) -> Result<Result<Vec<u8>, Refusal>, String> {
    let expected = convert::convert(way, study, room);
    let given = engine::convert(way, study, room)?;
    if given == expected {
        return Ok(expected);
    }
    let told = |converted: &Result<Vec<u8>, Refusal>| match converted {
        Ok(bytes) => super::hex(bytes),
        Err(refusal) => refusal.to_string(),
    };
    let (expected, given) = (told(&expected), told(&given));
    Err(format!("{way} with room for {room} bytes should give\n{expected}\nand the engine gives\n{given}"))
}

/// The `length` that the converted study has is room enough; one byte less, none, and something between are refused by 7.
fn enough_room_and_less(way: Way, study: &[u8], length: usize, seed: u64) -> Result<(), String> {
    if alike(way, study, length)?.is_err() {
        return Err(format!("{way} is refused with room for {length} bytes, which are enough"));
    }
    let between = Random::new(seed).within(0, length as u64 - 1) as usize;
    for room in [length - 1, between, 0] {
        if alike(way, study, room)? != Err(Refusal::plain(7)) {
            return Err(format!("{way} with room for {room} bytes, which are too few, is not refused by 7 at 0"));
        }
    }
    Ok(())
}

/// A study that is refused but for closed lanes is refused by its rules too: the first by the model, the second by the engine.
fn refused_alike(way: Way, study: &[u8], refusal: &Refusal) -> Result<(), String> {
    let expected = Outcome::Refused { number: refusal.number, place: refusal.offset as u64 };
    match way {
        Way::ToFirst if refusal.number == 16 => Ok(()),
        Way::ToFirst => engine_gives(study, &expected),
        Way::ToSecond => {
            let by_the_rules = model::outcome(&model::run::<first::Entry>(study));
            if by_the_rules == expected {
                return Ok(());
            }
            Err(format!("the first rules do not say {}but\n{}", expected.listing(), by_the_rules.listing()))
        }
    }
}
