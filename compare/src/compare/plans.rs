//! The comparison of planning sheets: random chains of them, each sheet worked out by the engine's library and by the model; some
//! are also played by a program.

mod records;
mod tally;

use super::{first_difference, Progress};
use crate::engine::{self, planning::Planned};
use crate::model::planning::plan;
use crate::plans::numbers::{numbers, NUMBERS};
use crate::plans::{Carryover, Planner, Record};
use crate::random::plans::Chain;
use crate::random::Random;
pub use records::PROGRAM;
use tally::Tally;

/// Of so many sheets one is lent more places than it fills.
const SHEETS_OF_A_LONGER_BUFFER: u64 = 4;

/// Of so many sheets one is also played by the program.
const SHEETS_OF_A_RECORD: u64 = 10;

/// Compares `count` sheets, then a tenth of as many by the program; true where all were equal.
pub fn run(seed: u64, count: u64) -> bool {
    PROGRAM.is_made() && worked_out(seed, count) && records::run(seed, count.div_ceil(SHEETS_OF_A_RECORD))
}

fn worked_out(seed: u64, count: u64) -> bool {
    println!("comparing {count} random planning sheets, seed {seed}");
    let (mut tally, mut progress) = (Tally::default(), Progress::new());
    let compared = each(&mut Random::new(seed), count, |made, record, left| {
        let left = same(made, record, left, &mut tally)?;
        progress.tell(made + 1, "planning sheets");
        Ok(left)
    });
    match &compared {
        Err(difference) => println!("{difference}"),
        Ok(()) => {
            tally.print();
            println!("all {count} sheets equal, number by number; each refused by 7 in three shorter buffers,");
            println!("  {} of them worked out in a longer one", count.div_ceil(SHEETS_OF_A_LONGER_BUFFER));
        }
    }
    compared.is_ok()
}

/// Makes `count` sheets in chains: `play` gets how many were made before, the sheet and what the one before left, and gives what the
/// sheet leaves.
fn each(
    seeds: &mut Random,
    count: u64,
    mut play: impl FnMut(u64, &Record, &[u32]) -> Result<Vec<u32>, String>,
) -> Result<(), String> {
    let (mut made, mut left) = (0, Vec::new());
    while made < count {
        let mut chain = Chain::new(seeds.within(0, u64::MAX - 1));
        while let Some(record) = chain.next(&left).filter(|_| made < count) {
            left = play(made, &record, &left)?;
            made += 1;
        }
    }
    Ok(())
}

/// Has a sheet worked out by the model and by the engine; gives what the engine leaves.
fn same(made: u64, record: &Record, left: &[u32], tally: &mut Tally) -> Result<Vec<u32>, String> {
    let before = record.carryover.on(left);
    let mut after = before.to_vec();
    let plan = plan(&record.sheet, &mut after);
    tally.add(&plan, &record.carryover, left);
    let expected = Planned { numbers: numbers(&plan).to_vec(), carryover: after };
    engine_gives(made, &record.sheet, before, &expected).map_err(|difference| {
        let carryover = Carryover::Given(before.to_vec());
        let (_, lines) = Planner::new().play(&Record { carryover, ..record.clone() });
        format!("sheet {} differs: {difference}; the model says:\n{lines}", made + 1)
    })
}

/// Holds the engine against what is expected of a sheet on a carryover; gives what the engine leaves.
fn engine_gives(made: u64, sheet: &[u8], before: &[u32], expected: &Planned) -> Result<Vec<u32>, String> {
    let longer = if made % SHEETS_OF_A_LONGER_BUFFER == 0 { 1 + made as usize % 401 } else { 0 };
    let given = engine::planning::planned(sheet, before, NUMBERS + longer)?;
    if let Some((at, ours, theirs)) = first_difference(&expected.numbers, &given.numbers) {
        return Err(format!("out[{at}] should be {ours:#x} and the engine gives {theirs:#x}"));
    }
    if given.carryover != expected.carryover {
        return Err(format!("the engine leaves the carryover {:?}", given.carryover));
    }
    for places in [NUMBERS - 1, made as usize % NUMBERS, 0] {
        engine::planning::refuses_short_buffer(sheet, before, places)?;
    }
    Ok(given.carryover)
}

#[cfg(test)]
mod tests {
    use super::tally::Slowed;
    use super::*;

    /// What the model makes of sheets, and how many sections each of them has, none where it is refused.
    fn random_sheets(count: u64) -> (Tally, Vec<usize>) {
        let (mut tally, mut sections) = (Tally::default(), Vec::new());
        let made = each(&mut Random::new(1), count, |_, record, left| {
            let mut carryover = record.carryover.on(left).to_vec();
            let plan = plan(&record.sheet, &mut carryover);
            tally.add(&plan, &record.carryover, left);
            sections.push(plan.map_or(0, |plan| plan.sections.len()));
            Ok(carryover)
        });
        made.map(|()| (tally, sections)).unwrap()
    }

    #[test]
    fn random_sheets_are_of_each_kind() {
        let (tally, sections) = random_sheets(20_000);
        let Tally { accepted, refused, on_left, letters, free, slowed, queued } = tally;
        assert!(accepted > 10_000 && on_left.with_something > 1_000, "{accepted} accepted");
        let often = refused.iter().all(|(_, &count)| count > 50);
        assert!(often && refused.into_keys().eq([1, 2, 3, 4, 8, 15]));
        assert!(letters.into_keys().eq(b'A'..=b'F'));
        assert!(free > 10_000 && queued > 10_000, "{free} free sections, {queued} queued");
        for (ffs, Slowed { all, floored }) in slowed {
            assert!(all > 5_000, "{all} slowed sections of {ffs}");
            assert!(if ffs < 70 { floored == 0 } else { floored > 1_000 }, "{floored} floored ones of {ffs}");
        }
        let of = |count: usize| sections.iter().filter(|&&sections| sections == count).count();
        assert!(of(1) > 1_000 && of(4) > 1_000 && of(64) > 500);
    }

    #[test]
    fn another_number_is_a_difference() {
        let sheet = [0x01, 0xa0, 0x29, 0x03, 0x3c, 0xe8, 0x07, 0xf4, 0x2b, 0x00];
        let expected = |carryover: &mut Vec<u32>| numbers(&plan(&sheet, carryover)).to_vec();
        let mut carryover = vec![7];
        let expected = Planned { numbers: expected(&mut carryover), carryover };
        assert_eq!(engine_gives(0, &sheet, &[7], &expected), Ok(expected.carryover.clone()));
        for at in 0..NUMBERS {
            let mut other = expected.numbers.clone();
            other[at] ^= 1;
            let other = Planned { numbers: other, carryover: expected.carryover.clone() };
            assert!(engine_gives(1, &sheet, &[7], &other).is_err());
        }
        let other = Planned { carryover: vec![8], ..expected };
        assert!(engine_gives(1, &sheet, &[7], &other).is_err());
    }
}
