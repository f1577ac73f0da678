//! Planning sheets played by the program `planning_check`, what it prints held against the model's lines.

use super::each;
use crate::compare::program::Program;
use crate::plans::Planner;
use crate::random::Random;

pub const PROGRAM: Program = Program("planning_check");

/// So many sheets at most are played by one process.
const SHEETS_OF_A_PROCESS: u64 = 4_000;

/// A sheet as a line for the program, with the model's answer.
type Played = (String, String);

/// Compares `count` sheets; true where all were equal.
pub fn run(seed: u64, count: u64) -> bool {
    let equal = PROGRAM.compare(seed, count, "random planning sheets as records", |seeds, most| {
        let sheets = played(seeds, most)?;
        let lines: String = sheets.iter().map(|(record, _)| format!("{record}\n")).collect();
        same(&sheets, &PROGRAM.printed(&lines)?, count - most)?;
        Ok(sheets.len() as u64)
    });
    if equal {
        println!("all {count} records equal, line by line");
    }
    equal
}

/// The sheets of one process, up to so many, played by the model.
fn played(seeds: &mut Random, most: u64) -> Result<Vec<Played>, String> {
    let mut planner = Planner::new();
    let mut sheets = Vec::new();
    each(seeds, most.min(SHEETS_OF_A_PROCESS), |_, record, _| {
        let (_, answer) = planner.play(record);
        sheets.push((record.to_string(), answer));
        Ok(planner.left().to_vec())
    })?;
    Ok(sheets)
}

/// Holds what the program prints against the model's answers; so many sheets were played before.
fn same(sheets: &[Played], mut printed: &str, before: u64) -> Result<(), String> {
    for (number, (record, expected)) in (before + 1..).zip(sheets) {
        let (given, more) = printed.split_at(length_of_answer(printed));
        if given != expected {
            return Err(format!(
                "sheet {number} differs, its record:\n{record}\nthe model says\n{expected}and the program\n{given}"
            ));
        }
        printed = more;
    }
    match printed {
        "" => Ok(()),
        _ => Err(format!("the sheets are equal, and after the last of them the program prints\n{printed}")),
    }
}

/// How long the first answer of what is printed is: a line, and one for each section.
fn length_of_answer(printed: &str) -> usize {
    let mut lines = printed.split_inclusive('\n');
    let first = lines.next().map_or(0, str::len);
    first + lines.take_while(|line| line.starts_with("  ")).map(str::len).sum::<usize>()
}

#[cfg(test)]
mod tests {
    use super::*;

    #[test]
    fn another_line_is_a_difference() {
        let sheets = played(&mut Random::new(1), 4_000).unwrap();
        let printed: String = sheets.iter().map(|(_, answer)| answer.as_str()).collect();
        assert_eq!(same(&sheets, &printed, 0), Ok(()));
        let end = printed.rfind("\n  1 ").expect("some sheet is accepted");
        let others = [&printed[..end], &printed[..printed.len() - 1], &printed.replace("  1 free", "  1 slowed")];
        for other in others.map(String::from).into_iter().chain([printed.clone() + "more\n"]) {
            assert!(same(&sheets, &other, 0).is_err());
        }
    }
}
