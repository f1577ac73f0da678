//! Planning sheets and what they give, by the model, and on lines as the program `planning_check` prints them:
//! `name SHEET carry CARRYOVER -> answer`, then a line for each section. An f64 stands as the 16 hexadecimal digits of its bits.

pub mod numbers;

use crate::calls::{bytes, hex};
use crate::model::planning::section::Answer;
use crate::model::planning::{plan, Plan};
use crate::model::sheets::Refusal;
use std::fmt::{Display, Formatter};
use std::str::FromStr;

/// A planning sheet with the carryover that it is to have.
#[derive(Clone, Debug)]
pub struct Record {
    pub name: String,
    pub sheet: Vec<u8>,
    pub carryover: Carryover,
}

#[derive(Clone, Debug, PartialEq)]
pub enum Carryover {
    Given(Vec<u32>),
    /// What the sheet before left.
    Left,
}

impl Carryover {
    /// Its numbers, where the sheet before left these.
    pub fn on<'a>(&'a self, left: &'a [u32]) -> &'a [u32] {
        match self {
            Carryover::Given(numbers) => numbers,
            Carryover::Left => left,
        }
    }
}

/// Plays sheets, one after the other.
pub struct Planner {
    carryover: Vec<u32>,
}

impl Planner {
    pub fn new() -> Planner {
        Planner { carryover: Vec::new() }
    }

    /// What the last sheet left.
    pub fn left(&self) -> &[u32] {
        &self.carryover
    }

    /// What a record's sheet gives, and the lines that tell it.
    pub fn play(&mut self, record: &Record) -> (Result<Plan, Refusal>, String) {
        let Record { name, sheet, carryover } = record;
        self.carryover = carryover.on(&self.carryover).to_vec();
        let start = format!("{name} {} carry {}", hex(sheet), list(&self.carryover));
        let planned = plan(sheet, &mut self.carryover);
        let told = match &planned {
            Ok(plan) => told(plan, &self.carryover),
            Err(refusal) => format!("{refusal}\n"),
        };
        (planned, format!("{start} -> {told}"))
    }
}

/// An accepted sheet's lines, the first after its record.
fn told(plan: &Plan, carryover: &[u32]) -> String {
    let Plan { used, density, letter, .. } = plan;
    let (density, letter, left) = (bits(*density), char::from(*letter), list(carryover));
    let sections = (1..).zip(&plan.answers).map(|(number, answer)| format!("  {number} {answer}\n"));
    format!("ok used {used} density {density} letter {letter} carry {left}\n{}", sections.collect::<String>())
}

fn bits(number: f64) -> String {
    format!("{:016x}", number.to_bits())
}

/// Numbers with commas between them, `-` for none.
fn list(numbers: &[u32]) -> String {
    match numbers {
        [] => "-".into(),
        _ => numbers.iter().map(u32::to_string).collect::<Vec<_>>().join(","),
    }
}

impl Display for Answer {
    fn fmt(&self, f: &mut Formatter) -> std::fmt::Result {
        let (name, numbers) = match *self {
            Answer::Free { speed, density } => ("free", vec![speed, density]),
            Answer::Slowed { under, speed, density } => ("slowed", vec![under, speed, density]),
            Answer::Queued { under, over, speed, density } => ("queued", vec![under, over, speed, density]),
        };
        write!(f, "{name} {}", numbers.into_iter().map(bits).collect::<Vec<_>>().join(" "))
    }
}

impl Display for Record {
    fn fmt(&self, f: &mut Formatter) -> std::fmt::Result {
        let Record { name, sheet, carryover } = self;
        let carryover = match carryover {
            Carryover::Given(numbers) => list(numbers),
            Carryover::Left => "=".into(),
        };
        write!(f, "{name} {} carry {carryover}", hex(sheet))
    }
}

impl FromStr for Record {
    type Err = String;

    fn from_str(text: &str) -> Result<Record, String> {
        let words: Vec<&str> = text.split(' ').collect();
        let [name, sheet, "carry", carryover] = words[..] else {
            return Err(format!("`{text}` is no planning sheet with its carryover"));
        };
        Ok(Record { name: name.into(), sheet: bytes(sheet)?, carryover: carryover.parse()? })
    }
}

impl FromStr for Carryover {
    type Err = String;

    fn from_str(text: &str) -> Result<Carryover, String> {
        let numbers = match text {
            "=" => return Ok(Carryover::Left),
            "-" => Some(Vec::new()),
            _ => text.split(',').map(|number| number.parse().ok()).collect(),
        };
        numbers.map(Carryover::Given).ok_or(format!("`{text}` is no carryover"))
    }
}

#[cfg(test)]
mod tests {
    use super::*;

    /// The model's lines for records.
    fn played(records: &[String]) -> String {
        let mut planner = Planner::new();
        records.iter().map(|record| planner.play(&record.parse().unwrap()).1).collect()
    }

    #[test]
    fn records_are_read_as_they_are_printed() {
        for line in ["a 01 carry -", "- - carry =", "road1-period0 01a0 carry 0", "b ff carry 1,4294967295,0"] {
            assert_eq!(line.parse::<Record>().unwrap().to_string(), line);
        }
        for line in ["", "a 01", "a 01 carry", "a 01 carry 0,", "a 01 carry 4294967296", "a 01 left -", "a 1 carry 0"] {
            assert!(line.parse::<Record>().is_err(), "{line}");
        }
    }

    const TWO: &str = "02a0290346e807d01402418407a01f00f403ac02";

    #[test]
    fn refused_sheets() {
        for (record, refusal) in [
            ("- carry 0,0".into(), "1 0"),
            (format!("{} carry 0,0", &TWO[..38]), "1 18"),
            ("02ffffffff100346e807d01402418407a01f00f403ac02 carry 0,0".into(), "2 1"),
            ("02a081000346e807d01402418407a01f00f403ac02 carry 0,0".into(), "3 1"),
            ("01a0290347e8070101 carry 0".into(), "4 4"),
            ("00 carry -".into(), "4 0"),
            ("41 carry -".into(), "4 0"),
            (format!("{TWO} carry 0"), "8 0"),
            (format!("{TWO} carry 0,0,0"), "8 0"),
            (format!("{TWO} carry 1000000,0"), "15 0"),
            (format!("{TWO} carry 4294967295,4294967295"), "15 0"),
            ("01a0290346e8070102 carry 0".into(), "15 0"),
        ] {
            assert_eq!(played(&[format!("a {record}")]), format!("a {record} -> refused {refusal}\n"));
        }
    }

    #[test]
    fn a_sheet_of_two_sections() {
        let record = "two 02fbb301034b8407970a064bcd07d8158f01b705b401 carry 0,0";
        let answer = " -> ok used 22 density 4026729e5a3edf9a letter B carry 0,0
  1 free 4052c00000000000 40276789abcdf013
  2 free 4052c00000000000 401bfb72ea61d951
";
        assert_eq!(played(&[record.into()]), format!("{record}{answer}"));
    }

    #[test]
    fn sheets_go_on_with_what_the_one_before_left() {
        let first = "ok used 12 density 4060dd9ae90df01d letter F carry 1183
  1 queued 4024c7ae147ae13f 40569cab086e4452 403661fdc9613f36 4060dd9ae90df01d
";
        let second = "ok used 12 density 409d383ab0a332ad letter F carry 8016
  1 queued 4024c7ae147ae13f 408326ff3a6d68d3 4015134632a1d793 409d383ab0a332ad
";
        let mut planner = Planner::new();
        // the second lets out one more than there are
        for (flows, carryover, before, answer) in [
            ("d8198c02", "0", "0", first),
            ("00a009", "=", "1183", "refused 15 0\n"),
            ("ce45f001", "=", "1183", second),
        ] {
            let record = format!("a 01958401013c9f06{flows} carry");
            let (_, lines) = planner.play(&format!("{record} {carryover}").parse().unwrap());
            assert_eq!(lines, format!("{record} {before} -> {answer}"));
        }
    }
}
