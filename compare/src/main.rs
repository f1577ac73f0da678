//! Compares the forecast engine and its planning sheet with an independent model of the rules, and times it against two versions in
//! Rust.

mod bench;
mod calls;
mod compare;
mod course;
mod engine;
mod fixtures;
mod idiomatic;
mod model;
mod outcome;
mod plans;
mod random;
mod tuned;

use std::path::PathBuf;
use std::process::ExitCode;

const SEED: u64 = 1;
const COUNT: u64 = 300_000;

const USAGE: &str = "arguments:
  [SEED [COUNT]]         compare random studies, then conversions of as many of either layout, then as many level letters, then as
                         many letters of studies period by period, then as many answers to lists of calls, then as many planning
                         sheets
  letters [SEED [COUNT]] compare level letters of random segments alone
  tables [SEED [COUNT]]  compare letters of random studies period by period alone, in tables and pictures
  lists [SEED [COUNT]]   compare answers to random lists of calls alone
  sheets [SEED [COUNT]]  compare random planning sheets alone
  check [FOLDER..]       check studies and their listings (../studies, ../studies/first), traces, lists of calls, conversions;
                         what is in a folder named `first` is of the first layout, in one named `planning` planning sheets
  bench                  time the engine against two versions in Rust";

fn main() -> ExitCode {
    let arguments: Vec<String> = std::env::args().skip(1).collect();
    let words: Vec<&str> = arguments.iter().map(String::as_str).collect();
    let well = match words[..] {
        [] => check(&[]) && compare(SEED, COUNT),
        ["bench"] => bench::run(),
        ["check", ref folders @ ..] => check(folders),
        ["letters", ref numbers @ ..] => by_numbers(numbers, compare::letters::run),
        ["tables", ref numbers @ ..] => by_numbers(numbers, compare::tables::run),
        ["lists", ref numbers @ ..] => by_numbers(numbers, compare::lists::run),
        ["sheets", ref numbers @ ..] => by_numbers(numbers, compare::plans::run),
        ref numbers => by_numbers(numbers, compare),
    };
    ExitCode::from(u8::from(!well))
}

/// Makes a comparison by the seed and the count that are given, or else by the usual ones.
fn by_numbers(words: &[&str], compare: fn(u64, u64) -> bool) -> bool {
    let numbers: Option<Vec<u64>> = words.iter().map(|word| word.parse().ok()).collect();
    match numbers.as_deref() {
        Some([]) => compare(SEED, COUNT),
        Some([seed]) => compare(*seed, COUNT),
        Some([seed, count]) => compare(*seed, *count),
        _ => {
            eprintln!("{USAGE}");
            false
        }
    }
}

/// Compares the forecasts of so many studies, then the conversions of as many of either layout, then as many level letters, then as
/// many letters of studies period by period, then as many answers to calls, then as many planning sheets.
fn compare(seed: u64, count: u64) -> bool {
    compare::letters::PROGRAM.is_made()
        && compare::tables::PROGRAM.is_made()
        && compare::lists::PROGRAM.is_made()
        && compare::plans::PROGRAM.is_made()
        && compare::run(seed, count)
        && compare::conversions::run(seed, count)
        && compare::letters::run(seed, count)
        && compare::tables::run(seed, count)
        && compare::lists::run(seed, count)
        && compare::plans::run(seed, count)
}

/// Checks the files of the folders, by default the repository's studies.
fn check(folders: &[&str]) -> bool {
    let folders: Vec<PathBuf> = match folders {
        [] => fixtures::STUDIES.map(PathBuf::from).to_vec(),
        _ => folders.iter().map(PathBuf::from).collect(),
    };
    let checked = fixtures::check(&folders);
    let (Ok(said) | Err(said)) = &checked;
    println!("{said}");
    checked.is_ok()
}
