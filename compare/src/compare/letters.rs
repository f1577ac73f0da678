//! The comparison of level letters: random segments, each letter told by the program `levels_check` and by the model.

use super::by_letter;
use super::program::Program;
use crate::model::step::letter_of;
use crate::random::letters::Graded;
use crate::random::Random;
use std::collections::BTreeMap;

pub const PROGRAM: Program = Program("levels_check");

/// So many letters at most are told by one process.
const LETTERS_OF_A_PROCESS: u64 = 30_000;

/// A segment as a line for the program, and that line with the model's letter.
type Line = (String, String);

/// How many segments came to what.
#[derive(Default)]
struct Tally {
    letters: BTreeMap<u8, u64>,
    /// The ones at the largest n of their letter, and those one part above that of the letter before.
    at_largest: u64,
    above_largest: u64,
    /// The ones whose product with the limit 45 is more than 64 bits hold.
    beyond: u64,
}

impl Tally {
    /// Counts a segment; gives its letter.
    fn add(&mut self, Graded { n, length, lanes }: Graded) -> u8 {
        let letter = letter_of(n, length, lanes);
        *self.letters.entry(letter).or_default() += 1;
        self.at_largest += u64::from(letter_of(n + 1, length, lanes) != letter);
        self.above_largest += u64::from(n > 0 && letter_of(n - 1, length, lanes) != letter);
        self.beyond += u64::from(u64::checked_mul(45, length * lanes).is_none());
        letter
    }

    fn print(&self) {
        println!("letters: {}", by_letter(&self.letters));
        println!(
            "  {} at the largest n of their letter, {} one part above the largest of another",
            self.at_largest, self.above_largest
        );
        println!("  {} whose product with the limit 45 is more than 64 bits hold", self.beyond);
    }
}

/// Compares `count` letters; true where all were equal.
pub fn run(seed: u64, count: u64) -> bool {
    let mut tally = Tally::default();
    let equal = PROGRAM.compare(seed, count, "letters of random segments", |seeds, most| {
        let lines = lines(seeds, most.min(LETTERS_OF_A_PROCESS), &mut tally);
        let asked: String = lines.iter().map(|(line, _)| format!("{line}\n")).collect();
        same(&lines, &PROGRAM.printed(&asked)?)?;
        Ok(lines.len() as u64)
    });
    if equal {
        tally.print();
        println!("all {count} letters equal");
    }
    equal
}

/// So many segments with the model's letters.
fn lines(seeds: &mut Random, count: u64, tally: &mut Tally) -> Vec<Line> {
    let one = |_| {
        let segment @ Graded { n, length, lanes } = Graded::new(seeds);
        let line = format!("letter {n} {length} {lanes}");
        let answer = format!("{line} -> {}", char::from(tally.add(segment)));
        (line, answer)
    };
    (0..count).map(one).collect()
}

/// Holds what the program prints against the model's letters.
fn same(lines: &[Line], printed: &str) -> Result<(), String> {
    let mut printed = printed.split('\n');
    for (_, expected) in lines {
        let given = printed.next().unwrap_or_default();
        if given != expected {
            return Err(format!("a letter differs, the model says\n{expected}\nand the program\n{given}"));
        }
    }
    match printed.collect::<Vec<_>>()[..] {
        [""] => Ok(()),
        _ => Err("the letters are equal, and what the program prints after the last one differs".into()),
    }
}

#[cfg(test)]
mod tests {
    use super::*;

    #[test]
    fn random_segments_are_of_each_kind() {
        let mut tally = Tally::default();
        lines(&mut Random::new(1), 20_000, &mut tally);
        let Tally { letters, at_largest, above_largest, beyond } = tally;
        assert!(letters.values().all(|&count| count > 500) && letters.into_keys().eq(b'A'..=b'F'));
        assert!(at_largest > 2_000 && above_largest > 2_000 && beyond > 1_000, "{at_largest} {above_largest} {beyond}");
    }

    #[test]
    fn another_letter_is_a_difference() {
        let lines = lines(&mut Random::new(1), 3, &mut Tally::default());
        let printed: String = lines.iter().map(|(_, answer)| format!("{answer}\n")).collect();
        assert_eq!(same(&lines, &printed), Ok(()));
        let others = [&printed[..printed.len() - 1], &printed.replace("> ", "> not "), &format!("{printed}more\n")];
        assert!(others.iter().all(|other| same(&lines, other).is_err()));
    }
}
