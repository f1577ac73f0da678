//! The comparison of letters period by period: random studies, the table of each and the picture of some, printed by the program
//! `studies_check` and held against the model.

mod picture;
mod tally;

use super::program::Program;
use crate::calls::hex;
use crate::course::Course;
use crate::model;
use crate::model::sheets::Refusal;
use crate::random::{self, Layout, Random};
use tally::Tally;

pub const PROGRAM: Program = Program("studies_check");

/// So many letters or a few more are printed by one process, in whole studies.
const LETTERS_OF_A_PROCESS: u64 = 20_000;

/// Of so many studies one is drawn too.
const STUDIES_OF_A_PICTURE: u64 = 20;

/// Every record's name, which the program prints on a line before the answer. No line of a table or a picture ends like it.
const NAME: &str = "study\n";

/// A study for the program, what the model makes of it, and whether it is drawn too.
struct Asked {
    study: Vec<u8>,
    course: Result<Course, Refusal>,
    drawn: bool,
}

impl Asked {
    /// The lines for the program.
    fn records(&self) -> String {
        let (name, study) = (NAME.trim_end(), hex(&self.study));
        let table = format!("{name} letters {study}\n");
        match self.drawn {
            true => format!("{table}{name} contour {study}\n"),
            false => table,
        }
    }

    /// Holds the next of the program's answers against the model's.
    fn same<'a>(&self, answers: &mut impl Iterator<Item = &'a str>) -> Result<(), String> {
        let mut next = || answers.next().unwrap_or_default();
        let table = match &self.course {
            Ok(course) => course.table(),
            Err(refusal) => format!("{refusal}\n"),
        };
        same_text(&table, next())?;
        match &self.course {
            _ if !self.drawn => Ok(()),
            Ok(course) => picture::same(course, next()),
            Err(_) => same_text(&table, next()),
        }
    }
}

fn same_text(expected: &str, given: &str) -> Result<(), String> {
    match given == expected {
        true => Ok(()),
        false => Err(format!("the model says\n{expected}and the program\n{given}")),
    }
}

/// Compares `count` letters or a few more, in whole studies; true where all were equal.
pub fn run(seed: u64, count: u64) -> bool {
    let mut tally = Tally::default();
    let equal = PROGRAM.compare(seed, count, "letters of random studies", |seeds, most| {
        let before = tally.all_letters();
        let asked = asked(seeds, most.min(LETTERS_OF_A_PROCESS), &mut tally);
        let records: String = asked.iter().map(Asked::records).collect();
        same(&asked, &PROGRAM.printed(&records)?)?;
        Ok(tally.all_letters() - before)
    });
    if equal {
        tally.print();
        println!("all {} letters equal, table by table, and all {} cells", tally.all_letters(), tally.cells);
    }
    equal
}

/// The studies of one process, by the model: so many letters, or a few more.
fn asked(seeds: &mut Random, letters: u64, tally: &mut Tally) -> Vec<Asked> {
    let end = tally.all_letters() + letters;
    let mut asked = Vec::new();
    while tally.all_letters() < end {
        let study = random::study(seeds.within(0, u64::MAX - 1), Layout::OFTEN_CLOSED);
        let course = model::course(&study);
        let drawn = tally.studies % STUDIES_OF_A_PICTURE == 0;
        tally.add(&course, drawn);
        asked.push(Asked { study, course, drawn });
    }
    asked
}

/// Holds what the program prints against the model's answers.
fn same(asked: &[Asked], printed: &str) -> Result<(), String> {
    let mut answers = printed.split(NAME);
    same_text("", answers.next().unwrap_or_default())?;
    for one in asked {
        one.same(&mut answers).map_err(|difference| {
            let study = hex(&one.study);
            format!("a study differs, its bytes: {study}\n{difference}")
        })?;
    }
    match answers.next() {
        None => Ok(()),
        Some(answer) => Err(format!("the studies are equal, and after the last of them the program prints\n{answer}")),
    }
}

#[cfg(test)]
mod tests {
    use super::*;

    #[test]
    fn random_studies_are_of_each_kind() {
        let (mut tally, mut seeds) = (Tally::default(), Random::new(1));
        while tally.studies < 4_000 {
            asked(&mut seeds, 1_000, &mut tally);
        }
        let Tally { studies, roads_alone, refused, periods, letters, closed, drawn, cells } = tally;
        assert!(roads_alone > 50 && periods > 4_000, "{roads_alone} roads alone, {periods} periods");
        assert!(letters.values().all(|&count| count > 1_000) && letters.into_keys().eq(b'A'..=b'F'));
        assert!(closed > 1_000, "{closed} letters of segments with a closed lane");
        assert!(refused.values().sum::<u64>() > studies / 5);
        assert!([1, 2, 3, 4, 13, 14].iter().all(|number| refused.contains_key(number)), "refused by {refused:?}");
        assert!(drawn > 50 && cells > 2_000, "{drawn} pictures of {cells} cells");
    }

    /// Some studies, none of them drawn, with what is to be printed for them.
    fn some() -> (Vec<Asked>, String) {
        let mut tally = Tally { studies: 1, ..Tally::default() };
        let asked = asked(&mut Random::new(1), 100, &mut tally);
        let table = |one: &Asked| one.course.as_ref().map_or_else(|refusal| format!("{refusal}\n"), Course::table);
        let printed = asked.iter().map(|one| NAME.to_string() + &table(one)).collect();
        (asked, printed)
    }

    #[test]
    fn another_table_is_a_difference() {
        let (asked, printed) = some();
        assert_eq!(same(&asked, &printed), Ok(()));
        let others = [
            printed[..printed.len() - 1].into(),
            printed.replace(" A", " B"),
            printed.replacen("study", "other", 1),
            format!("{printed}more\n"),
            format!("{printed}{NAME}"),
            format!("more\n{printed}"),
            String::new(),
        ];
        assert!(others.iter().all(|other| same(&asked, other).is_err()));
    }
}
