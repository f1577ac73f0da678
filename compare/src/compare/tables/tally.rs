//! How many studies, periods and letters came to what.

use crate::compare::{by_letter, print_refused};
use crate::course::Course;
use crate::model::sheets::Refusal;
use std::collections::BTreeMap;

#[derive(Default)]
pub struct Tally {
    pub studies: u64,
    /// The accepted ones without a period.
    pub roads_alone: u64,
    pub refused: BTreeMap<u64, u64>,
    pub periods: u64,
    pub letters: BTreeMap<u8, u64>,
    /// The letters of segments with a closed lane.
    pub closed: u64,
    /// The accepted studies that are drawn too, and the cells of their pictures.
    pub drawn: u64,
    pub cells: u64,
}

impl Tally {
    pub fn add(&mut self, course: &Result<Course, Refusal>, drawn: bool) {
        self.studies += 1;
        match course {
            Err(Refusal { number, .. }) => *self.refused.entry(*number).or_default() += 1,
            Ok(course) => self.add_accepted(course, drawn),
        }
    }

    fn add_accepted(&mut self, course: &Course, drawn: bool) {
        self.roads_alone += u64::from(course.rows.is_empty());
        self.periods += course.rows.len() as u64;
        self.drawn += u64::from(drawn);
        for cell in course.cells() {
            *self.letters.entry(cell.mark.letter).or_default() += 1;
            self.closed += u64::from(cell.is_closed());
            self.cells += u64::from(drawn);
        }
    }

    pub fn all_letters(&self) -> u64 {
        self.letters.values().sum()
    }

    pub fn print(&self) {
        let refused: u64 = self.refused.values().sum();
        println!("studies      {:>7}", self.studies);
        println!("  of which {refused} are refused, {} are a road alone", self.roads_alone);
        println!("  {} are drawn too, with {} cells", self.drawn, self.cells);
        println!("periods      {:>7}", self.periods);
        println!("letters: {}", by_letter(&self.letters));
        println!("  {} of segments with a closed lane", self.closed);
        print_refused(&self.refused);
    }
}
