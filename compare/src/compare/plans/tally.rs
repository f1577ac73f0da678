//! How many planning sheets came to what, and how many of their sections.

use crate::compare::{by_letter, print_refused};
use crate::model::planning::section::{Answer, CURVES};
use crate::model::planning::Plan;
use crate::model::sheets::Refusal;
use crate::plans::Carryover;
use std::collections::BTreeMap;

#[derive(Default)]
pub struct Tally {
    pub accepted: u64,
    pub refused: BTreeMap<u64, u64>,
    pub on_left: OnLeft,
    pub letters: BTreeMap<u8, u64>,
    pub free: u64,
    /// By free-flow speed.
    pub slowed: BTreeMap<u64, Slowed>,
    pub queued: u64,
}

/// How many sheets on the carryover that the one before left.
#[derive(Default)]
pub struct OnLeft {
    all: u64,
    accepted: u64,
    /// The accepted ones where something was left.
    pub with_something: u64,
}

/// How many slowed sections, and of these the ones where the printed curve is below zero.
#[derive(Default)]
pub struct Slowed {
    pub all: u64,
    pub floored: u64,
}

impl Tally {
    /// Counts a sheet that was played on a carryover.
    pub fn add(&mut self, planned: &Result<Plan, Refusal>, given: &Carryover, left: &[u32]) {
        if *given == Carryover::Left {
            self.on_left.all += 1;
            self.on_left.accepted += u64::from(planned.is_ok());
            self.on_left.with_something += u64::from(planned.is_ok() && left.iter().any(|&number| number > 0));
        }
        match planned {
            Err(Refusal { number, .. }) => *self.refused.entry(*number).or_default() += 1,
            Ok(plan) => {
                self.accepted += 1;
                *self.letters.entry(plan.letter).or_default() += 1;
                self.add_sections(plan);
            }
        }
    }

    fn add_sections(&mut self, plan: &Plan) {
        for (section, answer) in plan.sections.iter().zip(&plan.answers) {
            match answer {
                Answer::Free { .. } => self.free += 1,
                Answer::Queued { .. } => self.queued += 1,
                Answer::Slowed { .. } => {
                    let slowed = self.slowed.entry(section.curve.ffs).or_default();
                    slowed.all += 1;
                    slowed.floored += u64::from(answer.is_floored());
                }
            }
        }
    }

    pub fn print(&self) {
        let OnLeft { all, accepted, with_something } = self.on_left;
        println!("accepted     {:>7}", self.accepted);
        println!("  by letter: {}", by_letter(&self.letters));
        println!("  {accepted} of {all} on the carryover that the sheet before left,");
        println!("  in {with_something} of these something was left");
        let slowed: u64 = self.slowed.values().map(|slowed| slowed.all).sum();
        println!("sections: {} free, {slowed} slowed, {} queued", self.free, self.queued);
        println!("slowed sections by free-flow speed, and how many of them the printed curve has below zero");
        for ffs in CURVES.iter().map(|curve| curve.ffs) {
            let none = Slowed::default();
            let Slowed { all, floored } = self.slowed.get(&ffs).unwrap_or(&none);
            println!("  {ffs} mi/h   {all:>7}  {floored:>7}");
        }
        print_refused(&self.refused);
    }
}
