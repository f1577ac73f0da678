//! The comparison of lists of calls: random lists on random roads, each call answered by the program `calls` and by the model.

use super::program::Program;
use super::{print_refused, PartFeet};
use crate::calls::{told, Answer, Call, Player};
use crate::model::facility::{Facility, MOST_PERIODS};
use crate::model::sheets::Refusal;
use crate::random::calls::List;
use crate::random::Random;
use std::collections::BTreeMap;

pub const PROGRAM: Program = Program("calls");

/// So many calls or a few more are played by one process, in whole lists.
const CALLS_OF_A_PROCESS: u64 = 4_000;

/// The calls of one list, as lines, with the model's answers.
type Played = Vec<(String, String)>;

/// How many calls came to what.
#[derive(Default)]
struct Tally {
    lists: u64,
    /// By name, the accepted and the refused ones.
    calls: BTreeMap<&'static str, (u64, u64)>,
    refused: BTreeMap<u64, u64>,
    days: u64,
    repeats: Repeats,
    off: u64,
    undivided: u64,
    /// Of each accepted report.
    part_feet: PartFeet,
}

/// How many takings of no bytes, which repeat the sheet in force, came to what.
#[derive(Default)]
struct Repeats {
    accepted: u64,
    /// The accepted ones of a sheet that closes a lane.
    closed_lane: u64,
    refused: BTreeMap<u64, u64>,
}

impl Repeats {
    fn add(&mut self, answer: &Result<Answer, Refusal>, facility: Option<&Facility>) {
        match answer {
            Ok(_) => {
                self.accepted += 1;
                self.closed_lane += u64::from(facility.is_some_and(Facility::has_closed_lane));
            }
            Err(Refusal { number, .. }) => *self.refused.entry(*number).or_default() += 1,
        }
    }

    fn print(&self) {
        println!("of the accepted takes {} repeat the sheet in force,", self.accepted);
        println!("  {} of these one that closes a lane;", self.closed_lane);
        let refused = self.refused.iter().map(|(number, count)| format!("{number} {count}"));
        println!("  repeats refused by number: {}", refused.collect::<Vec<_>>().join(", "));
    }
}

impl Tally {
    /// Counts a call's answer; the facility is as the call left it.
    fn add(&mut self, call: &Call, answer: &Result<Answer, Refusal>, facility: Option<&Facility>) {
        if matches!(call, Call::Take(bytes) if bytes.is_empty()) {
            self.repeats.add(answer, facility);
        }
        let (accepted, refused) = self.calls.entry(call.name()).or_default();
        if let Err(Refusal { number, .. }) = answer {
            *refused += 1;
            *self.refused.entry(*number).or_default() += 1;
            return;
        }
        *accepted += 1;
        let Some(facility) = facility else { return };
        match (call, answer) {
            (Call::Take(_), _) => self.days += u64::from(facility.periods() == MOST_PERIODS),
            (Call::Report(segment), Ok(Answer::Report(report))) => {
                let share = facility.road().segments[*segment as usize - 1].share;
                let off = report.total_off > 0;
                self.off += u64::from(off);
                self.undivided += u64::from(off && report.total_y * share % 1000 > 0);
                self.part_feet.add(report.part_feet);
            }
            _ => {}
        }
    }

    fn print(&self) {
        println!("{} lists, in {} of them {MOST_PERIODS} periods", self.lists, self.days);
        println!("              accepted  refused");
        for (name, (accepted, refused)) in &self.calls {
            println!("{name:<12}   {accepted:>7}  {refused:>7}");
        }
        self.repeats.print();
        println!("of the accepted reports {} have a total-off above 0;", self.off);
        println!("  of these {} a total-y whose share is no whole number of parts;", self.undivided);
        let PartFeet { above_zero, above_32_bits, most } = self.part_feet;
        println!("  {above_zero} have part-feet above 0, {above_32_bits} of these above 32 bits, at most {most}");
        print_refused(&self.refused);
    }
}

/// Compares `count` answers; true where all were equal.
pub fn run(seed: u64, count: u64) -> bool {
    let mut tally = Tally::default();
    let equal = PROGRAM.compare(seed, count, "answers to random lists of calls", |seeds, most| {
        let lists = played(seeds, most, &mut tally);
        same(&lists)?;
        Ok(calls_of(&lists))
    });
    if equal {
        tally.print();
        println!("all {count} answers equal, line by line");
    }
    equal
}

fn calls_of(lists: &[Played]) -> u64 {
    lists.iter().map(|list| list.len() as u64).sum()
}

/// The lists of one process, up to so many calls, played by the model. The facility goes on from list to list, as it does in the
/// process; so all but the first list begin with a laying.
fn played(seeds: &mut Random, most: u64, tally: &mut Tally) -> Vec<Played> {
    let mut player = Player::new();
    let mut lists: Vec<Played> = Vec::new();
    let mut calls = 0;
    while calls < most.min(CALLS_OF_A_PROCESS) {
        let mut list = List::new(seeds.within(0, u64::MAX - 1), lists.is_empty());
        let mut lines = Played::new();
        while let Some(call) = list.next(player.facility()).filter(|_| calls < most) {
            let answer = player.play(&call);
            tally.add(&call, &answer, player.facility());
            lines.push((call.to_string(), told(&answer)));
            calls += 1;
        }
        tally.lists += 1;
        lists.push(lines);
    }
    lists
}

/// Has the program play the lists too.
fn same(lists: &[Played]) -> Result<(), String> {
    let played = lists.iter().flatten();
    let (calls, expected): (Vec<String>, Vec<String>) =
        played.map(|(call, answer)| (format!("{call}\n"), format!("{call} -> {answer}\n"))).unzip();
    let printed = PROGRAM.printed(&calls.concat())?;
    if printed == expected.concat() {
        return Ok(());
    }
    Err(difference(lists, &printed))
}

/// The first line that differs, with its list's calls up to it.
fn difference(lists: &[Played], printed: &str) -> String {
    let mut printed = printed.split('\n');
    for list in lists {
        for (at, (call, answer)) in list.iter().enumerate() {
            let (expected, given) = (format!("{call} -> {answer}"), printed.next().unwrap_or_default());
            if given != expected {
                let calls: String = list[..=at].iter().map(|(call, _)| format!("{call}\n")).collect();
                return format!(
                    "a list differs at its call {}, its calls so far:\n{calls}the model says\n{expected}\nand the program\n{given}",
                    at + 1
                );
            }
        }
    }
    "the answers are equal, and what the program prints after the last one differs".into()
}

#[cfg(test)]
mod tests {
    use super::*;

    /// A call and its answer.
    type Line<'a> = (&'a str, &'a str);

    const REPEATED: Line = ("take -", "ok used 0");

    /// Lists of 20,000 random calls.
    fn random_lists() -> (Vec<Played>, Tally) {
        let (mut lists, mut tally, mut seeds) = (Vec::new(), Tally::default(), Random::new(1));
        while calls_of(&lists) < 20_000 {
            lists.extend(played(&mut seeds, CALLS_OF_A_PROCESS, &mut tally));
        }
        (lists, tally)
    }

    #[test]
    fn random_lists_report_part_feet() {
        let (_, tally) = random_lists();
        let PartFeet { above_zero, above_32_bits, most } = tally.part_feet;
        assert!(above_zero > 1_000 && above_32_bits > 200, "{above_zero} above 0, {above_32_bits} above 32 bits");
        assert!(most > 2_000_000_000_000, "at most {most}");
    }

    #[test]
    fn random_lists_repeat_sheets() {
        let (lists, tally) = random_lists();
        let Repeats { accepted, closed_lane, refused } = tally.repeats;
        assert!(accepted > 400 && closed_lane > 150, "{accepted} repeats, {closed_lane} with a closed lane");
        assert_eq!(refused.into_keys().collect::<Vec<_>>(), [9, 10, 12, 13]);
        let lines = lists.iter().flatten().map(|(call, answer)| -> Line { (call, answer) });
        let takings: Vec<Line> = lines.filter(|(call, _)| call.starts_with("take ")).collect();
        let repeated_after =
            |is: fn(Line) -> bool| takings.windows(2).filter(|two| is(two[0]) && two[1] == REPEATED).count();
        let in_a_row = repeated_after(|taking| taking == REPEATED);
        let after_refused = repeated_after(|(_, answer)| answer.starts_with("refused 4 "));
        assert!(in_a_row > 50 && after_refused > 10, "{in_a_row} in a row, {after_refused} after a refused sheet");
        assert!(takings.contains(&("take 00", "refused 14 0")));
    }
}
