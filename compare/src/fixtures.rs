//! Checks against files: studies with their listings, traces of steps, lists of calls with their answers, conversions, and planning
//! sheets.
//!
//! NAME.study and NAME.listing are a study's bytes and what `forecast` prints. NAME.trace has steps of that study: a line `period`
//! with a sheet's numbers, then the state, the flows and the remainders after each of the first steps under it; the next sheet goes
//! on from there.
//! A .txt file is a list of calls on one road, a line each, `call arguments -> answer`, where a report ends with its totals and
//! part-feet; or of conversions, `to-second STUDY room BYTES -> ok CONVERTED` or `-> refused NUMBER PLACE`, and `to-first` as well.
//!
//! Files of a folder named `first` are of the first layout and by the first rules; their names stand by themselves. So do those of a
//! folder named `planning`, whose .txt files are planning sheets, as in the module of plans.

use crate::calls::{bytes, state_and_flows, told, Answer, Player};
use crate::compare::{self, conversions};
use crate::model::convert::Way;
use crate::model::facility::{Facility, Totals};
use crate::model::sheets::{period_numbers, read_period, Entry, Layout};
use crate::model::{self, first};
use crate::plans::Planner;
use std::collections::BTreeMap;
use std::fmt::Write;
use std::fs;
use std::path::{Path, PathBuf};

/// Where the repository keeps its studies.
pub const STUDIES: [&str; 2] =
    [concat!(env!("CARGO_MANIFEST_DIR"), "/../studies"), concat!(env!("CARGO_MANIFEST_DIR"), "/../studies/first")];

/// Files by name.
type Files = BTreeMap<String, Vec<u8>>;

/// How many were equal.
#[derive(Default)]
struct Counts {
    listings: usize,
    traces: usize,
    lists: usize,
    conversions: usize,
    planning_sheets: usize,
}

/// Checks all files of the folders; says how many there were, or the first that differs.
pub fn check(folders: &[PathBuf]) -> Result<String, String> {
    let (mut first, mut second, mut planning) = (Files::new(), Files::new(), Files::new());
    for folder in folders {
        let files = match folder {
            _ if folder.ends_with("first") => &mut first,
            _ if folder.ends_with("planning") => &mut planning,
            _ => &mut second,
        };
        gather(folder, files).map_err(|error| format!("{}: {error}", folder.display()))?;
    }
    let mut counts = Counts::default();
    check_files::<Entry>(&second, listing, &mut counts)?;
    check_files::<first::Entry>(&first, first_listing, &mut counts).map_err(|what| format!("first/{what}"))?;
    check_planning(&planning, &mut counts).map_err(|what| format!("planning/{what}"))?;
    let Counts { listings, traces, lists, conversions, planning_sheets } = counts;
    match listings + traces + lists + conversions + planning_sheets {
        0 => Err("no listing, trace, list of calls, conversion or planning sheet in the folders".into()),
        _ => Ok(format!(
            "{listings} listings, {traces} traces of steps, {lists} lists of calls, {conversions} conversions and \
             {planning_sheets} planning sheets equal"
        )),
    }
}

/// Checks files of one layout, `listing` a study by its listing.
fn check_files<E: Layout>(
    files: &Files,
    listing: fn(&[u8], &str) -> Result<(), String>,
    counts: &mut Counts,
) -> Result<(), String> {
    for (name, bytes) in files {
        let text = String::from_utf8_lossy(bytes);
        let study = |ending| {
            let study = name.replace(ending, ".study");
            files.get(&study).ok_or(format!("{study} is missing"))
        };
        let differs = |what| format!("{name}: {what}");
        if name.ends_with(".listing") {
            listing(study(".listing")?, &text).map_err(differs)?;
            counts.listings += 1;
        } else if name.ends_with(".trace") {
            same_lines(&text, &trace::<E>(study(".trace")?, &text)).map_err(differs)?;
            counts.traces += 1;
        } else if name.ends_with(".txt") && text.starts_with("to-") {
            same_lines(&text, &converted(&text).map_err(differs)?).map_err(differs)?;
            counts.conversions += text.lines().count();
        } else if name.ends_with(".txt") {
            same_lines(&text, &answers::<E>(&text).map_err(differs)?).map_err(differs)?;
            counts.lists += 1;
        }
    }
    Ok(())
}

/// Checks files of planning sheets.
fn check_planning(files: &Files, counts: &mut Counts) -> Result<(), String> {
    for (name, bytes) in files.iter().filter(|(name, _)| name.ends_with(".txt")) {
        let text = String::from_utf8_lossy(bytes);
        let differs = |what| format!("{name}: {what}");
        let answers = planned(&text).map_err(differs)?;
        same_lines(&text, &answers.concat()).map_err(differs)?;
        counts.planning_sheets += answers.len();
    }
    Ok(())
}

fn gather(folder: &Path, files: &mut Files) -> std::io::Result<()> {
    for entry in fs::read_dir(folder)? {
        let path = entry?.path();
        if let Some(name) = path.file_name().filter(|_| path.is_file()) {
            files.insert(name.to_string_lossy().into_owned(), fs::read(&path)?);
        }
    }
    Ok(())
}

/// The model's listing, the engine's and the timed versions' numbers, and the conversion.
fn listing(study: &[u8], expected: &str) -> Result<(), String> {
    let outcome = model::forecast(study);
    same_lines(expected, &outcome.listing())?;
    compare::same(study, &outcome)?;
    conversions::same(Way::ToFirst, study, 0).map(|_| ())
}

/// The listing by the first rules, the conversion, and the engine's numbers for what it comes to.
fn first_listing(study: &[u8], expected: &str) -> Result<(), String> {
    let outcome = model::outcome(&model::run::<first::Entry>(study));
    same_lines(expected, &outcome.listing())?;
    conversions::same(Way::ToSecond, study, 0).map(|_| ())
}

fn same_lines(expected: &str, ours: &str) -> Result<(), String> {
    let mut lines = expected.lines().zip(ours.lines()).zip(1..);
    if let Some(((expected, ours), line)) = lines.find(|((expected, ours), _)| expected != ours) {
        return Err(format!("line {line} is `{expected}`, the model says `{ours}`"));
    }
    if expected != ours {
        return Err("the file and the model's text differ in length or line ends".into());
    }
    Ok(())
}

/// The model's trace of a study: its sheets in order, as many steps under each as the `given` trace has.
fn trace<E: Layout>(study: &[u8], given: &str) -> String {
    let mut text = String::new();
    let (mut facility, mut start) = Facility::<E>::lay(study).expect("a trace is of an accepted study");
    for line in given.lines() {
        if line.starts_with("period") {
            let (period, used) =
                read_period(&study[start..], facility.road()).expect("a trace is of an accepted study");
            let numbers: Vec<String> = period_numbers(&period).iter().map(u64::to_string).collect();
            let _ = writeln!(text, "period {}", numbers.join(" "));
            facility.put_in_force(period);
            start += used;
        } else if line.starts_with("step") {
            facility.run(1).expect("a step remains");
            text += &stepped(&facility);
        }
    }
    text
}

/// The lines of a trace for a step that was made.
fn stepped<E: Layout>(facility: &Facility<E>) -> String {
    let Totals { arrived, left, part_steps, .. } = facility.totals();
    let origin = facility.origin();
    let mut text = format!("step origin {origin} arrived {arrived} left {left} partsteps {part_steps}\n");
    for (i, remainder) in (1..).zip(facility.remainders()) {
        let report = facility.report(i).expect("the segment is there");
        let _ = writeln!(text, "  {i} {} remainder {remainder}", state_and_flows(&report));
    }
    text
}

/// The list of calls once more, with the model's answers.
fn answers<E: Layout>(list: &str) -> Result<String, String> {
    let mut text = String::new();
    let mut player = Player::<E>::new();
    for line in list.lines() {
        let call = call_of(line)?;
        let _ = writeln!(text, "{call} -> {}", told(&player.play(&call.parse()?)));
    }
    Ok(text)
}

/// What stands before a line's answer.
fn call_of(line: &str) -> Result<&str, String> {
    let (call, _) = line.split_once(" -> ").ok_or(format!("`{line}` has no answer"))?;
    Ok(call)
}

/// The list of conversions once more, with the model's answers, where the engine's are the same.
fn converted(list: &str) -> Result<String, String> {
    let mut text = String::new();
    for line in list.lines() {
        let call = call_of(line)?;
        let words: Vec<&str> = call.split(' ').collect();
        let (way, study, room) = match words[..] {
            ["to-second", study, "room", room] => (Way::ToSecond, study, room),
            ["to-first", study, "room", room] => (Way::ToFirst, study, room),
            _ => return Err(format!("`{call}` is no conversion")),
        };
        let room = room.parse().map_err(|_| format!("`{room}` is no number"))?;
        let answer = conversions::alike(way, &bytes(study)?, room)?.map(Answer::Written);
        let _ = writeln!(text, "{call} -> {}", told(&answer));
    }
    Ok(text)
}

/// The planning sheets once more, each with the model's answer. Lines of sections begin with a space.
fn planned(sheets: &str) -> Result<Vec<String>, String> {
    let mut planner = Planner::new();
    let records = sheets.lines().filter(|line| !line.starts_with(' '));
    records.map(|line| Ok(planner.play(&call_of(line)?.parse()?).1)).collect()
}

#[cfg(test)]
mod tests {
    #[test]
    fn the_repositorys_studies() {
        println!("{}", super::check(&super::STUDIES.map(Into::into)).unwrap());
    }
}
