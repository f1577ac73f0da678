//! Calls on a facility and their answers, by the model, and on lines as the program `calls` prints
//! them: `call arguments -> answer`.

use crate::model::facility::{Facility, Report, Totals};
use crate::model::sheets::{Entry, Layout, Refusal};
use std::fmt::{Display, Formatter};
use std::str::FromStr;

#[derive(Clone, Debug)]
pub enum Call {
    Lay(Vec<u8>),
    Take(Vec<u8>),
    Run(u64),
    Report(u64),
    Totals,
    WriteRoad(Buffer),
    WritePeriod(Buffer),
}

/// The size of the buffer that a sheet is written to, and the place in it from which on.
#[derive(Clone, Copy, Debug, PartialEq)]
pub struct Buffer {
    pub room: u64,
    pub place: u64,
}

/// What an accepted call gives.
#[derive(Clone, Debug)]
pub enum Answer {
    /// How many bytes a laying or a taking used, none where the sheet in force is taken once more.
    Used(usize),
    Run,
    Report(Report),
    Totals(Totals),
    Written(Vec<u8>),
}

/// The facility that calls are made on. Without an accepted laying it is the empty one.
pub struct Player<E = Entry> {
    facility: Option<Facility<E>>,
}

impl<E: Layout> Player<E> {
    pub fn new() -> Player<E> {
        Player { facility: None }
    }

    /// The facility, none for the empty one.
    pub fn facility(&self) -> Option<&Facility<E>> {
        self.facility.as_ref()
    }

    /// Makes a call.
    pub fn play(&mut self, call: &Call) -> Result<Answer, Refusal> {
        match (call, &mut self.facility) {
            (Call::Lay(bytes), facility) => {
                *facility = None;
                let (laid, used) = Facility::lay(bytes)?;
                *facility = Some(laid);
                Ok(Answer::Used(used))
            }
            (_, None) => Err(Refusal::plain(9)),
            (Call::Take(bytes), Some(facility)) => facility.take(bytes).map(Answer::Used),
            (Call::Run(steps), Some(facility)) => facility.run(*steps).map(|()| Answer::Run),
            (Call::Report(segment), Some(facility)) => facility.report(*segment).map(Answer::Report),
            (Call::Totals, Some(facility)) => Ok(Answer::Totals(facility.totals())),
            (Call::WriteRoad(Buffer { room, place }), Some(facility)) => {
                facility.write_road(*room, *place).map(Answer::Written)
            }
            (Call::WritePeriod(Buffer { room, place }), Some(facility)) => {
                facility.write_period(*room, *place).map(Answer::Written)
            }
        }
    }
}

impl Buffer {
    /// What is lent where a call names none.
    pub const USUAL: Buffer = Buffer { room: 65_536, place: 0 };

    fn read(words: &[&str]) -> Result<Buffer, String> {
        match words {
            [] => Ok(Buffer::USUAL),
            [room] => Ok(Buffer { room: number(room)?, ..Buffer::USUAL }),
            [room, place] => Ok(Buffer { room: number(room)?, place: number(place)? }),
            _ => Err("a buffer has a room and a place".into()),
        }
    }
}

impl Call {
    pub fn name(&self) -> &'static str {
        match self {
            Call::Lay(_) => "lay",
            Call::Take(_) => "take",
            Call::Run(_) => "run",
            Call::Report(_) => "report",
            Call::Totals => "totals",
            Call::WriteRoad(_) => "write-road",
            Call::WritePeriod(_) => "write-period",
        }
    }
}

impl FromStr for Call {
    type Err = String;

    fn from_str(text: &str) -> Result<Call, String> {
        let words: Vec<&str> = text.split(' ').collect();
        Ok(match words[..] {
            ["lay", sheet] => Call::Lay(bytes(sheet)?),
            ["take", sheet] => Call::Take(bytes(sheet)?),
            ["run", steps] => Call::Run(number(steps)?),
            ["report", segment] => Call::Report(number(segment)?),
            ["totals"] => Call::Totals,
            ["write-road", ref buffer @ ..] => Call::WriteRoad(Buffer::read(buffer)?),
            ["write-period", ref buffer @ ..] => Call::WritePeriod(Buffer::read(buffer)?),
            _ => return Err(format!("`{text}` is no call")),
        })
    }
}

impl Display for Call {
    fn fmt(&self, f: &mut Formatter) -> std::fmt::Result {
        f.write_str(self.name())?;
        match self {
            Call::Lay(bytes) | Call::Take(bytes) => write!(f, " {}", hex(bytes)),
            Call::Run(number) | Call::Report(number) => write!(f, " {number}"),
            Call::WriteRoad(buffer) | Call::WritePeriod(buffer) if *buffer != Buffer::USUAL => {
                write!(f, " {} {}", buffer.room, buffer.place)
            }
            Call::WriteRoad(_) | Call::WritePeriod(_) | Call::Totals => Ok(()),
        }
    }
}

impl Display for Answer {
    fn fmt(&self, f: &mut Formatter) -> std::fmt::Result {
        f.write_str("ok")?;
        match self {
            Answer::Used(bytes) => write!(f, " used {bytes}"),
            Answer::Run => Ok(()),
            Answer::Report(report) => {
                let Report { total_off, total_y, part_feet, .. } = report;
                let state_and_flows = state_and_flows(report);
                write!(f, " {state_and_flows} total-off {total_off} total-y {total_y} partfeet {part_feet}")
            }
            Answer::Totals(Totals { arrived, left, stored, part_steps, part_feet }) => {
                write!(f, " arrived {arrived} left {left} stored {stored} partsteps {part_steps} partfeet {part_feet}")
            }
            Answer::Written(bytes) => write!(f, " {}", hex(bytes)),
        }
    }
}

/// A report but for its totals and part-feet: the segment's state, the last step's flows and the letter.
pub fn state_and_flows(report: &Report) -> String {
    let Report { n, q, f, r, off, y, letter, .. } = report;
    format!("n {n} q {q} f {f} r {r} off {off} y {y} {}", char::from(*letter))
}

/// An answer, or the refusal in its place.
pub fn told(answer: &Result<Answer, Refusal>) -> String {
    match answer {
        Ok(answer) => answer.to_string(),
        Err(refusal) => refusal.to_string(),
    }
}

fn number(text: &str) -> Result<u64, String> {
    text.parse().map_err(|_| format!("`{text}` is no number"))
}

/// The bytes of hexadecimal digits, `-` for none.
pub fn bytes(text: &str) -> Result<Vec<u8>, String> {
    let digits = if text == "-" { "" } else { text };
    let pair = |i| digits.get(i..i + 2).and_then(|pair| u8::from_str_radix(pair, 16).ok());
    let bytes: Option<Vec<u8>> = (0..digits.len()).step_by(2).map(pair).collect();
    bytes.ok_or(format!("`{text}` is not bytes in hexadecimal"))
}

/// The hexadecimal digits of bytes, `-` for none.
pub fn hex(bytes: &[u8]) -> String {
    match bytes {
        [] => "-".into(),
        _ => bytes.iter().map(|byte| format!("{byte:02x}")).collect(),
    }
}

#[cfg(test)]
mod tests {
    use super::*;

    #[test]
    fn calls_are_read_as_they_are_printed() {
        let lines = ["lay 01be", "take -", "run 60", "report 4294967295", "totals", "write-road", "write-period 8 2"];
        for line in lines {
            assert_eq!(line.parse::<Call>().unwrap().to_string(), line);
        }
        for line in ["", "take", "run x", "run 1 1", "totals 1", "write-road 1 2 3", "lay 0", "walk 60"] {
            assert!(line.parse::<Call>().is_err(), "{line}");
        }
    }

    /// The worked study's road of one segment with two lanes.
    const ROAD: &str = "lay 01be012d07a80a023cb022000000";
    /// A sheet for it, 4,800 vehicles an hour on both lanes.
    const OPEN: &str = "take 01c025904e000002";
    /// The same with one of the lanes closed.
    const CLOSED: &str = "take 01c025904e000001";
    /// The same with three of them open.
    const TOO_MANY_OPEN: &str = "take 01c025904e000003";
    /// The sheet in force once more.
    const REPEAT: &str = "take -";

    /// The model's answers to calls, one after the other.
    fn played(calls: &[&str]) -> Vec<String> {
        let mut player = Player::<Entry>::new();
        calls.iter().map(|call| told(&player.play(&call.parse().unwrap()))).collect()
    }

    fn answers<const N: usize>(calls: [&str; N]) -> [String; N] {
        played(&calls).try_into().expect("an answer to each call")
    }

    #[test]
    fn the_worked_study_call_by_call() {
        let calls = [ROAD, OPEN, "run 3", "totals", "report 1", "report 2"];
        let [laid, taken, run, totals, first, second] = answers(calls);
        assert_eq!([laid, taken, run, second], ["ok used 14", "ok used 8", "ok", "refused 6 0"]);
        // 8,492 * 1,320 ft
        assert_eq!(totals, "ok arrived 14400 left 8492 stored 5908 partsteps 15908 partfeet 11209440");
        assert_eq!(first, "ok n 4092 q 0 f 4092 r 0 off 0 y 4092 D total-off 0 total-y 8492 partfeet 11209440");
    }

    #[test]
    fn a_sheet_is_written_where_it_fits() {
        let [_, exact, short, past, far, none] = answers([
            ROAD,
            "write-road 20 6",
            "write-road 20 7",
            "write-road 14 15",
            "write-road 65536 4294967295",
            "write-period 0",
        ]);
        assert_eq!(exact, "ok 01be012d07a80a023cb022000000");
        assert_eq!([short, past, far], ["refused 7 0"; 3]);
        assert_eq!(none, "refused 10 0");
    }

    #[test]
    fn the_empty_facility_answers_9() {
        let calls = ["totals", "run 0", "lay -", "report 0", "take -", "write-road 0", "write-period"];
        let nine = "refused 9 0";
        assert_eq!(answers(calls), [nine, nine, "refused 1 0", nine, nine, nine, nine]);
    }

    #[test]
    fn repeats_in_a_row_are_the_sheet_typed_again() {
        let under = |again| {
            let calls =
                [ROAD, CLOSED, "run 60", again, "run 7", "report 1", "run 53", again, "run 60", "report 1", "totals"];
            let [_, _, _, second, _, within, _, third, _, report, totals] = answers(calls);
            ([second, third], [within, report, totals])
        };
        let (used, repeated) = under(REPEAT);
        assert_eq!(used, ["ok used 0"; 2]);
        assert_eq!(repeated, under(CLOSED).1);
        assert_ne!(repeated, under(OPEN).1);
        // three periods of 60 * 4,800
        assert!(repeated[2].starts_with("ok arrived 864000 "), "{}", repeated[2]);
    }

    #[test]
    fn without_a_sheet_nothing_is_repeated() {
        let calls = [ROAD, REPEAT, TOO_MANY_OPEN, REPEAT, "write-period", OPEN, "run 60", ROAD, REPEAT, "totals"];
        let [_, first, bad, after_bad, written, taken, _, _, anew, totals] = answers(calls);
        assert_eq!([first, after_bad, written, anew], ["refused 10 0"; 4]);
        assert_eq!([bad, taken], ["refused 4 7", "ok used 8"]);
        assert_eq!(totals, "ok arrived 0 left 0 stored 0 partsteps 0 partfeet 0");
    }

    #[test]
    fn a_sheet_is_repeated_for_60_steps_once_it_is_run_out() {
        let calls = [ROAD, OPEN, REPEAT, "run 59", REPEAT, "run 1", REPEAT, REPEAT, "run 61", "run 60", "run 1"];
        let [_, _, unspent, _, one_left, _, run_out, unspent_again, too_many, all, none_left] = answers(calls);
        assert_eq!([unspent, one_left, unspent_again], ["refused 12 0"; 3]);
        assert_eq!([run_out, all], ["ok used 0", "ok"]);
        assert_eq!([too_many, none_left], ["refused 5 0", "refused 11 0"]);
    }

    #[test]
    fn a_refused_sheet_is_not_repeated() {
        let short = "take 01c025904e00";
        let calls =
            [ROAD, CLOSED, "run 60", TOO_MANY_OPEN, REPEAT, "run 60", short, REPEAT, "write-period", "report 1"];
        let [_, _, _, bad, after_bad, _, short, after_short, written, report] = answers(calls);
        assert_eq!([bad, short], ["refused 4 7", "refused 1 6"]);
        assert_eq!([after_bad, after_short], ["ok used 0"; 2]);
        assert_eq!(written, "ok 01c025904e000001");
        assert!(report.starts_with("ok n 2046 ") && report.contains(" D total-off "), "{report}");
    }

    #[test]
    fn a_single_byte_is_a_sheet() {
        let calls = [ROAD, "take 00", OPEN, "take 00", "run 60", "take 00", "run 1"];
        let [_, first, _, unspent, _, run_out, run] = answers(calls);
        assert_eq!([first, run_out], ["refused 14 0"; 2]);
        assert_eq!([unspent, run], ["refused 12 0", "refused 11 0"]);
    }

    #[test]
    fn letters_go_by_the_open_lanes_of_the_repeated_sheet() {
        let calls = [ROAD, CLOSED, "run 60", "report 1", REPEAT, "report 1", "run 60", "report 1"];
        let [_, _, _, before, _, unspent, _, run_out] = answers(calls);
        // 22 * 2,046 is above 26 * 1,320 and at most 35 * 1,320; with both lanes it would be B
        for report in [&before, &unspent, &run_out] {
            assert!(report.starts_with("ok n 2046 ") && report.contains(" D total-off "), "{report}");
        }
        assert_eq!(unspent, before);
        assert_ne!(run_out, before);
    }

    #[test]
    fn after_a_repeat_the_sheet_in_force_is_written() {
        let calls = [ROAD, "take 01c025904e000001ffff", "run 60", REPEAT, "write-period", "write-period 8 0"];
        let [_, with_tail, _, _, unspent, exact] = answers(calls);
        assert_eq!(with_tail, "ok used 8");
        assert_eq!([unspent, exact], ["ok 01c025904e000001"; 2]);
        let calls = [ROAD, CLOSED, "run 60", REPEAT, "run 60", REPEAT, "run 9", "write-period", "write-period 7 0"];
        let [.., begun, short] = answers(calls);
        assert_eq!([begun, short], ["ok 01c025904e000001", "refused 7 0"]);
    }

    #[test]
    fn repeats_count_among_the_96_periods() {
        let mut calls = vec![ROAD, OPEN];
        calls.extend(["run 60", REPEAT].repeat(95));
        calls.extend([REPEAT, "run 60", REPEAT, "take 00", OPEN, "totals"]);
        let answers = played(&calls);
        let repeats = answers.iter().filter(|answer| *answer == "ok used 0").count();
        let [unspent, run, repeat, byte, sheet, totals] = &answers[answers.len() - 6..] else { unreachable!() };
        assert_eq!((repeats, unspent.as_str(), run.as_str()), (95, "refused 12 0", "ok"));
        assert_eq!([repeat, byte, sheet], ["refused 13 0"; 3]);
        // 96 * 60 * 4,800
        assert!(totals.starts_with("ok arrived 27648000 "), "{totals}");
    }
}
