//! A model of the rules that docs/manual.md tells, written apart from the engine and for reading, not for speed.

pub mod convert;
pub mod facility;
pub mod first;
pub mod numbers;
pub mod planning;
pub mod sheets;
pub mod step;

use crate::course::Course;
use crate::outcome::{Forecast, Outcome, Standing};
use facility::Facility;
use sheets::{Entry, Layout, Refusal};

/// A whole study file, as the program `forecast` treats it.
pub fn forecast(study: &[u8]) -> Outcome {
    outcome(&run::<Entry>(study))
}

/// What a study that was run comes to.
pub fn outcome<E: Layout>(run: &Result<Facility<E>, Refusal>) -> Outcome {
    match run {
        Ok(facility) => Outcome::Forecast(forecast_of(facility)),
        Err(Refusal { number, offset }) => Outcome::Refused { number: *number, place: *offset as u64 },
    }
}

/// Lays the road, then takes and runs periods to the end of the file. A refusal's offset counts from the file's start.
pub fn run<E: Layout>(study: &[u8]) -> Result<Facility<E>, Refusal> {
    run_and_look(study, |_| ())
}

/// The same, with a look at the facility at each period's end.
fn run_and_look<E: Layout>(study: &[u8], mut look: impl FnMut(&Facility<E>)) -> Result<Facility<E>, Refusal> {
    let (mut facility, mut start) = Facility::<E>::lay(study)?;
    while start < study.len() {
        let used = facility.take(&study[start..]).map_err(|refusal| refusal.in_file(start))?;
        facility.run(60)?;
        look(&facility);
        start += used;
    }
    Ok(facility)
}

/// A whole study file period by period.
pub fn course(study: &[u8]) -> Result<Course, Refusal> {
    let mut rows = Vec::new();
    let facility = run_and_look::<Entry>(study, |facility| rows.push(facility.marks()))?;
    let lanes = facility.road().segments.iter().map(|segment| segment.lanes).collect();
    Ok(Course { lanes, rows })
}

fn forecast_of<E: Layout>(facility: &Facility<E>) -> Forecast {
    let totals = facility.totals();
    let segments = (1..=facility.segments()).map(|i| {
        let report = facility.report(i).expect("the segment is there");
        Standing { n: report.n, q: report.q, letter: report.letter, part_feet: report.part_feet }
    });
    Forecast {
        arrived: totals.arrived,
        left: totals.left,
        stored: totals.stored,
        part_steps: totals.part_steps,
        part_feet: totals.part_feet,
        origin: facility.origin(),
        segments: segments.collect(),
    }
}

#[cfg(test)]
mod tests {
    use super::*;

    const WORKED: [u8; 22] = [
        0x01, 0xBE, 0x01, 0x2D, 0x07, 0xA8, 0x0A, 0x02, 0x3C, 0xB0, 0x22, 0x00, 0x00, 0x00, // the road
        0x01, 0xC0, 0x25, 0x90, 0x4E, 0x00, 0x00, 0x02, // its one period
    ];

    #[test]
    fn the_worked_study() {
        let listing = "arrived 288000\nleft 241736\nstored 46264\npartsteps 1522988\norigin 42172\n\
                       1 4092 0 D 319091520\npartfeet 319091520\n";
        assert_eq!(forecast(&WORKED).listing(), listing);
    }

    #[test]
    fn the_worked_study_as_numbers() {
        let numbers = forecast(&WORKED).numbers();
        let told = [0, 0, 1, 288_000, 241_736, 46_264, 1_522_988, 319_091_520, 42_172, 4_092, 0, 68, 319_091_520];
        assert_eq!((numbers.len(), &numbers[..told.len()]), (265, &told[..]));
        assert!(numbers[told.len()..].iter().all(|&number| number == 0));
    }

    #[test]
    fn a_road_alone_has_no_part_feet() {
        let road = &[&[3, 190, 45, 7][..], &[1_320, 2, 60, 4_400, 900, 20, 900].repeat(3)].concat();
        let listing =
            "arrived 0\nleft 0\nstored 0\npartsteps 0\norigin 0\n1 0 0 A 0\n2 0 0 A 0\n3 0 0 A 0\npartfeet 0\n";
        assert_eq!(forecast(&sheets::written(road)).listing(), listing);
    }

    #[test]
    fn a_refused_study_has_no_part_feet() {
        let refused = forecast(&WORKED[..WORKED.len() - 1]);
        assert_eq!(refused.listing(), "refused 1 21\n");
        assert!(refused.numbers()[2..].iter().all(|&number| number == 0));
    }

    #[test]
    fn the_worked_study_after_three_steps() {
        let (mut facility, used) = Facility::<Entry>::lay(&WORKED).unwrap();
        facility.take(&WORKED[used..]).unwrap();
        facility.run(3).unwrap();
        let totals = facility.totals();
        assert_eq!((facility.report(1).unwrap().n, facility.origin()), (4_092, 1_816));
        assert_eq!((totals.left, totals.part_steps), (8_492, 15_908));
    }

    /// The worked study's sheet, then with a lane closed, then with both open again.
    #[test]
    fn the_worked_study_period_by_period() {
        let sheet = &WORKED[14..];
        let closed = [&sheet[..7], &[1]].concat();
        let told = |study: &[u8]| {
            let course = course(study).unwrap();
            course.cells().map(|cell| (char::from(cell.mark.letter), cell.mark.open)).collect::<Vec<_>>()
        };
        // 4,092 parts on both lanes, then 2,046 on one, which over both would be B
        assert_eq!(told(&[&WORKED, &closed[..], sheet].concat()), [('D', 2), ('D', 1), ('D', 2)]);
        assert_eq!(told(&[&WORKED[..14], &closed[..]].concat()), [('D', 1)]);
        assert_eq!(told(&WORKED[..14]), []);
        let refused = course(&[&WORKED[..], &[1]].concat());
        assert_eq!(refused, Err(Refusal { number: 1, offset: 23 }));
    }

    /// One part leaves a step, but for the first, and 333 of 1,000 take the off-ramp.
    #[test]
    fn a_remainder_lives_over_a_periods_end() {
        let road = sheets::written(&[1, 190, 45, 7, 300, 1, 60, 2_000, 0, 333, 10]);
        let period = sheets::written(&[1, 1, 20_000, 0, 0, 1]);
        let (mut facility, _) = Facility::<Entry>::lay(&road).unwrap();
        facility.take(&period).unwrap();
        facility.run(60).unwrap();
        // 59 * 333 is 19,647
        assert_eq!((facility.totals().left, facility.remainders()), (59, &[647][..]));
        facility.take(&period).unwrap();
        for off in [0, 1] {
            facility.run(1).unwrap();
            assert_eq!(facility.report(1).unwrap().off, off);
        }
        assert_eq!(Facility::<Entry>::lay(&road).unwrap().0.remainders(), [0]);
    }

    /// One part leaves a step, but for the first, and 333 of 1,000 take the off-ramp.
    #[test]
    fn totals_go_on_over_a_periods_end() {
        let road = sheets::written(&[1, 190, 45, 7, 300, 1, 60, 2_000, 0, 333, 10]);
        let period = sheets::written(&[1, 1, 20_000, 0, 0, 1]);
        let (mut facility, _) = Facility::<Entry>::lay(&road).unwrap();
        for (total_off, total_y) in [(19, 59), (39, 119), (59, 179)] {
            facility.take(&period).unwrap();
            facility.run(60).unwrap();
            let report = facility.report(1).unwrap();
            assert_eq!((report.total_off, report.total_y), (total_off, total_y));
        }
    }

    /// What takes the off-ramp travels the segment too, under every sheet, with lanes closed, reopened, and under no new one.
    #[test]
    fn part_feet_go_on_over_a_periods_end() {
        let road = sheets::written(&[1, 190, 45, 7, 300, 2, 60, 2_000, 0, 333, 10]);
        let [open, closed] = [2, 1].map(|lanes| sheets::written(&[1, 1, 20_000, 0, 0, lanes]));
        let (mut facility, _) = Facility::<Entry>::lay(&road).unwrap();
        for (sheet, left) in [(&open[..], 59), (&closed[..], 119), (&[], 179), (&open[..], 239)] {
            facility.take(sheet).unwrap();
            facility.run(60).unwrap();
            let part_feet = (facility.report(1).unwrap().part_feet, facility.totals().part_feet);
            assert_eq!(part_feet, (left * 300, left * 300));
        }
    }

    /// The longest segment over all periods: 20,000 parts leave it in every step, once it is full enough.
    #[test]
    fn the_most_part_feet() {
        let road = sheets::written(&[1, 300, 60, 0, 26_400, 8, 85, 20_000, 0, 0, 0]);
        let day = sheets::written(&[1, 20_000, 20_000, 0, 0, 8]).repeat(96);
        let Outcome::Forecast(forecast) = forecast(&[road, day].concat()) else { panic!("the study is refused") };
        // 282,339 parts stay, the fewest of which 20,000 reach the end in a step
        assert_eq!((forecast.arrived, forecast.stored), (115_200_000, 282_339));
        assert_eq!(forecast.part_feet, (115_200_000 - 282_339) * 26_400);
        assert_eq!(forecast.segments[0].part_feet, 3_033_826_250_400);
    }
}
