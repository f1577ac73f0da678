//! The planning sheet. No section is faster than its free flow.

pub mod section;

use super::sheets::{Fields, Refusal};
use super::step::letter_by;
use section::{Answer, Curve, Section};

/// The largest demand that a section may have.
pub const MOST_DEMAND: i64 = 1_000_000;

/// What an accepted sheet gives.
#[derive(Clone, Debug)]
pub struct Plan {
    /// How many bytes the sheet takes.
    pub used: usize,
    pub sections: Vec<Section>,
    pub answers: Vec<Answer>,
    /// The facility's density
    pub density: f64,
    pub letter: u8,
}

/// Works out the sheet at the front of `bytes`. The carryover is then what the sheet leaves; a refused one does not alter it.
pub fn plan(bytes: &[u8], carryover: &mut [u32]) -> Result<Plan, Refusal> {
    let (sections, used) = read(bytes)?;
    if carryover.len() != sections.len() {
        return Err(Refusal::plain(8));
    }
    let demands = demands(&sections, carryover)?;
    let demanded = || sections.iter().zip(&demands);
    for (place, (section, &demand)) in carryover.iter_mut().zip(demanded()) {
        *place = (demand - section.capacity()).max(0) as u32;
    }
    let answers: Vec<Answer> = demanded().map(|(section, &demand)| section.answer(demand)).collect();
    let density = density(&sections, &answers);
    let letter = letter(density, &answers);
    Ok(Plan { used, sections, answers, density, letter })
}

/// The sections of the sheet at the front of `bytes`, and how many bytes it takes: all that they are, then all flows.
fn read(bytes: &[u8]) -> Result<(Vec<Section>, usize), Refusal> {
    let mut fields = Fields::of(bytes);
    let mut sections = Vec::new();
    for _ in 0..fields.next(1..=64)? {
        sections.push(Section {
            length: fields.next(300..=26_400)?,
            lanes: fields.next(1..=8)?,
            curve: fields.next_as(Curve::of, 4)?,
            capacity_factor: fields.next(100..=1_000)?,
            inflow: 0,
            outflow: 0,
        });
    }
    for section in &mut sections {
        section.inflow = fields.next(0..=20_000)?;
        section.outflow = fields.next(0..=20_000)?;
    }
    Ok((sections, fields.used()))
}

/// Each section's demand: what the section before has, with what comes in, goes out and was left over here.
fn demands(sections: &[Section], carryover: &[u32]) -> Result<Vec<i64>, Refusal> {
    let mut demand = 0;
    let mut demands = Vec::new();
    for (section, &left_over) in sections.iter().zip(carryover) {
        demand += section.inflow as i64 - section.outflow as i64 + i64::from(left_over);
        if !(0..=MOST_DEMAND).contains(&demand) {
            return Err(Refusal::plain(15));
        }
        demands.push(demand);
    }
    Ok(demands)
}

/// The sections' densities by their lane-feet.
fn density(sections: &[Section], answers: &[Answer]) -> f64 {
    let (mut sum, mut lane_feet) = (0.0, 0.0);
    for (section, answer) in sections.iter().zip(answers) {
        let area = (section.length * section.lanes) as f64;
        sum += answer.density() * area;
        lane_feet += area;
    }
    sum / lane_feet
}

fn letter(density: f64, answers: &[Answer]) -> u8 {
    match answers.iter().any(|answer| matches!(answer, Answer::Queued { .. })) {
        true => b'F',
        false => letter_by(|limit| density <= limit as f64),
    }
}

#[cfg(test)]
mod tests {
    use super::super::sheets::written;
    use super::*;

    /// A sheet of sections of a mile with one lane and all its capacity, by speed, inflow and outflow.
    fn sheet(sections: &[(u64, u64, u64)]) -> Vec<u8> {
        let count = [sections.len() as u64];
        let kept = sections.iter().flat_map(|&(ffs, _, _)| [5_280, 1, ffs, 1_000]);
        let flows = sections.iter().flat_map(|&(_, inflow, outflow)| [inflow, outflow]);
        written(&count.into_iter().chain(kept).chain(flows).collect::<Vec<_>>())
    }

    /// What a sheet leaves of a carryover, or the refusal.
    fn left(sections: &[(u64, u64, u64)], carryover: &[u32]) -> Result<Vec<u32>, Refusal> {
        let mut left = carryover.to_vec();
        let planned = plan(&sheet(sections), &mut left).map(|_| left.clone());
        assert!(planned.is_ok() || left == carryover, "a refused sheet altered the carryover");
        planned
    }

    #[test]
    fn a_sheet_field_by_field() {
        let fields = [2, 300, 8, 75, 100, 26_400, 1, 55, 1_000, 20_000, 0, 7, 20_000];
        let refused = |at: usize, value: u64| {
            let mut fields = fields;
            fields[at] = value;
            let refusal = Refusal { number: 4, offset: written(&fields[..at]).len() };
            assert_eq!(plan(&written(&fields), &mut []).unwrap_err(), refusal, "{value} in the place of field {at}");
        };
        let (sections, used) = read(&written(&fields)).unwrap();
        assert_eq!((sections.len(), used), (2, written(&fields).len()));
        assert_eq!((sections[1].length, sections[1].inflow, sections[1].outflow), (26_400, 7, 20_000));
        for (at, value) in [(0, 0), (0, 65), (1, 299), (1, 26_401), (2, 0), (2, 9), (4, 99), (4, 1_001), (12, 20_001)] {
            refused(at, value);
        }
        for speed in [0, 54, 56, 62, 74, 76, 75 + 128, 4_294_967_295] {
            refused(3, speed);
            refused(7, speed);
        }
    }

    #[test]
    fn demands_add_up_along_the_sections() {
        assert_eq!(left(&[(70, 3_000, 0), (55, 0, 300), (60, 20_000, 0)], &[0, 0, 0]), Ok(vec![600, 450, 20_400]));
        assert_eq!(left(&[(70, 3_000, 0), (55, 0, 3_000)], &[400, 5]), Ok(vec![1_000, 0]));
        assert_eq!(left(&[(70, 0, 20_000)], &[20_000]), Ok(vec![0]));
    }

    #[test]
    fn demands_stay_within_their_range() {
        let refused = || Err(Refusal::plain(15));
        assert_eq!(left(&[(70, 0, 0)], &[1_000_000]), Ok(vec![997_600]));
        assert_eq!(left(&[(70, 1, 0)], &[1_000_000]), refused());
        assert_eq!(left(&[(70, 1, 2)], &[0]), refused());
        // the second section alone, and one whose demand comes back
        assert_eq!(left(&[(70, 0, 0), (70, 0, 1)], &[0, 0]), refused());
        assert_eq!(left(&[(70, 0, 1), (70, 1, 0)], &[0, 0]), refused());
        // of these demands the last 32 bits would be within
        for sections in [1, 2, 50] {
            assert_eq!(left(&vec![(70, 20_000, 0); sections], &vec![u32::MAX; sections]), refused());
        }
    }

    #[test]
    fn the_length_comes_before_the_demands() {
        for carryover in [&[][..], &[0, 0], &[u32::MAX; 65]] {
            assert_eq!(left(&[(70, 0, 1)], carryover), Err(Refusal::plain(8)));
        }
        let one_short = &sheet(&[(70, 0, 1)])[..7];
        assert_eq!(plan(one_short, &mut [0; 2]).unwrap_err(), Refusal { number: 1, offset: 7 });
    }

    fn letter_of(sections: &[(u64, u64, u64)]) -> (f64, char) {
        let Plan { density, letter, .. } = plan(&sheet(sections), &mut vec![0; sections.len()]).unwrap();
        (density, letter.into())
    }

    #[test]
    fn the_facilitys_letter() {
        assert_eq!(letter_of(&[(55, 605, 0)]), (11.0, 'A'));
        assert_eq!(letter_of(&[(60, 1_080, 0)]), (18.0, 'B'));
        assert_eq!(letter_of(&[(60, 1_081, 0)]).1, 'C');
        assert_eq!(letter_of(&[(55, 1_430, 0)]), (26.0, 'C'));
        // the mean of 20 and 0, and of a queue's density and nothing
        assert_eq!(letter_of(&[(60, 1_200, 0), (75, 0, 1_200)]), (10.0, 'A'));
        let (density, letter) = letter_of(&[(70, 2_401, 0), (70, 0, 2_401)]);
        assert!(density < 35.0 && letter == 'F');
    }
}
