//! A plan as the engine's interface gives it, a row of numbers, each f64 by its bits.

use crate::model::planning::section::Answer;
use crate::model::planning::Plan;
use crate::model::sheets::Refusal;

const MOST_SECTIONS: usize = 64;
const NUMBERS_OF_THE_FACILITY: usize = 5;
const NUMBERS_OF_A_SECTION: usize = 5;

/// How many numbers there are.
pub const NUMBERS: usize = NUMBERS_OF_THE_FACILITY + NUMBERS_OF_A_SECTION * MOST_SECTIONS;

/// The numbers that the engine's interface must give for a sheet.
pub fn numbers(planned: &Result<Plan, Refusal>) -> [u64; NUMBERS] {
    let mut numbers = [0; NUMBERS];
    let (facility, sections) = numbers.split_at_mut(NUMBERS_OF_THE_FACILITY);
    match planned {
        Err(Refusal { number, offset }) => facility.copy_from_slice(&[*number, *offset as u64, 0, 0, b'A'.into()]),
        Ok(Plan { used, density, letter, answers, .. }) => {
            facility.copy_from_slice(&[0, 0, *used as u64, bits(*density), (*letter).into()]);
            for (places, answer) in sections.chunks_mut(NUMBERS_OF_A_SECTION).zip(answers) {
                places.copy_from_slice(&of_section(answer));
            }
        }
    }
    numbers
}

/// A section's case, RU, RO, speed and density.
fn of_section(answer: &Answer) -> [u64; NUMBERS_OF_A_SECTION] {
    match *answer {
        Answer::Free { speed, density } => [0, 0, 0, bits(speed), bits(density)],
        Answer::Slowed { under, speed, density } => [1, bits(under), 0, bits(speed), bits(density)],
        Answer::Queued { under, over, speed, density } => [2, bits(under), bits(over), bits(speed), bits(density)],
    }
}

/// The bits of an f64, the same for all that are no number.
fn bits(real: f64) -> u64 {
    match real.is_nan() {
        true => 0x7ff8_0000_0000_0000,
        false => real.to_bits(),
    }
}

#[cfg(test)]
mod tests {
    use super::*;
    use crate::model::planning::plan;
    use crate::model::sheets::written;

    /// A sheet's numbers, on a carryover of zeros, up to the last that is not zero.
    fn told(sheet: &[u8], sections: usize) -> Vec<u64> {
        let mut numbers = numbers(&plan(sheet, &mut vec![0; sections])).to_vec();
        assert_eq!(numbers.len(), 325);
        let end = numbers.iter().rposition(|&number| number != 0).expect("a letter is there");
        numbers.truncate(end + 1);
        numbers
    }

    #[test]
    fn the_numbers_of_a_queue() {
        let sheet = written(&[1, 16_917, 1, 60, 799, 3_288, 268]);
        let facility = [0, 0, 12, 0x4060_dd9a_e90d_f01d, 70];
        let section = [2, 0x4024_c7ae_147a_e13f, 0x4056_9cab_086e_4452, 0x4036_61fd_c961_3f36, 0x4060_dd9a_e90d_f01d];
        assert_eq!(told(&sheet, 1), [facility, section].concat());
    }

    #[test]
    fn the_numbers_of_sections_that_are_free_and_slowed() {
        let sheet = written(&[2, 5_280, 3, 75, 1_000, 5_280, 3, 60, 1_000, 0, 0, 6_900, 0]);
        let told = told(&sheet, 2);
        let free = [0, 0, 0, 0x4052_c000_0000_0000, 0];
        let slowed = [1, 0x4024_c7ae_147a_e13f, 0, 0x4049_9262_69fa_8b72, 0x4046_7c56_789a_bcdd];
        assert_eq!((&told[..3], told[4]), (&[0, 0, sheet.len() as u64][..], 67));
        assert_eq!(told[5..], [free, slowed].concat());
    }

    #[test]
    fn the_numbers_of_refused_sheets() {
        let sheet = written(&[1, 5_280, 1, 70, 1_000, 1, 2]);
        assert_eq!(told(&sheet, 1), [15, 0, 0, 0, 65]);
        assert_eq!(told(&sheet, 2), [8, 0, 0, 0, 65]);
        assert_eq!(told(&sheet[..sheet.len() - 1], 1), [1, 8, 0, 0, 65]);
    }

    #[test]
    fn what_is_no_number_has_the_same_bits() {
        assert_eq!([f64::NAN, -f64::NAN].map(bits), [0x7ff8_0000_0000_0000; 2]);
        assert_eq!([0.0, -0.0, f64::INFINITY].map(bits), [0, 1 << 63, 0x7ff0_0000_0000_0000]);
    }
}
