//! Planning sheets worked out by the engine, with what its interface promises of the memory that it is lent.

use super::{plan, UNTOUCHED};
use crate::plans::numbers::NUMBERS;

/// What stands behind the carryover, so that a place written past it is seen.
const BEHIND: [u32; 3] = [UNTOUCHED as u32; 3];

/// What a sheet comes to.
pub struct Planned {
    /// The first 325 of `out`
    pub numbers: Vec<u64>,
    /// What the sheet leaves.
    pub carryover: Vec<u32>,
}

/// Works a sheet out with so many places lent, 325 or more; or tells what in the call itself broke the interface's promises.
pub fn planned(sheet: &[u8], carryover: &[u32], places: usize) -> Result<Planned, String> {
    let mut numbers = vec![UNTOUCHED; places + 3];
    let mut left = [carryover, &BEHIND].concat();
    let returned = plan(sheet, &mut left[..carryover.len()], &mut numbers[..places]);
    if numbers.split_off(NUMBERS).iter().any(|&number| number != UNTOUCHED) {
        return Err(format!("with {places} places the engine wrote past number {NUMBERS}"));
    }
    if left.split_off(carryover.len()) != BEHIND {
        return Err("the engine wrote past the carryover".into());
    }
    if returned != numbers[0] {
        return Err(format!("the engine returned {returned} and wrote {} as the refusal", numbers[0]));
    }
    Ok(Planned { numbers, carryover: left })
}

/// Tries `places` below 325, which must be refused by 7; they and the carryover must be left as they were.
pub fn refuses_short_buffer(sheet: &[u8], carryover: &[u32], places: usize) -> Result<(), String> {
    let mut numbers = [UNTOUCHED; NUMBERS];
    let mut left = carryover.to_vec();
    let returned = plan(sheet, &mut left, &mut numbers[..places]);
    if returned != 7 {
        return Err(format!("a buffer of {places} places was answered by {returned}, not 7"));
    }
    if numbers.iter().any(|&number| number != UNTOUCHED) || left != carryover {
        return Err(format!("a buffer of {places} places was refused, but it or the carryover was written to"));
    }
    Ok(())
}
