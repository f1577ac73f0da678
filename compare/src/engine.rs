//! The engine, through its static libraries.

pub mod planning;

use crate::model::convert::Way;
use crate::model::sheets::Refusal;
use crate::outcome::NUMBERS;

extern "C" {
    fn freeway_forecast(study: *const u8, study_len: usize, out: *mut u64, out_len: usize) -> u64;
    fn freeway_to_second(study: *const u8, len: usize, target: *mut u8, target_len: usize, count: *mut u64) -> u64;
    fn freeway_to_first(study: *const u8, len: usize, target: *mut u8, target_len: usize, count: *mut u64) -> u64;
    fn freeway_plan(
        sheet: *const u8,
        sheet_len: usize,
        carryover: *mut u32,
        carryover_len: usize,
        out: *mut u64,
        out_len: usize,
    ) -> u64;
    fn freeway_time_reports(road: *const u8, road_len: usize, period: *const u8, period_len: usize, times: u32) -> u64;
    fn freeway_time_steps(
        road: *const u8,
        road_len: usize,
        period: *const u8,
        period_len: usize,
        periods: u32,
        reports: u8,
    ) -> Timed;
    fn freeway_time_letters(segments: *const Segments, times: u32) -> u64;
    fn freeway_time_letters_before(segments: *const Segments, times: u32) -> u64;
}

/// What the letters of 64 segments reckon with.
#[repr(C)]
pub struct Segments {
    pub n: [u32; 64],
    pub length: [u32; 64],
    pub lanes: [u32; 64],
}

/// So many letters of the segments in turn, by the walk in use: the sum of their bytes.
pub fn letters(segments: &Segments, times: u32) -> u64 {
    // Sound: the segments are lent for the call alone, and only read.
    unsafe { freeway_time_letters(segments, times) }
}

/// The same by the walk before it.
pub fn letters_before(segments: &Segments, times: u32) -> u64 {
    // Sound: as above.
    unsafe { freeway_time_letters_before(segments, times) }
}

/// Runs a period, then reports so many times, on the segments 1 to 64 in turn: the sum of their letters' bytes.
pub fn reports(road: &[u8], period: &[u8], times: u32) -> u64 {
    // Sound: both slices are valid for their lengths, and the engine keeps neither.
    unsafe { freeway_time_reports(road.as_ptr(), road.len(), period.as_ptr(), period.len(), times) }
}

/// What timed steps come to: the part-steps, and the letters that were reported, summed up as their bytes.
#[repr(C)]
pub struct Timed {
    pub part_steps: u64,
    pub letters: u64,
}

/// So many times takes the period and makes its steps one by one, with so many reports after each step, on the segments 1 to
/// 64 in turn.
pub fn single_steps(road: &[u8], period: &[u8], periods: u32, reports: u8) -> Timed {
    // Sound: as above.
    unsafe { freeway_time_steps(road.as_ptr(), road.len(), period.as_ptr(), period.len(), periods, reports) }
}

/// Runs a study: fills the first 265 places of `out` and gives the refusal's number, 0 for none.
pub fn forecast(study: &[u8], out: &mut [u64]) -> u64 {
    // Sound: both slices are valid for their lengths, and the engine keeps neither.
    unsafe { freeway_forecast(study.as_ptr(), study.len(), out.as_mut_ptr(), out.len()) }
}

/// Works a planning sheet out: fills the first 325 places of `out`, puts the new carryover in the place of the old, and gives the
/// refusal's number, 0 for none.
pub fn plan(sheet: &[u8], carryover: &mut [u32], out: &mut [u64]) -> u64 {
    let (carried, sections) = (carryover.as_mut_ptr(), carryover.len());
    // Sound: all three slices are valid for their lengths, and the engine keeps none of them.
    unsafe { freeway_plan(sheet.as_ptr(), sheet.len(), carried, sections, out.as_mut_ptr(), out.len()) }
}

/// What `out` holds before a call, so that a place left unwritten is seen.
const UNTOUCHED: u64 = 0xA5A5_5A5A_0F0F_F0F0;

/// The 265 numbers for a study; or what in the call itself broke the interface's promises.
pub fn numbers(study: &[u8]) -> Result<[u64; NUMBERS], String> {
    let mut out = [UNTOUCHED; NUMBERS + 3];
    let returned = forecast(study, &mut out);
    let (numbers, past) = out.split_at(NUMBERS);
    if past.iter().any(|&number| number != UNTOUCHED) {
        return Err(format!("the engine wrote past number {NUMBERS}"));
    }
    if returned != numbers[0] {
        return Err(format!("the engine returned {returned} and wrote {} as the refusal", numbers[0]));
    }
    Ok(numbers.try_into().expect("as many as there are"))
}

/// Tries a buffer of `places` below 265, which must be refused by 7 and left as it was.
pub fn refuses_short_buffer(study: &[u8], places: usize) -> Result<(), String> {
    let mut out = [UNTOUCHED; NUMBERS];
    let returned = forecast(study, &mut out[..places]);
    if returned != 7 {
        return Err(format!("a buffer of {places} places was answered by {returned}, not 7"));
    }
    if out.iter().any(|&number| number != UNTOUCHED) {
        return Err(format!("a buffer of {places} places was refused but written to"));
    }
    Ok(())
}

/// Converts a study into a target: gives the refusal's number, 0 for none, and the count.
fn converted(way: Way, study: &[u8], target: &mut [u8]) -> (u64, u64) {
    let mut count = UNTOUCHED;
    let (from, to) = ((study.as_ptr(), study.len()), (target.as_mut_ptr(), target.len()));
    // Sound: both slices are valid for their lengths, the count for its writing, and the engine keeps none of them.
    let number = unsafe {
        match way {
            Way::ToSecond => freeway_to_second(from.0, from.1, to.0, to.1, &mut count),
            Way::ToFirst => freeway_to_first(from.0, from.1, to.0, to.1, &mut count),
        }
    };
    (number, count)
}

/// What a target of `room` bytes gets for a study, or the refusal; or what in the call itself broke the interface's promises.
pub fn convert(way: Way, study: &[u8], room: usize) -> Result<Result<Vec<u8>, Refusal>, String> {
    let untouched = UNTOUCHED as u8;
    let mut target = vec![untouched; room + 3];
    let (number, count) = converted(way, study, &mut target[..room]);
    let count = count as usize;
    let written = if number == 0 { count } else { 0 };
    if written > room {
        return Err(format!("the engine counts {count} bytes written to a target of {room}"));
    }
    if target[written..].iter().any(|&byte| byte != untouched) {
        return Err(format!("of a target of {room} bytes the engine altered more than the {written} that it tells"));
    }
    target.truncate(written);
    Ok(if number == 0 { Ok(target) } else { Err(Refusal { number, offset: count }) })
}
