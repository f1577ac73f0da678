//! What a study comes to, in the form in which the model, the engine and the timed versions are compared.

use std::fmt::Write;

const MOST_SEGMENTS: usize = 64;
const NUMBERS_OF_THE_STUDY: usize = 9;
const NUMBERS_OF_A_SEGMENT: usize = 4;

/// How many numbers the engine's interface gives.
pub const NUMBERS: usize = NUMBERS_OF_THE_STUDY + NUMBERS_OF_A_SEGMENT * MOST_SEGMENTS;

#[derive(Clone, Debug, PartialEq, Eq)]
pub enum Outcome {
    Forecast(Forecast),
    /// The refusal's number and its place in the file.
    Refused {
        number: u64,
        place: u64,
    },
}

#[derive(Clone, Debug, PartialEq, Eq)]
pub struct Forecast {
    pub arrived: u64,
    pub left: u64,
    pub stored: u64,
    pub part_steps: u64,
    pub part_feet: u64,
    pub origin: u64,
    pub segments: Vec<Standing>,
}

/// How a segment stands after the last step: parts in it, parts in its ramp's queue, level letter, its part-feet so far.
#[derive(Clone, Debug, PartialEq, Eq)]
pub struct Standing {
    pub n: u64,
    pub q: u64,
    pub letter: u8,
    pub part_feet: u64,
}

impl Outcome {
    /// The numbers that the engine's interface must give for this outcome.
    pub fn numbers(&self) -> [u64; NUMBERS] {
        let mut numbers = [0; NUMBERS];
        match self {
            Outcome::Refused { number, place } => {
                numbers[0] = *number;
                numbers[1] = *place;
            }
            Outcome::Forecast(forecast) => {
                numbers[2] = forecast.segments.len() as u64;
                numbers[3] = forecast.arrived;
                numbers[4] = forecast.left;
                numbers[5] = forecast.stored;
                numbers[6] = forecast.part_steps;
                numbers[7] = forecast.part_feet;
                numbers[8] = forecast.origin;
                let places = numbers[NUMBERS_OF_THE_STUDY..].chunks_mut(NUMBERS_OF_A_SEGMENT);
                for (places, segment) in places.zip(&forecast.segments) {
                    places.copy_from_slice(&[segment.n, segment.q, segment.letter.into(), segment.part_feet]);
                }
            }
        }
        numbers
    }

    /// What the program `forecast` prints.
    pub fn listing(&self) -> String {
        let forecast = match self {
            Outcome::Refused { number, place } => return format!("refused {number} {place}\n"),
            Outcome::Forecast(forecast) => forecast,
        };
        let mut text = format!(
            "arrived {}\nleft {}\nstored {}\npartsteps {}\norigin {}\n",
            forecast.arrived, forecast.left, forecast.stored, forecast.part_steps, forecast.origin
        );
        for (i, segment) in forecast.segments.iter().enumerate() {
            let Standing { n, q, letter, part_feet } = segment;
            let _ = writeln!(text, "{} {n} {q} {} {part_feet}", i + 1, char::from(*letter));
        }
        let _ = writeln!(text, "partfeet {}", forecast.part_feet);
        text
    }
}
