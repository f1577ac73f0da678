//! Random lists of calls on random roads: most of them suit the facility on which they are made, the others are refused in every way.

use super::{mostly_sound, segments};
use super::{Fields, Layout, Random, Style, STYLES};
use crate::calls::{Buffer, Call};
use crate::model::facility::{Facility, MOST_PERIODS};

/// A list in the making.
pub struct List {
    random: Random,
    /// The road that was laid last, or is to be.
    road: Fields,
    /// Whether the next call is a laying in any case.
    lays: bool,
    /// Whether all periods of a day have to be taken first.
    day: bool,
    /// How many calls are still to be made, after that day.
    more: u64,
    /// In how many percent of the takings no bytes are given, which repeat the sheet in force; before any sheet in a quarter at most.
    repeating: u64,
}

/// Most lists repeat a sheet now and then, some take hardly a new one.
const REPEATING: [u64; 5] = [5, 15, 25, 25, 80];

/// A road, mostly in light traffic, where off-ramps get less than a part a step; a short one where a whole day is run on it, in a
/// quarter of these cases of the longest segments.
fn road(random: &mut Random, day: bool) -> Fields {
    let ns = if day && random.chance(90) { random.within(1, 6) } else { segments(random) };
    let style = match random.chance(40) {
        _ if day && random.chance(25) => Style::Largest,
        true => Style::Light,
        false => random.pick(&STYLES),
    };
    let mut road = Fields::new(random.split(), Layout::OFTEN_CLOSED, style);
    road.road(ns);
    road
}

impl Fields {
    /// A new period sheet for the road, alone.
    fn sheet(&mut self, layout: Layout) -> Fields {
        let start = self.all.len();
        self.layout = layout;
        self.period(self.lanes.len() as u64);
        self.sheets.pop();
        let all = self.all.split_off(start);
        Fields { random: self.random.split(), all, sheets: vec![0], lanes: self.lanes.clone(), ..*self }
    }
}

impl List {
    /// The list of one seed. It begins with a laying, but for some of those that may begin on the empty facility.
    pub fn new(seed: u64, on_empty: bool) -> List {
        let mut random = Random::new(seed);
        let day = random.chance(4);
        let more = if random.chance(25) { random.within(1, 15) } else { random.within(20, 160) };
        let lays = !on_empty || random.chance(50);
        let repeating = random.pick(&REPEATING);
        List { road: road(&mut random, day), random, lays, day, more, repeating }
    }

    /// The next call, on the facility as the calls before left it; none at the list's end.
    pub fn next(&mut self, facility: Option<&Facility>) -> Option<Call> {
        if facility.is_some_and(|facility| facility.periods() == MOST_PERIODS) {
            self.day = false;
        }
        if !self.day {
            self.more = self.more.checked_sub(1)?;
        }
        let remaining = facility.map_or(0, Facility::remaining);
        let percent_onward = if self.day { 70 } else { 45 };
        Some(match facility {
            _ if std::mem::take(&mut self.lays) => self.lay(),
            None if self.random.chance(60) => self.lay(),
            _ if self.random.chance(percent_onward) => match remaining {
                0 => self.take(facility),
                _ => self.run(remaining),
            },
            _ => self.any(facility, remaining),
        })
    }

    /// Any call. A laying would end a day's run.
    fn any(&mut self, facility: Option<&Facility>, remaining: u64) -> Call {
        match self.random.within(1, 100) {
            1..=45 => self.report(),
            46..=56 => Call::Totals,
            57..=65 => {
                let written = facility.and_then(|facility| written(facility.write_road(65_536, 0)));
                Call::WriteRoad(self.buffer(written))
            }
            66..=74 => {
                let written = facility.and_then(|facility| written(facility.write_period(65_536, 0)));
                Call::WritePeriod(self.buffer(written))
            }
            75..=84 => self.run(remaining),
            85..=95 => self.take(facility),
            _ if self.day => Call::Totals,
            _ => self.lay(),
        }
    }

    /// Another road, or the same once more; for a day's run a sound one.
    fn lay(&mut self) -> Call {
        if self.random.chance(70) {
            self.road = road(&mut self.random, self.day);
        }
        let sheet = Fields { random: self.random.split(), ..self.road.clone() };
        Call::Lay(if self.day { sheet.bytes() } else { mostly_sound(&mut self.random, sheet) })
    }

    /// No bytes, or a sheet for the road, or for another, or of the first layout.
    fn take(&mut self, facility: Option<&Facility>) -> Call {
        let has_sheet = facility.is_some_and(|facility| facility.periods() > 0);
        let percent = if has_sheet { self.repeating } else { self.repeating.min(25) };
        if self.random.chance(percent) {
            return self.repeat();
        }
        let sheet = match self.random.within(1, 100) {
            1..=5 => road(&mut self.random, true).sheet(Layout::OFTEN_CLOSED),
            6..=8 => self.road.sheet(Layout::First),
            _ => self.road.sheet(Layout::OFTEN_CLOSED),
        };
        Call::Take(mostly_sound(&mut self.random, sheet))
    }

    /// No bytes; now and then a single one, which is a sheet whose NS is wrong.
    fn repeat(&mut self) -> Call {
        Call::Take(if self.random.chance(6) { vec![0] } else { Vec::new() })
    }

    fn run(&mut self, remaining: u64) -> Call {
        let any = self.any_number();
        Call::Run(match self.random.within(1, 100) {
            1..=40 => remaining,
            41..=55 => 1,
            56..=85 => self.random.within(1, remaining.max(1)),
            86..=90 => self.random.within(1, 60),
            91..=94 => remaining + 1,
            _ => self.random.pick(&[0, 60, 61, 61, 64, 256, 65_537, 4_294_967_295, any]),
        })
    }

    fn report(&mut self) -> Call {
        let (ns, any) = (self.road.lanes.len() as u64, self.any_number());
        Call::Report(match self.random.within(1, 100) {
            1..=88 => self.random.within(1, ns),
            _ => self.random.pick(&[0, ns + 1, ns + 1, 64, 65, 256 + ns, 4_294_967_295, any]),
        })
    }

    fn any_number(&mut self) -> u64 {
        self.random.within(0, 4_294_967_295)
    }

    /// A buffer for so many bytes, often the usual one, often just large enough or just too small.
    fn buffer(&mut self, length: Option<u64>) -> Buffer {
        let length = length.unwrap_or(20);
        if self.random.chance(40) {
            return Buffer::USUAL;
        }
        let near = self.random.within(0, 300);
        let place = self.random.pick(&[0, 0, 1, near, 65_536 - length, 65_537 - length, 65_536, 4_294_967_295]);
        let end = place + length;
        let room = self.random.pick(&[0, near, place, end - 1, end - 1, end, end, end + near, 65_536]);
        Buffer { room: room.min(65_536), place }
    }
}

/// How many bytes were written.
fn written<R>(bytes: Result<Vec<u8>, R>) -> Option<u64> {
    bytes.ok().map(|bytes| bytes.len() as u64)
}
