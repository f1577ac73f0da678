//! The engine's job in idiomatic Rust: what the engine is timed against. Each rule is a method by its closed form, a step is
//! one pass over the segments, every cell keeps the last step's flows, the totals and the part-feet for reports; nothing is tuned
//! beyond that.

use crate::model::sheets::{read_period, read_road, Entry, Period, Refusal, Road, Segment};
use crate::outcome::{Forecast, Outcome, Standing};

/// A whole study, from its bytes to the listing's numbers.
pub fn forecast(study: &[u8]) -> Outcome {
    match run(study) {
        Ok(facility) => Outcome::Forecast(facility.forecast()),
        Err(Refusal { number, offset }) => Outcome::Refused { number, place: offset as u64 },
    }
}

/// Both totals of each segment of a study, none where it is refused.
#[cfg(test)]
pub fn totals(study: &[u8]) -> Option<Vec<(u64, u64)>> {
    let facility = run(study).ok()?;
    Some(facility.cells.iter().map(|cell| (cell.total_off, cell.total_out)).collect())
}

fn run(study: &[u8]) -> Result<Facility, Refusal> {
    let (road, mut start) = read_road(study)?;
    let mut facility = Facility::fresh(road);
    let mut periods = 0;
    while start < study.len() {
        if periods == 96 {
            return Err(Refusal::plain(13).in_file(start));
        }
        let (period, used) = read_period(&study[start..], &facility.road).map_err(|refusal| refusal.in_file(start))?;
        facility.open_road = facility.road.opened_by(&period);
        for _ in 0..60 {
            facility.step(&period);
        }
        start += used;
        periods += 1;
    }
    Ok(facility)
}

/// A segment's state, with the last step's flows, both totals and the part-feet as a report would show them.
#[derive(Clone, Copy, Default)]
#[allow(dead_code)]
struct Cell {
    n: u64,
    q: u64,
    main: u64,
    ramp: u64,
    off: u64,
    out: u64,
    remainder: u64,
    total_off: u64,
    total_out: u64,
    part_feet: u64,
}

#[derive(Clone, Copy)]
struct Inflow {
    main: u64,
    ramp: u64,
}

struct Facility {
    road: Road,
    /// The road by the open lanes of the period in force.
    open_road: Road,
    cells: Vec<Cell>,
    origin: u64,
    exit: u64,
    arrived: u64,
    left: u64,
    part_steps: u64,
}

impl Segment {
    /// What the off-ramp is due, in thousandths of a part.
    fn due(&self, leaving: u64, remainder: u64) -> u64 {
        leaving * self.share + remainder
    }

    fn wish_to_leave(&self, n: u64) -> u64 {
        n.min(self.capacity).min((n * 22 * self.speed).div_ceil(self.length))
    }

    fn with_lanes(&self, open: u64) -> Segment {
        Segment { lanes: open, capacity: self.capacity * open / self.lanes, ..*self }
    }

    fn could_leave(&self, cell: &Cell) -> u64 {
        let wish = self.wish_to_leave(cell.n);
        match self.share {
            0 => wish,
            share => wish.min(((self.off_capacity + 1) * 1000 - 1 - cell.remainder) / share),
        }
    }

    fn leaving(&self, most: u64, let_in: u64, remainder: u64) -> u64 {
        match self.share {
            1000 => most,
            share => most.min((1000 * let_in + remainder) / (1000 - share)),
        }
    }
}

impl Road {
    fn opened_by(&self, period: &Period) -> Road {
        let opened = |(segment, entry): (&Segment, &Entry)| segment.with_lanes(entry.open_lanes);
        Road { segments: self.segments.iter().zip(&period.entries).map(opened).collect(), ..*self }
    }

    fn jam(&self, segment: &Segment) -> u64 {
        self.jam_density * segment.lanes * segment.length / 22
    }

    fn at_capacity(&self, segment: &Segment) -> u64 {
        self.capacity_density * segment.lanes * segment.length / 22
    }

    fn supply(&self, segment: &Segment, n: u64, queue_before: bool) -> u64 {
        let entrance = if queue_before { segment.capacity * (100 - self.drop) / 100 } else { segment.capacity };
        let room = self.jam(segment).saturating_sub(n);
        let backward = segment.capacity * room / (self.jam(segment) - self.at_capacity(segment));
        entrance.min(room).min(backward)
    }

    fn inflow(&self, segment: &Segment, entry: &Entry, cell: &Cell, wish: u64, queue_before: bool) -> Inflow {
        let supply = self.supply(segment, cell.n, queue_before);
        let ramp_wish = (cell.q + entry.ramp_demand).min(segment.ramp_capacity).min(entry.meter);
        let ramp = ramp_wish.min(supply.saturating_sub(wish).max(supply / (2 * segment.lanes)));
        Inflow { main: wish.min(supply - ramp), ramp }
    }
}

impl Facility {
    fn fresh(road: Road) -> Facility {
        let cells = vec![Cell::default(); road.segments.len()];
        Facility { open_road: road.clone(), road, cells, origin: 0, exit: 0, arrived: 0, left: 0, part_steps: 0 }
    }

    fn step(&mut self, period: &Period) {
        let Facility { open_road: road, cells, .. } = self;
        let segments = &road.segments;
        let wish = self.origin + period.demand;
        let mut inflow = road.inflow(&segments[0], &period.entries[0], &cells[0], wish, self.origin > 0);
        self.origin = wish - inflow.main;
        let mut left = 0;
        for i in 0..segments.len() {
            let (segment, cell) = (&segments[i], cells[i]);
            let most = segment.could_leave(&cell);
            let wish = most - segment.due(most, cell.remainder) / 1000;
            let ahead = match segments.get(i + 1) {
                Some(next) => {
                    road.inflow(next, &period.entries[i + 1], &cells[i + 1], wish, cell.n > road.at_capacity(segment))
                }
                None => Inflow { main: wish.min(period.exit_capacity), ramp: 0 },
            };
            let out = segment.leaving(most, ahead.main, cell.remainder);
            let due = segment.due(out, cell.remainder);
            cells[i] = Cell {
                n: cell.n + inflow.main + inflow.ramp - out,
                q: cell.q + period.entries[i].ramp_demand - inflow.ramp,
                main: inflow.main,
                ramp: inflow.ramp,
                off: due / 1000,
                out,
                remainder: due % 1000,
                total_off: cell.total_off + due / 1000,
                total_out: cell.total_out + out,
                part_feet: cell.part_feet + out * segment.length,
            };
            left += due / 1000;
            inflow = ahead;
        }
        self.exit = inflow.main;
        self.arrived += period.demand + period.entries.iter().map(|entry| entry.ramp_demand).sum::<u64>();
        self.left += left + self.exit;
        self.part_steps += self.arrived - self.left;
    }

    fn forecast(&self) -> Forecast {
        let standing = |(segment, cell): (&Segment, &Cell)| Standing {
            n: cell.n,
            q: cell.q,
            letter: letter(cell.n, segment.length * segment.lanes),
            part_feet: cell.part_feet,
        };
        Forecast {
            arrived: self.arrived,
            left: self.left,
            stored: self.cells.iter().map(|cell| cell.n + cell.q).sum::<u64>() + self.origin,
            part_steps: self.part_steps,
            part_feet: self.cells.iter().map(|cell| cell.part_feet).sum(),
            origin: self.origin,
            segments: self.open_road.segments.iter().zip(&self.cells).map(standing).collect(),
        }
    }
}

fn letter(n: u64, area: u64) -> u8 {
    let limits = [11, 18, 26, 35, 45];
    b'A' + limits.iter().filter(|&&limit| 22 * n > limit * area).count() as u8
}
