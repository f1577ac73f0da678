//! The calls on a facility. A refused laying gives no facility here, so refusal 9 does not arise.

use super::sheets::{self, Entry, Layout, Period, Refusal, Road};
use super::step::{self, Flows, State};
use crate::course::Mark;

const STEPS_OF_A_PERIOD: u64 = 60;
pub const MOST_PERIODS: u64 = 96;

/// A facility whose period sheets are of one layout, by default the second.
#[derive(Clone, Debug)]
pub struct Facility<E = Entry> {
    road: Road,
    /// The road by what the sheet in force has open; before any sheet all lanes are.
    road_in_force: Road,
    state: State,
    last: Flows,
    /// What left each segment by its off-ramp in all steps, the sum of their off(y).
    total_off: Vec<u64>,
    /// All that left each segment, the sum of their y.
    total_y: Vec<u64>,
    /// Each segment's part-feet, the sum of every step's own y x L.
    part_feet: Vec<u64>,
    /// The sheet in force with the steps made under it.
    in_force: Option<(Period<E>, u64)>,
    taken: u64,
    arrived: u64,
    left: u64,
    part_steps: u64,
}

#[derive(Clone, Debug)]
pub struct Report {
    pub n: u64,
    pub q: u64,
    pub f: u64,
    pub r: u64,
    pub off: u64,
    pub y: u64,
    pub letter: u8,
    /// All off(y) since the laying
    pub total_off: u64,
    /// All y since the laying
    pub total_y: u64,
    /// All y x L since the laying
    pub part_feet: u64,
}

#[derive(Clone, Debug)]
pub struct Totals {
    pub arrived: u64,
    pub left: u64,
    pub stored: u64,
    pub part_steps: u64,
    /// Those of all segments
    pub part_feet: u64,
}

impl<E: Layout> Facility<E> {
    /// A new facility from the road at the front of `bytes`, and how many bytes it took.
    pub fn lay(bytes: &[u8]) -> Result<(Facility<E>, usize), Refusal> {
        let (road, used) = sheets::read_road(bytes)?;
        let ns = road.segments.len();
        let facility = Facility {
            road_in_force: road.clone(),
            road,
            state: State::fresh(ns),
            last: Flows::none(ns),
            total_off: vec![0; ns],
            total_y: vec![0; ns],
            part_feet: vec![0; ns],
            in_force: None,
            taken: 0,
            arrived: 0,
            left: 0,
            part_steps: 0,
        };
        Ok((facility, used))
    }

    /// Takes the period at the front of `bytes`, or where there is no byte the sheet in force once more; gives how many bytes it took.
    pub fn take(&mut self, bytes: &[u8]) -> Result<usize, Refusal> {
        if matches!(self.in_force, Some((_, made)) if made < STEPS_OF_A_PERIOD) {
            return Err(Refusal::plain(12));
        }
        if self.taken == MOST_PERIODS {
            return Err(Refusal::plain(13));
        }
        let used = match bytes {
            [] => self.repeat()?,
            _ => self.read(bytes)?,
        };
        self.taken += 1;
        Ok(used)
    }

    /// Begins a new period under the sheet in force, which stays as it is; no byte is used.
    fn repeat(&mut self) -> Result<usize, Refusal> {
        let (_, made) = self.in_force.as_mut().ok_or(Refusal::plain(10))?;
        *made = 0;
        Ok(0)
    }

    /// Begins a period under the sheet at the front of the bytes; gives how many bytes it took.
    fn read(&mut self, bytes: &[u8]) -> Result<usize, Refusal> {
        let (period, used) = sheets::read_period(bytes, &self.road)?;
        self.put_in_force(period);
        Ok(used)
    }

    /// Puts a sheet in force, with no step made under it yet.
    pub fn put_in_force(&mut self, period: Period<E>) {
        self.road_in_force = step::in_force(&self.road, &period);
        self.in_force = Some((period, 0));
    }

    /// Runs k steps under the sheet in force.
    pub fn run(&mut self, k: u64) -> Result<(), Refusal> {
        if !(1..=STEPS_OF_A_PERIOD).contains(&k) {
            return Err(Refusal::plain(5));
        }
        let Some((period, made)) = &mut self.in_force else { return Err(Refusal::plain(10)) };
        if STEPS_OF_A_PERIOD - *made < k {
            return Err(Refusal::plain(11));
        }
        for _ in 0..k {
            self.last = step::step(&self.road_in_force, period, &mut self.state);
            self.arrived += period.demand + period.entries.iter().map(E::ramp_demand).sum::<u64>();
            self.left += self.last.f[self.road.segments.len()] + self.last.off.iter().sum::<u64>();
            self.part_steps += self.arrived - self.left;
            add(&mut self.total_off, &self.last.off);
            add(&mut self.total_y, &self.last.y);
            add(&mut self.part_feet, &step::part_feet(&self.road_in_force, &self.last));
            *made += 1;
        }
        Ok(())
    }

    /// The report of segment `number`, from 1 on.
    pub fn report(&self, number: u64) -> Result<Report, Refusal> {
        if !(1..=self.segments()).contains(&number) {
            return Err(Refusal::plain(6));
        }
        let i = number as usize - 1;
        let segment = &self.road_in_force.segments[i];
        Ok(Report {
            n: self.state.n[i],
            q: self.state.q[i],
            f: self.last.f[i],
            r: self.last.r[i],
            off: self.last.off[i],
            y: self.last.y[i],
            letter: step::letter(segment, self.state.n[i]),
            total_off: self.total_off[i],
            total_y: self.total_y[i],
            part_feet: self.part_feet[i],
        })
    }

    /// Each segment's letter, and its open lanes.
    pub fn marks(&self) -> Vec<Mark> {
        let segments = self.road_in_force.segments.iter().zip(&self.state.n);
        segments.map(|(segment, &n)| Mark { letter: step::letter(segment, n), open: segment.lanes }).collect()
    }

    /// The remainders of all segments, which are in no answer.
    pub fn remainders(&self) -> &[u64] {
        &self.state.remainder
    }

    pub fn totals(&self) -> Totals {
        Totals {
            arrived: self.arrived,
            left: self.left,
            stored: self.state.stored(),
            part_steps: self.part_steps,
            part_feet: self.part_feet.iter().sum(),
        }
    }

    /// How many periods were taken, repeats of a sheet too.
    pub fn periods(&self) -> u64 {
        self.taken
    }

    /// How many steps remain under the sheet in force.
    pub fn remaining(&self) -> u64 {
        self.in_force.as_ref().map_or(0, |(_, made)| STEPS_OF_A_PERIOD - made)
    }

    /// NS
    pub fn segments(&self) -> u64 {
        self.road.segments.len() as u64
    }

    /// Whether the sheet in force closes a lane.
    pub fn has_closed_lane(&self) -> bool {
        let lanes = |road: &Road| road.segments.iter().map(|segment| segment.lanes).sum::<u64>();
        lanes(&self.road_in_force) < lanes(&self.road)
    }

    /// Whether it leaves a segment no capacity.
    pub fn has_segment_without_capacity(&self) -> bool {
        self.road_in_force.segments.iter().any(|segment| segment.capacity == 0)
    }

    /// Whether a segment is above the jam of its open lanes.
    pub fn has_segment_above_jam(&self) -> bool {
        let mut segments = self.road_in_force.segments.iter().zip(&self.state.n);
        segments.any(|(segment, &n)| n > step::jam(&self.road_in_force, segment))
    }

    pub fn road(&self) -> &Road {
        &self.road
    }

    /// o, the queue before node 1.
    pub fn origin(&self) -> u64 {
        self.state.o
    }

    /// The road's bytes, where a buffer of `room` bytes has room for them from `place` on.
    pub fn write_road(&self, room: u64, place: u64) -> Result<Vec<u8>, Refusal> {
        fitting(sheets::write_road(&self.road), room, place)
    }

    /// The bytes of the sheet in force, in the same way.
    pub fn write_period(&self, room: u64, place: u64) -> Result<Vec<u8>, Refusal> {
        let (period, _) = self.in_force.as_ref().ok_or(Refusal::plain(10))?;
        fitting(sheets::write_period(period), room, place)
    }
}

/// Adds what a step has to the sums, segment by segment.
fn add(sums: &mut [u64], step: &[u64]) {
    for (sum, addend) in sums.iter_mut().zip(step) {
        *sum += addend;
    }
}

/// The sheet's bytes; 7 where the buffer from the place on is shorter, or the place past its end.
fn fitting(bytes: Vec<u8>, room: u64, place: u64) -> Result<Vec<u8>, Refusal> {
    match place + bytes.len() as u64 <= room {
        true => Ok(bytes),
        false => Err(Refusal::plain(7)),
    }
}

#[cfg(test)]
mod tests {
    use super::*;
    use crate::random::{study, Layout};

    /// So many random studies have all styles among them.
    fn studies() -> impl Iterator<Item = Vec<u8>> {
        (0..1_000).map(|seed| study(seed, Layout::OFTEN_CLOSED))
    }

    /// Makes a period's steps one by one, and looks at the facility before and after each.
    fn run_step_by_step(facility: &mut Facility, look: &mut impl FnMut(&Facility, &Facility)) {
        for _ in 0..STEPS_OF_A_PERIOD {
            let before = facility.clone();
            facility.run(1).unwrap();
            look(&before, facility);
        }
    }

    /// Runs a study step by step as far as its sheets are accepted, and the last of them once more.
    fn run_and_repeated(study: &[u8], mut look: impl FnMut(&Facility, &Facility)) -> Option<Facility> {
        let (mut facility, mut start) = Facility::lay(study).ok()?;
        while start < study.len() {
            let Ok(used) = facility.take(&study[start..]) else { break };
            run_step_by_step(&mut facility, &mut look);
            start += used;
        }
        if facility.take(&[]).is_ok() {
            run_step_by_step(&mut facility, &mut look);
        }
        Some(facility)
    }

    fn reports(facility: &Facility) -> Vec<Report> {
        (1..=facility.segments()).map(|i| facility.report(i).unwrap()).collect()
    }

    /// Of all that left a segment so far, the off-ramp has exactly its share, rounded down, and the remainder is the rest.
    fn totals_are_exact(facility: &Facility) {
        let segments = facility.road.segments.iter().zip(facility.remainders());
        for (report, (segment, &remainder)) in reports(facility).iter().zip(segments) {
            let due = report.total_y * segment.share;
            assert_eq!((report.total_off, remainder), (due / 1000, due % 1000));
        }
    }

    #[test]
    fn an_off_ramps_total_is_exact_after_each_step() {
        let (mut runs, mut with_remainder) = (0, 0);
        for study in studies() {
            let run = run_and_repeated(&study, |_, after| totals_are_exact(after));
            if let Some(facility) = run.filter(|facility| facility.taken > 2) {
                runs += 1;
                with_remainder += usize::from(facility.remainders().iter().any(|&remainder| remainder > 0));
            }
        }
        assert!(runs > 300 && with_remainder > 200, "{runs} runs over periods, {with_remainder} with a remainder");
    }

    /// What left each segment in a step, by the states before and after it and the sheet alone: what came in and is not there. Of
    /// that the off-ramp got what the remainders do not have.
    fn left_in_step(before: &Facility, after: &Facility) -> Vec<u64> {
        let (period, _) = after.in_force.as_ref().unwrap();
        let (old, new) = (&before.state, &after.state);
        let mut let_in = old.o + period.demand - new.o;
        let segments = after.road.segments.iter().zip(&period.entries).enumerate();
        let left = segments.map(|(i, (segment, entry))| {
            let from_ramp = old.q[i] + entry.ramp_demand - new.q[i];
            let y = old.n[i] + let_in + from_ramp - new.n[i];
            let_in = y - (y * segment.share + old.remainder[i] - new.remainder[i]) / 1000;
            y
        });
        left.collect()
    }

    /// Runs a study, its part-feet worked out apart from all that is told, those of each segment and those of all in one sum.
    fn run_with_part_feet(study: &[u8]) -> Option<Facility> {
        let (mut by_segment, mut of_all) = (vec![0; 64], 0);
        run_and_repeated(study, |before, after| {
            let left = left_in_step(before, after);
            for ((sum, y), segment) in by_segment.iter_mut().zip(left).zip(&after.road.segments) {
                *sum += y * segment.length;
                of_all += y * segment.length;
            }
            let told: Vec<u64> = reports(after).iter().map(|report| report.part_feet).collect();
            assert_eq!(told, by_segment[..told.len()]);
            assert_eq!((after.totals().part_feet, told.iter().sum::<u64>()), (of_all, of_all));
        })
    }

    #[test]
    fn part_feet_are_the_steps_own_after_each_step() {
        let runs: Vec<Facility> = studies().filter_map(|study| run_with_part_feet(&study)).collect();
        let above = |least: u64| runs.iter().filter(|run| run.part_feet.iter().any(|&sum| sum > least)).count();
        // of a whole day on the longest segments the last
        let counts = [0, u32::MAX.into(), 3_000_000_000_000].map(above);
        assert!(counts[0] > 500 && counts[1] > 50 && counts[2] > 0, "runs with more and more part-feet: {counts:?}");
        let with_closed_lane = runs.iter().filter(|run| run.has_closed_lane() && run.totals().part_feet > 0).count();
        assert!(with_closed_lane > 100, "{with_closed_lane} with part-feet and a closed lane");
    }
}
