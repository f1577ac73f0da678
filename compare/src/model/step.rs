//! One step, rule by rule. Segment i of the rules is index i - 1 here; node i is the entrance of segment i.
//!
//! The rules are those of a road in force: N is the number of open lanes there, and C the capacity that these have.

use super::sheets::{Layout, Period, Road, Segment};

/// What stands on the road: parts in each segment, in each ramp's queue, and before node 1; and what each segment's last split
/// left undivided, in thousandths of a part.
#[derive(Clone, Debug)]
pub struct State {
    pub n: Vec<u64>,
    pub q: Vec<u64>,
    pub o: u64,
    pub remainder: Vec<u64>,
}

/// What moved in one step: over each node from the mainline (the exit too) and from the ramp, out of each segment, and of that
/// over its off-ramp.
#[derive(Clone, Debug)]
pub struct Flows {
    pub f: Vec<u64>,
    pub r: Vec<u64>,
    pub y: Vec<u64>,
    pub off: Vec<u64>,
}

impl State {
    pub fn fresh(ns: usize) -> State {
        State { n: vec![0; ns], q: vec![0; ns], o: 0, remainder: vec![0; ns] }
    }

    pub fn stored(&self) -> u64 {
        self.n.iter().sum::<u64>() + self.q.iter().sum::<u64>() + self.o
    }
}

impl Flows {
    pub fn none(ns: usize) -> Flows {
        Flows { f: vec![0; ns + 1], r: vec![0; ns], y: vec![0; ns], off: vec![0; ns] }
    }
}

/// The road that is in force under a sheet: each segment as its entry has it.
pub fn in_force<E: Layout>(road: &Road, period: &Period<E>) -> Road {
    let segments = road.segments.iter().zip(&period.entries).map(|(segment, entry)| entry.in_force(segment));
    Road { segments: segments.collect(), ..*road }
}

/// J: what the segment holds when jammed.
pub fn jam(road: &Road, segment: &Segment) -> u64 {
    road.jam_density * segment.lanes * segment.length / 22
}

/// Q: what the segment holds at capacity.
fn at_capacity(road: &Road, segment: &Segment) -> u64 {
    road.capacity_density * segment.lanes * segment.length / 22
}

/// How a segment's leaving parts divide in a step: by its share, and with the remainder of the step's start.
#[derive(Clone, Copy)]
struct Split {
    share: u64,
    remainder: u64,
}

impl Split {
    fn of(segment: &Segment, remainder: u64) -> Split {
        Split { share: segment.share, remainder }
    }

    /// off(y): what takes the off-ramp, of y parts leaving.
    fn off(self, y: u64) -> u64 {
        (y * self.share + self.remainder) / 1000
    }

    /// through(y): what goes on along the mainline, of y parts leaving.
    fn through(self, y: u64) -> u64 {
        y - self.off(y)
    }

    /// The remainder after the step: what the division for off(y) leaves, of the y parts that really leave.
    fn remainder_after(self, y: u64) -> u64 {
        (y * self.share + self.remainder) % 1000
    }
}

/// The largest y up to `limit` that fits, by bisection: 0 fits, and whatever is below a fitting y.
fn largest(limit: u64, fits: impl Fn(u64) -> bool) -> u64 {
    if fits(limit) {
        return limit;
    }
    let (mut fitting, mut failing) = (0, limit);
    while failing - fitting > 1 {
        let middle = (fitting + failing) / 2;
        if fits(middle) {
            fitting = middle;
        } else {
            failing = middle;
        }
    }
    fitting
}

/// D: what wishes to leave a segment that holds n.
fn wish_to_leave(segment: &Segment, n: u64) -> u64 {
    let reaching_the_end = (n * 22 * segment.speed).div_ceil(segment.length);
    n.min(segment.capacity).min(reaching_the_end)
}

/// Y0: the largest y up to D whose off-ramp part the off-ramp can take.
fn could_leave(segment: &Segment, split: Split, n: u64) -> u64 {
    largest(wish_to_leave(segment, n), |y| split.off(y) <= segment.off_capacity)
}

/// E: the capacity at the entrance, dropped behind a queue.
fn entrance_capacity(road: &Road, segment: &Segment, queue_before: bool) -> u64 {
    if queue_before {
        segment.capacity * (100 - road.drop) / 100
    } else {
        segment.capacity
    }
}

/// P: what a segment that holds n can take; above its jam, where closed lanes may leave it, that is nothing.
fn supply(road: &Road, segment: &Segment, n: u64, queue_before: bool) -> u64 {
    let room = jam(road, segment).saturating_sub(n);
    let backward = segment.capacity * room / (jam(road, segment) - at_capacity(road, segment));
    entrance_capacity(road, segment, queue_before).min(room).min(backward)
}

/// The merge: r and f, from the supply P, the mainline's wish M, the ramp's wish W and the lanes N.
fn merge(p: u64, m: u64, w: u64, lanes: u64) -> (u64, u64) {
    let r = w.min(p.saturating_sub(m).max(p / (2 * lanes)));
    (r, m.min(p - r))
}

/// y: the largest y up to Y0 whose through part the next node let in.
fn leaving(split: Split, y0: u64, let_in: u64) -> u64 {
    largest(y0, |y| split.through(y) <= let_in)
}

/// One step on a road in force: every flow is worked out from the state at the step's start, then all move at once.
pub fn step<E: Layout>(road: &Road, period: &Period<E>, state: &mut State) -> Flows {
    let splits = splits(road, state);
    let flows = flows(road, period, state, &splits);
    for i in 0..road.segments.len() {
        state.n[i] = state.n[i] + flows.f[i] + flows.r[i] - flows.y[i];
        state.q[i] = state.q[i] + period.entries[i].ramp_demand() - flows.r[i];
        state.remainder[i] = splits[i].remainder_after(flows.y[i]);
    }
    state.o = state.o + period.demand - flows.f[0];
    flows
}

/// Each segment's split in the step that starts from the state.
fn splits(road: &Road, state: &State) -> Vec<Split> {
    let segments = road.segments.iter().zip(&state.remainder);
    segments.map(|(segment, &remainder)| Split::of(segment, remainder)).collect()
}

fn flows<E: Layout>(road: &Road, period: &Period<E>, state: &State, splits: &[Split]) -> Flows {
    let ns = road.segments.len();
    let y0: Vec<u64> = (0..ns).map(|i| could_leave(&road.segments[i], splits[i], state.n[i])).collect();
    // M at node i + 1, the exit included
    let wish = |i: usize| match i {
        0 => state.o + period.demand,
        _ => splits[i - 1].through(y0[i - 1]),
    };
    let mut flows = Flows::none(ns);
    for (i, segment) in road.segments.iter().enumerate() {
        let queue_before = match i {
            0 => state.o > 0,
            _ => state.n[i - 1] > at_capacity(road, &road.segments[i - 1]),
        };
        let p = supply(road, segment, state.n[i], queue_before);
        let entry = &period.entries[i];
        let w = (state.q[i] + entry.ramp_demand()).min(segment.ramp_capacity).min(entry.meter());
        (flows.r[i], flows.f[i]) = merge(p, wish(i), w, segment.lanes);
    }
    flows.f[ns] = wish(ns).min(period.exit_capacity);
    for (i, split) in splits.iter().enumerate() {
        flows.y[i] = leaving(*split, y0[i], flows.f[i + 1]);
        flows.off[i] = split.off(flows.y[i]);
    }
    flows
}

/// The part-feet of a step, segment by segment: all that left, times the segment's length in force.
pub fn part_feet(road: &Road, flows: &Flows) -> Vec<u64> {
    road.segments.iter().zip(&flows.y).map(|(segment, y)| y * segment.length).collect()
}

/// The level letter of a segment that holds n.
pub fn letter(segment: &Segment, n: u64) -> u8 {
    letter_of(n, segment.length, segment.lanes)
}

/// The level letter of n parts over so many feet and lanes, by vehicles per mile per lane: 240 parts are a vehicle, 5,280 ft a mile.
pub fn letter_of(n: u64, length: u64, lanes: u64) -> u8 {
    let [n, length, lanes] = [n, length, lanes].map(u128::from);
    letter_by(|limit| 5_280 * n <= u128::from(limit) * length * lanes * 240)
}

/// The letter of the first limit, in vehicles per mile per lane, that something is within.
pub fn letter_by(within: impl Fn(u64) -> bool) -> u8 {
    let limits = [(b'A', 11), (b'B', 18), (b'C', 26), (b'D', 35), (b'E', 45)];
    limits.iter().find(|&&(_, limit)| within(limit)).map_or(b'F', |&(letter, _)| letter)
}

#[cfg(test)]
mod tests {
    use super::super::sheets::Entry;
    use super::*;

    fn with_off_ramp(share: u64, off_capacity: u64) -> Segment {
        Segment { length: 300, lanes: 1, speed: 85, capacity: 20_000, ramp_capacity: 0, share, off_capacity }
    }

    #[test]
    fn worked_merges() {
        assert_eq!(merge(4000, 3900, 500, 2), (500, 3500));
        assert_eq!(merge(4000, 3900, 1500, 2), (1000, 3000));
        assert_eq!(merge(4000, 1000, 4000, 2), (3000, 1000));
    }

    #[test]
    fn worked_splits() {
        let segment = with_off_ramp(250, 1);
        let split = Split::of(&segment, 0);
        assert_eq!(could_leave(&segment, split, 7), 7);
        assert_eq!(leaving(split, 7, 4), 5);
        assert_eq!(split.off(5), 1);
        assert_eq!(could_leave(&segment, split, 9), 7);
    }

    #[test]
    fn splits_with_a_remainder() {
        let segment = with_off_ramp(250, 1);
        let split = Split::of(&segment, 750);
        assert_eq!([0, 1, 4, 5].map(|y| split.off(y)), [0, 1, 1, 2]);
        assert_eq!([0, 1, 2, 4].map(|y| split.remainder_after(y)), [750, 0, 250, 750]);
        assert_eq!(could_leave(&segment, split, 9), 4);
        // of one part leaving none goes through
        assert_eq!([0, 1, 2, 3].map(|let_in| leaving(split, 4, let_in)), [1, 2, 3, 4]);
        // where none or all take the off-ramp, the remainder stays
        assert_eq!([0, 1000].map(|share| Split { share, remainder: 7 }.remainder_after(5)), [7, 7]);
    }

    /// What takes the off-ramp in each of so many steps in which y parts leave, and the remainder after each.
    fn steps_of(share: u64, y: u64, steps: usize) -> Vec<(u64, u64)> {
        let next = |remainder: &mut u64, y: u64| {
            let split = Split { share, remainder: *remainder };
            *remainder = split.remainder_after(y);
            Some((split.off(y), *remainder))
        };
        std::iter::repeat_n(y, steps).scan(0, next).collect()
    }

    #[test]
    fn an_off_ramp_gets_its_fraction() {
        assert_eq!(steps_of(333, 1, 4), [(0, 333), (0, 666), (0, 999), (1, 332)]);
        assert_eq!(steps_of(999, 1, 3), [(0, 999), (1, 998), (1, 997)]);
        assert_eq!(steps_of(333, 7, 3), [(2, 331), (2, 662), (2, 993)]);
        for share in [0, 1, 250, 333, 999, 1000] {
            let total: u64 = steps_of(share, 7, 500).iter().map(|(off, _)| off).sum();
            assert_eq!(total, 500 * 7 * share / 1000);
        }
    }

    /// Of a shut off-ramp the remainder never empties, and 999 / s parts leave in all.
    #[test]
    fn a_shut_off_ramp_holds_all_back_at_last() {
        for share in [1, 3, 250, 333, 999, 1000] {
            let segment = with_off_ramp(share, 0);
            let (mut left, mut remainder) = (0, 0);
            for _ in 0..1_000 {
                let split = Split::of(&segment, remainder);
                let y = could_leave(&segment, split, 7);
                (left, remainder) = (left + y, split.remainder_after(y));
            }
            assert_eq!(left, 999 / share);
        }
    }

    #[test]
    fn the_step_moves_by_the_remainder_of_its_start() {
        let road = Road { jam_density: 190, capacity_density: 45, drop: 7, segments: vec![with_off_ramp(333, 10); 2] };
        let entry = || Entry { ramp_demand: 0, meter: 0, open_lanes: 1 };
        let period = Period { demand: 0, exit_capacity: 100, entries: vec![entry(), entry()] };
        let mut state = State { n: vec![4, 4], q: vec![0; 2], o: 0, remainder: vec![999, 0] };
        let flows = step(&road, &period, &mut state);
        // 4 * 333 is 1,332; with 999 it is 2,331
        assert_eq!((flows.off, flows.y, flows.f), (vec![2, 1], vec![4, 4], vec![0, 2, 3]));
        assert_eq!((state.n, state.remainder), (vec![0, 2], vec![331, 332]));
    }

    /// A road of one segment, 8 lanes of 300 ft, with so many lanes open.
    fn with_open_lanes(capacity: u64, open_lanes: u64) -> Road {
        let segment = Segment { lanes: 8, capacity, ..with_off_ramp(0, 0) };
        let road = Road { jam_density: 190, capacity_density: 45, drop: 7, segments: vec![segment] };
        let entry = Entry { ramp_demand: 0, meter: 0, open_lanes };
        in_force(&road, &Period { demand: 0, exit_capacity: 0, entries: vec![entry] })
    }

    #[test]
    fn capacity_of_open_lanes() {
        let capacity = |c, open_lanes| with_open_lanes(c, open_lanes).segments[0].capacity;
        assert_eq!([1, 7, 8].map(|open_lanes| capacity(1, open_lanes)), [0, 0, 1]);
        assert_eq!([1, 5, 8].map(|open_lanes| capacity(7_999, open_lanes)), [999, 4_999, 7_999]);
        // the drop rounds a second time: 4,999 * 93 / 100
        let road = with_open_lanes(7_999, 5);
        assert_eq!(entrance_capacity(&road, &road.segments[0], true), 4_649);
    }

    #[test]
    fn jam_and_letter_of_open_lanes() {
        let (open, closed) = (with_open_lanes(8_000, 8), with_open_lanes(8_000, 3));
        assert_eq!([&open, &closed].map(|road| jam(road, &road.segments[0])), [20_727, 7_772]);
        assert_eq!([&open, &closed].map(|road| at_capacity(road, &road.segments[0])), [4_909, 1_840]);
        assert_eq!([&open, &closed].map(|road| letter(&road.segments[0], 1_200)), [b'A', b'D']);
    }

    #[test]
    fn nothing_enters_above_the_jam() {
        let road = with_open_lanes(8_000, 3);
        let taken = |n| supply(&road, &road.segments[0], n, false);
        assert_eq!([7_770, 7_771, 7_772, 7_773, 20_727].map(taken), [1, 0, 0, 0, 0]);
    }

    #[test]
    fn bisection_finds_what_a_walk_finds() {
        for share in [0, 1, 250, 333, 500, 999, 1000] {
            for (bound, remainder) in [0, 1, 2, 7, 40, 200].into_iter().flat_map(|b| [0, 1, 500, 999].map(|r| (b, r))) {
                let split = Split { share, remainder };
                for limit in 0..60 {
                    let walk = |fits: &dyn Fn(u64) -> bool| (0..=limit).rev().find(|&y| fits(y)).unwrap();
                    let by_off = |y: u64| split.off(y) <= bound;
                    let by_through = |y: u64| split.through(y) <= bound;
                    assert_eq!(largest(limit, by_off), walk(&by_off));
                    assert_eq!(largest(limit, by_through), walk(&by_through));
                }
            }
        }
    }
}
