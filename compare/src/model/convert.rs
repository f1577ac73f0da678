//! The conversion of a whole study: from the first layout to the second with every lane open, and back.

use super::facility::MOST_PERIODS;
use super::first;
use super::sheets::{self, Entry, Layout, Period, Refusal, Road};
use std::fmt::{Display, Formatter};

#[derive(Clone, Copy, Debug, PartialEq, Eq)]
pub enum Way {
    ToSecond,
    ToFirst,
}

impl Display for Way {
    fn fmt(&self, f: &mut Formatter) -> std::fmt::Result {
        f.write_str(match self {
            Way::ToSecond => "to-second",
            Way::ToFirst => "to-first",
        })
    }
}

impl Way {
    pub fn back(self) -> Way {
        match self {
            Way::ToSecond => Way::ToFirst,
            Way::ToFirst => Way::ToSecond,
        }
    }
}

/// What a target of `room` bytes gets for a study. A refusal's offset counts from the study's start.
pub fn convert(way: Way, study: &[u8], room: usize) -> Result<Vec<u8>, Refusal> {
    let converted = match way {
        Way::ToSecond => rewritten(study, every_lane_open)?,
        Way::ToFirst => rewritten(study, without_open_lanes)?,
    };
    if converted.len() > room {
        return Err(Refusal::plain(7));
    }
    Ok(converted)
}

/// How a sheet becomes one of the other layout.
type Rewrite<From, To> = fn(&Road, Period<From>) -> Result<Period<To>, Refusal>;

/// The road's bytes as they are, then every sheet rewritten.
fn rewritten<From: Layout, To: Layout>(study: &[u8], rewrite: Rewrite<From, To>) -> Result<Vec<u8>, Refusal> {
    let (road, mut start) = sheets::read_road(study)?;
    let mut bytes = study[..start].to_vec();
    let mut read = 0;
    while start < study.len() {
        let in_file = |refusal: Refusal| refusal.in_file(start);
        if read == MOST_PERIODS {
            return Err(in_file(Refusal::plain(13)));
        }
        let (period, used) = sheets::read_period(&study[start..], &road).map_err(in_file)?;
        bytes.extend(sheets::write_period(&rewrite(&road, period).map_err(in_file)?));
        read += 1;
        start += used;
    }
    Ok(bytes)
}

fn every_lane_open(road: &Road, period: Period<first::Entry>) -> Result<Period, Refusal> {
    let opened = |(entry, lanes): (&first::Entry, u64)| Entry {
        ramp_demand: entry.ramp_demand,
        meter: entry.meter,
        open_lanes: lanes,
    };
    let lanes = road.segments.iter().map(|segment| segment.lanes);
    let entries = period.entries.iter().zip(lanes).map(opened).collect();
    Ok(Period { demand: period.demand, exit_capacity: period.exit_capacity, entries })
}

/// Refused by 16 where a lane is closed, at the first open lanes that are fewer than their segment's.
fn without_open_lanes(road: &Road, period: Period) -> Result<Period<first::Entry>, Refusal> {
    let mut segments = period.entries.iter().zip(&road.segments);
    if let Some(i) = segments.position(|(entry, segment)| entry.open_lanes < segment.lanes) {
        // every number has its shortest form, so that those before it tell where it stands
        let before = &sheets::period_numbers(&period)[..3 + 3 * i + 2];
        return Err(Refusal { number: 16, offset: sheets::written(before).len() });
    }
    let kept = |entry: &Entry| first::Entry { ramp_demand: entry.ramp_demand, meter: entry.meter };
    let entries = period.entries.iter().map(kept).collect();
    Ok(Period { demand: period.demand, exit_capacity: period.exit_capacity, entries })
}

#[cfg(test)]
mod tests {
    use super::*;

    /// Two segments, of 3 and 2 lanes.
    const ROAD: [u64; 18] = [2, 190, 45, 7, 2640, 3, 60, 6600, 0, 0, 0, 2640, 2, 60, 4400, 900, 0, 0];
    const FIRST: [u64; 7] = [2, 6000, 20_000, 0, 0, 300, 900];
    const SECOND: [u64; 9] = [2, 6000, 20_000, 0, 0, 3, 300, 900, 2];

    fn study(sheets: &[&[u64]]) -> Vec<u8> {
        sheets::written(&[&[&ROAD[..]], sheets].concat().concat())
    }

    fn refused(number: u64, offset: usize) -> Result<Vec<u8>, Refusal> {
        Err(Refusal { number, offset })
    }

    #[test]
    fn there_and_back() {
        for sheets in [0, 1, 2, 96] {
            let first = study(&vec![&FIRST[..]; sheets]);
            let second = study(&vec![&SECOND[..]; sheets]);
            assert_eq!(convert(Way::ToSecond, &first, second.len()), Ok(second.clone()));
            assert_eq!(convert(Way::ToFirst, &second, first.len()), Ok(first.clone()));
            assert_eq!(convert(Way::ToSecond, &first, second.len() - 1), refused(7, 0));
            assert_eq!(convert(Way::ToFirst, &second, first.len() - 1), refused(7, 0));
        }
    }

    #[test]
    fn a_97th_sheet_is_refused_unread() {
        let (first, second) = (study(&[&FIRST[..]; 96]), study(&[&SECOND[..]; 96]));
        let with_a_byte = |study: &[u8]| [study, &[0x80]].concat();
        assert_eq!(convert(Way::ToSecond, &with_a_byte(&first), 0), refused(13, first.len()));
        assert_eq!(convert(Way::ToFirst, &with_a_byte(&second), 0), refused(13, second.len()));
    }

    #[test]
    fn a_closed_lane_goes_not_back() {
        let closed = [2, 6000, 20_000, 0, 0, 3, 300, 900, 1];
        let both_closed = [2, 6000, 20_000, 0, 0, 2, 300, 900, 1];
        // of a sheet's 14 bytes 6 stand before its entries; the first entry takes 3 bytes, the second 5
        let (road, sheet) = (study(&[]).len(), 14);
        assert_eq!(convert(Way::ToFirst, &study(&[&closed]), 0), refused(16, road + 13));
        assert_eq!(convert(Way::ToFirst, &study(&[&both_closed]), 0), refused(16, road + 8));
        assert_eq!(convert(Way::ToFirst, &study(&[&SECOND, &both_closed, &closed]), 0), refused(16, road + sheet + 8));
    }

    #[test]
    fn a_sheet_is_read_before_its_lanes_are_looked_at() {
        let road = study(&[]).len();
        let closed = [2, 6000, 20_000, 0, 0, 2, 300, 900, 2];
        let closed_then_bad = [2, 6000, 20_000, 0, 0, 2, 300, 10_001, 2];
        assert_eq!(convert(Way::ToFirst, &study(&[&closed_then_bad]), 0), refused(4, road + 11));
        assert_eq!(convert(Way::ToFirst, &study(&[&closed[..8]]), 0), refused(1, road + 13));
        assert_eq!(convert(Way::ToFirst, &study(&[&closed, &[3]]), 0), refused(16, road + 8));
        assert_eq!(convert(Way::ToFirst, &study(&[&SECOND, &[3]]), 0), refused(14, road + 14));
    }
}
