//! The first layout and the first rules, which know no closed lanes: a period sheet has two numbers a segment, and under every sheet
//! lanes and capacity are the road's own.

use super::sheets::{Fields, Layout, Refusal, Segment};

/// A segment's entry in a period sheet of the first layout.
#[derive(Clone, Debug)]
pub struct Entry {
    pub ramp_demand: u64,
    pub meter: u64,
}

impl Layout for Entry {
    fn read(fields: &mut Fields, _: &Segment) -> Result<Entry, Refusal> {
        Ok(Entry { ramp_demand: fields.next(0..=10_000)?, meter: fields.next(0..=10_000)? })
    }

    fn numbers(&self) -> Vec<u64> {
        vec![self.ramp_demand, self.meter]
    }

    fn ramp_demand(&self) -> u64 {
        self.ramp_demand
    }

    fn meter(&self) -> u64 {
        self.meter
    }

    fn in_force(&self, segment: &Segment) -> Segment {
        segment.clone()
    }
}

#[cfg(test)]
mod tests {
    use super::super::{outcome, run};
    use super::*;

    #[test]
    fn the_worked_study() {
        let road = [0x01, 0xBE, 0x01, 0x2D, 0x07, 0xA8, 0x0A, 0x02, 0x3C, 0xB0, 0x22, 0x00, 0x00, 0x00];
        let period = [0x01, 0xC0, 0x25, 0x90, 0x4E, 0x00, 0x00];
        let listing = "arrived 288000\nleft 241736\nstored 46264\npartsteps 1522988\norigin 42172\n\
                       1 4092 0 D 319091520\npartfeet 319091520\n";
        assert_eq!(outcome(&run::<Entry>(&[&road[..], &period].concat())).listing(), listing);
    }
}
