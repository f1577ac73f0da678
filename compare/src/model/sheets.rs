//! Road and period sheets: their fields in order, each with its range.

use super::numbers;
use std::fmt::{Display, Formatter};
use std::ops::RangeInclusive;

/// A refusal's number, and the offset of the field's first byte (0 for refusals that have none).
#[derive(Clone, Debug, PartialEq, Eq)]
pub struct Refusal {
    pub number: u64,
    pub offset: usize,
}

impl Refusal {
    /// A refusal that carries no offset.
    pub fn plain(number: u64) -> Refusal {
        Refusal { number, offset: 0 }
    }

    /// The same refusal, its offset counted from the start of a file in which the sheet begins at `start`.
    pub fn in_file(self, start: usize) -> Refusal {
        Refusal { offset: start + self.offset, ..self }
    }
}

impl Display for Refusal {
    fn fmt(&self, f: &mut Formatter) -> std::fmt::Result {
        write!(f, "refused {} {}", self.number, self.offset)
    }
}

#[derive(Clone, Debug)]
pub struct Road {
    /// KJ
    pub jam_density: u64,
    /// KC
    pub capacity_density: u64,
    /// A, in percent
    pub drop: u64,
    pub segments: Vec<Segment>,
}

#[derive(Clone, Debug)]
pub struct Segment {
    /// L
    pub length: u64,
    /// N
    pub lanes: u64,
    /// V
    pub speed: u64,
    /// C
    pub capacity: u64,
    /// R
    pub ramp_capacity: u64,
    /// s, in thousandths
    pub share: u64,
    /// F
    pub off_capacity: u64,
}

/// A period sheet; its two layouts differ in the entries alone.
#[derive(Clone, Debug)]
pub struct Period<E = Entry> {
    /// The mainline's demand
    pub demand: u64,
    /// X
    pub exit_capacity: u64,
    pub entries: Vec<E>,
}

/// A segment's entry in a period sheet of the second layout.
#[derive(Clone, Debug)]
pub struct Entry {
    pub ramp_demand: u64,
    pub meter: u64,
    pub open_lanes: u64,
}

/// A segment's entry in a period sheet of one of the layouts, and what is in force under it.
pub trait Layout: Sized {
    /// The entry of a segment, from its fields.
    fn read(fields: &mut Fields, segment: &Segment) -> Result<Self, Refusal>;

    /// Its numbers, in the order of the sheet.
    fn numbers(&self) -> Vec<u64>;

    fn ramp_demand(&self) -> u64;

    fn meter(&self) -> u64;

    /// The segment by the lanes and the capacity that are in force.
    fn in_force(&self, segment: &Segment) -> Segment;
}

impl Layout for Entry {
    fn read(fields: &mut Fields, segment: &Segment) -> Result<Entry, Refusal> {
        Ok(Entry {
            ramp_demand: fields.next(0..=10_000)?,
            meter: fields.next(0..=10_000)?,
            open_lanes: fields.next(1..=segment.lanes)?,
        })
    }

    fn numbers(&self) -> Vec<u64> {
        vec![self.ramp_demand, self.meter, self.open_lanes]
    }

    fn ramp_demand(&self) -> u64 {
        self.ramp_demand
    }

    fn meter(&self) -> u64 {
        self.meter
    }

    /// Only the open lanes count, and their part of the capacity.
    fn in_force(&self, segment: &Segment) -> Segment {
        let capacity = segment.capacity * self.open_lanes / segment.lanes;
        Segment { lanes: self.open_lanes, capacity, ..segment.clone() }
    }
}

/// Reads one field after the other from the front of the bytes.
pub struct Fields<'a> {
    bytes: &'a [u8],
    used: usize,
}

impl<'a> Fields<'a> {
    pub fn of(bytes: &'a [u8]) -> Fields<'a> {
        Fields { bytes, used: 0 }
    }

    /// How many bytes the fields so far take.
    pub fn used(&self) -> usize {
        self.used
    }

    pub fn next(&mut self, range: RangeInclusive<u64>) -> Result<u64, Refusal> {
        self.next_or(range, 4)
    }

    /// The next field; `outside` is the refusal's number for a value outside the range.
    fn next_or(&mut self, range: RangeInclusive<u64>, outside: u64) -> Result<u64, Refusal> {
        self.next_as(|value| range.contains(&value).then_some(value), outside)
    }

    /// What the next field's value means; `meaningless` is the refusal's number for a value that means nothing.
    pub fn next_as<T>(&mut self, meaning: impl Fn(u64) -> Option<T>, meaningless: u64) -> Result<T, Refusal> {
        let offset = self.used;
        let refusal = |number| Refusal { number, offset };
        let (value, length) = numbers::read(&self.bytes[offset..]).map_err(refusal)?;
        let meant = meaning(value).ok_or(refusal(meaningless))?;
        self.used += length;
        Ok(meant)
    }
}

/// The road at the front of `bytes`, and how many bytes it takes.
pub fn read_road(bytes: &[u8]) -> Result<(Road, usize), Refusal> {
    let mut fields = Fields::of(bytes);
    let ns = fields.next(1..=64)?;
    let mut road = Road {
        jam_density: fields.next(100..=300)?,
        capacity_density: fields.next(30..=60)?,
        drop: fields.next(0..=50)?,
        segments: Vec::new(),
    };
    for _ in 0..ns {
        road.segments.push(Segment {
            length: fields.next(300..=26_400)?,
            lanes: fields.next(1..=8)?,
            speed: fields.next(15..=85)?,
            capacity: fields.next(1..=20_000)?,
            ramp_capacity: fields.next(0..=10_000)?,
            share: fields.next(0..=1_000)?,
            off_capacity: fields.next(0..=10_000)?,
        });
    }
    Ok((road, fields.used))
}

/// The period at the front of `bytes` for a road, and how many bytes it takes.
pub fn read_period<E: Layout>(bytes: &[u8], road: &Road) -> Result<(Period<E>, usize), Refusal> {
    let mut fields = Fields::of(bytes);
    let ns = road.segments.len() as u64;
    fields.next_or(ns..=ns, 14)?;
    let mut period =
        Period { demand: fields.next(0..=20_000)?, exit_capacity: fields.next(0..=20_000)?, entries: Vec::new() };
    for segment in &road.segments {
        period.entries.push(E::read(&mut fields, segment)?);
    }
    Ok((period, fields.used))
}

/// The road's bytes.
pub fn write_road(road: &Road) -> Vec<u8> {
    let mut fields = vec![road.segments.len() as u64, road.jam_density, road.capacity_density, road.drop];
    for s in &road.segments {
        fields.extend([s.length, s.lanes, s.speed, s.capacity, s.ramp_capacity, s.share, s.off_capacity]);
    }
    written(&fields)
}

/// The period's bytes.
pub fn write_period<E: Layout>(period: &Period<E>) -> Vec<u8> {
    written(&period_numbers(period))
}

/// The period's numbers, in the order of its sheet.
pub fn period_numbers<E: Layout>(period: &Period<E>) -> Vec<u64> {
    let mut fields = vec![period.entries.len() as u64, period.demand, period.exit_capacity];
    for entry in &period.entries {
        fields.extend(entry.numbers());
    }
    fields
}

/// The bytes of numbers, each in its shortest form.
pub fn written(fields: &[u64]) -> Vec<u8> {
    let mut bytes = Vec::new();
    for &field in fields {
        numbers::write(field, &mut bytes);
    }
    bytes
}
