//! Random studies of either layout: valid ones of every size, and ones damaged in every way that a refusal speaks of.

pub mod calls;
pub mod letters;
pub mod plans;

use crate::model::numbers;

/// A small generator of random numbers (splitmix64), so that a seed gives the same studies everywhere.
#[derive(Clone)]
pub struct Random(u64);

impl Random {
    pub fn new(seed: u64) -> Random {
        Random(seed)
    }

    fn next(&mut self) -> u64 {
        self.0 = self.0.wrapping_add(0x9E37_79B9_7F4A_7C15);
        let mut z = self.0;
        z = (z ^ (z >> 30)).wrapping_mul(0xBF58_476D_1CE4_E5B9);
        z = (z ^ (z >> 27)).wrapping_mul(0x94D0_49BB_1331_11EB);
        z ^ (z >> 31)
    }

    /// A number from `low` to `high`, both included.
    pub fn within(&mut self, low: u64, high: u64) -> u64 {
        low + self.next() % (high - low + 1)
    }

    /// Another generator, that goes on by itself.
    fn split(&mut self) -> Random {
        Random(self.next())
    }

    /// True in `percent` of all cases.
    fn chance(&mut self, percent: u64) -> bool {
        self.within(1, 100) <= percent
    }

    fn pick<T: Copy>(&mut self, of: &[T]) -> T {
        of[self.within(0, of.len() as u64 - 1) as usize]
    }
}

/// The layout of a study's period sheets.
#[derive(Clone, Copy, PartialEq)]
pub enum Layout {
    /// Two numbers a segment.
    First,
    /// Three numbers, the third of them open lanes. One of `closing` says for a sheet in how many percent of its segments lanes
    /// are closed.
    Second { closing: &'static [u64] },
}

impl Layout {
    /// The second, every lane open.
    pub const OPEN: Layout = Layout::Second { closing: &[0] };
    /// A closed lane here and there, often the only one of a study.
    pub const RARELY_CLOSED: Layout = Layout::Second { closing: &[1] };
    /// Many closed lanes under some of the sheets.
    pub const OFTEN_CLOSED: Layout = Layout::Second { closing: &[0, 0, 0, 15, 50, 100] };

    /// How many numbers an entry has.
    fn width(self) -> usize {
        match self {
            Layout::First => 2,
            Layout::Second { .. } => 3,
        }
    }
}

/// How the values of a study's fields are chosen.
#[derive(Clone, Copy, PartialEq)]
enum Style {
    /// Numbers as rooms have them: lanes of some 2,000 vehicles an hour, demand around capacity.
    Usual,
    /// Small capacities and demands, where every rounding shows.
    Small,
    /// A usual road in light traffic, its off-ramps with odd shares and mostly narrow, where the splits' remainders show.
    Light,
    /// Anything in range.
    Uniform,
    /// The ends of each range and the steps between one, two and three bytes.
    Edges,
    /// Nearly everything as large as it may be, which gives the largest sums.
    Full,
    /// As much as can be through the longest segments, mostly without a drop, an off-ramp or a closed lane: over a day the most
    /// part-feet.
    Largest,
    /// Each field by another of these.
    Mixed,
}

const STYLES: [Style; 10] = [
    Style::Usual,
    Style::Usual,
    Style::Small,
    Style::Small,
    Style::Light,
    Style::Light,
    Style::Uniform,
    Style::Edges,
    Style::Full,
    Style::Mixed,
];

/// Shares whose remainders add up slowly, exactly, past a whole part at nearly every step, or never.
const ODD_SHARES: [u64; 14] = [1, 1, 2, 7, 143, 250, 333, 333, 501, 667, 999, 999, 1_000, 1_000];

/// Capacities of off-ramps that are shut, narrow or wide.
const OFF_CAPACITIES: [u64; 10] = [0, 0, 1, 1, 2, 3, 5, 12, 1_000, 10_000];

/// A field's value with the range that its sheet allows.
#[derive(Clone)]
struct Field {
    value: u64,
    low: u64,
    high: u64,
}

/// A study as fields, before it is written; `sheets` has the place of each sheet's first field, `lanes` the lanes of each segment.
#[derive(Clone)]
struct Fields {
    random: Random,
    layout: Layout,
    style: Style,
    all: Vec<Field>,
    sheets: Vec<usize>,
    lanes: Vec<u64>,
}

impl Fields {
    fn new(random: Random, layout: Layout, style: Style) -> Fields {
        Fields { random, layout, style, all: Vec::new(), sheets: Vec::new(), lanes: Vec::new() }
    }

    /// Adds a field; `usual` and `small` are the ranges of two of the styles.
    fn add(&mut self, (low, high): (u64, u64), usual: (u64, u64), small: (u64, u64)) -> u64 {
        let mut style = self.style;
        if style == Style::Mixed || style != Style::Largest && self.random.chance(3) {
            style = self.random.pick(&[Style::Usual, Style::Small, Style::Uniform, Style::Edges, Style::Full]);
        }
        let value = match style {
            Style::Usual => self.random.within(usual.0, usual.1),
            Style::Small => self.random.within(small.0, small.1),
            // the road is the first sheet
            Style::Light if self.sheets.len() == 1 => self.random.within(usual.0, usual.1),
            Style::Light => self.random.within(small.0, small.1),
            Style::Uniform => self.random.within(low, high),
            Style::Full => self.random.pick(&[low, high - 1, high, high, high]),
            Style::Largest => high - u64::from(self.random.chance(10)),
            _ => self.random.pick(&[low, low, low + 1, 127, 128, 16_383, 16_384, high - 1, high, high]),
        };
        let value = value.clamp(low, high);
        self.all.push(Field { value, low, high });
        value
    }

    /// Adds a field that is zero in `percent` of all cases.
    fn add_or_zero(&mut self, percent: u64, range: (u64, u64), usual: (u64, u64), small: (u64, u64)) {
        if self.random.chance(percent) {
            self.all.push(Field { value: 0, low: range.0, high: range.1 });
        } else {
            self.add(range, usual, small);
        }
    }

    fn fixed(&mut self, value: u64, low: u64, high: u64) {
        self.all.push(Field { value, low, high });
    }

    fn road(&mut self, ns: u64) {
        self.sheets.push(self.all.len());
        self.fixed(ns, 1, 64);
        self.add((100, 300), (180, 210), (100, 300));
        self.add((30, 60), (40, 48), (30, 60));
        if self.style == Style::Largest && self.random.chance(70) {
            // a drop would halve what comes in from a queue
            self.fixed(0, 0, 50);
        } else {
            self.add((0, 50), (0, 12), (0, 50));
        }
        for _ in 0..ns {
            self.add((300, 26_400), (300, 4_000), (300, 700));
            let lanes = self.add((1, 8), (2, 4), (1, 8));
            self.lanes.push(lanes);
            self.add((15, 85), (50, 75), (15, 85));
            self.add((1, 20_000), (1_700 * lanes, 2_300 * lanes), (1, 60));
            self.add_or_zero(40, (0, 10_000), (600, 2_000), (0, 40));
            self.off_ramp();
        }
    }

    /// Adds a segment's off-ramp, its share and its capacity: often odd ones in light traffic, now and then elsewhere.
    fn off_ramp(&mut self) {
        let (odd, none) = match self.style {
            Style::Light => (60, 40),
            Style::Largest => (10, 80),
            _ => (10, 40),
        };
        if self.random.chance(odd) {
            let (share, capacity) = (self.random.pick(&ODD_SHARES), self.random.pick(&OFF_CAPACITIES));
            self.fixed(share, 0, 1_000);
            self.fixed(capacity, 0, 10_000);
        } else {
            self.add_or_zero(none, (0, 1_000), (20, 300), (0, 1_000));
            self.add((0, 10_000), (100, 2_000), (0, 12));
        }
    }

    fn period(&mut self, ns: u64) {
        self.sheets.push(self.all.len());
        self.fixed(ns, ns, ns);
        let peak = self.random.within(1, 5);
        self.add((0, 20_000), (500 * peak, 2_000 * peak), (0, 40));
        let open = self.random.chance(60);
        self.add((0, 20_000), if open { (12_000, 20_000) } else { (1_000, 6_000) }, (0, 60));
        let closing = match self.layout {
            Layout::First => None,
            Layout::Second { .. } if self.style == Style::Largest && self.random.chance(98) => Some(0),
            Layout::Second { closing } => Some(self.random.pick(closing)),
        };
        for i in 0..ns as usize {
            self.add_or_zero(30, (0, 10_000), (50, 250 * peak), (0, 30));
            self.add_or_zero(10, (0, 10_000), (200, 2_000), (0, 30));
            if let Some(percent) = closing {
                self.open_lanes(self.lanes[i], percent);
            }
        }
    }

    /// Adds a segment's open lanes, some closed in `percent` of all cases and then often all but one.
    fn open_lanes(&mut self, lanes: u64, percent: u64) {
        let open = match self.random.chance(percent) {
            true if self.random.chance(50) => 1,
            true => self.random.within(1, lanes),
            false => lanes,
        };
        self.fixed(open, 1, lanes);
    }

    fn bytes(&self) -> Vec<u8> {
        written(self.all.iter().map(|field| field.value))
    }

    /// The bytes before field `at`, `instead` of that field, and the bytes after it.
    fn bytes_with(&self, at: usize, instead: &[u8]) -> Vec<u8> {
        let mut bytes = Vec::new();
        for (i, field) in self.all.iter().enumerate() {
            if i == at {
                bytes.extend(instead);
            } else {
                numbers::write(field.value, &mut bytes);
            }
        }
        bytes
    }

    fn any_place(&mut self) -> usize {
        self.random.within(0, self.all.len() as u64 - 1) as usize
    }

    /// The place of some open lanes, or of some meter rate in the first layout, where there is a period.
    fn any_entrys_end(&mut self) -> Option<usize> {
        let periods = &self.sheets[1..];
        let segment = self.random.within(0, self.lanes.len() as u64 - 1) as usize;
        (!periods.is_empty()).then(|| self.random.pick(periods) + 2 + self.layout.width() * (segment + 1))
    }
}

fn written(numbers: impl Iterator<Item = u64>) -> Vec<u8> {
    let mut bytes = Vec::new();
    numbers.for_each(|number| numbers::write(number, &mut bytes));
    bytes
}

/// The study of one seed in a layout.
pub fn study(seed: u64, layout: Layout) -> Vec<u8> {
    let mut random = Random::new(seed);
    random.next();
    let ns = segments(&mut random);
    let periods = periods(&mut random, ns);
    let style = random.pick(&STYLES);
    let mut fields = Fields::new(random, layout, style);
    fields.road(ns);
    for _ in 0..periods {
        fields.period(ns);
    }
    match fields.random.within(1, 100) {
        1..=54 => fields.bytes(),
        55 => most_part_feet(layout, &mut fields.random),
        56..=58 => letter_limits(ns, layout, &mut fields.random),
        59..=66 => out_of_range(&mut fields),
        67..=74 => bad_form(&mut fields),
        75..=78 => wrong_ns(&mut fields),
        79..=80 => other_layout(&fields),
        81..=88 => truncated(&mut fields),
        89..=95 => damaged(&mut fields),
        96..=98 => with_tail(&mut fields),
        _ => noise(&mut fields.random),
    }
}

fn segments(random: &mut Random) -> u64 {
    match random.within(1, 100) {
        1..=15 => 1,
        16..=55 => random.within(2, 5),
        56..=80 => random.within(6, 16),
        81..=94 => random.within(17, 63),
        _ => 64,
    }
}

/// Mostly few; near 96 mostly on short roads, which keeps the whole run short.
fn periods(random: &mut Random, ns: u64) -> u64 {
    match random.within(1, 1000) {
        1..=80 => 0,
        81..=480 => 1,
        481..=750 => 2,
        751..=900 => random.within(3, 6),
        901..=970 if ns <= 16 => random.within(7, 20),
        971..=1000 if ns <= 8 => random.within(95, 97),
        998..=1000 => random.within(95, 97),
        _ => 1,
    }
}

/// Mostly a whole day, on a short road of the longest segments.
fn most_part_feet(layout: Layout, random: &mut Random) -> Vec<u8> {
    let mut fields = Fields::new(random.split(), layout, Style::Largest);
    let ns = random.within(1, 3);
    fields.road(ns);
    for _ in 0..random.pick(&[1, 10, 95, 96, 96, 96]) {
        fields.period(ns);
    }
    fields.bytes()
}

/// Segments that nobody can leave, each filled by its ramp in one period to a letter's limit, or just short of it, or just past it.
/// The limit is that of the lanes that are open at last: from the start, or under a second sheet that brings no one.
fn letter_limits(ns: u64, layout: Layout, random: &mut Random) -> Vec<u8> {
    let mut road = vec![ns, random.within(200, 300), random.within(30, 60), random.within(0, 50)];
    let mut filling = vec![ns, 0, random.within(0, 20_000)];
    let mut closing = filling.clone();
    let two_sheets = random.chance(50);
    for _ in 0..ns {
        let limit = random.pick(&[11, 18, 26, 35, 45]);
        let lanes = random.within(1, 8);
        let open = if layout == Layout::OFTEN_CLOSED { random.within(1, lanes) } else { lanes };
        // 60 steps of a demand d fill a length of 22 * 60 * d / (limit * open) to the limit
        let mut demand = random.within(1_000, 25_000) * limit * open / 1_320;
        if random.chance(50) {
            demand = demand / limit * limit;
        }
        let length = 1_320 * demand / (limit * open) + random.within(0, 1);
        road.extend([length.clamp(300, 26_400), lanes, random.within(15, 85), 20_000, 10_000, 1_000, 0]);
        filling.extend(&[demand, 10_000, if two_sheets { lanes } else { open }][..layout.width()]);
        closing.extend(&[0, 10_000, open][..layout.width()]);
    }
    if !two_sheets {
        closing.clear();
    }
    written([road, filling, closing].into_iter().flatten())
}

/// One field just outside its range, or far outside; often some open lanes.
fn out_of_range(fields: &mut Fields) -> Vec<u8> {
    let entrys_end = fields.any_entrys_end().filter(|_| fields.random.chance(50));
    let at = entrys_end.unwrap_or_else(|| fields.any_place());
    let Field { low, high, .. } = fields.all[at];
    let far = fields.random.pick(&[high + 128, 65_536, 4_294_967_295]);
    fields.all[at].value = match fields.random.chance(50) {
        true if low > 0 => fields.random.pick(&[0, low - 1, low - 1]),
        _ => fields.random.pick(&[high + 1, far]),
    };
    fields.bytes()
}

/// One field in a form that is too long, or with a fifth group that is too large, or a largest number.
fn bad_form(fields: &mut Fields) -> Vec<u8> {
    let at = fields.any_place();
    let mut form = Vec::new();
    numbers::write(fields.all[at].value, &mut form);
    let last = form.len() - 1;
    match fields.random.within(1, 6) {
        1 | 2 => {
            // zero groups after the number's own: refused by 3, or by 2 where a fifth goes on
            form[last] |= 128;
            let more = fields.random.within(0, 4 - last as u64);
            form.extend(vec![128; more as usize]);
            form.push(0);
        }
        3 | 4 => {
            // a fifth group of any kind
            form[last] |= 128;
            form.resize(4, 128);
            form.push(fields.random.pick(&[0, 1, 15, 16, 17, 127, 128, 143, 144, 255]));
        }
        5 => form = vec![255, 255, 255, 255, fields.random.pick(&[0, 15, 16, 143, 255])],
        _ => form[last] |= 128,
    }
    fields.bytes_with(at, &form)
}

/// A period whose NS is not the road's.
fn wrong_ns(fields: &mut Fields) -> Vec<u8> {
    let sheet = fields.random.within(0, fields.sheets.len() as u64 - 1) as usize;
    let ns = fields.all[0].value;
    let any = fields.random.within(0, 66);
    let value = fields.random.pick(&[0, 1, ns - 1, ns + 1, 64, 65, 4_294_967_295, any]);
    let at = fields.sheets[sheet];
    fields.all[at].value = value;
    fields.bytes()
}

/// The study in the other layout, without its open lanes or with all lanes open: its numbers are then read as others.
fn other_layout(fields: &Fields) -> Vec<u8> {
    let (ns, width) = (fields.lanes.len(), fields.layout.width());
    let values: Vec<u64> = fields.all.iter().map(|field| field.value).collect();
    let (road, sheets) = values.split_at(4 + 7 * ns);
    let mut other = road.to_vec();
    for sheet in sheets.chunks(3 + width * ns) {
        let (head, entries) = sheet.split_at(3);
        other.extend(head);
        for (entry, &lanes) in entries.chunks(width).zip(&fields.lanes) {
            other.extend(&entry[..2]);
            if fields.layout == Layout::First {
                other.push(lanes);
            }
        }
    }
    written(other.into_iter())
}

/// The study cut short, often within its last sheet.
fn truncated(fields: &mut Fields) -> Vec<u8> {
    let mut bytes = fields.bytes();
    let length = bytes.len() as u64;
    let keep = if fields.random.chance(50) {
        fields.random.within(0, length - 1)
    } else {
        length - fields.random.within(1, length.min(12))
    };
    bytes.truncate(keep as usize);
    bytes
}

/// A few bytes altered, put in or taken out.
fn damaged(fields: &mut Fields) -> Vec<u8> {
    let mut bytes = fields.bytes();
    for _ in 0..fields.random.within(1, 3) {
        let at = fields.random.within(0, bytes.len() as u64 - 1) as usize;
        let any = fields.random.within(0, 255) as u8;
        match fields.random.within(1, 5) {
            1 => bytes[at] = any,
            2 => bytes[at] ^= 1 << (any % 8),
            3 => bytes[at] = fields.random.pick(&[0, 1, 127, 128, 129, 255]),
            4 => bytes.insert(at, any),
            _ if bytes.len() > 1 => drop(bytes.remove(at)),
            _ => {}
        }
    }
    bytes
}

/// A study with something after it that may be no period.
fn with_tail(fields: &mut Fields) -> Vec<u8> {
    let mut bytes = fields.bytes();
    if fields.random.chance(50) {
        numbers::write(fields.all[0].value, &mut bytes);
    }
    bytes.extend(noise(&mut fields.random));
    bytes
}

/// A sheet's bytes, mostly as they are, at times with others behind them or damaged.
fn mostly_sound(random: &mut Random, mut sheet: Fields) -> Vec<u8> {
    match random.within(1, 100) {
        1..=72 => sheet.bytes(),
        73..=80 => with_tail(&mut sheet),
        81..=85 => out_of_range(&mut sheet),
        86..=89 => bad_form(&mut sheet),
        90..=92 => truncated(&mut sheet),
        93..=96 => damaged(&mut sheet),
        97..=98 => wrong_ns(&mut sheet),
        _ => noise(&mut sheet.random),
    }
}

fn noise(random: &mut Random) -> Vec<u8> {
    let length = random.within(0, 40);
    let top = random.pick(&[4, 64, 127, 255]);
    (0..length).map(|_| random.within(0, top) as u8).collect()
}
