//! The benchmark: the engine against the idiomatic and the tuned version, how the costs grow, and what one call costs. Only ratios
//! are printed.

use crate::engine::Segments;
use crate::model::facility::Facility;
use crate::model::numbers;
use crate::model::sheets::Entry;
use crate::outcome::Outcome;
use crate::outcome::NUMBERS;
use crate::random::Random;
use crate::{compare, engine, idiomatic, model, tuned};
use std::array::from_fn;
use std::hint::black_box;
use std::time::Instant;

const ROUNDS: usize = 51;
/// A round's time is the shortest of this many runs, since other work on the machine can only add to it.
const RUNS: usize = 5;
const MOST_SEGMENTS: u64 = 64;
const MOST_PERIODS: u64 = 96;
const REPORTS: u32 = 19_200;
const LETTERS: u32 = 64_000;

/// Demand through the day, in percent of the usual.
const LOAD: [u64; 18] = [30, 35, 45, 70, 95, 110, 100, 75, 60, 55, 60, 80, 105, 115, 90, 60, 45, 35];

/// Its places of a quiet hour, with every lane open, and of the largest demand.
const QUIET: usize = 9;
const PEAK: usize = 13;

/// Lanes are closed where the load is below this.
const LIGHT: u64 = 50;

#[derive(Clone, Copy)]
enum Ramps {
    Everywhere,
    Rare,
}

/// Times all; false where the two sides' answers differ.
pub fn run() -> bool {
    let everywhere = study(MOST_SEGMENTS, MOST_PERIODS, Ramps::Everywhere);
    let rare = study(MOST_SEGMENTS, MOST_PERIODS, Ramps::Rare);
    for study in [&everywhere, &rare] {
        if let Err(difference) = compare::same(study, &model::forecast(study)) {
            println!("the answers differ: {difference}");
            return false;
        }
    }
    println!("whole study, {MOST_SEGMENTS} segments, {MOST_PERIODS} periods: median of {ROUNDS} rounds, and the middle half of them");
    for (other, forecast) in [("idiomatic Rust", idiomatic::forecast as Forecast), ("tuned Rust", tuned::forecast)] {
        println!("engine / {other}");
        against("ramps everywhere", &everywhere, forecast);
        against("ramps rare", &rare, forecast);
    }

    println!("cost by segments, {MOST_PERIODS} periods, as ratio to the first: engine, tuned Rust");
    growth(&[8, 16, 32, 64].map(|ns| (ns, study(ns, MOST_PERIODS, Ramps::Everywhere))));
    println!("cost by periods, {MOST_SEGMENTS} segments, as ratio to the first: engine, tuned Rust");
    growth(&[12, 24, 48, 96].map(|periods| (periods, study(MOST_SEGMENTS, periods, Ramps::Everywhere))));
    single_calls() && letters()
}

/// Times all letters of a road by the walk in use and by the one before it, after a period under a quiet sheet and under a peak sheet;
/// false where they differ from the model's.
fn letters() -> bool {
    println!("{MOST_SEGMENTS} letters: by the walk in use / by the walk before it");
    let sheets = sheets(MOST_SEGMENTS, LOAD.len() as u64, Ramps::Everywhere);
    [("quiet sheet", QUIET), ("peak sheet", PEAK)].into_iter().all(|(name, hour)| {
        let (segments, sum) = segments_after(&[&sheets[0][..], &sheets[1 + hour]].concat());
        let sum = u64::from(LETTERS) / MOST_SEGMENTS * sum;
        let same = engine::letters(&segments, LETTERS) == sum && engine::letters_before(&segments, LETTERS) == sum;
        if same {
            let letters = || _ = black_box(engine::letters(black_box(&segments), LETTERS));
            ratio(name, letters, || _ = black_box(engine::letters_before(black_box(&segments), LETTERS)), 1.0);
        } else {
            println!("the letters differ");
        }
        same
    })
}

/// What the letters of the segments reckon with after a study that leaves every lane open, and the sum of the letters' bytes.
fn segments_after(study: &[u8]) -> (Segments, u64) {
    let facility = model::run::<Entry>(study).expect("it is a study");
    let reports: Vec<_> = (1..=MOST_SEGMENTS).filter_map(|i| facility.report(i).ok()).collect();
    let road = &facility.road().segments;
    let segments = Segments {
        n: from_fn(|i| reports[i].n as u32),
        length: from_fn(|i| road[i].length as u32),
        lanes: from_fn(|i| road[i].lanes as u32),
    };
    (segments, reports.iter().map(|report| u64::from(report.letter)).sum())
}

/// Times single calls under the sheet of the day's peak; false where the two sides' answers differ. To the tuned version steps one by
/// one are a run.
fn single_calls() -> bool {
    let sheets = sheets(MOST_SEGMENTS, LOAD.len() as u64, Ramps::Everywhere);
    let (road, period) = (&sheets[0], &sheets[1 + PEAK]);
    let one = [&road[..], period].concat();
    let all = [&road[..], &period.repeat(MOST_PERIODS as usize)].concat();
    let stepped = |reports: u8| engine::single_steps(black_box(road), period, MOST_PERIODS as u32, reports);
    let part_steps = stepped(0).part_steps;
    let same_steps = matches!(tuned::forecast(&all), Outcome::Forecast(forecast) if forecast.part_steps == part_steps);
    let shown = engine::single_steps(road, period, 1, MOST_SEGMENTS as u8).letters;
    let same_reports = engine::reports(road, period, REPORTS) == tuned::reports(&one, REPORTS as usize)
        && shown == letters_shown(road, period)
        && stepped(MOST_SEGMENTS as u8).part_steps == part_steps;
    if !same_steps || !same_reports {
        println!("the answers of single calls differ");
        return false;
    }
    println!("one call, {MOST_SEGMENTS} segments, under a peak sheet: engine / tuned Rust");
    // so many reports that the period before them hardly counts: the tuned version's are short
    let often = 100;
    let reports = || _ = black_box(engine::reports(black_box(road), period, REPORTS));
    let tuned_reports = || _ = black_box(tuned::reports(black_box(&one), often * REPORTS as usize));
    ratio("segment report", reports, tuned_reports, often as f64);
    let steps = || _ = black_box(stepped(0));
    ratio("run of 1 step", steps, || run_other(&all, tuned::forecast), 1.0);
    println!("one call of the engine: run of 1 step / a 60th of a run of 60");
    ratio("run of 1 step", steps, || run_engine(&all), 1.0);
    println!(
        "calls of the engine / its run of 1 step: reports each by themselves; the run with reports in a loop behind it"
    );
    let runs = MOST_PERIODS as f64 * 60.0;
    ratio("64 reports", reports, steps, runs * MOST_SEGMENTS as f64 / f64::from(REPORTS));
    let wall = || _ = black_box(stepped(MOST_SEGMENTS as u8));
    ratio("run, 64 in a loop", wall, steps, 1.0);
    true
}

/// The letters that the model reports of all segments after each step of a period on a road just laid: the sum of their bytes.
fn letters_shown(road: &[u8], period: &[u8]) -> u64 {
    let (mut facility, _) = Facility::<Entry>::lay(road).expect("it is a road");
    facility.take(period).expect("it is a period of the road");
    let step = |_| {
        facility.run(1).expect("60 steps remain at first");
        let letter = |i| facility.report(i).map_or(0, |report| u64::from(report.letter));
        (1..=MOST_SEGMENTS).map(letter).sum::<u64>()
    };
    (0..60).map(step).sum()
}

type Forecast = fn(&[u8]) -> Outcome;

fn against(name: &str, study: &[u8], forecast: Forecast) {
    ratio(name, || run_engine(study), || run_other(study, forecast), 1.0);
}

/// Times both sides alternately, each first in every other round, and prints the first's time by the second's, which does its work
/// `often` times as often.
fn ratio(name: &str, engine: impl Fn(), other: impl Fn(), often: f64) {
    let mut ratios = Vec::new();
    for round in 0..ROUNDS {
        let (engine, other) = if round % 2 == 0 {
            let engine = time(&engine);
            (engine, time(&other))
        } else {
            let other = time(&other);
            (time(&engine), other)
        };
        ratios.push(engine / other * often);
    }
    ratios.sort_by(f64::total_cmp);
    let (low, middle, high) = (ratios[ROUNDS / 4], ratios[ROUNDS / 2], ratios[ROUNDS - 1 - ROUNDS / 4]);
    println!("  {name:<17} {middle:.2}  ({low:.2} to {high:.2})");
}

/// Times the engine and the tuned version on each study in turn, round by round, and prints the medians' ratios to the first.
/// Smaller studies are run more often in a round, so that other work on the machine adds alike to all.
fn growth(studies: &[(u64, Vec<u8>)]) {
    let largest = studies.iter().map(|(size, _)| *size).max().unwrap_or(1);
    let mut times = vec![(Vec::new(), Vec::new()); studies.len()];
    for _ in 0..ROUNDS {
        for ((engine, tuned), (size, study)) in times.iter_mut().zip(studies) {
            let often = largest / size;
            engine.push(time(|| (0..often).for_each(|_| run_engine(study))) / often as f64);
            tuned.push(time(|| (0..often).for_each(|_| run_other(study, tuned::forecast))) / often as f64);
        }
    }
    let medians = times.iter_mut().map(|(engine, tuned)| (median(engine), median(tuned))).collect::<Vec<_>>();
    for ((size, _), (engine, tuned)) in studies.iter().zip(&medians) {
        println!("  {size:>3}  {:.2}  {:.2}", engine / medians[0].0, tuned / medians[0].1);
    }
}

fn run_other(study: &[u8], forecast: Forecast) {
    black_box(forecast(black_box(study)));
}

fn run_engine(study: &[u8]) {
    let mut out = [0; NUMBERS];
    black_box(engine::forecast(black_box(study), &mut out));
    black_box(out);
}

fn time(work: impl Fn()) -> f64 {
    let runs = (0..RUNS).map(|_| {
        let start = Instant::now();
        work();
        start.elapsed().as_secs_f64()
    });
    runs.fold(f64::INFINITY, f64::min)
}

fn median(times: &mut [f64]) -> f64 {
    times.sort_by(f64::total_cmp);
    times[times.len() / 2]
}

/// A day on an urban freeway, as one study.
fn study(ns: u64, periods: u64, ramps: Ramps) -> Vec<u8> {
    sheets(ns, periods, ramps).concat()
}

/// Its sheets: two peaks above capacity, a bottleneck two thirds along, recovery after each peak; in the light hours one lane of every
/// eighth segment is closed.
fn sheets(ns: u64, periods: u64, ramps: Ramps) -> Vec<Vec<u8>> {
    let mut random = Random::new(ns);
    let has_ramp = |i: u64| match ramps {
        Ramps::Everywhere => true,
        Ramps::Rare => i % 16 == 5,
    };
    let lanes = |i: u64| if i == ns * 2 / 3 { 2 } else { 3 };
    let mut road = vec![ns, 190, 45, 7];
    for i in 0..ns {
        let length = random.within(600, 2_600);
        road.extend([length, lanes(i), random.within(55, 70), 2_200 * lanes(i)]);
        road.extend(if has_ramp(i) { [1_800, random.within(15, 60), 1_500] } else { [0, 0, 0] });
    }
    let mut sheets = vec![road];
    for period in 0..periods {
        let load = LOAD[(period * LOAD.len() as u64 / periods) as usize];
        let mut sheet = vec![ns, 5_000 * load / 100, 20_000];
        for i in 0..ns {
            let demand = random.within(100, 220) * load / 100;
            sheet.extend(if has_ramp(i) { [demand, 900] } else { [0, 0] });
            sheet.push(if load < LIGHT && i % 8 == 3 { lanes(i) - 1 } else { lanes(i) });
        }
        sheets.push(sheet);
    }
    sheets.iter().map(|fields| bytes(fields)).collect()
}

fn bytes(fields: &[u64]) -> Vec<u8> {
    let mut bytes = Vec::new();
    for field in fields {
        numbers::write(*field, &mut bytes);
    }
    bytes
}
