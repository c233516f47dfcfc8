//! Measures rows: starts processes for the turns of each row, and turns their times into figures.
use crate::data::Figures;
use crate::options::Options;
use crate::side::Name;
use crate::turns::Task;
use crate::work::{Call, Row};
use std::process::Command;
use std::time::Instant;

/// The number of processes for the turns of a row: the place of memory can change the times of a whole process.
const PROCESSES: usize = 5;

/// A process that takes longer has so much work that the remaining turns of its row run in one process more.
const LONG_SECONDS: f64 = 15.0;

/// The times of one turn, for each side: the first one is the side that the others are compared with.
type Turn = Vec<Option<f64>>;

/// Measures all rows and returns their figures, or says which side wrote wrong bytes.
pub fn measure(options: &Options) -> Result<Vec<Figures>, String> {
    let rows = rows(options);
    let started = Instant::now();
    let mut all = vec![];
    for (number, row) in rows.iter().enumerate() {
        let turns = match row.call {
            Call::Tables => table_turns(options, *row)?,
            _ => row_turns(options, *row)?,
        };
        all.extend(figures(options, *row, &turns));
        let minutes = started.elapsed().as_secs_f64() / 60.0;
        let Row { call, k, r, size } = row;
        eprintln!("{} of {} rows, {minutes:.1} minutes: {} {k}:{r}, {size} bytes", number + 1, rows.len(), call.name());
    }
    Ok(all)
}

fn rows(options: &Options) -> Vec<Row> {
    let mut rows = vec![];
    for &call in &options.calls {
        if call == Call::Tables {
            rows.push(Row { call, k: 1, r: 1, size: 2 });
            continue;
        }
        for &size in &options.sizes {
            rows.extend(options.counts.iter().map(|&(k, r)| Row { call, k, r, size }));
        }
    }
    rows
}

fn row_turns(options: &Options, row: Row) -> Result<Vec<Turn>, String> {
    let mut turns = vec![];
    let mut each = options.turns.div_ceil(PROCESSES);
    let begun = Instant::now();
    while turns.len() < options.turns && begun.elapsed().as_secs_f64() < options.seconds {
        let started = Instant::now();
        let count = each.min(options.turns - turns.len());
        turns.extend(process(&Task { row, turns: count, milliseconds: options.milliseconds, sides: options.all_sides() })?);
        if started.elapsed().as_secs_f64() > LONG_SECONDS {
            each = options.turns;
        }
    }
    Ok(turns)
}

/// The crate makes its tables once in a process, so each turn of each side is a process.
fn table_turns(options: &Options, row: Row) -> Result<Vec<Turn>, String> {
    let sides = options.all_sides();
    let mut turns = vec![vec![None; sides.len()]; options.turns];
    for (number, turn) in turns.iter_mut().enumerate() {
        for step in 0..sides.len() {
            let place = (number + step) % sides.len();
            let task = Task { row, turns: 1, milliseconds: 0.0, sides: vec![sides[place].clone()] };
            turn[place] = process(&task)?.first().and_then(|times| times[0]);
        }
    }
    Ok(turns)
}

/// Runs a task in a process of its own.
fn process(task: &Task) -> Result<Vec<Turn>, String> {
    let program = std::env::current_exe().map_err(|error| error.to_string())?;
    let done = Command::new(program).args(task.words()).output().map_err(|error| error.to_string())?;
    let text = String::from_utf8_lossy(&done.stdout);
    if !done.status.success() {
        let Row { call, k, r, size } = task.row;
        let (last, faults) = (text.lines().last().unwrap_or_default(), String::from_utf8_lossy(&done.stderr));
        return Err(format!("{} {k}:{r}, {size} bytes: {last} {faults}", call.name()));
    }
    Ok(text.lines().map(|line| line.split(' ').map(|time| time.parse().ok()).collect()).collect())
}

fn figures(options: &Options, row: Row, turns: &[Turn]) -> Vec<Figures> {
    let sides = options.all_sides();
    let of_side = |place: usize, name: &Name| {
        let pairs: Vec<(f64, f64)> = turns.iter().filter_map(|turn| Some((turn[0]?, turn[place]?))).collect();
        let ratios = sorted(pairs.iter().map(|(to, own)| to / own));
        let times = sorted(pairs.iter().map(|(_, own)| *own));
        (!pairs.is_empty()).then(|| Figures {
            row,
            side: name.clone(),
            to: options.to.clone(),
            ratio: [at(&ratios, 0.5), at(&ratios, 0.25), at(&ratios, 0.75)],
            nanoseconds: at(&times, 0.5),
            turns: pairs.len(),
        })
    };
    sides.iter().enumerate().filter_map(|(place, name)| of_side(place, name)).collect()
}

fn sorted(values: impl Iterator<Item = f64>) -> Vec<f64> {
    let mut values: Vec<f64> = values.collect();
    values.sort_by(f64::total_cmp);
    values
}

/// Returns the value at a part of the way through sorted values, between two of them by their mean with weights.
fn at(values: &[f64], part: f64) -> f64 {
    let place = (values.len() - 1) as f64 * part;
    let (low, high) = (values[place.floor() as usize], values[place.ceil() as usize]);
    low + (high - low) * place.fract()
}
