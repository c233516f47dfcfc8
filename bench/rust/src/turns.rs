//! The turns of one row in a process of its own. `measure` starts it and reads what it prints.
use crate::clock::{clear_upper_halves, rs_bench_now};
use crate::side::{Name, Side};
use crate::theirs;
use crate::work::{Call, Row, Work};

/// A comparison that takes longer, in nanoseconds, is that of a long round: it is measured alone, and no round is run before it.
/// Its shards don't fit the caches anyway.
const LONG: f64 = 5e7;

/// What a process is asked to do: a row, a number of turns, how long a side runs in a turn, and the sides.
pub struct Task {
    pub row: Row,
    pub turns: usize,
    pub milliseconds: f64,
    pub sides: Vec<Name>,
}

impl Task {
    /// Returns the task as words of a command line.
    pub fn words(&self) -> Vec<String> {
        let Row { call, k, r, size } = self.row;
        let sides: Vec<String> = self.sides.iter().map(Name::words).collect();
        let numbers = [k, r, size, self.turns].map(|number| number.to_string());
        let mut words = vec!["turns".to_string(), call.name().to_string()];
        words.extend(numbers);
        words.extend([self.milliseconds.to_string(), sides.join(",")]);
        words
    }

    /// Reads a task from the words of a command line, after the word `turns`.
    pub fn read(words: &[&str]) -> Option<Task> {
        let &[call, k, r, size, turns, milliseconds, sides] = words else { return None };
        let row = Row { call: Call::named(call)?, k: k.parse().ok()?, r: r.parse().ok()?, size: size.parse().ok()? };
        let sides = sides.split(',').map(Name::read).collect::<Option<_>>()?;
        Some(Task { row, turns: turns.parse().ok()?, milliseconds: milliseconds.parse().ok()?, sides })
    }

    /// Compares all sides byte for byte, then times them in turn, and prints a line for each turn: nanoseconds of a round of each
    /// side, or `-` for a side that isn't there. Returns whether all bytes were right.
    pub fn run(&self) -> bool {
        let work = Work::leaked(self.row, theirs::recovery);
        let mut timed = vec![];
        for name in &self.sides {
            let Some(mut side) = name.side(work) else {
                timed.push(None);
                continue;
            };
            let start = rs_bench_now();
            if (self.row.call.codes() || self.row.call.repairs()) && !is_right(&mut *side) {
                println!("wrong bytes by {}", name.words());
                return false;
            }
            let is_long = (rs_bench_now() - start) as f64 > LONG;
            timed.push(Some((side, is_long)));
        }
        let mut timed: Vec<_> =
            timed.into_iter().map(|side| side.map(|(side, is_long)| Timed::new(side, is_long, self))).collect();
        for turn in 0..self.turns {
            println!("{}", one_turn(&mut timed, turn));
        }
        true
    }
}

/// Runs one round of a side, and returns whether it wrote the wanted bytes.
fn is_right(side: &mut dyn Side) -> bool {
    clear_upper_halves();
    side.is_right()
}

/// Times each side once and returns the line of the turn. The sides take turns in being first, and every second turn goes
/// backwards.
fn one_turn(sides: &mut [Option<Timed>], turn: usize) -> String {
    let count = sides.len();
    let mut times = vec!["-".to_string(); count];
    for step in 0..count {
        let step = if turn % 2 == 0 { step } else { count - 1 - step };
        let place = (turn / 2 + step) % count;
        if let Some(side) = &mut sides[place] {
            times[place] = format!("{:.2}", side.once());
        }
    }
    times.join(" ")
}

/// A side with the number of its rounds in a turn.
struct Timed {
    side: Box<dyn Side>,
    first: usize,
    rounds: usize,
}

impl Timed {
    fn new(side: Box<dyn Side>, is_long: bool, task: &Task) -> Timed {
        let first = is_long && side.makes_object() || !is_long && task.row.call != Call::Tables;
        let mut timed = Timed { side, first: first as usize, rounds: 1 };
        if is_long || task.row.call == Call::Tables {
            return timed;
        }
        // The first guesses hold the time of reading the clock.
        for _ in 0..3 {
            timed.rounds = (task.milliseconds * 1e6 / timed.once()).clamp(1.0, 1e6) as usize;
        }
        timed
    }

    /// Returns the nanoseconds of a round.
    fn once(&mut self) -> f64 {
        clear_upper_halves();
        let time = self.side.time(self.first, self.rounds);
        time as f64 / self.rounds as f64
    }
}
