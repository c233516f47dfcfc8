//! Compares the library with the Rust crate reed-solomon-simd, with ISA-L, and with an earlier state of the library. `bench/run`
//! builds and runs it.
mod clock;
mod data;
mod isal;
mod library;
mod measure;
mod options;
mod ours;
mod side;
mod tables;
mod theirs;
mod turns;
mod work;

use options::{Options, USAGE};
use std::env;
use std::process::exit;
use turns::Task;

fn main() {
    let words: Vec<String> = env::args().skip(1).collect();
    let words: Vec<&str> = words.iter().map(String::as_str).collect();
    let done = match &words[..] {
        ["turns", task @ ..] => match Task::read(task) {
            Some(task) if task.run() => Ok(()),
            Some(_) => exit(1),
            None => usage(),
        },
        ["--print", path] => data::read(path).map(|(about, all)| tables::print(&about, &all)),
        options => match Options::read(options) {
            Some(options) => run(&options, &words),
            None => usage(),
        },
    };
    if let Err(reason) = done {
        eprintln!("bench: {reason}");
        exit(1);
    }
}

fn usage() -> ! {
    eprintln!("{USAGE}");
    exit(2)
}

/// Measures, writes the data file if there is one, and prints the tables.
fn run(options: &Options, words: &[&str]) -> Result<(), String> {
    let mut about = vec![format!("bench/run {}", words.join(" "))];
    about.extend(env::var("RS_BENCH_ABOUT").unwrap_or_default().lines().map(String::from));
    let all = measure::measure(options)?;
    if let Some(path) = &options.data {
        data::write(path, &about, &all)?;
    }
    tables::print(&about, &all);
    Ok(())
}
