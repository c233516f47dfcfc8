//! A side: one way to make a call, for example the crate's object over `Avx2`. All sides of a row make the same call over the
//! same shards.
use crate::work::Work;
use crate::{isal, ours, theirs};

/// A way to make the call of a row.
pub trait Side {
    /// Runs `first` rounds, and then `rounds` rounds, of which it returns the time in nanoseconds.
    fn time(&mut self, first: usize, rounds: usize) -> u64;

    /// Runs one round, and returns whether it wrote all wanted bytes.
    fn is_right(&mut self) -> bool;

    /// Returns whether the side makes an object each time it is timed. Its first round then meets memory that nobody used before.
    fn makes_object(&self) -> bool {
        false
    }
}

/// The engines, by their names on the command line.
pub const ENGINES: [&str; 4] = ["naive", "nosimd", "avx2", "ssse3"];

/// The name of a side: `WHO.WAY.ENGINE`, where the engine can be left out.
#[derive(Clone, PartialEq, Eq, Debug)]
pub struct Name {
    /// `crate`, `isal`, `isal-avx2`, or a build of this library: `plain`, `v3`, `plain_before`, `v3_before`.
    pub who: String,
    /// `object`, `call`, `slice`, `into`, `c-shards`, `c-buffers`.
    pub way: String,
    /// An engine of `ENGINES`, `default` for the one that the crate chooses, or `-` if the way has no choice.
    pub engine: String,
}

impl Name {
    /// Reads a name as it is written on the command line.
    pub fn read(words: &str) -> Option<Name> {
        let mut parts = words.split('.');
        let who = parts.next()?.to_string();
        let way = parts.next().unwrap_or("call").to_string();
        let engine = match parts.next() {
            Some(engine) => engine.to_string(),
            None => usual_engine(&who, &way).to_string(),
        };
        let name = Name { who, way, engine };
        (parts.next().is_none() && name.is_possible()).then_some(name)
    }

    fn is_possible(&self) -> bool {
        let ways: &[&str] = match self.who.as_str() {
            "crate" => &["object", "call"],
            "isal" | "isal-avx2" => &["call"],
            "plain" | "v3" => &["object", "call", "slice", "into", "c-shards", "c-buffers"],
            "plain_before" | "v3_before" => &["object", "call", "slice", "into", "c-shards", "c-buffers"],
            _ => &[],
        };
        let engine = self.engine.as_str();
        let usual = usual_engine(&self.who, &self.way);
        let chosen = usual != "-" && (ENGINES.contains(&engine) || self.who == "crate" && engine == "default");
        let chooses = !(self.who == "crate" && self.way == "call");
        ways.contains(&self.way.as_str()) && (engine == usual || chosen && chooses)
    }

    /// Returns the name as it is written on the command line.
    pub fn words(&self) -> String {
        match self.engine.as_str() {
            "-" => format!("{}.{}", self.who, self.way),
            engine => format!("{}.{}.{engine}", self.who, self.way),
        }
    }

    /// Makes the side for this work, or returns None if the program or the machine doesn't have it, or if it has no such call.
    pub fn side(&self, work: &'static Work) -> Option<Box<dyn Side>> {
        match self.who.as_str() {
            "crate" => theirs::side(self, work),
            "isal" | "isal-avx2" => isal::side(&self.who, work),
            _ => ours::side(self, work),
        }
    }
}

/// The fastest engine of a build, and the crate's choice on a machine with AVX2.
fn usual_engine(who: &str, way: &str) -> &'static str {
    match (who, way) {
        ("isal" | "isal-avx2", _) | (_, "c-shards" | "c-buffers") => "-",
        ("crate", "call") => "default",
        ("crate" | "v3" | "v3_before", _) => "avx2",
        _ => "ssse3",
    }
}
