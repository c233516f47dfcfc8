//! The command line.
use crate::side::Name;
use crate::work::Call;

/// What is measured, and where the figures are written.
pub struct Options {
    pub calls: Vec<Call>,
    pub counts: Vec<(usize, usize)>,
    pub sizes: Vec<usize>,
    pub turns: usize,
    /// How long a side runs in a turn, at least, in milliseconds.
    pub milliseconds: f64,
    /// After how many seconds a row gets no further process, even if it has fewer turns.
    pub seconds: f64,
    pub sides: Vec<Name>,
    /// The side that the others are compared with.
    pub to: Name,
    pub data: Option<String>,
}

pub const USAGE: &str =
    "usage: bench/run [--calls CALL,..] [--counts K:R,..] [--sizes BYTES,..] [--turns N] [--ms N] [--most SECONDS]
                 [--sides SIDE,..] [--to SIDE] [--data FILE]
       bench/run --print FILE
CALL: encode decode decode1 lost1 lost2 recover1 verify update new-encoder new-decoder reset-encoder reset-decoder tables
SIDE: WHO.WAY[.ENGINE]
  WHO: crate, isal, isal-avx2, plain, v3, plain_before, v3_before
  WAY: c-shards, c-buffers, into, call, slice, object; of the crate: object, call; of ISA-L none
  ENGINE: naive nosimd avx2 ssse3; of the crate also default";

impl Options {
    /// Reads the words of the command line.
    pub fn read(words: &[&str]) -> Option<Options> {
        let mut options = Options {
            calls: vec![Call::Encode, Call::Decode, Call::DecodeFew],
            counts: vec![(10, 4), (32, 32), (100, 30), (128, 128), (1000, 200)],
            sizes: vec![64, 1 << 10, 16 << 10, 64 << 10, 1 << 20],
            turns: 25,
            milliseconds: 4.0,
            seconds: f64::INFINITY,
            sides: names("v3.c-shards,v3.into,plain.c-shards,plain.into")?,
            to: Name::read("crate.object.avx2")?,
            data: None,
        };
        let mut words = words.iter();
        while let Some(name) = words.next() {
            options.set(name, words.next()?)?;
        }
        Some(options)
    }

    fn set(&mut self, name: &str, value: &str) -> Option<()> {
        match name {
            "--calls" => self.calls = value.split(',').map(Call::named).collect::<Option<_>>()?,
            "--counts" => self.counts = value.split(',').map(counts).collect::<Option<_>>()?,
            "--sizes" => self.sizes = value.split(',').map(size).collect::<Option<_>>()?,
            "--turns" => self.turns = value.parse().ok().filter(|turns| *turns > 0)?,
            "--most" => self.seconds = value.parse().ok()?,
            "--ms" => self.milliseconds = value.parse().ok()?,
            "--sides" => self.sides = names(value)?,
            "--to" => self.to = Name::read(value)?,
            "--data" => self.data = Some(value.to_string()),
            _ => return None,
        }
        Some(())
    }

    /// Returns the side that the others are compared with, and then the others.
    pub fn all_sides(&self) -> Vec<Name> {
        [&[self.to.clone()], &self.sides[..]].concat()
    }
}

fn names(words: &str) -> Option<Vec<Name>> {
    words.split(',').map(Name::read).collect()
}

fn counts(words: &str) -> Option<(usize, usize)> {
    let (k, r) = words.split_once(':')?;
    Some((k.parse().ok()?, r.parse().ok()?))
}

/// Reads a size, an even number above zero.
fn size(words: &str) -> Option<usize> {
    words.parse().ok().filter(|size| *size > 0 && size % 2 == 0)
}
