//! The Rust crate reed-solomon-simd: its objects over an engine, and its one-call functions.
use crate::clock::{rs_bench_now, time_rounds};
use crate::side::{Name, Side};
use crate::work::{Call, Row, Shards, Work};
use reed_solomon_simd::engine::{tables, Avx2, DefaultEngine, Engine, Naive, NoSimd, Ssse3};
use reed_solomon_simd::rate::{DefaultRateDecoder, DefaultRateEncoder, RateDecoder, RateEncoder};
use std::arch::is_x86_feature_detected;
use std::hint::black_box;

/// Makes the side with this name.
pub fn side(name: &Name, work: &'static Work) -> Option<Box<dyn Side>> {
    match (name.way.as_str(), name.engine.as_str()) {
        ("call", _) => work.row.call.codes().then(|| Box::new(OneCall { work }) as Box<dyn Side>),
        (_, "naive") => object(work, Naive::new),
        (_, "nosimd") => object(work, NoSimd::new),
        (_, "avx2") if is_x86_feature_detected!("avx2") => object(work, Avx2::new),
        (_, "ssse3") if is_x86_feature_detected!("ssse3") => object(work, Ssse3::new),
        (_, "default") => object(work, DefaultEngine::new),
        _ => None,
    }
}

fn object<E: Engine + 'static>(work: &'static Work, engine: fn() -> E) -> Option<Box<dyn Side>> {
    let Row { call, k, r, size } = work.row;
    match call {
        Call::Tables => Some(Box::new(MakeTables)),
        _ if call.is_decode() => {
            let decoder = DefaultRateDecoder::new(k, r, size, engine(), None).ok()?;
            Some(Box::new(Decodes { work, engine, decoder }))
        }
        _ => {
            let encoder = DefaultRateEncoder::new(k, r, size, engine(), None).ok()?;
            Some(Box::new(Encodes { work, engine, encoder }))
        }
    }
}

/// Encodes the originals of a row: the bytes with which all sides are compared.
pub fn recovery(row: &Row, originals: &Shards) -> Shards {
    let mut encoder =
        DefaultRateEncoder::new(row.k, row.r, row.size, DefaultEngine::new(), None).expect("supported counts and size");
    for index in 0..row.k {
        encoder.add_original_shard(originals.shard(index)).expect("an original");
    }
    let mut recovery = Shards::new(row.r, row.size);
    let lent = encoder.encode().expect("an encode");
    for (to, shard) in recovery.bytes_mut().chunks_exact_mut(row.size).zip(lent.recovery_iter()) {
        to.copy_from_slice(shard);
    }
    recovery
}

/// An encoder that keeps its memory between rounds. A round doesn't copy results.
struct Encodes<E: Engine> {
    work: &'static Work,
    engine: fn() -> E,
    encoder: DefaultRateEncoder<E>,
}

impl<E: Engine> Encodes<E> {
    fn add_all(&mut self) {
        for index in 0..self.work.row.k {
            self.encoder.add_original_shard(self.work.originals.shard(index)).expect("an original");
        }
    }

    /// Encodes, and compares with the received recovery shards: the crate has no other way to check a message.
    fn verify(&mut self) {
        self.add_all();
        let lent = self.encoder.encode().expect("an encode");
        assert!(lent.recovery_iter().zip(&self.work.other).all(|(shard, (_, received))| shard == *received));
    }
}

/// The crate encodes all recovery shards, also if one is lost or if one original has changed.
impl<E: Engine> Side for Encodes<E> {
    fn time(&mut self, first: usize, rounds: usize) -> u64 {
        let Row { call, k, r, size } = self.work.row;
        let engine = self.engine;
        match call {
            Call::NewEncoder => {
                time_rounds(first, rounds, || drop(black_box(DefaultRateEncoder::new(k, r, size, engine(), None))))
            }
            Call::ResetEncoder => time_rounds(first, rounds, || self.encoder.reset(k, r, size).expect("a reset")),
            Call::Verify => time_rounds(first, rounds, || self.verify()),
            _ => time_rounds(first, rounds, || {
                self.add_all();
                black_box(self.encoder.encode().expect("an encode"));
            }),
        }
    }

    fn is_right(&mut self) -> bool {
        let work = self.work;
        let written = work.wanted().len() / work.row.size;
        work.checks(|| {
            self.add_all();
            let lent = self.encoder.encode().expect("an encode");
            lent.recovery_iter().take(written).enumerate().for_each(|(index, shard)| work.put(index, shard));
        })
    }
}

/// A decoder that keeps its memory between rounds. A round doesn't copy results.
struct Decodes<E: Engine> {
    work: &'static Work,
    engine: fn() -> E,
    decoder: DefaultRateDecoder<E>,
}

impl<E: Engine> Decodes<E> {
    fn add_all(&mut self) {
        for &(index, shard) in &self.work.own {
            self.decoder.add_original_shard(index, shard).expect("an original");
        }
        for &(index, shard) in &self.work.other {
            self.decoder.add_recovery_shard(index, shard).expect("a recovery shard");
        }
    }
}

impl<E: Engine> Side for Decodes<E> {
    fn time(&mut self, first: usize, rounds: usize) -> u64 {
        let Row { call, k, r, size } = self.work.row;
        let engine = self.engine;
        match call {
            Call::NewDecoder => {
                time_rounds(first, rounds, || drop(black_box(DefaultRateDecoder::new(k, r, size, engine(), None))))
            }
            Call::ResetDecoder => time_rounds(first, rounds, || self.decoder.reset(k, r, size).expect("a reset")),
            _ => time_rounds(first, rounds, || {
                self.add_all();
                black_box(self.decoder.decode().expect("a decode"));
            }),
        }
    }

    fn is_right(&mut self) -> bool {
        let work = self.work;
        work.checks(|| {
            self.add_all();
            let lent = self.decoder.decode().expect("a decode");
            lent.restored_original_iter().for_each(|(index, shard)| work.put(index, shard));
        })
    }
}

/// The functions `encode` and `decode`, which make an object each time and return vectors.
struct OneCall {
    work: &'static Work,
}

impl OneCall {
    fn run(&self, mut take: impl FnMut(usize, &[u8])) {
        let Work { row: Row { k, r, .. }, originals, own, other, .. } = self.work;
        if self.work.row.call.is_decode() {
            let restored = reed_solomon_simd::decode(*k, *r, own.iter().copied(), other.iter().copied()).expect("a decode");
            restored.iter().for_each(|(index, shard)| take(*index, shard));
        } else {
            let shards = (0..*k).map(|index| originals.shard(index));
            let recovery = reed_solomon_simd::encode(*k, *r, shards).expect("an encode");
            recovery.iter().enumerate().for_each(|(index, shard)| take(index, shard));
        }
    }
}

impl Side for OneCall {
    fn time(&mut self, first: usize, rounds: usize) -> u64 {
        time_rounds(first, rounds, || {
            self.run(|_, shard| {
                black_box(shard);
            })
        })
    }

    fn is_right(&mut self) -> bool {
        self.work.checks(|| self.run(|index, shard| self.work.put(index, shard)))
    }
}

/// The crate's tables, which it makes when it is asked for them, once in a process.
struct MakeTables;

impl Side for MakeTables {
    fn time(&mut self, _: usize, _: usize) -> u64 {
        let start = rs_bench_now();
        black_box((
            tables::get_exp_log(),
            tables::get_skew(),
            tables::get_log_walsh(),
            tables::get_mul16(),
            tables::get_mul128(),
        ));
        rs_bench_now() - start
    }

    fn is_right(&mut self) -> bool {
        true
    }
}
