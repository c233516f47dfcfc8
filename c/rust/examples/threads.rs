//! Prints how long encodes and decodes take with 1, 2 and 4 threads, and how much faster 2 and 4 threads are than 1.
//!
//! `cargo run --release --example threads` measures a few shapes. Each figure is the median of 25 turns. In a turn,
//! each number of threads has its go, so that a change of the machine's speed concerns all of them. Run it on a machine
//! that does nothing else.
use reed_solomon_simd::{decode_into, encode_into, with_threads, RoomError};
use std::time::Instant;

const TURNS: usize = 25;
const THREADS: [usize; 3] = [1, 2, 4];

/// Originals, recovery shards, and the size of a shard in bytes.
const SHAPES: [(usize, usize, usize); 7] = [
    (10, 4, 64 << 10),
    (10, 4, 1 << 20),
    (32, 32, 64 << 10),
    (100, 30, 4 << 10),
    (100, 30, 64 << 10),
    (128, 128, 64 << 10),
    (1000, 200, 16 << 10),
];

/// Returns the microseconds of a call.
fn timed(threads: usize, call: &mut dyn FnMut() -> Result<(), RoomError>) -> Result<f64, RoomError> {
    let begin = Instant::now();
    with_threads(threads, &mut *call)?;
    Ok(begin.elapsed().as_secs_f64() * 1e6)
}

/// Prints the medians for each number of threads.
fn compare(what: &str, mut call: impl FnMut() -> Result<(), RoomError>) -> Result<(), RoomError> {
    let mut times = THREADS.map(|_| Vec::new());
    for _ in 0..TURNS {
        for (threads, times) in THREADS.into_iter().zip(&mut times) {
            times.push(timed(threads, &mut call)?);
        }
    }
    let medians = times.map(|mut times| {
        times.sort_by(f64::total_cmp);
        times[TURNS / 2]
    });
    let [one, two, four] = medians;
    println!("{what} {one:10.0} us {two:10.0} us {four:10.0} us   {:5.2} {:5.2}", one / two, one / four);
    Ok(())
}

fn measure(original_count: usize, recovery_count: usize, size: usize) -> Result<(), RoomError> {
    let byte = |place: usize| (place * 7 + place / 251) as u8;
    let bytes: Vec<u8> = (0..original_count * size).map(byte).collect();
    let original = || bytes.chunks(size);
    let mut recovery = vec![0; recovery_count * size];
    let name = format!("{:>9} {:>8}", format!("{original_count}:{recovery_count}"), size);
    compare(&format!("{name} encode"), || {
        encode_into(original_count, recovery_count, original(), recovery.chunks_mut(size))
    })?;
    let lost = recovery_count.min(original_count);
    let mut restored = vec![0; lost * size];
    compare(&format!("{name} decode"), || {
        let own = original().enumerate().skip(lost);
        let other = recovery.chunks(size).enumerate().take(lost);
        decode_into(original_count, recovery_count, own, other, restored.chunks_mut(size))
    })?;
    assert!(restored == bytes[..lost * size]);
    Ok(())
}

fn main() -> Result<(), RoomError> {
    println!("   counts     size   call     1 thread    2 threads     4 threads   faster by 2, by 4");
    for (original_count, recovery_count, size) in SHAPES {
        measure(original_count, recovery_count, size)?;
    }
    Ok(())
}
