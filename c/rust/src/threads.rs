//! Threads: how many a call may use, how shards are cut for them, and how the pieces are run.
use crate::fault::Fault;
use std::cell::Cell;
use std::ops::Range;
use std::sync::{Mutex, PoisonError};
use std::thread;

/// A call uses one thread for each of this number of bytes that it has, counted over all shards that it reads or
/// writes. With fewer, a thread would take about as long to start as it saves.
const BYTES_FOR_A_THREAD: usize = 256 * 1024;

/// The code works on 64 bytes of every shard at a time. So pieces of shards begin at multiples of 64.
const CHUNK: usize = 64;

thread_local! {
    static ALLOWED: Cell<usize> = const { Cell::new(1) };
}

/// Calls `calls`, and allows each call of this crate in it to use up to `threads` threads. 0 counts as 1.
///
/// This holds for all functions that encode, decode, verify, reconstruct or update, and for
/// [`ReedSolomonEncoder::encode`](crate::ReedSolomonEncoder::encode) and
/// [`ReedSolomonDecoder::decode`](crate::ReedSolomonDecoder::decode). It holds only for calls in the current thread,
/// not in threads that `calls` starts. Outside of `with_threads`, each call uses one thread.
///
/// The results and the errors are the same for any number of threads. Each thread works on another piece of every
/// shard: all shards are cut at the same multiples of 64 bytes. The current thread takes one piece, and the others are
/// started for the call and end with it. If the system refuses to start a thread, the threads that run do its part.
///
/// Threads pay for long messages. A call with n bytes in all shards that it reads or writes uses at most n / 262144
/// threads, because to start a thread takes tens of microseconds. For example, an encode of 10 originals with 4
/// recovery shards uses four threads if a shard has at least 74900 bytes.
///
/// # Examples
///
/// ```
/// use reed_solomon_simd::{encode, with_threads};
///
/// let original = vec![vec![7; 1 << 18]; 10];
/// let recovery = with_threads(4, || encode(10, 4, &original))?;
/// assert_eq!(recovery, encode(10, 4, &original)?);
/// # Ok::<(), reed_solomon_simd::Error>(())
/// ```
///
/// To use all processors:
///
/// ```
/// use reed_solomon_simd::{with_threads, ReedSolomonEncoder};
/// use std::thread::available_parallelism;
///
/// let threads = available_parallelism().map_or(1, |number| number.get());
/// let mut encoder = ReedSolomonEncoder::new(2, 3, 2)?;
/// encoder.add_original_shard([0x00, 0x00])?;
/// encoder.add_original_shard([0x01, 0x00])?;
/// let result = with_threads(threads, || encoder.encode())?;
/// assert_eq!(result.recovery(0), Some(&[0x02, 0x00][..]));
/// # Ok::<(), reed_solomon_simd::Error>(())
/// ```
pub fn with_threads<F, T>(threads: usize, calls: F) -> T
where
    F: FnOnce() -> T,
{
    // Restores the number even if `calls` panics.
    struct Before(usize);

    impl Drop for Before {
        fn drop(&mut self) {
            ALLOWED.with(|allowed| allowed.set(self.0));
        }
    }

    let _before = Before(ALLOWED.with(|allowed| allowed.replace(threads.max(1))));
    calls()
}

/// The pieces into which a call cuts all its shards. It is an iterator over the bytes of each piece.
#[derive(Clone, Debug)]
pub(crate) struct Pieces {
    begin: usize,
    step: usize,
    end: usize,
}

impl Pieces {
    /// Cuts shards of one size for the threads that the call may use.
    pub(crate) fn new(shard_bytes: usize, shard_count: usize) -> Pieces {
        Pieces::least(ALLOWED.with(Cell::get), shard_bytes, shard_count, BYTES_FOR_A_THREAD)
    }

    /// Cuts shards of these lengths. If one of them is not `shard_bytes`, they stay whole: then the call fails, and the
    /// C library finds the reason.
    pub(crate) fn of_lengths(shard_bytes: usize, lengths: impl Iterator<Item = usize>) -> Pieces {
        let mut count = 0;
        for length in lengths {
            if length != shard_bytes {
                return Pieces::whole(shard_bytes);
            }
            count += 1;
        }
        Pieces::new(shard_bytes, count)
    }

    /// One piece: the whole shards.
    pub(crate) fn whole(shard_bytes: usize) -> Pieces {
        Pieces { begin: 0, step: shard_bytes, end: shard_bytes }
    }

    fn least(threads: usize, shard_bytes: usize, shard_count: usize, bytes_for_a_thread: usize) -> Pieces {
        let bytes = shard_bytes.saturating_mul(shard_count);
        let number = threads.min(bytes / bytes_for_a_thread).max(1);
        if number == 1 {
            return Pieces::whole(shard_bytes);
        }
        let step = shard_bytes.div_ceil(number).next_multiple_of(CHUNK);
        Pieces { begin: 0, step, end: shard_bytes }
    }

    pub(crate) fn is_whole(&self) -> bool {
        self.step >= self.end
    }
}

impl Iterator for Pieces {
    type Item = Range<usize>;

    fn next(&mut self) -> Option<Range<usize>> {
        if self.begin == self.end {
            return None;
        }
        let begin = self.begin;
        self.begin += self.step.min(self.end - begin);
        Some(begin..self.begin)
    }

    fn size_hint(&self) -> (usize, Option<usize>) {
        let left = (self.end - self.begin).div_ceil(self.step.max(1));
        (left, Some(left))
    }
}

impl ExactSizeIterator for Pieces {}

/// Runs all jobs, each on a thread of its own if the system starts so many. Returns the error of the first job in order
/// that fails.
pub(crate) fn run<J: Send>(jobs: Vec<J>, job: impl Fn(J) -> Result<(), Fault> + Sync) -> Result<(), Fault> {
    #[cfg(test)]
    tests::LAST_RUN.with(|last| last.set(jobs.len()));
    run_on(jobs.len(), jobs, job)
}

/// Runs all jobs on this number of threads, or on fewer if the system starts fewer.
fn run_on<J: Send>(threads: usize, jobs: Vec<J>, job: impl Fn(J) -> Result<(), Fault> + Sync) -> Result<(), Fault> {
    let queue = Mutex::new(jobs.into_iter().enumerate());
    let failed = Mutex::new(None);
    let worker = || work(&queue, &failed, &job);
    thread::scope(|scope| {
        for _ in 1..threads {
            if thread::Builder::new().spawn_scoped(scope, worker).is_err() {
                break;
            }
        }
        worker();
    });
    match failed.into_inner().unwrap_or_else(PoisonError::into_inner) {
        Some((_, fault)) => Err(fault),
        None => Ok(()),
    }
}

type Queue<J> = Mutex<std::iter::Enumerate<std::vec::IntoIter<J>>>;

/// Runs jobs until none is left, and records the fault of the first one in order that fails.
fn work<J>(queue: &Queue<J>, failed: &Mutex<Option<(usize, Fault)>>, job: &impl Fn(J) -> Result<(), Fault>) {
    let next = || queue.lock().unwrap_or_else(PoisonError::into_inner).next();
    while let Some((place, input)) = next() {
        if let Err(fault) = job(input) {
            let mut failed = failed.lock().unwrap_or_else(PoisonError::into_inner);
            if failed.map_or(true, |(first, _)| place < first) {
                *failed = Some((place, fault));
            }
        }
    }
}

#[cfg(test)]
mod tests {
    use super::*;
    use crate::{
        decode, decode_into, encode, encode_into, reconstruct, reconstruct_into, update, verify, ReedSolomonDecoder,
        ReedSolomonEncoder, ShardIndex,
    };
    use std::collections::HashSet;
    use std::sync::Condvar;
    use std::time::Duration;

    thread_local! {
        /// The number of jobs that were last run from this thread.
        pub(super) static LAST_RUN: Cell<usize> = const { Cell::new(0) };
    }

    /// Makes the call with up to three threads, and checks into how many pieces it cuts the shards.
    fn check_pieces<E: std::fmt::Debug>(pieces: usize, call: impl FnOnce() -> Result<(), E>) {
        LAST_RUN.with(|last| last.set(1));
        with_threads(3, call).unwrap();
        assert_eq!(LAST_RUN.with(Cell::get), pieces);
    }

    #[test]
    fn each_function_uses_threads_if_shards_are_long() {
        for (size, pieces) in [(1 << 18, 3), (1 << 10, 1)] {
            let original = vec![vec![7; size]; 4];
            let recovery = encode(4, 2, &original).unwrap();
            let (own, other) = (|| original[..2].iter().enumerate(), || recovery.iter().enumerate());
            let (wanted, mut to) = ([ShardIndex::Original(3)], vec![vec![0; size]; 2]);
            check_pieces(pieces, || encode(4, 2, &original).map(drop));
            check_pieces(pieces, || encode_into(4, 2, &original, &mut to));
            check_pieces(pieces, || decode(4, 2, own(), other()).map(drop));
            check_pieces(pieces, || decode_into(4, 2, own(), other(), &mut to));
            check_pieces(pieces, || verify(4, 2, own(), other()));
            check_pieces(pieces, || reconstruct(4, 2, own(), other(), &wanted).map(drop));
            check_pieces(pieces, || reconstruct_into(4, 2, own(), other(), &wanted, &mut to[..1]));
            check_pieces(pieces, || update(4, 2, 0, &original[0], &original[1], &mut to));
        }
    }

    #[test]
    fn objects_use_threads_if_shards_are_long() {
        for (size, pieces) in [(1 << 18, 3), (1 << 10, 1)] {
            let mut encoder = ReedSolomonEncoder::new(4, 2, size).unwrap();
            let mut decoder = ReedSolomonDecoder::new(4, 2, size).unwrap();
            (0..4).for_each(|_| encoder.add_original_shard(vec![7; size]).unwrap());
            (0..4).for_each(|index| decoder.add_original_shard(index, vec![0; size]).unwrap());
            decoder.add_recovery_shard(1, vec![0; size]).unwrap();
            check_pieces(pieces, || encoder.encode().map(drop));
            check_pieces(pieces, || decoder.decode().map(drop));
        }
    }

    #[test]
    fn pieces_are_whole_chunks_of_all_bytes() {
        for size in (2..1000).step_by(2).chain([4094, 4096, 4098, 100_000, 1 << 40]) {
            for threads in [1, 2, 3, 4, 7, 1000] {
                let pieces = Pieces::least(threads, size, 10, 640);
                let all: Vec<Range<usize>> = pieces.clone().take(2000).collect();
                assert!(all.len() <= threads && all.len() == pieces.len());
                assert_eq!(pieces.is_whole(), all.len() == 1);
                assert_eq!((all[0].start, all[all.len() - 1].end), (0, size));
                let fits = |pair: &[Range<usize>]| pair[0].end == pair[1].start && pair[1].start % CHUNK == 0;
                assert!(all.windows(2).all(fits) && all.iter().all(|piece| !piece.is_empty()));
            }
        }
    }

    #[test]
    fn a_thread_has_a_least_number_of_bytes() {
        let number = |threads, size, count| Pieces::least(threads, size, count, 1000).len();
        assert_eq!([number(9, 100, 10), number(9, 198, 10), number(9, 200, 10), number(9, 400, 10)], [1, 1, 2, 4]);
        assert_eq!([number(9, 64, 1000), number(9, 66, 1000), number(2, 6400, 1000)], [1, 2, 2]);
        assert_eq!(number(4, usize::MAX - 1, usize::MAX), 4);
    }

    #[test]
    fn shards_of_another_length_stay_whole() {
        let cut = |lengths: &[usize]| with_threads(4, || Pieces::of_lengths(1 << 20, lengths.iter().copied()).len());
        assert_eq!(cut(&[1 << 20; 10]), 4);
        assert_eq!(cut(&[1 << 20, 1 << 20, (1 << 20) - 64]), 1);
        assert_eq!(Pieces::of_lengths(1 << 20, [1 << 20; 10].into_iter()).len(), 1);
    }

    #[test]
    fn each_job_is_run_once_by_any_number_of_threads() {
        for threads in [1, 2, 3, 100, 200] {
            let done = Mutex::new(Vec::new());
            let job = |job| {
                done.lock().unwrap().push(job);
                Ok(())
            };
            run_on(threads, (0..100).collect(), job).unwrap();
            let mut done = done.into_inner().unwrap();
            done.sort_unstable();
            assert!(done.into_iter().eq(0..100));
        }
    }

    #[test]
    fn jobs_run_at_the_same_time() {
        let (running, changed) = (Mutex::new(HashSet::new()), Condvar::new());
        run(vec![(); 3], |()| {
            let mut threads = running.lock().unwrap();
            threads.insert(thread::current().id());
            changed.notify_all();
            let all = changed.wait_timeout_while(threads, Duration::from_secs(60), |threads| threads.len() < 3);
            assert_eq!(all.unwrap().0.len(), 3);
            Ok(())
        })
        .unwrap();
    }

    #[test]
    fn the_first_error_in_order_is_returned() {
        let fault = |number| Fault::outcome(number, crate::c::rs_fault::default());
        assert_eq!(run(vec![0, 0, 7, 0, 3, 5], fault), fault(7));
        assert_eq!(run(vec![9, 8], fault), fault(9));
        assert_eq!(run(vec![0; 5], fault), Ok(()));
    }

    #[test]
    fn the_number_is_restored() {
        let allowed = || ALLOWED.with(Cell::get);
        let inner = with_threads(3, || (allowed(), with_threads(0, allowed), allowed()));
        assert_eq!((inner, allowed()), ((3, 1, 3), 1));
        assert!(std::panic::catch_unwind(|| with_threads(3, || panic!("a test panics"))).is_err());
        assert_eq!(allowed(), 1);
    }
}
