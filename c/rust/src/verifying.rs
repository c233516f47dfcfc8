//! Checks that shards belong to one message, by one thread or several.
use crate::calls;
use crate::counts::Counts;
use crate::given::{Alone, GivenShards};
use crate::memory::reserved;
use crate::tables::tables;
use crate::threads::{run, Pieces};
use crate::Error;

/// Checks that shards belong to one message. Restores and writes nothing.
///
/// `original` and `recovery` yield the shards that are there, as in [`decode`](crate::decode). The size of all shards
/// is that of the first recovery shard, or of the first original if there is no recovery shard.
///
/// If exactly `original_count` shards are given, there always is a message that agrees with them, so no damage can be
/// noticed. If t more are given, and at least one but at most t of all given shards are damaged, the call notices it.
///
/// # Errors
///
/// In the order in which they are checked:
///
/// - [`Error::UnsupportedShardCount`]
/// - [`Error::NotEnoughShards`] if there is no shard
/// - [`Error::InvalidShardSize`]
/// - for each original in order: [`Error::InvalidOriginalShardIndex`], [`Error::DuplicateOriginalShardIndex`],
///   [`Error::DifferentShardSize`]
/// - for each recovery shard in order: [`Error::InvalidRecoveryShardIndex`], [`Error::DuplicateRecoveryShardIndex`],
///   [`Error::DifferentShardSize`]
/// - [`Error::NotEnoughShards`] if there are fewer than `original_count` shards
/// - [`Error::InconsistentShards`] if the shards do not belong to one message
///
/// [`Error::OutOfMemory`] can come at any time after the size of the shards was checked.
///
/// # Examples
///
/// ```
/// use reed_solomon_simd::{verify, Error};
///
/// let original = [[0x00, 0x00], [0x01, 0x00]].into_iter().enumerate();
/// verify(2, 3, original.clone(), [(2, [0x04, 0x00])])?;
/// assert_eq!(
///     verify(2, 3, original, [(2, [0x05, 0x00])]),
///     Err(Error::InconsistentShards { original_received_count: 2, recovery_received_count: 1 })
/// );
/// # Ok::<(), Error>(())
/// ```
pub fn verify<O, R, OT, RT>(original_count: usize, recovery_count: usize, original: O, recovery: R) -> Result<(), Error>
where
    O: IntoIterator<Item = (usize, OT)>,
    R: IntoIterator<Item = (usize, RT)>,
    OT: AsRef<[u8]>,
    RT: AsRef<[u8]>,
{
    let counts = Counts::new(original_count, recovery_count)?;
    let given = GivenShards::gather(counts, original, recovery, Alone::OneSize)?;
    let received = given.received()?;
    let tables = tables()?;
    let pieces = Pieces::of_lengths(given.shard_bytes.unwrap_or(0), received.lengths());
    if pieces.is_whole() {
        return Ok(calls::verify(tables, counts, &received)?);
    }
    let mut jobs = reserved(pieces.len())?;
    for piece in pieces {
        jobs.push(received.piece(&piece)?);
    }
    Ok(run(jobs, |job| calls::verify(tables, counts, &job))?)
}
