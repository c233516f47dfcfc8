//! Updates recovery shards after one original has changed, by one thread or several.
use crate::calls::{self, Change};
use crate::counts::{Counts, Shape};
use crate::fault::Fault;
use crate::given::GivenBuffers;
use crate::memory::reserved;
use crate::shards::{rooms_of, take_of_each, Room};
use crate::tables::tables;
use crate::threads::{run, Pieces};
use crate::RoomError;

/// Updates the recovery shards of a message after the original with this index has changed from `before` to `after`.
/// The other originals are not needed.
///
/// `recovery` yields all recovery shards, in order of index. Before the call, they are those of the message with the
/// original `before`. After it, they are those of the message with the original `after`. If they or `before` hold other
/// bytes, they get wrong bytes, and the call cannot notice it.
///
/// This is faster than a new encode if few originals change and there are few recovery shards. With several threads,
/// the call works on copies of the recovery shards.
///
/// # Errors
///
/// In the order in which they are checked:
///
/// - [`Error::UnsupportedShardCount`](crate::Error::UnsupportedShardCount), as [`RoomError::Refused`]
/// - [`Error::InvalidShardSize`](crate::Error::InvalidShardSize) for `before`
/// - [`Error::InvalidOriginalShardIndex`](crate::Error::InvalidOriginalShardIndex)
/// - [`Error::DifferentShardSize`](crate::Error::DifferentShardSize) if `after` does not have the size of `before`
/// - [`RoomError::WrongNumberOfRooms`]
/// - [`RoomError::WrongLength`] for the first recovery shard that does not have the size of `before`
/// - [`Error::OutOfMemory`](crate::Error::OutOfMemory)
///
/// If the call fails, the recovery shards are unchanged.
///
/// # Examples
///
/// ```
/// use reed_solomon_simd::{encode, update};
///
/// let mut recovery = encode(2, 3, [[0x00, 0x00], [0x01, 0x00]])?;
/// update(2, 3, 0, &[0x00, 0x00], &[0x07, 0x00], &mut recovery)?;
/// assert_eq!(recovery, encode(2, 3, [[0x07, 0x00], [0x01, 0x00]])?);
/// # Ok::<(), Box<dyn std::error::Error>>(())
/// ```
pub fn update<R>(
    original_count: usize,
    recovery_count: usize,
    index: usize,
    before: &[u8],
    after: &[u8],
    recovery: R,
) -> Result<(), RoomError>
where
    R: IntoIterator,
    R::Item: AsMut<[u8]>,
{
    let counts = Counts::new(original_count, recovery_count)?;
    let shape = Shape::new(counts, before.len())?;
    let mut buffers = GivenBuffers::gather(recovery)?;
    let mut slices = buffers.slices()?;
    let lengths = [before.len(), after.len()].into_iter().chain(slices.iter().map(|slice| slice.len()));
    let pieces = Pieces::of_lengths(shape.shard_bytes, lengths);
    Ok(update_pieces(Change { counts, index, before, after }, pieces, &mut slices)?)
}

/// A piece of an update, with all memory that it needs.
struct Job<'a> {
    change: Change<'a>,
    recovery: Vec<Room<'a>>,
    work: Vec<u8>,
}

/// Updates recovery shards. If the call fails, nothing was written: with several threads, all memory is
/// there before the first one begins, and each piece finds the other faults before it writes.
fn update_pieces(change: Change<'_>, pieces: Pieces, recovery: &mut [&mut [u8]]) -> Result<(), Fault> {
    let (tables, mut recovery) = (tables()?, rooms_of(recovery)?);
    if pieces.is_whole() {
        // SAFETY: the rooms are slices of initialised bytes.
        return unsafe { calls::update(tables, change, &mut recovery) };
    }
    let mut jobs = reserved(pieces.len())?;
    for piece in pieces {
        let recovery = take_of_each(&mut recovery, piece.len())?;
        let (before, after) = (&change.before[piece.clone()], &change.after[piece]);
        jobs.push(Job {
            change: Change { before, after, ..change },
            recovery,
            work: calls::update_work(change.counts)?,
        });
    }
    // SAFETY: the rooms are pieces of slices of initialised bytes.
    run(jobs, |mut job| unsafe { calls::update_with_work(tables, job.change, &mut job.recovery, &mut job.work) })
}
