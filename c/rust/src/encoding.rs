//! Encodes whole messages, by one thread or several.
use crate::calls;
use crate::counts::Shape;
use crate::fault::Fault;
use crate::given::{GivenBuffers, GivenOriginals};
use crate::memory::reserved;
use crate::new_shards::NewShards;
use crate::shards::{pieces_of, rooms_of, take_of_each, Readable, Room, Shard};
use crate::tables::tables;
use crate::threads::{run, Pieces};
use crate::{Error, RoomError};

/// Encodes a message in one call. Returns its recovery shards.
///
/// The index of an original is its place in the order in which `original` yields it, counted from 0. The index of a
/// recovery shard is its place in the returned vector. A decode needs these indexes. The size of all shards is that of
/// the first original.
///
/// # Errors
///
/// In the order in which they are checked:
///
/// - [`Error::UnsupportedShardCount`]
/// - [`Error::TooFewOriginalShards`] if there is no original
/// - [`Error::InvalidShardSize`] if the first original has no bytes, or an odd number of bytes
/// - for each original in order: [`Error::TooManyOriginalShards`], [`Error::DifferentShardSize`]
/// - [`Error::TooFewOriginalShards`] if there are fewer than `original_count`
///
/// No further original is taken from the iterator after an error. [`Error::OutOfMemory`] can come at any time after the
/// first original was checked.
///
/// # Examples
///
/// ```
/// let recovery = reed_solomon_simd::encode(2, 3, [[0x00, 0x00], [0x01, 0x00]])?;
/// assert_eq!(recovery, [[0x02, 0x00], [0x03, 0x00], [0x04, 0x00]]);
/// # Ok::<(), reed_solomon_simd::Error>(())
/// ```
pub fn encode<T>(original_count: usize, recovery_count: usize, original: T) -> Result<Vec<Vec<u8>>, Error>
where
    T: IntoIterator,
    T::Item: AsRef<[u8]>,
{
    let given = GivenOriginals::gather(original_count, recovery_count, original)?;
    let mut recovery = NewShards::new(recovery_count, given.shape.shard_bytes)?;
    encode_shards(given.shape, &given.shards()?, recovery.rooms()?)?;
    // SAFETY: an encode that succeeds has written all recovery shards.
    Ok(unsafe { recovery.written() })
}

/// Encodes a message in one call, and writes the recovery shards into buffers of the caller.
///
/// `recovery` yields one buffer for each recovery shard, in order of index. A buffer has the size of a shard. It may
/// hold anything before the call.
///
/// # Errors
///
/// In the order in which they are checked:
///
/// - the errors of [`encode`], as [`RoomError::Refused`]
/// - [`RoomError::WrongNumberOfRooms`]
/// - [`RoomError::WrongLength`] for the first buffer that does not have the size of a shard
///
/// If the call fails, the buffers hold what they held before.
///
/// # Examples
///
/// ```
/// let mut recovery = [0xff; 6];
/// reed_solomon_simd::encode_into(2, 3, [[0x00, 0x00], [0x01, 0x00]], recovery.chunks_mut(2))?;
/// assert_eq!(recovery, [0x02, 0x00, 0x03, 0x00, 0x04, 0x00]);
/// # Ok::<(), reed_solomon_simd::RoomError>(())
/// ```
pub fn encode_into<T, R>(
    original_count: usize,
    recovery_count: usize,
    original: T,
    recovery: R,
) -> Result<(), RoomError>
where
    T: IntoIterator,
    T::Item: AsRef<[u8]>,
    R: IntoIterator,
    R::Item: AsMut<[u8]>,
{
    let given = GivenOriginals::gather(original_count, recovery_count, original)?;
    let mut buffers = GivenBuffers::gather(recovery)?;
    let mut slices = buffers.slices()?;
    Ok(encode_shards(given.shape, &given.shards()?, rooms_of(&mut slices)?)?)
}

/// A piece of an encode, with all memory that it needs.
struct Job<'a> {
    originals: Vec<Shard<'a>>,
    recovery: Vec<Room<'a>>,
    work: Vec<u8>,
}

/// Encodes shards into rooms. If the call fails, nothing was written: with several threads, all memory is there before
/// the first one begins, and then no piece can fail.
pub(crate) fn encode_shards(shape: Shape, originals: &[Shard<'_>], mut recovery: Vec<Room<'_>>) -> Result<(), Fault> {
    let Shape { counts, shard_bytes } = shape;
    let tables = tables()?;
    let lengths = originals.iter().map(Readable::length).chain(recovery.iter().map(Room::length));
    let pieces = Pieces::of_lengths(shard_bytes, lengths);
    if pieces.is_whole() {
        return calls::encode(tables, counts, originals, &mut recovery);
    }
    let mut jobs = reserved(pieces.len())?;
    for piece in pieces {
        jobs.push(Job {
            originals: pieces_of(originals, &piece)?,
            recovery: take_of_each(&mut recovery, piece.len())?,
            work: calls::work(counts, piece.len(), 0)?,
        });
    }
    run(jobs, |mut job| calls::encode_with_work(tables, counts, &job.originals, &mut job.recovery, &mut job.work))
}
