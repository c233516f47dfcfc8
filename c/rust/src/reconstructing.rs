//! Reconstructs the shards that a caller names, by one thread or several.
use crate::c::rs_wanted;
use crate::calls;
use crate::counts::Counts;
use crate::fault::Fault;
use crate::given::{Alone, GivenBuffers, GivenShards};
use crate::memory::reserved;
use crate::new_shards::{make_in_buffers, NewShards};
use crate::shards::{names_of, take_of_each, Received, Room};
use crate::tables::tables;
use crate::threads::{run, Pieces};
use crate::{ReconstructError, ShardIndex};

/// Reconstructs the wanted shards of a message: originals, recovery shards, or both. Returns them in the order of
/// `wanted`.
///
/// `original` and `recovery` yield the shards that are there, as in [`verify`](crate::verify). A shard that is there
/// cannot be wanted. If more shards are given than the message has originals, the call checks that all of them belong
/// to one message.
///
/// # Errors
///
/// In the order in which they are checked:
///
/// - the errors of [`verify`](crate::verify) up to and including `NotEnoughShards`, as [`ReconstructError::Refused`]
/// - for each wanted shard in order: [`ReconstructError::WantedIndexTooLarge`], [`ReconstructError::WantedTwice`],
///   [`ReconstructError::WantedReceived`]
/// - [`Error::InconsistentShards`](crate::Error::InconsistentShards), as [`ReconstructError::Refused`]
///
/// [`Error::OutOfMemory`](crate::Error::OutOfMemory) can come at any time after the size of the shards was checked.
///
/// # Examples
///
/// Original 0 of two and recovery shard 1 are lost, and both come back.
///
/// ```
/// use reed_solomon_simd::{reconstruct, ShardIndex};
///
/// let wanted = [ShardIndex::Recovery(1), ShardIndex::Original(0)];
/// let made = reconstruct(2, 3, [(1, [0x01, 0x00])], [(2, [0x04, 0x00])], &wanted)?;
/// assert_eq!(made, [[0x03, 0x00], [0x00, 0x00]]);
/// # Ok::<(), reed_solomon_simd::ReconstructError>(())
/// ```
pub fn reconstruct<O, R, OT, RT>(
    original_count: usize,
    recovery_count: usize,
    original: O,
    recovery: R,
    wanted: &[ShardIndex],
) -> Result<Vec<Vec<u8>>, ReconstructError>
where
    O: IntoIterator<Item = (usize, OT)>,
    R: IntoIterator<Item = (usize, RT)>,
    OT: AsRef<[u8]>,
    RT: AsRef<[u8]>,
{
    let counts = Counts::new(original_count, recovery_count)?;
    let given = GivenShards::gather(counts, original, recovery, Alone::OneSize)?;
    let received = given.received()?;
    let shard_bytes = given.shard_bytes.unwrap_or(0);
    // More wanted shards than the message has are an error, for which no memory is needed.
    let possible = wanted.len().min(original_count + recovery_count - received.count());
    let mut made = NewShards::new(possible, shard_bytes)?;
    let rooms = made.rooms()?;
    let pieces = Pieces::of_lengths(shard_bytes, received.lengths().chain(rooms.iter().map(Room::length)));
    reconstruct_pieces(counts, pieces, &received, &names_of(wanted)?, rooms)?;
    // SAFETY: a call that succeeds has written all wanted shards, of which then there are `possible`.
    Ok(unsafe { made.written() })
}

/// Reconstructs the wanted shards of a message, and writes them into buffers of the caller.
///
/// `original`, `recovery` and `wanted` are as in [`reconstruct`]. `made` yields one buffer for each wanted shard, in
/// the order of `wanted`. A buffer has the size of a shard. It may hold anything before the call. With several threads,
/// the shards are made in memory of the call first.
///
/// # Errors
///
/// In the order in which they are checked:
///
/// - the errors of [`reconstruct`] but for `InconsistentShards`
/// - [`ReconstructError::WrongNumberOfRooms`]
/// - [`ReconstructError::WrongLength`] for the first buffer that does not have the size of a shard
/// - [`Error::InconsistentShards`](crate::Error::InconsistentShards), as [`ReconstructError::Refused`]
///
/// If the call fails, the buffers hold what they held before.
///
/// # Examples
///
/// ```
/// use reed_solomon_simd::{reconstruct_into, ShardIndex};
///
/// let mut made = [0xff; 2];
/// let wanted = [ShardIndex::Recovery(1)];
/// reconstruct_into(2, 3, [(1, [0x01, 0x00])], [(2, [0x04, 0x00])], &wanted, [&mut made])?;
/// assert_eq!(made, [0x03, 0x00]);
/// # Ok::<(), reed_solomon_simd::ReconstructError>(())
/// ```
pub fn reconstruct_into<O, R, OT, RT, B>(
    original_count: usize,
    recovery_count: usize,
    original: O,
    recovery: R,
    wanted: &[ShardIndex],
    made: B,
) -> Result<(), ReconstructError>
where
    O: IntoIterator<Item = (usize, OT)>,
    R: IntoIterator<Item = (usize, RT)>,
    OT: AsRef<[u8]>,
    RT: AsRef<[u8]>,
    B: IntoIterator,
    B::Item: AsMut<[u8]>,
{
    let counts = Counts::new(original_count, recovery_count)?;
    let given = GivenShards::gather(counts, original, recovery, Alone::OneSize)?;
    let received = given.received()?;
    let mut buffers = GivenBuffers::gather(made)?;
    let mut slices = buffers.slices()?;
    let names = names_of(wanted)?;
    let shard_bytes = given.shard_bytes.unwrap_or(0);
    let pieces = Pieces::of_lengths(shard_bytes, received.lengths().chain(slices.iter().map(|slice| slice.len())));
    let can_fail_late = !pieces.is_whole() && received.count() > counts.original;
    make_in_buffers(can_fail_late, shard_bytes, &mut slices, |rooms| {
        reconstruct_pieces(counts, pieces, &received, &names, rooms)
    })?;
    Ok(())
}

/// A piece of a reconstruction, with all memory that it needs.
struct Job<'a> {
    received: Received<'a>,
    made: Vec<Room<'a>>,
    work: Vec<u8>,
}

/// Makes the wanted shards. If the call fails, nothing was written, unless there are several pieces and more shards
/// than originals: all memory is there before the first piece begins, so no other piece can fail.
fn reconstruct_pieces(
    counts: Counts,
    pieces: Pieces,
    received: &Received<'_>,
    wanted: &[rs_wanted],
    mut made: Vec<Room<'_>>,
) -> Result<(), Fault> {
    let tables = tables()?;
    if pieces.is_whole() {
        return calls::reconstruct(tables, counts, received, wanted, &mut made);
    }
    let checked = if received.count() > counts.original { wanted.len().min(counts.recovery) } else { 0 };
    let mut jobs = reserved(pieces.len())?;
    for piece in pieces {
        jobs.push(Job {
            received: received.piece(&piece)?,
            made: take_of_each(&mut made, piece.len())?,
            work: calls::reconstruct_work(counts, piece.len(), checked)?,
        });
    }
    run(jobs, |mut job| {
        calls::reconstruct_with_work(tables, counts, &job.received, wanted, &mut job.made, &mut job.work)
    })
}
