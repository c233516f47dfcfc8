//! Decodes whole messages, by one thread or several.
use crate::calls;
use crate::counts::Counts;
use crate::fault::Fault;
use crate::given::{Alone, GivenBuffers, GivenShards};
use crate::memory::reserved;
use crate::new_shards::{make_in_buffers, NewShards};
use crate::shards::{take_of_each, Received, Room};
use crate::tables::tables;
use crate::threads::{run, Pieces};
use crate::{Error, RoomError};
use std::collections::BTreeMap;

/// Decodes a message in one call. Returns the missing originals, each with its index.
///
/// `original` and `recovery` yield the shards that are there, in any order, each with its index. Indexes are those of
/// the encode: originals and recovery shards are counted separately, both from 0. The size of all shards is that of the
/// first recovery shard.
///
/// If more shards are given than the message has originals, the call checks that all of them belong to one message.
/// With exactly `original_count` shards, it cannot notice that one of them is damaged.
///
/// # Errors
///
/// In the order in which they are checked:
///
/// - [`Error::UnsupportedShardCount`]
/// - [`Error::InvalidShardSize`] if the first recovery shard has no bytes, or an odd number of bytes
/// - for each original in order: [`Error::InvalidOriginalShardIndex`], [`Error::DuplicateOriginalShardIndex`],
///   [`Error::DifferentShardSize`]
/// - for each recovery shard in order: [`Error::InvalidRecoveryShardIndex`], [`Error::DuplicateRecoveryShardIndex`],
///   [`Error::DifferentShardSize`]
/// - [`Error::NotEnoughShards`] if there are fewer than `original_count` shards
/// - [`Error::InconsistentShards`] if there are more, and they do not belong to one message
///
/// Without recovery shards, originals of any sizes are accepted. No further shard is taken from the iterators after an
/// error. [`Error::OutOfMemory`] can come at any time after the first recovery shard was checked.
///
/// # Examples
///
/// Original 0 of two is lost, and recovery shard 2 is there.
///
/// ```
/// let restored = reed_solomon_simd::decode(2, 3, [(1, [0x01, 0x00])], [(2, [0x04, 0x00])])?;
/// assert_eq!(restored.len(), 1);
/// assert_eq!(restored[&0], [0x00, 0x00]);
/// # Ok::<(), reed_solomon_simd::Error>(())
/// ```
pub fn decode<O, R, OT, RT>(
    original_count: usize,
    recovery_count: usize,
    original: O,
    recovery: R,
) -> Result<BTreeMap<usize, Vec<u8>>, Error>
where
    O: IntoIterator<Item = (usize, OT)>,
    R: IntoIterator<Item = (usize, RT)>,
    OT: AsRef<[u8]>,
    RT: AsRef<[u8]>,
{
    let counts = Counts::new(original_count, recovery_count)?;
    let given = GivenShards::gather(counts, original, recovery, Alone::AnySize)?;
    let Some(shard_bytes) = given.shard_bytes else {
        return Ok(BTreeMap::new());
    };
    let mut restored = NewShards::new(given.marks.missing_count(), shard_bytes)?;
    decode_into_new(counts, shard_bytes, &given.received()?, restored.rooms()?)?;
    // SAFETY: a decode that succeeds has written all missing originals.
    let restored = unsafe { restored.written() };
    let mut by_index = BTreeMap::new();
    // `collect` would gather all of them in a vector first, whose memory could not be refused.
    by_index.extend(given.marks.missing_from(0).zip(restored));
    Ok(by_index)
}

/// Decodes a message in one call, and writes the missing originals into buffers of the caller.
///
/// `original` and `recovery` are as in [`decode`]. `restored` yields one buffer for each missing original, in order of
/// index. A buffer has the size of a shard. It may hold anything before the call.
///
/// If more shards are given than the message has originals, the missing originals are made in memory of the call and
/// copied into the buffers when it is sure that all shards belong to one message.
///
/// # Errors
///
/// In the order in which they are checked:
///
/// - the errors of [`decode`], as [`RoomError::Refused`]
/// - [`RoomError::WrongNumberOfRooms`]
/// - [`RoomError::WrongLength`] for the first buffer that does not have the size of a shard
///
/// If the call fails, the buffers hold what they held before.
///
/// # Examples
///
/// ```
/// let mut restored = [0xff; 2];
/// reed_solomon_simd::decode_into(2, 3, [(1, [0x01, 0x00])], [(2, [0x04, 0x00])], [&mut restored])?;
/// assert_eq!(restored, [0x00, 0x00]);
/// # Ok::<(), reed_solomon_simd::RoomError>(())
/// ```
pub fn decode_into<O, R, OT, RT, B>(
    original_count: usize,
    recovery_count: usize,
    original: O,
    recovery: R,
    restored: B,
) -> Result<(), RoomError>
where
    O: IntoIterator<Item = (usize, OT)>,
    R: IntoIterator<Item = (usize, RT)>,
    OT: AsRef<[u8]>,
    RT: AsRef<[u8]>,
    B: IntoIterator,
    B::Item: AsMut<[u8]>,
{
    let counts = Counts::new(original_count, recovery_count)?;
    let given = GivenShards::gather(counts, original, recovery, Alone::AnySize)?;
    let mut buffers = GivenBuffers::gather(restored)?;
    let mut slices = buffers.slices()?;
    let received = given.received()?;
    let shard_bytes = given.shard_bytes.unwrap_or(0);
    let pieces = cut(counts, shard_bytes, &received, slices.iter().map(|slice| slice.len()));
    let can_fail_late = !pieces.is_whole() && received.count() > counts.original;
    make_in_buffers(can_fail_late, shard_bytes, &mut slices, |rooms| decode_pieces(counts, pieces, &received, rooms))?;
    Ok(())
}

/// Decodes into rooms whose bytes nobody needs if the call fails.
pub(crate) fn decode_into_new(
    counts: Counts,
    shard_bytes: usize,
    received: &Received<'_>,
    restored: Vec<Room<'_>>,
) -> Result<(), Fault> {
    let pieces = cut(counts, shard_bytes, received, restored.iter().map(Room::length));
    decode_pieces(counts, pieces, received, restored)
}

/// Cuts the shards, unless the rooms do not fit them: then the call fails, and the C library finds the reason.
fn cut(
    counts: Counts,
    shard_bytes: usize,
    received: &Received<'_>,
    rooms: impl ExactSizeIterator<Item = usize>,
) -> Pieces {
    if rooms.len() + received.originals.len() == counts.original {
        Pieces::of_lengths(shard_bytes, received.lengths().chain(rooms))
    } else {
        Pieces::whole(shard_bytes)
    }
}

/// A piece of a decode, with all memory that it needs.
struct Job<'a> {
    received: Received<'a>,
    restored: Vec<Room<'a>>,
    work: Vec<u8>,
}

/// Decodes shards into rooms. If the call fails, nothing was written, unless there are several pieces and more shards
/// than originals: all memory is there before the first piece begins, so no other piece can fail.
fn decode_pieces(
    counts: Counts,
    pieces: Pieces,
    received: &Received<'_>,
    mut restored: Vec<Room<'_>>,
) -> Result<(), Fault> {
    let tables = tables()?;
    if pieces.is_whole() {
        return calls::decode(tables, counts, received, &mut restored);
    }
    let checked = if received.count() > counts.original { restored.len() } else { 0 };
    let mut jobs = reserved(pieces.len())?;
    for piece in pieces {
        jobs.push(Job {
            received: received.piece(&piece)?,
            restored: take_of_each(&mut restored, piece.len())?,
            work: calls::work(counts, piece.len(), checked)?,
        });
    }
    run(jobs, |mut job| calls::decode_with_work(tables, counts, &job.received, &mut job.restored, &mut job.work))
}
