//! The calls of the C library as safe functions. The rules of the header about pointers, lengths and overlaps hold
//! because all memory is passed as slices, or as shards and rooms that borrow slices.
use crate::c::{self, rs_bytes, rs_fault, rs_room, rs_shard, rs_wanted};
use crate::counts::{Counts, Shape};
use crate::fault::Fault;
use crate::memory::reserved;
use crate::shards::{IndexedShard, Received, Room, Shard};
use crate::tables::Tables;
use std::ffi::c_void;

fn shards(of: &[Shard<'_>]) -> (*const rs_bytes, usize) {
    (of.as_ptr().cast(), of.len())
}

fn indexed(of: &[IndexedShard<'_>]) -> (*const rs_shard, usize) {
    (of.as_ptr().cast(), of.len())
}

// Takes the rooms as mutable, because the call writes the memory that they borrow.
fn rooms(of: &mut [Room<'_>]) -> (*const rs_room, usize) {
    (of.as_ptr().cast(), of.len())
}

/// Makes a call that writes a fault and returns its number.
fn outcome(call: impl FnOnce(*mut rs_fault) -> u32) -> Result<(), Fault> {
    let mut fault = rs_fault::default();
    let number = call(&mut fault);
    Fault::outcome(number, fault)
}

/// Returns how long shards must be for a message of this many bytes, or 0.
pub(crate) fn shard_bytes(total: usize, original_count: usize) -> usize {
    // SAFETY: the call takes any numbers.
    unsafe { c::rs_shard_bytes(total, original_count) }
}

/// Returns work memory for one encode or one decode. `restored` is the number of originals that a decode of more shards
/// than originals restores, and otherwise 0.
pub(crate) fn work(counts: Counts, shard_bytes: usize, restored: usize) -> Result<Vec<u8>, Fault> {
    // SAFETY: the call takes any numbers.
    work_of(unsafe { c::rs_work_bytes(counts.original, counts.recovery, shard_bytes, restored) })
}

/// Returns work memory for one reconstruction. `restored` is the number of wanted shards if there are more shards than
/// originals, and otherwise 0.
pub(crate) fn reconstruct_work(counts: Counts, shard_bytes: usize, restored: usize) -> Result<Vec<u8>, Fault> {
    // SAFETY: the call takes any numbers.
    work_of(unsafe { c::rs_reconstruct_work_bytes(counts.original, counts.recovery, shard_bytes, restored) })
}

/// Returns work memory for one update.
pub(crate) fn update_work(counts: Counts) -> Result<Vec<u8>, Fault> {
    // SAFETY: the call takes any numbers.
    work_of(unsafe { c::rs_update_work_bytes(counts.original, counts.recovery) })
}

/// Returns a vector with this spare capacity. 0 means that more memory is needed than there can be.
fn work_of(bytes: usize) -> Result<Vec<u8>, Fault> {
    if bytes == 0 {
        return Err(Fault::OUT_OF_MEMORY);
    }
    reserved(bytes)
}

/// Returns the spare capacity as the address and the length of work memory, which need not be initialised.
fn spare(work: &mut Vec<u8>) -> (*mut c_void, usize) {
    let spare = work.spare_capacity_mut();
    (spare.as_mut_ptr().cast(), spare.len())
}

/// Encodes from one buffer into another. In a buffer, shards lie one after another.
pub(crate) fn encode_buffers(
    tables: &Tables,
    shape: Shape,
    originals: &[u8],
    recovery: &mut [u8],
) -> Result<(), Fault> {
    let Shape { counts, shard_bytes } = shape;
    let (from, from_length) = (originals.as_ptr(), originals.len());
    let (to, to_length) = (recovery.as_mut_ptr(), recovery.len());
    // SAFETY: the pointers and lengths are those of slices that are borrowed during the call, the one that it writes as
    // mutable.
    outcome(|fault| unsafe {
        let tables = tables.at();
        c::rs_encode(tables, counts.original, counts.recovery, shard_bytes, from, from_length, to, to_length, fault)
    })
}

/// Restores the lost originals in their places in a buffer. The marks say which shards are there.
pub(crate) fn decode_buffers(
    tables: &Tables,
    shape: Shape,
    originals: &mut [u8],
    recovery: &[u8],
    marks: &[u8],
) -> Result<(), Fault> {
    let Shape { counts: Counts { original: own, recovery: other }, shard_bytes } = shape;
    let (to, to_length) = (originals.as_mut_ptr(), originals.len());
    let (from, from_length) = (recovery.as_ptr(), recovery.len());
    let (marks, marks_length) = (marks.as_ptr(), marks.len());
    // SAFETY: the pointers and lengths are those of slices that are borrowed during the call, the one that it writes as
    // mutable.
    outcome(|fault| unsafe {
        let tables = tables.at();
        c::rs_decode(tables, own, other, shard_bytes, to, to_length, from, from_length, marks, marks_length, fault)
    })
}

/// Encodes shards into rooms.
pub(crate) fn encode(
    tables: &Tables,
    counts: Counts,
    originals: &[Shard<'_>],
    recovery: &mut [Room<'_>],
) -> Result<(), Fault> {
    let ((from, from_number), (to, to_number)) = (shards(originals), rooms(recovery));
    // SAFETY: shards and rooms have the layout that the call takes, and borrow their memory during the call.
    outcome(|fault| unsafe {
        c::rs_encode_shards(tables.at(), counts.original, counts.recovery, from, from_number, to, to_number, fault)
    })
}

/// Encodes shards into rooms. All memory comes from the spare capacity of `work`.
pub(crate) fn encode_with_work(
    tables: &Tables,
    counts: Counts,
    originals: &[Shard<'_>],
    recovery: &mut [Room<'_>],
    work: &mut Vec<u8>,
) -> Result<(), Fault> {
    let ((from, from_number), (to, to_number)) = (shards(originals), rooms(recovery));
    let (work, work_length) = spare(work);
    // SAFETY: as in `encode`. The work memory is borrowed as mutable.
    outcome(|fault| unsafe {
        c::rs_encode_shards_with_work(
            tables.at(),
            counts.original,
            counts.recovery,
            from,
            from_number,
            to,
            to_number,
            work,
            work_length,
            fault,
        )
    })
}

/// Restores the originals that were not received into rooms.
pub(crate) fn decode(
    tables: &Tables,
    counts: Counts,
    received: &Received<'_>,
    restored: &mut [Room<'_>],
) -> Result<(), Fault> {
    let ((own, own_number), (other, other_number)) = (indexed(&received.originals), indexed(&received.recovery));
    let (to, to_number) = rooms(restored);
    // SAFETY: shards and rooms have the layout that the call takes, and borrow their memory during the call.
    outcome(|fault| unsafe {
        c::rs_decode_shards(
            tables.at(),
            counts.original,
            counts.recovery,
            own,
            own_number,
            other,
            other_number,
            to,
            to_number,
            fault,
        )
    })
}

/// Restores the originals that were not received into rooms. All memory comes from the spare capacity of `work`.
pub(crate) fn decode_with_work(
    tables: &Tables,
    counts: Counts,
    received: &Received<'_>,
    restored: &mut [Room<'_>],
    work: &mut Vec<u8>,
) -> Result<(), Fault> {
    let ((own, own_number), (other, other_number)) = (indexed(&received.originals), indexed(&received.recovery));
    let (to, to_number) = rooms(restored);
    let (work, work_length) = spare(work);
    // SAFETY: as in `decode`. The work memory is borrowed as mutable.
    outcome(|fault| unsafe {
        c::rs_decode_shards_with_work(
            tables.at(),
            counts.original,
            counts.recovery,
            own,
            own_number,
            other,
            other_number,
            to,
            to_number,
            work,
            work_length,
            fault,
        )
    })
}

/// Checks that the received shards belong to one message.
pub(crate) fn verify(tables: &Tables, counts: Counts, received: &Received<'_>) -> Result<(), Fault> {
    let ((own, own_number), (other, other_number)) = (indexed(&received.originals), indexed(&received.recovery));
    // SAFETY: shards have the layout that the call takes, and borrow their memory during the call.
    outcome(|fault| unsafe {
        c::rs_verify(tables.at(), counts.original, counts.recovery, own, own_number, other, other_number, fault)
    })
}

/// Makes the wanted shards, and writes them into rooms.
pub(crate) fn reconstruct(
    tables: &Tables,
    counts: Counts,
    received: &Received<'_>,
    wanted: &[rs_wanted],
    made: &mut [Room<'_>],
) -> Result<(), Fault> {
    let ((own, own_number), (other, other_number)) = (indexed(&received.originals), indexed(&received.recovery));
    let (names, names_number) = (wanted.as_ptr(), wanted.len());
    let (to, to_number) = rooms(made);
    // SAFETY: shards, names and rooms have the layout that the call takes, and borrow their memory during the call.
    outcome(|fault| unsafe {
        c::rs_reconstruct(
            tables.at(),
            counts.original,
            counts.recovery,
            own,
            own_number,
            other,
            other_number,
            names,
            names_number,
            to,
            to_number,
            fault,
        )
    })
}

/// Makes the wanted shards, and writes them into rooms. All memory comes from the spare capacity of `work`.
pub(crate) fn reconstruct_with_work(
    tables: &Tables,
    counts: Counts,
    received: &Received<'_>,
    wanted: &[rs_wanted],
    made: &mut [Room<'_>],
    work: &mut Vec<u8>,
) -> Result<(), Fault> {
    let ((own, own_number), (other, other_number)) = (indexed(&received.originals), indexed(&received.recovery));
    let (names, names_number) = (wanted.as_ptr(), wanted.len());
    let ((to, to_number), (work, work_length)) = (rooms(made), spare(work));
    // SAFETY: as in `reconstruct`. The work memory is borrowed as mutable.
    outcome(|fault| unsafe {
        c::rs_reconstruct_with_work(
            tables.at(),
            counts.original,
            counts.recovery,
            own,
            own_number,
            other,
            other_number,
            names,
            names_number,
            to,
            to_number,
            work,
            work_length,
            fault,
        )
    })
}

/// The change of one original of a message.
#[derive(Clone, Copy, Debug)]
pub(crate) struct Change<'a> {
    pub(crate) counts: Counts,
    pub(crate) index: usize,
    pub(crate) before: &'a [u8],
    pub(crate) after: &'a [u8],
}

/// Updates the recovery shards in the rooms.
///
/// # Safety
///
/// The bytes of all rooms are initialised.
pub(crate) unsafe fn update(tables: &Tables, change: Change<'_>, recovery: &mut [Room<'_>]) -> Result<(), Fault> {
    let Change { counts, index, before, after } = change;
    let (old, old_length, new, new_length) = (before.as_ptr(), before.len(), after.as_ptr(), after.len());
    let (to, to_number) = rooms(recovery);
    // SAFETY: the pointers and lengths are those of slices, and rooms have the layout that the call takes. They borrow
    // their memory during the call. The caller ensures that the call reads only initialised bytes.
    outcome(|fault| unsafe {
        c::rs_update(
            tables.at(),
            counts.original,
            counts.recovery,
            index,
            old,
            old_length,
            new,
            new_length,
            to,
            to_number,
            fault,
        )
    })
}

/// Updates the recovery shards in the rooms. All memory comes from the spare capacity of `work`.
///
/// # Safety
///
/// The bytes of all rooms are initialised.
pub(crate) unsafe fn update_with_work(
    tables: &Tables,
    change: Change<'_>,
    recovery: &mut [Room<'_>],
    work: &mut Vec<u8>,
) -> Result<(), Fault> {
    let Change { counts, index, before, after } = change;
    let (old, old_length, new, new_length) = (before.as_ptr(), before.len(), after.as_ptr(), after.len());
    let ((to, to_number), (work, work_length)) = (rooms(recovery), spare(work));
    // SAFETY: as in `update`. The work memory is borrowed as mutable.
    outcome(|fault| unsafe {
        c::rs_update_with_work(
            tables.at(),
            counts.original,
            counts.recovery,
            index,
            old,
            old_length,
            new,
            new_length,
            to,
            to_number,
            work,
            work_length,
            fault,
        )
    })
}
