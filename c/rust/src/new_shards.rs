//! Shards that a call makes in memory of its own.
use crate::fault::Fault;
use crate::memory::{collected, reserved};
use crate::shards::{rooms_of, Room};

/// New shards of one size, whose bytes a call writes.
#[derive(Debug)]
pub(crate) struct NewShards {
    shards: Vec<Vec<u8>>,
    shard_bytes: usize,
}

impl NewShards {
    pub(crate) fn new(count: usize, shard_bytes: usize) -> Result<NewShards, Fault> {
        let mut shards = reserved(count)?;
        for _ in 0..count {
            shards.push(reserved(shard_bytes)?);
        }
        Ok(NewShards { shards, shard_bytes })
    }

    pub(crate) fn rooms(&mut self) -> Result<Vec<Room<'_>>, Fault> {
        let size = self.shard_bytes;
        collected(self.shards.iter_mut().map(|shard| Room::uninitialised(&mut shard.spare_capacity_mut()[..size])))
    }

    /// Returns the shards.
    ///
    /// # Safety
    ///
    /// Calls have written every byte of all rooms.
    pub(crate) unsafe fn written(mut self) -> Vec<Vec<u8>> {
        for shard in &mut self.shards {
            // SAFETY: `new` reserved this number of bytes, and they were written.
            unsafe { shard.set_len(self.shard_bytes) };
        }
        self.shards
    }
}

/// Makes shards in buffers of the caller. If `can_fail_late`, a piece can fail after another one was written. Then the
/// shards are made in memory of the call first, and copied when all pieces have succeeded.
pub(crate) fn make_in_buffers(
    can_fail_late: bool,
    shard_bytes: usize,
    buffers: &mut [&mut [u8]],
    make: impl FnOnce(Vec<Room<'_>>) -> Result<(), Fault>,
) -> Result<(), Fault> {
    if !can_fail_late {
        return make(rooms_of(buffers)?);
    }
    let mut new = NewShards::new(buffers.len(), shard_bytes)?;
    make(new.rooms()?)?;
    // SAFETY: a call that succeeds has written all its rooms, and it fails if there is another number of them.
    let made = unsafe { new.written() };
    for (shard, buffer) in made.iter().zip(buffers) {
        buffer.copy_from_slice(shard);
    }
    Ok(())
}
