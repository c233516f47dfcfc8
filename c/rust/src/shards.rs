//! Shards and buffers of the caller, in the layout in which the C library takes them.
use crate::c::{rs_bytes, rs_room, rs_shard, rs_wanted, RS_ORIGINAL, RS_RECOVERY};
use crate::fault::Fault;
use crate::memory::{collected, reserved};
use crate::ShardIndex;
use std::marker::PhantomData;
use std::mem::MaybeUninit;
use std::ops::Range;

/// A shard that a call reads, of which a piece can be taken.
pub(crate) trait Readable: Copy {
    fn length(&self) -> usize;

    /// Returns a shard with the same index and only these bytes.
    fn piece(&self, bytes: &Range<usize>) -> Self;
}

/// Returns the same piece of each shard.
pub(crate) fn pieces_of<S: Readable>(shards: &[S], bytes: &Range<usize>) -> Result<Vec<S>, Fault> {
    collected(shards.iter().map(|shard| shard.piece(bytes)))
}

/// An original of an encode. It has the layout of [`rs_bytes`].
#[repr(transparent)]
#[derive(Clone, Copy, Debug)]
pub(crate) struct Shard<'a> {
    raw: rs_bytes,
    borrow: PhantomData<&'a [u8]>,
}

// SAFETY: it is a `&[u8]` in another layout.
unsafe impl Send for Shard<'_> {}
// SAFETY: it is a `&[u8]` in another layout.
unsafe impl Sync for Shard<'_> {}

impl<'a> Shard<'a> {
    pub(crate) fn new(bytes: &'a [u8]) -> Shard<'a> {
        Shard { raw: rs_bytes { bytes: bytes.as_ptr(), length: bytes.len() }, borrow: PhantomData }
    }

    fn bytes(self) -> &'a [u8] {
        // SAFETY: `new` got these bytes as a slice that is borrowed for 'a.
        unsafe { std::slice::from_raw_parts(self.raw.bytes, self.raw.length) }
    }
}

impl Readable for Shard<'_> {
    fn length(&self) -> usize {
        self.raw.length
    }

    fn piece(&self, bytes: &Range<usize>) -> Self {
        Shard::new(&self.bytes()[bytes.clone()])
    }
}

/// A received shard with its index. It has the layout of [`rs_shard`].
#[repr(transparent)]
#[derive(Clone, Copy, Debug)]
pub(crate) struct IndexedShard<'a> {
    raw: rs_shard,
    borrow: PhantomData<&'a [u8]>,
}

// SAFETY: it is a `&[u8]` and a number in another layout.
unsafe impl Send for IndexedShard<'_> {}
// SAFETY: it is a `&[u8]` and a number in another layout.
unsafe impl Sync for IndexedShard<'_> {}

impl<'a> IndexedShard<'a> {
    pub(crate) fn new(index: usize, bytes: &'a [u8]) -> IndexedShard<'a> {
        let raw = rs_shard { index, bytes: bytes.as_ptr(), length: bytes.len() };
        IndexedShard { raw, borrow: PhantomData }
    }

    fn bytes(self) -> &'a [u8] {
        // SAFETY: `new` got these bytes as a slice that is borrowed for 'a.
        unsafe { std::slice::from_raw_parts(self.raw.bytes, self.raw.length) }
    }
}

impl Readable for IndexedShard<'_> {
    fn length(&self) -> usize {
        self.raw.length
    }

    fn piece(&self, bytes: &Range<usize>) -> Self {
        IndexedShard::new(self.raw.index, &self.bytes()[bytes.clone()])
    }
}

/// The shards that a decode, a check or a reconstruction gets.
#[derive(Debug)]
pub(crate) struct Received<'a> {
    pub(crate) originals: Vec<IndexedShard<'a>>,
    pub(crate) recovery: Vec<IndexedShard<'a>>,
}

impl Received<'_> {
    pub(crate) fn count(&self) -> usize {
        self.originals.len() + self.recovery.len()
    }

    pub(crate) fn lengths(&self) -> impl Iterator<Item = usize> + '_ {
        self.originals.iter().chain(&self.recovery).map(Readable::length)
    }

    pub(crate) fn piece(&self, bytes: &Range<usize>) -> Result<Self, Fault> {
        Ok(Received { originals: pieces_of(&self.originals, bytes)?, recovery: pieces_of(&self.recovery, bytes)? })
    }
}

/// A place for a shard that a call writes. Its bytes may be uninitialised. It has the layout of [`rs_room`].
#[repr(transparent)]
#[derive(Debug)]
pub(crate) struct Room<'a> {
    raw: rs_room,
    borrow: PhantomData<&'a mut [MaybeUninit<u8>]>,
}

// SAFETY: it is a `&mut [MaybeUninit<u8>]` in another layout.
unsafe impl Send for Room<'_> {}

impl<'a> Room<'a> {
    /// Calls write only initialised bytes, so the bytes are still initialised afterwards.
    pub(crate) fn new(bytes: &'a mut [u8]) -> Room<'a> {
        Room { raw: rs_room { bytes: bytes.as_mut_ptr(), length: bytes.len() }, borrow: PhantomData }
    }

    pub(crate) fn uninitialised(bytes: &'a mut [MaybeUninit<u8>]) -> Room<'a> {
        Room { raw: rs_room { bytes: bytes.as_mut_ptr().cast(), length: bytes.len() }, borrow: PhantomData }
    }

    pub(crate) fn length(&self) -> usize {
        self.raw.length
    }

    /// Takes the first bytes off the room, and returns them as a room of their own.
    fn take(&mut self, length: usize) -> Room<'a> {
        assert!(length <= self.raw.length, "a room has no {length} bytes left");
        let first = Room { raw: rs_room { bytes: self.raw.bytes, length }, borrow: PhantomData };
        // SAFETY: the room has at least `length` bytes.
        self.raw.bytes = unsafe { self.raw.bytes.add(length) };
        self.raw.length -= length;
        first
    }
}

/// Takes the first bytes off each room.
pub(crate) fn take_of_each<'a>(rooms: &mut [Room<'a>], length: usize) -> Result<Vec<Room<'a>>, Fault> {
    collected(rooms.iter_mut().map(|room| room.take(length)))
}

/// Returns the slices as rooms.
pub(crate) fn rooms_of<'a>(slices: &'a mut [&mut [u8]]) -> Result<Vec<Room<'a>>, Fault> {
    collected(slices.iter_mut().map(|slice| Room::new(slice)))
}

/// Returns the names of shards in the layout of C.
pub(crate) fn names_of(wanted: &[ShardIndex]) -> Result<Vec<rs_wanted>, Fault> {
    let mut names = reserved(wanted.len())?;
    names.extend(wanted.iter().map(|&shard| match shard {
        ShardIndex::Original(index) => rs_wanted { kind: RS_ORIGINAL, index },
        ShardIndex::Recovery(index) => rs_wanted { kind: RS_RECOVERY, index },
    }));
    Ok(names)
}
