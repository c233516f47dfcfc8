//! The decoder that is used for many messages, and its result.
use crate::calls;
use crate::counts::{supports, Counts, Marks, Shape};
use crate::decoding::decode_into_new;
use crate::fault::Fault;
use crate::memory::{bytes_of, ensure_capacity, reserved};
use crate::shards::{IndexedShard, Received, Room};
use crate::tables::{tables, Tables};
use crate::threads::Pieces;
use crate::Error;
use std::fmt;
use std::iter::FusedIterator;

/// Decodes many messages, one after another, in the same memory.
///
/// The decoder copies the shards that are added. If the shards of a message lie in memory anyway,
/// [`decode`](crate::decode) and [`decode_into`](crate::decode_into) save these copies.
///
/// # Examples
///
/// Original 0 of two is lost, and recovery shard 2 is there.
///
/// ```
/// use reed_solomon_simd::ReedSolomonDecoder;
///
/// let mut decoder = ReedSolomonDecoder::new(2, 3, 2)?;
/// decoder.add_original_shard(1, [0x01, 0x00])?;
/// decoder.add_recovery_shard(2, [0x04, 0x00])?;
/// let result = decoder.decode()?;
/// assert_eq!(result.restored_original(0), Some(&[0x00, 0x00][..]));
/// assert_eq!(result.restored_original(1), None);
/// # Ok::<(), reed_solomon_simd::Error>(())
/// ```
pub struct ReedSolomonDecoder {
    work: Work,
}

impl ReedSolomonDecoder {
    /// Makes a decoder for messages of `original_count` originals and `recovery_count` recovery shards of `shard_bytes`
    /// bytes.
    ///
    /// It allocates memory for all shards of a message.
    ///
    /// # Errors
    ///
    /// In the order in which they are checked: [`Error::UnsupportedShardCount`], [`Error::InvalidShardSize`] if the
    /// size is zero or odd, [`Error::OutOfMemory`].
    pub fn new(original_count: usize, recovery_count: usize, shard_bytes: usize) -> Result<Self, Error> {
        let counts = Counts::new(original_count, recovery_count)?;
        let shape = Shape::new(counts, shard_bytes)?;
        let (tables, marks) = (tables()?, Marks::new(counts)?);
        let mut work = Work { shape, tables, marks, originals: Vec::new(), recovery: Vec::new() };
        work.reset(shape)?;
        Ok(ReedSolomonDecoder { work })
    }

    /// Changes the counts and the size, and forgets the shards that were added.
    ///
    /// If the decoder has enough memory from before, it allocates only one byte for each shard of a message.
    ///
    /// # Errors
    ///
    /// The errors of [`new`](ReedSolomonDecoder::new). If the call fails, the decoder keeps its counts, its size and
    /// its shards.
    pub fn reset(&mut self, original_count: usize, recovery_count: usize, shard_bytes: usize) -> Result<(), Error> {
        let shape = Shape::new(Counts::new(original_count, recovery_count)?, shard_bytes)?;
        Ok(self.work.reset(shape)?)
    }

    /// Adds the original with this index. Shards can be added in any order.
    ///
    /// # Errors
    ///
    /// In the order in which they are checked: [`Error::InvalidOriginalShardIndex`],
    /// [`Error::DuplicateOriginalShardIndex`], [`Error::DifferentShardSize`]. If the call fails, nothing is added.
    pub fn add_original_shard<T: AsRef<[u8]>>(&mut self, index: usize, original_shard: T) -> Result<(), Error> {
        let (shard, size) = (original_shard.as_ref(), self.work.shape.shard_bytes);
        self.work.marks.add_original(index, Some(size), shard.len())?;
        self.work.originals[index * size..(index + 1) * size].copy_from_slice(shard);
        Ok(())
    }

    /// Adds the recovery shard with this index. Shards can be added in any order.
    ///
    /// # Errors
    ///
    /// In the order in which they are checked: [`Error::InvalidRecoveryShardIndex`],
    /// [`Error::DuplicateRecoveryShardIndex`], [`Error::DifferentShardSize`]. If the call fails, nothing is added.
    pub fn add_recovery_shard<T: AsRef<[u8]>>(&mut self, index: usize, recovery_shard: T) -> Result<(), Error> {
        let (shard, size) = (recovery_shard.as_ref(), self.work.shape.shard_bytes);
        self.work.marks.add_recovery(index, size, shard.len())?;
        self.work.recovery[index * size..(index + 1) * size].copy_from_slice(shard);
        Ok(())
    }

    /// Restores the originals that were not added.
    ///
    /// If more shards were added than the message has originals, the call checks that all of them belong to one
    /// message. When the result is dropped, the decoder forgets the shards, and is ready for the next message.
    ///
    /// # Errors
    ///
    /// In the order in which they are checked:
    ///
    /// - [`Error::NotEnoughShards`] if fewer shards were added than the message has originals
    /// - [`Error::InconsistentShards`] if more were added, and they do not belong to one message
    ///
    /// After `InconsistentShards`, the decoder forgets the shards. After another error, it keeps them.
    /// [`Error::OutOfMemory`] can come at any time after the number of shards was checked.
    pub fn decode(&mut self) -> Result<DecoderResult<'_>, Error> {
        self.work.marks.check_enough()?;
        match self.work.decode().map_err(Error::from) {
            Ok(()) => Ok(DecoderResult { work: &mut self.work }),
            Err(error) => {
                if matches!(error, Error::InconsistentShards { .. }) {
                    self.work.marks.clear();
                }
                Err(error)
            }
        }
    }

    /// Returns true if the code supports these counts together.
    ///
    /// # Examples
    ///
    /// ```
    /// use reed_solomon_simd::ReedSolomonDecoder;
    ///
    /// assert!(ReedSolomonDecoder::supports(61440, 4096));
    /// assert!(!ReedSolomonDecoder::supports(61440, 4097));
    /// ```
    pub fn supports(original_count: usize, recovery_count: usize) -> bool {
        supports(original_count, recovery_count)
    }
}

impl fmt::Debug for ReedSolomonDecoder {
    fn fmt(&self, to: &mut fmt::Formatter<'_>) -> fmt::Result {
        self.work.describe("ReedSolomonDecoder", to)
    }
}

/// The memory of a decoder. In both buffers, each shard has its place, whether it is there or not.
struct Work {
    shape: Shape,
    tables: &'static Tables,
    marks: Marks,
    originals: Vec<u8>,
    recovery: Vec<u8>,
}

impl Work {
    fn reset(&mut self, shape: Shape) -> Result<(), Fault> {
        let originals = bytes_of(shape.counts.original, shape.shard_bytes)?;
        let recovery = bytes_of(shape.counts.recovery, shape.shard_bytes)?;
        let marks = Marks::new(shape.counts)?;
        ensure_capacity(&mut self.originals, originals)?;
        ensure_capacity(&mut self.recovery, recovery)?;
        self.originals.resize(originals, 0);
        self.recovery.resize(recovery, 0);
        self.marks = marks;
        self.shape = shape;
        Ok(())
    }

    fn decode(&mut self) -> Result<(), Fault> {
        let Shape { counts, shard_bytes } = self.shape;
        let read = self.marks.original_received_count() + self.marks.recovery_received_count();
        if Pieces::new(shard_bytes, read + self.marks.missing_count()).is_whole() {
            let marks = self.marks.as_bytes();
            return calls::decode_buffers(self.tables, self.shape, &mut self.originals, &self.recovery, marks);
        }
        let mut received = Received { originals: reserved(counts.original)?, recovery: reserved(counts.recovery)? };
        let mut restored = reserved(self.marks.missing_count())?;
        for (index, shard) in self.originals.chunks_exact_mut(shard_bytes).enumerate() {
            if self.marks.has_original(index) {
                received.originals.push(IndexedShard::new(index, shard));
            } else {
                restored.push(Room::new(shard));
            }
        }
        let all = self.recovery.chunks_exact(shard_bytes).enumerate();
        let there = all.filter(|(index, _)| self.marks.has_recovery(*index));
        received.recovery.extend(there.map(|(index, shard)| IndexedShard::new(index, shard)));
        decode_into_new(counts, shard_bytes, &received, restored)
    }

    fn restored(&self, index: usize) -> Option<&[u8]> {
        let is_missing = self.marks.is_missing(index);
        is_missing.then(|| &self.originals[index * self.shape.shard_bytes..][..self.shape.shard_bytes])
    }

    fn describe(&self, name: &str, to: &mut fmt::Formatter<'_>) -> fmt::Result {
        to.debug_struct(name)
            .field("original_count", &self.shape.counts.original)
            .field("recovery_count", &self.shape.counts.recovery)
            .field("shard_bytes", &self.shape.shard_bytes)
            .field("original_received_count", &self.marks.original_received_count())
            .field("recovery_received_count", &self.marks.recovery_received_count())
            .finish_non_exhaustive()
    }
}

/// The originals that [`ReedSolomonDecoder::decode`] has restored.
///
/// When it is dropped, the decoder forgets the shards of this message. If it is forgotten instead
/// ([`std::mem::forget`]), the decoder keeps them: then none of them can be added again, and the next decode restores
/// the same originals again.
pub struct DecoderResult<'a> {
    work: &'a mut Work,
}

impl DecoderResult<'_> {
    /// Returns the original with this index, or `None` if it was added to the decoder or does not exist.
    pub fn restored_original(&self, index: usize) -> Option<&[u8]> {
        self.work.restored(index)
    }

    /// Returns an iterator over all restored originals and their indexes, in order of index.
    pub fn restored_original_iter(&self) -> RestoredOriginal<'_> {
        RestoredOriginal { work: self.work, next_index: 0, remaining: self.work.marks.missing_count() }
    }
}

impl fmt::Debug for DecoderResult<'_> {
    fn fmt(&self, to: &mut fmt::Formatter<'_>) -> fmt::Result {
        self.work.describe("DecoderResult", to)
    }
}

impl Drop for DecoderResult<'_> {
    fn drop(&mut self) {
        self.work.marks.clear();
    }
}

/// An iterator over restored originals and their indexes, which [`DecoderResult::restored_original_iter`] returns.
#[derive(Clone)]
pub struct RestoredOriginal<'a> {
    work: &'a Work,
    next_index: usize,
    remaining: usize,
}

impl<'a> Iterator for RestoredOriginal<'a> {
    type Item = (usize, &'a [u8]);

    fn next(&mut self) -> Option<(usize, &'a [u8])> {
        let index = self.work.marks.missing_from(self.next_index).next()?;
        self.next_index = index + 1;
        self.remaining -= 1;
        self.work.restored(index).map(|shard| (index, shard))
    }

    fn size_hint(&self) -> (usize, Option<usize>) {
        (self.remaining, Some(self.remaining))
    }
}

impl ExactSizeIterator for RestoredOriginal<'_> {}

impl FusedIterator for RestoredOriginal<'_> {}

impl fmt::Debug for RestoredOriginal<'_> {
    fn fmt(&self, to: &mut fmt::Formatter<'_>) -> fmt::Result {
        to.debug_struct("RestoredOriginal").field("len", &self.len()).finish_non_exhaustive()
    }
}
