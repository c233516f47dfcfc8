//! The encoder that is used for many messages, and its result.
use crate::calls;
use crate::counts::{supports, Counts, Shape};
use crate::encoding::encode_shards;
use crate::fault::Fault;
use crate::memory::{bytes_of, collected, ensure_capacity};
use crate::shards::{Room, Shard};
use crate::tables::{tables, Tables};
use crate::threads::Pieces;
use crate::Error;
use std::fmt;
use std::iter::FusedIterator;
use std::slice::ChunksExact;

/// Encodes many messages, one after another, in the same memory.
///
/// The encoder copies the originals that are added. If the originals of a message lie in memory anyway,
/// [`encode`](crate::encode) and [`encode_into`](crate::encode_into) save these copies.
///
/// # Examples
///
/// ```
/// use reed_solomon_simd::ReedSolomonEncoder;
///
/// let mut encoder = ReedSolomonEncoder::new(2, 3, 2)?;
/// encoder.add_original_shard([0x00, 0x00])?;
/// encoder.add_original_shard([0x01, 0x00])?;
/// let result = encoder.encode()?;
/// let recovery: Vec<&[u8]> = result.recovery_iter().collect();
/// assert_eq!(recovery, [[0x02, 0x00], [0x03, 0x00], [0x04, 0x00]]);
/// # Ok::<(), reed_solomon_simd::Error>(())
/// ```
pub struct ReedSolomonEncoder {
    work: Work,
}

impl ReedSolomonEncoder {
    /// Makes an encoder for messages of `original_count` originals and `recovery_count` recovery shards of
    /// `shard_bytes` bytes.
    ///
    /// It allocates memory for all shards of a message.
    ///
    /// # Errors
    ///
    /// In the order in which they are checked: [`Error::UnsupportedShardCount`], [`Error::InvalidShardSize`] if the
    /// size is zero or odd, [`Error::OutOfMemory`].
    pub fn new(original_count: usize, recovery_count: usize, shard_bytes: usize) -> Result<Self, Error> {
        let shape = Shape::new(Counts::new(original_count, recovery_count)?, shard_bytes)?;
        let mut work = Work { shape, tables: tables()?, received: 0, originals: Vec::new(), recovery: Vec::new() };
        work.reset(shape)?;
        Ok(ReedSolomonEncoder { work })
    }

    /// Changes the counts and the size, and forgets the originals that were added.
    ///
    /// If the encoder has enough memory from before, it allocates nothing.
    ///
    /// # Errors
    ///
    /// The errors of [`new`](ReedSolomonEncoder::new). If the call fails, the encoder keeps its counts, its size and
    /// its originals.
    pub fn reset(&mut self, original_count: usize, recovery_count: usize, shard_bytes: usize) -> Result<(), Error> {
        let shape = Shape::new(Counts::new(original_count, recovery_count)?, shard_bytes)?;
        Ok(self.work.reset(shape)?)
    }

    /// Adds the next original. Its index is the number of originals that were added before it.
    ///
    /// # Errors
    ///
    /// In the order in which they are checked: [`Error::TooManyOriginalShards`], [`Error::DifferentShardSize`]. If the
    /// call fails, nothing is added.
    pub fn add_original_shard<T: AsRef<[u8]>>(&mut self, original_shard: T) -> Result<(), Error> {
        let shard = original_shard.as_ref();
        self.work.shape.check_next(self.work.received, shard.len())?;
        let begin = self.work.received * shard.len();
        self.work.originals[begin..begin + shard.len()].copy_from_slice(shard);
        self.work.received += 1;
        Ok(())
    }

    /// Makes the recovery shards of the originals that were added.
    ///
    /// When the result is dropped, the encoder forgets the originals, and is ready for the next message.
    ///
    /// # Errors
    ///
    /// In the order in which they are checked: [`Error::TooFewOriginalShards`], [`Error::OutOfMemory`]. If the call
    /// fails, the encoder keeps the originals.
    pub fn encode(&mut self) -> Result<EncoderResult<'_>, Error> {
        self.work.shape.check_all(self.work.received)?;
        self.work.encode()?;
        Ok(EncoderResult { work: &mut self.work })
    }

    /// Returns true if the code supports these counts together.
    ///
    /// # Examples
    ///
    /// ```
    /// use reed_solomon_simd::ReedSolomonEncoder;
    ///
    /// assert!(ReedSolomonEncoder::supports(61440, 4096));
    /// assert!(!ReedSolomonEncoder::supports(61440, 4097));
    /// ```
    pub fn supports(original_count: usize, recovery_count: usize) -> bool {
        supports(original_count, recovery_count)
    }
}

impl fmt::Debug for ReedSolomonEncoder {
    fn fmt(&self, to: &mut fmt::Formatter<'_>) -> fmt::Result {
        self.work.describe("ReedSolomonEncoder", to)
    }
}

/// The memory of an encoder. In both buffers, the shards lie one after another.
struct Work {
    shape: Shape,
    tables: &'static Tables,
    received: usize,
    originals: Vec<u8>,
    recovery: Vec<u8>,
}

impl Work {
    fn reset(&mut self, shape: Shape) -> Result<(), Fault> {
        let originals = bytes_of(shape.counts.original, shape.shard_bytes)?;
        let recovery = bytes_of(shape.counts.recovery, shape.shard_bytes)?;
        ensure_capacity(&mut self.originals, originals)?;
        ensure_capacity(&mut self.recovery, recovery)?;
        self.originals.resize(originals, 0);
        self.recovery.resize(recovery, 0);
        self.shape = shape;
        self.received = 0;
        Ok(())
    }

    fn encode(&mut self) -> Result<(), Fault> {
        let Shape { counts, shard_bytes } = self.shape;
        if Pieces::new(shard_bytes, counts.original + counts.recovery).is_whole() {
            return calls::encode_buffers(self.tables, self.shape, &self.originals, &mut self.recovery);
        }
        let originals = collected(self.originals.chunks_exact(shard_bytes).map(Shard::new))?;
        let recovery = collected(self.recovery.chunks_exact_mut(shard_bytes).map(Room::new))?;
        encode_shards(self.shape, &originals, recovery)
    }

    fn describe(&self, name: &str, to: &mut fmt::Formatter<'_>) -> fmt::Result {
        to.debug_struct(name)
            .field("original_count", &self.shape.counts.original)
            .field("recovery_count", &self.shape.counts.recovery)
            .field("shard_bytes", &self.shape.shard_bytes)
            .field("original_received_count", &self.received)
            .finish_non_exhaustive()
    }
}

/// The recovery shards that [`ReedSolomonEncoder::encode`] has made.
///
/// When it is dropped, the encoder forgets the originals of this message. If it is forgotten instead
/// ([`std::mem::forget`]), the encoder keeps them: then an added original is one too many, and the next encode makes
/// the same recovery shards again.
pub struct EncoderResult<'a> {
    work: &'a mut Work,
}

impl EncoderResult<'_> {
    /// Returns the recovery shard with this index, or `None` if the index is not below `recovery_count`.
    pub fn recovery(&self, index: usize) -> Option<&[u8]> {
        self.shards().nth(index)
    }

    /// Returns an iterator over all recovery shards, in order of index.
    pub fn recovery_iter(&self) -> Recovery<'_> {
        Recovery { shards: self.shards() }
    }

    fn shards(&self) -> ChunksExact<'_, u8> {
        self.work.recovery.chunks_exact(self.work.shape.shard_bytes)
    }
}

impl fmt::Debug for EncoderResult<'_> {
    fn fmt(&self, to: &mut fmt::Formatter<'_>) -> fmt::Result {
        self.work.describe("EncoderResult", to)
    }
}

impl Drop for EncoderResult<'_> {
    fn drop(&mut self) {
        self.work.received = 0;
    }
}

/// An iterator over recovery shards, which [`EncoderResult::recovery_iter`] returns.
#[derive(Clone)]
pub struct Recovery<'a> {
    shards: ChunksExact<'a, u8>,
}

impl<'a> Iterator for Recovery<'a> {
    type Item = &'a [u8];

    fn next(&mut self) -> Option<&'a [u8]> {
        self.shards.next()
    }

    fn size_hint(&self) -> (usize, Option<usize>) {
        self.shards.size_hint()
    }
}

impl ExactSizeIterator for Recovery<'_> {}

impl FusedIterator for Recovery<'_> {}

impl fmt::Debug for Recovery<'_> {
    fn fmt(&self, to: &mut fmt::Formatter<'_>) -> fmt::Result {
        to.debug_struct("Recovery").field("len", &self.len()).finish_non_exhaustive()
    }
}
