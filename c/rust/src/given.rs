//! The shards that a caller gives as iterators. They are taken and checked one after another, and none is taken after
//! an error. They are kept as the caller gave them, so no shard is copied.
use crate::counts::{check_size, Counts, Marks, Shape};
use crate::fault::Fault;
use crate::memory::{collected, push, reserved};
use crate::shards::{IndexedShard, Readable, Received, Shard};
use crate::Error;

/// All originals of a message.
#[derive(Debug)]
pub(crate) struct GivenOriginals<T> {
    pub(crate) shape: Shape,
    items: Vec<T>,
}

impl<T: AsRef<[u8]>> GivenOriginals<T> {
    pub(crate) fn gather<I>(original_count: usize, recovery_count: usize, original: I) -> Result<Self, Error>
    where
        I: IntoIterator<Item = T>,
    {
        let counts = Counts::new(original_count, recovery_count)?;
        let mut original = original.into_iter();
        let Some(first) = original.next() else {
            return Err(Error::TooFewOriginalShards { original_count, original_received_count: 0 });
        };
        let shape = Shape::new(counts, first.as_ref().len())?;
        let mut items = reserved(original_count)?;
        items.push(first);
        for item in original {
            shape.check_next(items.len(), item.as_ref().len())?;
            items.push(item);
        }
        shape.check_all(items.len())?;
        Ok(GivenOriginals { shape, items })
    }

    /// Returns the originals. Each must still have the size that it had when it was taken.
    pub(crate) fn shards(&self) -> Result<Vec<Shard<'_>>, Error> {
        let shards = collected(self.items.iter().map(|item| Shard::new(item.as_ref())))?;
        check_sizes(self.shape.shard_bytes, shards.iter().map(Readable::length))?;
        Ok(shards)
    }
}

/// What a call does if it gets no recovery shard.
#[derive(Clone, Copy, Debug, PartialEq, Eq)]
pub(crate) enum Alone {
    /// The originals may have any sizes, because nothing is computed from them.
    AnySize,
    /// The size of all shards is that of the first original.
    OneSize,
}

/// Shards with their indexes: enough to decode.
#[derive(Debug)]
pub(crate) struct GivenShards<OT, RT> {
    pub(crate) marks: Marks,
    /// The size of all shards, or nothing if they may have any sizes.
    pub(crate) shard_bytes: Option<usize>,
    originals: Vec<(usize, OT)>,
    recovery: Vec<(usize, RT)>,
}

impl<OT: AsRef<[u8]>, RT: AsRef<[u8]>> GivenShards<OT, RT> {
    pub(crate) fn gather<O, R>(counts: Counts, original: O, recovery: R, alone: Alone) -> Result<Self, Error>
    where
        O: IntoIterator<Item = (usize, OT)>,
        R: IntoIterator<Item = (usize, RT)>,
    {
        let mut original = original.into_iter();
        let mut recovery = recovery.into_iter();
        let first_recovery = recovery.next();
        let mut first_original = None;
        let mut shard_bytes = first_recovery.as_ref().map(|(_, shard)| shard.as_ref().len());
        if shard_bytes.is_none() && alone == Alone::OneSize {
            first_original = original.next();
            shard_bytes = first_original.as_ref().map(|(_, shard)| shard.as_ref().len());
        }
        if let Some(size) = shard_bytes {
            Shape::new(counts, size)?;
        }
        let marks = Marks::new(counts)?;
        let mut given = GivenShards { marks, shard_bytes, originals: Vec::new(), recovery: Vec::new() };
        given.take_originals(first_original.into_iter().chain(original))?;
        given.take_recovery(first_recovery.into_iter().chain(recovery))?;
        given.marks.check_enough()?;
        Ok(given)
    }

    fn take_originals(&mut self, original: impl Iterator<Item = (usize, OT)>) -> Result<(), Error> {
        for (index, shard) in original {
            self.marks.add_original(index, self.shard_bytes, shard.as_ref().len())?;
            push(&mut self.originals, (index, shard))?;
        }
        Ok(())
    }

    fn take_recovery(&mut self, recovery: impl Iterator<Item = (usize, RT)>) -> Result<(), Error> {
        for (index, shard) in recovery {
            let got = shard.as_ref().len();
            self.marks.add_recovery(index, self.shard_bytes.unwrap_or(got), got)?;
            push(&mut self.recovery, (index, shard))?;
        }
        Ok(())
    }

    /// Returns the shards. Each must still have the size that it had when it was taken, unless they may have any sizes.
    pub(crate) fn received(&self) -> Result<Received<'_>, Error> {
        let originals = self.originals.iter().map(|(index, shard)| IndexedShard::new(*index, shard.as_ref()));
        let recovery = self.recovery.iter().map(|(index, shard)| IndexedShard::new(*index, shard.as_ref()));
        let received = Received { originals: collected(originals)?, recovery: collected(recovery)? };
        if let Some(shard_bytes) = self.shard_bytes {
            check_sizes(shard_bytes, received.lengths())?;
        }
        Ok(received)
    }
}

fn check_sizes(shard_bytes: usize, mut lengths: impl Iterator<Item = usize>) -> Result<(), Error> {
    lengths.try_for_each(|got| check_size(shard_bytes, got))
}

/// The buffers of a caller, taken from an iterator.
#[derive(Debug)]
pub(crate) struct GivenBuffers<B>(Vec<B>);

impl<B: AsMut<[u8]>> GivenBuffers<B> {
    pub(crate) fn gather(buffers: impl IntoIterator<Item = B>) -> Result<Self, Fault> {
        let mut all = Vec::new();
        for buffer in buffers {
            push(&mut all, buffer)?;
        }
        Ok(GivenBuffers(all))
    }

    pub(crate) fn slices(&mut self) -> Result<Vec<&mut [u8]>, Fault> {
        collected(self.0.iter_mut().map(AsMut::as_mut))
    }
}
