//! The counts and the size of a message, and the checks of shards that are given one after another.
use crate::c;
use crate::fault::Fault;
use crate::memory::reserved;
use crate::Error;

/// Returns true if the code supports these counts together.
pub(crate) fn supports(original_count: usize, recovery_count: usize) -> bool {
    // SAFETY: the call takes any numbers.
    unsafe { c::rs_supports(original_count, recovery_count) == 1 }
}

/// Numbers of originals and recovery shards that the code supports.
#[derive(Clone, Copy, Debug)]
pub(crate) struct Counts {
    pub(crate) original: usize,
    pub(crate) recovery: usize,
}

impl Counts {
    pub(crate) fn new(original: usize, recovery: usize) -> Result<Counts, Error> {
        if supports(original, recovery) {
            Ok(Counts { original, recovery })
        } else {
            Err(Error::UnsupportedShardCount { original_count: original, recovery_count: recovery })
        }
    }
}

/// Supported counts, and a valid size of shards.
#[derive(Clone, Copy, Debug)]
pub(crate) struct Shape {
    pub(crate) counts: Counts,
    pub(crate) shard_bytes: usize,
}

impl Shape {
    pub(crate) fn new(counts: Counts, shard_bytes: usize) -> Result<Shape, Error> {
        if shard_bytes == 0 || shard_bytes % 2 != 0 {
            return Err(Error::InvalidShardSize { shard_bytes });
        }
        Ok(Shape { counts, shard_bytes })
    }

    /// Checks the original that is given after `received` others.
    pub(crate) fn check_next(&self, received: usize, got: usize) -> Result<(), Error> {
        if received == self.counts.original {
            return Err(Error::TooManyOriginalShards { original_count: self.counts.original });
        }
        check_size(self.shard_bytes, got)
    }

    /// Checks that all originals were given.
    pub(crate) fn check_all(&self, received: usize) -> Result<(), Error> {
        if received == self.counts.original {
            Ok(())
        } else {
            let original_count = self.counts.original;
            Err(Error::TooFewOriginalShards { original_count, original_received_count: received })
        }
    }
}

pub(crate) fn check_size(shard_bytes: usize, got: usize) -> Result<(), Error> {
    if got == shard_bytes {
        Ok(())
    } else {
        Err(Error::DifferentShardSize { shard_bytes, got })
    }
}

/// Which shards of a message were received.
#[derive(Clone, Debug)]
pub(crate) struct Marks {
    counts: Counts,
    /// A byte for each original, and then one for each recovery shard: 1 if it was received, and otherwise 0.
    marks: Vec<u8>,
    originals: usize,
    recovery: usize,
}

impl Marks {
    pub(crate) fn new(counts: Counts) -> Result<Marks, Fault> {
        let number = counts.original + counts.recovery;
        let mut marks = reserved(number)?;
        marks.resize(number, 0);
        Ok(Marks { counts, marks, originals: 0, recovery: 0 })
    }

    pub(crate) fn clear(&mut self) {
        self.marks.fill(0);
        self.originals = 0;
        self.recovery = 0;
    }

    pub(crate) fn as_bytes(&self) -> &[u8] {
        &self.marks
    }

    pub(crate) fn original_received_count(&self) -> usize {
        self.originals
    }

    pub(crate) fn recovery_received_count(&self) -> usize {
        self.recovery
    }

    pub(crate) fn missing_count(&self) -> usize {
        self.counts.original - self.originals
    }

    pub(crate) fn has_original(&self, index: usize) -> bool {
        self.marks[..self.counts.original][index] != 0
    }

    pub(crate) fn has_recovery(&self, index: usize) -> bool {
        self.marks[self.counts.original..][index] != 0
    }

    pub(crate) fn is_missing(&self, index: usize) -> bool {
        index < self.counts.original && !self.has_original(index)
    }

    /// The indexes of the missing originals from this one on.
    pub(crate) fn missing_from(&self, first: usize) -> impl Iterator<Item = usize> + '_ {
        (first..self.counts.original).filter(|&index| !self.has_original(index))
    }

    /// Checks and marks an original. Without a size, it may have any size.
    pub(crate) fn add_original(&mut self, index: usize, shard_bytes: Option<usize>, got: usize) -> Result<(), Error> {
        let original_count = self.counts.original;
        if index >= original_count {
            return Err(Error::InvalidOriginalShardIndex { original_count, index });
        }
        if self.has_original(index) {
            return Err(Error::DuplicateOriginalShardIndex { index });
        }
        check_size(shard_bytes.unwrap_or(got), got)?;
        self.marks[index] = 1;
        self.originals += 1;
        Ok(())
    }

    /// Checks and marks a recovery shard.
    pub(crate) fn add_recovery(&mut self, index: usize, shard_bytes: usize, got: usize) -> Result<(), Error> {
        let recovery_count = self.counts.recovery;
        if index >= recovery_count {
            return Err(Error::InvalidRecoveryShardIndex { recovery_count, index });
        }
        if self.has_recovery(index) {
            return Err(Error::DuplicateRecoveryShardIndex { index });
        }
        check_size(shard_bytes, got)?;
        self.marks[self.counts.original + index] = 1;
        self.recovery += 1;
        Ok(())
    }

    /// Checks that as many shards were received as the message has originals.
    pub(crate) fn check_enough(&self) -> Result<(), Error> {
        if self.originals + self.recovery >= self.counts.original {
            return Ok(());
        }
        Err(Error::NotEnoughShards {
            original_count: self.counts.original,
            original_received_count: self.originals,
            recovery_received_count: self.recovery,
        })
    }
}
