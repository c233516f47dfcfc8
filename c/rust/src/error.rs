//! The errors of all functions but those that write into buffers of the caller or reconstruct shards.
use std::fmt;

/// The reason why a call failed. All fields are counts, indexes, or sizes in bytes.
///
/// The ten variants of the original crate have its names, fields and texts. [`Error::InconsistentShards`] and
/// [`Error::OutOfMemory`] are added.
#[derive(Clone, Copy, Debug, PartialEq, Eq, Hash)]
pub enum Error {
    /// A shard has another size than the other shards of its message.
    ///
    /// Encoders and decoders get the size when they are made or reset. [`encode`](crate::encode) uses the size of the
    /// first original, and [`decode`](crate::decode) uses the size of the first recovery shard.
    DifferentShardSize {
        /// The size of the other shards, in bytes.
        shard_bytes: usize,
        /// The size of this shard, in bytes.
        got: usize,
    },

    /// An original was given twice.
    DuplicateOriginalShardIndex {
        /// The index of the original.
        index: usize,
    },

    /// A recovery shard was given twice.
    DuplicateRecoveryShardIndex {
        /// The index of the recovery shard.
        index: usize,
    },

    /// More shards were given than the message has originals, and there is no message that agrees with all of them.
    InconsistentShards {
        /// The number of originals that were given.
        original_received_count: usize,
        /// The number of recovery shards that were given.
        recovery_received_count: usize,
    },

    /// The index of an original is not below `original_count`.
    InvalidOriginalShardIndex {
        /// The number of originals of the message.
        original_count: usize,
        /// The index that was given.
        index: usize,
    },

    /// The index of a recovery shard is not below `recovery_count`.
    InvalidRecoveryShardIndex {
        /// The number of recovery shards of the message.
        recovery_count: usize,
        /// The index that was given.
        index: usize,
    },

    /// The size of the shards is zero or odd.
    InvalidShardSize {
        /// The size, in bytes.
        shard_bytes: usize,
    },

    /// Fewer shards were given than the message has originals.
    NotEnoughShards {
        /// The number of originals of the message.
        original_count: usize,
        /// The number of originals that were given.
        original_received_count: usize,
        /// The number of recovery shards that were given.
        recovery_received_count: usize,
    },

    /// Memory could not be allocated.
    OutOfMemory,

    /// Fewer originals were given than the message has.
    TooFewOriginalShards {
        /// The number of originals of the message.
        original_count: usize,
        /// The number of originals that were given.
        original_received_count: usize,
    },

    /// More originals were given than the message has.
    TooManyOriginalShards {
        /// The number of originals of the message.
        original_count: usize,
    },

    /// The code does not support these counts together.
    UnsupportedShardCount {
        /// The number of originals.
        original_count: usize,
        /// The number of recovery shards.
        recovery_count: usize,
    },
}

impl fmt::Display for Error {
    fn fmt(&self, to: &mut fmt::Formatter<'_>) -> fmt::Result {
        match *self {
            Error::DifferentShardSize { shard_bytes: size, got } => {
                write!(to, "different shard size: expected {size} bytes, got {got} bytes")
            }
            Error::DuplicateOriginalShardIndex { index } => write!(to, "duplicate original shard index: {index}"),
            Error::DuplicateRecoveryShardIndex { index } => write!(to, "duplicate recovery shard index: {index}"),
            Error::InconsistentShards { original_received_count: own, recovery_received_count: other } => {
                write!(to, "inconsistent shards: {own} original + {other} recovery agree with no message")
            }
            Error::InvalidOriginalShardIndex { original_count: count, index } => {
                write!(to, "invalid original shard index: {index} >= original_count {count}")
            }
            Error::InvalidRecoveryShardIndex { recovery_count: count, index } => {
                write!(to, "invalid recovery shard index: {index} >= recovery_count {count}")
            }
            Error::InvalidShardSize { shard_bytes: size } => {
                write!(to, "invalid shard size: {size} bytes (must non-zero and multiple of 2)")
            }
            Error::NotEnoughShards {
                original_count: count,
                original_received_count: own,
                recovery_received_count: other,
            } => write!(to, "not enough shards: {own} original + {other} recovery < {count} original_count"),
            Error::OutOfMemory => to.write_str("out of memory"),
            Error::TooFewOriginalShards { original_count: count, original_received_count: own } => {
                write!(to, "too few original shards: got {own} shards while original_count is {count}")
            }
            Error::TooManyOriginalShards { original_count: count } => {
                write!(to, "too many original shards: got more than original_count ({count}) shards")
            }
            Error::UnsupportedShardCount { original_count: own, recovery_count: other } => {
                write!(to, "unsupported shard count: {own} original shards with {other} recovery shards")
            }
        }
    }
}

impl std::error::Error for Error {}
