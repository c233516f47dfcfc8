//! The names of shards, and the error of functions that reconstruct shards.
use crate::{Error, RoomError};
use std::fmt;

/// The kind and the index of a shard of a message.
#[derive(Clone, Copy, Debug, PartialEq, Eq, PartialOrd, Ord, Hash)]
pub enum ShardIndex {
    /// An original.
    Original(
        /// The place of the original in the order in which the originals were encoded, counted from 0.
        usize,
    ),
    /// A recovery shard.
    Recovery(
        /// The index of the recovery shard, counted from 0.
        usize,
    ),
}

impl fmt::Display for ShardIndex {
    fn fmt(&self, to: &mut fmt::Formatter<'_>) -> fmt::Result {
        match *self {
            ShardIndex::Original(index) => write!(to, "original {index}"),
            ShardIndex::Recovery(index) => write!(to, "recovery shard {index}"),
        }
    }
}

/// The reason why [`reconstruct`](crate::reconstruct) or [`reconstruct_into`](crate::reconstruct_into) failed.
#[derive(Clone, Copy, Debug, PartialEq, Eq, Hash)]
pub enum ReconstructError {
    /// The received shards cannot be decoded, or memory could not be allocated.
    Refused(
        /// The reason.
        Error,
    ),

    /// The index of a wanted shard is not below the number of shards of its kind.
    WantedIndexTooLarge {
        /// The wanted shard.
        wanted: ShardIndex,
        /// The number of shards of its kind.
        count: usize,
    },

    /// A shard is wanted twice.
    WantedTwice {
        /// The wanted shard.
        wanted: ShardIndex,
    },

    /// A wanted shard was received.
    WantedReceived {
        /// The wanted shard.
        wanted: ShardIndex,
    },

    /// The number of buffers is not the number of wanted shards.
    WrongNumberOfRooms {
        /// The number of wanted shards.
        wanted: usize,
        /// The number of buffers.
        got: usize,
    },

    /// A buffer does not have the size of a shard.
    WrongLength {
        /// The place of the buffer among the buffers, counted from 0.
        room: usize,
        /// The size of a shard, in bytes.
        wanted: usize,
        /// The size of the buffer, in bytes.
        got: usize,
    },
}

impl fmt::Display for ReconstructError {
    fn fmt(&self, to: &mut fmt::Formatter<'_>) -> fmt::Result {
        match *self {
            ReconstructError::Refused(error) => error.fmt(to),
            ReconstructError::WantedIndexTooLarge { wanted, count } => {
                write!(to, "wanted index too large: {wanted}, count {count}")
            }
            ReconstructError::WantedTwice { wanted } => write!(to, "shard wanted twice: {wanted}"),
            ReconstructError::WantedReceived { wanted } => write!(to, "wanted shard was received: {wanted}"),
            ReconstructError::WrongNumberOfRooms { wanted, got } => {
                RoomError::WrongNumberOfRooms { wanted, got }.fmt(to)
            }
            ReconstructError::WrongLength { room, wanted, got } => RoomError::WrongLength { room, wanted, got }.fmt(to),
        }
    }
}

impl std::error::Error for ReconstructError {}

impl From<Error> for ReconstructError {
    fn from(error: Error) -> ReconstructError {
        ReconstructError::Refused(error)
    }
}

impl From<RoomError> for ReconstructError {
    fn from(error: RoomError) -> ReconstructError {
        match error {
            RoomError::Refused(error) => ReconstructError::Refused(error),
            RoomError::WrongNumberOfRooms { wanted, got } => ReconstructError::WrongNumberOfRooms { wanted, got },
            RoomError::WrongLength { room, wanted, got } => ReconstructError::WrongLength { room, wanted, got },
        }
    }
}
