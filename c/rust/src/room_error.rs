//! The error of functions that write into buffers of the caller.
use crate::Error;
use std::fmt;

/// The reason why a function that writes into buffers of the caller failed. The buffers then hold what they held
/// before.
#[derive(Clone, Copy, Debug, PartialEq, Eq, Hash)]
pub enum RoomError {
    /// The shards cannot be encoded, decoded or updated, or memory could not be allocated.
    Refused(
        /// The reason.
        Error,
    ),

    /// The number of buffers is not the number of shards to write.
    WrongNumberOfRooms {
        /// The number of shards to write.
        wanted: usize,
        /// The number of buffers.
        got: usize,
    },

    /// A buffer does not have the size of its shard.
    WrongLength {
        /// The place of the buffer among the buffers, counted from 0.
        room: usize,
        /// The size of the shard, in bytes.
        wanted: usize,
        /// The size of the buffer, in bytes.
        got: usize,
    },
}

impl fmt::Display for RoomError {
    fn fmt(&self, to: &mut fmt::Formatter<'_>) -> fmt::Result {
        match *self {
            RoomError::Refused(error) => error.fmt(to),
            RoomError::WrongNumberOfRooms { wanted, got } => {
                write!(to, "wrong number of rooms: expected {wanted}, got {got}")
            }
            RoomError::WrongLength { room: _, wanted, got } => {
                write!(to, "wrong length: expected {wanted} bytes, got {got} bytes")
            }
        }
    }
}

impl std::error::Error for RoomError {}

impl From<Error> for RoomError {
    fn from(error: Error) -> RoomError {
        RoomError::Refused(error)
    }
}
