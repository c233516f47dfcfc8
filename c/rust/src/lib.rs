#![doc = include_str!("../README.md")]

mod c;
mod calls;
mod counts;
mod decoder;
mod decoding;
mod encoder;
mod encoding;
mod error;
mod fault;
mod given;
mod memory;
mod new_shards;
mod reconstruct_error;
mod reconstructing;
mod room_error;
mod shards;
mod tables;
mod threads;
mod updating;
mod verifying;

pub use decoder::{DecoderResult, ReedSolomonDecoder, RestoredOriginal};
pub use decoding::{decode, decode_into};
pub use encoder::{EncoderResult, Recovery, ReedSolomonEncoder};
pub use encoding::{encode, encode_into};
pub use error::Error;
pub use reconstruct_error::{ReconstructError, ShardIndex};
pub use reconstructing::{reconstruct, reconstruct_into};
pub use room_error::RoomError;
pub use threads::with_threads;
pub use updating::update;
pub use verifying::verify;

/// Returns how long shards must be so that `original_count` originals hold a message of `total` bytes: the least even
/// size, and at least 2. Returns `None` if there is no such size.
///
/// # Examples
///
/// ```
/// use reed_solomon_simd::shard_bytes;
///
/// assert_eq!(shard_bytes(35, 3), Some(12));
/// assert_eq!(shard_bytes(35, 0), None);
/// ```
pub fn shard_bytes(total: usize, original_count: usize) -> Option<usize> {
    Some(calls::shard_bytes(total, original_count)).filter(|&size| size != 0)
}
