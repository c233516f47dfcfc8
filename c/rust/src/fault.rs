//! The faults of the C library, and the errors that they are in Rust.
use crate::c::{self, rs_fault};
use crate::{Error, ReconstructError, RoomError, ShardIndex};

/// The reason why a call of the C library failed. Its number is never that of success.
#[derive(Clone, Copy, Debug, PartialEq, Eq)]
pub(crate) struct Fault(rs_fault);

impl Fault {
    pub(crate) const OUT_OF_MEMORY: Fault =
        Fault(rs_fault { number: c::RS_OUT_OF_MEMORY, first: 0, second: 0, third: 0 });

    /// Returns the outcome of a call that has returned this number and written this fault. The call succeeded only if
    /// both say so. Every other number is an error, even one that this crate does not know.
    pub(crate) fn outcome(number: u32, fault: rs_fault) -> Result<(), Fault> {
        if number != c::RS_OK {
            Err(Fault(rs_fault { number, ..fault }))
        } else if fault.number != c::RS_OK {
            Err(Fault(fault))
        } else {
            Ok(())
        }
    }

    fn error(self) -> Option<Error> {
        let Fault(rs_fault { number, first, second, third }) = self;
        Some(match number {
            c::RS_OUT_OF_MEMORY => Error::OutOfMemory,
            c::RS_UNSUPPORTED_SHARD_COUNT => {
                Error::UnsupportedShardCount { original_count: first, recovery_count: second }
            }
            c::RS_INVALID_SHARD_SIZE => Error::InvalidShardSize { shard_bytes: first },
            c::RS_DIFFERENT_SHARD_SIZE => Error::DifferentShardSize { shard_bytes: first, got: second },
            c::RS_TOO_FEW_ORIGINAL_SHARDS => {
                Error::TooFewOriginalShards { original_count: first, original_received_count: second }
            }
            c::RS_TOO_MANY_ORIGINAL_SHARDS => Error::TooManyOriginalShards { original_count: first },
            c::RS_NOT_ENOUGH_SHARDS => Error::NotEnoughShards {
                original_count: first,
                original_received_count: second,
                recovery_received_count: third,
            },
            c::RS_INVALID_ORIGINAL_SHARD_INDEX => {
                Error::InvalidOriginalShardIndex { original_count: first, index: second }
            }
            c::RS_INVALID_RECOVERY_SHARD_INDEX => {
                Error::InvalidRecoveryShardIndex { recovery_count: first, index: second }
            }
            c::RS_DUPLICATE_ORIGINAL_SHARD_INDEX => Error::DuplicateOriginalShardIndex { index: first },
            c::RS_DUPLICATE_RECOVERY_SHARD_INDEX => Error::DuplicateRecoveryShardIndex { index: first },
            c::RS_INCONSISTENT_SHARDS => {
                Error::InconsistentShards { original_received_count: first, recovery_received_count: second }
            }
            _ => return None,
        })
    }

    fn room_error(self) -> Option<RoomError> {
        let Fault(rs_fault { number, first, second, third }) = self;
        match number {
            c::RS_WRONG_LENGTH => Some(RoomError::WrongLength { room: third, wanted: first, got: second }),
            c::RS_WRONG_NUMBER_OF_ROOMS => Some(RoomError::WrongNumberOfRooms { wanted: first, got: second }),
            _ => self.error().map(RoomError::Refused),
        }
    }

    fn reconstruct_error(self) -> Option<ReconstructError> {
        let Fault(rs_fault { number, first, second, third }) = self;
        match number {
            c::RS_WANTED_INDEX_TOO_LARGE => {
                Some(ReconstructError::WantedIndexTooLarge { wanted: named(third, second), count: first })
            }
            c::RS_WANTED_TWICE => Some(ReconstructError::WantedTwice { wanted: named(second, first) }),
            c::RS_WANTED_RECEIVED => Some(ReconstructError::WantedReceived { wanted: named(second, first) }),
            _ => self.room_error().map(ReconstructError::from),
        }
    }

    fn unexpected(self) -> ! {
        panic!("a call of the C library failed for a reason that it cannot have: {:?}", self.0)
    }
}

fn named(kind: usize, index: usize) -> ShardIndex {
    if kind == c::RS_ORIGINAL {
        ShardIndex::Original(index)
    } else {
        ShardIndex::Recovery(index)
    }
}

// These conversions panic if the fault is not one of the call that failed. This would be an error of this crate or of
// the C library.

impl From<Fault> for Error {
    fn from(fault: Fault) -> Error {
        fault.error().unwrap_or_else(|| fault.unexpected())
    }
}

impl From<Fault> for RoomError {
    fn from(fault: Fault) -> RoomError {
        fault.room_error().unwrap_or_else(|| fault.unexpected())
    }
}

impl From<Fault> for ReconstructError {
    fn from(fault: Fault) -> ReconstructError {
        fault.reconstruct_error().unwrap_or_else(|| fault.unexpected())
    }
}

#[cfg(test)]
mod tests {
    use super::*;
    use std::ffi::CStr;

    fn fault(number: u32) -> rs_fault {
        rs_fault { number, first: 7, second: 8, third: 9 }
    }

    #[test]
    fn only_two_zeros_are_success() {
        let none = rs_fault::default();
        assert_eq!(Fault::outcome(c::RS_OK, none), Ok(()));
        for number in (1..100).chain([u32::MAX]) {
            assert_eq!(Fault::outcome(number, none), Err(Fault(rs_fault { number, ..none })));
            assert_eq!(Fault::outcome(number, fault(number)), Err(Fault(fault(number))));
            assert_eq!(Fault::outcome(c::RS_OK, fault(number)), Err(Fault(fault(number))));
        }
    }

    #[test]
    fn each_number_has_one_error() {
        let mut errors: Vec<ReconstructError> = Vec::new();
        for number in 1..=c::RS_WANTED_RECEIVED {
            let error = Fault(fault(number)).reconstruct_error();
            assert_eq!(error.is_none(), number == c::RS_TABLES_NOT_MADE);
            assert!(error.map_or(true, |error| !errors.contains(&error)));
            errors.extend(error);
        }
        assert_eq!(errors.len(), 17);
        assert_eq!(errors[0], ReconstructError::Refused(Error::OutOfMemory));
        assert_eq!(Fault(fault(0)).reconstruct_error(), None);
        assert_eq!(Fault(fault(c::RS_WANTED_RECEIVED + 1)).reconstruct_error(), None);
    }

    #[test]
    fn each_error_has_the_text_of_its_fault() {
        for number in (1..=c::RS_WANTED_RECEIVED).filter(|&number| number != c::RS_TABLES_NOT_MADE) {
            for third in 0..2 {
                let fault = rs_fault { third, ..fault(number) };
                let mut text = [0; 128];
                // SAFETY: the call reads the fault, and writes at most 128 bytes.
                unsafe { c::rs_fault_text(&fault, text.as_mut_ptr().cast(), text.len()) };
                let text = CStr::from_bytes_until_nul(&text).unwrap().to_str().unwrap();
                assert_eq!(Fault(fault).reconstruct_error().unwrap().to_string(), text);
            }
        }
    }

    #[test]
    #[should_panic(expected = "a reason that it cannot have")]
    fn a_fault_of_another_call_is_no_error() {
        let _ = Error::from(Fault(fault(c::RS_WRONG_LENGTH)));
    }

    #[test]
    #[should_panic(expected = "a reason that it cannot have")]
    fn an_unknown_number_is_no_error() {
        let _ = ReconstructError::from(Fault(fault(c::RS_WANTED_RECEIVED + 1)));
    }
}
