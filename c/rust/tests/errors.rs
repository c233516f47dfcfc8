//! Each error with its text, and the order in which functions look for errors.
use reed_solomon_simd::{
    decode, decode_into, encode, encode_into, reconstruct, reconstruct_into, update, verify, Error, ReconstructError,
    ReedSolomonDecoder, ReedSolomonEncoder, RoomError, ShardIndex,
};
use std::cell::Cell;

const NONE: [(usize, &[u8]); 0] = [];

fn unsupported(original_count: usize, recovery_count: usize) -> Error {
    Error::UnsupportedShardCount { original_count, recovery_count }
}

fn different(shard_bytes: usize, got: usize) -> Error {
    Error::DifferentShardSize { shard_bytes, got }
}

fn not_enough(original_count: usize, original_received_count: usize, recovery_received_count: usize) -> Error {
    Error::NotEnoughShards { original_count, original_received_count, recovery_received_count }
}

#[test]
fn texts() {
    let texts = [
        (different(64, 62), "different shard size: expected 64 bytes, got 62 bytes"),
        (Error::DuplicateOriginalShardIndex { index: 7 }, "duplicate original shard index: 7"),
        (Error::DuplicateRecoveryShardIndex { index: 8 }, "duplicate recovery shard index: 8"),
        (
            Error::InconsistentShards { original_received_count: 3, recovery_received_count: 4 },
            "inconsistent shards: 3 original + 4 recovery agree with no message",
        ),
        (
            Error::InvalidOriginalShardIndex { original_count: 3, index: 5 },
            "invalid original shard index: 5 >= original_count 3",
        ),
        (
            Error::InvalidRecoveryShardIndex { recovery_count: 3, index: 5 },
            "invalid recovery shard index: 5 >= recovery_count 3",
        ),
        (Error::InvalidShardSize { shard_bytes: 7 }, "invalid shard size: 7 bytes (must non-zero and multiple of 2)"),
        (not_enough(9, 3, 4), "not enough shards: 3 original + 4 recovery < 9 original_count"),
        (Error::OutOfMemory, "out of memory"),
        (
            Error::TooFewOriginalShards { original_count: 3, original_received_count: 2 },
            "too few original shards: got 2 shards while original_count is 3",
        ),
        (
            Error::TooManyOriginalShards { original_count: 3 },
            "too many original shards: got more than original_count (3) shards",
        ),
        (unsupported(3, 0), "unsupported shard count: 3 original shards with 0 recovery shards"),
    ];
    for (error, text) in texts {
        assert_eq!(error.to_string(), text);
        assert_eq!(RoomError::from(error).to_string(), text);
        assert_eq!(ReconstructError::from(error).to_string(), text);
        assert!(!format!("{error:?}").is_empty());
    }
}

#[test]
fn texts_of_buffers_and_wanted_shards() {
    let texts = [
        (ReconstructError::WrongNumberOfRooms { wanted: 2, got: 3 }, "wrong number of rooms: expected 2, got 3"),
        (
            RoomError::WrongLength { room: 1, wanted: 64, got: 62 }.into(),
            "wrong length: expected 64 bytes, got 62 bytes",
        ),
        (
            ReconstructError::WantedIndexTooLarge { wanted: ShardIndex::Original(9), count: 3 },
            "wanted index too large: original 9, count 3",
        ),
        (ReconstructError::WantedTwice { wanted: ShardIndex::Recovery(2) }, "shard wanted twice: recovery shard 2"),
        (ReconstructError::WantedReceived { wanted: ShardIndex::Original(0) }, "wanted shard was received: original 0"),
    ];
    for (error, text) in texts {
        assert_eq!(error.to_string(), text);
    }
}

/// Counts how many items are taken from an iterator.
fn counted<'a, T: 'a>(items: impl IntoIterator<Item = T> + 'a, taken: &'a Cell<usize>) -> impl Iterator<Item = T> + 'a {
    items.into_iter().inspect(|_| taken.set(taken.get() + 1))
}

/// Counts, originals, the error, and how many originals are taken before it.
type EncodeCase<'a> = (usize, usize, &'a [&'a [u8]], Error, usize);

#[test]
fn encode_looks_at_originals_one_after_another() {
    let cases: [EncodeCase<'_>; 9] = [
        (0, 1, &[b"odd"], unsupported(0, 1), 0),
        (1, 65536, &[b"odd"], unsupported(1, 65536), 0),
        (2, 1, &[], Error::TooFewOriginalShards { original_count: 2, original_received_count: 0 }, 0),
        (2, 1, &[b"odd", b"abcd"], Error::InvalidShardSize { shard_bytes: 3 }, 1),
        (2, 1, &[b"", b"abcd"], Error::InvalidShardSize { shard_bytes: 0 }, 1),
        (2, 1, &[b"ab", b"abcd", b"odd"], different(2, 4), 2),
        (1, 1, &[b"ab", b"abcd", b"abcd"], Error::TooManyOriginalShards { original_count: 1 }, 2),
        (3, 1, &[b"ab", b"cd"], Error::TooFewOriginalShards { original_count: 3, original_received_count: 2 }, 2),
        (1, 1, &[b"ab", b"cd"], Error::TooManyOriginalShards { original_count: 1 }, 2),
    ];
    for (k, r, original, error, number) in cases {
        let taken = Cell::new(0);
        assert_eq!(encode(k, r, counted(original, &taken)), Err(error));
        assert_eq!(taken.take(), number);
        let mut buffers = [[0u8; 7]; 1];
        assert_eq!(encode_into(k, r, counted(original, &taken), buffers.iter_mut()), Err(error.into()));
        assert_eq!((taken.get(), buffers), (number, [[0; 7]]));
    }
    let endless = std::iter::repeat(b"ab");
    assert_eq!(encode(2, 1, endless), Err(Error::TooManyOriginalShards { original_count: 2 }));
}

type Shards<'a> = &'a [(usize, &'a [u8])];

/// Counts, shards, the error, and how many originals and recovery shards are taken before it.
type DecodeCase<'a> = (usize, usize, Shards<'a>, Shards<'a>, Error, [usize; 2]);

const AB: &[u8] = b"ab";

fn decode_cases<'a>() -> Vec<DecodeCase<'a>> {
    vec![
        (0, 1, &[(0, b"odd")], &[(0, b"odd")], unsupported(0, 1), [0, 0]),
        (1, 1, &[(5, b"odd")], &[(7, b"odd")], Error::InvalidShardSize { shard_bytes: 3 }, [0, 1]),
        (1, 1, &[(5, b"odd")], &[(7, b"")], Error::InvalidShardSize { shard_bytes: 0 }, [0, 1]),
        (
            2,
            1,
            &[(0, AB), (2, b"abcd")],
            &[(7, AB)],
            Error::InvalidOriginalShardIndex { original_count: 2, index: 2 },
            [2, 1],
        ),
        (2, 1, &[(1, AB), (1, b"odd"), (9, AB)], &[(7, AB)], Error::DuplicateOriginalShardIndex { index: 1 }, [2, 1]),
        (2, 1, &[(1, AB), (0, b"odd"), (9, AB)], &[(7, AB)], different(2, 3), [2, 1]),
        (
            2,
            1,
            &[(1, AB)],
            &[(usize::MAX, AB), (0, AB)],
            Error::InvalidRecoveryShardIndex { recovery_count: 1, index: usize::MAX },
            [1, 1],
        ),
        (2, 2, &[(1, AB)], &[(0, AB), (0, b"odd")], Error::DuplicateRecoveryShardIndex { index: 0 }, [1, 2]),
        (2, 2, &[(1, AB)], &[(0, AB), (1, b"odd"), (9, AB)], different(2, 3), [1, 2]),
        (3, 2, &[(1, AB)], &[(0, AB)], not_enough(3, 1, 1), [1, 1]),
        (
            1,
            1,
            &[(0, AB)],
            &[(0, b"cd")],
            Error::InconsistentShards { original_received_count: 1, recovery_received_count: 1 },
            [1, 1],
        ),
    ]
}

#[test]
fn decode_looks_at_shards_one_after_another() {
    let (own, other) = (Cell::new(0), Cell::new(0));
    for (k, r, original, recovery, error, taken) in decode_cases() {
        let original = || counted(original.iter().copied(), &own);
        let recovery = || counted(recovery.iter().copied(), &other);
        assert_eq!(decode(k, r, original(), recovery()), Err(error));
        assert_eq!([own.take(), other.take()], taken);
        let mut buffers = [[7u8; 2]; 9];
        assert_eq!(decode_into(k, r, original(), recovery(), buffers.iter_mut()), Err(error.into()));
        assert_eq!(([own.take(), other.take()], buffers), (taken, [[7; 2]; 9]));
        assert_eq!(verify(k, r, original(), recovery()), Err(error));
        assert_eq!([own.take(), other.take()], taken);
        if taken != [1, 1] {
            assert_eq!(reconstruct(k, r, original(), recovery(), &[]), Err(error.into()));
            assert_eq!([own.take(), other.take()], taken);
        }
    }
}

#[test]
fn no_recovery_shard() {
    let any_sizes: [(usize, &[u8]); 2] = [(1, b"odd"), (0, b"")];
    assert!(decode(2, 1, any_sizes, NONE).unwrap().is_empty());
    assert_eq!(decode_into(2, 1, any_sizes, NONE, [[0u8; 2]; 0]), Ok(()));
    assert_eq!(decode(2, 1, NONE, NONE), Err(not_enough(2, 0, 0)));
    assert_eq!(decode(2, 1, [(1, AB)], NONE), Err(not_enough(2, 1, 0)));
    let twice = Error::DuplicateOriginalShardIndex { index: 1 };
    assert_eq!(decode(2, 1, [(1, AB), (1, AB)], NONE), Err(twice));
    let large = Error::InvalidOriginalShardIndex { original_count: 2, index: 2 };
    assert_eq!(decode(2, 1, [(2, AB)], NONE), Err(large));
    assert_eq!(verify(2, 1, any_sizes, NONE), Err(Error::InvalidShardSize { shard_bytes: 3 }));
    assert_eq!(verify(2, 1, NONE, NONE), Err(not_enough(2, 0, 0)));
    assert_eq!(verify(2, 1, [(1, AB)], NONE), Err(not_enough(2, 1, 0)));
    assert_eq!(verify(2, 1, [(1, AB), (0, b"abcd")], NONE), Err(different(2, 4)));
    assert_eq!(verify(2, 1, [(1, AB), (0, AB)], NONE), Ok(()));
}

#[test]
fn buffers() {
    let original = [b"ab", b"cd"];
    let number = |wanted, got| RoomError::WrongNumberOfRooms { wanted, got };
    let length = |room, got| RoomError::WrongLength { room, wanted: 2, got };
    assert_eq!(encode_into(2, 3, original, [[0u8; 3]; 2]), Err(number(3, 2)));
    assert_eq!(encode_into(2, 3, original, [[0u8; 3]; 4]), Err(number(3, 4)));
    let mut uneven = [vec![1u8; 2], vec![1], vec![]];
    assert_eq!(encode_into(2, 3, original, &mut uneven), Err(length(1, 1)));
    assert_eq!(decode_into(2, 3, [(0, b"ab")], [(0, b"ab")], [[0u8; 3]; 0]), Err(number(1, 0)));
    assert_eq!(decode_into(2, 3, [(0, b"ab")], [(0, b"ab")], [[0u8; 3]; 1]), Err(length(0, 3)));
    assert_eq!(decode_into(2, 3, [(0, b"ab"), (1, b"ab")], NONE, [[0u8; 3]; 1]), Err(number(0, 1)));
    assert_eq!(update(2, 3, 0, b"ab", b"cd", [[0u8; 3]; 2]), Err(number(3, 2)));
    assert_eq!(update(2, 3, 0, b"ab", b"cd", &mut uneven), Err(length(1, 1)));
    assert_eq!(uneven, [vec![1u8; 2], vec![1], vec![]]);
}

#[test]
fn updates() {
    let (none, refused) = ([[0u8; 2]; 0], |error: Error| Err(RoomError::from(error)));
    assert_eq!(update(2, 0, 9, b"odd", b"", none), refused(unsupported(2, 0)));
    assert_eq!(update(2, 1, 9, b"odd", b"", none), refused(Error::InvalidShardSize { shard_bytes: 3 }));
    assert_eq!(update(2, 1, 9, b"", b"", none), refused(Error::InvalidShardSize { shard_bytes: 0 }));
    let large = Error::InvalidOriginalShardIndex { original_count: 2, index: 9 };
    assert_eq!(update(2, 1, 9, b"ab", b"", none), refused(large));
    assert_eq!(update(2, 1, 1, b"ab", b"", none), refused(different(2, 0)));
}

#[test]
fn wanted_shards() {
    use ShardIndex::{Original, Recovery};
    let own: [(usize, &[u8]); 2] = [(0, b"ab"), (2, b"cd")];
    let other = [(1, AB)];
    let failed = |wanted: &[ShardIndex]| reconstruct(3, 2, own, other, wanted).unwrap_err();
    let large = |wanted, count| ReconstructError::WantedIndexTooLarge { wanted, count };
    assert_eq!(failed(&[Original(1), Original(3), Original(1)]), large(Original(3), 3));
    assert_eq!(failed(&[Recovery(2)]), large(Recovery(2), 2));
    let twice = ReconstructError::WantedTwice { wanted: Recovery(0) };
    assert_eq!(failed(&[Recovery(0), Original(1), Recovery(0), Original(9)]), twice);
    assert_eq!(failed(&[Original(1), Original(2)]), ReconstructError::WantedReceived { wanted: Original(2) });
    assert_eq!(failed(&[Recovery(1)]), ReconstructError::WantedReceived { wanted: Recovery(1) });
    let mut buffers = [[7u8; 2]; 2];
    let number = ReconstructError::WrongNumberOfRooms { wanted: 1, got: 2 };
    assert_eq!(reconstruct_into(3, 2, own, other, &[Original(1)], buffers.iter_mut()), Err(number));
    let length = ReconstructError::WrongLength { room: 0, wanted: 2, got: 1 };
    assert_eq!(reconstruct_into(3, 2, own, other, &[Original(1)], [&mut buffers[0][..1]]), Err(length));
    // Shards that belong to no message are found after the buffers were checked.
    let all: [(usize, &[u8]); 2] = [(0, b"ab"), (1, b"zz")];
    let inconsistent = Error::InconsistentShards { original_received_count: 2, recovery_received_count: 2 };
    let more: [(usize, &[u8]); 2] = [(0, b"ab"), (1, b"cd")];
    assert_eq!(reconstruct(3, 2, all, more, &[Original(2)]), Err(inconsistent.into()));
    assert_eq!(reconstruct_into(3, 2, all, more, &[Original(2)], buffers.iter_mut()), Err(number));
    assert_eq!(buffers, [[7; 2]; 2]);
}

#[test]
fn encoders() {
    let failed = |k, r, size| ReedSolomonEncoder::new(k, r, size).map(|_| ()).unwrap_err();
    assert_eq!(failed(0, 1, 3), unsupported(0, 1));
    assert_eq!(failed(2, 1, 0), Error::InvalidShardSize { shard_bytes: 0 });
    assert_eq!(failed(2, 1, usize::MAX), Error::InvalidShardSize { shard_bytes: usize::MAX });
    assert_eq!(failed(2, 1, usize::MAX - 1), Error::OutOfMemory);
    assert_eq!(failed(1, 1, usize::MAX - 1), Error::OutOfMemory);
    let mut encoder = ReedSolomonEncoder::new(1, 1, 2).unwrap();
    let few = Error::TooFewOriginalShards { original_count: 1, original_received_count: 0 };
    assert_eq!(encoder.encode().map(|_| ()), Err(few));
    assert_eq!(encoder.add_original_shard(b"odd"), Err(different(2, 3)));
    encoder.add_original_shard(b"ab").unwrap();
    assert_eq!(encoder.add_original_shard(b"odd"), Err(Error::TooManyOriginalShards { original_count: 1 }));
    assert_eq!(encoder.encode().unwrap().recovery(0), Some(AB));
}

#[test]
fn decoders() {
    let failed = |k, r, size| ReedSolomonDecoder::new(k, r, size).map(|_| ()).unwrap_err();
    assert_eq!(failed(1, 0, 3), unsupported(1, 0));
    assert_eq!(failed(2, 1, 5), Error::InvalidShardSize { shard_bytes: 5 });
    assert_eq!(failed(2, 1, usize::MAX - 1), Error::OutOfMemory);
    let mut decoder = ReedSolomonDecoder::new(2, 1, 2).unwrap();
    let large = Error::InvalidOriginalShardIndex { original_count: 2, index: usize::MAX };
    assert_eq!(decoder.add_original_shard(usize::MAX, b"odd"), Err(large));
    assert_eq!(decoder.add_original_shard(1, b"odd"), Err(different(2, 3)));
    decoder.add_original_shard(1, b"ab").unwrap();
    assert_eq!(decoder.add_original_shard(1, b"odd"), Err(Error::DuplicateOriginalShardIndex { index: 1 }));
    assert_eq!(decoder.decode().map(|_| ()), Err(not_enough(2, 1, 0)));
    let large = Error::InvalidRecoveryShardIndex { recovery_count: 1, index: 1 };
    assert_eq!(decoder.add_recovery_shard(1, b"odd"), Err(large));
    assert_eq!(decoder.add_recovery_shard(0, b"odd"), Err(different(2, 3)));
    decoder.add_recovery_shard(0, b"cd").unwrap();
    assert_eq!(decoder.add_recovery_shard(0, b"odd"), Err(Error::DuplicateRecoveryShardIndex { index: 0 }));
    assert_eq!(decoder.decode().unwrap().restored_original_iter().len(), 1);
}
