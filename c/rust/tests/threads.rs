//! Several threads return the bytes and the errors of one thread.
mod helpers;

use helpers::{given, Draw, Message};
use reed_solomon_simd::{
    decode, decode_into, encode, encode_into, reconstruct, reconstruct_into, update, verify, with_threads, Error,
    ReconstructError, ReedSolomonDecoder, ReedSolomonEncoder, RoomError, ShardIndex,
};
use std::collections::BTreeMap;
use std::fmt::Debug;

/// Makes the call by one thread and by several, and returns what it returns each time.
fn by_any<T: Debug + PartialEq>(call: impl Fn() -> T) -> T {
    let by_one = call();
    for threads in [0, 1, 2, 3, 4, 7, 64] {
        assert_eq!(with_threads(threads, &call), by_one, "{threads} threads");
    }
    by_one
}

/// Makes the call with buffers, and returns them, whether it fails or not.
fn with_buffers<E>(
    buffers: Vec<Vec<u8>>,
    call: impl Fn(&mut [Vec<u8>]) -> Result<(), E>,
) -> (Result<(), E>, Vec<Vec<u8>>) {
    let mut buffers = buffers;
    (call(&mut buffers), buffers)
}

/// Counts and sizes for which a call is divided, and some for which it is not.
const SHAPES: [(usize, usize, usize); 16] = [
    (1, 1, 2),
    (1, 1, 262_144),
    (1, 1, 262_210),
    (10, 4, 62),
    (10, 4, 64),
    (10, 4, 66),
    (10, 4, 100_000),
    (3, 5, 100_000),
    (200, 50, 4094),
    (200, 50, 4096),
    (200, 50, 4098),
    (50, 200, 4098),
    (2000, 1000, 190),
    (4000, 5000, 62),
    (5000, 4000, 66),
    (2, 2, 1_000_002),
];

#[test]
fn every_function_returns_the_same() {
    let mut draw = Draw(20);
    for (k, r, size) in SHAPES {
        let lost = k.min(r).min(1 + draw.below(4));
        for surplus in [0, (r - lost).min(1)] {
            compare(&mut draw, &Message::drawn(&mut Draw(size as u64), k, r, size, lost, surplus));
        }
    }
}

fn compare(draw: &mut Draw, message: &Message) {
    let (k, r) = message.counts();
    let lost = message.missing.len();
    assert_eq!(by_any(|| encode(k, r, &message.original)), Ok(message.recovery.clone()));
    let encoded = by_any(|| with_buffers(message.buffers(r), |to| encode_into(k, r, &message.original, to)));
    assert_eq!(encoded, (Ok(()), message.recovery.clone()));
    let (own, other) = (|| given(&message.own), || given(&message.other));
    assert_eq!(by_any(|| decode(k, r, own(), other())), Ok(message.missing.clone()));
    let restored: Vec<Vec<u8>> = message.missing.values().cloned().collect();
    let decoded = by_any(|| with_buffers(message.buffers(lost), |to| decode_into(k, r, own(), other(), to)));
    assert_eq!(decoded, (Ok(()), restored.clone()));
    assert_eq!(by_any(|| verify(k, r, own(), other())), Ok(()));
    let mut wanted: Vec<ShardIndex> = message.missing.keys().copied().map(ShardIndex::Original).collect();
    let mut made = restored;
    if let Some(index) = (0..r).find(|index| message.other.iter().all(|(i, _)| i != index)) {
        wanted.insert(0, ShardIndex::Recovery(index));
        made.insert(0, message.recovery[index].clone());
    }
    assert_eq!(by_any(|| reconstruct(k, r, own(), other(), &wanted)), Ok(made.clone()));
    let buffers = || message.buffers(made.len());
    let rebuilt = by_any(|| with_buffers(buffers(), |to| reconstruct_into(k, r, own(), other(), &wanted, to)));
    assert_eq!(rebuilt, (Ok(()), made.clone()));
    let (index, after) = (draw.below(k), draw.shard(message.size()));
    let before = &message.original[index];
    let updated = by_any(|| with_buffers(message.recovery.clone(), |to| update(k, r, index, before, &after, to)));
    let mut original = message.original.clone();
    original[index] = after;
    assert_eq!(updated, (Ok(()), encode(k, r, &original).unwrap()));
}

fn encoded(encoder: &mut ReedSolomonEncoder, message: &Message) -> Vec<Vec<u8>> {
    for shard in &message.original {
        encoder.add_original_shard(shard).unwrap();
    }
    encoder.encode().unwrap().recovery_iter().map(<[u8]>::to_vec).collect()
}

fn decoded(decoder: &mut ReedSolomonDecoder, message: &Message) -> Result<BTreeMap<usize, Vec<u8>>, Error> {
    for (index, shard) in given(&message.own) {
        decoder.add_original_shard(index, shard).unwrap();
    }
    for (index, shard) in given(&message.other) {
        decoder.add_recovery_shard(index, shard).unwrap();
    }
    let result = decoder.decode()?;
    let restored = result.restored_original_iter().map(|(index, shard)| (index, shard.to_vec())).collect();
    Ok(restored)
}

#[test]
fn objects_return_the_same() {
    let mut encoder = ReedSolomonEncoder::new(1, 1, 2).unwrap();
    let mut decoder = ReedSolomonDecoder::new(1, 1, 2).unwrap();
    for (k, r, size) in SHAPES {
        encoder.reset(k, r, size).unwrap();
        decoder.reset(k, r, size).unwrap();
        for surplus in [0, 1.min(r - 1)] {
            let mut message = Message::drawn(&mut Draw(21), k, r, size, 1, surplus);
            for threads in [1, 2, 3, 8] {
                assert_eq!(with_threads(threads, || encoded(&mut encoder, &message)), message.recovery);
                let restored = with_threads(threads, || decoded(&mut decoder, &message));
                assert_eq!(restored, Ok(message.missing.clone()));
            }
            // One damaged byte near the end is found by the thread of the last piece.
            message.other[0].1[size - 1] ^= 1;
            let failed = with_threads(4, || decoded(&mut decoder, &message));
            assert_eq!(failed.is_err(), surplus == 1);
        }
    }
}

#[test]
fn damage_in_any_piece_is_found_and_nothing_is_written() {
    let mut draw = Draw(22);
    let good = Message::drawn(&mut draw, 10, 4, 100_000, 2, 1);
    let wanted: Vec<ShardIndex> = good.missing.keys().copied().map(ShardIndex::Original).collect();
    let error = Error::InconsistentShards { original_received_count: 8, recovery_received_count: 3 };
    for byte in [0, 24_999, 25_024, 50_000, 75_073, 99_999] {
        let mut message = good.clone();
        message.own[3].1[byte] ^= 0x80;
        let (own, other) = (|| given(&message.own), || given(&message.other));
        assert_eq!(by_any(|| verify(10, 4, own(), other())), Err(error));
        assert_eq!(by_any(|| decode(10, 4, own(), other())), Err(error));
        assert_eq!(by_any(|| reconstruct(10, 4, own(), other(), &wanted)), Err(ReconstructError::Refused(error)));
        let decoded = by_any(|| with_buffers(message.buffers(2), |to| decode_into(10, 4, own(), other(), to)));
        assert_eq!(decoded, (Err(RoomError::Refused(error)), message.buffers(2)));
        let made =
            by_any(|| with_buffers(message.buffers(2), |to| reconstruct_into(10, 4, own(), other(), &wanted, to)));
        assert_eq!(made, (Err(ReconstructError::Refused(error)), message.buffers(2)));
    }
}

#[test]
fn buffers_that_do_not_fit_are_found_as_by_one_thread() {
    let message = Message::drawn(&mut Draw(23), 10, 4, 100_000, 2, 0);
    let size = message.size();
    let (own, other) = (|| given(&message.own), || given(&message.other));
    let number = |wanted, got| RoomError::WrongNumberOfRooms { wanted, got };
    let length = |room, got| RoomError::WrongLength { room, wanted: size, got };
    let (mut short, many) = (message.buffers(4), message.buffers(5));
    short[2].truncate(size - 64);
    let encoded = |to: &[Vec<u8>]| by_any(|| with_buffers(to.to_vec(), |to| encode_into(10, 4, &message.original, to)));
    assert_eq!(encoded(&short), (Err(length(2, size - 64)), short.clone()));
    assert_eq!(encoded(&many), (Err(number(4, 5)), many.clone()));
    let decoded = |to: &[Vec<u8>]| by_any(|| with_buffers(to.to_vec(), |to| decode_into(10, 4, own(), other(), to)));
    assert_eq!(decoded(&short[1..3]), (Err(length(1, size - 64)), short[1..3].to_vec()));
    assert_eq!(decoded(&many), (Err(number(2, 5)), many.clone()));
    let before = &message.original[0];
    let updated = |to: &[Vec<u8>]| by_any(|| with_buffers(to.to_vec(), |to| update(10, 4, 0, before, before, to)));
    assert_eq!(updated(&short), (Err(length(2, size - 64)), short.clone()));
    assert_eq!(updated(&many), (Err(number(4, 5)), many.clone()));
}

#[test]
fn wrong_indexes_are_found_as_by_one_thread() {
    let message = Message::drawn(&mut Draw(23), 10, 4, 100_000, 2, 0);
    let (own, other) = (|| given(&message.own), || given(&message.other));
    let before = &message.original[0];
    let index = RoomError::from(Error::InvalidOriginalShardIndex { original_count: 10, index: 10 });
    let updated = by_any(|| with_buffers(message.recovery.clone(), |to| update(10, 4, 10, before, before, to)));
    assert_eq!(updated, (Err(index), message.recovery.clone()));
    let lost = *message.missing.keys().next().unwrap();
    let names = [ShardIndex::Original(lost), ShardIndex::Original(lost)];
    let twice = ReconstructError::WantedTwice { wanted: names[0] };
    assert_eq!(by_any(|| reconstruct(10, 4, own(), other(), &names)), Err(twice));
    let many = message.buffers(5);
    let made = by_any(|| with_buffers(many.clone(), |to| reconstruct_into(10, 4, own(), other(), &names[..1], to)));
    assert_eq!(made, (Err(ReconstructError::WrongNumberOfRooms { wanted: 1, got: 5 }), many));
}

#[test]
fn the_number_of_threads_is_restored() {
    let message = Message::drawn(&mut Draw(24), 10, 4, 100_000, 1, 0);
    let inner = with_threads(3, || with_threads(2, || encode(10, 4, &message.original)));
    assert_eq!(inner, Ok(message.recovery));
    let panicked = std::panic::catch_unwind(|| with_threads(3, || panic!("a test panics")));
    assert!(panicked.is_err());
}

#[test]
fn a_result_that_borrows_an_encoder_can_leave_the_closure() {
    let mut encoder = ReedSolomonEncoder::new(1, 1, 2).unwrap();
    encoder.add_original_shard(b"ab").unwrap();
    let result = with_threads(2, || encoder.encode()).unwrap();
    assert_eq!(result.recovery(0), Some(&b"ab"[..]));
}
