//! Encoders, decoders and their results over many messages.
mod helpers;

use helpers::{given, Draw, Message};
use reed_solomon_simd::{DecoderResult, EncoderResult, Error, ReedSolomonDecoder, ReedSolomonEncoder};

fn add_all(encoder: &mut ReedSolomonEncoder, message: &Message) {
    for shard in &message.original {
        encoder.add_original_shard(shard).unwrap();
    }
}

fn add_received(decoder: &mut ReedSolomonDecoder, message: &Message) {
    for (index, shard) in given(&message.own) {
        decoder.add_original_shard(index, shard).unwrap();
    }
    for (index, shard) in given(&message.other) {
        decoder.add_recovery_shard(index, shard).unwrap();
    }
}

fn check_recovery(result: &EncoderResult<'_>, message: &Message) {
    assert!(result.recovery_iter().eq(&message.recovery));
    for (index, shard) in message.recovery.iter().enumerate() {
        assert_eq!(result.recovery(index), Some(shard.as_slice()));
    }
    assert_eq!(result.recovery(message.recovery.len()), None);
    assert_eq!(result.recovery(usize::MAX), None);
}

fn check_restored(result: &DecoderResult<'_>, message: &Message) {
    let restored = result.restored_original_iter().map(|(index, shard)| (index, shard.to_vec()));
    assert!(restored.eq(message.missing.clone()));
    for index in 0..=message.original.len() {
        assert_eq!(result.restored_original(index), message.missing.get(&index).map(Vec::as_slice));
    }
    assert_eq!(result.restored_original(usize::MAX), None);
}

#[test]
fn many_messages_of_many_shapes() {
    let mut draw = Draw(1);
    let mut encoder = ReedSolomonEncoder::new(1, 1, 2).unwrap();
    let mut decoder = ReedSolomonDecoder::new(1, 1, 2).unwrap();
    for _ in 0..100 {
        let (k, r, size) = (1 + draw.below(20), 1 + draw.below(20), 2 + 2 * draw.below(100));
        let lost = draw.below(k.min(r) + 1);
        encoder.reset(k, r, size).unwrap();
        decoder.reset(k, r, size).unwrap();
        for surplus in [0, r - lost] {
            let message = Message::drawn(&mut draw, k, r, size, lost, surplus);
            add_all(&mut encoder, &message);
            check_recovery(&encoder.encode().unwrap(), &message);
            add_received(&mut decoder, &message);
            check_restored(&decoder.decode().unwrap(), &message);
        }
    }
}

#[test]
fn iterators_know_their_length() {
    let message = Message::drawn(&mut Draw(2), 5, 4, 66, 3, 0);
    let mut encoder = ReedSolomonEncoder::new(5, 4, 66).unwrap();
    add_all(&mut encoder, &message);
    let result = encoder.encode().unwrap();
    let mut recovery = result.recovery_iter();
    for left in (1..=4).rev() {
        assert_eq!((recovery.len(), recovery.size_hint()), (left, (left, Some(left))));
        assert!(recovery.next().is_some());
    }
    assert_eq!((recovery.next(), recovery.next(), recovery.len()), (None, None, 0));
    let mut decoder = ReedSolomonDecoder::new(5, 4, 66).unwrap();
    add_received(&mut decoder, &message);
    let result = decoder.decode().unwrap();
    let mut restored = result.restored_original_iter();
    for left in (1..=3).rev() {
        assert_eq!((restored.len(), restored.size_hint()), (left, (left, Some(left))));
        assert!(restored.next().is_some());
    }
    assert_eq!((restored.next(), restored.next(), restored.len()), (None, None, 0));
}

#[test]
fn nothing_is_missing() {
    let message = Message::drawn(&mut Draw(3), 5, 4, 66, 0, 0);
    let mut decoder = ReedSolomonDecoder::new(5, 4, 66).unwrap();
    add_received(&mut decoder, &message);
    let result = decoder.decode().unwrap();
    assert_eq!(result.restored_original_iter().len(), 0);
    assert_eq!(result.restored_original_iter().next(), None);
}

#[test]
fn a_dropped_result_ends_the_round() {
    let message = Message::drawn(&mut Draw(4), 3, 2, 10, 2, 0);
    let mut encoder = ReedSolomonEncoder::new(3, 2, 10).unwrap();
    add_all(&mut encoder, &message);
    drop(encoder.encode().unwrap());
    let few = Error::TooFewOriginalShards { original_count: 3, original_received_count: 0 };
    assert_eq!(encoder.encode().map(|_| ()), Err(few));
    let mut decoder = ReedSolomonDecoder::new(3, 2, 10).unwrap();
    add_received(&mut decoder, &message);
    drop(decoder.decode().unwrap());
    let few = Error::NotEnoughShards { original_count: 3, original_received_count: 0, recovery_received_count: 0 };
    assert_eq!(decoder.decode().map(|_| ()), Err(few));
    add_received(&mut decoder, &message);
    check_restored(&decoder.decode().unwrap(), &message);
}

#[test]
fn a_forgotten_result_does_not_end_the_round() {
    let message = Message::drawn(&mut Draw(5), 3, 2, 10, 2, 0);
    let mut encoder = ReedSolomonEncoder::new(3, 2, 10).unwrap();
    add_all(&mut encoder, &message);
    std::mem::forget(encoder.encode().unwrap());
    let many = Error::TooManyOriginalShards { original_count: 3 };
    assert_eq!(encoder.add_original_shard([0; 10]), Err(many));
    check_recovery(&encoder.encode().unwrap(), &message);
    add_all(&mut encoder, &message);
    std::mem::forget(encoder.encode().unwrap());
    encoder.reset(3, 2, 10).unwrap();
    add_all(&mut encoder, &message);
    let mut decoder = ReedSolomonDecoder::new(3, 2, 10).unwrap();
    add_received(&mut decoder, &message);
    std::mem::forget(decoder.decode().unwrap());
    let (index, _) = message.own[0];
    assert_eq!(decoder.add_original_shard(index, [0; 10]), Err(Error::DuplicateOriginalShardIndex { index }));
    check_restored(&decoder.decode().unwrap(), &message);
    add_received(&mut decoder, &message);
    std::mem::forget(decoder.decode().unwrap());
    decoder.reset(3, 2, 10).unwrap();
    add_received(&mut decoder, &message);
    check_restored(&decoder.decode().unwrap(), &message);
}

#[test]
fn a_reset_that_fails_changes_nothing() {
    let message = Message::drawn(&mut Draw(6), 3, 2, 10, 2, 0);
    let mut encoder = ReedSolomonEncoder::new(3, 2, 10).unwrap();
    let mut decoder = ReedSolomonDecoder::new(3, 2, 10).unwrap();
    add_all(&mut encoder, &message);
    add_received(&mut decoder, &message);
    let unsupported = Error::UnsupportedShardCount { original_count: 3, recovery_count: 0 };
    let failures = [
        (3, 0, 3, unsupported),
        (3, 2, 3, Error::InvalidShardSize { shard_bytes: 3 }),
        (2, 3, 0, Error::InvalidShardSize { shard_bytes: 0 }),
        (2, 3, usize::MAX - 1, Error::OutOfMemory),
        (1, 1, usize::MAX / 2 - 1, Error::OutOfMemory),
    ];
    for (k, r, size, error) in failures {
        assert_eq!(encoder.reset(k, r, size), Err(error));
        assert_eq!(decoder.reset(k, r, size), Err(error));
    }
    check_recovery(&encoder.encode().unwrap(), &message);
    check_restored(&decoder.decode().unwrap(), &message);
}

#[test]
fn a_reset_forgets_shards() {
    let message = Message::drawn(&mut Draw(7), 3, 2, 10, 2, 0);
    let mut encoder = ReedSolomonEncoder::new(3, 2, 10).unwrap();
    let mut decoder = ReedSolomonDecoder::new(3, 2, 10).unwrap();
    encoder.add_original_shard([9; 10]).unwrap();
    decoder.add_original_shard(0, [9; 10]).unwrap();
    encoder.reset(3, 2, 10).unwrap();
    decoder.reset(3, 2, 10).unwrap();
    add_all(&mut encoder, &message);
    add_received(&mut decoder, &message);
    check_recovery(&encoder.encode().unwrap(), &message);
    check_restored(&decoder.decode().unwrap(), &message);
}

#[test]
fn inconsistent_shards_end_the_round() {
    let mut message = Message::drawn(&mut Draw(8), 3, 2, 10, 1, 1);
    let mut decoder = ReedSolomonDecoder::new(3, 2, 10).unwrap();
    let good = message.clone();
    message.other[0].1[4] ^= 1;
    add_received(&mut decoder, &message);
    let error = Error::InconsistentShards { original_received_count: 2, recovery_received_count: 2 };
    assert_eq!(decoder.decode().map(|_| ()), Err(error));
    add_received(&mut decoder, &good);
    check_restored(&decoder.decode().unwrap(), &good);
}

#[test]
fn too_few_shards_do_not_end_the_round() {
    let message = Message::drawn(&mut Draw(9), 3, 2, 10, 2, 0);
    let mut decoder = ReedSolomonDecoder::new(3, 2, 10).unwrap();
    let (index, shard) = &message.own[0];
    decoder.add_original_shard(*index, shard).unwrap();
    assert!(decoder.decode().is_err());
    for (index, shard) in given(&message.other) {
        decoder.add_recovery_shard(index, shard).unwrap();
    }
    check_restored(&decoder.decode().unwrap(), &message);
}

#[test]
fn objects_can_be_printed() {
    let mut encoder = ReedSolomonEncoder::new(2, 1, 2).unwrap();
    encoder.add_original_shard(b"ab").unwrap();
    let text =
        "ReedSolomonEncoder { original_count: 2, recovery_count: 1, shard_bytes: 2, original_received_count: 1, .. }";
    assert_eq!(format!("{encoder:?}"), text);
    encoder.add_original_shard(b"ab").unwrap();
    let result = encoder.encode().unwrap();
    assert_eq!(format!("{:?}", result.recovery_iter()), "Recovery { len: 1, .. }");
    let decoder = ReedSolomonDecoder::new(2, 1, 2).unwrap();
    assert!(format!("{decoder:?}").ends_with("original_received_count: 0, recovery_received_count: 0, .. }"));
}
