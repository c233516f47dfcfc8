//! One-call functions: codewords of the original crate, and rounds by all functions.
mod helpers;

use helpers::{given, Draw, Message};
use reed_solomon_simd::{
    decode, decode_into, encode, encode_into, reconstruct, reconstruct_into, update, verify, Error, ReconstructError,
    ReedSolomonDecoder, ReedSolomonEncoder, RoomError, ShardIndex,
};
use std::cell::Cell;

/// The originals of a line of the file of codewords, whose head describes them.
fn drawn_for_codeword(k: usize, r: usize) -> Vec<Vec<u8>> {
    let mut state = (1000 * k + r) as u64;
    let mut byte = || {
        state ^= state << 13;
        state ^= state >> 7;
        state ^= state << 17;
        (state >> 24) as u8
    };
    (0..k).map(|_| (0..66).map(|_| byte()).collect()).collect()
}

fn digest<'a>(shards: impl Iterator<Item = &'a Vec<u8>>) -> u64 {
    let step = |hash: u64, byte: &u8| (hash ^ u64::from(*byte)).wrapping_mul(0x100_0000_01b3);
    shards.flatten().fold(0xcbf2_9ce4_8422_2325, step)
}

#[test]
fn codewords_are_those_of_the_original_crate() {
    let path = concat!(env!("CARGO_MANIFEST_DIR"), "/../tests/codewords.txt");
    let text = std::fs::read_to_string(path).unwrap();
    let lines: Vec<&str> = text.lines().filter(|line| !line.starts_with('#')).collect();
    assert_eq!(lines.len(), 144);
    for line in lines {
        let words: Vec<&str> = line.split(' ').collect();
        let (k, r): (usize, usize) = (words[0].parse().unwrap(), words[1].parse().unwrap());
        let original = drawn_for_codeword(k, r);
        let recovery = encode(k, r, &original).unwrap();
        assert_eq!(format!("{:016x}", digest(original.iter().chain(&recovery))), words[2], "{k} {r}");
    }
}

fn round(draw: &mut Draw, k: usize, r: usize, size: usize, lost: usize, surplus: usize) {
    let message = Message::drawn(draw, k, r, size, lost, surplus);
    let mut buffers = message.buffers(r);
    encode_into(k, r, &message.original, &mut buffers).unwrap();
    assert_eq!(buffers, message.recovery);
    let (own, other) = (|| given(&message.own), || given(&message.other));
    assert_eq!(decode(k, r, own(), other()).unwrap(), message.missing);
    let mut buffers = message.buffers(lost);
    decode_into(k, r, own(), other(), &mut buffers).unwrap();
    assert!(buffers.iter().eq(message.missing.values()));
    verify(k, r, own(), other()).unwrap();
    rebuild(&message);
    change(draw, &message);
}

/// Reconstructs all lost shards, in any order.
fn rebuild(message: &Message) {
    let (k, r) = message.counts();
    let is_lost = |index: &usize| message.other.iter().all(|(i, _)| i != index);
    let mut wanted: Vec<ShardIndex> = (0..r).filter(is_lost).map(ShardIndex::Recovery).collect();
    wanted.extend(message.missing.keys().copied().map(ShardIndex::Original));
    wanted.reverse();
    let shard = |name: &ShardIndex| match *name {
        ShardIndex::Original(index) => message.original[index].clone(),
        ShardIndex::Recovery(index) => message.recovery[index].clone(),
    };
    let all: Vec<Vec<u8>> = wanted.iter().map(shard).collect();
    let (own, other) = (|| given(&message.own), || given(&message.other));
    assert_eq!(reconstruct(k, r, own(), other(), &wanted).unwrap(), all);
    let mut buffers = message.buffers(all.len());
    reconstruct_into(k, r, own(), other(), &wanted, &mut buffers).unwrap();
    assert_eq!(buffers, all);
}

/// Changes an original, and updates the recovery shards.
fn change(draw: &mut Draw, message: &Message) {
    let (k, r) = message.counts();
    let (index, after) = (draw.below(k), draw.shard(message.size()));
    let mut recovery = message.recovery.clone();
    update(k, r, index, &message.original[index], &after, &mut recovery).unwrap();
    let mut original = message.original.clone();
    original[index] = after;
    assert_eq!(recovery, encode(k, r, &original).unwrap());
}

#[test]
fn rounds() {
    let mut draw = Draw(10);
    for _ in 0..200 {
        let (k, r, size) = (1 + draw.below(30), 1 + draw.below(30), 2 + 2 * draw.below(100));
        let lost = draw.below(k.min(r) + 1);
        let surplus = draw.below(r - lost + 1);
        round(&mut draw, k, r, size, lost, surplus);
    }
}

#[test]
fn sizes() {
    let mut draw = Draw(11);
    for size in [2, 4, 62, 64, 66, 2046, 2048, 2050, 4094, 4096, 4098, 100_000] {
        round(&mut draw, 1, 1, size, 1, 0);
        round(&mut draw, 10, 4, size, 4, 0);
        round(&mut draw, 5, 9, size, 2, 7);
    }
}

#[test]
fn many_shards() {
    let mut draw = Draw(12);
    for (k, r, lost) in [(1000, 200, 200), (200, 1000, 150), (32768, 3, 2), (3, 32768, 3), (1, 65535, 1)] {
        round(&mut draw, k, r, 2, lost, 0);
    }
    round(&mut draw, 65535, 1, 2, 1, 0);
    round(&mut draw, 300, 300, 64, 100, 20);
}

#[test]
fn supported_counts() {
    for n in 0..16 {
        let (few, many) = (1 << n, 65536 - (1 << n));
        for supports in [ReedSolomonEncoder::supports, ReedSolomonDecoder::supports] {
            assert!(supports(few, many) && supports(many, few));
            assert!(!supports(few, many + 1) && !supports(many + 1, few) && !supports(0, few) && !supports(few, 0));
        }
    }
    assert!(!ReedSolomonEncoder::supports(usize::MAX, 1) && !ReedSolomonDecoder::supports(1, usize::MAX));
}

#[test]
fn damage_is_found_if_there_are_more_shards_than_originals() {
    let mut draw = Draw(13);
    for _ in 0..100 {
        let (k, r, size) = (1 + draw.below(20), 2 + draw.below(20), 2 + 2 * draw.below(50));
        let lost = draw.below(k.min(r - 1) + 1);
        let mut message = Message::drawn(&mut draw, k, r, size, lost, 1);
        let damaged = draw.below(message.own.len() + message.other.len());
        let byte = draw.below(size);
        message.own.iter_mut().chain(&mut message.other).nth(damaged).unwrap().1[byte] ^= 1 + draw.below(255) as u8;
        let error = Error::InconsistentShards {
            original_received_count: message.own.len(),
            recovery_received_count: message.other.len(),
        };
        let (own, other) = (|| given(&message.own), || given(&message.other));
        assert_eq!(verify(k, r, own(), other()), Err(error));
        assert_eq!(decode(k, r, own(), other()), Err(error));
        let mut buffers = message.buffers(lost);
        assert_eq!(decode_into(k, r, own(), other(), &mut buffers), Err(RoomError::Refused(error)));
        let wanted: Vec<ShardIndex> = message.missing.keys().copied().map(ShardIndex::Original).collect();
        assert_eq!(reconstruct(k, r, own(), other(), &wanted), Err(ReconstructError::Refused(error)));
        let failed = reconstruct_into(k, r, own(), other(), &wanted, &mut buffers);
        assert_eq!((failed, buffers), (Err(ReconstructError::Refused(error)), message.buffers(lost)));
    }
}

#[test]
fn calls_by_many_threads_at_once() {
    std::thread::scope(|scope| {
        for seed in 0..4 {
            scope.spawn(move || (0..20).for_each(|_| round(&mut Draw(seed), 10, 4, 200, 3, 1)));
        }
    });
}

/// A shard of two bytes that has four bytes from this look on.
struct Unsteady(Cell<usize>);

impl AsRef<[u8]> for Unsteady {
    fn as_ref(&self) -> &[u8] {
        self.0.set(self.0.get().saturating_sub(1));
        &[0; 4][..if self.0.get() == 0 { 4 } else { 2 }]
    }
}

#[test]
fn a_shard_that_changes_its_length_is_an_error() {
    let different = Error::DifferentShardSize { shard_bytes: 2, got: 4 };
    for look in 2..4 {
        let unsteady = || [(0, Unsteady(Cell::new(look)))];
        assert_eq!(encode(1, 1, unsteady().map(|(_, shard)| shard)).err(), (look == 2).then_some(different));
        assert_eq!(decode(1, 1, [(0, [0; 2]); 0], unsteady()), Err(different));
        let failed = decode(2, 1, unsteady(), [(0, [0; 2])]).err();
        assert_eq!(failed, (look == 2).then_some(different));
    }
}
