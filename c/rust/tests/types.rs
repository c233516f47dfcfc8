//! What programs that were written for the original crate rely on: the traits of types, and what functions accept.
use reed_solomon_simd::*;
use std::collections::{BTreeMap, HashMap};
use std::fmt::{Debug, Display};

fn is_send_and_sync<T: Send + Sync>() {}

fn is_error<T: std::error::Error + Clone + Copy + Debug + Display + PartialEq + Send + Sync + 'static>() {}

#[test]
fn traits() {
    is_send_and_sync::<ReedSolomonEncoder>();
    is_send_and_sync::<ReedSolomonDecoder>();
    is_send_and_sync::<EncoderResult<'_>>();
    is_send_and_sync::<DecoderResult<'_>>();
    is_send_and_sync::<Recovery<'_>>();
    is_send_and_sync::<RestoredOriginal<'_>>();
    is_error::<Error>();
    is_error::<RoomError>();
    is_error::<ReconstructError>();
}

#[test]
fn any_shards_that_can_be_looked_at() {
    let expected = encode(2, 1, [b"ab", b"cd"]).unwrap();
    assert_eq!(encode(2, 1, vec![vec![b'a', b'b'], vec![b'c', b'd']]).unwrap(), expected);
    assert_eq!(encode(2, 1, ["ab", "cd"].iter()).unwrap(), expected);
    assert_eq!(encode(2, 1, [String::from("ab"), String::from("cd")]).unwrap(), expected);
    assert_eq!(encode(2, 1, b"abcd".chunks(2)).unwrap(), expected);
    assert_eq!(encode(2, 1, &[Box::<[u8]>::from(*b"ab"), Box::from(*b"cd")]).unwrap(), expected);
    let own = HashMap::from([(0, "ab")]);
    let other = BTreeMap::from([(0, &expected[0])]);
    let restored: BTreeMap<usize, Vec<u8>> = decode(2, 1, own, other).unwrap();
    assert_eq!(restored, BTreeMap::from([(1, b"cd".to_vec())]));
}

#[test]
fn any_buffers_that_can_be_written() {
    let expected = encode(2, 2, [b"ab", b"cd"]).unwrap();
    let mut vectors = vec![vec![0; 2]; 2];
    encode_into(2, 2, [b"ab", b"cd"], &mut vectors).unwrap();
    let (mut one, mut two) = ([0; 2], [0; 2]);
    encode_into(2, 2, [b"ab", b"cd"], [&mut one, &mut two]).unwrap();
    let mut all = [0; 4];
    encode_into(2, 2, [b"ab", b"cd"], all.chunks_mut(2)).unwrap();
    assert_eq!((&vectors, [one, two].concat(), all.to_vec()), (&expected, expected.concat(), expected.concat()));
}

#[test]
fn lengths_of_shards() {
    for (total, count, size) in [(0, 1, 2), (1, 1, 2), (2, 1, 2), (3, 1, 4), (35, 3, 12), (36, 3, 12), (37, 3, 14)] {
        assert_eq!(shard_bytes(total, count), Some(size));
    }
    assert_eq!((shard_bytes(5, 0), shard_bytes(usize::MAX, 1)), (None, None));
}
