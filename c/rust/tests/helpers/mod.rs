//! What the tests share: drawn bytes, and messages of them.
#![allow(dead_code)] // No test uses all of it.
use std::collections::{BTreeMap, HashSet};

/// A shard with its index.
pub type Indexed = (usize, Vec<u8>);

/// Draws numbers by a linear congruence.
pub struct Draw(pub u64);

impl Draw {
    pub fn below(&mut self, end: usize) -> usize {
        self.0 = self.0.wrapping_mul(6364136223846793005).wrapping_add(1442695040888963407);
        (self.0 >> 33) as usize % end
    }

    pub fn shard(&mut self, size: usize) -> Vec<u8> {
        (0..size).map(|_| self.below(256) as u8).collect()
    }

    pub fn shards(&mut self, count: usize, size: usize) -> Vec<Vec<u8>> {
        (0..count).map(|_| self.shard(size)).collect()
    }

    /// Chooses this many of the numbers below `end`, in a drawn order.
    pub fn chosen(&mut self, number: usize, end: usize) -> Vec<usize> {
        let mut all: Vec<usize> = (0..end).collect();
        for place in 0..number {
            let other = place + self.below(end - place);
            all.swap(place, other);
        }
        all.truncate(number);
        all
    }
}

/// A message with the shards that a decode gets and those that it restores.
#[derive(Clone)]
pub struct Message {
    pub original: Vec<Vec<u8>>,
    pub recovery: Vec<Vec<u8>>,
    pub own: Vec<Indexed>,
    pub other: Vec<Indexed>,
    pub missing: BTreeMap<usize, Vec<u8>>,
}

impl Message {
    /// Draws a message of which `lost` originals are lost, and `surplus` more shards are there than it has originals.
    pub fn drawn(draw: &mut Draw, k: usize, r: usize, size: usize, lost: usize, surplus: usize) -> Message {
        let original = draw.shards(k, size);
        let recovery = reed_solomon_simd::encode(k, r, &original).unwrap();
        let own: Vec<Indexed> = draw.chosen(k - lost, k).into_iter().map(|i| (i, original[i].clone())).collect();
        let other = draw.chosen(lost + surplus, r).into_iter().map(|i| (i, recovery[i].clone())).collect();
        let there: HashSet<usize> = own.iter().map(|(index, _)| *index).collect();
        let missing = (0..k).filter(|i| !there.contains(i)).map(|i| (i, original[i].clone())).collect();
        Message { original, recovery, own, other, missing }
    }

    pub fn counts(&self) -> (usize, usize) {
        (self.original.len(), self.recovery.len())
    }

    pub fn size(&self) -> usize {
        self.original[0].len()
    }

    /// Buffers full of 0xa5 for this many shards.
    pub fn buffers(&self, number: usize) -> Vec<Vec<u8>> {
        vec![vec![0xa5; self.size()]; number]
    }
}

/// Passes shards as the functions take them, and copies none.
pub fn given(shards: &[Indexed]) -> impl Iterator<Item = (usize, &[u8])> + Clone {
    shards.iter().map(|(index, shard)| (*index, shard.as_slice()))
}
