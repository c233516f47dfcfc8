//! Stands in for the crate fixedbitset, where there is no registry: the calls that reed-solomon-simd makes.
use std::ops::Index;

const BITS: usize = usize::BITS as usize;

/// A set of numbers below a bound.
#[derive(Clone, Debug, Default)]
pub struct FixedBitSet {
    blocks: Vec<usize>,
    bound: usize,
}

impl FixedBitSet {
    /// Makes an empty set with the bound zero.
    pub const fn new() -> FixedBitSet {
        FixedBitSet { blocks: Vec::new(), bound: 0 }
    }

    /// Returns the bound.
    pub fn len(&self) -> usize {
        self.bound
    }

    /// Raises the bound, and never lowers it.
    pub fn grow(&mut self, bound: usize) {
        if bound > self.bound {
            self.blocks.resize(bound.div_ceil(BITS), 0);
            self.bound = bound;
        }
    }

    /// Takes all numbers out.
    pub fn clear(&mut self) {
        self.blocks.fill(0);
    }

    /// Puts a number in or takes it out. Panics if the number is not below the bound.
    #[inline]
    pub fn set(&mut self, number: usize, is_in: bool) {
        assert!(number < self.bound, "{number} is not below {}", self.bound);
        let mask = 1 << (number % BITS);
        if is_in {
            self.blocks[number / BITS] |= mask;
        } else {
            self.blocks[number / BITS] &= !mask;
        }
    }

    /// Returns whether a number is in.
    #[inline]
    pub fn contains(&self, number: usize) -> bool {
        number < self.bound && self.blocks[number / BITS] >> (number % BITS) & 1 == 1
    }
}

impl Index<usize> for FixedBitSet {
    type Output = bool;

    #[inline]
    fn index(&self, number: usize) -> &bool {
        if self.contains(number) {
            &true
        } else {
            &false
        }
    }
}
