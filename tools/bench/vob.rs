//! Stand-in for the crate vob that works a word at a time, as vob does: bits in blocks of a `usize`. The oracle's keeps
//! a `bool` a bit, which would make the Rust slower than it is.
use std::ops::Index;

#[derive(Clone, Debug)]
pub struct Vob {
    len: usize,
    blocks: Vec<usize>,
}

const BITS: usize = usize::BITS as usize;

impl Vob {
    #[inline]
    pub fn from_elem(value: bool, len: usize) -> Self {
        let mut blocks = vec![if value { usize::MAX } else { 0 }; len.div_ceil(BITS)];
        if let Some(last) = blocks.last_mut().filter(|_| len % BITS > 0) {
            *last &= (1 << (len % BITS)) - 1;
        }
        Vob { len, blocks }
    }

    /// Puts the bit there and answers whether it changed. Panics out of range.
    #[inline]
    pub fn set(&mut self, index: usize, value: bool) -> bool {
        assert!(index < self.len, "the length is {}, the index {index}", self.len);
        let (block, bit) = (&mut self.blocks[index / BITS], 1 << (index % BITS));
        let new = if value { *block | bit } else { *block & !bit };
        if new == *block {
            return false;
        }
        *block = new;
        true
    }

    #[inline]
    pub fn get(&self, index: usize) -> Option<bool> {
        (index < self.len).then(|| self.blocks[index / BITS] >> (index % BITS) & 1 == 1)
    }

    /// Joins the other's bits and answers whether one changed. Panics if the lengths differ.
    #[inline]
    pub fn or(&mut self, other: &Vob) -> bool {
        assert_eq!(self.len, other.len);
        let mut changed = false;
        for (mine, theirs) in self.blocks.iter_mut().zip(&other.blocks) {
            let old = *mine;
            *mine |= theirs;
            changed |= *mine != old;
        }
        changed
    }
}

impl Index<usize> for Vob {
    type Output = bool;
    #[inline]
    fn index(&self, index: usize) -> &bool {
        match self.get(index) {
            Some(true) => &true,
            Some(false) => &false,
            None => panic!("the length is {}, the index {index}", self.len),
        }
    }
}
