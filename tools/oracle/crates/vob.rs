//! Stand-in for the crate vob: a vector of bits, kept as one `bool` each.
use std::ops::Index;

#[derive(Clone, Debug)]
pub struct Vob(Vec<bool>);

impl Vob {
    pub fn from_elem(value: bool, len: usize) -> Self {
        Vob(vec![value; len])
    }

    /// Puts the bit there and answers whether it changed. Panics out of range.
    pub fn set(&mut self, index: usize, value: bool) -> bool {
        std::mem::replace(&mut self.0[index], value) != value
    }

    pub fn get(&self, index: usize) -> Option<bool> {
        self.0.get(index).copied()
    }

    /// Joins the other's bits and answers whether one changed. Panics if the lengths differ.
    pub fn or(&mut self, other: &Vob) -> bool {
        assert_eq!(self.0.len(), other.0.len());
        let mut changed = false;
        for (mine, &theirs) in self.0.iter_mut().zip(&other.0) {
            changed |= theirs && !*mine;
            *mine |= theirs;
        }
        changed
    }
}

impl Index<usize> for Vob {
    type Output = bool;
    fn index(&self, index: usize) -> &bool {
        &self.0[index]
    }
}
