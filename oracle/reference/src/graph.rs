//! Stand-in for `petgraph::graph`: what idx.rs names of it, so that idx.rs can stay. Nothing here computes.

use std::{fmt::Debug, hash::Hash};

/// # Safety
/// As in petgraph: `index` undoes `new`.
pub unsafe trait IndexType: Copy + Default + Hash + Ord + Debug + 'static {
    fn new(x: usize) -> Self;
    fn index(&self) -> usize;
    fn max() -> Self;
}

#[derive(Copy, Clone, PartialEq, Eq, PartialOrd, Ord, Hash, Default, Debug)]
pub struct NodeIndex<Ix>(Ix);

impl<Ix: IndexType> NodeIndex<Ix> {
    #[must_use]
    pub fn new(x: usize) -> Self {
        Self(Ix::new(x))
    }

    #[must_use]
    pub fn index(self) -> usize {
        self.0.index()
    }
}

#[derive(Copy, Clone, PartialEq, Eq, PartialOrd, Ord, Hash, Default, Debug)]
pub struct EdgeIndex<Ix>(Ix);

impl<Ix: IndexType> EdgeIndex<Ix> {
    #[must_use]
    pub fn new(x: usize) -> Self {
        Self(Ix::new(x))
    }

    #[must_use]
    pub fn index(self) -> usize {
        self.0.index()
    }
}
