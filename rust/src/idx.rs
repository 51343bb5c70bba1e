//! Lists whose places have a type of their own, as in homotopy-common.
use std::{
    fmt,
    hash::Hash,
    iter::{Enumerate, FusedIterator},
    marker::PhantomData,
    ops::{Index, IndexMut},
    vec,
};

/// A place in a list.
pub trait Idx: 'static + Copy + Eq + Hash + fmt::Debug {
    /// Its number, from 0.
    fn index(&self) -> usize;

    /// The place of a number.
    fn new(index: usize) -> Self;
}

/// A list of `T` whose places are of the type `I`.
#[derive(Clone, PartialEq, Eq, Hash)]
pub struct IdxVec<I, T> {
    raw: Vec<T>,
    places: PhantomData<fn(&I)>,
}

impl<I: Idx, T> IdxVec<I, T> {
    /// No entries.
    #[must_use]
    pub const fn new() -> Self {
        Self {
            raw: vec![],
            places: PhantomData,
        }
    }

    /// The same entry so many times.
    pub fn splat(t: T, len: usize) -> Self
    where
        T: Clone,
    {
        vec![t; len].into()
    }

    /// No entries, and memory for so many.
    #[must_use]
    pub fn with_capacity(capacity: usize) -> Self {
        Vec::with_capacity(capacity).into()
    }

    /// Puts an entry last, and gives its place.
    pub fn push(&mut self, elem: T) -> I {
        self.raw.push(elem);
        I::new(self.raw.len() - 1)
    }

    /// Takes the last entry off.
    pub fn pop(&mut self) -> Option<T> {
        self.raw.pop()
    }

    /// Whether there are no entries.
    #[must_use]
    pub fn is_empty(&self) -> bool {
        self.raw.is_empty()
    }

    /// The number of entries.
    #[must_use]
    pub fn len(&self) -> usize {
        self.raw.len()
    }

    /// Every entry replaced by its image.
    pub fn map<F, U>(self, f: F) -> IdxVec<I, U>
    where
        F: FnMut(T) -> U,
    {
        self.raw.into_iter().map(f).collect()
    }

    /// The same entries at places of another type.
    #[must_use]
    pub fn reindex<J: Idx>(self) -> IdxVec<J, T> {
        self.raw.into()
    }

    /// Whether there is an entry at a place. (In homotopy-common the comparison is the wrong way round.)
    pub fn contains_key(&self, index: I) -> bool {
        index.index() < self.raw.len()
    }

    /// The entry at a place, where there is one.
    pub fn get(&self, index: I) -> Option<&T> {
        self.raw.get(index.index())
    }

    /// The same, to be changed.
    pub fn get_mut(&mut self, index: I) -> Option<&mut T> {
        self.raw.get_mut(index.index())
    }

    /// Places and entries.
    pub fn iter(&self) -> impl Iterator<Item = (I, &T)> {
        self.keys().zip(self.values())
    }

    /// The same, entries to be changed.
    pub fn iter_mut(&mut self) -> impl Iterator<Item = (I, &mut T)> {
        self.keys().zip(self.values_mut())
    }

    /// The places.
    pub fn keys(&self) -> impl Iterator<Item = I> {
        (0..self.raw.len()).map(I::new)
    }

    /// The entries.
    pub fn values(&self) -> impl ExactSizeIterator<Item = &T> {
        self.raw.iter()
    }

    /// The entries, to be changed.
    pub fn values_mut(&mut self) -> impl ExactSizeIterator<Item = &mut T> {
        self.raw.iter_mut()
    }

    /// The entries, taken out.
    pub fn into_values(self) -> impl ExactSizeIterator<Item = T> {
        self.raw.into_iter()
    }

    /// The entries as a plain list.
    #[must_use]
    pub fn into_raw(self) -> Vec<T> {
        self.raw
    }

    /// The entries where they stand.
    pub(crate) fn as_slice(&self) -> &[T] {
        &self.raw
    }

    /// Takes all entries off.
    pub fn clear(&mut self) {
        self.raw.clear();
    }
}

impl<I, T: PartialEq> IdxVec<I, T> {
    /// Whether some entry is equal to this.
    pub fn contains(&self, t: &T) -> bool {
        self.raw.contains(t)
    }
}

impl<I: Idx, T> Default for IdxVec<I, T> {
    fn default() -> Self {
        Self::new()
    }
}

impl<I, T: fmt::Debug> fmt::Debug for IdxVec<I, T> {
    fn fmt(&self, f: &mut fmt::Formatter) -> fmt::Result {
        self.raw.fmt(f)
    }
}

impl<I: Idx, T> From<Vec<T>> for IdxVec<I, T> {
    fn from(raw: Vec<T>) -> Self {
        Self {
            raw,
            places: PhantomData,
        }
    }
}

impl<I: Idx, T> FromIterator<T> for IdxVec<I, T> {
    fn from_iter<U: IntoIterator<Item = T>>(entries: U) -> Self {
        Vec::from_iter(entries).into()
    }
}

/// Gives places with entries, which it has taken out of an [`IdxVec`].
pub struct IdxVecIterator<I, T> {
    entries: Enumerate<vec::IntoIter<T>>,
    places: PhantomData<fn(&I)>,
}

impl<I: Idx, T> Iterator for IdxVecIterator<I, T> {
    type Item = (I, T);

    fn next(&mut self) -> Option<(I, T)> {
        let (index, entry) = self.entries.next()?;
        Some((I::new(index), entry))
    }

    fn size_hint(&self) -> (usize, Option<usize>) {
        self.entries.size_hint()
    }
}

impl<I: Idx, T> ExactSizeIterator for IdxVecIterator<I, T> {}

impl<I: Idx, T> FusedIterator for IdxVecIterator<I, T> {}

impl<I: Idx, T> IntoIterator for IdxVec<I, T> {
    type IntoIter = IdxVecIterator<I, T>;
    type Item = (I, T);

    fn into_iter(self) -> Self::IntoIter {
        IdxVecIterator {
            entries: self.raw.into_iter().enumerate(),
            places: PhantomData,
        }
    }
}

impl<I: Idx, T> Index<I> for IdxVec<I, T> {
    type Output = T;

    fn index(&self, index: I) -> &T {
        &self.raw[index.index()]
    }
}

impl<I: Idx, T> IndexMut<I> for IdxVec<I, T> {
    fn index_mut(&mut self, index: I) -> &mut T {
        &mut self.raw[index.index()]
    }
}

#[cfg(test)]
mod tests {
    use super::*;
    use crate::geom::{Line, Vert};

    #[test]
    fn places_and_entries() {
        let mut list: IdxVec<Vert, char> = "ab".chars().collect();
        assert_eq!(list.push('c'), Vert::new(2));
        list[Vert::new(0)] = 'z';
        assert_eq!((list.len(), list[Vert::new(0)]), (3, 'z'));
        assert!(list.contains(&'b') && list.contains_key(Vert::new(2)));
        assert!(!list.contains_key(Vert::new(3)) && list.get(Vert::new(3)).is_none());
        let pairs: Vec<_> = list.clone().reindex::<Line>().into_iter().collect();
        assert_eq!(pairs[1], (Line::new(1), 'b'));
        assert_eq!(list.map(|c| c as u32).into_raw(), [122, 98, 99]);
    }
}
