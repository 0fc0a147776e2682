//! Stands in for `smallvec`: a vector that names its elements by an array type.

use std::ops::{Deref, DerefMut};

pub(crate) trait Array {
    type Item;
}

impl<T, const N: usize> Array for [T; N] {
    type Item = T;
}

/// Holds its elements on the heap, whatever their number.
pub(crate) struct SmallVec<A: Array> {
    items: Vec<A::Item>,
}

impl<A: Array> Deref for SmallVec<A> {
    type Target = [A::Item];

    fn deref(&self) -> &[A::Item] {
        &self.items
    }
}

impl<A: Array> DerefMut for SmallVec<A> {
    fn deref_mut(&mut self) -> &mut [A::Item] {
        &mut self.items
    }
}

impl<A: Array> FromIterator<A::Item> for SmallVec<A> {
    fn from_iter<I: IntoIterator<Item = A::Item>>(items: I) -> Self {
        SmallVec {
            items: items.into_iter().collect(),
        }
    }
}

impl<A: Array<Item: Clone>> Clone for SmallVec<A> {
    fn clone(&self) -> Self {
        SmallVec {
            items: self.items.clone(),
        }
    }
}

impl<A: Array<Item: std::fmt::Debug>> std::fmt::Debug for SmallVec<A> {
    fn fmt(&self, out: &mut std::fmt::Formatter<'_>) -> std::fmt::Result {
        self.items.fmt(out)
    }
}
