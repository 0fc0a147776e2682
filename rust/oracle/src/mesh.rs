//! Stands in for `crate::mesh`, of which `polyhedron.rs` uses one type.

use std::ops::Index;

/// Lists of different lengths in one list, each ending where its offset says.
///
/// `polyhedron.rs` fills it with the running ends, without a 0 in front, and asks for its length,
/// for one list by number, and for all lists in turn to change them.
#[derive(Clone, Debug)]
pub(crate) struct IndirectIndexOwned<T> {
    pub(crate) data: Vec<T>,
    pub(crate) offsets: Vec<usize>,
}

impl<T> IndirectIndexOwned<T> {
    pub(crate) fn len(&self) -> usize {
        self.offsets.len()
    }
}

impl<T> Index<usize> for IndirectIndexOwned<T> {
    type Output = [T];

    fn index(&self, number: usize) -> &[T] {
        let start = match number {
            0 => 0,
            _ => self.offsets[number - 1],
        };
        &self.data[start..self.offsets[number]]
    }
}

impl<'a, T> IntoIterator for &'a mut IndirectIndexOwned<T> {
    type Item = &'a mut [T];
    type IntoIter = std::vec::IntoIter<&'a mut [T]>;

    fn into_iter(self) -> Self::IntoIter {
        let mut lists = Vec::with_capacity(self.offsets.len());
        let mut rest = self.data.as_mut_slice();
        let mut start = 0;
        for &end in &self.offsets {
            let (list, after) = rest.split_at_mut(end - start);
            lists.push(list);
            rest = after;
            start = end;
        }
        lists.into_iter()
    }
}
