//! Stands in for `itertools`: neighbouring pairs around a ring.

pub(crate) trait Itertools: Iterator {
    /// Each item with the next one, and the last with the first.
    fn circular_tuple_windows(self) -> impl Iterator<Item = (Self::Item, Self::Item)>
    where
        Self: Sized + Clone,
    {
        let following = self.clone().skip(1).chain(self.clone().take(1));
        self.zip(following)
    }
}

impl<I: Iterator> Itertools for I {}
