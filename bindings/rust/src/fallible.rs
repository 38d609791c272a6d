//! Iterators whose calls may fail.
use crate::{Error, FrameAddress, UnwindIterator, Unwinder};

/// An iterator whose calls may fail: of the shape of `FallibleIterator` of the crate `fallible-iterator`, which this
/// crate does not stand on.
pub trait FallibleIterator {
    type Item;
    type Error;

    /// Returns the next item, or `None` at the end.
    fn next(&mut self) -> Result<Option<Self::Item>, Self::Error>;

    /// Returns how many items are left: at least the first number, and at most the second, if there is one.
    fn size_hint(&self) -> (usize, Option<usize>) {
        (0, None)
    }

    /// Lends the iterator, to go on with it later.
    fn by_ref(&mut self) -> &mut Self
    where
        Self: Sized,
    {
        self
    }

    /// Returns an iterator of std over the results of the calls.
    fn iterator(self) -> Results<Self>
    where
        Self: Sized,
    {
        Results(self)
    }

    /// Collects all items, or returns the first error.
    fn collect<T: FromIterator<Self::Item>>(self) -> Result<T, Self::Error>
    where
        Self: Sized,
    {
        self.iterator().collect()
    }

    /// Calls `f` with one item after another; an error of either ends that.
    fn for_each<F: FnMut(Self::Item) -> Result<(), Self::Error>>(self, mut f: F) -> Result<(), Self::Error>
    where
        Self: Sized,
    {
        self.iterator().try_for_each(|item| f(item?))
    }
}

impl<I: FallibleIterator + ?Sized> FallibleIterator for &mut I {
    type Item = I::Item;
    type Error = I::Error;

    fn next(&mut self) -> Result<Option<I::Item>, I::Error> {
        (**self).next()
    }

    fn size_hint(&self) -> (usize, Option<usize>) {
        (**self).size_hint()
    }
}

impl<U: Unwinder, F: FnMut(u64) -> Result<u64, ()>> FallibleIterator for UnwindIterator<'_, '_, '_, U, F> {
    type Item = FrameAddress;
    type Error = Error;

    fn next(&mut self) -> Result<Option<FrameAddress>, Error> {
        self.next()
    }
}

/// The results of the calls of a [`FallibleIterator`]. After an error the next call tries again.
pub struct Results<I>(I);

impl<I: FallibleIterator> Iterator for Results<I> {
    type Item = Result<I::Item, I::Error>;

    fn next(&mut self) -> Option<Self::Item> {
        self.0.next().transpose()
    }

    fn size_hint(&self) -> (usize, Option<usize>) {
        self.0.size_hint()
    }
}
