use crate::{Failure, Transaction, MAX_PAIRS};
use std::iter::FusedIterator;
use std::ops::{Bound, RangeBounds};
use std::vec;

/// The pairs of a range in order; [`Transaction::range`] makes it. After a failure there is nothing more.
#[derive(Debug)]
pub struct Pairs<'t, 's, B> {
    transaction: &'t mut Transaction<'s, B>,
    /// Where the next list begins, if there is still something to ask for. It is not above `last`.
    from: Option<u64>,
    /// The last key of the range.
    last: u64,
    listed: vec::IntoIter<(u64, u64)>,
}

impl<'t, 's, B: AsMut<[u8]>> Pairs<'t, 's, B> {
    pub(crate) fn new(
        transaction: &'t mut Transaction<'s, B>,
        keys: impl RangeBounds<u64>,
    ) -> Self {
        let last = last(&keys);
        Pairs {
            transaction,
            from: first(&keys).filter(|first| last.is_some_and(|last| *first <= last)),
            last: last.unwrap_or_default(),
            listed: Vec::new().into_iter(),
        }
    }

    /// The next list of the range: of no more pairs than the range has keys left, so that no leaf is read for nothing.
    fn list(&mut self, from: u64) -> Result<(), Failure> {
        let count = 1 + (self.last - from).min(MAX_PAIRS as u64 - 1) as usize;
        let mut pairs = self.transaction.list(from, count)?;
        let is_full = pairs.len() == count;
        let behind = pairs.last().filter(|(key, _)| *key < self.last);
        self.from = behind.filter(|_| is_full).map(|(key, _)| key + 1);
        pairs.retain(|(key, _)| *key <= self.last);
        self.listed = pairs.into_iter();
        Ok(())
    }
}

impl<B: AsMut<[u8]>> Iterator for Pairs<'_, '_, B> {
    type Item = Result<(u64, u64), Failure>;

    fn next(&mut self) -> Option<Self::Item> {
        if self.listed.len() == 0 {
            let from = self.from.take()?;
            if let Err(failure) = self.list(from) {
                return Some(Err(failure));
            }
        }
        self.listed.next().map(Ok)
    }
}

impl<B: AsMut<[u8]>> FusedIterator for Pairs<'_, '_, B> {}

/// The first key of a range, if it has one.
fn first(keys: &impl RangeBounds<u64>) -> Option<u64> {
    match keys.start_bound() {
        Bound::Included(key) => Some(*key),
        Bound::Excluded(key) => key.checked_add(1),
        Bound::Unbounded => Some(0),
    }
}

/// The last one.
fn last(keys: &impl RangeBounds<u64>) -> Option<u64> {
    match keys.end_bound() {
        Bound::Included(key) => Some(*key),
        Bound::Excluded(key) => key.checked_sub(1),
        Bound::Unbounded => Some(u64::MAX),
    }
}
