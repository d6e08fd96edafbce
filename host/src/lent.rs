//! What a call is lent, between items that are not lent: a write anywhere else than promised is seen.
use crate::tally::agree;
use std::hint::black_box;
use std::ops::Range;

/// Items before and after the lent ones, which no call may touch.
const MARGIN: usize = 16;

/// A copy of some items with a margin around them.
pub struct Lent<T> {
    before: Vec<T>,
    now: Vec<T>,
}

impl<T: Copy + PartialEq> Lent<T> {
    /// Copies the items; the margin is filled with one item.
    pub fn new(items: &[T], around: T) -> Lent<T> {
        let margin = [around; MARGIN];
        let now = [&margin, items, &margin].concat();
        Lent { before: now.clone(), now }
    }

    fn lent(&self) -> Range<usize> {
        MARGIN..self.now.len() - MARGIN
    }

    /// The items, lent for reading.
    pub fn for_reading(&self) -> &[T] {
        &self.now[self.lent()]
    }

    /// The items, lent for writing.
    pub fn for_writing(&mut self) -> &mut [T] {
        let lent = self.lent();
        &mut self.now[lent]
    }

    /// The items after the call, if none was written but those that the call promises to write.
    pub fn after(&mut self, name: &str, written: Range<usize>) -> Result<&[T], String> {
        // Hidden from the optimizer, which otherwise might take items lent for reading as unchanged.
        let now = black_box(&mut self.now);
        let (start, end) = (MARGIN + written.start, MARGIN + written.end);
        let kept = now[..start] == self.before[..start] && now[end..] == self.before[end..];
        agree(kept, || format!("{name}: written where nothing is promised"))?;
        Ok(&self.now[self.lent()])
    }
}
