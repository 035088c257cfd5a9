//! An index over the addresses that lines select: each axis in parts, with a row of bits a part.

use crate::cube::{Number, Range};

/// Where the parts of an axis begin, and for each part a row with a bit for each line that has it.
pub struct Axis<A> {
    starts: Vec<A>,
    rows: Vec<u64>,
    words: usize,
}

impl<A: Number> Axis<A> {
    /// The index over one selector of each line, a list of ranges.
    pub fn new<'a>(selectors: impl ExactSizeIterator<Item = &'a [Range<A>]>) -> Self
    where
        A: 'a,
    {
        let words = selectors.len().div_ceil(64);
        let mut changes = Vec::new();
        for (line, ranges) in selectors.enumerate() {
            put_changes(&mut changes, line, ranges);
        }
        changes.sort_unstable();
        let mut axis = Axis {
            starts: vec![A::FIRST],
            rows: vec![0; words],
            words,
        };
        for (start, line) in changes {
            axis.change(start, line);
        }
        axis
    }

    /// From this address on, which isn't before the last part, the line's bit is the other one.
    fn change(&mut self, start: A, line: usize) {
        if self.starts.last() != Some(&start) {
            let last = self.rows.len() - self.words;
            self.starts.push(start);
            self.rows.extend_from_within(last..);
        }
        let last = self.rows.len() - self.words;
        self.rows[last + line / 64] ^= 1 << (line % 64);
    }

    /// The lines that have the address.
    pub fn row(&self, address: A) -> &[u64] {
        let part = self.starts.partition_point(|start| *start <= address) - 1;
        &self.rows[part * self.words..][..self.words]
    }
}

/// Puts where a line's ranges begin, and where they have ended.
fn put_changes<A: Number>(changes: &mut Vec<(A, usize)>, line: usize, ranges: &[Range<A>]) {
    let mut ranges = ranges.to_vec();
    ranges.sort_unstable_by_key(|range| range.low);
    let mut ranges = ranges.into_iter().peekable();
    while let Some(mut range) = ranges.next() {
        while let Some(next) = ranges.next_if(|next| next.low <= range.high) {
            range.high = range.high.max(next.high);
        }
        changes.push((range.low, line));
        if range.high < A::LAST {
            changes.push((range.high.next(), line));
        }
    }
}

/// The places of the bits that both rows have, in rising order.
pub fn common<'a>(one: &'a [u64], other: &'a [u64]) -> impl Iterator<Item = usize> + 'a {
    one.iter()
        .zip(other)
        .enumerate()
        .flat_map(|(word, (one, other))| {
            let mut bits = one & other;
            std::iter::from_fn(move || {
                let place = (bits != 0).then(|| 64 * word + bits.trailing_zeros() as usize);
                bits &= bits.wrapping_sub(1);
                place
            })
        })
}
