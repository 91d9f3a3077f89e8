//! Sets of operations, held as bits.

/// At most this many operations are accepted in a book.
pub const MOST_OPERATIONS: usize = 256;

const BITS: usize = u64::BITS as usize;
const WORDS: usize = MOST_OPERATIONS / BITS;

/// A set of operation numbers.
#[derive(Clone, Copy, Debug, PartialEq, Eq)]
pub struct OperationSet([u64; WORDS]);

impl OperationSet {
    pub const EMPTY: OperationSet = OperationSet([0; WORDS]);
    pub const ALL: OperationSet = OperationSet([u64::MAX; WORDS]);

    /// The set of one operation.
    #[inline]
    pub fn of(operation: usize) -> OperationSet {
        let mut set = OperationSet::EMPTY;
        set.insert(operation);
        set
    }

    #[inline]
    pub fn insert(&mut self, operation: usize) {
        self.0[operation / BITS] |= 1 << (operation % BITS);
    }

    #[inline]
    pub fn remove(&mut self, operation: usize) {
        self.0[operation / BITS] &= !(1 << (operation % BITS));
    }

    #[inline]
    pub fn contains(&self, operation: usize) -> bool {
        self.0[operation / BITS] >> (operation % BITS) & 1 == 1
    }

    #[inline]
    pub fn is_empty(&self) -> bool {
        self.0.iter().fold(0, |all, word| all | word) == 0
    }

    #[inline]
    pub fn or(mut self, other: &OperationSet) -> OperationSet {
        for (word, others) in self.0.iter_mut().zip(&other.0) {
            *word |= others;
        }
        self
    }

    #[inline]
    pub fn and(mut self, other: &OperationSet) -> OperationSet {
        for (word, others) in self.0.iter_mut().zip(&other.0) {
            *word &= others;
        }
        self
    }

    #[inline]
    pub fn without(mut self, other: &OperationSet) -> OperationSet {
        for (word, others) in self.0.iter_mut().zip(&other.0) {
            *word &= !others;
        }
        self
    }

    /// The lowest operation number in the set.
    #[inline]
    pub fn lowest(&self) -> Option<usize> {
        let word = self.0.iter().position(|word| *word != 0)?;
        Some(word * BITS + self.0[word].trailing_zeros() as usize)
    }

    /// The highest operation number in the set.
    #[inline]
    pub fn highest(&self) -> Option<usize> {
        let word = self.0.iter().rposition(|word| *word != 0)?;
        Some(word * BITS + self.0[word].ilog2() as usize)
    }

    /// Those of the set with numbers higher than this one.
    #[inline]
    pub fn above(self, operation: usize) -> OperationSet {
        self.without(&ALL_BELOW[operation + 1])
    }

    /// Those of the set with numbers lower than this one.
    #[inline]
    pub fn below(self, operation: usize) -> OperationSet {
        self.and(&ALL_BELOW[operation])
    }
}

/// For each number up to the most, the set of all lower ones. Ties are followed
/// by cutting sets, so the cuts are kept ready.
static ALL_BELOW: [OperationSet; MOST_OPERATIONS + 1] = all_below_each();

const fn all_below_each() -> [OperationSet; MOST_OPERATIONS + 1] {
    let mut sets = [OperationSet::EMPTY; MOST_OPERATIONS + 1];
    let mut operation = 0;
    while operation < MOST_OPERATIONS {
        sets[operation + 1] = sets[operation];
        sets[operation + 1].0[operation / BITS] |= 1 << (operation % BITS);
        operation += 1;
    }
    sets
}

#[cfg(test)]
mod tests {
    use super::*;

    fn set(operations: &[usize]) -> OperationSet {
        let mut set = OperationSet::EMPTY;
        for operation in operations {
            set.insert(*operation);
        }
        set
    }

    #[test]
    fn sets_hold_what_was_put_in() {
        let mut ends = set(&[0, 63, 64, 255]);
        assert!(ends.contains(63) && ends.contains(64) && !ends.contains(65));
        ends.remove(0);
        assert_eq!((ends.lowest(), ends.highest()), (Some(63), Some(255)));
        ends.remove(255);
        assert_eq!(ends.highest(), Some(64));
        assert_eq!(OperationSet::EMPTY.lowest(), None);
        assert_eq!(OperationSet::EMPTY.highest(), None);
        assert_eq!(OperationSet::of(64), set(&[64]));
        assert!(OperationSet::EMPTY.is_empty() && !ends.is_empty());
    }

    #[test]
    fn sets_are_joined_and_parted() {
        let (left, right) = (set(&[1, 100, 200]), set(&[100, 201]));
        assert_eq!(left.or(&right), set(&[1, 100, 200, 201]));
        assert_eq!(left.and(&right), set(&[100]));
        assert_eq!(left.without(&right), set(&[1, 200]));
    }

    #[test]
    fn sets_are_cut_at_a_number() {
        let numbers = set(&[0, 63, 64, 65, 128, 255]);
        for cut in 0..256 {
            let (mut lower, mut higher) = (numbers, numbers);
            for operation in 0..256 {
                if operation >= cut {
                    lower.remove(operation);
                }
                if operation <= cut {
                    higher.remove(operation);
                }
            }
            assert_eq!(numbers.below(cut), lower, "{cut}");
            assert_eq!(numbers.above(cut), higher, "{cut}");
        }
        assert_eq!(numbers.below(256), numbers);
    }
}
