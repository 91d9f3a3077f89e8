//! The order of the transactions: who stands before whom, who is on a ring,
//! and whether an undo is kept free to commit.
//!
//! An operation is tied to every earlier one on its object that wasn't aborted
//! when it was accepted, if one of the two is a write. What is aborted stays so;
//! hence of two such operations that aren't aborted now, the earlier is always
//! tied before the later, whoever has ended since. The order needs to know no
//! more than that.

use super::{bit, State};
use crate::operations::OperationSet;
use crate::tables::Tables;

/// The way in which ties are followed.
#[derive(Clone, Copy)]
enum Towards {
    Later,
    Earlier,
}

impl Towards {
    /// Those of the others that lie beyond some of these.
    #[inline]
    fn beyond(self, these: OperationSet, others: OperationSet) -> OperationSet {
        let cut = match self {
            Towards::Later => these.lowest().map(|first| others.above(first)),
            Towards::Earlier => these.highest().map(|last| others.below(last)),
        };
        cut.unwrap_or(OperationSet::EMPTY)
    }
}

impl State {
    /// The transactions that `earlier` stands before by one tie, as bits.
    pub(crate) fn standing_after(&self, earlier: usize) -> u64 {
        self.answering_for(self.one_tie_from(bit(earlier), Towards::Later))
    }

    /// Whether following ties leads from `t` back to it: it leads to one that
    /// stands before `t` by one tie.
    pub(super) fn is_on_a_ring(&self, t: usize) -> bool {
        let just_before = self.answering_for(self.one_tie_from(bit(t), Towards::Earlier));
        just_before != 0 && self.reached_from(bit(t), Towards::Later) & just_before != 0
    }

    /// Whether an active undo would be on a ring if `t` had one more operation,
    /// the last of all, which conflicts with those in `conflicting`.
    ///
    /// It is asked of a state in which no active undo was on a ring before `t`
    /// got something, be it that new operation or what it was handed. Only ties
    /// of `t` have come in, so a ring with an undo on it goes through `t`: the
    /// undo is `t`, or `t` leads to it and it leads to `t`. Where no undo is at
    /// work nothing is searched. Few lead to an undo, because it waits for the
    /// others' active operations; so it is asked first whether `t` does.
    pub(super) fn would_bar_an_undo(
        &self,
        tables: &Tables,
        t: usize,
        conflicting: OperationSet,
    ) -> bool {
        let undos = self.undos_at_work(tables);
        if undos == 0 || bit(t) & (undos | self.reached_from(undos, Towards::Earlier)) == 0 {
            return false;
        }
        let later = self.reached_from(bit(t), Towards::Later);
        let first_earlier = self.one_tie_from(bit(t), Towards::Earlier).or(&conflicting);
        let earlier = self.reached_by_way_of(first_earlier, bit(t), Towards::Earlier);
        let others_on_a_ring = later & earlier;
        others_on_a_ring != 0 && (others_on_a_ring | bit(t)) & undos != 0
    }

    /// The active undos with operations, as bits. The first operation of an undo
    /// has others only before it, so until then it is on no ring.
    fn undos_at_work(&self, tables: &Tables) -> u64 {
        let mut at_work = self.active & tables.undos();
        let mut active = at_work;
        while active != 0 {
            let undo = active.trailing_zeros() as usize;
            active &= !bit(undo);
            if self.answered_by[undo].is_empty() {
                at_work &= !bit(undo);
            }
        }
        at_work
    }

    /// The other transactions that are reached from these by following ties.
    fn reached_from(&self, these: u64, towards: Towards) -> u64 {
        self.reached_by_way_of(self.one_tie_from(these, towards), these, towards)
    }

    /// The transactions other than these that answer for an operation in `first`
    /// or are reached from those by following ties.
    fn reached_by_way_of(&self, first: OperationSet, these: u64, towards: Towards) -> u64 {
        let mut unreached = self.not_aborted().without(&self.answered_by_all(these));
        let mut reached = 0;
        let mut tied = first.and(&unreached);
        while !tied.is_empty() {
            let others = self.answering_for(tied);
            reached |= others;
            let theirs = self.answered_by_all(others).and(&unreached);
            unreached = unreached.without(&theirs);
            tied = self.conflicting_beyond(theirs, towards).and(&unreached);
        }
        reached
    }

    /// The operations of others that are tied to one of these transactions'.
    fn one_tie_from(&self, these: u64, towards: Towards) -> OperationSet {
        let not_aborted = self.not_aborted();
        let own = self.answered_by_all(these).and(&not_aborted);
        let tied = self.conflicting_beyond(own, towards);
        tied.and(&not_aborted).without(&own)
    }

    /// All operations that come after one of these, or before it, and conflict
    /// with it: on each object the writes beyond one of these and everything
    /// beyond a write among them.
    fn conflicting_beyond(&self, mut these: OperationSet, towards: Towards) -> OperationSet {
        let mut conflicting = OperationSet::EMPTY;
        while let Some(next) = these.lowest() {
            let on_object = self.on_object[self.object(next)];
            let here = these.and(&on_object);
            let writes = towards.beyond(here, on_object.and(&self.writes));
            let beyond_writes = towards.beyond(here.and(&self.writes), on_object);
            conflicting = conflicting.or(&writes).or(&beyond_writes);
            these = these.without(&on_object);
        }
        conflicting
    }

    fn not_aborted(&self) -> OperationSet {
        OperationSet::ALL.without(&self.aborted_operations)
    }

    /// The transactions that answer for these operations, as bits.
    fn answering_for(&self, mut operations: OperationSet) -> u64 {
        let mut transactions = 0;
        while let Some(operation) = operations.lowest() {
            let t = self.responsible(operation);
            transactions |= bit(t);
            operations = operations.without(&self.answered_by[t]);
        }
        transactions
    }

    /// All that these transactions answer for.
    fn answered_by_all(&self, mut transactions: u64) -> OperationSet {
        let mut operations = OperationSet::EMPTY;
        while transactions != 0 {
            let t = transactions.trailing_zeros() as usize;
            operations = operations.or(&self.answered_by[t]);
            transactions &= !bit(t);
        }
        operations
    }
}
