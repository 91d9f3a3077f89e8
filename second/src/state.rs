//! The state after the accepted events, and the judging of the next one.

mod order;

use crate::closing::owed;
use crate::event::Event;
use crate::operations::{OperationSet, MOST_OPERATIONS};
use crate::refusal;
use crate::tables::{Kind, Sort, Tables, MOST_OBJECTS, MOST_TRANSACTIONS};

/// What an operation does with its object.
#[derive(Clone, Copy, Debug, PartialEq, Eq)]
pub enum Mark {
    Read,
    Write,
}

/// How far a transaction, or an operation, has come. No operation is idle.
#[derive(Clone, Copy, Debug, PartialEq, Eq)]
pub enum Phase {
    Idle,
    Active,
    Committed,
    Aborted,
}

/// The state of all transactions and operations. Transactions are held as the
/// bits of one number; one that is in no set is idle.
#[derive(Clone, Debug)]
pub struct State {
    active: u64,
    committed: u64,
    aborted: u64,
    /// For each ended transaction, how many operations were accepted by then.
    /// The operations it answers for ended with it, but for those that ended
    /// alone before, so this tells which later operations found them active.
    ended_at: [u16; MOST_TRANSACTIONS],
    /// The helpers: transactions that were spawned under a clerk, as bits. They
    /// stay helpers for good.
    spawned: u64,
    /// For each helper, the transaction it was spawned under.
    parent_of: [u8; MOST_TRANSACTIONS],
    /// The sum of outstanding over all sagas, kept so that the board above the
    /// pass can be redrawn after each event.
    left: usize,

    /// How many operations are accepted.
    accepted: usize,
    object_of: [u8; MOST_OPERATIONS],
    responsible: [u8; MOST_OPERATIONS],
    writes: OperationSet,
    active_operations: OperationSet,
    committed_operations: OperationSet,
    aborted_operations: OperationSet,
    /// The operations that were committed or aborted by themselves.
    ended_alone: OperationSet,
    /// For each of these, how many operations were accepted by then.
    alone_ended_at: [u16; MOST_OPERATIONS],
    /// The operations on each object.
    on_object: [OperationSet; MOST_OBJECTS],
    /// The operations each transaction is responsible for now.
    answered_by: [OperationSet; MOST_TRANSACTIONS],
}

#[inline]
fn bit(transaction: usize) -> u64 {
    1 << transaction
}

#[inline]
pub(crate) fn refuse_unless(holds: bool, number: u8) -> Result<(), u8> {
    if holds {
        Ok(())
    } else {
        Err(number)
    }
}

impl State {
    /// All transactions idle, no operation accepted.
    pub(crate) const EMPTY: State = State {
        active: 0,
        committed: 0,
        aborted: 0,
        ended_at: [0; MOST_TRANSACTIONS],
        spawned: 0,
        parent_of: [0; MOST_TRANSACTIONS],
        left: 0,
        accepted: 0,
        object_of: [0; MOST_OPERATIONS],
        responsible: [0; MOST_OPERATIONS],
        writes: OperationSet::EMPTY,
        active_operations: OperationSet::EMPTY,
        committed_operations: OperationSet::EMPTY,
        aborted_operations: OperationSet::EMPTY,
        ended_alone: OperationSet::EMPTY,
        alone_ended_at: [0; MOST_OPERATIONS],
        on_object: [OperationSet::EMPTY; MOST_OBJECTS],
        answered_by: [OperationSet::EMPTY; MOST_TRANSACTIONS],
    };

    /// The active transactions, as bits.
    pub fn active(&self) -> u64 {
        self.active
    }

    /// How much is left to do: the sum of outstanding over all sagas.
    pub fn left(&self) -> usize {
        self.left
    }

    /// How many operations are accepted.
    pub fn operations(&self) -> usize {
        self.accepted
    }

    pub fn phase(&self, transaction: usize) -> Phase {
        if self.is_active(transaction) {
            Phase::Active
        } else if self.is_committed(transaction) {
            Phase::Committed
        } else if self.is_aborted(transaction) {
            Phase::Aborted
        } else {
            Phase::Idle
        }
    }

    pub fn operation_phase(&self, operation: usize) -> Phase {
        if self.active_operations.contains(operation) {
            Phase::Active
        } else if self.committed_operations.contains(operation) {
            Phase::Committed
        } else {
            Phase::Aborted
        }
    }

    pub fn mark(&self, operation: usize) -> Mark {
        if self.writes.contains(operation) {
            Mark::Write
        } else {
            Mark::Read
        }
    }

    /// The object an operation is on.
    pub fn object(&self, operation: usize) -> usize {
        usize::from(self.object_of[operation])
    }

    /// The transaction that answers for an operation now.
    #[inline]
    pub fn responsible(&self, operation: usize) -> usize {
        usize::from(self.responsible[operation])
    }

    #[inline]
    fn is_idle(&self, transaction: usize) -> bool {
        (self.active | self.committed | self.aborted) & bit(transaction) == 0
    }

    #[inline]
    pub(crate) fn is_active(&self, transaction: usize) -> bool {
        self.active & bit(transaction) != 0
    }

    #[inline]
    pub(crate) fn is_committed(&self, transaction: usize) -> bool {
        self.committed & bit(transaction) != 0
    }

    #[inline]
    fn is_aborted(&self, transaction: usize) -> bool {
        self.aborted & bit(transaction) != 0
    }

    #[inline]
    fn is_ended(&self, transaction: usize) -> bool {
        (self.committed | self.aborted) & bit(transaction) != 0
    }

    /// The transaction that a helper was spawned under; none for any other.
    #[inline]
    fn parent(&self, transaction: usize) -> Option<usize> {
        let is_helper = self.spawned & bit(transaction) != 0;
        is_helper.then(|| usize::from(self.parent_of[transaction]))
    }

    /// Judges one event and, if it is accepted, takes it in. A refused one
    /// changes nothing, so the caller may go on with another.
    #[inline(always)]
    pub fn offer(&mut self, tables: &Tables, event: Event) -> Result<(), u8> {
        match event {
            Event::Begin { transaction } => self.keep_left(tables, transaction, State::begin),
            Event::Commit { transaction } => self.keep_left(tables, transaction, State::commit),
            Event::Abort { transaction } => self.keep_left(tables, transaction, State::abort),
            Event::Operation {
                transaction,
                object,
                mark,
            } => self.operate(tables, transaction, object, mark),
            Event::Delegate {
                giver,
                receiver,
                operation,
            } => self.delegate(tables, giver, receiver, operation),
            Event::CommitOperation {
                transaction,
                operation,
            } => self.commit_operation(tables, transaction, operation),
            Event::AbortOperation {
                transaction,
                operation,
            } => self.abort_operation(tables, transaction, operation),
            Event::Spawn { parent, child } => self.spawn(tables, parent, child),
        }
    }

    /// Judges the begin or the end of a transaction and keeps the sum of what is
    /// left. Only these change what a saga owes, and none but the one that the
    /// transaction belongs to.
    #[inline(always)]
    fn keep_left(
        &mut self,
        tables: &Tables,
        transaction: u32,
        judge: impl FnOnce(&mut State, &Tables, u32) -> Result<(), u8>,
    ) -> Result<(), u8> {
        let Some(saga) = tables.saga_owning(transaction) else {
            return judge(self, tables, transaction);
        };
        let owed_before = owed(self, saga);
        judge(self, tables, transaction)?;
        self.left = self.left - owed_before + owed(self, saga);
        Ok(())
    }

    fn begin(&mut self, tables: &Tables, transaction: u32) -> Result<(), u8> {
        let t = known_transaction(tables, transaction)?;
        refuse_unless(self.is_idle(t), refusal::NOT_IDLE)?;
        refuse_unless(self.saga_lets_begin(tables, t), refusal::SAGA_RULE)?;
        refuse_unless(
            self.dependencies_let_begin(tables, t),
            refusal::DECLARED_DEPENDENCY,
        )?;
        self.active |= bit(t);
        Ok(())
    }

    /// Begins a helper under a clerk who is at work.
    fn spawn(&mut self, tables: &Tables, parent: u32, child: u32) -> Result<(), u8> {
        let parent = known_transaction(tables, parent)?;
        let child = known_transaction(tables, child)?;
        let both_plain = [parent, child].map(|t| tables.sort(t)) == [Sort::Plain; 2];
        refuse_unless(both_plain, refusal::NEVER_DONE)?;
        refuse_unless(self.is_idle(child), refusal::NOT_IDLE)?;
        refuse_unless(self.is_active(parent), refusal::NOT_ACTIVE)?;
        refuse_unless(
            self.dependencies_let_begin(tables, child),
            refusal::DECLARED_DEPENDENCY,
        )?;
        self.active |= bit(child);
        self.spawned |= bit(child);
        self.parent_of[child] = parent as u8;
        Ok(())
    }

    fn commit(&mut self, tables: &Tables, transaction: u32) -> Result<(), u8> {
        let t = known_transaction(tables, transaction)?;
        refuse_unless(self.is_active(t), refusal::NOT_ACTIVE)?;
        refuse_unless(self.saga_lets_commit(tables, t), refusal::SAGA_RULE)?;
        refuse_unless(
            self.dependencies_let_commit(tables, t),
            refusal::DECLARED_DEPENDENCY,
        )?;
        refuse_unless(self.family_lets_commit(t), refusal::DECLARED_DEPENDENCY)?;
        if let Some(parent) = self.parent(t) {
            self.hand_to_parent(tables, t, parent)?;
        } else {
            let own_reads = self.answered_by[t].without(&self.writes);
            refuse_unless(!self.has_dirty_read(t, own_reads), refusal::DIRTY_READ)?;
            refuse_unless(!self.is_on_a_ring(t), refusal::ON_A_RING)?;
            let ended = self.end_operations(t);
            self.committed_operations = self.committed_operations.or(&ended);
        }
        self.active &= !bit(t);
        self.committed |= bit(t);
        Ok(())
    }

    /// Hands what a helper is at work on to the clerk above it, unless that
    /// would bar an undo: then it is taken back.
    fn hand_to_parent(&mut self, tables: &Tables, child: usize, parent: usize) -> Result<(), u8> {
        let handed = self.answered_by[child].and(&self.active_operations);
        self.hand_over_all(handed, child, parent);
        if self.would_bar_an_undo(tables, parent, OperationSet::EMPTY) {
            self.hand_over_all(handed, parent, child);
            return Err(refusal::UNDO_ON_A_RING);
        }
        Ok(())
    }

    fn hand_over_all(&mut self, mut operations: OperationSet, giver: usize, receiver: usize) {
        while let Some(operation) = operations.lowest() {
            self.hand_over(operation, giver, receiver);
            operations.remove(operation);
        }
    }

    fn abort(&mut self, tables: &Tables, transaction: u32) -> Result<(), u8> {
        let t = known_transaction(tables, transaction)?;
        let sort = tables.sort(t);
        refuse_unless(!matches!(sort, Sort::Undo { .. }), refusal::NEVER_DONE)?;
        refuse_unless(self.is_active(t), refusal::NOT_ACTIVE)?;
        if let Sort::Saga { last_step } = sort {
            refuse_unless(
                !self.is_committed(usize::from(last_step)),
                refusal::SAGA_RULE,
            )?;
        }
        let ended = self.end_operations(t);
        self.aborted_operations = self.aborted_operations.or(&ended);
        self.active &= !bit(t);
        self.aborted |= bit(t);
        Ok(())
    }

    fn operate(
        &mut self,
        tables: &Tables,
        transaction: u32,
        object: u32,
        mark: u32,
    ) -> Result<(), u8> {
        let t = known_transaction(tables, transaction)?;
        let object = known_object(tables, object)?;
        let mark = known_mark(mark)?;
        let sort = tables.sort(t);
        refuse_unless(!matches!(sort, Sort::Saga { .. }), refusal::NEVER_DONE)?;
        refuse_unless(self.is_active(t), refusal::NOT_ACTIVE)?;
        let conflicting = self.conflicting_with_new(object, mark);
        if let Sort::Undo { .. } = sort {
            let of_others = conflicting
                .and(&self.active_operations)
                .without(&self.answered_by[t]);
            refuse_unless(of_others.is_empty(), refusal::UNDO_MUST_WAIT)?;
        }
        refuse_unless(
            !self.would_bar_an_undo(tables, t, conflicting),
            refusal::UNDO_ON_A_RING,
        )?;
        refuse_unless(self.accepted < MOST_OPERATIONS, refusal::OPERATIONS_USED_UP)?;
        self.take_operation(t, object, mark);
        Ok(())
    }

    fn take_operation(&mut self, t: usize, object: usize, mark: Mark) {
        let operation = self.accepted;
        self.accepted += 1;
        self.object_of[operation] = object as u8;
        self.responsible[operation] = t as u8;
        self.active_operations.insert(operation);
        self.on_object[object].insert(operation);
        self.answered_by[t].insert(operation);
        if mark == Mark::Write {
            self.writes.insert(operation);
        }
    }

    /// Makes another transaction responsible for an operation, unless that
    /// would bar an undo: then it is taken back. An operation that has ended
    /// stays where it is.
    fn delegate(
        &mut self,
        tables: &Tables,
        giver: u32,
        receiver: u32,
        operation: u32,
    ) -> Result<(), u8> {
        let giver = known_transaction(tables, giver)?;
        let receiver = known_transaction(tables, receiver)?;
        let operation = self.known_operation(operation)?;
        let both_delegate = tables.sort(giver).delegates() && tables.sort(receiver).delegates();
        refuse_unless(both_delegate && giver != receiver, refusal::NEVER_DONE)?;
        let both_active = self.is_active(giver) && self.is_active(receiver);
        refuse_unless(both_active, refusal::NOT_ACTIVE)?;
        refuse_unless(
            self.responsible(operation) == giver,
            refusal::NOT_RESPONSIBLE,
        )?;
        if !self.active_operations.contains(operation) {
            return Ok(());
        }
        self.hand_over(operation, giver, receiver);
        if self.would_bar_an_undo(tables, receiver, OperationSet::EMPTY) {
            self.hand_over(operation, receiver, giver);
            return Err(refusal::UNDO_ON_A_RING);
        }
        Ok(())
    }

    fn hand_over(&mut self, operation: usize, giver: usize, receiver: usize) {
        self.responsible[operation] = receiver as u8;
        self.answered_by[giver].remove(operation);
        self.answered_by[receiver].insert(operation);
    }

    fn commit_operation(
        &mut self,
        tables: &Tables,
        transaction: u32,
        operation: u32,
    ) -> Result<(), u8> {
        self.helpers_keep_nothing(transaction, operation)?;
        let (t, operation) = self.own_active_operation(tables, transaction, operation)?;
        let read = OperationSet::of(operation).without(&self.writes);
        refuse_unless(!self.has_dirty_read(t, read), refusal::DIRTY_READ)?;
        refuse_unless(!self.is_on_a_ring(t), refusal::ON_A_RING)?;
        self.end_alone(operation);
        self.committed_operations.insert(operation);
        Ok(())
    }

    /// No helper ever keeps a single operation, whatever its state: what it does
    /// goes to the clerk above it. Only what isn't in the tables comes first.
    fn helpers_keep_nothing(&self, transaction: u32, operation: u32) -> Result<(), u8> {
        let t = transaction as usize;
        let is_helper = t < MOST_TRANSACTIONS && self.parent(t).is_some();
        let is_known = self.known_operation(operation).is_ok();
        refuse_unless(!is_helper || !is_known, refusal::NEVER_DONE)
    }

    fn abort_operation(
        &mut self,
        tables: &Tables,
        transaction: u32,
        operation: u32,
    ) -> Result<(), u8> {
        let (_, operation) = self.own_active_operation(tables, transaction, operation)?;
        self.end_alone(operation);
        self.aborted_operations.insert(operation);
        Ok(())
    }

    /// The transaction and the operation, if the one may end the other alone
    /// as far as dirty reads and rings are left out.
    fn own_active_operation(
        &self,
        tables: &Tables,
        transaction: u32,
        operation: u32,
    ) -> Result<(usize, usize), u8> {
        let t = known_transaction(tables, transaction)?;
        let operation = self.known_operation(operation)?;
        refuse_unless(tables.sort(t) == Sort::Plain, refusal::NEVER_DONE)?;
        refuse_unless(self.is_active(t), refusal::NOT_ACTIVE)?;
        refuse_unless(self.responsible(operation) == t, refusal::NOT_RESPONSIBLE)?;
        refuse_unless(
            self.active_operations.contains(operation),
            refusal::ALREADY_ENDED,
        )?;
        Ok((t, operation))
    }

    fn known_operation(&self, operation: u32) -> Result<usize, u8> {
        let operation = operation as usize;
        refuse_unless(operation < self.accepted, refusal::NOT_IN_THE_TABLES)?;
        Ok(operation)
    }

    /// Whether the saga a transaction belongs to lets it begin.
    fn saga_lets_begin(&self, tables: &Tables, t: usize) -> bool {
        match tables.sort(t) {
            Sort::Saga { .. } | Sort::Plain => true,
            Sort::Step { saga } => {
                let saga = usize::from(saga);
                let before = t - 1;
                let is_first = before == saga;
                self.is_active(saga) && (is_first || self.is_committed(before))
            }
            Sort::Undo {
                saga,
                step,
                last_step,
            } => {
                let next_step = usize::from(step) + 1;
                let next_has_undo = next_step < usize::from(last_step);
                let next_is_undone = next_has_undo && self.is_committed(t + 1);
                self.is_aborted(usize::from(saga))
                    && self.is_committed(usize::from(step))
                    && !self.is_active(next_step)
                    && (!self.is_committed(next_step) || next_is_undone)
            }
        }
    }

    /// Whether the saga a transaction belongs to lets it commit.
    fn saga_lets_commit(&self, tables: &Tables, t: usize) -> bool {
        match tables.sort(t) {
            Sort::Saga { last_step } => self.is_committed(usize::from(last_step)),
            Sort::Step { saga } => self.is_active(usize::from(saga)),
            Sort::Undo { .. } | Sort::Plain => true,
        }
    }

    fn dependencies_let_begin(&self, tables: &Tables, t: usize) -> bool {
        tables.dependencies_of(t).iter().all(|dependency| {
            let base = dependency.base();
            match dependency.kind() {
                Kind::Begin => !self.is_idle(base),
                Kind::Serial => self.is_ended(base),
                Kind::BeginOnCommit => self.is_committed(base),
                Kind::BeginOnAbort => self.is_aborted(base),
                Kind::Commit | Kind::Abort | Kind::WeakAbort => true,
            }
        })
    }

    fn dependencies_let_commit(&self, tables: &Tables, t: usize) -> bool {
        tables.dependencies_of(t).iter().all(|dependency| {
            let base = dependency.base();
            match dependency.kind() {
                Kind::Commit => self.is_ended(base),
                Kind::Abort => self.is_committed(base),
                Kind::WeakAbort => !self.is_aborted(base),
                Kind::Begin | Kind::Serial | Kind::BeginOnCommit | Kind::BeginOnAbort => true,
            }
        })
    }

    /// Whether a transaction's family lets it commit: none of its helpers is at
    /// work, and if it is a helper itself, the clerk above it hasn't ended.
    #[inline]
    fn family_lets_commit(&self, t: usize) -> bool {
        self.spawned == 0
            || !self.has_active_helper(t)
                && !self.parent(t).is_some_and(|parent| self.is_ended(parent))
    }

    /// Whether one that was spawned under `t` itself is at work.
    fn has_active_helper(&self, t: usize) -> bool {
        let mut at_work = self.spawned & self.active;
        while at_work != 0 {
            let helper = at_work.trailing_zeros() as usize;
            if usize::from(self.parent_of[helper]) == t {
                return true;
            }
            at_work &= !bit(helper);
        }
        false
    }

    /// The operations on an object that conflict with a new one: same object,
    /// at least one of the two a write.
    fn conflicting_with_new(&self, object: usize, mark: Mark) -> OperationSet {
        let on_object = self.on_object[object];
        match mark {
            Mark::Read => on_object.and(&self.writes),
            Mark::Write => on_object,
        }
    }

    /// How many operations were accepted before the operations `t` answers for
    /// ended, but for those that ended alone: operations from this number on
    /// did not find them active.
    #[inline]
    fn operations_before_end(&self, t: usize) -> usize {
        if self.is_ended(t) {
            usize::from(self.ended_at[t])
        } else {
            MOST_OPERATIONS
        }
    }

    /// How many operations were accepted before this one ended.
    #[inline]
    fn operations_before_end_of(&self, operation: usize) -> usize {
        if self.ended_alone.contains(operation) {
            usize::from(self.alone_ended_at[operation])
        } else {
            self.operations_before_end(self.responsible(operation))
        }
    }

    /// The operations that were active up to the same moment as this one, or
    /// still are: itself if it ended alone, else all its transaction answers
    /// for that did not.
    #[inline]
    fn active_as_long_as(&self, operation: usize) -> OperationSet {
        if self.ended_alone.contains(operation) {
            OperationSet::of(operation)
        } else {
            self.answered_by[self.responsible(operation)].without(&self.ended_alone)
        }
    }

    /// Whether one of these reads, all of which `t` answers for, is tied after
    /// a write that is neither committed nor both active and its own. A read
    /// that was aborted itself is passed over. Of writes on an object that
    /// were active up to the same moment, the lowest ties the most.
    fn has_dirty_read(&self, t: usize, reads: OperationSet) -> bool {
        let own_active = self.answered_by[t].and(&self.active_operations);
        let unsettled = self
            .writes
            .without(&self.committed_operations)
            .without(&own_active);
        let mut reads = reads.without(&self.aborted_operations);
        while let Some(read) = reads.lowest() {
            let on_object = &self.on_object[self.object(read)];
            let reads_here = reads.and(on_object);
            reads = reads.without(on_object);
            let mut suspects = on_object.and(&unsettled);
            while let Some(write) = suspects.lowest() {
                let found_active = self.operations_before_end_of(write);
                if !reads_here.above(write).below(found_active).is_empty() {
                    return true;
                }
                suspects = suspects.without(&self.active_as_long_as(write));
            }
        }
        false
    }

    /// Notes that `t` ends now, takes the operations it answers for out of the
    /// active ones and hands them back.
    fn end_operations(&mut self, t: usize) -> OperationSet {
        self.ended_at[t] = self.accepted as u16;
        let ended = self.answered_by[t].and(&self.active_operations);
        self.active_operations = self.active_operations.without(&ended);
        ended
    }

    /// Notes that an operation ends now by itself, and takes it out of the
    /// active ones.
    fn end_alone(&mut self, operation: usize) {
        self.alone_ended_at[operation] = self.accepted as u16;
        self.ended_alone.insert(operation);
        self.active_operations.remove(operation);
    }
}

fn known_transaction(tables: &Tables, transaction: u32) -> Result<usize, u8> {
    let t = transaction as usize;
    refuse_unless(t < tables.transactions(), refusal::NOT_IN_THE_TABLES)?;
    Ok(t)
}

fn known_object(tables: &Tables, object: u32) -> Result<usize, u8> {
    let object = object as usize;
    refuse_unless(object < tables.objects(), refusal::NOT_IN_THE_TABLES)?;
    Ok(object)
}

fn known_mark(mark: u32) -> Result<Mark, u8> {
    match mark {
        0 => Ok(Mark::Read),
        1 => Ok(Mark::Write),
        _ => Err(refusal::NOT_IN_THE_TABLES),
    }
}
