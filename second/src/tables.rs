//! The tables at the beginning of a book: which transactions there are and
//! which dependencies are declared between them.

use crate::fields::{Ceiling, Fields};
use crate::refusal;
use crate::Stop;
use std::ops::RangeInclusive;

/// At most this many transactions stand in a book.
pub const MOST_TRANSACTIONS: usize = 64;
const MOST_SAGAS: usize = 16;
const MOST_STEPS: usize = 16;
/// At most this many objects stand in a book.
pub const MOST_OBJECTS: usize = 32;
const MOST_DEPENDENCIES: usize = 128;

/// The edition that a book is written in.
#[derive(Clone, Copy, Debug, PartialEq, Eq)]
pub enum Edition {
    First,
    /// The one exchanged with the office: its numbers go higher, and each
    /// operation names a pupil record.
    Second,
}

impl Edition {
    fn numbered(number: u32) -> Option<Edition> {
        match number {
            1 => Some(Edition::First),
            2 => Some(Edition::Second),
            _ => None,
        }
    }

    /// How high the fields behind the edition may be.
    pub(crate) fn ceiling(self) -> Ceiling {
        match self {
            Edition::First => Ceiling::OF_EDITION_1,
            Edition::Second => Ceiling::OF_EDITION_2,
        }
    }
}

/// What a transaction is.
#[derive(Clone, Copy, Debug, PartialEq, Eq)]
pub enum Sort {
    /// A transaction that belongs to no saga.
    Plain,
    /// The saga S as a whole.
    Saga { last_step: u8 },
    /// A step of the saga S.
    Step { saga: u8 },
    /// The undo of a step of the saga S.
    Undo { saga: u8, step: u8, last_step: u8 },
}

impl Sort {
    /// Whether it may give and receive operations.
    #[inline]
    pub fn delegates(self) -> bool {
        matches!(self, Sort::Step { .. } | Sort::Plain)
    }
}

/// Where a saga stands among the transactions.
#[derive(Clone, Copy, Debug, PartialEq, Eq)]
pub struct Saga {
    first: u8,
    steps: u8,
}

impl Saga {
    /// The transaction S.
    pub fn whole(self) -> usize {
        usize::from(self.first)
    }

    /// How many steps it has.
    pub fn steps(self) -> usize {
        usize::from(self.steps)
    }

    /// The transaction T(i), i from 1 to the number of steps.
    pub fn step(self, i: usize) -> usize {
        self.whole() + i
    }

    /// The transaction Tn.
    pub fn last_step(self) -> usize {
        self.step(self.steps())
    }

    /// The transaction C(i), i from 1 to the number of steps less one.
    pub fn undo(self, i: usize) -> usize {
        self.last_step() + i
    }
}

/// What a declared dependency asks.
#[derive(Clone, Copy, Debug, PartialEq, Eq, PartialOrd, Ord)]
pub enum Kind {
    Commit,
    Abort,
    WeakAbort,
    Begin,
    Serial,
    BeginOnCommit,
    BeginOnAbort,
}

impl Kind {
    fn numbered(number: u32) -> Option<Kind> {
        Some(match number {
            1 => Kind::Commit,
            2 => Kind::Abort,
            3 => Kind::WeakAbort,
            4 => Kind::Begin,
            5 => Kind::Serial,
            6 => Kind::BeginOnCommit,
            7 => Kind::BeginOnAbort,
            _ => return None,
        })
    }

    /// Kinds 1 to 3 bar a commit, kinds 4 to 7 a begin.
    fn bars_commit(self) -> bool {
        self <= Kind::WeakAbort
    }
}

/// What becomes of tables that can never move: their begin dependencies lead
/// from a transaction back to itself.
#[derive(Clone, Copy, Debug, PartialEq, Eq)]
pub enum NeverMoving {
    /// They are refused.
    Refused,
    /// They are taken: circles are permitted.
    Taken,
}

/// A declared dependency of `dependent` on `base`. Entries are compared by
/// dependent, then base, then kind.
#[derive(Clone, Copy, Debug, PartialEq, Eq, PartialOrd, Ord)]
pub struct Dependency {
    dependent: u8,
    base: u8,
    kind: Kind,
}

impl Dependency {
    pub fn base(self) -> usize {
        usize::from(self.base)
    }

    pub fn kind(self) -> Kind {
        self.kind
    }
}

/// The tables of a book; without any entry if they were refused.
#[derive(Clone, Debug)]
pub struct Tables {
    edition: Edition,
    saga_count: usize,
    sagas: [Saga; MOST_SAGAS],
    transactions: usize,
    sorts: [Sort; MOST_TRANSACTIONS],
    undos: u64,
    objects: usize,
    dependency_count: usize,
    dependencies: [Dependency; MOST_DEPENDENCIES],
    /// Where the dependencies of each transaction begin and end among the entries.
    dependencies_of: [(u8, u8); MOST_TRANSACTIONS],
}

impl Tables {
    /// Tables without any entry.
    pub(crate) const EMPTY: Tables = Tables {
        edition: Edition::First,
        saga_count: 0,
        sagas: [Saga { first: 0, steps: 0 }; MOST_SAGAS],
        transactions: 0,
        sorts: [Sort::Plain; MOST_TRANSACTIONS],
        undos: 0,
        objects: 0,
        dependency_count: 0,
        dependencies: [Dependency {
            dependent: 0,
            base: 0,
            kind: Kind::Commit,
        }; MOST_DEPENDENCIES],
        dependencies_of: [(0, 0); MOST_TRANSACTIONS],
    };

    /// The edition of the book.
    #[inline]
    pub fn edition(&self) -> Edition {
        self.edition
    }

    /// How many transactions there are.
    #[inline]
    pub fn transactions(&self) -> usize {
        self.transactions
    }

    /// How many objects there are.
    #[inline]
    pub fn objects(&self) -> usize {
        self.objects
    }

    /// The sort of a transaction.
    #[inline]
    pub fn sort(&self, transaction: usize) -> Sort {
        self.sorts[transaction]
    }

    /// The undos of all sagas, as bits.
    #[inline]
    pub fn undos(&self) -> u64 {
        self.undos
    }

    /// The sagas by rising number.
    pub fn sagas(&self) -> &[Saga] {
        &self.sagas[..self.saga_count]
    }

    /// The saga that a transaction belongs to; none for a plain one, or one that
    /// is not in the tables.
    #[inline]
    pub(crate) fn saga_owning(&self, transaction: u32) -> Option<Saga> {
        let transaction = transaction as usize;
        let whole = match self.sorts.get(transaction)? {
            Sort::Plain => return None,
            Sort::Saga { .. } => transaction,
            Sort::Step { saga } | Sort::Undo { saga, .. } => usize::from(*saga),
        };
        let mut sagas = self.sagas().iter().copied();
        sagas.find(|saga| saga.whole() == whole)
    }

    /// The declared dependencies of one transaction on others.
    #[inline]
    pub fn dependencies_of(&self, dependent: usize) -> &[Dependency] {
        let (begin, end) = self.dependencies_of[dependent];
        &self.dependencies[usize::from(begin)..usize::from(end)]
    }

    /// Reads tables that are empty so far up to the first event. Refused
    /// tables are empty again.
    pub(crate) fn read(
        &mut self,
        fields: &mut impl Fields,
        never_moving: NeverMoving,
    ) -> Result<(), Stop> {
        let outcome = self.read_entries(fields, never_moving);
        if outcome.is_err() {
            *self = Tables::EMPTY;
        }
        outcome
    }

    fn read_entries(
        &mut self,
        fields: &mut impl Fields,
        never_moving: NeverMoving,
    ) -> Result<(), Stop> {
        self.edition = read_edition(fields)?;
        fields.raise_to(self.edition.ceiling());
        for _ in 0..read_count(fields, 0..=MOST_SAGAS)? {
            self.read_saga(fields)?;
        }
        self.read_plain_transactions(fields)?;
        self.objects = read_count(fields, 0..=MOST_OBJECTS)?;
        let dependency_count = fields.place();
        for _ in 0..read_count(fields, 0..=MOST_DEPENDENCIES)? {
            self.read_dependency(fields)?;
        }
        if never_moving == NeverMoving::Refused && self.can_never_move() {
            return Err(Stop {
                number: refusal::NEVER_MOVES,
                place: dependency_count,
            });
        }
        Ok(())
    }

    /// Whether begin dependencies lead from some transaction back to itself.
    /// The transactions that wait for none of those left are let go, over and
    /// over; who is left in the end waits in a ring, or for one.
    fn can_never_move(&self) -> bool {
        let mut left = u64::MAX;
        loop {
            let waiting = self.waiting_for_one_of(left);
            if waiting == left {
                return left != 0;
            }
            left = waiting;
        }
    }

    /// Those of these transactions with a begin dependency on another of them,
    /// as bits.
    fn waiting_for_one_of(&self, transactions: u64) -> u64 {
        let entries = &self.dependencies[..self.dependency_count];
        entries
            .iter()
            .filter(|entry| !entry.kind.bars_commit())
            .filter(|entry| transactions >> entry.dependent & 1 == 1)
            .filter(|entry| transactions >> entry.base & 1 == 1)
            .fold(0, |waiting, entry| waiting | 1 << entry.dependent)
    }

    fn read_saga(&mut self, fields: &mut impl Fields) -> Result<(), Stop> {
        let place = fields.place();
        let steps = read_count(fields, 1..=MOST_STEPS)?;
        let saga = Saga {
            first: self.transactions as u8,
            steps: steps as u8,
        };
        self.take_in_transactions(2 * steps, place)?;
        self.sagas[self.saga_count] = saga;
        self.saga_count += 1;

        let whole = saga.first;
        let last_step = saga.last_step() as u8;
        self.sorts[saga.whole()] = Sort::Saga { last_step };
        for i in 1..=steps {
            self.sorts[saga.step(i)] = Sort::Step { saga: whole };
        }
        for i in 1..steps {
            self.sorts[saga.undo(i)] = Sort::Undo {
                saga: whole,
                step: saga.step(i) as u8,
                last_step,
            };
            self.undos |= 1 << saga.undo(i);
        }
        Ok(())
    }

    fn read_plain_transactions(&mut self, fields: &mut impl Fields) -> Result<(), Stop> {
        let place = fields.place();
        let plain = read_count(fields, 0..=MOST_TRANSACTIONS)?;
        self.take_in_transactions(plain, place)
    }

    /// Counts further transactions in; `place` is the field that asks for them.
    fn take_in_transactions(&mut self, further: usize, place: usize) -> Result<(), Stop> {
        if self.transactions + further > MOST_TRANSACTIONS {
            return Err(Stop {
                number: refusal::BAD_COUNT,
                place,
            });
        }
        self.transactions += further;
        Ok(())
    }

    fn read_dependency(&mut self, fields: &mut impl Fields) -> Result<(), Stop> {
        let place = fields.place();
        let dependent = read_field(fields)?;
        let base = read_field(fields)?;
        let kind = read_field(fields)?;
        let Some(entry) = self.allowed_dependency(dependent, base, kind) else {
            return Err(Stop {
                number: refusal::BAD_DEPENDENCY,
                place,
            });
        };
        let index = self.dependency_count;
        let (begin, end) = &mut self.dependencies_of[usize::from(entry.dependent)];
        if *begin == *end {
            *begin = index as u8;
        }
        *end = index as u8 + 1;
        self.dependencies[index] = entry;
        self.dependency_count += 1;
        Ok(())
    }

    /// The entry, if it may stand after those read so far.
    fn allowed_dependency(&self, dependent: u32, base: u32, kind: u32) -> Option<Dependency> {
        let known = |number: u32| ((number as usize) < self.transactions).then_some(number as u8);
        let entry = Dependency {
            dependent: known(dependent)?,
            base: known(base)?,
            kind: Kind::numbered(kind)?,
        };
        let base_allowed = matches!(self.sort(entry.base()), Sort::Plain | Sort::Saga { .. });
        let dependent_allowed = match self.sort(usize::from(entry.dependent)) {
            Sort::Plain => true,
            Sort::Saga { .. } => !entry.kind.bars_commit(),
            Sort::Step { .. } | Sort::Undo { .. } => false,
        };
        let rising = match self.dependencies[..self.dependency_count].last() {
            Some(before) => *before < entry,
            None => true,
        };
        let allowed = entry.dependent != entry.base && base_allowed && dependent_allowed && rising;
        allowed.then_some(entry)
    }
}

fn read_edition(fields: &mut impl Fields) -> Result<Edition, Stop> {
    let place = fields.place();
    Edition::numbered(read_field(fields)?).ok_or(Stop {
        number: refusal::BAD_EDITION,
        place,
    })
}

fn read_count(fields: &mut impl Fields, range: RangeInclusive<usize>) -> Result<usize, Stop> {
    let place = fields.place();
    let count = read_field(fields)? as usize;
    if !range.contains(&count) {
        return Err(Stop {
            number: refusal::BAD_COUNT,
            place,
        });
    }
    Ok(count)
}

/// One field, or refusal 2 or 3 at that field.
#[inline]
pub fn read_field(fields: &mut impl Fields) -> Result<u32, Stop> {
    fields.next().map_err(|number| Stop {
        number,
        place: fields.place(),
    })
}
