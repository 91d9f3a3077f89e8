//! Long walks through events drawn at random, on which the order of the
//! transactions is worked out again from the list of operations.

use crate::books::Book;
use crate::chance::Chance;
use second::{report, Event, Mark, Phase, Reading, Sort};
use std::collections::HashMap;

const OBJECTS: usize = 6;

/// S 0, steps 1 to 3, undos 4 and 5; S 6, steps 7 and 8, undo 9; plain 10 to
/// 49. Both sagas are aborted and an undo of each is active.
fn two_sagas_being_undone() -> Reading {
    Book::new(&[3, 2], 40, OBJECTS as u8, &[])
        .begin(0)
        .done(1)
        .done(2)
        .begin(6)
        .done(7)
        .abort(0)
        .abort(6)
        .begin(5)
        .begin(9)
        .read()
}

/// Any transaction, mostly an active one.
fn draw_transaction(chance: &mut Chance, reading: &Reading) -> u32 {
    let active = reading.state.active();
    let acting: Vec<u32> = (0..64).filter(|t| active >> t & 1 == 1).collect();
    match chance.below(5) {
        0 => chance.field(reading.tables.transactions()),
        _ => acting
            .get(chance.below(acting.len().max(1)))
            .copied()
            .unwrap_or(0),
    }
}

/// Any event, most often an operation or a delegation, and the more often about
/// helpers the more of those are wanted. Undos take their time.
fn draw(chance: &mut Chance, reading: &Reading, helpers: usize) -> Event {
    let transaction = draw_transaction(chance, reading);
    let is_undo = active_undos(reading).any(|undo| undo == transaction as usize);
    match chance.below(20 + helpers) {
        0..=2 => Event::Begin {
            transaction: chance.field(reading.tables.transactions()),
        },
        20.. if chance.below(3) > 0 => Event::Spawn {
            parent: transaction,
            child: chance.field(reading.tables.transactions()),
        },
        20.. if !is_undo && reading.state.operations() > 60 => Event::Commit { transaction },
        3 if chance.below(if is_undo { 60 } else { 2 }) == 0 => Event::Commit { transaction },
        4 if chance.below(4) == 0 => Event::Abort { transaction },
        5..=11 if reading.state.operations() > 0 => draw_of_one_operation(chance, reading),
        _ => Event::Operation {
            transaction,
            object: chance.field(OBJECTS),
            mark: chance.field(2),
        },
    }
}

/// The delegation, commit or abort of some operation by the one that answers
/// for it.
fn draw_of_one_operation(chance: &mut Chance, reading: &Reading) -> Event {
    let operation = chance.field(reading.state.operations());
    let transaction = reading.state.responsible(operation as usize) as u32;
    match chance.below(9) {
        0..=2 => Event::CommitOperation {
            transaction,
            operation,
        },
        3 => Event::AbortOperation {
            transaction,
            operation,
        },
        _ => Event::Delegate {
            giver: transaction,
            receiver: draw_transaction(chance, reading),
            operation,
        },
    }
}

/// What counts of an operation for the order.
struct Done {
    by: usize,
    object: usize,
    writes: bool,
}

/// All operations that aren't aborted, by rising number, with their numbers.
fn done(reading: &Reading) -> Vec<(usize, Done)> {
    let state = &reading.state;
    let counts = |operation: &usize| state.operation_phase(*operation) != Phase::Aborted;
    let all = (0..state.operations()).filter(counts);
    all.map(|operation| {
        let done = Done {
            by: state.responsible(operation),
            object: state.object(operation),
            writes: state.mark(operation) == Mark::Write,
        };
        (operation, done)
    })
    .collect()
}

/// Bit b of row a: a stands before b.
fn order<'a>(operations: impl Iterator<Item = &'a Done> + Clone) -> [u64; 64] {
    let mut rows = [0; 64];
    for (index, later) in operations.clone().enumerate() {
        for earlier in operations.clone().take(index) {
            let conflict = earlier.object == later.object && (earlier.writes || later.writes);
            if conflict && earlier.by != later.by {
                rows[earlier.by] |= 1 << later.by;
            }
        }
    }
    rows
}

/// The active undos that the order leads back to.
fn undos_on_a_ring(reading: &Reading, mut rows: [u64; 64]) -> Vec<usize> {
    for through in 0..64 {
        for from in 0..64 {
            if rows[from] >> through & 1 == 1 {
                rows[from] |= rows[through];
            }
        }
    }
    let undos = active_undos(reading);
    undos.filter(|undo| rows[*undo] >> undo & 1 == 1).collect()
}

fn active_undos(reading: &Reading) -> impl Iterator<Item = usize> + '_ {
    (0..reading.tables.transactions()).filter(|t| {
        let is_undo = matches!(reading.tables.sort(*t), Sort::Undo { .. });
        is_undo && reading.state.phase(*t) == Phase::Active
    })
}

/// For each helper, the transaction it was spawned under.
type Parents = HashMap<usize, usize>;

/// Whether the event, taken in, would put an active undo on a ring.
fn would_bar_an_undo(reading: &Reading, parents: &Parents, event: Event) -> bool {
    let mut all = done(reading);
    match event {
        Event::Operation {
            transaction,
            object,
            mark,
        } => all.push((
            all.len(),
            Done {
                by: transaction as usize,
                object: object as usize,
                writes: mark == 1,
            },
        )),
        Event::Delegate {
            receiver,
            operation,
            ..
        } => {
            let handed = operation as usize;
            if reading.state.operation_phase(handed) == Phase::Active {
                for (_, done) in all.iter_mut().filter(|(number, _)| *number == handed) {
                    done.by = receiver as usize;
                }
            }
        }
        Event::Commit { transaction } => {
            let child = transaction as usize;
            let Some(parent) = parents.get(&child) else {
                return false;
            };
            let is_active = |q: usize| reading.state.operation_phase(q) == Phase::Active;
            for (_, done) in all.iter_mut().filter(|(number, _)| is_active(*number)) {
                if done.by == child {
                    done.by = *parent;
                }
            }
        }
        _ => return false,
    }
    let rows = order(all.iter().map(|(_, done)| done));
    !undos_on_a_ring(reading, rows).is_empty()
}

/// How often 22 came up, by what.
#[derive(Default)]
struct Came {
    operation: usize,
    own_operation: usize,
    operation_257: usize,
    delegation: usize,
    commit: usize,
}

impl Came {
    fn count(&mut self, reading: &Reading, event: Event) {
        match event {
            Event::Operation { transaction, .. } => {
                let mut undos = active_undos(reading);
                let own = undos.any(|undo| undo == transaction as usize);
                self.operation += usize::from(!own);
                self.own_operation += usize::from(own);
                self.operation_257 += usize::from(reading.state.operations() == 256);
            }
            Event::Commit { .. } => self.commit += 1,
            _ => self.delegation += 1,
        }
    }
}

/// What an accepted state promises: the pairs are the order, no active undo is
/// on a ring, and the commit of each is accepted.
fn holds_its_promises(reading: &Reading) {
    let rows = order(done(reading).iter().map(|(_, done)| done));
    assert_eq!(report(reading).pairs, rows);
    assert_eq!(undos_on_a_ring(reading, rows), [0; 0]);
    for undo in active_undos(reading) {
        let transaction = undo as u32;
        let commit = Event::Commit { transaction };
        let mut state = reading.state.clone();
        assert_eq!(state.offer(&reading.tables, commit), Ok(()));
    }
}

/// No operation was ever committed under a helper.
fn helpers_have_committed_nothing(reading: &Reading, parents: &Parents) {
    let state = &reading.state;
    for operation in 0..state.operations() {
        let by_helper = parents.contains_key(&state.responsible(operation));
        assert!(!by_helper || state.operation_phase(operation) != Phase::Committed);
    }
}

fn walk(seed: u64, events: usize, helpers: usize, came: &mut Came) {
    let chance = &mut Chance::new(seed);
    let mut reading = two_sagas_being_undone();
    let mut parents = Parents::new();
    for _ in 0..events {
        let event = draw(chance, &reading, helpers);
        let barred = would_bar_an_undo(&reading, &parents, event);
        let before = reading.clone();
        match reading.state.offer(&reading.tables, event) {
            Ok(()) => {
                assert!(!barred, "{event:?}");
                if let Event::Spawn { parent, child } = event {
                    parents.insert(child as usize, parent as usize);
                }
                holds_its_promises(&reading);
                helpers_have_committed_nothing(&reading, &parents);
            }
            Err(22) => {
                assert!(barred, "{event:?}");
                came.count(&before, event);
                holds_its_promises(&reading);
            }
            Err(18) => assert!(!barred, "{event:?}"),
            Err(_) => {}
        }
    }
}

#[test]
fn an_active_undo_is_never_on_a_ring_and_always_commits() {
    let mut came = Came::default();
    for seed in 0..100 {
        walk(seed, 250, 0, &mut came);
    }
    for seed in 0..300 {
        walk(2000 + seed, 250, 6, &mut came);
    }
    for seed in 0..10 {
        walk(1000 + seed, 2_000, 0, &mut came);
    }
    let counts = [
        came.operation,
        came.own_operation,
        came.operation_257,
        came.delegation,
        came.commit,
    ];
    assert!(counts.iter().all(|count| *count >= 5), "{counts:?}");
}
