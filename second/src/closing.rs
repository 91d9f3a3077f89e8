//! What a saga still owes, and the step that brings it nearer to its end.

use crate::event::{ABORT, BEGIN, COMMIT};
use crate::state::{Phase, State};
use crate::tables::Saga;
use crate::Reading;

/// The outstanding number of a saga; 0 for an index that is no saga.
pub fn outstanding(reading: &Reading, saga: usize) -> usize {
    match reading.tables.sagas().get(saga) {
        Some(saga) => owed(&reading.state, *saga),
        None => 0,
    }
}

/// The closing step of a saga as event code and transaction; none if nothing
/// is outstanding, or for an index that is no saga.
pub fn closing(reading: &Reading, saga: usize) -> Option<(u8, usize)> {
    let saga = *reading.tables.sagas().get(saga)?;
    let state = &reading.state;
    match state.phase(saga.whole()) {
        Phase::Idle | Phase::Committed => None,
        Phase::Active if state.is_committed(saga.last_step()) => Some((COMMIT, saga.whole())),
        Phase::Active => Some((ABORT, saga.whole())),
        Phase::Aborted => match active_step(state, saga) {
            Some(step) => Some((ABORT, step)),
            None => next_undoing(state, saga),
        },
    }
}

/// The outstanding number of a saga.
pub(crate) fn owed(state: &State, saga: Saga) -> usize {
    match state.phase(saga.whole()) {
        Phase::Idle | Phase::Committed => 0,
        Phase::Active if state.is_committed(saga.last_step()) => 1,
        Phase::Active => 1 + owed_by_steps(state, saga),
        Phase::Aborted => owed_by_steps(state, saga),
    }
}

/// One for an active step, and for each committed one what its undo still needs.
fn owed_by_steps(state: &State, saga: Saga) -> usize {
    let to_undo: usize = committed_steps_with_undo(state, saga)
        .map(|i| match state.phase(saga.undo(i)) {
            Phase::Idle | Phase::Aborted => 2,
            Phase::Active => 1,
            Phase::Committed => 0,
        })
        .sum();
    usize::from(active_step(state, saga).is_some()) + to_undo
}

fn active_step(state: &State, saga: Saga) -> Option<usize> {
    (1..=saga.steps())
        .rev()
        .map(|i| saga.step(i))
        .find(|step| state.is_active(*step))
}

/// Begin or commit of the undo that comes next: that of the highest committed
/// step which isn't undone.
fn next_undoing(state: &State, saga: Saga) -> Option<(u8, usize)> {
    let undo = committed_steps_with_undo(state, saga)
        .map(|i| saga.undo(i))
        .find(|undo| !state.is_committed(*undo))?;
    let code = if state.is_active(undo) { COMMIT } else { BEGIN };
    Some((code, undo))
}

/// The indexes i of the committed steps T(i) that have an undo C(i), falling.
fn committed_steps_with_undo(state: &State, saga: Saga) -> impl Iterator<Item = usize> + '_ {
    (1..saga.steps())
        .rev()
        .filter(move |i| state.is_committed(saga.step(*i)))
}
