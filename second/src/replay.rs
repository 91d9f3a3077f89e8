//! The order in which the diet office copies the committed changes into its own
//! system, one transaction at a time.
//!
//! It is worked out from the list of operations by its description, whenever it
//! is asked for; nothing is kept for it from event to event.

use crate::state::{Mark, Phase, State};
use crate::tables::MOST_TRANSACTIONS;
use crate::{read, Reading, Refused};

/// For each ordered pair of transactions, whether a tie leads from a committed
/// operation of the first to a committed one of the second.
type Ties = [[bool; MOST_TRANSACTIONS]; MOST_TRANSACTIONS];

/// All transactions that hold a committed operation, whatever became of
/// themselves, each once. Every tie between committed operations of two of them
/// points forward, and of those that could come next the lowest number does.
pub fn replay_order(reading: &Reading) -> Vec<usize> {
    let ties = ties(&reading.state);
    let mut waiting = holders(&reading.state);
    let mut order = Vec::new();
    while let Some(next) = next_of(&waiting, &ties) {
        waiting.retain(|t| *t != next);
        order.push(next);
    }
    order
}

/// Puts the order to replay in into the lent list and says how many it names. If
/// the list is too short it is left untouched.
pub fn replay(book: &[u8], list: &mut [u16]) -> Result<usize, Refused> {
    let reading = read(book);
    let order = replay_order(&reading);
    if list.len() < order.len() {
        return Err(reading.room_too_small());
    }
    for (place, t) in list.iter_mut().zip(&order) {
        *place = *t as u16;
    }
    Ok(order.len())
}

/// The line that names an order to replay in; the word alone if it is empty.
pub fn replay_line(order: impl IntoIterator<Item = usize>) -> String {
    let numbers: String = order.into_iter().map(|t| format!(" {t}")).collect();
    format!("replay{numbers}\n")
}

/// The lowest of those that wait which no tie leads to from another of them.
fn next_of(waiting: &[usize], ties: &Ties) -> Option<usize> {
    let mut rising = waiting.iter().copied();
    rising.find(|t| !waiting.iter().any(|other| ties[*other][*t]))
}

/// The transactions that hold a committed operation, by rising number.
fn holders(state: &State) -> Vec<usize> {
    let committed = committed_operations(state);
    let holds = |t: &usize| committed.iter().any(|q| state.responsible(*q) == *t);
    (0..MOST_TRANSACTIONS).filter(holds).collect()
}

/// The ties between committed operations of two transactions. Neither of the two
/// operations was ever aborted, so they are tied if they conflict.
fn ties(state: &State) -> Ties {
    let mut ties = [[false; MOST_TRANSACTIONS]; MOST_TRANSACTIONS];
    let committed = committed_operations(state);
    for q in &committed {
        for p in committed.iter().filter(|p| *p < q) {
            let (first, second) = (state.responsible(*p), state.responsible(*q));
            if first != second && conflict(state, *p, *q) {
                ties[first][second] = true;
            }
        }
    }
    ties
}

/// The committed operations, by rising number.
fn committed_operations(state: &State) -> Vec<usize> {
    let is_committed = |q: &usize| state.operation_phase(*q) == Phase::Committed;
    (0..state.operations()).filter(is_committed).collect()
}

/// Whether two operations are on the same object and one of them is a write.
fn conflict(state: &State, p: usize, q: usize) -> bool {
    let writes = |operation: usize| state.mark(operation) == Mark::Write;
    state.object(p) == state.object(q) && (writes(p) || writes(q))
}
