//! The weekly record move, told to the school kitchen in the words of its plan:
//! what became of each class list, and the one thing to do next for each move.

mod plan;
mod text;

pub use plan::Plan;
pub use text::NotRead;

use crate::closing::{closing, outstanding};
use crate::listing::{book_line, left_line, step_word};
use crate::refusal;
use crate::state::Phase;
use crate::{read, Reading};

/// How much is left in all, then a line for each class list and then one for
/// each move, where move i is saga i of the book. If the plan or the book is
/// refused, one line that says so.
pub fn move_lines(plan: &Plan, book: &[u8]) -> Vec<u8> {
    if let Err(number) = plan.judge() {
        return format!("plan refused {number} 0 0\n").into_bytes();
    }
    let reading = read(book);
    if reading.number != refusal::ACCEPTED {
        return book_line(&reading).into_bytes();
    }
    let left = std::iter::once(left_line(&reading).into_bytes());
    let lists = (0..plan.lists.len()).map(|list| list_line(plan, &reading, list));
    let moves = (0..plan.steps.len()).map(|index| move_line(plan, &reading, index));
    left.chain(lists).chain(moves).flatten().collect()
}

fn list_line(plan: &Plan, reading: &Reading, list: usize) -> Vec<u8> {
    let fate = fate(reading, usize::from(plan.lists[list]));
    [b"list ", plan.list_name(list), b" ", fate.as_bytes(), b"\n"].concat()
}

fn move_line(plan: &Plan, reading: &Reading, index: usize) -> Vec<u8> {
    let to_do = to_do(plan, reading, index);
    [b"move ", plan.move_name(index), b": ", &to_do, b"\n"].concat()
}

/// What became of the class lists of a move. A move that the book has no saga
/// for is still open.
fn fate(reading: &Reading, index: usize) -> &'static str {
    let saga = reading.tables.sagas().get(index);
    let phase = saga.map_or(Phase::Idle, |saga| reading.state.phase(saga.whole()));
    let settled = outstanding(reading, index) == 0;
    match phase {
        Phase::Committed => "moved",
        Phase::Active | Phase::Aborted if settled => "put back",
        Phase::Idle | Phase::Active | Phase::Aborted => "still open",
    }
}

/// The closing step of a move in the words of the plan.
fn to_do(plan: &Plan, reading: &Reading, index: usize) -> Vec<u8> {
    let (Some(saga), Some((code, transaction))) =
        (reading.tables.sagas().get(index), closing(reading, index))
    else {
        return b"nothing".to_vec();
    };
    let verb = step_word(code).as_bytes();
    match transaction - saga.whole() {
        0 => [verb, b" the move"].concat(),
        i if i <= saga.steps() => [verb, b" the step ", &step_called(plan, index, i)].concat(),
        i => {
            let step = step_called(plan, index, i - saga.steps());
            [verb, b" the undo of ", &step].concat()
        }
    }
}

/// The plan's name of step i of a move, i from 1; its number if the plan has
/// fewer steps than the book.
fn step_called(plan: &Plan, index: usize, i: usize) -> Vec<u8> {
    match plan.step_name(index, i) {
        Some(name) => name.to_vec(),
        None => format!("step {i}").into_bytes(),
    }
}
