//! The easy wrong turns, none of which is taken.

use crate::books::{Book, READ, WRITE};
use second::{closing, outstanding, report, Phase};

/// A saga of three steps, two of them committed, then aborted.
fn two_steps_to_undo() -> Book {
    Book::new(&[3], 0, 0, &[]).begin(0).done(1).done(2).abort(0)
}

#[test]
fn the_first_undo_does_not_begin_before_the_second_is_committed() {
    let (first_undo, second_undo) = (4, 5);
    let book = two_steps_to_undo();
    book.clone().begin(first_undo).refuses_last(13, 2);
    let begun = book.begin(second_undo);
    begun.clone().begin(first_undo).refuses_last(13, 2);
    assert_eq!(begun.commit(second_undo).begin(first_undo).number(), 0);
}

#[test]
fn ties_made_before_a_delegation_move_too() {
    let tied = Book::begun(3, 1).operate(0, 0, WRITE).operate(1, 0, WRITE);
    assert_eq!(report(&tied.read()).pairs[0], 1 << 1);
    let moved = report(&tied.clone().delegate(0, 2, 0).read());
    assert_eq!((moved.pairs[0], moved.pairs[2]), (0, 1 << 1));
    let later_moved = report(&tied.delegate(1, 2, 1).read());
    assert_eq!(later_moved.pairs[0], 1 << 2);
}

#[test]
fn a_dirty_read_is_not_forgotten_when_the_writer_aborts() {
    let book = Book::begun(2, 1)
        .operate(0, 0, WRITE)
        .operate(1, 0, READ)
        .abort(0);
    assert_eq!(
        report(&book.read()).pairs,
        [0; 64],
        "the order tie is forgotten"
    );
    book.commit(1).refuses_last(15, 2);
}

#[test]
fn the_end_of_a_transaction_ends_what_it_answers_for() {
    let book = Book::begun(2, 1)
        .operate(0, 0, WRITE)
        .operate(0, 0, READ)
        .delegate(0, 1, 0)
        .abort(0);
    let state = book.read().state;
    assert_eq!(state.operation_phase(0), Phase::Active, "delegated before");
    assert_eq!(state.operation_phase(1), Phase::Aborted);
    let state = book.commit(1).read().state;
    assert_eq!(state.operation_phase(0), Phase::Committed);
    assert_eq!(state.operation_phase(1), Phase::Aborted);
}

#[test]
fn an_aborted_saga_is_not_settled_while_steps_are_not_undone() {
    let reading = two_steps_to_undo().read();
    assert_eq!(outstanding(&reading, 0), 4);
    assert_eq!(closing(&reading, 0), Some((1, 5)));
}
