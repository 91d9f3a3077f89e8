//! Ties between operations, rings and dirty reads.

use crate::books::{pairs, Book, READ, WRITE};

#[test]
fn only_conflicting_operations_on_one_object_are_tied() {
    let book = Book::begun(3, 2)
        .operate(0, 0, READ)
        .operate(1, 0, READ)
        .operate(2, 1, WRITE);
    assert_eq!(pairs(&book), []);
    assert_eq!(pairs(&book.operate(2, 0, WRITE)), [(0, 2), (1, 2)]);
}

#[test]
fn a_committed_operation_is_tied_to_later_ones_and_an_aborted_one_is_not() {
    let written = Book::begun(2, 1).operate(0, 0, WRITE);
    for mark in [READ, WRITE] {
        let committed = written.clone().commit(0).operate(1, 0, mark);
        assert_eq!(pairs(&committed), [(0, 1)]);
        assert_eq!(committed.commit(1).number(), 0, "that bars nobody");
        let aborted = written.clone().abort(0).operate(1, 0, mark);
        assert_eq!(pairs(&aborted), []);
        assert_eq!(aborted.commit(1).number(), 0);
    }
    let read = Book::begun(2, 1).operate(0, 0, READ).commit(0);
    assert_eq!(pairs(&read.clone().operate(1, 0, READ)), []);
    assert_eq!(pairs(&read.operate(1, 0, WRITE)), [(0, 1)]);
}

#[test]
fn neither_could_have_come_first() {
    // 0 reads a; 1 writes a, writes b and commits; 0 reads b and would commit.
    let book = Book::begun(2, 2)
        .operate(0, 0, READ)
        .operate(1, 0, WRITE)
        .operate(1, 1, WRITE)
        .commit(1)
        .operate(0, 1, READ);
    assert_eq!(pairs(&book), [(0, 1), (1, 0)]);
    book.clone().commit(0).refuses_last(16, 2);
    book.clone().commit_operation(0, 3).refuses_last(16, 3);
    assert_eq!(book.clone().abort_operation(0, 3).commit(0).number(), 0);
    assert_eq!(book.abort(0).number(), 0);
}

#[test]
fn a_ring_closed_by_ties_to_committed_operations_alone() {
    // 0 before 1 before 2 before 0, each of them tied to one that had ended.
    let book = Book::begun(3, 3)
        .operate(0, 0, READ)
        .commit_operation(0, 0)
        .operate(1, 0, WRITE)
        .operate(1, 1, WRITE)
        .commit(1)
        .operate(2, 1, READ)
        .operate(2, 2, WRITE)
        .commit(2)
        .operate(0, 2, READ);
    assert_eq!(pairs(&book), [(0, 1), (1, 2), (2, 0)]);
    book.commit(0).refuses_last(16, 2);
}

#[test]
fn ties_last_over_a_commit_and_end_with_an_abort() {
    let book = Book::begun(2, 1).operate(0, 0, WRITE).operate(1, 0, WRITE);
    assert_eq!(pairs(&book.clone().commit(0)), [(0, 1)]);
    assert_eq!(pairs(&book.clone().commit(0).commit(1)), [(0, 1)]);
    assert_eq!(pairs(&book.clone().abort(0)), []);
    assert_eq!(pairs(&book.abort(1)), []);
}

#[test]
fn a_transaction_does_not_stand_before_itself() {
    let own = Book::begun(2, 1).operate(0, 0, WRITE).operate(0, 0, READ);
    assert_eq!(pairs(&own), []);
    let parted = own.delegate(0, 1, 1);
    assert_eq!(pairs(&parted), [(0, 1)], "the tie was there all the time");
    assert_eq!(pairs(&parted.clone().delegate(1, 0, 1)), []);
    parted.commit(1).refuses_last(15, 2);
}

#[test]
fn a_read_after_own_and_foreign_operations() {
    let book = Book::begun(3, 1)
        .operate(0, 0, READ)
        .operate(1, 0, WRITE)
        .operate(0, 0, READ)
        .operate(2, 0, READ);
    assert_eq!(pairs(&book), [(0, 1), (1, 0), (1, 2)]);
}

#[test]
fn a_ring_of_three() {
    let book = Book::begun(4, 3)
        .operate(0, 0, WRITE)
        .operate(1, 1, WRITE)
        .operate(2, 2, WRITE)
        .operate(1, 0, WRITE)
        .operate(2, 1, WRITE)
        .operate(0, 2, WRITE)
        .operate(3, 0, WRITE);
    for t in 0..3 {
        book.clone().commit(t).refuses_last(16, 2);
    }
    assert_eq!(
        book.clone().commit(3).number(),
        0,
        "reached, not on the ring"
    );
    assert_eq!(book.abort(2).commit(0).commit(1).number(), 0);
}

#[test]
fn a_ring_goes_through_committed_transactions() {
    // 1 commits while its later tie is 2's; 2 then hands that tie back to 0.
    let book = Book::begun(3, 2)
        .operate(0, 0, WRITE)
        .operate(1, 0, WRITE)
        .operate(1, 1, WRITE)
        .operate(0, 1, WRITE);
    let handed_on = book.delegate(0, 2, 3);
    assert_eq!(pairs(&handed_on), [(0, 1), (1, 2)]);
    let committed = handed_on.commit(1);
    assert_eq!(pairs(&committed), [(0, 1), (1, 2)]);
    let closed = committed.delegate(2, 0, 3);
    assert_eq!(pairs(&closed), [(0, 1), (1, 0)]);
    closed.commit(0).refuses_last(16, 2);
}

#[test]
fn a_ring_is_followed_from_transaction_to_transaction() {
    // 0 before 1 on one object, 1 before 0 on another: no chain of operations.
    let book = Book::begun(2, 2)
        .operate(1, 1, WRITE)
        .operate(0, 0, WRITE)
        .operate(1, 0, WRITE)
        .operate(0, 1, WRITE);
    book.commit(0).refuses_last(16, 2);
}

#[test]
fn a_delegated_read_frees_the_reader_and_binds_the_receiver() {
    let book = Book::begun(3, 1)
        .operate(0, 0, WRITE)
        .operate(1, 0, READ)
        .delegate(1, 2, 1);
    assert_eq!(book.clone().commit(1).number(), 0);
    book.clone().commit(2).refuses_last(15, 2);
    assert_eq!(book.commit(0).commit(2).number(), 0);
}

#[test]
fn an_aborted_write_bars_its_reader_for_good() {
    let book = Book::begun(3, 1)
        .operate(0, 0, WRITE)
        .operate(1, 0, READ)
        .delegate(0, 2, 0)
        .abort(2);
    book.clone().commit(1).refuses_last(15, 2);
    assert_eq!(book.clone().commit(0).number(), 0);
    book.commit(0).commit(1).refuses_last(15, 2);
}

#[test]
fn a_read_after_the_abort_is_clean() {
    let book = Book::begun(3, 1)
        .operate(0, 0, WRITE)
        .operate(2, 0, WRITE)
        .abort(0)
        .operate(1, 0, READ);
    book.clone().commit(1).refuses_last(15, 2);
    assert_eq!(book.commit(2).commit(1).number(), 0);
}

#[test]
fn each_suspect_write_is_looked_at() {
    let book = Book::begun(4, 1)
        .operate(0, 0, WRITE)
        .abort(0)
        .operate(1, 0, READ)
        .operate(2, 0, WRITE)
        .operate(3, 0, WRITE)
        .commit(2)
        .operate(1, 0, READ);
    book.clone().commit(1).refuses_last(15, 2);
    let settled = book.commit(3).commit(1);
    assert_eq!(
        settled.number(),
        16,
        "1 read before 2 wrote and after 3 did"
    );
}
