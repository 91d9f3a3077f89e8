//! Points the rules leave open, as they were decided. Those about ties are
//! with the ties.

use crate::books::{answer, handed_to_and_fro, Book, LISTED, READ, WRITE};
use second::{closing, listing, outstanding, read, report, write};

#[test]
fn a_settled_saga_has_no_closing_step() {
    let committed = Book::new(&[2], 0, 0, &[]);
    let committed = committed.begin(0).done(1).done(2).commit(0).read();
    assert_eq!(outstanding(&committed, 0), 0);
    assert_eq!(closing(&committed, 0), None);
}

#[test]
fn a_number_has_at_most_three_groups_even_at_the_end() {
    assert_eq!(answer(&[0x80]), (2, 0, 0));
    assert_eq!(answer(&[0x80, 0x80]), (2, 0, 0));
    assert_eq!(answer(&[0x80, 0x80, 0x80]), (3, 0, 0));
}

#[test]
fn a_delegation_is_not_barred_by_sagas_dependencies_or_dirty_reads() {
    let book = Book::new(&[1], 2, 1, &[[2, 3, 2]])
        .begin(0)
        .begin(1)
        .begin(2)
        .begin(3)
        .operate(2, 0, WRITE)
        .operate(1, 0, READ)
        .abort(0);
    assert_eq!(book.clone().delegate(2, 1, 0).number(), 0);
    assert_eq!(book.delegate(1, 3, 1).number(), 0);
}

#[test]
fn writing_counts_the_bytes_of_all_fields_first() {
    let bad_edition = vec![9; 65_537];
    let refused = write(&bad_edition, &mut []).unwrap_err();
    assert_eq!((refused.number, refused.events, refused.place), (1, 0, 0));
    let three_bytes_each = vec![65_535; 21_846];
    assert_eq!(write(&three_bytes_each, &mut []).unwrap_err().number, 1);
    let just_fits = &three_bytes_each[..21_845];
    assert_eq!(write(just_fits, &mut []).unwrap_err().number, 4);
}

#[test]
fn a_missing_field_is_at_the_end_of_the_book() {
    let object_of_two_bytes = [4, 0, 0x80, 0x01];
    let longest = handed_to_and_fro(16_379).then(&object_of_two_bytes);
    assert_eq!(longest.0.len(), 65_536);
    assert_eq!(answer(&longest.0), (2, 16_383, 65_536));
}

#[test]
fn an_unknown_event_code_is_judged_at_once() {
    Book(LISTED.to_vec()).then(&[11]).refuses_last(7, 1);
}

#[test]
fn transactions_are_summed_up_as_they_come() {
    assert_eq!(answer(&[0x01, 0x03, 0x10, 0x10, 0x01]), (5, 0, 4));
}

#[test]
fn a_bad_mark_is_judged_with_the_whole_event() {
    Book::begun(1, 1).operate(0, 0, 2).refuses_last(8, 4);
    let torn = Book::begun(1, 1).then(&[4, 9, 9]);
    assert_eq!(answer(&torn.0), (2, 1, torn.0.len()));
}

#[test]
fn delegation_by_the_wrong_sort_whatever_the_states() {
    // S 0, steps 1 and 2, undo 3, plain 4 with an operation.
    let book = Book::new(&[2], 1, 1, &[]).begin(4).operate(4, 0, READ);
    for (giver, receiver) in [(0, 4), (4, 0), (3, 4), (4, 3), (0, 3), (1, 1), (4, 4)] {
        book.clone().delegate(giver, receiver, 0).refuses_last(9, 4);
    }
    book.delegate(4, 1, 0).refuses_last(11, 4);
}

#[test]
fn an_undo_waits_for_whoever_answers_now() {
    // S 0, steps 1 and 2, undo 3, plain 4 and 5.
    let book = Book::new(&[2], 2, 1, &[])
        .begin(0)
        .done(1)
        .begin(4)
        .begin(5)
        .operate(4, 0, WRITE)
        .delegate(4, 5, 0)
        .commit(4)
        .abort(0)
        .begin(3);
    book.clone().operate(3, 0, READ).refuses_last(17, 4);
    assert_eq!(book.commit(5).operate(3, 0, READ).number(), 0);
}

#[test]
fn a_step_of_an_aborted_saga_goes_on_but_cannot_commit() {
    let book = Book::new(&[1], 1, 1, &[])
        .begin(0)
        .begin(1)
        .begin(2)
        .abort(0)
        .operate(1, 0, WRITE)
        .delegate(1, 2, 0)
        .delegate(2, 1, 0);
    assert_eq!(book.number(), 0);
    book.clone().commit(1).refuses_last(13, 2);
    assert_eq!(book.abort(1).number(), 0);
}

#[test]
fn an_undo_that_read_and_wrote_commits() {
    let book = Book::new(&[2], 1, 1, &[])
        .begin(0)
        .done(1)
        .abort(0)
        .begin(3)
        .operate(3, 0, WRITE)
        .begin(4)
        .operate(4, 0, READ)
        .commit(3);
    assert_eq!(book.number(), 0);
    assert_eq!(book.commit(4).number(), 0);
}

#[test]
fn an_accepted_book_returns_its_number_of_events() {
    assert_eq!(answer(&LISTED), (0, 7, 0));
    let too_small = second::unpack(&LISTED, &mut []).unwrap_err();
    let answer = (too_small.number, too_small.events, too_small.place);
    assert_eq!(answer, (19, 7, 0));
}

#[test]
fn the_report_of_refused_tables_is_empty() {
    let refused = report(&read(&[1, 0, 65]));
    assert_eq!((refused.active, refused.lowest), (0, 64));
    assert_eq!(refused.pairs, [0; 64]);
}

#[test]
fn a_refusal_among_the_events_is_listed_with_the_state_before_it() {
    let book = Book::new(&[1], 0, 0, &[]).begin(0).then(&[9]);
    let expected = "book refused 7 1 8\nt 0 active\nt 1 idle\nsaga 0 1 abort 0\n";
    assert_eq!(listing(&book.0), expected);
}
