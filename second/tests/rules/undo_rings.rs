//! Refusal 22: no operation and no delegation puts an active undo on a ring,
//! so that an undo can always commit.

use crate::books::{pairs, Book, READ, WRITE};

/// The objects: three lists, and one nobody has touched so far.
const A: u8 = 0;
const B: u8 = 1;
const C: u8 = 2;
const D: u8 = 3;

/// S 0, steps 1 and 2, undo 3, plain 4 to 8. The undo may begin.
fn to_undo() -> Book {
    Book::new(&[2], 5, 4, &[]).begin(0).done(1).abort(0)
}

/// Plain 4 stands before 5, which is committed and stands before the active
/// undo 3. Operation 3 is the undo's read, 4 its write of c; others go on from 5.
fn undo_after_4() -> Book {
    to_undo()
        .begin(4)
        .begin(5)
        .operate(4, A, READ)
        .operate(5, A, WRITE)
        .operate(5, B, WRITE)
        .commit(5)
        .begin(3)
        .operate(3, B, READ)
        .operate(3, C, WRITE)
}

/// The undo 3 writes a, then plain 4 writes a and b and is still active.
fn clerk_after_undo() -> Book {
    to_undo()
        .begin(3)
        .operate(3, A, WRITE)
        .begin(4)
        .operate(4, A, WRITE)
        .operate(4, B, WRITE)
}

/// Fills a book that has so many operations up to 256 with reads of 4 on an
/// object that nobody writes.
fn filled_up(book: Book, operations: usize) -> Book {
    (operations..256).fold(book, |book, _| book.operate(4, D, READ))
}

#[track_caller]
fn accepts(book: Book) -> Book {
    assert_eq!(book.number(), 0);
    book
}

#[test]
fn by_an_operation() {
    let book = undo_after_4();
    assert_eq!(pairs(&book), [(4, 5), (5, 3)]);
    book.clone().operate(4, C, WRITE).refuses_last(22, 4);
    book.clone().operate(4, C, READ).refuses_last(22, 4);
    accepts(book.clone().operate(4, B, READ));
    accepts(book.clone().operate(4, D, WRITE));
    accepts(book.commit(3));
}

#[test]
fn by_a_delegation() {
    let book = undo_after_4().begin(6);
    let written = accepts(book.operate(6, C, WRITE));
    written.clone().delegate(6, 4, 5).refuses_last(22, 4);
    let elsewhere = accepts(written.clone().begin(7).delegate(6, 7, 5));
    elsewhere.delegate(7, 4, 5).refuses_last(22, 4);
    accepts(written.commit(3));
}

#[test]
fn by_a_delegation_that_puts_the_receiver_before_the_undo() {
    // The clerk 4 stands after the undo. 6 has read what 5 then wrote and the
    // undo has read since; with that read 4 would stand before the undo too.
    let book = to_undo()
        .begin(5)
        .begin(6)
        .operate(6, A, READ)
        .operate(5, A, WRITE)
        .operate(5, B, WRITE)
        .commit(5)
        .begin(3)
        .operate(3, B, READ)
        .operate(3, C, WRITE)
        .begin(4)
        .operate(4, C, WRITE);
    book.clone().delegate(6, 4, 0).refuses_last(22, 4);
    accepts(book.begin(7).delegate(6, 7, 0));
}

#[test]
fn by_the_undos_own_operation_for_good() {
    let committed = clerk_after_undo().commit(4);
    committed.clone().operate(3, B, READ).refuses_last(22, 4);
    committed.clone().operate(3, B, WRITE).refuses_last(22, 4);
    accepts(committed.clone().operate(3, C, WRITE));
    accepts(committed.commit(3));
    let gone = clerk_after_undo().abort(4);
    accepts(gone.operate(3, B, READ).operate(3, A, WRITE).commit(3));
}

#[test]
fn by_an_actor_that_never_touches_the_undos_objects() {
    // 6 stands after the undo, and whoever comes after 6 does so too.
    let book = undo_after_4().begin(6).operate(6, C, WRITE);
    let book = book.operate(6, D, WRITE);
    book.clone().operate(4, D, WRITE).refuses_last(22, 4);
    book.clone().operate(4, D, READ).refuses_last(22, 4);
    let written = accepts(book.begin(7).operate(7, D, WRITE));
    written.clone().delegate(7, 4, 7).refuses_last(22, 4);
    accepts(written.clone().delegate(7, 6, 7));
    let committed = accepts(written.commit(6));
    committed.clone().delegate(7, 4, 7).refuses_last(22, 4);
    committed.operate(4, D, READ).refuses_last(22, 4);
}

#[test]
fn at_the_257th_operation_22_comes_before_18() {
    let full = accepts(filled_up(undo_after_4(), 5));
    full.clone().operate(4, C, WRITE).refuses_last(22, 4);
    full.clone().operate(4, D, READ).refuses_last(18, 4);
    full.clone().operate(4, B, READ).refuses_last(18, 4);
    full.operate(3, B, READ).refuses_last(18, 4);

    let committed = filled_up(clerk_after_undo(), 3).commit(4);
    committed.operate(3, B, READ).refuses_last(22, 4);

    let handed = undo_after_4().begin(6).operate(6, C, WRITE);
    let full = filled_up(handed, 6);
    full.delegate(6, 4, 5).refuses_last(22, 4);
}

#[test]
fn the_undo_waits_first() {
    let book = clerk_after_undo();
    book.clone().operate(3, B, READ).refuses_last(17, 4);
    filled_up(book.clone(), 3)
        .operate(3, B, READ)
        .refuses_last(17, 4);
    book.commit(4).operate(3, B, READ).refuses_last(22, 4);
}

#[test]
fn the_other_refusals_of_a_delegation_come_first() {
    let book = undo_after_4().begin(6).operate(6, C, WRITE).begin(7);
    book.clone().delegate(6, 4, 6).refuses_last(8, 4);
    book.clone().delegate(6, 3, 5).refuses_last(9, 4);
    book.clone().delegate(8, 4, 5).refuses_last(11, 4);
    book.clone().delegate(7, 4, 5).refuses_last(12, 4);
    book.delegate(6, 4, 5).refuses_last(22, 4);
}

#[test]
fn the_other_refusals_of_an_operation_come_first() {
    let book = undo_after_4();
    book.clone().operate(4, C, 2).refuses_last(8, 4);
    book.clone().operate(0, C, WRITE).refuses_last(9, 4);
    book.operate(5, C, WRITE).refuses_last(11, 4);
}

#[test]
fn delegating_an_ended_operation_is_not_judged_by_it() {
    let book = undo_after_4().begin(6).operate(6, C, WRITE);
    book.clone().delegate(6, 4, 5).refuses_last(22, 4);
    for ended in [
        book.clone().commit_operation(6, 5),
        book.abort_operation(6, 5),
    ] {
        let handed = accepts(ended.clone().delegate(6, 4, 5));
        assert_eq!(handed.read().state.responsible(5), 6);
        assert_eq!(pairs(&handed), pairs(&ended));
    }
}

#[test]
fn what_was_dropped_bars_no_more() {
    let book = undo_after_4();
    book.clone().operate(4, C, WRITE).refuses_last(22, 4);
    let dropped = book.abort_operation(4, 0);
    accepts(dropped.operate(4, C, WRITE));
}

#[test]
fn it_holds_only_while_the_undo_is_active() {
    // The ring is closed after the undo's commit, and then 4 can't commit.
    let book = undo_after_4().commit(3).operate(4, C, WRITE);
    assert_eq!(pairs(&book), [(3, 4), (4, 5), (5, 3)]);
    book.commit(4).refuses_last(16, 2);
}

#[test]
fn rings_without_an_undo_are_still_made() {
    let book = undo_after_4()
        .begin(6)
        .begin(7)
        .operate(6, D, WRITE)
        .operate(7, D, WRITE)
        .operate(6, D, WRITE);
    assert_eq!(pairs(&book), [(4, 5), (5, 3), (6, 7), (7, 6)]);
    book.clone().commit(6).refuses_last(16, 2);
    accepts(book.commit(3));
}

#[test]
fn a_ring_behind_the_undo_does_not_bar_it() {
    // 6 and 7 go round after the undo, which is reached from neither.
    let book = undo_after_4()
        .begin(6)
        .begin(7)
        .operate(6, C, WRITE)
        .operate(7, C, WRITE)
        .operate(6, C, WRITE);
    assert_eq!(
        pairs(&book),
        [(3, 6), (3, 7), (4, 5), (5, 3), (6, 7), (7, 6)]
    );
    accepts(book.commit(3));
}

#[test]
fn each_of_several_undos_is_kept_free() {
    // Sagas 0 and 4 with undos 3 and 7; plain 8 comes after both, 9 before both.
    let book = Book::new(&[2, 2], 4, 4, &[])
        .begin(0)
        .done(1)
        .abort(0)
        .begin(4)
        .done(5)
        .abort(4)
        .begin(8)
        .begin(9)
        .operate(9, A, WRITE)
        .operate(9, B, WRITE)
        .commit_operation(9, 0)
        .commit_operation(9, 1)
        .begin(3)
        .begin(7)
        .operate(3, A, WRITE)
        .operate(7, B, WRITE);
    assert_eq!(pairs(&book), [(9, 3), (9, 7)]);
    book.clone().operate(9, A, READ).refuses_last(22, 4);
    book.clone().operate(9, B, READ).refuses_last(22, 4);
    let behind = accepts(book.operate(8, A, WRITE).operate(8, B, WRITE));
    let (after_3, after_7) = (4, 5);
    behind.clone().delegate(8, 9, after_3).refuses_last(22, 4);
    behind.clone().delegate(8, 9, after_7).refuses_last(22, 4);
    let first_done = behind.commit(3);
    let handed = accepts(first_done.clone().delegate(8, 9, after_3));
    handed.commit(9).refuses_last(16, 2);
    first_done.delegate(8, 9, after_7).refuses_last(22, 4);
}

#[test]
fn after_it_the_caller_may_go_on_and_nothing_has_changed() {
    let book = undo_after_4().begin(6).operate(6, C, WRITE);
    let mut reading = book.read();
    let delegate = second::Event::Delegate {
        giver: 6,
        receiver: 4,
        operation: 5,
    };
    let operate = second::Event::Operation {
        transaction: 4,
        object: C.into(),
        mark: WRITE.into(),
    };
    let before = second::report(&reading);
    for event in [delegate, operate, delegate] {
        assert_eq!(reading.state.offer(&reading.tables, event), Err(22));
        assert_eq!(second::report(&reading), before);
        assert_eq!(reading.state.responsible(5), 6);
        assert_eq!(reading.state.operations(), 6);
    }
    let commit = second::Event::Commit { transaction: 3 };
    assert_eq!(reading.state.offer(&reading.tables, commit), Ok(()));
    assert_eq!(reading.state.offer(&reading.tables, delegate), Ok(()));
}

#[test]
fn reading_stops_at_it_and_the_opening_ends_before_it() {
    let accepted = undo_after_4();
    let refused = accepted.clone().operate(4, C, WRITE);
    let place = accepted.0.len();
    let events = accepted.read().events;
    let first_line = format!("book refused 22 {events} {place}\n");
    assert!(second::listing_to_first_refusal(&refused.0).starts_with(&first_line));
    assert_eq!(second::opening(&refused.0), &accepted.0);
    let fields: Vec<u32> = refused.0.iter().map(|byte| u32::from(*byte)).collect();
    let expected = second::Refused {
        number: 22,
        events,
        place,
    };
    assert_eq!(second::write(&fields, &mut [0; 100]), Err(expected));
    assert_eq!(second::unpack(&refused.0, &mut [0; 100]), Err(expected));
}
