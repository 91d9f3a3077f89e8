//! The commit (6) and the abort (7) of a single operation.

use crate::books::{answer, pairs, Book, READ, WRITE};
use second::{listing, report, unpack, write, Phase, Refused};

/// Both events, to say of both what holds for both.
const BOTH: [fn(Book, u8, u8) -> Book; 2] = [Book::commit_operation, Book::abort_operation];

/// The phases of the operations of a book that is accepted.
#[track_caller]
fn operation_phases(book: &Book) -> Vec<Phase> {
    let reading = book.read();
    assert_eq!(reading.number, 0);
    (0..reading.state.operations())
        .map(|operation| reading.state.operation_phase(operation))
        .collect()
}

#[track_caller]
fn accepts(book: Book) -> Book {
    assert_eq!(book.number(), 0);
    book
}

/// A saga with an active step, an active undo of another and two active plain
/// ones, each with an operation on an object of its own: sagas 0 and 4, step 1
/// with operation 0, undo 7 with operation 1, plain 8 and 9 with 2 and 3. Plain
/// 10 is idle.
fn every_sort_at_work() -> Book {
    Book::new(&[2, 2], 3, 5, &[])
        .begin(0)
        .begin(1)
        .begin(4)
        .done(5)
        .abort(4)
        .begin(7)
        .begin(8)
        .begin(9)
        .operate(1, 0, WRITE)
        .operate(7, 1, WRITE)
        .operate(8, 2, WRITE)
        .operate(9, 3, WRITE)
}

/// 0 writes and 1 reads it, so that the read is dirty.
fn dirty_read() -> Book {
    Book::begun(3, 2).operate(0, 0, WRITE).operate(1, 0, READ)
}

/// 0 and 1 stand before each other; operations 0 and 3 are 0's, 1 and 2 are 1's.
/// Object 2 has no operation.
fn ring() -> Book {
    Book::begun(3, 3)
        .operate(0, 0, WRITE)
        .operate(1, 0, WRITE)
        .operate(1, 1, WRITE)
        .operate(0, 1, WRITE)
}

/// 0 writes and reads what it wrote, and keeps the read alone.
fn kept_read_of_own_write() -> Book {
    accepts(
        Book::begun(2, 1)
            .operate(0, 0, WRITE)
            .operate(0, 0, READ)
            .commit_operation(0, 1),
    )
}

#[test]
fn one_change_is_kept_and_another_dropped() {
    let book = Book::begun(1, 3)
        .operate(0, 0, WRITE)
        .operate(0, 1, WRITE)
        .operate(0, 2, WRITE)
        .commit_operation(0, 0)
        .abort_operation(0, 1);
    use Phase::{Aborted, Active, Committed};
    assert_eq!(operation_phases(&book), [Committed, Aborted, Active]);
    let committed = book.clone().commit(0);
    assert_eq!(
        operation_phases(&committed),
        [Committed, Aborted, Committed]
    );
    let aborted = book.abort(0);
    assert_eq!(operation_phases(&aborted), [Committed, Aborted, Aborted]);
}

#[test]
fn the_listing_shows_how_an_operation_stands() {
    let book = Book::begun(1, 1)
        .operate(0, 0, READ)
        .operate(0, 0, WRITE)
        .operate(0, 0, WRITE)
        .commit_operation(0, 0)
        .abort_operation(0, 2);
    let expected = "book accepted 6\nt 0 active\nop 0 0 read 0 committed\n\
                    op 1 0 write 0 active\nop 2 0 write 0 aborted\n";
    assert_eq!(listing(&book.0), expected);
}

#[test]
fn number_8_not_in_the_tables() {
    for event in BOTH {
        let book = Book::begun(2, 1).operate(0, 0, READ);
        event(book.clone(), 2, 0).refuses_last(8, 3);
        event(book.clone(), 0, 1).refuses_last(8, 3);
        event(book.clone(), 127, 127).refuses_last(8, 3);
        event(Book::begun(1, 1), 0, 0).refuses_last(8, 3);
        accepts(event(book, 0, 0));
    }
    for code in [6, 7] {
        let far = [code, 0, 0xFF, 0xFF, 0x03];
        let book = Book::begun(1, 1).operate(0, 0, READ);
        book.then(&far).refuses_last(8, 5);
    }
}

#[test]
fn number_9_for_steps_sagas_and_undos() {
    let book = every_sort_at_work();
    let (step, saga, undo) = (1, 0, 7);
    for event in BOTH {
        event(book.clone(), step, 0).refuses_last(9, 3);
        event(book.clone(), saga, 0).refuses_last(9, 3);
        event(book.clone(), undo, 1).refuses_last(9, 3);
        accepts(event(book.clone(), 8, 2));
    }
}

#[test]
fn number_11_not_active() {
    for event in BOTH {
        let book = Book::begun(2, 1).operate(0, 0, READ);
        event(book.clone().commit(0), 0, 0).refuses_last(11, 3);
        event(book.clone().abort(0), 0, 0).refuses_last(11, 3);
        let idle = Book::new(&[], 2, 1, &[]).begin(0).operate(0, 0, READ);
        event(idle, 1, 0).refuses_last(11, 3);
    }
}

#[test]
fn number_12_not_responsible() {
    for event in BOTH {
        let book = Book::begun(2, 1).operate(0, 0, READ);
        event(book.clone(), 1, 0).refuses_last(12, 3);
        let given = book.delegate(0, 1, 0);
        event(given.clone(), 0, 0).refuses_last(12, 3);
        accepts(event(given, 1, 0));
    }
}

#[test]
fn number_20_already_ended() {
    let book = Book::begun(1, 1).operate(0, 0, READ);
    for first in BOTH {
        for second in BOTH {
            let ended = first(book.clone(), 0, 0);
            second(ended, 0, 0).refuses_last(20, 3);
        }
    }
}

#[test]
fn number_15_for_the_operation_alone() {
    let book = dirty_read();
    book.clone().commit_operation(1, 1).refuses_last(15, 3);
    accepts(book.clone().commit(0).commit_operation(1, 1));
    let barred_for_good = book.clone().abort(0).commit_operation(1, 1);
    barred_for_good.refuses_last(15, 3);
    accepts(book.clone().delegate(0, 1, 0).commit_operation(1, 1));
    // Its other operations are not looked at.
    let with_others = book.operate(1, 1, WRITE).operate(1, 1, READ);
    accepts(with_others.clone().commit_operation(1, 2));
    accepts(with_others.clone().commit_operation(1, 3));
    with_others.commit(1).refuses_last(15, 2);
}

#[test]
fn number_15_does_not_speak_of_writes() {
    let book = Book::begun(2, 1).operate(0, 0, WRITE).operate(1, 0, WRITE);
    accepts(book.clone().commit_operation(1, 1));
    accepts(book.abort(0).commit_operation(1, 1));
}

#[test]
fn number_16_for_its_transaction() {
    let book = ring();
    for (t, operation) in [(0, 0), (0, 3), (1, 1), (1, 2)] {
        book.clone()
            .commit_operation(t, operation)
            .refuses_last(16, 3);
    }
    let apart = book.clone().operate(0, 2, READ);
    apart.commit_operation(0, 4).refuses_last(16, 3);
    let third = book.operate(2, 0, WRITE);
    accepts(third.commit_operation(2, 4));
}

#[test]
fn an_abort_is_barred_by_neither_15_nor_16() {
    accepts(dirty_read().abort_operation(1, 1));
    accepts(ring().abort_operation(0, 3));
    accepts(kept_read_of_own_write().abort_operation(0, 0));
}

#[test]
fn declared_dependencies_do_not_bar_it() {
    let book = Book::new(&[], 2, 1, &[[0, 1, 2]])
        .begin(0)
        .operate(0, 0, WRITE);
    let kept = accepts(book.commit_operation(0, 0));
    kept.commit(0).refuses_last(14, 2);
}

#[test]
fn the_lowest_number_is_given() {
    let sorts = every_sort_at_work();
    let (saga, idle_step, idle, undo) = (0, 2, 10, 7);
    for event in BOTH {
        let before_9 = event(sorts.clone(), saga, 4);
        before_9.refuses_last(8, 3);
        let before_11 = event(sorts.clone(), idle, 4);
        before_11.refuses_last(8, 3);
        event(sorts.clone(), idle_step, 0).refuses_last(9, 3);
        event(sorts.clone(), undo, 2).refuses_last(9, 3);
        let ended = event(sorts.clone(), 8, 2);
        event(ended.clone(), saga, 2).refuses_last(9, 3);
        event(sorts.clone(), idle, 2).refuses_last(11, 3);
        event(ended.clone().commit(8), 8, 2).refuses_last(11, 3);
        event(ended.clone(), idle, 2).refuses_last(11, 3);
        event(ended, 9, 2).refuses_last(12, 3);
    }
}

#[test]
fn the_lowest_number_is_given_for_a_commit() {
    let dirty = dirty_read();
    dirty.clone().commit_operation(2, 1).refuses_last(12, 3);
    let ended_reader = dirty.clone().abort(1);
    ended_reader.commit_operation(1, 1).refuses_last(11, 3);
    ring().commit_operation(0, 1).refuses_last(12, 3);
    // A kept read whose write was dropped after, and a ring through an ended operation.
    let dropped = kept_read_of_own_write().abort_operation(0, 0);
    dropped.commit_operation(0, 1).refuses_last(20, 3);
    let kept = Book::begun(2, 2)
        .operate(0, 0, WRITE)
        .operate(1, 0, WRITE)
        .commit_operation(1, 1)
        .operate(1, 1, WRITE)
        .operate(0, 1, WRITE);
    kept.clone().commit_operation(1, 1).refuses_last(20, 3);
    kept.commit_operation(1, 2).refuses_last(16, 3);
    let dirty_and_on_a_ring = dirty.operate(0, 0, WRITE);
    dirty_and_on_a_ring
        .commit_operation(1, 1)
        .refuses_last(15, 3);
}

#[test]
fn a_read_dropped_alone_bars_no_more() {
    let book = dirty_read();
    book.clone().commit(1).refuses_last(15, 2);
    let dropped = accepts(book.abort_operation(1, 1));
    accepts(dropped.clone().commit(1));
    accepts(dropped.clone().abort(0).commit(1));
    let another = dropped.operate(1, 0, READ);
    another.commit(1).refuses_last(15, 2);
}

#[test]
fn a_read_dropped_after_the_write_was_bars_no_more() {
    let barred = dirty_read().abort_operation(0, 0);
    barred.clone().commit(1).refuses_last(15, 2);
    accepts(barred.abort_operation(1, 1).commit(1));
}

#[test]
fn a_write_kept_alone_is_clean() {
    let book = dirty_read().commit_operation(0, 0);
    accepts(book.clone().commit_operation(1, 1));
    accepts(book.clone().commit(1));
    accepts(book.abort(0).commit(1));
}

#[test]
fn a_write_dropped_alone_bars_its_reader_for_good() {
    let book = dirty_read().abort_operation(0, 0);
    book.clone().commit_operation(1, 1).refuses_last(15, 3);
    book.clone().commit(1).refuses_last(15, 2);
    book.commit(0).commit(1).refuses_last(15, 2);
}

#[test]
fn an_own_write_dropped_alone_bars_too() {
    let book = Book::begun(2, 1)
        .operate(0, 0, WRITE)
        .operate(0, 0, READ)
        .abort_operation(0, 0);
    book.clone().commit_operation(0, 1).refuses_last(15, 3);
    book.clone().commit(0).refuses_last(15, 2);
    let read_handed_on = book.clone().delegate(0, 1, 1);
    accepts(read_handed_on.clone().commit(0));
    read_handed_on.commit(1).refuses_last(15, 2);
    accepts(book.abort_operation(0, 1).commit(0));
}

#[test]
fn a_read_of_an_own_write_is_kept_before_the_write() {
    let book = kept_read_of_own_write();
    accepts(book.clone().commit_operation(0, 0).commit(0));
    accepts(book.commit(0));
}

#[test]
fn a_kept_read_whose_own_write_is_dropped_bars_for_good() {
    let book = kept_read_of_own_write().abort_operation(0, 0);
    book.clone().commit(0).refuses_last(15, 2);
    let handed_on = accepts(book.clone().delegate(0, 1, 1));
    handed_on.clone().commit(0).refuses_last(15, 2);
    accepts(handed_on.commit(1));
    book.clone().abort_operation(0, 1).refuses_last(20, 3);
    accepts(book.abort(0));
}

#[test]
fn a_kept_read_whose_writer_aborts_after_bars_for_good() {
    let handed_on = kept_read_of_own_write().delegate(0, 1, 0);
    handed_on.clone().commit(0).refuses_last(15, 2);
    accepts(handed_on.clone().commit(1).commit(0));
    accepts(handed_on.clone().commit_operation(1, 0).commit(0));
    let aborted = handed_on.abort(1);
    aborted.clone().commit(0).refuses_last(15, 2);
    let handed_read = Book::begun(3, 1)
        .operate(0, 0, WRITE)
        .operate(0, 0, READ)
        .commit_operation(0, 1)
        .delegate(0, 2, 1)
        .delegate(0, 1, 0)
        .abort(1);
    handed_read.commit(0).refuses_last(15, 2);
}

#[test]
fn what_was_kept_is_tied_to_later_ones_and_what_was_dropped_is_not() {
    let pairs_after: [&[(usize, usize)]; 2] = [&[(0, 1)], &[]];
    for (event, expected) in BOTH.into_iter().zip(pairs_after) {
        let book = event(Book::begun(2, 1).operate(0, 0, WRITE), 0, 0);
        let book = book.operate(1, 0, READ).operate(1, 0, WRITE);
        assert_eq!(pairs(&book), expected);
        accepts(book.clone().commit(1));
        accepts(book.commit_operation(1, 1));
    }
}

#[test]
fn ties_last_over_a_single_commit_and_end_with_a_single_abort() {
    let book = Book::begun(2, 1).operate(0, 0, WRITE).operate(1, 0, WRITE);
    assert_eq!(pairs(&book.clone().commit_operation(0, 0)), [(0, 1)]);
    assert_eq!(pairs(&book.clone().commit_operation(1, 1)), [(0, 1)]);
    assert_eq!(pairs(&book.clone().abort_operation(0, 0)), []);
    assert_eq!(pairs(&book.abort_operation(1, 1)), []);
}

#[test]
fn each_kept_operation_goes_on_being_tied() {
    // 0 writes twice. 1 comes while both are active, 2 after the first was kept,
    // 3 after the second was kept too.
    let book = Book::begun(4, 1)
        .operate(0, 0, WRITE)
        .operate(0, 0, WRITE)
        .operate(1, 0, READ);
    let first_kept = book.commit_operation(0, 0).operate(2, 0, READ);
    assert_eq!(pairs(&first_kept), [(0, 1), (0, 2)]);
    let both_kept = first_kept.commit_operation(0, 1).operate(3, 0, READ);
    assert_eq!(pairs(&both_kept), [(0, 1), (0, 2), (0, 3)]);
    for t in 1..4 {
        accepts(both_kept.clone().commit(t));
    }
}

#[test]
fn a_write_that_ended_alone_does_not_hide_a_later_one() {
    let book = Book::begun(3, 1)
        .operate(0, 0, WRITE)
        .abort_operation(0, 0)
        .operate(0, 0, WRITE)
        .operate(1, 0, READ);
    book.clone().commit(1).refuses_last(15, 2);
    let ended = book.abort(0);
    ended.clone().commit(1).refuses_last(15, 2);
    assert_eq!(ended.operate(2, 0, READ).commit(2).number(), 0);
}

#[test]
fn a_write_that_ended_with_its_transaction_does_not_stretch_an_earlier_one() {
    // 1 reads after the first write of 0 ended, 0's second write comes later.
    for event in BOTH {
        let book = event(Book::begun(2, 1).operate(0, 0, WRITE), 0, 0)
            .operate(1, 0, READ)
            .operate(0, 0, WRITE)
            .abort(0);
        accepts(book.commit(1));
    }
}

#[test]
fn a_ring_is_opened_by_a_single_abort_and_not_by_a_single_commit() {
    let book = ring();
    let opened = accepts(book.abort_operation(0, 3));
    assert_eq!(pairs(&opened), [(0, 1)]);
    accepts(opened.clone().commit_operation(0, 0).commit(0));
    accepts(opened.commit(1));

    let kept_before = Book::begun(2, 2)
        .operate(0, 0, WRITE)
        .operate(1, 0, WRITE)
        .commit_operation(0, 0)
        .operate(1, 1, WRITE)
        .operate(0, 1, WRITE);
    assert_eq!(pairs(&kept_before), [(0, 1), (1, 0)]);
    kept_before.clone().commit(0).refuses_last(16, 2);
    kept_before.clone().commit(1).refuses_last(16, 2);
    accepts(kept_before.abort_operation(0, 3).commit(1));
}

#[test]
fn an_undo_waits_no_more_for_an_operation_that_ended_alone() {
    // S 0, steps 1 and 2, undo 3, plain 4.
    let book = Book::new(&[2], 1, 1, &[])
        .begin(0)
        .done(1)
        .abort(0)
        .begin(3)
        .begin(4)
        .operate(4, 0, WRITE);
    book.clone().operate(3, 0, READ).refuses_last(17, 4);
    for event in BOTH {
        accepts(event(book.clone(), 4, 0).operate(3, 0, WRITE).commit(3));
    }
}

#[test]
fn a_step_hands_its_operation_to_a_clerk_who_ends_it() {
    let book = every_sort_at_work().delegate(1, 8, 0);
    for event in BOTH {
        let ended = accepts(event(book.clone(), 8, 0));
        accepts(ended.clone().commit(1));
        accepts(ended.abort(1));
    }
}

#[test]
fn delegating_an_ended_operation_changes_nothing() {
    for event in BOTH {
        let book = event(
            Book::begun(3, 1).operate(0, 0, WRITE).operate(1, 0, WRITE),
            0,
            0,
        );
        let before = book.read();
        let after = accepts(book.clone().delegate(0, 2, 0)).read();
        assert_eq!(after.events, before.events + 1);
        assert_eq!(after.state.responsible(0), 0);
        assert_eq!(
            after.state.operation_phase(0),
            before.state.operation_phase(0)
        );
        assert_eq!(report(&after), report(&before));
        let given = book.delegate(0, 2, 0);
        event(given.clone(), 2, 0).refuses_last(12, 3);
        event(given.clone(), 0, 0).refuses_last(20, 3);
        given.clone().delegate(2, 1, 0).refuses_last(12, 4);
        accepts(given.delegate(0, 1, 0));
    }
}

#[test]
fn delegating_an_ended_operation_is_refused_as_any_other() {
    // S 0, steps 1 and 2, undo 3, plain 4 to 6; 6 is idle.
    let book = Book::new(&[2], 3, 1, &[])
        .begin(0)
        .begin(4)
        .begin(5)
        .operate(4, 0, WRITE)
        .abort_operation(4, 0);
    book.clone().delegate(4, 7, 0).refuses_last(8, 4);
    book.clone().delegate(4, 5, 1).refuses_last(8, 4);
    book.clone().delegate(4, 4, 0).refuses_last(9, 4);
    book.clone().delegate(4, 0, 0).refuses_last(9, 4);
    book.clone().delegate(4, 6, 0).refuses_last(11, 4);
    book.clone().delegate(4, 1, 0).refuses_last(11, 4);
    book.clone().delegate(5, 4, 0).refuses_last(12, 4);
    accepts(book.begin(1).delegate(4, 1, 0));
}

#[test]
fn ended_operations_count_among_the_256() {
    let dropped = (0..127).fold(Book::begun(1, 1), |book, number| {
        book.operate(0, 0, WRITE).abort_operation(0, number)
    });
    let full = (127..256).fold(dropped, |book, _| book.operate(0, 0, WRITE));
    full.clone().operate(0, 0, READ).refuses_last(18, 4);
    let last = full.then(&[7, 0, 0xFF, 0x01]);
    accepts(last.clone());
    last.operate(0, 0, READ).refuses_last(18, 4);
}

#[test]
fn an_event_that_breaks_off() {
    for code in [6, 7] {
        let book = Book::begun(1, 1).operate(0, 0, READ);
        let end = book.0.len();
        assert_eq!(answer(&book.clone().then(&[code]).0), (2, 2, end + 1));
        assert_eq!(answer(&book.clone().then(&[code, 0]).0), (2, 2, end + 2));
        let bad_form = book.then(&[code, 0, 0x80, 0x00]);
        assert_eq!(answer(&bad_form.0), (3, 2, end + 2));
    }
}

#[test]
fn unpacking_and_writing_take_both_events() {
    let book = kept_read_of_own_write().abort_operation(0, 0);
    let mut fields = [0; 30];
    let count = unpack(&book.0, &mut fields).unwrap();
    assert_eq!(fields[count - 6..count], [6, 0, 1, 7, 0, 0]);
    let mut bytes = [0; 30];
    assert_eq!(write(&fields[..count], &mut bytes), Ok(book.0.len()));
    assert_eq!(bytes[..book.0.len()], book.0);

    let again = [&fields[..count], &[6, 0, 1]].concat();
    let refused = Refused {
        number: 20,
        events: book.read().events,
        place: count,
    };
    assert_eq!(write(&again, &mut bytes), Err(refused));
    let opened = book.clone().commit_operation(0, 1);
    assert_eq!(second::opening(&opened.0), &book.0[..]);
}

#[test]
fn after_a_refused_single_commit_the_caller_may_go_on() {
    let mut reading = dirty_read().read();
    let commit = second::Event::CommitOperation {
        transaction: 1,
        operation: 1,
    };
    let abort = second::Event::AbortOperation {
        transaction: 1,
        operation: 1,
    };
    assert_eq!(reading.state.offer(&reading.tables, commit), Err(15));
    assert_eq!(reading.state.operation_phase(1), Phase::Active);
    assert_eq!(reading.state.offer(&reading.tables, abort), Ok(()));
    assert_eq!(reading.state.offer(&reading.tables, commit), Err(20));
    assert_eq!(reading.state.operation_phase(1), Phase::Aborted);
}
