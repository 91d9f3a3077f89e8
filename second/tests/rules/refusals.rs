//! Each refusal, and what comes first when several lines hold.

use crate::books::{answer, Book, LISTED, READ, WRITE};
use second::{listing, listing_to_first_refusal, opening, read};

#[test]
fn number_2_ends_early_at_every_place() {
    let accepted_at = [6, 8, 10, 12, 16, 20, 22, 24];
    for length in 0..LISTED.len() {
        let (number, _, place) = answer(&LISTED[..length]);
        if accepted_at.contains(&length) {
            assert_eq!(number, 0, "{length}");
        } else {
            assert_eq!((number, place), (2, length), "{length}");
        }
    }
    for unfinished in [&[0x80][..], &[0xFF, 0x80]] {
        let book = Book(LISTED.to_vec()).then(&[4, 4]).then(unfinished);
        assert_eq!(answer(&book.0), (2, 7, 26), "inside a number");
    }
}

#[test]
fn number_3_points_at_the_field() {
    assert_eq!(answer(&[1, 0x80, 0x00]), (3, 0, 1));
    let book = Book::new(&[], 2, 1, &[]).begin(0);
    let before = book.0.len();
    for bad in [
        &[0x80, 0x00][..],
        &[0x80, 0x80, 0x00],
        &[0x80, 0x80, 0x80],
        &[0xFF, 0xFF, 0x04],
    ] {
        assert_eq!(answer(&book.clone().then(bad).0), (3, 1, before));
        let in_an_event = book.clone().then(&[4, 0]).then(bad);
        assert_eq!(answer(&in_an_event.0), (3, 1, before + 2));
    }
}

#[test]
fn number_4_edition() {
    assert_eq!(answer(&[0]), (4, 0, 0));
    assert_eq!(answer(&[3, 0, 0, 0, 0]), (4, 0, 0));
    assert_eq!(answer(&[0x81, 0x01]), (4, 0, 0));
}

#[test]
fn number_5_counts() {
    for (bytes, place) in [
        (&[1, 17][..], 1),
        (&[1, 1, 0], 2),
        (&[1, 1, 17], 2),
        (&[1, 2, 16, 17], 3),
        (&[1, 0, 65], 2),
        (&[1, 0, 0, 33], 3),
        (&[1, 0, 0, 0, 0x81, 0x01], 4),
        (&[1, 1, 1, 63], 3),
        (&[1, 2, 16, 16, 1], 4),
        (&[1, 3, 16, 16, 1], 4),
        (&[1, 4, 16, 15, 1, 1], 5),
    ] {
        assert_eq!(answer(bytes), (5, 0, place), "{bytes:?}");
    }
    for taken in [
        Book::new(&[16, 16], 0, 32, &[]),
        Book::new(&[1; 16], 32, 0, &[]),
        Book::new(&[], 64, 0, &[]),
        Book::new(&[], 0, 0, &[]),
    ] {
        assert_eq!(taken.number(), 0);
    }
}

/// Tables with a saga of two steps (0 to 3), a saga of one step (4 and 5) and
/// the plain transactions 6, 7 and 8.
fn with_dependencies(entries: &[[u8; 3]]) -> Book {
    Book::new(&[2, 1], 3, 0, entries)
}

#[test]
fn number_6_entries() {
    let good = [6, 7, 3];
    for bad in [
        [9, 6, 1],
        [6, 9, 1],
        [7, 7, 1],
        [7, 6, 0],
        [7, 6, 8],
        [7, 1, 1],
        [7, 3, 1],
        [1, 6, 4],
        [3, 6, 4],
        [0, 6, 1],
        [0, 6, 2],
        [0, 6, 3],
    ] {
        assert_eq!(answer(&with_dependencies(&[bad]).0), (6, 0, 7), "{bad:?}");
    }
    for falling in [good, [6, 7, 2], [6, 4, 4], [4, 7, 4]] {
        let book = with_dependencies(&[good, falling]);
        assert_eq!(answer(&book.0), (6, 0, 10), "{falling:?}");
    }
    let rising = [
        [0, 4, 4],
        [0, 6, 7],
        [4, 6, 5],
        [6, 0, 1],
        [6, 0, 2],
        [6, 7, 1],
        [8, 7, 6],
    ];
    assert_eq!(with_dependencies(&rising).number(), 0);
}

#[test]
fn number_6_comes_after_the_three_fields() {
    assert_eq!(answer(&[1, 0, 2, 0, 1, 9]), (2, 0, 6));
    assert_eq!(answer(&[1, 0, 2, 0, 1, 9, 9, 0x80, 0x00]), (3, 0, 7));
    assert_eq!(answer(&[1, 0, 2, 0, 1, 9, 9, 9]), (6, 0, 5));
}

#[test]
fn the_most_dependencies() {
    let mut bytes = vec![1, 0, 64, 0, 0x80, 0x01];
    for dependent in 0..64 {
        let base = (dependent + 1) % 64;
        bytes.extend([dependent, base, 1, dependent, base, 2]);
    }
    assert_eq!(read(&bytes).number, 0);
}

#[test]
fn number_7_event_code() {
    let book = Book::begun(1, 0);
    for code in [0, 9, 10, 11, 127] {
        book.clone().then(&[code]).refuses_last(7, 1);
    }
    book.clone().then(&[0x80, 0x02]).refuses_last(7, 2);
    book.then(&[0x81, 0x02]).refuses_last(7, 2);
}

#[test]
fn number_8_not_in_the_tables() {
    let book = Book::begun(2, 1).operate(0, 0, READ);
    book.clone().begin(2).refuses_last(8, 2);
    book.clone().commit(2).refuses_last(8, 2);
    book.clone().abort(2).refuses_last(8, 2);
    book.clone().operate(2, 0, READ).refuses_last(8, 4);
    book.clone().operate(0, 1, READ).refuses_last(8, 4);
    book.clone().operate(0, 0, 2).refuses_last(8, 4);
    book.clone().delegate(2, 1, 0).refuses_last(8, 4);
    book.clone().delegate(0, 2, 0).refuses_last(8, 4);
    book.clone().delegate(0, 1, 1).refuses_last(8, 4);
    let far = [0xFF, 0xFF, 0x03];
    book.then(&[4, 0, 0]).then(&far).refuses_last(8, 6);
}

/// A saga of three steps with its first undo begun, and two active plain ones:
/// S 0, steps 1 to 3, undos 4 and 5, plain 6 and 7.
fn undoing() -> Book {
    Book::new(&[3], 2, 1, &[])
        .begin(0)
        .done(1)
        .abort(0)
        .begin(6)
        .begin(7)
        .begin(4)
}

#[test]
fn number_9_never_done() {
    let book = undoing().operate(6, 0, READ);
    book.clone().operate(0, 0, READ).refuses_last(9, 4);
    book.clone().abort(4).refuses_last(9, 2);
    book.clone().abort(5).refuses_last(9, 2);
    for (giver, receiver) in [(0, 6), (6, 0), (4, 6), (6, 4), (6, 6)] {
        book.clone().delegate(giver, receiver, 0).refuses_last(9, 4);
    }
}

#[test]
fn number_10_not_idle() {
    let book = Book::begun(3, 0).commit(1).abort(2);
    for t in 0..3 {
        book.clone().begin(t).refuses_last(10, 2);
    }
}

#[test]
fn number_11_not_active() {
    let book = Book::new(&[], 4, 1, &[])
        .begin(0)
        .begin(1)
        .begin(2)
        .operate(0, 0, READ)
        .commit(1)
        .abort(2);
    for t in 1..4 {
        book.clone().commit(t).refuses_last(11, 2);
        book.clone().abort(t).refuses_last(11, 2);
        book.clone().operate(t, 0, READ).refuses_last(11, 4);
        book.clone().delegate(t, 0, 0).refuses_last(11, 4);
        book.clone().delegate(0, t, 0).refuses_last(11, 4);
    }
}

#[test]
fn number_12_not_responsible() {
    let book = Book::begun(3, 1).operate(0, 0, READ);
    book.clone().delegate(1, 0, 0).refuses_last(12, 4);
    let given = book.delegate(0, 1, 0);
    given.clone().delegate(0, 2, 0).refuses_last(12, 4);
    assert_eq!(given.clone().delegate(1, 0, 0).number(), 0);
    given.commit(1).delegate(0, 2, 0).refuses_last(12, 4);
}

#[test]
fn number_13_steps() {
    let book = Book::new(&[2], 0, 0, &[]);
    book.clone().begin(1).refuses_last(13, 2);
    book.clone().begin(0).begin(2).refuses_last(13, 2);
    book.clone().begin(0).begin(1).begin(2).refuses_last(13, 2);
    let undoable = book.clone().begin(0).done(1);
    undoable.clone().abort(0).begin(2).refuses_last(13, 2);
    let aborted = book.clone().begin(0).begin(1).abort(0);
    aborted.clone().commit(1).refuses_last(13, 2);
    assert_eq!(aborted.abort(1).number(), 0);
    let failed = book.begin(0).begin(1).abort(1);
    failed.clone().begin(2).refuses_last(13, 2);
    assert_eq!(undoable.begin(2).number(), 0);
}

#[test]
fn number_13_sagas_and_undos() {
    let book = Book::new(&[2], 0, 0, &[]).begin(0).done(1);
    book.clone().commit(0).refuses_last(13, 2);
    book.clone().begin(3).refuses_last(13, 2);
    let done = book.clone().done(2);
    done.clone().abort(0).refuses_last(13, 2);
    assert_eq!(done.clone().commit(0).number(), 0);
    done.commit(0).begin(3).refuses_last(13, 2);
    let second_active = book.begin(2).abort(0);
    second_active.clone().begin(3).refuses_last(13, 2);
    assert_eq!(second_active.abort(2).begin(3).number(), 0);
    let nothing_done = Book::new(&[2], 0, 0, &[]).begin(0).abort(0);
    nothing_done.begin(3).refuses_last(13, 2);
}

#[test]
fn number_14_kinds() {
    // For each kind, plain 0 on plain 1: may 0 begin, then commit, while 1 is
    // idle, active, committed, aborted? A begun 0 is begun before 1.
    let begins = [
        (4, [false, true, true, true]),
        (5, [false, false, true, true]),
        (6, [false, false, true, false]),
        (7, [false, false, false, true]),
    ];
    let commits = [
        (1, [false, false, true, true]),
        (2, [false, false, true, false]),
        (3, [true, true, true, false]),
    ];
    let base_in = |book: Book, phase: usize| match phase {
        0 => book,
        1 => book.begin(1),
        2 => book.done(1),
        _ => book.begin(1).abort(1),
    };
    for (kind, allowed) in begins {
        for (phase, expected) in allowed.into_iter().enumerate() {
            let book = base_in(Book::new(&[], 2, 0, &[[0, 1, kind]]), phase).begin(0);
            assert_eq!(
                book.number(),
                if expected { 0 } else { 14 },
                "{kind} {phase}"
            );
            if expected {
                assert_eq!(book.commit(0).number(), 0, "{kind} {phase}");
            }
        }
    }
    for (kind, allowed) in commits {
        for (phase, expected) in allowed.into_iter().enumerate() {
            let begun = Book::new(&[], 2, 0, &[[0, 1, kind]]).begin(0);
            assert_eq!(begun.clone().abort(0).number(), 0);
            let book = base_in(begun, phase).commit(0);
            assert_eq!(
                book.number(),
                if expected { 0 } else { 14 },
                "{kind} {phase}"
            );
        }
    }
}

#[test]
fn number_14_sagas_as_dependent_and_base() {
    let book = Book::new(&[1, 1], 0, 0, &[[2, 0, 4]]);
    book.clone().begin(2).refuses_last(14, 2);
    assert_eq!(book.begin(0).begin(2).number(), 0);
    let chain = Book::new(&[1, 1], 0, 0, &[[0, 2, 6]]).begin(2);
    chain.clone().begin(0).refuses_last(14, 2);
    assert_eq!(chain.done(3).commit(2).begin(0).number(), 0);
}

#[test]
fn number_14_looks_at_every_entry_of_the_dependent_and_no_other() {
    let entries = [[0, 1, 4], [2, 0, 4], [2, 1, 4], [2, 3, 4]];
    let book = Book::new(&[], 4, 0, &entries).begin(1);
    book.clone().begin(2).refuses_last(14, 2);
    book.clone().begin(0).begin(2).refuses_last(14, 2);
    assert_eq!(book.begin(0).begin(3).begin(2).number(), 0);
}

#[test]
fn number_17_undo_waits() {
    let book = undoing().operate(6, 0, READ);
    assert_eq!(book.clone().operate(4, 0, READ).number(), 0);
    book.clone().operate(4, 0, WRITE).refuses_last(17, 4);
    let written = undoing().operate(6, 0, WRITE);
    written.clone().operate(4, 0, READ).refuses_last(17, 4);
    assert_eq!(written.clone().commit(6).operate(4, 0, WRITE).number(), 0);
    assert_eq!(written.abort(6).operate(4, 0, READ).number(), 0);
    let own = undoing().operate(4, 0, WRITE).operate(4, 0, WRITE);
    assert_eq!(own.number(), 0, "its own operations don't bar it");
}

#[test]
fn the_lowest_number_is_given() {
    let tables = Book::new(&[2], 2, 1, &[[4, 5, 6]]);
    tables.clone().operate(0, 1, READ).refuses_last(8, 4);
    tables.clone().operate(0, 0, READ).refuses_last(9, 4);
    tables.clone().begin(5).begin(5).refuses_last(10, 2);
    tables.clone().delegate(0, 0, 0).refuses_last(8, 4);
    let dirty_and_barred = Book::new(&[], 2, 1, &[[1, 0, 2]])
        .begin(0)
        .begin(1)
        .operate(0, 0, WRITE)
        .operate(1, 0, READ);
    dirty_and_barred.commit(1).refuses_last(14, 2);
    let dirty_and_on_a_ring = Book::begun(2, 1)
        .operate(0, 0, WRITE)
        .operate(1, 0, READ)
        .operate(0, 0, WRITE);
    dirty_and_on_a_ring.commit(1).refuses_last(15, 2);
    let full = (0..256).fold(undoing(), |book, _| book.operate(6, 0, WRITE));
    full.clone().operate(4, 0, READ).refuses_last(17, 4);
    full.operate(7, 0, READ).refuses_last(18, 4);
    let step_without_saga = Book::new(&[1], 0, 0, &[]).begin(0).begin(1).abort(0);
    step_without_saga.begin(1).refuses_last(10, 2);
}

#[test]
fn the_opening_and_the_state_are_those_before_the_refusal() {
    let book = Book(LISTED.to_vec()).then(&[0x01, 0x02, 0x01, 0x03]);
    assert_eq!(opening(&book.0), &LISTED);
    let shown = listing_to_first_refusal(&book.0);
    let expected = listing(&LISTED).replace("book accepted 7", "book refused 13 7 24");
    assert_eq!(shown, expected);
    let tables_only = Book::new(&[1], 0, 0, &[]).begin(1);
    assert_eq!(opening(&tables_only.0), &[1, 1, 1, 0, 0, 0]);
    assert_eq!(opening(&[1, 1, 1, 0, 0, 200]), &[0u8; 0]);
    assert_eq!(listing(&[1, 1, 1, 0, 33]), "book refused 5 0 4\n");
}

#[test]
fn after_a_refused_event_the_caller_may_go_on() {
    let mut reading = read(&LISTED);
    let begin = |transaction| second::Event::Begin { transaction };
    assert_eq!(reading.state.offer(&reading.tables, begin(2)), Err(13));
    assert_eq!(reading.state.offer(&reading.tables, begin(3)), Ok(()));
    let with_undo_begun = Book(LISTED.to_vec()).begin(3).read();
    assert_eq!(reading.state.active(), with_undo_begun.state.active());
}
