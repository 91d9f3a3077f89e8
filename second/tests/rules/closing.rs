//! Outstanding numbers, closing steps, and who is active.

use crate::books::{Book, LISTED};
use second::{closing, listing, outstanding, read, report};

/// S 0, steps 1 to 3, undos 4 and 5.
fn saga_of_three() -> Book {
    Book::new(&[3], 0, 0, &[])
}

#[test]
fn each_standing_of_a_saga() {
    let begun = saga_of_three().begin(0);
    let two_done = begun.clone().done(1).done(2);
    let cases = [
        (saga_of_three(), 0, None),
        (begun.clone(), 1, Some((3, 0))),
        (begun.clone().begin(1), 2, Some((3, 0))),
        (begun.clone().begin(1).abort(1), 1, Some((3, 0))),
        (two_done.clone(), 5, Some((3, 0))),
        (two_done.clone().begin(3), 6, Some((3, 0))),
        (two_done.clone().begin(3).abort(0), 5, Some((3, 3))),
        (two_done.clone().done(3), 1, Some((2, 0))),
        (two_done.clone().done(3).commit(0), 0, None),
        (two_done.clone().abort(0), 4, Some((1, 5))),
        (two_done.clone().abort(0).begin(5), 3, Some((2, 5))),
        (two_done.clone().abort(0).done(5), 2, Some((1, 4))),
        (two_done.clone().abort(0).done(5).begin(4), 1, Some((2, 4))),
        (two_done.abort(0).done(5).done(4), 0, None),
        (begun.abort(0), 0, None),
    ];
    for (book, owed, step) in cases {
        let reading = book.read();
        assert_eq!(reading.number, 0, "{:?}", book.0);
        assert_eq!(outstanding(&reading, 0), owed, "{:?}", book.0);
        assert_eq!(closing(&reading, 0), step, "{:?}", book.0);
    }
}

#[test]
fn closing_steps_are_accepted_and_come_to_an_end() {
    let book = Book::new(&[4, 2], 0, 0, &[]);
    let mut book = book.begin(0).begin(8).done(1).done(9).done(2).begin(3);
    for saga in 0..2 {
        let mut owed = outstanding(&book.read(), saga);
        while let Some((code, t)) = closing(&book.read(), saga) {
            book = book.then(&[code, t as u8]);
            let reading = book.read();
            assert_eq!(reading.number, 0);
            assert_eq!(outstanding(&reading, saga) + 1, owed);
            owed -= 1;
        }
        assert_eq!(owed, 0);
    }
}

#[test]
fn no_such_saga() {
    let reading = read(&LISTED);
    assert_eq!(outstanding(&reading, 1), 0);
    assert_eq!(closing(&reading, 1), None);
    assert_eq!(closing(&read(&[]), 0), None);
}

#[test]
fn settled_and_untouched_sagas_are_listed_with_none() {
    let book = Book::new(&[1, 1, 1], 0, 0, &[]);
    let book = book.begin(2).abort(2).begin(4).done(5).commit(4);
    let shown = listing(&book.0);
    assert!(shown.ends_with("saga 0 0 none\nsaga 1 0 none\nsaga 2 0 none\n"));
}

#[test]
fn who_is_active() {
    let book = Book::begun(64, 0);
    let all = report(&book.read());
    assert_eq!((all.active, all.lowest), (64, 0));
    let some = report(&book.commit(0).abort(1).read());
    assert_eq!((some.active, some.lowest), (62, 2));
    let none = report(&saga_of_three().read());
    assert_eq!((none.active, none.lowest), (0, 64));
}
