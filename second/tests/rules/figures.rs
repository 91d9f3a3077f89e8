//! The term's figures.

use crate::books::{Book, LISTED};
use second::{figures, Totals};

/// A book with one saga of one step that committed.
fn committed() -> Book {
    Book::new(&[1], 0, 0, &[]).begin(0).done(1).commit(0)
}

/// A book with one saga of one step that was given up.
fn backed_out() -> Book {
    Book::new(&[1], 0, 0, &[]).begin(0).abort(0)
}

fn of(books: &[Book]) -> String {
    figures(books.iter().map(|book| &book.0[..]))
}

#[track_caller]
fn totals(books: &[Book]) -> Totals {
    let none = Ok(Totals::default());
    let all = books.iter().fold(none, |totals: Result<Totals, u8>, book| {
        totals.and_then(|totals| totals.with(&book.0))
    });
    let all = all.unwrap();
    assert_eq!(all.committed + all.backed_out + all.open, all.begun);
    all
}

#[test]
fn no_books_at_all() {
    assert_eq!(of(&[]), "figures 0 0 0 0 0 0 share 0 1\n");
}

#[test]
fn each_saga_by_what_became_of_it() {
    // Saga 0 is idle, 1 committed, 2 was put back, 3 given up with an undo
    // left, 4 is begun, 5 could commit.
    let book = Book::new(&[1, 1, 2, 2, 1, 1], 1, 0, &[])
        .begin(2)
        .done(3)
        .commit(2)
        .begin(4)
        .done(5)
        .abort(4)
        .done(7)
        .begin(8)
        .done(9)
        .abort(8)
        .begin(12)
        .begin(14)
        .done(15);
    assert_eq!(book.number(), 0);
    assert_eq!(of(&[book]), "figures 1 0 5 1 1 3 share 1 5\n");
}

#[test]
fn a_plain_transaction_is_no_saga() {
    let clerk = Book::begun(3, 1).commit(0).abort(1);
    assert_eq!(of(&[clerk]), "figures 1 0 0 0 0 0 share 0 1\n");
}

#[test]
fn a_refused_book_adds_its_accepted_opening() {
    let torn = backed_out().then(&[1]);
    assert_eq!(of(&[torn]), "figures 1 1 1 0 1 0 share 1 1\n");
    let refused_in_the_middle = Book::new(&[1], 0, 0, &[])
        .begin(0)
        .commit(0)
        .done(1)
        .commit(0);
    let line = "figures 1 1 1 0 0 1 share 0 1\n";
    assert_eq!(of(&[refused_in_the_middle]), line);
    let unknown_code = committed().then(&[0]);
    assert_eq!(of(&[unknown_code]), "figures 1 1 1 1 0 0 share 0 1\n");
}

#[test]
fn refused_tables_add_nothing_but_their_count() {
    let refused = [
        &[][..],
        &[1, 1, 1, 0, 0],
        &[1, 0x80, 0x00],
        &[3, 1, 1, 0, 0, 0, 1, 0],
        &[1, 17],
        &[1, 0, 2, 0, 1, 0, 0, 1],
        &[1, 1, 1, 2, 0, 2, 2, 3, 4, 3, 2, 4, 1, 0],
        &[1; 65_537],
    ];
    for book in refused {
        assert_eq!(figures([book]), "figures 1 1 0 0 0 0 share 0 1\n");
    }
    let among_others = [&LISTED[..], refused[0], &backed_out().0];
    assert_eq!(figures(among_others), "figures 3 1 2 0 1 1 share 1 2\n");
}

#[test]
fn the_share_is_in_lowest_terms() {
    for (put_back, done, share) in [
        (0, 5, "0 1"),
        (0, 1, "0 1"),
        (1, 0, "1 1"),
        (7, 0, "1 1"),
        (2, 2, "1 2"),
        (6, 3, "2 3"),
        (3, 6, "1 3"),
        (12, 18, "2 5"),
        (5, 8, "5 13"),
        (21, 13, "21 34"),
    ] {
        let books = [vec![backed_out(); put_back], vec![committed(); done]].concat();
        let all = put_back + done;
        let line = format!("figures {all} 0 {all} {done} {put_back} 0 share {share}\n");
        assert_eq!(of(&books), line);
    }
}

#[test]
fn the_share_of_every_small_pair() {
    for begun in 0..=80 {
        for backed_out in 0..=begun {
            let totals = Totals {
                begun,
                backed_out,
                ..Totals::default()
            };
            let (above, below) = totals.share();
            assert!(below > 0);
            assert_eq!(above * begun, backed_out * below);
            let common = (2..=80).find(|n| above % n == 0 && below % n == 0);
            assert_eq!(common, None, "{backed_out} of {begun}");
        }
    }
}

#[test]
fn the_1001st_book_is_refused_and_changes_nothing() {
    let thousand = vec![backed_out(); 1000];
    assert_eq!(
        of(&thousand[..999]),
        "figures 999 0 999 0 999 0 share 1 1\n"
    );
    let full = "figures 1000 0 1000 0 1000 0 share 1 1\n";
    assert_eq!(of(&thousand), full);
    let before = totals(&thousand);
    assert_eq!(before.with(&committed().0), Err(23));
    assert_eq!(before.with(&[]), Err(23), "it is not read");
    let with_three_more = [thousand, vec![committed(), Book(vec![]), committed()]].concat();
    let refused = "refused 23\nrefused 23\nrefused 23\n";
    assert_eq!(of(&with_three_more), format!("{refused}{full}"));
}

#[test]
fn refused_books_count_among_the_thousand() {
    let books = [vec![Book(vec![]); 999], vec![committed(), committed()]].concat();
    let line = "refused 23\nfigures 1000 999 1 1 0 0 share 0 1\n";
    assert_eq!(of(&books), line);
}

#[test]
fn sixteen_sagas_in_each_of_a_thousand_books() {
    let book = (0..16).fold(Book::new(&[1; 16], 0, 0, &[]), |book, saga| {
        let book = book.begin(2 * saga);
        if saga % 2 == 0 {
            book.abort(2 * saga)
        } else {
            book
        }
    });
    let line = "figures 1000 0 16000 0 8000 8000 share 1 2\n";
    assert_eq!(of(&vec![book; 1000]), line);
}

#[test]
fn edition_2_counts_as_well() {
    let book = Book(vec![
        2, 1, 1, 0, 1, 0, 1, 0, 1, 1, 4, 1, 0, 1, 0xFF, 0xFF, 0x7F,
    ])
    .abort(0);
    assert_eq!(
        of(&[book.clone(), book.abort(1)]),
        "figures 2 0 2 0 1 1 share 1 2\n"
    );
}
