//! Tables that can never move: refusal 21, and reading with circles permitted.

use crate::books::{answer, Book, LISTED, READ};
use second::{
    listing, listing_circles_permitted, opening, opening_circles_permitted, read,
    read_circles_permitted, read_circles_permitted_to_first_refusal, report, unpack, write,
    Refused,
};

const BEGIN_KINDS: [u8; 4] = [4, 5, 6, 7];
const COMMIT_KINDS: [u8; 3] = [1, 2, 3];

/// Tables with so many plain transactions and these entries.
fn plain(transactions: u8, entries: &[[u8; 3]]) -> Book {
    Book::new(&[], transactions, 1, entries)
}

/// A saga of two steps (0 to 3), a saga of one step (4 and 5), plain 6 to 8.
fn mixed(entries: &[[u8; 3]]) -> Book {
    Book::new(&[2, 1], 3, 1, entries)
}

/// Asserts that the tables are refused by 21 at the number of dependencies.
#[track_caller]
fn never_moves(tables: &Book, place: usize) {
    assert_eq!(answer(&tables.0), (21, 0, place));
}

#[track_caller]
fn moves(tables: &Book) {
    assert_eq!(tables.number(), 0);
}

/// Number, events and place of a book read with circles permitted to its first
/// refusal.
fn circles_answer(book: &Book) -> (u8, usize, usize) {
    let reading = read_circles_permitted_to_first_refusal(&book.0);
    (reading.number, reading.events, reading.place)
}

#[test]
fn two_that_wait_for_each_other() {
    for one in BEGIN_KINDS {
        for other in BEGIN_KINDS {
            never_moves(&plain(2, &[[0, 1, one], [1, 0, other]]), 4);
        }
    }
}

#[test]
fn kinds_1_to_3_do_not_count() {
    for one in COMMIT_KINDS {
        for other in 1..=7 {
            moves(&plain(2, &[[0, 1, one], [1, 0, other]]));
            moves(&plain(2, &[[0, 1, other], [1, 0, one]]));
        }
    }
}

#[test]
fn a_ring_of_three_and_each_way_to_break_it() {
    let ring = [[0, 1, 4], [1, 2, 6], [2, 0, 5]];
    never_moves(&plain(3, &ring), 4);
    for link in 0..3 {
        for kind in COMMIT_KINDS {
            let mut broken = ring;
            broken[link][2] = kind;
            moves(&plain(3, &broken));
        }
    }
}

#[test]
fn a_link_of_several_kinds_counts_if_one_does() {
    never_moves(&plain(2, &[[0, 1, 1], [0, 1, 2], [0, 1, 7], [1, 0, 4]]), 4);
    moves(&plain(2, &[[0, 1, 1], [0, 1, 2], [0, 1, 3], [1, 0, 4]]));
}

#[test]
fn a_ring_through_sagas() {
    never_moves(&mixed(&[[0, 4, 4], [4, 0, 6]]), 6);
    never_moves(&mixed(&[[0, 6, 7], [6, 0, 5]]), 6);
    never_moves(&mixed(&[[0, 7, 4], [4, 0, 4], [7, 8, 4], [8, 4, 4]]), 6);
    moves(&mixed(&[[0, 4, 4], [6, 0, 6], [6, 4, 5], [7, 6, 7]]));
}

#[test]
fn the_rules_of_a_saga_add_no_step() {
    // The steps of each saga wait for it, and plain ones for its end.
    moves(&mixed(&[[0, 6, 6], [4, 0, 6], [7, 0, 6], [7, 4, 7]]));
    moves(&mixed(&[[4, 6, 4], [6, 0, 5], [6, 0, 6], [6, 0, 7]]));
}

#[test]
fn a_ring_of_all_transactions() {
    let entries: Vec<[u8; 3]> = (0..64).map(|t| [t, (t + 1) % 64, 4]).collect();
    never_moves(&plain(64, &entries), 4);
    moves(&plain(64, &entries[..63]));
    moves(&plain(64, &entries[1..]));
}

#[test]
fn the_place_is_the_first_byte_of_the_number_of_dependencies() {
    let mut bytes = vec![1, 0, 64, 0, 0x80, 0x01];
    for dependent in 0..64 {
        let base = (dependent + 1) % 64;
        bytes.extend([dependent, base, 1, dependent, base, 4]);
    }
    assert_eq!(answer(&bytes), (21, 0, 4));
}

#[test]
fn others_before_and_behind_a_ring() {
    // 1 and 2 wait for each other, 0 for 1, 1 for 3 too.
    never_moves(&plain(4, &[[0, 1, 4], [1, 2, 4], [1, 3, 4], [2, 1, 4]]), 4);
    // Two rings, and one that is in both.
    never_moves(&plain(3, &[[0, 1, 4], [1, 0, 4], [1, 2, 4], [2, 1, 4]]), 4);
}

#[test]
fn two_ways_to_one_base_are_no_ring() {
    moves(&plain(4, &[[0, 1, 4], [0, 2, 4], [1, 3, 4], [2, 3, 4]]));
    moves(&plain(3, &[[1, 0, 4], [2, 0, 4], [2, 1, 4]]));
}

/// All orders of the first so many transactions.
fn orders(transactions: u8) -> Vec<Vec<u8>> {
    let Some(last) = transactions.checked_sub(1) else {
        return vec![Vec::new()];
    };
    let shorter = orders(last).into_iter();
    shorter
        .flat_map(|order| {
            (0..=order.len()).map(move |at| {
                let mut order = order.clone();
                order.insert(at, last);
                order
            })
        })
        .collect()
}

#[test]
fn all_links_between_four_transactions() {
    let pairs: Vec<[u8; 2]> = (0..4)
        .flat_map(|dependent| (0..4).map(move |base| [dependent, base]))
        .filter(|[dependent, base]| dependent != base)
        .collect();
    let orders = orders(4);
    assert_eq!((pairs.len(), orders.len()), (12, 24));
    for chosen in 0..1 << pairs.len() {
        let links = pairs.iter().enumerate();
        let links: Vec<[u8; 2]> = links
            .filter(|(index, _)| chosen >> index & 1 == 1)
            .map(|(_, link)| *link)
            .collect();
        let can_begin_so = |order: &Vec<u8>| {
            let at = |t: u8| order.iter().position(|other| *other == t);
            links.iter().all(|[d, base]| at(*base) < at(*d))
        };
        let entries: Vec<[u8; 3]> = links.iter().map(|[d, base]| [*d, *base, 4]).collect();
        let expected = if orders.iter().any(can_begin_so) {
            0
        } else {
            21
        };
        assert_eq!(plain(4, &entries).number(), expected, "{links:?}");
    }
}

#[test]
fn it_counts_as_refused_tables() {
    let book = mixed(&[[6, 7, 4], [7, 6, 4]]).begin(8).operate(8, 0, READ);
    never_moves(&book, 6);
    assert_eq!(listing(&book.0), "book refused 21 0 6\n");
    assert!(opening(&book.0).is_empty());
    let reading = read(&book.0);
    assert_eq!((reading.opening, reading.tables.transactions()), (0, 0));
    assert!(reading.tables.sagas().is_empty());
    let shown = report(&reading);
    assert_eq!((shown.active, shown.lowest), (0, 64));
    assert_eq!(shown.pairs, [0; 64]);
}

#[test]
fn refusals_in_the_tables_come_first() {
    // The number of dependencies says three, and two make a ring.
    let torn = Book(vec![1, 0, 2, 0, 3, 0, 1, 4, 1, 0, 4]);
    assert_eq!(answer(&torn.0), (2, 0, 11));
    assert_eq!(answer(&torn.clone().then(&[1, 0, 0x80]).0), (2, 0, 13));
    assert_eq!(answer(&torn.clone().then(&[1, 0x80, 0x00]).0), (3, 0, 12));
    assert_eq!(answer(&torn.clone().then(&[1, 0, 8]).0), (6, 0, 11));
    assert_eq!(answer(&torn.clone().then(&[1, 0, 4]).0), (6, 0, 11));
    assert_eq!(answer(&torn.then(&[1, 0, 5]).0), (21, 0, 4));
}

#[test]
fn it_comes_before_anything_in_the_events() {
    let tables = plain(2, &[[0, 1, 4], [1, 0, 4]]);
    for events in [&[][..], &[0], &[8], &[1], &[0x80], &[0x80, 0x00], &[1, 9]] {
        never_moves(&tables.clone().then(events), 4);
    }
}

#[test]
fn a_book_that_is_too_long_is_refused_for_that() {
    let tables = plain(2, &[[0, 1, 4], [1, 0, 4]]);
    let longest = tables.clone().then(&vec![1; 65_536 - tables.0.len()]);
    never_moves(&longest, 4);
    assert_eq!(answer(&longest.then(&[1]).0), (1, 0, 0));
}

#[test]
fn unpacking_and_writing() {
    let refused = |place| Refused {
        number: 21,
        events: 0,
        place,
    };
    let book = mixed(&[[6, 7, 4], [7, 6, 4]]).begin(8);
    let mut fields = [7777; 40];
    assert_eq!(unpack(&book.0, &mut fields), Err(refused(6)));
    assert_eq!(unpack(&book.0, &mut []), Err(refused(6)));
    assert_eq!(fields, [7777; 40]);
    let list: Vec<u32> = book.0.iter().map(|byte| u32::from(*byte)).collect();
    let mut bytes = [0xEE; 40];
    assert_eq!(write(&list, &mut bytes), Err(refused(6)));
    assert_eq!(write(&list, &mut []), Err(refused(6)));
    assert_eq!(bytes, [0xEE; 40]);
    let wrong_later = [&list[..], &[300, 65_535]].concat();
    assert_eq!(write(&wrong_later, &mut bytes), Err(refused(6)));
    let too_long = [&list[..], &[65_535; 21_846]].concat();
    assert_eq!(write(&too_long, &mut bytes).unwrap_err().number, 1);
}

#[test]
fn with_circles_permitted_a_ring_is_taken_and_nobody_on_it_begins() {
    let entries = [[0, 6, 4], [6, 7, 5], [7, 0, 6], [8, 6, 2]];
    let book = mixed(&entries);
    never_moves(&book, 6);
    assert_eq!(circles_answer(&book), (0, 0, 0));
    for (t, number) in [(0, 14), (6, 14), (7, 14), (1, 13), (4, 0), (8, 0)] {
        assert_eq!(circles_answer(&book.clone().begin(t)).0, number, "{t}");
    }
    let begun = book.begin(4).done(5).commit(4).begin(8).operate(8, 0, READ);
    assert_eq!(circles_answer(&begun), (0, 6, 0));
    let end = begun.0.len();
    for t in [0, 6, 7] {
        let waiting = begun.clone().begin(t);
        assert_eq!(circles_answer(&waiting), (14, 6, end));
        assert_eq!(opening_circles_permitted(&waiting.0), &begun.0);
        never_moves(&waiting, 6);
    }
    // The base of 8 never ends, and 8 may commit only after it.
    assert_eq!(circles_answer(&begun.commit(8)), (14, 6, end));
}

#[test]
fn what_is_shown_with_circles_permitted() {
    let book = plain(3, &[[0, 1, 4], [1, 0, 4]])
        .begin(2)
        .operate(2, 0, READ);
    let shown = "book accepted 2\nt 0 idle\nt 1 idle\nt 2 active\nop 0 0 read 2 active\n";
    assert_eq!(listing_circles_permitted(&book.0), shown);
    assert_eq!(opening_circles_permitted(&book.0), &book.0);
    let reported = report(&read_circles_permitted(&book.0));
    assert_eq!((reported.active, reported.lowest), (1, 2));
    let torn = book.clone().then(&[4, 2]);
    assert_eq!(opening_circles_permitted(&torn.0), &book.0);
    let shown = shown.replace("accepted 2", "refused 2 2 19");
    assert_eq!(listing_circles_permitted(&torn.0), shown);
}

#[test]
fn with_circles_permitted_all_other_refusals_stand() {
    let books = [
        Vec::new(),
        LISTED.to_vec(),
        [&LISTED[..], &[1, 2]].concat(),
        vec![2],
        vec![1, 17],
        vec![1, 0, 0x80, 0x00],
        vec![1, 0, 2, 0, 1, 0, 0, 4],
        vec![1; 65_537],
        plain(2, &[[0, 1, 4], [1, 0, 1]]).begin(0).0,
        plain(2, &[]).then(&[11]).0,
    ];
    for book in books {
        assert_eq!(listing_circles_permitted(&book), listing(&book));
        assert_eq!(opening_circles_permitted(&book), opening(&book));
        assert_eq!(report(&read_circles_permitted(&book)), report(&read(&book)));
    }
    // Of a ring too: an entry that can't stand there, and a book that breaks off.
    let torn = Book(vec![1, 0, 2, 0, 3, 0, 1, 4, 1, 0, 4]);
    assert_eq!(circles_answer(&torn), (2, 0, 11));
    assert_eq!(circles_answer(&torn.then(&[1, 0, 4])), (6, 0, 11));
}
