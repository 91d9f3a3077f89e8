//! Mending a torn book.

use crate::books::{handed_to_and_fro, Book, LISTED, READ, WRITE};
use second::{mend, mended_book, outstanding, read_to_first_refusal, Mended, Refused};

fn refused(number: u8, events: usize, place: usize) -> Refused {
    Refused {
        number,
        events,
        place,
    }
}

/// What mending says, and the book that is handed back.
#[track_caller]
fn mended(book: &[u8]) -> (Mended, Vec<u8>) {
    let mut room = vec![0xEE; 65_536];
    let said = mend(book, &mut room).unwrap();
    let written = match said {
        Mended::Own { .. } => 0,
        Mended::Written { bytes, .. } => bytes,
    };
    assert!(room[written..].iter().all(|byte| *byte == 0xEE));
    (said, mended_book(said, book, &room).to_vec())
}

/// Asserts that the book is handed back as this opening and these steps.
#[track_caller]
fn is_mended(book: &[u8], opening: usize, steps: &[u8]) {
    let whole = [&book[..opening], steps].concat();
    let said = Mended::Written {
        bytes: whole.len(),
        kept: read_to_first_refusal(&book[..opening]).events,
        dropped: book.len() - opening,
        added: steps.len() / 2,
    };
    assert_eq!(mended(book), (said, whole.clone()));
    let again = read_to_first_refusal(&whole);
    assert_eq!((again.number, again.opening), (0, whole.len()));
    let sagas = 0..again.tables.sagas().len();
    assert!(sagas.into_iter().all(|saga| outstanding(&again, saga) == 0));
    let kept = again.events;
    assert_eq!(mended(&whole), (Mended::Own { kept }, whole));
}

#[track_caller]
fn is_its_own(book: &[u8], kept: usize) {
    assert_eq!(mended(book), (Mended::Own { kept }, book.to_vec()));
    assert_eq!(mend(book, &mut []), Ok(Mended::Own { kept }));
}

#[test]
fn nothing_is_wrong_with_a_whole_book_whose_sagas_are_settled() {
    is_its_own(&[1, 0, 0, 0, 0], 0);
    let settled = Book(LISTED.to_vec()).begin(3).commit(3);
    is_its_own(&settled.0, 9);
    let idle_and_committed = Book::new(&[1, 1], 0, 0, &[]).begin(2).done(3).commit(2);
    is_its_own(&idle_and_committed.0, 4);
    let clerk_at_work = Book::begun(1, 1).operate(0, 0, WRITE);
    is_its_own(&clerk_at_work.0, 2);
}

#[test]
fn the_closing_steps_of_the_listed_book() {
    is_mended(&LISTED, 24, &[1, 3, 2, 3]);
}

#[test]
fn a_book_that_stopped_in_mid_event() {
    let whole = Book(LISTED.to_vec()).begin(3).commit(3);
    for torn in [
        &[5][..],
        &[5, 4],
        &[4, 4, 0x80],
        &[1, 0x80, 0x80],
        &[2, 0x80, 0x00],
    ] {
        is_mended(&whole.clone().then(torn).0, 28, &[]);
    }
    let mut opening = 0;
    for end in 6..whole.0.len() {
        opening = if [6, 8, 10, 12, 16, 20, 22, 24, 26].contains(&end) {
            end
        } else {
            opening
        };
        let steps: &[u8] = match opening {
            6 => &[],
            8 => &[3, 0],
            10..=20 => &[3, 0, 3, 1],
            22 => &[3, 0, 1, 3, 2, 3],
            24 => &[1, 3, 2, 3],
            _ => &[2, 3],
        };
        if end == 6 {
            is_its_own(&whole.0[..6], 0);
        } else {
            is_mended(&whole.0[..end], opening, steps);
        }
    }
}

#[test]
fn an_event_refused_in_the_middle_cuts_off_all_behind_it() {
    let book = Book::new(&[2], 1, 1, &[]).begin(0).commit(0).done(1);
    is_mended(&book.0, 8, &[3, 0]);
    let unknown_code = Book::new(&[2], 1, 1, &[]).then(&[0]).begin(0);
    is_mended(&unknown_code.0, 6, &[]);
}

#[test]
fn sagas_are_closed_in_rising_order() {
    // Saga 0: both steps done. Saga 1: idle. Saga 2: a step done, one at work.
    let book = Book::new(&[2, 1, 3], 0, 0, &[])
        .begin(6)
        .begin(0)
        .done(7)
        .done(1)
        .begin(8)
        .done(2);
    is_mended(&book.0, book.0.len(), &[2, 0, 3, 6, 3, 8, 1, 10, 2, 10]);
}

#[test]
fn undos_come_back_in_reverse() {
    let book = (1..=4).fold(Book::new(&[4], 0, 0, &[]).begin(0), Book::done);
    is_mended(&book.0, book.0.len(), &[2, 0]);
    let torn = &book.0[..book.0.len() - 1];
    let opening = torn.len() - 1;
    let steps = [3, 0, 3, 4, 1, 7, 2, 7, 1, 6, 2, 6, 1, 5, 2, 5];
    is_mended(torn, opening, &steps);
}

#[test]
fn clerks_stay_at_work_and_bar_no_closing_step() {
    // The undo's object is written by a clerk who stays.
    let book = Book::new(&[2], 1, 1, &[])
        .begin(0)
        .begin(4)
        .done(1)
        .operate(4, 0, WRITE)
        .begin(2)
        .operate(2, 0, READ);
    is_mended(&book.0, book.0.len(), &[3, 0, 3, 2, 1, 3, 2, 3]);
}

#[test]
fn edition_2_is_mended_too() {
    let book = [
        2, 1, 1, 0, 1, 0, 1, 0, 1, 1, 4, 1, 0, 1, 0xFF, 0xFF, 0x7F, 4, 1, 0, 1,
    ];
    is_mended(&book, 17, &[3, 0, 3, 1]);
}

#[test]
fn the_room_is_just_large_enough_or_19() {
    for size in 0..=28 {
        let mut room = vec![0xEE; size];
        let answer = mend(&LISTED, &mut room);
        if size < 28 {
            assert_eq!(answer, Err(refused(19, 7, 0)));
            assert_eq!(room, vec![0xEE; size]);
        } else {
            assert!(answer.is_ok());
        }
    }
    let torn = Book(LISTED.to_vec()).then(&[4, 0, 0]);
    assert_eq!(mend(&torn.0, &mut [0; 27]), Err(refused(19, 7, 0)));
    let only_tables = [1, 0, 0, 0, 0, 7];
    assert_eq!(mend(&only_tables, &mut [0; 4]), Err(refused(19, 0, 0)));
    assert!(mend(&only_tables, &mut [0; 5]).is_ok());
}

#[test]
fn refused_tables_are_not_mended() {
    for (book, number, place) in [
        (&[][..], 2, 0),
        (&[1, 0, 0, 0], 2, 4),
        (&[1, 0x80, 0x00], 3, 1),
        (&[3, 0, 0, 0, 0], 4, 0),
        (&[1, 17], 5, 1),
        (&[1, 0, 2, 0, 1, 0, 0, 1], 6, 5),
        (&[1, 0, 2, 0, 2, 0, 1, 4, 1, 0, 4], 21, 4),
        (&[1; 65_537], 1, 0),
    ] {
        let mut room = [0xEE; 8];
        assert_eq!(mend(book, &mut room), Err(refused(number, 0, place)));
        assert_eq!(room, [0xEE; 8]);
    }
}

#[test]
fn a_result_that_is_too_long_is_1_before_19() {
    // The saga of this book is begun: one step closes it.
    let book = handed_to_and_fro(16_380);
    assert_eq!(book.0.len(), 65_536);
    let events = book.read().events;
    let mut room = vec![0xEE; 65_538];
    assert_eq!(mend(&book.0, &mut room), Err(refused(1, events, 0)));
    assert_eq!(room, vec![0xEE; 65_538]);
    assert_eq!(mend(&book.0, &mut []), Err(refused(1, events, 0)));
    let shorter = handed_to_and_fro(16_379).then(&[1, 0x80]);
    is_mended(&shorter.0, 65_532, &[3, 0]);
    let just_fits = handed_to_and_fro(16_379).begin(1);
    assert_eq!(mend(&just_fits.0, &mut room), Err(refused(1, 16_384, 0)));
    let longest = Book::new(&[1], 2, 1, &[]).begin(0).begin(2).begin(3);
    let longest = longest.operate(2, 0, WRITE).abort(0);
    let longest = (0..8_189).fold(longest, |book, _| book.delegate(2, 3, 0).delegate(3, 2, 0));
    assert_eq!(longest.0.len(), 65_530);
    is_its_own(&longest.0, 16_383);
    let torn = longest.then(&[5, 2, 3, 0, 4, 2]);
    is_mended(&torn.0, 65_534, &[]);
    assert_eq!(mend(&torn.0, &mut [0; 65_533]), Err(refused(19, 16_384, 0)));
}
