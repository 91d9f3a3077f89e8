//! Reading goes on behind a refused event, unless it is asked not to.

use crate::books::{handed_to_and_fro, Book, LISTED, READ, WRITE};
use crate::chance::Chance;
use second::{
    listing, listing_circles_permitted, listing_circles_permitted_to_first_refusal,
    listing_to_first_refusal, opening, read, read_circles_permitted,
    read_circles_permitted_to_first_refusal, read_to_first_refusal, replay_order, report, unpack,
    write, Reading, Refused, RefusedEvent,
};

/// The refused events of a reading, each with its index and number.
fn refused(reading: &Reading) -> Vec<(usize, u8)> {
    let listed = reading.refused_events.iter();
    listed
        .map(|RefusedEvent { index, number }| (*index, *number))
        .collect()
}

fn answer(reading: &Reading) -> (u8, usize, usize) {
    (reading.number, reading.events, reading.place)
}

/// The lines of a listing but for the first one and those of refused events.
fn state_lines(listing: &str) -> Vec<&str> {
    let behind = listing.lines().skip(1);
    behind.filter(|line| !line.starts_with("no ")).collect()
}

/// S 0, T1 1, T2 2, C1 3; plain 4 to 7; three objects; 7 begins when 6 has committed. The saga
/// is aborted with T1 to undo, and 4 and 5 are active.
fn weekend() -> Book {
    Book::new(&[2], 4, 3, &[[7, 6, 6]])
        .begin(0)
        .done(1)
        .abort(0)
        .begin(4)
        .begin(5)
}

/// For each number, what comes before and the event that is then refused.
fn refused_by_each() -> Vec<(u8, Book, Vec<u8>)> {
    let written = weekend().operate(4, 0, WRITE);
    let ring = written
        .clone()
        .operate(5, 0, WRITE)
        .operate(5, 1, WRITE)
        .operate(4, 1, WRITE);
    let undo_after_4 = weekend()
        .operate(4, 0, READ)
        .operate(5, 0, WRITE)
        .operate(5, 1, WRITE)
        .commit(5)
        .begin(3)
        .operate(3, 1, READ)
        .operate(3, 2, WRITE);
    let full = (0..256).fold(weekend(), |book, _| book.operate(4, 0, READ));
    vec![
        (8, weekend(), vec![1, 8]),
        (8, weekend(), vec![4, 4, 0, 2]),
        (8, weekend(), vec![4, 4, 3, 0]),
        (8, weekend(), vec![6, 4, 0]),
        (9, weekend(), vec![3, 3]),
        (10, weekend(), vec![1, 4]),
        (11, weekend(), vec![2, 0]),
        (12, written.clone(), vec![5, 5, 4, 0]),
        (13, weekend(), vec![1, 2]),
        (14, weekend(), vec![1, 7]),
        (15, written.clone().operate(5, 0, READ), vec![2, 5]),
        (16, ring, vec![2, 4]),
        (17, written.clone().begin(3), vec![4, 3, 0, 0]),
        (18, full, vec![4, 5, 0, 0]),
        (20, written.commit_operation(4, 0), vec![7, 4, 0]),
        (22, undo_after_4, vec![4, 4, 2, 1]),
    ]
}

#[test]
fn each_number_in_the_middle_of_a_book() {
    for (number, before, event) in refused_by_each() {
        let events = before.read().events;
        before
            .clone()
            .then(&event)
            .refuses_last(number, event.len());
        let book = before.clone().then(&event).begin(6).then(&event).abort(6);
        let without = before.clone().begin(6).abort(6);
        let reading = read(&book.0);
        assert_eq!(answer(&reading), (0, events + 2, 0), "{number}");
        assert_eq!(refused(&reading), [(events, number), (events + 2, number)]);
        assert_eq!(reading.opening, before.0.len());
        assert_eq!(reading.judged(), events + 4);
        let listed = listing(&book.0);
        let head = format!(
            "book accepted {}\nno {events} {number}\nno {} {number}\nt 0 ",
            events + 2,
            events + 2
        );
        assert!(listed.starts_with(&head), "{listed}");
        let listed_without = listing(&without.0);
        assert_eq!(state_lines(&listed), state_lines(&listed_without));
        assert_eq!(report(&reading), report(&read(&without.0)));

        let stopped = read_to_first_refusal(&book.0);
        assert_eq!(answer(&stopped), (number, events, before.0.len()));
        assert_eq!(refused(&stopped), []);
        let listed = listing_to_first_refusal(&book.0);
        assert_eq!(state_lines(&listed), state_lines(&listing(&before.0)));
        assert!(!listed.contains("no "));
    }
}

#[test]
fn what_stops_reading_still_does() {
    let before = weekend().begin(4);
    let place = before.0.len();
    for (number, bytes, at) in [
        (2, &[1][..], 1),
        (2, &[4, 8, 9], 3),
        (2, &[1, 0x80], 1),
        (3, &[1, 0x80, 0x00], 1),
        (3, &[0x80, 0x00, 0], 0),
        (7, &[11, 0, 1, 6], 0),
        (7, &[0], 0),
    ] {
        let book = before.clone().then(bytes);
        let reading = read(&book.0);
        assert_eq!(answer(&reading), (number, 6, place + at), "{bytes:?}");
        assert_eq!(refused(&reading), [(6, 10)]);
        assert_eq!(reading.opening, place - 2);
        let head = format!("book refused {number} 6 {}\nno 6 10\nt 0 ", place + at);
        assert!(listing(&book.0).starts_with(&head));
    }
}

#[test]
fn refused_tables_list_no_event() {
    for book in [&[][..], &[1, 0, 65, 1, 0], &[2], &[1; 65_537]] {
        assert_eq!(listing(book), listing_to_first_refusal(book));
        assert_eq!(listing(book).lines().count(), 1);
        assert!(read(book).refused_events.is_empty());
    }
}

#[test]
fn the_first_event_and_the_last() {
    let book = Book::new(&[], 1, 0, &[]).commit(0).begin(0).begin(0);
    assert_eq!(
        listing(&book.0),
        "book accepted 1\nno 0 11\nno 2 10\nt 0 active\n"
    );
    assert_eq!(opening(&book.0), &book.0[..5]);
    let nothing_but = Book::new(&[], 1, 0, &[]).commit(0);
    assert_eq!(
        listing(&nothing_but.0),
        "book accepted 0\nno 0 11\nt 0 idle\n"
    );
}

#[test]
fn what_is_refused_first_may_be_accepted_later() {
    // 1 reads what 0 has written, and can't commit before 0 does.
    let book = Book::begun(2, 1)
        .operate(0, 0, WRITE)
        .operate(1, 0, READ)
        .commit(1)
        .commit(0)
        .commit(1);
    let reading = read(&book.0);
    assert_eq!(answer(&reading), (0, 6, 0));
    assert_eq!(refused(&reading), [(4, 15)]);
    assert_eq!(replay_order(&reading), [0, 1]);
    assert_eq!(replay_order(&read_to_first_refusal(&book.0)), []);
}

#[test]
fn reading_goes_on_behind_all_fields_of_a_refused_event() {
    // An object of two bytes, an unknown transaction of three, a bad mark.
    let book = Book::begun(1, 1)
        .then(&[4, 0, 0x80, 0x01, 1])
        .then(&[5, 0xFF, 0xFF, 0x03, 0, 0])
        .then(&[4, 0, 0, 0x80, 0x02])
        .operate(0, 0, WRITE);
    let reading = read(&book.0);
    assert_eq!(answer(&reading), (0, 2, 0));
    assert_eq!(refused(&reading), [(1, 8), (2, 8), (3, 8)]);
}

#[test]
fn unpacking_writing_and_the_opening_keep_the_old_way() {
    let book = Book(LISTED.to_vec()).begin(2).begin(3);
    let at_the_begin = |place| Refused {
        number: 13,
        events: 7,
        place,
    };
    assert_eq!(unpack(&book.0, &mut [0; 99]), Err(at_the_begin(24)));
    assert_eq!(unpack(&book.0, &mut []), Err(at_the_begin(24)));
    let fields: Vec<u32> = book.0.iter().map(|byte| u32::from(*byte)).collect();
    assert_eq!(write(&fields, &mut [0; 99]), Err(at_the_begin(24)));
    assert_eq!(opening(&book.0), &LISTED);
}

#[test]
fn with_circles_permitted_in_both_ways() {
    // Plain 0 and 1 wait for each other; 2 does not.
    let tables = Book::new(&[], 3, 0, &[[0, 1, 4], [1, 0, 4]]);
    let book = tables.clone().begin(0).begin(2).begin(1).commit(2);
    let reading = read_circles_permitted(&book.0);
    assert_eq!(answer(&reading), (0, 2, 0));
    assert_eq!(refused(&reading), [(0, 14), (2, 14)]);
    assert_eq!(
        listing_circles_permitted(&book.0),
        "book accepted 2\nno 0 14\nno 2 14\nt 0 idle\nt 1 idle\nt 2 committed\n"
    );
    let stopped = read_circles_permitted_to_first_refusal(&book.0);
    assert_eq!(answer(&stopped), (14, 0, tables.0.len()));
    assert_eq!(
        listing_circles_permitted_to_first_refusal(&book.0),
        "book refused 14 0 11\nt 0 idle\nt 1 idle\nt 2 idle\n"
    );
    assert_eq!(listing(&book.0), "book refused 21 0 4\n");
    assert_eq!(listing_to_first_refusal(&book.0), "book refused 21 0 4\n");
}

/// Any event, most of them refused.
fn draw(chance: &mut Chance) -> Vec<u8> {
    let mut below = |limit: usize| chance.below(limit) as u8;
    match below(12) {
        0..=2 => vec![1, below(9)],
        3..=5 => vec![2, below(9)],
        6 => vec![3, below(9)],
        7..=9 => vec![4, below(9), below(4), below(3)],
        10 => vec![5, below(9), below(9), below(8)],
        _ => vec![6 + below(2), below(9), below(8)],
    }
}

#[test]
fn both_ways_say_the_same_of_each_event() {
    let (mut most, mut accepted) = (0, 0);
    for seed in 0..400 {
        let chance = &mut Chance::new(seed);
        let events: Vec<Vec<u8>> = (0..chance.below(120)).map(|_| draw(chance)).collect();
        let tables = Book::new(&[2], 4, 3, &[[7, 6, 6]]);
        let mut whole = tables.clone();
        let (mut taken, mut no) = (tables, Vec::new());
        for (index, event) in events.iter().enumerate() {
            // What is accepted so far is a book that is accepted whole, so the
            // old way judges the next event by itself.
            whole = whole.then(event);
            let tried = taken.clone().then(event);
            match tried.number() {
                0 => taken = tried,
                number => no.push((index, number)),
            }
        }
        let reading = read(&whole.0);
        let expected = taken.read();
        assert_eq!(answer(&reading), (0, expected.events, 0));
        assert_eq!(refused(&reading), no);
        assert_eq!(
            state_lines(&listing(&whole.0)),
            state_lines(&listing(&taken.0))
        );
        assert_eq!(report(&reading), report(&expected));
        assert_eq!(reading.state.left(), expected.state.left());
        assert_eq!(replay_order(&reading), replay_order(&expected));
        let stopped = read_to_first_refusal(&whole.0);
        assert_eq!(reading.opening, stopped.opening);
        let (number, before) = no.first().map_or((0, events.len()), |(i, n)| (*n, *i));
        assert_eq!((stopped.number, stopped.events), (number, before));
        assert_eq!(
            state_lines(&listing_to_first_refusal(&whole.0)),
            state_lines(&listing(opening(&whole.0)))
        );
        most = most.max(no.len());
        accepted += reading.events;
    }
    assert!(most > 60 && accepted > 2_000, "{most} {accepted}");
}

#[test]
fn a_book_of_refused_events_only() {
    let not_active = (0..32_765).fold(Book::new(&[], 1, 0, &[]), |book, _| book.commit(0));
    assert_eq!(not_active.0.len(), 65_535);
    let lines: String = (0..32_765)
        .map(|index| format!("no {index} 11\n"))
        .collect();
    assert_eq!(
        listing(&not_active.0),
        format!("book accepted 0\n{lines}t 0 idle\n")
    );
    let torn = not_active.then(&[2]);
    assert_eq!(
        listing(&torn.0),
        format!("book refused 2 0 65536\n{lines}t 0 idle\n")
    );
}

#[test]
fn a_long_run_of_commits_on_a_ring() {
    // 64 in a round, by 256 operations, and one of them tries to commit.
    let round = (0..64).fold(Book::begun(64, 32), |book, t| {
        let next = (t + 1) % 64;
        book.operate(t, t % 32, WRITE)
            .operate(t, t % 32, READ)
            .operate(next, t % 32, WRITE)
            .operate(next, t % 32, WRITE)
    });
    let room = (65_536 - round.0.len()) / 2;
    let book = (0..room).fold(round, |book, _| book.commit(5));
    let reading = read(&book.0);
    assert_eq!((reading.number, reading.events), (0, 64 + 256));
    let by_16 = reading.refused_events.iter().filter(|no| no.number == 16);
    assert_eq!(by_16.count(), room);
    assert!(room > 32_000);
}

#[test]
fn a_book_without_a_refused_event_is_listed_alike_in_both_ways() {
    for book in [Book(LISTED.to_vec()), handed_to_and_fro(50), weekend()] {
        assert_eq!(listing(&book.0), listing_to_first_refusal(&book.0));
        assert_eq!(read(&book.0).opening, book.0.len());
    }
}
