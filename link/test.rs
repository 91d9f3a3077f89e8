//! Calls libsagalib.a through the package sagalib. What differs from the rules is told, and the status is then 1.
//!
//! It starts as a C program does. Rust's own start looks up where the stack lies, which an emulator of x86-64 may not tell.
#![no_main]

use sagalib::{
    Answer, BOOK_BYTES, Desk, Event, LINE_BYTES, LISTING_BYTES, MOST_1, MOST_2, Mark, Mended,
    OPERATIONS, Operation, Phase, Refusal, Refused, SAGAS, Share, Step, TRANSACTIONS, Tally,
    Totals, Way, add, left, listing, mend, next, opening, read, refused, replay, share, unpack,
    write,
};

const ON: Way = Way::READ_ON;
const TO_FIRST: Way = Way::TO_FIRST_REFUSAL;
const ON_WITH_CIRCLES: Way = Way {
    permit_circles: true,
    ..ON
};
const TO_FIRST_WITH_CIRCLES: Way = Way {
    permit_circles: true,
    ..TO_FIRST
};
const WAYS: [Way; 4] = [ON, TO_FIRST, ON_WITH_CIRCLES, TO_FIRST_WITH_CIRCLES];

const BYTE: u8 = 0xA5;
const FIELD: u32 = 0xA5C3_A5C3;
const TRANSACTION: u16 = 0xA5C3;
const NUMBER: u64 = 0xA5C3_A5C3_A5C3_A5C3;

/// The listing's book.
const LISTED: [u8; 24] = [
    0x01, 0x01, 0x02, 0x01, 0x01, 0x00, 0x01, 0x00, 0x01, 0x01, 0x01, 0x04, 0x04, 0x01, 0x00, 0x01,
    0x05, 0x01, 0x04, 0x00, 0x02, 0x01, 0x03, 0x00,
];

/// The lines of its listing behind the first, each with a line feed.
const LATER_LINES: &str = "t 0 aborted\nt 1 committed\nt 2 idle\nt 3 idle\nt 4 active\nop 0 0 write 4 active\nsaga 0 2 begin 3\n";

/// A saga that is settled.
const NOTHING: Option<Step> = Some(Step {
    event: None,
    outstanding: 0,
    settled: true,
});

type Answered = Result<Answer, Refused>;

/// The answer that has these four numbers in the library.
fn answer(number: u64, events: u64, place: u64, count: u64) -> Answered {
    match Refusal::of(number) {
        None => Ok(Answer { events, count }),
        Some(refusal) => Err(Refused {
            refusal,
            events,
            place,
            passed: count,
        }),
    }
}

fn step(event: Event, outstanding: u64) -> Option<Step> {
    Some(Step {
        event: Some(event),
        outstanding,
        settled: false,
    })
}

/// The listing's book with more bytes.
fn listed_then(more: &[u8]) -> Vec<u8> {
    [&LISTED[..], more].concat()
}

/// The listing is this text: in a large room, in one that just holds it, and not in one that is a byte too small.
fn has_listing(book: &[u8], way: Way, text: &str, events: u64) {
    let size = text.len();
    for fits in [LISTING_BYTES, size] {
        let mut room = vec![BYTE; LISTING_BYTES];
        assert_eq!(
            listing(book, way, &mut room[..fits]),
            answer(0, events, 0, size as u64)
        );
        assert_eq!(&room[..size], text.as_bytes());
        assert!(room[size..].iter().all(|b| *b == BYTE));
    }
    let mut room = vec![BYTE; size - 1];
    assert_eq!(listing(book, way, &mut room), answer(19, events, 0, 0));
    assert!(room.iter().all(|b| *b == BYTE));
}

/// A book cannot be unpacked, and the room is left as it was.
fn is_not_unpacked(book: &[u8], refused: Answered) {
    let mut room = vec![FIELD; book.len() + 8];
    assert_eq!(unpack(book, &mut room), refused);
    assert!(room.iter().all(|f| *f == FIELD));
}

/// Fields are not written, and the room is left as it was.
fn is_not_written(fields: &[u32], refused: Answered) {
    let mut room = vec![BYTE; 3 * fields.len() + 8];
    assert_eq!(write(fields, &mut room), refused);
    assert!(room.iter().all(|b| *b == BYTE));
}

/// A book that is accepted whole unpacks to fields that are written as the same bytes; rooms that are too small are left as they were.
fn goes_and_comes_back(book: &[u8], events: u64) {
    let size = book.len();
    let mut fields = vec![FIELD; size + 8];
    let unpacked = unpack(book, &mut fields);
    let count = unpacked.unwrap().count as usize;
    assert_eq!(unpacked, answer(0, events, 0, count as u64));
    assert!(count <= size);
    assert!(fields[count..].iter().all(|f| *f == FIELD));

    let mut small = vec![FIELD; count - 1];
    assert_eq!(unpack(book, &mut small), answer(19, events, 0, 0));
    assert!(small.iter().all(|f| *f == FIELD));
    let mut exact = vec![FIELD; count];
    assert_eq!(unpack(book, &mut exact), unpacked);
    assert_eq!(exact, &fields[..count]);

    let written = answer(0, events, 0, size as u64);
    let mut bytes = vec![BYTE; size + 8];
    assert_eq!(write(&exact, &mut bytes), written);
    assert_eq!(&bytes[..size], book);
    assert!(bytes[size..].iter().all(|b| *b == BYTE));
    let mut small = vec![BYTE; size - 1];
    assert_eq!(write(&exact, &mut small), answer(19, events, 0, 0));
    assert!(small.iter().all(|b| *b == BYTE));
    let mut whole = vec![BYTE; size];
    assert_eq!(write(&exact, &mut whole), written);
    assert_eq!(whole, book);
}

fn the_listing() {
    assert_eq!(read(&LISTED, ON), answer(0, 7, 0, 0));
    assert_eq!(opening(&LISTED), LISTED);
    for way in WAYS {
        has_listing(
            &LISTED,
            way,
            &["book accepted 7\n", LATER_LINES].concat(),
            7,
        );
    }

    assert_eq!(next(&LISTED, ON, 0), step(Event::Begin(3), 2));
    for saga in [1, 15, 16, 17, u64::MAX] {
        assert_eq!(next(&LISTED, ON, saga), None);
    }
    goes_and_comes_back(&LISTED, 7);
}

/// P5: the undo is begun and committed. P6: the second step instead.
fn after_the_listing() {
    let begun = listed_then(&[0x01, 0x03]);
    assert_eq!(read(&begun, ON), answer(0, 8, 0, 0));
    assert_eq!(next(&begun, ON, 0), step(Event::Commit(3), 1));

    let p5 = listed_then(&[0x01, 0x03, 0x02, 0x03]);
    assert_eq!(read(&p5, ON), answer(0, 9, 0, 0));
    assert_eq!(next(&p5, ON, 0), NOTHING);
    goes_and_comes_back(&p5, 9);

    let p6 = listed_then(&[0x01, 0x02]);
    assert_eq!(read(&p6, ON), answer(0, 7, 0, 1));
    assert_eq!(read(&p6, TO_FIRST), answer(13, 7, 24, 0));
    assert_eq!(opening(&p6), LISTED);
    has_listing(
        &p6,
        ON,
        &["book accepted 7\nno 7 13\n", LATER_LINES].concat(),
        7,
    );
    has_listing(
        &p6,
        TO_FIRST,
        &["book refused 13 7 24\n", LATER_LINES].concat(),
        7,
    );
    assert_eq!(next(&p6, ON, 0), step(Event::Begin(3), 2));
    is_not_unpacked(&p6, answer(13, 7, 24, 0));
    let fields: Vec<u32> = p6.iter().map(|b| u32::from(*b)).collect();
    is_not_written(&fields, answer(13, 7, 24, 0));
}

/// Refused events in the middle: the undo is begun twice, the second step begun, and the undo committed all the same.
fn read_on() {
    let book = listed_then(&[0x01, 0x03, 0x01, 0x03, 0x01, 0x02, 0x02, 0x03]);
    assert_eq!(read(&book, ON), answer(0, 9, 0, 2));
    assert_eq!(read(&book, TO_FIRST), answer(10, 8, 26, 0));
    assert_eq!(opening(&book), &book[..26]);
    has_listing(
        &book,
        ON,
        "book accepted 9\nno 8 10\nno 9 13\nt 0 aborted\nt 1 committed\nt 2 idle\nt 3 committed\nt 4 active\n\
         op 0 0 write 4 active\nsaga 0 0 none\n",
        9,
    );
    assert_eq!(next(&book, ON, 0), NOTHING);
    assert_eq!(next(&book, TO_FIRST, 0), step(Event::Commit(3), 1));
    assert_eq!(left(&book, ON), 0);
    assert_eq!(left(&book, TO_FIRST), 1);

    // then torn: what was passed over before is told all the same
    assert_eq!(read(&book[..31], ON), answer(2, 8, 31, 2));
}

/// Nobody begins: 0 commits, 1 commits, 0 reads an object that is not there.
const REFUSED: [u8; 13] = [
    0x01, 0x00, 0x02, 0x00, 0x00, 0x02, 0x00, 0x02, 0x01, 0x04, 0x00, 0x00, 0x00,
];

/// The refused events from the one on that so many others come before, index and number each, in a list of so many numbers.
fn has_refused(way: Way, skip: u64, size: usize, numbers: &[u64]) {
    let n = numbers.len();
    let mut list = [NUMBER; 8];
    assert_eq!(
        refused(&REFUSED, way, skip, &mut list[..size]),
        n as u64 / 2
    );
    assert_eq!(&list[..n], numbers);
    assert!(list[n..].iter().all(|x| *x == NUMBER));
}

fn refused_events() {
    let all = [0, 11, 1, 11, 2, 8];
    has_refused(ON, 0, 8, &all);
    has_refused(ON_WITH_CIRCLES, 0, 6, &all);
    has_refused(ON, 0, 5, &all[..4]);
    has_refused(ON, 1, 8, &all[2..]);
    has_refused(ON, 2, 2, &all[4..]);
    for (skip, size) in [(3, 8), (u64::MAX, 8), (0, 1), (0, 0)] {
        has_refused(ON, skip, size, &[]);
    }
    has_refused(TO_FIRST, 0, 8, &[]);
    has_refused(TO_FIRST_WITH_CIRCLES, 0, 8, &[]);
}

/// Each of two transactions declares that it begins on the commit of the other: such tables are refused, unless circles are permitted. Then
/// neither begins.
fn circles() {
    let book = [
        0x01, 0x00, 0x02, 0x00, 0x02, 0x00, 0x01, 0x06, 0x01, 0x00, 0x06, 0x01, 0x00,
    ];
    for way in [ON, TO_FIRST] {
        assert_eq!(read(&book, way), answer(21, 0, 4, 0));
        has_listing(&book, way, "book refused 21 0 4\n", 0);
    }
    assert_eq!(read(&book, ON_WITH_CIRCLES), answer(0, 0, 0, 1));
    has_listing(
        &book,
        ON_WITH_CIRCLES,
        "book accepted 0\nno 0 14\nt 0 idle\nt 1 idle\n",
        0,
    );
    assert_eq!(read(&book, TO_FIRST_WITH_CIRCLES), answer(14, 0, 11, 0));
    has_listing(
        &book,
        TO_FIRST_WITH_CIRCLES,
        "book refused 14 0 11\nt 0 idle\nt 1 idle\n",
        0,
    );
}

fn empty_and_torn() {
    assert_eq!(read(&[], ON), answer(2, 0, 0, 0));
    assert_eq!(opening(&[]), []);
    for way in WAYS {
        has_listing(&[], way, "book refused 2 0 0\n", 0);
    }
    assert_eq!(next(&[], ON, 0), None);
    is_not_unpacked(&[], answer(2, 0, 0, 0));
    is_not_written(&[], answer(2, 0, 0, 0));

    // before the transaction of the last event: the saga is still active
    let torn = &LISTED[..23];
    assert_eq!(read(torn, ON), answer(2, 6, 23, 0));
    assert_eq!(opening(torn), &LISTED[..22]);
    has_listing(
        torn,
        ON,
        "book refused 2 6 23\nt 0 active\nt 1 committed\nt 2 idle\nt 3 idle\nt 4 active\nop 0 0 write 4 active\n\
         saga 0 3 abort 0\n",
        6,
    );
    assert_eq!(next(torn, ON, 0), step(Event::Abort(0), 3));
    is_not_unpacked(torn, answer(2, 6, 23, 0));

    // inside a number, and in the tables
    assert_eq!(read(&listed_then(&[0x01, 0x80]), ON), answer(2, 7, 25, 0));
    assert_eq!(read(&LISTED[..4], ON), answer(2, 0, 4, 0));
    assert_eq!(opening(&LISTED[..4]), []);
    assert_eq!(left(&LISTED[..4], ON), 0);
}

/// Taking the closing step again and again settles the saga of a torn book: each is accepted, and leaves one less.
fn closed_step_by_step() {
    let mut book = opening(&LISTED[..23]).to_vec();
    let mut events = 6;
    for owed in [3, 2, 1] {
        let next = next(&book, ON, 0).unwrap();
        assert_eq!(next.outstanding, owed);
        assert_eq!(left(&book, ON), owed);
        book.extend(bytes(next.event.unwrap(), 1));
        events += 1;
        assert_eq!(read(&book, ON), answer(0, events, 0, 0));
    }
    assert_eq!(next(&book, ON, 0), NOTHING);
    assert_eq!(left(&book, ON), 0);
}

/// Mending a book comes to this one, of so many events kept, bytes dropped and steps added: in a large room, in one that just holds it, and not in one that is a byte
/// too small. Mending that one hands it back.
fn comes_whole(torn: &[u8], whole: &[u8], kept: u64, dropped: u64, added: u64) {
    let size = whole.len();
    for fits in [BOOK_BYTES, size] {
        let mut room = vec![BYTE; BOOK_BYTES];
        let (told, came) = mend(torn, &mut room[..fits]).unwrap();
        assert_eq!(Ok(told), answer(0, kept, 0, size as u64));
        assert_eq!(
            came,
            Mended::Written {
                book: whole,
                dropped,
                added
            }
        );
        assert!(room[size..].iter().all(|b| *b == BYTE));
    }
    is_not_mended(torn, size - 1, answer(19, kept, 0, 0));
    is_whole(whole, kept + added);
}

/// Nothing is wrong with a book, whatever the room.
fn is_whole(book: &[u8], events: u64) {
    for size in [0, BOOK_BYTES] {
        let mut room = vec![BYTE; size];
        let (told, came) = mend(book, &mut room).unwrap();
        assert_eq!(Ok(told), answer(0, events, 0, 0));
        assert_eq!(came, Mended::Own(book));
        assert!(room.iter().all(|b| *b == BYTE));
    }
}

/// A book is not mended in a room of so many bytes, which is left as it was.
fn is_not_mended(book: &[u8], size: usize, refused: Answered) {
    let mut room = vec![BYTE; size];
    assert_eq!(mend(book, &mut room).map(|(told, _)| told), refused);
    assert!(room.iter().all(|b| *b == BYTE));
}

fn mended_books() {
    // torn in an event, refused in the middle, and only not settled
    let whole = listed_then(&[0x01, 0x03, 0x02, 0x03]);
    comes_whole(&LISTED[..23], &whole, 6, 1, 3);
    let refused = listed_then(&[0x01, 0x03, 0x01, 0x03, 0x01, 0x02, 0x02, 0x03]);
    comes_whole(&refused, &whole, 8, 6, 1);
    comes_whole(&LISTED, &whole, 7, 0, 2);
    // a plain transaction stays open, and what is torn behind settled sagas is dropped
    let torn = listed_then(&[0x01, 0x03, 0x02, 0x03, 0x02]);
    comes_whole(&torn, &whole, 9, 1, 0);
    // tables
    is_not_mended(&LISTED[..4], BOOK_BYTES, answer(2, 0, 4, 0));
    is_not_mended(&[], BOOK_BYTES, answer(2, 0, 0, 0));
    is_not_mended(&vec![0; BOOK_BYTES + 1], BOOK_BYTES, answer(1, 0, 0, 0));
}

/// A saga of one step, and two clerks who hand a change to and fro: with two closing steps the first book is as long as it may be, but for two bytes, and the second is too long.
fn mended_to_the_limit() {
    let mut book = vec![
        0x01, 0x01, 0x01, 0x02, 0x01, 0x00, 0x01, 0x00, 0x01, 0x01, 0x01, 0x02, 0x01, 0x03, 0x04,
        0x02, 0x00, 0x01,
    ];
    while book.len() < 65_530 {
        book.extend_from_slice(&[0x05, 0x02, 0x03, 0x00, 0x05, 0x03, 0x02, 0x00]);
    }
    let whole = [&book[..], &[0x03, 0x00, 0x03, 0x01]].concat();
    comes_whole(&book, &whole, 16_383, 0, 2);
    book.extend_from_slice(&[0x05, 0x02, 0x03, 0x00]);
    for size in [0, BOOK_BYTES] {
        is_not_mended(&book, size, answer(1, 16_384, 0, 0));
    }
}

/// Transaction 1 changes an object and finishes before 0 does the same; 2, which is still active, has kept its read of it.
const REPLAYED: [u8; 30] = [
    0x01, 0x00, 0x03, 0x01, 0x00, 0x01, 0x01, 0x04, 0x01, 0x00, 0x01, 0x02, 0x01, 0x01, 0x00, 0x04,
    0x00, 0x00, 0x01, 0x02, 0x00, 0x01, 0x02, 0x04, 0x02, 0x00, 0x00, 0x06, 0x02, 0x02,
];

/// A book's order, in a long list and in one that just holds it; one that is too short is left as it was.
fn has_order(book: &[u8], events: u64, order: &[u16]) {
    let n = order.len();
    for room in [TRANSACTIONS, n] {
        let mut list = [TRANSACTION; TRANSACTIONS];
        assert_eq!(
            replay(book, ON, &mut list[..room]),
            answer(0, events, 0, n as u64)
        );
        assert_eq!(&list[..n], order);
        assert!(list[n..].iter().all(|t| *t == TRANSACTION));
    }
    for room in 0..n {
        let mut list = [TRANSACTION; TRANSACTIONS];
        assert_eq!(
            replay(book, ON, &mut list[..room]),
            answer(19, events, 0, 0)
        );
        assert_eq!(list, [TRANSACTION; TRANSACTIONS]);
    }
}

fn replayed_in_order() {
    has_order(&REPLAYED, 9, &[1, 0, 2]);
    // torn: of the accepted opening; refused tables: nobody, whatever the list
    has_order(&REPLAYED[..29], 8, &[1, 0]);
    has_order(&REPLAYED[..13], 3, &[1]);
    has_order(&REPLAYED[..5], 0, &[]);
    has_order(&REPLAYED[..4], 0, &[]);
}

fn totals(books: u64, refused: u64, begun: u64, backed_out: u64, open: u64) -> Totals {
    Totals {
        books,
        refused,
        begun,
        committed: 0,
        backed_out,
        open,
    }
}

/// The listing's book is open; with its undo it is backed out; torn, its opening counts.
fn term_figures() {
    let settled = [&LISTED[..], &[0x01, 0x03, 0x02, 0x03]].concat();
    let mut term = Totals::default();
    assert_eq!(share(&term), Share { part: 0, whole: 1 });
    assert_eq!(add(&LISTED, &mut term), Ok(()));
    assert_eq!(term, totals(1, 0, 1, 0, 1));
    assert_eq!(share(&term), Share { part: 0, whole: 1 });
    assert_eq!(add(&settled, &mut term), Ok(()));
    assert_eq!(add(&LISTED[..23], &mut term), Err(Refusal::Torn));
    assert_eq!(add(&[], &mut term), Err(Refusal::Torn));
    assert_eq!(term, totals(4, 2, 3, 1, 2));
    assert_eq!(share(&term), Share { part: 1, whole: 3 });
    // the 1,000th book is read, the 1,001st is not
    term.books = 999;
    assert_eq!(add(&settled, &mut term), Ok(()));
    assert_eq!(term, totals(1000, 2, 4, 2, 2));
    assert_eq!(share(&term), Share { part: 1, whole: 2 });
    assert_eq!(add(&settled, &mut term), Err(Refusal::TooManyBooks));
    assert_eq!(term, totals(1000, 2, 4, 2, 2));
    // totals that no books have
    let mut most = totals(0, u64::MAX, u64::MAX, 0, u64::MAX);
    assert_eq!(add(&LISTED, &mut most), Ok(()));
    assert_eq!(most, totals(1, 16_000, 16_001, 0, 16_001));
}

/// A field of two bytes before the place: bytes are counted in reading, fields in writing.
fn places_in_fields() {
    is_not_written(&[1, 0, 1, 1, 0, 5, 300], answer(2, 0, 7, 0));
    let bytes = [0x01, 0x00, 0x01, 0x01, 0x00, 0x05, 0xAC, 0x02];
    assert_eq!(read(&bytes, ON), answer(2, 0, 8, 0));
    assert_eq!(opening(&bytes), &bytes[..5]);
}

/// The listing's book in edition 2, with the largest record beside its operation.
fn edition_two() {
    let book = [&[0x02], &LISTED[1..16], &[0xFF, 0xFF, 0x7F], &LISTED[16..]].concat();
    assert_eq!(read(&book, ON), answer(0, 7, 0, 0));
    let lines = LATER_LINES.replace("4 active\nsaga", "4 active 2097151\nsaga");
    for way in WAYS {
        has_listing(&book, way, &["book accepted 7\n", &lines].concat(), 7);
    }
    goes_and_comes_back(&book, 7);
    // without its record the operation is torn
    assert_eq!(read(&book[..16], ON), answer(2, 3, 16, 0));

    let mut fields = vec![0; 25];
    assert_eq!(unpack(&book, &mut fields), answer(0, 7, 0, 25));
    assert_eq!(fields[16], MOST_2);
    // above the ceiling, by one and by much
    for large in [MOST_2 + 1, u32::MAX] {
        fields[16] = large;
        is_not_written(&fields, answer(3, 3, 16, 0));
    }
    // in edition 1 no record stands there, and the next event has no such code
    fields[0] = 1;
    fields[16] = MOST_1;
    is_not_written(&fields, answer(7, 4, 16, 0));
    fields[16] = MOST_1 + 1;
    is_not_written(&fields, answer(3, 4, 16, 0));
    // the edition itself is always under the first ceiling
    for (edition, refusal) in [(0, 4), (3, 4), (MOST_1, 4), (70_000, 3), (u32::MAX, 3)] {
        fields[0] = edition;
        is_not_written(&fields, answer(refusal, 0, 0, 0));
    }
    // a table count between the two
    fields[1] = MOST_1 + 1;
    for (edition, refusal) in [(1, 3), (2, 5)] {
        fields[0] = edition;
        is_not_written(&fields, answer(refusal, 0, 1, 0));
    }
    // as many fields as three bytes each leave room for, and one more
    is_not_written(&vec![u32::MAX; 21_845], answer(3, 0, 0, 0));
    is_not_written(&vec![u32::MAX; 21_846], answer(1, 0, 0, 0));
}

/// A book of 65,536 bytes: two plain transactions hand one operation to and fro. With one byte more it is too long.
fn long_books() {
    let mut book = vec![
        0x01, 0x00, 0x02, 0x01, 0x01, 0x01, 0x00, 0x04, 0x01, 0x00, 0x01, 0x01, 0x04, 0x00, 0x00,
        0x01,
    ];
    while book.len() < BOOK_BYTES {
        book.extend_from_slice(&[0x05, 0x00, 0x01, 0x00, 0x05, 0x01, 0x00, 0x00]);
    }
    assert_eq!(read(&book, ON), answer(0, 16_383, 0, 0));
    has_listing(
        &book,
        ON,
        "book accepted 16383\nt 0 active\nt 1 active\nop 0 0 write 0 active\n",
        16_383,
    );
    goes_and_comes_back(&book, 16_383);

    book.push(0x00);
    assert_eq!(read(&book, ON), answer(1, 0, 0, 0));
    assert_eq!(opening(&book), []);
    has_listing(&book, ON, "book refused 1 0 0\n", 0);
    assert_eq!(next(&book, ON, 0), None);
    is_not_unpacked(&book, answer(1, 0, 0, 0));
    is_not_written(&vec![0; 65_537], answer(1, 0, 0, 0));
}

/// The bytes of an event whose fields are all below 128, in a book of this edition.
fn bytes(event: Event, edition: u8) -> Vec<u8> {
    let fields = match event {
        Event::Begin(t) => vec![1, t],
        Event::Commit(t) => vec![2, t],
        Event::Abort(t) => vec![3, t],
        Event::Operation(t, object, mark, record) => {
            let fields = vec![4, t, object, u64::from(mark == Mark::Write), record];
            fields[..if edition == 2 { 5 } else { 4 }].to_vec()
        }
        Event::Delegate(t, receiver, operation) => vec![5, t, receiver, operation],
        Event::CommitOne(t, operation) => vec![6, t, operation],
        Event::AbortOne(t, operation) => vec![7, t, operation],
        Event::Spawn(parent, child) => vec![8, parent, child],
    };
    fields.iter().map(|v| *v as u8).collect()
}

/// The lines of a desk, one after another.
fn lines(desk: &Desk) -> String {
    let mut text = String::new();
    let mut room = [BYTE; LINE_BYTES];
    for k in 0.. {
        let n = desk.line(k, &mut room).unwrap().count as usize;
        if n == 0 {
            break;
        }
        let small = desk.line(k, &mut room[..n - 1]).unwrap_err();
        assert_eq!(small.refusal, Refusal::NoRoom);
        text.push_str(std::str::from_utf8(&room[..n]).unwrap());
    }
    text
}

fn desk_questions() {
    for way in WAYS {
        let (desk, read) = Desk::open(&LISTED, way);
        assert_eq!(read, answer(0, 7, 0, 0));
        let phases = [
            Some(Phase::Aborted),
            Some(Phase::Committed),
            Some(Phase::Idle),
            Some(Phase::Idle),
            Some(Phase::Active),
            None,
        ];
        for (t, phase) in phases.iter().enumerate() {
            assert_eq!(desk.phase(t as u64), *phase);
        }
        assert_eq!(desk.phase(u64::MAX), None);
        let write = Operation {
            object: 0,
            mark: Mark::Write,
            responsible: 4,
            phase: Phase::Active,
        };
        assert_eq!(desk.operation(0), Some(write));
        assert_eq!(desk.operation(1), None);
        assert_eq!(desk.operation(u64::MAX), None);
        assert_eq!(desk.next(0), step(Event::Begin(3), 2));
        assert_eq!(desk.next(1), None);
        let tally = Tally {
            sagas: 1,
            transactions: 5,
            operations: 1,
            accepted: 7,
            refused: 0,
            left: 2,
            active: 1,
            lowest: 4,
        };
        assert_eq!(desk.tally(), tally);
        assert_eq!(lines(&desk), ["book accepted 7\n", LATER_LINES].concat());
    }

    let (desk, _) = Desk::open(&REPLAYED, ON);
    let pairs = desk.pairs();
    assert_eq!(pairs[..2], [4, 5]);
    assert!(pairs[2..].iter().all(|row| *row == 0));
    let mut list = [TRANSACTION; TRANSACTIONS];
    assert_eq!(desk.replay(&mut list), answer(0, 9, 0, 3));
    assert_eq!(list[..3], [1, 0, 2]);
    assert_eq!(desk.replay(&mut list[..2]), answer(19, 9, 0, 0));
}

/// A desk that was opened on a torn book takes nothing more.
fn desk_of_a_torn_book() {
    let (mut desk, read) = Desk::open(&LISTED[..23], ON);
    assert_eq!(read, answer(2, 6, 23, 0));
    let before = desk.clone();
    assert_eq!(desk.ask(Event::Abort(0)), Err(Refusal::Torn));
    assert_eq!(desk.take(Event::Abort(0)), Err(Refusal::Torn));
    assert_eq!(desk, before);
    assert_eq!(desk.next(0), step(Event::Abort(0), 3));
}

/// A book of edition 2: the record of an operation stands behind its line, and one that no field can say is refused by 3.
fn desk_of_edition_two() {
    let (mut desk, read) = Desk::open(&[2, 0, 1, 1, 0, 1, 0], ON);
    assert_eq!(read, answer(0, 1, 0, 0));
    let write = |record| Event::Operation(0, 0, Mark::Write, record);
    let most = u64::from(MOST_2);
    let before = desk.clone();
    assert_eq!(desk.ask(write(most + 1)), Err(Refusal::BadNumber));
    assert_eq!(desk.take(write(most + 1)), Err(Refusal::BadNumber));
    assert_eq!(desk, before);
    assert_eq!(desk.take(write(most)), Ok(()));
    assert_eq!(
        lines(&desk),
        "book accepted 2\nt 0 active\nop 0 0 write 0 active 2097151\n"
    );

    // in edition 1 no record is looked at
    let (mut desk, _) = Desk::open(&[1, 0, 1, 1, 0, 1, 0], ON);
    assert_eq!(desk.take(write(u64::MAX)), Ok(()));
    assert_eq!(
        lines(&desk),
        "book accepted 2\nt 0 active\nop 0 0 write 0 active\n"
    );
}

/// A clerk with a helper: the clerk waits for it, the helper keeps nothing alone, and what it did is the clerk's when it is finished.
fn desk_of_helpers() {
    let (mut desk, read) = Desk::open(&[1, 0, 2, 1, 0, 1, 0], ON);
    assert_eq!(read, answer(0, 1, 0, 0));
    assert_eq!(desk.ask(Event::Spawn(1, 0)), Err(Refusal::NotIdle));
    assert_eq!(desk.ask(Event::Spawn(0, 2)), Err(Refusal::NotInTables));
    assert_eq!(desk.take(Event::Spawn(0, 1)), Ok(()));
    assert_eq!(desk.take(Event::Operation(1, 0, Mark::Write, 0)), Ok(()));
    assert_eq!(desk.ask(Event::Commit(0)), Err(Refusal::DependencyRule));
    assert_eq!(desk.ask(Event::CommitOne(1, 0)), Err(Refusal::NeverDoes));
    assert_eq!(desk.take(Event::Commit(1)), Ok(()));
    assert_eq!(desk.take(Event::Commit(0)), Ok(()));
    assert_eq!(
        lines(&desk),
        "book accepted 5\nt 0 committed\nt 1 committed\nop 0 0 write 0 committed\n"
    );
}

struct Numbers(u64);

impl Numbers {
    fn next(&mut self) -> u64 {
        self.0 ^= self.0 << 13;
        self.0 ^= self.0 >> 7;
        self.0 ^= self.0 << 17;
        self.0
    }

    fn below(&mut self, most: u64) -> u64 {
        self.next() % most
    }

    fn event(&mut self) -> Event {
        let (t, u, o, q) = (
            self.below(10),
            self.below(10),
            self.below(3),
            self.below(12),
        );
        match self.below(12) {
            0..=2 => Event::Begin(t),
            3 | 4 => Event::Commit(t),
            5 => Event::Abort(t),
            6 => {
                let mark = if u % 2 == 0 { Mark::Read } else { Mark::Write };
                Event::Operation(t, o, mark, self.below(128))
            }
            7 => Event::Delegate(t, u, q),
            8 => Event::CommitOne(t, q),
            9 => Event::AbortOne(t, q),
            _ => Event::Spawn(t, u),
        }
    }
}

/// Desks of any numbers: every function comes back.
fn desks_of_any_numbers() {
    let mut numbers = Numbers(88_172_645_463_325_252);
    for _ in 0..40 {
        let mut desk = Desk {
            counts: [0; 9].map(|_: u64| numbers.next()),
            sheet: [0; 195].map(|_: u32| numbers.next() as u32),
            transactions: [0; TRANSACTIONS].map(|_: u32| numbers.next() as u32),
            operations: [0; OPERATIONS].map(|_: u32| numbers.next() as u32),
            records: [0; OPERATIONS].map(|_: u32| numbers.next() as u32),
            steps: [0; SAGAS].map(|_: u8| numbers.next() as u8),
        };
        desk.counts[4] %= 2;
        desk.counts[8] %= 3;
        for _ in 0..20 {
            let event = numbers.event();
            let asked = desk.ask(event);
            assert_eq!(desk.take(event), asked);
            desk.phase(numbers.below(70));
            desk.operation(numbers.below(300));
            desk.next(numbers.below(20));
            desk.line(numbers.below(400), &mut [BYTE; LINE_BYTES])
                .unwrap();
        }
        desk.tally();
        desk.pairs();
        desk.replay(&mut [TRANSACTION; TRANSACTIONS]).unwrap();
    }
}

/// An event, asked and then taken, against reading the book with it behind: in each way and each edition, on books of random events.
fn asked_taken_and_read() {
    let mut numbers = Numbers(1_181_783_497_276_652_981);
    for round in 0..16 {
        let way = WAYS[round % 4];
        // two sagas, of two steps and of one; three plain transactions, of which 7 begins only after 6 was begun; two objects
        let edition = if round % 8 < 4 { 1 } else { 2 };
        let mut book = vec![
            edition, 0x02, 0x02, 0x01, 0x03, 0x02, 0x01, 0x07, 0x06, 0x04,
        ];
        let (mut desk, opened) = Desk::open(&book, way);
        assert_eq!(opened, answer(0, 0, 0, 0));
        for _ in 0..120 {
            let event = numbers.event();
            let longer = [book.clone(), bytes(event, edition)].concat();
            let was = read(&book, way).unwrap();
            let before = desk.clone();
            let asked = desk.ask(event);
            assert_eq!(desk, before);
            assert_eq!(desk.take(event), asked);
            let (mut opened, now) = Desk::open(&longer, way);
            match (way.to_first_refusal, asked) {
                (false, Ok(())) => assert_eq!(now, answer(0, was.events + 1, 0, was.count)),
                (false, Err(refusal)) => {
                    assert_eq!(now, answer(0, was.events, 0, was.count + 1));
                    let mut last = [0; 2];
                    assert_eq!(refused(&longer, way, was.count, &mut last), 1);
                    assert_eq!(last, [was.events + was.count, refusal.number()]);
                }
                (true, Ok(())) => {
                    assert_eq!(now, answer(0, was.events + 1, 0, 0));
                    // refused events are not in the book, and only the desk has counted them
                    opened.counts[2] = desk.counts[2];
                }
                (true, Err(refusal)) => {
                    assert_eq!(
                        now,
                        answer(refusal.number(), was.events, book.len() as u64, 0)
                    );
                    continue;
                }
            }
            assert_eq!(desk, opened);
            book = longer;
        }
    }
}

fn all() {
    the_listing();
    after_the_listing();
    read_on();
    refused_events();
    circles();
    empty_and_torn();
    closed_step_by_step();
    mended_books();
    mended_to_the_limit();
    replayed_in_order();
    term_figures();
    places_in_fields();
    edition_two();
    long_books();
    many_refused();
    desk_questions();
    desk_of_a_torn_book();
    desk_of_edition_two();
    desk_of_helpers();
    desks_of_any_numbers();
    asked_taken_and_read();
}

/// As many refused events as a book can hold: 32,765 commits of a transaction that never began.
fn many_refused() {
    let mut book = vec![0x01, 0x00, 0x01, 0x00, 0x00];
    let mut text = String::from("book accepted 0\n");
    for index in 0..32_765 {
        book.extend([0x02, 0x00]);
        text.push_str(&format!("no {index} 11\n"));
    }
    text.push_str("t 0 idle\n");
    assert_eq!(read(&book, ON), answer(0, 0, 0, 32_765));
    has_listing(&book, ON, &text, 0);
}

/// A stack of 128 KiB is enough for every function.
#[unsafe(no_mangle)]
pub extern "C" fn main() -> i32 {
    let thread = std::thread::Builder::new().stack_size(128 * 1024);
    match thread.spawn(all).map(|started| started.join()) {
        Ok(Ok(())) => 0,
        _ => 1,
    }
}
