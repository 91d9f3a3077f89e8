//! 'Either side of the line', case by case, and the listing.

use crate::books::{answer, handed_to_and_fro, Book, LISTED, READ, WRITE};
use second::{closing, listing, outstanding, read};

#[test]
fn the_listing_of_the_rules() {
    let expected = "book accepted 7\n\
                    t 0 aborted\n\
                    t 1 committed\n\
                    t 2 idle\n\
                    t 3 idle\n\
                    t 4 active\n\
                    op 0 0 write 4 active\n\
                    saga 0 2 begin 3\n";
    assert_eq!(listing(&LISTED), expected);
}

#[test]
fn p1_to_p3_numbers() {
    assert_eq!(answer(&[0x80, 0x00]), (3, 0, 0), "P1");
    assert_eq!(answer(&[0xFF, 0xFF, 0x04]), (3, 0, 0), "P2");
    assert_eq!(
        answer(&[0xFF, 0xFF, 0x03]),
        (4, 0, 0),
        "P3: 65,535 is no edition"
    );
    assert_eq!(second::write(&[65_535], &mut [0; 3]).unwrap_err().number, 4);
    assert_eq!(answer(&[0x80]), (2, 0, 0));
}

#[test]
fn empty_book() {
    assert_eq!(answer(&[]), (2, 0, 0));
    assert_eq!(listing(&[]), "book refused 2 0 0\n");
}

#[test]
fn p4_sixteen_sagas_of_two_steps() {
    let taken = Book::new(&[2; 16], 0, 0, &[]).read();
    assert_eq!((taken.number, taken.tables.transactions()), (0, 64));
    assert_eq!(answer(&Book::new(&[2; 16], 1, 0, &[]).0), (5, 0, 18));
}

#[test]
fn p5_the_undo_closes_the_saga() {
    let book = Book(LISTED.to_vec()).then(&[0x01, 0x03, 0x02, 0x03]);
    let reading = book.read();
    assert_eq!((reading.number, reading.events), (0, 9));
    assert_eq!(outstanding(&reading, 0), 0);
    assert_eq!(closing(&reading, 0), None);
}

#[test]
fn p6_no_step_after_the_saga_aborted() {
    let book = Book(LISTED.to_vec()).then(&[0x01, 0x02]);
    assert_eq!(answer(&book.0), (13, 7, 24));
}

#[test]
fn p7_saga_of_one_step() {
    let reading = Book::new(&[1], 0, 0, &[]).begin(0).begin(1).read();
    assert_eq!(reading.number, 0);
    assert_eq!(outstanding(&reading, 0), 2);
    assert_eq!(closing(&reading, 0), Some((3, 0)));
}

/// 0 reads a, 1 reads b, 1 writes a, 0 writes b.
fn crossed() -> Book {
    Book::begun(2, 2)
        .operate(0, 0, READ)
        .operate(1, 1, READ)
        .operate(1, 0, WRITE)
        .operate(0, 1, WRITE)
}

#[test]
fn p8_and_p9_ring() {
    crossed().commit(0).refuses_last(16, 2);
    assert_eq!(crossed().abort(1).commit(0).number(), 0, "P9");
}

#[test]
fn p10_and_p11_dirty_read() {
    let dirty = Book::begun(2, 1).operate(0, 0, WRITE).operate(1, 0, READ);
    dirty.clone().commit(1).refuses_last(15, 2);
    assert_eq!(dirty.delegate(0, 1, 0).commit(1).number(), 0, "P11");
}

#[test]
fn p12_saga_commit_with_its_last_step_active() {
    Book::new(&[1], 0, 0, &[])
        .begin(0)
        .begin(1)
        .commit(0)
        .refuses_last(13, 2);
}

#[test]
fn the_256th_operation_and_the_257th() {
    let full = (0..256).fold(Book::begun(1, 1), |book, _| book.operate(0, 0, WRITE));
    let reading = full.read();
    assert_eq!((reading.number, reading.events), (0, 257));
    assert_eq!(reading.state.operations(), 256);
    full.clone().operate(0, 0, READ).refuses_last(18, 4);
    assert_eq!(full.commit(0).number(), 0);
}

#[test]
fn longest_book_and_one_byte_more() {
    let book = handed_to_and_fro(16_380);
    assert_eq!(book.0.len(), 65_536);
    let reading = book.read();
    assert_eq!((reading.number, reading.opening), (0, 65_536));

    let longer = book.then(&[1]);
    assert_eq!(answer(&longer.0), (1, 0, 0));
    assert_eq!(listing(&longer.0), "book refused 1 0 0\n");
    assert!(second::opening(&longer.0).is_empty());
    assert_eq!(read(&longer.0).tables.transactions(), 0);
}
