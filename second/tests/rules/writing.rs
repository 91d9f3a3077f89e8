//! Unpacking and writing.

use crate::books::{Book, LISTED};
use second::{unpack, write, Refused};

fn refused(number: u8, events: usize, place: usize) -> Refused {
    Refused {
        number,
        events,
        place,
    }
}

fn listed_fields() -> Vec<u32> {
    LISTED.map(u32::from).to_vec()
}

/// A book with fields of one and two bytes: 200 operations, one handed over.
fn two_byte_book() -> Vec<u8> {
    let book = (0..200).fold(Book::begun(2, 1), |book, _| book.operate(0, 0, 0));
    book.then(&[5, 0, 1, 0xC7, 0x01]).0
}

#[test]
fn what_is_unpacked_is_written_back() {
    for book in [LISTED.to_vec(), two_byte_book(), vec![1, 0, 0, 0, 0]] {
        let mut fields = vec![0; book.len()];
        let count = unpack(&book, &mut fields).unwrap();
        let mut bytes = vec![0; book.len()];
        assert_eq!(write(&fields[..count], &mut bytes), Ok(book.len()));
        assert_eq!(bytes, book);
    }
    let mut fields = [0; 1000];
    let count = unpack(&two_byte_book(), &mut fields).unwrap();
    assert_eq!(count, two_byte_book().len() - 1);
    assert_eq!(fields[count - 1], 199);
}

#[test]
fn the_room_beyond_is_untouched() {
    let mut fields = [7777; 30];
    assert_eq!(unpack(&LISTED, &mut fields), Ok(24));
    assert_eq!(fields[..24], listed_fields());
    assert_eq!(fields[24..], [7777; 6]);
    let mut bytes = [0xEE; 30];
    assert_eq!(write(&listed_fields(), &mut bytes), Ok(24));
    assert_eq!(bytes[..24], LISTED);
    assert_eq!(bytes[24..], [0xEE; 6]);
}

#[test]
fn number_19_exactly_when_the_room_is_too_small() {
    for size in 0..30 {
        let mut fields = vec![7777; size];
        let mut bytes = vec![0xEE; size];
        let (unpacked, written) = (
            unpack(&LISTED, &mut fields),
            write(&listed_fields(), &mut bytes),
        );
        if size < 24 {
            assert_eq!(unpacked, Err(refused(19, 7, 0)));
            assert_eq!(written, Err(refused(19, 7, 0)));
            assert_eq!(fields, vec![7777; size]);
            assert_eq!(bytes, vec![0xEE; size]);
        } else {
            assert_eq!((unpacked, written), (Ok(24), Ok(24)));
        }
    }
}

#[test]
fn refusals_come_before_19_and_leave_the_room_untouched() {
    let book = Book(LISTED.to_vec()).then(&[0x01, 0x02]).0;
    let mut fields = [7777; 40];
    assert_eq!(unpack(&book, &mut fields), Err(refused(13, 7, 24)));
    assert_eq!(fields, [7777; 40]);
    assert_eq!(unpack(&book, &mut []), Err(refused(13, 7, 24)));
    let mut bytes = [0xEE; 40];
    let list: Vec<u32> = book.iter().map(|byte| u32::from(*byte)).collect();
    assert_eq!(write(&list, &mut bytes), Err(refused(13, 7, 24)));
    assert_eq!(bytes, [0xEE; 40]);
    assert_eq!(write(&list, &mut []), Err(refused(13, 7, 24)));
}

#[test]
fn places_are_counted_in_fields() {
    let mut list = vec![1, 0, 64, 0, 128];
    assert_eq!(write(&list, &mut []), Err(refused(2, 0, 5)));
    for dependent in 0..63 {
        list.extend([dependent, 63, 1, dependent, 63, 4]);
    }
    list.extend([63, 0, 1, 63, 0, 1]);
    let second_to_last_entry = list.len() - 3;
    assert_eq!(
        write(&list, &mut []),
        Err(refused(6, 0, second_to_last_entry))
    );
    list[second_to_last_entry + 2] = 2;
    let tables = list.len();
    list.extend([2, 0]);
    assert_eq!(write(&list, &mut []), Err(refused(11, 0, tables)));
    list[tables] = 300;
    assert_eq!(write(&list, &mut []), Err(refused(7, 0, tables)));
    list.truncate(tables + 1);
    list[tables] = 1;
    assert_eq!(write(&list, &mut []), Err(refused(2, 0, tables + 1)));
}

#[test]
fn counts_and_edition_in_writing() {
    assert_eq!(write(&[], &mut []), Err(refused(2, 0, 0)));
    assert_eq!(write(&[128], &mut []), Err(refused(4, 0, 0)));
    assert_eq!(write(&[1, 1, 300], &mut []), Err(refused(5, 0, 2)));
    assert_eq!(write(&[1, 0, 0, 33], &mut []), Err(refused(5, 0, 3)));
}
