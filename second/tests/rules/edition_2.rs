//! Edition 2: larger numbers, and operations that name a pupil record.

use crate::books::{answer, Book, LISTED};
use crate::chance::Chance;
use second::{listing, read, read_to_first_refusal, unpack, write, Reading, Refused};

fn refused(number: u8, events: usize, place: usize) -> Refused {
    Refused {
        number,
        events,
        place,
    }
}

/// The bytes of one field.
fn field(value: u32) -> Vec<u8> {
    match value {
        0..=0x7F => vec![value as u8],
        0x80..=0x3FFF => vec![value as u8 | 0x80, (value >> 7) as u8],
        _ => vec![
            value as u8 | 0x80,
            (value >> 7) as u8 | 0x80,
            (value >> 14) as u8,
        ],
    }
}

/// One clerk is at work on one list.
const CLERK: [u8; 7] = [2, 0, 1, 1, 0, 1, 0];

/// The clerk writes the list of the pupil record.
fn on_record(record: u32) -> Vec<u8> {
    [&CLERK[..], &[4, 0, 0, 1], &field(record)].concat()
}

#[test]
fn the_line_of_an_operation_ends_with_the_record() {
    for record in [0, 127, 128, 16_383, 16_384, 65_535, 65_536, 2_097_151] {
        let expected = format!("book accepted 2\nt 0 active\nop 0 0 write 0 active {record}\n");
        assert_eq!(listing(&on_record(record)), expected);
    }
    let in_edition_1 = [1, 0, 1, 1, 0, 1, 0, 4, 0, 0, 1];
    let expected = "book accepted 2\nt 0 active\nop 0 0 write 0 active\n";
    assert_eq!(listing(&in_edition_1), expected);
}

#[test]
fn each_accepted_operation_has_its_own_record() {
    // A read of record 300, a write of a list that isn't there, a write of 7.
    let events = [4, 0, 0, 0, 0xAC, 0x02, 4, 0, 1, 1, 9, 4, 0, 0, 1, 7];
    let book = [&CLERK[..], &events].concat();
    let expected = "book accepted 3\nno 2 8\nt 0 active\n\
                    op 0 0 read 0 active 300\nop 1 0 write 0 active 7\n";
    assert_eq!(listing(&book), expected);
    let to_first_refusal = read_to_first_refusal(&book);
    assert_eq!(to_first_refusal.place, 13);
    assert_eq!(to_first_refusal.records, [300]);
}

#[test]
fn an_operation_without_its_record_breaks_off() {
    let operation = [&CLERK[..], &[4, 0, 0, 1]].concat();
    assert_eq!(answer(&operation), (2, 1, 11));
    let broken_off = [&operation[..], &[0x80, 0x80]].concat();
    assert_eq!(answer(&broken_off), (2, 1, 11));
    let mark_2 = [&CLERK[..], &[4, 0, 0, 2]].concat();
    assert_eq!(answer(&mark_2), (2, 1, 11), "the record is due before 8");
    let with_record = [&mark_2[..], &[5]].concat();
    assert_eq!(answer(&with_record), (8, 1, 7));
    let bad_record = [&mark_2[..], &[0xFF, 0xFF, 0x80]].concat();
    assert_eq!(answer(&bad_record), (3, 1, 11));
}

#[test]
fn only_an_operation_has_a_record() {
    // Two clerks: one begins, changes a list, hands the change on; the other
    // keeps it, reads a list, drops that; the one commits, the other gives up.
    let tables = [2, 0, 2, 2, 0];
    let first = [1, 0, 1, 1, 4, 0, 0, 1, 5, 5, 0, 1, 0, 6, 1, 0];
    let then = [4, 1, 1, 0, 6, 7, 1, 1, 2, 0, 3, 1];
    let reading = read_to_first_refusal(&[&tables[..], &first, &then].concat());
    assert_eq!((reading.number, reading.events), (0, 9));
    assert_eq!(reading.records, [5, 6]);
}

#[test]
fn the_edition_itself_stands_under_the_ceiling_of_edition_1() {
    assert_eq!(answer(&[2]), (2, 0, 1));
    assert_eq!(answer(&[0x80, 0x80, 0x04]), (3, 0, 0));
    assert_eq!(answer(&[0xFF, 0xFF, 0x7F]), (3, 0, 0));
    assert_eq!(answer(&[0xFF, 0xFF, 0x03]), (4, 0, 0));
    assert_eq!(answer(&[2, 0xFF, 0xFF, 0xFF]), (3, 0, 1));
    for first in [0, 3, 65_535] {
        assert_eq!(write(&[first, 0, 0, 0, 0], &mut []), Err(refused(4, 0, 0)));
    }
    for first in [65_536, 65_537, 65_538, 70_000, 2_097_151, u32::MAX] {
        assert_eq!(write(&[first, 0, 0, 0, 0], &mut []), Err(refused(3, 0, 0)));
    }
}

#[test]
fn a_large_number_that_is_no_record_is_refused_for_what_it_says() {
    // 65,536 and more, which come to 0 and more in 16 bits.
    let large = |value: u32| field(65_536 + value);
    let book = |front: &[u8], value: u32, behind: &[u8]| [front, &large(value), behind].concat();
    for (front, behind, number, place) in [
        (&[2][..], &[][..], 5, 1),
        (&[2, 1], &[], 5, 2),
        (&[2, 0], &[], 5, 2),
        (&[2, 0, 0], &[], 5, 3),
        (&[2, 0, 0, 0], &[], 5, 4),
        (&[2, 0, 2, 0, 1], &[1, 1], 6, 5),
        (&[2, 0, 2, 0, 1, 0], &[1], 6, 5),
        (&[2, 0, 2, 0, 1, 0, 1], &[], 6, 5),
        (&CLERK, &[0], 7, 7),
        (&[2, 0, 2, 1, 0, 1], &[], 8, 5),
        (&[2, 0, 1, 1, 0, 1, 0, 2], &[], 8, 7),
        (&[2, 0, 1, 1, 0, 1, 0, 4], &[0, 1, 3], 8, 7),
        (&[2, 0, 1, 1, 0, 1, 0, 4, 0], &[1, 3], 8, 7),
        (&[2, 0, 1, 1, 0, 1, 0, 4, 0, 0], &[3], 8, 7),
    ] {
        for value in [0, 1] {
            let bytes = book(front, value, behind);
            let reading = read_to_first_refusal(&bytes);
            assert_eq!(
                (reading.number, reading.place),
                (number, place),
                "{bytes:?}"
            );
            let in_edition_1 = [&[1], &bytes[1..]].concat();
            let reading = read_to_first_refusal(&in_edition_1);
            assert_eq!(
                (reading.number, reading.place),
                (3, front.len()),
                "{bytes:?}"
            );
        }
    }
    let handed = [&on_record(1)[..], &[5, 0, 0], &large(0)].concat();
    assert_eq!(answer(&handed), (8, 2, 12));
}

#[test]
fn edition_2_is_unpacked_and_written_back() {
    for record in [0, 127, 128, 16_384, 65_536, 2_097_151] {
        let book = on_record(record);
        let mut fields = [7; 20];
        assert_eq!(unpack(&book, &mut fields), Ok(12));
        assert_eq!((fields[11], fields[12]), (record, 7));
        let mut bytes = [0xEE; 20];
        assert_eq!(write(&fields[..12], &mut bytes), Ok(book.len()));
        assert_eq!(bytes[..book.len()], book);
        assert_eq!(bytes[book.len()..], [0xEE; 20][book.len()..]);
        assert_eq!(unpack(&book, &mut [0; 11]), Err(refused(19, 2, 0)));
        let mut too_small = vec![0xEE; book.len() - 1];
        let too_little_room = write(&fields[..12], &mut too_small);
        assert_eq!(too_little_room, Err(refused(19, 2, 0)));
        assert_eq!(too_small, vec![0xEE; book.len() - 1]);
    }
}

#[test]
fn writing_refuses_a_field_above_the_ceiling_where_it_stands() {
    let clerk = CLERK.map(u32::from);
    for record in [2_097_152, 4_294_967_295] {
        let fields = [&clerk[..], &[4, 0, 0, 1, record]].concat();
        assert_eq!(write(&fields, &mut [0; 40]), Err(refused(3, 1, 11)));
        let behind_a_refused_event = [&clerk[..], &[1, 0, 4, 0, 0, 1, record]].concat();
        let answer = write(&behind_a_refused_event, &mut [0; 40]);
        assert_eq!(answer, Err(refused(10, 1, 7)));
        let behind_an_unknown_code = [&clerk[..], &[11, record]].concat();
        let answer = write(&behind_an_unknown_code, &mut [0; 40]);
        assert_eq!(answer, Err(refused(7, 1, 7)));
    }
    for count in [65_536, 2_097_151] {
        assert_eq!(write(&[2, count], &mut []), Err(refused(5, 0, 1)));
        assert_eq!(write(&[1, count], &mut []), Err(refused(3, 0, 1)));
    }
    assert_eq!(write(&[2, 2_097_152], &mut []), Err(refused(3, 0, 1)));
}

#[test]
fn a_field_above_the_ceiling_counts_three_bytes() {
    for large in [2_097_151, 2_097_152, u32::MAX] {
        let mut fields = vec![large; 21_845];
        fields.push(1);
        assert_eq!(
            write(&fields, &mut []),
            Err(refused(3, 0, 0)),
            "65,536 bytes"
        );
        fields.push(1);
        assert_eq!(
            write(&fields, &mut []),
            Err(refused(1, 0, 0)),
            "65,537 bytes"
        );
    }
}

/// The same events in edition 2, each operation on the next of these records.
fn in_edition_2(book: &[u8], records: &mut impl Iterator<Item = u32>) -> Vec<u8> {
    let tables = second::read(book);
    let mut fields = vec![0; book.len()];
    let count = unpack(book, &mut fields).expect("an accepted book");
    let first_event = 5 + tables.tables.sagas().len();
    let mut bytes = vec![2];
    bytes.extend(
        fields[1..first_event]
            .iter()
            .flat_map(|value| field(*value)),
    );
    let mut rest = &fields[first_event..count];
    while let [code, ..] = rest {
        let length = [2, 2, 2, 4, 4, 3, 3][*code as usize - 1];
        let (event, behind) = rest.split_at(length);
        bytes.extend(event.iter().flat_map(|value| field(*value)));
        if *code == 4 {
            bytes.extend(field(records.next().expect("records without an end")));
        }
        rest = behind;
    }
    bytes
}

fn lines_without_records(reading: &Reading, bytes: &[u8]) -> Vec<String> {
    let with_record = reading.tables.edition() == second::Edition::Second;
    let text = listing(bytes);
    let lines = text.lines().map(|line| match line.rsplit_once(' ') {
        Some((front, _)) if with_record && line.starts_with("op ") => front.to_string(),
        _ => line.to_string(),
    });
    lines.collect()
}

#[test]
fn the_judge_ignores_the_records() {
    let busy = (0..40).fold(Book::begun(4, 3), |book, i| {
        book.operate(i % 4, i % 3, i % 2)
    });
    let busy = busy.abort(1).commit(0).commit(2).commit(3);
    let (accepted, _) = busy.0.split_at(busy.read().opening);
    for book in [&LISTED[..], accepted] {
        let plain = lines_without_records(&read(book), book);
        let chance = &mut Chance::new(3);
        let mut any = std::iter::from_fn(|| Some(chance.below(2_097_152) as u32));
        let mut zeroes = std::iter::repeat(0);
        let of_chance = in_edition_2(book, &mut any);
        let of_zeroes = in_edition_2(book, &mut zeroes);
        for bytes in [of_chance, of_zeroes] {
            let reading = read(&bytes);
            assert_eq!(reading.opening, bytes.len());
            assert_eq!(reading.records.len(), reading.state.operations());
            assert_eq!(lines_without_records(&reading, &bytes), plain);
        }
    }
}

#[test]
fn the_longest_book_of_edition_2() {
    // 256 operations on records of three bytes, then delegations up to the end.
    let begun = [2, 0, 2, 1, 0, 1, 0, 1, 1];
    let operations = [&[4, 0, 0, 0][..], &field(2_000_000)].concat().repeat(256);
    let mut bytes = [&begun[..], &operations].concat();
    let delegations = (65_536 - bytes.len()) / 4;
    bytes.extend((0..delegations).flat_map(|time| [5, time as u8 % 2, 1 - time as u8 % 2, 0]));
    let reading = read_to_first_refusal(&bytes);
    assert_eq!(reading.number, 0);
    assert_eq!(reading.records, [2_000_000; 256]);
    let mut fields = vec![0; 65_536];
    let count = unpack(&bytes, &mut fields).unwrap();
    let mut written = vec![0; 65_536];
    assert_eq!(write(&fields[..count], &mut written), Ok(bytes.len()));
    assert_eq!(written[..bytes.len()], bytes);
    let too_long = [&fields[..count], &[2_097_151; 2]].concat();
    assert_eq!(write(&too_long, &mut written), Err(refused(1, 0, 0)));
}
