//! How much is left over all sagas, kept from event to event.

use crate::books::Book;
use crate::chance::Chance;
use second::{left_line, outstanding, read, read_circles_permitted, Event, Reading};

/// The sum by its definition.
fn sum_over_sagas(reading: &Reading) -> usize {
    let sagas = 0..reading.tables.sagas().len();
    sagas.map(|saga| outstanding(reading, saga)).sum()
}

#[test]
fn the_sum_over_two_sagas_and_a_clerk() {
    // S 0, T1 1, T2 2, C1 3; S 4, T1 5; plain 6.
    let book = Book::new(&[2, 1], 1, 1, &[]);
    let begun = book.clone().begin(0).begin(4).begin(6);
    let cases = [
        (book, 0),
        (begun.clone(), 2),
        (begun.clone().begin(1), 3),
        (begun.clone().done(1), 4),
        (begun.clone().done(1).begin(5), 5),
        (begun.clone().done(1).done(5), 4),
        (begun.clone().done(1).done(5).commit(4), 3),
        (begun.clone().done(1).abort(0), 3),
        (begun.clone().done(1).abort(0).begin(3), 2),
        (begun.clone().done(1).abort(0).done(3), 1),
        (begun.clone().operate(6, 0, 1).commit(6), 2),
        // Refused: the sum before it stays.
        (begun.clone().begin(2), 2),
        (begun.commit(0), 2),
    ];
    for (book, left) in cases {
        let reading = book.read();
        assert_eq!(reading.state.left(), left, "{:?}", book.0);
        assert_eq!(left_line(&reading), format!("left {left}\n"));
    }
}

#[test]
fn nothing_is_left_where_the_tables_are_refused() {
    assert_eq!(read(&[1, 1, 2]).state.left(), 0);
    // Plain 2 and 3 wait for each other, S 0 begins.
    let book = Book::new(&[1], 2, 0, &[[2, 3, 4], [3, 2, 4]]).begin(0);
    assert_eq!(read(&book.0).state.left(), 0);
    assert_eq!(read_circles_permitted(&book.0).state.left(), 1);
}

#[test]
fn two_sagas_of_sixteen_steps_that_have_gone_far() {
    let book = Book::new(&[16, 16], 0, 0, &[]).begin(0).begin(32);
    let book = (1..16).fold(book, |book, step| book.done(step).done(32 + step));
    let book = book.begin(16).begin(48);
    assert_eq!(book.number(), 0);
    assert_eq!(book.read().state.left(), 64);
}

/// An event of any sort by any transaction, now and then one that is not in the
/// tables. Most events begin or end something.
fn draw(chance: &mut Chance, reading: &Reading) -> Event {
    let transactions = reading.tables.transactions();
    let transaction = chance.field(transactions + 1);
    let operation = chance.field(reading.state.operations() + 1);
    match chance.below(12) {
        0..=4 => Event::Begin { transaction },
        5..=7 => Event::Commit { transaction },
        8 => Event::Abort { transaction },
        9 => Event::Operation {
            transaction,
            object: chance.field(3),
            mark: chance.field(2),
        },
        10 => Event::Delegate {
            giver: transaction,
            receiver: chance.field(transactions),
            operation,
        },
        _ if chance.below(2) == 0 => Event::CommitOperation {
            transaction,
            operation,
        },
        _ => Event::AbortOperation {
            transaction,
            operation,
        },
    }
}

#[test]
fn the_sum_is_that_of_the_definition_after_every_event() {
    let tables: [(&[u8], u8); 5] = [
        (&[1], 1),
        (&[2, 3], 2),
        (&[1, 1, 2, 4, 1], 3),
        (&[2; 16], 0),
        (&[16, 5], 4),
    ];
    let (mut accepted, mut refused, mut highest) = (0, 0, 0);
    for seed in 0..200 {
        let chance = &mut Chance::new(seed);
        let (steps, plain) = tables[chance.below(tables.len())];
        let mut reading = Book::new(steps, plain, 2, &[]).read();
        for _ in 0..400 {
            let event = draw(chance, &reading);
            match reading.state.offer(&reading.tables, event) {
                Ok(()) => accepted += 1,
                Err(_) => refused += 1,
            }
            let left = reading.state.left();
            assert_eq!(left, sum_over_sagas(&reading), "{seed} {event:?}");
            highest = highest.max(left);
        }
    }
    let counts = [accepted, refused, highest];
    assert!(accepted > 3_000 && refused > 20_000, "{counts:?}");
    assert!(highest >= 16, "{counts:?}");
}
