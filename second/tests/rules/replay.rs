//! The order to replay in.

use crate::books::{Book, LISTED, READ, WRITE};
use crate::chance::Chance;
use second::{read, replay, replay_line, replay_order, Event, Mark, Phase, Reading, Refused};

fn order(book: &Book) -> Vec<usize> {
    let reading = book.read();
    assert_eq!(reading.number, 0, "{:?}", book.0);
    replay_order(&reading)
}

#[test]
fn nobody_is_named_who_has_committed_no_operation() {
    assert_eq!(order(&Book::begun(2, 1)), []);
    let written = Book::begun(2, 1).operate(0, 0, WRITE);
    assert_eq!(order(&written), []);
    assert_eq!(order(&written.clone().abort(0)), []);
    assert_eq!(order(&written.commit(1)), []);
    assert_eq!(order(&Book(LISTED.to_vec())), []);
}

#[test]
fn the_first_to_change_a_list_comes_first() {
    let book = Book::begun(2, 1).operate(1, 0, WRITE).commit(1);
    let book = book.operate(0, 0, WRITE).commit(0);
    assert_eq!(order(&book), [1, 0]);
    let book = Book::begun(2, 1).operate(0, 0, WRITE).commit(0);
    let book = book.operate(1, 0, READ).commit(1);
    assert_eq!(order(&book), [0, 1]);
    // Two readers are in nobody's way.
    let book = Book::begun(2, 1).operate(1, 0, READ).commit(1);
    let book = book.operate(0, 0, READ).commit(0);
    assert_eq!(order(&book), [0, 1]);
}

#[test]
fn what_became_of_the_holder_makes_no_difference() {
    // 1 keeps its change alone; then 0 changes the same list.
    let kept = Book::begun(2, 1)
        .operate(1, 0, WRITE)
        .commit_operation(1, 0)
        .operate(0, 0, WRITE)
        .commit(0);
    for book in [kept.clone(), kept.clone().commit(1), kept.abort(1)] {
        assert_eq!(order(&book), [1, 0]);
    }
}

#[test]
fn ties_of_operations_that_are_not_committed_count_for_nothing() {
    // 1 keeps a change of b, and changes a before 0 does.
    let book = Book::begun(2, 2)
        .operate(1, 1, WRITE)
        .commit_operation(1, 0)
        .operate(1, 0, WRITE)
        .operate(0, 0, WRITE)
        .commit(0);
    assert_eq!(order(&book), [0, 1]);
    assert_eq!(order(&book.clone().abort(1)), [0, 1]);
    assert_eq!(order(&book.clone().abort_operation(1, 1)), [0, 1]);
    assert_eq!(order(&book.commit(1)), [1, 0]);
}

#[test]
fn a_delegated_operation_is_the_receivers() {
    let book = Book::begun(3, 1)
        .operate(0, 0, WRITE)
        .delegate(0, 2, 0)
        .commit(2)
        .operate(1, 0, WRITE)
        .commit(1);
    assert_eq!(order(&book), [2, 1]);
    // Once it is committed it stays where it is.
    let book = Book::begun(3, 1)
        .operate(0, 0, WRITE)
        .commit_operation(0, 0)
        .delegate(0, 2, 0)
        .commit(2);
    assert_eq!(order(&book), [0]);
}

#[test]
fn of_those_that_could_come_next_the_lowest_number_does() {
    // 3 before 1, on a; 0 and 2 are free.
    let written = |book: Book, t: u8, object: u8| book.operate(t, object, WRITE).commit(t);
    let book = [(3, 0), (2, 1), (1, 0), (0, 2)]
        .into_iter()
        .fold(Book::begun(4, 3), |book, (t, object)| {
            written(book, t, object)
        });
    assert_eq!(order(&book), [0, 2, 3, 1]);
    // 2 before 0 and 4 before 1, on a and b; 3 is free.
    let book = [(4, 1), (2, 0), (3, 2), (1, 1), (0, 0)]
        .into_iter()
        .fold(Book::begun(5, 3), |book, (t, object)| {
            written(book, t, object)
        });
    assert_eq!(order(&book), [2, 0, 3, 4, 1]);
}

#[test]
fn steps_and_undos_are_named_too() {
    // S 0, T1 1, T2 2, C1 3, plain 4.
    let book = Book::new(&[2], 1, 1, &[])
        .begin(4)
        .operate(4, 0, WRITE)
        .commit(4)
        .begin(0)
        .begin(1)
        .operate(1, 0, WRITE)
        .commit(1)
        .abort(0)
        .begin(3)
        .operate(3, 0, WRITE)
        .commit(3);
    assert_eq!(order(&book), [4, 1, 3]);
}

#[test]
fn a_refused_book_is_replayed_as_far_as_it_is_accepted() {
    let book = Book::begun(2, 1).operate(1, 0, WRITE).commit(1).begin(0);
    let reading = book.read();
    assert_eq!((reading.number, reading.events), (10, 4));
    assert_eq!(replay_order(&reading), [1]);
    assert_eq!(replay_order(&read(&[1, 0, 65])), []);
}

#[test]
fn the_lent_list() {
    let book = Book::begun(2, 1).operate(1, 0, WRITE).commit(1);
    let book = book.operate(0, 0, WRITE).commit(0);
    let too_short = Refused {
        number: 19,
        events: 6,
        place: 0,
    };
    let mut list = [99; 4];
    assert_eq!(replay(&book.0, &mut list[..1]), Err(too_short));
    assert_eq!(replay(&book.0, &mut []), Err(too_short));
    assert_eq!(list, [99; 4], "untouched");
    assert_eq!(replay(&book.0, &mut list[..2]), Ok(2));
    assert_eq!(list, [1, 0, 99, 99]);
    assert_eq!(replay(&book.0, &mut [99; 4]), Ok(2));
    assert_eq!(replay(&[], &mut []), Ok(0));
    assert_eq!(replay_line([1, 0, 63]), "replay 1 0 63\n");
    assert_eq!(replay_line([]), "replay\n");
}

#[test]
fn all_64_in_falling_order() {
    let falling = (0..64).rev();
    let book = falling
        .clone()
        .fold(Book::begun(64, 1), |book, t| book.operate(t, 0, WRITE));
    let book = (0..64).fold(book, Book::commit);
    assert_eq!(order(&book), falling.map(usize::from).collect::<Vec<_>>());
}

/// A committed operation: who holds it, its object, whether it writes.
type Kept = (usize, usize, bool);

fn kept(reading: &Reading) -> Vec<Kept> {
    let state = &reading.state;
    let committed = |q: &usize| state.operation_phase(*q) == Phase::Committed;
    let kept = |q| {
        let writes = state.mark(q) == Mark::Write;
        (state.responsible(q), state.object(q), writes)
    };
    (0..state.operations())
        .filter(committed)
        .map(kept)
        .collect()
}

/// What the rules say of an order, place by place.
fn is_as_described(reading: &Reading) {
    let kept = kept(reading);
    let order = replay_order(reading);
    let points = |first: usize, second: usize| {
        kept.iter().enumerate().any(|(at, (t, object, writes))| {
            *t == second
                && kept[..at].iter().any(|(earlier, same, wrote)| {
                    *earlier == first && same == object && (*wrote || *writes)
                })
        })
    };
    for t in 0..64 {
        let times = order.iter().filter(|named| **named == t).count();
        let holds = kept.iter().any(|(holder, ..)| *holder == t);
        assert_eq!(times, usize::from(holds), "{t}");
    }
    for (place, t) in order.iter().enumerate() {
        let (behind, rest) = order.split_at(place);
        for earlier in behind {
            assert!(!points(*t, *earlier), "{order:?}");
        }
        for other in rest.iter().filter(|other| *other < t) {
            let waits = rest
                .iter()
                .any(|third| third != other && points(*third, *other));
            assert!(waits, "{other} could come at {place} of {order:?}");
        }
    }
}

/// Mostly an operation or the end of something.
fn draw(chance: &mut Chance, reading: &Reading) -> Event {
    let transactions = reading.tables.transactions();
    let transaction = chance.field(transactions);
    let operations = reading.state.operations();
    let operation = chance.field(operations.max(1));
    let holder = match operations {
        0 => transaction,
        _ => reading.state.responsible(operation as usize) as u32,
    };
    match chance.below(16) {
        0 => Event::Begin { transaction },
        1..=3 => Event::Commit { transaction },
        4 if chance.below(3) == 0 => Event::Abort { transaction },
        5 | 6 => Event::Delegate {
            giver: holder,
            receiver: transaction,
            operation,
        },
        7..=9 => Event::CommitOperation {
            transaction: holder,
            operation,
        },
        10 if chance.below(4) == 0 => Event::AbortOperation {
            transaction: holder,
            operation,
        },
        _ => Event::Operation {
            transaction,
            object: chance.field(reading.tables.objects()),
            mark: chance.field(2),
        },
    }
}

#[test]
fn the_order_is_the_one_described_after_every_event() {
    let (mut longest, mut not_rising) = (0, 0);
    for seed in 0..120 {
        let chance = &mut Chance::new(seed);
        let plain = 3 + chance.below(14) as u8;
        let objects = 1 + chance.below(8) as u8;
        let mut reading = Book::begun(plain, objects).read();
        for _ in 0..200 {
            let event = draw(chance, &reading);
            if reading.state.offer(&reading.tables, event).is_ok() {
                is_as_described(&reading);
                let order = replay_order(&reading);
                longest = longest.max(order.len());
                not_rising += usize::from(!order.is_sorted());
            }
        }
    }
    assert!(
        longest >= 10 && not_rising > 1_000,
        "{longest} {not_rising}"
    );
}
