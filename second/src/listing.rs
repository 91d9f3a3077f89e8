//! The listing of a book, as the office reads it.

use crate::closing::{closing, outstanding};
use crate::event::{ABORT, BEGIN};
use crate::refusal;
use crate::state::{Mark, Phase};
use crate::{
    read, read_circles_permitted, read_circles_permitted_to_first_refusal, read_to_first_refusal,
    Reading, RefusedEvent,
};

/// The listing: whether the book is accepted, then the refused events, the
/// transactions, the operations and the sagas. After refused tables only the
/// first line.
pub fn listing(book: &[u8]) -> String {
    lines(&read(book))
}

/// The listing of a book that is read with circles permitted.
pub fn listing_circles_permitted(book: &[u8]) -> String {
    lines(&read_circles_permitted(book))
}

/// The listing of a book that is read to its first refusal.
pub fn listing_to_first_refusal(book: &[u8]) -> String {
    lines(&read_to_first_refusal(book))
}

/// The listing of a book that is read with circles permitted to its first
/// refusal.
pub fn listing_circles_permitted_to_first_refusal(book: &[u8]) -> String {
    lines(&read_circles_permitted_to_first_refusal(book))
}

fn lines(reading: &Reading) -> String {
    let transactions = 0..reading.tables.transactions();
    let operations = 0..reading.state.operations();
    let sagas = 0..reading.tables.sagas().len();
    std::iter::once(book_line(reading))
        .chain(reading.refused_events.iter().map(refused_event_line))
        .chain(transactions.map(|number| transaction_line(reading, number)))
        .chain(operations.map(|number| operation_line(reading, number)))
        .chain(sagas.map(|index| saga_line(reading, index)))
        .collect()
}

pub(crate) fn book_line(reading: &Reading) -> String {
    let Reading {
        number,
        events,
        place,
        ..
    } = reading;
    if *number == refusal::ACCEPTED {
        format!("book accepted {events}\n")
    } else {
        format!("book refused {number} {events} {place}\n")
    }
}

fn refused_event_line(refused: &RefusedEvent) -> String {
    format!("no {} {}\n", refused.index, refused.number)
}

/// The line of the board above the pass: how much is left in all.
pub fn left_line(reading: &Reading) -> String {
    format!("left {}\n", reading.state.left())
}

fn transaction_line(reading: &Reading, number: usize) -> String {
    format!("t {number} {}\n", phase_word(reading.state.phase(number)))
}

fn operation_line(reading: &Reading, number: usize) -> String {
    let state = &reading.state;
    let mark = match state.mark(number) {
        Mark::Read => "read",
        Mark::Write => "write",
    };
    let record = reading.records.get(number);
    let record = record.map_or(String::new(), |record| format!(" {record}"));
    format!(
        "op {number} {} {mark} {} {}{record}\n",
        state.object(number),
        state.responsible(number),
        phase_word(state.operation_phase(number))
    )
}

fn saga_line(reading: &Reading, index: usize) -> String {
    let owed = outstanding(reading, index);
    match closing(reading, index) {
        Some((code, transaction)) => {
            format!("saga {index} {owed} {} {transaction}\n", step_word(code))
        }
        None => format!("saga {index} {owed} none\n"),
    }
}

fn phase_word(phase: Phase) -> &'static str {
    match phase {
        Phase::Idle => "idle",
        Phase::Active => "active",
        Phase::Committed => "committed",
        Phase::Aborted => "aborted",
    }
}

pub(crate) fn step_word(code: u8) -> &'static str {
    match code {
        BEGIN => "begin",
        ABORT => "abort",
        _ => "commit",
    }
}
