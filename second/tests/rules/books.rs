//! Small books to try the rules with. All their fields are below 128, so a
//! field is a byte.

use second::{read_to_first_refusal, report, Reading};

pub const READ: u8 = 0;
pub const WRITE: u8 = 1;

/// The book the rules show the listing of.
pub const LISTED: [u8; 24] = [
    0x01, 0x01, 0x02, 0x01, 0x01, 0x00, 0x01, 0x00, 0x01, 0x01, 0x01, 0x04, //
    0x04, 0x01, 0x00, 0x01, 0x05, 0x01, 0x04, 0x00, 0x02, 0x01, 0x03, 0x00,
];

/// A book that grows event by event.
#[derive(Clone)]
pub struct Book(pub Vec<u8>);

impl Book {
    pub fn new(steps: &[u8], plain: u8, objects: u8, dependencies: &[[u8; 3]]) -> Book {
        let mut bytes = vec![1, steps.len() as u8];
        bytes.extend_from_slice(steps);
        bytes.extend_from_slice(&[plain, objects, dependencies.len() as u8]);
        bytes.extend(dependencies.iter().flatten());
        Book(bytes)
    }

    /// Plain transactions only, all of them begun.
    pub fn begun(plain: u8, objects: u8) -> Book {
        (0..plain).fold(Book::new(&[], plain, objects, &[]), Book::begin)
    }

    pub fn begin(self, t: u8) -> Book {
        self.then(&[1, t])
    }

    pub fn commit(self, t: u8) -> Book {
        self.then(&[2, t])
    }

    pub fn abort(self, t: u8) -> Book {
        self.then(&[3, t])
    }

    pub fn operate(self, t: u8, object: u8, mark: u8) -> Book {
        self.then(&[4, t, object, mark])
    }

    pub fn delegate(self, giver: u8, receiver: u8, operation: u8) -> Book {
        self.then(&[5, giver, receiver, operation])
    }

    pub fn commit_operation(self, t: u8, operation: u8) -> Book {
        self.then(&[6, t, operation])
    }

    pub fn abort_operation(self, t: u8, operation: u8) -> Book {
        self.then(&[7, t, operation])
    }

    pub fn spawn(self, parent: u8, child: u8) -> Book {
        self.then(&[8, parent, child])
    }

    /// Begins a step of a saga and commits it.
    pub fn done(self, t: u8) -> Book {
        self.begin(t).commit(t)
    }

    pub fn then(mut self, bytes: &[u8]) -> Book {
        self.0.extend_from_slice(bytes);
        self
    }

    /// Reads it to its first refusal.
    pub fn read(&self) -> Reading {
        read_to_first_refusal(&self.0)
    }

    /// The number it is read with, 0 if it is accepted.
    pub fn number(&self) -> u8 {
        self.read().number
    }

    /// Asserts that everything but the last event of `bytes` bytes is
    /// accepted, and that this one is refused by the number.
    #[track_caller]
    pub fn refuses_last(&self, number: u8, bytes: usize) {
        let before = self.0.len() - bytes;
        let accepted = read_to_first_refusal(&self.0[..before]);
        assert_eq!(accepted.number, 0, "before the last event");
        let reading = self.read();
        let answer = (reading.number, reading.events, reading.place);
        assert_eq!(answer, (number, accepted.events, before));
        assert_eq!(reading.opening, before);
    }
}

/// A book of 16 bytes in which plain 2 and 3 hand an operation to and fro, 4
/// bytes each time.
pub fn handed_to_and_fro(times: usize) -> Book {
    let book = Book::new(&[1], 2, 1, &[])
        .begin(0)
        .begin(2)
        .begin(3)
        .operate(2, 0, WRITE);
    (0..times).fold(book, |book, time| match time % 2 {
        0 => book.delegate(2, 3, 0),
        _ => book.delegate(3, 2, 0),
    })
}

/// Number, events and place of a book given as bytes.
pub fn answer(bytes: &[u8]) -> (u8, usize, usize) {
    let reading = read_to_first_refusal(bytes);
    (reading.number, reading.events, reading.place)
}

/// The pairs of a book, first before second.
pub fn pairs(book: &Book) -> Vec<(usize, usize)> {
    let rows = report(&book.read()).pairs;
    let all = (0..64).flat_map(|first| (0..64).map(move |second| (first, second)));
    all.filter(|(first, second)| rows[*first] >> second & 1 == 1)
        .collect()
}
