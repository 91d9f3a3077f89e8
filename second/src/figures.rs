//! The term's figures: what became of the sagas of up to 1,000 books.

use crate::closing::outstanding;
use crate::refusal;
use crate::state::Phase;
use crate::{read_to_first_refusal, Reading};

/// At most this many books are read for a term.
const MOST_BOOKS: usize = 1000;

/// What the books read so far come to.
#[derive(Clone, Copy, Debug, Default, PartialEq, Eq)]
pub struct Totals {
    /// The books read, refused ones too.
    pub books: usize,
    /// Those of them that are refused. What their accepted opening holds counts
    /// all the same.
    pub refused: usize,
    /// The sagas that were begun.
    pub begun: usize,
    /// Those of them that committed.
    pub committed: usize,
    /// Those that are settled without having committed.
    pub backed_out: usize,
    /// Those that still owe something.
    pub open: usize,
}

/// What became of a saga that was begun.
enum Fate {
    Committed,
    BackedOut,
    Open,
}

impl Totals {
    /// The totals with one more book, which is read to its first refusal. The
    /// 1,001st is refused by 23 and not read.
    pub fn with(mut self, book: &[u8]) -> Result<Totals, u8> {
        if self.books == MOST_BOOKS {
            return Err(refusal::TOO_MANY_BOOKS);
        }
        let reading = read_to_first_refusal(book);
        self.books += 1;
        self.refused += usize::from(reading.number != refusal::ACCEPTED);
        for saga in 0..reading.tables.sagas().len() {
            self.count(fate(&reading, saga));
        }
        Ok(self)
    }

    /// Counts a saga in, if it was begun.
    fn count(&mut self, fate: Option<Fate>) {
        self.begun += usize::from(fate.is_some());
        match fate {
            Some(Fate::Committed) => self.committed += 1,
            Some(Fate::BackedOut) => self.backed_out += 1,
            Some(Fate::Open) => self.open += 1,
            None => {}
        }
    }

    /// The share of those backed out among those begun, in lowest terms; 0 over
    /// 1 if none were begun.
    pub fn share(self) -> (usize, usize) {
        match greatest_common_divisor(self.begun, self.backed_out) {
            0 => (0, 1),
            divisor => (self.backed_out / divisor, self.begun / divisor),
        }
    }
}

/// What became of a saga; none if it was never begun.
fn fate(reading: &Reading, index: usize) -> Option<Fate> {
    let saga = reading.tables.sagas()[index];
    match reading.state.phase(saga.whole()) {
        Phase::Idle => None,
        Phase::Committed => Some(Fate::Committed),
        Phase::Active | Phase::Aborted if outstanding(reading, index) == 0 => Some(Fate::BackedOut),
        Phase::Active | Phase::Aborted => Some(Fate::Open),
    }
}

/// The greatest number that divides both, 0 if both are 0.
fn greatest_common_divisor(one: usize, other: usize) -> usize {
    match other {
        0 => one,
        _ => greatest_common_divisor(other, one % other),
    }
}

/// A line for each book that was one too many, then the totals of the others.
pub fn figures<'a>(books: impl IntoIterator<Item = &'a [u8]>) -> String {
    let mut totals = Totals::default();
    let mut lines = String::new();
    for book in books {
        match totals.with(book) {
            Ok(with_it) => totals = with_it,
            Err(number) => lines += &format!("refused {number}\n"),
        }
    }
    lines + &figures_line(totals)
}

fn figures_line(totals: Totals) -> String {
    let Totals {
        books,
        refused,
        begun,
        committed,
        backed_out,
        open,
    } = totals;
    let (above, below) = totals.share();
    format!(
        "figures {books} {refused} {begun} {committed} {backed_out} {open} share {above} {below}\n"
    )
}
