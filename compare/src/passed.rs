//! How often reading went on behind refused events.

use second::Reading;
use std::fmt;

const HIGHEST: usize = 22;

/// Counted over all books.
#[derive(Clone, Copy, Debug, Default, PartialEq, Eq)]
pub struct Passed {
    /// Books with a refused event.
    books: u64,
    /// The first event is refused.
    first: u64,
    /// The last event is refused, and the book ends behind it.
    last: u64,
    /// Events are accepted behind a refused one.
    went_on: u64,
    /// The book is torn, or worse, behind a refused event.
    stopped: u64,
    /// Ten events or more are refused.
    many: u64,
    /// The refused events, by their numbers.
    numbers: [u64; HIGHEST + 1],
}

impl Passed {
    /// Counts what a book was read with.
    pub fn count(&mut self, reading: &Reading) {
        let refused = &reading.refused_events;
        let (Some(first), Some(last)) = (refused.first(), refused.last()) else {
            return;
        };
        let ended = reading.number == second::refusal::ACCEPTED;
        self.books += 1;
        self.first += u64::from(first.index == 0);
        self.last += u64::from(ended && last.index + 1 == reading.judged());
        self.went_on += u64::from(first.index < reading.events);
        self.stopped += u64::from(!ended);
        self.many += u64::from(refused.len() >= 10);
        for event in refused {
            self.numbers[usize::from(event.number)] += 1;
        }
    }

    /// How many events were refused by the number.
    #[cfg(test)]
    pub fn by_number(&self, number: usize) -> u64 {
        self.numbers[number]
    }

    /// Each count of books with what it counts.
    pub fn counted(&self) -> [(u64, &'static str); 6] {
        [
            (self.books, "books with a refused event"),
            (self.first, "where the first is refused"),
            (self.last, "where the last is refused"),
            (self.went_on, "with accepted events behind a refused one"),
            (self.stopped, "that are refused behind a refused event"),
            (self.many, "with ten refused events or more"),
        ]
    }
}

impl fmt::Display for Passed {
    fn fmt(&self, output: &mut fmt::Formatter) -> fmt::Result {
        for (count, name) in self.counted() {
            writeln!(output, "passed {count:6} {name}")?;
        }
        for (number, count) in self
            .numbers
            .iter()
            .enumerate()
            .filter(|(_, count)| **count > 0)
        {
            writeln!(output, "no {count:10} refused {number}")?;
        }
        Ok(())
    }
}

#[cfg(test)]
mod tests {
    use super::*;

    fn counted(book: &[u8]) -> Passed {
        let mut passed = Passed::default();
        passed.count(&second::read(book));
        passed
    }

    #[test]
    fn each_count_by_itself() {
        // One clerk.
        let after = |events: &[u8]| counted(&[&[1, 0, 1, 0, 0][..], events].concat());
        let none = Passed::default();
        assert_eq!(after(&[1, 0, 2, 0]), none);
        assert_eq!(after(&[1, 0, 2]), none);
        let by_10 = |times: u64| {
            let mut numbers = [0; HIGHEST + 1];
            numbers[10] = times;
            numbers
        };
        let one = Passed {
            books: 1,
            numbers: by_10(1),
            ..none
        };
        assert_eq!(after(&[1, 0, 1, 0]), Passed { last: 1, ..one });
        assert_eq!(after(&[1, 0, 1, 0, 2, 0]), Passed { went_on: 1, ..one });
        assert_eq!(after(&[1, 0, 1, 0, 2]), Passed { stopped: 1, ..one });
        let many = Passed {
            many: 1,
            last: 1,
            numbers: by_10(10),
            ..one
        };
        assert_eq!(after(&[1, 0].repeat(11)), many);
        let mut first = Passed {
            first: 1,
            went_on: 1,
            numbers: [0; HIGHEST + 1],
            ..one
        };
        first.numbers[11] = 1;
        assert_eq!(after(&[2, 0, 1, 0]), first);
    }
}
