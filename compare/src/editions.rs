//! What came up of edition 2.

use second::{Edition, Reading};
use std::fmt;

/// Counted over all books.
#[derive(Clone, Copy, Debug, Default, PartialEq, Eq)]
pub struct Editions {
    /// Books of edition 2 whose tables are taken.
    books: u64,
    /// Books of it with an accepted operation.
    with_operations: u64,
    /// Accepted operations by how many groups their record has.
    groups: [u64; 3],
    /// Accepted operations with a record that edition 1 has no number for.
    above_edition_1: u64,
}

impl Editions {
    /// Counts what a book was read with.
    pub fn count(&mut self, reading: &Reading) {
        if reading.tables.edition() != Edition::Second {
            return;
        }
        self.books += 1;
        self.with_operations += u64::from(!reading.records.is_empty());
        for record in &reading.records {
            let group = match record {
                0..=127 => 0,
                128..=16_383 => 1,
                _ => 2,
            };
            self.groups[group] += 1;
            self.above_edition_1 += u64::from(*record > 65_535);
        }
    }

    /// Each count with what it counts.
    pub fn counted(&self) -> [(u64, &'static str); 6] {
        [
            (self.books, "books whose tables are taken"),
            (self.with_operations, "books with an operation"),
            (self.groups[0], "operations with a record of one group"),
            (self.groups[1], "operations with a record of two groups"),
            (self.groups[2], "operations with a record of three groups"),
            (
                self.above_edition_1,
                "operations with a record above 65,535",
            ),
        ]
    }
}

impl fmt::Display for Editions {
    fn fmt(&self, output: &mut fmt::Formatter) -> fmt::Result {
        for (count, name) in self.counted() {
            writeln!(output, "edition 2 {count:6} {name}")?;
        }
        Ok(())
    }
}

#[cfg(test)]
mod tests {
    use super::*;

    fn counted(book: &[u8]) -> Editions {
        let mut editions = Editions::default();
        editions.count(&second::read(book));
        editions
    }

    #[test]
    fn each_count_by_itself() {
        let none = Editions::default();
        // One clerk at work on one list.
        let begun = [2, 0, 1, 1, 0, 1, 0];
        let on = |record: &[u8]| counted(&[&begun[..], &[4, 0, 0, 1], record].concat());
        assert_eq!(counted(&[1, 0, 1, 1, 0, 1, 0, 4, 0, 0, 1]), none);
        assert_eq!(counted(&[2]), none);
        assert_eq!(counted(&begun), Editions { books: 1, ..none });
        let one = |groups: [u64; 3]| Editions {
            books: 1,
            with_operations: 1,
            groups,
            ..none
        };
        assert_eq!(on(&[0x7F]), one([1, 0, 0]));
        assert_eq!(on(&[0x80, 0x01]), one([0, 1, 0]));
        assert_eq!(on(&[0xFF, 0x7F]), one([0, 1, 0]));
        assert_eq!(on(&[0xFF, 0xFF, 0x03]), one([0, 0, 1]));
        let above_edition_1 = Editions {
            above_edition_1: 1,
            ..one([0, 0, 1])
        };
        assert_eq!(on(&[0x80, 0x80, 0x04]), above_edition_1);
    }
}
