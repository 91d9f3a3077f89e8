//! How often each kind of book was made, and how often each refusal came up.

use crate::barred::Barred;
use crate::books::Made;
use crate::editions::Editions;
use crate::families::Families;
use crate::orders::Orders;
use crate::passed::Passed;
use crate::replay::replay;
use crate::singles::Singles;
use std::collections::BTreeMap;
use std::fmt;

const HIGHEST_OF_READING: usize = 22;
/// The lent room is too small: reading never comes to that.
const NEVER_OF_READING: usize = 19;
/// So many books must bring up every refusal.
const ENOUGH_BOOKS: u64 = 2000;

/// Counted books.
#[derive(Default)]
pub struct Counts {
    books: u64,
    events: u64,
    kinds: BTreeMap<&'static str, u64>,
    numbers: [u64; HIGHEST_OF_READING + 1],
    /// What reading with circles permitted to the first refusal comes to, for
    /// books refused by 21.
    circles_numbers: BTreeMap<u8, u64>,
    singles: Singles,
    barred: Barred,
    orders: Orders,
    passed: Passed,
    editions: Editions,
    families: Families,
}

/// The refusals that reading can come to.
fn of_reading() -> impl Iterator<Item = usize> {
    (1..=HIGHEST_OF_READING).filter(|number| *number != NEVER_OF_READING)
}

impl Counts {
    /// Counts a book in, by its kind and by the number of its first refusal.
    pub fn count(&mut self, made: &Made) {
        let reading = second::read(&made.bytes);
        let first_refusal = second::read_to_first_refusal(&made.bytes).number;
        self.books += 1;
        self.events += reading.events as u64;
        *self.kinds.entry(made.kind).or_default() += 1;
        self.numbers[usize::from(first_refusal)] += 1;
        let model = replay(&made.bytes, &reading, |model, event, number| {
            self.singles.count(model, event, number);
            self.barred.count(model, event, number);
            self.families.count(model, event, number);
        });
        if let Some(model) = model {
            self.orders.count(&model);
        }
        self.passed.count(&reading);
        self.editions.count(&reading);
        if reading.number == second::refusal::NEVER_MOVES {
            let circles = second::read_circles_permitted_to_first_refusal(&made.bytes);
            *self.circles_numbers.entry(circles.number).or_default() += 1;
        }
    }

    /// The refusals that never came up though enough books were counted.
    pub fn missing(&self) -> Vec<usize> {
        if self.books < ENOUGH_BOOKS {
            return Vec::new();
        }
        of_reading()
            .filter(|number| self.numbers[*number] == 0)
            .collect()
    }
}

impl fmt::Display for Counts {
    fn fmt(&self, output: &mut fmt::Formatter) -> fmt::Result {
        writeln!(output, "books {}", self.books)?;
        writeln!(output, "events accepted {}", self.events)?;
        for (kind, count) in &self.kinds {
            writeln!(output, "kind {count:6} {kind}")?;
        }
        writeln!(output, "read {:6} accepted", self.numbers[0])?;
        for number in of_reading() {
            writeln!(output, "read {:6} refused {number}", self.numbers[number])?;
        }
        for (number, count) in &self.circles_numbers {
            match number {
                0 => writeln!(output, "circles {count:6} accepted")?,
                _ => writeln!(output, "circles {count:6} refused {number}")?,
            }
        }
        write!(output, "{}{}{}", self.singles, self.barred, self.orders)?;
        write!(output, "{}{}{}", self.passed, self.editions, self.families)
    }
}

#[cfg(test)]
mod tests {
    use super::*;
    use crate::books::book;

    #[test]
    fn every_refusal_comes_up_in_a_long_run() {
        for seed in [1, 2] {
            let mut counts = Counts::default();
            for index in 0..ENOUGH_BOOKS {
                counts.count(&book(seed, index));
            }
            assert_eq!(counts.missing(), [0; 0]);
            for number in [0, 14] {
                assert!(counts.circles_numbers.get(&number) > Some(&10), "{number}");
            }
            let undo_on_a_ring = usize::from(second::refusal::UNDO_ON_A_RING);
            assert!(counts.numbers[undo_on_a_ring] >= 36);
            for (count, name) in counts.barred.named() {
                assert!(count >= 3, "{count} {name}");
            }
            for (count, name) in counts.orders.counted() {
                assert!(count >= 20, "{count} {name}");
            }
            for (count, name) in counts.passed.counted() {
                assert!(count >= 20, "{count} {name}");
            }
            for (count, name) in counts.editions.counted() {
                assert!(count >= 100, "{count} {name}");
            }
            for (count, name) in counts.families.counted() {
                assert!(count >= 5, "{count} {name}");
            }
            for number in (8..=18).chain([20, 22]) {
                assert!(counts.passed.by_number(number) >= 15, "{number}");
            }
        }
    }

    #[test]
    fn what_never_came_up_is_named() {
        let mut counts = Counts::default();
        let empty = Made {
            bytes: Vec::new(),
            kind: "empty",
        };
        for _ in 1..ENOUGH_BOOKS {
            counts.count(&empty);
        }
        assert_eq!(counts.missing(), [0; 0], "too few to tell");
        counts.count(&empty);
        let all_but_2 = [1].into_iter().chain(3..=18).chain(20..=22);
        assert_eq!(counts.missing(), all_but_2.collect::<Vec<_>>());
        let text = counts.to_string();
        assert!(text.contains("kind   2000 empty\n"));
        assert!(text.contains("read   2000 refused 2\n"));
        assert!(text.contains("refused 18\n") && !text.contains("refused 19\n"));
        assert!(text.contains("single      0 commits accepted\n"));
    }
}
