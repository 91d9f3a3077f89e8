//! What became of the commits and aborts of single operations.

use crate::draft::Event;
use crate::model::{Model, Phase};
use std::fmt;

/// Counted over all books.
#[derive(Clone, Copy, Debug, Default, PartialEq, Eq)]
pub struct Singles {
    /// Single commits accepted.
    kept: u64,
    /// Single aborts accepted.
    dropped: u64,
    /// Delegations accepted of an operation that had ended.
    handed_on_after_the_end: u64,
    /// Single commits refused by 15.
    kept_too_early: u64,
    /// Single commits refused by 16.
    kept_on_a_ring: u64,
    /// Commits refused by 15 because of a read that was kept before.
    barred_by_a_kept_read: u64,
}

impl Singles {
    /// Counts an event that was read with the number in the state.
    pub fn count(&mut self, model: &Model, event: Event, number: u8) {
        match number {
            second::refusal::ACCEPTED => self.count_accepted(model, event),
            _ => self.count_refused(model, event, number),
        }
    }

    fn count_accepted(&mut self, model: &Model, event: Event) {
        match event {
            Event::CommitOperation(..) => self.kept += 1,
            Event::AbortOperation(..) => self.dropped += 1,
            Event::Delegate(_, _, operation)
                if model.operation_phase(operation as usize) != Phase::Active =>
            {
                self.handed_on_after_the_end += 1;
            }
            _ => {}
        }
    }

    fn count_refused(&mut self, model: &Model, event: Event, number: u8) {
        match (event, number) {
            (Event::CommitOperation(..), 15) => self.kept_too_early += 1,
            (Event::CommitOperation(..), 16) => self.kept_on_a_ring += 1,
            (Event::Commit(t), 15) if model.is_barred_by_kept_read(t as usize) => {
                self.barred_by_a_kept_read += 1;
            }
            _ => {}
        }
    }

    /// Each count with what it counts.
    fn named(&self) -> [(u64, &'static str); 6] {
        [
            (self.kept, "commits accepted"),
            (self.dropped, "aborts accepted"),
            (self.kept_too_early, "commits refused 15"),
            (self.kept_on_a_ring, "commits refused 16"),
            (
                self.handed_on_after_the_end,
                "delegations accepted of an ended operation",
            ),
            (
                self.barred_by_a_kept_read,
                "commits of a transaction refused 15 for a kept read",
            ),
        ]
    }
}

impl fmt::Display for Singles {
    fn fmt(&self, output: &mut fmt::Formatter) -> fmt::Result {
        for (count, name) in self.named() {
            writeln!(output, "single {count:6} {name}")?;
        }
        Ok(())
    }
}

#[cfg(test)]
mod tests {
    use super::*;
    use crate::books::book;
    use crate::replay::replay;

    fn counted(books: &[&[u8]]) -> Singles {
        let mut singles = Singles::default();
        for book in books {
            replay(book, &second::read(book), |model, event, number| {
                singles.count(model, event, number)
            });
        }
        singles
    }

    /// Plain 0 and 1 active, one object; 0 writes and reads it.
    const BEGUN: [u8; 17] = [1, 0, 2, 1, 0, 1, 0, 1, 1, 4, 0, 0, 1, 4, 0, 0, 0];

    #[test]
    fn each_count_by_itself() {
        let after = |events: &[u8]| [&BEGUN[..], events].concat();
        let kept = after(&[6, 0, 1]);
        let dropped = after(&[6, 0, 1, 7, 0, 0]);
        let handed_on = after(&[6, 0, 1, 5, 0, 1, 1, 5, 0, 1, 0]);
        let barred = after(&[6, 0, 1, 7, 0, 0, 2, 0]);
        let too_early = after(&[5, 0, 1, 0, 6, 0, 1]);
        let on_a_ring = after(&[4, 1, 0, 1, 4, 0, 0, 1, 6, 0, 0]);
        let none = Singles::default();
        assert_eq!(counted(&[&BEGUN, &[], &[1, 0, 65]]), none);
        assert_eq!(counted(&[&kept]), Singles { kept: 1, ..none });
        let both = Singles {
            kept: 1,
            dropped: 1,
            ..none
        };
        assert_eq!(counted(&[&dropped]), both);
        assert_eq!(
            counted(&[&handed_on]),
            Singles {
                kept: 1,
                handed_on_after_the_end: 1,
                ..none
            }
        );
        assert_eq!(
            counted(&[&barred]),
            Singles {
                barred_by_a_kept_read: 1,
                ..both
            }
        );
        assert_eq!(
            counted(&[&too_early, &on_a_ring]),
            Singles {
                kept_too_early: 1,
                kept_on_a_ring: 1,
                ..none
            }
        );
    }

    #[test]
    fn all_of_it_comes_up() {
        let books: Vec<Vec<u8>> = (0..2000).map(|index| book(1, index).bytes).collect();
        let books: Vec<&[u8]> = books.iter().map(Vec::as_slice).collect();
        let singles = counted(&books);
        for (count, name) in singles.named() {
            assert!(count >= 10, "{count} {name}");
        }
        assert!(singles.kept >= 1000 && singles.dropped >= 1000);
    }
}
