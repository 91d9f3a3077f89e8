//! In which ways 22 came up: an operation or a delegation that would have put
//! an active undo on a ring.

use crate::draft::Event;
use crate::model::Model;
use std::fmt;

/// Counted over all books.
#[derive(Clone, Copy, Debug, Default, PartialEq, Eq)]
pub struct Barred {
    /// Operations of somebody else.
    by_others: u64,
    /// Operations of an undo.
    by_an_undo: u64,
    /// Operations of either, with 256 accepted already.
    one_too_many: u64,
    /// Operations of one that has nothing to do with an undo's objects.
    by_one_far_off: u64,
    handed_on: u64,
    /// Delegations to one that has nothing to do with an undo's objects.
    handed_to_one_far_off: u64,
    /// Commits of a helper.
    handed_up: u64,
}

impl Barred {
    /// Counts an event that was read with the number in the state.
    pub fn count(&mut self, model: &Model, event: Event, number: u8) {
        if number != second::refusal::UNDO_ON_A_RING {
            return;
        }
        match event {
            Event::Operation(t, object, _) => {
                let by_an_undo = model.is_undo(t as usize);
                self.by_an_undo += u64::from(by_an_undo);
                self.by_others += u64::from(!by_an_undo);
                self.one_too_many += u64::from(model.is_full());
                self.by_one_far_off += u64::from(model.is_far_from_undos(t as usize, object));
            }
            Event::Delegate(_, receiver, operation) => {
                let object = model.operations[operation as usize].object;
                let far_off = model.is_far_from_undos(receiver as usize, object);
                self.handed_on += 1;
                self.handed_to_one_far_off += u64::from(far_off);
            }
            Event::Commit(_) => self.handed_up += 1,
            _ => {}
        }
    }

    /// Each count with what it counts.
    pub fn named(&self) -> [(u64, &'static str); 7] {
        [
            (self.by_others, "operations of another"),
            (self.by_an_undo, "operations of an undo"),
            (self.one_too_many, "operations with 256 accepted"),
            (
                self.by_one_far_off,
                "operations far from the undo's objects",
            ),
            (self.handed_on, "delegations"),
            (
                self.handed_to_one_far_off,
                "delegations far from the undo's objects",
            ),
            (self.handed_up, "commits of a helper"),
        ]
    }
}

impl fmt::Display for Barred {
    fn fmt(&self, output: &mut fmt::Formatter) -> fmt::Result {
        for (count, name) in self.named() {
            writeln!(output, "undo {count:6} refused 22: {name}")?;
        }
        Ok(())
    }
}

#[cfg(test)]
mod tests {
    use super::*;
    use crate::replay::replay;

    fn counted(book: &[u8]) -> Barred {
        let mut barred = Barred::default();
        replay(book, &second::read(book), |model, event, number| {
            barred.count(model, event, number)
        });
        barred
    }

    /// S 0, T1 1, T2 2, C1 3 and plain 4 to 6. 4 stands before the active undo
    /// by way of 5, and the undo has written object 2.
    const UNDO_AFTER_4: [u8; 44] = [
        1, 1, 2, 3, 4, 0, 1, 0, 1, 1, 2, 1, 3, 0, 1, 4, 1, 5, 4, 4, 0, 0, 4, 5, 0, 1, 4, 5, 1, 1,
        2, 5, 1, 3, 4, 3, 1, 0, 4, 3, 2, 1, 1, 6,
    ];

    #[test]
    fn each_count_by_itself() {
        let after = |events: &[u8]| counted(&[&UNDO_AFTER_4[..], events].concat());
        let none = Barred::default();
        assert_eq!(after(&[]), none);
        let by_others = Barred {
            by_others: 1,
            ..none
        };
        assert_eq!(after(&[4, 4, 2, 1]), by_others);
        let far_off = Barred {
            by_one_far_off: 1,
            ..by_others
        };
        assert_eq!(after(&[4, 6, 2, 1, 4, 6, 3, 1, 4, 4, 3, 0]), far_off);
        let handed_on = Barred {
            handed_on: 1,
            ..none
        };
        assert_eq!(after(&[4, 6, 2, 1, 5, 6, 4, 5]), handed_on);
        let filled = [4, 4, 3, 0].repeat(251);
        let one_too_many = Barred {
            one_too_many: 1,
            ..by_others
        };
        assert_eq!(after(&[&filled[..], &[4, 4, 2, 1]].concat()), one_too_many);
        let by_an_undo = Barred {
            by_an_undo: 1,
            ..none
        };
        let own = [4, 6, 2, 1, 4, 6, 3, 1, 2, 6, 4, 3, 3, 0];
        assert_eq!(after(&own), by_an_undo);
    }
}
