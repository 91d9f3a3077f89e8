//! How often the order to replay in was one that is easily got wrong.

use crate::model::{Model, Phase};
use std::fmt;

/// Counted over all books.
#[derive(Clone, Copy, Debug, Default, PartialEq, Eq)]
pub struct Orders {
    /// Books in which somebody is named.
    named: u64,
    /// The order is not that of the numbers.
    not_by_number: u64,
    /// One that is still active is named.
    active: u64,
    /// One that was aborted is named.
    aborted: u64,
    /// It would be another order if ties of active operations counted.
    but_for_active: u64,
    /// It would be another order if ties of aborted operations counted.
    but_for_aborted: u64,
}

impl Orders {
    /// Counts the state that a book has come to.
    pub fn count(&mut self, model: &Model) {
        let order = model.replay_order();
        let in_phase = |phase| order.iter().any(|t| model.phase(*t) == phase);
        self.named += u64::from(!order.is_empty());
        self.not_by_number += u64::from(!order.is_sorted());
        self.active += u64::from(in_phase(Phase::Active));
        self.aborted += u64::from(in_phase(Phase::Aborted));
        let with = |phase| model.replay_order_with_ties_of(phase) != order;
        self.but_for_active += u64::from(with(Phase::Active));
        self.but_for_aborted += u64::from(with(Phase::Aborted));
    }

    /// Each count with what it counts.
    pub fn counted(&self) -> [(u64, &'static str); 6] {
        [
            (self.named, "somebody is named"),
            (self.not_by_number, "not by number"),
            (self.active, "an active one is named"),
            (self.aborted, "an aborted one is named"),
            (
                self.but_for_active,
                "another if ties of active operations counted",
            ),
            (
                self.but_for_aborted,
                "another if ties of aborted operations counted",
            ),
        ]
    }
}

impl fmt::Display for Orders {
    fn fmt(&self, output: &mut fmt::Formatter) -> fmt::Result {
        for (count, name) in self.counted() {
            writeln!(output, "replay {count:6} {name}")?;
        }
        Ok(())
    }
}

#[cfg(test)]
mod tests {
    use super::*;
    use crate::replay::replay;

    fn counted(book: &[u8]) -> Orders {
        let mut orders = Orders::default();
        orders.count(&replay(book, &second::read(book), |_, _, _| {}).unwrap());
        orders
    }

    #[test]
    fn each_count_by_itself() {
        // Plain 0 and 1 active, two lists.
        let after = |events: &[u8]| counted(&[&[1, 0, 2, 2, 0, 1, 0, 1, 1][..], events].concat());
        let none = Orders::default();
        let named = Orders { named: 1, ..none };
        assert_eq!(after(&[]), none);
        assert_eq!(after(&[4, 1, 0, 1, 2, 1]), named);
        let falling = Orders {
            not_by_number: 1,
            ..named
        };
        let against = [4, 1, 0, 1, 2, 1, 4, 0, 0, 1, 2, 0];
        assert_eq!(after(&against), falling);
        let kept = [4, 1, 1, 1, 6, 1, 0, 4, 1, 0, 1, 4, 0, 0, 1, 2, 0];
        let active = Orders {
            active: 1,
            but_for_active: 1,
            ..named
        };
        assert_eq!(after(&kept), active);
        let given_up = Orders {
            aborted: 1,
            but_for_aborted: 1,
            ..named
        };
        assert_eq!(after(&[&kept[..], &[3, 1]].concat()), given_up);
    }
}
