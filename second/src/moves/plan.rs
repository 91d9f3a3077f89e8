//! A plan of record moves, and what is refused about it.

use crate::refusal;
use crate::state::refuse_unless;

/// A move has at most this many steps.
const MOST_STEPS: u16 = 16;
/// A plan has at most this many class lists.
const MOST_LISTS: usize = 30;
/// A name has at most this many bytes.
const MOST_NAME_BYTES: usize = 24;

/// Moves with their steps, and class lists, all of them by name. The names
/// stand in this order: move 0, its steps, move 1, its steps and so on; then
/// those of the lists. Whatever stands in here means something.
#[derive(Clone, Debug, Default, PartialEq, Eq)]
pub struct Plan {
    /// The bytes of all names.
    pub names: Vec<u8>,
    /// For each name where it ends in `names`. The next one begins there.
    pub ends: Vec<usize>,
    /// For each move how many steps it has.
    pub steps: Vec<u16>,
    /// For each class list the number of its move, from 0.
    pub lists: Vec<u16>,
}

impl Plan {
    /// Refuses a plan that asks for too much. Each number is judged over the
    /// whole plan before the next one.
    pub(super) fn judge(&self) -> Result<(), u8> {
        refuse_unless(self.steps_fit(), refusal::TOO_MANY_STEPS)?;
        refuse_unless(self.lists.len() <= MOST_LISTS, refusal::TOO_MANY_LISTS)?;
        refuse_unless(self.names_fit(), refusal::NAME_TOO_LONG)?;
        refuse_unless(self.lists_have_moves(), refusal::NO_SUCH_MOVE)
    }

    fn steps_fit(&self) -> bool {
        self.steps.iter().all(|steps| *steps <= MOST_STEPS)
    }

    fn names_fit(&self) -> bool {
        let all = 0..self.first_list() + self.lists.len();
        all.into_iter()
            .all(|name| self.name(name).len() <= MOST_NAME_BYTES)
    }

    fn lists_have_moves(&self) -> bool {
        let moves = self.steps.len();
        self.lists.iter().all(|index| usize::from(*index) < moves)
    }

    pub(super) fn move_name(&self, index: usize) -> &[u8] {
        self.name(self.names_of_moves(index))
    }

    /// The name of step i of a move, i from 1; none if the move has fewer.
    pub(super) fn step_name(&self, index: usize, i: usize) -> Option<&[u8]> {
        let steps = usize::from(*self.steps.get(index)?);
        (i <= steps).then(|| self.name(self.names_of_moves(index) + i))
    }

    pub(super) fn list_name(&self, list: usize) -> &[u8] {
        self.name(self.first_list() + list)
    }

    /// Which name is that of the first class list.
    fn first_list(&self) -> usize {
        self.names_of_moves(self.steps.len())
    }

    /// How many names the first so many moves have, with those of their steps.
    fn names_of_moves(&self, moves: usize) -> usize {
        let steps = self.steps[..moves].iter().copied();
        moves + steps.map(usize::from).sum::<usize>()
    }

    /// The name with the number; empty where it would end before it begins.
    fn name(&self, number: usize) -> &[u8] {
        let begin = number.checked_sub(1).map_or(0, |before| self.end(before));
        self.names.get(begin..self.end(number)).unwrap_or_default()
    }

    /// Where a name ends: nowhere behind the last byte, and at the very front
    /// if no end is given for it.
    fn end(&self, number: usize) -> usize {
        let end = self.ends.get(number).copied().unwrap_or(0);
        end.min(self.names.len())
    }
}
