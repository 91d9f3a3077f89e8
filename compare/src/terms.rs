//! Terms: books one after another, for the figures of a term.

use crate::books::book;
use crate::draft::{Draft, Event, Tables};
use crate::mending::{laid_out, settle, story_left};
use crate::noise;
use crate::random::Random;
use crate::story::Story;
use crate::tables::office_records;

/// One index in so many has a term of some books.
const TERMS: u64 = 25;
/// One in so many has a term of about 1,000 small books.
const FULL_TERMS: u64 = 500;

/// The books of a term with the index among those of the seed, each with its
/// length in front; none if there is no term for it.
pub fn term(seed: u64, index: u64) -> Option<Vec<u8>> {
    // They are drawn apart from all else of the same seed.
    let mut random = Random::new(seed.rotate_left(48), index);
    if index % FULL_TERMS == 233 {
        let books = full_term(&mut random, index / FULL_TERMS);
        return Some(with_lengths(&books));
    }
    if index % TERMS != 8 {
        return None;
    }
    let count = random.within(0..=14);
    let books: Vec<Vec<u8>> = match random.below(4) {
        0 => (0..count).map(|_| with_known_fates(&mut random)).collect(),
        _ => (0..count).map(|_| some_book(&mut random, seed)).collect(),
    };
    let mut bytes = with_lengths(&books);
    if random.one_in(4) {
        tear(&mut random, &mut bytes);
    }
    Some(bytes)
}

/// The books one after another, each with its length in three bytes in front.
fn with_lengths(books: &[Vec<u8>]) -> Vec<u8> {
    let with_length = |book: &Vec<u8>| {
        let [low, middle, high, ..] = book.len().to_le_bytes();
        [&[low, middle, high], &book[..]].concat()
    };
    books.iter().flat_map(with_length).collect()
}

/// The last book, or its length, breaks off, or there is a length without a book.
fn tear(random: &mut Random, bytes: &mut Vec<u8>) {
    match random.below(3) {
        0 => bytes.truncate(bytes.len().saturating_sub(random.within(1..=4))),
        1 => bytes.extend(&[1, 0][..random.within(1..=2)]),
        _ => bytes.extend([9, 0, 0, 1, 1, 1, 0]),
    }
}

/// A book of any kind, or one in which sagas are left on their way.
fn some_book(random: &mut Random, seed: u64) -> Vec<u8> {
    if random.one_in(150) {
        return noise::too_long(random).bytes;
    }
    match random.below(5) {
        0 | 1 => {
            let index = random.below(100_000) as u64;
            book(!seed, index).bytes
        }
        2 => laid_out(random),
        3 => {
            let mut story = story_left(random);
            settle(&mut story);
            story.draft.bytes()
        }
        _ => story_left(random).draft.bytes(),
    }
}

/// Sagas of one step of which some committed, some were given up, some are still
/// open and some were never begun, in such numbers that the share is likely to
/// need reducing.
fn with_known_fates(random: &mut Random) -> Vec<u8> {
    let sagas = random.pick(&[2, 3, 4, 6, 8, 9, 12, 16]);
    let mut story = Story::new(Tables {
        records: office_records(random),
        steps: vec![1; sagas],
        ..Tables::default()
    });
    let given_up = random.below(sagas + 1);
    for index in 0..sagas {
        let (saga, step) = (2 * index as u32, 2 * index as u32 + 1);
        let done = [Event::Begin(step), Event::Commit(step), Event::Commit(saga)];
        story.go_on_with(Event::Begin(saga));
        if index < given_up {
            story.go_on_with(Event::Abort(saga));
        } else if !random.one_in(8) {
            done.iter().for_each(|event| {
                story.go_on_with(*event);
            });
        }
    }
    story.draft.bytes()
}

/// 999, 1000, 1001 or 1003 small books, in turn.
fn full_term(random: &mut Random, turn: u64) -> Vec<Vec<u8>> {
    let count = [1003, 1000, 1001, 999][turn as usize % 4];
    (0..count).map(|_| small_book(random)).collect()
}

/// A saga of one step that has come to one of its standings, or a book with
/// something wrong.
fn small_book(random: &mut Random) -> Vec<u8> {
    let tables = Tables {
        steps: vec![1],
        ..Tables::default()
    };
    let begun = Event::Begin(0);
    let step = [Event::Begin(1), Event::Commit(1)];
    let events = match random.below(6) {
        0 => vec![],
        1 => vec![begun],
        2 => vec![begun, Event::Abort(0)],
        3 => vec![begun, step[0], step[1], Event::Commit(0)],
        4 => vec![begun, step[0], Event::Abort(0)],
        _ => vec![begun, Event::Commit(0)],
    };
    let mut bytes = Draft { tables, events }.bytes();
    match random.below(16) {
        0 => bytes.truncate(random.below(bytes.len())),
        1 => bytes.push(random.pick(&[0, 1, 0x80])),
        _ => {}
    }
    bytes
}

#[cfg(test)]
mod tests {
    use super::*;
    use crate::answers::Case;
    use crate::model::{Model, Phase};
    use crate::replay::replay;
    use std::collections::BTreeSet;

    /// Books, refused ones, and of their sagas those begun, committed, backed
    /// out and open, by the picture of the rules.
    #[derive(Default)]
    struct Figures([usize; 6]);

    impl Figures {
        fn take(&mut self, book: &[u8]) {
            let reading = second::read_to_first_refusal(book);
            self.0[0] += 1;
            self.0[1] += usize::from(reading.number != 0);
            if let Some(model) = replay(book, &reading, |_, _, _| {}) {
                self.take_sagas(&model);
            }
        }

        fn take_sagas(&mut self, model: &Model) {
            for (saga, steps) in model.sagas() {
                let settled = model.outstanding(saga, steps) == 0;
                let counted = match model.phase(saga) {
                    Phase::Idle => continue,
                    Phase::Committed => 3,
                    _ if settled => 4,
                    _ => 5,
                };
                self.0[2] += 1;
                self.0[counted] += 1;
            }
        }

        /// The share in lowest terms, found by trying.
        fn share(&self) -> (usize, usize) {
            let (begun, backed_out) = (self.0[2], self.0[4]);
            if begun == 0 {
                return (0, 1);
            }
            let below = (1..=begun).find(|below| (backed_out * below) % begun == 0);
            let below = below.expect("begun itself is one");
            (backed_out * below / begun, below)
        }

        fn line(&self) -> String {
            let [books, refused, begun, committed, backed_out, open] = self.0;
            let (above, below) = self.share();
            format!(
                "figures {books} {refused} {begun} {committed} {backed_out} {open} \
                 share {above} {below}\n"
            )
        }
    }

    /// The books of a term, up to one that breaks off.
    fn books_of(term: &[u8]) -> Vec<&[u8]> {
        let mut books = Vec::new();
        let mut rest = term;
        while let [low, middle, high, behind @ ..] = rest {
            let length =
                usize::from(*low) + 256 * usize::from(*middle) + 65_536 * usize::from(*high);
            let Some((book, behind)) = behind.split_at_checked(length) else {
                break;
            };
            books.push(book);
            rest = behind;
        }
        books
    }

    #[test]
    fn figures_are_those_of_the_picture_of_the_rules() {
        let (mut terms, mut refused, mut reduced, mut none_begun) = (0, 0, 0, 0);
        let mut counts = BTreeSet::new();
        for term in (0..2000).filter_map(|index| term(71, index)) {
            let books = books_of(&term);
            let mut figures = Figures::default();
            books.iter().take(1000).for_each(|book| figures.take(book));
            let too_many = books.len().saturating_sub(1000);
            let wanted = ["refused 23\n".repeat(too_many), figures.line()].concat();
            assert_eq!(Case::Figures(term.clone()).answer(), wanted.as_bytes());
            let [_, refused_here, begun, _, backed_out, open] = figures.0;
            assert!(open <= begun);
            terms += 1;
            refused += refused_here;
            reduced += usize::from(backed_out > 0 && figures.share().1 < begun);
            none_begun += usize::from(begun == 0);
            counts.insert(books.len());
        }
        assert!([999, 1000, 1001, 1003]
            .iter()
            .all(|count| counts.contains(count)));
        let enough = terms >= 80 && refused > 100 && reduced > 20 && none_begun > 2;
        assert!(enough, "{terms} {refused} {reduced} {none_begun}");
    }

    #[test]
    fn books_refused_by_each_number_stand_in_terms() {
        let mut numbers = BTreeSet::new();
        for term in (0..20_000).filter_map(|index| term(72, index)) {
            for book in books_of(&term) {
                numbers.insert(second::read_to_first_refusal(book).number);
            }
        }
        let missing: Vec<u8> = (0..=22)
            .filter(|number| *number != 19 && !numbers.contains(number))
            .collect();
        assert_eq!(missing, [0; 0]);
    }

    #[test]
    fn a_torn_end_is_no_book() {
        let term = [2, 0, 0, 7, 7, 1, 0, 0, 9, 3, 0, 0, 1, 2];
        assert_eq!(books_of(&term), [&[7, 7][..], &[9]]);
        assert_eq!(books_of(&[1, 0]), [&[] as &[u8]; 0]);
    }
}
