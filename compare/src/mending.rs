//! Torn books to be mended, and the sizes of the rooms that are lent for it.

use crate::aim::{story_of_a_long_saga, story_of_sagas};
use crate::books::book;
use crate::carried::disturbed;
use crate::draft::{encode_field, Draft, Event, Tables};
use crate::plans::left_on_its_way;
use crate::random::Random;
use crate::story::{story, Story};
use crate::tables::office_records;

const MOST_BYTES: usize = 65_536;

/// One index in so many has a book that is laid out for mending.
const LAID_OUT_ONES: u64 = 20;
/// One in so many has a long book that is torn at every byte.
const TORN_ONES: u64 = 1000;
/// One in so many has a book whose mended form comes to about 65,536 bytes.
const LONG_ONES: u64 = 200;

/// The books to be mended with the index among those of the seed, each with the
/// size of the lent room.
pub fn torn_books(seed: u64, index: u64) -> Vec<(Vec<u8>, usize)> {
    // They are drawn apart from the books, the lists and the plans of the seed.
    let mut random = Random::new(seed.rotate_left(16), index);
    if index % TORN_ONES == 100 {
        return torn_at_every_byte(&mut random);
    }
    if index % LONG_ONES == 150 {
        return with_rooms(long(&mut random));
    }
    if index % LAID_OUT_ONES == 11 {
        return with_rooms(laid_out(&mut random));
    }
    if index % 4 == 2 {
        return with_a_room(&mut random, book(seed, index).bytes);
    }
    Vec::new()
}

/// How many bytes the mended book takes in a lent room.
fn needed(book: &[u8]) -> usize {
    match second::mend(book, &mut [0; MOST_BYTES]) {
        Ok(second::Mended::Written { bytes, .. }) => bytes,
        Ok(second::Mended::Own { .. }) | Err(_) => 0,
    }
}

/// No room at all, one byte too few, just enough, and more.
fn with_rooms(book: Vec<u8>) -> Vec<(Vec<u8>, usize)> {
    let needed = needed(&book);
    let mut sizes = vec![0, needed.saturating_sub(1), needed, MOST_BYTES];
    sizes.dedup();
    sizes.into_iter().map(|size| (book.clone(), size)).collect()
}

fn with_a_room(random: &mut Random, book: Vec<u8>) -> Vec<(Vec<u8>, usize)> {
    let mut with_rooms = with_rooms(book);
    let chosen = random.below(with_rooms.len());
    vec![with_rooms.swap_remove(chosen)]
}

/// A story in which sagas are left on their way.
pub fn story_left(random: &mut Random) -> Story {
    let told: fn(&mut Random) -> Story = random.pick(&[
        story as fn(&mut Random) -> Story,
        story_of_sagas,
        story_of_sagas,
        story_of_a_long_saga,
    ]);
    let whole = told(random);
    left_on_its_way(random, &whole)
}

/// A long book, torn at every byte of it, each with some room.
fn torn_at_every_byte(random: &mut Random) -> Vec<(Vec<u8>, usize)> {
    let mut story = loop {
        let story = story_of_sagas(random);
        if !story.draft.tables.dependencies.is_empty() {
            break story;
        }
    };
    story.go_on(random, 40);
    let bytes = story.draft.bytes();
    (0..=bytes.len())
        .flat_map(|end| with_a_room(random, bytes[..end].to_vec()))
        .collect()
}

/// A book that is whole, torn, or refused in the middle; some with sagas that
/// are all settled.
pub fn laid_out(random: &mut Random) -> Vec<u8> {
    let mut story = story_left(random);
    if random.one_in(3) {
        settle(&mut story);
    }
    match random.below(6) {
        0 => story.draft.bytes(),
        1 | 2 => torn(random, &story.draft),
        3 => {
            let refused_in_the_middle = cut_by_a_stray(random, &story);
            refused_in_the_middle.draft.bytes()
        }
        4 => disturbed(random, story.draft),
        _ => {
            let mut bytes = story.draft.bytes();
            bytes.extend(random.pick(&[
                &[0][..],
                &[0x80],
                &[4],
                &[1, 0x80],
                &[2, 0x80, 0x00],
                &[5, 0, 0],
                &[0xFF, 0xFF, 0xFF],
            ]));
            bytes
        }
    }
}

/// Brings every saga that was begun to its end.
pub fn settle(story: &mut Story) {
    for (saga, steps) in story.model.sagas() {
        while let Some(event) = story.model.closing_step(saga, steps) {
            if !story.go_on_with(event) {
                return;
            }
        }
    }
}

/// A book that breaks off in the middle of an event, or of a number.
fn torn(random: &mut Random, draft: &Draft) -> Vec<u8> {
    let tables = draft.tables.fields().len();
    let fields: Vec<Vec<u8>> = draft.fields().into_iter().map(encode_field).collect();
    let tables_end = fields[..tables].concat().len();
    let bytes = fields.concat();
    let end = random.within(tables_end..=bytes.len());
    bytes[..end].to_vec()
}

/// The story up to some place, then an event that is refused, then the rest.
fn cut_by_a_stray(random: &mut Random, whole: &Story) -> Story {
    let Draft { tables, events } = &whole.draft;
    let place = random.below(events.len() + 1);
    let (front, back) = events.split_at(place);
    let mut story = Story::new(tables.clone());
    front.iter().for_each(|event| story.add(*event));
    while story.draft.events.len() <= place {
        let t = random.below(64) as u32;
        let stray = random.pick(&[Event::Commit(t), Event::Begin(t), Event::Abort(t)]);
        if story.model.verdict(stray) != 0 {
            story.add(stray);
        }
    }
    back.iter().for_each(|event| story.add(*event));
    story
}

/// A book of up to 65,536 bytes, nearly all of them delegations, with sagas that
/// are left on their way, so that the mended book has about 65,536 bytes too; now
/// and then torn.
fn long(random: &mut Random) -> Vec<u8> {
    let sagas = random.within(1..=3);
    let steps: Vec<u32> = (0..sagas).map(|_| random.within(1..=4) as u32).collect();
    let one = 2 * steps.iter().sum::<u32>();
    let mut story = Story::new(Tables {
        records: office_records(random),
        steps,
        plain: 2,
        objects: 1,
        ..Tables::default()
    });
    for _ in 0..random.within(1..=12) {
        story.move_a_saga(random);
    }
    if random.one_in(6) {
        settle(&mut story);
    }
    let clerks = [Event::Begin(one), Event::Begin(one + 1)];
    let reads = [Event::Operation(one, 0, 0)].repeat(129);
    for event in clerks.into_iter().chain(reads) {
        story.go_on_with(event);
    }
    let mended = random.pick(&[65_535, 65_536, 65_536, 65_536, 65_537, 65_537, 65_538]);
    let opening = (mended - 2 * story.model.left()).min(MOST_BYTES);
    let mut bytes = story.draft.bytes();
    let room = opening - bytes.len();
    let of_five_bytes = room % 4;
    let of_four_bytes = (room - 5 * of_five_bytes) / 4;
    for time in 0..of_five_bytes {
        bytes.extend(handed_on(one as u8, time, &[0x80, 0x01]));
    }
    for time in 0..of_four_bytes {
        bytes.extend(handed_on(one as u8, time, &[0]));
    }
    if random.one_in(2) {
        let torn = random.within(0..=3).min(MOST_BYTES - bytes.len());
        bytes.extend(&[5, one as u8, one as u8 + 1][..torn]);
    }
    bytes
}

/// An operation goes to and fro between a clerk and the next.
fn handed_on(clerk: u8, time: usize, operation: &[u8]) -> Vec<u8> {
    let there = (time % 2) as u8;
    [&[5, clerk + there, clerk + 1 - there], operation].concat()
}

#[cfg(test)]
mod tests {
    use super::*;
    use crate::model::Model;
    use crate::replay::replay;
    use second::{mend, mended_book, Mended, Refused};

    /// The closing steps that a state asks for, saga by saga.
    fn closing_bytes(mut model: Model) -> Vec<u8> {
        let mut bytes = Vec::new();
        for (saga, steps) in model.sagas() {
            while let Some(event) = model.closing_step(saga, steps) {
                assert_eq!(model.verdict(event), 0, "{event:?}");
                model.take(event);
                bytes.extend(event.fields().iter().map(|field| *field as u8));
            }
        }
        bytes
    }

    /// What mending is to answer, by the picture of the rules: the book that is
    /// handed back and what is said of it.
    fn wanted(book: &[u8], size: usize) -> Result<(Vec<u8>, Mended), Refused> {
        let reading = second::read_to_first_refusal(book);
        let events = reading.events;
        let refused = |number, place| Refused {
            number,
            events,
            place,
        };
        let opening = &book[..reading.opening];
        let Some(model) = replay(book, &reading, |_, _, _| {}) else {
            return Err(refused(reading.number, reading.place));
        };
        let steps = closing_bytes(model);
        if reading.number == 0 && steps.is_empty() {
            return Ok((book.to_vec(), Mended::Own { kept: events }));
        }
        let whole = [opening, &steps].concat();
        if whole.len() > MOST_BYTES {
            return Err(refused(1, 0));
        }
        if whole.len() > size {
            return Err(refused(19, 0));
        }
        let said = Mended::Written {
            bytes: whole.len(),
            kept: events,
            dropped: book.len() - opening.len(),
            added: steps.len() / 2,
        };
        Ok((whole, said))
    }

    /// What came up among the books to be mended.
    #[derive(Default, Debug)]
    struct Seen {
        own: usize,
        torn_but_settled: usize,
        whole_but_open: usize,
        torn_and_open: usize,
        tables: usize,
        too_long: usize,
        too_long_without_room: usize,
        no_room: usize,
        longest: usize,
    }

    impl Seen {
        fn see(&mut self, size: usize, answer: &Result<(Vec<u8>, Mended), Refused>) {
            let sort = match answer {
                Ok((_, Mended::Own { .. })) => &mut self.own,
                Ok((book, Mended::Written { dropped, added, .. })) => {
                    self.longest += usize::from(book.len() == MOST_BYTES);
                    match (dropped, added) {
                        (0, _) => &mut self.whole_but_open,
                        (_, 0) => &mut self.torn_but_settled,
                        _ => &mut self.torn_and_open,
                    }
                }
                Err(Refused {
                    number: 1, events, ..
                }) if *events > 0 => {
                    self.too_long_without_room += usize::from(size == 0);
                    &mut self.too_long
                }
                Err(Refused { number: 19, .. }) => &mut self.no_room,
                Err(_) => &mut self.tables,
            };
            *sort += 1;
        }
    }

    #[test]
    fn books_are_mended_as_the_picture_of_the_rules_would() {
        let mut seen = Seen::default();
        for (book, size) in (0..5000).flat_map(|index| torn_books(61, index)) {
            let answer = wanted(&book, size);
            seen.see(size, &answer);
            let mut room = vec![0xEE; size];
            let mended = mend(&book, &mut room);
            let handed_back = mended.map(|said| (mended_book(said, &book, &room).to_vec(), said));
            assert_eq!(handed_back, answer, "{book:?} {size}");
            let written = match mended {
                Ok(Mended::Written { bytes, .. }) => bytes,
                Ok(Mended::Own { .. }) | Err(_) => 0,
            };
            assert!(room[written..].iter().all(|byte| *byte == 0xEE));
        }
        let counts = [
            (seen.own, 100),
            (seen.torn_but_settled, 100),
            (seen.whole_but_open, 100),
            (seen.torn_and_open, 100),
            (seen.tables, 100),
            (seen.too_long, 10),
            (seen.too_long_without_room, 3),
            (seen.no_room, 100),
            (seen.longest, 3),
        ];
        assert!(
            counts.iter().all(|(count, least)| count >= least),
            "{seen:?}"
        );
    }

    #[test]
    fn a_mended_book_is_its_own() {
        let mut mended = 0;
        for (book, _) in (0..1000).flat_map(|index| torn_books(62, index)) {
            let mut room = vec![0; MOST_BYTES];
            let Ok(said @ Mended::Written { kept, added, .. }) = mend(&book, &mut room) else {
                continue;
            };
            let whole = mended_book(said, &book, &room);
            let kept = kept + added;
            assert_eq!(mend(whole, &mut []), Ok(Mended::Own { kept }));
            mended += 1;
        }
        assert!(mended > 300, "{mended}");
    }

    #[test]
    fn a_long_book_is_torn_at_every_byte() {
        let torn = torn_books(63, 100);
        assert!(torn.len() > 150);
        let (longest, _) = &torn[torn.len() - 1];
        for (end, (book, _)) in torn.iter().enumerate() {
            assert_eq!(book[..], longest[..end]);
        }
    }
}
