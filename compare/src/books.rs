//! Books and lists of fields, each fixed by a seed and an index.

use crate::aim;
use crate::carried;
use crate::damage;
use crate::draft::{encode_field, CEILING_1, CEILING_2};
use crate::families;
use crate::noise;
use crate::ordered;
use crate::random::Random;
use crate::story::{self, Story};
use crate::stuck;
use crate::tables::office_records;

/// A book and the kind of book it was meant to be.
#[derive(Clone, Debug, PartialEq, Eq)]
pub struct Made {
    pub bytes: Vec<u8>,
    pub kind: &'static str,
}

type Maker = fn(&mut Random) -> Made;

/// How often each kind is made, out of the sum of all.
const MAKERS: [(usize, Maker); 24] = [
    (170, deep),
    (20, full),
    (110, strayed),
    (80, families::family),
    (390, aimed),
    (110, damage::torn),
    (40, damage::overlong),
    (25, damage::above_the_highest_value),
    (45, damage::bad_count),
    (35, damage::too_many_transactions),
    (80, damage::bad_dependency),
    (30, damage::bad_edition),
    (25, damage::large_value),
    (20, damage::bad_event_code),
    (25, damage::flipped),
    (25, damage::deleted),
    (25, damage::inserted),
    (25, damage::swapped),
    (60, stuck::never_moving),
    (30, stuck::hardly_moving),
    (20, stuck::wrong_before),
    (60, noise::noise),
    (5, noise::empty),
    (5, shortest),
];

/// One book in so many is a long one, every other of these too long. One in
/// twice as many is full of refused events.
const LONG_ONES: u64 = 500;

/// One book in so many is laid out for the order to replay in.
const ORDERED_ONES: u64 = 20;

/// Whether the book with the index is laid out for the order to replay in.
pub fn is_ordered(index: u64) -> bool {
    index % ORDERED_ONES == 7
}

/// One book in so many has refused events in its middle.
const CARRIED_ONES: u64 = 20;

/// The book with the index among those of the seed.
pub fn book(seed: u64, index: u64) -> Made {
    let mut random = Random::new(seed, index);
    if index % (2 * LONG_ONES) == LONG_ONES - 1 {
        return noise::too_long(&mut random);
    }
    if index % (2 * LONG_ONES) == 2 * LONG_ONES - 1 {
        return noise::longest(&mut random);
    }
    if index % (2 * LONG_ONES) == LONG_ONES / 2 - 1 {
        return carried::longest(&mut random);
    }
    if is_ordered(index) {
        return ordered::ordered(&mut random);
    }
    if index % CARRIED_ONES == 13 {
        return carried::carried(&mut random);
    }
    let chosen = random.weighted(MAKERS.iter().map(|(weight, _)| *weight));
    let (_, maker) = MAKERS[chosen];
    maker(&mut random)
}

fn made(story: &Story, kind: &'static str) -> Made {
    Made {
        bytes: story.draft.bytes(),
        kind,
    }
}

fn deep(random: &mut Random) -> Made {
    made(&story::story(random), "deep")
}

fn full(random: &mut Random) -> Made {
    match story::full_story(random, 20) {
        Some(story) => made(&story, "full of operations"),
        None => deep(random),
    }
}

fn strayed(random: &mut Random) -> Made {
    made(&story::strayed_story(random), "strayed")
}

fn aimed(random: &mut Random) -> Made {
    const AIMS: [(usize, u8, &str); 13] = [
        (2, 8, "aimed at 8"),
        (1, 9, "aimed at 9"),
        (1, 10, "aimed at 10"),
        (1, 11, "aimed at 11"),
        (1, 12, "aimed at 12"),
        (4, 13, "aimed at 13"),
        (3, 14, "aimed at 14"),
        (3, 15, "aimed at 15"),
        (2, 16, "aimed at 16"),
        (1, 17, "aimed at 17"),
        (1, 18, "aimed at 18"),
        (1, 20, "aimed at 20"),
        (5, 22, "aimed at 22"),
    ];
    let chosen = random.weighted(AIMS.iter().map(|(weight, ..)| *weight));
    let (_, number, kind) = AIMS[chosen];
    match aim::story_aimed_at(random, number) {
        Some(story) => made(&story, kind),
        None => deep(random),
    }
}

/// Tables without anything in them, and no event.
fn shortest(random: &mut Random) -> Made {
    Made {
        bytes: vec![random.pick(&[1, 2]), 0, 0, 0, 0],
        kind: "shortest",
    }
}

/// The list of fields with the index among those of the seed, to try writing
/// with.
pub fn field_list(seed: u64, index: u64) -> Vec<u32> {
    // Lists are drawn apart from the books of the same seed.
    let mut random = Random::new(!seed, index);
    // Lists are asked for every fourth index only.
    if index % LONG_ONES == LONG_ONES - 4 {
        return long_list(&mut random);
    }
    let mut fields = good_fields(&mut random);
    match random.below(11) {
        0..=3 => {}
        4 | 5 => change_field(&mut random, &mut fields),
        6 => fields.truncate(random.below(fields.len())),
        7 => append_fields(&mut random, &mut fields),
        8 => fields = noise_fields(&mut random),
        9 if random.one_in(3) => fields[0] = random.pick(&[0, 2, 3, 65_535, 65_536, 70_000]),
        _ => {
            let place = random.below(fields.len());
            fields[place] = random.pick(&ENDS);
        }
    }
    fields
}

/// Numbers at the ends of what one, two and three groups hold, of what each
/// edition takes, and of what can be asked for at all.
const ENDS: [u32; 14] = [
    127,
    128,
    255,
    256,
    16_383,
    16_384,
    65_534,
    CEILING_1,
    65_536,
    70_000,
    CEILING_2,
    2_097_152,
    2_097_153,
    u32::MAX,
];

fn good_fields(random: &mut Random) -> Vec<u32> {
    let story = match random.below(12) {
        0 => story::full_story(random, 20),
        1..=4 => {
            let number = random.pick(&[8, 9, 10, 11, 12, 13, 14, 15, 16, 17, 18, 20, 22]);
            aim::story_aimed_at(random, number)
        }
        5 => Some(stuck::never_moving_story(random).0),
        6 => Some(stuck::hardly_moving_story(random)),
        _ => None,
    };
    match story {
        Some(story) => story.draft.fields(),
        None => story::story(random).draft.fields(),
    }
}

fn change_field(random: &mut Random, fields: &mut [u32]) {
    let place = random.below(fields.len());
    fields[place] = match random.below(4) {
        0 => fields[place].wrapping_add(1),
        1 => fields[place].wrapping_sub(1),
        2 => random.below(8) as u32,
        _ => random.field(),
    };
}

fn append_fields(random: &mut Random, fields: &mut Vec<u32>) {
    for _ in 0..random.within(1..=6) {
        fields.push(random.below(9) as u32);
    }
}

fn noise_fields(random: &mut Random) -> Vec<u32> {
    let limit = random.pick(&[8, 70, 65_536, 2_200_000]);
    let length = random.within(0..=120);
    let mut fields: Vec<u32> = (0..length).map(|_| random.below(limit) as u32).collect();
    if random.one_in(2) {
        fields.insert(0, random.pick(&[1, 2]));
    }
    fields
}

/// A list whose bytes come to about 65,536, or to more; now and then the last
/// field is above the ceiling, and counts three bytes all the same.
fn long_list(random: &mut Random) -> Vec<u32> {
    let length = random.pick(&[65_535, 65_536, 65_536, 65_537, 65_538, 70_000]);
    match random.below(3) {
        0 => noise::fields_handed_to_and_fro(length, office_records(random)),
        1 => {
            let operation = [4, 0, 0, 0, random.pick(&[CEILING_2, 2_097_152, u32::MAX])];
            let bytes: usize = operation.map(counted_bytes).iter().sum();
            let records = Some(vec![random.pick(&ENDS) & CEILING_2]);
            let mut fields = noise::fields_handed_to_and_fro(length - bytes, records);
            fields.extend(operation);
            fields
        }
        _ => {
            let mut fields = vec![random.pick(&[1, 2])];
            let mut bytes = 1;
            while bytes < length {
                let field = random.field();
                bytes += counted_bytes(field);
                fields.push(field);
            }
            fields
        }
    }
}

/// How many bytes a field counts when the length of a book is judged.
fn counted_bytes(field: u32) -> usize {
    encode_field(field).len().min(3)
}

#[cfg(test)]
mod tests {
    use super::*;
    use crate::draft::{encode, Draft};
    use crate::model::can_never_move;
    use std::collections::HashMap;

    const BOOKS: u64 = 3000;

    #[test]
    fn the_same_seed_makes_the_same() {
        for index in (0..300).chain([496, 499, 999]) {
            assert_eq!(book(7, index), book(7, index));
            assert_eq!(field_list(7, index), field_list(7, index));
        }
    }

    #[test]
    fn other_seeds_and_indexes_make_others() {
        let books = |seed| (0..50).map(|index| book(seed, index)).collect::<Vec<_>>();
        let lists = |seed| {
            (0..50)
                .map(|index| field_list(seed, index))
                .collect::<Vec<_>>()
        };
        assert_ne!(books(1), books(2));
        assert_ne!(lists(1), lists(2));
        let mut of_one_seed = books(1);
        of_one_seed.sort_by(|a, b| a.bytes.cmp(&b.bytes));
        of_one_seed.dedup();
        assert!(of_one_seed.len() > 40);
    }

    /// What reading is to come to, for the kinds of which that is known.
    fn meant_number(kind: &str) -> Option<u8> {
        let before_colon = kind.split([':', ',']).next().unwrap_or_default();
        match before_colon {
            "deep" | "full of operations" | "torn between events" | "shortest" => Some(0),
            "ordered" => Some(0),
            "empty" | "torn in the tables" | "torn inside a number" => Some(2),
            "torn between fields" | "torn after an event code" => Some(2),
            "torn behind an unknown transaction" | "torn in a bad dependency" => Some(2),
            "too long" => Some(1),
            "number in a bad form" | "value above 65" => Some(3),
            "bad edition" => Some(4),
            "saga of no steps" | "saga of too many steps" | "bad number of sagas" => Some(5),
            "bad number of plain ones" | "bad number of objects" => Some(5),
            "bad number of dependencies" => Some(5),
            "too many transactions at a saga" => Some(5),
            "too many transactions at the plain ones" => Some(5),
            "dependency" => Some(6),
            "never moving" => Some(21),
            "never moving but torn" => Some(2),
            "never moving but for a bad number" => Some(3),
            "never moving but for a bad entry" => Some(6),
            "hardly moving" => Some(0),
            "bad event code" => Some(7),
            aimed => aimed.strip_prefix("aimed at ")?.parse().ok(),
        }
    }

    #[test]
    fn books_are_read_as_they_are_meant() {
        for index in 0..BOOKS {
            let made = book(3, index);
            if let Some(number) = meant_number(made.kind) {
                let reading = second::read_to_first_refusal(&made.bytes);
                assert_eq!(reading.number, number, "{} {index}", made.kind);
            }
        }
    }

    #[test]
    fn every_kind_comes_up() {
        let mut kinds: HashMap<&str, usize> = HashMap::new();
        for index in 0..BOOKS {
            *kinds.entry(book(4, index).kind).or_default() += 1;
        }
        let of_long_ones = |kind: &str| kind.starts_with("too long") || kind.starts_with("longest");
        let known = kinds.keys().filter(|kind| !of_long_ones(kind)).count();
        assert_eq!(known, 84);
    }

    #[test]
    fn long_books_have_the_lengths_meant() {
        for seed in 0..20 {
            assert!(book(seed, 499).bytes.len() > 65_536);
            assert_eq!(book(seed, 999).bytes.len(), 65_536);
        }
    }

    #[test]
    fn field_lists_are_written_and_refused_in_many_ways() {
        let mut numbers = [0; 23];
        let mut room = vec![0; 65_536];
        for index in 0..BOOKS {
            let written = second::write(&field_list(5, index), &mut room);
            let number = written.map_or_else(|refused| refused.number, |_| 0);
            numbers[usize::from(number)] += 1;
        }
        // The room is never too small here.
        for number in (0..=22).filter(|number| *number != 19) {
            assert!(numbers[number] > 0, "{number}");
        }
    }

    /// The bytes of the fields. One that is above every ceiling is three groups
    /// that go on, which no edition takes either.
    fn as_counted(fields: &[u32]) -> Vec<u8> {
        let bytes = |field: &u32| match field {
            ..=CEILING_2 => encode_field(*field),
            _ => vec![0xFF; 3],
        };
        fields.iter().flat_map(bytes).collect()
    }

    #[test]
    fn writing_answers_as_reading_does() {
        for index in 0..BOOKS {
            let fields = field_list(6, index);
            let bytes = as_counted(&fields);
            let reading = second::read_to_first_refusal(&bytes);
            let mut room = vec![0; 65_536];
            match second::write(&fields, &mut room) {
                Ok(count) => {
                    assert_eq!(reading.number, 0);
                    assert_eq!(room[..count], bytes);
                }
                Err(refused) => {
                    assert_eq!(refused.number, reading.number);
                    assert_eq!(refused.events, reading.events);
                    assert_eq!(encode(&fields[..refused.place]).len(), reading.place);
                }
            }
        }
    }

    #[test]
    fn circles_permitted_answer_otherwise_only_where_21_is_given() {
        let mut never_moving = 0;
        for index in 0..BOOKS {
            let bytes = book(9, index).bytes;
            let circles_opening = second::opening_circles_permitted(&bytes);
            let tables = Draft::of_book(circles_opening).map(|draft| draft.tables);
            if tables.is_some_and(|tables| can_never_move(&tables)) {
                assert_eq!(second::read(&bytes).number, 21);
                assert!(second::read_circles_permitted(&bytes).number != 21);
                never_moving += 1;
            } else {
                assert_eq!(
                    second::listing(&bytes),
                    second::listing_circles_permitted(&bytes)
                );
                assert_eq!(second::opening(&bytes), circles_opening);
            }
        }
        assert!(never_moving > 50);
    }

    #[test]
    fn openings_are_accepted_and_unpacked_fields_written_back() {
        let mut fields = vec![0; 65_536];
        let mut bytes = vec![0; 65_536];
        for index in 0..BOOKS {
            let made = book(8, index);
            let reading = second::read_to_first_refusal(&made.bytes);
            let opening = second::opening(&made.bytes);
            if opening.is_empty() {
                assert!(reading.number != 0 && reading.events == 0);
                continue;
            }
            let again = second::read_to_first_refusal(opening);
            assert_eq!((again.number, again.events), (0, reading.events));
            let count = second::unpack(opening, &mut fields).unwrap();
            let written = second::write(&fields[..count], &mut bytes).unwrap();
            assert_eq!(&bytes[..written], opening);
        }
    }
}
