//! Books whose tables can never move, because begin dependencies lead from a
//! transaction back to itself, and books whose tables hardly can.

use crate::books::Made;
use crate::draft::{encode, encode_field, Event, Tables};
use crate::model::can_never_move;
use crate::random::Random;
use crate::story::Story;
use crate::tables::{
    depending_numbers, good_tables, office_records, plain_numbers, put_in_order, saga_numbers,
    LOWEST_BEGIN_KIND, MOST_DEPENDENCIES,
};

/// Each member waits for the next, and the last for the first.
struct Ring(Vec<u32>);

impl Ring {
    /// Dependent and base of each link.
    fn links(&self) -> impl Iterator<Item = (u32, u32)> + '_ {
        let bases = self.0.iter().cycle().skip(1);
        self.0.iter().copied().zip(bases.copied())
    }
}

/// A ring of plain ones, of sagas, or of both, often a short one; none if
/// there are fewer than two.
fn draw_ring(random: &mut Random, tables: &Tables) -> Option<Ring> {
    let from = match random.below(4) {
        0 => plain_numbers(tables),
        1 => saga_numbers(tables),
        _ => depending_numbers(tables),
    };
    if from.len() < 2 {
        return None;
    }
    let length = match random.below(6) {
        0 | 1 => 2,
        2 | 3 => 3,
        4 => random.within(4..=8),
        _ => from.len(),
    };
    let mut members = random.shuffled(from);
    members.truncate(length);
    Some(Ring(members))
}

/// Good tables and a ring for them.
fn tables_and_ring(random: &mut Random) -> (Tables, Ring) {
    loop {
        let tables = good_tables(random);
        if let Some(ring) = draw_ring(random, &tables) {
            return (tables, ring);
        }
    }
}

/// Takes these entries in, and others out if there are too many.
fn take_in(random: &mut Random, tables: &mut Tables, entries: &[[u32; 3]]) {
    tables.dependencies.extend(entries);
    put_in_order(tables);
    while tables.dependencies.len() > MOST_DEPENDENCIES {
        let surplus = random.below(tables.dependencies.len());
        if !entries.contains(&tables.dependencies[surplus]) {
            tables.dependencies.remove(surplus);
        }
    }
}

fn begin_kind(random: &mut Random) -> u32 {
    random.within(LOWEST_BEGIN_KIND as usize..=7) as u32
}

fn commit_kind(random: &mut Random) -> u32 {
    random.within(1..=LOWEST_BEGIN_KIND as usize - 1) as u32
}

/// Tables with a ring of begin dependencies, now and then with others beside
/// them, and the ring.
fn never_moving_tables(random: &mut Random) -> (Tables, Ring) {
    if random.one_in(15) {
        return full_tables(random);
    }
    let (mut tables, ring) = tables_and_ring(random);
    let plain = plain_numbers(&tables);
    let mut entries = Vec::new();
    for (dependent, base) in ring.links() {
        entries.push([dependent, base, begin_kind(random)]);
        if plain.contains(&dependent) && random.one_in(4) {
            entries.push([dependent, base, commit_kind(random)]);
        }
    }
    take_in(random, &mut tables, &entries);
    (tables, ring)
}

/// Tables with as many entries as there may be, of which the last two close a
/// ring.
fn full_tables(random: &mut Random) -> (Tables, Ring) {
    let mut tables = Tables {
        records: office_records(random),
        plain: random.within(8..=12) as u32,
        objects: random.below(4) as u32,
        ..Tables::default()
    };
    let last = tables.plain - 1;
    let others = (0..last - 1).flat_map(|dependent| {
        let bases = (0..=last).filter(move |base| *base != dependent);
        bases.flat_map(move |base| [1, 2, 3].map(|kind| [dependent, base, kind]))
    });
    tables.dependencies = others.take(MOST_DEPENDENCIES - 2).collect();
    for (dependent, base) in [(last - 1, last), (last, last - 1)] {
        let entry = [dependent, base, begin_kind(random)];
        tables.dependencies.push(entry);
    }
    (tables, Ring(vec![last - 1, last]))
}

/// Tables in which a ring of dependencies is closed by one of kinds 1 to 3,
/// now and then by more, so that begin dependencies alone lead nowhere back.
fn hardly_moving_tables(random: &mut Random) -> Tables {
    loop {
        let (mut tables, ring) = tables_and_ring(random);
        let plain = plain_numbers(&tables);
        let open: Vec<_> = ring.links().filter(|(d, _)| plain.contains(d)).collect();
        if open.is_empty() {
            continue;
        }
        let closing = random.pick(&open);
        let mut entries = Vec::new();
        for link in ring.links() {
            let closes = link == closing || (open.contains(&link) && random.one_in(8));
            let kind = if closes {
                commit_kind(random)
            } else {
                begin_kind(random)
            };
            entries.push([link.0, link.1, kind]);
        }
        take_in(random, &mut tables, &entries);
        if !can_never_move(&tables) {
            return tables;
        }
    }
}

/// A story that is told only with circles permitted, acceptable but for its
/// tables, and the transactions that can never begin in it.
pub fn never_moving_story(random: &mut Random) -> (Story, Vec<u32>) {
    let (tables, ring) = never_moving_tables(random);
    let mut story = Story::new(tables);
    let events = random.within(0..=40);
    story.go_on(random, events);
    (story, ring.0)
}

/// An acceptable story with tables that hardly move.
pub fn hardly_moving_story(random: &mut Random) -> Story {
    let mut story = Story::new(hardly_moving_tables(random));
    let events = random.within(0..=40);
    story.go_on(random, events);
    story
}

fn made(bytes: Vec<u8>, kind: &'static str) -> Made {
    Made { bytes, kind }
}

/// A book that is refused by 21. With circles permitted it is read to its end,
/// or up to a transaction that waits for itself, or up to something else.
pub fn never_moving(random: &mut Random) -> Made {
    let (mut story, never_begun) = never_moving_story(random);
    let tables = encode(&story.draft.tables.fields());
    match random.below(8) {
        0 => made(tables, "never moving: no event"),
        1 | 2 => made(story.draft.bytes(), "never moving: acceptable events"),
        3..=5 => {
            let waiting = Event::Begin(random.pick(&never_begun));
            story.draft.events.push(waiting);
            made(story.draft.bytes(), "never moving: one on the ring begins")
        }
        6 => {
            story.stray(random);
            made(story.draft.bytes(), "never moving: a stray event")
        }
        _ => {
            let noise = (0..random.within(1..=10)).map(|_| random.byte());
            let bytes = tables.into_iter().chain(noise).collect();
            made(bytes, "never moving: noise after the tables")
        }
    }
}

/// A book that is accepted, though kinds 1 to 3 close a ring in its tables.
pub fn hardly_moving(random: &mut Random) -> Made {
    made(hardly_moving_story(random).draft.bytes(), "hardly moving")
}

/// Tables that can never move, but are refused for something that comes first.
pub fn wrong_before(random: &mut Random) -> Made {
    let (mut tables, _) = never_moving_tables(random);
    let first_entry = 5 + tables.steps.len();
    let fields = tables.fields();
    match random.below(3) {
        0 => {
            let torn = random.within(first_entry..=fields.len() - 1);
            made(encode(&fields[..torn]), "never moving but torn")
        }
        1 => {
            let mut pieces: Vec<Vec<u8>> = fields.into_iter().map(encode_field).collect();
            let field = random.within(first_entry..=pieces.len() - 1);
            pieces[field] = vec![0x80, 0x00];
            made(pieces.concat(), "never moving but for a bad number")
        }
        _ => {
            spoil_last_entry(random, &mut tables);
            let bytes = encode(&tables.fields());
            made(bytes, "never moving but for a bad entry")
        }
    }
}

/// Puts a bad entry behind the last one: the same once more, or of kind 8.
fn spoil_last_entry(random: &mut Random, tables: &mut Tables) {
    let entries = &mut tables.dependencies;
    if entries.len() == MOST_DEPENDENCIES {
        entries.remove(0);
    }
    if let Some([dependent, base, kind]) = entries.last().copied() {
        entries.push([dependent, base, random.pick(&[kind, 8])]);
    }
}

#[cfg(test)]
mod tests {
    use super::*;
    use crate::draft::Draft;
    use std::collections::HashSet;

    #[test]
    fn rings_of_every_length_through_plain_ones_and_sagas() {
        let mut lengths = HashSet::new();
        let mut entries = HashSet::new();
        let (mut with_sagas, mut of_sagas, mut with_both) = (0, 0, 0);
        for index in 0..900 {
            let (tables, Ring(members)) = never_moving_tables(&mut Random::new(21, index));
            let sagas = saga_numbers(&tables);
            let of_these = members.iter().filter(|t| sagas.contains(t)).count();
            lengths.insert(members.len());
            with_sagas += usize::from(of_these > 0);
            of_sagas += usize::from(of_these == members.len());
            with_both += usize::from(0 < of_these && of_these < members.len());
            entries.insert(tables.dependencies.len());
            assert!(can_never_move(&tables));
        }
        assert_eq!(entries.iter().max(), Some(&MOST_DEPENDENCIES));
        assert!((2..=8).all(|length| lengths.contains(&length)));
        assert!(lengths.iter().any(|length| *length > 20));
        assert!(with_sagas > 50 && of_sagas > 20 && with_both > 20);
    }

    #[test]
    fn what_hardly_moves_would_not_if_every_kind_counted() {
        for index in 0..300 {
            let mut tables = hardly_moving_tables(&mut Random::new(22, index));
            assert!(!can_never_move(&tables));
            for [_, _, kind] in &mut tables.dependencies {
                *kind = LOWEST_BEGIN_KIND;
            }
            assert!(can_never_move(&tables));
        }
    }

    #[test]
    fn with_circles_permitted_nobody_on_a_ring_begins() {
        let (mut others_begun, mut waiting) = (0, 0);
        for index in 0..300 {
            let random = &mut Random::new(23, index);
            let (story, never_begun) = never_moving_story(random);
            let book = story.draft.bytes();
            assert_eq!(second::read(&book).number, 21);
            let reading = second::read_circles_permitted(&book);
            assert_eq!(reading.number, 0);
            others_begun += usize::from(reading.events > 0);
            for t in never_begun {
                let mut draft = story.draft.clone();
                draft.events.push(Event::Begin(t));
                let refused = second::read_circles_permitted_to_first_refusal(&draft.bytes());
                assert_eq!((refused.number, refused.events), (14, reading.events));
                waiting += 1;
            }
        }
        assert!(others_begun > 100 && waiting > 600);
    }

    #[test]
    fn what_comes_before_21_often_stands_behind_a_ring() {
        let mut behind = 0;
        for index in 0..300 {
            let made = wrong_before(&mut Random::new(24, index));
            assert!([2, 3, 6].contains(&second::read(&made.bytes).number));
            assert_eq!(
                second::listing(&made.bytes),
                second::listing_circles_permitted(&made.bytes)
            );
            let whole = Draft::of_book(&made.bytes);
            behind += usize::from(whole.is_some_and(|draft| can_never_move(&draft.tables)));
        }
        assert!(behind > 50);
    }
}
