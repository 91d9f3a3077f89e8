//! Books with many refused events, behind which reading is to go on.

use crate::aim::story_aimed_at;
use crate::books::Made;
use crate::draft::{encode, Draft, Event, Tables};
use crate::random::Random;
use crate::story::{story, Story};
use crate::tables::good_tables;

const MOST_BYTES: usize = 65_536;
/// The numbers that events are refused by.
const NUMBERS: [u8; 13] = [8, 9, 10, 11, 12, 13, 14, 15, 16, 17, 18, 20, 22];

/// A book with refused events in its middle.
pub fn carried(random: &mut Random) -> Made {
    let (story, kind, torn_kind) = match random.below(5) {
        0 => (
            strayed(random),
            "carried: strayed",
            "carried: strayed, torn",
        ),
        1 => (
            too_early(random),
            "carried: too early",
            "carried: too early, torn",
        ),
        2 => (
            long_run(random),
            "carried: a long run",
            "carried: a long run, torn",
        ),
        _ => (aimed(random), "carried: aimed", "carried: aimed, torn"),
    };
    let mut bytes = story.draft.bytes();
    if !random.one_in(4) {
        return Made { bytes, kind };
    }
    bytes.extend(torn_end(random, &story.draft.tables));
    Made {
        bytes,
        kind: torn_kind,
    }
}

/// What reading does stop at: half an event, an unknown code, a bad number.
fn torn_end(random: &mut Random, tables: &Tables) -> Vec<u8> {
    let few = random.below(8) as u8;
    let too_high = (tables.ceiling() >> 14) as u8 + 1;
    match random.below(7) {
        0 => vec![random.within(1..=8) as u8],
        1 => vec![random.within(4..=8) as u8, few],
        2 => vec![random.within(1..=8) as u8, few | 0x80],
        3 => vec![random.pick(&[0, 9, 10, 11, 127])],
        4 => vec![random.pick(&[0, 9, 11, 12]), few, few, few],
        5 => vec![random.within(1..=8) as u8, 0x80, 0x00, 1, 0],
        _ => vec![2, 0x80, 0x80, random.pick(&[0, too_high, 0x80]), 1, 0],
    }
}

/// Acceptable events and such as are what they are, all over the book.
fn strayed(random: &mut Random) -> Story {
    let mut story = Story::new(good_tables(random));
    for _ in 0..random.within(2..=25) {
        for _ in 0..random.within(0..=4) {
            story.stray(random);
        }
        let events = random.within(0..=6);
        story.go_on(random, events);
    }
    if random.one_in(2) {
        story.stray(random);
    }
    story
}

/// A good story in which somebody tries now and then what is acceptable only
/// some events later.
fn too_early(random: &mut Random) -> Story {
    let good = story(random).draft;
    let mut story = Story::new(good.tables);
    for (place, event) in good.events.iter().enumerate() {
        let ahead = place + random.within(1..=8);
        if let Some(early) = good.events.get(ahead).filter(|_| random.one_in(2)) {
            if story.model.verdict(*early) != 0 {
                story.add(*early);
            }
        }
        story.add(*event);
    }
    story
}

/// The bytes of a good book with strays put in, now and then torn at the end.
pub fn disturbed(random: &mut Random, good: Draft) -> Vec<u8> {
    let mut story = Story::new(good.tables);
    for event in good.events {
        if random.one_in(4) {
            story.stray(random);
        }
        story.add(event);
    }
    story.stray(random);
    let mut bytes = story.draft.bytes();
    if random.one_in(4) {
        bytes.extend(torn_end(random, &story.draft.tables));
    }
    bytes
}

/// A story that has come to an event refused by the number, and that event; none
/// if it doesn't come to that.
fn come_to(random: &mut Random, number: u8) -> Option<(Story, Event)> {
    let draft = story_aimed_at(random, number)?.draft;
    let last = *draft.events.last()?;
    let mut story = Story::new(draft.tables);
    draft.events.iter().for_each(|event| story.add(*event));
    Some((story, last))
}

/// One refused event over and over. Then others give up, and it is tried again.
fn long_run(random: &mut Random) -> Story {
    let number = random.pick(&[16, 16, 16, 11, 11, 15, 14, 13, 17, 20, 22]);
    let Some((mut story, refused)) = come_to(random, number) else {
        return strayed(random);
    };
    for _ in 0..random.within(5..=300) {
        story.add(refused);
    }
    for t in story.model.active_delegating() {
        if !refused.fields().contains(&(t as u32)) && random.one_in(2) {
            story.add(Event::Abort(t as u32));
        }
    }
    story.add(refused);
    let events = random.within(0..=10);
    story.go_on(random, events);
    story
}

/// An event that is refused by a certain number, with accepted ones and others
/// behind it.
fn aimed(random: &mut Random) -> Story {
    let number = random.pick(&NUMBERS);
    let Some((mut story, refused)) = come_to(random, number) else {
        return strayed(random);
    };
    for _ in 0..random.within(1..=4) {
        let events = random.within(1..=6);
        story.go_on(random, events);
        match random.below(3) {
            0 => story.stray(random),
            1 => story.add(refused),
            _ => {}
        }
    }
    story
}

/// A book of 65,535 bytes or one more, nearly all of them events that are
/// refused.
pub fn longest(random: &mut Random) -> Made {
    let begun = [Event::Begin(0), Event::Begin(1)];
    let write = |t, object| Event::Operation(t, object, 1);
    let (before, refused, behind): (Vec<Event>, Event, Vec<Event>) = match random.below(5) {
        0 => (Vec::new(), Event::Commit(0), vec![Event::Begin(0)]),
        1 | 2 => {
            let ring = [write(0, 0), write(1, 1), write(1, 0), write(0, 1)];
            let before = begun.into_iter().chain(ring).collect();
            (before, Event::Commit(0), vec![Event::Abort(1)])
        }
        3 => {
            let dirty = [write(1, 0), Event::Operation(0, 0, 0)];
            let before = begun.into_iter().chain(dirty).collect();
            (before, Event::Commit(0), vec![Event::Commit(1)])
        }
        _ => (begun.to_vec(), Event::Begin(2), vec![Event::Commit(1)]),
    };
    let tables = Tables {
        plain: 2,
        objects: 2,
        ..Tables::default()
    };
    let mut fields = tables.fields();
    let fields_of = |events: Vec<Event>| events.into_iter().flat_map(Event::fields);
    fields.extend(fields_of(before));
    let end: Vec<u32> = fields_of(behind).chain(refused.fields()).collect();
    while fields.len() + end.len() + 2 <= MOST_BYTES {
        fields.extend(refused.fields());
    }
    fields.extend(end);
    if fields.len() < MOST_BYTES && random.one_in(2) {
        fields.push(2);
    }
    Made {
        bytes: encode(&fields),
        kind: "longest, refused",
    }
}

#[cfg(test)]
mod tests {
    use super::*;

    #[test]
    fn most_have_accepted_events_behind_refused_ones() {
        let (mut went_on, mut accepted_later, mut torn) = (0, 0, 0);
        for index in 0..300 {
            let made = carried(&mut Random::new(51, index));
            let reading = second::read(&made.bytes);
            assert_eq!(reading.number != 0, made.kind.ends_with("torn"), "{index}");
            let first = reading.refused_events.first();
            went_on += usize::from(first.is_some_and(|first| first.index < reading.events));
            torn += usize::from(reading.number != 0 && first.is_some());
            let mut refused = Vec::new();
            let mut later = false;
            crate::replay::replay(&made.bytes, &reading, |_, event, number| {
                later |= number == 0 && refused.contains(&event);
                if number != 0 {
                    refused.push(event);
                }
            });
            accepted_later += usize::from(later);
        }
        assert!(went_on > 200, "{went_on}");
        assert!(accepted_later > 60, "{accepted_later}");
        assert!(torn > 40, "{torn}");
    }

    #[test]
    fn the_longest_are_full_of_refused_events() {
        for index in 0..20 {
            let bytes = longest(&mut Random::new(52, index)).bytes;
            assert!((65_535..=65_536).contains(&bytes.len()));
            let reading = second::read(&bytes);
            assert!(reading.refused_events.len() > 32_700);
            assert!([0, 2].contains(&reading.number));
        }
    }
}
