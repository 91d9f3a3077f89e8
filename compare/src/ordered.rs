//! Books in which the order to replay in is mostly not that of the numbers.

use crate::books::Made;
use crate::draft::{Event, Tables};
use crate::model::Model;
use crate::random::Random;
use crate::story::Story;
use crate::tables::{office_records, plain_numbers, tables_for};

const READ: u32 = 0;
const WRITE: u32 = 1;

type Laying = fn(&mut Random, &mut Story, &[u32]);

/// A book in which many have committed something, one after another.
pub fn ordered(random: &mut Random) -> Made {
    const LAYINGS: [(Laying, &str); 4] = [
        (chain, "ordered: a chain"),
        (dense, "ordered: dense"),
        (groups, "ordered: in groups"),
        (by_chance, "ordered: by chance"),
    ];
    let mut story = Story::new(tables(random));
    for t in plain_numbers(&story.draft.tables) {
        story.go_on_with(Event::Begin(t));
    }
    let clerks = story.model.active_plain();
    let mut clerks: Vec<u32> = clerks.iter().map(|t| *t as u32).collect();
    clerks.reverse();
    if !random.one_in(3) {
        clerks = random.shuffled(clerks);
    }
    let (lay, kind) = random.pick(&LAYINGS);
    lay(random, &mut story, &clerks);
    if random.one_in(3) {
        let events = random.within(1..=8);
        story.settle(random, events);
    }
    Made {
        bytes: story.draft.bytes(),
        kind,
    }
}

/// Tables with at least two clerks and a list; mostly with nothing else.
fn tables(random: &mut Random) -> Tables {
    if random.one_in(3) {
        return tables_for(random, second::refusal::ON_A_RING);
    }
    Tables {
        records: office_records(random),
        plain: random.pick(&[2, 3, 4, 5, 6, 7, 8, 10, 12, 16, 24, 64]),
        objects: random.pick(&[1, 2, 3, 3, 4, 6, 8, 12, 32]),
        ..Tables::default()
    }
}

/// Some clerks work one after another, each on what the next works on too; the
/// others work on their own. Then all are done, one way or another.
fn chain(random: &mut Random, story: &mut Story, clerks: &[u32]) {
    let objects = story.model.objects;
    let length = random.within(0..=clerks.len());
    let (linked, free) = clerks.split_at(length);
    for (place, link) in linked.windows(2).enumerate() {
        let object = place as u32 % objects;
        let mark = random.below(2) as u32;
        let other_mark = random.pick(&[WRITE, WRITE, 1 - mark]);
        story.go_on_with(Event::Operation(link[0], object, mark));
        if random.one_in(3) {
            end(random, story, link[0]);
        }
        story.go_on_with(Event::Operation(link[1], object, other_mark));
    }
    for (place, t) in free.iter().enumerate() {
        let object = (length + place) as u32 % objects;
        story.go_on_with(Event::Operation(*t, object, random.below(2) as u32));
    }
    end_all(random, story, clerks);
}

/// Few lists, and everybody works on them, up to all the operations that there
/// may be.
fn dense(random: &mut Random, story: &mut Story, clerks: &[u32]) {
    let objects = random.within(1..=story.model.objects.min(3) as usize);
    let most = random.pick(&[1, 2, 4, 256 / clerks.len().max(1)]);
    let at_once = random.one_in(2);
    let least = if random.one_in(3) { most } else { 1 };
    for t in clerks {
        for _ in 0..random.within(least..=most) {
            let object = random.below(objects) as u32;
            let mark = random.pick(&[READ, WRITE, WRITE]);
            story.go_on_with(Event::Operation(*t, object, mark));
        }
        if at_once || random.one_in(4) {
            end(random, story, *t);
        }
    }
    end_all(random, story, clerks);
}

/// Many read a list, then one changes it, then many read it again, so that there
/// is a choice among the readers.
fn groups(random: &mut Random, story: &mut Story, clerks: &[u32]) {
    let mut rest = clerks;
    while !rest.is_empty() {
        let object = random.below(story.model.objects as usize) as u32;
        let (group, others) = rest.split_at(random.within(1..=rest.len().min(6)));
        rest = others;
        for (place, t) in group.iter().enumerate() {
            let mark = if place == 0 { WRITE } else { READ };
            story.go_on_with(Event::Operation(*t, object, mark));
            if place == 0 || random.one_in(2) {
                end(random, story, *t);
            }
        }
    }
    end_all(random, story, clerks);
}

/// Whatever comes, with many changes kept.
fn by_chance(random: &mut Random, story: &mut Story, _: &[u32]) {
    let events = random.within(20..=220);
    story.settle(random, events);
}

/// All of them are done but for a few, in their order or the other way round.
fn end_all(random: &mut Random, story: &mut Story, clerks: &[u32]) {
    let mut in_turn = clerks.to_vec();
    match random.below(4) {
        0 => in_turn.reverse(),
        1 => in_turn = random.shuffled(in_turn),
        _ => {}
    }
    for t in in_turn {
        if !random.one_in(8) {
            end(random, story, t);
        }
    }
}

/// A clerk is done: commits; keeps all or some of it alone and stays, or then
/// gives up; hands what it did to another and commits; or gives up.
fn end(random: &mut Random, story: &mut Story, t: u32) {
    match random.below(12) {
        0..=4 => story.go_on_with(Event::Commit(t)),
        5 | 6 => {
            keep(random, story, t, 1);
            true
        }
        7 => {
            keep(random, story, t, 2);
            story.go_on_with(Event::Abort(t))
        }
        8 => {
            story.keep_and_give_up(t);
            true
        }
        9 | 10 => {
            hand_on(random, story, t);
            story.go_on_with(Event::Commit(t))
        }
        _ => story.go_on_with(Event::Abort(t)),
    };
}

/// The active operations that a clerk answers for.
fn own(model: &Model, t: u32) -> Vec<u32> {
    let mut own = model.operations_to_end_alone();
    own.retain(|operation| model.operations[*operation].responsible == t as usize);
    own.iter().map(|operation| *operation as u32).collect()
}

/// Keeps one in so many of what a clerk did.
fn keep(random: &mut Random, story: &mut Story, t: u32, one_in: usize) {
    for operation in own(&story.model, t) {
        if random.one_in(one_in) {
            story.go_on_with(Event::CommitOperation(t, operation));
        }
    }
}

/// Hands some of what a clerk did to another who is at work.
fn hand_on(random: &mut Random, story: &mut Story, t: u32) {
    for operation in own(&story.model, t) {
        let receiver = random.pick(&story.model.active_delegating()) as u32;
        if !random.one_in(3) {
            story.go_on_with(Event::Delegate(t, receiver, operation));
        }
    }
}

#[cfg(test)]
mod tests {
    use super::*;

    #[test]
    fn most_are_replayed_in_another_order_than_that_of_the_numbers() {
        let (mut not_rising, mut highest, mut operations) = (0, 0, 0);
        for index in 0..450 {
            let made = ordered(&mut Random::new(41, index));
            let reading = second::read(&made.bytes);
            assert_eq!(reading.number, 0);
            let order = second::replay_order(&reading);
            not_rising += usize::from(!order.is_sorted());
            highest = highest.max(order.len());
            operations = operations.max(reading.state.operations());
        }
        assert!(not_rising > 225, "{not_rising}");
        assert!(highest > 40, "{highest}");
        assert!(operations > 200, "{operations}");
    }
}
