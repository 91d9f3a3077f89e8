//! Books whose last event is meant to be refused by one number.

use crate::draft::{Event, Tables};
use crate::families::story_of_a_family;
use crate::model::{Circumstance, Model};
use crate::random::Random;
use crate::story::{full_story, wild_event, Story};
use crate::tables::{office_records, plain_numbers, tables_for};
use crate::undoing::story_around_an_undo;

/// How many stories are tried until an aim is given up.
const ATTEMPTS: usize = 6;

/// A story whose last event is meant to be refused by the number; none if it
/// doesn't come to that in a few attempts.
pub fn story_aimed_at(random: &mut Random, number: u8) -> Option<Story> {
    (0..ATTEMPTS).find_map(|_| {
        let mut story = match number {
            11 | 12 if random.one_in(4) => story_around_an_undo(random)?,
            13 if random.one_in(5) => story_of_a_long_saga(random),
            13 if !random.one_in(4) => story_of_sagas(random),
            9 if random.one_in(4) => story_of_a_family(random),
            14 if random.one_in(3) => story_of_a_family(random),
            14 if random.one_in(2) => story_of_an_entry(random)?,
            15 if random.one_in(2) => story_with_kept_read(random)?,
            16 if random.one_in(2) => story_with_ring(random)?,
            17 => story_with_active_undo(random)?,
            18 => full_story(random, 5)?,
            20 if random.one_in(3) => story_with_kept_read(random)?,
            22 => story_around_an_undo(random)?,
            _ => story_to_go_wrong(random, number),
        };
        let (place, event) = match number {
            13..=16 => chance_on_the_way(random, &story, number)?,
            22 => chance_to_bar_an_undo(random, &story)?,
            _ => chance_at_the_end(random, &story, number)?,
        };
        story.draft.events.truncate(place);
        story.draft.events.push(event);
        Some(story)
    })
}

fn story_to_go_wrong(random: &mut Random, number: u8) -> Story {
    let mut story = Story::new(tables_for(random, number));
    let events = random.within(1..=70);
    story.go_on(random, events);
    story
}

/// A story of sagas that are moved on, forth and back.
pub fn story_of_sagas(random: &mut Random) -> Story {
    let mut story = Story::new(tables_for(random, 13));
    let events = random.within(20..=80);
    story.move_sagas(random, events);
    story
}

/// A story of one saga of many steps that goes far, and often some way back.
pub fn story_of_a_long_saga(random: &mut Random) -> Story {
    let steps = random.within(6..=16) as u32;
    let mut story = Story::new(Tables {
        records: office_records(random),
        steps: vec![steps],
        plain: random.below(4) as u32,
        objects: random.below(4) as u32,
        dependencies: Vec::new(),
    });
    story.go_on_with(Event::Begin(0));
    let done = random.within(1..=steps as usize) as u32;
    for step in 1..=done {
        story.go_on_with(Event::Begin(step));
        story.go_on_with(Event::Commit(step));
    }
    if random.one_in(2) {
        story.go_on_with(Event::Begin(done + 1));
    }
    if random.one_in(3) {
        return story;
    }
    story.go_on_with(Event::Abort(0));
    if random.one_in(2) {
        story.go_on_with(Event::Abort(done + 1));
    }
    let undone = random.below(done as usize + 1) as u32;
    for step in (done - undone + 1..=done).rev() {
        story.go_on_with(Event::Begin(steps + step));
        story.go_on_with(Event::Commit(steps + step));
    }
    story
}

/// A story with an active undo or two, now and then with 256 operations too.
fn story_with_active_undo(random: &mut Random) -> Option<Story> {
    let mut story = Story::new(tables_for(random, 17));
    let events = random.within(0..=15);
    story.go_on(random, events);
    let wanted = random.within(1..=2);
    for _ in 0..60 {
        if story.model.active_undos().len() >= wanted {
            break;
        }
        story.move_sagas(random, 1);
    }
    for undo in story.model.active_undos() {
        // It works on something, so that others wait for it.
        let object = random.below(story.model.objects as usize) as u32;
        story.go_on_with(Event::Operation(
            undo as u32,
            object,
            random.below(2) as u32,
        ));
    }
    let full = !random.one_in(8) || story.fill_up(random);
    (full && !story.model.active_undos().is_empty()).then_some(story)
}

/// A story in which the base of some entry has come to some phase and the
/// dependent has begun, if it may. None if nothing is declared.
fn story_of_an_entry(random: &mut Random) -> Option<Story> {
    let mut story = Story::new(tables_for(random, 14));
    let entries = &story.draft.tables.dependencies;
    let [dependent, base, _] = match random.below(4) {
        0 => *entries.last()?,
        _ => random.pick(entries),
    };
    let ways = [
        vec![],
        vec![Event::Begin(base)],
        vec![Event::Begin(base), Event::Commit(base)],
        vec![Event::Begin(base), Event::Abort(base)],
    ];
    let way = random.below(ways.len());
    if random.one_in(2) {
        story.go_on_with(Event::Begin(dependent));
    }
    for event in &ways[way] {
        story.go_on_with(*event);
    }
    story.go_on_with(Event::Begin(dependent));
    Some(story)
}

/// A story that has hardly begun, but its plain transactions have.
fn story_with_plain_ones_begun(random: &mut Random, number: u8) -> Story {
    let mut story = Story::new(tables_for(random, number));
    let events = random.within(0..=15);
    story.go_on(random, events);
    for t in plain_numbers(&story.draft.tables) {
        story.go_on_with(Event::Begin(t));
    }
    story
}

/// A story in which a transaction keeps a read of its own write alone, and
/// the write is dropped or handed on after that, so that the kept read bars its
/// commit. None if no two plain ones are active.
fn story_with_kept_read(random: &mut Random) -> Option<Story> {
    let mut story = story_with_plain_ones_begun(random, 15);
    let active = story.model.active_plain();
    let (reader, other) = two_of(random, &active)?;
    let object = random.below(story.model.objects as usize) as u32;
    let write = story.model.operations.len() as u32;
    story.go_on_with(Event::Operation(reader, object, 1));
    story.go_on_with(Event::Operation(reader, object, 0));
    story.go_on_with(Event::CommitOperation(reader, write + 1));
    if random.one_in(3) {
        story.go_on_with(Event::AbortOperation(reader, write));
    } else {
        story.go_on_with(Event::Delegate(reader, other, write));
    }
    match random.below(3) {
        0 => story.go_on_with(Event::AbortOperation(other, write)),
        1 => story.go_on_with(Event::Abort(other)),
        _ => false,
    };
    let events = random.within(0..=10);
    story.go_on(random, events);
    Some(story)
}

/// Two different ones of these; none if there are fewer.
fn two_of(random: &mut Random, from: &[usize]) -> Option<(u32, u32)> {
    if from.len() < 2 {
        return None;
    }
    let first = random.below(from.len());
    let second = (first + random.within(1..=from.len() - 1)) % from.len();
    Some((from[first] as u32, from[second] as u32))
}

/// A story in which several transactions are tied one after another and the
/// last back to the first, now and then through committed ones or such as kept
/// what they did and aborted.
fn story_with_ring(random: &mut Random) -> Option<Story> {
    let mut story = story_with_plain_ones_begun(random, 16);
    if random.one_in(8) {
        story.fill_half_up(random);
    }
    let mut members = story.model.active_delegating();
    let length = random.within(2..=6);
    while members.len() > length {
        members.swap_remove(random.below(members.len()));
    }
    let objects = random.shuffled((0..story.model.objects).collect());
    let object_of = |link: usize| objects[link % objects.len()];
    for (place, link) in members.windows(2).enumerate() {
        tie(random, &mut story, link[0], link[1], object_of(place));
    }
    let (first, last) = (*members.first()?, *members.last()?);
    match members.as_slice() {
        [_, between @ .., _] if !between.is_empty() && random.one_in(2) => {
            let last_operation = story.model.operations.len().checked_sub(1)?;
            for t in between {
                if random.one_in(3) {
                    story.keep_and_give_up(*t as u32);
                }
                story.go_on_with(Event::Commit(*t as u32));
            }
            let handed = Event::Delegate(last as u32, first as u32, last_operation as u32);
            story.go_on_with(handed);
        }
        _ => tie(
            random,
            &mut story,
            last,
            first,
            object_of(members.len() - 1),
        ),
    }
    Some(story)
}

/// Ties one transaction before another on the object, and now and then keeps
/// one of the two operations alone.
fn tie(random: &mut Random, story: &mut Story, earlier: usize, later: usize, object: u32) {
    let (earlier, later) = (earlier as u32, later as u32);
    let mark = random.below(2) as u32;
    let first = story.model.operations.len() as u32;
    story.go_on_with(Event::Operation(earlier, object, mark));
    story.go_on_with(Event::Operation(later, object, 1));
    match random.below(6) {
        0 => story.go_on_with(Event::CommitOperation(earlier, first)),
        1 => story.go_on_with(Event::CommitOperation(later, first + 1)),
        _ => false,
    };
}

/// An event the model refuses by the number, and after how many others.
type Chance = (usize, Event);

/// A chance after the last event, if one is found.
fn chance_at_the_end(random: &mut Random, story: &Story, number: u8) -> Option<Chance> {
    let codes: &[usize] = match number {
        9 => &[3, 4, 5, 6, 6, 7, 8],
        10 => &[1, 8],
        11 => &[2, 3, 4, 5, 6, 7, 8],
        12 => &[5, 6, 7],
        17 | 18 => &[4],
        20 => &[6, 7],
        _ => &[1, 2, 3, 4, 5, 6, 7, 8],
    };
    let mut chances = Chances::default();
    for _ in 0..120 {
        let code = random.pick(codes);
        let event = wild_event(random, &story.model, code);
        chances.consider(&story.model, number, (story.draft.events.len(), event));
    }
    chances.pick(random)
}

/// A chance to begin, commit, abort or spawn a transaction, or to commit a
/// single operation, wrongly anywhere in the story, if there is one.
fn chance_on_the_way(random: &mut Random, story: &Story, number: u8) -> Option<Chance> {
    let mut chances = Chances::default();
    let mut model = Model::new(&story.draft.tables);
    for (place, event) in story.draft.events.iter().enumerate() {
        model.take(*event);
        for t in 0..model.transactions() as u32 {
            for wrong in [Event::Begin(t), Event::Commit(t), Event::Abort(t)] {
                chances.consider(&model, number, (place + 1, wrong));
            }
        }
        for event in spawnings(random, &model) {
            chances.consider(&model, number, (place + 1, event));
        }
        if let Some(kept) = wrongly_kept(random, &model) {
            chances.consider(&model, number, (place + 1, kept));
        }
    }
    chances.pick(random)
}

/// A chance to close a ring around an active undo after the last event, by any
/// operation, by handing some operation on or by the commit of a helper, if there
/// is one.
fn chance_to_bar_an_undo(random: &mut Random, story: &Story) -> Option<Chance> {
    let model = &story.model;
    let mut commits = Chances::default();
    for t in model.active_plain() {
        let commit = Event::Commit(t as u32);
        commits.consider(model, 22, (story.draft.events.len(), commit));
    }
    if let Some(commit) = commits.pick(random).filter(|_| random.one_in(2)) {
        return Some(commit);
    }
    let mut chances = Chances::default();
    let mut consider = |event| chances.consider(model, 22, (story.draft.events.len(), event));
    for t in model.active_operating() {
        for object in 0..model.objects {
            for mark in [0, 1] {
                consider(Event::Operation(t as u32, object, mark));
            }
        }
    }
    for _ in 0..60 {
        let operation = random.below(model.operations.len());
        let giver = model.operations[operation].responsible as u32;
        let receiver = random.pick(&model.active_delegating()) as u32;
        consider(Event::Delegate(giver, receiver, operation as u32));
    }
    chances.pick(random)
}

/// Some clerk at work spawns each of those that are idle.
fn spawnings(random: &mut Random, model: &Model) -> Vec<Event> {
    let clerks = model.active_plain();
    if clerks.is_empty() {
        return Vec::new();
    }
    let parent = random.pick(&clerks) as u32;
    let idle = model.idle_plain().into_iter();
    idle.map(|child| Event::Spawn(parent, child as u32))
        .collect()
}

/// The commit of some single operation by the one that answers for it.
fn wrongly_kept(random: &mut Random, model: &Model) -> Option<Event> {
    let own = model.operations_to_end_alone();
    if own.is_empty() {
        return None;
    }
    let operation = random.pick(&own);
    let t = model.operations[operation].responsible;
    Some(Event::CommitOperation(t as u32, operation as u32))
}

/// Chances, parted by the way in which the number comes about.
#[derive(Default)]
struct Chances(Vec<(Vec<Circumstance>, Vec<Chance>)>);

impl Chances {
    /// Notes a chance if the model refuses its event by the number. Of saga
    /// rules, one only is to be broken.
    fn consider(&mut self, model: &Model, number: u8, chance: Chance) {
        let (_, event) = chance;
        if model.verdict(event) != number || (number == 13 && model.broken_saga_rules(event) > 1) {
            return;
        }
        let way = model.circumstances(event);
        match self.0.iter_mut().find(|(known, _)| *known == way) {
            Some((_, chances)) => chances.push(chance),
            None => self.0.push((way, vec![chance])),
        }
    }

    /// Each way is as likely as the others.
    fn pick(&self, random: &mut Random) -> Option<Chance> {
        if self.0.is_empty() {
            return None;
        }
        let (_, chances) = &self.0[random.below(self.0.len())];
        Some(random.pick(chances))
    }
}

#[cfg(test)]
mod tests {
    use super::*;

    #[test]
    fn the_last_event_is_refused_as_meant_in_many_ways() {
        for number in (8..=18).chain([20, 22]) {
            let mut ways = Vec::new();
            for index in 0..60 {
                let random = &mut Random::new(number.into(), index);
                let Some(story) = story_aimed_at(random, number) else {
                    continue;
                };
                let reading = second::read_to_first_refusal(&story.draft.bytes());
                assert_eq!(reading.number, number);
                assert_eq!(reading.events + 1, story.draft.events.len());
                let (last, before) = story.draft.events.split_last().unwrap();
                let mut model = Model::new(&story.draft.tables);
                before.iter().for_each(|event| model.take(*event));
                let way = model.circumstances(*last);
                if !ways.contains(&way) {
                    ways.push(way);
                }
            }
            let expected = match number {
                13 => 15,
                9 | 11 | 14 | 15 => 8,
                22 => 6,
                12 | 16 | 20 => 4,
                _ => 1,
            };
            assert!(ways.len() >= expected, "{number}: {}", ways.len());
        }
    }
}
