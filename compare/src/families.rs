//! Stories of helpers under a clerk, and how often what is easily got wrong
//! about them came up.

use crate::books::Made;
use crate::draft::{Event, Tables};
use crate::model::{Model, Phase};
use crate::random::Random;
use crate::story::Story;
use crate::tables::{office_records, tables_for};
use std::fmt;

const READ: u32 = 0;
const WRITE: u32 = 1;

/// A story of a clerk, helpers and helpers of these, who work, hand things to and
/// fro and are done one way or another.
pub fn story_of_a_family(random: &mut Random) -> Story {
    let mut story = Story::new(family_tables(random));
    let Some(clerk) = begin_some(random, &mut story) else {
        return story;
    };
    if random.one_in(4) {
        three_generations(random, &mut story, clerk);
    }
    let wanted = random.within(1..=5);
    for _ in 0..wanted {
        spawn_below(random, &mut story, clerk);
        work(random, &mut story);
    }
    if random.one_in(2) {
        begin_some(random, &mut story);
    }
    for _ in 0..random.within(2..=14) {
        match random.below(8) {
            0 => spawn_below(random, &mut story, clerk),
            1..=4 => work(random, &mut story),
            _ => finish_some(random, &mut story),
        }
    }
    story
}

/// A book of a family.
pub fn family(random: &mut Random) -> Made {
    let mut story = story_of_a_family(random);
    for _ in 0..random.below(6) {
        match random.below(3) {
            0 => story.stray(random),
            1 => press_on(random, &mut story),
            _ => {}
        }
        finish_some(random, &mut story);
        story.go_on(random, 3);
    }
    Made {
        bytes: story.draft.bytes(),
        kind: "family",
    }
}

fn family_tables(random: &mut Random) -> Tables {
    if random.one_in(2) {
        return tables_for(random, second::refusal::ON_A_RING);
    }
    let plain = random.within(3..=10) as u32;
    let mut tables = Tables {
        records: office_records(random),
        plain,
        objects: random.within(1..=3) as u32,
        ..Tables::default()
    };
    if random.one_in(2) {
        let base = random.below(plain as usize - 1) as u32;
        tables.dependencies = vec![[plain - 1, base, random.within(1..=7) as u32]];
    }
    tables
}

/// Begins some plain transaction, if one may.
fn begin_some(random: &mut Random, story: &mut Story) -> Option<u32> {
    let idle = random.shuffled(story.model.idle_plain());
    idle.into_iter()
        .map(|t| t as u32)
        .find(|t| story.go_on_with(Event::Begin(*t)))
}

/// The clerk, or one below, spawns somebody.
fn spawn_below(random: &mut Random, story: &mut Story, clerk: u32) {
    let clerk = clerk as usize;
    let mut family = story.model.active_plain();
    family.retain(|t| *t == clerk || story.model.parent(*t).is_some());
    let idle = story.model.idle_plain();
    if family.is_empty() || idle.is_empty() {
        return;
    }
    let deepest = family.iter().copied().max_by_key(|t| story.model.depth(*t));
    let parent = match deepest {
        Some(deepest) if random.one_in(2) => deepest,
        _ => random.pick(&family),
    };
    story.go_on_with(Event::Spawn(parent as u32, random.pick(&idle) as u32));
}

/// A helper of a helper is at work while the one between is done, mostly by
/// giving up; then the clerk is done too, every other time.
fn three_generations(random: &mut Random, story: &mut Story, clerk: u32) {
    let idle = random.shuffled(story.model.idle_plain());
    let [child, grandchild, ..] = idle[..] else {
        return;
    };
    let (child, grandchild) = (child as u32, grandchild as u32);
    story.go_on_with(Event::Spawn(clerk, child));
    story.go_on_with(Event::Spawn(child, grandchild));
    for _ in 0..random.below(4) {
        work(random, story);
    }
    story.go_on_with(match random.below(4) {
        0 => Event::Commit(child),
        _ => Event::Abort(child),
    });
    if random.one_in(2) {
        story.go_on_with(Event::Commit(clerk));
    }
}

/// Somebody works, or hands on, or drops something.
fn work(random: &mut Random, story: &mut Story) {
    let active = story.model.active_plain();
    if active.is_empty() {
        return;
    }
    let t = random.pick(&active) as u32;
    let own: Vec<usize> = (0..story.model.operations.len())
        .filter(|operation| story.model.operations[*operation].responsible == t as usize)
        .collect();
    match random.below(6) {
        0 | 1 if !own.is_empty() => {
            let receiver = random.pick(&active) as u32;
            story.go_on_with(Event::Delegate(t, receiver, random.pick(&own) as u32));
        }
        2 if !own.is_empty() => {
            story.go_on_with(Event::AbortOperation(t, random.pick(&own) as u32));
        }
        _ => {
            let object = random.below(story.model.objects as usize) as u32;
            story.go_on_with(Event::Operation(t, object, random.pick(&[READ, WRITE])));
        }
    }
}

/// Somebody tries what the family bars, or what it is easily thought to bar:
/// commits with a child at work or without a parent, keeps something alone as a
/// child, commits past a grandchild that is left alone.
fn press_on(random: &mut Random, story: &mut Story) {
    let model = &story.model;
    let mut tries = Vec::new();
    for t in model.active_plain() {
        let commit = Event::Commit(t as u32);
        if !model.active_children(t).is_empty() || model.has_lost_its_parent(t) {
            tries.push(commit);
        }
        if has_lost_grandchild(model, t as u32) {
            tries.extend([commit; 3]);
        }
        let own = model.at_work_on(t);
        if let (Some(_), Some(own)) = (model.parent(t), own.first()) {
            tries.push(Event::CommitOperation(t as u32, *own as u32));
        }
    }
    if !tries.is_empty() {
        story.add(random.pick(&tries));
    }
}

/// Somebody commits or gives up, most often a helper.
fn finish_some(random: &mut Random, story: &mut Story) {
    let mut active = story.model.active_plain();
    if random.one_in(2) && active.iter().any(|t| story.model.parent(*t).is_some()) {
        active.retain(|t| story.model.parent(*t).is_some());
    }
    if active.is_empty() {
        return;
    }
    let t = random.pick(&active) as u32;
    let has_children = !story.model.active_children(t as usize).is_empty();
    match random.below(if has_children { 2 } else { 4 }) {
        0 => story.go_on_with(Event::Abort(t)),
        _ => story.go_on_with(Event::Commit(t)),
    };
}

/// Counted over all books.
#[derive(Clone, Copy, Debug, Default, PartialEq, Eq)]
pub struct Families {
    spawned: u64,
    /// Spawned by one that was spawned by one that was spawned.
    three_deep: u64,
    /// Commits of a child that handed something on.
    handed_up: u64,
    /// The child answered for something that another had done.
    handed_up_of_another: u64,
    /// Delegations to a child, and by a child.
    given_to_a_child: u64,
    given_by_a_child: u64,
    /// Single aborts by a child.
    dropped_by_a_child: u64,
    /// Aborts of one with a child at work.
    left_alone: u64,
    /// Commits of one with a grandchild at work whose parent had given up.
    past_a_grandchild: u64,
    /// Commits refused by 14 for a child at work.
    child_at_work: u64,
    /// Commits refused by 14 because the parent had given up.
    parent_lost: u64,
    /// Commits of a child refused by 22.
    bars_an_undo: u64,
    /// Commits of a child that would have been refused by 15 or 16.
    dirty_or_on_a_ring: u64,
    /// Single commits by a child refused by 9.
    kept_by_a_child: u64,
    /// Spawns refused, by their numbers.
    refused: [u64; 15],
}

/// The numbers that a spawn is refused by.
const SPAWN_NUMBERS: [usize; 5] = [8, 9, 10, 11, 14];

impl Families {
    /// Counts an event that was read with the number in the state.
    pub fn count(&mut self, model: &Model, event: Event, number: u8) {
        match number {
            second::refusal::ACCEPTED => self.count_accepted(model, event),
            _ => self.count_refused(model, event, number),
        }
    }

    fn count_accepted(&mut self, model: &Model, event: Event) {
        let is_child = |t: u32| model.parent(t as usize).is_some();
        match event {
            Event::Spawn(parent, _) => {
                self.spawned += 1;
                self.three_deep += u64::from(model.depth(parent as usize) >= 2);
            }
            Event::Commit(t) if is_child(t) => {
                let at_work = model.at_work_on(t as usize);
                self.handed_up += u64::from(!at_work.is_empty());
                let of_another = at_work.iter().any(|q| model.invoker(*q) != t as usize);
                self.handed_up_of_another += u64::from(of_another);
                self.dirty_or_on_a_ring += u64::from(model.is_dirty_or_on_a_ring(t as usize));
            }
            Event::Commit(t) => self.past_a_grandchild += u64::from(has_lost_grandchild(model, t)),
            Event::Abort(t) => {
                let children = model.active_children(t as usize);
                self.left_alone += u64::from(!children.is_empty());
            }
            Event::Delegate(giver, receiver, _) => {
                self.given_by_a_child += u64::from(is_child(giver));
                self.given_to_a_child += u64::from(is_child(receiver));
            }
            Event::AbortOperation(t, _) => self.dropped_by_a_child += u64::from(is_child(t)),
            _ => {}
        }
    }

    fn count_refused(&mut self, model: &Model, event: Event, number: u8) {
        match (event, number) {
            (Event::Commit(t), 14) => {
                let children = model.active_children(t as usize);
                self.child_at_work += u64::from(!children.is_empty());
                self.parent_lost += u64::from(model.has_lost_its_parent(t as usize));
            }
            (Event::Commit(_), 22) => self.bars_an_undo += 1,
            (Event::CommitOperation(t, _), 9) => {
                self.kept_by_a_child += u64::from(model.parent(t as usize).is_some());
            }
            (Event::Spawn(..), 8..=14) => self.refused[usize::from(number)] += 1,
            _ => {}
        }
    }

    /// Each count with what it counts.
    pub fn counted(&self) -> Vec<(u64, String)> {
        let named = [
            (self.spawned, "spawned"),
            (self.three_deep, "spawned three deep"),
            (
                self.handed_up,
                "commits of a child that handed something on",
            ),
            (
                self.handed_up_of_another,
                "commits of a child that handed on what another had done",
            ),
            (
                self.dirty_or_on_a_ring,
                "commits of a child with a dirty read or on a ring",
            ),
            (self.given_to_a_child, "delegations to a child"),
            (self.given_by_a_child, "delegations by a child"),
            (self.dropped_by_a_child, "single aborts by a child"),
            (self.left_alone, "aborts of one with a child at work"),
            (
                self.past_a_grandchild,
                "commits past a grandchild whose parent gave up",
            ),
            (self.child_at_work, "commits refused 14: a child at work"),
            (self.parent_lost, "commits refused 14: the parent has ended"),
            (self.bars_an_undo, "commits of a child refused 22"),
            (self.kept_by_a_child, "single commits by a child refused 9"),
        ];
        let named = named.map(|(count, name)| (count, name.to_string()));
        let refused = SPAWN_NUMBERS.map(|number| {
            let name = format!("spawns refused {number}");
            (self.refused[number], name)
        });
        named.into_iter().chain(refused).collect()
    }
}

/// Whether one that was spawned two below is at work, and the one between has
/// given up.
fn has_lost_grandchild(model: &Model, t: u32) -> bool {
    let active = model.in_phase(Phase::Active);
    active.iter().any(|grandchild| {
        let parent = model.parent(*grandchild);
        let above = parent.and_then(|parent| model.parent(parent));
        above == Some(t as usize) && model.has_lost_its_parent(*grandchild)
    })
}

impl fmt::Display for Families {
    fn fmt(&self, output: &mut fmt::Formatter) -> fmt::Result {
        for (count, name) in self.counted() {
            writeln!(output, "helpers {count:6} {name}")?;
        }
        Ok(())
    }
}

#[cfg(test)]
mod tests {
    use super::*;
    use crate::replay::replay;

    fn counted(book: &[u8]) -> Families {
        let mut families = Families::default();
        replay(book, &second::read(book), |model, event, number| {
            families.count(model, event, number)
        });
        families
    }

    #[test]
    fn each_count_by_itself() {
        // Plain 0 to 4 and two lists; 0 has spawned 1.
        let after = |events: &[u8]| {
            let book = [1, 0, 5, 2, 0, 1, 0, 8, 0, 1];
            counted(&[&book[..], events].concat())
        };
        let one = Families {
            spawned: 1,
            ..Families::default()
        };
        let more = |spawned: u64| Families { spawned, ..one };
        assert_eq!(after(&[]), one);
        assert_eq!(after(&[8, 1, 2]), more(2));
        let three_deep = Families {
            three_deep: 1,
            ..more(3)
        };
        assert_eq!(after(&[8, 1, 2, 8, 2, 3]), three_deep);
        assert_eq!(after(&[2, 1]), one);
        let handed_up = Families {
            handed_up: 1,
            ..one
        };
        assert_eq!(after(&[4, 1, 0, 1, 2, 1]), handed_up);
        let of_another = Families {
            handed_up_of_another: 1,
            given_to_a_child: 1,
            ..handed_up
        };
        assert_eq!(after(&[4, 0, 0, 1, 5, 0, 1, 0, 2, 1]), of_another);
        let given = Families {
            given_by_a_child: 1,
            ..one
        };
        assert_eq!(after(&[4, 1, 0, 1, 5, 1, 0, 0, 2, 1]), given);
        let dirty = Families {
            dirty_or_on_a_ring: 1,
            ..handed_up
        };
        assert_eq!(after(&[1, 2, 4, 2, 0, 1, 4, 1, 0, 0, 2, 1]), dirty);
        let dropped = Families {
            dropped_by_a_child: 1,
            kept_by_a_child: 1,
            ..one
        };
        assert_eq!(after(&[4, 1, 0, 1, 6, 1, 0, 7, 1, 0]), dropped);
        let lost = Families {
            left_alone: 1,
            parent_lost: 1,
            ..one
        };
        assert_eq!(after(&[3, 0, 2, 1]), lost);
        let past = Families {
            left_alone: 1,
            past_a_grandchild: 1,
            ..more(2)
        };
        assert_eq!(after(&[8, 1, 2, 3, 1, 2, 0]), past);
        let waits = Families {
            child_at_work: 1,
            ..one
        };
        assert_eq!(after(&[2, 0, 2, 1, 2, 0]), waits);
        let mut refused = one;
        for number in [8, 10, 11] {
            refused.refused[number] = 1;
        }
        assert_eq!(after(&[8, 0, 5, 8, 0, 1, 8, 3, 4]), refused);
    }

    #[test]
    fn families_are_deep_and_busy() {
        let mut families = Families::default();
        for index in 0..300 {
            let book = family(&mut Random::new(81, index)).bytes;
            replay(&book, &second::read(&book), |model, event, number| {
                families.count(model, event, number)
            });
        }
        for (count, name) in families.counted() {
            let elsewhere = name.ends_with("22") || name.starts_with("spawns refused");
            assert!(count >= 5 || elsewhere, "{count} {name}");
        }
    }
}
