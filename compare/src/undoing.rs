//! Stories in which an active undo stands between others, so that somebody who
//! works on can close a ring around it.

use crate::draft::Event;
use crate::model::Model;
use crate::random::Random;
use crate::story::Story;
use crate::tables::{plain_numbers, tables_for};

const READ: u32 = 0;
const WRITE: u32 = 1;
/// How many draws until filling a story up is given up.
const DRAWS: usize = 1500;

/// A story in which clerks stand before an active undo and others after it, every
/// other time one of them a helper under another, now and then with another undo
/// at work, and with 256 operations. None if no undo comes to begin, or too few
/// clerks do.
pub fn story_around_an_undo(random: &mut Random) -> Option<Story> {
    let mut story = Story::new(tables_for(random, 22));
    let undo = begin_some_undo(random, &mut story)?;
    let other_undo = match random.below(5) {
        0 => begin_some_undo(random, &mut story),
        _ => None,
    };
    let mut clerks = random.shuffled(plain_numbers(&story.draft.tables));
    if let [before, between, after, last, ..] = clerks[..] {
        let families = [
            (before, after),
            (before, after),
            (before, last),
            (after, before),
            (last, before),
            (before, between),
        ];
        let (parent, child) = random.pick(&families);
        if random.one_in(2) {
            story.go_on_with(Event::Begin(parent));
            story.go_on_with(Event::Spawn(parent, child));
        }
    }
    for t in &clerks {
        story.go_on_with(Event::Begin(*t));
    }
    let active = active_clerks(&story.model);
    clerks.retain(|t| active.contains(t));
    let [before, between, after, last, ..] = clerks[..] else {
        return None;
    };
    let all_objects = (0..story.model.objects).collect();
    let objects = random.shuffled(all_objects);
    let [read_by_all, undone, written, last_list] =
        [0, 1, 2, 3].map(|i| objects[i % objects.len()]);

    if let Some(other) = other_undo {
        story.go_on_with(Event::Operation(other, read_by_all, READ));
    }
    let may_keep = story.model.parent(before as usize).is_none();
    if may_keep && random.one_in(2) {
        stand_before(random, &mut story, before, undone);
    } else {
        story.go_on_with(Event::Operation(before, read_by_all, READ));
        story.go_on_with(Event::Operation(between, read_by_all, WRITE));
        story.go_on_with(Event::Operation(between, undone, WRITE));
        if random.one_in(3) {
            story.keep_and_give_up(between);
        }
        story.go_on_with(Event::Commit(between));
    }
    story.go_on_with(Event::Operation(undo, undone, WRITE));
    story.go_on_with(Event::Operation(undo, written, WRITE));
    stand_after(random, &mut story, after, written, last_list);
    if !random.one_in(4) {
        let worked_on = random.pick(&[written, last_list, last_list]);
        story.go_on_with(Event::Operation(last, worked_on, random.below(2) as u32));
    }
    let filled = !random.one_in(3) || fill_up_around_an_undo(random, &mut story);
    filled.then_some(story)
}

fn active_clerks(model: &Model) -> Vec<u32> {
    model.active_plain().iter().map(|t| *t as u32).collect()
}

/// Begins the undo of the first step of some saga; none if none may begin.
fn begin_some_undo(random: &mut Random, story: &mut Story) -> Option<u32> {
    let mut sagas = story.model.sagas();
    sagas.retain(|(_, steps)| *steps > 1);
    random
        .shuffled(sagas)
        .into_iter()
        .find_map(|(saga, steps)| {
            let (saga, first_step) = (saga as u32, saga as u32 + 1);
            let undo = saga + steps as u32 + 1;
            let on_the_way = [
                Event::Begin(saga),
                Event::Begin(first_step),
                Event::Commit(first_step),
                Event::Abort(saga),
                Event::Begin(undo),
            ];
            on_the_way
                .iter()
                .all(|event| story.go_on_with(*event))
                .then_some(undo)
        })
}

/// A clerk works on a list that is to be undone, keeps that one change alone,
/// so that nobody waits for it, and stays.
fn stand_before(random: &mut Random, story: &mut Story, clerk: u32, list: u32) {
    let kept = story.model.operations.len() as u32;
    story.go_on_with(Event::Operation(clerk, list, random.below(2) as u32));
    story.go_on_with(Event::CommitOperation(clerk, kept));
}

/// Mostly, a clerk works on what the undo has written and on another list, and
/// now and then is done with it.
fn stand_after(random: &mut Random, story: &mut Story, clerk: u32, written: u32, other: u32) {
    if random.one_in(4) {
        return;
    }
    story.go_on_with(Event::Operation(
        clerk,
        written,
        random.pick(&[READ, WRITE, WRITE]),
    ));
    story.go_on_with(Event::Operation(clerk, other, WRITE));
    if random.one_in(2) {
        story.go_on_with(Event::Commit(clerk));
    }
}

/// Goes on by operations only, most of them reads, for which an undo that reads
/// doesn't wait, until 256 are accepted; false if it doesn't come to that.
fn fill_up_around_an_undo(random: &mut Random, story: &mut Story) -> bool {
    let clerks = active_clerks(&story.model);
    for _ in 0..DRAWS {
        if story.model.is_full() {
            return true;
        }
        let object = random.below(story.model.objects as usize) as u32;
        let mark = u32::from(random.one_in(100));
        story.go_on_with(Event::Operation(random.pick(&clerks), object, mark));
    }
    false
}

#[cfg(test)]
mod tests {
    use super::*;

    #[test]
    fn an_undo_is_at_work_between_others() {
        let mut stories = 0;
        for index in 0..60 {
            let Some(story) = story_around_an_undo(&mut Random::new(31, index)) else {
                continue;
            };
            let reading = second::read(&story.draft.bytes());
            assert_eq!(reading.number, 0);
            let undos = story.model.active_undos();
            assert!(!undos.is_empty());
            let pairs = story.model.pairs();
            let stands_after = |undo: usize| pairs.iter().any(|row| row >> undo & 1 == 1);
            stories += usize::from(undos.iter().any(|undo| stands_after(*undo)));
        }
        assert!(stories > 30, "{stories}");
    }
}
