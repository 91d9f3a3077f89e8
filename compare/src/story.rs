//! Books that go deep: events that are mostly acceptable, one after another.

use crate::draft::{Draft, Event, Tables, CEILING_1};
use crate::model::{Model, Phase};
use crate::random::Random;
use crate::tables::{good_tables, tables_for};

/// How often each sort of event is tried.
#[derive(Clone, Copy)]
struct Mood {
    begin: usize,
    commit: usize,
    abort: usize,
    operate: usize,
    delegate: usize,
    /// Events that move a saga on.
    saga: usize,
    /// Commits of a single operation.
    keep: usize,
    /// Aborts of a single operation.
    drop: usize,
    /// Helpers under a clerk.
    spawn: usize,
}

const EVEN: Mood = Mood {
    begin: 6,
    commit: 2,
    abort: 1,
    operate: 20,
    delegate: 6,
    saga: 5,
    keep: 3,
    drop: 2,
    spawn: 1,
};
const WORKING: Mood = Mood {
    operate: 40,
    abort: 0,
    ..EVEN
};
const HANDING_ON: Mood = Mood {
    delegate: 25,
    abort: 0,
    ..EVEN
};
const FAILING: Mood = Mood {
    commit: 1,
    abort: 3,
    ..EVEN
};
const SETTLING: Mood = Mood {
    begin: 10,
    commit: 6,
    operate: 12,
    ..EVEN
};
const MOVING_SAGAS: Mood = Mood {
    begin: 3,
    commit: 1,
    abort: 0,
    operate: 8,
    delegate: 3,
    saga: 30,
    keep: 2,
    drop: 1,
    spawn: 0,
};
const HELPING: Mood = Mood {
    begin: 2,
    commit: 6,
    spawn: 8,
    ..EVEN
};
const SORTING_OUT: Mood = Mood {
    keep: 15,
    drop: 6,
    ..EVEN
};
const MOODS: [Mood; 8] = [
    EVEN,
    HELPING,
    WORKING,
    HANDING_ON,
    FAILING,
    SETTLING,
    MOVING_SAGAS,
    SORTING_OUT,
];
const KEEPING: Mood = Mood {
    begin: 8,
    commit: 5,
    abort: 2,
    operate: 20,
    delegate: 5,
    saga: 6,
    keep: 10,
    drop: 1,
    spawn: 1,
};
const FILLING: Mood = Mood {
    begin: 20,
    operate: 400,
    delegate: 10,
    ..EVEN
};

/// How many draws until an acceptable event is given up.
const DRAWS: usize = 30;

/// A draft, and the state its events have likely led to.
pub struct Story {
    pub draft: Draft,
    pub model: Model,
}

impl Story {
    pub fn new(tables: Tables) -> Story {
        Story {
            model: Model::new(&tables),
            draft: Draft {
                tables,
                events: Vec::new(),
            },
        }
    }

    /// Goes on by about so many acceptable events.
    pub fn go_on(&mut self, random: &mut Random, events: usize) {
        let mut left = events;
        while left > 0 {
            let stretch = left.min(random.within(3..=30));
            let mood = random.pick(&MOODS);
            for _ in 0..stretch {
                self.go_on_once(random, mood);
            }
            left -= stretch;
        }
    }

    /// Goes on by about so many events, most of them moving sagas on.
    pub fn move_sagas(&mut self, random: &mut Random, events: usize) {
        for _ in 0..events {
            self.go_on_once(random, MOVING_SAGAS);
        }
    }

    /// Goes on by the next event of some saga, if there is one.
    pub fn move_a_saga(&mut self, random: &mut Random) {
        if let Some(event) = draw_saga_event(random, &self.model) {
            self.go_on_with(event);
        }
    }

    /// Goes on by about so many events; much of what is done is committed.
    pub fn settle(&mut self, random: &mut Random, events: usize) {
        for _ in 0..events {
            self.go_on_once(random, KEEPING);
        }
    }

    /// Goes on by one acceptable event, if one is found.
    fn go_on_once(&mut self, random: &mut Random, mood: Mood) -> bool {
        let mut draws = (0..DRAWS).filter_map(|_| draw_event(random, &self.model, mood));
        let drawn = draws.find(|event| self.model.verdict(*event) == 0);
        drawn.is_some_and(|event| self.go_on_with(event))
    }

    /// Goes on with this event if it is acceptable; false if it isn't.
    pub fn go_on_with(&mut self, event: Event) -> bool {
        let acceptable = self.model.verdict(event) == 0;
        if acceptable {
            self.model.take(event);
            self.draft.events.push(event);
        }
        acceptable
    }

    /// Goes on until 256 operations are accepted; false if it doesn't come to that.
    pub fn fill_up(&mut self, random: &mut Random) -> bool {
        while !self.model.is_full() {
            if !self.go_on_once(random, FILLING) {
                return false;
            }
        }
        true
    }

    /// Goes on until more than half of the 256 operations are accepted, or nothing
    /// comes of it.
    pub fn fill_half_up(&mut self, random: &mut Random) {
        while self.model.operations.len() < 130 && self.go_on_once(random, FILLING) {}
    }

    /// A plain transaction keeps all it has done and aborts.
    pub fn keep_and_give_up(&mut self, t: u32) {
        for operation in self.model.operations_to_end_alone() {
            if self.model.operations[operation].responsible == t as usize {
                self.go_on_with(Event::CommitOperation(t, operation as u32));
            }
        }
        self.go_on_with(Event::Abort(t));
    }

    /// Adds this event whatever becomes of it.
    pub fn add(&mut self, event: Event) {
        if !self.go_on_with(event) {
            self.draft.events.push(event);
        }
    }

    /// Adds some event whatever becomes of it.
    pub fn stray(&mut self, random: &mut Random) {
        let code = random.within(1..=8);
        let event = wild_event(random, &self.model, code);
        self.add(event);
    }
}

/// An event of a likely sort by likely transactions; none if there are none.
fn draw_event(random: &mut Random, model: &Model, mood: Mood) -> Option<Event> {
    let weights = [
        mood.begin,
        mood.commit,
        mood.abort,
        mood.operate,
        mood.delegate,
        mood.saga,
        mood.keep,
        mood.drop,
        mood.spawn,
    ];
    let operating = model.active_operating();
    let sort = if operating.len() < 2 && random.one_in(2) {
        0
    } else {
        random.weighted(weights.into_iter())
    };
    match sort {
        0 => draw(random, &model.in_phase(Phase::Idle)).map(Event::Begin),
        1 => draw(random, &model.in_phase(Phase::Active)).map(Event::Commit),
        2 => draw(random, &model.in_phase(Phase::Active)).map(Event::Abort),
        3 => {
            let t = draw(random, &operating)?;
            let objects: Vec<usize> = (0..model.objects as usize).collect();
            let object = draw(random, &objects)?;
            Some(Event::Operation(t, object, random.below(2) as u32))
        }
        4 => {
            let operations: Vec<usize> = (0..model.operations.len()).collect();
            let operation = draw(random, &operations)?;
            let giver = model.operations[operation as usize].responsible;
            let receiver = draw(random, &model.active_delegating())?;
            Some(Event::Delegate(giver as u32, receiver, operation))
        }
        5 => draw_saga_event(random, model),
        6 => draw_own(random, model).map(|(t, own)| Event::CommitOperation(t, own)),
        7 => draw_own(random, model).map(|(t, own)| Event::AbortOperation(t, own)),
        _ => {
            let parent = draw(random, &model.active_plain())?;
            let child = draw(random, &model.idle_plain())?;
            Some(Event::Spawn(parent, child))
        }
    }
}

/// An active operation and the plain transaction that answers for it.
fn draw_own(random: &mut Random, model: &Model) -> Option<(u32, u32)> {
    let operation = draw(random, &model.operations_to_end_alone())?;
    let t = model.operations[operation as usize].responsible;
    Some((t as u32, operation))
}

/// An event that moves some saga on, forth or back; none if it has come to its end.
fn draw_saga_event(random: &mut Random, model: &Model) -> Option<Event> {
    let sagas = model.sagas();
    if sagas.is_empty() {
        return None;
    }
    let (saga, steps) = random.pick(&sagas);
    match model.phase(saga) {
        Phase::Idle => Some(Event::Begin(saga as u32)),
        Phase::Active => Some(forth(random, model, saga, steps)),
        Phase::Aborted => back(model, saga, steps),
        Phase::Committed => None,
    }
}

/// The next event of an active saga on its way to the end, or its abort, which
/// is the more likely when there is something to undo.
fn forth(random: &mut Random, model: &Model, saga: usize, steps: usize) -> Event {
    let something_done = model.phase(saga + 1) == Phase::Committed;
    if random.one_in(if something_done { 6 } else { 20 }) {
        return Event::Abort(saga as u32);
    }
    let mut all_steps = saga + 1..=saga + steps;
    let next = all_steps.find(|step| model.phase(*step) != Phase::Committed);
    match next.map(|step| (step as u32, model.phase(step))) {
        None => Event::Commit(saga as u32),
        Some((step, Phase::Idle)) => Event::Begin(step),
        Some((step, Phase::Active)) if random.one_in(12) => Event::Abort(step),
        Some((step, Phase::Active)) => Event::Commit(step),
        Some(_) => Event::Abort(saga as u32),
    }
}

/// The next event of an aborted saga on its way back; none if it is undone.
fn back(model: &Model, saga: usize, steps: usize) -> Option<Event> {
    let mut all_steps = saga + 1..=saga + steps;
    if let Some(step) = all_steps.find(|step| model.phase(*step) == Phase::Active) {
        return Some(Event::Abort(step as u32));
    }
    let undo = (1..steps)
        .rev()
        .filter(|i| model.phase(saga + i) == Phase::Committed)
        .map(|i| saga + steps + i)
        .find(|undo| model.phase(*undo) != Phase::Committed)?;
    Some(match model.phase(undo) {
        Phase::Active => Event::Commit(undo as u32),
        _ => Event::Begin(undo as u32),
    })
}

fn draw(random: &mut Random, from: &[usize]) -> Option<u32> {
    (!from.is_empty()).then(|| random.pick(from) as u32)
}

/// An event of the sort with the code, its fields drawn at random, now and
/// then from outside the tables.
pub fn wild_event(random: &mut Random, model: &Model, code: usize) -> Event {
    let ceiling = model.ceiling;
    let transactions = model.transactions();
    let mut transaction = || wild_field(random, transactions, ceiling);
    match code {
        1 => Event::Begin(transaction()),
        2 => Event::Commit(transaction()),
        3 => Event::Abort(transaction()),
        4 => Event::Operation(
            transaction(),
            wild_field(random, model.objects as usize, ceiling),
            wild_field(random, 2, ceiling),
        ),
        5 => {
            let receiver = transaction();
            let (giver, operation) = wild_own(random, model);
            Event::Delegate(giver, receiver, operation)
        }
        6 => {
            let (t, operation) = wild_own(random, model);
            Event::CommitOperation(t, operation)
        }
        7 => {
            let (t, operation) = wild_own(random, model);
            Event::AbortOperation(t, operation)
        }
        _ => wild_spawn(random, model),
    }
}

/// Every other time a clerk at work spawns somebody, or somebody spawns one that
/// is idle, or both.
fn wild_spawn(random: &mut Random, model: &Model) -> Event {
    let mut mostly_of = |likely: Vec<usize>| match draw(random, &likely) {
        Some(t) if random.one_in(2) => t,
        _ => wild_field(random, model.transactions(), model.ceiling),
    };
    let parent = mostly_of(model.active_plain());
    Event::Spawn(parent, mostly_of(model.idle_plain()))
}

/// A transaction and an operation that it is to hand on or to end alone. Every
/// other time it is the one that answers for it.
fn wild_own(random: &mut Random, model: &Model) -> (u32, u32) {
    let operation = wild_field(random, model.operations.len(), model.ceiling);
    let t = match model.operations.get(operation as usize) {
        Some(operation) if random.one_in(2) => operation.responsible as u32,
        _ => wild_field(random, model.transactions(), model.ceiling),
    };
    (t, operation)
}

/// Mostly a number below the limit, else often the one just above, and never
/// one above the ceiling. In edition 2 there are also such as would be below the
/// limit if they were cut to 16 bits.
fn wild_field(random: &mut Random, limit: usize, ceiling: u32) -> u32 {
    if limit > 0 && !random.one_in(25) {
        return random.below(limit) as u32;
    }
    let just_above = limit as u32;
    if random.one_in(2) {
        return just_above;
    }
    let cut_to_below = CEILING_1 + 1 + random.below(limit.max(1)) as u32;
    if ceiling > CEILING_1 && random.one_in(3) {
        return cut_to_below;
    }
    let outside = [just_above + 1, 64, 127, 128, 256, 16_384, CEILING_1];
    random.pick(&outside)
}

/// A story of ordinary length.
pub fn story(random: &mut Random) -> Story {
    let mut story = Story::new(good_tables(random));
    let events = match random.below(15) {
        0 => random.within(0..=4),
        1 | 2 => random.within(100..=500),
        _ => random.within(5..=120),
    };
    story.go_on(random, events);
    story
}

/// A short story with at least one event.
pub fn short_story(random: &mut Random) -> Story {
    loop {
        let mut story = Story::new(good_tables(random));
        let events = random.within(1..=40);
        story.go_on(random, events);
        if !story.draft.events.is_empty() {
            return story;
        }
    }
}

/// A story with 256 operations that goes on by up to so many events; none if
/// it doesn't come to that.
pub fn full_story(random: &mut Random, most_events: usize) -> Option<Story> {
    let mut story = Story::new(tables_for(random, 18));
    if !story.fill_up(random) {
        return None;
    }
    let events = random.within(0..=most_events);
    story.go_on(random, events);
    Some(story)
}

/// A story in which acceptable and stray events are mixed.
pub fn strayed_story(random: &mut Random) -> Story {
    let mut story = story(random);
    for _ in 0..random.within(1..=4) {
        story.stray(random);
        let events = random.within(0..=5);
        story.go_on(random, events);
    }
    story
}

#[cfg(test)]
mod tests {
    use super::*;
    use crate::draft::encode;
    use crate::stuck::never_moving_story;
    use crate::undoing::story_around_an_undo;

    fn as_second_reads_it(event: Event) -> second::Event {
        match event {
            Event::Begin(transaction) => second::Event::Begin { transaction },
            Event::Commit(transaction) => second::Event::Commit { transaction },
            Event::Abort(transaction) => second::Event::Abort { transaction },
            Event::Operation(transaction, object, mark) => second::Event::Operation {
                transaction,
                object,
                mark,
            },
            Event::Delegate(giver, receiver, operation) => second::Event::Delegate {
                giver,
                receiver,
                operation,
            },
            Event::CommitOperation(transaction, operation) => second::Event::CommitOperation {
                transaction,
                operation,
            },
            Event::AbortOperation(transaction, operation) => second::Event::AbortOperation {
                transaction,
                operation,
            },
            Event::Spawn(parent, child) => second::Event::Spawn { parent, child },
        }
    }

    /// What is left over all sagas, by its definition.
    fn sum_over_sagas(reading: &second::Reading) -> usize {
        let sagas = 0..reading.tables.sagas().len();
        sagas.map(|saga| second::outstanding(reading, saga)).sum()
    }

    /// Compares the phases of all transactions, and all about the operations.
    fn says_the_same(reading: &second::Reading, model: &Model) {
        let state = &reading.state;
        for t in 0..model.transactions() {
            let phase = format!("{:?}", state.phase(t));
            assert_eq!(phase, format!("{:?}", model.phase(t)), "{t}");
        }
        assert_eq!(state.operations(), model.operations.len());
        for (number, operation) in model.operations.iter().enumerate() {
            assert_eq!(state.responsible(number), operation.responsible, "{number}");
            let phase = format!("{:?}", state.operation_phase(number));
            let by_model = format!("{:?}", model.operation_phase(number));
            assert_eq!(phase, by_model, "{number}");
        }
    }

    /// Walks through a story event by event, offers the model and the second
    /// program others on the way, and compares what they say.
    fn walk(random: &mut Random, story: &Story) {
        let mut model = Model::new(&story.draft.tables);
        let mut reading = second::read_circles_permitted(&encode(&story.draft.tables.fields()));
        for event in &story.draft.events {
            for code in [1, 2, 2, 3, 4, 5, 6, 6, 7, 8, 8] {
                let other = wild_event(random, &model, code);
                let mut offered = reading.clone();
                let answer = offered
                    .state
                    .offer(&reading.tables, as_second_reads_it(other));
                assert_eq!(answer.err().unwrap_or(0), model.verdict(other), "{other:?}");
                assert_eq!(offered.state.left(), sum_over_sagas(&offered), "{other:?}");
            }
            let answer = reading
                .state
                .offer(&reading.tables, as_second_reads_it(*event));
            assert_eq!(
                answer.err().unwrap_or(0),
                model.verdict(*event),
                "{event:?}"
            );
            if answer.is_ok() {
                model.take(*event);
            }
            assert_eq!(second::report(&reading).pairs, model.pairs());
            assert_eq!(reading.state.left(), sum_over_sagas(&reading), "{event:?}");
            assert_eq!(reading.state.left(), model.left(), "{event:?}");
            says_the_same(&reading, &model);
            for (index, (saga, steps)) in model.sagas().into_iter().enumerate() {
                let closing = second::closing(&reading, index);
                let fields = closing.map(|(code, t)| vec![code.into(), t as u32]);
                let by_model = model.closing_step(saga, steps).map(Event::fields);
                assert_eq!(fields, by_model, "{event:?}");
            }
        }
    }

    #[test]
    fn the_model_and_the_second_program_say_the_same() {
        for index in 0..250 {
            let random = &mut Random::new(11, index);
            let story = strayed_story(random);
            walk(random, &story);
        }
        for index in 0..50 {
            let random = &mut Random::new(15, index);
            let (story, _) = never_moving_story(random);
            walk(random, &story);
        }
        for index in 0..120 {
            let random = &mut Random::new(16, index);
            if let Some(mut story) = story_around_an_undo(random) {
                story.go_on(random, 10);
                walk(random, &story);
            }
        }
        let full = (0..3).filter_map(|index| full_story(&mut Random::new(12, index), 30));
        for story in full {
            walk(&mut Random::new(13, 0), &story);
        }
    }

    #[test]
    fn stories_go_deep() {
        let stories: Vec<Story> = (0..200)
            .map(|index| story(&mut Random::new(14, index)))
            .collect();
        let long = stories
            .iter()
            .filter(|story| story.draft.events.len() >= 30);
        assert!(long.count() > 60);
        let settled = stories.iter().filter(|story| {
            let model = &story.model;
            let mut sagas = model.sagas().into_iter().filter(|(_, steps)| *steps > 1);
            sagas.any(|(saga, steps)| model.phase(saga + steps + 1) == Phase::Committed)
        });
        assert!(settled.count() > 10, "the first step is undone");
    }
}
