//! Plans of record moves as staff write them, good and bad, each with a book
//! whose sagas its moves are.

use crate::aim::{story_of_a_long_saga, story_of_sagas};
use crate::books::book;
use crate::carried::disturbed;
use crate::draft::{Draft, Event};
use crate::random::Random;
use crate::story::{story, Story};

/// A plan's text and a book.
#[derive(Clone, Debug, PartialEq, Eq)]
pub struct Planned {
    pub plan: Vec<u8>,
    pub book: Vec<u8>,
}

/// The plan and the book with the index among those of the seed.
pub fn planned(seed: u64, index: u64) -> Planned {
    // Plans are drawn apart from the books and the lists of the same seed.
    let mut random = Random::new(seed.rotate_left(32), index);
    let with_sagas = book_with_sagas(&mut random);
    let any_book = || book(seed, index).bytes;
    let book = with_sagas.as_ref().map_or_else(any_book, Draft::bytes);
    let sagas = Draft::of_book(&book).map_or(Vec::new(), |draft| draft.tables.steps);
    let plan = plan(&mut random, &sagas);
    let book = match with_sagas {
        Some(draft) if random.one_in(4) => disturbed(&mut random, draft),
        _ => book,
    };
    Planned { plan, book }
}

/// An accepted book whose sagas are left somewhere on their way, or at its end.
/// Now and then none: then any book will do.
fn book_with_sagas(random: &mut Random) -> Option<Draft> {
    let told: fn(&mut Random) -> Story = match random.below(6) {
        0 => return None,
        1 => story,
        2 => story_of_a_long_saga,
        _ => story_of_sagas,
    };
    let whole = told(random);
    let left = if random.one_in(3) {
        whole
    } else {
        left_on_its_way(random, &whole)
    };
    Some(left.draft)
}

/// A story up to some place, where some sagas are given up and a few events
/// follow.
pub fn left_on_its_way(random: &mut Random, whole: &Story) -> Story {
    let Draft { tables, events } = &whole.draft;
    let mut story = Story::new(tables.clone());
    let place = random.below(events.len() + 1);
    for event in &events[..place] {
        story.go_on_with(*event);
    }
    for (saga, _) in story.model.sagas() {
        if random.one_in(2) {
            story.go_on_with(Event::Abort(saga as u32));
        }
    }
    let further = random.below(4);
    story.move_sagas(random, further);
    story
}

/// One line of a plan that names something.
struct Entry {
    word: &'static str,
    name: Vec<u8>,
}

fn plan(random: &mut Random, sagas: &[u32]) -> Vec<u8> {
    if random.one_in(25) {
        return noise(random);
    }
    let mut entries = fitting(random, sagas);
    if random.one_in(2) {
        stretch(random, &mut entries);
    }
    let mut lines = laid_out(random, &entries);
    if random.one_in(6) {
        put_in_unclear_lines(random, &mut lines);
    }
    let mut text = lines.join(&b'\n');
    if !random.one_in(4) {
        text.push(b'\n');
    }
    if random.one_in(15) {
        change_a_byte(random, &mut text);
    }
    text
}

/// A move for each saga, with its steps and some class lists. Now and then
/// there are more or fewer moves, or steps, than the book has.
fn fitting(random: &mut Random, sagas: &[u32]) -> Vec<Entry> {
    let most_lists = if sagas.len() > 8 { 2 } else { 4 };
    let mut entries = Vec::new();
    for index in 0..about(random, sagas.len()) {
        let steps = sagas.get(index).map_or(2, |steps| *steps as usize);
        let mut words = vec!["step"; about(random, steps).min(16)];
        words.extend(vec!["list"; random.below(most_lists)]);
        entries.push(named(random, "move"));
        entries.extend(
            random
                .shuffled(words)
                .iter()
                .map(|word| named(random, word)),
        );
    }
    entries
}

/// Mostly this number, else a lower one or a little more.
fn about(random: &mut Random, number: usize) -> usize {
    match random.below(6) {
        0 | 1 => random.below(number + 1),
        2 => number + random.within(1..=2),
        _ => number,
    }
}

fn named(random: &mut Random, word: &'static str) -> Entry {
    const NAMES: [&str; 16] = [
        "names",
        "diets",
        "labels",
        "allergies",
        "Week 46",
        "1A",
        "2B",
        "a",
        "move",
        "list 2",
        "#1",
        "two  blanks",
        "a\tb",
        "Grüße",
        "moved",
        "x:y|z\r!",
    ];
    let name = random.pick(&NAMES).as_bytes().to_vec();
    Entry { word, name }
}

/// Goes up to a limit or beyond in some ways at once, so that it shows which
/// is judged first.
fn stretch(random: &mut Random, entries: &mut Vec<Entry>) {
    if random.one_in(2) {
        fill_a_move(random, entries);
    }
    if random.one_in(2) {
        fill_up_lists(random, entries);
    }
    if random.one_in(2) {
        lengthen_a_name(random, entries);
    }
    if random.one_in(3) {
        entries.insert(0, named(random, "list"));
    }
}

/// The places at which the moves stand.
fn places_of_moves(entries: &[Entry]) -> Vec<usize> {
    let moves = entries.iter().enumerate();
    moves
        .filter(|(_, entry)| entry.word == "move")
        .map(|(place, _)| place)
        .collect()
}

/// Gives some move so many steps more that they are 15, 16 or 17.
fn fill_a_move(random: &mut Random, entries: &mut Vec<Entry>) {
    let places = places_of_moves(entries);
    if places.is_empty() {
        return;
    }
    let place = random.pick(&places);
    let behind = entries[place + 1..].iter();
    let own = behind.take_while(|entry| entry.word != "move");
    let steps = own.filter(|entry| entry.word == "step").count();
    for _ in steps..random.within(15..=17) {
        entries.insert(place + 1, named(random, "step"));
    }
}

/// Puts in class lists until they are 29, 30 or 31.
fn fill_up_lists(random: &mut Random, entries: &mut Vec<Entry>) {
    let lists = entries.iter().filter(|entry| entry.word == "list").count();
    for _ in lists..random.within(29..=31) {
        let place = random.within(entries.len().min(1)..=entries.len());
        entries.insert(place, named(random, "list"));
    }
}

fn lengthen_a_name(random: &mut Random, entries: &mut [Entry]) {
    if entries.is_empty() {
        return;
    }
    let place = random.below(entries.len());
    let length = random.pick(&[1, 23, 24, 25, 25, 26, 300]);
    entries[place].name = name_of_length(random, length);
}

/// A name of so many bytes. No blank stands at its ends.
fn name_of_length(random: &mut Random, length: usize) -> Vec<u8> {
    let mut name: Vec<u8> = (0..length)
        .map(|_| random.pick(b"abcxyz \t\r\xFF"))
        .collect();
    name[0] = random.pick(b"n#\xC3");
    name[length - 1] = random.pick(b"n#\xA4");
    name
}

/// The lines of the entries: every other time just so, else with margins, wide
/// gaps, remarks and empty lines.
fn laid_out(random: &mut Random, entries: &[Entry]) -> Vec<Vec<u8>> {
    let just_so = random.one_in(2);
    let mut lines = Vec::new();
    for Entry { word, name } in entries {
        if just_so {
            lines.push([word.as_bytes(), b" ", name].concat());
            continue;
        }
        if random.one_in(4) {
            lines.push(random.pick(&PASSED_OVER).to_vec());
        }
        let front = random.pick(&["", "", "  ", "\t", " \r "]).as_bytes();
        let gap = random.pick(&[" ", " ", "   ", "\t", " \t "]).as_bytes();
        let end = random.pick(&["", "", " ", "\t", "\r", " \r\r"]).as_bytes();
        lines.push([front, word.as_bytes(), gap, name, end].concat());
    }
    lines
}

const PASSED_OVER: [&[u8]; 7] = [
    b"",
    b"   ",
    b"\t\r",
    b"#",
    b"# a remark",
    b"  # move x",
    b"#step x\r",
];

/// Lines that are not understood wherever they stand.
const UNCLEAR: [&[u8]; 20] = [
    b"moves x",
    b"move",
    b"move  ",
    b"step",
    b"step\t\r",
    b"list",
    b"list \t",
    b"Move x",
    b"STEP x",
    b"lisT x",
    b"movex",
    b"mov x",
    b"x",
    b"move\rx",
    b"list\x0Bx",
    b"\xA0move x",
    b"\x00",
    b"1 move x",
    b"stepp x",
    b"- list x",
];

/// Puts in a line or two that are not understood, or a step above the first
/// move.
fn put_in_unclear_lines(random: &mut Random, lines: &mut Vec<Vec<u8>>) {
    if random.one_in(5) {
        lines.insert(0, b"step x".to_vec());
    }
    for _ in 0..random.within(0..=2) {
        let place = random.within(0..=lines.len());
        lines.insert(place, random.pick(&UNCLEAR).to_vec());
    }
}

fn change_a_byte(random: &mut Random, text: &mut Vec<u8>) {
    let place = random.within(0..=text.len());
    let byte = random.pick(&[b' ', b'\n', b'\r', b'\t', b'#', b'm', 0, 0xFF]);
    match text.get_mut(place) {
        Some(changed) if random.one_in(2) => *changed = byte,
        _ => text.insert(place, byte),
    }
}

/// Bytes of all kinds, or words in any order.
fn noise(random: &mut Random) -> Vec<u8> {
    const PIECES: [&str; 8] = ["move ", "step ", "list ", "#", "\n", "\n", "a", " "];
    let pieces = random.within(0..=60);
    let words = random.one_in(2);
    let piece = |_| match words {
        true => random.pick(&PIECES).as_bytes().to_vec(),
        false => vec![random.byte()],
    };
    (0..pieces).flat_map(piece).collect()
}

#[cfg(test)]
mod tests {
    use super::*;
    use crate::answers::Case;
    use std::collections::BTreeMap;

    const PLANS: u64 = 3000;

    #[test]
    fn the_same_seed_makes_the_same() {
        for index in 0..100 {
            assert_eq!(planned(7, index), planned(7, index));
        }
        assert_ne!(planned(7, 1), planned(8, 1));
        assert_ne!(planned(7, 1).plan, planned(7, 2).plan);
    }

    /// What a line of an answer says, whatever the names and numbers in it.
    fn sort_of(line: &str) -> &'static str {
        const ENDINGS: [&str; 6] = [
            " moved",
            " put back",
            " still open",
            ": nothing",
            ": abort the move",
            ": commit the move",
        ];
        const PARTS: [&str; 7] = [
            ": abort the step step ",
            ": begin the undo of step ",
            ": commit the undo of step ",
            ": abort the step ",
            ": begin the undo of ",
            ": commit the undo of ",
            "book refused ",
        ];
        const WHOLE: [&str; 4] = [
            "plan refused 25 0 0",
            "plan refused 26 0 0",
            "plan refused 27 0 0",
            "plan refused 28 0 0",
        ];
        let parts = PARTS.into_iter().filter(|part| line.contains(part));
        let whole = WHOLE.into_iter().filter(|whole| line == *whole);
        let ending = ENDINGS.into_iter().filter(|end| line.ends_with(end));
        let fronts = ["line ", "left "].into_iter();
        let front = fronts.filter(|front| line.starts_with(front));
        let mut all = whole.chain(parts).chain(ending).chain(front);
        all.next().unwrap_or("none of these")
    }

    #[test]
    fn every_answer_comes_up() {
        let mut sorts: BTreeMap<&str, usize> = BTreeMap::new();
        for index in 0..PLANS {
            let Planned { plan, book } = planned(3, index);
            let answer = Case::Moves(plan, book).answer();
            for line in String::from_utf8_lossy(&answer).lines() {
                *sorts.entry(sort_of(line)).or_default() += 1;
            }
        }
        let of_words = sorts.values().filter(|count| **count >= 4).count();
        assert_eq!(of_words, 19, "{sorts:?}");
        assert_eq!(sorts.get("none of these"), None);
    }

    #[test]
    fn plans_come_near_every_limit() {
        let plans = (0..PLANS).map(|index| second::Plan::from_text(&planned(5, index).plan));
        let plans: Vec<second::Plan> = plans.filter_map(Result::ok).collect();
        let count =
            |holds: &dyn Fn(&second::Plan) -> bool| plans.iter().filter(|plan| holds(plan)).count();
        for steps in [15, 16, 17] {
            assert!(count(&|plan| plan.steps.contains(&steps)) > 50);
        }
        for lists in [29, 30, 31] {
            assert!(count(&|plan| plan.lists.len() == lists) > 50);
        }
        assert!(count(&|plan| plan.lists.contains(&u16::MAX)) > 50);
        for length in [1, 23, 24, 25] {
            let has_such_a_name = |plan: &second::Plan| {
                let begins = [0].into_iter().chain(plan.ends.iter().copied());
                let mut lengths = plan.ends.iter().zip(begins).map(|(end, begin)| end - begin);
                lengths.any(|found| found == length)
            };
            assert!(count(&has_such_a_name) > 40, "{length}");
        }
    }
}
