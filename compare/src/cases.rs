//! Cases to ask two programs, and how they are asked.

use crate::answers::Case;
use crate::books::{book, field_list, is_ordered};
use crate::mending::torn_books;
use crate::plans::{planned, Planned};
use crate::terms::term;

const MOST_ROOM: usize = 65_536;

impl Case {
    fn letter(&self) -> u8 {
        match self {
            Case::Book(..) => b'b',
            Case::Fields(..) => b'w',
            Case::CirclesBook(..) => b'c',
            Case::Moves(..) => b'm',
            Case::Replay(..) => b'r',
            Case::FirstRefusal(..) => b'f',
            Case::CirclesFirstRefusal(..) => b'g',
            Case::Mend(..) => b'd',
            Case::Figures(..) => b't',
        }
    }

    /// The size of the lent room. Plan and book are asked as one piece, so this
    /// is where the plan ends.
    fn room(&self) -> usize {
        match self {
            Case::Book(_, room)
            | Case::Fields(_, room)
            | Case::Replay(_, room)
            | Case::FirstRefusal(_, room)
            | Case::Mend(_, room) => *room,
            Case::CirclesBook(_) | Case::CirclesFirstRefusal(_) | Case::Figures(_) => 0,
            Case::Moves(plan, _) => plan.len(),
        }
    }

    fn bytes(&self) -> Vec<u8> {
        match self {
            Case::Book(book, _)
            | Case::CirclesBook(book)
            | Case::Replay(book, _)
            | Case::FirstRefusal(book, _)
            | Case::CirclesFirstRefusal(book)
            | Case::Mend(book, _)
            | Case::Figures(book) => book.clone(),
            Case::Fields(fields, _) => fields.iter().flat_map(|f| f.to_le_bytes()).collect(),
            Case::Moves(plan, book) => [&plan[..], book].concat(),
        }
    }
}

fn three(number: usize) -> [u8; 3] {
    let [low, middle, high, ..] = number.to_le_bytes();
    [low, middle, high]
}

/// All cases as one input: how many, then each with its letter, room, length
/// and bytes.
pub fn question(cases: &[Case]) -> Vec<u8> {
    let mut input = three(cases.len()).to_vec();
    for case in cases {
        let bytes = case.bytes();
        input.push(case.letter());
        input.extend(three(case.room()));
        input.extend(three(bytes.len()));
        input.extend(bytes);
    }
    input
}

/// The line that stands before the answer to a case.
pub fn heading(index: usize) -> Vec<u8> {
    format!("== case {index}\n").into_bytes()
}

/// The cases of a seed: books, and a list of fields after every fourth. Every
/// third has a room that is about as large as needed. Books whose tables can
/// never move, and every eighth, are asked with circles permitted too. Wherever
/// an event is refused the book is asked in both ways. After
/// every fourth there is a plan of record moves with a book of its own. Every
/// fourth, and those laid out for it, are asked for the order to replay in too,
/// and every fourth and those laid out for it are mended. Now and then the
/// figures of a term are asked for.
pub fn made(seed: u64, count: u64) -> Vec<Case> {
    let mut cases = Vec::new();
    for index in 0..count {
        let bytes = book(seed, index).bytes;
        let room = room(index, bytes.len());
        let reading = second::read(&bytes);
        let never_moves = reading.number == second::refusal::NEVER_MOVES;
        cases.push(Case::Book(bytes.clone(), room));
        if !reading.refused_events.is_empty() {
            cases.push(Case::FirstRefusal(bytes.clone(), room));
        }
        if never_moves || index.is_multiple_of(8) {
            let permitted = second::read_circles_permitted(&bytes);
            cases.push(Case::CirclesBook(bytes.clone()));
            if !permitted.refused_events.is_empty() {
                cases.push(Case::CirclesFirstRefusal(bytes.clone()));
            }
        }
        for size in list_sizes(index, second::replay_order(&reading).len()) {
            cases.push(Case::Replay(bytes.clone(), size));
        }
        for (torn, room) in torn_books(seed, index) {
            cases.push(Case::Mend(torn, room));
        }
        cases.extend(term(seed, index).map(Case::Figures));
        if index.is_multiple_of(4) {
            let fields = field_list(seed, index);
            let room = self::room(index, fields.len());
            cases.push(Case::Fields(fields, room));
        }
        if index % 4 == 3 {
            let Planned { plan, book } = planned(seed, index);
            cases.push(Case::Moves(plan, book));
        }
    }
    cases
}

/// The sizes of the lists that are lent for an order to replay in.
fn list_sizes(index: u64, needed: usize) -> Vec<usize> {
    let one_too_short = needed.saturating_sub(1);
    if is_ordered(index) {
        return vec![0, one_too_short, needed, needed + 1];
    }
    let by_turns = [one_too_short, needed, needed + 1, 0, MOST_ROOM];
    match index % 4 {
        1 => vec![by_turns[index as usize / 4 % by_turns.len()]],
        _ => Vec::new(),
    }
}

fn room(index: u64, about: usize) -> usize {
    if index.is_multiple_of(3) {
        (about + index as usize / 3 % 3)
            .saturating_sub(1)
            .min(MOST_ROOM)
    } else {
        MOST_ROOM
    }
}

/// The cases of a text: see the head of `fixed.txt`.
pub fn fixed(text: &str) -> Result<Vec<Case>, String> {
    text.lines()
        .enumerate()
        .filter(|(_, line)| !line.trim().is_empty() && !line.starts_with('#'))
        .map(|(at, line)| fixed_case(line).ok_or_else(|| format!("line {}: {line}", at + 1)))
        .collect()
}

fn fixed_case(line: &str) -> Option<Case> {
    if let Some(planned) = line.strip_prefix("m ") {
        let (plan, book) = planned.split_once('|')?;
        let book = numbers(book.split_whitespace(), byte)?;
        return Some(Case::Moves(plan_text(plan)?, book));
    }
    let (line, room) = match line.split_once('/') {
        Some((front, size)) => (front, Some(size.trim().parse().ok()?)),
        None => (line, None),
    };
    let mut words = line.split_whitespace();
    let letter = words.next()?;
    let lent = room.unwrap_or(MOST_ROOM);
    match (letter, room) {
        ("b", _) => Some(Case::Book(numbers(words, byte)?, lent)),
        ("w", _) => Some(Case::Fields(
            numbers(words, |word| word.parse().ok())?,
            lent,
        )),
        ("c", None) => Some(Case::CirclesBook(numbers(words, byte)?)),
        ("r", Some(size)) => Some(Case::Replay(numbers(words, byte)?, size)),
        ("f", _) => Some(Case::FirstRefusal(numbers(words, byte)?, lent)),
        ("d", _) => Some(Case::Mend(numbers(words, byte)?, lent)),
        ("t", None) => Some(Case::Figures(numbers(words, byte)?)),
        ("g", None) => Some(Case::CirclesFirstRefusal(numbers(words, byte)?)),
        _ => None,
    }
}

fn byte(word: &str) -> Option<u8> {
    u8::from_str_radix(word, 16).ok()
}

/// What stands in a line: how often that which follows is repeated, or a part
/// of the case.
enum Word<N> {
    Times(usize),
    Part(Vec<N>),
}

fn times<N>(word: &str) -> Option<Word<N>> {
    let count = word.strip_prefix('x')?.parse().ok()?;
    Some(Word::Times(count))
}

fn repeated<N: Copy>(words: impl Iterator<Item = Option<Word<N>>>) -> Option<Vec<N>> {
    let (mut front, mut part, mut times) = (Vec::new(), Vec::new(), 1);
    for word in words {
        match word? {
            Word::Times(count) => {
                front.extend(part.repeat(times));
                part.clear();
                times = count;
            }
            Word::Part(more) => part.extend(more),
        }
    }
    front.extend(part.repeat(times));
    Some(front)
}

fn numbers<'a, N: Copy>(
    words: impl Iterator<Item = &'a str>,
    number: impl Fn(&str) -> Option<N>,
) -> Option<Vec<N>> {
    repeated(words.map(|word| times(word).or_else(|| Some(Word::Part(vec![number(word)?])))))
}

/// The text of a plan, given in pieces between quotes: every other part of the
/// line stands between two of them.
fn plan_text(line: &str) -> Option<Vec<u8>> {
    let parts: Vec<&str> = line.split('"').collect();
    let all_closed = parts.len() % 2 == 1;
    let words = parts.iter().enumerate().flat_map(|(index, part)| {
        if index % 2 == 1 {
            vec![unescaped(part).map(Word::Part)]
        } else {
            part.split_whitespace().map(times).collect()
        }
    });
    repeated(words).filter(|_| all_closed)
}

/// A piece of a plan: `\n` is a line feed, `\t` a tab, `\r` a carriage return, and
/// `\xFF` the byte with that number.
fn unescaped(piece: &str) -> Option<Vec<u8>> {
    let mut parts = piece.split('\\');
    let mut bytes = parts.next()?.as_bytes().to_vec();
    for part in parts {
        let escaped = part.get(..1)?;
        let (said, rest) = match escaped {
            "n" => (b'\n', &part[1..]),
            "t" => (b'\t', &part[1..]),
            "r" => (b'\r', &part[1..]),
            "x" => (byte(part.get(1..3)?)?, &part[3..]),
            _ => return None,
        };
        bytes.push(said);
        bytes.extend_from_slice(rest.as_bytes());
    }
    Some(bytes)
}

#[cfg(test)]
mod tests {
    use super::*;

    #[test]
    fn a_line_of_the_fixed_cases() {
        let text = "# not this\n\nb 01 x2 0A /3\nw 7 300\nc 01 x2 FF x1 03 04\n\
                    m \"move A/B\\n\" x2 \"x\\t\" \"#\\r\" x1 \"\\x7Cz\\x22\" | 01 x2 0F\nm | 01\n\
                    r 01 x2 0A /0\nf 01 x2 0A /3\nf 02\ng 02 x2 07\nd x2 0A /3\nd 01\nt 01 x2 00\nt\n";
        let cases = fixed(text).unwrap();
        assert_eq!(
            cases,
            [
                Case::Book(vec![1, 10, 10], 3),
                Case::Fields(vec![7, 300], MOST_ROOM),
                Case::CirclesBook(vec![1, 255, 255, 3, 4]),
                Case::Moves(b"move A/B\nx\t#\rx\t#\r|z\"".to_vec(), vec![1, 15, 15]),
                Case::Moves(vec![], vec![1]),
                Case::Replay(vec![1, 10, 10], 0),
                Case::FirstRefusal(vec![1, 10, 10], 3),
                Case::FirstRefusal(vec![2], MOST_ROOM),
                Case::CirclesFirstRefusal(vec![2, 7, 7]),
                Case::Mend(vec![10, 10], 3),
                Case::Mend(vec![1], MOST_ROOM),
                Case::Figures(vec![1, 0, 0]),
                Case::Figures(vec![]),
            ]
        );
    }

    #[test]
    fn the_fixed_cases_are_all_read() {
        let text = include_str!("../fixed.txt");
        let lines = text
            .lines()
            .filter(|line| line.starts_with(['b', 'w', 'c', 'm', 'r', 'f', 'g', 'd', 't']));
        assert_eq!(fixed(text).map(|cases| cases.len()), Ok(lines.count()));
    }

    #[test]
    fn a_bad_line_is_named() {
        for line in [
            "o 01",
            "b 1G",
            "w 4294967296",
            "b 01 /x",
            "b xx 01",
            "c 1G",
            "c 01 /3",
            "r 01",
            "r 1G /3",
            "f 1G",
            "g 01 /3",
            "d 1G",
            "t 1G",
            "t 01 /3",
            "m 01",
            "m | 1G",
            "m \"move\" 01 | 01",
            "m \"move | 01",
            "m \"\\q\" | 01",
            "m \"\\x1\" | 01",
            "m \"\\\" | 01",
        ] {
            let text = format!("b 01\n{line}\n");
            assert_eq!(fixed(&text), Err(format!("line 2: {line}")));
        }
    }

    #[test]
    fn the_question_has_every_length() {
        let cases = [
            Case::Book(vec![9], 2),
            Case::Fields(vec![258, 0x0403_0201], 65_536),
            Case::CirclesBook(vec![7, 8]),
            Case::Moves(vec![4; 300], vec![5, 6]),
            Case::Replay(vec![3], 260),
            Case::FirstRefusal(vec![4], 5),
            Case::CirclesFirstRefusal(vec![6, 7]),
            Case::Mend(vec![8], 258),
            Case::Figures(vec![1, 0, 0, 7]),
        ];
        let asked = [
            &[9, 0, 0][..],
            &[b'b', 2, 0, 0, 1, 0, 0, 9],
            &[b'w', 0, 0, 1, 8, 0, 0, 2, 1, 0, 0, 1, 2, 3, 4],
            &[b'c', 0, 0, 0, 2, 0, 0, 7, 8],
            &[b'm', 44, 1, 0, 46, 1, 0],
            &[4; 300],
            &[5, 6],
            &[b'r', 4, 1, 0, 1, 0, 0, 3],
            &[b'f', 5, 0, 0, 1, 0, 0, 4],
            &[b'g', 0, 0, 0, 2, 0, 0, 6, 7],
            &[b'd', 2, 1, 0, 1, 0, 0, 8],
            &[b't', 0, 0, 0, 4, 0, 0, 1, 0, 0, 7],
        ];
        assert_eq!(question(&cases), asked.concat());
    }

    #[test]
    fn answers_of_a_book_and_of_a_writing() {
        let book = Case::Book(vec![1, 0, 0, 0, 0], 5);
        let answer =
            "book accepted 0\nopening 5\nleft 0\nreplay\nactive 0 lowest 64\nunpacked 5\n1\n0\n0\n0\n0\n";
        assert_eq!(book.answer(), answer.as_bytes());
        let writing = Case::Fields(vec![1, 0, 0, 0, 0], 4);
        assert_eq!(writing.answer(), b"refused 19 0 0\n");
    }

    #[test]
    fn answers_of_a_book_that_never_moves() {
        // Plain 0 and 1 wait for each other, 2 begins.
        let bytes = vec![1, 0, 3, 0, 2, 0, 1, 4, 1, 0, 4, 1, 2];
        let book = Case::Book(bytes.clone(), 20);
        let answer =
            "book refused 21 0 4\nopening 0\nleft 0\nreplay\nactive 0 lowest 64\nrefused 21 0 4\n";
        assert_eq!(book.answer(), answer.as_bytes());
        let permitted = Case::CirclesBook(bytes);
        let answer = "book accepted 1\nt 0 idle\nt 1 idle\nt 2 active\n\
                      opening 13\nleft 0\nreplay\nactive 1 lowest 2\n";
        assert_eq!(permitted.answer(), answer.as_bytes());
    }

    #[test]
    fn what_is_left_comes_after_the_opening() {
        // A saga of two steps, its first done, its second at work; then 13.
        let bytes = vec![1, 1, 2, 0, 0, 0, 1, 0, 1, 1, 2, 1, 1, 2, 2, 0];
        let state = "t 0 active\nt 1 committed\nt 2 active\nt 3 idle\nsaga 0 4 abort 0\n\
                     opening 14\nleft 4\nreplay\nactive 2 lowest 0\n";
        let carried_on = format!("book accepted 4\nno 4 13\n{state}");
        let refused = format!("book refused 13 4 14\n{state}");
        let no_fields = "refused 13 4 14\n";
        let answer = |case: Case| String::from_utf8(case.answer()).unwrap();
        assert_eq!(
            answer(Case::Book(bytes.clone(), 9)),
            format!("{carried_on}{no_fields}")
        );
        assert_eq!(
            answer(Case::FirstRefusal(bytes.clone(), 9)),
            format!("{refused}{no_fields}")
        );
        assert_eq!(answer(Case::CirclesBook(bytes.clone())), carried_on);
        assert_eq!(answer(Case::CirclesFirstRefusal(bytes)), refused);
    }

    #[test]
    fn the_state_is_that_of_the_way_and_the_opening_is_not() {
        // 0 commits too early, begins, writes and commits.
        let bytes = vec![1, 0, 1, 1, 0, 2, 0, 1, 0, 4, 0, 0, 1, 2, 0];
        let answer = |case: Case| String::from_utf8(case.answer()).unwrap();
        assert_eq!(
            answer(Case::Book(bytes.clone(), 99)),
            "book accepted 3\nno 0 11\nt 0 committed\nop 0 0 write 0 committed\n\
             opening 5\nleft 0\nreplay 0\nactive 0 lowest 64\nrefused 11 0 5\n"
        );
        assert_eq!(
            answer(Case::FirstRefusal(bytes.clone(), 99)),
            "book refused 11 0 5\nt 0 idle\n\
             opening 5\nleft 0\nreplay\nactive 0 lowest 64\nrefused 11 0 5\n"
        );
        assert_eq!(answer(Case::Replay(bytes.clone(), 1)), "replay 0\n");
        assert_eq!(answer(Case::Replay(bytes, 0)), "refused 19 3 0\n");
    }

    #[test]
    fn books_with_a_refused_event_are_asked_in_both_ways() {
        let cases = made(1, 400);
        let mut in_both_ways = [0, 0];
        for (index, case) in cases.iter().enumerate() {
            match case {
                Case::Book(bytes, room) if !second::read(bytes).refused_events.is_empty() => {
                    let old_way = Case::FirstRefusal(bytes.clone(), *room);
                    assert_eq!(cases[index + 1], old_way);
                    in_both_ways[0] += 1;
                }
                Case::CirclesFirstRefusal(_) => in_both_ways[1] += 1,
                _ => {}
            }
        }
        assert!(in_both_ways[0] > 150 && in_both_ways[1] > 20);
    }

    #[test]
    fn answers_of_a_plan() {
        let answer = |plan: &[u8], book: &[u8]| {
            String::from_utf8(Case::Moves(plan.to_vec(), book.to_vec()).answer()).unwrap()
        };
        // A saga of one step, begun and aborted.
        let put_back = [1, 1, 1, 0, 0, 0, 1, 0, 3, 0];
        let lines = "left 0\nlist 1A put back\nmove A: nothing\n";
        assert_eq!(answer(b"move A\nlist 1A\n", &put_back), lines);
        assert_eq!(answer(b"list 1A\n", &put_back), "plan refused 28 0 0\n");
        assert_eq!(answer(b"move A\n\nmove\n", &put_back), "line 3\n");
        assert_eq!(answer(b"", &put_back[..9]), "book refused 2 1 9\n");
        let begun_again = [&put_back[..8], &[1, 0, 3, 0]].concat();
        assert_eq!(answer(b"move A\nlist 1A\n", &begun_again), lines);
        assert_eq!(answer(b"", &put_back), "left 0\n");
        assert_eq!(answer(b"", &put_back[..8]), "left 1\n");
    }

    #[test]
    fn answers_of_an_order_to_replay_in() {
        // Plain 1 writes a and commits, then plain 0 does.
        let book = vec![
            1, 0, 2, 1, 0, 1, 0, 1, 1, 4, 1, 0, 1, 2, 1, 4, 0, 0, 1, 2, 0,
        ];
        let answer = |book: &[u8], size| {
            String::from_utf8(Case::Replay(book.to_vec(), size).answer()).unwrap()
        };
        assert_eq!(answer(&book, 2), "replay 1 0\n");
        assert_eq!(answer(&book, 64), "replay 1 0\n");
        assert_eq!(answer(&book, 1), "refused 19 6 0\n");
        assert_eq!(answer(&book[..20], 0), "refused 19 5 0\n");
        assert_eq!(answer(&book[..20], 1), "replay 1\n");
        assert_eq!(answer(&book[..3], 0), "replay\n");
    }

    #[test]
    fn answers_of_a_torn_book() {
        let answer = |book: &[u8], room| Case::Mend(book.to_vec(), room).answer();
        // A saga of one step is begun, then half an event.
        let torn = [1, 1, 1, 0, 0, 0, 1, 0, 1];
        let mended = b"mended 10 1 1 1\n\x01\x01\x01\0\0\0\x01\0\x03\0\n";
        assert_eq!(answer(&torn, 10), mended);
        assert_eq!(answer(&torn, 9), b"refused 19 1 0\n");
        assert_eq!(answer(&torn[..6], 0), b"own 0\n");
        assert_eq!(answer(&torn[..5], 10), b"refused 2 0 5\n");
    }

    #[test]
    fn answers_of_a_term() {
        let answer = |term: &[u8]| String::from_utf8(Case::Figures(term.to_vec()).answer());
        assert_eq!(answer(&[]).unwrap(), "figures 0 0 0 0 0 0 share 0 1\n");
        // A saga of one step, given up; a book of nothing; a book that breaks off.
        let term = [10, 0, 0, 1, 1, 1, 0, 0, 0, 1, 0, 3, 0, 0, 0, 0, 2, 0, 0, 1];
        let figures = "figures 2 1 1 0 1 0 share 1 1\n";
        assert_eq!(answer(&term).unwrap(), figures);
        let too_many = [0, 0, 0].repeat(1002);
        let lines = "refused 23\nrefused 23\nfigures 1000 1000 0 0 0 0 share 0 1\n";
        assert_eq!(answer(&too_many).unwrap(), lines);
        let long = [&[4, 1, 0][..], &[1, 0, 130, 1], &[0; 256], &[9]].concat();
        assert_eq!(answer(&long).unwrap(), "figures 1 1 0 0 0 0 share 0 1\n");
    }

    #[test]
    fn lists_are_lent_in_all_sizes() {
        let mut sizes = [0; 4];
        for case in made(1, 400) {
            let Case::Replay(book, size) = case else {
                continue;
            };
            let needed = second::replay_order(&second::read(&book)).len();
            sizes[0] += usize::from(size + 1 == needed);
            sizes[1] += usize::from(size == needed);
            sizes[2] += usize::from(size > needed);
            sizes[3] += usize::from(size == 0 && needed > 1);
        }
        assert!(sizes.iter().all(|count| *count >= 10), "{sizes:?}");
    }

    #[test]
    fn about_a_sixteenth_of_the_cases_are_plans() {
        let cases = made(1, 400);
        let plans = cases.iter().filter(|case| case.letter() == b'm').count();
        assert_eq!(plans, 100);
        assert!(
            (14..=18).contains(&(cases.len() / plans)),
            "{}",
            cases.len()
        );
    }

    #[test]
    fn books_that_never_move_are_asked_with_circles_permitted_too() {
        let cases = made(1, 400);
        let mut permitted = cases
            .iter()
            .filter(|case| matches!(case, Case::CirclesBook(_)));
        let mut never_moving = 0;
        for (index, case) in cases.iter().enumerate() {
            let Case::Book(bytes, _) = case else { continue };
            if second::read(bytes).number == 21 {
                assert_eq!(cases[index + 1], Case::CirclesBook(bytes.clone()));
                never_moving += 1;
            }
        }
        assert!(never_moving > 5 && permitted.clone().count() >= 50);
        let first = book(1, 0).bytes;
        assert_eq!(permitted.next(), Some(&Case::CirclesBook(first)));
    }
}
