//! A case, and what the second program answers to it. Nothing else is needed
//! for that, so `bin/told.rs` asks wrong judges by these same lines.

use second::{Mended, NotRead, Plan};
use std::fmt::Write;

/// What is asked: a book to be read, or fields to be written, and the size of
/// the lent room; or a book to be read with circles permitted in its tables,
/// which takes no room; or the text of a plan of record moves and a book to
/// tell them from; or a book to be replayed, and the size of the lent list; or a
/// book to be read to its first refusal, and with circles permitted too; or a
/// torn book to be mended, and the size of the lent room; or the books of a
/// term, one after another, each with its length in three bytes in front.
#[derive(Clone, Debug, PartialEq, Eq)]
pub enum Case {
    Book(Vec<u8>, usize),
    Fields(Vec<u32>, usize),
    CirclesBook(Vec<u8>),
    Moves(Vec<u8>, Vec<u8>),
    Replay(Vec<u8>, usize),
    FirstRefusal(Vec<u8>, usize),
    CirclesFirstRefusal(Vec<u8>),
    Mend(Vec<u8>, usize),
    Figures(Vec<u8>),
}

impl Case {
    /// What the second program answers.
    pub fn answer(&self) -> Vec<u8> {
        match self {
            Case::Book(book, room) => book_answer(book, *room),
            Case::Fields(fields, room) => write_answer(fields, *room),
            Case::CirclesBook(book) => circles_book_answer(book),
            Case::Moves(plan, book) => moves_answer(plan, book),
            Case::Replay(book, size) => replay_answer(book, *size),
            Case::FirstRefusal(book, room) => first_refusal_answer(book, *room),
            Case::CirclesFirstRefusal(book) => circles_first_refusal_answer(book),
            Case::Mend(book, room) => mend_answer(book, *room),
            Case::Figures(term) => second::figures(books_of_term(term)).into_bytes(),
        }
    }
}

fn refused_line(refused: second::Refused) -> String {
    format!(
        "refused {} {} {}\n",
        refused.number, refused.events, refused.place
    )
}

const PUT: &str = "a text takes every line";

fn book_answer(book: &[u8], room: usize) -> Vec<u8> {
    let mut text = second::listing(book);
    put_opening(&mut text, second::opening(book));
    put_state(&mut text, &second::read(book));
    put_fields(&mut text, book, room);
    text.into_bytes()
}

fn first_refusal_answer(book: &[u8], room: usize) -> Vec<u8> {
    let mut text = second::listing_to_first_refusal(book);
    put_opening(&mut text, second::opening(book));
    put_state(&mut text, &second::read_to_first_refusal(book));
    put_fields(&mut text, book, room);
    text.into_bytes()
}

fn circles_book_answer(book: &[u8]) -> Vec<u8> {
    let mut text = second::listing_circles_permitted(book);
    put_opening(&mut text, second::opening_circles_permitted(book));
    put_state(&mut text, &second::read_circles_permitted(book));
    text.into_bytes()
}

fn circles_first_refusal_answer(book: &[u8]) -> Vec<u8> {
    let mut text = second::listing_circles_permitted_to_first_refusal(book);
    put_opening(&mut text, second::opening_circles_permitted(book));
    let reading = second::read_circles_permitted_to_first_refusal(book);
    put_state(&mut text, &reading);
    text.into_bytes()
}

fn put_opening(text: &mut String, opening: &[u8]) {
    writeln!(text, "opening {}", opening.len()).expect(PUT);
}

/// How much is left, the order to replay in, and the report.
fn put_state(text: &mut String, reading: &second::Reading) {
    *text += &second::left_line(reading);
    *text += &second::replay_line(second::replay_order(reading));
    let report = second::report(reading);
    writeln!(text, "active {} lowest {}", report.active, report.lowest).expect(PUT);
    for (earlier, row) in report.pairs.iter().enumerate() {
        for later in (0..64).filter(|later| row >> later & 1 == 1) {
            writeln!(text, "{earlier} {later}").expect(PUT);
        }
    }
}

/// The fields, or why there are none.
fn put_fields(text: &mut String, book: &[u8], room: usize) {
    let mut fields = vec![0; room];
    match second::unpack(book, &mut fields) {
        Ok(count) => {
            writeln!(text, "unpacked {count}").expect(PUT);
            for field in &fields[..count] {
                writeln!(text, "{field}").expect(PUT);
            }
        }
        Err(refused) => *text += &refused_line(refused),
    }
}

fn write_answer(fields: &[u32], room: usize) -> Vec<u8> {
    let mut bytes = vec![0; room];
    match second::write(fields, &mut bytes) {
        Ok(count) => {
            let mut answer = format!("written {count}\n").into_bytes();
            answer.extend_from_slice(&bytes[..count]);
            answer.push(b'\n');
            answer
        }
        Err(refused) => refused_line(refused).into_bytes(),
    }
}

/// The lines of the record move, or the line of the plan that is not
/// understood. Of a plan that is too long nothing is said.
fn moves_answer(plan: &[u8], book: &[u8]) -> Vec<u8> {
    match Plan::from_text(plan) {
        Ok(plan) => second::move_lines(&plan, book),
        Err(NotRead::Line(number)) => format!("line {number}\n").into_bytes(),
        Err(NotRead::TooLong) => Vec::new(),
    }
}

/// The order to replay in, as it stands in the lent list.
fn replay_answer(book: &[u8], size: usize) -> Vec<u8> {
    let mut list = vec![0; size];
    let line = match second::replay(book, &mut list) {
        Ok(count) => second::replay_line(list[..count].iter().map(|t| usize::from(*t))),
        Err(refused) => refused_line(refused),
    };
    line.into_bytes()
}

/// What mending came to, and the bytes of the mended book if it is not the
/// caller's own.
fn mend_answer(book: &[u8], room: usize) -> Vec<u8> {
    let mut bytes = vec![0; room];
    match second::mend(book, &mut bytes) {
        Ok(mended @ Mended::Own { .. }) => second::mended_line(mended).into_bytes(),
        Ok(mended) => {
            let mut answer = second::mended_line(mended).into_bytes();
            answer.extend_from_slice(second::mended_book(mended, book, &bytes));
            answer.push(b'\n');
            answer
        }
        Err(refused) => refused_line(refused).into_bytes(),
    }
}

/// The books of a term. A length or a book that breaks off at the end is none.
fn books_of_term(term: &[u8]) -> impl Iterator<Item = &[u8]> {
    let mut rest = term;
    std::iter::from_fn(move || {
        let (length, behind) = rest.split_first_chunk::<3>()?;
        let [low, middle, high] = length.map(usize::from);
        let (book, behind) = behind.split_at_checked(low | middle << 8 | high << 16)?;
        rest = behind;
        Some(book)
    })
}
