//! Answers the cases of a question by the second program it is built with, and
//! counts those that it answers otherwise than another build did.
//!
//! `mutants/run` builds it with the second program as it is, and once with each
//! wrong judge. It is linked with nothing else, so that this is quick.

#[path = "../answers.rs"]
mod answers;

use answers::Case;
use std::ffi::OsString;
use std::fs;
use std::hash::{DefaultHasher, Hash, Hasher};
use std::io::{self, Write};
use std::panic::{catch_unwind, set_hook};
use std::process::ExitCode;

const USAGE: &str = "usage: told --note QUESTION ANSWERS | told QUESTION ANSWERS FIXED";

fn main() -> ExitCode {
    let words: Vec<OsString> = std::env::args_os().skip(1).collect();
    let done = match words.as_slice() {
        [option, question, answers] if option == "--note" => note(question, answers),
        [question, answers, fixed] => count(question, answers, fixed),
        _ => Err(USAGE.to_string()),
    };
    match done {
        Ok(line) => {
            println!("{line}");
            ExitCode::SUCCESS
        }
        Err(message) => {
            let _ = writeln!(io::stderr(), "told: {message}");
            ExitCode::FAILURE
        }
    }
}

/// Notes the answers to a question.
fn note(question: &OsString, answers: &OsString) -> Result<String, String> {
    let cases = cases_of(question)?;
    let notes: Vec<u8> = cases.iter().flat_map(answer_in_short).collect();
    fs::write(answers, notes).map_err(|error| format!("{}: {error}", answers.display()))?;
    Ok(format!("{} cases", cases.len()))
}

/// How many cases are answered otherwise than noted: of the fixed ones, which
/// come first, and of the others.
fn count(question: &OsString, answers: &OsString, fixed: &OsString) -> Result<String, String> {
    let fixed: usize = fixed
        .to_str()
        .and_then(|text| text.parse().ok())
        .ok_or_else(|| format!("not a number: {}\n{USAGE}", fixed.display()))?;
    let cases = cases_of(question)?;
    let notes = read_file(answers)?;
    let noted = notes.chunks(SHORT);
    if noted.len() != cases.len() {
        return Err(format!("{}: not of this question", answers.display()));
    }
    // A wrong judge may stumble. That is another answer, and nothing to print.
    set_hook(Box::new(|_| {}));
    let mut told = [0, 0];
    for (index, (case, noted)) in cases.iter().zip(noted).enumerate() {
        let answered = catch_unwind(|| answer_in_short(case));
        let same = answered.is_ok_and(|answer| answer == noted);
        told[usize::from(index >= fixed)] += usize::from(!same);
    }
    Ok(format!("{} {}", told[0], told[1]))
}

const SHORT: usize = 8;

/// The answer is kept in short: what tells two answers apart tells these apart
/// but for one time in 2^64.
fn answer_in_short(case: &Case) -> [u8; SHORT] {
    let mut hasher = DefaultHasher::new();
    case.answer().hash(&mut hasher);
    hasher.finish().to_le_bytes()
}

fn read_file(file: &OsString) -> Result<Vec<u8>, String> {
    fs::read(file).map_err(|error| format!("{}: {error}", file.display()))
}

fn cases_of(question: &OsString) -> Result<Vec<Case>, String> {
    let bytes = read_file(question)?;
    asked(&bytes).ok_or_else(|| format!("{}: not a question", question.display()))
}

/// The cases of a question, as `compare::cases::question` puts it.
fn asked(question: &[u8]) -> Option<Vec<Case>> {
    let mut rest = question;
    let count = take_three(&mut rest)?;
    let cases: Option<Vec<Case>> = (0..count).map(|_| take_case(&mut rest)).collect();
    cases.filter(|_| rest.is_empty())
}

fn take_case(rest: &mut &[u8]) -> Option<Case> {
    let letter = take(rest, 1)?[0];
    let room = take_three(rest)?;
    let length = take_three(rest)?;
    let bytes = take(rest, length)?;
    let fields = || {
        bytes.chunks(4).map(|field| match field {
            [a, b, c, d] => u32::from_le_bytes([*a, *b, *c, *d]),
            _ => 0,
        })
    };
    match letter {
        b'b' => Some(Case::Book(bytes.to_vec(), room)),
        b'w' => Some(Case::Fields(fields().collect(), room)),
        b'c' => Some(Case::CirclesBook(bytes.to_vec())),
        b'm' => {
            let (plan, book) = bytes.split_at_checked(room)?;
            Some(Case::Moves(plan.to_vec(), book.to_vec()))
        }
        b'r' => Some(Case::Replay(bytes.to_vec(), room)),
        b'f' => Some(Case::FirstRefusal(bytes.to_vec(), room)),
        b'g' => Some(Case::CirclesFirstRefusal(bytes.to_vec())),
        b'd' => Some(Case::Mend(bytes.to_vec(), room)),
        b't' => Some(Case::Figures(bytes.to_vec())),
        _ => None,
    }
}

fn take_three(rest: &mut &[u8]) -> Option<usize> {
    let bytes = take(rest, 3)?;
    Some(
        bytes
            .iter()
            .rev()
            .fold(0, |number, byte| number << 8 | usize::from(*byte)),
    )
}

fn take<'a>(rest: &mut &'a [u8], length: usize) -> Option<&'a [u8]> {
    let (front, behind) = rest.split_at_checked(length)?;
    *rest = behind;
    Some(front)
}

#[cfg(test)]
mod tests {
    use super::*;
    use compare::cases::{fixed, question};

    #[test]
    fn a_question_is_read_back() {
        let text = "b 01 80 /3\nw 7 300 65536 4294967295\nc 01\nm \"list a\" | 01\nb x70000 01\n\
                    r 01 02 /4\nf 01 /5\nf 02\ng 03\nd 04 05 /6\nt 01 00 00 09\n";
        let cases = fixed(text).unwrap();
        let read: Vec<Case> = asked(&question(&cases)).unwrap();
        let show = |cases: &dyn std::fmt::Debug| format!("{cases:?}");
        assert_eq!(show(&read), show(&cases));
        assert!(asked(&question(&cases)[1..]).is_none());
    }
}
