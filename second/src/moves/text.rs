//! A plan as staff write it: a line for each move, step and class list.

use super::Plan;
use std::fmt;

/// The text of a plan has at most this many bytes.
const MOST_BYTES: usize = 65_536;

/// The move of a class list that stands above the first move. No text has room
/// for so many moves, so it is never there.
const NO_MOVE: u16 = u16::MAX;

/// Why the text of a plan was not read.
#[derive(Clone, Copy, Debug, PartialEq, Eq)]
pub enum NotRead {
    /// It has too many bytes.
    TooLong,
    /// The first line that is not understood, counted from 1.
    Line(usize),
}

impl fmt::Display for NotRead {
    fn fmt(&self, output: &mut fmt::Formatter) -> fmt::Result {
        match self {
            NotRead::TooLong => write!(output, "a plan has at most {MOST_BYTES} bytes"),
            NotRead::Line(number) => write!(output, "line {number} is not understood"),
        }
    }
}

/// What a line says.
enum Line<'a> {
    /// It is empty or a remark.
    Nothing,
    Move(&'a [u8]),
    Step(&'a [u8]),
    List(&'a [u8]),
}

impl Plan {
    /// Reads the text of a plan.
    pub fn from_text(text: &[u8]) -> Result<Plan, NotRead> {
        if text.len() > MOST_BYTES {
            return Err(NotRead::TooLong);
        }
        let mut plan = Plan::default();
        let mut lists = Vec::new();
        for (index, line) in text.split(|byte| *byte == b'\n').enumerate() {
            let line = understood(line).ok_or(NotRead::Line(index + 1))?;
            plan.take_line(line, &mut lists)
                .ok_or(NotRead::Line(index + 1))?;
        }
        for name in lists {
            plan.add_name(name);
        }
        Ok(plan)
    }

    /// Takes a line in. The names of lists are put by until the end. None for a
    /// step above the first move.
    fn take_line<'a>(&mut self, line: Line<'a>, lists: &mut Vec<&'a [u8]>) -> Option<()> {
        match line {
            Line::Nothing => {}
            Line::Move(name) => {
                self.steps.push(0);
                self.add_name(name);
            }
            Line::Step(name) => {
                *self.steps.last_mut()? += 1;
                self.add_name(name);
            }
            Line::List(name) => {
                let moves = self.steps.len() as u16;
                self.lists.push(moves.checked_sub(1).unwrap_or(NO_MOVE));
                lists.push(name);
            }
        }
        Some(())
    }

    fn add_name(&mut self, name: &[u8]) {
        self.names.extend_from_slice(name);
        self.ends.push(self.names.len());
    }
}

/// What a line says; none if it is not understood.
fn understood(line: &[u8]) -> Option<Line<'_>> {
    let line = without_margins(line);
    if line.is_empty() || line.starts_with(b"#") {
        return Some(Line::Nothing);
    }
    let (word, behind) = line.split_at(line.iter().position(is_gap)?);
    let name = &behind[behind.iter().position(|byte| !is_gap(byte))?..];
    match word {
        b"move" => Some(Line::Move(name)),
        b"step" => Some(Line::Step(name)),
        b"list" => Some(Line::List(name)),
        _ => None,
    }
}

/// A line without the blanks, tabs and carriage returns at its front and end.
fn without_margins(line: &[u8]) -> &[u8] {
    let counts = |byte: &u8| !is_gap(byte) && *byte != b'\r';
    match (line.iter().position(counts), line.iter().rposition(counts)) {
        (Some(first), Some(last)) => &line[first..=last],
        _ => &[],
    }
}

/// What may stand between the word and the name.
fn is_gap(byte: &u8) -> bool {
    matches!(byte, b' ' | b'\t')
}
