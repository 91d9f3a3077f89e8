//! The rules of the saga book, run through the library as a user of it would.

mod books;
mod carry;
mod chance;
mod closing;
mod decided;
mod edition_2;
mod figures;
mod helpers;
mod left;
mod line;
mod mend;
mod moves;
mod never_moving;
mod refusals;
mod replay;
mod single;
mod ties;
mod undo_rings;
mod walks;
mod writing;
mod wrong_turns;
