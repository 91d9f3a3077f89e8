//! Starts a program on the beginning of a file, over a connection that goes wrong as a shell cannot have it, and ends with the program's status:
//!
//!     feed pausing FILE BYTES PROGRAM WORDS..   reading does not wait, and the writer pauses after so many bytes for as long as the program runs
//!     feed broken FILE BYTES PROGRAM WORDS..    after so many bytes reading fails: the connection was reset
use std::io::{Error, ErrorKind, Result, Write};
use std::os::fd::OwnedFd;
use std::os::unix::net::UnixStream;
use std::process::{Command, ExitCode, Stdio};

fn main() -> Result<ExitCode> {
    let words: Vec<String> = std::env::args().skip(1).collect();
    let [way, file, bytes, program, words @ ..] = words.as_slice() else {
        return Err(Error::new(ErrorKind::InvalidInput, "usage: feed WAY FILE BYTES PROGRAM WORDS.."));
    };
    let bytes: usize = bytes.parse().map_err(|_| Error::new(ErrorKind::InvalidInput, "BYTES is no number"))?;
    let book = std::fs::read(file)?;
    let beginning = book.get(..bytes).ok_or_else(|| Error::new(ErrorKind::InvalidInput, "the file is shorter than that"))?;

    let (mut reader, mut writer) = UnixStream::pair()?;
    writer.write_all(beginning)?;
    let held_open = match way.as_str() {
        "pausing" => {
            reader.set_nonblocking(true)?;
            Some(writer)
        }
        "broken" => {
            // A connection that is closed before all that came over it was read counts as reset.
            reader.write_all(b"?")?;
            drop(writer);
            None
        }
        _ => return Err(Error::new(ErrorKind::InvalidInput, "no such way")),
    };
    let status = Command::new(program).args(words).stdin(Stdio::from(OwnedFd::from(reader))).status()?;
    drop(held_open);
    Ok(ExitCode::from(status.code().and_then(|code| u8::try_from(code).ok()).unwrap_or(2)))
}
