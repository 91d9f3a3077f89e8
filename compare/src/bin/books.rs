//! Makes books from a seed, writes them if asked to, and counts them.

use compare::books::book;
use compare::counts::Counts;
use std::ffi::OsString;
use std::fs;
use std::io::{self, Write};
use std::path::PathBuf;
use std::process::ExitCode;

const USAGE: &str = "usage: books --seed S --count N [--out FOLDER]";

fn main() -> ExitCode {
    match run() {
        Ok(()) => ExitCode::SUCCESS,
        Err(message) => {
            // With standard error closed too, only the status is left to tell.
            let _ = writeln!(io::stderr(), "books: {message}");
            ExitCode::FAILURE
        }
    }
}

fn run() -> Result<(), String> {
    let wish = Wish::from_arguments(std::env::args_os().skip(1))?;
    let counts = make_books(&wish)?;
    write_out(&format!("seed {}\n{counts}", wish.seed))?;
    let missing = counts.missing();
    if missing.is_empty() {
        Ok(())
    } else {
        Err(format!("refusals that never came up: {missing:?}"))
    }
}

/// What the command line asks for.
struct Wish {
    seed: u64,
    count: u64,
    out: Option<PathBuf>,
}

impl Wish {
    fn from_arguments(mut arguments: impl Iterator<Item = OsString>) -> Result<Wish, String> {
        let (mut seed, mut count, mut out) = (None, None, None);
        while let Some(name) = arguments.next() {
            let value = arguments
                .next()
                .ok_or_else(|| format!("{} needs a value\n{USAGE}", name.display()))?;
            match name.to_str() {
                Some("--seed") => seed = Some(number(value)?),
                Some("--count") => count = Some(number(value)?),
                Some("--out") => out = Some(PathBuf::from(value)),
                _ => return Err(format!("unknown: {}\n{USAGE}", name.display())),
            }
        }
        match (seed, count) {
            (Some(seed), Some(count)) => Ok(Wish { seed, count, out }),
            _ => Err(format!("--seed and --count are needed\n{USAGE}")),
        }
    }
}

fn number(word: OsString) -> Result<u64, String> {
    word.to_str()
        .filter(|text| text.bytes().all(|byte| byte.is_ascii_digit()))
        .and_then(|text| text.parse().ok())
        .ok_or_else(|| format!("not a number: {}", word.display()))
}

fn make_books(wish: &Wish) -> Result<Counts, String> {
    if let Some(folder) = &wish.out {
        fs::create_dir_all(folder).map_err(|error| format!("{}: {error}", folder.display()))?;
    }
    let mut counts = Counts::default();
    for index in 0..wish.count {
        let made = book(wish.seed, index);
        if let Some(folder) = &wish.out {
            let file = folder.join(format!("{index:06}.book"));
            fs::write(&file, &made.bytes)
                .map_err(|error| format!("{}: {error}", file.display()))?;
        }
        counts.count(&made);
    }
    Ok(counts)
}

fn write_out(text: &str) -> Result<(), String> {
    let mut standard_output = io::stdout().lock();
    standard_output
        .write_all(text.as_bytes())
        .and_then(|()| standard_output.flush())
        .map_err(|error| format!("standard output: {error}"))
}
