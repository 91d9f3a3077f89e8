//! Asks a program the fixed cases and those of a seed, and holds its answers
//! against the second program's.

use compare::answers::Case;
use compare::cases::{fixed, heading, made, question};
use std::ffi::OsString;
use std::fs;
use std::io::{self, Read, Write};
use std::process::{Command, ExitCode, Stdio};
use std::thread;

const USAGE: &str =
    "usage: agree FIXED SEED COUNT PROGRAM [WORDS..]\n       agree --store FIXED QUESTION ANSWER\n       agree --ask FIXED SEED COUNT QUESTION";

fn main() -> ExitCode {
    let words: Vec<OsString> = std::env::args_os().skip(1).collect();
    let done = match words.first().and_then(|word| word.to_str()) {
        Some("--store") => store(&words[1..]),
        Some("--ask") => ask(&words[1..]),
        _ => run(&words),
    };
    match done {
        Ok(line) => {
            println!("{line}");
            ExitCode::SUCCESS
        }
        Err(message) => {
            let _ = writeln!(io::stderr(), "agree: {message}");
            ExitCode::FAILURE
        }
    }
}

/// Writes the fixed cases as a program is asked them, and the answers.
fn store(words: &[OsString]) -> Result<String, String> {
    let [source, asked, answered] = words else {
        return Err(USAGE.to_string());
    };
    let cases = fixed_cases(source)?;
    write_file(asked, &question(&cases))?;
    write_file(answered, &expected(&cases))?;
    Ok(format!("{} cases stored", cases.len()))
}

/// Writes the cases of a comparison as a program is asked them, and says how
/// many are fixed and how many there are.
fn ask(words: &[OsString]) -> Result<String, String> {
    let [source, seed, count, asked] = words else {
        return Err(USAGE.to_string());
    };
    let fixed = fixed_cases(source)?.len();
    let cases = all_cases(source, number(seed)?, number(count)?)?;
    write_file(asked, &question(&cases))?;
    Ok(format!("{fixed} {}", cases.len()))
}

fn all_cases(source: &OsString, seed: u64, count: u64) -> Result<Vec<Case>, String> {
    let mut cases = fixed_cases(source)?;
    cases.extend(made(seed, count));
    Ok(cases)
}

fn run(words: &[OsString]) -> Result<String, String> {
    let [source, seed, count, program @ ..] = words else {
        return Err(USAGE.to_string());
    };
    let (seed, count) = (number(seed)?, number(count)?);
    let cases = all_cases(source, seed, count)?;
    let answers = answers_of(program, question(&cases))?;
    compare(&cases, &answers)?;
    Ok(format!(
        "seed {seed}: {} cases, all answered alike",
        cases.len()
    ))
}

fn fixed_cases(source: &OsString) -> Result<Vec<Case>, String> {
    let named = |error: &dyn std::fmt::Display| format!("{}: {error}", source.display());
    let text = fs::read_to_string(source).map_err(|error| named(&error))?;
    fixed(&text).map_err(|error| named(&error))
}

fn write_file(file: &OsString, bytes: &[u8]) -> Result<(), String> {
    fs::write(file, bytes).map_err(|error| format!("{}: {error}", file.display()))
}

fn number(word: &OsString) -> Result<u64, String> {
    word.to_str()
        .and_then(|text| text.parse().ok())
        .ok_or_else(|| format!("not a number: {}\n{USAGE}", word.display()))
}

fn expected(cases: &[Case]) -> Vec<u8> {
    let mut text = Vec::new();
    for (index, case) in cases.iter().enumerate() {
        text.extend(heading(index));
        text.extend(case.answer());
    }
    text
}

/// What the program writes when it is asked.
fn answers_of(program: &[OsString], input: Vec<u8>) -> Result<Vec<u8>, String> {
    let [name, words @ ..] = program else {
        return Err(USAGE.to_string());
    };
    let failed = |error: io::Error| format!("{}: {error}", name.display());
    let mut child = Command::new(name)
        .args(words)
        .stdin(Stdio::piped())
        .stdout(Stdio::piped())
        .spawn()
        .map_err(failed)?;
    let mut asking = child.stdin.take().expect("its input is a pipe");
    let asker = thread::spawn(move || asking.write_all(&input));
    let mut answers = Vec::new();
    let mut answering = child.stdout.take().expect("its output is a pipe");
    answering.read_to_end(&mut answers).map_err(failed)?;
    let status = child.wait().map_err(failed)?;
    asker
        .join()
        .expect("asking does not panic")
        .map_err(failed)?;
    if status.success() {
        Ok(answers)
    } else {
        Err(format!("{} ended with {status}", name.display()))
    }
}

fn compare(cases: &[Case], answers: &[u8]) -> Result<(), String> {
    let mut rest = answers;
    for (index, case) in cases.iter().enumerate() {
        let mut wanted = heading(index);
        wanted.extend(case.answer());
        rest = rest.strip_prefix(&wanted[..]).ok_or_else(|| {
            let shown = &rest[..rest.len().min(wanted.len())];
            format!(
                "case {index} differs\nasked: {case:02X?}\nsecond: {}\nanswered: {}",
                String::from_utf8_lossy(&wanted),
                String::from_utf8_lossy(shown)
            )
        })?;
    }
    if rest.is_empty() {
        Ok(())
    } else {
        Err(format!("{} bytes after the last answer", rest.len()))
    }
}
