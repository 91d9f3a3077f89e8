//! The commands of the second program. Books come from standard input, and
//! nothing is written to standard output before the whole answer stands.

use second::{Mended, Plan, Reading, Refused, MOST_BYTES};
use std::ffi::{OsStr, OsString};
use std::fmt::Write as _;
use std::fs::{self, File};
use std::hint::black_box;
use std::io::{self, Read, Write};
use std::path::{Path, PathBuf};
use std::process::ExitCode;
use std::time::{Duration, Instant};

const USAGE: &str = "usage: second listing | opening | unpack [ROOM] | write [ROOM] | pairs | left
       second replay [ROOM] | mend [ROOM]
       second circles-listing | circles-opening
       second first-refusal | circles-first-refusal
       second moves PLAN
       second figures FILE ..
       second listings FOLDER
       second measure FILE TIMES
All but the last three read standard input.";

fn main() -> ExitCode {
    let arguments: Vec<OsString> = std::env::args_os().skip(1).collect();
    let written = answer(&arguments).and_then(|output| write_out(&output));
    match written {
        Ok(()) => ExitCode::SUCCESS,
        Err(message) => {
            // With standard error closed too, only the status is left to tell.
            let _ = writeln!(io::stderr(), "second: {message}");
            ExitCode::FAILURE
        }
    }
}

fn write_out(output: &[u8]) -> Result<(), String> {
    let mut standard_output = io::stdout().lock();
    standard_output
        .write_all(output)
        .and_then(|()| standard_output.flush())
        .map_err(|error| format!("standard output: {error}"))
}

/// The whole answer to a command, or a message about bad input.
fn answer(arguments: &[OsString]) -> Result<Vec<u8>, String> {
    let words: Vec<&OsStr> = arguments.iter().map(OsString::as_os_str).collect();
    let command = words.first().and_then(|word| word.to_str());
    match (command, words.get(1..).unwrap_or_default()) {
        (Some("listing"), []) => Ok(second::listing(&book_from_input()?).into_bytes()),
        (Some("opening"), []) => Ok(second::opening(&book_from_input()?).to_vec()),
        (Some("circles-listing"), []) => {
            Ok(second::listing_circles_permitted(&book_from_input()?).into_bytes())
        }
        (Some("circles-opening"), []) => {
            Ok(second::opening_circles_permitted(&book_from_input()?).to_vec())
        }
        (Some("first-refusal"), []) => {
            Ok(second::listing_to_first_refusal(&book_from_input()?).into_bytes())
        }
        (Some("circles-first-refusal"), []) => {
            let book = book_from_input()?;
            Ok(second::listing_circles_permitted_to_first_refusal(&book).into_bytes())
        }
        (Some("unpack"), room @ ([] | [_])) => unpack(room_size(room)?),
        (Some("write"), room @ ([] | [_])) => write(room_size(room)?),
        (Some("pairs"), []) => Ok(pairs(&second::read(&book_from_input()?))),
        (Some("left"), []) => {
            let reading = second::read(&book_from_input()?);
            Ok(second::left_line(&reading).into_bytes())
        }
        (Some("replay"), room @ ([] | [_])) => replay(room_size(room)?),
        (Some("mend"), room @ ([] | [_])) => mend(room_size(room)?),
        (Some("moves"), [plan]) => moves(Path::new(plan)),
        (Some("figures"), files) => figures(files),
        (Some("listings"), [folder]) => listings(Path::new(folder)),
        (Some("measure"), [file, times]) => measure(Path::new(file), number(times)?),
        _ => Err(format!("no such command\n{USAGE}")),
    }
}

/// Books, and plans, longer than allowed are cut one byte above the limit: they
/// are refused for their length whatever follows.
fn read_bytes(source: impl Read) -> io::Result<Vec<u8>> {
    let mut bytes = Vec::new();
    source.take(MOST_BYTES as u64 + 1).read_to_end(&mut bytes)?;
    Ok(bytes)
}

fn book_from_input() -> Result<Vec<u8>, String> {
    read_bytes(io::stdin().lock()).map_err(|error| format!("standard input: {error}"))
}

fn bytes_of_file(file: &Path) -> Result<Vec<u8>, String> {
    File::open(file)
        .and_then(read_bytes)
        .map_err(|error| format!("{}: {error}", file.display()))
}

fn number(word: &OsStr) -> Result<usize, String> {
    word.to_str()
        .filter(|text| is_decimal(text))
        .and_then(|text| text.parse().ok())
        .ok_or_else(|| format!("not a number: {}", word.display()))
}

fn is_decimal(text: &str) -> bool {
    text.bytes().all(|byte| byte.is_ascii_digit())
}

/// The size of the lent room. No book needs more than the most bytes a book
/// has, so a larger room is the same as that.
fn room_size(words: &[&OsStr]) -> Result<usize, String> {
    match words.first() {
        Some(word) => Ok(number(word)?.min(MOST_BYTES)),
        None => Ok(MOST_BYTES),
    }
}

fn refused_line(refused: Refused) -> Vec<u8> {
    let Refused {
        number,
        events,
        place,
    } = refused;
    format!("refused {number} {events} {place}\n").into_bytes()
}

fn unpack(room_size: usize) -> Result<Vec<u8>, String> {
    let book = book_from_input()?;
    let mut room = vec![0; room_size];
    Ok(match second::unpack(&book, &mut room) {
        Ok(count) => unpacked_lines(&room[..count]),
        Err(refused) => refused_line(refused),
    })
}

fn unpacked_lines(fields: &[u32]) -> Vec<u8> {
    let mut text = format!("unpacked {}\n", fields.len());
    for field in fields {
        writeln!(text, "{field}").expect("a text takes every line");
    }
    text.into_bytes()
}

fn write(room_size: usize) -> Result<Vec<u8>, String> {
    let fields = fields_from_input()?;
    let mut room = vec![0; room_size];
    Ok(match second::write(&fields, &mut room) {
        Ok(count) => written_lines(&room[..count]),
        Err(refused) => refused_line(refused),
    })
}

fn fields_from_input() -> Result<Vec<u32>, String> {
    let text = io::read_to_string(io::stdin().lock())
        .map_err(|error| format!("standard input: {error}"))?;
    text.split_whitespace().map(field).collect()
}

fn field(word: &str) -> Result<u32, String> {
    Some(word)
        .filter(|text| is_decimal(text))
        .and_then(|text| text.parse().ok())
        .ok_or_else(|| format!("not a field from 0 to 4294967295: {word}"))
}

fn written_lines(bytes: &[u8]) -> Vec<u8> {
    format!("written {}\n{}", bytes.len(), hex_line(bytes)).into_bytes()
}

fn hex_line(bytes: &[u8]) -> String {
    let hex: Vec<String> = bytes.iter().map(|byte| format!("{byte:02X}")).collect();
    format!("{}\n", hex.join(" "))
}

fn pairs(reading: &Reading) -> Vec<u8> {
    let report = second::report(reading);
    let mut text = format!("active {} lowest {}\n", report.active, report.lowest);
    for (earlier, row) in report.pairs.iter().enumerate() {
        for later in (0..64).filter(|later| row >> later & 1 == 1) {
            writeln!(text, "{earlier} {later}").expect("a text takes every line");
        }
    }
    text.into_bytes()
}

fn replay(room_size: usize) -> Result<Vec<u8>, String> {
    let book = book_from_input()?;
    let mut list = vec![0; room_size];
    Ok(match second::replay(&book, &mut list) {
        Ok(count) => {
            let order = list[..count].iter().map(|t| usize::from(*t));
            second::replay_line(order).into_bytes()
        }
        Err(refused) => refused_line(refused),
    })
}

fn mend(room_size: usize) -> Result<Vec<u8>, String> {
    let book = book_from_input()?;
    let mut room = vec![0; room_size];
    Ok(match second::mend(&book, &mut room) {
        Ok(mended @ Mended::Own { .. }) => second::mended_line(mended).into_bytes(),
        Ok(mended) => {
            let hex = hex_line(second::mended_book(mended, &book, &room));
            [second::mended_line(mended), hex].concat().into_bytes()
        }
        Err(refused) => refused_line(refused),
    })
}

fn moves(file: &Path) -> Result<Vec<u8>, String> {
    let plan = Plan::from_text(&bytes_of_file(file)?)
        .map_err(|not_read| format!("{}: {not_read}", file.display()))?;
    Ok(second::move_lines(&plan, &book_from_input()?))
}

fn figures(files: &[&OsStr]) -> Result<Vec<u8>, String> {
    let books: Result<Vec<Vec<u8>>, String> = files
        .iter()
        .map(|file| bytes_of_file(Path::new(file)))
        .collect();
    Ok(second::figures(books?.iter().map(Vec::as_slice)).into_bytes())
}

fn listings(folder: &Path) -> Result<Vec<u8>, String> {
    let mut output = Vec::new();
    for file in files_by_name(folder).map_err(|error| format!("{}: {error}", folder.display()))? {
        let book = bytes_of_file(&file)?;
        output.extend_from_slice(b"== ");
        output.extend_from_slice(file.file_name().unwrap_or_default().as_encoded_bytes());
        output.push(b'\n');
        output.extend_from_slice(second::listing(&book).as_bytes());
    }
    Ok(output)
}

/// The files of a folder by name in byte order; folders in it are passed over.
fn files_by_name(folder: &Path) -> io::Result<Vec<PathBuf>> {
    let mut files = Vec::new();
    for entry in fs::read_dir(folder)? {
        let path = entry?.path();
        if !path.is_dir() {
            files.push(path);
        }
    }
    files.sort_by(|a, b| {
        let name = |path: &Path| {
            path.file_name()
                .map(|name| name.as_encoded_bytes().to_vec())
        };
        name(a).cmp(&name(b))
    });
    Ok(files)
}

fn measure(file: &Path, times: usize) -> Result<Vec<u8>, String> {
    if times == 0 {
        return Err("TIMES must be at least 1".to_string());
    }
    let book = bytes_of_file(file)?;
    let events = second::read(&book).judged();
    let taken = time_of_reading(&book, times);
    let per_event = taken.as_nanos() as f64 / times as f64 / events.max(1) as f64;
    let line = format!("ns_per_event {per_event:.1} events {events} reads {times}\n");
    Ok(line.into_bytes())
}

fn time_of_reading(book: &[u8], times: usize) -> Duration {
    let start = Instant::now();
    for _ in 0..times {
        black_box(&second::read(black_box(book)));
    }
    start.elapsed()
}
