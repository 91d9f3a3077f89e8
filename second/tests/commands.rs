//! The commands, run as a user runs them.

use std::fs;
use std::io::Write;
use std::path::PathBuf;
use std::process::{Command, Output, Stdio};

const LISTED: [u8; 24] = [
    0x01, 0x01, 0x02, 0x01, 0x01, 0x00, 0x01, 0x00, 0x01, 0x01, 0x01, 0x04, //
    0x04, 0x01, 0x00, 0x01, 0x05, 0x01, 0x04, 0x00, 0x02, 0x01, 0x03, 0x00,
];
const LISTED_FIELDS: &str = "1 1 2 1 1 0 1 0 1 1 1 4 4 1 0 1 5 1 4 0 2 1 3 0";

fn program() -> Command {
    Command::new(env!("CARGO_BIN_EXE_second"))
}

fn run(arguments: &[&str], input: &[u8]) -> Output {
    let mut child = program()
        .args(arguments)
        .stdin(Stdio::piped())
        .stdout(Stdio::piped())
        .stderr(Stdio::piped())
        .spawn()
        .unwrap();
    // A command that reads no input may be gone already.
    let _ = child.stdin.take().unwrap().write_all(input);
    child.wait_with_output().unwrap()
}

#[track_caller]
fn answers(arguments: &[&str], input: &[u8], expected: &str) {
    let output = run(arguments, input);
    assert_eq!(String::from_utf8_lossy(&output.stdout), expected);
    assert!(output.status.success());
    assert!(output.stderr.is_empty());
}

#[track_caller]
fn complains(arguments: &[&str], input: &[u8]) {
    let output = run(arguments, input);
    let message = String::from_utf8_lossy(&output.stderr);
    assert!(!output.status.success());
    assert!(output.stdout.is_empty());
    assert!(message.starts_with("second: "), "{message}");
    assert!(!message.contains("panicked"), "{message}");
}

/// A new empty folder for one test.
fn folder(name: &str) -> PathBuf {
    let folder = PathBuf::from(env!("CARGO_TARGET_TMPDIR")).join(name);
    let _ = fs::remove_dir_all(&folder);
    fs::create_dir_all(&folder).unwrap();
    folder
}

#[test]
fn listing_and_pairs() {
    answers(
        &["listing"],
        &LISTED,
        "book accepted 7\nt 0 aborted\nt 1 committed\nt 2 idle\nt 3 idle\nt 4 active\n\
         op 0 0 write 4 active\nsaga 0 2 begin 3\n",
    );
    answers(&["listing"], &[], "book refused 2 0 0\n");
    answers(&["listing"], &[1; 70_000], "book refused 1 0 0\n");
    answers(&["pairs"], &LISTED, "active 1 lowest 4\n");
    let three_writers = [
        1, 0, 3, 1, 0, 1, 0, 1, 1, 1, 2, 4, 1, 0, 1, 4, 0, 0, 1, 4, 2, 0, 1,
    ];
    answers(
        &["pairs"],
        &three_writers,
        "active 3 lowest 0\n0 2\n1 0\n1 2\n",
    );
    let reader_after_a_commit = [1, 0, 2, 1, 0, 1, 0, 1, 1, 4, 0, 0, 1, 2, 0, 4, 1, 0, 0];
    answers(
        &["pairs"],
        &reader_after_a_commit,
        "active 1 lowest 1\n0 1\n",
    );
    answers(&["pairs"], &[7], "active 0 lowest 64\n");
}

#[test]
fn single_operations() {
    // Plain 0 writes two objects, keeps the first write and drops the second.
    let book = [
        1, 0, 1, 2, 0, 1, 0, 4, 0, 0, 1, 4, 0, 1, 1, 6, 0, 0, 7, 0, 1,
    ];
    let lines = "t 0 active\nop 0 0 write 0 committed\nop 1 1 write 0 aborted\n";
    answers(&["listing"], &book, &format!("book accepted 5\n{lines}"));
    let dropped_again = [&book[..], &[7, 0, 0]].concat();
    let carried_on = format!("book accepted 5\nno 5 20\n{lines}");
    answers(&["listing"], &dropped_again, &carried_on);
    let refused = format!("book refused 20 5 21\n{lines}");
    answers(&["first-refusal"], &dropped_again, &refused);
    answers(&["unpack"], &dropped_again, "refused 20 5 21\n");
    answers(
        &["write"],
        b"1 0 1 1 0 1 0 4 0 0 1 6 0 0",
        "written 14\n01 00 01 01 00 01 00 04 00 00 01 06 00 00\n",
    );
}

#[test]
fn carrying_on() {
    // The begin of T2 is refused; then C1 begins, plain 9 is unknown, C1 commits.
    let carried = [&LISTED[..], &[1, 2, 1, 3, 1, 9, 2, 3]].concat();
    let state = "t 0 aborted\nt 1 committed\nt 2 idle\nt 3 committed\nt 4 active\n\
                 op 0 0 write 4 active\nsaga 0 0 none\n";
    let listed = format!("book accepted 9\nno 7 13\nno 9 8\n{state}");
    answers(&["listing"], &carried, &listed);
    let torn = [&carried[..], &[2]].concat();
    let listed = format!("book refused 2 9 33\nno 7 13\nno 9 8\n{state}");
    answers(&["listing"], &torn, &listed);
    answers(&["left"], &carried, "left 0\n");
    answers(&["pairs"], &carried, "active 1 lowest 4\n");
    answers(
        &["first-refusal"],
        &carried,
        "book refused 13 7 24\nt 0 aborted\nt 1 committed\nt 2 idle\nt 3 idle\nt 4 active\n\
         op 0 0 write 4 active\nsaga 0 2 begin 3\n",
    );
    let output = run(&["opening"], &carried);
    assert_eq!(output.stdout, LISTED);
    answers(&["unpack"], &carried, "refused 13 7 24\n");
    complains(&["first-refusal", "more"], &carried);
}

#[test]
fn opening() {
    let with_refused_event = [&LISTED[..], &[1, 2]].concat();
    let output = run(&["opening"], &with_refused_event);
    assert!(output.status.success());
    assert_eq!(output.stdout, LISTED);
    answers(&["opening"], &[9], "");
}

#[test]
fn circles_permitted() {
    // Plain 0 and 1 wait for each other, 2 for nobody; 2 begins.
    let book = [1, 0, 3, 0, 2, 0, 1, 4, 1, 0, 4, 1, 2];
    answers(&["listing"], &book, "book refused 21 0 4\n");
    answers(&["opening"], &book, "");
    answers(&["pairs"], &book, "active 0 lowest 64\n");
    answers(&["unpack", "0"], &book, "refused 21 0 4\n");
    answers(
        &["circles-listing"],
        &book,
        "book accepted 1\nt 0 idle\nt 1 idle\nt 2 active\n",
    );
    let stuck = [&book[..], &[1, 0]].concat();
    answers(
        &["circles-listing"],
        &stuck,
        "book accepted 1\nno 1 14\nt 0 idle\nt 1 idle\nt 2 active\n",
    );
    answers(
        &["circles-first-refusal"],
        &stuck,
        "book refused 14 1 13\nt 0 idle\nt 1 idle\nt 2 active\n",
    );
    answers(&["first-refusal"], &stuck, "book refused 21 0 4\n");
    complains(&["circles-first-refusal", "more"], &book);
    let output = run(&["circles-opening"], &stuck);
    assert!(output.status.success());
    assert_eq!(output.stdout, book);
    answers(&["circles-listing"], &[], "book refused 2 0 0\n");
    answers(&["circles-opening"], &[9], "");
    answers(&["circles-listing"], &[1; 70_000], "book refused 1 0 0\n");
    complains(&["circles-unpack"], &book);
    complains(&["circles-write"], b"1 0 0 0 0");
    complains(&["circles-listing", "more"], &book);
}

#[test]
fn unpack() {
    let lines = LISTED_FIELDS.replace(' ', "\n");
    let unpacked = format!("unpacked 24\n{lines}\n");
    answers(&["unpack"], &LISTED, &unpacked);
    answers(&["unpack", "24"], &LISTED, &unpacked);
    answers(&["unpack", "99999999999"], &LISTED, &unpacked);
    answers(&["unpack", "23"], &LISTED, "refused 19 7 0\n");
    answers(&["unpack", "0"], &LISTED[..23], "refused 2 6 23\n");
}

#[test]
fn write() {
    let written = "written 24\n01 01 02 01 01 00 01 00 01 01 01 04 \
                   04 01 00 01 05 01 04 00 02 01 03 00\n";
    answers(&["write"], LISTED_FIELDS.as_bytes(), written);
    answers(&["write", "24"], LISTED_FIELDS.as_bytes(), written);
    answers(
        &["write", "23"],
        LISTED_FIELDS.as_bytes(),
        "refused 19 7 0\n",
    );
    answers(&["write"], b" \n", "refused 2 0 0\n");
    answers(&["write"], b"1\t0 0\n0 0\n65535", "refused 7 0 5\n");
    answers(&["write"], b"1 0 0 0 0 65536", "refused 3 0 5\n");
    answers(&["write"], b"1 0 0 0 0 4294967295", "refused 3 0 5\n");
}

#[test]
fn edition_2() {
    let fields = "2 0 1 1 0 1 0 4 0 0 1 2097151";
    let written = "written 14\n02 00 01 01 00 01 00 04 00 00 01 FF FF 7F\n";
    answers(&["write"], fields.as_bytes(), written);
    let book = [2, 0, 1, 1, 0, 1, 0, 4, 0, 0, 1, 0xFF, 0xFF, 0x7F];
    let listing = "book accepted 2\nt 0 active\nop 0 0 write 0 active 2097151\n";
    answers(&["listing"], &book, listing);
    let unpacked = fields.replace(' ', "\n");
    answers(&["unpack"], &book, &format!("unpacked 12\n{unpacked}\n"));
}

#[test]
fn mend() {
    let mended = "mended 28 7 0 2\n01 01 02 01 01 00 01 00 01 01 01 04 \
                  04 01 00 01 05 01 04 00 02 01 03 00 01 03 02 03\n";
    answers(&["mend"], &LISTED, mended);
    answers(&["mend", "28"], &LISTED, mended);
    answers(&["mend", "27"], &LISTED, "refused 19 7 0\n");
    let settled = [&LISTED[..], &[1, 3, 2, 3]].concat();
    answers(&["mend"], &settled, "own 9\n");
    answers(&["mend", "0"], &settled, "own 9\n");
    let torn = [1, 0, 0, 0, 0, 4];
    answers(&["mend"], &torn, "mended 5 0 1 0\n01 00 00 00 00\n");
    answers(&["mend"], &[], "refused 2 0 0\n");
    answers(&["mend"], &[1; 70_000], "refused 1 0 0\n");
    complains(&["mend", "many"], &LISTED);
}

#[test]
fn figures() {
    let folder = folder("figures");
    let file = |name: &str, book: &[u8]| {
        let file = folder.join(name);
        fs::write(&file, book).unwrap();
        file.into_os_string().into_string().unwrap()
    };
    let listed = file("listed", &LISTED);
    let put_back = file("put back", &[1, 1, 1, 0, 0, 0, 1, 0, 3, 0]);
    let long = file("long", &[1; 70_000]);
    answers(&["figures"], &[], "figures 0 0 0 0 0 0 share 0 1\n");
    let all = ["figures", &listed, &put_back, &long, &put_back];
    answers(&all, &[], "figures 4 1 3 0 2 1 share 2 3\n");
    let mut too_many = vec!["figures"; 1];
    too_many.extend(vec![&put_back[..]; 1002]);
    let line = "refused 23\nrefused 23\nfigures 1000 0 1000 0 1000 0 share 1 1\n";
    answers(&too_many, &[], line);
    complains(&["figures", &listed, "no/such/file"], &[]);
}

#[test]
fn left() {
    answers(&["left"], &LISTED, "left 2\n");
    answers(&["left"], &LISTED[..23], "left 3\n");
    answers(&["left"], &[7], "left 0\n");
    complains(&["left", "more"], &LISTED);
}

#[test]
fn replay() {
    // Plain 1 writes a and commits, then plain 0 does.
    let book = [
        1, 0, 2, 1, 0, 1, 0, 1, 1, 4, 1, 0, 1, 2, 1, 4, 0, 0, 1, 2, 0,
    ];
    answers(&["replay"], &book, "replay 1 0\n");
    answers(&["replay", "2"], &book, "replay 1 0\n");
    answers(&["replay", "1"], &book, "refused 19 6 0\n");
    answers(&["replay", "1"], &book[..20], "replay 1\n");
    answers(&["replay", "0"], &LISTED, "replay\n");
    answers(&["replay", "0"], &[7], "replay\n");
    complains(&["replay", "many"], &LISTED);
    complains(&["replay", "1", "2"], &LISTED);
}

#[test]
fn moves() {
    let folder = folder("moves");
    let plan = |name: &str, text: &[u8]| {
        let file = folder.join(name);
        fs::write(&file, text).unwrap();
        file.to_str().unwrap().to_string()
    };
    let week = plan("week", b"move Week 46\nstep names\nstep labels\nlist 1A\n");
    answers(
        &["moves", &week],
        &LISTED,
        "left 2\nlist 1A still open\nmove Week 46: begin the undo of names\n",
    );
    answers(&["moves", &week], &LISTED[..23], "book refused 2 6 23\n");
    let no_move = plan("no-move", b"list 1A\n");
    answers(&["moves", &no_move], &LISTED, "plan refused 28 0 0\n");
    let empty = plan("empty", b"");
    answers(&["moves", &empty], &LISTED, "left 2\n");

    let bad = plan("bad", b"move Week 46\n\nsteps names\n");
    complains(&["moves", &bad], &LISTED);
    let message = run(&["moves", &bad], &LISTED).stderr;
    assert!(String::from_utf8_lossy(&message).contains("line 3 "));
    let too_long = plan("too-long", &[b'#'; 65_537]);
    complains(&["moves", &too_long], &LISTED);
    complains(&["moves", "no/such/plan"], &LISTED);
    complains(&["moves"], &LISTED);
}

#[test]
fn listings_of_a_folder() {
    let folder = folder("listings");
    fs::write(folder.join("b"), [1, 0, 0, 0, 0]).unwrap();
    fs::write(folder.join("a"), []).unwrap();
    fs::write(folder.join("B"), [1, 0, 1, 0, 0]).unwrap();
    fs::create_dir(folder.join("c")).unwrap();
    answers(
        &["listings", folder.to_str().unwrap()],
        &[],
        "== B\nbook accepted 0\nt 0 idle\n== a\nbook refused 2 0 0\n== b\nbook accepted 0\n",
    );
}

#[test]
fn measure() {
    let file = folder("measure").join("listed");
    fs::write(&file, LISTED).unwrap();
    let output = run(&["measure", file.to_str().unwrap(), "10"], &[]);
    let line = String::from_utf8(output.stdout).unwrap();
    let words: Vec<&str> = line.split_whitespace().collect();
    assert_eq!(words[0], "ns_per_event");
    assert!(words[1].parse::<f64>().unwrap() > 0.0);
    assert_eq!(words[2..], ["events", "7", "reads", "10"]);
}

#[test]
fn bad_input_to_the_tool() {
    complains(&[], &[]);
    complains(&["listing", "more"], &LISTED);
    complains(&["sagabook"], &LISTED);
    complains(&["unpack", "many"], &LISTED);
    complains(&["unpack", ""], &LISTED);
    complains(&["unpack", "+5"], &LISTED);
    complains(&["unpack", "99999999999999999999999"], &LISTED);
    complains(&["write"], b"1 0 0 0 x");
    complains(&["write"], b"1 0 0 0 4294967296");
    complains(&["write"], b"1 0 0 0 +0");
    complains(&["write"], b"1 0 0 0 -1");
    complains(&["write"], &[0xFF, 0xFE]);
    complains(&["listings"], &[]);
    complains(&["listings", "no/such/folder"], &[]);
    complains(&["measure", "no/such/file", "3"], &[]);
    let file = folder("bad").join("listed");
    fs::write(&file, LISTED).unwrap();
    complains(&["measure", file.to_str().unwrap(), "0"], &[]);
}

#[test]
fn closed_standard_output() {
    // Plain 0 and 1 hand a write to and fro; the answer is longer than a pipe
    // holds, so it can't be gone before anybody notices that nobody reads it.
    let begun = [1, 0, 2, 1, 0, 1, 0, 1, 1, 4, 0, 0, 1];
    let handed_to_and_fro = [5, 0, 1, 0, 5, 1, 0, 0].repeat(8_000);
    let mut child = program()
        .arg("unpack")
        .stdin(Stdio::piped())
        .stdout(Stdio::piped())
        .stderr(Stdio::piped())
        .spawn()
        .unwrap();
    drop(child.stdout.take());
    let book = [&begun[..], &handed_to_and_fro].concat();
    child.stdin.take().unwrap().write_all(&book).unwrap();
    let output = child.wait_with_output().unwrap();
    let message = String::from_utf8_lossy(&output.stderr);
    assert_eq!(output.status.code(), Some(1));
    assert!(message.starts_with("second: standard output"), "{message}");
}
