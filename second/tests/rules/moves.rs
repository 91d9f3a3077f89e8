//! The record move: plans as staff write them and as they are held, what is
//! refused about them, and the lines that the kitchen reads.

use crate::books::{Book, LISTED};
use second::{move_lines, outstanding, read, NotRead, Plan};

/// What the kitchen reads for a plan that is understood.
fn shown(text: &str, book: &Book) -> String {
    lines_of(&Plan::from_text(text.as_bytes()).unwrap(), book)
}

/// The line of a refusal; else the lines below the first, which says how much
/// is left.
fn lines_of(plan: &Plan, book: &Book) -> String {
    let lines = String::from_utf8(move_lines(plan, &book.0)).unwrap();
    if lines.starts_with("plan refused ") || lines.starts_with("book refused ") {
        return lines;
    }
    let reading = read(&book.0);
    let left: usize = (0..16).map(|saga| outstanding(&reading, saga)).sum();
    let below = lines.strip_prefix(&format!("left {left}\n"));
    below.expect(&lines).to_string()
}

/// No saga at all.
fn no_sagas() -> Book {
    Book::new(&[], 0, 0, &[])
}

/// S 0, steps 1 to 3, undos 4 and 5.
fn saga_of_three() -> Book {
    Book::new(&[3], 0, 0, &[])
}

const THREE_STEPS: &str = "move Week 46\nstep names\nstep diets\nstep labels\nlist 1A\n";

fn plan(names: &[&str], steps: &[u16], lists: &[u16]) -> Plan {
    let ends = (1..=names.len()).map(|count| names[..count].concat().len());
    Plan {
        names: names.concat().into_bytes(),
        ends: ends.collect(),
        steps: steps.to_vec(),
        lists: lists.to_vec(),
    }
}

#[track_caller]
fn reads_as(text: &str, names: &[&str], steps: &[u16], lists: &[u16]) {
    let expected = plan(names, steps, lists);
    assert_eq!(Plan::from_text(text.as_bytes()), Ok(expected), "{text:?}");
}

#[track_caller]
fn stumbles_at(line: usize, text: &[u8]) {
    let shown = String::from_utf8_lossy(text);
    let found = Plan::from_text(text);
    assert_eq!(found, Err(NotRead::Line(line)), "{shown:?}");
}

#[test]
fn moves_steps_and_lists_by_name() {
    let text = "move A\nstep a1\nlist one\nstep a2\nmove B\nlist two\nlist three\nstep b1\n";
    let names = ["A", "a1", "a2", "B", "b1", "one", "two", "three"];
    reads_as(text, &names, &[2, 1], &[0, 1, 1]);
    reads_as("", &[], &[], &[]);
}

#[test]
fn the_last_line_may_lack_its_line_feed() {
    reads_as("move A\nlist one", &["A", "one"], &[0], &[0]);
    stumbles_at(2, b"move A\nlist");
}

#[test]
fn margins_count_for_nothing() {
    let text = " move A \n\tstep a\t\n\r \tlist one\t \r\r\n";
    reads_as(text, &["A", "a", "one"], &[1], &[0]);
}

#[test]
fn empty_lines_and_remarks_are_passed_over() {
    let text = "\n# a remark\n \t\r\n  #move X\nmove A\n#\n\r\n####\nlist one\n\n";
    reads_as(text, &["A", "one"], &[0], &[0]);
}

#[test]
fn a_name_goes_to_the_end_of_the_line() {
    let text = "move \t  Week 46  a\tb\r#c \nstep move x\n";
    reads_as(text, &["Week 46  a\tb\r#c", "move x"], &[1], &[]);
    reads_as("move #1\nmove \rA\n", &["#1", "\rA"], &[0, 0], &[]);
}

#[test]
fn names_are_bytes() {
    let plan = Plan::from_text(b"move \xFF\x00\nlist \xC3\n").unwrap();
    let lines = move_lines(&plan, &no_sagas().0);
    assert_eq!(
        lines,
        b"left 0\nlist \xC3 still open\nmove \xFF\x00: nothing\n".to_vec()
    );
}

#[test]
fn lines_that_are_not_understood() {
    let lines: [&[u8]; 19] = [
        b"move",
        b"move ",
        b"step\t",
        b"list \r",
        b"moves x",
        b"movex",
        b"mov x",
        b"Move x",
        b"MOVE x",
        b"sTep x",
        b"List x",
        b"x",
        b"x move y",
        b"move\rx",
        b"move\x0Bx",
        b"\x0Bmove x",
        b"\x00",
        b"- move x",
        b"\xEF\xBB\xBFmove x",
    ];
    for line in lines {
        stumbles_at(1, line);
        stumbles_at(3, &[b"move A\n\n", line, b"\nlist 1A\n"].concat());
    }
}

#[test]
fn the_first_line_that_is_not_understood_is_named() {
    stumbles_at(2, b"move A\nx\nlist\n");
    stumbles_at(1, b"step a\nmove A\nx\n");
    // Nothing is judged then: the list has no move.
    stumbles_at(2, b"list 1A\nmove\n");
}

#[test]
fn a_step_above_the_first_move_is_not_understood_but_a_list_is() {
    stumbles_at(2, b"# moves\nstep a\nmove A\n");
    let text = "list 1A\nmove A\nlist 1B\n";
    reads_as(text, &["A", "1A", "1B"], &[0], &[65_535, 0]);
}

#[test]
fn a_plan_of_too_many_bytes_is_not_read() {
    let longest = [b"move A\n#".to_vec(), vec![b'x'; 65_528]].concat();
    assert_eq!(longest.len(), 65_536);
    assert!(Plan::from_text(&longest).is_ok());
    let longer = [&longest[..], b"\n"].concat();
    assert_eq!(Plan::from_text(&longer), Err(NotRead::TooLong));
    let longer = [b"x\n", &longest[..]].concat();
    assert_eq!(Plan::from_text(&longer), Err(NotRead::TooLong));
}

#[test]
fn names_that_end_nowhere_mean_something() {
    let mut held = plan(&["ab", "cd", "ef"], &[0, 0], &[1]);
    let book = no_sagas();
    assert_eq!(
        lines_of(&held, &book),
        "list ef still open\nmove ab: nothing\nmove cd: nothing\n"
    );
    // Past the last byte: the last byte. Before the begin: an empty name, and
    // the next one begins there.
    held.ends = vec![4, 1, 99];
    assert_eq!(
        lines_of(&held, &book),
        "list bcdef still open\nmove abcd: nothing\nmove : nothing\n"
    );
    // A begin past the last byte.
    held.ends = vec![99, 100, 101];
    assert_eq!(
        lines_of(&held, &book),
        "list  still open\nmove abcdef: nothing\nmove : nothing\n"
    );
    // No end is given: it ends at the very front.
    held.ends = vec![2];
    assert_eq!(
        lines_of(&held, &book),
        "list  still open\nmove ab: nothing\nmove : nothing\n"
    );
    held.names.clear();
    held.ends.clear();
    assert_eq!(
        lines_of(&held, &book),
        "list  still open\nmove : nothing\nmove : nothing\n"
    );
    // Bytes behind the last name belong to none.
    held = plan(&["A", "one"], &[0], &[0]);
    held.names.extend([b'x'; 40]);
    held.ends.push(44);
    assert_eq!(
        lines_of(&held, &book),
        "list one still open\nmove A: nothing\n"
    );
}

/// One move with so many steps and lists, and names of so many bytes.
fn sized(steps: usize, lists: usize, name: usize) -> String {
    let name = "n".repeat(name);
    let steps = format!("step {name}\n").repeat(steps);
    let lists = format!("list {name}\n").repeat(lists);
    format!("move {name}\n{steps}{lists}")
}

fn is_refused(text: &str, number: u8) -> bool {
    shown(text, &no_sagas()) == format!("plan refused {number} 0 0\n")
}

#[test]
fn each_limit() {
    for (steps, lists, name) in [(15, 29, 23), (16, 30, 24), (0, 0, 1)] {
        let lines = shown(&sized(steps, lists, name), &no_sagas());
        assert_eq!(lines.lines().count(), lists + 1);
    }
    assert!(is_refused(&sized(17, 0, 1), 25));
    assert!(is_refused(&sized(0, 31, 1), 26));
    assert!(is_refused(&sized(0, 0, 25), 27));
    assert!(is_refused(&sized(0, 0, 65_000), 27));
    let long = "n".repeat(25);
    assert!(is_refused(&format!("move A\nstep {long}\n"), 27));
    assert!(is_refused(&format!("move A\nlist {long}\n"), 27));
    assert!(is_refused("list 1A\n", 28));
    assert!(is_refused("list 1A\nmove A\n", 28));
}

#[test]
fn steps_are_counted_for_each_move_and_lists_for_the_plan() {
    let two_moves = sized(16, 15, 1).repeat(2);
    assert_eq!(shown(&two_moves, &no_sagas()).lines().count(), 32);
    let one_list_more = two_moves.clone() + "list 31\n";
    assert!(is_refused(&one_list_more, 26));
    let one_step_more = two_moves + "step 17\n";
    assert!(is_refused(&one_step_more, 25));
    let in_the_first = sized(17, 0, 1) + "move B\n";
    assert!(is_refused(&in_the_first, 25));
}

#[test]
fn each_number_is_judged_over_the_whole_plan_before_the_next() {
    let no_move = "list 1A\n";
    let long_name = format!("move {}\n", "n".repeat(25));
    let lists = "list 1B\n".repeat(31);
    let steps = "step a\n".repeat(17);
    assert!(is_refused(&format!("{no_move}{long_name}"), 27));
    assert!(is_refused(&format!("{no_move}{long_name}{lists}"), 26));
    assert!(is_refused(
        &format!("{no_move}{long_name}{lists}{steps}"),
        25
    ));
}

#[test]
fn a_list_belongs_to_a_move_that_is_there() {
    let book = no_sagas();
    let of_the_last = plan(&["A", "B", "one"], &[0, 0], &[1]);
    let of_no_move = plan(&["A", "B", "one"], &[0, 0], &[2]);
    assert_eq!(
        lines_of(&of_the_last, &book),
        "list one still open\nmove A: nothing\nmove B: nothing\n"
    );
    assert_eq!(lines_of(&of_no_move, &book), "plan refused 28 0 0\n");
}

#[test]
fn the_plan_is_judged_before_the_book() {
    let torn = Book(vec![1]);
    assert_eq!(shown("list 1A\n", &torn), "plan refused 28 0 0\n");
    assert_eq!(shown(THREE_STEPS, &torn), "book refused 2 0 1\n");
}

#[test]
fn a_refused_book_is_the_whole_answer() {
    let book = saga_of_three().begin(0).then(&[9]);
    assert_eq!(shown(THREE_STEPS, &book), "book refused 7 1 8\n");
    assert_eq!(shown("", &book), "book refused 7 1 8\n");
    let never_moving = Book::new(&[], 2, 0, &[[0, 1, 4], [1, 0, 4]]);
    assert_eq!(shown("", &never_moving), "book refused 21 0 4\n");
    let too_long = Book(vec![1; 65_537]);
    assert_eq!(shown("", &too_long), "book refused 1 0 0\n");
}

#[test]
fn a_refused_event_refuses_no_book() {
    let begun = saga_of_three().begin(0);
    let refused = begun.clone().begin(2);
    assert_eq!(shown(THREE_STEPS, &refused), shown(THREE_STEPS, &begun));
    let put_back = refused.abort(0);
    let lines = "list 1A put back\nmove Week 46: nothing\n";
    assert_eq!(shown(THREE_STEPS, &put_back), lines);
    let torn = put_back.then(&[1]);
    assert_eq!(shown(THREE_STEPS, &torn), "book refused 2 2 13\n");
}

#[test]
fn each_standing_of_a_move() {
    let begun = saga_of_three().begin(0);
    let two_done = begun.clone().done(1).done(2);
    let given_up = two_done.clone().abort(0);
    let cases = [
        (saga_of_three(), "still open", "nothing"),
        (begun.clone(), "still open", "abort the move"),
        (begun.clone().begin(1), "still open", "abort the move"),
        (two_done.clone(), "still open", "abort the move"),
        (two_done.clone().done(3), "still open", "commit the move"),
        (two_done.clone().done(3).commit(0), "moved", "nothing"),
        (
            two_done.begin(3).abort(0),
            "still open",
            "abort the step labels",
        ),
        (
            begun.clone().begin(1).abort(0),
            "still open",
            "abort the step names",
        ),
        (given_up.clone(), "still open", "begin the undo of diets"),
        (
            given_up.clone().begin(5),
            "still open",
            "commit the undo of diets",
        ),
        (
            given_up.clone().done(5),
            "still open",
            "begin the undo of names",
        ),
        (
            given_up.clone().done(5).begin(4),
            "still open",
            "commit the undo of names",
        ),
        (given_up.done(5).done(4), "put back", "nothing"),
        (begun.abort(0), "put back", "nothing"),
    ];
    for (book, fate, to_do) in cases {
        let expected = format!("list 1A {fate}\nmove Week 46: {to_do}\n");
        assert_eq!(shown(THREE_STEPS, &book), expected, "{:?}", book.0);
    }
}

#[test]
fn steps_that_the_plan_does_not_name_go_by_number() {
    let given_up = saga_of_three().begin(0).done(1).done(2).abort(0);
    let one_step = "move A\nstep names\nmove B\nstep other\n";
    assert_eq!(
        shown(one_step, &given_up),
        "move A: begin the undo of step 2\nmove B: nothing\n"
    );
    assert_eq!(
        shown(one_step, &given_up.clone().done(5)),
        "move A: begin the undo of names\nmove B: nothing\n"
    );
    assert_eq!(
        shown("move A\n", &given_up.done(5)),
        "move A: begin the undo of step 1\n"
    );
    let last_step_active = saga_of_three().begin(0).done(1).done(2).begin(3).abort(0);
    assert_eq!(
        shown("move A\nstep a\nstep b\n", &last_step_active),
        "move A: abort the step step 3\n"
    );
}

#[test]
fn more_moves_than_sagas_and_fewer() {
    // S 0 with T1 1, and S 2 with T1 3; the first is done, the second is left.
    let book = Book::new(&[1, 1], 0, 0, &[]);
    let book = book.begin(0).done(1).commit(0).begin(2);
    let three = "move A\nlist 1A\nmove B\nlist 1B\nmove C\nlist 1C\n";
    assert_eq!(
        shown(three, &book),
        "list 1A moved\nlist 1B still open\nlist 1C still open\n\
         move A: nothing\nmove B: abort the move\nmove C: nothing\n"
    );
    assert_eq!(shown("move A\n", &book), "move A: nothing\n");
    assert_eq!(shown("", &book), "");
}

#[test]
fn lists_come_first_and_in_the_order_of_the_plan() {
    let book = Book::new(&[1, 1], 0, 0, &[]).begin(0).done(1).commit(0);
    let held = plan(&["A", "B", "one", "two", "three"], &[0, 0], &[1, 0, 1]);
    assert_eq!(
        lines_of(&held, &book),
        "list one still open\nlist two moved\nlist three still open\n\
         move A: nothing\nmove B: nothing\n"
    );
}

#[test]
fn the_book_of_the_rules() {
    let text = "move Week 46\nstep names\nstep labels\nlist 1A\nlist 1B\n";
    assert_eq!(
        shown(text, &Book(LISTED.to_vec())),
        "list 1A still open\nlist 1B still open\nmove Week 46: begin the undo of names\n"
    );
}
