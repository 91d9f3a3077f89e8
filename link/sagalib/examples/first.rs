use sagalib::{Desk, Event, Mark, Refusal, Way, read};

fn main() {
    // a book of edition 1 with no moves, one clerk and one object, and no events so far
    let tables = [1, 0, 1, 1, 0];
    let (mut desk, opened) = Desk::open(&tables, Way::READ_ON);
    assert_eq!(opened.map(|answer| answer.events), Ok(0));

    // asked before it is written: nothing may be changed before the clerk has begun
    let change = Event::Operation(0, 0, Mark::Write, 0);
    assert_eq!(desk.ask(change), Err(Refusal::NotActive));
    assert_eq!(desk.take(Event::Begin(0)), Ok(()));
    assert_eq!(desk.take(change), Ok(()));
    assert_eq!(desk.tally().accepted, 2);

    // the same two events behind the tables, in bytes
    let book = [1, 0, 1, 1, 0, 1, 0, 4, 0, 0, 1];
    assert_eq!(
        read(&book, Way::TO_FIRST_REFUSAL).map(|answer| answer.events),
        Ok(2)
    );
    // and broken off in the last one
    let torn = read(&book[..10], Way::READ_ON).unwrap_err();
    assert_eq!((torn.refusal, torn.place), (Refusal::Torn, 10));
}
