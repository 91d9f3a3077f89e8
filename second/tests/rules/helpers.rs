//! Helpers under a clerk: spawn, and what becomes of their commits.

use crate::books::{pairs, Book, READ, WRITE};
use second::{listing, read};

/// Clerk 0 at work, with so many further plain transactions idle.
fn clerk(further: u8, objects: u8) -> Book {
    Book::new(&[], 1 + further, objects, &[]).begin(0)
}

#[track_caller]
fn accepted(book: &Book) -> String {
    assert_eq!(book.number(), 0);
    listing(&book.0)
}

#[test]
fn a_helper_is_active_and_hands_its_work_to_the_clerk() {
    let book = clerk(1, 2)
        .spawn(0, 1)
        .operate(1, 0, WRITE)
        .operate(0, 1, READ);
    let at_work = "book accepted 4\nt 0 active\nt 1 active\n\
                   op 0 0 write 1 active\nop 1 1 read 0 active\n";
    assert_eq!(accepted(&book), at_work);
    let handed = book.commit(1);
    let lines = "book accepted 5\nt 0 active\nt 1 committed\n\
                 op 0 0 write 0 active\nop 1 1 read 0 active\n";
    assert_eq!(accepted(&handed), lines);
    let kept = handed.clone().commit(0);
    let lines = "book accepted 6\nt 0 committed\nt 1 committed\n\
                 op 0 0 write 0 committed\nop 1 1 read 0 committed\n";
    assert_eq!(accepted(&kept), lines);
    let dropped = handed.abort(0);
    let lines = "book accepted 6\nt 0 aborted\nt 1 committed\n\
                 op 0 0 write 0 aborted\nop 1 1 read 0 aborted\n";
    assert_eq!(accepted(&dropped), lines);
}

#[test]
fn a_helper_that_gives_up_ends_its_own_work() {
    let book = clerk(1, 1).spawn(0, 1).operate(1, 0, WRITE).abort(1);
    let lines = "book accepted 4\nt 0 active\nt 1 aborted\nop 0 0 write 1 aborted\n";
    assert_eq!(accepted(&book), lines);
    assert_eq!(book.commit(0).number(), 0);
}

#[test]
fn spawn_is_refused_in_each_way() {
    // S 0, T1 1, T2 2, C1 3, plain 4 to 7; 7 begins only when 6 has ended.
    let book = Book::new(&[2], 4, 0, &[[7, 6, 5]]).begin(0).begin(4);
    for (parent, child) in [(8, 5), (4, 8), (64, 64), (0, 8)] {
        book.clone().spawn(parent, child).refuses_last(8, 3);
    }
    for (parent, child) in [
        (0, 5),
        (1, 5),
        (3, 5),
        (4, 0),
        (4, 1),
        (4, 2),
        (4, 3),
        (1, 1),
    ] {
        book.clone().spawn(parent, child).refuses_last(9, 3);
    }
    let ended = book.clone().begin(5).begin(6).commit(5).abort(6);
    for child in [4, 5, 6] {
        ended.clone().spawn(4, child).refuses_last(10, 3);
        ended.clone().spawn(5, child).refuses_last(10, 3);
    }
    book.clone().spawn(5, 6).refuses_last(11, 3);
    book.clone().spawn(5, 5).refuses_last(11, 3);
    ended.clone().spawn(5, 7).refuses_last(11, 3);
    ended.clone().spawn(6, 7).refuses_last(11, 3);
    book.clone().spawn(4, 7).refuses_last(14, 3);
    book.clone().spawn(5, 7).refuses_last(11, 3);
    assert_eq!(ended.spawn(4, 7).number(), 0);
    let broken_off = book.then(&[8, 4]);
    assert_eq!(
        (broken_off.number(), broken_off.read().place),
        (2, broken_off.0.len())
    );
}

#[test]
fn each_begin_kind_is_judged_at_the_spawn() {
    for (kind, idle, active, committed, aborted) in [
        (1, 0, 0, 0, 0),
        (2, 0, 0, 0, 0),
        (3, 0, 0, 0, 0),
        (4, 14, 0, 0, 0),
        (5, 14, 14, 0, 0),
        (6, 14, 14, 0, 14),
        (7, 14, 14, 14, 0),
    ] {
        let book = Book::new(&[], 3, 0, &[[2, 1, kind]]).begin(0);
        let begun = book.clone().begin(1);
        assert_eq!(book.spawn(0, 2).number(), idle, "{kind}");
        assert_eq!(begun.clone().spawn(0, 2).number(), active, "{kind}");
        assert_eq!(
            begun.clone().commit(1).spawn(0, 2).number(),
            committed,
            "{kind}"
        );
        assert_eq!(begun.abort(1).spawn(0, 2).number(), aborted, "{kind}");
    }
}

#[test]
fn a_helper_commits_by_its_declared_kinds() {
    let book = |kind| {
        let book = Book::new(&[], 3, 0, &[[2, 1, kind]]).begin(0);
        book.begin(1).spawn(0, 2)
    };
    book(1).commit(2).refuses_last(14, 2);
    book(2).commit(2).refuses_last(14, 2);
    assert_eq!(book(3).commit(2).number(), 0);
    book(2).abort(1).commit(2).refuses_last(14, 2);
    book(3).abort(1).commit(2).refuses_last(14, 2);
    assert_eq!(book(1).abort(1).commit(2).number(), 0);
}

#[test]
fn a_clerk_waits_for_the_helpers_right_below() {
    let book = clerk(2, 0).spawn(0, 1).spawn(0, 2);
    book.clone().commit(0).refuses_last(14, 2);
    book.clone().commit(1).commit(0).refuses_last(14, 2);
    book.clone().abort(2).commit(0).refuses_last(14, 2);
    assert_eq!(book.clone().commit(1).abort(2).commit(0).number(), 0);
    assert_eq!(book.abort(0).number(), 0, "giving up waits for nobody");
}

#[test]
fn a_helper_of_a_clerk_who_has_given_up_can_only_give_up() {
    let book = clerk(1, 1).spawn(0, 1).operate(1, 0, WRITE).abort(0);
    book.clone().commit(1).refuses_last(14, 2);
    let lines = "book accepted 4\nt 0 aborted\nt 1 active\nop 0 0 write 1 active\n";
    assert_eq!(accepted(&book), lines);
    assert_eq!(book.clone().operate(1, 0, READ).number(), 0);
    assert_eq!(book.clone().abort_operation(1, 0).number(), 0);
    assert_eq!(book.abort(1).number(), 0);
}

#[test]
fn three_deep() {
    let book = clerk(2, 1).spawn(0, 1).spawn(1, 2).operate(2, 0, WRITE);
    book.clone().commit(1).refuses_last(14, 2);
    book.clone().commit(0).refuses_last(14, 2);
    let to_the_helper = book.clone().commit(2);
    assert!(accepted(&to_the_helper).contains("op 0 0 write 1 active\n"));
    let to_the_clerk = to_the_helper.commit(1);
    assert!(accepted(&to_the_clerk).contains("op 0 0 write 0 active\n"));
    let kept = accepted(&to_the_clerk.commit(0));
    assert!(kept.contains("op 0 0 write 0 committed\n"));
    // The one in the middle gives up: the grandchild bars nobody and is alone.
    let alone = book.abort(1);
    alone.clone().commit(2).refuses_last(14, 2);
    let clerk_is_done = alone.clone().commit(0);
    assert!(accepted(&clerk_is_done).contains("t 2 active\n"));
    assert_eq!(clerk_is_done.abort(2).number(), 0);
    assert_eq!(alone.abort(2).commit(0).number(), 0);
}

#[test]
fn dirty_reads_and_rings_are_the_clerks_matter() {
    // 2 writes; the helper 1 reads it: the helper commits, the clerk may not.
    let dirty = clerk(2, 2).begin(2).spawn(0, 1);
    let dirty = dirty.operate(2, 0, WRITE).operate(1, 0, READ).commit(1);
    dirty.clone().commit(0).refuses_last(15, 2);
    assert_eq!(dirty.clone().commit(2).commit(0).number(), 0);
    dirty.abort(2).commit(0).refuses_last(15, 2);
    // The helper and 2 write each other's lists.
    let ring = clerk(2, 2).begin(2).spawn(0, 1);
    let ring = ring.operate(1, 0, WRITE).operate(2, 0, WRITE);
    let ring = ring.operate(2, 1, WRITE).operate(1, 1, WRITE);
    ring.clone().commit(2).refuses_last(16, 2);
    let handed = ring.commit(1);
    assert_eq!(pairs(&handed), [(0, 2), (2, 0)]);
    handed.clone().commit(0).refuses_last(16, 2);
    assert_eq!(handed.abort(2).commit(0).number(), 0);
}

#[test]
fn what_the_helper_read_of_the_clerks_is_clean_once_handed_on() {
    let book = clerk(1, 1).spawn(0, 1);
    let book = book.operate(0, 0, WRITE).operate(1, 0, READ);
    assert_eq!(pairs(&book), [(0, 1)]);
    let handed = book.commit(1);
    assert_eq!(pairs(&handed), []);
    assert_eq!(handed.commit(0).number(), 0);
}

#[test]
fn single_commits_by_helpers_are_never_done() {
    let book = clerk(1, 1).spawn(0, 1).operate(1, 0, WRITE);
    book.clone().commit_operation(1, 0).refuses_last(9, 3);
    book.clone().commit_operation(1, 1).refuses_last(8, 3);
    book.clone()
        .abort(1)
        .commit_operation(1, 0)
        .refuses_last(9, 3);
    let others = book.clone().operate(0, 0, WRITE);
    others.commit_operation(1, 1).refuses_last(9, 3);
    let dropped = book.clone().abort_operation(1, 0);
    assert!(accepted(&dropped).contains("op 0 0 write 1 aborted\n"));
    dropped.clone().commit_operation(1, 0).refuses_last(9, 3);
    dropped.abort_operation(1, 0).refuses_last(20, 3);
    // The clerk may keep what the helper handed on.
    assert_eq!(book.commit(1).commit_operation(0, 0).number(), 0);
}

#[test]
fn what_was_dropped_stays_with_the_helper() {
    let book = clerk(1, 2).spawn(0, 1);
    let book = book.operate(1, 0, WRITE).operate(1, 1, WRITE);
    let handed = book.abort_operation(1, 0).commit(1);
    let lines = accepted(&handed);
    assert!(lines.contains("op 0 0 write 1 aborted\n"));
    assert!(lines.contains("op 1 1 write 0 active\n"));
}

#[test]
fn helpers_give_and_receive() {
    let book = clerk(2, 1).begin(2).spawn(0, 1).operate(2, 0, WRITE);
    // 2 hands to the helper, whose commit hands that on to the clerk.
    let given = book.clone().delegate(2, 1, 0);
    assert!(accepted(&given.clone().commit(1)).contains("op 0 0 write 0 active\n"));
    // The helper hands to a stranger: nothing is left for the clerk.
    let stranger = given.delegate(1, 2, 0).commit(1);
    assert!(accepted(&stranger).contains("op 0 0 write 2 active\n"));
    // The clerk hands to the helper, who gives up.
    let own = book.operate(0, 0, READ).delegate(0, 1, 1).abort(1);
    assert!(accepted(&own).contains("op 1 0 read 1 aborted\n"));
}

#[test]
fn a_helper_may_spawn_and_one_is_spawned_once() {
    let book = clerk(3, 0).spawn(0, 1).spawn(1, 2);
    book.clone().spawn(0, 2).refuses_last(10, 3);
    book.clone().begin(2).refuses_last(10, 2);
    assert_eq!(book.spawn(2, 3).number(), 0);
}

/// S 0, T1 1, T2 2, C1 3 and plain 4 to 7: 4 stands before the active undo by
/// way of 5, and the undo has written object 2.
fn undo_after_4() -> Book {
    Book::new(&[2], 4, 4, &[])
        .begin(0)
        .done(1)
        .abort(0)
        .begin(4)
        .begin(5)
        .operate(4, 0, READ)
        .operate(5, 0, WRITE)
        .operate(5, 1, WRITE)
        .commit(5)
        .begin(3)
        .operate(3, 1, READ)
        .operate(3, 2, WRITE)
}

#[test]
fn a_helpers_commit_that_would_bar_an_undo() {
    // A helper of 4 writes what the undo wrote.
    let book = undo_after_4().spawn(4, 6).operate(6, 2, WRITE);
    book.clone().commit(6).refuses_last(22, 2);
    assert_eq!(book.clone().commit(3).commit(6).number(), 0);
    assert_eq!(book.clone().abort_operation(6, 5).commit(6).number(), 0);
    let carried_on = read(&book.clone().commit(6).0);
    assert_eq!(carried_on.state.responsible(5), 6, "it stays where it was");
    // Dirty reads come not before it, and 14 does.
    let with_helper = book.clone().spawn(6, 7);
    with_helper.commit(6).refuses_last(14, 2);
    book.clone().abort(4).commit(6).refuses_last(14, 2);
    // A helper of another does not bar it.
    let other = undo_after_4().begin(7).spawn(7, 6).operate(6, 2, WRITE);
    assert_eq!(other.commit(6).number(), 0);
}

#[test]
fn a_helper_before_the_undo_and_a_clerk_after_it() {
    let book = Book::new(&[2], 4, 4, &[])
        .begin(0)
        .done(1)
        .abort(0)
        .begin(5)
        .begin(7)
        .spawn(7, 4)
        .operate(4, 0, READ)
        .operate(5, 0, WRITE)
        .operate(5, 1, WRITE)
        .commit(5)
        .begin(3)
        .operate(3, 1, READ)
        .operate(3, 2, WRITE)
        .operate(7, 2, WRITE);
    book.clone().commit(4).refuses_last(22, 2);
    assert_eq!(book.clone().abort(4).number(), 0);
    assert_eq!(book.commit(3).commit(4).number(), 0);
}

#[test]
fn a_commit_that_is_refused_hands_nothing_on() {
    let book = clerk(2, 1).spawn(0, 1).spawn(1, 2).operate(1, 0, WRITE);
    let reading = read(&book.commit(1).0);
    assert_eq!(reading.refused_events.len(), 1);
    assert_eq!(reading.state.responsible(0), 1);
}

#[test]
fn what_a_helper_hands_on_ends_with_the_clerk() {
    // A read of what the helper wrote is dirty until the clerk has committed.
    let book = clerk(2, 1).begin(2).spawn(0, 1).operate(1, 0, WRITE);
    let book = book.commit(1).operate(2, 0, READ);
    book.clone().commit(2).refuses_last(15, 2);
    assert_eq!(book.clone().commit(0).commit(2).number(), 0);
    book.abort(0).commit(2).refuses_last(15, 2);
    // What came after the clerk's end never met it.
    let later = clerk(2, 1).begin(2).spawn(0, 1).operate(1, 0, WRITE);
    let later = later.commit(1).abort(0).operate(2, 0, READ);
    assert_eq!(later.commit(2).number(), 0);
}

#[test]
fn kinds_on_a_helper() {
    // 2 depends on the helper 1: it may commit once the helper has.
    let book = Book::new(&[], 3, 1, &[[2, 1, 2]])
        .begin(0)
        .begin(2)
        .spawn(0, 1);
    book.clone().commit(2).refuses_last(14, 2);
    assert_eq!(book.commit(1).commit(2).number(), 0);
}
