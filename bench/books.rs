//! Writes the books that are measured into a folder: books FOLDER
#![no_main]

use std::{env, fs, path::Path};

/// The most bytes that a book has.
const MOST: usize = 65_536;

/// Tables of plain transactions and objects alone.
fn plain(transactions: u8, objects: u8) -> Vec<u8> {
    vec![1, 0, transactions, objects, 0]
}

fn begin(book: &mut Vec<u8>, t: u8) {
    book.extend([1, t]);
}

fn commit(book: &mut Vec<u8>, t: u8) {
    book.extend([2, t]);
}

fn abort(book: &mut Vec<u8>, t: u8) {
    book.extend([3, t]);
}

/// From 128 on an operation's number takes a second group.
fn commit_operation(book: &mut Vec<u8>, t: u8, operation: u8) {
    book.extend([6, t, operation]);
    if operation >= 128 {
        book.push(1);
    }
}

fn read(book: &mut Vec<u8>, t: u8, object: u8) {
    book.extend([4, t, object, 0]);
}

fn write(book: &mut Vec<u8>, t: u8, object: u8) {
    book.extend([4, t, object, 1]);
}

/// One operation, numbered below 128, goes to and fro between two transactions until the book is full.
fn hand_to_and_fro(book: &mut Vec<u8>, mut giver: u8, mut receiver: u8, operation: u8) {
    while book.len() + 4 <= MOST {
        book.extend([5, giver, receiver, operation]);
        (giver, receiver) = (receiver, giver);
    }
}

/// One write goes to and fro between two transactions until the book is full.
fn delegations() -> Vec<u8> {
    let mut book = plain(2, 1);
    begin(&mut book, 0);
    begin(&mut book, 1);
    write(&mut book, 0, 0);
    hand_to_and_fro(&mut book, 0, 1, 0);
    book
}

/// Every two of 256 writes on one object are tied. No commit is asked for.
fn dense_open() -> Vec<u8> {
    let mut book = plain(64, 1);
    (0..64).for_each(|t| begin(&mut book, t));
    for t in 0..64 {
        (0..4).for_each(|_| write(&mut book, t, 0));
    }
    book
}

/// The same writes; the 64 transactions commit in their order.
fn dense() -> Vec<u8> {
    let mut book = dense_open();
    (0..64).for_each(|t| commit(&mut book, t));
    book
}

/// The same writes, but the transactions take turns, so that each stands before each other: the first commit is refused by 16.
fn ring() -> Vec<u8> {
    let mut book = plain(64, 1);
    (0..64).for_each(|t| begin(&mut book, t));
    for _ in 0..4 {
        (0..64).for_each(|t| write(&mut book, t, 0));
    }
    commit(&mut book, 0);
    book
}

/// The same book with a commit behind it that is refused: its price is the time of this book less that of the book without it.
fn refused(mut book: Vec<u8>, t: u8) -> Vec<u8> {
    commit(&mut book, t);
    book
}

/// The same book with refused commits behind it until it is full, some 32,000 of them: each has a line of its own in the listing.
fn full_of_refused(mut book: Vec<u8>, t: u8) -> Vec<u8> {
    while book.len() + 2 <= MOST {
        commit(&mut book, t);
    }
    book
}

/// A transaction that never begins commits 32,765 times; each is refused by 11.
fn never_begun() -> Vec<u8> {
    full_of_refused(plain(1, 0), 0)
}

/// 32 rings: two transactions write each object by turns, 8 times in all. No commit is asked for.
fn rings() -> Vec<u8> {
    let mut book = plain(64, 32);
    (0..64).for_each(|t| begin(&mut book, t));
    for _ in 0..4 {
        (0..64).for_each(|t| write(&mut book, t, t / 2));
    }
    book
}

/// Each of these stands before the next, but the last two did their work first and the first two last: whoever goes through the
/// operations in their order finds one transaction more each time.
fn chain(book: &mut Vec<u8>, first: u8, last: u8, object: u8) {
    for t in (first..last).rev() {
        read(book, t, object);
        write(book, t + 1, object);
    }
}

/// All 64 at work: 63 stands before 0, and from 0, with so many writes, a chain leads to 62. 62 has read object 2 before all else, so
/// that even when it is found at last, the operations have to be gone through once more.
fn chain_of_all(writes: u8) -> Vec<u8> {
    let mut book = plain(64, 3);
    (0..64).for_each(|t| begin(&mut book, t));
    read(&mut book, 62, 2);
    read(&mut book, 63, 1);
    chain(&mut book, 1, 62, 0);
    (0..writes).for_each(|_| write(&mut book, 0, 1));
    write(&mut book, 1, 1);
    book
}

/// 0 keeps its 131 writes one by one and commits, and 63 commits. Each time the chain is followed to its end and doesn't lead back. 1 to
/// 62 couldn't commit: by the object that they share they are on rings.
fn chain_kept() -> Vec<u8> {
    let mut book = chain_of_all(131);
    (124..255).for_each(|q| commit_operation(&mut book, 0, q));
    commit(&mut book, 0);
    commit(&mut book, 63);
    book
}

/// The chain closed to a ring: at last 63 writes the object that 62 has read. No commit is asked for.
fn long_ring() -> Vec<u8> {
    let mut book = chain_of_all(130);
    write(&mut book, 63, 2);
    book
}

/// 16 sagas of 2 steps, each step with 8 writes on an object of its own; all commit.
fn sagas() -> Vec<u8> {
    let mut book = vec![1, 16];
    book.extend([2; 16]);
    book.extend([0, 32, 0]);
    for saga in 0..16 {
        let first = 4 * saga;
        begin(&mut book, first);
        for step in 1..=2 {
            begin(&mut book, first + step);
            (0..8).for_each(|_| write(&mut book, first + step, 2 * saga + step - 1));
            commit(&mut book, first + step);
        }
        commit(&mut book, first);
    }
    book
}

/// 15 undos at work (a 16th would leave no number for a plain transaction), each after a change that 60 has kept and before one of 62;
/// 63 writes until 250 operations are made, and then one write goes to and fro between 60 and 61 until the book is full.
fn undos() -> Vec<u8> {
    let mut book = vec![1, 15];
    book.extend([2; 15]);
    book.extend([4, 32, 0]);
    (60..64).for_each(|t| begin(&mut book, t));
    for saga in 0..15 {
        let first = 4 * saga;
        begin(&mut book, first);
        begin(&mut book, first + 1);
        commit(&mut book, first + 1);
        abort(&mut book, first);
        write(&mut book, 60, saga);
        commit_operation(&mut book, 60, 3 * saga);
        begin(&mut book, first + 3);
        write(&mut book, first + 3, saga);
        write(&mut book, 62, saga);
    }
    let handed = 45;
    write(&mut book, 60, 20);
    (handed + 1..250).for_each(|_| write(&mut book, 63, 21));
    hand_to_and_fro(&mut book, 60, 61, handed);
    book
}

/// 15 undos at work again. 60 and 61 have looked at the list that an undo puts right, 62 and 63 work on after it where it has changed
/// something else, and 63 writes until 256 operations are made. A write goes to and fro between 60 and 61: both stand before every undo,
/// so that each delegation is searched all the way.
fn given_undos() -> Vec<u8> {
    let mut book = vec![1, 15];
    book.extend([2; 15]);
    book.extend([4, 32, 0]);
    (60..64).for_each(|t| begin(&mut book, t));
    let handed = 0;
    write(&mut book, 60, 30);
    for saga in 0..15 {
        let (first, other) = (4 * saga, 15 + saga);
        let (step, undo) = (first + 1, first + 3);
        let made = 1 + 7 * saga;
        begin(&mut book, first);
        begin(&mut book, step);
        write(&mut book, step, saga);
        commit(&mut book, step);
        abort(&mut book, first);
        for (t, q) in [(60, made + 1), (61, made + 2)] {
            read(&mut book, t, saga);
            commit_operation(&mut book, t, q);
        }
        begin(&mut book, undo);
        write(&mut book, undo, saga);
        write(&mut book, undo, other);
        write(&mut book, 62, other);
        read(&mut book, 63, other);
    }
    (106..256).for_each(|_| write(&mut book, 63, 31));
    hand_to_and_fro(&mut book, 60, 61, handed);
    book
}

/// A saga whose step, 1, has written object 2 and whose undo, 3, has begun; and a chain of the plain transactions 4 to 61. Before it 62
/// has made operation 1, which is handed to and fro later, and 61 has made 135 others.
fn undo_and_chain() -> Vec<u8> {
    let mut book = vec![1, 1, 2, 60, 5, 0];
    begin(&mut book, 0);
    begin(&mut book, 1);
    write(&mut book, 1, 2);
    commit(&mut book, 1);
    abort(&mut book, 0);
    (3..64).for_each(|t| begin(&mut book, t));
    write(&mut book, 62, 4);
    (0..135).for_each(|_| write(&mut book, 61, 3));
    chain(&mut book, 4, 61, 0);
    book
}

/// The undo stands before the chain, 62 and 63 before the undo, and the step before them. A write goes to and fro between 62 and 63: each
/// delegation is searched from the receiver to the end of the chain, and then again from the undo.
fn chain_given() -> Vec<u8> {
    let mut book = undo_and_chain();
    write(&mut book, 3, 1);
    write(&mut book, 4, 1);
    for (t, q) in [(62, 253), (63, 254)] {
        read(&mut book, t, 2);
        commit_operation(&mut book, t, q);
    }
    write(&mut book, 3, 2);
    hand_to_and_fro(&mut book, 62, 63, 1);
    book
}

/// The same, but 62 and 63 stand before the chain themselves, and the undo is beside it with nobody but its step before it: each
/// delegation is searched from the receiver to the end of the chain, in vain. Whoever searches back from the undo is done at once.
fn chain_beside() -> Vec<u8> {
    let mut book = undo_and_chain();
    read(&mut book, 62, 1);
    read(&mut book, 63, 1);
    write(&mut book, 4, 1);
    (0..2).for_each(|_| write(&mut book, 3, 2));
    hand_to_and_fro(&mut book, 62, 63, 1);
    book
}

/// The book of the listing's example.
fn listed() -> Vec<u8> {
    vec![
        1, 1, 2, 1, 1, 0, 1, 0, 1, 1, 1, 4, 4, 1, 0, 1, 5, 1, 4, 0, 2, 1, 3, 0,
    ]
}

#[no_mangle]
pub extern "C" fn main(_count: i32, _words: *const *const u8) -> i32 {
    let folder = env::args().nth(1).expect("books FOLDER");
    let books = [
        ("chain", chain_kept()),
        ("chain-beside", chain_beside()),
        ("chain-given", chain_given()),
        ("delegations", delegations()),
        ("dense", dense()),
        ("dense-open", dense_open()),
        ("given-undos", given_undos()),
        ("listed", listed()),
        ("long-ring", long_ring()),
        ("long-ring-full", full_of_refused(long_ring(), 0)),
        ("long-ring-refused", refused(long_ring(), 0)),
        ("never-begun", never_begun()),
        ("ring", ring()),
        ("ring-full", full_of_refused(ring(), 0)),
        ("rings", rings()),
        ("rings-refused", refused(rings(), 0)),
        ("sagas", sagas()),
        ("undos", undos()),
    ];
    for (name, book) in books {
        fs::write(Path::new(&folder).join(name), book).expect("a folder to write to");
    }
    0
}
