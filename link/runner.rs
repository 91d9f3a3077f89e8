//! A runner in Rust: a program that does the steps of a move and keeps the book of what it does. It asks before each event, so that nothing is done that
//! the rules forbid; and when it comes up after a crash, it puts back every move that was broken off. Here it plays both, with a book in memory and a crash
//! in the middle of an event.
//!
//! It starts as a C program does. Rust's own start looks up where the stack lies, which an emulator of x86-64 may not tell.
#![no_main]

use sagalib::{
    BOOK_BYTES, Desk, Event, LINE_BYTES, Mark, Phase, Refusal, TRANSACTIONS, Way, left, opening,
    read,
};

/// One move of three steps: saga 0, steps 1 to 3, undos 4 and 5. Then two clerks, 6 and 7. Two objects. No dependencies.
const TABLES: [u8; 6] = [1, 1, 3, 2, 2, 0];
const MOVE: u64 = 0;
const CLERKS: std::ops::Range<u64> = 6..8;

/// What it takes to put everything back is kept free in the book. The closing steps of all sagas and the aborts of all clerks are events of two bytes, and never
/// more than there are transactions; and an undo here writes one object, in an event of four.
const KEPT_FREE: usize = (2 + 4) * TRANSACTIONS;

/// A book and the desk that stands for it. A service has the book in a file, and an event is written there, and safe there, before anything is done.
struct Runner {
    book: Vec<u8>,
    desk: Desk,
}

/// The bytes of an event: its code and its fields, each in groups of seven bits.
fn bytes(event: Event) -> Vec<u8> {
    let fields = match event {
        Event::Begin(t) => vec![1, t],
        Event::Commit(t) => vec![2, t],
        Event::Abort(t) => vec![3, t],
        Event::Operation(t, object, mark, _) => vec![4, t, object, u64::from(mark == Mark::Write)],
        Event::Delegate(t, receiver, operation) => vec![5, t, receiver, operation],
        Event::CommitOne(t, operation) => vec![6, t, operation],
        Event::AbortOne(t, operation) => vec![7, t, operation],
        Event::Spawn(parent, child) => vec![8, parent, child],
    };
    let mut bytes = Vec::new();
    for mut v in fields {
        while v > 127 {
            bytes.push((v % 128 + 128) as u8);
            v /= 128;
        }
        bytes.push(v as u8);
    }
    bytes
}

impl Runner {
    /// What comes first after a crash: the torn end is cut off, and the desk opened on what is left.
    fn come_up(book: &[u8]) -> Result<Runner, Refusal> {
        let book = opening(book).to_vec();
        let (desk, opened) = Desk::open(&book, Way::READ_ON);
        match opened {
            Ok(_) => Ok(Runner { book, desk }),
            Err(refused) => Err(refused.refusal),
        }
    }

    /// Asks for an event, and if it is allowed writes it down and takes it.
    fn record(&mut self, event: Event, free: usize) -> Result<(), Refusal> {
        self.desk.ask(event)?;
        let bytes = bytes(event);
        if BOOK_BYTES < self.book.len() + bytes.len() + free {
            return Err(Refusal::TooLong);
        }
        self.book.extend(bytes);
        self.desk.take(event)
    }

    fn work(&mut self, event: Event) -> Result<(), Refusal> {
        self.record(event, KEPT_FREE)
    }

    /// Ends everything that was at work. The clerks are dead, and go first: an undo would have to wait for what they hold (17). Then saga after saga,
    /// one closing step after another; an undo does its own writes when it is begun. Each of these is accepted, and each leaves one less to do.
    fn put_back(&mut self) -> Result<(), Refusal> {
        for t in CLERKS {
            if self.desk.phase(t) == Some(Phase::Active) {
                self.record(Event::Abort(t), 0)?;
            }
        }
        let mut saga = 0;
        while let Some(step) = self.desk.next(saga) {
            match step.event {
                None => saga += 1,
                Some(event) => {
                    self.record(event, 0)?;
                    if let Event::Begin(undo) = event {
                        self.record(Event::Operation(undo, 0, Mark::Write, 0), 0)?;
                    }
                }
            }
        }
        Ok(())
    }

    fn show(&self) {
        let mut room = [0; LINE_BYTES];
        for k in 0.. {
            let line = self.desk.line(k, &mut room);
            let n = line.map_or(0, |put| put.count) as usize;
            if n == 0 {
                return;
            }
            print!("{}", String::from_utf8_lossy(&room[..n]));
        }
    }
}

fn run() -> Result<(), Refusal> {
    let mut runner = Runner::come_up(&TABLES)?;
    // the first step writes and is done, the second is begun; one that comes too early is not written down
    runner.work(Event::Begin(MOVE))?;
    runner.work(Event::Begin(1))?;
    runner.work(Event::Operation(1, 0, Mark::Write, 0))?;
    runner.work(Event::Commit(1))?;
    runner.work(Event::Begin(2))?;
    assert_eq!(runner.work(Event::Begin(3)), Err(Refusal::SagaRule));
    // a clerk is at work on the same object, and the program stops while it writes down an event
    runner.work(Event::Begin(6))?;
    runner.work(Event::Operation(6, 0, Mark::Write, 0))?;
    let mut torn = runner.book;
    torn.push(2);

    let mut runner = Runner::come_up(&torn)?;
    runner.put_back()?;
    runner.show();
    // the book is whole again, nothing in it is refused, and nothing is left to do
    assert!(read(&runner.book, Way::TO_FIRST_REFUSAL).is_ok());
    assert_eq!(left(&runner.book, Way::READ_ON), 0);
    Ok(())
}

#[unsafe(no_mangle)]
pub extern "C" fn main() -> i32 {
    match run() {
        Ok(()) => 0,
        Err(_) => 1,
    }
}
