//! The saga book for Rust: safe functions over libsagalib.a.
//!
//! Each takes any bytes and any numbers; nothing has to be looked at first, and a refusal is an answer like any other. No function keeps
//! anything between two calls, takes memory from the heap or writes anywhere but into what it is lent to write. On the stack `write` takes some 80,000 bytes,
//! reading and opening a desk some 33,000, asking and taking an event some 1,700.
//!
//! A program that asks before it writes, which stands in `examples/first.rs` and is run by `link/run`:
//!
#![doc = concat!("```\n", include_str!("../examples/first.rs"), "```")]

#[cfg(not(target_arch = "x86_64"))]
compile_error!("libsagalib.a is code for x86-64");

/// The most bytes that a book has, and so the most fields.
pub const BOOK_BYTES: usize = 65_536;

/// The largest field of a book of edition 1, where no record stands beside an operation. The edition itself, which is the first field, is never above it.
pub const MOST_1: u32 = 65_535;

/// The largest field of a book of edition 2.
pub const MOST_2: u32 = 2_097_151;

/// The most sagas that a book has.
pub const SAGAS: usize = 16;

/// The most steps that a saga has.
pub const STEPS: usize = 16;

/// The most transactions that a book has, of which a saga of n steps owns 2n: a list of so many numbers holds every order to replay in.
pub const TRANSACTIONS: usize = 64;

/// The most objects that a book has.
pub const OBJECTS: usize = 32;

/// The most dependencies that a book declares.
pub const DEPENDENCIES: usize = 128;

/// The most operations that a book has.
pub const OPERATIONS: usize = 256;

/// A room of so many bytes holds every listing.
pub const LISTING_BYTES: usize = 427_927;

/// A room of so many bytes holds every line of a listing.
pub const LINE_BYTES: usize = 104;

/// How a book is read.
#[derive(Clone, Copy, Debug, PartialEq, Eq)]
pub struct Way {
    /// To the first refusal, which is then the answer; otherwise on past refused events: one of them changes nothing, and the next is judged.
    pub to_first_refusal: bool,
    /// Begin dependencies may go round in a circle, as in books from before that was refused.
    pub permit_circles: bool,
}

impl Way {
    pub const READ_ON: Way = Way {
        to_first_refusal: false,
        permit_circles: false,
    };
    pub const TO_FIRST_REFUSAL: Way = Way {
        to_first_refusal: true,
        permit_circles: false,
    };

    fn number(self) -> u64 {
        u64::from(self.to_first_refusal) + 2 * u64::from(self.permit_circles)
    }
}

/// Why something is refused, by the numbers of the table of refusals.
#[derive(Clone, Copy, Debug, PartialEq, Eq, PartialOrd, Ord, Hash)]
#[repr(u64)]
pub enum Refusal {
    /// The book is longer than 65,536 bytes.
    TooLong = 1,
    /// The book ends inside a number, or before a field that is due.
    Torn = 2,
    /// A number is not in its shortest form, or is above the ceiling of the edition.
    BadNumber = 3,
    /// The edition is neither 1 nor 2.
    BadEdition = 4,
    /// A table count is out of its range, or there are more than 64 transactions.
    BadCount = 5,
    /// A dependency may not be declared, or is not rising.
    BadDependency = 6,
    /// The code is none of the list of events.
    BadCode = 7,
    /// A transaction, object or mark is not in the tables, or an operation number not accepted so far.
    NotInTables = 8,
    /// That sort of transaction never does this, or it delegates to itself, or a child commits one operation.
    NeverDoes = 9,
    /// It was begun or spawned before.
    NotIdle = 10,
    /// It is not active, or the receiver is not, or the parent of a spawn is not.
    NotActive = 11,
    /// It is not responsible for that operation.
    NotResponsible = 12,
    /// A saga rule forbids it.
    SagaRule = 13,
    /// A declared dependency forbids it; or a child of it is active; or its parent has ended.
    DependencyRule = 14,
    /// It has a dirty read.
    DirtyRead = 15,
    /// It is on a ring.
    OnRing = 16,
    /// The undo must wait.
    MustWait = 17,
    /// There are 256 operations already.
    Full = 18,
    /// The lent room is too small.
    NoRoom = 19,
    /// That operation has ended already.
    AlreadyEnded = 20,
    /// The tables can never move.
    NeverMoves = 21,
    /// It would put an active undo on a ring.
    UndoOnRing = 22,
    /// There are 1,000 books in the totals already; of `add` alone.
    TooManyBooks = 23,
}

impl Refusal {
    /// Its number in the table.
    pub fn number(self) -> u64 {
        self as u64
    }

    /// The refusal of a number, if it is one of those that this library gives.
    pub fn of(number: u64) -> Option<Refusal> {
        Some(match number {
            1 => Refusal::TooLong,
            2 => Refusal::Torn,
            3 => Refusal::BadNumber,
            4 => Refusal::BadEdition,
            5 => Refusal::BadCount,
            6 => Refusal::BadDependency,
            7 => Refusal::BadCode,
            8 => Refusal::NotInTables,
            9 => Refusal::NeverDoes,
            10 => Refusal::NotIdle,
            11 => Refusal::NotActive,
            12 => Refusal::NotResponsible,
            13 => Refusal::SagaRule,
            14 => Refusal::DependencyRule,
            15 => Refusal::DirtyRead,
            16 => Refusal::OnRing,
            17 => Refusal::MustWait,
            18 => Refusal::Full,
            19 => Refusal::NoRoom,
            20 => Refusal::AlreadyEnded,
            21 => Refusal::NeverMoves,
            22 => Refusal::UndoOnRing,
            23 => Refusal::TooManyBooks,
            _ => return None,
        })
    }
}

impl std::fmt::Display for Refusal {
    fn fmt(&self, out: &mut std::fmt::Formatter) -> std::fmt::Result {
        write!(out, "refused by {}", self.number())
    }
}

impl std::error::Error for Refusal {}

/// The answer of a function where nothing is refused.
#[derive(Clone, Copy, Debug, PartialEq, Eq)]
pub struct Answer {
    /// How many events of the book are accepted.
    pub events: u64,
    /// How many bytes, fields or transactions were written; of `read`, how many events were refused and passed over.
    pub count: u64,
}

/// The answer of a function where something is.
#[derive(Clone, Copy, Debug, PartialEq, Eq)]
pub struct Refused {
    pub refusal: Refusal,
    /// How many events of the book are accepted before it.
    pub events: u64,
    /// Where the refusal is: in bytes of the book, or for `write` in fields.
    pub place: u64,
    /// Of `read`, how many events were refused and passed over before it; of the others 0.
    pub passed: u64,
}

impl std::fmt::Display for Refused {
    fn fmt(&self, out: &mut std::fmt::Formatter) -> std::fmt::Result {
        write!(
            out,
            "{} at {}, behind {} events",
            self.refusal, self.place, self.events
        )
    }
}

impl std::error::Error for Refused {}

/// What an operation does to its object.
#[derive(Clone, Copy, Debug, PartialEq, Eq)]
pub enum Mark {
    Read,
    Write,
}

/// An event of a book, with its fields.
#[derive(Clone, Copy, Debug, PartialEq, Eq)]
pub enum Event {
    Begin(u64),
    Commit(u64),
    Abort(u64),
    /// Transaction, object, mark, and the record, which is looked at in a book of edition 2 alone.
    Operation(u64, u64, Mark, u64),
    /// Transaction, receiver, operation number.
    Delegate(u64, u64, u64),
    /// Transaction, operation number.
    CommitOne(u64, u64),
    /// Transaction, operation number.
    AbortOne(u64, u64),
    /// Parent, child.
    Spawn(u64, u64),
}

impl Event {
    /// Its code and the fields that follow it in a book; 0 past them.
    fn numbers(self) -> [u64; 5] {
        match self {
            Event::Begin(t) => [1, t, 0, 0, 0],
            Event::Commit(t) => [2, t, 0, 0, 0],
            Event::Abort(t) => [3, t, 0, 0, 0],
            Event::Operation(t, object, Mark::Read, record) => [4, t, object, 0, record],
            Event::Operation(t, object, Mark::Write, record) => [4, t, object, 1, record],
            Event::Delegate(t, receiver, operation) => [5, t, receiver, operation, 0],
            Event::CommitOne(t, operation) => [6, t, operation, 0, 0],
            Event::AbortOne(t, operation) => [7, t, operation, 0, 0],
            Event::Spawn(parent, child) => [8, parent, child, 0, 0],
        }
    }
}

/// The closing step of a saga.
#[derive(Clone, Copy, Debug, PartialEq, Eq)]
pub struct Step {
    /// A begin, a commit or an abort, if there is something to do.
    pub event: Option<Event>,
    /// How many steps are left, this one counted: 0 when there is no step.
    pub outstanding: u64,
    /// Whether the saga is finished or put back; not so if it is not begun or still owes something.
    pub settled: bool,
}

/// How a transaction stands, or an operation, which is never idle.
#[derive(Clone, Copy, Debug, PartialEq, Eq)]
pub enum Phase {
    Idle,
    Active,
    Committed,
    Aborted,
}

/// An operation.
#[derive(Clone, Copy, Debug, PartialEq, Eq)]
pub struct Operation {
    pub object: u64,
    pub mark: Mark,
    /// Its responsible transaction.
    pub responsible: u64,
    pub phase: Phase,
}

/// How many there are of each, how much is left, and who is active.
#[derive(Clone, Copy, Debug, PartialEq, Eq)]
pub struct Tally {
    pub sagas: u64,
    pub transactions: u64,
    /// Operations accepted so far, which is the number of the next one.
    pub operations: u64,
    /// Events accepted; counted up to 65,536, as many as no book has.
    pub accepted: u64,
    /// Events refused and passed over, in the book or by `Desk::take`; counted up to 65,536.
    pub refused: u64,
    /// What is outstanding over all sagas.
    pub left: u64,
    /// How many transactions are active.
    pub active: u64,
    /// The lowest of them, 64 if there is none.
    pub lowest: u64,
}

/// The book that came of mending one.
#[derive(Clone, Copy, Debug, PartialEq, Eq)]
pub enum Mended<'a> {
    /// The caller's own, with which nothing was wrong.
    Own(&'a [u8]),
    /// The written part of the room, for which so many bytes of the caller's book were dropped and so many closing steps added.
    Written {
        book: &'a [u8],
        dropped: u64,
        added: u64,
    },
}

/// The totals of a term. Before the first book all are 0.
#[derive(Clone, Copy, Debug, Default, PartialEq, Eq)]
pub struct Totals {
    /// How many books were added.
    pub books: u64,
    /// How many of them were refused; what they begin with, up to the refusal, is counted.
    pub refused: u64,
    /// How many sagas were begun: as many as the next three together.
    pub begun: u64,
    /// How many of these committed.
    pub committed: u64,
    /// How many are settled and did not commit.
    pub backed_out: u64,
    /// How many are not settled.
    pub open: u64,
}

/// A share in lowest terms: `part` of `whole`, which is never 0.
#[derive(Clone, Copy, Debug, PartialEq, Eq)]
pub struct Share {
    pub part: u64,
    pub whole: u64,
}

mod archive {
    // A slice crosses as a pointer and how many elements it has.
    #[link(name = "sagalib", kind = "static")]
    unsafe extern "C" {
        pub fn saga_read(book: *const u8, book_count: usize, way: u64, answer: *mut [u64; 4]);
        pub fn saga_refused(
            book: *const u8,
            book_count: usize,
            way: u64,
            skip: u64,
            list: *mut u64,
            list_count: usize,
        ) -> u64;
        pub fn saga_opening(book: *const u8, book_count: usize) -> u64;
        pub fn saga_listing(
            book: *const u8,
            book_count: usize,
            way: u64,
            room: *mut u8,
            room_count: usize,
            answer: *mut [u64; 4],
        );
        pub fn saga_next(
            book: *const u8,
            book_count: usize,
            way: u64,
            saga: u64,
            step: *mut [u64; 4],
        );
        pub fn saga_left(book: *const u8, book_count: usize, way: u64) -> u64;
        pub fn saga_replay(
            book: *const u8,
            book_count: usize,
            way: u64,
            list: *mut u16,
            list_count: usize,
            answer: *mut [u64; 4],
        );
        pub fn saga_mend(
            book: *const u8,
            book_count: usize,
            room: *mut u8,
            room_count: usize,
            answer: *mut [u64; 4],
            mended: *mut [u64; 3],
        );
        pub fn saga_add(book: *const u8, book_count: usize, totals: *mut [u64; 6]) -> u64;
        pub fn saga_share(totals: *const [u64; 6], share: *mut [u64; 2]);
        pub fn saga_unpack(
            book: *const u8,
            book_count: usize,
            room: *mut u32,
            room_count: usize,
            answer: *mut [u64; 4],
        );
        pub fn saga_write(
            fields: *const u32,
            field_count: usize,
            room: *mut u8,
            room_count: usize,
            answer: *mut [u64; 4],
        );
        pub fn saga_lent_open(
            book: *const u8,
            book_count: usize,
            way: u64,
            sheet: *mut [u32; 195],
            transactions: *mut [u32; 64],
            operations: *mut [u32; 256],
            records: *mut [u32; 256],
            steps: *mut [u8; 16],
            counts: *mut [u64; 9],
            answer: *mut [u64; 4],
        );
        pub fn saga_lent_ask(
            sheet: *const [u32; 195],
            transactions: *const [u32; 64],
            operations: *const [u32; 256],
            counts: *const [u64; 9],
            code: u64,
            a: u64,
            b: u64,
            c: u64,
            d: u64,
        ) -> u64;
        pub fn saga_lent_take(
            sheet: *const [u32; 195],
            transactions: *mut [u32; 64],
            operations: *mut [u32; 256],
            records: *mut [u32; 256],
            counts: *mut [u64; 9],
            code: u64,
            a: u64,
            b: u64,
            c: u64,
            d: u64,
        ) -> u64;
        pub fn saga_lent_phase(
            sheet: *const [u32; 195],
            transactions: *const [u32; 64],
            transaction: u64,
        ) -> u64;
        pub fn saga_lent_operation(
            operations: *const [u32; 256],
            counts: *const [u64; 9],
            number: u64,
            answer: *mut [u64; 4],
        );
        pub fn saga_lent_next(
            transactions: *const [u32; 64],
            operations: *const [u32; 256],
            steps: *const [u8; 16],
            counts: *const [u64; 9],
            saga: u64,
            step: *mut [u64; 4],
        );
        pub fn saga_lent_tally(
            transactions: *const [u32; 64],
            steps: *const [u8; 16],
            counts: *const [u64; 9],
            tally: *mut [u64; 8],
        );
        pub fn saga_lent_pairs(
            transactions: *const [u32; 64],
            operations: *const [u32; 256],
            counts: *const [u64; 9],
            rows: *mut [u64; 64],
        );
        pub fn saga_lent_replay(
            operations: *const [u32; 256],
            counts: *const [u64; 9],
            list: *mut u16,
            list_count: usize,
            answer: *mut [u64; 4],
        );
        pub fn saga_lent_line(
            transactions: *const [u32; 64],
            operations: *const [u32; 256],
            records: *const [u32; 256],
            steps: *const [u8; 16],
            counts: *const [u64; 9],
            line: u64,
            room: *mut u8,
            room_count: usize,
            answer: *mut [u64; 4],
        );
    }
}

// Each function of the archive reads the elements of the slices it is handed and writes those of the mutable ones, and no others: that is
// proved. A Rust slice is as many elements as it says, and a mutable one overlaps nothing else. So each call below is sound.

/// The refusal of a number that the library answers; none for 0.
fn refusal_of(number: u64) -> Option<Refusal> {
    match number {
        0 => None,
        _ => Some(Refusal::of(number).expect("the library gives the refusals of its table alone")),
    }
}

fn answered(numbers: [u64; 4]) -> Result<Answer, Refused> {
    let [number, events, place, count] = numbers;
    match refusal_of(number) {
        None => Ok(Answer { events, count }),
        Some(refusal) => Err(Refused {
            refusal,
            events,
            place,
            passed: count,
        }),
    }
}

/// Reads a book. Reading on, the answer is the refusal that ends the reading (1 to 7 or 21), if there is one; its count is how many events were
/// refused by any other and passed over. To the first refusal, the answer is that, and no event is passed over.
pub fn read(book: &[u8], way: Way) -> Result<Answer, Refused> {
    let mut answer = [0; 4];
    unsafe { archive::saga_read(book.as_ptr(), book.len(), way.number(), &mut answer) };
    answered(answer)
}

/// Puts the events that were refused and passed over at the front of the list, without the first `skip` of them: for each its index, where all
/// events are counted from 0, and then the number of its refusal. As many as fit; the answer is how many events that are, 0 where the book is read to the first refusal.
pub fn refused(book: &[u8], way: Way, skip: u64, list: &mut [u64]) -> u64 {
    unsafe {
        archive::saga_refused(
            book.as_ptr(),
            book.len(),
            way.number(),
            skip,
            list.as_mut_ptr(),
            list.len(),
        )
    }
}

/// The accepted opening of a book: the bytes before the first event that is refused, or where reading ends; none if the tables are refused. Accepted events behind a
/// refused one are not in it: whoever goes on writing there drops them.
pub fn opening(book: &[u8]) -> &[u8] {
    let size = unsafe { archive::saga_opening(book.as_ptr(), book.len()) };
    &book[..size as usize]
}

/// Puts the listing of a book at the front of the room. 19 is the only refusal here, since every book has a listing.
pub fn listing(book: &[u8], way: Way, room: &mut [u8]) -> Result<Answer, Refused> {
    let mut answer = [0; 4];
    unsafe {
        archive::saga_listing(
            book.as_ptr(),
            book.len(),
            way.number(),
            room.as_mut_ptr(),
            room.len(),
            &mut answer,
        )
    };
    answered(answer)
}

/// A closing step by its numbers; none if there is no such saga.
fn step_of(numbers: [u64; 4]) -> Option<Step> {
    let [event, transaction, outstanding, settled] = numbers;
    let event = match event {
        0 => None,
        1 => Some(Event::Begin(transaction)),
        2 => Some(Event::Commit(transaction)),
        3 => Some(Event::Abort(transaction)),
        _ => return None,
    };
    Some(Step {
        event,
        outstanding,
        settled: settled == 1,
    })
}

/// What is to be done next for the saga of an index, counted from 0, after the accepted events of a book. Above 0 outstanding, the step is
/// accepted as the next event and leaves one less. There is no such saga for an index past the last, nor for any where the tables are refused.
pub fn next(book: &[u8], way: Way, saga: u64) -> Option<Step> {
    let mut step = [0; 4];
    unsafe { archive::saga_next(book.as_ptr(), book.len(), way.number(), saga, &mut step) };
    step_of(step)
}

/// How much is left after the accepted events of a book: the sum of what is outstanding over all sagas. Taking all closing steps, saga after saga,
/// settles every begun saga in as many events.
pub fn left(book: &[u8], way: Way) -> u64 {
    unsafe { archive::saga_left(book.as_ptr(), book.len(), way.number()) }
}

/// Puts the transactions that hold a committed operation after the accepted events of a book at the front of the list, in an order in which their
/// committed changes can be copied one transaction at a time. The count is how many there are, 0 if the tables are refused; 19 is the only refusal here,
/// since every book has an order.
pub fn replay(book: &[u8], way: Way, list: &mut [u16]) -> Result<Answer, Refused> {
    let mut answer = [0; 4];
    unsafe {
        archive::saga_replay(
            book.as_ptr(),
            book.len(),
            way.number(),
            list.as_mut_ptr(),
            list.len(),
            &mut answer,
        )
    };
    answered(answer)
}

/// Mends a book. Nothing is wrong with one that is accepted whole, to the first refusal, and whose begun sagas are all settled: it is handed back, whatever the
/// room. Of any other the accepted opening is put at the front of the room, and behind it the closing steps of every begun saga that is not settled, saga after saga; such
/// a book is accepted whole, and mending it hands it back. An event refused in the middle is dropped with all behind it, and transactions that belong to no saga stay open. The
/// answer's events are those kept. Refusals are those of the tables, then 1 if the result would be longer than a book may be, then 19; a room of `BOOK_BYTES` is never too small.
pub fn mend<'a>(book: &'a [u8], room: &'a mut [u8]) -> Result<(Answer, Mended<'a>), Refused> {
    let mut answer = [0; 4];
    let mut mended = [0; 3];
    unsafe {
        archive::saga_mend(
            book.as_ptr(),
            book.len(),
            room.as_mut_ptr(),
            room.len(),
            &mut answer,
            &mut mended,
        )
    };
    let answer = answered(answer)?;
    let [which, dropped, added] = mended;
    let came = match which {
        1 => Mended::Own(book),
        _ => Mended::Written {
            book: &room[..answer.count as usize],
            dropped,
            added,
        },
    };
    Ok((answer, came))
}

fn totals_numbers(totals: &Totals) -> [u64; 6] {
    [
        totals.books,
        totals.refused,
        totals.begun,
        totals.committed,
        totals.backed_out,
        totals.open,
    ]
}

/// Adds a book to the totals of a term. It is read to its first refusal, and what its accepted opening comes to is added. The answer is the refusal of the book, if it is not accepted
/// whole; or 23 if 1,000 books were added already, and the totals stay as they were. A total that 1,000 books cannot have, over 16,000, counts as 16,000.
pub fn add(book: &[u8], totals: &mut Totals) -> Result<(), Refusal> {
    let mut numbers = totals_numbers(totals);
    let refusal = unsafe { archive::saga_add(book.as_ptr(), book.len(), &mut numbers) };
    let [books, refused, begun, committed, backed_out, open] = numbers;
    *totals = Totals {
        books,
        refused,
        begun,
        committed,
        backed_out,
        open,
    };
    unless_refused(refusal)
}

/// The share backed out of those begun, in lowest terms; 0 of 1 if none were begun.
pub fn share(totals: &Totals) -> Share {
    let mut numbers = [0; 2];
    unsafe { archive::saga_share(&totals_numbers(totals), &mut numbers) };
    let [part, whole] = numbers;
    Share { part, whole }
}

/// Puts the fields of a book that is accepted whole at the front of the room. There are never more fields than the book has bytes.
/// Refusals are those of `read` to the first refusal, then 19.
pub fn unpack(book: &[u8], room: &mut [u32]) -> Result<Answer, Refused> {
    let mut answer = [0; 4];
    unsafe {
        archive::saga_unpack(
            book.as_ptr(),
            book.len(),
            room.as_mut_ptr(),
            room.len(),
            &mut answer,
        )
    };
    answered(answer)
}

/// Puts the bytes of fields that are a book at the front of the room. There are never more than three for a field. Refusals are those of
/// `read` to the first refusal, with the place counted in fields, then 19. A field above the ceiling of the edition is refused by 3 at its own place, and counts as three
/// bytes where 1 is judged. It keeps a book of 64 KiB on the stack.
pub fn write(fields: &[u32], room: &mut [u8]) -> Result<Answer, Refused> {
    let mut answer = [0; 4];
    unsafe {
        archive::saga_write(
            fields.as_ptr(),
            fields.len(),
            room.as_mut_ptr(),
            room.len(),
            &mut answer,
        )
    };
    answered(answer)
}

/// A desk: what the tables of a book say and how everything stands after its events, in numbers. It is opened on a book once; then each event is
/// asked, or taken behind all others, and the book is not read again. What it tells is what the functions above tell of the book with the events
/// behind it that were taken and accepted.
///
/// A desk that was opened where a refusal ended the reading takes nothing more: asking and taking answer that refusal. So the book is cut to
/// its `opening` first.
///
/// Its numbers may be put aside and taken up again by the same edition of this library. Numbers of any value are safe; what is then told means
/// nothing.
#[derive(Clone, Debug, PartialEq, Eq)]
pub struct Desk {
    pub counts: [u64; 9],
    pub sheet: [u32; 195],
    pub transactions: [u32; TRANSACTIONS],
    pub operations: [u32; OPERATIONS],
    pub records: [u32; OPERATIONS],
    pub steps: [u8; SAGAS],
}

fn phase_of(number: u64) -> Option<Phase> {
    match number {
        0 => Some(Phase::Idle),
        1 => Some(Phase::Active),
        2 => Some(Phase::Committed),
        3 => Some(Phase::Aborted),
        _ => None,
    }
}

fn unless_refused(number: u64) -> Result<(), Refusal> {
    match refusal_of(number) {
        None => Ok(()),
        Some(refusal) => Err(refusal),
    }
}

impl Desk {
    /// Opens a desk on a book that is read in one of the ways; the answer is that of `read`.
    pub fn open(book: &[u8], way: Way) -> (Desk, Result<Answer, Refused>) {
        let mut desk = Desk {
            counts: [0; 9],
            sheet: [0; 195],
            transactions: [0; TRANSACTIONS],
            operations: [0; OPERATIONS],
            records: [0; OPERATIONS],
            steps: [0; SAGAS],
        };
        let mut answer = [0; 4];
        unsafe {
            archive::saga_lent_open(
                book.as_ptr(),
                book.len(),
                way.number(),
                &mut desk.sheet,
                &mut desk.transactions,
                &mut desk.operations,
                &mut desk.records,
                &mut desk.steps,
                &mut desk.counts,
                &mut answer,
            )
        };
        (desk, answered(answer))
    }

    /// Whether an event would be accepted behind all others; if not, its refusal.
    pub fn ask(&self, event: Event) -> Result<(), Refusal> {
        let [code, a, b, c, d] = event.numbers();
        unless_refused(unsafe {
            archive::saga_lent_ask(
                &self.sheet,
                &self.transactions,
                &self.operations,
                &self.counts,
                code,
                a,
                b,
                c,
                d,
            )
        })
    }

    /// Takes an event behind all others, if it is accepted; if not, its refusal. A refused event is counted and changes nothing else.
    pub fn take(&mut self, event: Event) -> Result<(), Refusal> {
        let [code, a, b, c, d] = event.numbers();
        unless_refused(unsafe {
            archive::saga_lent_take(
                &self.sheet,
                &mut self.transactions,
                &mut self.operations,
                &mut self.records,
                &mut self.counts,
                code,
                a,
                b,
                c,
                d,
            )
        })
    }

    /// How a transaction stands, if there is such a transaction.
    pub fn phase(&self, transaction: u64) -> Option<Phase> {
        phase_of(unsafe { archive::saga_lent_phase(&self.sheet, &self.transactions, transaction) })
    }

    /// The operation of a number, if there is such an operation.
    pub fn operation(&self, number: u64) -> Option<Operation> {
        let mut answer = [0; 4];
        unsafe {
            archive::saga_lent_operation(&self.operations, &self.counts, number, &mut answer)
        };
        let [object, mark, responsible, phase] = answer;
        match phase_of(phase) {
            None | Some(Phase::Idle) => None,
            Some(phase) => Some(Operation {
                object,
                mark: if mark == 0 { Mark::Read } else { Mark::Write },
                responsible,
                phase,
            }),
        }
    }

    /// What is to be done next for the saga of an index, if there is such a saga.
    pub fn next(&self, saga: u64) -> Option<Step> {
        let mut step = [0; 4];
        unsafe {
            archive::saga_lent_next(
                &self.transactions,
                &self.operations,
                &self.steps,
                &self.counts,
                saga,
                &mut step,
            )
        };
        step_of(step)
    }

    /// How many there are of each, how much is left, and who is active.
    pub fn tally(&self) -> Tally {
        let mut tally = [0; 8];
        unsafe {
            archive::saga_lent_tally(&self.transactions, &self.steps, &self.counts, &mut tally)
        };
        let [
            sagas,
            transactions,
            operations,
            accepted,
            refused,
            left,
            active,
            lowest,
        ] = tally;
        Tally {
            sagas,
            transactions,
            operations,
            accepted,
            refused,
            left,
            active,
            lowest,
        }
    }

    /// Who stands before whom by one tie: bit b of row a is 1 if transaction a stands before b.
    pub fn pairs(&self) -> [u64; TRANSACTIONS] {
        let mut rows = [0; TRANSACTIONS];
        unsafe {
            archive::saga_lent_pairs(
                &self.transactions,
                &self.operations,
                &self.counts,
                &mut rows,
            )
        };
        rows
    }

    /// The order to replay in, as `replay` tells it of a book.
    pub fn replay(&self, list: &mut [u16]) -> Result<Answer, Refused> {
        let mut answer = [0; 4];
        unsafe {
            archive::saga_lent_replay(
                &self.operations,
                &self.counts,
                list.as_mut_ptr(),
                list.len(),
                &mut answer,
            )
        };
        answered(answer)
    }

    /// Puts one line of the listing at the front of the room, counted from 0: the first line, then those of transactions, operations and sagas; the
    /// lines of refused events are not among them. The count is 0 where there is no such line; 19 is the only refusal.
    pub fn line(&self, line: u64, room: &mut [u8]) -> Result<Answer, Refused> {
        let mut answer = [0; 4];
        unsafe {
            archive::saga_lent_line(
                &self.transactions,
                &self.operations,
                &self.records,
                &self.steps,
                &self.counts,
                line,
                room.as_mut_ptr(),
                room.len(),
                &mut answer,
            )
        };
        answered(answer)
    }
}
