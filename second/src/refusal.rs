//! The numbers of the refusals, in the order of the rules.

/// Not a refusal: the number of a book, or an event, that is accepted.
pub const ACCEPTED: u8 = 0;

/// The book has more than 65,536 bytes.
pub const BOOK_TOO_LONG: u8 = 1;
/// The book ends inside a number, or before a field that is due.
pub const ENDS_EARLY: u8 = 2;
/// A number is not in its shortest form, too long, or above the ceiling of the edition.
pub const BAD_NUMBER: u8 = 3;
/// The edition is neither 1 nor 2.
pub const BAD_EDITION: u8 = 4;
/// A table count is out of its range, or takes the transactions above 64.
pub const BAD_COUNT: u8 = 5;
/// A declared dependency that can't stand in the tables.
pub const BAD_DEPENDENCY: u8 = 6;
/// The event code is not on the list of events.
pub const UNKNOWN_EVENT: u8 = 7;
/// A transaction, object or mark not in the tables, or an operation number not accepted so far.
pub const NOT_IN_THE_TABLES: u8 = 8;
/// That sort of transaction never does this, or it delegates to itself.
pub const NEVER_DONE: u8 = 9;
/// Begin or spawn of a transaction that isn't idle.
pub const NOT_IDLE: u8 = 10;
/// The acting transaction, the receiver, or the one that spawns isn't active.
pub const NOT_ACTIVE: u8 = 11;
/// The delegator, or the one that ends an operation alone, isn't responsible for it.
pub const NOT_RESPONSIBLE: u8 = 12;
/// The rules of the saga bar it.
pub const SAGA_RULE: u8 = 13;
/// A declared dependency bars it, or the helpers under a clerk bar a commit.
pub const DECLARED_DEPENDENCY: u8 = 14;
/// The commit would make a dirty read good.
pub const DIRTY_READ: u8 = 15;
/// The committing transaction is on a ring of ties.
pub const ON_A_RING: u8 = 16;
/// An undo has to wait for another transaction's active operation.
pub const UNDO_MUST_WAIT: u8 = 17;
/// 256 operations are accepted already.
pub const OPERATIONS_USED_UP: u8 = 18;
/// The lent room is too small.
pub const ROOM_TOO_SMALL: u8 = 19;
/// The operation that is to end alone has ended already.
pub const ALREADY_ENDED: u8 = 20;
/// Declared begin dependencies lead from a transaction back to itself.
pub const NEVER_MOVES: u8 = 21;
/// The operation, the delegation or the commit of a helper would put an active
/// undo on a ring of ties, and then the undo could not commit.
pub const UNDO_ON_A_RING: u8 = 22;
/// 1,000 books are read for the term already.
pub const TOO_MANY_BOOKS: u8 = 23;

/// A move of the plan has more than 16 steps.
pub const TOO_MANY_STEPS: u8 = 25;
/// The plan has more than 30 class lists.
pub const TOO_MANY_LISTS: u8 = 26;
/// A name in the plan has more than 24 bytes.
pub const NAME_TOO_LONG: u8 = 27;
/// A class list belongs to a move that isn't in the plan.
pub const NO_SUCH_MOVE: u8 = 28;
