/* The saga book for C and C++: the functions of libsagalib.a.

   Each takes any bytes and any numbers; nothing has to be looked at first, and a refusal is an answer like any other. Bytes, fields, lists and
   rooms are passed as a pointer and a count of elements: a count of bytes where they are bytes, of fields or numbers where they are those.
   What C itself asks stays the caller's part: a pointer points to as many elements as the count after it says; a room, a list, a desk and an
   answer overlap nothing else that is passed; and no pointer is NULL, not even with a count of 0: pass the address of anything then, "" say.

   No function keeps anything between two calls, takes memory from the heap or writes anywhere but into what it is lent to write: a room, a list, an answer, a step, totals, a share,
   a desk. On the stack saga_write takes some 80,000 bytes, reading and opening a desk some 33,000, asking and taking an event some 1,700; link/README.md has each as it was measured. */
#ifndef SAGALIB_H
#define SAGALIB_H

#include <stddef.h>
#include <stdint.h>

#ifdef __cplusplus
extern "C" {
#endif

/* The limits of a book: bytes, and so fields; sagas; steps of a saga; transactions, of which a saga of n steps owns 2n; objects; declared
   dependencies; operations. */
#define SAGA_BOOK_BYTES 65536
#define SAGA_SAGAS 16
#define SAGA_STEPS 16
#define SAGA_TRANSACTIONS 64
#define SAGA_OBJECTS 32
#define SAGA_DEPENDENCIES 128
#define SAGA_OPERATIONS 256

/* The largest field of a book: that of edition 1, where no record stands beside an operation, and that of edition 2. The edition itself, which is the first field, is
   never above the first of them. */
#define SAGA_MOST_1 65535
#define SAGA_MOST_2 2097151

/* A room of so many bytes holds every listing, and one of so many every line of it. A list of SAGA_TRANSACTIONS numbers holds every order to
   replay in. */
#define SAGA_LISTING_BYTES 427927
#define SAGA_LINE_BYTES 104

/* The ways of reading a book. SAGA_PERMIT_CIRCLES goes with one of the others, by |. Of a larger number what is left of it by fours counts. */
enum saga_way {
  SAGA_READ_ON = 0,          /* on past refused events: one of them changes nothing, and the next is judged */
  SAGA_TO_FIRST_REFUSAL = 1, /* to the first refusal, which is then the answer */
  SAGA_PERMIT_CIRCLES = 2    /* begin dependencies may go round in a circle, as in books from before that was refused */
};

/* Why something is refused. */
enum saga_refusal {
  SAGA_ACCEPTED = 0,         /* nothing ended the reading, and the room was large enough; events may have been passed over */
  SAGA_TOO_LONG = 1,         /* book over 65,536 bytes */
  SAGA_TORN = 2,             /* book ends inside a number, or before a field that is due */
  SAGA_BAD_NUMBER = 3,       /* a number that is not in its shortest form, or above the ceiling of the edition */
  SAGA_BAD_EDITION = 4,      /* edition not 1 or 2 */
  SAGA_BAD_COUNT = 5,        /* a table count out of its range, or more than 64 transactions */
  SAGA_BAD_DEPENDENCY = 6,   /* a dependency that may not be declared, or is not rising */
  SAGA_BAD_CODE = 7,         /* event code not on the list of events */
  SAGA_NOT_IN_TABLES = 8,    /* transaction, object or mark not in the tables, or operation number not accepted so far */
  SAGA_NEVER_DOES = 9,       /* that sort of transaction never does this; or delegates to itself; or a child commits one operation */
  SAGA_NOT_IDLE = 10,        /* begin or spawn of one that isn't idle */
  SAGA_NOT_ACTIVE = 11,      /* commit, abort, operation, delegation, spawn, or commit or abort of one operation by one not active, or receiver not active */
  SAGA_NOT_RESPONSIBLE = 12, /* delegator, or who commits or aborts one operation, not responsible */
  SAGA_SAGA_RULE = 13,       /* saga rule */
  SAGA_DEPENDENCY_RULE = 14, /* declared dependency; or commit while a child is active, or of a child whose parent has ended */
  SAGA_DIRTY_READ = 15,      /* dirty read */
  SAGA_ON_RING = 16,         /* on a ring */
  SAGA_MUST_WAIT = 17,       /* undo must wait */
  SAGA_FULL = 18,            /* 256 operations accepted already */
  SAGA_NO_ROOM = 19,         /* lent room too small */
  SAGA_ALREADY_ENDED = 20,   /* operation already ended */
  SAGA_NEVER_MOVES = 21,     /* tables that can never move */
  SAGA_UNDO_ON_RING = 22,    /* operation, delegation or commit of a child that would put an active undo on a ring */
  SAGA_TOO_MANY_BOOKS = 23   /* 1,000 books are counted already; saga_add alone */
};

/* The answer of every function that can refuse, but saga_add: always the same four numbers. */
struct saga_answer {
  uint64_t refusal; /* a saga_refusal: 0 if nothing ended the reading; see count */
  uint64_t events;  /* how many events of the book are accepted, before the refusal if there is one */
  uint64_t place;   /* where the refusal is: in bytes of the book, or for saga_write in fields; 0 if there is none */
  uint64_t count;   /* how many bytes, fields or transactions were written, 0 after a refusal; of saga_read, how many events were passed over */
};

/* The events of a book, by their codes. */
enum saga_event {
  SAGA_BEGIN = 1,      /* transaction */
  SAGA_COMMIT = 2,     /* transaction */
  SAGA_ABORT = 3,      /* transaction */
  SAGA_OPERATION = 4,  /* transaction, object, 0 read or 1 write */
  SAGA_DELEGATE = 5,   /* transaction, receiver, operation number */
  SAGA_COMMIT_ONE = 6, /* transaction, operation number */
  SAGA_ABORT_ONE = 7,  /* transaction, operation number */
  SAGA_SPAWN = 8       /* parent, child */
};

/* What is to be done for a saga: SAGA_BEGIN, SAGA_COMMIT or SAGA_ABORT, or one of these. */
enum saga_no_event {
  SAGA_NONE = 0,     /* nothing is to be done */
  SAGA_NO_SAGA = 255 /* there is no such saga; so it is of every index where the tables are refused */
};

/* The closing step of a saga. */
struct saga_step {
  uint64_t event;       /* SAGA_BEGIN, SAGA_COMMIT, SAGA_ABORT, SAGA_NONE or SAGA_NO_SAGA */
  uint64_t transaction; /* its transaction, 0 if there is no step */
  uint64_t outstanding; /* how many steps are left, this one counted: 0 when there is no step */
  uint64_t settled;     /* 1 if the saga is finished or put back, 0 if it is not begun or still owes something */
};

/* Which book came of mending one. */
enum saga_book {
  SAGA_NO_BOOK = 0,   /* none: it was refused */
  SAGA_OWN_BOOK = 1,  /* the caller's own, with which nothing was wrong */
  SAGA_ROOM_BOOK = 2  /* the one at the front of the room; the answer's count is how many bytes it has */
};

/* What came of mending a book. */
struct saga_mended {
  uint64_t book;    /* a saga_book */
  uint64_t dropped; /* how many bytes of the caller's book were dropped */
  uint64_t added;   /* how many closing steps were added */
};

/* The totals of a term. Before the first book all are 0. */
struct saga_totals {
  uint64_t books;      /* how many books were added */
  uint64_t refused;    /* how many of them were refused; what they begin with, up to the refusal, is counted */
  uint64_t begun;      /* how many sagas were begun: as many as the next three together */
  uint64_t committed;  /* how many of these committed */
  uint64_t backed_out; /* how many are settled and did not commit */
  uint64_t open;       /* how many are not settled */
};

/* A share in lowest terms. */
struct saga_ratio {
  uint64_t part;  /* so many */
  uint64_t whole; /* of so many, never 0 */
};

/* Reads a book. Reading on, the answer is the refusal that ends the reading (1 to 7 or 21), if there is one; its count is how many events were
   refused by any other and passed over. To the first refusal, the answer is that, and no event is passed over. */
void saga_read(const uint8_t *book, size_t book_count, uint64_t way, struct saga_answer *answer);

/* Puts the events that were refused and passed over at the front of the list, without the first `skip` of them: for each its index, where all
   events are counted from 0, and then the number of its saga_refusal, so that the k-th has list[2 * k] and list[2 * k + 1]. As many as fit; list_count counts
   numbers, two for an event. It returns how many events that are, 0 where the book is read to the first refusal. All fit into twice as many numbers as saga_read's count; an odd last number is not
   used. Each call reads the book from its start. What lies behind them in the list stays as it was. */
uint64_t saga_refused(const uint8_t *book, size_t book_count, uint64_t way, uint64_t skip, uint64_t *list, size_t list_count);

/* How many bytes the accepted opening of a book has: those before the first event that is refused, or where reading ends, 0 if the tables are refused. Accepted events behind a
   refused one are not in it: whoever goes on writing there drops them. */
uint64_t saga_opening(const uint8_t *book, size_t book_count);

/* Puts the listing of a book at the front of the room; the answer's count is how many bytes it has. 19 is the only refusal here, since every book has a
   listing, and it leaves the room as it was. What lies behind the listing in the room stays as it was. */
void saga_listing(const uint8_t *book, size_t book_count, uint64_t way, uint8_t *room, size_t room_count, struct saga_answer *answer);

/* What is to be done next for the saga of an index, counted from 0, after the accepted events of a book. Above 0 outstanding, the step is
   accepted as the next event and leaves one less. Of an index that is no saga's the event is SAGA_NO_SAGA; so it is of every index of a book whose
   tables are refused. */
void saga_next(const uint8_t *book, size_t book_count, uint64_t way, uint64_t saga, struct saga_step *step);

/* How much is left after the accepted events of a book: the sum of what saga_next calls outstanding over all sagas. Taking all closing steps, saga
   after saga, settles every begun saga in as many events. It is 0 too where the tables are refused, which saga_read tells. */
uint64_t saga_left(const uint8_t *book, size_t book_count, uint64_t way);

/* Puts the transactions that hold a committed operation after the accepted events of a book at the front of the list, in an order in which their committed
   changes can be copied one transaction at a time: where two of them changed the same object, or one read what the other changed, whoever did so first comes
   first. Among those that could come next the lowest number does. The answer's count is how many there are, 0 if the tables are refused. 19 is the only
   refusal here, since every book has an order, and it leaves the list as it was. What lies behind the order in the list stays as it was. */
void saga_replay(const uint8_t *book, size_t book_count, uint64_t way, uint16_t *list, size_t list_count, struct saga_answer *answer);

/* Mends a book. Nothing is wrong with one that is accepted whole, to the first refusal, and whose begun sagas are all settled: it is handed back, whatever the room. Of any other
   the accepted opening is put at the front of the room, and behind it the closing steps of every begun saga that is not settled, saga after saga; such a book is accepted whole, and
   mending it hands it back. An event refused in the middle is dropped with all behind it, and transactions that belong to no saga stay open. The answer's events are those kept. Refusals
   are those of the tables, then 1 if the result would be longer than a book may be, then 19; each leaves the room as it was. A room of SAGA_BOOK_BYTES is never too small. What lies behind
   the result stays as it was. */
void saga_mend(const uint8_t *book, size_t book_count, uint8_t *room, size_t room_count, struct saga_answer *answer, struct saga_mended *mended);

/* Adds a book to the totals of a term. It is read to its first refusal, and what its accepted opening comes to is added: nothing but that there was a book if its tables are
   refused. It returns a saga_refusal: 0 if the book is accepted whole, else that of the book; or 23 if 1,000 books were added already, and the totals stay as they were. A total that
   1,000 books cannot have, over 16,000, counts as 16,000. */
uint64_t saga_add(const uint8_t *book, size_t book_count, struct saga_totals *totals);

/* The share backed out of those begun, in lowest terms; 0 of 1 if none were begun. */
void saga_share(const struct saga_totals *totals, struct saga_ratio *share);

/* Puts the fields of a book that is accepted whole at the front of the room; the answer's count is how many there are, never more than the
   book has bytes. Refusals are those of saga_read to the first refusal, then 19; each leaves the room as it was. What lies behind the fields stays as it was. */
void saga_unpack(const uint8_t *book, size_t book_count, uint32_t *room, size_t room_count, struct saga_answer *answer);

/* Puts the bytes of fields that are a book at the front of the room; the answer's count is how many bytes there are, never more than three
   for a field. Refusals are those of saga_read to the first refusal, with the place counted in fields, then 19; each leaves the room as it was. A field above the
   ceiling of the edition is refused by 3 at its own place, and counts as three bytes where 1 is judged. What lies behind the bytes stays as it was. It keeps a book of 64 KiB on the stack. */
void saga_write(const uint32_t *fields, size_t field_count, uint8_t *room, size_t room_count, struct saga_answer *answer);

/* ---- event by event: a desk

   A desk holds what the tables of a book say and how everything stands after its events. It is opened on a book once; then each event is
   asked, or taken behind all others, and the book is not read again. What is told of it is what the functions above tell of the book with
   the events behind it that were taken and accepted. It is numbers alone: it may be copied, and put aside as bytes and taken up again by the same
   edition of this library. A desk of any other numbers is safe to hand over; what is then told means nothing.

   A desk that was opened where a refusal ended the reading (refused tables, a torn book) takes nothing more: asking and taking answer that
   refusal. Cut the book to its opening first (saga_opening), and open the desk on that.

   A program that writes a book asks before it writes an event, takes it when it is written, and so never writes one that is refused. */
struct saga_desk {
  uint64_t counts[9];
  uint32_t sheet[195];
  uint32_t transactions[SAGA_TRANSACTIONS];
  uint32_t operations[SAGA_OPERATIONS];
  uint32_t records[SAGA_OPERATIONS];
  uint8_t steps[SAGA_SAGAS];
};

/* How many bytes a desk has. */
#define SAGA_DESK_BYTES 3176

/* How a transaction or an operation stands. */
enum saga_phase {
  SAGA_IDLE = 0,          /* a transaction that is not begun; of an operation: there is no such operation */
  SAGA_ACTIVE = 1,        /* at work; of an operation: not finished */
  SAGA_COMMITTED = 2,     /* finished; kept */
  SAGA_ABORTED = 3,       /* broken off; dropped */
  SAGA_NO_TRANSACTION = 4 /* there is no such transaction */
};

/* An operation. */
struct saga_operation {
  uint64_t object;
  uint64_t mark;        /* 0 read, 1 write */
  uint64_t responsible; /* its responsible transaction */
  uint64_t phase;       /* a saga_phase; SAGA_IDLE, and all else 0, if there is no such operation */
};

/* All together. */
struct saga_tally {
  uint64_t sagas;
  uint64_t transactions;
  uint64_t operations; /* accepted so far, which is the number of the next one */
  uint64_t accepted;   /* events; counted up to 65,536, as many as no book has */
  uint64_t refused;    /* events refused and passed over, in the book or by saga_desk_take; counted up to 65,536 */
  uint64_t left;       /* what is outstanding over all sagas */
  uint64_t active;     /* how many transactions are active */
  uint64_t lowest;     /* the lowest active transaction, 64 if there is none */
};

/* These are what the functions below call with the parts of a desk. */
void saga_lent_open(const uint8_t *book, size_t book_count, uint64_t way, uint32_t *sheet, uint32_t *transactions, uint32_t *operations, uint32_t *records, uint8_t *steps, uint64_t *counts, struct saga_answer *answer);
uint64_t saga_lent_ask(const uint32_t *sheet, const uint32_t *transactions, const uint32_t *operations, const uint64_t *counts, uint64_t code, uint64_t a, uint64_t b, uint64_t c, uint64_t d);
uint64_t saga_lent_take(const uint32_t *sheet, uint32_t *transactions, uint32_t *operations, uint32_t *records, uint64_t *counts, uint64_t code, uint64_t a, uint64_t b, uint64_t c, uint64_t d);
uint64_t saga_lent_phase(const uint32_t *sheet, const uint32_t *transactions, uint64_t transaction);
void saga_lent_operation(const uint32_t *operations, const uint64_t *counts, uint64_t number, struct saga_operation *operation);
void saga_lent_next(const uint32_t *transactions, const uint32_t *operations, const uint8_t *steps, const uint64_t *counts, uint64_t saga, struct saga_step *step);
void saga_lent_tally(const uint32_t *transactions, const uint8_t *steps, const uint64_t *counts, struct saga_tally *tally);
void saga_lent_pairs(const uint32_t *transactions, const uint32_t *operations, const uint64_t *counts, uint64_t *rows);
void saga_lent_replay(const uint32_t *operations, const uint64_t *counts, uint16_t *list, size_t list_count, struct saga_answer *answer);
void saga_lent_line(const uint32_t *transactions, const uint32_t *operations, const uint32_t *records, const uint8_t *steps, const uint64_t *counts, uint64_t line, uint8_t *room, size_t room_count, struct saga_answer *answer);

/* Opens a desk on a book that is read in one of the ways, and leaves it as that reading ends; the answer is that of saga_read. Where the tables are
   refused it is the desk of a book that declares nothing. */
static inline void saga_desk_open(struct saga_desk *desk, const uint8_t *book, size_t book_count, uint64_t way, struct saga_answer *answer) {
  saga_lent_open(book, book_count, way, desk->sheet, desk->transactions, desk->operations, desk->records, desk->steps, desk->counts, answer);
}

/* Whether an event would be accepted behind all others: 0, or the number of its saga_refusal. The desk stays as it is. The event is given as it stands in
   a book: its code, a saga_event, and the fields that follow it, of which it has one to four; what is past them is not looked at. The fourth is the record of an
   operation, in a book of edition 2 alone. Any other code is refused by 7, a record above SAGA_MOST_2 by 3, and a mark other than 0 and 1 by 8. */
static inline uint64_t saga_desk_ask(const struct saga_desk *desk, uint64_t code, uint64_t a, uint64_t b, uint64_t c, uint64_t d) {
  return saga_lent_ask(desk->sheet, desk->transactions, desk->operations, desk->counts, code, a, b, c, d);
}

/* Takes an event behind all others: what saga_desk_ask answers, and if that is 0 the desk is moved on behind the event. A refused event is counted
   and changes nothing else; one refused by 3 or 7, and any on a desk that takes nothing more, is not counted either. */
static inline uint64_t saga_desk_take(struct saga_desk *desk, uint64_t code, uint64_t a, uint64_t b, uint64_t c, uint64_t d) {
  return saga_lent_take(desk->sheet, desk->transactions, desk->operations, desk->records, desk->counts, code, a, b, c, d);
}

/* How a transaction stands: a saga_phase. */
static inline uint64_t saga_desk_phase(const struct saga_desk *desk, uint64_t transaction) {
  return saga_lent_phase(desk->sheet, desk->transactions, transaction);
}

/* The operation of a number. */
static inline void saga_desk_operation(const struct saga_desk *desk, uint64_t number, struct saga_operation *operation) {
  saga_lent_operation(desk->operations, desk->counts, number, operation);
}

/* What is to be done next for the saga of an index, as saga_next tells it of a book. */
static inline void saga_desk_next(const struct saga_desk *desk, uint64_t saga, struct saga_step *step) {
  saga_lent_next(desk->transactions, desk->operations, desk->steps, desk->counts, saga, step);
}

/* How many there are of each, how much is left, and who is active. */
static inline void saga_desk_tally(const struct saga_desk *desk, struct saga_tally *tally) {
  saga_lent_tally(desk->transactions, desk->steps, desk->counts, tally);
}

/* Who stands before whom by one tie: bit b of row a is 1 if transaction a stands before b. There are SAGA_TRANSACTIONS rows. */
static inline void saga_desk_pairs(const struct saga_desk *desk, uint64_t *rows) {
  saga_lent_pairs(desk->transactions, desk->operations, desk->counts, rows);
}

/* The order to replay in, as saga_replay tells it of a book. */
static inline void saga_desk_replay(const struct saga_desk *desk, uint16_t *list, size_t list_count, struct saga_answer *answer) {
  saga_lent_replay(desk->operations, desk->counts, list, list_count, answer);
}

/* Puts one line of the listing at the front of the room, counted from 0: the first line, then those of transactions, operations and sagas; the lines of refused
   events are not among them. The answer's count is how many bytes it has, 0 where there is no such line; 19 is the only refusal, and it leaves the room as it
   was. SAGA_LINE_BYTES are always enough. */
static inline void saga_desk_line(const struct saga_desk *desk, uint64_t line, uint8_t *room, size_t room_count, struct saga_answer *answer) {
  saga_lent_line(desk->transactions, desk->operations, desk->records, desk->steps, desk->counts, line, room, room_count, answer);
}

#ifdef __cplusplus
}
#endif

#endif
