/* A runner in C: a program that does the steps of a move and keeps the book of what it does. It asks before each event, so that nothing is done that the rules
   forbid; and when it comes up after a crash, it puts back every move that was broken off. Here it plays both, with a book in memory and a crash in the
   middle of an event. */
#include "sagalib.h"

int printf(const char *format, ...);

/* The book. A service has it in a file, and an event is written there, and safe there, before anything is done. */
static uint8_t book[SAGA_BOOK_BYTES];
static size_t book_count;
static struct saga_desk desk;

/* One move of three steps: saga 0, steps 1 to 3, undos 4 and 5. Then two clerks, 6 and 7. Two objects. No dependencies. */
static const uint8_t tables[] = {1, 1, 3, 2, 2, 0};
enum { move = 0, first_clerk = 6, clerks_end = 8 };

/* What it takes to put everything back is kept free in the book. The closing steps of all sagas and the aborts of all clerks are events of two bytes, and never more
   than there are transactions; and an undo here writes one object, in an event of four. */
static const size_t kept_free = (2 + 4) * SAGA_TRANSACTIONS;

static size_t field(uint64_t v, uint8_t *room) {
  size_t n = 0;
  while (v > 127) {
    room[n++] = (uint8_t)(v % 128 + 128);
    v /= 128;
  }
  room[n++] = (uint8_t)v;
  return n;
}

/* Asks for an event of so many fields, and if it is allowed writes it down and takes it. 0, or why not; SAGA_TOO_LONG if the book is full. */
static uint64_t record(size_t fields, uint64_t code, uint64_t a, uint64_t b, uint64_t c, size_t free) {
  uint64_t refusal = saga_desk_ask(&desk, code, a, b, c, 0);
  if (refusal != SAGA_ACCEPTED) return refusal;
  uint64_t numbers[] = {code, a, b, c};
  uint8_t bytes[12];
  size_t n = 0;
  for (size_t i = 0; i < fields; i++) n += field(numbers[i], bytes + n);
  if (SAGA_BOOK_BYTES < book_count + n + free) return SAGA_TOO_LONG;
  for (size_t i = 0; i < n; i++) book[book_count + i] = bytes[i];
  book_count += n;
  return saga_desk_take(&desk, code, a, b, c, 0);
}

static uint64_t begin(uint64_t t) { return record(2, SAGA_BEGIN, t, 0, 0, kept_free); }
static uint64_t commit(uint64_t t) { return record(2, SAGA_COMMIT, t, 0, 0, kept_free); }
static uint64_t writes(uint64_t t, uint64_t object, size_t free) { return record(4, SAGA_OPERATION, t, object, 1, free); }

/* What comes first after a crash: the torn end is cut off, and the desk opened on what is left. */
static uint64_t come_up(void) {
  struct saga_answer answer;
  book_count = saga_opening(book, book_count);
  saga_desk_open(&desk, book, book_count, SAGA_READ_ON, &answer);
  return answer.refusal;
}

/* Then everything that was at work is ended. The clerks are dead, and go first: an undo would have to wait for what they hold (17). Then saga after saga, one closing step
   after another; an undo does its own writes when it is begun. Each of these is accepted, and each leaves one less to do. */
static uint64_t put_back(void) {
  for (uint64_t t = first_clerk; t < clerks_end; t++) {
    if (saga_desk_phase(&desk, t) != SAGA_ACTIVE) continue;
    uint64_t refusal = record(2, SAGA_ABORT, t, 0, 0, 0);
    if (refusal != SAGA_ACCEPTED) return refusal;
  }
  struct saga_step step;
  for (uint64_t saga = 0;; saga++) {
    saga_desk_next(&desk, saga, &step);
    if (step.event == SAGA_NO_SAGA) return SAGA_ACCEPTED;
    while (step.event != SAGA_NONE) {
      uint64_t refusal = record(2, step.event, step.transaction, 0, 0, 0);
      if (refusal != SAGA_ACCEPTED) return refusal;
      if (step.event == SAGA_BEGIN) {
        refusal = writes(step.transaction, 0, 0);
        if (refusal != SAGA_ACCEPTED) return refusal;
      }
      saga_desk_next(&desk, saga, &step);
    }
  }
}

static void show(void) {
  uint8_t room[SAGA_LINE_BYTES];
  struct saga_answer answer;
  for (uint64_t k = 0;; k++) {
    saga_desk_line(&desk, k, room, sizeof room, &answer);
    if (answer.count == 0) return;
    printf("%.*s", (int)answer.count, (const char *)room);
  }
}

int main(void) {
  for (size_t i = 0; i < sizeof tables; i++) book[book_count++] = tables[i];
  if (come_up() != SAGA_ACCEPTED) return 1;

  /* the first step writes and is done, the second is begun; one that comes too early is not written down */
  if (begin(move) || begin(1) || writes(1, 0, kept_free) || commit(1) || begin(2)) return 1;
  if (begin(3) != SAGA_SAGA_RULE) return 1;
  /* a clerk is at work on the same object, and the program stops while it writes down an event */
  if (begin(6) || writes(6, 0, kept_free)) return 1;
  book[book_count++] = SAGA_COMMIT;

  if (come_up() != SAGA_ACCEPTED || put_back() != SAGA_ACCEPTED) return 1;
  show();

  /* the book is whole again, nothing in it is refused, and nothing is left to do */
  struct saga_answer answer;
  saga_read(book, book_count, SAGA_TO_FIRST_REFUSAL, &answer);
  return answer.refusal != SAGA_ACCEPTED || saga_left(book, book_count, SAGA_READ_ON) != 0;
}
