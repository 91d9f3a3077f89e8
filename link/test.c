/* Calls libsagalib.a through sagalib.h. What differs from the rules is told, and the status is then 1. */
#include "sagalib.h"

/* These three are all that is used of the C library. They are declared here, so that no header of another processor is needed. */
int printf(const char *format, ...);
int memcmp(const void *a, const void *b, size_t n);
void *memcpy(void *to, const void *from, size_t n);

_Static_assert(sizeof(struct saga_answer) == 4 * sizeof(uint64_t), "an answer is four numbers");
_Static_assert(sizeof(struct saga_step) == 4 * sizeof(uint64_t), "a step is four numbers");
_Static_assert(sizeof(struct saga_mended) == 3 * sizeof(uint64_t), "what came of mending is three numbers");
_Static_assert(sizeof(struct saga_operation) == 4 * sizeof(uint64_t), "an operation is four numbers");
_Static_assert(sizeof(struct saga_tally) == 8 * sizeof(uint64_t), "a tally is eight numbers");
_Static_assert(sizeof(struct saga_desk) == SAGA_DESK_BYTES, "a desk is as long as it is said to be");

static int differences;

static void check(int line, int holds, const char *what) {
  if (!holds) {
    printf("test.c:%d: %s\n", line, what);
    differences += 1;
  }
}

#define CHECK(fact) check(__LINE__, (fact), #fact)

static void check_answer(int line, struct saga_answer a, uint64_t refusal, uint64_t events, uint64_t place, uint64_t count) {
  if (a.refusal != refusal || a.events != events || a.place != place || a.count != count) {
    printf("test.c:%d: answer %llu %llu %llu %llu\n", line, (unsigned long long)a.refusal, (unsigned long long)a.events,
           (unsigned long long)a.place, (unsigned long long)a.count);
    differences += 1;
  }
}

#define ANSWER(a, refusal, events, place, count) check_answer(__LINE__, (a), (refusal), (events), (place), (count))

static void check_step(int line, struct saga_step s, uint64_t event, uint64_t transaction, uint64_t outstanding, uint64_t settled) {
  if (s.event != event || s.transaction != transaction || s.outstanding != outstanding || s.settled != settled) {
    printf("test.c:%d: step %llu %llu %llu %llu\n", line, (unsigned long long)s.event, (unsigned long long)s.transaction,
           (unsigned long long)s.outstanding, (unsigned long long)s.settled);
    differences += 1;
  }
}

#define STEP(s, event, transaction, outstanding, settled) check_step(__LINE__, (s), (event), (transaction), (outstanding), (settled))

/* What rooms and answers hold before a call, so that a number that is not written shows. */
static const uint8_t byte_pattern = 0xA5;
static const uint32_t field_pattern = 0xA5C3A5C3;
static const uint16_t order_pattern = 0xA5C3;
static const struct saga_answer no_answer = {77, 77, 77, 77};
static const struct saga_step no_step = {77, 77, 77, 77};
static const struct saga_mended no_mended = {77, 77, 77};

static void fill_bytes(uint8_t *room, size_t n) {
  for (size_t i = 0; i < n; i++) room[i] = byte_pattern;
}

static void fill_fields(uint32_t *room, size_t n) {
  for (size_t i = 0; i < n; i++) room[i] = field_pattern;
}

static int bytes_untouched(const uint8_t *room, size_t from, size_t to) {
  for (size_t i = from; i < to; i++)
    if (room[i] != byte_pattern) return 0;
  return 1;
}

static int fields_untouched(const uint32_t *room, size_t from, size_t to) {
  for (size_t i = from; i < to; i++)
    if (room[i] != field_pattern) return 0;
  return 1;
}

static void fill_order(uint16_t *list, size_t n) {
  for (size_t i = 0; i < n; i++) list[i] = order_pattern;
}

static int order_untouched(const uint16_t *list, size_t from, size_t to) {
  for (size_t i = from; i < to; i++)
    if (list[i] != order_pattern) return 0;
  return 1;
}

static struct saga_answer read_in_way(const uint8_t *book, size_t n, uint64_t way) {
  struct saga_answer answer = no_answer;
  saga_read(book, n, way, &answer);
  return answer;
}

static struct saga_answer read_book(const uint8_t *book, size_t n) { return read_in_way(book, n, SAGA_READ_ON); }

static struct saga_step next_step(const uint8_t *book, size_t n, uint64_t saga) {
  struct saga_step step = no_step;
  saga_next(book, n, SAGA_READ_ON, saga, &step);
  return step;
}

/* The listing's book, with room for more events, and its listing. */
static uint8_t listed[32] = {0x01, 0x01, 0x02, 0x01, 0x01, 0x00, 0x01, 0x00, 0x01, 0x01, 0x01, 0x04,
                             0x04, 0x01, 0x00, 0x01, 0x05, 0x01, 0x04, 0x00, 0x02, 0x01, 0x03, 0x00};
static const size_t listed_size = 24;

#define TRANSACTIONS_AND_OPERATION "t 0 aborted\nt 1 committed\nt 2 idle\nt 3 idle\nt 4 active\nop 0 0 write 4 active\n"
#define LATER_LINES TRANSACTIONS_AND_OPERATION "saga 0 2 begin 3\n"

static size_t text_size(const char *text) {
  size_t n = 0;
  while (text[n] != 0) n += 1;
  return n;
}

/* The listing of a book is this text: in a large room, in one that just holds it, and not in one that is a byte too small. */
static void check_listing(int at, const uint8_t *book, size_t n, uint64_t way, const char *text, uint64_t events) {
  static uint8_t room[SAGA_LISTING_BYTES];
  size_t size = text_size(text);
  size_t rooms[] = {sizeof room, size};
  for (size_t i = 0; i < 2; i++) {
    struct saga_answer answer = no_answer;
    fill_bytes(room, sizeof room);
    saga_listing(book, n, way, room, rooms[i], &answer);
    check_answer(at, answer, 0, events, 0, size);
    check(at, memcmp(room, text, size) == 0, text);
    check(at, bytes_untouched(room, size, sizeof room), "behind the listing");
  }

  struct saga_answer answer = no_answer;
  fill_bytes(room, sizeof room);
  saga_listing(book, n, way, room, size - 1, &answer);
  check_answer(at, answer, SAGA_NO_ROOM, events, 0, 0);
  check(at, bytes_untouched(room, 0, sizeof room), "a room that is too small");
}

#define LISTING(book, n, way, text, events) check_listing(__LINE__, (book), (n), (way), (text), (events))

static void the_listing(void) {
  ANSWER(read_book(listed, listed_size), 0, 7, 0, 0);
  CHECK(saga_opening(listed, listed_size) == 24);
  for (uint64_t way = 0; way < 4; way++) LISTING(listed, listed_size, way, "book accepted 7\n" LATER_LINES, 7);

  STEP(next_step(listed, listed_size, 0), SAGA_BEGIN, 3, 2, 0);
  STEP(next_step(listed, listed_size, 1), SAGA_NO_SAGA, 0, 0, 0);
  STEP(next_step(listed, listed_size, 16), SAGA_NO_SAGA, 0, 0, 0);
  STEP(next_step(listed, listed_size, UINT64_MAX), SAGA_NO_SAGA, 0, 0, 0);
}

/* P5: the undo is begun and committed. P6: the second step instead. */
static void after_the_listing(void) {
  uint8_t book[32];
  memcpy(book, listed, listed_size);
  memcpy(book + 24, "\x01\x03\x02\x03", 4);
  ANSWER(read_book(book, 26), 0, 8, 0, 0);
  STEP(next_step(book, 26, 0), SAGA_COMMIT, 3, 1, 0);
  ANSWER(read_book(book, 28), 0, 9, 0, 0);
  STEP(next_step(book, 28, 0), SAGA_NONE, 0, 0, 1);

  book[25] = 0x02;
  ANSWER(read_in_way(book, 26, SAGA_TO_FIRST_REFUSAL), SAGA_SAGA_RULE, 7, 24, 0);
  ANSWER(read_book(book, 26), 0, 7, 0, 1);
  CHECK(saga_opening(book, 26) == 24);
  LISTING(book, 26, SAGA_TO_FIRST_REFUSAL, "book refused 13 7 24\n" LATER_LINES, 7);
  LISTING(book, 26, SAGA_READ_ON, "book accepted 7\nno 7 13\n" LATER_LINES, 7);
  STEP(next_step(book, 26, 0), SAGA_BEGIN, 3, 2, 0);

  uint32_t fields[32];
  struct saga_answer answer = no_answer;
  fill_fields(fields, 32);
  saga_unpack(book, 26, fields, 32, &answer);
  ANSWER(answer, SAGA_SAGA_RULE, 7, 24, 0);
  CHECK(fields_untouched(fields, 0, 32));
}

/* Refused events in the middle: the undo is begun twice, the second step begun, and the undo committed all the same. */
static void read_on(void) {
  uint8_t book[32];
  memcpy(book, listed, listed_size);
  memcpy(book + 24, "\x01\x03\x01\x03\x01\x02\x02\x03", 8);
  ANSWER(read_book(book, 32), 0, 9, 0, 2);
  ANSWER(read_in_way(book, 32, SAGA_TO_FIRST_REFUSAL), SAGA_NOT_IDLE, 8, 26, 0);
  CHECK(saga_opening(book, 32) == 26);
  LISTING(book, 32, SAGA_READ_ON,
          "book accepted 9\nno 8 10\nno 9 13\nt 0 aborted\nt 1 committed\nt 2 idle\nt 3 committed\nt 4 active\n"
          "op 0 0 write 4 active\nsaga 0 0 none\n",
          9);
  STEP(next_step(book, 32, 0), SAGA_NONE, 0, 0, 1);
  CHECK(saga_left(book, 32, SAGA_READ_ON) == 0);
  CHECK(saga_left(book, 32, SAGA_TO_FIRST_REFUSAL) == 1);

  /* then torn: what was passed over before is told all the same */
  ANSWER(read_book(book, 31), SAGA_TORN, 8, 31, 2);
  CHECK(saga_opening(book, 31) == 26);
}

static const uint64_t number_pattern = 0xA5C3A5C3A5C3A5C3;

/* The refused events of this book of two plain transactions, which nobody begins: 0 commits at 0, 1 commits at 1, 0 reads object 0 at 2. From the one on that so
   many others come before, this many fit a list of so many numbers. */
static void check_refused(int at, uint64_t way, uint64_t skip, size_t size, size_t n) {
  static const uint8_t book[] = {0x01, 0x00, 0x02, 0x00, 0x00, 0x02, 0x00, 0x02, 0x01, 0x04, 0x00, 0x00, 0x00};
  static const uint64_t all[] = {0, SAGA_NOT_ACTIVE, 1, SAGA_NOT_ACTIVE, 2, SAGA_NOT_IN_TABLES};
  uint64_t list[8];
  for (size_t i = 0; i < 8; i++) list[i] = number_pattern;
  check(at, saga_refused(book, sizeof book, way, skip, list, size) == n, "how many refused events");
  for (size_t i = 0; i < 2 * n; i++) check(at, list[i] == all[2 * skip + i], "a refused event");
  for (size_t i = 2 * n; i < 8; i++) check(at, list[i] == number_pattern, "behind the refused events");
}

static void refused_events(void) {
  check_refused(__LINE__, SAGA_READ_ON, 0, 8, 3);
  check_refused(__LINE__, SAGA_READ_ON + SAGA_PERMIT_CIRCLES, 0, 6, 3);
  check_refused(__LINE__, SAGA_READ_ON, 0, 5, 2);
  check_refused(__LINE__, SAGA_READ_ON, 1, 8, 2);
  check_refused(__LINE__, SAGA_READ_ON, 2, 2, 1);
  check_refused(__LINE__, SAGA_READ_ON, 3, 8, 0);
  check_refused(__LINE__, SAGA_READ_ON, UINT64_MAX, 8, 0);
  check_refused(__LINE__, SAGA_READ_ON, 0, 1, 0);
  check_refused(__LINE__, SAGA_READ_ON, 0, 0, 0);
  check_refused(__LINE__, SAGA_TO_FIRST_REFUSAL, 0, 8, 0);
  check_refused(__LINE__, SAGA_TO_FIRST_REFUSAL + SAGA_PERMIT_CIRCLES, 0, 8, 0);
}

/* Each of two transactions declares that it begins on the commit of the other: such tables are refused, unless circles are permitted. Then neither begins. */
static void circles(void) {
  static const uint8_t book[] = {0x01, 0x00, 0x02, 0x00, 0x02, 0x00, 0x01, 0x06, 0x01, 0x00, 0x06, 0x01, 0x00};
  ANSWER(read_book(book, sizeof book), SAGA_NEVER_MOVES, 0, 4, 0);
  LISTING(book, sizeof book, SAGA_READ_ON, "book refused 21 0 4\n", 0);
  LISTING(book, sizeof book, SAGA_TO_FIRST_REFUSAL, "book refused 21 0 4\n", 0);
  ANSWER(read_in_way(book, sizeof book, SAGA_READ_ON + SAGA_PERMIT_CIRCLES), 0, 0, 0, 1);
  ANSWER(read_in_way(book, sizeof book, SAGA_TO_FIRST_REFUSAL + SAGA_PERMIT_CIRCLES), SAGA_DEPENDENCY_RULE, 0, 11, 0);
  LISTING(book, sizeof book, SAGA_READ_ON + SAGA_PERMIT_CIRCLES, "book accepted 0\nno 0 14\nt 0 idle\nt 1 idle\n", 0);
  LISTING(book, sizeof book, SAGA_TO_FIRST_REFUSAL + SAGA_PERMIT_CIRCLES, "book refused 14 0 11\nt 0 idle\nt 1 idle\n", 0);
}

static void empty_and_torn(void) {
  ANSWER(read_book(listed, 0), SAGA_TORN, 0, 0, 0);
  CHECK(saga_opening(listed, 0) == 0);
  for (uint64_t way = 0; way < 4; way++) LISTING(listed, 0, way, "book refused 2 0 0\n", 0);
  STEP(next_step(listed, 0, 0), SAGA_NO_SAGA, 0, 0, 0);

  /* torn before the transaction of the last event: the saga is still active */
  ANSWER(read_book(listed, 23), SAGA_TORN, 6, 23, 0);
  CHECK(saga_opening(listed, 23) == 22);
  LISTING(listed, 23, SAGA_READ_ON,
          "book refused 2 6 23\nt 0 active\nt 1 committed\nt 2 idle\nt 3 idle\nt 4 active\nop 0 0 write 4 active\nsaga 0 3 abort 0\n", 6);
  STEP(next_step(listed, 23, 0), SAGA_ABORT, 0, 3, 0);

  /* torn inside a number */
  uint8_t book[32];
  memcpy(book, listed, listed_size);
  memcpy(book + 24, "\x01\x80", 2);
  ANSWER(read_book(book, 26), SAGA_TORN, 7, 25, 0);

  /* torn tables */
  ANSWER(read_book(listed, 4), SAGA_TORN, 0, 4, 0);
  CHECK(saga_opening(listed, 4) == 0);
  CHECK(saga_left(listed, 4, SAGA_READ_ON) == 0);

  uint32_t fields[32];
  struct saga_answer answer = no_answer;
  fill_fields(fields, 32);
  saga_unpack(listed, 0, fields, 32, &answer);
  ANSWER(answer, SAGA_TORN, 0, 0, 0);
  answer = no_answer;
  saga_unpack(listed, 23, fields, 32, &answer);
  ANSWER(answer, SAGA_TORN, 6, 23, 0);
  CHECK(fields_untouched(fields, 0, 32));
}

/* Taking the closing step again and again settles the saga of a torn book: each is accepted, and leaves one less. */
static void closed_step_by_step(void) {
  uint8_t book[64];
  size_t n = saga_opening(listed, 23);
  memcpy(book, listed, n);
  struct saga_step step = next_step(book, n, 0);
  uint64_t left = step.outstanding, events = 6;
  CHECK(left == 3);
  while (left > 0 && n + 2 <= sizeof book) {
    book[n] = (uint8_t)step.event;
    book[n + 1] = (uint8_t)step.transaction;
    n += 2;
    left -= 1;
    events += 1;
    ANSWER(read_book(book, n), 0, events, 0, 0);
    step = next_step(book, n, 0);
    CHECK(step.outstanding == left);
    CHECK(saga_left(book, n, SAGA_READ_ON) == left);
  }
  STEP(step, SAGA_NONE, 0, 0, 1);
}

/* Transaction 1 changes an object and finishes before 0 does the same; 2, which is still active, has kept its read of it. */
static const uint8_t replayed[] = {0x01, 0x00, 0x03, 0x01, 0x00, 0x01, 0x01, 0x04, 0x01, 0x00, 0x01, 0x02, 0x01, 0x01, 0x00, 0x04,
                                   0x00, 0x00, 0x01, 0x02, 0x00, 0x01, 0x02, 0x04, 0x02, 0x00, 0x00, 0x06, 0x02, 0x02};

/* The order of these first bytes of it is the first n of 1, 0, 2: in a long list, in one that just holds it, and not in one that is too short. */
static void check_order(int at, size_t size, uint64_t events, size_t n) {
  static const uint16_t order[] = {1, 0, 2};
  uint16_t list[SAGA_TRANSACTIONS];
  size_t rooms[] = {SAGA_TRANSACTIONS, n};
  for (size_t i = 0; i < 2; i++) {
    struct saga_answer answer = no_answer;
    fill_order(list, SAGA_TRANSACTIONS);
    saga_replay(replayed, size, SAGA_READ_ON, list, rooms[i], &answer);
    check_answer(at, answer, 0, events, 0, n);
    check(at, memcmp(list, order, n * sizeof list[0]) == 0, "the order");
    check(at, order_untouched(list, n, SAGA_TRANSACTIONS), "behind the order");
  }
  for (size_t room = 0; room < n; room++) {
    struct saga_answer answer = no_answer;
    fill_order(list, SAGA_TRANSACTIONS);
    saga_replay(replayed, size, SAGA_READ_ON, list, room, &answer);
    check_answer(at, answer, SAGA_NO_ROOM, events, 0, 0);
    check(at, order_untouched(list, 0, SAGA_TRANSACTIONS), "a list that is too short");
  }
}

static void replayed_in_order(void) {
  ANSWER(read_book(replayed, 30), 0, 9, 0, 0);
  check_order(__LINE__, 30, 9, 3);
  /* torn: of the accepted opening; refused tables: nobody, whatever the list */
  check_order(__LINE__, 29, 8, 2);
  check_order(__LINE__, 13, 3, 1);
  check_order(__LINE__, 5, 0, 0);
  check_order(__LINE__, 4, 0, 0);
}

static void unpacked_and_written(void) {
  uint32_t fields[32];
  struct saga_answer answer = no_answer;
  fill_fields(fields, 32);
  saga_unpack(listed, listed_size, fields, 23, &answer);
  ANSWER(answer, SAGA_NO_ROOM, 7, 0, 0);
  CHECK(fields_untouched(fields, 0, 32));

  answer = no_answer;
  saga_unpack(listed, listed_size, fields, 32, &answer);
  ANSWER(answer, 0, 7, 0, 24);
  for (size_t i = 0; i < 24; i++) CHECK(fields[i] == listed[i]);
  CHECK(fields_untouched(fields, 24, 32));

  answer = no_answer;
  fill_fields(fields, 32);
  saga_unpack(listed, listed_size, fields, 24, &answer);
  ANSWER(answer, 0, 7, 0, 24);
  CHECK(fields[23] == listed[23]);

  uint8_t room[32];
  answer = no_answer;
  fill_bytes(room, 32);
  saga_write(fields, 24, room, 23, &answer);
  ANSWER(answer, SAGA_NO_ROOM, 7, 0, 0);
  CHECK(bytes_untouched(room, 0, 32));

  answer = no_answer;
  saga_write(fields, 24, room, 32, &answer);
  ANSWER(answer, 0, 7, 0, 24);
  CHECK(memcmp(room, listed, 24) == 0);
  CHECK(bytes_untouched(room, 24, 32));

  answer = no_answer;
  fill_bytes(room, 32);
  saga_write(fields, 24, room, 24, &answer);
  ANSWER(answer, 0, 7, 0, 24);
  CHECK(memcmp(room, listed, 24) == 0);

  /* no fields */
  answer = no_answer;
  fill_bytes(room, 32);
  saga_write(fields, 0, room, 32, &answer);
  ANSWER(answer, SAGA_TORN, 0, 0, 0);
  CHECK(bytes_untouched(room, 0, 32));

  /* a field of two bytes before the place: bytes are counted in reading, fields in writing */
  static const uint32_t torn[] = {1, 0, 1, 1, 0, 5, 300};
  static const uint8_t torn_bytes[] = {0x01, 0x00, 0x01, 0x01, 0x00, 0x05, 0xAC, 0x02};
  answer = no_answer;
  saga_write(torn, 7, room, 32, &answer);
  ANSWER(answer, SAGA_TORN, 0, 7, 0);
  CHECK(bytes_untouched(room, 0, 32));
  ANSWER(read_book(torn_bytes, 8), SAGA_TORN, 0, 8, 0);
  CHECK(saga_opening(torn_bytes, 8) == 5);
}

/* Fields are not written, and the room is left as it was. */
static void check_not_written(int at, const uint32_t *fields, size_t n, uint64_t refusal, uint64_t events, uint64_t place) {
  uint8_t room[128];
  struct saga_answer answer = no_answer;
  fill_bytes(room, sizeof room);
  saga_write(fields, n, room, sizeof room, &answer);
  check_answer(at, answer, refusal, events, place, 0);
  check(at, bytes_untouched(room, 0, sizeof room), "a room that is not written");
}

#define NOT_WRITTEN(fields, n, refusal, events, place) check_not_written(__LINE__, (fields), (n), (refusal), (events), (place))

/* The listing's book in edition 2, with the largest record beside its operation. */
static void edition_two(void) {
  uint8_t book[27];
  memcpy(book, listed, 16);
  book[0] = 0x02;
  memcpy(book + 16, "\xFF\xFF\x7F", 3);
  memcpy(book + 19, listed + 16, 8);
  ANSWER(read_book(book, 27), 0, 7, 0, 0);
  LISTING(book, 27, SAGA_READ_ON,
          "book accepted 7\nt 0 aborted\nt 1 committed\nt 2 idle\nt 3 idle\nt 4 active\nop 0 0 write 4 active 2097151\nsaga 0 2 begin 3\n", 7);
  LISTING(book, 27, SAGA_TO_FIRST_REFUSAL,
          "book accepted 7\nt 0 aborted\nt 1 committed\nt 2 idle\nt 3 idle\nt 4 active\nop 0 0 write 4 active 2097151\nsaga 0 2 begin 3\n", 7);
  STEP(next_step(book, 27, 0), SAGA_BEGIN, 3, 2, 0);
  /* without its record the operation is torn */
  ANSWER(read_book(book, 16), SAGA_TORN, 3, 16, 0);

  uint32_t fields[32];
  uint8_t room[32];
  struct saga_answer answer = no_answer;
  fill_fields(fields, 32);
  saga_unpack(book, 27, fields, 32, &answer);
  ANSWER(answer, 0, 7, 0, 25);
  CHECK(fields[0] == 2 && fields[16] == SAGA_MOST_2);
  CHECK(fields_untouched(fields, 25, 32));
  answer = no_answer;
  fill_bytes(room, 32);
  saga_write(fields, 25, room, 32, &answer);
  ANSWER(answer, 0, 7, 0, 27);
  CHECK(memcmp(room, book, 27) == 0);
  CHECK(bytes_untouched(room, 27, 32));

  /* above the ceiling, by one and by much */
  fields[16] = SAGA_MOST_2 + 1;
  NOT_WRITTEN(fields, 25, SAGA_BAD_NUMBER, 3, 16);
  fields[16] = 0xFFFFFFFF;
  NOT_WRITTEN(fields, 25, SAGA_BAD_NUMBER, 3, 16);
  /* in edition 1 no record stands there, and the next event has no such code */
  fields[0] = 1;
  fields[16] = SAGA_MOST_1;
  NOT_WRITTEN(fields, 25, SAGA_BAD_CODE, 4, 16);
  fields[16] = SAGA_MOST_1 + 1;
  NOT_WRITTEN(fields, 25, SAGA_BAD_NUMBER, 4, 16);
  /* the edition itself is always under the first ceiling */
  fields[0] = 3;
  NOT_WRITTEN(fields, 25, SAGA_BAD_EDITION, 0, 0);
  fields[0] = SAGA_MOST_1;
  NOT_WRITTEN(fields, 25, SAGA_BAD_EDITION, 0, 0);
  fields[0] = 70000;
  NOT_WRITTEN(fields, 25, SAGA_BAD_NUMBER, 0, 0);
  /* a table count between the two */
  fields[1] = SAGA_MOST_1 + 1;
  fields[0] = 1;
  NOT_WRITTEN(fields, 25, SAGA_BAD_NUMBER, 0, 1);
  fields[0] = 2;
  NOT_WRITTEN(fields, 25, SAGA_BAD_COUNT, 0, 1);
}

/* Mends a book in a room of so many bytes: which book it is, with the numbers of the answer and of what came of it. */
static uint8_t mend_room[SAGA_BOOK_BYTES];

static void check_mend(int at, const uint8_t *book, size_t n, size_t size, struct saga_answer told, struct saga_mended came) {
  struct saga_answer answer = no_answer;
  struct saga_mended mended = no_mended;
  fill_bytes(mend_room, sizeof mend_room);
  saga_mend(book, n, mend_room, size, &answer, &mended);
  check_answer(at, answer, told.refusal, told.events, told.place, told.count);
  check(at, mended.book == came.book && mended.dropped == came.dropped && mended.added == came.added, "what came of mending");
  check(at, bytes_untouched(mend_room, told.count, sizeof mend_room), "behind the mended book");
}

#define MEND(book, n, size, refusal, events, place, count, which, dropped, added)                 \
  check_mend(__LINE__, (book), (n), (size), (struct saga_answer){refusal, events, place, count}, \
             (struct saga_mended){which, dropped, added})

static void mended_books(void) {
  uint8_t whole[32];
  memcpy(whole, listed, listed_size);
  memcpy(whole + 24, "\x01\x03\x02\x03", 4);
  /* torn in an event: in a large room, in one that just holds it, and not in one that is a byte too small */
  MEND(listed, 23, sizeof mend_room, 0, 6, 0, 28, SAGA_ROOM_BOOK, 1, 3);
  CHECK(memcmp(mend_room, whole, 28) == 0);
  MEND(listed, 23, 28, 0, 6, 0, 28, SAGA_ROOM_BOOK, 1, 3);
  CHECK(memcmp(mend_room, whole, 28) == 0);
  MEND(listed, 23, 27, SAGA_NO_ROOM, 6, 0, 0, SAGA_NO_BOOK, 0, 0);
  /* only not settled, and then whole, whatever the room */
  MEND(listed, 24, 28, 0, 7, 0, 28, SAGA_ROOM_BOOK, 0, 2);
  CHECK(memcmp(mend_room, whole, 28) == 0);
  MEND(whole, 28, sizeof mend_room, 0, 9, 0, 0, SAGA_OWN_BOOK, 0, 0);
  MEND(whole, 28, 0, 0, 9, 0, 0, SAGA_OWN_BOOK, 0, 0);
  /* tables */
  MEND(listed, 4, sizeof mend_room, SAGA_TORN, 0, 4, 0, SAGA_NO_BOOK, 0, 0);
}

/* A book of 65,536 bytes: two plain transactions hand one operation to and fro. With one byte more it is too long. */
static uint8_t longest[SAGA_BOOK_BYTES + 1];
static uint8_t bytes_back[SAGA_BOOK_BYTES + 1];
static uint32_t fields_back[SAGA_BOOK_BYTES + 1];

static void long_books(void) {
  static const uint8_t start[16] = {0x01, 0x00, 0x02, 0x01, 0x01, 0x01, 0x00, 0x04, 0x01, 0x00, 0x01, 0x01, 0x04, 0x00, 0x00, 0x01};
  memcpy(longest, start, sizeof start);
  for (size_t i = sizeof start; i < SAGA_BOOK_BYTES; i += 8) {
    memcpy(longest + i, "\x05\x00\x01\x00\x05\x01\x00\x00", 8);
  }
  ANSWER(read_book(longest, SAGA_BOOK_BYTES), 0, 16383, 0, 0);
  CHECK(saga_opening(longest, SAGA_BOOK_BYTES) == SAGA_BOOK_BYTES);
  LISTING(longest, SAGA_BOOK_BYTES, SAGA_READ_ON, "book accepted 16383\nt 0 active\nt 1 active\nop 0 0 write 0 active\n", 16383);

  struct saga_answer answer = no_answer;
  fill_fields(fields_back, SAGA_BOOK_BYTES + 1);
  saga_unpack(longest, SAGA_BOOK_BYTES, fields_back, SAGA_BOOK_BYTES + 1, &answer);
  ANSWER(answer, 0, 16383, 0, SAGA_BOOK_BYTES);
  CHECK(fields_back[SAGA_BOOK_BYTES] == field_pattern);
  answer = no_answer;
  fill_bytes(bytes_back, SAGA_BOOK_BYTES + 1);
  saga_write(fields_back, SAGA_BOOK_BYTES, bytes_back, SAGA_BOOK_BYTES + 1, &answer);
  ANSWER(answer, 0, 16383, 0, SAGA_BOOK_BYTES);
  CHECK(memcmp(bytes_back, longest, SAGA_BOOK_BYTES) == 0);
  CHECK(bytes_back[SAGA_BOOK_BYTES] == byte_pattern);

  /* a byte too long, whatever it is */
  ANSWER(read_book(longest, SAGA_BOOK_BYTES + 1), SAGA_TOO_LONG, 0, 0, 0);
  CHECK(saga_opening(longest, SAGA_BOOK_BYTES + 1) == 0);
  LISTING(longest, SAGA_BOOK_BYTES + 1, SAGA_READ_ON, "book refused 1 0 0\n", 0);
  STEP(next_step(longest, SAGA_BOOK_BYTES + 1, 0), SAGA_NO_SAGA, 0, 0, 0);
  answer = no_answer;
  fill_fields(fields_back, SAGA_BOOK_BYTES + 1);
  saga_unpack(longest, SAGA_BOOK_BYTES + 1, fields_back, SAGA_BOOK_BYTES + 1, &answer);
  ANSWER(answer, SAGA_TOO_LONG, 0, 0, 0);
  CHECK(fields_untouched(fields_back, 0, SAGA_BOOK_BYTES + 1));
  answer = no_answer;
  fill_bytes(bytes_back, SAGA_BOOK_BYTES + 1);
  for (size_t i = 0; i < SAGA_BOOK_BYTES + 1; i++) fields_back[i] = 0;
  saga_write(fields_back, SAGA_BOOK_BYTES + 1, bytes_back, SAGA_BOOK_BYTES + 1, &answer);
  ANSWER(answer, SAGA_TOO_LONG, 0, 0, 0);
  CHECK(bytes_untouched(bytes_back, 0, SAGA_BOOK_BYTES + 1));
}

static void check_totals(int line, struct saga_totals t, uint64_t books, uint64_t refused, uint64_t begun, uint64_t backed_out, uint64_t open) {
  if (t.books != books || t.refused != refused || t.begun != begun || t.committed != 0 || t.backed_out != backed_out || t.open != open) {
    printf("test.c:%d: totals %llu %llu %llu %llu %llu %llu\n", line, (unsigned long long)t.books, (unsigned long long)t.refused,
           (unsigned long long)t.begun, (unsigned long long)t.committed, (unsigned long long)t.backed_out, (unsigned long long)t.open);
    differences += 1;
  }
}

#define TOTALS(t, books, refused, begun, backed_out, open) check_totals(__LINE__, (t), (books), (refused), (begun), (backed_out), (open))

static void check_share(int line, struct saga_totals t, uint64_t part, uint64_t whole) {
  struct saga_ratio share = {77, 77};
  saga_share(&t, &share);
  if (share.part != part || share.whole != whole) {
    printf("test.c:%d: share %llu of %llu\n", line, (unsigned long long)share.part, (unsigned long long)share.whole);
    differences += 1;
  }
}

#define SHARE(t, part, whole) check_share(__LINE__, (t), (part), (whole))

/* The listing's book is open; with its undo it is backed out; torn, its opening counts. */
static void term_figures(void) {
  uint8_t settled[28];
  memcpy(settled, listed, 24);
  memcpy(settled + 24, "\x01\x03\x02\x03", 4);
  struct saga_totals t = {0, 0, 0, 0, 0, 0};
  SHARE(t, 0, 1);
  CHECK(saga_add(listed, 24, &t) == SAGA_ACCEPTED);
  TOTALS(t, 1, 0, 1, 0, 1);
  SHARE(t, 0, 1);
  CHECK(saga_add(settled, 28, &t) == SAGA_ACCEPTED);
  TOTALS(t, 2, 0, 2, 1, 1);
  CHECK(saga_add(listed, 23, &t) == SAGA_TORN);
  TOTALS(t, 3, 1, 3, 1, 2);
  CHECK(saga_add(listed, 0, &t) == SAGA_TORN);
  TOTALS(t, 4, 2, 3, 1, 2);
  SHARE(t, 1, 3);
  CHECK(saga_add(settled, 28, &t) == SAGA_ACCEPTED);
  SHARE(t, 1, 2);

  /* the 1,000th book is read, the 1,001st is not */
  t.books = 999;
  CHECK(saga_add(settled, 28, &t) == SAGA_ACCEPTED);
  TOTALS(t, 1000, 2, 5, 3, 2);
  CHECK(saga_add(settled, 28, &t) == SAGA_TOO_MANY_BOOKS);
  TOTALS(t, 1000, 2, 5, 3, 2);

  /* totals that no books have */
  struct saga_totals most = {0, UINT64_MAX, UINT64_MAX, 0, 0, UINT64_MAX};
  CHECK(saga_add(listed, 24, &most) == SAGA_ACCEPTED);
  TOTALS(most, 1, 16000, 16001, 0, 16001);
  SHARE(most, 0, 1);
}

/* ---- a desk */

static struct saga_answer open_desk(struct saga_desk *desk, const uint8_t *book, size_t n, uint64_t way) {
  struct saga_answer answer = no_answer;
  saga_desk_open(desk, book, n, way, &answer);
  return answer;
}

/* Two desks have the same numbers. */
static int same_desk(const struct saga_desk *a, const struct saga_desk *b) {
  return memcmp(a->counts, b->counts, sizeof a->counts) == 0 && memcmp(a->sheet, b->sheet, sizeof a->sheet) == 0 &&
         memcmp(a->transactions, b->transactions, sizeof a->transactions) == 0 &&
         memcmp(a->operations, b->operations, sizeof a->operations) == 0 && memcmp(a->records, b->records, sizeof a->records) == 0 &&
         memcmp(a->steps, b->steps, sizeof a->steps) == 0;
}

/* The lines of a desk, one after another, are this text: each in a room that just holds it, and not in one that is a byte too small. */
static void check_lines(int at, const struct saga_desk *desk, const char *text, uint64_t events) {
  uint8_t room[SAGA_LINE_BYTES];
  size_t from = 0;
  for (uint64_t k = 0;; k++) {
    struct saga_answer answer = no_answer;
    fill_bytes(room, sizeof room);
    saga_desk_line(desk, k, room, sizeof room, &answer);
    size_t n = answer.count;
    check_answer(at, answer, 0, events, 0, n);
    check(at, bytes_untouched(room, n, sizeof room), "behind the line");
    if (n == 0) break;
    check(at, from + n <= text_size(text) && memcmp(room, text + from, n) == 0, "the line");
    from += n;

    fill_bytes(room, sizeof room);
    saga_desk_line(desk, k, room, n, &answer);
    check_answer(at, answer, 0, events, 0, n);
    fill_bytes(room, sizeof room);
    saga_desk_line(desk, k, room, n - 1, &answer);
    check_answer(at, answer, SAGA_NO_ROOM, events, 0, 0);
    check(at, bytes_untouched(room, 0, sizeof room), "a room that is too small");
  }
  check(at, from == text_size(text), "all lines");
}

#define LINES(desk, text, events) check_lines(__LINE__, (desk), (text), (events))

static struct saga_step desk_step(const struct saga_desk *desk, uint64_t saga) {
  struct saga_step step = no_step;
  saga_desk_next(desk, saga, &step);
  return step;
}

static void check_operation(int at, const struct saga_desk *desk, uint64_t q, uint64_t object, uint64_t mark, uint64_t responsible, uint64_t phase) {
  struct saga_operation op = {77, 77, 77, 77};
  saga_desk_operation(desk, q, &op);
  check(at, op.object == object && op.mark == mark && op.responsible == responsible && op.phase == phase, "the operation");
}

#define OPERATION(desk, q, object, mark, responsible, phase) check_operation(__LINE__, (desk), (q), (object), (mark), (responsible), (phase))

/* Every question, in each way. */
static void desk_questions(void) {
  static const uint64_t phases[] = {SAGA_ABORTED, SAGA_COMMITTED, SAGA_IDLE, SAGA_IDLE, SAGA_ACTIVE, SAGA_NO_TRANSACTION};
  struct saga_desk desk;
  for (uint64_t way = 0; way < 4; way++) {
    ANSWER(open_desk(&desk, listed, listed_size, way), 0, 7, 0, 0);
    for (uint64_t t = 0; t < 6; t++) CHECK(saga_desk_phase(&desk, t) == phases[t]);
    CHECK(saga_desk_phase(&desk, 64) == SAGA_NO_TRANSACTION);
    CHECK(saga_desk_phase(&desk, UINT64_MAX) == SAGA_NO_TRANSACTION);
    OPERATION(&desk, 0, 0, 1, 4, SAGA_ACTIVE);
    OPERATION(&desk, 1, 0, 0, 0, SAGA_IDLE);
    OPERATION(&desk, 256, 0, 0, 0, SAGA_IDLE);
    OPERATION(&desk, UINT64_MAX, 0, 0, 0, SAGA_IDLE);
    STEP(desk_step(&desk, 0), SAGA_BEGIN, 3, 2, 0);
    STEP(desk_step(&desk, 1), SAGA_NO_SAGA, 0, 0, 0);
    STEP(desk_step(&desk, UINT64_MAX), SAGA_NO_SAGA, 0, 0, 0);
    struct saga_tally tally;
    saga_desk_tally(&desk, &tally);
    CHECK(tally.sagas == 1 && tally.transactions == 5 && tally.operations == 1 && tally.accepted == 7);
    CHECK(tally.refused == 0 && tally.left == 2 && tally.active == 1 && tally.lowest == 4);
    LINES(&desk, "book accepted 7\n" LATER_LINES, 7);
  }

  /* who stands before whom, and the order to replay in */
  ANSWER(open_desk(&desk, replayed, sizeof replayed, SAGA_READ_ON), 0, 9, 0, 0);
  uint64_t rows[SAGA_TRANSACTIONS];
  for (size_t t = 0; t < SAGA_TRANSACTIONS; t++) rows[t] = number_pattern;
  saga_desk_pairs(&desk, rows);
  for (size_t t = 0; t < SAGA_TRANSACTIONS; t++) CHECK(rows[t] == (t == 1 ? 5u : t == 0 ? 4u : 0u));
  uint16_t list[SAGA_TRANSACTIONS];
  struct saga_answer answer = no_answer;
  fill_order(list, SAGA_TRANSACTIONS);
  saga_desk_replay(&desk, list, 3, &answer);
  ANSWER(answer, 0, 9, 0, 3);
  CHECK(list[0] == 1 && list[1] == 0 && list[2] == 2 && order_untouched(list, 3, SAGA_TRANSACTIONS));
  fill_order(list, SAGA_TRANSACTIONS);
  saga_desk_replay(&desk, list, 2, &answer);
  ANSWER(answer, SAGA_NO_ROOM, 9, 0, 0);
  CHECK(order_untouched(list, 0, SAGA_TRANSACTIONS));
}

/* What is no event, and a desk that takes nothing more. */
static void desk_refuses(void) {
  struct saga_desk desk, before;
  struct saga_tally tally;
  open_desk(&desk, listed, listed_size, SAGA_READ_ON);
  before = desk;
  CHECK(saga_desk_ask(&desk, 0, 0, 0, 0, 0) == SAGA_BAD_CODE);
  CHECK(saga_desk_take(&desk, 11, 0, 0, 0, 0) == SAGA_BAD_CODE);
  CHECK(saga_desk_take(&desk, UINT64_MAX, 0, 0, 0, 0) == SAGA_BAD_CODE);
  CHECK(saga_desk_ask(&desk, SAGA_OPERATION, 4, 0, 2, 0) == SAGA_NOT_IN_TABLES);
  CHECK(saga_desk_ask(&desk, SAGA_BEGIN, UINT64_MAX, 0, 0, 0) == SAGA_NOT_IN_TABLES);
  CHECK(same_desk(&desk, &before));
  CHECK(saga_desk_take(&desk, SAGA_OPERATION, 4, 0, 2, 0) == SAGA_NOT_IN_TABLES);
  saga_desk_tally(&desk, &tally);
  CHECK(tally.refused == 1 && tally.accepted == 7);

  /* torn, refused in the old way, refused tables */
  ANSWER(open_desk(&desk, listed, 23, SAGA_READ_ON), SAGA_TORN, 6, 23, 0);
  before = desk;
  CHECK(saga_desk_ask(&desk, SAGA_ABORT, 0, 0, 0, 0) == SAGA_TORN);
  CHECK(saga_desk_take(&desk, SAGA_ABORT, 0, 0, 0, 0) == SAGA_TORN);
  CHECK(same_desk(&desk, &before));
  STEP(desk_step(&desk, 0), SAGA_ABORT, 0, 3, 0);
  LINES(&desk, "book refused 2 6 23\nt 0 active\nt 1 committed\nt 2 idle\nt 3 idle\nt 4 active\nop 0 0 write 4 active\nsaga 0 3 abort 0\n", 6);
  uint8_t book[32];
  memcpy(book, listed, listed_size);
  memcpy(book + 24, "\x01\x02", 2);
  ANSWER(open_desk(&desk, book, 26, SAGA_TO_FIRST_REFUSAL), SAGA_SAGA_RULE, 7, 24, 0);
  CHECK(saga_desk_take(&desk, SAGA_BEGIN, 3, 0, 0, 0) == SAGA_SAGA_RULE);
  ANSWER(open_desk(&desk, book, 26, SAGA_READ_ON), 0, 7, 0, 1);
  CHECK(saga_desk_take(&desk, SAGA_BEGIN, 3, 0, 0, 0) == SAGA_ACCEPTED);
  ANSWER(open_desk(&desk, listed, 4, SAGA_READ_ON), SAGA_TORN, 0, 4, 0);
  STEP(desk_step(&desk, 0), SAGA_NO_SAGA, 0, 0, 0);
  LINES(&desk, "book refused 2 0 4\n", 0);
}

/* A book of edition 2: the record of an operation stands behind its line, and one that no field can say is refused by 3. */
static void desk_of_edition_two(void) {
  static const uint8_t book[] = {2, 0, 1, 1, 0, 1, 0};
  struct saga_desk desk, before;
  ANSWER(open_desk(&desk, book, sizeof book, SAGA_READ_ON), 0, 1, 0, 0);
  before = desk;
  CHECK(saga_desk_ask(&desk, SAGA_OPERATION, 0, 0, 1, SAGA_MOST_2 + 1) == SAGA_BAD_NUMBER);
  CHECK(saga_desk_take(&desk, SAGA_OPERATION, 0, 0, 1, SAGA_MOST_2 + 1) == SAGA_BAD_NUMBER);
  CHECK(saga_desk_take(&desk, SAGA_OPERATION, 0, 0, 2, UINT64_MAX) == SAGA_BAD_NUMBER);
  CHECK(same_desk(&desk, &before));
  CHECK(saga_desk_take(&desk, SAGA_OPERATION, 0, 0, 1, SAGA_MOST_2) == SAGA_ACCEPTED);
  CHECK(saga_desk_take(&desk, SAGA_OPERATION, 0, 0, 0, 0) == SAGA_ACCEPTED);
  LINES(&desk, "book accepted 3\nt 0 active\nop 0 0 write 0 active 2097151\nop 1 0 read 0 active 0\n", 3);

  /* in edition 1 no record is looked at */
  uint8_t first[sizeof book];
  memcpy(first, book, sizeof book);
  first[0] = 1;
  ANSWER(open_desk(&desk, first, sizeof first, SAGA_READ_ON), 0, 1, 0, 0);
  CHECK(saga_desk_take(&desk, SAGA_OPERATION, 0, 0, 1, UINT64_MAX) == SAGA_ACCEPTED);
  LINES(&desk, "book accepted 2\nt 0 active\nop 0 0 write 0 active\n", 2);
}

/* A clerk with a helper: the clerk waits for it, the helper keeps nothing alone, and what it did is the clerk's when it is finished. */
static void desk_of_helpers(void) {
  static const uint8_t book[] = {1, 0, 2, 1, 0, 1, 0};
  struct saga_desk desk;
  ANSWER(open_desk(&desk, book, sizeof book, SAGA_READ_ON), 0, 1, 0, 0);
  CHECK(saga_desk_ask(&desk, SAGA_SPAWN, 1, 0, 0, 0) == SAGA_NOT_IDLE);
  CHECK(saga_desk_ask(&desk, SAGA_SPAWN, 0, 2, 0, 0) == SAGA_NOT_IN_TABLES);
  CHECK(saga_desk_take(&desk, SAGA_SPAWN, 0, 1, 0, 0) == SAGA_ACCEPTED);
  CHECK(saga_desk_take(&desk, SAGA_OPERATION, 1, 0, 1, 0) == SAGA_ACCEPTED);
  CHECK(saga_desk_ask(&desk, SAGA_COMMIT, 0, 0, 0, 0) == SAGA_DEPENDENCY_RULE);
  CHECK(saga_desk_ask(&desk, SAGA_COMMIT_ONE, 1, 0, 0, 0) == SAGA_NEVER_DOES);
  CHECK(saga_desk_take(&desk, SAGA_COMMIT, 1, 0, 0, 0) == SAGA_ACCEPTED);
  OPERATION(&desk, 0, 0, 1, 0, SAGA_ACTIVE);
  CHECK(saga_desk_take(&desk, SAGA_COMMIT, 0, 0, 0, 0) == SAGA_ACCEPTED);
  LINES(&desk, "book accepted 5\nt 0 committed\nt 1 committed\nop 0 0 write 0 committed\n", 5);
}

static uint64_t seed;

static uint64_t random_number(void) {
  seed ^= seed << 13;
  seed ^= seed >> 7;
  seed ^= seed << 17;
  return seed;
}

/* Desks of any numbers: every function comes back, and writes only into what it is lent. */
static void desks_of_any_numbers(void) {
  uint8_t room[SAGA_LINE_BYTES + 8];
  uint16_t list[SAGA_TRANSACTIONS + 8];
  uint64_t rows[SAGA_TRANSACTIONS];
  struct saga_operation operation;
  struct saga_tally tally;
  struct saga_answer answer;
  seed = 88172645463325252u;
  for (int round = 0; round < 60; round++) {
    struct saga_desk desk;
    uint8_t *bytes = (uint8_t *)&desk;
    for (size_t i = 0; i < sizeof desk; i++) bytes[i] = (uint8_t)random_number();
    if (round % 2) desk.counts[4] = 0;
    for (uint64_t k = 0; k < 9 && round % 4 == 1; k++) desk.counts[k] %= 300;
    if (round % 3 == 0) desk.counts[8] = 2;
    for (int i = 0; i < 20; i++) {
      uint64_t code = random_number() % 9, a = random_number() % 70, b = random_number() % 70, c = random_number() % 300;
      uint64_t d = random_number() >> (i % 2 ? 0 : 43);
      if (i % 5 == 0) a = random_number();
      uint64_t asked = saga_desk_ask(&desk, code, a, b, c, d);
      CHECK(saga_desk_take(&desk, code, a, b, c, d) == asked);
      saga_desk_phase(&desk, a);
      saga_desk_operation(&desk, c, &operation);
      desk_step(&desk, b);
      fill_bytes(room, sizeof room);
      saga_desk_line(&desk, i == 0 ? 0 : random_number() % 400, room, SAGA_LINE_BYTES, &answer);
      CHECK(bytes_untouched(room, answer.count, sizeof room));
    }
    saga_desk_tally(&desk, &tally);
    saga_desk_pairs(&desk, rows);
    fill_order(list, SAGA_TRANSACTIONS + 8);
    saga_desk_replay(&desk, list, SAGA_TRANSACTIONS, &answer);
    CHECK(order_untouched(list, answer.count, SAGA_TRANSACTIONS + 8));
  }
}

/* Two sagas, of two steps and of one; three plain transactions, of which 7 begins only after 6 was begun; two objects. */
static const uint8_t some_tables[] = {0x01, 0x02, 0x02, 0x01, 0x03, 0x02, 0x01, 0x07, 0x06, 0x04};

/* An event, asked and then taken, against reading the book with it behind: in each way and each edition, on books of random events. */
static void asked_taken_and_read(void) {
  static const size_t fields[] = {0, 2, 2, 2, 4, 4, 3, 3};
  seed = 1181783497276652981u;
  for (uint64_t round = 0; round < 16; round++) {
    uint64_t way = round % 4, edition = round % 8 < 4 ? 1 : 2;
    uint8_t book[1024];
    size_t n = sizeof some_tables;
    memcpy(book, some_tables, n);
    book[0] = (uint8_t)edition;
    struct saga_desk desk;
    ANSWER(open_desk(&desk, book, n, way), 0, 0, 0, 0);
    for (int tries = 0; tries < 120; tries++) {
      uint64_t code = random_number() % 7 + 1, a = random_number() % 10, b = random_number() % (code == 4 ? 3 : 10), c = random_number() % (code == 4 ? 3 : 12);
      if (random_number() % 3) code = random_number() % 3 + 1;
      uint64_t d = random_number() % 128;
      uint64_t numbers[] = {code, a, b, c, d};
      size_t taken = fields[code] + (code == SAGA_OPERATION && edition == 2);
      for (size_t i = 0; i < taken; i++) book[n + i] = (uint8_t)numbers[i];
      size_t longer = n + taken;

      struct saga_desk before = desk, opened;
      uint64_t asked = saga_desk_ask(&desk, code, a, b, c, d);
      CHECK(same_desk(&desk, &before));
      CHECK(saga_desk_take(&desk, code, a, b, c, d) == asked);

      struct saga_answer was = read_in_way(book, n, way), now = open_desk(&opened, book, longer, way);
      if (way % 2 == SAGA_READ_ON) {
        /* the last of the refused events is this one, or it is accepted */
        CHECK(now.refusal == 0 && now.events == was.events + (asked == 0) && now.count == was.count + (asked != 0));
        uint64_t last[2] = {0, 0};
        if (asked != 0) CHECK(saga_refused(book, longer, way, was.count, last, 2) == 1 && last[0] == was.events + was.count && last[1] == asked);
        CHECK(same_desk(&desk, &opened));
        n = longer;
      } else if (asked == 0) {
        ANSWER(now, 0, was.events + 1, 0, 0);
        /* refused events are not in the book, and only the desk has counted them */
        opened.counts[2] = desk.counts[2];
        CHECK(same_desk(&desk, &opened));
        n = longer;
      } else {
        ANSWER(now, asked, was.events, n, 0);
      }
    }
    CHECK(n > sizeof some_tables);
  }
}

int main(void) {
  the_listing();
  after_the_listing();
  read_on();
  refused_events();
  circles();
  empty_and_torn();
  closed_step_by_step();
  replayed_in_order();
  term_figures();
  unpacked_and_written();
  edition_two();
  mended_books();
  long_books();
  desk_questions();
  desk_refuses();
  desk_of_edition_two();
  desk_of_helpers();
  desks_of_any_numbers();
  asked_taken_and_read();
  return differences == 0 ? 0 : 1;
}
