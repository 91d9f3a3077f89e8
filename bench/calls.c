/* How much stack each function of the static library takes, by paint (painted.h): the most over a few books that go far, in every way of reading, each with a saga that is
   given up and its undo at work. */
#include <string.h>

#include "../link/sagalib.h"
#include "painted.h"

int printf(const char *words, ...);

static uint8_t book[SAGA_BOOK_BYTES], bytes[SAGA_LISTING_BYTES];
static uint32_t fields[SAGA_BOOK_BYTES];
static uint64_t numbers[SAGA_TRANSACTIONS];
static uint16_t list[SAGA_TRANSACTIONS];
static size_t size, count;
static uint64_t way;
static struct saga_answer answer;
static struct saga_step step;
static struct saga_mended mended;
static struct saga_totals totals;
static struct saga_ratio ratio;
static struct saga_operation operation;
static struct saga_tally tally;
static struct saga_desk desk;

static void put(const uint8_t *more, size_t n) {
  for (size_t i = 0; i < n; i++)
    book[size++] = more[i];
}

/* A saga of two steps, given up after the first, and its undo at work; 60 clerks, 32 objects, 128 dependencies that bar nothing; 255 operations, of which the clerks hold
   most on one object after the other; and then a change that goes to and fro, or commits that are refused, till the book is full. */
static void fill(const uint8_t *again, size_t n, size_t end) {
  static const uint8_t tables[] = {1, 1, 2, 60, 32, 128, 1};
  static const uint8_t saga[] = {1, 0, 1, 1, 2, 1, 3, 0, 1, 3};
  size = 0;
  put(tables, sizeof tables);
  for (uint8_t k = 0; k < 128; k++) {
    uint8_t entry[] = {(uint8_t)(5 + k / 3), 4, (uint8_t)(1 + k % 3)};
    put(entry, 3);
  }
  put(saga, sizeof saga);
  for (uint8_t t = 4; t < 64; t++) {
    uint8_t begin[] = {1, t};
    put(begin, 2);
  }
  for (size_t q = 0; q < 255; q++) {
    uint8_t change[] = {4, (uint8_t)(4 + (q * 7) % 60), (uint8_t)(1 + q % 31), 1};
    put(change, 4);
  }
  while (size + n <= end)
    put(again, n);
}

static void call_read(void) { saga_read(book, size, way, &answer); }
static void call_refused(void) { saga_refused(book, size, way, 0, numbers, SAGA_TRANSACTIONS); }
static void call_opening(void) { numbers[0] = saga_opening(book, size); }
static void call_listing(void) { saga_listing(book, size, way, bytes, sizeof bytes, &answer); }
static void call_next(void) { saga_next(book, size, way, 0, &step); }
static void call_left(void) { numbers[0] = saga_left(book, size, way); }
static void call_replay(void) { saga_replay(book, size, way, list, SAGA_TRANSACTIONS, &answer); }
static void call_mend(void) { saga_mend(book, size, bytes, SAGA_BOOK_BYTES, &answer, &mended); }
static void call_add(void) { numbers[0] = saga_add(book, size, &totals); }
static void call_share(void) { saga_share(&totals, &ratio); }
static void call_unpack(void) { saga_unpack(book, size, fields, SAGA_BOOK_BYTES, &answer); }
static void call_write(void) { saga_write(fields, count, bytes, SAGA_BOOK_BYTES, &answer); }
static void call_open(void) { saga_desk_open(&desk, book, size, way, &answer); }
static void call_ask(void) {
  numbers[0] = saga_desk_ask(&desk, SAGA_OPERATION, 4, 0, 1, 0) + saga_desk_ask(&desk, SAGA_COMMIT, 5, 0, 0, 0) + saga_desk_ask(&desk, SAGA_DELEGATE, 4, 5, 0, 0);
}
static void call_take(void) {
  static struct saga_desk other;
  other = desk;
  numbers[0] = saga_desk_take(&other, SAGA_OPERATION, 4, 0, 1, 0) + saga_desk_take(&other, SAGA_COMMIT, 5, 0, 0, 0) + saga_desk_take(&other, SAGA_ABORT, 6, 0, 0, 0);
}
static void call_phase(void) { numbers[0] = saga_desk_phase(&desk, 4); }
static void call_operation(void) { saga_desk_operation(&desk, 200, &operation); }
static void call_desk_next(void) { saga_desk_next(&desk, 0, &step); }
static void call_tally(void) { saga_desk_tally(&desk, &tally); }
static void call_pairs(void) { saga_desk_pairs(&desk, numbers); }
static void call_desk_replay(void) { saga_desk_replay(&desk, list, SAGA_TRANSACTIONS, &answer); }
static void call_line(void) {
  for (uint64_t k = 0; k < 400; k++)
    saga_desk_line(&desk, k, bytes, sizeof bytes, &answer);
}

static const struct {
  const char *name;
  void (*call)(void);
} calls[] = {
    {"saga_read", call_read},           {"saga_refused", call_refused},        {"saga_opening", call_opening},
    {"saga_listing", call_listing},     {"saga_next", call_next},              {"saga_left", call_left},
    {"saga_replay", call_replay},       {"saga_mend", call_mend},              {"saga_add", call_add},
    {"saga_share", call_share},         {"saga_unpack", call_unpack},          {"saga_write", call_write},
    {"saga_desk_open", call_open},      {"saga_desk_ask", call_ask},           {"saga_desk_take", call_take},
    {"saga_desk_phase", call_phase},    {"saga_desk_operation", call_operation}, {"saga_desk_next", call_desk_next},
    {"saga_desk_tally", call_tally},    {"saga_desk_pairs", call_pairs},       {"saga_desk_replay", call_desk_replay},
    {"saga_desk_line", call_line},
};
#define CALLS (sizeof calls / sizeof calls[0])

static size_t most[CALLS];

/* Every function on the book, in each way. */
static void try_all(void) {
  memset(fields, 0, sizeof fields);
  count = 0;
  for (size_t i = 0; i < size; i++)
    fields[count++] = book[i];
  for (way = 0; way < 4; way++) {
    saga_desk_open(&desk, book, size, way, &answer);
    for (size_t k = 0; k < CALLS; k++) {
      size_t depth = depth_of(calls[k].call);
      if (most[k] < depth)
        most[k] = depth;
    }
  }
}

int main(void) {
  static const uint8_t hand[] = {5, 4, 5, 0, 5, 5, 4, 0}, commit[] = {2, 4};
  static const uint8_t tables[] = {1, 0, 0, 0, 0};
  fill(hand, sizeof hand, 2000);
  try_all();
  fill(commit, sizeof commit, 4000);
  try_all();
  size = 0;
  put(tables, sizeof tables);
  try_all();
  size = 3;
  try_all();
  for (size_t k = 0; k < CALLS; k++)
    printf("%-20s %6llu bytes\n", calls[k].name, (unsigned long long)most[k]);
  return 0;
}
