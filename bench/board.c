/* How long one event takes, judged alone and judged with the sum of what is left kept beside the state: sagas go through, or are given up before their last step and undone. For
   x86-64. */
#include <stddef.h>
#include <stdint.h>
#include <string.h>

int printf(const char *words, ...);

struct timespec {
  long seconds, nanoseconds;
};
int clock_gettime(int clock, struct timespec *time);

/* The judge as a till program calls it, and as the program of a board does (crates/probe): the sheet and the state are lent. */
uint64_t probe_take(const uint32_t sheet[195], uint32_t transactions[64], uint32_t ops[256], uint64_t n, uint64_t code, uint64_t a,
                    uint64_t b, uint64_t c);
uint64_t probe_board(const uint32_t sheet[195], uint32_t transactions[64], uint32_t ops[256], uint64_t board[2], uint64_t code, uint64_t a,
                     uint64_t b, uint64_t c);

/* What numbers of a sheet stand for (crates/sheet). */
enum { SAGA = 2, STEP = 3, UNDO = 4, OBJECTS = 192, OWNED = 194 };
enum { BEGIN = 1, COMMIT = 2, ABORT = 3, WRITE = 4 };
enum { ROUNDS = 200, RUNS = 15 };

static uint32_t sheet[195], transactions[64], ops[256];
static uint64_t board[2];

static struct {
  uint64_t code, a, b;
} events[512];
static size_t many;

static void add(uint64_t code, uint64_t a, uint64_t b) {
  events[many].code = code;
  events[many].a = a;
  events[many].b = b;
  many++;
}

/* A step or an undo: it begins, writes one object so many times and commits. */
static void add_step(uint64_t t, uint64_t object, uint32_t writes) {
  add(BEGIN, t, 0);
  for (uint32_t k = 0; k < writes; k++)
    add(WRITE, t, object);
  add(COMMIT, t, 0);
}

/* Saga `index` of n steps, on an object of its own. */
static void add_saga(uint32_t index, uint32_t n, int given_up, uint32_t writes) {
  uint32_t first = 2 * n * index;
  for (uint32_t k = 0; k < 2 * n; k++)
    sheet[first + k] = (k == 0 ? SAGA : k <= n ? STEP : UNDO) + 8 * first + 512 * n + 32768 * (k == 0 ? 0 : k <= n ? k : k - n);
  add(BEGIN, first, 0);
  for (uint32_t i = 1; i < n; i++)
    add_step(first + i, index, writes);
  if (given_up) {
    add(ABORT, first, 0);
    for (uint32_t i = n - 1; i > 0; i--)
      add_step(first + n + i, index, writes);
  } else {
    add_step(first + n, index, writes);
    add(COMMIT, first, 0);
  }
}

static void fresh(void) {
  memset(transactions, 0, sizeof transactions);
  memset(ops, 0, sizeof ops);
  board[0] = board[1] = 0;
}

static uint64_t alone(void) {
  uint64_t accepted = 0, n = 0;
  for (size_t i = 0; i < many; i++) {
    uint64_t refusal = probe_take(sheet, transactions, ops, n, events[i].code, events[i].a, events[i].b, 0);
    accepted += refusal == 0;
    n += refusal == 0 && events[i].code == WRITE;
  }
  return accepted;
}

static uint64_t with_the_sum(void) {
  uint64_t accepted = 0;
  for (size_t i = 0; i < many; i++)
    accepted += probe_board(sheet, transactions, ops, board, events[i].code, events[i].a, events[i].b, 0) == 0;
  return accepted;
}

/* The time of one event of a run, in hundredths of a nanosecond, and whether all were accepted. */
static uint64_t time_of(uint64_t (*run)(void), int *all) {
  struct timespec start, end;
  clock_gettime(1, &start);
  for (int k = 0; k < ROUNDS; k++) {
    fresh();
    *all &= run() == many;
  }
  clock_gettime(1, &end);
  uint64_t took = (uint64_t)(end.seconds - start.seconds) * 1000000000u + (uint64_t)(end.nanoseconds - start.nanoseconds);
  return took * 100 / ((uint64_t)ROUNDS * many);
}

/* Sagas of n steps, as many as a book may have; the two ways in turns, the best of all runs. */
static void tell(uint32_t n, int given_up, uint32_t writes) {
  uint64_t without = UINT64_MAX, with = UINT64_MAX;
  int all = 1;
  memset(sheet, 0, sizeof sheet);
  many = 0;
  uint32_t sagas = 64 / (2 * n) < 16 ? 64 / (2 * n) : 16;
  sheet[OBJECTS] = 32;
  sheet[OWNED] = sagas * 2 * n;
  for (uint32_t i = 0; i < sagas; i++)
    add_saga(i, n, given_up, writes);
  for (int r = 0; r < RUNS; r++) {
    uint64_t a = time_of(alone, &all), b = time_of(with_the_sum, &all);
    without = a < without ? a : without;
    with = b < with ? b : with;
  }
  printf("%2u sagas of %2u steps, %s, %u writes each   %4llu events %s   %5llu ns   with the sum %5llu ns   %llu.%02llu times   left %llu\n", sagas, n,
         given_up ? "given up  " : "go through", writes, (unsigned long long)many, all ? "accepted" : "NOT ALL ACCEPTED",
         (unsigned long long)(without / 100), (unsigned long long)(with / 100), (unsigned long long)(with / without),
         (unsigned long long)(with * 100 / without % 100), (unsigned long long)board[1]);
}

int main(void) {
  for (uint32_t n = 2; n <= 16; n *= 2) {
    tell(n, 0, 1);
    tell(n, 1, 1);
    tell(n, 0, 8);
    tell(n, 1, 4);
  }
  return 0;
}
