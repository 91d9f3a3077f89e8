/* How deep the stack goes when one event is judged, beyond the numbers that the caller lends: by paint
   (painted.h). */
#include <stddef.h>
#include <stdint.h>
#include <string.h>

#include "painted.h"

int printf(const char *words, ...);

/* The judge as a till program calls it (crates/probe): the sheet and the state are lent. */
uint64_t probe_take(const uint32_t sheet[195], uint32_t transactions[64], uint32_t ops[256], uint64_t n, uint64_t code, uint64_t a,
                    uint64_t b, uint64_t c);

/* What numbers of a sheet and of a state stand for (crates/sheet, rules and cells). */
enum { PLAIN = 1, SAGA = 2, STEP = 3, UNDO = 4, OBJECTS = 192, OWNED = 194 };
enum { IDLE = 0, ACTIVE = 1, COMMITTED = 2, ABORTED = 3 };

static uint32_t sort_of(uint32_t sort, uint32_t first, uint32_t steps, uint32_t which) {
  return sort + 8 * first + 512 * steps + 32768 * which;
}

/* An active write of t on an object. */
static uint32_t write_of(uint32_t t, uint32_t object) { return object + 32 + 64 + 256 * t; }

static uint32_t sheet[195], transactions[64], ops[256];
static uint64_t event[4], count, answer;

static void __attribute__((noinline)) judged(void) {
  answer = probe_take(sheet, transactions, ops, count, event[0], event[1], event[2], event[3]);
}

/* 64 plain transactions, all active, one object, and 256 writes of transaction 0 but for the one at `place`, which is transaction 1's. */
static void busy(size_t place) {
  memset(sheet, 0, sizeof sheet);
  sheet[OBJECTS] = 1;
  for (size_t t = 0; t < 64; t++) {
    sheet[t] = sort_of(PLAIN, 0, 0, 0);
    transactions[t] = ACTIVE;
  }
  for (size_t q = 0; q < 256; q++)
    ops[q] = write_of(q == place ? 1 : 0, 0);
  count = 256;
}

/* A saga of two steps that was given up, its first step done and its undo, number 3, active; 60 plain transactions. Transaction 4 has written
   object 0, the undo after it, and the others object 1. */
static void undoing(void) {
  busy(256);
  sheet[0] = sort_of(SAGA, 0, 2, 0);
  sheet[1] = sort_of(STEP, 0, 2, 1);
  sheet[2] = sort_of(STEP, 0, 2, 2);
  sheet[3] = sort_of(UNDO, 0, 2, 1);
  sheet[OBJECTS] = 2;
  sheet[OWNED] = 4;
  transactions[0] = ABORTED;
  transactions[1] = COMMITTED;
  transactions[2] = IDLE;
  ops[0] = write_of(4, 0);
  ops[1] = write_of(3, 0);
  for (uint32_t q = 2; q < 256; q++)
    ops[q] = write_of(5 + q % 59, 1);
  count = 255;
}

static void tell(const char *name, uint64_t code, uint64_t a, uint64_t b, uint64_t c) {
  event[0] = code;
  event[1] = a;
  event[2] = b;
  event[3] = c;
  size_t depth = depth_of(judged);
  printf("%-44s answer %2llu   %6llu bytes\n", name, (unsigned long long)answer, (unsigned long long)depth);
}

int main(void) {
  busy(255);
  tell("begin, refused by 10", 1, 0, 0, 0);
  tell("operation, refused by 18", 4, 0, 0, 0);
  tell("one operation committed", 6, 0, 8, 0);
  tell("one operation aborted", 7, 0, 9, 0);
  tell("commit, accepted, nothing before it", 2, 0, 0, 0);
  tell("commit, accepted, one before it", 2, 1, 0, 0);
  busy(255);
  tell("delegation", 5, 0, 1, 7);
  tell("abort", 3, 0, 0, 0);
  busy(1);
  tell("commit, refused by 16", 2, 0, 0, 0);
  tell("one operation, refused by 16", 6, 0, 7, 0);
  undoing();
  tell("delegation while an undo is active", 5, 7, 8, 2);
  tell("operation, refused by 22", 4, 4, 0, 0);
  tell("operation while an undo is active", 4, 6, 1, 0);
  undoing();
  transactions[10] = IDLE;
  tell("spawn", 8, 9, 10, 0);
  tell("a child's commit while an undo is active", 2, 10, 0, 0);
  busy(255);
  transactions[10] = IDLE;
  tell("spawn while no undo is active", 8, 9, 10, 0);
  tell("a child's commit", 2, 10, 0, 0);
  return 0;
}
