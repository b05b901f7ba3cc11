// What the benchmark compares: three tables behind one call.
#ifndef BENCH_H
#define BENCH_H
#include <stdbool.h>
#include <stddef.h>
#include <stdint.h>

// A slice. Compiled Rattle takes one as two arguments, where it lies and how long it is.
struct slice {
  uint8_t *at;
  size_t size;
};

// A part that comes at a time (of a run, at the lap's), from a gateway's short address to a short address.
struct call {
  uint64_t time;
  uint64_t src, dst;
  uint16_t size, tag;
  uint8_t offset; // in units of 8 bytes
  bool elided;    // whether the checksum was elided
  struct slice part;
};

// The memory that is lent to a call.
struct lent {
  struct slice mem, out;
};

// Answers: 0 the part is kept; 1 to 17 the refusal; 256 + L a datagram of L bytes stands at the output's start.
enum { KEPT = 0, NO_ROOM = 7, EARLIER = 8, NOT_GATEWAY = 9, BAD_PART = 10, CLASH = 11, NO_SLOT = 12, WRONG_SUM = 17, OUT = 256 };

// A run of calls: a fresh table, the calls of `first` at time 0, then those of `lap` at times 1, 2 and so on.
struct calls {
  const struct call *of;
  size_t count;
  const uint64_t *numbers; // the same calls as the loop in Rattle reads them: NUMBERS a call
};
enum { NUMBERS = 8 };

struct table_kind {
  const char *name;
  size_t size;                // of a table
  void (*fresh)(void *table); // gateways short 0001 to 0004
  uint64_t (*receive)(void *table, const struct call *call, const struct lent *lent);
  uint64_t (*run)(void *table, const struct calls *first, const struct calls *lap, size_t laps, const struct lent *lent); // the sum of the answers
};

// The bytes that the parts of a run are taken from.
extern uint8_t pool[8 * 2048];

extern const struct table_kind looped, referred, plain, packed;
#endif
