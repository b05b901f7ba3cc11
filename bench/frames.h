// What the benchmark of the call on a frame compares: the same rules behind one call.
#ifndef FRAMES_H
#define FRAMES_H
#include "bench.h"

// A frame that comes at a time; of a run, the lap's number is added to the time.
struct frame_call {
  uint64_t time;
  struct slice frame, contexts;
};

// The refusals before those of bench.h, and after them.
enum { CUT_SHORT = 1, OTHER_BITS = 2, BAD_MODE = 3, BAD_LENGTH = 4, NO_CONTEXT = 5, NO_ADDRESS = 6, NOT_TAKEN = 13, BAD_GATEWAYS = 14 };

// Calls one after the other.
struct frame_calls {
  const struct frame_call *of;
  size_t count;
  const uint64_t *numbers; // the same calls as the loop in Rattle reads them: FRAME_NUMBERS a call
};
enum { FRAME_NUMBERS = 5 };

// A run: a table of these gateways (two numbers each, as the C face takes them), the calls of `first`, then those of `lap` so
// many times. Its answers come back as one number in which their order counts: each times its place, all added up.
struct frame_run {
  const uint64_t *gateways;
  size_t gateway_numbers;
  struct slice bytes; // all frames and contexts
  struct frame_calls first, lap;
  size_t laps;
};

struct frame_kind {
  const char *name;
  size_t size;                                                              // of a table
  uint64_t (*begin)(void *table, const uint64_t *gateways, size_t numbers); // 0 or 14
  uint64_t (*receive)(void *table, const struct frame_call *call, const struct lent *lent);
  uint64_t (*run)(void *table, const struct frame_run *run, const struct lent *lent);
};

extern const struct frame_kind library, looped_frames, plain_frames, packed_frames;
#endif
