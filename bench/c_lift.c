// The plain C behind the library's face, so that tests/library.c answers lines over it and tests/calls.py holds it to the
// second reading, every byte of the slot memory too:
//
//   cc -std=gnu11 -O2 -DMARKS='"plain.c"' bench/c_lift.c tests/library.c -o target/bench/plain-calls     (or "packed.c")
//   tests/calls.py --table target/bench/plain-calls --counts --count 3000
//
// There is one table, and the caller's stays as it is.
#define FRAMES
#include MARKS

#include "../include/lift.h"

static struct table one;

uint32_t lift_begin_flat(lift_table *t, const uint64_t *gateways, lift_len numbers) {
  (void)t;
  return (uint32_t)begin(&one, gateways, numbers);
}

uint32_t lift_receive(lift_table *t, uint64_t time, const uint8_t *frame, lift_len frame_len, const uint8_t *contexts, lift_len contexts_len,
                      uint8_t *mem, lift_len mem_len, uint8_t *out, lift_len out_len) {
  (void)t;
  struct frame_call c = {time, {(uint8_t *)frame, frame_len}, {(uint8_t *)contexts, contexts_len}};
  uint64_t a = receive(&one, &c, &(struct lent){{mem, mem_len}, {out, out_len}});
  if (a == KEPT) return LIFT_KEPT << 16;
  return (uint32_t)(a > OUT ? LIFT_OUT << 16 | (a - OUT) : LIFT_REFUSED << 16 | a);
}

lift_len lift_free(const lift_table *t) {
  (void)t;
  return free_slots(&one);
}

lift_len lift_held(const lift_table *t, uint64_t kind, uint64_t value) {
  (void)t;
  return held(&one, &(struct source){{(uint8_t)kind, value}, (uint32_t)(kind >> 16)});
}
