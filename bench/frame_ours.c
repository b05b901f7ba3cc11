// The receiver in two uses: the library's call lift_receive (target/staticlib/liblift.a, as examples/archive writes it),
// and a loop in Rattle that keeps its table, which bench/build compiles.
#include "frames.h"

#include "../include/lift.h"

uint64_t bench_frames(const void *gateways, uint64_t numbers, const void *first, uint64_t first_count, const void *lap, uint64_t lap_count, uint64_t laps,
                      const uint8_t *bytes, uint64_t bytes_size, uint8_t *mem, uint64_t mem_size, uint8_t *out, uint64_t out_size);

static uint64_t begin(void *table, const uint64_t *gateways, size_t numbers) { return lift_begin_flat(table, gateways, numbers); }

static uint64_t receive_at(void *table, uint64_t time, const struct frame_call *c, const struct lent *l) {
  uint32_t a = lift_receive(table, time, c->frame.at, c->frame.size, c->contexts.at, c->contexts.size, l->mem.at, l->mem.size, l->out.at, l->out.size);
  return lift_kind(a) == LIFT_OUT ? OUT + lift_number(a) : lift_number(a);
}

#include "frame_run.h"

static uint64_t run_looped(void *table, const struct frame_run *r, const struct lent *l) {
  (void)table;
  return bench_frames(r->gateways, r->gateway_numbers, r->first.numbers, FRAME_NUMBERS * r->first.count, r->lap.numbers, FRAME_NUMBERS * r->lap.count,
                      r->laps, r->bytes.at, r->bytes.size, l->mem.at, l->mem.size, l->out.at, l->out.size);
}

const struct frame_kind library = {"the library", sizeof(lift_table), begin, receive, run};
const struct frame_kind looped_frames = {"ours in a loop", sizeof(lift_table), begin, NULL, run_looped};
