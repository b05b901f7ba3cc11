// The table of crates/words, in two uses that bench/build compiles: kept by a loop in Rattle, and kept by C behind a
// reference. When the C face has a call of its own, only the second changes.
#include "bench.h"

enum { TABLE_SIZE = 1192 };

void bench_fresh(void *table);
uint64_t bench_receive(void *table, uint64_t time, uint64_t src, uint64_t dst, uint16_t size, uint16_t tag, uint8_t offset, bool elided,
                       const uint8_t *part, uint64_t part_size, uint8_t *mem, uint64_t mem_size, uint8_t *out, uint64_t out_size);
uint64_t bench_run(const void *first, uint64_t first_count, const void *lap, uint64_t lap_count, uint64_t laps, const uint8_t *pool, uint64_t pool_size,
                   uint8_t *mem, uint64_t mem_size, uint8_t *out, uint64_t out_size);

static uint64_t receive_at(void *table, uint64_t time, const struct call *c, const struct lent *l) {
  return bench_receive(table, time, c->src, c->dst, c->size, c->tag, c->offset, c->elided, c->part.at, c->part.size, l->mem.at, l->mem.size,
                       l->out.at, l->out.size);
}

static uint64_t receive(void *table, const struct call *c, const struct lent *l) { return receive_at(table, c->time, c, l); }

static uint64_t run_referred(void *table, const struct calls *first, const struct calls *lap, size_t laps, const struct lent *l) {
  uint64_t sum = 0;
  bench_fresh(table);
  for (size_t i = 0; i < first->count; i++) sum += receive_at(table, 0, &first->of[i], l);
  for (size_t k = 1; k <= laps; k++)
    for (size_t i = 0; i < lap->count; i++) sum += receive_at(table, k, &lap->of[i], l);
  return sum;
}

static uint64_t run_looped(void *table, const struct calls *first, const struct calls *lap, size_t laps, const struct lent *l) {
  (void)table;
  return bench_run(first->numbers, NUMBERS * first->count, lap->numbers, NUMBERS * lap->count, laps, pool, sizeof pool, l->mem.at, l->mem.size, l->out.at,
                   l->out.size);
}

const struct table_kind looped = {"ours", TABLE_SIZE, bench_fresh, receive, run_looped};
const struct table_kind referred = {"ours behind a reference", TABLE_SIZE, bench_fresh, receive, run_referred};
